//! Why a call is refused.
use crate::sys;
use std::error::Error;
use std::fmt;

/// Why a call was refused: one variant for each status of the library.
#[derive(Clone, Copy, Debug, PartialEq, Eq)]
#[non_exhaustive]
pub enum Refused {
    /// There is nothing in an object that the call takes a value from.
    Empty,
    /// An object has a value of another kind.
    WrongKind,
    /// Out of memory. Nothing has changed: the same call can be made again.
    OutOfMemory,
    /// Bytes that are to be a text are no UTF-8.
    NoText,
    /// A number is none of those that stand for a mode, a kind or a role.
    NoSuchNumber,
    /// A buffer of the caller's is too small. The size that is needed was written.
    BufferTooSmall,
    /// A list has no entry of that number, or a frame or an entry is of another kind.
    NoSuchEntry,
    /// The link is not in a state for this call, or a handle or a tag is missing.
    IllegalState,
    /// The receiver has granted no more credit: send after its next flow.
    CreditMissing,
    /// A delivery with this tag is pending.
    TagPending,
    /// The frame limit leaves no room for the transfer.
    NoRoom,
    /// The peer has detached the link.
    RemoteDetached,
    /// The peer has detached the link with an error.
    RemoteDetachedWithError,
    /// The peer has closed the link.
    RemoteClosed,
    /// The peer has closed the link with an error.
    RemoteClosedWithError,
    /// Another frame arrived where only a detach may, or the session has stopped without a reason.
    ExpectImmediateDetach,
    /// The session has stopped.
    SessionStopped,
    /// The session is not mapped.
    SessionNotMapped,
    /// Another frame arrived in place of the attach.
    NonAttachFrameReceived,
    /// Another link of the session has the same name.
    DuplicatedLinkName,
    /// The target is of a kind that the link does not take.
    CoordinatorIsNotImplemented,
    /// The peer has no target.
    IncomingTargetIsNone,
    /// The two endpoints do not agree on when the sender settles.
    SndSettleModeNotSupported,
    /// The peer asks for a dynamic source and gives its address.
    SourceAddressIsSomeWhenDynamicIsTrue,
    /// The peer has made a dynamic target and does not give its address.
    TargetAddressIsNoneWhenDynamicIsTrue,
    /// A terminus that is not dynamic has properties of a dynamic node.
    DynamicNodePropertiesIsSomeWhenDynamicIsFalse,
    /// The attach is larger than a frame, even if it states no unsettled delivery.
    AttachTooLarge,
    /// The peer has no source.
    IncomingSourceIsNone,
    /// The sender does not state its initial delivery-count.
    InitialDeliveryCountIsNone,
    /// Filters that were asked for are not in place.
    DesiredFilterNotSupported,
    /// The peer has made a dynamic source and does not give its address.
    SourceAddressIsNoneWhenDynamicIsTrue,
    /// The peer asks for a dynamic target and gives its address.
    TargetAddressIsSomeWhenDynamicIsTrue,
    /// The link has no output handle: it is not attached.
    UnattachedHandle,
    /// A transfer arrived at a sender.
    TransferFrameToSender,
    /// There is less link-credit than the delivery takes.
    TransferLimitExceeded,
    /// The first transfer of a delivery has no delivery id.
    DeliveryIdIsNone,
    /// The first transfer of a delivery has no delivery tag.
    DeliveryTagIsNone,
    /// The transfer asks for a receiver settle mode that the link does not have.
    IllegalRcvSettleModeInTransfer,
    /// A field of the transfer is not that of its delivery.
    InconsistentFieldInMultiFrameDelivery,
    /// The payload is too long to be counted.
    PayloadTooLong,
    /// The bytes of a delivery could not be decoded as a message.
    MessageDecode,
    /// No delivery with this tag is kept, or it is settled.
    UnknownTag,
    /// The last transfer of the delivery has not arrived.
    NotComplete,
    /// The delivery was taken before.
    AlreadyTaken,
    /// The link is not attached.
    NotAttached,
    /// The delivery's bytes are no message of this kind. The delivery counts as taken: dispose of it, as rejected.
    Undecoded,
    /// The delivery was not taken.
    NotTaken,
    /// The sender has not resumed the delivery since the link was attached again.
    NotResumed,
    /// A registration below that number is still pending: the one with this number is the first.
    StillPending(usize),
    /// A status that this version does not know.
    Other(u32),
}

// The number of each status, but of the two that carry one.
const STATUSES: [(u32, Refused); 48] = [
    (sys::EMPTY, Refused::Empty),
    (sys::WRONG_KIND, Refused::WrongKind),
    (sys::OUT_OF_MEMORY, Refused::OutOfMemory),
    (sys::NO_TEXT, Refused::NoText),
    (sys::NO_SUCH_NUMBER, Refused::NoSuchNumber),
    (sys::BUFFER_TOO_SMALL, Refused::BufferTooSmall),
    (sys::NO_SUCH_ENTRY, Refused::NoSuchEntry),
    (sys::ILLEGAL_STATE, Refused::IllegalState),
    (sys::CREDIT_MISSING, Refused::CreditMissing),
    (sys::TAG_PENDING, Refused::TagPending),
    (sys::NO_ROOM, Refused::NoRoom),
    (sys::REMOTE_DETACHED, Refused::RemoteDetached),
    (sys::REMOTE_DETACHED_WITH_ERROR, Refused::RemoteDetachedWithError),
    (sys::REMOTE_CLOSED, Refused::RemoteClosed),
    (sys::REMOTE_CLOSED_WITH_ERROR, Refused::RemoteClosedWithError),
    (sys::EXPECT_IMMEDIATE_DETACH, Refused::ExpectImmediateDetach),
    (sys::SESSION_STOPPED, Refused::SessionStopped),
    (sys::SESSION_NOT_MAPPED, Refused::SessionNotMapped),
    (sys::NON_ATTACH_FRAME_RECEIVED, Refused::NonAttachFrameReceived),
    (sys::DUPLICATED_LINK_NAME, Refused::DuplicatedLinkName),
    (
        sys::COORDINATOR_IS_NOT_IMPLEMENTED,
        Refused::CoordinatorIsNotImplemented,
    ),
    (sys::INCOMING_TARGET_IS_NONE, Refused::IncomingTargetIsNone),
    (sys::SND_SETTLE_MODE_NOT_SUPPORTED, Refused::SndSettleModeNotSupported),
    (
        sys::SOURCE_ADDRESS_IS_SOME_WHEN_DYNAMIC_IS_TRUE,
        Refused::SourceAddressIsSomeWhenDynamicIsTrue,
    ),
    (
        sys::TARGET_ADDRESS_IS_NONE_WHEN_DYNAMIC_IS_TRUE,
        Refused::TargetAddressIsNoneWhenDynamicIsTrue,
    ),
    (
        sys::DYNAMIC_NODE_PROPERTIES_IS_SOME_WHEN_DYNAMIC_IS_FALSE,
        Refused::DynamicNodePropertiesIsSomeWhenDynamicIsFalse,
    ),
    (sys::ATTACH_TOO_LARGE, Refused::AttachTooLarge),
    (sys::INCOMING_SOURCE_IS_NONE, Refused::IncomingSourceIsNone),
    (sys::INITIAL_DELIVERY_COUNT_IS_NONE, Refused::InitialDeliveryCountIsNone),
    (sys::DESIRED_FILTER_NOT_SUPPORTED, Refused::DesiredFilterNotSupported),
    (
        sys::SOURCE_ADDRESS_IS_NONE_WHEN_DYNAMIC_IS_TRUE,
        Refused::SourceAddressIsNoneWhenDynamicIsTrue,
    ),
    (
        sys::TARGET_ADDRESS_IS_SOME_WHEN_DYNAMIC_IS_TRUE,
        Refused::TargetAddressIsSomeWhenDynamicIsTrue,
    ),
    (sys::UNATTACHED_HANDLE, Refused::UnattachedHandle),
    (sys::TRANSFER_FRAME_TO_SENDER, Refused::TransferFrameToSender),
    (sys::TRANSFER_LIMIT_EXCEEDED, Refused::TransferLimitExceeded),
    (sys::DELIVERY_ID_IS_NONE, Refused::DeliveryIdIsNone),
    (sys::DELIVERY_TAG_IS_NONE, Refused::DeliveryTagIsNone),
    (
        sys::ILLEGAL_RCV_SETTLE_MODE_IN_TRANSFER,
        Refused::IllegalRcvSettleModeInTransfer,
    ),
    (
        sys::INCONSISTENT_FIELD_IN_MULTI_FRAME_DELIVERY,
        Refused::InconsistentFieldInMultiFrameDelivery,
    ),
    (sys::PAYLOAD_TOO_LONG, Refused::PayloadTooLong),
    (sys::MESSAGE_DECODE, Refused::MessageDecode),
    (sys::UNKNOWN_TAG, Refused::UnknownTag),
    (sys::NOT_COMPLETE, Refused::NotComplete),
    (sys::ALREADY_TAKEN, Refused::AlreadyTaken),
    (sys::NOT_ATTACHED, Refused::NotAttached),
    (sys::UNDECODED, Refused::Undecoded),
    (sys::NOT_TAKEN, Refused::NotTaken),
    (sys::NOT_RESUMED, Refused::NotResumed),
];

impl Refused {
    /// The refusal with this status.
    pub(crate) fn of(status: u32) -> Refused {
        if status == sys::STILL_PENDING {
            return Refused::StillPending(0);
        }
        let known = STATUSES.iter().find(|(number, _)| *number == status);
        known.map_or(Refused::Other(status), |(_, refused)| *refused)
    }

    /// The number of the status, as the C header has it.
    pub fn status(self) -> u32 {
        match self {
            Refused::StillPending(_) => sys::STILL_PENDING,
            Refused::Other(status) => status,
            refused => {
                let known = STATUSES.iter().find(|(_, one)| *one == refused);
                known.map_or(sys::OK, |(number, _)| *number)
            }
        }
    }
}

impl fmt::Display for Refused {
    fn fmt(&self, f: &mut fmt::Formatter<'_>) -> fmt::Result {
        write!(f, "refused: {self:?}")
    }
}

impl Error for Refused {}

#[cfg(test)]
mod tests {
    use super::Refused;

    #[test]
    fn each_status_has_one_refusal() {
        for status in 0..1000 {
            assert_eq!(Refused::of(status).status(), status);
            let is_known = (1..=7).contains(&status) || (10..=51).contains(&status);
            assert_eq!(matches!(Refused::of(status), Refused::Other(_)), !is_known);
        }
        assert_eq!(Refused::of(u32::MAX), Refused::Other(u32::MAX));
        assert_eq!(Refused::StillPending(9).status(), 51);
    }
}
