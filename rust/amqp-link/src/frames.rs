//! What is sent and what arrives: flows, transfers, dispositions and detaches.
use crate::calls;
use crate::held::{both, done, HasHeld, Held};
use crate::numbers::{ReceiverSettleMode, Role};
use crate::refused::Refused;
use crate::state::{DeliveryState, Error};
use crate::sys;

/// The part of a flow that concerns a link. Properties do not cross.
///
/// The default is a flow at handle 0 without any other field.
#[derive(Clone, Copy, Debug, Default, PartialEq, Eq)]
pub struct Flow {
    /// The handle of the link at the endpoint that sends the flow.
    pub handle: u32,
    /// The sender's delivery-count; a receiver that knows none leaves it out.
    pub delivery_count: Option<u32>,
    /// The link-credit, as the endpoint that sends the flow knows it.
    pub link_credit: Option<u32>,
    /// How many deliveries wait at the sender.
    pub available: Option<u32>,
    /// Whether the sender is to use up its credit at once.
    pub drain: bool,
    /// Whether the peer is asked to reply with its own flow state.
    pub echo: bool,
}

impl Flow {
    pub(crate) fn given(&self) -> sys::Flow {
        sys::Flow {
            handle: self.handle,
            delivery_count: self.delivery_count.unwrap_or(0),
            link_credit: self.link_credit.unwrap_or(0),
            available: self.available.unwrap_or(0),
            has_delivery_count: self.delivery_count.is_some(),
            has_link_credit: self.link_credit.is_some(),
            has_available: self.available.is_some(),
            drain: self.drain,
            echo: self.echo,
        }
    }

    pub(crate) fn of(fields: &sys::Flow) -> Flow {
        Flow {
            handle: fields.handle,
            delivery_count: fields.has_delivery_count.then_some(fields.delivery_count),
            link_credit: fields.has_link_credit.then_some(fields.link_credit),
            available: fields.has_available.then_some(fields.available),
            drain: fields.drain,
            echo: fields.echo,
        }
    }

    /// The flow that a call writes, if it says that there is one.
    pub(crate) fn written(call: impl FnOnce(&mut sys::Flow, &mut bool) -> u32) -> Result<Option<Flow>, Refused> {
        let (mut flow, mut is_there) = (sys::Flow::default(), false);
        done(call(&mut flow, &mut is_there))?;
        Ok(is_there.then(|| Flow::of(&flow)))
    }
}

/// The transfer performative: the fields of one frame of a delivery, without its payload.
///
/// The default is a transfer at handle 0 without any other field.
#[derive(Clone, Debug, Default, PartialEq, Eq)]
pub struct Transfer {
    /// The handle of the link at the endpoint that sends the frame.
    pub handle: u32,
    /// The delivery-id; the first transfer has it, others may leave it out.
    pub delivery_id: Option<u32>,
    /// The delivery-tag; the first transfer has it, others may leave it out.
    pub delivery_tag: Option<Vec<u8>>,
    /// The format of the message; the first transfer has it, others may leave it out.
    pub message_format: Option<u32>,
    /// Whether the delivery is settled at the sender.
    pub settled: Option<bool>,
    /// Whether more transfers of the delivery follow.
    pub more: bool,
    /// When the receiver is to settle this delivery, if the link leaves that open.
    pub rcv_settle_mode: Option<ReceiverSettleMode>,
    /// The state of the delivery at the sender; a rejection's error does not cross here.
    pub state: Option<DeliveryState>,
    /// Whether this resumes a delivery of an earlier attachment.
    pub resume: bool,
    /// Whether the delivery is aborted: the receiver forgets what arrived of it.
    pub aborted: bool,
    /// Whether the receiver may delay its disposition.
    pub batchable: bool,
}

impl Transfer {
    pub(crate) fn given(&self) -> sys::Transfer {
        sys::Transfer {
            state: DeliveryState::fields(self.state.as_ref()),
            handle: self.handle,
            delivery_id: self.delivery_id.unwrap_or(0),
            message_format: self.message_format.unwrap_or(0),
            rcv_settle_mode: self.rcv_settle_mode.unwrap_or_default().number(),
            has_delivery_id: self.delivery_id.is_some(),
            has_tag: self.delivery_tag.is_some(),
            has_message_format: self.message_format.is_some(),
            has_settled: self.settled.is_some(),
            settled: self.settled.unwrap_or(false),
            more: self.more,
            has_rcv_settle_mode: self.rcv_settle_mode.is_some(),
            resume: self.resume,
            aborted: self.aborted,
            batchable: self.batchable,
        }
    }

    fn of(fields: &sys::Transfer, tag: Vec<u8>) -> Result<Transfer, Refused> {
        let rcv_settle_mode = match fields.has_rcv_settle_mode {
            true => Some(ReceiverSettleMode::of(fields.rcv_settle_mode)?),
            false => None,
        };
        Ok(Transfer {
            handle: fields.handle,
            delivery_id: fields.has_delivery_id.then_some(fields.delivery_id),
            delivery_tag: fields.has_tag.then_some(tag),
            message_format: fields.has_message_format.then_some(fields.message_format),
            settled: fields.has_settled.then_some(fields.settled),
            more: fields.more,
            rcv_settle_mode,
            state: DeliveryState::without_error(&fields.state)?,
            resume: fields.resume,
            aborted: fields.aborted,
            batchable: fields.batchable,
        })
    }
}

/// A transfer with its part of the delivery's payload, in one frame.
#[derive(Clone, Debug, Default, PartialEq, Eq)]
pub struct LinkTransfer {
    /// The fields of the transfer.
    pub performative: Transfer,
    /// Its part of the payload.
    pub payload: Vec<u8>,
}

/// The state of deliveries, by their delivery-ids.
#[derive(Clone, Debug, PartialEq, Eq)]
pub struct Disposition {
    /// The role of the endpoint that sends it.
    pub role: Role,
    /// The delivery-id of the first delivery.
    pub first: u32,
    /// The delivery-id of the last delivery; none if it is the first.
    pub last: Option<u32>,
    /// Whether the deliveries are settled at this endpoint.
    pub settled: bool,
    /// The state of the deliveries at this endpoint.
    pub state: Option<DeliveryState>,
    /// Whether the peer may delay its own disposition.
    pub batchable: bool,
}

/// The detach performative.
#[derive(Clone, Debug, PartialEq, Eq)]
pub struct Detach {
    /// The handle of the link at the endpoint that sends this.
    pub handle: u32,
    /// Whether the link is closed for good.
    pub closed: bool,
    /// The error, if there is one.
    pub error: Option<Error>,
}

impl Detach {
    /// A detach as calls take it, and the texts of its error.
    pub(crate) fn given(&self) -> (sys::Detach, (&[u8], &[u8])) {
        let fields = sys::Detach {
            handle: self.handle,
            closed: self.closed,
            has_error: self.error.is_some(),
            has_description: Error::has_description(self.error.as_ref()),
        };
        (fields, Error::texts(self.error.as_ref()))
    }
}

/// A frame of a link, to send.
#[derive(Clone, Debug, PartialEq, Eq)]
#[non_exhaustive]
pub enum LinkFrame {
    /// The first transfer of a delivery. The session gives it its delivery id, and keeps its tag.
    FirstTransfer(LinkTransfer),
    /// A further transfer of a delivery. It gets no delivery id.
    TransferContinuation(LinkTransfer),
    /// An endpoint states the state of deliveries.
    Disposition(Disposition),
    /// An endpoint detaches from the link.
    Detach(Detach),
    /// A frame of another kind, by its number. No call of this version gives one.
    Other(u32),
}

/// Frames to send, in their order.
#[derive(Debug)]
#[must_use = "frames are to be sent"]
pub struct Frames(pub(crate) Held);

impl HasHeld for Frames {
    fn held(&self) -> &Held {
        &self.0
    }
}

impl Frames {
    /// How many there are.
    #[doc(alias = "amqp_frames_count")]
    pub fn len(&self) -> usize {
        calls::amqp_frames_count(&self.0)
    }

    /// Whether there are none.
    pub fn is_empty(&self) -> bool {
        self.len() == 0
    }

    /// The frames, in the order in which to send them.
    pub fn iter(&self) -> impl Iterator<Item = Result<LinkFrame, Refused>> + '_ {
        (0..self.len()).map(|number| self.at(number))
    }

    /// The frame with this number, from 0. `NoSuchEntry` past the last.
    #[doc(alias = "amqp_frames_kind")]
    #[doc(alias = "amqp_frames_transfer")]
    #[doc(alias = "amqp_frames_disposition")]
    #[doc(alias = "amqp_frames_detach")]
    #[doc(alias = "amqp_frames_error")]
    pub fn at(&self, number: usize) -> Result<LinkFrame, Refused> {
        let mut kind = 0;
        done(calls::amqp_frames_kind(&self.0, number, &mut kind))?;
        Ok(match kind {
            sys::FRAME_FIRST_TRANSFER => LinkFrame::FirstTransfer(self.transfer(number)?),
            sys::FRAME_TRANSFER => LinkFrame::TransferContinuation(self.transfer(number)?),
            sys::FRAME_DISPOSITION => LinkFrame::Disposition(self.disposition(number)?),
            sys::FRAME_DETACH => LinkFrame::Detach(self.detach(number)?),
            kind => LinkFrame::Other(kind),
        })
    }

    fn transfer(&self, number: usize) -> Result<LinkTransfer, Refused> {
        let mut fields = sys::Transfer::default();
        let (tag, payload) = both(32, |tag, payload, sizes| {
            calls::amqp_frames_transfer(&self.0, number, &mut fields, tag, payload, sizes)
        })?;
        Ok(LinkTransfer {
            performative: Transfer::of(&fields, tag)?,
            payload,
        })
    }

    fn disposition(&self, number: usize) -> Result<Disposition, Refused> {
        let mut fields = sys::Disposition::default();
        done(calls::amqp_frames_disposition(&self.0, number, &mut fields))?;
        Ok(Disposition {
            role: Role::of(fields.role)?,
            first: fields.first,
            last: fields.has_last.then_some(fields.last),
            settled: fields.settled,
            state: DeliveryState::read(&fields.state, calls::amqp_frames_error, &self.0, number)?,
            batchable: fields.batchable,
        })
    }

    fn detach(&self, number: usize) -> Result<Detach, Refused> {
        let mut fields = sys::Detach::default();
        done(calls::amqp_frames_detach(&self.0, number, &mut fields))?;
        let error = match fields.has_error {
            true => Some(Error::read(
                calls::amqp_frames_error,
                &self.0,
                number,
                fields.has_description,
            )?),
            false => None,
        };
        Ok(Detach {
            handle: fields.handle,
            closed: fields.closed,
            error,
        })
    }
}
