//! What a link is made with.
use crate::held::{done, Held};
use crate::numbers::{ReceiverSettleMode, SenderSettleMode, TerminusDurability, TerminusExpiryPolicy};
use crate::refused::Refused;
use crate::sys::{self, Terms};

/// A source or a target. Filters, capabilities and properties do not cross.
///
/// The default has no address and no other field.
#[derive(Clone, Debug, Default, PartialEq, Eq)]
pub struct Terminus {
    /// The address of the node.
    pub address: Option<String>,
    /// Which state of it is durable.
    pub durable: TerminusDurability,
    /// From when on it expires.
    pub expiry_policy: TerminusExpiryPolicy,
    /// The seconds that it stays after it has begun to expire.
    pub timeout: u32,
    /// Whether the peer is asked to create the node.
    pub dynamic: bool,
}

impl Terminus {
    /// The terminus with this address.
    pub fn at(address: &str) -> Terminus {
        Terminus {
            address: Some(address.to_owned()),
            ..Terminus::default()
        }
    }

    /// A terminus as calls take it, and its address.
    pub(crate) fn given(terminus: Option<&Terminus>) -> (sys::Terminus, &[u8]) {
        let terminus = match terminus {
            Some(terminus) => terminus,
            None => return (sys::Terminus::default(), &[]),
        };
        let fields = sys::Terminus {
            durable: terminus.durable.number(),
            expiry_policy: terminus.expiry_policy.number(),
            timeout: terminus.timeout,
            is_there: true,
            has_address: terminus.address.is_some(),
            dynamic: terminus.dynamic,
        };
        (fields, terminus.address.as_deref().unwrap_or("").as_bytes())
    }

    /// The terminus that a call has written, with its address.
    pub(crate) fn of(fields: &sys::Terminus, address: String) -> Result<Option<Terminus>, Refused> {
        if !fields.is_there {
            return Ok(None);
        }
        Ok(Some(Terminus {
            address: fields.has_address.then_some(address),
            durable: TerminusDurability::of(fields.durable)?,
            expiry_policy: TerminusExpiryPolicy::of(fields.expiry_policy)?,
            timeout: fields.timeout,
            dynamic: fields.dynamic,
        }))
    }
}

/// What a link is made with, at either endpoint.
#[derive(Clone, Debug)]
pub struct LinkParts<'a> {
    /// The name of the link, the same at both endpoints.
    pub name: &'a str,
    /// The source: where the messages come from.
    pub source: Option<Terminus>,
    /// The target: where the messages go.
    pub target: Option<Terminus>,
    /// The largest size of a frame in bytes, without the four bytes of its size in front.
    pub max_frame_size: u32,
    /// The largest message in bytes; none is no limit.
    pub max_message_size: Option<u64>,
    /// When the sender settles.
    pub snd_settle_mode: SenderSettleMode,
    /// When the receiver settles.
    pub rcv_settle_mode: ReceiverSettleMode,
    /// The sender's delivery-count at the beginning.
    pub initial_delivery_count: u32,
    /// Whether the source of the peer's attach is verified: else `SourceAddressIsSomeWhenDynamicIsTrue` does not come at a
    /// sender, nor `SourceAddressIsNoneWhenDynamicIsTrue` at a receiver.
    pub verify_incoming_source: bool,
    /// Whether the target of the peer's attach is verified: else `TargetAddressIsNoneWhenDynamicIsTrue` does not come at a
    /// sender, nor `TargetAddressIsSomeWhenDynamicIsTrue` at a receiver.
    pub verify_incoming_target: bool,
}

// A call that makes a link.
type Make = fn(&Held, &Terms, &[u8], &sys::Terminus, &[u8], &sys::Terminus, &[u8]) -> u32;

impl<'a> LinkParts<'a> {
    /// A link of which nothing else is said: the sender says of each delivery whether it is settled, the receiver settles by
    /// itself, messages are of any size, the count begins at 0, and no terminus of the peer is verified.
    pub fn new(
        name: &'a str,
        source: Option<Terminus>,
        target: Option<Terminus>,
        max_frame_size: u32,
    ) -> LinkParts<'a> {
        LinkParts {
            name,
            source,
            target,
            max_frame_size,
            max_message_size: None,
            snd_settle_mode: SenderSettleMode::Mixed,
            rcv_settle_mode: ReceiverSettleMode::First,
            initial_delivery_count: 0,
            verify_incoming_source: false,
            verify_incoming_target: false,
        }
    }

    /// The link that this call makes of the parts.
    pub(crate) fn make(&self, call: Make) -> Result<Held, Refused> {
        let terms = Terms {
            max_message_size: self.max_message_size.unwrap_or(0),
            max_frame_size: self.max_frame_size,
            snd_settle_mode: self.snd_settle_mode.number(),
            rcv_settle_mode: self.rcv_settle_mode.number(),
            initial_delivery_count: self.initial_delivery_count,
            verify_incoming_source: self.verify_incoming_source,
            verify_incoming_target: self.verify_incoming_target,
        };
        let (source, from) = Terminus::given(self.source.as_ref());
        let (target, to) = Terminus::given(self.target.as_ref());
        let held = Held::new();
        done(call(&held, &terms, self.name.as_bytes(), &source, from, &target, to))?;
        Ok(held)
    }
}
