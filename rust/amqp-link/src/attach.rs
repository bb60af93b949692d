//! Attaches: what a session reads of one that is to be sent, and makes of one that has arrived.
use crate::calls;
use crate::held::{bytes, done, text, HasHeld, Held};
use crate::numbers::{ReceiverSettleMode, Role, SenderSettleMode};
use crate::parts::Terminus;
use crate::refused::Refused;
use crate::state::DeliveryState;
use crate::sys;

/// What an attach states, but its name, its termini and its unsettled deliveries.
#[derive(Clone, Copy, Debug, PartialEq, Eq)]
pub struct AttachFields {
    /// The handle that the endpoint which sends this gave the link.
    pub handle: u32,
    /// The role of that endpoint.
    pub role: Role,
    /// When the sender settles.
    pub snd_settle_mode: SenderSettleMode,
    /// When the receiver settles.
    pub rcv_settle_mode: ReceiverSettleMode,
    /// Whether it states not all unsettled deliveries.
    pub incomplete_unsettled: bool,
    /// The sender's delivery-count at the attach.
    pub initial_delivery_count: Option<u32>,
    /// The largest message in bytes; none and 0 are no limit.
    pub max_message_size: Option<u64>,
}

impl AttachFields {
    /// The fields of an attach of this role that states no other: with the standard's default modes, all unsettled deliveries,
    /// and no delivery-count, which a sender has to state.
    pub fn new(role: Role, handle: u32) -> AttachFields {
        AttachFields {
            handle,
            role,
            snd_settle_mode: SenderSettleMode::Mixed,
            rcv_settle_mode: ReceiverSettleMode::First,
            incomplete_unsettled: false,
            initial_delivery_count: None,
            max_message_size: None,
        }
    }

    fn given(&self) -> sys::AttachFields {
        sys::AttachFields {
            max_message_size: self.max_message_size.unwrap_or(0),
            handle: self.handle,
            role: self.role.number(),
            snd_settle_mode: self.snd_settle_mode.number(),
            rcv_settle_mode: self.rcv_settle_mode.number(),
            initial_delivery_count: self.initial_delivery_count.unwrap_or(0),
            has_max_message_size: self.max_message_size.is_some(),
            has_initial_delivery_count: self.initial_delivery_count.is_some(),
            incomplete_unsettled: self.incomplete_unsettled,
        }
    }

    fn of(fields: &sys::AttachFields) -> Result<AttachFields, Refused> {
        Ok(AttachFields {
            handle: fields.handle,
            role: Role::of(fields.role)?,
            snd_settle_mode: SenderSettleMode::of(fields.snd_settle_mode)?,
            rcv_settle_mode: ReceiverSettleMode::of(fields.rcv_settle_mode)?,
            incomplete_unsettled: fields.incomplete_unsettled,
            initial_delivery_count: fields
                .has_initial_delivery_count
                .then_some(fields.initial_delivery_count),
            max_message_size: fields.has_max_message_size.then_some(fields.max_message_size),
        })
    }
}

/// An attach, to send or as it has arrived.
#[derive(Debug)]
#[must_use = "an attach is sent, or passed to the link that it is for"]
pub struct Attach(pub(crate) Held);

impl HasHeld for Attach {
    fn held(&self) -> &Held {
        &self.0
    }
}

// A call that copies out a terminus and its address.
type ReadTerminus = fn(&Held, &mut sys::Terminus, &mut [u8], &mut usize) -> u32;

impl Attach {
    /// An attach as it has arrived, without termini and unsettled deliveries.
    #[doc(alias = "amqp_attach_new")]
    pub fn new(name: &str, fields: &AttachFields) -> Result<Attach, Refused> {
        let attach = Held::new();
        done(calls::amqp_attach_new(&attach, name.as_bytes(), &fields.given()))?;
        Ok(Attach(attach))
    }

    /// Sets the source, or that there is none.
    #[doc(alias = "amqp_attach_set_source")]
    pub fn set_source(&mut self, source: Option<&Terminus>) -> Result<(), Refused> {
        let (fields, address) = Terminus::given(source);
        done(calls::amqp_attach_set_source(&self.0, &fields, address))
    }

    /// Sets the target, or that there is none.
    #[doc(alias = "amqp_attach_set_target")]
    pub fn set_target(&mut self, target: Option<&Terminus>) -> Result<(), Refused> {
        let (fields, address) = Terminus::given(target);
        done(calls::amqp_attach_set_target(&self.0, &fields, address))
    }

    /// Adds an unsettled delivery: its tag, and its state if one is known. One under the same tag is replaced.
    #[doc(alias = "amqp_attach_add_unsettled")]
    pub fn add_unsettled(&mut self, tag: &[u8], state: Option<&DeliveryState>) -> Result<(), Refused> {
        let (fields, texts) = (DeliveryState::fields(state), DeliveryState::texts(state));
        done(calls::amqp_attach_add_unsettled(&self.0, tag, &fields, texts))
    }

    // What it states, with its name.
    fn look(&self) -> Result<(sys::AttachFields, Vec<u8>), Refused> {
        let mut fields = sys::AttachFields::default();
        let name = bytes(64, |name, size| {
            calls::amqp_attach_look(&self.0, &mut fields, name, size)
        })?;
        Ok((fields, name))
    }

    /// The name of the link.
    #[doc(alias = "amqp_attach_look")]
    pub fn name(&self) -> Result<String, Refused> {
        text(self.look()?.1)
    }

    /// What it states, but its name, its termini and its unsettled deliveries.
    #[doc(alias = "amqp_attach_look")]
    pub fn fields(&self) -> Result<AttachFields, Refused> {
        AttachFields::of(&self.look()?.0)
    }

    /// The source, if it states one.
    #[doc(alias = "amqp_attach_source")]
    pub fn source(&self) -> Result<Option<Terminus>, Refused> {
        self.terminus(calls::amqp_attach_source)
    }

    /// The target, if it states one.
    #[doc(alias = "amqp_attach_target")]
    pub fn target(&self) -> Result<Option<Terminus>, Refused> {
        self.terminus(calls::amqp_attach_target)
    }

    fn terminus(&self, call: ReadTerminus) -> Result<Option<Terminus>, Refused> {
        let mut fields = sys::Terminus::default();
        let address = bytes(64, |address, size| call(&self.0, &mut fields, address, size))?;
        Terminus::of(&fields, text(address)?)
    }

    /// How many unsettled deliveries it states.
    #[doc(alias = "amqp_attach_unsettled_count")]
    pub fn unsettled_len(&self) -> usize {
        calls::amqp_attach_unsettled_count(&self.0)
    }

    /// The unsettled delivery with this number, from 0: its tag and its state, if one is known. `NoSuchEntry` past the last.
    #[doc(alias = "amqp_attach_unsettled")]
    #[doc(alias = "amqp_attach_unsettled_error")]
    pub fn unsettled_at(&self, number: usize) -> Result<(Vec<u8>, Option<DeliveryState>), Refused> {
        let mut fields = sys::DeliveryStateFields::default();
        let tag = bytes(32, |tag, size| {
            calls::amqp_attach_unsettled(&self.0, number, &mut fields, tag, size)
        })?;
        Ok((
            tag,
            DeliveryState::read(&fields, calls::amqp_attach_unsettled_error, &self.0, number)?,
        ))
    }

    /// The unsettled deliveries that it states.
    pub fn unsettled(&self) -> impl Iterator<Item = Result<(Vec<u8>, Option<DeliveryState>), Refused>> + '_ {
        (0..self.unsettled_len()).map(|number| self.unsettled_at(number))
    }
}
