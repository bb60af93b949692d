//! The receiver of a link.
use crate::attach::Attach;
use crate::calls;
use crate::frames::{Detach, Flow, Frames, Transfer};
use crate::held::{bytes, done, resize, HasHeld, Held};
use crate::lists::Forgotten;
use crate::numbers::{ReceiverAttachExchange, Settled, Stage};
use crate::parts::LinkParts;
use crate::refused::Refused;
use crate::state::DeliveryState;
use crate::sys::{self, Arriving};

/// The receiver of a link, with what has arrived of each delivery.
#[derive(Debug)]
pub struct Receiver {
    pub(crate) held: Held,
    // Room for the tag of a delivery of which no more is to come: as long as the longest that has arrived.
    ended_tag: Vec<u8>,
}

// The size of the longest tag that the standard allows (2.8.7).
const LONGEST_TAG: usize = 32;

/// What a transfer has made of its delivery.
#[derive(Clone, Copy, Debug, PartialEq, Eq)]
pub enum Arrival {
    /// It has begun a delivery, of which more is to come.
    Begun,
    /// It has added to a delivery that had begun, also in an earlier attachment; more is to come.
    Continued,
    /// It was the last of its delivery, which `take` returns.
    Complete,
    /// It was the last of a delivery that its sender has settled: `take_settled` returns it.
    CompleteSettled,
    /// It belongs to a delivery that was complete before, and that its sender resumes. One that was not taken and is settled by
    /// it waits for `take_settled`.
    Known,
    /// It aborts its delivery, which had come as far as that; none, if nothing was kept of it.
    Aborted(Option<Stage>),
    /// It belongs to a delivery of which nothing is kept.
    Ignored,
}

/// The result of a transfer.
#[derive(Clone, Debug, PartialEq, Eq)]
#[must_use = "a delivery that is complete is taken by the tag that is in it"]
pub struct Arrived {
    /// What it has made of its delivery.
    pub arrival: Arrival,
    /// The tag of its delivery, if no more transfers of it are to come.
    pub tag: Option<Vec<u8>>,
    /// How far a delivery of the same tag had come in whose place it has begun a new one.
    pub replaced: Option<Stage>,
    /// Whether it has begun a delivery for which the link had no credit.
    pub without_credit: bool,
    /// The id that the session has to keep with the tag, so that a disposition of the sender's finds the delivery.
    pub session_id: Option<u32>,
}

/// What is kept of a delivery.
#[derive(Clone, Copy, Debug, PartialEq, Eq)]
pub struct Kept {
    /// How far it has come.
    pub stage: Stage,
    /// Its id in the present attachment, if a transfer of it has arrived there.
    pub id: Option<u32>,
    /// Whether its sender has settled it.
    pub settled: bool,
}

/// What a delivery is, but its message.
#[derive(Clone, Debug, PartialEq, Eq)]
pub struct DeliveryInfo {
    /// The delivery-id.
    pub delivery_id: u32,
    /// The delivery-tag.
    pub delivery_tag: Vec<u8>,
    /// The format of the message.
    pub message_format: Option<u32>,
    /// How many bytes its message has.
    pub message_size: usize,
}

/// A delivery that was taken.
#[derive(Debug)]
#[must_use = "a delivery is taken once: its message is here alone"]
pub struct Delivery(Held);

impl HasHeld for Delivery {
    fn held(&self) -> &Held {
        &self.0
    }
}

impl Delivery {
    /// What it is, with its tag.
    #[doc(alias = "amqp_delivery_look")]
    pub fn info(&self) -> Result<DeliveryInfo, Refused> {
        let mut view = sys::DeliveryView::default();
        let look = |tag: &mut [u8], size: &mut usize| calls::amqp_delivery_look(&self.0, &mut view, tag, size);
        let delivery_tag = bytes(LONGEST_TAG, look)?;
        Ok(DeliveryInfo {
            delivery_id: view.delivery_id,
            delivery_tag,
            message_format: view.has_message_format.then_some(view.message_format),
            message_size: view.message_size,
        })
    }

    /// The bytes of its message, as its transfers have brought them.
    #[doc(alias = "amqp_delivery_message")]
    pub fn message(&self) -> Result<Vec<u8>, Refused> {
        bytes(0, |message, size| calls::amqp_delivery_message(&self.0, message, size))
    }
}

// A stage, with none for 0.
fn stage_of(number: u32) -> Result<Option<Stage>, Refused> {
    match number {
        0 => Ok(None),
        number => Stage::of(number).map(Some),
    }
}

fn arrival_of(arriving: &Arriving) -> Result<Arrival, Refused> {
    Ok(match arriving.arrival {
        sys::ARRIVAL_BEGUN => Arrival::Begun,
        sys::ARRIVAL_CONTINUED => Arrival::Continued,
        sys::ARRIVAL_COMPLETE => Arrival::Complete,
        sys::ARRIVAL_COMPLETE_SETTLED => Arrival::CompleteSettled,
        sys::ARRIVAL_KNOWN => Arrival::Known,
        sys::ARRIVAL_ABORTED => Arrival::Aborted(stage_of(arriving.aborted_at)?),
        sys::ARRIVAL_IGNORED => Arrival::Ignored,
        _ => return Err(Refused::NoSuchNumber),
    })
}

impl Receiver {
    /// A receiver that is not attached.
    #[doc(alias = "amqp_receiver_new")]
    pub fn new(parts: &LinkParts<'_>) -> Result<Receiver, Refused> {
        let held = parts.make(calls::amqp_receiver_new)?;
        Ok(Receiver {
            held,
            ended_tag: vec![0; LONGEST_TAG],
        })
    }

    /// The attach to send. Pass false to resume what is unsettled; true is for a link that begins anew: its attach states no
    /// delivery, and nothing is kept by a tag.
    ///
    /// Refused with nothing changed: `IllegalState` without output handle, or if there is no transition from the link's state;
    /// `AttachTooLarge`.
    #[doc(alias = "amqp_receiver_send_attach")]
    pub fn send_attach(&mut self, is_reattaching: bool) -> Result<Attach, Refused> {
        let attach = Held::new();
        done(calls::amqp_receiver_send_attach(&self.held, is_reattaching, &attach))?;
        Ok(Attach(attach))
    }

    /// Takes the sender's attach. Returns what follows, and the deliveries that the sender does not know any more: of those
    /// nothing is kept.
    ///
    /// `IllegalState`, with nothing changed, if there is no transition from the link's state. The other refusals of the attach
    /// move the state, and `handle_attach_error` makes the detach to send: `IncomingSourceIsNone`,
    /// `SourceAddressIsNoneWhenDynamicIsTrue`, `InitialDeliveryCountIsNone`, `TargetAddressIsSomeWhenDynamicIsTrue`, in this
    /// order. Its name and role are not looked at.
    #[doc(alias = "amqp_receiver_on_attach")]
    pub fn on_incoming_attach(&mut self, attach: &Attach) -> Result<(ReceiverAttachExchange, Forgotten), Refused> {
        let (mut exchange, forgotten) = (0, Held::new());
        done(calls::amqp_receiver_on_attach(
            &self.held,
            &attach.0,
            &mut exchange,
            &forgotten,
        ))?;
        Ok((ReceiverAttachExchange::of(exchange)?, Forgotten(forgotten)))
    }

    /// Sets the link-credit, which is how many deliveries the sender may begin from now on, and the drain flag, each if it is
    /// there, and returns the flow to send.
    ///
    /// `IllegalState`, with nothing changed, without output handle.
    #[doc(alias = "amqp_receiver_send_flow")]
    pub fn send_flow(&mut self, credit: Option<u32>, drain: Option<bool>, echo: bool) -> Result<Flow, Refused> {
        let mut flow = sys::Flow::default();
        let (given, drains) = (credit.unwrap_or(0), drain.unwrap_or(false));
        let (has_credit, has_drain) = (credit.is_some(), drain.is_some());
        done(calls::amqp_receiver_send_flow(
            &self.held, has_credit, given, has_drain, drains, echo, &mut flow,
        ))?;
        Ok(Flow::of(&flow))
    }

    /// Takes the sender's flow. If it asks for an echo, returns the flow to reply with.
    ///
    /// `UnattachedHandle`, with nothing changed, without output handle.
    #[doc(alias = "amqp_receiver_on_flow")]
    pub fn on_incoming_flow(&mut self, flow: &Flow) -> Result<Option<Flow>, Refused> {
        Flow::written(|reply, has_reply| calls::amqp_receiver_on_flow(&self.held, &flow.given(), reply, has_reply))
    }

    /// Takes a transfer from the session, with its payload. After `Complete` call `take`, after `CompleteSettled`
    /// `take_settled`. If the sender may dispose of deliveries, note the id and the tag of each first transfer.
    ///
    /// With nothing changed: `IllegalState` unless both attaches were exchanged: ignore what comes after your own detach.
    /// `DeliveryIdIsNone`, `DeliveryTagIsNone`, `IllegalRcvSettleModeInTransfer`, `InconsistentFieldInMultiFrameDelivery`,
    /// `PayloadTooLong`: the sender's fault, end the link.
    #[doc(alias = "amqp_receiver_on_transfer")]
    pub fn on_incoming_transfer(&mut self, transfer: &Transfer, payload: &[u8]) -> Result<Arrived, Refused> {
        let tag = transfer.delivery_tag.as_deref().unwrap_or(&[]);
        if tag.len() > self.ended_tag.len() {
            resize(&mut self.ended_tag, tag.len())?;
        }
        let mut ended = Vec::new();
        ended
            .try_reserve_exact(self.ended_tag.len())
            .map_err(|_| Refused::OutOfMemory)?;
        let (fields, room, mut arriving, mut size) = (transfer.given(), &mut self.ended_tag, Arriving::default(), 0);
        done(calls::amqp_receiver_on_transfer(
            &self.held,
            &fields,
            tag,
            payload,
            &mut arriving,
            room,
            &mut size,
        ))?;
        ended.extend(room.iter().take(size));
        Ok(Arrived {
            arrival: arrival_of(&arriving)?,
            // The size of an empty tag is 0, as if there were none.
            tag: (size > 0 || !transfer.more).then_some(ended),
            replaced: stage_of(arriving.replaced)?,
            without_credit: arriving.without_credit,
            session_id: arriving.has_session_id.then_some(arriving.session_id),
        })
    }

    /// Takes the complete delivery with this tag, with all bytes of its message. It stays unsettled until it is disposed of.
    ///
    /// Refused in this order, with nothing changed: `UnknownTag`, `NotComplete`, `AlreadyTaken`, `NotAttached`.
    #[doc(alias = "amqp_receiver_take")]
    pub fn take(&mut self, tag: &[u8]) -> Result<Delivery, Refused> {
        let delivery = Held::new();
        done(calls::amqp_receiver_take(&self.held, tag, &delivery))?;
        Ok(Delivery(delivery))
    }

    /// Takes the first of the complete deliveries that their sender has settled; nothing if there is none.
    ///
    /// Refused with nothing changed: `NotAttached`.
    #[doc(alias = "amqp_receiver_take_settled")]
    pub fn take_settled(&mut self) -> Result<Option<Delivery>, Refused> {
        let delivery = Held::new();
        match calls::amqp_receiver_take_settled(&self.held, &delivery) {
            sys::NO_SUCH_ENTRY => Ok(None),
            status => done(status).map(|()| Some(Delivery(delivery))),
        }
    }

    /// How many complete deliveries that their sender has settled wait to be taken.
    #[doc(alias = "amqp_receiver_settled_count")]
    pub fn settled_len(&self) -> Result<usize, Refused> {
        let mut count = 0;
        done(calls::amqp_receiver_settled_count(&self.held, &mut count))?;
        Ok(count)
    }

    /// What is kept of the delivery with this tag; nothing if nothing is.
    #[doc(alias = "amqp_receiver_kept")]
    pub fn get(&self, tag: &[u8]) -> Result<Option<Kept>, Refused> {
        let mut view = sys::KeptView::default();
        match calls::amqp_receiver_kept(&self.held, tag, &mut view) {
            sys::UNKNOWN_TAG => return Ok(None),
            status => done(status)?,
        }
        Ok(Some(Kept {
            stage: Stage::of(view.stage)?,
            id: view.has_delivery_id.then_some(view.delivery_id),
            settled: view.settled,
        }))
    }

    /// The disposition of a delivery that was taken, with this state.
    ///
    /// With nothing changed: `NotAttached`, `UnknownTag`, `NotTaken`, `NotResumed`: keep the outcome then by `keep_outcome`.
    #[doc(alias = "amqp_receiver_dispose")]
    pub fn dispose(
        &mut self,
        tag: &[u8],
        settled: Settled,
        state: &DeliveryState,
        batchable: bool,
    ) -> Result<Frames, Refused> {
        let (fields, texts) = (DeliveryState::fields(Some(state)), DeliveryState::texts(Some(state)));
        let (mode, frames) = (settled.number(), Held::new());
        done(calls::amqp_receiver_dispose(
            &self.held, tag, mode, &fields, texts, batchable, &frames,
        ))?;
        Ok(Frames(frames))
    }

    /// Keeps the outcome of a delivery that was taken, in any state of the link: the next attach states it.
    ///
    /// With nothing changed: `UnknownTag`, `NotTaken`.
    #[doc(alias = "amqp_receiver_keep_outcome")]
    pub fn keep_outcome(&mut self, tag: &[u8], state: &DeliveryState) -> Result<(), Refused> {
        let (fields, texts) = (DeliveryState::fields(Some(state)), DeliveryState::texts(Some(state)));
        done(calls::amqp_receiver_keep_outcome(&self.held, tag, &fields, texts))
    }

    /// Takes the sender's disposition of the delivery with this tag, which the session finds by the id. If it settles the
    /// delivery, one that is complete waits for `take_settled`, and of one that was taken nothing is kept.
    #[doc(alias = "amqp_receiver_on_disposition")]
    pub fn on_incoming_disposition(
        &mut self,
        tag: &[u8],
        settled: bool,
        state: Option<&DeliveryState>,
    ) -> Result<(), Refused> {
        let (fields, texts) = (DeliveryState::fields(state), DeliveryState::texts(state));
        done(calls::amqp_receiver_on_disposition(
            &self.held, tag, settled, &fields, texts,
        ))
    }

    /// Takes a detach that has arrived. Returns the detach to reply with, if the peer initiated this one. Reply, and then call
    /// `apply_remote_detach_outcome`, which moves the state. What is kept of deliveries stays.
    ///
    /// `UnattachedHandle`, only if the peer initiated the detach, with nothing changed.
    #[doc(alias = "amqp_receiver_on_detach")]
    pub fn on_incoming_detach(&mut self, detach: &Detach, remote_initiated: bool) -> Result<Frames, Refused> {
        let (fields, texts) = detach.given();
        let reply = Held::new();
        done(calls::amqp_receiver_on_detach(
            &self.held,
            &fields,
            texts,
            remote_initiated,
            &reply,
        ))?;
        Ok(Frames(reply))
    }
}
