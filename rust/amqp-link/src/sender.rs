//! The sender of a link.
use crate::attach::Attach;
use crate::calls;
use crate::frames::{Detach, Flow, Frames};
use crate::held::{done, Held};
use crate::lists::{Outcomes, Resuming};
use crate::numbers::Settled;
use crate::parts::LinkParts;
use crate::refused::Refused;
use crate::state::{read_outcome, DeliveryState, Outcome};
use crate::sys;

/// The sender of a link, with what became of each of its deliveries.
///
/// Each unsettled delivery is a registration, numbered from 0. It is kept until it is released by [`Sender::release`].
#[derive(Debug)]
pub struct Sender(pub(crate) Held);

/// What follows once a sender has exchanged attaches.
#[derive(Debug)]
#[must_use = "the deliveries of the list are there alone: resume or put back each of them"]
pub enum SenderAttachExchange {
    /// There is nothing to send again.
    Complete,
    /// An attach did not state all unsettled deliveries. Begin nothing new: put back what is listed as `Resend`, resume the
    /// others, have them settled, send the detach of `detach_frame`, and attach again.
    IncompleteUnsettled(Resuming),
    /// These deliveries are to be sent again.
    Resume(Resuming),
}

impl SenderAttachExchange {
    /// The deliveries to send again: an empty list after a complete exchange.
    pub fn into_resuming(self) -> Resuming {
        match self {
            SenderAttachExchange::Complete => Resuming(Held::new()),
            SenderAttachExchange::IncompleteUnsettled(list) | SenderAttachExchange::Resume(list) => list,
        }
    }
}

/// What a disposition has led to.
#[derive(Debug)]
#[must_use = "if `echo` is set, a disposition is to be sent"]
pub struct DispositionAnswer {
    /// Whether the sender has to answer with a disposition that settles the delivery: `dispose` makes it.
    pub echo: bool,
    /// The delivery, if it has ended.
    pub outcomes: Outcomes,
}

/// What became of a registration.
#[derive(Clone, Debug, PartialEq, Eq)]
pub enum Fate {
    /// In the sender's unsettled map.
    Pending,
    /// Given up by its user, without an outcome.
    Withdrawn,
    /// Returned in the list of an exchange, to be sent again.
    HandedOut,
    /// Settled with an outcome, or failed.
    Resolved(Outcome),
    /// It had ended, and its outcome was released.
    Released,
}

impl Sender {
    /// A sender that is not attached.
    #[doc(alias = "amqp_sender_new")]
    pub fn new(parts: &LinkParts<'_>) -> Result<Sender, Refused> {
        parts.make(calls::amqp_sender_new).map(Sender)
    }

    /// The attach to send, and the deliveries that end by it. Pass false to resume what is unsettled; true is for a link that
    /// begins anew: its attach states no delivery, and each pending one fails. If the attach does not fit the frame limit, it
    /// states only some of the unsettled deliveries, and says so. Call it before `on_incoming_attach`, also where the peer's
    /// attach has arrived: made after that call it states no listed delivery, and the receiver forgets them.
    ///
    /// Refused with nothing changed: `IllegalState` without output handle, or if there is no transition from the link's state;
    /// `AttachTooLarge`.
    #[doc(alias = "amqp_sender_send_attach")]
    pub fn send_attach(&mut self, is_reattaching: bool) -> Result<(Attach, Outcomes), Refused> {
        let (attach, outcomes) = (Held::new(), Held::new());
        done(calls::amqp_sender_send_attach(
            &self.0,
            is_reattaching,
            &attach,
            &outcomes,
        ))?;
        Ok((Attach(attach), Outcomes(outcomes)))
    }

    /// Takes the receiver's attach. Returns what follows, and the deliveries that have ended by what both attaches state.
    ///
    /// `IllegalState`, with nothing changed, if there is no transition from the link's state. The other refusals of the attach
    /// move the state, and `handle_attach_error` makes the detach to send: `SourceAddressIsSomeWhenDynamicIsTrue`,
    /// `IncomingTargetIsNone`, `TargetAddressIsNoneWhenDynamicIsTrue`, `SndSettleModeNotSupported`, in this order. Its name and
    /// role are not looked at.
    #[doc(alias = "amqp_sender_on_attach")]
    pub fn on_incoming_attach(&mut self, attach: &Attach) -> Result<(SenderAttachExchange, Outcomes), Refused> {
        let (list, outcomes) = (Held::new(), Held::new());
        let mut is_incomplete = false;
        done(calls::amqp_sender_on_attach(
            &self.0,
            &attach.0,
            &list,
            &mut is_incomplete,
            &outcomes,
        ))?;
        let list = Resuming(list);
        let exchange = match (is_incomplete, list.is_empty()) {
            (true, _) => SenderAttachExchange::IncompleteUnsettled(list),
            (false, true) => SenderAttachExchange::Complete,
            (false, false) => SenderAttachExchange::Resume(list),
        };
        Ok((exchange, Outcomes(outcomes)))
    }

    /// Takes the receiver's flow, and returns the flow to reply with, if there is one. A flow that drains gives the credit
    /// back at once.
    ///
    /// `UnattachedHandle`, with nothing changed, without output handle.
    #[doc(alias = "amqp_sender_on_flow")]
    pub fn on_incoming_flow(&mut self, flow: &Flow) -> Result<Option<Flow>, Refused> {
        Flow::written(|reply, has_reply| calls::amqp_sender_on_flow(&self.0, &flow.given(), reply, has_reply))
    }

    /// Takes the receiver's flow, and keeps the credit if the flow drains: send what waits, then the flow of
    /// `give_back_credit`. Returns the flow to reply with, if there is one.
    ///
    /// `UnattachedHandle`, with nothing changed, without output handle.
    #[doc(alias = "amqp_sender_on_flow_keeping_credit")]
    pub fn on_incoming_flow_keeping_credit(&mut self, flow: &Flow) -> Result<Option<Flow>, Refused> {
        let given = flow.given();
        Flow::written(|reply, is_there| calls::amqp_sender_on_flow_keeping_credit(&self.0, &given, reply, is_there))
    }

    /// Gives the credit back that is left, if the receiver drains, and returns the flow to send; none if it does not drain.
    ///
    /// `UnattachedHandle`, with nothing changed, without output handle.
    #[doc(alias = "amqp_sender_give_back_credit")]
    pub fn give_back_credit(&mut self) -> Result<Option<Flow>, Refused> {
        Flow::written(|reply, has_reply| calls::amqp_sender_give_back_credit(&self.0, reply, has_reply))
    }

    /// The sender's own flow to send. `available`, if it is there, is how many deliveries wait.
    ///
    /// `IllegalState`, with nothing changed, without output handle.
    #[doc(alias = "amqp_sender_send_flow")]
    pub fn send_flow(&mut self, available: Option<u32>, echo: bool) -> Result<Flow, Refused> {
        let (waits, mut flow) = (available.unwrap_or(0), sys::Flow::default());
        done(calls::amqp_sender_send_flow(
            &self.0,
            available.is_some(),
            waits,
            echo,
            &mut flow,
        ))?;
        Ok(Flow::of(&flow))
    }

    /// Sends a payload as a new delivery, for one credit, under the tag of the delivery-count. Give the first transfer its
    /// delivery id, and keep the tag with it. An unsettled delivery is the next registration, whose fate [`Sender::fate`] says.
    ///
    /// Refused in this order, with nothing changed: `IllegalState` without handles; `CreditMissing`; `TagPending`; `NoRoom`.
    #[doc(alias = "amqp_sender_send")]
    pub fn send_payload(
        &mut self,
        payload: &[u8],
        message_format: u32,
        settled: Settled,
        batchable: bool,
    ) -> Result<Frames, Refused> {
        let frames = Held::new();
        let mode = settled.number();
        done(calls::amqp_sender_send(
            &self.0,
            payload,
            message_format,
            mode,
            batchable,
            &frames,
        ))?;
        Ok(Frames(frames))
    }

    /// The same under this tag, which is to be of no pending delivery. A peer may refuse one of more than 32 bytes.
    #[doc(alias = "amqp_sender_send_with_tag")]
    pub fn send_payload_with_tag(
        &mut self,
        tag: &[u8],
        payload: &[u8],
        message_format: u32,
        settled: Settled,
        batchable: bool,
    ) -> Result<Frames, Refused> {
        let frames = Held::new();
        let mode = settled.number();
        done(calls::amqp_sender_send_with_tag(
            &self.0,
            tag,
            payload,
            message_format,
            mode,
            batchable,
            &frames,
        ))?;
        Ok(Frames(frames))
    }

    /// Sends what the first delivery of the list asks for, and takes it out of the list. Returns the frames to send, which are
    /// none of one whose outcome is decided; nothing of an empty list. `Resume` and `Resend` register the delivery anew, and
    /// take no credit. Once the list is empty send the flow of `send_flow`: a receiver that has counted what was resumed takes
    /// the count from it.
    ///
    /// Refused with nothing changed: `IllegalState` without handles; `TagPending`; `NoRoom`.
    #[doc(alias = "amqp_sender_resume")]
    pub fn resume_next(&mut self, list: &mut Resuming) -> Result<Option<Frames>, Refused> {
        if list.is_empty() {
            return Ok(None);
        }
        let frames = Held::new();
        done(calls::amqp_sender_resume(&self.0, &list.0, &frames))?;
        Ok(Some(Frames(frames)))
    }

    /// Keeps the first delivery of the list for a later attach, and takes it out of the list: it is the next registration. Of
    /// `Abort` and `RestateOutcome` nothing is kept. Returns whether the list had one.
    ///
    /// Refused with nothing changed: `TagPending`.
    #[doc(alias = "amqp_sender_put_back")]
    pub fn put_back_next(&mut self, list: &mut Resuming) -> Result<bool, Refused> {
        if list.is_empty() {
            return Ok(false);
        }
        done(calls::amqp_sender_put_back(&self.0, &list.0))?;
        Ok(true)
    }

    /// Gives up the delivery with this tag, if it is pending, and returns whether it was: no outcome of it is returned any
    /// more. Its payload is dropped. If the peer still states it in a later attach, it is listed as `Abort`.
    #[doc(alias = "amqp_sender_withdraw")]
    pub fn withdraw(&mut self, tag: &[u8]) -> Result<bool, Refused> {
        let mut was_pending = false;
        done(calls::amqp_sender_withdraw(&self.0, tag, &mut was_pending))?;
        Ok(was_pending)
    }

    /// Takes the receiver's disposition of the delivery with this tag, which the session finds by the id. Of a tag that is not
    /// pending nothing ends.
    #[doc(alias = "amqp_sender_on_disposition")]
    pub fn on_incoming_disposition(
        &mut self,
        tag: &[u8],
        settled: bool,
        state: Option<&DeliveryState>,
    ) -> Result<DispositionAnswer, Refused> {
        let (fields, texts) = (DeliveryState::fields(state), DeliveryState::texts(state));
        let (mut echo, outcomes) = (false, Held::new());
        done(calls::amqp_sender_on_disposition(
            &self.0, tag, settled, &fields, texts, &mut echo, &outcomes,
        ))?;
        Ok(DispositionAnswer {
            echo,
            outcomes: Outcomes(outcomes),
        })
    }

    /// The disposition of a delivery, by its id and its tag: no frame on a link that sends all settled. If it settles a pending
    /// delivery, that is returned beside it. To answer an `echo`, pass true, and the state of the receiver's disposition.
    #[doc(alias = "amqp_sender_dispose")]
    pub fn dispose(
        &mut self,
        delivery_id: u32,
        tag: &[u8],
        settled: bool,
        state: &DeliveryState,
    ) -> Result<(Frames, Outcomes), Refused> {
        let (fields, texts) = (DeliveryState::fields(Some(state)), DeliveryState::texts(Some(state)));
        let (frames, outcomes) = (Held::new(), Held::new());
        done(calls::amqp_sender_dispose(
            &self.0,
            delivery_id,
            tag,
            settled,
            &fields,
            texts,
            &frames,
            &outcomes,
        ))?;
        Ok((Frames(frames), Outcomes(outcomes)))
    }

    /// What became of a registration, counted from 0; nothing past the last.
    #[doc(alias = "amqp_sender_fate")]
    #[doc(alias = "amqp_sender_fate_error")]
    pub fn fate(&self, number: usize) -> Result<Option<Fate>, Refused> {
        let (mut kind, mut outcome) = (0, sys::Outcome::default());
        match calls::amqp_sender_fate(&self.0, number, &mut kind, &mut outcome) {
            sys::NO_SUCH_ENTRY => return Ok(None),
            status => done(status)?,
        }
        Ok(Some(match kind {
            sys::FATE_PENDING => Fate::Pending,
            sys::FATE_WITHDRAWN => Fate::Withdrawn,
            sys::FATE_HANDED_OUT => Fate::HandedOut,
            sys::FATE_RELEASED => Fate::Released,
            sys::FATE_RESOLVED => {
                Fate::Resolved(read_outcome(&outcome, calls::amqp_sender_fate_error, &self.0, number)?)
            }
            _ => return Err(Refused::NoSuchNumber),
        }))
    }

    /// Releases what became of the registrations below this number, and uses their memory again. The numbers go on.
    ///
    /// `StillPending`, with nothing changed, if one of them is pending: it has the number of the first.
    #[doc(alias = "amqp_sender_release")]
    pub fn release(&mut self, before: usize) -> Result<(), Refused> {
        let mut first_pending = 0;
        match calls::amqp_sender_release(&self.0, before, &mut first_pending) {
            sys::STILL_PENDING => Err(Refused::StillPending(first_pending)),
            status => done(status),
        }
    }

    /// Takes a detach that has arrived. Returns the detach to reply with, if the peer initiated this one, and the outcome of
    /// each pending delivery, if it closes the link. Reply, and then call `apply_remote_detach_outcome`, which moves the state.
    ///
    /// `UnattachedHandle`, only if the peer initiated the detach, with nothing changed.
    #[doc(alias = "amqp_sender_on_detach")]
    pub fn on_incoming_detach(
        &mut self,
        detach: &Detach,
        remote_initiated: bool,
    ) -> Result<(Frames, Outcomes), Refused> {
        let (fields, texts) = detach.given();
        let (reply, outcomes) = (Held::new(), Held::new());
        done(calls::amqp_sender_on_detach(
            &self.0,
            &fields,
            texts,
            remote_initiated,
            &reply,
            &outcomes,
        ))?;
        Ok((Frames(reply), Outcomes(outcomes)))
    }

    /// Fails each pending delivery of a sender that is closed for good, with the error of this detach, and returns them. Call it
    /// after the link was closed by this end; a detach of the peer's that closes the link does it by `on_incoming_detach`.
    #[doc(alias = "amqp_sender_fail_pending_unsettled")]
    pub fn fail_pending_unsettled(&mut self, detach: &Detach) -> Result<Outcomes, Refused> {
        let (fields, texts) = detach.given();
        let outcomes = Held::new();
        done(calls::amqp_sender_fail_pending_unsettled(
            &self.0, &fields, texts, &outcomes,
        ))?;
        Ok(Outcomes(outcomes))
    }
}
