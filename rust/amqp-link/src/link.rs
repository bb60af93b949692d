//! What a link of either role has.
use crate::calls;
use crate::frames::{Detach, Frames};
use crate::held::{bytes, done, text, HasHeld, Held, Object};
use crate::numbers::{LinkState, ReceiverSettleMode, SenderSettleMode};
use crate::receiver::Receiver;
use crate::refused::Refused;
use crate::sender::Sender;
use crate::state::Error;
use crate::sys;

/// What a link shows.
#[derive(Clone, Copy, Debug, PartialEq, Eq)]
pub struct LinkView {
    /// The state of the link.
    pub local_state: LinkState,
    /// The handle under which this endpoint sends, if its session has given it one.
    pub output_handle: Option<u32>,
    /// The handle under which the peer sends, once its attach has arrived.
    pub input_handle: Option<u32>,
    /// The delivery-count.
    pub delivery_count: u32,
    /// The link-credit.
    pub link_credit: u32,
    /// Whether the sender is to use up its credit at once.
    pub drain: bool,
    /// How many deliveries are unsettled.
    pub unsettled: usize,
    /// When the sender settles.
    pub snd_settle_mode: SenderSettleMode,
    /// When the receiver settles.
    pub rcv_settle_mode: ReceiverSettleMode,
    /// The largest message in bytes; none is no limit.
    pub max_message_size: Option<u64>,
}

impl LinkView {
    fn of(view: &sys::LinkView) -> Result<LinkView, Refused> {
        Ok(LinkView {
            local_state: LinkState::of(view.state)?,
            output_handle: view.has_output_handle.then_some(view.output_handle),
            input_handle: view.has_input_handle.then_some(view.input_handle),
            delivery_count: view.delivery_count,
            link_credit: view.link_credit,
            drain: view.drain,
            unsettled: view.unsettled,
            snd_settle_mode: SenderSettleMode::of(view.snd_settle_mode)?,
            rcv_settle_mode: ReceiverSettleMode::of(view.rcv_settle_mode)?,
            max_message_size: (view.max_message_size != 0).then_some(view.max_message_size),
        })
    }
}

/// What to do after an attach has failed.
#[derive(Debug)]
#[must_use = "the detach is to be sent, or the session to be ended"]
pub enum Action {
    /// Nothing follows from it, or the link is in no state from which a detach can be sent.
    Nothing,
    /// Send this detach, which closes the link.
    Detach(Frames),
    /// End the session with `amqp:session:handle-in-use`.
    EndSession,
}

impl Action {
    /// What a call says that follows.
    pub(crate) fn written(call: impl FnOnce(&Held, &mut bool) -> u32) -> Result<Action, Refused> {
        let (frames, mut ends_session) = (Held::new(), false);
        done(call(&frames, &mut ends_session))?;
        let frames = Frames(frames);
        Ok(match (ends_session, frames.is_empty()) {
            (true, _) => Action::EndSession,
            (false, true) => Action::Nothing,
            (false, false) => Action::Detach(frames),
        })
    }
}

/// A link endpoint of either role: a [`Sender`] or a [`Receiver`].
pub trait Link: Object {
    /// What to do after `send_attach` or `on_incoming_attach` of this link was refused with `error`, or after something has
    /// arrived in place of the peer's attach, for which the session has this name.
    ///
    /// A detach closes the link, which is left as by `send_detach`. If the own attach was not sent yet, send it, and call this
    /// again.
    fn handle_attach_error(&mut self, error: Refused) -> Result<Action, Refused>;

    /// Sets the handle that the session gives the link, under which it sends.
    #[doc(alias = "amqp_link_set_output_handle")]
    fn set_output_handle(&mut self, handle: u32) -> Result<(), Refused> {
        done(calls::amqp_link_set_output_handle(self.held(), handle))
    }

    /// Sets the largest size of a frame in bytes, without the four bytes of its size in front. A performative is counted with
    /// the shortest code of each value: if the session's encoder writes longer ones, lower the limit by what they add.
    #[doc(alias = "amqp_link_set_max_frame_size")]
    fn set_max_frame_size(&mut self, max_frame_size: u32) -> Result<(), Refused> {
        done(calls::amqp_link_set_max_frame_size(self.held(), max_frame_size))
    }

    /// The session of the link is lost: no frame says so. What is unsettled, the counts, the credit and the fates stay. Set a
    /// handle then, and attach again.
    #[doc(alias = "amqp_link_on_session_lost")]
    fn on_session_lost(&mut self) -> Result<(), Refused> {
        done(calls::amqp_link_on_session_lost(self.held()))
    }

    /// What the link shows.
    #[doc(alias = "amqp_link_look")]
    fn view(&self) -> Result<LinkView, Refused> {
        let mut view = sys::LinkView::default();
        done(calls::amqp_link_look(self.held(), &mut view))?;
        LinkView::of(&view)
    }

    /// The name of the link.
    #[doc(alias = "amqp_link_name")]
    fn name(&self) -> Result<String, Refused> {
        text(bytes(64, |name, size| calls::amqp_link_name(self.held(), name, size))?)
    }

    /// The detach to send: one that closes the link, or one after which it may be attached again. The output handle is
    /// released: the frame has it.
    ///
    /// `IllegalState` if there is no transition from the link's state, with nothing changed, or without output handle, with the
    /// state moved.
    #[doc(alias = "amqp_link_send_detach")]
    fn send_detach(&mut self, closed: bool, error: Option<Error>) -> Result<Frames, Refused> {
        let (detach, frames) = (
            Detach {
                handle: 0,
                closed,
                error,
            },
            Held::new(),
        );
        let (fields, texts) = detach.given();
        done(calls::amqp_link_send_detach(self.held(), &fields, texts, &frames))?;
        Ok(Frames(frames))
    }

    /// The detach to send after an incomplete exchange. It moves no state: give the peer's reply to
    /// `apply_remote_detach_outcome`, and attach again.
    ///
    /// `UnattachedHandle` without output handle.
    #[doc(alias = "amqp_link_detach_frame")]
    fn detach_frame(&mut self) -> Result<Frames, Refused> {
        let frames = Held::new();
        done(calls::amqp_link_detach_frame(self.held(), &frames))?;
        Ok(Frames(frames))
    }

    /// Takes the peer's reply to a detach that was sent. The state has moved and the output handle is released, also if the
    /// error that the reply carries is returned: `RemoteDetachedWithError` or `RemoteClosedWithError`.
    ///
    /// `IllegalState`, with nothing changed, if there is no transition from the link's state.
    #[doc(alias = "amqp_link_on_detach_reply")]
    fn on_detach_reply(&mut self, detach: &Detach) -> Result<(), Refused> {
        let (fields, texts) = detach.given();
        done(calls::amqp_link_on_detach_reply(self.held(), &fields, texts))
    }

    /// Records a detach that the peer initiated and that was replied to, or the reply to the one of `detach_frame`; or a detach
    /// that crosses one of this end, which is its reply too. The state has moved and the output handle is released, so that
    /// what is complete is to be taken before, also if the error that the detach carries is returned:
    /// `RemoteDetachedWithError` or `RemoteClosedWithError`.
    ///
    /// `IllegalState`, with nothing changed, if there is no transition from the link's state.
    #[doc(alias = "amqp_link_apply_remote_detach")]
    fn apply_remote_detach_outcome(&mut self, detach: &Detach) -> Result<(), Refused> {
        let (fields, texts) = detach.given();
        done(calls::amqp_link_apply_remote_detach(self.held(), &fields, texts))
    }
}

impl HasHeld for Sender {
    fn held(&self) -> &Held {
        &self.0
    }
}

impl Link for Sender {
    #[doc(alias = "amqp_sender_attach_failed")]
    fn handle_attach_error(&mut self, error: Refused) -> Result<Action, Refused> {
        Action::written(|frames, ends| calls::amqp_sender_attach_failed(&self.0, error.status(), frames, ends))
    }
}

impl HasHeld for Receiver {
    fn held(&self) -> &Held {
        &self.held
    }
}

impl Link for Receiver {
    #[doc(alias = "amqp_receiver_attach_failed")]
    fn handle_attach_error(&mut self, error: Refused) -> Result<Action, Refused> {
        Action::written(|frames, ends| calls::amqp_receiver_attach_failed(&self.held, error.status(), frames, ends))
    }
}
