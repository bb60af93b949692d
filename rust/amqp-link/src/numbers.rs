//! What stands for itself: roles, modes, states, kinds. The library has a number for each.
use crate::refused::Refused;
use crate::sys;

// An enum of which each variant has a number.
macro_rules! numbered {
    ($(#[$doc:meta])* $name:ident { $($(#[$words:meta])* $variant:ident = $number:path,)* }) => {
        $(#[$doc])*
        #[derive(Clone, Copy, Debug, PartialEq, Eq, Hash)]
        pub enum $name { $($(#[$words])* $variant,)* }

        impl $name {
            #[allow(dead_code)]
            pub(crate) fn number(self) -> u32 {
                match self { $($name::$variant => $number,)* }
            }

            // `NoSuchNumber` of a number that this version does not know.
            #[allow(dead_code)]
            pub(crate) fn of(number: u32) -> Result<$name, Refused> {
                match number {
                    $($number => Ok($name::$variant),)*
                    _ => Err(Refused::NoSuchNumber),
                }
            }
        }
    };
}

numbered! {
    /// What an object has.
    Kind {
        /// Nothing.
        Nothing = sys::KIND_NOTHING,
        /// The sender of a link.
        Sender = sys::KIND_SENDER,
        /// The receiver of a link.
        Receiver = sys::KIND_RECEIVER,
        /// Frames to send.
        Frames = sys::KIND_FRAMES,
        /// An attach.
        Attach = sys::KIND_ATTACH,
        /// Deliveries to send again after an attach.
        Resuming = sys::KIND_RESUMING,
        /// Deliveries that have ended.
        Outcomes = sys::KIND_OUTCOMES,
        /// A delivery that was taken.
        Delivery = sys::KIND_DELIVERY,
        /// Deliveries that the peer has forgotten.
        Forgotten = sys::KIND_FORGOTTEN,
    }
}

numbered! {
    /// The role of a link endpoint.
    Role {
        /// The endpoint that sends, `false` on the wire.
        Sender = sys::ROLE_SENDER,
        /// The endpoint that receives, `true` on the wire.
        Receiver = sys::ROLE_RECEIVER,
    }
}

numbered! {
    /// When the sender settles its deliveries.
    #[derive(Default)]
    SenderSettleMode {
        /// It sends all deliveries unsettled.
        Unsettled = sys::SENDER_UNSETTLED,
        /// It sends all deliveries settled.
        Settled = sys::SENDER_SETTLED,
        /// Each transfer states whether it is settled. The default.
        #[default]
        Mixed = sys::SENDER_MIXED,
    }
}

numbered! {
    /// When the receiver settles its deliveries.
    #[derive(Default)]
    ReceiverSettleMode {
        /// As deliveries arrive, by itself. The default.
        #[default]
        First = sys::RECEIVER_FIRST,
        /// After the sender has settled.
        Second = sys::RECEIVER_SECOND,
    }
}

numbered! {
    /// Whether a delivery is settled as it is sent, or by a disposition.
    Settled {
        /// It is not.
        No = sys::NOT_SETTLED,
        /// It is.
        Yes = sys::SETTLED,
        /// As the mode of the delivery or of the link says.
        ByMode = sys::SETTLED_BY_MODE,
    }
}

numbered! {
    /// Which state of a terminus is durable.
    #[derive(Default)]
    TerminusDurability {
        /// Nothing. The default.
        #[default]
        None = sys::DURABLE_NONE,
        /// Its existence and configuration.
        Configuration = sys::DURABLE_CONFIGURATION,
        /// Its unsettled deliveries as well.
        UnsettledState = sys::DURABLE_UNSETTLED_STATE,
    }
}

numbered! {
    /// From when on a terminus expires.
    #[derive(Default)]
    TerminusExpiryPolicy {
        /// When its link is detached.
        LinkDetach = sys::EXPIRES_LINK_DETACH,
        /// When its session ends. The default.
        #[default]
        SessionEnd = sys::EXPIRES_SESSION_END,
        /// When its connection closes.
        ConnectionClose = sys::EXPIRES_CONNECTION_CLOSE,
        /// Never.
        Never = sys::EXPIRES_NEVER,
    }
}

numbered! {
    /// The state of a link endpoint between attach and detach. It moves when an attach or a detach is sent or arrives:
    ///
    /// ```text
    ///                         attach sent                      attach comes
    ///     Unattached ------------------------> AttachSent ---------------------> Attached
    ///     Unattached ------------------------> AttachReceived                    ^
    ///                         attach comes         |           attach sent       |
    ///                                              +-----------------------------+
    ///
    ///                         detach sent                      detach comes
    ///     Attached --------------------------> DetachSent ---------------------> Detached
    ///     Attached --------------------------> CloseSent ----------------------> Closed
    ///                        closing one sent                 closing one comes
    ///
    ///     Detached: as Unattached.       DetachSent: an attach may be sent as from Unattached.
    ///     Any state but Unattached, Detached and Closed, as the peer initiates a detach:
    ///     ---> Detached, or Closed where that detach closes.
    ///     The same states, as the session is lost: ---> Detached.
    /// ```
    ///
    /// An attach whose unsettled map is incomplete leads to the state of the same name with `Incomplete` in front, and from
    /// there the exchange ends in `IncompleteAttachExchanged`; so does it if the second attach is incomplete.
    LinkState {
        /// Neither endpoint has sent an attach.
        Unattached = sys::STATE_UNATTACHED,
        /// An attach was sent.
        AttachSent = sys::STATE_ATTACH_SENT,
        /// An attach was sent whose unsettled map is incomplete.
        IncompleteAttachSent = sys::STATE_INCOMPLETE_ATTACH_SENT,
        /// An attach arrived.
        AttachReceived = sys::STATE_ATTACH_RECEIVED,
        /// An attach arrived whose unsettled map is incomplete.
        IncompleteAttachReceived = sys::STATE_INCOMPLETE_ATTACH_RECEIVED,
        /// Both attaches were exchanged.
        Attached = sys::STATE_ATTACHED,
        /// Both attaches were exchanged, and the unsettled map of one of them is incomplete.
        IncompleteAttachExchanged = sys::STATE_INCOMPLETE_ATTACH_EXCHANGED,
        /// A detach that does not close was sent.
        DetachSent = sys::STATE_DETACH_SENT,
        /// The link is detached, and may be attached again.
        Detached = sys::STATE_DETACHED,
        /// A detach that closes was sent.
        CloseSent = sys::STATE_CLOSE_SENT,
        /// The link is closed for good.
        Closed = sys::STATE_CLOSED,
    }
}

numbered! {
    /// How far a delivery has come at a receiver.
    Stage {
        /// Its last transfer has not arrived.
        Begun = sys::STAGE_BEGUN,
        /// It is complete, and was not taken.
        Complete = sys::STAGE_COMPLETE,
        /// It was taken.
        Taken = sys::STAGE_TAKEN,
    }
}

numbered! {
    /// What follows once a receiver has exchanged attaches.
    ReceiverAttachExchange {
        /// The sender's attach states no unsettled delivery: there is nothing to resume.
        Complete = sys::EXCHANGE_COMPLETE,
        /// An attach did not state all unsettled deliveries: attach again after the others are resumed.
        IncompleteUnsettled = sys::EXCHANGE_INCOMPLETE,
        /// The sender resumes deliveries.
        Resume = sys::EXCHANGE_RESUME,
    }
}

numbered! {
    /// What a delivery of a [`Resuming`](crate::Resuming) asks for.
    ResumingDelivery {
        /// The peer has a prefix of it: the rest is sent.
        Resume = sys::RESUME,
        /// The peer has nothing of it: all of it is sent.
        Resend = sys::RESEND,
        /// It was withdrawn here, or only the peer knows it: the peer is told to forget it.
        Abort = sys::ABORT,
        /// It has an outcome here, and another one there. Its own has been decided: nothing is sent.
        RestateOutcome = sys::RESTATE_OUTCOME,
    }
}
