//! Links and deliveries of AMQP 1.0, over a static library in which each call is proved to meet its contract.
//!
//! [`Sender`] and [`Receiver`] are the two endpoints of a link, [`Link`] is what both have. A session layer, which is not part of
//! this crate, gives each link a handle and each delivery an id. It writes what the calls return as bytes, and passes what it
//! reads to the link that has its handle: an [`Attach`], a [`Flow`], a [`Transfer`], a [`Disposition`], a [`Detach`].
//! `examples/two_links.rs` has both ends, `examples/one_end.rs` one end and a peer of another make. The docs of the calls give
//! their names in C as well.
//!
//! A call that is refused returns [`Refused`], and has changed nothing where its doc does not say otherwise: the calls that take
//! a peer's attach or detach do. Each may be refused with `OutOfMemory`, and has changed nothing then.
//!
//! No type that has an object of the library is `Send` or `Sync`: a link stays on its thread. An object has a raw pointer, from
//! which the compiler takes it. An object is freed as it is dropped.

#![deny(missing_docs, unsafe_code)]

mod attach;
#[allow(missing_docs, unsafe_code)]
mod calls;
mod frames;
mod held;
mod link;
mod lists;
mod numbers;
mod parts;
mod receiver;
mod refused;
mod sender;
mod state;
#[allow(dead_code, missing_docs)]
#[rustfmt::skip]
mod sys;

pub use attach::{Attach, AttachFields};
pub use frames::{Detach, Disposition, Flow, Frames, LinkFrame, LinkTransfer, Transfer};
pub use held::Object;
pub use link::{Action, Link, LinkView};
pub use lists::{Forgotten, Outcomes, Resuming};
pub use numbers::{Kind, LinkState, ReceiverAttachExchange, ReceiverSettleMode, ResumingDelivery, Role};
pub use numbers::{SenderSettleMode, Settled, Stage, TerminusDurability, TerminusExpiryPolicy};
pub use parts::{LinkParts, Terminus};
pub use receiver::{Arrival, Arrived, Delivery, DeliveryInfo, Kept, Receiver};
pub use refused::Refused;
pub use sender::{DispositionAnswer, Fate, Sender, SenderAttachExchange};
pub use state::{DeliveryState, Error, Outcome};
