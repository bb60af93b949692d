//! No type that has an object of the library goes to another thread, or is shared with one. This file compiles only if so.
use amqp_link::{Action, Attach, Delivery, DispositionAnswer, Forgotten, Frames, Outcomes, Receiver, Resuming, Sender};
use amqp_link::{Flow, LinkFrame, Refused, SenderAttachExchange};

// A type that is `Send` or `Sync` has this for two parameters, so that which is meant stays open: an error.
trait Stays<Parameter> {
    fn stays() {}
}
struct IsSend;
struct IsSync;
impl<T> Stays<()> for T {}
impl<T: Send> Stays<IsSend> for T {}
impl<T: Sync> Stays<IsSync> for T {}

#[test]
fn objects_stay_on_their_thread() {
    <Sender as Stays<_>>::stays();
    <Receiver as Stays<_>>::stays();
    <Attach as Stays<_>>::stays();
    <Frames as Stays<_>>::stays();
    <Outcomes as Stays<_>>::stays();
    <Resuming as Stays<_>>::stays();
    <Forgotten as Stays<_>>::stays();
    <Delivery as Stays<_>>::stays();
    <Action as Stays<_>>::stays();
    <DispositionAnswer as Stays<_>>::stays();
    <SenderAttachExchange as Stays<_>>::stays();
}

#[test]
fn plain_values_do_not() {
    fn goes<T: Send + Sync>() {}
    goes::<(Flow, LinkFrame, Refused)>();
}
