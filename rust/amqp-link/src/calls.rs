//! The calls of the library, each by its own name, for safe code. Nowhere else is unsafe code.
//!
//! The table below says what each call takes, in the header's order: `held` is an object, `bytes` are a pointer and a length,
//! `texts` the two texts of an error, `room` a buffer with its room, `[read T]` and `[write T]` a pointer to a `T`.
use crate::held::Held;
use crate::sys::{self, Arriving, AttachFields, DeliveryStateFields, DeliveryView, Detach, Disposition, Flow};
use crate::sys::{KeptView, LinkView, Outcome, Sizes, Terminus, Terms, Transfer};

// The type of a parameter.
macro_rules! kind {
    (held) => {
        &Held
    };
    (bytes) => {
        &[u8]
    };
    (texts) => {
        (&[u8], &[u8])
    };
    (room) => {
        &mut [u8]
    };
    ([read $kind:ident]) => {
        &$kind
    };
    ([write $kind:ident]) => {
        &mut $kind
    };
    ($kind:ident) => {
        $kind
    };
}

// A call with the parameters that stand for each argument: those that are done, and those that follow.
macro_rules! pass {
    ($call:path [$($done:expr,)*]) => { $call($($done),*) };
    ($call:path [$($done:expr,)*] $given:ident: held, $($rest:tt)*) => {
        pass!($call [$($done,)* $given.as_ptr(),] $($rest)*)
    };
    ($call:path [$($done:expr,)*] $given:ident: bytes, $($rest:tt)*) => {
        pass!($call [$($done,)* $given.as_ptr(), $given.len(),] $($rest)*)
    };
    ($call:path [$($done:expr,)*] $given:ident: texts, $($rest:tt)*) => {
        pass!($call [$($done,)* $given.0.as_ptr(), $given.0.len(), $given.1.as_ptr(), $given.1.len(),] $($rest)*)
    };
    ($call:path [$($done:expr,)*] $given:ident: room, $($rest:tt)*) => {
        pass!($call [$($done,)* $given.as_mut_ptr(), $given.len(),] $($rest)*)
    };
    ($call:path [$($done:expr,)*] $given:ident: $kind:tt, $($rest:tt)*) => {
        pass!($call [$($done,)* $given,] $($rest)*)
    };
}

macro_rules! calls {
    ($($name:ident($($given:ident: $kind:tt),*) $(-> $answer:ty)?;)*) => { $(
        #[allow(clippy::too_many_arguments)]
        pub fn $name($($given: kind!($kind)),*) $(-> $answer)? {
            // SAFETY: This is what the header asks for. No reference and no slice is null, and each is as long as is said.
            // A `bool` and a struct have a value, also where a call only writes them. What a call writes is borrowed for it
            // alone. An object is `{0}` or what a call has left in it, since only `Held` has it; it is neither copied nor
            // sent to another thread, no call runs within another, and this crate passes none twice to a call.
            unsafe { pass!(sys::$name [] $($given: $kind,)*) }
        }
    )* };
}

calls! {
    amqp_free(object: held);
    amqp_kind(object: held) -> u32;
    amqp_link_set_output_handle(link: held, handle: u32) -> u32;
    amqp_link_set_max_frame_size(link: held, max_frame_size: u32) -> u32;
    amqp_link_on_session_lost(link: held) -> u32;
    amqp_link_look(link: held, view: [write LinkView]) -> u32;
    amqp_link_name(link: held, name: room, name_size: [write usize]) -> u32;
    amqp_attach_new(attach: held, name: bytes, fields: [read AttachFields]) -> u32;
    amqp_attach_set_source(attach: held, source: [read Terminus], address: bytes) -> u32;
    amqp_attach_set_target(attach: held, target: [read Terminus], address: bytes) -> u32;
    amqp_attach_add_unsettled(attach: held, tag: bytes, state: [read DeliveryStateFields], error: texts) -> u32;
    amqp_attach_look(attach: held, fields: [write AttachFields], name: room, name_size: [write usize]) -> u32;
    amqp_attach_source(attach: held, source: [write Terminus], address: room, address_size: [write usize]) -> u32;
    amqp_attach_target(attach: held, target: [write Terminus], address: room, address_size: [write usize]) -> u32;
    amqp_attach_unsettled_count(attach: held) -> usize;
    amqp_attach_unsettled(
        attach: held, number: usize, state: [write DeliveryStateFields], tag: room, tag_size: [write usize]
    ) -> u32;
    amqp_attach_unsettled_error(
        attach: held, number: usize, condition: room, description: room, sizes: [write Sizes]
    ) -> u32;
    amqp_frames_count(frames: held) -> usize;
    amqp_frames_kind(frames: held, number: usize, kind: [write u32]) -> u32;
    amqp_frames_transfer(
        frames: held, number: usize, transfer: [write Transfer], tag: room, payload: room, sizes: [write Sizes]
    ) -> u32;
    amqp_frames_disposition(frames: held, number: usize, disposition: [write Disposition]) -> u32;
    amqp_frames_detach(frames: held, number: usize, detach: [write Detach]) -> u32;
    amqp_frames_error(frames: held, number: usize, condition: room, description: room, sizes: [write Sizes]) -> u32;
    amqp_outcomes_count(outcomes: held) -> usize;
    amqp_outcomes_at(
        outcomes: held, number: usize, outcome: [write Outcome], tag: room, tag_size: [write usize]
    ) -> u32;
    amqp_outcomes_error(
        outcomes: held, number: usize, condition: room, description: room, sizes: [write Sizes]
    ) -> u32;
    amqp_sender_new(
        sender: held, terms: [read Terms], name: bytes, source: [read Terminus], source_address: bytes,
        target: [read Terminus], target_address: bytes
    ) -> u32;
    amqp_sender_send_attach(sender: held, is_reattaching: bool, attach: held, outcomes: held) -> u32;
    amqp_sender_on_attach(
        sender: held, attach: held, resuming: held, is_incomplete: [write bool], outcomes: held
    ) -> u32;
    amqp_sender_on_flow(sender: held, flow: [read Flow], reply: [write Flow], has_reply: [write bool]) -> u32;
    amqp_sender_on_flow_keeping_credit(
        sender: held, flow: [read Flow], reply: [write Flow], has_reply: [write bool]
    ) -> u32;
    amqp_sender_give_back_credit(sender: held, reply: [write Flow], has_reply: [write bool]) -> u32;
    amqp_sender_send_flow(sender: held, has_available: bool, available: u32, echo: bool, flow: [write Flow]) -> u32;
    amqp_sender_send(
        sender: held, payload: bytes, message_format: u32, settled: u32, batchable: bool, frames: held
    ) -> u32;
    amqp_sender_send_with_tag(
        sender: held, tag: bytes, payload: bytes, message_format: u32, settled: u32, batchable: bool, frames: held
    ) -> u32;
    amqp_resuming_count(resuming: held) -> usize;
    amqp_resuming_at(resuming: held, number: usize, kind: [write u32], tag: room, tag_size: [write usize]) -> u32;
    amqp_sender_resume(sender: held, resuming: held, frames: held) -> u32;
    amqp_sender_put_back(sender: held, resuming: held) -> u32;
    amqp_sender_withdraw(sender: held, tag: bytes, was_pending: [write bool]) -> u32;
    amqp_sender_on_disposition(
        sender: held, tag: bytes, settled: bool, state: [read DeliveryStateFields], error: texts,
        echo: [write bool], outcomes: held
    ) -> u32;
    amqp_sender_dispose(
        sender: held, delivery_id: u32, tag: bytes, settled: bool, state: [read DeliveryStateFields], error: texts,
        frames: held, outcomes: held
    ) -> u32;
    amqp_sender_fate(sender: held, number: usize, kind: [write u32], outcome: [write Outcome]) -> u32;
    amqp_sender_fate_error(
        sender: held, number: usize, condition: room, description: room, sizes: [write Sizes]
    ) -> u32;
    amqp_sender_release(sender: held, before: usize, first_pending: [write usize]) -> u32;
    amqp_receiver_new(
        receiver: held, terms: [read Terms], name: bytes, source: [read Terminus], source_address: bytes,
        target: [read Terminus], target_address: bytes
    ) -> u32;
    amqp_receiver_send_attach(receiver: held, is_reattaching: bool, attach: held) -> u32;
    amqp_receiver_on_attach(receiver: held, attach: held, exchange: [write u32], forgotten: held) -> u32;
    amqp_forgotten_count(forgotten: held) -> usize;
    amqp_forgotten_at(forgotten: held, number: usize, stage: [write u32], tag: room, tag_size: [write usize]) -> u32;
    amqp_receiver_send_flow(
        receiver: held, has_credit: bool, credit: u32, has_drain: bool, drain: bool, echo: bool, flow: [write Flow]
    ) -> u32;
    amqp_receiver_on_flow(receiver: held, flow: [read Flow], reply: [write Flow], has_reply: [write bool]) -> u32;
    amqp_receiver_on_transfer(
        receiver: held, transfer: [read Transfer], tag: bytes, payload: bytes, arriving: [write Arriving],
        ended_tag: room, ended_tag_size: [write usize]
    ) -> u32;
    amqp_receiver_take(receiver: held, tag: bytes, delivery: held) -> u32;
    amqp_receiver_take_settled(receiver: held, delivery: held) -> u32;
    amqp_receiver_settled_count(receiver: held, count: [write usize]) -> u32;
    amqp_receiver_kept(receiver: held, tag: bytes, view: [write KeptView]) -> u32;
    amqp_delivery_look(delivery: held, view: [write DeliveryView], tag: room, tag_size: [write usize]) -> u32;
    amqp_delivery_message(delivery: held, message: room, message_size: [write usize]) -> u32;
    amqp_receiver_dispose(
        receiver: held, tag: bytes, settled: u32, state: [read DeliveryStateFields], error: texts, batchable: bool,
        frames: held
    ) -> u32;
    amqp_receiver_keep_outcome(receiver: held, tag: bytes, state: [read DeliveryStateFields], error: texts) -> u32;
    amqp_receiver_on_disposition(
        receiver: held, tag: bytes, settled: bool, state: [read DeliveryStateFields], error: texts
    ) -> u32;
    amqp_link_send_detach(link: held, detach: [read Detach], error: texts, frames: held) -> u32;
    amqp_link_detach_frame(link: held, frames: held) -> u32;
    amqp_link_on_detach_reply(link: held, detach: [read Detach], error: texts) -> u32;
    amqp_link_apply_remote_detach(link: held, detach: [read Detach], error: texts) -> u32;
    amqp_sender_on_detach(
        sender: held, detach: [read Detach], error: texts, remote_initiated: bool, reply: held, outcomes: held
    ) -> u32;
    amqp_receiver_on_detach(
        receiver: held, detach: [read Detach], error: texts, remote_initiated: bool, reply: held
    ) -> u32;
    amqp_sender_fail_pending_unsettled(sender: held, detach: [read Detach], error: texts, outcomes: held) -> u32;
    amqp_sender_attach_failed(sender: held, status: u32, frames: held, ends_session: [write bool]) -> u32;
    amqp_receiver_attach_failed(receiver: held, status: u32, frames: held, ends_session: [write bool]) -> u32;
}
