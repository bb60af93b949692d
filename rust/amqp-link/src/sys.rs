//! What the static library exports. Written by .ci/header.

pub const OK: u32 = 0;
pub const EMPTY: u32 = 1;
pub const WRONG_KIND: u32 = 2;
pub const OUT_OF_MEMORY: u32 = 3;
pub const NO_TEXT: u32 = 4;
pub const NO_SUCH_NUMBER: u32 = 5;
pub const BUFFER_TOO_SMALL: u32 = 6;
pub const NO_SUCH_ENTRY: u32 = 7;
pub const ILLEGAL_STATE: u32 = 10;
pub const CREDIT_MISSING: u32 = 11;
pub const TAG_PENDING: u32 = 12;
pub const NO_ROOM: u32 = 13;
pub const REMOTE_DETACHED: u32 = 14;
pub const REMOTE_DETACHED_WITH_ERROR: u32 = 15;
pub const REMOTE_CLOSED: u32 = 16;
pub const REMOTE_CLOSED_WITH_ERROR: u32 = 17;
pub const EXPECT_IMMEDIATE_DETACH: u32 = 18;
pub const SESSION_STOPPED: u32 = 19;
pub const SESSION_NOT_MAPPED: u32 = 20;
pub const NON_ATTACH_FRAME_RECEIVED: u32 = 21;
pub const DUPLICATED_LINK_NAME: u32 = 22;
pub const COORDINATOR_IS_NOT_IMPLEMENTED: u32 = 23;
pub const INCOMING_TARGET_IS_NONE: u32 = 24;
pub const SND_SETTLE_MODE_NOT_SUPPORTED: u32 = 25;
pub const SOURCE_ADDRESS_IS_SOME_WHEN_DYNAMIC_IS_TRUE: u32 = 26;
pub const TARGET_ADDRESS_IS_NONE_WHEN_DYNAMIC_IS_TRUE: u32 = 27;
pub const DYNAMIC_NODE_PROPERTIES_IS_SOME_WHEN_DYNAMIC_IS_FALSE: u32 = 28;
pub const ATTACH_TOO_LARGE: u32 = 29;
pub const INCOMING_SOURCE_IS_NONE: u32 = 30;
pub const INITIAL_DELIVERY_COUNT_IS_NONE: u32 = 31;
pub const DESIRED_FILTER_NOT_SUPPORTED: u32 = 32;
pub const SOURCE_ADDRESS_IS_NONE_WHEN_DYNAMIC_IS_TRUE: u32 = 33;
pub const TARGET_ADDRESS_IS_SOME_WHEN_DYNAMIC_IS_TRUE: u32 = 34;
pub const UNATTACHED_HANDLE: u32 = 35;
pub const TRANSFER_FRAME_TO_SENDER: u32 = 36;
pub const TRANSFER_LIMIT_EXCEEDED: u32 = 37;
pub const DELIVERY_ID_IS_NONE: u32 = 38;
pub const DELIVERY_TAG_IS_NONE: u32 = 39;
pub const ILLEGAL_RCV_SETTLE_MODE_IN_TRANSFER: u32 = 40;
pub const INCONSISTENT_FIELD_IN_MULTI_FRAME_DELIVERY: u32 = 41;
pub const PAYLOAD_TOO_LONG: u32 = 42;
pub const MESSAGE_DECODE: u32 = 43;
pub const UNKNOWN_TAG: u32 = 44;
pub const NOT_COMPLETE: u32 = 45;
pub const ALREADY_TAKEN: u32 = 46;
pub const NOT_ATTACHED: u32 = 47;
pub const UNDECODED: u32 = 48;
pub const NOT_TAKEN: u32 = 49;
pub const NOT_RESUMED: u32 = 50;
pub const STILL_PENDING: u32 = 51;

pub const KIND_NOTHING: u32 = 0;
pub const KIND_SENDER: u32 = 1;
pub const KIND_RECEIVER: u32 = 2;
pub const KIND_FRAMES: u32 = 3;
pub const KIND_ATTACH: u32 = 4;
pub const KIND_RESUMING: u32 = 5;
pub const KIND_OUTCOMES: u32 = 6;
pub const KIND_DELIVERY: u32 = 7;
pub const KIND_FORGOTTEN: u32 = 8;

pub const ROLE_SENDER: u32 = 0;
pub const ROLE_RECEIVER: u32 = 1;
pub const SENDER_UNSETTLED: u32 = 0;
pub const SENDER_SETTLED: u32 = 1;
pub const SENDER_MIXED: u32 = 2;
pub const RECEIVER_FIRST: u32 = 0;
pub const RECEIVER_SECOND: u32 = 1;
pub const NOT_SETTLED: u32 = 0;
pub const SETTLED: u32 = 1;
pub const SETTLED_BY_MODE: u32 = 2;
pub const DURABLE_NONE: u32 = 0;
pub const DURABLE_CONFIGURATION: u32 = 1;
pub const DURABLE_UNSETTLED_STATE: u32 = 2;
pub const EXPIRES_LINK_DETACH: u32 = 0;
pub const EXPIRES_SESSION_END: u32 = 1;
pub const EXPIRES_CONNECTION_CLOSE: u32 = 2;
pub const EXPIRES_NEVER: u32 = 3;
pub const STATE_UNATTACHED: u32 = 0;
pub const STATE_ATTACH_SENT: u32 = 1;
pub const STATE_INCOMPLETE_ATTACH_SENT: u32 = 2;
pub const STATE_ATTACH_RECEIVED: u32 = 3;
pub const STATE_INCOMPLETE_ATTACH_RECEIVED: u32 = 4;
pub const STATE_ATTACHED: u32 = 5;
pub const STATE_INCOMPLETE_ATTACH_EXCHANGED: u32 = 6;
pub const STATE_DETACH_SENT: u32 = 7;
pub const STATE_DETACHED: u32 = 8;
pub const STATE_CLOSE_SENT: u32 = 9;
pub const STATE_CLOSED: u32 = 10;

pub const NO_STATE: u32 = 0;
pub const ACCEPTED: u32 = 1;
pub const REJECTED: u32 = 2;
pub const RELEASED: u32 = 3;
pub const MODIFIED: u32 = 4;
pub const RECEIVED: u32 = 5;

pub const FRAME_ATTACH: u32 = 1;
pub const FRAME_FLOW: u32 = 2;
pub const FRAME_FIRST_TRANSFER: u32 = 3;
pub const FRAME_TRANSFER: u32 = 4;
pub const FRAME_DISPOSITION: u32 = 5;
pub const FRAME_DETACH: u32 = 6;

pub const RESUME: u32 = 1;
pub const RESEND: u32 = 2;
pub const ABORT: u32 = 3;
pub const RESTATE_OUTCOME: u32 = 4;

pub const FATE_PENDING: u32 = 0;
pub const FATE_WITHDRAWN: u32 = 1;
pub const FATE_HANDED_OUT: u32 = 2;
pub const FATE_RESOLVED: u32 = 3;
pub const FATE_RELEASED: u32 = 4;

pub const EXCHANGE_COMPLETE: u32 = 0;
pub const EXCHANGE_INCOMPLETE: u32 = 1;
pub const EXCHANGE_RESUME: u32 = 2;
pub const STAGE_BEGUN: u32 = 1;
pub const STAGE_COMPLETE: u32 = 2;
pub const STAGE_TAKEN: u32 = 3;

pub const ARRIVAL_BEGUN: u32 = 1;
pub const ARRIVAL_CONTINUED: u32 = 2;
pub const ARRIVAL_COMPLETE: u32 = 3;
pub const ARRIVAL_COMPLETE_SETTLED: u32 = 4;
pub const ARRIVAL_KNOWN: u32 = 5;
pub const ARRIVAL_ABORTED: u32 = 6;
pub const ARRIVAL_IGNORED: u32 = 7;

#[repr(C)]
pub struct Object {
    pub at: *mut u8,
    pub is_full: bool,
}

#[repr(C)]
#[derive(Clone, Copy, Debug, Default)]
pub struct LinkView {
    pub max_message_size: u64,
    pub unsettled: usize,
    pub state: u32,
    pub output_handle: u32,
    pub input_handle: u32,
    pub delivery_count: u32,
    pub link_credit: u32,
    pub snd_settle_mode: u32,
    pub rcv_settle_mode: u32,
    pub has_output_handle: bool,
    pub has_input_handle: bool,
    pub drain: bool,
}

#[repr(C)]
#[derive(Clone, Copy, Debug, Default)]
pub struct AttachFields {
    pub max_message_size: u64,
    pub handle: u32,
    pub role: u32,
    pub snd_settle_mode: u32,
    pub rcv_settle_mode: u32,
    pub initial_delivery_count: u32,
    pub has_max_message_size: bool,
    pub has_initial_delivery_count: bool,
    pub incomplete_unsettled: bool,
}

#[repr(C)]
#[derive(Clone, Copy, Debug, Default)]
pub struct Terminus {
    pub durable: u32,
    pub expiry_policy: u32,
    pub timeout: u32,
    pub is_there: bool,
    pub has_address: bool,
    pub dynamic: bool,
}

#[repr(C)]
#[derive(Clone, Copy, Debug, Default)]
pub struct DeliveryStateFields {
    pub section_offset: u64,
    pub kind: u32,
    pub section_number: u32,
    pub has_error: bool,
    pub has_description: bool,
    pub has_delivery_failed: bool,
    pub delivery_failed: bool,
    pub has_undeliverable_here: bool,
    pub undeliverable_here: bool,
}

#[repr(C)]
#[derive(Clone, Copy, Debug, Default)]
pub struct Sizes {
    pub first: usize,
    pub second: usize,
}

#[repr(C)]
#[derive(Clone, Copy, Debug, Default)]
pub struct Transfer {
    pub state: DeliveryStateFields,
    pub handle: u32,
    pub delivery_id: u32,
    pub message_format: u32,
    pub rcv_settle_mode: u32,
    pub has_delivery_id: bool,
    pub has_tag: bool,
    pub has_message_format: bool,
    pub has_settled: bool,
    pub settled: bool,
    pub more: bool,
    pub has_rcv_settle_mode: bool,
    pub resume: bool,
    pub aborted: bool,
    pub batchable: bool,
}

#[repr(C)]
#[derive(Clone, Copy, Debug, Default)]
pub struct Disposition {
    pub state: DeliveryStateFields,
    pub role: u32,
    pub first: u32,
    pub last: u32,
    pub has_last: bool,
    pub settled: bool,
    pub batchable: bool,
}

#[repr(C)]
#[derive(Clone, Copy, Debug, Default)]
pub struct Detach {
    pub handle: u32,
    pub closed: bool,
    pub has_error: bool,
    pub has_description: bool,
}

#[repr(C)]
#[derive(Clone, Copy, Debug, Default)]
pub struct Outcome {
    pub state: DeliveryStateFields,
    pub failed: u32,
}

#[repr(C)]
#[derive(Clone, Copy, Debug, Default)]
pub struct Terms {
    pub max_message_size: u64,
    pub max_frame_size: u32,
    pub snd_settle_mode: u32,
    pub rcv_settle_mode: u32,
    pub initial_delivery_count: u32,
    pub verify_incoming_source: bool,
    pub verify_incoming_target: bool,
}

#[repr(C)]
#[derive(Clone, Copy, Debug, Default)]
pub struct Flow {
    pub handle: u32,
    pub delivery_count: u32,
    pub link_credit: u32,
    pub available: u32,
    pub has_delivery_count: bool,
    pub has_link_credit: bool,
    pub has_available: bool,
    pub drain: bool,
    pub echo: bool,
}

#[repr(C)]
#[derive(Clone, Copy, Debug, Default)]
pub struct Arriving {
    pub arrival: u32,
    pub aborted_at: u32,
    pub replaced: u32,
    pub session_id: u32,
    pub has_session_id: bool,
    pub without_credit: bool,
}

#[repr(C)]
#[derive(Clone, Copy, Debug, Default)]
pub struct KeptView {
    pub stage: u32,
    pub delivery_id: u32,
    pub has_delivery_id: bool,
    pub settled: bool,
}

#[repr(C)]
#[derive(Clone, Copy, Debug, Default)]
pub struct DeliveryView {
    pub message_size: usize,
    pub delivery_id: u32,
    pub message_format: u32,
    pub has_message_format: bool,
}

extern "C" {
    pub fn amqp_free(object: *mut Object);
    pub fn amqp_kind(object: *mut Object) -> u32;
    pub fn amqp_link_set_output_handle(link: *mut Object, handle: u32) -> u32;
    pub fn amqp_link_set_max_frame_size(link: *mut Object, max_frame_size: u32) -> u32;
    pub fn amqp_link_on_session_lost(link: *mut Object) -> u32;
    pub fn amqp_link_look(link: *mut Object, view: *mut LinkView) -> u32;
    pub fn amqp_link_name(
        link: *mut Object,
        name: *mut u8,
        name_room: usize,
        name_size: *mut usize,
    ) -> u32;
    pub fn amqp_attach_new(
        attach: *mut Object,
        name: *const u8,
        name_len: usize,
        fields: *const AttachFields,
    ) -> u32;
    pub fn amqp_attach_set_source(
        attach: *mut Object,
        source: *const Terminus,
        address: *const u8,
        address_len: usize,
    ) -> u32;
    pub fn amqp_attach_set_target(
        attach: *mut Object,
        target: *const Terminus,
        address: *const u8,
        address_len: usize,
    ) -> u32;
    pub fn amqp_attach_add_unsettled(
        attach: *mut Object,
        tag: *const u8,
        tag_len: usize,
        state: *const DeliveryStateFields,
        condition: *const u8,
        condition_len: usize,
        description: *const u8,
        description_len: usize,
    ) -> u32;
    pub fn amqp_attach_look(
        attach: *mut Object,
        fields: *mut AttachFields,
        name: *mut u8,
        name_room: usize,
        name_size: *mut usize,
    ) -> u32;
    pub fn amqp_attach_source(
        attach: *mut Object,
        source: *mut Terminus,
        address: *mut u8,
        address_room: usize,
        address_size: *mut usize,
    ) -> u32;
    pub fn amqp_attach_target(
        attach: *mut Object,
        target: *mut Terminus,
        address: *mut u8,
        address_room: usize,
        address_size: *mut usize,
    ) -> u32;
    pub fn amqp_attach_unsettled_count(attach: *mut Object) -> usize;
    pub fn amqp_attach_unsettled(
        attach: *mut Object,
        number: usize,
        state: *mut DeliveryStateFields,
        tag: *mut u8,
        tag_room: usize,
        tag_size: *mut usize,
    ) -> u32;
    pub fn amqp_attach_unsettled_error(
        attach: *mut Object,
        number: usize,
        condition: *mut u8,
        condition_room: usize,
        description: *mut u8,
        description_room: usize,
        sizes: *mut Sizes,
    ) -> u32;
    pub fn amqp_frames_count(frames: *mut Object) -> usize;
    pub fn amqp_frames_kind(frames: *mut Object, number: usize, kind: *mut u32) -> u32;
    pub fn amqp_frames_transfer(
        frames: *mut Object,
        number: usize,
        transfer: *mut Transfer,
        tag: *mut u8,
        tag_room: usize,
        payload: *mut u8,
        payload_room: usize,
        sizes: *mut Sizes,
    ) -> u32;
    pub fn amqp_frames_disposition(
        frames: *mut Object,
        number: usize,
        disposition: *mut Disposition,
    ) -> u32;
    pub fn amqp_frames_detach(frames: *mut Object, number: usize, detach: *mut Detach) -> u32;
    pub fn amqp_frames_error(
        frames: *mut Object,
        number: usize,
        condition: *mut u8,
        condition_room: usize,
        description: *mut u8,
        description_room: usize,
        sizes: *mut Sizes,
    ) -> u32;
    pub fn amqp_outcomes_count(outcomes: *mut Object) -> usize;
    pub fn amqp_outcomes_at(
        outcomes: *mut Object,
        number: usize,
        outcome: *mut Outcome,
        tag: *mut u8,
        tag_room: usize,
        tag_size: *mut usize,
    ) -> u32;
    pub fn amqp_outcomes_error(
        outcomes: *mut Object,
        number: usize,
        condition: *mut u8,
        condition_room: usize,
        description: *mut u8,
        description_room: usize,
        sizes: *mut Sizes,
    ) -> u32;
    pub fn amqp_sender_new(
        sender: *mut Object,
        terms: *const Terms,
        name: *const u8,
        name_len: usize,
        source: *const Terminus,
        source_address: *const u8,
        source_address_len: usize,
        target: *const Terminus,
        target_address: *const u8,
        target_address_len: usize,
    ) -> u32;
    pub fn amqp_sender_send_attach(
        sender: *mut Object,
        is_reattaching: bool,
        attach: *mut Object,
        outcomes: *mut Object,
    ) -> u32;
    pub fn amqp_sender_on_attach(
        sender: *mut Object,
        attach: *mut Object,
        resuming: *mut Object,
        is_incomplete: *mut bool,
        outcomes: *mut Object,
    ) -> u32;
    pub fn amqp_sender_on_flow(
        sender: *mut Object,
        flow: *const Flow,
        reply: *mut Flow,
        has_reply: *mut bool,
    ) -> u32;
    pub fn amqp_sender_on_flow_keeping_credit(
        sender: *mut Object,
        flow: *const Flow,
        reply: *mut Flow,
        has_reply: *mut bool,
    ) -> u32;
    pub fn amqp_sender_give_back_credit(
        sender: *mut Object,
        reply: *mut Flow,
        has_reply: *mut bool,
    ) -> u32;
    pub fn amqp_sender_send_flow(
        sender: *mut Object,
        has_available: bool,
        available: u32,
        echo: bool,
        flow: *mut Flow,
    ) -> u32;
    pub fn amqp_sender_send(
        sender: *mut Object,
        payload: *const u8,
        payload_len: usize,
        message_format: u32,
        settled: u32,
        batchable: bool,
        frames: *mut Object,
    ) -> u32;
    pub fn amqp_sender_send_with_tag(
        sender: *mut Object,
        tag: *const u8,
        tag_len: usize,
        payload: *const u8,
        payload_len: usize,
        message_format: u32,
        settled: u32,
        batchable: bool,
        frames: *mut Object,
    ) -> u32;
    pub fn amqp_resuming_count(resuming: *mut Object) -> usize;
    pub fn amqp_resuming_at(
        resuming: *mut Object,
        number: usize,
        kind: *mut u32,
        tag: *mut u8,
        tag_room: usize,
        tag_size: *mut usize,
    ) -> u32;
    pub fn amqp_sender_resume(
        sender: *mut Object,
        resuming: *mut Object,
        frames: *mut Object,
    ) -> u32;
    pub fn amqp_sender_put_back(sender: *mut Object, resuming: *mut Object) -> u32;
    pub fn amqp_sender_withdraw(
        sender: *mut Object,
        tag: *const u8,
        tag_len: usize,
        was_pending: *mut bool,
    ) -> u32;
    pub fn amqp_sender_on_disposition(
        sender: *mut Object,
        tag: *const u8,
        tag_len: usize,
        settled: bool,
        state: *const DeliveryStateFields,
        condition: *const u8,
        condition_len: usize,
        description: *const u8,
        description_len: usize,
        echo: *mut bool,
        outcomes: *mut Object,
    ) -> u32;
    pub fn amqp_sender_dispose(
        sender: *mut Object,
        delivery_id: u32,
        tag: *const u8,
        tag_len: usize,
        settled: bool,
        state: *const DeliveryStateFields,
        condition: *const u8,
        condition_len: usize,
        description: *const u8,
        description_len: usize,
        frames: *mut Object,
        outcomes: *mut Object,
    ) -> u32;
    pub fn amqp_sender_fate(
        sender: *mut Object,
        number: usize,
        kind: *mut u32,
        outcome: *mut Outcome,
    ) -> u32;
    pub fn amqp_sender_fate_error(
        sender: *mut Object,
        number: usize,
        condition: *mut u8,
        condition_room: usize,
        description: *mut u8,
        description_room: usize,
        sizes: *mut Sizes,
    ) -> u32;
    pub fn amqp_sender_release(
        sender: *mut Object,
        before: usize,
        first_pending: *mut usize,
    ) -> u32;
    pub fn amqp_receiver_new(
        receiver: *mut Object,
        terms: *const Terms,
        name: *const u8,
        name_len: usize,
        source: *const Terminus,
        source_address: *const u8,
        source_address_len: usize,
        target: *const Terminus,
        target_address: *const u8,
        target_address_len: usize,
    ) -> u32;
    pub fn amqp_receiver_send_attach(
        receiver: *mut Object,
        is_reattaching: bool,
        attach: *mut Object,
    ) -> u32;
    pub fn amqp_receiver_on_attach(
        receiver: *mut Object,
        attach: *mut Object,
        exchange: *mut u32,
        forgotten: *mut Object,
    ) -> u32;
    pub fn amqp_forgotten_count(forgotten: *mut Object) -> usize;
    pub fn amqp_forgotten_at(
        forgotten: *mut Object,
        number: usize,
        stage: *mut u32,
        tag: *mut u8,
        tag_room: usize,
        tag_size: *mut usize,
    ) -> u32;
    pub fn amqp_receiver_send_flow(
        receiver: *mut Object,
        has_credit: bool,
        credit: u32,
        has_drain: bool,
        drain: bool,
        echo: bool,
        flow: *mut Flow,
    ) -> u32;
    pub fn amqp_receiver_on_flow(
        receiver: *mut Object,
        flow: *const Flow,
        reply: *mut Flow,
        has_reply: *mut bool,
    ) -> u32;
    pub fn amqp_receiver_on_transfer(
        receiver: *mut Object,
        transfer: *const Transfer,
        tag: *const u8,
        tag_len: usize,
        payload: *const u8,
        payload_len: usize,
        arriving: *mut Arriving,
        ended_tag: *mut u8,
        ended_tag_room: usize,
        ended_tag_size: *mut usize,
    ) -> u32;
    pub fn amqp_receiver_take(
        receiver: *mut Object,
        tag: *const u8,
        tag_len: usize,
        delivery: *mut Object,
    ) -> u32;
    pub fn amqp_receiver_take_settled(receiver: *mut Object, delivery: *mut Object) -> u32;
    pub fn amqp_receiver_settled_count(receiver: *mut Object, count: *mut usize) -> u32;
    pub fn amqp_receiver_kept(
        receiver: *mut Object,
        tag: *const u8,
        tag_len: usize,
        view: *mut KeptView,
    ) -> u32;
    pub fn amqp_delivery_look(
        delivery: *mut Object,
        view: *mut DeliveryView,
        tag: *mut u8,
        tag_room: usize,
        tag_size: *mut usize,
    ) -> u32;
    pub fn amqp_delivery_message(
        delivery: *mut Object,
        message: *mut u8,
        message_room: usize,
        message_size: *mut usize,
    ) -> u32;
    pub fn amqp_receiver_dispose(
        receiver: *mut Object,
        tag: *const u8,
        tag_len: usize,
        settled: u32,
        state: *const DeliveryStateFields,
        condition: *const u8,
        condition_len: usize,
        description: *const u8,
        description_len: usize,
        batchable: bool,
        frames: *mut Object,
    ) -> u32;
    pub fn amqp_receiver_keep_outcome(
        receiver: *mut Object,
        tag: *const u8,
        tag_len: usize,
        state: *const DeliveryStateFields,
        condition: *const u8,
        condition_len: usize,
        description: *const u8,
        description_len: usize,
    ) -> u32;
    pub fn amqp_receiver_on_disposition(
        receiver: *mut Object,
        tag: *const u8,
        tag_len: usize,
        settled: bool,
        state: *const DeliveryStateFields,
        condition: *const u8,
        condition_len: usize,
        description: *const u8,
        description_len: usize,
    ) -> u32;
    pub fn amqp_link_send_detach(
        link: *mut Object,
        detach: *const Detach,
        condition: *const u8,
        condition_len: usize,
        description: *const u8,
        description_len: usize,
        frames: *mut Object,
    ) -> u32;
    pub fn amqp_link_detach_frame(link: *mut Object, frames: *mut Object) -> u32;
    pub fn amqp_link_on_detach_reply(
        link: *mut Object,
        detach: *const Detach,
        condition: *const u8,
        condition_len: usize,
        description: *const u8,
        description_len: usize,
    ) -> u32;
    pub fn amqp_link_apply_remote_detach(
        link: *mut Object,
        detach: *const Detach,
        condition: *const u8,
        condition_len: usize,
        description: *const u8,
        description_len: usize,
    ) -> u32;
    pub fn amqp_sender_on_detach(
        sender: *mut Object,
        detach: *const Detach,
        condition: *const u8,
        condition_len: usize,
        description: *const u8,
        description_len: usize,
        remote_initiated: bool,
        reply: *mut Object,
        outcomes: *mut Object,
    ) -> u32;
    pub fn amqp_receiver_on_detach(
        receiver: *mut Object,
        detach: *const Detach,
        condition: *const u8,
        condition_len: usize,
        description: *const u8,
        description_len: usize,
        remote_initiated: bool,
        reply: *mut Object,
    ) -> u32;
    pub fn amqp_sender_fail_pending_unsettled(
        sender: *mut Object,
        detach: *const Detach,
        condition: *const u8,
        condition_len: usize,
        description: *const u8,
        description_len: usize,
        outcomes: *mut Object,
    ) -> u32;
    pub fn amqp_sender_attach_failed(
        sender: *mut Object,
        status: u32,
        frames: *mut Object,
        ends_session: *mut bool,
    ) -> u32;
    pub fn amqp_receiver_attach_failed(
        receiver: *mut Object,
        status: u32,
        frames: *mut Object,
        ends_session: *mut bool,
    ) -> u32;
}
