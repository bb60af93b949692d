/* Links and deliveries of AMQP 1.0 (the link and delivery layer of OASIS AMQP 1.0, part 2). Written by .ci/header from
 * crates/amqp_link_c: change the code, not this file. docs/C.md has a first program.
 *
 * A value of the layer is in an amqp_object, which the caller allocates: {0} at first, nothing. A call puts what it makes into
 * an object: what was there is freed, and the object need not be empty. The caller frees each object by amqp_free, once it is
 * done with it; to free the same object again is harmless.
 *
 * A call of type amqp_status returns AMQP_OK, or why it was refused. Each that takes objects may return AMQP_EMPTY, for one
 * with nothing, and AMQP_WRONG_KIND, for one of another kind; each that allocates AMQP_OUT_OF_MEMORY. Each that reads an entry by
 * its number, counted from 0, returns AMQP_NO_SUCH_ENTRY past the last one, and of an entry of another kind or without an error.
 * After these four, and wherever the doc of a call does not say otherwise, nothing has changed: no link, no object, nothing
 * behind a pointer, but a size that is needed. The doc of a call names the other statuses in the order in which it tests them.
 *
 * Bytes that a call takes are a pointer and a length; it copies what it keeps. Bytes that it gives are copied into a buffer of
 * the caller's, with its room, and their size is written beside it, also if it returns AMQP_BUFFER_TOO_SMALL; 32 bytes are room
 * for each tag that a peer may send.
 *
 * A struct that is {0} states numbers that stand for something, and not always what the standard has where nothing is stated:
 * snd_settle_mode 0 is AMQP_SENDER_UNSETTLED, and expiry_policy 0 is AMQP_EXPIRES_LINK_DETACH.
 *
 * What a caller has to keep, since nothing checks it:
 * - no pointer is null, not even one to 0 bytes, and each is aligned as its type asks;
 * - a length or a room is no more than the bytes that are behind its pointer, and than SIZE_MAX / 2;
 * - what a call writes overlaps nothing else that the call is passed; what it only reads may be passed twice;
 * - an object is {0} before its first call, also one that only gets a result: what is in it is freed;
 * - only these calls read and write what is in an object; of an object that was copied only one copy is used from then on, and
 *   only that one is freed;
 * - a bool is 0 or 1, also one that a call is only to write: initialise it. Numbers and bytes that it writes need not be;
 * - one call at a time on an object, and an object stays on its thread.
 */
#ifndef AMQP_LINK_H
#define AMQP_LINK_H

#include <stdbool.h>
#include <stddef.h>
#include <stdint.h>

#ifdef __cplusplus
extern "C" {
#endif

/* 0, or why a call was refused. */
typedef uint32_t amqp_status;

/* ---- What a call returns ---- */

enum {
  /* The call is done. */
  AMQP_OK = 0,
  /* There is nothing in an object that the call takes a value from. */
  AMQP_EMPTY = 1,
  /* An object has a value of another kind. */
  AMQP_WRONG_KIND = 2,
  /* Out of memory. Nothing has changed: the same call can be made again. */
  AMQP_OUT_OF_MEMORY = 3,
  /* Bytes that are to be a text are no UTF-8. */
  AMQP_NO_TEXT = 4,
  /* A number is none of those that stand for a mode, a kind or a role. */
  AMQP_NO_SUCH_NUMBER = 5,
  /* A buffer of the caller's is too small. The size that is needed was written. */
  AMQP_BUFFER_TOO_SMALL = 6,
  /* A list has no entry of that number, or a frame or an entry is of another kind or has no error; an object without frames or
   * outcomes has none. */
  AMQP_NO_SUCH_ENTRY = 7,
  /* The link is not in a state for this call, or a handle or a tag is missing. */
  AMQP_ILLEGAL_STATE = 10,
  /* The receiver has granted no more credit: send after its next flow. */
  AMQP_CREDIT_MISSING = 11,
  /* A delivery with this tag is pending. */
  AMQP_TAG_PENDING = 12,
  /* The frame limit leaves no room for the transfer. */
  AMQP_NO_ROOM = 13,
  /* The peer has detached the link. */
  AMQP_REMOTE_DETACHED = 14,
  /* The peer has detached the link with an error. */
  AMQP_REMOTE_DETACHED_WITH_ERROR = 15,
  /* The peer has closed the link. */
  AMQP_REMOTE_CLOSED = 16,
  /* The peer has closed the link with an error. */
  AMQP_REMOTE_CLOSED_WITH_ERROR = 17,
  /* Another frame arrived where only a detach may, or the session has stopped without a reason. */
  AMQP_EXPECT_IMMEDIATE_DETACH = 18,
  /* The session has stopped. */
  AMQP_SESSION_STOPPED = 19,
  /* The session is not mapped. */
  AMQP_SESSION_NOT_MAPPED = 20,
  /* Another frame arrived in place of the attach. */
  AMQP_NON_ATTACH_FRAME_RECEIVED = 21,
  /* Another link of the session has the same name. */
  AMQP_DUPLICATED_LINK_NAME = 22,
  /* The target is of a kind that the link does not take. */
  AMQP_COORDINATOR_IS_NOT_IMPLEMENTED = 23,
  /* The peer has no target. */
  AMQP_INCOMING_TARGET_IS_NONE = 24,
  /* The two endpoints do not agree on when the sender settles. */
  AMQP_SND_SETTLE_MODE_NOT_SUPPORTED = 25,
  /* The peer asks for a dynamic source and gives its address. */
  AMQP_SOURCE_ADDRESS_IS_SOME_WHEN_DYNAMIC_IS_TRUE = 26,
  /* The peer has made a dynamic target and does not give its address. */
  AMQP_TARGET_ADDRESS_IS_NONE_WHEN_DYNAMIC_IS_TRUE = 27,
  /* A terminus that is not dynamic has properties of a dynamic node. */
  AMQP_DYNAMIC_NODE_PROPERTIES_IS_SOME_WHEN_DYNAMIC_IS_FALSE = 28,
  /* The attach is larger than a frame, even if it states no unsettled delivery. */
  AMQP_ATTACH_TOO_LARGE = 29,
  /* The peer has no source. */
  AMQP_INCOMING_SOURCE_IS_NONE = 30,
  /* The sender does not state its initial delivery-count. */
  AMQP_INITIAL_DELIVERY_COUNT_IS_NONE = 31,
  /* Filters that were asked for are not in place. */
  AMQP_DESIRED_FILTER_NOT_SUPPORTED = 32,
  /* The peer has made a dynamic source and does not give its address. */
  AMQP_SOURCE_ADDRESS_IS_NONE_WHEN_DYNAMIC_IS_TRUE = 33,
  /* The peer asks for a dynamic target and gives its address. */
  AMQP_TARGET_ADDRESS_IS_SOME_WHEN_DYNAMIC_IS_TRUE = 34,
  /* The link has no output handle: it is not attached. */
  AMQP_UNATTACHED_HANDLE = 35,
  /* A transfer arrived at a sender. */
  AMQP_TRANSFER_FRAME_TO_SENDER = 36,
  /* There is less link-credit than the delivery takes. */
  AMQP_TRANSFER_LIMIT_EXCEEDED = 37,
  /* The first transfer of a delivery has no delivery id. */
  AMQP_DELIVERY_ID_IS_NONE = 38,
  /* The first transfer of a delivery has no delivery tag. */
  AMQP_DELIVERY_TAG_IS_NONE = 39,
  /* The transfer asks for a receiver settle mode that the link does not have. */
  AMQP_ILLEGAL_RCV_SETTLE_MODE_IN_TRANSFER = 40,
  /* A field of the transfer is not that of its delivery. */
  AMQP_INCONSISTENT_FIELD_IN_MULTI_FRAME_DELIVERY = 41,
  /* The payload is too long to be counted. */
  AMQP_PAYLOAD_TOO_LONG = 42,
  /* The bytes of a delivery could not be decoded as a message. */
  AMQP_MESSAGE_DECODE = 43,
  /* No delivery with this tag is kept, or it is settled. */
  AMQP_UNKNOWN_TAG = 44,
  /* The last transfer of the delivery has not arrived. */
  AMQP_NOT_COMPLETE = 45,
  /* The delivery was taken before. */
  AMQP_ALREADY_TAKEN = 46,
  /* The link is not attached. */
  AMQP_NOT_ATTACHED = 47,
  /* The delivery's bytes are no message of this kind. The delivery counts as taken: dispose of it, as rejected. */
  AMQP_UNDECODED = 48,
  /* The delivery was not taken. */
  AMQP_NOT_TAKEN = 49,
  /* The sender has not resumed the delivery since the link was attached again. */
  AMQP_NOT_RESUMED = 50,
  /* A registration below that number is still pending. */
  AMQP_STILL_PENDING = 51,
};

/* ---- Kinds of objects ---- */

enum {
  /* The object has nothing. */
  AMQP_KIND_NOTHING = 0,
  /* The sender of a link, with what became of each of its deliveries. */
  AMQP_KIND_SENDER = 1,
  /* The receiver of a link, with what has arrived of each delivery. */
  AMQP_KIND_RECEIVER = 2,
  /* Frames to send. */
  AMQP_KIND_FRAMES = 3,
  /* An attach, to send or as it has arrived. */
  AMQP_KIND_ATTACH = 4,
  /* Deliveries to send again after an attach. */
  AMQP_KIND_RESUMING = 5,
  /* Deliveries that have ended, with their outcomes. */
  AMQP_KIND_OUTCOMES = 6,
  /* A delivery that was taken. */
  AMQP_KIND_DELIVERY = 7,
  /* Deliveries that the peer has forgotten. */
  AMQP_KIND_FORGOTTEN = 8,
};

/* ---- Roles, modes and states ---- */

enum {
  /* The endpoint that sends. */
  AMQP_ROLE_SENDER = 0,
  /* The endpoint that receives. */
  AMQP_ROLE_RECEIVER = 1,
  /* The sender sends all deliveries unsettled. */
  AMQP_SENDER_UNSETTLED = 0,
  /* The sender sends all deliveries settled. */
  AMQP_SENDER_SETTLED = 1,
  /* Each transfer states whether it is settled. */
  AMQP_SENDER_MIXED = 2,
  /* The receiver settles as deliveries arrive. */
  AMQP_RECEIVER_FIRST = 0,
  /* The receiver settles after the sender. */
  AMQP_RECEIVER_SECOND = 1,
  /* Not settled. */
  AMQP_NOT_SETTLED = 0,
  /* Settled. */
  AMQP_SETTLED = 1,
  /* Settled or not as the mode of the delivery or of the link says. */
  AMQP_SETTLED_BY_MODE = 2,
  /* Nothing of a terminus is durable. */
  AMQP_DURABLE_NONE = 0,
  /* The existence and the configuration of a terminus are durable. */
  AMQP_DURABLE_CONFIGURATION = 1,
  /* The unsettled deliveries of a terminus are durable as well. */
  AMQP_DURABLE_UNSETTLED_STATE = 2,
  /* A terminus expires when its link is detached. */
  AMQP_EXPIRES_LINK_DETACH = 0,
  /* A terminus expires when its session ends. */
  AMQP_EXPIRES_SESSION_END = 1,
  /* A terminus expires when its connection closes. */
  AMQP_EXPIRES_CONNECTION_CLOSE = 2,
  /* A terminus never expires. */
  AMQP_EXPIRES_NEVER = 3,
  /* Neither endpoint has sent an attach. */
  AMQP_STATE_UNATTACHED = 0,
  /* An attach was sent. */
  AMQP_STATE_ATTACH_SENT = 1,
  /* An attach was sent whose unsettled map is incomplete. */
  AMQP_STATE_INCOMPLETE_ATTACH_SENT = 2,
  /* An attach arrived. */
  AMQP_STATE_ATTACH_RECEIVED = 3,
  /* An attach arrived whose unsettled map is incomplete. */
  AMQP_STATE_INCOMPLETE_ATTACH_RECEIVED = 4,
  /* Both attaches were exchanged. */
  AMQP_STATE_ATTACHED = 5,
  /* Both attaches were exchanged, and the unsettled map of one of them is incomplete. */
  AMQP_STATE_INCOMPLETE_ATTACH_EXCHANGED = 6,
  /* A detach that does not close was sent. */
  AMQP_STATE_DETACH_SENT = 7,
  /* The link is detached, and may be attached again. */
  AMQP_STATE_DETACHED = 8,
  /* A detach that closes was sent. */
  AMQP_STATE_CLOSE_SENT = 9,
  /* The link is closed for good. */
  AMQP_STATE_CLOSED = 10,
};

/* ---- States of deliveries ---- */

enum {
  /* No state. */
  AMQP_NO_STATE = 0,
  /* The receiver accepted the delivery. */
  AMQP_ACCEPTED = 1,
  /* The receiver found it invalid. */
  AMQP_REJECTED = 2,
  /* The receiver returned it unchanged. */
  AMQP_RELEASED = 3,
  /* The receiver returned it changed. */
  AMQP_MODIFIED = 4,
  /* A prefix of it arrived. */
  AMQP_RECEIVED = 5,
};

/* The name of a status, which stays as long as the program. */
static inline const char *amqp_status_name(amqp_status status) {
  switch (status) {
  case AMQP_OK: return "AMQP_OK";
  case AMQP_EMPTY: return "AMQP_EMPTY";
  case AMQP_WRONG_KIND: return "AMQP_WRONG_KIND";
  case AMQP_OUT_OF_MEMORY: return "AMQP_OUT_OF_MEMORY";
  case AMQP_NO_TEXT: return "AMQP_NO_TEXT";
  case AMQP_NO_SUCH_NUMBER: return "AMQP_NO_SUCH_NUMBER";
  case AMQP_BUFFER_TOO_SMALL: return "AMQP_BUFFER_TOO_SMALL";
  case AMQP_NO_SUCH_ENTRY: return "AMQP_NO_SUCH_ENTRY";
  case AMQP_ILLEGAL_STATE: return "AMQP_ILLEGAL_STATE";
  case AMQP_CREDIT_MISSING: return "AMQP_CREDIT_MISSING";
  case AMQP_TAG_PENDING: return "AMQP_TAG_PENDING";
  case AMQP_NO_ROOM: return "AMQP_NO_ROOM";
  case AMQP_REMOTE_DETACHED: return "AMQP_REMOTE_DETACHED";
  case AMQP_REMOTE_DETACHED_WITH_ERROR: return "AMQP_REMOTE_DETACHED_WITH_ERROR";
  case AMQP_REMOTE_CLOSED: return "AMQP_REMOTE_CLOSED";
  case AMQP_REMOTE_CLOSED_WITH_ERROR: return "AMQP_REMOTE_CLOSED_WITH_ERROR";
  case AMQP_EXPECT_IMMEDIATE_DETACH: return "AMQP_EXPECT_IMMEDIATE_DETACH";
  case AMQP_SESSION_STOPPED: return "AMQP_SESSION_STOPPED";
  case AMQP_SESSION_NOT_MAPPED: return "AMQP_SESSION_NOT_MAPPED";
  case AMQP_NON_ATTACH_FRAME_RECEIVED: return "AMQP_NON_ATTACH_FRAME_RECEIVED";
  case AMQP_DUPLICATED_LINK_NAME: return "AMQP_DUPLICATED_LINK_NAME";
  case AMQP_COORDINATOR_IS_NOT_IMPLEMENTED: return "AMQP_COORDINATOR_IS_NOT_IMPLEMENTED";
  case AMQP_INCOMING_TARGET_IS_NONE: return "AMQP_INCOMING_TARGET_IS_NONE";
  case AMQP_SND_SETTLE_MODE_NOT_SUPPORTED: return "AMQP_SND_SETTLE_MODE_NOT_SUPPORTED";
  case AMQP_SOURCE_ADDRESS_IS_SOME_WHEN_DYNAMIC_IS_TRUE: return "AMQP_SOURCE_ADDRESS_IS_SOME_WHEN_DYNAMIC_IS_TRUE";
  case AMQP_TARGET_ADDRESS_IS_NONE_WHEN_DYNAMIC_IS_TRUE: return "AMQP_TARGET_ADDRESS_IS_NONE_WHEN_DYNAMIC_IS_TRUE";
  case AMQP_DYNAMIC_NODE_PROPERTIES_IS_SOME_WHEN_DYNAMIC_IS_FALSE: return "AMQP_DYNAMIC_NODE_PROPERTIES_IS_SOME_WHEN_DYNAMIC_IS_FALSE";
  case AMQP_ATTACH_TOO_LARGE: return "AMQP_ATTACH_TOO_LARGE";
  case AMQP_INCOMING_SOURCE_IS_NONE: return "AMQP_INCOMING_SOURCE_IS_NONE";
  case AMQP_INITIAL_DELIVERY_COUNT_IS_NONE: return "AMQP_INITIAL_DELIVERY_COUNT_IS_NONE";
  case AMQP_DESIRED_FILTER_NOT_SUPPORTED: return "AMQP_DESIRED_FILTER_NOT_SUPPORTED";
  case AMQP_SOURCE_ADDRESS_IS_NONE_WHEN_DYNAMIC_IS_TRUE: return "AMQP_SOURCE_ADDRESS_IS_NONE_WHEN_DYNAMIC_IS_TRUE";
  case AMQP_TARGET_ADDRESS_IS_SOME_WHEN_DYNAMIC_IS_TRUE: return "AMQP_TARGET_ADDRESS_IS_SOME_WHEN_DYNAMIC_IS_TRUE";
  case AMQP_UNATTACHED_HANDLE: return "AMQP_UNATTACHED_HANDLE";
  case AMQP_TRANSFER_FRAME_TO_SENDER: return "AMQP_TRANSFER_FRAME_TO_SENDER";
  case AMQP_TRANSFER_LIMIT_EXCEEDED: return "AMQP_TRANSFER_LIMIT_EXCEEDED";
  case AMQP_DELIVERY_ID_IS_NONE: return "AMQP_DELIVERY_ID_IS_NONE";
  case AMQP_DELIVERY_TAG_IS_NONE: return "AMQP_DELIVERY_TAG_IS_NONE";
  case AMQP_ILLEGAL_RCV_SETTLE_MODE_IN_TRANSFER: return "AMQP_ILLEGAL_RCV_SETTLE_MODE_IN_TRANSFER";
  case AMQP_INCONSISTENT_FIELD_IN_MULTI_FRAME_DELIVERY: return "AMQP_INCONSISTENT_FIELD_IN_MULTI_FRAME_DELIVERY";
  case AMQP_PAYLOAD_TOO_LONG: return "AMQP_PAYLOAD_TOO_LONG";
  case AMQP_MESSAGE_DECODE: return "AMQP_MESSAGE_DECODE";
  case AMQP_UNKNOWN_TAG: return "AMQP_UNKNOWN_TAG";
  case AMQP_NOT_COMPLETE: return "AMQP_NOT_COMPLETE";
  case AMQP_ALREADY_TAKEN: return "AMQP_ALREADY_TAKEN";
  case AMQP_NOT_ATTACHED: return "AMQP_NOT_ATTACHED";
  case AMQP_UNDECODED: return "AMQP_UNDECODED";
  case AMQP_NOT_TAKEN: return "AMQP_NOT_TAKEN";
  case AMQP_NOT_RESUMED: return "AMQP_NOT_RESUMED";
  case AMQP_STILL_PENDING: return "AMQP_STILL_PENDING";
  default: return "no status";
  }
}

/* ---- Structs ---- */

/* A value of the layer, or nothing. In C it is {0} at first. */
typedef struct amqp_object {
  void *at;
  bool is_full;
} amqp_object;

/* What a link shows. */
typedef struct amqp_link_view {
  /* The largest message in bytes; 0 is no limit. */
  uint64_t max_message_size;
  /* How many deliveries are unsettled. */
  size_t unsettled;
  /* The state: AMQP_STATE_UNATTACHED and so on. */
  uint32_t state;
  /* The handle under which this endpoint sends. */
  uint32_t output_handle;
  /* The handle under which the peer sends. */
  uint32_t input_handle;
  /* The delivery-count. */
  uint32_t delivery_count;
  /* The link-credit. */
  uint32_t link_credit;
  /* When the sender settles: AMQP_SENDER_UNSETTLED and so on. */
  uint32_t snd_settle_mode;
  /* When the receiver settles: AMQP_RECEIVER_FIRST or AMQP_RECEIVER_SECOND. */
  uint32_t rcv_settle_mode;
  /* Whether output_handle is there. */
  bool has_output_handle;
  /* Whether input_handle is there. */
  bool has_input_handle;
  /* Whether the sender is to use up its credit at once. */
  bool drain;
} amqp_link_view;

/* What an attach states, but its name, its termini and its unsettled deliveries. */
typedef struct amqp_attach_fields {
  /* The largest message in bytes. */
  uint64_t max_message_size;
  /* The handle that the endpoint which sends this gave the link. */
  uint32_t handle;
  /* The role of that endpoint: AMQP_ROLE_SENDER, which is 0, or AMQP_ROLE_RECEIVER. */
  uint32_t role;
  /* When the sender settles: AMQP_SENDER_UNSETTLED, which is 0, AMQP_SENDER_SETTLED or AMQP_SENDER_MIXED,
   * which an attach means that states none (2.7.3). */
  uint32_t snd_settle_mode;
  /* When the receiver settles: AMQP_RECEIVER_FIRST, which is 0, or AMQP_RECEIVER_SECOND. */
  uint32_t rcv_settle_mode;
  /* The sender's delivery-count at the attach. */
  uint32_t initial_delivery_count;
  /* Whether max_message_size is there. */
  bool has_max_message_size;
  /* Whether initial_delivery_count is there. */
  bool has_initial_delivery_count;
  /* Whether it states not all unsettled deliveries. */
  bool incomplete_unsettled;
} amqp_attach_fields;

/* A source or a target, whose address goes beside it. Filters, capabilities and properties do not cross. */
typedef struct amqp_terminus {
  /* Which state of it is durable: AMQP_DURABLE_NONE, which is 0, and so on. */
  uint32_t durable;
  /* From when on it expires: AMQP_EXPIRES_LINK_DETACH, which is 0, and so on. A terminus that states none means
   * AMQP_EXPIRES_SESSION_END (3.5.3, 3.5.4). */
  uint32_t expiry_policy;
  /* The seconds that it stays after it has begun to expire. */
  uint32_t timeout;
  /* Whether there is one at all. */
  bool is_there;
  /* Whether it has an address. */
  bool has_address;
  /* Whether the peer is asked to create the node. */
  bool dynamic;
} amqp_terminus;

/* The state of a delivery. The error of a rejection has its texts beside it; annotations of a modified delivery, and the
 * info of an error, do not cross. */
typedef struct amqp_delivery_state_fields {
  /* Of AMQP_RECEIVED: the bytes since the section's start. */
  uint64_t section_offset;
  /* Which state it is: AMQP_NO_STATE, AMQP_ACCEPTED and so on. */
  uint32_t kind;
  /* Of AMQP_RECEIVED: the section in which the prefix ends, counted from 0. */
  uint32_t section_number;
  /* Of AMQP_REJECTED: whether it carries an error. */
  bool has_error;
  /* Whether the error has a description. */
  bool has_description;
  /* Of AMQP_MODIFIED: whether delivery_failed is there. */
  bool has_delivery_failed;
  /* Of AMQP_MODIFIED: whether the delivery counts as failed. */
  bool delivery_failed;
  /* Of AMQP_MODIFIED: whether undeliverable_here is there. */
  bool has_undeliverable_here;
  /* Of AMQP_MODIFIED: whether the delivery is not to be sent on this link again. */
  bool undeliverable_here;
} amqp_delivery_state_fields;

/* How many bytes of each kind a call has, or needs room for. */
typedef struct amqp_sizes {
  /* Of the first text or tag. */
  size_t first;
  /* Of the second text, or of the payload. */
  size_t second;
} amqp_sizes;

/* A transfer, whose tag and payload go beside it. A field that has a flag counts only if the flag is set. */
typedef struct amqp_transfer {
  /* The state of the delivery at the sender; a rejection's error does not cross here. */
  amqp_delivery_state_fields state;
  /* The handle of the link at the endpoint that sends the transfer. */
  uint32_t handle;
  /* The delivery-id. */
  uint32_t delivery_id;
  /* The format of the message. */
  uint32_t message_format;
  /* When the receiver is to settle this delivery: AMQP_RECEIVER_FIRST or AMQP_RECEIVER_SECOND. */
  uint32_t rcv_settle_mode;
  /* Whether delivery_id is there. */
  bool has_delivery_id;
  /* Whether it has a tag, which goes beside it. */
  bool has_tag;
  /* Whether message_format is there. */
  bool has_message_format;
  /* Whether settled is there. */
  bool has_settled;
  /* Whether the delivery is settled at the sender. */
  bool settled;
  /* Whether more transfers of the delivery follow. */
  bool more;
  /* Whether rcv_settle_mode is there. */
  bool has_rcv_settle_mode;
  /* Whether this resumes a delivery of an earlier attachment. */
  bool resume;
  /* Whether the delivery is aborted. */
  bool aborted;
  /* Whether the receiver may delay its disposition. */
  bool batchable;
} amqp_transfer;

/* A disposition. The texts of a rejection's error go beside it. */
typedef struct amqp_disposition {
  /* The state of the deliveries. */
  amqp_delivery_state_fields state;
  /* The role of the endpoint that sends it: AMQP_ROLE_SENDER or AMQP_ROLE_RECEIVER. */
  uint32_t role;
  /* The delivery-id of the first delivery. */
  uint32_t first;
  /* The delivery-id of the last delivery; the first one's, if has_last is not set. */
  uint32_t last;
  /* Whether last is there. */
  bool has_last;
  /* Whether the deliveries are settled at this endpoint. */
  bool settled;
  /* Whether the peer may delay its own disposition. */
  bool batchable;
} amqp_disposition;

/* A detach. The texts of its error go beside it; the info of the error does not cross. */
typedef struct amqp_detach {
  /* The handle of the link at the endpoint that sends this. */
  uint32_t handle;
  /* Whether the link is closed for good. */
  bool closed;
  /* Whether it carries an error. */
  bool has_error;
  /* Whether the error has a description. */
  bool has_description;
} amqp_detach;

/* How a delivery has ended. */
typedef struct amqp_outcome {
  /* The peer's state, if it has stated one. */
  amqp_delivery_state_fields state;
  /* 0, or why there is no outcome: AMQP_REMOTE_CLOSED and so on. There is no state then. */
  uint32_t failed;
} amqp_outcome;

/* What a link is made with, but its name and its termini. */
typedef struct amqp_terms {
  /* The largest message in bytes; 0 is no limit. */
  uint64_t max_message_size;
  /* The largest size of a frame in bytes, without the four bytes of its size in front. */
  uint32_t max_frame_size;
  /* When the sender settles: AMQP_SENDER_UNSETTLED, which is 0, AMQP_SENDER_SETTLED or AMQP_SENDER_MIXED,
   * which the standard means where an attach states none (2.7.3). */
  uint32_t snd_settle_mode;
  /* When the receiver settles: AMQP_RECEIVER_FIRST, which is 0, or AMQP_RECEIVER_SECOND. */
  uint32_t rcv_settle_mode;
  /* The sender's delivery-count at the beginning. */
  uint32_t initial_delivery_count;
  /* Whether the source of the peer's attach is verified: else AMQP_SOURCE_ADDRESS_IS_SOME_WHEN_DYNAMIC_IS_TRUE does not
   * come at a sender, nor AMQP_SOURCE_ADDRESS_IS_NONE_WHEN_DYNAMIC_IS_TRUE at a receiver. */
  bool verify_incoming_source;
  /* Whether the target of the peer's attach is verified: else AMQP_TARGET_ADDRESS_IS_NONE_WHEN_DYNAMIC_IS_TRUE does not
   * come at a sender, nor AMQP_TARGET_ADDRESS_IS_SOME_WHEN_DYNAMIC_IS_TRUE at a receiver. */
  bool verify_incoming_target;
} amqp_terms;

/* A flow. A field that has a flag counts only if the flag is set. Properties do not cross. */
typedef struct amqp_flow {
  /* The handle of the link at the endpoint that sends the flow. */
  uint32_t handle;
  /* The sender's delivery-count. */
  uint32_t delivery_count;
  /* The link-credit. */
  uint32_t link_credit;
  /* How many deliveries wait at the sender. */
  uint32_t available;
  /* Whether delivery_count is there. */
  bool has_delivery_count;
  /* Whether link_credit is there. */
  bool has_link_credit;
  /* Whether available is there. */
  bool has_available;
  /* Whether the sender is to use up its credit at once. */
  bool drain;
  /* Whether the peer is asked to reply with its own flow state. */
  bool echo;
} amqp_flow;

/* What a transfer has made of its delivery. */
typedef struct amqp_arriving {
  /* AMQP_ARRIVAL_BEGUN and so on. */
  uint32_t arrival;
  /* How far a delivery had come that it aborts: 0 if nothing was kept of it, or AMQP_STAGE_BEGUN and so on. */
  uint32_t aborted_at;
  /* How far a delivery of the same tag had come in whose place it has begun a new one: 0 if there was none. */
  uint32_t replaced;
  /* The id that the session has to keep with the tag, so that a disposition of the sender's finds the delivery. */
  uint32_t session_id;
  /* Whether the session has to keep an id. */
  bool has_session_id;
  /* Whether it has begun a delivery for which the link had no credit. */
  bool without_credit;
} amqp_arriving;

/* What is kept of a delivery. */
typedef struct amqp_kept_view {
  /* How far it has come: AMQP_STAGE_BEGUN and so on. */
  uint32_t stage;
  /* Its id in the present attachment. */
  uint32_t delivery_id;
  /* Whether delivery_id is there: a transfer of it has arrived in this attachment. */
  bool has_delivery_id;
  /* Whether its sender has settled it. */
  bool settled;
} amqp_kept_view;

/* What a delivery is, but its tag and its bytes. */
typedef struct amqp_delivery_view {
  /* How many bytes its message has. */
  size_t message_size;
  /* The delivery-id. */
  uint32_t delivery_id;
  /* The format of the message. */
  uint32_t message_format;
  /* Whether message_format is there. */
  bool has_message_format;
} amqp_delivery_view;

/* ---- Objects ---- */

/* Frees what an object has. Nothing is in it afterwards, and it may be used again. */
void amqp_free(amqp_object *object);

/* The kind of what an object has: AMQP_KIND_NOTHING, AMQP_KIND_SENDER and so on. */
uint32_t amqp_kind(amqp_object *object);

/* ---- A link of either role ---- */

/* Sets the handle that the session gives the link, under which it sends. */
amqp_status amqp_link_set_output_handle(amqp_object *link, uint32_t handle);

/* Sets the largest size of a frame in bytes, without the four bytes of its size in front. A performative is counted with the
 * shortest code of each value: if the session's encoder writes longer ones, lower the limit by what they add. */
amqp_status amqp_link_set_max_frame_size(amqp_object *link, uint32_t max_frame_size);

/* The session of the link is lost: no frame says so. What is unsettled, the counts, the credit and the fates stay. Set a
 * handle then, and attach again. */
amqp_status amqp_link_on_session_lost(amqp_object *link);

/* What a link shows. */
amqp_status amqp_link_look(amqp_object *link, amqp_link_view *view);

/* The name of a link, copied out. */
amqp_status amqp_link_name(amqp_object *link, uint8_t *name, size_t name_room, size_t *name_size);

/* ---- Attaches ---- */

/* Makes an attach as it has arrived: with these fields, without termini and unsettled deliveries.
 *
 * Refused in this order, with nothing changed: AMQP_NO_SUCH_NUMBER if a role or a mode is none; AMQP_NO_TEXT if the name
 * is no UTF-8. */
amqp_status amqp_attach_new(amqp_object *attach, const uint8_t *name, size_t name_len,
    const amqp_attach_fields *fields);

/* Sets the source of an attach.
 *
 * Refused in this order, with nothing changed: AMQP_NO_SUCH_NUMBER if a number in source stands for nothing;
 * AMQP_NO_TEXT if the address is no UTF-8. */
amqp_status amqp_attach_set_source(amqp_object *attach, const amqp_terminus *source, const uint8_t *address,
    size_t address_len);

/* Sets the target of an attach.
 *
 * Refused in this order, with nothing changed: AMQP_NO_SUCH_NUMBER if a number in target stands for nothing;
 * AMQP_NO_TEXT if the address is no UTF-8. */
amqp_status amqp_attach_set_target(amqp_object *attach, const amqp_terminus *target, const uint8_t *address,
    size_t address_len);

/* Adds an unsettled delivery to an attach: its tag and its state, with these texts of a rejection's error; AMQP_NO_STATE is the
 * null of an unsettled map. One that the attach has under the same tag is replaced.
 *
 * Refused in this order, with nothing changed: AMQP_NO_SUCH_NUMBER if the kind of the state is none; AMQP_NO_TEXT if a
 * text is no UTF-8. */
amqp_status amqp_attach_add_unsettled(amqp_object *attach, const uint8_t *tag, size_t tag_len,
    const amqp_delivery_state_fields *state, const uint8_t *condition, size_t condition_len,
    const uint8_t *description, size_t description_len);

/* What an attach states, and its name. */
amqp_status amqp_attach_look(amqp_object *attach, amqp_attach_fields *fields, uint8_t *name,
    size_t name_room, size_t *name_size);

/* The source of an attach, and its address. */
amqp_status amqp_attach_source(amqp_object *attach, amqp_terminus *source, uint8_t *address,
    size_t address_room, size_t *address_size);

/* The target of an attach, and its address. */
amqp_status amqp_attach_target(amqp_object *attach, amqp_terminus *target, uint8_t *address,
    size_t address_room, size_t *address_size);

/* How many unsettled deliveries an attach states. 0 of an object of another kind. */
size_t amqp_attach_unsettled_count(amqp_object *attach);

/* An unsettled delivery of an attach, counted from 0: its tag and its state. */
amqp_status amqp_attach_unsettled(amqp_object *attach, size_t number, amqp_delivery_state_fields *state,
    uint8_t *tag, size_t tag_room, size_t *tag_size);

/* The condition and the description of the error of a rejection that an attach states. sizes says how long they are.
 *
 * AMQP_NO_SUCH_ENTRY if there is no such delivery, or it is not rejected with an error. */
amqp_status amqp_attach_unsettled_error(amqp_object *attach, size_t number, uint8_t *condition,
    size_t condition_room, uint8_t *description, size_t description_room, amqp_sizes *sizes);

/* ---- Frames to send ---- */

enum {
  /* An attach. No call gives one: an attach has an object of its own. */
  AMQP_FRAME_ATTACH = 1,
  /* A flow. No call gives one: a flow is written to a struct. */
  AMQP_FRAME_FLOW = 2,
  /* The first transfer of a delivery: the session gives it a delivery id. */
  AMQP_FRAME_FIRST_TRANSFER = 3,
  /* A further transfer of a delivery. */
  AMQP_FRAME_TRANSFER = 4,
  /* A disposition. */
  AMQP_FRAME_DISPOSITION = 5,
  /* A detach. */
  AMQP_FRAME_DETACH = 6,
};

/* How many frames there are; 0 of an object of another kind. */
size_t amqp_frames_count(amqp_object *frames);

/* The kind of a frame, counted from 0: AMQP_FRAME_ATTACH and so on. */
amqp_status amqp_frames_kind(amqp_object *frames, size_t number, uint32_t *kind);

/* The transfer in a frame, with its tag and its payload, which is shorter than the link's frame limit. sizes says how long those
 * are. If one of the buffers is too small, nothing but sizes is written. */
amqp_status amqp_frames_transfer(amqp_object *frames, size_t number, amqp_transfer *transfer, uint8_t *tag,
    size_t tag_room, uint8_t *payload, size_t payload_room, amqp_sizes *sizes);

/* The disposition in a frame. The error of a rejection is read by amqp_frames_error. */
amqp_status amqp_frames_disposition(amqp_object *frames, size_t number, amqp_disposition *disposition);

/* The detach in a frame. Its error is read by amqp_frames_error. */
amqp_status amqp_frames_detach(amqp_object *frames, size_t number, amqp_detach *detach);

/* The condition and the description of the error that the detach or the disposition in a frame carries. sizes says how
 * long they are. */
amqp_status amqp_frames_error(amqp_object *frames, size_t number, uint8_t *condition, size_t condition_room,
    uint8_t *description, size_t description_room, amqp_sizes *sizes);

/* ---- Deliveries that have ended ---- */

/* How many deliveries there are; 0 of an object of another kind. */
size_t amqp_outcomes_count(amqp_object *outcomes);

/* A delivery that has ended, counted from 0: its tag and its outcome. */
amqp_status amqp_outcomes_at(amqp_object *outcomes, size_t number, amqp_outcome *outcome, uint8_t *tag,
    size_t tag_room, size_t *tag_size);

/* The condition and the description of the error of a rejection. */
amqp_status amqp_outcomes_error(amqp_object *outcomes, size_t number, uint8_t *condition,
    size_t condition_room, uint8_t *description, size_t description_room, amqp_sizes *sizes);

/* ---- The sender ---- */

/* Makes the sender of a link, which is not attached.
 *
 * Refused in this order, with nothing changed: AMQP_NO_SUCH_NUMBER if a number in terms, source or target stands for
 * nothing; AMQP_NO_TEXT if the name or an address is no UTF-8. */
amqp_status amqp_sender_new(amqp_object *sender, const amqp_terms *terms, const uint8_t *name,
    size_t name_len, const amqp_terminus *source, const uint8_t *source_address, size_t source_address_len,
    const amqp_terminus *target, const uint8_t *target_address, size_t target_address_len);

/* ---- Attach of a sender ---- */

/* Puts the attach to send into attach. Pass false for is_reattaching to resume what is unsettled; true is for a link that
 * begins anew: its attach states no delivery, and each pending one fails, which outcomes gets. If the attach does not fit the
 * frame limit, it states only some of the unsettled deliveries, and says so. Call it before amqp_sender_on_attach, also where
 * the peer's attach has arrived: made after that call it states no listed delivery, and the receiver forgets them.
 *
 * Refused with nothing changed: AMQP_ILLEGAL_STATE without output handle, or in a state from which no attach is sent, which
 * are all but AMQP_STATE_UNATTACHED, AMQP_STATE_DETACHED, AMQP_STATE_DETACH_SENT and those in which an attach has
 * arrived; AMQP_ATTACH_TOO_LARGE. */
amqp_status amqp_sender_send_attach(amqp_object *sender, bool is_reattaching, amqp_object *attach,
    amqp_object *outcomes);

/* Takes the receiver's attach; attach keeps what it has. resuming gets the deliveries to send again, outcomes
 * those that have ended by what both attaches state. The listed deliveries are in resuming alone: resume or put back all of
 * them before it is freed or filled, and before the next attach.
 *
 * After an incomplete exchange begin nothing new (2.7.3): put back what is listed as AMQP_RESEND, resume the others, have them
 * settled, send the detach of amqp_link_detach_frame, and attach again.
 *
 * The name and the role in attach are not compared with the link's: the session finds the link by them.
 *
 * Refused in this order: AMQP_EMPTY and AMQP_WRONG_KIND of attach, and then of sender; AMQP_ILLEGAL_STATE, with
 * nothing changed, in all states but AMQP_STATE_UNATTACHED, AMQP_STATE_DETACHED and those in which an attach was sent;
 * and with the state moved and the input handle set, AMQP_SOURCE_ADDRESS_IS_SOME_WHEN_DYNAMIC_IS_TRUE,
 * AMQP_INCOMING_TARGET_IS_NONE, AMQP_TARGET_ADDRESS_IS_NONE_WHEN_DYNAMIC_IS_TRUE, and
 * AMQP_SND_SETTLE_MODE_NOT_SUPPORTED, with the peer's target and rcv_settle_mode taken too. After these four
 * amqp_sender_attach_failed makes the detach to send. */
amqp_status amqp_sender_on_attach(amqp_object *sender, amqp_object *attach, amqp_object *resuming,
    bool *is_incomplete, amqp_object *outcomes);

/* ---- Flows of a sender ---- */

/* Takes the receiver's flow. If there is one to reply with, it is written to reply, and has_reply is set. A flow
 * that drains gives the credit back at once.
 *
 * AMQP_UNATTACHED_HANDLE, with nothing changed, without output handle. */
amqp_status amqp_sender_on_flow(amqp_object *sender, const amqp_flow *flow, amqp_flow *reply,
    bool *has_reply);

/* Takes the receiver's flow, and keeps the credit if the flow drains: send what waits, then call
 * amqp_sender_give_back_credit.
 *
 * AMQP_UNATTACHED_HANDLE, with nothing changed, without output handle. */
amqp_status amqp_sender_on_flow_keeping_credit(amqp_object *sender, const amqp_flow *flow, amqp_flow *reply,
    bool *has_reply);

/* Gives the credit back that is left, if the receiver drains: the flow to send is written to reply.
 *
 * AMQP_UNATTACHED_HANDLE, with nothing changed, without output handle. */
amqp_status amqp_sender_give_back_credit(amqp_object *sender, amqp_flow *reply, bool *has_reply);

/* Writes the sender's own flow to send to flow. available is how many deliveries wait; if it is not there, the flow states the
 * number that was given last, 0 at first.
 *
 * AMQP_ILLEGAL_STATE, with nothing changed, without output handle. */
amqp_status amqp_sender_send_flow(amqp_object *sender, bool has_available, uint32_t available, bool echo,
    amqp_flow *flow);

/* ---- What a sender sends ---- */

/* Sends a payload as a new delivery, for one credit, under the tag of the delivery-count, and puts its frames into frames:
 * give the first transfer its delivery id, and keep the tag with it. settled is AMQP_NOT_SETTLED, AMQP_SETTLED or
 * AMQP_SETTLED_BY_MODE. An unsettled delivery is the next registration, whose fate amqp_sender_fate says: it takes memory
 * until amqp_sender_release has released it.
 *
 * Refused in this order, with nothing changed: AMQP_NO_SUCH_NUMBER of settled; AMQP_ILLEGAL_STATE without handles;
 * AMQP_CREDIT_MISSING; AMQP_TAG_PENDING; AMQP_NO_ROOM. */
amqp_status amqp_sender_send(amqp_object *sender, const uint8_t *payload, size_t payload_len,
    uint32_t message_format, uint32_t settled, bool batchable, amqp_object *frames);

/* The same under this tag. It is not measured: the standard allows 32 bytes (2.8.7). AMQP_TAG_PENDING comes only of an
 * unsettled delivery: one that is sent settled may have the tag of a pending one. */
amqp_status amqp_sender_send_with_tag(amqp_object *sender, const uint8_t *tag, size_t tag_len,
    const uint8_t *payload, size_t payload_len, uint32_t message_format, uint32_t settled, bool batchable,
    amqp_object *frames);

/* ---- What a sender sends again ---- */

enum {
  /* The peer has a prefix of the delivery: the rest is sent. */
  AMQP_RESUME = 1,
  /* The peer has nothing of it: all of it is sent. */
  AMQP_RESEND = 2,
  /* It was withdrawn here, or only the peer knows it: the peer is told to forget it. */
  AMQP_ABORT = 3,
  /* It has an outcome here, and another one there. Its own has been decided: nothing is sent. */
  AMQP_RESTATE_OUTCOME = 4,
};

/* How many deliveries there are; 0 of an object of another kind. */
size_t amqp_resuming_count(amqp_object *resuming);

/* A delivery of the list, counted from 0: its kind, AMQP_RESUME and so on, and its tag. */
amqp_status amqp_resuming_at(amqp_object *resuming, size_t number, uint32_t *kind, uint8_t *tag,
    size_t tag_room, size_t *tag_size);

/* Sends what the first delivery of the list asks for, and takes it out of the list. frames gets the frames to send: none of
 * one whose outcome is decided, AMQP_RESTATE_OUTCOME: that outcome is dropped, and the fate of its registration stays
 * AMQP_FATE_HANDED_OUT. AMQP_RESUME sends what follows the position that the peer has stated; all, if that has no place in
 * the payload, which the peer appends to what it has. It and AMQP_RESEND register the delivery anew, and take no credit. Once
 * the list is empty send the flow of amqp_sender_send_flow: a receiver that has counted what was resumed takes the count from
 * it.
 *
 * Refused in this order, with nothing changed: AMQP_EMPTY and AMQP_WRONG_KIND of resuming, and then of sender;
 * AMQP_NO_SUCH_ENTRY of an empty list; AMQP_ILLEGAL_STATE without handles; AMQP_TAG_PENDING; AMQP_NO_ROOM. */
amqp_status amqp_sender_resume(amqp_object *sender, amqp_object *resuming, amqp_object *frames);

/* Keeps the first delivery of the list for a later attach, and takes it out of the list: it is the next registration. Of
 * AMQP_ABORT and AMQP_RESTATE_OUTCOME nothing is kept: the outcome of the latter is dropped, and the fates of their
 * registrations stay as they are.
 *
 * Refused in this order, with nothing changed: AMQP_EMPTY and AMQP_WRONG_KIND of resuming, and then of sender;
 * AMQP_NO_SUCH_ENTRY of an empty list; AMQP_TAG_PENDING. */
amqp_status amqp_sender_put_back(amqp_object *sender, amqp_object *resuming);

/* Gives up the delivery with this tag, if it is pending: no outcome of it is returned any more. Its payload is dropped.
 * If the peer still states it in a later attach, it is listed as AMQP_ABORT. Allocates only for a tag of more than 16 bytes. */
amqp_status amqp_sender_withdraw(amqp_object *sender, const uint8_t *tag, size_t tag_len, bool *was_pending);

/* ---- Dispositions and fates at a sender ---- */

enum {
  /* In the sender's unsettled map. */
  AMQP_FATE_PENDING = 0,
  /* Given up by its user, without an outcome. */
  AMQP_FATE_WITHDRAWN = 1,
  /* Returned in the list of an exchange, to be sent again. */
  AMQP_FATE_HANDED_OUT = 2,
  /* Settled with an outcome, or failed. */
  AMQP_FATE_RESOLVED = 3,
  /* It had ended, and its outcome was released. */
  AMQP_FATE_RELEASED = 4,
};

/* Takes the receiver's disposition of the delivery with this tag, which the session finds by the id. outcomes gets the
 * delivery if it has ended by it: none, and AMQP_OK, if no pending delivery has this tag. If it has ended and echo is set,
 * the receiver waits for the sender to settle: send the disposition of amqp_sender_dispose with the same state and settled
 * true. After a state that ends nothing, AMQP_RECEIVED, send none, although echo is set: it would settle the delivery.
 *
 * Refused in this order, with nothing changed: AMQP_NO_SUCH_NUMBER if the kind of the state is none; AMQP_NO_TEXT if a
 * text is no UTF-8. */
amqp_status amqp_sender_on_disposition(amqp_object *sender, const uint8_t *tag, size_t tag_len, bool settled,
    const amqp_delivery_state_fields *state, const uint8_t *condition, size_t condition_len,
    const uint8_t *description, size_t description_len, bool *echo, amqp_object *outcomes);

/* Makes the disposition of a delivery, by its id and its tag, and puts it into frames: none on a link that sends all
 * settled. If it settles a pending delivery, outcomes gets that.
 *
 * Refused in this order, with nothing changed: AMQP_NO_SUCH_NUMBER if there is no state of that kind, or none at all;
 * AMQP_NO_TEXT if a text is no UTF-8. */
amqp_status amqp_sender_dispose(amqp_object *sender, uint32_t delivery_id, const uint8_t *tag,
    size_t tag_len, bool settled, const amqp_delivery_state_fields *state, const uint8_t *condition,
    size_t condition_len, const uint8_t *description, size_t description_len, amqp_object *frames,
    amqp_object *outcomes);

/* What became of a registration, counted from 0: AMQP_FATE_PENDING and so on. Its outcome is written if it is resolved.
 *
 * AMQP_NO_SUCH_ENTRY past the last registration. */
amqp_status amqp_sender_fate(amqp_object *sender, size_t number, uint32_t *kind, amqp_outcome *outcome);

/* The condition and the description of the error of the rejection with which a registration is resolved. sizes says how
 * long they are.
 *
 * AMQP_NO_SUCH_ENTRY if there is no such registration, or it is not resolved with a rejection that carries an error. */
amqp_status amqp_sender_fate_error(amqp_object *sender, size_t number, uint8_t *condition,
    size_t condition_room, uint8_t *description, size_t description_room, amqp_sizes *sizes);

/* Releases what became of the registrations below this number: neither tag nor outcome of one of them is kept, and their memory
 * is used again. The numbers go on. A number past the last releases all.
 *
 * AMQP_STILL_PENDING, with nothing changed, if one of them is pending: first_pending says which is the first. */
amqp_status amqp_sender_release(amqp_object *sender, size_t before, size_t *first_pending);

/* ---- The receiver ---- */

/* Makes the receiver of a link, which is not attached.
 *
 * Refused in this order, with nothing changed: AMQP_NO_SUCH_NUMBER if a number in terms, source or target stands for
 * nothing; AMQP_NO_TEXT if the name or an address is no UTF-8. */
amqp_status amqp_receiver_new(amqp_object *receiver, const amqp_terms *terms, const uint8_t *name,
    size_t name_len, const amqp_terminus *source, const uint8_t *source_address, size_t source_address_len,
    const amqp_terminus *target, const uint8_t *target_address, size_t target_address_len);

/* ---- Attach of a receiver ---- */

enum {
  /* Neither endpoint has an unsettled delivery. */
  AMQP_EXCHANGE_COMPLETE = 0,
  /* An attach did not state all unsettled deliveries: attach again after the others are resumed. */
  AMQP_EXCHANGE_INCOMPLETE = 1,
  /* The sender resumes deliveries. */
  AMQP_EXCHANGE_RESUME = 2,
};

enum {
  /* The last transfer of the delivery had not arrived. */
  AMQP_STAGE_BEGUN = 1,
  /* The delivery was complete, and was not taken. */
  AMQP_STAGE_COMPLETE = 2,
  /* The delivery was taken. */
  AMQP_STAGE_TAKEN = 3,
};

/* Puts the attach to send into attach. Pass false for is_reattaching to resume what is unsettled; true is for a link that
 * begins anew: its attach states no delivery, and nothing is kept by a tag.
 *
 * Refused with nothing changed: AMQP_ILLEGAL_STATE without output handle, or in a state from which no attach is sent, which
 * are all but AMQP_STATE_UNATTACHED, AMQP_STATE_DETACHED, AMQP_STATE_DETACH_SENT and those in which an attach has
 * arrived; AMQP_ATTACH_TOO_LARGE. */
amqp_status amqp_receiver_send_attach(amqp_object *receiver, bool is_reattaching, amqp_object *attach);

/* Takes the sender's attach; attach keeps what it has. exchange says what follows: AMQP_EXCHANGE_COMPLETE and so
 * on. forgotten gets the deliveries that the sender does not know any more: of those nothing is kept.
 *
 * The name and the role in attach are not compared with the link's: the session finds the link by them.
 *
 * Refused in this order: AMQP_EMPTY and AMQP_WRONG_KIND of attach, and then of receiver; AMQP_ILLEGAL_STATE, with
 * nothing changed, in all states but AMQP_STATE_UNATTACHED, AMQP_STATE_DETACHED and those in which an attach was sent;
 * and with the state moved and the input handle set, AMQP_INCOMING_SOURCE_IS_NONE,
 * AMQP_SOURCE_ADDRESS_IS_NONE_WHEN_DYNAMIC_IS_TRUE, and with the peer's source and snd_settle_mode taken too,
 * AMQP_INITIAL_DELIVERY_COUNT_IS_NONE, AMQP_TARGET_ADDRESS_IS_SOME_WHEN_DYNAMIC_IS_TRUE. After these four
 * amqp_receiver_attach_failed makes the detach to send. */
amqp_status amqp_receiver_on_attach(amqp_object *receiver, amqp_object *attach, uint32_t *exchange,
    amqp_object *forgotten);

/* How many deliveries were forgotten; 0 of an object of another kind. */
size_t amqp_forgotten_count(amqp_object *forgotten);

/* A delivery that was forgotten, counted from 0: its tag, and how far it had come, AMQP_STAGE_BEGUN and so on. */
amqp_status amqp_forgotten_at(amqp_object *forgotten, size_t number, uint32_t *stage, uint8_t *tag,
    size_t tag_room, size_t *tag_size);

/* ---- Flows of a receiver ---- */

/* Sets the link-credit, which is how many deliveries the sender may begin from now on, and the drain flag, each if it is
 * there, and writes the flow to send to flow. A drain is over once the sender's flow has used up the credit; the drain flag
 * stays until it is set to false here.
 *
 * AMQP_ILLEGAL_STATE, with nothing changed, without output handle. */
amqp_status amqp_receiver_send_flow(amqp_object *receiver, bool has_credit, uint32_t credit, bool has_drain,
    bool drain, bool echo, amqp_flow *flow);

/* Takes the sender's flow. If it asks for an echo, the flow to reply with is written to reply, and has_reply is set.
 *
 * AMQP_UNATTACHED_HANDLE, with nothing changed, without output handle. */
amqp_status amqp_receiver_on_flow(amqp_object *receiver, const amqp_flow *flow, amqp_flow *reply,
    bool *has_reply);

/* ---- What arrives at a receiver ---- */

enum {
  /* It has begun a delivery, of which more is to come. */
  AMQP_ARRIVAL_BEGUN = 1,
  /* It has added to a delivery; more is to come. */
  AMQP_ARRIVAL_CONTINUED = 2,
  /* It was the last of its delivery, which amqp_receiver_take takes. */
  AMQP_ARRIVAL_COMPLETE = 3,
  /* It was the last of a delivery that its sender has settled: amqp_receiver_take_settled takes it. */
  AMQP_ARRIVAL_COMPLETE_SETTLED = 4,
  /* It belongs to a delivery that was complete before, and that its sender resumes. One that was not taken and is settled by it
   * waits for amqp_receiver_take_settled. */
  AMQP_ARRIVAL_KNOWN = 5,
  /* It aborts its delivery. */
  AMQP_ARRIVAL_ABORTED = 6,
  /* It belongs to a delivery of which nothing is kept. */
  AMQP_ARRIVAL_IGNORED = 7,
};

/* Takes a transfer from the session, with its tag, if it has one, and its payload, and writes what it has made of its
 * delivery to arriving. If no more of the delivery is to come, ended_tag gets its tag, of ended_tag_size bytes; else
 * that is 0. After AMQP_ARRIVAL_COMPLETE call amqp_receiver_take with it, after AMQP_ARRIVAL_COMPLETE_SETTLED
 * amqp_receiver_take_settled. If the sender may dispose of deliveries, note the id and the tag of each first transfer.
 *
 * The first transfer that resumes a delivery starts at the position in its state, if that is AMQP_RECEIVED: what is held
 * beyond that is dropped. Without such a state, or if nothing is held there, its payload follows what is held.
 *
 * Clear more where aborted is set (2.7.5): otherwise the delivery stays under way, and the next transfer is taken for one of
 * it.
 *
 * Give ended_tag room for the longest tag that you accept, the same at each transfer: only the tag that comes with a transfer
 * is measured, and not that of the delivery under way, which is given back. If that is longer than the room, since its first
 * transfer came with a larger buffer, the transfer is taken, AMQP_OK, but no tag is copied, and ended_tag_size is 0.
 *
 * Refused in this order, with nothing changed: AMQP_BUFFER_TOO_SMALL if the tag that comes with the transfer is longer than
 * ended_tag has room, with its size in ended_tag_size: 32 bytes are room for each that the standard allows (2.8.7).
 * AMQP_NO_SUCH_NUMBER if the mode or the kind of the state is none. AMQP_ILLEGAL_STATE unless both attaches were exchanged:
 * ignore what comes after your own detach. AMQP_DELIVERY_ID_IS_NONE, AMQP_DELIVERY_TAG_IS_NONE and
 * AMQP_ILLEGAL_RCV_SETTLE_MODE_IN_TRANSFER of a first transfer; AMQP_INCONSISTENT_FIELD_IN_MULTI_FRAME_DELIVERY,
 * AMQP_PAYLOAD_TOO_LONG: the sender's fault, end the link. */
amqp_status amqp_receiver_on_transfer(amqp_object *receiver, const amqp_transfer *transfer,
    const uint8_t *tag, size_t tag_len, const uint8_t *payload, size_t payload_len, amqp_arriving *arriving,
    uint8_t *ended_tag, size_t ended_tag_room, size_t *ended_tag_size);

/* ---- What a receiver takes ---- */

/* Takes the complete delivery with this tag, with all bytes of its message. It stays unsettled until it is disposed of.
 *
 * Refused in this order, with nothing changed: AMQP_UNKNOWN_TAG, AMQP_NOT_COMPLETE, AMQP_ALREADY_TAKEN,
 * AMQP_NOT_ATTACHED. */
amqp_status amqp_receiver_take(amqp_object *receiver, const uint8_t *tag, size_t tag_len,
    amqp_object *delivery);

/* Takes the first of the complete deliveries that their sender has settled.
 *
 * Refused in this order, with nothing changed: AMQP_NO_SUCH_ENTRY if there is none; AMQP_NOT_ATTACHED. */
amqp_status amqp_receiver_take_settled(amqp_object *receiver, amqp_object *delivery);

/* How many complete deliveries that their sender has settled wait to be taken. */
amqp_status amqp_receiver_settled_count(amqp_object *receiver, size_t *count);

/* What is kept of the delivery with this tag. Allocates only for a tag of more than 16 bytes.
 *
 * AMQP_UNKNOWN_TAG if nothing is. */
amqp_status amqp_receiver_kept(amqp_object *receiver, const uint8_t *tag, size_t tag_len,
    amqp_kept_view *view);

/* What a delivery is, with its tag. */
amqp_status amqp_delivery_look(amqp_object *delivery, amqp_delivery_view *view, uint8_t *tag,
    size_t tag_room, size_t *tag_size);

/* The bytes of a delivery's message, as its transfers have brought them. */
amqp_status amqp_delivery_message(amqp_object *delivery, uint8_t *message, size_t message_room,
    size_t *message_size);

/* ---- Dispositions at a receiver ---- */

/* Makes the disposition of a delivery that was taken, with this state, and puts it into frames. settled is
 * AMQP_NOT_SETTLED, AMQP_SETTLED or AMQP_SETTLED_BY_MODE.
 *
 * Refused in this order, with nothing changed: AMQP_NO_SUCH_NUMBER if there is no state of that kind, none at all, or
 * settled is none of the three; AMQP_NO_TEXT if a text is no UTF-8; AMQP_NOT_ATTACHED, AMQP_UNKNOWN_TAG,
 * AMQP_NOT_TAKEN, AMQP_NOT_RESUMED: keep the outcome then by amqp_receiver_keep_outcome. */
amqp_status amqp_receiver_dispose(amqp_object *receiver, const uint8_t *tag, size_t tag_len,
    uint32_t settled, const amqp_delivery_state_fields *state, const uint8_t *condition,
    size_t condition_len, const uint8_t *description, size_t description_len, bool batchable,
    amqp_object *frames);

/* Keeps the outcome of a delivery that was taken, in any state of the link: the next attach states it.
 *
 * Refused in this order, with nothing changed: AMQP_NO_SUCH_NUMBER if there is no state of that kind, or none at all;
 * AMQP_NO_TEXT if a text is no UTF-8; AMQP_UNKNOWN_TAG, AMQP_NOT_TAKEN. */
amqp_status amqp_receiver_keep_outcome(amqp_object *receiver, const uint8_t *tag, size_t tag_len,
    const amqp_delivery_state_fields *state, const uint8_t *condition, size_t condition_len,
    const uint8_t *description, size_t description_len);

/* Takes the sender's disposition of the delivery with this tag, which the session finds by the id. If it settles the
 * delivery, one that is complete waits to be taken as a settled one, and of one that was taken nothing is kept.
 *
 * Refused in this order, with nothing changed: AMQP_NO_SUCH_NUMBER if the kind of the state is none; AMQP_NO_TEXT if a
 * text is no UTF-8. A tag of which nothing is kept is no refusal. */
amqp_status amqp_receiver_on_disposition(amqp_object *receiver, const uint8_t *tag, size_t tag_len,
    bool settled, const amqp_delivery_state_fields *state, const uint8_t *condition, size_t condition_len,
    const uint8_t *description, size_t description_len);

/* ---- Detaches ---- */

/* Puts the detach to send into frames: one that closes the link, or one after which it may be attached again. The
 * condition and the description count if detach says that they are there; its handle does not. The output handle is released:
 * the frame has it.
 *
 * Refused in this order: AMQP_NO_TEXT if a text of the error is no UTF-8, with nothing changed; AMQP_ILLEGAL_STATE in all
 * states but AMQP_STATE_ATTACHED, with nothing changed, or without output handle, with the state moved. */
amqp_status amqp_link_send_detach(amqp_object *link, const amqp_detach *detach, const uint8_t *condition,
    size_t condition_len, const uint8_t *description, size_t description_len, amqp_object *frames);

/* Puts the detach to send after an incomplete exchange into frames. It moves no state: give the peer's reply to
 * amqp_link_apply_remote_detach, and attach again.
 *
 * AMQP_UNATTACHED_HANDLE, with nothing changed, without output handle. */
amqp_status amqp_link_detach_frame(amqp_object *link, amqp_object *frames);

/* Takes the peer's reply to a detach that was sent. The state moves, and the output handle is released.
 *
 * Refused in this order, with nothing changed: AMQP_NO_TEXT if a text of the error is no UTF-8; AMQP_ILLEGAL_STATE in all
 * states but AMQP_STATE_DETACH_SENT of a detach that does not close, and AMQP_STATE_CLOSE_SENT of one that does: give any
 * other reply to amqp_link_apply_remote_detach.
 *
 * The error that the reply carries is the status, with the state moved and the output handle released:
 * AMQP_REMOTE_DETACHED_WITH_ERROR or AMQP_REMOTE_CLOSED_WITH_ERROR. */
amqp_status amqp_link_on_detach_reply(amqp_object *link, const amqp_detach *detach, const uint8_t *condition,
    size_t condition_len, const uint8_t *description, size_t description_len);

/* Records a detach that the peer initiated and that was replied to, or the reply to the detach of
 * amqp_link_detach_frame; or a detach that crosses one of this end, which is its reply too. The state moves, and the output
 * handle is released: take what is complete before.
 *
 * Refused in this order, with nothing changed: AMQP_NO_TEXT if a text of the error is no UTF-8; AMQP_ILLEGAL_STATE of a
 * link that is unattached, detached or closed.
 *
 * The error that the detach carries is the status, with the state moved and the output handle released:
 * AMQP_REMOTE_DETACHED_WITH_ERROR or AMQP_REMOTE_CLOSED_WITH_ERROR. */
amqp_status amqp_link_apply_remote_detach(amqp_object *link, const amqp_detach *detach,
    const uint8_t *condition, size_t condition_len, const uint8_t *description, size_t description_len);

/* Takes a detach that has arrived at a sender. reply gets the detach to reply with, which repeats its error, if the peer
 * initiated this one, and outcomes the outcome of each pending delivery, if it closes the link. Reply, and then call
 * amqp_link_apply_remote_detach, which moves the state.
 *
 * Refused in this order, with nothing changed: AMQP_NO_TEXT if a text of the error is no UTF-8; AMQP_UNATTACHED_HANDLE
 * without output handle, only if the peer initiated the detach. */
amqp_status amqp_sender_on_detach(amqp_object *sender, const amqp_detach *detach, const uint8_t *condition,
    size_t condition_len, const uint8_t *description, size_t description_len, bool remote_initiated,
    amqp_object *reply, amqp_object *outcomes);

/* Takes a detach that has arrived at a receiver. reply gets the detach to reply with, which repeats its error, if the peer
 * initiated this one. Reply, and then call amqp_link_apply_remote_detach, which moves the state. What is kept of deliveries
 * stays.
 *
 * Refused in this order, with nothing changed: AMQP_NO_TEXT if a text of the error is no UTF-8; AMQP_UNATTACHED_HANDLE
 * without output handle, only if the peer initiated the detach. */
amqp_status amqp_receiver_on_detach(amqp_object *receiver, const amqp_detach *detach,
    const uint8_t *condition, size_t condition_len, const uint8_t *description, size_t description_len,
    bool remote_initiated, amqp_object *reply);

/* Fails each pending delivery of a sender that is closed for good, with the error of this detach: outcomes gets them. Call it
 * after the link was closed by this end; a detach of the peer's that closes the link does it by amqp_sender_on_detach.
 *
 * AMQP_NO_TEXT, with nothing changed, if a text of the error is no UTF-8. */
amqp_status amqp_sender_fail_pending_unsettled(amqp_object *sender, const amqp_detach *detach,
    const uint8_t *condition, size_t condition_len, const uint8_t *description, size_t description_len,
    amqp_object *outcomes);

/* ---- An attach that was refused ---- */

/* What follows from the status with which amqp_sender_on_attach or amqp_sender_send_attach was refused, or with
 * which the session names what has arrived in place of the attach: frames gets the detach that closes the link, which is left
 * as by amqp_link_send_detach, or no frame. ends_session is set if the session is to be ended with
 * amqp:session:handle-in-use.
 *
 * There is a detach only in AMQP_STATE_ATTACHED. If the own attach was not sent yet, send it, and call this again. After an
 * incomplete exchange, AMQP_STATE_INCOMPLETE_ATTACH_EXCHANGED, send the detach of amqp_link_detach_frame. */
amqp_status amqp_sender_attach_failed(amqp_object *sender, uint32_t status, amqp_object *frames,
    bool *ends_session);

/* The same for amqp_receiver_on_attach and amqp_receiver_send_attach. */
amqp_status amqp_receiver_attach_failed(amqp_object *receiver, uint32_t status, amqp_object *frames,
    bool *ends_session);

#ifdef __cplusplus
}
#endif

#endif
