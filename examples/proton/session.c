#include "session.h"
#include <stdio.h>
#include <stdlib.h>
#include <string.h>

#define NONE (const uint8_t *)"", 0

enum { ERROR_CODE = 0x1d, RECEIVED_CODE = 0x23, ACCEPTED_CODE, REJECTED_CODE, RELEASED_CODE, MODIFIED_CODE };
enum { SOURCE_CODE = 0x28, TARGET_CODE };

/* The descriptors of the states, by AMQP_ACCEPTED and so on. */
static const uint64_t STATE_CODES[] = {0, ACCEPTED_CODE, REJECTED_CODE, RELEASED_CODE, MODIFIED_CODE, RECEIVED_CODE};

void check(bool is_so, const char *text) {
  if (is_so) return;
  fflush(stdout);
  fprintf(stderr, "not so: %s\n", text);
  exit(1);
}

void check_status(amqp_status status, const char *call) {
  if (status == AMQP_OK) return;
  fflush(stdout);
  fprintf(stderr, "refused with %u: %s\n", status, call);
  exit(1);
}

void session_new(session *s, uint32_t max_frame) {
  session_free(s);
  memset(s, 0, sizeof *s);
  s->data = pn_data(0);
  s->max_frame = max_frame;
}

void session_free(session *s) {
  if (s->data) pn_data_free(s->data);
  free(s->out.bytes);
  free(s->in.bytes);
  memset(s, 0, sizeof *s);
}

/* The library counts a frame without the 4 bytes of its size, and a list's head as 3 bytes; proton's codec writes one of 9. */
uint32_t session_frame_limit(const session *s) { return s->max_frame - 4 - 6; }

static uint8_t *grow(buffer *b, size_t more) {
  if (b->room - b->size < more) {
    b->room = 2 * (b->size + more);
    b->bytes = realloc(b->bytes, b->room);
    check(b->bytes != NULL, "there is memory");
  }
  return b->bytes + b->size;
}

/* ---- what is sent ---- */

static void begin_list(pn_data_t *data, uint64_t code) {
  pn_data_put_described(data);
  pn_data_enter(data);
  pn_data_put_ulong(data, code);
  pn_data_put_list(data);
  pn_data_enter(data);
}

static void end_list(pn_data_t *data) {
  pn_data_exit(data);
  pn_data_exit(data);
}

static void begin(session *s, uint64_t code) {
  pn_data_clear(s->data);
  begin_list(s->data, code);
}

static void put_uint_if(pn_data_t *data, bool is_there, uint32_t number) {
  if (is_there) pn_data_put_uint(data, number);
  else pn_data_put_null(data);
}

static void put_bool_if(pn_data_t *data, bool is_there, bool flag) {
  if (is_there) pn_data_put_bool(data, flag);
  else pn_data_put_null(data);
}

static pn_bytes_t bytes_of(const uint8_t *bytes, size_t size) { return pn_bytes(size, (const char *)bytes); }

/* Writes the performative as a frame on channel 0, with this payload behind it. */
static void finish(session *s, const uint8_t *payload, size_t payload_size) {
  end_list(s->data);
  uint8_t *frame = grow(&s->out, s->max_frame + payload_size);
  ssize_t encoded = pn_data_encode(s->data, (char *)frame + 8, s->max_frame - 8);
  check(encoded >= 0, "a performative fits a frame");
  size_t size = 8 + (size_t)encoded + payload_size;
  check(size <= s->max_frame, "a frame is no larger than the peer allows");
  const uint8_t head[8] = {(uint8_t)(size >> 24), (uint8_t)(size >> 16), (uint8_t)(size >> 8), (uint8_t)size, 2, 0, 0, 0};
  memcpy(frame, head, 8);
  memcpy(frame + 8 + encoded, payload, payload_size);
  s->out.size += size;
}

void session_open(session *s) {
  memcpy(grow(&s->out, 8), "AMQP\0\1\0\0", 8);
  s->out.size += 8;
  begin(s, OPEN);
  pn_data_put_string(s->data, pn_bytes(4, "ours"));
  pn_data_put_null(s->data);
  pn_data_put_uint(s->data, s->max_frame);
  finish(s, NONE);
}

void session_begin(session *s) {
  s->next_id = s->next_outgoing_id = 0;
  s->window = WINDOW;
  begin(s, BEGIN);
  pn_data_put_null(s->data);
  pn_data_put_uint(s->data, s->next_outgoing_id);
  pn_data_put_uint(s->data, s->window);
  pn_data_put_uint(s->data, WINDOW);
  finish(s, NONE);
}

void session_end(session *s) {
  begin(s, END);
  finish(s, NONE);
}

void session_close(session *s) {
  begin(s, CLOSE);
  finish(s, NONE);
}

/* An error, with its condition and description. */
static void put_error(pn_data_t *data, const delivery_state *state) {
  begin_list(data, ERROR_CODE);
  pn_data_put_symbol(data, bytes_of(state->condition, state->sizes.first));
  if (state->fields.has_description) pn_data_put_string(data, bytes_of(state->description, state->sizes.second));
  end_list(data);
}

static void put_state(pn_data_t *data, const delivery_state *state) {
  const amqp_delivery_state_fields *fields = &state->fields;
  if (fields->kind == AMQP_NO_STATE) {
    pn_data_put_null(data);
    return;
  }
  begin_list(data, STATE_CODES[fields->kind]);
  if (fields->kind == AMQP_REJECTED && fields->has_error) put_error(data, state);
  if (fields->kind == AMQP_MODIFIED) {
    put_bool_if(data, fields->has_delivery_failed, fields->delivery_failed);
    put_bool_if(data, fields->has_undeliverable_here, fields->undeliverable_here);
  }
  if (fields->kind == AMQP_RECEIVED) {
    pn_data_put_uint(data, fields->section_number);
    pn_data_put_ulong(data, fields->section_offset);
  }
  end_list(data);
}

static void put_terminus(pn_data_t *data, uint64_t code, const amqp_terminus *terminus, const uint8_t *address, size_t size) {
  if (!terminus->is_there) {
    pn_data_put_null(data);
    return;
  }
  begin_list(data, code);
  if (terminus->has_address) pn_data_put_string(data, bytes_of(address, size));
  end_list(data);
}

static void put_unsettled(pn_data_t *data, amqp_object *attach) {
  size_t count = amqp_attach_unsettled_count(attach);
  if (count == 0) {
    pn_data_put_null(data);
    return;
  }
  pn_data_put_map(data);
  pn_data_enter(data);
  for (size_t number = 0; number < count; number++) {
    delivery_state state = {0};
    tag name;
    done(amqp_attach_unsettled(attach, number, &state.fields, name.bytes, sizeof name.bytes, &name.size));
    state.fields.has_error = false; /* no call gives the texts of a rejection's error here */
    pn_data_put_binary(data, bytes_of(name.bytes, name.size));
    put_state(data, &state);
  }
  pn_data_exit(data);
}

/* The texts of an attach fit these buffers in this example; a status says so if not. */
void session_attach(session *s, amqp_object *attach) {
  amqp_attach_fields fields = {0};
  amqp_terminus source = {0}, target = {0};
  uint8_t name[ROOM_OF_TEXT], from[ROOM_OF_TEXT], to[ROOM_OF_TEXT];
  size_t name_size, from_size, to_size;
  done(amqp_attach_look(attach, &fields, name, sizeof name, &name_size));
  done(amqp_attach_source(attach, &source, from, sizeof from, &from_size));
  done(amqp_attach_target(attach, &target, to, sizeof to, &to_size));
  begin(s, ATTACH);
  pn_data_put_string(s->data, bytes_of(name, name_size));
  pn_data_put_uint(s->data, fields.handle);
  pn_data_put_bool(s->data, fields.role == AMQP_ROLE_RECEIVER);
  pn_data_put_ubyte(s->data, (uint8_t)fields.snd_settle_mode);
  pn_data_put_ubyte(s->data, (uint8_t)fields.rcv_settle_mode);
  put_terminus(s->data, SOURCE_CODE, &source, from, from_size);
  put_terminus(s->data, TARGET_CODE, &target, to, to_size);
  put_unsettled(s->data, attach);
  pn_data_put_bool(s->data, fields.incomplete_unsettled);
  put_uint_if(s->data, fields.has_initial_delivery_count, fields.initial_delivery_count);
  finish(s, NONE);
}

/* A flow of the session begins with its windows; one of a link has the link's fields behind them. */
static void put_windows(session *s) {
  pn_data_put_uint(s->data, s->next_incoming_id);
  pn_data_put_uint(s->data, s->window);
  pn_data_put_uint(s->data, s->next_outgoing_id);
  pn_data_put_uint(s->data, WINDOW);
}

void session_flow(session *s, const amqp_flow *flow) {
  begin(s, FLOW);
  put_windows(s);
  pn_data_put_uint(s->data, flow->handle);
  put_uint_if(s->data, flow->has_delivery_count, flow->delivery_count);
  put_uint_if(s->data, flow->has_link_credit, flow->link_credit);
  put_uint_if(s->data, flow->has_available, flow->available);
  pn_data_put_bool(s->data, flow->drain);
  pn_data_put_bool(s->data, flow->echo);
  finish(s, NONE);
}

static void put_transfer(pn_data_t *data, link_number link, const amqp_transfer *transfer, const tag *name) {
  delivery_state state = {.fields = transfer->state};
  pn_data_put_uint(data, link);
  put_uint_if(data, transfer->has_delivery_id, transfer->delivery_id);
  if (transfer->has_tag) pn_data_put_binary(data, bytes_of(name->bytes, name->size));
  else pn_data_put_null(data);
  put_uint_if(data, transfer->has_message_format, transfer->message_format);
  put_bool_if(data, transfer->has_settled, transfer->settled);
  pn_data_put_bool(data, transfer->more);
  if (transfer->has_rcv_settle_mode) pn_data_put_ubyte(data, (uint8_t)transfer->rcv_settle_mode);
  else if (transfer->state.kind || transfer->resume || transfer->aborted || transfer->batchable) pn_data_put_null(data);
  else return;
  put_state(data, &state);
  pn_data_put_bool(data, transfer->resume);
  pn_data_put_bool(data, transfer->aborted);
  pn_data_put_bool(data, transfer->batchable);
}

/* The first transfer of a delivery gets its id here. */
static void send_transfer(session *s, link_number link, amqp_object *frames, size_t number, bool is_first) {
  static uint8_t payload[1 << 16];
  amqp_transfer transfer = {0};
  amqp_sizes sizes = {0};
  tag name;
  done(amqp_frames_transfer(frames, number, &transfer, name.bytes, sizeof name.bytes, payload, sizeof payload, &sizes));
  name.size = sizes.first;
  if (is_first) {
    s->sent[s->next_id % MAX_DELIVERIES] = name;
    transfer.has_delivery_id = true;
    transfer.delivery_id = s->next_id++;
  }
  check(s->peer_window > 0, "the peer's window of transfers is large enough");
  begin(s, TRANSFER);
  put_transfer(s->data, link, &transfer, &name);
  finish(s, payload, sizes.second);
  s->next_outgoing_id++;
  s->peer_window--;
}

static void send_disposition(session *s, amqp_object *frames, size_t number) {
  amqp_disposition sent = {0};
  delivery_state state = {0};
  done(amqp_frames_disposition(frames, number, &sent));
  state.fields = sent.state;
  if (state.fields.has_error) {
    done(amqp_frames_error(frames, number, state.condition, ROOM_OF_TEXT, state.description, ROOM_OF_TEXT, &state.sizes));
  }
  begin(s, DISPOSITION);
  pn_data_put_bool(s->data, sent.role == AMQP_ROLE_RECEIVER);
  pn_data_put_uint(s->data, sent.first);
  put_uint_if(s->data, sent.has_last, sent.last);
  pn_data_put_bool(s->data, sent.settled);
  put_state(s->data, &state);
  finish(s, NONE);
}

static void send_detach(session *s, link_number link, amqp_object *frames, size_t number) {
  amqp_detach sent = {0};
  delivery_state error = {0};
  done(amqp_frames_detach(frames, number, &sent));
  begin(s, DETACH);
  pn_data_put_uint(s->data, link);
  pn_data_put_bool(s->data, sent.closed);
  if (sent.has_error) {
    done(amqp_frames_error(frames, number, error.condition, ROOM_OF_TEXT, error.description, ROOM_OF_TEXT, &error.sizes));
    error.fields.has_description = sent.has_description;
    put_error(s->data, &error);
  }
  finish(s, NONE);
}

void session_frame(session *s, link_number link, amqp_object *frames, size_t number) {
  uint32_t kind;
  done(amqp_frames_kind(frames, number, &kind));
  switch (kind) {
  case AMQP_FRAME_FIRST_TRANSFER: send_transfer(s, link, frames, number, true); break;
  case AMQP_FRAME_TRANSFER: send_transfer(s, link, frames, number, false); break;
  case AMQP_FRAME_DISPOSITION: send_disposition(s, frames, number); break;
  case AMQP_FRAME_DETACH: send_detach(s, link, frames, number); break;
  default: check(false, "a frame is a transfer, a disposition or a detach");
  }
}

void session_frames(session *s, link_number link, amqp_object *frames) {
  size_t count = amqp_frames_count(frames);
  for (size_t number = 0; number < count; number++) session_frame(s, link, frames, number);
  amqp_free(frames);
}

/* ---- what arrives ---- */

void session_input(session *s, const char *bytes, size_t size) {
  s->in.size -= s->taken;
  if (s->taken > 0) memmove(s->in.bytes, s->in.bytes + s->taken, s->in.size);
  s->taken = 0;
  memcpy(grow(&s->in, size), bytes, size);
  s->in.size += size;
}

/* The next field of a list, if there is one that is not null. */
static bool field(pn_data_t *data) { return pn_data_next(data) && pn_data_type(data) != PN_NULL; }

static uint32_t uint_field(pn_data_t *data, bool *is_there) {
  *is_there = field(data);
  return *is_there ? pn_data_get_uint(data) : 0;
}

static bool bool_field(pn_data_t *data, bool *is_there) {
  *is_there = field(data);
  return *is_there && pn_data_get_bool(data);
}

static bool flag_field(pn_data_t *data) { return field(data) && pn_data_get_bool(data); }

/* Copies a text or a binary that is there. */
static size_t copy_bytes(pn_data_t *data, uint8_t *into, size_t room) {
  pn_bytes_t bytes = pn_data_get_bytes(data);
  check(bytes.size <= room, "a text or a tag is no longer than this example takes");
  if (bytes.size > 0) memcpy(into, bytes.start, bytes.size);
  return bytes.size;
}

/* Enters the list of a described value, and returns its descriptor. */
static uint64_t enter_list(pn_data_t *data) {
  pn_data_enter(data);
  pn_data_next(data);
  uint64_t code = pn_data_get_ulong(data);
  pn_data_next(data);
  pn_data_enter(data);
  return code;
}

static void exit_list(pn_data_t *data) {
  pn_data_exit(data);
  pn_data_exit(data);
}

/* The peer's begin states how many transfers it takes. */
static void take_begin(session *s) {
  bool is_there;
  field(s->data); /* the channel of the begin that it replies to */
  s->next_incoming_id = uint_field(s->data, &is_there);
  s->peer_window = uint_field(s->data, &is_there);
}

/* The next frame that has arrived as a whole: where its body begins, and the size of that. */
static const uint8_t *next_body(session *s, size_t *size) {
  for (;;) {
    const uint8_t *b = s->in.bytes + s->taken;
    size_t left = s->in.size - s->taken;
    if (left < 8) return NULL;
    if (!s->has_header) {
      check(!memcmp(b, "AMQP\0\1\0\0", 8), "the peer's protocol is AMQP 1.0");
      s->has_header = true;
      s->taken += 8;
      continue;
    }
    size_t frame = (size_t)b[0] << 24 | (size_t)b[1] << 16 | (size_t)b[2] << 8 | b[3], start = (size_t)b[4] * 4;
    check(start >= 8 && start <= frame && frame <= s->max_frame, "a frame of the peer's has a legal size");
    if (left < frame) return NULL;
    s->taken += frame;
    *size = frame - start;
    if (*size > 0) return b + start; /* an empty frame only keeps the connection alive */
  }
}

bool session_next(session *s, performative *found) {
  size_t size;
  const uint8_t *body;
  while ((body = next_body(s, &size))) {
    pn_data_clear(s->data);
    ssize_t decoded = pn_data_decode(s->data, (const char *)body, size);
    check(decoded > 0, "a performative of the peer's is decoded");
    pn_data_rewind(s->data);
    pn_data_next(s->data);
    found->code = enter_list(s->data);
    found->payload = body + decoded;
    found->payload_size = size - (size_t)decoded;
    if (found->code != BEGIN) return true;
    take_begin(s);
  }
  return false;
}

link_number session_link(const session *s, uint32_t peer_handle) {
  return peer_handle == s->peer_handle[OUR_SENDER] ? OUR_SENDER : OUR_RECEIVER;
}

/* The address of a source or a target, the first field of its list. */
static amqp_terminus terminus_field(pn_data_t *data, uint8_t *address, size_t *size) {
  amqp_terminus terminus = {.expiry_policy = AMQP_EXPIRES_SESSION_END};
  *size = 0;
  if (!field(data)) return terminus;
  terminus.is_there = true;
  enter_list(data);
  terminus.has_address = field(data);
  if (terminus.has_address) *size = copy_bytes(data, address, ROOM_OF_TEXT);
  exit_list(data);
  return terminus;
}

void read_attach(session *s, amqp_object *attach) {
  amqp_attach_fields fields = {0};
  uint8_t from[ROOM_OF_TEXT], to[ROOM_OF_TEXT], name[ROOM_OF_TEXT];
  size_t from_size, to_size;
  bool is_there;
  pn_data_t *data = s->data;
  check(field(data), "an attach has a name");
  size_t name_size = copy_bytes(data, name, sizeof name);
  fields.handle = uint_field(data, &is_there);
  fields.role = flag_field(data) ? AMQP_ROLE_RECEIVER : AMQP_ROLE_SENDER;
  fields.snd_settle_mode = field(data) ? pn_data_get_ubyte(data) : AMQP_SENDER_MIXED;
  fields.rcv_settle_mode = field(data) ? pn_data_get_ubyte(data) : AMQP_RECEIVER_FIRST;
  amqp_terminus source = terminus_field(data, from, &from_size);
  amqp_terminus target = terminus_field(data, to, &to_size);
  check(!field(data), "proton states no unsettled delivery");
  fields.incomplete_unsettled = flag_field(data);
  fields.initial_delivery_count = uint_field(data, &fields.has_initial_delivery_count);
  s->peer_handle[fields.role == AMQP_ROLE_RECEIVER ? OUR_SENDER : OUR_RECEIVER] = fields.handle;
  done(amqp_attach_new(attach, name, name_size, &fields));
  done(amqp_attach_set_source(attach, &source, from, from_size));
  done(amqp_attach_set_target(attach, &target, to, to_size));
}

bool read_flow(session *s, amqp_flow *flow) {
  bool has_next, is_there, has_handle;
  pn_data_t *data = s->data;
  uint32_t next = uint_field(data, &has_next), window = uint_field(data, &is_there);
  uint_field(data, &is_there);
  uint_field(data, &is_there);
  s->peer_window = (has_next ? next : 0) + window - s->next_outgoing_id;
  flow->handle = uint_field(data, &has_handle);
  flow->delivery_count = uint_field(data, &flow->has_delivery_count);
  flow->link_credit = uint_field(data, &flow->has_link_credit);
  flow->available = uint_field(data, &flow->has_available);
  flow->drain = flag_field(data);
  flow->echo = flag_field(data);
  return has_handle;
}

/* A transfer has arrived. Once half of the window is used, it is opened again. */
static void count_arrival(session *s) {
  s->next_incoming_id++;
  s->window--;
  if (s->window > WINDOW / 2) return;
  s->window = WINDOW;
  begin(s, FLOW);
  put_windows(s);
  finish(s, NONE);
}

static void read_state(pn_data_t *data, delivery_state *state);

void read_transfer(session *s, amqp_transfer *transfer, tag *name) {
  bool is_there;
  delivery_state state = {0};
  pn_data_t *data = s->data;
  transfer->handle = uint_field(data, &is_there);
  transfer->delivery_id = uint_field(data, &transfer->has_delivery_id);
  transfer->has_tag = field(data);
  name->size = transfer->has_tag ? copy_bytes(data, name->bytes, ROOM_OF_TAG) : 0;
  transfer->message_format = uint_field(data, &transfer->has_message_format);
  transfer->settled = bool_field(data, &transfer->has_settled);
  transfer->more = flag_field(data);
  transfer->has_rcv_settle_mode = field(data);
  if (transfer->has_rcv_settle_mode) transfer->rcv_settle_mode = pn_data_get_ubyte(data);
  read_state(data, &state);
  transfer->state = state.fields;
  transfer->resume = flag_field(data);
  transfer->aborted = flag_field(data);
  transfer->batchable = flag_field(data);
  if (transfer->has_tag && transfer->has_delivery_id) s->arrived[transfer->delivery_id % MAX_DELIVERIES] = *name;
  count_arrival(s);
}

/* The error that is the next field, if it is there. Returns whether it is. */
static bool read_error(pn_data_t *data, delivery_state *state) {
  if (!field(data)) return false;
  enter_list(data);
  if (field(data)) state->sizes.first = copy_bytes(data, state->condition, ROOM_OF_TEXT);
  state->fields.has_description = field(data);
  if (state->fields.has_description) state->sizes.second = copy_bytes(data, state->description, ROOM_OF_TEXT);
  exit_list(data);
  return true;
}

static void read_state(pn_data_t *data, delivery_state *state) {
  amqp_delivery_state_fields *fields = &state->fields;
  bool is_there;
  if (!field(data)) return;
  uint64_t code = enter_list(data);
  for (uint32_t kind = AMQP_ACCEPTED; kind <= AMQP_RECEIVED; kind++) {
    if (STATE_CODES[kind] == code) fields->kind = kind;
  }
  if (code == REJECTED_CODE) fields->has_error = read_error(data, state);
  if (code == MODIFIED_CODE) {
    fields->delivery_failed = bool_field(data, &fields->has_delivery_failed);
    fields->undeliverable_here = bool_field(data, &fields->has_undeliverable_here);
  }
  if (code == RECEIVED_CODE) {
    fields->section_number = uint_field(data, &is_there);
    fields->section_offset = field(data) ? pn_data_get_ulong(data) : 0;
  }
  exit_list(data);
}

void read_disposition(session *s, amqp_disposition *disposition, delivery_state *state) {
  bool is_there;
  disposition->role = flag_field(s->data) ? AMQP_ROLE_RECEIVER : AMQP_ROLE_SENDER;
  disposition->first = uint_field(s->data, &is_there);
  disposition->last = uint_field(s->data, &disposition->has_last);
  if (!disposition->has_last) disposition->last = disposition->first;
  disposition->settled = flag_field(s->data);
  read_state(s->data, state);
  disposition->state = state->fields;
}

void read_detach(session *s, amqp_detach *detach, delivery_state *error) {
  bool is_there;
  detach->handle = uint_field(s->data, &is_there);
  detach->closed = flag_field(s->data);
  detach->has_error = read_error(s->data, error);
  detach->has_description = error->fields.has_description;
}
