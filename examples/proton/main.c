/* One end of each link is this library, the other the engine of qpid-proton, in the same process. The bytes between them are those
 * that would go over a socket: session.c is the session of this library's end, with proton's codec for values. The arguments are
 * the number of messages each way (1000) and a seed for their sizes and bytes (1). Exit status 0 if all is right, 1 at the first
 * that is not.
 *
 * The main loop runs with frames of at most 512 bytes, and again with 65536. In each phase a link goes each way, and both carry the
 * messages at the same time, ten credits at a time:
 *
 * - The phases are the settle modes: all unsettled or mixed, and the receiver settles first or second; all settled.
 * - A message is any bytes: none, one, 100 KiB, each size about the room of a frame, and others from a seed. The other end compares
 *   each byte.
 * - Each receiver accepts, rejects with a condition and, every other time, a description, releases, or modifies, with either flag or
 *   both. The sender compares what it hears.
 * - The links are detached ten times a phase, while some deliveries have no outcome, and one of proton's has only begun: by this
 *   end, by proton, with the session, and as the connection is lost. Proton states no unsettled delivery, so this library's sender
 *   sends its own again, and its receiver forgets proton's.
 * - This library gives a delivery up that has begun, and aborts it after the attach; another one it resumes. As proton states
 *   neither, the program adds to proton's attach what proton has of it. Proton takes the rest as another delivery of the same tag,
 *   and the program joins the two.
 * - Proton aborts more deliveries than it has credit for at a time, each after its first frames. */
#include "session.h"
#include <proton/condition.h>
#include <proton/connection.h>
#include <proton/delivery.h>
#include <proton/disposition.h>
#include <proton/event.h>
#include <proton/link.h>
#include <proton/session.h>
#include <proton/terminus.h>
#include <proton/transport.h>
#include <stdio.h>
#include <stdlib.h>
#include <string.h>

#define BYTES(text) (const uint8_t *)(text), strlen(text)
#define NONE (const uint8_t *)"", 0
/* Arguments of calls that take, or give, the texts of an error and a tag. */
#define TEXTS(state) (state).condition, (state).sizes.first, (state).description, (state).sizes.second
#define TEXTS_OUT(state) (state).condition, ROOM_OF_TEXT, (state).description, ROOM_OF_TEXT, &(state).sizes
#define TAG(name) (name).bytes, (name).size
#define TAG_OUT(name) (name).bytes, sizeof (name).bytes, &(name).size

enum { CREDIT = 10, STATES = 6 };

/* The settle modes of the links of a phase. */
typedef struct {
  const char *name;
  uint32_t snd, rcv;
} kind;

static const kind KINDS[] = {
    {"unsettled, first", AMQP_SENDER_UNSETTLED, AMQP_RECEIVER_FIRST},
    {"unsettled, second", AMQP_SENDER_UNSETTLED, AMQP_RECEIVER_SECOND},
    {"mixed, first", AMQP_SENDER_MIXED, AMQP_RECEIVER_FIRST},
    {"mixed, second", AMQP_SENDER_MIXED, AMQP_RECEIVER_SECOND},
    {"settled, first", AMQP_SENDER_SETTLED, AMQP_RECEIVER_FIRST},
};
enum { KIND_COUNT = sizeof KINDS / sizeof *KINDS };

/* How an attachment ends: by this end's detach, by proton's, by this end's and then the end of the session, by the loss of the
 * connection. */
typedef enum { BY_US, BY_PEER, WITH_SESSION, LOST, ENDING_COUNT } ending;

/* How far a message has come. One is over when its sender knows its outcome, or once it has arrived if it was sent settled. */
enum { UNSENT, SENT, OVER };

/* What came of messages. */
typedef struct {
  size_t messages, arrived, bytes, states[STATES], settled, aborted, resumed, resent, forgotten;
} counts;

/* The messages that go one way. */
typedef struct {
  link_number link;
  size_t count; /* of messages */
  uint8_t *stage;
  counts made;
} course;

typedef struct {
  session ours;
  amqp_object ends[2], resuming;
  pn_connection_t *connection;
  pn_transport_t *transport;
  pn_collector_t *collector;
  pn_link_t *links[2]; /* proton's end of each link */
  const kind *kind;
  course out, in; /* from this library's sender, and to its receiver */
  counts all[2];  /* of the phases before, each way */
  bool holds;     /* whether the receivers state no outcome of some deliveries */
  bool closed;    /* whether proton has closed the connection */
  size_t attached;
  uint64_t seed;
  uint8_t *expected, *arrived; /* room for a message each */
  tag half;                    /* of the delivery of which proton has only the first frames; no bytes if there is none */
  size_t half_size;            /* as many bytes of it */
} run;

/* ---- messages ---- */

static uint64_t mix(uint64_t x) {
  x = (x ^ x >> 30) * 0xbf58476d1ce4e5b9u;
  x = (x ^ x >> 27) * 0x94d049bb133111ebu;
  return x ^ x >> 31;
}

/* No byte, one, the most, each size about the room of one frame and of two; then many small sizes and some large. */
static size_t size_of(const run *r, const course *c, size_t index) {
  size_t frame = r->ours.max_frame, about = index - 3;
  uint64_t x = mix(mix(r->seed) + 2 * index + c->link);
  if (index < 3) return index < 2 ? index : MAX_MESSAGE;
  if (about < 56) return frame - 60 + about;
  if (about < 156 && frame < MAX_MESSAGE / 2) return 2 * frame - 120 + about - 56;
  if (x % 100 < 70) return x / 100 % 300;
  return x / 100 % (x % 100 < 92 ? 4096 : MAX_MESSAGE + 1);
}

static void fill(const run *r, const course *c, size_t index, uint8_t *bytes) {
  uint64_t x = mix(mix(r->seed + r->ours.max_frame) + 2 * index + c->link);
  size_t size = size_of(r, c, index);
  for (size_t i = 0; i < size; i++) {
    x = x * 6364136223846793005u + 1442695040888963407u;
    bytes[i] = (uint8_t)(x >> 56);
  }
}

static tag tag_of(size_t index) {
  return (tag){{(uint8_t)(index >> 24), (uint8_t)(index >> 16), (uint8_t)(index >> 8), (uint8_t)index}, 4};
}

static size_t index_of(const uint8_t *bytes, size_t size) {
  check(size == 4, "a tag is that of a message");
  return (size_t)bytes[0] << 24 | (size_t)bytes[1] << 16 | (size_t)bytes[2] << 8 | bytes[3];
}

/* Whether a message is sent settled. */
static bool is_settled(const run *r, size_t index) {
  return r->kind->snd == AMQP_SENDER_SETTLED || (r->kind->snd == AMQP_SENDER_MIXED && index % 4 == 3);
}

/* Whether the receiver of a message states no outcome, since the links are to be detached. */
static bool is_held(const run *r, size_t index) { return r->holds && (index % 4 == 1 || index % 4 == 2); }

static size_t next_unsent(const course *c) {
  size_t index = 0;
  while (index < c->count && c->stage[index] != UNSENT) index++;
  return index;
}

static void is_over(course *c, size_t index) {
  if (c->stage[index] != OVER) c->made.messages++;
  c->stage[index] = OVER;
}

/* A message has arrived whose bytes are in `arrived`. */
static void compare(run *r, course *c, size_t index, size_t size, bool settled) {
  check(index < c->count && c->stage[index] != UNSENT, "what arrives was sent");
  fill(r, c, index, r->expected);
  check(size == size_of(r, c, index), "a message has its size");
  check(!memcmp(r->expected, r->arrived, size), "a message has its bytes");
  check(settled == is_settled(r, index), "a delivery is settled, or not, as it was sent");
  c->made.arrived++;
  c->made.bytes += size;
  c->made.settled += settled;
  if (settled) is_over(c, index);
}

/* ---- outcomes ---- */

static void set_texts(delivery_state *state, size_t index) {
  state->fields.has_error = true;
  state->fields.has_description = index % 2 == 1;
  state->sizes.first = (size_t)sprintf((char *)state->condition, "example:no-%zu", index);
  if (state->fields.has_description) state->sizes.second = (size_t)sprintf((char *)state->description, "message %zu", index);
}

/* The outcome that the receiver of a message states: the same for four in a row, so that a disposition may name several. */
static delivery_state outcome_of(size_t index) {
  static const uint32_t kinds[] = {AMQP_ACCEPTED, AMQP_REJECTED, AMQP_RELEASED, AMQP_MODIFIED, AMQP_MODIFIED, AMQP_MODIFIED};
  delivery_state state = {.fields = {.kind = kinds[index / 4 % 6]}};
  if (state.fields.kind == AMQP_REJECTED) set_texts(&state, index);
  if (state.fields.kind == AMQP_MODIFIED) {
    state.fields.has_delivery_failed = state.fields.has_undeliverable_here = true;
    state.fields.delivery_failed = index / 4 % 6 != 3;
    state.fields.undeliverable_here = index / 4 % 6 != 4;
  }
  return state;
}

/* The sender of a message has heard of its outcome. A flag that is not there is false. */
static void hear(course *c, size_t index, const delivery_state *heard) {
  delivery_state stated = outcome_of(index);
  const amqp_delivery_state_fields *one = &stated.fields, *other = &heard->fields;
  check(one->kind == other->kind, "the outcome is the stated one");
  check(one->has_error == other->has_error, "a rejection has its error");
  check(one->delivery_failed == other->delivery_failed, "delivery-failed is as stated");
  check(one->undeliverable_here == other->undeliverable_here, "undeliverable-here is as stated");
  check(!strcmp((const char *)stated.condition, (const char *)heard->condition), "the condition is as stated");
  check(!strcmp((const char *)stated.description, (const char *)heard->description), "the description is as stated");
  c->made.states[other->kind]++;
  check(c->stage[index] == SENT, "a delivery has one outcome");
  is_over(c, index);
}

/* ---- proton's end ---- */

static const uint64_t PEER_STATES[STATES] = {0, PN_ACCEPTED, PN_REJECTED, PN_RELEASED, PN_MODIFIED, PN_RECEIVED};

static void peer_begin(run *r) {
  r->connection = pn_connection();
  r->transport = pn_transport();
  r->collector = pn_collector();
  pn_connection_collect(r->connection, r->collector);
  pn_transport_set_server(r->transport);
  pn_transport_set_max_frame(r->transport, r->ours.max_frame);
  pn_connection_set_container(r->connection, "proton");
  pn_transport_bind(r->transport, r->connection);
  pn_connection_open(r->connection);
}

static void peer_end(run *r) {
  pn_transport_unbind(r->transport);
  pn_transport_free(r->transport);
  pn_connection_free(r->connection);
  pn_collector_free(r->collector);
}

/* Proton replies to an attach. */
static void peer_attaches(run *r, pn_link_t *link) {
  link_number number = pn_link_is_receiver(link) ? OUR_SENDER : OUR_RECEIVER;
  pn_terminus_copy(pn_link_source(link), pn_link_remote_source(link));
  pn_terminus_copy(pn_link_target(link), pn_link_remote_target(link));
  pn_link_set_snd_settle_mode(link, pn_link_remote_snd_settle_mode(link));
  pn_link_set_rcv_settle_mode(link, pn_link_remote_rcv_settle_mode(link));
  pn_link_open(link);
  r->links[number] = link;
  if (number == OUR_SENDER) pn_link_flow(link, CREDIT);
}

static void peer_disposes(run *r, pn_delivery_t *delivery, size_t index) {
  delivery_state state = outcome_of(index);
  pn_disposition_t *local = pn_delivery_local(delivery);
  if (state.fields.has_error) {
    pn_condition_set_name(pn_disposition_condition(local), (const char *)state.condition);
    if (state.fields.has_description)
      pn_condition_set_description(pn_disposition_condition(local), (const char *)state.description);
  }
  pn_disposition_set_failed(local, state.fields.delivery_failed);
  pn_disposition_set_undeliverable(local, state.fields.undeliverable_here);
  pn_delivery_update(delivery, PEER_STATES[state.fields.kind]);
  if (r->kind->rcv == AMQP_RECEIVER_FIRST) pn_delivery_settle(delivery);
}

/* Takes all bytes of proton's current delivery that have arrived. */
static size_t peer_takes(run *r, pn_link_t *link, size_t from) {
  ssize_t count;
  while ((count = pn_link_recv(link, (char *)r->arrived + from, MAX_MESSAGE + 1 - from)) > 0) from += (size_t)count;
  return from;
}

static void peer_receives(run *r, pn_delivery_t *delivery) {
  pn_link_t *link = pn_delivery_link(delivery);
  if (pn_delivery_aborted(delivery)) {
    r->out.made.aborted++;
    r->half_size = 0;
    pn_delivery_settle(delivery);
  } else if (pn_delivery_partial(delivery)) {
    return;
  } else if (pn_delivery_readable(delivery)) {
    pn_delivery_tag_t name = pn_delivery_tag(delivery);
    size_t index = index_of((const uint8_t *)name.start, name.size);
    size_t size = peer_takes(r, link, r->half_size);
    bool settled = pn_delivery_settled(delivery);
    r->half_size = 0;
    pn_link_advance(link);
    check(pn_link_credit(link) >= 0, "the sender sends no more than its credit");
    compare(r, &r->out, index, size, settled);
    if (settled) pn_delivery_settle(delivery);
    else if (!is_held(r, index)) peer_disposes(r, delivery, index);
  } else if (pn_delivery_settled(delivery)) {
    pn_delivery_settle(delivery);
  }
}

static const char *text_or_none(const char *text) { return text ? text : ""; }

/* Proton's sender hears of an outcome, and settles. */
static void peer_hears(run *r, pn_delivery_t *delivery) {
  delivery_state state = {0};
  pn_disposition_t *remote = pn_delivery_remote(delivery);
  pn_delivery_tag_t name = pn_delivery_tag(delivery);
  uint64_t code = pn_disposition_type(remote);
  if (code == 0) return;
  for (uint32_t number = 0; number < STATES; number++) {
    if (PEER_STATES[number] == code) state.fields.kind = number;
  }
  pn_condition_t *error = pn_disposition_condition(remote);
  state.fields.has_error = pn_condition_is_set(error);
  state.sizes.first = (size_t)snprintf((char *)state.condition, ROOM_OF_TEXT, "%s", text_or_none(pn_condition_get_name(error)));
  state.sizes.second =
      (size_t)snprintf((char *)state.description, ROOM_OF_TEXT, "%s", text_or_none(pn_condition_get_description(error)));
  state.fields.delivery_failed = pn_disposition_is_failed(remote);
  state.fields.undeliverable_here = pn_disposition_is_undeliverable(remote);
  hear(&r->in, index_of((const uint8_t *)name.start, name.size), &state);
  pn_delivery_settle(delivery);
}

static void peer_events(run *r) {
  pn_event_t *event;
  while ((event = pn_collector_peek(r->collector))) {
    pn_link_t *link = pn_event_link(event);
    switch (pn_event_type(event)) {
    case PN_SESSION_REMOTE_OPEN: pn_session_open(pn_event_session(event)); break;
    case PN_SESSION_REMOTE_CLOSE: pn_session_close(pn_event_session(event)); break;
    case PN_CONNECTION_REMOTE_CLOSE: pn_connection_close(r->connection); break;
    case PN_LINK_REMOTE_OPEN: peer_attaches(r, link); break;
    case PN_LINK_REMOTE_DETACH: pn_link_detach(link); break;
    case PN_LINK_REMOTE_CLOSE: pn_link_close(link); break;
    case PN_DELIVERY:
      if (pn_link_is_receiver(link)) peer_receives(r, pn_event_delivery(event));
      else peer_hears(r, pn_event_delivery(event));
      break;
    case PN_TRANSPORT_ERROR: check(false, pn_condition_get_description(pn_transport_condition(r->transport))); break;
    default: break;
    }
    pn_collector_pop(r->collector);
  }
}

/* Proton's sender begins a delivery, with bytes of another message, and does not go on. */
static pn_delivery_t *peer_begins(run *r, size_t index) {
  tag name = tag_of(index);
  pn_delivery_t *delivery = pn_delivery(r->links[OUR_RECEIVER], pn_dtag((const char *)name.bytes, name.size));
  fill(r, &r->in, 2, r->expected);
  pn_link_send(r->links[OUR_RECEIVER], (const char *)r->expected, MAX_MESSAGE / 2);
  return delivery;
}

/* Proton's sender sends as long as it has more than so much credit. */
static void peer_sends(run *r, int spare) {
  pn_link_t *link = r->links[OUR_RECEIVER];
  for (size_t index; pn_link_credit(link) > spare && (index = next_unsent(&r->in)) < r->in.count;) {
    tag name = tag_of(index);
    pn_delivery_t *delivery = pn_delivery(link, pn_dtag((const char *)name.bytes, name.size));
    fill(r, &r->in, index, r->expected);
    pn_link_send(link, (const char *)r->expected, size_of(r, &r->in, index));
    r->in.stage[index] = SENT;
    if (is_settled(r, index)) pn_delivery_settle(delivery);
    else pn_link_advance(link);
  }
}

/* ---- this library's end ---- */

static amqp_link_view look(run *r, link_number link) {
  amqp_link_view view = {0};
  done(amqp_link_look(&r->ends[link], &view));
  return view;
}

/* The sender has got these outcomes. */
static void end_here(run *r, amqp_object *ended) {
  size_t count = amqp_outcomes_count(ended);
  for (size_t number = 0; number < count; number++) {
    amqp_outcome outcome = {0};
    delivery_state state = {0};
    tag name;
    done(amqp_outcomes_at(ended, number, &outcome, TAG_OUT(name)));
    state.fields = outcome.state;
    check(outcome.failed == AMQP_OK, "no delivery fails");
    if (state.fields.has_error) done(amqp_outcomes_error(ended, number, TEXTS_OUT(state)));
    hear(&r->out, index_of(TAG(name)), &state);
  }
  amqp_free(ended);
}

/* The receiver has settled a delivery, or waits for the sender to. */
static void sender_disposition(run *r, uint32_t id, bool settled, const delivery_state *state) {
  const tag *name = &r->ours.sent[id % MAX_DELIVERIES];
  amqp_object *sender = &r->ends[OUR_SENDER], ended = {0}, frames = {0};
  bool echo;
  done(amqp_sender_on_disposition(sender, TAG(*name), settled, &state->fields, TEXTS(*state), &echo, &ended));
  end_here(r, &ended);
  if (!echo) return;
  done(amqp_sender_dispose(sender, id, TAG(*name), true, &state->fields, TEXTS(*state), &frames, &ended));
  session_frames(&r->ours, OUR_SENDER, &frames);
  end_here(r, &ended);
}

static void receiver_disposition(run *r, uint32_t id, bool settled, const delivery_state *state) {
  const tag *name = &r->ours.arrived[id % MAX_DELIVERIES];
  done(amqp_receiver_on_disposition(&r->ends[OUR_RECEIVER], TAG(*name), settled, &state->fields, TEXTS(*state)));
}

static void take_disposition(run *r) {
  amqp_disposition stated = {0};
  delivery_state state = {0};
  read_disposition(&r->ours, &stated, &state);
  for (uint32_t left = stated.last - stated.first + 1, id = stated.first; left > 0; left--, id++) {
    if (stated.role == AMQP_ROLE_RECEIVER) sender_disposition(r, id, stated.settled, &state);
    else receiver_disposition(r, id, stated.settled, &state);
  }
}

/* Compares a delivery that was taken, and returns the number of its message. */
static size_t compare_taken(run *r, amqp_object *delivery, bool settled) {
  amqp_delivery_view view = {0};
  tag name;
  size_t size;
  done(amqp_delivery_look(delivery, &view, TAG_OUT(name)));
  done(amqp_delivery_message(delivery, r->arrived, MAX_MESSAGE + 1, &size));
  size_t index = index_of(TAG(name));
  compare(r, &r->in, index, size, settled);
  amqp_free(delivery);
  return index;
}

/* Takes a complete delivery, and states its outcome. */
static void receiver_takes(run *r, const tag *name) {
  amqp_object *receiver = &r->ends[OUR_RECEIVER], delivery = {0}, frames = {0};
  if (r->holds && index_of(TAG(*name)) % 4 == 1) return; /* of what is held some is not even taken */
  done(amqp_receiver_take(receiver, TAG(*name), &delivery));
  size_t index = compare_taken(r, &delivery, false);
  if (is_held(r, index)) return;
  delivery_state state = outcome_of(index);
  done(amqp_receiver_dispose(receiver, TAG(*name), AMQP_SETTLED_BY_MODE, &state.fields, TEXTS(state), false, &frames));
  session_frames(&r->ours, OUR_RECEIVER, &frames);
}

static void receiver_takes_settled(run *r) {
  amqp_object *receiver = &r->ends[OUR_RECEIVER], delivery = {0};
  size_t count;
  done(amqp_receiver_settled_count(receiver, &count));
  for (; count > 0; count--) {
    done(amqp_receiver_take_settled(receiver, &delivery));
    compare_taken(r, &delivery, true);
  }
}

static void take_transfer(run *r, const performative *found) {
  amqp_transfer transfer = {0};
  amqp_arriving arriving = {0};
  tag name, over;
  read_transfer(&r->ours, &transfer, &name);
  done(amqp_receiver_on_transfer(&r->ends[OUR_RECEIVER], &transfer, TAG(name), found->payload, found->payload_size,
                                 &arriving, TAG_OUT(over)));
  check(!arriving.without_credit, "proton sends no more than its credit");
  if (arriving.arrival == AMQP_ARRIVAL_COMPLETE) receiver_takes(r, &over);
  if (arriving.arrival == AMQP_ARRIVAL_COMPLETE_SETTLED) receiver_takes_settled(r);
  if (arriving.arrival == AMQP_ARRIVAL_ABORTED) r->in.made.aborted++;
}

/* Proton states no unsettled delivery in an attach. What it has of one that has begun is stated in its place. */
static void state_half(run *r, amqp_object *attach) {
  amqp_delivery_state_fields state = {.kind = AMQP_RECEIVED, .section_offset = r->half_size};
  done(amqp_attach_add_unsettled(attach, TAG(r->half), &state, NONE, NONE));
}

static void take_attach(run *r) {
  amqp_object attach = {0}, ended = {0}, forgotten = {0};
  amqp_attach_fields fields = {0};
  uint8_t name[ROOM_OF_TEXT];
  size_t size;
  bool incomplete;
  uint32_t follows;
  read_attach(&r->ours, &attach);
  done(amqp_attach_look(&attach, &fields, name, sizeof name, &size));
  if (fields.role == AMQP_ROLE_RECEIVER) {
    if (r->half.size > 0) state_half(r, &attach);
    done(amqp_sender_on_attach(&r->ends[OUR_SENDER], &attach, &r->resuming, &incomplete, &ended));
    check(!incomplete, "an attach states all unsettled deliveries");
    end_here(r, &ended);
  } else {
    done(amqp_receiver_on_attach(&r->ends[OUR_RECEIVER], &attach, &follows, &forgotten));
    r->in.made.forgotten += amqp_forgotten_count(&forgotten);
    amqp_free(&forgotten);
  }
  amqp_free(&attach);
}

static void take_flow(run *r) {
  amqp_flow flow = {0}, reply = {0};
  bool has_reply = false;
  if (!read_flow(&r->ours, &flow)) return;
  link_number link = session_link(&r->ours, flow.handle);
  if (link == OUR_SENDER) done(amqp_sender_on_flow(&r->ends[link], &flow, &reply, &has_reply));
  else done(amqp_receiver_on_flow(&r->ends[link], &flow, &reply, &has_reply));
  if (has_reply) session_flow(&r->ours, &reply);
}

/* Proton replies to a detach, or has sent one by itself. */
static void take_detach(run *r) {
  amqp_detach detach = {0};
  delivery_state error = {0};
  amqp_object reply = {0}, ended = {0};
  read_detach(&r->ours, &detach, &error);
  link_number link = session_link(&r->ours, detach.handle);
  amqp_object *end = &r->ends[link];
  uint32_t state = look(r, link).state;
  if (state == AMQP_STATE_DETACH_SENT || state == AMQP_STATE_CLOSE_SENT) {
    done(amqp_link_on_detach_reply(end, &detach, TEXTS(error)));
    return;
  }
  if (link == OUR_SENDER) done(amqp_sender_on_detach(end, &detach, TEXTS(error), true, &reply, &ended));
  else done(amqp_receiver_on_detach(end, &detach, TEXTS(error), true, &reply));
  end_here(r, &ended);
  session_frames(&r->ours, link, &reply);
  done(amqp_link_apply_remote_detach(end, &detach, TEXTS(error)));
}

static void take_frames(run *r) {
  performative found;
  while (session_next(&r->ours, &found)) {
    switch (found.code) {
    case ATTACH: take_attach(r); break;
    case FLOW: take_flow(r); break;
    case TRANSFER: take_transfer(r, &found); break;
    case DISPOSITION: take_disposition(r); break;
    case DETACH: take_detach(r); break;
    case CLOSE: r->closed = true; break;
    default: break;
    }
  }
}

/* On a link that sends all settled a delivery gets the tag that the library gives it, the delivery-count, which is the message's
 * number there. */
static amqp_status we_send_one(run *r, size_t index, amqp_object *frames) {
  amqp_object *sender = &r->ends[OUR_SENDER];
  size_t size = size_of(r, &r->out, index);
  tag name = tag_of(index);
  fill(r, &r->out, index, r->expected);
  if (r->kind->snd == AMQP_SENDER_SETTLED)
    return amqp_sender_send(sender, r->expected, size, 0, AMQP_SETTLED_BY_MODE, false, frames);
  return amqp_sender_send_with_tag(sender, TAG(name), r->expected, size, 0, is_settled(r, index), false, frames);
}

/* This library's sender sends as long as it has credit. */
static void we_send(run *r) {
  amqp_object frames = {0};
  for (size_t index; (index = next_unsent(&r->out)) < r->out.count;) {
    amqp_status status = we_send_one(r, index, &frames);
    if (status == AMQP_CREDIT_MISSING) return;
    done(status);
    r->out.stage[index] = SENT;
    session_frames(&r->ours, OUR_SENDER, &frames);
  }
}

static void grant_here(run *r) {
  amqp_flow flow = {0};
  done(amqp_receiver_send_flow(&r->ends[OUR_RECEIVER], true, CREDIT, false, false, false, &flow));
  session_flow(&r->ours, &flow);
}

/* Each receiver grants credit again once half of it is used. */
static void we_grant(run *r) {
  if (look(r, OUR_RECEIVER).link_credit <= CREDIT / 2) grant_here(r);
}

static void peer_grants(run *r) {
  pn_link_t *link = r->links[OUR_SENDER];
  int credit = pn_link_credit(link);
  if (credit <= CREDIT / 2) pn_link_flow(link, CREDIT - credit);
}

/* ---- both ends ---- */

/* Bytes go both ways until neither end has any. */
static void exchange(run *r) {
  session *s = &r->ours;
  bool moved;
  do {
    size_t pushed = 0;
    moved = s->out.size > 0;
    while (pushed < s->out.size) {
      ssize_t count = pn_transport_push(r->transport, (const char *)s->out.bytes + pushed, s->out.size - pushed);
      check(count > 0, "proton takes what is sent");
      pushed += (size_t)count;
      peer_events(r);
    }
    s->out.size = 0;
    peer_events(r);
    for (ssize_t pending; (pending = pn_transport_pending(r->transport)) > 0; moved = true) {
      session_input(s, pn_transport_head(r->transport), (size_t)pending);
      pn_transport_pop(r->transport, (size_t)pending);
      take_frames(r);
    }
  } while (moved);
}

static void connect_ends(run *r, uint32_t max_frame) {
  session_new(&r->ours, max_frame);
  peer_begin(r);
  session_open(&r->ours);
  session_begin(&r->ours);
  exchange(r);
}

static void disconnect(run *r) {
  session_end(&r->ours);
  session_close(&r->ours);
  exchange(r);
  check(r->closed, "proton closes the connection");
  r->closed = false;
  peer_end(r);
  session_free(&r->ours);
}

static void send_detach(run *r, link_number link, const amqp_detach *detach) {
  amqp_object frames = {0};
  done(amqp_link_send_detach(&r->ends[link], detach, NONE, NONE, &frames));
  session_frames(&r->ours, link, &frames);
}

/* What the attaches ask for is sent again. That takes no credit of the library's sender, but of proton's receiver: it is sent while
 * there is credit, and then the sender states its count. */
static void we_resume(run *r) {
  amqp_object *sender = &r->ends[OUR_SENDER], frames = {0};
  amqp_flow flow = {0};
  if (amqp_resuming_count(&r->resuming) == 0) return;
  check(look(r, OUR_SENDER).link_credit >= amqp_resuming_count(&r->resuming), "there is credit for what is sent again");
  while (amqp_resuming_count(&r->resuming) > 0) {
    uint32_t what;
    tag name;
    done(amqp_resuming_at(&r->resuming, 0, &what, TAG_OUT(name)));
    done(amqp_sender_resume(sender, &r->resuming, &frames));
    session_frames(&r->ours, OUR_SENDER, &frames);
    if (what == AMQP_RESUME) r->out.made.resumed++;
    if (what == AMQP_RESEND) r->out.made.resent++;
  }
  done(amqp_sender_send_flow(sender, false, 0, false, &flow));
  session_flow(&r->ours, &flow);
}

static void attach(run *r) {
  amqp_object sent = {0}, ended = {0};
  done(amqp_link_set_output_handle(&r->ends[OUR_SENDER], OUR_SENDER));
  done(amqp_link_set_output_handle(&r->ends[OUR_RECEIVER], OUR_RECEIVER));
  done(amqp_sender_send_attach(&r->ends[OUR_SENDER], false, &sent, &ended));
  session_attach(&r->ours, &sent);
  done(amqp_receiver_send_attach(&r->ends[OUR_RECEIVER], false, &sent));
  session_attach(&r->ours, &sent);
  amqp_free(&sent);
  end_here(r, &ended);
  exchange(r);
  check(look(r, OUR_SENDER).state == AMQP_STATE_ATTACHED, "the sender is attached");
  check(look(r, OUR_RECEIVER).state == AMQP_STATE_ATTACHED, "the receiver is attached");
  r->attached++;
  r->half.size = 0;
  we_resume(r);
  amqp_free(&r->resuming);
  grant_here(r);
  exchange(r);
}

/* A link of proton's cannot be attached again: it is freed, and another gets its name. */
static void peer_forgets(run *r, ending how) {
  if (how == WITH_SESSION) {
    session_end(&r->ours);
    exchange(r);
    pn_session_free(pn_link_session(r->links[OUR_SENDER]));
    session_begin(&r->ours);
  } else {
    pn_link_free(r->links[OUR_SENDER]);
    pn_link_free(r->links[OUR_RECEIVER]);
  }
  exchange(r);
}

/* Ends the attachment of both links. Proton's sender sends again, as other deliveries, what has no outcome. */
static void detach(run *r, ending how) {
  static const amqp_detach stays = {0};
  for (link_number link = OUR_SENDER; link <= OUR_RECEIVER; link++) {
    if (how == LOST) done(amqp_link_on_session_lost(&r->ends[link]));
    else if (how == BY_PEER) pn_link_detach(r->links[link]);
    else send_detach(r, link, &stays);
  }
  if (how == LOST) {
    peer_end(r);
    connect_ends(r, r->ours.max_frame);
  } else {
    exchange(r);
    check(look(r, OUR_SENDER).state == AMQP_STATE_DETACHED, "the sender is detached");
    check(look(r, OUR_RECEIVER).state == AMQP_STATE_DETACHED, "the receiver is detached");
    peer_forgets(r, how);
  }
  for (size_t index = 0; index < r->in.count; index++) {
    if (r->in.stage[index] != SENT) continue;
    r->in.stage[index] = UNSENT;
    r->in.made.resent++;
  }
}

/* ---- phases ---- */

static void begin_course(course *c, link_number link, size_t count) {
  *c = (course){.link = link, .count = count, .stage = calloc(count, 1)};
  check(c->stage != NULL, "there is memory");
}

static void add(counts *sum, const counts *c) {
  sum->messages += c->messages;
  sum->arrived += c->arrived;
  sum->bytes += c->bytes;
  for (size_t number = 0; number < STATES; number++) sum->states[number] += c->states[number];
  sum->settled += c->settled;
  sum->aborted += c->aborted;
  sum->resumed += c->resumed;
  sum->resent += c->resent;
  sum->forgotten += c->forgotten;
}

static void print_row(const char *name, size_t out, size_t in) { printf("%-30s %10zu %10zu\n", name, out, in); }

/* Both ways, out of this library's end and into it. */
static void print_counts(const counts *out, const counts *in) {
  printf("%-30s %10s %10s\n", "", "out", "in");
  print_row("messages", out->messages, in->messages);
  print_row("deliveries that have arrived", out->arrived, in->arrived);
  print_row("bytes of them, all compared", out->bytes, in->bytes);
  print_row("accepted", out->states[AMQP_ACCEPTED], in->states[AMQP_ACCEPTED]);
  print_row("rejected", out->states[AMQP_REJECTED], in->states[AMQP_REJECTED]);
  print_row("released", out->states[AMQP_RELEASED], in->states[AMQP_RELEASED]);
  print_row("modified", out->states[AMQP_MODIFIED], in->states[AMQP_MODIFIED]);
  print_row("sent settled", out->settled, in->settled);
  print_row("aborted", out->aborted, in->aborted);
  print_row("resumed after an attach", out->resumed, in->resumed);
  print_row("sent again after an attach", out->resent, in->resent);
  print_row("forgotten at an attach", out->forgotten, in->forgotten);
}

/* New endpoints, with these modes, for so many messages each way. */
static void begin_phase(run *r, const kind *k, size_t count) {
  static const amqp_terminus terminus = {.is_there = true, .has_address = true, .expiry_policy = AMQP_EXPIRES_NEVER};
  amqp_terms terms = {.max_frame_size = session_frame_limit(&r->ours), .snd_settle_mode = k->snd, .rcv_settle_mode = k->rcv};
  r->kind = k;
  r->attached = 0;
  begin_course(&r->out, OUR_SENDER, count);
  begin_course(&r->in, OUR_RECEIVER, count);
  done(amqp_sender_new(&r->ends[OUR_SENDER], &terms, BYTES("out"), &terminus, BYTES("here"), &terminus, BYTES("there")));
  done(amqp_receiver_new(&r->ends[OUR_RECEIVER], &terms, BYTES("in"), &terminus, BYTES("there"), &terminus, BYTES("here")));
  attach(r);
}

/* No registration is pending, and none is kept any more. */
static void check_fates(run *r) {
  size_t count = 0, first;
  uint32_t fate;
  amqp_outcome outcome = {0};
  while (amqp_sender_fate(&r->ends[OUR_SENDER], count, &fate, &outcome) == AMQP_OK) {
    check(fate != AMQP_FATE_PENDING, "no delivery is pending at the end");
    count++;
  }
  done(amqp_sender_release(&r->ends[OUR_SENDER], count, &first));
}

/* Closes both links, and prints the line of the phase. */
static void end_phase(run *r, const char *title) {
  static const amqp_detach closes = {.closed = true};
  check_fates(r);
  for (link_number link = OUR_SENDER; link <= OUR_RECEIVER; link++) {
    check(look(r, link).unsettled == 0, "nothing is unsettled at this end");
    send_detach(r, link, &closes);
  }
  exchange(r);
  for (link_number link = OUR_SENDER; link <= OUR_RECEIVER; link++) {
    check(look(r, link).state == AMQP_STATE_CLOSED, "a link is closed");
    amqp_free(&r->ends[link]);
    check(pn_link_unsettled(r->links[link]) == 0, "nothing is unsettled at proton's end");
    pn_link_free(r->links[link]);
  }
  printf("frames of %5u, %-28s  out %4zu messages, in %4zu, attached %2zu times\n", r->ours.max_frame, title, r->out.made.messages,
         r->in.made.messages, r->attached);
  add(&r->all[OUR_SENDER], &r->out.made);
  add(&r->all[OUR_RECEIVER], &r->in.made);
  free(r->out.stage);
  free(r->in.stage);
}

/* What has arrived has its outcome, and its sender has heard of it, but for what the receivers hold. */
static void check_heard(const run *r, const course *c) {
  for (size_t index = 0; index < c->count; index++) {
    check(c->stage[index] != SENT || is_held(r, index), "a sender has heard of each outcome");
  }
}

/* All messages go both ways. The links are detached in between: some deliveries have no outcome then, one has only begun. */
static void carry(run *r, size_t between) {
  size_t endings = 0;
  for (size_t round = 1; r->out.made.messages < r->out.count || r->in.made.messages < r->in.count; round++) {
    bool detaches = round % between == 0, begins = detaches && r->kind->snd != AMQP_SENDER_SETTLED;
    check(round < 10 * r->out.count, "the messages come to an end");
    r->holds = detaches;
    we_send(r);
    peer_sends(r, begins);
    if (begins && next_unsent(&r->in) < r->in.count) peer_begins(r, next_unsent(&r->in));
    exchange(r);
    check_heard(r, &r->out);
    check_heard(r, &r->in);
    r->holds = false;
    if (detaches) {
      detach(r, (ending)(endings++ % ENDING_COUNT));
      attach(r);
    }
    we_grant(r);
    peer_grants(r);
    exchange(r);
  }
}

/* Proton's sender aborts each message once, after its first frames, and then sends it. Each abort counts as a delivery there. */
static void peer_aborts(run *r) {
  amqp_object *receiver = &r->ends[OUR_RECEIVER];
  begin_phase(r, &KINDS[0], CREDIT + 2);
  for (size_t index = 0; index < r->in.count; index++) {
    amqp_kept_view view = {0};
    tag name = tag_of(index);
    check(pn_link_credit(r->links[OUR_RECEIVER]) > 0, "proton has credit");
    pn_delivery_t *delivery = peer_begins(r, index);
    exchange(r);
    done(amqp_receiver_kept(receiver, TAG(name), &view));
    check(view.stage == AMQP_STAGE_BEGUN, "a delivery has begun");
    pn_delivery_abort(delivery);
    exchange(r);
    check(r->in.made.aborted == index + 1, "a delivery is aborted");
    check(amqp_receiver_kept(receiver, TAG(name), &view) == AMQP_UNKNOWN_TAG, "nothing is kept of it");
    we_grant(r);
    exchange(r);
  }
  carry(r, 2);
  end_phase(r, "proton aborts");
}

/* The first half of the frames of message 2 is sent, and then the link is detached: proton holds what has arrived. */
static void send_half(run *r, ending how) {
  amqp_object frames = {0};
  tag name = tag_of(2);
  fill(r, &r->out, 2, r->expected);
  done(amqp_sender_send_with_tag(&r->ends[OUR_SENDER], TAG(name), r->expected, MAX_MESSAGE, 0, AMQP_NOT_SETTLED, false, &frames));
  size_t half = amqp_frames_count(&frames) / 2;
  for (size_t number = 0; number < half; number++) session_frame(&r->ours, OUR_SENDER, &frames, number);
  amqp_free(&frames);
  exchange(r);
  r->out.stage[2] = SENT;
  r->half = name;
  r->half_size = peer_takes(r, r->links[OUR_SENDER], 0);
  check(r->half_size > 0 && r->half_size < MAX_MESSAGE, "proton holds a part");
  detach(r, how);
}

/* A delivery that has begun is given up, and aborted after the attach. Another of the same message is resumed. */
static void we_abort(run *r) {
  bool was_pending;
  begin_phase(r, &KINDS[0], CREDIT);
  send_half(r, WITH_SESSION);
  done(amqp_sender_withdraw(&r->ends[OUR_SENDER], TAG(r->half), &was_pending));
  check(was_pending, "a delivery is given up");
  attach(r);
  check(r->out.made.aborted == 1, "proton sees the abort");
  r->out.stage[2] = UNSENT;
  send_half(r, LOST);
  attach(r);
  check(r->out.made.resumed == 1 && r->out.stage[2] == OVER, "a delivery is resumed, and has its outcome");
  carry(r, 2);
  end_phase(r, "this library aborts, resumes");
}

/* The main loop, at one size of frames. */
static void run_frames(run *r, uint32_t max_frame, size_t count) {
  connect_ends(r, max_frame);
  for (size_t number = 0; number < KIND_COUNT; number++) {
    begin_phase(r, &KINDS[number], count);
    carry(r, count < 200 ? 2 : 10);
    end_phase(r, KINDS[number].name);
  }
  we_abort(r);
  peer_aborts(r);
  disconnect(r);
}

int main(int argc, char **argv) {
  static run r;
  size_t count = argc > 1 ? strtoul(argv[1], NULL, 10) : 1000;
  r.seed = argc > 2 ? strtoull(argv[2], NULL, 10) : 1;
  r.expected = malloc(MAX_MESSAGE);
  r.arrived = malloc(MAX_MESSAGE + 1);
  check(r.expected && r.arrived, "there is memory");
  run_frames(&r, 512, count);
  run_frames(&r, 65536, count);
  print_counts(&r.all[OUR_SENDER], &r.all[OUR_RECEIVER]);
  printf("all is right\n");
  free(r.expected);
  free(r.arrived);
  return 0;
}
