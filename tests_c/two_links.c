/* Sends a message of three frames over a link whose connection is lost after the first, and then the rest: what crates/twolinks
 * does, with the same output. Both endpoints are in it, with a session of a few lines between them. */
#include "amqp_link.h"
#include <stdio.h>
#include <stdlib.h>

#define BYTES(text) (const uint8_t *)(text), sizeof(text) - 1
#define NONE (const uint8_t *)"", 0

/* A message as it is encoded: one section of data, with 85 bytes of text. */
static const char MESSAGE[] =
    "\x00\x53\x75\xa0\x55"
    "Dear Sir, this letter takes three frames. The connection may be lost after each. Ann.";

/* Ends the program if a call was refused. */
static void done(amqp_status status) {
  if (status != AMQP_OK) {
    fprintf(stderr, "refused: %s\n", amqp_status_name(status));
    exit(1);
  }
}

/* Both endpoints, the next id, and the tag of the delivery that is complete. */
typedef struct {
  amqp_object sender, receiver;
  uint32_t next_id;
  uint8_t tag[32];
  size_t tag_size;
} links;

static void make_links(links *both) {
  amqp_terms terms = {.max_frame_size = 64, .snd_settle_mode = AMQP_SENDER_MIXED};
  amqp_terminus terminus = {.is_there = true, .expiry_policy = AMQP_EXPIRES_SESSION_END};
  done(amqp_sender_new(&both->sender, &terms, BYTES("letters"), &terminus, NONE, &terminus, NONE));
  done(amqp_receiver_new(&both->receiver, &terms, BYTES("letters"), &terminus, NONE, &terminus, NONE));
}

/* Both endpoints send their attach, and each takes the other's. */
static void attach(links *both, amqp_object *resuming) {
  amqp_object from_sender = {0}, from_receiver = {0}, ended = {0}, forgotten = {0};
  uint32_t exchange;
  bool incomplete = false;
  done(amqp_link_set_output_handle(&both->sender, 0));
  done(amqp_link_set_output_handle(&both->receiver, 0));
  done(amqp_sender_send_attach(&both->sender, false, &from_sender, &ended));
  done(amqp_receiver_send_attach(&both->receiver, false, &from_receiver));
  done(amqp_receiver_on_attach(&both->receiver, &from_sender, &exchange, &forgotten));
  done(amqp_sender_on_attach(&both->sender, &from_receiver, resuming, &incomplete, &ended));
  amqp_free(&from_sender);
  amqp_free(&from_receiver);
  amqp_free(&ended);
  amqp_free(&forgotten);
}

/* The receiver lets the sender begin so many deliveries. */
static void grant(links *both, uint32_t credit) {
  amqp_flow flow = {0}, reply = {0};
  bool has_reply = false;
  done(amqp_receiver_send_flow(&both->receiver, true, credit, false, false, false, &flow));
  done(amqp_sender_on_flow(&both->sender, &flow, &reply, &has_reply));
}

static const char *word_of(uint32_t arrival) {
  switch (arrival) {
  case AMQP_ARRIVAL_BEGUN: return "begun";
  case AMQP_ARRIVAL_CONTINUED: return "continued";
  case AMQP_ARRIVAL_COMPLETE: return "complete";
  default: return "other";
  }
}

/* A frame of the sender's arrives at the receiver. The first transfer of a delivery gets its id here. */
static void arrive(links *both, amqp_object *frames, size_t number) {
  uint32_t kind;
  amqp_transfer transfer = {0};
  amqp_sizes sizes = {0};
  amqp_arriving arriving = {0};
  uint8_t tag[32], payload[64];
  done(amqp_frames_kind(frames, number, &kind));
  done(amqp_frames_transfer(frames, number, &transfer, tag, sizeof tag, payload, sizeof payload, &sizes));
  if (kind == AMQP_FRAME_FIRST_TRANSFER) {
    transfer.has_delivery_id = true;
    transfer.delivery_id = both->next_id++;
  }
  done(amqp_receiver_on_transfer(&both->receiver, &transfer, tag, sizes.first, payload, sizes.second, &arriving,
                                 both->tag, sizeof both->tag, &both->tag_size));
  printf("  a frame arrives: %s\n", word_of(arriving.arrival));
}

/* The message is sent, and its connection is lost after the first frame. */
static void send_and_lose(links *both) {
  amqp_object resuming = {0}, frames = {0};
  attach(both, &resuming);
  grant(both, 1);
  done(amqp_sender_send(&both->sender, BYTES(MESSAGE), 0, AMQP_SETTLED_BY_MODE, false, &frames));
  printf("sent in %zu frames\n", amqp_frames_count(&frames));
  arrive(both, &frames, 0);
  done(amqp_link_on_session_lost(&both->sender));
  done(amqp_link_on_session_lost(&both->receiver));
  printf("the connection is lost\n");
  amqp_free(&resuming);
  amqp_free(&frames);
}

/* The receiver takes the message, and accepts it. */
static void take_and_accept(links *both) {
  amqp_object delivery = {0}, frames = {0}, ended = {0};
  amqp_delivery_state_fields accepted = {.kind = AMQP_ACCEPTED};
  amqp_disposition sent = {0};
  uint8_t message[100];
  size_t size;
  bool echo = false;
  done(amqp_receiver_take(&both->receiver, both->tag, both->tag_size, &delivery));
  done(amqp_delivery_message(&delivery, message, sizeof message, &size));
  printf("taken: %.*s\n", (int)size - 5, message + 5);
  done(amqp_receiver_dispose(&both->receiver, both->tag, both->tag_size, AMQP_SETTLED, &accepted, NONE, NONE,
                             false, &frames));
  done(amqp_frames_disposition(&frames, 0, &sent));
  done(amqp_sender_on_disposition(&both->sender, both->tag, both->tag_size, sent.settled, &sent.state, NONE, NONE,
                                  &echo, &ended));
  amqp_free(&delivery);
  amqp_free(&frames);
  amqp_free(&ended);
}

/* What became of a registration, in words. */
static const char *fate_word(links *both, size_t number) {
  uint32_t kind;
  amqp_outcome outcome = {0};
  done(amqp_sender_fate(&both->sender, number, &kind, &outcome));
  if (kind == AMQP_FATE_HANDED_OUT) return "returned to be sent again";
  if (kind == AMQP_FATE_RESOLVED && outcome.failed == AMQP_OK && outcome.state.kind == AMQP_ACCEPTED) return "accepted";
  return "other";
}

/* After a new attach the rest of each delivery is sent. */
static void resume_all(links *both) {
  amqp_object resuming = {0}, frames = {0};
  both->next_id = 0;
  attach(both, &resuming);
  while (amqp_resuming_count(&resuming) > 0) {
    done(amqp_sender_resume(&both->sender, &resuming, &frames));
    size_t count = amqp_frames_count(&frames);
    printf("resumed in %zu frames\n", count);
    for (size_t number = 0; number < count; number++) arrive(both, &frames, number);
    take_and_accept(both);
  }
  for (size_t number = 0; number < 2; number++) printf("registration %zu: %s\n", number, fate_word(both, number));
  amqp_free(&resuming);
  amqp_free(&frames);
}

int main(void) {
  links both = {0};
  make_links(&both);
  send_and_lose(&both);
  resume_all(&both);
  amqp_free(&both.sender);
  amqp_free(&both.receiver);
  return 0;
}
