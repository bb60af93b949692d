/* How long a small delivery takes through this interface: 64 bytes are sent, arrive, are taken, accepted and settled, with the copies
 * in and out. Prints a processor's nanoseconds a delivery, the shortest of five rounds; the argument is how many a round has. */
#define _POSIX_C_SOURCE 199309L
#include "amqp_link.h"
#include <stdio.h>
#include <stdlib.h>
#include <time.h>

#define BYTES(text) (const uint8_t *)(text), sizeof(text) - 1
#define NONE (const uint8_t *)"", 0

/* Ends the program if a call was refused. */
static void done(amqp_status status) {
  if (status != AMQP_OK) {
    fprintf(stderr, "refused: %s\n", amqp_status_name(status));
    exit(1);
  }
}

/* Both endpoints, and what calls put their answers into. */
typedef struct {
  amqp_object sender, receiver, frames, delivery, ended;
  uint32_t next_id;
  size_t sent;
} links;

static void make_links(links *both) {
  amqp_terms terms = {.max_frame_size = 512, .snd_settle_mode = AMQP_SENDER_MIXED};
  amqp_terminus terminus = {.is_there = true, .expiry_policy = AMQP_EXPIRES_SESSION_END};
  done(amqp_sender_new(&both->sender, &terms, BYTES("small"), &terminus, NONE, &terminus, NONE));
  done(amqp_receiver_new(&both->receiver, &terms, BYTES("small"), &terminus, NONE, &terminus, NONE));
}

static void attach(links *both) {
  amqp_object from_sender = {0}, from_receiver = {0}, resuming = {0}, forgotten = {0};
  uint32_t exchange;
  bool incomplete = false;
  done(amqp_link_set_output_handle(&both->sender, 0));
  done(amqp_link_set_output_handle(&both->receiver, 0));
  done(amqp_sender_send_attach(&both->sender, false, &from_sender, &both->ended));
  done(amqp_receiver_send_attach(&both->receiver, false, &from_receiver));
  done(amqp_receiver_on_attach(&both->receiver, &from_sender, &exchange, &forgotten));
  done(amqp_sender_on_attach(&both->sender, &from_receiver, &resuming, &incomplete, &both->ended));
  amqp_free(&from_sender);
  amqp_free(&from_receiver);
  amqp_free(&resuming);
  amqp_free(&forgotten);
}

static void grant(links *both, uint32_t credit) {
  amqp_flow flow = {0}, reply = {0};
  bool has_reply = false;
  done(amqp_receiver_send_flow(&both->receiver, true, credit, false, false, false, &flow));
  done(amqp_sender_on_flow(&both->sender, &flow, &reply, &has_reply));
}

/* One delivery, from its send to its outcome. */
static void deliver(links *both, const uint8_t *payload, size_t size) {
  amqp_transfer transfer = {0};
  amqp_sizes sizes = {0};
  amqp_arriving arriving = {0};
  amqp_delivery_state_fields accepted = {.kind = AMQP_ACCEPTED};
  amqp_disposition sent = {0};
  uint8_t tag[32], bytes[512], over[32], message[512];
  size_t tag_size, message_size, first_pending;
  bool echo = false;
  done(amqp_sender_send(&both->sender, payload, size, 0, AMQP_SETTLED_BY_MODE, false, &both->frames));
  done(amqp_frames_transfer(&both->frames, 0, &transfer, tag, sizeof tag, bytes, sizeof bytes, &sizes));
  transfer.has_delivery_id = true;
  transfer.delivery_id = both->next_id++;
  done(amqp_receiver_on_transfer(&both->receiver, &transfer, tag, sizes.first, bytes, sizes.second, &arriving, over,
                                 sizeof over, &tag_size));
  done(amqp_receiver_take(&both->receiver, over, tag_size, &both->delivery));
  done(amqp_delivery_message(&both->delivery, message, sizeof message, &message_size));
  done(amqp_receiver_dispose(&both->receiver, over, tag_size, AMQP_SETTLED, &accepted, NONE, NONE, false, &both->frames));
  done(amqp_frames_disposition(&both->frames, 0, &sent));
  done(amqp_sender_on_disposition(&both->sender, over, tag_size, sent.settled, &sent.state, NONE, NONE, &echo,
                                  &both->ended));
  both->sent++;
  if (both->sent % 1024 == 0) done(amqp_sender_release(&both->sender, both->sent, &first_pending));
}

static double now(void) {
  struct timespec at;
  clock_gettime(CLOCK_PROCESS_CPUTIME_ID, &at);
  return at.tv_sec * 1e9 + at.tv_nsec;
}

int main(int count, char **words) {
  links both = {0};
  uint8_t payload[64] = {0};
  uint32_t deliveries = count > 1 ? (uint32_t)strtoul(words[1], NULL, 10) : 100000;
  double shortest = 0;
  make_links(&both);
  attach(&both);
  for (int round = 0; round < 5; round++) {
    grant(&both, deliveries);
    double begun = now();
    for (uint32_t n = 0; n < deliveries; n++) deliver(&both, payload, sizeof payload);
    double taken = (now() - begun) / deliveries;
    if (round == 0 || taken < shortest) shortest = taken;
  }
  printf("send, receive and settle 64 bytes: %.0f ns\n", shortest);
  amqp_free(&both.sender);
  amqp_free(&both.receiver);
  amqp_free(&both.frames);
  amqp_free(&both.delivery);
  amqp_free(&both.ended);
  return 0;
}
