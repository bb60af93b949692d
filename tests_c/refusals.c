/* What a call returns for objects and values that it cannot use: a status each, nothing changed, never a stop. */
#include "amqp_link.h"
#include <stdio.h>

#define BYTES(text) (const uint8_t *)(text), sizeof(text) - 1
#define NONE (const uint8_t *)"", 0

static void show(const char *call, amqp_status status) { printf("%s: %s\n", call, amqp_status_name(status)); }

int main(void) {
  amqp_object sender = {0}, frames = {0}, attach = {0}, ended = {0};
  amqp_terms terms = {.max_frame_size = 512, .snd_settle_mode = 3};
  amqp_terminus terminus = {.is_there = true};
  amqp_link_view view = {0};
  uint8_t name[3];
  size_t size;
  show("a link of a mode that is none", amqp_sender_new(&sender, &terms, BYTES("letters"), &terminus, NONE, &terminus, NONE));
  terms.snd_settle_mode = AMQP_SENDER_UNSETTLED;
  show("a name that is no UTF-8", amqp_sender_new(&sender, &terms, BYTES("\xff"), &terminus, NONE, &terminus, NONE));
  show("an object with nothing", amqp_link_look(&sender, &view));
  show("a sender", amqp_sender_new(&sender, &terms, BYTES("letters"), &terminus, NONE, &terminus, NONE));
  show("a send before the attach", amqp_sender_send(&sender, BYTES("x"), 0, AMQP_SETTLED_BY_MODE, false, &frames));
  show("a settled flag that is none", amqp_sender_send(&sender, BYTES("x"), 0, 3, false, &frames));
  show("an attach without handle", amqp_sender_send_attach(&sender, false, &attach, &ended));
  show("a handle", amqp_link_set_output_handle(&sender, 7));
  show("an attach with it", amqp_sender_send_attach(&sender, false, &attach, &ended));
  show("a sender's call on an attach", amqp_sender_send(&attach, BYTES("x"), 0, AMQP_SETTLED, false, &frames));
  show("a buffer that is too small", amqp_link_name(&sender, name, sizeof name, &size));
  printf("bytes that are needed: %zu\n", size);
  printf("kinds: %u %u %u\n", amqp_kind(&sender), amqp_kind(&attach), amqp_kind(&frames));
  amqp_free(&sender);
  amqp_free(&sender);
  show("an object that was freed", amqp_link_look(&sender, &view));
  amqp_free(&attach);
  amqp_free(&ended);
  return 0;
}
