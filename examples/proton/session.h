/* The session of this library's end, over one connection: it writes and reads the frames of AMQP 1.0, with qpid-proton's codec for
 * values. It has two links, a sender and a receiver, and gives handles and delivery ids, and keeps which tag an id stands for. */
#ifndef SESSION_H
#define SESSION_H

#include "amqp_link.h"
#include <proton/codec.h>

enum {
  MAX_DELIVERIES = 1 << 8, /* that are unsettled at a time, each way */
  MAX_MESSAGE = 100 << 10,
  ROOM_OF_TAG = 32,
  ROOM_OF_TEXT = 64,
  WINDOW = 1 << 11, /* of transfers that may arrive */
};

/* The links, by what this end is. The number is also the handle under which this end sends. */
typedef enum { OUR_SENDER, OUR_RECEIVER } link_number;

typedef struct {
  uint8_t bytes[ROOM_OF_TAG];
  size_t size;
} tag;

/* The state of a delivery, with the texts of a rejection's error, which end with a 0 byte. */
typedef struct {
  amqp_delivery_state_fields fields;
  uint8_t condition[ROOM_OF_TEXT + 1], description[ROOM_OF_TEXT + 1];
  amqp_sizes sizes;
} delivery_state;

/* Bytes that grow. */
typedef struct {
  uint8_t *bytes;
  size_t size, room;
} buffer;

typedef struct {
  pn_data_t *data; /* the performative that is written or read */
  uint32_t max_frame;
  buffer out;   /* bytes to the peer */
  buffer in;    /* bytes of the peer */
  size_t taken; /* as many of them were read */
  bool has_header;
  uint32_t peer_handle[2]; /* the peer's handle of each link */
  tag sent[MAX_DELIVERIES], arrived[MAX_DELIVERIES];
  uint32_t next_id;
  uint32_t next_outgoing_id, peer_window; /* transfers that may be sent */
  uint32_t next_incoming_id, window;      /* transfers that may arrive */
} session;

/* A frame that has arrived: its performative's descriptor, the fields in `data`, and the payload behind them. */
typedef struct {
  uint64_t code;
  const uint8_t *payload;
  size_t payload_size;
} performative;

enum { OPEN = 0x10, BEGIN, ATTACH, FLOW, TRANSFER, DISPOSITION, DETACH, END, CLOSE };

/* A session over a new connection: nothing was sent or has arrived. */
void session_new(session *s, uint32_t max_frame);
void session_free(session *s);
/* The largest frame that the library is to make. */
uint32_t session_frame_limit(const session *s);

void session_open(session *s); /* the protocol header and open */
void session_begin(session *s);
void session_end(session *s);
void session_close(session *s);
void session_attach(session *s, amqp_object *attach);
void session_flow(session *s, const amqp_flow *flow);
/* Sends a frame of a list; all of them, and frees the list. */
void session_frame(session *s, link_number link, amqp_object *frames, size_t number);
void session_frames(session *s, link_number link, amqp_object *frames);

/* Adds bytes of the peer. */
void session_input(session *s, const char *bytes, size_t size);
/* The next frame of the peer's, if one has arrived. Begins and windows are the session's own. */
bool session_next(session *s, performative *found);
/* The link under the peer's handle. */
link_number session_link(const session *s, uint32_t peer_handle);

/* The fields of what has arrived. */
void read_attach(session *s, amqp_object *attach);
/* Whether the flow is one of a link. */
bool read_flow(session *s, amqp_flow *flow);
/* Also keeps the tag by the id. */
void read_transfer(session *s, amqp_transfer *transfer, tag *name);
void read_disposition(session *s, amqp_disposition *disposition, delivery_state *state);
void read_detach(session *s, amqp_detach *detach, delivery_state *error);

/* Ends the program if this is not so, with the text. */
void check(bool is_so, const char *text);
/* Ends the program if the call was refused. */
#define done(call) check_status((call), #call)
void check_status(amqp_status status, const char *call);

#endif
