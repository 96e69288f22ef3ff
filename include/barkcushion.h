/* Barkcushion for C: CIP messages, written and read. Link libbarkcushion.a. What holds for every function is said in barkcushion_path.h, but for
 * one thing: bark_take_scrap may change the state that it is lent when it refuses, as is said at that function.
 *
 * A writer lays its bytes at the front of out and answers how many there are; it changes no byte behind them.
 * A reader fills the front of a lent run of numbers, fields, at the places named here, and answers how many numbers it filled; starts and
 * lengths are of parts of its input. Every reader refuses ROOM, after all else, where the run is too short.
 * A path is given to a writer as its bytes, from bark_write_path: it is judged as bark_check_path does, after LIMIT where it has more than
 * BARK_MAX_PATH bytes.
 */
#ifndef BARKCUSHION_H
#define BARKCUSHION_H

#include "barkcushion_path.h"

#include <stdbool.h>

#ifdef __cplusplus
extern "C" {
#endif

enum {
    BARK_MAX_PATH = 254,     /* bytes of a path behind a size byte */
    BARK_MAX_RECORD = 65535, /* bytes of a message, a reply, a request record or a body */
    BARK_MAX_APP_DATA = 510  /* bytes of application data */
};

/* ---- messages */

enum bark_message {
    BARK_MESSAGE_SERVICE = 0,
    BARK_MESSAGE_PATH_START = 1,
    BARK_MESSAGE_PATH_LENGTH = 2,
    BARK_MESSAGE_DATA_START = 3,
    BARK_MESSAGE_DATA_LENGTH = 4,
    BARK_MESSAGE = 5 /* numbers of a message */
};

/* Writes a message: service, path size, path, data. Refused: LIMIT and the path's own, LIMIT over 65,535 bytes, ROOM. */
int64_t bark_write_message(uint8_t service, const uint8_t *path, size_t path_len, const uint8_t *data, size_t data_len, uint8_t *out,
                           size_t out_len);

/* Reads a message; what follows its path is data. Refused: LIMIT, SHORT, the path's own. */
int64_t bark_read_message(const uint8_t *s, size_t len, size_t *fields, size_t count);

enum bark_send {
    BARK_SEND_PRIORITY_TICKS = 0,
    BARK_SEND_TIMEOUT_TICKS = 1,
    BARK_SEND_MESSAGE_START = 2,
    BARK_SEND_MESSAGE_LENGTH = 3,
    BARK_SEND_PATH_START = 4,
    BARK_SEND_PATH_LENGTH = 5,
    BARK_SEND = 6 /* numbers of an Unconnected Send */
};

/* Writes the data of an Unconnected Send: the message, which may be any bytes, and the route. The two tick bytes are written as they stand.
 * Refused: as bark_write_message. */
int64_t bark_write_unconnected_send(uint8_t priority_ticks, uint8_t timeout_ticks, const uint8_t *message, size_t message_len,
                                    const uint8_t *path, size_t path_len, uint8_t *out, size_t out_len);

/* Reads the data of an Unconnected Send. Refused: LIMIT, SHORT, FORM one of the high four bits of the first byte, the pad or the reserved byte
 * not zero, the path's own, LEFTOVER. */
int64_t bark_read_unconnected_send(const uint8_t *s, size_t len, size_t *fields, size_t count);

/* ---- Forward Open and Forward Close */

enum bark_priority { BARK_LOW = 0, BARK_HIGH = 1, BARK_SCHEDULED = 2, BARK_URGENT = 3 };

enum bark_connection_type { BARK_NULL = 0, BARK_MULTICAST = 1, BARK_P2P = 2 };

enum bark_trigger { BARK_CYCLIC = 0, BARK_CHANGE_OF_STATE = 1, BARK_APPLICATION = 2 };

/* The connection parameters as the word that a Forward Open has, of 16 bits, or of 32 where large. Refused: CODE a priority over 3 or a type
 * over 2, LIMIT a size that the word can't hold (511 in a small one). */
int64_t bark_encode_parameters(bool large, bool redundant_owner, uint8_t connection_type, bool variable_length, uint8_t priority,
                               uint16_t connection_size);

enum bark_parameters {
    BARK_PARAMETERS_OWNER = 0,
    BARK_PARAMETERS_TYPE = 1,
    BARK_PARAMETERS_VARIABLE = 2,
    BARK_PARAMETERS_PRIORITY = 3,
    BARK_PARAMETERS_SIZE = 4,
    BARK_PARAMETERS = 5 /* numbers of connection parameters */
};

/* The connection parameters in a word. Refused: FORM a reserved bit, CODE type 3. */
int64_t bark_decode_parameters(bool large, uint32_t word, size_t *fields, size_t count);

/* Direction (true: server), trigger and class (0 to 6) as the byte that a Forward Open has. Refused: CODE. */
int64_t bark_encode_transport(bool server, uint8_t trigger, uint8_t transport_class);

enum bark_transport {
    BARK_TRANSPORT_SERVER = 0,
    BARK_TRANSPORT_TRIGGER = 1,
    BARK_TRANSPORT_CLASS = 2,
    BARK_TRANSPORT = 3 /* numbers of class and trigger */
};

/* Direction, trigger and class in a byte. Refused: CODE trigger 3 to 7, class 7 to 15. */
int64_t bark_decode_transport(uint8_t byte, size_t *fields, size_t count);

/* The fields of a Forward Open, in the order of the wire; a writer uses the first BARK_OPEN_WRITTEN */
enum bark_open {
    BARK_OPEN_PRIORITY_TICK_TIME = 0,
    BARK_OPEN_TIMEOUT_TICKS = 1,
    BARK_OPEN_O_T_CONNECTION_ID = 2,
    BARK_OPEN_T_O_CONNECTION_ID = 3,
    BARK_OPEN_SERIAL = 4,
    BARK_OPEN_VENDOR = 5,
    BARK_OPEN_ORIGINATOR = 6,
    BARK_OPEN_TIMEOUT_MULTIPLIER = 7,
    BARK_OPEN_O_T_RPI = 8,
    BARK_OPEN_O_T_PARAMETERS = 9, /* a word, from bark_encode_parameters */
    BARK_OPEN_T_O_RPI = 10,
    BARK_OPEN_T_O_PARAMETERS = 11,
    BARK_OPEN_TRANSPORT = 12, /* a byte, from bark_encode_transport */
    BARK_OPEN_WRITTEN = 13,
    BARK_OPEN_PATH_START = 13,
    BARK_OPEN_PATH_LENGTH = 14,
    BARK_OPEN = 15 /* numbers of a Forward Open that was read */
};

/* What bark_write_forward_open takes, by name */
struct bark_open_options {
    bool large_open;
    uint8_t priority_tick_time;
    uint8_t timeout_ticks;
    uint32_t o_t_connection_id;
    uint32_t t_o_connection_id;
    uint16_t connection_serial_number;
    uint16_t vendor_id;
    uint32_t originator_serial_number;
    uint8_t timeout_multiplier;
    uint32_t o_t_rpi;    /* microseconds */
    uint32_t o_t_params; /* a word, from bark_encode_parameters */
    uint32_t t_o_rpi;
    uint32_t t_o_params;
    uint8_t transport; /* a byte, from bark_encode_transport */
};

/* Writes the data of a Forward Open. Refused: LIMIT and the path's own; then each word as bark_decode_parameters and bark_decode_transport do;
 * ROOM. bark_write_open is the same with the fields by name. */
int64_t bark_write_forward_open(bool large_open, uint8_t priority_tick_time, uint8_t timeout_ticks, uint32_t o_t_connection_id,
                                uint32_t t_o_connection_id, uint16_t connection_serial_number, uint16_t vendor_id,
                                uint32_t originator_serial_number, uint8_t timeout_multiplier, uint32_t o_t_rpi, uint32_t o_t_params,
                                uint32_t t_o_rpi, uint32_t t_o_params, uint8_t transport, const uint8_t *path, size_t path_len, uint8_t *out,
                                size_t out_len);

static inline int64_t bark_write_open(const struct bark_open_options *o, const uint8_t *path, size_t path_len, uint8_t *out, size_t out_len)
{
    return bark_write_forward_open(o->large_open, o->priority_tick_time, o->timeout_ticks, o->o_t_connection_id, o->t_o_connection_id,
                                   o->connection_serial_number, o->vendor_id, o->originator_serial_number, o->timeout_multiplier, o->o_t_rpi,
                                   o->o_t_params, o->t_o_rpi, o->t_o_params, o->transport, path, path_len, out, out_len);
}

/* Reads the data of a Forward Open of the form that the caller names: BARK_OPEN numbers. Refused: LIMIT, SHORT, FORM one of the high four bits
 * of the first byte, a reserved byte or bit not zero, CODE as bark_decode_parameters and bark_decode_transport, the path's own, LEFTOVER. */
int64_t bark_read_forward_open(bool large, const uint8_t *s, size_t len, size_t *fields, size_t count);

/* The default Forward Open, with this serial number: BARK_OPEN_WRITTEN numbers, the parameters as words of the form that is named. */
int64_t bark_default_forward_open(bool large, uint16_t connection_serial_number, size_t *fields, size_t count);

enum bark_close {
    BARK_CLOSE_PRIORITY_TICKS = 0,
    BARK_CLOSE_TIMEOUT_TICKS = 1,
    BARK_CLOSE_SERIAL = 2,
    BARK_CLOSE_VENDOR = 3,
    BARK_CLOSE_ORIGINATOR = 4,
    BARK_CLOSE_PATH_START = 5,
    BARK_CLOSE_PATH_LENGTH = 6,
    BARK_CLOSE = 7 /* numbers of a Forward Close */
};

/* Writes the data of a Forward Close. Refused: LIMIT and the path's own, ROOM. */
int64_t bark_write_forward_close(uint8_t priority_ticks, uint8_t timeout_ticks, uint16_t connection_serial_number, uint16_t vendor_id,
                                 uint32_t originator_serial_number, const uint8_t *path, size_t path_len, uint8_t *out, size_t out_len);

/* Reads the data of a Forward Close. Refused: LIMIT, SHORT, FORM one of the high four bits of the first byte or the reserved byte not zero, the
 * path's own, LEFTOVER. */
int64_t bark_read_forward_close(const uint8_t *s, size_t len, size_t *fields, size_t count);

/* ---- replies */

enum bark_reply {
    BARK_REPLY_SERVICE = 0,
    BARK_REPLY_GENERAL = 1, /* general status; 0 is success */
    BARK_REPLY_WORDS = 2,   /* words of extended status: 0 or 1 */
    BARK_REPLY_WORD = 3,    /* that word, 0 if there is none */
    BARK_REPLY_DATA_START = 4,
    BARK_REPLY_DATA_LENGTH = 5,
    BARK_REPLY = 6 /* numbers of a reply's header */
};

/* Reads a reply's header, of a failed status too; what follows it is data. Refused: LIMIT, SHORT, WORDS. */
int64_t bark_read_reply(const uint8_t *s, size_t len, size_t *fields, size_t count);

/* Whether a Connection Manager's request failed on its way, by general status and extended word, if there is one. */
bool bark_is_routing_error(uint8_t general, bool has_word, uint16_t word);

/* Behind a header's six numbers, in the replies to Forward Open and Forward Close */
enum bark_forward_reply {
    BARK_FORWARD_SUCCESS = 6, /* 1, or 0 for a failure */
    BARK_FORWARD_SERIAL = 7,
    BARK_FORWARD_VENDOR = 8,
    BARK_FORWARD_ORIGINATOR = 9,
    /* a failure: */
    BARK_FAILURE_HAS_REMAINING = 10, /* 1 if it tells the size of the path that was left, as a routing error does */
    BARK_FAILURE_REMAINING = 11,     /* in words; 0 if it does not */
    BARK_FAILURE = 12,               /* numbers of a failure */
    /* a Forward Close that was served: */
    BARK_CLOSED_APP_DATA_START = 10,
    BARK_CLOSED_APP_DATA_LENGTH = 11,
    BARK_CLOSED = 12, /* numbers of such a reply */
    /* a Forward Open that was served: */
    BARK_OPENED_O_T_CONNECTION_ID = 10,
    BARK_OPENED_T_O_CONNECTION_ID = 11,
    BARK_OPENED_O_T_API = 12,
    BARK_OPENED_T_O_API = 13,
    BARK_OPENED_APP_DATA_START = 14,
    BARK_OPENED_APP_DATA_LENGTH = 15,
    BARK_OPENED = 16 /* numbers of such a reply */
};

/* Reads a Forward Open reply: BARK_OPENED numbers or BARK_FAILURE. routing says whether a failure is a routing error; a success does not use
 * it. Refused: LIMIT, SHORT, WORDS. */
int64_t bark_read_forward_open_reply(bool routing, const uint8_t *s, size_t len, size_t *fields, size_t count);

/* Reads a Forward Close reply: BARK_CLOSED numbers or BARK_FAILURE; else as bark_read_forward_open_reply. */
int64_t bark_read_forward_close_reply(bool routing, const uint8_t *s, size_t len, size_t *fields, size_t count);

/* Writes the reply to a Forward Open that was served. Refused: LIMIT application data over 510 bytes, FORM an odd number of them, ROOM. */
int64_t bark_write_forward_open_success(uint8_t service, uint32_t o_t_connection_id, uint32_t t_o_connection_id,
                                        uint16_t connection_serial_number, uint16_t vendor_id, uint32_t originator_serial_number,
                                        uint32_t o_t_api, uint32_t t_o_api, const uint8_t *app_data, size_t app_data_len, uint8_t *out,
                                        size_t out_len);

/* Writes the reply to a Forward Close that was served. Refused: as bark_write_forward_open_success. */
int64_t bark_write_forward_close_success(uint8_t service, uint16_t connection_serial_number, uint16_t vendor_id,
                                         uint32_t originator_serial_number, const uint8_t *app_data, size_t app_data_len, uint8_t *out,
                                         size_t out_len);

/* Writes the reply to either that failed. Refused: CODE general status 0, ROOM. */
int64_t bark_write_forward_failure(uint8_t service, uint8_t general, bool has_word, uint16_t word, uint16_t connection_serial_number,
                                   uint16_t vendor_id, uint32_t originator_serial_number, bool has_remaining, uint8_t remaining, uint8_t *out,
                                   size_t out_len);

enum bark_envelope {
    BARK_ENVELOPE_CONNECTED = 0, /* 1: connected data, behind a 16-bit count; 0: unconnected data */
    BARK_ENVELOPE_COUNT = 1,     /* that count; 0 of unconnected data */
    BARK_ENVELOPE_DATA_START = 2,
    BARK_ENVELOPE_DATA_LENGTH = 3,
    BARK_ENVELOPE_NUMBERS = 4
};

/* Reads the two-item envelope. Refused: SHORT, ENVELOPE, LEFTOVER. */
int64_t bark_read_envelope(const uint8_t *s, size_t len, size_t *fields, size_t count);

/* ---- bodies: the data of Multiple Service Packets */

/* Writes the body of messages that lie end to end in items; lengths has the length of each. Bytes behind the last are not used.
 * Refused: first to last, OUTSIDE a length past the lent end, OFFSET a length 0; LIMIT, ROOM. */
int64_t bark_write_body(const uint8_t *items, size_t items_len, const size_t *lengths, size_t count, uint8_t *out, size_t out_len);

/* How many items a body has; every offset is judged. Refused: LIMIT, SHORT, OFFSET, LEFTOVER. */
int64_t bark_read_body(const uint8_t *s, size_t len);

enum bark_item { BARK_ITEM_START = 0, BARK_ITEM_LENGTH = 1, BARK_ITEM = 2 /* numbers of an item */ };

/* An item by its index. Refused: as bark_read_body, then OUTSIDE no such index. */
int64_t bark_body_item(const uint8_t *s, size_t len, size_t index, size_t *fields, size_t count);

/* The same for a walk: items is what bark_read_body answered, and the table is not judged again. With another number it is still refused, or a
 * part of the body behind its table. */
int64_t bark_walk_item(const uint8_t *s, size_t len, size_t items, size_t index, size_t *fields, size_t count);

/* The reply in an item, BARK_REPLY numbers, read from that item's bytes alone; the data's start is counted in the whole body. Refused: as
 * bark_body_item, then as bark_read_reply. A refused item touches no other. */
int64_t bark_reply_item(const uint8_t *s, size_t len, size_t index, size_t *fields, size_t count);

/* The same for a walk, as bark_walk_item. */
int64_t bark_walk_reply(const uint8_t *s, size_t len, size_t items, size_t index, size_t *fields, size_t count);

enum bark_reply_row {
    BARK_REPLY_ROW_REFUSED = 0, /* the number of the refusal of that item's reply, 0 if it is good */
    BARK_REPLY_ROW_REPLY = 1,   /* BARK_REPLY numbers; all 0 where it is refused */
    BARK_REPLY_ROW = 7          /* numbers of a row */
};

/* The replies in all items in one call, a row of seven numbers each: how many items. A refused item is told in its row and touches no other.
 * Refused: as bark_read_body, then ROOM where count, of numbers, is less than 7 for each item. */
int64_t bark_read_replies(const uint8_t *s, size_t len, size_t *rows, size_t count);

/* Writes the body of the first's items and then the second's. Refused: the first's own, the second's own, LIMIT, ROOM. */
int64_t bark_join_bodies(const uint8_t *first, size_t first_len, const uint8_t *second, size_t second_len, uint8_t *out, size_t out_len);

/* ---- nested messages */

enum bark_row {
    BARK_ROW_DEPTH = 0,
    BARK_ROW_SERVICE = 1,
    BARK_ROW_PATH_BYTES = 2,
    BARK_ROW_DATA_BYTES = 3,
    BARK_ROW = 4,         /* numbers of a row */
    BARK_MAX_ROWS = 16384 /* no message has more rows */
};

/* Reads a message and all that it holds, a row of four numbers each, every message followed at once by those that it holds: how many rows.
 * Refused: what the readers of messages, bodies and Unconnected Sends refuse, DEPTH, then ROOM. */
int64_t bark_read_nested(const uint8_t *s, size_t len, uint16_t *rows, size_t count);

/* ---- frames: a stream, as TCP gives it, taken apart
 *
 * A frame is a header of 24 bytes and its data, whose length stands at the header's offset 2 in two bytes, low byte first. The stream comes in
 * scraps, cut anywhere; each frame is handed out by the very call that brings its last byte.
 *
 * The state between two calls lies with the caller: a run of BARK_FRAME_STATE numbers. bark_reset_frames begins it, and from then on
 * bark_take_scrap alone changes it. What came of a frame is kept at the front of the buffer, so the buffer is the same at each call, and its
 * bytes are untouched between them.
 */

enum {
    BARK_FRAME_HEADER = 24, /* bytes of a header; no buffer may have fewer */
    BARK_MAX_FRAME = 65559  /* bytes of a frame; a buffer of so many holds every one */
};

enum bark_frame_state {
    BARK_FRAME_HELD = 0,    /* bytes kept */
    BARK_FRAME_LENGTH = 1,  /* length of their frame once the header is kept; 0 before */
    BARK_FRAME_REFUSED = 2, /* 1 if a frame was too long for the buffer, else 0 */
    BARK_FRAME_STATE = 3    /* numbers of a state */
};

/* The state before a stream's first byte, and after a refusal the way back: what was kept is forgotten. */
static inline void bark_reset_frames(size_t *state)
{
    state[BARK_FRAME_HELD] = 0;
    state[BARK_FRAME_LENGTH] = 0;
    state[BARK_FRAME_REFUSED] = 0;
}

/* Takes the scrap up to a frame's end, or all of it where none comes: how many of its bytes were taken. *frame becomes the length of the frame
 * that now lies at the front of buffer, 0 where there is none. A frame leaves the state as a reset does, and the next call writes over it: use
 * it first, then give what is left of the scrap again. Only bytes that are taken are stored, and nothing else in the buffer changes. An empty
 * scrap is taken and changes neither state nor buffer.
 * Refused, with *frame as it was: OUTSIDE a state that no calls from a reset leave; ROOM a buffer of fewer than 24 bytes, or than the state says
 * are kept or the frame has; ROOM a state that says refused; ROOM a frame too long for the buffer, as soon as its header is whole. The last
 * takes nothing and changes no byte of the buffer, but the state then says refused, so that every call is until a reset. */
int64_t bark_take_scrap(size_t *state, uint8_t *buffer, size_t buffer_len, const uint8_t *scrap, size_t scrap_len, size_t *frame);

#ifdef __cplusplus
}
#endif

#endif
