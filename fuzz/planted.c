/* Faults to plant between the driver and the archive, one at a time: -DFAULT=1 and so on, and -Wl,--wrap=... of what it stands before. Compiled
 * without checks, as the archive is. planted.sh tries them all. */
#include "barkcushion.h"

#define REAL(name) __real_bark_##name
/* Declares a function of the archive, which takes these, and begins what stands before it. */
#define WRAP(name, ...)                                                                                                                       \
    int64_t REAL(name)(__VA_ARGS__);                                                                                                          \
    int64_t __wrap_bark_##name(__VA_ARGS__)
#define READER_TAKES const uint8_t *s, size_t len, size_t *fields, size_t count
#define READER_GIVEN s, len, fields, count

#if FAULT <= 9
WRAP(write_message, uint8_t service, const uint8_t *path, size_t path_len, const uint8_t *data, size_t data_len, uint8_t *out, size_t out_len)
{
    static unsigned calls;
    int64_t a = REAL(write_message)(service, path, path_len, data, data_len, out, out_len);
    (void)calls;
#if FAULT == 1 /* one byte behind the size, inside the room */
    if (a >= 0 && (size_t)a < out_len)
        out[a] ^= 1;
#elif FAULT == 2 /* one byte behind the room */
    if (a >= 0)
        out[out_len] = 0;
#elif FAULT == 3 /* one byte before the output */
    if (a >= 0)
        out[-1] ^= 1;
#elif FAULT == 4 /* a refused call writes */
    if (a == -BARK_ROOM && out_len > 1)
        out[1] = path_len / 2;
#elif FAULT == 5 /* an input is changed */
    if (a >= 0 && data_len > 0)
        ((uint8_t *)data)[data_len - 1] ^= 1;
#elif FAULT == 6 /* a byte too little room is taken */
    if (a == -BARK_ROOM && out_len == 1 + path_len + data_len)
        return out_len;
#elif FAULT == 7 /* 65,536 bytes are taken */
    if (a == -BARK_LIMIT && 2 + path_len + data_len == 65536 && path_len <= BARK_MAX_PATH)
        return 65536;
#elif FAULT == 8 /* an answer that hangs on the calls before */
    if (++calls % 1024 == 0)
        return -BARK_SHORT;
#elif FAULT == 9 /* a refusal that is none */
    if (a == -BARK_FORM)
        return -12;
#endif
    return a;
}
#elif FAULT <= 14
WRAP(read_message, READER_TAKES)
{
    int64_t a = REAL(read_message)(READER_GIVEN);
#if FAULT == 10 /* one byte behind the input is read */
    static volatile uint8_t seen;
    seen = s[len];
#elif FAULT == 11 /* one byte before it */
    static volatile uint8_t seen;
    seen = s[-1];
#elif FAULT == 12 /* a number too many is filled */
    if (a >= 0 && (size_t)a < count)
        fields[a] = 0;
#elif FAULT == 13 /* another refusal: a path's size over the limit, its bytes missing */
    if (a == -BARK_LIMIT && len < 256)
        return -BARK_SHORT;
#elif FAULT == 14 /* data of one path length is misplaced */
    if (a >= 0 && fields[BARK_MESSAGE_PATH_LENGTH] == 254)
        fields[BARK_MESSAGE_DATA_START]--;
#endif
    return a;
}
#elif FAULT == 15
/* two fields are swapped by writer and reader alike, so that what is written reads back */
WRAP(write_forward_close, uint8_t ticks, uint8_t timeout, uint16_t serial, uint16_t vendor, uint32_t originator, const uint8_t *path,
     size_t path_len, uint8_t *out, size_t out_len)
{
    return REAL(write_forward_close)(ticks, timeout, vendor, serial, originator, path, path_len, out, out_len);
}
WRAP(read_forward_close, READER_TAKES)
{
    int64_t a = REAL(read_forward_close)(READER_GIVEN);
    if (a >= 0) {
        size_t vendor = fields[BARK_CLOSE_SERIAL];
        fields[BARK_CLOSE_SERIAL] = fields[BARK_CLOSE_VENDOR];
        fields[BARK_CLOSE_VENDOR] = vendor;
    }
    return a;
}
#elif FAULT == 16
/* error 4 of document 01: a size of 512 becomes 0 */
WRAP(encode_parameters, bool large, bool owner, uint8_t type, bool variable, uint8_t priority, uint16_t size)
{
    return REAL(encode_parameters)(large, owner, type, variable, priority, large ? size : size % 512);
}
#elif FAULT == 17
/* error 2: the words are doubled in a byte */
WRAP(read_reply, READER_TAKES)
{
    int64_t a = REAL(read_reply)(READER_GIVEN);
    return a == -BARK_SHORT && len >= 4 && len >= 4u + (uint8_t)(2 * s[3]) ? -BARK_WORDS : a;
}
#elif FAULT <= 19
WRAP(walk_item, const uint8_t *s, size_t len, size_t items, size_t index, size_t *fields, size_t count)
{
#if FAULT == 18 /* a sum that wraps: 2 + 2 * items */
    if (items > (size_t)1 << 62)
        return -BARK_OUTSIDE;
    return REAL(walk_item)(s, len, items, index, fields, count);
#else /* the table is judged again, and the number of items not used */
    (void)items;
    return bark_body_item(s, len, index, fields, count);
#endif
}
#elif FAULT <= 21
WRAP(join_bodies, const uint8_t *first, size_t first_len, const uint8_t *second, size_t second_len, uint8_t *out, size_t out_len)
{
    int64_t a = REAL(join_bodies)(first, first_len, second, second_len, out, out_len);
#if FAULT == 20 /* the high byte of the second's offsets is lost where the first is long */
    if (a >= 0 && first_len > 60000 && second[0] == 1)
        out[3 + 2 * (first[0] + 256 * first[1])] = 0;
#else /* the second is judged first */
    if (a < 0 && a != -BARK_ROOM && a != -BARK_LIMIT && bark_read_body(second, second_len) < 0)
        return bark_read_body(second, second_len);
#endif
    return a;
}
#elif FAULT == 22
/* a message at depth 4 is taken for one that holds nothing */
WRAP(read_nested, const uint8_t *s, size_t len, uint16_t *rows, size_t count)
{
    int64_t a = REAL(read_nested)(s, len, rows, count);
    return a == -BARK_DEPTH ? -BARK_SHORT : a;
}
#elif FAULT == 23
/* spare bytes behind the items are written too, where there is room */
WRAP(write_body, const uint8_t *items, size_t items_len, const size_t *lengths, size_t count, uint8_t *out, size_t out_len)
{
    int64_t a = REAL(write_body)(items, items_len, lengths, count, out, out_len);
    size_t k, used = 0;
    if (a >= 0) {
        for (k = 0; k < count; k++)
            used += lengths[k];
        if (used < items_len && (size_t)a < out_len)
            out[a] = items[used];
    }
    return a;
}
#elif FAULT == 24
/* error 3: one byte of application data may be missing */
WRAP(read_forward_open_reply, bool routing, READER_TAKES)
{
    int64_t a = REAL(read_forward_open_reply)(routing, READER_GIVEN);
    if (a == -BARK_SHORT && len >= 30 && s[2] == 0 && s[3] == 0 && len == 29 + 2u * s[28])
        return BARK_OPENED;
    return a;
}
#elif FAULT == 25
/* the row of a refused item keeps what stood in it */
WRAP(read_replies, READER_TAKES)
{
    size_t before = count >= BARK_REPLY_ROW ? fields[BARK_REPLY_ROW_REPLY] : 0;
    int64_t a = REAL(read_replies)(READER_GIVEN);
    if (a > 0 && fields[BARK_REPLY_ROW_REFUSED] != 0)
        fields[BARK_REPLY_ROW_REPLY] = before;
    return a;
}
#else
WRAP(take_scrap, size_t *state, uint8_t *buffer, size_t buffer_len, const uint8_t *scrap, size_t scrap_len, size_t *frame)
{
    size_t held = state[BARK_FRAME_HELD], was_refused = state[BARK_FRAME_REFUSED];
    int64_t a;
#if FAULT == 27 /* a frame is handed out a call late */
    if (held >= BARK_FRAME_HEADER && held == state[BARK_FRAME_LENGTH]) {
        *frame = held;
        bark_reset_frames(state);
        return 0;
    }
#elif FAULT == 30 /* once it is known, the length is read from the buffer again */
    if (held >= BARK_FRAME_HEADER && held < state[BARK_FRAME_LENGTH] && held < buffer_len && state[BARK_FRAME_LENGTH] <= BARK_MAX_FRAME)
        state[BARK_FRAME_LENGTH] = BARK_FRAME_HEADER + buffer[2] + 256u * buffer[3];
#elif FAULT == 31 /* any number but 0 says refused */
    if (was_refused > 1)
        return -BARK_ROOM;
#endif
    a = REAL(take_scrap)(state, buffer, buffer_len, scrap, scrap_len, frame);
    (void)was_refused;
#if FAULT == 26 /* the rest of a scrap behind a frame is dropped */
    if (a >= 0 && *frame != 0)
        return scrap_len;
#elif FAULT == 27
    if (a >= 0 && *frame != 0) {
        state[BARK_FRAME_HELD] = state[BARK_FRAME_LENGTH] = *frame;
        *frame = 0;
    }
#elif FAULT == 28 /* a scrap's bytes are stored though its frame is refused */
    if (a < 0 && state[BARK_FRAME_REFUSED] != was_refused)
        buffer[held] = scrap[0];
#elif FAULT == 29 /* a frame is refused, and the state does not say so */
    if (a < 0)
        state[BARK_FRAME_REFUSED] = was_refused;
#elif FAULT == 32 /* a refused call says that there is no frame */
    if (a < 0)
        *frame = 0;
#elif FAULT == 33 /* one byte behind what is stored */
    if (a >= 0 && held + a < buffer_len)
        buffer[held + a] = 0;
#endif
    return a;
}
#endif
