/* Document 01 and the requests of document 02 that have landed, once more, in C: what each function of the headers has to answer, and what it has
 * to write or fill. It follows the documents' text, the headers and docs/DECISIONS.md; the default Forward Open and the words of a routing error,
 * which document 01 leaves to the crate, are taken from there. Room is not judged here, but for frames: it comes last everywhere else, and the
 * driver judges it.
 */
#ifndef LAW_H
#define LAW_H

#include "barkcushion.h"

#include <string.h>

/* ---- numbers on the wire, low byte first */

static uint32_t low(const uint8_t *s, size_t width)
{
    uint32_t number = 0;
    while (width-- > 0)
        number = number << 8 | s[width];
    return number;
}

static uint8_t *put(uint8_t *to, uint64_t number, size_t width)
{
    for (; width > 0; width--, number >>= 8)
        *to++ = (uint8_t)number;
    return to;
}

static uint8_t *put_all(uint8_t *to, const uint8_t *s, size_t n)
{
    if (n > 0)
        memcpy(to, s, n);
    return to + n;
}

/* ---- paths */

static const uint8_t segment_codes[] = {0x91, 0x20, 0x24, 0x30, 0x28}; /* by kind; the code of the narrow form */

/* Writes the path of a run of segments. */
static int64_t law_write_path(const uint32_t *rows, size_t count, const uint8_t *pool, size_t pool_len, uint8_t *out)
{
    uint8_t *to = out;
    size_t k, segments = count / BARK_SEGMENT;
    if (segments > BARK_MAX_SEGMENTS)
        return -BARK_LIMIT;
    for (k = 0; k < segments; k++, rows += BARK_SEGMENT) {
        uint32_t kind = rows[BARK_SEGMENT_KIND], number = rows[BARK_SEGMENT_NUMBER];
        uint32_t start = rows[BARK_SEGMENT_START], length = rows[BARK_SEGMENT_LENGTH];
        uint8_t *first = to;
        if (kind > BARK_PORT)
            return -BARK_CODE;
        if (kind != BARK_SYMBOL && kind != BARK_ELEMENT && number > 65535)
            return -BARK_LIMIT;
        if (kind != BARK_SYMBOL && kind != BARK_PORT) {
            size_t width = number <= 255 ? 0 : number <= 65535 ? 1 : 2;
            to = put(to, segment_codes[kind] + width, 1);
            to = width == 0 ? put(to, number, 1) : put(put(to, 0, 1), number, 2 * width);
            continue;
        }
        if (start > pool_len || length > pool_len - start)
            return -BARK_OUTSIDE;
        if (length > (kind == BARK_SYMBOL ? BARK_MAX_SYMBOL : BARK_MAX_LINK))
            return -BARK_LIMIT;
        if (kind == BARK_SYMBOL) {
            to = put(put(to, segment_codes[kind], 1), length, 1);
        } else {
            to = put(to, (number <= 14 ? number : 15) | (length >= 2 ? 0x10 : 0), 1);
            if (length >= 2)
                to = put(to, length, 1);
            if (number > 14)
                to = put(put(to, number >> 8, 1), number, 1); /* high byte first */
        }
        to = put_all(to, pool + start, length);
        if ((to - first) % 2 != 0)
            to = put(to, 0, 1);
    }
    return to - out;
}

/* The segment at the front of s, of which there is a byte: how many bytes it has. Starts are counted from s. */
static int64_t law_segment(const uint8_t *s, size_t n, uint32_t *row)
{
    size_t at, length, wide = s[0] & 3;
    uint32_t number;
    memset(row, 0, BARK_SEGMENT * sizeof *row);
    switch (s[0]) {
    case 0x20: case 0x21:
        row[BARK_SEGMENT_KIND] = BARK_CLASS;
        break;
    case 0x24: case 0x25:
        row[BARK_SEGMENT_KIND] = BARK_INSTANCE;
        break;
    case 0x30: case 0x31:
        row[BARK_SEGMENT_KIND] = BARK_ATTRIBUTE;
        break;
    case 0x28: case 0x29: case 0x2A:
        row[BARK_SEGMENT_KIND] = BARK_ELEMENT;
        break;
    case 0x91:
        if (n < 2)
            return -BARK_SHORT;
        length = s[1];
        if (n < 2 + length)
            return -BARK_SHORT;
        at = 2 + length;
        goto bytes;
    default:
        if (s[0] > 0x1F)
            return -BARK_CODE;
        row[BARK_SEGMENT_KIND] = BARK_PORT;
        number = s[0] & 15;
        at = 1;
        length = 1;
        if (s[0] & 0x10) {
            if (n < 2)
                return -BARK_SHORT;
            length = s[1];
            if (length < 2)
                return -BARK_FORM;
            if (length > BARK_MAX_LINK)
                return -BARK_LIMIT;
            at = 2;
        }
        if (number == 15) {
            if (n < at + 2)
                return -BARK_SHORT;
            number = s[at] << 8 | s[at + 1];
            if (number <= 14)
                return -BARK_FORM;
            at += 2;
        }
        if (n < at + length)
            return -BARK_SHORT;
        row[BARK_SEGMENT_NUMBER] = number;
        at += length;
    bytes:
        row[BARK_SEGMENT_START] = at - length;
        row[BARK_SEGMENT_LENGTH] = length;
        if (at % 2 == 0)
            return at;
        if (n < at + 1)
            return -BARK_SHORT;
        return s[at] == 0 ? (int64_t)at + 1 : -BARK_FORM;
    }
    if (n < 2)
        return -BARK_SHORT;
    row[BARK_SEGMENT_NUMBER] = s[1];
    if (wide == 0)
        return 2;
    if (s[1] != 0)
        return -BARK_FORM;
    if (n < 2 + 2 * wide)
        return -BARK_SHORT;
    row[BARK_SEGMENT_NUMBER] = number = low(s + 2, 2 * wide);
    return number <= (wide == 1 ? 255 : 65535) ? -BARK_FORM : 2 + 2 * (int64_t)wide;
}

/* Reads a path: how many segments. rows has room for BARK_MAX_SEGMENTS. */
static int64_t law_read_path(const uint8_t *s, size_t n, uint32_t *rows)
{
    size_t at = 0, count = 0;
    while (at < n) {
        int64_t size;
        if (count == BARK_MAX_SEGMENTS)
            return -BARK_LIMIT;
        size = law_segment(s + at, n - at, rows);
        if (size < 0)
            return size;
        if (rows[BARK_SEGMENT_LENGTH] != 0 || rows[BARK_SEGMENT_START] != 0)
            rows[BARK_SEGMENT_START] += at;
        at += size;
        rows += BARK_SEGMENT;
        count++;
    }
    return count;
}

static int64_t law_check_path(const uint8_t *s, size_t n)
{
    static uint32_t rows[BARK_MAX_SEGMENTS * BARK_SEGMENT];
    return law_read_path(s, n, rows);
}

/* A path that a writer is given as bytes. */
static int64_t law_given_path(const uint8_t *s, size_t n)
{
    return n > BARK_MAX_PATH ? -BARK_LIMIT : law_check_path(s, n);
}

/* The path behind the size byte at a place, with a reserved byte before it where padded: how many bytes. */
static int64_t law_path_at(const uint8_t *s, size_t n, size_t at, size_t padded)
{
    size_t length;
    int64_t path;
    if (n < at + 1)
        return -BARK_SHORT;
    length = 2 * s[at];
    if (length > BARK_MAX_PATH)
        return -BARK_LIMIT;
    if (n < at + 1 + padded)
        return -BARK_SHORT;
    if (padded && s[at + 1] != 0)
        return -BARK_FORM;
    at += 1 + padded;
    if (n < at + length)
        return -BARK_SHORT;
    path = law_check_path(s + at, length);
    return path < 0 ? path : (int64_t)length;
}

/* ---- messages and Unconnected Send */

static int64_t law_write_message(uint8_t service, const uint8_t *path, size_t path_len, const uint8_t *data, size_t data_len, uint8_t *out)
{
    int64_t given = law_given_path(path, path_len);
    if (given < 0)
        return given;
    if (2 + path_len + data_len > BARK_MAX_RECORD)
        return -BARK_LIMIT;
    return put_all(put_all(put(put(out, service, 1), path_len / 2, 1), path, path_len), data, data_len) - out;
}

static int64_t law_read_message(const uint8_t *s, size_t n, size_t *f)
{
    int64_t path;
    if (n > BARK_MAX_RECORD)
        return -BARK_LIMIT;
    if (n < 1)
        return -BARK_SHORT;
    path = law_path_at(s, n, 1, 0);
    if (path < 0)
        return path;
    f[BARK_MESSAGE_SERVICE] = s[0];
    f[BARK_MESSAGE_PATH_START] = 2;
    f[BARK_MESSAGE_PATH_LENGTH] = path;
    f[BARK_MESSAGE_DATA_START] = 2 + path;
    f[BARK_MESSAGE_DATA_LENGTH] = n - 2 - path;
    return BARK_MESSAGE;
}

static int64_t law_write_unconnected_send(uint8_t priority_ticks, uint8_t timeout_ticks, const uint8_t *message, size_t message_len,
                                          const uint8_t *path, size_t path_len, uint8_t *out)
{
    uint8_t *to;
    int64_t given = law_given_path(path, path_len);
    if (given < 0)
        return given;
    if (6 + message_len + message_len % 2 + path_len > BARK_MAX_RECORD)
        return -BARK_LIMIT;
    to = put(put(put(out, priority_ticks, 1), timeout_ticks, 1), message_len, 2);
    to = put(put_all(to, message, message_len), 0, message_len % 2);
    return put_all(put(put(to, path_len / 2, 1), 0, 1), path, path_len) - out;
}

static int64_t law_read_unconnected_send(const uint8_t *s, size_t n, size_t *f)
{
    size_t length, at;
    int64_t path;
    if (n > BARK_MAX_RECORD)
        return -BARK_LIMIT;
    if (n < 1)
        return -BARK_SHORT;
    if (s[0] > 15)
        return -BARK_FORM;
    if (n < 4)
        return -BARK_SHORT;
    length = low(s + 2, 2);
    at = 4 + length + length % 2;
    if (n < at)
        return -BARK_SHORT;
    if (length % 2 != 0 && s[at - 1] != 0)
        return -BARK_FORM;
    path = law_path_at(s, n, at, 1);
    if (path < 0)
        return path;
    if (n > at + 2 + path)
        return -BARK_LEFTOVER;
    f[BARK_SEND_PRIORITY_TICKS] = s[0];
    f[BARK_SEND_TIMEOUT_TICKS] = s[1];
    f[BARK_SEND_MESSAGE_START] = 4;
    f[BARK_SEND_MESSAGE_LENGTH] = length;
    f[BARK_SEND_PATH_START] = at + 2;
    f[BARK_SEND_PATH_LENGTH] = path;
    return BARK_SEND;
}

/* ---- Forward Open and Forward Close */

static int64_t law_encode_parameters(bool large, bool owner, uint8_t type, bool variable, uint8_t priority, uint16_t size)
{
    uint32_t flags = (uint32_t)owner << 6 | (uint32_t)type << 4 | (uint32_t)priority << 1 | (uint32_t)variable;
    if (type > BARK_P2P || priority > BARK_URGENT)
        return -BARK_CODE;
    if (!large && size > 511)
        return -BARK_LIMIT;
    return flags << (large ? 25 : 9) | size;
}

static int64_t law_decode_parameters(bool large, uint32_t word, size_t *f)
{
    uint32_t flags = word >> (large ? 25 : 9);
    if (word & (large ? 0x11FF0000 : 0xFFFF1000))
        return -BARK_FORM;
    if ((flags >> 4 & 3) == 3)
        return -BARK_CODE;
    f[BARK_PARAMETERS_OWNER] = flags >> 6;
    f[BARK_PARAMETERS_TYPE] = flags >> 4 & 3;
    f[BARK_PARAMETERS_VARIABLE] = flags & 1;
    f[BARK_PARAMETERS_PRIORITY] = flags >> 1 & 3;
    f[BARK_PARAMETERS_SIZE] = word & (large ? 0xFFFF : 0x1FF);
    return BARK_PARAMETERS;
}

static int64_t law_encode_transport(bool server, uint8_t trigger, uint8_t class)
{
    return trigger > BARK_APPLICATION || class > 6 ? -BARK_CODE : server << 7 | trigger << 4 | class;
}

static int64_t law_decode_transport(uint8_t byte, size_t *f)
{
    if ((byte >> 4 & 7) > BARK_APPLICATION || (byte & 15) > 6)
        return -BARK_CODE;
    f[BARK_TRANSPORT_SERVER] = byte >> 7;
    f[BARK_TRANSPORT_TRIGGER] = byte >> 4 & 7;
    f[BARK_TRANSPORT_CLASS] = byte & 15;
    return BARK_TRANSPORT;
}

/* Bytes of each field of a Forward Open; three reserved bytes stand behind the multiplier, the path's size behind the last. */
static size_t open_width(bool large, size_t field)
{
    static const uint8_t widths[BARK_OPEN_WRITTEN] = {1, 1, 4, 4, 2, 2, 4, 1, 4, 2, 4, 2, 1};
    return widths[field] * (large && (field == BARK_OPEN_O_T_PARAMETERS || field == BARK_OPEN_T_O_PARAMETERS) ? 2 : 1);
}

/* The fields are numbers, as in enum bark_open. */
static int64_t law_write_forward_open(bool large, const size_t *fields, const uint8_t *path, size_t path_len, uint8_t *out)
{
    size_t k, unused[BARK_PARAMETERS];
    uint8_t *to = out;
    int64_t given = law_given_path(path, path_len);
    if (given >= 0)
        given = law_decode_parameters(large, fields[BARK_OPEN_O_T_PARAMETERS], unused);
    if (given >= 0)
        given = law_decode_parameters(large, fields[BARK_OPEN_T_O_PARAMETERS], unused);
    if (given >= 0)
        given = law_decode_transport(fields[BARK_OPEN_TRANSPORT], unused);
    if (given < 0)
        return given;
    for (k = 0; k < BARK_OPEN_WRITTEN; k++) {
        to = put(to, fields[k], open_width(large, k));
        to = put(to, 0, k == BARK_OPEN_TIMEOUT_MULTIPLIER ? 3 : 0);
    }
    return put_all(put(to, path_len / 2, 1), path, path_len) - out;
}

static int64_t law_read_forward_open(bool large, const uint8_t *s, size_t n, size_t *f)
{
    size_t k, at = 0, unused[BARK_PARAMETERS];
    int64_t path;
    if (n > BARK_MAX_RECORD)
        return -BARK_LIMIT;
    for (k = 0; k < BARK_OPEN_WRITTEN; k++) {
        int64_t judged = 0;
        size_t width = open_width(large, k);
        if (n < at + width)
            return -BARK_SHORT;
        f[k] = low(s + at, width);
        at += width;
        if (k == BARK_OPEN_PRIORITY_TICK_TIME && f[k] > 15)
            return -BARK_FORM;
        if (k == BARK_OPEN_O_T_PARAMETERS || k == BARK_OPEN_T_O_PARAMETERS)
            judged = law_decode_parameters(large, f[k], unused);
        if (k == BARK_OPEN_TRANSPORT)
            judged = law_decode_transport(f[k], unused);
        if (judged < 0)
            return judged;
        if (k == BARK_OPEN_TIMEOUT_MULTIPLIER) {
            if (n < at + 3)
                return -BARK_SHORT;
            if (low(s + at, 3) != 0)
                return -BARK_FORM;
            at += 3;
        }
    }
    path = law_path_at(s, n, at, 0);
    if (path < 0)
        return path;
    if (n > at + 1 + path)
        return -BARK_LEFTOVER;
    f[BARK_OPEN_PATH_START] = at + 1;
    f[BARK_OPEN_PATH_LENGTH] = path;
    return BARK_OPEN;
}

static int64_t law_default_forward_open(bool large, uint16_t serial, size_t *f)
{
    size_t word = large ? 0x440001F8 : 0x45F8;
    const size_t fields[BARK_OPEN_WRITTEN] = {3, 0xFA, 0, 0, serial, 0xFF, 0xFFFFFFFF, 3, 0x4240, word, 0x4240, word, 0xA3};
    memcpy(f, fields, sizeof fields);
    return BARK_OPEN_WRITTEN;
}

static int64_t law_write_forward_close(uint8_t priority_ticks, uint8_t timeout_ticks, uint16_t serial, uint16_t vendor, uint32_t originator,
                                       const uint8_t *path, size_t path_len, uint8_t *out)
{
    int64_t given = law_given_path(path, path_len);
    uint8_t *to = out;
    if (given < 0)
        return given;
    to = put(put(put(put(put(to, priority_ticks, 1), timeout_ticks, 1), serial, 2), vendor, 2), originator, 4);
    return put_all(put(put(to, path_len / 2, 1), 0, 1), path, path_len) - out;
}

static int64_t law_read_forward_close(const uint8_t *s, size_t n, size_t *f)
{
    int64_t path;
    if (n > BARK_MAX_RECORD)
        return -BARK_LIMIT;
    if (n < 1)
        return -BARK_SHORT;
    if (s[0] > 15)
        return -BARK_FORM;
    if (n < 10)
        return -BARK_SHORT;
    path = law_path_at(s, n, 10, 1);
    if (path < 0)
        return path;
    if (n > 12 + (size_t)path)
        return -BARK_LEFTOVER;
    f[BARK_CLOSE_PRIORITY_TICKS] = s[0];
    f[BARK_CLOSE_TIMEOUT_TICKS] = s[1];
    f[BARK_CLOSE_SERIAL] = low(s + 2, 2);
    f[BARK_CLOSE_VENDOR] = low(s + 4, 2);
    f[BARK_CLOSE_ORIGINATOR] = low(s + 6, 4);
    f[BARK_CLOSE_PATH_START] = 12;
    f[BARK_CLOSE_PATH_LENGTH] = path;
    return BARK_CLOSE;
}

/* ---- replies */

static int64_t law_read_reply(const uint8_t *s, size_t n, size_t *f)
{
    size_t words;
    if (n > BARK_MAX_RECORD)
        return -BARK_LIMIT;
    if (n < 4)
        return -BARK_SHORT;
    words = s[3];
    if (n < 4 + 2 * words)
        return -BARK_SHORT;
    if (words > 1)
        return -BARK_WORDS;
    f[BARK_REPLY_SERVICE] = s[0];
    f[BARK_REPLY_GENERAL] = s[2];
    f[BARK_REPLY_WORDS] = words;
    f[BARK_REPLY_WORD] = low(s + 4, 2 * words);
    f[BARK_REPLY_DATA_START] = 4 + 2 * words;
    f[BARK_REPLY_DATA_LENGTH] = n - 4 - 2 * words;
    return BARK_REPLY;
}

static bool law_is_routing_error(uint8_t general, bool has_word, uint16_t word)
{
    if (general == 1)
        return has_word && (word == 0x0204 || word == 0x0311 || word == 0x0312 || word == 0x0315);
    return general == 2 || general == 4;
}

/* A Forward Open reply where open, else a Forward Close reply. */
static int64_t law_read_forward_reply(bool open, bool routing, const uint8_t *s, size_t n, size_t *f)
{
    size_t at, left, record = open ? 26 : 10;
    int64_t header = law_read_reply(s, n, f);
    if (header < 0)
        return header;
    at = f[BARK_REPLY_DATA_START];
    left = f[BARK_REPLY_DATA_LENGTH];
    s += at;
    if (f[BARK_REPLY_GENERAL] != 0) {
        if (left < (routing ? 9 : 8))
            return -BARK_SHORT;
        f[BARK_FORWARD_SUCCESS] = 0;
        f[BARK_FAILURE_HAS_REMAINING] = routing;
        f[BARK_FAILURE_REMAINING] = routing ? s[8] : 0;
    } else {
        if (left < record || left < record + 2 * s[record - 2])
            return -BARK_SHORT;
        f[BARK_FORWARD_SUCCESS] = 1;
        if (open) {
            f[BARK_OPENED_O_T_CONNECTION_ID] = low(s, 4);
            f[BARK_OPENED_T_O_CONNECTION_ID] = low(s + 4, 4);
            f[BARK_OPENED_O_T_API] = low(s + 16, 4);
            f[BARK_OPENED_T_O_API] = low(s + 20, 4);
        }
        f[open ? BARK_OPENED_APP_DATA_START : BARK_CLOSED_APP_DATA_START] = at + record;
        f[open ? BARK_OPENED_APP_DATA_LENGTH : BARK_CLOSED_APP_DATA_LENGTH] = 2 * s[record - 2];
        s += open ? 8 : 0;
    }
    f[BARK_FORWARD_SERIAL] = low(s, 2);
    f[BARK_FORWARD_VENDOR] = low(s + 2, 2);
    f[BARK_FORWARD_ORIGINATOR] = low(s + 4, 4);
    return f[BARK_FORWARD_SUCCESS] == 0 ? BARK_FAILURE : open ? BARK_OPENED : BARK_CLOSED;
}

/* ids and apis are NULL for a Forward Close. */
static int64_t law_write_forward_success(uint8_t service, const uint32_t *ids, uint16_t serial, uint16_t vendor, uint32_t originator,
                                         const uint32_t *apis, const uint8_t *app_data, size_t app_data_len, uint8_t *out)
{
    uint8_t *to = put(out, service, 4);
    if (app_data_len > BARK_MAX_APP_DATA)
        return -BARK_LIMIT;
    if (app_data_len % 2 != 0)
        return -BARK_FORM;
    if (ids)
        to = put(put(to, ids[0], 4), ids[1], 4);
    to = put(put(put(to, serial, 2), vendor, 2), originator, 4);
    if (apis)
        to = put(put(to, apis[0], 4), apis[1], 4);
    return put_all(put(to, app_data_len / 2, 2), app_data, app_data_len) - out;
}

static int64_t law_write_forward_failure(uint8_t service, uint8_t general, bool has_word, uint16_t word, uint16_t serial, uint16_t vendor,
                                         uint32_t originator, bool has_remaining, uint8_t remaining, uint8_t *out)
{
    uint8_t *to = put(put(put(out, service, 2), general, 1), has_word, 1);
    if (general == 0)
        return -BARK_CODE;
    to = put(to, word, has_word ? 2 : 0);
    to = put(put(put(to, serial, 2), vendor, 2), originator, 4);
    return put(to, remaining, has_remaining) - out;
}

static int64_t law_read_envelope(const uint8_t *s, size_t n, size_t *f)
{
    size_t at = 2, k, length = 0;
    bool connected = n >= 4 && low(s + 2, 2) == 0xA1;
    const uint32_t types[2] = {connected ? 0xA1 : 0, connected ? 0xB1 : 0xB2};
    if (n < 2)
        return -BARK_SHORT;
    if (low(s, 2) != 2)
        return -BARK_ENVELOPE;
    for (k = 0; k < 2; k++, at += 4 + length) {
        if (n < at + 2)
            return -BARK_SHORT;
        if (low(s + at, 2) != types[k])
            return -BARK_ENVELOPE;
        if (n < at + 4)
            return -BARK_SHORT;
        length = low(s + at + 2, 2);
        if (n < at + 4 + length)
            return -BARK_SHORT;
    }
    if (connected && length < 2)
        return -BARK_SHORT;
    if (n > at)
        return -BARK_LEFTOVER;
    f[BARK_ENVELOPE_CONNECTED] = connected;
    f[BARK_ENVELOPE_COUNT] = connected ? low(s + at - length, 2) : 0;
    f[BARK_ENVELOPE_DATA_LENGTH] = length - 2 * connected;
    f[BARK_ENVELOPE_DATA_START] = at - f[BARK_ENVELOPE_DATA_LENGTH];
    return BARK_ENVELOPE_NUMBERS;
}

/* ---- bodies */

static int64_t law_write_body(const uint8_t *items, size_t items_len, const size_t *lengths, size_t count, uint8_t *out)
{
    size_t k, used = 0, at = 2 + 2 * count;
    for (k = 0; k < count; k++) {
        if (lengths[k] > items_len - used)
            return -BARK_OUTSIDE;
        if (lengths[k] == 0)
            return -BARK_OFFSET;
        used += lengths[k];
    }
    if (at + used > BARK_MAX_RECORD)
        return -BARK_LIMIT;
    out = put(out, count, 2);
    for (k = 0; k < count; k++) {
        out = put(out, at, 2);
        at += lengths[k];
    }
    put_all(out, items, used);
    return at;
}

static int64_t law_read_body(const uint8_t *s, size_t n)
{
    size_t k, count, last;
    if (n > BARK_MAX_RECORD)
        return -BARK_LIMIT;
    if (n < 2)
        return -BARK_SHORT;
    count = low(s, 2);
    if (count == 0)
        return n > 2 ? -BARK_LEFTOVER : 0;
    last = 1 + 2 * count;
    for (k = 0; k < count; k++) {
        size_t offset;
        if (n < 4 + 2 * k)
            return -BARK_SHORT;
        offset = low(s + 2 + 2 * k, 2);
        if (offset <= last || offset >= n || (k == 0 && offset != 2 + 2 * count))
            return -BARK_OFFSET;
        last = offset;
    }
    return count;
}

/* An item of a body that is said to have so many. */
static int64_t law_walk_item(const uint8_t *s, size_t n, size_t items, size_t index, size_t *f)
{
    size_t start, stop;
    if (n > BARK_MAX_RECORD)
        return -BARK_LIMIT;
    if (n < 2 || items > (n - 2) / 2)
        return -BARK_SHORT;
    if (index >= items)
        return -BARK_OUTSIDE;
    start = low(s + 2 + 2 * index, 2);
    stop = index + 1 < items ? low(s + 4 + 2 * index, 2) : n;
    if (start < 2 + 2 * items || start >= stop || stop > n)
        return -BARK_OFFSET;
    f[BARK_ITEM_START] = start;
    f[BARK_ITEM_LENGTH] = stop - start;
    return BARK_ITEM;
}

static int64_t law_body_item(const uint8_t *s, size_t n, size_t index, size_t *f)
{
    int64_t items = law_read_body(s, n);
    if (items < 0)
        return items;
    return law_walk_item(s, n, items, index, f);
}

/* The reply in an item that was found, or why it was not. */
static int64_t law_reply_in(const uint8_t *s, int64_t found, const size_t *item, size_t *f)
{
    if (found >= 0)
        found = law_read_reply(s + item[BARK_ITEM_START], item[BARK_ITEM_LENGTH], f);
    if (found >= 0)
        f[BARK_REPLY_DATA_START] += item[BARK_ITEM_START];
    return found;
}

/* A row for each item of a body. */
static int64_t law_read_replies(const uint8_t *s, size_t n, size_t *rows)
{
    int64_t k, items = law_read_body(s, n);
    for (k = 0; k < items; k++, rows += BARK_REPLY_ROW) {
        size_t item[BARK_ITEM];
        int64_t read = law_reply_in(s, law_walk_item(s, n, items, k, item), item, rows + BARK_REPLY_ROW_REPLY);
        rows[BARK_REPLY_ROW_REFUSED] = read < 0 ? -read : 0;
        if (read < 0)
            memset(rows + BARK_REPLY_ROW_REPLY, 0, BARK_REPLY * sizeof *rows);
    }
    return items;
}

static int64_t law_join_bodies(const uint8_t *a, size_t a_len, const uint8_t *b, size_t b_len, uint8_t *out)
{
    int64_t k, first = law_read_body(a, a_len), second;
    uint8_t *to = out;
    if (first < 0)
        return first;
    second = law_read_body(b, b_len);
    if (second < 0)
        return second;
    if (a_len + b_len - 2 > BARK_MAX_RECORD)
        return -BARK_LIMIT;
    to = put(to, first + second, 2);
    for (k = 0; k < first; k++)
        to = put(to, low(a + 2 + 2 * k, 2) + 2 * second, 2); /* the table is longer by the second's offsets */
    for (k = 0; k < second; k++)
        to = put(to, low(b + 2 + 2 * k, 2) + a_len - 2, 2); /* all of the first but its count stands before */
    to = put_all(to, a + 2 + 2 * first, a_len - 2 - 2 * first);
    return put_all(to, b + 2 + 2 * second, b_len - 2 - 2 * second) - out;
}

/* ---- nested messages */

/* The rows of a message and of what it holds, from row `at` on: the row behind them. */
static int64_t law_nested(const uint8_t *s, size_t n, size_t depth, uint16_t *rows, int64_t at)
{
    size_t f[BARK_MESSAGE], part[BARK_SEND];
    const uint8_t *data;
    int64_t read, k;
    if (depth > 3)
        return -BARK_DEPTH;
    read = law_read_message(s, n, f);
    if (read < 0)
        return read;
    data = s + f[BARK_MESSAGE_DATA_START];
    n = f[BARK_MESSAGE_DATA_LENGTH];
    rows[4 * at + BARK_ROW_DEPTH] = depth;
    rows[4 * at + BARK_ROW_SERVICE] = s[0];
    rows[4 * at + BARK_ROW_PATH_BYTES] = f[BARK_MESSAGE_PATH_LENGTH];
    rows[4 * at + BARK_ROW_DATA_BYTES] = n;
    at++;
    if (s[0] == 0x0A && f[BARK_MESSAGE_PATH_LENGTH] == 4 && memcmp(s + 2, "\x20\x02\x24\x01", 4) == 0) {
        int64_t items = law_read_body(data, n);
        if (items < 0)
            return items;
        for (k = 0; k < items && at >= 0; k++) {
            law_walk_item(data, n, items, k, part);
            at = law_nested(data + part[BARK_ITEM_START], part[BARK_ITEM_LENGTH], depth + 1, rows, at);
        }
        return at;
    }
    if (s[0] == 0x52 && f[BARK_MESSAGE_PATH_LENGTH] == 4 && memcmp(s + 2, "\x20\x06\x24\x01", 4) == 0) {
        read = law_read_unconnected_send(data, n, part);
        if (read < 0)
            return read;
        return law_nested(data + part[BARK_SEND_MESSAGE_START], part[BARK_SEND_MESSAGE_LENGTH], depth + 1, rows, at);
    }
    return at;
}

/* ---- frames */

/* What is at the front of a stream of which n bytes have come, for a buffer of so many bytes: a frame's length, 0 where its end is still to
 * come, or ROOM where it is too long. No state, no call: this is what any cutting has to give. */
static int64_t law_frame(const uint8_t *stream, size_t n, size_t room)
{
    size_t length;
    if (n < 24)
        return 0;
    length = 24 + low(stream + 2, 2);
    return length > room ? -BARK_ROOM : n < length ? 0 : (int64_t)length;
}

/* Whether calls from a reset leave such a state, with some buffer. */
static bool law_state_left(const size_t *state)
{
    size_t held = state[BARK_FRAME_HELD], length = state[BARK_FRAME_LENGTH], refused = state[BARK_FRAME_REFUSED];
    if (held < 24)
        return length == 0 && refused <= 1;
    return held < length && length <= 24 + 65535 && refused == 0;
}

/* One call, of any state and any buffer: what it answers; state, buffer and *frame become what it has to leave. */
static int64_t law_take_scrap(size_t *state, uint8_t *buffer, size_t room, const uint8_t *scrap, size_t n, size_t *frame)
{
    size_t held = state[BARK_FRAME_HELD], length = state[BARK_FRAME_LENGTH], taken = n;
    if (!law_state_left(state))
        return -BARK_OUTSIDE;
    if (room < 24 || room < held || room < length || state[BARK_FRAME_REFUSED])
        return -BARK_ROOM;
    if (length == 0 && held + n >= 24) {
        uint8_t header[24];
        put_all(put_all(header, buffer, held), scrap, 24 - held);
        length = 24 + low(header + 2, 2);
    }
    if (length > room) {
        state[BARK_FRAME_REFUSED] = 1;
        return -BARK_ROOM;
    }
    if (length > 0 && n > length - held)
        taken = length - held;
    put_all(buffer + held, scrap, taken);
    *frame = length > 0 && held + taken == length ? length : 0;
    state[BARK_FRAME_HELD] = *frame ? 0 : held + taken;
    state[BARK_FRAME_LENGTH] = *frame ? 0 : length;
    return taken;
}

#endif
