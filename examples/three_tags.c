/* Three tags in one packet: builds the request, prints it, and reads a reply.
 *
 *   three_tags            reads a sample reply, in which one item has more status than the codec takes
 *   three_tags HEX...     reads this reply: hex digits, with spaces between bytes or not
 *
 * The last line is OK, and the exit status 0, where all three values were read. In every other case it is TRIP, and 1.
 */
#include "barkcushion.h"

#include <stdio.h>
#include <string.h>

enum {
    TAGS = 3,
    ROOM = 512,         /* bytes of a request or a reply; more are refused */
    READ_TAG = 0x4C,    /* services */
    MULTIPLE = 0x0A,
    REPLY = 0x80,       /* set in a reply's service */
    ITEM_FAILED = 0x1E, /* general status of a packet of which an item failed: its body is there */
    REAL = 0xCA         /* type of a value */
};

_Static_assert(sizeof(float) == 4, "a REAL is a float");

static const char *const tags[TAGS] = {"Flow1", "Level1", "Stroke1"};

static const uint8_t sample[] = {
    0x8A, 0x00, 0x1E, 0x00,                                     /* the packet: an item failed */
    0x03, 0x00, 0x08, 0x00, 0x12, 0x00, 0x1A, 0x00,             /* three items, at 8, 18 and 26 */
    0xCC, 0x00, 0x00, 0x00, 0xCA, 0x00, 0x00, 0x00, 0x48, 0x42, /* 50 */
    0xCC, 0x00, 0x01, 0x02, 0x00, 0x00, 0x00, 0x00,             /* two words of extended status */
    0xCC, 0x00, 0x00, 0x00, 0xCA, 0x00, 0x00, 0x00, 0x48, 0xC1, /* -12.5 */
};

/* A refusal for a person. */
static const char *refusal(int64_t answer)
{
    static const char *const names[] = {
        "",
        "SHORT, the input ends too soon",
        "ROOM, what is lent is too short",
        "LIMIT, a limit is passed",
        "CODE, an unknown or reserved code",
        "FORM, not the one form",
        "WORDS, extended status of two words or more",
        "OFFSET, an offset breaks the body rule",
        "LEFTOVER, bytes are left over",
        "DEPTH, nested too deep",
        "ENVELOPE, not the two-item envelope",
        "OUTSIDE, an index lies outside",
    };
    if (answer >= 0 || answer < -BARK_OUTSIDE)
        return "an answer that the header does not have";
    return names[-answer];
}

/* Every step ends here where it is refused, so that none goes unseen. */
static bool refused(const char *what, int64_t answer)
{
    if (answer >= 0)
        return false;
    printf("%s: refused %d, %s\n", what, (int)-answer, refusal(answer));
    return true;
}

/* Writes a Read Tag request for one element: how many bytes, or a refusal. */
static int64_t write_read_tag(const char *tag, uint8_t *out, size_t room)
{
    static const uint8_t one_element[] = {1, 0};
    const size_t length = strlen(tag);
    if (length > BARK_MAX_SYMBOL)
        return -BARK_LIMIT;
    const uint32_t segment[BARK_SEGMENT] = {BARK_SYMBOL, 0, 0, (uint32_t)length};
    uint8_t path[BARK_MAX_PATH];
    const int64_t size = bark_write_path(segment, BARK_SEGMENT, (const uint8_t *)tag, length, path, sizeof path);
    if (size < 0)
        return size;
    return bark_write_message(READ_TAG, path, (size_t)size, one_element, sizeof one_element, out, room);
}

/* Writes the packet of all tags: how many bytes, or a refusal. */
static int64_t write_request(uint8_t *out, size_t room)
{
    uint8_t items[ROOM];
    size_t lengths[TAGS];
    size_t used = 0;
    for (size_t i = 0; i < TAGS; i++) {
        const int64_t size = write_read_tag(tags[i], items + used, sizeof items - used);
        if (size < 0)
            return size;
        lengths[i] = (size_t)size;
        used += lengths[i];
    }
    uint8_t body[ROOM];
    const int64_t body_size = bark_write_body(items, used, lengths, TAGS, body, sizeof body);
    if (body_size < 0)
        return body_size;

    /* To the message router: class 2, instance 1. No segment has bytes in the pool, but a pointer is never NULL. */
    static const uint32_t router[2 * BARK_SEGMENT] = {BARK_CLASS, 2, 0, 0, BARK_INSTANCE, 1, 0, 0};
    static const uint8_t no_pool[1] = {0};
    uint8_t path[BARK_MAX_PATH];
    const int64_t path_size = bark_write_path(router, 2 * BARK_SEGMENT, no_pool, 0, path, sizeof path);
    if (path_size < 0)
        return path_size;
    return bark_write_message(MULTIPLE, path, (size_t)path_size, body, (size_t)body_size, out, room);
}

static void print_status(const char *what, const size_t *reply)
{
    printf("%s: failed, general status %02zX", what, reply[BARK_REPLY_GENERAL]);
    if (reply[BARK_REPLY_WORDS] != 0)
        printf(", extended %04zX", reply[BARK_REPLY_WORD]);
    printf("\n");
}

/* Prints the value in an item's reply, or why there is none: whether there is one. */
static bool print_tag(const char *tag, const uint8_t *body, const size_t *reply)
{
    const uint8_t *data = body + reply[BARK_REPLY_DATA_START];
    if (reply[BARK_REPLY_SERVICE] != (READ_TAG | REPLY)) {
        printf("%s: not a reply to Read Tag, service %02zX\n", tag, reply[BARK_REPLY_SERVICE]);
        return false;
    }
    if (reply[BARK_REPLY_GENERAL] != 0) {
        print_status(tag, reply);
        return false;
    }
    if (reply[BARK_REPLY_DATA_LENGTH] != 6 || data[0] != REAL || data[1] != 0) {
        printf("%s: not one REAL\n", tag);
        return false;
    }
    const uint32_t bits = data[2] | (uint32_t)data[3] << 8 | (uint32_t)data[4] << 16 | (uint32_t)data[5] << 24;
    float value;
    memcpy(&value, &bits, sizeof value);
    printf("%s: %g\n", tag, (double)value);
    return true;
}

/* Reads the reply to the packet and prints each tag: whether all three values are there. */
static bool read_reply(const uint8_t *s, size_t len)
{
    size_t packet[BARK_REPLY];
    if (refused("reply", bark_read_reply(s, len, packet, BARK_REPLY)))
        return false;
    if (packet[BARK_REPLY_SERVICE] != (MULTIPLE | REPLY)) {
        printf("reply: not one to a packet, service %02zX\n", packet[BARK_REPLY_SERVICE]);
        return false;
    }
    if (packet[BARK_REPLY_GENERAL] != 0)
        print_status("reply", packet);
    if (packet[BARK_REPLY_GENERAL] != 0 && packet[BARK_REPLY_GENERAL] != ITEM_FAILED)
        return false;

    const uint8_t *body = s + packet[BARK_REPLY_DATA_START];
    const size_t body_len = packet[BARK_REPLY_DATA_LENGTH];
    const int64_t items = bark_read_body(body, body_len);
    if (refused("reply's body", items))
        return false;
    if (items != TAGS) {
        printf("reply: %d items for %d tags\n", (int)items, (int)TAGS);
        return false;
    }
    bool good = packet[BARK_REPLY_GENERAL] == 0;
    for (size_t i = 0; i < TAGS; i++) {
        size_t reply[BARK_REPLY];
        /* A refused item touches no other: the walk goes on. */
        if (refused(tags[i], bark_walk_reply(body, body_len, (size_t)items, i, reply, BARK_REPLY)))
            good = false;
        else if (!print_tag(tags[i], body, reply))
            good = false;
    }
    return good;
}

/* Adds the bytes of a word of hex digits: whether it is one, and fits. */
static bool add_hex(const char *word, uint8_t *out, size_t room, size_t *used)
{
    static const char digits[] = "0123456789abcdef0123456789ABCDEF";
    while (*word != 0) {
        if (*word == ' ') {
            word++;
            continue;
        }
        const char *high = strchr(digits, word[0]);
        const char *low = word[1] == 0 ? NULL : strchr(digits, word[1]);
        if (high == NULL || low == NULL || *used == room)
            return false;
        out[(*used)++] = (uint8_t)((high - digits) % 16 * 16 + (low - digits) % 16);
        word += 2;
    }
    return true;
}

static bool run(int words, char **word)
{
    uint8_t request[ROOM];
    const int64_t size = write_request(request, sizeof request);
    if (refused("request", size))
        return false;
    printf("request:");
    for (size_t i = 0; i < (size_t)size; i++)
        printf(" %02X", request[i]);
    printf("\n");

    if (words == 0)
        return read_reply(sample, sizeof sample);
    uint8_t reply[ROOM];
    size_t len = 0;
    for (int i = 0; i < words; i++) {
        if (!add_hex(word[i], reply, sizeof reply, &len)) {
            printf("reply: not pairs of hex digits, or more than %d bytes\n", (int)ROOM);
            return false;
        }
    }
    return read_reply(reply, len);
}

int main(int argc, char **argv)
{
    const bool good = run(argc > 1 ? argc - 1 : 0, argv + 1);
    printf("%s\n", good ? "OK" : "TRIP");
    /* What could not be printed is no OK. */
    return good && fflush(stdout) == 0 && !ferror(stdout) ? 0 : 1;
}
