/* The fuzz driver of libbarkcushion.a: one input is one question to one function, with what follows from its answer. See README.md.
 *
 * An input: a byte that picks the function, a byte for the rooms, a byte for what lies in an output before the call; then what the function
 * takes. Where the input ends, numbers that depend on its length alone go on.
 */
#include "law.h"

#include <stdio.h>
#include <stdlib.h>
#include <sys/mman.h>

enum {
    ARENA = 1 << 21, /* bytes of a place that is lent from, and of what faults before and behind it */
    CANARY = 64,
    MOST = 72000,     /* bytes of the longest input that is made */
    MOST_ITEMS = 22000, /* no body has more than 21,844 */
    MOST_SEGMENTS = 140,
    PARTS = 4 /* parts that are lent in a call, at most */
};

/* ---- the input */

static const uint8_t *input;
static size_t left;
static uint32_t tail;

static uint8_t take(void)
{
    if (left > 0) {
        left--;
        return *input++;
    }
    tail = tail * 1664525 + 1013904223;
    return tail >> 24;
}

static uint16_t take16(void)
{
    uint16_t high = take();
    return high << 8 | take();
}

static uint32_t take32(void)
{
    uint32_t high = take16();
    return high << 16 | take16();
}

/* ---- breaks */

static const char *asked = "?";

static _Noreturn void broken(const char *what, long long got, long long want, size_t room)
{
    fprintf(stderr, "BROKEN %s: %s (%lld, and not %lld; room %zu)\n", asked, what, got, want, room);
    abort();
}

static void need(bool holds, const char *what)
{
    if (!holds)
        broken(what, 0, 0, 0);
}

static bool same(const void *a, const void *b, size_t n)
{
    return n == 0 || memcmp(a, b, n) == 0;
}

/* ---- what is lent: on the heap; at the end or at the front of a place of its own, with pages around it that fault; or all of it end to end, the
 * output last, before such a page */

enum place { HEAP, END, FRONT, TOGETHER };

static uint8_t *arenas[PARTS]; /* two inputs and an output; or what bark_take_scrap is lent */
static uint8_t noise[ARENA];

static void set_up(void)
{
    size_t k;
    uint64_t x = 1;
    for (k = 0; k < PARTS; k++) {
        uint8_t *p = mmap(NULL, 3 * ARENA, PROT_NONE, MAP_PRIVATE | MAP_ANONYMOUS, -1, 0);
        if (p == MAP_FAILED || mprotect(p + ARENA, ARENA, PROT_READ | PROT_WRITE) != 0) {
            perror("mmap");
            exit(2);
        }
        arenas[k] = p + ARENA;
    }
    for (k = 0; k < ARENA; k++) {
        x = x * 6364136223846793005u + 1442695040888963407u;
        noise[k] = x >> 56;
    }
}

struct lent {
    uint8_t *at, *block; /* block: what to free */
    uint8_t *canary;
};

/* Lends so many bytes with this content; behind is where it ends if all lies together, and becomes where it starts. */
static struct lent lend(size_t which, enum place place, size_t bytes, size_t unit, const uint8_t *content, uint8_t **behind)
{
    struct lent l = {NULL, NULL, NULL};
    size_t block = bytes > 0 ? bytes : unit;
    switch (place) {
    case HEAP:
        l.block = malloc(block);
        if (!l.block)
            exit(2);
        l.at = l.block + block - bytes;
        break;
    case END:
        l.at = arenas[which] + ARENA - bytes;
        l.canary = l.at - CANARY;
        break;
    case FRONT:
        l.at = arenas[which];
        l.canary = l.at + bytes;
        break;
    case TOGETHER:
        l.at = *behind - bytes;
        l.at -= (uintptr_t)l.at % unit;
        *behind = l.at;
        break;
    }
    if (l.canary)
        memcpy(l.canary, noise, CANARY);
    if (bytes > 0)
        memcpy(l.at, content, bytes);
    return l;
}

static void give_back(struct lent l)
{
    if (l.canary && !same(l.canary, noise, CANARY))
        broken("bytes beside a lent part changed", 0, 0, 0);
    free(l.block);
}

/* ---- the functions */

struct call {
    const void *in[2];
    size_t len[2]; /* elements */
    size_t n[BARK_OPEN_WRITTEN + 1];
    void *out;
    size_t room; /* elements */
    size_t *state, *frame; /* of bark_take_scrap, whose out is the buffer */
};

#define IN(k) c->in[k], c->len[k]
#define OUT c->out, c->room
#define N(k) c->n[k]

/* X(name, bytes of an element of the first input, of the second, of the output, elements of the output for each that is counted, the call) */
#define FUNCTIONS                                                                                                                             \
    X(path_size, 4, 1, 0, 0, (IN(0), IN(1)))                                                                                                  \
    X(write_path, 4, 1, 1, 1, (IN(0), IN(1), OUT))                                                                                            \
    X(check_path, 1, 0, 0, 0, (IN(0)))                                                                                                        \
    X(read_path, 1, 0, 4, BARK_SEGMENT, (IN(0), OUT))                                                                                         \
    X(write_message, 1, 1, 1, 1, (N(0), IN(0), IN(1), OUT))                                                                                   \
    X(read_message, 1, 0, sizeof(size_t), 1, (IN(0), OUT))                                                                                    \
    X(write_unconnected_send, 1, 1, 1, 1, (N(0), N(1), IN(0), IN(1), OUT))                                                                    \
    X(read_unconnected_send, 1, 0, sizeof(size_t), 1, (IN(0), OUT))                                                                           \
    X(encode_parameters, 0, 0, 0, 0, (N(0), N(1), N(2), N(3), N(4), N(5)))                                                                    \
    X(decode_parameters, 0, 0, sizeof(size_t), 1, (N(0), N(1), OUT))                                                                          \
    X(encode_transport, 0, 0, 0, 0, (N(0), N(1), N(2)))                                                                                       \
    X(decode_transport, 0, 0, sizeof(size_t), 1, (N(0), OUT))                                                                                 \
    X(write_forward_open, 1, 0, 1, 1,                                                                                                         \
      (N(13), N(0), N(1), N(2), N(3), N(4), N(5), N(6), N(7), N(8), N(9), N(10), N(11), N(12), IN(0), OUT))                                   \
    X(write_open, 1, 0, 1, 1, (options(c), IN(0), OUT))                                                                                       \
    X(read_forward_open, 1, 0, sizeof(size_t), 1, (N(0), IN(0), OUT))                                                                         \
    X(default_forward_open, 0, 0, sizeof(size_t), 1, (N(0), N(1), OUT))                                                                       \
    X(write_forward_close, 1, 0, 1, 1, (N(0), N(1), N(2), N(3), N(4), IN(0), OUT))                                                            \
    X(read_forward_close, 1, 0, sizeof(size_t), 1, (IN(0), OUT))                                                                              \
    X(read_reply, 1, 0, sizeof(size_t), 1, (IN(0), OUT))                                                                                      \
    X(is_routing_error, 0, 0, 0, 0, (N(0), N(1), N(2)))                                                                                       \
    X(read_forward_open_reply, 1, 0, sizeof(size_t), 1, (N(0), IN(0), OUT))                                                                   \
    X(read_forward_close_reply, 1, 0, sizeof(size_t), 1, (N(0), IN(0), OUT))                                                                  \
    X(write_forward_open_success, 1, 0, 1, 1, (N(0), N(1), N(2), N(3), N(4), N(5), N(6), N(7), IN(0), OUT))                                   \
    X(write_forward_close_success, 1, 0, 1, 1, (N(0), N(1), N(2), N(3), IN(0), OUT))                                                          \
    X(write_forward_failure, 0, 0, 1, 1, (N(0), N(1), N(2), N(3), N(4), N(5), N(6), N(7), N(8), OUT))                                         \
    X(read_envelope, 1, 0, sizeof(size_t), 1, (IN(0), OUT))                                                                                   \
    X(write_body, 1, sizeof(size_t), 1, 1, (IN(0), IN(1), OUT))                                                                               \
    X(read_body, 1, 0, 0, 0, (IN(0)))                                                                                                         \
    X(body_item, 1, 0, sizeof(size_t), 1, (IN(0), N(0), OUT))                                                                                 \
    X(walk_item, 1, 0, sizeof(size_t), 1, (IN(0), N(0), N(1), OUT))                                                                           \
    X(reply_item, 1, 0, sizeof(size_t), 1, (IN(0), N(0), OUT))                                                                                \
    X(walk_reply, 1, 0, sizeof(size_t), 1, (IN(0), N(0), N(1), OUT))                                                                          \
    X(read_replies, 1, 0, sizeof(size_t), BARK_REPLY_ROW, (IN(0), OUT))                                                                       \
    X(join_bodies, 1, 1, 1, 1, (IN(0), IN(1), OUT))                                                                                           \
    X(read_nested, 1, 0, 2, BARK_ROW, (IN(0), OUT))                                                                                           \
    X(take_scrap, 0, 0, 0, 0, (c->state, OUT, IN(0), c->frame))

/* The record for bark_write_open; the numbers are as in enum bark_open, then whether it is a large one. */
static const struct bark_open_options *options(const struct call *c)
{
    static struct bark_open_options o;
    o.large_open = N(13);
    o.priority_tick_time = N(BARK_OPEN_PRIORITY_TICK_TIME);
    o.timeout_ticks = N(BARK_OPEN_TIMEOUT_TICKS);
    o.o_t_connection_id = N(BARK_OPEN_O_T_CONNECTION_ID);
    o.t_o_connection_id = N(BARK_OPEN_T_O_CONNECTION_ID);
    o.connection_serial_number = N(BARK_OPEN_SERIAL);
    o.vendor_id = N(BARK_OPEN_VENDOR);
    o.originator_serial_number = N(BARK_OPEN_ORIGINATOR);
    o.timeout_multiplier = N(BARK_OPEN_TIMEOUT_MULTIPLIER);
    o.o_t_rpi = N(BARK_OPEN_O_T_RPI);
    o.o_t_params = N(BARK_OPEN_O_T_PARAMETERS);
    o.t_o_rpi = N(BARK_OPEN_T_O_RPI);
    o.t_o_params = N(BARK_OPEN_T_O_PARAMETERS);
    o.transport = N(BARK_OPEN_TRANSPORT);
    return &o;
}

#define X(name, first, second, out, each, given)                                                                                              \
    static int64_t call_##name(const struct call *c)                                                                                          \
    {                                                                                                                                         \
        return bark_##name given;                                                                                                             \
    }
FUNCTIONS
#undef X

enum function {
#define X(name, first, second, out, each, given) F_##name,
    FUNCTIONS
#undef X
        COUNT
};

static const struct {
    const char *name;
    int64_t (*call)(const struct call *c);
    size_t in[2], out, each;
} functions[COUNT] = {
#define X(name, first, second, out, each, given) {"bark_" #name, call_##name, {first, second}, out, each},
    FUNCTIONS
#undef X
};

/* ---- asking */

/* How often each function was called, and answered with 0 or more or with each refusal */
struct tally {
    uint64_t next, crashes; /* of the standalone program */
    uint64_t calls[COUNT][12];
};

static struct tally own_tally, *tally = &own_tally;
static uint8_t rooms, salt;

/* A room near a size, of elements */
static size_t near(size_t size, unsigned choice)
{
    static const int8_t beside[16] = {-1, -1, -1, 0, 0, 0, 0, 0, 1, 1, 1, -2, 7, 60};
    if (choice == 15)
        return 0;
    if (choice == 14)
        return size / 2;
    return beside[choice] < 0 && size < 2 ? 0 : size + beside[choice];
}

/* Calls a function three times, each time with all that is lent at another place. want is what document 01 wants of it where there is room, and
 * content what it then writes. Any break ends the program. Answers want. */
static int64_t ask(enum function f, struct call c, int64_t want, const void *content)
{
    const void *in[2] = {c.in[0], c.in[1]};
    size_t unit = functions[f].out, size = want < 0 ? 0 : (size_t)want * functions[f].each;
    const enum place places[3] = {HEAP, END, salt & 1 ? FRONT : TOGETHER};
    const size_t spaces[3] = {size + 1 + salt % 32, near(size, rooms % 16), near(size, rooms / 16)};
    size_t turn;
    asked = functions[f].name;
    for (turn = 0; turn < 3; turn++) {
        struct lent lent[3];
        uint8_t *behind = arenas[2] + ARENA;
        int64_t got, expected = want;
        size_t k, filled;
        c.room = spaces[turn];
        if (unit > 0) {
            lent[2] = lend(2, places[turn], c.room * unit, unit, noise + salt, &behind);
            c.out = lent[2].at;
            if (want >= 0 && c.room < size)
                expected = -BARK_ROOM;
        }
        for (k = 2; k-- > 0;)
            if (functions[f].in[k] > 0) {
                lent[k] = lend(k, places[turn], c.len[k] * functions[f].in[k], functions[f].in[k], in[k], &behind);
                c.in[k] = lent[k].at;
            }
        if (places[turn] == TOGETHER)
            memcpy(behind - CANARY, noise, CANARY);
        got = functions[f].call(&c);
        if (got < -BARK_OUTSIDE)
            broken("an answer that is none", got, expected, c.room);
        if (unit > 0 && got >= 0 && (uint64_t)got * functions[f].each > c.room)
            broken("a size past the room", got, expected, c.room);
        if (got != expected)
            broken("another answer", got, expected, c.room);
        tally->calls[f][got < 0 ? -got : 0]++;
        if (unit > 0) {
            filled = got < 0 ? 0 : size * unit;
            if (!same(c.out, content, filled))
                broken("other bytes written", got, expected, c.room);
            if (!same(lent[2].at + filled, noise + salt + filled, c.room * unit - filled))
                broken(got < 0 ? "a refused call changed its output" : "bytes behind the size changed", got, expected, c.room);
            give_back(lent[2]);
        }
        for (k = 0; k < 2; k++)
            if (functions[f].in[k] > 0) {
                if (!same(c.in[k], in[k], c.len[k] * functions[f].in[k]))
                    broken("an input changed", got, expected, c.room);
                give_back(lent[k]);
            }
        if (places[turn] == TOGETHER && !same(behind - CANARY, noise, CANARY))
            broken("bytes before the lent parts changed", got, expected, c.room);
    }
    return want;
}

/* One input, so many bytes of it */
struct part {
    const uint8_t *at;
    size_t n;
};

static struct part part(const void *at, size_t n)
{
    struct part p = {at, n};
    return p;
}

static bool same_part(struct part a, const void *at, size_t n)
{
    return a.n == n && same(a.at, at, n);
}

/* ---- each function asked, with what the law says of it; what was written or filled is in made, rows or f */

static uint8_t made[2 * MOST];

static int64_t ask_write_path(const uint32_t *segments, size_t count, struct part pool, uint8_t *out)
{
    struct call c = {.in = {segments, pool.at}, .len = {count, pool.n}};
    int64_t want = law_write_path(segments, count, pool.at, pool.n, out);
    ask(F_path_size, c, want, NULL);
    return ask(F_write_path, c, want, out);
}

static int64_t ask_read_path(struct part s, uint32_t *segments)
{
    struct call c = {.in = {s.at}, .len = {s.n}};
    int64_t want = law_read_path(s.at, s.n, segments);
    ask(F_check_path, c, want, NULL);
    return ask(F_read_path, c, want, segments);
}

/* The readers that take bytes alone and fill numbers */
#define READER(name)                                                                                                                          \
    static int64_t ask_##name(struct part s, size_t *f)                                                                                       \
    {                                                                                                                                         \
        struct call c = {.in = {s.at}, .len = {s.n}};                                                                                         \
        return ask(F_##name, c, law_##name(s.at, s.n, f), f);                                                                                 \
    }
READER(read_message)
READER(read_unconnected_send)
READER(read_forward_close)
READER(read_reply)
READER(read_envelope)
READER(read_replies)
#undef READER

static int64_t ask_write_message(uint8_t service, struct part path, struct part data, uint8_t *out)
{
    struct call c = {.in = {path.at, data.at}, .len = {path.n, data.n}, .n = {service}};
    return ask(F_write_message, c, law_write_message(service, path.at, path.n, data.at, data.n, out), out);
}

static int64_t ask_write_send(uint8_t priority, uint8_t ticks, struct part message, struct part path, uint8_t *out)
{
    struct call c = {.in = {message.at, path.at}, .len = {message.n, path.n}, .n = {priority, ticks}};
    int64_t want = law_write_unconnected_send(priority, ticks, message.at, message.n, path.at, path.n, out);
    return ask(F_write_unconnected_send, c, want, out);
}

static int64_t ask_encode_parameters(bool large, const size_t *f)
{
    struct call c = {.n = {large, f[BARK_PARAMETERS_OWNER], f[BARK_PARAMETERS_TYPE], f[BARK_PARAMETERS_VARIABLE], f[BARK_PARAMETERS_PRIORITY],
                           f[BARK_PARAMETERS_SIZE]}};
    return ask(F_encode_parameters, c, law_encode_parameters(large, c.n[1], c.n[2], c.n[3], c.n[4], c.n[5]), NULL);
}

static int64_t ask_decode_parameters(bool large, uint32_t word, size_t *f)
{
    struct call c = {.n = {large, word}};
    return ask(F_decode_parameters, c, law_decode_parameters(large, word, f), f);
}

static int64_t ask_encode_transport(bool server, uint8_t trigger, uint8_t class)
{
    struct call c = {.n = {server, trigger, class}};
    return ask(F_encode_transport, c, law_encode_transport(server, trigger, class), NULL);
}

static int64_t ask_decode_transport(uint8_t byte, size_t *f)
{
    struct call c = {.n = {byte}};
    return ask(F_decode_transport, c, law_decode_transport(byte, f), f);
}

static int64_t ask_write_open(enum function f, bool large, const size_t *fields, struct part path, uint8_t *out)
{
    struct call c = {.in = {path.at}, .len = {path.n}};
    memcpy(c.n, fields, BARK_OPEN_WRITTEN * sizeof *fields);
    c.n[BARK_OPEN_WRITTEN] = large;
    return ask(f, c, law_write_forward_open(large, fields, path.at, path.n, out), out);
}

static int64_t ask_read_open(bool large, struct part s, size_t *f)
{
    struct call c = {.in = {s.at}, .len = {s.n}, .n = {large}};
    return ask(F_read_forward_open, c, law_read_forward_open(large, s.at, s.n, f), f);
}

static int64_t ask_write_close(const size_t *f, struct part path, uint8_t *out)
{
    struct call c = {.in = {path.at}, .len = {path.n}, .n = {f[0], f[1], f[2], f[3], f[4]}};
    return ask(F_write_forward_close, c, law_write_forward_close(f[0], f[1], f[2], f[3], f[4], path.at, path.n, out), out);
}

static int64_t ask_read_forward_reply(bool open, bool routing, struct part s, size_t *f)
{
    struct call c = {.in = {s.at}, .len = {s.n}, .n = {routing}};
    return ask(open ? F_read_forward_open_reply : F_read_forward_close_reply, c, law_read_forward_reply(open, routing, s.at, s.n, f), f);
}

/* The fields are as in enum bark_forward_reply. */
static int64_t ask_write_success(bool open, const size_t *f, struct part app_data, uint8_t *out)
{
    uint8_t service = f[BARK_REPLY_SERVICE];
    uint16_t serial = f[BARK_FORWARD_SERIAL], vendor = f[BARK_FORWARD_VENDOR];
    uint32_t originator = f[BARK_FORWARD_ORIGINATOR];
    if (open) {
        uint32_t ids[2] = {f[BARK_OPENED_O_T_CONNECTION_ID], f[BARK_OPENED_T_O_CONNECTION_ID]};
        uint32_t apis[2] = {f[BARK_OPENED_O_T_API], f[BARK_OPENED_T_O_API]};
        struct call c = {.in = {app_data.at}, .len = {app_data.n}, .n = {service, ids[0], ids[1], serial, vendor, originator, apis[0], apis[1]}};
        int64_t want = law_write_forward_success(service, ids, serial, vendor, originator, apis, app_data.at, app_data.n, out);
        return ask(F_write_forward_open_success, c, want, out);
    }
    struct call c = {.in = {app_data.at}, .len = {app_data.n}, .n = {service, serial, vendor, originator}};
    int64_t want = law_write_forward_success(service, NULL, serial, vendor, originator, NULL, app_data.at, app_data.n, out);
    return ask(F_write_forward_close_success, c, want, out);
}

static int64_t ask_write_failure(const size_t *f, uint8_t *out)
{
    struct call c = {.n = {f[BARK_REPLY_SERVICE], f[BARK_REPLY_GENERAL], f[BARK_REPLY_WORDS], f[BARK_REPLY_WORD], f[BARK_FORWARD_SERIAL],
                           f[BARK_FORWARD_VENDOR], f[BARK_FORWARD_ORIGINATOR], f[BARK_FAILURE_HAS_REMAINING], f[BARK_FAILURE_REMAINING]}};
    int64_t want = law_write_forward_failure(c.n[0], c.n[1], c.n[2], c.n[3], c.n[4], c.n[5], c.n[6], c.n[7], c.n[8], out);
    return ask(F_write_forward_failure, c, want, out);
}

static int64_t ask_write_body(struct part items, const size_t *lengths, size_t count, uint8_t *out)
{
    struct call c = {.in = {items.at, lengths}, .len = {items.n, count}};
    return ask(F_write_body, c, law_write_body(items.at, items.n, lengths, count, out), out);
}

static int64_t ask_read_body(struct part s)
{
    struct call c = {.in = {s.at}, .len = {s.n}};
    return ask(F_read_body, c, law_read_body(s.at, s.n), NULL);
}

static int64_t ask_body_item(struct part s, size_t index, size_t *f)
{
    struct call c = {.in = {s.at}, .len = {s.n}, .n = {index}};
    return ask(F_body_item, c, law_body_item(s.at, s.n, index, f), f);
}

static int64_t ask_walk_item(struct part s, size_t items, size_t index, size_t *f)
{
    struct call c = {.in = {s.at}, .len = {s.n}, .n = {items, index}};
    return ask(F_walk_item, c, law_walk_item(s.at, s.n, items, index, f), f);
}

static int64_t ask_reply_item(struct part s, size_t index, size_t *f)
{
    struct call c = {.in = {s.at}, .len = {s.n}, .n = {index}};
    size_t item[BARK_ITEM];
    return ask(F_reply_item, c, law_reply_in(s.at, law_body_item(s.at, s.n, index, item), item, f), f);
}

static int64_t ask_walk_reply(struct part s, size_t items, size_t index, size_t *f)
{
    struct call c = {.in = {s.at}, .len = {s.n}, .n = {items, index}};
    size_t item[BARK_ITEM];
    return ask(F_walk_reply, c, law_reply_in(s.at, law_walk_item(s.at, s.n, items, index, item), item, f), f);
}

static int64_t ask_join(struct part a, struct part b, uint8_t *out)
{
    struct call c = {.in = {a.at, b.at}, .len = {a.n, b.n}};
    return ask(F_join_bodies, c, law_join_bodies(a.at, a.n, b.at, b.n, out), out);
}

static int64_t ask_nested(struct part s, uint16_t *rows)
{
    struct call c = {.in = {s.at}, .len = {s.n}};
    return ask(F_read_nested, c, law_nested(s.at, s.n, 0, rows, 0), rows);
}

/* Frames are asked about in a way of their own: state and buffer go in and come out. They and *frame become what the law wants of them. */
static int64_t ask_take_scrap(size_t *state, uint8_t *buffer, size_t room, struct part scrap, size_t *frame)
{
    static uint8_t after[MOST];
    const enum place places[3] = {HEAP, END, salt & 1 ? FRONT : TOGETHER};
    size_t turn, k, state_after[BARK_FRAME_STATE], frame_after = *frame;
    int64_t want;
    put_all(after, buffer, room);
    memcpy(state_after, state, sizeof state_after);
    want = law_take_scrap(state_after, after, room, scrap.at, scrap.n, &frame_after);
    asked = functions[F_take_scrap].name;
    for (turn = 0; turn < 3; turn++) {
        enum place place = places[turn];
        uint8_t *behind = arenas[0] + ARENA;
        struct lent lent[PARTS];
        struct call c = {.len = {scrap.n}, .room = room};
        int64_t got;
        lent[0] = lend(0, place, room, 1, buffer, &behind);
        lent[1] = lend(1, place, scrap.n, 1, scrap.at, &behind);
        lent[2] = lend(2, place, BARK_FRAME_STATE * sizeof *state, sizeof *state, (uint8_t *)state, &behind);
        lent[3] = lend(3, place, sizeof *frame, sizeof *frame, (uint8_t *)frame, &behind);
        if (place == TOGETHER)
            memcpy(behind - CANARY, noise, CANARY);
        c.out = lent[0].at;
        c.in[0] = lent[1].at;
        c.state = (size_t *)lent[2].at;
        c.frame = (size_t *)lent[3].at;
        got = functions[F_take_scrap].call(&c);
        if (got < -BARK_OUTSIDE || got > (int64_t)scrap.n)
            broken("an answer that is none", got, want, room);
        if (got != want)
            broken("another answer", got, want, room);
        tally->calls[F_take_scrap][got < 0 ? -got : 0]++;
        for (k = 0; k < BARK_FRAME_STATE; k++)
            if (c.state[k] != state_after[k])
                broken(got < 0 ? "another state after a refusal" : "another state", c.state[k], state_after[k], room);
        if (*c.frame != frame_after)
            broken("another frame's length", *c.frame, frame_after, room);
        if (!same(c.out, after, room))
            broken(got < 0 ? "a refused call changed the buffer" : "other bytes in the buffer", got, want, room);
        if (!same(c.in[0], scrap.at, scrap.n))
            broken("an input changed", got, want, room);
        if (place == TOGETHER && !same(behind - CANARY, noise, CANARY))
            broken("bytes before the lent parts changed", got, want, room);
        for (k = 0; k < PARTS; k++)
            give_back(lent[k]);
    }
    put_all(buffer, after, room);
    memcpy(state, state_after, sizeof state_after);
    *frame = frame_after;
    return want;
}

/* ---- what is asked about, made from the input */

enum kind { PATH, MESSAGE, SEND, OPEN, CLOSE, REPLY, OPEN_REPLY, CLOSE_REPLY, ENVELOPE, BODY, REPLIES };

/* Bytes that are added to, as far as they fit */
struct pile {
    uint8_t *at;
    size_t n, most;
};

static void add(struct pile *h, uint64_t number, size_t width)
{
    for (; width > 0 && h->n < h->most; width--, number >>= 8)
        h->at[h->n++] = (uint8_t)number;
}

static void add_all(struct pile *h, const uint8_t *s, size_t n)
{
    if (n > h->most - h->n)
        n = h->most - h->n;
    if (n > 0)
        memcpy(h->at + h->n, s, n);
    h->n += n;
}

/* So many bytes: the first from the input, the rest noise */
static void add_some(struct pile *h, size_t n)
{
    for (; n > 0 && left > 0; n--)
        add(h, take(), 1);
    add_all(h, noise + n % 251, n);
}

/* How many bytes of something: few, some hundreds, or so many that with the rest it comes near the limit of a record */
static size_t some(size_t rest)
{
    uint8_t b = take();
    if (b >= 252)
        return BARK_MAX_RECORD + 4 - rest - b % 4 - take() % 4;
    if (b >= 240)
        return 500 + b % 16;
    if (b >= 224)
        return 250 + b % 8;
    return b % 16;
}

/* A run of segments over a pool; now and then some that are refused. Answers how many numbers. */
static size_t make_segments(uint32_t *rows, size_t pool)
{
    uint8_t b = take();
    size_t k, n = b < 232 ? b % 6 : 124 + b % 8;
    bool wild = take() % 4 == 0;
    for (k = 0; k < n; k++, rows += BARK_SEGMENT) {
        static const uint32_t edges[16] = {0, 1, 13, 14, 15, 16, 255, 256, 257, 65535, 65536, 65537, 0x7FFFFFFF, 0xFFFFFFFF};
        uint8_t kind = take(), number = take(), length = take();
        rows[BARK_SEGMENT_KIND] = wild && kind >= 240 ? kind - 234u : kind % 6;
        rows[BARK_SEGMENT_NUMBER] = number < 128 ? edges[number % 14] : number < 192 ? take() : number < 240 ? take16() : take32();
        rows[BARK_SEGMENT_START] = take16() % (pool + 1);
        rows[BARK_SEGMENT_LENGTH] = length < 160 ? length % 8u : length < 240 ? 248u + length % (wild ? 10 : 8) : length / 2u;
        if (rows[BARK_SEGMENT_KIND] % 5 == 0) {
            if (wild && length % 16 == 15)
                rows[BARK_SEGMENT_START] = length & 16 ? pool + 1 : edges[kind / 16] + 255;
            else if (!wild || length % 16 > 1) {
                if (rows[BARK_SEGMENT_LENGTH] > pool)
                    rows[BARK_SEGMENT_LENGTH] = pool;
                if (rows[BARK_SEGMENT_START] > pool - rows[BARK_SEGMENT_LENGTH])
                    rows[BARK_SEGMENT_START] = pool - rows[BARK_SEGMENT_LENGTH];
            }
            if (!wild && rows[BARK_SEGMENT_LENGTH] == 255 && rows[BARK_SEGMENT_KIND] == BARK_PORT)
                rows[BARK_SEGMENT_LENGTH] = 254;
        } else if (kind % 2 == 1) {
            rows[BARK_SEGMENT_START] = take32(); /* not used */
            rows[BARK_SEGMENT_LENGTH] = take32();
        }
        if (!wild && rows[BARK_SEGMENT_KIND] != BARK_ELEMENT)
            rows[BARK_SEGMENT_NUMBER] &= 0xFFFF;
    }
    for (k = 0; k < b / 16 % 4u; k++)
        *rows++ = take32(); /* behind the last whole segment */
    return n * BARK_SEGMENT + k;
}

/* A pool; a byte says how long it is, and the input has the first bytes. */
static struct part make_pool(void)
{
    static const uint16_t sizes[8] = {0, 1, 2, 9, 254, 255, 256, 600};
    static uint8_t bytes[600];
    size_t k, n = sizes[take() % 8];
    memcpy(bytes, noise, n);
    for (k = 0; k < n && k < 9; k++)
        bytes[k] = take();
    return part(bytes, n);
}

/* A path; those segments that would be refused are left out. */
static void make_path(struct pile *h)
{
    uint8_t bytes[300];
    uint32_t rows[MOST_SEGMENTS * BARK_SEGMENT];
    struct part pool = make_pool();
    size_t k, count = make_segments(rows, pool.n) / BARK_SEGMENT;
    for (k = 0; k < count; k++) {
        int64_t size = law_write_path(rows + k * BARK_SEGMENT, BARK_SEGMENT, pool.at, pool.n, bytes);
        if (size > 0)
            add_all(h, bytes, size);
    }
}

/* A path behind its size byte, with a reserved byte before it where padded */
static void make_route(struct pile *h, size_t padded)
{
    static uint8_t bytes[700];
    struct pile path = {bytes, 0, sizeof bytes};
    uint8_t b = take();
    if (b < 64)
        add_all(&path, (const uint8_t *)"\x20\x04\x24\x01\x30\x07", b % 4 * 2);
    else
        make_path(&path);
    if (path.n > 256)
        path.n = 254; /* most often cut in a segment */
    add(h, path.n / 2, 1 + padded);
    add_all(h, path.at, path.n);
}

static void make_reply(struct pile *h)
{
    uint8_t b = take();
    add(h, take(), 1);
    add(h, b % 8 == 0 ? take() : 0, 1);
    add(h, b % 2 == 0 ? 0 : b / 2, 1);
    b = take();
    b = b < 128 ? 0 : b < 224 ? 1 : b;
    add(h, b, 1);
    add_some(h, 2 * b);
}

static void make_body(struct pile *h, enum kind items, size_t depth);

static void make_message(struct pile *h, size_t depth)
{
    uint8_t b = take();
    if (depth > 0 && depth < 6 && b % 4 == 1) {
        add_all(h, (const uint8_t *)"\x0A\x02\x20\x02\x24\x01", 6);
        make_body(h, MESSAGE, depth);
    } else if (depth > 0 && depth < 6 && b % 4 == 2) {
        static uint8_t inner[7][MOST];
        struct pile m = {inner[depth], 0, MOST};
        make_message(&m, depth + 1);
        add_all(h, (const uint8_t *)"\x52\x02\x20\x06\x24\x01", 6);
        add(h, take() % 16, 1);
        add(h, take(), 1);
        add(h, m.n, 2);
        add_all(h, m.at, m.n);
        add(h, 0, m.n % 2);
        make_route(h, 1);
    } else {
        add(h, take(), 1);
        make_route(h, 0);
        if (depth < 2)
            add_some(h, some(h->n));
        else
            add_some(h, take() % 8);
    }
}

/* A body: a few items of a kind, or as many small ones as come near the limit */
static void make_body(struct pile *h, enum kind items, size_t depth)
{
    static uint8_t stores[7][MOST];
    struct pile store = {stores[depth], 0, MOST};
    uint8_t b = take();
    size_t ends[8], k, count = b % 8, each = 1 + b / 8 % 4, at, begin = h->n;
    if (b >= 252 && depth < 2) {
        count = (BARK_MAX_RECORD - begin - 2 - take() % 4 * (size_t)take()) / (2 + each) + take() % 3 - 1;
        add(h, count, 2);
        for (k = 0; k < count; k++)
            add(h, 2 + (2 + each) * count - (count - k) * each, 2);
        for (k = 0; k < count; k++)
            add(h, items == REPLIES ? 0x8E : 0x0E, each);
        add_some(h, take() % 8);
        return;
    }
    for (k = 0; k < count; k++) {
        size_t before = store.n;
        if (items == MESSAGE)
            make_message(&store, depth + 1);
        else if (items == REPLIES && take() % 4 != 0)
            make_reply(&store);
        add_some(&store, take() % 8 * (items != MESSAGE));
        if (store.n == before)
            add(&store, take(), 1);
        ends[k] = store.n;
    }
    add(h, count, 2);
    for (k = 0, at = 0; k < count; k++) {
        add(h, 2 + 2 * count + at, 2);
        at = ends[k];
    }
    add_all(h, store.at, store.n);
}

static uint32_t make_word(bool large)
{
    uint8_t b = take();
    uint32_t flags = b & 0x77, size = take16(); /* the bit between type and priority is reserved */
    uint32_t word = large ? flags << 25 | size : flags << 9 | size % 512;
    return b & 0x80 && take() % 8 == 0 ? word ^ (uint32_t)1 << take() % 32 : word;
}

static uint8_t make_transport(void)
{
    uint8_t b = take();
    return b < 224 ? (b & 0x80) | b / 8 % 3 << 4 | b % 7 : take();
}

static void make(struct pile *h, enum kind kind, bool flag)
{
    size_t k;
    switch (kind) {
    case PATH:
        make_path(h);
        break;
    case MESSAGE:
        make_message(h, flag);
        break;
    case SEND:
        add(h, take() % 16, 1);
        add(h, take(), 1);
        k = some(12);
        add(h, k, 2);
        add_some(h, k);
        add(h, 0, k % 2);
        make_route(h, 1);
        break;
    case OPEN:
        add(h, take() % 16, 1);
        add_some(h, 17);
        add(h, take(), 4);
        for (k = 0; k < 2; k++) {
            add(h, take32(), 4);
            add(h, make_word(flag), flag ? 4 : 2);
        }
        add(h, make_transport(), 1);
        make_route(h, 0);
        break;
    case CLOSE:
        add(h, take() % 16, 1);
        add_some(h, 9);
        make_route(h, 1);
        break;
    case REPLY:
        make_reply(h);
        add_some(h, some(6));
        break;
    case OPEN_REPLY:
    case CLOSE_REPLY:
        make_reply(h);
        if (h->at[2] == 0) {
            uint8_t b = take();
            size_t words = b < 200 ? b % 4 : b;
            add_some(h, kind == OPEN_REPLY ? 24 : 8);
            add(h, words, 1);
            add(h, b % 4 == 3 ? take() : 0, 1);
            add_some(h, 2 * words);
        } else {
            add_some(h, 8 + take() % 2);
        }
        add_some(h, take() % 8 == 7 ? take() % 4 : 0);
        break;
    case ENVELOPE: {
        uint8_t b = take();
        bool connected = b & 1;
        add(h, 2, 2);
        add(h, connected ? 0xA1 : 0, 2);
        k = b & 2 ? take() % 8 : 4 * connected;
        add(h, k, 2);
        add_some(h, k);
        add(h, connected ? 0xB1 : 0xB2, 2);
        k = some(0);
        add(h, k, 2);
        add_some(h, k);
        break;
    }
    case BODY:
    case REPLIES:
        make_body(h, kind, 0);
        break;
    }
}

/* Changes something of it: a byte, a bit, its end, or a byte more or less inside. */
static void damage(struct pile *h)
{
    uint8_t b = take();
    size_t at = h->n == 0 ? 0 : take16() % (b & 8 && h->n > 40 ? 40 : h->n);
    if (b % 8 == 0 || h->n == 0) {
        add_some(h, 1 + b / 8 % 4);
    } else if (b % 8 == 1) {
        h->n -= h->n < 1 + b / 16 % 8u ? h->n : 1 + b / 16 % 8u;
    } else if (b % 8 == 2) {
        h->n = at;
        if (at > 0 && b & 16)
            h->at[at - 1] = take();
    } else if (b % 8 == 3 || (b % 8 == 4 && h->n == h->most)) {
        memmove(h->at + at, h->at + at + 1, --h->n - at);
    } else if (b % 8 == 4) {
        memmove(h->at + at + 1, h->at + at, h->n++ - at);
        h->at[at] = take();
    } else if (b % 8 == 5) {
        h->at[at] ^= 1 << take() % 8;
    } else {
        h->at[at] = take();
    }
}

/* Bytes to ask about: by the next byte the input's own, or of a kind, or of that kind and then damaged. flag: a large Forward Open, a message
 * that holds others. Of two, the first takes a part of the input's own. */
static struct part subject(enum kind kind, bool flag, size_t which, bool last)
{
    static uint8_t bytes[2][MOST];
    struct pile h = {bytes[which], 0, MOST};
    uint8_t b = take();
    if (b % 4 == 0) {
        size_t n = last ? left : left * take() / 255;
        if (n > MOST / 2)
            n = MOST / 2;
        add_some(&h, n);
        if (b == 252)
            add_all(&h, noise, BARK_MAX_RECORD - h.n - 2 + take() % 8);
    } else {
        make(&h, kind, flag);
        if (b % 4 > 1)
            damage(&h);
        if (b >= 250)
            damage(&h);
    }
    return part(h.at, h.n);
}

/* Data of a record, so many bytes behind the rest */
static struct part data(size_t rest)
{
    static uint8_t bytes[MOST];
    struct pile h = {bytes, 0, MOST};
    add_some(&h, some(rest));
    return part(h.at, h.n);
}

/* ---- the tests: a function is asked, and what follows from its answer is asked too */

static uint8_t again[2 * MOST];
static uint32_t segments[MOST_SEGMENTS * BARK_SEGMENT], segments_again[MOST_SEGMENTS * BARK_SEGMENT];

/* A path that was written reads back as the same segments, and these write it again. */
static void test_write_path(void)
{
    struct part pool = make_pool();
    size_t k, count = make_segments(segments, pool.n);
    int64_t size = ask_write_path(segments, count, pool, made);
    if (size < 0)
        return;
    need(size % 2 == 0, "an odd path");
    need(ask_read_path(part(made, size), segments_again) == (int64_t)(count / BARK_SEGMENT), "a written path has other segments");
    for (k = 0; k + BARK_SEGMENT <= count; k += BARK_SEGMENT) {
        const uint32_t *a = segments + k, *b = segments_again + k;
        bool pooled = a[BARK_SEGMENT_KIND] == BARK_SYMBOL || a[BARK_SEGMENT_KIND] == BARK_PORT;
        need(a[BARK_SEGMENT_KIND] == b[BARK_SEGMENT_KIND], "a kind reads back as another");
        need(b[BARK_SEGMENT_NUMBER] == (a[BARK_SEGMENT_KIND] == BARK_SYMBOL ? 0 : a[BARK_SEGMENT_NUMBER]), "a number reads back as another");
        if (a[BARK_SEGMENT_KIND] == BARK_PORT && a[BARK_SEGMENT_LENGTH] == 0)
            need(b[BARK_SEGMENT_LENGTH] == 1 && made[b[BARK_SEGMENT_START]] == 0, "an empty link does not read back as link 0");
        else if (pooled)
            need(same_part(part(pool.at + a[BARK_SEGMENT_START], a[BARK_SEGMENT_LENGTH]), made + b[BARK_SEGMENT_START], b[BARK_SEGMENT_LENGTH]),
                 "a symbol or a link reads back as another");
        else
            need(b[BARK_SEGMENT_START] == 0 && b[BARK_SEGMENT_LENGTH] == 0, "a place without bytes");
    }
    need(ask_write_path(segments_again, count - count % BARK_SEGMENT, part(made, size), again) == size && same(again, made, size),
         "what was read is written as another path");
}

static void test_read_path(void)
{
    struct part s = subject(PATH, false, 0, true);
    int64_t n = ask_read_path(s, segments);
    if (n >= 0)
        need(same_part(s, made, ask_write_path(segments, n * BARK_SEGMENT, s, made)), "what was read is written as another path");
}

static void test_write_message(void)
{
    size_t f[BARK_MESSAGE];
    uint8_t service = take();
    struct part path = subject(PATH, false, 0, false), d = data(2 + path.n);
    int64_t size = ask_write_message(service, path, d, made);
    if (size < 0)
        return;
    need(ask_read_message(part(made, size), f) == BARK_MESSAGE && f[BARK_MESSAGE_SERVICE] == service &&
             same_part(path, made + f[BARK_MESSAGE_PATH_START], f[BARK_MESSAGE_PATH_LENGTH]) &&
             same_part(d, made + f[BARK_MESSAGE_DATA_START], f[BARK_MESSAGE_DATA_LENGTH]),
         "a message reads back as another");
}

static void test_read_message(void)
{
    size_t f[BARK_MESSAGE];
    struct part s = subject(MESSAGE, false, 0, true);
    if (ask_read_message(s, f) >= 0)
        need(same_part(s, made,
                       ask_write_message(f[BARK_MESSAGE_SERVICE], part(s.at + f[BARK_MESSAGE_PATH_START], f[BARK_MESSAGE_PATH_LENGTH]),
                                         part(s.at + f[BARK_MESSAGE_DATA_START], f[BARK_MESSAGE_DATA_LENGTH]), made)),
             "what was read is written as another message");
}

static void test_write_send(void)
{
    size_t f[BARK_SEND];
    uint8_t priority = take(), ticks = take();
    struct part path = subject(PATH, false, 0, false), message = data(6 + path.n);
    int64_t size, read;
    if (priority < 224)
        priority %= 16;
    size = ask_write_send(priority, ticks, message, path, made);
    if (size < 0)
        return;
    read = ask_read_unconnected_send(part(made, size), f);
    need(priority > 15 ? read == -BARK_FORM
                       : read == BARK_SEND && f[BARK_SEND_PRIORITY_TICKS] == priority && f[BARK_SEND_TIMEOUT_TICKS] == ticks &&
                             same_part(message, made + f[BARK_SEND_MESSAGE_START], f[BARK_SEND_MESSAGE_LENGTH]) &&
                             same_part(path, made + f[BARK_SEND_PATH_START], f[BARK_SEND_PATH_LENGTH]),
         "an Unconnected Send reads back as another");
}

static void test_read_send(void)
{
    size_t f[BARK_SEND];
    struct part s = subject(SEND, false, 0, true);
    if (ask_read_unconnected_send(s, f) >= 0)
        need(same_part(s, made,
                       ask_write_send(f[BARK_SEND_PRIORITY_TICKS], f[BARK_SEND_TIMEOUT_TICKS],
                                      part(s.at + f[BARK_SEND_MESSAGE_START], f[BARK_SEND_MESSAGE_LENGTH]),
                                      part(s.at + f[BARK_SEND_PATH_START], f[BARK_SEND_PATH_LENGTH]), made)),
             "what was read is written as another Unconnected Send");
}

static void test_encode_parameters(void)
{
    uint8_t b = take(), type = take(), priority = take();
    bool large = b & 1;
    size_t back[BARK_PARAMETERS], f[BARK_PARAMETERS] = {b >> 1 & 1, type < 240 ? type % 4 : type, b >> 2 & 1,
                                                        priority < 240 ? priority % 5 : priority, 0};
    int64_t word;
    f[BARK_PARAMETERS_SIZE] = b & 8 ? take16() : 508 + take() % 8;
    word = ask_encode_parameters(large, f);
    if (word >= 0)
        need(ask_decode_parameters(large, word, back) == BARK_PARAMETERS && same(f, back, sizeof f), "parameters read back as others");
}

static void test_decode_parameters(void)
{
    size_t f[BARK_PARAMETERS];
    uint8_t b = take();
    bool large = b & 1;
    uint32_t word = b & 2 ? take32() : make_word(large);
    if (ask_decode_parameters(large, word, f) >= 0)
        need(ask_encode_parameters(large, f) == (int64_t)word, "what was read is another word");
}

static void test_encode_transport(void)
{
    size_t f[BARK_TRANSPORT];
    uint8_t b = take(), trigger = take(), class = take();
    int64_t byte;
    if (trigger < 240)
        trigger %= 4;
    if (class < 240)
        class %= 8;
    byte = ask_encode_transport(b & 1, trigger, class);
    if (byte >= 0)
        need(ask_decode_transport(byte, f) == BARK_TRANSPORT && f[BARK_TRANSPORT_SERVER] == (b & 1) && f[BARK_TRANSPORT_TRIGGER] == trigger &&
                 f[BARK_TRANSPORT_CLASS] == class,
             "class and trigger read back as others");
}

static void test_decode_transport(void)
{
    size_t f[BARK_TRANSPORT];
    uint8_t byte = take();
    if (ask_decode_transport(byte, f) >= 0)
        need(ask_encode_transport(f[BARK_TRANSPORT_SERVER], f[BARK_TRANSPORT_TRIGGER], f[BARK_TRANSPORT_CLASS]) == byte,
             "what was read is another byte");
}

/* A Forward Open that was written reads back as its fields and its path. */
static void open_reads_back(enum function function, bool large, const size_t *fields, struct part path)
{
    size_t f[BARK_OPEN];
    int64_t read, size = ask_write_open(function, large, fields, path, made);
    if (size < 0)
        return;
    read = ask_read_open(large, part(made, size), f);
    if (fields[BARK_OPEN_PRIORITY_TICK_TIME] > 15) {
        need(read == -BARK_FORM, "a reserved bit was read");
        return;
    }
    need(read == BARK_OPEN && same(f, fields, BARK_OPEN_WRITTEN * sizeof *f) &&
             same_part(path, made + f[BARK_OPEN_PATH_START], f[BARK_OPEN_PATH_LENGTH]),
         "a Forward Open reads back as another");
}

static void test_write_open(enum function function)
{
    size_t k, fields[BARK_OPEN_WRITTEN];
    uint8_t b = take();
    bool large = b & 1;
    for (k = 0; k < BARK_OPEN_WRITTEN; k++) {
        size_t width = open_width(large, k);
        fields[k] = width == 1 ? take() : width == 2 ? take16() : take32();
    }
    if (b < 224) {
        fields[BARK_OPEN_PRIORITY_TICK_TIME] %= 16;
        fields[BARK_OPEN_TRANSPORT] = make_transport();
    }
    if (b < 240) {
        fields[BARK_OPEN_O_T_PARAMETERS] = make_word(large);
        fields[BARK_OPEN_T_O_PARAMETERS] = make_word(large);
    } else if (b >= 248) {
        fields[BARK_OPEN_T_O_PARAMETERS] = take32();
    }
    open_reads_back(function, large, fields, subject(PATH, false, 0, true));
}

static void test_read_open(void)
{
    size_t f[BARK_OPEN];
    bool large = take() & 1;
    struct part s = subject(OPEN, large, 0, true);
    if (ask_read_open(large, s, f) >= 0)
        need(same_part(s, made,
                       ask_write_open(F_write_forward_open, large, f, part(s.at + f[BARK_OPEN_PATH_START], f[BARK_OPEN_PATH_LENGTH]), made)),
             "what was read is written as another Forward Open");
}

static void test_default_open(void)
{
    size_t f[BARK_OPEN_WRITTEN];
    bool large = take() & 1;
    uint16_t serial = take16();
    struct call c = {.n = {large, serial}};
    ask(F_default_forward_open, c, law_default_forward_open(large, serial, f), f);
    open_reads_back(F_write_open, large, f, part("\x01\x00\x20\x02\x24\x01", 6));
}

static void test_write_close(void)
{
    size_t f[BARK_CLOSE], fields[5];
    struct part path;
    int64_t size, read;
    uint8_t b = take();
    fields[0] = b < 224 ? b % 16 : b;
    fields[1] = take();
    fields[2] = take16();
    fields[3] = take16();
    fields[4] = take32();
    path = subject(PATH, false, 0, true);
    size = ask_write_close(fields, path, made);
    if (size < 0)
        return;
    read = ask_read_forward_close(part(made, size), f);
    need(fields[0] > 15 ? read == -BARK_FORM
                        : read == BARK_CLOSE && same(f, fields, sizeof fields) &&
                              same_part(path, made + f[BARK_CLOSE_PATH_START], f[BARK_CLOSE_PATH_LENGTH]),
         "a Forward Close reads back as another");
}

static void test_read_close(void)
{
    size_t f[BARK_CLOSE];
    struct part s = subject(CLOSE, false, 0, true);
    if (ask_read_forward_close(s, f) >= 0)
        need(same_part(s, made, ask_write_close(f, part(s.at + f[BARK_CLOSE_PATH_START], f[BARK_CLOSE_PATH_LENGTH]), made)),
             "what was read is written as another Forward Close");
}

static void test_read_reply(void)
{
    size_t f[BARK_REPLY];
    ask_read_reply(subject(REPLY, false, 0, true), f);
}

static void test_is_routing_error(void)
{
    static const uint16_t words[10] = {0x0204, 0x0311, 0x0312, 0x0315, 0x0203, 0x0205, 0x0310, 0x0313, 0x0314, 0x0316};
    uint8_t general = take(), b = take();
    uint16_t word = b < 224 ? words[b / 2 % 10] : take16();
    struct call c = {.n = {general < 224 ? general % 6 : general, b & 1, word}};
    ask(F_is_routing_error, c, law_is_routing_error(c.n[0], b & 1, word), NULL);
}

/* A reply that was read is written again as it stood, but for what a reader passes over: that is 0, or not there. */
static void test_read_forward_reply(bool open)
{
    size_t f[BARK_OPENED], size, record = open ? 26 : 10;
    bool routing = take() & 1;
    struct part s = subject(open ? OPEN_REPLY : CLOSE_REPLY, false, 0, true);
    int64_t read = ask_read_forward_reply(open, routing, s, f);
    static uint8_t plain[600];
    if (read < 0)
        return;
    memset(plain, 0, 4);
    plain[0] = s.at[0];
    if (f[BARK_FORWARD_SUCCESS]) {
        size_t app_data = f[read - 2], length = f[read - 1];
        memcpy(plain + 4, s.at + f[BARK_REPLY_DATA_START], record + length);
        plain[4 + record - 1] = 0;
        need(app_data == f[BARK_REPLY_DATA_START] + record && app_data + length <= s.n, "application data outside");
        size = ask_write_success(open, f, part(s.at + app_data, length), made);
        need(size == 4 + record + length && same(made, plain, size), "what was read is written as another reply");
    } else {
        size_t length = f[BARK_REPLY_DATA_START] + (routing ? 9 : 8);
        memcpy(plain, s.at, length);
        plain[1] = 0;
        size = ask_write_failure(f, made);
        need(size == length && same(made, plain, size), "what was read is written as another failure");
    }
}

static void test_write_success(bool open)
{
    size_t f[BARK_OPENED] = {0}, back[BARK_OPENED];
    size_t k, numbers = open ? BARK_OPENED : BARK_CLOSED;
    struct part app_data;
    int64_t size;
    f[BARK_REPLY_SERVICE] = take();
    f[BARK_FORWARD_SUCCESS] = 1;
    f[BARK_FORWARD_SERIAL] = take16();
    f[BARK_FORWARD_VENDOR] = take16();
    f[BARK_FORWARD_ORIGINATOR] = take32();
    for (k = 10; open && k < BARK_OPENED_APP_DATA_START; k++)
        f[k] = take32();
    app_data = data(0);
    size = ask_write_success(open, f, app_data, made);
    if (size < 0)
        return;
    f[BARK_REPLY_DATA_START] = 4;
    f[BARK_REPLY_DATA_LENGTH] = size - 4;
    f[numbers - 2] = size - app_data.n;
    f[numbers - 1] = app_data.n;
    need(ask_read_forward_reply(open, take() & 1, part(made, size), back) == (int64_t)numbers && same(f, back, numbers * sizeof *f) &&
             same_part(app_data, made + back[numbers - 2], back[numbers - 1]),
         "a success reads back as another");
}

static void test_write_failure(void)
{
    size_t f[BARK_FAILURE] = {0}, back[BARK_FAILURE];
    uint8_t b = take();
    int64_t size;
    f[BARK_REPLY_SERVICE] = take();
    f[BARK_REPLY_GENERAL] = b < 224 ? b % 8 : b;
    b = take();
    f[BARK_REPLY_WORDS] = b & 1;
    f[BARK_REPLY_WORD] = take16();
    f[BARK_FORWARD_SERIAL] = take16();
    f[BARK_FORWARD_VENDOR] = take16();
    f[BARK_FORWARD_ORIGINATOR] = take32();
    f[BARK_FAILURE_HAS_REMAINING] = b >> 1 & 1;
    f[BARK_FAILURE_REMAINING] = take();
    size = ask_write_failure(f, made);
    if (size < 0)
        return;
    f[BARK_REPLY_WORD] *= b & 1;
    f[BARK_REPLY_DATA_START] = b & 1 ? 6 : 4;
    f[BARK_REPLY_DATA_LENGTH] = b & 2 ? 9 : 8;
    f[BARK_FAILURE_REMAINING] *= b >> 1 & 1;
    need(ask_read_forward_reply(b >> 2 & 1, b >> 1 & 1, part(made, size), back) == BARK_FAILURE && same(f, back, sizeof f),
         "a failure reads back as another");
}

static void test_read_envelope(void)
{
    size_t f[BARK_ENVELOPE_NUMBERS];
    struct part s = subject(ENVELOPE, false, 0, true);
    if (ask_read_envelope(s, f) >= 0)
        need(f[BARK_ENVELOPE_DATA_START] + f[BARK_ENVELOPE_DATA_LENGTH] == s.n, "data that does not end the envelope");
}

/* The next item to look at: every one of a few, some of many */
static size_t next_item(size_t k, size_t count)
{
    return count <= 9 || k < 2 || k + 2 >= count ? k + 1 : k + 1 + (count - 4) / 3;
}

/* An item, asked for in every way: where it lies */
static void item_of(struct part s, size_t count, size_t k, size_t *f)
{
    size_t back[BARK_REPLY];
    need(ask_body_item(s, k, f) == BARK_ITEM, "an item that is not there");
    need(ask_walk_item(s, count, k, back) == BARK_ITEM && same(f, back, BARK_ITEM * sizeof *f), "a walk finds another item");
    need(f[BARK_ITEM_START] >= 2 + 2 * count && f[BARK_ITEM_LENGTH] > 0 && f[BARK_ITEM_START] + f[BARK_ITEM_LENGTH] <= s.n, "an item outside");
}

static size_t lengths[MOST_ITEMS];

static void test_write_body(void)
{
    static uint8_t bytes[MOST];
    struct pile items = {bytes, 0, MOST};
    size_t f[BARK_ITEM], k, at, count, total = 0;
    uint8_t b = take(), c = take();
    int64_t size;
    if (c >= 252) {
        size_t each = 1 + c % 4;
        count = (BARK_MAX_RECORD - 2) / (2 + each) + b % 4 - 2;
        for (k = 0; k < count; k++)
            lengths[k] = each;
        lengths[count / 2] += b / 4 % 8;
        total = count * each + b / 4 % 8;
    } else {
        count = c % 8;
        for (k = 0; k < count; k++) {
            lengths[k] = c >= 248 ? some(2 + 2 * count + total) : 1u + take() % 12;
            total += lengths[k];
        }
    }
    total += b / 32 % 4; /* bytes behind the last */
    if (count > 0 && b >= 192) {
        static const size_t wrong[8] = {0, 0, 1, MOST, 65536, (size_t)1 << 32, (size_t)1 << 63, SIZE_MAX};
        uint8_t w = take();
        if (w >= 128)
            total -= w % 8 < total ? w % 8 : total;
        else
            lengths[w / 8 % count] = wrong[w % 8];
    }
    if (total > MOST)
        total = MOST;
    add_some(&items, total);
    size = ask_write_body(part(items.at, items.n), lengths, count, made);
    if (size < 0)
        return;
    need(ask_read_body(part(made, size)) == (int64_t)count, "a written body has other items");
    for (k = at = 0; k < count; k = next_item(k, count)) {
        for (at = total = 0; total < k; total++)
            at += lengths[total];
        item_of(part(made, size), count, k, f);
        need(same_part(part(items.at + at, lengths[k]), made + f[BARK_ITEM_START], f[BARK_ITEM_LENGTH]), "an item reads back as another");
    }
}

static void test_read_body(void)
{
    uint8_t b = take();
    struct part s = subject(b & 1 ? REPLIES : BODY, false, 0, true);
    size_t f[BARK_ITEM], k;
    int64_t n = ask_read_body(s);
    ask_body_item(s, b, f);
    if (n < 0)
        return;
    for (k = 0; k < (size_t)n; k++) {
        law_walk_item(s.at, s.n, n, k, f);
        lengths[k] = f[BARK_ITEM_LENGTH];
    }
    for (k = 0; k < (size_t)n; k = next_item(k, n))
        item_of(s, n, k, f);
    need(ask_body_item(s, n, f) == -BARK_OUTSIDE, "an item past the last");
    need(same_part(s, made, ask_write_body(part(s.at + 2 + 2 * n, s.n - 2 - 2 * n), lengths, n, made)), "what was read is written as another body");
}

/* A number of items or an index: a number, one near it, a small one or a large one */
static size_t any_number(uint8_t b, size_t n)
{
    static const size_t far[8] = {32766, 32767, 32768, 65535, 65536, (size_t)1 << 63, ((size_t)1 << 63) - 1, SIZE_MAX};
    return b < 96 ? n : b < 160 ? n + b % 4 - 1 : b < 224 ? b % 8 : far[b % 8];
}

static void test_items(enum function function)
{
    uint8_t a = take(), b = take();
    struct part s = subject(REPLIES, false, 0, true);
    size_t f[BARK_REPLY], back[BARK_REPLY], size = BARK_ITEM;
    int64_t one, other, n = law_read_body(s.at, s.n);
    size_t count = any_number(a, n < 0 ? 3 : n), index = b < 64 ? any_number(b * 4, count) : count == 0 ? 0 : b % count;
    if (function == F_body_item || function == F_walk_item) {
        one = ask_body_item(s, index, f);
        other = ask_walk_item(s, count, index, back);
    } else {
        one = ask_reply_item(s, index, f);
        other = ask_walk_reply(s, count, index, back);
        size = BARK_REPLY;
    }
    if (n >= 0 && count == (size_t)n)
        need(one == other && (one < 0 || same(f, back, size * sizeof *f)), "a walk answers otherwise");
    if (other >= 0)
        need(back[size - 2] >= 2 + 2 * count && back[size - 2] + back[size - 1] <= s.n, "a walk finds a part that is not behind the table");
}

/* All replies in one call are those that are asked for one by one. */
static void test_read_replies(void)
{
    static size_t rows[MOST_ITEMS * BARK_REPLY_ROW];
    size_t k, f[BARK_REPLY];
    struct part s = subject(REPLIES, false, 0, true);
    int64_t n = ask_read_replies(s, rows);
    need(ask_read_body(s) == n, "another number of replies than of items");
    for (k = 0; (int64_t)k < n; k = next_item(k, n)) {
        const size_t *row = rows + k * BARK_REPLY_ROW;
        int64_t one = ask_reply_item(s, k, f);
        need(one < 0 ? row[BARK_REPLY_ROW_REFUSED] == (size_t)-one : row[BARK_REPLY_ROW_REFUSED] == 0, "a row's refusal is another");
        need(one < 0 || same(f, row + BARK_REPLY_ROW_REPLY, sizeof f), "a row's reply is another");
    }
}

/* A joined body has the items of both. */
static void test_join(void)
{
    struct part a = subject(BODY, false, 0, false), b = subject(BODY, false, 1, true);
    size_t f[BARK_ITEM], g[BARK_ITEM], k, first, second;
    int64_t size = ask_join(a, b, made);
    if (size < 0)
        return;
    first = ask_read_body(a);
    second = ask_read_body(b);
    need(ask_read_body(part(made, size)) == (int64_t)(first + second), "a joined body has other items");
    for (k = 0; k < first + second; k = next_item(k, first + second)) {
        struct part s = k < first ? a : b;
        item_of(part(made, size), first + second, k, f);
        item_of(s, k < first ? first : second, k < first ? k : k - first, g);
        need(same_part(part(s.at + g[BARK_ITEM_START], g[BARK_ITEM_LENGTH]), made + f[BARK_ITEM_START], f[BARK_ITEM_LENGTH]),
             "an item of a joined body is another");
    }
}

static void test_nested(void)
{
    static uint16_t rows[BARK_MAX_ROWS * BARK_ROW];
    size_t f[BARK_MESSAGE];
    struct part s = subject(MESSAGE, true, 0, true);
    if (ask_nested(s, rows) >= 0)
        need(ask_read_message(s, f) == BARK_MESSAGE && rows[BARK_ROW_DEPTH] == 0 && rows[BARK_ROW_SERVICE] == f[BARK_MESSAGE_SERVICE] &&
                 rows[BARK_ROW_PATH_BYTES] == f[BARK_MESSAGE_PATH_LENGTH] && rows[BARK_ROW_DATA_BYTES] == f[BARK_MESSAGE_DATA_LENGTH],
             "the first row is not the message's");
}

/* A frame, its data of no bytes, few, some hundreds or nearly the most: how long it is. */
static size_t make_frame(struct pile *h)
{
    uint8_t b = take();
    size_t n = b >= 253 ? 65533u + b % 3 : b >= 224 ? 200u + take() : b % 24u;
    add_some(h, 2);
    add(h, n, 2);
    add_some(h, BARK_FRAME_HEADER - 4);
    add_some(h, n);
    return BARK_FRAME_HEADER + n;
}

static uint8_t stream[2 * MOST], frame_buffer[MOST];

/* One call, of any state: mostly one that calls leave. The buffer then has the frame's first bytes, or now and then others. */
static void test_scrap(void)
{
    static const size_t edges[16] = {0,     1,     2,     22,    23,    24,              25,              48,
                                     65535, 65558, 65559, 65560, 65561, (size_t)1 << 32, (size_t)1 << 63, SIZE_MAX};
    struct pile h = {stream, 0, sizeof stream};
    uint8_t b = take(), c = take();
    size_t length = make_frame(&h), held = b & 1 ? take() % BARK_FRAME_HEADER : c & 1 ? length - 1 - take() % length : take16() % length;
    size_t state[BARK_FRAME_STATE] = {held, held < BARK_FRAME_HEADER ? 0 : length, held < BARK_FRAME_HEADER && (b & 0x0E) == 0};
    size_t frame = take(), n, room = near(rooms & 0x20 ? length : held > 24 ? held : 24, rooms % 16);
    add_some(&h, BARK_FRAME_HEADER + 60);
    /* up to the header's end, up to the frame's, or any */
    n = near((b & 0x10) && held < BARK_FRAME_HEADER ? BARK_FRAME_HEADER - held : length - held, c / 2 % 16);
    if (b & 0x20)
        n = take();
    if (n > h.n - held)
        n = h.n - held;
    if (room > MOST)
        room = MOST;
    put_all(frame_buffer, noise + salt, room);
    if (b >= 32)
        put_all(frame_buffer, stream, held < room ? held : room);
    if (c >= 224)
        state[c % BARK_FRAME_STATE] = edges[take() % 16];
    if (c >= 252)
        state[BARK_FRAME_HELD] = edges[take() % 16];
    ask_take_scrap(state, frame_buffer, room, part(stream + held, n), &frame);
}

/* A stream, cut at drawn places and driven call by call from a reset. What each call has to give is taken from the stream alone. */
static void test_stream(void)
{
    static const uint8_t cuts[8] = {1, 2, 3, 7, 23, 24, 25, 49};
    struct pile h = {stream, 0, MOST};
    uint8_t b = take(), c = take();
    size_t state[BARK_FRAME_STATE] = {b, c, 2}, longest = 0, at = 0, begin = 0, frame = 7, k, room, least;
    for (k = c % 8; k > 0; k--) {
        size_t length = make_frame(&h);
        if (length > longest)
            longest = length;
    }
    add_some(&h, b % 64); /* most often a frame that does not end */
    room = near(longest > 24 ? longest : 24, rooms % 16);
    if (room > MOST)
        room = MOST;
    least = h.n < 512 && room < 512 ? 0 : (room > h.n ? room : h.n) / 16; /* long ones in few pieces */
    put_all(frame_buffer, noise + salt, room);
    bark_reset_frames(state);
    while (at < h.n) {
        size_t cut = c < 128 ? cuts[c / 8 % 8] : take() % 64;
        int64_t got, want;
        if (cut < least)
            cut += least;
        if (cut > h.n - at)
            cut = h.n - at;
        want = room < BARK_FRAME_HEADER ? -BARK_ROOM : law_frame(stream + begin, at + cut - begin, room);
        got = ask_take_scrap(state, frame_buffer, room, part(stream + at, cut), &frame);
        if (want < 0) {
            need(got == want, "a frame too long is taken");
            need(ask_take_scrap(state, frame_buffer, room, part(stream + at, cut / 2), &frame) == want, "once refused, and then taken");
            bark_reset_frames(state);
            begin = at += cut + 1; /* another stream, for all that a collector knows */
        } else if (want > 0) {
            need(got == (int64_t)(begin + want - at) && frame == (size_t)want && same(frame_buffer, stream + begin, want), "another frame");
            need(state[BARK_FRAME_HELD] == 0 && state[BARK_FRAME_LENGTH] == 0, "a frame does not leave the state as a reset does");
            begin = at += got;
        } else {
            need(got == (int64_t)cut && frame == 0, "a scrap is not taken whole");
            at += cut;
            need(state[BARK_FRAME_HELD] == at - begin && same(frame_buffer, stream + begin, at - begin), "other bytes are kept");
        }
    }
}

static void test(enum function f)
{
    switch (f) {
    case F_path_size:
    case F_write_path:
        test_write_path();
        break;
    case F_check_path:
    case F_read_path:
        test_read_path();
        break;
    case F_write_message:
        test_write_message();
        break;
    case F_read_message:
        test_read_message();
        break;
    case F_write_unconnected_send:
        test_write_send();
        break;
    case F_read_unconnected_send:
        test_read_send();
        break;
    case F_encode_parameters:
        test_encode_parameters();
        break;
    case F_decode_parameters:
        test_decode_parameters();
        break;
    case F_encode_transport:
        test_encode_transport();
        break;
    case F_decode_transport:
        test_decode_transport();
        break;
    case F_write_forward_open:
    case F_write_open:
        test_write_open(f);
        break;
    case F_read_forward_open:
        test_read_open();
        break;
    case F_default_forward_open:
        test_default_open();
        break;
    case F_write_forward_close:
        test_write_close();
        break;
    case F_read_forward_close:
        test_read_close();
        break;
    case F_read_reply:
        test_read_reply();
        break;
    case F_is_routing_error:
        test_is_routing_error();
        break;
    case F_read_forward_open_reply:
    case F_read_forward_close_reply:
        test_read_forward_reply(f == F_read_forward_open_reply);
        break;
    case F_write_forward_open_success:
    case F_write_forward_close_success:
        test_write_success(f == F_write_forward_open_success);
        break;
    case F_write_forward_failure:
        test_write_failure();
        break;
    case F_read_envelope:
        test_read_envelope();
        break;
    case F_write_body:
        test_write_body();
        break;
    case F_read_body:
        test_read_body();
        break;
    case F_body_item:
    case F_walk_item:
    case F_reply_item:
    case F_walk_reply:
        test_items(f);
        break;
    case F_read_replies:
        test_read_replies();
        break;
    case F_join_bodies:
        test_join();
        break;
    case F_read_nested:
        test_nested();
        break;
    case F_take_scrap:
        if (take() & 1)
            test_scrap();
        else
            test_stream();
        break;
    case COUNT:
        break;
    }
}

/* How often each function was called, and what it answered */
static void show_tally(void)
{
    size_t f, r;
    fprintf(stderr, "%-33s%12s%12s%s\n", "calls", "in all", "accepted", "  refused: number x times");
    for (f = 0; f < COUNT; f++) {
        uint64_t all = 0;
        for (r = 0; r < 12; r++)
            all += tally->calls[f][r];
        fprintf(stderr, "%-33s%12llu%12llu ", functions[f].name, (unsigned long long)all, (unsigned long long)tally->calls[f][0]);
        for (r = 1; r < 12; r++)
            if (tally->calls[f][r] > 0)
                fprintf(stderr, " %zux%llu", r, (unsigned long long)tally->calls[f][r]);
        fprintf(stderr, "\n");
    }
}

int LLVMFuzzerInitialize(int *argc, char ***argv);
int LLVMFuzzerTestOneInput(const uint8_t *s, size_t n);

int LLVMFuzzerInitialize(int *argc, char ***argv)
{
    (void)argc;
    (void)argv;
    set_up();
    atexit(show_tally);
    return 0;
}

int LLVMFuzzerTestOneInput(const uint8_t *s, size_t n)
{
    enum function f;
    input = s;
    left = n;
    tail = n;
    f = take() % COUNT;
    rooms = take();
    salt = take();
    test(f);
    return 0;
}

#ifdef STANDALONE
#include "standalone.h"
#endif
