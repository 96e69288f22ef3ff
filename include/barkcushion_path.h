/* Barkcushion's path part, for C: CIP paths, written and read. Link libbarkcushion_path.a, or libbarkcushion.a, which has the rest too.
 *
 * Every function takes every input and answers it. An answer that is 0 or more is a size or a count; one below 0 is a refusal, the number
 * below with a minus sign. A refused call has changed nothing that it was lent. No function allocates, keeps a pointer or has a state.
 *
 * A run or a buffer is a pointer and how many elements it has. The pointer is not NULL, also where there are no elements, and what is lent to
 * be written overlaps nothing else that is lent in the same call.
 */
#ifndef BARKCUSHION_PATH_H
#define BARKCUSHION_PATH_H

#include <stddef.h>
#include <stdint.h>

#ifdef __cplusplus
extern "C" {
#endif

/* ---- refusals: an answer is -BARK_SHORT and so on */

enum bark_refusal {
    BARK_SHORT = 1,     /* the input ends before a byte that the layout needs */
    BARK_ROOM = 2,      /* what is lent to be written is too short */
    BARK_LIMIT = 3,     /* a limit is passed */
    BARK_CODE = 4,      /* unknown segment byte or kind, a reserved code, or general status 0 given to a failure writer */
    BARK_FORM = 5,      /* not the one form: longer than needed, a pad or a reserved bit not zero, odd application data */
    BARK_WORDS = 6,     /* extended status of two words or more */
    BARK_OFFSET = 7,    /* an offset, or an empty item to write, breaks the body rule */
    BARK_LEFTOVER = 8,  /* bytes are left over */
    BARK_DEPTH = 9,     /* a message is nested deeper than 3 */
    BARK_ENVELOPE = 10, /* an envelope that has not two items, or another type */
    BARK_OUTSIDE = 11   /* a start, a length or an index lies outside what was lent; a state that no calls leave */
};

/* ---- segments: four numbers each, at these places */

enum bark_segment {
    BARK_SEGMENT_KIND = 0,   /* enum bark_kind */
    BARK_SEGMENT_NUMBER = 1, /* class, instance, attribute, element or port; of a symbol not used, and 0 when read */
    BARK_SEGMENT_START = 2,  /* where in the pool a symbol's or a link's bytes start; else not used, and 0 when read */
    BARK_SEGMENT_LENGTH = 3, /* how many there are; as above */
    BARK_SEGMENT = 4         /* numbers of a segment */
};

enum bark_kind {
    BARK_SYMBOL = 0,
    BARK_CLASS = 1,     /* number up to 65,535 */
    BARK_INSTANCE = 2,  /* the same */
    BARK_ATTRIBUTE = 3, /* the same */
    BARK_ELEMENT = 4,   /* number up to 4,294,967,295 */
    BARK_PORT = 5       /* number up to 65,535; the link is a part of the pool */
};

enum {
    BARK_MAX_SEGMENTS = 127, /* segments of a list */
    BARK_MAX_SYMBOL = 255,   /* bytes of a symbol */
    BARK_MAX_LINK = 254      /* bytes of a link */
};

/* How many bytes the path of these segments takes. count is of numbers, 4 for each segment; those behind the last whole segment are not used.
 * Refused: LIMIT more than 127 segments; then, segment by segment, CODE unknown kind, LIMIT a number that the kind can't hold, OUTSIDE a part
 * outside the pool, LIMIT a symbol or a link too long. */
int64_t bark_path_size(const uint32_t *segments, size_t count, const uint8_t *pool, size_t pool_len);

/* Writes the path of these segments at the front of out: how many bytes. Refused: as bark_path_size, then ROOM. */
int64_t bark_write_path(const uint32_t *segments, size_t count, const uint8_t *pool, size_t pool_len, uint8_t *out, size_t out_len);

/* How many segments a path has, judged strictly: what is accepted is what bark_write_path makes. Refused: SHORT, LIMIT, CODE, FORM. */
int64_t bark_check_path(const uint8_t *path, size_t path_len);

/* Reads a path's segments, four numbers each, with path as their pool: how many segments. Refused: as bark_check_path, then ROOM where count,
 * of numbers, is less than 4 for each segment. */
int64_t bark_read_path(const uint8_t *path, size_t path_len, uint32_t *segments, size_t count);

#ifdef __cplusplus
}
#endif

#endif
