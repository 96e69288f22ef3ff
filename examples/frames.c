/* Frames from a pipe: reads a stream of encapsulation frames from standard input, in whatever pieces read() gives, and prints a line for each.
 *
 *   frames            reads what there is, up to 4,096 bytes at a time
 *   frames BYTES      reads at most so many at a time: the lines are the same
 *
 * The last line is OK, and the exit status 0, where the stream ended behind a frame. In every other case it is TRIP, and 1.
 */
#define _POSIX_C_SOURCE 200809L /* for read() */
#include "barkcushion.h"

#include <errno.h>
#include <stdio.h>
#include <stdlib.h>
#include <unistd.h>

enum {
    BUFFER = 2048, /* bytes of the longest frame that is taken; BARK_MAX_FRAME would take every one */
    SCRAP = 4096,
    SHOWN = 8 /* bytes of data that are printed */
};

static void print_frame(const uint8_t *frame, size_t length)
{
    const size_t data = length - BARK_FRAME_HEADER;
    printf("command %02X%02X, %zu bytes of data", frame[1], frame[0], data);
    for (size_t i = 0; i < data && i < SHOWN; i++)
        printf("%s %02X", i == 0 ? ":" : "", frame[BARK_FRAME_HEADER + i]);
    printf("%s\n", data > SHOWN ? " ..." : "");
}

/* Takes all of a scrap, frame by frame: whether none was refused. */
static bool take(size_t *state, uint8_t *buffer, const uint8_t *scrap, size_t left)
{
    while (left > 0) {
        size_t frame = 0;
        const int64_t taken = bark_take_scrap(state, buffer, BUFFER, scrap, left, &frame);
        if (taken < 0) {
            /* Where the next frame begins is not known now: a driver would close the connection, and reset the state for another. */
            printf("refused %d, %s\n", (int)-taken, taken == -BARK_ROOM ? "ROOM, a frame too long for the buffer" : "OUTSIDE, no such state");
            return false;
        }
        if (frame > 0)
            print_frame(buffer, frame);
        /* What is left behind a frame is given again. */
        scrap += taken;
        left -= (size_t)taken;
    }
    return true;
}

static bool run(size_t most)
{
    /* The collector's, from the first scrap to the last: nothing else writes to them. */
    size_t state[BARK_FRAME_STATE];
    uint8_t buffer[BUFFER];
    uint8_t scrap[SCRAP];
    bark_reset_frames(state);
    for (;;) {
        const ssize_t got = read(STDIN_FILENO, scrap, most);
        if (got < 0 && errno == EINTR)
            continue;
        if (got < 0) {
            perror("standard input");
            return false;
        }
        if (got == 0)
            break;
        if (!take(state, buffer, scrap, (size_t)got))
            return false;
    }
    if (state[BARK_FRAME_HELD] > 0)
        printf("the stream ends in a frame, behind %zu of its bytes\n", state[BARK_FRAME_HELD]);
    return state[BARK_FRAME_HELD] == 0;
}

int main(int argc, char **argv)
{
    const long most = argc > 1 ? strtol(argv[1], NULL, 10) : SCRAP;
    if (argc > 2 || most < 1 || most > SCRAP) {
        fprintf(stderr, "frames [BYTES], 1 to %d of them at a time\n", (int)SCRAP);
        return 2;
    }
    const bool good = run((size_t)most);
    printf("%s\n", good ? "OK" : "TRIP");
    /* What could not be printed is no OK. */
    return good && fflush(stdout) == 0 && !ferror(stdout) ? 0 : 1;
}
