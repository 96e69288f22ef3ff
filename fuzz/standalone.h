/* A main without a fuzzer's library: asks about COUNT inputs that a generator draws by SEED, or about the inputs in files.
 *     fuzz COUNT [SEED]
 *     fuzz FILE...
 * A child asks; where it dies, the input is kept in the working folder as crash-SEED-NUMBER and another child goes on behind it.
 */
#include <sys/wait.h>
#include <unistd.h>

static uint64_t next_random(uint64_t *state)
{
    uint64_t z = *state += 0x9E3779B97F4A7C15u;
    z = (z ^ z >> 30) * 0xBF58476D1CE4E5B9u;
    z = (z ^ z >> 27) * 0x94D049BB133111EBu;
    return z ^ z >> 31;
}

/* The input with this number: every function in turn; half of its bytes, or none, are ones that mean something. */
static size_t draw(uint64_t seed, uint64_t number, uint8_t *to)
{
    static const uint8_t telling[32] = {0x00, 0x01, 0x02, 0x03, 0x04, 0x06, 0x08, 0x0A, 0x0E, 0x0F, 0x10, 0x11, 0x12, 0x1F, 0x20, 0x21,
                                        0x24, 0x25, 0x28, 0x29, 0x2A, 0x30, 0x31, 0x52, 0x7F, 0x80, 0x8E, 0x91, 0xA1, 0xB1, 0xB2, 0xFF};
    uint64_t state = seed * 0x2545F4914F6CDD1Du + number, r = next_random(&state);
    size_t k, n = 3 + (r >> 8) % ((r & 7) == 0 ? 400 : (r & 7) < 3 ? 120 : 40);
    bool plain = r >> 16 & 1;
    for (k = 0; k < n; k += 4) {
        size_t j;
        r = next_random(&state);
        for (j = 0; j < 4; j++, r >>= 16)
            to[k + j] = plain || (r & 0x100) ? r : telling[r & 31];
    }
    to[0] = number % COUNT;
    return n;
}

static int run_files(int count, char **names)
{
    static uint8_t bytes[1 << 20];
    set_up();
    for (; count > 0; count--, names++) {
        FILE *file = fopen(*names, "rb");
        if (!file) {
            perror(*names);
            return 2;
        }
        LLVMFuzzerTestOneInput(bytes, fread(bytes, 1, sizeof bytes, file));
        fclose(file);
    }
    return 0;
}

static void keep(uint64_t seed, uint64_t number)
{
    uint8_t bytes[512];
    char name[64];
    size_t n = draw(seed, number, bytes);
    FILE *file;
    snprintf(name, sizeof name, "crash-%llu-%llu", (unsigned long long)seed, (unsigned long long)number);
    file = fopen(name, "wb");
    if (file) {
        fwrite(bytes, 1, n, file);
        fclose(file);
        fprintf(stderr, "kept as %s\n", name);
    }
}

int main(int argc, char **argv)
{
    uint64_t count, seed;
    char *end = NULL;
    count = argc > 1 ? strtoull(argv[1], &end, 10) : 0;
    if (argc < 2) {
        fprintf(stderr, "fuzz COUNT [SEED], or fuzz FILE...\n");
        return 2;
    }
    if (*end != 0)
        return run_files(argc - 1, argv + 1);
    seed = argc > 2 ? strtoull(argv[2], NULL, 10) : 1;
    tally = mmap(NULL, sizeof *tally, PROT_READ | PROT_WRITE, MAP_SHARED | MAP_ANONYMOUS, -1, 0);
    if (tally == MAP_FAILED)
        return 2;
    while (tally->next < count && tally->crashes < 20) {
        int status = 0;
        pid_t child = fork();
        if (child < 0)
            return 2;
        if (child == 0) {
            uint8_t bytes[512];
            uint64_t asked_now = 0;
            set_up();
            for (; tally->next < count; tally->next++) {
                if (asked_now++ % 65536 == 0)
                    alarm(600); /* one that does not end is a crash too */
                LLVMFuzzerTestOneInput(bytes, draw(seed, tally->next, bytes));
            }
            _exit(0);
        }
        waitpid(child, &status, 0);
        if (status != 0) {
            tally->crashes++;
            keep(seed, tally->next++);
        }
    }
    show_tally();
    printf("%llu executions, %llu crashes\n", (unsigned long long)tally->next, (unsigned long long)tally->crashes);
    return tally->crashes == 0 ? 0 : 1;
}
