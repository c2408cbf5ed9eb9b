/* Reads frames from standard input and prints for each whether it is queued. */
#define _POSIX_C_SOURCE 200809L

#include "complex_book.h"

#include <errno.h>
#include <inttypes.h>
#include <signal.h>
#include <stdbool.h>
#include <stdio.h>
#include <string.h>
#include <unistd.h>

enum {
    SHORTEST = 4,     /* bytes of a length and a kind */
    LONGEST = 65535,  /* the greatest number that two bytes hold */
    SPACE = 2 * 65536 /* bytes held: one unfinished frame and a block */
};

_Static_assert(SPACE >= LONGEST, "the space holds any frame");

static const char USAGE[] =
    "usage: gateway < FRAMES\n"
    "\n"
    "Reads frames from standard input, each beginning with its length in two\n"
    "bytes, little-endian, and prints one line for each, the index from 0:\n"
    "\n"
    "  INDEX queued kind KIND length LENGTH\n"
    "  INDEX refused NUMBER kind KIND length LENGTH\n"
    "  INDEX refused 2\n"
    "\n"
    "Refusal 2 is a wrong length or an unknown kind, 3 a field outside its range.\n"
    "The last form is a length under 4 or past the end of the input; it ends the\n"
    "run. Exit status: 0 the input was judged; 1 a read or a write failed; 2 bad\n"
    "usage.\n";

/* The bytes read and not yet judged are bytes[start] to bytes[end - 1]. */
struct input {
    uint8_t bytes[SPACE];
    size_t start;
    size_t end;
    bool ended;
};

static struct input input;

static unsigned two(const uint8_t *at) { return at[0] | (unsigned)at[1] << 8; }

/* Reads until `count` bytes are held or the input ends. False at an error. */
static bool hold(size_t count) {
    while (input.end - input.start < count && !input.ended) {
        /* What is printed so far goes out before the wait for more input. */
        if (fflush(stdout) != 0)
            return false;
        if (input.start > 0) {
            memmove(input.bytes, input.bytes + input.start, input.end - input.start);
            input.end -= input.start;
            input.start = 0;
        }
        ssize_t got = read(STDIN_FILENO, input.bytes + input.end, SPACE - input.end);
        if (got < 0 && errno == EINTR)
            continue;
        if (got < 0)
            return false;
        if (got == 0)
            input.ended = true;
        input.end += (size_t)got;
    }
    return true;
}

/* Judges every frame of the input. False at an error of reading or writing. */
static bool run(void) {
    for (uint64_t index = 0;; index++) {
        if (!hold(2))
            return false;
        size_t held = input.end - input.start;
        if (held == 0)
            return true;
        size_t length = held < 2 ? 0 : two(input.bytes + input.start);
        if (length >= SHORTEST && !hold(length))
            return false;
        if (length < SHORTEST || length > input.end - input.start)
            return printf("%" PRIu64 " refused 2\n", index) >= 0;
        const uint8_t *frame = input.bytes + input.start;
        uint32_t refusal = complex_book_judge(frame, length);
        int printed = refusal == 0 ? printf("%" PRIu64 " queued", index)
                                   : printf("%" PRIu64 " refused %" PRIu32, index, refusal);
        if (printed < 0 || printf(" kind %u length %zu\n", two(frame + 2), length) < 0)
            return false;
        input.start += length;
    }
}

int main(int count, char **words) {
    /* A closed output is then an error of writing, not the end of the program. */
    signal(SIGPIPE, SIG_IGN);
    bool help = count == 2 && strcmp(words[1], "--help") == 0;
    if (count > 1 && !help) {
        fputs(USAGE, stderr);
        return 2;
    }
    bool done = help ? fputs(USAGE, stdout) >= 0 : run();
    int error = errno;
    if (!done && !ferror(stdout)) {
        fprintf(stderr, "gateway: reading the input: %s\n", strerror(error));
        fflush(stdout);
        return 1;
    }
    if (!done || fclose(stdout) != 0) {
        fprintf(stderr, "gateway: writing the output: %s\n", strerror(done ? errno : error));
        return 1;
    }
    return 0;
}
