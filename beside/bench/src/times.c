/* Times each event of a program that reads frames and answers each before it reads
   on. Put before the C library by LD_PRELOAD, it takes the place of read and write:
   a read of standard input gets one frame, from memory, and what is written to
   standard output is thrown away. An event's time is that from the return of the
   read that hands its frame out to the call of the next read: all that the program
   does for it, with the write of its answer, and without pipes.

   The clock is CLOCK_MONOTONIC. When the input is over, nanoseconds are written to
   the file that the variable TIMES names, as numbers of 8 bytes: first the least
   that lies between two looks at the clock, then the time of each event. If the
   program reads on before it has answered, there is no file. */
#include <stdint.h>
#include <stdio.h>
#include <stdlib.h>
#include <string.h>
#include <sys/mman.h>
#include <sys/stat.h>
#include <sys/syscall.h>
#include <time.h>
#include <unistd.h>

static const unsigned char *frames; /* the whole input */
static size_t size, taken;          /* its bytes, and those handed out */
static uint64_t *times;             /* the clock's own, then one for each event */
static size_t events;
static uint64_t begun;  /* when the last frame was handed out */
static size_t left;     /* bytes of it that are still to be handed out */
static int in_event, answered;

static uint64_t now(void)
{
    struct timespec at;
    clock_gettime(CLOCK_MONOTONIC, &at);
    return (uint64_t)at.tv_sec * 1000000000 + (uint64_t)at.tv_nsec;
}

static void fail(const char *what)
{
    fprintf(stderr, "times: %s\n", what);
    _exit(1);
}

/* The pages are touched here, so that no event waits for them. */
__attribute__((constructor)) static void start(void)
{
    struct stat input;
    if (fstat(STDIN_FILENO, &input) != 0 || !S_ISREG(input.st_mode))
        fail("standard input is no file");
    size = (size_t)input.st_size;
    if (size > 0) {
        void *at = mmap(NULL, size, PROT_READ, MAP_PRIVATE | MAP_POPULATE, STDIN_FILENO, 0);
        if (at == MAP_FAILED)
            fail("the input cannot be mapped");
        frames = at;
    }
    /* A frame that does not end the input has 4 bytes or more. */
    size_t room = (size / 4 + 2) * sizeof *times;
    times = malloc(room);
    if (!times)
        fail("no memory");
    memset(times, 1, room);
    times[0] = UINT64_MAX;
    for (int turn = 0; turn < 10000; turn++) {
        uint64_t first = now();
        uint64_t between = now() - first;
        if (between < times[0])
            times[0] = between;
    }
}

static void tell(void)
{
    const char *name = getenv("TIMES");
    FILE *file = name ? fopen(name, "w") : NULL;
    if (!file)
        fail("the file of the variable TIMES cannot be written");
    size_t written = fwrite(times, sizeof *times, events + 1, file);
    if (fclose(file) != 0 || written != events + 1)
        fail("the file of the variable TIMES cannot be written");
}

/* The bytes of the next frame, by its first two; all that is left where they say
   less than 4 or more than that. */
static size_t next_frame(void)
{
    size_t rest = size - taken;
    if (rest < 4)
        return rest;
    size_t length = (size_t)frames[taken] | (size_t)frames[taken + 1] << 8;
    return length < 4 || length > rest ? rest : length;
}

ssize_t read(int from, void *to, size_t room)
{
    uint64_t called = now();
    if (from != STDIN_FILENO)
        return syscall(SYS_read, from, to, room);
    if (left == 0) {
        if (in_event) {
            if (!answered)
                fail("the program reads on before it has answered");
            times[++events] = called - begun;
        }
        left = next_frame();
        in_event = left > 0;
        answered = 0;
        if (left == 0) {
            tell();
            return 0;
        }
    }
    size_t part = left < room ? left : room;
    memcpy(to, frames + taken, part);
    taken += part;
    left -= part;
    begun = now();
    return (ssize_t)part;
}

ssize_t write(int to, const void *text, size_t length)
{
    if (to != STDOUT_FILENO)
        return syscall(SYS_write, to, text, length);
    answered = 1;
    return (ssize_t)length;
}
