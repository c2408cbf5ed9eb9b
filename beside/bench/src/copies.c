/* Counts the copies that a program makes by memcpy and memmove, by their length.
   Put before the C library by LD_PRELOAD, it takes the place of both. At the
   program's end it writes a line 'LENGTH CALLS' for each length that was copied to
   the file that the variable COPIES names.

   A copy that the compiler writes out in place is no call, and is not counted.

   To be built with -fno-builtin and -fno-tree-loop-distribute-patterns: the loops
   here would become calls of memcpy again. */
#include <stddef.h>
#include <stdio.h>
#include <stdlib.h>

/* Copies of this length or more are counted together, as the last line. */
#define LONGEST 65536
static unsigned long calls[LONGEST + 1];

static void count(size_t length)
{
    calls[length < LONGEST ? length : LONGEST]++;
}

void *memcpy(void *restrict to, const void *restrict from, size_t length)
{
    char *target = to;
    const char *source = from;
    count(length);
    for (size_t at = 0; at < length; at++)
        target[at] = source[at];
    return to;
}

void *memmove(void *to, const void *from, size_t length)
{
    char *target = to;
    const char *source = from;
    count(length);
    if (target < source)
        for (size_t at = 0; at < length; at++)
            target[at] = source[at];
    else
        for (size_t at = length; at > 0; at--)
            target[at - 1] = source[at - 1];
    return to;
}

__attribute__((destructor)) static void tell(void)
{
    const char *name = getenv("COPIES");
    FILE *file = name ? fopen(name, "w") : NULL;
    if (!file) {
        perror("copies: the file of the variable COPIES");
        return;
    }
    for (size_t length = 0; length <= LONGEST; length++)
        if (calls[length])
            fprintf(file, "%zu %lu\n", length, calls[length]);
    if (fclose(file) != 0)
        perror("copies: the file of the variable COPIES");
}
