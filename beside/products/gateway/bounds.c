/* Calls `complex_book_judge` on frames that begin right after, or end right before, memory
 * that may not be read, and that may not be written. A read outside the frame
 * or any write to it ends this program by a signal. */
#define _DEFAULT_SOURCE

#include "complex_book.h"

#include <stdio.h>
#include <string.h>
#include <sys/mman.h>
#include <unistd.h>

enum { LENGTHS = 800, KINDS = 13 };

static uint8_t *room; /* one page between two that may not be read */
static size_t page;

/* The answer for the frame that stands at `at` in the room. */
static uint32_t judged(uint8_t *at, const uint8_t *frame, size_t length) {
    memset(room, 0xee, page);
    memcpy(at, frame, length);
    if (mprotect(room, page, PROT_READ) != 0)
        return 100;
    uint32_t answer = complex_book_judge(at, length);
    if (mprotect(room, page, PROT_READ | PROT_WRITE) != 0)
        return 100;
    return answer;
}

/* 1 if the answer is wrong or depends on what stands around the frame. */
static int wrong(const uint8_t *frame, size_t length, size_t said) {
    uint32_t first = judged(room, frame, length);
    uint32_t last = judged(room + page - length, frame, length);
    int refused = length < 4 || said != length;
    if (first == last && (first == 2 || (!refused && (first == 0 || first == 3))))
        return 0;
    printf("bounds: length %zu, said %zu, kind %u: %u and %u\n", length, said,
           length > 2 ? frame[2] : 0, first, last);
    return 1;
}

int main(void) {
    page = (size_t)sysconf(_SC_PAGESIZE);
    uint8_t *three = mmap(NULL, 3 * page, PROT_NONE, MAP_PRIVATE | MAP_ANONYMOUS, -1, 0);
    if (three == MAP_FAILED || mprotect(three + page, page, PROT_READ | PROT_WRITE) != 0) {
        perror("bounds");
        return 1;
    }
    room = three + page;
    int failures = 0;
    for (size_t length = 0; length < LENGTHS; length++) {
        for (unsigned kind = 0; kind < KINDS; kind++) {
            for (size_t said = length == 0 ? 0 : length - 1; said <= length + 1; said++) {
                uint8_t frame[LENGTHS] = {0};
                memset(frame, 1, length);
                frame[0] = (uint8_t)said;
                frame[1] = (uint8_t)(said >> 8);
                frame[2] = (uint8_t)kind;
                frame[3] = 0;
                if (kind == 1 && length >= 5) /* the count that the length asks for */
                    frame[4] = (uint8_t)((length - 5) / 3);
                failures += wrong(frame, length, said);
            }
        }
    }
    return failures == 0 ? 0 : 1;
}
