/* Calls each function of complex_book.h, compiled as C and as C++: an event is
 * written, judged and read again, and each answer of the header is met. */
#include "complex_book.h"

#include <stdio.h>
#include <string.h>

static int failures;

static void check(const char *what, uint32_t answer, uint32_t wanted) {
    if (answer != wanted) {
        printf("codec: %s: %u instead of %u\n", what, (unsigned)answer, (unsigned)wanted);
        failures++;
    }
}

/* An event, and its frame: the one is written as the other, and read as it was. */
static void both_ways(const char *what, const uint32_t *event, const uint8_t *frame,
                      uint32_t length) {
    uint8_t space[COMPLEX_BOOK_LONGEST];
    uint32_t values[COMPLEX_BOOK_NUMBERS];

    check(what, complex_book_write(event, COMPLEX_BOOK_NUMBERS, space, sizeof space), length);
    check(what, memcmp(space, frame, length) == 0, 1);
    check(what, complex_book_judge(frame, length), 0);
    check(what, complex_book_judge(frame, length - 1), 2);
    check(what, complex_book_read(frame, length, values, COMPLEX_BOOK_NUMBERS), 0);
    check(what, memcmp(values, event, sizeof values) == 0, 1);
}

/* Kinds 9 and 10. That a national bid is above its offer is for the book to refuse. */
static void national(void) {
    const uint32_t prices[COMPLEX_BOOK_NUMBERS] = {COMPLEX_BOOK_NATIONAL_PRICES, 31, 295, 310};
    const uint8_t prices_frame[13] = {13, 0, 9, 0, 31, 0x27, 1, 0, 0, 0x36, 1, 0, 0};
    const uint32_t missing[COMPLEX_BOOK_NUMBERS] = {COMPLEX_BOOK_NATIONAL_PRICES, 0, 99999, 0};
    const uint8_t missing_frame[13] = {13, 0, 9, 0, 0, 0x9f, 0x86, 1, 0, 0, 0, 0, 0};
    const uint32_t crossed[COMPLEX_BOOK_NUMBERS] = {COMPLEX_BOOK_NATIONAL_PRICES, 0, 310, 295};
    const uint8_t crossed_frame[13] = {13, 0, 9, 0, 0, 0x36, 1, 0, 0, 0x27, 1, 0, 0};
    const uint32_t range[COMPLEX_BOOK_NUMBERS] = {COMPLEX_BOOK_EXECUTION_RANGE, 9999};
    const uint8_t range_frame[6] = {6, 0, 10, 0, 0x0f, 0x27};
    const uint32_t high[COMPLEX_BOOK_NUMBERS] = {COMPLEX_BOOK_EXECUTION_RANGE, 10000};
    uint8_t space[COMPLEX_BOOK_LONGEST];

    both_ways("national prices", prices, prices_frame, 13);
    both_ways("a missing national price", missing, missing_frame, 13);
    both_ways("a national bid above its offer", crossed, crossed_frame, 13);
    both_ways("execution range", range, range_frame, 6);
    check("range 10,000", complex_book_write(high, COMPLEX_BOOK_NUMBERS, space, sizeof space), 3);
}

/* Kind 11. Whether its strategy is defined is for the book to say. */
static void specialist(void) {
    const uint32_t named[COMPLEX_BOOK_NUMBERS] = {COMPLEX_BOOK_SPECIALIST, 258, 3, 40};
    const uint8_t named_frame[8] = {8, 0, 11, 0, 2, 1, 3, 40};
    const uint32_t most[COMPLEX_BOOK_NUMBERS] = {COMPLEX_BOOK_SPECIALIST, 65535, 15, 100};
    const uint8_t most_frame[8] = {8, 0, 11, 0, 255, 255, 15, 100};
    const uint32_t member[COMPLEX_BOOK_NUMBERS] = {COMPLEX_BOOK_SPECIALIST, 0, 3, 40};
    const uint32_t strategy[COMPLEX_BOOK_NUMBERS] = {COMPLEX_BOOK_SPECIALIST, 258, 16, 40};
    const uint32_t high[COMPLEX_BOOK_NUMBERS] = {COMPLEX_BOOK_SPECIALIST, 258, 3, 101};
    const uint32_t wide[COMPLEX_BOOK_NUMBERS] = {COMPLEX_BOOK_SPECIALIST, 258, 3, 256 + 40};
    const uint32_t unknown[COMPLEX_BOOK_NUMBERS] = {12, 258, 3, 40};
    uint8_t space[COMPLEX_BOOK_LONGEST];

    both_ways("specialist", named, named_frame, 8);
    both_ways("the highest specialist", most, most_frame, 8);
    check("member 0", complex_book_write(member, COMPLEX_BOOK_NUMBERS, space, 8), 3);
    check("strategy 16", complex_book_write(strategy, COMPLEX_BOOK_NUMBERS, space, 8), 3);
    check("101 per cent", complex_book_write(high, COMPLEX_BOOK_NUMBERS, space, 8), 3);
    check("296 per cent", complex_book_write(wide, COMPLEX_BOOK_NUMBERS, space, 8), 3);
    check("a space of 7", complex_book_write(named, COMPLEX_BOOK_NUMBERS, space, 7), 1);
    check("kind 12", complex_book_write(unknown, COMPLEX_BOOK_NUMBERS, space, sizeof space), 3);
}

int main(void) {
    /* a sweep: member 3 sells 10 of strategy 0 at -5 */
    const uint32_t sweep[COMPLEX_BOOK_NUMBERS] = {COMPLEX_BOOK_SWEEP, 3, 0, 1, 10, 10000000 - 5};
    const uint8_t frame[14] = {14, 0, 3, 0, 3, 0, 0, 1, 10, 0, 0xfb, 0xff, 0xff, 0xff};
    uint8_t space[COMPLEX_BOOK_LONGEST + 1];
    uint32_t values[COMPLEX_BOOK_NUMBERS + 1];

    memset(space, 0xee, sizeof space);
    check("write", complex_book_write(sweep, COMPLEX_BOOK_NUMBERS, space, sizeof space), 14);
    check("the frame", memcmp(space, frame, sizeof frame) == 0, 1);
    check("the space past it", space[14], 0xee);
    check("judge", complex_book_judge(space, 14), 0);
    memset(values, 0xee, sizeof values);
    check("read", complex_book_read(space, 14, values, COMPLEX_BOOK_NUMBERS + 1), 0);
    check("the values", memcmp(values, sweep, sizeof sweep) == 0, 1);
    check("the value past them", values[COMPLEX_BOOK_NUMBERS], 0xeeeeeeeeu);

    check("write, a short space", complex_book_write(sweep, COMPLEX_BOOK_NUMBERS, space, 13), 1);
    check("write, few values", complex_book_write(sweep, 19, space, sizeof space), 3);
    check("read, few values", complex_book_read(frame, 14, values, 19), 1);
    check("read, a short frame", complex_book_read(frame, 13, values, COMPLEX_BOOK_NUMBERS), 2);
    check("judge, a short frame", complex_book_judge(frame, 13), 2);
    space[7] = 2; /* the side */
    check("judge, a side of 2", complex_book_judge(space, 14), 3);
    check("read, a side of 2", complex_book_read(space, 14, values, COMPLEX_BOOK_NUMBERS), 3);
    national();
    specialist();
    return failures == 0 ? 0 : 1;
}
