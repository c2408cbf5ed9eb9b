/* The judge, the reader and the writer of frames, for C and C++. The proved
 * library has them: `rt lib` in crates/exports_c builds it, and ./play and ./test put it
 * at target/staticlib/libexports.a.
 *
 * Every function: a pointer with its length describes memory that may be read,
 * or written where it is not const; it is not null, even where the length is 0.
 * Any bytes, numbers and lengths are allowed. Nothing outside that memory is
 * read or written, and nothing is kept between calls, so several threads may
 * call at once with memory of their own. */
#ifndef COMPLEX_BOOK_H
#define COMPLEX_BOOK_H

#include <stddef.h>
#include <stdint.h>

#ifdef __cplusplus
extern "C" {
#endif

/* How many numbers an event is: its kind (1 to 11), then its 19 values. The
 * values are the fields in frame order; in the place of a limit stands the limit
 * and 10,000,000 more; the values past the fields are 0 where they are read, and
 * are not looked at where they are written, but for the legs of a strategy. */
#define COMPLEX_BOOK_NUMBERS 20

/* The kinds: the length of the frame, and the values. */
#define COMPLEX_BOOK_STRATEGY 1         /* 5 + 3 x count: count; series, side, ratio a leg */
#define COMPLEX_BOOK_COMPLEX_ORDER 2    /* 16: member, strategy, side, class, life, units, limit */
#define COMPLEX_BOOK_SWEEP 3            /* 14: member, strategy, side, units, limit */
#define COMPLEX_BOOK_LEG_ORDER 4        /* 14: member, series, side, contracts, price */
#define COMPLEX_BOOK_CANCEL 5           /* 10: member, order number */
#define COMPLEX_BOOK_SERIES 6           /* 6: series, state */
#define COMPLEX_BOOK_CLOCK 7            /* 8: milliseconds */
#define COMPLEX_BOOK_DAY_END 8          /* 6: next day's timer */
#define COMPLEX_BOOK_NATIONAL_PRICES 9  /* 13: series, national bid, offer; 0 is a missing one */
#define COMPLEX_BOOK_EXECUTION_RANGE 10 /* 6: range in cents */
#define COMPLEX_BOOK_SPECIALIST 11      /* 8: member, strategy, percentage */

/* The length of the longest frame that is written: a strategy of six legs. */
#define COMPLEX_BOOK_LONGEST 23

/* Whether a frame may be queued:
 *   0  it carries an event, every field in its range;
 *   2  it is under 4 bytes, `length` is not the length in its first two bytes,
 *      its kind is not one of 1 to 11, or its length is wrong for its kind;
 *   3  its length is right and a field is outside its range.
 * There is no other answer. Where both 2 and 3 apply, the answer is 2. Other
 * refusals are the book's: a national bid above its offer is judged 0, and so is
 * the specialist of a strategy that is not defined. */
uint32_t complex_book_judge(const uint8_t *frame, size_t length);

/* Reads a frame into numbers:
 *   0  the first 20 values are now the event's;
 *   1  `count` is under 20;
 *   2, 3  as of the judge.
 * Values past the first 20 stay, and all of them where the answer is not 0. */
uint32_t complex_book_read(const uint8_t *frame, size_t length, uint32_t *values, size_t count);

/* Writes the frame of the event that the first 20 values are. Answers its
 * length, 6 to 23; or
 *   3  `count` is under 20, the kind is not one of 1 to 11, a field is outside its
 *      range, or a leg past a strategy's count is not 0;
 *   1  `length`, that of the space, is under the frame's.
 * The space past the frame stays, and all of it at a refusal. */
uint32_t complex_book_write(const uint32_t *values, size_t count, uint8_t *space, size_t length);

#ifdef __cplusplus
}
#endif

#endif
