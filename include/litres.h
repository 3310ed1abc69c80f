/*
 * Litres by second for each fuel grade, over a sliding window, fed out of order.
 *
 * Link libcapi.a, which `rt lib` in crates/capi writes to crates/capi/out. The header is C99, C11 and
 * C++17. The library keeps nothing between calls: everything is in the book, which is the caller's.
 *
 * A tick is one second, a volume is in decilitres. A shape is four numbers:
 *   k, 2 to 20     an interval is 2^k ticks, and so is the longest window
 *   n, 2 to 1024   the buckets of a level; more of them make the sums closer
 *   m, 1 to 24     at most 2^m decilitres are kept for each grade and interval
 *   g, 1 to 8      the grades, which are numbered from 0 to g - 1
 *
 * How exact a sum is. A sum adds up whole buckets, so it is near the true sum and not always equal
 * to it. The true sum is what the accepted deliveries in the window add up to. Where only these
 * calls have written the book since it was made, each given all its words, a sum is off by at most
 * 2(k+1)/(n-k-1) of the true sum if n is above k + 1. With k = 20 and n = 441 that is one tenth.
 * On such a book, whatever n is, a sum is off by at most the limit that litres_ground gives, and
 * the sum of a window of up to n ticks is exact. So is that of a longer one if the accepted
 * deliveries of its grade, from its opening to the end of the interval in which it opens, bear at
 * most n different stamps. With n = 441 these are all windows of up to seven minutes, and every
 * window that opens in a quiet stretch which lasts to the end of its interval.
 *
 * The book is an array of 32-bit words in the processor's byte order. It starts with a head of 8
 * words, which a program may read:
 *   word 0         k
 *   word 1         n
 *   word 2         m
 *   word 3         g
 *   word 4         the clock
 *   words 5 to 7   0
 * A block of words for each grade follows. There is no pointer in the book, so a copy of its words
 * is a book as well: a program may store them, and load them on a processor of the same byte order.
 *
 * A trace is an array of 32-bit words in the processor's byte order. It holds recorded days, which
 * are numbered from 0, and starts with
 *   word 0                 the count of days, 0 to LITRES_MAX_DAYS
 *   words 1 + 2d, 2 + 2d   offset and length of day d, both in words; offsets count from word 0
 * and then has the days, one after another. The first day starts right after the pairs, each other
 * where the one before ends, and no word follows the last. A day may be empty. It is whole records
 * of LITRES_RECORD_WORDS words each:
 *   LITRES_KIND_CLOCK,    clock, 0,      0
 *   LITRES_KIND_DELIVERY, grade, stamp,  volume
 *   LITRES_KIND_QUERY,    grade, window, 0
 * Another kind, or another word than 0 where a 0 stands here, makes the whole trace unsound: it is
 * refused 13. The numbers of a record may be any: a wrong one is refused when the record is run.
 * There is no pointer in a trace.
 *
 * A call gets its words as a pointer and a count: `book` points to `len` words, `trace` to
 * `trace_len`, `answers` to `answers_len`, `first` to `first_len`, `second` to `second_len`, `out`
 * to `out_len`. The caller must meet these conditions for each of them:
 *   - the pointer is aligned for uint32_t and is not null, even where the count is 0;
 *   - all words may be read and, where the pointer is not to const, written;
 *   - no other thread writes any of them during the call, nor reads any that the call may write;
 *   - no other thread uses the variables and the ground that a call writes while it runs;
 *   - words that a call may write, and the variables and grounds that it writes, overlap nothing
 *     else that it is given; words that it only reads may overlap each other.
 * There are no other conditions on them: every length, all words and all numbers get an answer.
 *
 * Every call except litres_words returns 0 if it is accepted, else the number of a refusal. A
 * refused call changes no word of a book, of answers or of an output. If several refusals apply,
 * the call returns the first one in the order that stands with it. LITRES_REFUSALS lists the
 * refusals, and litres_text puts a number into words.
 */
#ifndef LITRES_H
#define LITRES_H

#include <stddef.h>
#include <stdint.h>

/*
 * The version of this header and of the archive that goes with it. As long as MAJOR is 0, MINOR
 * rises with each change that a caller has to follow, such as another layout of the book or other
 * stamps in a window, and PATCH with one that leaves what there was, such as a new call.
 */
#define LITRES_VERSION_MAJOR 0
#define LITRES_VERSION_MINOR 3
#define LITRES_VERSION_PATCH 2
#define LITRES_VERSION "0.3.2"

/* Of grounds: how many numbers one has, the place of each, and the cases. */
#define LITRES_GROUND_LEN 5
#define LITRES_GROUND_SUM 0
#define LITRES_GROUND_LEVEL 1
#define LITRES_GROUND_LIMIT 2
#define LITRES_GROUND_CASE 3
#define LITRES_GROUND_FIRST 4
#define LITRES_CASE_WINDOW_ZERO 0
#define LITRES_CASE_LEVEL_ZERO 1
#define LITRES_CASE_FINER 2

/* Of traces: most days, words of a record, words of its answer, and the kinds of records. */
#define LITRES_MAX_DAYS 64
#define LITRES_RECORD_WORDS 4
#define LITRES_ANSWER_WORDS 2
#define LITRES_KIND_CLOCK 1
#define LITRES_KIND_DELIVERY 2
#define LITRES_KIND_QUERY 3

/* Each refusal as X(number, name, text), for a program that makes a table of its own from them. */
#define LITRES_REFUSALS(X)                                                                        \
    X(1, LITRES_SHAPE, "the shape is outside its limits")                                         \
    X(2, LITRES_LENGTH, "the number of words is not what the shape needs")                        \
    X(3, LITRES_GRADE, "there is no such grade")                                                  \
    X(4, LITRES_VOLUME, "the volume is 0 or above 65535")                                         \
    X(5, LITRES_WINDOW, "the window is longer than an interval")                                  \
    X(6, LITRES_CLOCK_LIMIT, "the new clock is above 2000000000")                                 \
    X(7, LITRES_HEAD, "the first 8 words are not the head of a book")                             \
    X(8, LITRES_AHEAD, "the stamp is ahead of the clock")                                         \
    X(9, LITRES_LATE, "late: no window reaches back to the stamp any more")                       \
    X(10, LITRES_CLOCK_BACK, "the new clock is behind the clock")                                 \
    X(11, LITRES_BLOCK, "a grade's words are damaged")                                            \
    X(12, LITRES_FULL, "the interval has no room for the volume")                                 \
    X(13, LITRES_TRACE, "the trace breaks its layout or has an unsound record")                   \
    X(14, LITRES_DAY, "the trace has no such day")                                                \
    X(15, LITRES_ROOM, "the answers need more words")                                             \
    X(16, LITRES_ORDER, "a day opens with no clock, or clocks fall or pass 2000000000")           \
    X(17, LITRES_OUTPUT, "the output is not as long as the two days together")

#define LITRES_ENUMERATOR(number, name, text) name = number,
enum { LITRES_ACCEPTED = 0, LITRES_REFUSALS(LITRES_ENUMERATOR) };
#undef LITRES_ENUMERATOR

#ifdef __cplusplus
extern "C" {
#endif

/*
 * How many words a book of this shape needs: 8 + g (2 + 2 (m + 1) (2 + 3 n)), or 0 if the shape is
 * outside its limits.
 */
size_t litres_words(uint32_t k, uint32_t n, uint32_t m, uint32_t g);

/*
 * Writes an empty book at clock 0 over all words, whatever they were.
 * Refused, in this order: 1, 2.
 */
uint32_t litres_make(uint32_t *book, size_t len, uint32_t k, uint32_t n, uint32_t m, uint32_t g);

/*
 * Sets a later or equal clock. Where it enters another interval, all but that one and the one
 * before it are emptied, in every grade. Every grade's words are inspected.
 * Refused, in this order: 2 (under 8 words), 7, 2, 6, 10, 11.
 */
uint32_t litres_clock(uint32_t *book, size_t len, uint32_t clock);

/*
 * Records `volume` decilitres of a grade at tick `stamp`, which is at most 2^k - 1 ticks behind the
 * clock: an older stamp is late, since no window covers it any more. Deliveries may come in any
 * order. Of the grades' words only this one's are inspected or changed.
 * Writes to *halvings how many buckets the delivery halved on all levels, at most k * m: as many as
 * if its decilitres had come one after another. A refused call writes 0. `halvings` must point to a
 * uint32_t that may be written and that lies outside the book.
 * Refused, in this order: 2 (under 8 words), 7, 2, 3, 4, 8, 9, 11, 12.
 */
uint32_t litres_delivery(uint32_t *book, size_t len, uint32_t grade, uint32_t stamp,
                         uint32_t volume, uint32_t *halvings);

/*
 * Writes to *sum the book's sum for a grade, in decilitres, over the last `window` ticks, of which
 * the clock's own is the last. If the window exceeds the clock, it starts at tick 0. Windows that
 * lie end to end have no tick in common. Window 0 has none at all and gives 0. How exact a sum is
 * stands above. No word of the book changes. Of the grades' words only this one's are inspected.
 * `sum` must point to a uint64_t that may be written and that lies outside the book. A refused call
 * does not write it.
 * Refused, in this order: 2 (under 8 words), 7, 2, 3, 5, 11.
 */
uint32_t litres_query(const uint32_t *book, size_t len, uint32_t grade, uint32_t window,
                      uint64_t *sum);

/*
 * Tells where the sum of litres_query comes from. Writes LITRES_GROUND_LEN numbers, each at the
 * place of `ground` that has its name:
 *   LITRES_GROUND_SUM     the sum that litres_query gives for the same grade and window
 *   LITRES_GROUND_LEVEL   the level that gave it, 0 to m
 *   LITRES_GROUND_LIMIT   by how many decilitres it is off at most: 0 on level 0, else
 *                         2^level * (k + 1). For which books that holds is said above.
 *   LITRES_GROUND_CASE    one of three:
 *     LITRES_CASE_WINDOW_ZERO   window 0, for which sum, level and limit are 0
 *     LITRES_CASE_LEVEL_ZERO    another window, and level 0 gave the sum
 *     LITRES_CASE_FINER         a level above 0 gave it
 *   LITRES_GROUND_FIRST   in the last case F of the next finer level, else 0
 * A book keeps what a grade has in an interval on levels 0 to m, of which 0 is the finest. F of a
 * level is the first tick that it still keeps, counted from the start of the interval. A window
 * above 0 is answered by a level of the interval in which it opens: the finest one whose F is not
 * past the opening. So F of every finer level is past it. If the window opens in the interval
 * before the clock's, the total of the clock's interval is added; that part is exact.
 * No word of the book changes. Of the grades' words only this one's are inspected. `ground` must
 * point to LITRES_GROUND_LEN uint64_t that may be written and that lie outside the book. A refused
 * call writes none of them.
 * Refused as litres_query is, in this order: 2 (under 8 words), 7, 2, 3, 5, 11.
 */
uint32_t litres_ground(const uint32_t *book, size_t len, uint32_t grade, uint32_t window,
                       uint64_t ground[LITRES_GROUND_LEN]);

/*
 * Finds a day: *start is its first word in the trace and *length how many words it has, so that it
 * is the part trace + *start of the caller's own words. A refused call writes 0 to both. `start`
 * and `length` must point to two size_t that may be written.
 * Refused, in this order: 13 (any record of any day counts), 14.
 */
uint32_t litres_day(const uint32_t *trace, size_t trace_len, uint32_t day, size_t *start,
                    size_t *length);

/*
 * Runs the records of a day one after another, each exactly as its own call on the book, and writes
 * LITRES_ANSWER_WORDS words for each to `answers`: 0 or the number of its refusal, then the sum of
 * an answered question or 0. Halvings are not written. A refused record does not stop the ones
 * after it. A book that is damaged or of another length is no reason to refuse the replay: each
 * record is answered as its own call would be, and where that call meets the damage, 2, 7 or 11
 * stands in its answer. Words of `answers` past those of the last record are left. An empty day
 * needs no answer words.
 * Refused, in this order: 13 (any record of any day counts), 14, 15. Then no record is run.
 */
uint32_t litres_replay(uint32_t *book, size_t len, const uint32_t *trace, size_t trace_len,
                       uint32_t day, uint32_t *answers, size_t answers_len);

/*
 * Merges two days into one, such as those of two controllers at one site, and writes it to `out`.
 * It has every record of both days. Each day's own order is kept, and clocks never fall, where the
 * clock of a record is that of the last clock record up to it in its own day. Which of the two days
 * comes first among records of equal clock is undecided: do not rely on what this version does. A
 * day may be empty, and a day may be merged with itself.
 * `out_len` must be exactly the lengths of the two days together, which litres_day gives. A day
 * that is not empty must open with a clock record, and its clocks must neither fall nor pass
 * 2000000000. Only records are written. With the words 1, 3 and out_len before them they are a
 * trace of which the merged day is the only one, as long as out_len is below 2^32. Replayed on a
 * book that is not damaged and whose clock is not past the day's first, each record meets the clock
 * that it had in its own day. A delivery can still be refused there, also 12 because of the other
 * day's deliveries.
 * Refused, in this order: 13 (for either trace; any record of any day counts), 14 (for either), 16
 * (for either day; other days do not count), 17. The number does not tell which of the two it is:
 * for 13 and 14, litres_day of each trace does.
 */
uint32_t litres_merge(const uint32_t *first, size_t first_len, uint32_t first_day,
                      const uint32_t *second, size_t second_len, uint32_t second_day,
                      uint32_t *out, size_t out_len);

#ifdef __cplusplus
}
#endif

/* What a number that a call returned means, for a screen or a log. */
#ifdef __GNUC__
__attribute__((unused))
#endif
static inline const char *litres_text(uint32_t number)
{
#define LITRES_CASE(value, name, text) \
    case value:                        \
        return text;
    switch (number) {
    case 0:
        return "accepted";
        LITRES_REFUSALS(LITRES_CASE)
    default:
        return "no call returns this number";
    }
#undef LITRES_CASE
}

#endif
