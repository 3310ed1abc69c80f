/* A recorded week: a trace of seven days, each found and replayed on a small book. */
#include <inttypes.h>
#include <stddef.h>
#include <stdint.h>
#include <stdio.h>
#include <stdlib.h>

#include "litres.h"

enum { K = 17, N = 64, M = 16, G = 1, WORDS = 6606 };
enum { MINUTE_TICKS = 60, HOUR_TICKS = 60 * MINUTE_TICKS, DAY_TICKS = 24 * HOUR_TICKS };
enum { MON, TUE, WED, THU, FRI, SAT, SUN, DAYS };

/* A trace may name any tick, so not every day that is asked for is one of this week. */
static const char *name(uint32_t day)
{
    static const char *const names[DAYS] = {"Monday", "Tuesday",  "Wednesday", "Thursday",
                                            "Friday", "Saturday", "Sunday"};

    return day < DAYS ? names[day] : "after the week";
}

/* What a controller noted: on which day, and which call with which numbers. */
struct entry {
    uint32_t day;
    uint32_t kind;
    uint32_t numbers[LITRES_RECORD_WORDS - 1];
};

#define AT(day, hour, minute) ((day) * DAY_TICKS + (hour) * HOUR_TICKS + (minute) * MINUTE_TICKS)
#define CLOCK(day, hour) {day, LITRES_KIND_CLOCK, {AT(day, hour, 0), 0, 0}}
#define DELIVERY(day, stamp, decilitres) {day, LITRES_KIND_DELIVERY, {0, stamp, decilitres}}
#define QUERY(day, hours) {day, LITRES_KIND_QUERY, {0, (hours) * HOUR_TICKS, 0}}

static const struct entry entries[] = {
    CLOCK(MON, 8),
    DELIVERY(MON, AT(MON, 7, 30), 413),
    CLOCK(MON, 20),
    DELIVERY(MON, AT(MON, 12, 15), 388),
    QUERY(MON, 24),
    CLOCK(TUE, 20),
    DELIVERY(TUE, AT(TUE, 9, 0), 275),
    DELIVERY(TUE, AT(MON, 21, 40), 602), /* late, but a window still covers it */
    QUERY(TUE, 24),
    CLOCK(WED, 20),
    DELIVERY(WED, AT(WED, 10, 30), 512),
    QUERY(WED, 24),
    CLOCK(THU, 20),
    DELIVERY(THU, AT(MON, 12, 30), 247), /* three days late */
    DELIVERY(THU, AT(THU, 11, 5), 450),
    QUERY(THU, 24),
    CLOCK(FRI, 20),
    DELIVERY(FRI, AT(FRI, 21, 0), 333), /* the pump's own clock is fast */
    DELIVERY(FRI, AT(FRI, 18, 20), 701),
    QUERY(FRI, 24),
    CLOCK(SAT, 14),
    DELIVERY(SAT, AT(SAT, 13, 0), 0), /* the nozzle was lifted and hung up */
    DELIVERY(SAT, AT(SAT, 12, 45), 330),
    QUERY(SAT, 48),
    QUERY(SAT, 36),
    /* Closed on Sunday. */
};

enum { COUNT = sizeof entries / sizeof entries[0] };
enum { PAIRS_END = 1 + 2 * DAYS, TRACE_WORDS = PAIRS_END + COUNT * LITRES_RECORD_WORDS };

static uint32_t book[WORDS];
static uint32_t trace[TRACE_WORDS];

/* Count, pairs, then the records: each day starts where the one before ends. */
static void build_trace(void)
{
    size_t used = PAIRS_END;
    size_t next = 0;

    trace[0] = DAYS;
    for (uint32_t day = 0; day < DAYS; day++) {
        size_t start = used;

        for (; next < COUNT && entries[next].day == day; next++) {
            trace[used++] = entries[next].kind;
            for (size_t i = 0; i < LITRES_RECORD_WORDS - 1; i++)
                trace[used++] = entries[next].numbers[i];
        }
        trace[1 + 2 * day] = (uint32_t)start;
        trace[2 + 2 * day] = (uint32_t)(used - start);
    }
}

static void print_litres(uint32_t decilitres)
{
    printf("%" PRIu32 ".%" PRIu32 " litres", decilitres / 10, decilitres % 10);
}

static void print_time(uint32_t tick)
{
    printf("%s %02" PRIu32 ":%02" PRIu32, name(tick / DAY_TICKS), tick % DAY_TICKS / HOUR_TICKS,
           tick % HOUR_TICKS / MINUTE_TICKS);
}

static void print_answer(const uint32_t *record, const uint32_t *answer)
{
    uint32_t number = answer[0];

    printf("  ");
    switch (record[0]) {
    case LITRES_KIND_CLOCK:
        printf("clock at ");
        print_time(record[1]);
        break;
    case LITRES_KIND_DELIVERY:
        print_litres(record[3]);
        printf(" at ");
        print_time(record[2]);
        break;
    default:
        printf("last %" PRIu32 " hours", record[2] / HOUR_TICKS);
        if (number == LITRES_ACCEPTED) {
            printf(": ");
            print_litres(answer[1]);
        }
    }
    if (number != LITRES_ACCEPTED)
        printf(": refused %" PRIu32 ", %s", number, litres_text(number));
    printf("\n");
}

static int refused(uint32_t day, uint32_t number)
{
    printf("day %" PRIu32 ": refused %" PRIu32 ", %s\n", day, number, litres_text(number));
    return 1;
}

/* Finds a day, replays it and prints each record, which is still in the trace, with its answer. */
static int replay(uint32_t day)
{
    size_t start, length, records, room;
    uint32_t *answers;
    uint32_t number = litres_day(trace, TRACE_WORDS, day, &start, &length);

    if (number != LITRES_ACCEPTED)
        return refused(day, number);
    records = length / LITRES_RECORD_WORDS;
    room = records * LITRES_ANSWER_WORDS;
    /* A word more, since the pointer must not be null, not even for the answers of an empty day. */
    answers = (uint32_t *)malloc((room + 1) * sizeof *answers);
    if (answers == NULL) {
        printf("no memory\n");
        return 1;
    }
    number = litres_replay(book, WORDS, trace, TRACE_WORDS, day, answers, room);
    if (number == LITRES_ACCEPTED) {
        printf("%s: %lu records\n", name(day), (unsigned long)records);
        for (size_t i = 0; i < records; i++)
            print_answer(trace + start + i * LITRES_RECORD_WORDS,
                         answers + i * LITRES_ANSWER_WORDS);
    }
    free(answers);
    return number == LITRES_ACCEPTED ? 0 : refused(day, number);
}

int main(void)
{
    int failed = 0;

    build_trace();
    if (litres_words(K, N, M, G) != WORDS || litres_make(book, WORDS, K, N, M, G) != 0) {
        printf("no book\n");
        return 1;
    }
    for (uint32_t day = 0; day < DAYS; day++)
        failed |= replay(day);
    /* A week has no eighth day. */
    return failed | !replay(DAYS);
}
