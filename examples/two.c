/* Two controllers at one site: a day of each is merged into one, which is replayed on a small book. */
#include <inttypes.h>
#include <stddef.h>
#include <stdint.h>
#include <stdio.h>

#include "litres.h"

enum { K = 12, N = 16, M = 12, G = 1, WORDS = 1310 };

#define CLOCK(clock) LITRES_KIND_CLOCK, clock, 0, 0
#define DELIVERY(stamp, decilitres) LITRES_KIND_DELIVERY, 0, stamp, decilitres
#define QUERY(window) LITRES_KIND_QUERY, 0, window, 0

/* What comes before the records of a trace's only day: one day, its offset and its length. */
enum { HEAD = 3 };

/*
 * The two traces. No clock is in both days, so there is only one way to merge them. Where a clock is
 * in both, it is undecided which day's records come first.
 */
static const uint32_t east[] = {
    1, HEAD, 6 * LITRES_RECORD_WORDS,
    CLOCK(600), DELIVERY(590, 413),
    CLOCK(1200), DELIVERY(1150, 388), DELIVERY(1210, 275), /* the pump's own clock is fast */
    QUERY(1200),
};
static const uint32_t west[] = {
    1, HEAD, 4 * LITRES_RECORD_WORDS,
    CLOCK(900), DELIVERY(880, 602),
    CLOCK(1500), QUERY(700),
};
/* A controller that has lost its first clock. */
static const uint32_t lost[] = {
    1, HEAD, 2 * LITRES_RECORD_WORDS,
    DELIVERY(700, 333), CLOCK(1300),
};

#define LENGTH(array) (sizeof(array) / sizeof(array)[0])
enum { DAY_WORDS = LENGTH(east) + LENGTH(west) - 2 * HEAD };
enum { RECORDS = DAY_WORDS / LITRES_RECORD_WORDS };

static uint32_t book[WORDS];
static uint32_t merged[HEAD + DAY_WORDS] = {1, HEAD, DAY_WORDS};
static uint32_t answers[RECORDS * LITRES_ANSWER_WORDS];

static int refused(const char *what, uint32_t number)
{
    printf("%s: refused %" PRIu32 ", %s\n", what, number, litres_text(number));
    return 1;
}

static void print_litres(uint32_t decilitres)
{
    printf("%" PRIu32 ".%" PRIu32 " litres", decilitres / 10, decilitres % 10);
}

/* A record at the clock that it met, which is the one that it had with its own controller. */
static void print_record(uint32_t clock, const uint32_t *record, const uint32_t *answer)
{
    printf("%4" PRIu32 ": ", clock);
    switch (record[0]) {
    case LITRES_KIND_CLOCK:
        printf("clock");
        break;
    case LITRES_KIND_DELIVERY:
        print_litres(record[3]);
        printf(" at %" PRIu32, record[2]);
        break;
    default:
        printf("last %" PRIu32 " seconds: ", record[2]);
        print_litres(answer[1]);
    }
    if (answer[0] != LITRES_ACCEPTED)
        printf(": refused %" PRIu32 ", %s", answer[0], litres_text(answer[0]));
    printf("\n");
}

/* Merges the day of `east` with the one of another trace. */
static uint32_t merge(const uint32_t *other, size_t other_len, size_t room)
{
    return litres_merge(east, LENGTH(east), 0, other, other_len, 0, merged + HEAD, room);
}

int main(void)
{
    uint32_t clock = 0;
    uint32_t number = merge(west, LENGTH(west), DAY_WORDS);

    if (number != LITRES_ACCEPTED)
        return refused("east and west", number);
    if (litres_words(K, N, M, G) != WORDS || litres_make(book, WORDS, K, N, M, G) != 0) {
        printf("no book\n");
        return 1;
    }
    number = litres_replay(book, WORDS, merged, LENGTH(merged), 0, answers, LENGTH(answers));
    if (number != LITRES_ACCEPTED)
        return refused("the merged day", number);
    for (size_t i = 0; i < RECORDS; i++) {
        const uint32_t *record = merged + HEAD + i * LITRES_RECORD_WORDS;

        if (record[0] == LITRES_KIND_CLOCK)
            clock = record[1];
        print_record(clock, record, answers + i * LITRES_ANSWER_WORDS);
    }
    /* Neither of these can be merged. */
    refused("east and lost", merge(lost, LENGTH(lost), DAY_WORDS));
    refused("a word short", merge(west, LENGTH(west), DAY_WORDS - 1));
    return 0;
}
