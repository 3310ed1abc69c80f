/*
 * A forecourt site: one grade, deliveries that arrive out of order and late, and two windows, each
 * with how exact its sum is.
 */
#include <inttypes.h>
#include <stdint.h>
#include <stdio.h>

#include "litres.h"

enum { K = 20, N = 441, M = 24, G = 1, WORDS = 66260 };
enum { MINUTE = 60, HOUR = 60 * MINUTE, DAY = 24 * HOUR };

static uint32_t book[WORDS];

/* What a display link would send: a message whenever a bucket is halved. */
static uint32_t messages;

struct delivery {
    const char *what;
    uint32_t stamp;
    uint32_t decilitres;
};

static void print_thousands(uint64_t number)
{
    if (number >= 1000) {
        print_thousands(number / 1000);
        printf(",%03" PRIu64, number % 1000);
    } else {
        printf("%" PRIu64, number);
    }
}

static void print_litres(uint64_t decilitres)
{
    print_thousands(decilitres / 10);
    printf(".%" PRIu64 " litres", decilitres % 10);
}

static void print_refusal(const char *what, uint32_t number)
{
    printf("%s: refused %" PRIu32 ", %s\n", what, number, litres_text(number));
}

static uint32_t record(uint32_t stamp, uint32_t decilitres)
{
    uint32_t halvings;
    uint32_t number = litres_delivery(book, WORDS, 0, stamp, decilitres, &halvings);

    messages += halvings; /* 0 where the delivery is refused */
    return number;
}

static int deliver(const struct delivery *d)
{
    uint32_t number = record(d->stamp, d->decilitres);

    if (number == LITRES_ACCEPTED) {
        printf("%s: ", d->what);
        print_litres(d->decilitres);
        printf("\n");
    } else {
        print_refusal(d->what, number);
    }
    /* A late delivery is lost, but nothing is wrong with the book or the program. */
    return number != LITRES_ACCEPTED && number != LITRES_LATE;
}

/* A pump that was cut off reports six days at once: a moped every ten minutes. */
static int catch_up(const char *what, uint32_t now)
{
    uint32_t count = 0;
    uint64_t sum = 0;

    for (uint32_t stamp = now - 6 * DAY; stamp < now; stamp += 10 * MINUTE) {
        uint32_t decilitres = 20 + count % 41;
        uint32_t number = record(stamp, decilitres);

        if (number != LITRES_ACCEPTED) {
            print_refusal(what, number);
            return 1;
        }
        count++;
        sum += decilitres;
    }
    printf("%s: %" PRIu32 " deliveries, ", what, count);
    print_litres(sum);
    printf("\n");
    return 0;
}

/* The sum of a window, how far it can be off, and the level of the book that gave it. */
static int ask(const char *what, uint32_t window)
{
    uint64_t ground[LITRES_GROUND_LEN];
    uint32_t number = litres_ground(book, WORDS, 0, window, ground);

    if (number != LITRES_ACCEPTED) {
        print_refusal(what, number);
        return 1;
    }
    printf("%s: ", what);
    print_litres(ground[LITRES_GROUND_SUM]);
    if (ground[LITRES_GROUND_LIMIT] == 0) {
        printf(", exactly");
    } else {
        printf(", within ");
        print_litres(ground[LITRES_GROUND_LIMIT]);
    }
    printf(", from level %" PRIu64 "\n", ground[LITRES_GROUND_LEVEL]);
    return 0;
}

int main(void)
{
    const uint32_t now = 20 * DAY + 14 * HOUR;
    const struct delivery deliveries[] = {
        {"pump 2, this minute", now - 5, 413},
        {"pump 1, half an hour late", now - 30 * MINUTE, 275},
        {"pump 3, five hours late", now - 5 * HOUR, 602},
        {"pump 1, ten minutes late", now - 10 * MINUTE, 388},
        {"pump 4, three days late", now - 3 * DAY, 5120},
        {"pump 4, thirteen days late", now - 13 * DAY, 450},
        {"pump 2, this second", now, 64},
    };
    int failed = 0;

    if (litres_words(K, N, M, G) != WORDS || litres_make(book, WORDS, K, N, M, G) != 0
        || litres_clock(book, WORDS, now) != 0) {
        printf("no book\n");
        return 1;
    }
    for (size_t i = 0; i < sizeof deliveries / sizeof deliveries[0]; i++)
        failed |= deliver(&deliveries[i]);
    failed |= catch_up("pump 5, back after six days", now);
    printf("display link: ");
    print_thousands(messages);
    printf(" messages\n");
    failed |= ask("last hour", HOUR);
    failed |= ask("last seven days", 7 * DAY);
    return failed;
}
