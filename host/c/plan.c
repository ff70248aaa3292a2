/* Writes the job file of document 01's case a (three stops, least bound first, rule 1, close), reads it back and plans
 * it; plans case b (earliest first, no rules, plain) within three budgets, of which the first two stop it; plans case a
 * with a landing charge at each place, for a day that ends at home and for one that ends at the last stop; and plans it
 * with a passenger who is fetched at stop 3 and set down at stop 1. A refusal ends it with a status other than 0, and
 * so would a search of case a that did not finish. */
#include <inttypes.h>
#include <stdio.h>
#include <stdlib.h>
#include <string.h>

#include "gondamuy.h"

#define RECORDS 2000
#define PLACES 4
#define NUMBERS (PLACES * PLACES)

static const uint32_t table[NUMBERS] = {0, 4, 7, 9, 5, 0, 2, 6, 3, 8, 0, 1, 6, 5, 4, 0};
static const struct gondamuy_job case_a = {3, GONDAMUY_SELECTION_LEAST_BOUND_EARLIEST, GONDAMUY_RULE_UPPER_COST,
                                           GONDAMUY_BOUND_CLOSE};
static uint32_t pool[RECORDS * GONDAMUY_RECORD_WORDS];
static const size_t words = sizeof pool / sizeof pool[0];

static int failed(const char *what)
{
    fprintf(stderr, "%s\n", what);
    return EXIT_FAILURE;
}

static int refused(uint32_t number)
{
    fprintf(stderr, "refused %" PRIu32 "\n", number);
    return EXIT_FAILURE;
}

/* What is known of case b after so many branchings, in words. Returns the report's number. */
static uint32_t within(uint64_t budget)
{
    static const struct gondamuy_job case_b = {3, GONDAMUY_SELECTION_FIFO, GONDAMUY_RULES_NONE, GONDAMUY_BOUND_PLAIN};

    struct gondamuy_report report = gondamuy_plan(case_b, table, NUMBERS, NULL, 0, NULL, 0, budget, pool, words);
    if (report.number != GONDAMUY_NOT_REFUSED)
        return report.number;
    printf("budget %" PRIu64 ": ", budget);
    if (gondamuy_is_finished(&report))
        printf("finished, cost %" PRIu32 ", ", report.cost);
    else if (gondamuy_shows_order(&report))
        printf("stopped, at least %" PRIu32 ", at most %" PRIu32 ": ", report.floor, report.cost);
    else
        printf("stopped, at least %" PRIu32 ", no order known\n", report.floor);
    if (gondamuy_shows_order(&report))
        printf("order %d %d %d\n", report.order[0], report.order[1], report.order[2]);
    return report.number;
}

/* Case a by some bound where landings are charged, home's first: the charges go onto the table's diagonal. Home's is
 * paid only where the day ends there. Returns a status. */
static int with_charges(const char *what, uint32_t bound, const uint32_t charges[PLACES])
{
    struct gondamuy_job job = case_a;
    uint32_t charged[NUMBERS], landings = 0;

    job.bound = bound;
    memcpy(charged, table, sizeof charged);
    for (size_t i = 0; i < PLACES; i++) {
        charged[i * PLACES + i] = charges[i];
        if (i > 0 || !gondamuy_ends_away(bound))
            landings += charges[i];
    }
    struct gondamuy_report report = gondamuy_plan(job, charged, NUMBERS, NULL, 0, NULL, 0, GONDAMUY_NO_BUDGET, pool,
                                                  words);
    if (report.number != GONDAMUY_NOT_REFUSED)
        return refused(report.number);
    if (!gondamuy_is_finished(&report))
        return failed("stopped");
    printf("%s: cost %" PRIu32 ", %" PRIu32 " of it landings, ", what, report.cost, landings);
    printf("order %d %d %d\n", report.order[0], report.order[1], report.order[2]);
    return EXIT_SUCCESS;
}

/* Case a with a pair, two bytes as its file has them: the cheapest order of those that fly its first stop before its
 * second. Returns a status. */
static int with_pair(uint8_t pick_up, uint8_t drop)
{
    const uint8_t pairs[2] = {pick_up, drop};

    struct gondamuy_report report = gondamuy_plan(case_a, table, NUMBERS, NULL, 0, pairs, sizeof pairs,
                                                  GONDAMUY_NO_BUDGET, pool, words);
    if (report.number != GONDAMUY_NOT_REFUSED)
        return refused(report.number);
    if (!gondamuy_is_finished(&report))
        return failed("stopped");
    printf("fetched at %d, set down at %d: cost %" PRIu32 ", ", pick_up, drop, report.cost);
    printf("order %d %d %d\n", report.order[0], report.order[1], report.order[2]);
    return EXIT_SUCCESS;
}

int main(void)
{
    static const uint32_t charges[PLACES] = {5, 10, 20, 30};
    static const uint64_t budgets[3] = {0, 5, 10};
    static uint8_t file[GONDAMUY_LONGEST_FILE];

    struct gondamuy_written written = gondamuy_write(case_a, table, NUMBERS, NULL, 0, file, sizeof file);
    if (written.number != GONDAMUY_NOT_REFUSED)
        return refused(written.number);
    struct gondamuy_reading reading = gondamuy_read(file, written.length);
    if (reading.number != GONDAMUY_NOT_REFUSED)
        return refused(reading.number);
    size_t places = reading.job.n + 1;
    struct gondamuy_report report = gondamuy_plan(reading.job, reading.table, places * places, reading.start,
                                                  reading.stops, NULL, 0, GONDAMUY_NO_BUDGET, pool, words);
    if (report.number != GONDAMUY_NOT_REFUSED)
        return refused(report.number);
    if (!gondamuy_is_finished(&report))
        return failed("stopped");
    printf("bytes %zu\n", written.length);
    printf("cost %" PRIu32 "\n", report.cost);
    printf("order %d %d %d\n", report.order[0], report.order[1], report.order[2]);
    printf("branched %" PRIu64 "\n", report.branched);
    for (size_t i = 0; i < sizeof budgets / sizeof budgets[0]; i++) {
        uint32_t number = within(budgets[i]);
        if (number != GONDAMUY_NOT_REFUSED)
            return refused(number);
    }
    if (with_charges("with charges", GONDAMUY_BOUND_CLOSE, charges) != EXIT_SUCCESS)
        return EXIT_FAILURE;
    if (with_charges("ending away", GONDAMUY_BOUND_CLOSE_AWAY, charges) != EXIT_SUCCESS)
        return EXIT_FAILURE;
    return with_pair(3, 1);
}
