/* Reads a job file from standard input and, if one is named on the command line, its pair file; prints the first order
 * of its table by its bound, which says where the day ends, and by the pairs; and plans it with the pairs in a pool of
 * few records: from no order, from the file's own, if it has one, and from the first order. A refusal ends it with a
 * status other than 0, and so would a search that did not finish. */
#include <inttypes.h>
#include <stdbool.h>
#include <stdio.h>
#include <stdlib.h>

#include "gondamuy.h"

#define RECORDS 150

/* The bytes of a pair file; one that fills them is too long, and is refused. */
struct pairs {
    uint8_t bytes[GONDAMUY_MOST_PAIR_BYTES + 1];
    size_t length;
};

static int failed(const char *what)
{
    fprintf(stderr, "%s\n", what);
    return EXIT_FAILURE;
}

static int refused(uint32_t number)
{
    fprintf(stderr, "refused %" PRIu32 "\n", number);
    return EXIT_FAILURE;
}

static void print_first(const struct gondamuy_first *first, uint32_t n)
{
    printf("first cost %" PRIu32 "\nfirst order", first->cost);
    for (uint32_t i = 0; i < n; i++)
        printf(" %d", first->order[i]);
    printf("\n");
}

/* Whether the pair file was read. */
static bool read_pairs(const char *name, struct pairs *pairs)
{
    FILE *file = fopen(name, "rb");

    if (file == NULL)
        return false;
    pairs->length = fread(pairs->bytes, 1, sizeof pairs->bytes, file);
    bool whole = !ferror(file);
    fclose(file);
    return whole;
}

/* Whether the search finished. If not, it says why. */
static bool planned(const struct gondamuy_reading *reading, const struct pairs *pairs, const char *from,
                    const uint8_t *start, size_t stops)
{
    static struct gondamuy_record pool[RECORDS];

    size_t places = reading->job.n + 1;
    struct gondamuy_report report = gondamuy_plan_records(reading->job, reading->table, places * places, start, stops,
                                                          pairs->bytes, pairs->length, GONDAMUY_NO_BUDGET, pool,
                                                          RECORDS);
    if (report.number != GONDAMUY_NOT_REFUSED)
        refused(report.number);
    else if (!gondamuy_is_finished(&report))
        failed("stopped");
    else
        printf("plan from %s: cost %" PRIu32 ", branched %" PRIu64 ", most %" PRIu64 "\n", from, report.cost,
               report.branched, report.most);
    return gondamuy_is_finished(&report);
}

int main(int count, char **words)
{
    static uint8_t file[GONDAMUY_LONGEST_FILE + 1]; /* a file that fills it is too long, and is refused */
    static struct pairs pairs;

    /* With length 0 a null table will do, and null pairs; the table is refused. */
    if (gondamuy_first_order(3, GONDAMUY_BOUND_CLOSE, NULL, 0, NULL, 0).number != GONDAMUY_REFUSED_TABLE_LENGTH)
        return failed("an empty table is not refused by 2");
    if (gondamuy_ends_away(GONDAMUY_BOUND_PLAIN) || gondamuy_ends_away(GONDAMUY_BOUND_CLOSE)
        || !gondamuy_ends_away(GONDAMUY_BOUND_PLAIN_AWAY) || !gondamuy_ends_away(GONDAMUY_BOUND_CLOSE_AWAY))
        return failed("a bound is taken for one of the other kind of day");
    size_t length = fread(file, 1, sizeof file, stdin);
    if (ferror(stdin))
        return failed("standard input cannot be read");
    struct gondamuy_reading reading = gondamuy_read(file, length);
    if (reading.number != GONDAMUY_NOT_REFUSED)
        return refused(reading.number);
    if (count > 1 && !read_pairs(words[1], &pairs))
        return failed("the pair file cannot be read");
    uint32_t n = reading.job.n;
    struct gondamuy_first first = gondamuy_first_order(n, reading.job.bound, reading.table, (n + 1) * (n + 1),
                                                       pairs.bytes, pairs.length);
    if (first.number != GONDAMUY_NOT_REFUSED)
        return refused(first.number);
    print_first(&first, n);
    bool finished = planned(&reading, &pairs, "none", NULL, 0)
                    && planned(&reading, &pairs, "the file's order", reading.start, reading.stops)
                    && planned(&reading, &pairs, "the first order", first.order, n);
    return finished ? EXIT_SUCCESS : EXIT_FAILURE;
}
