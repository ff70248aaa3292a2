/* Plans document 01's case a as plan.c does, with a pool of records, and beside it with the same pool as words: the
 * reports and the memory are equal. A refusal, a search that did not finish, and a pool that is not as it should be,
 * end it with a status other than 0. */
#include <inttypes.h>
#include <stdio.h>
#include <stdlib.h>
#include <string.h>

#include "gondamuy.h"

#define RECORDS 2000

static int failed(const char *what)
{
    fprintf(stderr, "%s\n", what);
    return EXIT_FAILURE;
}

int main(void)
{
    static const uint32_t table[16] = {0, 4, 7, 9, 5, 0, 2, 6, 3, 8, 0, 1, 6, 5, 4, 0};
    static const struct gondamuy_job job = {3, GONDAMUY_SELECTION_LEAST_BOUND_EARLIEST, GONDAMUY_RULE_UPPER_COST,
                                            GONDAMUY_BOUND_CLOSE};
    static const struct gondamuy_record left = {3, 7, 7, 13, 0x210, 0}; /* the node 123 */
    static struct gondamuy_record pool[RECORDS];
    static uint32_t words[RECORDS * GONDAMUY_RECORD_WORDS];

    struct gondamuy_report report = gondamuy_plan_records(job, table, 16, NULL, 0, NULL, 0, GONDAMUY_NO_BUDGET, pool,
                                                          RECORDS);
    struct gondamuy_report other = gondamuy_plan(job, table, 16, NULL, 0, NULL, 0, GONDAMUY_NO_BUDGET, words,
                                                 RECORDS * GONDAMUY_RECORD_WORDS);
    if (report.number != GONDAMUY_NOT_REFUSED) {
        fprintf(stderr, "refused %" PRIu32 "\n", report.number);
        return EXIT_FAILURE;
    }
    if (!gondamuy_is_finished(&report))
        return failed("stopped");
    if (report.active != 1 || memcmp(&pool[0], &left, sizeof left) != 0)
        return failed("record 0 is not the node 123");
    if (memcmp(&report, &other, sizeof report) != 0 || memcmp(pool, words, sizeof pool) != 0)
        return failed("the views differ");
    printf("cost %" PRIu32 "\n", report.cost);
    printf("order %d %d %d\n", report.order[0], report.order[1], report.order[2]);
    printf("branched %" PRIu64 "\n", report.branched);
    return EXIT_SUCCESS;
}
