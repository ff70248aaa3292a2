/* The proved stop-order planner, a first order for it to start from, and the proved reader and writer of job files, for
 * C on x86-64 Linux. Link with libgondamuy.a. docs/HOSTS.md has the same for people, with examples.
 *
 * NUMBER 0 ALONE DOES NOT SAY "CHEAPEST". A search that its budget stopped comes back with number 0 and mark 1, and a
 * cheaper order may be left. The order is the cheapest where number and mark are both 0: gondamuy_is_finished.
 * A JOB FILE HAS NO PAIRS. Who plans what was read from one hands its pairs in beside it, or plans without them
 * (request A.6).
 *
 * Nothing is asked of the numbers and the bytes: whatever they are, each call ends, with number 0 or a refusal (number
 * 1 to 11). What is asked is what C asks of any pointer:
 *   - each points to as many elements as its length says, aligned as its type is;
 *   - pool and buffer, which are written to, overlap nothing else that the call is given;
 *   - with a length of 0 any pointer will do, a null one too.
 * A call uses nothing but its arguments and a few kilobytes of stack, gondamuy_plan less than 80 kilobytes; it keeps
 * nothing between calls, and may run in several threads at once over different pools and buffers. There is no bound on
 * the time of gondamuy_plan; a budget bounds its branchings. By a theorem gondamuy_first_order makes at most as many
 * exchanges as its nearest-stop order costs; no time is claimed.
 */
#ifndef GONDAMUY_H
#define GONDAMUY_H

#include <stddef.h>
#include <stdint.h>

#ifdef __cplusplus
extern "C" {
#endif

/* Raised with every change of a call, of a struct, of what a number means or of what comes back. */
#define GONDAMUY_VERSION 8

/* Sizes. */
#define GONDAMUY_MOST_STOPS 16                                         /* stops of a day at most */
#define GONDAMUY_PLACES (GONDAMUY_MOST_STOPS + 1)                      /* 17: home and the stops */
#define GONDAMUY_TABLE_NUMBERS (GONDAMUY_PLACES * GONDAMUY_PLACES)     /* 289: numbers of the largest table */
#define GONDAMUY_ORDER_PLACES GONDAMUY_MOST_STOPS                      /* 16: stops of the longest order */
#define GONDAMUY_DEAREST_LEG 1000000                                   /* what a leg may cost at most */
#define GONDAMUY_DEAREST_CHARGE 100000                                 /* what a landing may cost at most */
#define GONDAMUY_RECORD_WORDS 6                                        /* words in a record of the pool */
#define GONDAMUY_MOST_PAIRS 8                                          /* pairs of a job at most */
#define GONDAMUY_MOST_PAIR_BYTES (2 * GONDAMUY_MOST_PAIRS)             /* 16: bytes of the longest pair file */
#define GONDAMUY_LONGEST_FILE \
    (4 * GONDAMUY_TABLE_NUMBERS + GONDAMUY_ORDER_PLACES + 13)          /* 1,185: a buffer that every job's file fits */

/* The budget of a search that is not to be stopped: by a theorem no search makes so many branchings. */
#define GONDAMUY_NO_BUDGET UINT64_MAX

/* Which waiting (active) node is branched next. */
enum gondamuy_selection {
    /* the least bound (LLB); on ties nodes that are not complete first, of these the earliest or the latest generated */
    GONDAMUY_SELECTION_LEAST_BOUND_EARLIEST = 0,
    GONDAMUY_SELECTION_LEAST_BOUND_LATEST = 1,
    GONDAMUY_SELECTION_FIFO = 2,                 /* the earliest generated */
    GONDAMUY_SELECTION_LIFO = 3                  /* the latest generated that is not complete: depth first */
};

/* Which nodes are eliminated: the sum of the rules that are on. */
enum gondamuy_rules {
    GONDAMUY_RULES_NONE = 0,
    GONDAMUY_RULE_UPPER_COST = 1,  /* nodes whose bound is above the cost of the cheapest order known (U/DBAS) */
    GONDAMUY_RULE_BY_ACTIVE = 2,   /* children that an active node dominates (AS/DB) */
    GONDAMUY_RULE_BY_BRANCHED = 4, /* children that a branched node dominates (BFS/DB); the pool then keeps these too */
    GONDAMUY_RULE_BY_CHILD = 8,    /* active nodes that a child dominates (DB/AS) */
    GONDAMUY_RULES_ALL = 15
};

/* What a node's whole orders cost at least, and where the day ends (request A.5). */
enum gondamuy_bound {
    GONDAMUY_BOUND_PLAIN = 0,      /* what the flying so far costs, landings included */
    GONDAMUY_BOUND_CLOSE = 1,      /* what the flying so far costs, and the cheapest legs to come with their landings */
    GONDAMUY_BOUND_PLAIN_AWAY = 2, /* plain for a day that ends at the last stop: no leg home counts */
    GONDAMUY_BOUND_CLOSE_AWAY = 3  /* close for such a day */
};

/* Whether its budget stopped a search (request A.3). Mark 0 alone says nothing either: a refusal has it too. */
enum gondamuy_mark {
    GONDAMUY_NOT_STOPPED = 0, /* beside number 0: the search finished, and its order is a cheapest one */
    GONDAMUY_STOPPED = 1      /* it did not finish, and another order may be cheaper than the one shown */
};

/* Why a call gave nothing, and what to do about it. */
enum gondamuy_refusal {
    GONDAMUY_NOT_REFUSED = 0,
    /* the number of stops is 0 or above 16. */
    GONDAMUY_REFUSED_STOPS = 1,
    /* the table's length is not (n+1) squared. */
    GONDAMUY_REFUSED_TABLE_LENGTH = 2,
    /* a leg is above 1,000,000 or a landing charge is above 100,000. Each number is looked at by itself. */
    GONDAMUY_REFUSED_LEG = 3,
    /* selection is above 3, rules above 15 or bound above 3. gondamuy_first_order looks at the bound alone. */
    GONDAMUY_REFUSED_CHOICE = 4,
    /* the starting order is neither empty nor a permutation of 1 to n, or is against the pairs. Name each stop once, in
     * each pair the first before the second, or hand in none. Only pairs that 11 lets pass are looked at for this. */
    GONDAMUY_REFUSED_START = 5,
    /* the pool has no whole record, or a part record. Lend a multiple of six words, six at least. */
    GONDAMUY_REFUSED_POOL = 6,
    /* the pool is full. Lend more records, or search in fewer, if longer: LIFO, rule 1, close, a starting order. */
    GONDAMUY_REFUSED_FULL = 7,
    /* the file is shorter than 13 bytes. It is no job file, or was cut. */
    GONDAMUY_REFUSED_SHORT_FILE = 8,
    /* the file's length or its places are not those of a job file. It is none, or is damaged or too long. */
    GONDAMUY_REFUSED_LAYOUT = 9,
    /* the write buffer is shorter than the file. GONDAMUY_LONGEST_FILE bytes are always enough. */
    GONDAMUY_REFUSED_SHORT_BUFFER = 10,
    /* the pairs' length is odd or above 16, or a stop in them is outside 1 to n or stands there twice. It comes between
     * 5 and 6. */
    GONDAMUY_REFUSED_PAIRS = 11
};

/* What a caller chooses. The fields are plain numbers, so that any may be handed in: what does not fit is refused. */
struct gondamuy_job {
    uint32_t n;         /* how many stops: 1 to GONDAMUY_MOST_STOPS */
    uint32_t selection; /* of enum gondamuy_selection */
    uint32_t rules;     /* a sum of enum gondamuy_rules */
    uint32_t bound;     /* of enum gondamuy_bound */
};

/* What gondamuy_plan answers: see there, and read number and mark before anything else. */
struct gondamuy_report {
    uint32_t number;    /* 0, or the number of the refusal: 1 to 7 or 11 */
    uint32_t mark;      /* of enum gondamuy_mark (request A.3); 0 beside a refusal */
    uint32_t cost;      /* of the order below; 0 if none is known */
    uint32_t floor;     /* of a stopped search: no order that respects the pairs costs less (request A.3); else 0 */
    uint8_t order[GONDAMUY_ORDER_PLACES]; /* the stops as they are flown, zeros past n; all zeros if none is known */
    uint64_t branched;  /* nodes branched */
    uint64_t generated; /* the empty node and every child: branched + eliminated + active */
    uint64_t eliminated;
    uint64_t active;    /* nodes still active at the end */
    uint64_t most;      /* the most that were active at once */
};

struct gondamuy_first {
    uint32_t number;    /* 0, or the number of the refusal: 1 to 4 or 11 */
    uint32_t cost;      /* of this order; another may be cheaper */
    uint8_t order[GONDAMUY_ORDER_PLACES]; /* the stops as they are flown, zeros past n */
};

struct gondamuy_reading {
    uint32_t number;    /* 0, or the number of the refusal: 8, 1, 9, 3, 4 or 5 */
    struct gondamuy_job job;
    uint32_t table[GONDAMUY_TABLE_NUMBERS]; /* (n+1)*(n+1) numbers, row by row, zeros behind */
    uint8_t start[GONDAMUY_ORDER_PLACES];   /* the starting order, zeros behind */
    uint32_t stops;     /* how many stops the starting order has: 0 or n */
};

struct gondamuy_written {
    uint32_t number;    /* 0, or the number of the refusal: 1 to 5 or 10 */
    size_t length;      /* of the file; 0 beside a refusal */
};

/* A record of the pool, six words in a row: a node, the stops that are flown first. */
struct gondamuy_record {
    uint32_t size;      /* how many stops */
    uint32_t set;       /* bit s-1 is stop s's */
    uint32_t path;      /* what the legs flown and their landings cost */
    uint32_t bound;
    uint32_t first;     /* s-1 in four bits each, the first eight stops, first stop lowest */
    uint32_t second;    /* the others */
};

/* Puts the stops 1 to job.n into the cheapest order that respects the pairs, within a budget of branchings. Of several
 * cheapest orders it is the smallest in comparison stop by stop (request A.8), whatever the search.
 *
 * table: (n+1)*(n+1) numbers, row by row; home is place 0. Row i has the leg from place i to each other place, at most
 * GONDAMUY_DEAREST_LEG, and on the diagonal the landing charge of place i, at most GONDAMUY_DEAREST_CHARGE, 0 for none
 * (request A.4). Flying from i to j costs the leg and the charge of j, so that an order costs its legs and a landing at
 * each stop and, at the end, at home. On a day that ends away (bound 2 or 3, request A.5) the leg home and the landing
 * there are in no cost and no bound; the numbers stand in the table all the same, and 3 looks at them. start: an order
 * of the n stops known beforehand, or nothing. budget: how many nodes may be branched, 0 included, or
 * GONDAMUY_NO_BUDGET. pool: words, six to a record; what they hold plays no part.
 *
 * pairs: the bytes of a pair file, or nothing (request A.6). Two bytes a pair, GONDAMUY_MOST_PAIRS pairs at most: a
 * passenger is fetched at the first stop and set down at the second, so that the first is flown before the second, at
 * once or with other stops between. A stop stands in one pair at most. Orders that go the other way play no part: they
 * are not searched, and what is said below of orders, of a cheapest one and of the floor is said of those that respect
 * the pairs. Costs, floors and counts of two searches are held against each other only where both have the same pairs.
 *
 * What comes back and what the pool then holds, by number and mark. Of several refusals the first in the sequence 1, 2,
 * 3, 4, 5, 11, 6 is returned. A start that names each stop once is held to the pairs only where 11 lets these pass.
 *   0, mark 0  Finished: that order, its cost, and the counts of the search. The pool holds the nodes that were
 *              left: the active ones, report.active records, earliest generated first; with rule 4 behind them the
 *              branched ones, report.branched records, earliest branched first; zeros behind.
 *   0, mark 1  Stopped: the budget was spent before the search finished, and report.branched is the budget. Every order
 *              costs at least report.floor, the least bound among the active nodes. Cost and order are those of the
 *              cheapest order that the search knows, start included, so that a cheapest order costs at most that; they
 *              are zeros if it knows none (gondamuy_shows_order). The pool holds the nodes there, in the same layout.
 *   1 to 6, 11 The number, and zeros in every other field. The pool is as it was.
 *   7          The number and the counts up to there; all other fields are zeros, since the search ran short. The pool
 *              holds, in the same layout, the nodes before the branching whose nodes it could not hold.
 *
 * Before each branching it is asked first whether the search is finished, then whether the budget is spent, then
 * whether the pool holds what comes of it. So a search that finishes within its budget gives the same as without one,
 * and one whose budget is spent is never refused by 7. Planned again with a larger budget and stopped again, the same
 * job from the same start with the same pairs has a floor at least as high and, where an order was shown before, one at
 * most as dear.
 */
struct gondamuy_report gondamuy_plan(struct gondamuy_job job,
                                     const uint32_t *table, size_t table_len,
                                     const uint8_t *start, size_t start_len,
                                     const uint8_t *pairs, size_t pairs_len,
                                     uint64_t budget,
                                     uint32_t *pool, size_t pool_len);

/* Whether a search finished, so that its order is a cheapest one of those that respect the pairs. */
static inline int gondamuy_is_finished(const struct gondamuy_report *report)
{
    return report->number == GONDAMUY_NOT_REFUSED && report->mark == GONDAMUY_NOT_STOPPED;
}

/* Whether an order is shown. The cost does not tell: there are orders that cost 0. */
static inline int gondamuy_shows_order(const struct gondamuy_report *report)
{
    return report->order[0] != 0;
}

/* Whether a bound is one for a day that ends at the last stop (request A.5). Costs and floors of two searches over one
 * table with the same pairs may be held against each other only where this says the same of both bounds. */
static inline int gondamuy_ends_away(uint32_t bound)
{
    return bound == GONDAMUY_BOUND_PLAIN_AWAY || bound == GONDAMUY_BOUND_CLOSE_AWAY;
}

/* Makes an order of the stops 1 to n to start from, where nobody has typed one (request A.1).
 *
 * n, table and pairs are as for gondamuy_plan, and bound is that of the job that is to start from the order: it says
 * what an order costs, with the leg home (0 and 1) or without (2 and 3, request A.5), and nothing else. From each place
 * on, home first, the nearest stop left is flown: of those whose pick-up, if they have one, is flown already (request
 * A.6), the one that is cheapest to fly to and land at, the lowest number of several. Then two stops change places as
 * long as that lowers the cost and the pairs are respected: of all such exchanges the one that lowers it most, of
 * several the one that begins earliest in the order, then the one that ends earliest. The order respects the pairs and
 * costs no more than that of the nearest stops, and no exchange of two of its stops that respects the pairs makes it
 * cheaper; but another order may be cheaper still, and gondamuy_plan finds one that is cheapest.
 *
 * What comes back, by number; of several refusals the first in the sequence 1, 2, 3, 4, 11 is returned:
 *   0           The order and its cost.
 *   1 to 4, 11  The number, and zeros in every other field.
 * Neither table nor pairs are written to. To start from the order, hand in the first n of first.order as start, with
 * the same pairs: 5 never comes from that. With other pairs it may. gondamuy_plan does not make one by itself.
 */
struct gondamuy_first gondamuy_first_order(uint32_t n, uint32_t bound,
                                           const uint32_t *table, size_t table_len,
                                           const uint8_t *pairs, size_t pairs_len);

/* Reads a job file, which has no pairs. The job comes back by value, so that no buffer can be too short.
 *
 * What comes back, by number:
 *   0                 The job, its table and its starting order; zeros in the places that they do not take.
 *   8, 1, 9, 3, 4, 5  The number, and zeros in every other field. Of several, the first in this row; 2 never comes.
 * The file is not written to. To plan what was read, hand in reading.job, the first (n+1)*(n+1) numbers of
 * reading.table and the first reading.stops of reading.start, beside the pairs of its pair file, if it has one.
 */
struct gondamuy_reading gondamuy_read(const uint8_t *file, size_t file_len);

/* Writes the file of a job, given as for gondamuy_plan, at the front of the buffer. Its pairs go into no job file, and
 * the starting order is not held to them: they are a file of their own, whose bytes are what gondamuy_plan takes.
 *
 * What comes back and what the buffer then holds, by number; the lowest that applies is returned:
 *   0           The file's length. The file stands at the buffer's front; the bytes behind it are as they were.
 *   1 to 5, 10  The number, and length 0. The buffer is as it was.
 */
struct gondamuy_written gondamuy_write(struct gondamuy_job job,
                                       const uint32_t *table, size_t table_len,
                                       const uint8_t *start, size_t start_len,
                                       uint8_t *buffer, size_t buffer_len);

/* gondamuy_plan with a pool of records: the same call over the same memory, and nothing is copied. pool_len counts
 * records. No record is a part record, so 6 comes from an empty pool alone. */
static inline struct gondamuy_report gondamuy_plan_records(struct gondamuy_job job,
                                                           const uint32_t *table, size_t table_len,
                                                           const uint8_t *start, size_t start_len,
                                                           const uint8_t *pairs, size_t pairs_len,
                                                           uint64_t budget,
                                                           struct gondamuy_record *pool, size_t pool_len)
{
    return gondamuy_plan(job, table, table_len, start, start_len, pairs, pairs_len, budget, (uint32_t *)pool,
                         pool_len * GONDAMUY_RECORD_WORDS);
}

/* The layout that the library was built with: a compiler that lays out a struct in another way refuses these. */
#define GONDAMUY_SIZE(type, size) \
    typedef char gondamuy_size_of_##type[sizeof(struct gondamuy_##type) == (size) ? 1 : -1]
#define GONDAMUY_FIELD(type, field, offset) \
    typedef char gondamuy_place_of_##type##_##field[offsetof(struct gondamuy_##type, field) == (offset) ? 1 : -1]

GONDAMUY_SIZE(job, 16);
GONDAMUY_FIELD(job, n, 0);
GONDAMUY_FIELD(job, selection, 4);
GONDAMUY_FIELD(job, rules, 8);
GONDAMUY_FIELD(job, bound, 12);

GONDAMUY_SIZE(report, 72);
GONDAMUY_FIELD(report, number, 0);
GONDAMUY_FIELD(report, mark, 4);
GONDAMUY_FIELD(report, cost, 8);
GONDAMUY_FIELD(report, floor, 12);
GONDAMUY_FIELD(report, order, 16);
GONDAMUY_FIELD(report, branched, 32);
GONDAMUY_FIELD(report, generated, 40);
GONDAMUY_FIELD(report, eliminated, 48);
GONDAMUY_FIELD(report, active, 56);
GONDAMUY_FIELD(report, most, 64);

GONDAMUY_SIZE(first, 24);
GONDAMUY_FIELD(first, number, 0);
GONDAMUY_FIELD(first, cost, 4);
GONDAMUY_FIELD(first, order, 8);

GONDAMUY_SIZE(reading, 1196);
GONDAMUY_FIELD(reading, number, 0);
GONDAMUY_FIELD(reading, job, 4);
GONDAMUY_FIELD(reading, table, 20);
GONDAMUY_FIELD(reading, start, 1176);
GONDAMUY_FIELD(reading, stops, 1192);

GONDAMUY_SIZE(written, 16);
GONDAMUY_FIELD(written, number, 0);
GONDAMUY_FIELD(written, length, 8);

GONDAMUY_SIZE(record, 24);
GONDAMUY_FIELD(record, size, 0);
GONDAMUY_FIELD(record, set, 4);
GONDAMUY_FIELD(record, path, 8);
GONDAMUY_FIELD(record, bound, 12);
GONDAMUY_FIELD(record, first, 16);
GONDAMUY_FIELD(record, second, 20);

#undef GONDAMUY_SIZE
#undef GONDAMUY_FIELD

#ifdef __cplusplus
}
#endif

#endif
