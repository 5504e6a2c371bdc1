/* Finds, scans and ranges. */
#include <stdlib.h>
#include <string.h>

#include "bench.h"
#include "files.h"

/* The median is taken of so many runs. */
#define RUNS 5

/* A run of finds, in one reading transaction or in one each: nanoseconds a query. The answers are summed and compared. */
static double run_finds(struct bench *b, size_t i, const uint32_t *order, const struct pair *asked, bool there, bool each)
{
    const struct peer *peer = peers[i];
    void *store = b->stores[i];
    uint64_t sum = 0, right = 0;
    for (size_t q = 0; q < b->sizes->queries; q++)
        right += there ? asked[order[q]].pointer : 0;
    double start = now();
    if (!each)
        peer->begin(store);
    for (size_t q = 0; q < b->sizes->queries; q++) {
        if (each)
            peer->begin(store);
        sum += peer->find(store, asked[order[q]].key);
        if (each)
            peer->end(store);
    }
    if (!each)
        peer->end(store);
    double time = now() - start;
    if (sum != right)
        die("%s: finds answer wrongly", peer->name);
    return time / (double)b->sizes->queries;
}

/* The contenders take turns, each run beginning with another. */
static void measure_finds(struct bench *b, const char *what, bool there, bool each)
{
    struct row *row = row_new(what, b->codes, NANOSECONDS);
    const struct pair *asked = there ? b->pairs : absent_pairs(b);
    uint32_t *order = (uint32_t *)words_room(b->sizes->queries);
    double times[PEERS][RUNS];
    for (size_t q = 0; q < b->sizes->queries; q++)
        order[q] = there ? (uint32_t)random_below(&b->random, b->codes) : (uint32_t)q;
    for (size_t run = 0; run <= RUNS; run++)
        for (size_t turn = 0; turn < PEERS; turn++) {
            size_t i = (run + turn) % PEERS;
            double time = run_finds(b, i, order, asked, there, each);
            /* The first run only warms up. */
            if (run > 0)
                times[i][run - 1] = time;
        }
    for (size_t i = 0; i < PEERS; i++)
        row->figure[i] = median(times[i], RUNS);
    free(order);
}

static void time_scans(struct bench *b, const struct peer *peer, size_t i, struct row *row)
{
    double times[RUNS];
    for (size_t run = 0; run < RUNS; run++) {
        double start = now();
        compare_scan(peer, b->stores[i], &b->expected[i], "at a scan");
        times[run] = now() - start;
    }
    row->figure[i] = median(times, RUNS);
    row->measured[i] = RUNS;
}

static void measure_scan(struct bench *b)
{
    struct row *row = row_new("scan of all", b->codes, NANOSECONDS);
    for (size_t i = 0; i < PEERS; i++)
        time_scans(b, peers[i], i, row);
    time_scans(b, &ours_plain, 0, with_other(b, "scan of all", PLAIN));
}

/* Ranges from random places, as many as the budget allows: the median of their times. */
static double time_ranges(struct bench *b, size_t i, range_call *range, size_t pairs, size_t *measured)
{
    double times[MOST_CHANGES], begun = now();
    struct random r = {SEED};
    struct pair out[TWENTY];
    size_t n = 0;
    while (n < b->sizes->ranges && (n < 3 || now() - begun < BUDGET)) {
        uint64_t low = b->pairs[random_below(&r, b->codes)].key;
        double start = now();
        peers[i]->begin(b->stores[i]);
        size_t found = range(b->stores[i], low, out, pairs);
        peers[i]->end(b->stores[i]);
        times[n++] = now() - start;
        if (found == 0 || out[0].key != low)
            die("%s: a range answers wrongly", peers[i]->name);
    }
    *measured = n;
    return median(times, n);
}

static void measure_ranges(struct bench *b, const char *what, size_t pairs)
{
    struct row *row = row_new(what, b->codes, NANOSECONDS);
    for (size_t i = 0; i < PEERS; i++)
        row->figure[i] = time_ranges(b, i, peers[i]->range, pairs, &row->measured[i]);
}

/* The same by other calls of ours. */
static void measure_other_range(struct bench *b, const char *what, const char *ending, range_call *range, size_t pairs)
{
    struct row *row = with_other(b, what, ending);
    row->figure[0] = time_ranges(b, 0, range, pairs, &row->measured[0]);
}

void measure_reading(struct bench *b)
{
    measure_finds(b, "find, hit", true, false);
    measure_finds(b, "find, miss", false, false);
    measure_finds(b, "find, hit, a transaction each", true, true);
    measure_scan(b);
    measure_ranges(b, "range of ten", TEN);
    measure_other_range(b, "range of ten", PLAIN, ours_plain.range, TEN);
    measure_other_range(b, "range of ten", ", ours by searches", ours_range_by_search, TEN);
    measure_ranges(b, "range of twenty", TWENTY);
}
