/* Insertions one by one, in batches, and loads of all. */
#include <stdio.h>
#include <string.h>

#include "bench.h"
#include "files.h"

/* The rounds that the changes of a row are made in. */
#define ROUNDS 10

/* The median is taken of so many loads; nanoseconds that one in batches may take, and on a disk. */
#define LOADS 3
#define LOAD_BUDGET 150e9
#define DISK_BUDGET 12e9

/* Nanoseconds that one of the larger batches may take, by what the smaller ones take; a contender that would take longer is left out. */
#define BATCH_BUDGET 15e9

/* The changes of one row that a contender has made. */
struct changes {
    double times[MOST_CHANGES]; /* a code */
    size_t count;
    double spent;
};

static void change(struct bench *b, const struct peer *peer, size_t i, size_t batch, struct changes *c)
{
    const struct pair *pairs = b->pairs + b->next + c->count * batch;
    double start = now();
    bool taken = peer->insert(b->stores[i], pairs, batch);
    double time = now() - start;
    if (!taken)
        die("%s refuses a new code", peer->name);
    c->times[c->count++] = time / (double)batch;
    c->spent += time;
    struct scanned added = sum_of(pairs, batch);
    b->expected[i].count += added.count;
    b->expected[i].sum += added.sum;
}

static bool too_long(const struct bench *b, size_t i, size_t batch)
{
    return batch == b->sizes->batch[1] && b->a_code[i] * (double)batch > BATCH_BUDGET;
}

/* In rounds, so that a slow moment of the disk or the machine affects all; a contender stops when its budget is spent. */
static void measure_changes(struct bench *b, const char *what, size_t batch, size_t most)
{
    static struct changes made[PEERS];
    struct row *row = row_new(what, b->codes, NANOSECONDS);
    memset(made, 0, sizeof made);
    for (size_t round = 1; round <= ROUNDS; round++)
        for (size_t turn = 0; turn < PEERS; turn++) {
            size_t i = (round + turn) % PEERS, upto = (most * round + ROUNDS - 1) / ROUNDS;
            double budget = BUDGET * (double)round / ROUNDS;
            while (made[i].count < upto && (made[i].count == 0 || made[i].spent < budget) && !too_long(b, i, batch))
                change(b, peers[i], i, batch, &made[i]);
        }
    for (size_t i = 0; i < PEERS; i++) {
        row->figure[i] = median(made[i].times, made[i].count);
        row->measured[i] = made[i].count;
        if (batch == b->sizes->batch[0])
            b->a_code[i] = row->figure[i];
        compare_scan(peers[i], b->stores[i], &b->expected[i], "after changes");
    }
    b->next += most * batch;
}

struct row *with_other(const struct bench *b, const char *what, const char *ending)
{
    char name[80];
    snprintf(name, sizeof name, "%s%s", what, ending);
    struct row *row = row_new(name, b->codes, NANOSECONDS);
    const struct row *others = row_named(what, b->codes);
    memcpy(row->figure + 1, others->figure + 1, (PEERS - 1) * sizeof row->figure[0]);
    memcpy(row->over + 1, others->over + 1, (PEERS - 1) * sizeof row->over[0]);
    memcpy(row->measured + 1, others->measured + 1, (PEERS - 1) * sizeof row->measured[0]);
    return row;
}

/* The same changes by other calls of ours. */
static void measure_other(struct bench *b, const char *what, const char *ending, const struct peer *peer, size_t batch, size_t most)
{
    static struct changes made;
    struct row *row = with_other(b, what, ending);
    memset(&made, 0, sizeof made);
    while (made.count < most && (made.count == 0 || made.spent < BUDGET))
        change(b, peer, 0, batch, &made);
    row->figure[0] = median(made.times, made.count);
    row->measured[0] = made.count;
    if (peer == &ours_by_library)
        ours_library_ends(b->stores[0]);
    compare_scan(peer, b->stores[0], &b->expected[0], "after changes by other calls");
    b->next += most * batch;
}

void measure_inserting(struct bench *b)
{
    const char *single = "insertion one by one";
    measure_changes(b, single, 1, b->sizes->single);
    measure_other(b, single, PLAIN, &ours_plain, 1, b->sizes->single);
    measure_other(b, single, ", ours by the file library", &ours_by_library, 1, b->sizes->single);
    for (size_t k = 0; k < 2; k++) {
        char what[80];
        snprintf(what, sizeof what, "insertion in batches of %s, a code", text_count(b->sizes->batch[k]));
        measure_changes(b, what, b->sizes->batch[k], b->sizes->batches[k]);
        if (b->place.memory)
            measure_other(b, what, PLAIN, &ours_plain, b->sizes->batch[k], b->sizes->batches[k]);
        else
            measure_other(b, what, BY_FILE, &ours_by_file, b->sizes->batch[k], b->sizes->batches[k]);
    }
}

/* ---- loads */

/* All in batches of the larger size, from an empty store, while the budget lasts. */
static void load_by_batches(const struct bench *b, const struct peer *peer, size_t i, double budget, struct row *row)
{
    size_t batch = b->sizes->batch[1], done = 0;
    double start = now();
    void *store = peer->make(&b->place);
    while (done < b->codes && now() - start < budget) {
        size_t left = b->codes - done, count = left < batch ? left : batch;
        if (!peer->insert(store, b->pairs + done, count))
            die("%s refuses a batch", peer->name);
        done += count;
    }
    row->figure[i] = now() - start;
    row->over[i] = done < b->codes;
    row->measured[i] = 1;
    struct scanned expected = sum_of(b->pairs, done);
    compare_scan(peer, store, &expected, "after a load by batches");
    peer->close(store);
    remove_files(peer, b->place.folder);
}

/* One load; the files go. */
static double time_load(const struct bench *b, size_t i, const struct pair *pairs, bool sorted, const struct scanned *expected)
{
    double start = now();
    void *store = peers[i]->load(&b->place, pairs, b->codes, sorted);
    double time = now() - start;
    compare_scan(peers[i], store, expected, "after a load");
    peers[i]->close(store);
    remove_files(peers[i], b->place.folder);
    return time;
}

/* PMDK has no load but batches, and on a disk waits too often for one to be seen through. */
static bool no_load(const struct bench *b, size_t i)
{
    return peers[i] == &pmdk && !b->place.memory;
}

#define LOAD_SORTED "load of all, sorted before"
#define LOAD_FREE "load of all, theirs without unique recordings"

/* The contenders take turns. Ours has recordings unique always. */
static void measure_load(struct bench *b, const char *what, const struct pair *pairs, bool sorted)
{
    struct row *row = row_new(what, b->codes, NANOSECONDS);
    struct scanned expected = sum_of(pairs, b->codes);
    double times[PEERS][LOADS];
    for (size_t run = 0; run < LOADS; run++)
        for (size_t i = 0; i < PEERS; i++)
            if (!no_load(b, i))
                times[i][run] = time_load(b, i, pairs, sorted, &expected);
    for (size_t i = 0; i < PEERS; i++)
        if (!no_load(b, i)) {
            row->figure[i] = median(times[i], LOADS);
            row->measured[i] = LOADS;
        }
}

const char *load_in_batches(const struct sizes *s)
{
    static char what[80];
    snprintf(what, sizeof what, "load of all in batches of %s", text_count(s->batch[1]));
    return what;
}

/* A load leaves ours packed, 11 to a leaf: then nearly each insertion splits. */
static void measure_after_load(struct bench *b)
{
    struct row *size = row_new("file after a load, in use", b->codes, BYTES);
    for (size_t i = 0; i < PEERS; i++) {
        void *loaded = no_load(b, i) ? peers[i]->grown(&b->place, b->pairs, b->codes) : peers[i]->load(&b->place, b->pairs, b->codes, false);
        /* Closed first: a log goes into its file. */
        peers[i]->close(loaded);
        b->stores[i] = peers[i]->open(&b->place);
        b->expected[i] = sum_of(b->pairs, b->codes);
        size->figure[i] = peers[i]->used ? (double)peers[i]->used(b->stores[i]) : bytes_in_files(peers[i], b->place.folder);
    }
    b->next = b->codes;
    measure_changes(b, "insertion one by one, straight after a load", 1, b->sizes->single);
    end_stores(b);
}

static void measure_load_in_batches(struct bench *b)
{
    const char *what = load_in_batches(b->sizes);
    struct row *row = row_new(what, b->codes, NANOSECONDS);
    for (size_t i = 0; i < PEERS; i++)
        if (!too_long(b, i, b->sizes->batch[1]))
            load_by_batches(b, peers[i], i, b->place.memory ? LOAD_BUDGET : DISK_BUDGET, row);
    if (!b->place.memory)
        load_by_batches(b, &ours_by_file, 0, LOAD_BUDGET, with_other(b, what, BY_FILE));
}

void measure_loads(struct bench *b)
{
    measure_load(b, LOAD_ANY, b->pairs, false);
    measure_load(b, LOAD_SORTED, b->rising, true);
    b->place.unique = false;
    measure_load(b, LOAD_FREE, b->pairs, false);
    b->place.unique = true;
    measure_load_in_batches(b);
    measure_after_load(b);
}
