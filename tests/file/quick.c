/* A writer's changes by its summary: as plain calls make them, whatever the handle meets between two of them. */
#include <fcntl.h>
#include <stdlib.h>
#include <string.h>
#include <sys/stat.h>
#include <unistd.h>

#include "check.h"

#define NODES 60
#define WORDS (8 + 32 * NODES)

static uint64_t pick(uint64_t *seed, uint64_t below)
{
    *seed = *seed * 6364136223846793005u + 1442695040888963407u;
    return (*seed >> 33) % below;
}

/* ---- the same table, changed by plain calls in memory */

static uint64_t plain[WORDS];

struct counts {
    uint64_t stores, flushes, barriers;
};

static uint64_t plain_change(const struct catalogue_file_change *c, struct counts *n)
{
    static uint64_t orders[CATALOGUE_LONG_LIST_WORDS];
    const size_t room = CATALOGUE_LONG_LIST_WORDS;
    *n = (struct counts){0};
    switch (c->kind) {
    case CATALOGUE_FILE_ADD:
        return catalogue_insert(plain, WORDS, c->collection, orders, room, CATALOGUE_FILE_DOCK, c->key, c->recording, c->access, &n->stores,
                                &n->flushes, &n->barriers);
    case CATALOGUE_FILE_REMOVE:
        return catalogue_delete(plain, WORDS, c->collection, orders, room, CATALOGUE_FILE_DOCK, c->key, &n->stores, &n->flushes, &n->barriers);
    case CATALOGUE_FILE_SET_CLASS:
        return catalogue_set_class(plain, WORDS, c->collection, orders, room, CATALOGUE_FILE_DOCK, c->key, c->access, &n->stores, &n->flushes,
                                   &n->barriers);
    default:
        return catalogue_repair(plain, WORDS, orders, room, CATALOGUE_FILE_DOCK, &n->stores, &n->flushes, &n->barriers);
    }
}

static bool same_words(const char *name, const uint64_t *words)
{
    size_t bytes;
    char *all = contents(name, &bytes);
    bool same = bytes == 8 * (WORDS + CATALOGUE_FILE_TRAILER) && memcmp(all, words, 8 * WORDS) == 0;
    free(all);
    return same;
}

static bool write_all(const char *name, const uint64_t *words)
{
    int file = open(name, O_WRONLY);
    bool done = pwrite(file, words, 8 * WORDS, 0) == 8 * WORDS;
    close(file);
    return done;
}

/* From here on plain calls start from what the file has. */
static void take_words(const char *name)
{
    size_t bytes;
    char *all = contents(name, &bytes);
    memcpy(plain, all, sizeof plain);
    free(all);
}

/* The change gives the number, the counts and the file that the plain call gives. A repair before it is counted apart. */
static bool as_plain(catalogue_file *f, const char *name, struct catalogue_file_change c)
{
    struct counts n;
    uint64_t wanted = plain_change(&c, &n);
    c.cut = CATALOGUE_FILE_ALL;
    GIVES(wanted, catalogue_file_change(f, &c));
    CHECK(wanted != 0 || c.repair > 0 || (c.stores == n.stores && c.flushes == n.flushes && c.barriers == n.barriers));
    CHECK(catalogue_file_outcome(f) == (wanted == 0 ? CATALOGUE_FILE_MADE : CATALOGUE_FILE_NOT_MADE));
    CHECK(same_words(name, plain));
    return true;
}

/* Additions and removals by turns, so that the table gets full and its leaves are freed; now and then what is refused. */
static struct catalogue_file_change some_change(uint64_t *seed, uint64_t round)
{
    uint64_t kind = pick(seed, 10) == 0 ? CATALOGUE_FILE_SET_CLASS
                    : (pick(seed, 10) < 8) == (round / 700 % 2 == 0) ? CATALOGUE_FILE_ADD
                                                                     : CATALOGUE_FILE_REMOVE;
    return (struct catalogue_file_change){.kind = kind, .collection = pick(seed, 100) == 0 ? 3 : 1 + pick(seed, 2), .key = pick(seed, 500),
                                          .recording = pick(seed, 900), .access = pick(seed, 40) == 0 ? 3 : pick(seed, 3)};
}

static bool open_writing(catalogue_file *f, const char *name)
{
    GIVES(0, catalogue_file_open(f, name, CATALOGUE_FILE_WRITING | CATALOGUE_FILE_FAST, 0));
    return true;
}

/* A file of two collections with some pairs, in the file and in plain. */
static bool begin(catalogue_file *f, const char *name, uint64_t changes)
{
    uint64_t seed = 3;
    unlink(name);
    GIVES(0, catalogue_file_create(f, name, NODES, 2));
    GIVES(0, catalogue_make(plain, WORDS, 2));
    CHECK(open_writing(f, name));
    for (uint64_t round = 0; round < changes; round++)
        CHECK(as_plain(f, name, some_change(&seed, round)));
    return true;
}

/* ---- all that a handle does by itself */

static bool long_churn(void)
{
    static const uint64_t numbers[] = {0, CATALOGUE_BAD_RECORDING, CATALOGUE_KEY_PRESENT, CATALOGUE_RECORDING_PRESENT, CATALOGUE_KEY_ABSENT,
                                       CATALOGUE_NO_NODES, CATALOGUE_BAD_CLASS, CATALOGUE_NO_COLLECTION};
    uint64_t seed = 17, met[256] = {0}, saved[WORDS];
    catalogue_file *f = catalogue_file_new();
    CHECK(begin(f, at("churn"), 0));
    for (uint64_t round = 0; round < rounds(7000); round++) {
        struct catalogue_file_change c = some_change(&seed, round);
        struct counts n;
        memcpy(saved, plain, sizeof saved);
        met[plain_change(&c, &n)]++;
        memcpy(plain, saved, sizeof plain);
        CHECK(as_plain(f, at("churn"), c));
    }
    for (size_t i = 0; i < sizeof numbers / sizeof numbers[0] && rounds(10) == 10; i++)
        CHECK(met[numbers[i]] > 0);
    GIVES(0, catalogue_file_compare(f));
    catalogue_file_free(f);
    return true;
}

/* A change is cut off somewhere; the handle, or one that is opened after it, goes on. */
static bool after_cuts(void)
{
    uint64_t seed = 5, repairs = 0;
    catalogue_file *f = catalogue_file_new();
    CHECK(begin(f, at("cut off"), 300));
    for (uint64_t round = 0; round < rounds(600); round++) {
        struct catalogue_file_change c = some_change(&seed, 350 + round);
        c.cut = pick(&seed, 12);
        uint64_t number = catalogue_file_change(f, &c);
        take_words(at("cut off"));
        CHECK(number != CATALOGUE_FILE_CUT || c.carried == c.cut);
        if (pick(&seed, 2) == 0) {
            GIVES(0, catalogue_file_close(f));
            CHECK(open_writing(f, at("cut off")));
        }
        struct counts n;
        struct catalogue_file_change repair = {.kind = CATALOGUE_FILE_REPAIR};
        uint64_t saved[WORDS];
        memcpy(saved, plain, sizeof saved);
        GIVES(0, plain_change(&repair, &n));
        repairs += n.stores > 0;
        memcpy(plain, saved, sizeof plain);
        CHECK(pick(&seed, 4) > 0 || as_plain(f, at("cut off"), repair));
        CHECK(as_plain(f, at("cut off"), some_change(&seed, 350 + round)) && as_plain(f, at("cut off"), some_change(&seed, 350 + round)));
    }
    CHECK(repairs > rounds(100));
    catalogue_file_free(f);
    return true;
}

/* A load by batches, one into an empty collection, a plan that is not made and a copy come between changes. */
static bool between_loads(void)
{
    uint64_t seed = 8, nodes = 0, pairs[2 * 20];
    catalogue_file *f = catalogue_file_new(), *r = catalogue_file_new();
    GIVES(0, catalogue_file_create(r, at("twin"), NODES, 2));
    CHECK(begin(f, at("loads"), 200));
    for (uint64_t round = 0; round < rounds(60); round++) {
        for (uint64_t i = 0; i < 20; i++)
            pairs[2 * i] = 1000 + pick(&seed, 100), pairs[2 * i + 1] = 1000 + pick(&seed, 200);
        /* A handle that has just opened the same table has no summary. */
        uint64_t flags = CATALOGUE_FILE_KEEP_GOING | (round % 3 == 0 ? CATALOGUE_FILE_IN_PLACE : 0), numbers[20], others[20];
        CHECK(write_all(at("twin"), plain) && open_writing(r, at("twin")));
        uint64_t number = catalogue_file_load_pairs(r, 1 + round % 2, flags, pairs, 20, others);
        take_words(at("twin"));
        GIVES(number, catalogue_file_load_pairs(f, 1 + round % 2, flags, pairs, 20, numbers));
        CHECK(memcmp(numbers, others, sizeof numbers) == 0 && same_words(at("loads"), plain));
        for (uint64_t i = 0; i < 10; i++)
            CHECK(as_plain(f, at("loads"), some_change(&seed, 700)));
        struct catalogue_file_change plan = some_change(&seed, round), same = plan;
        const uint64_t *orders;
        struct counts n;
        uint64_t saved[WORDS];
        memcpy(saved, plain, sizeof saved);
        GIVES(plain_change(&same, &n), catalogue_file_plan(f, &plan, &orders));
        memcpy(plain, saved, sizeof plain);
        CHECK(as_plain(f, at("loads"), some_change(&seed, round)));
    }
    /* Read by the summary, and without one. */
    GIVES(0, catalogue_file_copy(f, at("loads copy"), &nodes));
    GIVES(0, catalogue_file_open(r, at("loads"), CATALOGUE_FILE_READING, 0));
    nodes = 0;
    GIVES(0, catalogue_file_copy(r, at("loads again"), &nodes));
    size_t bytes, again;
    char *one = contents(at("loads copy"), &bytes), *two = contents(at("loads again"), &again);
    CHECK(bytes == again && bytes > 64 + 256 && memcmp(one, two, bytes) == 0);
    free(one);
    free(two);
    catalogue_file_free(f);
    catalogue_file_free(r);
    return true;
}

static bool packed_load(void)
{
    uint64_t seed = 9, pairs[2 * 300];
    catalogue_file *f = catalogue_file_new();
    CHECK(begin(f, at("packed"), 0));
    for (uint64_t i = 0; i < 300; i++)
        pairs[2 * i] = i, pairs[2 * i + 1] = 1 + i;
    CHECK(as_plain(f, at("packed"), (struct catalogue_file_change){.kind = CATALOGUE_FILE_ADD, .collection = 2, .key = 7, .recording = 7}));
    GIVES(0, catalogue_file_load_pairs(f, 1, 0, pairs, 300, NULL));
    take_words(at("packed"));
    for (uint64_t round = 0; round < 100; round++)
        CHECK(as_plain(f, at("packed"), some_change(&seed, round)));
    catalogue_file_free(f);
    return true;
}

/* ---- what others do */

/* A program without the lock changes the file between two changes: the first one after that says so, the next goes on from what is there. */
static bool other_writer(void)
{
    uint64_t seed = 21, saved[WORDS];
    catalogue_file *f = catalogue_file_new();
    CHECK(begin(f, at("other"), 300));
    for (uint64_t round = 0; round < rounds(40); round++) {
        struct catalogue_file_change theirs = {.kind = CATALOGUE_FILE_ADD, .collection = 1, .key = 2000 + round, .recording = 2000 + round};
        struct counts n;
        memcpy(saved, plain, sizeof saved);
        uint64_t number = plain_change(&theirs, &n);
        CHECK(number == 0 || number == CATALOGUE_NO_NODES);
        CHECK(write_all(at("other"), plain));
        theirs.cut = CATALOGUE_FILE_ALL;
        if (number == 0) {
            GIVES(CATALOGUE_FILE_CHANGED, catalogue_file_change(f, &theirs));
            CHECK(catalogue_file_outcome(f) == CATALOGUE_FILE_NOT_MADE && same_words(at("other"), plain));
            GIVES(CATALOGUE_KEY_PRESENT, catalogue_file_change(f, &theirs));
        }
        for (uint64_t i = 0; i < 5; i++)
            CHECK(as_plain(f, at("other"), some_change(&seed, 700)));
    }
    catalogue_file_free(f);
    return true;
}

/* ---- the copy in memory */

/* The words of the handle's copy, which no one is to store to. */
static uint64_t *copy_of(catalogue_file *f)
{
    const uint64_t *table = NULL;
    size_t words = 0;
    bool there = catalogue_file_table(f, &table, &words) == 0 && words == WORDS;
    return there ? (uint64_t *)(uintptr_t)table : NULL;
}

static uint64_t *node_of(uint64_t *table, uint64_t node)
{
    return table + 8 + 32 * (node - 1);
}

/* The leftmost leaf below a root: its left is no node. */
static uint64_t *leaf_below(uint64_t *table, uint64_t root)
{
    uint64_t *node = node_of(table, root);
    while (node[2] > 0)
        node = node_of(table, node[0]);
    return node;
}

static uint64_t *first_leaf(uint64_t *table)
{
    return leaf_below(table, table[1]);
}

static struct catalogue_file_change add(uint64_t key)
{
    return (struct catalogue_file_change){.kind = CATALOGUE_FILE_ADD, .collection = 1, .key = key, .recording = 5000 + key};
}

/* The leftmost leaf is damaged in the copy alone. What the addition of a high key gives: it is not on its way. */
static uint64_t add_off_the_way(catalogue_file *f, uint64_t key)
{
    uint64_t *leaf = first_leaf(copy_of(f)), was = leaf[8], report[CATALOGUE_CHECK_WORDS];
    leaf[8] = UINT64_MAX - 5;
    if (catalogue_check(copy_of(f), WORDS, report) != CATALOGUE_NOT_SOUND)
        return UINT64_MAX;
    uint64_t number = catalogue_file_add(f, 1, key, 5000 + key, 0);
    first_leaf(copy_of(f))[8] = was;
    return number;
}

/* A change looks at the nodes on its way alone; what it meets there that is not as it was left is said. */
static bool stored_into(void)
{
    uint64_t seed = 33;
    struct counts n;
    catalogue_file *f = catalogue_file_new();
    CHECK(begin(f, at("stored"), 300));
    GIVES(0, add_off_the_way(f, 3000));
    struct catalogue_file_change high = add(3000);
    GIVES(0, plain_change(&high, &n));
    CHECK(same_words(at("stored"), plain));
    for (uint64_t round = 0; round < 20; round++) {
        uint64_t *table = copy_of(f);
        node_of(table, table[1])[2] = 77;
        GIVES(CATALOGUE_FILE_OVERWRITTEN, catalogue_file_add(f, 1, 4000 + round, 4000 + round, 0));
        CHECK(catalogue_file_outcome(f) == CATALOGUE_FILE_NOT_MADE && same_words(at("stored"), plain));
        CHECK(strstr(catalogue_file_message(f), "somebody else"));
        CHECK(as_plain(f, at("stored"), some_change(&seed, 700)));
    }
    catalogue_file_free(f);
    return true;
}

/* A batch that would come by a new file: what is damaged in the copy, off the way of its lines, does not come into the file. */
static bool stored_into_and_loaded(void)
{
    uint64_t seed = 12, pairs[2 * 64];
    struct stat before, after;
    catalogue_file *f = catalogue_file_new();
    CHECK(begin(f, at("stored and loaded"), 300));
    GIVES(0, catalogue_file_close(f));
    GIVES(0, catalogue_file_open(f, at("stored and loaded"), CATALOGUE_FILE_WRITING, 0));
    CHECK(as_plain(f, at("stored and loaded"), add(3000)));
    for (uint64_t i = 0; i < 64; i++)
        pairs[2 * i] = 4000 + i, pairs[2 * i + 1] = 4000 + i;
    uint64_t *table = copy_of(f);
    leaf_below(table, table[3])[8] = UINT64_MAX - 5;
    GIVES(CATALOGUE_FILE_OVERWRITTEN, catalogue_file_load_pairs(f, 1, 0, pairs, 64, NULL));
    CHECK(catalogue_file_outcome(f) == CATALOGUE_FILE_NOT_MADE && same_words(at("stored and loaded"), plain));
    CHECK(as_plain(f, at("stored and loaded"), some_change(&seed, 700)));
    CHECK(stat(at("stored and loaded"), &before) == 0);
    GIVES(0, catalogue_file_load_pairs(f, 1, 0, pairs, 64, NULL));
    CHECK(stat(at("stored and loaded"), &after) == 0 && after.st_ino != before.st_ino);
    take_words(at("stored and loaded"));
    CHECK(as_plain(f, at("stored and loaded"), some_change(&seed, 700)));
    catalogue_file_free(f);
    return true;
}

/* A damaged file is refused as without a summary, and stays. */
static bool damaged(void)
{
    catalogue_file *f = catalogue_file_new();
    CHECK(begin(f, at("damaged"), 300));
    GIVES(0, catalogue_file_close(f));
    uint64_t *leaf = first_leaf(plain), word = (uint64_t)(leaf - plain) + 9, was = leaf[9];
    leaf[9] = leaf[13];
    CHECK(put_word(at("damaged"), word, leaf[9]));
    CHECK(open_writing(f, at("damaged")));
    for (uint64_t i = 0; i < 3; i++) {
        GIVES(CATALOGUE_NOT_SOUND, catalogue_file_add(f, 1, 4000, 4000, 0));
        GIVES(CATALOGUE_NOT_SOUND, catalogue_file_remove(f, 1, leaf[8]));
        GIVES(CATALOGUE_NOT_SOUND, catalogue_file_set_class(f, 1, leaf[8], 1));
        CHECK(same_words(at("damaged"), plain));
    }
    GIVES(0, catalogue_file_close(f));
    leaf[9] = was;
    CHECK(put_word(at("damaged"), word, was) && open_writing(f, at("damaged")));
    CHECK(as_plain(f, at("damaged"), add(4000)));
    catalogue_file_free(f);
    return true;
}

/* ---- short memory: each allocation of an opening fails in turn */

static bool no_summary(void)
{
    uint64_t without = 0;
    bool met = true;
    for (uint64_t number = 1; met; number++) {
        catalogue_file *f = catalogue_file_new();
        CHECK(begin(f, at("short of one"), 300));
        GIVES(0, catalogue_file_close(f));
        fail_allocation(number);
        uint64_t opened = catalogue_file_open(f, at("short of one"), CATALOGUE_FILE_WRITING | CATALOGUE_FILE_FAST, 0);
        met = allocation_failed();
        CHECK(opened == 0 || (met && opened == CATALOGUE_FILE_NO_MEMORY));
        CHECK(opened != 0 || as_plain(f, at("short of one"), add(2000)));
        /* Without a summary the next change checks the whole copy too, and finds what is off its way. */
        uint64_t change = opened == 0 ? add_off_the_way(f, 3000) : 0;
        CHECK(change == 0 || (met && change == CATALOGUE_NOT_SOUND));
        without += change != 0;
        if (change != 0)
            for (uint64_t i = 0; i < 10; i++)
                CHECK(as_plain(f, at("short of one"), add(3000 + i)));
        catalogue_file_free(f);
    }
    CHECK(without == 1);
    return true;
}

const struct test quick_tests[] = {
    {"quick changes as plain ones", long_churn},
    {"quick changes after cuts", after_cuts},
    {"quick changes between loads", between_loads},
    {"quick changes after a packed load", packed_load},
    {"quick changes beside another writer", other_writer},
    {"a copy that was stored into", stored_into},
    {"a copy that was stored into, and a load", stored_into_and_loaded},
    {"quick changes of a damaged file", damaged},
    {"no memory for a summary", no_summary},
    {NULL, NULL},
};
