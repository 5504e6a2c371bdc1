/* Finding, walking, checking, copying and salvaging, on good tables and damaged ones. */
#include <stdlib.h>
#include <string.h>
#include <unistd.h>

#include "check.h"

#define KEYS 500

/* A table of two collections beside an array that says the same. */
struct model {
    uint64_t recording[3][KEYS], access[3][KEYS];
};

static bool fill(struct model *m, const char *name)
{
    catalogue_file *f = catalogue_file_new();
    uint64_t seed = 7;
    memset(m, 0, sizeof *m);
    GIVES(0, catalogue_file_create(f, name, 200, 2));
    GIVES(0, catalogue_file_open(f, name, CATALOGUE_FILE_WRITING | CATALOGUE_FILE_FAST, 0));
    for (int i = 0; i < 900; i++) {
        seed = seed * 6364136223846793005u + 1442695040888963407u;
        uint64_t collection = 1 + (seed >> 33) % 2, key = (seed >> 40) % KEYS, access = (seed >> 35) % 3;
        if (m->recording[collection][key] == 0) {
            GIVES(0, catalogue_file_add(f, collection, key, 1 + key + (uint64_t)i * KEYS, access));
            m->recording[collection][key] = 1 + key + (uint64_t)i * KEYS;
            m->access[collection][key] = access;
        } else if ((seed >> 20) % 3 == 0) {
            GIVES(0, catalogue_file_remove(f, collection, key));
            m->recording[collection][key] = 0;
        } else {
            GIVES(0, catalogue_file_set_class(f, collection, key, access));
            m->access[collection][key] = access;
        }
    }
    GIVES(0, catalogue_file_close(f));
    catalogue_file_free(f);
    return true;
}

static uint64_t next_in(const struct model *m, uint64_t collection, uint64_t from)
{
    while (from < KEYS && m->recording[collection][from] == 0)
        from++;
    return from;
}

static bool finds_agree(catalogue_file *f, const struct model *m)
{
    struct catalogue_file_pair found;
    for (uint64_t collection = 1; collection <= 2; collection++)
        for (uint64_t key = 0; key < KEYS + 3; key++) {
            uint64_t next = next_in(m, collection, key);
            if (next == key && key < KEYS) {
                GIVES(0, catalogue_file_find(f, collection, key, &found));
                CHECK(found.key == key && found.recording == m->recording[collection][key] && found.access == m->access[collection][key]);
            } else {
                GIVES(CATALOGUE_ABSENT, catalogue_file_find(f, collection, key, &found));
                CHECK(found.higher == (next < KEYS) && (next >= KEYS || found.next == next));
            }
            uint64_t number = catalogue_file_next(f, collection, key, &found);
            CHECK(next < KEYS ? number == 0 && found.key == next && found.recording == m->recording[collection][next]
                              : number == CATALOGUE_ABSENT);
        }
    GIVES(CATALOGUE_NO_COLLECTION, catalogue_file_find(f, 3, 1, &found));
    GIVES(CATALOGUE_NO_COLLECTION, catalogue_file_find(f, 0, 1, &found));
    return true;
}

struct walk {
    const struct model *m;
    uint64_t collection, next, steps, most;
    bool wrong;
};

static int step(void *context, const struct catalogue_file_pair *pair)
{
    struct walk *w = context;
    w->next = next_in(w->m, w->collection, w->next);
    w->wrong = w->wrong || pair->key != w->next || pair->recording != w->m->recording[w->collection][pair->key];
    w->next++;
    return ++w->steps == w->most;
}

static bool walks_agree(catalogue_file *f, const struct model *m)
{
    for (uint64_t low = 0; low < KEYS; low += 37)
        for (uint64_t high = low; high < KEYS + 50; high += 101) {
            struct walk w = {.m = m, .collection = 1 + low % 2, .next = low};
            uint64_t wanted = 0;
            for (uint64_t key = low; key <= high && key < KEYS; key++)
                wanted += m->recording[w.collection][key] != 0;
            GIVES(0, catalogue_file_walk(f, w.collection, low, high, step, &w));
            CHECK(!w.wrong && w.steps == wanted);
        }
    struct walk w = {.m = m, .collection = 1, .most = 5};
    GIVES(CATALOGUE_FILE_STOPPED, catalogue_file_walk(f, 1, 0, UINT64_MAX, step, &w));
    CHECK(w.steps == 5 && !w.wrong);
    GIVES(0, catalogue_file_walk(f, 1, 9, 3, step, &w));
    GIVES(CATALOGUE_NO_COLLECTION, catalogue_file_walk(f, 9, 0, 3, step, &w));
    CHECK(w.steps == 5);
    return true;
}

static bool finds_and_walks(void)
{
    static struct model m;
    catalogue_file *f = catalogue_file_new();
    CHECK(fill(&m, at("model")));
    for (uint64_t flags = CATALOGUE_FILE_READING; flags <= CATALOGUE_FILE_WRITING; flags++) {
        GIVES(0, catalogue_file_open(f, at("model"), flags, 0));
        CHECK(finds_agree(f, &m) && walks_agree(f, &m));
    }
    catalogue_file_free(f);
    return true;
}

static int count_step(void *context, const struct catalogue_file_pair *pair)
{
    *(uint64_t *)context += pair->key == UINT64_MAX || pair->key == 5;
    return 0;
}

/* The highest key ends a walk. */
static bool the_highest_key(void)
{
    catalogue_file *f = catalogue_file_new();
    struct catalogue_file_pair found;
    uint64_t steps = 0;
    GIVES(0, catalogue_file_create(f, at("highest"), 3, 1));
    GIVES(0, catalogue_file_open(f, at("highest"), CATALOGUE_FILE_WRITING, 0));
    GIVES(0, catalogue_file_add(f, 1, UINT64_MAX, 7, 0));
    GIVES(0, catalogue_file_add(f, 1, 5, 8, 0));
    GIVES(0, catalogue_file_next(f, 1, 6, &found));
    CHECK(found.key == UINT64_MAX && found.recording == 7);
    GIVES(0, catalogue_file_next(f, 1, UINT64_MAX, &found));
    GIVES(0, catalogue_file_walk(f, 1, 0, UINT64_MAX, count_step, &steps));
    CHECK(steps == 2);
    catalogue_file_free(f);
    return true;
}

/* A class that there is not is no answer; a way that is not whole is none. */
static bool damaged_words(void)
{
    catalogue_file *f = catalogue_file_new();
    struct catalogue_file_pair found;
    uint64_t report[CATALOGUE_CHECK_WORDS];
    CHECK(table_with(at("damaged"), 20, 60));
    /* The first leaf has the lowest keys: node 1. */
    uint64_t pointer = get_word(at("damaged"), 8 + 9);
    CHECK(get_word(at("damaged"), 8 + 8) == 10 && pointer == 1010);
    CHECK(put_word(at("damaged"), 8 + 9, CATALOGUE_POINTER(1010, 9)) && put_word(at("damaged"), 8 + 11, CATALOGUE_POINTER(0, 1)));
    for (uint64_t flags = CATALOGUE_FILE_READING; flags <= CATALOGUE_FILE_WRITING; flags++) {
        GIVES(0, catalogue_file_open(f, at("damaged"), flags, 0));
        GIVES(CATALOGUE_NOT_SOUND, catalogue_file_find(f, 1, 10, &found));
        CHECK(found.recording == 0 && found.access == 0);
        GIVES(CATALOGUE_NOT_SOUND, catalogue_file_next(f, 1, 0, &found));
        GIVES(CATALOGUE_NOT_SOUND, catalogue_file_find(f, 1, 20, &found));
        GIVES(0, catalogue_file_find(f, 1, 30, &found));
        GIVES(CATALOGUE_NOT_SOUND, catalogue_file_check(f, report));
    }
    GIVES(CATALOGUE_NOT_SOUND, catalogue_file_add(f, 1, 11, 5, 0));
    GIVES(CATALOGUE_NO_COLLECTION, catalogue_file_add(f, 2, 11, 5, 0));
    CHECK(catalogue_file_outcome(f) == CATALOGUE_FILE_NOT_MADE);
    GIVES(0, catalogue_file_close(f));
    /* One changed word, the level of the root: no search passes. */
    uint64_t root = get_word(at("damaged"), 1);
    CHECK(put_word(at("damaged"), 8 + 32 * (root - 1) + 2, UINT64_MAX));
    for (uint64_t flags = CATALOGUE_FILE_READING; flags <= CATALOGUE_FILE_WRITING; flags++) {
        GIVES(0, catalogue_file_open(f, at("damaged"), flags, 0));
        for (uint64_t key = 0; key < 700; key += 5)
            GIVES(CATALOGUE_SEARCH_LOST, catalogue_file_find(f, 1, key, &found));
        GIVES(CATALOGUE_SEARCH_LOST, catalogue_file_walk(f, 1, 0, 9, NULL, NULL));
    }
    catalogue_file_free(f);
    return true;
}

struct drops {
    uint64_t count, stop;
    struct catalogue_file_drop last;
};

static int drop(void *context, const struct catalogue_file_drop *d)
{
    struct drops *drops = context;
    drops->last = *d;
    return ++drops->count == drops->stop;
}

static bool salvages(void)
{
    catalogue_file *f = catalogue_file_new(), *saved = catalogue_file_new();
    struct catalogue_file_pair found;
    struct drops drops = {0};
    uint64_t dropped = 99;
    CHECK(table_with(at("hurt"), 20, 60) && put_word(at("hurt"), 8 + 9, CATALOGUE_POINTER(1010, 9)));
    GIVES(0, catalogue_file_open(f, at("hurt"), CATALOGUE_FILE_READING, 0));
    drops.stop = 1;
    GIVES(CATALOGUE_FILE_STOPPED, catalogue_file_salvage(f, at("saved"), drop, &drops, &dropped));
    CHECK(dropped == 99 && access(at("saved"), F_OK) != 0);
    drops = (struct drops){0};
    GIVES(0, catalogue_file_salvage(f, at("saved"), drop, &drops, &dropped));
    CHECK(dropped == 1 && drops.count == 1 && drops.last.node == 1 && drops.last.slot == 0 && drops.last.key == 10
          && drops.last.pointer == CATALOGUE_POINTER(1010, 9) && drops.last.reason == CATALOGUE_DROPPED_RANGE);
    GIVES(CATALOGUE_FILE_EXISTS, catalogue_file_salvage(f, at("saved"), NULL, NULL, &dropped));
    GIVES(0, catalogue_file_open(saved, at("saved"), CATALOGUE_FILE_WRITING, 0));
    for (uint64_t key = 20; key <= 600; key += 10) {
        GIVES(0, catalogue_file_find(saved, 1, key, &found));
        CHECK(found.recording == 1000 + key);
    }
    GIVES(CATALOGUE_ABSENT, catalogue_file_find(saved, 1, 10, &found));
    GIVES(0, catalogue_file_add(saved, 1, 10, 1010, 0));
    catalogue_file_free(f);
    catalogue_file_free(saved);
    return true;
}

/* A header of zeros, and a file cut short in its last leaf: with the nodes and the root that they had. */
static bool rescues(void)
{
    catalogue_file *f = catalogue_file_new(), *saved = catalogue_file_new();
    struct catalogue_file_pair found;
    struct drops drops = {0};
    uint64_t dropped = 99;
    CHECK(table_with(at("lost"), 20, 60));
    const uint64_t roots[2] = {get_word(at("lost"), 1), 0}, none[2] = {0, 0}, both[2] = {3, 3}, outside[2] = {21, 0};
    for (size_t word = 0; word < 8; word++)
        CHECK(put_word(at("lost"), word, UINT64_MAX));
    GIVES(CATALOGUE_NO_TABLE, catalogue_file_open(f, at("lost"), CATALOGUE_FILE_READING, 0));
    GIVES(CATALOGUE_NO_TABLE, catalogue_file_rescue(f, at("lost"), 20, none, at("found"), NULL, NULL, &dropped));
    GIVES(CATALOGUE_NO_TABLE, catalogue_file_rescue(f, at("lost"), 20, both, at("found"), NULL, NULL, &dropped));
    GIVES(CATALOGUE_NO_TABLE, catalogue_file_rescue(f, at("lost"), 20, outside, at("found"), NULL, NULL, &dropped));
    GIVES(CATALOGUE_NO_TABLE, catalogue_file_rescue(f, at("lost"), 65536, roots, at("found"), NULL, NULL, &dropped));
    GIVES(CATALOGUE_FILE_NO_FILE, catalogue_file_rescue(f, at("nothing"), 20, roots, at("found"), NULL, NULL, &dropped));
    CHECK(dropped == 99 && access(at("found"), F_OK) != 0);
    GIVES(0, catalogue_file_rescue(f, at("lost"), 20, roots, at("found"), drop, &drops, &dropped));
    CHECK(dropped == 0 && drops.count == 0);
    GIVES(CATALOGUE_FILE_EXISTS, catalogue_file_rescue(f, at("lost"), 20, roots, at("found"), NULL, NULL, &dropped));
    GIVES(0, catalogue_file_open(saved, at("found"), CATALOGUE_FILE_READING, 0));
    for (uint64_t key = 10; key <= 600; key += 10) {
        GIVES(0, catalogue_file_find(saved, 1, key, &found));
        CHECK(found.recording == 1000 + key);
    }
    /* One node is left, the first leaf: its codes stay, though its sibling is gone. */
    CHECK(truncate(at("lost"), 64 + 256 + 10) == 0);
    const uint64_t first[2] = {1, 0};
    GIVES(0, catalogue_file_rescue(f, at("lost"), 20, first, at("part"), NULL, NULL, &dropped));
    GIVES(0, catalogue_file_open(saved, at("part"), CATALOGUE_FILE_READING, 0));
    GIVES(0, catalogue_file_find(saved, 1, 10, &found));
    GIVES(CATALOGUE_ABSENT, catalogue_file_find(saved, 1, 600, &found));
    catalogue_file_free(f);
    catalogue_file_free(saved);
    return true;
}

static bool copies(void)
{
    static struct model m;
    catalogue_file *f = catalogue_file_new(), *copy = catalogue_file_new();
    struct catalogue_file_about what;
    uint64_t nodes = 1, needed = 0;
    CHECK(fill(&m, at("full")));
    GIVES(0, catalogue_file_open(f, at("full"), CATALOGUE_FILE_READING, 0));
    GIVES(CATALOGUE_NO_TABLE, catalogue_file_copy(f, at("copy"), &nodes));
    nodes = 2;
    GIVES(CATALOGUE_NO_NODES, catalogue_file_copy(f, at("copy"), &nodes));
    CHECK(access(at("copy"), F_OK) != 0 && strstr(catalogue_file_message(f), "packed, take"));
    GIVES(0, catalogue_file_copy(f, at("copy"), &needed));
    CHECK(needed > 10 && needed < 200);
    GIVES(CATALOGUE_FILE_EXISTS, catalogue_file_copy(f, at("copy"), &needed));
    nodes = needed - 1;
    GIVES(CATALOGUE_NO_NODES, catalogue_file_copy(f, at("smaller"), &nodes));
    nodes = 400;
    GIVES(0, catalogue_file_copy(f, at("larger"), &nodes));
    for (int i = 0; i < 2; i++) {
        GIVES(0, catalogue_file_open(copy, i == 0 ? at("copy") : at("larger"), CATALOGUE_FILE_READING, 0));
        GIVES(0, catalogue_file_about(copy, &what));
        CHECK(what.nodes == (i == 0 ? needed : 400) && what.collections == 2 && finds_agree(copy, &m));
    }
    catalogue_file_free(f);
    catalogue_file_free(copy);
    return true;
}

static bool checks(void)
{
    catalogue_file *f = catalogue_file_new();
    uint64_t report[CATALOGUE_CHECK_WORDS] = {9, 9};
    struct catalogue_file_change change = {.kind = CATALOGUE_FILE_ADD, .collection = 1, .key = 15, .recording = 1, .cut = 1};
    CHECK(table_with(at("checked"), 20, 60));
    GIVES(0, catalogue_file_open(f, at("checked"), CATALOGUE_FILE_WRITING, 0));
    GIVES(0, catalogue_file_check(f, report));
    CHECK(report[CATALOGUE_CHECK_LEFTOVER] == CATALOGUE_SETTLED);
    GIVES(CATALOGUE_FILE_CUT, catalogue_file_change(f, &change));
    change.cut = 3;
    GIVES(CATALOGUE_FILE_CUT, catalogue_file_change(f, &change));
    GIVES(0, catalogue_file_check(f, report));
    CHECK(report[CATALOGUE_CHECK_LEFTOVER] == CATALOGUE_LEFT_A);
    CHECK(report[CATALOGUE_CHECK_COLLECTION] == 1 && report[CATALOGUE_CHECK_HIDDEN_NODE] == 1);
    CHECK(report[CATALOGUE_CHECK_NODES] == 20 && report[CATALOGUE_CHECK_CODES_OF(1)] == 60 && report[CATALOGUE_CHECK_CODES_OF(2)] == 0);
    GIVES(0, catalogue_file_repair(f));
    GIVES(0, catalogue_file_check(f, report));
    CHECK(report[CATALOGUE_CHECK_LEFTOVER] == CATALOGUE_SETTLED);
    catalogue_file_free(f);
    return true;
}

/* The words of one moment, for the core's calls. */
static bool tables(void)
{
    catalogue_file *f = catalogue_file_new();
    const uint64_t *table;
    uint64_t out[200], pairs, more;
    size_t words, bytes;
    CHECK(table_with(at("words"), 20, 60));
    char *all = contents(at("words"), &bytes);
    for (uint64_t flags = CATALOGUE_FILE_READING; flags <= CATALOGUE_FILE_WRITING; flags++) {
        GIVES(0, catalogue_file_open(f, at("words"), flags, 0));
        GIVES(0, catalogue_file_table(f, &table, &words));
        CHECK(words == 8 + 32 * 20 && memcmp(table, all, 8 * words) == 0);
        GIVES(0, catalogue_list(table, words, 1, 0, UINT64_MAX, out, 200, &pairs, &more));
        CHECK(pairs == 60 && more == 0);
    }
    free(all);
    catalogue_file_free(f);
    return true;
}

const struct test reading_tests[] = {
    {"finds and walks", finds_and_walks},
    {"the highest key", the_highest_key},
    {"damaged words", damaged_words},
    {"salvages", salvages},
    {"rescues", rescues},
    {"copies", copies},
    {"checks", checks},
    {"tables", tables},
    {NULL, NULL},
};
