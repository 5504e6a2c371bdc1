/* A disk that fails: what was answered is there, and what was not is said truly. */
#include <stdlib.h>
#include <string.h>
#include <unistd.h>

#include "check.h"

#define NODES 40
#define WORDS (8 + 32 * NODES)

/* The disk's image of the table answers this key: its recording, 0 for absent, UINT64_MAX if it is lost. */
static uint64_t on_disk(uint64_t key)
{
    uint64_t recording, access, next, higher;
    uint64_t number = catalogue_search((const uint64_t *)(const void *)disk.image, WORDS, 1, key, &recording, &access, &next, &higher);
    return number == 0 ? recording : number == CATALOGUE_ABSENT ? 0 : UINT64_MAX;
}

static bool sound_on_disk(void)
{
    static uint64_t table[WORDS], orders[CATALOGUE_LIST_WORDS];
    uint64_t stores, flushes, barriers;
    memcpy(table, disk.image, sizeof table);
    return catalogue_repair(table, WORDS, orders, CATALOGUE_LIST_WORDS, 0, &stores, &flushes, &barriers) == 0;
}

/* A table with its image on the disk, open for writing. */
static bool begin(catalogue_file *f, const char *name, uint64_t flags)
{
    catalogue_file_close(f);
    unlink(name);
    free(disk.image);
    disk = (struct disk){0};
    CHECK(table_with(name, NODES, 60));
    disk = (struct disk){.bytes = 8 * WORDS};
    size_t bytes;
    disk.image = contents(name, &bytes);
    GIVES(0, catalogue_file_open(f, name, flags, 0));
    return true;
}

static bool others_on_disk(uint64_t but)
{
    for (uint64_t key = 10; key <= 600; key += 10)
        CHECK(key == but || on_disk(key) == 1000 + key);
    return sound_on_disk();
}

/* The key's answers without and with the change. */
struct trial {
    struct catalogue_file_change change;
    uint64_t before, after;
};

/* Each wait for the disk of a change fails, once or from then on. */
static bool each_wait_fails(const struct trial *t, bool on)
{
    catalogue_file *f = catalogue_file_new();
    struct catalogue_file_pair found;
    bool failing = true;
    for (uint64_t fail = 1; failing; fail++) {
        struct catalogue_file_change change = t->change, next = {.kind = CATALOGUE_FILE_ADD, .collection = 1, .key = 999, .recording = 999};
        CHECK(begin(f, at("d"), CATALOGUE_FILE_WRITING));
        uint64_t opened = disk.syncs;
        disk.fail = opened + fail;
        disk.fail_on = on;
        uint64_t number = catalogue_file_change(f, &change), outcome = catalogue_file_outcome(f);
        failing = disk.syncs >= disk.fail;
        CHECK(failing ? number == CATALOGUE_FILE_DISK : number == 0 && outcome == CATALOGUE_FILE_MADE);
        CHECK(catalogue_file_errno(f) == (failing ? 5 : 0));
        /* What the handle says is what it answers, and what the disk may have. */
        uint64_t got = catalogue_file_find(f, 1, change.key, &found), now = got == 0 ? found.recording : 0;
        CHECK(now == (outcome == CATALOGUE_FILE_NOT_MADE ? t->before : t->after));
        CHECK(on_disk(change.key) == t->before || (outcome != CATALOGUE_FILE_NOT_MADE && on_disk(change.key) == t->after));
        CHECK(others_on_disk(change.key));
        /* While the disk fails nothing is made. */
        next.cut = CATALOGUE_FILE_ALL;
        if (on && failing) {
            GIVES(CATALOGUE_FILE_DISK, catalogue_file_change(f, &next));
            CHECK(catalogue_file_outcome(f) == CATALOGUE_FILE_NOT_MADE && others_on_disk(change.key));
            GIVES(CATALOGUE_FILE_DISK, catalogue_file_sync(f));
        }
        /* Then the next change is, and the disk has all that was answered, word for word. */
        disk.fail = 0;
        if (fail % 2 == 0) {
            GIVES(0, catalogue_file_sync(f));
            CHECK(on ? catalogue_file_outcome(f) == CATALOGUE_FILE_NOT_MADE || !failing
                     : catalogue_file_outcome(f) == (now == t->before ? CATALOGUE_FILE_NOT_MADE : CATALOGUE_FILE_MADE));
        }
        GIVES(0, catalogue_file_change(f, &next));
        CHECK(on_disk(999) == 999 && on_disk(change.key) == now && others_on_disk(change.key));
        size_t bytes;
        char *all = contents(at("d"), &bytes);
        CHECK(memcmp(all, disk.image, 8 * WORDS) == 0);
        free(all);
    }
    catalogue_file_free(f);
    return true;
}

static const struct trial trials[] = {
    {{.kind = CATALOGUE_FILE_ADD, .collection = 1, .key = 605, .recording = 7, .cut = UINT64_MAX}, 0, 7},
    {{.kind = CATALOGUE_FILE_ADD, .collection = 1, .key = 15, .recording = 7, .cut = UINT64_MAX}, 0, 7},
    {{.kind = CATALOGUE_FILE_REMOVE, .collection = 1, .key = 250, .cut = UINT64_MAX}, 1250, 0},
};

static bool waits_that_fail(void)
{
    for (size_t i = 0; i < sizeof trials / sizeof trials[0]; i++)
        CHECK(each_wait_fails(&trials[i], false) && each_wait_fails(&trials[i], true));
    return true;
}

/* A change that is answered is on the disk, word for word; every wait before that leaves the old answer or the new one there. */
static bool answered_changes_last(void)
{
    catalogue_file *f = catalogue_file_new();
    CHECK(begin(f, at("l"), CATALOGUE_FILE_WRITING));
    for (uint64_t key = 1; key < 90; key += 2) {
        uint64_t syncs = disk.syncs;
        GIVES(0, catalogue_file_add(f, 1, key, key, 0));
        CHECK(disk.syncs > syncs && on_disk(key) == key);
        size_t bytes;
        char *all = contents(at("l"), &bytes);
        CHECK(memcmp(all, disk.image, 8 * WORDS) == 0);
        free(all);
    }
    CHECK(others_on_disk(0));
    catalogue_file_free(f);
    return true;
}

/* A fast handle waits for the disk once, when it is synced or closed. */
static bool fast_changes(void)
{
    catalogue_file *f = catalogue_file_new();
    CHECK(begin(f, at("q"), CATALOGUE_FILE_WRITING | CATALOGUE_FILE_FAST));
    uint64_t opened = disk.syncs;
    for (uint64_t key = 1; key < 90; key += 2)
        GIVES(0, catalogue_file_add(f, 1, key, key, 0));
    CHECK(disk.syncs == opened && on_disk(1) == 0);
    disk.fail = opened + 1;
    GIVES(CATALOGUE_FILE_DISK, catalogue_file_sync(f));
    CHECK(on_disk(1) == 0);
    GIVES(0, catalogue_file_sync(f));
    CHECK(disk.syncs == opened + 2 && on_disk(1) == 1 && on_disk(89) == 89);
    GIVES(0, catalogue_file_sync(f));
    CHECK(disk.syncs == opened + 2);
    GIVES(0, catalogue_file_remove(f, 1, 1));
    GIVES(0, catalogue_file_close(f));
    CHECK(on_disk(1) == 0 && others_on_disk(0));
    catalogue_file_free(f);
    return true;
}

/* A repair writes every page again, also what the system takes for written. */
static bool a_repair_writes_all(void)
{
    catalogue_file *f = catalogue_file_new();
    CHECK(begin(f, at("r"), CATALOGUE_FILE_WRITING));
    memset(disk.image, 0, disk.bytes);
    GIVES(0, catalogue_file_repair(f));
    CHECK(others_on_disk(0));
    disk.fail = disk.syncs + 1;
    GIVES(CATALOGUE_FILE_DISK, catalogue_file_repair(f));
    catalogue_file_free(f);
    return true;
}

/* The first wait is for what was there before: a file that does not reach the disk is not opened for writing. */
static bool opening_waits(void)
{
    catalogue_file *f = catalogue_file_new();
    CHECK(table_with(at("o"), NODES, 60));
    disk = (struct disk){.fail = 1};
    GIVES(CATALOGUE_FILE_DISK, catalogue_file_open(f, at("o"), CATALOGUE_FILE_WRITING, 0));
    CHECK(strstr(catalogue_file_message(f), "did not reach the disk: Input/output error"));
    disk = (struct disk){.no_folder = true};
    GIVES(CATALOGUE_FILE_FOLDER, catalogue_file_open(f, at("o"), CATALOGUE_FILE_WRITING, 0));
    GIVES(0, catalogue_file_open(f, at("o"), CATALOGUE_FILE_READING, 0));
    CHECK(disk.syncs == 0);
    GIVES(CATALOGUE_FILE_FOLDER, catalogue_file_create(f, at("o2"), 3, 1));
    catalogue_file_free(f);
    return true;
}

/* A load by batches whose disk fails: every line is added, in the table and perhaps not lasting, or not taken; the disk agrees. */
static bool loads_that_fail(void)
{
    catalogue_file *f = catalogue_file_new();
    uint64_t pairs[60], numbers[30];
    for (uint64_t i = 0; i < 30; i++) {
        pairs[2 * i] = 3 + 10 * (i * 7 % 30);
        pairs[2 * i + 1] = CATALOGUE_POINTER(5000 + i, 0);
    }
    for (uint64_t fail = 1; fail < 75; fail++) {
        CHECK(begin(f, at("b"), CATALOGUE_FILE_WRITING));
        disk.fail = disk.syncs + fail;
        disk.fail_on = true;
        uint64_t number = catalogue_file_load_pairs(f, 1, CATALOGUE_FILE_IN_PLACE, pairs, 30, numbers);
        bool failed = disk.syncs >= disk.fail, over = false;
        unsigned unknown = 0;
        GIVES(failed ? CATALOGUE_FILE_DISK : 0, number);
        for (uint64_t i = 0; i < 30; i++) {
            struct catalogue_file_pair found;
            uint64_t got = catalogue_file_find(f, 1, pairs[2 * i], &found);
            over = over || numbers[i] != 0;
            unknown += numbers[i] == CATALOGUE_FILE_DISK;
            CHECK(numbers[i] == (over ? numbers[i] == CATALOGUE_FILE_DISK ? CATALOGUE_FILE_DISK : CATALOGUE_FILE_NOT_TAKEN : 0));
            CHECK(got == (numbers[i] == CATALOGUE_FILE_NOT_TAKEN ? CATALOGUE_ABSENT : 0));
            CHECK(numbers[i] != 0 || on_disk(pairs[2 * i]) == 5000 + i);
            CHECK(numbers[i] != CATALOGUE_FILE_NOT_TAKEN || on_disk(pairs[2 * i]) == 0);
        }
        CHECK(unknown <= 1 && others_on_disk(0));
    }
    catalogue_file_free(f);
    return true;
}

/* In persistent memory a flush is an instruction: only the opening waits for the disk. */
static bool persistent_memory(void)
{
    catalogue_file *f = catalogue_file_new();
    struct catalogue_file_about about;
    CHECK(table_with(at("persistent"), NODES, 60));
    disk = (struct disk){.persistent = true};
    GIVES(0, catalogue_file_open(f, at("persistent"), CATALOGUE_FILE_WRITING, 0));
    GIVES(0, catalogue_file_about(f, &about));
    CHECK(about.persistent == 1 && disk.syncs == 1);
    for (uint64_t key = 1; key < 90; key += 2) {
        GIVES(0, catalogue_file_add(f, 1, key, key, 0));
        CHECK(catalogue_file_outcome(f) == CATALOGUE_FILE_MADE);
    }
    GIVES(0, catalogue_file_close(f));
    CHECK(disk.syncs == 1);
    catalogue_file_free(f);
    return true;
}

/* There no change is made without such an instruction, and nothing is stored; elsewhere it is the caller's choice. */
static bool no_flush(void)
{
    catalogue_file *f = catalogue_file_new();
    size_t bytes, again;
    CHECK(table_with(at("unflushed"), NODES, 60));
    char *before = contents(at("unflushed"), &bytes);
    for (uint64_t fast = 0; fast <= CATALOGUE_FILE_FAST; fast += CATALOGUE_FILE_FAST) {
        struct catalogue_file_options options = {.flags = CATALOGUE_FILE_WRITING | fast, .dock = CATALOGUE_FILE_DOCK, .flush = "none"};
        disk = (struct disk){.persistent = true};
        GIVES(CATALOGUE_FILE_NO_FLUSH, catalogue_file_open_with(f, at("unflushed"), &options));
        CHECK(strstr(catalogue_file_message(f), "persistent memory") && disk.syncs == 0);
        GIVES(CATALOGUE_FILE_NOT_OPEN, catalogue_file_add(f, 1, 15, 7, 0));
        char *after = contents(at("unflushed"), &again);
        CHECK(again == bytes && memcmp(before, after, bytes) == 0);
        free(after);
        options.flush = catalogue_file_flush(NULL);
        GIVES(0, catalogue_file_open_with(f, at("unflushed"), &options));
        disk.persistent = false;
        options.flush = "none";
        GIVES(0, catalogue_file_open_with(f, at("unflushed"), &options));
        GIVES(0, catalogue_file_close(f));
    }
    disk.persistent = true;
    struct catalogue_file_options reading = {.flush = "none"};
    GIVES(0, catalogue_file_open_with(f, at("unflushed"), &reading));
    free(before);
    catalogue_file_free(f);
    return true;
}

/* A packed load leaves the handle with another file, which may lie elsewhere; then a split waits for the disk at each flush. */
static bool waits_after_load(const char *name, const struct catalogue_file_options *options, bool persistent)
{
    catalogue_file *f = catalogue_file_new();
    uint64_t pairs[120];
    for (uint64_t i = 0; i < 60; i++) {
        pairs[2 * i] = 10 * (i + 1);
        pairs[2 * i + 1] = CATALOGUE_POINTER(1010 + 10 * i, 0);
    }
    disk = (struct disk){.persistent = !persistent};
    GIVES(0, catalogue_file_create(f, name, NODES, 1));
    GIVES(0, catalogue_file_open_with(f, name, options));
    disk.persistent = persistent;
    GIVES(0, catalogue_file_load_pairs(f, 1, 0, pairs, 60, NULL));
    struct catalogue_file_change split = {.kind = CATALOGUE_FILE_ADD, .collection = 1, .key = 15, .recording = 7, .cut = CATALOGUE_FILE_ALL};
    uint64_t syncs = disk.syncs;
    GIVES(0, catalogue_file_change(f, &split));
    CHECK(split.flushes > 5 && disk.syncs - syncs == split.flushes);
    catalogue_file_free(f);
    return true;
}

static bool another_medium(void)
{
    const struct catalogue_file_options plain = {.flags = CATALOGUE_FILE_WRITING, .dock = CATALOGUE_FILE_DOCK};
    const struct catalogue_file_options none = {.flags = CATALOGUE_FILE_WRITING | CATALOGUE_FILE_FAST, .dock = CATALOGUE_FILE_DOCK, .flush = "none"};
    return waits_after_load(at("medium"), &plain, false) && waits_after_load(at("medium2"), &none, true);
}

const struct test disk_tests[] = {
    {"waits that fail", waits_that_fail},
    {"answered changes last", answered_changes_last},
    {"fast changes", fast_changes},
    {"a repair writes all", a_repair_writes_all},
    {"opening waits", opening_waits},
    {"loads that fail", loads_that_fail},
    {"persistent memory", persistent_memory},
    {"no flush", no_flush},
    {"another medium", another_medium},
    {NULL, NULL},
};
