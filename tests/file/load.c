/* Loads: packed and by batches, what becomes of each line, and new files that cannot be made. */
#include <stdlib.h>
#include <string.h>
#include <sys/stat.h>
#include <unistd.h>

#include "check.h"

#define MOST 4000

struct source {
    const struct catalogue_file_line *lines;
    size_t count, at, later;     /* later: before every so many lines the next one is not there yet */
    uint64_t numbers[MOST];      /* what became of each */
    uint64_t there[MOST];        /* what its code has */
    uint64_t back[MOST], backs;  /* in which order */
    uint64_t waits, orders, end; /* end: ends the load after so many lines came back */
    bool asked;
};

static int next(void *context, struct catalogue_file_line *line, int wait)
{
    struct source *s = context;
    if (s->at == s->count)
        return CATALOGUE_FILE_END;
    if (s->later > 0 && s->at % s->later == 0 && !wait) {
        s->waits++;
        return CATALOGUE_FILE_LATER;
    }
    *line = s->lines[s->at];
    line->tag = s->at++;
    return CATALOGUE_FILE_LINE;
}

static int done(void *context, const struct catalogue_file_line *line)
{
    struct source *s = context;
    s->numbers[line->tag] = line->number;
    s->there[line->tag] = line->there;
    s->back[s->backs++] = line->tag;
    return s->end != 0 && s->backs == s->end;
}

static void orders(void *context, const uint64_t *list, uint64_t count)
{
    struct source *s = context;
    s->orders += list ? count : 0;
}

static struct catalogue_file_load load_of(struct source *s, uint64_t flags)
{
    memset(s->numbers, 0xff, sizeof s->numbers);
    s->at = s->backs = s->waits = s->orders = 0;
    return (struct catalogue_file_load){.collection = 1, .flags = flags, .next = next, .done = done, .orders = orders, .context = s};
}

static struct catalogue_file_line line_of(uint64_t key, uint64_t recording)
{
    return (struct catalogue_file_line){.key = key, .recording = recording, .access = CATALOGUE_OPEN, .classed = 1};
}

/* Lines in no order, each key once. */
static void some_lines(struct catalogue_file_line *lines, size_t count)
{
    for (size_t i = 0; i < count; i++)
        lines[i] = line_of(10 * (1 + i * 7919 % count), 1000 + 10 * (1 + i * 7919 % count));
}

static bool has_all(catalogue_file *f, uint64_t count)
{
    struct catalogue_file_pair found;
    for (uint64_t key = 10; key <= 10 * count; key += 10) {
        GIVES(0, catalogue_file_find(f, 1, key, &found));
        CHECK(found.recording == 1000 + key);
        GIVES(CATALOGUE_ABSENT, catalogue_file_find(f, 1, key + 1, &found));
    }
    return true;
}

static struct source source;
static struct catalogue_file_line lines[MOST];

/* Into an empty table: a new file takes its place, with its rights, and an open reader follows. */
static bool packed(void)
{
    catalogue_file *f = catalogue_file_new(), *r = catalogue_file_new();
    struct catalogue_file_pair found;
    struct stat before, after;
    some_lines(lines, 1000);
    source = (struct source){.lines = lines, .count = 1000, .later = 10};
    GIVES(0, catalogue_file_create(f, at("p"), 300, 1));
    CHECK(chmod(at("p"), 0640) == 0 && stat(at("p"), &before) == 0);
    GIVES(0, catalogue_file_open(f, at("p"), CATALOGUE_FILE_WRITING, 0));
    GIVES(0, catalogue_file_open(r, at("p"), CATALOGUE_FILE_READING, 0));
    GIVES(CATALOGUE_ABSENT, catalogue_file_find(r, 1, 10, &found));
    struct catalogue_file_load load = load_of(&source, 0);
    disk.folder_synced = false;
    GIVES(0, catalogue_file_load(f, &load));
    CHECK(disk.folder_synced && catalogue_file_outcome(f) == CATALOGUE_FILE_MADE);
    CHECK(load.added == 1000 && load.there == 0 && load.refused == 0 && load.not_taken == 0 && load.unknown == 0);
    CHECK(source.backs == 1000 && source.waits == 0 && source.orders == 0);
    for (size_t i = 0; i < 1000; i++)
        CHECK(source.numbers[i] == 0 && source.back[i] == i);
    CHECK(stat(at("p"), &after) == 0 && after.st_ino != before.st_ino && (after.st_mode & 07777) == 0640);
    CHECK(has_all(f, 1000) && has_all(r, 1000));
    /* The handle goes on with the new file, and has its lock. */
    GIVES(0, catalogue_file_add(f, 1, 15, 15, 0));
    GIVES(0, catalogue_file_find(r, 1, 15, &found));
    GIVES(CATALOGUE_FILE_IN_USE, catalogue_file_open(r, at("p"), CATALOGUE_FILE_WRITING, 0));
    /* Once more: every line is there. */
    load = load_of(&source, CATALOGUE_FILE_AGAIN);
    GIVES(0, catalogue_file_load(f, &load));
    CHECK(load.added == 0 && load.there == 1000 && source.backs == 1000 && catalogue_file_outcome(f) == CATALOGUE_FILE_NOT_MADE);
    catalogue_file_free(f);
    catalogue_file_free(r);
    return true;
}

/* Into a table with codes; the source waits now and then, and its lines are in the table meanwhile. */
static bool by_batches(void)
{
    catalogue_file *f = catalogue_file_new(), *r = catalogue_file_new();
    some_lines(lines, 1500);
    for (uint64_t flags = 0; flags <= CATALOGUE_FILE_IN_PLACE; flags += CATALOGUE_FILE_IN_PLACE)
        for (uint64_t fast = 0; fast <= CATALOGUE_FILE_FAST; fast += CATALOGUE_FILE_FAST) {
            unlink(at("b"));
            CHECK(table_with(at("b"), 600, 0));
            source = (struct source){.lines = lines, .count = 1500, .later = 400};
            GIVES(0, catalogue_file_open(f, at("b"), CATALOGUE_FILE_WRITING | fast, 0));
            GIVES(0, catalogue_file_open(r, at("b"), CATALOGUE_FILE_READING, 0));
            struct catalogue_file_load load = load_of(&source, CATALOGUE_FILE_BY_ORDERS | flags);
            GIVES(0, catalogue_file_load(f, &load));
            CHECK(load.added == 1500 && source.backs == 1500 && source.orders > 3000 && source.waits == 3);
            for (size_t i = 0; i < 1500; i++)
                CHECK(source.numbers[i] == 0 && source.back[i] == i);
            CHECK(has_all(f, 1500) && has_all(r, 1500));
            GIVES(0, catalogue_file_close(f));
        }
    catalogue_file_free(f);
    catalogue_file_free(r);
    return true;
}

/* Good lines, refused ones of each kind, one that the caller refuses, one that is there, by both ways. */
static bool what_becomes_of_lines(void)
{
    catalogue_file *f = catalogue_file_new();
    const uint64_t wanted[] = {0, 0, CATALOGUE_KEY_PRESENT, CATALOGUE_RECORDING_PRESENT, 0, CATALOGUE_BAD_RECORDING, CATALOGUE_BAD_CLASS, 65,
                               CATALOGUE_FILE_THERE, CATALOGUE_FILE_THERE, CATALOGUE_KEY_PRESENT, 0};
    struct catalogue_file_line some[] = {line_of(10, 1), line_of(20, 2), line_of(10, 3), line_of(30, 2), line_of(40, 4), line_of(50, 0),
                                         line_of(60, 6), line_of(70, 7), line_of(20, 2), line_of(40, 4), line_of(40, 4), line_of(80, 8)};
    size_t count = sizeof some / sizeof some[0];
    some[6].access = 3;
    some[7].number = 65;
    some[9].access = 2, some[9].classed = 0; /* says no class: it is there */
    some[10].access = 2;                     /* another class: it is not */
    for (uint64_t way = 0; way <= CATALOGUE_FILE_BY_ORDERS; way += CATALOGUE_FILE_BY_ORDERS) {
        unlink(at("l"));
        CHECK(table_with(at("l"), 20, 0));
        GIVES(0, catalogue_file_open(f, at("l"), CATALOGUE_FILE_WRITING, 0));
        source = (struct source){.lines = some, .count = count};
        struct catalogue_file_load load = load_of(&source, way | CATALOGUE_FILE_AGAIN | CATALOGUE_FILE_KEEP_GOING);
        GIVES(0, catalogue_file_load(f, &load));
        CHECK(load.added == 4 && load.there == 2 && load.refused == 6 && load.not_taken == 0);
        CHECK(load.first_refused == CATALOGUE_KEY_PRESENT && source.backs == count);
        for (size_t i = 0; i < count; i++)
            GIVES(wanted[i], source.numbers[i]);
        /* Without keeping going the third line ends it; what came before is there. */
        unlink(at("l"));
        CHECK(table_with(at("l"), 20, 0));
        GIVES(0, catalogue_file_open(f, at("l"), CATALOGUE_FILE_WRITING, 0));
        load = load_of(&source, way);
        GIVES(CATALOGUE_KEY_PRESENT, catalogue_file_load(f, &load));
        CHECK(load.added == 2 && load.refused == 1 && load.there == 0 && source.numbers[2] == CATALOGUE_KEY_PRESENT);
        CHECK(way == 0 ? load.not_taken == 0 && source.at == 3 : load.not_taken == count - 3 && source.numbers[7] == 65
              && source.numbers[3] == CATALOGUE_FILE_NOT_TAKEN);
        CHECK(source.backs == source.at);
        /* Brief: only what was refused comes back. */
        unlink(at("l"));
        CHECK(table_with(at("l"), 20, 0));
        GIVES(0, catalogue_file_open(f, at("l"), CATALOGUE_FILE_WRITING, 0));
        load = load_of(&source, way | CATALOGUE_FILE_AGAIN | CATALOGUE_FILE_KEEP_GOING | CATALOGUE_FILE_BRIEF);
        GIVES(0, catalogue_file_load(f, &load));
        CHECK(load.added == 4 && load.there == 2 && load.refused == 6 && source.backs == 6);
        /* The caller ends it. */
        unlink(at("l"));
        CHECK(table_with(at("l"), 20, 0));
        GIVES(0, catalogue_file_open(f, at("l"), CATALOGUE_FILE_WRITING, 0));
        load = load_of(&source, way | CATALOGUE_FILE_KEEP_GOING);
        source.end = 1;
        GIVES(0, catalogue_file_load(f, &load));
        CHECK(load.added >= 1 && load.added + load.there + load.refused + load.not_taken == source.backs && source.backs == source.at);
        GIVES(0, catalogue_file_close(f));
    }
    catalogue_file_free(f);
    return true;
}

static bool arrays(void)
{
    catalogue_file *f = catalogue_file_new();
    const uint64_t pairs[] = {30, CATALOGUE_POINTER(3, CATALOGUE_ROOM), 10, CATALOGUE_POINTER(1, 0), 30, CATALOGUE_POINTER(4, 0)};
    struct catalogue_file_pair found;
    uint64_t numbers[3];
    GIVES(0, catalogue_file_create(f, at("a"), 6, 2));
    GIVES(0, catalogue_file_open(f, at("a"), CATALOGUE_FILE_WRITING, 0));
    GIVES(0, catalogue_file_load_pairs(f, 2, CATALOGUE_FILE_KEEP_GOING, pairs, 3, numbers));
    CHECK(numbers[0] == 0 && numbers[1] == 0 && numbers[2] == CATALOGUE_KEY_PRESENT);
    GIVES(0, catalogue_file_find(f, 2, 30, &found));
    CHECK(found.recording == 3 && found.access == CATALOGUE_ROOM);
    /* Packing the one collection keeps the other. */
    GIVES(CATALOGUE_KEY_PRESENT, catalogue_file_load_pairs(f, 1, 0, pairs, 3, numbers));
    GIVES(0, catalogue_file_find(f, 1, 10, &found));
    GIVES(0, catalogue_file_find(f, 2, 10, &found));
    GIVES(0, catalogue_file_load_pairs(f, 2, 0, pairs, 0, NULL));
    GIVES(CATALOGUE_NO_COLLECTION, catalogue_file_load_pairs(f, 3, 0, pairs, 3, numbers));
    CHECK(numbers[0] == CATALOGUE_FILE_NOT_TAKEN && numbers[2] == CATALOGUE_FILE_NOT_TAKEN);
    GIVES(CATALOGUE_FILE_BAD_OPTION, catalogue_file_load_pairs(f, 1, 32, pairs, 3, numbers));
    catalogue_file_free(f);
    return true;
}

/* The first line without room ends the load; those before it are there. */
static bool full_tables(void)
{
    catalogue_file *f = catalogue_file_new();
    some_lines(lines, 200);
    for (uint64_t way = 0; way <= CATALOGUE_FILE_BY_ORDERS; way += CATALOGUE_FILE_BY_ORDERS) {
        unlink(at("f"));
        CHECK(table_with(at("f"), 10, 0));
        source = (struct source){.lines = lines, .count = 200};
        GIVES(0, catalogue_file_open(f, at("f"), CATALOGUE_FILE_WRITING, 0));
        struct catalogue_file_load load = load_of(&source, way | CATALOGUE_FILE_KEEP_GOING);
        GIVES(CATALOGUE_NO_NODES, catalogue_file_load(f, &load));
        CHECK(load.refused == 1 && load.added > 30 && source.backs == source.at);
        CHECK(source.numbers[load.added] == CATALOGUE_NO_NODES && source.numbers[load.added - 1] == 0);
        CHECK(way != 0 || load.added == 99);
        GIVES(0, catalogue_file_close(f));
    }
    catalogue_file_free(f);
    return true;
}

/* No new file can take the table's place: the lines come by batches into this one. */
static bool no_new_file(void)
{
    catalogue_file *f = catalogue_file_new();
    struct stat before, after;
    some_lines(lines, 300);
    CHECK(table_with(at("n"), 300, 0) && stat(at("n"), &before) == 0);
    source = (struct source){.lines = lines, .count = 300};
    GIVES(0, catalogue_file_open(f, at("n"), CATALOGUE_FILE_WRITING, 0));
    struct catalogue_file_load load = load_of(&source, 0);
    disk.no_rename = true;
    GIVES(0, catalogue_file_load(f, &load));
    CHECK(load.added == 300 && source.backs == 300 && source.orders > 600);
    CHECK(stat(at("n"), &after) == 0 && after.st_ino == before.st_ino && has_all(f, 300));
    CHECK(get_word(at("n"), 8 + 32 * 300 + 2) == 0);
    for (size_t i = 0; i < 300; i++)
        CHECK(source.numbers[i] == 0 && source.back[i] == i);
    catalogue_file_free(f);
    return true;
}

/* The folder cannot be synced: all lines are there and may not last; then they do. */
static bool a_folder_that_fails(void)
{
    catalogue_file *f = catalogue_file_new();
    some_lines(lines, 300);
    CHECK(table_with(at("s"), 300, 0));
    source = (struct source){.lines = lines, .count = 300};
    GIVES(0, catalogue_file_open(f, at("s"), CATALOGUE_FILE_WRITING, 0));
    struct catalogue_file_load load = load_of(&source, 0);
    disk.no_folder = true;
    GIVES(CATALOGUE_FILE_FOLDER, catalogue_file_load(f, &load));
    CHECK(load.added == 0 && load.unknown == 300 && source.numbers[7] == CATALOGUE_FILE_FOLDER);
    CHECK(catalogue_file_outcome(f) == CATALOGUE_FILE_UNKNOWN && has_all(f, 300));
    GIVES(CATALOGUE_FILE_FOLDER, catalogue_file_add(f, 1, 15, 15, 0));
    CHECK(catalogue_file_outcome(f) == CATALOGUE_FILE_NOT_MADE);
    GIVES(CATALOGUE_FILE_FOLDER, catalogue_file_open(f, at("s"), CATALOGUE_FILE_WRITING, 0));
    disk.no_folder = disk.folder_synced = false;
    GIVES(0, catalogue_file_open(f, at("s"), CATALOGUE_FILE_WRITING, 0));
    CHECK(disk.folder_synced && has_all(f, 300));
    GIVES(0, catalogue_file_add(f, 1, 15, 15, 0));
    catalogue_file_free(f);
    return true;
}

/* A code that is there comes back with what it has, packed and by batches. Behind the line that ends a load only the caller's refusals stand. */
static bool refused_lines(void)
{
    catalogue_file *f = catalogue_file_new();
    for (uint64_t flags = 0; flags <= CATALOGUE_FILE_BY_ORDERS; flags += CATALOGUE_FILE_BY_ORDERS) {
        const struct catalogue_file_line some[] = {line_of(10, 100), line_of(20, 200), line_of(10, 300), line_of(30, 0), line_of(40, 400),
                                                   {.key = 50, .number = 65}};
        unlink(at("r"));
        GIVES(0, catalogue_file_create(f, at("r"), 30, 1));
        GIVES(0, catalogue_file_open(f, at("r"), CATALOGUE_FILE_WRITING, 0));
        source = (struct source){.lines = some, .count = 6};
        struct catalogue_file_load load = load_of(&source, flags);
        GIVES(CATALOGUE_KEY_PRESENT, catalogue_file_load(f, &load));
        CHECK(load.added == 2 && source.numbers[2] == CATALOGUE_KEY_PRESENT && source.there[2] == CATALOGUE_POINTER(100, CATALOGUE_OPEN));
        CHECK(source.there[0] == 0 && source.there[1] == 0);
        /* By batches the lines behind it are held already. */
        bool held = flags != 0;
        CHECK(load.not_taken == (held ? 3 : 0) && source.backs == (held ? 6 : 3));
        CHECK(!held || (source.numbers[3] == CATALOGUE_FILE_NOT_TAKEN && source.numbers[4] == CATALOGUE_FILE_NOT_TAKEN && source.numbers[5] == 65));
    }
    catalogue_file_free(f);
    return true;
}

/* A file that another program changed before the first order of a batch: no line of it is in the table, and none is said to be. */
static bool changed_before_a_batch(void)
{
    catalogue_file *f = catalogue_file_new();
    some_lines(lines, 20);
    CHECK(table_with(at("meddled"), 30, 0));
    source = (struct source){.lines = lines, .count = 20};
    GIVES(0, catalogue_file_open(f, at("meddled"), CATALOGUE_FILE_WRITING, 0));
    CHECK(truncate(at("meddled"), 0) == 0);
    struct catalogue_file_load load = load_of(&source, CATALOGUE_FILE_BY_ORDERS | CATALOGUE_FILE_IN_PLACE);
    GIVES(CATALOGUE_FILE_CHANGED, catalogue_file_load(f, &load));
    CHECK(strstr(catalogue_file_message(f), "was changed by another program") && load.added == 0 && load.unknown == 0 && load.not_taken == 20);
    catalogue_file_free(f);
    return true;
}

const struct test load_tests[] = {
    {"packed", packed},
    {"by batches", by_batches},
    {"what becomes of lines", what_becomes_of_lines},
    {"arrays", arrays},
    {"full tables", full_tables},
    {"no new file", no_new_file},
    {"a folder that fails", a_folder_that_fails},
    {"refused lines", refused_lines},
    {"changed before a batch", changed_before_a_batch},
    {NULL, NULL},
};
