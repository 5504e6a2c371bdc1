/* Hard cases: any words, a writer that is killed, memory that is short. */
#include <pthread.h>
#include <signal.h>
#include <stdatomic.h>
#include <stdlib.h>
#include <string.h>
#include <sys/stat.h>
#include <sys/wait.h>
#include <time.h>
#include <unistd.h>

#include "check.h"

static uint64_t chance(uint64_t *seed, uint64_t below)
{
    *seed = *seed * 6364136223846793005u + 1442695040888963407u;
    return (*seed >> 33) % below;
}

/* ---- any words */

static int count_steps(void *context, const struct catalogue_file_pair *pair)
{
    uint64_t *steps = context;
    return pair->access > CATALOGUE_CLOSED || ++*steps > 10000;
}

/* Whatever number a call returns, it is one that has a text, and a find that answers has a class and a recording. */
static bool is_number(uint64_t number)
{
    return strcmp(catalogue_file_strerror(number), catalogue_file_strerror(UINT64_MAX)) != 0;
}

static bool every_call(const char *name, uint64_t flags, uint64_t *seed)
{
    catalogue_file *f = catalogue_file_new();
    struct catalogue_file_pair found;
    struct catalogue_file_change change = {.kind = chance(seed, 4), .collection = 1, .key = chance(seed, 700), .recording = 9, .cut = UINT64_MAX};
    const uint64_t *words;
    uint64_t steps = 0, nodes = 0, dropped, report[CATALOGUE_CHECK_WORDS], pairs[] = {3, 77777, 5, 77778}, numbers[2];
    size_t count;
    uint64_t opened = catalogue_file_open(f, name, flags, 0);
    CHECK(opened == 0 || opened == CATALOGUE_NO_TABLE);
    if (opened == 0) {
        for (int i = 0; i < 30; i++) {
            uint64_t number = catalogue_file_find(f, 1, 5 * chance(seed, 130), &found);
            CHECK(is_number(number) && (number != 0 || (found.access <= CATALOGUE_CLOSED && found.recording != 0)));
        }
        CHECK(is_number(catalogue_file_walk(f, 1, 0, UINT64_MAX, count_steps, &steps)) && steps <= 10000);
        CHECK(is_number(catalogue_file_check(f, report)) && is_number(catalogue_file_plan(f, &change, &words)));
        CHECK(is_number(catalogue_file_copy(f, at("any copy"), &nodes)) && is_number(catalogue_file_table(f, &words, &count)));
        CHECK(is_number(catalogue_file_salvage(f, at("any saved"), NULL, NULL, &dropped)));
        if (flags & CATALOGUE_FILE_WRITING) {
            CHECK(is_number(catalogue_file_change(f, &change)) && is_number(catalogue_file_load_pairs(f, 1, 2, pairs, 2, numbers)));
            CHECK(is_number(numbers[0]) && is_number(numbers[1]) && is_number(catalogue_file_repair(f)));
        }
    }
    unlink(at("any copy"));
    unlink(at("any saved"));
    catalogue_file_free(f);
    return true;
}

static bool any_words(void)
{
    static const uint64_t odd[] = {0, 1, 2, 16, 21, UINT64_MAX, UINT64_MAX - 1, UINT64_C(1) << 63, 300};
    uint64_t seed = 11;
    for (uint64_t round = 0; round < rounds(150); round++) {
        unlink(at("any"));
        CHECK(table_with(at("any"), 20, 60));
        for (uint64_t i = 0; i <= chance(&seed, 4); i++) {
            size_t word = chance(&seed, 4) == 0 ? chance(&seed, 8) : chance(&seed, 8 + 32 * 20 + 8);
            CHECK(put_word(at("any"), word, chance(&seed, 3) == 0 ? chance(&seed, 700) : odd[chance(&seed, sizeof odd / sizeof odd[0])]));
        }
        CHECK(every_call(at("any"), CATALOGUE_FILE_READING, &seed));
        CHECK(every_call(at("any"), CATALOGUE_FILE_WRITING | CATALOGUE_FILE_FAST, &seed));
    }
    return true;
}

/* ---- a writer that is killed */

/* Adds and removes keys 5, 15, 25 .. for ever, and says each change that was answered: the key to add it, its negative to remove it. */
static void change_for_ever(int out, const char *name, uint64_t seed)
{
    struct catalogue_file_options options = {.flags = CATALOGUE_FILE_WRITING | CATALOGUE_FILE_FAST, .dock = CATALOGUE_FILE_DOCK, .pause = seed % 3};
    catalogue_file *f = catalogue_file_new();
    if (catalogue_file_open_with(f, name, &options) != 0)
        _exit(1);
    for (;;) {
        int64_t key = 5 + 10 * (int64_t)chance(&seed, 60), said = 0;
        uint64_t number = catalogue_file_add(f, 1, (uint64_t)key, (uint64_t)key, 0);
        said = key;
        if (number == CATALOGUE_KEY_PRESENT) {
            number = catalogue_file_remove(f, 1, (uint64_t)key);
            said = -key;
        }
        if (number != 0 || write(out, &said, sizeof said) != sizeof said)
            _exit(1);
    }
}

static bool killed_writers(void)
{
    catalogue_file *r = catalogue_file_new(), *w = catalogue_file_new();
    struct catalogue_file_pair found;
    bool there[610] = {false};
    CHECK(table_with(at("killed"), 60, 60));
    GIVES(0, catalogue_file_open(r, at("killed"), CATALOGUE_FILE_READING, 0));
    for (uint64_t round = 0; round < rounds(40); round++) {
        int ends[2];
        CHECK(pipe(ends) == 0);
        pid_t writer = fork();
        if (writer == 0)
            change_for_ever(ends[1], at("killed"), 1000 + round);
        close(ends[1]);
        /* Answered changes; at most one more was on its way. */
        int64_t said, last = 0;
        for (uint64_t i = 0; i < 3 + round % 11 && read(ends[0], &said, sizeof said) == sizeof said; i++)
            there[said < 0 ? -said : said] = said > 0;
        kill(writer, SIGKILL);
        while (read(ends[0], &said, sizeof said) == sizeof said)
            there[said < 0 ? -said : said] = said > 0;
        close(ends[0]);
        int status;
        CHECK(waitpid(writer, &status, 0) == writer && WIFSIGNALED(status));
        unsigned others = 0;
        for (int64_t key = 5; key <= 605; key += 5) {
            uint64_t number = catalogue_file_find(r, 1, (uint64_t)key, &found);
            if (key % 10 == 0) {
                GIVES(0, number);
                CHECK(found.recording == 1000 + (uint64_t)key);
            } else {
                CHECK(number == 0 ? found.recording == (uint64_t)key : number == CATALOGUE_ABSENT);
                last = (number == 0) != there[key] ? key : last;
                others += (number == 0) != there[key];
                there[key] = number == 0;
            }
        }
        CHECK(others <= 1 && last >= 0);
    }
    GIVES(0, catalogue_file_open(w, at("killed"), CATALOGUE_FILE_WRITING, 0));
    GIVES(0, catalogue_file_repair(w));
    catalogue_file_free(r);
    catalogue_file_free(w);
    return true;
}

/* ---- readers beside a writer that changes, loads and puts new files in the table's place */

static atomic_bool writing;

/* What a reader saw: answers, and those that were wrong. */
struct seen {
    uint64_t answers, wrong, busy;
    uint64_t (*look)(catalogue_file *f, uint64_t key);
};

/* Keys 10 to 600 in tens are always there. A find gives 0 if it answers so, 1 if it does not, 2 if it had no time. */
static uint64_t look_by_find(catalogue_file *f, uint64_t key)
{
    struct catalogue_file_pair found;
    uint64_t number = catalogue_file_find(f, 1, key, &found);
    return number == CATALOGUE_FILE_BUSY ? 2 : number != 0 || found.recording != 1000 + key || found.access != CATALOGUE_OPEN;
}

static int keep(void *context, const struct catalogue_file_pair *pair)
{
    uint64_t *kept = context;
    *kept += pair->key % 10 == 0 && pair->recording == 1000 + pair->key;
    return pair->recording != (pair->key % 10 == 0 ? 1000 + pair->key : pair->key);
}

static uint64_t look_by_walk(catalogue_file *f, uint64_t key)
{
    uint64_t kept = 0, number = catalogue_file_walk(f, 1, key, 605, keep, &kept);
    return number == CATALOGUE_FILE_BUSY ? 2 : number != 0 || kept != 61 - key / 10;
}

/* The whole table is sound, and has them all. */
static uint64_t look_at_all(catalogue_file *f, uint64_t key)
{
    uint64_t pairs[400], count = 0, more, kept = 0;
    const uint64_t *table;
    size_t words;
    uint64_t number = catalogue_file_table(f, &table, &words);
    if (number == 0)
        number = catalogue_list(table, words, 1, key, 605, pairs, 400, &count, &more);
    for (uint64_t i = 0; i < count; i++)
        kept += pairs[2 * i] % 10 == 0 && pairs[2 * i + 1] == 1000 + pairs[2 * i];
    return number == CATALOGUE_FILE_BUSY ? 2 : number != 0 || kept != 61 - key / 10;
}

static void *read_beside(void *context)
{
    struct seen *seen = context;
    uint64_t seed = (uint64_t)(uintptr_t)seen;
    catalogue_file *f = catalogue_file_new();
    uint64_t number = catalogue_file_open(f, at("beside"), CATALOGUE_FILE_READING, 0);
    seen->wrong += number != 0;
    while (writing && number == 0) {
        uint64_t got = seen->look(f, 10 + 10 * chance(&seed, 60));
        seen->answers++;
        seen->wrong += got == 1;
        seen->busy += got == 2;
    }
    catalogue_file_free(f);
    return NULL;
}

/* Some keys more, by one new file or in place, then without them one by one. */
static bool write_beside(catalogue_file *w, uint64_t round)
{
    uint64_t pairs[2 * 40];
    struct stat before, after;
    for (uint64_t i = 0; i < 40; i++)
        pairs[2 * i] = pairs[2 * i + 1] = 3 + 10 * ((7 * i + round) % 60);
    CHECK(stat(at("beside"), &before) == 0);
    GIVES(0, catalogue_file_load_pairs(w, 1, round % 3 == 0 ? CATALOGUE_FILE_IN_PLACE : 0, pairs, 40, NULL));
    CHECK(stat(at("beside"), &after) == 0 && (before.st_ino != after.st_ino) == (round % 3 != 0));
    for (uint64_t i = 0; i < 40; i++)
        GIVES(0, catalogue_file_remove(w, 1, pairs[2 * i]));
    GIVES(0, catalogue_file_set_class(w, 1, 300, CATALOGUE_OPEN));
    return true;
}

static bool beside_a_writer(void)
{
    struct seen seen[] = {{.look = look_by_find}, {.look = look_by_find}, {.look = look_by_walk}, {.look = look_at_all}};
    size_t count = sizeof seen / sizeof seen[0];
    pthread_t threads[4];
    catalogue_file *w = catalogue_file_new();
    bool written = true;
    CHECK(table_with(at("beside"), 60, 60));
    GIVES(0, catalogue_file_open(w, at("beside"), CATALOGUE_FILE_WRITING, 0));
    writing = true;
    for (size_t i = 0; i < count; i++)
        CHECK(pthread_create(&threads[i], NULL, read_beside, &seen[i]) == 0);
    for (uint64_t round = 0; written && round < rounds(150); round++)
        written = write_beside(w, round);
    writing = false;
    for (size_t i = 0; i < count; i++)
        pthread_join(threads[i], NULL);
    CHECK(written);
    for (size_t i = 0; i < count; i++)
        CHECK(seen[i].answers > 0 && seen[i].wrong == 0 && (seen[i].busy == 0 || seen[i].look != look_by_find));
    catalogue_file_free(w);
    return true;
}

/* ---- stack: as much as the header says */

#define STACK ((size_t)2 << 20)

static bool stack_done;

static void *read_calls(void *name)
{
    catalogue_file *f = catalogue_file_new();
    struct catalogue_file_pair found;
    uint64_t steps = 0;
    stack_done = catalogue_file_open(f, name, CATALOGUE_FILE_READING, 0) == 0 && catalogue_file_find(f, 1, 10, &found) == 0
                 && catalogue_file_find(f, 1, 11, &found) == CATALOGUE_ABSENT
                 && catalogue_file_find(f, 9, 11, &found) == CATALOGUE_NO_COLLECTION
                 && catalogue_file_walk(f, 1, 0, 400, count_steps, &steps) == 0;
    catalogue_file_free(f);
    return NULL;
}

static void *all_calls(void *name)
{
    catalogue_file *f = catalogue_file_new();
    uint64_t nodes = 0, dropped, report[CATALOGUE_CHECK_WORDS], pairs[2 * 100];
    for (uint64_t i = 0; i < 100; i++)
        pairs[2 * i] = 5 + 10 * i, pairs[2 * i + 1] = 1 + i;
    stack_done = catalogue_file_open(f, name, CATALOGUE_FILE_WRITING, 0) == 0 && catalogue_file_add(f, 1, 11, 11, 0) == 0
                 && catalogue_file_load_pairs(f, 1, 2, pairs, 100, NULL) == 0 && catalogue_file_load_pairs(f, 2, 0, pairs, 100, NULL) == 0
                 && catalogue_file_remove(f, 1, 11) == 0 && catalogue_file_repair(f) == 0 && catalogue_file_check(f, report) == 0
                 && catalogue_file_copy(f, at("stack copy"), &nodes) == 0
                 && catalogue_file_salvage(f, at("stack saved"), NULL, NULL, &dropped) == 0 && catalogue_file_close(f) == 0;
    catalogue_file_free(f);
    return NULL;
}

/* Bytes of a thread's stack that the calls touch. */
static size_t stack_of(void *(*calls)(void *name), const char *name)
{
    pthread_attr_t how;
    pthread_t thread;
    unsigned char *stack = aligned_alloc(4096, STACK);
    memset(stack, 0xa5, STACK);
    stack_done = false;
    pthread_attr_init(&how);
    pthread_attr_setstack(&how, stack, STACK);
    size_t left = 0;
    bool ended = pthread_create(&thread, &how, calls, (void *)(uintptr_t)name) == 0 && pthread_join(thread, NULL) == 0;
    while (ended && left < STACK && stack[left] == 0xa5)
        left++;
    pthread_attr_destroy(&how);
    free(stack);
    return STACK - left;
}

static bool stacks(void)
{
    catalogue_file *f = catalogue_file_new();
    uint64_t pairs[2 * 40];
    for (uint64_t i = 0; i < 40; i++)
        pairs[2 * i] = 10 + 10 * i, pairs[2 * i + 1] = 1000 + i;
    GIVES(0, catalogue_file_create(f, at("stack"), 100, 2));
    GIVES(0, catalogue_file_open(f, at("stack"), CATALOGUE_FILE_WRITING, 0));
    GIVES(0, catalogue_file_load_pairs(f, 1, 0, pairs, 40, NULL));
    catalogue_file_free(f);
    /* Who watches the tests holds what is left of a stack for nobody's. */
    if (rounds(10) < 10)
        return read_calls((void *)(uintptr_t)at("stack")) == NULL && stack_done;
    size_t reading = stack_of(read_calls, at("stack"));
    CHECK(stack_done);
    size_t all = stack_of(all_calls, at("stack"));
    CHECK(stack_done);
#ifndef __SANITIZE_ADDRESS__
    CHECK(reading <= 16 << 10 && all <= 512 << 10);
#endif
    return reading > 1000 && all > 100000;
}

/* ---- memory that is short. These take the place of the C library's in the library and in the tests */

static uint64_t allocations, failing;

static bool short_now(void)
{
    return ++allocations == failing;
}

void *__real_malloc(size_t bytes);
void *__real_calloc(size_t count, size_t bytes);
void *__real_realloc(void *from, size_t bytes);
void *__wrap_malloc(size_t bytes);
void *__wrap_calloc(size_t count, size_t bytes);
void *__wrap_realloc(void *from, size_t bytes);

void *__wrap_malloc(size_t bytes)
{
    return short_now() ? NULL : __real_malloc(bytes);
}

void *__wrap_calloc(size_t count, size_t bytes)
{
    return short_now() ? NULL : __real_calloc(count, bytes);
}

void *__wrap_realloc(void *from, size_t bytes)
{
    return short_now() ? NULL : __real_realloc(from, bytes);
}

void fail_allocation(uint64_t number)
{
    allocations = 0;
    failing = number;
}

bool allocation_failed(void)
{
    bool met = allocations >= failing;
    failing = 0;
    return met;
}

/* Calls that ask for memory, one after the other; the first number that is not 0. */
static uint64_t some_calls(catalogue_file *f, bool *loaded)
{
    static uint64_t pairs[2 * 700], numbers[700];
    struct catalogue_file_pair found;
    struct catalogue_file_change change = {.kind = CATALOGUE_FILE_REMOVE, .collection = 1, .key = 10, .cut = UINT64_MAX};
    const uint64_t *words;
    uint64_t nodes = 0, dropped, report[CATALOGUE_CHECK_WORDS], number;
    size_t count;
    for (uint64_t i = 0; i < 700; i++)
        pairs[2 * i] = 10 * i + 10, pairs[2 * i + 1] = 1010 + 10 * i, numbers[i] = 1;
    if ((number = catalogue_file_create(f, at("short"), 300, 1)) != 0
        || (number = catalogue_file_open(f, at("short"), CATALOGUE_FILE_WRITING | CATALOGUE_FILE_FAST, 0)) != 0)
        return number;
    number = catalogue_file_load_pairs(f, 1, 0, pairs, 700, numbers);
    *loaded = numbers[0] == 0;
    for (uint64_t i = 0; i < 700; i++)
        if (numbers[i] != (number == 0 ? 0 : CATALOGUE_FILE_NOT_TAKEN))
            return UINT64_MAX;
    if (number != 0 || (number = catalogue_file_load_pairs(f, 1, CATALOGUE_FILE_AGAIN, pairs, 700, NULL)) != 0
        || (number = catalogue_file_plan(f, &change, &words)) != 0 || (number = catalogue_file_copy(f, at("short copy"), &nodes)) != 0
        || (number = catalogue_file_salvage(f, at("short saved"), NULL, NULL, &dropped)) != 0 || (number = catalogue_file_check(f, report)) != 0
        || (number = catalogue_file_close(f)) != 0 || (number = catalogue_file_open(f, at("short"), CATALOGUE_FILE_READING, 0)) != 0
        || (number = catalogue_file_find(f, 1, 10, &found)) != 0 || (number = catalogue_file_table(f, &words, &count)) != 0
        || (number = catalogue_file_plan(f, &change, &words)) != 0)
        return number;
    return 0;
}

static bool short_memory(void)
{
    bool met = true;
    unsigned refused = 0;
    for (uint64_t at_call = 1; met; at_call++) {
        bool loaded = false;
        unlink(at("short"));
        unlink(at("short copy"));
        unlink(at("short saved"));
        catalogue_file *f = catalogue_file_new();
        fail_allocation(at_call);
        uint64_t number = some_calls(f, &loaded);
        met = allocation_failed();
        /* Lines that cannot be packed for that come by batches. */
        CHECK(number == 0 || (met && number == CATALOGUE_FILE_NO_MEMORY));
        refused += number != 0;
        /* The handle can be used again, and the table has what was said. */
        struct catalogue_file_pair found;
        if (access(at("short"), F_OK) == 0) {
            GIVES(0, catalogue_file_open(f, at("short"), CATALOGUE_FILE_WRITING, 0));
            GIVES(loaded ? 0 : CATALOGUE_ABSENT, catalogue_file_find(f, 1, 7000, &found));
        }
        catalogue_file_free(f);
    }
    CHECK(refused > 15);
    return true;
}

const struct test hard_tests[] = {
    {"any words", any_words},
    {"killed writers", killed_writers},
    {"beside a writer", beside_a_writer},
    {"stacks", stacks},
    {"short memory", short_memory},
    {NULL, NULL},
};
