/*
 * Sums beside a writer that changes the table all the time: no search and no scrub calls anything decayed. 'threads SECONDS': readers and a scrub in
 * threads, while the writer now and then switches the sums off and on and loads the second collection by a new file. 'kills COUNT': writers in
 * processes that are killed, each at a moment that is drawn; after each the table is searched, scrubbed, repaired and changed.
 */
#include <pthread.h>
#include <signal.h>
#include <stdatomic.h>
#include <stdio.h>
#include <stdlib.h>
#include <string.h>
#include <sys/wait.h>
#include <time.h>
#include <unistd.h>

#include "try.h"

#define CODES 60

static struct ledger ledger;

/* Key 10 * place with its recording, or out again; all that a writer does leaves a key's recording the same. */
static uint64_t turn(catalogue_file *f, uint64_t place)
{
    uint64_t number = catalogue_file_remove(f, 1, 10 * place);
    if (number == CATALOGUE_KEY_ABSENT)
        number = catalogue_file_add(f, 1, 10 * place, ledger.recording[0][place], CATALOGUE_OPEN);
    return number;
}

static void write_as_it_is(uint64_t number, const catalogue_file *f)
{
    MUST(number == 0, "a change gives %lu: %s", (unsigned long)number, catalogue_file_message(f));
}

/* ---- threads */

static atomic_bool ends;
static atomic_ulong finds, scrubs, changes, busy;

static void *find_all(void *context)
{
    catalogue_file *f = catalogue_file_new();
    (void)context;
    MUST(f && catalogue_file_open(f, at("t"), CATALOGUE_FILE_READING, 0) == 0, "not open");
    for (uint64_t i = 1; !ends; i = i % CODES + 1) {
        struct catalogue_file_pair found;
        uint64_t number = catalogue_file_find(f, 1, 10 * i, &found);
        busy += number == CATALOGUE_FILE_BUSY;
        MUST(number == 0 || number == CATALOGUE_ABSENT || number == CATALOGUE_FILE_BUSY, "a find gives %lu: %s", (unsigned long)number,
             catalogue_file_message(f));
        MUST(number != 0 || found.recording == ledger.recording[0][i], "a wrong recording");
        finds++;
    }
    catalogue_file_free(f);
    return NULL;
}

static void *scrub_all(void *context)
{
    catalogue_file *f = catalogue_file_new();
    struct named n;
    (void)context;
    MUST(f && catalogue_file_open(f, at("t"), CATALOGUE_FILE_READING, 0) == 0, "not open");
    while (!ends) {
        uint64_t number = scrub(f, &n);
        MUST(number == 0 || number == CATALOGUE_FILE_NO_SUMS || number == CATALOGUE_FILE_BUSY, "a scrub gives %lu: %s", (unsigned long)number,
             catalogue_file_message(f));
        scrubs += number == 0;
    }
    catalogue_file_free(f);
    return NULL;
}

static double now(void)
{
    struct timespec t;
    clock_gettime(CLOCK_MONOTONIC, &t);
    return (double)t.tv_sec + (double)t.tv_nsec / 1e9;
}

/* The second collection emptied and loaded: by a new file, in the table's place. */
static void load_anew(catalogue_file *f)
{
    uint64_t pairs[2 * CODES];
    for (uint64_t i = 1; i <= CODES; i++) {
        catalogue_file_remove(f, 2, 10 * i);
        pairs[2 * i - 2] = 10 * i;
        pairs[2 * i - 1] = ledger.recording[1][i];
    }
    write_as_it_is(catalogue_file_load_pairs(f, 2, 0, pairs, CODES, NULL), f);
}

static void threads(double seconds)
{
    pthread_t readers[3];
    catalogue_file *f = catalogue_file_new();
    make_table("t", 60, 2, CODES, true, &ledger);
    MUST(f && catalogue_file_open(f, at("t"), CATALOGUE_FILE_WRITING | CATALOGUE_FILE_FAST, 0) == 0, "not open");
    for (int i = 0; i < 3; i++)
        MUST(pthread_create(&readers[i], NULL, i < 2 ? find_all : scrub_all, NULL) == 0, "no thread");
    const struct timespec pause = {.tv_nsec = 200000};
    for (double until = now() + seconds; now() < until; changes++) {
        write_as_it_is(turn(f, drawn() % CODES + 1), f);
        if (drawn() % 4 == 0)
            nanosleep(&pause, NULL);
        if (drawn() % 500 == 0)
            write_as_it_is(catalogue_file_sums(f, 0), f);
        if (drawn() % 50 == 0)
            write_as_it_is(catalogue_file_sums(f, 1), f);
        if (drawn() % 500 == 0)
            load_anew(f);
    }
    ends = true;
    for (int i = 0; i < 3; i++)
        pthread_join(readers[i], NULL);
    catalogue_file_free(f);
    MUST(finds > 1000 && scrubs > 5 && changes > 50 && busy < finds / 100, "%lu finds, %lu scrubs, %lu changes, %lu busy", finds, scrubs, changes, busy);
    passed("%lu finds and %lu scrubs beside %lu changes", finds, scrubs, changes);
}

/* ---- kills */

static void write_until_killed(void)
{
    catalogue_file *f = catalogue_file_new();
    const struct catalogue_file_options options = {.flags = CATALOGUE_FILE_WRITING | (drawn() % 2 ? CATALOGUE_FILE_FAST : 0),
                                                   .wait = CATALOGUE_FILE_FOREVER, .dock = CATALOGUE_FILE_DOCK, .pause = drawn() % 3 * 20};
    if (catalogue_file_open_with(f, at("t"), &options) != 0)
        _exit(3);
    for (;;)
        if (turn(f, drawn() % CODES + 1) != 0)
            _exit(4);
}

static void kill_one(uint64_t time)
{
    struct timespec pause = {.tv_nsec = (long)(drawn() % 12000000)};
    struct named n;
    int status;
    for (uint64_t i = 0; i < time % 7; i++)
        drawn();
    pid_t writer = fork();
    if (writer == 0)
        write_until_killed();
    nanosleep(&pause, NULL);
    kill(writer, SIGKILL);
    MUST(waitpid(writer, &status, 0) == writer && WIFSIGNALED(status), "a writer ended with %d", WEXITSTATUS(status));
    catalogue_file *f = catalogue_file_new();
    static struct ledger empty;
    empty.codes = ledger.codes;
    empty.collections = ledger.collections;
    memcpy(empty.recording[1], ledger.recording[1], sizeof empty.recording[1]);
    MUST(catalogue_file_open(f, at("t"), CATALOGUE_FILE_READING, 0) == 0 && scrub(f, &n) == 0, "after kill %lu: %s", (unsigned long)time,
         catalogue_file_message(f));
    MUST(ask_all(f, &ledger, &empty, 5).refused == 0, "after kill %lu: %s", (unsigned long)time, catalogue_file_message(f));
    if (time % 3 == 0)
        MUST(catalogue_file_open(f, at("t"), CATALOGUE_FILE_WRITING, 0) == 0 && catalogue_file_repair(f) == 0 && scrub(f, &n) == 0
                 && turn(f, 1) == 0 && scrub(f, &n) == 0, "after kill %lu: %s", (unsigned long)time, catalogue_file_message(f));
    catalogue_file_free(f);
}

static void kills(uint64_t count)
{
    make_table("t", 60, 2, CODES, true, &ledger);
    for (uint64_t time = 0; time < count; time++)
        kill_one(time);
    passed("%lu writers killed", (unsigned long)count);
}

int main(int count, char **words)
{
    MUST(count == 4, "usage: beside FOLDER threads SECONDS, or beside FOLDER kills COUNT");
    folder_is(words[1]);
    if (strcmp(words[2], "threads") == 0)
        threads(strtod(words[3], NULL));
    else
        kills(strtoull(words[3], NULL, 10));
    return finish();
}
