/*
 * One call of the file library, while something in it fails: calls CALL TABLE NEW. The table has the keys 10, 20, .. of recordings 1000 + key. What is
 * between the fcntl and the getppid is the call's (failing.c), and between them the allocation of the number FAIL_MEMORY fails, with 'N+' all
 * from it on. Prints what the call gave, its outcome, errno and message; what another handle finds then; the same call again on the same handle,
 * when nothing fails any more; a find by it; its sync and its close. With WAIT the call comes 60 milliseconds after the fcntl. A SIGBUS ends it with
 * the line 'bus'.
 */
#include <errno.h>
#include <fcntl.h>
#include <inttypes.h>
#include <signal.h>
#include <stdbool.h>
#include <stdio.h>
#include <stdlib.h>
#include <string.h>
#include <unistd.h>

#include "catalogue_file.h"

extern void *__libc_malloc(size_t bytes), *__libc_calloc(size_t count, size_t bytes), *__libc_realloc(void *old, size_t bytes);

static bool counting;
static long allocations, failing;
static bool failing_on;

static bool no_memory(void)
{
    if (!counting)
        return false;
    allocations++;
    if (failing == 0 || (allocations != failing && !(failing_on && allocations > failing)))
        return false;
    errno = ENOMEM;
    return true;
}

void *malloc(size_t bytes)
{
    return no_memory() ? NULL : __libc_malloc(bytes);
}

void *calloc(size_t count, size_t bytes)
{
    return no_memory() ? NULL : __libc_calloc(count, bytes);
}

void *realloc(void *old, size_t bytes)
{
    return no_memory() ? NULL : __libc_realloc(old, bytes);
}

/* ---- what is called */

#define LINES 60
#define BASE_KEY 10

static catalogue_file *f;
static const char *table, *made;
static uint64_t numbers[LINES]; /* of a load's lines */
static bool loads;

static int count_pair(void *context, const struct catalogue_file_pair *pair)
{
    uint64_t *sum = context;
    *sum += pair->key + pair->recording + pair->access;
    return 0;
}

static uint64_t load_lines(uint64_t first, uint64_t flags)
{
    uint64_t pairs[2 * LINES];
    for (uint64_t i = 0; i < LINES; i++) {
        pairs[2 * i] = first + 10 * (i * 7 % LINES);
        pairs[2 * i + 1] = CATALOGUE_POINTER(5000 + i, i % 3);
    }
    loads = true;
    return catalogue_file_load_pairs(f, 1, flags | CATALOGUE_FILE_AGAIN, pairs, LINES, numbers);
}

static uint64_t add(uint64_t key)
{
    return catalogue_file_add(f, 1, key, 7, CATALOGUE_ROOM);
}

static uint64_t call_create(void)
{
    return catalogue_file_create(f, made, 30, 2);
}

static uint64_t call_open_to_read(void)
{
    return catalogue_file_open(f, table, CATALOGUE_FILE_READING, 0);
}

static uint64_t call_open_to_write(void)
{
    return catalogue_file_open(f, table, CATALOGUE_FILE_WRITING, 0);
}

static uint64_t call_find(void)
{
    struct catalogue_file_pair pair;
    uint64_t number = catalogue_file_find(f, 1, 20, &pair);
    return number == 0 && pair.recording != 1020 ? 998 : number;
}

static uint64_t call_next(void)
{
    struct catalogue_file_pair pair;
    uint64_t number = catalogue_file_next(f, 1, 11, &pair);
    return number == 0 && (pair.key != 20 || pair.recording != 1020) ? 998 : number;
}

static uint64_t call_walk(void)
{
    uint64_t sum = 0, number = catalogue_file_walk(f, 1, 10, 100, count_pair, &sum);
    return number == 0 && sum != 11100 ? 998 : number;
}

static uint64_t call_table(void)
{
    const uint64_t *words;
    size_t count;
    return catalogue_file_table(f, &words, &count);
}

static uint64_t call_about(void)
{
    struct catalogue_file_about about;
    return catalogue_file_about(f, &about);
}

static uint64_t call_plan(void)
{
    struct catalogue_file_change change = {.kind = CATALOGUE_FILE_ADD, .collection = 1, .key = 15, .recording = 7, .cut = CATALOGUE_FILE_ALL};
    const uint64_t *orders;
    return catalogue_file_plan(f, &change, &orders);
}

static uint64_t call_check(void)
{
    uint64_t report[CATALOGUE_CHECK_WORDS];
    return catalogue_file_check(f, report);
}

static uint64_t call_add(void)
{
    return add(15);
}

static uint64_t call_remove(void)
{
    return catalogue_file_remove(f, 1, 30);
}

static uint64_t call_class(void)
{
    return catalogue_file_set_class(f, 1, 30, CATALOGUE_CLOSED);
}

static uint64_t call_repair(void)
{
    return catalogue_file_repair(f);
}

static uint64_t call_sync(void)
{
    return catalogue_file_sync(f);
}

static uint64_t call_compare(void)
{
    return catalogue_file_compare(f);
}

static uint64_t call_close(void)
{
    return catalogue_file_close(f);
}

static uint64_t call_load(void)
{
    return load_lines(13, 0);
}

static uint64_t call_load_in_place(void)
{
    return load_lines(13, CATALOGUE_FILE_IN_PLACE);
}

static uint64_t call_copy(void)
{
    uint64_t nodes = 0;
    return catalogue_file_copy(f, made, &nodes);
}

static uint64_t call_salvage(void)
{
    uint64_t dropped;
    return catalogue_file_salvage(f, made, NULL, NULL, &dropped);
}

static uint64_t call_rescue(void)
{
    const uint64_t roots[2] = {1, 0};
    uint64_t dropped;
    return catalogue_file_rescue(f, table, 1, roots, made, NULL, NULL, &dropped);
}

/* How the handle is opened before the call; an unsettled one has a change that does not last yet. */
enum { CLOSED, READS, WRITES, FAST, UNSETTLED };

static const struct {
    const char *name;
    uint64_t (*call)(void);
    int opened;
} all[] = {
    {"create", call_create, CLOSED},
    {"open_to_read", call_open_to_read, CLOSED},
    {"open_to_write", call_open_to_write, CLOSED},
    {"rescue", call_rescue, CLOSED},
    {"find", call_find, READS},
    {"find_by_a_writer", call_find, WRITES},
    {"next", call_next, READS},
    {"walk", call_walk, READS},
    {"table", call_table, READS},
    {"table_of_a_writer", call_table, WRITES},
    {"about", call_about, READS},
    {"plan", call_plan, READS},
    {"plan_by_a_writer", call_plan, WRITES},
    {"check", call_check, READS},
    {"copy", call_copy, READS},
    {"copy_by_a_writer", call_copy, WRITES},
    {"salvage", call_salvage, READS},
    {"add", call_add, WRITES},
    {"remove", call_remove, WRITES},
    {"class", call_class, WRITES},
    {"repair", call_repair, WRITES},
    {"load", call_load, WRITES},
    {"load_in_place", call_load_in_place, WRITES},
    {"fast_add", call_add, FAST},
    {"fast_load", call_load, FAST},
    {"sync", call_sync, UNSETTLED},
    {"compare", call_compare, UNSETTLED},
    {"close", call_close, UNSETTLED},
};

/* ---- what is printed */

static int print_pair(void *context, const struct catalogue_file_pair *pair)
{
    (void)context;
    printf(" %" PRIu64 ":%" PRIu64 ":%" PRIu64, pair->key, pair->recording, pair->access);
    return 0;
}

static void print_table(const char *name)
{
    catalogue_file *reader = catalogue_file_new();
    uint64_t number = catalogue_file_open(reader, name, CATALOGUE_FILE_READING, 0);
    printf("pairs");
    if (number == 0)
        number = catalogue_file_walk(reader, 1, 0, UINT64_MAX, print_pair, NULL);
    printf("\n");
    if (number != 0)
        printf("unreadable %" PRIu64 "\n", number);
    catalogue_file_free(reader);
}

static bool open_before(int how)
{
    uint64_t flags = how == READS ? CATALOGUE_FILE_READING : CATALOGUE_FILE_WRITING | (how >= FAST ? CATALOGUE_FILE_FAST : 0);
    f = catalogue_file_new();
    if (how == CLOSED)
        return f != NULL;
    return f && catalogue_file_open(f, table, flags, 0) == 0 && (how != UNSETTLED || add(15) == 0);
}

static void on_bus_error(int number)
{
    static const char line[] = "bus\n";
    (void)number;
    _exit(write(STDOUT_FILENO, line, sizeof line - 1) < 0);
}

static void one(const char *name, uint64_t (*call)(void))
{
    counting = true;
    (void)fcntl(STDIN_FILENO, F_GETFD);
    if (getenv("WAIT"))
        usleep(60000);
    uint64_t number = call();
    (void)getppid();
    counting = false;
    printf("%s %" PRIu64 " %" PRIu64 " %d %s\n", name, number, catalogue_file_outcome(f), catalogue_file_errno(f), catalogue_file_message(f));
    for (size_t i = 0; loads && i < LINES; i++)
        printf("line %zu %" PRIu64 "\n", i, numbers[i]);
}

int main(int count, char **words)
{
    if (count < 4)
        return 2;
    const char *number = getenv("FAIL_MEMORY");
    signal(SIGBUS, on_bus_error);
    failing = number ? atol(number) : 0;
    failing_on = number && strchr(number, '+');
    table = words[2];
    made = words[3];
    size_t which = 0;
    while (strcmp(all[which].name, words[1]) != 0)
        if (++which == sizeof all / sizeof all[0])
            return 2;
    if (!open_before(all[which].opened))
        return 3;
    one("call", all[which].call);
    printf("allocations %ld\n", allocations);
    print_table(table);
    failing = 0;
    one("again", all[which].call);
    struct catalogue_file_pair found;
    number = NULL;
    uint64_t there = catalogue_file_find(f, 1, BASE_KEY, &found);
    printf("find %" PRIu64 " %" PRIu64 "\n", there, found.recording);
    printf("sync %" PRIu64 "\n", catalogue_file_sync(f));
    printf("close %" PRIu64 "\n", catalogue_file_close(f));
    catalogue_file_free(f);
    print_table(table);
    return 0;
}
