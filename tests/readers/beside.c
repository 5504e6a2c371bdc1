/*
 * Searches beside a writer that changes the table as fast as it can: beside threads|processes SEARCHES NODES CODES. Two readers search. The
 * writer carries lists out that were planned before, round and round, so that stores run all the time. With processes it is killed now and
 * then, wherever it is, and another one takes over, as the file library's does: it ends what the one before left open, repairs, and plans anew.
 * Both collections hold codes that stay, each with a class that changes, and codes that come and go; others never are. A code that is found
 * must have its own recording, the class one that it has had, and a code that is absent the next code up that there may be. A search that is
 * refused because the writer was faster is made again, as the header says; that may happen to one search in a thousand.
 * The last line says how often each came. Status 0 if nothing was wrong.
 */
#include <inttypes.h>
#include <pthread.h>
#include <signal.h>
#include <stdbool.h>
#include <stdio.h>
#include <stdlib.h>
#include <string.h>
#include <sys/mman.h>
#include <sys/wait.h>
#include <time.h>
#include <unistd.h>

#include "looks.h"
#include "writer.h"

#define MOST_WORDS (HEADER_WORDS + NODE_WORDS * 400 + TRAILER_WORDS)
#define READERS 2
#define FIRST_MOVING 1000000
#define COLLECTIONS 2

enum kind { STAYS, MOVES, NEVER, KINDS };

/* What threads and processes share. */
struct shared {
    _Alignas(64) uint64_t memory[MOST_WORDS];
    uint64_t changes, writers, within, ended, wrong, busy; /* within: writers that found a bracket open; busy: searches made again */
    uint64_t found[KINDS], absent[KINDS];
};

static struct shared *shared;
static size_t words;
static uint64_t codes, searches;

/* Keys by thirds: one that stays, one that comes and goes, one that never is. */
static uint64_t key_of(uint64_t i, enum kind kind)
{
    return 3 * i + kind;
}

/* The same code has another recording in each collection. */
static uint64_t recording_of(uint64_t collection, uint64_t i, enum kind kind)
{
    return 10 * (kind == STAYS ? i + 1 : FIRST_MOVING + i) + collection;
}

/* A code that comes and goes always has this class; one that stays has its own or open. */
static uint64_t class_of(uint64_t collection, uint64_t i)
{
    return (collection + i) % 3;
}

static uint64_t random_below(uint64_t *state, uint64_t n)
{
    *state ^= *state << 13;
    *state ^= *state >> 7;
    *state ^= *state << 17;
    return *state % n;
}

static void add(uint64_t *count)
{
    __atomic_fetch_add(count, 1, __ATOMIC_RELAXED);
}

/* ---- the writer */

static struct writer writer;

static void fill(void)
{
    writer_make(&writer, COLLECTIONS);
    for (uint64_t c = 1; c <= COLLECTIONS; c++)
        for (uint64_t i = 0; i < codes; i++)
            writer_change(&writer, INSERT, c, key_of(i * 389 % codes, STAYS), recording_of(c, i * 389 % codes, STAYS),
                          class_of(c, i * 389 % codes));
}

static bool there(uint64_t collection, uint64_t key)
{
    uint64_t a, b, c, d;
    return catalogue_search(writer.working, words, collection, key, &a, &b, &c, &d) == 0;
}

/* ---- the same changes again and again: they come round to the same words */

#define MOST_LISTS 4000
#define MOST_TURNS 50
#define RUN 15

static struct list lists[MOST_LISTS];
static size_t listed;

static void keep(enum change kind, uint64_t collection, uint64_t i, enum kind code, uint64_t access)
{
    writer_change(&writer, kind, collection, key_of(i, code), recording_of(collection, i, code), access);
    add(&shared->changes);
    if (listed < MOST_LISTS)
        lists[listed++] = writer_list(&writer, kind);
}

/* Codes of a run come, or go if they are there, and then the other way, so that leaves split, empty and come back; a class changes to and fro. */
static void there_and_back(uint64_t collection, uint64_t from)
{
    for (unsigned pass = 0; pass < 2; pass++) {
        for (uint64_t i = from; i < from + RUN && i < codes; i++)
            if (there(collection, key_of(i, MOVES)))
                keep(DELETE, collection, i, MOVES, 0);
            else
                keep(INSERT, collection, i, MOVES, class_of(collection, i));
        keep(CLASS, collection, from, STAYS, pass == 0 ? 0 : class_of(collection, from));
    }
}

/* Every run of the table, in both collections. */
static void whole_turn(uint64_t unused)
{
    (void)unused;
    for (uint64_t at = 0; at < 2 * codes; at += RUN) {
        there_and_back(1 + at / RUN % COLLECTIONS, at % codes);
        there_and_back(1 + (at / RUN + 1) % COLLECTIONS, (at + RUN / 2) % codes);
    }
}

static void small_turn(uint64_t run)
{
    there_and_back(1 + run % COLLECTIONS, run / COLLECTIONS % codes);
}

/* Makes the changes of a turn until they come round to the same words; then the lists of the last one may be carried out again and again. */
static bool plan_turn(void (*turn)(uint64_t), uint64_t run)
{
    static uint64_t before[MOST_WORDS];
    for (unsigned turns = 0; turns < MOST_TURNS; turns++) {
        memcpy(before, writer.working, words * sizeof before[0]);
        while (listed > 0)
            free(lists[--listed].orders);
        turn(run);
        if (memcmp(before, writer.working, words * sizeof before[0]) == 0)
            return true;
    }
    return false;
}

static bool all_ended(void)
{
    return __atomic_load_n(&shared->ended, __ATOMIC_ACQUIRE) == READERS;
}

/* So many rounds of the planned lists; the brackets are of either kind. */
static void carry_rounds(uint64_t rounds)
{
    for (uint64_t i = 0; i < rounds * listed && !all_ended(); i++) {
        const struct list *list = &lists[i % listed];
        writer.brackets = i % 3 == 0 ? BRACKET_FLUSH : BRACKET_LIST;
        writer_carry_list(&writer, list, list->count, 0);
        add(&shared->changes);
    }
}

#define ROUNDS 1000

static void write_until(uint64_t seed)
{
    uint64_t state = seed;
    if (*writer_counter(&writer) % 2 == 1)
        add(&shared->within);
    writer_open(&writer);
    writer_change(&writer, REPAIR, 1, 0, 0, 0);
    add(&shared->writers);
    while (!all_ended())
        if (plan_turn(small_turn, random_below(&state, COLLECTIONS * codes)))
            carry_rounds(ROUNDS);
}

/* ---- a reader */

static void wrong(const char *what, uint64_t collection, uint64_t key, uint64_t number, const struct looks_answer *a)
{
    printf("%s: collection %" PRIu64 ", key %" PRIu64 ", number %" PRIu64 ", recording %" PRIu64 ", class %" PRIu64 ", next %" PRIu64 " (%" PRIu64 ")\n",
           what, collection, key, number, a->recording, a->access, a->next, a->higher);
    fflush(stdout);
    add(&shared->wrong);
}

/* The next code up is one that stays, or one before it that comes and goes. */
static bool next_may_be(uint64_t key, const struct looks_answer *a)
{
    uint64_t stays = (key / 3 + 1) * 3;
    if (stays >= 3 * codes && a->higher == 0)
        return true;
    return a->higher == 1 && a->next > key && a->next <= key_of(codes - 1, MOVES) && (stays >= 3 * codes || a->next <= stays)
           && a->next % 3 != NEVER;
}

static void judge(uint64_t collection, uint64_t i, enum kind kind, uint64_t number, const struct looks_answer *a)
{
    uint64_t key = key_of(i, kind);
    if (number != 0 && number != CATALOGUE_ABSENT)
        wrong("refused", collection, key, number, a);
    else if (number == 0 && (kind == NEVER || a->recording != recording_of(collection, i, kind)))
        wrong("another code's recording", collection, key, number, a);
    else if (number == 0 && a->access != class_of(collection, i) && !(kind == STAYS && a->access == 0))
        wrong("another code's class", collection, key, number, a);
    else if (number != 0 && kind == STAYS)
        wrong("a code that stays was absent", collection, key, number, a);
    else if (number != 0 && !next_may_be(key, a))
        wrong("no such next code", collection, key, number, a);
    add(number == 0 ? &shared->found[kind] : &shared->absent[kind]);
}

/* Again, as often as may be, while the writer is faster. */
static uint64_t search(struct looks *looks, uint64_t collection, uint64_t key, struct looks_answer *a)
{
    uint64_t number = looks_search(looks, collection, key, a);
    while (number == LOOKS_BUSY && __atomic_add_fetch(&shared->busy, 1, __ATOMIC_RELAXED) <= searches / 1000)
        number = looks_search(looks, collection, key, a);
    return number;
}

static void read_many(uint64_t seed)
{
    uint64_t state = seed;
    struct looks looks;
    struct looks_answer a;
    if (looks_begin(&looks, shared->memory, shared->memory + words + TRAILER_COUNTER, words))
        for (uint64_t n = 0; n < searches / READERS; n++) {
            enum kind kind = (enum kind)random_below(&state, KINDS);
            uint64_t collection = 1 + random_below(&state, COLLECTIONS), i = random_below(&state, codes);
            uint64_t number = search(&looks, collection, key_of(i, kind), &a);
            judge(collection, i, kind, number, &a);
        }
    looks_end(&looks);
    __atomic_fetch_add(&shared->ended, 1, __ATOMIC_RELEASE);
}

static void *read_in_thread(void *seed)
{
    read_many((uint64_t)(uintptr_t)seed);
    return NULL;
}

/* ---- threads, and processes */

static void by_threads(void)
{
    pthread_t threads[READERS];
    if (!plan_turn(whole_turn, 0)) {
        printf("the changes do not come round\n");
        exit(2);
    }
    for (uintptr_t i = 0; i < READERS; i++)
        if (pthread_create(&threads[i], NULL, read_in_thread, (void *)(7 + i)) != 0)
            exit(2);
    add(&shared->writers);
    carry_rounds(UINT32_MAX);
    for (size_t i = 0; i < READERS; i++)
        pthread_join(threads[i], NULL);
}

static pid_t start(void (*work)(uint64_t), uint64_t seed)
{
    pid_t child = fork();
    if (child == 0) {
        work(seed);
        _exit(0);
    }
    return child;
}

/* A writer is killed when it has made so many changes, or when nobody reads any more. It does not end with a failure by itself. */
static void live_for(pid_t child, uint64_t more)
{
    const struct timespec moment = {.tv_nsec = 200000};
    uint64_t goal = __atomic_load_n(&shared->changes, __ATOMIC_RELAXED) + more;
    int status = 0;
    pid_t gone = 0;
    while (gone == 0 && __atomic_load_n(&shared->changes, __ATOMIC_RELAXED) < goal && !all_ended()) {
        nanosleep(&moment, NULL);
        gone = waitpid(child, &status, WNOHANG);
    }
    if (gone == 0) {
        kill(child, SIGKILL);
        waitpid(child, &status, 0);
    }
    if (WIFEXITED(status) && WEXITSTATUS(status) != 0)
        exit(2);
}

#define MOST_CHANGES 20000

static void by_processes(void)
{
    pid_t readers[READERS];
    uint64_t state = 88172645463325252u;
    for (uint64_t i = 0; i < READERS; i++)
        readers[i] = start(read_many, 7 + i);
    for (uint64_t seed = 1; !all_ended(); seed++)
        live_for(start(write_until, 7919 * seed), 1 + random_below(&state, MOST_CHANGES));
    for (uint64_t i = 0; i < READERS; i++)
        waitpid(readers[i], NULL, 0);
}

int main(int count, char **arguments)
{
    static uint64_t working[MOST_WORDS];
    if (count != 5)
        return 2;
    searches = strtoull(arguments[2], NULL, 10);
    words = HEADER_WORDS + NODE_WORDS * strtoull(arguments[3], NULL, 10);
    codes = strtoull(arguments[4], NULL, 10);
    shared = mmap(NULL, sizeof *shared, PROT_READ | PROT_WRITE, MAP_SHARED | MAP_ANONYMOUS, -1, 0);
    if (words + TRAILER_WORDS > MOST_WORDS || shared == MAP_FAILED)
        return 2;
    writer = (struct writer){.memory = shared->memory, .working = working, .words = words};
    fill();
    fflush(stdout);
    if (strcmp(arguments[1], "threads") == 0)
        by_threads();
    else
        by_processes();
    uint64_t all = 0;
    for (unsigned kind = STAYS; kind < KINDS; kind++)
        all += shared->found[kind] + shared->absent[kind];
    printf("%s: %" PRIu64 " searches beside %" PRIu64 " changes by %" PRIu64 " writers, %" PRIu64 " of them after one that was killed within a bracket; "
           "codes that come and go: %" PRIu64 " found, %" PRIu64 " absent; %" PRIu64 " made again; %" PRIu64 " wrong\n",
           arguments[1], all, shared->changes, shared->writers, shared->within, shared->found[MOVES], shared->absent[MOVES], shared->busy,
           shared->wrong);
    /* Searches beside a writer that was seldom there show little. */
    return all == searches / READERS * READERS && shared->wrong == 0 && shared->changes >= searches / 1000 ? 0 : 1;
}
