/*
 * Finds of one open handle: speed FOLDER CODES NODES, in processor time of the thread that finds. The core's search of words that keep still,
 * the handle's find beside an idle writer and, if it is built with LMDB (WITH_LMDB), LMDB's get of the same keys take turns; the figure is the
 * median of their rounds. Then the core's search takes turns with finds beside a writer: one that is stopped within a bracket, one that makes
 * a change every 10 ms, one that does so without pause, and one that carries lists out that were planned before, without pause; and with LMDB's get
 * beside one that inserts every 10 ms. The first line is the first find of a new handle, with its page faults, the last one that after a change of a
 * handle that has walked the whole table.
 */
#include <fcntl.h>
#include <inttypes.h>
#include <pthread.h>
#include <stdio.h>
#include <stdlib.h>
#include <string.h>
#include <sys/mman.h>
#include <sys/resource.h>
#include <time.h>

#include "catalogue_file.h"
#include "writer.h"
#ifdef WITH_LMDB
#include "peer.h"
#endif

#define SEARCHES 100000
#define LISTS 4
#define ROUNDS 9
#define TEN_MILLISECONDS 0.01

static char name[4096];
static struct writer writer; /* on the file's words, without a lock */
static uint64_t *still;      /* a copy of them, for the core */
static struct list lists[LISTS];
static uint64_t *keys, codes;
static uint64_t state = 88172645463325252u;
static catalogue_file *handle;
static uint64_t ended, changes;

static void wants(bool holds, const char *what)
{
    if (holds)
        return;
    fprintf(stderr, "speed: %s\n", what);
    exit(2);
}

static uint64_t next_random(void)
{
    state ^= state << 13;
    state ^= state >> 7;
    state ^= state << 17;
    return state;
}

/* The clock is the processor time of the thread that finds, for its writer too: the machine may be busy with other things. */
static clockid_t reader;

/* Seconds. */
static double now(void)
{
    struct timespec t;
    clock_gettime(reader, &t);
    return (double)t.tv_sec + (double)t.tv_nsec * 1e-9;
}

static long faults(void)
{
    struct rusage usage;
    getrusage(RUSAGE_SELF, &usage);
    return usage.ru_minflt + usage.ru_majflt;
}

/* ---- the table, packed, and its words mapped */

static uint64_t *make_pairs(void)
{
    uint64_t *pairs = malloc(codes * 2 * sizeof *pairs);
    keys = malloc(codes * sizeof *keys);
    wants(pairs && keys, "not enough memory");
    for (uint64_t i = 0, key = 0; i < codes; i++) {
        key += 2 + next_random() % 1000;
        keys[i] = pairs[2 * i] = key;
        pairs[2 * i + 1] = CATALOGUE_POINTER(i + 1, CATALOGUE_OPEN);
    }
    return pairs;
}

static void make_table(const uint64_t *pairs, uint64_t nodes)
{
    catalogue_file *f = catalogue_file_new();
    wants(f && catalogue_file_create(f, name, nodes, 1) == 0 && catalogue_file_open(f, name, CATALOGUE_FILE_WRITING, 0) == 0
              && catalogue_file_load_pairs(f, 1, 0, pairs, codes, NULL) == 0 && catalogue_file_close(f) == 0,
          "the table cannot be made");
    catalogue_file_free(f);
}

static void map_table(uint64_t nodes)
{
    size_t words = HEADER_WORDS + NODE_WORDS * nodes;
    int file = open(name, O_RDWR | O_CLOEXEC);
    writer = (struct writer){.words = words, .working = malloc(words * sizeof(uint64_t)), .brackets = BRACKET_LIST};
    writer.memory = mmap(NULL, (words + TRAILER_WORDS) * sizeof(uint64_t), PROT_READ | PROT_WRITE, MAP_SHARED, file, 0);
    still = malloc(words * sizeof(uint64_t));
    wants(file >= 0 && writer.working && still && writer.memory != MAP_FAILED, "the table cannot be mapped");
    writer_open(&writer);
    memcpy(still, writer.memory, words * sizeof(uint64_t));
}

/* ---- contenders */

static uint64_t by_core(uint64_t key)
{
    uint64_t recording = 0, access, next, higher;
    catalogue_search(still, writer.words, 1, key, &recording, &access, &next, &higher);
    return recording;
}

static uint64_t by_find(uint64_t key)
{
    struct catalogue_file_pair found;
    catalogue_file_find(handle, 1, key, &found);
    return found.recording;
}

#ifdef WITH_LMDB
static void *store;

static uint64_t by_get(uint64_t key)
{
    return CATALOGUE_RECORDING(lmdb.find(store, key));
}

static uint64_t by_transaction(uint64_t key)
{
    lmdb.begin(store);
    uint64_t recording = by_get(key);
    lmdb.end(store);
    return recording;
}
#endif

struct contender {
    const char *name;
    uint64_t (*find)(uint64_t);
    bool transaction; /* one for all finds of a round */
    double times[ROUNDS];
};

static struct contender contenders[] = {
    {.name = "the core's search", .find = by_core},
    {.name = "find, an idle writer", .find = by_find},
#ifdef WITH_LMDB
    {.name = "LMDB's get, one read transaction for all", .find = by_get, .transaction = true},
    {.name = "LMDB's get, a read transaction each", .find = by_transaction},
#endif
};

/* Nanoseconds a find. The code in the middle comes and goes. */
static double time_of(uint64_t (*find)(uint64_t))
{
    double start = now();
    for (uint64_t n = 0; n < SEARCHES; n++) {
        uint64_t i = next_random() % codes;
        wants(find(keys[i]) == i + 1 || i == codes / 2, "a wrong recording");
    }
    return (now() - start) / SEARCHES * 1e9;
}

static double time_in_turn(struct contender *c)
{
#ifdef WITH_LMDB
    if (c->transaction)
        lmdb.begin(store);
#endif
    double took = time_of(c->find);
#ifdef WITH_LMDB
    if (c->transaction)
        lmdb.end(store);
#endif
    return took;
}

static int rising(const void *a, const void *b)
{
    const double *x = a, *y = b;
    return (*x > *y) - (*x < *y);
}

static double median(double *times)
{
    qsort(times, ROUNDS, sizeof *times, rising);
    return times[ROUNDS / 2];
}

static void print(const char *what, double took, double core)
{
    printf("   %s: %.0f ns, %.2f million a second, %.2f times the core's %.0f\n", what, took, 1e3 / took, took / core, core);
    fflush(stdout);
}

static void compare(void)
{
    size_t count = sizeof contenders / sizeof contenders[0];
    for (unsigned round = 0; round < ROUNDS; round++)
        for (size_t i = 0; i < count; i++)
            contenders[i].times[round] = time_in_turn(&contenders[i]);
    double core = median(contenders[0].times);
    for (size_t i = 0; i < count; i++)
        print(contenders[i].name, median(contenders[i].times), core);
}

/* ---- writers */

static bool goes_on(void)
{
    return !__atomic_load_n(&ended, __ATOMIC_RELAXED);
}

static void pause_for(double seconds)
{
    const struct timespec moment = {.tv_nsec = 200000};
    double until = now() + seconds;
    while (goes_on() && now() < until)
        nanosleep(&moment, NULL);
}

/* One code goes and comes back, and has another class and its own; between two changes so many seconds. */
static void *by_library(void *between)
{
    catalogue_file *f = catalogue_file_new();
    uint64_t key = keys[codes / 2], recording = codes / 2 + 1;
    wants(f && catalogue_file_open(f, name, CATALOGUE_FILE_WRITING | CATALOGUE_FILE_FAST, 0) == 0, "no second handle");
    for (unsigned i = 0; goes_on() || i % 4 != 0; i++) {
        uint64_t number = i % 4 == 0   ? catalogue_file_remove(f, 1, key)
                          : i % 4 == 1 ? catalogue_file_add(f, 1, key, recording, CATALOGUE_OPEN)
                                       : catalogue_file_set_class(f, 1, key, i % 4 == 2 ? CATALOGUE_CLOSED : CATALOGUE_OPEN);
        wants(number == 0, "a change was refused");
        changes++;
        pause_for(*(double *)between);
    }
    catalogue_file_free(f);
    return NULL;
}

/* The same changes as lists that may be carried out again and again. */
static void plan(void)
{
    for (unsigned turn = 0; turn < 2; turn++)
        for (unsigned i = 0; i < LISTS; i++) {
            enum change kind = i == 0 ? DELETE : i == 1 ? INSERT : CLASS;
            wants(writer_plan(&writer, kind, 1, keys[codes / 2], codes / 2 + 1, i == 2 ? 2 : 0, NULL) == 0, "a change was refused");
            writer_carry(&writer, kind, writer.count, 0);
            lists[i] = writer_list(&writer, kind);
        }
}

static void *by_lists(void *unused)
{
    (void)unused;
    for (unsigned i = 0; goes_on() || i != 0; i = (i + 1) % LISTS) {
        writer_carry_list(&writer, &lists[i], lists[i].count, 0);
        changes++;
    }
    return NULL;
}

#ifdef WITH_LMDB
/* Codes between the others come. */
static void *by_peer(void *between)
{
    for (uint64_t i = 0; goes_on() && i < codes; i++) {
        struct pair pair = {keys[i] + 1, codes + 1 + i};
        wants(lmdb.insert(store, &pair, 1), "a change was refused");
        changes++;
        pause_for(*(double *)between);
    }
    return NULL;
}
#endif

/* The core's search and a find in turn. */
static void compare_two(const char *what, uint64_t (*find)(uint64_t))
{
    double times[ROUNDS], core[ROUNDS];
    for (unsigned round = 0; round < ROUNDS; round++) {
        core[round] = time_of(by_core);
        times[round] = time_of(find);
    }
    print(what, median(times), median(core));
}

static void beside(const char *what, uint64_t (*find)(uint64_t), void *(*work)(void *), double between)
{
    pthread_t thread;
    ended = changes = 0;
    wants(pthread_create(&thread, NULL, work, &between) == 0, "no thread");
    compare_two(what, find);
    __atomic_store_n(&ended, 1, __ATOMIC_RELAXED);
    pthread_join(thread, NULL);
    printf("      %" PRIu64 " changes\n", changes);
}

static void beside_stopped(void)
{
    struct counter stopped = counter_start(writer_counter(&writer), BRACKET_LIST);
    counter_store(&stopped, &writer.memory[HEADER_WORDS], writer.memory[HEADER_WORDS]);
    compare_two("find, a writer stopped within a bracket", by_find);
    counter_finish(&stopped);
}

/* ---- single finds */

static int pass(void *count, const struct catalogue_file_pair *pair)
{
    *(uint64_t *)count += pair->recording != 0;
    return 0;
}

/* Of a handle that has copied the whole table, the first find after a change. */
static void after_a_walk(void)
{
    double times[ROUNDS];
    for (unsigned round = 0; round < ROUNDS; round++) {
        uint64_t walked = 0;
        wants(catalogue_file_walk(handle, 1, 0, UINT64_MAX, pass, &walked) == 0 && walked == codes, "the walk has not all codes");
        /* A class, to and fro. */
        const struct list *list = &lists[2 + round % 2];
        writer_carry_list(&writer, list, list->count, 0);
        double start = now();
        by_find(keys[codes / 3]);
        times[round] = (now() - start) * 1e6;
    }
    double middle = median(times);
    printf("   first find after a change, of a handle that walked the whole table: %.1f us, at most %.1f\n", middle, times[ROUNDS - 1]);
}

static void first_find(void)
{
    long before = faults();
    double start = now();
    handle = catalogue_file_new();
    wants(handle && catalogue_file_open(handle, name, CATALOGUE_FILE_READING, 0) == 0, "the table cannot be opened");
    by_find(keys[codes / 3]);
    double took = now() - start;
    printf("   opening a handle and its first find: %ld page faults, %.0f us\n", faults() - before, took * 1e6);
}

int main(int count, char **arguments)
{
    wants(count == 4 && pthread_getcpuclockid(pthread_self(), &reader) == 0, "speed FOLDER CODES NODES");
    codes = strtoull(arguments[2], NULL, 10);
    uint64_t nodes = strtoull(arguments[3], NULL, 10), *pairs = make_pairs();
    snprintf(name, sizeof name, "%s/table", arguments[1]);
    make_table(pairs, nodes);
#ifdef WITH_LMDB
    const struct place place = {.folder = arguments[1], .scratch = arguments[1], .codes = codes};
    store = lmdb.load(&place, (const struct pair *)pairs, codes, true);
#endif
    printf("%" PRIu64 " codes in %" PRIu64 " nodes\n", codes, nodes);
    map_table(nodes);
    first_find();
    compare();
    beside_stopped();
    beside("find, a change every 10 ms", by_find, by_library, TEN_MILLISECONDS);
    beside("find, changes without pause", by_find, by_library, 0);
    writer_open(&writer);
    plan();
    beside("find, planned lists without pause", by_find, by_lists, 0);
#ifdef WITH_LMDB
    beside("LMDB's get, a read transaction each, an insertion every 10 ms", by_transaction, by_peer, TEN_MILLISECONDS);
#endif
    after_a_walk();
#ifdef WITH_LMDB
    lmdb.close(store);
#endif
    return 0;
}
