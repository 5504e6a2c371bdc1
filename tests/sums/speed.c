/*
 * How long a find takes with sums and without, in one run, by turns: of an open handle while nothing is changed; if the counter has moved before each
 * find, so that every node on the way is copied, and tested, once more; if a change is made every ten milliseconds; and of a handle that is
 * opened for it, as the program does. Prints a line each, with the times of both and how many times as long it takes with sums.
 */
#include <fcntl.h>
#include <pthread.h>
#include <stdatomic.h>
#include <stdbool.h>
#include <stdio.h>
#include <stdlib.h>
#include <sys/mman.h>
#include <time.h>
#include <unistd.h>

#include "catalogue_file.h"

#define ROUNDS 9

static uint64_t codes, seed = 7;
static char names[2][4096];
static catalogue_file *handles[2];
static uint64_t *counters[2];

static void must(bool right, const char *what)
{
    if (right)
        return;
    fprintf(stderr, "not done: %s\n", what);
    exit(1);
}

static uint64_t drawn(void)
{
    seed ^= seed << 13;
    seed ^= seed >> 7;
    return seed ^= seed << 17;
}

static double now(void)
{
    struct timespec t;
    clock_gettime(CLOCK_THREAD_CPUTIME_ID, &t);
    return (double)t.tv_sec * 1e9 + (double)t.tv_nsec;
}

/* Code i and its recording; a code that the writer takes out and adds is another. */
static uint64_t key_of(uint64_t i)
{
    return 1000 * (i + 1);
}

static void make_table(int with, uint64_t nodes)
{
    catalogue_file *f = catalogue_file_new();
    uint64_t *pairs = malloc(2 * codes * sizeof *pairs);
    must(f && pairs, "memory");
    for (uint64_t i = 0; i < codes; i++) {
        pairs[2 * i] = key_of(i);
        pairs[2 * i + 1] = i + 1;
    }
    must(catalogue_file_create(f, names[with], nodes, 1) == 0 && catalogue_file_open(f, names[with], CATALOGUE_FILE_WRITING, 0) == 0
             && catalogue_file_load_pairs(f, 1, 0, pairs, codes, NULL) == 0 && (!with || catalogue_file_sums(f, 1) == 0),
         catalogue_file_message(f));
    catalogue_file_free(f);
    free(pairs);
    int file = open(names[with], O_RDWR);
    struct catalogue_file_about about;
    handles[with] = catalogue_file_new();
    must(file >= 0 && handles[with] && catalogue_file_open(handles[with], names[with], 0, 0) == 0
             && catalogue_file_about(handles[with], &about) == 0, "a handle");
    size_t bytes = (about.words + CATALOGUE_FILE_TRAILER) * sizeof(uint64_t);
    uint64_t *words = mmap(NULL, bytes, PROT_READ | PROT_WRITE, MAP_SHARED, file, 0);
    must(words != MAP_FAILED, "a mapping");
    counters[with] = &words[about.words + 1];
    close(file);
}

static void find(int with)
{
    struct catalogue_file_pair found;
    uint64_t i = drawn() % codes;
    must(catalogue_file_find(handles[with], 1, key_of(i), &found) == 0 && found.recording == i + 1, catalogue_file_message(handles[with]));
}

/* ---- what is measured: nanoseconds of so many finds */

static double kept(int with, uint64_t finds)
{
    double began = now();
    for (uint64_t i = 0; i < finds; i++)
        find(with);
    return now() - began;
}

static double copied(int with, uint64_t finds)
{
    double began = now();
    for (uint64_t i = 0; i < finds; i++) {
        __atomic_fetch_add(counters[with], 2, __ATOMIC_SEQ_CST);
        find(with);
    }
    return now() - began;
}

static double opened(int with, uint64_t finds)
{
    double began = now();
    for (uint64_t i = 0; i < finds; i++) {
        must(catalogue_file_open(handles[with], names[with], 0, 0) == 0, "opening");
        find(with);
    }
    return now() - began;
}

static atomic_bool ends;

static void *change_now_and_then(void *of)
{
    catalogue_file *f = catalogue_file_new();
    const struct timespec pause = {.tv_nsec = 10000000};
    must(f && catalogue_file_open(f, of, CATALOGUE_FILE_WRITING | CATALOGUE_FILE_FAST, 0) == 0, "a writer");
    while (!ends) {
        uint64_t i = codes / 2;
        must(catalogue_file_set_class(f, 1, key_of(i), CATALOGUE_ROOM) == 0 && catalogue_file_set_class(f, 1, key_of(i), CATALOGUE_OPEN) == 0,
             catalogue_file_message(f));
        nanosleep(&pause, NULL);
    }
    catalogue_file_free(f);
    return NULL;
}

static double beside(int with, uint64_t finds)
{
    pthread_t writer;
    ends = false;
    must(pthread_create(&writer, NULL, change_now_and_then, names[with]) == 0, "a thread");
    double took = kept(with, finds);
    ends = true;
    pthread_join(writer, NULL);
    return took;
}

/* ---- printing */

static int by_size(const void *a, const void *b)
{
    double x = *(const double *)a, y = *(const double *)b;
    return (x > y) - (x < y);
}

static double median(double *of)
{
    qsort(of, ROUNDS, sizeof *of, by_size);
    return of[ROUNDS / 2];
}

static void compare(const char *what, double (*take)(int with, uint64_t finds), uint64_t finds)
{
    double took[2][ROUNDS], ratio[ROUNDS];
    for (int with = 0; with < 2; with++)
        take(with, finds);
    for (int round = 0; round < ROUNDS; round++) {
        for (int with = 0; with < 2; with++)
            took[with][round] = take(with, finds) / (double)finds;
        ratio[round] = took[1][round] / took[0][round];
    }
    printf("%7lu codes, %-28s without sums %7.0f ns, with %7.0f ns, %.2f times\n", (unsigned long)codes, what, median(took[0]),
           median(took[1]), median(ratio));
}

int main(int count, char **words)
{
    must(count == 4, "usage: speed FOLDER CODES FINDS");
    codes = strtoull(words[2], NULL, 10);
    uint64_t finds = strtoull(words[3], NULL, 10);
    for (int with = 0; with < 2; with++) {
        snprintf(names[with], sizeof names[with], "%s/%s-%lu", words[1], with ? "with" : "without", (unsigned long)codes);
        make_table(with, codes / 10 + 20);
    }
    compare("an open handle", kept, finds);
    compare("a change every 10 ms", beside, finds);
    compare("the counter moved each time", copied, finds);
    compare("opened for each find", opened, finds / 100 + 1);
    return 0;
}
