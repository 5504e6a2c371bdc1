/* What the tests of the file library share: checks that count, files in a folder of their own, and a disk that can fail. */
#ifndef CHECK_H
#define CHECK_H

#include <stdbool.h>
#include <stdint.h>
#include <stdio.h>

#include "catalogue_file.h"

/* Says where a check fails and ends the test that makes it. */
#define CHECK(condition) \
    do { \
        if (!(condition)) { \
            printf("%s:%d: %s\n", __FILE__, __LINE__, #condition); \
            return false; \
        } \
    } while (0)

/* The same for a number that a call returns. */
#define GIVES(expected, call) \
    do { \
        uint64_t got_ = (call), wanted_ = (expected); \
        if (got_ != wanted_) { \
            printf("%s:%d: %s gives %llu (%s), not %llu\n", __FILE__, __LINE__, #call, (unsigned long long)got_, \
                   catalogue_file_strerror(got_), (unsigned long long)wanted_); \
            return false; \
        } \
    } while (0)

struct test {
    const char *name;
    bool (*run)(void);
};

/* The tests of each file; the last one has no name. */
extern const struct test codes_tests[], files_tests[], reading_tests[], change_tests[], quick_tests[], load_tests[], disk_tests[], hard_tests[];

/* So many rounds of a test, or a tenth of them if it runs under a program that watches it and takes its time. */
uint64_t rounds(uint64_t all);

/* The name of a file in the tests' folder; the text stays until the eighth call after this one. */
const char *at(const char *name);

/* The bytes of a file, to be freed. */
char *contents(const char *name, size_t *bytes);
bool put_word(const char *name, size_t word, uint64_t value);
uint64_t get_word(const char *name, size_t word);

/* A new table with keys 10, 20, .. 10 * count, recordings 1000 + key, all open; true if it was made. */
bool table_with(const char *name, uint64_t nodes, uint64_t count);

/* The allocation of that number from now on fails. Then whether it came; no further one fails. */
void fail_allocation(uint64_t number);
bool allocation_failed(void);

/* ---- the disk: what the calls mmap, msync, fsync, rename and renameat2 of the library do */

struct disk {
    uint64_t syncs;     /* msyncs so far; set to 0 before a handle is opened whose file the image is of */
    uint64_t fail;      /* the msync of that number fails; 0 for none */
    bool fail_on;       /* so do those after it */
    bool no_rename;     /* no file takes another one's place */
    bool no_folder;     /* no folder is synced */
    bool persistent;    /* grants MAP_SYNC: files lie in persistent memory */
    bool folder_synced; /* since it was last set to false */
    char *image;        /* what the disk has of the mapped file, kept while it is not null; bytes of it */
    size_t bytes;
};
extern struct disk disk;

#endif
