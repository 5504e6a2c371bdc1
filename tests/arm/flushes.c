/*
 * The file library on ARM: which flush it takes by what the system announces, processors whose lines are too short, and docks. Ends with the
 * line 'N passed, M failed'. The word is a folder.
 */
#include <stdbool.h>
#include <stdio.h>
#include <stdlib.h>
#include <string.h>
#include <sys/auxv.h>
#include <unistd.h>

#include "catalogue_file.h"

/* ---- the processor, as these tests want it: the library asks here */

#define CVAP (1ul << 16)
#define CVADP (1ul << 0)

static unsigned long first, second;
static uint64_t line_bytes;

unsigned long getauxval(unsigned long which)
{
    return which == AT_HWCAP ? first : which == AT_HWCAP2 ? second : 0;
}

/* The register's other fields are as those of a Cortex-A57, with lines of 64 bytes for instructions. */
uint64_t cache_type(void)
{
    uint64_t words = 0;
    while (UINT64_C(4) << words < line_bytes)
        words++;
    return UINT64_C(0x8440c004) | words << 16;
}

static void be(unsigned long hwcap, unsigned long hwcap2, uint64_t bytes)
{
    first = hwcap;
    second = hwcap2;
    line_bytes = bytes;
}

/* ---- the tests */

static unsigned passed, failed;

static void check(bool right, const char *what)
{
    *(right ? &passed : &failed) += 1;
    if (!right)
        printf("FAILED: %s\n", what);
}

/* The best flush and those that there are, of cvadp, cvap, civac and none, by their first letters behind the c. */
static bool has(const char *best, const char *all)
{
    static const char *const names[] = {"cvadp", "cvap", "civac", "none", "clwb", "clflush"};
    char found[64] = "";
    for (size_t i = 0; i < sizeof names / sizeof names[0]; i++) {
        const char *name = catalogue_file_flush(names[i]);
        if (name)
            strcat(strcat(found, " "), name);
    }
    bool right = strcmp(catalogue_file_flush(NULL), best) == 0 && strcmp(found, all) == 0;
    if (!right)
        printf("best %s, all%s; not %s, all%s\n", catalogue_file_flush(NULL), found, best, all);
    return right;
}

static void names(void)
{
    be(0, 0, 64);
    check(has("civac", " civac none"), "a processor of ARMv8.0");
    be(CVAP, 0, 64);
    check(has("cvap", " cvap civac none"), "a processor with DC CVAP");
    be(CVAP | 0xffff, CVADP, 64);
    check(has("cvadp", " cvadp cvap civac none"), "a processor with DC CVADP");
    be(~CVAP, ~CVADP, 64);
    check(has("civac", " civac none"), "every other feature");
    for (uint64_t bytes = 4; bytes <= 32; bytes *= 2) {
        be(CVAP, CVADP, bytes);
        check(has("none", " none"), "lines that are too short");
    }
    for (uint64_t bytes = 128; bytes <= 2048; bytes *= 2) {
        be(CVAP, CVADP, bytes);
        check(has("cvadp", " cvadp cvap civac none"), "longer lines");
    }
}

static uint64_t open_with(catalogue_file *f, const char *name, uint64_t flags, uint64_t dock)
{
    const struct catalogue_file_options options = {.flags = flags, .dock = dock};
    return catalogue_file_open_with(f, name, &options);
}

/* A processor with short lines changes no table, however it is opened, and reads every table. */
static void short_lines(catalogue_file *f, const char *name)
{
    struct catalogue_file_pair found;
    be(0, 0, 32);
    check(catalogue_file_open(f, name, CATALOGUE_FILE_WRITING, 0) == CATALOGUE_FILE_NO_FLUSH
              && strstr(catalogue_file_message(f), "lines of less than 64 bytes"), "short lines: no writer");
    check(catalogue_file_open(f, name, CATALOGUE_FILE_WRITING | CATALOGUE_FILE_FAST, 0) == CATALOGUE_FILE_NO_FLUSH, "short lines: no fast writer");
    check(catalogue_file_open(f, name, CATALOGUE_FILE_READING, 0) == 0 && catalogue_file_find(f, 1, 10, &found) == 0 && found.recording == 7,
          "short lines: a reader");
    be(0, 0, 64);
}

/* The barriers of an addition by this handle. */
static uint64_t barriers(catalogue_file *f, uint64_t key)
{
    struct catalogue_file_change c = {.kind = CATALOGUE_FILE_ADD, .collection = 1, .key = key, .recording = key, .cut = CATALOGUE_FILE_ALL};
    return catalogue_file_change(f, &c) == 0 ? c.barriers : UINT64_MAX;
}

static void docks(catalogue_file *f, const char *name)
{
    check(CATALOGUE_FILE_DOCK == CATALOGUE_UNORDERED, "the processor's dock");
    check(catalogue_file_open(f, name, CATALOGUE_FILE_WRITING, 0) == 0 && barriers(f, 20) == 4, "a writer that names no dock");
    check(open_with(f, name, CATALOGUE_FILE_WRITING, 1) == 0 && barriers(f, 30) == 4, "dock 1");
    check(open_with(f, name, CATALOGUE_FILE_WRITING, 0) == CATALOGUE_NO_DOCK && strstr(catalogue_file_message(f), "may reorder its stores"), "dock 0");
    check(open_with(f, name, CATALOGUE_FILE_WRITING | CATALOGUE_FILE_FORCE, 0) == 0 && barriers(f, 40) == 0, "dock 0, asked for twice");
    check(open_with(f, name, CATALOGUE_FILE_READING, 0) == 0, "a reader that plans for dock 0");
    check(open_with(f, name, CATALOGUE_FILE_WRITING | CATALOGUE_FILE_FORCE, 2) == CATALOGUE_NO_DOCK, "dock 2, asked for twice");
}

int main(int count, char **words)
{
    char name[512];
    if (count < 2)
        return 2;
    snprintf(name, sizeof name, "%s/table", words[1]);
    unlink(name);
    be(0, 0, 64);
    names();
    be(0, 0, 64);
    catalogue_file *f = catalogue_file_new();
    check(catalogue_file_create(f, name, 9, 1) == 0 && catalogue_file_open(f, name, CATALOGUE_FILE_WRITING, 0) == 0
              && catalogue_file_add(f, 1, 10, 7, 0) == 0 && catalogue_file_close(f) == 0, "a table");
    short_lines(f, name);
    docks(f, name);
    catalogue_file_free(f);
    unlink(name);
    printf("%u passed, %u failed\n", passed, failed);
    return failed != 0;
}
