/* What the tests of the sums share: a tally, tables with known codes, what a handle answers of them. */
#include "try.h"

#include <stdarg.h>
#include <stdio.h>
#include <stdlib.h>
#include <unistd.h>

static unsigned tally;
static const char *folder;
static uint64_t seed = UINT64_C(0x9e3779b97f4a7c15);

void must(bool right, const char *file, int line, const char *format, ...)
{
    va_list rest;
    if (right)
        return;
    printf("FAILED: %s:%d: ", file, line);
    va_start(rest, format);
    vprintf(format, rest);
    va_end(rest);
    printf("\n%u passed, 1 failed\n", tally);
    fflush(stdout);
    _exit(1);
}

void passed(const char *format, ...)
{
    va_list rest;
    va_start(rest, format);
    printf("  ");
    vprintf(format, rest);
    printf("\n");
    va_end(rest);
    tally++;
}

int finish(void)
{
    printf("%u passed, 0 failed\n", tally);
    return 0;
}

void folder_is(const char *name)
{
    folder = name;
}

const char *at(const char *name)
{
    static _Thread_local char names[4][4096];
    static _Thread_local unsigned next;
    char *text = names[next++ % 4];
    snprintf(text, sizeof names[0], "%s/%s", folder, name);
    return text;
}

const char *sums_of(const char *name)
{
    static _Thread_local char names[4][4096];
    static _Thread_local unsigned next;
    char *text = names[next++ % 4];
    snprintf(text, sizeof names[0], "%s/%s.sums", folder, name);
    return text;
}

uint64_t drawn(void)
{
    seed ^= seed << 13;
    seed ^= seed >> 7;
    return seed ^= seed << 17;
}

void make_table(const char *name, uint64_t nodes, uint64_t collections, uint64_t count, bool sums, struct ledger *ledger)
{
    catalogue_file *f = catalogue_file_new();
    unlink(at(name));
    unlink(sums_of(name));
    *ledger = (struct ledger){.collections = collections, .codes = count};
    MUST(f && catalogue_file_create(f, at(name), nodes, collections) == 0
             && catalogue_file_open(f, at(name), CATALOGUE_FILE_WRITING | CATALOGUE_FILE_FAST, 0) == 0, "%s", catalogue_file_message(f));
    for (uint64_t c = 0; c < collections; c++)
        for (uint64_t i = 1; i <= count; i++) {
            ledger->recording[c][i] = 1000 * (c + 1) + i;
            MUST(catalogue_file_add(f, c + 1, 10 * i, ledger->recording[c][i], i % 3) == 0, "%s", catalogue_file_message(f));
        }
    if (sums)
        MUST(catalogue_file_sums(f, 1) == 0, "%s", catalogue_file_message(f));
    catalogue_file_free(f);
}

struct answers ask_all(catalogue_file *f, const struct ledger *before, const struct ledger *after, uint64_t step)
{
    struct answers a = {0};
    for (uint64_t c = 0; c < before->collections; c++)
        for (uint64_t key = 0; key <= 10 * (before->codes + 1); key += step) {
            struct catalogue_file_pair found;
            uint64_t number = catalogue_file_find(f, c + 1, key, &found);
            uint64_t old = key % 10 == 0 ? before->recording[c][key / 10] : 0, new = key % 10 == 0 ? after->recording[c][key / 10] : 0;
            if (number != 0 && number != CATALOGUE_ABSENT) {
                a.refused++;
                a.number = number;
                continue;
            }
            uint64_t got = number == 0 ? found.recording : 0;
            MUST(got == old || got == new, "key %lu in collection %lu has %lu, not %lu or %lu", (unsigned long)key, (unsigned long)c + 1,
                 (unsigned long)got, (unsigned long)old, (unsigned long)new);
            a.right++;
        }
    return a;
}

static int name(void *context, const struct catalogue_file_doubt *doubt)
{
    struct named *n = context;
    if (n->count++ == 0) {
        n->node = doubt->node;
        n->line = doubt->line;
    }
    return 0;
}

uint64_t scrub(catalogue_file *f, struct named *named)
{
    *named = (struct named){0};
    return catalogue_file_scrub(f, name, named);
}

uint8_t *read_file(const char *name, size_t *bytes)
{
    FILE *f = fopen(name, "rb");
    MUST(f && fseek(f, 0, SEEK_END) == 0, "%s cannot be read", name);
    *bytes = (size_t)ftell(f);
    uint8_t *all = malloc(*bytes + 1);
    rewind(f);
    MUST(all && fread(all, 1, *bytes, f) == *bytes, "%s cannot be read", name);
    fclose(f);
    return all;
}

void write_file(const char *name, const void *from, size_t bytes)
{
    FILE *f = fopen(name, "wb");
    MUST(f && fwrite(from, 1, bytes, f) == bytes && fclose(f) == 0, "%s cannot be written", name);
}
