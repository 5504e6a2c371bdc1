/* Every bit of a small table and of its sums, turned by itself: no find, no list and no walk answers wrongly, and a scrub names the node. */
#include <fcntl.h>
#include <stdio.h>
#include <stdlib.h>
#include <sys/mman.h>
#include <unistd.h>

#include "try.h"

#define NODES 8

/* Codes that are added in order: the next one splits a leaf. */
#define CODES_TO_A_SPLIT 21

static struct ledger ledger;

/* A file's words, mapped and shared, so that a bit can be turned under an open handle. */
static uint64_t *map(const char *name, size_t *words)
{
    size_t bytes;
    free(read_file(name, &bytes));
    int file = open(name, O_RDWR);
    uint64_t *at = mmap(NULL, bytes, PROT_READ | PROT_WRITE, MAP_SHARED, file, 0);
    MUST(file >= 0 && at != MAP_FAILED, "%s cannot be mapped", name);
    close(file);
    *words = bytes / sizeof *at;
    return at;
}

/* The pairs of a walk, and of a listing of the table of one moment, are the ledger's as far as they go. */
static int is_right(void *context, const struct catalogue_file_pair *pair)
{
    const uint64_t *recordings = context;
    return pair->key % 10 == 0 && pair->key / 10 <= ledger.codes && recordings[pair->key / 10] == pair->recording ? 0 : 1;
}

static void walk_all(catalogue_file *f)
{
    static uint64_t pairs[2 * MOST_CODES];
    for (uint64_t c = 0; c < ledger.collections; c++) {
        const uint64_t *table;
        size_t words;
        uint64_t count, more;
        MUST(catalogue_file_walk(f, c + 1, 0, UINT64_MAX, is_right, ledger.recording[c]) != CATALOGUE_FILE_STOPPED, "a walk met a wrong pair");
        if (catalogue_file_table(f, &table, &words) != 0 || catalogue_list(table, words, c + 1, 0, UINT64_MAX, pairs, 2 * MOST_CODES, &count, &more) != 0)
            continue;
        MUST(count == ledger.codes && more == 0, "a list of %lu codes", (unsigned long)count);
        for (uint64_t i = 0; i < count; i++)
            MUST(CATALOGUE_RECORDING(pairs[2 * i + 1]) == ledger.recording[c][pairs[2 * i] / 10], "a wrong line of a list");
    }
}

/* A handle that is opened after the bit was turned. */
static void open_and_ask(catalogue_file *f, const char *name, uint64_t step, struct answers *a, uint64_t *scrubbed, struct named *named)
{
    *a = (struct answers){0};
    *named = (struct named){0};
    *scrubbed = catalogue_file_open(f, at(name), CATALOGUE_FILE_READING, 0);
    if (*scrubbed != 0)
        return;
    *a = ask_all(f, &ledger, &ledger, step);
    if (step == 5)
        walk_all(f);
    *scrubbed = scrub(f, named);
}

static void writer_refuses(catalogue_file *f, const char *name)
{
    uint64_t number = catalogue_file_open(f, at(name), CATALOGUE_FILE_WRITING | CATALOGUE_FILE_FAST, 0);
    if (number == 0)
        number = catalogue_file_add(f, 1, 7, 77777, CATALOGUE_OPEN);
    MUST(number == CATALOGUE_FILE_DECAYED || number == CATALOGUE_NO_TABLE, "a change of a decayed table: %lu", (unsigned long)number);
    catalogue_file_close(f);
}

/* A table whose sums have been kept by some changes, the last of a class, which is one bit. */
static void make(void)
{
    catalogue_file *f = catalogue_file_new();
    make_table("t", NODES, 2, 17, true, &ledger);
    MUST(catalogue_file_open(f, at("t"), CATALOGUE_FILE_WRITING | CATALOGUE_FILE_FAST, 0) == 0 && catalogue_file_remove(f, 1, 30) == 0
             && catalogue_file_add(f, 1, 30, ledger.recording[0][3], 0) == 0 && catalogue_file_set_class(f, 1, 30, CATALOGUE_ROOM) == 0,
         "%s", catalogue_file_message(f));
    catalogue_file_free(f);
}

static void bits_of_the_table(void)
{
    size_t words;
    uint64_t refused = 0, asked = 0;
    make();
    uint64_t *table = map(at("t"), &words);
    catalogue_file *f = catalogue_file_new(), *open = catalogue_file_new();
    MUST(catalogue_file_open(open, at("t"), CATALOGUE_FILE_READING, 0) == 0, "%s", catalogue_file_message(open));
    ask_all(open, &ledger, &ledger, 5);
    for (uint64_t bit = 0; bit < 64 * (words - CATALOGUE_FILE_TRAILER); bit++) {
        struct answers a;
        struct named n;
        uint64_t number, word = bit / 64, node = word < 8 ? 0 : (word - 8) / 32 + 1, line = word < 8 ? 0 : (word - 8) % 32 / 8;
        table[word] ^= UINT64_C(1) << bit % 64;
        open_and_ask(f, "t", bit % 8 == 0 ? 5 : 10, &a, &number, &n);
        MUST(number == CATALOGUE_FILE_DECAYED, "bit %lu: a scrub gives %lu", (unsigned long)bit, (unsigned long)number);
        MUST(n.count == 1 && n.node == node && n.line == line, "bit %lu: a scrub names node %lu", (unsigned long)bit, (unsigned long)n.node);
        MUST(a.refused == 0 || a.number == CATALOGUE_FILE_DECAYED, "bit %lu: a find gives %lu", (unsigned long)bit, (unsigned long)a.number);
        if (bit % 97 == 0)
            writer_refuses(f, "t");
        /* It has copies of all nodes, which are right. */
        if (bit % 97 == 1)
            MUST(ask_all(open, &ledger, &ledger, 5).refused == 0, "%s", catalogue_file_message(open));
        refused += a.refused;
        asked += a.refused + a.right;
        table[word] ^= UINT64_C(1) << bit % 64;
    }
    struct named n;
    MUST(scrub(open, &n) == 0, "%s", catalogue_file_message(open));
    MUST(refused > asked / 20 && refused < asked, "%lu of %lu finds were refused", (unsigned long)refused, (unsigned long)asked);
    catalogue_file_free(f);
    catalogue_file_free(open);
    munmap(table, words * sizeof *table);
    passed("every bit of a table of %d nodes: %lu finds of %lu refused, none wrong; each named by a scrub", NODES, (unsigned long)refused,
           (unsigned long)asked);
}

/* The trailer: the counter and the word that the sums have too. */
static void bits_of_the_trailer(void)
{
    size_t words;
    uint64_t *table = map(at("t"), &words);
    catalogue_file *f = catalogue_file_new();
    for (uint64_t bit = 64 * (words - CATALOGUE_FILE_TRAILER); bit < 64 * words; bit++) {
        struct answers a;
        struct named n;
        uint64_t number, word = bit / 64 - (words - CATALOGUE_FILE_TRAILER);
        table[bit / 64] ^= UINT64_C(1) << bit % 64;
        open_and_ask(f, "t", 5, &a, &number, &n);
        if (word == 0)
            MUST(number == CATALOGUE_NO_TABLE, "the format: %lu", (unsigned long)number);
        else if (word == 3)
            MUST(number == CATALOGUE_FILE_BAD_SUMS && a.right == 0 && a.number == CATALOGUE_FILE_BAD_SUMS, "the identity: %lu", (unsigned long)number);
        else
            MUST(number == 0 && a.refused == 0, "word %lu of the trailer: %lu", (unsigned long)word, (unsigned long)number);
        table[bit / 64] ^= UINT64_C(1) << bit % 64;
    }
    catalogue_file_free(f);
    munmap(table, words * sizeof *table);
    passed("every bit of the trailer: nothing is answered wrongly");
}

/*
 * A split that was cut off when the new leaf lacked its slot in the parent: then searches come to it by its fence. Bits of level and fence of every
 * node; the change before and after it.
 */
static void bits_of_fences(void)
{
    struct ledger before, after;
    catalogue_file *f = catalogue_file_new();
    uint64_t report[CATALOGUE_CHECK_WORDS] = {0}, refused = 0;
    struct catalogue_file_change c = {.kind = CATALOGUE_FILE_ADD, .collection = 1, .key = 10 * (CODES_TO_A_SPLIT + 1), .recording = 500};
    for (c.cut = 30; report[CATALOGUE_CHECK_LEFTOVER] != CATALOGUE_LEFT_B; c.cut++) {
        make_table("v", 12, 1, CODES_TO_A_SPLIT, true, &before);
        before.codes = CODES_TO_A_SPLIT + 1;
        MUST(catalogue_file_open(f, at("v"), CATALOGUE_FILE_WRITING | CATALOGUE_FILE_FAST, 0) == 0
                 && catalogue_file_change(f, &c) == CATALOGUE_FILE_CUT && catalogue_file_check(f, report) == 0, "%s", catalogue_file_message(f));
        catalogue_file_close(f);
    }
    after = before;
    after.recording[0][CODES_TO_A_SPLIT + 1] = 500;
    size_t words;
    uint64_t *table = map(at("v"), &words);
    for (uint64_t node = 1; node <= 12; node++)
        for (uint64_t bit = 0; bit < 128; bit++) {
            uint64_t *word = &table[8 + 32 * (node - 1) + 2 + bit / 64];
            *word ^= UINT64_C(1) << bit % 64;
            MUST(catalogue_file_open(f, at("v"), CATALOGUE_FILE_READING, 0) == 0, "%s", catalogue_file_message(f));
            struct answers a = ask_all(f, &before, &after, 10);
            MUST(a.refused == 0 || a.number == CATALOGUE_FILE_DECAYED, "a find gives %lu", (unsigned long)a.number);
            refused += a.refused;
            *word ^= UINT64_C(1) << bit % 64;
        }
    MUST(ask_all(f, &before, &after, 5).right > 0 && refused > 0, "nothing was refused");
    munmap(table, words * sizeof *table);
    catalogue_file_free(f);
    passed("every bit of each level and fence beside a split that was cut off: %lu finds refused, none wrong", (unsigned long)refused);
}

/* Bits of the file of sums from one word on up to another: how often a scrub gives the number; else it gives 0. */
static uint64_t bits_of_words(uint64_t *sums, uint64_t from, uint64_t to, uint64_t step, uint64_t number)
{
    uint64_t noticed = 0;
    catalogue_file *f = catalogue_file_new();
    for (uint64_t bit = 64 * from; bit < 64 * to; bit += step) {
        struct answers a;
        struct named n;
        uint64_t got;
        sums[bit / 64] ^= UINT64_C(1) << bit % 64;
        open_and_ask(f, "t", bit % 8 == 0 ? 5 : 10, &a, &got, &n);
        MUST(got == 0 || got == number, "bit %lu: %lu", (unsigned long)bit, (unsigned long)got);
        noticed += got == number;
        sums[bit / 64] ^= UINT64_C(1) << bit % 64;
    }
    catalogue_file_free(f);
    return noticed;
}

/* Of the file of sums: what is asked is answered rightly or not at all. */
static void bits_of_the_sums(void)
{
    size_t words;
    uint64_t *sums = map(sums_of("t"), &words);
    MUST(bits_of_words(sums, 0, 8, 1, CATALOGUE_FILE_BAD_SUMS) == 8 * 64, "a bit of the first line is not noticed");
    MUST(bits_of_words(sums, 8, 2560, 61, CATALOGUE_FILE_DECAYED) == 0, "a bit of a journal is called decay");
    /* Of the lines that the last change stored to the journal says what they are. */
    uint64_t named = bits_of_words(sums, 2560, words, 1, CATALOGUE_FILE_DECAYED), lines = 1 + 4 * NODES;
    MUST(named % 32 == 0 && named <= 32 * lines && named >= 32 * (lines - 6), "%lu bits of the entries are noticed", (unsigned long)named);
    munmap(sums, words * sizeof *sums);
    passed("bits of the sums: each one of the first line that is used, and of an entry, is noticed");
}

int main(int count, char **words)
{
    MUST(count == 2, "usage: flips FOLDER");
    folder_is(words[1]);
    bits_of_the_table();
    bits_of_the_trailer();
    bits_of_fences();
    bits_of_the_sums();
    return finish();
}
