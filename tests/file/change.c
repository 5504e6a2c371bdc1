/* Changes: their numbers and outcomes, cut at every order, planned, beside another program. */
#include <fcntl.h>
#include <stdlib.h>
#include <string.h>
#include <unistd.h>

#include "check.h"

static bool numbers_and_outcomes(void)
{
    catalogue_file *f = catalogue_file_new();
    struct catalogue_file_pair found;
    CHECK(table_with(at("c"), 20, 60));
    GIVES(0, catalogue_file_open(f, at("c"), CATALOGUE_FILE_WRITING, 0));
    GIVES(0, catalogue_file_add(f, 1, 15, 77, CATALOGUE_ROOM));
    CHECK(catalogue_file_outcome(f) == CATALOGUE_FILE_MADE);
    GIVES(CATALOGUE_KEY_PRESENT, catalogue_file_add(f, 1, 15, 78, 0));
    CHECK(catalogue_file_outcome(f) == CATALOGUE_FILE_NOT_MADE);
    GIVES(CATALOGUE_RECORDING_PRESENT, catalogue_file_add(f, 1, 16, 77, 0));
    GIVES(CATALOGUE_BAD_RECORDING, catalogue_file_add(f, 1, 16, 0, 0));
    GIVES(CATALOGUE_BAD_RECORDING, catalogue_file_add(f, 1, 16, CATALOGUE_MOST_RECORDING + 1, 0));
    GIVES(CATALOGUE_BAD_CLASS, catalogue_file_add(f, 1, 16, 79, 3));
    GIVES(CATALOGUE_NO_COLLECTION, catalogue_file_add(f, 2, 16, 79, 0));
    GIVES(CATALOGUE_KEY_ABSENT, catalogue_file_remove(f, 1, 16));
    GIVES(CATALOGUE_KEY_ABSENT, catalogue_file_set_class(f, 1, 16, 0));
    GIVES(CATALOGUE_BAD_CLASS, catalogue_file_set_class(f, 1, 15, 9));
    CHECK(strstr(catalogue_file_message(f), "/c: a class is open, room or closed"));
    GIVES(0, catalogue_file_find(f, 1, 15, &found));
    CHECK(found.recording == 77 && found.access == CATALOGUE_ROOM);
    GIVES(0, catalogue_file_set_class(f, 1, 15, CATALOGUE_CLOSED));
    GIVES(0, catalogue_file_find(f, 1, 15, &found));
    CHECK(found.access == CATALOGUE_CLOSED);
    GIVES(0, catalogue_file_remove(f, 1, 15));
    GIVES(CATALOGUE_ABSENT, catalogue_file_find(f, 1, 15, &found));
    CHECK(found.next == 20);
    GIVES(0, catalogue_file_repair(f));
    struct catalogue_file_change odd = {.kind = 4};
    GIVES(CATALOGUE_FILE_BAD_OPTION, catalogue_file_change(f, &odd));
    GIVES(0, catalogue_file_compare(f));
    /* A table that is full. */
    uint64_t key = 100000, number = 0;
    while (number == 0)
        number = catalogue_file_add(f, 1, key, key, 0), key++;
    CHECK(number == CATALOGUE_NO_NODES && catalogue_file_outcome(f) == CATALOGUE_FILE_NOT_MADE);
    catalogue_file_free(f);
    return true;
}

static bool same_file(const char *name, const char *words, size_t bytes)
{
    size_t now;
    char *all = contents(name, &now);
    bool same = now == bytes && memcmp(all, words, bytes - 64) == 0;
    free(all);
    return same;
}

static bool write_words(const char *name, const char *words, size_t bytes)
{
    int file = open(name, O_WRONLY | O_CREAT | O_TRUNC, 0666);
    bool done = write(file, words, bytes) == (ssize_t)bytes;
    close(file);
    return done;
}

/* What a find answers: the recording and 1, or 0. */
static uint64_t answer(catalogue_file *f, uint64_t key)
{
    struct catalogue_file_pair found;
    uint64_t number = catalogue_file_find(f, 1, key, &found);
    return number == 0 ? found.recording : number == CATALOGUE_ABSENT ? 0 : UINT64_MAX;
}

/* Every key's answer, without one. */
static bool others_stay(catalogue_file *f, uint64_t but)
{
    for (uint64_t key = 5; key < 620; key += 5)
        if (key != but)
            CHECK(answer(f, key) == (key % 10 == 0 && key <= 600 ? 1000 + key : 0));
    return true;
}

/*
 * One change, cut after every count of its orders: outcome and answers are as before or as after, an open reader agrees; then a further change,
 * which repairs first by orders of its own, the same list that the core gives at once; a refused one repairs nothing.
 */
static bool cut_everywhere(struct catalogue_file_change change, const char *words, size_t bytes, uint64_t before, uint64_t after)
{
    catalogue_file *w = catalogue_file_new(), *r = catalogue_file_new();
    bool more = true, leftovers = false;
    for (uint64_t cut = 0; more; cut++) {
        CHECK(write_words(at("cut"), words, bytes));
        GIVES(0, catalogue_file_open(w, at("cut"), CATALOGUE_FILE_WRITING | CATALOGUE_FILE_FAST, 0));
        GIVES(0, catalogue_file_open(r, at("cut"), CATALOGUE_FILE_READING, 0));
        CHECK(answer(r, change.key) == before && answer(w, change.key) == before);
        change.cut = cut;
        uint64_t number = catalogue_file_change(w, &change), all = change.stores + change.flushes + change.barriers;
        CHECK(number == (cut < all ? CATALOGUE_FILE_CUT : 0) && change.carried == cut && change.repair == 0);
        more = number == CATALOGUE_FILE_CUT;
        uint64_t now = answer(w, change.key), outcome = catalogue_file_outcome(w);
        CHECK((now == before || now == after) && answer(r, change.key) == now);
        CHECK(now == before && before != after ? outcome == CATALOGUE_FILE_NOT_MADE : outcome != CATALOGUE_FILE_NOT_MADE || cut == 0);
        CHECK(others_stay(w, change.key) && others_stay(r, change.key));
        size_t left_bytes;
        char *left = contents(at("cut"), &left_bytes);
        /* Refused: nothing is repaired. */
        GIVES(CATALOGUE_KEY_PRESENT, catalogue_file_add(w, 1, 300, 5, 0));
        CHECK(same_file(at("cut"), left, left_bytes));
        /* The list is that of the core's two calls; the table is also what its one call makes, which repairs too. */
        struct catalogue_file_change next = {.kind = CATALOGUE_FILE_ADD, .collection = 1, .key = 999, .recording = 999, .cut = UINT64_MAX};
        uint64_t orders[2 * CATALOGUE_LIST_WORDS], stores, flushes, more, waits, barriers;
        const uint64_t *planned;
        static uint64_t table[8 + 32 * 40];
        size_t count = (left_bytes - 64) / 8;
        memcpy(table, left, left_bytes - 64);
        GIVES(0, catalogue_repair(table, count, orders, CATALOGUE_LIST_WORDS, 0, &stores, &flushes, &barriers));
        uint64_t repair = stores + flushes;
        GIVES(0, catalogue_insert(table, count, 1, orders + 2 * repair, CATALOGUE_LIST_WORDS, 0, 999, 999, 0, &more, &waits, &barriers));
        for (int i = 0; i < 2; i++) {
            GIVES(0, catalogue_file_plan(i == 0 ? w : r, &next, &planned));
            CHECK(next.repair == repair && next.stores == stores + more && next.flushes == flushes + waits);
            CHECK(memcmp(planned, orders, 16 * (next.stores + next.flushes)) == 0);
        }
        memcpy(table, left, left_bytes - 64);
        GIVES(0, catalogue_insert(table, count, 1, orders, CATALOGUE_LIST_WORDS, 0, 999, 999, 0, &stores, &flushes, &barriers));
        CHECK(same_file(at("cut"), left, left_bytes));
        leftovers = leftovers || next.repair > 0;
        GIVES(0, catalogue_file_change(w, &next));
        CHECK(same_file(at("cut"), (char *)table, left_bytes));
        CHECK(answer(r, 999) == 999 && others_stay(r, change.key) && answer(r, change.key) == now);
        free(left);
        GIVES(0, catalogue_file_close(w));
    }
    CHECK(leftovers == (change.kind != CATALOGUE_FILE_SET_CLASS));
    catalogue_file_free(w);
    catalogue_file_free(r);
    return true;
}

static bool cuts(void)
{
    size_t bytes;
    CHECK(table_with(at("whole"), 40, 60));
    char *words = contents(at("whole"), &bytes);
    struct catalogue_file_change add = {.kind = CATALOGUE_FILE_ADD, .collection = 1, .recording = 7};
    struct catalogue_file_change gone = {.kind = CATALOGUE_FILE_REMOVE, .collection = 1, .key = 250};
    struct catalogue_file_change class = {.kind = CATALOGUE_FILE_SET_CLASS, .collection = 1, .key = 250, .access = CATALOGUE_ROOM};
    /* One that splits and one that does not. */
    add.key = 605;
    CHECK(cut_everywhere(add, words, bytes, 0, 7));
    add.key = 15;
    CHECK(cut_everywhere(add, words, bytes, 0, 7));
    CHECK(cut_everywhere(gone, words, bytes, 1250, 0));
    CHECK(cut_everywhere(class, words, bytes, 1250, 1250));
    catalogue_file *f = catalogue_file_new();
    CHECK(write_words(at("cut"), words, bytes));
    GIVES(0, catalogue_file_open(f, at("cut"), CATALOGUE_FILE_WRITING, 0));
    add.cut = 1000;
    GIVES(CATALOGUE_FILE_BAD_OPTION, catalogue_file_change(f, &add));
    CHECK(add.stores > 0 && catalogue_file_outcome(f) == CATALOGUE_FILE_NOT_MADE && same_file(at("cut"), words, bytes));
    GIVES(0, catalogue_file_add(f, 1, 15, 7, 0));
    free(words);
    catalogue_file_free(f);
    return true;
}

/* Dock 1 has a barrier after each store. */
static bool docks(void)
{
    catalogue_file *f = catalogue_file_new();
    struct catalogue_file_options options = {.flags = CATALOGUE_FILE_WRITING, .dock = 1};
    struct catalogue_file_change change = {.kind = CATALOGUE_FILE_ADD, .collection = 1, .key = 15, .recording = 7, .cut = UINT64_MAX};
    CHECK(table_with(at("dock"), 20, 60));
    GIVES(0, catalogue_file_open_with(f, at("dock"), &options));
    GIVES(0, catalogue_file_change(f, &change));
    CHECK(change.stores > 0 && change.barriers == change.stores && change.carried == 2 * change.stores + change.flushes);
    CHECK(answer(f, 15) == 7);
    catalogue_file_free(f);
    return true;
}

/* A program that takes no lock: it is noticed before the next store, nothing is changed, and the call after that starts from what is there. */
static bool another_program(void)
{
    catalogue_file *f = catalogue_file_new();
    CHECK(table_with(at("shared"), 20, 60));
    GIVES(0, catalogue_file_open(f, at("shared"), CATALOGUE_FILE_WRITING, 0));
    CHECK(put_word(at("shared"), 8 + 9, CATALOGUE_POINTER(4242, 0)));
    GIVES(CATALOGUE_FILE_CHANGED, catalogue_file_add(f, 1, 15, 7, 0));
    CHECK(catalogue_file_outcome(f) == CATALOGUE_FILE_NOT_MADE && strstr(catalogue_file_message(f), "changed by another program"));
    CHECK(answer(f, 10) == 4242 && answer(f, 15) == 0);
    GIVES(0, catalogue_file_add(f, 1, 15, 7, 0));
    CHECK(put_word(at("shared"), 8 + 9, CATALOGUE_POINTER(4243, 0)));
    GIVES(CATALOGUE_FILE_CHANGED, catalogue_file_compare(f));
    GIVES(0, catalogue_file_compare(f));
    CHECK(truncate(at("shared"), 4096) == 0);
    GIVES(CATALOGUE_FILE_CHANGED, catalogue_file_add(f, 1, 16, 8, 0));
    catalogue_file_free(f);
    return true;
}

const struct test change_tests[] = {
    {"numbers and outcomes", numbers_and_outcomes},
    {"cuts", cuts},
    {"docks", docks},
    {"another program", another_program},
    {NULL, NULL},
};
