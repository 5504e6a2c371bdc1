/* Ours: the static library over a mapped file, with a summary, its orders carried out as the program catalogue does (file/carry.c). */
#include <errno.h>
#include <stdlib.h>
#include <string.h>
#include <sys/mman.h>

#include "../carrying.h"
#include "../plain.h"
#include "catalogue.h"
#include "catalogue_file.h"
#include "files.h"
#include "keys.h"
#include "peer.h"

enum { HEADER_WORDS = 8, NODE_WORDS = 32, MOST_NODES = 65535 };

/* Codes a node of a table that grows by random insertions, at the least; and nodes besides. */
enum { CODES_A_NODE = 6, SPARE = 64 };

/* The order list of many insertions. */
#define ORDER_WORDS ((size_t)1 << 19)

static const char file[] = "ours.cat";

struct store {
    const char *folder;
    size_t words;
    uint64_t *mapped;  /* the file's */
    uint64_t *working; /* the working copy */
    uint64_t *orders;
    uint64_t *summary;
    size_t summary_words;
    bool summarized; /* the summary is true of the table */
    catalogue_file *handle; /* of the file library, while it makes the changes */
    struct pair *listed;
    size_t room; /* pairs that listed has room for */
    struct carrying how;
};

static size_t words_for(const struct place *place)
{
    size_t nodes = place->codes / CODES_A_NODE + SPARE;
    return HEADER_WORDS + NODE_WORDS * (nodes < MOST_NODES ? nodes : MOST_NODES);
}

static const struct flush *flush_there(const struct place *place)
{
    return place->memory ? flush_best() : flush_by_page();
}

const char *ours_flush(const struct place *place)
{
    return flush_there(place)->name;
}

/* The words of the table in a file of so many bytes, which may have a trailer. */
static size_t words_in(size_t bytes)
{
    return HEADER_WORDS + (bytes / sizeof(uint64_t) - HEADER_WORDS) / NODE_WORDS * NODE_WORDS;
}

/* A store over the file, with this working copy, which it frees. */
static void *over_file(const struct place *place, uint64_t *working)
{
    struct store *s = calloc(1, sizeof *s);
    if (!s)
        die("not enough memory");
    size_t bytes;
    s->folder = place->folder;
    s->mapped = map_file(place->folder, file, &bytes);
    s->words = words_in(bytes);
    s->working = working;
    s->orders = words_room(ORDER_WORDS);
    s->summary_words = catalogue_summary_words((s->words - HEADER_WORDS) / NODE_WORDS);
    s->summary = words_room(s->summary_words);
    s->room = place->codes + 1;
    s->listed = (struct pair *)words_room(2 * s->room);
    s->how.flush = flush_there(place);
    return s;
}

/* The words as a new file, and a store over it. */
static void *in_file(const struct place *place, uint64_t *table, size_t words)
{
    write_file(place->folder, file, table, words * sizeof *table);
    return over_file(place, table);
}

static void *make(const struct place *place)
{
    size_t words = words_for(place);
    uint64_t *table = words_room(words);
    uint64_t number = catalogue_make(table, words, 1);
    if (number != 0)
        die("ours: an empty table is refused with %d", (int)number);
    return in_file(place, table, words);
}

/* The library's word that a table is settled: a repair lists nothing. */
static void want_settled(uint64_t *table, size_t words)
{
    uint64_t orders[CATALOGUE_LIST_WORDS], stores, flushes, barriers;
    uint64_t number = catalogue_repair(table, words, orders, CATALOGUE_LIST_WORDS, CATALOGUE_ORDERED, &stores, &flushes, &barriers);
    if (number != 0 || stores + flushes != 0)
        die("ours: the table is not settled: %d", (int)number);
}

/* Node numbers 1 .. count in any order. */
static uint64_t *scattered(size_t count)
{
    struct random r = {count};
    uint64_t *place = words_room(count);
    for (size_t i = 0; i < count; i++) {
        size_t j = random_below(&r, i + 1);
        place[i] = place[j];
        place[j] = i + 1;
    }
    return place;
}

/* Packed as bench/run does: leaves with 8 of 11 slots in use, node numbers scattered. */
static void *grown(const struct place *place, const struct pair *pairs, size_t count)
{
    size_t words = words_for(place), nodes = (words - HEADER_WORDS) / NODE_WORDS;
    if (plain_nodes(count) > nodes)
        die("ours: %zu codes want more than %zu nodes", count, nodes);
    struct pair *rising = (struct pair *)words_room(2 * count);
    uint64_t *keys = words_room(count), *pointers = words_room(count), *numbers = scattered(plain_nodes(count)), *table = words_room(words);
    memcpy(rising, pairs, count * sizeof *pairs);
    sort_pairs(rising, count);
    for (size_t i = 0; i < count; i++) {
        keys[i] = rising[i].key;
        pointers[i] = rising[i].pointer;
    }
    plain_pack(table, nodes, numbers, keys, pointers, count);
    want_settled(table, words);
    free(rising);
    free(keys);
    free(pointers);
    free(numbers);
    return in_file(place, table, words);
}

/* Sorted if it must be, packed by the library, and written as a new file. */
static void *load(const struct place *place, const struct pair *pairs, size_t count, bool sorted)
{
    static const uint64_t none = 0;
    size_t words = words_for(place);
    uint64_t *table = words_room(words);
    struct pair *rising = NULL;
    if (!sorted) {
        rising = (struct pair *)words_room(2 * count);
        memcpy(rising, pairs, count * sizeof *pairs);
        sort_pairs(rising, count);
        pairs = rising;
    }
    uint64_t number = catalogue_pack(table, words, 1, &pairs->key, 2 * count, &none, 0);
    if (number != 0)
        die("ours: packing %zu codes is refused with %d", count, (int)number);
    free(rising);
    return in_file(place, table, words);
}

static void *open_again(const struct place *place)
{
    size_t bytes;
    void *at = map_file(place->folder, file, &bytes);
    size_t words = words_in(bytes);
    uint64_t *table = words_room(words);
    memcpy(table, at, words * sizeof *table);
    munmap(at, bytes);
    return over_file(place, table);
}

static void close_store(void *store)
{
    struct store *s = store;
    munmap(s->mapped, s->words * sizeof(uint64_t));
    free(s->working);
    free(s->orders);
    free(s->summary);
    free(s->listed);
    free(s);
}

/* Works the summary out before the first call that takes it, as the file library does. */
static void summarize(struct store *s)
{
    if (s->summarized)
        return;
    uint64_t number = catalogue_summary(s->working, s->words, s->summary, s->summary_words);
    if (number != 0)
        die("ours: a summary is refused with %d", (int)number);
    s->summarized = true;
}

static void carry(struct store *s, uint64_t count)
{
    if (!carry_one_list(s->mapped, s->orders, count, &s->how))
        die("ours: the file did not reach the disk: %s", strerror(errno));
}

/* What the library answers to one insertion, with the summary or without. */
static uint64_t insert_by(struct store *s, const struct pair *pair, bool quick, uint64_t *orders)
{
    uint64_t stores = 0, flushes = 0, barriers = 0, recording = CATALOGUE_RECORDING(pair->pointer), class = CATALOGUE_CLASS(pair->pointer);
    uint64_t number = quick ? catalogue_quick_insert(s->working, s->words, s->summary, s->summary_words, 1, s->orders, CATALOGUE_LIST_WORDS,
                                                     CATALOGUE_ORDERED, pair->key, recording, class, &stores, &flushes, &barriers)
                            : catalogue_insert(s->working, s->words, 1, s->orders, CATALOGUE_LIST_WORDS, CATALOGUE_ORDERED, pair->key,
                                               recording, class, &stores, &flushes, &barriers);
    *orders = stores + flushes + barriers;
    return number;
}

static bool insert_one(struct store *s, const struct pair *pair, bool quick)
{
    uint64_t orders, number = insert_by(s, pair, quick, &orders);
    if (number == 0)
        carry(s, orders);
    else if (number != CATALOGUE_KEY_PRESENT && number != CATALOGUE_RECORDING_PRESENT)
        die("ours: an insertion is refused with %d", (int)number);
    return number == 0;
}

/* As many as the order list takes; the number that stopped them. */
static uint64_t insert_some(struct store *s, const struct pair *pairs, size_t count, bool quick, uint64_t *taken, uint64_t *orders)
{
    uint64_t stop = 0, stores = 0, flushes = 0, barriers = 0;
    uint64_t number = quick ? catalogue_quick_insert_many(s->working, s->words, s->summary, s->summary_words, 1, s->orders, ORDER_WORDS,
                                                          CATALOGUE_ORDERED, &pairs->key, 2 * count, taken, &stop, &stores, &flushes, &barriers)
                            : catalogue_insert_many(s->working, s->words, 1, s->orders, ORDER_WORDS, CATALOGUE_ORDERED, &pairs->key, 2 * count,
                                                    taken, &stop, &stores, &flushes, &barriers);
    *orders = stores + flushes + barriers;
    return number == 0 ? stop : number;
}

/* Many into the working copy, as many as the order list takes at a time; the orders are carried out, or are left. */
static bool insert_many(struct store *s, const struct pair *pairs, size_t count, bool quick, bool carried)
{
    while (count > 0) {
        uint64_t taken = 0, orders = 0, number = insert_some(s, pairs, count, quick, &taken, &orders);
        if (carried)
            carry(s, orders);
        if (number == CATALOGUE_KEY_PRESENT || number == CATALOGUE_RECORDING_PRESENT)
            return false;
        if (taken == 0 || taken > count || (number != 0 && number != CATALOGUE_SHORT_LIST))
            die("ours: insertions are refused with %d after %d", (int)number, (int)taken);
        pairs += taken;
        count -= taken;
    }
    return true;
}

static bool insert(void *store, const struct pair *pairs, size_t count)
{
    summarize(store);
    return count == 1 ? insert_one(store, pairs, true) : insert_many(store, pairs, count, true, true);
}

/* Each checks the whole table. */
static bool insert_plain(void *store, const struct pair *pairs, size_t count)
{
    struct store *s = store;
    s->summarized = false;
    return count == 1 ? insert_one(store, pairs, false) : insert_many(store, pairs, count, false, true);
}

static bool insert_by_file(void *store, const struct pair *pairs, size_t count)
{
    struct store *s = store;
    size_t bytes = s->words * sizeof(uint64_t);
    summarize(s);
    if (!insert_many(s, pairs, count, true, false)) {
        memcpy(s->working, s->mapped, bytes);
        s->summarized = false;
        return false;
    }
    munmap(s->mapped, bytes);
    write_file(s->folder, file, s->working, bytes);
    s->mapped = map_file(s->folder, file, &bytes);
    return true;
}

/* The handle is opened by the first; the working copy here follows when it is closed. */
static bool insert_by_library(void *store, const struct pair *pairs, size_t count)
{
    struct store *s = store;
    char path[PATH_ROOM];
    if (!s->handle) {
        s->handle = catalogue_file_new();
        if (!s->handle || catalogue_file_open(s->handle, path_in(path, s->folder, file), CATALOGUE_FILE_WRITING, 0) != 0)
            die("ours: the file library does not open the file: %s", s->handle ? catalogue_file_message(s->handle) : "not enough memory");
    }
    for (size_t i = 0; i < count; i++) {
        uint64_t pointer = pairs[i].pointer;
        uint64_t number = catalogue_file_add(s->handle, 1, pairs[i].key, CATALOGUE_RECORDING(pointer), CATALOGUE_CLASS(pointer));
        if (number == CATALOGUE_KEY_PRESENT || number == CATALOGUE_RECORDING_PRESENT)
            return false;
        if (number != 0)
            die("ours: the file library: %s", catalogue_file_message(s->handle));
    }
    return true;
}

void ours_library_ends(void *store)
{
    struct store *s = store;
    catalogue_file_free(s->handle);
    s->handle = NULL;
    memcpy(s->working, s->mapped, s->words * sizeof(uint64_t));
    s->summarized = false;
}

static void nothing(void *store)
{
    (void)store;
}

static uint64_t find(void *store, uint64_t key)
{
    struct store *s = store;
    uint64_t recording, class, next, higher;
    if (catalogue_search(s->mapped, s->words, 1, key, &recording, &class, &next, &higher) != 0)
        return 0;
    return recording | class << 56;
}

static size_t range(void *store, uint64_t low, struct pair *out, size_t count)
{
    struct store *s = store;
    uint64_t pairs = 0, more;
    summarize(s);
    uint64_t number = catalogue_quick_list(s->mapped, s->words, s->summary, s->summary_words, 1, low, CATALOGUE_MARK, &out->key, 2 * count,
                                           &pairs, &more);
    if (number != 0)
        die("ours: a listing is refused with %d", (int)number);
    return pairs;
}

/* Checks the whole table first. */
static size_t range_plain(void *store, uint64_t low, struct pair *out, size_t count)
{
    struct store *s = store;
    uint64_t pairs = 0, more;
    uint64_t number = catalogue_list(s->mapped, s->words, 1, low, CATALOGUE_MARK, &out->key, 2 * count, &pairs, &more);
    if (number != 0)
        die("ours: a listing is refused with %d", (int)number);
    return pairs;
}

size_t ours_range_by_search(void *store, uint64_t low, struct pair *out, size_t count)
{
    struct store *s = store;
    uint64_t recording, class, next = low, higher;
    size_t found = 0;
    while (found < count) {
        uint64_t key = next;
        uint64_t number = catalogue_search(s->mapped, s->words, 1, key, &recording, &class, &next, &higher);
        if (number == 0) {
            out[found++] = (struct pair){key, recording | class << 56};
            next = key + 1;
        } else if (number != CATALOGUE_ABSENT || higher == 0) {
            break;
        }
    }
    return found;
}

static struct scanned scan_by(struct store *s, range_call *listing)
{
    struct scanned seen = {.rising = true};
    size_t count = listing(s, 0, s->listed, s->room);
    for (size_t i = 0; i < count; i++)
        scanned_add(&seen, s->listed[i].key, s->listed[i].pointer);
    return seen;
}

static struct scanned scan(void *store)
{
    return scan_by(store, range);
}

static struct scanned scan_plain(void *store)
{
    return scan_by(store, range_plain);
}

/* A node that was never used is all zeros, and none is given back here. */
size_t ours_nodes(void *store)
{
    const struct store *s = store;
    size_t count = 0;
    for (size_t node = HEADER_WORDS; node < s->words; node += NODE_WORDS) {
        uint64_t any = 0;
        for (size_t i = 0; i < NODE_WORDS; i++)
            any |= s->working[node + i];
        count += any != 0;
    }
    return count;
}

static uint64_t used(void *store)
{
    return sizeof(uint64_t) * (HEADER_WORDS + NODE_WORDS * ours_nodes(store));
}

#define CALLS(by, ranges, scans) \
    {.name = "ours", .make = make, .grown = grown, .load = load, .open = open_again, .close = close_store, .insert = by, .begin = nothing, \
     .end = nothing, .find = find, .range = ranges, .scan = scans, .used = used, .files = {file}}

const struct peer ours = CALLS(insert, range, scan), ours_plain = CALLS(insert_plain, range_plain, scan_plain),
                  ours_by_file = CALLS(insert_by_file, range, scan), ours_by_library = CALLS(insert_by_library, range, scan);
