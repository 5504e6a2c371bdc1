/*
 * Every cut of every kind of change, with every image that a disk may keep of the table and of its sums: each page has what it had when it was last
 * waited for, or what it had after any store since. Of each image: nothing is called decayed, every find answers as before the change or as after
 * it, a repair is made, and every word fits again. With a bit of such an image turned, no find is wrong.
 *
 * The same for lines that last by an instruction, as in persistent memory: there each line has what it had when it was last flushed, or what it had
 * after any store since; of these images some are drawn.
 *
 * The library's own sources, with each store and each wait for the disk written down.
 */
#include <errno.h>
#include <stdio.h>
#include <stdlib.h>
#include <string.h>
#include <sys/mman.h>
#include <unistd.h>

#include "handle.h"
#include "try.h"

#define LINE_BYTES 64
#define PAGE_BYTES 4096
/* Mixes of a store's images: of pages all, if they are no more than the one; of lines so many that are drawn. */
#define MOST_MIXES 300
#define MOST_DRAWN 4
#define MOST_EVENTS 200000
#define MOST_BLOCKS 2048
#define MOST_VERSIONS 1100

/* ---- what is written down */

struct event {
    const uint64_t *word; /* of a store; else null */
    uint64_t value;
    const char *from; /* of a wait; else null: the next change begins */
    size_t bytes;
};

static struct event events[MOST_EVENTS];
static size_t event_count;
static bool writing_down;

uint64_t shared_load(const uint64_t *word)
{
    return __atomic_load_n(word, __ATOMIC_ACQUIRE);
}

static void write_down(struct event e)
{
    MUST(event_count < MOST_EVENTS, "too many stores");
    if (writing_down)
        events[event_count++] = e;
}

void shared_store(uint64_t *word, uint64_t value)
{
    __atomic_store_n(word, value, __ATOMIC_RELEASE);
    write_down((struct event){.word = word, .value = value});
}

int __real_msync(void *from, size_t bytes, int flags);
int __wrap_msync(void *from, size_t bytes, int flags)
{
    write_down((struct event){.from = from, .bytes = bytes});
    return __real_msync(from, bytes, flags);
}

static bool flush_line(void *address)
{
    write_down((struct event){.from = (const char *)((uintptr_t)address & ~(uintptr_t)(LINE_BYTES - 1)), .bytes = LINE_BYTES});
    return true;
}

/* ---- images: of blocks, which are pages or lines */

struct block {
    size_t versions, events[MOST_VERSIONS]; /* the event after which each was there; version 0 is what it was when it was last waited for */
};

/* The table and its sums, one behind the other. */
static uint8_t kept[1 << 20], image[1 << 20];
static struct {
    const char *mapped;
    size_t bytes, at; /* whole pages */
} files[2];
static size_t block_bytes, block_count;
static struct block blocks[MOST_BLOCKS];

static size_t place_of(const void *address)
{
    for (int i = 0; i < 2; i++)
        if ((const char *)address >= files[i].mapped && (const char *)address < files[i].mapped + files[i].bytes)
            return files[i].at + (size_t)((const char *)address - files[i].mapped);
    return SIZE_MAX;
}

static void set_word(uint8_t *bytes, const struct event *e)
{
    memcpy(bytes + place_of(e->word), &e->value, sizeof e->value);
}

/* The image with this version of a block. */
static void take_version(size_t b, size_t version)
{
    memcpy(image + b * block_bytes, kept + b * block_bytes, block_bytes);
    for (size_t v = 1; v <= version; v++)
        set_word(image, &events[blocks[b].events[v]]);
}

static struct ledger before, after;
static size_t images, flipped;

static void look(const char *what, bool flip)
{
    catalogue_file *f = catalogue_file_new();
    struct named n;
    uint64_t number;
    write_file(at("image"), image + files[0].at, files[0].bytes);
    write_file(sums_of("image"), image + files[1].at, files[1].bytes);
    MUST(catalogue_file_open(f, at("image"), CATALOGUE_FILE_READING, 0) == 0, "%s: %s", what, catalogue_file_message(f));
    number = scrub(f, &n);
    MUST(number == 0, "%s: image %zu: %lu lines, the first of node %lu: %s", what, images, (unsigned long)n.count, (unsigned long)n.node,
         catalogue_file_message(f));
    MUST(ask_all(f, &before, &after, images % 8 == 0 ? 5 : 10).refused == 0, "%s: %s", what, catalogue_file_message(f));
    images++;
    if (images % 4 == 0) {
        MUST(catalogue_file_open(f, at("image"), CATALOGUE_FILE_WRITING, 0) == 0 && catalogue_file_repair(f) == 0 && scrub(f, &n) == 0
                 && catalogue_file_add(f, 1, 3, 99999, 0) == 0 && scrub(f, &n) == 0, "%s: then: %s", what, catalogue_file_message(f));
        MUST(catalogue_file_open(f, at("image"), CATALOGUE_FILE_READING, 0) == 0 && scrub(f, &n) == 0, "%s: then: %s", what, catalogue_file_message(f));
    }
    if (flip) {
        size_t bit = 8 * files[0].at + drawn() % (8 * (files[0].bytes - 64));
        image[bit / 8] ^= 1 << bit % 8;
        write_file(at("image"), image + files[0].at, files[0].bytes);
        write_file(sums_of("image"), image + files[1].at, files[1].bytes);
        if (catalogue_file_open(f, at("image"), CATALOGUE_FILE_READING, 0) == 0) {
            number = scrub(f, &n);
            MUST(number == CATALOGUE_FILE_DECAYED && n.count == 1, "%s: a turned bit: %lu", what, (unsigned long)number);
            ask_all(f, &before, &after, 10);
        }
        image[bit / 8] ^= 1 << bit % 8;
        flipped++;
    }
    catalogue_file_free(f);
}

/* Every mix of the versions that the other blocks may have, with the newest of this one; or some of them, drawn. */
static void mixes(const char *what, size_t newest, size_t most)
{
    size_t open[MOST_BLOCKS], count = 0, all = 1;
    memcpy(image, kept, sizeof image);
    for (size_t b = 0; b < block_count; b++)
        if (b != newest && blocks[b].versions > 1) {
            open[count++] = b;
            all = all > most ? all : all * blocks[b].versions;
        }
    take_version(newest, blocks[newest].versions - 1);
    for (size_t mix = 0; mix < all && mix < most; mix++) {
        for (size_t i = 0, left = mix; i < count; i++) {
            size_t versions = blocks[open[i]].versions;
            take_version(open[i], all > most ? drawn() % versions : left % versions);
            left /= versions;
        }
        look(what, images % 16 == 0);
    }
}

/* A wait: what a block had last is there from now on. */
static void settle(size_t place, size_t bytes)
{
    for (size_t b = place / block_bytes; b * block_bytes < place + bytes && b < block_count; b++) {
        for (size_t v = 1; v < blocks[b].versions; v++)
            set_word(kept, &events[blocks[b].events[v]]);
        blocks[b].versions = 1;
    }
}

/* A change of key 10 * place; of BATCH as many additions as one order list, recordings and places rising. */
#define BATCH 10
struct step {
    uint64_t kind, collection, place, recording;
    uint64_t most; /* only so many orders are carried out; 0 for all. Of a batch: how many additions */
};

/* A repair ends what was cut off, as before it or as after it. */
static void enter(const struct step *s)
{
    uint64_t count = s->kind == BATCH ? s->most : s->kind == CATALOGUE_FILE_ADD;
    if (s->kind != CATALOGUE_FILE_REPAIR)
        before = after;
    for (uint64_t i = 0; i < count; i++)
        after.recording[s->collection - 1][s->place + i] = s->recording + i;
    if (s->kind == CATALOGUE_FILE_REMOVE)
        after.recording[s->collection - 1][s->place] = 0;
}

/* All that was written down, one after another; of the blocks' mixes at a store at most so many. */
static void replay(const char *what, const struct step *steps, size_t most)
{
    block_count = (files[1].at + files[1].bytes + block_bytes - 1) / block_bytes;
    MUST(block_count <= MOST_BLOCKS, "too many blocks");
    for (size_t b = 0; b < block_count; b++)
        blocks[b].versions = 1;
    for (size_t e = 0; e < event_count; e++) {
        if (!events[e].word && !events[e].from) {
            enter(steps++);
            continue;
        }
        size_t place = place_of(events[e].word ? (const void *)events[e].word : events[e].from);
        MUST(place != SIZE_MAX, "a store elsewhere");
        if (!events[e].word) {
            settle(place, events[e].bytes);
            continue;
        }
        struct block *b = &blocks[place / block_bytes];
        MUST(b->versions < MOST_VERSIONS, "too many stores without a wait");
        b->events[b->versions++] = e;
        mixes(what, place / block_bytes, most);
    }
}

/* ---- changes */

static catalogue_file *f;

/* What is on the disk now: all of it. */
static void begin(bool lines)
{
    MUST(catalogue_file_open(f, at("t"), CATALOGUE_FILE_WRITING, 0) == 0, "%s", catalogue_file_message(f));
    MUST(f->sums.mapped, "no sums");
    if (lines) {
        static const struct flush way = {"written down", flush_line, true};
        f->persistent = f->sums.persistent = true;
        f->carrying.flush = &way;
    }
    files[0].mapped = (const char *)f->mapped;
    files[0].bytes = (f->words + CATALOGUE_FILE_TRAILER) * sizeof(uint64_t);
    files[0].at = 0;
    files[1].mapped = (const char *)f->sums.mapped;
    files[1].bytes = f->sums.words * sizeof(uint64_t);
    files[1].at = (files[0].bytes + PAGE_BYTES - 1) / PAGE_BYTES * PAGE_BYTES;
    memcpy(kept, files[0].mapped, files[0].bytes);
    memcpy(kept + files[1].at, files[1].mapped, files[1].bytes);
    block_bytes = lines ? LINE_BYTES : PAGE_BYTES;
    event_count = 0;
}

static void change(const struct step *s, const char *what)
{
    struct catalogue_file_change c = {.kind = s->kind, .collection = s->collection, .key = 10 * s->place, .recording = s->recording,
                                      .access = CATALOGUE_ROOM, .cut = s->most ? s->most : CATALOGUE_FILE_ALL};
    write_down((struct event){0});
    if (s->kind == BATCH) {
        uint64_t pairs[2 * 100];
        for (uint64_t i = 0; i < s->most; i++) {
            pairs[2 * i] = 10 * (s->place + i);
            pairs[2 * i + 1] = s->recording + i;
        }
        MUST(catalogue_file_load_pairs(f, s->collection, CATALOGUE_FILE_IN_PLACE, pairs, s->most, NULL) == 0, "%s: %s", what, catalogue_file_message(f));
        return;
    }
    uint64_t number = catalogue_file_change(f, &c);
    MUST(number == (s->most ? CATALOGUE_FILE_CUT : 0), "%s: %s", what, catalogue_file_message(f));
}

/* Some changes in a row, with all their cuts. */
static void try_changes(const char *what, bool lines, size_t most, const struct step *steps, size_t count)
{
    size_t had = images;
    begin(lines);
    writing_down = true;
    for (size_t i = 0; i < count; i++)
        change(&steps[i], what);
    writing_down = false;
    catalogue_file_close(f);
    after = before;
    replay(what, steps, lines ? MOST_DRAWN : most);
    passed("%s, %s: %zu images", what, lines ? "lines" : "pages", images - had);
}

#define STEPS(array) array, sizeof array / sizeof array[0]

static void all_changes(bool lines)
{
    enum { ADD = CATALOGUE_FILE_ADD, REMOVE = CATALOGUE_FILE_REMOVE, CLASS = CATALOGUE_FILE_SET_CLASS, REPAIR = CATALOGUE_FILE_REPAIR };
    static const struct step in_a_leaf[] = {{REMOVE, 1, 16, 0, 0}, {ADD, 1, 16, 500, 0}, {CLASS, 1, 14, 0, 0}, {REMOVE, 1, 19, 0, 0}, {ADD, 1, 19, 501, 0}};
    static const struct step root[] = {{ADD, 1, 12, 500, 0}, {ADD, 1, 13, 501, 0}, {CLASS, 1, 1, 0, 0}};
    static const struct step splits[] = {{ADD, 1, 20, 500, 0}, {ADD, 1, 21, 501, 0}, {ADD, 1, 22, 502, 0},
                                         {ADD, 1, 23, 503, 0}, {ADD, 1, 24, 504, 0}, {ADD, 1, 25, 505, 0}};
    static const struct step freed[] = {{REMOVE, 1, 6, 0, 0}, {REMOVE, 1, 7, 0, 0},  {REMOVE, 1, 8, 0, 0},
                                        {REMOVE, 1, 9, 0, 0}, {REMOVE, 1, 10, 0, 0}, {ADD, 1, 9, 500, 0}};
    static const struct step both[] = {{ADD, 2, 12, 500, 0}, {REMOVE, 1, 3, 0, 0}, {ADD, 1, 12, 500, 0}, {CLASS, 2, 5, 0, 0}, {REMOVE, 2, 11, 0, 0}};
    static const struct step batch[] = {{BATCH, 1, 20, 500, 30}, {REMOVE, 1, 1, 0, 0}, {BATCH, 1, 60, 700, 3}};
    make_table("t", 20, 1, 19, true, &before);
    try_changes("shifts and a class", lines, MOST_MIXES, STEPS(in_a_leaf));
    make_table("t", 6, 1, 11, true, &before);
    before.codes = 14;
    try_changes("a new root", lines, MOST_MIXES, STEPS(root));
    make_table("t", 20, 1, 19, true, &before);
    before.codes = 26;
    try_changes("splits", lines, MOST_MIXES, STEPS(splits));
    make_table("t", 20, 1, 19, true, &before);
    try_changes("a freed leaf", lines, MOST_MIXES, STEPS(freed));
    make_table("t", 20, 2, 11, true, &before);
    before.codes = 13;
    try_changes("two collections", lines, 60, STEPS(both));
    make_table("t", 40, 1, 19, true, &before);
    before.codes = 70;
    try_changes("a batch", lines, 3, STEPS(batch));
    for (uint64_t most = 1; most < 70; most += 6) {
        const struct step cut_off[] = {{ADD, 1, 12, 500, most}, {REPAIR, 0, 0, 0, 0}};
        make_table("t", 6, 1, 11, true, &before);
        before.codes = 13;
        try_changes("a cut and its repair", lines, MOST_MIXES, STEPS(cut_off));
    }
}

/* ---- files that take others' places: what is there before and after each rename */

static bool watched;
static const char *watching;
static size_t moments;

static void copy_if_there(const char *from, const char *to)
{
    size_t bytes;
    unlink(to);
    if (access(from, F_OK) != 0)
        return;
    uint8_t *all = read_file(from, &bytes);
    write_file(to, all, bytes);
    free(all);
}

/* A cut at this moment: all that has a name is on the disk. */
static void look_at_files(void)
{
    static const char *const endings[] = {"", ".sums", ".sums.next"};
    catalogue_file *r = catalogue_file_new();
    struct named n;
    char from[64], to[64];
    watched = false;
    for (int i = 0; i < 3; i++) {
        snprintf(from, sizeof from, "t%s", endings[i]);
        snprintf(to, sizeof to, "image%s", endings[i]);
        copy_if_there(at(from), at(to));
    }
    for (int writing = 0; writing < 3; writing++) {
        MUST(catalogue_file_open(r, at("image"), writing == 1 ? CATALOGUE_FILE_WRITING : 0, 0) == 0, "%s: %s", watching, catalogue_file_message(r));
        uint64_t number = scrub(r, &n);
        MUST(number == 0 || number == CATALOGUE_FILE_NO_SUMS, "%s: moment %zu: %s", watching, moments, catalogue_file_message(r));
        MUST(ask_all(r, &before, &after, 10).refused == 0, "%s: %s", watching, catalogue_file_message(r));
        if (writing == 1)
            MUST(catalogue_file_add(r, 1, 3, 99999, 0) == 0, "%s: %s", watching, catalogue_file_message(r));
    }
    catalogue_file_free(r);
    moments++;
    watched = true;
}

int __real_rename(const char *from, const char *to);
int __wrap_rename(const char *from, const char *to)
{
    if (watched)
        look_at_files();
    int status = __real_rename(from, to), why = errno;
    if (watched)
        look_at_files();
    errno = why;
    return status;
}

int __real_unlink(const char *name);
int __wrap_unlink(const char *name)
{
    bool was = watched;
    int status = __real_unlink(name), why = errno;
    if (was)
        look_at_files();
    errno = why;
    return status;
}

static void files_in_places(void)
{
    uint64_t pairs[2 * 100];
    make_table("t", 40, 2, 15, false, &before);
    after = before;
    after.codes = before.codes = 70;
    watching = "sums on and off";
    MUST(catalogue_file_open(f, at("t"), CATALOGUE_FILE_WRITING, 0) == 0, "%s", catalogue_file_message(f));
    for (int i = 0; i < 2; i++) {
        watched = true;
        MUST(catalogue_file_sums(f, 1) == 0 && catalogue_file_sums(f, 0) == 0 && catalogue_file_sums(f, 1) == 0, "%s", catalogue_file_message(f));
        watched = false;
    }
    watching = "a load by a new file";
    for (uint64_t i = 1; i <= 15; i++)
        MUST(catalogue_file_remove(f, 2, 10 * i) == 0, "%s", catalogue_file_message(f));
    for (uint64_t i = 1; i <= 70; i++) {
        pairs[2 * i - 2] = 10 * i;
        pairs[2 * i - 1] = after.recording[1][i] = 3000 + i;
        before.recording[1][i] = 0;
    }
    watched = true;
    MUST(catalogue_file_load_pairs(f, 2, 0, pairs, 70, NULL) == 0, "%s", catalogue_file_message(f));
    watched = false;
    struct named n;
    MUST(scrub(f, &n) == 0 && catalogue_file_close(f) == 0, "%s", catalogue_file_message(f));
    MUST(access(at("t.sums.next"), F_OK) != 0, "a file of sums is left under its other name");
    passed("%zu moments between the renames of a load and of sums that are switched on and off", moments);
}

int main(int argc, char **argv)
{
    MUST(argc == 2, "usage: cuts FOLDER");
    folder_is(argv[1]);
    f = catalogue_file_new();
    all_changes(false);
    all_changes(true);
    files_in_places();
    printf("%zu images, %zu with a bit turned\n", images, flipped);
    catalogue_file_free(f);
    return finish();
}
