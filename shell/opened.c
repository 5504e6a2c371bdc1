/* A table's file, opened by the file library, and what its failures say. */
#include "opened.h"

#include <inttypes.h>
#include <stdlib.h>
#include <string.h>
#include <sys/stat.h>
#include <unistd.h>

#include "refusals.h"
#include "text.h"
#include "tree.h"

/* ---- failures */

/* The library's own numbers are all of the file. */
static int status_of(uint64_t number)
{
    return number >= CATALOGUE_FILE_NO_FILE ? BAD_FILE : (int)number;
}

int file_fails(const catalogue_file *f, uint64_t number)
{
    if (number == 0)
        return 0;
    return f ? fail(status_of(number), "%s", catalogue_file_message(f)) : fail(BAD_FILE, "not enough memory: nothing was done");
}

int opened_fails(const struct opened *o, uint64_t number, const char *then)
{
    const char *name = o->table.name;
    if (number == CATALOGUE_FILE_NO_FILE)
        return fail(BAD_FILE, "there is no file %s (to make one: catalogue make %s NODES)", name, name);
    if (number == CATALOGUE_FILE_IN_USE)
        then = "; try again later, or with --wait SECONDS";
    if (number == CATALOGUE_FILE_BUSY)
        then = "; try again later";
    if (number == CATALOGUE_NO_DOCK)
        then = "; --force with it carries the orders out all the same";
    return fail(status_of(number), "%s%s", catalogue_file_message(o->file), then);
}

int opened_refuses(const struct opened *o, uint64_t number, uint64_t key, uint64_t recording, const char *then)
{
    struct table t = o->table;
    if (number >= CATALOGUE_FILE_NO_FILE)
        return opened_fails(o, number, then);
    /* The message names the code that has the recording. */
    if (number == CATALOGUE_RECORDING_PRESENT && catalogue_file_table(o->file, &t.base, &t.words) != 0)
        t.base = NULL;
    return refuse(number, &t, key, recording);
}

/* ---- opening */

static bool is_stream(const struct stat *table, int stream)
{
    struct stat about;
    return fstat(stream, &about) == 0 && about.st_dev == table->st_dev && about.st_ino == table->st_ino;
}

/* What is printed there would go into the table. */
static int test_streams(const char *name)
{
    struct stat about;
    if (stat(name, &about) != 0 || !S_ISREG(about.st_mode))
        return 0;
    if (is_stream(&about, STDERR_FILENO))
        return BAD_FILE;
    return is_stream(&about, STDOUT_FILENO) ? fail(BAD_FILE, "%s is where the answer would be printed", name) : 0;
}

static void say_waiting(void *context)
{
    const struct opened *o = context;
    fail(0, "waiting for %s, which another program uses", o->table.name);
}

static uint64_t milliseconds(uint64_t seconds)
{
    return seconds < CATALOGUE_FILE_FOREVER / 1000 ? 1000 * seconds : CATALOGUE_FILE_FOREVER;
}

static int open_file(struct opened *o, bool writing, const struct opening *how)
{
    const struct catalogue_file_options options = {
        .flags = (writing ? CATALOGUE_FILE_WRITING : CATALOGUE_FILE_READING) | (writing && how->fast ? CATALOGUE_FILE_FAST : 0)
                 | (writing && how->force ? CATALOGUE_FILE_FORCE : 0),
        .wait = milliseconds(how->wait), .dock = how->dock, .pause = how->pause, .flush = how->flush, .waiting = say_waiting, .context = o};
    uint64_t number = catalogue_file_open_with(o->file, o->table.name, &options);
    bool begun = writing && (number == CATALOGUE_FILE_DISK || number == CATALOGUE_FILE_FOLDER);
    return number == 0 ? 0 : opened_fails(o, number, begun ? "; nothing was changed now" : "");
}

int opened_choose(struct opened *o, const struct opening *how)
{
    struct catalogue_file_about about;
    uint64_t number = catalogue_file_about(o->file, &about);
    if (number != 0)
        return opened_fails(o, number, "");
    o->table.collection = how->collection;
    o->table.collections = about.collections;
    o->table.words = about.words;
    o->table.bytes = (about.words + (about.trailer ? CATALOGUE_FILE_TRAILER : 0)) * sizeof(uint64_t);
    if (how->collection == 0 || how->collection > about.collections)
        return refuse(CATALOGUE_NO_COLLECTION, &o->table, 0, 0);
    if (about.writing && how->fast && !about.persistent)
        fail(0, "--fast: a power cut before this command ends can destroy the whole of %s, older codes too", o->table.name);
    return 0;
}

int opened_begin(struct opened *o, const char *name, bool writing, const struct opening *how)
{
    *o = (struct opened){.table = {.name = name, .collection = how->collection, .dock = how->dock}};
    int status = test_streams(name);
    if (status != 0)
        return status;
    o->file = catalogue_file_new();
    if (!o->file)
        return fail(BAD_FILE, "not enough memory for %s", name);
    status = open_file(o, writing, how);
    return status == 0 ? opened_choose(o, how) : status;
}

void opened_end(struct opened *o)
{
    catalogue_file_free(o->file);
    free(o->table.working);
}

int opened_read(struct opened *o)
{
    struct table *t = &o->table;
    uint64_t number = catalogue_file_table(o->file, &t->base, &t->words);
    if (number != 0)
        return opened_fails(o, number, "");
    t->collections = t->base[SECOND_ROOT] == 0 ? 1 : 2;
    t->working = malloc(t->words * sizeof *t->working);
    if (!t->working)
        return fail(BAD_FILE, "not enough memory for %s", t->name);
    memcpy(t->working, t->base, t->words * sizeof *t->working);
    return 0;
}

/* By a handle of its own: this one may be in the midst of a change. */
bool opened_has(const struct opened *o, const uint64_t *key, uint64_t recording, uint64_t *holder)
{
    struct table t = o->table;
    struct catalogue_file_pair found;
    catalogue_file *f = catalogue_file_new();
    bool there = f && catalogue_file_open(f, t.name, CATALOGUE_FILE_READING, 0) == 0;
    if (there && key) {
        *holder = *key;
        there = catalogue_file_find(f, t.collection, *key, &found) == 0;
    } else if (there)
        there = catalogue_file_table(f, &t.base, &t.words) == 0 && holder_of(&t, recording, holder);
    catalogue_file_free(f);
    return there;
}

/* ---- after the last change */

int opened_settle(struct opened *o)
{
    uint64_t number = catalogue_file_sync(o->file);
    return number == 0 ? 0 : opened_fails(o, number, "; repair waits for the disk once more");
}

int opened_compare(struct opened *o)
{
    uint64_t number = catalogue_file_compare(o->file);
    return number == 0 ? 0 : opened_fails(o, number, "; what this command changed is made, and catalogue check says whether the table is sound");
}
