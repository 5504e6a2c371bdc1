/* Opening a table's file: locked for a writer, measured, mapped. */
#include "open.h"

#include <errno.h>
#include <fcntl.h>
#include <inttypes.h>
#include <stdio.h>
#include <stdlib.h>
#include <string.h>
#include <sys/file.h>
#include <unistd.h>

#include "mapping.h"
#include "memory.h"
#include "sums.h"

/* Milliseconds between two tries to lock the file, and until the caller hears of the wait. */
#define LOCK_PAUSE 20
#define LOCK_PATIENCE 1000

/* Files in a table's place, one after another, that were replaced before they could be locked. */
#define MOST_TRIES 100

/* Milliseconds after which a reader looks at the name again, for a file that a stranger put there. */
#define NAME_PERIOD 50

/* ---- the file */

static uint64_t open_failed(struct catalogue_file *f)
{
    if (errno == ENOENT)
        return fails_for(f, CATALOGUE_FILE_NO_FILE, "%s cannot be opened", f->name);
    if (errno == EISDIR)
        return fails_for(f, CATALOGUE_FILE_NOT_REGULAR, "%s cannot be opened", f->name);
    if (errno == EACCES || errno == EPERM || errno == EROFS)
        return fails_for(f, CATALOGUE_FILE_NOT_ALLOWED, "%s cannot be opened for %s", f->name, f->writing ? "writing" : "reading");
    return fails_for(f, CATALOGUE_FILE_DISK, "%s cannot be opened", f->name);
}

static uint64_t open_file(struct catalogue_file *f)
{
    /* A pipe of that name must not hold the program up. */
    f->file = open(f->path, (f->writing ? O_RDWR : O_RDONLY) | O_CLOEXEC | O_NONBLOCK);
    return f->file < 0 ? open_failed(f) : 0;
}

static int64_t milliseconds_since(const struct timespec *then, struct timespec *now)
{
    clock_gettime(CLOCK_MONOTONIC_COARSE, now);
    return (now->tv_sec - then->tv_sec) * INT64_C(1000) + (now->tv_nsec - then->tv_nsec) / 1000000;
}

/* A wait for the lock: since when, and whether the caller heard of it. */
struct lock_wait {
    struct timespec since;
    bool said;
};

static uint64_t lock(struct catalogue_file *f, const struct catalogue_file_options *options, struct lock_wait *wait)
{
    const struct timespec moment = {.tv_nsec = LOCK_PAUSE * 1000000L};
    struct timespec now;
    while (flock(f->file, LOCK_EX | LOCK_NB) != 0) {
        if (errno == EINTR)
            continue;
        if (errno != EWOULDBLOCK)
            return fails_for(f, CATALOGUE_FILE_DISK, "%s cannot be locked", f->name);
        int64_t waited = milliseconds_since(&wait->since, &now);
        if ((uint64_t)waited >= options->wait)
            return fails(f, CATALOGUE_FILE_IN_USE, "%s is in use by another writer", f->name);
        if (waited >= LOCK_PATIENCE && !wait->said && options->waiting)
            options->waiting(options->context);
        wait->said = wait->said || waited >= LOCK_PATIENCE;
        nanosleep(&moment, NULL);
    }
    return 0;
}

/*
 * A load puts a new file in the table's place, which it has locked before. A writer that waited for the old one then has the lock of a file
 * without a name, and begins again with the new one. A writer that has the lock of the file with the name keeps it in its place, since only
 * the holder of that lock puts another file there.
 * Some file systems never give a file the same number twice: after some tries it goes on, and a writer learns of it before its first store.
 */
static uint64_t open_locked(struct catalogue_file *f, const struct catalogue_file_options *options)
{
    struct lock_wait wait = {0};
    struct stat ours;
    milliseconds_since(&wait.since, &wait.since);
    for (int tries = 0;; tries++) {
        uint64_t number = open_file(f);
        if (number == 0)
            number = lock(f, options, &wait);
        if (number != 0 || tries == MOST_TRIES || has_name(f, &ours))
            return number;
        close(f->file);
        f->file = -1;
    }
}

/* The number of words by the file's length, and whether it has a trailer: the remainder says so. */
static uint64_t measure(struct catalogue_file *f)
{
    struct stat about;
    if (fstat(f->file, &about) != 0)
        return fails_for(f, CATALOGUE_FILE_DISK, "%s cannot be measured", f->name);
    if (!S_ISREG(about.st_mode))
        return fails(f, CATALOGUE_FILE_NOT_REGULAR, "%s is not an ordinary file", f->name);
    /* The superuser may write to any file; one that is marked read-only stays as it is all the same. */
    if (f->writing && (about.st_mode & (S_IWUSR | S_IWGRP | S_IWOTH)) == 0)
        return fails(f, CATALOGUE_FILE_NOT_ALLOWED, "%s is read-only", f->name);
    uint64_t bytes = (uint64_t)about.st_size, node = NODE_WORDS * sizeof(uint64_t);
    f->trailer = bytes % node == bytes_of(HEADER_WORDS, true) % node;
    f->words = bytes < bytes_of(0, f->trailer) ? 0 : (bytes - bytes_of(0, f->trailer)) / sizeof(uint64_t);
    if (bytes_of(f->words, f->trailer) != bytes || f->words < words_for(1) || f->words > words_for(MOST_NODES)
        || (f->words - HEADER_WORDS) % NODE_WORDS != 0)
        return fails(f, CATALOGUE_NO_TABLE, "%s is not a table, or was cut short: no table is %" PRIu64 " bytes long", f->name, bytes);
    f->left = about;
    return 0;
}

static uint64_t map(struct catalogue_file *f)
{
    f->mapped = map_words(f->file, f->words, f->writing, &f->persistent);
    if (!f->mapped)
        return fails_for(f, CATALOGUE_FILE_DISK, "%s cannot be mapped", f->name);
    uint64_t format = shared_load(&f->mapped[f->words + TRAILER_FORMAT]);
    if (f->trailer && format != CATALOGUE_FILE_FORMAT && format != 0)
        return fails(f, CATALOGUE_NO_TABLE, "%s is not a table: its last line is not a table's", f->name);
    return 0;
}

/* ---- a reader's */

uint64_t open_sums(struct catalogue_file *f)
{
    uint64_t number = sums_open(f);
    f->looks.fit = f->sums.mapped ? sums_fit : NULL;
    f->looks.sums = &f->sums;
    f->looks.holds = false;
    return number;
}

static uint64_t open_to_look(struct catalogue_file *f)
{
    uint64_t number = open_file(f);
    if (number == 0)
        number = measure(f);
    if (number == 0)
        number = map(f);
    if (number != 0)
        return number;
    f->looking = looks_begin(&f->looks, f->mapped, &f->mapped[f->words + TRAILER_COUNTER], f->words);
    if (!f->looking) {
        looks_end(&f->looks);
        return no_memory(f);
    }
    number = open_sums(f);
    if (number != 0)
        return number;
    /* Any search finds out a header that is none. */
    struct looks_answer answer;
    return looks_search(&f->looks, 1, 0, &answer) == CATALOGUE_NO_TABLE ? wrong_header(f, f->looks.words) : 0;
}

/* What an opening made, but for the names. */
static void release(struct catalogue_file *f)
{
    if (f->looking)
        looks_end(&f->looks);
    sums_close(f);
    unmap_words(f->mapped, f->words);
    free(f->expected);
    free(f->working);
    free(f->summary);
    free(f->orders);
    if (f->file >= 0)
        close(f->file);
    f->file = -1;
    f->looking = false;
    f->summarized = false;
    f->mapped = f->expected = f->working = f->summary = f->orders = NULL;
}

/* The file that has the name now, in the old one's place; if it cannot be opened the old one stays, and the next call tries again. */
static uint64_t open_anew(struct catalogue_file *f)
{
    struct catalogue_file made = {.name = f->name, .path = f->path, .file = -1};
    uint64_t number = open_to_look(&made);
    if (number != 0) {
        release(&made);
        f->why = made.why;
        memcpy(f->message, made.message, sizeof f->message);
        if (number == CATALOGUE_FILE_NO_FILE)
            number = fails(f, CATALOGUE_FILE_REPLACED, "%s was removed", f->name);
        return number;
    }
    release(f);
    f->file = made.file;
    f->words = made.words;
    f->trailer = made.trailer;
    f->persistent = made.persistent;
    f->mapped = made.mapped;
    f->sums = made.sums;
    f->looks = made.looks;
    f->looks.sums = &f->sums;
    f->looking = true;
    f->left = made.left;
    return 0;
}

/* They were switched on or off; or what there was could not be used, and may now. */
static uint64_t follow_sums(struct catalogue_file *f)
{
    bool same = shared_load(&f->mapped[f->words + TRAILER_SUMS]) == f->sums.identity;
    return same && f->sums.trouble == 0 ? 0 : open_sums(f);
}

uint64_t follow_name(struct catalogue_file *f)
{
    struct timespec now;
    bool due = milliseconds_since(&f->named, &now) >= NAME_PERIOD;
    if (!due && shared_load(&f->mapped[f->words + TRAILER_REPLACED]) == 0)
        return follow_sums(f);
    struct stat named;
    bool ours = stat(f->path, &named) == 0 && same_file(&f->left, &named);
    /* What is mapped behind a file's end may not be looked at. */
    if (ours && (uint64_t)named.st_size < bytes_of(f->words, f->trailer))
        return fails(f, CATALOGUE_FILE_CHANGED, "%s was cut short by another program", f->name);
    uint64_t number = ours ? 0 : open_anew(f);
    if (number == 0)
        f->named = now;
    return number == 0 ? follow_sums(f) : number;
}

/* ---- handles */

catalogue_file *catalogue_file_new(void)
{
    struct catalogue_file *f = calloc(1, sizeof *f);
    if (f)
        f->file = -1;
    return f;
}

void catalogue_file_free(catalogue_file *f)
{
    if (!f)
        return;
    catalogue_file_close(f);
    free(f);
}

/* ---- opening and closing */

/* The name from the root folder on; as it is if the working folder is not known. */
static char *whole_name(const char *name)
{
    char *folder = name[0] == '/' ? NULL : getcwd(NULL, 0), *path;
    if (!folder)
        return strdup(name);
    if (asprintf(&path, "%s/%s", folder, name) < 0)
        path = NULL;
    free(folder);
    return path;
}

/* Barriers do no harm on any processor. Lists without them are for one that keeps its stores in order, unless the caller insists. */
static bool may_dock(const struct catalogue_file_options *o)
{
    return o->dock == CATALOGUE_UNORDERED || o->dock == CATALOGUE_FILE_DOCK || !(o->flags & CATALOGUE_FILE_WRITING)
           || o->flags & CATALOGUE_FILE_FORCE;
}

static uint64_t set_options(struct catalogue_file *f, const struct catalogue_file_options *o)
{
    uint64_t known = CATALOGUE_FILE_WRITING | CATALOGUE_FILE_FAST | CATALOGUE_FILE_FORCE;
    f->writing = o->flags & CATALOGUE_FILE_WRITING;
    f->fast = o->flags & CATALOGUE_FILE_FAST;
    f->dock = o->dock;
    f->carrying.pause = o->pause;
    f->carrying.flush = o->flush ? flush_named(o->flush) : flush_best();
    if ((o->flags & ~known) != 0 || (o->flags & (CATALOGUE_FILE_FAST | CATALOGUE_FILE_FORCE) && !f->writing))
        return fails(f, CATALOGUE_FILE_BAD_OPTION, "there are no flags %" PRIu64, o->flags);
    if (!f->carrying.flush)
        return fails(f, CATALOGUE_FILE_BAD_OPTION, "this processor has no flush %s", o->flush);
    if (o->dock > CATALOGUE_UNORDERED)
        return fails(f, CATALOGUE_NO_DOCK, "there is no dock %" PRIu64, o->dock);
    return may_dock(o) ? 0 : fails(f, CATALOGUE_NO_DOCK, "dock %" PRIu64 " is not this processor's, which may reorder its stores", o->dock);
}

static uint64_t open_to_write(struct catalogue_file *f, const struct catalogue_file_options *options)
{
    uint64_t number = open_locked(f, options);
    if (number == 0)
        number = measure(f);
    if (number == 0)
        number = map(f);
    return number == 0 ? begin_writing(f) : number;
}

uint64_t catalogue_file_open_with(catalogue_file *f, const char *name, const struct catalogue_file_options *options)
{
    catalogue_file_close(f);
    *f = (struct catalogue_file){.file = -1, .name = strdup(name), .path = whole_name(name)};
    uint64_t number = f->name && f->path ? set_options(f, options) : no_memory(f);
    if (number == 0)
        number = f->writing ? open_to_write(f, options) : open_to_look(f);
    if (number == 0)
        milliseconds_since(&f->named, &f->named);
    else
        release(f);
    return number;
}

uint64_t catalogue_file_open(catalogue_file *f, const char *name, uint64_t flags, uint64_t wait)
{
    const struct catalogue_file_options options = {.flags = flags, .wait = wait, .dock = CATALOGUE_FILE_DOCK};
    return catalogue_file_open_with(f, name, &options);
}

uint64_t catalogue_file_close(catalogue_file *f)
{
    uint64_t number = f->file >= 0 && f->writing ? settle(f) : 0;
    release(f);
    free(f->name);
    free(f->path);
    f->name = f->path = NULL;
    return number;
}
