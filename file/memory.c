/* The words that a writer has mapped: read, compared, stored to by order lists, replaced by a new file. */
#include "memory.h"

#include <errno.h>
#include <inttypes.h>
#include <stdlib.h>
#include <string.h>
#include <unistd.h>

#include "mapping.h"
#include "newfile.h"
#include "summary.h"
#include "sums.h"

static uint64_t *trailer_of(const struct catalogue_file *f)
{
    return f->mapped + f->words;
}

uint64_t wrong_header(struct catalogue_file *f, const uint64_t *header)
{
    uint64_t nodes = header[NODE_COUNT];
    if (header[0] == 1 && nodes >= 1 && nodes <= MOST_NODES && words_for(nodes) != f->words)
        return fails(f, CATALOGUE_NO_TABLE, "%s has %zu bytes, but its header says %" PRIu64 " nodes, which take %zu", f->name,
                     bytes_of(f->words, f->trailer), nodes, bytes_of(words_for(nodes), f->trailer));
    return fails(f, CATALOGUE_NO_TABLE, "%s is not a table: its header or its length is wrong", f->name);
}

/* ---- reading */

/* Words of the file from one on, read and not mapped: a mapped page that is looked at counts as the program's memory. */
static bool read_words(const struct catalogue_file *f, uint64_t *words, size_t first, size_t count)
{
    size_t bytes = count * sizeof *words, done = 0;
    while (done < bytes) {
        ssize_t got = pread(f->file, (char *)words + done, bytes - done, (off_t)(first * sizeof *words + done));
        if (got < 0 && errno == EINTR)
            continue;
        if (got == 0)
            errno = 0;
        if (got <= 0)
            return false;
        done += (size_t)got;
    }
    return true;
}

static uint64_t not_read(struct catalogue_file *f)
{
    if (errno == 0)
        return fails(f, CATALOGUE_FILE_CHANGED, "%s was cut short by another program", f->name);
    return fails_for(f, CATALOGUE_FILE_DISK, "%s cannot be read", f->name);
}

static uint64_t read_copies(struct catalogue_file *f)
{
    if (!read_words(f, f->expected, 0, f->words))
        return not_read(f);
    memcpy(f->working, f->expected, bytes_of(f->words, false));
    f->repaired = false;
    summary_ends(f);
    return 0;
}

/* The open file is the one of that name still; its state. */
static uint64_t keeps_name(struct catalogue_file *f, struct stat *ours)
{
    errno = 0;
    if (has_name(f, ours))
        return 0;
    if (errno == 0 || errno == ENOENT || errno == ENOTDIR)
        return fails(f, CATALOGUE_FILE_REPLACED, "%s was removed or replaced by another program", f->name);
    return fails_for(f, CATALOGUE_FILE_DISK, "%s cannot be looked up any more", f->name);
}

uint64_t refresh(struct catalogue_file *f)
{
    if (!f->stale)
        return 0;
    struct stat ours;
    uint64_t number = keeps_name(f, &ours);
    if (number != 0)
        return number;
    number = read_copies(f);
    if (number == 0 && f->sums.mapped && !f->fast)
        number = settle(f);
    if (number == 0)
        number = sums_take(f);
    if (number == 0)
        f->left = ours;
    f->stale = number != 0;
    return number;
}

/* Nobody has cut the file short: a word behind its end that is touched would end the program. */
static bool is_whole(const struct catalogue_file *f)
{
    struct stat now;
    return fstat(f->file, &now) == 0 && (uint64_t)now.st_size >= bytes_of(f->words, true);
}

/* ---- waiting for the disk */

/*
 * After a wait for the disk that failed the system takes the pages that it could not write for written, and no later wait comes back to
 * them. It does not say which: the error may be that of a page which it wrote by itself before. So every page is stored to again, with what
 * it has: the next wait is for all of them. Keeps errno.
 */
static void store_again(struct catalogue_file *f)
{
    int why = errno;
    size_t page = (size_t)sysconf(_SC_PAGESIZE) / sizeof(uint64_t), words = is_whole(f) ? f->words : 0;
    for (size_t at = 0; at < words; at += page)
        shared_store(&f->mapped[at], shared_load(&f->mapped[at]));
    errno = why;
}

static bool sync_words(struct catalogue_file *f)
{
    if (flush_pages(f->mapped, bytes_of(f->words, true)) && sums_sync(f)) {
        f->unsettled = false;
        return true;
    }
    f->unsettled = true;
    store_again(f);
    return false;
}

uint64_t write_again(struct catalogue_file *f)
{
    store_again(f);
    return sync_words(f) ? 0 : fails_for(f, CATALOGUE_FILE_DISK, "%s: what was changed before did not reach the disk", f->name);
}

uint64_t settle(struct catalogue_file *f)
{
    if (f->unsettled && !sync_words(f))
        return fails_for(f, CATALOGUE_FILE_DISK, "%s is changed, but did not reach the disk", f->name);
    if (f->unnamed && !sync_name(f->path, f->file))
        return fails_for(f, CATALOGUE_FILE_FOLDER, "%s is changed, but its folder cannot be synced", f->name);
    f->unnamed = false;
    return 0;
}

bool waits_for_disk(const struct catalogue_file *f)
{
    return f->carrying.flush == flush_by_page();
}

/* ---- beginning */

static uint64_t take_room(struct catalogue_file *f)
{
    if (fill_holes(f->file, &f->left, bytes_of(f->words, f->trailer)))
        return 0;
    return fails_for(f, CATALOGUE_FILE_DISK, "%s has no room on its disk for all its words", f->name);
}

/* A line more behind the table's words; a cut may take it away again, which does no harm. */
static uint64_t begin_trailer(struct catalogue_file *f)
{
    if (!f->trailer && ftruncate(f->file, (off_t)bytes_of(f->words, true)) != 0)
        return fails_for(f, CATALOGUE_FILE_DISK, "%s cannot be made longer by its last line", f->name);
    f->trailer = true;
    shared_store(&trailer_of(f)[TRAILER_FORMAT], CATALOGUE_FILE_FORMAT);
    /* The writer before may have been killed within a bracket, or before it put another file in this one's place. */
    counter_close(&trailer_of(f)[TRAILER_COUNTER]);
    shared_store(&trailer_of(f)[TRAILER_REPLACED], 0);
    return 0;
}

/*
 * A program that was killed may have left stores on the way to the disk, or a new file whose name is not there yet. They come before any
 * change of ours: a flush waits for its own line alone.
 */
static uint64_t begin_on_disk(struct catalogue_file *f)
{
    if (!sync_name(f->path, f->file))
        return fails_for(f, CATALOGUE_FILE_FOLDER, "the folder of %s cannot be synced", f->name);
    if (!sync_words(f))
        return fails_for(f, CATALOGUE_FILE_DISK, "%s: what was changed before did not reach the disk", f->name);
    if (fstat(f->file, &f->left) != 0)
        return fails_for(f, CATALOGUE_FILE_DISK, "%s cannot be measured", f->name);
    return 0;
}

/* Before anything is stored: no change would last, or a cut could leave what no list of orders allows. */
static uint64_t must_flush(struct catalogue_file *f)
{
    if (!flush_whole_lines())
        return fails(f, CATALOGUE_FILE_NO_FLUSH, "%s cannot be changed here: this processor's cache has lines of less than 64 bytes", f->name);
    if (f->persistent && !f->carrying.flush->lasts)
        return fails(f, CATALOGUE_FILE_NO_FLUSH, "%s lies in persistent memory, where a change lasts only by a flush instruction, not by %s", f->name,
                     f->carrying.flush->name);
    return 0;
}

/* If lines do not last by an instruction a flush is a wait for the disk, unless on a disk the caller leaves that out. */
static void choose_flush(struct catalogue_file *f)
{
    if (f->persistent ? !f->carrying.flush->lasts : !f->fast)
        f->carrying.flush = flush_by_page();
}

uint64_t begin_writing(struct catalogue_file *f)
{
    uint64_t none = 0, number = must_flush(f);
    if (number != 0)
        return number;
    f->expected = malloc(bytes_of(f->words, false));
    f->working = malloc(bytes_of(f->words, false));
    f->orders = malloc(2 * LIST_WORDS * sizeof *f->orders);
    if (!f->expected || !f->working || !f->orders)
        return no_memory(f);
    summary_room(f);
    number = read_copies(f);
    /* Carry-out of no orders tests the header alone. */
    if (number == 0 && catalogue_carry_out(f->working, f->words, &none, 1, 0) != 0)
        number = wrong_header(f, f->working);
    if (number == 0)
        number = take_room(f);
    if (number == 0)
        number = begin_trailer(f);
    if (number == 0)
        number = begin_on_disk(f);
    if (number == 0)
        number = sums_open(f);
    if (number == 0)
        number = sums_take(f);
    choose_flush(f);
    return number;
}

/* ---- changing */

static bool same_time(struct timespec a, struct timespec b)
{
    return a.tv_sec == b.tv_sec && a.tv_nsec == b.tv_nsec;
}

static uint64_t changed(struct catalogue_file *f)
{
    f->stale = true;
    return fails(f, CATALOGUE_FILE_CHANGED, "%s was changed by another program meanwhile", f->name);
}

/* Some word of the file differs from what this handle left there, or cannot be read. */
static uint64_t compare_file(struct catalogue_file *f)
{
    uint64_t part[2048];
    size_t most = sizeof part / sizeof part[0];
    for (size_t at = 0, count; at < f->words; at += count) {
        count = f->words - at < most ? f->words - at : most;
        if (!read_words(f, part, at, count))
            return not_read(f);
        if (memcmp(part, f->expected + at, count * sizeof *part) != 0)
            return changed(f);
    }
    return 0;
}

/* A line that the orders store to differs from what this handle left there. */
static uint64_t compare_lines(struct catalogue_file *f, const uint64_t *orders, uint64_t count)
{
    for (uint64_t i = 0; i < count; i++) {
        uint64_t line = orders[2 * i] / LINE_WORDS * LINE_WORDS;
        if (line < f->words && memcmp(f->mapped + line, f->expected + line, LINE_WORDS * sizeof(uint64_t)) != 0)
            return changed(f);
    }
    return 0;
}

uint64_t still_ours(struct catalogue_file *f, const uint64_t *orders, uint64_t count)
{
    struct stat ours;
    uint64_t number = keeps_name(f, &ours);
    if (number != 0)
        return number;
    if ((uint64_t)ours.st_size != bytes_of(f->words, true))
        return changed(f);
    bool whole = !orders || !same_time(ours.st_mtim, f->left.st_mtim) || !same_time(ours.st_ctim, f->left.st_ctim);
    number = whole ? compare_file(f) : compare_lines(f, orders, count);
    if (number == 0)
        f->left = ours;
    return number;
}

/* As many orders as one journal of the sums has room for; all, if the table has no sums. */
static uint64_t carry_some(struct catalogue_file *f, const uint64_t *orders, uint64_t count, const struct counter *counter, uint64_t *carried,
                           uint64_t *some)
{
    uint64_t number = sums_before(f, orders, count, counter->brackets, some);
    if (number != 0) {
        f->stale = true;
        return number;
    }
    if (!carry_out(f->mapped, orders, *some, counter, &f->carrying, carried)) {
        store_again(f);
        f->unsettled = f->stale = true;
        return fails_for(f, CATALOGUE_FILE_DISK, "%s: the change was cut off and did not reach the disk", f->name);
    }
    /* The lines' sums say that they have reached the disk; else they get them when the copies are read again. */
    if (f->fast || orders[2 * (*some - 1)] == CATALOGUE_MARK)
        sums_after(f);
    else if (f->sums.mapped)
        f->stale = true;
    return 0;
}

uint64_t carry_list(struct catalogue_file *f, const uint64_t *orders, uint64_t count, enum brackets brackets, uint64_t *carried)
{
    const struct counter counter = counter_start(&trailer_of(f)[TRAILER_COUNTER], brackets);
    /* Before the first real store: the core refuses orders outside the table. */
    uint64_t number = catalogue_carry_out(f->expected, f->words, orders, 2 * count, count);
    if (number != 0)
        return refuses(f, number);
    /* A list that ends with a flush of its page, or of its line in persistent memory, leaves nothing on the way. */
    if (count > 0 && ((!f->persistent && !waits_for_disk(f)) || orders[2 * (count - 1)] != CATALOGUE_MARK))
        f->unsettled = true;
    for (uint64_t at = 0, some; number == 0 && at < count; at += some)
        number = carry_some(f, orders + 2 * at, count - at, &counter, carried, &some);
    /* Our own stores move the file's times. */
    fstat(f->file, &f->left);
    return number;
}

/* ---- a new file */

/* The new file for the old one. */
static void take_over(struct catalogue_file *f, int file, uint64_t *mapped, bool persistent)
{
    unmap_words(f->mapped, f->words);
    close(f->file);
    f->file = file;
    f->mapped = mapped;
    f->persistent = persistent;
    choose_flush(f);
    f->unsettled = false;
    f->unnamed = true;
    memcpy(f->expected, f->working, bytes_of(f->words, false));
    fstat(f->file, &f->left);
}

/* Readers look at the name from now on, or need not any more. */
static void mark_replaced(struct catalogue_file *f, uint64_t replaced)
{
    if (is_whole(f))
        shared_store(&trailer_of(f)[TRAILER_REPLACED], replaced);
}

/* Marked before, so that no reader misses the new file; nothing can fail behind the rename but the folder's sync. */
static bool put(struct catalogue_file *f, struct successor *s)
{
    bool persistent;
    uint64_t *mapped = map_words(s->file, f->words, true, &persistent);
    if (!mapped)
        return false;
    mark_replaced(f, 1);
    if (successor_put(s)) {
        take_over(f, s->file, mapped, persistent);
        return true;
    }
    int why = errno;
    mark_replaced(f, 0);
    unmap_words(mapped, f->words);
    fstat(f->file, &f->left);
    errno = why;
    return false;
}

/* Under the name that they keep; if that fails they are found under the other one. */
static uint64_t take_new_sums(struct catalogue_file *f)
{
    sums_put(f);
    uint64_t number = sums_open(f);
    return number == 0 ? sums_take(f) : number;
}

uint64_t replace(struct catalogue_file *f, bool *done)
{
    struct successor s = {.file = -1};
    uint64_t number = still_ours(f, NULL, 0);
    *done = false;
    if (number != 0)
        return number;
    uint64_t sums = f->sums.mapped ? sums_identity() : 0;
    bool ready = sums == 0 || sums_prepare(f, f->working, sums, 0);
    *done = ready && successor_make(&s, f->path, f->file, f->working, f->words, sums) && put(f, &s);
    successor_free(&s);
    if (*done && sums != 0)
        number = take_new_sums(f);
    return *done && number == 0 ? settle(f) : number;
}
