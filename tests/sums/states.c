/* Files of sums that are cut short, removed, another table's, read-only; programs that keep no sums; copies and links; short memory; the sum itself. */
#include <errno.h>
#include <fcntl.h>
#include <stdio.h>
#include <stdlib.h>
#include <string.h>
#include <sys/mman.h>
#include <sys/stat.h>
#include <unistd.h>

#include "crc.h"
#include "handle.h"
#include "try.h"

#define GIVES(number, call) gives((number), (call), __LINE__, #call)

static struct ledger ledger;
static catalogue_file *f;

static void gives(uint64_t wanted, uint64_t number, int line, const char *call)
{
    must(number == wanted, __FILE__, line, "%s gives %lu, not %lu: %s", call, (unsigned long)number, (unsigned long)wanted, catalogue_file_message(f));
}

static uint64_t open_for(uint64_t flags, const char *name)
{
    return catalogue_file_open(f, at(name), flags, 0);
}

static uint64_t scrubbed(void)
{
    struct named n;
    return scrub(f, &n);
}

static uint64_t add_one(void)
{
    return catalogue_file_add(f, 1, 7, 77777, CATALOGUE_OPEN);
}

/* Nothing is answered and nothing changed, with this number, until the sums are switched off. */
static void is_refused(uint64_t number, const char *name)
{
    GIVES(0, open_for(CATALOGUE_FILE_READING, name));
    struct answers a = ask_all(f, &ledger, &ledger, 5);
    MUST(a.right == 0 && a.number == number, "%lu finds are answered, the others give %lu", (unsigned long)a.right, (unsigned long)a.number);
    GIVES(number, scrubbed());
    GIVES(0, open_for(CATALOGUE_FILE_WRITING, name));
    GIVES(number, add_one());
    GIVES(number, catalogue_file_sums(f, 1));
    struct catalogue_file_pair pair;
    GIVES(number, catalogue_file_find(f, 1, 10, &pair));
    GIVES(0, catalogue_file_sums(f, 0));
    GIVES(0, catalogue_file_find(f, 1, 10, &pair));
    GIVES(0, catalogue_file_sums(f, 1));
    GIVES(0, add_one());
    GIVES(0, scrubbed());
    GIVES(0, catalogue_file_remove(f, 1, 7));
    MUST(ask_all(f, &ledger, &ledger, 5).refused == 0, "%s", catalogue_file_message(f));
    GIVES(0, catalogue_file_close(f));
}

static void cut_short(void)
{
    size_t bytes;
    make_table("t", 20, 2, 20, true, &ledger);
    free(read_file(sums_of("t"), &bytes));
    const size_t lengths[] = {0, 8, 64, 4096, bytes / 2, bytes - 64, bytes - 1, bytes + 1, bytes + 4096};
    for (size_t i = 0; i < sizeof lengths / sizeof lengths[0]; i++) {
        MUST(truncate(sums_of("t"), (off_t)lengths[i]) == 0, "not cut");
        is_refused(CATALOGUE_FILE_BAD_SUMS, "t");
    }
    passed("a file of sums of %zu lengths that it cannot have", sizeof lengths / sizeof lengths[0]);
}

static void anothers(void)
{
    size_t bytes;
    struct ledger other;
    make_table("t", 20, 2, 20, true, &ledger);
    make_table("u", 20, 2, 20, true, &other);
    uint8_t *all = read_file(sums_of("u"), &bytes);
    write_file(sums_of("t"), all, bytes);
    free(all);
    is_refused(CATALOGUE_FILE_BAD_SUMS, "t");
    MUST(unlink(sums_of("t")) == 0 && mkdir(sums_of("t"), 0755) == 0, "no folder");
    GIVES(0, open_for(CATALOGUE_FILE_READING, "t"));
    GIVES(CATALOGUE_FILE_BAD_SUMS, scrubbed());
    MUST(rmdir(sums_of("t")) == 0, "the folder stays");
    GIVES(CATALOGUE_FILE_NO_SUMS, scrubbed());
    passed("another table's sums, and a folder of that name");
}

static void removed(void)
{
    make_table("t", 20, 2, 20, true, &ledger);
    MUST(unlink(sums_of("t")) == 0, "not removed");
    GIVES(0, open_for(CATALOGUE_FILE_READING, "t"));
    MUST(ask_all(f, &ledger, &ledger, 5).refused == 0, "%s", catalogue_file_message(f));
    GIVES(CATALOGUE_FILE_NO_SUMS, scrubbed());
    GIVES(0, open_for(CATALOGUE_FILE_WRITING, "t"));
    GIVES(0, add_one());
    GIVES(0, catalogue_file_sums(f, 1));
    GIVES(0, catalogue_file_sums(f, 1));
    GIVES(0, scrubbed());
    GIVES(0, catalogue_file_sums(f, 0));
    GIVES(0, catalogue_file_sums(f, 0));
    MUST(access(sums_of("t"), F_OK) != 0, "the file stays");
    GIVES(CATALOGUE_FILE_BAD_OPTION, catalogue_file_sums(f, 2));
    GIVES(0, open_for(CATALOGUE_FILE_READING, "t"));
    GIVES(CATALOGUE_FILE_NOT_WRITING, catalogue_file_sums(f, 1));
    passed("removed by hand, switched on and off");
}

/* A table that never had sums is what it was before there were any. */
static void none(void)
{
    size_t bytes;
    make_table("t", 20, 2, 20, false, &ledger);
    uint8_t *all = read_file(at("t"), &bytes);
    uint64_t trailer[CATALOGUE_FILE_TRAILER];
    memcpy(trailer, all + bytes - sizeof trailer, sizeof trailer);
    for (int i = 2; i < CATALOGUE_FILE_TRAILER; i++)
        MUST(trailer[i] == 0, "word %d of the trailer", i);
    MUST(access(sums_of("t"), F_OK) != 0, "a file of sums that nobody asked for");
    free(all);
    passed("no sums");
}

/* Another table, under the name that sums would have. */
static void neighbour(void)
{
    struct ledger other;
    make_table("t", 20, 2, 20, false, &ledger);
    make_table("t.sums", 20, 1, 11, false, &other);
    GIVES(0, open_for(CATALOGUE_FILE_READING, "t"));
    MUST(ask_all(f, &ledger, &ledger, 5).refused == 0, "%s", catalogue_file_message(f));
    GIVES(CATALOGUE_FILE_NO_SUMS, scrubbed());
    GIVES(0, open_for(CATALOGUE_FILE_WRITING, "t"));
    GIVES(0, add_one());
    GIVES(CATALOGUE_FILE_EXISTS, catalogue_file_sums(f, 1));
    GIVES(0, catalogue_file_sums(f, 0));
    GIVES(0, open_for(CATALOGUE_FILE_READING, "t.sums"));
    MUST(ask_all(f, &other, &other, 5).refused == 0, "%s", catalogue_file_message(f));
    passed("another table under the name of the sums");
}

static void read_only(void)
{
    struct stat table, sums;
    make_table("t", 20, 2, 20, true, &ledger);
    MUST(chmod(at("t"), 0640) == 0 && stat(at("t"), &table) == 0, "no rights");
    GIVES(0, open_for(CATALOGUE_FILE_WRITING, "t"));
    GIVES(0, catalogue_file_sums(f, 0));
    GIVES(0, catalogue_file_sums(f, 1));
    MUST(stat(sums_of("t"), &sums) == 0 && (sums.st_mode & 0777) == 0640 && sums.st_uid == table.st_uid, "the sums have other rights");
    MUST(chmod(sums_of("t"), 0440) == 0, "no rights");
    GIVES(0, open_for(CATALOGUE_FILE_READING, "t"));
    MUST(ask_all(f, &ledger, &ledger, 5).refused == 0, "%s", catalogue_file_message(f));
    GIVES(0, scrubbed());
    GIVES(0, open_for(CATALOGUE_FILE_WRITING, "t"));
    GIVES(CATALOGUE_FILE_BAD_SUMS, add_one());
    MUST(strstr(catalogue_file_message(f), "t.sums cannot be used: Permission denied"), "%s", catalogue_file_message(f));
    MUST(chmod(sums_of("t"), 0640) == 0, "no rights");
    GIVES(0, open_for(CATALOGUE_FILE_WRITING, "t"));
    GIVES(0, add_one());
    passed("a file of sums that may not be written");
}

/* A copy with its sums, by another name; a link; a table whose working folder is another. */
static void copies(void)
{
    size_t bytes;
    make_table("t", 20, 2, 20, true, &ledger);
    const char *const endings[] = {"", ".sums"};
    for (int i = 0; i < 2; i++) {
        char from[32], to[32];
        snprintf(from, sizeof from, "t%s", endings[i]);
        snprintf(to, sizeof to, "copy%s", endings[i]);
        uint8_t *all = read_file(at(from), &bytes);
        write_file(at(to), all, bytes);
        free(all);
    }
    unlink(at("link"));
    MUST(symlink("copy", at("link")) == 0, "no link");
    const char *const names[] = {"copy", "link"};
    for (int i = 0; i < 2; i++) {
        GIVES(0, open_for(CATALOGUE_FILE_WRITING, names[i]));
        GIVES(0, add_one());
        GIVES(0, scrubbed());
        GIVES(0, catalogue_file_remove(f, 1, 7));
        GIVES(0, open_for(CATALOGUE_FILE_READING, names[i]));
        GIVES(0, scrubbed());
    }
    GIVES(0, open_for(CATALOGUE_FILE_READING, "t"));
    GIVES(0, scrubbed());
    passed("a copy with its sums, and a link to it");
}

/* ---- programs that keep no sums */

static uint64_t *map(size_t *words)
{
    size_t bytes;
    free(read_file(at("t"), &bytes));
    int file = open(at("t"), O_RDWR);
    uint64_t *table = mmap(NULL, bytes, PROT_READ | PROT_WRITE, MAP_SHARED, file, 0);
    MUST(file >= 0 && table != MAP_FAILED, "not mapped");
    close(file);
    *words = bytes / sizeof *table - CATALOGUE_FILE_TRAILER;
    return table;
}

/* An addition by the core's calls alone; an older program raises the counter, a plain call does not. */
static void add_plainly(bool counts)
{
    static uint64_t working[1 << 14], orders[CATALOGUE_LIST_WORDS];
    size_t words;
    uint64_t stores, flushes, barriers, *table = map(&words);
    memcpy(working, table, words * sizeof *table);
    MUST(catalogue_insert(working, words, 1, orders, CATALOGUE_LIST_WORDS, 0, 25, 5555, 0, &stores, &flushes, &barriers) == 0, "no list");
    table[words + 1] += counts;
    MUST(catalogue_carry_out(table, words, orders, CATALOGUE_LIST_WORDS, stores + flushes) == 0, "not carried out");
    table[words + 1] += counts;
    munmap(table, (words + CATALOGUE_FILE_TRAILER) * sizeof *table);
}

static void without_sums(void)
{
    for (int counts = 0; counts < 2; counts++) {
        uint64_t number = counts ? CATALOGUE_FILE_UNSUMMED : CATALOGUE_FILE_DECAYED;
        make_table("t", 20, 2, 40, true, &ledger);
        add_plainly(counts);
        GIVES(0, open_for(CATALOGUE_FILE_READING, "t"));
        struct answers a = ask_all(f, &ledger, &ledger, 10);
        MUST(a.refused > 0 && a.refused < a.right && a.number == number, "%lu finds refused with %lu", (unsigned long)a.refused, (unsigned long)a.number);
        GIVES(number, scrubbed());
        MUST(strstr(catalogue_file_message(f), "a program that keeps no sums"), "%s", catalogue_file_message(f));
        GIVES(0, open_for(CATALOGUE_FILE_WRITING, "t"));
        GIVES(number, add_one());
        GIVES(number, catalogue_file_sums(f, 1));
        GIVES(0, catalogue_file_sums(f, 0));
        GIVES(0, catalogue_file_sums(f, 1));
        GIVES(0, add_one());
        GIVES(0, scrubbed());
    }
    /* Another file by the table's name, as an older program's load puts it there: it knows nothing of the sums. */
    size_t bytes;
    uint8_t *all = read_file(at("t"), &bytes);
    memset(all + bytes - 5 * sizeof(uint64_t), 0, 5 * sizeof(uint64_t));
    unlink(at("t"));
    write_file(at("t"), all, bytes);
    free(all);
    GIVES(0, open_for(CATALOGUE_FILE_READING, "t"));
    GIVES(CATALOGUE_FILE_BAD_SUMS, scrubbed());
    GIVES(0, open_for(CATALOGUE_FILE_WRITING, "t"));
    GIVES(CATALOGUE_FILE_BAD_SUMS, add_one());
    passed("changed or replaced by programs that keep no sums");
}

/* A handle that was open before: the sums are switched on, off and on, and the table is loaded by a new file. */
static void open_before(void)
{
    uint64_t pairs[2 * 20];
    struct named n;
    make_table("t", 20, 2, 20, false, &ledger);
    catalogue_file *reader = catalogue_file_new(), *writer = catalogue_file_new();
    MUST(catalogue_file_open(reader, at("t"), 0, 0) == 0 && catalogue_file_open(writer, at("t"), CATALOGUE_FILE_WRITING, 0) == 0, "not open");
    for (int i = 0; i < 3; i++) {
        MUST(scrub(reader, &n) == CATALOGUE_FILE_NO_SUMS, "%s", catalogue_file_message(reader));
        MUST(catalogue_file_sums(writer, 1) == 0 && scrub(reader, &n) == 0, "%s", catalogue_file_message(reader));
        MUST(catalogue_file_add(writer, 1, 7, 77777, 0) == 0 && scrub(reader, &n) == 0, "%s", catalogue_file_message(reader));
        MUST(catalogue_file_remove(writer, 1, 7) == 0 && ask_all(reader, &ledger, &ledger, 5).refused == 0, "%s", catalogue_file_message(reader));
        MUST(catalogue_file_sums(writer, 0) == 0 && ask_all(reader, &ledger, &ledger, 5).refused == 0, "%s", catalogue_file_message(reader));
    }
    MUST(catalogue_file_sums(writer, 1) == 0, "%s", catalogue_file_message(writer));
    for (uint64_t i = 1; i <= 20; i++) {
        MUST(catalogue_file_remove(writer, 2, 10 * i) == 0, "%s", catalogue_file_message(writer));
        pairs[2 * i - 2] = 10 * i;
        pairs[2 * i - 1] = ledger.recording[1][i] = 5000 + i;
    }
    MUST(catalogue_file_load_pairs(writer, 2, 0, pairs, 20, NULL) == 0, "%s", catalogue_file_message(writer));
    MUST(ask_all(reader, &ledger, &ledger, 5).refused == 0 && scrub(reader, &n) == 0, "%s", catalogue_file_message(reader));
    MUST(catalogue_file_add(writer, 1, 7, 77777, 0) == 0 && scrub(reader, &n) == 0 && scrub(writer, &n) == 0, "%s", catalogue_file_message(reader));
    catalogue_file_free(reader);
    catalogue_file_free(writer);
    passed("a reader that was open before");
}

/* ---- a writer with a summary */

/* A change of code i of a collection, as its ledger has it, perhaps cut off; the ledger gets what the handle finds then. */
static uint64_t change_some(uint64_t c, uint64_t i, uint64_t recording, uint64_t cut)
{
    bool there = ledger.recording[c][i] != 0;
    uint64_t kind = !there ? CATALOGUE_FILE_ADD : drawn() % 2 ? CATALOGUE_FILE_REMOVE : CATALOGUE_FILE_SET_CLASS;
    struct catalogue_file_change change = {.kind = kind, .collection = c + 1, .key = 10 * i, .recording = recording, .access = drawn() % 3, .cut = cut};
    struct catalogue_file_pair pair;
    uint64_t number = catalogue_file_change(f, &change);
    ledger.recording[c][i] = catalogue_file_find(f, c + 1, 10 * i, &pair) == 0 ? pair.recording : 0;
    MUST(number != 0 || (ledger.recording[c][i] == 0) == (kind == CATALOGUE_FILE_REMOVE), "code %lu is as before", (unsigned long)i);
    return number;
}

/* The codes that a collection lacks, by batches. */
static void load_the_rest(uint64_t c, uint64_t recording)
{
    static uint64_t pairs[2 * MOST_CODES];
    size_t count = 0;
    for (uint64_t i = 1; i <= ledger.codes; i++)
        if (ledger.recording[c][i] == 0) {
            pairs[2 * count] = 10 * i;
            pairs[2 * count++ + 1] = ledger.recording[c][i] = recording + i;
        }
    GIVES(0, catalogue_file_load_pairs(f, c + 1, drawn() % 2 ? CATALOGUE_FILE_IN_PLACE : 0, pairs, count, NULL));
}

static void all_fit(catalogue_file *reader)
{
    struct named n;
    MUST(scrub(reader, &n) == 0 && ask_all(reader, &ledger, &ledger, 5).refused == 0, "%s", catalogue_file_message(reader));
}

/* Changes by the summary, changes that are cut off, loads, a scrub by the handle: a reader beside it finds that all words fit. */
static void with_a_summary(uint64_t flags, uint64_t dock)
{
    const struct catalogue_file_options options = {.flags = CATALOGUE_FILE_WRITING | flags, .dock = dock};
    unsigned quick = 0, cut = 0;
    make_table("t", 80, 2, 150, true, &ledger);
    catalogue_file *reader = catalogue_file_new();
    GIVES(0, catalogue_file_open_with(f, at("t"), &options));
    MUST(catalogue_file_open(reader, at("t"), 0, 0) == 0, "%s", catalogue_file_message(reader));
    for (uint64_t round = 1; round <= 1200; round++) {
        uint64_t orders = round % 15 == 0 ? drawn() % 5 : CATALOGUE_FILE_ALL;
        uint64_t number = change_some(drawn() % 2, 1 + drawn() % 150, 10000 * round, orders);
        MUST(number == 0 || (number == CATALOGUE_FILE_CUT && orders < 5) || number == CATALOGUE_FILE_BAD_OPTION, "%s", catalogue_file_message(f));
        quick += number == 0 && f->summarized && f->sums.mapped;
        cut += number == CATALOGUE_FILE_CUT;
        if (round % 15 == 0 || round % 40 == 1)
            all_fit(reader);
        if (round % 100 == 0)
            load_the_rest(drawn() % 2, 10000 * round);
        if (round % 200 == 0)
            GIVES(0, scrubbed());
    }
    all_fit(reader);
    MUST(quick > 1000 && cut > 20, "%u changes by a summary, %u cut off", quick, cut);
    GIVES(0, catalogue_file_close(f));
    all_fit(reader);
    catalogue_file_free(reader);
    passed("%u changes by a summary, %u cut off, and loads%s, dock %lu", quick, cut, flags ? ", fast" : "", (unsigned long)dock);
}

/* A word decays while a writer has the table open, which has read it before: its scrub reads it again. */
static void decay_behind_a_writer(void)
{
    struct catalogue_file_pair pair;
    struct named n;
    size_t word = 8 + 9; /* the first pointer of node 1 */
    make_table("t", 20, 2, 20, true, &ledger);
    GIVES(0, open_for(CATALOGUE_FILE_WRITING, "t"));
    GIVES(0, add_one());
    for (int bit = 0; bit < 64; bit += 9) {
        f->mapped[word] ^= UINT64_C(1) << bit;
        GIVES(CATALOGUE_FILE_DECAYED, scrub(f, &n));
        MUST(n.count == 1 && n.node == 1 && n.line == 1, "%lu lines, the first in node %lu", (unsigned long)n.count, (unsigned long)n.node);
        GIVES(CATALOGUE_FILE_DECAYED, catalogue_file_find(f, 1, 10, &pair));
        GIVES(CATALOGUE_FILE_DECAYED, catalogue_file_remove(f, 1, 7));
        f->mapped[word] ^= UINT64_C(1) << bit;
        GIVES(0, scrubbed());
        GIVES(0, catalogue_file_remove(f, 1, 7));
        GIVES(0, add_one());
    }
    passed("words that decay while a writer has the table open");
}

static bool disk_is_full;

int __real_fallocate(int file, int mode, off_t from, off_t bytes);
int __wrap_fallocate(int file, int mode, off_t from, off_t bytes)
{
    if (!disk_is_full)
        return __real_fallocate(file, mode, from, bytes);
    errno = ENOSPC;
    return -1;
}

/* A file of sums that was copied without its zeros gets its place on the disk before anything is stored; if there is none nothing is changed. */
static void with_holes(void)
{
    struct stat about;
    size_t bytes, page = 4096;
    make_table("t", 20, 2, 20, true, &ledger);
    uint8_t *all = read_file(sums_of("t"), &bytes), *zeros = calloc(1, page);
    MUST(unlink(sums_of("t")) == 0, "not removed");
    int file = open(sums_of("t"), O_WRONLY | O_CREAT, 0644);
    MUST(file >= 0 && ftruncate(file, (off_t)bytes) == 0, "not made");
    for (size_t at = 0, some; at < bytes; at += some) {
        some = bytes - at < page ? bytes - at : page;
        if (memcmp(all + at, zeros, some) != 0)
            MUST(pwrite(file, all + at, some, (off_t)at) == (ssize_t)some, "not written");
    }
    MUST(fstat(file, &about) == 0 && (size_t)about.st_blocks * 512 < bytes, "no holes");
    disk_is_full = true;
    GIVES(0, open_for(CATALOGUE_FILE_WRITING, "t"));
    GIVES(CATALOGUE_FILE_BAD_SUMS, add_one());
    MUST(strstr(catalogue_file_message(f), strerror(ENOSPC)), "%s", catalogue_file_message(f));
    disk_is_full = false;
    GIVES(0, open_for(CATALOGUE_FILE_WRITING, "t"));
    MUST(fstat(file, &about) == 0 && (size_t)about.st_blocks * 512 >= bytes, "holes stay");
    GIVES(0, add_one());
    GIVES(0, scrubbed());
    close(file);
    free(all);
    free(zeros);
    passed("a file of sums with holes");
}

/* ---- short memory */

static long left = -1;

void *__real_malloc(size_t bytes);
void *__real_calloc(size_t count, size_t bytes);
void *__real_realloc(void *of, size_t bytes);
static bool is_short(void)
{
    if (left < 0 || left-- > 0)
        return false;
    errno = ENOMEM;
    return true;
}

void *__wrap_malloc(size_t bytes)
{
    return is_short() ? NULL : __real_malloc(bytes);
}

void *__wrap_calloc(size_t count, size_t bytes)
{
    return is_short() ? NULL : __real_calloc(count, bytes);
}

void *__wrap_realloc(void *of, size_t bytes)
{
    return is_short() ? NULL : __real_realloc(of, bytes);
}

/* Reading, changing, switching off and on. What the handle says if memory is short. */
static uint64_t some_work(void)
{
    uint64_t number = open_for(CATALOGUE_FILE_READING, "t");
    struct catalogue_file_pair pair;
    if (number == 0)
        number = catalogue_file_find(f, 1, 10, &pair);
    if (number == 0)
        number = scrubbed();
    if (number == 0)
        number = open_for(CATALOGUE_FILE_WRITING, "t");
    if (number == 0)
        number = add_one();
    if (number == 0)
        number = catalogue_file_remove(f, 1, 7);
    if (number == 0)
        number = catalogue_file_sums(f, 0);
    return number == 0 ? catalogue_file_sums(f, 1) : number;
}

static void short_memory(void)
{
    bool fell_short = true;
    long most = 0;
    make_table("t", 20, 2, 20, true, &ledger);
    for (; fell_short; most++) {
        MUST(most < 1000, "never enough memory");
        left = most;
        uint64_t number = some_work();
        fell_short = left < 0;
        left = -1;
        MUST(number == 0 || number == CATALOGUE_FILE_NO_MEMORY || number == CATALOGUE_FILE_BAD_SUMS, "%lu: %s", (unsigned long)number,
             catalogue_file_message(f));
        /* The same handle makes no change without the sums. */
        add_one();
        GIVES(0, open_for(CATALOGUE_FILE_READING, "t"));
        MUST(ask_all(f, &ledger, &ledger, 5).refused == 0, "%s", catalogue_file_message(f));
        GIVES(0, open_for(CATALOGUE_FILE_WRITING, "t"));
        catalogue_file_remove(f, 1, 7);
        GIVES(0, catalogue_file_sums(f, 1));
        GIVES(0, scrubbed());
    }
    MUST(most > 10, "only %ld calls for memory", most);
    passed("memory that is short at each of %ld calls", most - 1);
}

/* ---- a disk that fails */

static long waits = -1;

int __real_msync(void *from, size_t bytes, int flags);
int __wrap_msync(void *from, size_t bytes, int flags)
{
    if (waits < 0 || waits-- > 0)
        return __real_msync(from, bytes, flags);
    errno = EIO;
    return -1;
}

/* One wait after another fails: the change is not made, or it is not known whether it lasts; what follows is right. */
static void failing_disk(void)
{
    struct ledger after;
    uint64_t number = 1;
    long most = 0;
    make_table("t", 20, 2, 20, true, &ledger);
    after = ledger;
    after.recording[0][9] = 0;
    for (; number != 0; most++) {
        MUST(most < 100, "never enough waits");
        GIVES(0, open_for(CATALOGUE_FILE_WRITING, "t"));
        waits = most;
        number = catalogue_file_remove(f, 1, 90);
        waits = -1;
        MUST(number == 0 || number == CATALOGUE_FILE_DISK, "%lu: %s", (unsigned long)number, catalogue_file_message(f));
        MUST(most > 0 || catalogue_file_outcome(f) == CATALOGUE_FILE_NOT_MADE, "made, though the journal did not last");
        GIVES(0, scrubbed());
        MUST(ask_all(f, &ledger, &after, 5).refused == 0, "%s", catalogue_file_message(f));
        uint64_t again = catalogue_file_add(f, 1, 90, ledger.recording[0][9], CATALOGUE_OPEN);
        MUST(again == 0 || again == CATALOGUE_KEY_PRESENT, "%s", catalogue_file_message(f));
        GIVES(0, scrubbed());
    }
    MUST(most > 2, "only %ld waits", most - 1);
    passed("a disk that fails at each of %ld waits", most - 1);
}

/* ---- the sum */

/* CRC32C of known words (RFC 3720, B.4), and that both ways give the same. */
static void sums_of_lines(void)
{
    uint64_t words[4] = {0}, ones[4], rising[4], lines[8 * 50];
    memset(ones, 255, sizeof ones);
    for (unsigned i = 0; i < sizeof rising; i++)
        ((uint8_t *)rising)[i] = (uint8_t)i;
    const struct crc *const ways[] = {crc_plain(), crc_best()};
    for (int i = 0; i < 2; i++)
        MUST(ways[i]->words(words, 4) == 0x8a9136aa && ways[i]->words(ones, 4) == 0x62a8ab43 && ways[i]->words(rising, 4) == 0x46dd794e, "way %d", i);
    for (int time = 0; time < 1000; time++) {
        uint32_t plain[50], best[50];
        for (unsigned i = 0; i < 8 * 50; i++)
            lines[i] = drawn();
        ways[0]->lines(lines, (uint64_t)time, 50, plain);
        ways[1]->lines(lines, (uint64_t)time, 50, best);
        MUST(memcmp(plain, best, sizeof plain) == 0, "the two ways differ");
        MUST((plain[7] ^ (uint32_t)(time + 7)) == ways[0]->words(lines + 8 * 7, 8), "a line's number");
    }
    passed("the sum of known words, by both ways%s", ways[0] == ways[1] ? "; there is one" : "");
}

int main(int count, char **words)
{
    MUST(count == 2, "usage: states FOLDER");
    folder_is(words[1]);
    f = catalogue_file_new();
    sums_of_lines();
    none();
    cut_short();
    anothers();
    removed();
    neighbour();
    read_only();
    copies();
    without_sums();
    open_before();
    for (uint64_t dock = 0; dock < 2; dock++) {
        with_a_summary(0, dock);
        with_a_summary(CATALOGUE_FILE_FAST, dock);
    }
    decay_behind_a_writer();
    with_holes();
    short_memory();
    failing_disk();
    catalogue_file_free(f);
    return finish();
}
