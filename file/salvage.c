/* Salvage: a new table with what can be read of a damaged one. */
#include <errno.h>
#include <fcntl.h>
#include <inttypes.h>
#include <stdlib.h>
#include <string.h>
#include <unistd.h>

#include "memory.h"
#include "moment.h"
#include "newfile.h"
#include "stack.h"

/* Words of the report: of a slot that was dropped, and for each node of the table. */
#define DROP_WORDS 3
#define SLOTS 12
#define REPORT_WORDS (DROP_WORDS * SLOTS)
enum { LEVEL = 2, FENCE = 3, FIRST_KEY = 8 }; /* words of a node */

/* What is salvaged, and what the core is lent for it. */
struct salvaged {
    const char *from; /* its file's name */
    const uint64_t *words;
    size_t count;
    uint64_t *table, *report;
    uint64_t dropped;
};

static uint64_t read_table(struct catalogue_file *f, struct salvaged *s)
{
    uint64_t nodes = (s->count - HEADER_WORDS) / NODE_WORDS;
    size_t room = REPORT_WORDS * (size_t)nodes;
    s->table = calloc(s->count, sizeof *s->table);
    s->report = calloc(room, sizeof *s->report);
    if (!s->table || !s->report || !stack_left())
        return no_memory(f);
    uint64_t number = catalogue_salvage(s->words, s->count, s->table, s->count, s->report, room, &s->dropped);
    if (number == CATALOGUE_NO_NODES)
        return fails(f, number, "the codes of %s, packed anew, take more nodes than its %" PRIu64, s->from, nodes);
    return number == 0 ? 0 : fails(f, number, "%s: %s", s->from, catalogue_file_strerror(number));
}

static struct catalogue_file_drop drop_at(const uint64_t *words, const uint64_t *report)
{
    const uint64_t *slot = words + HEADER_WORDS + NODE_WORDS * (report[0] - 1) + FIRST_KEY + 2 * report[1];
    return (struct catalogue_file_drop){report[0], report[1], report[2], slot[0], slot[1]};
}

/* Of words that were read: each slot that is dropped, and the new file. */
static uint64_t salvage(struct catalogue_file *f, struct salvaged *s, const char *name,
                        int (*each)(void *context, const struct catalogue_file_drop *drop), void *context)
{
    uint64_t number = read_table(f, s);
    for (uint64_t i = 0; number == 0 && each && i < s->dropped; i++) {
        struct catalogue_file_drop drop = drop_at(s->words, s->report + DROP_WORDS * i);
        if (each(context, &drop) != 0)
            number = fails(f, CATALOGUE_FILE_STOPPED, "%s: the salvage was ended", s->from);
    }
    if (number == 0)
        number = new_file(f, name, s->table, s->count);
    free(s->table);
    free(s->report);
    return number;
}

uint64_t catalogue_file_salvage(catalogue_file *f, const char *name, int (*each)(void *context, const struct catalogue_file_drop *drop),
                                void *context, uint64_t *dropped)
{
    uint64_t number = must_be_open(f);
    if (number == 0)
        number = whole_words(f);
    if (number != 0)
        return number;
    struct salvaged s = {.from = f->name, .words = f->working, .count = f->words};
    number = salvage(f, &s, name, each, context);
    if (number == 0)
        *dropped = s.dropped;
    return number;
}

/* ---- a file that is no table any more */

/* Words of nodes that the file may lack: no tree enters them, and their left neighbours keep all their slots. */
static uint64_t *missing_words(size_t count)
{
    uint64_t *words = calloc(count, sizeof *words);
    for (size_t node = HEADER_WORDS; words && node < count; node += NODE_WORDS)
        words[node + LEVEL] = words[node + FENCE] = CATALOGUE_MARK;
    return words;
}

/* What there is of the words; the rest stays as it is. */
static uint64_t read_words(struct catalogue_file *f, const char *name, uint64_t *words, size_t count)
{
    size_t read = 0, bytes = count * sizeof *words;
    int file = open(name, O_RDONLY | O_CLOEXEC | O_NONBLOCK);
    if (file < 0)
        return fails_for(f, errno == ENOENT ? CATALOGUE_FILE_NO_FILE : CATALOGUE_FILE_NOT_ALLOWED, "%s cannot be opened for reading", name);
    ssize_t got = 1;
    while (read < bytes && (got = pread(file, (char *)words + read, bytes - read, (off_t)read)) > 0)
        read += (size_t)got;
    uint64_t number = got < 0 ? fails_for(f, CATALOGUE_FILE_DISK, "%s cannot be read", name) : 0;
    close(file);
    return number;
}

uint64_t catalogue_file_rescue(catalogue_file *f, const char *table, uint64_t nodes, const uint64_t roots[2], const char *name,
                               int (*each)(void *context, const struct catalogue_file_drop *drop), void *context, uint64_t *dropped)
{
    if (nodes == 0 || nodes > MOST_NODES || roots[0] == 0 || roots[0] > nodes || roots[1] > nodes || roots[1] == roots[0])
        return fails(f, CATALOGUE_NO_TABLE, "%s: a table has 1 to %d nodes, and a root is one of them", table, MOST_NODES);
    size_t count = HEADER_WORDS + NODE_WORDS * (size_t)nodes;
    uint64_t *words = missing_words(count);
    uint64_t number = words ? read_words(f, table, words, count) : no_memory(f);
    if (number == 0) {
        const uint64_t header[HEADER_WORDS] = {1, roots[0], nodes, roots[1]};
        memcpy(words, header, sizeof header);
        struct salvaged s = {.from = table, .words = words, .count = count};
        number = salvage(f, &s, name, each, context);
        *dropped = number == 0 ? s.dropped : *dropped;
    }
    free(words);
    return number;
}
