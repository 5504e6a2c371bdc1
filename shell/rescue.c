/* Salvage: a new table with what can be read of a damaged one. */
#include "rescue.h"

#include <errno.h>
#include <inttypes.h>
#include <stdio.h>
#include <stdlib.h>
#include <string.h>
#include <sys/stat.h>

#include "contents.h"
#include "text.h"
#include "tree.h"

#define MOST_LEVEL 15

/* The slots that were dropped, to be printed once the new file is there. */
struct drops {
    struct catalogue_file_drop *of;
    size_t count, room;
};

static int take_drop(void *context, const struct catalogue_file_drop *drop)
{
    struct drops *d = context;
    if (d->count == d->room) {
        size_t room = 2 * d->room + 64;
        struct catalogue_file_drop *of = realloc(d->of, room * sizeof *of);
        if (!of)
            return 1;
        d->of = of;
        d->room = room;
    }
    d->of[d->count++] = *drop;
    return 0;
}

static void say_dropped(const struct catalogue_file_drop *d)
{
    static const char *const reasons[] = {
        [CATALOGUE_DROPPED_RANGE] = "recording number or class out of range",
        [CATALOGUE_DROPPED_KEY] = "code already kept",
        [CATALOGUE_DROPPED_RECORDING] = "recording already kept",
    };
    char code[KEY_TEXT], pointer[POINTER_TEXT];
    printf("dropped %s,%s (node %" PRIu64 ", slot %" PRIu64 "): %s\n", key_text(d->key, code),
           pointer_text(CATALOGUE_RECORDING(d->pointer), CATALOGUE_CLASS(d->pointer), pointer), d->node, d->slot, reasons[d->reason]);
}

static void say_salvaged(const char *name, const struct drops *dropped, const uint64_t made[CATALOGUE_CHECK_WORDS])
{
    for (size_t i = 0; i < dropped->count; i++)
        say_dropped(&dropped->of[i]);
    uint64_t nodes = made[CATALOGUE_CHECK_NODES], codes = codes_in(made), used = nodes_in(made);
    printf("made %s with %" PRIu64 " node%s: %" PRIu64 " code%s kept, %zu slot%s dropped, %" PRIu64 " node%s used\n", name, nodes,
           nodes == 1 ? "" : "s", codes, codes == 1 ? "" : "s", dropped->count, dropped->count == 1 ? "" : "s", used, used == 1 ? "" : "s");
    collections_print(made);
}

/* What the new file has. */
static int read_made(const char *name, uint64_t made[CATALOGUE_CHECK_WORDS])
{
    struct opened o;
    const struct opening how = {.collection = 1};
    int status = opened_begin(&o, name, false, &how);
    uint64_t number = status == 0 ? catalogue_file_check(o.file, made) : 0;
    if (number != 0)
        status = opened_fails(&o, number, "");
    opened_end(&o);
    return status;
}

/* After the library's answer: what was dropped and kept. */
static int finish(struct drops *dropped, int status, const char *name)
{
    uint64_t made[CATALOGUE_CHECK_WORDS];
    if (status == 0)
        status = read_made(name, made);
    if (status == 0)
        say_salvaged(name, dropped, made);
    free(dropped->of);
    return status;
}

int salvage(struct opened *o, const char *name)
{
    struct drops dropped = {0};
    uint64_t count = 0, number = catalogue_file_salvage(o->file, name, take_drop, &dropped, &count);
    if (number == CATALOGUE_FILE_STOPPED)
        fail(0, "not enough memory for what %s lost", o->table.name);
    return finish(&dropped, number == 0 ? 0 : opened_fails(o, number, ""), name);
}

/* ---- a file that is no table any more */

/* The first words of a file, as far as it has them, and its length; false if it cannot be read. */
static bool read_header(const char *name, uint64_t header[HEADER_WORDS], uint64_t *bytes)
{
    struct stat about;
    FILE *f = fopen(name, "rb");
    bool there = f && fstat(fileno(f), &about) == 0 && S_ISREG(about.st_mode);
    if (there) {
        *bytes = (uint64_t)about.st_size;
        memset(header, 0, HEADER_WORDS * sizeof *header);
        size_t read = fread(header, sizeof *header, HEADER_WORDS, f);
        there = read <= HEADER_WORDS && !ferror(f);
    }
    if (f)
        fclose(f);
    return there;
}

/* The node on the highest level that a tree may have: the root, unless it is damaged; 0 if none is read. */
static uint64_t highest_node(const char *name, uint64_t nodes)
{
    uint64_t node[NODE_WORDS], found = 0, level = 0;
    FILE *f = fopen(name, "rb");
    if (!f || fseek(f, HEADER_WORDS * sizeof *node, SEEK_SET) != 0)
        nodes = 0;
    for (uint64_t n = 1; n <= nodes && fread(node, sizeof *node, NODE_WORDS, f) == NODE_WORDS; n++)
        if (node[LEVEL] <= MOST_LEVEL && (found == 0 || node[LEVEL] > level)) {
            found = n;
            level = node[LEVEL];
        }
    if (f)
        fclose(f);
    return found;
}

/* What is not given is the header's, or the length's. */
static int complete(const char *table, struct rescue *how)
{
    uint64_t header[HEADER_WORDS], bytes;
    if (!read_header(table, header, &bytes))
        return fail(BAD_FILE, "%s cannot be read: %s", table, errno ? strerror(errno) : "not an ordinary file");
    if (!how->nodes)
        how->nodes = bytes < HEADER_WORDS * sizeof *header ? 0 : (bytes / sizeof *header - HEADER_WORDS) / NODE_WORDS;
    if (!how->root && header[FIRST_ROOT] > 0 && header[FIRST_ROOT] <= how->nodes)
        how->root = header[FIRST_ROOT];
    if (!how->loan_root_given && header[SECOND_ROOT] <= how->nodes && header[SECOND_ROOT] != how->root)
        how->loan_root = header[SECOND_ROOT];
    if (how->root)
        return 0;
    return fail(CATALOGUE_NO_TABLE, "the header of %s names no root: say it with --root; the highest node is %" PRIu64, table,
                highest_node(table, how->nodes));
}

int rescue(const char *table, struct rescue how, const char *name)
{
    struct drops dropped = {0};
    errno = 0;
    int status = complete(table, &how);
    if (status != 0)
        return status;
    catalogue_file *f = catalogue_file_new();
    const uint64_t roots[2] = {how.root, how.loan_root};
    uint64_t count = 0;
    status = file_fails(f, f ? catalogue_file_rescue(f, table, how.nodes, roots, name, take_drop, &dropped, &count) : CATALOGUE_FILE_NO_MEMORY);
    catalogue_file_free(f);
    return finish(&dropped, status, name);
}
