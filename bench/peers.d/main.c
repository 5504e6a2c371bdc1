/*
 * The same keys into ours, LMDB, SQLite and PMDK's btree_map, on one medium: a Markdown table on standard output. bench/peers builds it.
 * Every contender's answers are compared with the pairs put in before anything is timed, and once more at the end, from the files.
 */
#include <errno.h>
#include <fcntl.h>
#include <stdio.h>
#include <stdlib.h>
#include <string.h>
#include <sys/mman.h>
#include <unistd.h>

#include "bench.h"
#include "files.h"

const struct peer *const peers[PEERS] = {&ours, &lmdb, &sqlite, &pmdk};

static const struct sizes whole = {{10000, 100000, 400000}, 3, 100000, 1000, 1000, {100, 3000}, {10, 3}};
static const struct sizes quick = {{1000, 4000}, 2, 1000, 20, 20, {10, 100}, {3, 2}};

size_t to_insert(const struct sizes *s)
{
    return 4 * s->single + 2 * (s->batch[0] * s->batches[0] + s->batch[1] * s->batches[1]) + 2;
}

const struct pair *absent_pairs(const struct bench *b)
{
    return b->pairs + b->codes + to_insert(b->sizes);
}

/* ---- a size begins and ends */

void remove_files(const struct peer *peer, const char *folder)
{
    for (size_t i = 0; i < sizeof peer->files / sizeof peer->files[0] && peer->files[i]; i++)
        remove_file(folder, peer->files[i]);
}

double bytes_in_files(const struct peer *peer, const char *folder)
{
    uint64_t bytes = 0;
    /* A lock file holds nothing. */
    for (size_t i = 0; i < sizeof peer->files / sizeof peer->files[0] && peer->files[i]; i++)
        bytes += strstr(peer->files[i], "-lock") || strstr(peer->files[i], "-shm") ? 0 : file_bytes(folder, peer->files[i]);
    return (double)bytes;
}

static void begin_size(struct bench *b, const struct sizes *sizes, const struct place *place, size_t codes)
{
    size_t all = codes + to_insert(sizes) + sizes->queries;
    *b = (struct bench){.sizes = sizes, .place = *place, .codes = codes, .next = codes, .random = {SEED + codes}};
    b->place.codes = codes + to_insert(sizes);
    b->place.unique = true;
    b->pairs = draw_pairs(&b->random, all);
    b->rising = (struct pair *)words_room(2 * codes);
    memcpy(b->rising, b->pairs, codes * sizeof *b->pairs);
    sort_pairs(b->rising, codes);
    for (size_t i = 0; i < PEERS; i++)
        b->expected[i] = sum_of(b->pairs, codes);
}

/* From the files again, with all that was taken. */
void end_stores(struct bench *b)
{
    for (size_t i = 0; i < PEERS; i++) {
        peers[i]->close(b->stores[i]);
        void *again = peers[i]->open(&b->place);
        compare_scan(peers[i], again, &b->expected[i], "from the file");
        peers[i]->close(again);
        remove_files(peers[i], b->place.folder);
    }
}

static void end_size(struct bench *b)
{
    free(b->pairs);
    free(b->rising);
}

/* ---- all of a medium */

/* One size but for its loads; the nodes of ours at first. */
static size_t measure_size(struct bench *b)
{
    struct row *file = row_new("file, with room to grow", b->codes, BYTES), *used = row_new("of it in use", b->codes, BYTES);
    for (size_t i = 0; i < PEERS; i++) {
        b->stores[i] = peers[i]->grown(&b->place, b->pairs, b->codes);
        file->figure[i] = bytes_in_files(peers[i], b->place.folder);
        used->figure[i] = peers[i]->used ? (double)peers[i]->used(b->stores[i]) : file->figure[i];
    }
    size_t nodes = ours_nodes(b->stores[0]);
    fprintf(stderr, "peers: %s codes, ours has %s nodes\n", text_count(b->codes), text_count(nodes));
    compare_all(b);
    measure_reading(b);
    measure_inserting(b);
    end_stores(b);
    return nodes;
}

/* Medians of waits for one page: written and synced, and stored to in a mapping. */
static void print_waits(const struct place *place)
{
    enum { WAITS = 200, PAGE = 4096 };
    static char page[PAGE];
    char path[PATH_ROOM];
    double written[WAITS], stored[WAITS];
    size_t bytes;
    write_file(place->folder, "page", page, PAGE);
    volatile char *at = map_file(place->folder, "page", &bytes);
    int file = open(path_in(path, place->folder, "page"), O_RDWR | O_CLOEXEC);
    for (size_t i = 0; i < WAITS; i++) {
        double start = now();
        if (pwrite(file, page, PAGE, 0) != PAGE || fdatasync(file) != 0)
            die("%s: %s", path, strerror(errno));
        written[i] = now() - start;
        start = now();
        at[i]++;
        if (msync((void *)at, PAGE, MS_SYNC) != 0)
            die("%s: %s", path, strerror(errno));
        stored[i] = now() - start;
    }
    munmap((void *)at, bytes);
    close(file);
    remove_file(place->folder, "page");
    printf("A page written and waited for (fdatasync): %s; stored to and waited for (msync): %s. Ours makes a line last by: %s.\n\n",
           text_figure(median(written, WAITS), NANOSECONDS), text_figure(median(stored, WAITS), NANOSECONDS), ours_flush(place));
}

static void print_target(const char *what, const char *row, size_t codes, unsigned most)
{
    const struct row *r = row_named(row, codes), *all = row_named(LOAD_ANY, codes);
    if (r->figure[0] == 0)
        return;
    printf("| %s | %s%s | %s | %s%s | %u |\n", what, r->over[0] ? "over " : "", text_figure(r->figure[0], NANOSECONDS),
           text_figure(all->figure[2], NANOSECONDS), r->over[0] ? "over " : "", text_ratio(r->figure[0], all->figure[2]), most);
}

static void print_targets(const struct bench *b)
{
    printf("%s random codes, as they come, beside SQLite's one transaction of the same rows\n\n", text_count(b->codes));
    printf("| | ours | SQLite | ours / SQLite | at most |\n|---|---:|---:|---:|---:|\n");
    print_target("packed", LOAD_ANY, b->codes, 10);
    print_target("in batches", load_in_batches(b->sizes), b->codes, 100);
    char by_file[80];
    snprintf(by_file, sizeof by_file, "%s" BY_FILE, load_in_batches(b->sizes));
    if (!b->place.memory)
        print_target("in batches, each a new file", by_file, b->codes, 100);
    printf("\n");
}

static void print_nodes(const struct sizes *sizes, const size_t *nodes)
{
    printf("Nodes of ours in use:");
    for (size_t i = 0; i < sizes->sizes; i++)
        printf("%s %s of %s codes", i > 0 ? "," : "", text_count(nodes[i]), text_count(sizes->codes[i]));
    printf(".\n\n");
}

static void print_rows(const struct place *place)
{
    const char *names[PEERS];
    for (size_t i = 0; i < PEERS; i++)
        names[i] = peers[i]->name;
    rows_print(place->memory ? "**In memory**" : "**On disk**", names);
}

/* The sizes, then loads of the largest; or these alone. */
static void measure(const struct sizes *sizes, const struct place *place, bool loads)
{
    struct bench b;
    size_t nodes[MOST_SIZES], last = sizes->sizes - 1;
    for (size_t i = 0; i < last && !loads; i++) {
        begin_size(&b, sizes, place, sizes->codes[i]);
        nodes[i] = measure_size(&b);
        end_size(&b);
    }
    begin_size(&b, sizes, place, sizes->codes[last]);
    if (!loads)
        nodes[last] = measure_size(&b);
    measure_loads(&b);
    print_rows(place);
    if (!loads)
        print_nodes(sizes, nodes);
    print_waits(place);
    print_targets(&b);
    end_size(&b);
}

int main(int count, char **words)
{
    bool small = false, loads = false;
    int at = 1;
    for (; at < count && words[at][0] == '-'; at++) {
        small = small || strcmp(words[at], "--quick") == 0;
        loads = loads || strcmp(words[at], "--loads") == 0;
    }
    if (count - at != 3 || (strcmp(words[at], "disk") != 0 && strcmp(words[at], "memory") != 0)) {
        fprintf(stderr, "usage: peers [--quick] [--loads] disk|memory FOLDER SCRATCH\n");
        return 2;
    }
    struct place place = {.folder = words[at + 1], .scratch = words[at + 2], .memory = strcmp(words[at], "memory") == 0};
    measure(small ? &quick : &whole, &place, loads);
    return 0;
}
