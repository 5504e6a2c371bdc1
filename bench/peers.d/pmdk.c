/*
 * PMDK's btree_map, an example in the source that Debian's libpmemobj-dev carries, compiled as it is: a B-tree of order 8 over libpmemobj, a
 * transaction an insertion. A second one keeps recordings unique, in the same transaction. It has no range; that walks its nodes here.
 */
#include <btree_map.c>

#include <stdbool.h>
#include <stdlib.h>

#include "catalogue.h"
#include "files.h"
#include "peer.h"

/* Of the pool: for a code in both trees, and besides. */
#define CODE_BYTES ((size_t)320)
#define POOL_BYTES ((size_t)24 << 20)

/* Insertions that a load takes into one transaction. */
#define LOAD_BATCH ((size_t)3000)

static const char file[] = "pmdk.pool", layout[] = "peers";

struct root {
    TOID(struct btree_map) codes;
    TOID(struct btree_map) recordings;
};

struct store {
    PMEMobjpool *pool;
    struct root *root;
    bool unique;
};

static void *over_pool(const struct place *place, PMEMobjpool *pool)
{
    struct store *s = calloc(1, sizeof *s);
    if (!pool || !s)
        die("PMDK: %s", pool ? "not enough memory" : pmemobj_errormsg());
    PMEMoid root = pmemobj_root(pool, sizeof(struct root));
    *s = (struct store){pool, pmemobj_direct(root), place->unique};
    return s;
}

static void *make(const struct place *place)
{
    char path[PATH_ROOM];
    size_t bytes = (POOL_BYTES + CODE_BYTES * place->codes) >> 21 << 21;
    struct store *s = over_pool(place, pmemobj_create(path_in(path, place->folder, file), layout, bytes, 0666));
    if (btree_map_create(s->pool, &s->root->codes, NULL) != 0 || btree_map_create(s->pool, &s->root->recordings, NULL) != 0)
        die("PMDK: %s", pmemobj_errormsg());
    return s;
}

static void *open_store(const struct place *place)
{
    char path[PATH_ROOM];
    return over_pool(place, pmemobj_open(path_in(path, place->folder, file), layout));
}

static void close_store(void *store)
{
    struct store *s = store;
    pmemobj_close(s->pool);
    free(s);
}

/* btree_map itself would take a key twice. */
static bool absent(struct store *s, const struct pair *pair)
{
    return !btree_map_lookup(s->pool, s->root->codes, pair->key)
           && (!s->unique || !btree_map_lookup(s->pool, s->root->recordings, CATALOGUE_RECORDING(pair->pointer)));
}

/* Inside a transaction, which the maps' own join. A value is two words, and its second has the pointer. */
static void put(struct store *s, const struct pair *pair)
{
    btree_map_insert(s->pool, s->root->codes, pair->key, (PMEMoid){0, pair->pointer});
    if (s->unique)
        btree_map_insert(s->pool, s->root->recordings, CATALOGUE_RECORDING(pair->pointer), (PMEMoid){0, pair->key});
}

static bool insert(void *store, const struct pair *pairs, size_t count)
{
    struct store *s = store;
    volatile bool taken = true;
    TX_BEGIN(s->pool) {
        for (size_t i = 0; i < count; i++) {
            if (!absent(s, &pairs[i]))
                pmemobj_tx_abort(EEXIST);
            put(s, &pairs[i]);
        }
    } TX_ONABORT {
        taken = false;
        if (errno != EEXIST)
            die("PMDK: %s", pmemobj_errormsg());
    } TX_END
    return taken;
}

static void insert_all(struct store *s, const struct pair *pairs, size_t count)
{
    for (size_t i = 0; i < count; i += LOAD_BATCH)
        if (!insert(s, pairs + i, count - i < LOAD_BATCH ? count - i : LOAD_BATCH))
            die("PMDK: a load is refused");
}

/* It has no load of its own: transactions of many. */
static void *load(const struct place *place, const struct pair *pairs, size_t count, bool sorted)
{
    (void)sorted;
    void *store = make(place);
    insert_all(store, pairs, count);
    return store;
}

/* A pool may be copied; on a disk each step of a transaction would be waited for. */
static void *grown(const struct place *place, const struct pair *pairs, size_t count)
{
    if (place->memory)
        return load(place, pairs, count, false);
    struct place aside = *place;
    aside.folder = place->scratch;
    close_store(load(&aside, pairs, count, false));
    copy_file(aside.folder, place->folder, file);
    remove_file(aside.folder, file);
    return open_store(place);
}

static void nothing(void *store)
{
    (void)store;
}

static uint64_t find(void *store, uint64_t key)
{
    struct store *s = store;
    return btree_map_get(s->pool, s->root->codes, key).off;
}

/* The pairs from a key up, below this node, while there is room. */
static size_t walk(TOID(struct tree_map_node) node, uint64_t low, struct pair *out, size_t count)
{
    size_t found = 0;
    if (TOID_IS_NULL(node))
        return 0;
    const struct tree_map_node *n = D_RO(node);
    for (int i = 0; i <= n->n && found < count; i++) {
        if (i < n->n && n->items[i].key < low)
            continue;
        found += walk(n->slots[i], low, out + found, count - found);
        if (i < n->n && found < count)
            out[found++] = (struct pair){n->items[i].key, n->items[i].value.off};
    }
    return found;
}

static size_t range(void *store, uint64_t low, struct pair *out, size_t count)
{
    struct store *s = store;
    return walk(D_RO(s->root->codes)->root, low, out, count);
}

static int seen_one(uint64_t key, PMEMoid value, void *seen)
{
    scanned_add(seen, key, value.off);
    return 0;
}

static struct scanned scan(void *store)
{
    struct store *s = store;
    struct scanned seen = {.rising = true};
    btree_map_foreach(s->pool, s->root->codes, seen_one, &seen);
    return seen;
}

/* Objects with their headers. */
static uint64_t used(void *store)
{
    struct store *s = store;
    uint64_t bytes = 0;
    for (PMEMoid at = pmemobj_first(s->pool); !OID_IS_NULL(at); at = pmemobj_next(at))
        bytes += pmemobj_alloc_usable_size(at) + 16;
    return bytes;
}

const struct peer pmdk = {
    .name = "PMDK",
    .make = make,
    .grown = grown,
    .load = load,
    .open = open_store,
    .close = close_store,
    .insert = insert,
    .begin = nothing,
    .end = nothing,
    .find = find,
    .range = range,
    .scan = scan,
    .used = used,
    .files = {file},
};
