/* LMDB: keys as integers in one database, and, for recordings to be unique, recordings in a second one, both in one transaction. */
#include <lmdb.h>
#include <stdlib.h>
#include <string.h>

#include "catalogue.h"
#include "files.h"
#include "peer.h"

/* Address space for the map, of which the file takes what is used. */
#define MAP_BYTES ((size_t)1 << 30)

static const char file[] = "lmdb.mdb";

struct store {
    MDB_env *env;
    MDB_dbi codes;
    MDB_dbi recordings;
    bool unique;
    MDB_txn *reading;
    MDB_cursor *cursor;
};

static void want(int status, const char *what)
{
    if (status != MDB_SUCCESS)
        die("LMDB: %s: %s", what, mdb_strerror(status));
}

static MDB_val word(uint64_t *w)
{
    return (MDB_val){sizeof *w, w};
}

static uint64_t word_of(const MDB_val *v)
{
    uint64_t w;
    memcpy(&w, v->mv_data, sizeof w);
    return w;
}

static void *open_store(const struct place *place)
{
    char path[PATH_ROOM];
    struct store *s = calloc(1, sizeof *s);
    MDB_txn *txn;
    if (!s)
        die("not enough memory");
    s->unique = place->unique;
    want(mdb_env_create(&s->env), "environment");
    want(mdb_env_set_mapsize(s->env, MAP_BYTES), "map size");
    want(mdb_env_set_maxdbs(s->env, 2), "databases");
    want(mdb_env_open(s->env, path_in(path, place->folder, file), MDB_NOSUBDIR, 0666), "open");
    want(mdb_txn_begin(s->env, NULL, 0, &txn), "begin");
    want(mdb_dbi_open(txn, "codes", MDB_CREATE | MDB_INTEGERKEY, &s->codes), "codes");
    want(mdb_dbi_open(txn, "recordings", MDB_CREATE | MDB_INTEGERKEY, &s->recordings), "recordings");
    want(mdb_txn_commit(txn), "commit");
    want(mdb_txn_begin(s->env, NULL, MDB_RDONLY, &s->reading), "begin reading");
    want(mdb_cursor_open(s->reading, s->codes, &s->cursor), "cursor");
    mdb_txn_reset(s->reading);
    return s;
}

static void close_store(void *store)
{
    struct store *s = store;
    mdb_cursor_close(s->cursor);
    mdb_txn_abort(s->reading);
    mdb_env_close(s->env);
    free(s);
}

static bool put(MDB_txn *txn, MDB_dbi dbi, uint64_t key, uint64_t value, unsigned flags)
{
    MDB_val k = word(&key), v = word(&value);
    int status = mdb_put(txn, dbi, &k, &v, flags);
    if (status != MDB_KEYEXIST)
        want(status, "put");
    return status == MDB_SUCCESS;
}

static bool put_all(struct store *s, const struct pair *pairs, size_t count, unsigned flags)
{
    MDB_txn *txn;
    bool taken = true;
    want(mdb_txn_begin(s->env, NULL, 0, &txn), "begin");
    for (size_t i = 0; i < count && taken; i++) {
        if (s->unique)
            taken = put(txn, s->recordings, CATALOGUE_RECORDING(pairs[i].pointer), pairs[i].key, MDB_NOOVERWRITE);
        taken = taken && put(txn, s->codes, pairs[i].key, pairs[i].pointer, flags);
    }
    if (taken)
        want(mdb_txn_commit(txn), "commit");
    else
        mdb_txn_abort(txn);
    return taken;
}

static bool insert(void *store, const struct pair *pairs, size_t count)
{
    return put_all(store, pairs, count, MDB_NOOVERWRITE);
}

/* One transaction; keys that rise are appended. */
static void *load(const struct place *place, const struct pair *pairs, size_t count, bool sorted)
{
    void *store = open_store(place);
    if (!put_all(store, pairs, count, sorted ? MDB_APPEND : MDB_NOOVERWRITE))
        die("LMDB: a load is refused");
    return store;
}

static void *grown(const struct place *place, const struct pair *pairs, size_t count)
{
    return load(place, pairs, count, false);
}

static void begin(void *store)
{
    struct store *s = store;
    want(mdb_txn_renew(s->reading), "renew");
    want(mdb_cursor_renew(s->reading, s->cursor), "cursor");
}

static void end(void *store)
{
    struct store *s = store;
    mdb_txn_reset(s->reading);
}

static uint64_t find(void *store, uint64_t key)
{
    struct store *s = store;
    MDB_val k = word(&key), v;
    int status = mdb_get(s->reading, s->codes, &k, &v);
    if (status == MDB_NOTFOUND)
        return 0;
    want(status, "get");
    return word_of(&v);
}

static size_t range(void *store, uint64_t low, struct pair *out, size_t count)
{
    struct store *s = store;
    MDB_val k = word(&low), v;
    size_t found = 0;
    int status = mdb_cursor_get(s->cursor, &k, &v, MDB_SET_RANGE);
    while (found < count && status == MDB_SUCCESS) {
        out[found++] = (struct pair){word_of(&k), word_of(&v)};
        if (found < count)
            status = mdb_cursor_get(s->cursor, &k, &v, MDB_NEXT);
    }
    if (status != MDB_NOTFOUND)
        want(status, "range");
    return found;
}

static struct scanned scan(void *store)
{
    struct store *s = store;
    struct scanned seen = {.rising = true};
    MDB_val k, v;
    int status = mdb_cursor_get(s->cursor, &k, &v, MDB_FIRST);
    for (; status == MDB_SUCCESS; status = mdb_cursor_get(s->cursor, &k, &v, MDB_NEXT))
        scanned_add(&seen, word_of(&k), word_of(&v));
    if (status != MDB_NOTFOUND)
        want(status, "scan");
    return seen;
}

const struct peer lmdb = {
    .name = "LMDB",
    .make = open_store,
    .grown = grown,
    .load = load,
    .open = open_store,
    .close = close_store,
    .insert = insert,
    .begin = begin,
    .end = end,
    .find = find,
    .range = range,
    .scan = scan,
    .files = {file, "lmdb.mdb-lock"},
};
