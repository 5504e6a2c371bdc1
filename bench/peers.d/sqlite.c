/* SQLite: one table with the key as its rowid and an index of recordings that keeps them unique; a write-ahead log, synced at each commit. */
#include <sqlite3.h>
#include <stdlib.h>

#include "catalogue.h"
#include "files.h"
#include "peer.h"

static const char file[] = "sqlite.db";

struct store {
    sqlite3 *db;
    sqlite3_stmt *insert, *find, *range, *begin, *commit, *rollback;
};

static void want(bool right, const struct store *s, const char *what)
{
    if (!right)
        die("SQLite: %s: %s", what, s->db ? sqlite3_errmsg(s->db) : "no memory");
}

static void execute(struct store *s, const char *sql)
{
    want(sqlite3_exec(s->db, sql, NULL, NULL, NULL) == SQLITE_OK, s, sql);
}

static sqlite3_stmt *prepare(struct store *s, const char *sql)
{
    sqlite3_stmt *made;
    want(sqlite3_prepare_v3(s->db, sql, -1, SQLITE_PREPARE_PERSISTENT, &made, NULL) == SQLITE_OK, s, sql);
    return made;
}

/* A statement that gives no rows. */
static void run(struct store *s, sqlite3_stmt *statement)
{
    want(sqlite3_step(statement) == SQLITE_DONE, s, sqlite3_sql(statement));
    sqlite3_reset(statement);
}

static void *open_store(const struct place *place)
{
    char path[PATH_ROOM];
    struct store *s = calloc(1, sizeof *s);
    if (!s)
        die("not enough memory");
    want(sqlite3_open(path_in(path, place->folder, file), &s->db) == SQLITE_OK, s, "open");
    execute(s, "PRAGMA journal_mode = WAL; PRAGMA synchronous = FULL; PRAGMA cache_size = -65536; PRAGMA mmap_size = 268435456");
    execute(s, place->unique
                   ? "CREATE TABLE IF NOT EXISTS codes (key INTEGER PRIMARY KEY, recording INTEGER NOT NULL UNIQUE, class INTEGER NOT NULL)"
                   : "CREATE TABLE IF NOT EXISTS codes (key INTEGER PRIMARY KEY, recording INTEGER NOT NULL, class INTEGER NOT NULL)");
    s->insert = prepare(s, "INSERT INTO codes VALUES (?1, ?2, ?3)");
    s->find = prepare(s, "SELECT recording, class FROM codes WHERE key = ?1");
    s->range = prepare(s, "SELECT key, recording, class FROM codes WHERE key >= ?1 ORDER BY key LIMIT ?2");
    s->begin = prepare(s, "BEGIN");
    s->commit = prepare(s, "COMMIT");
    s->rollback = prepare(s, "ROLLBACK");
    return s;
}

static void close_store(void *store)
{
    struct store *s = store;
    sqlite3_stmt *all[] = {s->insert, s->find, s->range, s->begin, s->commit, s->rollback};
    for (size_t i = 0; i < sizeof all / sizeof all[0]; i++)
        sqlite3_finalize(all[i]);
    want(sqlite3_close(s->db) == SQLITE_OK, s, "close");
    free(s);
}

/* False if a key or a recording is there already. */
static bool insert_row(struct store *s, const struct pair *pair)
{
    sqlite3_bind_int64(s->insert, 1, (sqlite3_int64)pair->key);
    sqlite3_bind_int64(s->insert, 2, (sqlite3_int64)CATALOGUE_RECORDING(pair->pointer));
    sqlite3_bind_int64(s->insert, 3, (sqlite3_int64)CATALOGUE_CLASS(pair->pointer));
    int status = sqlite3_step(s->insert);
    sqlite3_reset(s->insert);
    want(status == SQLITE_DONE || status == SQLITE_CONSTRAINT, s, "insert");
    return status == SQLITE_DONE;
}

/* A statement alone is a transaction of its own. */
static bool insert(void *store, const struct pair *pairs, size_t count)
{
    struct store *s = store;
    if (count == 1)
        return insert_row(s, pairs);
    run(s, s->begin);
    size_t i = 0;
    while (i < count && insert_row(s, &pairs[i]))
        i++;
    run(s, i == count ? s->commit : s->rollback);
    return i == count;
}

/* One transaction; afterwards the log goes into the file, as it would before long. */
static void *load(const struct place *place, const struct pair *pairs, size_t count, bool sorted)
{
    (void)sorted;
    struct store *s = open_store(place);
    if (!insert(s, pairs, count))
        die("SQLite: a load is refused");
    return s;
}

static void *grown(const struct place *place, const struct pair *pairs, size_t count)
{
    struct store *s = load(place, pairs, count, false);
    execute(s, "PRAGMA wal_checkpoint(TRUNCATE)");
    return s;
}

static void begin(void *store)
{
    struct store *s = store;
    run(s, s->begin);
}

static void end(void *store)
{
    struct store *s = store;
    run(s, s->commit);
}

static uint64_t column(sqlite3_stmt *statement, int number)
{
    return (uint64_t)sqlite3_column_int64(statement, number);
}

static uint64_t find(void *store, uint64_t key)
{
    struct store *s = store;
    sqlite3_bind_int64(s->find, 1, (sqlite3_int64)key);
    int status = sqlite3_step(s->find);
    want(status == SQLITE_ROW || status == SQLITE_DONE, s, "find");
    uint64_t pointer = status == SQLITE_ROW ? column(s->find, 0) | column(s->find, 1) << 56 : 0;
    sqlite3_reset(s->find);
    return pointer;
}

/* The row that the range statement stands on; false at its end. */
static bool next_row(struct store *s, struct pair *pair)
{
    int status = sqlite3_step(s->range);
    want(status == SQLITE_ROW || status == SQLITE_DONE, s, "range");
    if (status == SQLITE_ROW)
        *pair = (struct pair){column(s->range, 0), column(s->range, 1) | column(s->range, 2) << 56};
    return status == SQLITE_ROW;
}

/* A limit of -1 is none. */
static void range_from(struct store *s, uint64_t low, sqlite3_int64 most)
{
    sqlite3_reset(s->range);
    sqlite3_bind_int64(s->range, 1, (sqlite3_int64)low);
    sqlite3_bind_int64(s->range, 2, most);
}

static size_t range(void *store, uint64_t low, struct pair *out, size_t count)
{
    struct store *s = store;
    size_t found = 0;
    range_from(s, low, (sqlite3_int64)count);
    while (found < count && next_row(s, &out[found]))
        found++;
    sqlite3_reset(s->range);
    return found;
}

static struct scanned scan(void *store)
{
    struct store *s = store;
    struct scanned seen = {.rising = true};
    struct pair pair;
    range_from(s, 0, -1);
    while (next_row(s, &pair))
        scanned_add(&seen, pair.key, pair.pointer);
    sqlite3_reset(s->range);
    return seen;
}

const struct peer sqlite = {
    .name = "SQLite",
    .make = open_store,
    .grown = grown,
    .load = load,
    .open = open_store,
    .close = close_store,
    .insert = insert,
    .begin = begin,
    .end = end,
    .find = find,
    .range = range,
    .scan = scan,
    .files = {file, "sqlite.db-wal", "sqlite.db-shm"},
};
