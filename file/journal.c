/* The journal of a file of sums: which lines the change under way stores to, what they had before, and its stores in order. */
#include "journal.h"

#include <string.h>

#include "catalogue.h"
#include "flush.h"

#define LINE_ENTRY (1 + LINE_WORDS)
#define STORE_ENTRY 2

static size_t size_of(uint64_t lines, uint64_t stores)
{
    return JOURNAL_HEAD + LINE_ENTRY * (size_t)lines + STORE_ENTRY * (size_t)stores;
}

size_t journal_size(const uint64_t *journal)
{
    return size_of(journal[JOURNAL_LINES], journal[JOURNAL_STORES]);
}

static const uint64_t *line_at(const uint64_t *journal, uint64_t at)
{
    return journal + JOURNAL_HEAD + LINE_ENTRY * at;
}

static const uint64_t *store_at(const uint64_t *journal, uint64_t at)
{
    return journal + size_of(journal[JOURNAL_LINES], at);
}

/* The entry of a line; null if the journal does not name it. */
static const uint64_t *entry_of(const uint64_t *journal, uint64_t line)
{
    for (uint64_t at = 0; at < journal[JOURNAL_LINES]; at++)
        if (line_at(journal, at)[0] == line)
            return line_at(journal, at);
    return NULL;
}

/* ---- making */

static bool is_store(const uint64_t *order)
{
    return order[0] != CATALOGUE_MARK && order[0] != CATALOGUE_BARRIER;
}

/* The line of a store, entered with the words that it has; false if there is no room. */
static bool enter_line(uint64_t *journal, const uint64_t *table, const uint64_t *order, uint64_t stores)
{
    uint64_t line = order[0] / LINE_WORDS, lines = journal[JOURNAL_LINES];
    bool known = entry_of(journal, line) != NULL;
    if (size_of(lines + !known, stores + 1) > JOURNAL_WORDS)
        return false;
    if (known)
        return true;
    uint64_t *entry = journal + size_of(lines, 0);
    entry[0] = line;
    memcpy(entry + 1, table + LINE_WORDS * line, LINE_WORDS * sizeof *entry);
    journal[JOURNAL_LINES] = lines + 1;
    return true;
}

/* The lines of the orders that there is room for: how many orders that is. */
static uint64_t enter_lines(uint64_t *journal, const uint64_t *table, const uint64_t *orders, uint64_t count)
{
    uint64_t whole = 0, lines = 0, stores = 0;
    bool room = true;
    for (uint64_t i = 0; i < count && room; i++) {
        const uint64_t *order = orders + 2 * i;
        room = !is_store(order) || enter_line(journal, table, order, stores);
        stores += room && is_store(order);
        if (room && (order[0] == CATALOGUE_MARK || i + 1 == count)) {
            whole = i + 1;
            lines = journal[JOURNAL_LINES];
        }
    }
    journal[JOURNAL_LINES] = lines;
    return whole;
}

static void enter_stores(uint64_t *journal, const uint64_t *orders, uint64_t count)
{
    uint64_t *next = journal + journal_size(journal);
    for (uint64_t i = 0; i < count; i++) {
        if (!is_store(orders + 2 * i))
            continue;
        memcpy(next, orders + 2 * i, STORE_ENTRY * sizeof *next);
        next += STORE_ENTRY;
        journal[JOURNAL_STORES]++;
    }
}

uint64_t journal_make(uint64_t *journal, uint64_t number, const uint64_t *table, const uint64_t *orders, uint64_t count)
{
    memset(journal, 0, JOURNAL_HEAD * sizeof *journal);
    journal[JOURNAL_NUMBER] = number;
    uint64_t taken = enter_lines(journal, table, orders, count);
    enter_stores(journal, orders, taken);
    return taken;
}

/* Of the first words, with the sum of the others in the sum's place. */
static uint64_t sum_of(const uint64_t *journal, const struct crc *crc)
{
    uint64_t head[JOURNAL_HEAD];
    memcpy(head, journal, sizeof head);
    head[JOURNAL_SUM] = crc->words(journal + JOURNAL_HEAD, journal_size(journal) - JOURNAL_HEAD);
    return crc->words(head, JOURNAL_HEAD);
}

void journal_finish(uint64_t *journal, const struct crc *crc, uint64_t from, uint64_t to)
{
    journal[JOURNAL_FROM] = from;
    journal[JOURNAL_TO] = to;
    journal[JOURNAL_SUM] = sum_of(journal, crc);
}

/* ---- reading */

bool journal_holds(const uint64_t *journal, const struct crc *crc)
{
    uint64_t lines = journal[JOURNAL_LINES], stores = journal[JOURNAL_STORES];
    return journal[JOURNAL_NUMBER] > 0 && lines <= JOURNAL_WORDS && stores <= JOURNAL_WORDS && size_of(lines, stores) <= JOURNAL_WORDS
           && journal[JOURNAL_SUM] == sum_of(journal, crc);
}

static bool same(const uint64_t *a, const uint64_t *b)
{
    return memcmp(a, b, LINE_WORDS * sizeof *a) == 0;
}

/* The store at that place, if it is to the line, on the line's words. */
static bool store_to(const uint64_t *journal, uint64_t at, uint64_t line, uint64_t *words)
{
    const uint64_t *store = store_at(journal, at);
    if (store[0] / LINE_WORDS != line)
        return false;
    words[store[0] % LINE_WORDS] = store[1];
    return true;
}

int journal_says(const uint64_t *journal, uint64_t line, const uint64_t *words, uint64_t *after)
{
    const uint64_t *entry = entry_of(journal, line);
    if (!entry)
        return JOURNAL_SILENT;
    memcpy(after, entry + 1, LINE_WORDS * sizeof *after);
    bool met = same(after, words);
    for (uint64_t at = 0; at < journal[JOURNAL_STORES]; at++)
        met |= store_to(journal, at, line, after) && same(after, words);
    return same(after, words) ? JOURNAL_AFTER : met ? JOURNAL_MEANWHILE : JOURNAL_NEVER;
}

const uint64_t *journal_before(const uint64_t *journal, uint64_t line)
{
    const uint64_t *entry = entry_of(journal, line);
    return entry ? entry + 1 : NULL;
}

uint64_t journal_after(const uint64_t *journal, uint64_t at, uint64_t *words)
{
    const uint64_t *entry = line_at(journal, at);
    memcpy(words, entry + 1, LINE_WORDS * sizeof *words);
    for (uint64_t i = 0; i < journal[JOURNAL_STORES]; i++)
        store_to(journal, i, entry[0], words);
    return entry[0];
}
