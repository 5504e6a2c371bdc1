/* Which of the known mistakes a list that the judge refuses has: read off the order with which it fails. */
#include "mistakes.h"

#include <stdlib.h>
#include <string.h>

#include "catalogue.h"
#include "pool.h"
#include "tree.h"

enum known { SHIFT_ORDER, ONE_MOVEMENT, FLUSH_AT_END, LINKED_EARLY, FIRST_KEY, EQUAL_KEYS, TIDIED, NO_FLUSH, NOT_FINISHED, OTHER };

static const struct mistake known[] = {
    [SHIFT_ORDER] = {"shift order", "Key and pointer of a slot move in an order in which an entry vanishes, or leads elsewhere, halfway."},
    [ONE_MOVEMENT] = {"one movement", "The upper half of a node is forgotten before another node shows it: a split is not one movement."},
    [FLUSH_AT_END] = {"flush at the end", "Nothing is flushed before the end: a late line may reach memory before an early one."},
    [LINKED_EARLY] = {"linked before flushed", "A node is linked before all of it is in memory."},
    [FIRST_KEY] = {"first key", "A sibling is judged by its fence, and the new node has none: its first key does not count."},
    [EQUAL_KEYS] = {"equal keys", "A slot is hidden by a pointer equal to the one before it; equal keys hide nothing."},
    [TIDIED] = {"a search that tidies", "A slot that was hidden for a moment is closed while the insertion still needs it: a search must never write."},
    [NO_FLUSH] = {"a flush is missing", "Two lines are dirty at once: memory may get the later one without the earlier."},
    [NOT_FINISHED] = {"not finished", "Nothing is lost, and the change is not there at the end, or not in memory for certain."},
    [OTHER] = {"another", "It is none of the known mistakes."},
};

struct looking {
    const struct table *table;
    const struct change *change;
    const uint64_t *orders;
    size_t total, count;
    uint64_t *before, *now; /* the working copy before the order that fails, and after it */
};

static uint64_t node_of(uint64_t word)
{
    return (word - HEADER_WORDS) / NODE_WORDS + 1;
}

static uint64_t node_word(uint64_t node, uint64_t within)
{
    return HEADER_WORDS + NODE_WORDS * (node - 1) + within;
}

static bool is_node(const struct looking *l, uint64_t node)
{
    return node >= 1 && node <= l->table->base[NODE_COUNT];
}

static bool is_dirty(const struct looking *l, uint64_t line)
{
    for (size_t i = l->count; i-- > 0;) {
        const uint64_t *order = l->orders + 2 * i;
        if (order[0] == CATALOGUE_MARK && order[1] == line)
            return false;
        if (order_stores(order) && order[0] / LINE_WORDS == line)
            return true;
    }
    return false;
}

static size_t dirty_lines(const struct looking *l, uint64_t from, uint64_t to)
{
    size_t count = 0;
    for (uint64_t line = from; line < to; line++)
        count += is_dirty(l, line);
    return count;
}

/* No store comes after the first flush. */
static bool flushes_at_end(const struct looking *l)
{
    bool flushed = false, stored_after = false;
    for (size_t i = 0; i < l->total; i++) {
        flushed = flushed || l->orders[2 * i] == CATALOGUE_MARK;
        stored_after = stored_after || (flushed && order_stores(l->orders + 2 * i));
    }
    return !stored_after;
}

/* The node that a store links: by the header, as a sibling, as left, or by a pointer above the leaves; 0 for none. */
static uint64_t linked(const struct looking *l, const uint64_t *order)
{
    if (order[0] < HEADER_WORDS)
        return (order[0] == FIRST_ROOT || order[0] == SECOND_ROOT) && is_node(l, order[1]) ? order[1] : 0;
    uint64_t within = (order[0] - HEADER_WORDS) % NODE_WORDS, inner = l->now[node_word(node_of(order[0]), LEVEL)] > 0;
    bool links = within == SIBLING || (within == LEFT && inner) || (within >= 8 && within % 2 == 1 && inner);
    return links && is_node(l, order[1]) ? order[1] : 0;
}

static enum known of_link(const struct looking *l, uint64_t node)
{
    uint64_t first = node_word(node, 0) / LINE_WORDS;
    if (dirty_lines(l, first, first + NODE_WORDS / LINE_WORDS) > 0)
        return LINKED_EARLY;
    uint64_t fence = l->now[node_word(node, FENCE)], key = l->now[node_word(node, 8)];
    return l->now[node_word(node, 9)] != 0 && fence != key ? FIRST_KEY : LINKED_EARLY;
}

/* A leaf's slot was hidden, and an insertion's list closes it. */
static bool closes_hidden(const struct looking *l)
{
    uint64_t *now = room_of(l->table->words, sizeof *now);
    bool closed = false;
    memcpy(now, l->table->base, l->table->words * sizeof *now);
    for (size_t i = 0; i < l->count; i++) {
        const uint64_t *order = l->orders + 2 * i;
        if (!order_stores(order))
            continue;
        uint64_t within = order[0] < HEADER_WORDS ? 0 : (order[0] - HEADER_WORDS) % NODE_WORDS;
        uint64_t left = within == 9 ? now[order[0] - 9] : within > 9 ? now[order[0] - 2] : 0;
        bool hidden = within >= 9 && within % 2 == 1 && now[order[0]] != 0 && now[order[0]] == left;
        closed = closed || (l->change->kind == ADD && hidden && order[1] == 0);
        now[order[0]] = order[1];
    }
    free(now);
    return closed;
}

static enum known of_slot(const struct looking *l, const uint64_t *order)
{
    uint64_t within = (order[0] - HEADER_WORDS) % NODE_WORDS, node = node_of(order[0]);
    if (closes_hidden(l))
        return TIDIED;
    if (within % 2 == 0)
        return within > 8 && l->now[order[0] - 2] == order[1] && l->change->kind == REMOVE ? EQUAL_KEYS : SHIFT_ORDER;
    bool cut_off = order[1] == 0 && within < NODE_WORDS - 2 && l->before[order[0] + 2] != 0;
    bool unlinked = l->now[node_word(node, SIBLING)] == l->table->base[node_word(node, SIBLING)];
    return cut_off && unlinked ? ONE_MOVEMENT : SHIFT_ORDER;
}

/* The codes of before are all there, so that only the change is missing. */
static bool nothing_lost(const struct looking *l)
{
    uint64_t recording, access, next, higher, room = 2 * 11 * (l->table->words / NODE_WORDS), count = 0, more;
    uint64_t *pairs = room_of(room, sizeof *pairs);
    bool all = catalogue_list(l->table->base, l->table->words, l->table->collection, 0, UINT64_MAX, pairs, room, &count, &more) == 0;
    for (uint64_t i = 0; all && i < count; i++)
        if (pairs[2 * i] != l->change->key)
            all = catalogue_search(l->now, l->table->words, l->table->collection, pairs[2 * i], &recording, &access, &next, &higher) == 0
                  && (access << 56 | recording) == pairs[2 * i + 1];
    free(pairs);
    return all;
}

static enum known find_out(const struct looking *l)
{
    const uint64_t *order = l->count > 0 ? l->orders + 2 * (l->count - 1) : NULL;
    size_t dirty = dirty_lines(l, 0, l->table->words / LINE_WORDS);
    if (dirty >= 2 && flushes_at_end(l))
        return FLUSH_AT_END;
    if (dirty >= 2) {
        uint64_t node = order_stores(order) ? linked(l, order) : 0;
        return node != 0 && of_link(l, node) == LINKED_EARLY ? LINKED_EARLY : NO_FLUSH;
    }
    if (l->count == l->total && nothing_lost(l))
        return NOT_FINISHED;
    if (!order || !order_stores(order))
        return OTHER;
    uint64_t node = linked(l, order);
    if (node != 0)
        return of_link(l, node);
    bool slot = order[0] >= HEADER_WORDS && (order[0] - HEADER_WORDS) % NODE_WORDS >= 8;
    return slot ? of_slot(l, order) : OTHER;
}

const struct mistake *mistake_of(const struct table *t, const struct change *c, const uint64_t *orders, size_t total, uint64_t count)
{
    struct looking l = {.table = t, .change = c, .orders = orders, .total = total, .count = count};
    l.before = room_of(t->words, sizeof *l.before);
    l.now = room_of(t->words, sizeof *l.now);
    memcpy(l.now, t->base, t->words * sizeof *l.now);
    for (size_t i = 0; i < count; i++) {
        if (i + 1 == count)
            memcpy(l.before, l.now, t->words * sizeof *l.now);
        if (order_stores(orders + 2 * i))
            l.now[orders[2 * i]] = orders[2 * i + 1];
    }
    enum known found = find_out(&l);
    free(l.before);
    free(l.now);
    return &known[found];
}
