/* The right list nearest to a list that somebody drew, and what each difference between the two breaks. The judge decides; nothing is guessed. */
#include "nearest.h"

#include <stdlib.h>
#include <string.h>

#include "catalogue.h"
#include "judge.h"
#include "pool.h"
#include "tree.h"

#define ORDER_BYTES (2 * sizeof(uint64_t))

/* Times that a list is mended, and lists that are judged for that. */
#define MOST_MENDED 24
#define MOST_JUDGED 1200

/* Each of these checks the whole table: larger ones are compared with the library's lists alone. */
#define MOST_NODES_MENDED 64
#define MOST_ORDERS_MENDED 300

/* ---- lists */

static bool same_order(const uint64_t *a, const uint64_t *b)
{
    return a[0] == b[0] && a[1] == b[1];
}

static bool has_unflushed(const uint64_t *orders, size_t count, uint64_t line)
{
    while (count-- > 0) {
        const uint64_t *order = orders + 2 * count;
        if (order[0] == CATALOGUE_MARK && order[1] == line)
            return false;
        if (order_stores(order) && order[0] / LINE_WORDS == line)
            return true;
    }
    return false;
}

size_t short_list(const struct table *t, const struct change *planned, uint64_t *orders)
{
    uint64_t *now = room_of(t->words, sizeof *now);
    size_t count = 0;
    memcpy(now, t->base, t->words * sizeof *now);
    for (size_t i = 0; i < change_orders(planned); i++) {
        const uint64_t *order = planned->orders + 2 * i;
        bool needed = order_stores(order) ? now[order[0]] != order[1] : order[0] == CATALOGUE_MARK && has_unflushed(orders, count, order[1]);
        if (needed)
            memcpy(orders + 2 * count++, order, ORDER_BYTES);
        if (order_stores(order))
            now[order[0]] = order[1];
    }
    free(now);
    return count;
}

/* By the two lists' places, the length of the longest part that what follows there shares: a table of (count + 1) rows. */
static uint16_t *shared_parts(const uint64_t *a, size_t count, const uint64_t *b, size_t other)
{
    size_t row = other + 1;
    uint16_t *best = room_of((count + 1) * row, sizeof *best);
    for (size_t i = count; i-- > 0;)
        for (size_t k = other; k-- > 0;) {
            uint16_t down = best[(i + 1) * row + k], right = best[i * row + k + 1];
            best[i * row + k] = same_order(a + 2 * i, b + 2 * k) ? best[(i + 1) * row + k + 1] + 1 : down > right ? down : right;
        }
    return best;
}

/* Orders of either list that the other has not in the same order. */
static size_t distance(const uint64_t *a, size_t count, const uint64_t *b, size_t other)
{
    uint16_t *best = shared_parts(a, count, b, other);
    size_t shared = best[0];
    free(best);
    return count + other - 2 * shared;
}

/* ---- mending: one order inserted, left out or moved, as long as the first count that fails rises */

struct mending {
    const struct table *table;
    const struct change *change;
    uint64_t *image;
    uint64_t *list, *tried, *best; /* with room for MOST_MENDED orders more */
    size_t count, tried_count, best_count;
    uint64_t fails, best_fails; /* UINT64_MAX once the judge says yes */
    size_t judged;
};

static uint64_t first_failure(struct mending *m, const uint64_t *orders, size_t count)
{
    uint64_t fails = 0, number = judge_count(m->table, m->change, orders, count, m->image, &fails);
    return number == 0 ? UINT64_MAX : number == CATALOGUE_NO ? fails : 0;
}

/* The list without order `from` (or with all, for count) and with an order put in at `to`. */
static void edit(struct mending *m, size_t from, size_t to, const uint64_t *order)
{
    size_t n = 0;
    for (size_t i = 0; i <= m->count; i++) {
        if (i == to && order)
            memcpy(m->tried + 2 * n++, order, ORDER_BYTES);
        if (i < m->count && i != from)
            memcpy(m->tried + 2 * n++, m->list + 2 * i, ORDER_BYTES);
    }
    m->tried_count = n;
}

/* True once nothing more need be tried. */
static bool try_edit(struct mending *m, size_t from, size_t to, const uint64_t *order)
{
    edit(m, from, to, order);
    uint64_t fails = first_failure(m, m->tried, m->tried_count);
    m->judged++;
    /* A count is moved by the order that was put in. */
    uint64_t gain = fails == UINT64_MAX ? fails : fails + (from < m->count && from < fails) - (order && to < fails);
    if (gain > m->best_fails) {
        m->best_fails = gain;
        m->best_count = m->tried_count;
        memcpy(m->best, m->tried, m->tried_count * ORDER_BYTES);
    }
    return m->best_fails == UINT64_MAX || m->judged >= MOST_JUDGED;
}

/* A flush before the order at which two lines are dirty, or at the end. */
static bool try_flushes(struct mending *m)
{
    size_t at = m->fails > 0 ? m->fails - 1 : 0;
    for (size_t i = at + 1; i-- > 0;) {
        const uint64_t *order = m->list + 2 * i;
        uint64_t flush[2] = {CATALOGUE_MARK, order[0] / LINE_WORDS};
        if (i < m->count && order_stores(order) && has_unflushed(m->list, at, flush[1]) && try_edit(m, m->count, at, flush))
            return true;
        if (i < m->count && order_stores(order) && m->fails == m->count && try_edit(m, m->count, m->count, flush))
            return true;
    }
    return false;
}

static bool try_without(struct mending *m)
{
    for (size_t i = m->fails; i-- > 0;)
        if (try_edit(m, i, m->count + 1, NULL))
            return true;
    return false;
}

/* Moves by one place first, then farther, of orders up to the failure or to a place before it. */
static bool try_moves(struct mending *m)
{
    for (size_t far = 2; far <= m->count; far++)
        for (size_t i = 0; i < m->count; i++) {
            if (i < m->fails && i + far <= m->count && try_edit(m, i, i + far, m->list + 2 * i))
                return true;
            if (i >= far - 1 && i - (far - 1) < m->fails && far > 2 && try_edit(m, i, i - (far - 1), m->list + 2 * i))
                return true;
        }
    return false;
}

/* An order of the right list that the drawn one lacks. */
static bool try_missing(struct mending *m, const uint64_t *right, size_t count)
{
    for (size_t k = 0; k < count; k++) {
        bool there = false;
        for (size_t i = 0; i < m->count; i++)
            there = there || same_order(right + 2 * k, m->list + 2 * i);
        for (size_t to = m->fails + 1; !there && to-- > 0;)
            if (to <= m->count && try_edit(m, m->count, to, right + 2 * k))
                return true;
    }
    return false;
}

/* One mending; false if none lets the list hold longer. */
static bool mend_once(struct mending *m, const uint64_t *right, size_t count)
{
    m->best_fails = m->fails;
    bool found = try_flushes(m) || m->best_fails > m->fails;
    if (!found)
        found = try_without(m) || try_moves(m) || try_missing(m, right, count) || m->best_fails > m->fails;
    if (m->best_fails <= m->fails)
        return false;
    memcpy(m->list, m->best, m->best_count * ORDER_BYTES);
    m->count = m->best_count;
    m->fails = first_failure(m, m->list, m->count);
    return true;
}

/* Whether the list can be mended so that the judge accepts it. */
static bool mend(struct mending *m, const uint64_t *right, size_t count)
{
    for (int i = 0; i < MOST_MENDED && m->fails != UINT64_MAX; i++)
        if (!mend_once(m, right, count))
            return false;
    return m->fails == UINT64_MAX;
}

static void mending_begin(struct mending *m, const struct table *t, const struct change *c, const uint64_t *orders, size_t count)
{
    size_t room = count + MOST_MENDED + 1;
    *m = (struct mending){.table = t, .change = c, .count = count, .image = room_of(t->words, sizeof *m->image)};
    uint64_t **lists[] = {&m->list, &m->tried, &m->best};
    for (size_t i = 0; i < 3; i++)
        *lists[i] = room_of(2 * room, sizeof **lists[i]);
    memcpy(m->list, orders, count * ORDER_BYTES);
    m->fails = first_failure(m, orders, count);
}

static void mending_end(struct mending *m)
{
    free(m->image);
    free(m->list);
    free(m->tried);
    free(m->best);
}

/* ---- the nearest */

bool nearest_mends(const struct table *t, size_t count)
{
    return t->base[NODE_COUNT] <= MOST_NODES_MENDED && count <= MOST_ORDERS_MENDED;
}

static void take_list(struct nearest *n, enum whose whose, const uint64_t *orders, size_t count)
{
    free(n->orders);
    n->orders = room_of(2 * count + 1, sizeof *n->orders);
    memcpy(n->orders, orders, count * ORDER_BYTES);
    n->count = count;
    n->whose = whose;
}

void nearest_find(struct nearest *n, const struct table *t, const struct change *c, const uint64_t *orders, size_t count)
{
    struct mending m;
    struct change planned = *c;
    uint64_t *brief = room_of(CATALOGUE_LONG_LIST_WORDS, sizeof *brief);
    *n = (struct nearest){0};
    memcpy(t->working, t->base, t->words * sizeof *t->working);
    change_plan(&planned, t);
    mending_begin(&m, t, c, orders, count);
    size_t brief_count = short_list(t, &planned, brief), full = change_orders(&planned);
    bool brief_right = first_failure(&m, brief, brief_count) == UINT64_MAX;
    bool nearer = brief_right && distance(orders, count, brief, brief_count) <= distance(orders, count, planned.orders, full);
    take_list(n, nearer ? SHORT_LIST : FULL_LIST, nearer ? brief : planned.orders, nearer ? brief_count : full);
    if (m.fails == UINT64_MAX)
        take_list(n, DRAWN_LIST, orders, count);
    else if (nearest_mends(t, count) && mend(&m, brief_right ? brief : planned.orders, brief_right ? brief_count : full)
             && distance(orders, count, m.list, m.count) < distance(orders, count, n->orders, n->count))
        take_list(n, MENDED_LIST, m.list, m.count);
    mending_end(&m);
    free(brief);
}

void nearest_free(struct nearest *n)
{
    free(n->orders);
}

/* ---- differences */

/* Where both lists go on alike, or end. */
static struct hunk next_hunk(const uint16_t *best, const uint64_t *a, size_t count, const uint64_t *b, size_t other, size_t *i, size_t *k)
{
    size_t row = other + 1;
    while (*i < count && *k < other && same_order(a + 2 * *i, b + 2 * *k))
        ++*i, ++*k;
    struct hunk h = {.at = *i, .right_at = *k};
    while ((*i < count || *k < other) && !(*i < count && *k < other && same_order(a + 2 * *i, b + 2 * *k))) {
        bool down = *k == other || (*i < count && best[(*i + 1) * row + *k] >= best[*i * row + *k + 1]);
        *i += down;
        *k += !down;
    }
    h.length = *i - h.at;
    h.right_length = *k - h.right_at;
    return h;
}

/* What the judge says of the right list with this one difference. */
static char *what_breaks(const struct hunk *h, const struct table *t, const struct change *c, const uint64_t *orders, const uint64_t *right,
                         size_t right_count)
{
    size_t rest = right_count - h->right_at - h->right_length, all = h->right_at + h->length + rest;
    uint64_t *list = room_of(2 * all + 1, sizeof *list);
    char *text = NULL;
    size_t length;
    FILE *out = stream_into(&text, &length);
    memcpy(list, right, h->right_at * ORDER_BYTES);
    memcpy(list + 2 * h->right_at, orders + 2 * h->at, h->length * ORDER_BYTES);
    memcpy(list + 2 * (h->right_at + h->length), right + 2 * (h->right_at + h->right_length), rest * ORDER_BYTES);
    int status = judge_orders(t, c, list, all, out);
    text = stream_text(out, &text);
    free(list);
    if (status != 0)
        return text;
    free(text);
    return NULL;
}

void hunks_find(struct hunks *h, const struct table *t, const struct change *c, const uint64_t *orders, size_t count, const uint64_t *right,
                size_t right_count)
{
    uint64_t *image = room_of(t->words, sizeof *image), fails;
    uint16_t *best = shared_parts(orders, count, right, right_count);
    *h = (struct hunks){.of = room_of(count + right_count + 1, sizeof *h->of)};
    bool accepted = judge_count(t, c, orders, count, image, &fails) == 0;
    for (size_t i = 0, k = 0; !accepted && (i < count || k < right_count);) {
        struct hunk one = next_hunk(best, orders, count, right, right_count, &i, &k);
        if (one.length == 0 && one.right_length == 0)
            continue;
        one.breaks = what_breaks(&one, t, c, orders, right, right_count);
        h->of[h->count++] = one;
    }
    free(image);
    free(best);
}

void hunks_free(struct hunks *h)
{
    for (size_t i = 0; i < h->count; i++)
        free(h->of[i].breaks);
    free(h->of);
}
