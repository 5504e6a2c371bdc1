/* An order list and what a cut may leave of it, by document 01's rule for dock 0: barriers are passed over. */
#include "reel.h"

#include <stdlib.h>
#include <string.h>

#include "catalogue.h"
#include "planned.h"
#include "pool.h"
#include "tree.h"

static const uint64_t *order_at(const struct reel *r, size_t i)
{
    return r->orders + 2 * i;
}

static int by_number(const void *a, const void *b)
{
    uint64_t m = *(const uint64_t *)a, n = *(const uint64_t *)b;
    return m < n ? -1 : m > n;
}

static void find_lines(struct reel *r)
{
    for (size_t i = 0; i < r->count; i++)
        if (order_stores(order_at(r, i)))
            r->lines[r->line_count++] = order_at(r, i)[0] / LINE_WORDS;
    qsort(r->lines, r->line_count, sizeof *r->lines, by_number);
    size_t kept = 0;
    for (size_t i = 0; i < r->line_count; i++)
        if (kept == 0 || r->lines[kept - 1] != r->lines[i])
            r->lines[kept++] = r->lines[i];
    r->line_count = kept;
}

static uint32_t place_of(const struct reel *r, uint64_t line)
{
    for (size_t i = 0; i < r->line_count; i++)
        if (r->lines[i] == line)
            return (uint32_t)i;
    return NO_LINE;
}

void reel_begin(struct reel *r, const uint64_t *base, size_t words, const uint64_t *orders, size_t count)
{
    *r = (struct reel){.base = base, .words = words, .orders = orders, .count = count};
    r->lines = room_of(count, sizeof *r->lines);
    r->line_of = room_of(count, sizeof *r->line_of);
    r->rank = room_of(count, sizeof *r->rank);
    find_lines(r);
    uint32_t *stored = room_of(r->line_count, sizeof *stored);
    for (size_t i = 0; i < count; i++) {
        const uint64_t *order = order_at(r, i);
        r->line_of[i] = order[0] == CATALOGUE_BARRIER ? NO_LINE : place_of(r, order_stores(order) ? order[0] / LINE_WORDS : order[1]);
        if (order_stores(order))
            r->rank[i] = ++stored[r->line_of[i]];
    }
    free(stored);
}

void reel_end(struct reel *r)
{
    free(r->lines);
    free(r->line_of);
    free(r->rank);
}

void reel_at(const struct reel *r, size_t c, uint32_t *flushed, uint32_t *stored)
{
    memset(flushed, 0, r->line_count * sizeof *flushed);
    memset(stored, 0, r->line_count * sizeof *stored);
    for (size_t i = 0; i < c; i++) {
        uint32_t line = r->line_of[i];
        if (line == NO_LINE)
            continue;
        if (order_stores(order_at(r, i)))
            stored[line] = r->rank[i];
        else
            flushed[line] = stored[line];
    }
}

void reel_image(const struct reel *r, const uint32_t *kept, uint64_t *image)
{
    for (size_t i = 0; i < r->line_count; i++)
        memcpy(image + LINE_WORDS * r->lines[i], r->base + LINE_WORDS * r->lines[i], LINE_WORDS * sizeof *image);
    for (size_t i = 0; i < r->count; i++)
        if (order_stores(order_at(r, i)) && r->rank[i] <= kept[r->line_of[i]])
            image[order_at(r, i)[0]] = order_at(r, i)[1];
}

/* ---- the images of an order */

struct births {
    const struct reel *reel;
    uint32_t *flushed, *stored, *kept;
    size_t *others; /* lines with unflushed stores, but for the order's own */
    size_t count;
};

/* An order that is no store has no image of its own; 0 has the table as it was. */
static bool begin(struct births *b, const struct reel *r, size_t c)
{
    *b = (struct births){.reel = r};
    if (c > 0 && !order_stores(order_at(r, c - 1)))
        return false;
    b->flushed = room_of(r->line_count, sizeof *b->flushed);
    b->stored = room_of(r->line_count, sizeof *b->stored);
    b->kept = room_of(r->line_count, sizeof *b->kept);
    b->others = room_of(r->line_count, sizeof *b->others);
    reel_at(r, c, b->flushed, b->stored);
    for (size_t i = 0; i < r->line_count; i++)
        if (c > 0 && i != r->line_of[c - 1] && b->stored[i] > b->flushed[i])
            b->others[b->count++] = i;
    return true;
}

static void end(struct births *b)
{
    free(b->flushed);
    free(b->stored);
    free(b->kept);
    free(b->others);
}

static size_t choices_of(const struct births *b, size_t limit)
{
    size_t product = 1;
    for (size_t i = 0; i < b->count && product <= limit; i++)
        product *= b->stored[b->others[i]] - b->flushed[b->others[i]] + 1;
    return product <= limit ? product : limit + 1;
}

/* Those that lack stores of one line at most, and the one that has none of any other line. */
static size_t short_choices_of(const struct births *b)
{
    size_t sum = b->count == 0 ? 1 : 2;
    for (size_t i = 0; i < b->count; i++)
        sum += b->stored[b->others[i]] - b->flushed[b->others[i]];
    return sum;
}

static void keep_all(struct births *b)
{
    memcpy(b->kept, b->stored, b->reel->line_count * sizeof *b->kept);
}

static void keep_none(struct births *b)
{
    keep_all(b);
    for (size_t i = 0; i < b->count; i++)
        b->kept[b->others[i]] = b->flushed[b->others[i]];
}

/* The next choice as a counter goes on; false after the last. */
static bool next(struct births *b)
{
    for (size_t i = b->count; i-- > 0;) {
        size_t line = b->others[i];
        if (b->kept[line] < b->stored[line]) {
            b->kept[line]++;
            return true;
        }
        b->kept[line] = b->flushed[line];
    }
    return false;
}

static void visit_some(struct births *b, void (*visit)(void *with, const uint32_t *kept), void *with)
{
    keep_all(b);
    visit(with, b->kept);
    for (size_t i = 0; i < b->count; i++) {
        size_t line = b->others[i];
        for (uint32_t kept = b->flushed[line]; kept < b->stored[line]; kept++) {
            b->kept[line] = kept;
            visit(with, b->kept);
        }
        b->kept[line] = b->stored[line];
    }
    keep_none(b);
    visit(with, b->kept);
}

static void visit_all(struct births *b, void (*visit)(void *with, const uint32_t *kept), void *with)
{
    keep_none(b);
    do
        visit(with, b->kept);
    while (next(b));
}

size_t reel_short(const struct reel *r, size_t c)
{
    struct births b;
    size_t count = begin(&b, r, c) ? short_choices_of(&b) : 0;
    end(&b);
    return count;
}

bool reel_births(const struct reel *r, size_t c, size_t most, void (*visit)(void *with, const uint32_t *kept), void *with)
{
    struct births b;
    bool some = false;
    if (begin(&b, r, c)) {
        some = choices_of(&b, most) > most;
        keep_all(&b);
        if (!some)
            visit_all(&b, visit, with);
        else if (short_choices_of(&b) <= most)
            visit_some(&b, visit, with);
        else
            visit(with, b.kept);
    }
    end(&b);
    return some;
}
