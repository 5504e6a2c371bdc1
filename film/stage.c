/* Which nodes a film draws, and where. */
#include "stage.h"

#include <stdlib.h>

#include "planned.h"
#include "pool.h"
#include "table.h"
#include "text.h"
#include "tree.h"

/* Nodes of a collection that is drawn whole, and how many of one level are not folded. */
#define MOST_WHOLE 6
#define MOST_IN_ROW 3

/* Codes of a table whose keys are all searched for. */
#define MOST_SEARCHED 300

#define MOST_LEVEL 15

enum part { LEFT_OUT, FOLDED, DRAWN };

struct setting {
    const struct reel *reel;
    struct trees before, after;
    uint64_t nodes, collection;
    enum part *part;  /* by node */
    bool *stored_to;
};

static bool seen(const struct trees *trees, uint64_t n)
{
    bool any = false;
    for (size_t i = 0; i < trees->count; i++)
        any = any || trees->of[i].seen[n];
    return any;
}

static bool in_use(const struct setting *s, uint64_t n)
{
    return s->stored_to[n] || seen(&s->before, n) || seen(&s->after, n);
}

/* The changed collection's tree; null if there is none. */
static const struct tree *own_tree(const struct setting *s, const struct trees *trees)
{
    return s->collection <= trees->count ? &trees->of[s->collection - 1] : NULL;
}

static bool is_own(const struct setting *s, uint64_t n)
{
    const struct tree *before = own_tree(s, &s->before), *after = own_tree(s, &s->after);
    return (before && before->seen[n]) || (after && after->seen[n]);
}

/* The trees by which a node has its place: those after the list, unless only those before have it. */
static const struct trees *trees_of(const struct setting *s, uint64_t n)
{
    return seen(&s->after, n) || !seen(&s->before, n) ? &s->after : &s->before;
}

static uint64_t level_of(const struct setting *s, uint64_t n)
{
    uint64_t level = tree_word(&trees_of(s, n)->of[0], n, LEVEL);
    return level <= MOST_LEVEL ? level : 0;
}

static void find_stored(struct setting *s)
{
    for (size_t i = 0; i < s->reel->count; i++) {
        const uint64_t *order = s->reel->orders + 2 * i;
        if (order_stores(order) && order[0] >= HEADER_WORDS)
            s->stored_to[(order[0] - HEADER_WORDS) / NODE_WORDS + 1] = true;
    }
}

/* A node's ancestors; no more than a tree has levels, for words of any kind. */
static void draw_above(struct setting *s, const struct tree *tree, uint64_t n)
{
    for (unsigned i = 0; i <= MOST_LEVEL && n != 0; i++) {
        s->part[n] = DRAWN;
        n = tree->parent[n];
    }
}

/* The nodes that are stored to and what is above them, and the collection's root. */
static void draw_stored(struct setting *s)
{
    const struct trees *both[] = {&s->before, &s->after};
    for (size_t k = 0; k < 2; k++) {
        for (uint64_t n = 1; n <= s->nodes; n++)
            for (size_t i = 0; s->stored_to[n] && i < both[k]->count; i++)
                draw_above(s, &both[k]->of[i], n);
        const struct tree *own = own_tree(s, both[k]);
        if (own && tree_has(own, own->root))
            s->part[own->root] = DRAWN;
    }
}

/* The others of a small collection, as long as their row has room. */
static void draw_others(struct setting *s)
{
    size_t row[MOST_LEVEL + 1] = {0};
    for (uint64_t n = 1; n <= s->nodes; n++)
        row[level_of(s, n)] += s->part[n] == DRAWN;
    for (uint64_t n = 1; n <= s->nodes; n++)
        if (s->part[n] == LEFT_OUT && is_own(s, n))
            s->part[n] = row[level_of(s, n)]++ < MOST_IN_ROW ? DRAWN : FOLDED;
}

/* The nodes beside those that are stored to. */
static void fold_beside(struct setting *s, const struct trees *trees)
{
    const struct tree *tree = &trees->of[0];
    for (uint64_t n = 1; n <= s->nodes; n++) {
        uint64_t sibling = tree_word(tree, n, SIBLING);
        if (!seen(trees, n) || !tree_has(tree, sibling))
            continue;
        if (s->part[n] == LEFT_OUT && s->stored_to[sibling])
            s->part[n] = FOLDED;
        if (s->part[sibling] == LEFT_OUT && s->stored_to[n])
            s->part[sibling] = FOLDED;
    }
}

/* For a drawing board: those that are asked for, and the first free ones; one at least, however many the list has taken into use. */
static void draw_wanted(struct setting *s, const struct wanted_nodes *also)
{
    size_t spare = also->spare;
    for (size_t i = 0; i < also->count; i++)
        s->part[also->nodes[i]] = DRAWN;
    for (uint64_t n = 1; n <= s->nodes && spare > 1; n++)
        spare -= s->stored_to[n] && !seen(&s->before, n);
    for (uint64_t n = 1; n <= s->nodes && spare > 0; n++)
        if (s->part[n] == LEFT_OUT && !in_use(s, n)) {
            s->part[n] = DRAWN;
            spare--;
        }
}

static void choose(struct setting *s)
{
    size_t used = 0;
    for (uint64_t n = 1; n <= s->nodes; n++)
        used += is_own(s, n) || s->stored_to[n];
    draw_stored(s);
    if (used <= MOST_WHOLE) {
        draw_others(s);
        return;
    }
    fold_beside(s, &s->before);
    fold_beside(s, &s->after);
}

/* ---- places */

static struct place place_of(const struct setting *s, uint64_t n, uint64_t collection)
{
    const struct trees *trees = trees_of(s, n);
    struct place p = {.node = (uint32_t)n, .folded = s->part[n] == FOLDED, .collection = collection};
    for (size_t i = 0; i < trees->count; i++)
        if (trees->of[i].seen[n])
            p.collection = i + 1;
    p.level = level_of(s, n);
    /* A node that nothing uses stands behind the others. */
    p.fence = in_use(s, n) ? tree_word(&trees->of[0], n, FENCE) : UINT64_MAX;
    return p;
}

static int by_place(const void *a, const void *b)
{
    const struct place *p = a, *q = b;
    if (p->level != q->level)
        return p->level > q->level ? -1 : 1;
    if (p->collection != q->collection)
        return p->collection < q->collection ? -1 : 1;
    if (p->fence != q->fence)
        return p->fence < q->fence ? -1 : 1;
    return p->node < q->node ? -1 : p->node > q->node;
}

static void set_places(struct stage *stage, const struct setting *s, uint64_t collection)
{
    stage->places = room_of(s->nodes, sizeof *stage->places);
    for (uint64_t n = 1; n <= s->nodes; n++) {
        if (s->part[n] != LEFT_OUT)
            stage->places[stage->count++] = place_of(s, n, collection);
        else
            stage->others += in_use(s, n);
    }
    qsort(stage->places, stage->count, sizeof *stage->places, by_place);
}

/* The keys that the leaves drawn may hold, before and after. */
static void set_keys(struct stage *stage, const struct setting *s)
{
    const struct tree *both[] = {own_tree(s, &s->before), own_tree(s, &s->after)};
    stage->low = UINT64_MAX;
    stage->high = 0;
    for (size_t i = 0; i < 2 * stage->count; i++) {
        const struct place *p = &stage->places[i / 2];
        const struct tree *tree = both[i % 2];
        if (p->level != 0 || !tree || !tree->seen[p->node])
            continue;
        uint64_t fence = tree_word(tree, p->node, FENCE), sibling = tree_word(tree, p->node, SIBLING);
        uint64_t last = tree_has(tree, sibling) ? tree_word(tree, sibling, FENCE) - 1 : UINT64_MAX;
        stage->low = fence < stage->low ? fence : stage->low;
        stage->high = last > stage->high ? last : stage->high;
    }
    if (stage->low > stage->high)
        stage->low = 0, stage->high = UINT64_MAX;
}

void stage_set(struct stage *stage, const struct reel *r, const uint64_t *last, uint64_t collection, size_t codes,
               const struct wanted_nodes *also)
{
    struct setting s = {.reel = r, .nodes = r->base[2], .collection = collection};
    *stage = (struct stage){.high = UINT64_MAX};
    s.part = room_of(s.nodes + 1, sizeof *s.part);
    s.stored_to = room_of(s.nodes + 1, sizeof *s.stored_to);
    bool room = trees_walk(&s.before, r->base);
    room = trees_walk(&s.after, last) && room;
    if (!room)
        end_without_memory();
    find_stored(&s);
    choose(&s);
    draw_wanted(&s, also);
    set_places(stage, &s, collection);
    if (codes > MOST_SEARCHED)
        set_keys(stage, &s);
    trees_free(&s.before);
    trees_free(&s.after);
    free(s.part);
    free(s.stored_to);
}

void stage_free(struct stage *s)
{
    free(s->places);
}
