/* What a table is, said and drawn. */
#include "draw.h"

#include <inttypes.h>
#include <stdio.h>
#include <stdlib.h>

#include "contents.h"
#include "refusals.h"
#include "text.h"
#include "tree.h"

int check(const struct table *t)
{
    uint64_t report[CATALOGUE_CHECK_WORDS], number = catalogue_check(t->base, t->words, report);
    if (number != 0)
        return refuse(number, t, 0, 0);
    uint64_t codes = codes_in(report);
    printf("%s is %s: %" PRIu64 " code%s in %" PRIu64 " of %" PRIu64 " nodes, %" PRIu64 " free\n", t->name,
           leftover_letter(report) ? "sound" : "settled", codes, codes == 1 ? "" : "s", nodes_in(report), report[CATALOGUE_CHECK_NODES],
           report[CATALOGUE_CHECK_FREE]);
    collections_print(report);
    leftover_print(report, stdout);
    return 0;
}

/* ---- drawing */

/* By level from the top, then from left to right. */
static int by_place(const void *a, const void *b, void *tree)
{
    uint32_t m = *(const uint32_t *)a, n = *(const uint32_t *)b;
    uint64_t level_m = tree_word(tree, m, LEVEL), level_n = tree_word(tree, n, LEVEL);
    if (level_m != level_n)
        return level_m > level_n ? -1 : 1;
    uint64_t fence_m = tree_word(tree, m, FENCE), fence_n = tree_word(tree, n, FENCE);
    if (fence_m != fence_n)
        return fence_m < fence_n ? -1 : 1;
    return m < n ? -1 : m > n;
}

static void draw_way(const struct tree *tree, uint64_t n)
{
    printf("-> node %" PRIu64 "%s", n, tree_has(tree, n) ? "" : ", which the table does not have");
}

static void draw_head(const struct tree *tree, uint32_t n)
{
    char key[KEY_TEXT];
    uint64_t sibling = tree_word(tree, n, SIBLING);
    printf("  node %u%s, fence %s", n, n == tree->root ? ", the root" : "", key_text(tree_word(tree, n, FENCE), key));
    if (sibling != 0) {
        printf(", sibling ");
        draw_way(tree, sibling);
    }
    if (n != tree->root && tree->parent[n] == 0)
        printf(", lacks its slot");
    printf("\n");
}

/* A leaf's left, which hides slot 0, is no recording. */
static void draw_pointer(uint64_t pointer)
{
    char text[POINTER_TEXT];
    if (pointer == CATALOGUE_MARK)
        printf("%" PRIu64, pointer);
    else
        printf("%s", pointer_text(CATALOGUE_RECORDING(pointer), CATALOGUE_CLASS(pointer), text));
}

static void draw_slot(const struct tree *tree, uint32_t n, unsigned slot)
{
    static const char *const kinds[] = {[FREE] = "", [SHOWN] = "", [HIDDEN] = "   hidden", [TRAILING] = "   trailing"};
    enum slot kind = tree_slot(tree, n, slot);
    if (kind == FREE)
        return;
    char key[KEY_TEXT];
    printf("    %2u  %-12s  ", slot, key_text(tree_key(tree, n, slot), key));
    if (tree_word(tree, n, LEVEL) > 0)
        draw_way(tree, tree_pointer(tree, n, slot));
    else
        draw_pointer(tree_pointer(tree, n, slot));
    printf("%s\n", kinds[kind]);
}

static void draw_node(const struct tree *tree, uint32_t n)
{
    draw_head(tree, n);
    if (tree_word(tree, n, LEVEL) > 0) {
        printf("        left          ");
        draw_way(tree, tree_word(tree, n, LEFT));
        printf("\n");
    }
    for (unsigned i = 0; i < SLOTS; i++)
        draw_slot(tree, n, i);
}

static void draw(struct tree *tree)
{
    qsort_r(tree->reached, tree->count, sizeof *tree->reached, by_place, tree);
    for (size_t i = 0; i < tree->count; i++) {
        uint32_t n = tree->reached[i];
        uint64_t level = tree_word(tree, n, LEVEL);
        if (i == 0 || level != tree_word(tree, tree->reached[i - 1], LEVEL))
            printf("\nlevel %" PRIu64 "%s\n", level, level == 0 ? ": code, recording and class" : "");
        draw_node(tree, n);
    }
}

/* A node that both roots lead to, which no sound table has, is drawn in each. */
static void draw_all(struct trees *trees)
{
    for (size_t i = 0; i < trees->count; i++) {
        if (trees->count > 1)
            printf("\ncollection %zu\n", i + 1);
        draw(&trees->of[i]);
    }
}

int show(const struct table *t)
{
    struct trees trees;
    int status = BAD_FILE;
    if (trees_walk(&trees, t->base)) {
        status = check(t);
        if (status != BAD_FILE)
            draw_all(&trees);
    } else {
        fail(status, "not enough memory to draw %s", t->name);
    }
    trees_free(&trees);
    return status;
}
