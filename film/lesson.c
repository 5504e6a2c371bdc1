/* The lesson: the worked split, the right lists, and each drawing that does not hold, in one page. */
#include "lesson.h"

#include <inttypes.h>
#include <stdio.h>
#include <stdlib.h>
#include <string.h>

#include "catalogue.h"
#include "film.h"
#include "orderlist.h"
#include "page.h"
#include "pool.h"
#include "refusals.h"
#include "tables.h"
#include "text.h"
#include "tree.h"

/* The drawings' tables, as their commands make them; document 01's. */
#define DRAWING_NODES 6
#define WORKED_NODES 3

/* Room for a line, a title or a name of a drawing. */
#define LINE_TEXT 256

struct part {
    struct scene scene;
    uint64_t *base;
    struct change change;
    struct order_list list;
    struct hunks hunks; /* the differences from the right list */
    char title[LINE_TEXT], told[4 * LINE_TEXT];
};

/* ---- tables */

static uint64_t *empty_table(uint64_t nodes, size_t *words)
{
    *words = HEADER_WORDS + NODE_WORDS * (size_t)nodes;
    uint64_t *table = room_of(*words, sizeof *table);
    catalogue_make(table, *words, 1);
    return table;
}

/* False if the library refuses. */
static bool put_in(uint64_t *table, size_t words, uint64_t key, uint64_t recording)
{
    struct table t = {.working = table, .words = words, .collection = 1, .dock = CATALOGUE_ORDERED};
    struct change c = {.kind = ADD, .key = key, .recording = recording};
    return change_plan(&c, &t) == 0;
}

/* From lines code,recording. */
static uint64_t *table_of(const char *csv, size_t *words)
{
    struct table t;
    table_of_lines(&t, DRAWING_NODES, csv);
    *words = t.words;
    free(t.working);
    return (uint64_t *)t.base;
}

static uint64_t *worked_table(size_t *words)
{
    uint64_t *table = empty_table(WORKED_NODES, words);
    for (uint64_t i = 1; i <= 11; i++)
        put_in(table, *words, 10 * i, i);
    return table;
}

/* ---- scenes */

static void set_scene(struct part *p, size_t words, const uint64_t *orders, size_t count, int beside)
{
    p->scene = (struct scene){.title = p->title, .told = p->told, .beside = beside, .base = p->base, .words = words, .collection = 1,
                              .change = &p->change, .orders = orders, .count = count};
}

/* The library's own list of p->change. */
static int plan_own(struct part *p, size_t words, const char *title, const char *told)
{
    struct table t = {.name = "the lesson's table", .working = room_of(words, sizeof *p->base), .words = words, .collection = 1};
    memcpy(t.working, p->base, words * sizeof *p->base);
    uint64_t number = change_plan(&p->change, &t);
    free(t.working);
    snprintf(p->title, sizeof p->title, "%s", title);
    snprintf(p->told, sizeof p->told, "%s", told);
    set_scene(p, words, p->change.orders, change_orders(&p->change), -1);
    p->scene.list = "the library's orders";
    p->scene.own = true;
    return number == 0 ? 0 : refuse(number, &t, p->change.key, p->change.recording);
}

/* What a drawing's file says of itself, from its first line to an empty one; the first sentence is the title. */
static void read_remark(struct part *p, const char *text)
{
    char all[4 * LINE_TEXT] = "";
    for (const char *line = text; line[0] == '#' && line[1] == ' '; line = strchr(line, '\n') + 1) {
        size_t used = strlen(all);
        snprintf(all + used, sizeof all - used, "%s%.*s", used == 0 ? "" : " ", (int)(strchr(line, '\n') - line - 2), line + 2);
    }
    char *end = strstr(all, ". ");
    snprintf(p->told, sizeof p->told, "%s", end ? end + 2 : "");
    snprintf(p->title, sizeof p->title, "%.*s", end ? (int)(end - all) : (int)strcspn(all, "."), all);
}

/* The command in a drawing's file names its table and its change. */
static int read_command(struct part *p, const char *text, char table[LINE_TEXT])
{
    char sign[2] = "", code[KEY_TEXT] = "", recording[KEY_TEXT] = "";
    const char *at = strstr(text, "# catalogue judge ");
    int found = at ? sscanf(at, "# catalogue judge %200[^. ].cat %*s %1s %12s %20[0-9]", table, sign, code, recording) : 0;
    char *words[] = {code, recording};
    if (found < 3)
        return fail(BAD_FILE, "a drawing in this program does not say its change");
    return change_read(&p->change, sign[0] == '+' ? ADD : REMOVE, words, sign[0] == '+' ? 2 : 1);
}

static int read_drawing(struct part *p, const char *name, int beside)
{
    char table[LINE_TEXT], csv[LINE_TEXT + 4];
    const char *text = drawing_text(name);
    size_t words = 0;
    int status = text ? read_command(p, text, table) : fail(BAD_FILE, "the drawing %s is not in this program", name);
    if (status != 0)
        return status;
    snprintf(csv, sizeof csv, "%s.csv", table);
    p->base = table_of(drawing_text(csv) ? drawing_text(csv) : "", &words);
    status = order_list_read_text(&p->list, name, text);
    read_remark(p, text);
    set_scene(p, words, p->list.words, p->list.count, beside);
    p->scene.list = name;
    return status;
}

static int set_worked(struct part *p)
{
    size_t words;
    p->base = worked_table(&words);
    p->change = (struct change){.kind = ADD, .key = 115, .recording = 12};
    int status = plan_own(p, words, "Right: the worked split of document 01",
                          "A leaf with the keys 10, 20 .. 110 is full, and 115 comes: 75 stores and 13 flushes. A new root is made whole before the "
                          "header names it, a new node B before its neighbour links to it, and only then the old node lets go of its upper half.");
    p->scene.ask = "A leaf with the keys 10, 20 .. 110 is full, and 115 is to be inserted. How many orders will that take, stores and flushes? "
                   "Write a number down, then step through it.";
    return status;
}

static int set_leaf(struct part *p, const char *sign, const char *code, const char *recording, const char *title, const char *told)
{
    size_t words;
    char code_word[KEY_TEXT], recording_word[KEY_TEXT], *both[] = {code_word, recording_word};
    snprintf(code_word, sizeof code_word, "%s", code);
    snprintf(recording_word, sizeof recording_word, "%s", recording);
    p->base = table_of(drawing_text("leaf.csv"), &words);
    int status = change_read(&p->change, sign[0] == '+' ? ADD : REMOVE, both, sign[0] == '+' ? 2 : 1);
    return status != 0 ? status : plan_own(p, words, title, told);
}

/* ---- the page */

enum { WORKED, INSERTION, DELETION, SPLIT, WRONG };

static const struct {
    const char *name;
    int beside;
} drawn[] = {{"key-before-pointer.txt", INSERTION}, {"one-movement.txt", SPLIT}, {"flush-at-the-end.txt", SPLIT},
             {"linked-before-flush.txt", SPLIT}, {"sibling-by-first-key.txt", SPLIT}, {"hidden-by-equal-keys.txt", DELETION},
             {"search-tidies.txt", INSERTION}};

#define DRAWN (sizeof drawn / sizeof drawn[0])

static int set_parts(struct part *parts)
{
    int status = set_worked(&parts[WORKED]);
    if (status == 0)
        status = set_leaf(&parts[INSERTION], "+", "AA0002600010", "101", "Right: an insertion in a leaf",
                          "Three slots move right, the pointer before the key each time, so that a search finds every code at every moment.");
    if (status == 0)
        status = set_leaf(&parts[DELETION], "-", "AA0002600030", "", "Right: a deletion in a leaf",
                          "One store hides the slot: its pointer becomes equal to the one before it. Then the slots behind it move left.");
    if (status == 0)
        status = read_drawing(&parts[SPLIT], "right.txt", -1);
    for (size_t i = 0; i < DRAWN && status == 0; i++)
        status = read_drawing(&parts[WRONG + i], drawn[i].name, drawn[i].beside);
    return status;
}

/* What each difference of a drawing from the right list breaks. */
static void find_hunks(struct part *p, const struct part *right)
{
    struct table t = {.name = "the lesson's table", .base = p->base, .words = p->scene.words, .collection = 1};
    hunks_find(&p->hunks, &t, &p->change, p->scene.orders, p->scene.count, right->scene.orders, right->scene.count);
    p->scene.hunks = &p->hunks;
}

int lesson(bool data)
{
    size_t count = WRONG + DRAWN;
    struct part *parts = room_of(count, sizeof *parts);
    struct scene *scenes = room_of(count, sizeof *scenes);
    int status = set_parts(parts);
    for (size_t i = WRONG; status == 0 && i < count; i++)
        find_hunks(&parts[i], &parts[parts[i].scene.beside]);
    for (size_t i = 0; i < count; i++)
        scenes[i] = parts[i].scene;
    if (status == 0)
        status = film_print(scenes, count, data, true, NULL);
    for (size_t i = 0; i < count; i++) {
        order_list_free(&parts[i].list);
        hunks_free(&parts[i].hunks);
        free(parts[i].base);
    }
    free(parts);
    free(scenes);
    return status;
}
