/* Judging an order list that was not made here. The library judges; what is said of a no is found out here, on an image of a cut. */
#include "judge.h"

#include <inttypes.h>
#include <stdbool.h>
#include <stdio.h>
#include <stdlib.h>
#include <string.h>

#include "orderlist.h"
#include "pool.h"
#include "refusals.h"
#include "text.h"
#include "tree.h"

struct judging {
    const struct table *table;
    const struct change *change;
    const uint64_t *orders;
    size_t total;    /* orders */
    FILE *out;
    uint64_t count;  /* the first that fails */
    uint64_t *image; /* the table with so many orders carried out */
    uint64_t *pairs; /* room for a listing */
    size_t room;
};

/* ---- the orders */

/* The lines that hold unflushed stores after the orders that fail, at most two, the older first; their number. */
static int unflushed(const struct judging *j, uint64_t lines[2])
{
    int held = 0;
    for (uint64_t i = 0; i < j->count; i++) {
        const uint64_t *order = j->orders + 2 * i;
        uint64_t line = order_stores(order) ? order[0] / LINE_WORDS : order[1];
        if (order[0] == CATALOGUE_BARRIER)
            continue;
        /* The line's place moves to the end, or goes. */
        int kept = 0;
        for (int k = 0; k < held; k++)
            if (lines[k] != line)
                lines[kept++] = lines[k];
        held = kept;
        if (order_stores(order) && held < 2)
            lines[held++] = line;
    }
    return held;
}

/* The image where none of the line's unflushed stores arrives. */
static void lose_line(struct judging *j, uint64_t line)
{
    uint64_t flushed = 0;
    for (uint64_t i = 0; i < j->count; i++)
        if (j->orders[2 * i] == CATALOGUE_MARK && j->orders[2 * i + 1] == line)
            flushed = i;
    memcpy(j->image + LINE_WORDS * line, j->table->base + LINE_WORDS * line, LINE_WORDS * sizeof *j->image);
    for (uint64_t i = 0; i < flushed; i++) {
        const uint64_t *order = j->orders + 2 * i;
        if (order_stores(order) && order[0] / LINE_WORDS == line)
            j->image[order[0]] = order[1];
    }
}

/* ---- what an image holds */

/* A search's answer: the pointer, or 0 for absent; *lost where it finds no way. */
static uint64_t look(const struct judging *j, const uint64_t *words, uint64_t collection, uint64_t key, bool *lost)
{
    uint64_t recording, access, next, higher;
    uint64_t number = catalogue_search(words, j->table->words, collection, key, &recording, &access, &next, &higher);
    *lost = number != 0 && number != CATALOGUE_ABSENT;
    return number == 0 ? access << 56 | recording : 0;
}

/* What the change asks the code's pointer to be. */
static uint64_t wanted(const struct change *c)
{
    return c->kind == ADD ? c->access << 56 | c->recording : 0;
}

/* A code is as it was, or as the change asks. */
static bool fair(const struct judging *j, uint64_t collection, uint64_t key, uint64_t pointer)
{
    bool lost;
    return pointer == look(j, j->table->base, collection, key, &lost)
           || (collection == j->table->collection && key == j->change->key && pointer == wanted(j->change));
}

static void say_code(const struct judging *j, uint64_t key, uint64_t pointer, bool lost)
{
    char code[KEY_TEXT], text[POINTER_TEXT];
    fprintf(j->out, "a cut there may leave ");
    if (lost)
        fprintf(j->out, "no way to %s", key_text(key, code));
    else if (pointer == 0)
        fprintf(j->out, "%s absent", key_text(key, code));
    else
        fprintf(j->out, "%s with %s", key_text(key, code), pointer_text(CATALOGUE_RECORDING(pointer), CATALOGUE_CLASS(pointer), text));
}

/* The codes of a collection in these words that the image answers otherwise than it may; the first is wrong. */
static uint64_t compare(struct judging *j, const uint64_t *words, uint64_t collection, uint64_t wrong)
{
    uint64_t count = 0, more;
    if (catalogue_list(words, j->table->words, collection, 0, UINT64_MAX, j->pairs, j->room, &count, &more) != 0)
        return wrong;
    for (uint64_t i = 0; i < count; i++) {
        bool lost;
        uint64_t key = j->pairs[2 * i], pointer = look(j, j->image, collection, key, &lost);
        if ((lost || !fair(j, collection, key, pointer)) && wrong++ == 0)
            say_code(j, key, pointer, lost);
    }
    return wrong;
}

/* Prints what is wrong with the image; false if nothing is. */
static bool say_image(struct judging *j)
{
    uint64_t wrong = 0, count, more, number = 0;
    for (uint64_t n = 1; n <= MOST_COLLECTIONS; n++)
        wrong = compare(j, j->table->base, n, wrong);
    /* Codes that came in besides. */
    for (uint64_t n = 1; n <= MOST_COLLECTIONS && wrong == 0; n++)
        wrong = compare(j, j->image, n, wrong);
    if (wrong > 1)
        fprintf(j->out, ", and %" PRIu64 " code%s more not as before", wrong - 1, wrong == 2 ? "" : "s");
    if (wrong > 0)
        fprintf(j->out, "\n");
    number = catalogue_list(j->image, j->table->words, 1, 0, 0, j->pairs, 0, &count, &more);
    if (number != 0)
        fprintf(j->out, "a cut there may leave a table that is not sound: every change of it is refused with %" PRIu64 "\n", number);
    bool collections = (j->image[SECOND_ROOT] == 0) != (j->table->base[SECOND_ROOT] == 0);
    if (collections && number == 0 && wrong == 0)
        fprintf(j->out, "a cut there may leave another number of collections\n");
    return wrong > 0 || number != 0 || collections;
}

/* ---- the answer */

/* All orders are carried out and every image was right: they do not complete the change. */
static void say_incomplete(struct judging *j, bool held, uint64_t line)
{
    char code[KEY_TEXT];
    bool lost;
    struct table after = *j->table;
    struct change repair = {.kind = REPAIR};
    if (held) {
        fprintf(j->out, "all orders leave a store unflushed: line %" PRIu64 ", ", line);
        line_print(j->out, line);
        fprintf(j->out, "\n");
    }
    if (look(j, j->image, j->table->collection, j->change->key, &lost) != wanted(j->change))
        fprintf(j->out, "all orders leave %s as it was\n", key_text(j->change->key, code));
    after.working = j->image;
    if (change_plan(&repair, &after) == 0 && repair.stores > 0)
        fprintf(j->out, "all orders leave a table that is not settled\n");
}

/* The order that the images went wrong with. */
static void say_order(const struct judging *j, const uint64_t order[2])
{
    fprintf(j->out, ", the last of them ");
    order_print(j->out, order);
    if (!order_stores(order))
        return;
    fprintf(j->out, " (");
    place_print(j->out, order[0]);
    fprintf(j->out, ")");
}

static void say_no(struct judging *j)
{
    uint64_t lines[2];
    int held = unflushed(j, lines);
    fprintf(j->out, "no: after %" PRIu64 " of %zu orders", j->count, j->total);
    if (j->count > 0)
        say_order(j, j->orders + 2 * (j->count - 1));
    fprintf(j->out, "\n");
    if (held == 2) {
        fprintf(j->out, "two lines hold unflushed stores, %" PRIu64 " (", lines[0]);
        line_print(j->out, lines[0]);
        fprintf(j->out, ") and %" PRIu64 " (", lines[1]);
        line_print(j->out, lines[1]);
        fprintf(j->out, ")\n");
        lose_line(j, lines[0]);
    }
    if (!say_image(j) && held < 2)
        say_incomplete(j, held == 1, lines[0]);
}

static bool lies_inside(const struct table *t, const uint64_t order[2])
{
    if (order[0] == CATALOGUE_MARK)
        return order[1] < t->words / LINE_WORDS;
    return order[0] < t->words || (order[0] == CATALOGUE_BARRIER && order[1] == 0);
}

/* The first order that lies outside the table. */
static int say_outside(const struct judging *j, int status)
{
    uint64_t i = 0;
    while (i + 1 < j->total && lies_inside(j->table, j->orders + 2 * i))
        i++;
    return fail(status, "order %" PRIu64 " lies outside of %s", i + 1, j->table->name);
}

static int say_refused(struct judging *j, uint64_t number)
{
    char text[EXPLANATION];
    struct change again = *j->change;
    if (number == CATALOGUE_BAD_ORDERS)
        return say_outside(j, (int)number);
    if (number != CATALOGUE_CHANGE_REFUSED)
        return refuse(number, j->table, j->change->key, j->change->recording);
    uint64_t why = change_plan(&again, j->table);
    return fail((int)number, "the change itself is refused with %" PRIu64 ": %s", why,
                explain(why, j->table, j->change->key, j->change->recording, text));
}

/* A node of a sound table has at most 11 pairs. */
static size_t listing_room(const struct table *t)
{
    return 2 * 11 * (t->words / NODE_WORDS);
}

uint64_t judge_count(const struct table *t, const struct change *c, const uint64_t *orders, size_t total, uint64_t *image, uint64_t *count)
{
    if (c->kind == ADD)
        return catalogue_judge_insert(t->base, t->words, orders, 2 * total, image, t->words, t->collection, c->key, c->recording, c->access, count);
    return catalogue_judge_delete(t->base, t->words, orders, 2 * total, image, t->words, t->collection, c->key, count);
}

static int judge(struct judging *j)
{
    uint64_t number = judge_count(j->table, j->change, j->orders, j->total, j->image, &j->count);
    if (number != 0 && number != CATALOGUE_NO)
        return say_refused(j, number);
    if (number == CATALOGUE_NO)
        say_no(j);
    else
        fprintf(j->out, "yes: a cut after any of its %zu orders leaves the codes as before or as after\n", j->total);
    return (int)number;
}

int judge_orders(const struct table *t, const struct change *c, const uint64_t *orders, size_t total, FILE *out)
{
    struct judging j = {.table = t, .change = c, .orders = orders, .total = total, .out = out, .room = listing_room(t)};
    j.image = room_of(t->words, sizeof *j.image);
    j.pairs = room_of(j.room, sizeof *j.pairs);
    int status = judge(&j);
    free(j.image);
    free(j.pairs);
    return status;
}

int judge_list(const struct table *t, const char *name, const struct change *c, FILE *out, size_t *total)
{
    struct order_list l;
    struct judging j = {.table = t, .change = c, .out = out, .room = listing_room(t)};
    int status = order_list_read(&l, name);
    if (status == 0 && l.changes > 1)
        status = fail(BAD_LINE, "%s has the lists of %zu changes; one is judged at a time", name, l.changes);
    *total = l.count;
    j.image = calloc(t->words, sizeof *j.image);
    j.pairs = calloc(j.room, sizeof *j.pairs);
    if (status == 0 && (!j.image || !j.pairs))
        status = fail(BAD_FILE, "not enough memory to judge orders for %s", t->name);
    j.orders = l.words;
    j.total = l.count;
    if (status == 0)
        status = judge(&j);
    order_list_free(&l);
    free(j.image);
    free(j.pairs);
    return status;
}
