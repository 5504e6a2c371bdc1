/* Wear: how often order lists store to each line of a table. */
#include "wear.h"

#include <inttypes.h>
#include <stdio.h>
#include <stdlib.h>
#include <string.h>

#include "catalogue.h"
#include "planned.h"
#include "json.h"
#include "orderlist.h"
#include "picture.h"
#include "refusals.h"
#include "text.h"
#include "tree.h"

/* Lines that are printed of a load. */
#define PRINTED 10

/* Words of orders that are summed at a time. */
#define PART_WORDS ((size_t)CATALOGUE_LONG_LIST_WORDS)

/* ---- figures of one list */

static void figures_free(struct figures *f)
{
    free(f->lines);
    free(f->extents);
}

/* Room for the figures of lists of so many words at most. 0, or an exit status after saying why. Figures are freed also where they failed. */
static int figures_begin(struct figures *f, const struct table *t, size_t order_words)
{
    /* Each pair but the last has a word without a store after it, and each has a store. */
    size_t most = (t->words + 1) / 2 < order_words / 2 ? (t->words + 1) / 2 : order_words / 2;
    *f = (struct figures){.room = 2 * most};
    f->lines = calloc(t->words / LINE_WORDS, sizeof *f->lines);
    f->extents = calloc(f->room + 1, sizeof *f->extents);
    return f->lines && f->extents ? 0 : fail(BAD_FILE, "not enough memory for the wear figures of %s", t->name);
}

/* Of a list that there is room for. 0, or an exit status after saying why. */
static int figures_of(struct figures *f, const struct table *t, const uint64_t *orders, size_t order_words)
{
    uint64_t number = catalogue_wear(t->working, t->words, orders, order_words, f->lines, t->words / LINE_WORDS, f->extents, f->room,
                                     &f->total, &f->largest, &f->first_line, &f->pairs);
    return number == 0 ? 0 : refuse(number, t, 0, 0);
}

/* ---- what is printed */

static void print_line(uint64_t line, uint64_t stores)
{
    int length = printf("line %" PRIu64 " %" PRIu64, line, stores);
    printf("%*s", length < 24 ? 24 - length : 2, "");
    line_print(stdout, line);
    printf("\n");
}

static void print_figures(const struct table *t, const struct figures *f)
{
    printf("total %" PRIu64 "\nlargest %" PRIu64 "\nfirst line %" PRIu64 "\npairs %" PRIu64 "\n", f->total, f->largest, f->first_line,
           f->pairs);
    for (size_t i = 0; i < t->words / LINE_WORDS; i++)
        if (f->lines[i] > 0)
            print_line(i, f->lines[i]);
    for (uint64_t i = 0; i < f->pairs; i++)
        printf("words %" PRIu64 " %" PRIu64 "\n", f->extents[2 * i], f->extents[2 * i + 1]);
}

static void json_figures(const struct table *t, const struct figures *f)
{
    struct json j = {0};
    json_open(&j, NULL, '{');
    json_number(&j, "total", f->total);
    json_number(&j, "largest", f->largest);
    json_number(&j, "first_line", f->first_line);
    json_open(&j, "lines", '[');
    for (size_t i = 0; i < t->words / LINE_WORDS; i++) {
        if (f->lines[i] == 0)
            continue;
        json_open(&j, NULL, '{');
        json_number(&j, "line", i);
        json_number(&j, "stores", f->lines[i]);
        json_close(&j, '}');
    }
    json_close(&j, ']');
    json_open(&j, "words", '[');
    for (uint64_t i = 0; i < f->pairs; i++) {
        json_open(&j, NULL, '{');
        json_number(&j, "offset", f->extents[2 * i]);
        json_number(&j, "length", f->extents[2 * i + 1]);
        json_close(&j, '}');
    }
    json_close(&j, ']');
    json_close(&j, '}');
    json_end();
}

/* ---- a list in a file */

static int print_list(const struct table *t, const struct order_list *l, enum wear_form form)
{
    struct figures f;
    int status = figures_begin(&f, t, 2 * l->count);
    if (status == 0)
        status = figures_of(&f, t, l->words, 2 * l->count);
    if (status == 0 && form == WEAR_SVG)
        picture(t->name, f.lines, t->words / LINE_WORDS, &f);
    else if (status == 0 && form == WEAR_JSON)
        json_figures(t, &f);
    else if (status == 0)
        print_figures(t, &f);
    figures_free(&f);
    return status;
}

int wear(const struct table *t, const char *name, enum wear_form form)
{
    struct order_list l;
    int status = order_list_read(&l, name);
    if (status == 0)
        status = print_list(t, &l, form);
    order_list_free(&l);
    return status;
}

/* ---- many lists */

int wearing_begin(struct wearing *w, const struct table *t)
{
    *w = (struct wearing){.table = t};
    w->orders = calloc(PART_WORDS, sizeof *w->orders);
    w->lines = calloc(t->words / LINE_WORDS, sizeof *w->lines);
    /* All room at once: what is carried out later is counted in any case. */
    int status = figures_begin(&w->part, t, PART_WORDS);
    if (status == 0 && (!w->orders || !w->lines))
        status = fail(BAD_FILE, "not enough memory for the wear figures of %s", t->name);
    return status;
}

/* The orders so far into the sums: a list's numbers are those of its parts added up. */
static int wearing_sum(struct wearing *w)
{
    int status = figures_of(&w->part, w->table, w->orders, w->used);
    for (size_t i = 0; status == 0 && i < w->table->words / LINE_WORDS; i++)
        w->lines[i] += w->part.lines[i];
    w->used = 0;
    return status;
}

int wearing_add(struct wearing *w, const uint64_t *orders, uint64_t count)
{
    int status = 0;
    for (size_t left = 2 * count, part; left > 0 && status == 0; left -= part, orders += part) {
        part = left < PART_WORDS - w->used ? left : PART_WORDS - w->used;
        memcpy(w->orders + w->used, orders, part * sizeof *orders);
        w->used += part;
        if (w->used == PART_WORDS)
            status = wearing_sum(w);
    }
    return status;
}

/* The line with the most stores that is worn less than line `before`, or as much and behind it; of equals the first. */
static size_t next_worn(const struct wearing *w, size_t count, size_t before)
{
    size_t found = count;
    for (size_t i = 0; i < count; i++) {
        bool later = before == count || w->lines[i] < w->lines[before] || (w->lines[i] == w->lines[before] && i > before);
        if (later && (found == count || w->lines[i] > w->lines[found]))
            found = i;
    }
    return found;
}

int wearing_print(struct wearing *w)
{
    int status = wearing_sum(w);
    if (status != 0)
        return status;
    size_t count = w->table->words / LINE_WORDS, worn = 0;
    uint64_t total = 0;
    for (size_t i = 0; i < count; i++) {
        total += w->lines[i];
        worn += w->lines[i] > 0;
    }
    printf("%" PRIu64 " store%s to %zu of %zu lines%s\n", total, total == 1 ? "" : "s", worn, count,
           worn > PRINTED ? "; the most to these:" : worn > 0 ? ":" : "");
    size_t line = count;
    for (size_t i = 0; i < PRINTED && i < worn; i++) {
        line = next_worn(w, count, line);
        print_line(line, w->lines[line]);
    }
    return 0;
}

void wearing_end(struct wearing *w)
{
    free(w->orders);
    free(w->lines);
    figures_free(&w->part);
}
