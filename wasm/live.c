/*
 * Library, judge and film for a page: a table from lines code,recording, one change of it, and lists of orders as text. An answer is what the calls
 * print, on standard output; why one fails, on standard error. Texts end with 0 and are put into memory that live_room gives.
 */
#include <inttypes.h>
#include <stdio.h>
#include <stdlib.h>
#include <string.h>

#include "catalogue.h"
#include "film.h"
#include "judge.h"
#include "mistakes.h"
#include "nearest.h"
#include "orderlist.h"
#include "orderwords.h"
#include "page.h"
#include "pool.h"
#include "refusals.h"
#include "tables.h"
#include "text.h"
#include "tree.h"

#define EXPORTED(name) __attribute__((export_name(#name))) name

/* Free nodes that a board shows: a split of a root needs two. Its scene is made anew after each tap. */
#define SPARE 2
#define MOST_IMAGES 600

static struct table t;
static const uint64_t *base;
static struct change wanted;

char *EXPORTED(live_room)(uint32_t bytes)
{
    return malloc(bytes);
}

/* sign is '+' or '-', as judge writes a change. 0, or an exit status after saying why. */
int EXPORTED(live_set)(uint32_t nodes, const char *csv, char sign, char *code, char *recording)
{
    char *both[] = {code, recording};
    int status = table_of_lines(&t, nodes, csv);
    base = t.base;
    if (status == 0)
        status = change_read(&wanted, sign == '+' ? ADD : REMOVE, both, sign == '+' ? 2 : 1);
    return status;
}

static void restore(void)
{
    memcpy(t.working, base, t.words * sizeof *base);
}

static int finish(int status)
{
    fflush(stdout);
    fflush(stderr);
    return status;
}

/* The list, with its orders inside the table and the change one that the library makes. */
static int read_list(struct order_list *l, const char *text)
{
    struct change again = wanted;
    int status = order_list_read_text(l, "your list", text);
    restore();
    uint64_t number = status == 0 ? change_plan(&again, &t) : 0;
    restore();
    if (status == 0 && number != 0)
        status = refuse(number, &t, wanted.key, wanted.recording);
    if (status == 0)
        number = catalogue_carry_out(t.working, t.words, l->words, 2 * l->count, l->count);
    restore();
    return status == 0 && number != 0 ? refuse(number, &t, 0, 0) : status;
}

/* As catalogue judge prints it of a list on standard input. */
int EXPORTED(live_judge)(void)
{
    size_t total;
    restore();
    return finish(judge_list(&t, "-", &wanted, stdout, &total));
}

/* The states that catalogue film --data prints, for the library's orders or, from standard input, for others. */
int EXPORTED(live_film)(int given)
{
    restore();
    return finish(film(&t, &wanted, given ? "-" : NULL, true));
}

/* The library's orders in words; without those that change no word, or all. */
int EXPORTED(live_ours)(int all)
{
    struct change c = wanted;
    uint64_t *orders = room_of(CATALOGUE_LONG_LIST_WORDS, sizeof *orders);
    restore();
    uint64_t number = change_plan(&c, &t);
    if (number != 0)
        return finish(refuse(number, &t, c.key, c.recording));
    size_t count = all ? change_orders(&c) : short_list(&t, &c, orders);
    orders_words(stdout, base, t.words, all ? c.orders : orders, count, false);
    free(orders);
    return finish(0);
}

/* ---- a board */

static void print_words(const uint64_t *orders, size_t count)
{
    char *text = NULL;
    size_t length;
    FILE *out = stream_into(&text, &length);
    orders_words(out, base, t.words, orders, count, false);
    stream_text(out, &text);
    json_text(stdout, text);
    free(text);
}

static void print_judge(const struct order_list *l)
{
    char *text = NULL;
    size_t length;
    uint64_t *image = room_of(t.words, sizeof *image), count = 0;
    FILE *out = stream_into(&text, &length);
    uint64_t number = judge_count(&t, &wanted, l->words, l->count, image, &count);
    judge_orders(&t, &wanted, l->words, l->count, out);
    stream_text(out, &text);
    printf("{\"number\":%" PRIu64 ",\"count\":%" PRIu64 ",\"said\":", number, count);
    json_text(stdout, text);
    if (number == CATALOGUE_NO) {
        const struct mistake *m = mistake_of(&t, &wanted, l->words, l->count, count);
        printf(",\"mistake\":");
        json_text(stdout, m->name);
        printf(",\"sentence\":");
        json_text(stdout, m->sentence);
    }
    printf("}");
    free(text);
    free(image);
}

static struct scene scene_of(const uint64_t *orders, size_t count)
{
    return (struct scene){.title = "Your drawing", .told = "", .list = "your orders", .beside = -1, .base = base, .words = t.words, .collection = 1,
                          .change = &wanted, .orders = orders, .count = count, .spare = SPARE, .most = MOST_IMAGES};
}

/* A list as a scene, in words, and judged: {"scene": .., "words": "..", "judge": ..}. */
int EXPORTED(live_board)(const char *text)
{
    struct order_list l = {0};
    int status = read_list(&l, text);
    if (status == 0) {
        struct scene s = scene_of(l.words, l.count);
        printf("{\"words\":");
        print_words(l.words, l.count);
        printf(",\"judge\":");
        print_judge(&l);
        printf(",\"scene\":\n");
        status = scene_print(&s, stdout);
        printf("}\n");
    }
    order_list_free(&l);
    return finish(status);
}

/* The nearest right list, with what each difference breaks: {"whose": 1, "words": "..", "scenes": [drawn, right]}. */
int EXPORTED(live_compare)(const char *text)
{
    struct order_list l = {0};
    struct nearest n = {0};
    struct hunks h = {0};
    int status = read_list(&l, text);
    if (status == 0) {
        nearest_find(&n, &t, &wanted, l.words, l.count);
        hunks_find(&h, &t, &wanted, l.words, l.count, n.orders, n.count);
        struct scene both[] = {scene_of(l.words, l.count), scene_of(n.orders, n.count)};
        both[0].hunks = &h;
        both[1].list = "the nearest right list";
        printf("{\"whose\":%d,\"words\":", (int)n.whose);
        print_words(n.orders, n.count);
        printf(",\"scenes\":[");
        status = scene_print(&both[0], stdout);
        printf(",\n");
        if (status == 0)
            status = scene_print(&both[1], stdout);
        printf("]}\n");
    }
    hunks_free(&h);
    nearest_free(&n);
    order_list_free(&l);
    return finish(status);
}

/* Of files that a module has no use for: it makes no page. */
void page_begin(FILE *out, bool board)
{
    (void)out;
    (void)board;
}

void page_end(FILE *out, bool board)
{
    (void)out;
    (void)board;
}
