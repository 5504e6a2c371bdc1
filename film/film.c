/* A film of a change: every moment of its orders, and every cut, worked out by the library and written into one page. */
#include "film.h"

#include <inttypes.h>
#include <stdlib.h>
#include <string.h>

#include "catalogue.h"
#include "orderlist.h"
#include "page.h"
#include "pool.h"
#include "reel.h"
#include "refusals.h"
#include "stage.h"
#include "text.h"
#include "tree.h"
#include "verdict.h"
#include "ways.h"

/* Images of one scene, at most; if a cut may leave more, some of them are left out. Each store keeps one. */
#define MOST_IMAGES 20000
_Static_assert(MOST_FILMED < MOST_IMAGES, "a store without an image");

/* A way's number in a row of them, in so many characters. */
#define WAY_DIGITS 3

/* The first image that is bad in some way. */
struct first {
    bool there;
    size_t order;
    uint32_t *kept;
    uint64_t key;
};

struct filming {
    const struct scene *scene;
    FILE *out;
    struct reel reel;
    struct stage stage;
    struct marks marks;
    struct verdicts verdicts;
    struct differences differences;
    uint64_t *image, *still; /* the image, and what it was before it was searched */
    struct pool sound, maps, rows, ways, kinds;
    size_t order; /* with which the images first appear */
    size_t images, most; /* so far; at most */
    bool begun;       /* an image of this order is printed */
    bool at_odds;     /* a way did not end where the library's answer is, or a search changed a word */
    struct first lost, unsound;
};

/* ---- an image */

/* Whether the words still have a table's header: carry-out of no orders tests it. */
static bool has_header(const struct filming *f)
{
    uint64_t none = 0;
    return f->image[2] == f->scene->base[2] && catalogue_carry_out(f->image, f->scene->words, &none, 1, 0) == 0;
}

static char kind_of(const struct tree *tree, uint64_t n, unsigned slot)
{
    static const char letters[] = {[FREE] = '.', [SHOWN] = 's', [HIDDEN] = 'h', [TRAILING] = 't'};
    enum slot kind = tree_slot(tree, n, slot);
    /* Behind the first pointer 0. */
    if (kind == FREE && (tree_key(tree, n, slot) != 0 || tree_pointer(tree, n, slot) != 0))
        return 'o';
    return letters[kind];
}

static bool is_reached(const struct trees *trees, uint32_t n)
{
    bool any = false;
    for (size_t i = 0; trees && i < trees->count; i++)
        any = any || trees->of[i].seen[n];
    return any;
}

/* For each node drawn whether it is reached, and its slots: "rsss........." and so on. */
static char *kinds_of(const struct filming *f, const struct trees *trees)
{
    struct tree tree = {.words = f->image, .nodes = f->scene->base[2]};
    char *text = room_of((2 + SLOTS) * f->stage.count + 3, 1), *at = text;
    *at++ = '"';
    for (size_t i = 0; i < f->stage.count; i++) {
        const struct place *p = &f->stage.places[i];
        *at++ = is_reached(trees, p->node) ? 'r' : 'u';
        for (unsigned k = 0; k < SLOTS && !p->folded; k++)
            *at++ = kind_of(&tree, p->node, k);
        *at++ = '|';
    }
    *at++ = '"';
    return text;
}

/* A number in digits that need no escape in a text. */
static char *put_digits(char *at, uint32_t number)
{
    static const char digits[] = "0123456789ABCDEFGHIJKLMNOPQRSTUVWXYZabcdefghijklmnopqrstuvwxyz-_";
    for (int i = WAY_DIGITS - 1; i >= 0; i--)
        *at++ = digits[number >> (6 * i) & 63];
    return at;
}

/* The ways of all keys, by the marks between which they lie. */
static char *row_of(struct filming *f)
{
    const struct scene *s = f->scene;
    char *text = room_of(WAY_DIGITS * f->marks.count + 3, 1), *at = text;
    struct way w, last;
    *at++ = '"';
    for (size_t i = 0; i < f->marks.count; i++) {
        uint64_t end = i + 1 < f->marks.count ? f->marks.keys[i + 1] - 1 : f->marks.high;
        bool right = way_find(&w, f->image, s->words, s->collection, f->marks.keys[i]);
        right = way_find(&last, f->image, s->words, s->collection, end) && right;
        f->at_odds = f->at_odds || !right || memcmp(&w, &last, sizeof w) != 0;
        uint32_t number = pool_number(&f->ways, way_json(&w));
        f->at_odds = f->at_odds || number >> (6 * WAY_DIGITS) != 0;
        at = put_digits(at, number);
    }
    *at++ = '"';
    return text;
}

static void note_first(struct filming *f, struct first *first, const uint32_t *kept, uint64_t key)
{
    if (first->there)
        return;
    *first = (struct first){.there = true, .order = f->order, .key = key};
    first->kept = room_of(f->reel.line_count, sizeof *kept);
    memcpy(first->kept, kept, f->reel.line_count * sizeof *kept);
}

/* The code to search for: one that was there before and is not the change's, if there is one. */
static uint64_t lost_key(const struct differences *d, uint64_t changed)
{
    for (size_t i = 0; i < d->count && i < MOST_TOLD; i++)
        if (d->told[i].before != 0 && d->told[i].key != changed)
            return d->told[i].key;
    return d->told[0].key;
}

static void visit(void *with, const uint32_t *kept)
{
    struct filming *f = with;
    struct trees trees = {0};
    reel_image(&f->reel, kept, f->image);
    bool whole = has_header(f);
    if (whole && !trees_walk(&trees, f->image))
        end_without_memory();
    uint32_t sound = pool_number(&f->sound, verdict_sound(&f->verdicts, f->image));
    verdict_maps(&f->verdicts, f->image, &f->differences);
    uint32_t maps = pool_number(&f->maps, differences_json(&f->differences));
    memcpy(f->still, f->image, f->scene->words * sizeof *f->image);
    uint32_t row = pool_number(&f->rows, row_of(f));
    f->at_odds = f->at_odds || memcmp(f->still, f->image, f->scene->words * sizeof *f->image) != 0;
    uint32_t kinds = pool_number(&f->kinds, kinds_of(f, whole ? &trees : NULL));
    fprintf(f->out, "%s%" PRIu32 ",%" PRIu32 ",%" PRIu32 ",%" PRIu32, f->begun ? "," : "", sound, maps, row, kinds);
    f->begun = true;
    f->images++;
    if (f->differences.map == NEITHER)
        note_first(f, &f->lost, kept, lost_key(&f->differences, f->scene->change->key));
    if (f->verdicts.number != 0)
        note_first(f, &f->unsound, kept, 0);
    trees_free(&trees);
}

/* ---- the parts of a scene */

/* By order, how many images it has for certain, and their sum: its short row, or one image if all short rows together are too many. */
static size_t set_aside(const struct filming *f, size_t *least)
{
    size_t sum = 0, stores = 0;
    for (size_t c = 0; c <= f->reel.count; c++) {
        least[c] = reel_short(&f->reel, c);
        sum += least[c];
        stores += least[c] > 0;
    }
    if (sum <= f->most)
        return sum;
    for (size_t c = 0; c <= f->reel.count; c++)
        least[c] = least[c] > 0;
    return stores;
}

/* By order, each image's four numbers; and the orders of whose images some are left out. */
static void print_images(struct filming *f)
{
    size_t *some = room_of(f->reel.count + 1, sizeof *some), *least = room_of(f->reel.count + 1, sizeof *least), count = 0;
    size_t later = set_aside(f, least);
    fputs("\"images\":[", f->out);
    for (f->order = 0; f->order <= f->reel.count; f->order++) {
        later -= least[f->order];
        f->begun = false;
        fputs(f->order == 0 ? "[" : ",[", f->out);
        if (reel_births(&f->reel, f->order, f->most - f->images - later, visit, f))
            some[count++] = f->order;
        fputc(']', f->out);
    }
    fputs("],\n\"some\":[", f->out);
    for (size_t i = 0; i < count; i++)
        fprintf(f->out, "%s%zu", i == 0 ? "" : ",", some[i]);
    fputs("],\n", f->out);
    free(some);
    free(least);
}

static void print_first(struct filming *f, const char *name, const struct first *first)
{
    fprintf(f->out, "\"%s\":", name);
    if (!first->there) {
        fputs("null,\n", f->out);
        return;
    }
    fprintf(f->out, "{\"order\":%zu,\"key\":\"%" PRIu64 "\",\"kept\":[", first->order, first->key);
    for (size_t i = 0; i < f->reel.line_count; i++)
        fprintf(f->out, "%s%" PRIu32, i == 0 ? "" : ",", first->kept[i]);
    fputs("]},\n", f->out);
}

static void print_words(FILE *out, const uint64_t *words, size_t count)
{
    fputc('[', out);
    for (size_t i = 0; i < count; i++) {
        fputs(i == 0 ? "" : ",", out);
        json_word(out, words[i]);
    }
    fputc(']', out);
}

static void print_places(const struct filming *f)
{
    const struct scene *s = f->scene;
    fprintf(f->out, "\"others\":%zu,\"places\":[", f->stage.others);
    for (size_t i = 0; i < f->stage.count; i++) {
        const struct place *p = &f->stage.places[i];
        fprintf(f->out, "%s\n{\"node\":%" PRIu32 ",\"level\":%" PRIu64 ",\"collection\":%" PRIu64 ",\"words\":", i == 0 ? "" : ",", p->node,
                p->level, p->collection);
        if (p->folded)
            fputs("null", f->out);
        else
            print_words(f->out, s->base + HEADER_WORDS + NODE_WORDS * ((size_t)p->node - 1), NODE_WORDS);
        fputc('}', f->out);
    }
    fputs("],\n\"header\":", f->out);
    print_words(f->out, s->base, HEADER_WORDS);
    fputs(",\n", f->out);
}

static void print_change(const struct filming *f)
{
    static const char *const kinds[] = {[ADD] = "add", [REMOVE] = "remove", [CLASS] = "class", [REPAIR] = "repair"};
    const struct change *c = f->scene->change;
    fprintf(f->out, "\"change\":{\"kind\":\"%s\",\"key\":\"%" PRIu64 "\",\"pointer\":\"%" PRIu64 "\"},\n", kinds[c->kind], c->key,
            c->kind == ADD ? c->access << 56 | c->recording : 0);
}

/* What the judge says: -1 for yes, the first count that fails, or null if such a change is not judged. */
static void print_judge(const struct filming *f)
{
    const struct scene *s = f->scene;
    uint64_t number = CATALOGUE_CHANGE_REFUSED, count = 0;
    uint64_t *out = room_of(s->words, sizeof *out);
    if (s->change->kind == ADD)
        number = catalogue_judge_insert(s->base, s->words, s->orders, 2 * s->count, out, s->words, s->collection, s->change->key,
                                        s->change->recording, s->change->access, &count);
    else if (s->change->kind == REMOVE)
        number = catalogue_judge_delete(s->base, s->words, s->orders, 2 * s->count, out, s->words, s->collection, s->change->key, &count);
    if (number == CATALOGUE_NO)
        fprintf(f->out, "\"judge\":%" PRIu64 ",\n", count);
    else
        fputs(number == 0 ? "\"judge\":-1,\n" : "\"judge\":null,\n", f->out);
    free(out);
}

/* The differences from the list beside it: [[at, length, at there, length there, "what breaks" or null], ..]. */
static void print_hunks(const struct filming *f)
{
    const struct hunks *h = f->scene->hunks;
    if (!h)
        return;
    fputs("\"hunks\":[", f->out);
    for (size_t i = 0; i < h->count; i++) {
        const struct hunk *one = &h->of[i];
        fprintf(f->out, "%s[%zu,%zu,%zu,%zu,", i == 0 ? "" : ",", one->at, one->length, one->right_at, one->right_length);
        if (one->breaks)
            json_text(f->out, one->breaks);
        else
            fputs("null", f->out);
        fputc(']', f->out);
    }
    fputs("],\n", f->out);
}

static void print_head(const struct filming *f)
{
    const struct scene *s = f->scene;
    fputs("{\"title\":", f->out);
    json_text(f->out, s->title);
    fputs(",\"told\":", f->out);
    json_text(f->out, s->told);
    if (s->ask) {
        fputs(",\"ask\":", f->out);
        json_text(f->out, s->ask);
    }
    fputs(",\"list\":", f->out);
    json_text(f->out, s->list);
    fprintf(f->out, ",\"own\":%s,\"beside\":%d,\n", s->own ? "true" : "false", s->beside);
    fprintf(f->out, "\"nodes\":%" PRIu64 ",\"collection\":%" PRIu64 ",\"collections\":%d,\"codes\":[%zu,%zu],\n", s->base[2], s->collection,
            s->base[SECOND_ROOT] == 0 ? 1 : 2, f->verdicts.before[0].count, f->verdicts.before[1].count);
    print_change(f);
    print_judge(f);
    print_hunks(f);
    fputs("\"orders\":", f->out);
    orders_json(f->out, s->orders, s->count);
    fputs(",\n", f->out);
    print_places(f);
}

static void print_pool(const struct filming *f, const char *name, const struct pool *p, const char *end)
{
    fprintf(f->out, "\"%s\":", name);
    pool_print(p, f->out);
    fputs(end, f->out);
}

static void print_tail(struct filming *f)
{
    print_first(f, "lost", &f->lost);
    print_first(f, "unsound", &f->unsound);
    fprintf(f->out, "\"low\":\"%" PRIu64 "\",\"high\":\"%" PRIu64 "\",\"marks\":", f->marks.low, f->marks.high);
    print_words(f->out, f->marks.keys, f->marks.count);
    fputs(",\n", f->out);
    print_pool(f, "sound", &f->sound, ",\n");
    print_pool(f, "maps", &f->maps, ",\n");
    print_pool(f, "rows", &f->rows, ",\n");
    print_pool(f, "ways", &f->ways, ",\n");
    print_pool(f, "kinds", &f->kinds, "}");
}

/* ---- a scene */

static void filming_end(struct filming *f)
{
    reel_end(&f->reel);
    stage_free(&f->stage);
    marks_free(&f->marks);
    verdicts_end(&f->verdicts);
    struct pool *pools[] = {&f->sound, &f->maps, &f->rows, &f->ways, &f->kinds};
    for (size_t i = 0; i < sizeof pools / sizeof pools[0]; i++)
        pool_free(pools[i]);
    free(f->image);
    free(f->still);
    free(f->lost.kept);
    free(f->unsound.kept);
}

/* The table after all orders, if it still has its header; else before them. */
static void set_stage(struct filming *f)
{
    const struct scene *s = f->scene;
    struct way way = {0};
    struct wanted_nodes also = {.nodes = way.nodes, .spare = s->spare};
    memcpy(f->image, s->base, s->words * sizeof *f->image);
    catalogue_carry_out(f->image, s->words, s->orders, 2 * s->count, s->count);
    if (s->spare > 0 && way_find(&way, s->base, s->words, s->collection, s->change->key))
        also.count = way.count;
    stage_set(&f->stage, &f->reel, has_header(f) ? f->image : s->base, s->collection, f->verdicts.before[s->collection - 1].count, &also);
    memcpy(f->image, s->base, s->words * sizeof *f->image);
}

int scene_print(const struct scene *s, FILE *out)
{
    struct filming f = {.scene = s, .out = out, .image = room_of(s->words, sizeof *f.image), .still = room_of(s->words, sizeof *f.still)};
    /* Each store keeps one, also if fewer are asked for. */
    f.most = s->most == 0 ? MOST_IMAGES : s->count < s->most ? s->most : s->count + 1;
    reel_begin(&f.reel, s->base, s->words, s->orders, s->count);
    uint64_t number = verdicts_begin(&f.verdicts, s->base, s->words, s->collection, s->change);
    const struct table t = {.name = "the table", .collection = s->collection};
    int status = number == 0 ? 0 : refuse(number, &t, 0, 0);
    if (status == 0) {
        set_stage(&f);
        marks_find(&f.marks, &f.reel, f.stage.low, f.stage.high);
        print_head(&f);
        print_images(&f);
        print_tail(&f);
        if (f.at_odds)
            status = fail(BAD_FILE, "a search's way does not end at the library's answer: this program is wrong, and what it printed must "
                                    "not be used");
    }
    filming_end(&f);
    return status;
}

int film_print(const struct scene *scenes, size_t count, bool data, bool board, const char *more)
{
    int status = 0;
    if (!data)
        page_begin(stdout, board);
    fputs("{\"format\":1,\"scenes\":[\n", stdout);
    for (size_t i = 0; i < count && status == 0; i++) {
        fputs(i == 0 ? "" : ",\n", stdout);
        status = scene_print(&scenes[i], stdout);
    }
    printf("]%s}\n", more ? more : "");
    if (!data)
        page_end(stdout, board);
    return status;
}

/* ---- a change of a table */

static const char *title_of(const struct table *t, const struct change *c, char *text, size_t room)
{
    char code[KEY_TEXT], pointer[POINTER_TEXT], part[PART_TEXT];
    table_part(t, part);
    key_text(c->key, code);
    if (c->kind == ADD)
        snprintf(text, room, "Adding %s with %s to %s%s", code, pointer_text(c->recording, c->access, pointer), part, t->name);
    else if (c->kind == REMOVE)
        snprintf(text, room, "Removing %s from %s%s", code, part, t->name);
    else
        snprintf(text, room, "Repair of %s", t->name);
    return text;
}

/* The orders of a list of one's own lie in the table. */
static int test_list(const struct table *t, const struct order_list *l, const char *name)
{
    if (l->changes > 1)
        return fail(BAD_LINE, "%s has the lists of %zu changes; a film is of one", name, l->changes);
    if (l->count > MOST_FILMED)
        return fail(BAD_LINE, "%s has %zu orders; a film has at most %d", name, l->count, MOST_FILMED);
    uint64_t *copy = room_of(t->words, sizeof *copy);
    memcpy(copy, t->base, t->words * sizeof *copy);
    uint64_t number = catalogue_carry_out(copy, t->words, l->words, 2 * l->count, l->count);
    free(copy);
    return number == 0 ? 0 : refuse(number, t, 0, 0);
}

/* The list drawn, beside the nearest right one: that is the library's, or a third scene. */
static int film_drawn(const struct table *t, const struct change *wanted, struct scene *scenes, bool data)
{
    static const char *const names[] = {[MENDED_LIST] = "the list drawn, mended", [SHORT_LIST] = "the library's orders, without those that change no word"};
    struct scene *drawn = &scenes[1];
    struct nearest n;
    struct hunks h = {0};
    nearest_find(&n, t, wanted, drawn->orders, drawn->count);
    bool third = n.whose == MENDED_LIST || n.whose == SHORT_LIST;
    if (third) {
        scenes[2] = scenes[0];
        scenes[2].list = names[n.whose];
        scenes[2].own = false;
        scenes[2].orders = n.orders;
        scenes[2].count = n.count;
        drawn->beside = 2;
    }
    if (nearest_mends(t, drawn->count)) {
        hunks_find(&h, t, wanted, drawn->orders, drawn->count, scenes[drawn->beside].orders, scenes[drawn->beside].count);
        drawn->hunks = &h;
    }
    int status = film_print(scenes, third ? 3 : 2, data, false, NULL);
    hunks_free(&h);
    nearest_free(&n);
    return status;
}

int film(const struct table *t, const struct change *wanted, const char *list, bool data)
{
    char title[EXPLANATION];
    struct change planned = *wanted;
    struct order_list l = {0};
    uint64_t number = change_plan(&planned, t);
    if (number != 0)
        return refuse(number, t, wanted->key, wanted->recording);
    int status = list ? order_list_read(&l, list) : 0;
    if (status == 0 && list)
        status = test_list(t, &l, list);
    struct scene own = {.title = title_of(t, wanted, title, sizeof title), .told = "", .list = "the library's orders", .own = true,
                        .beside = -1, .base = t->base, .words = t->words, .collection = t->collection, .change = wanted,
                        .orders = planned.orders, .count = change_orders(&planned)};
    struct scene scenes[] = {own, own, own};
    if (list) {
        scenes[1].list = strcmp(list, "-") == 0 ? "the orders of standard input" : list;
        scenes[1].own = false;
        scenes[1].beside = 0;
        scenes[1].orders = l.words;
        scenes[1].count = l.count;
    }
    if (status == 0 && list && wanted->kind != REPAIR)
        status = film_drawn(t, wanted, scenes, data);
    else if (status == 0)
        status = film_print(scenes, list ? 2 : 1, data, false, NULL);
    order_list_free(&l);
    return status;
}
