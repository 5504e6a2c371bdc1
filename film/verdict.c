/* What an image of a table is: sound or not, what it has unfinished and what repair does, which codes lead elsewhere. The library says it. */
#include "verdict.h"

#include <inttypes.h>
#include <stdlib.h>
#include <string.h>

#include "contents.h"
#include "pool.h"

/* A node of a sound table has at most 11 pairs. */
static size_t most_pairs(size_t words)
{
    return 11 * (words / NODE_WORDS);
}

static uint64_t list_pairs(const uint64_t *words, size_t count, uint64_t collection, struct pairs *pairs)
{
    uint64_t listed = 0, more;
    uint64_t number = catalogue_list(words, count, collection, 0, UINT64_MAX, pairs->words, 2 * most_pairs(count), &listed, &more);
    pairs->count = listed;
    return number;
}

uint64_t verdicts_begin(struct verdicts *v, const uint64_t *base, size_t words, uint64_t collection, const struct change *change)
{
    *v = (struct verdicts){.words = words, .collection = collection, .change = change};
    uint64_t number = 0;
    v->copy = room_of(words, sizeof *v->copy);
    v->now.words = room_of(2 * most_pairs(words), sizeof *v->now.words);
    for (uint64_t i = 0; i < MOST_COLLECTIONS; i++) {
        v->before[i].words = room_of(2 * most_pairs(words), sizeof *v->now.words);
        if (number == 0 && (i == 0 || base[SECOND_ROOT] != 0))
            number = list_pairs(base, words, i + 1, &v->before[i]);
    }
    return number;
}

void verdicts_end(struct verdicts *v)
{
    free(v->copy);
    free(v->now.words);
    for (size_t i = 0; i < MOST_COLLECTIONS; i++)
        free(v->before[i].words);
}

/* ---- sound or not */

void orders_json(FILE *out, const uint64_t *orders, size_t count)
{
    fputc('[', out);
    for (size_t i = 0; i < count; i++) {
        const uint64_t *order = orders + 2 * i;
        fputs(i == 0 ? "" : ",", out);
        if (order[0] == CATALOGUE_MARK)
            fprintf(out, "[\"flush\",%" PRIu64 "]", order[1]);
        else if (order[0] == CATALOGUE_BARRIER)
            fputs("[\"barrier\"]", out);
        else
            fprintf(out, "[\"store\",%" PRIu64 ",\"%" PRIu64 "\"]", order[0], order[1]);
    }
    fputc(']', out);
}

/* The leftover of a sound image, its letter and its words, without the line feed at their end. */
static void leftover_json(FILE *out, const uint64_t report[CATALOGUE_CHECK_WORDS])
{
    char *text = NULL;
    size_t length;
    FILE *said = stream_into(&text, &length);
    leftover_print(report, said);
    stream_text(said, &text);
    if (length > 0)
        text[length - 1] = '\0';
    fprintf(out, ",\"letter\":\"%c\",\"left\":", leftover_letter(report));
    json_text(out, text);
    free(text);
}

char *verdict_sound(struct verdicts *v, const uint64_t *image)
{
    uint64_t report[CATALOGUE_CHECK_WORDS];
    char *text = NULL;
    size_t length;
    FILE *out = stream_into(&text, &length);
    struct table t = {.working = v->copy, .words = v->words, .collection = v->collection, .dock = CATALOGUE_ORDERED};
    memcpy(v->copy, image, v->words * sizeof *image);
    v->repair = (struct change){.kind = REPAIR};
    v->number = change_plan(&v->repair, &t);
    fprintf(out, "{\"number\":%" PRIu64, v->number);
    if (v->number == 0 && v->repair.stores > 0 && catalogue_check(image, v->words, report) == 0) {
        leftover_json(out, report);
        fputs(",\"repair\":", out);
        orders_json(out, v->repair.orders, change_orders(&v->repair));
    }
    fputc('}', out);
    return stream_text(out, &text);
}

/* ---- the maps */

static uint64_t wanted(const struct change *c)
{
    return c->kind == ADD ? c->access << 56 | c->recording : 0;
}

static void differ(struct differences *d, const struct difference *one)
{
    bool answered = one->number == 0 || one->number == CATALOGUE_ABSENT;
    if (answered && one->before == one->now)
        return;
    if (d->count < MOST_TOLD)
        d->told[d->count] = *one;
    d->count++;
}

/* Two maps, both rising. */
static void compare_maps(struct differences *d, uint64_t collection, const struct pairs *before, const struct pairs *now)
{
    size_t i = 0, k = 0;
    while (i < before->count || k < now->count) {
        bool old = k == now->count || (i < before->count && before->words[2 * i] <= now->words[2 * k]);
        bool new = i == before->count || (k < now->count && now->words[2 * k] <= before->words[2 * i]);
        struct difference one = {.collection = collection, .key = old ? before->words[2 * i] : now->words[2 * k]};
        one.number = new ? 0 : CATALOGUE_ABSENT;
        one.before = old ? before->words[2 * i + 1] : 0;
        one.now = new ? now->words[2 * k + 1] : 0;
        differ(d, &one);
        i += old;
        k += new;
    }
}

static void compare_search(const struct verdicts *v, const uint64_t *image, struct differences *d, uint64_t collection, uint64_t key,
                           uint64_t before)
{
    uint64_t recording = 0, access = 0, next, higher;
    struct difference one = {.collection = collection, .key = key, .before = before};
    one.number = catalogue_search(image, v->words, collection, key, &recording, &access, &next, &higher);
    one.now = one.number == 0 ? access << 56 | recording : 0;
    differ(d, &one);
}

/* No listing: every code of before is searched for, and the change's. */
static void compare_searches(const struct verdicts *v, const uint64_t *image, struct differences *d, uint64_t collection)
{
    const struct pairs *before = &v->before[collection - 1];
    bool other = collection == v->collection && v->change->kind != REPAIR;
    for (size_t i = 0; i < before->count; i++) {
        uint64_t key = before->words[2 * i];
        if (other && key >= v->change->key) {
            if (key > v->change->key)
                compare_search(v, image, d, collection, v->change->key, 0);
            other = false;
        }
        compare_search(v, image, d, collection, key, before->words[2 * i + 1]);
    }
    if (other)
        compare_search(v, image, d, collection, v->change->key, 0);
}

void verdict_maps(struct verdicts *v, const uint64_t *image, struct differences *d)
{
    d->count = 0;
    for (uint64_t n = 1; n <= MOST_COLLECTIONS; n++) {
        v->now.count = 0;
        bool listed = v->number == 0 && (n == 1 || image[SECOND_ROOT] != 0) && list_pairs(image, v->words, n, &v->now) == 0;
        if (listed)
            compare_maps(d, n, &v->before[n - 1], &v->now);
        else
            compare_searches(v, image, d, n);
    }
    const struct difference *only = &d->told[0];
    bool new = d->count == 1 && v->change->kind != REPAIR && only->collection == v->collection && only->key == v->change->key
               && (only->number == 0 || only->number == CATALOGUE_ABSENT) && only->now == wanted(v->change);
    d->map = d->count == 0 ? OLD : new ? NEW : NEITHER;
}

char *differences_json(const struct differences *d)
{
    static const char *const names[] = {[OLD] = "old", [NEW] = "new", [NEITHER] = "neither"};
    char *text = NULL;
    size_t length;
    FILE *out = stream_into(&text, &length);
    fprintf(out, "[\"%s\",%zu,[", names[d->map], d->count);
    for (size_t i = 0; i < d->count && i < MOST_TOLD; i++) {
        const struct difference *one = &d->told[i];
        fprintf(out, "%s[%" PRIu64 ",\"%" PRIu64 "\",\"%" PRIu64 "\",\"%" PRIu64 "\",%" PRIu64 "]", i == 0 ? "" : ",", one->collection,
                one->key, one->before, one->now, one->number);
    }
    fputs("]]", out);
    return stream_text(out, &text);
}
