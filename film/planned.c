/* A change of a table: read from words, planned by the library, printed. */
#include "planned.h"

#include <inttypes.h>
#include <stdio.h>
#include <string.h>

#include "text.h"
#include "tree.h"

int change_read(struct change *c, enum kind kind, char **words, int count)
{
    *c = (struct change){.kind = kind, .access = CATALOGUE_OPEN};
    if (kind == REPAIR)
        return 0;
    int status = read_code_word(words[0], &c->key);
    if (status != 0)
        return status;
    if (kind == ADD && !read_number(words[1], strlen(words[1]), &c->recording))
        return fail(CATALOGUE_BAD_RECORDING, "%.40s: " RECORDINGS, words[1]);
    const char *class = kind == CLASS ? words[1] : kind == ADD && count > 2 ? words[2] : NULL;
    if (class && !read_class(class, strlen(class), &c->access))
        return fail(CATALOGUE_BAD_CLASS, "%.40s: " CLASSES, class);
    return 0;
}

uint64_t change_plan(struct change *c, const struct table *t)
{
    switch (c->kind) {
    case ADD:
        return catalogue_insert(t->working, t->words, t->collection, c->orders, CATALOGUE_LONG_LIST_WORDS, t->dock, c->key, c->recording,
                                c->access, &c->stores, &c->flushes, &c->barriers);
    case REMOVE:
        return catalogue_delete(t->working, t->words, t->collection, c->orders, CATALOGUE_LONG_LIST_WORDS, t->dock, c->key, &c->stores,
                                &c->flushes, &c->barriers);
    case CLASS:
        return catalogue_set_class(t->working, t->words, t->collection, c->orders, CATALOGUE_LONG_LIST_WORDS, t->dock, c->key, c->access,
                                   &c->stores, &c->flushes, &c->barriers);
    default:
        return catalogue_repair(t->working, t->words, c->orders, CATALOGUE_LONG_LIST_WORDS, t->dock, &c->stores, &c->flushes, &c->barriers);
    }
}

uint64_t change_orders(const struct change *c)
{
    return c->stores + c->flushes + c->barriers;
}

void place_print(FILE *out, uint64_t word)
{
    static const char *const node_words[] = {"left", "sibling", "level", "fence"};
    if (word < HEADER_WORDS) {
        fprintf(out, word == FIRST_ROOT ? "the root's number" : word == SECOND_ROOT ? "the root's number of collection 2" : "header");
        return;
    }
    uint64_t within = (word - HEADER_WORDS) % NODE_WORDS;
    fprintf(out, "node %" PRIu64 ", ", (word - HEADER_WORDS) / NODE_WORDS + 1);
    if (within < 4)
        fprintf(out, "%s", node_words[within]);
    else if (within < 8)
        fprintf(out, "word %" PRIu64, within);
    else
        fprintf(out, "%s %" PRIu64, within % 2 == 0 ? "key" : "pointer", (within - 8) / 2);
}

void line_print(FILE *out, uint64_t line)
{
    if (line == 0) {
        fprintf(out, "header");
        return;
    }
    uint64_t part = (line - 1) % (NODE_WORDS / LINE_WORDS);
    fprintf(out, "node %" PRIu64 ", ", (line - 1) / (NODE_WORDS / LINE_WORDS) + 1);
    if (part == 0)
        fprintf(out, "left to fence");
    else
        fprintf(out, "slots %" PRIu64 " to %" PRIu64, 4 * part - 4, 4 * part - 1);
}

int order_print(FILE *out, const uint64_t order[2])
{
    if (order[0] == CATALOGUE_MARK)
        return fprintf(out, "flush %" PRIu64, order[1]);
    if (order[0] == CATALOGUE_BARRIER)
        return fprintf(out, "barrier");
    return fprintf(out, "store %" PRIu64 " %" PRIu64, order[0], order[1]);
}

bool order_stores(const uint64_t order[2])
{
    return order[0] != CATALOGUE_MARK && order[0] != CATALOGUE_BARRIER;
}

void orders_print(const uint64_t *orders, uint64_t count)
{
    for (uint64_t i = 0; i < count; i++) {
        const uint64_t *order = orders + 2 * i;
        printf("%4" PRIu64 "  ", i + 1);
        int length = order_print(stdout, order);
        if (order_stores(order)) {
            printf("%*s", length < 34 ? 34 - length : 2, "");
            place_print(stdout, order[0]);
        }
        printf("\n");
    }
}

void counts_print(uint64_t stores, uint64_t flushes, uint64_t barriers)
{
    printf(" (%" PRIu64 " store%s, %" PRIu64 " flush%s", stores, stores == 1 ? "" : "s", flushes, flushes == 1 ? "" : "es");
    if (barriers > 0)
        printf(", %" PRIu64 " barrier%s", barriers, barriers == 1 ? "" : "s");
    printf(")\n");
}
