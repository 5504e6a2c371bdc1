/* What a table has, as the library reports it: sound or not, codes, levels, nodes. */
#include "state.h"

#include <inttypes.h>
#include <stdio.h>

#include "contents.h"
#include "draw.h"
#include "json.h"
#include "refusals.h"
#include "text.h"
#include "tree.h"

/* Codes that a node holds. */
#define MOST_CODES 11

static const char *state_of(const uint64_t report[CATALOGUE_CHECK_WORDS])
{
    return leftover_letter(report) ? "sound" : "settled";
}

/* How many of the codes that a collection's nodes could hold it has, in thousandths. */
static uint64_t fill_of(const uint64_t report[CATALOGUE_CHECK_WORDS], uint64_t collection)
{
    uint64_t most = MOST_CODES * report[CATALOGUE_CHECK_NODES_OF(collection)];
    return (1000 * report[CATALOGUE_CHECK_CODES_OF(collection)] + most / 2) / most;
}

/* ---- JSON */

/* What is unfinished: the nodes that it is about, and the sentence that check prints of it. */
static void json_leftover(struct json *j, const uint64_t report[CATALOGUE_CHECK_WORDS])
{
    static const struct {
        const char *name;
        unsigned word, node; /* of the report; it counts if there is that node */
    } parts[] = {
        {"hidden_node", CATALOGUE_CHECK_HIDDEN_NODE, CATALOGUE_CHECK_HIDDEN_NODE},
        {"hidden_slot", CATALOGUE_CHECK_HIDDEN_SLOT, CATALOGUE_CHECK_HIDDEN_NODE},
        {"node", CATALOGUE_CHECK_NODE, CATALOGUE_CHECK_NODE},
        {"neighbour", CATALOGUE_CHECK_NEIGHBOUR, CATALOGUE_CHECK_NODE},
        {"parent", CATALOGUE_CHECK_PARENT, CATALOGUE_CHECK_NODE},
        {"trailing", CATALOGUE_CHECK_TRAILING, CATALOGUE_CHECK_NODE},
    };
    const char kind[2] = {leftover_letter(report), '\0'};
    if (!kind[0]) {
        json_string(j, "leftover", NULL);
        return;
    }
    json_open(j, "leftover", '{');
    json_string(j, "kind", kind);
    json_number(j, "collection", report[CATALOGUE_CHECK_COLLECTION]);
    for (size_t i = 0; i < sizeof parts / sizeof parts[0]; i++)
        if (report[parts[i].node] > 0)
            json_number(j, parts[i].name, report[parts[i].word]);
    json_close(j, '}');
}

static void json_collections(struct json *j, const uint64_t report[CATALOGUE_CHECK_WORDS])
{
    json_open(j, "collections", '[');
    for (uint64_t n = 1; n <= MOST_COLLECTIONS && report[CATALOGUE_CHECK_NODES_OF(n)] > 0; n++) {
        json_open(j, NULL, '{');
        json_number(j, "collection", n);
        json_number(j, "codes", report[CATALOGUE_CHECK_CODES_OF(n)]);
        json_number(j, "levels", report[CATALOGUE_CHECK_LEVELS_OF(n)]);
        json_number(j, "nodes", report[CATALOGUE_CHECK_NODES_OF(n)]);
        json_number(j, "fill_permille", fill_of(report, n));
        json_close(j, '}');
    }
    json_close(j, ']');
}

/* The same for check and stat: a script reads what it needs. */
static int print_json(const struct table *t)
{
    struct json j = {0};
    char why[EXPLANATION];
    uint64_t report[CATALOGUE_CHECK_WORDS], number = catalogue_check(t->base, t->words, report);
    json_open(&j, NULL, '{');
    json_string(&j, "table", t->name);
    json_number(&j, "status", number);
    json_string(&j, "state", number == 0 ? state_of(report) : "not sound");
    json_number(&j, "bytes", t->bytes);
    if (number != 0) {
        json_string(&j, "why", explain(number, t, 0, 0, why));
    } else {
        json_number(&j, "codes", codes_in(report));
        json_number(&j, "nodes", report[CATALOGUE_CHECK_NODES]);
        json_number(&j, "free", report[CATALOGUE_CHECK_FREE]);
        json_leftover(&j, report);
        json_collections(&j, report);
    }
    json_close(&j, '}');
    json_end();
    return (int)number;
}

/* ---- text */

static void print_stat(const struct table *t, const uint64_t report[CATALOGUE_CHECK_WORDS])
{
    printf("%s\n", t->name);
    printf("  state   %s\n  bytes   %" PRIu64 "\n  nodes   %" PRIu64 "\n  free    %" PRIu64 "\n", state_of(report), t->bytes,
           report[CATALOGUE_CHECK_NODES], report[CATALOGUE_CHECK_FREE]);
    for (uint64_t n = 1; n <= t->collections; n++) {
        uint64_t fill = fill_of(report, n);
        printf("collection %" PRIu64 "\n  codes   %" PRIu64 "\n  levels  %" PRIu64 "\n  nodes   %" PRIu64 "\n  fill    %" PRIu64 ".%" PRIu64 " %%\n",
               n, report[CATALOGUE_CHECK_CODES_OF(n)], report[CATALOGUE_CHECK_LEVELS_OF(n)], report[CATALOGUE_CHECK_NODES_OF(n)], fill / 10,
               fill % 10);
    }
}

int check_table(const struct table *t, struct command_line *l)
{
    return l->json ? print_json(t) : check(t);
}

int stat_table(const struct table *t, struct command_line *l)
{
    uint64_t report[CATALOGUE_CHECK_WORDS];
    if (l->json)
        return print_json(t);
    uint64_t number = catalogue_check(t->base, t->words, report);
    if (number != 0)
        return refuse(number, t, 0, 0);
    print_stat(t, report);
    return 0;
}
