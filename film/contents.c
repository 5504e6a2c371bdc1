/* What a sound table has, as catalogue_check reports it, in words. */
#include "contents.h"

#include <inttypes.h>
#include <stdbool.h>

uint64_t codes_in(const uint64_t report[CATALOGUE_CHECK_WORDS])
{
    return report[CATALOGUE_CHECK_CODES_OF(1)] + report[CATALOGUE_CHECK_CODES_OF(2)];
}

uint64_t nodes_in(const uint64_t report[CATALOGUE_CHECK_WORDS])
{
    return report[CATALOGUE_CHECK_NODES] - report[CATALOGUE_CHECK_FREE];
}

/* A collection has a root at least. */
static bool has_two(const uint64_t report[CATALOGUE_CHECK_WORDS])
{
    return report[CATALOGUE_CHECK_NODES_OF(2)] > 0;
}

void collections_print(const uint64_t report[CATALOGUE_CHECK_WORDS])
{
    for (uint64_t n = 1; has_two(report) && n <= 2; n++) {
        uint64_t codes = report[CATALOGUE_CHECK_CODES_OF(n)], nodes = report[CATALOGUE_CHECK_NODES_OF(n)];
        printf("collection %" PRIu64 ": %" PRIu64 " code%s in %" PRIu64 " node%s\n", n, codes, codes == 1 ? "" : "s", nodes,
               nodes == 1 ? "" : "s");
    }
}

char leftover_letter(const uint64_t report[CATALOGUE_CHECK_WORDS])
{
    static const char letters[] = {[CATALOGUE_SETTLED] = 0, [CATALOGUE_LEFT_A] = 'a', [CATALOGUE_LEFT_B] = 'b', [CATALOGUE_LEFT_C] = 'c'};
    return letters[report[CATALOGUE_CHECK_LEFTOVER]];
}

void leftover_print(const uint64_t report[CATALOGUE_CHECK_WORDS], FILE *out)
{
    uint64_t left = report[CATALOGUE_CHECK_LEFTOVER], trailing = report[CATALOGUE_CHECK_TRAILING];
    if (left == CATALOGUE_SETTLED)
        return;
    fprintf(out, "leftover (%c)", leftover_letter(report));
    if (has_two(report))
        fprintf(out, " in collection %" PRIu64, report[CATALOGUE_CHECK_COLLECTION]);
    if (left == CATALOGUE_LEFT_A)
        fprintf(out, ": node %" PRIu64 " has a hidden slot, slot %" PRIu64, report[CATALOGUE_CHECK_HIDDEN_NODE],
                report[CATALOGUE_CHECK_HIDDEN_SLOT]);
    else
        fprintf(out, ": node %" PRIu64 ", the sibling of node %" PRIu64 ", lacks its slot in node %" PRIu64, report[CATALOGUE_CHECK_NODE],
                report[CATALOGUE_CHECK_NEIGHBOUR], report[CATALOGUE_CHECK_PARENT]);
    if (left == CATALOGUE_LEFT_C)
        fprintf(out, ", which has a hidden slot, slot %" PRIu64, report[CATALOGUE_CHECK_HIDDEN_SLOT]);
    if (trailing > 0)
        fprintf(out, "; node %" PRIu64 " has %" PRIu64 " trailing slot%s", report[CATALOGUE_CHECK_NEIGHBOUR], trailing, trailing == 1 ? "" : "s");
    fprintf(out, "\n");
}
