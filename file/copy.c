/* Copies: a new file with the same codes, packed. */
#include <inttypes.h>
#include <stdlib.h>

#include "make.h"
#include "memory.h"
#include "moment.h"
#include "newfile.h"
#include "pairs.h"
#include "stack.h"

static uint64_t copy_pairs(struct catalogue_file *f, const struct held *h, const char *name, uint64_t *nodes)
{
    uint64_t needed = packed_nodes(h->count[0]) + (h->collections > 1 ? packed_nodes(h->count[1]) : 0), *table;
    uint64_t wanted = *nodes == 0 ? needed : *nodes;
    size_t words, first = 2 * h->count[0], second = 2 * h->count[1];
    uint64_t number = empty_table(f, wanted, h->collections, &table, &words);
    if (number != 0)
        return number;
    number = catalogue_pack(table, words, h->collections, h->words, first, h->words + first, second);
    if (number == 0)
        number = new_file(f, name, table, words);
    else if (number == CATALOGUE_NO_NODES)
        fails(f, number, "the codes of %s, packed, take %" PRIu64 " nodes, more than %" PRIu64, f->name, needed, wanted);
    else
        refuses(f, number);
    free(table);
    if (number == 0)
        *nodes = wanted;
    return number;
}

uint64_t catalogue_file_copy(catalogue_file *f, const char *name, uint64_t *nodes)
{
    struct held h = {0};
    uint64_t number = must_be_open(f);
    if (number == 0)
        number = whole_table(f);
    if (number == 0)
        number = stack_left() ? held_read(&h, f) : no_memory(f);
    if (number == 0)
        number = copy_pairs(f, &h, name, nodes);
    held_free(&h);
    return number;
}
