/* New, empty tables, and what is open. */
#include "make.h"

#include <inttypes.h>
#include <stdlib.h>

#include "mapping.h"
#include "memory.h"
#include "newfile.h"
#include "open.h"

uint64_t empty_table(struct catalogue_file *f, uint64_t nodes, uint64_t collections, uint64_t **table, size_t *words)
{
    *words = nodes <= MOST_NODES ? words_for(nodes) : 0;
    *table = calloc(*words + 1, sizeof **table);
    if (!*table)
        return no_memory(f);
    uint64_t number = catalogue_make(*table, *words, collections);
    if (number == 0)
        return 0;
    free(*table);
    *table = NULL;
    if (number == CATALOGUE_NO_COLLECTION)
        return fails(f, number, "a table has one collection or two, not %" PRIu64, collections);
    /* A root for each. */
    return fails(f, number, "a table%s has %" PRIu64 " to %d nodes, not %" PRIu64, collections == 1 ? "" : " of two collections", collections,
                 MOST_NODES, nodes);
}

uint64_t catalogue_file_create(catalogue_file *f, const char *name, uint64_t nodes, uint64_t collections)
{
    uint64_t *table;
    size_t words;
    uint64_t number = empty_table(f, nodes, collections, &table, &words);
    if (number == 0)
        number = new_file(f, name, table, words);
    free(table);
    return number;
}

uint64_t catalogue_file_about(catalogue_file *f, struct catalogue_file_about *about)
{
    uint64_t number = must_be_open(f);
    if (number == 0 && !f->writing)
        number = follow_name(f);
    if (number != 0)
        return number;
    /* A writer does not look at the mapped words but for a change: the file may have become shorter. */
    const uint64_t *words = f->writing ? f->expected : f->mapped;
    *about = (struct catalogue_file_about){.nodes = (f->words - HEADER_WORDS) / NODE_WORDS,
                                           .collections = shared_load(&words[SECOND_ROOT]) == 0 ? 1 : 2,
                                           .words = f->words,
                                           .writing = f->writing,
                                           .persistent = f->writing && f->persistent,
                                           .trailer = f->trailer};
    return 0;
}

uint64_t catalogue_file_sync(catalogue_file *f)
{
    uint64_t number = must_write(f);
    if (number == 0)
        number = settle(f);
    /* The table answered as after the change, and now all of it lasts. */
    if (number == 0 && f->outcome == CATALOGUE_FILE_UNKNOWN)
        f->outcome = CATALOGUE_FILE_MADE;
    return number;
}

uint64_t catalogue_file_compare(catalogue_file *f)
{
    uint64_t number = must_write(f);
    if (number == 0)
        number = refresh(f);
    return number == 0 ? still_ours(f, NULL, 0) : number;
}
