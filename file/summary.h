/* The summary of a writer's working copy: with it a change looks at the nodes on the way to its key alone. */
#ifndef SUMMARY_H
#define SUMMARY_H

#include "handle.h"

/* Memory for it. If there is none the handle goes on without a summary, by calls that check the whole table. */
void summary_room(struct catalogue_file *f);

/*
 * Before a change is planned: works the summary out if it is not true of the working copy. 0 also if there is no memory for one, or if a change
 * is unfinished: then there is none. Else the number of a table that is not sound.
 */
uint64_t summary_begin(struct catalogue_file *f);

/* The working copy gets other words than a quick call stores. */
void summary_ends(struct catalogue_file *f);

/* The number of a quick call; what none returns on a copy that its summary is true of becomes CATALOGUE_FILE_OVERWRITTEN. */
uint64_t summary_number(struct catalogue_file *f, uint64_t number);

/* catalogue_list on the working copy, by its summary if that is true of it. */
uint64_t summary_list(struct catalogue_file *f, uint64_t collection, uint64_t low, uint64_t high, uint64_t *out, size_t room, uint64_t *pairs,
                      uint64_t *more);

#endif
