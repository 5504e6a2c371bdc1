/* The summary of a writer's working copy: with it a change looks at the nodes on the way to its key alone. */
#include "summary.h"

#include <stdlib.h>

void summary_room(struct catalogue_file *f)
{
    f->summary_words = catalogue_summary_words((f->words - HEADER_WORDS) / NODE_WORDS);
    f->summary = malloc(f->summary_words * sizeof *f->summary);
}

uint64_t summary_begin(struct catalogue_file *f)
{
    if (!f->summary || f->summarized)
        return 0;
    uint64_t number = catalogue_summary(f->working, f->words, f->summary, f->summary_words);
    f->summarized = number == 0;
    return number == CATALOGUE_NOT_SETTLED ? 0 : number;
}

void summary_ends(struct catalogue_file *f)
{
    f->summarized = false;
}

uint64_t summary_number(struct catalogue_file *f, uint64_t number)
{
    if (number != CATALOGUE_NOT_SOUND && number != CATALOGUE_OTHER_SUMMARY)
        return number;
    /* Both copies and the summary are made anew before they are used. */
    f->stale = true;
    summary_ends(f);
    return CATALOGUE_FILE_OVERWRITTEN;
}

uint64_t summary_list(struct catalogue_file *f, uint64_t collection, uint64_t low, uint64_t high, uint64_t *out, size_t room, uint64_t *pairs,
                      uint64_t *more)
{
    if (!f->summarized)
        return catalogue_list(f->working, f->words, collection, low, high, out, room, pairs, more);
    return summary_number(f, catalogue_quick_list(f->working, f->words, f->summary, f->summary_words, collection, low, high, out, room, pairs, more));
}
