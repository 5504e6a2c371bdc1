/* The lines of a load, and what becomes of them. */
#include "lines.h"

static void hand_back(struct loading *l, struct catalogue_file_line line, uint64_t number)
{
    struct catalogue_file_load *load = l->load;
    bool passed = number == 0 || number == CATALOGUE_FILE_THERE;
    line.number = number;
    line.there = number == CATALOGUE_KEY_PRESENT ? line.there : 0;
    if (load->done && !(passed && load->flags & CATALOGUE_FILE_BRIEF) && load->done(load->context, &line) != 0)
        l->over = true;
}

void line_added(struct loading *l, const struct catalogue_file_line *line, uint64_t number)
{
    uint64_t *count = number == 0 ? &l->load->added : number == CATALOGUE_FILE_THERE ? &l->load->there : &l->load->unknown;
    *count += 1;
    hand_back(l, *line, number);
}

void load_ends(struct loading *l, uint64_t number)
{
    if (l->number == 0)
        l->number = number;
    l->over = true;
}

void line_refused(struct loading *l, const struct catalogue_file_line *line, uint64_t number, bool ends)
{
    if (l->load->refused++ == 0)
        l->load->first_refused = number;
    if (ends || !(l->load->flags & CATALOGUE_FILE_KEEP_GOING)) {
        if (l->number == 0)
            refuses(l->f, number);
        load_ends(l, number);
    }
    hand_back(l, *line, number);
}

void line_not_taken(struct loading *l, const struct catalogue_file_line *line)
{
    l->load->not_taken++;
    hand_back(l, *line, line->number == 0 || line->number == CATALOGUE_FILE_THERE ? CATALOGUE_FILE_NOT_TAKEN : line->number);
}

bool line_same(struct catalogue_file_line *line, uint64_t recording, uint64_t access)
{
    bool same = recording == line->recording && (!line->classed || access == line->access);
    if (same)
        line->access = access;
    return same;
}

uint64_t line_range(const struct catalogue_file_line *line)
{
    if (line->recording == 0 || line->recording > CATALOGUE_MOST_RECORDING)
        return CATALOGUE_BAD_RECORDING;
    return line->access > CATALOGUE_CLOSED ? CATALOGUE_BAD_CLASS : 0;
}
