/* Loading into an empty collection: its lines sorted and packed into a new file, which takes the table's place. */
#include "packing.h"

#include <stdlib.h>
#include <string.h>

#include "mapping.h"
#include "memory.h"
#include "pairs.h"
#include "stack.h"
#include "summary.h"
#include "taken.h"

/* Lines that come into an empty collection by a new file, in the end. */
struct packing {
    struct taken taken;
    struct held held; /* the other collection's pairs */
    uint64_t beside;  /* nodes that these take */
    uint64_t there;   /* lines that say what an earlier one says */
    /* The lines to hand back, in order, if they are: the pair and the tag of each. */
    uint32_t *pair;
    uint64_t *tag;
    size_t count, room;
};

uint64_t packing_begin(struct loading *l)
{
    struct packing *p = l->packing = calloc(1, sizeof *l->packing);
    if (!p)
        return no_memory(l->f);
    taken_begin(&p->taken);
    p->held.collections = 1;
    if (l->f->working[SECOND_ROOT] == 0)
        return 0;
    uint64_t number = held_read(&p->held, l->f);
    if (number == 0)
        p->beside = packed_nodes(p->held.count[2 - l->load->collection]);
    return number;
}

void packing_end(struct loading *l)
{
    if (!l->packing)
        return;
    taken_free(&l->packing->taken);
    held_free(&l->packing->held);
    free(l->packing->pair);
    free(l->packing->tag);
    free(l->packing);
    l->packing = NULL;
}

/* ---- taking lines */

static bool hands_back(const struct loading *l)
{
    return l->load->done && !(l->load->flags & CATALOGUE_FILE_BRIEF);
}

static bool more_room(struct packing *p)
{
    size_t room = 2 * p->room + 512;
    uint32_t *pair = realloc(p->pair, room * sizeof *pair);
    if (pair)
        p->pair = pair;
    uint64_t *tag = pair ? realloc(p->tag, room * sizeof *tag) : NULL;
    if (!tag)
        return false;
    p->tag = tag;
    p->room = room;
    return true;
}

/* A line to be handed back in the end, by its pair. */
static bool remember(struct loading *l, size_t pair, uint64_t tag)
{
    struct packing *p = l->packing;
    if (!hands_back(l))
        return true;
    if (p->count == p->room && !more_room(p))
        return false;
    p->pair[p->count] = (uint32_t)pair;
    p->tag[p->count++] = tag;
    return true;
}

/* The number that the line would be refused with on a table with the lines before it; *pair is the one with its code, or -1. */
static uint64_t judge(const struct loading *l, struct catalogue_file_line *line, int64_t *pair)
{
    const struct taken *t = &l->packing->taken;
    if (line->number != 0)
        return line->number;
    *pair = taken_find(t, line->key);
    uint64_t pointer = line->there = *pair < 0 ? 0 : t->pairs[2 * *pair + 1];
    if (*pair >= 0 && l->load->flags & CATALOGUE_FILE_AGAIN && line_same(line, CATALOGUE_RECORDING(pointer), CATALOGUE_CLASS(pointer)))
        return CATALOGUE_FILE_THERE;
    uint64_t number = line_range(line);
    if (number == 0 && *pair >= 0)
        number = CATALOGUE_KEY_PRESENT;
    if (number == 0 && taken_has_recording(t, line->recording))
        number = CATALOGUE_RECORDING_PRESENT;
    return number;
}

void packing_take(struct loading *l, struct catalogue_file_line line)
{
    struct packing *p = l->packing;
    struct taken *t = &p->taken;
    int64_t pair = -1;
    bool room = true;
    uint64_t number = judge(l, &line, &pair);
    if (number == CATALOGUE_FILE_THERE) {
        p->there++;
        room = remember(l, (size_t)pair, line.tag);
    } else if (number != 0) {
        line_refused(l, &line, number, false);
    } else if (p->beside + packed_nodes(t->count + 1) > (l->f->words - HEADER_WORDS) / NODE_WORDS) {
        line_refused(l, &line, CATALOGUE_NO_NODES, true);
    } else {
        room = remember(l, t->count, line.tag) && taken_add(t, line.key, CATALOGUE_POINTER(line.recording, line.access));
    }
    if (room)
        return;
    load_ends(l, no_memory(l->f));
    line_not_taken(l, &line);
    /* A line that was remembered and has no pair. */
    while (p->count > 0 && p->pair[p->count - 1] >= t->count)
        p->count--;
}

bool packing_line(const struct loading *l, size_t *at, struct catalogue_file_line *line)
{
    const struct packing *p = l->packing;
    bool told = hands_back(l);
    if (*at == (told ? p->count : p->taken.count))
        return false;
    const uint64_t *pair = p->taken.pairs + 2 * (told ? p->pair[*at] : *at);
    *line = (struct catalogue_file_line){.key = pair[0], .recording = CATALOGUE_RECORDING(pair[1]), .access = CATALOGUE_CLASS(pair[1]),
                                         .classed = 1, .tag = told ? p->tag[*at] : 0};
    *at += 1;
    return true;
}

/* ---- the new file */

/* Both collections' pairs into the working copy. */
static uint64_t pack(struct loading *l, const uint64_t *sorted)
{
    struct packing *p = l->packing;
    struct catalogue_file *f = l->f;
    const uint64_t *pairs[MOST_COLLECTIONS] = {sorted, sorted};
    size_t count[MOST_COLLECTIONS] = {p->held.count[0], p->held.count[1]};
    count[l->load->collection - 1] = p->taken.count;
    if (p->held.collections > 1)
        pairs[2 - l->load->collection] = p->held.words;
    summary_ends(f);
    uint64_t number = catalogue_pack(f->working, f->words, p->held.collections, pairs[0], 2 * count[0], pairs[1], 2 * count[1]);
    return number == 0 ? 0 : refuses(f, number);
}

static uint64_t put_packed(struct loading *l, bool *done)
{
    uint64_t *sorted = taken_sorted(&l->packing->taken);
    uint64_t number = sorted && stack_left() ? pack(l, sorted) : no_memory(l->f);
    free(sorted);
    if (number == 0)
        number = replace(l->f, done);
    if (*done)
        l->f->repaired = true;
    else
        memcpy(l->f->working, l->f->expected, bytes_of(l->f->words, false));
    return number;
}

/* All lines: added, in the table and perhaps not lasting, or not taken. */
static void hand_all_back(struct loading *l, uint64_t number, bool done)
{
    struct packing *p = l->packing;
    struct catalogue_file_line line;
    struct catalogue_file_load *load = l->load;
    uint64_t next = 0;
    for (size_t at = 0; hands_back(l) && packing_line(l, &at, &line);) {
        bool first = p->pair[at - 1] == next;
        next += first;
        if (!done)
            line_not_taken(l, &line);
        else
            line_added(l, &line, number != 0 ? number : first ? 0 : CATALOGUE_FILE_THERE);
    }
    if (hands_back(l))
        return;
    *(!done ? &load->not_taken : number != 0 ? &load->unknown : &load->added) += p->taken.count;
    *(!done ? &load->not_taken : number != 0 ? &load->unknown : &load->there) += p->there;
}

bool packing_finish(struct loading *l)
{
    struct packing *p = l->packing;
    /* Lines that memory is short for are not taken in part. */
    uint64_t number = l->number == CATALOGUE_FILE_NO_MEMORY ? l->number : 0;
    bool done = number == 0 && p->taken.count == 0;
    if (number == 0 && !done)
        number = put_packed(l, &done);
    if (number == 0 && !done) {
        /* There is no new file, and nothing failed. */
        l->load->there += hands_back(l) ? 0 : p->there;
        return false;
    }
    hand_all_back(l, number, done);
    if (number != 0)
        load_ends(l, number);
    return true;
}
