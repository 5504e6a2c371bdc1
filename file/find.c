/* Finding a code, and walking from one on: each step is a search of its own, beside any writer. */
#include "memory.h"
#include "open.h"
#include "sums.h"

static uint64_t look(struct catalogue_file *f, uint64_t collection, uint64_t key, struct looks_answer *a)
{
    uint64_t number = follow_name(f);
    if (number == 0)
        number = sums_refuse(f);
    if (number == 0)
        number = looks_search(&f->looks, collection, key, a);
    return number == LOOKS_DECAYED ? sums_doubt(f, f->looks.doubted, f->looks.valid) : number;
}

/* What the sums refuse is looked at once more with the table and the sums that are there now: another file may just have taken their place. */
static uint64_t look_twice(struct catalogue_file *f, uint64_t collection, uint64_t key, struct looks_answer *a)
{
    uint64_t number = look(f, collection, key, a);
    if (!sums_refused(number))
        return number;
    number = open_sums(f);
    return number == 0 ? look(f, collection, key, a) : number;
}

/* A reader's search looks at memory, a writer's at its copy. */
static uint64_t search(struct catalogue_file *f, uint64_t collection, uint64_t key, struct looks_answer *a)
{
    if (f->writing) {
        uint64_t number = refresh(f);
        if (number == 0)
            number = sums_refuse(f);
        if (number != 0)
            return number;
        *a = (struct looks_answer){0};
        return catalogue_search(f->working, f->words, collection, key, &a->recording, &a->access, &a->next, &a->higher);
    }
    return look_twice(f, collection, key, a);
}

/* Why there is no answer. */
static uint64_t no_answer(struct catalogue_file *f, uint64_t number)
{
    if (number == LOOKS_BUSY)
        return fails(f, CATALOGUE_FILE_BUSY, "%s is changed faster than it can be read", f->name);
    return number < CATALOGUE_FILE_NO_FILE ? refuses(f, number) : number;
}

uint64_t catalogue_file_find(catalogue_file *f, uint64_t collection, uint64_t key, struct catalogue_file_pair *found)
{
    struct looks_answer a = {0};
    *found = (struct catalogue_file_pair){.key = key};
    uint64_t number = must_be_open(f);
    if (number != 0)
        return number;
    number = search(f, collection, key, &a);
    /* A slot that no sound table has: its recording must not play. */
    if (number == 0 && (a.access > CATALOGUE_CLOSED || a.recording == 0))
        number = CATALOGUE_NOT_SOUND;
    if (number == 0 || number == CATALOGUE_ABSENT)
        *found = (struct catalogue_file_pair){key, a.recording, a.access, a.higher, a.next};
    else
        number = no_answer(f, number);
    return number;
}

uint64_t catalogue_file_next(catalogue_file *f, uint64_t collection, uint64_t low, struct catalogue_file_pair *found)
{
    uint64_t number = catalogue_file_find(f, collection, low, found);
    /* The next code may be removed before it is found; then that search answers which one is next. */
    while (number == CATALOGUE_ABSENT && found->higher) {
        /* In a damaged table codes need not rise. */
        if (found->next <= found->key)
            return no_answer(f, CATALOGUE_SEARCH_LOST);
        number = catalogue_file_find(f, collection, found->next, found);
    }
    return number;
}

uint64_t catalogue_file_walk(catalogue_file *f, uint64_t collection, uint64_t low, uint64_t high,
                             int (*each)(void *context, const struct catalogue_file_pair *pair), void *context)
{
    struct catalogue_file_pair pair;
    uint64_t number = 0;
    for (bool more = low <= high; more; low = pair.key + 1) {
        number = catalogue_file_next(f, collection, low, &pair);
        if (number != 0 || pair.key > high)
            break;
        if (each(context, &pair) != 0)
            return fails(f, CATALOGUE_FILE_STOPPED, "%s: the walk was ended", f->name);
        more = pair.key < high;
    }
    return number == CATALOGUE_ABSENT ? 0 : number;
}
