/* The calls of the file of sums: switched on and off, and every line looked at. */
#include <errno.h>
#include <stdlib.h>

#include "change.h"
#include "memory.h"
#include "moment.h"
#include "newfile.h"
#include "open.h"
#include "stack.h"
#include "sums.h"

static uint64_t not_switched(struct catalogue_file *f)
{
    if (errno == ENOMEM)
        return no_memory(f);
    bool forbidden = errno == EACCES || errno == EPERM || errno == EROFS;
    return fails_for(f, forbidden ? CATALOGUE_FILE_NOT_ALLOWED : CATALOGUE_FILE_DISK, "the file of sums of %s cannot be changed", f->name);
}

/* The trailer's word, lasting. */
static uint64_t identify(struct catalogue_file *f, uint64_t identity)
{
    uint64_t *word = &f->mapped[f->words + TRAILER_SUMS];
    shared_store(word, identity);
    bool kept = f->persistent ? f->carrying.flush->line(word) : flush_pages(f->mapped, (f->words + TRAILER_WORDS) * sizeof *word);
    fstat(f->file, &f->left);
    return kept ? 0 : not_switched(f);
}

/*
 * The file under its other name, then the trailer's word, then its own name: a cut in between leaves a table without sums, or one that finds them
 * under the other name.
 */
static uint64_t switch_on(struct catalogue_file *f)
{
    uint64_t report[CATALOGUE_CHECK_WORDS], identity = sums_identity();
    if (!stack_left())
        return no_memory(f);
    uint64_t number = catalogue_check(f->working, f->words, report);
    if (number != 0)
        return refuses(f, number);
    if (sums_taken(f))
        return fails(f, CATALOGUE_FILE_EXISTS, "%s.sums exists already, and is no file of sums", f->name);
    const uint64_t *counter = &f->mapped[f->words + TRAILER_COUNTER];
    if (!sums_prepare(f, f->working, identity, shared_load(counter)))
        return not_switched(f);
    number = identify(f, identity);
    if (number == 0 && !sums_put(f))
        number = not_switched(f);
    return number;
}

static uint64_t switch_off(struct catalogue_file *f)
{
    /* What lies beside a table that has none is another's. */
    if (f->sums.identity == 0 && f->sums.trouble == 0)
        return 0;
    if (!sums_drop(f))
        return not_switched(f);
    uint64_t number = identify(f, 0);
    if (number == 0 && !sync_name(f->path, f->file))
        number = not_switched(f);
    return number;
}

uint64_t catalogue_file_sums(catalogue_file *f, uint64_t on)
{
    uint64_t number = must_write(f);
    if (number == 0 && on > 1)
        number = fails(f, CATALOGUE_FILE_BAD_OPTION, "sums are switched on by 1 and off by 0");
    if (number == 0)
        number = on == 1 ? begin_change(f) : refresh(f);
    if (number != 0 || (on == 1 && f->sums.mapped))
        return number;
    number = on == 1 ? switch_on(f) : switch_off(f);
    uint64_t opened = sums_open(f);
    if (opened == 0)
        opened = sums_take(f);
    return number != 0 ? number : opened;
}

/* ---- every line */

/* Lines of one moment that do not fit. */
struct doubts {
    struct catalogue_file_doubt *of;
    size_t count, room;
};

static bool enter(struct doubts *d, const struct catalogue_file_doubt *doubt)
{
    if (d->count == d->room) {
        size_t room = 2 * d->room + 64;
        struct catalogue_file_doubt *of = realloc(d->of, room * sizeof *of);
        if (!of)
            return false;
        d->of = of;
        d->room = room;
    }
    d->of[d->count++] = *doubt;
    return true;
}

static uint64_t gather(struct catalogue_file *f, struct doubts *d)
{
    struct catalogue_file_doubt doubt;
    d->count = 0;
    for (uint64_t line = 0; line < f->words / LINE_WORDS; line++)
        if (!sums_judge(&f->sums, f->working + LINE_WORDS * line, line, &doubt) && !enter(d, &doubt))
            return no_memory(f);
    return 0;
}

static bool is_doubt(uint64_t number)
{
    return number == CATALOGUE_FILE_DECAYED || number == CATALOGUE_FILE_UNSUMMED;
}

/* The table of one moment, and all of its lines that do not fit. The sums are those of that moment if the counter has not moved since. */
static uint64_t look_at_all(struct catalogue_file *f, struct doubts *d)
{
    const uint64_t *counter;
    uint64_t number, moment, gathered;
    /* A writer's copies are as old as its last reading. */
    f->stale = f->stale || (f->writing && f->sums.mapped);
    do {
        number = whole_table(f);
        if (!is_doubt(number))
            return number;
        counter = &f->mapped[f->words + TRAILER_COUNTER];
        moment = f->sums.counter;
        gathered = gather(f, d);
    } while (gathered == 0 && !f->writing && shared_load(counter) != moment);
    return gathered != 0 ? gathered : number;
}

static uint64_t hand_out(struct catalogue_file *f, const struct doubts *d,
                         int (*each)(void *context, const struct catalogue_file_doubt *doubt), void *context)
{
    for (size_t i = 0; each && i < d->count; i++)
        if (each(context, &d->of[i]) != 0)
            return fails(f, CATALOGUE_FILE_STOPPED, "%s: the scrub was ended", f->name);
    return 0;
}

uint64_t catalogue_file_scrub(catalogue_file *f, int (*each)(void *context, const struct catalogue_file_doubt *doubt), void *context)
{
    uint64_t report[CATALOGUE_CHECK_WORDS], number = must_be_open(f);
    struct doubts d = {0};
    if (number == 0)
        number = look_at_all(f, &d);
    uint64_t handed = is_doubt(number) ? hand_out(f, &d, each, context) : 0;
    free(d.of);
    if (handed != 0)
        return handed;
    if (number == 0 && !f->sums.mapped)
        number = fails(f, CATALOGUE_FILE_NO_SUMS, "%s has no file of sums", f->name);
    if (number == 0 && !stack_left())
        number = no_memory(f);
    if (number != 0)
        return number;
    number = catalogue_check(f->working, f->words, report);
    return number == 0 ? 0 : refuses(f, number);
}
