/* Changes of a table, and their orders. */
#include "changes.h"

#include <inttypes.h>
#include <stdio.h>

#include "orderwords.h"
#include "text.h"

/* What the library is asked for. */
static struct catalogue_file_change asked(const struct opened *o, const struct change *c)
{
    return (struct catalogue_file_change){.kind = c->kind, .collection = o->table.collection, .key = c->key, .recording = c->recording,
                                          .access = c->access, .cut = CATALOGUE_FILE_ALL};
}

static uint64_t orders_of(const struct catalogue_file_change *c)
{
    return c->stores + c->flushes + c->barriers;
}

static void say_done(const struct catalogue_file_change *c)
{
    char code[KEY_TEXT], class[KEY_TEXT], pointer[POINTER_TEXT];
    key_text(c->key, code);
    if (c->kind == ADD)
        printf("added %s,%s", code, pointer_text(c->recording, c->access, pointer));
    else if (c->kind == REMOVE)
        printf("removed %s", code);
    else if (c->kind == CLASS)
        printf("class of %s is %s", code, class_text(c->access, class));
    else
        printf(c->stores == 0 ? "nothing to repair" : "repaired");
    counts_print(c->stores, c->flushes, c->barriers);
}

/* What became of a change that failed. */
static const char *what_is_left(const struct opened *o, const struct catalogue_file_change *c)
{
    if (catalogue_file_outcome(o->file) != CATALOGUE_FILE_NOT_MADE)
        return "; the change is made now, a power cut may take it back, and repair waits for the disk once more";
    return c->carried == 0 ? "; nothing more was changed" : "; the codes are as before, and repair finishes what was begun";
}

static int finish_change(struct opened *o, const struct catalogue_file_change *c, bool cut)
{
    o->made = true;
    int status = opened_settle(o);
    if (status == 0)
        status = opened_compare(o);
    if (status == 0 && cut)
        printf("cut off after %" PRIu64 " of %" PRIu64 " orders; show draws what is left\n", c->cut, orders_of(c));
    if (status == 0 && !cut)
        say_done(c);
    return status;
}

/* A cut change: whatever a power cut leaves of it is a first part of its stores, so that a count of orders shows every case. */
int make_change(struct opened *o, struct command_line *l)
{
    struct catalogue_file_change c = asked(o, &l->change);
    if (l->given & CUT)
        c.cut = l->cut < CATALOGUE_FILE_ALL ? l->cut : CATALOGUE_FILE_ALL - 1;
    uint64_t number = catalogue_file_change(o->file, &c);
    if (number == CATALOGUE_FILE_BAD_OPTION)
        return fail(BAD_USAGE, "--cut %" PRIu64 ": this change has %" PRIu64 " orders; nothing was changed", l->cut, orders_of(&c));
    if (number != 0 && number != CATALOGUE_FILE_CUT)
        return opened_refuses(o, number, c.key, c.recording, what_is_left(o, &c));
    return finish_change(o, &c, number == CATALOGUE_FILE_CUT);
}

void print_list(const struct table *t, const struct command_line *l, const uint64_t *orders, size_t count)
{
    if (l->in_words)
        orders_words(stdout, t->base, t->words, orders, count, true);
    else
        orders_print(orders, count);
}

int print_orders(struct opened *o, struct command_line *l)
{
    struct catalogue_file_change c = asked(o, &l->change);
    const uint64_t *orders;
    uint64_t number = catalogue_file_plan(o->file, &c, &orders);
    if (number != 0)
        return opened_refuses(o, number, c.key, c.recording, "");
    /* Which nodes are leaves the table says. */
    int status = l->in_words ? opened_read(o) : 0;
    if (status != 0)
        return status;
    print_list(&o->table, l, orders, orders_of(&c));
    printf("not made");
    counts_print(c.stores, c.flushes, c.barriers);
    return 0;
}
