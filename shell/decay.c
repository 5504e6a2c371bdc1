/* Words that decay: the file of sums switched on and off, and every line of a table looked at. */
#include "decay.h"

#include <inttypes.h>
#include <stdio.h>
#include <string.h>

#include "text.h"

int switch_sums(struct opened *o, struct command_line *l)
{
    bool on = strcmp(l->words[2], "on") == 0;
    uint64_t number = catalogue_file_sums(o->file, on);
    if (number != 0)
        return opened_fails(o, number, "");
    o->made = true;
    printf(on ? "%s has sums: in %s.sums\n" : "%s has no sums\n", o->table.name, o->table.name);
    return 0;
}

/* How many bits two sums differ in: a sum that decayed by one bit differs from the right one in that bit, a line that did in many. */
static int bits_between(uint64_t one, uint64_t other)
{
    int bits = 0;
    for (uint64_t left = one ^ other; left != 0; left &= left - 1)
        bits++;
    return bits;
}

static int say_doubt(void *context, const struct catalogue_file_doubt *d)
{
    static const char *const parts[] = {"left, sibling, level and fence", "slots 0 to 3", "slots 4 to 7", "slots 8 to 11"};
    uint64_t *count = context;
    const char *sum = bits_between(d->sum, d->words) == 1 ? "; one bit of the sum itself may have decayed" : "";
    ++*count;
    if (d->node == 0)
        printf("the header does not fit its sum%s\n", sum);
    else
        printf("node %" PRIu64 ", %s: does not fit its sum%s\n", d->node, parts[d->line], sum);
    return 0;
}

int scrub(struct opened *o, struct command_line *l)
{
    uint64_t count = 0, number = catalogue_file_scrub(o->file, say_doubt, &count);
    (void)l;
    if (number == CATALOGUE_FILE_NO_SUMS)
        return opened_fails(o, number, "; catalogue sums TABLE on makes one");
    if (number == CATALOGUE_FILE_DECAYED || number == CATALOGUE_FILE_UNSUMMED)
        return fail(BAD_FILE, "%s: %" PRIu64 " line%s not fit: %s", o->table.name, count, count == 1 ? " does" : "s do", catalogue_file_strerror(number));
    if (number != 0)
        return opened_fails(o, number, "");
    printf("%s: every word fits its sum\n", o->table.name);
    return 0;
}
