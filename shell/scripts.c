/* The short scripts that a tester runs, by their numbers. */
#include "scripts.h"

#include <inttypes.h>
#include <stdio.h>

#include "catalogue.h"
#include "planned.h"
#include "refusals.h"
#include "text.h"
#include "tree.h"

/* What the scripts are about: their keys, and the table that they start with. */
#define KEYS 3
#define NODES 4
#define WORDS (HEADER_WORDS + NODES * NODE_WORDS)

/* An action as a change: 0 to 2 insert keys 1 to 3, with recording 10 plus the key, 3 to 5 delete them. */
static struct change change_of(uint64_t action)
{
    uint64_t key = action % KEYS + 1;
    struct change c = {.kind = action < KEYS ? ADD : REMOVE, .key = key, .recording = 10 + key, .access = CATALOGUE_OPEN};
    return c;
}

/* One line: what is asked, and what came of it. */
static void act(struct table *t, uint64_t place, uint64_t action)
{
    static struct change c;
    char code[KEY_TEXT], pointer[POINTER_TEXT], why[EXPLANATION];
    c = change_of(action);
    printf("%" PRIu64 "  ", place);
    if (c.kind == ADD)
        printf("add %s,%s:", key_text(c.key, code), pointer_text(c.recording, c.access, pointer));
    else
        printf("remove %s:", key_text(c.key, code));
    uint64_t number = change_plan(&c, t);
    if (number != 0) {
        printf(" refused with %" PRIu64 ", %s\n", number, explain(number, t, c.key, c.recording, why));
        return;
    }
    printf(" done");
    counts_print(c.stores, c.flushes, c.barriers);
}

int script(uint64_t number)
{
    uint64_t actions[5], words[WORDS];
    struct table t = {.name = "the table", .words = WORDS, .collection = 1, .collections = 1, .working = words};
    uint64_t refused = catalogue_script(number, actions);
    if (refused != 0)
        return fail((int)refused, "%" PRIu64 ": the scripts have the numbers 0 to %d", number, CATALOGUE_SCRIPTS - 1);
    catalogue_make(words, WORDS, 1);
    printf("script %" PRIu64 ": %" PRIu64 " action%s\n", number, actions[0], actions[0] == 1 ? "" : "s");
    for (uint64_t i = 1; i <= actions[0]; i++)
        act(&t, i, actions[i]);
    return 0;
}
