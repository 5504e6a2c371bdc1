/* The exit statuses in one list: the library's refusal numbers and the program's own. */
#include "refusals.h"

#include <inttypes.h>
#include <signal.h>
#include <stdio.h>
#include <stdlib.h>
#include <string.h>

#include "text.h"
#include "tree.h"

const struct refusal refusals[] = {
    {CATALOGUE_NO_CODE, "not a code, or a code to find absent", NULL},
    {CATALOGUE_NO_TABLE, "no table", "{table} is not a table: its header or its length is wrong"},
    {CATALOGUE_SEARCH_LOST, "damaged on a search's way",
     "{table} is damaged on the way to {code}, or to the next code up: a node number, a level or a sibling is wrong"},
    {CATALOGUE_NOT_SOUND, "not sound",
     "{table} is not sound: some of its words are damaged; find still answers if it can, and catalogue salvage {table} NEW keeps what can be "
     "read"},
    {CATALOGUE_SHORT_LIST, "order list too short", "the order list is too short"},
    {CATALOGUE_BAD_RECORDING, "recording 0 or too large", "{recording}: " RECORDINGS},
    {CATALOGUE_KEY_PRESENT, "code there already", "{code} is in {part}{table} already"},
    {CATALOGUE_RECORDING_PRESENT, "recording there already", "recording {recording} is in {part}{table} under {holder}"},
    {CATALOGUE_KEY_ABSENT, "code to change absent", "{code} is not in {part}{table}"},
    {CATALOGUE_NO_NODES, "no free nodes",
     "{table} is full: adding {code} takes more nodes than are free; catalogue copy {table} NEW NODES makes a larger table"},
    {CATALOGUE_TOO_HIGH, "tree too high", "{part}{table} is full: its tree has 16 levels and adding {code} would take one more"},
    {CATALOGUE_BAD_ORDERS, "order outside the table", "an order lies outside of {table}"},
    {CATALOGUE_BAD_CLASS, "no such class", CLASSES},
    {CATALOGUE_OTHER_LENGTH, "second slice of another length", NULL},
    {CATALOGUE_SHORT_REPORT, "report of a salvage too short", NULL},
    {CATALOGUE_NO_COLLECTION, "no such collection",
     "{table} has no collection {collection}; a table has collection 1, and 2 if it was made with --loan"},
    {CATALOGUE_NO_DOCK, "no such dock", NULL},
    {CATALOGUE_OTHER_SENTINELS, "sentinels of another length", NULL},
    {CATALOGUE_NOT_SETTLED, "judge: a change is unfinished", "{table} has an unfinished change; catalogue repair {table} finishes it"},
    {CATALOGUE_CHANGE_REFUSED, "judge: the change itself is refused", NULL},
    {CATALOGUE_NO_SCRIPT, "no script with this number", NULL},
    {CATALOGUE_BAD_SCRIPT, "actions that are no script", NULL},
    {CATALOGUE_SHORT_FIGURES, "too little room for wear figures", "there is too little room for the wear figures"},
    {CATALOGUE_BAD_PAIRS, "pairs that cannot be packed", "{table}: the pairs to be packed do not rise, or one is out of range or there twice"},
    {CATALOGUE_OTHER_SUMMARY, "summary of another length", NULL},
    {BAD_USAGE, "wrong command line", NULL},
    {BAD_LINE, "wrong line in a file", NULL},
    {BAD_FILE, "a file cannot be read or written, or another program uses it or changed it", NULL},
    {BY_SIGNAL + SIGINT, "load ended by an interrupt", NULL},
    {BY_SIGNAL + SIGTERM, "load ended by a request to terminate", NULL},
    {CATALOGUE_NO, "judge: no", NULL},
    {0, NULL, NULL},
};

static const char *message_of(uint64_t number)
{
    const struct refusal *r = refusals;
    while (r->name && r->number != number)
        r++;
    return r->message;
}

bool holder_of(const struct table *t, uint64_t recording, uint64_t *key)
{
    size_t room = t->base ? 2 * 11 * (t->words / NODE_WORDS) : 0;
    uint64_t *pairs = calloc(room + 1, sizeof *pairs), count = 0, more;
    bool there = false;
    if (room == 0 || !pairs || catalogue_list(t->base, t->words, t->collection, 0, UINT64_MAX, pairs, room, &count, &more) != 0)
        count = 0;
    for (uint64_t i = 0; i < count && !there; i++) {
        there = CATALOGUE_RECORDING(pairs[2 * i + 1]) == recording;
        *key = pairs[2 * i];
    }
    free(pairs);
    return there;
}

const char *explain(uint64_t number, const struct table *t, uint64_t key, uint64_t recording, char text[EXPLANATION])
{
    char code[KEY_TEXT], digits[KEY_TEXT], part[PART_TEXT], collection[KEY_TEXT], holder[KEY_TEXT] = "another code";
    uint64_t held;
    if (number == CATALOGUE_RECORDING_PRESENT && holder_of(t, recording, &held))
        key_text(held, holder);
    snprintf(digits, sizeof digits, "%" PRIu64, recording);
    snprintf(collection, sizeof collection, "%" PRIu64, t->collection);
    const struct {
        const char *name, *value;
    } fields[] = {{"{table}", t->name}, {"{part}", table_part(t, part)}, {"{collection}", collection}, {"{code}", key_text(key, code)},
                  {"{recording}", digits}, {"{holder}", holder}};
    const char *from = message_of(number);
    if (!from)
        from = catalogue_file_strerror(number);
    size_t used = 0;
    while (*from && used < EXPLANATION - 1) {
        size_t taken = 1;
        text[used] = *from;
        text[used + 1] = '\0';
        for (size_t i = 0; i < sizeof fields / sizeof fields[0]; i++)
            if (strncmp(from, fields[i].name, strlen(fields[i].name)) == 0) {
                taken = strlen(fields[i].name);
                snprintf(text + used, EXPLANATION - used, "%s", fields[i].value);
            }
        used += strlen(text + used);
        from += taken;
    }
    return text;
}

int refuse(uint64_t number, const struct table *t, uint64_t key, uint64_t recording)
{
    char text[EXPLANATION];
    return fail((int)number, "%s", explain(number, t, key, recording, text));
}
