/* The codes of a table, in order. */
#include "list.h"

#include <inttypes.h>
#include <stdio.h>

#include "json.h"
#include "all_pairs.h"
#include "prefix.h"
#include "text.h"

static int read_prefix(struct command_line *l, const char *word)
{
    if (prefix_range(word, &l->low, &l->high))
        return 0;
    return fail(CATALOGUE_NO_CODE, "%.40s: not a code or the beginning of one, as AA-000", word);
}

int list_range(struct command_line *l)
{
    int status = 0;
    l->high = UINT64_MAX;
    if (l->count > 2 && (l->from || l->to))
        return WRONG_FORM;
    if (l->count == 3)
        return read_prefix(l, l->words[2]);
    const char *from = l->count > 3 ? l->words[2] : l->from, *to = l->count > 3 ? l->words[3] : l->to;
    if (from)
        status = read_code_word(from, &l->low);
    if (status == 0 && to)
        status = read_code_word(to, &l->high);
    return status;
}

static void print_lines(const struct listing *g, bool header)
{
    char code[KEY_TEXT], pointer[POINTER_TEXT];
    if (header)
        printf("code,recording,class\n");
    for (uint64_t i = 0; i < g->count; i++)
        printf("%s,%s\n", key_text(g->pairs[i].key, code),
               pointer_text(CATALOGUE_RECORDING(g->pairs[i].pointer), CATALOGUE_CLASS(g->pairs[i].pointer), pointer));
}

/* What both SQLite and PostgreSQL read; a table for each collection. A key that no code has is # and up to 20 digits. */
static int print_schema(const struct table *t)
{
    printf("CREATE TABLE %s (\n"
           "    code VARCHAR(21) NOT NULL PRIMARY KEY,\n"
           "    recording BIGINT NOT NULL UNIQUE CHECK (recording BETWEEN 1 AND %" PRIu64 "),\n"
           "    class VARCHAR(6) NOT NULL CHECK (class IN ('open', 'room', 'closed'))\n"
           ");\n",
           t->collection == 2 ? "loans" : "recordings", CATALOGUE_MOST_RECORDING);
    return 0;
}

static void print_json(const struct listing *g)
{
    struct json j = {0};
    char code[KEY_TEXT], class[KEY_TEXT];
    json_open(&j, NULL, '[');
    for (uint64_t i = 0; i < g->count; i++) {
        json_open(&j, NULL, '{');
        json_string(&j, "code", key_text(g->pairs[i].key, code));
        json_recording(&j, "recording", CATALOGUE_RECORDING(g->pairs[i].pointer));
        json_string(&j, "class", class_text(CATALOGUE_CLASS(g->pairs[i].pointer), class));
        json_close(&j, '}');
    }
    json_close(&j, ']');
    json_end();
}

int list(const struct table *t, struct command_line *l)
{
    struct listing g;
    if (l->schema)
        return print_schema(t);
    int status = listing_read(&g, t, l->low, l->high);
    if (status == 0 && l->json)
        print_json(&g);
    else if (status == 0)
        print_lines(&g, l->header);
    listing_free(&g);
    return status;
}
