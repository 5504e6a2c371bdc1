/* Recordings by their codes, and codes by their recordings. */
#include "lookup.h"

#include <inttypes.h>
#include <stdio.h>
#include <stdlib.h>
#include <string.h>

#include "json.h"
#include "all_pairs.h"
#include "refusals.h"
#include "rows.h"
#include "text.h"

struct asking {
    struct opened *opened;
    const struct command_line *line;
    bool several;           /* each answer names its code */
    struct listing holders; /* for recordings: all pairs by recording */
    struct json json;
    int status;
    bool mild; /* the status is that of an absent code, or of a word that is no code */
};

/* ---- answers */

static void note(struct asking *a, int status, bool mild)
{
    if (a->status == 0 || (a->mild && !mild)) {
        a->status = status;
        a->mild = mild;
    }
}

static void say_found(struct asking *a, const char *word, uint64_t key, uint64_t recording, uint64_t access)
{
    char code[KEY_TEXT], class[KEY_TEXT];
    key_text(key, code);
    class_text(access, class);
    if (a->line->json) {
        json_open(&a->json, NULL, '{');
        json_string(&a->json, "asked", word);
        json_number(&a->json, "status", 0);
        json_string(&a->json, "code", code);
        json_recording(&a->json, "recording", recording);
        json_string(&a->json, "class", class);
        json_close(&a->json, '}');
    } else if (a->several) {
        printf("%s,%" PRIu64 ",%s\n", code, recording, class);
    } else if (a->line->by_recording) {
        printf("%s,%s\n", code, class);
    } else {
        printf("%" PRIu64 ",%s\n", recording, class);
    }
}

/* One that has no answer, and why. code and next are null if there are none. */
static void say_none(struct asking *a, const char *word, int status, const char *code, const char *next, const char *why)
{
    note(a, status, status == a->line->absent || status == CATALOGUE_NO_CODE || status == CATALOGUE_BAD_RECORDING);
    if (!a->line->json) {
        fail(status, "%s", why);
        return;
    }
    json_open(&a->json, NULL, '{');
    json_string(&a->json, "asked", word);
    json_number(&a->json, "status", (uint64_t)status);
    if (code) {
        json_string(&a->json, "code", code);
        json_string(&a->json, "next", next);
    }
    json_string(&a->json, "why", why);
    json_close(&a->json, '}');
}

static void say_absent(struct asking *a, const char *word, const struct catalogue_file_pair *found)
{
    const struct table *t = &a->opened->table;
    char code[KEY_TEXT], above[KEY_TEXT], part[PART_TEXT], why[EXPLANATION];
    key_text(found->key, code);
    table_part(t, part);
    if (found->higher)
        snprintf(why, sizeof why, "%s is not in %s%s; the next code up is %s", code, part, t->name, key_text(found->next, above));
    else
        snprintf(why, sizeof why, "%s is not in %s%s, and no code there is higher", code, part, t->name);
    say_none(a, word, a->line->absent, code, found->higher ? above : NULL, why);
}

/* A slot that no sound table has: its recording must not play. Nothing is printed that a player could take for an answer. */
static const char *damaged(const struct table *t, uint64_t key, char why[EXPLANATION])
{
    char code[KEY_TEXT], part[PART_TEXT];
    snprintf(why, EXPLANATION, "the slot of %s in %s%s is damaged, and must not play: catalogue salvage %s NEW keeps what can be read",
             key_text(key, code), table_part(t, part), t->name, t->name);
    return why;
}

/* ---- questions: 0, or an exit status after saying why no further one can be asked */

static int ask_code(struct asking *a, const char *word)
{
    const struct table *t = &a->opened->table;
    struct catalogue_file_pair found;
    char why[EXPLANATION];
    uint64_t key, number = catalogue_file_parse(word, SIZE_MAX, &key);
    if (number != 0) {
        snprintf(why, sizeof why, "%.40s: %s", word, catalogue_file_strerror(number));
        say_none(a, word, (int)number, NULL, NULL, why);
        return 0;
    }
    number = catalogue_file_find(a->opened->file, t->collection, key, &found);
    if (number >= CATALOGUE_FILE_NO_FILE)
        return opened_fails(a->opened, number, "");
    if (number == 0)
        say_found(a, word, key, found.recording, found.access);
    else if (number == CATALOGUE_ABSENT)
        say_absent(a, word, &found);
    else
        say_none(a, word, (int)number, NULL, NULL,
                 number == CATALOGUE_NOT_SOUND ? damaged(t, key, why) : explain(number, t, key, 0, why));
    return 0;
}

static int ask_recording(struct asking *a, const char *word)
{
    const struct table *t = &a->opened->table;
    char why[EXPLANATION], part[PART_TEXT];
    uint64_t recording;
    if (!read_recording(word, strlen(word), &recording)) {
        snprintf(why, sizeof why, "%.40s: " RECORDINGS, word);
        say_none(a, word, CATALOGUE_BAD_RECORDING, NULL, NULL, why);
        return 0;
    }
    const struct listed *p = listing_holder(&a->holders, recording);
    if (p) {
        say_found(a, word, p->key, recording, CATALOGUE_CLASS(p->pointer));
        return 0;
    }
    snprintf(why, sizeof why, "recording %" PRIu64 " is not in %s%s", recording, table_part(t, part), t->name);
    say_none(a, word, a->line->absent, NULL, NULL, why);
    return 0;
}

static int ask(struct asking *a, const char *word)
{
    return a->line->by_recording ? ask_recording(a, word) : ask_code(a, word);
}

/* The lines of standard input; empty ones are passed over. */
static int ask_lines(struct asking *a)
{
    struct rows *r = malloc(sizeof *r);
    char text[ROW_ROOM + 1];
    int status = r && rows_open(r, "-") ? 0 : fail(BAD_FILE, "not enough memory for standard input");
    while (status == 0) {
        /* Whoever waits for an answer before the next question gets it. */
        if (rows_wait(r))
            fflush(stdout);
        if (!rows_next(r))
            break;
        memcpy(text, r->text, r->length);
        text[r->length] = '\0';
        if (text[strspn(text, " \t")] != '\0')
            status = ask(a, text);
    }
    if (status == 0 && r->failed)
        status = fail(BAD_FILE, "standard input cannot be read further than line %" PRIu64 ": %s", r->number, strerror(r->failed));
    free(r);
    return status;
}

static int ask_all(struct asking *a)
{
    const struct command_line *l = a->line;
    int status = 0;
    if (l->count == 3 && strcmp(l->words[2], "-") == 0)
        return ask_lines(a);
    for (int i = 2; status == 0 && i < l->count; i++)
        status = ask(a, l->words[i]);
    return status;
}

static int answer(struct asking *a)
{
    if (a->line->json)
        json_open(&a->json, NULL, '[');
    int status = ask_all(a);
    if (a->line->json) {
        json_close(&a->json, ']');
        json_end();
    }
    return status != 0 ? status : a->status;
}

int find(struct opened *o, struct command_line *l)
{
    struct asking a = {.opened = o, .line = l};
    a.several = l->count > 3 || strcmp(l->words[2], "-") == 0;
    if (!l->by_recording)
        return answer(&a);
    int status = opened_read(o);
    if (status == 0)
        status = listing_read(&a.holders, &o->table, 0, UINT64_MAX);
    if (status == 0) {
        listing_by_recording(&a.holders);
        status = answer(&a);
    }
    listing_free(&a.holders);
    return status;
}
