/* An order list as text: in words, in the order printer's form, or as `catalogue orders` prints it. */
#include "orderlist.h"

#include <errno.h>
#include <inttypes.h>
#include <stdbool.h>
#include <stdio.h>
#include <stdlib.h>
#include <string.h>

#include "orderwords.h"
#include "rows.h"
#include "text.h"

enum line { ORDER, PASSED, ENDING, WRONG };

/* Lines that end a list: done, refused and not made. */
static bool ends(const char *text, size_t length)
{
    static const char *const words[] = {"done", "refused", "not"};
    while (length > 0 && (*text == ' ' || *text == '\t'))
        text++, length--;
    for (size_t i = 0; i < sizeof words / sizeof words[0]; i++) {
        size_t own = strlen(words[i]);
        if (length >= own && memcmp(text, words[i], own) == 0 && (length == own || text[own] == ' ' || text[own] == '\t'))
            return true;
    }
    return false;
}

static enum line read_line(const struct rows *r, uint64_t order[2], struct complaint *c)
{
    if (order_is_remark(r->text, r->length))
        return PASSED;
    if (ends(r->text, r->length))
        return ENDING;
    *c = (struct complaint){r->text, 0, "a line has at most 16384 letters"};
    return !r->too_long && order_read(r->text, r->length, order, c) ? ORDER : WRONG;
}

/* The line, the word in it that is wrong, and what could stand there. */
static int note_wrong(struct order_list *l, const struct rows *r, const struct complaint *c)
{
    char text[ROW_TEXT], word[ROW_TEXT];
    rows_text(r->text, r->length, text);
    size_t length = c->length < sizeof word - 1 ? c->length : sizeof word - 1;
    memcpy(word, c->from, length);
    word[length] = '\0';
    for (size_t i = 0; i < length; i++)
        if ((unsigned char)word[i] < ' ' || word[i] == 127)
            word[i] = '?';
    if (r->too_long || length == 0)
        snprintf(l->wrong, sizeof l->wrong, "line %" PRIu64 ", \"%s\": %s%s", r->number, text,
                 r->too_long ? "it is too long; " : "it ends too soon; wanted: ", c->wanted);
    else
        snprintf(l->wrong, sizeof l->wrong, "line %" PRIu64 ", \"%s\": \"%s\" cannot stand there; wanted: %s", r->number, text, word, c->wanted);
    return BAD_LINE;
}

static int note_failure(struct order_list *l, const char *why)
{
    snprintf(l->wrong, sizeof l->wrong, "%s", why);
    return BAD_FILE;
}

static bool add(struct order_list *l, const uint64_t order[2])
{
    if (l->count == l->room) {
        size_t room = 2 * l->room + 64;
        uint64_t *words = realloc(l->words, 2 * room * sizeof *words);
        if (!words)
            return false;
        l->words = words;
        l->room = room;
    }
    memcpy(l->words + 2 * l->count++, order, 2 * sizeof *order);
    return true;
}

static int read_lines(struct order_list *l, struct rows *r)
{
    uint64_t order[2];
    struct complaint complaint;
    bool ended = true;
    while (rows_next(r)) {
        enum line line = read_line(r, order, &complaint);
        if (line == WRONG)
            return note_wrong(l, r, &complaint);
        if (line == ORDER && !add(l, order))
            return note_failure(l, "there is not enough memory for it");
        l->changes += line == ORDER && ended;
        ended = line == PASSED ? ended : line == ENDING;
    }
    return r->failed ? note_failure(l, strerror(r->failed)) : 0;
}

/* The orders of lines that are open. */
static int read_orders(struct order_list *l, struct rows *r)
{
    *l = (struct order_list){.room = 64};
    l->words = calloc(2 * l->room, sizeof *l->words);
    return l->words ? read_lines(l, r) : note_failure(l, "there is not enough memory for it");
}

/* Why a list of this name cannot be read. */
static int say_why(const struct order_list *l, const char *name, int status)
{
    if (status == BAD_FILE)
        return fail(status, "%s cannot be read further: %s", name, l->wrong);
    return status == 0 ? 0 : fail(status, "%s, %s", name, l->wrong);
}

int order_list_read(struct order_list *l, const char *name)
{
    struct rows r;
    *l = (struct order_list){0};
    if (!rows_open(&r, name))
        return fail(BAD_FILE, "%s cannot be opened: %s", name, strerror(errno));
    int status = read_orders(l, &r);
    rows_close(&r);
    return say_why(l, r.name, status);
}

int order_list_scan(struct order_list *l, const char *name, const char *text)
{
    struct rows r;
    *l = (struct order_list){0};
    return rows_of_text(&r, name, text) ? read_orders(l, &r) : note_failure(l, "it is too long");
}

int order_list_read_text(struct order_list *l, const char *name, const char *text)
{
    return say_why(l, name, order_list_scan(l, name, text));
}

void order_list_free(struct order_list *l)
{
    free(l->words);
}
