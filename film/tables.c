/* A table in memory, made of lines code,recording. */
#include "tables.h"

#include <inttypes.h>
#include <stdlib.h>
#include <string.h>

#include "catalogue.h"
#include "planned.h"
#include "pool.h"
#include "refusals.h"
#include "sheet.h"
#include "text.h"
#include "tree.h"

static int add_row(const struct table *t, struct sheet *s)
{
    struct row row;
    struct fault fault;
    int status = sheet_read(s, &row, &fault);
    if (status == ROW_PASSED)
        return 0;
    if (status != 0)
        return fail(status, "line %" PRIu64 " of the table, %s%s\"%s\": %s", s->line, fault.what, fault.what[0] ? " " : "", fault.text, fault.why);
    struct change c = {.kind = ADD, .key = row.key, .recording = row.recording, .access = row.access};
    uint64_t number = change_plan(&c, t);
    return number == 0 ? 0 : refuse(number, t, row.key, row.recording);
}

static int add_rows(const struct table *t, const char *lines)
{
    static const struct columns any;
    struct rows *r = room_of(1, sizeof *r);
    struct sheet s;
    int status = rows_of_text(r, t->name, lines) ? 0 : fail(BAD_LINE, "the table is too long");
    sheet_begin(&s, r, &any);
    while (status == 0 && rows_next(r))
        status = add_row(t, &s);
    free(r);
    return status;
}

int table_of_lines(struct table *t, uint64_t nodes, const char *lines)
{
    *t = (struct table){.name = "the table", .words = HEADER_WORDS + NODE_WORDS * (size_t)nodes, .collection = 1, .collections = 1};
    t->working = room_of(t->words, sizeof *t->working);
    uint64_t *base = room_of(t->words, sizeof *base), number = catalogue_make(t->working, t->words, 1);
    t->base = base;
    int status = number == 0 ? add_rows(t, lines) : refuse(number, t, 0, 0);
    memcpy(base, t->working, t->words * sizeof *base);
    return status;
}

void table_free(struct table *t)
{
    free(t->working);
    free((uint64_t *)t->base);
}
