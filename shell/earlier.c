/* The line of a file that has a code or a recording before another one that is refused for it. */
#include "earlier.h"

#include <stdlib.h>
#include <sys/stat.h>

static bool is_refused(struct refused_lines refused, uint64_t line)
{
    size_t i = 0;
    while (i < refused.count && refused.of[i] != line)
        i++;
    return i < refused.count;
}

/* The same file from its beginning; another one may have taken its name. */
static bool open_again(const struct rows *first, struct rows *r)
{
    struct stat a, b;
    if (first->file == 0 || fstat(first->file, &a) != 0 || !S_ISREG(a.st_mode) || !rows_open(r, first->name))
        return false;
    if (fstat(r->file, &b) == 0 && a.st_dev == b.st_dev && a.st_ino == b.st_ino)
        return true;
    rows_close(r);
    return false;
}

bool earlier_line(const struct sheet *s, uint64_t before, const uint64_t *key, uint64_t recording, struct refused_lines refused, struct earlier *found)
{
    struct rows *r = malloc(sizeof *r);
    struct sheet again;
    struct row row;
    struct fault fault;
    bool there = false;
    if (!r || !open_again(s->rows, r)) {
        free(r);
        return false;
    }
    sheet_begin(&again, r, s->asked);
    while (!there && rows_next(r) && r->number < before) {
        bool good = sheet_read(&again, &row, &fault) == 0 && !is_refused(refused, again.line);
        there = good && (key ? row.key == *key : row.recording == recording);
    }
    *found = (struct earlier){again.line, row.key};
    rows_close(r);
    free(r);
    return there;
}
