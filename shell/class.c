/* The lists of a class, judged: one page with a row for each. */
#include "class.h"

#include <dirent.h>
#include <errno.h>
#include <inttypes.h>
#include <stdio.h>
#include <stdlib.h>
#include <string.h>

#include "catalogue.h"
#include "film.h"
#include "judge.h"
#include "mistakes.h"
#include "nearest.h"
#include "orderlist.h"
#include "page.h"
#include "pool.h"
#include "tables.h"
#include "text.h"
#include "tree.h"

#define MOST_LISTS 200
#define MOST_BYTES 65536
#define DRAWING_NODES 6
#define MOST_IMAGES_EACH 1500

/* One student's list. */
struct drawn {
    char *name; /* of the file, without its ending */
    char *text;
    struct table table;
    struct change change;
    struct order_list list;
    struct nearest nearest;
    struct hunks hunks;
    uint64_t number, count; /* the judge's */
    const struct mistake *mistake;
    char title[160];
    char wrong[ORDER_LIST_WRONG]; /* why it is not judged; empty if it is */
};

/* ---- reading */

/* The whole of a file, with a 0 behind it; null if it cannot be read or is longer than a list. */
static char *read_file(const char *folder, const char *name)
{
    char *path = NULL, *text = room_of(MOST_BYTES + 1, 1);
    if (asprintf(&path, "%s/%s", folder, name) < 0)
        end_without_memory();
    FILE *f = fopen(path, "r");
    size_t length = f ? fread(text, 1, MOST_BYTES + 1, f) : 0;
    bool whole = f && !ferror(f) && length <= MOST_BYTES;
    if (f)
        fclose(f);
    free(path);
    if (!whole) {
        free(text);
        return NULL;
    }
    text[length] = '\0';
    return text;
}

/* The lines `# table ..`, without these words; null if there are none. */
static char *own_lines(const char *text)
{
    static const char mark[] = "# table ";
    char *lines = room_of(strlen(text) + 1, 1), *to = lines;
    for (const char *at = text; at; at = strchr(at, '\n') ? strchr(at, '\n') + 1 : NULL)
        if (strncmp(at, mark, sizeof mark - 1) == 0) {
            size_t length = strcspn(at + sizeof mark - 1, "\n");
            memcpy(to, at + sizeof mark - 1, length);
            to += length;
            *to++ = '\n';
        }
    if (to != lines)
        return lines;
    free(lines);
    return NULL;
}

/* The table's lines: the list's own, those of the folder's file, or the lesson's; null for none. */
static char *lines_of(const char *folder, const char *text, const char *table)
{
    char *lines = own_lines(text), name[80];
    snprintf(name, sizeof name, "%.60s.csv", table);
    if (!lines)
        lines = read_file(folder, name);
    if (!lines && drawing_text(name))
        lines = strdup(drawing_text(name));
    return lines;
}

static size_t count_lines(const char *lines)
{
    size_t count = 0;
    for (const char *at = lines; (at = strchr(at, '\n')); at++)
        count++;
    return count;
}

static void is_wrong(struct drawn *d, const char *why)
{
    snprintf(d->wrong, sizeof d->wrong, "%s", why);
}

static void read_table(struct drawn *d, const char *folder, const char *table)
{
    char *lines = lines_of(folder, d->text, table);
    size_t codes = lines ? count_lines(lines) : 0;
    if (!lines)
        is_wrong(d, "its table is not there: it has no lines # table, the folder has no such .csv, and the lesson has no such table");
    else if (codes > 400)
        is_wrong(d, "its table has more than 400 codes");
    else if (table_of_lines(&d->table, codes / 4 + 4 > DRAWING_NODES ? codes / 4 + 4 : DRAWING_NODES, lines) != 0)
        is_wrong(d, "its table cannot be made; the program says why");
    free(lines);
}

static void read_change(struct drawn *d, const char *folder)
{
    char table[64] = "", sign[2] = "", code[KEY_TEXT] = "", recording[KEY_TEXT] = "", *words[] = {code, recording};
    const char *at = strstr(d->text, "# catalogue judge ");
    int found = at ? sscanf(at, "# catalogue judge %60[^. ].cat %*s %1[+-] %20s %20[0-9]", table, sign, code, recording) : 0;
    bool adds = sign[0] == '+';
    if (found < (adds ? 4 : 3))
        is_wrong(d, "it does not name its table and its change, as # catalogue judge leaf.cat NAME.txt + AA0002600010 101");
    else if (change_read(&d->change, adds ? ADD : REMOVE, words, adds ? 2 : 1) != 0)
        is_wrong(d, "its change cannot be read; the program says why");
    else
        read_table(d, folder, table);
    if (d->wrong[0] == '\0')
        snprintf(d->title, sizeof d->title, "%.60s: %s %s", d->name, adds ? "adding" : "removing", code);
}

/* ---- judging */

static void judge_drawn(struct drawn *d)
{
    const struct table *t = &d->table;
    uint64_t *image = room_of(t->words, sizeof *image);
    d->number = judge_count(t, &d->change, d->list.words, d->list.count, image, &d->count);
    free(image);
    if (d->number == CATALOGUE_BAD_ORDERS)
        is_wrong(d, "an order lies outside of its table");
    else if (d->number != 0 && d->number != CATALOGUE_NO)
        is_wrong(d, "its table is not settled, or its change is refused");
    if (d->number != CATALOGUE_NO)
        return;
    d->mistake = mistake_of(t, &d->change, d->list.words, d->list.count, d->count);
    nearest_find(&d->nearest, t, &d->change, d->list.words, d->list.count);
    hunks_find(&d->hunks, t, &d->change, d->list.words, d->list.count, d->nearest.orders, d->nearest.count);
}

static void take(struct drawn *d, const char *folder, const char *file)
{
    d->name = strndup(file, strlen(file) - strlen(".txt"));
    d->text = read_file(folder, file);
    if (!d->name)
        end_without_memory();
    if (!d->text) {
        is_wrong(d, "it cannot be read");
        return;
    }
    read_change(d, folder);
    if (d->wrong[0] == '\0' && order_list_scan(&d->list, file, d->text) != 0)
        is_wrong(d, d->list.wrong);
    if (d->wrong[0] == '\0' && d->list.count > MOST_FILMED)
        is_wrong(d, "it has more orders than a film shows");
    if (d->wrong[0] == '\0')
        judge_drawn(d);
}

/* ---- the page */

/* The drawing, and beside it the nearest right list if it is none. The scenes so far. */
static size_t add_scenes(const struct drawn *d, struct scene *scenes, size_t count)
{
    struct scene own = {.title = d->title, .told = d->mistake ? d->mistake->sentence : "", .list = "as drawn", .beside = -1, .base = d->table.base,
                        .words = d->table.words, .collection = 1, .change = &d->change, .orders = d->list.words, .count = d->list.count,
                        .most = MOST_IMAGES_EACH};
    scenes[count] = own;
    if (d->number == 0)
        return count + 1;
    scenes[count].hunks = &d->hunks;
    scenes[count].beside = (int)count + 1;
    scenes[count + 1] = own;
    scenes[count + 1].told = "";
    scenes[count + 1].list = "the nearest right list";
    scenes[count + 1].orders = d->nearest.orders;
    scenes[count + 1].count = d->nearest.count;
    return count + 2;
}

/* A row as JSON: {"who": .., "scene": 3, "orders": 12, "judge": 5, "mistake": .., "wrong": ..}. */
static void print_row(FILE *out, const struct drawn *d, size_t scene)
{
    fputs("{\"who\":", out);
    json_text(out, d->name);
    if (d->wrong[0] != '\0') {
        fputs(",\"wrong\":", out);
        json_text(out, d->wrong);
    } else {
        fprintf(out, ",\"scene\":%zu,\"orders\":%zu,\"judge\":", scene, d->list.count);
        if (d->number == 0)
            fputs("-1", out);
        else
            fprintf(out, "%" PRIu64, d->count);
        fputs(",\"mistake\":", out);
        json_text(out, d->mistake ? d->mistake->name : "");
    }
    fputc('}', out);
}

static int print_class(const struct drawn *drawn, size_t count, bool data)
{
    struct scene *scenes = room_of(2 * count + 1, sizeof *scenes);
    size_t total = 0, length;
    char *rows = NULL;
    FILE *out = stream_into(&rows, &length);
    fputs(",\"class\":[", out);
    for (size_t i = 0; i < count; i++) {
        fputs(i == 0 ? "\n" : ",\n", out);
        print_row(out, &drawn[i], total);
        total = drawn[i].wrong[0] == '\0' ? add_scenes(&drawn[i], scenes, total) : total;
    }
    fputc(']', out);
    stream_text(out, &rows);
    int status = total > 0 ? film_print(scenes, total, data, true, rows) : fail(BAD_LINE, "no list of the folder can be judged; the first: %s", drawn[0].wrong);
    free(rows);
    free(scenes);
    return status;
}

static int is_list(const struct dirent *entry)
{
    size_t length = strlen(entry->d_name);
    return entry->d_name[0] != '.' && length > 4 && strcmp(entry->d_name + length - 4, ".txt") == 0;
}

static void drawn_free(struct drawn *d)
{
    free(d->name);
    free(d->text);
    table_free(&d->table);
    order_list_free(&d->list);
    nearest_free(&d->nearest);
    hunks_free(&d->hunks);
}

int class_page(const char *folder, bool data)
{
    struct dirent **entries = NULL;
    int found = scandir(folder, &entries, is_list, alphasort);
    if (found < 0)
        return fail(BAD_FILE, "%s cannot be opened: %s", folder, strerror(errno));
    size_t count = found < MOST_LISTS ? (size_t)found : MOST_LISTS;
    struct drawn *drawn = room_of(count + 1, sizeof *drawn);
    for (size_t i = 0; i < count; i++)
        take(&drawn[i], folder, entries[i]->d_name);
    int status = count == 0 ? fail(BAD_FILE, "%s has no lists: files NAME.txt", folder)
                 : found > MOST_LISTS ? fail(BAD_LINE, "%s has %d lists; a page has at most %d", folder, found, MOST_LISTS)
                                      : print_class(drawn, count, data);
    for (size_t i = 0; i < count; i++)
        drawn_free(&drawn[i]);
    for (int i = 0; i < found; i++)
        free(entries[i]);
    free(entries);
    free(drawn);
    return status;
}
