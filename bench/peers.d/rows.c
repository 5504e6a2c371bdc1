/* The rows of a table: a figure of each contender, and our figure divided by each other's. */
#include "rows.h"

#include <math.h>
#include <stdio.h>
#include <stdlib.h>
#include <string.h>

#include "files.h"

#define MOST_ROWS 120

static struct row rows[MOST_ROWS];
static size_t count;

struct row *row_new(const char *what, size_t codes, enum unit unit)
{
    if (count == MOST_ROWS)
        die("more than %d rows", MOST_ROWS);
    struct row *r = &rows[count++];
    *r = (struct row){.codes = codes, .unit = unit};
    snprintf(r->what, sizeof r->what, "%s", what);
    return r;
}

const struct row *row_named(const char *what, size_t codes)
{
    for (size_t i = 0; i < count; i++)
        if (strcmp(rows[i].what, what) == 0 && rows[i].codes == codes)
            return &rows[i];
    die("no row %s", what);
}

/* ---- cells */

static char *room(void)
{
    static char rooms[8][64];
    static size_t turn;
    return rooms[turn++ % 8];
}

const char *text_count(size_t n)
{
    char digits[32], *out = room(), *at = out;
    int length = snprintf(digits, sizeof digits, "%zu", n);
    for (int i = 0; i < length; i++) {
        if (i > 0 && (length - i) % 3 == 0)
            *at++ = ',';
        *at++ = digits[i];
    }
    *at = '\0';
    return out;
}

/* Three digits that count. */
static const char *digits_of(double x)
{
    if (x >= 99.95)
        return text_count((size_t)llround(x));
    char *out = room();
    snprintf(out, 64, "%.*f", x >= 9.995 ? 1 : x >= 0.0995 ? 2 : x >= 0.00995 ? 3 : 5, x);
    return out;
}

const char *text_figure(double x, enum unit unit)
{
    static const struct { double size; const char *name; } units[][4] = {
        {{1, "ns"}, {1e3, "µs"}, {1e6, "ms"}, {1e9, "s"}},
        {{1, "B"}, {1e3, "KB"}, {1e6, "MB"}, {1e9, "GB"}},
    };
    size_t i = 3;
    while (i > 0 && x < units[unit][i].size)
        i--;
    char *out = room();
    snprintf(out, 64, "%s %s", digits_of(x / units[unit][i].size), units[unit][i].name);
    return out;
}

const char *text_ratio(double a, double b)
{
    return a > 0 && b > 0 ? digits_of(a / b) : "-";
}

/* ---- the table */

static void print_figure(const struct row *r, size_t peer)
{
    if (r->figure[peer] == 0)
        printf(" - |");
    else
        printf(" %s%s |", r->over[peer] ? "over " : "", text_figure(r->figure[peer], r->unit));
}

/* A bound above and one below leave a ratio open on one side, two bounds on both. */
static void print_ratio(const struct row *r, size_t peer)
{
    const char *bound = r->over[0] && r->over[peer] ? NULL : r->over[0] ? "over " : r->over[peer] ? "under " : "";
    if (bound && r->figure[0] > 0 && r->figure[peer] > 0)
        printf(" %s%s |", bound, text_ratio(r->figure[0], r->figure[peer]));
    else
        printf(" - |");
}

/* One number if the contenders have the same. */
static void print_measured(const struct row *r)
{
    size_t counts[PEERS], n = 0, same = 0;
    for (size_t i = 0; i < PEERS; i++)
        if (r->measured[i] > 0)
            counts[n++] = r->measured[i];
    while (same < n && counts[same] == counts[0])
        same++;
    if (n == 0)
        printf(" -");
    for (size_t i = 0; i < (same == n && n > 0 ? 1 : n); i++)
        printf("%s%s", i > 0 ? " / " : " ", text_count(counts[i]));
    printf(" |\n");
}

static void print_row(const struct row *r)
{
    printf("| %s | %s |", r->what, text_count(r->codes));
    for (size_t peer = 0; peer < PEERS; peer++)
        print_figure(r, peer);
    for (size_t peer = 1; peer < PEERS; peer++)
        print_ratio(r, peer);
    print_measured(r);
}

static const struct row *row_named_first(const char *what)
{
    size_t i = 0;
    while (strcmp(rows[i].what, what) != 0)
        i++;
    return &rows[i];
}

void rows_print(const char *title, const char *const names[PEERS])
{
    printf("%s\n\n| | codes |", title);
    for (size_t i = 0; i < PEERS; i++)
        printf(" %s |", names[i]);
    for (size_t i = 1; i < PEERS; i++)
        printf(" %s / %s |", names[0], names[i]);
    printf(" measured |\n|---|---:|");
    for (size_t i = 0; i < 2 * PEERS; i++)
        printf("---:|");
    printf("\n");
    /* The sizes of a row together. */
    for (size_t i = 0; i < count; i++)
        for (size_t j = i; j < count && row_named_first(rows[i].what) == &rows[i]; j++)
            if (strcmp(rows[j].what, rows[i].what) == 0)
                print_row(&rows[j]);
    printf("\n");
}

/* ---- medians */

static int by_value(const void *a, const void *b)
{
    double x = *(const double *)a, y = *(const double *)b;
    return (x > y) - (x < y);
}

double median(double *times, size_t n)
{
    if (n == 0)
        return 0;
    qsort(times, n, sizeof *times, by_value);
    return n % 2 == 1 ? times[n / 2] : (times[n / 2 - 1] + times[n / 2]) / 2;
}
