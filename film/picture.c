/*
 * A picture of the wear by line: bars, so that it reads without colours. The bar of the line with the most stores is striped and has its
 * number beside it.
 */
#include "picture.h"

#include <inttypes.h>
#include <stdio.h>

#define WIDTH 960
#define HEIGHT 400
#define LEFT 80
#define RIGHT 20
#define TOP 70
#define BOTTOM 50

/* Bars that can still be distinguished. */
#define MOST_BARS 160

/* Numbers below the bars. */
#define MARKS 8

struct chart {
    const uint64_t *lines;
    size_t count;    /* lines */
    size_t together; /* lines to a bar */
    size_t bars;
    uint64_t most;   /* the length of the longest bar, at least 1 */
};

static double bar_width(const struct chart *c)
{
    return (double)(WIDTH - LEFT - RIGHT) / (double)c->bars;
}

static double height_of(const struct chart *c, uint64_t stores)
{
    return (double)(HEIGHT - TOP - BOTTOM) * ((double)stores / (double)c->most);
}

/* A table's name may hold what SVG reads otherwise. */
static void print_text(const char *text)
{
    for (; *text; text++) {
        if (*text == '&')
            printf("&amp;");
        else if (*text == '<')
            printf("&lt;");
        else
            putchar((unsigned char)*text < ' ' ? '?' : *text);
    }
}

/* The most worn line of a bar; of equals the first. */
static size_t worst_of(const struct chart *c, size_t bar)
{
    size_t worst = bar * c->together;
    for (size_t i = worst; i < c->count && i < (bar + 1) * c->together; i++)
        if (c->lines[i] > c->lines[worst])
            worst = i;
    return worst;
}

static void draw_bar(const struct chart *c, size_t bar, const struct figures *f)
{
    size_t worst = worst_of(c, bar);
    uint64_t stores = c->lines[worst];
    if (stores == 0)
        return;
    double width = bar_width(c), height = height_of(c, stores), gap = width > 4 ? 1 : 0;
    const char *fill = worst == f->first_line ? "url(#stripes)\" stroke=\"black" : "#1f4e79";
    printf("<rect x=\"%.2f\" y=\"%.2f\" width=\"%.2f\" height=\"%.2f\" fill=\"%s\"><title>line %zu: %" PRIu64 "</title></rect>\n",
           LEFT + width * (double)bar, HEIGHT - BOTTOM - height, width - gap, height, fill, worst, stores);
}

/* A line across at so many stores, with its number. */
static void draw_level(const struct chart *c, uint64_t stores)
{
    double y = HEIGHT - BOTTOM - height_of(c, stores);
    printf("<line x1=\"%d\" y1=\"%.2f\" x2=\"%d\" y2=\"%.2f\" stroke=\"#999999\"/>\n", LEFT, y, WIDTH - RIGHT, y);
    printf("<text x=\"%d\" y=\"%.2f\" text-anchor=\"end\">%" PRIu64 "</text>\n", LEFT - 8, y + 5, stores);
}

static void draw_marks(const struct chart *c)
{
    size_t step = (c->bars + MARKS - 1) / MARKS;
    for (size_t bar = 0; bar < c->bars; bar += step)
        printf("<text x=\"%.2f\" y=\"%d\" text-anchor=\"middle\">%zu</text>\n", LEFT + bar_width(c) * ((double)bar + 0.5),
               HEIGHT - BOTTOM + 20, bar * c->together);
    printf("<text x=\"%d\" y=\"%d\" text-anchor=\"middle\">line</text>\n", (LEFT + WIDTH - RIGHT) / 2, HEIGHT - 8);
}

static void draw_head(const struct chart *c, const char *name, const struct figures *f)
{
    printf("<text x=\"%d\" y=\"24\" font-size=\"18\">Stores to each line of ", LEFT);
    print_text(name);
    printf("</text>\n<text x=\"%d\" y=\"46\">%" PRIu64 " store%s; ", LEFT, f->total, f->total == 1 ? "" : "s");
    if (f->total > 0)
        printf("the most, %" PRIu64 ", to line %" PRIu64 " (striped)", f->largest, f->first_line);
    else
        printf("no line is worn");
    if (c->together > 1)
        printf("; a bar is the most worn of %zu lines", c->together);
    printf("</text>\n");
}

void picture(const char *name, const uint64_t *lines, size_t count, const struct figures *f)
{
    struct chart c = {.lines = lines, .count = count, .together = (count + MOST_BARS - 1) / MOST_BARS};
    c.bars = (count + c.together - 1) / c.together;
    c.most = f->largest > 0 ? f->largest : 1;
    printf("<svg xmlns=\"http://www.w3.org/2000/svg\" width=\"%d\" height=\"%d\" viewBox=\"0 0 %d %d\" font-family=\"sans-serif\" "
           "font-size=\"14\" fill=\"black\">\n",
           WIDTH, HEIGHT, WIDTH, HEIGHT);
    printf("<defs><pattern id=\"stripes\" width=\"6\" height=\"6\" patternUnits=\"userSpaceOnUse\" patternTransform=\"rotate(45)\">"
           "<rect width=\"6\" height=\"6\" fill=\"white\"/><rect width=\"3\" height=\"6\" fill=\"black\"/></pattern></defs>\n");
    printf("<rect width=\"%d\" height=\"%d\" fill=\"white\"/>\n", WIDTH, HEIGHT);
    draw_head(&c, name, f);
    if (c.most > 1)
        draw_level(&c, c.most / 2);
    draw_level(&c, c.most);
    for (size_t bar = 0; bar < c.bars; bar++)
        draw_bar(&c, bar, f);
    draw_level(&c, 0);
    draw_marks(&c);
    printf("</svg>\n");
}
