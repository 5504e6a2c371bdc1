/* How far a long command is: a line on the terminal that is drawn again, or a line now and then where there is none. */
#include "progress.h"

#include <inttypes.h>
#include <stdio.h>
#include <time.h>
#include <unistd.h>

#define WINDOW 5.0

static double now(void)
{
    struct timespec t;
    clock_gettime(CLOCK_MONOTONIC, &t);
    return (double)t.tv_sec + (double)t.tv_nsec / 1e9;
}

void progress_begin(struct progress *p, const char *name, uint64_t all)
{
    *p = (struct progress){.name = name, .all = all, .terminal = isatty(STDERR_FILENO), .older.seconds = now()};
    p->newer = p->older;
    /* A terminal shows the first line at once. */
    p->shown = p->terminal ? 0 : p->older.seconds;
}

static void print_time(double seconds)
{
    if (seconds < 120)
        fprintf(stderr, ", %.0f s left", seconds);
    else if (seconds < 7200)
        fprintf(stderr, ", %.0f min left", seconds / 60);
    else
        fprintf(stderr, ", %.1f h left", seconds / 3600);
}

static void show(const struct progress *p, uint64_t lines, double passed)
{
    fprintf(stderr, "%s%s%s%" PRIu64, p->terminal ? "" : "catalogue: ", p->terminal ? "" : p->name, p->terminal ? "" : ": ", lines);
    if (p->all > 0)
        fprintf(stderr, " of %" PRIu64, p->all);
    fprintf(stderr, " lines");
    double rate = passed > 0 ? (double)(lines - p->older.lines) / passed : 0;
    if (rate > 0) {
        fprintf(stderr, ", %.*f a second", rate < 10 ? 1 : 0, rate);
        if (p->all > lines)
            print_time((double)(p->all - lines) / rate);
    }
    /* The rest of an older, longer line goes; the next one, or a message, begins where this one did. */
    fprintf(stderr, p->terminal ? "\033[K\r" : "\n");
}

void progress_step(struct progress *p, uint64_t lines)
{
    double time = now();
    if (time - p->shown < (p->terminal ? 0.1 : 10))
        return;
    show(p, lines, time - p->older.seconds);
    p->shown = time;
    p->drawn = p->terminal;
    if (time - p->newer.seconds >= WINDOW) {
        p->older = p->newer;
        p->newer = (struct moment){time, lines};
    }
}

void progress_clear(struct progress *p)
{
    if (p->drawn)
        fprintf(stderr, "\033[K");
    p->drawn = false;
}
