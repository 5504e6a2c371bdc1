/* The command line: words, and options anywhere between them. */
#ifndef COMMAND_LINE_H
#define COMMAND_LINE_H

#include <stdbool.h>
#include <stdint.h>

#include "planned.h"
#include "intake.h"
#include "opened.h"
#include "rescue.h"

/* Kinds of options, for which commands take which. */
enum {
    CUT = 1 << 0,
    LOADING = 1 << 1,
    CARRYING = 1 << 2,
    WAITING = 1 << 3,
    NAMING = 1 << 4,
    MAKING = 1 << 5,
    DOCKING = 1 << 6,
    DRAWING = 1 << 7,
    FILMING = 1 << 8,
    FINDING = 1 << 9,
    LISTING = 1 << 10,
    STRUCTURED = 1 << 11,
    WRITING = 1 << 12,
    WORDING = 1 << 13,
    RESCUING = 1 << 14
};

struct command_line {
    char **words; /* the command, the table, and what follows */
    int count;
    uint64_t said;  /* options, by their places in the list */
    unsigned given; /* their kinds */
    bool help, version, svg;
    bool json;
    bool by_recording; /* find: the words are recordings */
    bool header;           /* list: a first line with the names of the columns */
    bool schema;           /* list: the table of a database that takes the lines, and no line */
    const char *from, *to; /* list: one end of a range, or both; null for none */
    const char *output;    /* the file that the answer goes to; null for standard output */
    int absent;        /* find: the exit status of a code that is not there */
    uint64_t cut;
    bool loan; /* a new table has two collections */
    bool drawings, data; /* of a film */
    bool in_words; /* orders as people write them */
    const char *list;
    const char *made; /* what the command did and a lost answer must not hide, as "the change is made"; null for nothing */
    struct rescue rescue; /* salvage: what is taken instead of a damaged header */
    struct opening opening;
    struct opened *open; /* the table, if a session has it open for reading */
    struct load_options load;
    /* What a command reads from its words. */
    uint64_t low, high, nodes;
    struct change change;
};

struct command {
    const char *name;
    const char *form;
    const char *about;   /* for --help, a line or more */
    const char *example; /* for --help */
    int least, most;     /* words, with the command's name and the table */
    unsigned takes;      /* options */
    /* 0, an exit status after saying why, or WRONG_FORM. */
    int (*run)(struct command_line *l);
};

enum { WRONG_FORM = -1 };

struct option {
    const char *name;
    const char *form;    /* what it takes, in a word; null for nothing */
    const char *takes;   /* the same in a message */
    const char *about;   /* for --help, a line or more */
    const char *example; /* for --help */
    unsigned kind;       /* 0 for every command */
    bool (*read)(struct command_line *l, const char *value);
};

/* The last one has no name. */
extern const struct option options[];

/* 0, or an exit status after saying why. The words stay the caller's; command_line_free in either case. */
int command_line_read(struct command_line *l, int count, char **words);
void command_line_free(struct command_line *l);

/* The first option of these kinds that was given; null if none was. */
const struct option *option_given(const struct command_line *l, unsigned kinds);

#endif
