/* The lines of a file that people or other programs write, in UTF-8 or UTF-16. */
#ifndef ROWS_H
#define ROWS_H

#include <signal.h>
#include <stdbool.h>
#include <stddef.h>
#include <stdint.h>

/* Longer than any line that people write. */
#define ROW_ROOM 16384

/* How the file's characters are written. */
enum wide { WIDE_UNKNOWN, WIDE_NOT, WIDE_LITTLE, WIDE_BIG };

struct rows {
    const char *name; /* as messages say it */
    int file;
    int failed;      /* errno of a reading that failed, else 0 */
    const volatile sig_atomic_t *ended; /* if there is one: reading ends, in the middle of a line too, once it is not 0 */
    uint64_t number; /* of the last line read, from 1 */
    /* The last line, without its end; one that is too long lacks the rest. */
    char text[ROW_ROOM];
    size_t length;
    bool too_long;
    /* What was read of the file and is not in a line yet. */
    char part[65536];
    size_t at, end;
    /* UTF-16 becomes UTF-8: what is there of a character. */
    enum wide wide;
    unsigned char character[4];
    size_t given, made;
};

/* The lines of a file, or of standard input if its name is -. False, with errno, if it cannot be opened. */
bool rows_open(struct rows *r, const char *name);

/* The lines of a text; false if it is longer than a part of a file. */
bool rows_of_text(struct rows *r, const char *name, const char *text);

void rows_close(struct rows *r);

/* Number of lines to come, if the file can be read twice; else 0. */
uint64_t rows_count(const struct rows *r);

/* The next line is not there yet: a caller that asks for it waits for the program that writes it. */
bool rows_wait(struct rows *r);

/* The next line; false at the end of the file. */
bool rows_next(struct rows *r);

/* Puts the next line behind the last one, with a line feed between them; false at the end of the file, or if it is too long then. */
bool rows_join(struct rows *r);

/* Room for rows_text. */
#define ROW_TEXT 64

/* The beginning of some text, as a message shows it, without control characters; the text given is filled and returned. */
const char *rows_text(const char *from, size_t length, char text[ROW_TEXT]);

#endif
