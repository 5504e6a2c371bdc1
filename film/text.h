/* Messages, numbers and codes as people type and read them. */
#ifndef TEXT_H
#define TEXT_H

#include <stdbool.h>
#include <stddef.h>
#include <stdint.h>

#include "catalogue_file.h"

/* The program's exit statuses, beside the library's refusal numbers and 254 for a list that is judged no. */
enum {
    BAD_USAGE = 64,   /* the command line has another form */
    BAD_LINE = 65,    /* a line of a file to load, or of an order list, has another form */
    BAD_FILE = 74,    /* a file cannot be opened, read or written, or changed meanwhile */
    BY_SIGNAL = 128   /* and the signal's number: a load that a signal ended */
};

#define RECORDINGS "a recording is a whole number from 1 to 72057594037927935"
#define CLASSES "a class is open, room or closed"

/* Room for a code, or for # and a number, and the final 0. */
#define KEY_TEXT CATALOGUE_FILE_CODE

/* Says why on standard error and gives the status back, so that a caller can return it. */
int fail(int status, const char *format, ...) __attribute__((format(printf, 2, 3)));

/* Decimal digits that fit a word. */
bool read_number(const char *text, size_t length, uint64_t *number);

/* A recording's number: digits, from 1 to the largest that there may be. */
bool read_recording(const char *text, size_t length, uint64_t *recording);

/* The key of a code that is a word of the command line. 0, or an exit status after saying why. */
int read_code_word(const char *word, uint64_t *key);

/* A key's code, or # and the number if no code has it; the text given is filled and returned. */
const char *key_text(uint64_t key, char text[KEY_TEXT]);

/* A class by its name, in capital or small letters. */
bool read_class(const char *text, size_t length, uint64_t *access);

/* A class's name; of a class that no sound table has, its number. The text given is filled and returned. */
const char *class_text(uint64_t access, char text[KEY_TEXT]);

/* Room for a recording, its class and the final 0. */
#define POINTER_TEXT 48

/* "7,room", as list and find print it. */
const char *pointer_text(uint64_t recording, uint64_t access, char text[POINTER_TEXT]);

#endif
