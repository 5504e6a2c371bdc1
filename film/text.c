/* Messages, numbers and codes as people type and read them. */
#include "text.h"

#include <inttypes.h>
#include <stdarg.h>
#include <stdio.h>
#include <string.h>
#include <strings.h>

int fail(int status, const char *format, ...)
{
    va_list rest;
    /* What was printed before belongs before the message, also if both go to one file. */
    fflush(stdout);
    fputs("catalogue: ", stderr);
    va_start(rest, format);
    vfprintf(stderr, format, rest);
    va_end(rest);
    fputc('\n', stderr);
    return status;
}

bool read_number(const char *text, size_t length, uint64_t *number)
{
    uint64_t n = 0;
    for (size_t i = 0; i < length; i++) {
        if (text[i] < '0' || text[i] > '9')
            return false;
        uint64_t digit = (uint64_t)(text[i] - '0');
        if (n > (UINT64_MAX - digit) / 10)
            return false;
        n = 10 * n + digit;
    }
    if (length > 0)
        *number = n;
    return length > 0;
}

bool read_recording(const char *text, size_t length, uint64_t *recording)
{
    return read_number(text, length, recording) && *recording > 0 && *recording <= CATALOGUE_MOST_RECORDING;
}

const char *key_text(uint64_t key, char text[KEY_TEXT])
{
    return catalogue_file_print(key, CATALOGUE_FILE_PLAIN, text);
}

bool read_class(const char *text, size_t length, uint64_t *access)
{
    const char *name;
    for (uint64_t i = 0; (name = catalogue_file_class(i)); i++)
        if (strlen(name) == length && strncasecmp(name, text, length) == 0) {
            *access = i;
            return true;
        }
    return false;
}

const char *class_text(uint64_t access, char text[KEY_TEXT])
{
    const char *name = catalogue_file_class(access);
    if (name)
        strcpy(text, name);
    else
        snprintf(text, KEY_TEXT, "%" PRIu64, access);
    return text;
}

const char *pointer_text(uint64_t recording, uint64_t access, char text[POINTER_TEXT])
{
    char class[KEY_TEXT];
    snprintf(text, POINTER_TEXT, "%" PRIu64 ",%s", recording, class_text(access, class));
    return text;
}

int read_code_word(const char *word, uint64_t *key)
{
    uint64_t number = catalogue_file_parse(word, strlen(word), key);
    return number == 0 ? 0 : fail((int)number, "%.40s: %s", word, catalogue_file_strerror(number));
}
