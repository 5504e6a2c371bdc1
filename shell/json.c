/* JSON on standard output, member by member. */
#include "json.h"

#include <inttypes.h>
#include <stddef.h>
#include <stdio.h>

/* How many bytes the character of UTF-8 has that begins here; 0 if none does. */
static size_t character(const unsigned char *at)
{
    size_t length = at[0] < 0x80 ? 1 : at[0] < 0xc2 ? 0 : at[0] < 0xe0 ? 2 : at[0] < 0xf0 ? 3 : at[0] < 0xf5 ? 4 : 0;
    for (size_t i = 1; i < length; i++)
        if ((at[i] & 0xc0) != 0x80)
            return 0;
    /* Longer forms than needed, surrogates, and numbers above the last character. */
    bool none = (at[0] == 0xe0 && at[1] < 0xa0) || (at[0] == 0xed && at[1] > 0x9f) || (at[0] == 0xf0 && at[1] < 0x90)
                || (at[0] == 0xf4 && at[1] > 0x8f);
    return none ? 0 : length;
}

static void print_text(const char *text)
{
    const unsigned char *at = (const unsigned char *)text;
    putchar('"');
    while (*at) {
        size_t length = character(at);
        if (length == 0)
            printf("\\ufffd");
        else if (*at == '"' || *at == '\\')
            printf("\\%c", *at);
        else if (*at < ' ' || *at == 127)
            printf("\\u%04x", *at);
        else
            fwrite(at, 1, length, stdout);
        at += length > 0 ? length : 1;
    }
    putchar('"');
}

static void begin(struct json *j, const char *name)
{
    if (j->more)
        putchar(',');
    if (name) {
        print_text(name);
        putchar(':');
    }
    j->more = true;
}

void json_open(struct json *j, const char *name, char bracket)
{
    bool of_list = !name && j->more;
    begin(j, name);
    if (of_list)
        putchar('\n');
    putchar(bracket);
    j->more = false;
}

void json_close(struct json *j, char bracket)
{
    putchar(bracket);
    j->more = true;
}

void json_string(struct json *j, const char *name, const char *text)
{
    begin(j, name);
    if (text)
        print_text(text);
    else
        printf("null");
}

void json_number(struct json *j, const char *name, uint64_t number)
{
    begin(j, name);
    printf("%" PRIu64, number);
}

void json_recording(struct json *j, const char *name, uint64_t recording)
{
    begin(j, name);
    printf("\"%" PRIu64 "\"", recording);
}

void json_end(void)
{
    putchar('\n');
}
