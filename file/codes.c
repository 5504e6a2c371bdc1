/* Codes and classes as people write them. */
#include <inttypes.h>
#include <stdbool.h>
#include <stdio.h>
#include <string.h>

#include "catalogue_file.h"

#define CODE_LENGTH 12

static const char prefix[] = "ISRC";
#define PREFIX_LENGTH (sizeof prefix - 1)

/* Decimal digits that fit a word. */
static uint64_t read_number(const char *text, size_t length, uint64_t *number)
{
    uint64_t n = 0;
    for (size_t i = 0; i < length; i++) {
        uint64_t digit = (uint64_t)(text[i] - '0');
        if (text[i] < '0' || text[i] > '9' || n > (UINT64_MAX - digit) / 10)
            return CATALOGUE_NO_CODE;
        n = 10 * n + digit;
    }
    if (length == 0)
        return CATALOGUE_NO_CODE;
    *number = n;
    return 0;
}

/* The bytes of what may stand between the characters of a code: a hyphen, a dash, a blank, a colon; 0 if none does. Dashes are in UTF-8. */
static size_t between(const char *at, size_t left)
{
    static const char *const others[] = {"\xc2\xa0", "\xe2\x80\x90", "\xe2\x80\x91", "\xe2\x80\x92", "\xe2\x80\x93", "\xe2\x80\x94",
                                         "\xe2\x80\x95", "\xe2\x80\xaf", "\xe2\x88\x92"};
    if (*at == '-' || *at == ' ' || *at == '\t' || *at == ':')
        return 1;
    for (size_t i = 0; i < sizeof others / sizeof others[0]; i++)
        if (strlen(others[i]) <= left && memcmp(at, others[i], strlen(others[i])) == 0)
            return strlen(others[i]);
    return 0;
}

uint64_t catalogue_file_parse(const char *text, size_t length, uint64_t *key)
{
    if (length == SIZE_MAX)
        length = strlen(text);
    if (length > 0 && text[0] == '#')
        return read_number(text + 1, length - 1, key);
    /* One place more than a code with its prefix has: a longer text stays too long and is refused. */
    uint8_t plain[PREFIX_LENGTH + CODE_LENGTH + 1];
    size_t kept = 0;
    for (size_t i = 0, gap; i < length && kept < sizeof plain; i += gap > 0 ? gap : 1) {
        bool small = text[i] >= 'a' && text[i] <= 'z';
        gap = between(text + i, length - i);
        if (gap == 0)
            plain[kept++] = (uint8_t)(small ? text[i] - 'a' + 'A' : text[i]);
    }
    /* The length decides: ISRC12345678 is a code of Iceland. */
    bool prefixed = kept == PREFIX_LENGTH + CODE_LENGTH && memcmp(plain, prefix, PREFIX_LENGTH) == 0;
    return prefixed ? catalogue_parse(plain + PREFIX_LENGTH, CODE_LENGTH, key) : catalogue_parse(plain, kept, key);
}

const char *catalogue_file_print(uint64_t key, uint64_t form, char text[CATALOGUE_FILE_CODE])
{
    char code[CODE_LENGTH];
    if (catalogue_print(key, (uint8_t *)code) != 0)
        snprintf(text, CATALOGUE_FILE_CODE, "#%" PRIu64, key);
    else if (form == CATALOGUE_FILE_HYPHENS)
        snprintf(text, CATALOGUE_FILE_CODE, "%.2s-%.3s-%.2s-%.5s", code, code + 2, code + 5, code + 7);
    else
        snprintf(text, CATALOGUE_FILE_CODE, "%.12s", code);
    return text;
}

const char *catalogue_file_class(uint64_t access)
{
    static const char *const classes[] = {[CATALOGUE_OPEN] = "open", [CATALOGUE_ROOM] = "room", [CATALOGUE_CLOSED] = "closed"};
    return access <= CATALOGUE_CLOSED ? classes[access] : NULL;
}

int catalogue_file_may_play(uint64_t access, uint64_t place)
{
    bool known = place == CATALOGUE_FILE_ELSEWHERE || place == CATALOGUE_FILE_IN_THE_ROOM;
    return known && (access == CATALOGUE_OPEN || (access == CATALOGUE_ROOM && place == CATALOGUE_FILE_IN_THE_ROOM));
}
