/* The beginning of a code, for all codes that begin so. */
#include "prefix.h"

#include <string.h>

#include "catalogue_file.h"

static const char lowest[] = "AA0000000000", highest[] = "ZZZZZ9999999";
#define CODE_LENGTH (sizeof lowest - 1)

/* The text without what may stand between the characters of a code; its length, or one more than a code has if it is longer. */
static size_t plain(const char *text, char code[CODE_LENGTH + 1])
{
    size_t length = 0;
    for (; *text && length <= CODE_LENGTH; text++)
        if (!strchr("- \t:", *text))
            code[length++] = *text;
    return length;
}

bool prefix_range(const char *text, uint64_t *low, uint64_t *high)
{
    char first[CODE_LENGTH + 1], last[CODE_LENGTH];
    size_t length = plain(text, first);
    if (text[0] == '#' && catalogue_file_parse(text, SIZE_MAX, low) == 0) {
        *high = *low;
        return true;
    }
    if (length == 0 || length > CODE_LENGTH)
        return false;
    memcpy(last, first, length);
    memcpy(first + length, lowest + length, CODE_LENGTH - length);
    memcpy(last + length, highest + length, CODE_LENGTH - length);
    return catalogue_file_parse(first, CODE_LENGTH, low) == 0 && catalogue_file_parse(last, CODE_LENGTH, high) == 0;
}
