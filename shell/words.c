/* A typed line, word by word. */
#include "words.h"

#include <stdbool.h>

static bool blank(char c)
{
    return c == ' ' || c == '\t' || c == '\r' || c == '\n';
}

/* One word from *at on, copied to *to without its quotes; false if one is not closed. */
static bool copy_word(char **at, char **to)
{
    char quote = '\0';
    for (; **at && (quote || !blank(**at)); ++*at) {
        if (quote && **at == quote)
            quote = '\0';
        else if (!quote && (**at == '"' || **at == '\''))
            quote = **at;
        else {
            if (**at == '\\' && quote != '\'' && (*at)[1])
                ++*at;
            *(*to)++ = **at;
        }
    }
    return !quote;
}

int words_split(char *line, char **words)
{
    int count = 0;
    char *to = line;
    for (char *at = line;; at++) {
        while (blank(*at))
            at++;
        if (!*at)
            return count;
        words[count++] = to;
        if (!copy_word(&at, &to))
            return -1;
        bool last = !*at;
        *to++ = '\0';
        if (last)
            return count;
    }
}
