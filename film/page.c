/* The page of a film, and the drawings that a lesson is made of: files that the assembler puts into the program. make runs in shell/. */
#include "page.h"

#include <string.h>

/* A global label, hidden in the program: of a local one ARM's code finds the section's beginning. */
#define FILE_IN_PROGRAM(name, path) \
    __asm__(".pushsection .rodata\n.globl " #name "\n.hidden " #name "\n" #name ":\n.incbin \"" path "\"\n.byte 0\n.popsection\n"); \
    extern const char name[] __attribute__((visibility("hidden")))

FILE_IN_PROGRAM(film_page, "../film/film.html");
FILE_IN_PROGRAM(film_style, "../film/film.css");
FILE_IN_PROGRAM(film_script, "../film/film.js");
FILE_IN_PROGRAM(live_script, "../film/live.js");
FILE_IN_PROGRAM(board_script, "../film/board.js");
FILE_IN_PROGRAM(film_module, MODULE_TEXT);
FILE_IN_PROGRAM(drawing_leaf, "../samples/drawings/leaf.csv");
FILE_IN_PROGRAM(drawing_full, "../samples/drawings/full.csv");
FILE_IN_PROGRAM(drawing_right, "../samples/drawings/right.txt");
FILE_IN_PROGRAM(drawing_key_first, "../samples/drawings/key-before-pointer.txt");
FILE_IN_PROGRAM(drawing_equal_keys, "../samples/drawings/hidden-by-equal-keys.txt");
FILE_IN_PROGRAM(drawing_first_key, "../samples/drawings/sibling-by-first-key.txt");
FILE_IN_PROGRAM(drawing_linked, "../samples/drawings/linked-before-flush.txt");
FILE_IN_PROGRAM(drawing_flush, "../samples/drawings/flush-at-the-end.txt");
FILE_IN_PROGRAM(drawing_movement, "../samples/drawings/one-movement.txt");
FILE_IN_PROGRAM(drawing_tidied, "../samples/drawings/search-tidies.txt");

static const struct {
    const char *name, *text;
} drawings[] = {
    {"leaf.csv", drawing_leaf},
    {"full.csv", drawing_full},
    {"right.txt", drawing_right},
    {"key-before-pointer.txt", drawing_key_first},
    {"hidden-by-equal-keys.txt", drawing_equal_keys},
    {"sibling-by-first-key.txt", drawing_first_key},
    {"linked-before-flush.txt", drawing_linked},
    {"flush-at-the-end.txt", drawing_flush},
    {"one-movement.txt", drawing_movement},
    {"search-tidies.txt", drawing_tidied},
};

const char *drawing_text(const char *name)
{
    for (size_t i = 0; i < sizeof drawings / sizeof drawings[0]; i++)
        if (strcmp(drawings[i].name, name) == 0)
            return drawings[i].text;
    return NULL;
}

/* The page has a line of its own for each part that is put in. */
#define STYLE_HERE "@STYLE@\n"
#define MODULE_HERE "@MODULE@\n"
#define DATA_HERE "@DATA@\n"
#define SCRIPT_HERE "@SCRIPT@\n"

/* The page up to a mark; where it goes on behind it. */
static const char *put_until(FILE *out, const char *from, const char *mark)
{
    const char *at = strstr(from, mark);
    size_t length = at ? (size_t)(at - from) : strlen(from);
    fwrite(from, 1, length, out);
    return at ? at + strlen(mark) : from + length;
}

void page_begin(FILE *out, bool board)
{
    const char *rest = put_until(out, film_page, STYLE_HERE);
    fputs(film_style, out);
    rest = put_until(out, rest, MODULE_HERE);
    if (board)
        fprintf(out, "%s\n", film_module);
    put_until(out, rest, DATA_HERE);
}

void page_end(FILE *out, bool board)
{
    const char *rest = put_until(out, strstr(film_page, DATA_HERE) + strlen(DATA_HERE), SCRIPT_HERE);
    fputs(film_script, out);
    if (board) {
        fputs(live_script, out);
        fputs(board_script, out);
    }
    fputs(rest, out);
}
