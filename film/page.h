/* The page of a film: what stands before its data and after it; and the drawings that a lesson is made of. They are in the program. */
#ifndef PAGE_H
#define PAGE_H

#include <stdbool.h>
#include <stddef.h>
#include <stdio.h>

/* With a board the page has the library, the judge and the film inside, as a WebAssembly module. */
void page_begin(FILE *out, bool board);
void page_end(FILE *out, bool board);

/* A file of samples/drawings, with a 0 behind it; null if there is none of that name. */
const char *drawing_text(const char *name);

#endif
