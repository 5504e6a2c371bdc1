/* What a sound table has, as catalogue_check reports it, in words. */
#ifndef CONTENTS_H
#define CONTENTS_H

#include <stdint.h>
#include <stdio.h>

#include "catalogue.h"

/* Codes of all collections, and nodes that have them. */
uint64_t codes_in(const uint64_t report[CATALOGUE_CHECK_WORDS]);
uint64_t nodes_in(const uint64_t report[CATALOGUE_CHECK_WORDS]);

/* On standard output: "collection 1: 5 codes in 1 node" and so on if there are two; nothing if there is one. */
void collections_print(const uint64_t report[CATALOGUE_CHECK_WORDS]);

/* "leftover (b): .." and a line feed: what is unfinished; nothing of a settled table. */
void leftover_print(const uint64_t report[CATALOGUE_CHECK_WORDS], FILE *out);

/* Its letter; 0 if nothing is. */
char leftover_letter(const uint64_t report[CATALOGUE_CHECK_WORDS]);

#endif
