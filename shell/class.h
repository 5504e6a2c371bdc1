/* The lists of a class, judged: one page with a row for each. */
#ifndef CLASS_H
#define CLASS_H

#include <stdbool.h>

/*
 * Every file NAME.txt of a folder is a list, with its table and its change above its orders, as the board saves it: `# catalogue judge leaf.cat
 * NAME.txt + CODE RECORDING`, and perhaps lines `# table CODE,RECORDING`; else the table is leaf.csv of the folder, or the lesson's. Prints a page
 * with a row for each list (who, verdict, first count that fails, which mistake) and a film of each, or its data alone. 0, or an exit status after
 * saying why.
 */
int class_page(const char *folder, bool data);

#endif
