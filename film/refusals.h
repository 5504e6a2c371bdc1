/* The exit statuses in one list: the library's refusal numbers and the program's own. */
#ifndef REFUSALS_H
#define REFUSALS_H

#include <stdbool.h>
#include <stdint.h>

#include "table.h"

struct refusal {
    uint64_t number;
    const char *name;    /* as --help lists it */
    /*
     * With {table}, {part} (what table_part says), {collection}, {code} and {recording} for what is refused, and {holder} for the code
     * that has the recording; null if the place of the failure says it.
     */
    const char *message;
};

/* In the order of the numbers; the last one has no name. */
extern const struct refusal refusals[];

/* Room for what explain says. */
#define EXPLANATION 512

/* What a refusal number says of this table, key and recording; the text given is filled and returned. */
const char *explain(uint64_t number, const struct table *t, uint64_t key, uint64_t recording, char text[EXPLANATION]);

/* The key that has a recording in the table's collection; false if none has, or if the table's words are not there. */
bool holder_of(const struct table *t, uint64_t recording, uint64_t *key);

/* Says the same on standard error and gives the number back, as an exit status. */
int refuse(uint64_t number, const struct table *t, uint64_t key, uint64_t recording);

#endif
