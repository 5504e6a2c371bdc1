/* A table's words in memory, with what messages say of it. */
#include "table.h"

#include <inttypes.h>
#include <stdio.h>

const char *table_part(const struct table *t, char text[PART_TEXT])
{
    text[0] = '\0';
    if (t->collections > 1)
        snprintf(text, PART_TEXT, "collection %" PRIu64 " of ", t->collection);
    return text;
}
