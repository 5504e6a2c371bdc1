/* What a table has. */
#include "memory.h"
#include "moment.h"
#include "stack.h"

uint64_t catalogue_file_check(catalogue_file *f, uint64_t *report)
{
    uint64_t number = must_be_open(f);
    if (number == 0)
        number = whole_table(f);
    if (number == 0 && !stack_left())
        number = no_memory(f);
    if (number != 0)
        return number;
    number = catalogue_check(f->working, f->words, report);
    return number == 0 ? 0 : refuses(f, number);
}
