/* The counter in a table's trailer. Readers compare it before and after their looks, and so know how many brackets of stores ran meanwhile. */
#include "counter.h"

/* Only the writer stores to the counter, so that it reads what it stored or what the writer before it left. */
static bool is_open(const uint64_t *word)
{
    return shared_load(word) % 2 == 1;
}

static void open_bracket(uint64_t *word)
{
    shared_store(word, shared_load(word) + 1);
}

void counter_close(uint64_t *word)
{
    if (is_open(word))
        shared_store(word, shared_load(word) + 1);
}

struct counter counter_start(uint64_t *word, enum brackets brackets)
{
    counter_close(word);
    return (struct counter){.word = word, .brackets = brackets};
}

void counter_store(const struct counter *c, uint64_t *word, uint64_t value)
{
    if (!is_open(c->word))
        open_bracket(c->word);
    shared_store(word, value);
    if (c->brackets == BRACKET_STORE)
        counter_close(c->word);
}

void counter_flush(const struct counter *c)
{
    if (c->brackets == BRACKET_FLUSH)
        counter_close(c->word);
}

void counter_finish(const struct counter *c)
{
    counter_close(c->word);
}
