/*
 * Inputs for fuzz.c, by a seed: drive SEED FIRST COUNT TEXT .. makes the inputs with the numbers from FIRST on, each from one of the texts, which are
 * files, or from none. The same seed and number is the same input. Prints 'COUNT passed, 0 failed'; a crash says which input it was. With
 * FUZZ_KEEP the inputs are files in that folder, and are not tried.
 */
#include <inttypes.h>
#include <stdint.h>
#include <stdio.h>
#include <stdlib.h>
#include <string.h>
#include <unistd.h>

#define MOST 1600

int LLVMFuzzerTestOneInput(const uint8_t *data, size_t size);
int LLVMFuzzerInitialize(int *count, char ***words);
void __sanitizer_set_death_callback(void (*callback)(void));

static uint64_t state, seed, number;
static uint8_t input[2 * MOST];
static struct {
    uint8_t bytes[MOST];
    size_t size;
} texts[64];

static uint64_t below(uint64_t n)
{
    state ^= state << 13, state ^= state >> 7, state ^= state << 17;
    return state * UINT64_C(0x2545f4914f6cdd1d) % n;
}

static void say_which(void)
{
    dprintf(STDERR_FILENO, "fuzz: this was input %" PRIu64 " of seed %" PRIu64 "\n", number, seed);
}

static size_t with_number(uint8_t *at, size_t room)
{
    static const char *const numbers[] = {"0", "1", "8", "12", "25", "40", "391", "400", "18446744073709551615",
                                          "18446744073709551614", "72057594037927935", "72057594037927936"};
    const char *some = numbers[below(sizeof numbers / sizeof numbers[0])];
    size_t length = strlen(some) < room ? strlen(some) : room;
    memcpy(at, some, length);
    return length;
}

/* One change of a text. */
static size_t mutate(uint8_t *at, size_t size)
{
    size_t place = size == 0 ? 0 : below(size), length = 1 + below(8);
    switch (below(6)) {
    case 0:
        at[place] = (uint8_t)below(256);
        return size == 0 ? 1 : size;
    case 1:
        at[place] ^= (uint8_t)(1u << below(8));
        return size == 0 ? 1 : size;
    case 2: /* some go */
        length = place + length > size ? size - place : length;
        memmove(at + place, at + place + length, size - place - length);
        return size - length;
    case 3: /* some come twice */
        length = place + 4 * length > size ? size - place : 4 * length;
        if (size + length > MOST)
            return size;
        memmove(at + place + length, at + place, size - place);
        return size + length;
    case 4:
        length = place + with_number(at + place, MOST - place);
        return length > size ? length : size;
    default: { /* the rest of another text */
        size_t other = below(64);
        length = texts[other].size < MOST - place ? texts[other].size : MOST - place;
        memcpy(at + place, texts[other].bytes, length);
        return place + length;
    }
    }
}

static size_t make_input(size_t count)
{
    state = (seed * UINT64_C(0x9e3779b97f4a7c15) ^ number * UINT64_C(0xbf58476d1ce4e5b9)) | 1;
    for (int i = 0; i < 8; i++)
        (void)below(2);
    size_t edits = below(3) == 0 ? 0 : below(8), head = 3 + 4 * edits, size = 0;
    input[0] = (uint8_t)below(256);
    input[1] = (uint8_t)below(256);
    input[2] = (uint8_t)edits;
    for (size_t i = 3; i < head; i++)
        input[i] = (uint8_t)below(256);
    if (count > 0) {
        size_t which = below(count);
        size = texts[which].size;
        memcpy(input + head, texts[which].bytes, size);
    }
    for (uint64_t changes = below(6); changes > 0; changes--)
        size = mutate(input + head, size);
    return head + size;
}

static void keep(const char *within, size_t size)
{
    char name[4096];
    snprintf(name, sizeof name, "%s/%" PRIu64, within, number);
    FILE *file = fopen(name, "wb");
    if (!file || fwrite(input, 1, size, file) != size || fclose(file) != 0)
        exit(2);
}

int main(int count, char **words)
{
    if (count < 4)
        return 2;
    seed = strtoull(words[1], NULL, 10);
    uint64_t first = strtoull(words[2], NULL, 10), inputs = strtoull(words[3], NULL, 10);
    size_t all = 0;
    for (int i = 4; i < count && all < 64; i++, all++) {
        FILE *file = fopen(words[i], "rb");
        if (!file)
            return 2;
        texts[all].size = fread(texts[all].bytes, 1, 1200, file);
        fclose(file);
    }
    __sanitizer_set_death_callback(say_which);
    int out = dup(STDOUT_FILENO);
    LLVMFuzzerInitialize(&count, &words);
    const char *within = getenv("FUZZ_KEEP");
    for (number = first; number < first + inputs; number++) {
        size_t size = make_input(all);
        if (within)
            keep(within, size);
        else
            LLVMFuzzerTestOneInput(input, size);
    }
    dprintf(out, "%" PRIu64 " passed, 0 failed\n", inputs);
    return 0;
}
