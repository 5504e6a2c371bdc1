/* CRC32C of a table's lines, by the processor's instruction if it has one. */
#include "crc.h"

#include <stdbool.h>

#include "flush.h"

#define ONES UINT32_MAX

/* What four bits do to the rest: the polynomial of Castagnoli, its bits from the lowest on. */
static const uint32_t nibbles[16] = {
    0x00000000, 0x105ec76f, 0x20bd8ede, 0x30e349b1, 0x417b1dbc, 0x5125dad3, 0x61c69362, 0x7198540d,
    0x82f63b78, 0x92a8fc17, 0xa24bb5a6, 0xb21572c9, 0xc38d26c4, 0xd3d3e1ab, 0xe330a81a, 0xf36e6f75,
};

static uint32_t plain_word(uint32_t rest, uint64_t word)
{
    for (unsigned at = 0; at < 64; at += 4)
        rest = nibbles[(rest ^ word >> at) & 15] ^ rest >> 4;
    return rest;
}

static uint32_t words_by_plain(const uint64_t *words, size_t count)
{
    uint32_t rest = ONES;
    for (size_t i = 0; i < count; i++)
        rest = plain_word(rest, words[i]);
    return rest ^ ONES;
}

static void lines_by_plain(const uint64_t *words, uint64_t first, size_t count, uint32_t *sums)
{
    for (size_t i = 0; i < count; i++)
        sums[i] = words_by_plain(words + LINE_WORDS * i, LINE_WORDS) ^ (uint32_t)(first + i);
}

const struct crc *crc_plain(void)
{
    static const struct crc way = {lines_by_plain, words_by_plain};
    return &way;
}

#if defined(__x86_64__)
#include <cpuid.h>
#include <immintrin.h>

/* The feature bit of cpuid leaf 1, in ecx. */
#define SSE42_BIT (1u << 20)

static bool has_instruction(void)
{
    unsigned a, b, c, d;
    return __get_cpuid(1, &a, &b, &c, &d) && (c & SSE42_BIT) != 0;
}

#define BY_INSTRUCTION __attribute__((target("sse4.2")))
#define next_word(rest, word) ((uint32_t)_mm_crc32_u64(rest, word))
#elif defined(__aarch64__)
#include <arm_acle.h>
#include <sys/auxv.h>

/* The bit of the system's word of features (asm/hwcap.h) that announces the CRC32 instructions. */
#define CRC32_BIT (1ul << 7)

static bool has_instruction(void)
{
    return (getauxval(AT_HWCAP) & CRC32_BIT) != 0;
}

#define BY_INSTRUCTION __attribute__((target("+crc")))
#define next_word(rest, word) __builtin_aarch64_crc32cx(rest, word)
#endif

#ifdef BY_INSTRUCTION
BY_INSTRUCTION static uint32_t words_by_instruction(const uint64_t *words, size_t count)
{
    uint32_t rest = ONES;
    for (size_t i = 0; i < count; i++)
        rest = next_word(rest, words[i]);
    return rest ^ ONES;
}

BY_INSTRUCTION static inline uint32_t line_by_instruction(const uint64_t *words)
{
    uint32_t rest = ONES;
    for (unsigned i = 0; i < LINE_WORDS; i += 4)
        rest = next_word(next_word(next_word(next_word(rest, words[i]), words[i + 1]), words[i + 2]), words[i + 3]);
    return rest ^ ONES;
}

/* Lines do not wait for each other: the processor works on some of them at a time. */
BY_INSTRUCTION static void lines_by_instruction(const uint64_t *words, uint64_t first, size_t count, uint32_t *sums)
{
    for (size_t i = 0; i < count; i++)
        sums[i] = line_by_instruction(words + LINE_WORDS * i) ^ (uint32_t)(first + i);
}

const struct crc *crc_best(void)
{
    static const struct crc way = {lines_by_instruction, words_by_instruction};
    return has_instruction() ? &way : crc_plain();
}
#else
const struct crc *crc_best(void)
{
    return crc_plain();
}
#endif
