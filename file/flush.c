/* Ways to make a line of a table last. */
#include "flush.h"

#include <errno.h>
#include <string.h>
#include <sys/mman.h>
#include <unistd.h>

#include "catalogue_file.h"

/* Keeps the compiler's order, on any processor; writes nothing back. */
static bool only_fence(void *address)
{
    (void)address;
    __atomic_thread_fence(__ATOMIC_SEQ_CST);
    return true;
}

static bool always(void)
{
    return true;
}

#if defined(__x86_64__)
#include <cpuid.h>
#include <immintrin.h>

/* Feature bits of cpuid leaf 7 (in ebx) and of leaf 1 (in edx). */
#define CLWB_BIT (1u << 24)
#define CLFLUSHOPT_BIT (1u << 23)
#define CLFLUSH_BIT (1u << 19)

static bool leaf_7_has(unsigned bit)
{
    unsigned a, b, c, d;
    return __get_cpuid_count(7, 0, &a, &b, &c, &d) && (b & bit);
}

static bool has_clwb(void)
{
    return leaf_7_has(CLWB_BIT);
}

static bool has_clflushopt(void)
{
    return leaf_7_has(CLFLUSHOPT_BIT);
}

static bool has_clflush(void)
{
    unsigned a, b, c, d;
    return __get_cpuid(1, &a, &b, &c, &d) && (d & CLFLUSH_BIT);
}

/* The fence after each: later stores wait until the line is on its way to memory. */
__attribute__((target("clwb"))) static bool by_clwb(void *address)
{
    _mm_clwb(address);
    _mm_sfence();
    return true;
}

__attribute__((target("clflushopt"))) static bool by_clflushopt(void *address)
{
    _mm_clflushopt(address);
    _mm_sfence();
    return true;
}

static bool by_clflush(void *address)
{
    _mm_clflush(address);
    _mm_sfence();
    return true;
}

bool flush_whole_lines(void)
{
    return true;
}
#elif defined(__aarch64__)
#include <sys/auxv.h>

/* The bits of the system's two words of features (asm/hwcap.h) that announce DC CVAP and DC CVADP. */
#define DCPOP_BIT (1ul << 16)
#define DCPODP_BIT (1ul << 0)

/* The register with the length of the shortest line of the data caches. A test may put its own function in its place. */
#ifdef CACHE_HOOKED
uint64_t cache_type(void);
#else
static uint64_t cache_type(void)
{
    uint64_t word;
    __asm__("mrs %0, ctr_el0" : "=r"(word));
    return word;
}
#endif

/* Its bits 16 to 19: the logarithm of the number of words of 4 bytes. */
bool flush_whole_lines(void)
{
    return (cache_type() >> 16 & 15) >= 4;
}

static bool has_cvadp(void)
{
    return getauxval(AT_HWCAP2) & DCPODP_BIT && flush_whole_lines();
}

static bool has_cvap(void)
{
    return getauxval(AT_HWCAP) & DCPOP_BIT && flush_whole_lines();
}

/*
 * The DSB after each: later stores wait until the line is at its point. Stores before it to the same line come first by themselves. Two are
 * written as the SYS that they are, for an assembler that does not know ARMv8.2.
 */
static bool by_cvadp(void *address)
{
    __asm__ volatile("sys #3, c7, c13, #1, %0\n\tdsb sy" ::"r"(address) : "memory");
    return true;
}

static bool by_cvap(void *address)
{
    __asm__ volatile("sys #3, c7, c12, #1, %0\n\tdsb sy" ::"r"(address) : "memory");
    return true;
}

/* Not CVAC, which some processors of this kind carry out wrongly. */
static bool by_civac(void *address)
{
    __asm__ volatile("dc civac, %0\n\tdsb sy" ::"r"(address) : "memory");
    return true;
}
#else
bool flush_whole_lines(void)
{
    return false;
}
#endif

/*
 * Best first: clwb may keep the line in the cache; clflush waits for each line before it. On ARM: to the point of deep persistence, to the
 * point of persistence, to the point of coherency. The last is memory only if the machine has no cache behind that point.
 */
static const struct {
    struct flush flush;
    bool (*has)(void);
} ways[] = {
#if defined(__x86_64__)
    {{"clwb", by_clwb, true}, has_clwb},
    {{"clflushopt", by_clflushopt, true}, has_clflushopt},
    {{"clflush", by_clflush, true}, has_clflush},
#elif defined(__aarch64__)
    {{"cvadp", by_cvadp, true}, has_cvadp},
    {{"cvap", by_cvap, true}, has_cvap},
    {{"civac", by_civac, true}, flush_whole_lines},
#endif
    {{"none", only_fence, false}, always},
};

const struct flush *flush_best(void)
{
    size_t i = 0;
    while (!ways[i].has())
        i++;
    return &ways[i].flush;
}

const struct flush *flush_named(const char *name)
{
    for (size_t i = 0; i < sizeof ways / sizeof ways[0]; i++)
        if (strcmp(ways[i].flush.name, name) == 0 && ways[i].has())
            return &ways[i].flush;
    return NULL;
}

const char *catalogue_file_flush(const char *name)
{
    const struct flush *flush = name ? flush_named(name) : flush_best();
    return flush ? flush->name : NULL;
}

/* ---- pages of a file */

static size_t page_bytes(void)
{
    return (size_t)sysconf(_SC_PAGESIZE);
}

bool flush_pages(void *from, size_t bytes)
{
    int status;
    do
        status = msync(from, bytes, MS_SYNC);
    while (status != 0 && errno == EINTR);
    return status == 0;
}

static bool by_page(void *address)
{
    size_t page = page_bytes();
    return flush_pages((void *)((uintptr_t)address & ~(uintptr_t)(page - 1)), page);
}

const struct flush *flush_by_page(void)
{
    static const struct flush way = {"page", by_page, true};
    return &way;
}

void flush_barrier(void)
{
#if defined(__x86_64__)
    _mm_sfence();
#elif defined(__aarch64__)
    __asm__ volatile("dmb ishst" ::: "memory");
#else
    __atomic_thread_fence(__ATOMIC_SEQ_CST);
#endif
}
