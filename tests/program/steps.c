/*
 * steps OUT PROGRAM WORDS..: runs the program, and goes through its function carry_out one instruction at a time. OUT gets a line for each that
 * reaches memory, in the order in which the processor retires them; places are from where the table is mapped:
 *   store WORD VALUE   seen by what the word holds after the instruction
 *   flush LINE NAME    clwb, clflushopt or clflush
 *   fence              sfence or mfence
 *   list COUNT         carry_out begins with so many orders; the table is what the lines between it and 'end' store to
 *   end                it returns
 * For x86-64. Ends with the program's status, or 99 if the program cannot be followed.
 */
#include <signal.h>
#include <stdbool.h>
#include <stdint.h>
#include <stdio.h>
#include <stdlib.h>
#include <string.h>
#include <sys/ptrace.h>
#include <sys/uio.h>
#include <sys/user.h>
#include <sys/wait.h>
#include <unistd.h>

#define BREAK 0xcc
#define TABLE_WORDS 65536 /* of a small table, at most */

static pid_t child;
static FILE *out;
static uint64_t before[TABLE_WORDS], now[TABLE_WORDS];
static size_t bytes;

static _Noreturn void lost(const char *why)
{
    perror(why);
    exit(99);
}

static size_t read_child(uint64_t at, void *to, size_t most)
{
    struct iovec mine = {to, most}, theirs = {(void *)at, most};
    ssize_t got = process_vm_readv(child, &mine, 1, &theirs, 1, 0);
    return got < 0 ? 0 : (size_t)got;
}

static unsigned char poke(uint64_t at, unsigned char byte)
{
    long word = ptrace(PTRACE_PEEKTEXT, child, at, 0);
    if (ptrace(PTRACE_POKETEXT, child, at, (word & ~0xffL) | byte) != 0)
        lost("poke");
    return (unsigned char)word;
}

static uint64_t symbol(const char *program, const char *wanted)
{
    char command[4096], line[4096], name[1024], kind;
    uint64_t at = 0, value;
    snprintf(command, sizeof command, "nm '%s'", program);
    FILE *names = popen(command, "r");
    while (names && fgets(line, sizeof line, names))
        if (sscanf(line, "%lx %c %1000s", &value, &kind, name) == 3 && strcmp(name, wanted) == 0)
            at = value;
    if (!names || pclose(names) != 0 || at == 0)
        lost("nm");
    return at;
}

/* Where the program's first byte lies, or the first byte of the mapping that has an address; *end is one behind. */
static uint64_t mapping(const char *program, uint64_t with, uint64_t *end)
{
    char path[64], line[4096];
    uint64_t from, to, found = 0;
    snprintf(path, sizeof path, "/proc/%d/maps", (int)child);
    FILE *maps = fopen(path, "r");
    while (maps && found == 0 && fgets(line, sizeof line, maps))
        if (sscanf(line, "%lx-%lx", &from, &to) == 2 && (program ? strstr(line, program) != NULL : from <= with && with < to)) {
            found = from;
            *end = to;
        }
    if (maps)
        fclose(maps);
    return found;
}

static uint64_t reg(const struct user_regs_struct *r, unsigned number)
{
    const unsigned long long all[16] = {r->rax, r->rcx, r->rdx, r->rbx, r->rsp, r->rbp, r->rsi, r->rdi,
                                        r->r8,  r->r9,  r->r10, r->r11, r->r12, r->r13, r->r14, r->r15};
    return all[number];
}

/* The memory operand of 0F AE: registers with a displacement or none. */
static uint64_t operand(const struct user_regs_struct *r, const unsigned char *at, unsigned rex)
{
    unsigned mode = at[0] >> 6, low = at[0] & 7, used = 1;
    uint64_t address;
    if (low == 4) {
        unsigned base = (at[1] & 7) | (rex & 1) << 3, index = (at[1] >> 3 & 7) | (rex & 2) << 2;
        address = reg(r, base) + (index == 4 ? 0 : reg(r, index) << (at[1] >> 6));
        used = 2;
    } else {
        address = reg(r, low | (rex & 1) << 3);
    }
    int32_t far;
    memcpy(&far, at + used, sizeof far);
    return address + (uint64_t)(mode == 1 ? (int8_t)at[used] : mode == 2 ? far : 0);
}

static void look_at(const struct user_regs_struct *r, uint64_t table)
{
    unsigned char code[16] = {0};
    unsigned i = 0, rex = 0;
    read_child(r->rip, code, 15);
    bool prefix = code[i] == 0x66;
    i += prefix;
    if ((code[i] & 0xf0) == 0x40)
        rex = code[i++];
    if (code[i] != 0x0f || code[i + 1] != 0xae)
        return;
    unsigned kind = code[i + 2] >> 3 & 7;
    if (code[i + 2] >> 6 == 3 && (kind == 6 || kind == 7))
        fprintf(out, "fence\n");
    else if (code[i + 2] >> 6 != 3 && (kind == 7 || (kind == 6 && prefix)))
        fprintf(out, "flush %ld %s\n", ((long)operand(r, code + i + 2, rex) - (long)table) / 64, kind == 6 ? "clwb" : prefix ? "clflushopt" : "clflush");
}

static void look_at_table(uint64_t table)
{
    read_child(table, now, bytes);
    for (size_t word = 0; memcmp(now, before, bytes) != 0 && word < bytes / 8; word++)
        if (now[word] != before[word]) {
            fprintf(out, "store %zu %lu\n", word, now[word]);
            before[word] = now[word];
        }
}

/* From carry_out's first instruction to its return. */
static void follow(struct user_regs_struct *r)
{
    uint64_t table = r->rdi, end, back, stack = r->rsp;
    if (mapping(NULL, table, &end) == 0 || read_child(r->rsp, &back, sizeof back) != sizeof back)
        lost("the table");
    bytes = end - table < sizeof before ? end - table : sizeof before;
    read_child(table, before, bytes);
    fprintf(out, "list %llu\n", r->rdx);
    while (r->rip != back || r->rsp != stack + 8) {
        int status;
        look_at(r, table);
        if (ptrace(PTRACE_SINGLESTEP, child, 0, 0) != 0 || waitpid(child, &status, 0) != child || !WIFSTOPPED(status))
            lost("step");
        look_at_table(table);
        ptrace(PTRACE_GETREGS, child, 0, r);
    }
    fprintf(out, "end\n");
}

int main(int count, char **words)
{
    int status;
    uint64_t end;
    if (count < 3 || !(out = fopen(words[1], "w")))
        lost("steps OUT PROGRAM WORDS..");
    char *program = realpath(words[2], NULL);
    uint64_t function = symbol(program, "carry_out");
    if ((child = fork()) == 0) {
        ptrace(PTRACE_TRACEME, 0, 0, 0);
        execv(program, words + 2);
        _exit(99);
    }
    if (waitpid(child, &status, 0) != child || !WIFSTOPPED(status) || ptrace(PTRACE_SETOPTIONS, child, 0, PTRACE_O_EXITKILL) != 0)
        lost("ptrace");
    uint64_t at = mapping(program, 0, &end) + function;
    for (;;) {
        struct user_regs_struct r;
        unsigned char there = poke(at, BREAK);
        if (ptrace(PTRACE_CONT, child, 0, 0) != 0 || waitpid(child, &status, 0) != child)
            lost("go on");
        if (WIFEXITED(status)) {
            fclose(out);
            return WEXITSTATUS(status);
        }
        ptrace(PTRACE_GETREGS, child, 0, &r);
        if (!WIFSTOPPED(status) || WSTOPSIG(status) != SIGTRAP || r.rip != at + 1)
            lost("stopped elsewhere");
        r.rip = at;
        ptrace(PTRACE_SETREGS, child, 0, &r);
        poke(at, there);
        follow(&r);
    }
}
