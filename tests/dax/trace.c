/*
 * trace [-g] [-k EVENTS] ADDRESS BYTES OUT PROGRAM WORDS ..: runs the program, which is static and lies at a fixed place, instruction by
 * instruction in its function at ADDRESS, carry_out. What reaches the table, the first BYTES of carry_out's memory, is written to OUT in the
 * order in which the processor retires it:
 *   S word value   a store, seen by what memory holds after the instruction
 *   F line name    clwb, clflushopt or clflush
 *   B              sfence or mfence
 *   M              an msync, anywhere
 *   A              a write to standard output, anywhere: an acknowledgement
 *   X status       the end
 *   K              the kill that -k asks for, after so many stores and flushes
 * -g grants MAP_SYNC on any file system.
 */
#include <errno.h>
#include <signal.h>
#include <stdbool.h>
#include <stdint.h>
#include <stdio.h>
#include <stdlib.h>
#include <string.h>
#include <sys/mman.h>
#include <sys/ptrace.h>
#include <sys/syscall.h>
#include <sys/uio.h>
#include <sys/user.h>
#include <sys/wait.h>
#include <unistd.h>

#define TRAP 0xCC

static pid_t traced;
static FILE *out;
static uint64_t table; /* where the traced program has it */
static size_t bytes;
static unsigned char *was, *is;
static unsigned long left; /* events until the kill */

static void give_up(const char *why)
{
    fprintf(stderr, "trace: %s: %s\n", why, strerror(errno));
    kill(traced, SIGKILL);
    exit(3);
}

static void peek(uint64_t at, void *to, size_t count)
{
    struct iovec here = {to, count}, there = {(void *)(uintptr_t)at, count};
    if (process_vm_readv(traced, &here, 1, &there, 1, 0) != (ssize_t)count)
        give_up("memory cannot be read");
}

/* Puts a byte into the program, and gives back the one that was there. */
static unsigned char exchange(uint64_t at, unsigned char byte)
{
    errno = 0;
    long word = ptrace(PTRACE_PEEKTEXT, traced, at, 0);
    if (errno != 0 || ptrace(PTRACE_POKETEXT, traced, at, (word & ~255L) | byte) != 0)
        give_up("the program cannot be changed");
    return (unsigned char)word;
}

static int go_on(int how)
{
    int status;
    if (ptrace(how, traced, 0, 0) != 0 || waitpid(traced, &status, 0) != traced)
        give_up("the program does not go on");
    return status;
}

static void ended(int status)
{
    fprintf(out, WIFEXITED(status) ? "X %d\n" : "K\n", WEXITSTATUS(status));
    fclose(out);
    exit(WIFEXITED(status) ? WEXITSTATUS(status) : 9);
}

static void count_event(void)
{
    if (left == 0 || --left > 0)
        return;
    kill(traced, SIGKILL);
    waitpid(traced, NULL, 0);
    ended(SIGKILL);
}

/* ---- instructions */

static uint64_t register_of(const struct user_regs_struct *u, int number)
{
    const unsigned long long all[16] = {u->rax, u->rcx, u->rdx, u->rbx, u->rsp, u->rbp, u->rsi, u->rdi,
                                        u->r8,  u->r9,  u->r10, u->r11, u->r12, u->r13, u->r14, u->r15};
    return all[number];
}

/* Where the memory operand of an instruction is, whose ModRM byte is at code; without one by the program counter. */
static uint64_t operand(const struct user_regs_struct *u, const unsigned char *code, int rex)
{
    int mod = code[0] >> 6, rm = code[0] & 7, used = 1;
    uint64_t at;
    if (rm == 4) {
        int base = (code[1] & 7) | (rex & 1) << 3, index = (code[1] >> 3 & 7) | (rex & 2) << 2;
        at = register_of(u, base) + (index == 4 ? 0 : register_of(u, index) << (code[1] >> 6));
        used = 2;
    } else {
        at = register_of(u, rm | (rex & 1) << 3);
    }
    int32_t displacement = mod == 1 ? (int8_t)code[used] : 0;
    if (mod == 2)
        memcpy(&displacement, code + used, sizeof displacement);
    return at + (uint64_t)(int64_t)displacement;
}

/* Writes a flush or a fence down before it is carried out: 0F AE, behind the prefixes 66 and REX. */
static void look_at(const struct user_regs_struct *u)
{
    unsigned char code[15];
    peek(u->rip, code, sizeof code);
    bool prefix = code[0] == 0x66;
    int i = prefix, rex = (code[i] & 0xF0) == 0x40 ? code[i++] : 0;
    if (code[i] != 0x0F || code[i + 1] != 0xAE)
        return;
    int kind = code[i + 2] >> 3 & 7;
    if (code[i + 2] >> 6 == 3) {
        if (kind == 6 || kind == 7)
            fprintf(out, "B\n");
    } else if (kind == 7 || (kind == 6 && prefix)) {
        uint64_t line = (operand(u, code + i + 2, rex) - table) / 64;
        fprintf(out, "F %lu %s\n", (unsigned long)line, kind == 6 ? "clwb" : prefix ? "clflushopt" : "clflush");
        count_event();
    }
}

static void look_for_stores(void)
{
    peek(table, is, bytes);
    if (memcmp(is, was, bytes) == 0)
        return;
    for (size_t at = 0; at < bytes; at += 8) {
        uint64_t value;
        memcpy(&value, is + at, 8);
        if (memcmp(is + at, was + at, 8) != 0)
            fprintf(out, "S %zu %lu\n", at / 8, (unsigned long)value);
    }
    memcpy(was, is, bytes);
    count_event();
}

/* From the first instruction of carry_out until it returns. */
static void step_through(void)
{
    struct user_regs_struct u;
    uint64_t back, stack;
    ptrace(PTRACE_GETREGS, traced, 0, &u);
    table = u.rdi;
    stack = u.rsp;
    peek(stack, &back, sizeof back);
    peek(table, was, bytes);
    while (u.rip != back || u.rsp != stack + 8) {
        look_at(&u);
        int status = go_on(PTRACE_SINGLESTEP);
        if (!WIFSTOPPED(status))
            ended(status);
        look_for_stores();
        ptrace(PTRACE_GETREGS, traced, 0, &u);
    }
}

/* ---- system calls */

/* Before a system call. */
static void look_at_call(bool grant)
{
    struct user_regs_struct u;
    ptrace(PTRACE_GETREGS, traced, 0, &u);
    if (u.orig_rax == SYS_write && u.rdi == 1)
        fprintf(out, "A\n");
    if (u.orig_rax == SYS_msync)
        fprintf(out, "M\n");
    if (grant && u.orig_rax == SYS_mmap && (u.r10 & MAP_SYNC)) {
        u.r10 = MAP_SHARED;
        ptrace(PTRACE_SETREGS, traced, 0, &u);
    }
}

/* At the trap: the instruction that it stands for, to be carried out. */
static void step_back(uint64_t at, unsigned char first)
{
    struct user_regs_struct u;
    ptrace(PTRACE_GETREGS, traced, 0, &u);
    if (u.rip != at + 1)
        give_up("a trap at another place");
    u.rip = at;
    ptrace(PTRACE_SETREGS, traced, 0, &u);
    exchange(at, first);
}

static void follow(uint64_t at, bool grant)
{
    unsigned char first = exchange(at, TRAP);
    for (bool before = true;;) {
        int status = go_on(PTRACE_SYSCALL);
        if (!WIFSTOPPED(status))
            ended(status);
        if (WSTOPSIG(status) == (SIGTRAP | 0x80)) {
            if (before)
                look_at_call(grant);
            before = !before;
        } else if (WSTOPSIG(status) == SIGTRAP) {
            step_back(at, first);
            step_through();
            exchange(at, TRAP);
        } else {
            give_up("a signal");
        }
    }
}

int main(int count, char **words)
{
    bool grant = false;
    for (int option; (option = getopt(count, words, "+gk:")) != -1;) {
        if (option == 'g')
            grant = true;
        else if (option == 'k')
            left = strtoul(optarg, NULL, 10);
        else
            return 64;
    }
    if (count - optind < 4)
        return 64;
    uint64_t at = strtoul(words[optind], NULL, 16);
    bytes = strtoul(words[optind + 1], NULL, 10);
    was = malloc(bytes);
    is = malloc(bytes);
    out = fopen(words[optind + 2], "w");
    if (!was || !is || !out)
        return 3;
    traced = fork();
    if (traced == 0) {
        ptrace(PTRACE_TRACEME, 0, 0, 0);
        execv(words[optind + 3], words + optind + 3);
        _exit(9);
    }
    waitpid(traced, NULL, 0);
    ptrace(PTRACE_SETOPTIONS, traced, 0, PTRACE_O_TRACESYSGOOD | PTRACE_O_EXITKILL);
    follow(at, grant);
}
