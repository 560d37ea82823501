/* Calls on stacks that are painted, so that what was written of them is seen afterwards. */
#define _DEFAULT_SOURCE
#include <signal.h>
#include <stdio.h>
#include <stdlib.h>
#include <string.h>
#include <sys/mman.h>
#include <unistd.h>

#include "stack_call.h"

/* As much below each stack as the largest array could step over that goes with a text. Pages that are not used cost
 * nothing. */
#define NOBODYS ((size_t)256 << 20)

uint8_t stack_paint[PAINTS][PAINT_BYTES];

/* What two arguments take, above the stack pointer at the call instruction. */
enum { PASSED = 16 };

static uint8_t *lowest[PAINTS], *top[PAINTS];
static size_t stack_bytes;

/* Calls a function with the eight arguments, two of them on the stack whose end is given. Between taking that stack and
 * leaving it nothing else is written to it but by the call instruction and by what is called.
 *
 * The functions of known use: one that returns; one that writes a byte (the second argument) so many bytes (the fourth)
 * below its return address; one that pushes as many words (the fourth). */
__asm__(".text\n"
        ".type stack_switch, @function\n"
        "stack_switch:\n" /* rdi: the stack's end, rsi: the function, rdx: its arguments */
        "  push %rbx\n"
        "  mov %rsp, %rbx\n"
        "  mov %rdi, %rsp\n"
        "  mov %rsi, %rax\n"
        "  mov %rdx, %r10\n"
        "  mov 0(%r10), %rdi\n"
        "  mov 8(%r10), %rsi\n"
        "  mov 16(%r10), %rdx\n"
        "  mov 24(%r10), %rcx\n"
        "  mov 32(%r10), %r8\n"
        "  mov 40(%r10), %r9\n"
        "  push 56(%r10)\n"
        "  push 48(%r10)\n"
        "  call *%rax\n"
        "  mov %rbx, %rsp\n"
        "  pop %rbx\n"
        "  ret\n"
        ".size stack_switch, . - stack_switch\n"
        ".type stack_returns, @function\n"
        "stack_returns:\n"
        "  ret\n"
        ".size stack_returns, . - stack_returns\n"
        ".type stack_writes, @function\n"
        "stack_writes:\n"
        "  neg %rcx\n"
        "  mov %sil, (%rsp,%rcx)\n"
        "  ret\n"
        ".size stack_writes, . - stack_writes\n"
        ".type stack_pushes, @function\n"
        "stack_pushes:\n"
        "  mov %rsp, %rax\n"
        "1: push %rcx\n"
        "  dec %rcx\n"
        "  jnz 1b\n"
        "  mov %rax, %rsp\n"
        "  ret\n"
        ".size stack_pushes, . - stack_pushes\n");
uint32_t stack_switch(uint8_t *end, called *function, const uintptr_t arguments[ARGUMENTS]);
extern called stack_returns, stack_writes, stack_pushes;

static void paint(int which, size_t bytes)
{
    while (bytes > 0) {
        uint8_t *from = top[which] - bytes;
        size_t place = (uintptr_t)from % PAINT_BYTES;
        size_t n = bytes < PAINT_BYTES - place ? bytes : PAINT_BYTES - place;
        memcpy(from, stack_paint[which] + place, n);
        bytes -= n;
    }
}

/* How much of a stack, down from its end, is not as painted: all of it is looked at, in parts, which is fast. */
static size_t changed(int which)
{
    enum { PART = 256 };
    for (const uint8_t *part = lowest[which]; part < top[which]; part += PART) {
        const uint8_t *painted = stack_paint[which] + (uintptr_t)part % PAINT_BYTES;
        size_t place = 0;
        if (memcmp(part, painted, PART) == 0)
            continue;
        while (part[place] == painted[place])
            place++;
        return (size_t)(top[which] - part) - place;
    }
    return 0;
}

size_t stack_taken_on(int which, called *function, const uintptr_t arguments[ARGUMENTS], uint32_t *status)
{
    *status = stack_switch(top[which], function, arguments);
    size_t bytes = changed(which);
    paint(which, bytes);
    return bytes - PASSED;
}

const uint8_t *stack_nowhere(void)
{
    return lowest[0] - NOBODYS;
}

/* Ends the program as failed: a call went below its stack, or did another thing that is not allowed. */
static void stopped(int signal, siginfo_t *info, void *context)
{
    const uint8_t *at = info->si_addr;
    (void)signal, (void)context;
    for (int i = 0; i < PAINTS; i++)
        if (at < lowest[i] && at >= lowest[i] - NOBODYS / 2)
            stack_tell("OVERFLOW: more than the whole stack was taken");
    stack_tell("FAULT: memory was touched that nobody may touch");
}

static void begin_signals(void)
{
    static uint8_t own[256 << 10];
    stack_t other = {.ss_sp = own, .ss_size = sizeof own};
    struct sigaction action = {.sa_sigaction = stopped, .sa_flags = SA_SIGINFO | SA_ONSTACK};
    if (sigaltstack(&other, NULL) != 0 || sigaction(SIGSEGV, &action, NULL) != 0 ||
        sigaction(SIGBUS, &action, NULL) != 0) {
        perror("stack: signals");
        exit(2);
    }
}

/* Bytes by their place as a generator gives them, so that a copy from elsewhere on the stack is seen; none is 0, FF,
 * a character of ASCII or a small number. */
static void begin_paint(void)
{
    uint32_t number = 1;
    for (size_t i = 0; i < PAINT_BYTES; i++) {
        number = number * 1664525 + 1013904223;
        stack_paint[0][i] = (uint8_t)(0x82 + (number >> 16) % 60);
        stack_paint[1][i] = stack_paint[0][i] ^ 0x40;
    }
}

static void begin_stacks(void)
{
    size_t page = (size_t)sysconf(_SC_PAGESIZE), all = NOBODYS + stack_bytes + page;
    for (int i = 0; i < PAINTS; i++) {
        uint8_t *at = mmap(NULL, all, PROT_NONE, MAP_PRIVATE | MAP_ANONYMOUS | MAP_NORESERVE, -1, 0);
        if (at == MAP_FAILED || mprotect(at + NOBODYS, stack_bytes, PROT_READ | PROT_WRITE) != 0) {
            perror("stack: memory");
            exit(2);
        }
        lowest[i] = at + NOBODYS;
        top[i] = lowest[i] + stack_bytes;
        paint(i, stack_bytes);
    }
}

static void known(called *function, size_t value, size_t below, size_t bytes)
{
    const uintptr_t arguments[ARGUMENTS] = {0, value, 0, below};
    uint32_t status;
    size_t most = 0;
    for (int i = 0; i < PAINTS; i++) {
        size_t seen = stack_taken_on(i, function, arguments, &status);
        most = seen > most ? seen : most;
    }
    if (most != bytes) {
        fprintf(stderr, "stack: a call of known use is measured as %zu bytes and not as %zu\n", most, bytes);
        exit(2);
    }
}

void stack_begin(size_t bytes)
{
    const size_t depths[] = {1, 2, 7, 8, 9, 128, 4087, 4088, 4089, 8192, 12345, bytes - PASSED - 8};
    stack_bytes = bytes;
    begin_signals();
    begin_paint();
    begin_stacks();
    known(stack_returns, 0, 0, 8);
    for (size_t i = 0; i < sizeof depths / sizeof *depths; i++)
        for (size_t value = 0; value < 256; value++)
            known(stack_writes, value, depths[i], 8 + depths[i]);
    for (size_t words = 1; words <= (bytes - PASSED) / 8 - 1; words = words * 2 + 1)
        known(stack_pushes, 0, words, 8 + 8 * words);
    known(stack_returns, 0, 0, 8);
}
