/* Wrong versions of vindaskot_decode and vindaskot_encode, one a number, that take more than 4,096 bytes of stack, to
 * show that this is found. Their answers are right.
 *
 *   cc -DFAULT=n -c stack_faulty.c       then linked with --wrap for each function that stands behind WRONG
 *
 * Before the colon stands how each must be found, and tools/c-tests demands just that. By running: `run`, measured;
 * `overflow`, as it leaves the whole stack. By the code: `above`, by its figure; else by the reason why there is no
 * bound. With number 0, a control, nothing is wrong, and one of the two takes all of the 4,096 bytes.
 */
#include <string.h>

#include "stack.h"

#define PARAMETERS const uint8_t *src, size_t src_len, uint8_t *out, size_t out_len, uint64_t *answer
#define WRONG(name)                                                                                                    \
    uint32_t __real_##name(PARAMETERS);                                                                                \
    uint32_t __wrap_##name(PARAMETERS)
#define RIGHT(name) __real_##name(src, src_len, out, out_len, answer)

/* An array is used for something that the compiler does not know, so that it is there. */
#define USED(array) __asm__ volatile("" : : "r"(array) : "memory")

/* A function of its own, so that what it takes is taken only where it is called. */
#define APART static __attribute__((noinline, unused))

enum { MUCH = 4096, PIECE = 1024 };

APART void takes_much(void)
{
    uint8_t much[MUCH];
    memset(much, 0, sizeof much);
    USED(much);
}

APART void calls_much(void)
{
    takes_much();
    __asm__ volatile(""); /* the call is not the last thing done here, so that it stays a call */
}

APART void filled_as_painted(int paint)
{
    uint8_t much[MUCH];
    for (size_t i = 0; i < sizeof much; i++)
        much[i] = stack_paint[paint][(uintptr_t)(much + i) % PAINT_BYTES];
    USED(much);
}

APART void upper_end(void)
{
    uint8_t much[MUCH];
    much[MUCH - 1] = 1;
    USED(much);
}

/* Eight ways by the text's length, chosen by a jump table, one of which calls a function. */
#define WAY(number)                                                                                                    \
    case number: __asm__ volatile("nop # " #number); break
#define ONE_OF_EIGHT(function)                                                                                         \
    switch (src_len % 8) {                                                                                             \
        WAY(0);                                                                                                        \
        WAY(1);                                                                                                        \
        WAY(2);                                                                                                        \
        WAY(3);                                                                                                        \
        WAY(4);                                                                                                        \
    case 5: function(); break;                                                                                         \
        WAY(6);                                                                                                        \
    default: __asm__ volatile("nop"); break;                                                                           \
    }

APART void by_pieces(const uint8_t *src, size_t len)
{
    uint8_t piece[PIECE];
    size_t n = len < PIECE ? len : PIECE;
    if (n > 0)
        memcpy(piece, src, n);
    USED(piece);
    if (len > n)
        by_pieces(src + n, len - n);
    USED(piece);
}

/* Whether a byte from the first to the last given stands in a text. */
APART bool has(const uint8_t *src, size_t src_len, uint8_t first, uint8_t last)
{
    for (size_t i = 0; i < src_len; i++)
        if (src[i] >= first && src[i] <= last)
            return true;
    return false;
}

/* Takes much where a condition holds of the call that was made. */
#define MUCH_WHERE(name, condition)                                                                                    \
    {                                                                                                                  \
        uint32_t status = RIGHT(name);                                                                                 \
        if (condition)                                                                                                 \
            takes_much();                                                                                              \
        return status;                                                                                                 \
    }

/* Writes a byte so far below the return address, and goes on as the right one. */
#define TOUCHES(name, below)                                                                                           \
    __asm__(".text\n.globl __wrap_" name "\n.type __wrap_" name ", @function\n__wrap_" name ":\n  movb $0, -" below    \
            "(%rsp)\n  jmp __real_" name "\n.size __wrap_" name ", . - __wrap_" name "\n")

#if FAULT == 0
TOUCHES("vindaskot_decode", "4088");
WRONG(vindaskot_decode);

WRONG(vindaskot_encode)
{
    uint32_t status = RIGHT(vindaskot_encode);
    USED(answer);
    return status;
}

#elif FAULT == 1 /* run above: decode that takes a byte more than 4,096 */
TOUCHES("vindaskot_decode", "4089");
WRONG(vindaskot_decode);

#elif FAULT == 2 /* run above: encode that takes a byte more than 4,096 */
TOUCHES("vindaskot_encode", "4089");
WRONG(vindaskot_encode);

#elif FAULT == 3 /* run above: decode with a local array of 4,096 bytes */
WRONG(vindaskot_decode)
{
    uint8_t much[MUCH];
    memset(much, 1, sizeof much);
    USED(much);
    return RIGHT(vindaskot_decode);
}

#elif FAULT == 4 /* above: decode with an array of 4,096 bytes of which the upper end alone is written */
WRONG(vindaskot_decode)
{
    upper_end();
    return RIGHT(vindaskot_decode);
}

#elif FAULT == 5 /* above: encode with such an array, for a text that is not tried */
WRONG(vindaskot_encode)
{
    if (src_len == 0x123456)
        upper_end();
    return RIGHT(vindaskot_encode);
}

#elif FAULT == 6 /* run changed: decode with an array that is as long as the text */
WRONG(vindaskot_decode)
{
    uint32_t status = RIGHT(vindaskot_decode);
    if (status == VINDASKOT_DONE && src_len > 0) {
        uint8_t all[src_len];
        memcpy(all, src, src_len);
        USED(all);
    }
    return status;
}

#elif FAULT == 7 /* run circle: encode that calls itself for every 1,024 bytes */
WRONG(vindaskot_encode)
{
    uint32_t status = RIGHT(vindaskot_encode);
    if (status == VINDASKOT_DONE)
        by_pieces(src, src_len);
    return status;
}

#elif FAULT == 8 /* overflow circle: decode that calls itself for every 1,024 bytes of a text above 1 MB */
WRONG(vindaskot_decode)
{
    uint32_t status = RIGHT(vindaskot_decode);
    if (status == VINDASKOT_DONE && src_len > 1 << 20)
        by_pieces(src, src_len);
    return status;
}

#elif FAULT == 9 /* run above: decode that takes much for a text above the limit alone */
WRONG(vindaskot_decode)
MUCH_WHERE(vindaskot_decode, status == 5)

#elif FAULT == 10 /* run above: decode that takes much where too little is lent alone */
WRONG(vindaskot_decode)
MUCH_WHERE(vindaskot_decode, status == 6)

#elif FAULT == 11 /* run above: encode that takes much where too little is lent by a byte alone */
WRONG(vindaskot_encode)
MUCH_WHERE(vindaskot_encode, status == 6 && answer[0] == out_len + 1 && src_len > 2)

#elif FAULT == 12 /* run above: encode that takes much for what is no UTF-8 alone */
WRONG(vindaskot_encode)
MUCH_WHERE(vindaskot_encode, status == 11 && answer[1] == 1)

#elif FAULT == 13 /* run above: encode that takes much for what is no UTF-8 behind 1 MB alone */
WRONG(vindaskot_encode)
MUCH_WHERE(vindaskot_encode, status == 11 && answer[1] == 1 && answer[0] >= 1 << 20)

#elif FAULT == 14 /* run above: encode that takes much for a character of four bytes alone */
WRONG(vindaskot_encode)
MUCH_WHERE(vindaskot_encode, status == 11 && answer[1] == 2 && src[answer[0]] >= 0xF0)

#elif FAULT == 15 /* run above: encode that takes much for one character of three bytes that has no byte, alone */
WRONG(vindaskot_encode)
MUCH_WHERE(vindaskot_encode, status == 11 && src_len == 3 && memcmp(src, "\xEA\x99\xAE", 3) == 0)

#elif FAULT == 16 /* run above: encode that takes much for a character of three bytes that has a byte alone */
WRONG(vindaskot_encode)
MUCH_WHERE(vindaskot_encode, status == VINDASKOT_DONE && has(src, src_len, 0xE0, 0xEF))

#elif FAULT == 17 /* run above: decode that takes much for a byte whose character has three bytes, alone */
WRONG(vindaskot_decode)
MUCH_WHERE(vindaskot_decode, status == VINDASKOT_DONE && has(src, src_len, 0x80, 0x80))

#elif FAULT == 18 /* run above: decode that takes much for a text above 1 MB alone */
WRONG(vindaskot_decode)
MUCH_WHERE(vindaskot_decode, status == VINDASKOT_DONE && src_len > 1 << 20)

#elif FAULT == 19 /* run above: encode that takes much for a text as long as the limit alone */
WRONG(vindaskot_encode)
MUCH_WHERE(vindaskot_encode, status == VINDASKOT_DONE && src_len == VINDASKOT_LIMIT)

#elif FAULT == 20 /* run above: decode that takes much for a text as long as the limit alone, with a high byte in it */
WRONG(vindaskot_decode)
MUCH_WHERE(vindaskot_decode, src_len == VINDASKOT_LIMIT && status == VINDASKOT_DONE && has(src, src_len, 0x80, 0xFF))

#elif FAULT == 21 /* run above: decode that takes much where just enough is lent alone */
WRONG(vindaskot_decode)
MUCH_WHERE(vindaskot_decode, status == VINDASKOT_DONE && src_len > 0 && answer[0] == out_len && out_len != 3 * src_len)

#elif FAULT == 22 /* run above: encode that takes much for an empty text alone */
WRONG(vindaskot_encode)
MUCH_WHERE(vindaskot_encode, src_len == 0)

#elif FAULT == 23 /* run above: decode that takes little, with a function called by one that it calls that takes much */
WRONG(vindaskot_decode)
{
    calls_much();
    return RIGHT(vindaskot_decode);
}

#elif FAULT == 24 /* run above: decode with an array that is filled as the first stack is painted */
WRONG(vindaskot_decode)
{
    filled_as_painted(0);
    return RIGHT(vindaskot_decode);
}

#elif FAULT == 25 /* run above: encode with an array that is filled as the second stack is painted */
WRONG(vindaskot_encode)
{
    filled_as_painted(1);
    return RIGHT(vindaskot_encode);
}

#elif FAULT == 26 /* run masked: encode with an array at a multiple of 64 */
WRONG(vindaskot_encode)
{
    _Alignas(64) uint8_t much[MUCH];
    memset(much, 1, sizeof much);
    USED(much);
    return RIGHT(vindaskot_encode);
}

#elif FAULT == 27 /* run pointer: decode that takes much in a function that is called through a pointer */
WRONG(vindaskot_decode)
{
    void (*volatile through)(void) = takes_much;
    through();
    return RIGHT(vindaskot_decode);
}

#elif FAULT == 28 /* not-there: encode that calls what is not in the archive */
#include <stdlib.h>

WRONG(vindaskot_encode)
{
    uint8_t *much = malloc(MUCH);
    USED(much);
    free(much);
    return RIGHT(vindaskot_encode);
}

#elif FAULT == 29 /* jumps: decode that goes on through a pointer */
WRONG(vindaskot_decode)
{
    static converts *volatile through = __real_vindaskot_decode;
    return through(src, src_len, out, out_len, answer);
}

#elif FAULT == 30 /* run meet: encode that pushes words in a loop, as many as the last bits of the length say */
__asm__(".text\n.globl __wrap_vindaskot_encode\n.type __wrap_vindaskot_encode, @function\n__wrap_vindaskot_encode:\n"
        "  mov %rsi, %rax\n"
        "  and $1023, %rax\n"
        "  inc %rax\n"
        "  mov %rax, %r9\n"
        "1: push %r9\n"
        "  dec %r9\n"
        "  jnz 1b\n"
        "2: add $8, %rsp\n"
        "  dec %rax\n"
        "  jnz 2b\n"
        "  jmp __real_vindaskot_encode\n"
        ".size __wrap_vindaskot_encode, . - __wrap_vindaskot_encode\n");
WRONG(vindaskot_encode);

#elif FAULT == 31 /* run above: decode that takes much in one of eight ways, chosen by a jump table */
WRONG(vindaskot_decode)
{
    ONE_OF_EIGHT(takes_much);
    return RIGHT(vindaskot_decode);
}

#elif FAULT == 32 /* run above: decode that ends by a jump to a function that takes much */
uint32_t __real_vindaskot_decode(PARAMETERS);

__attribute__((section(".text.apart"))) APART uint32_t goes_on(PARAMETERS)
{
    uint8_t much[MUCH];
    memset(much, 1, sizeof much);
    USED(much);
    return RIGHT(vindaskot_decode);
}

WRONG(vindaskot_decode)
{
    return goes_on(src, src_len, out, out_len, answer);
}

#elif FAULT == 33 /* above: decode in which one way of a jump table is hardly ever gone, stands apart and takes much */
__attribute__((cold)) APART void cold_end(void)
{
    upper_end();
    __asm__ volatile("");
}

WRONG(vindaskot_decode)
{
    ONE_OF_EIGHT(cold_end);
    return RIGHT(vindaskot_decode);
}
#endif
