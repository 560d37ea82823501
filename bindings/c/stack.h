/* The parts of stack, which measures how much stack vindaskot_decode and vindaskot_encode take: stack.c has what is
 * counted and told, stack_call.c the stacks on which calls are made, stack_texts.c the texts. */
#ifndef STACK_H
#define STACK_H

#include "stack_call.h"
#include "vindaskot.h"

/* ---- Counting and telling ---- */

enum function { DECODE, ENCODE, FUNCTIONS };
typedef uint32_t converts(const uint8_t *src, size_t src_len, uint8_t *out, size_t out_len, uint64_t *answer);

/* How much there is of each stack. */
enum { STACK_BYTES = 16 << 10 };

/* What a call comes to: a status, and of 11 which kind. ANY: what is not known beforehand. */
enum outcome { DONE, TOO_LARGE, TOO_SMALL, ILL_FORMED, NO_BYTE, OUTCOMES, ANY };

/* Measures a call, counts it, and complains where it takes more than the bound or comes to something else. */
void stack_case(enum function function, const uint8_t *src, size_t len, uint8_t *out, size_t lent, enum outcome is);

/* ---- Texts ---- */

struct group {
    const char *name;
    void (*cases)(void);
};
extern const struct group stack_groups[];
extern const size_t stack_groups_count;

/* Lays out memory for the texts; how many random ones there are, and from which seed. */
void stack_texts_begin(size_t count, uint64_t seed);

#endif
