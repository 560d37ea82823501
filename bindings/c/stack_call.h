/* Calls on stacks of their own, which are painted before and looked at afterwards. Of two programs: stack.c measures
 * the conversion of text, stack_types.c the reading of data types. */
#ifndef STACK_CALL_H
#define STACK_CALL_H

#include <stddef.h>
#include <stdint.h>

/* Under each stack lie pages that nobody may touch. Two arguments of eight are passed on it. */
enum { PAINT_BYTES = 4096, PAINTS = 2, ARGUMENTS = 8 };

/* What an untouched byte holds, by the last 12 bits of its address: of the first stack, and of the second. Nowhere are
 * the two the same, so that whatever is written is seen on one of them. */
extern uint8_t stack_paint[PAINTS][PAINT_BYTES];

/* What is called: a function of the library, or one of those that the measuring is tried on. It takes up to eight
 * arguments, each a number or a pointer, and gives a status; no type says both, so it is called by stack_switch alone.
 */
typedef void called(void);

/* Makes stacks of so many bytes, and ends the program where calls of known use are not measured as such. */
void stack_begin(size_t bytes);

/* Makes a call on one of the two stacks. Result: the bytes from the stack pointer at the call instruction, so with the
 * return address, down to the lowest that is not as painted. */
size_t stack_taken_on(int which, called *function, const uintptr_t arguments[ARGUMENTS], uint32_t *status);

/* Memory that nobody may touch, as the source of what its length alone must refuse. */
const uint8_t *stack_nowhere(void);

/* Given by each of the programs: tells what is being tried as it is ended by a signal. */
void stack_tell(const char *words);

#endif
