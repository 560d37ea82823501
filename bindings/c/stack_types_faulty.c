/* Wrong versions of the calls over data types, one a number, that take more stack than the header promises, to show
 * that this is found by running. Their answers are right.
 *
 *   cc -DFAULT=n -DPROMISED=bytes -c stack_types_faulty.c
 *                                  then linked with --wrap for the function that stands behind WRONG or TOUCHES;
 *                                  PROMISED: what VINDASKOT_TYPE_STACK is, for the assembler
 *
 * tools/c-tests demands that stack_types finds each. With number 0, a control, nothing is wrong, and one of the calls
 * takes all that is promised.
 */
#include <string.h>

#include "vindaskot.h"

#define ROOT const uint8_t *bytes, size_t bytes_len, bool checked
#define TELLS_TYPE uint64_t *slots, uint8_t *guid, uint64_t *answer
#define TELLS_PART uint64_t *slots, uint64_t *answer

/* What each of the seven takes, and passes on. */
#define TAKES_vindaskot_type_read_in ROOT, TELLS_TYPE
#define GIVES_vindaskot_type_read_in bytes, bytes_len, checked, slots, guid, answer
#define TAKES_vindaskot_type_step_in ROOT, size_t *cursor, TELLS_TYPE
#define GIVES_vindaskot_type_step_in bytes, bytes_len, checked, cursor, slots, guid, answer
#define TAKES_vindaskot_type_array_in ROOT, size_t number, TELLS_PART
#define GIVES_vindaskot_type_array_in bytes, bytes_len, checked, number, slots, answer
#define TAKES_vindaskot_type_attribute_in ROOT, size_t number, TELLS_PART
#define GIVES_vindaskot_type_attribute_in bytes, bytes_len, checked, number, slots, answer
#define TAKES_vindaskot_type_attribute_named_in ROOT, const uint8_t *name, size_t name_len, TELLS_PART
#define GIVES_vindaskot_type_attribute_named_in bytes, bytes_len, checked, name, name_len, slots, answer
#define TAKES_vindaskot_type_member_in                                                                                 \
    ROOT, size_t number, uint64_t *slots, uint8_t *guid, uint64_t *path, uint64_t *answer
#define GIVES_vindaskot_type_member_in bytes, bytes_len, checked, number, slots, guid, path, answer
#define TAKES_vindaskot_type_members_in ROOT, uint64_t *slots, size_t slots_len, uint64_t *answer
#define GIVES_vindaskot_type_members_in bytes, bytes_len, checked, slots, slots_len, answer

/* An array is used for something that the compiler does not know, so that it is there. */
#define USED(array) __asm__ volatile("" : : "r"(array) : "memory")
#define APART static __attribute__((noinline, unused))

APART void takes_much(void)
{
    uint8_t much[VINDASKOT_TYPE_STACK];
    memset(much, 0, sizeof much);
    USED(much);
}

/* One call within another for each of a list. */
APART void for_each(uint64_t count)
{
    uint64_t own = count;
    USED(&own);
    if (count > 1)
        for_each(count - 1);
    USED(&own);
}

/* A call that takes much where a condition holds of what it came to. */
#define WRONG(name, condition)                                                                                         \
    uint32_t __real_##name(TAKES_##name);                                                                              \
    uint32_t __wrap_##name(TAKES_##name);                                                                              \
    uint32_t __wrap_##name(TAKES_##name)                                                                               \
    {                                                                                                                  \
        uint32_t status = __real_##name(GIVES_##name);                                                                 \
        if (condition)                                                                                                 \
            takes_much();                                                                                              \
        return status;                                                                                                 \
    }

#define DIGITS_OF(number) #number
#define DIGITS(number) DIGITS_OF(number)

/* Writes a byte so far below the return address, and goes on as the right one. 8 bytes are the return address. */
#define TOUCHES(name, more)                                                                                            \
    __asm__(".text\n.globl __wrap_" #name "\n.type __wrap_" #name ", @function\n__wrap_" #name ":\n"                   \
            "  movb $0, -(" DIGITS(PROMISED) " - 8 + " #more ")(%rsp)\n  jmp __real_" #name "\n"                       \
                                             ".size __wrap_" #name ", . - __wrap_" #name "\n");                        \
    uint32_t __real_##name(TAKES_##name);                                                                              \
    uint32_t __wrap_##name(TAKES_##name)

#if FAULT == 0
TOUCHES(vindaskot_type_read_in, 0);

#elif FAULT == 1 /* a data type that takes a byte more than is promised */
TOUCHES(vindaskot_type_read_in, 1);

#elif FAULT == 2 /* a list of members that takes a byte more than is promised */
TOUCHES(vindaskot_type_members_in, 1);

#elif FAULT == 3 /* much taken at every data type */
WRONG(vindaskot_type_read_in, true)

#elif FAULT == 4 /* much taken at depth 16 alone */
WRONG(vindaskot_type_member_in, status == VINDASKOT_DONE && path[VINDASKOT_PATH_DEPTH] == 16)

#elif FAULT == 5 /* much taken where a data type is too deep */
WRONG(vindaskot_type_step_in, status == 15)

#elif FAULT == 6 /* much taken for an end byte alone */
WRONG(vindaskot_type_array_in, status == 16)

#elif FAULT == 7 /* much taken in the checked mode alone */
WRONG(vindaskot_type_read_in, checked)

#elif FAULT == 8 /* much taken in the present mode alone */
WRONG(vindaskot_type_step_in, !checked)

#elif FAULT == 9 /* much taken where an attribute is not there */
WRONG(vindaskot_type_attribute_in, status == 14)

#elif FAULT == 10 /* much taken where an attribute is found by its name */
WRONG(vindaskot_type_attribute_named_in, status == VINDASKOT_DONE)

#elif FAULT == 11 /* much taken where no attribute has the name */
WRONG(vindaskot_type_attribute_named_in, status == 13)

#elif FAULT == 12 /* much taken where slots are too few */
WRONG(vindaskot_type_members_in, status == 6)

#elif FAULT == 13 /* much taken where just enough slots are lent */
WRONG(vindaskot_type_members_in, status == VINDASKOT_DONE && answer[0] == slots_len && slots_len > 0)

#elif FAULT == 14 /* much taken for more than 65,000 sub-items alone */
WRONG(vindaskot_type_read_in, status == VINDASKOT_DONE && slots[VINDASKOT_TYPE_ITEM_COUNT] > 65000)

#elif FAULT == 15 /* much taken for more than 65,000 array records alone */
WRONG(vindaskot_type_array_in, status == 14 && answer[0] > 65000)

#elif FAULT == 16 /* much taken for more than 65,000 attributes alone */
WRONG(vindaskot_type_attribute_in, status == VINDASKOT_DONE && number > 65000)

#elif FAULT == 17 /* much taken above the limit alone */
WRONG(vindaskot_type_members_in, status == 5)

#elif FAULT == 18 /* much taken for no bytes alone */
WRONG(vindaskot_type_member_in, bytes_len == 0)

#elif FAULT == 19 /* a call within another for each sub-item */
WRONG(vindaskot_type_read_in, status == VINDASKOT_DONE && (for_each(slots[VINDASKOT_TYPE_ITEM_COUNT] / 40), false))

#else
#error "no such fault"
#endif
