/* How much stack vindaskot_decode and vindaskot_encode take, over all kinds of text, measured by running them.
 *
 *   stack [--to-failure] [BOUND [SEED [RANDOM [CASE]]]]
 *
 * BOUND: the bytes that neither may go above (4096), counted from the stack pointer at the call instruction, what they
 * call with them. SEED and RANDOM: of the random texts (1, 20000). CASE: that case alone, by the number that is told
 * beside a figure. --to-failure: ends at the first complaint.
 *
 * Prints the most that each took and the case that took it first, then how many calls each group of texts had and how
 * many came to each status. Status 1: too much was taken, a call came to another status than its text must, or a group
 * or a status had no call. Status 2: nothing was measured. */
#include <stdio.h>
#include <stdlib.h>
#include <string.h>
#include <unistd.h>

#include "stack.h"

static const char *const function_names[FUNCTIONS] = {"vindaskot_decode", "vindaskot_encode"};
static converts *const functions[FUNCTIONS] = {vindaskot_decode, vindaskot_encode};
static const char *const outcome_names[OUTCOMES] = {"done", "5", "6", "11 with 1, not UTF-8", "11 with 2, no byte"};
static const enum outcome last_outcome[FUNCTIONS] = {TOO_SMALL, NO_BYTE};

static struct {
    enum function function;
    size_t number, len, lent;
    const char *group;
} now, deepest[FUNCTIONS];

static size_t bound = 4096, only, most[FUNCTIONS], calls[FUNCTIONS][OUTCOMES], group_calls, complaints;
static bool to_failure;

static void print_now(FILE *to)
{
    fprintf(to, "%s, case %zu, %s: length %zu, lent %zu\n", function_names[now.function], now.number, now.group,
            now.len, now.lent);
}

void stack_tell(const char *words)
{
    fflush(stdout);
    fprintf(stderr, "stack: %s: ", words);
    print_now(stderr);
    fflush(stderr);
    _exit(1);
}

static void complain(const char *words, size_t number)
{
    complaints++;
    if (complaints <= 20) {
        printf("FAILED: %s %zu: ", words, number);
        print_now(stdout);
    }
    if (to_failure) {
        puts("stack: ended at the first complaint");
        exit(1);
    }
}

static enum outcome outcome_of(uint32_t status, const uint64_t answer[2])
{
    switch (status) {
    case VINDASKOT_DONE: return DONE;
    case 5: return TOO_LARGE;
    case 6: return TOO_SMALL;
    case 11: return answer[1] == 1 ? ILL_FORMED : answer[1] == 2 ? NO_BYTE : OUTCOMES;
    default: return OUTCOMES;
    }
}

/* A call, and what it came to on each stack. */
struct call {
    uint32_t status[PAINTS];
    uint64_t answer[PAINTS][2];
};

static void came_to(const struct call *call, enum outcome is)
{
    enum outcome was = outcome_of(call->status[0], call->answer[0]);
    if (was > last_outcome[now.function] || (is != ANY && was != is))
        complain("status", call->status[0]);
    else
        calls[now.function][was]++;
    if (call->status[0] != call->status[1] || memcmp(call->answer[0], call->answer[1], sizeof call->answer[0]) != 0)
        complain("on the other stack status", call->status[1]);
}

void stack_case(enum function function, const uint8_t *src, size_t len, uint8_t *out, size_t lent, enum outcome is)
{
    struct call call;
    size_t bytes = 0;
    now.number++;
    if (only != 0 && now.number != only)
        return;
    now.function = function, now.len = len, now.lent = lent;
    group_calls++;
    for (int i = 0; i < PAINTS; i++) {
        const uintptr_t arguments[ARGUMENTS] = {(uintptr_t)src, len, (uintptr_t)out, lent, (uintptr_t)call.answer[i]};
        size_t taken = stack_taken_on(i, (called *)functions[function], arguments, &call.status[i]);
        bytes = taken > bytes ? taken : bytes;
    }
    came_to(&call, is);
    if (bytes > most[function]) {
        most[function] = bytes;
        deepest[function] = now;
    }
    if (bytes > bound)
        complain("bytes of stack", bytes);
}

static void tell_counts(void)
{
    for (int f = 0; f < FUNCTIONS; f++)
        for (enum outcome is = DONE; is <= last_outcome[f]; is++) {
            printf("%8zu times: %s, %s\n", calls[f][is], function_names[f], outcome_names[is]);
            complaints += only == 0 && calls[f][is] == 0;
        }
    for (int f = 0; f < FUNCTIONS; f++)
        if (most[f] > 0)
            printf("%8zu %s: first by case %zu, %s: length %zu, lent %zu\n", most[f], function_names[f],
                   deepest[f].number, deepest[f].group, deepest[f].len, deepest[f].lent);
}

static size_t number(const char *word)
{
    char *end;
    unsigned long long value = strtoull(word, &end, 10);
    if (*word < '0' || *word > '9' || *end != 0) {
        fputs("usage: stack [--to-failure] [BOUND [SEED [RANDOM [CASE]]]]\n", stderr);
        exit(2);
    }
    return (size_t)value;
}

int main(int count, char **words)
{
    size_t given[4] = {4096, 1, 20000, 0};
    to_failure = count > 1 && strcmp(words[1], "--to-failure") == 0;
    for (int i = 0; i < 4 && 1 + to_failure + i < count; i++)
        given[i] = number(words[1 + to_failure + i]);
    bound = given[0], only = given[3];
    now.group = "before all groups";
    stack_begin(STACK_BYTES);
    stack_texts_begin(given[2], given[1]);
    for (size_t i = 0; i < stack_groups_count; i++) {
        now.group = stack_groups[i].name;
        group_calls = 0;
        stack_groups[i].cases();
        printf("%8zu calls: %s\n", group_calls, now.group);
        complaints += only == 0 && group_calls == 0;
    }
    tell_counts();
    printf("stack: %zu cases, each on two stacks, and %zu complaints about more than %zu bytes or another status\n",
           now.number, complaints, bound);
    return complaints > 0;
}
