/* How much stack the seven calls over data types take, over trees of every depth, measured by running them.
 *
 *   stack_types [--to-failure] [BOUND [SEED [RANDOM [CASE]]]]
 *
 * BOUND: the bytes that none of them may go above (what the header promises), counted from the stack pointer at the
 * call instruction, what they call with them. SEED and RANDOM: of the random trees (1, 4000). CASE: that case alone, by
 * the number that is told beside a figure. --to-failure: ends at the first complaint.
 *
 * Prints the most that each took, the case that took it first and the most at each depth, then how many calls each
 * group of trees had and how often each status was met. Status 1: too much was taken, a call came to another status
 * than the model says, or a group, a depth or a status had no call. Status 2: nothing was measured. */
#include <stdio.h>
#include <stdlib.h>
#include <unistd.h>

#include "boundary.h"
#include "stack_call.h"

enum { STACK_BYTES = 64 << 10, SEVEN = 7, DEEPEST = 16, SLOTS_MOST = VINDASKOT_MEMBER_SLOTS * MEMBERS_MOST };

/* The mode that the model is asked in; the boundary program has its own. */
enum mode mode;

enum { READ, STEP, ARRAY, ATTRIBUTE, ATTRIBUTE_NAMED, MEMBER, MEMBERS };
static const char *const names[SEVEN] = {
    "vindaskot_type_read_in",
    "vindaskot_type_step_in",
    "vindaskot_type_array_in",
    "vindaskot_type_attribute_in",
    "vindaskot_type_attribute_named_in",
    "vindaskot_type_member_in",
    "vindaskot_type_members_in",
};
static called *const functions[SEVEN] = {
    (called *)vindaskot_type_read_in,
    (called *)vindaskot_type_step_in,
    (called *)vindaskot_type_array_in,
    (called *)vindaskot_type_attribute_in,
    (called *)vindaskot_type_attribute_named_in,
    (called *)vindaskot_type_member_in,
    (called *)vindaskot_type_members_in,
};

static struct {
    int function;
    size_t number, len, asked;
    const char *group;
} now, deepest_call[SEVEN];

static size_t bound, only, most[SEVEN], by_depth[SEVEN][DEEPEST + 3], group_calls, complaints;
static size_t statuses[SEVEN][17];
static bool to_failure;
static uint64_t *lent;

static void print_now(FILE *to)
{
    fprintf(to, "%s, case %zu, %s: length %zu, asked %zu, %s mode\n", names[now.function], now.number, now.group,
            now.len, now.asked, mode == CHECKED ? "checked" : "present");
}

void stack_tell(const char *words)
{
    fflush(stdout);
    fprintf(stderr, "stack: %s: ", words);
    print_now(stderr);
    fflush(stderr);
    _exit(1);
}

static void complain(const char *words, size_t number)
{
    complaints++;
    if (complaints <= 20) {
        printf("FAILED: %s %zu: ", words, number);
        print_now(stdout);
    }
    if (to_failure) {
        puts("stack_types: ended at the first complaint");
        exit(1);
    }
}

/* ---- A call ---- */

/* What the model says that a call comes to. */
static struct told wanted(int function, struct bytes b, size_t asked)
{
    switch (function) {
    case READ: return model_type_read(b);
    case STEP: return model_type_step(b, 0);
    case ARRAY: return model_type_array(b, asked);
    case ATTRIBUTE: return model_type_attribute(b, asked);
    case ATTRIBUTE_NAMED: return model_type_attribute_named(b, text(asked == 0 ? "unit" : "none"));
    case MEMBER: return model_type_member(b, asked);
    default: break;
    }
    struct told read = model_type_read(b);
    uint64_t slots = VINDASKOT_MEMBER_SLOTS * read.slots[VINDASKOT_TYPE_MEMBER_COUNT];
    if (read.status != VINDASKOT_DONE)
        return read;
    return slots > asked ? refused(6, slots, asked) : done(slots, 0);
}

/* The call on one of the stacks, its arguments as the header has them. */
static size_t taken(int which, int function, struct bytes b, size_t asked, uint32_t *status, uint64_t answer[2])
{
    static uint64_t slots[VINDASKOT_TYPE_SLOTS], path[VINDASKOT_PATH_SLOTS];
    static uint8_t guid[16];
    size_t cursor = 0;
    const uintptr_t at = (uintptr_t)b.at, checked = mode == CHECKED, to = (uintptr_t)slots, told = (uintptr_t)answer;
    const struct bytes name = text(asked == 0 ? "unit" : "none");
    const uintptr_t arguments[SEVEN][ARGUMENTS] = {
        [READ] = {at, b.len, checked, to, (uintptr_t)guid, told},
        [STEP] = {at, b.len, checked, (uintptr_t)&cursor, to, (uintptr_t)guid, told},
        [ARRAY] = {at, b.len, checked, asked, to, told},
        [ATTRIBUTE] = {at, b.len, checked, asked, to, told},
        [ATTRIBUTE_NAMED] = {at, b.len, checked, (uintptr_t)name.at, name.len, to, told},
        [MEMBER] = {at, b.len, checked, asked, to, (uintptr_t)guid, (uintptr_t)path, told},
        [MEMBERS] = {at, b.len, checked, (uintptr_t)lent, asked, told},
    };
    return stack_taken_on(which, functions[function], arguments[function], status);
}

static void measure(int function, struct bytes b, size_t asked, size_t depth)
{
    now.number++;
    if (only != 0 && now.number != only)
        return;
    now.function = function, now.len = b.len, now.asked = asked;
    group_calls++;
    const struct told want = wanted(function, b, asked);
    size_t bytes = 0;
    for (int i = 0; i < PAINTS; i++) {
        uint64_t answer[2] = {1, 1};
        uint32_t status = 0;
        size_t one = taken(i, function, b, asked, &status, answer);
        if (status != want.status || answer[0] != want.answer[0] || answer[1] != want.answer[1])
            complain("status", status);
        bytes = one > bytes ? one : bytes;
    }
    if (want.status <= 16)
        statuses[function][want.status]++;
    if (depth > 0 && bytes > by_depth[function][depth])
        by_depth[function][depth] = bytes;
    if (bytes > most[function]) {
        most[function] = bytes;
        deepest_call[function] = now;
    }
    if (bytes > bound)
        complain("bytes of stack", bytes);
}

/* All seven calls in both modes, each asked for the first, for the last and for none. Depth: of a tree of which it is
 * known. */
static void measure_all(struct bytes b, size_t depth)
{
    for (mode = PRESENT_IN; mode <= CHECKED; mode++) {
        const struct told root = model_type_read(b);
        const uint64_t *s = root.slots;
        const size_t slots = VINDASKOT_MEMBER_SLOTS * (size_t)s[VINDASKOT_TYPE_MEMBER_COUNT];
        const size_t counts[SEVEN] = {[ARRAY] = (size_t)s[VINDASKOT_TYPE_ARRAY_COUNT],
                                      [ATTRIBUTE] = (size_t)s[VINDASKOT_TYPE_ATTRIBUTE_COUNT],
                                      [MEMBER] = (size_t)s[VINDASKOT_TYPE_MEMBER_COUNT]};
        measure(READ, b, 0, depth);
        measure(STEP, b, 0, depth);
        measure(ATTRIBUTE_NAMED, b, 0, depth);
        measure(ATTRIBUTE_NAMED, b, 1, depth);
        for (int f = ARRAY; f <= MEMBER; f++) {
            if (f == ATTRIBUTE_NAMED)
                continue;
            if (counts[f] > 0)
                measure(f, b, counts[f] - 1, depth);
            measure(f, b, 0, depth);
            measure(f, b, counts[f], depth);
        }
        measure(MEMBERS, b, slots + 60, depth);
        measure(MEMBERS, b, slots, depth);
        if (slots > 0)
            measure(MEMBERS, b, slots - 1, depth);
    }
}

/* ---- Trees ---- */

/* What the deepest entry of a chain is. */
enum kind {
    BARE,
    RICH, /* with every section */
    STRINGS,
    NAME_END,
    COMMENT_END,
    BOUNDS,
    TOO_FEW,
    LEAVES,
    BELOW,
    SHORT_ATTRIBUTE,
    CUT_ATTRIBUTE,
    ATTRIBUTE_END,
    BROTHERS,     /* forty sub-items */
    LAST_BROTHER, /* forty sub-items, the last of which is refused */
    KINDS
};

static struct buffer tree;

static void put_leaf(struct buffer *to)
{
    put_field(to, &(struct parts){.name = text("fValue"), .type_name = text("REAL"), .numbers = {0, 0, 0, 4, 8, 4}});
}

/* An entry's head, with so many array records. */
static size_t put_head(struct buffer *to, uint32_t flags, size_t arrays, size_t items)
{
    const size_t start = to->len;
    const struct parts p = {.name = text("stLens"),
                            .type_name = text("ST_Lens"),
                            .comment = text("c"),
                            .numbers = {1, 2, 3, 8, 4, 65},
                            .flags = flags};
    put_field_head(to, &p, arrays, items);
    for (size_t i = 0; i < 8 * arrays; i++)
        put_number(to, i, 1);
    return start;
}

/* The sections of an entry that has all of them. */
static void put_sections(struct buffer *to)
{
    put_number(to, 0x1122334455667788, 8);
    put_number(to, 0x1122334455667788, 8);
    put_number(to, 0, 8);
    put_number(to, 1, 2);
    put_number(to, 4, 4);
    put_number(to, 2, 2);
    put_attribute(to, text("unit"), text("mm"));
    put_attribute(to, text("unit"), text("\xB5m"));
}

enum {
    ALL_SECTIONS = VINDASKOT_TYPE_FLAG_TYPE_GUID | VINDASKOT_TYPE_FLAG_COPY_MASK | VINDASKOT_TYPE_FLAG_METHOD_INFOS |
                   VINDASKOT_TYPE_FLAG_ATTRIBUTES
};

static void put_deepest(struct buffer *to, enum kind kind)
{
    const bool attributes = kind >= SHORT_ATTRIBUTE && kind <= ATTRIBUTE_END;
    const size_t items = kind == TOO_FEW || kind == LEAVES || kind == BELOW ? 1 : kind >= BROTHERS ? 40 : 0;
    const uint32_t flags = kind == RICH ? ALL_SECTIONS : attributes ? VINDASKOT_TYPE_FLAG_ATTRIBUTES : 0;
    const size_t start = put_head(to, flags, kind == RICH ? 3 : 0, items);
    for (size_t i = 0; i < items && kind != TOO_FEW; i++)
        put_leaf(to);
    if (kind == RICH)
        put_sections(to);
    if (attributes) {
        put_number(to, 2, 2);
        put_attribute(to, text("unit"), text("mm"));
        put_attribute(to, text("n"), text("v"));
    }
    if (kind == SHORT_ATTRIBUTE || kind == CUT_ATTRIBUTE)
        to->len -= kind == CUT_ATTRIBUTE ? 1 : 3;
    if (kind == ATTRIBUTE_END)
        to->at[to->len - 1] = 1;
    put_claim(to, start, to->len - start);
    const size_t last = to->len - 42 - 3 - 10;
    switch (kind) {
    case STRINGS: to->at[start + 33] = 0xFF; break;
    case NAME_END: to->at[start + 42 + 6] = 1; break;
    case COMMENT_END: to->at[start + 42 + 6 + 1 + 7 + 1 + 1] = 1; break;
    case BOUNDS: to->at[start + 39] = 1; break;
    case LEAVES: put_claim(to, last, 56); break;
    case BELOW:
    case LAST_BROTHER: put_claim(to, last, 41); break;
    default: break;
    }
}

/* A chain of so many entries, with brothers of each before and behind it where they are asked for. */
static void put_chain(struct buffer *to, size_t depth, enum kind kind, bool brothers)
{
    if (depth == 1) {
        put_deepest(to, kind);
        return;
    }
    const size_t start = put_head(to, ALL_SECTIONS, brothers ? 2 : 0, brothers ? 3 : 1);
    if (brothers)
        put_leaf(to);
    put_chain(to, depth - 1, kind, brothers);
    if (brothers)
        put_leaf(to);
    put_sections(to);
    put_claim(to, start, to->len - start);
}

static void chains(void)
{
    for (size_t depth = 1; depth <= DEEPEST + 1; depth++)
        for (int kind = BARE; kind < KINDS; kind++)
            for (int brothers = 0; brothers < 2; brothers++) {
                tree.len = 0;
                put_chain(&tree, depth, (enum kind)kind, brothers);
                measure_all(whole(&tree), depth + (kind >= BROTHERS));
            }
}

/* As many sub-items, array records, methods and attributes as there can be: what is taken for each of a list would be
 * seen. */
static uint8_t *long_one;

static void put_at(uint8_t *at, uint64_t number, size_t width)
{
    for (size_t i = 0; i < width; i++)
        at[i] = (uint8_t)(number >> 8 * i);
}

static struct bytes long_tree(uint32_t flags, size_t arrays, size_t items, size_t each, size_t counted, size_t above)
{
    const size_t own = 45 + 8 * arrays + 45 * items + (flags != 0 ? 2 + each * counted : 0), len = 45 * above + own;
    memset(long_one, 0, len);
    for (size_t i = 0; i <= above; i++) {
        put_at(long_one + 45 * i, len - 45 * i, 4);
        if (i < above)
            long_one[45 * i + 40] = 1;
    }
    uint8_t *e = long_one + 45 * above, *at = e + 45 + 8 * arrays;
    put_at(e + 28, flags, 4);
    put_at(e + 38, arrays, 2);
    put_at(e + 40, items, 2);
    for (size_t i = 0; i < items; i++, at += 45)
        at[0] = 45;
    if (flags != 0)
        put_at(at, counted, 2);
    for (size_t i = 0; flags == VINDASKOT_TYPE_FLAG_METHOD_INFOS && i < counted; i++)
        at[2 + each * i] = (uint8_t)each;
    return (struct bytes){long_one, len};
}

static void long_lists(void)
{
    for (size_t above = 0; above < DEEPEST; above += above == 0 ? DEEPEST - 2 : 1) {
        measure_all(long_tree(0, 65535, 0, 0, 0, above), 0);
        measure_all(long_tree(0, 0, above < DEEPEST - 1 ? 65535 : 0, 0, 0, above), 0);
        measure_all(long_tree(VINDASKOT_TYPE_FLAG_ATTRIBUTES, 0, 0, 4, 65535, above), 0);
        measure_all(long_tree(VINDASKOT_TYPE_FLAG_METHOD_INFOS, 0, 0, 4, 65535, above), 0);
    }
}

/* The largest upload, one byte more, and lengths with no memory behind them. */
static void limits(void)
{
    struct bytes b = long_tree(0, 0, 65535, 0, 0, 0);
    memset(long_one + b.len, 0, VINDASKOT_LIMIT + 1 - b.len);
    measure_all((struct bytes){b.at, VINDASKOT_LIMIT}, 0);
    measure_all((struct bytes){b.at, VINDASKOT_LIMIT + 1}, 0);
    measure_all((struct bytes){stack_nowhere(), SIZE_MAX}, 0);
    measure_all((struct bytes){NULL, 0}, 0);
    for (size_t len = 0; len <= 46; len++)
        measure_all((struct bytes){b.at, len}, 0);
}

static size_t random_trees;

static void at_random(void)
{
    for (size_t i = 0; i < random_trees; i++) {
        tree.len = 0;
        make_types(&tree);
        measure_all(whole(&tree), 0);
    }
}

/* ---- Telling ---- */

static const struct {
    const char *name;
    void (*cases)(void);
} groups[] = {{"chains of every depth, sound and refused", chains},
              {"65,535 of a list", long_lists},
              {"lengths", limits},
              {"random trees", at_random}};

static void tell_statuses(void)
{
    static const uint8_t of_all[] = {0, 1, 2, 3, 4, 5, 15, 16};
    static const uint8_t last[SEVEN] = {
        [ARRAY] = 14, [ATTRIBUTE] = 14, [ATTRIBUTE_NAMED] = 13, [MEMBER] = 14, [MEMBERS] = 6};
    for (int f = 0; f < SEVEN; f++) {
        printf("%8s times: %s:", "", names[f]);
        for (size_t i = 0; i < sizeof of_all + (last[f] > 0); i++) {
            const size_t status = i < sizeof of_all ? of_all[i] : last[f];
            printf(" %zu of %zu", statuses[f][status], status);
            complaints += only == 0 && statuses[f][status] == 0;
        }
        puts("");
    }
}

static void tell_counts(void)
{
    tell_statuses();
    for (int f = 0; f < SEVEN; f++) {
        printf("%8s by depth: %s:", "", names[f]);
        for (size_t depth = 1; depth <= DEEPEST; depth++) {
            printf(" %zu", by_depth[f][depth]);
            complaints += only == 0 && by_depth[f][depth] == 0;
        }
        puts("");
    }
    for (int f = 0; f < SEVEN; f++)
        if (most[f] > 0)
            printf("%8zu %s: first by case %zu, %s: length %zu, asked %zu\n", most[f], names[f], deepest_call[f].number,
                   deepest_call[f].group, deepest_call[f].len, deepest_call[f].asked);
}

static size_t number(const char *word)
{
    char *end;
    unsigned long long value = strtoull(word, &end, 10);
    if (*word < '0' || *word > '9' || *end != 0) {
        fputs("usage: stack_types [--to-failure] [BOUND [SEED [RANDOM [CASE]]]]\n", stderr);
        exit(2);
    }
    return (size_t)value;
}

int main(int count, char **words)
{
    size_t given[4] = {VINDASKOT_TYPE_STACK, 1, 4000, 0};
    to_failure = count > 1 && strcmp(words[1], "--to-failure") == 0;
    for (int i = 0; i < 4 && 1 + to_failure + i < count; i++)
        given[i] = number(words[1 + to_failure + i]);
    bound = given[0], random_trees = given[2], only = given[3];
    seed(given[1]);
    lent = malloc(8 * (size_t)(SLOTS_MOST + 60));
    long_one = malloc(VINDASKOT_LIMIT + 64);
    if (lent == NULL || long_one == NULL) {
        perror("stack_types: memory");
        return 2;
    }
    now.group = "before all groups";
    stack_begin(STACK_BYTES);
    for (size_t i = 0; i < sizeof groups / sizeof *groups; i++) {
        now.group = groups[i].name;
        group_calls = 0;
        groups[i].cases();
        printf("%8zu calls: %s\n", group_calls, now.group);
        complaints += only == 0 && group_calls == 0;
    }
    tell_counts();
    printf("stack_types: %zu cases, each on two stacks, and %zu complaints about more than %zu bytes or another "
           "status\n",
           now.number, complaints, bound);
    return complaints > 0;
}
