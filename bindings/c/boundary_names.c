/* Names: found without an index, through one and by halving, and asked for a branch. What is expected is worked out here
 * from the model's steps, in the words of docs/FORMAT.md, "Finding" and "Name index"; names are compared by two alphabets
 * and not by folding. */
#include <stdlib.h>

#include "boundary.h"

/* Symbols and data types: how one steps through their uploads, which slots tell the name, and the calls. */
static const struct kind {
    stepping step;
    struct run name;
    struct told (*index)(struct bytes bytes, struct room slots);
    struct told (*find_walked)(struct bytes bytes, struct bytes name);
    struct told (*find_indexed)(struct bytes bytes, struct bytes slots, struct bytes name);
    struct told (*build)(struct bytes bytes, struct room slots);
    struct told (*find)(struct bytes bytes, struct bytes slots, struct bytes name);
    struct told (*branch)(struct bytes bytes, struct bytes slots, struct bytes text, struct room out);
    struct told (*branch_ordered)(struct bytes bytes, struct bytes slots, struct bytes text, struct room out);
} symbols = {model_symbol_step,
             {VINDASKOT_SYMBOL_NAME_AT, VINDASKOT_SYMBOL_NAME_LEN},
             call_index_build,
             call_find,
             call_find_indexed,
             call_name_index_build,
             call_find_ordered,
             call_branch,
             call_branch_ordered},
  types = {model_type_step,
           {VINDASKOT_TYPE_NAME_AT, VINDASKOT_TYPE_NAME_LEN},
           call_type_index_build,
           call_type_find,
           call_type_find_indexed,
           call_type_name_index_build,
           call_type_find_ordered,
           call_type_branch,
           call_type_branch_ordered};

/* ---- The model ---- */

static uint8_t small(uint8_t byte)
{
    static const char capitals[] = "ABCDEFGHIJKLMNOPQRSTUVWXYZ", letters[] = "abcdefghijklmnopqrstuvwxyz";
    for (size_t i = 0; i < sizeof capitals - 1; i++)
        if (byte == capitals[i])
            return (uint8_t)letters[i];
    return byte;
}

/* The name of the entry that a step from a place gives, and whether it gives one. */
static bool name_from(const struct kind *kind, struct bytes b, size_t at, struct bytes *name)
{
    struct told told = kind->step(b, at);
    if (told.status != VINDASKOT_DONE)
        return false;
    *name = part(b, at + (size_t)told.slots[kind->name.place], (size_t)told.slots[kind->name.len]);
    return true;
}

/* Whether the one name begins with the other's letters. */
static bool begins_with(struct bytes name, struct bytes text)
{
    size_t i = 0;
    while (i < text.len && i < name.len && small(name.at[i]) == small(text.at[i]))
        i++;
    return i == text.len;
}

bool has_letters(struct bytes name, struct bytes other)
{
    return name.len == other.len && begins_with(name, other);
}

/* The starts of accepted entries with their names, in the order of the upload or of the names. */
struct start {
    struct bytes name;
    uint32_t at;
};

static int compare(const void *a, const void *b)
{
    const struct start *x = a, *y = b;
    for (size_t i = 0; i < x->name.len && i < y->name.len; i++)
        if (small(x->name.at[i]) != small(y->name.at[i]))
            return small(x->name.at[i]) < small(y->name.at[i]) ? -1 : 1;
    if (x->name.len != y->name.len)
        return x->name.len < y->name.len ? -1 : 1;
    return x->at < y->at ? -1 : 1;
}

static struct start ordered[BUFFER];

/* Its answer with room enough, and the starts in order. */
static struct told model_name_index(const struct kind *kind, struct bytes b)
{
    uint64_t count = 0;
    for (size_t at = 0; at < b.len;) {
        struct told told = kind->step(b, at);
        if (told.cursor == at)
            return refused(10, 1, 0);
        if (told.status == VINDASKOT_DONE) {
            ordered[count].at = (uint32_t)at;
            name_from(kind, b, at, &ordered[count++].name);
        }
        at = told.cursor;
    }
    qsort(ordered, count, sizeof *ordered, compare);
    return done(count, 0);
}

size_t name_starts(bool of_types, struct bytes b, uint32_t *starts)
{
    const struct told told = model_name_index(of_types ? &types : &symbols, b);
    const size_t count = told.status == VINDASKOT_DONE ? (size_t)told.answer[0] : 0;
    for (size_t i = 0; i < count; i++)
        starts[i] = ordered[i].at;
    return count;
}

/* Those of some slots at which an entry of the branch starts, in their order. */
static size_t model_branch(const struct kind *kind, struct bytes b, const uint32_t *slots, size_t count,
                           struct bytes text, uint32_t *found)
{
    size_t matches = 0;
    struct bytes name;
    for (size_t i = 0; i < count; i++)
        if (name_from(kind, b, slots[i], &name) && begins_with(name, text))
            found[matches++] = slots[i];
    return matches;
}

/* ---- Building ---- */

static struct bytes slots_of(const uint32_t *slots, size_t count)
{
    return lay(SLOTS, (struct bytes){(const uint8_t *)slots, 4 * count});
}

/* Lent none, one too few, just enough and more. The slots are left in `built`. */
static struct told hold_built(const struct kind *kind, struct bytes b, uint32_t *built)
{
    struct told want = model_name_index(kind, b);
    const size_t needed = want.status == VINDASKOT_DONE ? (size_t)want.answer[0] : 2;
    const size_t lent[] = {0, needed - (needed > 0), needed + 3, needed};
    struct room out = {NULL, 0};
    for (size_t i = 0; i < sizeof lent / sizeof *lent; i++) {
        bool short_of = want.status == VINDASKOT_DONE && lent[i] < needed;
        out = lend(4 * lent[i]);
        SAME(short_of ? NAMES_SHORT_OF : NAMES_BUILT, kind->build(b, out),
             short_of ? refused(6, needed, lent[i]) : want);
    }
    if (want.status != VINDASKOT_DONE)
        return want;
    memcpy(built, out.at, 4 * needed);
    size_t right = 0;
    while (right < needed && built[right] == ordered[right].at)
        right++;
    CHECK(NAMES_BUILT, right == needed, "slot %zu of a name index of %zu has another start", right, needed);
    return want;
}

/* ---- Finding ---- */

/* Through the name index: the first in the upload that has the name. */
static void hold_found(const struct kind *kind, struct bytes b, const uint32_t *built, size_t count, struct bytes from)
{
    struct bytes name = lay(NAME, from), own;
    size_t first = VINDASKOT_LIMIT, twins = 0;
    for (size_t i = 0; i < count; i++)
        if (name_from(kind, b, built[i], &own) && has_letters(own, name)) {
            twins++;
            first = built[i] < first ? built[i] : first;
        }
    SAME(twins == 0 ? NAMES_NONE : twins == 1 ? NAMES_FOUND : NAMES_TWINS, kind->find(b, slots_of(built, count), name),
         twins == 0 ? refused(13, 0, 0) : done(first, 0));
}

/* Through any slots: none, or one of them that has the name. */
static void hold_found_anywhere(const struct kind *kind, struct bytes b, const uint32_t *slots, size_t count,
                                struct bytes from)
{
    struct bytes name = lay(NAME, from), own;
    struct told told = kind->find(b, slots_of(slots, count), name);
    bool there = false;
    for (size_t i = 0; i < count; i++)
        there |= slots[i] == told.answer[0];
    CHECK(NAMES_ELSEWHERE,
          told.status == 13 || (told.status == VINDASKOT_DONE && there &&
                                name_from(kind, b, (size_t)told.answer[0], &own) && has_letters(own, name)),
          "through other slots a name is found at %llu, which has it not", (unsigned long long)told.answer[0]);
}

/* Without an index: the first of the walk's steps that has the name; a zero claim that is met before refuses. */
static void hold_walked(const struct kind *kind, struct bytes b, struct bytes from)
{
    struct bytes name = lay(NAME, from), own;
    struct told want = refused(13, 0, 0);
    enum group group = STARTS_WALKED;
    for (size_t at = 0; at < b.len;) {
        if (name_from(kind, b, at, &own) && has_letters(own, name)) {
            want = done(at, 0);
            break;
        }
        size_t next = kind->step(b, at).cursor;
        if (next == at) {
            want = refused(10, 1, 0);
            group = STARTS_STOPPED;
            break;
        }
        at = next;
    }
    SAME(group, kind->find_walked(b, name), want);
}

/* Through any slots: the first of them, in their order, that has the name. */
static void hold_indexed(const struct kind *kind, struct bytes b, const uint32_t *slots, size_t count, struct bytes from)
{
    struct bytes name = lay(NAME, from), own;
    size_t i = 0;
    while (i < count && !(name_from(kind, b, slots[i], &own) && has_letters(own, name)))
        i++;
    SAME(STARTS_INDEXED, kind->find_indexed(b, slots_of(slots, count), name),
         i == count ? refused(13, 0, 0) : done(slots[i], 0));
}

/* The index of the upload: the same starts as the name index has, ascending. Lent one slot too few and just enough. */
static void hold_starts(const struct kind *kind, struct bytes b, const struct told *want)
{
    const size_t needed = want->status == VINDASKOT_DONE ? (size_t)want->answer[0] : 0;
    if (needed > 0)
        SAME(STARTS_BUILT, kind->index(b, lend(4 * (needed - 1))), refused(6, needed, needed - 1));
    struct room out = lend(4 * needed);
    SAME(STARTS_BUILT, kind->index(b, out), *want);
    for (size_t at = 0, i = 0; want->status == VINDASKOT_DONE && at < b.len;) {
        struct told told = kind->step(b, at);
        if (told.status == VINDASKOT_DONE) {
            uint32_t start;
            memcpy(&start, out.at + 4 * i++, 4);
            CHECK(STARTS_BUILT, start == at, "slot %zu of an index has another start", i - 1);
        }
        at = told.cursor;
    }
}

/* ---- Branches ---- */

typedef struct told (*branching)(struct bytes bytes, struct bytes slots, struct bytes text, struct room out);

static uint32_t matching[BUFFER];

/* One of the two calls, lent none, one too few, just enough and more. */
static void hold_branch(branching call, enum group group, struct bytes b, struct bytes slots, struct bytes text,
                        size_t needed)
{
    const size_t lent[] = {0, needed - (needed > 0), needed + 3, needed};
    for (size_t i = 0; i < sizeof lent / sizeof *lent; i++) {
        struct room out = lend(4 * lent[i]);
        bool short_of = lent[i] < needed;
        SAME(short_of ? BRANCHES_SHORT_OF : group, call(b, slots, text, out),
             short_of ? refused(6, needed, lent[i]) : done(needed, 0));
        CHECK(group, short_of || needed == 0 || memcmp(out.at, matching, 4 * needed) == 0,
              "a branch of %zu entries has another start", needed);
    }
}

/* Through the name index both calls tell the same: every entry of the branch, in order. */
static void hold_branches(const struct kind *kind, struct bytes b, const uint32_t *built, size_t count,
                          struct bytes from)
{
    struct bytes text = lay(NAME, from), slots = slots_of(built, count);
    size_t needed = model_branch(kind, b, built, count, text, matching);
    hold_branch(kind->branch, BRANCHES, b, slots, text, needed);
    hold_branch(kind->branch_ordered, BRANCHES_HALVED, b, slots, text, needed);
}

/* Through any slots: the filter in their order; and by halving a run of it. */
static void hold_branches_anywhere(const struct kind *kind, struct bytes b, const uint32_t *other, size_t count,
                                   struct bytes from)
{
    struct bytes text = lay(NAME, from), slots = slots_of(other, count);
    size_t needed = model_branch(kind, b, other, count, text, matching), at = 0;
    hold_branch(kind->branch, BRANCHES_ELSEWHERE, b, slots, text, needed);
    struct room out = lend(4 * needed);
    struct told told = kind->branch_ordered(b, slots, text, out);
    size_t wrote = told.status == VINDASKOT_DONE ? (size_t)told.answer[0] : needed + 1;
    while (at + wrote <= needed && wrote > 0 && memcmp(out.at, matching + at, 4 * wrote) != 0)
        at++;
    CHECK(BRANCHES_ELSEWHERE, at + wrote <= needed, "through other slots a branch by halving is no run of the branch");
}

/* ---- An upload ---- */

/* Names that are asked: one that is there in its own case and in another, what it begins with, and one that looks alike. */
static void try_name(const struct kind *kind, struct bytes b, const uint32_t *built, size_t count, struct bytes from)
{
    static uint8_t other[BUFFER];
    struct room changed = {other, from.len};
    memcpy(other, from.at, from.len);
    hold_found(kind, b, built, count, from);
    hold_walked(kind, b, from);
    hold_branches(kind, b, built, count, from);
    recase(changed);
    struct bytes asked = {other, from.len};
    hold_found(kind, b, built, count, asked);
    hold_walked(kind, b, asked);
    hold_branches(kind, b, built, count, part(asked, 0, below(from.len + 1)));
    miss_case(changed);
    hold_found(kind, b, built, count, asked);
    hold_walked(kind, b, asked);
    hold_branches(kind, b, built, count, asked);
}

/* Slots that no index has: those of the index the other way round, one of them twice, and places at random. */
static void try_other_slots(const struct kind *kind, struct bytes b, const uint32_t *built, size_t count,
                            struct bytes name)
{
    static uint32_t other[BUFFER + 4];
    size_t used = 0;
    for (size_t i = count; i > 0; i--)
        other[used++] = built[i - 1];
    if (count > 0)
        other[used++] = built[below(count)];
    other[used++] = (uint32_t)below(b.len + 9);
    other[used++] = (uint32_t)any();
    for (size_t i = used; one_in(2) && i > 1; i--) {
        size_t with = below(i);
        uint32_t slot = other[i - 1];
        other[i - 1] = other[with];
        other[with] = slot;
    }
    hold_found_anywhere(kind, b, other, used, name);
    hold_indexed(kind, b, other, used, name);
    hold_branches_anywhere(kind, b, other, used, name);
    hold_branches_anywhere(kind, b, other, used, part(name, 0, below(name.len + 1)));
}

static void try_index(const struct kind *kind, struct bytes b)
{
    static uint32_t built[BUFFER];
    static const uint8_t no_name[] = "no such name";
    struct bytes none = {no_name, sizeof no_name - 1}, name = none;
    struct told want = hold_built(kind, b, built);
    size_t count = want.status == VINDASKOT_DONE ? (size_t)want.answer[0] : 0;
    hold_starts(kind, b, &want);
    hold_found(kind, b, built, count, none);
    hold_walked(kind, b, none);
    hold_branches(kind, b, built, count, none);
    hold_branches(kind, b, built, count, part(none, 0, 0));
    for (size_t i = 0; i < 2 && count > 0; i++) {
        name_from(kind, b, built[below(count)], &name);
        try_name(kind, b, built, count, name);
    }
    try_other_slots(kind, b, built, count, name);
}

/* There is no call that takes no mode. */
void try_symbol_names(struct bytes b)
{
    if (mode != PRESENT)
        try_index(&symbols, b);
}

void try_type_names(struct bytes b)
{
    if (mode != PRESENT)
        try_index(&types, b);
}

/* One byte above the limit refuses with 5 before all else. At the limit one entry is the whole upload. */
static void try_kind_limit(const struct kind *kind, size_t len)
{
    struct room made = {area(UPLOAD, len), len};
    memset(made.at, 0, len);
    for (size_t i = 0; i < 4; i++)
        made.at[i] = (uint8_t)(len >> 8 * i);
    struct bytes b = {made.at, len}, none = part(b, 0, 0);
    struct told above = refused(5, VINDASKOT_LIMIT, len);
    bool is_above = len > VINDASKOT_LIMIT;
    const uint32_t start = 0;
    SAME(LIMITS, kind->build(b, lend(4)), is_above ? above : done(1, 0));
    SAME(LIMITS, kind->find(b, slots_of(&start, 1), none), is_above ? above : done(0, 0));
    SAME(LIMITS, kind->index(b, lend(4)), is_above ? above : done(1, 0));
    SAME(LIMITS, kind->find_walked(b, none), is_above ? above : done(0, 0));
    SAME(LIMITS, kind->find_indexed(b, slots_of(&start, 1), none), is_above ? above : done(0, 0));
    SAME(LIMITS, kind->branch(b, slots_of(&start, 1), none, lend(4)), is_above ? above : done(1, 0));
    SAME(LIMITS, kind->branch_ordered(b, slots_of(&start, 1), none, lend(4)), is_above ? above : done(1, 0));
    SAME(LIMITS, kind->branch(b, slots_of(&start, 1), none, lend(0)), is_above ? above : refused(6, 1, 0));
}

void try_name_limit(size_t len)
{
    try_kind_limit(&symbols, len);
    try_kind_limit(&types, len);
}
