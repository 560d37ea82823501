/* Paths of variables, bound to their addresses through symbols and data types, and held to the words of docs/FORMAT.md,
 * "Binding": what is expected is worked out here from the bytes of the entries. */
#include <stdio.h>

#include "boundary.h"

/* ---- The model ---- */

enum { ALIASES_MOST = 16, FAR = 1 << 30 };

static struct indexed symbols, types;

/* Where a path has led: an entry of one of the uploads, how many bits from the start of the group the value begins, its
 * size, and how many of the entry's dimensions have no number yet. */
struct spot {
    bool of_type;
    size_t at;
    uint64_t bits, size;
    size_t left;
};

/* A part of a path: where it stands, and the name or the number that it is. */
struct step {
    size_t at;
    bool is_number;
    struct bytes name;
    int64_t number;
};

/* What refused the path that is being followed, and how many data types were met on the way. */
static struct told why;
static unsigned met;

static bool refuse(uint32_t number, uint64_t expected, uint64_t got)
{
    why = refused(number, expected, got);
    return false;
}

static uint64_t of(const struct spot *s, size_t place, size_t width)
{
    return number_at(s->of_type ? types.bytes : symbols.bytes, s->at + place, width);
}

static size_t dimensions(const struct spot *s)
{
    return s->of_type ? (size_t)of(s, 38, 2) : 0;
}

static size_t items(const struct spot *s)
{
    return s->of_type ? (size_t)of(s, 40, 2) : 0;
}

static bool in_bits(const struct spot *s)
{
    return s->of_type && (of(s, 28, 4) & 0x20) != 0;
}

/* What a data type's or a member's flags say of why it has no offset, or 0. */
static uint64_t mark_of(const struct spot *s)
{
    const uint64_t flags = of(s, 28, 4);
    return (flags & 0x4) != 0 ? 0x4 : (flags & 0x40) != 0 ? 0x40 : flags & 0x20000;
}

/* What they say of why no data type takes its place: a pointer to an interface, or another one, or 0. */
static uint64_t pointer_of(const struct spot *s)
{
    const uint64_t flags = s->of_type ? of(s, 28, 4) : 0;
    return (flags & 0x400) != 0 ? 0x400 : flags & 0x800000;
}

/* Behind the three strings, where the array records stand, counted from the entry. */
static size_t arrays_at(const struct spot *s)
{
    return 45 + (size_t)(of(s, 32, 2) + of(s, 34, 2) + of(s, 36, 2));
}

static struct run type_name_of(const struct spot *s)
{
    return s->of_type ? (struct run){43 + (size_t)of(s, 32, 2), (size_t)of(s, 34, 2)}
                      : (struct run){31 + (size_t)of(s, 24, 2), (size_t)of(s, 26, 2)};
}

/* Whether an entry is accepted in the mode that is being tried: the slots may be those of the other one. */
static bool accepted(const struct indexed *in, size_t at)
{
    return (in == &types ? model_type_step : model_symbol_step)(in->bytes, at).status == VINDASKOT_DONE;
}

/* The first entry of an upload, among those at which its slots say that one starts, of a name. */
static bool find(const struct indexed *in, size_t name_at, size_t len_at, struct bytes name, size_t *at)
{
    bool there = false;
    for (size_t i = 0; i < in->slots.len / 4; i++) {
        const size_t start = (size_t)number_at(in->slots, 4 * i, 4);
        const size_t len = (size_t)number_at(in->bytes, start + len_at, 2);
        if (!has_letters(part(in->bytes, start + name_at, len), name) || (there && *at < start))
            continue;
        *at = start;
        there = true;
    }
    return there && accepted(in, *at);
}

/* "The same array records and the same size." */
static bool says_again(const struct spot *s, const struct spot *named)
{
    const size_t count = dimensions(s);
    return count > 0 && count == dimensions(named) && of(s, 16, 4) == of(named, 16, 4) &&
           equal(part(types.bytes, s->at + arrays_at(s), 8 * count),
                 part(types.bytes, named->at + arrays_at(named), 8 * count));
}

/* At an entry that has dimensions left or sub-items: this one, or the data type that takes its place. */
static bool settle(struct spot *s, size_t part_at)
{
    for (unsigned names = 0; s->left == 0 && items(s) == 0; names++) {
        const struct run name = type_name_of(s);
        const struct bytes asked = part(s->of_type ? types.bytes : symbols.bytes, s->at + name.place, name.len);
        struct spot named = {true, 0, s->bits, 0, 0};
        if (pointer_of(s) != 0)
            return refuse(22, part_at, pointer_of(s));
        if (names == ALIASES_MOST)
            return refuse(24, part_at, ALIASES_MOST);
        if (!find(&types, 42, 32, asked, &named.at))
            return refuse(13, part_at, 2);
        if (mark_of(&named) != 0)
            return refuse(22, part_at, mark_of(&named));
        named.size = of(&named, 16, 4);
        named.left = says_again(s, &named) ? 0 : dimensions(&named);
        *s = named;
        met++;
    }
    return true;
}

static bool move(struct spot *s, uint64_t number, bool bits)
{
    s->bits += bits ? number : 8 * number;
    return s->bits / 8 <= UINT32_MAX || refuse(23, UINT32_MAX, s->bits / 8);
}

static bool to_member(struct spot *s, const struct step *step)
{
    struct spot item = {true, s->at, s->bits, 0, 0};
    size_t more = items(s);
    if (s->left > 0)
        return refuse(21, step->at, dimensions(s));
    item.at += arrays_at(s) + 8 * dimensions(s);
    while (more > 0 && !has_letters(part(types.bytes, item.at + 42, (size_t)of(&item, 32, 2)), step->name)) {
        item.at += (size_t)of(&item, 0, 4);
        more--;
    }
    if (more == 0)
        return refuse(13, step->at, 1);
    if (mark_of(&item) != 0)
        return refuse(22, step->at, mark_of(&item));
    item.size = of(&item, 16, 4);
    item.left = dimensions(&item);
    *s = item;
    return move(s, of(s, 20, 4), in_bits(s));
}

static void bounds_of(const struct spot *s, int64_t *lower, uint64_t *elements)
{
    const size_t record = arrays_at(s) + 8 * (dimensions(s) - s->left);
    *lower = (int32_t)of(s, record, 4);
    *elements = of(s, record + 4, 4);
}

static bool to_element(struct spot *s, const struct step *step)
{
    int64_t lower;
    uint64_t elements;
    if (s->left == 0)
        return refuse(21, step->at, dimensions(s));
    bounds_of(s, &lower, &elements);
    if (step->number < lower || (uint64_t)(step->number - lower) >= elements)
        return refuse(14, elements, step->at);
    s->size /= elements;
    s->left--;
    return move(s, (uint64_t)(step->number - lower) * s->size, in_bits(s));
}

static uint8_t byte_at(struct bytes b, size_t at)
{
    return at < b.len ? b.at[at] : 0;
}

/* A path's end, a dot or a bracket. */
static bool ends(struct bytes path, size_t at)
{
    return at == path.len || path.at[at] == '.' || path.at[at] == '[';
}

/* Of the longest numbers it is enough that they are outside all bounds. */
static bool read_number(struct bytes path, size_t *at, struct step *step)
{
    const bool minus = byte_at(path, *at) == '-';
    size_t i = *at + minus;
    const size_t digits = i;
    for (step->number = 0; byte_at(path, i) >= '0' && byte_at(path, i) <= '9'; i++)
        step->number = step->number > FAR * (int64_t)FAR / 20 ? step->number : 10 * step->number + path.at[i] - '0';
    step->number = minus ? -step->number : step->number;
    *at = i;
    if (i == digits || (byte_at(path, i) != ',' && byte_at(path, i) != ']'))
        return refuse(20, i, 0);
    *at += path.at[i] == ']';
    return path.at[i] == ',' || ends(path, *at) || refuse(20, *at, 0);
}

/* The part that begins with the dot, the bracket or the comma at a place, which moves to the next one or to the end. */
static bool read_part(struct bytes path, size_t *at, struct step *step)
{
    step->is_number = path.at[(*at)++] != '.';
    step->at = *at;
    if (step->is_number)
        return read_number(path, at, step);
    while (!ends(path, *at))
        (*at)++;
    step->name = part(path, step->at, *at - step->at);
    return step->name.len > 0 || refuse(20, *at, 0);
}

/* From the symbol at a spot along the path behind its name. */
static bool follow(struct spot *s, struct bytes path, size_t at)
{
    const uint64_t flags = of(s, 20, 2), mark = (flags & 2) != 0 ? 2 : flags & 4;
    struct step step;
    if (at < path.len && mark != 0)
        return refuse(22, at + 1, mark);
    while (at < path.len)
        if (!read_part(path, &at, &step) || !settle(s, step.at) ||
            !(step.is_number ? to_element(s, &step) : to_member(s, &step)))
            return false;
    return s->left == 0 || s->left == dimensions(s) || refuse(21, path.len, dimensions(s));
}

/* The symbol with the longest name that a path begins with, and where the name ends in it. */
static bool find_symbol(struct bytes path, struct spot *s, size_t *end)
{
    *s = (struct spot){false, 0, 0, 0, 0};
    for (*end = path.len;; (*end)--) {
        if (ends(path, *end) && find(&symbols, 30, 24, part(path, 0, *end), &s->at)) {
            s->bits = 8 * of(s, 8, 4);
            s->size = of(s, 12, 4);
            return true;
        }
        if (*end == 0)
            return refuse(13, 0, 0);
    }
}

/* What is expected, and the group of a check on it: what the path leads to, or why it leads nowhere. */
static struct told model_bind(struct bytes path, enum group *group)
{
    struct spot here, symbol;
    size_t end;
    met = 0;
    if (!find_symbol(path, &here, &end)) {
        *group = UNBOUND_SYMBOL;
        return why;
    }
    symbol = here;
    if (!follow(&here, path, end)) {
        static const enum group by_number[] = {[14] = UNBOUND_OUTSIDE,    [20] = UNBOUND_PATH, [21] = UNBOUND_DIMENSIONS,
                                               [22] = UNBOUND_OFFSET, [23] = UNBOUND_FAR,  [24] = UNBOUND_ALIASES};
        *group = why.status != 13 ? by_number[why.status] : why.answer[1] == 1 ? UNBOUND_MEMBER : UNBOUND_TYPE;
        return why;
    }
    struct told told = done(0, 0);
    told.slots[VINDASKOT_ADDRESS_GROUP] = of(&symbol, 4, 4);
    told.slots[VINDASKOT_ADDRESS_OFFSET] = here.bits / 8;
    told.slots[VINDASKOT_ADDRESS_BIT] = here.bits % 8;
    told.slots[VINDASKOT_ADDRESS_SIZE] = here.size;
    told.slots[VINDASKOT_ADDRESS_SIZE_IN_BITS] = in_bits(&here);
    told.slots[VINDASKOT_ADDRESS_UPLOAD] = here.of_type;
    told.slots[VINDASKOT_ADDRESS_ENTRY_AT] = here.at;
    told.slots[VINDASKOT_ADDRESS_TYPE_NAME_AT] = type_name_of(&here).place;
    told.slots[VINDASKOT_ADDRESS_TYPE_NAME_LEN] = type_name_of(&here).len;
    *group = in_bits(&here) ? BOUND_BITS
             : !here.of_type ? BOUND_SYMBOL
             : here.left < dimensions(&here) ? BOUND_ELEMENT
             : met > 1 ? BOUND_ALIAS
                       : BOUND_MEMBER;
    return told;
}

/* ---- Making uploads ---- */

static struct buffer made_symbols, made_types, made_path;

enum { DIMENSIONS_MOST = 3, NAMED_TYPES = 9 };

/* Array records, and the size of the array. */
struct shape {
    size_t count;
    uint32_t size, records[DIMENSIONS_MOST][2];
};

/* The head of a data type or of a member, and its array records. Where it starts. */
static size_t put_head(struct bytes name, struct bytes type_name, uint32_t offset, uint32_t flags,
                       const struct shape *shape, size_t count)
{
    const size_t start = made_types.len;
    struct parts p = {.numbers = {0, 0, 0, shape->size, offset, 0}, .flags = flags, .name = name, .type_name = type_name};
    put_field_head(&made_types, &p, shape->count, count);
    for (size_t i = 0; i < shape->count; i++) {
        put_number(&made_types, shape->records[i][0], 4);
        put_number(&made_types, shape->records[i][1], 4);
    }
    return start;
}

static void close_entry(size_t start)
{
    put_claim(&made_types, start, made_types.len - start);
}

static void put_plain_entry(const char *name, const char *type_name, uint32_t offset, uint32_t flags, uint32_t size)
{
    const struct shape shape = {0, size, {{0}}};
    close_entry(put_head(text(name), text(type_name), offset, flags, &shape, 0));
}

static void put_variable(const char *name, const char *type_name, uint32_t offset, uint32_t size, uint16_t flags)
{
    struct parts p = {.numbers = {0x4040, offset, size, 0}, .flags = flags, .name = text(name), .type_name = text(type_name)};
    put_symbol(&made_symbols, &p);
}

/* Both uploads and the starts of their name indexes, in the mode that is being tried or in the present one, laid out as is
 * being tried. */
static void lay_uploads(bool present)
{
    static uint32_t starts[2][BUFFER];
    const enum mode tried = mode;
    mode = present ? PRESENT_IN : tried;
    const struct bytes from[2] = {lay(UPLOAD, whole(&made_symbols)), lay(BLOCK, whole(&made_types))};
    const size_t counts[2] = {name_starts(false, from[0], starts[0]), name_starts(true, from[1], starts[1])};
    mode = tried;
    symbols = (struct indexed){from[0], lay(SLOTS, (struct bytes){(const uint8_t *)starts[0], 4 * counts[0]})};
    types = (struct indexed){from[1], lay(CHAIN, (struct bytes){(const uint8_t *)starts[1], 4 * counts[1]})};
}

static void hold(struct bytes from)
{
    struct bytes path = lay(NAME, from);
    enum group group;
    struct told want = model_bind(path, &group);
    SAME(group, call_bind(symbols, types, path), want);
    CHECK(INPUTS,
          equal(path, from) && equal(symbols.bytes, whole(&made_symbols)) && equal(types.bytes, whole(&made_types)),
          "an input of a binding was changed");
}

/* ---- A controller whose addresses are worked out by hand ---- */

static const struct shape rows = {2, 12, {{1, 2}, {0xFFFFFFFF, 3}}};

#define ROWS "ARRAY [1..2,-1..1] OF INT"

/* C1 is ST by sixteen names, itself among them, and D by one more. */
static void make_known(void)
{
    static const struct shape of_st = {0, 40, {{0}}};
    made_symbols.len = made_types.len = 0;
    size_t start = put_head(text("ST"), text(""), 0, 0, &of_st, 10);
    put_plain_entry("a", "INT", 4, 0, 2);
    put_plain_entry("b", "BIT", 13, 0x20, 3);
    close_entry(put_head(text("c"), text(ROWS), 8, 0, &rows, 0));
    put_plain_entry("r", "INT", 0, 0x4, 2);
    put_plain_entry("p", "INT", 0, 0x40, 2);
    put_plain_entry("s", "INT", 0, 0x20000, 2);
    put_plain_entry("far", "INT", 0xFFFFFFFF, 0, 2);
    put_plain_entry("A", "REAL", 16, 0, 4);
    put_plain_entry("to", "ST", 20, 0x00800000, 8);
    put_plain_entry("face", "none", 28, 0x00800400, 8);
    close_entry(start);
    close_entry(put_head(text(ROWS), text("INT"), 0, 0, &rows, 0));
    put_plain_entry("LOOP", "loop", 0, 0, 4);
    put_plain_entry("REF", "ST", 0, 0x4, 8);
    put_plain_entry("POINTER TO ST", "ST", 0, 0x00800001, 8);
    put_plain_entry("D", "C1", 0, 0, 40);
    for (int i = 1; i <= 15; i++) {
        char name[9], next[9];
        snprintf(name, sizeof name, "C%d", i);
        snprintf(next, sizeof next, "C%d", i + 1);
        put_plain_entry(name, i == 15 ? "ST" : next, 0, 0, 40);
    }
    put_variable("M", "ST", 1000, 40, 0);
    put_variable("m.X", "C15", 2000, 40, 0);
    put_variable("A", ROWS, 3000, 12, 0);
    put_variable("C", "C1", 4000, 40, 0);
    put_variable("D", "D", 5000, 40, 0);
    put_variable("LOOP", "LOOP", 6000, 4, 0);
    put_variable("R", "REF", 7000, 8, 0);
    put_variable("P", "POINTER TO ST", 7500, 8, 0);
    put_variable("Z", "none", 8000, 4, 0);
    put_variable("bit", "ST", 9000, 0, 0x2);
    put_variable("ref", "ST", 9500, 8, 0x4);
}

/* A refusal and its figures; or offset, bit, size and whether that is in bits. */
static const struct known {
    const char *path;
    uint32_t status;
    uint64_t first, second, offset, bit, size, in_bits;
} knowns[] = {
    {"M", 0, 0, 0, 1000, 0, 40, 0},
    {"m.A", 0, 0, 0, 1004, 0, 2, 0},
    {"M.b", 0, 0, 0, 1001, 5, 3, 1},
    {"M.c", 0, 0, 0, 1008, 0, 12, 0},
    {"M.c[1,-1]", 0, 0, 0, 1008, 0, 2, 0},
    {"M.c[2,-0]", 0, 0, 0, 1016, 0, 2, 0},
    {"M.C[002][1]", 0, 0, 0, 1018, 0, 2, 0},
    {"M.x", 0, 0, 0, 2000, 0, 40, 0},
    {"M.x.a", 0, 0, 0, 2004, 0, 2, 0},
    {"M.X.c[2,1]", 0, 0, 0, 2018, 0, 2, 0},
    {"A", 0, 0, 0, 3000, 0, 12, 0},
    {"A[1,1]", 0, 0, 0, 3004, 0, 2, 0},
    {"a[2][-1]", 0, 0, 0, 3006, 0, 2, 0},
    {"C.a", 0, 0, 0, 4004, 0, 2, 0},
    {"D", 0, 0, 0, 5000, 0, 40, 0},
    {"P", 0, 0, 0, 7500, 0, 8, 0},
    {"M.to", 0, 0, 0, 1020, 0, 8, 0},
    {"bit", 0, 0, 0, 9000, 0, 0, 0},
    {"D.a", 24, 2, 16, 0, 0, 0, 0},
    {"LOOP[1]", 24, 5, 16, 0, 0, 0, 0},
    {"", 13, 0, 0, 0, 0, 0, 0},
    {"N", 13, 0, 0, 0, 0, 0, 0},
    {"MM.a", 13, 0, 0, 0, 0, 0, 0},
    {".a", 13, 0, 0, 0, 0, 0, 0},
    {"M.nope", 13, 2, 1, 0, 0, 0, 0},
    {"M.aa", 13, 2, 1, 0, 0, 0, 0},
    {"M.x.nope", 13, 4, 1, 0, 0, 0, 0},
    {"Z.a", 13, 2, 2, 0, 0, 0, 0},
    {"M.a.z", 13, 4, 2, 0, 0, 0, 0},
    {"M.c[1,1][1]", 13, 9, 2, 0, 0, 0, 0},
    {"M.c[3,0]", 14, 2, 4, 0, 0, 0, 0},
    {"M.c[0,0]", 14, 2, 4, 0, 0, 0, 0},
    {"M.c[1,-2]", 14, 3, 6, 0, 0, 0, 0},
    {"M.c[2][2]", 14, 3, 7, 0, 0, 0, 0},
    {"M.c[4294967297,0]", 14, 2, 4, 0, 0, 0, 0},
    {"M.c[18446744073709551617,0]", 14, 2, 4, 0, 0, 0, 0},
    {"M.c[1,-4294967297]", 14, 3, 6, 0, 0, 0, 0},
    {"M..a", 20, 2, 0, 0, 0, 0, 0},
    {"D..", 20, 2, 0, 0, 0, 0, 0},
    {"M.", 20, 2, 0, 0, 0, 0, 0},
    {"M.c[", 20, 4, 0, 0, 0, 0, 0},
    {"M.c[-]", 20, 5, 0, 0, 0, 0, 0},
    {"M.c[x]", 20, 4, 0, 0, 0, 0, 0},
    {"M.c[1,1", 20, 7, 0, 0, 0, 0, 0},
    {"M.c[1,]", 20, 6, 0, 0, 0, 0, 0},
    {"M.c[1;1]", 20, 5, 0, 0, 0, 0, 0},
    {"M.c[1,1]a", 20, 8, 0, 0, 0, 0, 0},
    {"M[1]", 21, 2, 0, 0, 0, 0, 0},
    {"M.c[1]", 21, 6, 2, 0, 0, 0, 0},
    {"M.c.a", 21, 4, 2, 0, 0, 0, 0},
    {"M.c[1].a", 21, 7, 2, 0, 0, 0, 0},
    {"M.r", 22, 2, 0x4, 0, 0, 0, 0},
    {"M.p", 22, 2, 0x40, 0, 0, 0, 0},
    {"M.s", 22, 2, 0x20000, 0, 0, 0, 0},
    {"R.a", 22, 2, 0x4, 0, 0, 0, 0},
    {"P.a", 22, 2, 0x800000, 0, 0, 0, 0},
    {"P[0]", 22, 2, 0x800000, 0, 0, 0, 0},
    {"M.to.a", 22, 5, 0x800000, 0, 0, 0, 0},
    {"M.face.a", 22, 7, 0x400, 0, 0, 0, 0},
    {"bit.a", 22, 4, 0x2, 0, 0, 0, 0},
    {"ref..", 22, 4, 0x4, 0, 0, 0, 0},
    {"M.far", 23, 4294967295, 4294968295, 0, 0, 0, 0},
};

static void hold_known(const struct known *known)
{
    struct told told = call_bind(symbols, types, lay(NAME, text(known->path)));
    const uint64_t want[] = {0x4040, known->offset, known->bit, known->size, known->in_bits};
    CHECK(BOUND_KNOWN,
          told.status == known->status && told.answer[0] == known->first && told.answer[1] == known->second &&
              (told.status != VINDASKOT_DONE || memcmp(told.slots, want, sizeof want) == 0),
          "%s: status %u (%llu, %llu), offset %llu, bit %llu, size %llu", known->path, (unsigned)told.status,
          (unsigned long long)told.answer[0], (unsigned long long)told.answer[1],
          (unsigned long long)told.slots[VINDASKOT_ADDRESS_OFFSET],
          (unsigned long long)told.slots[VINDASKOT_ADDRESS_BIT],
          (unsigned long long)told.slots[VINDASKOT_ADDRESS_SIZE]);
    hold(text(known->path));
}

/* A symbol whose last end byte is not 0, through slots in which it is: the checked mode passes it over. */
static void try_hurt(void)
{
    made_symbols.at[made_symbols.len - 1] = 7;
    lay_uploads(true);
    hold(text("ref"));
    CHECK(BOUND_ELSEWHERE, call_bind(symbols, types, text("ref")).status == (mode == CHECKED ? 13u : VINDASKOT_DONE),
          "a symbol with an end byte of 7 is bound in the other mode");
}

/* Each path as it stands; and through no slots of the symbols, then of the data types, nothing is found. */
static void try_known(void)
{
    make_known();
    lay_uploads(false);
    for (size_t i = 0; i < sizeof knowns / sizeof *knowns; i++)
        hold_known(&knowns[i]);
    const struct indexed nowhere = {{NULL, 0}, {NULL, 0}};
    SAME(EMPTY, call_bind(nowhere, nowhere, part(nowhere.bytes, 0, 0)), refused(13, 0, 0));
    SAME(BOUND_ELSEWHERE, call_bind((struct indexed){symbols.bytes, {NULL, 0}}, types, text("M.a")), refused(13, 0, 0));
    SAME(BOUND_ELSEWHERE, call_bind(symbols, (struct indexed){types.bytes, {NULL, 0}}, text("M.a")), refused(13, 2, 2));
    try_hurt();
}

/* There is no call that takes no mode. */
void try_binds(void)
{
    if (mode != PRESENT)
        try_known();
}

/* ---- At random ---- */

/* The arrays of the data types that were made, so that a member can say one's again. */
static struct shape shapes[NAMED_TYPES];

static struct bytes type_named(size_t number)
{
    static const char *const names[NAMED_TYPES + 1] = {"T0", "T1", "T2", "T3", "T4", "T5", "T6", "t7", "T8", "none"};
    return text(names[number]);
}

static uint32_t some_flags(void)
{
    static const uint32_t marks[] = {0x4, 0x40, 0x20000, 0x20044, 0x400, 0x800000, 0x800400};
    return (one_in(5) ? 0x20 : 0) | (one_in(30) ? marks[below(7)] : 0) | (one_in(2) ? 1 : 0);
}

static struct shape some_shape(bool array)
{
    struct shape shape = {array ? 1 + below(DIMENSIONS_MOST) : 0, one_in(9) ? (uint32_t)any() : (uint32_t)below(400), {{0}}};
    for (size_t i = 0; i < shape.count; i++) {
        shape.records[i][0] = one_in(9) ? (uint32_t)any() : (uint32_t)below(9) - 4;
        shape.records[i][1] = one_in(9) ? (uint32_t)any() : one_in(9) ? 0 : 1 + (uint32_t)below(5);
    }
    return shape;
}

/* A data type, or a member at a depth below one. */
static void put_entry(struct bytes name, size_t depth, struct shape shape, size_t of_type)
{
    static const char *const names[] = {"a", "b", "Ab", "a1", "\xC4"};
    const bool has_items = depth == 0 ? !one_in(3) : depth < 3 && one_in(5);
    const size_t count = has_items ? 1 + below(5) : 0;
    const uint32_t offset = one_in(30) ? 0xFFFFFFF0 + (uint32_t)below(16) : (uint32_t)below(300);
    const size_t start = put_head(name, type_named(of_type), depth == 0 ? 0 : offset,
                                  depth == 0 && !one_in(8) ? 0 : some_flags(), &shape, count);
    for (size_t i = 0; i < count; i++) {
        const size_t next = one_in(12) ? NAMED_TYPES : below(NAMED_TYPES);
        const bool again = next < NAMED_TYPES && shapes[next].count > 0;
        put_entry(text(names[below(5)]), depth + 1, again ? shapes[next] : some_shape(one_in(3)), next);
    }
    close_entry(start);
}

static void make_uploads(void)
{
    static const char *const names[] = {"M", "m.a", "M.a[1]", "M.ab", "G", "G.M", "", "A.b.a"};
    made_symbols.len = made_types.len = 0;
    for (size_t i = 0; i < NAMED_TYPES; i++)
        shapes[i] = some_shape(one_in(3));
    for (size_t i = 0; i < NAMED_TYPES; i++)
        put_entry(type_named(i), 0, shapes[i], one_in(12) ? NAMED_TYPES : below(NAMED_TYPES));
    for (size_t left = 1 + below(6); left > 0; left--) {
        struct parts p = {.numbers = {(uint32_t)any(), one_in(9) ? (uint32_t)any() : (uint32_t)below(5000), (uint32_t)any(), 0},
                          .flags = one_in(20) ? (uint32_t)below(8) : 0,
                          .name = text(names[below(8)]), .type_name = type_named(below(NAMED_TYPES + 1))};
        put_symbol(&made_symbols, &p);
    }
    /* Where an end byte is hurt, only the checked mode passes the entry over. */
    if (one_in(4))
        made_symbols.at[made_symbols.len - 1] = no_zero();
    if (one_in(6))
        made_types.at[below(made_types.len)] ^= (uint8_t)(1u << below(8));
}

static void put_text(const char *s)
{
    put(&made_path, text(s));
}

/* A number in the first dimension that is left, now and then outside it, in brackets of its own or behind a comma. */
static int64_t put_subscript(const struct spot *s, bool *open)
{
    char digits[40];
    int64_t lower;
    uint64_t elements;
    bounds_of(s, &lower, &elements);
    const int64_t number = lower + (int64_t)below((size_t)elements + one_in(12)) - one_in(20);
    snprintf(digits, sizeof digits, one_in(9) && number >= 0 ? "%04lld" : "%lld", (long long)number);
    put_text(*open ? "," : "[");
    put_text(digits);
    *open = s->left > 1 && one_in(2);
    put_text(*open ? "" : "]");
    return number;
}

/* The name of one of the sub-items. */
static struct bytes some_item(const struct spot *s)
{
    struct spot item = {true, s->at + arrays_at(s) + 8 * dimensions(s), 0, 0, 0};
    for (size_t left = below(items(s)); left > 0; left--)
        item.at += (size_t)of(&item, 0, 4);
    return part(types.bytes, item.at + 42, (size_t)of(&item, 32, 2));
}

/* From a symbol on along what is there. */
static void put_parts(struct spot here)
{
    bool open = false;
    for (size_t left = below(8); (left > 0 || (here.left > 0 && !one_in(9))) && settle(&here, 0); left -= left > 0) {
        struct step step = {0, here.left > 0, {NULL, 0}, 0};
        if (step.is_number) {
            step.number = put_subscript(&here, &open);
        } else {
            step.name = some_item(&here);
            put_text(".");
            put(&made_path, step.name);
        }
        if (!(step.is_number ? to_element(&here, &step) : to_member(&here, &step)))
            break;
    }
    put_text(open ? "]" : "");
}

static void make_path(void)
{
    static const char *const ends_with[] = {".", "[", "]", "[1]", ",2]", ".a", "[-", "x", ".ab[0,0]", "[-2147483649]"};
    made_path.len = 0;
    if (symbols.slots.len > 0) {
        struct spot here = {false, (size_t)number_at(symbols.slots, 4 * below(symbols.slots.len / 4), 4), 0, 0, 0};
        put(&made_path, part(symbols.bytes, here.at + 30, (size_t)of(&here, 24, 2)));
        here.bits = 8 * of(&here, 8, 4);
        put_parts(here);
    }
    recase((struct room){made_path.at, made_path.len});
    if (one_in(5))
        put_text(ends_with[below(10)]);
    if (one_in(9) && made_path.len > 0)
        made_path.at[below(made_path.len)] = (uint8_t)".[],-0aM"[below(8)];
}

/* Starts in any order, and places at which no entry starts: only what a call may do is held. */
static void try_elsewhere(void)
{
    static uint32_t other[BUFFER];
    const size_t count = 1 + below(9);
    for (size_t i = 0; i < count; i++)
        other[i] = one_in(3) ? (uint32_t)any() : (uint32_t)below(made_types.len + 9);
    for (size_t i = 0; i < count && i < types.slots.len / 4; i++)
        other[i] = one_in(3) ? other[i] : (uint32_t)number_at(types.slots, 4 * below(types.slots.len / 4), 4);
    struct indexed another = {types.bytes, lay(CHAIN, (struct bytes){(const uint8_t *)other, 4 * count})};
    struct told told = call_bind(symbols, another, lay(NAME, whole(&made_path)));
    CHECK(BOUND_ELSEWHERE, told.status != VINDASKOT_DONE || told.slots[VINDASKOT_ADDRESS_BIT] < 8,
          "through other starts a bit is %llu", (unsigned long long)told.slots[VINDASKOT_ADDRESS_BIT]);
}

/* Two paths through a controller, each on both sides and in both modes. */
void try_paths(void)
{
    const bool present = one_in(3);
    make_uploads();
    side = AT_END;
    mode = PRESENT_IN;
    for (size_t left = 2; left > 0; left--) {
        lay_uploads(present);
        make_path();
        for (side = 0; side < SIDES; side++)
            for (mode = PRESENT_IN; mode < MODES; mode++) {
                lay_uploads(present);
                hold(whole(&made_path));
                try_elsewhere();
            }
        side = AT_END;
        mode = PRESENT_IN;
    }
    mode = PRESENT;
}

/* One byte above the limit refuses with 5 before all else: the symbols, then the data types, then the path. */
void try_bind_limit(size_t len)
{
    const struct told want = len > VINDASKOT_LIMIT ? refused(5, VINDASKOT_LIMIT, len) : refused(13, 0, 0);
    const struct bytes none = {NULL, 0};
    const enum area areas[] = {UPLOAD, BLOCK, NAME};
    struct bytes all[3];
    for (size_t i = 0; i < 3; i++) {
        struct bytes one[3] = {none, none, none};
        uint8_t *at = area(areas[i], len + i);
        memset(at, 0, len + i);
        one[i] = (struct bytes){side == AT_END ? at + i : at, len};
        all[i] = (struct bytes){at, len + i};
        SAME(LIMITS, call_bind((struct indexed){one[0], none}, (struct indexed){one[1], none}, one[2]), want);
    }
    if (len > VINDASKOT_LIMIT) {
        SAME(LIMITS, call_bind((struct indexed){all[0], none}, (struct indexed){all[1], none}, all[2]), want);
        SAME(LIMITS, call_bind((struct indexed){none, none}, (struct indexed){all[1], none}, all[2]),
             refused(5, VINDASKOT_LIMIT, len + 1));
    }
}
