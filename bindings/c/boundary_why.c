/* Why a section of a symbol is there or not. What is expected stands here in the words of docs/FORMAT.md, "Why", worked
 * out from the bytes; only the refusals of the entry itself are the model's. */
#include "boundary.h"

static void set_reason(struct told *told, enum section of, uint64_t reason, uint64_t first, uint64_t second)
{
    uint64_t *slots = told->whys[of];
    memset(slots, 0, sizeof told->whys[of]);
    slots[VINDASKOT_WHY_REASON] = reason;
    slots[VINDASKOT_WHY_FIRST] = first;
    slots[VINDASKOT_WHY_SECOND] = second;
}

static void set_refused(struct told *told, enum section of, size_t at, uint64_t which, struct told why)
{
    set_reason(told, of, VINDASKOT_WHY_REFUSED, at, which);
    told->whys[of][VINDASKOT_WHY_NUMBER] = why.status;
    told->whys[of][VINDASKOT_WHY_EXPECTED] = why.answer[0];
    told->whys[of][VINDASKOT_WHY_GOT] = why.answer[1];
}

/* Whether a section of at least so many bytes is flagged and has them; else why not. */
static bool begins(struct bytes e, struct told *told, enum section of, bool flagged, size_t at, size_t least)
{
    if (!flagged)
        set_reason(told, of, VINDASKOT_WHY_NOT_FLAGGED, 0, 0);
    else if (e.len - at < least)
        set_reason(told, of, VINDASKOT_WHY_NO_ROOM, at, e.len - at);
    return flagged && e.len - at >= least;
}

/* The place after it. */
static size_t fixed(struct bytes e, struct told *told, enum section of, bool flagged, size_t at, size_t size)
{
    if (!begins(e, told, of, flagged, at, size))
        return at;
    set_reason(told, of, VINDASKOT_WHY_WHOLE, at, 1);
    return at + size;
}

/* How long the record at a place is, and its refusal, which says 0 where it is whole. */
static size_t attribute_there(struct bytes e, size_t at, struct told *why)
{
    size_t left = e.len - at, size = left < 4 ? 4 : 4 + (size_t)e.at[at] + e.at[at + 1];
    *why = left >= size ? done(0, 0) : refused(left < 4 ? 2 : 1, size, left);
    return size;
}

static size_t refactor_there(struct bytes e, size_t at, struct told *why)
{
    size_t left = e.len - at, size = left < 7 ? 7 : 7 + (size_t)number_at(e, at + 4, 2);
    *why = left >= size ? done(0, 0) : refused(2, size, left);
    return size;
}

static size_t attributes(struct bytes e, struct told *told, bool flagged, size_t at)
{
    if (!begins(e, told, ATTRIBUTES_SECTION, flagged, at, 2))
        return at;
    uint64_t announced = number_at(e, at, 2);
    size_t next = at + 2;
    for (uint64_t shown = 0; shown < announced; shown++) {
        struct told why;
        size_t size = attribute_there(e, next, &why);
        if (shown > 0 && next == e.len)
            set_reason(told, ATTRIBUTES_SECTION, VINDASKOT_WHY_OWED, announced, announced - shown);
        else if (why.status != VINDASKOT_DONE)
            set_refused(told, ATTRIBUTES_SECTION, next, shown, why);
        if (why.status != VINDASKOT_DONE)
            return next;
        next += size;
    }
    set_reason(told, ATTRIBUTES_SECTION, VINDASKOT_WHY_WHOLE, at, announced);
    return next;
}

/* The extended flags stand right before it, if they are there. */
static void chain(struct bytes e, struct told *told, bool flags_there, size_t at)
{
    if (!flags_there) {
        set_reason(told, CHAIN_SECTION, VINDASKOT_WHY_NO_FLAGS, 0, 0);
        return;
    }
    bool flagged = (e.at[at - 4] & VINDASKOT_SYMBOL2_FLAG_REFACTOR_INFO) != 0;
    if (!begins(e, told, CHAIN_SECTION, flagged, at, 1))
        return;
    for (size_t next = at, count = 0, followed = 1; followed; count++) {
        struct told why;
        size_t size = refactor_there(e, next, &why);
        if (why.status != VINDASKOT_DONE) {
            set_refused(told, CHAIN_SECTION, next, count, why);
            return;
        }
        followed = e.at[next + 3] & 1;
        next += size;
        set_reason(told, CHAIN_SECTION, VINDASKOT_WHY_WHOLE, at, count + 1);
    }
}

struct told model_symbol_why(struct bytes b)
{
    enum mode trying = mode;
    mode = PRESENT;
    struct told read = model_symbol_read(b), told = done(0, 0);
    mode = trying;
    if (read.status != VINDASKOT_DONE)
        return read;
    struct bytes e = part(b, 0, (size_t)number_at(b, 0, 4));
    uint64_t flags = number_at(e, 20, 2);
    size_t at = 33 + (size_t)(number_at(e, 24, 2) + number_at(e, 26, 2) + number_at(e, 28, 2));
    at = fixed(e, &told, GUID_SECTION, (flags & VINDASKOT_SYMBOL_FLAG_TYPE_GUID) != 0, at, 16);
    at = attributes(e, &told, (flags & VINDASKOT_SYMBOL_FLAG_ATTRIBUTES) != 0, at);
    size_t behind = fixed(e, &told, EXTENDED_SECTION, (flags & VINDASKOT_SYMBOL_FLAG_EXTENDED_FLAGS) != 0, at, 4);
    chain(e, &told, behind > at, behind);
    return told;
}

/* ---- Beside what is read of the same entry ---- */

static enum group group_of(enum section of, const uint64_t *slots)
{
    switch (slots[VINDASKOT_WHY_REASON]) {
    case VINDASKOT_WHY_NOT_FLAGGED: return WHY_NOT_FLAGGED;
    case VINDASKOT_WHY_NO_FLAGS: return WHY_NO_FLAGS;
    case VINDASKOT_WHY_NO_ROOM: return WHY_NO_ROOM;
    case VINDASKOT_WHY_WHOLE: return slots[VINDASKOT_WHY_SECOND] == 0 ? WHY_NONE_ANNOUNCED : WHY_WHOLE;
    case VINDASKOT_WHY_OWED: return WHY_OWED;
    default:
        return of == ATTRIBUTES_SECTION && slots[VINDASKOT_WHY_SECOND] == 0 && slots[VINDASKOT_WHY_GOT] == 0
                   ? WHY_END_BEHIND_COUNT
                   : WHY_REFUSED;
    }
}

/* How many are shown, of a list that a refused record ends and of one that it drops. */
static uint64_t shown_of(const uint64_t *slots, bool dropped)
{
    switch (slots[VINDASKOT_WHY_REASON]) {
    case VINDASKOT_WHY_WHOLE: return slots[VINDASKOT_WHY_SECOND];
    case VINDASKOT_WHY_REFUSED: return dropped ? 0 : slots[VINDASKOT_WHY_SECOND];
    case VINDASKOT_WHY_OWED: return slots[VINDASKOT_WHY_FIRST] - slots[VINDASKOT_WHY_SECOND];
    default: return 0;
    }
}

/* The place that a section tells is the one that its reader has, so many bytes behind it. */
static bool placed(const uint64_t *slots, uint64_t place, uint64_t front)
{
    return slots[VINDASKOT_WHY_REASON] != VINDASKOT_WHY_WHOLE || slots[VINDASKOT_WHY_FIRST] + front == place;
}

static void check_shown(struct told why, struct told symbol)
{
    const uint64_t *s = symbol.slots, *of_attributes = why.whys[ATTRIBUTES_SECTION], *of_chain = why.whys[CHAIN_SECTION];
    CHECK(WHY_SHOWN,
          shown_of(why.whys[GUID_SECTION], true) == s[VINDASKOT_SYMBOL_HAS_GUID] &&
              shown_of(of_attributes, false) == s[VINDASKOT_SYMBOL_ATTRIBUTE_COUNT] &&
              shown_of(why.whys[EXTENDED_SECTION], true) == s[VINDASKOT_SYMBOL_HAS_EXTENDED] &&
              shown_of(of_chain, true) == s[VINDASKOT_SYMBOL_REFACTOR_COUNT],
          "the reasons say that other parts are shown than are");
    CHECK(WHY_SHOWN,
          placed(of_attributes, s[VINDASKOT_SYMBOL_ATTRIBUTES_AT], 2) &&
              placed(of_chain, s[VINDASKOT_SYMBOL_REFACTORS_AT], 0),
          "the reasons say that sections stand elsewhere");
}

void try_why(struct bytes b)
{
    struct told want = model_symbol_why(b), told = call_symbol_why(b), symbol = call_symbol_read(b);
    SAME(WHYS, told, want);
    if (told.status != VINDASKOT_DONE)
        return;
    for (size_t i = 0; i < SECTIONS; i++)
        CHECK(group_of((enum section)i, want.whys[i]), memcmp(told.whys[i], want.whys[i], sizeof want.whys[i]) == 0,
              "section %zu has another reason", i);
    if (symbol.status == VINDASKOT_DONE)
        check_shown(told, symbol);
    if (mode == CHECKED && symbol.status == VINDASKOT_DONE)
        SAME(WHY_ACCEPTED, told, want);
}

/* ---- By name ---- */

/* An entry without strings, of these flags, with these bytes behind its strings' end bytes; something stands behind the
 * entry. */
static struct bytes entry_of(uint32_t flags, struct bytes tail)
{
    static struct buffer entry;
    entry.len = 0;
    put_symbol(&entry, &(struct parts){.flags = 0});
    put(&entry, tail);
    put_claim(&entry, 0, entry.len);
    entry.at[20] = (uint8_t)flags;
    entry.at[21] = (uint8_t)(flags >> 8);
    put(&entry, text("\x01\x01u\0v\0"));
    return lay(UPLOAD, whole(&entry));
}

struct reason {
    uint64_t slots[VINDASKOT_WHY_SLOTS];
};

#define NOT_FLAGGED {{VINDASKOT_WHY_NOT_FLAGGED}}
#define NO_FLAGS {{VINDASKOT_WHY_NO_FLAGS}}
#define NO_ROOM(place, left) {{VINDASKOT_WHY_NO_ROOM, place, left}}
#define WHOLE(place, count) {{VINDASKOT_WHY_WHOLE, place, count}}
#define REFUSED(place, which, number, expected, got) {{VINDASKOT_WHY_REFUSED, place, which, number, expected, got}}
#define OWED(announced, owed) {{VINDASKOT_WHY_OWED, announced, owed}}

#define G VINDASKOT_SYMBOL_FLAG_TYPE_GUID
#define A VINDASKOT_SYMBOL_FLAG_ATTRIBUTES
#define E VINDASKOT_SYMBOL_FLAG_EXTENDED_FLAGS
#define TAIL(bytes) {(const uint8_t *)(bytes), sizeof(bytes) - 1}

/* Sections begin at 33. */
static const struct {
    uint32_t flags;
    struct bytes tail;
    struct reason want[SECTIONS];
} cases[] = {
    {0, TAIL(""), {NOT_FLAGGED, NOT_FLAGGED, NOT_FLAGGED, NO_FLAGS}},
    {0, TAIL("\2\0\1\1u\0v\0"), {NOT_FLAGGED, NOT_FLAGGED, NOT_FLAGGED, NO_FLAGS}},
    {G, TAIL("fifteen bytes.."), {NO_ROOM(33, 15), NOT_FLAGGED, NOT_FLAGGED, NO_FLAGS}},
    {G, TAIL("sixteen bytes..."), {WHOLE(33, 1), NOT_FLAGGED, NOT_FLAGGED, NO_FLAGS}},
    {A, TAIL(""), {NOT_FLAGGED, NO_ROOM(33, 0), NOT_FLAGGED, NO_FLAGS}},
    {A, TAIL("\2"), {NOT_FLAGGED, NO_ROOM(33, 1), NOT_FLAGGED, NO_FLAGS}},
    {A, TAIL("\0\0"), {NOT_FLAGGED, WHOLE(33, 0), NOT_FLAGGED, NO_FLAGS}},
    {A, TAIL("\2\0"), {NOT_FLAGGED, REFUSED(35, 0, 2, 4, 0), NOT_FLAGGED, NO_FLAGS}},
    {A, TAIL("\2\0\1\1u\0v\0"), {NOT_FLAGGED, OWED(2, 1), NOT_FLAGGED, NO_FLAGS}},
    {A, TAIL("\1\0\1\1u\0v\0"), {NOT_FLAGGED, WHOLE(33, 1), NOT_FLAGGED, NO_FLAGS}},
    {A, TAIL("\4\1\1\1u\0v\0\0\0\0\0"), {NOT_FLAGGED, OWED(260, 258), NOT_FLAGGED, NO_FLAGS}},
    {A, TAIL("\2\0\1\1u\0v\0\1\1x"), {NOT_FLAGGED, REFUSED(41, 1, 2, 4, 3), NOT_FLAGGED, NO_FLAGS}},
    {A, TAIL("\2\0\1\1u\0v\0\1\2x\0v\0"), {NOT_FLAGGED, REFUSED(41, 1, 1, 7, 6), NOT_FLAGGED, NO_FLAGS}},
    {G | A, TAIL("\1\0\0\0\0\0"), {NO_ROOM(33, 6), WHOLE(33, 1), NOT_FLAGGED, NO_FLAGS}},
    {G | A, TAIL("sixteen bytes...\3"), {WHOLE(33, 1), NO_ROOM(49, 1), NOT_FLAGGED, NO_FLAGS}},
    {E, TAIL("\4\0\0"), {NOT_FLAGGED, NOT_FLAGGED, NO_ROOM(33, 3), NO_FLAGS}},
    {E, TAIL("\373\377\377\377\0"), {NOT_FLAGGED, NOT_FLAGGED, WHOLE(33, 1), NOT_FLAGGED}},
    {E, TAIL("\4\0\0\0"), {NOT_FLAGGED, NOT_FLAGGED, WHOLE(33, 1), NO_ROOM(37, 0)}},
    {E, TAIL("\4\0\0\0\0"), {NOT_FLAGGED, NOT_FLAGGED, WHOLE(33, 1), REFUSED(37, 0, 2, 7, 1)}},
    {E, TAIL("\4\0\0\0\0\0\0\0\1\0n\0"), {NOT_FLAGGED, NOT_FLAGGED, WHOLE(33, 1), WHOLE(37, 1)}},
    {E, TAIL("\4\0\0\0\0\0\0\1\0\0\0\0\0\0\0\0\0\0"), {NOT_FLAGGED, NOT_FLAGGED, WHOLE(33, 1), WHOLE(37, 2)}},
    {E, TAIL("\4\0\0\0\0\0\0\1\0\0\0"), {NOT_FLAGGED, NOT_FLAGGED, WHOLE(33, 1), REFUSED(44, 1, 2, 7, 0)}},
    {E, TAIL("\4\0\0\0\0\0\0\1\0\0\0\0\0\0\0\2\0n\0"), {NOT_FLAGGED, NOT_FLAGGED, WHOLE(33, 1), REFUSED(44, 1, 2, 9, 8)}},
    /* The bytes of an attribute that is refused are read on. */
    {A | E, TAIL("\1\0\4\0\0\0"), {NOT_FLAGGED, REFUSED(35, 0, 1, 8, 4), WHOLE(35, 1), NO_ROOM(39, 0)}},
    {A | E, TAIL("\1\0\4\0\0"), {NOT_FLAGGED, REFUSED(35, 0, 2, 4, 3), NO_ROOM(35, 3), NO_FLAGS}},
    {A | E, TAIL("\4"), {NOT_FLAGGED, NO_ROOM(33, 1), NO_ROOM(33, 1), NO_FLAGS}},
};

static void by_name(size_t i)
{
    struct bytes b = entry_of(cases[i].flags, cases[i].tail);
    struct told want = done(0, 0);
    for (size_t k = 0; k < SECTIONS; k++)
        memcpy(want.whys[k], cases[i].want[k].slots, sizeof want.whys[k]);
    SAME(WHYS, call_symbol_why(b), want);
    SAME(WHYS, model_symbol_why(b), want);
    try_why(b);
}

/* Few bytes of few kinds, so that counts, lengths and bits lead to each other. */
static void at_random(void)
{
    static const uint8_t often[] = {0, 0, 0, 1, 1, 2, 3, 4, 5, 0xFF};
    uint8_t tail[40];
    size_t len = below(sizeof tail + 1);
    for (size_t i = 0; i < len; i++)
        tail[i] = one_in(12) ? (uint8_t)any() : often[below(sizeof often)];
    try_why(entry_of(((one_in(4) ? G : 0) | (one_in(4) ? 0 : A) | (one_in(3) ? 0 : E)), (struct bytes){tail, len}));
}

void try_whys(void)
{
    for (size_t i = 0; i < sizeof cases / sizeof *cases; i++)
        by_name(i);
    for (size_t i = 0; i < 20000; i++)
        at_random();
}
