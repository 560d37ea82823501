/* Wrong versions of exported functions, one a number, to show that the boundary tests find such faults.
 *
 *   cc -DFAULT=n -c faulty.c       then linked with --wrap for each function that this defines as __wrap_..., by its
 *                                  text, by SEARCHES, by SALVAGES or by STRUCTURES
 *
 * tools/c-tests builds and runs each, and demands that boundary fails; with number 0, a control, it must pass.
 */
#include <string.h>

#include "vindaskot.h"

#if FAULT > 310
/* What the explanation of a symbol takes, and the right one. */
#define EXPLAINS                                                                                                       \
    const uint8_t *bytes, size_t bytes_len, uint64_t *guid, uint64_t *attributes, uint64_t *extended_flags,            \
        uint64_t *chain, uint64_t *answer
#define EXPLAINED __real_vindaskot_symbol_why(bytes, bytes_len, guid, attributes, extended_flags, chain, answer)
uint32_t __real_vindaskot_symbol_why(EXPLAINS);
#endif

#if FAULT > 359
/* What the writer of a sheet takes, and the right one. */
#define EXPORTS const uint8_t *bytes, size_t bytes_len, uint8_t *out, size_t out_len, uint64_t *answer
#define EXPORTED __real_vindaskot_sheet_export(bytes, bytes_len, out, out_len, answer)
uint32_t __real_vindaskot_sheet_export(EXPORTS);
#endif

#if FAULT > 365
/* What the words of a refusal take, and the right ones. */
#define TELLS uint32_t number, size_t expected, size_t got, uint8_t *output, size_t output_length, uint64_t *answer
#define TOLD(number, expected, got) __real_vindaskot_refusal_text(number, expected, got, output, output_length, answer)
uint32_t __real_vindaskot_refusal_text(TELLS);
#endif

#if FAULT > 373
/* What the reader of a sheet takes is the same; and the right one. */
#define IMPORTED __real_vindaskot_sheet_import(bytes, bytes_len, out, out_len, answer)
uint32_t __real_vindaskot_sheet_import(EXPORTS);
#endif

#if FAULT > 383
/* What binding takes, and the right one. */
#define BINDS                                                                                                          \
    const uint8_t *symbols, size_t symbols_len, bool checked, const uint32_t *symbol_starts, size_t symbol_count,      \
        const uint8_t *types, size_t types_len, const uint32_t *type_starts, size_t type_count, const uint8_t *path,   \
        size_t path_len, uint64_t *slots, uint64_t *answer
#define BOUND(checked, symbol_count, path_len)                                                                         \
    __real_vindaskot_bind_in(symbols, symbols_len, checked, symbol_starts, symbol_count, types, types_len,             \
                             type_starts, type_count, path, path_len, slots, answer)
uint32_t __real_vindaskot_bind_in(BINDS);
#endif

#if FAULT > 15 && FAULT < 20 && FAULT != 18
/* The attributes that these look at: each call reads the entry anew, and there can be 65,535. */
enum { FEW = 99 };

/* Whether the name that an attribute's slots tell begins with these bytes, as far as a mask's bits go. */
static bool begins(const uint8_t *bytes, const uint64_t *slots, const uint8_t *with, size_t len, uint8_t mask)
{
    if (slots[VINDASKOT_ATTRIBUTE_NAME_LEN] < len)
        return false;
    while (len > 0 && ((bytes[slots[VINDASKOT_ATTRIBUTE_NAME_AT] + len - 1] ^ with[len - 1]) & mask) == 0)
        len--;
    return len == 0;
}
#endif

#if FAULT == 0 || (FAULT > 22 && FAULT < 34) || FAULT == 38 || FAULT == 39
/* Whether a byte of a name and the byte asked are the same, at a place of names of a length, as a fault has it. */
static bool same(uint8_t x, uint8_t y, size_t place, size_t len);

#define SAME_WHERE(condition)                                                                                          \
    static bool same(uint8_t x, uint8_t y, size_t place, size_t len)                                                   \
    {                                                                                                                  \
        (void)place, (void)len;                                                                                        \
        return condition;                                                                                              \
    }

static bool as_long(size_t own, size_t asked)
{
    return own == asked || (FAULT == 39 && own > asked && own % 256 == asked % 256);
}

static bool has_name(const uint8_t *bytes, size_t bytes_len, size_t at, const uint8_t *name, size_t name_len)
{
    size_t place = 0;
    if (bytes_len < 30 || at > bytes_len - 30 || bytes_len - at - 30 < name_len ||
        !as_long((size_t)(bytes[at + 24] | bytes[at + 25] << 8), name_len))
        return false;
    while (place < name_len && same(bytes[at + 30 + place], name[place], place, name_len))
        place++;
    return place == name_len;
}

/* Finding as it has to be, but for `same`, for what two of the faults make of a refused entry and for a length that one
 * takes for another. */
static uint32_t search(const uint8_t *bytes, size_t bytes_len, bool indexed, const uint32_t *slots, size_t slots_len,
                       const uint8_t *name, size_t name_len, uint64_t *answer)
{
    uint64_t entry[VINDASKOT_SYMBOL_SLOTS], own[2];
    uint8_t guid[16];
    bool too_large = bytes_len > VINDASKOT_LIMIT;
    answer[0] = too_large ? VINDASKOT_LIMIT : 0;
    answer[1] = too_large ? bytes_len : 0;
    if (too_large)
        return 5;
    for (size_t i = 0, at, next = 0; indexed ? i < slots_len : next < bytes_len; i++) {
        at = next = indexed ? slots[i] : next;
        bool accepted = vindaskot_symbol_step_2(bytes, bytes_len, &next, entry, guid, own) == VINDASKOT_DONE;
        bool named = has_name(bytes, bytes_len, at, name, name_len);
        if (named && !accepted && FAULT == 33)
            break;
        if (named && (accepted || FAULT == 32)) {
            answer[0] = at;
            return VINDASKOT_DONE;
        }
        answer[0] = !indexed && next == at;
        if (answer[0] == 1)
            return 10;
    }
    return 13;
}

/* One of the two functions, by that search. */
#define SEARCHES(function) SEARCHES_##function
#define SEARCHES_vindaskot_find                                                                                        \
    uint32_t __wrap_vindaskot_find(const uint8_t *bytes, size_t bytes_len, const uint8_t *name, size_t name_len,       \
                                   uint64_t *answer)                                                                   \
    {                                                                                                                  \
        return search(bytes, bytes_len, false, NULL, 0, name, name_len, answer);                                       \
    }
#define SEARCHES_vindaskot_find_indexed                                                                                \
    uint32_t __wrap_vindaskot_find_indexed(const uint8_t *bytes, size_t bytes_len, const uint32_t *slots,              \
                                           size_t slots_len, const uint8_t *name, size_t name_len, uint64_t *answer)   \
    {                                                                                                                  \
        return search(bytes, bytes_len, true, slots, slots_len, name, name_len, answer);                               \
    }
#endif

#if FAULT == 0 || (FAULT > 23 && FAULT < 40 && FAULT != 28 && FAULT != 34 && FAULT != 35 && FAULT != 37)
static uint8_t small(uint8_t c)
{
    return c >= 'A' && c <= 'Z' ? (uint8_t)(c + 32) : c;
}
#endif

#if FAULT > 43 && FAULT < 48
/* What the symbol writer takes, which the faults of it share. */
#define PARAMETERS                                                                                                     \
    uint32_t index_group, uint32_t index_offset, uint32_t size, uint32_t data_type_id, uint16_t flags, uint16_t high,  \
        uint32_t extended_flags, const uint8_t *guid, size_t guid_len, const uint8_t *name, size_t name_len,           \
        const uint8_t *type_name, size_t type_name_len, const uint8_t *comment, size_t comment_len, size_t count,      \
        const uint8_t *block, size_t block_len, size_t links, const uint8_t *chain, size_t chain_len, uint8_t *out,    \
        size_t out_len, uint64_t *answer
#define ARGUMENTS                                                                                                      \
    index_group, index_offset, size, data_type_id, flags, high, extended_flags, guid, guid_len, name, name_len,        \
        type_name, type_name_len, comment, comment_len, count, block, block_len, links, chain, chain_len, out,         \
        out_len, answer
uint32_t __real_vindaskot_symbol_write_2(PARAMETERS);
#endif

#if FAULT > 48
/* What the functions that take a mode take, and the right ones. */
#define BYTES const uint8_t *bytes, size_t bytes_len, bool checked
#define TELLS_ENTRY uint64_t *slots, uint8_t *guid, uint64_t *answer
#define TELLS_RECORD uint64_t *slots, uint64_t *answer
#define NAMED const uint8_t *name, size_t name_len
#define INDEX const uint32_t *starts, size_t count
uint32_t __real_vindaskot_symbol_read_in(BYTES, TELLS_ENTRY);
uint32_t __real_vindaskot_symbol_step_in(BYTES, size_t *cursor, TELLS_ENTRY);
uint32_t __real_vindaskot_symbol_attribute_in(BYTES, size_t number, TELLS_RECORD);
uint32_t __real_vindaskot_symbol_attribute_named_in(BYTES, NAMED, TELLS_RECORD);
uint32_t __real_vindaskot_symbol_refactor_info_in(BYTES, size_t number, TELLS_RECORD);
uint32_t __real_vindaskot_field_read_in(BYTES, TELLS_ENTRY);
uint32_t __real_vindaskot_field_step_in(BYTES, size_t *cursor, TELLS_ENTRY);
uint32_t __real_vindaskot_field_attribute_in(BYTES, size_t number, TELLS_RECORD);
uint32_t __real_vindaskot_field_attribute_named_in(BYTES, NAMED, TELLS_RECORD);
uint32_t __real_vindaskot_attribute_read_in(BYTES, TELLS_RECORD);
uint32_t __real_vindaskot_refactor_read_in(BYTES, TELLS_RECORD);
uint32_t __real_vindaskot_chain_read_in(BYTES, uint64_t *answer);
uint32_t __real_vindaskot_chain_record_in(BYTES, size_t number, TELLS_RECORD);
uint32_t __real_vindaskot_index_build_in(BYTES, uint32_t *starts, size_t count, uint64_t *answer);
uint32_t __real_vindaskot_find_in(BYTES, NAMED, uint64_t *answer);
uint32_t __real_vindaskot_find_indexed_in(BYTES, INDEX, NAMED, uint64_t *answer);
#endif

#if FAULT == 49 || FAULT == 50 || FAULT == 51 || FAULT == 52 || FAULT == 53 || FAULT == 54 || FAULT == 63 ||           \
    FAULT == 70 || FAULT == 87
static uint32_t told_16(uint64_t *answer, uint64_t place, uint8_t byte)
{
    answer[0] = place;
    answer[1] = byte;
    return 16;
}
#endif

#if FAULT == 49 || FAULT == 50
/* The first of so many items from there on, entries that begin with their length, that has an end byte which is not 0:
 * the place of that byte, or 0. They lead to *at. */
static uint64_t wrong_item(const uint8_t *bytes, size_t len, size_t *at, size_t count)
{
    uint64_t slots[VINDASKOT_FIELD_SLOTS], answer[2];
    uint8_t guid[16];
    for (; count > 0 && *at < len && len - *at >= 4; count--) {
        const uint8_t *item = bytes + *at;
        if (__real_vindaskot_field_read_in(item, len - *at, true, slots, guid, answer) == 16)
            return *at + answer[0];
        *at += (size_t)item[0] | (size_t)item[1] << 8 | (size_t)item[2] << 16 | (size_t)item[3] << 24;
    }
    return 0;
}
#endif

#if FAULT == 62 || FAULT == 64 || FAULT == 77
/* The bytes with a 0 in one place, which a fault does not look at. Uploads that do not fit are not tried so. */
static uint8_t mended[70000];

static bool mend(const uint8_t *bytes, size_t bytes_len, uint64_t place)
{
    if (bytes_len > sizeof mended)
        return false;
    memmove(mended, bytes, bytes_len);
    mended[place] = 0;
    return true;
}
#endif

#if FAULT == 0 || FAULT > 90
/* What salvage takes, and the right ones. */
#define DAMAGED const uint8_t *bytes, size_t bytes_len
#define LENT uint8_t *out, size_t out_len, uint32_t *runs, size_t runs_len, uint64_t *answer
uint32_t __real_vindaskot_salvage(DAMAGED, LENT);
uint32_t __real_vindaskot_salvage_in(DAMAGED, bool checked, LENT);
#endif

#if FAULT == 0 || (FAULT > 90 && FAULT < 118) || FAULT == 132
/* What is made of an upload: bytes and slots so far, and where the last run ends. */
struct making {
    uint8_t *out;
    uint32_t *runs;
    uint64_t bytes, slots;
    size_t end;
};

static size_t claim_at(const uint8_t *bytes)
{
    return (size_t)bytes[0] | (size_t)bytes[1] << 8 | (size_t)bytes[2] << 16 | (size_t)bytes[3] << 24;
}

static void run(struct making *to, size_t start, size_t len, uint32_t number)
{
    uint32_t *slots = to->runs == NULL ? NULL : to->runs + to->slots;
    if (FAULT == 97 && to->slots > 0 && to->end == start) {
        if (slots != NULL)
            slots[(int)VINDASKOT_RUN_LENGTH - VINDASKOT_RUN_SLOTS] += (uint32_t)len;
    } else {
        if (slots != NULL) {
            slots[VINDASKOT_RUN_START] = (uint32_t)(FAULT == 102 ? to->bytes : FAULT == 103 ? start % 65536 : start);
            slots[VINDASKOT_RUN_LENGTH] = (uint32_t)len;
            slots[VINDASKOT_RUN_NUMBER] = number;
        }
        to->slots += VINDASKOT_RUN_SLOTS;
    }
    to->end = start + len;
}

/* A refused step from there on, of which so many bytes are left. */
static void drop(struct making *to, const uint8_t *bytes, size_t at, size_t len, size_t left, uint32_t number)
{
    size_t claim = left < 4 ? 0 : claim_at(bytes + at);
    bool zero = left >= 4 && claim == 0, beyond = claim > left, tail = left < 4;
    for (size_t i = 0; FAULT == 91 && i < len; i++)
        run(to, at + i, 1, number);
    if (FAULT == 91 || (FAULT == 100 && tail))
        return;
    len = FAULT == 92 && beyond ? claim : FAULT == 93 && zero ? 0 : FAULT == 101 && tail ? 4 : len;
    number = FAULT == 96 && zero ? 2 : FAULT == 99 && !tail && !zero && claim < 30 ? 4 : number;
    run(to, at, len, number);
}

static void keep(struct making *to, const uint8_t *from, size_t len, size_t unread)
{
    if (to->out != NULL) {
        memcpy(to->out + to->bytes, from, len);
        memset(to->out + to->bytes + len - unread, 0, FAULT == 107 ? unread : 0);
        if (FAULT == 132 && len > 4096)
            memset(to->out + to->bytes + 4096, 0, len - 4096);
    }
    to->bytes += len;
}

/* Salvage as it has to be, but for what a fault makes of it. */
static struct making made_of(const uint8_t *bytes, size_t bytes_len, bool checked, uint8_t *out, uint32_t *runs)
{
    struct making to = {.out = out, .runs = runs};
    uint64_t entry[VINDASKOT_SYMBOL_SLOTS], own[2];
    uint8_t guid[16];
    for (size_t at = 0, next; at < bytes_len; at = next) {
        size_t left = bytes_len - at, other = next = at;
        uint32_t status = vindaskot_symbol_step_in(bytes, bytes_len, checked, &next, entry, guid, own);
        bool zero = next == at;
        if (zero)
            next = FAULT == 104 ? at + 4 : bytes_len;
        bool strings = status == 3 && next - at == claim_at(bytes + at);
        if (status == VINDASKOT_DONE || (FAULT == 105 && strings)) {
            size_t unread = status == VINDASKOT_DONE ? (size_t)entry[VINDASKOT_SYMBOL_UNREAD] : 0;
            if (FAULT != 106 || next < bytes_len)
                keep(&to, bytes + at, next - at, unread);
            if (FAULT == 94 && at == 0)
                keep(&to, bytes, next, unread);
            continue;
        }
        if (FAULT == 98)
            status = vindaskot_symbol_step_in(bytes, bytes_len, !checked, &other, entry, guid, own);
        drop(&to, bytes, at, next - at, left, zero ? 10 : status);
    }
    return to;
}

static uint32_t told_6(uint64_t *answer, uint64_t needed, size_t lent)
{
    answer[0] = needed;
    answer[1] = lent;
    return 6;
}

static uint32_t salvage(const uint8_t *bytes, size_t bytes_len, bool checked, uint8_t *out, size_t out_len,
                        uint32_t *runs, size_t runs_len, uint64_t *answer)
{
    size_t limit = FAULT == 110 ? VINDASKOT_LIMIT - 1 : FAULT == 111 ? VINDASKOT_LIMIT + 1 : VINDASKOT_LIMIT;
    struct making need = made_of(bytes, bytes_len, checked, NULL, NULL);
    bool few = need.slots > runs_len, little = (FAULT == 112 ? bytes_len : need.bytes) > out_len;
    if (bytes_len > limit && !(FAULT == 109 && (few || little))) {
        answer[0] = VINDASKOT_LIMIT;
        answer[1] = bytes_len;
        if (FAULT == 117 && out_len > 0)
            out[0] = bytes[0];
        return 5;
    }
    if (FAULT == 108 && few)
        return told_6(answer, need.slots, runs_len);
    if (FAULT == 114 && !little && need.bytes > 0)
        out[0] = bytes[0];
    if (FAULT == 115 && !few && need.slots > 0)
        runs[0] = 0;
    if (little)
        return told_6(answer, FAULT == 112 ? bytes_len : need.bytes, out_len);
    if (few)
        return told_6(answer, FAULT == 113 ? need.slots / VINDASKOT_RUN_SLOTS : need.slots, runs_len);
    struct making made = made_of(bytes, bytes_len, checked, out, runs);
    for (uint64_t i = 0, k = made.slots; FAULT == 95 && i + VINDASKOT_RUN_SLOTS < k; i += VINDASKOT_RUN_SLOTS) {
        uint32_t other[VINDASKOT_RUN_SLOTS];
        k -= VINDASKOT_RUN_SLOTS;
        memcpy(other, runs + i, sizeof other);
        memmove(runs + i, runs + k, sizeof other);
        memcpy(runs + k, other, sizeof other);
    }
    answer[0] = made.bytes;
    answer[1] = FAULT == 116 ? made.slots / VINDASKOT_RUN_SLOTS : made.slots;
    return VINDASKOT_DONE;
}

/* One of the two functions, so. */
#define SALVAGES(function) SALVAGES_##function
#define SALVAGES_vindaskot_salvage                                                                                     \
    uint32_t __wrap_vindaskot_salvage(DAMAGED, LENT)                                                                   \
    {                                                                                                                  \
        return salvage(bytes, bytes_len, false, out, out_len, runs, runs_len, answer);                                 \
    }
#define SALVAGES_vindaskot_salvage_in                                                                                  \
    uint32_t __wrap_vindaskot_salvage_in(DAMAGED, bool checked, LENT)                                                  \
    {                                                                                                                  \
        return salvage(bytes, bytes_len, checked, out, out_len, runs, runs_len, answer);                               \
    }
#endif

#if FAULT > 132
/* What room takes, and the right one. */
#define LENGTH size_t length, uint64_t *answer
uint32_t __real_vindaskot_room(LENGTH);
#endif

#if FAULT == 0 || FAULT > 168
/* What the calls over data types take. */
#define ROOT const uint8_t *bytes, size_t bytes_len, bool checked
#define TELLS_TYPE uint64_t *slots, uint8_t *guid, uint64_t *answer
#define TELLS_PART uint64_t *slots, uint64_t *answer
#define FROM(first, last) (FAULT >= (first) && FAULT <= (last))

/* A fault is of one call, and the others are not asked for. */
#define UNASKED __attribute__((unused))

/* A tree that is being read: what is asked of it, and what was found so far. */
struct tree {
    bool checked;
    uint64_t wanted; /* number of the member whose record is to be told; the root's where it is NOBODY */
    uint64_t *slots; /* its record */
    uint8_t *guid;
    uint64_t way[19]; /* places of the entries that are open, by their depth */
    uint64_t *path;   /* its path */
    uint64_t *listed; /* three slots a member, of so many members, or NULL */
    uint64_t most;
    uint64_t members;
    size_t all; /* bytes of the root */
    uint64_t root_offset;
    uint64_t answer[2]; /* figures of a refusal */
};

#define NOBODY UINT64_MAX

static uint64_t at_place(const uint8_t *e, size_t at, size_t width)
{
    uint64_t n = 0;
    while (width-- > 0)
        n = n << 8 | e[at + width];
    return n;
}

static uint32_t stop(struct tree *t, uint32_t number, uint64_t expected, uint64_t got)
{
    t->answer[0] = expected;
    t->answer[1] = got;
    return number;
}

/* A record of an attribute, in an entry of so many bytes. */
static uint32_t attribute(struct tree *t, const uint8_t *e, size_t len, size_t at, bool looks, size_t place,
                          uint64_t *slots)
{
    size_t left = len - at;
    if (left < 4)
        return stop(t, 2, 4, left);
    size_t name = e[at], value = e[at + 1], end = at + name + value + 4;
    if (end > len)
        return stop(t, 1, name + value + 4, left);
    slots[VINDASKOT_ATTRIBUTE_NAME_AT] = at + 2;
    slots[VINDASKOT_ATTRIBUTE_NAME_LEN] = name;
    slots[VINDASKOT_ATTRIBUTE_VALUE_AT] = at + name + 3;
    slots[VINDASKOT_ATTRIBUTE_VALUE_LEN] = value;
    slots[VINDASKOT_ATTRIBUTE_NEXT_AT] = end;
    if (looks && e[at + name + 2] != 0)
        return stop(t, 16, place + at + name + 2, e[at + name + 2]);
    if (looks && e[end - 1] != 0)
        return stop(t, 16, place + end - 1, e[end - 1]);
    return VINDASKOT_DONE;
}

/* Sub-items or methods that are skipped. */
static size_t skipped(const uint8_t *e, size_t len, size_t at, uint64_t count)
{
    for (; count > 0 && at <= len && len - at >= 4; count--)
        at += (size_t)at_place(e, at, 4);
    return at;
}

/* The sections behind the sub-items. */
static uint32_t sections(struct tree *t, const uint8_t *e, size_t len, size_t at, size_t place, size_t depth,
                         uint64_t *slots, uint8_t *guid)
{
    uint64_t flags = at_place(e, 28, 4), size = at_place(e, 16, 4), own[VINDASKOT_ATTRIBUTE_SLOTS];
    bool looks = t->checked && !(FAULT == 248 && depth > 1);
    memset(guid, 0, 16);
    if ((flags & VINDASKOT_TYPE_FLAG_TYPE_GUID) != 0 && at <= len && len - at >= 16) {
        slots[VINDASKOT_TYPE_HAS_GUID] = 1;
        memcpy(guid, e + at, 16);
        at += 16;
    }
    if ((flags & VINDASKOT_TYPE_FLAG_COPY_MASK) != 0)
        at = at <= len && size < len - at ? at + (size_t)size : len;
    if ((flags & VINDASKOT_TYPE_FLAG_METHOD_INFOS) != 0 && at <= len && len - at >= 2)
        at = skipped(e, len, at + 2, at_place(e, at, 2));
    slots[VINDASKOT_TYPE_ATTRIBUTES_AT] = at < len ? at : len;
    if ((flags & VINDASKOT_TYPE_FLAG_ATTRIBUTES) == 0 || at > len || len - at < 2)
        return VINDASKOT_DONE;
    uint64_t count = at_place(e, at, 2);
    at += 2;
    slots[VINDASKOT_TYPE_ATTRIBUTES_AT] = at;
    for (uint64_t i = 0; i < count && (i == 0 || at < len); i++) {
        uint32_t status = attribute(t, e, len, at, looks, FAULT == 244 ? place : 0, own);
        if (FAULT == 246 && depth > 1 && (status == 1 || status == 2))
            return VINDASKOT_DONE;
        if (status != VINDASKOT_DONE)
            return status;
        at = (size_t)own[VINDASKOT_ATTRIBUTE_NEXT_AT];
        slots[VINDASKOT_TYPE_ATTRIBUTE_COUNT]++;
    }
    return VINDASKOT_DONE;
}

static uint32_t entry(struct tree *t, const uint8_t *e, size_t len, size_t place, size_t depth, uint64_t offset);

/* What may not be at a sub-item of which so many bytes are left, and its reading. */
static uint32_t item(struct tree *t, const uint8_t *e, size_t left, size_t place, size_t depth, uint64_t above,
                     size_t *claim)
{
    const size_t deepest = FROM(200, 206) ? 17 : FROM(207, 213) ? 15 : 16;
    if (FAULT == 242 && left < 4)
        return stop(t, 2, 4, left);
    if (depth > deepest)
        return FAULT == 243 ? stop(t, 15, 17, 16) : FAULT == 277 ? stop(t, 15, 16, depth - 1) : stop(t, 15, 16, 17);
    if (left < 4)
        return stop(t, 2, FAULT == 278 ? 42 : 4, FAULT == 279 ? 0 : left);
    *claim = (size_t)at_place(e, 0, 4);
    if (FAULT == 241 && *claim < 42)
        return stop(t, 4, 42, *claim);
    if (*claim > (FAULT == 237 ? t->all - place : FAULT == 280 ? left + 1 : left))
        return FAULT == 238 ? stop(t, 3, left, *claim) : stop(t, 3, *claim, FAULT == 281 ? t->all - place : left);
    if (*claim < (FAULT == 240 ? 45 : 42) || (FAULT == 263 && *claim == 45))
        return stop(t, FAULT == 239 ? 2 : 4, FAULT == 282 ? 45 : 42, *claim);
    uint64_t own = at_place(e, 20, 4);
    uint64_t offset = FAULT == 180 || FAULT == 181   ? own
                      : FAULT == 184 || FAULT == 185 ? (uint32_t)(above + own)
                      : FAULT == 272                 ? above + (uint64_t)(int64_t)(int32_t)(uint32_t)own
                                                     : above + own;
    return entry(t, e, FAULT == 275 ? left : *claim, place, depth, offset);
}

/* A member is listed, or told where it is the one asked for. */
static void meet(struct tree *t, size_t place, size_t depth, uint64_t offset)
{
    const uint64_t number = t->members++;
    const uint64_t told = FAULT == 171 ? place - t->way[depth - 1] : FAULT == 271 ? place % 65536 : place;
    const uint64_t deep = FAULT == 174 ? depth + 1 : FAULT == 283 ? depth - 1 : depth;
    if (t->listed != NULL && number < t->most) {
        uint64_t *to = t->listed + VINDASKOT_MEMBER_SLOTS * number;
        to[VINDASKOT_MEMBER_PLACE] = told;
        to[VINDASKOT_MEMBER_DEPTH] = deep;
        to[VINDASKOT_MEMBER_OFFSET] = FAULT == 182 ? offset + t->root_offset : offset;
        if (FAULT == 176 && number == 0)
            t->members++, memcpy(to + VINDASKOT_MEMBER_SLOTS, to, VINDASKOT_MEMBER_SLOTS * sizeof *to);
    }
    if (number != t->wanted || t->path == NULL)
        return;
    t->path[VINDASKOT_PATH_DEPTH] = FAULT == 175 ? depth - 1 : FAULT == 284 ? depth + 1 : depth;
    t->path[VINDASKOT_PATH_OFFSET] = FAULT == 183 ? offset + t->root_offset : offset;
    for (size_t i = 2; i <= 16; i++) {
        uint64_t *to = &t->path[VINDASKOT_PATH_PLACES + i - 2];
        if (i > depth)
            *to = FAULT == 227 ? *to : FAULT == 285 ? place : 0;
        else
            *to = FAULT == 172   ? t->way[i] - t->way[i - 1]
                  : FAULT == 266 ? t->way[depth + 2 - i]
                  : FAULT == 267 ? (i == depth ? 0 : t->way[i])
                  : FAULT == 268 ? t->way[i - 1]
                                 : t->way[i];
    }
}

/* An entry's own bytes. */
static uint32_t entry(struct tree *t, const uint8_t *e, size_t len, size_t place, size_t depth, uint64_t offset)
{
    uint64_t own[VINDASKOT_TYPE_SLOTS] = {0};
    uint8_t own_guid[16] = {0};
    const uint64_t number = depth == 1 ? NOBODY : t->members;
    const bool children_first = FAULT == 169 || FAULT == 170;
    size_t at = 42;
    uint32_t status;
    for (size_t i = 0; i < 3; i++) {
        own[VINDASKOT_TYPE_NAME_AT + 2 * i] = at;
        own[VINDASKOT_TYPE_NAME_LEN + 2 * i] = at_place(e, 32 + 2 * i, 2);
        at += (size_t)own[VINDASKOT_TYPE_NAME_LEN + 2 * i] + 1;
    }
    uint64_t arrays = at_place(e, 38, FAULT == 286 ? 1 : 2), items = at_place(e, 40, FAULT == 270 ? 1 : 2);
    size_t next = at + 8 * (size_t)arrays;
    if (at > len)
        return stop(t, 3, FAULT == 245 ? place + at : at, FAULT == 245 ? place + len : len);
    if (FAULT == 250 && next > len)
        return stop(t, 3, next, len);
    for (size_t i = 0; t->checked && !(FAULT == 247 && depth > 1) && i < 3; i++) {
        size_t end = (size_t)(own[VINDASKOT_TYPE_NAME_AT + 2 * i] + own[VINDASKOT_TYPE_NAME_LEN + 2 * i]);
        if (e[end] != 0 && !(FAULT == 287 && i == 2))
            return stop(t, 16, FAULT == 244 ? place + end : end, e[end]);
    }
    if (next > (FAULT == 235 ? len + 7 : FAULT == 234 ? t->all - place : len))
        return FAULT == 288 ? stop(t, 3, 8 * arrays, len - at) : stop(t, 3, next, len);
    if (FAULT == 235 && next > len)
        next = len;
    t->way[depth] = place;
    if (depth > 1 && !children_first)
        meet(t, place, depth, offset);
    if (FAULT == 249) {
        status = sections(t, e, len, skipped(e, len, next, items), place, depth, own, own_guid);
        if (status != VINDASKOT_DONE)
            return status;
        own[VINDASKOT_TYPE_ATTRIBUTE_COUNT] = own[VINDASKOT_TYPE_HAS_GUID] = 0;
    }
    const size_t first = next;
    for (uint64_t i = 0; i < items; i++) {
        size_t claim = 0;
        if (FAULT == 236 && len - next < 4)
            break;
        if (FAULT == 260 && depth > 1) {
            next = skipped(e, len, next, items);
            break;
        }
        status = item(t, e + next, len - next, place + next, depth + 1, depth == 1 ? 0 : offset, &claim);
        if ((FAULT == 178 || FAULT == 179) && status != VINDASKOT_DONE && i == 0 && claim >= 42 && claim <= len - next)
            status = VINDASKOT_DONE;
        if (status != VINDASKOT_DONE)
            return status;
        next += claim;
    }
    t->way[depth] = place;
    if (depth > 1 && children_first)
        meet(t, place, depth, offset);
    status = sections(t, e, len, FAULT == 265 ? first : next, place, depth, own, own_guid);
    if (status != VINDASKOT_DONE)
        return status;
    for (size_t i = 0; i < 8; i++)
        own[VINDASKOT_TYPE_LENGTH + i] = i == 0 ? len : at_place(e, 4 * i, 4);
    own[VINDASKOT_TYPE_ARRAYS_AT] = FAULT == 233 && arrays == 0 ? 0 : at;
    own[VINDASKOT_TYPE_ARRAY_COUNT] = arrays;
    own[VINDASKOT_TYPE_MEMBER_COUNT] = t->members - (depth == 1 ? 0 : number + 1);
    own[VINDASKOT_TYPE_ITEM_COUNT] = FAULT == 257 ? own[VINDASKOT_TYPE_MEMBER_COUNT] : items;
    if (FAULT == 256)
        own[VINDASKOT_TYPE_MEMBER_COUNT] = items;
    if (FAULT == 308)
        own[VINDASKOT_TYPE_MEMBER_COUNT] %= 65536;
    if (FAULT == 258 && depth > 1)
        own[VINDASKOT_TYPE_MEMBER_COUNT] = t->members;
    if (FAULT == 173 && depth > 1)
        for (size_t i = 0; i < 3; i++)
            own[VINDASKOT_TYPE_NAME_AT + 2 * i] += place;
    if (t->slots != NULL && number == t->wanted) {
        memcpy(t->slots, own, sizeof own);
        if (t->guid != NULL && !((FAULT == 229 || FAULT == 297) && own[VINDASKOT_TYPE_HAS_GUID] == 0))
            memcpy(t->guid, own_guid, 16);
    }
    if (FAULT == 228 && depth == 1 && t->guid != NULL && t->wanted < t->members)
        memcpy(t->guid, own_guid, 16);
    return VINDASKOT_DONE;
}

/* A mode that a fault passes over. */
static bool mode_of(bool checked)
{
    return FROM(186, 192) ? false : FROM(193, 199) ? true : checked;
}

/* The root, read directly. */
static uint32_t root(struct tree *t, const uint8_t *bytes, size_t bytes_len, bool checked)
{
    if (FAULT == 306 && bytes_len > 0)
        (void)*(const volatile uint8_t *)(bytes + bytes_len);
    if (FAULT == 307 && bytes_len > 0)
        (void)*(const volatile uint8_t *)(bytes - 1);
    const size_t limit = FAULT == 264 ? VINDASKOT_LIMIT - 1 : FAULT == 289 ? VINDASKOT_LIMIT + 1 : VINDASKOT_LIMIT;
    t->checked = mode_of(checked);
    if (bytes_len > limit)
        return stop(t, 5, VINDASKOT_LIMIT, bytes_len);
    if (bytes_len < 42)
        return stop(t, 2, 42, bytes_len);
    size_t claim = (size_t)at_place(bytes, 0, 4);
    if (claim > bytes_len)
        return stop(t, 3, claim, bytes_len);
    if (claim < 42)
        return stop(t, 4, 42, claim);
    t->all = FAULT == 276 ? bytes_len : claim;
    t->root_offset = at_place(bytes, 20, 4);
    return entry(t, bytes, t->all, 0, 1, 0);
}

/* What is told where all went well, or the figures of a refusal. */
static uint32_t tell(const struct tree *t, uint32_t status, uint64_t *answer)
{
    if (FAULT == 304 && status == VINDASKOT_DONE) {
        answer[0] = 0;
        return status;
    }
    answer[0] = status == VINDASKOT_DONE ? 0 : t->answer[0];
    answer[1] = status == VINDASKOT_DONE ? 0 : t->answer[1];
    return status;
}

static uint32_t past(uint64_t count, uint64_t number, uint64_t *answer)
{
    answer[0] = FAULT == 290 ? number : count;
    answer[1] = FAULT == 290 ? count : number;
    return 14;
}

UNASKED static uint32_t type_read(ROOT, TELLS_TYPE)
{
    uint64_t own[VINDASKOT_TYPE_SLOTS];
    uint8_t own_guid[16];
    struct tree t = {.wanted = NOBODY, .slots = own, .guid = own_guid};
    memcpy(own_guid, guid, FAULT == 229 ? 16 : 0);
    uint32_t status = root(&t, bytes, bytes_len, checked);
    if (status == VINDASKOT_DONE || FAULT == 221)
        memcpy(slots, own, sizeof own);
    if (status == VINDASKOT_DONE)
        memcpy(guid, own_guid, 16);
    return tell(&t, status, answer);
}

UNASKED static uint32_t type_step(ROOT, size_t *cursor, TELLS_TYPE)
{
    const size_t at = *cursor, left = at < bytes_len ? bytes_len - at : 0;
    uint64_t own[VINDASKOT_TYPE_SLOTS];
    uint8_t own_guid[16];
    struct tree t = {.wanted = NOBODY, .slots = own, .guid = own_guid};
    uint32_t status;
    t.checked = mode_of(checked);
    if (left == 0) {
        answer[0] = answer[1] = 0;
        return VINDASKOT_FINISHED;
    }
    *cursor = bytes_len;
    if (bytes_len > VINDASKOT_LIMIT)
        return tell(&t, stop(&t, 5, VINDASKOT_LIMIT, bytes_len), answer);
    if (left < 4)
        return tell(&t, stop(&t, 2, FAULT == 291 ? 4 : at + 4, FAULT == 291 ? left : bytes_len), answer);
    size_t claim = (size_t)at_place(bytes, at, 4);
    if (claim > left)
        return tell(&t, stop(&t, 3, claim, left), answer);
    *cursor = FAULT == 254 && claim == 0 ? at + 4 : at + claim;
    if (claim < 42)
        return tell(&t, stop(&t, FAULT == 253 ? 4 : 2, 42, claim), answer);
    t.all = claim;
    status = entry(&t, bytes + at, claim, 0, 1, 0);
    if (FAULT == 251 && status != VINDASKOT_DONE)
        *cursor = bytes_len;
    if (FAULT == 252 && status == 15)
        *cursor = at;
    if (FAULT == 222 && status != VINDASKOT_DONE)
        memset(guid, 0, 16);
    if (status == VINDASKOT_DONE) {
        memcpy(slots, own, sizeof own);
        memcpy(guid, own_guid, 16);
        for (size_t i = 0; FAULT == 255 && i < 3; i++)
            slots[VINDASKOT_TYPE_NAME_AT + 2 * i] += at;
    }
    return tell(&t, status, answer);
}

UNASKED static uint32_t type_array(ROOT, size_t number, TELLS_PART)
{
    uint64_t own[VINDASKOT_TYPE_SLOTS];
    struct tree t = {.wanted = NOBODY, .slots = own};
    uint32_t status = root(&t, bytes, bytes_len, checked);
    if (FAULT == 214 && status != 5 && bytes_len >= 42 && number >= at_place(bytes, 38, 2))
        return past(at_place(bytes, 38, 2), number, answer);
    if (status != VINDASKOT_DONE)
        return tell(&t, status, answer);
    uint64_t count = own[VINDASKOT_TYPE_ARRAY_COUNT];
    if (number >= count)
        return past(FAULT == 292 ? count - 1 : count, number, answer);
    size_t at = (size_t)own[VINDASKOT_TYPE_ARRAYS_AT] + 8 * (FAULT == 232 ? count - 1 - number : number);
    uint64_t lower = at_place(bytes, at, 4), elements = at_place(bytes, at + 4, 4);
    if (FAULT == 231)
        lower = (uint64_t)(int64_t)(int32_t)(uint32_t)lower;
    slots[VINDASKOT_ARRAY_LOWER_BOUND] = FAULT == 230 ? elements : lower;
    slots[VINDASKOT_ARRAY_ELEMENTS] = FAULT == 230 ? lower : FAULT == 293 ? lower + elements - 1 : elements;
    if (FAULT == 294)
        slots[VINDASKOT_ARRAY_SLOTS] = 0;
    return tell(&t, VINDASKOT_DONE, answer);
}

/* The first attribute that is asked for, by its number or by its name. */
UNASKED static uint32_t of_type(ROOT, size_t number, const uint8_t *name, size_t name_len, bool by_name, TELLS_PART)
{
    uint64_t own[VINDASKOT_TYPE_SLOTS] = {0}, found[VINDASKOT_ATTRIBUTE_SLOTS], best[VINDASKOT_ATTRIBUTE_SLOTS];
    struct tree t = {.wanted = FAULT == 274 ? 0 : NOBODY, .slots = own};
    uint32_t status = root(&t, bytes, bytes_len, checked);
    bool any = false;
    if (FAULT == 215 && !by_name && status != VINDASKOT_DONE && number == SIZE_MAX && status != 5)
        return past(0, number, answer);
    if (FAULT == 217 && by_name && (status == 15 || status == 4) && name_len > 0) {
        answer[0] = answer[1] = 0;
        return 13;
    }
    if (status != VINDASKOT_DONE)
        return tell(&t, status, answer);
    uint64_t count = own[VINDASKOT_TYPE_ATTRIBUTE_COUNT];
    size_t at = (size_t)own[VINDASKOT_TYPE_ATTRIBUTES_AT];
    if (!by_name && number >= count)
        return past(count, number, answer);
    for (uint64_t i = 0; i < count; i++) {
        attribute(&t, bytes, bytes_len, at, false, 0, found);
        at = (size_t)found[VINDASKOT_ATTRIBUTE_NEXT_AT];
        bool is = by_name ? (found[VINDASKOT_ATTRIBUTE_NAME_LEN] == name_len ||
                             (FAULT == 295 && found[VINDASKOT_ATTRIBUTE_NAME_LEN] > name_len)) &&
                                (name_len == 0 ||
                                 memcmp(bytes + found[VINDASKOT_ATTRIBUTE_NAME_AT], name, name_len) == 0)
                          : i == number;
        if (is && (!any || FAULT == 273)) {
            memcpy(best, found, sizeof best);
            any = true;
        }
    }
    if (!any) {
        answer[0] = answer[1] = 0;
        return 13;
    }
    if (FAULT == 296)
        best[VINDASKOT_ATTRIBUTE_NEXT_AT] -= best[VINDASKOT_ATTRIBUTE_NAME_AT] - 2;
    memcpy(slots, best, sizeof best);
    return tell(&t, VINDASKOT_DONE, answer);
}

UNASKED static uint32_t type_attribute(ROOT, size_t number, TELLS_PART)
{
    return of_type(bytes, bytes_len, checked, number, NULL, 0, false, slots, answer);
}

UNASKED static uint32_t type_attribute_named(ROOT, const uint8_t *name, size_t name_len, TELLS_PART)
{
    return of_type(bytes, bytes_len, checked, 0, name, name_len, true, slots, answer);
}

UNASKED static uint32_t type_member(ROOT, size_t number, uint64_t *slots, uint8_t *guid, uint64_t *path,
                                    uint64_t *answer)
{
    uint64_t own[VINDASKOT_TYPE_SLOTS] = {0}, own_path[VINDASKOT_PATH_SLOTS] = {0};
    uint8_t own_guid[16] = {0};
    struct tree t = {.slots = own, .guid = own_guid, .path = own_path};
    t.wanted = FAULT == 259 ? number - 1 : FAULT == 269 ? number % 65536 : number;
    memcpy(own_path, path, FAULT == 227 ? sizeof own_path : 0);
    memcpy(own_guid, guid, FAULT == 297 ? 16 : 0);
    uint32_t status = root(&t, bytes, bytes_len, checked);
    if (FAULT == 216 && status != VINDASKOT_DONE && number == SIZE_MAX && t.members > 0)
        return past(t.members, number, answer);
    if (status != VINDASKOT_DONE)
        return tell(&t, status, answer);
    if (t.wanted >= t.members) {
        if (FAULT == 223)
            path[VINDASKOT_PATH_DEPTH] = 0;
        return past(FAULT == 298 ? t.members + 1 : t.members, FAULT == 269 ? t.wanted : number, answer);
    }
    if (FAULT == 305)
        own_path[VINDASKOT_PATH_OFFSET] = own[VINDASKOT_TYPE_OFFSET] + (own_path[VINDASKOT_PATH_DEPTH] > 2);
    memcpy(slots, own, sizeof own);
    memcpy(guid, own_guid, 16);
    memcpy(path, own_path, sizeof own_path);
    return tell(&t, VINDASKOT_DONE, answer);
}

/* The listed members of one depth before those of the next, or of a parent the last first. */
UNASKED static void rearrange(uint64_t *slots, uint64_t count)
{
    uint64_t other[VINDASKOT_MEMBER_SLOTS];
    for (uint64_t i = 1; i < count; i++)
        for (uint64_t k = i; k > 0; k--) {
            uint64_t *one = slots + VINDASKOT_MEMBER_SLOTS * (k - 1), *two = one + VINDASKOT_MEMBER_SLOTS;
            bool later = FAULT == 299 ? one[VINDASKOT_MEMBER_DEPTH] > two[VINDASKOT_MEMBER_DEPTH]
                                      : one[VINDASKOT_MEMBER_OFFSET] > two[VINDASKOT_MEMBER_OFFSET];
            if (!later)
                break;
            memcpy(other, one, sizeof other);
            memcpy(one, two, sizeof other);
            memcpy(two, other, sizeof other);
        }
}

UNASKED static uint32_t type_members(ROOT, uint64_t *slots, size_t slots_len, uint64_t *answer)
{
    struct tree t = {.wanted = NOBODY};
    uint32_t status = root(&t, bytes, bytes_len, checked);
    const uint64_t count = t.members + (FAULT == 176 && t.members > 0) - (FAULT == 177 && t.members > 1);
    const uint64_t needed = VINDASKOT_MEMBER_SLOTS * (FAULT == 309 ? count % 65536 : count);
    if (FAULT == 218 && status != VINDASKOT_DONE && status != 5 && needed > slots_len)
        status = VINDASKOT_DONE;
    if (FAULT == 220 && status != VINDASKOT_DONE && slots_len > 0)
        slots[0] = 0;
    if (status != VINDASKOT_DONE)
        return tell(&t, status, answer);
    if (needed > slots_len) {
        if (FAULT == 219 && slots_len > 0)
            slots[0] = bytes_len;
        answer[0] = FAULT == 224 ? count : needed;
        answer[1] = FAULT == 225 ? slots_len / VINDASKOT_MEMBER_SLOTS : slots_len;
        return FAULT == 300 ? 14 : 6;
    }
    if (FAULT == 301 && needed == slots_len && needed > 0) {
        answer[0] = needed + VINDASKOT_MEMBER_SLOTS;
        answer[1] = slots_len;
        return 6;
    }
    struct tree again = {.wanted = NOBODY, .listed = slots, .most = needed / VINDASKOT_MEMBER_SLOTS};
    root(&again, bytes, bytes_len, checked);
    if ((FAULT == 299 || FAULT == 302) && count < 1000)
        rearrange(slots, count);
    if (FAULT == 261 && slots_len > needed)
        slots[needed] = 0;
    if (FAULT == 262)
        memset(slots + needed, 0, (slots_len - (size_t)needed) * sizeof *slots);
    answer[0] = FAULT == 226 ? count : needed;
    answer[1] = FAULT == 303 ? slots_len : 0;
    return VINDASKOT_DONE;
}

/* One of the seven functions, so. */
#define STRUCTURES(function) STRUCTURES_##function
#define STRUCTURES_vindaskot_type_read_in                                                                              \
    uint32_t __wrap_vindaskot_type_read_in(ROOT, TELLS_TYPE)                                                           \
    {                                                                                                                  \
        return type_read(bytes, bytes_len, checked, slots, guid, answer);                                              \
    }
#define STRUCTURES_vindaskot_type_step_in                                                                              \
    uint32_t __wrap_vindaskot_type_step_in(ROOT, size_t *cursor, TELLS_TYPE)                                           \
    {                                                                                                                  \
        return type_step(bytes, bytes_len, checked, cursor, slots, guid, answer);                                      \
    }
#define STRUCTURES_vindaskot_type_array_in                                                                             \
    uint32_t __wrap_vindaskot_type_array_in(ROOT, size_t number, TELLS_PART)                                           \
    {                                                                                                                  \
        return type_array(bytes, bytes_len, checked, number, slots, answer);                                           \
    }
#define STRUCTURES_vindaskot_type_attribute_in                                                                         \
    uint32_t __wrap_vindaskot_type_attribute_in(ROOT, size_t number, TELLS_PART)                                       \
    {                                                                                                                  \
        return type_attribute(bytes, bytes_len, checked, number, slots, answer);                                       \
    }
#define STRUCTURES_vindaskot_type_attribute_named_in                                                                   \
    uint32_t __wrap_vindaskot_type_attribute_named_in(ROOT, const uint8_t *name, size_t name_len, TELLS_PART)          \
    {                                                                                                                  \
        return type_attribute_named(bytes, bytes_len, checked, name, name_len, slots, answer);                         \
    }
#define STRUCTURES_vindaskot_type_member_in                                                                            \
    uint32_t __wrap_vindaskot_type_member_in(ROOT, size_t number, uint64_t *slots, uint8_t *guid, uint64_t *path,      \
                                             uint64_t *answer)                                                         \
    {                                                                                                                  \
        return type_member(bytes, bytes_len, checked, number, slots, guid, path, answer);                              \
    }
#define STRUCTURES_vindaskot_type_members_in                                                                           \
    uint32_t __wrap_vindaskot_type_members_in(ROOT, uint64_t *slots, size_t slots_len, uint64_t *answer)               \
    {                                                                                                                  \
        return type_members(bytes, bytes_len, checked, slots, slots_len, answer);                                      \
    }
#endif

#if FAULT == 1 /* a writer changes the byte after what it wrote */
uint32_t __real_vindaskot_attribute_write(const uint8_t *, size_t, const uint8_t *, size_t, uint8_t *, size_t,
                                          uint64_t *);
uint32_t __wrap_vindaskot_attribute_write(const uint8_t *name, size_t name_len, const uint8_t *value, size_t value_len,
                                          uint8_t *out, size_t out_len, uint64_t *answer)
{
    uint32_t status = __real_vindaskot_attribute_write(name, name_len, value, value_len, out, out_len, answer);
    if (status == VINDASKOT_DONE && answer[0] < out_len)
        out[answer[0]] = 0;
    return status;
}

#elif FAULT == 2 /* a refused decode has begun to write */
uint32_t __real_vindaskot_decode(const uint8_t *, size_t, uint8_t *, size_t, uint64_t *);
uint32_t __wrap_vindaskot_decode(const uint8_t *src, size_t src_len, uint8_t *out, size_t out_len, uint64_t *answer)
{
    uint32_t status = __real_vindaskot_decode(src, src_len, out, out_len, answer);
    if (status == 6 && out_len > 0)
        out[0] = src[0];
    return status;
}

#elif FAULT == 3 /* a refused read changes a slot */
uint32_t __real_vindaskot_symbol_read_2(const uint8_t *, size_t, uint64_t *, uint8_t *, uint64_t *);
uint32_t __wrap_vindaskot_symbol_read_2(const uint8_t *bytes, size_t bytes_len, uint64_t *slots, uint8_t *guid,
                                        uint64_t *answer)
{
    uint32_t status = __real_vindaskot_symbol_read_2(bytes, bytes_len, slots, guid, answer);
    if (status != VINDASKOT_DONE)
        slots[VINDASKOT_SYMBOL_UNREAD] = 0;
    return status;
}

#elif FAULT == 4 /* a field has a slot too many */
uint32_t __real_vindaskot_field_read(const uint8_t *, size_t, uint64_t *, uint8_t *, uint64_t *);
uint32_t __wrap_vindaskot_field_read(const uint8_t *bytes, size_t bytes_len, uint64_t *slots, uint8_t *guid,
                                     uint64_t *answer)
{
    uint32_t status = __real_vindaskot_field_read(bytes, bytes_len, slots, guid, answer);
    if (status == VINDASKOT_DONE)
        slots[VINDASKOT_FIELD_SLOTS] = 0;
    return status;
}

#elif FAULT == 5 /* a reader looks at the byte behind its bytes */
uint32_t __real_vindaskot_attribute_read(const uint8_t *, size_t, uint64_t *, uint64_t *);
uint32_t __wrap_vindaskot_attribute_read(const uint8_t *bytes, size_t bytes_len, uint64_t *slots, uint64_t *answer)
{
    if (bytes_len > 0)
        (void)*(const volatile uint8_t *)(bytes + bytes_len);
    return __real_vindaskot_attribute_read(bytes, bytes_len, slots, answer);
}

#elif FAULT == 6 /* a reader looks at the byte before its bytes */
uint32_t __real_vindaskot_refactor_read(const uint8_t *, size_t, uint64_t *, uint64_t *);
uint32_t __wrap_vindaskot_refactor_read(const uint8_t *bytes, size_t bytes_len, uint64_t *slots, uint64_t *answer)
{
    if (bytes_len > 0)
        (void)*(const volatile uint8_t *)(bytes - 1);
    return __real_vindaskot_refactor_read(bytes, bytes_len, slots, answer);
}

#elif FAULT == 7 /* a claim beyond the data leaves the cursor where it was */
uint32_t __real_vindaskot_symbol_step_2(const uint8_t *, size_t, size_t *, uint64_t *, uint8_t *, uint64_t *);
uint32_t __wrap_vindaskot_symbol_step_2(const uint8_t *bytes, size_t bytes_len, size_t *cursor, uint64_t *slots,
                                        uint8_t *guid, uint64_t *answer)
{
    size_t before = *cursor;
    uint32_t status = __real_vindaskot_symbol_step_2(bytes, bytes_len, cursor, slots, guid, answer);
    if (status == 3 && answer[0] > bytes_len)
        *cursor = before;
    return status;
}

#elif FAULT == 8 /* a walk counts finding the end as a step */
uint32_t __real_vindaskot_walk(const uint8_t *, size_t, size_t, size_t *, size_t *, uint64_t *);
uint32_t __wrap_vindaskot_walk(const uint8_t *bytes, size_t bytes_len, size_t allowed, size_t *cursor, size_t *steps,
                               uint64_t *answer)
{
    uint32_t status = __real_vindaskot_walk(bytes, bytes_len, allowed, cursor, steps, answer);
    if (status == VINDASKOT_FINISHED)
        ++*steps;
    return status;
}

#elif FAULT == 9 /* an answer is left unset */
uint32_t __real_vindaskot_index_build(const uint8_t *, size_t, uint32_t *, size_t, uint64_t *);
uint32_t __wrap_vindaskot_index_build(const uint8_t *bytes, size_t bytes_len, uint32_t *slots, size_t slots_len,
                                      uint64_t *answer)
{
    uint64_t own[2];
    uint32_t status = __real_vindaskot_index_build(bytes, bytes_len, slots, slots_len, own);
    answer[0] = own[0];
    return status;
}

#elif FAULT == 10 /* finding through an index passes over the first slot */
uint32_t __real_vindaskot_find_indexed(const uint8_t *, size_t, const uint32_t *, size_t, const uint8_t *, size_t,
                                       uint64_t *);
uint32_t __wrap_vindaskot_find_indexed(const uint8_t *bytes, size_t bytes_len, const uint32_t *slots, size_t slots_len,
                                       const uint8_t *name, size_t name_len, uint64_t *answer)
{
    size_t passed = slots_len > 0;
    return __real_vindaskot_find_indexed(bytes, bytes_len, slots + passed, slots_len - passed, name, name_len, answer);
}

#elif FAULT == 11 /* the place of a fault in a text is told one byte late */
uint32_t __real_vindaskot_encode(const uint8_t *, size_t, uint8_t *, size_t, uint64_t *);
uint32_t __wrap_vindaskot_encode(const uint8_t *src, size_t src_len, uint8_t *out, size_t out_len, uint64_t *answer)
{
    uint32_t status = __real_vindaskot_encode(src, src_len, out, out_len, answer);
    if (status == 11)
        answer[0]++;
    return status;
}

#elif FAULT == 12 /* an input is changed */
uint32_t __real_vindaskot_chain_read(const uint8_t *, size_t, uint64_t *);
uint32_t __wrap_vindaskot_chain_read(const uint8_t *bytes, size_t bytes_len, uint64_t *answer)
{
    uint32_t status = __real_vindaskot_chain_read(bytes, bytes_len, answer);
    if (bytes_len > 0 && bytes_len < 1000)
        ((uint8_t *)(uintptr_t)bytes)[bytes_len - 1] ^= 1;
    return status;
}

#elif FAULT == 13 /* the figures of refusal 6 are exchanged */
uint32_t __real_vindaskot_refactor_write(uint32_t, bool, const uint8_t *, size_t, uint8_t *, size_t, uint64_t *);
uint32_t __wrap_vindaskot_refactor_write(uint32_t count, bool has_next, const uint8_t *name, size_t name_len,
                                         uint8_t *out, size_t out_len, uint64_t *answer)
{
    uint32_t status = __real_vindaskot_refactor_write(count, has_next, name, name_len, out, out_len, answer);
    if (status == 6) {
        uint64_t needed = answer[0];
        answer[0] = answer[1];
        answer[1] = needed;
    }
    return status;
}

#elif FAULT == 14 /* a status that is not documented */
uint32_t __real_vindaskot_field_attribute(const uint8_t *, size_t, size_t, uint64_t *, uint64_t *);
uint32_t __wrap_vindaskot_field_attribute(const uint8_t *bytes, size_t bytes_len, size_t number, uint64_t *slots,
                                          uint64_t *answer)
{
    uint32_t status = __real_vindaskot_field_attribute(bytes, bytes_len, number, slots, answer);
    return status == 14 ? 13 : status;
}

#elif FAULT == 15 /* a count is written with its high byte first */
uint32_t __real_vindaskot_refactor_block_write(size_t, const uint8_t *, size_t, uint8_t *, size_t, uint64_t *);
uint32_t __wrap_vindaskot_refactor_block_write(size_t count, const uint8_t *block, size_t block_len, uint8_t *out,
                                               size_t out_len, uint64_t *answer)
{
    uint32_t status = __real_vindaskot_refactor_block_write(count, block, block_len, out, out_len, answer);
    if (status == VINDASKOT_DONE) {
        out[0] = (uint8_t)(count >> 8);
        out[1] = (uint8_t)count;
    }
    return status;
}

#elif FAULT == 16 /* of two attributes of one name the last is found */
uint32_t __real_vindaskot_symbol_attribute_named(const uint8_t *, size_t, const uint8_t *, size_t, uint64_t *,
                                                 uint64_t *);
uint32_t __wrap_vindaskot_symbol_attribute_named(const uint8_t *bytes, size_t bytes_len, const uint8_t *name,
                                                 size_t name_len, uint64_t *slots, uint64_t *answer)
{
    uint64_t one[VINDASKOT_ATTRIBUTE_SLOTS], own[2];
    uint32_t status = __real_vindaskot_symbol_attribute_named(bytes, bytes_len, name, name_len, slots, answer);
    for (size_t i = 0; i < FEW && status == VINDASKOT_DONE; i++)
        if (vindaskot_symbol_attribute(bytes, bytes_len, i, one, own) == VINDASKOT_DONE &&
            one[VINDASKOT_ATTRIBUTE_NAME_LEN] == name_len && begins(bytes, one, name, name_len, 0xFF))
            memcpy(slots, one, sizeof one);
    return status;
}

#elif FAULT == 17 /* an attribute is found by the start of its name */
uint32_t __real_vindaskot_field_attribute_named(const uint8_t *, size_t, const uint8_t *, size_t, uint64_t *,
                                                uint64_t *);
uint32_t __wrap_vindaskot_field_attribute_named(const uint8_t *bytes, size_t bytes_len, const uint8_t *name,
                                                size_t name_len, uint64_t *slots, uint64_t *answer)
{
    uint64_t one[VINDASKOT_ATTRIBUTE_SLOTS], own[2];
    uint32_t status = __real_vindaskot_field_attribute_named(bytes, bytes_len, name, name_len, slots, answer);
    for (size_t i = 0; i < FEW && status == 13; i++)
        if (vindaskot_field_attribute(bytes, bytes_len, i, one, own) == VINDASKOT_DONE &&
            begins(bytes, one, name, name_len, 0xFF)) {
            memcpy(slots, one, sizeof one);
            status = VINDASKOT_DONE;
        }
    return status;
}

#elif FAULT == 18 /* the value of the attribute behind the one found */
uint32_t __real_vindaskot_symbol_attribute_named(const uint8_t *, size_t, const uint8_t *, size_t, uint64_t *,
                                                 uint64_t *);
uint32_t __wrap_vindaskot_symbol_attribute_named(const uint8_t *bytes, size_t bytes_len, const uint8_t *name,
                                                 size_t name_len, uint64_t *slots, uint64_t *answer)
{
    uint64_t one[VINDASKOT_ATTRIBUTE_SLOTS], own[2];
    uint32_t status = __real_vindaskot_symbol_attribute_named(bytes, bytes_len, name, name_len, slots, answer);
    size_t next = status == VINDASKOT_DONE ? (size_t)slots[VINDASKOT_ATTRIBUTE_NEXT_AT] : bytes_len;
    if (vindaskot_attribute_read(bytes + next, bytes_len - next, one, own) == VINDASKOT_DONE) {
        slots[VINDASKOT_ATTRIBUTE_VALUE_AT] = next + one[VINDASKOT_ATTRIBUTE_VALUE_AT];
        slots[VINDASKOT_ATTRIBUTE_VALUE_LEN] = one[VINDASKOT_ATTRIBUTE_VALUE_LEN];
    }
    return status;
}

#elif FAULT == 19 /* letters of another case are the same name */
uint32_t __real_vindaskot_field_attribute_named(const uint8_t *, size_t, const uint8_t *, size_t, uint64_t *,
                                                uint64_t *);
uint32_t __wrap_vindaskot_field_attribute_named(const uint8_t *bytes, size_t bytes_len, const uint8_t *name,
                                                size_t name_len, uint64_t *slots, uint64_t *answer)
{
    uint64_t one[VINDASKOT_ATTRIBUTE_SLOTS], own[2];
    uint32_t status = __real_vindaskot_field_attribute_named(bytes, bytes_len, name, name_len, slots, answer);
    for (size_t i = 0; i < FEW && status == 13; i++)
        if (vindaskot_field_attribute(bytes, bytes_len, i, one, own) == VINDASKOT_DONE &&
            one[VINDASKOT_ATTRIBUTE_NAME_LEN] == name_len && begins(bytes, one, name, name_len, 0xDF)) {
            memcpy(slots, one, sizeof one);
            status = VINDASKOT_DONE;
        }
    return status;
}

#elif FAULT == 20 /* a name that is not there changes a slot */
uint32_t __real_vindaskot_symbol_attribute_named(const uint8_t *, size_t, const uint8_t *, size_t, uint64_t *,
                                                 uint64_t *);
uint32_t __wrap_vindaskot_symbol_attribute_named(const uint8_t *bytes, size_t bytes_len, const uint8_t *name,
                                                 size_t name_len, uint64_t *slots, uint64_t *answer)
{
    uint32_t status = __real_vindaskot_symbol_attribute_named(bytes, bytes_len, name, name_len, slots, answer);
    if (status == 13)
        slots[VINDASKOT_ATTRIBUTE_NEXT_AT] = 0;
    return status;
}

#elif FAULT == 21 /* a field that an attribute refuses has no attribute of any name */
uint32_t __real_vindaskot_field_attribute_named(const uint8_t *, size_t, const uint8_t *, size_t, uint64_t *,
                                                uint64_t *);
uint32_t __wrap_vindaskot_field_attribute_named(const uint8_t *bytes, size_t bytes_len, const uint8_t *name,
                                                size_t name_len, uint64_t *slots, uint64_t *answer)
{
    uint32_t status = __real_vindaskot_field_attribute_named(bytes, bytes_len, name, name_len, slots, answer);
    if (status != 1)
        return status;
    answer[0] = answer[1] = 0;
    return 13;
}

#elif FAULT == 22 /* of a name's length the last byte alone is looked at */
uint32_t __real_vindaskot_symbol_attribute_named(const uint8_t *, size_t, const uint8_t *, size_t, uint64_t *,
                                                 uint64_t *);
uint32_t __wrap_vindaskot_symbol_attribute_named(const uint8_t *bytes, size_t bytes_len, const uint8_t *name,
                                                 size_t name_len, uint64_t *slots, uint64_t *answer)
{
    return __real_vindaskot_symbol_attribute_named(bytes, bytes_len, name, name_len & 255, slots, answer);
}

#elif FAULT == 23 /* a symbol is found by the very bytes of its name alone */
SAME_WHERE(x == y)
SEARCHES(vindaskot_find)

#elif FAULT == 24 /* a capital asked finds a small letter, and a small one no capital */
SAME_WHERE(x == y || x == small(y))
SEARCHES(vindaskot_find_indexed)

#elif FAULT == 25 /* the letters begin one byte early, at 40 */
SAME_WHERE(small(x) == small(y) || ((x ^ y) == 0x20 && (x == '@' || y == '@')))
SEARCHES(vindaskot_find)

#elif FAULT == 26 /* the letters end one byte late, at 5B */
SAME_WHERE(small(x) == small(y) || ((x ^ y) == 0x20 && (x == '[' || y == '[')))
SEARCHES(vindaskot_find_indexed)

#elif FAULT == 27 /* accented letters, C0 to DE, have cases too */
SAME_WHERE(small(x) == small(y) || ((x ^ y) == 0x20 && (x & y) >= 0xC0 && (x & y) <= 0xDE))
SEARCHES(vindaskot_find)

#elif FAULT == 28 /* the case bit of any byte is passed over */
SAME_WHERE(((x ^ y) & 0xDF) == 0)
SEARCHES(vindaskot_find_indexed)

#elif FAULT == 29 /* names of 16 bytes and more have their cases told apart */
SAME_WHERE(x == y || (len < 16 && small(x) == small(y)))
SEARCHES(vindaskot_find)

#elif FAULT == 30 /* of a name in blocks of 16 bytes from its end, what is left at its start is not compared */
SAME_WHERE(small(x) == small(y) || (len > 16 && place < len % 16))
SEARCHES(vindaskot_find_indexed)

#elif FAULT == 31 /* a letter is told by its low seven bits */
SAME_WHERE(small(x) == small(y) || ((x ^ y) == 0x20 && small(x & 0x7F) == small(y & 0x7F)))
SEARCHES(vindaskot_find)

#elif FAULT == 32 /* an entry that is refused is found by its name */
SAME_WHERE(small(x) == small(y))
SEARCHES(vindaskot_find)

#elif FAULT == 33 /* a slot of a refused entry that has the name ends the search */
SAME_WHERE(small(x) == small(y))
SEARCHES(vindaskot_find_indexed)

#elif FAULT == 34 /* where the first symbol of a name has it in another case, the last one is found */
uint32_t __real_vindaskot_find(const uint8_t *, size_t, const uint8_t *, size_t, uint64_t *);
uint32_t __wrap_vindaskot_find(const uint8_t *bytes, size_t bytes_len, const uint8_t *name, size_t name_len,
                               uint64_t *answer)
{
    uint64_t slots[VINDASKOT_SYMBOL_SLOTS], own[2];
    uint8_t guid[16];
    uint32_t status = __real_vindaskot_find(bytes, bytes_len, name, name_len, answer);
    if (status != VINDASKOT_DONE || name_len == 0 || memcmp(bytes + answer[0] + 30, name, name_len) == 0)
        return status;
    for (size_t next = (size_t)answer[0];;) {
        (void)vindaskot_symbol_step_2(bytes, bytes_len, &next, slots, guid, own);
        if (__real_vindaskot_find(bytes + next, bytes_len - next, name, name_len, own) != VINDASKOT_DONE)
            return status;
        next += (size_t)own[0];
        answer[0] = next;
    }
}

#elif FAULT == 35 /* the very bytes asked are found before an earlier slot's name in another case */
uint32_t __real_vindaskot_find_indexed(const uint8_t *, size_t, const uint32_t *, size_t, const uint8_t *, size_t,
                                       uint64_t *);
uint32_t __wrap_vindaskot_find_indexed(const uint8_t *bytes, size_t bytes_len, const uint32_t *slots, size_t slots_len,
                                       const uint8_t *name, size_t name_len, uint64_t *answer)
{
    uint64_t own[2];
    uint32_t status = __real_vindaskot_find_indexed(bytes, bytes_len, slots, slots_len, name, name_len, answer);
    if (status != VINDASKOT_DONE || name_len == 0)
        return status;
    for (size_t i = 0; i < slots_len; i++)
        if (__real_vindaskot_find_indexed(bytes, bytes_len, slots + i, 1, name, name_len, own) == VINDASKOT_DONE &&
            memcmp(bytes + slots[i] + 30, name, name_len) == 0) {
            answer[0] = slots[i];
            break;
        }
    return status;
}

#elif FAULT == 36 /* an attribute is found by its name in another case of A to Z, as a symbol is */
uint32_t __real_vindaskot_symbol_attribute_named(const uint8_t *, size_t, const uint8_t *, size_t, uint64_t *,
                                                 uint64_t *);
uint32_t __wrap_vindaskot_symbol_attribute_named(const uint8_t *bytes, size_t bytes_len, const uint8_t *name,
                                                 size_t name_len, uint64_t *slots, uint64_t *answer)
{
    uint64_t one[VINDASKOT_ATTRIBUTE_SLOTS], own[2];
    uint32_t status = __real_vindaskot_symbol_attribute_named(bytes, bytes_len, name, name_len, slots, answer);
    for (size_t i = 0; status == 13 && i < 99; i++) {
        size_t place = 0;
        if (vindaskot_symbol_attribute(bytes, bytes_len, i, one, own) != VINDASKOT_DONE)
            break;
        const uint8_t *at = bytes + one[VINDASKOT_ATTRIBUTE_NAME_AT];
        while (place < name_len && place < one[VINDASKOT_ATTRIBUTE_NAME_LEN] && small(at[place]) == small(name[place]))
            place++;
        if (place == name_len && place == one[VINDASKOT_ATTRIBUTE_NAME_LEN]) {
            memcpy(slots, one, sizeof one);
            status = VINDASKOT_DONE;
        }
    }
    return status;
}

#elif FAULT == 37 /* a name in another case before a claim of zero is refused as one behind it is */
uint32_t __real_vindaskot_find(const uint8_t *, size_t, const uint8_t *, size_t, uint64_t *);
uint32_t __wrap_vindaskot_find(const uint8_t *bytes, size_t bytes_len, const uint8_t *name, size_t name_len,
                               uint64_t *answer)
{
    size_t cursor = 0, steps;
    uint64_t own[2];
    uint32_t status = __real_vindaskot_find(bytes, bytes_len, name, name_len, answer);
    if (status != VINDASKOT_DONE || name_len == 0 || memcmp(bytes + answer[0] + 30, name, name_len) == 0 ||
        vindaskot_walk(bytes, bytes_len, SIZE_MAX, &cursor, &steps, own) != 10)
        return status;
    answer[0] = 1;
    return 10;
}

#elif FAULT == 38 /* of names of more than 64 bytes one byte is not compared */
SAME_WHERE(small(x) == small(y) || (len > 64 && place == 20))
SEARCHES(vindaskot_find)

#elif FAULT == 39 /* a longer name whose length agrees in its last byte is found by its start */
SAME_WHERE(small(x) == small(y))
SEARCHES(vindaskot_find_indexed)

#elif FAULT == 40 /* bytes 22 and 23 are read with the high one first */
uint32_t __real_vindaskot_symbol_read_2(const uint8_t *, size_t, uint64_t *, uint8_t *, uint64_t *);
uint32_t __wrap_vindaskot_symbol_read_2(const uint8_t *bytes, size_t bytes_len, uint64_t *slots, uint8_t *guid,
                                        uint64_t *answer)
{
    uint32_t status = __real_vindaskot_symbol_read_2(bytes, bytes_len, slots, guid, answer);
    if (status == VINDASKOT_DONE)
        slots[VINDASKOT_SYMBOL_HIGH] = 256u * bytes[22] + bytes[23];
    return status;
}

#elif FAULT == 41 /* the two bytes at 20 are read for those at 22 */
uint32_t __real_vindaskot_symbol_read_2(const uint8_t *, size_t, uint64_t *, uint8_t *, uint64_t *);
uint32_t __wrap_vindaskot_symbol_read_2(const uint8_t *bytes, size_t bytes_len, uint64_t *slots, uint8_t *guid,
                                        uint64_t *answer)
{
    uint32_t status = __real_vindaskot_symbol_read_2(bytes, bytes_len, slots, guid, answer);
    if (status == VINDASKOT_DONE)
        slots[VINDASKOT_SYMBOL_HIGH] = slots[VINDASKOT_SYMBOL_FLAGS];
    return status;
}

#elif FAULT == 42 /* of bytes 22 and 23 the first alone is read */
uint32_t __real_vindaskot_symbol_read_2(const uint8_t *, size_t, uint64_t *, uint8_t *, uint64_t *);
uint32_t __wrap_vindaskot_symbol_read_2(const uint8_t *bytes, size_t bytes_len, uint64_t *slots, uint8_t *guid,
                                        uint64_t *answer)
{
    uint32_t status = __real_vindaskot_symbol_read_2(bytes, bytes_len, slots, guid, answer);
    if (status == VINDASKOT_DONE)
        slots[VINDASKOT_SYMBOL_HIGH] &= 255;
    return status;
}

#elif FAULT == 43 /* a step tells bytes 22 and 23 as zeros */
uint32_t __real_vindaskot_symbol_step_2(const uint8_t *, size_t, size_t *, uint64_t *, uint8_t *, uint64_t *);
uint32_t __wrap_vindaskot_symbol_step_2(const uint8_t *bytes, size_t bytes_len, size_t *cursor, uint64_t *slots,
                                        uint8_t *guid, uint64_t *answer)
{
    uint32_t status = __real_vindaskot_symbol_step_2(bytes, bytes_len, cursor, slots, guid, answer);
    if (status == VINDASKOT_DONE)
        slots[VINDASKOT_SYMBOL_HIGH] = 0;
    return status;
}

#elif FAULT == 44 /* bytes 22 and 23 are written as zeros */
uint32_t __wrap_vindaskot_symbol_write_2(PARAMETERS)
{
    high = 0;
    return __real_vindaskot_symbol_write_2(ARGUMENTS);
}

#elif FAULT == 45 /* bytes 22 and 23 are written with the high one first */
uint32_t __wrap_vindaskot_symbol_write_2(PARAMETERS)
{
    high = (uint16_t)(high << 8 | high >> 8);
    return __real_vindaskot_symbol_write_2(ARGUMENTS);
}

#elif FAULT == 46 /* the flags are written at 22 too */
uint32_t __wrap_vindaskot_symbol_write_2(PARAMETERS)
{
    high = flags;
    return __real_vindaskot_symbol_write_2(ARGUMENTS);
}

#elif FAULT == 47 /* a GUID that is flagged at 22 alone is not given to the writer, which refuses */
uint32_t __wrap_vindaskot_symbol_write_2(PARAMETERS)
{
    bool flagged = guid_len == 0 && (high & VINDASKOT_SYMBOL_FLAG_TYPE_GUID) != 0;
    out_len = flagged ? 0 : out_len;
    uint32_t status = __real_vindaskot_symbol_write_2(ARGUMENTS);
    if (!flagged || status != 6)
        return status;
    answer[0] = 1;
    answer[1] = 0;
    return 8;
}

#elif FAULT == 48 /* a GUID that is flagged at 22 alone is read from what is left of the entry */
uint32_t __real_vindaskot_symbol_read_2(const uint8_t *, size_t, uint64_t *, uint8_t *, uint64_t *);
uint32_t __wrap_vindaskot_symbol_read_2(const uint8_t *bytes, size_t bytes_len, uint64_t *slots, uint8_t *guid,
                                        uint64_t *answer)
{
    uint32_t status = __real_vindaskot_symbol_read_2(bytes, bytes_len, slots, guid, answer);
    if (status != VINDASKOT_DONE || (slots[VINDASKOT_SYMBOL_HIGH] & VINDASKOT_SYMBOL_FLAG_TYPE_GUID) == 0 ||
        slots[VINDASKOT_SYMBOL_HAS_GUID] == 1 || slots[VINDASKOT_SYMBOL_UNREAD] < 16)
        return status;
    memcpy(guid, bytes + slots[VINDASKOT_SYMBOL_LENGTH] - slots[VINDASKOT_SYMBOL_UNREAD], 16);
    slots[VINDASKOT_SYMBOL_HAS_GUID] = 1;
    slots[VINDASKOT_SYMBOL_UNREAD] -= 16;
    return status;
}

#elif FAULT == 49 /* the end bytes of a field's sub-items are looked at */
uint32_t __wrap_vindaskot_field_read_in(BYTES, TELLS_ENTRY)
{
    uint64_t own[VINDASKOT_FIELD_SLOTS];
    uint8_t other[16];
    if (checked && __real_vindaskot_field_read_in(bytes, bytes_len, true, own, other, answer) == VINDASKOT_DONE) {
        size_t at = (size_t)(own[VINDASKOT_FIELD_COMMENT_AT] + own[VINDASKOT_FIELD_COMMENT_LEN]) + 1 +
                    8 * (size_t)(bytes[38] | bytes[39] << 8);
        uint64_t place =
            wrong_item(bytes, (size_t)own[VINDASKOT_FIELD_LENGTH], &at, (size_t)(bytes[40] | bytes[41] << 8));
        if (place > 0)
            return told_16(answer, place, bytes[place]);
    }
    return __real_vindaskot_field_read_in(bytes, bytes_len, checked, slots, guid, answer);
}

#elif FAULT == 50 /* the end bytes of a field's methods are looked at, where nothing else stands before them */
uint32_t __wrap_vindaskot_field_read_in(BYTES, TELLS_ENTRY)
{
    uint64_t own[VINDASKOT_FIELD_SLOTS];
    uint8_t other[16];
    if (checked && __real_vindaskot_field_read_in(bytes, bytes_len, true, own, other, answer) == VINDASKOT_DONE &&
        (own[VINDASKOT_FIELD_FLAGS] & VINDASKOT_TYPE_FLAG_METHOD_INFOS) != 0 &&
        (own[VINDASKOT_FIELD_FLAGS] & VINDASKOT_TYPE_FLAG_COPY_MASK) == 0 && (bytes[38] | bytes[40]) == 0) {
        size_t len = (size_t)own[VINDASKOT_FIELD_LENGTH];
        size_t at = (size_t)(own[VINDASKOT_FIELD_COMMENT_AT] + own[VINDASKOT_FIELD_COMMENT_LEN]) + 1 +
                    16 * (size_t)own[VINDASKOT_FIELD_HAS_GUID];
        size_t count = at + 2 <= len ? (size_t)(bytes[at] | bytes[at + 1] << 8) : 0;
        at += 2;
        uint64_t place = wrong_item(bytes, len, &at, count);
        if (place > 0)
            return told_16(answer, place, bytes[place]);
    }
    return __real_vindaskot_field_read_in(bytes, bytes_len, checked, slots, guid, answer);
}

#elif FAULT == 51 /* unread bytes are looked at, as one more attribute */
uint32_t __wrap_vindaskot_symbol_read_in(BYTES, TELLS_ENTRY)
{
    uint64_t own[VINDASKOT_SYMBOL_SLOTS], one[VINDASKOT_ATTRIBUTE_SLOTS];
    uint8_t other[16];
    if (checked && __real_vindaskot_symbol_read_in(bytes, bytes_len, true, own, other, answer) == VINDASKOT_DONE) {
        size_t unread = (size_t)own[VINDASKOT_SYMBOL_UNREAD], at = (size_t)own[VINDASKOT_SYMBOL_LENGTH] - unread;
        if (vindaskot_attribute_read_in(bytes + at, unread, true, one, answer) == 16)
            return told_16(answer, at + answer[0], (uint8_t)answer[1]);
    }
    return __real_vindaskot_symbol_read_in(bytes, bytes_len, checked, slots, guid, answer);
}

#elif FAULT == 52 /* bytes behind the entry are looked at, as one more attribute */
uint32_t __wrap_vindaskot_symbol_read_in(BYTES, TELLS_ENTRY)
{
    uint64_t own[VINDASKOT_SYMBOL_SLOTS], one[VINDASKOT_ATTRIBUTE_SLOTS];
    uint8_t other[16];
    if (checked && __real_vindaskot_symbol_read_in(bytes, bytes_len, true, own, other, answer) == VINDASKOT_DONE) {
        size_t at = (size_t)own[VINDASKOT_SYMBOL_LENGTH];
        if (vindaskot_attribute_read_in(bytes + at, bytes_len - at, true, one, answer) == 16)
            return told_16(answer, at + answer[0], (uint8_t)answer[1]);
    }
    return __real_vindaskot_symbol_read_in(bytes, bytes_len, checked, slots, guid, answer);
}

#elif FAULT == 53 /* the end byte of an attribute's name comes before the record's length */
uint32_t __wrap_vindaskot_attribute_read_in(BYTES, TELLS_RECORD)
{
    uint32_t status = __real_vindaskot_attribute_read_in(bytes, bytes_len, checked, slots, answer);
    if (checked && status == 1 && bytes_len > 2u + bytes[0] && bytes[2 + bytes[0]] != 0)
        return told_16(answer, 2u + bytes[0], bytes[2 + bytes[0]]);
    return status;
}

#elif FAULT == 54 /* the end byte of an entry's name comes before the lengths of its strings */
uint32_t __wrap_vindaskot_symbol_read_in(BYTES, TELLS_ENTRY)
{
    uint32_t status = __real_vindaskot_symbol_read_in(bytes, bytes_len, checked, slots, guid, answer);
    /* A claim beyond the data is the first figure of its 3; strings that leave the entry need more than it claims. */
    size_t claim = status == 3 ? (size_t)bytes[0] | (size_t)bytes[1] << 8 | (size_t)bytes[2] << 16 : 0;
    size_t end = status == 3 ? 30 + (size_t)(bytes[24] | bytes[25] << 8) : 0;
    if (!checked || status != 3 || bytes[3] != 0 || claim > bytes_len || end >= claim || bytes[end] == 0)
        return status;
    return told_16(answer, end, bytes[end]);
}

#elif FAULT == 55 /* in the checked mode a short attribute refuses a symbol */
uint32_t __wrap_vindaskot_symbol_step_in(BYTES, size_t *cursor, TELLS_ENTRY)
{
    uint64_t own[VINDASKOT_SYMBOL_SLOTS], one[VINDASKOT_ATTRIBUTE_SLOTS];
    uint8_t other[16];
    size_t next = *cursor;
    if (!checked || __real_vindaskot_symbol_step_in(bytes, bytes_len, true, &next, own, other, answer) != 0 ||
        (own[VINDASKOT_SYMBOL_FLAGS] & VINDASKOT_SYMBOL_FLAG_ATTRIBUTES) == 0)
        return __real_vindaskot_symbol_step_in(bytes, bytes_len, checked, cursor, slots, guid, answer);
    const uint8_t *entry = bytes + *cursor;
    size_t at = (size_t)own[VINDASKOT_SYMBOL_ATTRIBUTES_AT], len = (size_t)own[VINDASKOT_SYMBOL_LENGTH], left = 0;
    if (at >= 2 && at <= len)
        left = (size_t)(entry[at - 2] | entry[at - 1] << 8);
    for (; left > 0 && at < len; left--) {
        uint32_t status = vindaskot_attribute_read(entry + at, len - at, one, answer);
        if (status != VINDASKOT_DONE) {
            *cursor = next;
            return status;
        }
        at += (size_t)one[VINDASKOT_ATTRIBUTE_NEXT_AT];
    }
    return __real_vindaskot_symbol_step_in(bytes, bytes_len, checked, cursor, slots, guid, answer);
}

#elif FAULT == 56 /* a chain that has a wrong end byte is dropped, as a short one is */
uint32_t __wrap_vindaskot_symbol_read_in(BYTES, TELLS_ENTRY)
{
    uint64_t own[VINDASKOT_SYMBOL_SLOTS], place;
    uint8_t other[16];
    uint32_t status = __real_vindaskot_symbol_read_in(bytes, bytes_len, checked, slots, guid, answer);
    place = answer[0];
    if (status != 16 || place < 30)
        return status;
    (void)vindaskot_symbol_read_2(bytes, bytes_len, own, other, answer);
    if (place < own[VINDASKOT_SYMBOL_REFACTORS_AT])
        return __real_vindaskot_symbol_read_in(bytes, bytes_len, checked, slots, guid, answer);
    own[VINDASKOT_SYMBOL_REFACTOR_COUNT] = 0;
    own[VINDASKOT_SYMBOL_UNREAD] = own[VINDASKOT_SYMBOL_LENGTH] - own[VINDASKOT_SYMBOL_REFACTORS_AT];
    memcpy(slots, own, sizeof own);
    memcpy(guid, other, sizeof other);
    return VINDASKOT_DONE;
}

#elif FAULT == 57 /* a chain that is short is dropped whatever its end bytes before that */
uint32_t __wrap_vindaskot_symbol_read_in(BYTES, TELLS_ENTRY)
{
    uint64_t own[VINDASKOT_SYMBOL_SLOTS], figures[2];
    uint8_t other[16];
    uint32_t status = __real_vindaskot_symbol_read_in(bytes, bytes_len, checked, slots, guid, answer);
    if (status != 16 || vindaskot_symbol_read_2(bytes, bytes_len, own, other, figures) != VINDASKOT_DONE ||
        answer[0] < own[VINDASKOT_SYMBOL_REFACTORS_AT] || own[VINDASKOT_SYMBOL_REFACTOR_COUNT] > 0)
        return status;
    return vindaskot_symbol_read_2(bytes, bytes_len, slots, guid, answer);
}

#elif FAULT == 58 /* a wrong end byte in an attribute does not refuse the symbol */
uint32_t __wrap_vindaskot_symbol_step_in(BYTES, size_t *cursor, TELLS_ENTRY)
{
    uint64_t own[VINDASKOT_SYMBOL_SLOTS], figures[2];
    uint8_t other[16];
    size_t start = *cursor;
    uint32_t status = __real_vindaskot_symbol_step_in(bytes, bytes_len, checked, cursor, slots, guid, answer);
    if (status != 16 || vindaskot_symbol_read_2(bytes + start, bytes_len - start, own, other, figures) != 0 ||
        answer[0] < own[VINDASKOT_SYMBOL_ATTRIBUTES_AT] || answer[0] >= own[VINDASKOT_SYMBOL_REFACTORS_AT])
        return status;
    return vindaskot_symbol_read_2(bytes + start, bytes_len - start, slots, guid, answer);
}

#elif FAULT == 59 /* after a step the place is counted in the upload */
uint32_t __wrap_vindaskot_symbol_step_in(BYTES, size_t *cursor, TELLS_ENTRY)
{
    size_t start = *cursor;
    uint32_t status = __real_vindaskot_symbol_step_in(bytes, bytes_len, checked, cursor, slots, guid, answer);
    answer[0] += status == 16 ? start : 0;
    return status;
}

#elif FAULT == 60 /* in a chain the place is counted from the record's start */
uint32_t __wrap_vindaskot_chain_read_in(BYTES, uint64_t *answer)
{
    uint64_t one[VINDASKOT_REFACTOR_SLOTS], figures[2];
    uint32_t status = __real_vindaskot_chain_read_in(bytes, bytes_len, checked, answer);
    for (size_t at = 0; status == 16;) {
        (void)vindaskot_refactor_read(bytes + at, bytes_len - at, one, figures);
        if (at + one[VINDASKOT_REFACTOR_NEXT_AT] > answer[0]) {
            answer[0] -= at;
            break;
        }
        at += (size_t)one[VINDASKOT_REFACTOR_NEXT_AT];
    }
    return status;
}

#elif FAULT == 61 /* in a field the place is counted from the first attribute on */
uint32_t __wrap_vindaskot_field_read_in(BYTES, TELLS_ENTRY)
{
    uint64_t own[VINDASKOT_FIELD_SLOTS], figures[2];
    uint8_t other[16];
    uint32_t status = __real_vindaskot_field_read_in(bytes, bytes_len, checked, slots, guid, answer);
    if (status == 16 && vindaskot_field_read(bytes, bytes_len, own, other, figures) == VINDASKOT_DONE &&
        answer[0] >= own[VINDASKOT_FIELD_ATTRIBUTES_AT])
        answer[0] -= own[VINDASKOT_FIELD_ATTRIBUTES_AT];
    return status;
}

#elif FAULT == 62 /* of several wrong end bytes the last is told */
uint32_t __wrap_vindaskot_symbol_read_in(BYTES, TELLS_ENTRY)
{
    uint64_t own[VINDASKOT_SYMBOL_SLOTS], figures[2];
    uint8_t other[16];
    uint32_t status = __real_vindaskot_symbol_read_in(bytes, bytes_len, checked, slots, guid, answer);
    bool fits = status == 16 && mend(bytes, bytes_len, answer[0]);
    while (fits && __real_vindaskot_symbol_read_in(mended, bytes_len, true, own, other, figures) == 16) {
        memcpy(answer, figures, sizeof figures);
        mended[figures[0]] = 0;
    }
    return status;
}

#elif FAULT == 63 /* of an attribute the value's end byte is looked at before the name's */
uint32_t __wrap_vindaskot_attribute_read_in(BYTES, TELLS_RECORD)
{
    uint32_t status = __real_vindaskot_attribute_read_in(bytes, bytes_len, checked, slots, answer);
    size_t end = status == 16 ? 3u + bytes[0] + bytes[1] : 0;
    return status == 16 && bytes[end] != 0 ? told_16(answer, end, bytes[end]) : status;
}

#elif FAULT == 64 /* a comment's end byte is not looked at */
uint32_t __wrap_vindaskot_field_read_in(BYTES, TELLS_ENTRY)
{
    uint32_t status = __real_vindaskot_field_read_in(bytes, bytes_len, checked, slots, guid, answer);
    if (status != 16)
        return status;
    size_t end = 44 + (size_t)(bytes[32] | bytes[33] << 8) + (size_t)(bytes[34] | bytes[35] << 8) +
                 (size_t)(bytes[36] | bytes[37] << 8);
    if (answer[0] != end || !mend(bytes, bytes_len, end))
        return status;
    return __real_vindaskot_field_read_in(mended, bytes_len, true, slots, guid, answer);
}

#elif FAULT == 65 /* the index of the checked mode has entries that the checked mode refuses */
uint32_t __wrap_vindaskot_index_build_in(BYTES, uint32_t *starts, size_t count, uint64_t *answer)
{
    (void)checked;
    return __real_vindaskot_index_build_in(bytes, bytes_len, false, starts, count, answer);
}

#elif FAULT == 66 /* finding in the checked mode finds what the checked mode refuses */
uint32_t __wrap_vindaskot_find_in(BYTES, NAMED, uint64_t *answer)
{
    (void)checked;
    return __real_vindaskot_find_in(bytes, bytes_len, false, name, name_len, answer);
}

#elif FAULT == 67 /* finding through an index in the checked mode finds what the checked mode refuses */
uint32_t __wrap_vindaskot_find_indexed_in(BYTES, INDEX, NAMED, uint64_t *answer)
{
    (void)checked;
    return __real_vindaskot_find_indexed_in(bytes, bytes_len, false, starts, count, name, name_len, answer);
}

#elif FAULT == 68 /* a symbol of the name that is refused for an end byte ends the search through an index */
uint32_t __wrap_vindaskot_find_indexed_in(BYTES, INDEX, NAMED, uint64_t *answer)
{
    uint64_t own[2];
    uint32_t status = vindaskot_find_indexed(bytes, bytes_len, starts, count, name, name_len, own);
    uint32_t right = __real_vindaskot_find_indexed_in(bytes, bytes_len, checked, starts, count, name, name_len, answer);
    if (!checked || status != VINDASKOT_DONE || right != VINDASKOT_DONE || answer[0] == own[0])
        return right;
    answer[0] = 0;
    return 13;
}

#elif FAULT == 69 /* a step of the present mode looks at end bytes */
uint32_t __wrap_vindaskot_symbol_step_in(BYTES, size_t *cursor, TELLS_ENTRY)
{
    (void)checked;
    return __real_vindaskot_symbol_step_in(bytes, bytes_len, true, cursor, slots, guid, answer);
}

#elif FAULT == 70 /* a function that takes no mode looks at end bytes */
uint32_t __real_vindaskot_attribute_read(const uint8_t *, size_t, uint64_t *, uint64_t *);
uint32_t __wrap_vindaskot_attribute_read(const uint8_t *bytes, size_t bytes_len, TELLS_RECORD)
{
    uint64_t one[VINDASKOT_ATTRIBUTE_SLOTS];
    uint32_t status = __real_vindaskot_attribute_read(bytes, bytes_len, one, answer);
    size_t end = status == VINDASKOT_DONE ? (size_t)one[VINDASKOT_ATTRIBUTE_NEXT_AT] - 1 : 0;
    if (status == VINDASKOT_DONE && bytes[end] != 0)
        return told_16(answer, end, bytes[end]);
    return __real_vindaskot_attribute_read(bytes, bytes_len, slots, answer);
}

#elif FAULT == 71 /* finding in the present mode does not find a symbol that has a wrong end byte */
uint32_t __real_vindaskot_find(const uint8_t *, size_t, const uint8_t *, size_t, uint64_t *);
uint32_t __wrap_vindaskot_find(const uint8_t *bytes, size_t bytes_len, NAMED, uint64_t *answer)
{
    uint64_t slots[VINDASKOT_SYMBOL_SLOTS], own[2];
    uint8_t guid[16];
    uint32_t status = __real_vindaskot_find(bytes, bytes_len, name, name_len, answer);
    size_t start = status == VINDASKOT_DONE ? (size_t)answer[0] : bytes_len;
    if (vindaskot_symbol_read_in(bytes + start, bytes_len - start, true, slots, guid, own) != 16)
        return status;
    answer[0] = 0;
    return 13;
}

#elif FAULT == 72 /* refusal 16 changes a slot */
uint32_t __wrap_vindaskot_field_step_in(BYTES, size_t *cursor, TELLS_ENTRY)
{
    uint32_t status = __real_vindaskot_field_step_in(bytes, bytes_len, checked, cursor, slots, guid, answer);
    if (status == 16)
        slots[VINDASKOT_FIELD_NAME_AT] = 42;
    return status;
}

#elif FAULT == 73 /* refusal 16 changes the GUID */
uint32_t __wrap_vindaskot_symbol_read_in(BYTES, TELLS_ENTRY)
{
    uint32_t status = __real_vindaskot_symbol_read_in(bytes, bytes_len, checked, slots, guid, answer);
    if (status == 16)
        memset(guid, 0, 16);
    return status;
}

#elif FAULT == 74 /* refusal 16 leaves its second figure unset */
uint32_t __wrap_vindaskot_refactor_read_in(BYTES, TELLS_RECORD)
{
    uint64_t before = answer[1];
    uint32_t status = __real_vindaskot_refactor_read_in(bytes, bytes_len, checked, slots, answer);
    if (status == 16)
        answer[1] = before;
    return status;
}

#elif FAULT == 75 /* refusal 16 leaves the cursor at the entry */
uint32_t __wrap_vindaskot_field_step_in(BYTES, size_t *cursor, TELLS_ENTRY)
{
    size_t start = *cursor;
    uint32_t status = __real_vindaskot_field_step_in(bytes, bytes_len, checked, cursor, slots, guid, answer);
    if (status == 16)
        *cursor = start;
    return status;
}

#elif FAULT == 76 /* refusal 16 sends the cursor to the end */
uint32_t __wrap_vindaskot_symbol_step_in(BYTES, size_t *cursor, TELLS_ENTRY)
{
    uint32_t status = __real_vindaskot_symbol_step_in(bytes, bytes_len, checked, cursor, slots, guid, answer);
    if (status == 16)
        *cursor = bytes_len;
    return status;
}

#elif FAULT == 77 /* an end byte from 80 on is taken for 0 */
uint32_t __wrap_vindaskot_symbol_read_in(BYTES, TELLS_ENTRY)
{
    uint64_t own[VINDASKOT_SYMBOL_SLOTS], figures[2];
    uint8_t other[16];
    uint32_t status = __real_vindaskot_symbol_read_in(bytes, bytes_len, checked, slots, guid, answer);
    if (status != 16 || answer[1] < 0x80 || !mend(bytes, bytes_len, answer[0]))
        return status;
    while (__real_vindaskot_symbol_read_in(mended, bytes_len, true, own, other, figures) == 16 && figures[1] >= 0x80)
        mended[figures[0]] = 0;
    return __real_vindaskot_symbol_read_in(mended, bytes_len, true, slots, guid, answer);
}

#elif FAULT == 78 /* of a chain the first record's end byte alone is looked at */
uint32_t __wrap_vindaskot_chain_read_in(BYTES, uint64_t *answer)
{
    uint64_t one[VINDASKOT_REFACTOR_SLOTS];
    uint32_t status = __real_vindaskot_chain_read_in(bytes, bytes_len, checked, answer);
    if (status != 16 || vindaskot_refactor_read_in(bytes, bytes_len, true, one, answer) == 16)
        return status;
    return vindaskot_chain_read(bytes, bytes_len, answer);
}

#elif FAULT == 79 /* the chain's records behind the one asked for are not looked at */
uint32_t __wrap_vindaskot_chain_record_in(BYTES, size_t number, TELLS_RECORD)
{
    uint64_t one[VINDASKOT_REFACTOR_SLOTS], figures[2];
    uint32_t status = __real_vindaskot_chain_record_in(bytes, bytes_len, checked, number, slots, answer);
    if (status != 16 || vindaskot_chain_record(bytes, bytes_len, number, one, figures) != VINDASKOT_DONE ||
        one[VINDASKOT_REFACTOR_NEXT_AT] > answer[0])
        return status;
    return vindaskot_chain_record(bytes, bytes_len, number, slots, answer);
}

#elif FAULT == 80 /* a number past the last attribute is refused before a wrong end byte */
uint32_t __wrap_vindaskot_symbol_attribute_in(BYTES, size_t number, TELLS_RECORD)
{
    uint64_t one[VINDASKOT_ATTRIBUTE_SLOTS], figures[2];
    uint32_t status = __real_vindaskot_symbol_attribute_in(bytes, bytes_len, checked, number, slots, answer);
    if (status != 16 || vindaskot_symbol_attribute(bytes, bytes_len, number, one, figures) != 14)
        return status;
    memcpy(answer, figures, sizeof figures);
    return 14;
}

#elif FAULT == 81 /* an attribute is found by its name although an end byte behind it is wrong */
uint32_t __wrap_vindaskot_symbol_attribute_named_in(BYTES, NAMED, TELLS_RECORD)
{
    uint64_t one[VINDASKOT_ATTRIBUTE_SLOTS], figures[2];
    uint32_t status =
        __real_vindaskot_symbol_attribute_named_in(bytes, bytes_len, checked, name, name_len, slots, answer);
    if (status != 16 ||
        vindaskot_symbol_attribute_named(bytes, bytes_len, name, name_len, one, figures) != VINDASKOT_DONE ||
        one[VINDASKOT_ATTRIBUTE_NEXT_AT] > answer[0])
        return status;
    return vindaskot_symbol_attribute_named(bytes, bytes_len, name, name_len, slots, answer);
}

#elif FAULT == 82 /* the end byte of an empty name is not looked at */
uint32_t __wrap_vindaskot_refactor_read_in(BYTES, TELLS_RECORD)
{
    uint32_t status = __real_vindaskot_refactor_read_in(bytes, bytes_len, checked, slots, answer);
    if (status != 16 || answer[0] != 6)
        return status;
    return vindaskot_refactor_read(bytes, bytes_len, slots, answer);
}

#elif FAULT == 83 /* a wrong end byte is refused with 15 */
uint32_t __wrap_vindaskot_field_attribute_in(BYTES, size_t number, TELLS_RECORD)
{
    uint32_t status = __real_vindaskot_field_attribute_in(bytes, bytes_len, checked, number, slots, answer);
    return status == 16 ? 15 : status;
}

#elif FAULT == 84 /* the wrong end byte is told with a sign */
uint32_t __wrap_vindaskot_attribute_read_in(BYTES, TELLS_RECORD)
{
    uint32_t status = __real_vindaskot_attribute_read_in(bytes, bytes_len, checked, slots, answer);
    if (status == 16)
        answer[1] = (uint64_t)(int64_t)(int8_t)answer[1];
    return status;
}

#elif FAULT == 85 /* the figures of refusal 16 are exchanged */
uint32_t __wrap_vindaskot_field_attribute_named_in(BYTES, NAMED, TELLS_RECORD)
{
    uint32_t status =
        __real_vindaskot_field_attribute_named_in(bytes, bytes_len, checked, name, name_len, slots, answer);
    if (status == 16) {
        uint64_t place = answer[0];
        answer[0] = answer[1];
        answer[1] = place;
    }
    return status;
}

#elif FAULT == 86 /* a refactor record of a symbol is told although its entry is refused */
uint32_t __wrap_vindaskot_symbol_refactor_info_in(BYTES, size_t number, TELLS_RECORD)
{
    (void)checked;
    return __real_vindaskot_symbol_refactor_info_in(bytes, bytes_len, false, number, slots, answer);
}

#elif FAULT == 87 /* a type's end byte is looked at before the name's */
uint32_t __wrap_vindaskot_symbol_read_in(BYTES, TELLS_ENTRY)
{
    uint32_t status = __real_vindaskot_symbol_read_in(bytes, bytes_len, checked, slots, guid, answer);
    size_t name = status == 16 ? (size_t)(bytes[24] | bytes[25] << 8) : 0;
    size_t end = status == 16 ? 31 + name + (size_t)(bytes[26] | bytes[27] << 8) : 0;
    return status == 16 && bytes[end] != 0 ? told_16(answer, end, bytes[end]) : status;
}

#elif FAULT == 88 /* the place of a wrong end byte is told in 16 bits */
uint32_t __wrap_vindaskot_symbol_read_in(BYTES, TELLS_ENTRY)
{
    uint32_t status = __real_vindaskot_symbol_read_in(bytes, bytes_len, checked, slots, guid, answer);
    answer[0] &= status == 16 ? 0xFFFF : UINT64_MAX;
    return status;
}

#elif FAULT == 89 /* a field's short attribute comes before wrong end bytes of those before it */
uint32_t __wrap_vindaskot_field_read_in(BYTES, TELLS_ENTRY)
{
    uint64_t own[VINDASKOT_FIELD_SLOTS], figures[2];
    uint8_t other[16];
    uint32_t status = __real_vindaskot_field_read_in(bytes, bytes_len, checked, slots, guid, answer);
    uint32_t present = vindaskot_field_read(bytes, bytes_len, own, other, figures);
    if (status != 16 || present == VINDASKOT_DONE)
        return status;
    memcpy(answer, figures, sizeof figures);
    return present;
}

#elif FAULT == 90 /* in the checked mode a short chain refuses the symbol */
uint32_t __wrap_vindaskot_symbol_read_in(BYTES, TELLS_ENTRY)
{
    uint64_t own[VINDASKOT_SYMBOL_SLOTS], figures[2];
    uint8_t other[16];
    if (checked && __real_vindaskot_symbol_read_in(bytes, bytes_len, true, own, other, answer) == VINDASKOT_DONE) {
        size_t at = (size_t)own[VINDASKOT_SYMBOL_REFACTORS_AT], len = (size_t)own[VINDASKOT_SYMBOL_LENGTH];
        bool flagged = (own[VINDASKOT_SYMBOL_EXTENDED_FLAGS] & VINDASKOT_SYMBOL2_FLAG_REFACTOR_INFO) != 0;
        uint32_t status = flagged && at < len ? vindaskot_chain_read(bytes + at, len - at, figures) : VINDASKOT_DONE;
        if (status != VINDASKOT_DONE) {
            memcpy(answer, figures, sizeof figures);
            return status;
        }
    }
    return __real_vindaskot_symbol_read_in(bytes, bytes_len, checked, slots, guid, answer);
}

#elif FAULT == 91 /* each refused byte is a run */
SALVAGES(vindaskot_salvage_in)

#elif FAULT == 92 /* the run of a claim beyond the upload is as long as that claim */
SALVAGES(vindaskot_salvage_in)

#elif FAULT == 93 /* the run of a zero claim has no bytes */
SALVAGES(vindaskot_salvage)

#elif FAULT == 94 /* an entry is kept twice */
SALVAGES(vindaskot_salvage_in)

#elif FAULT == 95 /* the last run comes first */
SALVAGES(vindaskot_salvage_in)

#elif FAULT == 96 /* a zero claim is dropped under 2 */
SALVAGES(vindaskot_salvage_in)

#elif FAULT == 97 /* runs side by side are one */
SALVAGES(vindaskot_salvage)

#elif FAULT == 98 /* a run has the number that it has in the other mode */
SALVAGES(vindaskot_salvage_in)

#elif FAULT == 99 /* a claim below the header is dropped under 4 */
SALVAGES(vindaskot_salvage)

#elif FAULT == 100 /* fewer than 4 bytes at the end are no run */
SALVAGES(vindaskot_salvage_in)

#elif FAULT == 101 /* the run of fewer than 4 bytes has 4 */
SALVAGES(vindaskot_salvage)

#elif FAULT == 102 /* a run starts where it would stand in the new upload */
SALVAGES(vindaskot_salvage_in)

#elif FAULT == 103 /* the start of a run is told in 16 bits */
SALVAGES(vindaskot_salvage_in)

#elif FAULT == 104 /* a zero claim is a run of 4 bytes, and the walk goes on behind it */
SALVAGES(vindaskot_salvage_in)

#elif FAULT == 105 /* an entry is kept though its strings leave it */
SALVAGES(vindaskot_salvage)

#elif FAULT == 106 /* an entry that ends with the upload is left out */
SALVAGES(vindaskot_salvage_in)

#elif FAULT == 107 /* unread bytes are copied as zeros */
SALVAGES(vindaskot_salvage)

#elif FAULT == 108 /* too few slots are told before too few bytes */
SALVAGES(vindaskot_salvage_in)

#elif FAULT == 109 /* too little room is told before too large an upload */
SALVAGES(vindaskot_salvage)

#elif FAULT == 110 /* 16,777,216 bytes are too large */
SALVAGES(vindaskot_salvage_in)

#elif FAULT == 111 /* 16,777,217 bytes are not too large */
SALVAGES(vindaskot_salvage_in)

#elif FAULT == 112 /* as many bytes are asked for as the upload has */
SALVAGES(vindaskot_salvage)

#elif FAULT == 113 /* 6 for the list counts runs */
SALVAGES(vindaskot_salvage_in)

#elif FAULT == 114 /* the upload has been begun where the list has too few slots */
SALVAGES(vindaskot_salvage_in)

#elif FAULT == 115 /* the list has been begun where the upload has too few bytes */
SALVAGES(vindaskot_salvage_in)

#elif FAULT == 116 /* the answer counts runs and not slots */
SALVAGES(vindaskot_salvage)

#elif FAULT == 117 /* a byte is written before an upload that is too large is refused */
SALVAGES(vindaskot_salvage)

#elif FAULT == 118 /* in the checked mode what has a wrong end byte is kept */
uint32_t __wrap_vindaskot_salvage_in(DAMAGED, bool checked, LENT)
{
    (void)checked;
    return __real_vindaskot_salvage_in(bytes, bytes_len, false, out, out_len, runs, runs_len, answer);
}

#elif FAULT == 119 /* in the present mode what has a wrong end byte is dropped */
uint32_t __wrap_vindaskot_salvage_in(DAMAGED, bool checked, LENT)
{
    (void)checked;
    return __real_vindaskot_salvage_in(bytes, bytes_len, true, out, out_len, runs, runs_len, answer);
}

#elif FAULT == 120 /* without a mode what has a wrong end byte is dropped */
uint32_t __wrap_vindaskot_salvage(DAMAGED, LENT)
{
    return vindaskot_salvage_in(bytes, bytes_len, true, out, out_len, runs, runs_len, answer);
}

#elif FAULT == 121 /* the figures of 6 are exchanged, for bytes and for slots */
uint32_t __wrap_vindaskot_salvage_in(DAMAGED, bool checked, LENT)
{
    uint32_t status = __real_vindaskot_salvage_in(bytes, bytes_len, checked, out, out_len, runs, runs_len, answer);
    if (status == 6) {
        uint64_t needed = answer[0];
        answer[0] = answer[1];
        answer[1] = needed;
    }
    return status;
}

#elif FAULT == 122 /* as many bytes are copied as are lent before too few are refused */
uint32_t __wrap_vindaskot_salvage_in(DAMAGED, bool checked, LENT)
{
    uint32_t status = __real_vindaskot_salvage_in(bytes, bytes_len, checked, out, out_len, runs, runs_len, answer);
    if (status == 6 && out_len > 0 && out_len < answer[0] && answer[1] == out_len)
        memcpy(out, bytes, out_len);
    return status;
}

#elif FAULT == 123 /* as many slots are filled as are lent before too few are refused */
uint32_t __wrap_vindaskot_salvage(DAMAGED, LENT)
{
    uint32_t status = __real_vindaskot_salvage(bytes, bytes_len, out, out_len, runs, runs_len, answer);
    if (status == 6 && runs_len > 0 && answer[1] == runs_len && answer[0] % VINDASKOT_RUN_SLOTS == 0)
        memset(runs, 0, 4 * runs_len);
    return status;
}

#elif FAULT == 124 /* the byte behind what was kept is changed */
uint32_t __wrap_vindaskot_salvage(DAMAGED, LENT)
{
    uint32_t status = __real_vindaskot_salvage(bytes, bytes_len, out, out_len, runs, runs_len, answer);
    if (status == VINDASKOT_DONE && answer[0] < out_len)
        out[answer[0]] = 0;
    return status;
}

#elif FAULT == 125 /* the slot behind the last run is changed */
uint32_t __wrap_vindaskot_salvage_in(DAMAGED, bool checked, LENT)
{
    uint32_t status = __real_vindaskot_salvage_in(bytes, bytes_len, checked, out, out_len, runs, runs_len, answer);
    if (status == VINDASKOT_DONE && answer[1] < runs_len)
        runs[answer[1]] = 0;
    return status;
}

#elif FAULT == 126 /* how many slots were written is left unset */
uint32_t __wrap_vindaskot_salvage_in(DAMAGED, bool checked, LENT)
{
    uint64_t own[2];
    uint32_t status =
        __real_vindaskot_salvage_in(bytes, bytes_len, checked, out, out_len, runs, runs_len, own);
    answer[0] = own[0];
    if (status != VINDASKOT_DONE)
        answer[1] = own[1];
    return status;
}

#elif FAULT == 127 /* a run tells its length before its start */
uint32_t __wrap_vindaskot_salvage(DAMAGED, LENT)
{
    uint32_t status = __real_vindaskot_salvage(bytes, bytes_len, out, out_len, runs, runs_len, answer);
    for (uint64_t i = 0; status == VINDASKOT_DONE && i < answer[1]; i += VINDASKOT_RUN_SLOTS) {
        uint32_t start = runs[i + VINDASKOT_RUN_START];
        runs[i + VINDASKOT_RUN_START] = runs[i + VINDASKOT_RUN_LENGTH];
        runs[i + VINDASKOT_RUN_LENGTH] = start;
    }
    return status;
}

#elif FAULT == 128 /* a claim is read of fewer than 4 bytes at the end */
uint32_t __wrap_vindaskot_salvage_in(DAMAGED, bool checked, LENT)
{
    for (size_t i = 0; i < 4 && bytes_len > 0 && bytes_len < 4; i++)
        (void)*(const volatile uint8_t *)(bytes + i);
    return __real_vindaskot_salvage_in(bytes, bytes_len, checked, out, out_len, runs, runs_len, answer);
}

#elif FAULT == 129 /* a zero claim refuses the upload with 10 */
uint32_t __wrap_vindaskot_salvage(DAMAGED, LENT)
{
    uint32_t status = __real_vindaskot_salvage(bytes, bytes_len, out, out_len, runs, runs_len, answer);
    if (status != VINDASKOT_DONE || answer[1] == 0 || runs[answer[1] - 1] != 10)
        return status;
    answer[0] = 1;
    answer[1] = 0;
    return 10;
}

#elif FAULT == 130 /* the damaged upload is changed */
uint32_t __wrap_vindaskot_salvage_in(DAMAGED, bool checked, LENT)
{
    uint32_t status = __real_vindaskot_salvage_in(bytes, bytes_len, checked, out, out_len, runs, runs_len, answer);
    if (status == VINDASKOT_DONE && bytes_len > 100 && bytes_len < 1000)
        ((uint8_t *)(uintptr_t)bytes)[bytes_len - 1] ^= 1;
    return status;
}

#elif FAULT == 131 /* bytes and slots written are told in each other's place */
uint32_t __wrap_vindaskot_salvage(DAMAGED, LENT)
{
    uint32_t status = __real_vindaskot_salvage(bytes, bytes_len, out, out_len, runs, runs_len, answer);
    if (status == VINDASKOT_DONE) {
        uint64_t written = answer[0];
        answer[0] = answer[1];
        answer[1] = written;
    }
    return status;
}

#elif FAULT == 132 /* of an entry the bytes behind its first 4,096 are kept as zeros */
SALVAGES(vindaskot_salvage_in)

#elif FAULT == 133 /* a slot for every 30 bytes, the header alone */
uint32_t __wrap_vindaskot_room(LENGTH)
{
    uint32_t status = __real_vindaskot_room(length, answer);
    if (status == VINDASKOT_DONE)
        answer[0] = length / 30;
    return status;
}

#elif FAULT == 134 /* a room is rounded up */
uint32_t __wrap_vindaskot_room(LENGTH)
{
    uint32_t status = __real_vindaskot_room(length, answer);
    if (status == VINDASKOT_DONE)
        answer[0] = (length + 32) / 33;
    return status;
}

#elif FAULT == 135 /* a room is a slot too few */
uint32_t __wrap_vindaskot_room(LENGTH)
{
    uint32_t status = __real_vindaskot_room(length, answer);
    if (status == VINDASKOT_DONE)
        answer[0] = length < 33 ? 0 : length / 33 - 1;
    return status;
}

#elif FAULT == 136 /* a room is a slot too many */
uint32_t __wrap_vindaskot_room(LENGTH)
{
    uint32_t status = __real_vindaskot_room(length, answer);
    if (status == VINDASKOT_DONE)
        answer[0] = length / 33 + 1;
    return status;
}

#elif FAULT == 137 /* 16,777,216 bytes have no room */
uint32_t __wrap_vindaskot_room(LENGTH)
{
    uint32_t status = __real_vindaskot_room(length, answer);
    if (length != VINDASKOT_LIMIT)
        return status;
    answer[0] = VINDASKOT_LIMIT;
    answer[1] = length;
    return 5;
}

#elif FAULT == 138 /* no length is above the limit */
uint32_t __wrap_vindaskot_room(LENGTH)
{
    answer[0] = length / 33;
    answer[1] = 0;
    return VINDASKOT_DONE;
}

#elif FAULT == 139 /* 16,777,217 bytes have a room */
uint32_t __wrap_vindaskot_room(LENGTH)
{
    uint32_t status = __real_vindaskot_room(length, answer);
    if (length != VINDASKOT_LIMIT + 1)
        return status;
    answer[0] = length / 33;
    answer[1] = 0;
    return VINDASKOT_DONE;
}

#elif FAULT == 140 /* the figures of a length above the limit are exchanged */
uint32_t __wrap_vindaskot_room(LENGTH)
{
    uint32_t status = __real_vindaskot_room(length, answer);
    if (status == 5) {
        answer[0] = length;
        answer[1] = VINDASKOT_LIMIT;
    }
    return status;
}

#elif FAULT == 141 /* a length is cut to 32 bits */
uint32_t __wrap_vindaskot_room(LENGTH)
{
    return __real_vindaskot_room((uint32_t)length, answer);
}

#elif FAULT == 142 /* the second number of a room is left unset */
uint32_t __wrap_vindaskot_room(LENGTH)
{
    uint64_t before = answer[1];
    uint32_t status = __real_vindaskot_room(length, answer);
    if (status == VINDASKOT_DONE)
        answer[1] = before;
    return status;
}

#elif FAULT == 143 /* the second number of a room is what its entries leave */
uint32_t __wrap_vindaskot_room(LENGTH)
{
    uint32_t status = __real_vindaskot_room(length, answer);
    if (status == VINDASKOT_DONE)
        answer[1] = length % 33;
    return status;
}

#elif FAULT == 144 /* a room by a shift that is right up to 986,896 bytes */
uint32_t __wrap_vindaskot_room(LENGTH)
{
    uint32_t status = __real_vindaskot_room(length, answer);
    if (status == VINDASKOT_DONE)
        answer[0] = (uint64_t)length * 508401 >> 24;
    return status;
}

#elif FAULT == 145 /* a room by a float that is right up to 16,252,927 bytes */
uint32_t __wrap_vindaskot_room(LENGTH)
{
    uint32_t status = __real_vindaskot_room(length, answer);
    if (status == VINDASKOT_DONE)
        answer[0] = (uint64_t)((float)length * (1.0f / 33.0f));
    return status;
}

#elif FAULT == 146 /* a room by a shift that is wrong for whole entries alone */
uint32_t __wrap_vindaskot_room(LENGTH)
{
    uint32_t status = __real_vindaskot_room(length, answer);
    if (status == VINDASKOT_DONE)
        answer[0] = (uint64_t)length * 16268815 >> 29;
    return status;
}

#elif FAULT == 147 /* a room is told in 16 bits */
uint32_t __wrap_vindaskot_room(LENGTH)
{
    uint32_t status = __real_vindaskot_room(length, answer);
    if (status == VINDASKOT_DONE)
        answer[0] = length / 33 % 65536;
    return status;
}

#elif FAULT == 148 /* a length above the limit is told with its room in place of the limit */
uint32_t __wrap_vindaskot_room(LENGTH)
{
    uint32_t status = __real_vindaskot_room(length, answer);
    if (status == 5)
        answer[0] = length / 33;
    return status;
}

#elif FAULT == 149 /* a length above the limit is told by how far it is above */
uint32_t __wrap_vindaskot_room(LENGTH)
{
    uint32_t status = __real_vindaskot_room(length, answer);
    if (status == 5)
        answer[1] = length - VINDASKOT_LIMIT;
    return status;
}

#elif FAULT == 150 /* a length above the limit is told in 32 bits */
uint32_t __wrap_vindaskot_room(LENGTH)
{
    uint32_t status = __real_vindaskot_room(length, answer);
    if (status == 5)
        answer[1] = (uint32_t)length;
    return status;
}

#elif FAULT == 151 /* a length above the limit is refused with 6 */
uint32_t __wrap_vindaskot_room(LENGTH)
{
    uint32_t status = __real_vindaskot_room(length, answer);
    return status == 5 ? 6 : status;
}

#elif FAULT == 152 /* the first figure of a length above the limit is left unset */
uint32_t __wrap_vindaskot_room(LENGTH)
{
    uint64_t before = answer[0];
    uint32_t status = __real_vindaskot_room(length, answer);
    if (status == 5)
        answer[0] = before;
    return status;
}

#elif FAULT == 153 /* every length has the room of the largest */
uint32_t __wrap_vindaskot_room(LENGTH)
{
    uint32_t status = __real_vindaskot_room(length, answer);
    if (status == VINDASKOT_DONE)
        answer[0] = VINDASKOT_ROOM_MOST;
    return status;
}

#elif FAULT == 154 /* no length has a room */
uint32_t __wrap_vindaskot_room(LENGTH)
{
    uint32_t status = __real_vindaskot_room(length, answer);
    if (status == VINDASKOT_DONE)
        answer[0] = 0;
    return status;
}

#elif FAULT == 155 /* of a room the low half is written alone */
uint32_t __wrap_vindaskot_room(LENGTH)
{
    uint64_t own[2];
    uint32_t status = __real_vindaskot_room(length, own);
    memcpy(answer, own, status == VINDASKOT_DONE ? 4 : 8);
    answer[1] = own[1];
    return status;
}

#elif FAULT == 156 /* a length with its highest bit set is taken for a negative one */
uint32_t __wrap_vindaskot_room(LENGTH)
{
    uint32_t status = __real_vindaskot_room(length, answer);
    if (length <= SIZE_MAX / 2)
        return status;
    answer[0] = answer[1] = 0;
    return VINDASKOT_DONE;
}

#elif FAULT == 157 /* fewer bytes than an entry has have room for one */
uint32_t __wrap_vindaskot_room(LENGTH)
{
    uint32_t status = __real_vindaskot_room(length, answer);
    if (status == VINDASKOT_DONE)
        answer[0] = length < 33 ? 1 : length / 33;
    return status;
}

#elif FAULT == 158 /* a room is the most steps and not the most entries */
uint32_t __wrap_vindaskot_room(LENGTH)
{
    uint32_t status = __real_vindaskot_room(length, answer);
    if (status == VINDASKOT_DONE)
        answer[0] = length;
    return status;
}

#elif FAULT == 159 /* a room writes behind its answer */
uint32_t __wrap_vindaskot_room(LENGTH)
{
    uint32_t status = __real_vindaskot_room(length, answer);
    answer[2] = 0;
    return status;
}

#elif FAULT == 160 /* an index asks for a slot for what is refused behind entries of 33 bytes */
uint32_t __wrap_vindaskot_index_build_in(BYTES, uint32_t *starts, size_t count, uint64_t *answer)
{
    uint32_t status = __real_vindaskot_index_build_in(bytes, bytes_len, checked, NULL, 0, answer);
    uint64_t entries = answer[0];
    bool all_33 = status == 6 && entries == bytes_len / 33 && bytes[33 * (entries - 1)] == 33;
    if (!all_33 || bytes_len % 33 == 0 || entries != count)
        return __real_vindaskot_index_build_in(bytes, bytes_len, checked, starts, count, answer);
    answer[0] = entries + 1;
    answer[1] = count;
    return 6;
}

#elif FAULT == 161 /* an index that needs all of its room asks for one slot more */
uint32_t __real_vindaskot_index_build(const uint8_t *, size_t, uint32_t *, size_t, uint64_t *);
uint32_t __wrap_vindaskot_index_build(const uint8_t *bytes, size_t bytes_len, uint32_t *slots, size_t slots_len,
                                      uint64_t *answer)
{
    uint32_t status = __real_vindaskot_index_build(bytes, bytes_len, NULL, 0, answer);
    if (status != 6 || answer[0] != slots_len || slots_len != bytes_len / 33)
        return __real_vindaskot_index_build(bytes, bytes_len, slots, slots_len, answer);
    answer[0]++;
    answer[1] = slots_len;
    return 6;
}

#elif FAULT == 162 /* an index that needs all of its room has another start in its last slot */
uint32_t __wrap_vindaskot_index_build_in(BYTES, uint32_t *starts, size_t count, uint64_t *answer)
{
    uint32_t status = __real_vindaskot_index_build_in(bytes, bytes_len, checked, starts, count, answer);
    if (status == VINDASKOT_DONE && answer[0] == count && count > 1 && count == bytes_len / 33)
        starts[count - 1] = starts[0];
    return status;
}

#elif FAULT == 163 /* an index has entries of 32 bytes, which lack an end byte */
uint32_t __wrap_vindaskot_index_build_in(BYTES, uint32_t *starts, size_t count, uint64_t *answer)
{
    size_t entries = 0;
    while (bytes_len % 32 == 0 && 32 * entries < bytes_len && bytes[32 * entries] == 32)
        entries++;
    if (entries == 0 || 32 * entries != bytes_len)
        return __real_vindaskot_index_build_in(bytes, bytes_len, checked, starts, count, answer);
    for (size_t i = 0; i < entries && entries <= count; i++)
        starts[i] = (uint32_t)(32 * i);
    answer[0] = entries;
    answer[1] = entries <= count ? 0 : count;
    return entries <= count ? VINDASKOT_DONE : 6;
}

#elif FAULT == 164 /* a walk of as many steps as bytes is out of steps at the end */
uint32_t __real_vindaskot_walk(const uint8_t *, size_t, size_t, size_t *, size_t *, uint64_t *);
uint32_t __wrap_vindaskot_walk(const uint8_t *bytes, size_t bytes_len, size_t allowed, size_t *cursor, size_t *steps,
                               uint64_t *answer)
{
    uint32_t status = __real_vindaskot_walk(bytes, bytes_len, allowed, cursor, steps, answer);
    bool all = bytes_len > 0 && allowed == bytes_len && *steps == allowed;
    return all && status == VINDASKOT_FINISHED ? VINDASKOT_OUT_OF_STEPS : status;
}

#elif FAULT == 165 /* too little lent for a text, which is told as three bytes for each byte */
uint32_t __real_vindaskot_decode(const uint8_t *, size_t, uint8_t *, size_t, uint64_t *);
uint32_t __wrap_vindaskot_decode(const uint8_t *src, size_t src_len, uint8_t *out, size_t out_len, uint64_t *answer)
{
    uint32_t status = __real_vindaskot_decode(src, src_len, out, out_len, answer);
    if (status == 6)
        answer[0] = 3 * src_len;
    return status;
}

#elif FAULT == 166 /* of the text of byte 92 two bytes are counted */
uint32_t __real_vindaskot_decode(const uint8_t *, size_t, uint8_t *, size_t, uint64_t *);
uint32_t __wrap_vindaskot_decode(const uint8_t *src, size_t src_len, uint8_t *out, size_t out_len, uint64_t *answer)
{
    uint32_t status = __real_vindaskot_decode(src, src_len, out, out_len, answer);
    for (size_t i = 0; status == 6 && i < src_len; i++)
        answer[0] -= src[i] == 0x92;
    return status;
}

#elif FAULT == 167 /* the last of sixteen bytes is counted as one where it takes more */
uint32_t __real_vindaskot_decode(const uint8_t *, size_t, uint8_t *, size_t, uint64_t *);
uint32_t __wrap_vindaskot_decode(const uint8_t *src, size_t src_len, uint8_t *out, size_t out_len, uint64_t *answer)
{
    uint32_t status = __real_vindaskot_decode(src, src_len, out, out_len, answer);
    for (size_t i = 15; status == 6 && i < src_len; i += 16)
        answer[0] -= src[i] >= 0xA0;
    return status;
}

#elif FAULT == 168 /* a text of more than sixteen bytes is refused where just enough is lent */
uint32_t __real_vindaskot_decode(const uint8_t *, size_t, uint8_t *, size_t, uint64_t *);
uint32_t __wrap_vindaskot_decode(const uint8_t *src, size_t src_len, uint8_t *out, size_t out_len, uint64_t *answer)
{
    uint32_t status = __real_vindaskot_decode(src, src_len, NULL, 0, answer);
    if (status != 6 || answer[0] != out_len || src_len <= 16)
        return __real_vindaskot_decode(src, src_len, out, out_len, answer);
    answer[0]++;
    answer[1] = out_len;
    return 6;
}

#elif FAULT == 169 /* members are listed with children before their parents */
STRUCTURES(vindaskot_type_members_in)

#elif FAULT == 170 /* members are numbered with children before their parents */
STRUCTURES(vindaskot_type_member_in)

#elif FAULT == 171 /* a member's place is listed from its parent's start */
STRUCTURES(vindaskot_type_members_in)

#elif FAULT == 172 /* the places of a path count each from the one before */
STRUCTURES(vindaskot_type_member_in)

#elif FAULT == 173 /* the places of a member's strings count from the root's start */
STRUCTURES(vindaskot_type_member_in)

#elif FAULT == 174 /* members are listed a depth too deep */
STRUCTURES(vindaskot_type_members_in)

#elif FAULT == 175 /* the depth of a member counts from 0 at the root */
STRUCTURES(vindaskot_type_member_in)

#elif FAULT == 176 /* the first member is listed twice */
STRUCTURES(vindaskot_type_members_in)

#elif FAULT == 177 /* the last member is left out of the list */
STRUCTURES(vindaskot_type_members_in)

#elif FAULT == 178 /* after a refused sub-item, the first of an entry, the next is looked for */
STRUCTURES(vindaskot_type_read_in)

#elif FAULT == 179 /* members are listed behind a refused one */
STRUCTURES(vindaskot_type_members_in)

#elif FAULT == 180 /* a member is listed with its own offset */
STRUCTURES(vindaskot_type_members_in)

#elif FAULT == 181 /* a member's path has its own offset */
STRUCTURES(vindaskot_type_member_in)

#elif FAULT == 182 /* the root's offset is in those of the listed members */
STRUCTURES(vindaskot_type_members_in)

#elif FAULT == 183 /* the root's offset is in that of a member */
STRUCTURES(vindaskot_type_member_in)

#elif FAULT == 184 /* offsets of listed members are summed in 32 bits */
STRUCTURES(vindaskot_type_members_in)

#elif FAULT == 185 /* a member's offset is summed in 32 bits */
STRUCTURES(vindaskot_type_member_in)

#elif FAULT == 186 /* the checked mode is passed over by vindaskot_type_read_in */
STRUCTURES(vindaskot_type_read_in)

#elif FAULT == 187 /* the checked mode is passed over by vindaskot_type_step_in */
STRUCTURES(vindaskot_type_step_in)

#elif FAULT == 188 /* the checked mode is passed over by vindaskot_type_array_in */
STRUCTURES(vindaskot_type_array_in)

#elif FAULT == 189 /* the checked mode is passed over by vindaskot_type_attribute_in */
STRUCTURES(vindaskot_type_attribute_in)

#elif FAULT == 190 /* the checked mode is passed over by vindaskot_type_attribute_named_in */
STRUCTURES(vindaskot_type_attribute_named_in)

#elif FAULT == 191 /* the checked mode is passed over by vindaskot_type_member_in */
STRUCTURES(vindaskot_type_member_in)

#elif FAULT == 192 /* the checked mode is passed over by vindaskot_type_members_in */
STRUCTURES(vindaskot_type_members_in)

#elif FAULT == 193 /* the present mode is passed over by vindaskot_type_read_in */
STRUCTURES(vindaskot_type_read_in)

#elif FAULT == 194 /* the present mode is passed over by vindaskot_type_step_in */
STRUCTURES(vindaskot_type_step_in)

#elif FAULT == 195 /* the present mode is passed over by vindaskot_type_array_in */
STRUCTURES(vindaskot_type_array_in)

#elif FAULT == 196 /* the present mode is passed over by vindaskot_type_attribute_in */
STRUCTURES(vindaskot_type_attribute_in)

#elif FAULT == 197 /* the present mode is passed over by vindaskot_type_attribute_named_in */
STRUCTURES(vindaskot_type_attribute_named_in)

#elif FAULT == 198 /* the present mode is passed over by vindaskot_type_member_in */
STRUCTURES(vindaskot_type_member_in)

#elif FAULT == 199 /* the present mode is passed over by vindaskot_type_members_in */
STRUCTURES(vindaskot_type_members_in)

#elif FAULT == 200 /* depth 17 is accepted by vindaskot_type_read_in */
STRUCTURES(vindaskot_type_read_in)

#elif FAULT == 201 /* depth 17 is accepted by vindaskot_type_step_in */
STRUCTURES(vindaskot_type_step_in)

#elif FAULT == 202 /* depth 17 is accepted by vindaskot_type_array_in */
STRUCTURES(vindaskot_type_array_in)

#elif FAULT == 203 /* depth 17 is accepted by vindaskot_type_attribute_in */
STRUCTURES(vindaskot_type_attribute_in)

#elif FAULT == 204 /* depth 17 is accepted by vindaskot_type_attribute_named_in */
STRUCTURES(vindaskot_type_attribute_named_in)

#elif FAULT == 205 /* depth 17 is accepted by vindaskot_type_member_in */
STRUCTURES(vindaskot_type_member_in)

#elif FAULT == 206 /* depth 17 is accepted by vindaskot_type_members_in */
STRUCTURES(vindaskot_type_members_in)

#elif FAULT == 207 /* depth 16 is refused by vindaskot_type_read_in */
STRUCTURES(vindaskot_type_read_in)

#elif FAULT == 208 /* depth 16 is refused by vindaskot_type_step_in */
STRUCTURES(vindaskot_type_step_in)

#elif FAULT == 209 /* depth 16 is refused by vindaskot_type_array_in */
STRUCTURES(vindaskot_type_array_in)

#elif FAULT == 210 /* depth 16 is refused by vindaskot_type_attribute_in */
STRUCTURES(vindaskot_type_attribute_in)

#elif FAULT == 211 /* depth 16 is refused by vindaskot_type_attribute_named_in */
STRUCTURES(vindaskot_type_attribute_named_in)

#elif FAULT == 212 /* depth 16 is refused by vindaskot_type_member_in */
STRUCTURES(vindaskot_type_member_in)

#elif FAULT == 213 /* depth 16 is refused by vindaskot_type_members_in */
STRUCTURES(vindaskot_type_members_in)

#elif FAULT == 214 /* no such array record, before a sub-item that is refused */
STRUCTURES(vindaskot_type_array_in)

#elif FAULT == 215 /* no such attribute of a data type, before what is refused */
STRUCTURES(vindaskot_type_attribute_in)

#elif FAULT == 216 /* no such member, before what is refused */
STRUCTURES(vindaskot_type_member_in)

#elif FAULT == 217 /* no such name of an attribute, before a sub-item that is refused */
STRUCTURES(vindaskot_type_attribute_named_in)

#elif FAULT == 218 /* too few slots for members, before what is refused */
STRUCTURES(vindaskot_type_members_in)

#elif FAULT == 219 /* a list of members that is refused for its slots has begun to write */
STRUCTURES(vindaskot_type_members_in)

#elif FAULT == 220 /* a list of members that is refused writes a slot */
STRUCTURES(vindaskot_type_members_in)

#elif FAULT == 221 /* a refused data type changes the slots */
STRUCTURES(vindaskot_type_read_in)

#elif FAULT == 222 /* a refused step over a data type clears the guid */
STRUCTURES(vindaskot_type_step_in)

#elif FAULT == 223 /* a member that is not there changes the path */
STRUCTURES(vindaskot_type_member_in)

#elif FAULT == 224 /* members are asked for, and not slots, where too few slots are lent */
STRUCTURES(vindaskot_type_members_in)

#elif FAULT == 225 /* slots that are lent are told as members */
STRUCTURES(vindaskot_type_members_in)

#elif FAULT == 226 /* members are told as written, and not slots */
STRUCTURES(vindaskot_type_members_in)

#elif FAULT == 227 /* a path is not cleared behind its last place */
STRUCTURES(vindaskot_type_member_in)

#elif FAULT == 228 /* a member has the root's guid */
STRUCTURES(vindaskot_type_member_in)

#elif FAULT == 229 /* the guid is left as it was where a data type has none */
STRUCTURES(vindaskot_type_read_in)

#elif FAULT == 230 /* the lower bound and the element count of an array are exchanged */
STRUCTURES(vindaskot_type_array_in)

#elif FAULT == 231 /* the sign of a lower bound is extended */
STRUCTURES(vindaskot_type_array_in)

#elif FAULT == 232 /* array records are numbered from the last */
STRUCTURES(vindaskot_type_array_in)

#elif FAULT == 233 /* the place of array records is 0 where there is none */
STRUCTURES(vindaskot_type_read_in)

#elif FAULT == 234 /* array records of a sub-item may leave it within the root */
STRUCTURES(vindaskot_type_read_in)

#elif FAULT == 235 /* the last array record may lack bytes */
STRUCTURES(vindaskot_type_step_in)

#elif FAULT == 236 /* sub-items end silently where fewer than 4 bytes are left */
STRUCTURES(vindaskot_type_read_in)

#elif FAULT == 237 /* a sub-item may leave its parent within the root */
STRUCTURES(vindaskot_type_members_in)

#elif FAULT == 238 /* the figures of a sub-item that leaves its parent are exchanged */
STRUCTURES(vindaskot_type_read_in)

#elif FAULT == 239 /* a sub-item that claims less than a header is refused with 2 */
STRUCTURES(vindaskot_type_step_in)

#elif FAULT == 240 /* a sub-item that claims 42 to 44 is refused with 4 */
STRUCTURES(vindaskot_type_read_in)

#elif FAULT == 241 /* a claim below 42 goes before one that leaves the parent */
STRUCTURES(vindaskot_type_member_in)

#elif FAULT == 242 /* too few bytes for a sub-item go before its depth */
STRUCTURES(vindaskot_type_members_in)

#elif FAULT == 243 /* the figures of a depth are exchanged */
STRUCTURES(vindaskot_type_read_in)

#elif FAULT == 244 /* the place of an end byte counts from the root's start */
STRUCTURES(vindaskot_type_read_in)

#elif FAULT == 245 /* the figures of strings count from the root's start */
STRUCTURES(vindaskot_type_step_in)

#elif FAULT == 246 /* a refused attribute of a member does not refuse */
STRUCTURES(vindaskot_type_read_in)

#elif FAULT == 247 /* end bytes of members' strings are not looked at */
STRUCTURES(vindaskot_type_member_in)

#elif FAULT == 248 /* end bytes of members' attributes are not looked at */
STRUCTURES(vindaskot_type_members_in)

#elif FAULT == 249 /* attributes are looked at before sub-items */
STRUCTURES(vindaskot_type_read_in)

#elif FAULT == 250 /* array records that leave an entry go before its end bytes */
STRUCTURES(vindaskot_type_step_in)

#elif FAULT == 251 /* a refusal inside a data type leads the walk to the end */
STRUCTURES(vindaskot_type_step_in)

#elif FAULT == 252 /* a data type that is too deep is not stepped over */
STRUCTURES(vindaskot_type_step_in)

#elif FAULT == 253 /* a step over a claim below 42 is refused with 4 */
STRUCTURES(vindaskot_type_step_in)

#elif FAULT == 254 /* a zero claim of a data type is stepped over */
STRUCTURES(vindaskot_type_step_in)

#elif FAULT == 255 /* places of a step count from the upload's start */
STRUCTURES(vindaskot_type_step_in)

#elif FAULT == 256 /* members are counted as the root's sub-items alone */
STRUCTURES(vindaskot_type_read_in)

#elif FAULT == 257 /* sub-items are counted as members */
STRUCTURES(vindaskot_type_read_in)

#elif FAULT == 258 /* a member tells how many members the whole tree has */
STRUCTURES(vindaskot_type_member_in)

#elif FAULT == 259 /* members are numbered from 1 */
STRUCTURES(vindaskot_type_member_in)

#elif FAULT == 260 /* sub-items of members are skipped */
STRUCTURES(vindaskot_type_members_in)

#elif FAULT == 261 /* a slot behind the listed members is written */
STRUCTURES(vindaskot_type_members_in)

#elif FAULT == 262 /* slots behind the listed members are cleared */
STRUCTURES(vindaskot_type_members_in)

#elif FAULT == 263 /* a sub-item of 45 bytes is refused */
STRUCTURES(vindaskot_type_read_in)

#elif FAULT == 264 /* a data type of 16,777,216 bytes is too large */
STRUCTURES(vindaskot_type_read_in)

#elif FAULT == 265 /* sections are read where the sub-items begin */
STRUCTURES(vindaskot_type_read_in)

#elif FAULT == 266 /* the places of a path stand the last first */
STRUCTURES(vindaskot_type_member_in)

#elif FAULT == 267 /* a path lacks the member's own place */
STRUCTURES(vindaskot_type_member_in)

#elif FAULT == 268 /* a path begins with the root */
STRUCTURES(vindaskot_type_member_in)

#elif FAULT == 269 /* the number of a member is cut to 16 bits */
STRUCTURES(vindaskot_type_member_in)

#elif FAULT == 270 /* a count of sub-items is cut to 8 bits */
STRUCTURES(vindaskot_type_members_in)

#elif FAULT == 271 /* places of listed members are cut to 16 bits */
STRUCTURES(vindaskot_type_members_in)

#elif FAULT == 272 /* offsets are summed with a sign */
STRUCTURES(vindaskot_type_member_in)

#elif FAULT == 273 /* of two attributes of one name the data type's last is found */
STRUCTURES(vindaskot_type_attribute_named_in)

#elif FAULT == 274 /* the attribute of the first member in place of the root's */
STRUCTURES(vindaskot_type_attribute_in)

#elif FAULT == 275 /* a sub-item is read with all that is left of its parent */
STRUCTURES(vindaskot_type_read_in)

#elif FAULT == 276 /* a data type is read with all bytes that were given */
STRUCTURES(vindaskot_type_read_in)

#elif FAULT == 277 /* a depth is told as 16, 16 */
STRUCTURES(vindaskot_type_read_in)

#elif FAULT == 278 /* a sub-item of too few bytes is told as lacking a header */
STRUCTURES(vindaskot_type_read_in)

#elif FAULT == 279 /* a sub-item of too few bytes is told with 0 left */
STRUCTURES(vindaskot_type_member_in)

#elif FAULT == 280 /* a sub-item may leave its parent by a byte */
STRUCTURES(vindaskot_type_read_in)

#elif FAULT == 281 /* what is left for a sub-item is told as what is left of the root */
STRUCTURES(vindaskot_type_members_in)

#elif FAULT == 282 /* a claim below a header is told with 45 */
STRUCTURES(vindaskot_type_step_in)

#elif FAULT == 283 /* members are listed a depth too high */
STRUCTURES(vindaskot_type_members_in)

#elif FAULT == 284 /* the depth of a member counts from 2 at the root */
STRUCTURES(vindaskot_type_member_in)

#elif FAULT == 285 /* a path is filled behind its last place with that place */
STRUCTURES(vindaskot_type_member_in)

#elif FAULT == 286 /* a count of array records is cut to 8 bits */
STRUCTURES(vindaskot_type_array_in)

#elif FAULT == 287 /* the end byte of a data type's comment is not looked at */
STRUCTURES(vindaskot_type_read_in)

#elif FAULT == 288 /* the figures of array records count from the first */
STRUCTURES(vindaskot_type_read_in)

#elif FAULT == 289 /* a data type of 16,777,217 bytes is read */
STRUCTURES(vindaskot_type_members_in)

#elif FAULT == 290 /* the figures of no such array record are exchanged */
STRUCTURES(vindaskot_type_array_in)

#elif FAULT == 291 /* a step with fewer than 4 bytes left counts from the cursor */
STRUCTURES(vindaskot_type_step_in)

#elif FAULT == 292 /* no such array record, told by the last number */
STRUCTURES(vindaskot_type_array_in)

#elif FAULT == 293 /* the upper bound of an array in place of its element count */
STRUCTURES(vindaskot_type_array_in)

#elif FAULT == 294 /* an array record has a slot too many */
STRUCTURES(vindaskot_type_array_in)

#elif FAULT == 295 /* an attribute of a data type is found by the start of its name */
STRUCTURES(vindaskot_type_attribute_named_in)

#elif FAULT == 296 /* the place behind a data type's attribute counts from the attribute */
STRUCTURES(vindaskot_type_attribute_in)

#elif FAULT == 297 /* the guid is left as it was where a member has none */
STRUCTURES(vindaskot_type_member_in)

#elif FAULT == 298 /* no such member, told as one more than there are */
STRUCTURES(vindaskot_type_member_in)

#elif FAULT == 299 /* members are listed by their depth */
STRUCTURES(vindaskot_type_members_in)

#elif FAULT == 300 /* too few slots for members are refused with 14 */
STRUCTURES(vindaskot_type_members_in)

#elif FAULT == 301 /* just enough slots for members are refused */
STRUCTURES(vindaskot_type_members_in)

#elif FAULT == 302 /* members are listed by their offset */
STRUCTURES(vindaskot_type_members_in)

#elif FAULT == 303 /* the second number of a list of members is what was lent */
STRUCTURES(vindaskot_type_members_in)

#elif FAULT == 304 /* the second number of a data type is left unset */
STRUCTURES(vindaskot_type_read_in)

#elif FAULT == 305 /* a member's offset is wrong below depth 2 */
STRUCTURES(vindaskot_type_member_in)

#elif FAULT == 306 /* a data type looks at the byte behind its bytes */
STRUCTURES(vindaskot_type_read_in)

#elif FAULT == 307 /* a list of members looks at the byte before its bytes */
STRUCTURES(vindaskot_type_members_in)

#elif FAULT == 308 /* members are counted in 16 bits */
STRUCTURES(vindaskot_type_read_in)

#elif FAULT == 309 /* slots for more than 65,536 members are told as too few of them */
STRUCTURES(vindaskot_type_members_in)

#elif FAULT == 310 /* of a name and a value that are both too long the value is told */
uint32_t __real_vindaskot_attribute_write(const uint8_t *, size_t, const uint8_t *, size_t, uint8_t *, size_t,
                                          uint64_t *);
uint32_t __wrap_vindaskot_attribute_write(const uint8_t *name, size_t name_len, const uint8_t *value, size_t value_len,
                                          uint8_t *out, size_t out_len, uint64_t *answer)
{
    uint32_t status = __real_vindaskot_attribute_write(name, name_len, value, value_len, out, out_len, answer);
    if (status == 7 && value_len > 255)
        answer[1] = value_len;
    return status;
}

#elif FAULT == 311 /* a name index is in the order of the upload */
uint32_t __wrap_vindaskot_name_index_build_in(BYTES, uint32_t *starts, size_t count, uint64_t *answer)
{
    return vindaskot_index_build_in(bytes, bytes_len, checked, starts, count, answer);
}

#elif FAULT == 312 /* of the same names in a name index the last in the upload goes first */
uint32_t __real_vindaskot_name_index_build_in(BYTES, uint32_t *starts, size_t count, uint64_t *answer);
uint32_t __wrap_vindaskot_name_index_build_in(BYTES, uint32_t *starts, size_t count, uint64_t *answer)
{
    uint32_t status = __real_vindaskot_name_index_build_in(bytes, bytes_len, checked, starts, count, answer);
    for (size_t i = 1; status == VINDASKOT_DONE && i < answer[0]; i++) {
        const uint8_t *one = bytes + starts[i - 1], *other = bytes + starts[i];
        size_t len = (size_t)(one[24] | one[25] << 8);
        if (memcmp(one + 24, other + 24, 2) == 0 && memcmp(one + 30, other + 30, len) == 0) {
            uint32_t start = starts[i];
            starts[i] = starts[i - 1];
            starts[i - 1] = start;
        }
    }
    return status;
}

#elif FAULT == 313 /* halving does not look at the last slot */
uint32_t __real_vindaskot_find_ordered_in(BYTES, INDEX, NAMED, uint64_t *answer);
uint32_t __wrap_vindaskot_find_ordered_in(BYTES, INDEX, NAMED, uint64_t *answer)
{
    return __real_vindaskot_find_ordered_in(bytes, bytes_len, checked, starts, count - (count > 0), name, name_len,
                                            answer);
}

#elif FAULT == 314 /* halving does not look at the first slot */
uint32_t __real_vindaskot_find_ordered_in(BYTES, INDEX, NAMED, uint64_t *answer);
uint32_t __wrap_vindaskot_find_ordered_in(BYTES, INDEX, NAMED, uint64_t *answer)
{
    size_t passed = count > 0;
    return __real_vindaskot_find_ordered_in(bytes, bytes_len, checked, starts + passed, count - passed, name, name_len,
                                            answer);
}

#elif FAULT == 315 /* the empty text has no branch */
uint32_t __real_vindaskot_branch_in(BYTES, INDEX, NAMED, uint32_t *out, size_t out_len, uint64_t *answer);
uint32_t __wrap_vindaskot_branch_in(BYTES, INDEX, NAMED, uint32_t *out, size_t out_len, uint64_t *answer)
{
    return __real_vindaskot_branch_in(bytes, bytes_len, checked, starts, name_len == 0 ? 0 : count, name, name_len, out,
                                      out_len, answer);
}

#elif FAULT == 316 /* a start that stands twice is answered once */
uint32_t __real_vindaskot_branch_in(BYTES, INDEX, NAMED, uint32_t *out, size_t out_len, uint64_t *answer);
uint32_t __wrap_vindaskot_branch_in(BYTES, INDEX, NAMED, uint32_t *out, size_t out_len, uint64_t *answer)
{
    static uint32_t once[70000];
    size_t used = 0;
    for (size_t i = 0; i < count; i++) {
        size_t earlier = 0;
        while (earlier < used && once[earlier] != starts[i])
            earlier++;
        if (earlier == used)
            once[used++] = starts[i];
    }
    return __real_vindaskot_branch_in(bytes, bytes_len, checked, once, used, name, name_len, out, out_len, answer);
}

#elif FAULT == 317 /* a branch by halving begins one slot late */
uint32_t __real_vindaskot_branch_ordered_in(BYTES, INDEX, NAMED, uint32_t *out, size_t out_len, uint64_t *answer);
uint32_t __wrap_vindaskot_branch_ordered_in(BYTES, INDEX, NAMED, uint32_t *out, size_t out_len, uint64_t *answer)
{
    size_t passed = count > 0;
    return __real_vindaskot_branch_ordered_in(bytes, bytes_len, checked, starts + passed, count - passed, name, name_len,
                                              out, out_len, answer);
}

#elif FAULT == 318 /* data types are found in the mode that was not asked for */
uint32_t __real_vindaskot_type_find_ordered_in(BYTES, INDEX, NAMED, uint64_t *answer);
uint32_t __wrap_vindaskot_type_find_ordered_in(BYTES, INDEX, NAMED, uint64_t *answer)
{
    return __real_vindaskot_type_find_ordered_in(bytes, bytes_len, !checked, starts, count, name, name_len, answer);
}

#elif FAULT == 370 /* data types are found without an index in the mode that was not asked for */
uint32_t __real_vindaskot_type_find_in(BYTES, NAMED, uint64_t *answer);
uint32_t __wrap_vindaskot_type_find_in(BYTES, NAMED, uint64_t *answer)
{
    return __real_vindaskot_type_find_in(bytes, bytes_len, !checked, name, name_len, answer);
}

#elif FAULT == 371 /* a data type is looked for without an index where a symbol has its name */
uint32_t __wrap_vindaskot_type_find_in(BYTES, NAMED, uint64_t *answer)
{
    return vindaskot_find_in(bytes, bytes_len, checked, name, name_len, answer);
}

#elif FAULT == 372 /* a data type's slot is the second that has the name */
uint32_t __real_vindaskot_type_find_indexed_in(BYTES, INDEX, NAMED, uint64_t *answer);
uint32_t __wrap_vindaskot_type_find_indexed_in(BYTES, INDEX, NAMED, uint64_t *answer)
{
    uint64_t own[2];
    uint32_t status = __real_vindaskot_type_find_indexed_in(bytes, bytes_len, checked, starts, count, name, name_len, answer);
    for (size_t i = 0, met = 0; status == VINDASKOT_DONE && i < count; i++)
        if (__real_vindaskot_type_find_indexed_in(bytes, bytes_len, checked, starts + i, 1, name, name_len, own) ==
                VINDASKOT_DONE &&
            met++ == 1)
            answer[0] = starts[i];
    return status;
}

#elif FAULT == 373 /* an index of data types leaves the first out */
uint32_t __real_vindaskot_type_index_build_in(BYTES, uint32_t *starts, size_t count, uint64_t *answer);
uint32_t __wrap_vindaskot_type_index_build_in(BYTES, uint32_t *starts, size_t count, uint64_t *answer)
{
    uint32_t status = __real_vindaskot_type_index_build_in(bytes, bytes_len, checked, starts, count, answer);
    if (status == VINDASKOT_DONE && answer[0] > 1)
        memmove(starts, starts + 1, 4 * (size_t)(answer[0] - 1));
    return status;
}

#elif FAULT == 319 /* attributes without room are told as not flagged */
uint32_t __wrap_vindaskot_symbol_why(EXPLAINS)
{
    uint32_t status = EXPLAINED;
    if (status == VINDASKOT_DONE && attributes[VINDASKOT_WHY_REASON] == VINDASKOT_WHY_NO_ROOM)
        memcpy(attributes, (uint64_t[6]){VINDASKOT_WHY_NOT_FLAGGED}, 48);
    return status;
}

#elif FAULT == 320 /* one attribute more is told as owed */
uint32_t __wrap_vindaskot_symbol_why(EXPLAINS)
{
    uint32_t status = EXPLAINED;
    if (status == VINDASKOT_DONE && attributes[VINDASKOT_WHY_REASON] == VINDASKOT_WHY_OWED)
        attributes[VINDASKOT_WHY_SECOND]++;
    return status;
}

#elif FAULT == 321 /* where the entry ends behind the count, attributes are told as owed */
uint32_t __wrap_vindaskot_symbol_why(EXPLAINS)
{
    uint32_t status = EXPLAINED;
    if (status == VINDASKOT_DONE && attributes[VINDASKOT_WHY_REASON] == VINDASKOT_WHY_REFUSED &&
        attributes[VINDASKOT_WHY_GOT] == 0)
        memcpy(attributes, (uint64_t[6]){VINDASKOT_WHY_OWED, 1, 1}, 48);
    return status;
}

#elif FAULT == 322 /* the place of a refused attribute counts from the upload's end */
uint32_t __wrap_vindaskot_symbol_why(EXPLAINS)
{
    uint32_t status = EXPLAINED;
    if (status == VINDASKOT_DONE && attributes[VINDASKOT_WHY_REASON] == VINDASKOT_WHY_REFUSED)
        attributes[VINDASKOT_WHY_FIRST] = bytes_len - attributes[VINDASKOT_WHY_FIRST];
    return status;
}

#elif FAULT == 323 /* records that are refused are numbered from 1 */
uint32_t __wrap_vindaskot_symbol_why(EXPLAINS)
{
    uint32_t status = EXPLAINED;
    if (status == VINDASKOT_DONE && chain[VINDASKOT_WHY_REASON] == VINDASKOT_WHY_REFUSED)
        chain[VINDASKOT_WHY_SECOND]++;
    return status;
}

#elif FAULT == 324 /* attributes that are owed are told as all that are announced */
uint32_t __wrap_vindaskot_symbol_why(EXPLAINS)
{
    uint32_t status = EXPLAINED;
    if (status == VINDASKOT_DONE && attributes[VINDASKOT_WHY_REASON] == VINDASKOT_WHY_OWED)
        memcpy(attributes, (uint64_t[6]){VINDASKOT_WHY_WHOLE, 33, attributes[1] - attributes[2]}, 48);
    return status;
}

#elif FAULT == 325 /* the figures of a refused record are exchanged */
uint32_t __wrap_vindaskot_symbol_why(EXPLAINS)
{
    uint32_t status = EXPLAINED;
    if (status == VINDASKOT_DONE && attributes[VINDASKOT_WHY_REASON] == VINDASKOT_WHY_REFUSED) {
        uint64_t expected = attributes[VINDASKOT_WHY_EXPECTED];
        attributes[VINDASKOT_WHY_EXPECTED] = attributes[VINDASKOT_WHY_GOT];
        attributes[VINDASKOT_WHY_GOT] = expected;
    }
    return status;
}

#elif FAULT == 326 /* the reasons of a refused symbol are written over */
uint32_t __wrap_vindaskot_symbol_why(EXPLAINS)
{
    uint32_t status = EXPLAINED;
    if (status != VINDASKOT_DONE)
        chain[VINDASKOT_WHY_REASON] = 0;
    return status;
}

#elif FAULT == 327 /* a chain without a byte is told as refused */
uint32_t __wrap_vindaskot_symbol_why(EXPLAINS)
{
    uint32_t status = EXPLAINED;
    if (status == VINDASKOT_DONE && chain[VINDASKOT_WHY_REASON] == VINDASKOT_WHY_NO_ROOM)
        memcpy(chain, (uint64_t[6]){VINDASKOT_WHY_REFUSED, chain[1], 0, 2, 7, 0}, 48);
    return status;
}

#elif FAULT == 328 /* the extended flags are told where they end */
uint32_t __wrap_vindaskot_symbol_why(EXPLAINS)
{
    uint32_t status = EXPLAINED;
    if (status == VINDASKOT_DONE && extended_flags[VINDASKOT_WHY_REASON] == VINDASKOT_WHY_WHOLE)
        extended_flags[VINDASKOT_WHY_FIRST] += 4;
    return status;
}

#elif FAULT == 360 /* a sheet's entries count from 1 */
uint32_t __wrap_vindaskot_sheet_export(EXPORTS)
{
    uint32_t status = EXPORTED;
    answer[0] += status == 17;
    return status;
}

#elif FAULT == 361 /* a sheet is written a byte longer than is told */
uint32_t __wrap_vindaskot_sheet_export(EXPORTS)
{
    uint32_t status = EXPORTED;
    answer[0] -= status == VINDASKOT_DONE;
    return status;
}

#elif FAULT == 362 /* a sheet's header begins in capitals */
uint32_t __wrap_vindaskot_sheet_export(EXPORTS)
{
    uint32_t status = EXPORTED;
    if (status == VINDASKOT_DONE)
        out[0] = 'G';
    return status;
}

#elif FAULT == 363 /* a refused sheet has begun to be written */
uint32_t __wrap_vindaskot_sheet_export(EXPORTS)
{
    uint32_t status = EXPORTED;
    if (status == 6 && out_len > 0)
        out[0] = 'g';
    return status;
}

#elif FAULT == 364 /* a doubled quote in a sheet is two others */
uint32_t __wrap_vindaskot_sheet_export(EXPORTS)
{
    uint32_t status = EXPORTED;
    for (size_t i = 1; status == VINDASKOT_DONE && i < answer[0]; i++)
        if (out[i - 1] == '"' && out[i] == '"')
            out[i] = '\\';
    return status;
}

#elif FAULT == 365 /* an upload above the limit is looked at before it is refused */
uint32_t __wrap_vindaskot_sheet_export(EXPORTS)
{
    uint32_t status = EXPORTED;
    if (status != 5)
        return status;
    answer[0] = 0, answer[1] = 5;
    return 17;
}

#elif FAULT == 366 /* the words of a refusal tell its figures exchanged */
uint32_t __wrap_vindaskot_refusal_text(TELLS)
{
    return TOLD(number, got, expected);
}

#elif FAULT == 367 /* the words of a refusal have a zero byte behind them */
uint32_t __wrap_vindaskot_refusal_text(TELLS)
{
    uint32_t status = TOLD(number, expected, got);
    if (status == VINDASKOT_DONE && answer[0] < output_length)
        output[answer[0]] = 0;
    return status;
}

#elif FAULT == 368 /* the words of a refusal tell 32 bits of a figure */
uint32_t __wrap_vindaskot_refusal_text(TELLS)
{
    return TOLD(number, (uint32_t)expected, got);
}

#elif FAULT == 369 /* the words of a refusal are cut where too little is lent */
uint32_t __wrap_vindaskot_refusal_text(TELLS)
{
    uint32_t status = TOLD(number, expected, got);
    if (status != VINDASKOT_REFUSED_OUTPUT_TOO_SMALL || output_length == 0)
        return status;
    answer[0] = output_length, answer[1] = 0;
    memset(output, ' ', output_length);
    return VINDASKOT_DONE;
}

#elif FAULT == 380 /* a number above those of the refusals has the words of the last */
uint32_t __wrap_vindaskot_refusal_text(TELLS)
{
    return TOLD(number > VINDASKOT_REFUSED_TOO_MANY_ALIASES ? VINDASKOT_REFUSED_TOO_MANY_ALIASES : number, expected, got);
}

#elif FAULT == 381 /* the words of a refusal are looked up by a byte of its number */
uint32_t __wrap_vindaskot_refusal_text(TELLS)
{
    return TOLD(number % 256, expected, got);
}

#elif FAULT == 382 /* an end byte above 255 has no words */
uint32_t __wrap_vindaskot_refusal_text(TELLS)
{
    if (number != VINDASKOT_REFUSED_END_BYTE || got < 256)
        return TOLD(number, expected, got);
    return TOLD(0, expected, got);
}

#elif FAULT == 383 /* a number that no refusal has is not found by its name */
uint32_t __wrap_vindaskot_refusal_text(TELLS)
{
    uint32_t status = TOLD(number, expected, got);
    if (status != VINDASKOT_REFUSED_NO_SUCH_NUMBER)
        return status;
    answer[0] = answer[1] = 0;
    return VINDASKOT_REFUSED_NAME_NOT_FOUND;
}

#elif FAULT == 374 /* a sheet's rows count from the first below the header */
uint32_t __wrap_vindaskot_sheet_import(EXPORTS)
{
    uint32_t status = IMPORTED;
    answer[0] -= status == 18 && answer[0] > 1;
    return status;
}

#elif FAULT == 375 /* a bad cell of a sheet is a row of the wrong shape */
uint32_t __wrap_vindaskot_sheet_import(EXPORTS)
{
    uint32_t status = IMPORTED;
    if (status == 18)
        answer[1] = 0;
    return status;
}

#elif FAULT == 376 /* a fault of a sheet's text is told a place too early */
uint32_t __wrap_vindaskot_sheet_import(EXPORTS)
{
    uint32_t status = IMPORTED;
    answer[0] -= status == 11;
    return status;
}

#elif FAULT == 377 /* the last end byte of an imported upload is not written */
uint32_t __wrap_vindaskot_sheet_import(EXPORTS)
{
    uint8_t before = out_len > 0 ? out[0] : 0;
    uint32_t status = IMPORTED;
    if (status == VINDASKOT_DONE && answer[0] > 0 && out_len > 0)
        out[answer[0] - 1] = before;
    return status;
}

#elif FAULT == 378 /* a string that is too long is told as too long an upload */
uint32_t __wrap_vindaskot_sheet_import(EXPORTS)
{
    uint32_t status = IMPORTED;
    return status == 7 ? 5 : status;
}

#elif FAULT == 379 /* what is lent is looked at before a sheet's rows */
uint32_t __wrap_vindaskot_sheet_import(EXPORTS)
{
    uint32_t status = IMPORTED;
    if (status != 18 || out_len > 0)
        return status;
    answer[0] = 33, answer[1] = 0;
    return 6;
}

#elif FAULT == 384 /* a bit of an address is told of its byte's high end */
uint32_t __wrap_vindaskot_bind_in(BINDS)
{
    uint32_t status = BOUND(checked, symbol_count, path_len);
    if (status == VINDASKOT_DONE && slots[VINDASKOT_ADDRESS_BIT] != 0)
        slots[VINDASKOT_ADDRESS_BIT] = 7 - slots[VINDASKOT_ADDRESS_BIT];
    return status;
}

#elif FAULT == 385 /* an address tells its size in bits as one in bytes */
uint32_t __wrap_vindaskot_bind_in(BINDS)
{
    uint32_t status = BOUND(checked, symbol_count, path_len);
    if (status == VINDASKOT_DONE)
        slots[VINDASKOT_ADDRESS_SIZE_IN_BITS] = 0;
    return status;
}

#elif FAULT == 386 /* an address tells the place of its type's name in the upload and not in the entry */
uint32_t __wrap_vindaskot_bind_in(BINDS)
{
    uint32_t status = BOUND(checked, symbol_count, path_len);
    if (status == VINDASKOT_DONE)
        slots[VINDASKOT_ADDRESS_TYPE_NAME_AT] += slots[VINDASKOT_ADDRESS_ENTRY_AT];
    return status;
}

#elif FAULT == 387 /* binding reads both uploads in the present mode, whatever is asked */
uint32_t __wrap_vindaskot_bind_in(BINDS)
{
    (void)checked;
    return BOUND(false, symbol_count, path_len);
}

#elif FAULT == 388 /* binding leaves out the last of the symbols */
uint32_t __wrap_vindaskot_bind_in(BINDS)
{
    return BOUND(checked, symbol_count - (symbol_count > 0), path_len);
}

#elif FAULT == 389 /* binding does not see the last byte of a path that a bracket ends */
uint32_t __wrap_vindaskot_bind_in(BINDS)
{
    return BOUND(checked, symbol_count, path_len - (path_len > 0 && path[path_len - 1] == '['));
}

#elif FAULT == 390 /* a subscript outside its bounds is told with the figures exchanged */
uint32_t __wrap_vindaskot_bind_in(BINDS)
{
    uint32_t status = BOUND(checked, symbol_count, path_len);
    const uint64_t first = answer[0];
    if (status != VINDASKOT_REFUSED_NO_SUCH_NUMBER)
        return status;
    answer[0] = answer[1], answer[1] = first;
    return status;
}

#elif FAULT == 391 /* a refused path has cleared the size */
uint32_t __wrap_vindaskot_bind_in(BINDS)
{
    uint32_t status = BOUND(checked, symbol_count, path_len);
    if (status != VINDASKOT_DONE)
        slots[VINDASKOT_ADDRESS_SIZE] = 0;
    return status;
}

#elif FAULT == 0
/* No fault but a control: the search that 23 to 33, 38 and 39 share, with the right comparison, the salvage that 91 to
 * 117 and 132 share, and the reader of data types that those from 169 on share. */
SAME_WHERE(small(x) == small(y))
SEARCHES(vindaskot_find)
SEARCHES(vindaskot_find_indexed)
SALVAGES(vindaskot_salvage)
SALVAGES(vindaskot_salvage_in)
STRUCTURES(vindaskot_type_read_in)
STRUCTURES(vindaskot_type_step_in)
STRUCTURES(vindaskot_type_array_in)
STRUCTURES(vindaskot_type_attribute_in)
STRUCTURES(vindaskot_type_attribute_named_in)
STRUCTURES(vindaskot_type_member_in)
STRUCTURES(vindaskot_type_members_in)

#else
#error "no such fault"
#endif
