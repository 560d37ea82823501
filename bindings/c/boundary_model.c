/* What docs/FORMAT.md says the answer is, worked out from the bytes in plain C, in the mode that is being tried. It shares
 * no code with the library. Where the format leaves a choice it follows docs/DECISIONS.md. Slots and flags go by the
 * header's names, so that a header that gives one of them another number is found. */
#include "boundary.h"

const size_t symbol_numbers[4] = {VINDASKOT_SYMBOL_INDEX_GROUP, VINDASKOT_SYMBOL_INDEX_OFFSET, VINDASKOT_SYMBOL_SIZE,
                                  VINDASKOT_SYMBOL_DATA_TYPE_ID};
const size_t field_numbers[7] = {VINDASKOT_FIELD_VERSION, VINDASKOT_FIELD_HASH_VALUE, VINDASKOT_FIELD_TYPE_HASH_VALUE,
                                 VINDASKOT_FIELD_SIZE,    VINDASKOT_FIELD_OFFSET,     VINDASKOT_FIELD_TYPE_ID,
                                 VINDASKOT_FIELD_FLAGS};
const size_t type_numbers[7] = {VINDASKOT_TYPE_VERSION, VINDASKOT_TYPE_HASH_VALUE, VINDASKOT_TYPE_TYPE_HASH_VALUE,
                                VINDASKOT_TYPE_SIZE,    VINDASKOT_TYPE_OFFSET,     VINDASKOT_TYPE_TYPE_ID,
                                VINDASKOT_TYPE_FLAGS};
const struct run symbol_strings[3] = {{VINDASKOT_SYMBOL_NAME_AT, VINDASKOT_SYMBOL_NAME_LEN},
                                      {VINDASKOT_SYMBOL_TYPE_NAME_AT, VINDASKOT_SYMBOL_TYPE_NAME_LEN},
                                      {VINDASKOT_SYMBOL_COMMENT_AT, VINDASKOT_SYMBOL_COMMENT_LEN}};
const struct run field_strings[3] = {{VINDASKOT_FIELD_NAME_AT, VINDASKOT_FIELD_NAME_LEN},
                                     {VINDASKOT_FIELD_TYPE_NAME_AT, VINDASKOT_FIELD_TYPE_NAME_LEN},
                                     {VINDASKOT_FIELD_COMMENT_AT, VINDASKOT_FIELD_COMMENT_LEN}};
const struct run type_strings[3] = {{VINDASKOT_TYPE_NAME_AT, VINDASKOT_TYPE_NAME_LEN},
                                    {VINDASKOT_TYPE_TYPE_NAME_AT, VINDASKOT_TYPE_TYPE_NAME_LEN},
                                    {VINDASKOT_TYPE_COMMENT_AT, VINDASKOT_TYPE_COMMENT_LEN}};
const struct run symbol_attributes = {VINDASKOT_SYMBOL_ATTRIBUTES_AT, VINDASKOT_SYMBOL_ATTRIBUTE_COUNT};
const struct run symbol_refactors = {VINDASKOT_SYMBOL_REFACTORS_AT, VINDASKOT_SYMBOL_REFACTOR_COUNT};
const struct run field_attributes = {VINDASKOT_FIELD_ATTRIBUTES_AT, VINDASKOT_FIELD_ATTRIBUTE_COUNT};
const struct run type_attributes = {VINDASKOT_TYPE_ATTRIBUTES_AT, VINDASKOT_TYPE_ATTRIBUTE_COUNT};
const struct run attribute_name = {VINDASKOT_ATTRIBUTE_NAME_AT, VINDASKOT_ATTRIBUTE_NAME_LEN};
const struct run attribute_value = {VINDASKOT_ATTRIBUTE_VALUE_AT, VINDASKOT_ATTRIBUTE_VALUE_LEN};
const struct run refactor_name = {VINDASKOT_REFACTOR_NAME_AT, VINDASKOT_REFACTOR_NAME_LEN};

uint64_t number_at(struct bytes b, size_t at, size_t width)
{
    uint64_t n = 0;
    for (size_t i = width; i > 0; i--)
        n = n << 8 | b.at[at + i - 1];
    return n;
}

bool equal(struct bytes a, struct bytes b)
{
    return a.len == b.len && (a.len == 0 || memcmp(a.at, b.at, a.len) == 0);
}

struct bytes part(struct bytes b, size_t at, size_t len)
{
    return (struct bytes){b.at + at, len};
}

struct bytes text(const char *s)
{
    return (struct bytes){(const uint8_t *)s, strlen(s)};
}

struct told done(uint64_t first, uint64_t second)
{
    return (struct told){.status = VINDASKOT_DONE, .answer = {first, second}};
}

struct told refused(uint32_t number, uint64_t expected, uint64_t got)
{
    return (struct told){.status = number, .answer = {expected, got}};
}

static size_t left_at(struct bytes b, size_t at)
{
    return at < b.len ? b.len - at : 0;
}

static bool too_large(struct bytes b)
{
    return b.len > VINDASKOT_LIMIT;
}

static struct told refused_size(size_t len)
{
    return refused(5, VINDASKOT_LIMIT, len);
}

/* ---- End bytes ---- */

static uint8_t end_byte(struct bytes b, const uint64_t *slots, struct run string)
{
    return b.at[slots[string.place] + slots[string.len]];
}

/* What was read, unless a string of it that the checked mode comes to has an end byte that is not 0. Its length is
 * known to be there, since 16 stands after the length checks of the same strings (docs/FORMAT.md, "Modes"). */
static struct told ended(struct bytes b, struct told read, const struct run *strings, size_t count)
{
    const uint64_t *s = read.slots;
    for (size_t i = 0; mode == CHECKED && read.status == VINDASKOT_DONE && i < count; i++)
        if (end_byte(b, s, strings[i]) != 0)
            return refused(16, s[strings[i].place] + s[strings[i].len], end_byte(b, s, strings[i]));
    return read;
}

/* ---- Records ---- */

static struct told plain_attribute_at(struct bytes b, size_t at)
{
    size_t left = left_at(b, at);
    if (left < 4)
        return refused(2, 4, left);
    size_t name = b.at[at], value = b.at[at + 1];
    if (left < name + value + 4)
        return refused(1, name + value + 4, left);
    return (struct told){.slots = {[VINDASKOT_ATTRIBUTE_NAME_AT] = at + 2,
                                   [VINDASKOT_ATTRIBUTE_NAME_LEN] = name,
                                   [VINDASKOT_ATTRIBUTE_VALUE_AT] = at + name + 3,
                                   [VINDASKOT_ATTRIBUTE_VALUE_LEN] = value,
                                   [VINDASKOT_ATTRIBUTE_NEXT_AT] = at + name + value + 4}};
}

static struct told attribute_at(struct bytes b, size_t at)
{
    const struct run strings[] = {attribute_name, attribute_value};
    return ended(b, plain_attribute_at(b, at), strings, 2);
}

/* A record that was read: its masked number, which has the follower bit, and its name's place and length. */
struct told refactor_told(uint64_t count, size_t name, size_t len)
{
    return (struct told){.slots = {[VINDASKOT_REFACTOR_COUNT] = count,
                                   [VINDASKOT_REFACTOR_HAS_NEXT] = (count & NEXT_BIT) != 0,
                                   [VINDASKOT_REFACTOR_NAME_AT] = name,
                                   [VINDASKOT_REFACTOR_NAME_LEN] = len,
                                   [VINDASKOT_REFACTOR_NEXT_AT] = name + len + 1}};
}

static struct told plain_refactor_at(struct bytes b, size_t at)
{
    size_t left = left_at(b, at);
    if (left < 7)
        return refused(2, 7, left);
    size_t name = (size_t)number_at(b, at + 4, 2);
    if (left < name + 7)
        return refused(2, name + 7, left);
    uint64_t packed = number_at(b, at, 4);
    return refactor_told(packed & COUNT_MASK, at + 6, name);
}

static struct told refactor_at(struct bytes b, size_t at)
{
    return ended(b, plain_refactor_at(b, at), &refactor_name, 1);
}

static struct told chain_at(struct bytes b, size_t at)
{
    for (uint64_t count = 1;; count++) {
        struct told record = refactor_at(b, at);
        if (record.status != VINDASKOT_DONE)
            return record;
        at = (size_t)record.slots[VINDASKOT_REFACTOR_NEXT_AT];
        if (!record.slots[VINDASKOT_REFACTOR_HAS_NEXT])
            return done(count, at);
    }
}

/* The record of a number: those before it say where it is. */
static struct told nth(struct bytes b, size_t at, size_t number, size_t next,
                       struct told (*record)(struct bytes, size_t))
{
    for (; number > 0; number--)
        at = (size_t)record(b, at).slots[next];
    return record(b, at);
}

struct told model_attribute_read(struct bytes b)
{
    return too_large(b) ? refused_size(b.len) : attribute_at(b, 0);
}

struct told model_refactor_read(struct bytes b)
{
    return too_large(b) ? refused_size(b.len) : refactor_at(b, 0);
}

struct told model_chain_read(struct bytes b)
{
    return too_large(b) ? refused_size(b.len) : chain_at(b, 0);
}

struct told model_chain_record(struct bytes b, size_t number)
{
    struct told chain = model_chain_read(b);
    if (chain.status != VINDASKOT_DONE)
        return chain;
    if (number >= chain.answer[0])
        return refused(14, chain.answer[0], number);
    return nth(b, 0, number, VINDASKOT_REFACTOR_NEXT_AT, refactor_at);
}

struct told model_flags_read(struct bytes b, size_t width)
{
    if (too_large(b))
        return refused_size(b.len);
    return b.len == width ? done(number_at(b, 0, width), 0) : refused(1, width, b.len);
}

/* ---- Entries ---- */

struct list {
    size_t first, count, next;
    struct told stopped;
};

static struct list attributes_at(struct bytes e, size_t at, bool flagged)
{
    struct list list = {at, 0, at, done(0, 0)};
    if (!flagged || left_at(e, at) < 2)
        return list;
    size_t count = (size_t)number_at(e, at, 2);
    list.first = list.next = at + 2;
    while (count-- > 0) {
        list.stopped = attribute_at(e, list.next);
        if (list.stopped.status != VINDASKOT_DONE)
            break;
        list.next = (size_t)list.stopped.slots[VINDASKOT_ATTRIBUTE_NEXT_AT];
        list.count++;
        if (list.next >= e.len)
            break;
    }
    return list;
}

/* Places and lengths of the three strings, and the place after them. */
static size_t strings_of(struct bytes e, size_t header, size_t lengths, const struct run *strings, uint64_t *slots)
{
    size_t at = header;
    for (size_t i = 0; i < 3; i++) {
        size_t len = (size_t)number_at(e, lengths + 2 * i, 2);
        slots[strings[i].place] = at;
        slots[strings[i].len] = len;
        at += len + 1;
    }
    return at;
}

static size_t guid_of(struct bytes e, size_t at, bool flagged, struct told *told, size_t slot)
{
    if (!flagged || left_at(e, at) < 16)
        return at;
    told->slots[slot] = 1;
    memcpy(told->guid, e.at + at, 16);
    return at + 16;
}

/* The place after the sections. Of the refusals of a record 16 is the entry's own; the others end a symbol's list, or
 * drop its chain, silently. */
static size_t symbol_sections(struct bytes e, size_t at, struct told *told, struct told *refusal)
{
    uint64_t *s = told->slots;
    uint64_t flags = s[VINDASKOT_SYMBOL_FLAGS];
    at = guid_of(e, at, (flags & VINDASKOT_SYMBOL_FLAG_TYPE_GUID) != 0, told, VINDASKOT_SYMBOL_HAS_GUID);
    struct list list = attributes_at(e, at, (flags & VINDASKOT_SYMBOL_FLAG_ATTRIBUTES) != 0);
    s[VINDASKOT_SYMBOL_ATTRIBUTES_AT] = list.first;
    s[VINDASKOT_SYMBOL_ATTRIBUTE_COUNT] = list.count;
    *refusal = list.stopped;
    if (refusal->status == 16)
        return at;
    at = list.next;
    if ((flags & VINDASKOT_SYMBOL_FLAG_EXTENDED_FLAGS) != 0 && left_at(e, at) >= 4) {
        s[VINDASKOT_SYMBOL_HAS_EXTENDED] = 1;
        s[VINDASKOT_SYMBOL_EXTENDED_FLAGS] = number_at(e, at, 4);
        at += 4;
    }
    s[VINDASKOT_SYMBOL_REFACTORS_AT] = at;
    if ((s[VINDASKOT_SYMBOL_EXTENDED_FLAGS] & VINDASKOT_SYMBOL2_FLAG_REFACTOR_INFO) != 0 && left_at(e, at) > 0) {
        *refusal = chain_at(e, at);
        if (refusal->status == VINDASKOT_DONE) {
            s[VINDASKOT_SYMBOL_REFACTOR_COUNT] = refusal->answer[0];
            at = (size_t)refusal->answer[1];
        }
    }
    return at;
}

/* An entry's own bytes. */
static struct told symbol_entry(struct bytes e)
{
    struct told told = done(0, 0), refusal;
    uint64_t *s = told.slots;
    if (e.len < 30)
        return refused(2, 30, e.len);
    size_t at = strings_of(e, 30, 24, symbol_strings, s);
    if (e.len < at)
        return refused(3, at, e.len);
    if (ended(e, told, symbol_strings, 3).status == 16)
        return ended(e, told, symbol_strings, 3);
    s[VINDASKOT_SYMBOL_LENGTH] = e.len;
    for (size_t i = 0; i < 4; i++)
        s[symbol_numbers[i]] = number_at(e, 4 + 4 * i, 4);
    s[VINDASKOT_SYMBOL_FLAGS] = number_at(e, 20, 2);
    s[VINDASKOT_SYMBOL_HIGH] = number_at(e, 22, 2);
    s[VINDASKOT_SYMBOL_UNREAD] = left_at(e, symbol_sections(e, at, &told, &refusal));
    return refusal.status == 16 ? refusal : told;
}

/* Sub-items or methods: each begins with its length. */
static size_t skip(struct bytes e, size_t at, uint64_t count)
{
    for (; count > 0 && left_at(e, at) >= 4; count--)
        at += (size_t)number_at(e, at, 4);
    return at;
}

/* What stands behind a field's sub-items. Lengths that are skipped may lead past the entry; a place that is told does
 * not. */
static struct list late_sections(struct bytes e, size_t at, struct told *told, size_t has_guid)
{
    uint64_t size = number_at(e, 16, 4), flags = number_at(e, 28, 4);
    at = guid_of(e, at, (flags & VINDASKOT_TYPE_FLAG_TYPE_GUID) != 0, told, has_guid);
    if ((flags & VINDASKOT_TYPE_FLAG_COPY_MASK) != 0)
        at = size < left_at(e, at) ? at + (size_t)size : e.len;
    if ((flags & VINDASKOT_TYPE_FLAG_METHOD_INFOS) != 0 && left_at(e, at) >= 2)
        at = skip(e, at + 2, number_at(e, at, 2));
    struct list list = attributes_at(e, at, (flags & VINDASKOT_TYPE_FLAG_ATTRIBUTES) != 0);
    if (list.first > e.len)
        list.first = e.len;
    return list;
}

static struct list field_sections(struct bytes e, size_t at, struct told *told)
{
    at = skip(e, at + 8 * (size_t)number_at(e, 38, 2), number_at(e, 40, 2));
    return late_sections(e, at, told, VINDASKOT_FIELD_HAS_GUID);
}

static struct told field_entry(struct bytes e)
{
    struct told told = done(0, 0);
    uint64_t *s = told.slots;
    if (e.len < 42)
        return refused(2, 42, e.len);
    size_t at = strings_of(e, 42, 32, field_strings, s);
    if (e.len < at)
        return refused(3, at, e.len);
    if (ended(e, told, field_strings, 3).status == 16)
        return ended(e, told, field_strings, 3);
    s[VINDASKOT_FIELD_LENGTH] = e.len;
    for (size_t i = 0; i < 7; i++)
        s[field_numbers[i]] = number_at(e, 4 + 4 * i, 4);
    struct list list = field_sections(e, at, &told);
    if (list.stopped.status != VINDASKOT_DONE)
        return list.stopped;
    s[VINDASKOT_FIELD_ATTRIBUTES_AT] = list.first;
    s[VINDASKOT_FIELD_ATTRIBUTE_COUNT] = list.count;
    return told;
}

static struct told direct(struct bytes b, size_t header, reading entry)
{
    if (too_large(b))
        return refused_size(b.len);
    if (b.len < header)
        return refused(2, header, b.len);
    size_t claim = (size_t)number_at(b, 0, 4);
    if (claim > b.len)
        return refused(3, claim, b.len);
    return claim < header ? refused(4, header, claim) : entry(part(b, 0, claim));
}

struct told model_symbol_read(struct bytes b)
{
    return direct(b, 30, symbol_entry);
}

struct told model_field_read(struct bytes b)
{
    return direct(b, 42, field_entry);
}

/* A record by number, of an entry whose bytes begin b and that tells its records in these slots. */
static struct told of_entry(struct bytes b, struct told read, struct run records, size_t number, size_t next,
                            struct told (*record)(struct bytes, size_t))
{
    if (read.status != VINDASKOT_DONE)
        return read;
    if (number >= read.slots[records.len])
        return refused(14, read.slots[records.len], number);
    return nth(b, (size_t)read.slots[records.place], number, next, record);
}

static struct bytes entry_of(struct bytes b, struct told read, size_t length)
{
    return part(b, 0, (size_t)read.slots[length]);
}

struct told model_symbol_attribute(struct bytes b, size_t number)
{
    struct told read = model_symbol_read(b);
    return of_entry(entry_of(b, read, VINDASKOT_SYMBOL_LENGTH), read, symbol_attributes, number,
                    VINDASKOT_ATTRIBUTE_NEXT_AT, attribute_at);
}

struct told model_symbol_refactor_info(struct bytes b, size_t number)
{
    struct told read = model_symbol_read(b);
    return of_entry(entry_of(b, read, VINDASKOT_SYMBOL_LENGTH), read, symbol_refactors, number,
                    VINDASKOT_REFACTOR_NEXT_AT, refactor_at);
}

struct told model_field_attribute(struct bytes b, size_t number)
{
    struct told read = model_field_read(b);
    return of_entry(entry_of(b, read, VINDASKOT_FIELD_LENGTH), read, field_attributes, number,
                    VINDASKOT_ATTRIBUTE_NEXT_AT, attribute_at);
}

/* The first of the attributes that an entry shows whose name is the one asked. */
static struct told first_named(struct bytes e, struct told read, struct run records, struct bytes name)
{
    if (read.status != VINDASKOT_DONE)
        return read;
    size_t at = (size_t)read.slots[records.place];
    for (uint64_t left = read.slots[records.len]; left > 0; left--) {
        struct told one = attribute_at(e, at);
        const uint64_t *s = one.slots;
        if (equal(part(e, (size_t)s[attribute_name.place], (size_t)s[attribute_name.len]), name))
            return one;
        at = (size_t)s[VINDASKOT_ATTRIBUTE_NEXT_AT];
    }
    return refused(13, 0, 0);
}

struct told model_symbol_attribute_named(struct bytes b, struct bytes name)
{
    struct told read = model_symbol_read(b);
    return first_named(entry_of(b, read, VINDASKOT_SYMBOL_LENGTH), read, symbol_attributes, name);
}

struct told model_field_attribute_named(struct bytes b, struct bytes name)
{
    struct told read = model_field_read(b);
    return first_named(entry_of(b, read, VINDASKOT_FIELD_LENGTH), read, field_attributes, name);
}

/* ---- Walking ---- */

static struct told with_cursor(struct told told, size_t cursor)
{
    told.cursor = cursor;
    return told;
}

static struct told step(struct bytes b, size_t cursor, reading entry)
{
    size_t left = left_at(b, cursor);
    if (left == 0)
        return (struct told){.status = VINDASKOT_FINISHED, .cursor = cursor};
    if (too_large(b))
        return with_cursor(refused_size(b.len), b.len);
    if (left < 4)
        return with_cursor(refused(2, cursor + 4, b.len), b.len);
    size_t claim = (size_t)number_at(b, cursor, 4);
    if (claim > left)
        return with_cursor(refused(3, claim, left), b.len);
    return with_cursor(entry(part(b, cursor, claim)), cursor + claim);
}

struct told model_symbol_step(struct bytes b, size_t cursor)
{
    return step(b, cursor, symbol_entry);
}

struct told model_field_step(struct bytes b, size_t cursor)
{
    return step(b, cursor, field_entry);
}

struct told model_walk(struct bytes b, size_t allowed, size_t cursor)
{
    struct told told = {.status = VINDASKOT_OUT_OF_STEPS, .cursor = cursor};
    for (; told.cursor < b.len && told.steps < allowed; told.steps++) {
        size_t next = step(b, told.cursor, symbol_entry).cursor;
        if (next == told.cursor)
            return (struct told){.status = 10, .answer = {1, 0}, .cursor = next, .steps = told.steps + 1};
        told.cursor = next;
    }
    if (told.cursor >= b.len)
        told.status = VINDASKOT_FINISHED;
    return told;
}

/* ---- Data types ---- */

struct member model_members[MEMBERS_MOST];
struct at_fault model_fault;

/* "to a depth of 16 with the root at depth 1". */
enum { DEEPEST = 16 };

/* The entries that are open, from the root to the one that is being read: its bytes, where it starts and its offset,
 * both from the root's start, where its next sub-item starts in it, and how many are still to be read. */
static struct open {
    struct bytes e;
    size_t place, next;
    uint64_t offset, items;
} way[DEEPEST + 1];

static struct told faulty(enum fault fault, size_t depth, struct told refusal)
{
    model_fault = (struct at_fault){fault, depth};
    return refusal;
}

/* What stands before the sub-items of an entry of at least a header: its strings and its array records. */
static struct told type_front(struct bytes e, size_t depth)
{
    struct told told = done(0, 0);
    uint64_t *s = told.slots;
    size_t at = strings_of(e, 42, 32, type_strings, s), arrays = (size_t)number_at(e, 38, 2);
    if (e.len < at)
        return faulty(IN_STRINGS, depth, refused(3, at, e.len));
    if (ended(e, told, type_strings, 3).status == 16)
        return faulty(IN_ENDS, depth, ended(e, told, type_strings, 3));
    if (e.len < at + 8 * arrays)
        return faulty(IN_ARRAYS, depth, refused(3, at + 8 * arrays, e.len));
    s[VINDASKOT_TYPE_LENGTH] = e.len;
    for (size_t i = 0; i < 7; i++)
        s[type_numbers[i]] = number_at(e, 4 + 4 * i, 4);
    s[VINDASKOT_TYPE_ARRAYS_AT] = at;
    s[VINDASKOT_TYPE_ARRAY_COUNT] = arrays;
    s[VINDASKOT_TYPE_ITEM_COUNT] = number_at(e, 40, 2);
    return told;
}

/* What may not be at a sub-item of an entry at that depth, of which so many bytes are left in its parent. */
static struct told type_item(struct bytes e, size_t at, size_t depth)
{
    size_t left = left_at(e, at), claim = left < 4 ? 0 : (size_t)number_at(e, at, 4);
    if (depth == DEEPEST)
        return faulty(TOO_DEEP, depth + 1, refused(15, 16, 17));
    if (left < 4)
        return faulty(TOO_FEW_LEFT, depth + 1, refused(2, 4, left));
    if (claim > left)
        return faulty(LEAVES_PARENT, depth + 1, refused(3, claim, left));
    if (claim < 42)
        return faulty(BELOW_HEADER, depth + 1, refused(4, 42, claim));
    return type_front(part(e, at, claim), depth + 1);
}

static void open_entry(size_t depth, size_t place, struct told front, struct bytes e, uint64_t offset)
{
    const uint64_t *s = front.slots;
    size_t arrays_end = (size_t)s[VINDASKOT_TYPE_ARRAYS_AT] + 8 * (size_t)s[VINDASKOT_TYPE_ARRAY_COUNT];
    way[depth] = (struct open){e, place, arrays_end, offset, s[VINDASKOT_TYPE_ITEM_COUNT]};
}

/* The sections of the entry that is open at that depth, whose sub-items are all read. */
static struct told close_entry(struct told told, size_t depth)
{
    struct open *o = &way[depth];
    struct list list = late_sections(o->e, o->next, &told, VINDASKOT_TYPE_HAS_GUID);
    if (list.stopped.status != VINDASKOT_DONE)
        return faulty(list.stopped.status == 16 ? IN_ATTRIBUTE_ENDS : IN_ATTRIBUTES, depth, list.stopped);
    told.slots[VINDASKOT_TYPE_ATTRIBUTES_AT] = list.first;
    told.slots[VINDASKOT_TYPE_ATTRIBUTE_COUNT] = list.count;
    return told;
}

/* A root's own bytes. No function calls itself here: what is open is kept beside. */
static struct told type_entry(struct bytes e)
{
    size_t count = 0, depth = 1;
    model_fault = (struct at_fault){NO_FAULT, 0};
    if (e.len < 42)
        return faulty(IN_CLAIM, 1, refused(2, 42, e.len));
    struct told root = type_front(e, 1);
    if (root.status != VINDASKOT_DONE)
        return root;
    open_entry(1, 0, root, e, 0);
    for (;;) {
        struct open *o = &way[depth];
        if (o->items == 0) {
            root.slots[VINDASKOT_TYPE_MEMBER_COUNT] = count;
            struct told closed = close_entry(depth == 1 ? root : done(0, 0), depth);
            if (closed.status != VINDASKOT_DONE || depth == 1)
                return closed;
            depth--;
            continue;
        }
        struct told item = type_item(o->e, o->next, depth);
        if (item.status != VINDASKOT_DONE)
            return item;
        size_t place = o->place + o->next, len = (size_t)item.slots[VINDASKOT_TYPE_LENGTH];
        uint64_t offset = o->offset + item.slots[VINDASKOT_TYPE_OFFSET];
        depth++;
        model_members[count++] = (struct member){place, depth, offset};
        open_entry(depth, place, item, part(o->e, o->next, len), offset);
        o->items--;
        o->next += len;
    }
}

struct told model_type_read(struct bytes b)
{
    model_fault = (struct at_fault){IN_CLAIM, 1};
    return direct(b, 42, type_entry);
}

struct told model_type_step(struct bytes b, size_t cursor)
{
    model_fault = (struct at_fault){IN_CLAIM, 1};
    return step(b, cursor, type_entry);
}

struct told model_type_array(struct bytes b, size_t number)
{
    struct told read = model_type_read(b);
    if (read.status != VINDASKOT_DONE)
        return read;
    if (number >= read.slots[VINDASKOT_TYPE_ARRAY_COUNT])
        return refused(14, read.slots[VINDASKOT_TYPE_ARRAY_COUNT], number);
    size_t at = (size_t)read.slots[VINDASKOT_TYPE_ARRAYS_AT] + 8 * number;
    return (struct told){
        .slots = {
            [VINDASKOT_ARRAY_LOWER_BOUND] = number_at(b, at, 4), [VINDASKOT_ARRAY_ELEMENTS] = number_at(b, at + 4, 4)}};
}

struct told model_type_attribute(struct bytes b, size_t number)
{
    struct told read = model_type_read(b);
    return of_entry(entry_of(b, read, VINDASKOT_TYPE_LENGTH), read, type_attributes, number,
                    VINDASKOT_ATTRIBUTE_NEXT_AT, attribute_at);
}

struct told model_type_attribute_named(struct bytes b, struct bytes name)
{
    struct told read = model_type_read(b);
    return first_named(entry_of(b, read, VINDASKOT_TYPE_LENGTH), read, type_attributes, name);
}

/* "each is given with its path of places and its depth". Above a member stands, at each depth, the last of those before
 * it that have this depth. */
struct told model_type_member(struct bytes b, size_t number)
{
    struct told read = model_type_read(b), told;
    uint64_t path[VINDASKOT_PATH_SLOTS] = {0};
    if (read.status != VINDASKOT_DONE)
        return read;
    if (number >= read.slots[VINDASKOT_TYPE_MEMBER_COUNT])
        return refused(14, read.slots[VINDASKOT_TYPE_MEMBER_COUNT], number);
    const struct member m = model_members[number];
    path[VINDASKOT_PATH_DEPTH] = m.depth;
    path[VINDASKOT_PATH_OFFSET] = m.offset;
    for (size_t i = number + 1, depth = m.depth; depth > 1; i--)
        if (model_members[i - 1].depth == depth) {
            path[VINDASKOT_PATH_PLACES + depth - 2] = model_members[i - 1].place;
            depth--;
        }
    told = model_type_read(part(b, m.place, (size_t)number_at(b, m.place, 4)));
    memcpy(told.path, path, sizeof path);
    return told;
}

struct told model_type_members(struct bytes b, uint64_t *slots)
{
    struct told read = model_type_read(b);
    if (read.status != VINDASKOT_DONE)
        return read;
    uint64_t count = read.slots[VINDASKOT_TYPE_MEMBER_COUNT];
    for (uint64_t i = 0; i < count; i++) {
        slots[VINDASKOT_MEMBER_SLOTS * i + VINDASKOT_MEMBER_PLACE] = model_members[i].place;
        slots[VINDASKOT_MEMBER_SLOTS * i + VINDASKOT_MEMBER_DEPTH] = model_members[i].depth;
        slots[VINDASKOT_MEMBER_SLOTS * i + VINDASKOT_MEMBER_OFFSET] = model_members[i].offset;
    }
    return done(VINDASKOT_MEMBER_SLOTS * count, 0);
}

/* ---- Index and finding ---- */

/* Room: "at most n / 33 entries, rounded down": the least entry, a header and three end bytes, taken away as often as
 * it is there. */
struct told model_room(size_t length)
{
    uint64_t entries = 0;
    if (length > VINDASKOT_LIMIT)
        return refused_size(length);
    for (; length >= 30 + 3; length -= 30 + 3)
        entries++;
    return done(entries, 0);
}

struct told model_index(struct bytes b, uint32_t *starts)
{
    uint64_t count = 0;
    if (too_large(b))
        return refused_size(b.len);
    for (size_t at = 0; at < b.len;) {
        struct told told = step(b, at, symbol_entry);
        if (told.cursor == at)
            return refused(10, 1, 0);
        if (told.status == VINDASKOT_DONE)
            starts[count++] = (uint32_t)at;
        at = told.cursor;
    }
    return done(count, 0);
}

/* Salvage: "copies every accepted symbol entry"; "one for each refused step: start, length, refusal number"; "A zero
 * claim drops everything from there under number 10". */
struct told model_salvage(struct bytes b, uint8_t *out, uint32_t *runs)
{
    uint64_t bytes = 0, slots = 0;
    if (too_large(b))
        return refused_size(b.len);
    for (size_t at = 0, next; at < b.len; at = next) {
        struct told told = step(b, at, symbol_entry);
        bool stopped = told.cursor == at;
        next = stopped ? b.len : told.cursor;
        if (told.status == VINDASKOT_DONE) {
            memcpy(out + bytes, b.at + at, next - at);
            bytes += next - at;
        } else {
            runs[slots + VINDASKOT_RUN_START] = (uint32_t)at;
            runs[slots + VINDASKOT_RUN_LENGTH] = (uint32_t)(next - at);
            runs[slots + VINDASKOT_RUN_NUMBER] = stopped ? 10 : told.status;
            slots += VINDASKOT_RUN_SLOTS;
        }
    }
    return done(bytes, slots);
}

/* Finding: "A to Z equal a to z; every other byte, accented letters included, still equals only itself." By two
 * alphabets and not by folding, so that a wrong range is no mistake that both sides can share. */
static bool same_byte(uint8_t x, uint8_t y)
{
    static const char capitals[] = "ABCDEFGHIJKLMNOPQRSTUVWXYZ", small[] = "abcdefghijklmnopqrstuvwxyz";
    bool same = x == y;
    for (size_t i = 0; !same && i < sizeof capitals - 1; i++)
        same = (x == capitals[i] && y == small[i]) || (y == capitals[i] && x == small[i]);
    return same;
}

static bool same_name(struct bytes a, struct bytes b)
{
    size_t i = 0;
    while (i < a.len && i < b.len && same_byte(a.at[i], b.at[i]))
        i++;
    return i == a.len && i == b.len;
}

static bool named(struct bytes b, size_t at, struct bytes name)
{
    struct told told = step(b, at, symbol_entry);
    return told.status == VINDASKOT_DONE &&
           same_name(part(b, at + 30, (size_t)told.slots[VINDASKOT_SYMBOL_NAME_LEN]), name);
}

struct told model_find(struct bytes b, struct bytes name)
{
    if (too_large(b))
        return refused_size(b.len);
    for (size_t at = 0; at < b.len;) {
        if (named(b, at, name))
            return done(at, 0);
        size_t next = step(b, at, symbol_entry).cursor;
        if (next == at)
            return refused(10, 1, 0);
        at = next;
    }
    return refused(13, 0, 0);
}

struct told model_find_indexed(struct bytes b, struct bytes slots, struct bytes name)
{
    if (too_large(b))
        return refused_size(b.len);
    for (size_t i = 0; i + 4 <= slots.len; i += 4) {
        size_t at = (size_t)number_at(slots, i, 4);
        if (named(b, at, name))
            return done(at, 0);
    }
    return refused(13, 0, 0);
}

/* ---- Writing ---- */

static struct told good_attributes(size_t count, struct bytes block)
{
    size_t at = 0, good = 0;
    for (; good < count; good++) {
        struct told a = plain_attribute_at(block, at);
        const uint64_t *s = a.slots;
        if (a.status != VINDASKOT_DONE || end_byte(block, s, attribute_name) != 0 ||
            end_byte(block, s, attribute_value) != 0)
            break;
        at = (size_t)s[VINDASKOT_ATTRIBUTE_NEXT_AT];
    }
    return good == count && at == block.len ? done(0, 0) : refused(9, count, good);
}

static struct told good_refactors(size_t count, struct bytes block)
{
    size_t at = 0, good = 0;
    for (; good < count; good++) {
        struct told r = plain_refactor_at(block, at);
        const uint64_t *s = r.slots;
        if (r.status != VINDASKOT_DONE || end_byte(block, s, refactor_name) != 0)
            break;
        if ((number_at(block, at, 4) & ~(uint64_t)COUNT_MASK) != 0 ||
            (s[VINDASKOT_REFACTOR_HAS_NEXT] != 0) != (good + 1 < count))
            break;
        at = (size_t)s[VINDASKOT_REFACTOR_NEXT_AT];
    }
    return good == count && at == block.len ? done(0, 0) : refused(9, count, good);
}

static struct told room_for(uint64_t needed, size_t lent)
{
    if (needed > VINDASKOT_LIMIT)
        return refused_size((size_t)needed);
    return needed > lent ? refused(6, needed, lent) : done(needed, 0);
}

/* What both entry writers refuse first. */
static struct told strings_fit(const struct parts *p)
{
    const struct bytes strings[3] = {p->name, p->type_name, p->comment};
    if (p->guid.len != 0 && p->guid.len != 16)
        return refused(1, 16, p->guid.len);
    for (size_t i = 0; i < 3; i++)
        if (strings[i].len > 65535)
            return refused(7, 65535, strings[i].len);
    return done(0, 0);
}

static struct told attributes_fit(const struct parts *p)
{
    return p->count > 65535 ? refused(7, 65535, p->count) : good_attributes(p->count, p->block);
}

static struct told sections_agree(const struct parts *p)
{
    if ((p->guid.len == 16) != ((p->flags & VINDASKOT_SYMBOL_FLAG_TYPE_GUID) != 0))
        return refused(8, 1, 0);
    if (p->block.len > 0 && (p->flags & VINDASKOT_SYMBOL_FLAG_ATTRIBUTES) == 0)
        return refused(8, 2, 0);
    if (p->extended != 0 && (p->flags & VINDASKOT_SYMBOL_FLAG_EXTENDED_FLAGS) == 0)
        return refused(8, 3, 0);
    bool flagged = (p->extended & VINDASKOT_SYMBOL2_FLAG_REFACTOR_INFO) != 0;
    return (p->links > 0) != flagged ? refused(8, 4, 0) : done(0, 0);
}

struct told model_symbol_write(const struct parts *p, size_t lent)
{
    struct told told = strings_fit(p);
    if (told.status == VINDASKOT_DONE)
        told = attributes_fit(p);
    if (told.status == VINDASKOT_DONE)
        told = good_refactors(p->links, p->chain);
    if (told.status == VINDASKOT_DONE)
        told = sections_agree(p);
    if (told.status != VINDASKOT_DONE)
        return told;
    uint64_t needed = 33 + (uint64_t)p->name.len + p->type_name.len + p->comment.len + p->guid.len + p->chain.len;
    needed += (p->flags & VINDASKOT_SYMBOL_FLAG_ATTRIBUTES) != 0 ? 2 + (uint64_t)p->block.len : 0;
    needed += (p->flags & VINDASKOT_SYMBOL_FLAG_EXTENDED_FLAGS) != 0 ? 4 : 0;
    return room_for(needed, lent);
}

struct told model_field_write(const struct parts *p, size_t lent)
{
    bool attributes = (p->flags & VINDASKOT_TYPE_FLAG_ATTRIBUTES) != 0;
    struct told told = strings_fit(p);
    if (told.status == VINDASKOT_DONE && attributes)
        told = attributes_fit(p);
    if (told.status != VINDASKOT_DONE)
        return told;
    uint64_t needed = 45 + (uint64_t)p->name.len + p->type_name.len + p->comment.len;
    needed += (p->flags & VINDASKOT_TYPE_FLAG_TYPE_GUID) != 0 ? 16 : 0;
    needed += (p->flags & VINDASKOT_TYPE_FLAG_COPY_MASK) != 0 ? p->numbers[3] : 0;
    needed += attributes ? 2 + (uint64_t)p->block.len : 0;
    return room_for(needed, lent);
}

struct told model_block_write(size_t count, struct bytes block, size_t lent)
{
    if (count > 65535)
        return refused(7, 65535, count);
    struct told told = good_refactors(count, block);
    return told.status == VINDASKOT_DONE ? room_for((uint64_t)block.len + 2, lent) : told;
}

/* ---- Text ---- */

static const uint32_t points[32] = {
    0x20AC, 0x0081, 0x201A, 0x0192, 0x201E, 0x2026, 0x2020, 0x2021, 0x02C6, 0x2030, 0x0160,
    0x2039, 0x0152, 0x008D, 0x017D, 0x008F, 0x0090, 0x2018, 0x2019, 0x201C, 0x201D, 0x2022,
    0x2013, 0x2014, 0x02DC, 0x2122, 0x0161, 0x203A, 0x0153, 0x009D, 0x017E, 0x0178,
};

struct told model_decode(struct bytes src, uint8_t *out)
{
    uint8_t *to = out;
    if (too_large(src))
        return refused_size(src.len);
    for (size_t i = 0; i < src.len; i++) {
        uint32_t p = src.at[i] >= 0x80 && src.at[i] < 0xA0 ? points[src.at[i] - 0x80] : src.at[i];
        if (p < 0x80) {
            *to++ = (uint8_t)p;
            continue;
        }
        if (p < 0x800) {
            *to++ = (uint8_t)(0xC0 | p >> 6);
        } else {
            *to++ = (uint8_t)(0xE0 | p >> 12);
            *to++ = (uint8_t)(0x80 | (p >> 6 & 0x3F));
        }
        *to++ = (uint8_t)(0x80 | (p & 0x3F));
    }
    return done((uint64_t)(to - out), 0);
}

/* The scalar value at a place, and how many bytes it takes: 0 where there is none. */
static size_t scalar_at(struct bytes b, size_t at, uint32_t *p)
{
    static const uint32_t least[5] = {0, 0, 0x80, 0x800, 0x10000};
    uint8_t first = b.at[at];
    size_t width = first < 0x80 ? 1 : first < 0xC0 ? 0 : first < 0xE0 ? 2 : first < 0xF0 ? 3 : first < 0xF8 ? 4 : 0;
    if (width == 0 || left_at(b, at) < width)
        return 0;
    *p = width == 1 ? first : first & (0x7Fu >> width);
    for (size_t i = 1; i < width; i++) {
        if ((b.at[at + i] & 0xC0) != 0x80)
            return 0;
        *p = *p << 6 | (b.at[at + i] & 0x3F);
    }
    return *p < least[width] || *p > 0x10FFFF || (*p >= 0xD800 && *p < 0xE000) ? 0 : width;
}

static int byte_of(uint32_t p)
{
    if (p < 0x80 || (p >= 0xA0 && p < 0x100))
        return (int)p;
    for (int i = 0; i < 32; i++)
        if (points[i] == p)
            return 0x80 + i;
    return -1;
}

struct told model_encode(struct bytes src, uint8_t *out)
{
    size_t count = 0;
    if (too_large(src))
        return refused_size(src.len);
    for (size_t at = 0; at < src.len;) {
        uint32_t p = 0;
        size_t width = scalar_at(src, at, &p);
        if (width == 0)
            return refused(11, at, 1);
        int byte = byte_of(p);
        if (byte < 0)
            return refused(11, at, 2);
        out[count++] = (uint8_t)byte;
        at += width;
    }
    return done(count, 0);
}
