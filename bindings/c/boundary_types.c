/* Whole data types. What is expected of an edge stands here in the words of docs/FORMAT.md, or comes from how the tree
 * was put together, and does not come from the model; a random tree is held to the model and to what must hold of every
 * data type. */
#include "boundary.h"

enum { HEADER = 42, LEAST = HEADER + 3, DEEPEST = 16, TOO_MANY = DEEPEST + 1 };

/* ---- What holds of every data type ---- */

/* How often each refusal was met at each depth. */
static uint64_t met[FAULTS][TOO_MANY + 1];

static enum group group_of(struct told want, enum group usual)
{
    static const enum group groups[FAULTS] = {
        [IN_CLAIM] = TYPES_CLAIM,
        [IN_STRINGS] = TYPES_STRINGS,
        [IN_ENDS] = TYPES_ENDS,
        [IN_ARRAYS] = TYPES_BOUNDS,
        [TOO_DEEP] = TYPES_TOO_DEEP,
        [TOO_FEW_LEFT] = TYPES_LEFT,
        [LEAVES_PARENT] = TYPES_LEAVES,
        [BELOW_HEADER] = TYPES_BELOW,
        [IN_ATTRIBUTES] = TYPES_ATTRIBUTE,
        [IN_ATTRIBUTE_ENDS] = TYPES_ATTRIBUTE_ENDS,
    };
    return want.status == VINDASKOT_DONE || want.status == VINDASKOT_FINISHED ? usual : groups[model_fault.fault];
}

/* Whatever it is asked, a call reads the whole tree first: 14, 13 and 6 come last. */
static void hold_refused(enum group group, struct bytes b, struct told want)
{
    const size_t numbers[] = {0, 1, SIZE_MAX};
    SAME(group, call_type_read(b), want);
    for (size_t i = 0; i < sizeof numbers / sizeof *numbers; i++) {
        SAME(group, call_type_array(b, numbers[i]), want);
        SAME(group, call_type_attribute(b, numbers[i]), want);
        SAME(group, call_type_member(b, numbers[i]), want);
    }
    SAME(group, call_type_attribute_named(b, lay(NAME, text("unit"))), want);
    SAME(group, call_type_attribute_named(b, lay(NAME, text(""))), want);
    SAME(group, call_type_members(b, lend(0)), want);
    SAME(group, call_type_members(b, lend(8 * 60)), want);
}

static struct bytes from(struct bytes b, size_t place)
{
    return part(b, place, b.len - place);
}

static struct told without_path(struct told told)
{
    memset(told.path, 0, sizeof told.path);
    return told;
}

static struct told with_cursor(struct told told, size_t cursor)
{
    told.cursor = cursor;
    return told;
}

/* Numbers below, at and past a count. */
enum { ASKED = 7 };

static void numbers_about(size_t count, size_t numbers[ASKED])
{
    const size_t those[ASKED] = {0, 1, count / 2, count - 1, count, count + 1, SIZE_MAX};
    memcpy(numbers, those, sizeof those);
}

static void try_arrays(struct bytes b, const uint64_t *s)
{
    size_t numbers[ASKED], count = (size_t)s[VINDASKOT_TYPE_ARRAY_COUNT];
    numbers_about(count, numbers);
    for (size_t i = 0; i < ASKED; i++) {
        struct told told = call_type_array(b, numbers[i]);
        SAME(TYPES_ARRAYS, told, model_type_array(b, numbers[i]));
        if (told.status == VINDASKOT_DONE)
            CHECK(TYPES_ARRAYS,
                  told.slots[VINDASKOT_ARRAY_LOWER_BOUND] <= UINT32_MAX &&
                      told.slots[VINDASKOT_ARRAY_ELEMENTS] <= UINT32_MAX && numbers[i] < count,
                  "an array record of more than 32 bits, or past the last");
    }
}

static void try_attributes(struct bytes b, const uint64_t *s)
{
    size_t numbers[ASKED];
    numbers_about((size_t)s[VINDASKOT_TYPE_ATTRIBUTE_COUNT], numbers);
    for (size_t i = 0; i < ASKED; i++) {
        struct told told = call_type_attribute(b, numbers[i]);
        SAME(TYPES_ATTRIBUTES, told, model_type_attribute(b, numbers[i]));
        if (told.status != VINDASKOT_DONE)
            continue;
        struct bytes own =
            part(b, (size_t)told.slots[VINDASKOT_ATTRIBUTE_NAME_AT], (size_t)told.slots[VINDASKOT_ATTRIBUTE_NAME_LEN]);
        struct bytes name = lay(NAME, own);
        SAME(TYPES_ATTRIBUTES, call_type_attribute_named(b, name), model_type_attribute_named(b, name));
        name = lay(NAME, part(own, 0, own.len + 1));
        SAME(TYPES_ATTRIBUTES, call_type_attribute_named(b, name), model_type_attribute_named(b, name));
    }
    struct bytes none = lay(NAME, text("unit"));
    SAME(TYPES_ATTRIBUTES, call_type_attribute_named(b, none), model_type_attribute_named(b, none));
}

/* "The field reader still skips sub-items": of what this reader accepts it tells the same. */
static void try_as_field(struct bytes b, struct told type)
{
    struct told field = call_field_read(b);
    const uint64_t *s = type.slots, *f = field.slots;
    bool same = field.status == VINDASKOT_DONE && s[VINDASKOT_TYPE_LENGTH] == f[VINDASKOT_FIELD_LENGTH] &&
                s[VINDASKOT_TYPE_HAS_GUID] == f[VINDASKOT_FIELD_HAS_GUID] &&
                memcmp(type.guid, field.guid, sizeof type.guid) == 0;
    for (size_t i = 0; i < 7; i++)
        same = same && s[type_numbers[i]] == f[field_numbers[i]];
    for (size_t i = 0; i < 3; i++)
        same = same && s[type_strings[i].place] == f[field_strings[i].place] &&
               s[type_strings[i].len] == f[field_strings[i].len];
    same = same && s[type_attributes.place] == f[field_attributes.place] &&
           s[type_attributes.len] == f[field_attributes.len];
    CHECK(TYPES_AS_FIELD, same, "a data type is told otherwise by the field reader (status %u)",
          (unsigned)field.status);
}

/* The members as one pass lists them: as the model has them, where just enough is lent, one slot less, nothing and
 * more. */
static const uint64_t *try_listed(struct bytes b, size_t count)
{
    static uint64_t wanted[VINDASKOT_MEMBER_SLOTS * MEMBERS_MOST];
    const struct told want = model_type_members(b, wanted);
    const size_t slots = VINDASKOT_MEMBER_SLOTS * count;
    if (count > 0) {
        SAME(TYPES_SLOTS, call_type_members(b, lend(8 * (slots - 1))), refused(6, slots, slots - 1));
        SAME(TYPES_SLOTS, call_type_members(b, lend(8 * (slots / VINDASKOT_MEMBER_SLOTS))), refused(6, slots, count));
        SAME(TYPES_SLOTS, call_type_members(b, lend(0)), refused(6, slots, 0));
    } else {
        SAME(TYPES_SLOTS, call_type_members(b, lend(0)), done(0, 0));
    }
    for (size_t more = 0; more < 3; more += 2) {
        struct room lent = lend(8 * (slots + more));
        SAME(more == 0 ? TYPES_SLOTS : TYPES_LISTED, call_type_members(b, lent), want);
        CHECK(TYPES_LISTED, memcmp(lent.at, wanted, 8 * slots) == 0,
              "members are listed as others, or in another order");
    }
    return wanted;
}

/* A path leads from the root to the member: each place lies in the entry of the place before it, and the offsets of the
 * entries on it make up the member's. */
static void try_path(struct bytes b, const uint64_t *path, const uint64_t *listed)
{
    const uint64_t depth = path[VINDASKOT_PATH_DEPTH], *places = path + VINDASKOT_PATH_PLACES;
    uint64_t offset = 0, start = 0, end = number_at(b, 0, 4);
    bool leads = depth >= 2 && depth <= DEEPEST;
    for (uint64_t i = 0; leads && i + 1 < depth; i++) {
        leads = places[i] > start && places[i] + LEAST <= end;
        if (leads) {
            start = places[i];
            leads = start + number_at(b, (size_t)start, 4) <= end;
            end = start + number_at(b, (size_t)start, 4);
            offset += number_at(b, (size_t)start + 20, 4);
        }
    }
    CHECK(TYPES_PATHS, leads, "a path does not lead from the root downwards");
    for (uint64_t i = depth - 1; leads && i < VINDASKOT_PATH_SLOTS - VINDASKOT_PATH_PLACES; i++)
        leads = places[i] == 0;
    CHECK(TYPES_PATHS, leads, "a path has places behind its last");
    CHECK(TYPES_PATHS,
          leads && offset == path[VINDASKOT_PATH_OFFSET] && offset == listed[VINDASKOT_MEMBER_OFFSET] &&
              depth == listed[VINDASKOT_MEMBER_DEPTH] && start == listed[VINDASKOT_MEMBER_PLACE],
          "a path leads to another place, depth or offset than is listed");
}

/* "A member's strings, arrays and attributes are asked by the same functions over the bytes from its place on." Its own
 * members are those that follow it in the list, as many as it says. */
static void try_from_place(struct bytes b, struct told member, const uint64_t *listed)
{
    const struct bytes rest = from(b, (size_t)listed[VINDASKOT_MEMBER_PLACE]);
    const struct bytes own = part(rest, 0, (size_t)number_at(rest, 0, 4));
    const size_t slots = VINDASKOT_MEMBER_SLOTS * (size_t)member.slots[VINDASKOT_TYPE_MEMBER_COUNT];
    SAME(TYPES_FROM_PLACE, call_type_read(rest), without_path(member));
    SAME(TYPES_FROM_PLACE, call_type_read(own), without_path(member));
    struct told first = call_type_array(rest, 0), attribute = call_type_attribute(rest, 0);
    SAME(TYPES_FROM_PLACE, first, model_type_array(own, 0));
    SAME(TYPES_FROM_PLACE, attribute, model_type_attribute(own, 0));
    struct room lent = lend(8 * slots);
    SAME(TYPES_FROM_PLACE, call_type_members(rest, lent), done(slots, 0));
    const uint64_t *below = listed + VINDASKOT_MEMBER_SLOTS, *at = (const uint64_t *)(const void *)lent.at;
    size_t i = 0;
    while (i < slots &&
           at[i + VINDASKOT_MEMBER_PLACE] + listed[VINDASKOT_MEMBER_PLACE] == below[i + VINDASKOT_MEMBER_PLACE] &&
           at[i + VINDASKOT_MEMBER_DEPTH] + listed[VINDASKOT_MEMBER_DEPTH] - 1 == below[i + VINDASKOT_MEMBER_DEPTH] &&
           at[i + VINDASKOT_MEMBER_OFFSET] + listed[VINDASKOT_MEMBER_OFFSET] == below[i + VINDASKOT_MEMBER_OFFSET])
        i += VINDASKOT_MEMBER_SLOTS;
    CHECK(TYPES_FROM_PLACE, i == slots, "the members of a member are others than those behind it in the list");
}

/* The last so many members of a tree are looked at one by one; of those before them the fewer, the more there are. */
enum { EACH = 12 };

static void try_members(struct bytes b, const uint64_t *s)
{
    const size_t count = (size_t)s[VINDASKOT_TYPE_MEMBER_COUNT];
    const uint64_t *listed = try_listed(b, count);
    const size_t past[] = {count, count + 1, SIZE_MAX};
    for (size_t i = 0; i < sizeof past / sizeof *past; i++)
        SAME(TYPES_MEMBERS, call_type_member(b, past[i]), refused(14, count, past[i]));
    for (size_t i = 0; i < count; i += 1 + (count - i > 1 ? (count - i - 1) / EACH : 0)) {
        const uint64_t *own = listed + VINDASKOT_MEMBER_SLOTS * i;
        struct told told = call_type_member(b, i);
        SAME(TYPES_MEMBERS, told, model_type_member(b, i));
        if (told.status != VINDASKOT_DONE)
            continue;
        try_path(b, told.path, own);
        try_from_place(b, told, own);
    }
}

/* "Everything else stays": what the checked mode does not refuse for an end byte it tells as the present one. */
static void try_stays(struct bytes b, struct told checked)
{
    mode = PRESENT_IN;
    struct told present = call_type_read(b);
    mode = CHECKED;
    if (checked.status != 16)
        SAME(STAYS, checked, present);
    else
        CHECK(STAYS, checked.answer[1] > 0 && checked.answer[1] < 256, "16 for %llu, which is no byte or 0",
              (unsigned long long)checked.answer[1]);
}

/* The data type at the start of b, by all seven calls. */
void try_type(struct bytes b)
{
    struct told told = call_type_read(b), want = model_type_read(b);
    enum group group = group_of(want, TYPES_READ);
    SAME(group, told, want);
    if (mode == CHECKED)
        try_stays(b, told);
    if (want.status != VINDASKOT_DONE) {
        met[model_fault.fault][model_fault.depth]++;
        hold_refused(group, b, want);
    } else if (told.status == VINDASKOT_DONE) {
        try_arrays(b, told.slots);
        try_attributes(b, told.slots);
        try_as_field(b, told);
        try_members(b, told.slots);
    }
    SAME(TYPES_WALKED, call_type_step(b, 0), model_type_step(b, 0));
}

/* Steps to the end, or to a zero claim; as many as a walk makes. */
void try_type_walk(struct bytes b)
{
    size_t cursor = 0, steps = 0;
    for (bool stuck = false; !stuck; steps++) {
        struct told told = call_type_step(b, cursor), want = model_type_step(b, cursor);
        SAME(group_of(want, TYPES_WALKED), told, want);
        if (want.status == VINDASKOT_FINISHED || told.cursor != want.cursor)
            break;
        if (want.status != VINDASKOT_DONE)
            met[model_fault.fault][model_fault.depth]++;
        stuck = told.cursor == cursor;
        cursor = told.cursor;
    }
    struct told walk = call_walk(b, SIZE_MAX, 0);
    CHECK(TYPES_WALKED, walk.steps == steps && walk.cursor == cursor,
          "data types walk in %zu steps, and a walk has %zu", steps, walk.steps);
    for (size_t i = 0; i < 3; i++)
        SAME(TYPES_WALKED, call_type_step(b, b.len + i),
             ((struct told){.status = VINDASKOT_FINISHED, .cursor = b.len + i}));
}

/* ---- Trees of which all is known ---- */

/* What was put together, the root first: where each entry starts, how deep, its offset from the root's start and its
 * number, of which all that is in it is made. */
static struct laid_out {
    struct member at;
    uint32_t id;
    size_t arrays, items, below;
} entries[400];
static size_t entry_count;

static uint32_t offset_of(uint32_t id)
{
    return id % 4 == 3 ? UINT32_MAX - id : 16 * id + 4;
}

static uint32_t bound_of(uint32_t id, size_t array)
{
    return array % 2 == 0 ? (uint32_t)-5 - id : 1000 * id + (uint32_t)array;
}

/* An entry's parts by its number, and the pool that they stand in. */
static struct parts parts_of(struct buffer *pool, uint32_t id)
{
    static const uint8_t letters[] = "stLensfPositionUmlaut\xE4\xF6\xFC";
    struct parts p = {.numbers = {1 + id, 7 * id + 1, UINT32_MAX - id, 8 + id % 9, offset_of(id), 65 + id}};
    uint8_t *guid = pool->at, *block = pool->at + 16;
    const size_t attributes = id % 3;
    p.name = (struct bytes){letters + id % 7, id % 12};
    p.type_name = (struct bytes){letters + id % 5, (id + 3) % 8};
    p.comment = (struct bytes){letters + id % 9, (id / 2) % 5};
    for (size_t i = 0; i < 16; i++)
        guid[i] = (uint8_t)(id + 16 * i);
    p.guid = (struct bytes){guid, 16};
    for (size_t i = 0; i < attributes; i++) {
        const uint8_t record[8] = {2, 2, 'a', (uint8_t)('0' + i), 0, (uint8_t)id, 'v', 0};
        memcpy(block + 8 * i, record, 8);
    }
    p.block = (struct bytes){block, 8 * attributes};
    p.count = attributes;
    p.flags = (id % 2 == 0 ? VINDASKOT_TYPE_FLAG_TYPE_GUID : 0) | (id % 5 == 1 ? VINDASKOT_TYPE_FLAG_COPY_MASK : 0) |
              (id % 7 == 2 ? VINDASKOT_TYPE_FLAG_METHOD_INFOS : 0) |
              (attributes > 0 ? VINDASKOT_TYPE_FLAG_ATTRIBUTES : 0) | 0x1u;
    return p;
}

/* What stands behind an entry's sub-items, and its claim. */
static void put_tail(struct buffer *to, size_t start, const struct parts *p)
{
    static const uint8_t mask[17] = {0xFF, 0xFF, 0xFF};
    put_field_guid(to, p);
    if ((p->flags & VINDASKOT_TYPE_FLAG_COPY_MASK) != 0)
        put(to, (struct bytes){mask, p->numbers[3]});
    if ((p->flags & VINDASKOT_TYPE_FLAG_METHOD_INFOS) != 0) {
        put_number(to, 1, 2);
        put_number(to, 6, 4);
        put_number(to, 0xFFFF, 2);
    }
    put_field_attributes(to, p);
    put_claim(to, start, to->len - start);
}

/* An entry at a depth whose parent has that offset from the root's start, and below it as many entries at each depth as
 * `fan` says for an entry above them; the last of which alone goes on to the next depth where `narrow`. */
static void put_node(struct buffer *to, size_t depth, uint64_t above, const size_t *fan, bool narrow)
{
    static struct buffer pools[TOO_MANY + 1];
    struct laid_out *own = &entries[entry_count];
    const uint32_t id = (uint32_t)entry_count;
    const struct parts p = parts_of(&pools[depth], id);
    const size_t start = to->len;
    *own = (struct laid_out){{start, depth, depth == 1 ? 0 : above + offset_of(id)}, id, id % 4, fan[depth], 0};
    entry_count++;
    put_field_head(to, &p, own->arrays, own->items);
    for (size_t i = 0; i < own->arrays; i++) {
        put_number(to, bound_of(id, i), 4);
        put_number(to, id + i, 4);
    }
    for (size_t i = 0; i < own->items; i++) {
        static const size_t none[TOO_MANY + 2];
        const bool goes_on = !narrow || i + 1 == own->items;
        put_node(to, depth + 1, own->at.offset, goes_on ? fan : none, narrow);
    }
    put_tail(to, start, &p);
    own->below = entry_count - id - 1;
}

static void plant(struct buffer *to, const size_t *fan, bool narrow)
{
    to->len = entry_count = 0;
    put_node(to, 1, 0, fan, narrow);
}

static bool record_holds(struct bytes e, struct told told, const struct laid_out *own)
{
    static struct buffer pool;
    static const uint8_t zeros[16];
    const struct parts p = parts_of(&pool, own->id);
    const uint64_t *s = told.slots;
    const struct bytes strings[3] = {p.name, p.type_name, p.comment};
    bool guid = (p.flags & VINDASKOT_TYPE_FLAG_TYPE_GUID) != 0, holds = told.status == VINDASKOT_DONE;
    size_t at = HEADER;
    for (size_t i = 0; holds && i < 6; i++)
        holds = s[type_numbers[i]] == p.numbers[i];
    for (size_t i = 0; holds && i < 3; i++) {
        holds = s[type_strings[i].place] == at && s[type_strings[i].len] == strings[i].len &&
                equal(part(e, at, strings[i].len), strings[i]);
        at += strings[i].len + 1;
    }
    return holds && s[VINDASKOT_TYPE_LENGTH] == number_at(e, 0, 4) && s[VINDASKOT_TYPE_FLAGS] == p.flags &&
           s[VINDASKOT_TYPE_HAS_GUID] == guid && memcmp(told.guid, guid ? p.guid.at : zeros, 16) == 0 &&
           s[VINDASKOT_TYPE_ATTRIBUTE_COUNT] == p.count && s[VINDASKOT_TYPE_ARRAYS_AT] == at &&
           s[VINDASKOT_TYPE_ARRAY_COUNT] == own->arrays && s[VINDASKOT_TYPE_ITEM_COUNT] == own->items &&
           s[VINDASKOT_TYPE_MEMBER_COUNT] == own->below;
}

static void hold_arrays(struct bytes e, const struct laid_out *own)
{
    for (size_t i = 0; i < own->arrays; i++) {
        struct told want = {
            .slots = {[VINDASKOT_ARRAY_LOWER_BOUND] = bound_of(own->id, i), [VINDASKOT_ARRAY_ELEMENTS] = own->id + i}};
        SAME(TYPES_ARRAYS, call_type_array(e, i), want);
    }
    SAME(TYPES_ARRAYS, call_type_array(e, own->arrays), refused(14, own->arrays, own->arrays));
}

static void hold_attributes(struct bytes e, const struct laid_out *own)
{
    const size_t count = own->id % 3;
    for (size_t i = 0; i < count; i++) {
        const uint8_t name[2] = {'a', (uint8_t)('0' + i)};
        struct told by_number = call_type_attribute(e, i);
        const uint64_t *s = by_number.slots;
        CHECK(TYPES_ATTRIBUTES,
              by_number.status == VINDASKOT_DONE && s[attribute_name.len] == 2 && s[attribute_value.len] == 2 &&
                  memcmp(e.at + s[attribute_name.place], name, 2) == 0 &&
                  e.at[s[attribute_value.place]] == (uint8_t)own->id,
              "attribute %zu of entry %u is told as another", i, (unsigned)own->id);
        SAME(TYPES_ATTRIBUTES, call_type_attribute_named(e, lay(NAME, (struct bytes){name, 2})), by_number);
    }
    SAME(TYPES_ATTRIBUTES, call_type_attribute(e, count), refused(14, count, count));
    SAME(TYPES_ATTRIBUTES, call_type_attribute_named(e, lay(NAME, text("a9"))), refused(13, 0, 0));
}

/* "numbered from 0 and asked for by number; each is given with its path of places and its depth, once, parents before
 * children": every member, as it was put together. */
static void hold_members(struct bytes b)
{
    struct room lent = lend(8 * VINDASKOT_MEMBER_SLOTS * (entry_count - 1));
    SAME(TYPES_LISTED, call_type_members(b, lent), done(VINDASKOT_MEMBER_SLOTS * (entry_count - 1), 0));
    uint64_t path[VINDASKOT_PATH_SLOTS] = {0};
    for (size_t i = 1; i < entry_count; i++) {
        const struct laid_out *own = &entries[i];
        const uint64_t *listed = (const uint64_t *)(const void *)lent.at + VINDASKOT_MEMBER_SLOTS * (i - 1);
        CHECK(TYPES_LISTED,
              listed[VINDASKOT_MEMBER_PLACE] == own->at.place && listed[VINDASKOT_MEMBER_DEPTH] == own->at.depth &&
                  listed[VINDASKOT_MEMBER_OFFSET] == own->at.offset,
              "member %zu is listed at another place, depth or offset", i - 1);
        path[VINDASKOT_PATH_DEPTH] = own->at.depth;
        path[VINDASKOT_PATH_OFFSET] = own->at.offset;
        path[VINDASKOT_PATH_PLACES + own->at.depth - 2] = own->at.place;
        for (size_t k = VINDASKOT_PATH_PLACES + own->at.depth - 1; k < VINDASKOT_PATH_SLOTS; k++)
            path[k] = 0;
        struct told told = call_type_member(b, i - 1);
        struct bytes e = from(b, own->at.place);
        CHECK(TYPES_MEMBERS, record_holds(e, told, own), "member %zu is told as another", i - 1);
        CHECK(TYPES_PATHS, memcmp(told.path, path, sizeof path) == 0, "member %zu has another path", i - 1);
        SAME(TYPES_FROM_PLACE, call_type_read(e), without_path(told));
        hold_arrays(e, own);
        hold_attributes(e, own);
    }
}

/* A tree that was planted is accepted, by all calls, and also before other bytes. */
static void hold_tree(struct buffer *tree)
{
    const size_t len = tree->len, members = entry_count - 1;
    struct bytes b = lay(UPLOAD, whole(tree));
    struct told root = call_type_read(b);
    CHECK(TYPES_READ, record_holds(b, root, &entries[0]), "the root is told as another (status %u)",
          (unsigned)root.status);
    hold_arrays(b, &entries[0]);
    hold_attributes(b, &entries[0]);
    hold_members(b);
    SAME(TYPES_MEMBERS, call_type_member(b, members), refused(14, members, members));
    SAME(TYPES_MEMBERS, call_type_member(b, SIZE_MAX), refused(14, members, SIZE_MAX));
    SAME(TYPES_WALKED, call_type_step(b, 0), with_cursor(root, len));
    try_type(b);
    put_number(tree, UINT64_MAX, 8);
    b = lay(UPLOAD, whole(tree));
    SAME(TYPES_READ, call_type_read(b), root);
    SAME(TYPES_WALKED, call_type_step(b, 0), with_cursor(root, len));
    tree->len = len;
}

static void try_trees(void)
{
    static struct buffer tree;
    static const size_t fans[][TOO_MANY + 2] = {
        {0}, {0, 1}, {0, 2}, {0, 5}, {0, 1, 1}, {0, 3, 2}, {0, 2, 3, 2}, {0, 1, 1, 1, 1, 1}, {0, 4, 3, 2, 1}, {0, 60},
    };
    for (size_t i = 0; i < sizeof fans / sizeof *fans; i++) {
        plant(&tree, fans[i], false);
        hold_tree(&tree);
        plant(&tree, fans[i], true);
        hold_tree(&tree);
    }
}

/* "to a depth of 16 with the root at depth 1": chains of every length, alone and with brothers. */
static void try_chains(void)
{
    static struct buffer tree;
    for (size_t depth = 1; depth <= TOO_MANY; depth++)
        for (size_t brothers = 1; brothers <= 3; brothers++) {
            size_t fan[TOO_MANY + 2] = {0};
            for (size_t i = 1; i < depth; i++)
                fan[i] = brothers;
            plant(&tree, fan, true);
            if (depth <= DEEPEST) {
                hold_tree(&tree);
                CHECK(TYPES_DEEPEST, entries[entry_count - 1].at.depth == depth, "a chain of another depth");
                CHECK(TYPES_DEEPEST, depth <= VINDASKOT_DEPTH_MOST, "the header has a depth of %u for the most",
                      VINDASKOT_DEPTH_MOST);
                continue;
            }
            struct bytes b = lay(UPLOAD, whole(&tree));
            CHECK(TYPES_TOO_DEEP, depth == VINDASKOT_DEPTH_MOST + 1, "the header has a depth of %u for the most",
                  VINDASKOT_DEPTH_MOST);
            hold_refused(TYPES_TOO_DEEP, b, refused(15, 16, 17));
            SAME(TYPES_TOO_DEEP, call_type_step(b, 0), with_cursor(refused(15, 16, 17), b.len));
            /* The same from depth 2 on is of depth 16. */
            struct bytes below = from(b, (size_t)entries[brothers].at.place);
            CHECK(TYPES_DEEPEST, call_type_read(below).status == VINDASKOT_DONE, "depth 16 is refused");
            try_type(below);
            try_type(b);
        }
}

/* "the sum along its path (64 bits)". */
static void try_offsets(void)
{
    static struct buffer tree;
    const size_t fan[TOO_MANY + 2] = {0, 1, 1, 1, 1, 1, 1, 1, 1, 1, 1, 1, 1, 1, 1, 1};
    plant(&tree, fan, false);
    for (size_t i = 0; i < entry_count; i++)
        memset(tree.at + entries[i].at.place + 20, 0xFF, 4);
    struct bytes b = lay(UPLOAD, whole(&tree));
    for (size_t i = 1; i < entry_count; i++) {
        struct told told = call_type_member(b, i - 1);
        CHECK(TYPES_PATHS, told.path[VINDASKOT_PATH_OFFSET] == i * (uint64_t)UINT32_MAX,
              "offsets of 32 bits are not summed in 64: %llu", (unsigned long long)told.path[VINDASKOT_PATH_OFFSET]);
    }
    try_type(b);
}

/* ---- Each refusal, at each depth ---- */

/* An entry that is refused, or is not: what stands in it, and what is said of it wherever it stands. */
struct spoilt {
    struct buffer entry;
    struct told want;
    bool checked, item; /* refused in the checked mode alone; refused for a sub-item, which is 15 at depth 16 */
};

static struct spoilt spoilt;

/* Entries around one at that depth: each has a sound sub-item before and one behind the next. */
static struct bytes at_depth(size_t depth, struct bytes entry)
{
    static struct buffer inner, outer;
    static struct buffer pool;
    const struct parts small = {.name = text("leaf"), .type_name = text("INT"), .numbers = {0, 0, 0, 2, 6, 2}};
    inner.len = 0;
    put(&inner, entry);
    for (uint32_t id = (uint32_t)depth; id > 1; id--) {
        const struct parts p = parts_of(&pool, id);
        outer.len = 0;
        put_field_head(&outer, &p, id % 3, 3);
        put_any(&outer, 8 * (id % 3));
        put_field(&outer, &small);
        put(&outer, whole(&inner));
        put_field(&outer, &small);
        put_tail(&outer, 0, &p);
        inner.len = 0;
        put(&inner, whole(&outer));
    }
    return lay(UPLOAD, whole(&inner));
}

/* What is spoilt is refused by every call at every depth, or by none. */
static void hold_spoilt(enum group group)
{
    const bool refuses = mode == CHECKED || !spoilt.checked;
    for (size_t depth = 1; depth <= DEEPEST; depth++) {
        struct bytes b = at_depth(depth, whole(&spoilt.entry));
        struct told want = spoilt.item && depth == DEEPEST ? refused(15, 16, 17) : spoilt.want;
        if (refuses) {
            hold_refused(spoilt.item && depth == DEEPEST ? TYPES_TOO_DEEP : group, b, want);
            SAME(group, call_type_step(b, 0), with_cursor(want, b.len));
        } else {
            CHECK(TYPES_READ, call_type_read(b).status == VINDASKOT_DONE, "what is not looked at is refused");
        }
        try_type(b);
    }
}

/* A header with those lengths and counts, and so many bytes behind it, which are zeros; it claims all of them. */
static struct buffer *begin_spoilt(size_t name, size_t type_name, size_t comment, size_t arrays, size_t items,
                                   uint32_t flags, size_t behind)
{
    static const uint8_t zeros[600];
    struct buffer *to = &spoilt.entry;
    to->len = 0;
    put_number(to, HEADER + behind, 4);
    put(to, (struct bytes){zeros, 24});
    put_number(to, flags, 4);
    put_number(to, name, 2);
    put_number(to, type_name, 2);
    put_number(to, comment, 2);
    put_number(to, arrays, 2);
    put_number(to, items, 2);
    put(to, (struct bytes){zeros, behind});
    return to;
}

static void spoil_so(enum group group, struct told want, bool checked, bool item)
{
    spoilt.want = want;
    spoilt.checked = checked;
    spoilt.item = item;
    hold_spoilt(group);
}

static void spoilt_strings(void)
{
    /* "a claim of 42 passes check 4 and then is 3 (45, 42)"; 45 is accepted. */
    for (size_t behind = 0; behind < 3; behind++) {
        begin_spoilt(0, 0, 0, 0, 0, 0, behind);
        spoil_so(TYPES_STRINGS, refused(3, 45, 42 + behind), false, false);
    }
    begin_spoilt(4, 0, 0, 0, 0, 0, 6);
    spoil_so(TYPES_STRINGS, refused(3, 49, 48), false, false);
    begin_spoilt(0, 4, 0, 0, 0, 0, 6);
    spoil_so(TYPES_STRINGS, refused(3, 49, 48), false, false);
    begin_spoilt(0, 0, 4, 0, 0, 0, 6);
    spoil_so(TYPES_STRINGS, refused(3, 49, 48), false, false);
    begin_spoilt(65535, 65535, 65535, 65535, 65535, UINT32_MAX, 60);
    spoil_so(TYPES_STRINGS, refused(3, 45 + 3 * 65535, 102), false, false);
}

/* "16 stands after the length check of each entry's strings, its place counted in that entry". */
static void spoilt_ends(void)
{
    static const size_t places[3] = {42 + 2, 42 + 2 + 1 + 3, 42 + 2 + 1 + 3 + 1 + 1};
    static const uint8_t bytes[] = {1, 0x80, 0xFF};
    for (size_t i = 0; i < 9; i++) {
        begin_spoilt(2, 3, 1, 1, 0, 0, 2 + 3 + 1 + 3 + 8)->at[places[i % 3]] = bytes[i / 3];
        spoil_so(TYPES_ENDS, refused(16, places[i % 3], bytes[i / 3]), true, false);
    }
    /* The name's before the comment's, the comment's before array records that leave the entry. */
    struct buffer *to = begin_spoilt(2, 3, 1, 0, 0, 0, 9);
    to->at[places[0]] = 7;
    to->at[places[2]] = 9;
    spoil_so(TYPES_ENDS, refused(16, places[0], 7), true, false);
    if (mode == CHECKED) {
        begin_spoilt(2, 3, 1, 9, 1, 0, 9)->at[places[2]] = 9;
        spoil_so(TYPES_ENDS, refused(16, places[2], 9), true, false);
    }
}

/* "3 for array records that don't fit (E place of their end, G the entry's claim)". */
static void spoilt_arrays(void)
{
    begin_spoilt(1, 2, 3, 1, 0, 0, 9 + 7);
    spoil_so(TYPES_BOUNDS, refused(3, 51 + 8, 58), false, false);
    begin_spoilt(1, 2, 3, 2, 0, 0, 9 + 15);
    spoil_so(TYPES_BOUNDS, refused(3, 51 + 16, 66), false, false);
    begin_spoilt(0, 0, 0, 65535, 65535, UINT32_MAX, 3);
    spoil_so(TYPES_BOUNDS, refused(3, 45 + 8 * 65535, 45), false, false);
}

/* So many bytes of a sub-item that claims so many, behind a sound one. */
static void begin_items(size_t sound, size_t left, size_t claim, size_t arrays)
{
    struct buffer *to = begin_spoilt(1, 0, 0, arrays, sound + 1, 0, 4 + 8 * arrays + LEAST * sound + left);
    size_t at = HEADER + 4 + 8 * arrays;
    for (; sound > 0; sound--, at += LEAST)
        to->at[at] = LEAST;
    for (size_t i = 0; i < 4 && i < left; i++)
        to->at[at + i] = (uint8_t)(claim >> 8 * i);
}

/* "2 for fewer than 4 bytes left in the parent (E 4, G bytes left), 3 for a claim that leaves the parent (E claim, G
 * bytes left), 4 for a claim below 42 (E 42, G claim)". */
static void spoilt_items(void)
{
    static const size_t below[] = {0, 1, 3, 4, 30, 41};
    for (size_t sound = 0; sound < 3; sound++) {
        for (size_t left = 0; left < 4; left++) {
            begin_items(sound, left, 0xFFFFFFFF, sound);
            spoil_so(TYPES_LEFT, refused(2, 4, left), false, true);
        }
        begin_items(sound, LEAST, LEAST + 1, sound);
        spoil_so(TYPES_LEAVES, refused(3, LEAST + 1, LEAST), false, true);
        begin_items(sound, 4, 5, 0);
        spoil_so(TYPES_LEAVES, refused(3, 5, 4), false, true);
        begin_items(sound, LEAST, 0xFFFFFFFF, 0);
        spoil_so(TYPES_LEAVES, refused(3, 0xFFFFFFFF, LEAST), false, true);
        for (size_t i = 0; i < sizeof below / sizeof *below; i++) {
            begin_items(sound, LEAST, below[i], 0);
            spoil_so(TYPES_BELOW, refused(4, 42, below[i]), false, true);
        }
    }
    /* A claim below 42 that leaves the parent too; a header that is there, whose strings are not. */
    begin_items(0, 20, 41, 0);
    spoil_so(TYPES_LEAVES, refused(3, 41, 20), false, true);
    begin_items(0, LEAST, 42, 0);
    spoil_so(TYPES_STRINGS, refused(3, 45, 42), false, true);
    /* The second of three is refused, and the third would be for another cause. */
    begin_items(1, 8, 6, 0);
    spoilt.entry.at[40] = 3;
    spoil_so(TYPES_BELOW, refused(4, 42, 6), false, true);
}

/* "a refused attribute refuses"; sub-items come before it. */
static void spoilt_attributes(void)
{
    const size_t first = HEADER + 3 + 2;
    for (size_t left = 0; left < 4; left++) {
        begin_spoilt(0, 0, 0, 0, 0, VINDASKOT_TYPE_FLAG_ATTRIBUTES, 3 + 2 + left)->at[HEADER + 3] = 1;
        spoil_so(TYPES_ATTRIBUTE, refused(2, 4, left), false, false);
    }
    for (size_t i = 0; i < 2; i++) {
        struct buffer *to = begin_spoilt(0, 0, 0, 0, 0, VINDASKOT_TYPE_FLAG_ATTRIBUTES, 3 + 2 + 6 + 5);
        to->at[HEADER + 3] = 2;
        to->at[first] = to->at[first + 1] = 1;
        to->at[first + 6 + i] = 2;
        spoil_so(TYPES_ATTRIBUTE, refused(1, 6, 5), false, false);
        to->at[first + 3 + 2 * i] = 0xEE;
        if (mode == CHECKED)
            spoil_so(TYPES_ATTRIBUTE_ENDS, refused(16, first + 3 + 2 * i, 0xEE), true, false);
    }
    for (size_t i = 0; i < 2; i++) {
        struct buffer *to = begin_spoilt(0, 0, 0, 0, 0, VINDASKOT_TYPE_FLAG_ATTRIBUTES, 3 + 2 + 6);
        to->at[HEADER + 3] = 1;
        to->at[first] = to->at[first + 1] = 1;
        to->at[first + 3 + 2 * i] = 1;
        spoil_so(TYPES_ATTRIBUTE_ENDS, refused(16, first + 3 + 2 * i, 1), true, false);
    }
    struct buffer *to = begin_spoilt(0, 0, 0, 0, 1, VINDASKOT_TYPE_FLAG_ATTRIBUTES, 3 + LEAST + 2);
    to->at[LEAST] = 41;
    to->at[2 * LEAST] = 9;
    spoil_so(TYPES_BELOW, refused(4, 42, 41), false, true);
    to->at[LEAST] = LEAST;
    spoil_so(TYPES_ATTRIBUTE, refused(2, 4, 0), false, true);
}

/* "At each sub-item, first 15, also where no byte is left". */
static void spoilt_depths(void)
{
    for (size_t items = 1; items <= 65535; items += 65534)
        for (size_t left = 0; left <= LEAST; left += left < 5 ? 1 : LEAST - 5) {
            begin_spoilt(0, 0, 0, 0, items, 0, 3 + left);
            for (size_t claim = 0; claim <= LEAST; claim += LEAST) {
                if (left > 0)
                    spoilt.entry.at[LEAST] = (uint8_t)claim;
                struct bytes b = at_depth(DEEPEST, whole(&spoilt.entry));
                hold_refused(TYPES_TOO_DEEP, b, refused(15, 16, 17));
                try_type(b);
            }
        }
}

/* The root's own length and claim, read and stepped over. */
static void try_claims(void)
{
    static const size_t claims[] = {0, 1, 3, 4, 41, 42, 44, 45, 46, 47, 48, 0x7FFFFFFF, 0xFFFFFFFF};
    for (size_t len = 0; len <= 48; len++)
        for (size_t i = 0; i < sizeof claims / sizeof *claims; i++) {
            const size_t claim = claims[i];
            struct buffer *to = begin_spoilt(0, 0, 0, 0, 0, 0, 6);
            put_claim(to, 0, claim);
            to->len = len;
            struct bytes b = lay(UPLOAD, whole(to));
            struct told want = len < 42        ? refused(2, 42, len)
                               : claim > len   ? refused(3, claim, len)
                               : claim < 42    ? refused(4, 42, claim)
                               : claim < LEAST ? refused(3, 45, claim)
                                               : done(0, 0);
            if (want.status != VINDASKOT_DONE)
                hold_refused(TYPES_CLAIM, b, want);
            struct told step = len == 0      ? (struct told){.status = VINDASKOT_FINISHED}
                               : len < 4     ? with_cursor(refused(2, 4, len), len)
                               : claim > len ? with_cursor(refused(3, claim, len), len)
                               : claim < 42  ? with_cursor(refused(2, 42, claim), claim)
                               : claim < 45  ? with_cursor(refused(3, 45, claim), claim)
                                             : with_cursor(call_type_read(b), claim);
            SAME(TYPES_WALKED, call_type_step(b, 0), step);
            try_type(b);
            try_type_walk(b);
        }
}

static void try_none(struct bytes none)
{
    SAME(EMPTY, call_type_read(none), refused(2, 42, 0));
    SAME(EMPTY, call_type_array(none, 0), refused(2, 42, 0));
    SAME(EMPTY, call_type_attribute(none, 0), refused(2, 42, 0));
    SAME(EMPTY, call_type_attribute_named(none, none), refused(2, 42, 0));
    SAME(EMPTY, call_type_member(none, 0), refused(2, 42, 0));
    SAME(EMPTY, call_type_members(none, lend(0)), refused(2, 42, 0));
    SAME(EMPTY, call_type_members(none, (struct room){NULL, 0}), refused(2, 42, 0));
    for (size_t cursor = 0; cursor < 2; cursor++)
        SAME(EMPTY, call_type_step(none, cursor), ((struct told){.status = VINDASKOT_FINISHED, .cursor = cursor}));
    struct bytes least = lay(UPLOAD, whole(begin_spoilt(0, 0, 0, 0, 0, 0, 3)));
    SAME(EMPTY, call_type_members(least, (struct room){NULL, 0}), done(0, 0));
    SAME(EMPTY, call_type_attribute_named(least, none), refused(13, 0, 0));
    begin_items(0, LEAST, LEAST, 0);
    struct bytes one = lay(UPLOAD, whole(&spoilt.entry));
    SAME(EMPTY, call_type_members(one, (struct room){NULL, 0}), refused(6, VINDASKOT_MEMBER_SLOTS, 0));
}

/* ---- Uploads ---- */

/* Data types, sound and refused, one after another: each step tells its own, and what is wrong in one moves no other.
 */
static void try_upload(void)
{
    static struct buffer upload, tree;
    static const size_t fan[TOO_MANY + 2] = {0, 2, 2, 1},
                                       chain[TOO_MANY + 2] = {0, 1, 1, 1, 1, 1, 1, 1, 1, 1, 1, 1, 1, 1, 1, 1, 1};
    static const struct told none;
    struct told wants[8] = {none};
    size_t starts[9] = {0}, count = 0;
    upload.len = 0;
    for (size_t i = 0; i < 7; i++) {
        struct told *want = &wants[count];
        bool sound = i % 2 == 0;
        plant(&tree, i == 5 ? chain : fan, false);
        if (i == 1) {
            put_claim(&tree, entries[3].at.place, 41);
            *want = refused(4, 42, 41);
        } else if (i == 3) {
            /* 16 for an end byte in the checked mode alone. */
            tree.at[entries[2].at.place + 42 + number_at(whole(&tree), entries[2].at.place + 32, 2)] = 0x33;
            sound = mode != CHECKED;
            *want = refused(16, 42 + number_at(whole(&tree), entries[2].at.place + 32, 2), 0x33);
        } else if (i == 5) {
            *want = refused(15, 16, 17);
        }
        if (sound)
            *want = call_type_read(lay(UPLOAD, whole(&tree)));
        CHECK(TYPES_WALKED, want->status == VINDASKOT_DONE || !sound, "a sound data type is refused");
        starts[count++] = upload.len;
        put(&upload, whole(&tree));
    }
    starts[count] = upload.len;
    struct bytes b = lay(UPLOAD, whole(&upload));
    for (size_t i = 0; i < count; i++)
        SAME(TYPES_WALKED, call_type_step(b, starts[i]), with_cursor(wants[i], starts[i + 1]));
    try_type_walk(b);
    put_number(&upload, 0, 6);
    b = lay(UPLOAD, whole(&upload));
    SAME(TYPES_WALKED, call_type_step(b, starts[count]), with_cursor(refused(2, 42, 0), starts[count]));
    try_type_walk(b);
    for (size_t cut = 1; cut < 60; cut += 7)
        try_type_walk(lay(UPLOAD, part(whole(&upload), 0, upload.len - cut)));
}

/* A tree cut at each byte, as it claims and claiming what is left. */
static void try_cuts(void)
{
    static struct buffer tree;
    static const size_t fan[TOO_MANY + 2] = {0, 2, 1, 1};
    plant(&tree, fan, false);
    for (size_t len = tree.len; len > 0; len--) {
        struct bytes b = lay(UPLOAD, part(whole(&tree), 0, len));
        if (len < tree.len)
            hold_refused(TYPES_CLAIM, b, len < 42 ? refused(2, 42, len) : refused(3, tree.len, len));
        if (len >= 4) {
            uint8_t *at = area(UPLOAD, len);
            at[0] = (uint8_t)len;
            at[1] = (uint8_t)(len >> 8);
            at[2] = at[3] = 0;
        }
        try_type(b);
    }
}

void try_types(void)
{
    try_none(lay(UPLOAD, text("")));
    try_none((struct bytes){NULL, 0});
    try_trees();
    try_chains();
    try_offsets();
    try_claims();
    spoilt_strings();
    spoilt_ends();
    spoilt_arrays();
    spoilt_items();
    spoilt_attributes();
    spoilt_depths();
    try_upload();
    try_cuts();
}

/* Each refusal was met at each depth that it can stand at. */
void try_type_depths(void)
{
    for (int fault = IN_STRINGS; fault < FAULTS; fault++)
        for (size_t depth = 1; depth <= TOO_MANY; depth++) {
            const bool of_item = fault == TOO_FEW_LEFT || fault == LEAVES_PARENT || fault == BELOW_HEADER;
            if (fault == TOO_DEEP ? depth < TOO_MANY : depth == TOO_MANY || (of_item && depth == 1))
                continue;
            CHECK(TYPES_EVERY_DEPTH, met[fault][depth] > 0, "refusal %d was never met at depth %zu", fault, depth);
        }
}

/* ---- As many as there can be ---- */

/* A root of so many bytes with so many array records and, behind them, sub-items of 45 bytes, each of which has its
 * number in its offset. */
static struct bytes wide(size_t len, size_t arrays, size_t items)
{
    uint8_t *at = area(UPLOAD, len), *item = at + LEAST + 8 * arrays;
    memset(at, 0, len);
    for (size_t i = 0; i < 4; i++)
        at[i] = (uint8_t)(len >> 8 * i);
    at[38] = (uint8_t)arrays;
    at[39] = (uint8_t)(arrays >> 8);
    at[40] = (uint8_t)items;
    at[41] = (uint8_t)(items >> 8);
    for (size_t i = 0; i < arrays; i++) {
        at[LEAST + 8 * i] = (uint8_t)i;
        at[LEAST + 8 * i + 1] = (uint8_t)(i >> 8);
        at[LEAST + 8 * i + 4] = 0xEE;
        at[LEAST + 8 * i + 7] = 0xFF;
    }
    for (size_t i = 0; i < items; i++, item += LEAST) {
        item[0] = LEAST;
        item[20] = (uint8_t)i;
        item[21] = (uint8_t)(i >> 8);
        item[23] = 0x80;
    }
    return (struct bytes){at, len};
}

static struct told at_limit(size_t len, struct told told)
{
    return len > VINDASKOT_LIMIT ? refused(5, VINDASKOT_LIMIT, len) : told;
}

static void hold_wide(size_t len, size_t arrays, size_t items)
{
    const struct bytes b = wide(len, arrays, items);
    const size_t slots = VINDASKOT_MEMBER_SLOTS * items, first = LEAST + 8 * arrays;
    const size_t members[] = {0, 1, 32768, items - 1};
    struct told root = call_type_read(b);
    CHECK(TYPES_MANY,
          len > VINDASKOT_LIMIT
              ? root.status == 5
              : root.status == VINDASKOT_DONE && root.slots[VINDASKOT_TYPE_ARRAY_COUNT] == arrays &&
                    root.slots[VINDASKOT_TYPE_ITEM_COUNT] == items && root.slots[VINDASKOT_TYPE_MEMBER_COUNT] == items,
          "%zu array records and %zu sub-items are told otherwise (status %u)", arrays, items, (unsigned)root.status);
    SAME(TYPES_MANY, call_type_step(b, 0), with_cursor(root, len));
    for (size_t i = 0; i < arrays; i += 1 + i * 7) {
        struct told want = {.slots = {[VINDASKOT_ARRAY_LOWER_BOUND] = i, [VINDASKOT_ARRAY_ELEMENTS] = 0xFF0000EE}};
        SAME(TYPES_MANY, call_type_array(b, i), at_limit(len, want));
    }
    SAME(TYPES_MANY, call_type_array(b, arrays), at_limit(len, refused(14, arrays, arrays)));
    SAME(TYPES_MANY, call_type_attribute(b, 0), at_limit(len, refused(14, 0, 0)));
    SAME(TYPES_MANY, call_type_attribute_named(b, lay(NAME, text(""))), at_limit(len, refused(13, 0, 0)));
    SAME(TYPES_MANY, call_type_member(b, items), at_limit(len, refused(14, items, items)));
    if (items == 0)
        return;
    SAME(TYPES_MANY, call_type_members(b, lend(8 * (slots - 1))), at_limit(len, refused(6, slots, slots - 1)));
    SAME(TYPES_MANY, call_type_members(b, lend(0)), at_limit(len, refused(6, slots, 0)));
    struct room lent = lend(8 * slots);
    struct told listed = call_type_members(b, lent);
    SAME(TYPES_MANY, listed, at_limit(len, done(slots, 0)));
    const uint64_t *at = (const uint64_t *)(const void *)lent.at;
    size_t right = 0;
    while (listed.status == VINDASKOT_DONE && right < items &&
           at[3 * right + VINDASKOT_MEMBER_PLACE] == first + LEAST * right &&
           at[3 * right + VINDASKOT_MEMBER_DEPTH] == 2 && at[3 * right + VINDASKOT_MEMBER_OFFSET] == 0x80000000 + right)
        right++;
    CHECK(TYPES_MANY, right == items || listed.status != VINDASKOT_DONE, "member %zu is listed otherwise", right);
    for (size_t i = 0; i < sizeof members / sizeof *members && items > 32768; i++) {
        struct told told = call_type_member(b, members[i]);
        CHECK(TYPES_MANY,
              len > VINDASKOT_LIMIT || (told.status == VINDASKOT_DONE && told.path[VINDASKOT_PATH_DEPTH] == 2 &&
                                        told.path[VINDASKOT_PATH_PLACES] == first + LEAST * members[i] &&
                                        told.path[VINDASKOT_PATH_OFFSET] == 0x80000000 + members[i]),
              "member %zu of %zu is told otherwise", members[i], items);
    }
}

/* As many members as there can be: entries of 45 bytes, each with its number in its offset, below a few others, since
 * an entry has at most 65,535 sub-items. */
enum {
    PARENTS = 6,
    BELOW_EACH = (VINDASKOT_LIMIT / LEAST - 1 - PARENTS) / PARENTS,
    EACH_LEN = LEAST * (1 + BELOW_EACH)
};

static void put_least(uint8_t *at, size_t len, size_t items, size_t offset)
{
    for (size_t i = 0; i < 4; i++) {
        at[i] = (uint8_t)(len >> 8 * i);
        at[20 + i] = (uint8_t)(offset >> 8 * i);
    }
    at[40] = (uint8_t)items;
    at[41] = (uint8_t)(items >> 8);
}

static struct member most_at(size_t number)
{
    const size_t parent = number / (1 + BELOW_EACH), leaf = number % (1 + BELOW_EACH);
    const size_t own = parent * (1 + BELOW_EACH);
    return (struct member){LEAST + EACH_LEN * parent + LEAST * leaf, leaf == 0 ? 2 : 3, leaf == 0 ? own : own + number};
}

static void hold_most(void)
{
    const size_t members = PARENTS * (1 + BELOW_EACH), slots = VINDASKOT_MEMBER_SLOTS * members;
    const size_t asked[] = {0, 65534, 65535, 65536, 65537, members - 1};
    struct bytes b = {area(UPLOAD, VINDASKOT_LIMIT), VINDASKOT_LIMIT};
    uint8_t *at = area(UPLOAD, VINDASKOT_LIMIT);
    memset(at, 0, b.len);
    put_least(at, b.len, PARENTS, 77);
    for (size_t i = 0; i < members; i++) {
        const bool parent = i % (1 + BELOW_EACH) == 0;
        put_least(at + most_at(i).place, parent ? EACH_LEN : LEAST, parent ? BELOW_EACH : 0, i);
    }
    struct told root = call_type_read(b);
    CHECK(TYPES_MANY, root.status == VINDASKOT_DONE && root.slots[VINDASKOT_TYPE_MEMBER_COUNT] == members,
          "%zu members are counted as %llu (status %u)", members,
          (unsigned long long)root.slots[VINDASKOT_TYPE_MEMBER_COUNT], (unsigned)root.status);
    SAME(TYPES_MANY, call_type_members(b, lend(8 * (slots - 1))), refused(6, slots, slots - 1));
    struct room lent = lend(8 * slots);
    struct told listed = call_type_members(b, lent);
    SAME(TYPES_MANY, listed, done(slots, 0));
    size_t right = 0;
    for (const uint64_t *s = (const uint64_t *)(const void *)lent.at;
         listed.status == VINDASKOT_DONE && right < members; right++, s += VINDASKOT_MEMBER_SLOTS) {
        const struct member m = most_at(right);
        if (s[VINDASKOT_MEMBER_PLACE] != m.place || s[VINDASKOT_MEMBER_DEPTH] != m.depth ||
            s[VINDASKOT_MEMBER_OFFSET] != m.offset)
            break;
    }
    CHECK(TYPES_MANY, right == members, "member %zu of %zu is listed otherwise", right, members);
    for (size_t i = 0; i < sizeof asked / sizeof *asked; i++) {
        struct told told = call_type_member(b, asked[i]);
        const struct member m = most_at(asked[i]);
        CHECK(TYPES_MANY,
              told.status == VINDASKOT_DONE && told.path[VINDASKOT_PATH_DEPTH] == m.depth &&
                  told.path[VINDASKOT_PATH_OFFSET] == m.offset &&
                  told.path[VINDASKOT_PATH_PLACES + m.depth - 2] == m.place,
              "member %zu of %zu is told otherwise", asked[i], members);
    }
    SAME(TYPES_MANY, call_type_member(b, members), refused(14, members, members));
}

/* "array counts to 65,535; 65,535 sub-items of 45 bytes"; in the largest upload, and in one of a byte more. */
void try_type_limit(size_t len)
{
    const size_t most = 65535;
    if (len > VINDASKOT_LIMIT) {
        hold_wide(len, 2, most);
        return;
    }
    hold_most();
    hold_wide(len, most, most);
    hold_wide(LEAST + LEAST * most, 0, most);
    hold_wide(LEAST + 8 * most, most, 0);
    /* The last of them lacks a byte. */
    struct bytes b = wide(LEAST + LEAST * most, 0, most);
    uint8_t *at = area(UPLOAD, b.len);
    at[LEAST + LEAST * (most - 1)] = LEAST + 1;
    SAME(TYPES_MANY, call_type_read(b), refused(3, LEAST + 1, LEAST));
    SAME(TYPES_MANY, call_type_members(b, lend(8 * VINDASKOT_MEMBER_SLOTS * most)), refused(3, LEAST + 1, LEAST));
    /* Array records by 8 bytes too many. */
    b = wide(LEAST + 8 * most, most, 0);
    at = area(UPLOAD, b.len);
    at[0] -= 1;
    SAME(TYPES_MANY, call_type_read(b), refused(3, b.len, b.len - 1));
}
