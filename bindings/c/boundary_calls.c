/* Every exported function, called. What a call is lent besides its slices lies between guard words, and after each call
 * whatever it may not change is compared with what it was. */
#include <stdio.h>

#include "boundary.h"

/* A bit for each documented status. */
#define NUMBER(n) (1u << (n))
#define DONE NUMBER(VINDASKOT_DONE)
#define FINISHED NUMBER(30)
#define OUT_OF_STEPS NUMBER(31)
#define DIRECT (DONE | NUMBER(2) | NUMBER(3) | NUMBER(4) | NUMBER(5))
#define STEP (DONE | FINISHED | NUMBER(2) | NUMBER(3) | NUMBER(5))
#define ENDS_TOO NUMBER(16)
#define TYPE (DIRECT | NUMBER(1) | NUMBER(15) | ENDS_TOO)

enum {
    OF_SYMBOL = VINDASKOT_SYMBOL_SLOTS,
    OF_FIELD = VINDASKOT_FIELD_SLOTS,
    OF_ATTRIBUTE = VINDASKOT_ATTRIBUTE_SLOTS,
    OF_REFACTOR = VINDASKOT_REFACTOR_SLOTS,
    OF_TYPE = VINDASKOT_TYPE_SLOTS,
    OF_ARRAY = VINDASKOT_ARRAY_SLOTS,
    OF_ADDRESS = VINDASKOT_ADDRESS_SLOTS
};

_Static_assert((int)OF_TYPE <= (int)OF_SYMBOL, "what is told has slots for a symbol");

static const struct {
    const char *name;
    size_t slots;
    bool guid, cursor, steps;
    uint32_t statuses;
} functions[FUNCTIONS] = {
    [SYMBOL_READ] = {"vindaskot_symbol_read_2", OF_SYMBOL, true, false, false, DIRECT},
    [SYMBOL_STEP] = {"vindaskot_symbol_step_2", OF_SYMBOL, true, true, false, STEP},
    [SYMBOL_ATTRIBUTE] = {"vindaskot_symbol_attribute", OF_ATTRIBUTE, false, false, false, DIRECT | NUMBER(14)},
    [SYMBOL_REFACTOR_INFO] = {"vindaskot_symbol_refactor_info", OF_REFACTOR, false, false, false, DIRECT | NUMBER(14)},
    [SYMBOL_ATTRIBUTE_NAMED] = {"vindaskot_symbol_attribute_named", OF_ATTRIBUTE, false, false, false,
                                DIRECT | NUMBER(13)},
    [SYMBOL_WHY] = {"vindaskot_symbol_why", 0, false, false, false, DIRECT},
    [FIELD_READ] = {"vindaskot_field_read", OF_FIELD, true, false, false, DIRECT | NUMBER(1)},
    [FIELD_STEP] = {"vindaskot_field_step", OF_FIELD, true, true, false, STEP | NUMBER(1)},
    [FIELD_ATTRIBUTE] = {"vindaskot_field_attribute", OF_ATTRIBUTE, false, false, false,
                         DIRECT | NUMBER(1) | NUMBER(14)},
    [FIELD_ATTRIBUTE_NAMED] = {"vindaskot_field_attribute_named", OF_ATTRIBUTE, false, false, false,
                               DIRECT | NUMBER(1) | NUMBER(13)},
    [WALK] = {"vindaskot_walk", 0, false, true, true, FINISHED | OUT_OF_STEPS | NUMBER(10)},
    [ATTRIBUTE_READ] = {"vindaskot_attribute_read", OF_ATTRIBUTE, false, false, false,
                        DONE | NUMBER(5) | NUMBER(2) | NUMBER(1)},
    [REFACTOR_READ] = {"vindaskot_refactor_read", OF_REFACTOR, false, false, false, DONE | NUMBER(5) | NUMBER(2)},
    [CHAIN_READ] = {"vindaskot_chain_read", 0, false, false, false, DONE | NUMBER(5) | NUMBER(2)},
    [CHAIN_RECORD] = {"vindaskot_chain_record", OF_REFACTOR, false, false, false,
                      DONE | NUMBER(5) | NUMBER(2) | NUMBER(14)},
    [SYMBOL_FLAGS_READ] = {"vindaskot_symbol_flags_read", 0, false, false, false, DONE | NUMBER(5) | NUMBER(1)},
    [SYMBOL2_FLAGS_READ] = {"vindaskot_symbol2_flags_read", 0, false, false, false, DONE | NUMBER(5) | NUMBER(1)},
    [TYPE_FLAGS_READ] = {"vindaskot_type_flags_read", 0, false, false, false, DONE | NUMBER(5) | NUMBER(1)},
    [ATTRIBUTE_WRITE] = {"vindaskot_attribute_write", 0, false, false, false, DONE | NUMBER(7) | NUMBER(6)},
    [REFACTOR_WRITE] = {"vindaskot_refactor_write", 0, false, false, false, DONE | NUMBER(7) | NUMBER(6)},
    [REFACTOR_BLOCK_WRITE] = {"vindaskot_refactor_block_write", 0, false, false, false,
                              DONE | NUMBER(7) | NUMBER(9) | NUMBER(5) | NUMBER(6)},
    [SYMBOL_WRITE] = {"vindaskot_symbol_write_2", 0, false, false, false,
                      DONE | NUMBER(1) | NUMBER(7) | NUMBER(9) | NUMBER(8) | NUMBER(5) | NUMBER(6)},
    [FIELD_WRITE] = {"vindaskot_field_write", 0, false, false, false,
                     DONE | NUMBER(1) | NUMBER(7) | NUMBER(9) | NUMBER(5) | NUMBER(6)},
    [INDEX_ROOM] = {"vindaskot_room", 0, false, false, false, DONE | NUMBER(5)},
    [INDEX_BUILD] = {"vindaskot_index_build", 0, false, false, false, DONE | NUMBER(5) | NUMBER(10) | NUMBER(6)},
    [FIND] = {"vindaskot_find", 0, false, false, false, DONE | NUMBER(5) | NUMBER(10) | NUMBER(13)},
    [FIND_INDEXED] = {"vindaskot_find_indexed", 0, false, false, false, DONE | NUMBER(5) | NUMBER(13)},
    [SALVAGE] = {"vindaskot_salvage", 0, false, false, false, DONE | NUMBER(5) | NUMBER(6)},
    [DECODE] = {"vindaskot_decode", 0, false, false, false, DONE | NUMBER(5) | NUMBER(6)},
    [ENCODE] = {"vindaskot_encode", 0, false, false, false, DONE | NUMBER(5) | NUMBER(11) | NUMBER(6)},
    [SYMBOL_READ_IN] = {"vindaskot_symbol_read_in", OF_SYMBOL, true, false, false, DIRECT | ENDS_TOO},
    [SYMBOL_STEP_IN] = {"vindaskot_symbol_step_in", OF_SYMBOL, true, true, false, STEP | ENDS_TOO},
    [SYMBOL_ATTRIBUTE_IN] = {"vindaskot_symbol_attribute_in", OF_ATTRIBUTE, false, false, false,
                             DIRECT | ENDS_TOO | NUMBER(14)},
    [SYMBOL_REFACTOR_INFO_IN] = {"vindaskot_symbol_refactor_info_in", OF_REFACTOR, false, false, false,
                                 DIRECT | ENDS_TOO | NUMBER(14)},
    [SYMBOL_ATTRIBUTE_NAMED_IN] = {"vindaskot_symbol_attribute_named_in", OF_ATTRIBUTE, false, false, false,
                                   DIRECT | ENDS_TOO | NUMBER(13)},
    [FIELD_READ_IN] = {"vindaskot_field_read_in", OF_FIELD, true, false, false, DIRECT | NUMBER(1) | ENDS_TOO},
    [FIELD_STEP_IN] = {"vindaskot_field_step_in", OF_FIELD, true, true, false, STEP | NUMBER(1) | ENDS_TOO},
    [FIELD_ATTRIBUTE_IN] = {"vindaskot_field_attribute_in", OF_ATTRIBUTE, false, false, false,
                            DIRECT | NUMBER(1) | ENDS_TOO | NUMBER(14)},
    [FIELD_ATTRIBUTE_NAMED_IN] = {"vindaskot_field_attribute_named_in", OF_ATTRIBUTE, false, false, false,
                                  DIRECT | NUMBER(1) | ENDS_TOO | NUMBER(13)},
    [ATTRIBUTE_READ_IN] = {"vindaskot_attribute_read_in", OF_ATTRIBUTE, false, false, false,
                           DONE | NUMBER(5) | NUMBER(2) | NUMBER(1) | ENDS_TOO},
    [REFACTOR_READ_IN] = {"vindaskot_refactor_read_in", OF_REFACTOR, false, false, false,
                          DONE | NUMBER(5) | NUMBER(2) | ENDS_TOO},
    [CHAIN_READ_IN] = {"vindaskot_chain_read_in", 0, false, false, false, DONE | NUMBER(5) | NUMBER(2) | ENDS_TOO},
    [CHAIN_RECORD_IN] = {"vindaskot_chain_record_in", OF_REFACTOR, false, false, false,
                         DONE | NUMBER(5) | NUMBER(2) | ENDS_TOO | NUMBER(14)},
    [INDEX_BUILD_IN] = {"vindaskot_index_build_in", 0, false, false, false, DONE | NUMBER(5) | NUMBER(10) | NUMBER(6)},
    [FIND_IN] = {"vindaskot_find_in", 0, false, false, false, DONE | NUMBER(5) | NUMBER(10) | NUMBER(13)},
    [FIND_INDEXED_IN] = {"vindaskot_find_indexed_in", 0, false, false, false, DONE | NUMBER(5) | NUMBER(13)},
    [SALVAGE_IN] = {"vindaskot_salvage_in", 0, false, false, false, DONE | NUMBER(5) | NUMBER(6)},
    [TYPE_READ_IN] = {"vindaskot_type_read_in", OF_TYPE, true, false, false, TYPE},
    [TYPE_STEP_IN] = {"vindaskot_type_step_in", OF_TYPE, true, true, false, TYPE | FINISHED},
    [TYPE_ARRAY_IN] = {"vindaskot_type_array_in", OF_ARRAY, false, false, false, TYPE | NUMBER(14)},
    [TYPE_ATTRIBUTE_IN] = {"vindaskot_type_attribute_in", OF_ATTRIBUTE, false, false, false, TYPE | NUMBER(14)},
    [TYPE_ATTRIBUTE_NAMED_IN] = {"vindaskot_type_attribute_named_in", OF_ATTRIBUTE, false, false, false,
                                 TYPE | NUMBER(13)},
    [TYPE_MEMBER_IN] = {"vindaskot_type_member_in", OF_TYPE, true, false, false, TYPE | NUMBER(14)},
    [TYPE_MEMBERS_IN] = {"vindaskot_type_members_in", 0, false, false, false, TYPE | NUMBER(6)},
    [TYPE_INDEX_BUILD_IN] = {"vindaskot_type_index_build_in", 0, false, false, false,
                             DONE | NUMBER(5) | NUMBER(10) | NUMBER(6)},
    [TYPE_FIND_IN] = {"vindaskot_type_find_in", 0, false, false, false, DONE | NUMBER(5) | NUMBER(10) | NUMBER(13)},
    [TYPE_FIND_INDEXED_IN] = {"vindaskot_type_find_indexed_in", 0, false, false, false, DONE | NUMBER(5) | NUMBER(13)},
    [NAME_INDEX_BUILD_IN] = {"vindaskot_name_index_build_in", 0, false, false, false,
                              DONE | NUMBER(5) | NUMBER(10) | NUMBER(6)},
    [FIND_ORDERED_IN] = {"vindaskot_find_ordered_in", 0, false, false, false, DONE | NUMBER(5) | NUMBER(13)},
    [BRANCH_IN] = {"vindaskot_branch_in", 0, false, false, false, DONE | NUMBER(5) | NUMBER(6)},
    [BRANCH_ORDERED_IN] = {"vindaskot_branch_ordered_in", 0, false, false, false, DONE | NUMBER(5) | NUMBER(6)},
    [TYPE_NAME_INDEX_BUILD_IN] = {"vindaskot_type_name_index_build_in", 0, false, false, false,
                              DONE | NUMBER(5) | NUMBER(10) | NUMBER(6)},
    [TYPE_FIND_ORDERED_IN] = {"vindaskot_type_find_ordered_in", 0, false, false, false, DONE | NUMBER(5) | NUMBER(13)},
    [TYPE_BRANCH_IN] = {"vindaskot_type_branch_in", 0, false, false, false, DONE | NUMBER(5) | NUMBER(6)},
    [TYPE_BRANCH_ORDERED_IN] = {"vindaskot_type_branch_ordered_in", 0, false, false, false, DONE | NUMBER(5) | NUMBER(6)},
    [PLAIN_FORM] = {"vindaskot_plain", 0, false, false, false,
                    DONE | NUMBER(5) | NUMBER(2) | NUMBER(3) | NUMBER(10) | NUMBER(19)},
    [SPLIT_LINES] = {"vindaskot_split_lines", 0, false, false, false, DONE | NUMBER(5) | NUMBER(6)},
    [JOIN_LINES] = {"vindaskot_join_lines", 0, false, false, false, DONE | NUMBER(12) | NUMBER(5) | NUMBER(6)},
    [SHEET_EXPORT] = {"vindaskot_sheet_export", 0, false, false, false,
                      DONE | NUMBER(2) | NUMBER(3) | NUMBER(5) | NUMBER(6) | NUMBER(10) | NUMBER(17)},
    [SHEET_IMPORT] = {"vindaskot_sheet_import", 0, false, false, false,
                      DONE | NUMBER(5) | NUMBER(6) | NUMBER(7) | NUMBER(11) | NUMBER(18)},
    [REFUSAL_TEXT] = {"vindaskot_refusal_text", 0, false, false, false, DONE | NUMBER(6) | NUMBER(14)},
    [BIND_IN] = {"vindaskot_bind_in", OF_ADDRESS, false, false, false,
                 DONE | NUMBER(5) | NUMBER(13) | NUMBER(14) | NUMBER(20) | NUMBER(21) | NUMBER(22) | NUMBER(23) |
                     NUMBER(24)},
};

/* The one function that tells a path. */
static bool tells_path(enum function function)
{
    return function == TYPE_MEMBER_IN;
}

/* The one function that tells reasons. */
static bool tells_why(enum function function)
{
    return function == SYMBOL_WHY;
}

enum function calling = FUNCTIONS;
uint64_t calls[FUNCTIONS];

const char *name_of(enum function function)
{
    return function < FUNCTIONS ? functions[function].name : "no function";
}

/* Slots that a function has not are guard words too. */
static struct frame {
    uint64_t guard0[4];
    uint64_t slots[VINDASKOT_SYMBOL_SLOTS];
    uint64_t guard1[4];
    uint8_t guid[16];
    uint64_t guard2[4];
    uint64_t answer[2];
    uint64_t guard3[4];
    size_t cursor;
    uint64_t guard4[4];
    size_t steps;
    uint64_t guard5[4];
    uint64_t path[VINDASKOT_PATH_SLOTS];
    uint64_t guard6[4];
    struct {
        uint64_t slots[VINDASKOT_WHY_SLOTS];
        uint64_t guard[4];
    } whys[SECTIONS];
} blank, lent;

void begin_calls(void)
{
    uint8_t *at = (uint8_t *)&blank;
    for (size_t i = 0; i < sizeof blank; i++)
        at[i] = (uint8_t)(89 * i + 0xA5);
}

static struct frame *begin(enum function function, size_t cursor)
{
    calling = function;
    calls[function]++;
    lent = blank;
    if (functions[function].cursor)
        lent.cursor = cursor;
    return &lent;
}

static struct frame *begin_out(enum function function, struct room out)
{
    watch(OUT, out);
    return begin(function, 0);
}

/* The documented statuses of each function that were seen. */
static uint32_t seen[FUNCTIONS];

static bool documented(enum function function, uint32_t status)
{
    uint32_t bit = status == VINDASKOT_FINISHED       ? FINISHED
                   : status == VINDASKOT_OUT_OF_STEPS ? OUT_OF_STEPS
                   : status <= 24                     ? NUMBER(status)
                                                      : 0;
    seen[function] |= bit;
    return (functions[function].statuses & bit) != 0;
}

bool all_seen(enum function function)
{
    return (functions[function].statuses & ~seen[function]) == 0;
}

/* What the call told, after a look at everything else. */
static struct told finish(enum function f, uint32_t status)
{
    struct told told = {.function = f, .status = status, .answer = {lent.answer[0], lent.answer[1]}};
    struct frame may = blank;
    memcpy(may.answer, lent.answer, sizeof may.answer);
    if (functions[f].cursor)
        told.cursor = may.cursor = lent.cursor;
    if (functions[f].steps)
        told.steps = may.steps = lent.steps;
    if (status == VINDASKOT_DONE) {
        memcpy(may.slots, lent.slots, functions[f].slots * sizeof *may.slots);
        memcpy(told.slots, lent.slots, functions[f].slots * sizeof *may.slots);
    }
    if (status == VINDASKOT_DONE && functions[f].guid) {
        memcpy(may.guid, lent.guid, sizeof may.guid);
        memcpy(told.guid, lent.guid, sizeof may.guid);
    }
    if (status == VINDASKOT_DONE && tells_path(f)) {
        memcpy(may.path, lent.path, sizeof may.path);
        memcpy(told.path, lent.path, sizeof may.path);
    }
    for (size_t i = 0; status == VINDASKOT_DONE && tells_why(f) && i < SECTIONS; i++) {
        memcpy(may.whys[i].slots, lent.whys[i].slots, sizeof may.whys[i].slots);
        memcpy(told.whys[i], lent.whys[i].slots, sizeof told.whys[i]);
    }
    CHECK(FRAMES, memcmp(&may, &lent, sizeof may) == 0,
          "%s changed what it may not: slots, guid, path or a guard word (status %u)", functions[f].name,
          (unsigned)status);
    CHECK(FRAMES, lent.answer[0] != blank.answer[0] && lent.answer[1] != blank.answer[1],
          "%s left an answer unset (status %u)", functions[f].name, (unsigned)status);
    CHECK(STATUSES, documented(f, status), "%s has status %u, which is not documented for it", functions[f].name,
          (unsigned)status);
    calling = FUNCTIONS;
    return told;
}

/* A lent buffer, of items of so many bytes, of which a call says that it wrote so many. */
static void finish_room(struct told told, enum area which, struct room room, size_t item, uint64_t items)
{
    bool wrote = told.status == VINDASKOT_DONE;
    bool within = !wrote || items <= room.len / item;
    CHECK(OUTPUTS, within, "%s wrote %llu where %zu were lent", functions[told.function].name,
          (unsigned long long)items, room.len / item);
    CHECK(OUTPUTS, !within || kept(which, room, wrote ? (size_t)items * item : 0),
          "%s changed bytes of a lent buffer, or beside it, that it may not (status %u, %zu bytes lent)",
          functions[told.function].name, (unsigned)told.status, room.len);
}

/* The same for a function that is lent a buffer. */
static struct told finish_out(enum function f, uint32_t status, struct room out, size_t item)
{
    struct told told = finish(f, status);
    finish_room(told, OUT, out, item, told.answer[0]);
    return told;
}

void same_at(const char *file, int line, enum group group, struct told got, struct told want)
{
    size_t slot = 0;
    while (slot < VINDASKOT_SYMBOL_SLOTS && got.slots[slot] == want.slots[slot])
        slot++;
    bool same = got.status == want.status && got.answer[0] == want.answer[0] && got.answer[1] == want.answer[1] &&
                got.cursor == want.cursor && got.steps == want.steps && slot == VINDASKOT_SYMBOL_SLOTS &&
                memcmp(got.guid, want.guid, sizeof got.guid) == 0 &&
                memcmp(got.path, want.path, sizeof got.path) == 0 && memcmp(got.whys, want.whys, sizeof got.whys) == 0;
    if (same) {
        checks[group]++;
        return;
    }
    char more[100] = "";
    if (slot < VINDASKOT_SYMBOL_SLOTS)
        snprintf(more, sizeof more, "; slot %zu is %llu and not %llu", slot, (unsigned long long)got.slots[slot],
                 (unsigned long long)want.slots[slot]);
    failed(
        file, line, group,
        "%s: status %u (%llu, %llu), cursor %zu, steps %zu; expected status %u (%llu, %llu), cursor %zu, steps %zu%s%s",
        name_of(got.function), (unsigned)got.status, (unsigned long long)got.answer[0],
        (unsigned long long)got.answer[1], got.cursor, got.steps, (unsigned)want.status,
        (unsigned long long)want.answer[0], (unsigned long long)want.answer[1], want.cursor, want.steps, more,
        memcmp(got.guid, want.guid, sizeof got.guid) != 0   ? "; another guid"
        : memcmp(got.path, want.path, sizeof got.path) != 0 ? "; another path"
        : memcmp(got.whys, want.whys, sizeof got.whys) != 0 ? "; another reason"
                                                            : "");
}

bool tells_symbol(struct told told)
{
    enum function f = told.function;
    bool symbol = f == SYMBOL_READ || f == SYMBOL_STEP || f == SYMBOL_READ_IN || f == SYMBOL_STEP_IN;
    return symbol && told.status == VINDASKOT_DONE;
}

enum group naming_group(struct told want)
{
    return want.status == VINDASKOT_DONE ? NAMED : want.status == 13 ? UNNAMED : READS;
}

/* A call as is being tried, over the frame f: by the function that takes no mode, or by the one that takes it. */
#define IN_MODE(function, from, call, call_in)                                                                         \
    bool takes_mode = mode != PRESENT;                                                                                 \
    struct frame *f = begin(takes_mode ? function##_IN : function, from);                                              \
    return takes_mode ? finish(function##_IN, call_in) : finish(function, call)

struct told call_symbol_read(struct bytes b)
{
    IN_MODE(SYMBOL_READ, 0, vindaskot_symbol_read_2(b.at, b.len, f->slots, f->guid, f->answer),
            vindaskot_symbol_read_in(b.at, b.len, mode == CHECKED, f->slots, f->guid, f->answer));
}

struct told call_symbol_step(struct bytes b, size_t cursor)
{
    IN_MODE(SYMBOL_STEP, cursor, vindaskot_symbol_step_2(b.at, b.len, &f->cursor, f->slots, f->guid, f->answer),
            vindaskot_symbol_step_in(b.at, b.len, mode == CHECKED, &f->cursor, f->slots, f->guid, f->answer));
}

struct told call_symbol_attribute(struct bytes b, size_t number)
{
    IN_MODE(SYMBOL_ATTRIBUTE, 0, vindaskot_symbol_attribute(b.at, b.len, number, f->slots, f->answer),
            vindaskot_symbol_attribute_in(b.at, b.len, mode == CHECKED, number, f->slots, f->answer));
}

struct told call_symbol_refactor_info(struct bytes b, size_t number)
{
    IN_MODE(SYMBOL_REFACTOR_INFO, 0, vindaskot_symbol_refactor_info(b.at, b.len, number, f->slots, f->answer),
            vindaskot_symbol_refactor_info_in(b.at, b.len, mode == CHECKED, number, f->slots, f->answer));
}

struct told call_symbol_attribute_named(struct bytes b, struct bytes n)
{
    IN_MODE(SYMBOL_ATTRIBUTE_NAMED, 0, vindaskot_symbol_attribute_named(b.at, b.len, n.at, n.len, f->slots, f->answer),
            vindaskot_symbol_attribute_named_in(b.at, b.len, mode == CHECKED, n.at, n.len, f->slots, f->answer));
}

struct told call_symbol_why(struct bytes b)
{
    struct frame *f = begin(SYMBOL_WHY, 0);
    return finish(SYMBOL_WHY, vindaskot_symbol_why(b.at, b.len, f->whys[GUID_SECTION].slots,
                                                   f->whys[ATTRIBUTES_SECTION].slots, f->whys[EXTENDED_SECTION].slots,
                                                   f->whys[CHAIN_SECTION].slots, f->answer));
}

struct told call_field_read(struct bytes b)
{
    IN_MODE(FIELD_READ, 0, vindaskot_field_read(b.at, b.len, f->slots, f->guid, f->answer),
            vindaskot_field_read_in(b.at, b.len, mode == CHECKED, f->slots, f->guid, f->answer));
}

struct told call_field_step(struct bytes b, size_t cursor)
{
    IN_MODE(FIELD_STEP, cursor, vindaskot_field_step(b.at, b.len, &f->cursor, f->slots, f->guid, f->answer),
            vindaskot_field_step_in(b.at, b.len, mode == CHECKED, &f->cursor, f->slots, f->guid, f->answer));
}

struct told call_field_attribute(struct bytes b, size_t number)
{
    IN_MODE(FIELD_ATTRIBUTE, 0, vindaskot_field_attribute(b.at, b.len, number, f->slots, f->answer),
            vindaskot_field_attribute_in(b.at, b.len, mode == CHECKED, number, f->slots, f->answer));
}

struct told call_field_attribute_named(struct bytes b, struct bytes n)
{
    IN_MODE(FIELD_ATTRIBUTE_NAMED, 0, vindaskot_field_attribute_named(b.at, b.len, n.at, n.len, f->slots, f->answer),
            vindaskot_field_attribute_named_in(b.at, b.len, mode == CHECKED, n.at, n.len, f->slots, f->answer));
}

struct told call_walk(struct bytes b, size_t allowed, size_t cursor)
{
    struct frame *f = begin(WALK, cursor);
    return finish(WALK, vindaskot_walk(b.at, b.len, allowed, &f->cursor, &f->steps, f->answer));
}

struct told call_attribute_read(struct bytes b)
{
    IN_MODE(ATTRIBUTE_READ, 0, vindaskot_attribute_read(b.at, b.len, f->slots, f->answer),
            vindaskot_attribute_read_in(b.at, b.len, mode == CHECKED, f->slots, f->answer));
}

struct told call_refactor_read(struct bytes b)
{
    IN_MODE(REFACTOR_READ, 0, vindaskot_refactor_read(b.at, b.len, f->slots, f->answer),
            vindaskot_refactor_read_in(b.at, b.len, mode == CHECKED, f->slots, f->answer));
}

struct told call_chain_read(struct bytes b)
{
    IN_MODE(CHAIN_READ, 0, vindaskot_chain_read(b.at, b.len, f->answer),
            vindaskot_chain_read_in(b.at, b.len, mode == CHECKED, f->answer));
}

struct told call_chain_record(struct bytes b, size_t number)
{
    IN_MODE(CHAIN_RECORD, 0, vindaskot_chain_record(b.at, b.len, number, f->slots, f->answer),
            vindaskot_chain_record_in(b.at, b.len, mode == CHECKED, number, f->slots, f->answer));
}

struct told call_symbol_flags_read(struct bytes b)
{
    struct frame *f = begin(SYMBOL_FLAGS_READ, 0);
    return finish(SYMBOL_FLAGS_READ, vindaskot_symbol_flags_read(b.at, b.len, f->answer));
}

struct told call_symbol2_flags_read(struct bytes b)
{
    struct frame *f = begin(SYMBOL2_FLAGS_READ, 0);
    return finish(SYMBOL2_FLAGS_READ, vindaskot_symbol2_flags_read(b.at, b.len, f->answer));
}

struct told call_type_flags_read(struct bytes b)
{
    struct frame *f = begin(TYPE_FLAGS_READ, 0);
    return finish(TYPE_FLAGS_READ, vindaskot_type_flags_read(b.at, b.len, f->answer));
}

struct told call_attribute_write(struct bytes name, struct bytes value, struct room out)
{
    struct frame *f = begin_out(ATTRIBUTE_WRITE, out);
    uint32_t status = vindaskot_attribute_write(name.at, name.len, value.at, value.len, out.at, out.len, f->answer);
    return finish_out(ATTRIBUTE_WRITE, status, out, 1);
}

struct told call_refactor_write(uint32_t count, bool has_next, struct bytes name, struct room out)
{
    struct frame *f = begin_out(REFACTOR_WRITE, out);
    uint32_t status = vindaskot_refactor_write(count, has_next, name.at, name.len, out.at, out.len, f->answer);
    return finish_out(REFACTOR_WRITE, status, out, 1);
}

struct told call_refactor_block_write(size_t count, struct bytes block, struct room out)
{
    struct frame *f = begin_out(REFACTOR_BLOCK_WRITE, out);
    uint32_t status = vindaskot_refactor_block_write(count, block.at, block.len, out.at, out.len, f->answer);
    return finish_out(REFACTOR_BLOCK_WRITE, status, out, 1);
}

struct told call_symbol_write(const struct parts *p, struct room out)
{
    struct frame *f = begin_out(SYMBOL_WRITE, out);
    const uint32_t *n = p->numbers;
    uint32_t status = vindaskot_symbol_write_2(
        n[0], n[1], n[2], n[3], (uint16_t)p->flags, p->high, p->extended, p->guid.at, p->guid.len, p->name.at,
        p->name.len, p->type_name.at, p->type_name.len, p->comment.at, p->comment.len, p->count, p->block.at,
        p->block.len, p->links, p->chain.at, p->chain.len, out.at, out.len, f->answer);
    return finish_out(SYMBOL_WRITE, status, out, 1);
}

struct told call_field_write(const struct parts *p, struct room out)
{
    struct frame *f = begin_out(FIELD_WRITE, out);
    const uint32_t *n = p->numbers;
    uint32_t status =
        vindaskot_field_write(n[0], n[1], n[2], n[3], n[4], n[5], p->flags, p->guid.at, p->guid.len, p->name.at,
                              p->name.len, p->type_name.at, p->type_name.len, p->comment.at, p->comment.len, p->count,
                              p->block.at, p->block.len, out.at, out.len, f->answer);
    return finish_out(FIELD_WRITE, status, out, 1);
}

struct told call_room(size_t length)
{
    struct frame *f = begin(INDEX_ROOM, 0);
    return finish(INDEX_ROOM, vindaskot_room(length, f->answer));
}

struct told call_index_build(struct bytes b, struct room slots)
{
    uint32_t *at = (uint32_t *)(void *)slots.at;
    const size_t count = slots.len / 4;
    enum function function = mode == PRESENT ? INDEX_BUILD : INDEX_BUILD_IN;
    struct frame *f = begin_out(function, slots);
    uint32_t status = mode == PRESENT ? vindaskot_index_build(b.at, b.len, at, count, f->answer)
                                      : vindaskot_index_build_in(b.at, b.len, mode == CHECKED, at, count, f->answer);
    return finish_out(function, status, slots, 4);
}

struct told call_find(struct bytes b, struct bytes n)
{
    IN_MODE(FIND, 0, vindaskot_find(b.at, b.len, n.at, n.len, f->answer),
            vindaskot_find_in(b.at, b.len, mode == CHECKED, n.at, n.len, f->answer));
}

struct told call_find_indexed(struct bytes b, struct bytes slots, struct bytes n)
{
    const uint32_t *at = (const uint32_t *)(const void *)slots.at;
    const size_t count = slots.len / 4;
    IN_MODE(FIND_INDEXED, 0, vindaskot_find_indexed(b.at, b.len, at, count, n.at, n.len, f->answer),
            vindaskot_find_indexed_in(b.at, b.len, mode == CHECKED, at, count, n.at, n.len, f->answer));
}

struct told call_salvage(struct bytes b, struct room out, struct room runs)
{
    uint32_t *at = (uint32_t *)(void *)runs.at;
    const size_t slots = runs.len / 4;
    enum function function = mode == PRESENT ? SALVAGE : SALVAGE_IN;
    watch(RUNS, runs);
    struct frame *f = begin_out(function, out);
    uint32_t status =
        mode == PRESENT ? vindaskot_salvage(b.at, b.len, out.at, out.len, at, slots, f->answer)
                        : vindaskot_salvage_in(b.at, b.len, mode == CHECKED, out.at, out.len, at, slots, f->answer);
    struct told told = finish_out(function, status, out, 1);
    finish_room(told, RUNS, runs, 4, told.answer[1]);
    return told;
}

struct told call_type_read(struct bytes b)
{
    struct frame *f = begin(TYPE_READ_IN, 0);
    uint32_t status = vindaskot_type_read_in(b.at, b.len, mode == CHECKED, f->slots, f->guid, f->answer);
    return finish(TYPE_READ_IN, status);
}

struct told call_type_step(struct bytes b, size_t cursor)
{
    struct frame *f = begin(TYPE_STEP_IN, cursor);
    uint32_t status = vindaskot_type_step_in(b.at, b.len, mode == CHECKED, &f->cursor, f->slots, f->guid, f->answer);
    return finish(TYPE_STEP_IN, status);
}

struct told call_type_array(struct bytes b, size_t number)
{
    struct frame *f = begin(TYPE_ARRAY_IN, 0);
    uint32_t status = vindaskot_type_array_in(b.at, b.len, mode == CHECKED, number, f->slots, f->answer);
    return finish(TYPE_ARRAY_IN, status);
}

struct told call_type_attribute(struct bytes b, size_t number)
{
    struct frame *f = begin(TYPE_ATTRIBUTE_IN, 0);
    uint32_t status = vindaskot_type_attribute_in(b.at, b.len, mode == CHECKED, number, f->slots, f->answer);
    return finish(TYPE_ATTRIBUTE_IN, status);
}

struct told call_type_attribute_named(struct bytes b, struct bytes n)
{
    struct frame *f = begin(TYPE_ATTRIBUTE_NAMED_IN, 0);
    uint32_t status = vindaskot_type_attribute_named_in(b.at, b.len, mode == CHECKED, n.at, n.len, f->slots, f->answer);
    return finish(TYPE_ATTRIBUTE_NAMED_IN, status);
}

struct told call_type_member(struct bytes b, size_t number)
{
    struct frame *f = begin(TYPE_MEMBER_IN, 0);
    uint32_t status =
        vindaskot_type_member_in(b.at, b.len, mode == CHECKED, number, f->slots, f->guid, f->path, f->answer);
    return finish(TYPE_MEMBER_IN, status);
}

struct told call_type_members(struct bytes b, struct room slots)
{
    struct frame *f = begin_out(TYPE_MEMBERS_IN, slots);
    uint64_t *at = (uint64_t *)(void *)slots.at;
    uint32_t status = vindaskot_type_members_in(b.at, b.len, mode == CHECKED, at, slots.len / 8, f->answer);
    return finish_out(TYPE_MEMBERS_IN, status, slots, 8);
}

/* Slots that are read, as numbers. */
static const uint32_t *starts(struct bytes slots)
{
    return (const uint32_t *)(const void *)slots.at;
}

struct told call_name_index_build(struct bytes b, struct room slots)
{
    struct frame *f = begin_out(NAME_INDEX_BUILD_IN, slots);
    uint32_t *at = (uint32_t *)(void *)slots.at;
    uint32_t status =
        vindaskot_name_index_build_in(b.at, b.len, mode == CHECKED, at, slots.len / 4, f->answer);
    return finish_out(NAME_INDEX_BUILD_IN, status, slots, 4);
}

struct told call_find_ordered(struct bytes b, struct bytes slots, struct bytes n)
{
    struct frame *f = begin(FIND_ORDERED_IN, 0);
    uint32_t status = vindaskot_find_ordered_in(b.at, b.len, mode == CHECKED, starts(slots), slots.len / 4, n.at,
                                                n.len, f->answer);
    return finish(FIND_ORDERED_IN, status);
}

struct told call_branch(struct bytes b, struct bytes slots, struct bytes t, struct room out)
{
    struct frame *f = begin_out(BRANCH_IN, out);
    uint32_t *at = (uint32_t *)(void *)out.at;
    uint32_t status = vindaskot_branch_in(b.at, b.len, mode == CHECKED, starts(slots), slots.len / 4, t.at, t.len, at,
                                          out.len / 4, f->answer);
    return finish_out(BRANCH_IN, status, out, 4);
}

struct told call_branch_ordered(struct bytes b, struct bytes slots, struct bytes t, struct room out)
{
    struct frame *f = begin_out(BRANCH_ORDERED_IN, out);
    uint32_t *at = (uint32_t *)(void *)out.at;
    uint32_t status = vindaskot_branch_ordered_in(b.at, b.len, mode == CHECKED, starts(slots), slots.len / 4, t.at,
                                                  t.len, at, out.len / 4, f->answer);
    return finish_out(BRANCH_ORDERED_IN, status, out, 4);
}

struct told call_bind(struct indexed s, struct indexed t, struct bytes path)
{
    struct frame *f = begin(BIND_IN, 0);
    uint32_t status = vindaskot_bind_in(s.bytes.at, s.bytes.len, mode == CHECKED, starts(s.slots), s.slots.len / 4,
                                        t.bytes.at, t.bytes.len, starts(t.slots), t.slots.len / 4, path.at, path.len,
                                        f->slots, f->answer);
    return finish(BIND_IN, status);
}

struct told call_sheet_export(struct bytes b, struct room out)
{
    struct frame *f = begin_out(SHEET_EXPORT, out);
    uint32_t status = vindaskot_sheet_export(b.at, b.len, out.at, out.len, f->answer);
    return finish_out(SHEET_EXPORT, status, out, 1);
}

struct told call_sheet_import(struct bytes t, struct room out)
{
    struct frame *f = begin_out(SHEET_IMPORT, out);
    uint32_t status = vindaskot_sheet_import(t.at, t.len, out.at, out.len, f->answer);
    return finish_out(SHEET_IMPORT, status, out, 1);
}

struct told call_refusal_text(uint32_t number, uint64_t expected, uint64_t got, struct room out)
{
    struct frame *f = begin_out(REFUSAL_TEXT, out);
    uint32_t status = vindaskot_refusal_text(number, expected, got, out.at, out.len, f->answer);
    return finish_out(REFUSAL_TEXT, status, out, 1);
}

struct told call_type_index_build(struct bytes b, struct room slots)
{
    struct frame *f = begin_out(TYPE_INDEX_BUILD_IN, slots);
    uint32_t *at = (uint32_t *)(void *)slots.at;
    uint32_t status = vindaskot_type_index_build_in(b.at, b.len, mode == CHECKED, at, slots.len / 4, f->answer);
    return finish_out(TYPE_INDEX_BUILD_IN, status, slots, 4);
}

struct told call_type_find(struct bytes b, struct bytes n)
{
    struct frame *f = begin(TYPE_FIND_IN, 0);
    return finish(TYPE_FIND_IN, vindaskot_type_find_in(b.at, b.len, mode == CHECKED, n.at, n.len, f->answer));
}

struct told call_type_find_indexed(struct bytes b, struct bytes slots, struct bytes n)
{
    struct frame *f = begin(TYPE_FIND_INDEXED_IN, 0);
    uint32_t status = vindaskot_type_find_indexed_in(b.at, b.len, mode == CHECKED, starts(slots), slots.len / 4, n.at,
                                                     n.len, f->answer);
    return finish(TYPE_FIND_INDEXED_IN, status);
}

struct told call_type_name_index_build(struct bytes b, struct room slots)
{
    struct frame *f = begin_out(TYPE_NAME_INDEX_BUILD_IN, slots);
    uint32_t *at = (uint32_t *)(void *)slots.at;
    uint32_t status =
        vindaskot_type_name_index_build_in(b.at, b.len, mode == CHECKED, at, slots.len / 4, f->answer);
    return finish_out(TYPE_NAME_INDEX_BUILD_IN, status, slots, 4);
}

struct told call_type_find_ordered(struct bytes b, struct bytes slots, struct bytes n)
{
    struct frame *f = begin(TYPE_FIND_ORDERED_IN, 0);
    uint32_t status = vindaskot_type_find_ordered_in(b.at, b.len, mode == CHECKED, starts(slots), slots.len / 4, n.at,
                                                n.len, f->answer);
    return finish(TYPE_FIND_ORDERED_IN, status);
}

struct told call_type_branch(struct bytes b, struct bytes slots, struct bytes t, struct room out)
{
    struct frame *f = begin_out(TYPE_BRANCH_IN, out);
    uint32_t *at = (uint32_t *)(void *)out.at;
    uint32_t status = vindaskot_type_branch_in(b.at, b.len, mode == CHECKED, starts(slots), slots.len / 4, t.at, t.len, at,
                                          out.len / 4, f->answer);
    return finish_out(TYPE_BRANCH_IN, status, out, 4);
}

struct told call_type_branch_ordered(struct bytes b, struct bytes slots, struct bytes t, struct room out)
{
    struct frame *f = begin_out(TYPE_BRANCH_ORDERED_IN, out);
    uint32_t *at = (uint32_t *)(void *)out.at;
    uint32_t status = vindaskot_type_branch_ordered_in(b.at, b.len, mode == CHECKED, starts(slots), slots.len / 4, t.at,
                                                  t.len, at, out.len / 4, f->answer);
    return finish_out(TYPE_BRANCH_ORDERED_IN, status, out, 4);
}

struct told call_plain(struct bytes b)
{
    struct frame *f = begin(PLAIN_FORM, 0);
    return finish(PLAIN_FORM, vindaskot_plain(b.at, b.len, f->answer));
}

struct told call_split_lines(struct bytes b, struct room text)
{
    struct frame *f = begin_out(SPLIT_LINES, text);
    return finish_out(SPLIT_LINES, vindaskot_split_lines(b.at, b.len, text.at, text.len, f->answer), text, 1);
}

struct told call_join_lines(struct bytes text, struct room out)
{
    struct frame *f = begin_out(JOIN_LINES, out);
    return finish_out(JOIN_LINES, vindaskot_join_lines(text.at, text.len, out.at, out.len, f->answer), out, 1);
}

struct told call_decode(struct bytes src, struct room out)
{
    struct frame *f = begin_out(DECODE, out);
    return finish_out(DECODE, vindaskot_decode(src.at, src.len, out.at, out.len, f->answer), out, 1);
}

struct told call_encode(struct bytes src, struct room out)
{
    struct frame *f = begin_out(ENCODE, out);
    return finish_out(ENCODE, vindaskot_encode(src.at, src.len, out.at, out.len, f->answer), out, 1);
}
