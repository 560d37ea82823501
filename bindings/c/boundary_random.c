/* Random cases. Each is made from the seed and its own number, and tried twice: its slices ending at a guard page, then
 * starting at one. */
#include "boundary.h"

static struct buffer input;
static struct draft draft;

/* ---- The checked mode beside the present one ---- */

/* What is told in the present mode, whichever is being tried. */
static struct told at_present(reading read, struct bytes b)
{
    enum mode trying = mode;
    mode = PRESENT;
    struct told told = read(b);
    mode = trying;
    return told;
}

static struct told step_at_present(stepping step, struct bytes b, size_t cursor)
{
    enum mode trying = mode;
    mode = PRESENT;
    struct told told = step(b, cursor);
    mode = trying;
    return told;
}

/* "Everything else stays". What the checked mode does not refuse for an end byte it tells as the present one
 * does, and for an end byte it refuses only where that byte, which it tells, is not 0. Places count from the start of
 * b. */
static void check_stays(struct bytes b, struct told checked, struct told present)
{
    if (checked.status != 16) {
        SAME(STAYS, checked, present);
        return;
    }
    uint64_t place = checked.answer[0], byte = checked.answer[1];
    CHECK(STAYS, place < b.len && byte != 0 && b.at[place] == byte && checked.cursor == present.cursor,
          "%s: 16 (%llu, %llu), and another byte stands there or the cursor is moved otherwise",
          name_of(checked.function), (unsigned long long)place, (unsigned long long)byte);
}

/* ---- Reading ---- */

/* The slots of a record's last string, and of the place after the record. */
struct record {
    struct run last;
    size_t next;
};

static const struct record an_attribute = {{VINDASKOT_ATTRIBUTE_VALUE_AT, VINDASKOT_ATTRIBUTE_VALUE_LEN},
                                           VINDASKOT_ATTRIBUTE_NEXT_AT};
static const struct record a_refactor = {{VINDASKOT_REFACTOR_NAME_AT, VINDASKOT_REFACTOR_NAME_LEN},
                                         VINDASKOT_REFACTOR_NEXT_AT};

static bool ends_within(const uint64_t *slots, struct record record, uint64_t end)
{
    return slots[record.next] <= end && slots[record.last.place] + slots[record.last.len] + 1 == slots[record.next];
}

/* Records of an entry that ends there: the first by number, those around the last, and one that never is there. */
static void try_numbers(struct bytes b, uint64_t end, uint64_t count, struct record record, numbered call,
                        numbered model)
{
    const size_t last = (size_t)count, numbers[] = {0, 1, last / 2, last - 1, last, last + 1, SIZE_MAX};
    for (size_t i = 0; i < sizeof numbers / sizeof *numbers; i++) {
        struct told told = call(b, numbers[i]);
        SAME(NUMBERED, told, model(b, numbers[i]));
        if (told.status == VINDASKOT_DONE)
            CHECK(PLACES, ends_within(told.slots, record, end), "%s: a record ends past its entry",
                  name_of(told.function));
    }
}

/* A kind of entry that is asked for its attributes, and the slots that tell of them. */
struct asked {
    naming call, model;
    numbered by_number;
    struct run attributes;
    size_t length;
};

static const struct asked of_symbol = {call_symbol_attribute_named,
                                       model_symbol_attribute_named,
                                       model_symbol_attribute,
                                       {VINDASKOT_SYMBOL_ATTRIBUTES_AT, VINDASKOT_SYMBOL_ATTRIBUTE_COUNT},
                                       VINDASKOT_SYMBOL_LENGTH};
static const struct asked of_field = {call_field_attribute_named,
                                      model_field_attribute_named,
                                      model_field_attribute,
                                      {VINDASKOT_FIELD_ATTRIBUTES_AT, VINDASKOT_FIELD_ATTRIBUTE_COUNT},
                                      VINDASKOT_FIELD_LENGTH};

static struct bytes string_of(struct bytes b, const uint64_t *slots, struct run string)
{
    return part(b, (size_t)slots[string.place], (size_t)slots[string.len]);
}

static struct told ask(struct bytes b, const struct asked *of, struct bytes from)
{
    struct bytes name = lay(NAME, from);
    struct told told = of->call(b, name), want = of->model(b, name);
    SAME(naming_group(want), told, want);
    CHECK(INPUTS, equal(name, from), "a name that was asked for was changed");
    return told;
}

/* Names that are nearly this one: with the end byte behind it, cut short, with a bit changed, often that of the case or
 * one of the last byte. */
static void try_near(struct bytes b, const struct asked *of, struct bytes name)
{
    static uint8_t changed[255];
    ask(b, of, part(name, 0, name.len + 1));
    if (name.len == 0)
        return;
    ask(b, of, part(name, 0, one_in(2) ? name.len - 1 : below(name.len)));
    memcpy(changed, name.at, name.len);
    changed[one_in(2) ? name.len - 1 : below(name.len)] ^= (uint8_t)(one_in(2) ? 0x20 : 1u << below(8));
    ask(b, of, (struct bytes){changed, name.len});
}

/* What stands behind the last attribute shown, where it can be read as one more: its name. */
static void try_past(struct bytes b, const struct asked *of, const uint64_t *entry)
{
    uint64_t count = entry[of->attributes.len], at = entry[of->attributes.place], end = entry[of->length];
    if (count > 0)
        at = of->by_number(b, (size_t)count - 1).slots[VINDASKOT_ATTRIBUTE_NEXT_AT];
    if (at > end)
        return;
    struct bytes rest = part(b, (size_t)at, (size_t)(end - at));
    struct told past = model_attribute_read(rest);
    if (past.status == VINDASKOT_DONE)
        ask(b, of, string_of(rest, past.slots, attribute_name));
}

/* Of an entry that the checked mode refuses for an end byte: the attributes that the present mode shows are not found.
 */
static void try_refused_names(struct bytes b, const struct asked *of, struct told present)
{
    uint64_t at = present.slots[of->attributes.place];
    for (uint64_t number = 0; number < present.slots[of->attributes.len] && number < 2; number++) {
        ask(b, of, part(b, (size_t)at + 2, b.at[at]));
        at += 4 + (uint64_t)b.at[at] + b.at[at + 1];
    }
}

/* The names of an entry's attributes, of eight where there are more: each finds that attribute, or one before it that
 * has the name too. */
static void try_names(struct bytes b, const struct asked *of, struct told entry)
{
    const uint64_t count = entry.slots[of->attributes.len];
    for (size_t number = 0; number < count; number += 1 + (size_t)count / 8) {
        struct told own = of->by_number(b, number);
        struct bytes name = string_of(b, own.slots, attribute_name);
        struct told told = ask(b, of, name);
        uint64_t place = told.slots[attribute_name.place], own_place = own.slots[attribute_name.place];
        CHECK(place < own_place ? ALIKE : PLACES,
              told.status == VINDASKOT_DONE && place <= own_place && told.slots[attribute_name.len] == name.len &&
                  equal(string_of(b, told.slots, attribute_name), name),
              "%s: the name of attribute %zu finds what has another name or comes after it", name_of(told.function),
              number);
        try_near(b, of, name);
    }
    ask(b, of, part(b, 0, 0));
    if (entry.status == VINDASKOT_DONE)
        try_past(b, of, entry.slots);
}

static struct told try_alone(struct bytes b, reading call, reading model)
{
    struct told told = call(b), want = model(b);
    SAME(mode == CHECKED ? alone_group(b, want, READS) : READS, told, want);
    if (mode == CHECKED)
        check_stays(b, told, at_present(call, b));
    return told;
}

static void try_flags(struct bytes b)
{
    SAME(READS, call_symbol_flags_read(b), model_flags_read(b, 2));
    SAME(READS, call_symbol2_flags_read(b), model_flags_read(b, 4));
    SAME(READS, call_type_flags_read(b), model_flags_read(b, 4));
}

static void try_records(struct bytes b)
{
    struct told attribute = try_alone(b, call_attribute_read, model_attribute_read);
    struct told refactor = try_alone(b, call_refactor_read, model_refactor_read);
    struct told chain = try_alone(b, call_chain_read, model_chain_read);
    if (attribute.status == VINDASKOT_DONE)
        CHECK(PLACES, ends_within(attribute.slots, an_attribute, b.len), "an attribute ends past its bytes");
    if (refactor.status == VINDASKOT_DONE)
        CHECK(PLACES, ends_within(refactor.slots, a_refactor, b.len), "a refactor record ends past its bytes");
    if (chain.status == VINDASKOT_DONE)
        CHECK(PLACES, chain.answer[1] <= b.len && 7 * chain.answer[0] <= chain.answer[1],
              "a chain ends past its bytes");
    try_numbers(b, b.len, chain.status == VINDASKOT_DONE ? chain.answer[0] : 0, a_refactor, call_chain_record,
                model_chain_record);
}

/* Records that take at least so many bytes each, within an entry of that length. */
static bool within(const uint64_t *slots, struct run records, size_t width, uint64_t length)
{
    return slots[records.len] == 0 || slots[records.place] + width * slots[records.len] <= length;
}

/* The strings follow the header, each with an end byte: worked out from the entry's own length fields. */
static void check_strings(struct bytes e, const uint64_t *slots, const struct run *strings, size_t header,
                          size_t lengths, uint64_t length)
{
    size_t at = header;
    for (size_t i = 0; i < 3; i++) {
        size_t len = (size_t)number_at(e, lengths + 2 * i, 2);
        CHECK(PLACES, slots[strings[i].place] == at && slots[strings[i].len] == len,
              "string %zu is told at another place", i);
        at += len + 1;
    }
    CHECK(PLACES, at <= length && length <= e.len, "strings or an entry past the end");
}

/* "Symbol records carry the two bytes as read", worked out from the entry's own bytes. */
static void check_high(struct bytes e, const uint64_t *slots)
{
    const uint64_t low = e.at[22], high = e.at[23];
    CHECK(low + high > 0 ? HIGHS_READ : READS, slots[VINDASKOT_SYMBOL_HIGH] == low + 256 * high,
          "bytes 22 and 23, %02X %02X, are told as %llu", (unsigned)low, (unsigned)high,
          (unsigned long long)slots[VINDASKOT_SYMBOL_HIGH]);
}

/* The entry at the start of b, read; what the present mode tells of it too. */
static struct told try_read(struct bytes b, reading call, reading model,
                            enum group (*group)(struct bytes, struct told, struct told, enum group),
                            struct told *present)
{
    struct told told = call(b), want = model(b);
    *present = mode == CHECKED ? at_present(call, b) : told;
    SAME(mode == CHECKED ? group(b, *present, want, READS) : READS, told, want);
    if (mode == CHECKED)
        check_stays(b, told, *present);
    return told;
}

static void try_symbol(struct bytes b)
{
    struct told present, told = try_read(b, call_symbol_read, model_symbol_read, symbol_group, &present);
    const uint64_t *s = told.slots, length = s[VINDASKOT_SYMBOL_LENGTH];
    try_numbers(b, length, s[VINDASKOT_SYMBOL_ATTRIBUTE_COUNT], an_attribute, call_symbol_attribute,
                model_symbol_attribute);
    try_numbers(b, length, s[VINDASKOT_SYMBOL_REFACTOR_COUNT], a_refactor, call_symbol_refactor_info,
                model_symbol_refactor_info);
    try_why(b);
    try_names(b, &of_symbol, told);
    if (told.status == 16)
        try_refused_names(b, &of_symbol, present);
    if (told.status != VINDASKOT_DONE)
        return;
    check_strings(b, s, symbol_strings, 30, 24, length);
    check_high(b, s);
    CHECK(PLACES,
          within(s, symbol_attributes, 4, length) && within(s, symbol_refactors, 7, length) &&
              s[VINDASKOT_SYMBOL_REFACTORS_AT] + s[VINDASKOT_SYMBOL_UNREAD] <= length,
          "a symbol tells records past its end");
}

static void try_field(struct bytes b)
{
    struct told present, told = try_read(b, call_field_read, model_field_read, field_group, &present);
    const uint64_t *s = told.slots, length = s[VINDASKOT_FIELD_LENGTH];
    try_numbers(b, length, s[VINDASKOT_FIELD_ATTRIBUTE_COUNT], an_attribute, call_field_attribute,
                model_field_attribute);
    try_names(b, &of_field, told);
    if (told.status == 16)
        try_refused_names(b, &of_field, present);
    if (told.status != VINDASKOT_DONE)
        return;
    check_strings(b, s, field_strings, 42, 32, length);
    CHECK(PLACES, within(s, field_attributes, 4, length), "a field tells attributes past its end");
}

/* ---- Walking ---- */

/* A kind of entry that is walked. */
struct walked {
    stepping call, model;
    enum group (*group)(struct bytes, struct told, struct told, enum group);
};

static const struct walked symbols = {call_symbol_step, model_symbol_step, symbol_group};
static const struct walked fields = {call_field_step, model_field_step, field_group};

/* One step. In the checked mode it goes where it goes in the present one. */
static struct told try_step(struct bytes b, size_t cursor, const struct walked *by)
{
    struct told told = by->call(b, cursor), want = by->model(b, cursor);
    if (mode == CHECKED && cursor < b.len) {
        struct bytes left = part(b, cursor, b.len - cursor);
        struct told present = step_at_present(by->call, b, cursor);
        SAME(by->group(left, present, want, WALKS), told, want);
        check_stays(left, told, present);
    } else {
        SAME(WALKS, told, want);
    }
    if (tells_symbol(told))
        check_high(part(b, cursor, want.cursor - cursor), told.slots);
    return told;
}

/* From a cursor to the end or to a step that does not move; how many steps it took. */
static size_t steps_of(struct bytes b, size_t cursor, const struct walked *by, bool *stuck)
{
    size_t steps = 0;
    *stuck = false;
    while (!*stuck) {
        struct told told = try_step(b, cursor, by);
        if (told.status == VINDASKOT_FINISHED)
            break;
        steps++;
        *stuck = told.cursor <= cursor;
        CHECK(WALKS, told.cursor >= cursor && told.cursor <= b.len, "a step leads from %zu to %zu of %zu", cursor,
              told.cursor, b.len);
        CHECK(WALKS, !*stuck || number_at(b, cursor, 4) == 0, "a step stands at %zu without a zero claim", cursor);
        CHECK(WALKS, steps <= b.len, "more steps than bytes");
        cursor = told.cursor;
    }
    return steps;
}

static void try_walk_from(struct bytes b, size_t cursor)
{
    bool stuck, field_stuck;
    size_t steps = steps_of(b, cursor, &symbols, &stuck);
    size_t field_steps = steps_of(b, cursor, &fields, &field_stuck);
    CHECK(WALKS, steps == field_steps && stuck == field_stuck, "symbols walk in %zu steps, fields in %zu", steps,
          field_steps);
    const size_t allowed[] = {0, steps - (steps > 0), steps, steps + 1, below(8), SIZE_MAX};
    for (size_t i = 0; i < sizeof allowed / sizeof *allowed; i++) {
        struct told told = call_walk(b, allowed[i], cursor);
        SAME(WALKS, told, model_walk(b, allowed[i], cursor));
        CHECK(WALKS, told.steps == (allowed[i] < steps ? allowed[i] : steps), "a walk of %zu steps makes %zu", steps,
              told.steps);
        CHECK(WALKS, (told.status == 10) == (stuck && allowed[i] >= steps), "a zero claim and refusal 10 disagree");
    }
}

static void try_walk(struct bytes b, size_t some)
{
    try_walk_from(b, 0);
    try_walk_from(b, some % (b.len + 3));
    SAME(WALKS, call_symbol_step(b, SIZE_MAX), model_symbol_step(b, SIZE_MAX));
    SAME(WALKS, call_field_step(b, SIZE_MAX), model_field_step(b, SIZE_MAX));
    SAME(WALKS, call_walk(b, SIZE_MAX, SIZE_MAX), model_walk(b, SIZE_MAX, SIZE_MAX));
}

/* ---- Index and finding ---- */

/* Where the accepted symbols of an upload start, those before a zero claim where it has one. */
struct accepted {
    const uint32_t *starts;
    size_t count;
};

/* How many of them there are before a zero claim. */
static size_t before_zero(struct bytes b)
{
    size_t count = 0;
    for (size_t at = 0, next; at < b.len; at = next) {
        struct told told = model_symbol_step(b, at);
        next = told.cursor;
        if (next == at)
            break;
        count += told.status == VINDASKOT_DONE;
    }
    return count;
}

static struct bytes name_at(struct bytes b, size_t start)
{
    return part(b, start + 30, (size_t)number_at(b, start + 24, 2));
}

static bool in_bit_5_alone(struct bytes a, struct bytes b)
{
    size_t i = 0;
    while (i < a.len && i < b.len && ((a.at[i] ^ b.at[i]) & ~0x20) == 0)
        i++;
    return i == a.len && i == b.len;
}

/* What the present mode finds, whichever is being tried. */
static struct told found_at_present(struct bytes b, struct bytes name)
{
    enum mode trying = mode;
    mode = PRESENT;
    struct told told = model_find(b, name);
    mode = trying;
    return told;
}

/* The group of a check on a symbol by name, by what is expected of it and by the names that are there. */
static enum group finding_group(struct bytes b, struct accepted all, struct bytes name, struct told want)
{
    bool exact = false, near = false;
    if (mode == CHECKED) {
        struct told present = found_at_present(b, name);
        if (present.status != want.status || present.answer[0] != want.answer[0])
            return FINDS_PASS;
    }
    for (size_t i = 0; i < all.count; i++) {
        struct bytes one = name_at(b, all.starts[i]);
        exact |= equal(one, name);
        near |= in_bit_5_alone(one, name);
    }
    if (want.status == 13)
        return near ? NEAR_CASE : FINDS;
    if (want.status != VINDASKOT_DONE || equal(name_at(b, (size_t)want.answer[0]), name))
        return FINDS;
    return exact ? EARLIER : OTHER_CASE;
}

/* A name, without an index and through one; `indexed` where that index is the whole of them in order. */
static void try_name(struct bytes b, struct bytes index, struct bytes from, struct accepted all, bool indexed)
{
    struct bytes name = lay(NAME, from);
    struct told found = call_find(b, name), through = call_find_indexed(b, index, name), want = model_find(b, name);
    SAME(finding_group(b, all, name, want), found, want);
    SAME(FINDS, through, model_find_indexed(b, index, name));
    if (indexed)
        CHECK(FINDS, found.status == through.status && found.answer[0] == through.answer[0],
              "found with status %u at %llu, through the index with %u at %llu", (unsigned)found.status,
              (unsigned long long)found.answer[0], (unsigned)through.status, (unsigned long long)through.answer[0]);
    CHECK(INPUTS, equal(name, from), "a name that was asked for was changed");
}

/* A name in cases at random, and then a byte of it changed that has no case. */
static void try_cases(struct bytes b, struct bytes index, struct bytes name, struct accepted all, bool indexed)
{
    static uint8_t changed[BUFFER];
    struct room other = {changed, name.len};
    memcpy(changed, name.at, name.len);
    recase(other);
    try_name(b, index, (struct bytes){changed, name.len}, all, indexed);
    if (one_in(2))
        memcpy(changed, name.at, name.len);
    miss_case(other);
    try_name(b, index, (struct bytes){changed, name.len}, all, indexed);
}

/* The same starts, the last first. */
static struct bytes reversed(struct accepted all)
{
    static uint32_t slots[BUFFER];
    for (size_t i = 0; i < all.count; i++)
        slots[i] = all.starts[all.count - 1 - i];
    return lay(SLOTS, (struct bytes){(const uint8_t *)slots, 4 * all.count});
}

static struct bytes try_index(struct bytes b, struct told want, const uint32_t *starts, enum group group)
{
    const size_t needed = want.status == VINDASKOT_DONE ? (size_t)want.answer[0] : 2;
    const size_t lent[] = {0, needed - (needed > 0), needed + 3, needed};
    struct room out = {NULL, 0};
    for (size_t i = 0; i < sizeof lent / sizeof *lent; i++) {
        bool short_of = want.status == VINDASKOT_DONE && lent[i] < needed;
        out = lend(4 * lent[i]);
        SAME(group, call_index_build(b, out), short_of ? refused(6, needed, lent[i]) : want);
    }
    if (want.status != VINDASKOT_DONE)
        return (struct bytes){NULL, 0};
    CHECK(group, needed == 0 || memcmp(out.at, starts, 4 * needed) == 0, "the index has other starts");
    return lay(SLOTS, (struct bytes){out.at, out.len});
}

/* In the checked mode: the names of entries that only the present one accepts, without an index and through the index
 * of the present mode, which has them. Whether there is any. */
static bool try_passed(struct bytes b, struct accepted all)
{
    static uint32_t starts[BUFFER];
    mode = PRESENT;
    struct told present = model_index(b, starts);
    bool indexed = present.status == VINDASKOT_DONE;
    struct accepted there = {starts, indexed ? (size_t)present.answer[0] : before_zero(b)};
    mode = CHECKED;
    struct bytes slots = {(const uint8_t *)starts, 4 * there.count};
    size_t passed = 0;
    for (size_t i = 0; i < there.count && passed < 2; i++)
        if (model_symbol_step(b, starts[i]).status == 16) {
            passed++;
            try_name(b, lay(SLOTS, slots), name_at(b, starts[i]), all, indexed);
        }
    return passed > 0;
}

/* A zero claim refuses the index and not the names before it: they are asked for too, through slots of their own. */
static void try_finds(struct bytes b, struct bytes other)
{
    static uint32_t starts[BUFFER];
    uint32_t odd[5] = {(uint32_t)any(), (uint32_t)below(b.len + 9), (uint32_t)below(b.len + 9), 0, UINT32_MAX};
    struct told want = model_index(b, starts);
    bool indexed = want.status == VINDASKOT_DONE;
    struct accepted all = {starts, indexed ? (size_t)want.answer[0] : before_zero(b)};
    bool passes = mode == CHECKED && try_passed(b, all);
    struct bytes index = try_index(b, want, starts, indexed && passes ? INDEX_PASSES : FINDS);
    struct bytes slots = {(const uint8_t *)starts, 4 * all.count};
    if (!indexed)
        index = lay(SLOTS, slots);
    for (size_t i = 0; i < all.count && i < 3; i++) {
        struct bytes name = name_at(b, starts[i]);
        try_name(b, index, name, all, indexed);
        try_cases(b, index, name, all, indexed);
        try_name(b, lay(SLOTS, (struct bytes){(const uint8_t *)odd, sizeof odd}), name, all, false);
        try_name(b, reversed(all), name, all, false);
        index = lay(SLOTS, slots);
    }
    try_name(b, index, other, all, indexed);
    try_name(b, index, part(other, 0, 0), all, indexed);
}

/* ---- Text ---- */

static void try_conversion(struct bytes src, struct told want, const uint8_t *wanted, converting call)
{
    const size_t needed = want.status == VINDASKOT_DONE ? (size_t)want.answer[0] : 4;
    const size_t lent[] = {0, needed / 2, needed - (needed > 0), 3 * needed, needed};
    struct room out = {NULL, 0};
    for (size_t i = 0; i < sizeof lent / sizeof *lent; i++) {
        bool short_of = want.status == VINDASKOT_DONE && lent[i] < needed;
        out = lend(lent[i]);
        SAME(TEXTS, call(src, out), short_of ? refused(6, needed, lent[i]) : want);
    }
    if (want.status == VINDASKOT_DONE)
        CHECK(TEXTS, needed == 0 || memcmp(out.at, wanted, needed) == 0, "other text of %zu bytes", needed);
}

/* There and back: the bytes again. */
static void try_text(struct bytes b)
{
    static uint8_t wanted[3 * BUFFER];
    struct told want = model_decode(b, wanted);
    try_conversion(b, want, wanted, call_decode);
    struct room out = lend((size_t)want.answer[0]);
    struct told decoded = call_decode(b, out);
    struct bytes utf8 = lay(COMMENT, (struct bytes){out.at, (size_t)decoded.answer[0]});
    out = lend(b.len);
    struct told encoded = call_encode(utf8, out);
    CHECK(TEXTS, encoded.status == VINDASKOT_DONE && equal((struct bytes){out.at, (size_t)encoded.answer[0]}, b),
          "decoded and encoded, %zu bytes are others", b.len);
    try_conversion(b, model_encode(b, wanted), wanted, call_encode);
}

/* Flag words and text have no mode. */
static void try_input(struct bytes from, size_t some)
{
    struct bytes b = lay(UPLOAD, from);
    for (mode = 0; mode < MODES; mode++) {
        try_records(b);
        try_symbol(b);
        try_field(b);
        try_walk(b, some);
        try_finds(b, part(from, 0, from.len < 9 ? from.len : 9));
        try_salvage(b);
        try_room(b);
        if (mode != PRESENT)
            try_type(b);
    }
    mode = PRESENT;
    try_flags(b);
    try_text(b);
    CHECK(INPUTS, equal(b, from), "an input was changed");
}

/* ---- Writing ---- */

static bool unchanged(const struct parts *p, const struct parts *from)
{
    return equal(p->guid, from->guid) && equal(p->name, from->name) && equal(p->type_name, from->type_name) &&
           equal(p->comment, from->comment) && equal(p->block, from->block) && equal(p->chain, from->chain);
}

/* An entry written where nothing, too little, just enough and more is lent. What was written, if anything was. */
static struct bytes try_entry(const struct parts *from, writing call,
                              struct told (*model)(const struct parts *, size_t),
                              void (*lay_out)(struct buffer *, const struct parts *))
{
    static struct buffer wanted;
    struct parts p = laid(from);
    struct told least = model(&p, 0);
    size_t needed = least.status == 6 && least.answer[0] < BUFFER ? (size_t)least.answer[0] : 0;
    const size_t lent[] = {0, below(needed + 1), needed - (needed > 0), needed + below(40), needed};
    struct room out = {NULL, 0};
    for (size_t i = 0; i < sizeof lent / sizeof *lent; i++) {
        out = lend(lent[i]);
        SAME(WRITES, call(&p, out), model(&p, lent[i]));
    }
    CHECK(INPUTS, unchanged(&p, from), "an argument of a writer was changed");
    if (needed == 0)
        return (struct bytes){NULL, 0};
    wanted.len = 0;
    lay_out(&wanted, from);
    CHECK(WRITES, equal((struct bytes){out.at, needed}, whole(&wanted)), "an entry of other bytes");
    return lay(UPLOAD, (struct bytes){out.at, needed});
}

static bool holds(struct bytes e, const uint64_t *slots, struct run string, struct bytes want)
{
    return slots[string.len] == want.len && equal(part(e, (size_t)slots[string.place], want.len), want);
}

static void back_attributes(struct bytes e, const struct draft *d, numbered call)
{
    for (size_t i = 0; i < d->parts.count; i++) {
        struct told told = call(e, i);
        CHECK(ROUND_TRIPS,
              told.status == VINDASKOT_DONE && holds(e, told.slots, attribute_name, d->names[i]) &&
                  holds(e, told.slots, attribute_value, d->values[i]),
              "attribute %zu is read as another", i);
    }
}

/* Asked for by name, of those that were written the first of that name. */
static void back_names(struct bytes e, const struct draft *d, naming call)
{
    for (size_t i = 0; i < d->parts.count; i++) {
        struct told told = call(e, lay(NAME, d->names[i]));
        size_t first = 0;
        while (!equal(d->names[first], d->names[i]))
            first++;
        CHECK(ROUND_TRIPS,
              told.status == VINDASKOT_DONE && holds(e, told.slots, attribute_name, d->names[first]) &&
                  holds(e, told.slots, attribute_value, d->values[first]),
              "the name of attribute %zu finds another than %zu", i, first);
    }
}

static void back_chain(struct bytes e, const struct draft *d, numbered call)
{
    for (size_t i = 0; i < d->parts.links; i++) {
        struct told told = call(e, i);
        CHECK(ROUND_TRIPS,
              told.status == VINDASKOT_DONE && holds(e, told.slots, refactor_name, d->formers[i]) &&
                  told.slots[VINDASKOT_REFACTOR_COUNT] == d->counts[i] &&
                  told.slots[VINDASKOT_REFACTOR_HAS_NEXT] == (i + 1 < d->parts.links),
              "refactor record %zu is read as another", i);
    }
}

static bool numbers_back(const uint64_t *slots, const size_t *which, const uint32_t *numbers, size_t count)
{
    for (size_t i = 0; i < count; i++)
        if (slots[which[i]] != numbers[i])
            return false;
    return true;
}

static bool strings_back(struct bytes e, const uint64_t *slots, const struct run *strings, const struct parts *p)
{
    return holds(e, slots, strings[0], p->name) && holds(e, slots, strings[1], p->type_name) &&
           holds(e, slots, strings[2], p->comment);
}

static bool guid_back(const struct told *told, uint64_t has, struct bytes guid)
{
    static const uint8_t zeros[16];
    return has == (guid.len == 16) && memcmp(told->guid, guid.len == 16 ? guid.at : zeros, 16) == 0;
}

/* "the symbol writer puts them back", where the entry has them. */
static void check_high_written(struct bytes e, uint16_t high)
{
    CHECK(high != 0 ? HIGHS_WRITTEN : WRITES, e.at[22] == high % 256 && e.at[23] == high / 256,
          "%u is written as %02X %02X", high, e.at[22], e.at[23]);
}

static void try_symbol_back(const struct draft *d)
{
    const struct parts *p = &d->parts;
    struct bytes e = try_entry(p, call_symbol_write, model_symbol_write, put_symbol);
    struct told told = call_symbol_read(e);
    const uint64_t *s = told.slots;
    CHECK(ROUND_TRIPS,
          told.status == VINDASKOT_DONE && s[VINDASKOT_SYMBOL_LENGTH] == e.len && s[VINDASKOT_SYMBOL_UNREAD] == 0,
          "a written symbol is read with status %u", (unsigned)told.status);
    CHECK(ROUND_TRIPS,
          numbers_back(s, symbol_numbers, p->numbers, 4) && s[VINDASKOT_SYMBOL_FLAGS] == p->flags &&
              s[VINDASKOT_SYMBOL_HIGH] == p->high && s[VINDASKOT_SYMBOL_EXTENDED_FLAGS] == p->extended &&
              s[VINDASKOT_SYMBOL_HAS_EXTENDED] == ((p->flags & VINDASKOT_SYMBOL_FLAG_EXTENDED_FLAGS) != 0),
          "a symbol's numbers are read as others");
    CHECK(ROUND_TRIPS, strings_back(e, s, symbol_strings, p), "a symbol's strings are read as others");
    CHECK(ROUND_TRIPS,
          guid_back(&told, s[VINDASKOT_SYMBOL_HAS_GUID], p->guid) && s[VINDASKOT_SYMBOL_ATTRIBUTE_COUNT] == p->count &&
              s[VINDASKOT_SYMBOL_REFACTOR_COUNT] == p->links,
          "a symbol's sections are read as others");
    check_high_written(e, p->high);
    back_attributes(e, d, call_symbol_attribute);
    back_names(e, d, call_symbol_attribute_named);
    back_chain(e, d, call_symbol_refactor_info);
}

static void try_field_back(const struct draft *d)
{
    const struct parts *p = &d->parts;
    static const uint8_t zeros[16];
    bool flagged = (p->flags & VINDASKOT_TYPE_FLAG_TYPE_GUID) != 0;
    struct bytes guid = {p->guid.len == 16 ? p->guid.at : zeros, flagged ? 16 : 0};
    struct bytes e = try_entry(p, call_field_write, model_field_write, put_field);
    if ((p->flags & VINDASKOT_TYPE_FLAG_METHOD_INFOS) != 0)
        return;
    struct told told = call_field_read(e);
    const uint64_t *s = told.slots;
    CHECK(ROUND_TRIPS, told.status == VINDASKOT_DONE && s[VINDASKOT_FIELD_LENGTH] == e.len,
          "a written field is read with status %u", (unsigned)told.status);
    CHECK(ROUND_TRIPS, numbers_back(s, field_numbers, p->numbers, 6) && s[VINDASKOT_FIELD_FLAGS] == p->flags,
          "a field's numbers are read as others");
    CHECK(ROUND_TRIPS, strings_back(e, s, field_strings, p), "a field's strings are read as others");
    CHECK(ROUND_TRIPS,
          guid_back(&told, s[VINDASKOT_FIELD_HAS_GUID], guid) && s[VINDASKOT_FIELD_ATTRIBUTE_COUNT] == p->count,
          "a field's sections are read as others");
    back_attributes(e, d, call_field_attribute);
    back_names(e, d, call_field_attribute_named);
}

static void try_attribute_back(struct bytes name, struct bytes value)
{
    static struct buffer wanted;
    wanted.len = 0;
    put_attribute(&wanted, name, value);
    struct bytes n = lay(NAME, name), v = lay(COMMENT, value);
    SAME(WRITES, call_attribute_write(n, v, lend(wanted.len - 1)), refused(6, wanted.len, wanted.len - 1));
    struct room out = lend(wanted.len);
    SAME(WRITES, call_attribute_write(n, v, out), done(wanted.len, 0));
    CHECK(WRITES, equal((struct bytes){out.at, out.len}, whole(&wanted)), "an attribute of other bytes");
    CHECK(INPUTS, equal(n, name) && equal(v, value), "an argument of a writer was changed");
    struct bytes e = lay(UPLOAD, (struct bytes){out.at, out.len});
    struct told told = call_attribute_read(e);
    CHECK(ROUND_TRIPS,
          told.slots[VINDASKOT_ATTRIBUTE_NEXT_AT] == e.len && holds(e, told.slots, attribute_name, name) &&
              holds(e, told.slots, attribute_value, value),
          "an attribute is read as another");
}

static void try_refactor_back(uint32_t count, bool has_next, struct bytes name)
{
    static struct buffer wanted;
    uint32_t packed = (count & COUNT_MASK) | (has_next ? NEXT_BIT : 0);
    wanted.len = 0;
    put_refactor(&wanted, packed, name);
    struct bytes n = lay(NAME, name);
    SAME(WRITES, call_refactor_write(count, has_next, n, lend(wanted.len - 1)), refused(6, wanted.len, wanted.len - 1));
    struct room out = lend(wanted.len);
    SAME(WRITES, call_refactor_write(count, has_next, n, out), done(wanted.len, 0));
    CHECK(WRITES, equal((struct bytes){out.at, out.len}, whole(&wanted)), "a refactor record of other bytes");
    CHECK(INPUTS, equal(n, name), "an argument of a writer was changed");
    struct bytes e = lay(UPLOAD, (struct bytes){out.at, out.len});
    struct told told = call_refactor_read(e);
    CHECK(ROUND_TRIPS,
          told.slots[VINDASKOT_REFACTOR_NEXT_AT] == e.len && holds(e, told.slots, refactor_name, name) &&
              told.slots[VINDASKOT_REFACTOR_COUNT] == packed,
          "a refactor record is read as another");
}

/* A block with its count in front. The chain behind the count is read again where it was accepted. */
static void try_block(const struct draft *d, size_t count, bool spoilt)
{
    struct bytes block = lay(CHAIN, d->parts.chain);
    struct told least = model_block_write(count, block, 0);
    size_t needed = least.status == 6 ? (size_t)least.answer[0] : 8;
    SAME(WRITES, call_refactor_block_write(count, block, lend(needed - 1)),
         model_block_write(count, block, needed - 1));
    struct room out = lend(needed);
    struct told told = call_refactor_block_write(count, block, out);
    SAME(WRITES, told, model_block_write(count, block, needed));
    CHECK(INPUTS, equal(block, d->parts.chain), "an argument of a writer was changed");
    if (told.status != VINDASKOT_DONE)
        return;
    struct bytes wrote = lay(UPLOAD, (struct bytes){out.at, out.len}), chain = part(wrote, 2, out.len - 2);
    CHECK(WRITES, number_at(wrote, 0, 2) == count && equal(chain, d->parts.chain), "a block of other bytes");
    if (count > 0)
        SAME(ROUND_TRIPS, call_chain_read(chain), done(count, chain.len));
    if (!spoilt)
        back_chain(chain, d, call_chain_record);
}

static struct bytes at_most_255(struct bytes b)
{
    return part(b, 0, b.len < 256 ? b.len : 255);
}

/* Our writers end every string with 0: what they write is read back in both modes. */
static void try_written(struct draft *d, bool field, bool spoilt, uint32_t count)
{
    if (!spoilt && field)
        try_field_back(d);
    else if (!spoilt)
        try_symbol_back(d);
    else if (field)
        try_entry(&d->parts, call_field_write, model_field_write, put_field);
    else
        try_entry(&d->parts, call_symbol_write, model_symbol_write, put_symbol);
    try_attribute_back(at_most_255(d->parts.name), at_most_255(d->parts.comment));
    try_refactor_back(count, one_in(2), at_most_255(d->parts.comment));
    try_block(d, d->parts.links, spoilt);
}

/* ---- Cases ---- */

static void make_case(size_t kind)
{
    input.len = 0;
    switch (kind) {
    case 0: make_random(&input); break;
    case 1: make_symbol(&input); break;
    case 2: make_field(&input); break;
    case 3: make_records(&input); break;
    case 4: make_upload(&input); break;
    case 5: make_family(&input); break;
    case 6: make_wrong(&input); break;
    default: make_text(&input);
    }
    if (kind > 0 && kind != 5 && kind != 6 && !one_in(4))
        damage(&input, kind == 2 ? 42 : 30);
}

/* The last two are a field and a symbol, written. */
enum { READ_KINDS = 8, KINDS = 10 };

/* An upload that is made for a few of the tests. */
static void try_made(void (*make)(struct buffer *), void (*attempt)(struct bytes))
{
    input.len = 0;
    make(&input);
    for (side = 0; side < SIDES; side++) {
        struct bytes b = lay(UPLOAD, whole(&input));
        for (mode = 0; mode < MODES; mode++)
            attempt(b);
        mode = PRESENT;
        CHECK(INPUTS, equal(b, whole(&input)), "an input was changed");
    }
}

static void try_damaged(struct bytes b)
{
    try_salvage(b);
    try_room(b);
    try_symbol_names(b);
    try_lines(b);
    try_plain(b);
    try_sheet(b);
}

/* Data types have no call that takes no mode. */
static void try_tree(struct bytes b)
{
    if (mode == PRESENT)
        return;
    try_type(b);
    try_type_walk(b);
    try_type_names(b);
}

static void try_case(uint64_t number)
{
    size_t kind = number % KINDS, some = below(BUFFER);
    bool spoilt = kind >= READ_KINDS && one_in(2);
    uint32_t count = (uint32_t)any();
    if (kind < READ_KINDS) {
        make_case(kind);
    } else {
        (kind == READ_KINDS ? draft_field : draft_symbol)(&draft);
        for (size_t left = spoilt ? 1 + below(3) : 0; left > 0; left--)
            spoil(&draft);
    }
    for (side = 0; side < SIDES; side++) {
        if (kind < READ_KINDS)
            try_input(whole(&input), some);
        for (mode = 0; kind >= READ_KINDS && mode < MODES; mode++)
            try_written(&draft, kind == READ_KINDS, spoilt, count);
        mode = PRESENT;
    }
    /* With every case, a damaged upload that is salvaged, one that needs much of its room, and one of data types. They
     * are made last, from what the seed has left, so that all else stays as it was before they came. */
    try_made(make_damaged, try_damaged);
    try_made(make_narrow, try_room);
    try_made(make_types, try_tree);
    try_made(make_plain, try_plain_changed);
    try_words(1 + (uint32_t)below(19), any(), any());
    try_paths();
}

void try_random(uint64_t from, uint64_t cases, uint64_t seed_number)
{
    for (uint64_t number = from; number < from + cases; number++) {
        now_trying = number;
        seed(seed_number * 0xD1342543DE82EF95u ^ number);
        try_case(number);
    }
}
