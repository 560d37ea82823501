/* End bytes. What is expected stands here in the words of docs/FORMAT.md, "Modes", and does not come from the model: in the
 * checked mode "an end byte that isn't 0 refuses the entry, attributes and chain records included", by 16 with its
 * place and the byte, and "everything else stays". Each test is made in both modes; in the present one nothing depends
 * on end bytes. */
#include "boundary.h"

/* ---- Entries with their end bytes known ---- */

enum { MOST = 32 };

/* An entry that claims all of its bytes, and what stands at each place of it. An end byte is looked at once the last
 * string of its group is known to be there: all before `group_end`. */
static struct {
    struct buffer bytes;
    bool field;
    bool lays_out[BUFFER]; /* a length, a count or a flag: another one there would be another entry */
    bool is_end[BUFFER];
    size_t ends[MOST], group_end[MOST], count;
    size_t grouped; /* so many of them have their group's end */
} made;

static void add(struct bytes b)
{
    put(&made.bytes, b);
}

static void add_laying_out(uint64_t number, size_t width)
{
    memset(made.lays_out + made.bytes.len, true, width);
    put_number(&made.bytes, number, width);
}

static void add_string(struct bytes s)
{
    add(s);
    made.is_end[made.bytes.len] = true;
    made.ends[made.count++] = made.bytes.len;
    put_number(&made.bytes, 0, 1);
}

/* The strings since the last group are one. */
static void end_group(void)
{
    for (; made.grouped < made.count; made.grouped++)
        made.group_end[made.grouped] = made.bytes.len;
}

static void add_attribute(struct bytes name, struct bytes value)
{
    add_laying_out(name.len, 1);
    add_laying_out(value.len, 1);
    add_string(name);
    add_string(value);
    end_group();
}

static void add_refactor(uint32_t packed, struct bytes name)
{
    add_laying_out(packed, 4);
    add_laying_out(name.len, 2);
    add_string(name);
    end_group();
}

static void add_strings(const struct bytes *strings)
{
    for (size_t i = 0; i < 3; i++)
        add_string(strings[i]);
    end_group();
}

static void add_lengths(const struct bytes *strings)
{
    for (size_t i = 0; i < 3; i++)
        add_laying_out(strings[i].len, 2);
}

/* What no reader reads: bytes that could be taken for records with an end byte that is not 0. */
static const uint8_t unread[] = {1, 1, 'n', 9, 'v', 9, 0, 0, 0, 0, 1, 0, 'z', 9};

/* An entry as a sub-item or a method is one, as long as it says, with none of its end bytes 0. */
static void add_item(void)
{
    add_laying_out(48, 4);
    add((struct bytes){
        (const uint8_t *)"\0\0\0\0\0\0\0\0\0\0\0\0\0\0\0\0\0\0\0\0\0\0\0\0\0\0\0\0\1\0\1\0\1\0\0\0\0\0n\7t\7c\7", 44});
}

static void begin_made(bool field)
{
    memset(&made, 0, sizeof made);
    made.field = field;
    add_laying_out(0, 4);
}

/* What stands where a name is cut short must not be read as extended flags that ask for a chain: no name has a length
 * with that bit. */
static void end_made(void)
{
    add((struct bytes){unread, sizeof unread});
    for (size_t i = 0; i < 4; i++)
        made.bytes.at[i] = (uint8_t)(made.bytes.len >> 8 * i);
}

/* Strings that have a 0 and a 255 of their own, and empty ones, whose end bytes stand side by side. */
static struct bytes string(bool empty, const char *s, size_t len)
{
    return (struct bytes){(const uint8_t *)s, empty ? 0 : len};
}

static void add_records(bool empty)
{
    add_laying_out(3, 2);
    add_attribute(string(empty, "end", 3), string(empty, "0\0\xFF", 3));
    add_attribute(string(empty, "", 0), string(empty, "value", 5));
    add_attribute(string(empty, "\0\xFF", 2), string(empty, "", 0));
}

/* A symbol with every section. */
static void make_symbol_of(bool empty)
{
    const struct bytes strings[3] = {string(empty, "Zoom", 4), string(empty, "L\0\xFF", 3), string(empty, "mm", 2)};
    begin_made(false);
    add(string(false, "group...offset..", 16));
    add_laying_out(
        VINDASKOT_SYMBOL_FLAG_TYPE_GUID | VINDASKOT_SYMBOL_FLAG_ATTRIBUTES | VINDASKOT_SYMBOL_FLAG_EXTENDED_FLAGS, 2);
    add(string(false, "hi", 2));
    add_lengths(strings);
    add_strings(strings);
    add(string(false, "sixteen bytes...", 16));
    add_records(empty);
    add_laying_out(VINDASKOT_SYMBOL2_FLAG_REFACTOR_INFO, 4);
    add_refactor(NEXT_BIT, string(empty, "Zoo", 3));
    add_refactor(NEXT_BIT | 1, string(empty, "", 0));
    add_refactor(1, string(empty, "\xFF\0z", 3));
    end_made();
}

/* A field with everything: array records, sub-items, GUID, copy mask, methods and attributes. */
static void make_field_of(bool empty)
{
    const struct bytes strings[3] = {string(empty, "fZoom", 5), string(empty, "L\0\xFF", 3), string(empty, "mm", 2)};
    begin_made(true);
    add(string(false, "version.hash", 12));
    add_laying_out(5, 4);
    add(string(false, "offset..", 8));
    add_laying_out(VINDASKOT_TYPE_FLAG_TYPE_GUID | VINDASKOT_TYPE_FLAG_COPY_MASK | VINDASKOT_TYPE_FLAG_METHOD_INFOS |
                       VINDASKOT_TYPE_FLAG_ATTRIBUTES,
                   4);
    add_lengths(strings);
    add_laying_out(1, 2);
    add_laying_out(2, 2);
    add_strings(strings);
    add(string(false, "8 bytes.", 8));
    add_item();
    add_item();
    add(string(false, "sixteen bytes...", 16));
    add(string(false, "mask!", 5));
    add_laying_out(1, 2);
    add_item();
    add_records(empty);
    end_made();
}

/* ---- Asking ---- */

enum { ASKED = 8 };

/* All that the entry at the start of b can be asked for. */
static size_t ask_symbol(struct bytes b, struct told *told)
{
    told[0] = call_symbol_read(b);
    told[1] = call_symbol_attribute(b, 0);
    told[2] = call_symbol_attribute(b, 2);
    told[3] = call_symbol_attribute(b, 3);
    told[4] = call_symbol_attribute_named(b, lay(NAME, text("end")));
    told[5] = call_symbol_attribute_named(b, lay(NAME, text("none")));
    told[6] = call_symbol_refactor_info(b, 0);
    told[7] = call_symbol_refactor_info(b, 3);
    return 8;
}

static size_t ask_field(struct bytes b, struct told *told)
{
    told[0] = call_field_read(b);
    told[1] = call_field_attribute(b, 0);
    told[2] = call_field_attribute(b, 2);
    told[3] = call_field_attribute(b, 3);
    told[4] = call_field_attribute_named(b, lay(NAME, text("end")));
    told[5] = call_field_attribute_named(b, lay(NAME, text("none")));
    return 6;
}

static size_t ask_made(struct bytes b, struct told *told)
{
    return (made.field ? ask_field : ask_symbol)(b, told);
}

static struct told step_made(struct bytes b, size_t cursor)
{
    return (made.field ? call_field_step : call_symbol_step)(b, cursor);
}

/* What is told of the first bytes of the entry, which are laid out and claim so many. */
static struct bytes claiming(size_t len)
{
    uint8_t *at = area(UPLOAD, len);
    memcpy(at, made.bytes.at, len);
    for (size_t i = 0; i < 4; i++)
        at[i] = (uint8_t)(len >> 8 * i);
    return (struct bytes){at, len};
}

/* What the present mode tells of b. */
static size_t ask_at_present(struct bytes b, struct told *told)
{
    enum mode trying = mode;
    mode = PRESENT;
    size_t asked = ask_made(b, told);
    mode = trying;
    return asked;
}

/* All answers are this refusal; in the present mode they are as they would be with end bytes of 0. */
static void all_refused(struct bytes b, struct told refusal, const struct told *sound)
{
    struct told told[ASKED];
    size_t asked = ask_made(b, told);
    for (size_t i = 0; i < asked; i++)
        SAME(ENDS, told[i], mode == CHECKED ? refusal : sound[i]);
}

static struct told moved(struct told told, size_t cursor)
{
    told.cursor = cursor;
    return told;
}

/* ---- One end byte ---- */

/* A step in an upload tells the place in the entry, and leads to the entry behind it. */
static void step_refused(struct told refusal, struct told sound)
{
    static struct buffer upload;
    upload.len = 0;
    put_symbol(&upload, &(struct parts){.name = text("first"), .type_name = text("INT")});
    size_t start = upload.len;
    put(&upload, whole(&made.bytes));
    size_t next = upload.len;
    put_symbol(&upload, &(struct parts){.name = text("last")});
    struct bytes b = lay(UPLOAD, whole(&upload));
    struct told two = {.status = VINDASKOT_OUT_OF_STEPS, .cursor = next, .steps = 2};
    SAME(ENDS, step_made(b, start), moved(mode == CHECKED ? refusal : sound, next));
    SAME(ENDS, call_walk(b, 2, 0), two);
}

/* Each end byte as each of so many bytes. */
static void each_end(unsigned last, unsigned stride)
{
    struct told sound[ASKED];
    ask_made(lay(UPLOAD, whole(&made.bytes)), sound);
    for (size_t i = 0; i < made.count; i++) {
        uint8_t *end = made.bytes.at + made.ends[i];
        for (unsigned byte = 1; byte <= last; byte += stride) {
            struct told refusal = refused(16, made.ends[i], byte);
            *end = (uint8_t)byte;
            all_refused(lay(UPLOAD, whole(&made.bytes)), refusal, sound);
            step_refused(refusal, sound[0]);
        }
        *end = 0;
    }
}

/* Of two that are not 0, and of all, the first decides. */
static void several_ends(void)
{
    struct told sound[ASKED];
    uint8_t *at = made.bytes.at;
    ask_made(lay(UPLOAD, whole(&made.bytes)), sound);
    for (size_t i = 0; i < made.count; i++)
        for (size_t k = i + 1; k < made.count; k++) {
            at[made.ends[i]] = 7;
            at[made.ends[k]] = 9;
            all_refused(lay(UPLOAD, whole(&made.bytes)), refused(16, made.ends[i], 7), sound);
            at[made.ends[i]] = at[made.ends[k]] = 0;
        }
    for (size_t i = 0; i < made.count; i++)
        at[made.ends[i]] = (uint8_t)(200 + i);
    all_refused(lay(UPLOAD, whole(&made.bytes)), refused(16, made.ends[0], 200), sound);
    for (size_t i = 0; i < made.count; i++)
        at[made.ends[i]] = 0;
}

/* Every other byte that may have any value, whichever it has: what no reader reads among them, and what stands in
 * strings. Both modes tell the same. */
static void other_bytes(void)
{
    static const uint8_t values[] = {0, 1, 0x80, 0xFF};
    struct told told[ASKED], present[ASKED];
    for (size_t place = 0; place < made.bytes.len; place++) {
        uint8_t right = made.bytes.at[place];
        for (size_t k = 0; !made.lays_out[place] && !made.is_end[place] && k < sizeof values; k++) {
            made.bytes.at[place] = values[k];
            struct bytes b = lay(UPLOAD, whole(&made.bytes));
            size_t asked = ask_made(b, told);
            ask_at_present(b, present);
            CHECK(ENDS_APART, told[0].status == VINDASKOT_DONE, "refused with %u for a byte at %zu that is no end byte",
                  (unsigned)told[0].status, place);
            for (size_t i = 0; i < asked; i++)
                SAME(ENDS_APART, told[i], present[i]);
        }
        made.bytes.at[place] = right;
    }
}

/* "After the length checks of that same string group": the entry cut at each byte behind its header, claiming what is
 * left. An end byte whose whole group is there refuses, also where a record behind it is now short; where the group is
 * short, or an entry's strings are, all is as in the present mode. */
static void each_cut(void)
{
    struct told told[ASKED], present[ASKED];
    size_t header = made.field ? 42 : 30;
    for (size_t i = 0; i < made.count; i++) {
        made.bytes.at[made.ends[i]] = 5;
        for (size_t len = header; len < made.bytes.len; len++) {
            struct bytes b = claiming(len);
            size_t asked = ask_made(b, told);
            ask_at_present(b, present);
            bool met = mode == CHECKED && len >= made.group_end[i];
            for (size_t k = 0; k < asked; k++)
                SAME(ENDS, told[k], met ? refused(16, made.ends[i], 5) : present[k]);
        }
        made.bytes.at[made.ends[i]] = 0;
    }
}

/* Claims that are refused before any string is there, beside end bytes none of which is 0. */
static void wrong_claims(void)
{
    const size_t header = made.field ? 42 : 30, len = made.bytes.len,
                 claims[] = {0, 3, header - 1, len + 1, UINT32_MAX};
    struct told told[ASKED], present[ASKED];
    for (size_t i = 0; i < made.count; i++)
        made.bytes.at[made.ends[i]] = 1;
    for (size_t i = 0; i < sizeof claims / sizeof *claims; i++) {
        uint8_t *at = area(UPLOAD, len);
        memcpy(at, made.bytes.at, len);
        for (size_t k = 0; k < 4; k++)
            at[k] = (uint8_t)(claims[i] >> 8 * k);
        struct bytes b = {at, len};
        size_t asked = ask_made(b, told);
        ask_at_present(b, present);
        for (size_t k = 0; k < asked; k++) {
            SAME(ENDS, told[k], present[k]);
            CHECK(ENDS, told[k].status != VINDASKOT_DONE && told[k].status != 16, "a wrong claim is accepted, or 16");
        }
    }
    for (size_t i = 0; i < made.count; i++)
        made.bytes.at[made.ends[i]] = 0;
}

static void try_made(unsigned last, unsigned stride)
{
    each_end(last, stride);
    several_ends();
    other_bytes();
    each_cut();
    wrong_claims();
}

/* ---- What is not flagged, and records behind the count ---- */

/* Without its flags a section is unread, whatever its end bytes. */
static void unflagged(void)
{
    struct told sound = done(0, 0), told;
    make_symbol_of(false);
    made.bytes.at[20] = made.bytes.at[21] = 0;
    for (size_t i = 3; i < made.count; i++)
        made.bytes.at[made.ends[i]] = 1;
    told = call_symbol_read(lay(UPLOAD, whole(&made.bytes)));
    CHECK(ENDS_APART, told.status == sound.status && told.slots[VINDASKOT_SYMBOL_UNREAD] > 50,
          "sections that are not flagged refuse with %u", (unsigned)told.status);
    make_field_of(false);
    made.bytes.at[29] &= (uint8_t) ~(VINDASKOT_TYPE_FLAG_ATTRIBUTES >> 8);
    for (size_t i = 3; i < made.count; i++)
        made.bytes.at[made.ends[i]] = 1;
    told = call_field_read(lay(UPLOAD, whole(&made.bytes)));
    CHECK(ENDS_APART, told.status == sound.status, "attributes that are not flagged refuse with %u",
          (unsigned)told.status);
}

/* A record behind the last that is counted, and one behind the entry. */
static void behind_the_count(void)
{
    static struct buffer entry;
    const uint8_t wrong[] = {1, 1, 'n', 9, 'v', 9};
    struct told told;
    entry.len = 0;
    put_symbol(&entry, &(struct parts){.flags = VINDASKOT_SYMBOL_FLAG_ATTRIBUTES, .block = {wrong, sizeof wrong}});
    told = call_symbol_read(lay(UPLOAD, whole(&entry)));
    CHECK(ENDS_APART, told.status == VINDASKOT_DONE && told.slots[VINDASKOT_SYMBOL_UNREAD] == sizeof wrong,
          "an attribute behind the count: status %u", (unsigned)told.status);
    entry.len = 0;
    put_symbol(&entry, &(struct parts){.flags = 0});
    put(&entry, (struct bytes){wrong, sizeof wrong});
    told = call_symbol_read(lay(UPLOAD, whole(&entry)));
    CHECK(mode == CHECKED ? BEHIND_ENDS : ENDS_APART,
          told.status == VINDASKOT_DONE && told.slots[VINDASKOT_SYMBOL_UNREAD] == 0,
          "an attribute behind the entry: status %u", (unsigned)told.status);
}

/* ---- Records by themselves ---- */

/* A record's answer, where its end byte at that place is not 0. */
static void alone(struct bytes b, reading call, struct told sound, size_t place, uint8_t byte)
{
    bool checked = mode == CHECKED;
    SAME(checked ? ENDS_ALONE : ENDS, call(lay(UPLOAD, b)), checked ? refused(16, place, byte) : sound);
}

/* Names and values of 0 to 3 bytes; each end byte, then both; cut at each byte, where 2 and 1 come first; with bytes
 * behind it, which are not looked at. */
static void attributes_alone(void)
{
    static struct buffer record;
    for (size_t i = 0; i < 16; i++) {
        size_t name = i % 4, value = i / 4, ends[] = {2 + name, 3 + name + value}, len = 4 + name + value;
        record.len = 0;
        put_attribute(&record, part(text("abc"), 0, name), part(text("xyz"), 0, value));
        put(&record, (struct bytes){unread, sizeof unread});
        struct told sound = call_attribute_read(lay(UPLOAD, whole(&record)));
        CHECK(ENDS_APART, sound.status == VINDASKOT_DONE, "a sound attribute before others is refused");
        for (size_t k = 1; k < 4; k++) {
            record.at[ends[0]] = (uint8_t)((k & 1) != 0 ? 11 : 0);
            record.at[ends[1]] = (uint8_t)((k & 2) != 0 ? 12 : 0);
            size_t first = (k & 1) != 0 ? 0 : 1;
            alone(whole(&record), call_attribute_read, sound, ends[first], (uint8_t)(11 + first));
            alone(part(whole(&record), 0, len), call_attribute_read, sound, ends[first], (uint8_t)(11 + first));
            for (size_t cut = 0; cut < len; cut++)
                SAME(ENDS, call_attribute_read(lay(UPLOAD, part(whole(&record), 0, cut))),
                     cut < 4 ? refused(2, 4, cut) : refused(1, len, cut));
        }
    }
}

static void refactors_alone(void)
{
    static struct buffer record;
    for (size_t name = 0; name < 4; name++) {
        record.len = 0;
        put_refactor(&record, NEXT_BIT, part(text("abc"), 0, name));
        struct told sound = call_refactor_read(lay(UPLOAD, whole(&record)));
        record.at[6 + name] = 0xFF;
        alone(whole(&record), call_refactor_read, sound, 6 + name, 0xFF);
        for (size_t cut = 0; cut < record.len; cut++)
            SAME(ENDS, call_refactor_read(lay(UPLOAD, part(whole(&record), 0, cut))),
                 refused(2, cut < 7 ? 7 : 7 + name, cut));
    }
}

/* A chain of three and what stands behind it, cut at each byte: an end byte of a record that is there refuses the
 * chain, with its place from the first byte given, also where a record behind it is short; where that one is short
 * first, 2 with its own figures. */
static void chains_alone(void)
{
    static struct buffer chain;
    const size_t lengths[] = {2, 0, 3}, starts[] = {0, 9, 16, 26};
    for (size_t wrong = 0; wrong < 3; wrong++) {
        chain.len = 0;
        for (size_t i = 0; i < 3; i++)
            put_refactor(&chain, i < 2 ? NEXT_BIT : 0, part(text("abc"), 0, lengths[i]));
        put(&chain, (struct bytes){unread, sizeof unread});
        size_t place = starts[wrong + 1] - 1;
        chain.at[place] = 0x80;
        for (size_t cut = 0; cut <= chain.len; cut++) {
            size_t whole_ones = (cut >= starts[1]) + (cut >= starts[2]) + (cut >= starts[3]);
            size_t left = cut - starts[whole_ones];
            struct told sound = done(3, starts[3]);
            if (whole_ones < 3)
                sound = refused(2, left < 7 ? 7 : 7 + lengths[whole_ones], left);
            struct bytes b = lay(UPLOAD, part(whole(&chain), 0, cut));
            bool met = mode == CHECKED && wrong < whole_ones;
            SAME(met ? ENDS_ALONE : ENDS, call_chain_read(b), met ? refused(16, place, 0x80) : sound);
            struct told none = sound.status == VINDASKOT_DONE ? refused(14, 3, 3) : sound;
            SAME(ENDS, call_chain_record(b, 3), met ? refused(16, place, 0x80) : none);
            if (met)
                SAME(ENDS_ALONE, call_chain_record(b, 0), refused(16, place, 0x80));
        }
    }
}

/* ---- The longest, so that a place of more than one and of more than two bytes is told whole ---- */

static void long_ends(void)
{
    enum { LONG = 65535 };
    static uint8_t at[3 * LONG];
    struct bytes letters = {at, LONG};
    memset(at, 'n', sizeof at);
    struct parts p = laid(&(struct parts){.name = letters, .type_name = letters, .comment = part(letters, 0, 9)});
    struct room out = lend(33 + 2 * LONG + 9);
    SAME(ENDS, call_symbol_write(&p, out), done(out.len, 0));
    struct bytes b = lay(UPLOAD, (struct bytes){out.at, out.len});
    struct told sound = call_symbol_read(b);
    uint8_t *entry = area(UPLOAD, b.len);
    for (size_t i = 0; i < 3; i++) {
        size_t place = (const size_t[]){30 + LONG, 31 + 2 * LONG, 32 + 2 * LONG + 9}[i];
        entry[place] = 0xFE;
        SAME(ENDS, call_symbol_read(b), mode == CHECKED ? refused(16, place, 0xFE) : sound);
        entry[place] = 0;
    }
    struct bytes name = part(letters, 0, 255);
    out = lend(514);
    SAME(ENDS, call_attribute_write(name, name, out), done(514, 0));
    struct told own = call_attribute_read(lay(UPLOAD, (struct bytes){out.at, out.len}));
    out.at[257] = out.at[513] = 0xFD;
    alone((struct bytes){out.at, out.len}, call_attribute_read, own, 257, 0xFD);
    out.at[257] = 0;
    alone((struct bytes){out.at, out.len}, call_attribute_read, own, 513, 0xFD);
}

/* As many attributes as there can be, of which the last has an end byte that is not 0. */
static void many_ends(void)
{
    enum { COUNT = 65535, FIRST = 35, LEN = FIRST + 4 * COUNT };
    uint8_t *at = area(UPLOAD, LEN);
    memset(at, 0, LEN);
    for (size_t i = 0; i < 4; i++)
        at[i] = (uint8_t)(LEN >> 8 * i);
    at[21] = VINDASKOT_SYMBOL_FLAG_ATTRIBUTES >> 8;
    at[33] = at[34] = 0xFF;
    struct bytes b = {at, LEN};
    struct told sound = call_symbol_read(b);
    CHECK(ENDS_APART, sound.slots[VINDASKOT_SYMBOL_ATTRIBUTE_COUNT] == COUNT, "not all attributes are shown");
    for (size_t back = 1; back < 3; back++) {
        at[LEN - back] = 3;
        SAME(ENDS, call_symbol_read(b), mode == CHECKED ? refused(16, LEN - back, 3) : sound);
        SAME(ENDS, call_symbol_step(b, 0), moved(mode == CHECKED ? refused(16, LEN - back, 3) : sound, LEN));
        at[LEN - back] = 0;
    }
}

/* ---- Index and finding ---- */

/* One slot and more, in the order in which they are lent. */
static struct bytes slots_of(const uint32_t *slots, size_t count)
{
    return lay(SLOTS, (struct bytes){(const uint8_t *)slots, 4 * count});
}

/* A symbol that has an end byte of another value than 0, and behind it one of the same name. In the checked mode the
 * first is passed over: by the index, by finding, and by finding through slots that have it. */
static void found_behind(void)
{
    static struct buffer upload;
    make_symbol_of(false);
    for (size_t i = 0; i < made.count; i++) {
        made.bytes.at[made.ends[i]] = 1;
        upload.len = 0;
        put(&upload, whole(&made.bytes));
        made.bytes.at[made.ends[i]] = 0;
        uint32_t twin = (uint32_t)upload.len;
        put_symbol(&upload, &(struct parts){.name = text("ZOOM")});
        const uint32_t first = mode == CHECKED ? twin : 0, slots[] = {0, twin, 0};
        struct bytes b = lay(UPLOAD, whole(&upload)), name = lay(NAME, text("Zoom"));
        SAME(ENDS, call_find(b, name), done(first, 0));
        SAME(ENDS, call_find_indexed(b, slots_of(slots, 2), name), done(first, 0));
        SAME(ENDS, call_find_indexed(b, slots_of(slots + 1, 2), name), done(twin, 0));
        SAME(ENDS, call_find_indexed(b, slots_of(slots, 1), name), mode == CHECKED ? refused(13, 0, 0) : done(0, 0));
        struct room out = lend(8);
        SAME(ENDS, call_index_build(b, out), done(mode == CHECKED ? 1 : 2, 0));
        CHECK(ENDS, memcmp(out.at, &first, 4) == 0, "the index begins with another start");
        SAME(ENDS, call_index_build(b, lend(4)), mode == CHECKED ? done(1, 0) : refused(6, 2, 1));
        b = part(b, 0, twin);
        SAME(ENDS, call_find(b, name), mode == CHECKED ? refused(13, 0, 0) : done(0, 0));
        SAME(ENDS, call_index_build(b, lend(0)), mode == CHECKED ? done(0, 0) : refused(6, 1, 0));
    }
}

/* Before a claim of 0 the same symbol is no longer found, so that the claim refuses; 10 comes before 6 as ever. */
static void before_a_zero_claim(void)
{
    static struct buffer upload;
    make_symbol_of(false);
    made.bytes.at[made.ends[0]] = 1;
    upload.len = 0;
    put(&upload, whole(&made.bytes));
    put_number(&upload, 0, 4);
    struct bytes b = lay(UPLOAD, whole(&upload));
    SAME(ENDS, call_find(b, lay(NAME, text("Zoom"))), mode == CHECKED ? refused(10, 1, 0) : done(0, 0));
    SAME(FINDS, call_index_build(b, lend(0)), refused(10, 1, 0));
}

void try_ends(void)
{
    make_symbol_of(false);
    try_made(255, 1);
    make_symbol_of(true);
    try_made(255, 127);
    make_field_of(false);
    try_made(255, 1);
    make_field_of(true);
    try_made(255, 127);
    unflagged();
    behind_the_count();
    attributes_alone();
    refactors_alone();
    chains_alone();
    long_ends();
    many_ends();
    found_behind();
    before_a_zero_claim();
}
