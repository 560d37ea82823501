/* The edges: empty slices and null pointers, a lent buffer of every length, the lengths at which numbers end. The
 * expected figures stand here as docs/FORMAT.md has them, or come from the model. */
#include "boundary.h"

static struct told finished(size_t cursor, size_t steps)
{
    return (struct told){.status = VINDASKOT_FINISHED, .cursor = cursor, .steps = steps};
}

static struct told out_of_steps(size_t cursor, size_t steps)
{
    return (struct told){.status = VINDASKOT_OUT_OF_STEPS, .cursor = cursor, .steps = steps};
}

static struct told moved(struct told told, size_t cursor)
{
    told.cursor = cursor;
    return told;
}

/* ---- Empty slices and null pointers ---- */

/* A buffer of no bytes: a null pointer, or one between watched bytes. */
typedef struct room (*lending)(void);

static struct room null_room(void)
{
    return (struct room){NULL, 0};
}

static struct room empty_room(void)
{
    return lend(0);
}

static void empty_reads(struct bytes none)
{
    SAME(EMPTY, call_symbol_read(none), refused(2, 30, 0));
    SAME(EMPTY, call_symbol_attribute(none, 0), refused(2, 30, 0));
    SAME(EMPTY, call_symbol_refactor_info(none, 0), refused(2, 30, 0));
    SAME(EMPTY, call_symbol_why(none), refused(2, 30, 0));
    SAME(EMPTY, call_symbol_attribute_named(none, none), refused(2, 30, 0));
    SAME(EMPTY, call_field_read(none), refused(2, 42, 0));
    SAME(EMPTY, call_field_attribute(none, 0), refused(2, 42, 0));
    SAME(EMPTY, call_field_attribute_named(none, none), refused(2, 42, 0));
    SAME(EMPTY, call_attribute_read(none), refused(2, 4, 0));
    SAME(EMPTY, call_refactor_read(none), refused(2, 7, 0));
    SAME(EMPTY, call_chain_read(none), refused(2, 7, 0));
    SAME(EMPTY, call_chain_record(none, 0), refused(2, 7, 0));
    SAME(EMPTY, call_symbol_flags_read(none), refused(1, 2, 0));
    SAME(EMPTY, call_symbol2_flags_read(none), refused(1, 4, 0));
    SAME(EMPTY, call_type_flags_read(none), refused(1, 4, 0));
    const size_t cursors[] = {0, 1, 30, SIZE_MAX};
    for (size_t i = 0; i < 4; i++) {
        SAME(EMPTY, call_symbol_step(none, cursors[i]), finished(cursors[i], 0));
        SAME(EMPTY, call_field_step(none, cursors[i]), finished(cursors[i], 0));
        SAME(EMPTY, call_walk(none, 0, cursors[i]), finished(cursors[i], 0));
        SAME(EMPTY, call_walk(none, SIZE_MAX, cursors[i]), finished(cursors[i], 0));
    }
}

static void empty_writes(struct bytes none, lending no_room)
{
    struct parts p = {.guid = none, .name = none, .type_name = none, .comment = none, .block = none, .chain = none};
    struct bytes v = lay(NAME, text("v"));
    SAME(EMPTY, call_attribute_write(none, none, lend(9)), done(4, 0));
    SAME(EMPTY, call_attribute_write(none, v, lend(9)), done(5, 0));
    SAME(EMPTY, call_attribute_write(v, none, lend(9)), done(5, 0));
    SAME(EMPTY, call_attribute_write(v, v, no_room()), refused(6, 6, 0));
    SAME(EMPTY, call_refactor_write(1, true, none, lend(9)), done(7, 0));
    SAME(EMPTY, call_refactor_write(1, true, v, no_room()), refused(6, 8, 0));
    SAME(EMPTY, call_refactor_block_write(0, none, lend(9)), done(2, 0));
    SAME(EMPTY, call_refactor_block_write(1, none, lend(9)), refused(9, 1, 0));
    SAME(EMPTY, call_refactor_block_write(0, none, no_room()), refused(6, 2, 0));
    SAME(EMPTY, call_symbol_write(&p, lend(40)), done(33, 0));
    SAME(EMPTY, call_symbol_write(&p, no_room()), refused(6, 33, 0));
    SAME(EMPTY, call_field_write(&p, lend(50)), done(45, 0));
    SAME(EMPTY, call_field_write(&p, no_room()), refused(6, 45, 0));
    p.flags = VINDASKOT_SYMBOL_FLAG_TYPE_GUID;
    SAME(EMPTY, call_symbol_write(&p, lend(80)), refused(8, 1, 0));
    p.flags = VINDASKOT_SYMBOL_FLAG_ATTRIBUTES;
    SAME(EMPTY, call_symbol_write(&p, lend(80)), done(35, 0));
    p.flags = VINDASKOT_TYPE_FLAG_TYPE_GUID;
    SAME(EMPTY, call_field_write(&p, lend(80)), done(61, 0));
}

static const uint8_t one_symbol[37] = {37, 0, 0, 0, 0x20, 0x40, 0, 0, 8, 0, 0, 0, 2,   0, 0,   0,   2,  0,
                                       0,  0, 0, 0, 0,    0,    1, 0, 3, 0, 0, 0, 'Z', 0, 'I', 'N', 'T'};

static void empty_finds(struct bytes none, lending no_room)
{
    static const uint32_t slots[3] = {0, 5, UINT32_MAX};
    struct bytes upload = {one_symbol, sizeof one_symbol}, index = {(const uint8_t *)slots, sizeof slots};
    SAME(EMPTY, call_index_build(none, lend(8)), done(0, 0));
    SAME(EMPTY, call_index_build(none, no_room()), done(0, 0));
    SAME(EMPTY, call_index_build(upload, no_room()), refused(6, 1, 0));
    SAME(EMPTY, call_find(none, none), refused(13, 0, 0));
    SAME(EMPTY, call_find(none, text("Z")), refused(13, 0, 0));
    SAME(EMPTY, call_find(upload, none), refused(13, 0, 0));
    SAME(EMPTY, call_find_indexed(none, none, none), refused(13, 0, 0));
    SAME(EMPTY, call_find_indexed(none, index, text("Z")), refused(13, 0, 0));
    SAME(EMPTY, call_find_indexed(upload, none, text("Z")), refused(13, 0, 0));
    SAME(EMPTY, call_find_indexed(upload, index, none), refused(13, 0, 0));
    SAME(EMPTY, call_find_indexed(upload, index, text("Z")), done(0, 0));
}

static void empty_salvages(struct bytes none, lending no_room)
{
    const struct bytes upload = {one_symbol, sizeof one_symbol}, tail = part(upload, 0, 3);
    const struct room null = {NULL, 0};
    SAME(EMPTY, call_salvage(none, lend(8), lend_runs(6)), done(0, 0));
    SAME(EMPTY, call_salvage(none, no_room(), lend_runs(0)), done(0, 0));
    SAME(EMPTY, call_salvage(none, no_room(), null), done(0, 0));
    SAME(EMPTY, call_salvage(upload, no_room(), null), refused(6, 37, 0));
    SAME(EMPTY, call_salvage(upload, lend(37), null), done(37, 0));
    SAME(EMPTY, call_salvage(tail, no_room(), null), refused(6, VINDASKOT_RUN_SLOTS, 0));
    SAME(EMPTY, call_salvage(tail, no_room(), lend_runs(VINDASKOT_RUN_SLOTS)), done(0, VINDASKOT_RUN_SLOTS));
}

/* An attribute whose name is empty, behind one whose value is. */
static const uint8_t nameless[10] = {1, 0, 'n', 0, 0, 0, 1, 0, 'v', 0};

static void empty_names(struct bytes none)
{
    static struct buffer entry;
    struct bytes block = {nameless, sizeof nameless}, name = text("n");
    SAME(EMPTY, call_symbol_attribute_named(none, name), refused(2, 30, 0));
    SAME(EMPTY, call_field_attribute_named(none, name), refused(2, 42, 0));
    SAME(EMPTY, call_symbol_attribute_named((struct bytes){one_symbol, sizeof one_symbol}, none), refused(13, 0, 0));
    entry.len = 0;
    put_symbol(&entry, &(struct parts){.flags = VINDASKOT_SYMBOL_FLAG_ATTRIBUTES, .count = 2, .block = block});
    SAME(EMPTY, call_symbol_attribute_named(whole(&entry), none), model_symbol_attribute(whole(&entry), 1));
    entry.len = 0;
    put_field(&entry, &(struct parts){.flags = 0});
    SAME(EMPTY, call_field_attribute_named(whole(&entry), none), refused(13, 0, 0));
    entry.len = 0;
    put_field(&entry, &(struct parts){.flags = VINDASKOT_TYPE_FLAG_ATTRIBUTES, .count = 2, .block = block});
    SAME(EMPTY, call_field_attribute_named(whole(&entry), none), model_field_attribute(whole(&entry), 1));
}

static void empty_texts(struct bytes none, lending no_room)
{
    SAME(EMPTY, call_decode(none, no_room()), done(0, 0));
    SAME(EMPTY, call_decode(none, lend(3)), done(0, 0));
    SAME(EMPTY, call_decode(text("\x80"), no_room()), refused(6, 3, 0));
    SAME(EMPTY, call_encode(none, no_room()), done(0, 0));
    SAME(EMPTY, call_encode(none, lend(3)), done(0, 0));
    SAME(EMPTY, call_encode(text("\xC3\xA4"), no_room()), refused(6, 1, 0));
}

static void try_empty(struct bytes none, lending no_room)
{
    empty_reads(none);
    empty_writes(none, no_room);
    empty_finds(none, no_room);
    empty_salvages(none, no_room);
    empty_names(none);
    empty_texts(none, no_room);
}

/* ---- A lent buffer of every length ---- */

static struct draft rich;

static const char *const texts[] = {"", "a", "\xE4\x80\x9D", "St\xFCtzpunkt \x80\x8E\x99 \xDF"};
static const char *const utf8s[] = {"", "a", "\xC3\xA4\xE2\x82\xAC", "1 \xC2\xB0, \xE2\x82\xAC \xC3\xBC, \xC5\xBD x"};

/* What is to be written: strings, or an entry. */
struct job {
    struct bytes first, second;
    struct parts parts;
};

static struct told write_attribute(const struct job *job, struct room out)
{
    return call_attribute_write(job->first, job->second, out);
}

static struct told write_refactor(const struct job *job, struct room out)
{
    return call_refactor_write(0xF0F00FFF, true, job->first, out);
}

static struct told write_block(const struct job *job, struct room out)
{
    return call_refactor_block_write(job->parts.links, job->parts.chain, out);
}

static struct told write_symbol(const struct job *job, struct room out)
{
    return call_symbol_write(&job->parts, out);
}

static struct told write_field(const struct job *job, struct room out)
{
    return call_field_write(&job->parts, out);
}

static struct told write_decoded(const struct job *job, struct room out)
{
    return call_decode(job->first, out);
}

static struct told write_encoded(const struct job *job, struct room out)
{
    return call_encode(job->first, out);
}

typedef struct told (*writer)(const struct job *job, struct room out);

/* Rooms of every length below the one needed, and some above. */
static void every_room(writer write, const struct job *job, struct bytes want)
{
    for (size_t len = 0; len <= want.len + 24; len++) {
        struct room out = lend(len);
        struct told told = write(job, out);
        SAME(ROOMS, told, len < want.len ? refused(6, want.len, len) : done(want.len, 0));
        CHECK(ROOMS, len < want.len || equal((struct bytes){out.at, want.len}, want), "%s wrote other bytes",
              name_of(told.function));
    }
}

static void every_room_records(void)
{
    static struct buffer want;
    struct job job;
    for (size_t len = 0; len < 60; len += 1 + len / 3) {
        job.first = lay(NAME, part(whole(&rich.pool), 0, len));
        job.second = lay(COMMENT, part(job.first, 0, len / 2));
        want.len = 0;
        put_attribute(&want, job.first, job.second);
        every_room(write_attribute, &job, whole(&want));
        want.len = 0;
        put_refactor(&want, 0x01100111, job.first);
        every_room(write_refactor, &job, whole(&want));
    }
}

static void every_room_entries(void)
{
    static struct buffer want;
    struct job job = {.parts = laid(&rich.parts)};
    want.len = 0;
    put_number(&want, job.parts.links, 2);
    put(&want, job.parts.chain);
    every_room(write_block, &job, whole(&want));
    want.len = 0;
    put_symbol(&want, &job.parts);
    every_room(write_symbol, &job, whole(&want));
    job.parts.flags = VINDASKOT_TYPE_FLAG_TYPE_GUID | VINDASKOT_TYPE_FLAG_COPY_MASK | VINDASKOT_TYPE_FLAG_ATTRIBUTES;
    job.parts.numbers[3] = 9;
    want.len = 0;
    put_field(&want, &job.parts);
    every_room(write_field, &job, whole(&want));
}

static void every_room_texts(void)
{
    uint8_t want[200];
    for (size_t i = 0; i < sizeof texts / sizeof *texts; i++) {
        struct job job = {.first = lay(UPLOAD, text(texts[i]))};
        every_room(write_decoded, &job, (struct bytes){want, (size_t)model_decode(job.first, want).answer[0]});
        job.first = lay(UPLOAD, text(utf8s[i]));
        every_room(write_encoded, &job, (struct bytes){want, (size_t)model_encode(job.first, want).answer[0]});
    }
}

/* An input right before a lent buffer, or right behind it: compiled copies go another way where the two are near. */
static void side_by_side(writer write, struct job *job, struct bytes *input, struct bytes content,
                         const struct buffer *want)
{
    for (size_t i = 0; i < 6; i++) {
        size_t gap = i / 2;
        bool first = i % 2 == 0;
        struct room all = lend(content.len + gap + want->len);
        struct room out = {all.at + (first ? content.len + gap : 0), want->len};
        uint8_t *at = all.at + (first ? 0 : want->len + gap);
        memcpy(at, content.at, content.len);
        *input = (struct bytes){at, content.len};
        struct told told = write(job, out);
        SAME(NEIGHBOURS, told, done(want->len, 0));
        CHECK(NEIGHBOURS, equal((struct bytes){out.at, out.len}, whole(want)) && equal(*input, content),
              "%s wrote other bytes, or changed its input", name_of(told.function));
    }
}

static void neighbours_records(struct bytes content)
{
    static struct buffer want, block;
    struct job job = {.second = lay(COMMENT, text("v"))};
    want.len = 0;
    put_attribute(&want, content, job.second);
    side_by_side(write_attribute, &job, &job.first, content, &want);
    job.first = lay(COMMENT, text("n"));
    want.len = 0;
    put_attribute(&want, job.first, content);
    side_by_side(write_attribute, &job, &job.second, content, &want);
    want.len = 0;
    put_refactor(&want, 0x01100111, content);
    side_by_side(write_refactor, &job, &job.first, content, &want);
    block.len = want.len = 0;
    put_refactor(&block, 0x00100111, content);
    put_number(&want, 1, 2);
    put(&want, whole(&block));
    job.parts.links = 1;
    side_by_side(write_block, &job, &job.parts.chain, whole(&block), &want);
}

static void neighbours_entries(struct bytes content)
{
    static struct buffer want;
    struct job job = {.parts = laid(&(struct parts){.numbers = {1, 2, 3, 4, 5, 6}})};
    struct bytes *strings[] = {&job.parts.name, &job.parts.type_name, &job.parts.comment};
    for (size_t i = 0; i < 3; i++) {
        *strings[i] = content;
        want.len = 0;
        put_symbol(&want, &job.parts);
        side_by_side(write_symbol, &job, strings[i], content, &want);
        *strings[i] = content;
        want.len = 0;
        put_field(&want, &job.parts);
        side_by_side(write_field, &job, strings[i], content, &want);
        *strings[i] = part(content, 0, 0);
    }
}

static void neighbours_texts(struct bytes content)
{
    static struct buffer want;
    struct job job = {.first = content};
    want.len = (size_t)model_decode(content, want.at).answer[0];
    side_by_side(write_decoded, &job, &job.first, content, &want);
    struct told told = model_encode(content, want.at);
    want.len = (size_t)told.answer[0];
    if (told.status == VINDASKOT_DONE)
        side_by_side(write_encoded, &job, &job.first, content, &want);
}

static void try_neighbours(void)
{
    uint8_t plain[70], high[70];
    for (size_t i = 0; i < sizeof plain; i++) {
        plain[i] = (uint8_t)('A' + i % 50);
        high[i] = (uint8_t)(0x70 + i);
    }
    for (size_t len = 0; len <= sizeof plain; len++) {
        neighbours_records((struct bytes){plain, len});
        neighbours_entries((struct bytes){plain, len});
        neighbours_texts((struct bytes){plain, len});
        neighbours_texts((struct bytes){high, len});
    }
}

static void every_room_slots(void)
{
    static struct buffer upload;
    uint32_t want[64];
    upload.len = 0;
    while (upload.len < 40 * 37)
        put(&upload, (struct bytes){one_symbol, 37});
    struct bytes src = lay(UPLOAD, whole(&upload));
    uint64_t needed = model_index(src, want).answer[0];
    for (size_t slots = 0; slots <= needed + 24; slots++) {
        struct room out = lend(4 * slots);
        SAME(ROOMS, call_index_build(src, out), slots < needed ? refused(6, needed, slots) : done(needed, 0));
        CHECK(ROOMS, slots < needed || memcmp(out.at, want, 4 * (size_t)needed) == 0, "the index has other starts");
    }
}

/* A symbol with every section. */
static void draft_rich(void)
{
    do
        draft_symbol(&rich);
    while (rich.parts.guid.len == 0 || rich.parts.count < 2 || rich.parts.links < 2);
}

/* ---- Strings and counts, at and above what their length fields hold ---- */

static struct bytes letters(enum area which, size_t len)
{
    uint8_t *at = area(which, len);
    memset(at, 'n', len);
    return (struct bytes){at, len};
}

/* The name's length is looked at first, whatever the value's is. Lengths of which a field of one byte would keep a small one
 * are among them. */
static void long_attributes(void)
{
    static const size_t lengths[] = {0, 3, 254, 255, 256, 257, 259, 512, 65536, 65539};
    for (size_t i = 0; i < sizeof lengths / sizeof *lengths; i++)
        for (size_t j = 0; j < sizeof lengths / sizeof *lengths; j++) {
            size_t name = lengths[i], value = lengths[j];
            struct told want = name > 255    ? refused(7, 255, name)
                               : value > 255 ? refused(7, 255, value)
                                             : done(name + value + 4, 0);
            SAME(LENGTHS, call_attribute_write(letters(NAME, name), letters(COMMENT, value), lend(140000)), want);
        }
}

static void long_records(void)
{
    long_attributes();
    for (size_t len = 65534; len <= 65537; len++) {
        struct told want = len > 65535 ? refused(7, 65535, len) : done(len + 7, 0);
        SAME(LENGTHS, call_refactor_write(1, false, letters(NAME, len), lend(70000)), want);
    }
}

static void long_strings(void)
{
    static const size_t lengths[] = {65534, 65535, 65536, 65537};
    for (size_t i = 0; i < 12; i++) {
        struct parts p = laid(&(struct parts){.numbers = {1, 2, 3, 4, 5, 6}});
        size_t len = lengths[i / 3];
        p.name = letters(NAME, i % 3 == 0 ? len : 1);
        p.type_name = letters(TYPE_NAME, i % 3 == 1 ? len : 2);
        p.comment = letters(COMMENT, i % 3 == 2 ? len : 3);
        size_t all = p.name.len + p.type_name.len + p.comment.len;
        struct told refusal = refused(7, 65535, len);
        SAME(LENGTHS, call_symbol_write(&p, lend(70000)), len > 65535 ? refusal : done(33 + all, 0));
        SAME(LENGTHS, call_field_write(&p, lend(70000)), len > 65535 ? refusal : done(45 + all, 0));
        p.guid = letters(GUID, 15);
        SAME(LENGTHS, call_symbol_write(&p, lend(70000)), refused(1, 16, 15));
        SAME(LENGTHS, call_field_write(&p, lend(70000)), refused(1, 16, 15));
    }
}

/* So many bytes that begin with records of no strings: all zeros but the follower bits of a chain. */
static struct bytes empty_records(enum area which, size_t count, size_t width, size_t len)
{
    uint8_t *at = area(which, len);
    memset(at, 0, len);
    for (size_t i = 0; width == 7 && i + 1 < count; i++)
        at[7 * i + 3] = 1;
    return (struct bytes){at, len};
}

/* A symbol with a chain and nothing else. */
static const struct parts chained = {.flags = VINDASKOT_SYMBOL_FLAG_EXTENDED_FLAGS,
                                     .extended = VINDASKOT_SYMBOL2_FLAG_REFACTOR_INFO};

static void long_counts(void)
{
    for (size_t count = 65534; count <= 65537; count++) {
        struct parts p = laid(&(struct parts){.flags = VINDASKOT_SYMBOL_FLAG_ATTRIBUTES, .count = count});
        struct told refusal = refused(7, 65535, count);
        p.block = empty_records(BLOCK, count, 4, 4 * count);
        SAME(LENGTHS, call_symbol_write(&p, lend(300000)), count > 65535 ? refusal : done(35 + 4 * count, 0));
        p.flags = VINDASKOT_TYPE_FLAG_ATTRIBUTES;
        SAME(LENGTHS, call_field_write(&p, lend(300000)), count > 65535 ? refusal : done(47 + 4 * count, 0));
        struct bytes chain = empty_records(CHAIN, count, 7, 7 * count);
        SAME(LENGTHS, call_refactor_block_write(count, chain, lend(500000)),
             count > 65535 ? refusal : done(2 + 7 * count, 0));
    }
    struct parts p = laid(&chained);
    p.links = 65536;
    p.chain = empty_records(CHAIN, p.links, 7, 7 * p.links);
    SAME(LENGTHS, call_symbol_write(&p, lend(500000)), done(37 + 7 * p.links, 0));
    SAME(LENGTHS, call_refactor_block_write(SIZE_MAX, p.block, lend(9)), refused(7, 65535, SIZE_MAX));
}

static void long_guids(void)
{
    struct parts p = laid(&(struct parts){.flags = 0});
    for (size_t len = 0; len < 40; len++) {
        bool good = len == 0 || len == 16;
        p.guid = letters(GUID, len);
        p.flags = 0;
        SAME(LENGTHS, call_field_write(&p, lend(99)), good ? done(45, 0) : refused(1, 16, len));
        SAME(LENGTHS, call_symbol_write(&p, lend(99)),
             !good      ? refused(1, 16, len)
             : len == 0 ? done(33, 0)
                        : refused(8, 1, 0));
        p.flags = VINDASKOT_SYMBOL_FLAG_TYPE_GUID | VINDASKOT_TYPE_FLAG_TYPE_GUID;
        SAME(LENGTHS, call_field_write(&p, lend(99)), good ? done(61, 0) : refused(1, 16, len));
        SAME(LENGTHS, call_symbol_write(&p, lend(99)),
             !good       ? refused(1, 16, len)
             : len == 16 ? done(49, 0)
                         : refused(8, 1, 0));
    }
}

/* ---- Attributes by name ---- */

struct pair {
    const char *name, *value;
};

/* Two of one name, two of none, and names that begin others. The last is more than the count says. */
static const struct pair pairs[] = {{"unit", "kPa"},       {"", "none"},  {"unit", "bar"}, {"ZoomCurve", "1"},
                                    {"ZoomCurveEnd", "2"}, {"Zoom", "3"}, {"", "again"},   {"past", "4"}};

enum { PAIRS = sizeof pairs / sizeof *pairs, NOWHERE = PAIRS };

/* A name, and the number of the attribute that it finds. */
struct question {
    const char *name;
    size_t number;
};

static const struct question questions[] = {
    {"unit", 0},
    {"", 1},
    {"ZoomCurve", 3},
    {"ZoomCurveEnd", 4},
    {"Zoom", 5},
    /* Cut short, longer, of another case, another in the first, in the last byte and in one between. */
    {"uni", NOWHERE},
    {"units", NOWHERE},
    {"Unit", NOWHERE},
    {"UNIT", NOWHERE},
    {"knit", NOWHERE},
    {"unis", NOWHERE},
    {"uait", NOWHERE},
    {"ZoomCurveEne", NOWHERE},
    {"ZoomCurveEn", NOWHERE},
    {"Z", NOWHERE},
    /* A value; what is past the count, and behind the entry. */
    {"kPa", NOWHERE},
    {"past", NOWHERE},
    {"behind", NOWHERE},
};

static void ask(struct bytes b, struct bytes name, struct told want, naming call)
{
    SAME(naming_group(want), call(b, lay(NAME, name)), want);
}

static void ask_all(struct bytes b, naming call, numbered by_number)
{
    for (size_t i = 0; i < sizeof questions / sizeof *questions; i++) {
        bool there = questions[i].number != NOWHERE;
        ask(b, text(questions[i].name), there ? by_number(b, questions[i].number) : refused(13, 0, 0), call);
    }
    /* The third's own name, which the first has too. */
    SAME(ALIKE, call(b, lay(NAME, text(pairs[2].name))), by_number(b, 0));
    /* A name with its end byte, and with all that follows it in the record. */
    ask(b, (struct bytes){(const uint8_t *)"unit", 5}, refused(13, 0, 0), call);
    ask(b, (struct bytes){(const uint8_t *)"unit\0kPa", 9}, refused(13, 0, 0), call);
}

static void nearly_alike(void)
{
    static struct buffer block, entry;
    struct parts p = {.flags = VINDASKOT_SYMBOL_FLAG_ATTRIBUTES, .count = PAIRS - 1};
    block.len = entry.len = 0;
    for (size_t i = 0; i < PAIRS; i++)
        put_attribute(&block, text(pairs[i].name), text(pairs[i].value));
    p.block = whole(&block);
    put_symbol(&entry, &p);
    put_attribute(&entry, text("behind"), text("5"));
    ask_all(lay(UPLOAD, whole(&entry)), call_symbol_attribute_named, model_symbol_attribute);
    p.flags = VINDASKOT_TYPE_FLAG_ATTRIBUTES;
    entry.len = 0;
    put_field(&entry, &p);
    put_attribute(&entry, text("behind"), text("5"));
    ask_all(lay(UPLOAD, whole(&entry)), call_field_attribute_named, model_field_attribute);
}

/* An attribute, and behind it one that is refused: it ends the list of a symbol and refuses a field, which then has no
 * attribute of any name. */
static void before_refused(struct bytes bad, struct told refusal)
{
    static struct buffer block, entry;
    struct parts p = {.flags = VINDASKOT_SYMBOL_FLAG_ATTRIBUTES, .count = 2};
    block.len = entry.len = 0;
    put_attribute(&block, text("unit"), text("kPa"));
    put(&block, bad);
    p.block = whole(&block);
    put_symbol(&entry, &p);
    struct bytes b = lay(UPLOAD, whole(&entry));
    ask(b, text("unit"), model_symbol_attribute(b, 0), call_symbol_attribute_named);
    ask(b, text(""), refused(13, 0, 0), call_symbol_attribute_named);
    p.flags = VINDASKOT_TYPE_FLAG_ATTRIBUTES;
    entry.len = 0;
    put_field(&entry, &p);
    b = lay(UPLOAD, whole(&entry));
    ask(b, text("unit"), refusal, call_field_attribute_named);
    ask(b, text(""), refusal, call_field_attribute_named);
}

/* Names of 255 and of 4 bytes, and names asked whose length is theirs in its last byte, or in its last two, alone. */
static void long_names(void)
{
    static const size_t lengths[] = {4, 254, 255, 256, 257, 260, 511, 65535, 65536, 65540, 65791};
    static struct buffer block, entry;
    struct parts p = {.flags = VINDASKOT_SYMBOL_FLAG_ATTRIBUTES, .count = 2};
    block.len = 0;
    put_attribute(&block, letters(NAME, 255), text("long"));
    put_attribute(&block, letters(NAME, 4), text("short"));
    p.block = whole(&block);
    for (size_t i = 0; i < sizeof lengths / sizeof *lengths; i++) {
        size_t len = lengths[i], number = len == 255 ? 0 : 1;
        bool there = len == 255 || len == 4;
        p.flags = VINDASKOT_SYMBOL_FLAG_ATTRIBUTES;
        entry.len = 0;
        put_symbol(&entry, &p);
        struct bytes b = lay(UPLOAD, whole(&entry)), name = letters(NAME, len);
        ask(b, name, there ? model_symbol_attribute(b, number) : refused(13, 0, 0), call_symbol_attribute_named);
        p.flags = VINDASKOT_TYPE_FLAG_ATTRIBUTES;
        entry.len = 0;
        put_field(&entry, &p);
        b = lay(UPLOAD, whole(&entry));
        ask(b, name, there ? model_field_attribute(b, number) : refused(13, 0, 0), call_field_attribute_named);
    }
}

/* As many attributes as there can be, the last of which alone has a name. */
static void many_names(void)
{
    enum { COUNT = 65535, BYTES = 4 * COUNT + 1 };
    struct parts p = laid(&(struct parts){.flags = VINDASKOT_SYMBOL_FLAG_ATTRIBUTES, .count = COUNT});
    p.block = empty_records(BLOCK, COUNT, 4, BYTES);
    uint8_t *last = area(BLOCK, BYTES) + BYTES - 5;
    last[0] = 1;
    last[2] = 'Z';
    struct room out = lend(35 + BYTES);
    SAME(LENGTHS, call_symbol_write(&p, out), done(out.len, 0));
    struct bytes b = lay(UPLOAD, (struct bytes){out.at, out.len});
    ask(b, text("Z"), model_symbol_attribute(b, COUNT - 1), call_symbol_attribute_named);
    ask(b, text(""), model_symbol_attribute(b, 0), call_symbol_attribute_named);
    ask(b, text("z"), refused(13, 0, 0), call_symbol_attribute_named);
    p.flags = VINDASKOT_TYPE_FLAG_ATTRIBUTES;
    out = lend(47 + BYTES);
    SAME(LENGTHS, call_field_write(&p, out), done(out.len, 0));
    b = lay(UPLOAD, (struct bytes){out.at, out.len});
    ask(b, text("Z"), model_field_attribute(b, COUNT - 1), call_field_attribute_named);
    ask(b, text(""), model_field_attribute(b, 0), call_field_attribute_named);
    ask(b, text("z"), refused(13, 0, 0), call_field_attribute_named);
}

/* An attribute that claims a name of 9 bytes. */
static const uint8_t long_name[4] = {9};

static void try_names(void)
{
    nearly_alike();
    before_refused((struct bytes){long_name, 4}, refused(1, 13, 4));
    before_refused((struct bytes){long_name, 3}, refused(2, 4, 3));
    long_names();
    many_names();
}

/* ---- Statuses that the edges above don't have, so that each is seen however few random cases there are ---- */

/* So many zeros that claim so much. */
static struct bytes claiming(size_t claim, size_t len)
{
    uint8_t *at = area(UPLOAD, len);
    memset(at, 0, len);
    at[0] = (uint8_t)claim;
    return (struct bytes){at, len};
}

static void refused_symbols(void)
{
    struct bytes b = claiming(31, 30);
    SAME(READS, call_symbol_read(b), refused(3, 31, 30));
    SAME(NUMBERED, call_symbol_attribute(b, 0), refused(3, 31, 30));
    SAME(NUMBERED, call_symbol_refactor_info(b, 0), refused(3, 31, 30));
    SAME(WHYS, call_symbol_why(b), refused(3, 31, 30));
    ask(b, text(""), refused(3, 31, 30), call_symbol_attribute_named);
    SAME(WALKS, call_symbol_step(b, 0), moved(refused(3, 31, 30), 30));
    b = claiming(29, 30);
    SAME(READS, call_symbol_read(b), refused(4, 30, 29));
    SAME(NUMBERED, call_symbol_attribute(b, 0), refused(4, 30, 29));
    SAME(NUMBERED, call_symbol_refactor_info(b, 0), refused(4, 30, 29));
    SAME(WHYS, call_symbol_why(b), refused(4, 30, 29));
    ask(b, text(""), refused(4, 30, 29), call_symbol_attribute_named);
    SAME(WALKS, call_symbol_step(b, 0), moved(refused(2, 30, 29), 29));
    b = lay(UPLOAD, (struct bytes){one_symbol, sizeof one_symbol});
    SAME(NUMBERED, call_symbol_attribute(b, 0), refused(14, 0, 0));
    SAME(NUMBERED, call_symbol_refactor_info(b, 0), refused(14, 0, 0));
    ask(b, text("Z"), refused(13, 0, 0), call_symbol_attribute_named);
    ask(claiming(29, 29), text(""), refused(2, 30, 29), call_symbol_attribute_named);
    ask(claiming(30, 30), text(""), refused(3, 33, 30), call_symbol_attribute_named);
}

static void refused_fields(void)
{
    static struct buffer entry;
    struct bytes b = claiming(43, 42);
    SAME(READS, call_field_read(b), refused(3, 43, 42));
    SAME(NUMBERED, call_field_attribute(b, 0), refused(3, 43, 42));
    ask(b, text(""), refused(3, 43, 42), call_field_attribute_named);
    SAME(WALKS, call_field_step(b, 0), moved(refused(3, 43, 42), 42));
    b = claiming(41, 42);
    SAME(READS, call_field_read(b), refused(4, 42, 41));
    SAME(NUMBERED, call_field_attribute(b, 0), refused(4, 42, 41));
    ask(b, text(""), refused(4, 42, 41), call_field_attribute_named);
    SAME(WALKS, call_field_step(b, 0), moved(refused(2, 42, 41), 41));
    SAME(NUMBERED, call_field_attribute(claiming(45, 45), 0), refused(14, 0, 0));
    ask(claiming(45, 45), text(""), refused(13, 0, 0), call_field_attribute_named);
    ask(claiming(41, 41), text(""), refused(2, 42, 41), call_field_attribute_named);
    ask(claiming(42, 42), text(""), refused(3, 45, 42), call_field_attribute_named);
    entry.len = 0;
    put_field(&entry, &(struct parts){.flags = VINDASKOT_TYPE_FLAG_ATTRIBUTES, .count = 1, .block = {long_name, 4}});
    b = lay(UPLOAD, whole(&entry));
    SAME(READS, call_field_read(b), refused(1, 13, 4));
    SAME(NUMBERED, call_field_attribute(b, 0), refused(1, 13, 4));
    SAME(WALKS, call_field_step(b, 0), moved(refused(1, 13, 4), entry.len));
}

static void other_statuses(void)
{
    struct bytes zero = claiming(0, 40), word = text("\x78\x56\x34\x12");
    struct parts p = laid(&(struct parts){.flags = VINDASKOT_SYMBOL_FLAG_ATTRIBUTES, .count = 1});
    struct told stopped = {.status = 10, .answer = {1, 0}, .steps = 1};
    SAME(WALKS, call_walk(zero, 3, 0), stopped);
    SAME(FINDS, call_index_build(zero, lend(8)), refused(10, 1, 0));
    SAME(FINDS, call_find(zero, text("Z")), refused(10, 1, 0));
    SAME(READS, call_symbol_flags_read(part(word, 0, 2)), done(0x5678, 0));
    SAME(READS, call_symbol2_flags_read(word), done(0x12345678, 0));
    SAME(READS, call_type_flags_read(word), done(0x12345678, 0));
    SAME(WRITES, call_symbol_write(&p, lend(80)), refused(9, 1, 0));
    p.flags = VINDASKOT_TYPE_FLAG_ATTRIBUTES;
    SAME(WRITES, call_field_write(&p, lend(80)), refused(9, 1, 0));
}

/* What reads, in the mode that is being tried. */
static void try_mode(void)
{
    try_empty(lay(UPLOAD, text("")), empty_room);
    try_empty((struct bytes){NULL, 0}, null_room);
    every_room_slots();
    try_names();
    try_capitals();
    try_highs();
    try_whys();
    try_ends();
    try_salvages();
    try_rooms();
    try_binds();
    if (mode != PRESENT)
        try_types();
    refused_symbols();
    refused_fields();
    other_statuses();
}

void try_edges(void)
{
    draft_rich();
    for (side = 0; side < SIDES; side++) {
        for (mode = 0; mode < MODES; mode++)
            try_mode();
        mode = PRESENT;
        every_room_records();
        every_room_entries();
        every_room_texts();
        try_counted();
        try_sheets();
        try_all_words();
        try_neighbours();
        long_records();
        long_strings();
        long_counts();
        long_guids();
    }
    side = AT_END;
    try_room_lengths(); /* two million of them, and so behind all in which most wrong versions are found */
}

/* ---- 16,777,216 bytes, and one more ---- */

static struct told at_limit(size_t len, struct told told)
{
    return len > VINDASKOT_LIMIT ? refused(5, VINDASKOT_LIMIT, len) : told;
}

/* An entry, or a record, at the start of so many bytes. Where it is an entry it claims all of them. */
static struct bytes grown(const struct buffer *from, size_t len, bool claims)
{
    uint8_t *at = area(UPLOAD, len);
    memset(at, 0, len);
    memcpy(at, from->at, from->len);
    for (size_t i = 0; claims && i < 4; i++)
        at[i] = (uint8_t)(len >> 8 * i);
    return (struct bytes){at, len};
}

static void limit_symbol(size_t len)
{
    static struct buffer entry;
    entry.len = 0;
    put_symbol(&entry, &rich.parts);
    struct bytes b = grown(&entry, len, true);
    struct told read = call_symbol_read(b);
    SAME(LIMITS, read, at_limit(len, model_symbol_read(b)));
    CHECK(LIMITS, len > VINDASKOT_LIMIT || read.slots[VINDASKOT_SYMBOL_UNREAD] == len - entry.len, "unread %llu",
          (unsigned long long)read.slots[VINDASKOT_SYMBOL_UNREAD]);
    SAME(LIMITS, call_symbol_attribute(b, 1), at_limit(len, model_symbol_attribute(b, 1)));
    SAME(LIMITS, call_symbol_refactor_info(b, 1), at_limit(len, model_symbol_refactor_info(b, 1)));
    SAME(LIMITS, call_symbol_why(b), at_limit(len, model_symbol_why(b)));
    struct bytes name = lay(NAME, rich.names[1]);
    SAME(LIMITS, call_symbol_attribute_named(b, name), at_limit(len, model_symbol_attribute_named(b, name)));
    SAME(LIMITS, call_symbol_attribute_named(b, letters(NAME, len)), at_limit(len, refused(13, 0, 0)));
    SAME(LIMITS, call_symbol_step(b, 0), moved(at_limit(len, read), len));
    SAME(LIMITS, call_symbol_step(b, len - 1), moved(at_limit(len, refused(2, len + 3, len)), len));
    SAME(LIMITS, call_symbol_step(b, len), finished(len, 0));
    SAME(LIMITS, call_walk(b, SIZE_MAX, 0), finished(len, 1));
    SAME(LIMITS, call_walk(b, 0, 0), out_of_steps(0, 0));
    SAME(LIMITS, call_walk(b, 1, len), finished(len, 0));
}

static void limit_field(size_t len)
{
    static struct buffer entry;
    struct parts p = rich.parts;
    p.flags = VINDASKOT_TYPE_FLAG_TYPE_GUID | VINDASKOT_TYPE_FLAG_ATTRIBUTES;
    entry.len = 0;
    put_field(&entry, &p);
    struct bytes b = grown(&entry, len, true);
    struct told read = call_field_read(b);
    SAME(LIMITS, read, at_limit(len, model_field_read(b)));
    SAME(LIMITS, call_field_attribute(b, 1), at_limit(len, model_field_attribute(b, 1)));
    struct bytes name = lay(NAME, rich.names[1]);
    SAME(LIMITS, call_field_attribute_named(b, name), at_limit(len, model_field_attribute_named(b, name)));
    SAME(LIMITS, call_field_attribute_named(b, letters(NAME, len)), at_limit(len, refused(13, 0, 0)));
    SAME(LIMITS, call_field_step(b, 0), moved(at_limit(len, read), len));
    SAME(LIMITS, call_field_step(b, len), finished(len, 0));
}

static void limit_records(size_t len)
{
    static struct buffer record;
    record.len = 0;
    put_attribute(&record, rich.names[0], rich.values[0]);
    struct bytes b = grown(&record, len, false);
    SAME(LIMITS, call_attribute_read(b), at_limit(len, model_attribute_read(b)));
    SAME(LIMITS, call_symbol_flags_read(b), at_limit(len, refused(1, 2, len)));
    SAME(LIMITS, call_symbol2_flags_read(b), at_limit(len, refused(1, 4, len)));
    SAME(LIMITS, call_type_flags_read(b), at_limit(len, refused(1, 4, len)));
    size_t count = len / 7;
    b = empty_records(UPLOAD, count, 7, len);
    SAME(LIMITS, call_refactor_read(b), at_limit(len, refactor_told(NEXT_BIT, 6, 0)));
    SAME(LIMITS, call_chain_read(b), at_limit(len, done(count, 7 * count)));
    SAME(LIMITS, call_chain_record(b, count - 1), at_limit(len, refactor_told(0, 7 * count - 1, 0)));
    SAME(LIMITS, call_chain_record(b, count), at_limit(len, refused(14, count, count)));
}

/* Entries of 33 bytes, of which the last has a name and what is left. */
static struct bytes many_entries(size_t len, size_t count)
{
    uint8_t *at = area(UPLOAD, len), *last = at + 33 * (count - 1);
    memset(at, 0, len);
    for (size_t i = 0; i < count; i++)
        at[33 * i] = 33;
    last[0] = (uint8_t)(len - 33 * (count - 1));
    last[24] = 1;
    last[30] = 'Z';
    return (struct bytes){at, len};
}

static void limit_finds(size_t len)
{
    size_t count = len / 33, last = 33 * (count - 1);
    struct bytes b = many_entries(len, count), name = lay(NAME, text("Z"));
    struct room slots = lend(4 * count);
    SAME(LIMITS, call_walk(b, SIZE_MAX, 0), finished(len, len > VINDASKOT_LIMIT ? 1 : count));
    SAME(LIMITS, call_find(b, name), at_limit(len, done(last, 0)));
    SAME(LIMITS, call_index_build(b, slots), at_limit(len, done(count, 0)));
    struct bytes index = lay(SLOTS, (struct bytes){slots.at, slots.len});
    SAME(LIMITS, call_find_indexed(b, index, name), at_limit(len, done(last, 0)));
    SAME(LIMITS, call_index_build(b, lend(4 * count - 4)), at_limit(len, refused(6, count, count - 1)));
    b = lay(UPLOAD, (struct bytes){one_symbol, sizeof one_symbol});
    SAME(LIMITS, call_find(b, letters(NAME, len)), refused(13, 0, 0));
    SAME(LIMITS, call_find_indexed(b, part(index, 0, 4), letters(NAME, len)), refused(13, 0, 0));
    SAME(LIMITS, call_symbol_attribute_named(b, letters(NAME, len)), refused(13, 0, 0));
    SAME(LIMITS, call_field_attribute_named(claiming(45, 45), letters(NAME, len)), refused(13, 0, 0));
}

static void limit_texts(size_t len)
{
    uint8_t *at = area(UPLOAD, len);
    struct bytes b = {at, len};
    memset(at, 0x80, len);
    SAME(LIMITS, call_decode(b, lend(3 * len - 1)), at_limit(len, refused(6, 3 * len, 3 * len - 1)));
    SAME(LIMITS, call_decode(b, lend(3 * len)), at_limit(len, done(3 * len, 0)));
    SAME(LIMITS, call_encode(b, lend(3)), at_limit(len, refused(11, 0, 1)));
    for (size_t i = 0; i + 3 <= len; i += 3)
        memcpy(at + i, "\xE2\x82\xAC", 3);
    memset(at + len - len % 3, 'a', len % 3);
    size_t needed = len / 3 + len % 3;
    SAME(LIMITS, call_encode(b, lend(needed - 1)), at_limit(len, refused(6, needed, needed - 1)));
    SAME(LIMITS, call_encode(b, lend(needed)), at_limit(len, done(needed, 0)));
    memset(at, 'a', len);
    SAME(LIMITS, call_decode(b, lend(len)), at_limit(len, done(len, 0)));
    SAME(LIMITS, call_encode(b, lend(len)), at_limit(len, done(len, 0)));
}

/* A block of refactor records of so many bytes: as many as the longest name allows, and one with what is left. */
static struct bytes long_chain(size_t len, size_t *count)
{
    uint8_t *at = area(CHAIN, len);
    memset(at, 0, len);
    *count = 0;
    for (size_t i = 0; i < len; ++*count) {
        size_t left = len - i, width = left < 65542 ? left : 65542;
        if (left > width && left < width + 7)
            width -= 7;
        at[i + 3] = width < left;
        at[i + 4] = (uint8_t)(width - 7);
        at[i + 5] = (uint8_t)((width - 7) >> 8);
        i += width;
    }
    return (struct bytes){at, len};
}

/* An end byte that is not 0 at the last place that there is: of a chain by itself, and of a symbol's. */
static void limit_ends(size_t len)
{
    struct parts p = laid(&chained);
    uint8_t *at = area(UPLOAD, len);
    struct bytes b = lay(UPLOAD, long_chain(len, &p.links));
    at[len - 1] = 0xFF;
    SAME(LIMITS, call_chain_read(b), at_limit(len, mode == CHECKED ? refused(16, len - 1, 0xFF) : done(p.links, len)));
    static struct buffer entry;
    entry.len = 0;
    put_symbol(&entry, &(struct parts){.flags = chained.flags, .extended = chained.extended});
    struct bytes chain = long_chain(len - 37, &p.links);
    b = grown(&entry, len, true);
    memcpy(at + 37, chain.at, chain.len);
    struct told sound = call_symbol_read(b);
    at[len - 1] = 0xFF;
    struct told want = at_limit(len, mode == CHECKED ? refused(16, len - 1, 0xFF) : sound);
    SAME(LIMITS, call_symbol_read(b), want);
    SAME(LIMITS, call_symbol_step(b, 0), moved(want, len));
}

static void limit_writes(size_t len)
{
    struct parts p = laid(&chained);
    p.chain = long_chain(len - 37, &p.links);
    SAME(LIMITS, call_symbol_write(&p, lend(len)), at_limit(len, done(len, 0)));
    SAME(LIMITS, call_symbol_write(&p, lend(len - 1)), at_limit(len, refused(6, len, len - 1)));
    struct bytes chain = long_chain(len - 2, &p.links);
    SAME(LIMITS, call_refactor_block_write(p.links, chain, lend(len)), at_limit(len, done(len, 0)));
    SAME(LIMITS, call_refactor_block_write(p.links, chain, lend(len - 1)), at_limit(len, refused(6, len, len - 1)));
    p = laid(&(struct parts){.flags = VINDASKOT_TYPE_FLAG_COPY_MASK, .numbers = {0, 0, 0, (uint32_t)(len - 45)}});
    SAME(LIMITS, call_field_write(&p, lend(len)), at_limit(len, done(len, 0)));
    SAME(LIMITS, call_field_write(&p, lend(len - 1)), at_limit(len, refused(6, len, len - 1)));
    p.numbers[3] = UINT32_MAX;
    SAME(LIMITS, call_field_write(&p, lend(9)), refused(5, VINDASKOT_LIMIT, 45 + (uint64_t)UINT32_MAX));
    p.name = letters(NAME, len);
    SAME(LIMITS, call_field_write(&p, lend(9)), refused(7, 65535, len));
    SAME(LIMITS, call_symbol_write(&p, lend(9)), refused(7, 65535, len));
    SAME(LIMITS, call_attribute_write(p.name, p.name, lend(9)), refused(7, 255, len));
    SAME(LIMITS, call_refactor_write(0, false, p.name, lend(9)), refused(7, 65535, len));
    p.guid = letters(GUID, len);
    SAME(LIMITS, call_field_write(&p, lend(9)), refused(1, 16, len));
    SAME(LIMITS, call_symbol_write(&p, lend(9)), refused(1, 16, len));
}

void try_limits(void)
{
    for (side = 0; side < SIDES; side++)
        for (size_t len = VINDASKOT_LIMIT; len <= VINDASKOT_LIMIT + 1; len++) {
            for (mode = 0; mode < MODES; mode++) {
                limit_symbol(len);
                limit_field(len);
                limit_records(len);
                limit_finds(len);
                limit_ends(len);
                try_salvage_limit(len);
                try_room_limit(len);
                if (mode == PRESENT)
                    continue;
                try_type_limit(len);
                try_name_limit(len);
                try_bind_limit(len);
            }
            mode = PRESENT;
            try_line_limit(len);
            try_plain_limit(len);
            limit_texts(len);
            try_sheet_limit(len);
            limit_writes(len);
        }
    try_type_depths();
}
