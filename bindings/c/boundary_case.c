/* Symbols by names in capitals and in small letters. What is expected stands here in the words of docs/FORMAT.md, "Finding", and
 * does not come from the model. */
#include <stdio.h>

#include "boundary.h"

enum { LONGEST = 50, HEADER = 30 };

/* "A to Z equal a to z": a letter in the other case. "Every other byte still equals only itself": it has no other. */
static uint8_t other_case(uint8_t x)
{
    bool capital = x >= 'A' && x <= 'Z', small = x >= 'a' && x <= 'z';
    return (uint8_t)(capital ? x + 32 : small ? x - 32 : x);
}

static bool same_letter(uint8_t x, uint8_t y)
{
    return y == x || y == other_case(x);
}

/* A name in the other case, letter by letter, which the caller may change. */
static struct room in_other_case(struct bytes name)
{
    static uint8_t at[BUFFER];
    for (size_t i = 0; i < name.len; i++)
        at[i] = other_case(name.at[i]);
    return (struct room){at, name.len};
}

/* ---- Asking ---- */

static struct buffer made;

/* One more entry: where it starts. Its type follows its name at once, so that a look past the name is seen. */
static size_t put_named(struct bytes name)
{
    size_t start = made.len;
    put_symbol(&made, &(struct parts){.name = name, .type_name = text("INT")});
    return start;
}

static struct bytes only(struct bytes name)
{
    made.len = 0;
    put_named(name);
    return lay(UPLOAD, whole(&made));
}

static struct told there(size_t start)
{
    return done(start, 0);
}

static struct told nowhere(void)
{
    return refused(13, 0, 0);
}

/* The first bytes of a name, for what a failed check says. */
static const char *shown(struct bytes name)
{
    static char at[3 * LONGEST + 1];
    at[0] = '\0';
    for (size_t i = 0; i < name.len && i < LONGEST; i++)
        snprintf(at + 3 * i, 4, " %02X", name.at[i]);
    return at;
}

static void hold(struct told got, struct told want, struct bytes name)
{
    CHECK(CAPITALS, got.status == want.status && got.answer[0] == want.answer[0] && got.answer[1] == want.answer[1],
          "%s: status %u (%llu, %llu), expected status %u (%llu, %llu); asked %zu bytes,%s", name_of(got.function),
          (unsigned)got.status, (unsigned long long)got.answer[0], (unsigned long long)got.answer[1],
          (unsigned)want.status, (unsigned long long)want.answer[0], (unsigned long long)want.answer[1], name.len,
          shown(name));
}

static void ask_plain(struct bytes b, struct bytes name, struct told want)
{
    hold(call_find(b, lay(NAME, name)), want, name);
}

static void ask_indexed(struct bytes b, const uint32_t *slots, size_t count, struct bytes name, struct told want)
{
    struct bytes index = lay(SLOTS, (struct bytes){(const uint8_t *)slots, 4 * count});
    hold(call_find_indexed(b, index, lay(NAME, name)), want, name);
}

static const uint32_t only_slot = 0;

/* An upload of one entry, with and without an index. */
static void ask_only(struct bytes b, struct bytes name, bool found)
{
    struct told want = found ? there(0) : nowhere();
    ask_plain(b, name, want);
    ask_indexed(b, &only_slot, 1, name, want);
}

/* The same one way on each side, where there are very many. */
static void ask_one_way(struct bytes b, bool indexed, struct bytes name, bool found)
{
    struct told want = found ? there(0) : nowhere();
    if (indexed)
        ask_indexed(b, &only_slot, 1, name, want);
    else
        ask_plain(b, name, want);
}

/* ---- All pairs of bytes ---- */

static void every_pair(void)
{
    for (unsigned x = 0; x < 256; x++) {
        uint8_t own = (uint8_t)x;
        struct bytes b = only((struct bytes){&own, 1});
        for (unsigned y = 0; y < 256; y++) {
            uint8_t asked = (uint8_t)y;
            ask_one_way(b, side == AT_END, (struct bytes){&asked, 1}, same_letter(own, asked));
        }
    }
}

/* Bytes at the ends of each range, with the high bit and without: a sum that runs over into the byte beside it is
 * seen. */
static const uint8_t telling[] = {'A', 0xFF, 'z', 0x00, 'Z', 0x80, 'a', 0x7F, '@',
                                  0xDA, '[', 0xC1, '`', 0xE1, '{', 'm', 0xFA};

/* The same within names of 16 bytes and more, which are compared block by block. */
static void every_pair_within(void)
{
    uint8_t name[LONGEST];
    for (unsigned x = 0; x < 256; x++) {
        size_t len = 16 + x % 34, place = 7 * x % len;
        for (size_t i = 0; i < len; i++)
            name[i] = telling[(x + i) % sizeof telling];
        name[place] = (uint8_t)x;
        struct bytes b = only((struct bytes){name, len});
        struct room asked = in_other_case((struct bytes){name, len});
        for (unsigned y = 0; y < 256; y++) {
            asked.at[place] = (uint8_t)y;
            ask_one_way(b, side == AT_START, (struct bytes){asked.at, len}, same_letter((uint8_t)x, (uint8_t)y));
        }
    }
}

/* ---- Every length, every place ---- */

/* The name in the other case, with each bit of each byte changed: still found only where that is the case of a
 * letter. */
static void every_place(struct bytes b, struct bytes name)
{
    struct room asked = in_other_case(name);
    for (size_t i = 0; i < name.len; i++)
        for (unsigned bit = 0; bit < 8; bit++) {
            uint8_t right = asked.at[i];
            asked.at[i] ^= (uint8_t)(1u << bit);
            ask_only(b, (struct bytes){asked.at, asked.len}, same_letter(name.at[i], asked.at[i]));
            asked.at[i] = right;
        }
}

/* Letters of both cases and bytes that are none, which stand elsewhere in a name of another length. */
static struct bytes mixed(size_t len)
{
    static const char pattern[] = "MAIN.stLens[7]_\xC4rger\xFCZz@`{Qq\xD7\xF7";
    static uint8_t name[BUFFER];
    for (size_t i = 0; i < len; i++)
        name[i] = (uint8_t)pattern[(i + len) % (sizeof pattern - 1)];
    return (struct bytes){name, len};
}

static void every_length(void)
{
    for (size_t len = 0; len <= LONGEST; len++) {
        struct bytes own = mixed(len), b = only(own);
        ask_only(b, own, true);
        every_place(b, own);
        struct room other = in_other_case(own);
        struct bytes asked = {other.at, len};
        ask_only(b, asked, true);
        /* A byte more, which is the end byte as the entry has it; a byte less, at either end. */
        other.at[len] = 0;
        ask_only(b, (struct bytes){asked.at, len + 1}, false);
        if (len > 0) {
            ask_only(b, part(asked, 0, len - 1), false);
            ask_only(b, part(asked, 1, len - 1), false);
        }
    }
}

/* Names longer than a few blocks, where a place of each block could be passed over: each place with one bit changed,
 * that of the case where the byte is no letter. */
static void every_place_of_long(void)
{
    static const size_t lengths[] = {63, 64, 65, 127, 128, 129, 255, 256, 257};
    static const uint8_t bits[] = {0x01, 0x80, 0x02, 0x40, 0x04, 0x10, 0x08};
    for (size_t k = 0; k < sizeof lengths / sizeof *lengths; k++) {
        struct bytes own = mixed(lengths[k]), b = only(own);
        struct room asked = in_other_case(own);
        ask_only(b, (struct bytes){asked.at, asked.len}, true);
        for (size_t i = 0; i < own.len; i++) {
            uint8_t right = asked.at[i], bit = other_case(right) == right ? 0x20 : bits[i % sizeof bits];
            asked.at[i] ^= bit;
            ask_one_way(b, side == AT_END, (struct bytes){asked.at, asked.len}, false);
            asked.at[i] = right;
        }
    }
}

/* Bytes that differ in bit 5 as the cases of a letter do, and are none of A to Z: beside the letters, accented,
 * others. */
static const uint8_t no_letters[] = {0x40, 0x60, 0x5B, 0x7B, 0xC4, 0xE4, 0x00, 0x20, 0x10, 0x30,
                                     0x5F, 0x7F, 0xC0, 0xE0, 0xC1, 0xE1, 0xDA, 0xFA, 0xDE, 0xFE};

static void near_at(size_t len, size_t place, uint8_t x)
{
    uint8_t name[LONGEST];
    memset(name, 'k', len);
    name[place] = x;
    struct bytes b = only((struct bytes){name, len});
    struct room asked = in_other_case((struct bytes){name, len});
    ask_only(b, (struct bytes){asked.at, len}, true);
    asked.at[place] ^= 0x20;
    ask_only(b, (struct bytes){asked.at, len}, false);
}

static void near_letters(void)
{
    static const size_t lengths[] = {1, 15, 16, 17, 31, 32, 33, 47, 48, 49};
    for (size_t i = 0; i < sizeof lengths / sizeof *lengths; i++)
        for (size_t k = 0; k < sizeof no_letters; k++) {
            size_t len = lengths[i], places[] = {0, len / 2, len > 16 ? len - 17 : 0, len > 16 ? 16 : 0, len - 1};
            for (size_t p = 0; p < sizeof places / sizeof *places; p++)
                near_at(len, places[p], no_letters[k]);
        }
}

static uint8_t letters[65536 + 17];

static struct bytes all_of(uint8_t letter, size_t len)
{
    memset(letters, letter, len);
    return (struct bytes){letters, len};
}

/* A name about as long as a buffer holds, other in its first, its last and another byte. */
static void long_name(void)
{
    enum { LONG = 60000 };
    static const size_t places[] = {0, 29993, LONG - 1};
    struct bytes b = only(all_of('n', LONG)), asked = all_of('N', LONG);
    ask_only(b, asked, true);
    for (size_t i = 0; i < sizeof places / sizeof *places; i++) {
        letters[places[i]] = 'M';
        ask_only(b, asked, false);
        letters[places[i]] = 'N';
    }
}

/* Names asked whose length is the entry's in its last byte, or in its last two, alone: longer than the entry's, and
 * shorter, which begin it. An entry's length has two bytes. */
static void longer_names(void)
{
    static const size_t lengths[] = {0, 15, 16, 17}, more[] = {256, 65280};
    for (size_t i = 0; i < sizeof lengths / sizeof *lengths; i++) {
        size_t len = lengths[i];
        struct bytes b = only(all_of('n', len));
        ask_only(b, all_of('N', len), true);
        ask_only(b, all_of('N', 256 + len), false);
        ask_only(b, all_of('N', 65536 + len), false);
        for (size_t k = 0; k < sizeof more / sizeof *more; k++) {
            b = only(all_of('n', more[k] + len));
            ask_only(b, all_of('N', more[k] + len), true);
            ask_only(b, all_of('N', len), false);
        }
    }
}

/* ---- Of several the first ---- */

/* Three entries, and what comes first of them in the upload and in slots of any order. */
static void first_of(const char *const names[3])
{
    uint32_t at[3];
    made.len = 0;
    put_named(text("MAIN.none"));
    for (size_t i = 0; i < 3; i++)
        at[i] = (uint32_t)put_named(text(names[i]));
    struct bytes b = lay(UPLOAD, whole(&made));
    const uint32_t orders[][4] = {
        {0, at[0], at[1], at[2]}, {0, at[2], at[1], at[0]}, {at[1], at[0], 0, at[2]}, {at[2], 0, 0, at[2]}};
    const uint32_t first[] = {at[0], at[2], at[1], at[2]};
    for (size_t i = 0; i < 3; i++) {
        ask_plain(b, text(names[i]), there(at[0]));
        for (size_t k = 0; k < sizeof first / sizeof *first; k++)
            ask_indexed(b, orders[k], 4, text(names[i]), there(first[k]));
    }
}

static void try_first(void)
{
    first_of((const char *const[]){"MAIN.stLens", "MAIN.STLENS", "main.stlens"});
    first_of((const char *const[]){"MAIN.STLENS", "main.stlens", "MAIN.stLens"});
    first_of((const char *const[]){"MAIN.stJib.fSwing", "MAIN.STJIB.FSWING", "main.stjib.fswing"});
    first_of((const char *const[]){"a", "A", "a"});
    first_of((const char *const[]){"MAIN.stLens.aTable[\xC4].fZoom", "main.STLENS.aTable[\xC4].fZoom",
                                   "MAIN.stLens.aTable[\xC4].FZOOM"});
}

/* ---- Entries that have the name and are refused ---- */

static void set_claim(size_t start, size_t claim)
{
    for (size_t i = 0; i < 4; i++)
        made.at[start + i] = (uint8_t)(claim >> 8 * i);
}

/* An entry of the very name asked that claims fewer bytes than it needs, and behind these one in the other case. Asked
 * for is also what stands in the first one's place for a name, which may run over into the second. */
static void behind_refused(struct bytes name)
{
    size_t whole_entry = HEADER + name.len + 6;
    for (size_t claim = 4; claim <= whole_entry; claim++) {
        bool accepted = claim == whole_entry;
        struct room other = in_other_case(name);
        made.len = 0;
        put_named(name);
        made.len = claim;
        set_claim(0, claim);
        uint32_t next = (uint32_t)put_named((struct bytes){other.at, other.len});
        const uint32_t slots[] = {0, next, 0};
        struct bytes b = lay(UPLOAD, whole(&made)), standing = part(b, HEADER, name.len);
        ask_plain(b, name, there(accepted ? 0 : next));
        ask_plain(b, standing, !equal(standing, name) ? nowhere() : there(accepted ? 0 : next));
        ask_indexed(b, slots, 2, name, there(accepted ? 0 : next));
        ask_indexed(b, slots, 1, standing, accepted ? there(0) : nowhere());
        ask_indexed(b, slots + 1, 2, name, there(next));
        ask_indexed(b, slots, 1, name, accepted ? there(0) : nowhere());
    }
}

/* Strings that leave the entry by one byte or by far, in each of the three lengths; of the first, the name is then
 * another. */
static void strings_that_leave(struct bytes name)
{
    for (size_t i = 0; i < 6; i++) {
        size_t length = 24 + i / 2 * 2;
        made.len = 0;
        put_named(name);
        made.at[length] = (uint8_t)(i % 2 == 0 ? made.at[length] + 1 : 0xFF);
        made.at[length + 1] = (uint8_t)(i % 2 == 0 ? 0 : 0xFF);
        struct room other = in_other_case(name);
        uint32_t next = (uint32_t)put_named((struct bytes){other.at, other.len});
        const uint32_t slots[] = {0, next};
        struct bytes b = lay(UPLOAD, whole(&made));
        ask_plain(b, name, there(next));
        ask_indexed(b, slots, 2, name, there(next));
        ask_indexed(b, slots, 1, name, nowhere());
    }
}

/* At the end of an upload as much of an entry as is left of it, with its claim, which leaves the upload, or with what
 * is left as its claim. */
static void cut_at_the_end(struct bytes name, bool claims_all)
{
    made.len = 0;
    const uint32_t last = (uint32_t)put_named(text("MAIN.none")) + HEADER + 9 + 6, slots[] = {last, 0};
    size_t whole_entry = HEADER + name.len + 6;
    for (size_t left = 0; left <= whole_entry; left++) {
        bool accepted = left == whole_entry;
        made.len = last;
        put_named(name);
        if (!claims_all)
            set_claim(last, left);
        made.len = last + left;
        struct bytes b = lay(UPLOAD, whole(&made));
        ask_plain(b, name, accepted ? there(last) : nowhere());
        ask_indexed(b, slots, 2, name, accepted ? there(last) : nowhere());
        ask_indexed(b, slots, 2, text("main.NONE"), there(0));
    }
}

/* A slot may hold any number: each one from the start of an upload to past its end, and the largest. */
static void slots_anywhere(struct bytes name)
{
    made.len = 0;
    uint32_t first = (uint32_t)put_named(text("MAIN.none")), second = (uint32_t)put_named(name);
    struct bytes b = lay(UPLOAD, whole(&made));
    for (uint32_t i = 0; i < b.len + 140; i++) {
        uint32_t any_slot = i < b.len + 70 ? i : UINT32_MAX - (i - (uint32_t)b.len - 70);
        const uint32_t slots[] = {any_slot, second, first};
        struct room other = in_other_case(name);
        ask_indexed(b, slots, 3, (struct bytes){other.at, other.len}, there(second));
        ask_indexed(b, slots, 1, (struct bytes){other.at, other.len}, any_slot == second ? there(second) : nowhere());
    }
}

/* Entries, a claim of 0, which is four bytes or an entry of the very name, and behind it the name in the other case and
 * a name that is nowhere else. The walk comes as far as the claim, a slot leads behind it. */
static void around_a_zero_claim(struct bytes name, bool bare)
{
    struct room room = in_other_case(name);
    const struct bytes other = {room.at, room.len}, none = text("main.NONE"), behind = text("MAIN.stBehind");
    made.len = 0;
    put_named(text("MAIN.none"));
    const uint32_t before = (uint32_t)put_named(name), zero = (uint32_t)made.len;
    if (bare)
        put_number(&made, 0, 4);
    else
        set_claim(put_named(name), 0);
    const uint32_t again = (uint32_t)put_named(other), last = (uint32_t)put_named(behind);
    const uint32_t slots[] = {0, before, zero, again, last};
    struct bytes b = lay(UPLOAD, whole(&made)), asked[] = {name, other};
    ask_plain(b, none, there(0));
    ask_indexed(b, slots, 5, none, there(0));
    for (size_t i = 0; i < 2; i++) {
        ask_plain(b, asked[i], there(before));
        ask_plain(part(b, zero, b.len - zero), asked[i], refused(10, 1, 0));
        ask_indexed(b, slots, 5, asked[i], there(before));
        ask_indexed(b, slots + 2, 3, asked[i], there(again));
        ask_indexed(b, slots + 2, 1, asked[i], nowhere());
    }
    ask_plain(b, behind, refused(10, 1, 0));
    ask_plain(b, text("main.STBEHIND"), refused(10, 1, 0));
    ask_indexed(b, slots, 5, behind, there(last));
    ask_indexed(b, slots, 5, text("main.STBEHIND"), there(last));
    ask_indexed(b, slots, 4, behind, nowhere());
}

static void try_refused(void)
{
    static const char *const names[] = {"MAIN.stLens", "MAIN.stLens.aTab", "MAIN.stPedestal.fHeight[12].aTable"};
    for (size_t i = 0; i < sizeof names / sizeof *names; i++) {
        behind_refused(text(names[i]));
        strings_that_leave(text(names[i]));
        cut_at_the_end(text(names[i]), true);
        cut_at_the_end(text(names[i]), false);
        slots_anywhere(text(names[i]));
        around_a_zero_claim(text(names[i]), true);
        around_a_zero_claim(text(names[i]), false);
    }
}

/* ---- Attributes ---- */

/* An attribute's name is its very bytes: in the other case it is another, unless it has no letter. */
static void attribute_of(struct bytes name)
{
    static struct buffer block;
    struct parts p = {.flags = VINDASKOT_SYMBOL_FLAG_ATTRIBUTES, .count = 1};
    struct room other = in_other_case(name);
    struct bytes asked = {other.at, other.len};
    bool same = equal(asked, name);
    block.len = made.len = 0;
    put_attribute(&block, name, text("v"));
    p.block = whole(&block);
    put_symbol(&made, &p);
    struct bytes b = lay(UPLOAD, whole(&made));
    SAME(CAPITALS, call_symbol_attribute_named(b, lay(NAME, name)), call_symbol_attribute(b, 0));
    SAME(CAPITALS, call_symbol_attribute_named(b, lay(NAME, asked)), same ? call_symbol_attribute(b, 0) : nowhere());
    p.flags = VINDASKOT_TYPE_FLAG_ATTRIBUTES;
    made.len = 0;
    put_field(&made, &p);
    b = lay(UPLOAD, whole(&made));
    SAME(CAPITALS, call_field_attribute_named(b, lay(NAME, name)), call_field_attribute(b, 0));
    SAME(CAPITALS, call_field_attribute_named(b, lay(NAME, asked)), same ? call_field_attribute(b, 0) : nowhere());
}

static void try_attributes(void)
{
    uint8_t name[LONGEST];
    for (unsigned x = 0; x < 256; x++) {
        name[0] = (uint8_t)x;
        attribute_of((struct bytes){name, 1});
    }
    for (size_t len = 0; len <= LONGEST; len++) {
        for (size_t i = 0; i < len; i++)
            name[i] = (uint8_t)(i + 1 < len ? '0' + i % 10 : 'Q');
        attribute_of((struct bytes){name, len});
    }
}

void try_capitals(void)
{
    every_pair();
    every_pair_within();
    every_length();
    every_place_of_long();
    near_letters();
    long_name();
    longer_names();
    try_first();
    try_refused();
    try_attributes();
}
