/* What is kept of a damaged upload, and what is dropped. What is expected of an edge stands here in the words of
 * docs/FORMAT.md, "Salvage", and does not come from the model; a random case is held to the model and to those words. */
#include "boundary.h"

enum { HEADER = 30, LEAST = 33, MOST = 8192, RUN = VINDASKOT_RUN_SLOTS };

/* What an upload has to be made into: the bytes that are kept, and so many slots of dropped runs. */
struct salvaged {
    struct bytes kept;
    const uint32_t *runs;
    size_t slots;
};

static void set_run(uint32_t *slots, size_t start, size_t len, uint32_t number)
{
    slots[VINDASKOT_RUN_START] = (uint32_t)start;
    slots[VINDASKOT_RUN_LENGTH] = (uint32_t)len;
    slots[VINDASKOT_RUN_NUMBER] = number;
}

/* ---- What holds of every upload ---- */

/* What was lent, and what a call told of it. */
struct made {
    struct room out, runs;
    struct told told;
};

static const uint32_t *slots_of(struct made made)
{
    return (const uint32_t *)(const void *)made.runs.at;
}

/* "Refusals: 5, then 6 for the upload, then 6 for the list", the first counting bytes and the other slots. */
static struct made salvage(struct bytes b, struct salvaged want, size_t bytes, size_t slots)
{
    struct made made = {.out = lend(bytes), .runs = lend_runs(slots)};
    bool too_few_bytes = bytes < want.kept.len, too_few_slots = slots < want.slots;
    made.told = call_salvage(b, made.out, made.runs);
    if (too_few_bytes || too_few_slots) {
        SAME(SALVAGES_SHORT_OF, made.told,
             too_few_bytes ? refused(6, want.kept.len, bytes) : refused(6, want.slots, slots));
        return made;
    }
    SAME(SALVAGES, made.told, done(want.kept.len, want.slots));
    CHECK(SALVAGES, equal((struct bytes){made.out.at, want.kept.len}, want.kept), "%s kept other bytes",
          name_of(made.told.function));
    CHECK(SALVAGES, want.slots == 0 || memcmp(made.runs.at, want.runs, 4 * want.slots) == 0, "%s dropped other runs",
          name_of(made.told.function));
    return made;
}

/* Why a step at that place is refused, as far as its first bytes tell; what number and length its run then has. */
static enum group kind_of(struct bytes left, uint32_t told, uint32_t *number, size_t *len)
{
    uint64_t claim = left.len < 4 ? 0 : number_at(left, 0, 4);
    bool within = left.len >= 4 && claim > 0 && claim <= left.len;
    *len = within ? (size_t)claim : left.len;
    if (within) {
        *number = claim < HEADER ? 2 : told == 16 && mode == CHECKED ? 16 : 3;
        return *number == 2 ? RUNS_SHORT : *number == 3 ? RUNS_STRINGS : RUNS_ENDS;
    }
    *number = left.len < 4 ? 2 : claim == 0 ? 10 : 3;
    return *number == 2 ? RUNS_TAIL : *number == 3 ? RUNS_BEYOND : RUNS_ZERO;
}

/* "one for each refused step". A step from where the run starts is refused with its number and leads to its end;
 * at a zero claim it stands. */
static void check_run(struct bytes b, size_t start, size_t len, uint32_t number, bool adjacent)
{
    uint32_t wanted;
    size_t length;
    enum group group = kind_of(part(b, start, b.len - start), number, &wanted, &length);
    CHECK(group, number == wanted && len == length, "a run at %zu, %zu bytes under %u, expected %zu under %u", start,
          len, (unsigned)number, length, (unsigned)wanted);
    struct told step = call_symbol_step(b, start);
    bool stands = number == 10;
    CHECK(adjacent ? RUNS_ADJACENT : SALVAGES_COVER,
          step.status == (stands ? 2 : number) && step.cursor == (stands ? start : start + len),
          "a run at %zu, %zu bytes under %u, where a step is refused with %u and leads to %zu", start, len,
          (unsigned)number, (unsigned)step.status, step.cursor);
}

/* "The runs and the copied entries cover the damaged upload exactly, without overlap". No upload has more runs
 * than a fourth of its bytes and one: behind a claim of 1, 2 or 3 stand the zeros of its other bytes, so that what is
 * claimed there is at least 256, or 0 and then the run goes to the end. */
static void check_cover(struct bytes b, struct bytes kept, const uint32_t *runs, size_t slots)
{
    size_t at = 0, copied = 0;
    bool covers = slots % RUN == 0 && slots / RUN <= b.len / 4 + 1;
    for (size_t i = 0; covers && i < slots; i += RUN) {
        size_t start = runs[i + VINDASKOT_RUN_START], len = runs[i + VINDASKOT_RUN_LENGTH], before = start - at;
        covers = start >= at && start < b.len && len > 0 && len <= b.len - start && before <= kept.len - copied &&
                 equal(part(b, at, before), part(kept, copied, before));
        if (covers)
            check_run(b, start, len, runs[i + VINDASKOT_RUN_NUMBER], i > 0 && before == 0);
        copied += before;
        at = start + len;
    }
    CHECK(SALVAGES_COVER,
          covers && b.len - at == kept.len - copied &&
              equal(part(b, at, b.len - at), part(kept, copied, kept.len - copied)),
          "%zu bytes kept and %zu runs are not the upload of %zu bytes", kept.len, slots / RUN, b.len);
    if (slots == 0)
        CHECK(RUNS_NONE, equal(kept, b), "nothing is dropped, and not everything is kept");
}

/* "the walk over the result gives no refusal"; "A second salvage drops nothing". */
static void check_again(struct bytes kept)
{
    struct bytes b = lay(COMMENT, kept);
    struct told step = {.status = VINDASKOT_DONE};
    while (step.status == VINDASKOT_DONE)
        step = call_symbol_step(b, step.cursor);
    CHECK(SALVAGES_AGAIN, step.status == VINDASKOT_FINISHED && step.cursor == b.len,
          "what was kept is walked to %zu of %zu, and there is status %u", step.cursor, b.len, (unsigned)step.status);
    struct room out = lend(b.len), none = lend_runs(0);
    struct told told = call_salvage(b, out, none);
    SAME(SALVAGES_AGAIN, told, done(b.len, 0));
    CHECK(SALVAGES_AGAIN, equal((struct bytes){out.at, out.len}, b), "a second salvage keeps other bytes");
}

/* Nothing lent, too little by a byte, by a slot, by a run, by both and by all; more than is needed; an upload's length
 * of bytes, which is always enough; and just enough. */
static void hold(struct bytes b, struct salvaged want)
{
    const size_t bytes = want.kept.len, slots = want.slots, less = bytes - (bytes > 0), fewer = slots - (slots > 0);
    const struct {
        size_t bytes, slots;
    } lent[] = {{0, 0},         {less, slots}, {less, fewer},          {0, slots + 2},
                {bytes, fewer}, {bytes, 0},    {bytes, slots / 2},     {bytes, slots < RUN ? 0 : slots - RUN},
                {b.len, 0},     {less, 0},     {bytes + 7, slots + 5}, {b.len, slots}};
    for (size_t i = 0; i < sizeof lent / sizeof *lent; i++)
        salvage(b, want, lent[i].bytes, lent[i].slots);
    struct made made = salvage(b, want, bytes, slots);
    if (made.told.status != VINDASKOT_DONE || made.told.answer[0] > bytes || made.told.answer[1] > slots)
        return;
    struct bytes kept = {made.out.at, (size_t)made.told.answer[0]};
    check_cover(b, kept, slots_of(made), (size_t)made.told.answer[1]);
    check_again(kept);
}

void try_salvage(struct bytes b)
{
    static uint8_t kept[BUFFER];
    static uint32_t runs[BUFFER];
    struct told told = model_salvage(b, kept, runs);
    hold(b, (struct salvaged){{kept, (size_t)told.answer[0]}, runs, (size_t)told.answer[1]});
}

/* ---- Uploads of pieces, of each of which it is known what becomes of it ---- */

static struct buffer upload, sound;
static uint32_t dropped[MOST];
static size_t slots;

static void begin(void)
{
    upload.len = sound.len = slots = 0;
}

static void keep(struct bytes entry)
{
    put(&upload, entry);
    put(&sound, entry);
}

static void drop(struct bytes piece, uint32_t number)
{
    set_run(dropped + slots, upload.len, piece.len, number);
    slots += RUN;
    put(&upload, piece);
}

static struct salvaged expected(void)
{
    return (struct salvaged){whole(&sound), dropped, slots};
}

static void hold_made(void)
{
    hold(lay(UPLOAD, whole(&upload)), expected());
}

static void set_claim(struct buffer *to, size_t claim)
{
    for (size_t i = 0; i < 4; i++)
        to->at[i] = (uint8_t)(claim >> 8 * i);
}

/* The strings of an entry and of its records, of a length that tells one entry from another. */
static const char strings[] = "MAIN.stLens.fZoomCurve";

static struct bytes string(size_t len)
{
    return (struct bytes){(const uint8_t *)strings, len % (sizeof strings - 1)};
}

/* Where the end bytes of the entry below stand: of name, type and comment, of an attribute's name and value, of a
 * former name. */
enum { ENDS_OF_ENTRY = 6 };

static size_t ends[ENDS_OF_ENTRY];

/* An entry with attributes, a chain, bytes at 22 and unread ones, each other than those of the next number: a byte of
 * it that is changed or left out is seen. */
static struct bytes entry(size_t number)
{
    static struct buffer made, block, chain;
    struct parts p = {.numbers = {(uint32_t)number, 0xFFFFFFFF, 0, 65535},
                      .flags = VINDASKOT_SYMBOL_FLAG_ATTRIBUTES | VINDASKOT_SYMBOL_FLAG_EXTENDED_FLAGS,
                      .high = (uint16_t)(0xA500 + number),
                      .extended = VINDASKOT_SYMBOL2_FLAG_REFACTOR_INFO,
                      .name = string(number),
                      .type_name = string(number / 2),
                      .comment = string(number / 3),
                      .count = 1,
                      .links = 1};
    made.len = block.len = chain.len = 0;
    put_attribute(&block, string(number + 1), string(number + 2));
    put_refactor(&chain, 0x00000011, string(number + 3));
    p.block = whole(&block);
    p.chain = whole(&chain);
    put_symbol(&made, &p);
    ends[0] = HEADER + p.name.len;
    ends[1] = ends[0] + 1 + p.type_name.len;
    ends[2] = ends[1] + 1 + p.comment.len;
    ends[3] = ends[2] + 1 + 2 + 2 + string(number + 1).len;
    ends[4] = ends[2] + 2 + block.len;
    ends[5] = made.len - 1;
    for (size_t left = number % 4; left > 0; left--)
        put_number(&made, 0xF0 + left, 1);
    set_claim(&made, made.len);
    return whole(&made);
}

/* The same in memory that may be changed. */
static struct buffer *changed(struct bytes from)
{
    static struct buffer made;
    made.len = 0;
    put(&made, from);
    return &made;
}

/* So many bytes that claim so much, the others of which are all alike. */
static struct bytes claiming(size_t claim, size_t len, uint8_t other)
{
    static struct buffer made;
    made.len = 0;
    while (made.len < len)
        put_number(&made, other, 1);
    set_claim(&made, claim);
    return whole(&made);
}

static void nothing_or_few_bytes(void)
{
    static const uint8_t few[][3] = {{0, 0, 0}, {1, 0, 0}, {4, 0, 0}, {37, 0, 0}, {255, 255, 255}};
    begin();
    hold_made();
    for (size_t i = 0; i < sizeof few / sizeof *few; i++)
        for (size_t len = 1; len <= 3; len++)
            for (size_t before = 0; before < 3; before++) {
                begin();
                for (size_t number = 0; number < before; number++)
                    keep(entry(number));
                drop((struct bytes){few[i], len}, 2);
                hold_made();
            }
}

static void nothing_dropped(void)
{
    begin();
    for (size_t number = 0; number < 40; number++) {
        keep(entry(number));
        hold_made();
    }
}

/* Side by side, apart, first and last: each is a run of its own. */
static void only_dropped(void)
{
    begin();
    for (size_t claim = 4; claim < LEAST; claim++) {
        drop(claiming(claim, claim, 0), claim < HEADER ? 2 : 3);
        hold_made();
    }
    begin();
    for (size_t number = 0; number < 12; number++) {
        drop(claiming(4, 4, 0), 2);
        drop(claiming(HEADER, HEADER, 0), 3);
        drop(claiming(HEADER, HEADER, 0), 3);
        keep(entry(number));
        drop(claiming(29, 29, 0xFF), 2);
        if (number % 2 == 0)
            keep(entry(number + 1));
    }
    hold_made();
}

/* An entry that claims what is left of it, between others: 2 without a whole header, 3 without all of its strings, and
 * kept from there on, however much of its sections is gone. */
static void every_claim(size_t number)
{
    struct bytes full = entry(number);
    for (size_t claim = 4; claim <= full.len; claim++) {
        begin();
        keep(entry(number + 1));
        struct buffer *one = changed(entry(number));
        one->len = claim;
        set_claim(one, claim);
        size_t with_strings = ends[2] + 1;
        if (claim >= with_strings)
            keep(whole(one));
        else
            drop(whole(one), claim < HEADER ? 2 : 3);
        keep(entry(number + 2));
        hold_made();
    }
}

/* An entry one of whose lengths is one too many for it, or far too many. */
static void every_length(size_t number)
{
    for (size_t i = 0; i < 6; i++) {
        begin();
        keep(entry(number + 1));
        struct buffer *one = changed(entry(number));
        one->len = ends[2] + 1;
        set_claim(one, one->len);
        one->at[24 + i] = (uint8_t)(i % 2 == 0 ? one->at[24 + i] + 1 : 0xFF);
        drop(whole(one), 3);
        keep(entry(number + 2));
        hold_made();
    }
}

/* Every cut of an upload: the entries before it are kept, and what is left of the next is one run. */
static void every_cut(void)
{
    static struct buffer full;
    size_t at[5] = {0};
    full.len = 0;
    for (size_t number = 0; number < 4; number++) {
        put(&full, entry(5 + 3 * number));
        at[number + 1] = full.len;
    }
    for (size_t cut = 0; cut <= full.len; cut++) {
        size_t number = 0;
        begin();
        for (; number < 4 && at[number + 1] <= cut; number++)
            keep(part(whole(&full), at[number], at[number + 1] - at[number]));
        if (cut > at[number])
            drop(part(whole(&full), at[number], cut - at[number]), cut - at[number] < 4 ? 2 : 3);
        hold_made();
    }
}

/* A claim that leaves the upload, by a byte and by far: the run goes to the end, whatever stands there. */
static void beyond(void)
{
    static struct buffer rest;
    for (size_t before = 0; before < 3; before++)
        for (size_t behind = 0; behind < 3; behind++) {
            rest.len = 0;
            put(&rest, entry(7));
            for (size_t number = 0; number < behind; number++)
                put(&rest, entry(number));
            const size_t claims[] = {rest.len + 1, rest.len + 4, 0xFFFF, 0x10000, VINDASKOT_LIMIT, 0x7FFFFFFF,
                                     0x80000000, 0xFFFFFFFF};
            for (size_t i = 0; i < sizeof claims / sizeof *claims; i++) {
                begin();
                for (size_t number = 0; number < before; number++)
                    keep(entry(number));
                set_claim(&rest, claims[i]);
                drop(whole(&rest), 3);
                hold_made();
            }
        }
}

/* "A zero claim drops everything from there under number 10": first, between others and last, with sound
 * entries, refused ones and too few bytes behind it. */
static void zero_claims(void)
{
    static struct buffer rest;
    for (size_t before = 0; before < 4; before++)
        for (size_t behind = 0; behind < 50; behind++) {
            rest.len = 0;
            put(&rest, claiming(0, 4 + behind % 10, (uint8_t)(behind % 3 == 0 ? 0 : 33)));
            if (behind >= 10)
                put(&rest, entry(behind));
            if (behind >= 30)
                put(&rest, claiming(4, 4, 0));
            begin();
            for (size_t number = 0; number < before; number++)
                keep(entry(number));
            if (before == 3)
                drop(claiming(HEADER, HEADER, 0), 3);
            drop(whole(&rest), 10);
            hold_made();
        }
}

/* A claim of 1 to 3, whose run ends among its own bytes: what is claimed from there on decides what comes next. */
static void claims_below_4(void)
{
    for (size_t claim = 1; claim < 4; claim++) {
        const uint8_t bytes[4] = {(uint8_t)claim};
        const struct bytes first = {bytes, claim}, left = {bytes + claim, 4 - claim};
        /* Fewer than 4 bytes are left. */
        begin();
        keep(entry(claim));
        drop(first, 2);
        drop(left, 2);
        hold_made();
        /* The next claims the low bytes of an entry's own claim as its high ones, and leaves the upload. */
        static struct buffer rest;
        rest.len = 0;
        put(&rest, left);
        put(&rest, entry(9));
        begin();
        drop(first, 2);
        drop(whole(&rest), 3);
        hold_made();
        /* It claims nothing. */
        rest.len = left.len;
        put(&rest, claiming(0, 40, 33));
        begin();
        keep(entry(claim));
        drop(first, 2);
        drop(whole(&rest), 10);
        hold_made();
    }
    /* It claims 256 bytes, which are there: an entry without strings, that starts within the one before it. */
    static const uint8_t three[3] = {3};
    begin();
    drop((struct bytes){three, 3}, 2);
    keep(claiming(256, 256, 0));
    keep(entry(4));
    hold_made();
}

/* Each end byte of an entry, in one, two and three entries side by side: a run each under 16 in the checked mode, kept
 * in the present one. */
static void wrong_ends(void)
{
    static const uint8_t bytes[] = {1, 0x80, 0xFF};
    for (size_t i = 0; i < ENDS_OF_ENTRY; i++)
        for (size_t k = 0; k < sizeof bytes; k++)
            for (size_t number = 3; number < 7; number++) {
                begin();
                keep(entry(number + 1));
                for (size_t left = 1 + k; left > 0; left--) {
                    struct buffer *one = changed(entry(number));
                    one->at[ends[i]] = bytes[k];
                    if (mode == CHECKED)
                        drop(whole(one), 16);
                    else
                        keep(whole(one));
                }
                drop(claiming(29, 29, 1), 2);
                keep(entry(number + 2));
                hold_made();
            }
}

/* Strings that leave the entry come before an end byte that is not 0, and a zero claim before both. */
static void before_ends(void)
{
    struct buffer *one = changed(entry(6));
    one->at[ends[0]] = 0xFF;
    one->at[29] = 0xFF;
    begin();
    drop(whole(one), 3);
    keep(entry(5));
    set_claim(one, 0);
    drop(whole(one), 10);
    hold_made();
}

/* Every number of bytes and every number of slots, from none to more than is needed. */
static void every_room(void)
{
    begin();
    drop(claiming(5, 5, 0), 2);
    keep(claiming(LEAST, LEAST, 0));
    drop(claiming(HEADER, HEADER, 0), 3);
    drop(claiming(0, 9, 7), 10);
    struct bytes b = lay(UPLOAD, whole(&upload));
    for (size_t bytes = 0; bytes <= sound.len + 5; bytes++)
        for (size_t lent = 0; lent <= slots + 4; lent++)
            salvage(b, expected(), bytes, lent);
}

/* The upload right before the buffer for what is kept, or right behind it: compiled copies go another way where the
 * two are near. */
static void side_by_side(void)
{
    for (size_t number = 0; number < 70; number++)
        for (size_t i = 0; i < 6; i++) {
            size_t gap = i / 2;
            bool first = i % 2 == 0;
            begin();
            if (number % 3 == 0)
                drop(claiming(4 + number % 26, 4 + number % 26, 1), 2);
            keep(claiming(LEAST + number, LEAST + number, 0));
            if (number % 2 == 0)
                drop(claiming(4 + number % 26, 4 + number % 26, 2), 2);
            keep(claiming(LEAST, LEAST, 0));
            struct room all = lend(upload.len + gap + sound.len), runs = lend_runs(slots);
            uint8_t *at = all.at + (first ? 0 : sound.len + gap);
            memcpy(at, upload.at, upload.len);
            struct room out = {all.at + (first ? upload.len + gap : 0), sound.len};
            struct bytes b = {at, upload.len};
            SAME(NEIGHBOURS, call_salvage(b, out, runs), done(sound.len, slots));
            CHECK(NEIGHBOURS,
                  equal((struct bytes){out.at, out.len}, whole(&sound)) && equal(b, whole(&upload)) &&
                      (slots == 0 || memcmp(runs.at, dropped, 4 * slots) == 0),
                  "other bytes or runs beside the upload, or the upload was changed");
        }
}

void try_salvages(void)
{
    nothing_or_few_bytes();
    nothing_dropped();
    only_dropped();
    for (size_t number = 0; number < 9; number += 4) {
        every_claim(number);
        every_length(number);
    }
    every_cut();
    beyond();
    zero_claims();
    claims_below_4();
    wrong_ends();
    before_ends();
    every_room();
    side_by_side();
}

/* ---- 16,777,216 bytes, and one more ---- */

static struct made lend_at_limit(struct bytes b, size_t bytes, size_t lent, struct told want)
{
    struct made made = {.out = lend(bytes), .runs = lend_runs(lent)};
    made.told = call_salvage(b, made.out, made.runs);
    SAME(LIMITS, made.told, want);
    return made;
}

/* Above the limit 5 goes before either 6, and comes where there is room enough, too. */
static void refused_limit(struct bytes b, size_t bytes, size_t lent)
{
    const struct told want = refused(5, VINDASKOT_LIMIT, b.len);
    lend_at_limit(b, 0, 0, want);
    lend_at_limit(b, bytes, 0, want);
    lend_at_limit(b, 0, lent, want);
    lend_at_limit(b, bytes, lent, want);
}

/* So many bytes that are kept, with which the upload begins, so many runs, and the last of them. */
static void hold_limit(struct bytes b, size_t bytes, size_t count, const uint32_t *last)
{
    size_t lent = RUN * count;
    if (bytes > 0)
        lend_at_limit(b, bytes - 1, lent, refused(6, bytes, bytes - 1));
    if (lent > 0)
        lend_at_limit(b, bytes, lent - 1, refused(6, lent, lent - 1));
    struct made made = lend_at_limit(b, bytes, lent, done(bytes, lent));
    CHECK(LIMITS, equal((struct bytes){made.out.at, bytes}, part(b, 0, bytes)), "other bytes are kept");
    CHECK(LIMITS, count == 0 || memcmp(slots_of(made) + lent - RUN, last, 4 * RUN) == 0, "the last run is another");
}

static struct room zeros_of(size_t len)
{
    uint8_t *at = area(UPLOAD, len);
    memset(at, 0, len);
    return (struct room){at, len};
}

/* An upload whose first 64 bytes are zeros. No other byte is, and each goes by its place: so a copy that is zeros, is
 * of another place or was not made is seen. */
static struct room filled_of(size_t len)
{
    enum { WORD = 4, FIRST = 64 };
    uint8_t *at = area(UPLOAD, len);
    memset(at, 0, FIRST);
    memset(at + len - WORD, 0xA5, WORD);
    for (size_t i = FIRST; i + WORD <= len; i += WORD) {
        uint32_t word = (uint32_t)i * 0x9E3779B1u | 0x01010101u;
        memcpy(at + i, &word, WORD);
    }
    return (struct room){at, len};
}

/* As many entries as there can be, of 33 bytes, each with its number in it, and zeros behind them. */
static void limit_entries(size_t len)
{
    struct room made = zeros_of(len);
    uint32_t last[RUN];
    size_t count = len / LEAST;
    for (size_t i = 0; i < count; i++) {
        uint32_t number = (uint32_t)i;
        made.at[LEAST * i] = LEAST;
        memcpy(made.at + LEAST * i + 4, &number, sizeof number);
    }
    struct bytes b = {made.at, len};
    set_run(last, LEAST * count, len - LEAST * count, 10);
    if (len > VINDASKOT_LIMIT)
        refused_limit(b, LEAST * count, RUN);
    else
        hold_limit(b, LEAST * count, 1, last);
}

/* As many runs as there can be: claims of 4, of which the last claims 1 and leaves 3 bytes. */
static void limit_runs(void)
{
    const size_t len = VINDASKOT_LIMIT, count = len / 4 + 1;
    struct room made = zeros_of(len);
    struct bytes b = {made.at, len};
    size_t bad = 0;
    for (size_t i = 0; i < len; i += 4)
        made.at[i] = 4;
    made.at[len - 4] = 1;
    lend_at_limit(b, 0, RUN * count - 1, refused(6, RUN * count, RUN * count - 1));
    const uint32_t *runs = slots_of(lend_at_limit(b, 3, RUN * count, done(0, RUN * count)));
    for (size_t i = 0; i < count; i++) {
        uint32_t wanted[RUN];
        size_t start = i + 1 < count ? 4 * i : len - 3;
        set_run(wanted, start, i + 2 < count ? 4 : i + 2 == count ? 1 : 3, 2);
        bad += memcmp(runs + RUN * i, wanted, sizeof wanted) != 0;
    }
    CHECK(LIMITS, bad == 0, "%zu of %zu runs are others", bad, count);
}

/* One entry and what is left of the upload: dropped as a whole for its zero claim; kept whole, all but a byte and its
 * least; refused. */
static void limit_entry(size_t len)
{
    static struct buffer claimed;
    struct room made = filled_of(len);
    struct bytes b = {made.at, len};
    uint32_t last[RUN];
    const size_t claims[] = {0, len, len - 1, LEAST, len + 1, HEADER - 1};
    for (size_t i = 0; i < sizeof claims / sizeof *claims; i++) {
        size_t claim = claims[i], behind = claim > 0 && claim < len ? len - claim : 0;
        bool kept = claim >= LEAST && claim <= len;
        set_claim(&claimed, claim);
        memcpy(made.at, claimed.at, 4);
        if (behind > 0)
            set_run(last, claim, behind, behind < 4 ? 2 : 10);
        else
            set_run(last, 0, len, claim == 0 ? 10 : 3);
        if (len > VINDASKOT_LIMIT)
            refused_limit(b, LEAST, 2 * RUN);
        else
            hold_limit(b, kept ? claim : 0, (size_t)!kept + (behind > 0), last);
    }
}

/* Millions of runs take their time, so on one side they are dropped by the function that takes no mode, and on the
 * other by the one that takes it. */
void try_salvage_limit(size_t len)
{
    limit_entries(len);
    limit_entry(len);
    if (len == VINDASKOT_LIMIT && mode == (side == AT_END ? PRESENT : PRESENT_IN))
        limit_runs();
}
