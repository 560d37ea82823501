/* Room for the index: how many slots an upload of a length can need. What is expected of an edge stands here in the
 * words of docs/FORMAT.md, "Room", and does not come from the model; a random case is held to the model and to those words. */
#include "boundary.h"

/* The least entry that is accepted: a header, and the end bytes of three empty strings. */
enum { HEADER = 30, LEAST = HEADER + 3 };

/* ---- The number ---- */

static void hold_length(size_t length, size_t entries)
{
    SAME(ROOM_LENGTHS, call_room(length), done(entries, 0));
}

/* "Refusals: 5 for a length above the limit." */
static void hold_above(size_t length)
{
    SAME(ROOM_ABOVE, call_room(length), refused(5, VINDASKOT_LIMIT, length));
}

/* "n / 33 entries, rounded down". Byte by byte, and nothing is divided: an entry more with every 33rd. */
static void every_length(void)
{
    enum { FEW = 10000 };
    size_t entries = 0, behind = 0;
    for (size_t length = 0; length <= FEW; length++) {
        hold_length(length, entries);
        behind++;
        if (behind == LEAST) {
            entries++;
            behind = 0;
        }
    }
}

/* Every number of entries that there can be, with a byte less, with none and with one behind them: an approximation
 * that is wrong for one of them alone is seen. */
static void every_count(void)
{
    size_t entries = 0;
    for (size_t length = LEAST; length <= VINDASKOT_LIMIT; length += LEAST) {
        hold_length(length - 1, entries);
        entries++;
        hold_length(length, entries);
        hold_length(length + 1, entries);
    }
    CHECK(ROOM_LENGTHS, entries == VINDASKOT_ROOM_MOST, "%zu entries are the most, and the header has %u", entries,
          VINDASKOT_ROOM_MOST);
}

/* Lengths of every remainder, all the way to the limit: what is wrong only between whole entries is seen too. */
static void every_remainder(void)
{
    enum { STRIDE = 17 };
    size_t entries = 0, behind = 0;
    for (size_t length = 0; length <= VINDASKOT_LIMIT; length += STRIDE) {
        hold_length(length, entries);
        behind += STRIDE;
        if (behind >= LEAST) {
            entries++;
            behind -= LEAST;
        }
    }
}

/* 16 bytes stand behind the last entry of the largest upload. */
static void about_the_limit(void)
{
    for (size_t length = VINDASKOT_LIMIT - 40; length <= VINDASKOT_LIMIT; length++)
        hold_length(length, length < VINDASKOT_LIMIT - 16 ? VINDASKOT_ROOM_MOST - 1 : VINDASKOT_ROOM_MOST);
    for (size_t length = VINDASKOT_LIMIT + 1; length <= VINDASKOT_LIMIT + 40; length++)
        hold_above(length);
    for (size_t length = VINDASKOT_LIMIT + 1; length <= 4 * (size_t)VINDASKOT_LIMIT; length += 997)
        hold_above(length);
}

/* A length has 64 bits: about each power of two, with few bytes and with an upload's more, and the largest. Cut to
 * fewer bits, or taken with a sign, some of them are within the limit. */
static void far_above(void)
{
    const size_t more[] = {LEAST, 1400000, VINDASKOT_LIMIT - 1, VINDASKOT_LIMIT, VINDASKOT_LIMIT + 1};
    for (unsigned bit = 25; bit < 64; bit++) {
        const size_t power = (size_t)1 << bit;
        for (size_t i = 0; i <= 80; i++)
            hold_above(power - 40 + i);
        for (size_t i = 0; i < sizeof more / sizeof *more; i++)
            hold_above(power + more[i]);
    }
    for (size_t i = 0; i <= 80; i++)
        hold_above(SIZE_MAX - i);
}

void try_room_lengths(void)
{
    every_length();
    every_count();
    every_remainder();
    about_the_limit();
    far_above();
}

/* ---- What holds of every upload ---- */

/* a walk "makes at most n steps and accepts at most n / 33 entries". How many it accepts, and whether a zero
 * claim stops it. */
static size_t hold_steps(struct bytes b, bool *stopped)
{
    struct told walk = call_walk(b, b.len, 0), step = call_symbol_step(b, 0);
    CHECK(ROOM_STEPS, walk.status != VINDASKOT_OUT_OF_STEPS && walk.steps <= b.len,
          "a walk of %zu bytes that may make as many steps has made %zu and has status %u", b.len, walk.steps,
          (unsigned)walk.status);
    size_t accepted = 0;
    for (size_t cursor = 0; step.status != VINDASKOT_FINISHED && step.cursor > cursor;) {
        accepted += step.status == VINDASKOT_DONE;
        cursor = step.cursor;
        step = call_symbol_step(b, cursor);
    }
    CHECK(ROOM_STEPS, LEAST * accepted <= b.len, "of %zu bytes %zu entries are accepted", b.len, accepted);
    *stopped = step.status != VINDASKOT_FINISHED;
    return accepted;
}

/* "an index of that many slots is never refused by 6". It has the starts that one of more slots has, or is
 * stopped as the walk is. */
static void hold_index(struct bytes b, size_t slots)
{
    static uint32_t starts[BUFFER];
    bool stopped;
    size_t accepted = hold_steps(b, &stopped);
    struct told want = stopped ? refused(10, 1, 0) : done(accepted, 0);
    enum group group = stopped ? ROOM_STOPPED : slots > 0 && accepted == slots ? ROOM_FULL : ROOM_ENOUGH;
    struct room more = lend(4 * (slots + 5));
    SAME(group, call_index_build(b, more), want);
    memcpy(starts, more.at, 4 * slots);
    struct room lent = lend(4 * slots);
    SAME(group, call_index_build(b, lent), want);
    size_t used = stopped || accepted > slots ? 0 : accepted;
    CHECK(group, memcmp(lent.at, starts, 4 * used) == 0, "an index of %zu slots has other starts than one of %zu",
          slots, slots + 5);
}

void try_room(struct bytes b)
{
    struct told room = call_room(b.len);
    SAME(ROOM_LENGTHS, room, model_room(b.len));
    if (room.status == VINDASKOT_DONE && room.answer[0] <= b.len)
        hold_index(b, (size_t)room.answer[0]);
}

/* ---- Uploads that need all of their room ---- */

/* So many entries of 33 bytes, and behind them so many bytes of one kind. */
static struct bytes full_upload(size_t entries, size_t behind, uint8_t of)
{
    struct room made = {area(UPLOAD, LEAST * entries + behind), LEAST * entries + behind};
    memset(made.at, 0, made.len);
    for (size_t i = 0; i < entries; i++)
        made.at[LEAST * i] = LEAST;
    memset(made.at + LEAST * entries, of, behind);
    return (struct bytes){made.at, made.len};
}

/* Bytes of FF are refused once, with 2 where they are fewer than 4, else with 3 for their claim. */
static void hold_behind(struct bytes b, size_t entries, size_t behind)
{
    struct told walked = {.status = VINDASKOT_FINISHED, .cursor = b.len, .steps = entries + (behind > 0)};
    SAME(ROOM_STEPS, call_walk(b, b.len, 0), walked);
    struct told step = call_symbol_step(b, LEAST * entries);
    uint32_t status = behind == 0 ? VINDASKOT_FINISHED : behind < 4 ? 2 : 3;
    CHECK(ROOM_STEPS, step.status == status && step.cursor == b.len,
          "a step over %zu bytes of FF has status %u and leads to %zu of %zu", behind, (unsigned)step.status,
          step.cursor, b.len);
}

/* The slots that the archive says are just enough, and one less is refused. */
static void hold_full(enum group group, size_t entries, size_t behind)
{
    struct bytes b = full_upload(entries, behind, 0xFF);
    SAME(group, call_room(b.len), done(entries, 0));
    struct room lent = lend(4 * entries);
    SAME(group, call_index_build(b, lent), done(entries, 0));
    const uint32_t *starts = (const uint32_t *)(const void *)lent.at;
    size_t right = 0;
    while (right < entries && starts[right] == LEAST * right)
        right++;
    CHECK(group, right == entries, "the index has another start than %zu in slot %zu", LEAST * right, right);
    if (entries > 0)
        SAME(group, call_index_build(b, lend(4 * (entries - 1))), refused(6, entries, entries - 1));
    hold_behind(b, entries, behind);
}

/* Up to 33 entries in every mode on both sides. Of more, which take their time, each upload in one of these six ways,
 * and its neighbours in the others. */
static void every_full(void)
{
    enum { FEW = 33, MOST = 300, WAYS = SIDES * MODES };
    for (size_t entries = 0; entries <= MOST; entries++)
        for (size_t behind = 0; behind < LEAST; behind++)
            if (entries <= FEW || (entries + behind) % WAYS == (size_t)side * MODES + (size_t)mode)
                hold_full(ROOM_FULL, entries, behind);
}

/* Entries of 30 to 32 bytes lack an end byte: more of them than there is room for, and none is accepted. */
static void every_short(void)
{
    static struct buffer upload;
    const uint8_t zeros[LEAST] = {0};
    for (size_t claim = HEADER; claim < LEAST; claim++) {
        upload.len = 0;
        for (size_t i = 0; i < 100; i++) {
            put_number(&upload, claim, 4);
            put(&upload, (struct bytes){zeros, claim - 4});
            struct bytes b = lay(UPLOAD, whole(&upload));
            SAME(ROOM_ENOUGH, call_index_build(b, lend(0)), done(0, 0));
            try_room(b);
        }
    }
}

/* Zeros behind the entries are a zero claim, which refuses the index however many slots there are. */
static void every_zero_claim(void)
{
    for (size_t entries = 0; entries <= 40; entries++)
        for (size_t behind = 4; behind <= 2 * LEAST + 4; behind++) {
            struct bytes b = full_upload(entries, behind, 0);
            size_t slots = entries + (behind >= LEAST) + (behind >= 2 * LEAST);
            SAME(ROOM_LENGTHS, call_room(b.len), done(slots, 0));
            SAME(ROOM_STOPPED, call_index_build(b, lend(4 * slots)), refused(10, 1, 0));
        }
}

void try_rooms(void)
{
    every_full();
    every_short();
    every_zero_claim();
}

/* The largest upload, on one side with the 16 bytes that its entries leave and on the other without; and one byte more:
 * 5 goes before all else, in the index too, which has slots enough. */
void try_room_limit(size_t len)
{
    const size_t behind = len - LEAST * (size_t)VINDASKOT_ROOM_MOST;
    if (len > VINDASKOT_LIMIT) {
        struct bytes b = full_upload(VINDASKOT_ROOM_MOST, behind, 0xFF);
        SAME(LIMITS, call_room(len), refused(5, VINDASKOT_LIMIT, len));
        SAME(LIMITS, call_index_build(b, lend(4 * VINDASKOT_ROOM_MOST)), refused(5, VINDASKOT_LIMIT, len));
        return;
    }
    hold_full(LIMITS, VINDASKOT_ROOM_MOST, side == AT_END ? behind : 0);
    struct bytes b = full_upload(VINDASKOT_ROOM_MOST, behind, 0);
    SAME(LIMITS, call_index_build(b, lend(4 * VINDASKOT_ROOM_MOST)), refused(10, 1, 0));
}
