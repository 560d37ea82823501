/* Captures: an upload as lines of hexadecimal, and back, in the words of docs/FORMAT.md, "Captures". There is no call that
 * takes a mode. */
#include "boundary.h"

enum { LF = 10 };

static uint8_t split_text[3 * BUFFER], joined_bytes[3 * BUFFER];

/* ---- The model ---- */

/* Where the piece ends that begins at a place: a whole entry, or all that is left. */
static size_t piece_end(struct bytes b, size_t at)
{
    uint64_t claim = b.len - at < 4 ? 0 : number_at(b, at, 4);
    return claim == 0 || claim > b.len - at ? b.len : at + (size_t)claim;
}

static struct told model_split(struct bytes b)
{
    static const char digits[] = "0123456789ABCDEF";
    size_t len = 0;
    for (size_t at = 0; at < b.len;) {
        size_t end = piece_end(b, at);
        for (; at < end; at++) {
            split_text[len++] = (uint8_t)digits[b.at[at] / 16];
            split_text[len++] = (uint8_t)digits[b.at[at] % 16];
        }
        split_text[len++] = LF;
    }
    return done(len, 0);
}

/* The value of a digit of either case, or -1. */
static int value_of(uint8_t digit)
{
    static const char capitals[] = "0123456789ABCDEF", letters[] = "0123456789abcdef";
    for (int i = 0; i < 16; i++)
        if (digit == capitals[i] || digit == letters[i])
            return i;
    return -1;
}

static struct told model_join(struct bytes t)
{
    size_t len = 0, in_line = 0;
    int high = 0;
    for (size_t i = 0; i < t.len; i++) {
        int value = value_of(t.at[i]);
        if (t.at[i] == LF ? in_line % 2 == 1 : value < 0)
            return refused(12, 0, 0);
        in_line = t.at[i] == LF ? 0 : in_line + 1;
        if (t.at[i] != LF && in_line % 2 == 1)
            high = value;
        else if (t.at[i] != LF)
            joined_bytes[len++] = (uint8_t)(16 * high + value);
    }
    return in_line % 2 == 1 ? refused(12, 0, 0) : done(len, 0);
}

/* ---- The tests ---- */

/* Lent none, one byte too few, just enough and more. */
static void hold(enum group group, converting call, struct bytes src, struct told want, const uint8_t *wanted)
{
    const size_t needed = want.status == VINDASKOT_DONE ? (size_t)want.answer[0] : 8;
    const size_t lent[] = {0, needed - (needed > 0), needed, needed + 5};
    for (size_t i = 0; i < sizeof lent / sizeof *lent; i++) {
        struct room out = lend(lent[i]);
        bool short_of = want.status == VINDASKOT_DONE && lent[i] < needed;
        SAME(short_of ? LINES_SHORT_OF : group, call(src, out), short_of ? refused(6, needed, lent[i]) : want);
        CHECK(group, short_of || want.status != VINDASKOT_DONE || needed == 0 || memcmp(out.at, wanted, needed) == 0,
              "%zu bytes are written otherwise", needed);
    }
}

static void hold_join(struct bytes text)
{
    struct told want = model_join(text);
    hold(want.status == 12 ? LINES_BAD : LINES_JOINED, call_join_lines, text, want, joined_bytes);
}

/* Lines, with a digit in small letters, a character that is none, a digit or a line end fewer. */
static void try_text(struct bytes from)
{
    static const uint8_t others[] = {'\r', ' ', 'G', '/', ':', '@', '`', 'g', 0, 0xFF, LF};
    static uint8_t changed[3 * BUFFER];
    struct room room = {changed, from.len};
    memcpy(changed, from.at, from.len);
    recase(room);
    hold_join(lay(NAME, (struct bytes){changed, from.len}));
    if (from.len > 0) {
        size_t at = below(from.len);
        hold_join(lay(NAME, (struct bytes){changed, from.len - 1}));
        changed[at] = others[below(sizeof others)];
        hold_join(lay(NAME, (struct bytes){changed, from.len}));
        memmove(changed + at, from.at + at + 1, from.len - at - 1);
        hold_join(lay(NAME, (struct bytes){changed, from.len - 1}));
    }
}

/* An upload is split, and its lines are joined to the same bytes. */
void try_lines(struct bytes b)
{
    if (mode != PRESENT)
        return;
    struct told want = model_split(b);
    hold(LINES_SPLIT, call_split_lines, b, want, split_text);
    struct bytes text = lay(NAME, (struct bytes){split_text, (size_t)want.answer[0]});
    hold(LINES_JOINED, call_join_lines, text, done(b.len, 0), b.at);
    try_text((struct bytes){split_text, (size_t)want.answer[0]});
}

/* 5 counts the bytes of the upload; a bad character behind them goes before it. */
void try_line_limit(size_t len)
{
    struct room made = {area(UPLOAD, len), len};
    memset(made.at, 0xFF, len);
    struct bytes b = {made.at, len};
    bool above = len > VINDASKOT_LIMIT;
    struct told too_large = refused(5, VINDASKOT_LIMIT, len);
    SAME(LIMITS, call_split_lines(b, lend(2 * len)), above ? too_large : refused(6, 2 * len + 1, 2 * len));
    SAME(LIMITS, call_split_lines(b, lend(2 * len + 1)), above ? too_large : done(2 * len + 1, 0));
    struct room text = {area(NAME, 2 * len), 2 * len};
    memset(text.at, 'a', text.len);
    SAME(LIMITS, call_join_lines((struct bytes){text.at, text.len}, lend(len)), above ? too_large : done(len, 0));
    text.at[text.len - 1] = '\r';
    SAME(LIMITS, call_join_lines((struct bytes){text.at, text.len}, lend(len)), refused(12, 0, 0));
}
