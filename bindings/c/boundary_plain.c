/* Plain form: uploads whose entries are what would be written of them. What is expected is worked out from the model's
 * steps and from what `put_symbol` makes of the record, in the words of docs/FORMAT.md, "Plain form". There is no call that
 * takes a mode. */
#include "boundary.h"

/* ---- The model ---- */

/* How many bytes so many records take from a place on. */
static size_t records_size(struct bytes e, size_t at, uint64_t count, reading record, size_t next)
{
    size_t from = at;
    for (uint64_t i = 0; i < count; i++)
        at += (size_t)record(part(e, at, e.len - at)).slots[next];
    return at - from;
}

static struct bytes string_of(struct bytes e, const uint64_t *slots, struct run run)
{
    return part(e, (size_t)slots[run.place], (size_t)slots[run.len]);
}

/* What a writer is given of a symbol that was read. */
static struct parts parts_of(struct bytes e, const struct told *told)
{
    const uint64_t *s = told->slots;
    size_t attributes = (size_t)s[VINDASKOT_SYMBOL_ATTRIBUTES_AT], chain = (size_t)s[VINDASKOT_SYMBOL_REFACTORS_AT];
    struct parts p = {
        .flags = (uint32_t)s[VINDASKOT_SYMBOL_FLAGS],
        .high = (uint16_t)s[VINDASKOT_SYMBOL_HIGH],
        .extended = (uint32_t)s[VINDASKOT_SYMBOL_EXTENDED_FLAGS],
        .guid = {told->guid, s[VINDASKOT_SYMBOL_HAS_GUID] != 0 ? 16 : 0},
        .name = string_of(e, s, symbol_strings[0]),
        .type_name = string_of(e, s, symbol_strings[1]),
        .comment = string_of(e, s, symbol_strings[2]),
        .count = (size_t)s[VINDASKOT_SYMBOL_ATTRIBUTE_COUNT],
        .links = (size_t)s[VINDASKOT_SYMBOL_REFACTOR_COUNT],
    };
    for (size_t i = 0; i < 4; i++)
        p.numbers[i] = (uint32_t)s[symbol_numbers[i]];
    size_t size = records_size(e, attributes, p.count, model_attribute_read, VINDASKOT_ATTRIBUTE_NEXT_AT);
    p.block = part(e, attributes, size);
    p.chain = part(e, chain, records_size(e, chain, p.links, model_refactor_read, VINDASKOT_REFACTOR_NEXT_AT));
    return p;
}

/* The first place at which an entry is not what is written of its record, or its length where there is none. */
static size_t departs_at(struct bytes e, const struct parts *p)
{
    static struct buffer wanted;
    size_t at = 0;
    wanted.len = 0;
    if (model_symbol_write(p, SIZE_MAX).status != VINDASKOT_DONE)
        return 0;
    put_symbol(&wanted, p);
    while (at < e.len && at < wanted.len && e.at[at] == wanted.at[at])
        at++;
    return at;
}

static struct told model_plain(struct bytes b)
{
    if (b.len > VINDASKOT_LIMIT)
        return refused(5, VINDASKOT_LIMIT, b.len);
    for (size_t at = 0; at < b.len;) {
        struct told told = model_symbol_step(b, at);
        if (told.cursor == at)
            return refused(10, 1, 0);
        if (told.status != VINDASKOT_DONE)
            return refused(told.status, told.answer[0], told.answer[1]);
        struct bytes e = part(b, at, told.cursor - at);
        struct parts p = parts_of(e, &told);
        size_t departs = departs_at(e, &p);
        if (departs < e.len)
            return refused(19, at + departs, 0);
        at = told.cursor;
    }
    return done(0, 0);
}

/* ---- The tests ---- */

static void hold_plain(struct bytes b)
{
    struct told want = model_plain(b);
    SAME(want.status == VINDASKOT_DONE ? PLAIN : want.status == 19 ? PLAIN_DEPARTS : PLAIN_REFUSED, call_plain(b), want);
}

/* What is read of any upload, with room for what would be written of an entry. */
void try_plain(struct bytes b)
{
    if (mode == PRESENT && b.len + 64 < BUFFER)
        hold_plain(b);
}

/* An upload in plain form: symbols that the writer takes, as it writes them. */
void make_plain(struct buffer *to)
{
    static struct draft draft;
    for (size_t left = below(5); left > 0; left--) {
        draft_symbol(&draft);
        put_symbol(to, &draft.parts);
    }
}

/* It is plain, and with one byte changed it mostly is not: bytes at random, and each of the last entry's first sixty. */
void try_plain_changed(struct bytes b)
{
    static uint8_t changed[BUFFER];
    if (mode != PRESENT || b.len + 64 >= BUFFER)
        return;
    SAME(PLAIN, call_plain(b), done(0, 0));
    for (size_t i = 0; i < 60 && b.len > 0; i++) {
        size_t at = one_in(2) ? below(b.len) : i % b.len;
        memcpy(changed, b.at, b.len);
        changed[at] ^= (uint8_t)(1 + below(255));
        hold_plain(lay(SLOTS, (struct bytes){changed, b.len}));
    }
}

/* At the limit one entry, all of which but its strings is unread: it departs in its length. One byte above is refused with 5. */
void try_plain_limit(size_t len)
{
    struct room made = {area(UPLOAD, len), len};
    memset(made.at, 0, len);
    for (size_t i = 0; i < 4; i++)
        made.at[i] = (uint8_t)(len >> 8 * i);
    struct bytes b = {made.at, len};
    SAME(LIMITS, call_plain(b), len > VINDASKOT_LIMIT ? refused(5, VINDASKOT_LIMIT, len) : refused(19, 0, 0));
}
