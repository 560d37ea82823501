/* Data types at random: trees of entries, sound and damaged. */
#include "boundary.h"

enum { MOST_DEPTH = 17, MOST_ENTRIES = 40, LONG = 20000 };

/* Where the entries of what is being made start, and how many more there may be. */
static struct {
    size_t starts[MOST_ENTRIES];
    size_t count;
} made;

/* How a tree is hurt while it is made: one entry in so many, or none where it is 0. */
static size_t hurts;

/* What an entry is made of: strings, sections, numbers. A draft's slices lie in its own pool, so each depth has one. Now
 * and then the size, of which a copy mask has as many bytes, is more than is there. */
static struct draft drafts[MOST_DEPTH + 1];

static struct parts *draft_item(struct draft *d)
{
    struct parts *p = &d->parts;
    d->pool.len = 0;
    memset(p, 0, sizeof *p);
    for (size_t i = 0; i < 6; i++)
        p->numbers[i] = one_in(3) ? (uint32_t)any() : (uint32_t)below(100);
    p->numbers[3] = one_in(15) ? (uint32_t)any() : (uint32_t)below(one_in(20) ? 100 : 12);
    p->name = string_in(&d->pool, 9);
    p->type_name = string_in(&d->pool, 7);
    p->comment = string_in(&d->pool, one_in(4) ? 12 : 0);
    p->flags = (uint32_t)any() & ~(uint32_t)VINDASKOT_TYPE_FLAG_ATTRIBUTES;
    if (!one_in(4))
        p->flags &= ~(VINDASKOT_TYPE_FLAG_METHOD_INFOS | VINDASKOT_TYPE_FLAG_COPY_MASK);
    if (one_in(3)) {
        p->flags |= VINDASKOT_TYPE_FLAG_ATTRIBUTES;
        draft_attributes(d);
    }
    draft_guid(d);
    return p;
}

static void put_methods(struct buffer *to)
{
    static const uint32_t lies[] = {0, 3, 200, 0x7FFFFFFF, 0xFFFFFFFF};
    const size_t count = below(3);
    put_number(to, count, 2);
    for (size_t i = 0; i < count; i++) {
        const size_t len = 4 + below(6);
        put_number(to, one_in(8) ? lies[below(5)] : len, 4);
        put_any(to, len - 4);
    }
}

static void hurt_entry(struct buffer *to, size_t start, const struct parts *p);

/* An entry at a depth, and below it a way down to `deepest`, with others beside it. */
static void put_entry(struct buffer *to, size_t depth, size_t deepest)
{
    struct parts *p = draft_item(&drafts[depth]);
    const size_t start = to->len, arrays = one_in(3) ? below(4) : 0;
    size_t items = depth < deepest ? 1 + (one_in(2) ? below(4) : 0) : 0;
    if (made.count + items >= MOST_ENTRIES)
        items = 0;
    const size_t goes_on = below(items);
    if (made.count < MOST_ENTRIES)
        made.starts[made.count++] = start;
    put_field_head(to, p, arrays, items);
    put_any(to, 8 * arrays);
    for (size_t i = 0; i < items; i++)
        put_entry(to, depth + 1, i == goes_on ? deepest : one_in(4) && depth + 2 < deepest ? depth + 2 : depth + 1);
    put_field_guid(to, p);
    if ((p->flags & VINDASKOT_TYPE_FLAG_COPY_MASK) != 0)
        put_any(to, p->numbers[3] < 100 ? p->numbers[3] : below(30));
    if ((p->flags & VINDASKOT_TYPE_FLAG_METHOD_INFOS) != 0)
        put_methods(to);
    put_field_attributes(to, p);
    put_claim(to, start, to->len - start);
    if (hurts > 0 && one_in(hurts))
        hurt_entry(to, start, p);
}

/* Of two bytes, one more, one less, none, many or any. */
static void recount(struct buffer *to, size_t at)
{
    const size_t now = (size_t)number_at(whole(to), at, 2);
    const size_t then[] = {now + 1, now + 1, now - 1, 0, 65535, below(65536), now + 2};
    const size_t n = then[below(sizeof then / sizeof *then)];
    to->at[at] = (uint8_t)n;
    to->at[at + 1] = (uint8_t)(n >> 8);
}

/* Damage to the entry that was just made, which is the last in the buffer: its parents then claim what they have, so
 * that the fault is its own. */
static void hurt_entry(struct buffer *to, size_t start, const struct parts *p)
{
    const size_t len = to->len - start;
    const size_t ends[3] = {42 + p->name.len, 43 + p->name.len + p->type_name.len,
                            44 + p->name.len + p->type_name.len + p->comment.len};
    switch (below(10)) {
    case 0: recount(to, start + 32 + 2 * below(5)); break;
    case 1: recount(to, start + 38 + 2 * below(2)); break;
    case 2:
        to->len -= 1 + below(one_in(2) ? 3 : len - 4);
        put_claim(to, start, to->len - start);
        break;
    case 3:
        put_any(to, 1 + below(6));
        put_claim(to, start, to->len - start);
        break;
    case 4: put_claim(to, start, len + 1); break;
    case 5: put_claim(to, start, one_in(2) ? len - 1 : below(46)); break;
    case 6:
    case 7: to->at[start + ends[below(3)]] = no_zero(); break;
    case 8:
        if (p->block.len > 0)
            to->at[to->len - 1 - below(p->block.len)] = no_zero();
        break;
    default: to->at[start + below(len)] ^= (uint8_t)(1u << below(8));
    }
}

/* Damage anywhere in a tree that is made: its claims, its counts and its bytes, or its end. */
static void hurt_tree(struct buffer *to, size_t root)
{
    static const uint32_t claims[] = {0, 1, 4, 41, 42, 44, 45, 0x7FFFFFFF, 0xFFFFFFFF};
    const size_t start = made.starts[below(made.count)], now = (size_t)number_at(whole(to), start, 4);
    /* Its first four bytes stay, so that it can be hurt again. */
    const size_t spare = to->len - root - 4;
    switch (below(7)) {
    case 0: put_claim(to, start, one_in(2) ? now + 1 : now - 1); break;
    case 1: put_claim(to, start, claims[below(sizeof claims / sizeof *claims)]); break;
    case 2: recount(to, start + 38 + 2 * below(2)); break;
    case 3: recount(to, start + 32 + 2 * below(3)); break;
    case 4:
        for (size_t left = 1 + below(3); left > 0; left--)
            to->at[root + below(to->len - root)] ^= (uint8_t)(1u << below(8));
        break;
    case 5:
        to->len -= below(spare < 60 ? spare : 60);
        put_claim(to, root, to->len - root);
        break;
    default: to->len -= below(spare);
    }
}

/* Of one, or of several, data types: sound, hurt as they are made, or damaged afterwards. Of the depths 16 and 17, the
 * last that is read and the first that is not, are one in four. */
void make_types(struct buffer *to)
{
    for (size_t left = one_in(4) ? 1 + below(4) : 1; left > 0 && to->len < LONG; left--) {
        const size_t root = to->len, way = below(4);
        made.count = 0;
        hurts = way == 1 ? 12 : 0;
        put_entry(to, 1, one_in(4) ? 16 + below(2) : one_in(2) ? 1 + below(16) : 1 + below(4));
        for (size_t times = way > 1 ? 1 + below(2) : 0; times > 0; times--)
            hurt_tree(to, root);
    }
    if (one_in(10))
        put_number(to, 0, below(8));
    else if (one_in(10))
        put_any(to, below(8));
}
