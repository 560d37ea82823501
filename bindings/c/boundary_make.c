/* Random numbers, entries made of them, and damage. */
#include <stdio.h>
#include <stdlib.h>

#include "boundary.h"

/* ---- Numbers ---- */

static uint64_t state;

void seed(uint64_t from)
{
    state = from;
}

/* splitmix64: any seed gives a good sequence, so a case is made from its own number alone. */
uint64_t any(void)
{
    uint64_t z = state += 0x9E3779B97F4A7C15u;
    z = (z ^ z >> 30) * 0xBF58476D1CE4E5B9u;
    z = (z ^ z >> 27) * 0x94D049BB133111EBu;
    return z ^ z >> 31;
}

size_t below(size_t n)
{
    return n == 0 ? 0 : (size_t)(any() % n);
}

bool one_in(size_t n)
{
    return below(n) == 0;
}

/* ---- Buffers ---- */

struct bytes whole(const struct buffer *b)
{
    return (struct bytes){b->at, b->len};
}

static uint8_t *take(struct buffer *to, size_t len)
{
    if (len > BUFFER - to->len) {
        fputs("boundary: a buffer is full\n", stderr);
        exit(2);
    }
    to->len += len;
    return to->at + to->len - len;
}

void put(struct buffer *to, struct bytes from)
{
    uint8_t *at = take(to, from.len);
    if (from.len > 0)
        memcpy(at, from.at, from.len);
}

void put_number(struct buffer *to, uint64_t number, size_t width)
{
    uint8_t *at = take(to, width);
    for (size_t i = 0; i < width; i++)
        at[i] = (uint8_t)(number >> 8 * i);
}

void put_any(struct buffer *to, size_t len)
{
    uint8_t *at = take(to, len);
    for (size_t i = 0; i < len; i++)
        at[i] = (uint8_t)any();
}

static void put_zeros(struct buffer *to, size_t len)
{
    memset(take(to, len), 0, len);
}

static void put_string(struct buffer *to, struct bytes s)
{
    put(to, s);
    put_number(to, 0, 1);
}

void put_attribute(struct buffer *to, struct bytes name, struct bytes value)
{
    put_number(to, name.len, 1);
    put_number(to, value.len, 1);
    put_string(to, name);
    put_string(to, value);
}

void put_refactor(struct buffer *to, uint32_t packed, struct bytes name)
{
    put_number(to, packed, 4);
    put_number(to, name.len, 2);
    put_string(to, name);
}

/* ---- Entries as their writers lay them out ---- */

static void put_lengths(struct buffer *to, const struct parts *p)
{
    put_number(to, p->name.len, 2);
    put_number(to, p->type_name.len, 2);
    put_number(to, p->comment.len, 2);
}

static void put_strings(struct buffer *to, const struct parts *p)
{
    put_string(to, p->name);
    put_string(to, p->type_name);
    put_string(to, p->comment);
}

static void put_block(struct buffer *to, const struct parts *p, uint32_t flag)
{
    if ((p->flags & flag) != 0) {
        put_number(to, p->count, 2);
        put(to, p->block);
    }
}

/* The entry's length, once it is known. */
void put_claim(struct buffer *to, size_t start, size_t claim)
{
    for (size_t i = 0; i < 4; i++)
        to->at[start + i] = (uint8_t)(claim >> 8 * i);
}

void put_symbol(struct buffer *to, const struct parts *p)
{
    size_t start = to->len;
    put_number(to, 0, 4);
    for (size_t i = 0; i < 4; i++)
        put_number(to, p->numbers[i], 4);
    put_number(to, p->flags, 2);
    put_number(to, p->high, 2);
    put_lengths(to, p);
    put_strings(to, p);
    put(to, p->guid);
    put_block(to, p, VINDASKOT_SYMBOL_FLAG_ATTRIBUTES);
    if ((p->flags & VINDASKOT_SYMBOL_FLAG_EXTENDED_FLAGS) != 0)
        put_number(to, p->extended, 4);
    put(to, p->chain);
    put_claim(to, start, to->len - start);
}

void put_field_head(struct buffer *to, const struct parts *p, size_t arrays, size_t items)
{
    put_number(to, 0, 4);
    for (size_t i = 0; i < 6; i++)
        put_number(to, p->numbers[i], 4);
    put_number(to, p->flags, 4);
    put_lengths(to, p);
    put_number(to, arrays, 2);
    put_number(to, items, 2);
    put_strings(to, p);
}

void put_field_guid(struct buffer *to, const struct parts *p)
{
    if ((p->flags & VINDASKOT_TYPE_FLAG_TYPE_GUID) == 0)
        return;
    if (p->guid.len == 16)
        put(to, p->guid);
    else
        put_zeros(to, 16);
}

void put_field_attributes(struct buffer *to, const struct parts *p)
{
    put_block(to, p, VINDASKOT_TYPE_FLAG_ATTRIBUTES);
}

void put_field(struct buffer *to, const struct parts *p)
{
    size_t start = to->len;
    put_field_head(to, p, 0, 0);
    put_field_guid(to, p);
    if ((p->flags & VINDASKOT_TYPE_FLAG_COPY_MASK) != 0)
        put_zeros(to, p->numbers[3]);
    put_field_attributes(to, p);
    put_claim(to, start, to->len - start);
}

/* ---- Drafts ---- */

/* Letters, any bytes, or few different ones, so that names are met again. */
static void make_string(struct buffer *to, size_t most)
{
    size_t len = below(most + 1), way = below(3);
    for (size_t i = 0; i < len; i++)
        put_number(to, way == 0 ? 'A' + below(26) : way == 1 ? any() : 'a' + below(2), 1);
}

struct bytes string_in(struct buffer *pool, size_t most)
{
    size_t start = pool->len;
    make_string(pool, most);
    return (struct bytes){pool->at + start, pool->len - start};
}

static struct bytes since(const struct buffer *pool, size_t start)
{
    return (struct bytes){pool->at + start, pool->len - start};
}

static size_t some_length(void)
{
    return one_in(40) ? 300 : one_in(3) ? 40 : 5;
}

static void draft_strings(struct draft *d)
{
    struct parts *p = &d->parts;
    d->pool.len = 0;
    memset(p, 0, sizeof *p);
    for (size_t i = 0; i < 6; i++)
        p->numbers[i] = (uint32_t)any();
    p->name = string_in(&d->pool, some_length());
    p->type_name = string_in(&d->pool, some_length());
    p->comment = string_in(&d->pool, some_length());
}

void draft_guid(struct draft *d)
{
    size_t start = d->pool.len;
    put_any(&d->pool, 16);
    d->parts.guid = since(&d->pool, start);
}

/* A name of its own, or one of those before it, whole or its start: so that names are alike, and begin one another. */
static struct bytes draft_name(struct draft *d, size_t number)
{
    if (number == 0 || !one_in(3))
        return string_in(&d->pool, one_in(20) ? 255 : 8);
    struct bytes before = d->names[below(number)];
    return part(before, 0, one_in(2) ? before.len : below(before.len + 1));
}

void draft_attributes(struct draft *d)
{
    struct parts *p = &d->parts;
    p->count = below(SOME + 1);
    for (size_t i = 0; i < p->count; i++) {
        d->names[i] = draft_name(d, i);
        d->values[i] = string_in(&d->pool, one_in(20) ? 255 : 8);
    }
    size_t start = d->pool.len;
    for (size_t i = 0; i < p->count; i++)
        put_attribute(&d->pool, d->names[i], d->values[i]);
    p->block = since(&d->pool, start);
}

static void draft_chain(struct draft *d)
{
    struct parts *p = &d->parts;
    p->links = 1 + below(SOME);
    for (size_t i = 0; i < p->links; i++) {
        d->formers[i] = string_in(&d->pool, some_length());
        d->counts[i] = (uint32_t)any() & COUNT_MASK & ~NEXT_BIT;
        d->counts[i] |= i + 1 < p->links ? NEXT_BIT : 0;
    }
    size_t start = d->pool.len;
    for (size_t i = 0; i < p->links; i++)
        put_refactor(&d->pool, d->counts[i], d->formers[i]);
    p->chain = since(&d->pool, start);
}

/* Mostly two bytes of their own; else none, one of the two, or what would be flags in the word before them. */
static uint16_t some_high(void)
{
    static const uint16_t telling[] = {0x0000,
                                       0x0001,
                                       0x0100,
                                       0xFFFF,
                                       VINDASKOT_SYMBOL_FLAG_TYPE_GUID,
                                       VINDASKOT_SYMBOL_FLAG_ATTRIBUTES,
                                       VINDASKOT_SYMBOL_FLAG_EXTENDED_FLAGS};
    return one_in(4) ? telling[below(sizeof telling / sizeof *telling)] : (uint16_t)any();
}

/* A symbol that the writer accepts. */
void draft_symbol(struct draft *d)
{
    struct parts *p = &d->parts;
    draft_strings(d);
    p->flags = (uint32_t)any() & 0xFFFF;
    p->high = some_high();
    if ((p->flags & VINDASKOT_SYMBOL_FLAG_TYPE_GUID) != 0)
        draft_guid(d);
    if ((p->flags & VINDASKOT_SYMBOL_FLAG_ATTRIBUTES) != 0)
        draft_attributes(d);
    if ((p->flags & VINDASKOT_SYMBOL_FLAG_EXTENDED_FLAGS) != 0)
        p->extended = one_in(2) ? (uint32_t)any() : VINDASKOT_SYMBOL2_FLAG_REFACTOR_INFO;
    if ((p->extended & VINDASKOT_SYMBOL2_FLAG_REFACTOR_INFO) != 0)
        draft_chain(d);
}

/* A field that the writer accepts: without the method flag it is fit. */
void draft_field(struct draft *d)
{
    struct parts *p = &d->parts;
    draft_strings(d);
    p->flags = (uint32_t)any();
    p->numbers[3] = (uint32_t)below(one_in(10) ? 3000 : 40);
    if ((p->flags & VINDASKOT_TYPE_FLAG_TYPE_GUID) != 0 ? !one_in(8) : one_in(8))
        draft_guid(d);
    if ((p->flags & VINDASKOT_TYPE_FLAG_ATTRIBUTES) != 0)
        draft_attributes(d);
}

/* A byte that is 0, as end bytes are, is so no more. */
static void spoil_end(struct draft *d, struct bytes block)
{
    uint8_t *at = d->pool.at + (block.len > 0 ? block.at - d->pool.at : 0);
    size_t i = below(block.len);
    while (i < block.len && at[i] != 0)
        i++;
    if (i < block.len)
        at[i] = (uint8_t)(1 + below(255));
}

/* One argument changed, which may or may not be refused. */
void spoil(struct draft *d)
{
    static const uint8_t long_one[65538];
    struct parts *p = &d->parts;
    struct bytes *strings[] = {&p->name, &p->type_name, &p->comment};
    struct bytes *block = one_in(2) ? &p->block : &p->chain;
    uint8_t *byte = block->len > 0 ? &d->pool.at[(size_t)(block->at - d->pool.at) + below(block->len)] : NULL;
    switch (below(12)) {
    case 0: p->flags ^= 1u << below(16); break;
    case 1: p->extended ^= 1u << below(32); break;
    case 2: p->count += 1 + below(3); break;
    case 3: p->count = one_in(3) ? SIZE_MAX - below(2) : below(SOME); break;
    case 4: p->links = one_in(3) ? SIZE_MAX - below(2) : below(SOME); break;
    case 5: p->guid.len = p->guid.len > 0 ? below(17) : 0; break;
    case 6: block->len = below(block->len + 1); break;
    case 7: p->numbers[3] = (uint32_t)any(); break;
    case 8: *strings[below(3)] = (struct bytes){long_one, 65535 + below(4)}; break;
    case 9: p->high ^= (uint16_t)(1u << below(16)); break;
    case 10:
        if (byte != NULL)
            *byte ^= (uint8_t)(1u << below(8));
        break;
    default: spoil_end(d, *block);
    }
}

/* ---- Bytes to be read ---- */

static struct draft made;

/* The right claim and short strings, so that random bytes are read as sections. */
static void believe(struct buffer *b, size_t header)
{
    if (b->len < header)
        return;
    put_claim(b, 0, b->len);
    for (size_t at = header == 30 ? 24 : 32; at < header; at += 2) {
        b->at[at] = (uint8_t)below(4);
        b->at[at + 1] = 0;
    }
}

static size_t random_length(void)
{
    return below(one_in(50) ? 3000 : one_in(3) ? 300 : 64);
}

/* Any bytes, or mostly small ones, which are believable lengths. */
void make_random(struct buffer *to)
{
    size_t len = random_length(), small = below(3);
    for (size_t i = 0; i < len; i++)
        put_number(to, small > 0 && !one_in(4) ? below(small == 1 ? 2 : 40) : any(), 1);
    if (one_in(2))
        believe(to, one_in(2) ? 30 : 42);
}

/* ---- End bytes ---- */

/* Where the end bytes of what was made last stand, in the order in which it has them. */
static struct ends {
    size_t at[3 + 3 * SOME];
    size_t count;
} ends;

/* The end byte of a string there, of that length; the place after it. */
static size_t end_after(size_t at, size_t len)
{
    ends.at[ends.count++] = at + len;
    return at + len + 1;
}

/* Those of an entry's strings, of attributes and of a chain's records, which stand there; the place after them. */
static size_t ends_of_strings(size_t at, const struct parts *p)
{
    ends.count = 0;
    return end_after(end_after(end_after(at, p->name.len), p->type_name.len), p->comment.len);
}

static size_t ends_of_attributes(size_t at, const struct draft *d)
{
    for (size_t i = 0; i < d->parts.count; i++)
        at = end_after(end_after(at + 2, d->names[i].len), d->values[i].len);
    return at;
}

static size_t ends_of_chain(size_t at, const struct draft *d)
{
    for (size_t i = 0; i < d->parts.links; i++)
        at = end_after(at + 6, d->formers[i].len);
    return at;
}

static void ends_of_symbol(size_t start, const struct draft *d)
{
    const struct parts *p = &d->parts;
    size_t at = ends_of_strings(start + 30, p) + p->guid.len;
    if ((p->flags & VINDASKOT_SYMBOL_FLAG_ATTRIBUTES) != 0)
        at = ends_of_attributes(at + 2, d);
    if ((p->flags & VINDASKOT_SYMBOL_FLAG_EXTENDED_FLAGS) != 0)
        ends_of_chain(at + 4, d);
}

/* Any byte but 0; often the least, the largest or the first that is negative where a byte has a sign. */
uint8_t no_zero(void)
{
    static const uint8_t telling[] = {1, 0x80, 0xFF};
    return one_in(2) ? telling[below(3)] : (uint8_t)(1 + below(255));
}

/* One in three times, one to three of the end bytes are not 0. */
static void maybe_spoil_ends(struct buffer *to)
{
    for (size_t left = one_in(3) ? 1 + below(3) : 0; left > 0 && ends.count > 0; left--)
        to->at[ends.at[below(ends.count)]] = no_zero();
}

/* A record that can be read, an attribute or one of a chain, one of whose end bytes is not 0. */
static void put_wrong_record(struct buffer *to)
{
    struct bytes name = part(whole(&made.pool), 0, below(5));
    if (one_in(2))
        put_attribute(to, name, name);
    else
        put_refactor(to, 0, name);
    to->at[to->len - 1] = no_zero();
}

/* Bytes behind the sections, or the last of them gone, and the entry claims what it then has. */
static void grow_or_cut(struct buffer *to, size_t start)
{
    size_t way = below(12);
    if (way < 3)
        put_any(to, below(20));
    else if (way == 3)
        put_wrong_record(to);
    else if (way < 6)
        to->len -= below(to->len - start < 40 ? to->len - start : 40);
    if (to->len - start >= 4)
        put_claim(to, start, to->len - start);
    if (way == 6)
        put_wrong_record(to);
}

void make_symbol(struct buffer *to)
{
    size_t start = to->len;
    draft_symbol(&made);
    put_symbol(to, &made.parts);
    ends_of_symbol(start, &made);
    maybe_spoil_ends(to);
    grow_or_cut(to, start);
}

/* An entry as a sub-item or a method may be one, with an end byte that is not 0. */
static void put_wrong_item(struct buffer *to)
{
    const struct parts small = {.name = text("n"), .type_name = text("T"), .comment = text("c")};
    size_t start = to->len;
    put_field_head(to, &small, 0, 0);
    put_claim(to, start, to->len - start);
    to->at[start + 43 + 2 * below(3)] = no_zero();
}

/* Items that begin with their length, which may lie. */
static void put_items(struct buffer *to, size_t count)
{
    static const uint32_t lies[] = {0, 1, 2, 3, 6, 200, 0x7FFFFFFF, 0xFFFFFFFF};
    for (size_t i = 0; i < count; i++) {
        size_t len = 4 + below(9);
        if (one_in(4)) {
            put_wrong_item(to);
            continue;
        }
        put_number(to, one_in(6) ? lies[below(8)] : len, 4);
        put_any(to, len - 4);
    }
}

/* What stands between a field's strings and its attributes, as a controller sends it. */
static void put_skipped(struct buffer *to, const struct parts *p, size_t arrays, size_t items)
{
    put_any(to, 8 * arrays);
    put_items(to, items);
    put_field_guid(to, p);
    if ((p->flags & VINDASKOT_TYPE_FLAG_COPY_MASK) != 0)
        put_any(to, p->numbers[3] < 4000 ? p->numbers[3] : below(40));
    if ((p->flags & VINDASKOT_TYPE_FLAG_METHOD_INFOS) != 0) {
        size_t methods = below(4);
        put_number(to, methods, 2);
        put_items(to, methods);
    }
}

static void put_field_block(struct buffer *to, const struct draft *d)
{
    if ((d->parts.flags & VINDASKOT_TYPE_FLAG_ATTRIBUTES) != 0)
        ends_of_attributes(to->len + 2, d);
    put_block(to, &d->parts, VINDASKOT_TYPE_FLAG_ATTRIBUTES);
}

/* A field as a controller sends it, with what the writer never writes. */
void make_field(struct buffer *to)
{
    struct parts *p = &made.parts;
    size_t start = to->len, arrays = one_in(3) ? below(4) : 0, items = one_in(3) ? below(4) : 0;
    draft_field(&made);
    if (one_in(8))
        p->numbers[3] = (uint32_t)any();
    put_field_head(to, p, arrays, items);
    ends_of_strings(start + 42, p);
    put_skipped(to, p, arrays, items);
    put_field_block(to, &made);
    maybe_spoil_ends(to);
    grow_or_cut(to, start);
}

/* A chain, or attributes, and what stands behind them. */
void make_records(struct buffer *to)
{
    draft_symbol(&made);
    draft_attributes(&made);
    draft_chain(&made);
    ends.count = 0;
    if (one_in(2)) {
        ends_of_attributes(to->len, &made);
        put(to, made.parts.block);
    } else {
        ends_of_chain(to->len, &made);
        put(to, made.parts.chain);
    }
    maybe_spoil_ends(to);
    if (one_in(3))
        put_any(to, below(20));
}

/* ---- Entries that are wrong in a single end byte, or right beside one ---- */

/* Where that byte stands. */
enum wrong {
    IN_NAME,
    IN_TYPE,
    IN_COMMENT,
    IN_ATTRIBUTE_NAME,
    IN_ATTRIBUTE_VALUE,
    BEFORE_SHORT,  /* in an attribute, and the last attribute is short */
    WITHIN_SHORT,  /* in the last attribute, which is short */
    SYMBOLS_ALONE, /* what follows only symbols have */
    IN_CHAIN = SYMBOLS_ALONE,
    IN_DROPPED, /* in a chain whose last record is short */
    IN_UNREAD,  /* in a record behind the last section */
    FIELDS_ALONE,
    IN_ITEM = FIELDS_ALONE, /* in a sub-item */
    IN_METHOD,
    WRONGS
};

/* A draft whose attributes are its last section: two or more, none of whose values is empty. */
static void draft_attributed(bool field)
{
    struct parts *p = &made.parts;
    bool empty = true;
    (field ? draft_field : draft_symbol)(&made);
    p->flags |= VINDASKOT_SYMBOL_FLAG_ATTRIBUTES | VINDASKOT_TYPE_FLAG_ATTRIBUTES;
    p->flags &= ~(field ? VINDASKOT_TYPE_FLAG_METHOD_INFOS : VINDASKOT_SYMBOL_FLAG_EXTENDED_FLAGS);
    p->extended = 0;
    p->links = p->chain.len = 0;
    while (empty) {
        draft_attributes(&made);
        empty = p->count < 2;
        for (size_t i = 0; i < p->count; i++)
            empty |= made.values[i].len == 0;
    }
}

/* A symbol with a chain of two or more records, whose last name is not empty. */
static void draft_chained(void)
{
    struct parts *p = &made.parts;
    draft_symbol(&made);
    p->flags |= VINDASKOT_SYMBOL_FLAG_EXTENDED_FLAGS;
    p->extended = VINDASKOT_SYMBOL2_FLAG_REFACTOR_INFO;
    do
        draft_chain(&made);
    while (p->links < 2 || made.formers[p->links - 1].len == 0);
}

/* Which of the end bytes is wrong: the last of them but so many. */
static size_t from_last(size_t back)
{
    return ends.at[ends.count - 1 - back];
}

/* An entry without what a field skips, one of whose end bytes is not 0. */
static void put_wrong_end(struct buffer *to, enum wrong wrong, bool field)
{
    size_t start = to->len, place;
    (field ? put_field : put_symbol)(to, &made.parts);
    if (field) {
        ends_of_strings(start + 42, &made.parts);
        ends_of_attributes(to->len - made.parts.block.len, &made);
    } else {
        ends_of_symbol(start, &made);
    }
    switch (wrong) {
    case IN_ATTRIBUTE_NAME: place = ends.at[3 + 2 * below(made.parts.count)]; break;
    case IN_ATTRIBUTE_VALUE: place = ends.at[4 + 2 * below(made.parts.count)]; break;
    case BEFORE_SHORT: place = ends.at[3 + below(2 * made.parts.count - 2)]; break;
    case WITHIN_SHORT: place = from_last(1); break;
    case IN_CHAIN: place = from_last(below(made.parts.links)); break;
    case IN_DROPPED: place = from_last(1 + below(made.parts.links - 1)); break;
    case IN_UNREAD:
        put_wrong_record(to);
        place = to->len - 1;
        break;
    default: place = ends.at[wrong];
    }
    to->at[place] = no_zero();
    if (wrong == BEFORE_SHORT || wrong == WITHIN_SHORT || wrong == IN_DROPPED)
        to->len -= 1;
    put_claim(to, start, to->len - start);
}

/* A field that skips one, with its right length. */
static void put_wrong_skipped(struct buffer *to, enum wrong wrong)
{
    size_t start = to->len;
    put_field_head(to, &made.parts, 0, wrong == IN_ITEM);
    if (wrong == IN_ITEM)
        put_wrong_item(to);
    put_field_guid(to, &made.parts);
    if ((made.parts.flags & VINDASKOT_TYPE_FLAG_COPY_MASK) != 0)
        put_zeros(to, made.parts.numbers[3]);
    if (wrong == IN_METHOD) {
        put_number(to, 1, 2);
        put_wrong_item(to);
    }
    put_block(to, &made.parts, VINDASKOT_TYPE_FLAG_ATTRIBUTES);
    put_claim(to, start, to->len - start);
}

static void put_wrong(struct buffer *to, enum wrong wrong, bool field)
{
    if (wrong == IN_CHAIN || wrong == IN_DROPPED)
        draft_chained();
    else
        draft_attributed(field);
    if (wrong == IN_METHOD)
        made.parts.flags |= VINDASKOT_TYPE_FLAG_METHOD_INFOS;
    if (wrong >= FIELDS_ALONE)
        put_wrong_skipped(to, wrong);
    else
        put_wrong_end(to, wrong, field);
}

/* One of each, of symbols and of fields where both can be so, from any of them on: so that each such upload has them
 * all. */
void make_wrong(struct buffer *to)
{
    for (size_t i = 0, from = below(WRONGS); i < WRONGS; i++) {
        enum wrong wrong = (enum wrong)((from + i) % WRONGS);
        if (wrong < FIELDS_ALONE)
            put_wrong(to, wrong, false);
        if (wrong < SYMBOLS_ALONE || wrong >= FIELDS_ALONE)
            put_wrong(to, wrong, true);
    }
}

/* ---- Names in another case ---- */

static bool letter(uint8_t c)
{
    return (c >= 'A' && c <= 'Z') || (c >= 'a' && c <= 'z');
}

void recase(struct room name)
{
    for (size_t i = 0; i < name.len; i++)
        if (letter(name.at[i]) && one_in(2))
            name.at[i] ^= 0x20;
}

/* One byte that is no letter, changed as a letter's case is. Where there are letters alone, one of them is another. */
void miss_case(struct room name)
{
    size_t start = below(name.len), i = 0;
    while (i < name.len && letter(name.at[(start + i) % name.len]))
        i++;
    if (name.len > 0)
        name.at[(start + i) % name.len] ^= i < name.len ? 0x20 : 1;
}

/* Two letters at least, and what is none at its end; between them letters, bytes beside them, accented ones, any. */
static struct room make_name(void)
{
    static const uint8_t marks[] = {'@', '`', '[', '{', '_', '.', '0', 0x10, 0x00, ' ', 0xC4, 0xE4, 0xD7, 0xDE, 0xFE};
    static uint8_t at[64];
    struct room name = {at, 3 + below(one_in(2) ? 20 : 61)};
    for (size_t i = 0; i < name.len; i++) {
        bool mark = i + 1 == name.len || (i > 1 && one_in(4));
        at[i] = mark ? marks[below(sizeof marks)] : (uint8_t)('A' + below(26));
        if (i > 1 && !mark && one_in(8))
            at[i] = (uint8_t)any();
    }
    recase(name);
    return name;
}

/* The name of the next entry, from that of the one before. The second differs from the first in case alone. */
static void next_name(struct room name, size_t number)
{
    size_t way = number == 1 ? 0 : below(5);
    for (size_t i = 0; way == 0 && i < name.len; i++)
        name.at[i] ^= letter(name.at[i]) ? 0x20 : 0;
    if (way == 1 || way == 2)
        recase(name);
    if (way > 1 && way < 4)
        miss_case(name);
}

/* Entries whose names differ in case alone, or nearly so. The first two are accepted in the present mode, so that each
 * such upload has them; in the checked one some are passed over. */
void make_family(struct buffer *to)
{
    static struct buffer entry;
    struct room name = make_name();
    for (size_t number = 0, count = 2 + below(6); number < count; number++) {
        bool field = number > 1 && one_in(6);
        (field ? draft_field : draft_symbol)(&made);
        if (number > 0)
            next_name(name, number);
        made.parts.name = (struct bytes){name.at, name.len};
        entry.len = 0;
        (field ? put_field : put_symbol)(&entry, &made.parts);
        ends_of_strings(field ? 42 : 30, &made.parts);
        maybe_spoil_ends(&entry);
        if (number > 1 && one_in(4))
            damage(&entry, 30);
        put(to, whole(&entry));
    }
}

/* Entries of both kinds, sound, damaged and refused. */
void make_upload(struct buffer *to)
{
    static struct buffer entry;
    for (size_t left = 1 + below(6); left > 0; left--) {
        entry.len = 0;
        if (one_in(4))
            make_field(&entry);
        else
            make_symbol(&entry);
        if (one_in(4))
            damage(&entry, 30);
        put(to, whole(&entry));
    }
}

/* UTF-8 that has Windows-1252 bytes, mostly, and pieces of what has none or is none. */
void make_text(struct buffer *to)
{
    static const char *const pieces[] = {
        "a",
        "\xC2\x81",
        "\xC3\xA4",
        "\xE2\x82\xAC",
        "\xC5\xBD",
        "\xC2\x80",
        "\xE2\x82\xAD",
        "\x80",
        "\xC3",
        "\xE2\x82",
        "\xC0\x80",
        "\xE0\x80\x80",
        "\xED\xA0\x80",
        "\xF0\x80\x80\x80",
        "\xF4",
        "\xF0\x9F\x98\x80",
        "\xF4\x8F\xBF\xBF",
        "\xF4\x90\x80\x80",
        "\xEF\xBB\xBF",
        "\xFE\xFF",
        "\xC4\x80",
    };
    const size_t good = 5, all = sizeof pieces / sizeof *pieces;
    bool sound = one_in(2);
    for (size_t left = below(30); left > 0; left--) {
        const char *piece = pieces[below(sound || !one_in(8) ? good : all)];
        put(to, (struct bytes){(const uint8_t *)piece, strlen(piece)});
    }
}

/* ---- Damage ---- */

static void flip(struct buffer *b)
{
    for (size_t left = 1 + below(4); left > 0 && b->len > 0; left--)
        b->at[below(b->len)] ^= (uint8_t)(1u << below(8));
}

static void overwrite(struct buffer *b)
{
    static const uint8_t telling[] = {0, 1, 2, 3, 4, 7, 0x10, 0x7F, 0x80, 0xFF};
    for (size_t left = 1 + below(3); left > 0 && b->len > 0; left--)
        b->at[below(b->len)] = telling[below(sizeof telling)];
}

static void reclaim(struct buffer *b, size_t header)
{
    const size_t claims[] = {0,          1,          3,          4,          header - 1,
                             header,     header + 2, header + 3, b->len,     b->len + 1,
                             b->len - 1, b->len / 2, 0x7FFFFFFF, 0xFFFFFFFF, (size_t)(any() & 0xFFFFFFFF)};
    if (b->len >= 4)
        put_claim(b, 0, claims[below(sizeof claims / sizeof *claims)]);
}

/* The lengths of the strings and, in a field, the counts of arrays and sub-items: just right, or far off. */
static void relength(struct buffer *b, size_t header)
{
    size_t first = header == 30 ? 24 : 32, at = first + 2 * below((header - first) / 2);
    if (b->len < header)
        return;
    size_t now = (size_t)number_at(whole(b), at, 2);
    size_t then = one_in(3) ? below(65536) : one_in(2) ? now + 1 : b->len - header - below(6);
    b->at[at] = (uint8_t)then;
    b->at[at + 1] = (uint8_t)(then >> 8);
}

void damage(struct buffer *b, size_t header)
{
    for (size_t left = 1 + below(2); left > 0; left--)
        switch (below(6)) {
        case 0: b->len = below(b->len + 1); break;
        case 1: put_any(b, below(40)); break;
        case 2: flip(b); break;
        case 3: overwrite(b); break;
        case 4: reclaim(b, header); break;
        default: relength(b, header);
        }
}

/* ---- Damaged uploads ---- */

static void hurt_claim(struct buffer *e)
{
    const size_t claims[] = {0, 1, 2, 3, 4, 4 + below(26), 29, 30, 32, 33, e->len - 1, e->len + 1,
                             e->len + below(200), 0x7FFFFFFF, 0xFFFFFFFF, (size_t)(any() & 0xFFFFFFFF)};
    put_claim(e, 0, claims[below(sizeof claims / sizeof *claims)]);
}

static void hurt_length(struct buffer *e)
{
    size_t at = 24 + below(6);
    e->at[at] = one_in(2) ? 0xFF : (uint8_t)(e->at[at] + 1 + below(3));
}

/* As much of an entry as is left when its end is gone, and the claim with it: what follows is walked as before. */
static void hurt_end(struct buffer *e)
{
    e->len = 4 + below(e->len - 4);
    put_claim(e, 0, e->len);
}

static void hurt(struct buffer *e)
{
    switch (below(8)) {
    case 0: hurt_claim(e); break;
    case 1: hurt_end(e); break;
    case 2:
    case 3:
    case 4: hurt_length(e); break;
    case 5:
    case 6: e->at[ends.at[below(ends.count)]] = no_zero(); break;
    default: flip(e);
    }
}

/* Up to twelve symbols, each of them hurt one time in three, so that hurt ones stand side by side too, or all of them,
 * or none; then often cut, or with bytes behind the last. */
void make_damaged(struct buffer *to)
{
    static struct buffer entry;
    size_t way = below(6), end = below(6);
    for (size_t left = below(13); left > 0; left--) {
        entry.len = 0;
        draft_symbol(&made);
        put_symbol(&entry, &made.parts);
        ends_of_symbol(0, &made);
        if (way == 0 || (way > 1 && one_in(3)))
            hurt(&entry);
        put(to, whole(&entry));
    }
    if (end == 0)
        to->len -= below(to->len < 90 ? to->len + 1 : 90);
    else if (end == 1)
        put_any(to, 1 + below(5));
    else if (end == 2)
        put_zeros(to, 1 + below(40));
}

/* ---- Uploads that need much of their room ---- */

/* A symbol of 33 bytes is made longer, cut with its claim, or gets an end byte that is not 0. */
static void widen(struct buffer *to, size_t start)
{
    switch (below(3)) {
    case 0: put_any(to, 1 + below(8)); break;
    case 1: to->len -= 1 + below(29); break;
    default: to->at[to->len - 1 - below(3)] = no_zero();
    }
    put_claim(to, start, to->len - start);
}

/* Up to forty symbols without strings, in half of the uploads one in six of them another, and often bytes behind the
 * last: too few for an entry, or a claim of zero. */
void make_narrow(struct buffer *to)
{
    bool others = one_in(2);
    size_t end = below(4);
    for (size_t left = below(41); left > 0; left--) {
        size_t start = to->len;
        put_zeros(to, 4);
        put_any(to, 20);
        put_zeros(to, 9);
        put_claim(to, start, 33);
        if (others && one_in(6))
            widen(to, start);
    }
    size_t behind = 1 + below(32);
    put_zeros(to, end < 2 ? behind : 0);
    if (end == 0)
        memset(to->at + to->len - behind, 0xFF, behind);
}
