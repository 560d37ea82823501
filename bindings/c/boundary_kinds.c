/* Which end byte an answer of the checked mode is about, worked out from the entry's own bytes and from what the
 * present mode tells of it. It decides nothing: it is the group that a check is counted in, so that the program can say
 * which kinds it never saw. */
#include "boundary.h"

/* Whether these bytes begin with a record that can be read and has an end byte that is not 0. */
static bool wrong_record(struct bytes b)
{
    return model_attribute_read(b).status == 16 || model_refactor_read(b).status == 16;
}

/* From a place on; nothing where that is past the end. */
static struct bytes rest(struct bytes b, uint64_t at)
{
    return at < b.len ? part(b, (size_t)at, b.len - (size_t)at) : part(b, 0, 0);
}

/* Whether an attribute stands there that is short and whose name's end byte, which is there, is not 0. */
static bool short_and_wrong(struct bytes e, uint64_t at)
{
    struct bytes left = rest(e, at);
    return model_attribute_read(left).status == 1 && left.len > 2u + left.at[0] && left.at[2 + left.at[0]] != 0;
}

/* Whether that is the place of the end byte of an attribute's name, of those from there on. */
static bool of_attribute_name(struct bytes e, uint64_t at, uint64_t place)
{
    uint64_t name_end = 0;
    while (at + 1 < place) {
        name_end = at + 2 + e.at[at];
        at = name_end + 2 + e.at[at + 1];
    }
    return name_end == place;
}

static const enum group of_string[3] = {ENDS_NAME, ENDS_TYPE, ENDS_COMMENT};

/* Which of an entry's three strings has its end byte there, or 3. */
static size_t string_with_end(struct bytes e, size_t header, size_t lengths, uint64_t place)
{
    size_t at = header, i = 0;
    for (; i < 3; i++) {
        at += (size_t)number_at(e, lengths + 2 * i, 2);
        if (at++ == place)
            break;
    }
    return i;
}

/* Of a symbol that the present mode accepts: whether its list of attributes ends at one that is short, and where. */
static bool list_is_short(struct bytes e, const uint64_t *s, uint64_t *at)
{
    uint64_t shown = s[VINDASKOT_SYMBOL_ATTRIBUTE_COUNT];
    *at = s[VINDASKOT_SYMBOL_ATTRIBUTES_AT];
    if ((s[VINDASKOT_SYMBOL_FLAGS] & VINDASKOT_SYMBOL_FLAG_ATTRIBUTES) == 0 || *at < 2 ||
        *at > s[VINDASKOT_SYMBOL_LENGTH])
        return false;
    uint64_t count = number_at(e, (size_t)*at - 2, 2);
    for (uint64_t i = 0; i < shown; i++)
        *at += 4 + (uint64_t)e.at[*at] + e.at[*at + 1];
    return shown < count && *at < s[VINDASKOT_SYMBOL_LENGTH];
}

static enum group refused_symbol(struct bytes e, const uint64_t *s, uint64_t place)
{
    size_t string = string_with_end(e, 30, 24, place);
    uint64_t at;
    if (string < 3)
        return of_string[string];
    if (place >= s[VINDASKOT_SYMBOL_REFACTORS_AT])
        return s[VINDASKOT_SYMBOL_REFACTOR_COUNT] > 0 ? ENDS_FORMER : ENDS_IN_DROPPED;
    if (list_is_short(e, s, &at))
        return ENDS_BEFORE_SHORT;
    return of_attribute_name(e, s[VINDASKOT_SYMBOL_ATTRIBUTES_AT], place) ? ENDS_ATTRIBUTE_NAME : ENDS_ATTRIBUTE_VALUE;
}

static enum group accepted_symbol(struct bytes b, const uint64_t *s, enum group usual)
{
    uint64_t length = s[VINDASKOT_SYMBOL_LENGTH], at;
    struct bytes e = part(b, 0, (size_t)length);
    if (list_is_short(e, s, &at) && short_and_wrong(e, at))
        return SHORT_FIRST;
    if (wrong_record(rest(e, length - s[VINDASKOT_SYMBOL_UNREAD])))
        return UNREAD_ENDS;
    return wrong_record(rest(b, length)) ? BEHIND_ENDS : usual;
}

enum group symbol_group(struct bytes b, struct told present, struct told want, enum group usual)
{
    if (want.status == 16)
        return refused_symbol(b, present.slots, want.answer[0]);
    return want.status == VINDASKOT_DONE ? accepted_symbol(b, present.slots, usual) : usual;
}

/* Whether one of so many items from there on, each as long as it says, is an entry that the checked mode refuses for an
 * end byte. Where they lead. */
static bool wrong_items(struct bytes e, size_t *at, uint64_t count)
{
    bool wrong = false;
    for (; count > 0 && rest(e, *at).len >= 4; count--) {
        wrong |= model_field_read(rest(e, *at)).status == 16;
        *at += (size_t)number_at(e, *at, 4);
    }
    return wrong;
}

static enum group accepted_field(struct bytes b, const uint64_t *s, enum group usual)
{
    struct bytes e = part(b, 0, (size_t)s[VINDASKOT_FIELD_LENGTH]);
    uint64_t flags = s[VINDASKOT_FIELD_FLAGS], size = s[VINDASKOT_FIELD_SIZE];
    size_t at = (size_t)(s[VINDASKOT_FIELD_COMMENT_AT] + s[VINDASKOT_FIELD_COMMENT_LEN]) + 1;
    at += 8 * (size_t)number_at(e, 38, 2);
    if (wrong_items(e, &at, number_at(e, 40, 2)))
        return SKIPPED_ITEMS;
    at += s[VINDASKOT_FIELD_HAS_GUID] != 0 ? 16 : 0;
    if ((flags & VINDASKOT_TYPE_FLAG_COPY_MASK) != 0)
        at = size < rest(e, at).len ? at + (size_t)size : e.len;
    if ((flags & VINDASKOT_TYPE_FLAG_METHOD_INFOS) != 0 && rest(e, at).len >= 2) {
        uint64_t methods = number_at(e, at, 2);
        at += 2;
        if (wrong_items(e, &at, methods))
            return SKIPPED_METHODS;
    }
    return wrong_record(rest(b, e.len)) ? BEHIND_ENDS : usual;
}

/* A field whose attribute is short tells by its second figure where that one stands. */
enum group field_group(struct bytes b, struct told present, struct told want, enum group usual)
{
    size_t claim = b.len >= 4 ? (size_t)number_at(b, 0, 4) : 0;
    if (want.status == VINDASKOT_DONE)
        return accepted_field(b, present.slots, usual);
    if (want.status == 1)
        return short_and_wrong(part(b, 0, claim), claim - want.answer[1]) ? SHORT_FIRST : usual;
    if (want.status != 16)
        return usual;
    size_t string = string_with_end(b, 42, 32, want.answer[0]);
    if (string < 3)
        return of_string[string];
    if (present.status != VINDASKOT_DONE)
        return ENDS_BEFORE_SHORT;
    uint64_t first = present.slots[VINDASKOT_FIELD_ATTRIBUTES_AT];
    return of_attribute_name(b, first, want.answer[0]) ? ENDS_ATTRIBUTE_NAME : ENDS_ATTRIBUTE_VALUE;
}

enum group alone_group(struct bytes b, struct told want, enum group usual)
{
    return want.status == 16 ? ENDS_ALONE : want.status == 1 && short_and_wrong(b, 0) ? SHORT_FIRST : usual;
}
