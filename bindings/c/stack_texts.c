/* The texts that stack measures by: every kind of them, both ways, every refusal, lengths from 0 to the limit. */
#include <stdio.h>
#include <stdlib.h>
#include <string.h>

#include "stack.h"

enum { LIMIT = 1 << 24, MEGABYTE = 1 << 20, LONG = 1 << 16 };

/* Of what a text consists: bytes of Windows-1252, or their characters in UTF-8. */
enum kind { ASCII, ACCENTS, SPECIAL, IN_ORDER, MIXED, SPARSE, KINDS };

static uint8_t *text, *out;
static uint8_t utf8[256][4], utf8_len[256]; /* each byte's character */
static size_t random_count;
static uint64_t state;

static uint64_t below(uint64_t end)
{
    state ^= state << 13, state ^= state >> 7, state ^= state << 17;
    return (state >> 11) % end;
}

void stack_texts_begin(size_t count, uint64_t seed)
{
    random_count = count, state = 88172645463325252u ^ seed * 0x9E3779B97F4A7C15u;
    text = malloc(LIMIT + 64), out = malloc(3 * (size_t)LIMIT + 64);
    if (text == NULL || out == NULL) {
        perror("stack: memory");
        exit(2);
    }
    for (int i = 0; i < 256; i++) {
        uint8_t byte = (uint8_t)i;
        uint64_t answer[2];
        if (vindaskot_decode(&byte, 1, utf8[i], 3, answer) != VINDASKOT_DONE) {
            fputs("stack: a byte is not decoded\n", stderr);
            exit(1);
        }
        utf8_len[i] = (uint8_t)answer[0];
    }
}

static uint8_t byte_of(enum kind kind, size_t place)
{
    switch (kind) {
    case ASCII: return (uint8_t)(place % 128);
    case ACCENTS: return (uint8_t)(0xA0 + place % 96);
    case SPECIAL: return (uint8_t)(0x80 + place % 32);
    case IN_ORDER: return (uint8_t)place;
    case MIXED: return (uint8_t)below(256);
    default: return place % 61 == 60 ? (uint8_t)(0x80 + place / 61 % 128) : 'a';
    }
}

/* Puts the characters of bytes in the place of these. Result: how many bytes of UTF-8 that is. */
static size_t put(uint8_t *at, const uint8_t *bytes, size_t len)
{
    uint8_t *to = at;
    for (size_t i = 0; i < len; i++) {
        memcpy(to, utf8[bytes[i]], utf8_len[bytes[i]]);
        to += utf8_len[bytes[i]];
    }
    return (size_t)(to - at);
}

/* Makes a text of that many bytes: of Windows-1252, or of UTF-8, with small letters where no character fits. */
static void fill(enum function function, enum kind kind, size_t len)
{
    for (size_t i = 0, place = 0; i < len; place++) {
        uint8_t byte = byte_of(kind, place);
        if (function == DECODE)
            text[i++] = byte;
        else
            i += put(text + i, utf8_len[byte] <= len - i ? &byte : (const uint8_t *)"a", 1);
    }
}

static size_t needed(enum function function, size_t len)
{
    size_t bytes = 0;
    for (size_t i = 0; i < len; i++)
        bytes += function == DECODE ? utf8_len[text[i]] : (text[i] & 0xC0) != 0x80;
    return bytes;
}

/* The text that is there, with each length that may be lent. It has no fault. */
static void sound(enum function function, size_t len)
{
    size_t bytes = needed(function, len);
    if (len <= LONG)
        stack_case(function, text, len, out, 0, bytes > 0 ? TOO_SMALL : DONE);
    if (bytes > 0)
        stack_case(function, text, len, out, bytes - 1, TOO_SMALL);
    stack_case(function, text, len, out, bytes, DONE);
    if (len <= LONG)
        stack_case(function, text, len, out, bytes + 1, DONE);
    stack_case(function, text, len, out, 3 * len, DONE);
}

static void both(enum kind kind, size_t len)
{
    for (enum function f = DECODE; f < FUNCTIONS; f++) {
        fill(f, kind, len);
        sound(f, len);
    }
}

/* Bytes of Windows-1252 and their characters. */
static void these(const uint8_t *bytes, size_t len)
{
    memcpy(text, bytes, len);
    sound(DECODE, len);
    sound(ENCODE, put(text, bytes, len));
}

static void each_length(void)
{
    for (size_t len = 0; len <= 300; len++)
        for (enum kind kind = ASCII; kind < KINDS; kind++)
            both(kind, len);
}

/* The kinds that take long are left to a length of each size. */
static void about_powers(void)
{
    for (size_t power = 512; power < LIMIT; power *= 2)
        for (size_t len = power - 1; len <= power + 1; len++)
            for (enum kind kind = ASCII; kind < KINDS; kind++)
                if (len <= LONG || kind == ASCII || len == MEGABYTE || (kind == SPECIAL && (len <= MEGABYTE || len == power)))
                    both(kind, len);
}

static void the_limit(void)
{
    both(ASCII, LIMIT - 1);
    for (enum kind kind = ASCII; kind < KINDS; kind++)
        both(kind, LIMIT);
}

static void above_the_limit(void)
{
    static const uint64_t lengths[] = {LIMIT + 2u, 1u << 25, 1u << 31, 0xFFFFFFFF, (uint64_t)1 << 32,
                                       ((uint64_t)1 << 32) + 5, (uint64_t)1 << 63, UINT64_MAX};
    for (enum function f = DECODE; f < FUNCTIONS; f++)
        for (enum kind kind = ASCII; kind <= SPECIAL; kind++) {
            fill(f, kind, LIMIT + 1);
            stack_case(f, text, LIMIT + 1, out, 0, TOO_LARGE);
            stack_case(f, text, LIMIT + 1, out, 3 * (LIMIT + 1), TOO_LARGE);
        }
    for (enum function f = DECODE; f < FUNCTIONS; f++)
        for (size_t i = 0; i < sizeof lengths / sizeof *lengths; i++) {
            stack_case(f, stack_nowhere(), (size_t)lengths[i], out, 0, TOO_LARGE);
            stack_case(f, stack_nowhere(), (size_t)lengths[i], out, 3 * (LIMIT + 1), TOO_LARGE);
        }
}

static void each_byte(void)
{
    for (int byte = 0; byte < 256; byte++) {
        uint8_t bytes[49];
        memset(bytes, byte, sizeof bytes);
        for (size_t len = 1; len <= sizeof bytes; len += 1 + len / 2)
            these(bytes, len);
        for (enum kind kind = ASCII; kind < KINDS; kind++)
            for (size_t place = 0; place < 18; place++) {
                for (size_t i = 0; i < 18; i++)
                    bytes[i] = i == place ? (uint8_t)byte : byte_of(kind, i + (size_t)byte);
                these(bytes, 18);
            }
    }
}

static void one_among_ascii(void)
{
    static const uint8_t high[] = {0x80, 0x81, 0x83, 0x9F, 0xA0, 0xFF};
    uint8_t bytes[68];
    for (size_t len = 1; len <= sizeof bytes; len++)
        for (size_t place = 0; place < len; place++)
            for (size_t i = 0; i < sizeof high; i++) {
                memset(bytes, 'x', len);
                bytes[place] = high[i];
                these(bytes, len);
            }
}

static void all_bytes(void)
{
    uint8_t bytes[256];
    for (int i = 0; i < 256; i++)
        bytes[i] = (uint8_t)i;
    these(bytes, 256);
    for (int times = 0; times < 200; times++) {
        for (size_t i = 255; i > 0; i--) {
            size_t other = (size_t)below(i + 1);
            uint8_t kept = bytes[i];
            bytes[i] = bytes[other];
            bytes[other] = kept;
        }
        these(bytes, 256);
    }
}

static size_t put_scalar(uint8_t *at, uint32_t value)
{
    static const uint8_t leads[] = {0, 0, 0xC0, 0xE0, 0xF0};
    size_t len = value < 0x80 ? 1 : value < 0x800 ? 2 : value < 0x10000 ? 3 : 4;
    for (size_t i = len - 1; i > 0; i--, value >>= 6)
        at[i] = (uint8_t)(0x80 | (value & 0x3F));
    at[0] = (uint8_t)(leads[len] | value);
    return len;
}

static bool has_byte(const uint8_t *at, size_t len)
{
    for (int i = 0; i < 256; i++)
        if (utf8_len[i] == len && memcmp(utf8[i], at, len) == 0)
            return true;
    return false;
}

static void each_scalar(void)
{
    for (uint32_t value = 0; value < 0x110000; value++) {
        if (value >= 0xD800 && value < 0xE000)
            continue;
        size_t len = put_scalar(text, value);
        bool has = value < 0x3000 && has_byte(text, len);
        stack_case(ENCODE, text, len, out, 3, has ? DONE : NO_BYTE);
    }
}

/* What is no text for encode: characters that have no byte, and what is no UTF-8. A cut sequence stands before the end
 * of the text, before a letter, before another start. */
static const struct {
    const char *bytes;
    enum outcome is;
} wrong[] = {
    {"\xC2\x80", NO_BYTE},          {"\xC2\x9F", NO_BYTE},          {"\xC4\x80", NO_BYTE},
    {"\xDF\xBF", NO_BYTE},          {"\xE0\xA0\x80", NO_BYTE},      {"\xE2\x82\xAD", NO_BYTE},
    {"\xED\x9F\xBF", NO_BYTE},      {"\xEE\x80\x80", NO_BYTE},      {"\xEF\xBF\xBD", NO_BYTE},
    {"\xEF\xBF\xBF", NO_BYTE},      {"\xF0\x90\x80\x80", NO_BYTE},  {"\xF0\x9F\x98\x80", NO_BYTE},
    {"\xF4\x8F\xBF\xBF", NO_BYTE},  {"\x80", ILL_FORMED},           {"\xBF", ILL_FORMED},
    {"\xC0\x80", ILL_FORMED},       {"\xC1\xBF", ILL_FORMED},       {"\xE0\x80\x80", ILL_FORMED},
    {"\xE0\x9F\xBF", ILL_FORMED},   {"\xF0\x80\x80\x80", ILL_FORMED}, {"\xF0\x8F\xBF\xBF", ILL_FORMED},
    {"\xED\xA0\x80", ILL_FORMED},   {"\xED\xBF\xBF", ILL_FORMED},   {"\xF4\x90\x80\x80", ILL_FORMED},
    {"\xF5\x80\x80\x80", ILL_FORMED}, {"\xF7\xBF\xBF\xBF", ILL_FORMED}, {"\xF8\x88\x80\x80\x80", ILL_FORMED},
    {"\xFC\x84\x80\x80\x80\x80", ILL_FORMED}, {"\xFE", ILL_FORMED}, {"\xFF", ILL_FORMED},
    {"\xC3", ILL_FORMED},           {"\xC3x", ILL_FORMED},          {"\xC3\xC3\xA9", ILL_FORMED},
    {"\xE2", ILL_FORMED},           {"\xE2x", ILL_FORMED},          {"\xE2\x82", ILL_FORMED},
    {"\xE2\x82x", ILL_FORMED},      {"\xE2\x82\xE2\x82\xAC", ILL_FORMED}, {"\xF0", ILL_FORMED},
    {"\xF0x", ILL_FORMED},          {"\xF0\x9F", ILL_FORMED},       {"\xF0\x9Fx", ILL_FORMED},
    {"\xF0\x9F\x98", ILL_FORMED},   {"\xF0\x9F\x98x", ILL_FORMED},  {"\xF0\x9F\x98\xE2\x82\xAC", ILL_FORMED},
};
enum { WRONGS = sizeof wrong / sizeof *wrong };

/* A wrong one behind so many bytes of the sound text that is there, and before so many letters. */
static void one_wrong(size_t which, size_t before, size_t behind)
{
    size_t len = strlen(wrong[which].bytes);
    memcpy(text + before, wrong[which].bytes, len);
    memset(text + before + len, 'y', behind);
    len += before + behind;
    stack_case(ENCODE, text, len, out, 0, wrong[which].is);
    if (len <= LONG)
        stack_case(ENCODE, text, len, out, 3 * len, wrong[which].is);
}

static void wrong_short(void)
{
    static const size_t befores[] = {0, 1, 2, 3, 4, 7, 8, 15, 16, 17, 31, 32, 33, 64, 127, 300};
    static const size_t behinds[] = {0, 1, 2, 3, 4, 16, 33, 300};
    for (enum kind kind = ASCII; kind <= IN_ORDER; kind++)
        for (size_t i = 0; i < sizeof befores / sizeof *befores; i++) {
            fill(ENCODE, kind, befores[i]);
            for (size_t j = 0; j < sizeof behinds / sizeof *behinds; j++)
                for (size_t which = 0; which < WRONGS; which++)
                    one_wrong(which, befores[i], behinds[j]);
        }
}

static void wrong_long(void)
{
    fill(ENCODE, ACCENTS, MEGABYTE);
    for (size_t which = 0; which < WRONGS; which++)
        one_wrong(which, MEGABYTE, 40);
    fill(ENCODE, ASCII, LIMIT);
    for (size_t which = 0; which < WRONGS; which++) {
        size_t len = strlen(wrong[which].bytes);
        one_wrong(which, MEGABYTE, 0);
        memset(text + MEGABYTE, 'y', len);
        one_wrong(which, LIMIT - len, 0);
        memset(text + LIMIT - len, 'y', len);
    }
}

static void null_pointers(void)
{
    for (enum function f = DECODE; f < FUNCTIONS; f++) {
        stack_case(f, NULL, 0, NULL, 0, DONE);
        stack_case(f, NULL, 0, out, 0, DONE);
        stack_case(f, NULL, 0, out, 9, DONE);
        stack_case(f, text, 0, NULL, 0, DONE);
        stack_case(f, (const uint8_t *)"a", 1, NULL, 0, TOO_SMALL);
    }
    stack_case(ENCODE, (const uint8_t *)"\xFF", 1, NULL, 0, ILL_FORMED);
    stack_case(ENCODE, (const uint8_t *)"\xC4\x80", 2, NULL, 0, NO_BYTE);
}

/* A text right before what is lent, and right behind it: a compiled copy may go another way where the two are near. */
static void side_by_side(void)
{
    for (enum function f = DECODE; f < FUNCTIONS; f++)
        for (enum kind kind = ASCII; kind < KINDS; kind++)
            for (size_t len = 0; len <= 70; len++)
                for (size_t gap = 0; gap < 3; gap++) {
                    fill(f, kind, len);
                    size_t lent = needed(f, len);
                    memcpy(out, text, len);
                    stack_case(f, out, len, out + len + gap, lent, DONE);
                    memcpy(out + lent + gap, text, len);
                    stack_case(f, out + lent + gap, len, out, lent, DONE);
                }
}

/* Any bytes, or characters of which now and then one is wrong, with any length lent. */
static void random_texts(void)
{
    for (size_t times = 0; times < random_count; times++) {
        size_t len = 0, most = (size_t)below(times % 50 == 0 ? 5000 : 200);
        uint64_t rare = below(3) == 0 ? 100000 : 1 + below(200);
        while (len < most)
            if (times % 4 == 0 || below(rare) == 0) {
                text[len++] = (uint8_t)below(256);
            } else if (below(rare) == 0) {
                len += put_scalar(text + len, (uint32_t)below(0xD800));
            } else {
                uint8_t byte = (uint8_t)(below(2) == 0 ? below(128) : below(256));
                len += put(text + len, &byte, 1);
            }
        for (enum function f = DECODE; f < FUNCTIONS; f++) {
            stack_case(f, text, len, out, 3 * len, ANY);
            stack_case(f, text, len, out, (size_t)below(3 * len + 1), ANY);
            stack_case(f, text, len, out, needed(f, len), ANY);
        }
    }
}

const struct group stack_groups[] = {
    {"nothing, and null pointers", null_pointers},
    {"each byte, alone and among others", each_byte},
    {"each length from 0 to 300", each_length},
    {"one high byte at each place among ASCII", one_among_ascii},
    {"all bytes in order and shuffled", all_bytes},
    {"beside what is lent", side_by_side},
    {"a wrong character at the start, in the middle and at the end", wrong_short},
    {"random texts", random_texts},
    {"above the limit", above_the_limit},
    {"a wrong character behind much text", wrong_long},
    {"lengths about powers of two", about_powers},
    {"the limit", the_limit},
    {"each Unicode scalar value alone", each_scalar},
};
const size_t stack_groups_count = sizeof stack_groups / sizeof *stack_groups;
