/* Text that is counted before it is written, since just enough is lent, or too little. What is expected is put together of
 * each byte's own text, which stands here as the Encoding Standard has it and does not come from the model. */
#include "boundary.h"

/* The text of the bytes 80 to 9F. */
static const char *const middle[32] = {
    "\xE2\x82\xAC", "\xC2\x81", "\xE2\x80\x9A", "\xC6\x92", "\xE2\x80\x9E", "\xE2\x80\xA6",
    "\xE2\x80\xA0", "\xE2\x80\xA1", "\xCB\x86", "\xE2\x80\xB0", "\xC5\xA0", "\xE2\x80\xB9",
    "\xC5\x92", "\xC2\x8D", "\xC5\xBD", "\xC2\x8F", "\xC2\x90", "\xE2\x80\x98",
    "\xE2\x80\x99", "\xE2\x80\x9C", "\xE2\x80\x9D", "\xE2\x80\xA2", "\xE2\x80\x93", "\xE2\x80\x94",
    "\xCB\x9C", "\xE2\x84\xA2", "\xC5\xA1", "\xE2\x80\xBA", "\xC5\x93", "\xC2\x9D",
    "\xC5\xBE", "\xC5\xB8",
};

static void put_text(struct buffer *to, uint8_t byte)
{
    const uint8_t high[2] = {byte < 0xC0 ? 0xC2 : 0xC3, (uint8_t)(0x80 | (byte & 0x3F))};
    if (byte < 0x80)
        put(to, (struct bytes){&byte, 1});
    else if (byte < 0xA0)
        put(to, text(middle[byte - 0x80]));
    else
        put(to, (struct bytes){high, 2});
}

/* Lent just enough, a byte less and nothing. */
static void hold(struct bytes from, struct bytes to, converting call)
{
    struct room out = lend(to.len);
    SAME(COUNTED, call(from, out), done(to.len, 0));
    CHECK(COUNTED, equal((struct bytes){out.at, out.len}, to), "other text of %zu bytes", to.len);
    if (to.len > 0) {
        SAME(COUNTED, call(from, lend(to.len - 1)), refused(6, to.len, to.len - 1));
        SAME(COUNTED, call(from, lend(0)), refused(6, to.len, 0));
    }
}

static void hold_both_ways(const struct buffer *bytes)
{
    static struct buffer wanted;
    wanted.len = 0;
    for (size_t i = 0; i < bytes->len; i++)
        put_text(&wanted, bytes->at[i]);
    hold(lay(UPLOAD, whole(bytes)), whole(&wanted), call_decode);
    hold(lay(UPLOAD, whole(&wanted)), whole(bytes), call_encode);
}

/* Each byte at places where a count by sixteens or by fewer begins and ends, among bytes of one, two and three. */
static void every_byte_among(uint8_t others, size_t len)
{
    static const size_t places[] = {0, 7, 8, 14, 15, 16, 17, 31, 32, 47};
    static struct buffer bytes;
    bytes.len = len;
    for (size_t i = 0; i < sizeof places / sizeof *places; i++)
        for (size_t byte = 0; byte < 256 && places[i] < len; byte++) {
            memset(bytes.at, others, len);
            bytes.at[places[i]] = (uint8_t)byte;
            hold_both_ways(&bytes);
        }
}

/* A code point beyond 16 bits whose low half is that of a byte from 80 to 9F: it has no byte. */
static void hold_beyond(const char *own)
{
    const uint8_t *at = (const uint8_t *)own;
    uint8_t wide[5] = {'a', 0xF0, 0x90, (uint8_t)(0x80 | (at[0] & 0x1F)), at[1]};
    if (at[0] >= 0xE0)
        wide[2] |= at[0] & 0x0F, wide[3] = at[1], wide[4] = at[2];
    SAME(TEXTS, call_encode(lay(UPLOAD, (struct bytes){wide, sizeof wide}), lend(2)), refused(11, 1, 2));
}

void try_counted(void)
{
    static const size_t lengths[] = {1, 8, 15, 16, 17, 31, 32, 33, 48};
    static struct buffer bytes;
    for (size_t i = 0; i < 32; i++)
        hold_beyond(middle[i]);
    for (size_t i = 0; i < sizeof lengths / sizeof *lengths; i++) {
        every_byte_among('a', lengths[i]);
        every_byte_among(0xE4, lengths[i]);
        every_byte_among(0x80, lengths[i]);
    }
    for (bytes.len = 0; bytes.len < 300; bytes.len++) {
        for (size_t i = 0; i < bytes.len; i++)
            bytes.at[i] = (uint8_t)(0x80 + i * 37);
        hold_both_ways(&bytes);
    }
}
