/* Sheets of uploads, held to the words of docs/FORMAT.md, "Sheet": what is expected is worked out here, byte by byte. */
#include <stdio.h>

#include "boundary.h"

/* ---- The model ---- */

enum { MOST_OF_ROW = 76, SHEET = 8 * BUFFER };

static uint8_t sheet[SHEET];
static bool quoted;

static const char header[] = "group,offset,size,type id,flags,high,name,type,comment\r\n";

static uint8_t *put_numeral(uint8_t *to, uint64_t number)
{
    return to + sprintf((char *)to, "%llu,", (unsigned long long)number);
}

/* A string as the text of its bytes, a quote twice, and all between quotes where one of four bytes is in it. */
static uint8_t *put_cell(uint8_t *to, struct bytes s)
{
    bool special = false;
    for (size_t i = 0; i < s.len; i++)
        special |= s.at[i] == ',' || s.at[i] == '"' || s.at[i] == '\r' || s.at[i] == '\n';
    quoted |= special;
    if (special)
        *to++ = '"';
    for (size_t i = 0; i < s.len; i++) {
        to += model_decode(part(s, i, 1), to).answer[0];
        if (s.at[i] == '"')
            *to++ = '"';
    }
    if (special)
        *to++ = '"';
    return to;
}

/* Why the entry at a place, which claims so many bytes, is not for a sheet, or 0. */
static uint64_t reason(struct bytes b, size_t at, size_t claim)
{
    const uint64_t flags = number_at(b, at + 20, 2);
    size_t end = at + 30;
    bool whole = true;
    if (flags & 0x0008)
        return 1;
    if (flags & 0x1000)
        return 2;
    if (flags & 0x8000)
        return 3;
    for (size_t i = 0; i < 3; i++) {
        end += number_at(b, at + 24 + 2 * i, 2);
        whole &= b.at[end++] == 0;
    }
    return whole && end == at + claim ? 0 : 5;
}

static uint8_t *put_row(uint8_t *to, struct bytes b, size_t at)
{
    static const size_t places[6] = {4, 8, 12, 16, 20, 22}, widths[6] = {4, 4, 4, 4, 2, 2};
    size_t from = at + 30;
    for (size_t i = 0; i < 6; i++)
        to = put_numeral(to, number_at(b, at + places[i], widths[i]));
    for (size_t i = 0; i < 3; i++) {
        size_t len = number_at(b, at + 24 + 2 * i, 2);
        to = put_cell(to, part(b, from, len));
        if (i < 2)
            *to++ = ',';
        from += len + 1;
    }
    *to++ = '\r';
    *to++ = '\n';
    return to;
}

/* Its answer with room enough, and the text. */
static struct told model_sheet(struct bytes b)
{
    uint8_t *to = sheet + sizeof header - 1;
    uint64_t entry = 0;
    memcpy(sheet, header, sizeof header - 1);
    quoted = false;
    for (size_t at = 0; at < b.len; entry++) {
        struct told told = model_symbol_step(b, at);
        if (told.cursor == at)
            return refused(10, 1, 0);
        if (told.status != VINDASKOT_DONE)
            return refused(told.status, told.answer[0], told.answer[1]);
        uint64_t why = reason(b, at, told.cursor - at);
        if (why != 0)
            return refused(17, entry, why);
        to = put_row(to, b, at);
        at = told.cursor;
    }
    return done((uint64_t)(to - sheet), 0);
}

/* ---- The model of an import ---- */

static uint8_t imported[SHEET];

static bool is_special(uint8_t byte)
{
    return byte == ',' || byte == '"' || byte == '\r' || byte == '\n';
}

/* The text of the cell at a place, which is moved behind it. */
static bool model_cell(struct bytes t, size_t *at, struct bytes *cell)
{
    size_t from = *at, to;
    if (from < t.len && t.at[from] == '"') {
        for (to = ++from; to < t.len && (t.at[to] != '"' || (to + 1 < t.len && t.at[to + 1] == '"')); to++)
            to += t.at[to] == '"';
        *at = to + 1;
        *cell = part(t, from, to - from);
        return to < t.len;
    }
    for (to = from; to < t.len && !is_special(t.at[to]);)
        to++;
    *at = to;
    *cell = part(t, from, to - from);
    return true;
}

/* The nine cells of the row at a place, which is moved behind it. */
static bool model_row(struct bytes t, size_t *at, struct bytes cells[9])
{
    for (size_t i = 0; i < 9; i++) {
        if (!model_cell(t, at, &cells[i]))
            return false;
        if (i < 8 && (*at >= t.len || t.at[(*at)++] != ','))
            return false;
    }
    if (*at < t.len && t.at[*at] == '\r' && *at + 1 < t.len && t.at[*at + 1] == '\n')
        ++*at;
    return *at >= t.len || t.at[(*at)++] == '\n';
}

/* A cell's number, or a number above every field's. */
static uint64_t model_number(struct bytes cell)
{
    uint64_t number = cell.len == 0 ? UINT64_MAX : 0;
    for (size_t i = 0; i < cell.len; i++) {
        if (cell.at[i] < '0' || cell.at[i] > '9')
            return UINT64_MAX;
        number = number > UINT32_MAX ? number : 10 * number + (cell.at[i] - '0');
    }
    return number;
}

/* The first bad column of a row's numbers, or 0. */
static uint64_t bad_column(const struct bytes cells[9])
{
    for (size_t i = 0; i < 6; i++) {
        uint64_t number = model_number(cells[i]);
        if (number > (i < 4 ? UINT32_MAX : UINT16_MAX) || (i == 4 && (number & 0x9008) != 0))
            return i + 1;
    }
    return 0;
}

/* A cell's string: its bytes, of each two quotes one. */
static size_t model_string(struct bytes cell, uint8_t *to)
{
    size_t len = 0;
    struct told told = model_encode(cell, to);
    for (size_t i = 0; i < told.answer[0]; i++) {
        to[len++] = to[i];
        i += to[i] == '"';
    }
    return len;
}

static uint8_t *put_low_first(uint8_t *to, uint64_t number, size_t width)
{
    for (size_t i = 0; i < width; i++)
        *to++ = (uint8_t)(number >> 8 * i);
    return to;
}

/* The upload's bytes, or where a string is too long its length, behind a string's most. */
static uint64_t model_entries(struct bytes t, size_t at, uint8_t *to)
{
    static uint8_t string[3][SHEET];
    uint8_t *start = to;
    struct bytes cells[9];
    while (at < t.len && model_row(t, &at, cells)) {
        size_t len[3], size = 33;
        for (size_t i = 0; i < 3; i++)
            size += len[i] = model_string(cells[6 + i], string[i]);
        to = put_low_first(to, size, 4);
        for (size_t i = 0; i < 6; i++)
            to = put_low_first(to, model_number(cells[i]), i < 4 ? 4 : 2);
        for (size_t i = 0; i < 3; i++)
            to = put_low_first(to, len[i], 2);
        for (size_t i = 0; i < 3; i++) {
            memcpy(to, string[i], len[i]);
            to += len[i];
            *to++ = 0;
        }
    }
    return (uint64_t)(to - start);
}

/* Its answer with room enough, and the upload, of a sheet whose strings are not too long. */
static struct told model_import(struct bytes t)
{
    static const char *const words[9] = {"group", "offset", "size", "type id", "flags", "high", "name", "type", "comment"};
    static uint8_t encoded[SHEET];
    struct bytes cells[9];
    size_t at = 0, below;
    bool shaped = model_row(t, &at, cells);
    for (size_t i = 0; shaped && i < 9; i++)
        shaped = cells[i].len == strlen(words[i]) && memcmp(cells[i].at, words[i], cells[i].len) == 0;
    if (!shaped)
        return refused(18, 1, 0);
    below = at;
    for (uint64_t row = 2; at < t.len; row++) {
        if (!model_row(t, &at, cells))
            return refused(18, row, 0);
        uint64_t column = bad_column(cells);
        if (column != 0)
            return refused(18, row, column);
    }
    struct told told = model_encode(t, encoded);
    return told.status == VINDASKOT_DONE ? done(model_entries(t, below, imported), 0) : told;
}

/* ---- Checks ---- */

static void hold_import(struct bytes t)
{
    struct told want = model_import(t);
    const bool has = want.status == VINDASKOT_DONE;
    const size_t needed = has ? (size_t)want.answer[0] : 90;
    const size_t lent[] = {0, needed - (needed > 0), needed + 3, needed};
    for (size_t i = 0; i < sizeof lent / sizeof *lent; i++) {
        struct room out = lend(lent[i]);
        bool short_of = has && lent[i] < needed;
        SAME(short_of ? IMPORTS_SHORT_OF : has ? IMPORTS : IMPORTS_REFUSED, call_sheet_import(t, out),
             short_of ? refused(6, needed, lent[i]) : want);
        CHECK(IMPORTS, !has || short_of || memcmp(out.at, imported, needed) == 0, "an imported upload of %zu bytes is another",
              needed);
    }
}

/* An exported sheet comes back as its upload; with one byte more, fewer or another it is as the model says. */
static void hold_back(struct bytes b, size_t len)
{
    static const uint8_t bytes[] = {',', '"', '\r', '\n', '0', '9', 'a', ' ', 0x00, 0x80, 0xC3, 0xE2, 0xFF};
    static uint8_t copy[SHEET];
    struct bytes t = lay(NAME, (struct bytes){sheet, len});
    hold_import(t);
    CHECK(IMPORTS, memcmp(imported, b.at, b.len) == 0, "an upload of %zu bytes does not come back from its sheet", b.len);
    for (int i = 0; i < 4; i++) {
        size_t at = below(len), cut = below(3);
        memcpy(copy, sheet, at);
        copy[at] = bytes[below(sizeof bytes)];
        memcpy(copy + at + 1, sheet + at + cut, len - at > cut ? len - at - cut : 0);
        hold_import(lay(NAME, (struct bytes){copy, len - at > cut ? len + 1 - cut : at + 1}));
    }
}

/* Lent none, a byte too few, just enough and more. */
static void hold_sheet(struct bytes b)
{
    struct told want = model_sheet(b);
    const bool has = want.status == VINDASKOT_DONE;
    const size_t needed = has ? (size_t)want.answer[0] : 90;
    const size_t lent[] = {0, needed - 1, needed + 3, needed};
    for (size_t i = 0; i < sizeof lent / sizeof *lent; i++) {
        struct room out = lend(lent[i]);
        bool short_of = has && lent[i] < needed;
        SAME(short_of ? SHEETS_SHORT_OF : has ? SHEETS : SHEETS_REFUSED, call_sheet_export(b, out),
             short_of ? refused(6, needed, lent[i]) : want);
        CHECK(quoted ? SHEETS_QUOTED : SHEETS, !has || short_of || memcmp(out.at, sheet, needed) == 0,
              "a sheet of %zu bytes has another text", needed);
    }
    if (has)
        hold_back(b, needed);
}

/* There is no call that takes a mode. */
void try_sheet(struct bytes b)
{
    if (mode == PRESENT)
        hold_sheet(b);
}

static struct buffer made;

static void put_entry(uint16_t flags, struct bytes name, struct bytes type_name, struct bytes comment)
{
    struct parts p = {.numbers = {0x4040, 0x1A2B3C4D, 0xFFFFFFFF, 65}, .flags = flags, .high = 0x0102,
                      .name = name, .type_name = type_name, .comment = comment};
    put_symbol(&made, &p);
}

static void hold_made(void)
{
    hold_sheet(lay(UPLOAD, whole(&made)));
    made.len = 0;
}

/* Every byte as a name, in the middle of a type and at either end of a comment. */
static void try_bytes(void)
{
    for (unsigned byte = 0; byte < 256; byte++) {
        const uint8_t one[] = {(uint8_t)byte}, inside[] = {'a', (uint8_t)byte, (uint8_t)byte, 'b'};
        put_entry(0, (struct bytes){one, 1}, (struct bytes){inside, 4}, (struct bytes){inside + 1, 3});
        put_entry(0, (struct bytes){inside, 3}, text(""), (struct bytes){inside + 1, 1});
        hold_made();
    }
}

/* Numbers of each count of digits, and the flags that no section has. */
static void try_numbers(void)
{
    for (uint64_t n = 1; n <= 10000000000; n *= 10)
        for (uint64_t k = n - 1; k <= n; k++) {
            struct parts p = {.numbers = {(uint32_t)k, (uint32_t)~k, (uint32_t)(k << 8), (uint32_t)(k * 7)},
                              .flags = (uint32_t)k & 0x6FF7, .high = (uint16_t)k, .name = text("a")};
            put_symbol(&made, &p);
            hold_made();
        }
}

/* Each reason alone and with those behind it, at the first, second and third entry, before and behind a refused one. */
static void try_reasons(void)
{
    static const uint16_t flags[] = {0x0008, 0x1000, 0x8000, 0x1008, 0x8008, 0x9000, 0x9008, 0xFFFF, 0x6FF7, 0};
    for (size_t before = 0; before < 3; before++)
        for (size_t i = 0; i < sizeof flags / sizeof *flags; i++)
            for (size_t spoilt = 0; spoilt < 6; spoilt++) {
                for (size_t k = 0; k < before; k++)
                    put_entry(0, text("MAIN.a"), text("INT"), text(""));
                size_t start = made.len;
                put_entry(0, text("MAIN.b"), text("REAL"), text("x, y"));
                made.at[start + 20] = (uint8_t)flags[i];
                made.at[start + 21] = (uint8_t)(flags[i] >> 8);
                if (spoilt == 1)
                    made.at[start + 36] = 1;
                else if (spoilt == 2)
                    made.at[start + 41] = 255;
                else if (spoilt == 3)
                    made.at[made.len - 1] = 7;
                else if (spoilt > 3) {
                    put_number(&made, 0, 1);
                    made.at[start] += 1;
                }
                if (spoilt == 5)
                    put_number(&made, 0, 4);
                else if (spoilt == 0)
                    put_number(&made, 29, 1);
                hold_made();
            }
}

static void hold_text(const char *header_row, const char *rows)
{
    static uint8_t joined[SHEET];
    size_t len = strlen(header_row), more = strlen(rows);
    memcpy(joined, header_row, len);
    memcpy(joined + len, rows, more);
    hold_import(lay(NAME, (struct bytes){joined, len + more}));
}

/* Each kind of header and of row, good and bad. */
static void try_imports(void)
{
    static const char *const rows[] = {
        "", "\n", "\r\n", "\r", "1,2,3,4,5,6,a,b,c", "1,2,3,4,5,6,a,b,c\r", "1,2,3,4,5,6,a,b,c\n1,2,3,4,5,6,a,b,c\r\n", "1,2,3,4,5,6,a,b",
        "1,2,3,4,5,6,a,b,c,d", "1,2,3,4,5,6,a,b\rb,c", "1,2,3,4,5,6,\"a\r\n\",\"\",\"\"\"\"\n", "1,2,3,4,5,6,\"a\"b,b,c", "1,2,3,4,5,6,a\"b,b,c",
        "1,2,3,4,5,6,a,b,\"c", "1,2,3,4,5,6,a,b,\"c\"\"", "\"1\",2,3,4,5,6,a,b,c", "4294967295,4294967295,4294967295,4294967295,28663,65535,,,\n",
        "4294967296,2,3,4,5,6,a,b,c", "1,4294967296,3,4,5,6,a,b,c", "1,2,4294967296,4,5,6,a,b,c", "1,2,3,4294967296,5,6,a,b,c",
        "1,2,3,4,65536,6,a,b,c", "1,2,3,4,5,65536,a,b,c", "1,2,3,4,8,6,a,b,c", "1,2,3,4,4096,6,a,b,c", "1,2,3,4,32768,x,a,b,c",
        "1,2,3,4,5,,a,b,c", "-1,2,3,4,5,6,a,b,c", "+1,2,3,4,5,6,a,b,c", " 1,2,3,4,5,6,a,b,c", "1,2,3,4,5,6x,a,b,c",
        "0000000000000000000000000000001,00,3,4,00000000000000000000000000028663,6,a,b,c", "18446744073709551617,2,3,4,5,6,a,b,c",
        "1,2,3,4,5,x,a,b,c\n1,2", "1,2\n1,2,3,4,5,x,a,b,c", "1,2,3,4,5,6,\xC3\xA4,\xE2\x82\xAC,\xC5\xB8\n", "1,2,3,4,5,6,\xC4\x80,b,c\n", "1,2,3,4,5,6,\"\"\"\xC3\",b,c\n",
        "1,2,3,4,5,6,\xFF,b,c\n1,2,3,4,5,6,a,b", "1;2;3;4;5;6;a;b;c\n", "1,2,3,4,5,6,=1+1,@b,-c\n",
    };
    static const char *const headers[] = {
        header, "group,offset,size,type id,flags,high,name,type,comment\n", "\"group\",offset,size,\"type id\",flags,high,name,type,\"comment\"\r\n",
        "group,offset,size,type id,flags,high,name,comment,type\r\n", "Group,offset,size,type id,flags,high,name,type,comment\r\n",
        "\xEF\xBB\xBFgroup,offset,size,type id,flags,high,name,type,comment\r\n", "group;offset;size;type id;flags;high;name;type;comment\r\n",
        "", "group,offset,size,type id,flags,high,name,type\r\n", "group,offset,size,type id,flags,high,name,type,comment,\r\n",
        "group,offset,size,type id,flags,high,name,type,comment",
    };
    for (size_t i = 0; i < sizeof headers / sizeof *headers; i++)
        for (size_t k = 0; k < sizeof rows / sizeof *rows; k++)
            hold_text(headers[i], rows[k]);
}

/* A string as long as its field holds, and one byte longer: of quotes, and of three bytes each. */
static void try_long_strings(void)
{
    static uint8_t long_sheet[4 * BUFFER];
    static const char row[] = "1,2,3,4,5,6,\"", rest[] = "\",b,c\r\n", *const texts[] = {"a", "\"\"", "\xE2\x82\xAC"};
    for (size_t i = 0; i < sizeof texts / sizeof *texts; i++)
        for (size_t count = 65535; count <= 65536; count++) {
            size_t width = strlen(texts[i]), len = 0;
            memcpy(long_sheet, header, len = sizeof header - 1);
            memcpy(long_sheet + len, row, sizeof row - 1);
            len += sizeof row - 1;
            for (size_t k = 0; k < count; k++, len += width)
                memcpy(long_sheet + len, texts[i], width);
            memcpy(long_sheet + len, rest, sizeof rest - 1);
            len += sizeof rest - 1;
            struct told want = count > 65535 ? refused(7, 65535, count) : refused(6, 33 + count + 2, 5);
            SAME(IMPORTS_REFUSED, call_sheet_import(lay(NAME, (struct bytes){long_sheet, len}), lend(5)), want);
        }
}

void try_sheets(void)
{
    try_imports();
    try_long_strings();
    hold_made();
    try_bytes();
    try_numbers();
    try_reasons();
    struct bytes nowhere = {NULL, 0};
    struct room null = {NULL, 0};
    SAME(EMPTY, call_sheet_export(nowhere, null), refused(6, sizeof header - 1, 0));
    SAME(EMPTY, call_sheet_export(nowhere, lend(sizeof header - 1)), done(sizeof header - 1, 0));
    SAME(EMPTY, call_sheet_import(nowhere, null), refused(18, 1, 0));
}

/* A sheet whose upload has so many bytes: names as long as their field holds, but for the last. */
static struct bytes sheet_of(size_t len)
{
    enum { LONGEST = 65535 + 33 };
    size_t rows = (len + LONGEST - 1) / LONGEST, size = sizeof header - 1 + len - 17 * rows;
    uint8_t *to = area(NAME, size);
    struct bytes t = {to, size};
    memcpy(to, header, sizeof header - 1);
    to += sizeof header - 1;
    for (size_t left = len; left > 0;) {
        size_t entry = left < LONGEST ? left : LONGEST;
        memcpy(to, "0,0,0,0,0,0,", 12);
        memset(to + 12, 'a', entry - 33);
        memcpy(to + entry - 21, ",,\r\n", 4);
        to += entry - 17;
        left -= entry;
    }
    return t;
}

/* At the limit an entry that claims all of it has unread bytes; one byte above it refuses with 5 before that. An imported upload
 * is short of bytes at the limit, and too large above it. */
void try_sheet_limit(size_t len)
{
    struct room upload = {area(UPLOAD, len), len};
    memset(upload.at, 0, len);
    for (size_t i = 0; i < 4; i++)
        upload.at[i] = (uint8_t)(len >> 8 * i);
    struct bytes b = {upload.at, len};
    SAME(LIMITS, call_sheet_export(b, lend(0)), len > VINDASKOT_LIMIT ? refused(5, VINDASKOT_LIMIT, len) : refused(17, 0, 5));
    SAME(LIMITS, call_sheet_import(sheet_of(len), lend(0)), len > VINDASKOT_LIMIT ? refused(5, VINDASKOT_LIMIT, len) : refused(6, len, 0));
}
