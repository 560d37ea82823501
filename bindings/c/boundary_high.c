/* Bytes 22 and 23 of a symbol. What is expected stands here in the words of docs/FORMAT.md, "Symbol entries", and does not come from the
 * model. */
#include "boundary.h"

enum { LOW_BYTE = 22, HIGH_BYTE = 23 };

/* Both bytes, and the number that they are. */
struct two {
    uint8_t low, high;
    uint16_t number;
};

/* None, one and all bits; bytes of which one is zero, and unequal ones, either way round; bits that would be flags of
 * sections in the word before, or that of a chain in the extended flags, and all bits but those of sections. */
static const struct two telling[] = {
    {0x00, 0x00, 0x0000}, {0x01, 0x00, 0x0001}, {0x00, 0x01, 0x0100}, {0xFF, 0xFF, 0xFFFF}, {0xFF, 0x00, 0x00FF},
    {0x00, 0xFF, 0xFF00}, {0x34, 0x12, 0x1234}, {0x12, 0x34, 0x3412}, {0x08, 0x00, 0x0008}, {0x00, 0x10, 0x1000},
    {0x00, 0x80, 0x8000}, {0x80, 0x00, 0x0080}, {0x08, 0x90, 0x9008}, {0x04, 0x00, 0x0004}, {0xF7, 0x6F, 0x6FF7},
};

enum { TELLING = sizeof telling / sizeof *telling };

static void set_two(uint8_t *entry, struct two two)
{
    entry[LOW_BYTE] = two.low;
    entry[HIGH_BYTE] = two.high;
}

/* ---- "Symbol records carry the two bytes as read, and the symbol writer puts them back." ---- */

/* An entry without sections. Its flags, with their bytes exchanged too, are none of the numbers above. */
enum { FLAGS = 0x0241 };

static const uint8_t plain[37] = {37,   [4] = 0x20, 0x40,     [8] = 8,    [12] = 2,   [16] = 2, [20] = 0x41,
                                  0x02, [24] = 1,   [26] = 3, [30] = 'Z', [32] = 'I', 'N',      'T'};

static struct told plain_told(struct two two, size_t cursor)
{
    return (struct told){.slots = {[VINDASKOT_SYMBOL_LENGTH] = sizeof plain,
                                   [VINDASKOT_SYMBOL_INDEX_GROUP] = 0x4020,
                                   [VINDASKOT_SYMBOL_INDEX_OFFSET] = 8,
                                   [VINDASKOT_SYMBOL_SIZE] = 2,
                                   [VINDASKOT_SYMBOL_DATA_TYPE_ID] = 2,
                                   [VINDASKOT_SYMBOL_FLAGS] = FLAGS,
                                   [VINDASKOT_SYMBOL_HIGH] = two.number,
                                   [VINDASKOT_SYMBOL_NAME_AT] = 30,
                                   [VINDASKOT_SYMBOL_NAME_LEN] = 1,
                                   [VINDASKOT_SYMBOL_TYPE_NAME_AT] = 32,
                                   [VINDASKOT_SYMBOL_TYPE_NAME_LEN] = 3,
                                   [VINDASKOT_SYMBOL_COMMENT_AT] = 36,
                                   [VINDASKOT_SYMBOL_ATTRIBUTES_AT] = sizeof plain,
                                   [VINDASKOT_SYMBOL_REFACTORS_AT] = sizeof plain},
                         .cursor = cursor};
}

static struct bytes plain_with(struct two two)
{
    static uint8_t at[sizeof plain];
    memcpy(at, plain, sizeof plain);
    set_two(at, two);
    return (struct bytes){at, sizeof at};
}

static void read_two(struct two two)
{
    enum group group = two.number != 0 ? HIGHS_READ : READS;
    struct bytes b = lay(UPLOAD, plain_with(two));
    SAME(group, call_symbol_read(b), plain_told(two, 0));
    SAME(group, call_symbol_step(b, 0), plain_told(two, sizeof plain));
}

static void write_two(struct two two)
{
    enum group group = two.number != 0 ? HIGHS_WRITTEN : WRITES;
    struct parts p = laid(&(struct parts){
        .numbers = {0x4020, 8, 2, 2}, .flags = FLAGS, .high = two.number, .name = text("Z"), .type_name = text("INT")});
    struct room out = lend(sizeof plain);
    SAME(group, call_symbol_write(&p, out), done(sizeof plain, 0));
    CHECK(group, equal((struct bytes){out.at, out.len}, plain_with(two)), "%u is written as %02X %02X", two.number,
          out.at[LOW_BYTE], out.at[HIGH_BYTE]);
    struct bytes b = lay(UPLOAD, (struct bytes){out.at, out.len});
    SAME(ROUND_TRIPS, call_symbol_read(b), plain_told(two, 0));
}

/* All of them, read on one side and written on the other. */
static void every_number(void)
{
    for (unsigned i = 0; i < 65536; i++)
        (side == AT_END ? read_two : write_two)((struct two){(uint8_t)(i % 256), (uint8_t)(i / 256), (uint16_t)i});
}

/* A step tells the bytes of its own entry and not of one beside it. */
static void one_after_another(void)
{
    static struct buffer upload;
    upload.len = 0;
    for (size_t i = 0; i < TELLING; i++)
        put(&upload, plain_with(telling[i]));
    struct bytes b = lay(UPLOAD, whole(&upload));
    for (size_t i = 0, at = 0; i < TELLING; i++, at += sizeof plain)
        SAME(telling[i].number != 0 ? HIGHS_READ : READS, call_symbol_step(b, at),
             plain_told(telling[i], at + sizeof plain));
}

/* ---- Nothing else depends on them: no section, no name, no refusal ---- */

static struct buffer entry;

static void set_number(size_t at, size_t number, size_t width)
{
    for (size_t i = 0; i < width; i++)
        entry.at[at + i] = (uint8_t)(number >> 8 * i);
}

/* Some of the flags of sections. */
static uint32_t flags_of(size_t some)
{
    return ((some & 1) != 0 ? VINDASKOT_SYMBOL_FLAG_TYPE_GUID : 0) |
           ((some & 2) != 0 ? VINDASKOT_SYMBOL_FLAG_ATTRIBUTES : 0) |
           ((some & 4) != 0 ? VINDASKOT_SYMBOL_FLAG_EXTENDED_FLAGS : 0);
}

static const uint8_t unit_kpa[] = {4, 3, 'u', 'n', 'i', 't', 0, 'k', 'P', 'a', 0};
static const uint8_t former_z[] = {1, 0, 0, 0, 1, 0, 'z', 0};

/* A symbol with every section. */
static struct parts with_sections(void)
{
    return (struct parts){.flags = flags_of(7),
                          .extended = VINDASKOT_SYMBOL2_FLAG_REFACTOR_INFO,
                          .guid = text("sixteen bytes..."),
                          .name = text("Z"),
                          .type_name = text("INT"),
                          .comment = text("zoom"),
                          .block = {unit_kpa, sizeof unit_kpa},
                          .chain = {former_z, sizeof former_z},
                          .count = 1,
                          .links = 1};
}

enum { ASKED = 9 };

/* All that an upload of symbols can be asked for. */
static void ask_all(struct bytes b, struct told *told)
{
    static const uint32_t slot = 0;
    struct bytes index = lay(SLOTS, (struct bytes){(const uint8_t *)&slot, sizeof slot});
    told[0] = call_symbol_read(b);
    told[1] = call_symbol_step(b, 0);
    told[2] = call_symbol_attribute(b, 0);
    told[3] = call_symbol_refactor_info(b, 0);
    told[4] = call_symbol_attribute_named(b, lay(NAME, text("unit")));
    told[5] = call_walk(b, SIZE_MAX, 0);
    told[6] = call_index_build(b, lend(sizeof slot));
    told[7] = call_find(b, lay(NAME, text("z")));
    told[8] = call_find_indexed(b, index, lay(NAME, text("z")));
}

/* What is told of the entry's first bytes is what is told of them with zeros there, but for the slot itself. */
static void told_apart(size_t len)
{
    struct told zeros[ASKED], told[ASKED];
    for (size_t i = 0; i < TELLING; i++) {
        set_two(entry.at, telling[i]);
        ask_all(lay(UPLOAD, part(whole(&entry), 0, len)), i == 0 ? zeros : told);
        for (size_t k = 0; i > 0 && k < ASKED; k++) {
            struct told want = zeros[k];
            if (tells_symbol(want))
                want.slots[VINDASKOT_SYMBOL_HIGH] = telling[i].number;
            SAME(HIGHS_APART, told[k], want);
        }
    }
}

/* Every choice of sections; then with all of them each claim that is wrong in its own way, and the entry cut at each
 * byte behind these two. */
static void read_apart(void)
{
    const size_t claims[] = {0, 3, 29, 30, 37, VINDASKOT_LIMIT + 1};
    struct parts p = with_sections();
    entry.len = 0;
    put_symbol(&entry, &p);
    for (size_t some = 0; some < 8; some++) {
        set_number(20, flags_of(some), 2);
        told_apart(entry.len);
    }
    for (size_t i = 0; i < sizeof claims / sizeof *claims; i++) {
        set_number(0, claims[i], 4);
        told_apart(entry.len);
    }
    for (size_t len = HIGH_BYTE + 1; len < entry.len; len++) {
        set_number(0, len, 4);
        told_apart(len);
    }
}

/* What is written, or refused, is what it is with zeros there, but for the two bytes. */
static void written_apart(const struct parts *from)
{
    static uint8_t wanted[200];
    struct parts p = laid(from);
    struct told want = done(0, 0);
    for (size_t i = 0; i < TELLING; i++) {
        struct room out = lend(sizeof wanted);
        p.high = telling[i].number;
        struct told told = call_symbol_write(&p, out);
        if (i == 0) {
            want = told;
            memcpy(wanted, out.at, sizeof wanted);
        }
        if (want.status == VINDASKOT_DONE)
            set_two(wanted, telling[i]);
        SAME(HIGHS_APART, told, want);
        CHECK(HIGHS_APART, memcmp(out.at, wanted, sizeof wanted) == 0, "%u is written with other bytes", p.high);
    }
}

/* Every choice of flags with every choice of what they ask for. */
static void write_apart(void)
{
    for (size_t some = 0; some < 128; some++) {
        struct parts p = with_sections();
        p.flags = flags_of(some);
        p.guid.len = (some & 8) != 0 ? 16 : 0;
        p.count = (some & 16) != 0 ? 1 : 0;
        p.block.len = (some & 16) != 0 ? sizeof unit_kpa : 0;
        p.extended = (some & 32) != 0 ? VINDASKOT_SYMBOL2_FLAG_REFACTOR_INFO : 0;
        p.links = (some & 64) != 0 ? 1 : 0;
        p.chain.len = (some & 64) != 0 ? sizeof former_z : 0;
        written_apart(&p);
    }
}

void try_highs(void)
{
    for (size_t i = 0; i < TELLING; i++) {
        read_two(telling[i]);
        write_two(telling[i]);
    }
    every_number();
    one_after_another();
    read_apart();
    write_apart();
}
