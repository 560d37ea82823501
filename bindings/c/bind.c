/* Where do variables lie? Binds the paths of variables to their addresses, through an upload of symbols and one of data
 * types.
 *
 *   cc -std=c11 -o bind bindings/c/bind.c target/staticlib/libvindaskot.a
 *   ./bind SYMBOLS TYPES PATH..     SYMBOLS, TYPES: files of bytes, as samples/rig.bin and samples/types.bin
 *
 * Status 0 where each path has an address, else 1.
 */
#include <stdio.h>
#include <stdlib.h>
#include <string.h>

#include "vindaskot.h"

/* An upload, and the starts of its entries in the order of their names. */
struct upload {
    uint8_t *bytes;
    size_t len;
    uint32_t *starts;
    size_t count;
};

typedef uint32_t build_index(const uint8_t *bytes, size_t len, bool checked, uint32_t *starts, size_t room,
                             uint64_t *answer);

/* What was refused, in the library's words. */
static void print_refusal(const char *what, uint32_t refusal, const uint64_t figures[VINDASKOT_FIGURES])
{
    uint8_t text[VINDASKOT_REFUSAL_TEXT_MOST];
    uint64_t answer[VINDASKOT_FIGURES] = {0};
    vindaskot_refusal_text(refusal, figures[0], figures[1], text, sizeof text, answer);
    fprintf(stderr, "%s: refusal %u, %.*s\n", what, (unsigned)refusal, (int)answer[0], (const char *)text);
}

/* No upload is larger than the limit: a byte more, and it is refused with 5. */
static bool read_file(const char *path, struct upload *upload)
{
    FILE *file = fopen(path, "rb");
    if (file == NULL) {
        perror(path);
        return false;
    }
    upload->bytes = malloc(VINDASKOT_LIMIT + 1);
    if (upload->bytes != NULL)
        upload->len = fread(upload->bytes, 1, VINDASKOT_LIMIT + 1, file);
    bool is_read = upload->bytes != NULL && !ferror(file);
    fclose(file);
    if (!is_read)
        fprintf(stderr, "%s: can't be read\n", path);
    return is_read;
}

/* Made once, whatever paths are bound. Starts are set aside by the upload's length alone. */
static bool index_names(const char *path, struct upload *upload, build_index *build)
{
    uint64_t answer[VINDASKOT_FIGURES];
    uint32_t status = vindaskot_room(upload->len, answer);
    if (status == VINDASKOT_DONE) {
        size_t room = (size_t)answer[0];
        upload->starts = malloc((room + 1) * sizeof *upload->starts);
        if (upload->starts == NULL) {
            fputs("out of memory\n", stderr);
            return false;
        }
        status = build(upload->bytes, upload->len, false, upload->starts, room, answer);
    }
    if (status != VINDASKOT_DONE) {
        print_refusal(path, status, answer);
        return false;
    }
    upload->count = (size_t)answer[0];
    return true;
}

/* The name of an address's type stands in the upload in which its entry does, in Windows-1252. */
static void print_type(const struct upload *upload, const uint64_t slots[VINDASKOT_ADDRESS_SLOTS])
{
    static uint8_t text[3 * UINT16_MAX];
    const uint8_t *entry = upload->bytes + slots[VINDASKOT_ADDRESS_ENTRY_AT];
    uint64_t answer[VINDASKOT_FIGURES];
    uint32_t status = vindaskot_decode(entry + slots[VINDASKOT_ADDRESS_TYPE_NAME_AT],
                                       (size_t)slots[VINDASKOT_ADDRESS_TYPE_NAME_LEN], text, sizeof text, answer);
    if (status == VINDASKOT_DONE)
        printf(", %.*s\n", (int)answer[0], (const char *)text);
    else
        print_refusal("type", status, answer);
}

/* A path is given in UTF-8, and bound in Windows-1252, which takes no more bytes. */
static bool print_address(const struct upload *symbols, const struct upload *types, const char *path)
{
    static uint8_t text[UINT16_MAX];
    uint64_t slots[VINDASKOT_ADDRESS_SLOTS], answer[VINDASKOT_FIGURES];
    uint32_t status = vindaskot_encode((const uint8_t *)path, strlen(path), text, sizeof text, answer);
    if (status == VINDASKOT_DONE)
        status = vindaskot_bind_in(symbols->bytes, symbols->len, false, symbols->starts, symbols->count, types->bytes,
                                   types->len, types->starts, types->count, text, (size_t)answer[0], slots, answer);
    if (status != VINDASKOT_DONE) {
        print_refusal(path, status, answer);
        return false;
    }
    bool is_in_bits = slots[VINDASKOT_ADDRESS_SIZE_IN_BITS] != 0;
    printf("%s: %u %s at group 0x%X, offset 0x%X", path, (unsigned)slots[VINDASKOT_ADDRESS_SIZE],
           is_in_bits ? "bits" : "bytes", (unsigned)slots[VINDASKOT_ADDRESS_GROUP],
           (unsigned)slots[VINDASKOT_ADDRESS_OFFSET]);
    if (is_in_bits || slots[VINDASKOT_ADDRESS_BIT] != 0)
        printf(", bit %u", (unsigned)slots[VINDASKOT_ADDRESS_BIT]);
    print_type(slots[VINDASKOT_ADDRESS_UPLOAD] == 0 ? symbols : types, slots);
    return true;
}

int main(int argc, char **argv)
{
    if (argc < 4) {
        fputs("usage: bind SYMBOLS TYPES PATH..\n", stderr);
        return 1;
    }
    struct upload symbols = {NULL, 0, NULL, 0}, types = {NULL, 0, NULL, 0};
    bool is_indexed = read_file(argv[1], &symbols) && read_file(argv[2], &types) &&
                      index_names(argv[1], &symbols, vindaskot_name_index_build_in) &&
                      index_names(argv[2], &types, vindaskot_type_name_index_build_in);
    bool are_bound = is_indexed;
    for (int i = 3; is_indexed && i < argc; i++)
        are_bound = print_address(&symbols, &types, argv[i]) && are_bound;
    free(symbols.starts);
    free(symbols.bytes);
    free(types.starts);
    free(types.bytes);
    return are_bound ? 0 : 1;
}
