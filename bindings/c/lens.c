/* Where does the zoom curve end? Reads an upload of the rig and prints the attribute ZoomCurveEnd of its lens table.
 *
 *   cc -std=c11 -o lens bindings/c/lens.c target/staticlib/libvindaskot.a
 *   ./lens [FILE]        FILE: the upload as one line of hexadecimal digits; samples/rig.hex if none is given
 *
 * Status 0 where the attribute was found, else 1.
 */
#include <stdio.h>
#include <stdlib.h>
#include <string.h>

#include "vindaskot.h"

static const char LENS_TABLE[] = "MAIN.stLens";
static const char CURVE_END[] = "ZoomCurveEnd";

struct upload {
    uint8_t *bytes;
    size_t len;
};

struct index {
    uint32_t *starts;
    size_t len;
};

/* What was refused, in the library's words. */
static void print_refusal(const char *what, uint32_t refusal, const uint64_t figures[VINDASKOT_FIGURES])
{
    uint8_t text[VINDASKOT_REFUSAL_TEXT_MOST];
    uint64_t answer[VINDASKOT_FIGURES] = {0};
    vindaskot_refusal_text(refusal, figures[0], figures[1], text, sizeof text, answer);
    fprintf(stderr, "%s: refusal %u, %.*s\n", what, (unsigned)refusal, (int)answer[0], (const char *)text);
}

static void *room_for(size_t bytes)
{
    void *room = malloc(bytes > 0 ? bytes : 1);
    if (room == NULL) {
        fputs("out of memory\n", stderr);
        exit(1);
    }
    return room;
}

static int digit(int c)
{
    static const char digits[] = "0123456789ABCDEF0123456789abcdef";
    const char *at = c > 0 ? strchr(digits, c) : NULL;
    return at == NULL ? -1 : (int)((at - digits) % 16);
}

/* The first line of a file. No upload is larger than the limit, so neither is what is read. */
static bool read_upload(FILE *file, struct upload *upload)
{
    upload->bytes = room_for(VINDASKOT_LIMIT);
    upload->len = 0;
    for (int c = getc(file); c != EOF && c != '\n'; c = getc(file)) {
        int high = digit(c), low = digit(getc(file));
        if (high < 0 || low < 0 || upload->len == VINDASKOT_LIMIT)
            return false;
        upload->bytes[upload->len++] = (uint8_t)(16 * high + low);
    }
    return !ferror(file);
}

/* Starts are set aside by the upload's length alone; the index then says how many of them it has. */
static bool build_index(const struct upload *upload, struct index *index)
{
    uint64_t answer[VINDASKOT_FIGURES];
    uint32_t status = vindaskot_room(upload->len, answer);
    size_t room = status == VINDASKOT_DONE ? (size_t)answer[0] : 0;
    index->starts = room_for(room * sizeof *index->starts);
    if (status == VINDASKOT_DONE)
        status = vindaskot_index_build(upload->bytes, upload->len, index->starts, room, answer);
    if (status == VINDASKOT_DONE)
        index->len = (size_t)answer[0];
    else
        print_refusal("index", status, answer);
    return status == VINDASKOT_DONE;
}

/* The controller's text is Windows-1252; each byte of it takes at most 3 bytes of UTF-8. */
static void print_text(const char *label, const uint8_t *text, size_t len)
{
    uint64_t answer[VINDASKOT_FIGURES];
    char *utf8 = room_for(3 * len);
    uint32_t status = vindaskot_decode(text, len, (uint8_t *)utf8, 3 * len, answer);
    if (status == VINDASKOT_DONE)
        printf("%s%.*s\n", label, (int)answer[0], utf8);
    else
        print_refusal("text", status, answer);
    free(utf8);
}

/* Places count from the start of the entry: entry + place. */
static bool print_attribute(const uint8_t *entry, size_t len, const char *name)
{
    uint64_t slots[VINDASKOT_ATTRIBUTE_SLOTS], answer[VINDASKOT_FIGURES];
    uint32_t status =
        vindaskot_symbol_attribute_named(entry, len, (const uint8_t *)name, strlen(name), slots, answer);
    if (status != VINDASKOT_DONE) {
        print_refusal(name, status, answer);
        return false;
    }
    printf("%s = ", name);
    print_text("", entry + slots[VINDASKOT_ATTRIBUTE_VALUE_AT], (size_t)slots[VINDASKOT_ATTRIBUTE_VALUE_LEN]);
    return true;
}

static bool print_lens(const struct upload *upload, const struct index *index)
{
    uint64_t slots[VINDASKOT_SYMBOL_SLOTS], answer[VINDASKOT_FIGURES];
    uint8_t guid[VINDASKOT_GUID_BYTES];
    uint32_t status = vindaskot_find_indexed(upload->bytes, upload->len, index->starts, index->len,
                                             (const uint8_t *)LENS_TABLE, strlen(LENS_TABLE), answer);
    if (status != VINDASKOT_DONE) {
        print_refusal(LENS_TABLE, status, answer);
        return false;
    }
    const uint8_t *entry = upload->bytes + answer[0];
    size_t len = upload->len - (size_t)answer[0];
    status = vindaskot_symbol_read_2(entry, len, slots, guid, answer);
    if (status != VINDASKOT_DONE) {
        print_refusal("symbol", status, answer);
        return false;
    }
    printf("%s: %u bytes at group 0x%X, offset 0x%X\n", LENS_TABLE, (unsigned)slots[VINDASKOT_SYMBOL_SIZE],
           (unsigned)slots[VINDASKOT_SYMBOL_INDEX_GROUP], (unsigned)slots[VINDASKOT_SYMBOL_INDEX_OFFSET]);
    print_text("type: ", entry + slots[VINDASKOT_SYMBOL_TYPE_NAME_AT], (size_t)slots[VINDASKOT_SYMBOL_TYPE_NAME_LEN]);
    print_text("comment: ", entry + slots[VINDASKOT_SYMBOL_COMMENT_AT], (size_t)slots[VINDASKOT_SYMBOL_COMMENT_LEN]);
    return print_attribute(entry, len, CURVE_END);
}

int main(int argc, char **argv)
{
    const char *path = argc > 1 ? argv[1] : "samples/rig.hex";
    struct upload upload = {NULL, 0};
    struct index index = {NULL, 0};
    FILE *file = fopen(path, "rb");
    if (file == NULL) {
        perror(path);
        return 1;
    }
    bool read = read_upload(file, &upload);
    fclose(file);
    if (!read)
        fprintf(stderr, "%s: not a line of hexadecimal digits within the limit\n", path);
    bool found = read && build_index(&upload, &index) && print_lens(&upload, &index);
    free(index.starts);
    free(upload.bytes);
    return found ? 0 : 1;
}
