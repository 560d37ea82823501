/* Programs as the header of interface 1 let them be written, one a call whose slots or arguments are others since. With
 * 20 slots lent and no `high` given, none of them may link with an archive of a later interface.
 *
 *   cc -DCALL=n -c link_old.c
 *
 * tools/c-tests links each.
 */
#include <stddef.h>
#include <stdint.h>

enum { SLOTS = 20 };

#if CALL == 1 /* vindaskot_symbol_read */
uint32_t vindaskot_symbol_read(const uint8_t *bytes, size_t bytes_len, uint64_t slots[static SLOTS],
                               uint8_t guid[static 16], uint64_t answer[static 2]);

int main(void)
{
    uint64_t slots[SLOTS], answer[2];
    uint8_t guid[16];
    return (int)vindaskot_symbol_read(NULL, 0, slots, guid, answer);
}

#elif CALL == 2 /* vindaskot_symbol_step */
uint32_t vindaskot_symbol_step(const uint8_t *bytes, size_t bytes_len, size_t *cursor, uint64_t slots[static SLOTS],
                               uint8_t guid[static 16], uint64_t answer[static 2]);

int main(void)
{
    size_t cursor = 0;
    uint64_t slots[SLOTS], answer[2];
    uint8_t guid[16];
    return (int)vindaskot_symbol_step(NULL, 0, &cursor, slots, guid, answer);
}

#elif CALL == 3 /* vindaskot_symbol_write */
uint32_t vindaskot_symbol_write(uint32_t index_group, uint32_t index_offset, uint32_t size, uint32_t data_type_id,
                                uint16_t flags, uint32_t extended_flags, const uint8_t *guid, size_t guid_len,
                                const uint8_t *name, size_t name_len, const uint8_t *type_name, size_t type_name_len,
                                const uint8_t *comment, size_t comment_len, size_t count, const uint8_t *block,
                                size_t block_len, size_t links, const uint8_t *chain, size_t chain_len, uint8_t *out,
                                size_t out_len, uint64_t answer[static 2]);

int main(void)
{
    uint64_t answer[2];
    return (int)vindaskot_symbol_write(0, 0, 0, 0, 0, 0, NULL, 0, NULL, 0, NULL, 0, NULL, 0, 0, NULL, 0, 0, NULL, 0,
                                       NULL, 0, answer);
}

#else
#error "no such call"
#endif
