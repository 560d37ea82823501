/* Vindaskot for C: reads, walks, writes, indexes, finds in and salvages TwinCAT symbol uploads, reads and finds data
 * types, and binds the paths of variables to their addresses.
 *
 * Link libvindaskot.a, which `tools/archive` makes in target/staticlib and `tools/install` puts where C builds look.
 * It is for x86-64 processors of level 2 (x86-64-v2: SSE4.2 and POPCNT) and later and the System V calling
 * convention, as on Linux, and for position-independent programs too. It calls memset, memcpy, memmove and memcmp,
 * which the C library has and a program without one has to bring along, and nothing else.
 *
 * Every function is proved to meet a contract: the status, the answer and every lent buffer afterwards are a function
 * of the inputs (crates/vindaskot/src); where halving goes through starts in another order than that of the names, it is
 * proved that what is answered is true of some of them. None allocates, keeps a pointer or anything else between calls,
 * or prints: any thread may call.
 *
 * How a call answers
 *   The result is a status:
 *     VINDASKOT_DONE (0)            the call did what it is for
 *     below 100                     a refusal, VINDASKOT_REFUSED_..: the table below
 *     VINDASKOT_FINISHED (100)      a walk is at the end
 *     VINDASKOT_OUT_OF_STEPS (101)  a bounded walk has used its steps and is not at the end
 *   answer[0], answer[1] are set by every call. After a refusal they are its figures, expected and got. After any
 *   other status they hold what the call says below under "answer", and 0 where it says nothing. A refusal changes no
 *   lent buffer, and VINDASKOT_FINISHED none either: output, slots, starts, runs, path and guid are as they were.
 *   (The cursor of a step and of a walk is part of the answer: it moves past what was refused.) Refusals are
 *   listed in the order in which they are looked for, entry by entry where a call goes through an upload, and the
 *   first that applies is told; vindaskot_refusal_text has the words of each.
 *
 * Slices
 *   Bytes come as a pointer and a length, and so do starts and runs, whose lengths count numbers and not bytes. Of
 *   each such pair, lent ones too, the pointer may be NULL where the length is 0. What is declared with a number of
 *   its own in brackets (answer, slots, path, guid and the reasons of vindaskot_symbol_why), `cursor` and `steps` are
 *   never NULL. The caller sees to it that nothing that a call writes overlaps what it reads or what else it writes.
 *   uint64_t slots hold one record, in the order of an enumeration below; uint32_t starts are places in an upload, as
 *   an index has them; uint32_t runs tell what a salvage leaves out.
 *
 * Places
 *   A name, a value and the like are told as a place, in a slot whose name ends in _AT, and a length, in one that
 *   ends in _LEN: bytes + place, length bytes. After a read they count from the bytes given. After a step they count
 *   from the start of the entry: the cursor before the step. Strings are Windows-1252 (vindaskot_decode makes UTF-8)
 *   and stand as they were sent; their length has no end byte in it. The place of the first of no records (a count of
 *   0) is nothing to look at; no place lies past the entry.
 *
 * Two modes
 *   One end byte follows each string, and a sound sender makes it 0. The present mode does not look at it. The checked
 *   mode does, and refuses with 16 what has another byte there: a name that was cut without its end byte is no longer
 *   shown as half a name. A call whose name ends in _in takes the mode, right after the bytes and their length: false
 *   is the present mode, true the checked one. Without _in a call is of the present mode.
 *   The checked mode looks at the end bytes of what it reads: an entry's name, type and comment, its attributes, a
 *   symbol's chain, and of a data type's sub-items the same. It does not look at what no call reads: the sub-items of a
 *   field, methods, unread bytes, bytes behind the entry. The fault that is met first decides. Lengths come before the
 *   end bytes of their own strings: an entry's three strings, an attribute's two, a refactor record's one. So a short
 *   attribute still ends a symbol's list and a short chain is still dropped, but a wrong end byte before that refuses
 *   the entry; in a field and in a data type whichever of the two is met first refuses. Everything else is the same in
 *   both modes: a step moves by the entry's length, past an entry that is refused with 16 too, and vindaskot_walk,
 *   which reads lengths alone, has no mode.
 *
 * Refusals: number, meaning, answer[0] (expected) and answer[1] (got). Figures about a record inside an entry, as an
 * attribute of a field or a refactor record of a chain, count from that record; 16's place counts from the entry.
 *    1  unexpected length                               needed, present
 *    2  too short                                       needed, present
 *    3  an entry's length does not match                claimed or needed, available
 *    4  header there, claim below it: in a direct read, 30 or 42, claim
 *       and of a data type's sub-item; in a step it is 2
 *    5  input or written entry too large                16777216, its length
 *    6  lent output too small                           needed, lent
 *    7  string or count too long                        255 (of an attribute) or 65535, actual
 *    8  symbol flags and sections disagree              section (1 GUID, 2 attributes, 3 extended flags, 4 chain), 0
 *    9  a block is not exactly its count of good records  count, good records at its start
 *   10  a zero entry length stops the walk              1, 0
 *   11  text                                            byte place, 1 not UTF-8 or 2 no Windows-1252 byte
 *   12  bad hexadecimal line                            0, 0
 *   13  name not found                                  0, 0; of a path the place of the part in it, and 1 where no
 *                                                       member has its name, 2 where no data type has its type's
 *   14  no attribute, refactor, array or member of      how many there are, number asked; of a subscript of a path
 *       that number, or a subscript outside its bounds  the elements of its dimension, its place in the path
 *   15  data type entries nest too deep                 16, 17
 *   16  checked mode: an end byte is not 0              its place in the entry (in a record or a chain by itself, from
 *                                                       bytes[0] on), the byte
 *   17  a symbol that a sheet can't hold                entry number from 0; 1 GUID, 2 attributes or 3 extended flags
 *                                                       flagged, 5 unread bytes or an end byte that is not 0
 *   18  a bad row of a sheet                            row, the header being 1; 0 for its shape, else the column,
 *                                                       from 1
 *   19  an upload that is not in plain form             place in the upload of the first byte that departs, 0
 *   20  a text that is no path of a variable            place in the path of the fault, 0
 *   21  subscripts of a path that are not as many as    their place in the path, how many dimensions there are
 *       there are dimensions
 *   22  a part of a path that has no offset             its place in the path; 0x2 it is below a symbol of a bit, 0x4 a
 *                                                       reference, 0x40 a property, 0x20000 a static member; below a
 *                                                       pointer 0x400 to a TcCOM interface, 0x800000 of the PLC
 *   23  an index offset above 32 bits                   4294967295, the offset
 *   24  more than 16 data types, one behind another,    place in the path of the part below them, 16
 *       of which each only names the next
 */
#ifndef VINDASKOT_H
#define VINDASKOT_H

#include <stdbool.h>
#include <stddef.h>
#include <stdint.h>

#ifdef __cplusplus
extern "C" {
#define VINDASKOT_AT_LEAST
#else
#define VINDASKOT_AT_LEAST static
#endif

#define VINDASKOT_DONE 0u
#define VINDASKOT_FINISHED 100u
#define VINDASKOT_OUT_OF_STEPS 101u

/* The refusals. Numbers up to 99 may be added behind the last, and leave the number of the interface as it is. */
#define VINDASKOT_REFUSED_UNEXPECTED_LENGTH 1u
#define VINDASKOT_REFUSED_TOO_SHORT 2u
#define VINDASKOT_REFUSED_ENTRY_LENGTH_MISMATCH 3u
#define VINDASKOT_REFUSED_CLAIM_BELOW_HEADER 4u
#define VINDASKOT_REFUSED_TOO_LARGE 5u
#define VINDASKOT_REFUSED_OUTPUT_TOO_SMALL 6u
#define VINDASKOT_REFUSED_TOO_LONG 7u
#define VINDASKOT_REFUSED_SECTIONS_DISAGREE 8u
#define VINDASKOT_REFUSED_BAD_BLOCK 9u
#define VINDASKOT_REFUSED_ZERO_ENTRY_LENGTH 10u
#define VINDASKOT_REFUSED_BAD_TEXT 11u
#define VINDASKOT_REFUSED_BAD_HEXADECIMAL 12u
#define VINDASKOT_REFUSED_NAME_NOT_FOUND 13u
#define VINDASKOT_REFUSED_NO_SUCH_NUMBER 14u
#define VINDASKOT_REFUSED_TOO_DEEP 15u
#define VINDASKOT_REFUSED_END_BYTE 16u
#define VINDASKOT_REFUSED_NOT_IN_SHEET 17u
#define VINDASKOT_REFUSED_BAD_SHEET 18u
#define VINDASKOT_REFUSED_NOT_PLAIN 19u
#define VINDASKOT_REFUSED_BAD_PATH 20u
#define VINDASKOT_REFUSED_WRONG_DIMENSIONS 21u
#define VINDASKOT_REFUSED_NO_OFFSET 22u
#define VINDASKOT_REFUSED_OFFSET_TOO_LARGE 23u
#define VINDASKOT_REFUSED_TOO_MANY_ALIASES 24u

/* The most bytes of an input, and of an entry that is written. */
#define VINDASKOT_LIMIT 16777216u

/* How many numbers an answer has, and how many bytes a GUID. */
#define VINDASKOT_FIGURES 2u
#define VINDASKOT_GUID_BYTES 16u

/* The interface that this header describes: a number that changes with the arguments or the slots of any call. These
 * are known to no linker, so the number stands in names, which a linker sees:
 *   The archive has one function whose name ends in the number of its interface, and everything that includes this
 *   header needs it. An archive of another interface, older or newer, does not link; a shared object, whose names a
 *   linker may leave open, then does not load.
 *   A call whose arguments or slots change gets the number of the interface in which they changed at the end of its
 *   name. What was compiled with an earlier header and makes such a call does not link either: this holds for the
 *   header of interface 1 too, which needs no function with a number.
 * A call that is added changes no other and leaves the number as it is: where the archive lacks that call, the linker
 * says so. The function answers VINDASKOT_INTERFACE. */
#define VINDASKOT_INTERFACE 2u
uint32_t vindaskot_interface_2(void);

/* What needs that function: a pointer that is never followed. `used` keeps it in the object, and `retain` in a program
 * from which the linker leaves out the sections that nothing refers to (--gc-sections). Where a compiler has not
 * `retain`, such a link drops the pointer without a word; where it has neither, any link may. Then an archive of
 * another interface is refused only for the calls that have another name there. */
#ifdef __has_attribute
#if __has_attribute(retain) && defined __ELF__
#define VINDASKOT_KEPT __attribute__((used, retain))
#elif __has_attribute(used)
#define VINDASKOT_KEPT __attribute__((used))
#endif
#endif
#ifndef VINDASKOT_KEPT
#define VINDASKOT_KEPT
#endif
static uint32_t (*const vindaskot_interface_needed)(void) VINDASKOT_KEPT = vindaskot_interface_2;

/* ---- Refusals ---- */

#define VINDASKOT_REFUSAL_TEXT_MOST 128u

/* The text of a refusal in English, as "too short: 30 needed, 29 present", from output[0] on, with no zero byte behind
 * it. number is the status of a call that was refused, expected and got are the two numbers that it answered:
 *   vindaskot_refusal_text(status, answer[0], answer[1], output, output_length, answer)
 * answer[0]: bytes written, at most VINDASKOT_REFUSAL_TEXT_MOST. A figure that is the same in every refusal of that
 * number is not looked at, and of 16's second figure the low 8 bits are told. Refusals: 14 where no refusal has the
 * number (how many have one, the number); 6. */
uint32_t vindaskot_refusal_text(uint32_t number, size_t expected, size_t got, uint8_t *output, size_t output_length,
                                uint64_t answer[VINDASKOT_AT_LEAST VINDASKOT_FIGURES]);

/* ---- Symbols ---- */

/* What a symbol's slots hold. */
enum {
    VINDASKOT_SYMBOL_LENGTH, /* bytes of the entry */
    VINDASKOT_SYMBOL_INDEX_GROUP,
    VINDASKOT_SYMBOL_INDEX_OFFSET,
    VINDASKOT_SYMBOL_SIZE,
    VINDASKOT_SYMBOL_DATA_TYPE_ID,
    VINDASKOT_SYMBOL_FLAGS,
    VINDASKOT_SYMBOL_HIGH, /* bytes 22 and 23 of the entry, as sent: the high half of the maker's 32 bits of
                            * flags */
    VINDASKOT_SYMBOL_NAME_AT,
    VINDASKOT_SYMBOL_NAME_LEN,
    VINDASKOT_SYMBOL_TYPE_NAME_AT,
    VINDASKOT_SYMBOL_TYPE_NAME_LEN,
    VINDASKOT_SYMBOL_COMMENT_AT,
    VINDASKOT_SYMBOL_COMMENT_LEN,
    VINDASKOT_SYMBOL_HAS_GUID,        /* 1, or 0: then guid is 16 zeros */
    VINDASKOT_SYMBOL_ATTRIBUTES_AT,   /* place of the first attribute */
    VINDASKOT_SYMBOL_ATTRIBUTE_COUNT, /* attributes shown */
    VINDASKOT_SYMBOL_HAS_EXTENDED,    /* 1 where extended flags are there */
    VINDASKOT_SYMBOL_EXTENDED_FLAGS,  /* 0 where they are not */
    VINDASKOT_SYMBOL_REFACTORS_AT,    /* place of the first refactor record */
    VINDASKOT_SYMBOL_REFACTOR_COUNT,  /* refactor records shown */
    VINDASKOT_SYMBOL_UNREAD,          /* bytes after the last section */
    VINDASKOT_SYMBOL_SLOTS
};

/* Reads the entry at the start of bytes. Which sections it has is said by slot FLAGS, and nothing depends on slot HIGH.
 * Refusals: 5; 2 (30, bytes given); 3 for a claim beyond the bytes given; 4 for a claim below the header; 3 for strings
 * that leave the entry. */
uint32_t vindaskot_symbol_read_2(const uint8_t *bytes, size_t bytes_length,
                                 uint64_t slots[VINDASKOT_AT_LEAST VINDASKOT_SYMBOL_SLOTS],
                                 uint8_t guid[VINDASKOT_AT_LEAST VINDASKOT_GUID_BYTES],
                                 uint64_t answer[VINDASKOT_AT_LEAST VINDASKOT_FIGURES]);

/* One step of the walk over an upload: VINDASKOT_FINISHED at the end, which leaves slots and guid as they were,
 * VINDASKOT_DONE with the entry at the cursor, or a refusal. Begin with *cursor = 0; it is moved past the entry,
 * and to the end after refusals 5, 3 (a claim beyond the data) and 2 (under 4 bytes left). Only a claim of 0 is
 * refused (2: 30, 0) without a move: a loop stops where *cursor did not change. A claim from 1 to 29, which
 * vindaskot_symbol_read_2 refuses with 4, is 2 (30, claim) here, and the cursor moves by it. Refusals: 5; 2
 * (cursor + 4, bytes given) for under 4 bytes left; 3 for a claim beyond the data (claim, bytes left); 2 for a
 * claim below the header; 3 for strings that leave the entry. Two uploads are compared by a step of each by turns,
 * each with a cursor of its own: as long as the cursors are equal the steps are of entries at the same place, and
 * where the entries' bytes are equal too the answers are. */
uint32_t vindaskot_symbol_step_2(const uint8_t *bytes, size_t bytes_length, size_t *cursor,
                                 uint64_t slots[VINDASKOT_AT_LEAST VINDASKOT_SYMBOL_SLOTS],
                                 uint8_t guid[VINDASKOT_AT_LEAST VINDASKOT_GUID_BYTES],
                                 uint64_t answer[VINDASKOT_AT_LEAST VINDASKOT_FIGURES]);

/* What an attribute's slots hold. */
enum {
    VINDASKOT_ATTRIBUTE_NAME_AT,
    VINDASKOT_ATTRIBUTE_NAME_LEN,
    VINDASKOT_ATTRIBUTE_VALUE_AT,
    VINDASKOT_ATTRIBUTE_VALUE_LEN,
    VINDASKOT_ATTRIBUTE_NEXT_AT, /* the place after the record */
    VINDASKOT_ATTRIBUTE_SLOTS
};

/* What a refactor record's slots hold. */
enum {
    VINDASKOT_REFACTOR_COUNT,    /* the packed number's bits in 0x01111111: 0x01000000 is set where another follows */
    VINDASKOT_REFACTOR_HAS_NEXT, /* 1 where another record follows */
    VINDASKOT_REFACTOR_NAME_AT,
    VINDASKOT_REFACTOR_NAME_LEN,
    VINDASKOT_REFACTOR_NEXT_AT, /* the place after the record */
    VINDASKOT_REFACTOR_SLOTS
};

/* The attribute, or the refactor record, of that number, from 0, of the symbol entry at the start of bytes.
 * Refusals: those of vindaskot_symbol_read_2, then 14. Each call reads the entry anew; to go through all of them, use
 * vindaskot_attribute_read (vindaskot_refactor_read) from slot ATTRIBUTES (REFACTORS) on, ATTRIBUTE_COUNT
 * (REFACTOR_COUNT) times, each from where the NEXT_AT before it led. */
uint32_t vindaskot_symbol_attribute(const uint8_t *bytes, size_t bytes_length, size_t number,
                                    uint64_t slots[VINDASKOT_AT_LEAST VINDASKOT_ATTRIBUTE_SLOTS],
                                    uint64_t answer[VINDASKOT_AT_LEAST VINDASKOT_FIGURES]);
uint32_t vindaskot_symbol_refactor_info(const uint8_t *bytes, size_t bytes_length, size_t number,
                                        uint64_t slots[VINDASKOT_AT_LEAST VINDASKOT_REFACTOR_SLOTS],
                                        uint64_t answer[VINDASKOT_AT_LEAST VINDASKOT_FIGURES]);

/* The attribute of that name, of the symbol entry at the start of bytes: the first of those shown whose name is the one
 * asked. The name is Windows-1252, compared byte for byte: another case is another name, and an empty name finds the
 * first attribute whose name is empty. The slots are those that vindaskot_symbol_attribute fills for its number.
 * Refusals: those of vindaskot_symbol_read_2, then 13. */
uint32_t vindaskot_symbol_attribute_named(const uint8_t *bytes, size_t bytes_length, const uint8_t *name,
                                          size_t name_length,
                                          uint64_t slots[VINDASKOT_AT_LEAST VINDASKOT_ATTRIBUTE_SLOTS],
                                          uint64_t answer[VINDASKOT_AT_LEAST VINDASKOT_FIGURES]);

/* Why a section is there or not, and why a list shows no more: what a reason's slots hold. Places are in the entry.
 *   NOT_FLAGGED  its flag is not set; a chain's is that of refactor records among the extended flags
 *   NO_FLAGS     of a chain: there are no extended flags, which would flag it
 *   NO_ROOM      it is flagged, and fewer bytes are left than it has at least: 16 of a GUID, 2 of attributes, 4 of
 *                extended flags, 1 of a chain. FIRST is the place where it would begin, SECOND the bytes left there
 *   WHOLE        it begins at place FIRST, where the attributes' count stands, and is shown whole. SECOND is how many
 *                attributes their count announces, which may be 0, or how many records a chain has; else it is 1
 *   REFUSED      of attributes, whose list it ends, and of a chain, which it drops: the record at place FIRST is
 *                refused. SECOND is which of the list it is, from 0; NUMBER, EXPECTED and GOT are its refusal. Where
 *                the entry ends straight behind the count, attribute 0 is refused: 2 (4, 0)
 *   OWED         of attributes: the entry ends behind one. FIRST is how many are announced, SECOND how many are owed
 * A slot that is not named with a reason is 0. */
enum {
    VINDASKOT_WHY_REASON, /* one of those below */
    VINDASKOT_WHY_FIRST,
    VINDASKOT_WHY_SECOND,
    VINDASKOT_WHY_NUMBER,
    VINDASKOT_WHY_EXPECTED,
    VINDASKOT_WHY_GOT,
    VINDASKOT_WHY_SLOTS
};
#define VINDASKOT_WHY_NOT_FLAGGED 1u
#define VINDASKOT_WHY_NO_FLAGS 2u
#define VINDASKOT_WHY_NO_ROOM 3u
#define VINDASKOT_WHY_WHOLE 4u
#define VINDASKOT_WHY_REFUSED 5u
#define VINDASKOT_WHY_OWED 6u

/* Why each section of the symbol entry at the start of bytes is there or not: exactly one reason each, in slots of its
 * own. A section that has no room moves nothing, and a refused attribute ends its list: the next section is looked for
 * at that same place. The reasons are those of the present mode, and the same where the checked mode accepts the entry.
 * Refusals: those of vindaskot_symbol_read_2. */
uint32_t vindaskot_symbol_why(const uint8_t *bytes, size_t bytes_length,
                              uint64_t guid[VINDASKOT_AT_LEAST VINDASKOT_WHY_SLOTS],
                              uint64_t attributes[VINDASKOT_AT_LEAST VINDASKOT_WHY_SLOTS],
                              uint64_t extended_flags[VINDASKOT_AT_LEAST VINDASKOT_WHY_SLOTS],
                              uint64_t chain[VINDASKOT_AT_LEAST VINDASKOT_WHY_SLOTS],
                              uint64_t answer[VINDASKOT_AT_LEAST VINDASKOT_FIGURES]);

/* ---- Fields ---- */

/* What a field's slots hold. */
enum {
    VINDASKOT_FIELD_LENGTH, /* bytes of the entry */
    VINDASKOT_FIELD_VERSION,
    VINDASKOT_FIELD_HASH_VALUE,
    VINDASKOT_FIELD_TYPE_HASH_VALUE,
    VINDASKOT_FIELD_SIZE,
    VINDASKOT_FIELD_OFFSET, /* in bytes, or what slot FLAGS says: VINDASKOT_TYPE_FLAG_BIT_VALUES and its like, below */
    VINDASKOT_FIELD_TYPE_ID,
    VINDASKOT_FIELD_FLAGS,
    VINDASKOT_FIELD_NAME_AT,
    VINDASKOT_FIELD_NAME_LEN,
    VINDASKOT_FIELD_TYPE_NAME_AT,
    VINDASKOT_FIELD_TYPE_NAME_LEN,
    VINDASKOT_FIELD_COMMENT_AT,
    VINDASKOT_FIELD_COMMENT_LEN,
    VINDASKOT_FIELD_HAS_GUID,      /* 1, or 0: then guid is 16 zeros */
    VINDASKOT_FIELD_ATTRIBUTES_AT, /* place of the first attribute */
    VINDASKOT_FIELD_ATTRIBUTE_COUNT,
    VINDASKOT_FIELD_SLOTS
};

/* As for symbols, with 42 for 30: a claim from 1 to 41 is 4 in a read and 2 (42, claim) in a step, and at
 * VINDASKOT_FINISHED slots and guid are as they were. A refused attribute refuses the field, also where one before
 * it has the name asked; the figures of its 2 (needed, present) and 1 (needed, present) count from the attribute's
 * own start. Refusals: those of a symbol's read or step, then 2 and 1 of an attribute; of
 * vindaskot_field_attribute then 14, of vindaskot_field_attribute_named then 13. */
uint32_t vindaskot_field_read(const uint8_t *bytes, size_t bytes_length,
                              uint64_t slots[VINDASKOT_AT_LEAST VINDASKOT_FIELD_SLOTS],
                              uint8_t guid[VINDASKOT_AT_LEAST VINDASKOT_GUID_BYTES],
                              uint64_t answer[VINDASKOT_AT_LEAST VINDASKOT_FIGURES]);
uint32_t vindaskot_field_step(const uint8_t *bytes, size_t bytes_length, size_t *cursor,
                              uint64_t slots[VINDASKOT_AT_LEAST VINDASKOT_FIELD_SLOTS],
                              uint8_t guid[VINDASKOT_AT_LEAST VINDASKOT_GUID_BYTES],
                              uint64_t answer[VINDASKOT_AT_LEAST VINDASKOT_FIGURES]);
uint32_t vindaskot_field_attribute(const uint8_t *bytes, size_t bytes_length, size_t number,
                                   uint64_t slots[VINDASKOT_AT_LEAST VINDASKOT_ATTRIBUTE_SLOTS],
                                   uint64_t answer[VINDASKOT_AT_LEAST VINDASKOT_FIGURES]);
uint32_t vindaskot_field_attribute_named(const uint8_t *bytes, size_t bytes_length, const uint8_t *name,
                                         size_t name_length,
                                         uint64_t slots[VINDASKOT_AT_LEAST VINDASKOT_ATTRIBUTE_SLOTS],
                                         uint64_t answer[VINDASKOT_AT_LEAST VINDASKOT_FIGURES]);

/* ---- The bounded walk, over symbols, fields and data types ---- */

/* Makes at most `allowed` steps from *cursor on, reading no more of an entry than its length. *steps is how many
 * were made, *cursor where they led. Status: VINDASKOT_FINISHED at the end, else VINDASKOT_OUT_OF_STEPS; 10 (1, 0)
 * at a zero entry length, that step counted. What a step refuses otherwise is a step like others, and an upload
 * above the limit is one step, to the end. Refusal: 10. */
uint32_t vindaskot_walk(const uint8_t *bytes, size_t bytes_length, size_t allowed, size_t *cursor, size_t *steps,
                        uint64_t answer[VINDASKOT_AT_LEAST VINDASKOT_FIGURES]);

/* ---- Records by themselves ---- */

/* The record at the start of bytes; what follows it is not looked at. Refusals: of an attribute 5; 2 (4, bytes
 * given); 1 (needed, bytes given) for fewer than its strings need. Of a refactor record 5; 2 (7, or what its name
 * needs; bytes given). */
uint32_t vindaskot_attribute_read(const uint8_t *bytes, size_t bytes_length,
                                  uint64_t slots[VINDASKOT_AT_LEAST VINDASKOT_ATTRIBUTE_SLOTS],
                                  uint64_t answer[VINDASKOT_AT_LEAST VINDASKOT_FIGURES]);
uint32_t vindaskot_refactor_read(const uint8_t *bytes, size_t bytes_length,
                                 uint64_t slots[VINDASKOT_AT_LEAST VINDASKOT_REFACTOR_SLOTS],
                                 uint64_t answer[VINDASKOT_AT_LEAST VINDASKOT_FIGURES]);

/* The chain of refactor records at the start of bytes: records up to the first that says that none follows, with
 * no count in front, as a symbol's chain stands in its entry. (vindaskot_refactor_block_write puts a count in
 * front of its block: skip its 2 bytes.) answer: how many, and the place after the last. Refusals: 5; 2 of the
 * first record that is short, whose figures count from that record (needed, bytes left there). */
uint32_t vindaskot_chain_read(const uint8_t *bytes, size_t bytes_length,
                              uint64_t answer[VINDASKOT_AT_LEAST VINDASKOT_FIGURES]);

/* A chain's record of that number, from 0. Refusals: those of vindaskot_chain_read, then 14. */
uint32_t vindaskot_chain_record(const uint8_t *bytes, size_t bytes_length, size_t number,
                                uint64_t slots[VINDASKOT_AT_LEAST VINDASKOT_REFACTOR_SLOTS],
                                uint64_t answer[VINDASKOT_AT_LEAST VINDASKOT_FIGURES]);

/* A flag word of exactly 2 (symbol) or 4 bytes. answer[0]: the word. Refusals: 5; 1 (2 or 4, bytes given). */
uint32_t vindaskot_symbol_flags_read(const uint8_t *bytes, size_t bytes_length,
                                     uint64_t answer[VINDASKOT_AT_LEAST VINDASKOT_FIGURES]);
uint32_t vindaskot_symbol2_flags_read(const uint8_t *bytes, size_t bytes_length,
                                      uint64_t answer[VINDASKOT_AT_LEAST VINDASKOT_FIGURES]);
uint32_t vindaskot_type_flags_read(const uint8_t *bytes, size_t bytes_length,
                                   uint64_t answer[VINDASKOT_AT_LEAST VINDASKOT_FIGURES]);

/* The flags, by the maker's names. Of a symbol's, TYPE_GUID, ATTRIBUTES and EXTENDED_FLAGS say which sections an
 * entry has. Binding (vindaskot_bind_in) asks for BIT_VALUE and REFERENCE_TO, and nothing in this library depends on
 * the others. */
#define VINDASKOT_SYMBOL_FLAG_PERSISTENT 0x0001u         /* the value outlives a restart */
#define VINDASKOT_SYMBOL_FLAG_BIT_VALUE 0x0002u          /* bits: a single one, and slot SIZE is 0 */
#define VINDASKOT_SYMBOL_FLAG_REFERENCE_TO 0x0004u       /* a reference to another variable */
#define VINDASKOT_SYMBOL_FLAG_TYPE_GUID 0x0008u          /* the entry has a GUID */
#define VINDASKOT_SYMBOL_FLAG_TCOM_INTERFACE_PTR 0x0010u /* a TcCOM interface pointer */
#define VINDASKOT_SYMBOL_FLAG_READ_ONLY 0x0020u
#define VINDASKOT_SYMBOL_FLAG_ITF_METHOD_ACCESS 0x0040u
#define VINDASKOT_SYMBOL_FLAG_METHOD_DEREF 0x0080u
#define VINDASKOT_SYMBOL_FLAG_CONTEXT_MASK 0x0F00u /* four bits, the context */
#define VINDASKOT_SYMBOL_FLAG_ATTRIBUTES 0x1000u   /* the entry has attributes */
#define VINDASKOT_SYMBOL_FLAG_STATIC 0x2000u         /* static */
#define VINDASKOT_SYMBOL_FLAG_INIT_ON_RESET 0x4000u  /* a persistent value does not outlive a cold reset */
#define VINDASKOT_SYMBOL_FLAG_EXTENDED_FLAGS 0x8000u /* the entry has extended flags, which are those below */

#define VINDASKOT_SYMBOL2_FLAG_PLC_POINTER_TYPE 0x00000001u
#define VINDASKOT_SYMBOL2_FLAG_REDUNDANCY_IGNORE 0x00000002u
#define VINDASKOT_SYMBOL2_FLAG_REFACTOR_INFO 0x00000004u /* the entry has a chain of refactor records */
#define VINDASKOT_SYMBOL2_FLAG_ONLINE_CHANGE_PTR_REF_TYPE 0x00000008u
#define VINDASKOT_SYMBOL2_FLAG_VARIANT_TYPE 0x00000010u

/* A field's, a data type's and a member's. REFERENCE_TO, BIT_VALUES, PROP_ITEM and STATIC say what an offset is:
 * see the data types. TYPE_GUID, COPY_MASK, METHOD_INFOS and ATTRIBUTES say which sections an entry has. Binding
 * (vindaskot_bind_in) asks for the former four, TCOM_INTERFACE_PTR and PLC_POINTER_TYPE, and nothing in this library
 * depends on the others. */
#define VINDASKOT_TYPE_FLAG_DATA_TYPE 0x00000001u
#define VINDASKOT_TYPE_FLAG_DATA_ITEM 0x00000002u
#define VINDASKOT_TYPE_FLAG_REFERENCE_TO 0x00000004u /* a reference */
#define VINDASKOT_TYPE_FLAG_METHOD_DEREF 0x00000008u
#define VINDASKOT_TYPE_FLAG_OVERSAMPLE 0x00000010u
#define VINDASKOT_TYPE_FLAG_BIT_VALUES 0x00000020u /* offset and size are bits */
#define VINDASKOT_TYPE_FLAG_PROP_ITEM 0x00000040u  /* a property */
#define VINDASKOT_TYPE_FLAG_TYPE_GUID 0x00000080u  /* the entry has a GUID */
#define VINDASKOT_TYPE_FLAG_PERSISTENT 0x00000100u
#define VINDASKOT_TYPE_FLAG_COPY_MASK 0x00000200u /* the entry has a copy mask */
#define VINDASKOT_TYPE_FLAG_TCOM_INTERFACE_PTR 0x00000400u
#define VINDASKOT_TYPE_FLAG_METHOD_INFOS 0x00000800u /* the entry has methods, which are skipped */
#define VINDASKOT_TYPE_FLAG_ATTRIBUTES 0x00001000u   /* the entry has attributes */
#define VINDASKOT_TYPE_FLAG_ENUM_INFOS 0x00002000u
#define VINDASKOT_TYPE_FLAG_ALIGNED 0x00010000u
#define VINDASKOT_TYPE_FLAG_STATIC 0x00020000u /* static: no part of a value */
#define VINDASKOT_TYPE_FLAG_SOFTWARE_PROTECTION_LEVELS 0x00040000u
#define VINDASKOT_TYPE_FLAG_IGNORE_PERSIST 0x00080000u
#define VINDASKOT_TYPE_FLAG_ANY_SIZE_ARRAY 0x00100000u
#define VINDASKOT_TYPE_FLAG_PERSISTENT_DATATYPE 0x00200000u
#define VINDASKOT_TYPE_FLAG_INIT_ON_RESET 0x00400000u
#define VINDASKOT_TYPE_FLAG_PLC_POINTER_TYPE 0x00800000u
#define VINDASKOT_TYPE_FLAG_REFACTOR_INFO 0x01000000u
#define VINDASKOT_TYPE_FLAG_HIDE_SUB_ITEMS 0x02000000u
#define VINDASKOT_TYPE_FLAG_INCOMPLETE 0x04000000u
#define VINDASKOT_TYPE_FLAG_CONTAINS_ONLINE_CHANGE_PTR_REF 0x08000000u
#define VINDASKOT_TYPE_FLAG_VARIANT 0x10000000u
#define VINDASKOT_TYPE_FLAG_EXTENDED_ENUM_INFOS 0x20000000u
#define VINDASKOT_TYPE_FLAG_EXTENDED_FLAGS 0x80000000u

/* ---- Writing ---- */

/* Each writes from output[0] on and changes nothing after what it wrote. answer[0]: bytes written. Asked with
 * output_length 0 it is refused with 6, whose first figure is the room that is needed. All is checked before
 * anything is written. Where a refusal does not tell which string, count or block it is about, it is the first of
 * these: of 7 the name, the type name, the comment, then count (65535); of 9 the attributes, then the chain. */

/* An attribute, with its two end bytes. Refusals: 7 (255, its length) for the name, then for the value; 6. */
uint32_t vindaskot_attribute_write(const uint8_t *name, size_t name_length, const uint8_t *value, size_t value_length,
                                   uint8_t *output, size_t output_length,
                                   uint64_t answer[VINDASKOT_AT_LEAST VINDASKOT_FIGURES]);

/* Of count the bits in 0x01111111 are written, and 0x01000000 is set where has_next says so: a count that has that bit
 * itself says that another follows. Refusals: 7 (65535, its length) for the name; 6. */
uint32_t vindaskot_refactor_write(uint32_t count, bool has_next, const uint8_t *name, size_t name_length,
                                  uint8_t *output, size_t output_length,
                                  uint64_t answer[VINDASKOT_AT_LEAST VINDASKOT_FIGURES]);

/* A block of refactor records with its count in front, as 2 bytes. No symbol has that count: a chain is given to
 * vindaskot_symbol_write_2 and to vindaskot_chain_read without it. Refusals: 7 for count, 9, 5, 6. */
uint32_t vindaskot_refactor_block_write(size_t count, const uint8_t *block, size_t block_length, uint8_t *output,
                                        size_t output_length, uint64_t answer[VINDASKOT_AT_LEAST VINDASKOT_FIGURES]);

/* A symbol entry. high: bytes 22 and 23, the low byte first; every number is written as it is. guid: 16 bytes, or NULL
 * and 0 for none; another length is refusal 1 (16, length) before all else. block: `count` attributes, one after
 * another, as vindaskot_attribute_write makes them. chain: `links` refactor records, one after another, has_next set on
 * all but the last, with no count in front. 8 tells the first of these that does not hold:
 *   1  a GUID is given exactly where flags has VINDASKOT_SYMBOL_FLAG_TYPE_GUID
 *   2  without VINDASKOT_SYMBOL_FLAG_ATTRIBUTES block is empty
 *   3  without VINDASKOT_SYMBOL_FLAG_EXTENDED_FLAGS extended_flags is 0
 *   4  refactor records are given exactly where extended_flags has VINDASKOT_SYMBOL2_FLAG_REFACTOR_INFO
 * Refusals: 1 for the GUID; 7 for name, type_name, comment and count; 9 (count, good ones at its start) for block,
 * then for chain (links, good ones at its start); 8; 5; 6. */
uint32_t vindaskot_symbol_write_2(uint32_t index_group, uint32_t index_offset, uint32_t size, uint32_t data_type_id,
                                  uint16_t flags, uint16_t high, uint32_t extended_flags, const uint8_t *guid,
                                  size_t guid_length, const uint8_t *name, size_t name_length, const uint8_t *type_name,
                                  size_t type_name_length, const uint8_t *comment, size_t comment_length, size_t count,
                                  const uint8_t *block, size_t block_length, size_t links, const uint8_t *chain,
                                  size_t chain_length, uint8_t *output, size_t output_length,
                                  uint64_t answer[VINDASKOT_AT_LEAST VINDASKOT_FIGURES]);

/* A field entry. guid and block as for symbols; a flagged GUID that is not given is written as 16 zeros, one that
 * is given and not flagged is left out, a flagged copy mask is written as `size` zeros, and attributes that are
 * not flagged are left out unchecked, with their count. There are no array records and no sub-items, and
 * VINDASKOT_TYPE_FLAG_METHOD_INFOS writes no section: a reader, which looks for methods where that flag is set,
 * takes what stands there for them. Refusals: 1 for the GUID; 7 for name, type_name and comment, then for count
 * where attributes are flagged; 9 for block; 5; 6. */
uint32_t vindaskot_field_write(uint32_t version, uint32_t hash_value, uint32_t type_hash_value, uint32_t size,
                               uint32_t offset, uint32_t type_id, uint32_t flags, const uint8_t *guid,
                               size_t guid_length, const uint8_t *name, size_t name_length, const uint8_t *type_name,
                               size_t type_name_length, const uint8_t *comment, size_t comment_length, size_t count,
                               const uint8_t *block, size_t block_length, uint8_t *output, size_t output_length,
                               uint64_t answer[VINDASKOT_AT_LEAST VINDASKOT_FIGURES]);

/* ---- Plain form ---- */

/* Whether an upload of symbols is in plain form (docs/FORMAT.md): each entry is accepted, without a look at end
 * bytes, and its bytes are those that vindaskot_symbol_write_2 gives for what was read of it, whose blocks are the
 * bytes of the attributes and the refactor records shown. Nothing is lent for it. VINDASKOT_DONE: it is. Else, at
 * the first entry that is not, the refusal of its step, or 10 for a zero claim, or 19: answer[0] is the place in
 * the upload of the first byte that is not what would be written, or the entry's start where the writer refuses
 * what was read. Refusals: 5, 2, 3, 10, 19. */
uint32_t vindaskot_plain(const uint8_t *bytes, size_t bytes_length,
                         uint64_t answer[VINDASKOT_AT_LEAST VINDASKOT_FIGURES]);

/* ---- Index and finding ---- */

/* How many starts, each a uint32_t, the index of an upload of that length can have, so that they can be set aside
 * before it is read. answer[0]: one for every 33 bytes, rounded down, since an accepted symbol has at least 33.
 * Lent that many or more, vindaskot_index_build, vindaskot_index_build_in and vindaskot_name_index_build_in are
 * never refused with 6, in either mode and whatever the bytes are; 5 and 10 stay. No smaller number will do: some
 * upload of that length needs all of them. Those of data types need fewer. Refusal: 5. */
uint32_t vindaskot_room(size_t length, uint64_t answer[VINDASKOT_AT_LEAST VINDASKOT_FIGURES]);

/* The room of the largest upload, for starts set aside once for all uploads: 2 MB, more than many a stack has. */
#define VINDASKOT_ROOM_MOST 508400u

/* The index of an upload: the start of every accepted symbol, in order, from starts[0] on. answer[0]: how many.
 * These, and not all that were lent, are the index, which vindaskot_find_indexed is given: what stands behind them
 * is as it was. Set aside what vindaskot_room tells (4 bytes for every 33 of the upload), which is always enough.
 * Entries that are refused are left out; at a claim of 0, behind which nothing can be reached, the whole is
 * refused with 10 and nothing is written: salvage the upload first, or find without an index. Refusals: 5, 10, 6. */
uint32_t vindaskot_index_build(const uint8_t *bytes, size_t bytes_length, uint32_t *starts, size_t starts_length,
                               uint64_t answer[VINDASKOT_AT_LEAST VINDASKOT_FIGURES]);

/* answer[0]: where the first accepted symbol of that name starts. The name is Windows-1252. A to Z equal a to z,
 * in the name asked and in the symbol's; every other byte, accented letters too, equals only itself. Of several
 * symbols that have the name, the first in the upload is answered, also where a later one has the very bytes
 * asked. It walks the upload up to there. At a claim of 0 the walk ends: a symbol before it is found, and where
 * none there has the name it is 10 and not 13, since what stands behind is not known. Refusals: 5, 10, 13. */
uint32_t vindaskot_find(const uint8_t *bytes, size_t bytes_length, const uint8_t *name, size_t name_length,
                        uint64_t answer[VINDASKOT_AT_LEAST VINDASKOT_FIGURES]);

/* The same through an index, of which starts_length are used: the names are compared likewise, and of several
 * symbols that have the name the first in the order of starts is answered. Any starts may be given: one at which
 * no accepted symbol begins, as at a claim of 0, is passed over. It looks at one start after another until one is
 * found; a name index (vindaskot_name_index_build_in) is asked by halving. Refusals: 5, 13. */
uint32_t vindaskot_find_indexed(const uint8_t *bytes, size_t bytes_length, const uint32_t *starts, size_t starts_length,
                                const uint8_t *name, size_t name_length,
                                uint64_t answer[VINDASKOT_AT_LEAST VINDASKOT_FIGURES]);

/* ---- Salvage ---- */

/* What the three slots of a dropped run hold. */
enum {
    VINDASKOT_RUN_START,  /* place in the damaged upload */
    VINDASKOT_RUN_LENGTH, /* bytes, at least 1 */
    VINDASKOT_RUN_NUMBER, /* why: the number of the refusal */
    VINDASKOT_RUN_SLOTS
};

/* Copies every accepted symbol of a damaged upload, unchanged and in order, from output[0] on: a new upload, which a
 * walk goes through without a refusal. What is left out goes to runs[0] on, VINDASKOT_RUN_SLOTS slots a run, in
 * order. answer: bytes written to output, and slots written to runs; what stands behind these is as it was. The
 * entries copied and the runs make up the damaged upload, each of its bytes once. A second salvage of what was copied
 * copies all of it. A run is one refused step of the walk, so two refused entries side by side are two runs. Its
 * number is the step's, save at a claim of 0, which a step refuses with 2 and vindaskot_walk with 10:
 *   2   a claim below 30, and the run is as long as that claim; or under 4 bytes left, and it goes to the end
 *   3   strings that leave the entry, and the run is as long as the claim; or a claim beyond the upload, and it goes to
 *       the end
 *   10  a claim of 0, where the walk stops: the run goes to the end, and nothing behind it is looked at
 *   16  in the checked mode alone, an end byte that is not 0: as long as the claim
 * output never needs more than bytes_length bytes. How many slots are needed is not known before: lent an output
 * of that length and no slots, the call is done where nothing is dropped, and else is refused with 6, whose first
 * figure is the number of slots. Refusals: 5, 6 for output (bytes needed, lent), 6 for runs (slots needed, lent). */
uint32_t vindaskot_salvage(const uint8_t *bytes, size_t bytes_length, uint8_t *output, size_t output_length,
                           uint32_t *runs, size_t runs_length, uint64_t answer[VINDASKOT_AT_LEAST VINDASKOT_FIGURES]);

/* ---- The same reading, in either mode ---- */

/* Each call here answers with checked = false as the call above that has its name without _in (and, in three of them,
 * with a number). With checked = true it answers likewise but for 16, where these words say so. */

/* The symbol entry at the start of bytes. Refusals: 5, 2, 3, 4, 3, then 16: the end bytes of name, type and comment,
 * of the attributes up to one that is short, of the chain's records up to one that is short. */
uint32_t vindaskot_symbol_read_in(const uint8_t *bytes, size_t bytes_length, bool checked,
                                  uint64_t slots[VINDASKOT_AT_LEAST VINDASKOT_SYMBOL_SLOTS],
                                  uint8_t guid[VINDASKOT_AT_LEAST VINDASKOT_GUID_BYTES],
                                  uint64_t answer[VINDASKOT_AT_LEAST VINDASKOT_FIGURES]);

/* One step of the walk. Refusals: those of vindaskot_symbol_step_2, then 16, which moves the cursor past the entry. The
 * place that 16 tells counts from the entry's start, the cursor before the step. */
uint32_t vindaskot_symbol_step_in(const uint8_t *bytes, size_t bytes_length, bool checked, size_t *cursor,
                                  uint64_t slots[VINDASKOT_AT_LEAST VINDASKOT_SYMBOL_SLOTS],
                                  uint8_t guid[VINDASKOT_AT_LEAST VINDASKOT_GUID_BYTES],
                                  uint64_t answer[VINDASKOT_AT_LEAST VINDASKOT_FIGURES]);

/* The attribute, or the refactor record, of that number. The whole entry is read first, so a wrong end byte anywhere in
 * it refuses. Refusals: those of vindaskot_symbol_read_in, then 14. */
uint32_t vindaskot_symbol_attribute_in(const uint8_t *bytes, size_t bytes_length, bool checked, size_t number,
                                       uint64_t slots[VINDASKOT_AT_LEAST VINDASKOT_ATTRIBUTE_SLOTS],
                                       uint64_t answer[VINDASKOT_AT_LEAST VINDASKOT_FIGURES]);
uint32_t vindaskot_symbol_refactor_info_in(const uint8_t *bytes, size_t bytes_length, bool checked, size_t number,
                                           uint64_t slots[VINDASKOT_AT_LEAST VINDASKOT_REFACTOR_SLOTS],
                                           uint64_t answer[VINDASKOT_AT_LEAST VINDASKOT_FIGURES]);

/* The attribute of that name. Refusals: those of vindaskot_symbol_read_in, then 13. */
uint32_t vindaskot_symbol_attribute_named_in(const uint8_t *bytes, size_t bytes_length, bool checked,
                                             const uint8_t *name, size_t name_length,
                                             uint64_t slots[VINDASKOT_AT_LEAST VINDASKOT_ATTRIBUTE_SLOTS],
                                             uint64_t answer[VINDASKOT_AT_LEAST VINDASKOT_FIGURES]);

/* As for symbols, with 42 for 30. Refusals: 5, 2, 3, 4, 3, then 16 of name, type and comment, then of the attributes in
 * order, each 2, 1 and 16; of vindaskot_field_attribute_in then 14, of vindaskot_field_attribute_named_in then 13. */
uint32_t vindaskot_field_read_in(const uint8_t *bytes, size_t bytes_length, bool checked,
                                 uint64_t slots[VINDASKOT_AT_LEAST VINDASKOT_FIELD_SLOTS],
                                 uint8_t guid[VINDASKOT_AT_LEAST VINDASKOT_GUID_BYTES],
                                 uint64_t answer[VINDASKOT_AT_LEAST VINDASKOT_FIGURES]);
uint32_t vindaskot_field_step_in(const uint8_t *bytes, size_t bytes_length, bool checked, size_t *cursor,
                                 uint64_t slots[VINDASKOT_AT_LEAST VINDASKOT_FIELD_SLOTS],
                                 uint8_t guid[VINDASKOT_AT_LEAST VINDASKOT_GUID_BYTES],
                                 uint64_t answer[VINDASKOT_AT_LEAST VINDASKOT_FIGURES]);
uint32_t vindaskot_field_attribute_in(const uint8_t *bytes, size_t bytes_length, bool checked, size_t number,
                                      uint64_t slots[VINDASKOT_AT_LEAST VINDASKOT_ATTRIBUTE_SLOTS],
                                      uint64_t answer[VINDASKOT_AT_LEAST VINDASKOT_FIGURES]);
uint32_t vindaskot_field_attribute_named_in(const uint8_t *bytes, size_t bytes_length, bool checked,
                                            const uint8_t *name, size_t name_length,
                                            uint64_t slots[VINDASKOT_AT_LEAST VINDASKOT_ATTRIBUTE_SLOTS],
                                            uint64_t answer[VINDASKOT_AT_LEAST VINDASKOT_FIGURES]);

/* The record at the start of bytes. Refusals: 5, 2, 1, 16 (attribute: the name's end byte, then the value's); 5, 2, 16
 * (refactor record). */
uint32_t vindaskot_attribute_read_in(const uint8_t *bytes, size_t bytes_length, bool checked,
                                     uint64_t slots[VINDASKOT_AT_LEAST VINDASKOT_ATTRIBUTE_SLOTS],
                                     uint64_t answer[VINDASKOT_AT_LEAST VINDASKOT_FIGURES]);
uint32_t vindaskot_refactor_read_in(const uint8_t *bytes, size_t bytes_length, bool checked,
                                    uint64_t slots[VINDASKOT_AT_LEAST VINDASKOT_REFACTOR_SLOTS],
                                    uint64_t answer[VINDASKOT_AT_LEAST VINDASKOT_FIGURES]);

/* The chain at the start of bytes. Refusals: 5, then of the records in order, each 2 and 16. */
uint32_t vindaskot_chain_read_in(const uint8_t *bytes, size_t bytes_length, bool checked,
                                 uint64_t answer[VINDASKOT_AT_LEAST VINDASKOT_FIGURES]);

/* A chain's record of that number. Refusals: those of vindaskot_chain_read_in, then 14. */
uint32_t vindaskot_chain_record_in(const uint8_t *bytes, size_t bytes_length, bool checked, size_t number,
                                   uint64_t slots[VINDASKOT_AT_LEAST VINDASKOT_REFACTOR_SLOTS],
                                   uint64_t answer[VINDASKOT_AT_LEAST VINDASKOT_FIGURES]);

/* The index, and finding without it and through it: in the checked mode a symbol is accepted where
 * vindaskot_symbol_step_in accepts it, and one that is refused with 16 is passed over. vindaskot_room tells how many
 * starts are always enough, in either mode. Those of one mode may be asked in the other. Refusals: 5,
 * 10, 6; 5, 10, 13; 5, 13. */
uint32_t vindaskot_index_build_in(const uint8_t *bytes, size_t bytes_length, bool checked, uint32_t *starts,
                                  size_t starts_length, uint64_t answer[VINDASKOT_AT_LEAST VINDASKOT_FIGURES]);
uint32_t vindaskot_find_in(const uint8_t *bytes, size_t bytes_length, bool checked, const uint8_t *name,
                           size_t name_length, uint64_t answer[VINDASKOT_AT_LEAST VINDASKOT_FIGURES]);
uint32_t vindaskot_find_indexed_in(const uint8_t *bytes, size_t bytes_length, bool checked, const uint32_t *starts,
                                   size_t starts_length, const uint8_t *name, size_t name_length,
                                   uint64_t answer[VINDASKOT_AT_LEAST VINDASKOT_FIGURES]);

/* Salvage: in the checked mode a symbol is kept where vindaskot_symbol_step_in accepts it, and one that is refused with
 * 16 is a run of that number. What was kept in that mode a second salvage in it keeps too. Refusals: 5, 6, 6. */
uint32_t vindaskot_salvage_in(const uint8_t *bytes, size_t bytes_length, bool checked, uint8_t *output,
                              size_t output_length, uint32_t *runs, size_t runs_length,
                              uint64_t answer[VINDASKOT_AT_LEAST VINDASKOT_FIGURES]);

/* ---- Data types ---- */

/* A data type is a tree: an entry laid out as a field's, whose sub-items are entries of the same layout, to a depth of
 * VINDASKOT_DEPTH_MOST with the root at depth 1. vindaskot_field_read skips sub-items; these calls read them all, and
 * each of them, whatever it is asked, reads the whole tree first. There is no form without the mode.
 *
 * Members are the entries below the root, at every depth. They are numbered from 0, each once, parents before children
 * and otherwise in the order in which they stand. A member's strings, arrays and attributes are asked by the same calls
 * over the bytes from its place on: bytes + place, as many as are left or as its slot LENGTH says.
 *
 * Reading refusals, in the order met
 *   the root           5; 2 (42, bytes given); 3 (claim, bytes given); 4 (42, claim)
 *   every entry        3 for strings that leave it (their end, its claim); in the checked mode 16 for the end bytes of
 *                      name, type and comment; 3 for array records that leave it (their end, its claim); its sub-items,
 *                      one after another; then of its attributes, in order, 2, 1 and in the checked mode 16
 *   at each sub-item   15 (16, 17) where its parent stands at depth 16, whatever bytes are left; 2 (4, bytes left in
 *                      the parent); 3 (claim, bytes left) for a claim that leaves the parent; 4 (42, claim); then what
 *                      stands above for every entry
 * The first of them refuses the whole type, and its figures count in the entry that it is about, from that entry's own
 * start. Sections behind the attributes are not read, and what follows the root's claim is not looked at. */

/* Offsets are told as sent, and no call but vindaskot_bind_in depends on what the flags say of them. Offset and size
 * are bytes, and the offset is where the member's data lie in the data of what it is a member of, but for an entry, a
 * field by itself too, that has (VINDASKOT_TYPE_FLAG_..)
 *   BIT_VALUES     its own offset and size are bits
 *   STATIC         its data do not lie there: its offset is not to be used
 *   PROP_ITEM      a property: code reads and writes it, and it has no data there
 *   REFERENCE_TO   what lies there is a reference: the members below it lie where it leads
 * So the sum of the offsets on the way from the root's start, as a path and a listed member tell it, is the place
 * of a member's data only where neither it nor an entry above it is static, a property or counted in bits, and
 * none above it a reference. Below a member that has array records the offsets are those of its first element:
 * another element's data lie further on, by the element's size for each one between. */
/* What a data type's slots hold, the root's and a member's: first those of a field. */
enum {
    VINDASKOT_TYPE_LENGTH, /* bytes of the entry */
    VINDASKOT_TYPE_VERSION,
    VINDASKOT_TYPE_HASH_VALUE,
    VINDASKOT_TYPE_TYPE_HASH_VALUE,
    VINDASKOT_TYPE_SIZE,
    VINDASKOT_TYPE_OFFSET, /* in its parent, in bytes or what slot FLAGS says; from the root's start: slot OFFSET of a
                            * path or of a listed member */
    VINDASKOT_TYPE_TYPE_ID,
    VINDASKOT_TYPE_FLAGS,
    VINDASKOT_TYPE_NAME_AT,
    VINDASKOT_TYPE_NAME_LEN,
    VINDASKOT_TYPE_TYPE_NAME_AT,
    VINDASKOT_TYPE_TYPE_NAME_LEN,
    VINDASKOT_TYPE_COMMENT_AT,
    VINDASKOT_TYPE_COMMENT_LEN,
    VINDASKOT_TYPE_HAS_GUID,      /* 1, or 0: then guid is 16 zeros */
    VINDASKOT_TYPE_ATTRIBUTES_AT, /* place of the first attribute */
    VINDASKOT_TYPE_ATTRIBUTE_COUNT,
    VINDASKOT_TYPE_ARRAYS_AT,    /* place of the first array record, 8 bytes each; told where the count is 0 too */
    VINDASKOT_TYPE_ARRAY_COUNT,  /* array records: the dimensions */
    VINDASKOT_TYPE_ITEM_COUNT,   /* sub-items of this entry alone */
    VINDASKOT_TYPE_MEMBER_COUNT, /* entries below this one, at every depth */
    VINDASKOT_TYPE_SLOTS
};

/* What an array record's slots hold. */
enum {
    VINDASKOT_ARRAY_LOWER_BOUND, /* its 32 bits; they have a sign, which is not extended: (int32_t)slots[..] */
    VINDASKOT_ARRAY_ELEMENTS,    /* how many */
    VINDASKOT_ARRAY_SLOTS
};

/* What a member's path holds. */
enum {
    VINDASKOT_PATH_DEPTH,  /* 2 to 16 */
    VINDASKOT_PATH_OFFSET, /* from the root's start: the sum of slot OFFSET of the entries from depth 2 down to the
                            * member, which does not wrap at 32 bits. The root's own is not in it */
    VINDASKOT_PATH_PLACES  /* here and in the slots behind it, a place for each depth from 2 down to the member's own,
                            * which is the last; all count from the root's start. The slots behind the last are 0 */
};
#define VINDASKOT_PATH_SLOTS 17u
#define VINDASKOT_DEPTH_MOST 16u

/* What the three slots of a listed member hold. */
enum {
    VINDASKOT_MEMBER_PLACE,  /* from the root's start */
    VINDASKOT_MEMBER_DEPTH,  /* 2 to 16 */
    VINDASKOT_MEMBER_OFFSET, /* from the root's start, as VINDASKOT_PATH_OFFSET */
    VINDASKOT_MEMBER_SLOTS
};

#define VINDASKOT_TYPE_STACK 24576u

/* A tree is read by calls within calls, one or more a level. Of the stack none of the seven calls from here to
 * vindaskot_type_members_in takes more than VINDASKOT_TYPE_STACK bytes, whatever the tree, from the call's return
 * address down to the end of all that it calls; this is measured on the compiled archive (docs/BOUNDARY.md) and not
 * proved. */

/* The data type at the start of bytes: the root's record. Refusals: the reading refusals. */
uint32_t vindaskot_type_read_in(const uint8_t *bytes, size_t bytes_length, bool checked,
                                uint64_t slots[VINDASKOT_AT_LEAST VINDASKOT_TYPE_SLOTS],
                                uint8_t guid[VINDASKOT_AT_LEAST VINDASKOT_GUID_BYTES],
                                uint64_t answer[VINDASKOT_AT_LEAST VINDASKOT_FIGURES]);

/* One step of the walk over data types, as vindaskot_field_step_in: VINDASKOT_FINISHED at the end, VINDASKOT_DONE with
 * the data type at the cursor, or a refusal. The cursor moves by the root's claim, whatever is wrong inside, and to the
 * end after 5, 3 (a claim beyond the data) and 2 (under 4 bytes left). A claim of 1 to 41 is 2 (42, claim). Only a
 * claim of 0 is refused (2: 42, 0) without a move. Refusals: these, then those of every entry. */
uint32_t vindaskot_type_step_in(const uint8_t *bytes, size_t bytes_length, bool checked, size_t *cursor,
                                uint64_t slots[VINDASKOT_AT_LEAST VINDASKOT_TYPE_SLOTS],
                                uint8_t guid[VINDASKOT_AT_LEAST VINDASKOT_GUID_BYTES],
                                uint64_t answer[VINDASKOT_AT_LEAST VINDASKOT_FIGURES]);

/* The root's array record of that number, from 0. Refusals: the reading refusals, then 14. */
uint32_t vindaskot_type_array_in(const uint8_t *bytes, size_t bytes_length, bool checked, size_t number,
                                 uint64_t slots[VINDASKOT_AT_LEAST VINDASKOT_ARRAY_SLOTS],
                                 uint64_t answer[VINDASKOT_AT_LEAST VINDASKOT_FIGURES]);

/* The root's attribute of that number, or the first of that name, as vindaskot_field_attribute_in and
 * vindaskot_field_attribute_named_in tell them. Refusals: the reading refusals, then 14; then 13. */
uint32_t vindaskot_type_attribute_in(const uint8_t *bytes, size_t bytes_length, bool checked, size_t number,
                                     uint64_t slots[VINDASKOT_AT_LEAST VINDASKOT_ATTRIBUTE_SLOTS],
                                     uint64_t answer[VINDASKOT_AT_LEAST VINDASKOT_FIGURES]);
uint32_t vindaskot_type_attribute_named_in(const uint8_t *bytes, size_t bytes_length, bool checked, const uint8_t *name,
                                           size_t name_length,
                                           uint64_t slots[VINDASKOT_AT_LEAST VINDASKOT_ATTRIBUTE_SLOTS],
                                           uint64_t answer[VINDASKOT_AT_LEAST VINDASKOT_FIGURES]);

/* The member of that number, from 0: its record, whose places count from the member's own start, and its path. Each
 * call reads the tree anew; to go through all members, use vindaskot_type_members_in. Refusals: the reading refusals,
 * then 14. */
uint32_t vindaskot_type_member_in(const uint8_t *bytes, size_t bytes_length, bool checked, size_t number,
                                  uint64_t slots[VINDASKOT_AT_LEAST VINDASKOT_TYPE_SLOTS],
                                  uint8_t guid[VINDASKOT_AT_LEAST VINDASKOT_GUID_BYTES],
                                  uint64_t path[VINDASKOT_AT_LEAST VINDASKOT_PATH_SLOTS],
                                  uint64_t answer[VINDASKOT_AT_LEAST VINDASKOT_FIGURES]);

/* All members, in the order of their numbers, in one pass: VINDASKOT_MEMBER_SLOTS slots each, from slots[0] on.
 * answer[0]: slots written; what stands behind these is as it was. slots_length counts slots and not members: slot
 * MEMBER_COUNT of the root's record tells how many members there are. Refusals: the reading refusals, then 6 (slots
 * needed, lent). */
uint32_t vindaskot_type_members_in(const uint8_t *bytes, size_t bytes_length, bool checked, uint64_t *slots,
                                   size_t slots_length, uint64_t answer[VINDASKOT_AT_LEAST VINDASKOT_FIGURES]);

/* The start of every accepted data type of an upload, in order, and finding one by the name of its entry, not of a
 * member, without that index and through it: as vindaskot_index_build_in, vindaskot_find_in and
 * vindaskot_find_indexed_in do of symbols. A data type is accepted where vindaskot_type_step_in accepts it, and one that
 * is refused, for whatever of its members, is passed over. An index of data types needs at most a start for every 45
 * bytes; vindaskot_room tells more than enough. Refusals: 5, 10, 6; 5, 10, 13; 5, 13. */
uint32_t vindaskot_type_index_build_in(const uint8_t *bytes, size_t bytes_length, bool checked, uint32_t *starts,
                                       size_t starts_length, uint64_t answer[VINDASKOT_AT_LEAST VINDASKOT_FIGURES]);
uint32_t vindaskot_type_find_in(const uint8_t *bytes, size_t bytes_length, bool checked, const uint8_t *name,
                                size_t name_length, uint64_t answer[VINDASKOT_AT_LEAST VINDASKOT_FIGURES]);
uint32_t vindaskot_type_find_indexed_in(const uint8_t *bytes, size_t bytes_length, bool checked,
                                        const uint32_t *starts, size_t starts_length, const uint8_t *name,
                                        size_t name_length,
                                        uint64_t answer[VINDASKOT_AT_LEAST VINDASKOT_FIGURES]);

/* ---- Name index ---- */

/* The start of every accepted symbol of an upload, in the order of the names there: A to Z equal to a to z, a name
 * before a longer one that begins with it, and where names are the same the first in the upload before. They go from
 * starts[0] on; answer[0]: how many. These, and not all that were lent, are the name index, which the calls below
 * are given: what stands behind them is as it was. It takes n log n comparisons of names and no other memory;
 * vindaskot_room tells how many starts are always enough. Refusals: 5, 10, 6. */
uint32_t vindaskot_name_index_build_in(const uint8_t *bytes, size_t bytes_length, bool checked, uint32_t *starts,
                                       size_t starts_length, uint64_t answer[VINDASKOT_AT_LEAST VINDASKOT_FIGURES]);

/* answer[0]: where the first symbol of that name starts, as vindaskot_find_indexed_in answers, by halving: some 13
 * names are looked at among 9,000. Any starts may be given: what is answered has the name, but starts that are not
 * in the order of the names may hide one that has it. Refusals: 5, 13. */
uint32_t vindaskot_find_ordered_in(const uint8_t *bytes, size_t bytes_length, bool checked, const uint32_t *starts,
                                   size_t starts_length, const uint8_t *name, size_t name_length,
                                   uint64_t answer[VINDASKOT_AT_LEAST VINDASKOT_FIGURES]);

/* The branch of a text: those of the starts at which a symbol stands whose name begins with the text, A to Z equal
 * to a to z, in the order of starts, from output[0] on; the empty text's is every symbol. answer[0]: how many. Any
 * starts may be given, of a name index or of another: one at which no accepted symbol stands is passed over, and
 * one that is given twice is answered twice. Every one is looked at. Refusals: 5, 6 (which counts the entries of
 * the branch). */
uint32_t vindaskot_branch_in(const uint8_t *bytes, size_t bytes_length, bool checked, const uint32_t *starts,
                             size_t starts_length, const uint8_t *text, size_t text_length, uint32_t *output,
                             size_t output_length, uint64_t answer[VINDASKOT_AT_LEAST VINDASKOT_FIGURES]);

/* The same of a name index, whose branch is a run of neighbours, by halving: only the branch's own starts are
 * looked at, and two more for each halving. Of starts that are not in the order of the names it writes those that
 * match of some that are neighbours. Refusals: 5, 6. */
uint32_t vindaskot_branch_ordered_in(const uint8_t *bytes, size_t bytes_length, bool checked, const uint32_t *starts,
                                     size_t starts_length, const uint8_t *text, size_t text_length, uint32_t *output,
                                     size_t output_length, uint64_t answer[VINDASKOT_AT_LEAST VINDASKOT_FIGURES]);

/* The same of an upload of data types, by the names of its entries, not of their members: what a symbol's type name
 * leads to. Refusals: those of the four calls above. */
uint32_t vindaskot_type_name_index_build_in(const uint8_t *bytes, size_t bytes_length, bool checked, uint32_t *starts,
                                            size_t starts_length,
                                            uint64_t answer[VINDASKOT_AT_LEAST VINDASKOT_FIGURES]);
uint32_t vindaskot_type_find_ordered_in(const uint8_t *bytes, size_t bytes_length, bool checked, const uint32_t *starts,
                                        size_t starts_length, const uint8_t *name, size_t name_length,
                                        uint64_t answer[VINDASKOT_AT_LEAST VINDASKOT_FIGURES]);
uint32_t vindaskot_type_branch_in(const uint8_t *bytes, size_t bytes_length, bool checked, const uint32_t *starts,
                                  size_t starts_length, const uint8_t *text, size_t text_length, uint32_t *output,
                                  size_t output_length, uint64_t answer[VINDASKOT_AT_LEAST VINDASKOT_FIGURES]);
uint32_t vindaskot_type_branch_ordered_in(const uint8_t *bytes, size_t bytes_length, bool checked,
                                          const uint32_t *starts, size_t starts_length, const uint8_t *text,
                                          size_t text_length, uint32_t *output, size_t output_length,
                                          uint64_t answer[VINDASKOT_AT_LEAST VINDASKOT_FIGURES]);

/* ---- Binding ---- */

/* What an address's slots hold. Places are in the upload that the entry stands in: 0 of symbols, 1 of data types. The
 * type's name is Windows-1252 and stands behind the entry's start by its place, as after a step; of an element it is that
 * of all of the array's elements, or that of the array, as the entry has it. */
enum {
    VINDASKOT_ADDRESS_GROUP,
    VINDASKOT_ADDRESS_OFFSET,
    VINDASKOT_ADDRESS_BIT,
    VINDASKOT_ADDRESS_SIZE,
    VINDASKOT_ADDRESS_SIZE_IN_BITS,
    VINDASKOT_ADDRESS_UPLOAD,
    VINDASKOT_ADDRESS_ENTRY_AT,
    VINDASKOT_ADDRESS_TYPE_NAME_AT,
    VINDASKOT_ADDRESS_TYPE_NAME_LEN,
    VINDASKOT_ADDRESS_SLOTS
};

/* The address of a variable, or of the part of one that a path names, as MAIN.stLens.aTable[3].fZoom does: of the
 * symbol with the longest name that the path begins with, through the data types (docs/FORMAT.md, "Binding"). The path
 * is Windows-1252, and A to Z equal a to z in it. Each upload stands with the starts of its name index, which
 * vindaskot_name_index_build_in and vindaskot_type_name_index_build_in make once for all paths; other starts are no
 * fault, but may hide a name. The mode is that of both uploads. SIZE is in bits where SIZE_IN_BITS is 1, and the value
 * begins at bit BIT, from 0 to 7, of the byte at OFFSET. Refusals: 5 for the symbols, the data types and the path; 13
 * (0, 0) where no symbol has a name that the path begins with; 22 where it goes on behind a symbol of a bit, 0x2, or of
 * a reference, 0x4; then, part by part, the first of 20, 22 below a pointer, 24, 13, 22, 21, 14 and 23; of 14 the first
 * figure counts the elements, and the second is the subscript's place in the path. */
uint32_t vindaskot_bind_in(const uint8_t *symbols, size_t symbols_length, bool checked, const uint32_t *symbol_starts,
                           size_t symbol_starts_length, const uint8_t *types, size_t types_length,
                           const uint32_t *type_starts, size_t type_starts_length, const uint8_t *path,
                           size_t path_length, uint64_t slots[VINDASKOT_AT_LEAST VINDASKOT_ADDRESS_SLOTS],
                           uint64_t answer[VINDASKOT_AT_LEAST VINDASKOT_FIGURES]);

/* ---- Text ---- */

#define VINDASKOT_TEXT_STACK 512u

/* Windows-1252 to UTF-8, and back. answer[0]: bytes written. To UTF-8 three times source_length is always enough,
 * and back source_length. Refusals: 5, 11 (encode only), 6. Of the stack neither takes more than
 * VINDASKOT_TEXT_STACK bytes, whatever the text and its length, from the call's return address down to the end of
 * all that it calls; this is measured on the compiled archive (docs/BOUNDARY.md) and not proved. */
uint32_t vindaskot_decode(const uint8_t *source, size_t source_length, uint8_t *output, size_t output_length,
                          uint64_t answer[VINDASKOT_AT_LEAST VINDASKOT_FIGURES]);
uint32_t vindaskot_encode(const uint8_t *source, size_t source_length, uint8_t *output, size_t output_length,
                          uint64_t answer[VINDASKOT_AT_LEAST VINDASKOT_FIGURES]);

/* ---- Captures ---- */

/* An upload as lines of hexadecimal, and back (docs/FORMAT.md, "Captures"). Split: a line for each whole entry,
 * accepted or not, and one for what is cut at the end or all that an entry of length 0 begins: two digits a byte,
 * in capitals, and LF. An empty upload has no lines. Join: the bytes of all lines, one after another. A line ends
 * at LF, which the last may lack; its digits are of either case. What was split and is joined is the same bytes.
 * answer[0]: bytes written. For split three times bytes_length is always enough, for join half of text_length.
 * Refusals: of split 5, 6; of join 12 (an odd number of digits in a line, or another character, CR being one),
 * then 5 and 6 for the upload. */
uint32_t vindaskot_split_lines(const uint8_t *bytes, size_t bytes_length, uint8_t *text, size_t text_length,
                               uint64_t answer[VINDASKOT_AT_LEAST VINDASKOT_FIGURES]);
uint32_t vindaskot_join_lines(const uint8_t *text, size_t text_length, uint8_t *output, size_t output_length,
                              uint64_t answer[VINDASKOT_AT_LEAST VINDASKOT_FIGURES]);
/* ---- Sheet ---- */

/* The sheet of an upload of symbols, for a spreadsheet: UTF-8 text in rows of cells as RFC 4180 has them, a
 * header, then a row for each symbol; docs/FORMAT.md, "Sheet", has the columns. answer[0]: bytes written. The
 * upload is read in the present mode. At the first entry that has one, the refusal of its reading, or 10, or 17: a
 * sheet has no room for flagged sections, unread bytes and end bytes that are not 0. Refusals: 5, then 2, 3, 10
 * and 17, then 6. */
uint32_t vindaskot_sheet_export(const uint8_t *bytes, size_t bytes_length, uint8_t *output, size_t output_length,
                                uint64_t answer[VINDASKOT_AT_LEAST VINDASKOT_FIGURES]);

/* The upload of a sheet, which has no limit: the sheet's header is left out, and each row below it is an entry
 * without sections. answer[0]: bytes written; three times sheet_length is always enough. Nothing is written before
 * all was looked at. Refusals, each over the whole sheet before the next: 18 at the first row with a fault, 11 with
 * its place in the sheet, 7 for a string above its length field, then 5 and 6 for the upload. */
uint32_t vindaskot_sheet_import(const uint8_t *sheet, size_t sheet_length, uint8_t *output, size_t output_length,
                                uint64_t answer[VINDASKOT_AT_LEAST VINDASKOT_FIGURES]);

/* ---- Earlier names ---- */

/* Of slots that hold a place: the same slots without _AT. */
#define VINDASKOT_SYMBOL_NAME VINDASKOT_SYMBOL_NAME_AT
#define VINDASKOT_SYMBOL_TYPE_NAME VINDASKOT_SYMBOL_TYPE_NAME_AT
#define VINDASKOT_SYMBOL_COMMENT VINDASKOT_SYMBOL_COMMENT_AT
#define VINDASKOT_SYMBOL_ATTRIBUTES VINDASKOT_SYMBOL_ATTRIBUTES_AT
#define VINDASKOT_SYMBOL_REFACTORS VINDASKOT_SYMBOL_REFACTORS_AT
#define VINDASKOT_ATTRIBUTE_NAME VINDASKOT_ATTRIBUTE_NAME_AT
#define VINDASKOT_ATTRIBUTE_VALUE VINDASKOT_ATTRIBUTE_VALUE_AT
#define VINDASKOT_ATTRIBUTE_NEXT VINDASKOT_ATTRIBUTE_NEXT_AT
#define VINDASKOT_REFACTOR_NAME VINDASKOT_REFACTOR_NAME_AT
#define VINDASKOT_REFACTOR_NEXT VINDASKOT_REFACTOR_NEXT_AT
#define VINDASKOT_FIELD_NAME VINDASKOT_FIELD_NAME_AT
#define VINDASKOT_FIELD_TYPE_NAME VINDASKOT_FIELD_TYPE_NAME_AT
#define VINDASKOT_FIELD_COMMENT VINDASKOT_FIELD_COMMENT_AT
#define VINDASKOT_FIELD_ATTRIBUTES VINDASKOT_FIELD_ATTRIBUTES_AT
#define VINDASKOT_TYPE_NAME VINDASKOT_TYPE_NAME_AT
#define VINDASKOT_TYPE_TYPE_NAME VINDASKOT_TYPE_TYPE_NAME_AT
#define VINDASKOT_TYPE_COMMENT VINDASKOT_TYPE_COMMENT_AT
#define VINDASKOT_TYPE_ATTRIBUTES VINDASKOT_TYPE_ATTRIBUTES_AT
#define VINDASKOT_TYPE_ARRAYS VINDASKOT_TYPE_ARRAYS_AT

#ifdef __cplusplus
}
#endif

#endif
