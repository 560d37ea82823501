/* What the boundary tests share. docs/BOUNDARY.md says what they try.
 *
 *   boundary.c         the program: groups of checks, the report
 *   boundary_memory.c  memory between pages that nobody may touch
 *   boundary_calls.c   every exported function, called with guard words around all that it is lent
 *   boundary_model.c   what docs/FORMAT.md says the answer is, worked out in C
 *   boundary_make.c    random numbers, entries, damage
 *   boundary_edges.c   empty slices, every length lent, names that are nearly alike, the limits
 *   boundary_case.c    symbols by names in another case
 *   boundary_high.c    bytes 22 and 23 of a symbol
 *   boundary_why.c     why a section of a symbol is there or not
 *   boundary_ends.c    end bytes, which the checked mode looks at
 *   boundary_kinds.c   which of the end bytes an answer is about, so that each kind is counted
 *   boundary_salvage.c what is kept of a damaged upload, and what is dropped
 *   boundary_room.c    slots that are set aside by an upload's length
 *   boundary_names.c   name indexes, finding by halving, branches
 *   boundary_bind.c    paths of variables, bound to their addresses
 *   boundary_lines.c   captures: uploads as lines, and back
 *   boundary_plain.c   plain form
 *   boundary_sheets.c  sheets of uploads
 *   boundary_text.c    text that is counted before it is written
 *   boundary_words.c   the words of refusals
 *   boundary_types.c   whole data types
 *   boundary_trees.c   data types at random, sound and damaged
 *   boundary_random.c  random cases
 */
#ifndef BOUNDARY_H
#define BOUNDARY_H

#include <string.h>

#include "vindaskot.h"

/* ---- Checks ---- */

enum group {
    FRAMES,
    STATUSES,
    OUTPUTS,
    INPUTS,
    EMPTY,
    ROOMS,
    NEIGHBOURS,
    LIMITS,
    LENGTHS,
    READS,
    NUMBERED,
    NAMED,
    ALIKE,
    UNNAMED,
    PLACES,
    WALKS,
    WRITES,
    ROUND_TRIPS,
    FINDS,
    FINDS_PASS,
    INDEX_PASSES,
    CAPITALS,
    OTHER_CASE,
    EARLIER,
    NEAR_CASE,
    HIGHS_READ,
    HIGHS_WRITTEN,
    HIGHS_APART,
    WHYS,
    WHY_NOT_FLAGGED,
    WHY_NO_FLAGS,
    WHY_NO_ROOM,
    WHY_WHOLE,
    WHY_NONE_ANNOUNCED,
    WHY_REFUSED,
    WHY_END_BEHIND_COUNT,
    WHY_OWED,
    WHY_SHOWN,
    WHY_ACCEPTED,
    STAYS,
    ENDS,
    ENDS_APART,
    ENDS_NAME,
    ENDS_TYPE,
    ENDS_COMMENT,
    ENDS_ATTRIBUTE_NAME,
    ENDS_ATTRIBUTE_VALUE,
    ENDS_FORMER,
    ENDS_ALONE,
    ENDS_BEFORE_SHORT,
    ENDS_IN_DROPPED,
    SHORT_FIRST,
    SKIPPED_ITEMS,
    SKIPPED_METHODS,
    UNREAD_ENDS,
    BEHIND_ENDS,
    SALVAGES,
    SALVAGES_SHORT_OF,
    SALVAGES_COVER,
    SALVAGES_AGAIN,
    RUNS_NONE,
    RUNS_SHORT,
    RUNS_TAIL,
    RUNS_STRINGS,
    RUNS_BEYOND,
    RUNS_ZERO,
    RUNS_ENDS,
    RUNS_ADJACENT,
    ROOM_LENGTHS,
    ROOM_ABOVE,
    ROOM_STEPS,
    ROOM_ENOUGH,
    ROOM_FULL,
    ROOM_STOPPED,
    NAMES_BUILT,
    NAMES_SHORT_OF,
    NAMES_FOUND,
    NAMES_TWINS,
    NAMES_NONE,
    NAMES_ELSEWHERE,
    STARTS_BUILT,
    STARTS_WALKED,
    STARTS_INDEXED,
    STARTS_STOPPED,
    BRANCHES,
    BRANCHES_HALVED,
    BRANCHES_SHORT_OF,
    BRANCHES_ELSEWHERE,
    LINES_SPLIT,
    LINES_JOINED,
    LINES_BAD,
    LINES_SHORT_OF,
    PLAIN,
    PLAIN_DEPARTS,
    PLAIN_REFUSED,
    SHEETS,
    SHEETS_SHORT_OF,
    SHEETS_QUOTED,
    SHEETS_REFUSED,
    IMPORTS,
    IMPORTS_SHORT_OF,
    IMPORTS_REFUSED,
    WORDS,
    WORDS_SHORT_OF,
    WORDS_OF_NONE,
    TEXTS,
    COUNTED,
    TYPES_READ,
    TYPES_ARRAYS,
    TYPES_ATTRIBUTES,
    TYPES_MEMBERS,
    TYPES_PATHS,
    TYPES_LISTED,
    TYPES_SLOTS,
    TYPES_FROM_PLACE,
    TYPES_AS_FIELD,
    TYPES_WALKED,
    TYPES_CLAIM,
    TYPES_STRINGS,
    TYPES_ENDS,
    TYPES_BOUNDS,
    TYPES_TOO_DEEP,
    TYPES_LEFT,
    TYPES_LEAVES,
    TYPES_BELOW,
    TYPES_ATTRIBUTE,
    TYPES_ATTRIBUTE_ENDS,
    TYPES_DEEPEST,
    TYPES_EVERY_DEPTH,
    TYPES_MANY,
    BOUND_KNOWN,
    BOUND_SYMBOL,
    BOUND_MEMBER,
    BOUND_ELEMENT,
    BOUND_BITS,
    BOUND_ALIAS,
    BOUND_ELSEWHERE,
    UNBOUND_SYMBOL,
    UNBOUND_MEMBER,
    UNBOUND_TYPE,
    UNBOUND_OUTSIDE,
    UNBOUND_PATH,
    UNBOUND_DIMENSIONS,
    UNBOUND_OFFSET,
    UNBOUND_FAR,
    UNBOUND_ALIASES,
    GROUPS
};

extern uint64_t checks[GROUPS];

/* The random case that is being tried, for what a failed check says. */
#define NO_CASE UINT64_MAX

extern uint64_t now_trying;

void failed(const char *file, int line, enum group group, const char *format, ...);

#define CHECK(group, ok, ...) ((ok) ? (void)checks[group]++ : failed(__FILE__, __LINE__, group, __VA_ARGS__))

/* ---- Memory ---- */

struct bytes {
    const uint8_t *at;
    size_t len;
};

struct room {
    uint8_t *at;
    size_t len;
};

/* The arguments of both entry writers. A symbol's numbers: group, offset, size, type id. A field's: version, hash, type
 * hash, size, offset, type id. A field has no `high`. */
struct parts {
    uint32_t numbers[6];
    uint32_t flags;
    uint16_t high;
    uint32_t extended;
    struct bytes guid, name, type_name, comment, block, chain;
    size_t count, links;
};

/* Each slice of a call lies in an area of its own, with a page that faults at either end. */
enum area { UPLOAD, NAME, TYPE_NAME, COMMENT, GUID, BLOCK, CHAIN, SLOTS, OUT, RUNS, AREAS };

/* Where a slice touches its area's guard page: its end at the page behind it, or its start at the page before it. */
enum side { AT_END, AT_START, SIDES };

extern enum side side;

/* What is being tried: the present mode by the functions that take none, the present mode by those that take one, or the
 * checked mode. The model knows the last from the others. */
enum mode { PRESENT, PRESENT_IN, CHECKED, MODES };

extern enum mode mode;

void begin_memory(void);
uint8_t *area(enum area which, size_t len);
struct bytes lay(enum area which, struct bytes from);
struct parts laid(const struct parts *from);

/* A buffer to be written, in area OUT or in RUNS, filled with a pattern as the memory around it is. After `watch`,
 * `kept` says whether the bytes around it are what they were, and all of it but its first bytes is still the pattern.
 */
struct room lend(size_t len);
struct room lend_runs(size_t slots);
void watch(enum area which, struct room room);
bool kept(enum area which, struct room room, size_t written);

/* ---- Calls ---- */

enum function {
    SYMBOL_READ,
    SYMBOL_STEP,
    SYMBOL_ATTRIBUTE,
    SYMBOL_REFACTOR_INFO,
    SYMBOL_ATTRIBUTE_NAMED,
    SYMBOL_WHY,
    FIELD_READ,
    FIELD_STEP,
    FIELD_ATTRIBUTE,
    FIELD_ATTRIBUTE_NAMED,
    WALK,
    ATTRIBUTE_READ,
    REFACTOR_READ,
    CHAIN_READ,
    CHAIN_RECORD,
    SYMBOL_FLAGS_READ,
    SYMBOL2_FLAGS_READ,
    TYPE_FLAGS_READ,
    ATTRIBUTE_WRITE,
    REFACTOR_WRITE,
    REFACTOR_BLOCK_WRITE,
    SYMBOL_WRITE,
    FIELD_WRITE,
    INDEX_ROOM,
    INDEX_BUILD,
    FIND,
    FIND_INDEXED,
    SALVAGE,
    DECODE,
    ENCODE,
    SYMBOL_READ_IN,
    SYMBOL_STEP_IN,
    SYMBOL_ATTRIBUTE_IN,
    SYMBOL_REFACTOR_INFO_IN,
    SYMBOL_ATTRIBUTE_NAMED_IN,
    FIELD_READ_IN,
    FIELD_STEP_IN,
    FIELD_ATTRIBUTE_IN,
    FIELD_ATTRIBUTE_NAMED_IN,
    ATTRIBUTE_READ_IN,
    REFACTOR_READ_IN,
    CHAIN_READ_IN,
    CHAIN_RECORD_IN,
    INDEX_BUILD_IN,
    FIND_IN,
    FIND_INDEXED_IN,
    SALVAGE_IN,
    TYPE_READ_IN,
    TYPE_STEP_IN,
    TYPE_ARRAY_IN,
    TYPE_ATTRIBUTE_IN,
    TYPE_ATTRIBUTE_NAMED_IN,
    TYPE_MEMBER_IN,
    TYPE_MEMBERS_IN,
    TYPE_INDEX_BUILD_IN,
    TYPE_FIND_IN,
    TYPE_FIND_INDEXED_IN,
    NAME_INDEX_BUILD_IN,
    FIND_ORDERED_IN,
    BRANCH_IN,
    BRANCH_ORDERED_IN,
    TYPE_NAME_INDEX_BUILD_IN,
    TYPE_FIND_ORDERED_IN,
    TYPE_BRANCH_IN,
    TYPE_BRANCH_ORDERED_IN,
    PLAIN_FORM,
    SPLIT_LINES,
    JOIN_LINES,
    SHEET_EXPORT,
    SHEET_IMPORT,
    REFUSAL_TEXT,
    BIND_IN,
    FUNCTIONS
};

extern enum function calling;
extern uint64_t calls[FUNCTIONS];

const char *name_of(enum function function);
bool all_seen(enum function function);
void begin_calls(void);

/* The sections of a symbol, in the order in which it has them. */
enum section { GUID_SECTION, ATTRIBUTES_SECTION, EXTENDED_SECTION, CHAIN_SECTION, SECTIONS };

/* All that a call told. What it does not tell is 0. */
struct told {
    enum function function;
    uint32_t status;
    uint64_t answer[2];
    uint64_t slots[VINDASKOT_SYMBOL_SLOTS];
    uint8_t guid[16];
    uint64_t path[VINDASKOT_PATH_SLOTS];
    uint64_t whys[SECTIONS][VINDASKOT_WHY_SLOTS];
    size_t cursor;
    size_t steps;
};

void same_at(const char *file, int line, enum group group, struct told got, struct told want);

#define SAME(group, got, want) same_at(__FILE__, __LINE__, group, got, want)

/* Whether what was told is a symbol's record. */
bool tells_symbol(struct told told);

/* The group of a check on an attribute by name, by what is expected of it. */
enum group naming_group(struct told want);

/* A call that has two modes is made as is being tried. */
typedef struct told (*reading)(struct bytes bytes);
typedef struct told (*numbered)(struct bytes bytes, size_t number);
typedef struct told (*naming)(struct bytes bytes, struct bytes name);
typedef struct told (*stepping)(struct bytes bytes, size_t cursor);
typedef struct told (*writing)(const struct parts *parts, struct room out);
typedef struct told (*converting)(struct bytes src, struct room out);

struct told call_symbol_read(struct bytes bytes);
struct told call_symbol_step(struct bytes bytes, size_t cursor);
struct told call_symbol_attribute(struct bytes bytes, size_t number);
struct told call_symbol_refactor_info(struct bytes bytes, size_t number);
struct told call_symbol_attribute_named(struct bytes bytes, struct bytes name);
struct told call_symbol_why(struct bytes bytes);
struct told call_field_read(struct bytes bytes);
struct told call_field_step(struct bytes bytes, size_t cursor);
struct told call_field_attribute(struct bytes bytes, size_t number);
struct told call_field_attribute_named(struct bytes bytes, struct bytes name);
struct told call_walk(struct bytes bytes, size_t allowed, size_t cursor);
struct told call_attribute_read(struct bytes bytes);
struct told call_refactor_read(struct bytes bytes);
struct told call_chain_read(struct bytes bytes);
struct told call_chain_record(struct bytes bytes, size_t number);
struct told call_symbol_flags_read(struct bytes bytes);
struct told call_symbol2_flags_read(struct bytes bytes);
struct told call_type_flags_read(struct bytes bytes);
struct told call_attribute_write(struct bytes name, struct bytes value, struct room out);
struct told call_refactor_write(uint32_t count, bool has_next, struct bytes name, struct room out);
struct told call_refactor_block_write(size_t count, struct bytes block, struct room out);
struct told call_symbol_write(const struct parts *parts, struct room out);
struct told call_field_write(const struct parts *parts, struct room out);
struct told call_room(size_t length);
struct told call_index_build(struct bytes bytes, struct room slots);
struct told call_find(struct bytes bytes, struct bytes name);
struct told call_find_indexed(struct bytes bytes, struct bytes slots, struct bytes name);
struct told call_salvage(struct bytes bytes, struct room out, struct room runs);
struct told call_type_read(struct bytes bytes);
struct told call_type_step(struct bytes bytes, size_t cursor);
struct told call_type_array(struct bytes bytes, size_t number);
struct told call_type_attribute(struct bytes bytes, size_t number);
struct told call_type_attribute_named(struct bytes bytes, struct bytes name);
struct told call_type_member(struct bytes bytes, size_t number);
struct told call_type_members(struct bytes bytes, struct room slots);
struct told call_type_index_build(struct bytes bytes, struct room slots);
struct told call_type_find(struct bytes bytes, struct bytes name);
struct told call_type_find_indexed(struct bytes bytes, struct bytes slots, struct bytes name);
struct told call_name_index_build(struct bytes bytes, struct room slots);
struct told call_find_ordered(struct bytes bytes, struct bytes slots, struct bytes name);
struct told call_branch(struct bytes bytes, struct bytes slots, struct bytes text, struct room out);
struct told call_branch_ordered(struct bytes bytes, struct bytes slots, struct bytes text, struct room out);
struct told call_type_name_index_build(struct bytes bytes, struct room slots);
struct told call_type_find_ordered(struct bytes bytes, struct bytes slots, struct bytes name);
struct told call_type_branch(struct bytes bytes, struct bytes slots, struct bytes text, struct room out);
struct told call_type_branch_ordered(struct bytes bytes, struct bytes slots, struct bytes text, struct room out);
/* An upload, and the slots of its name index. */
struct indexed {
    struct bytes bytes, slots;
};

struct told call_bind(struct indexed symbols, struct indexed types, struct bytes path);
struct told call_plain(struct bytes bytes);
struct told call_split_lines(struct bytes bytes, struct room text);
struct told call_join_lines(struct bytes text, struct room out);
struct told call_sheet_export(struct bytes bytes, struct room out);
struct told call_sheet_import(struct bytes sheet, struct room out);
struct told call_refusal_text(uint32_t number, uint64_t expected, uint64_t got, struct room out);
struct told call_decode(struct bytes src, struct room out);
struct told call_encode(struct bytes src, struct room out);

/* ---- What docs/FORMAT.md says ---- */

#define NEXT_BIT 0x01000000u
#define COUNT_MASK 0x01111111u

/* The slots that tell a string's place and length, or the place of the first of some records and how many there are. */
struct run {
    size_t place, len;
};

/* The slots of an entry's numbers and strings, in the order that the entry has them, and of its records. */
extern const size_t symbol_numbers[4], field_numbers[7], type_numbers[7];
extern const struct run symbol_strings[3], field_strings[3], type_strings[3];
extern const struct run symbol_attributes, symbol_refactors, field_attributes, type_attributes;
extern const struct run attribute_name, attribute_value, refactor_name;

struct told done(uint64_t first, uint64_t second);
struct told refused(uint32_t number, uint64_t expected, uint64_t got);
struct told refactor_told(uint64_t count, size_t name, size_t len);

struct told model_symbol_read(struct bytes bytes);
struct told model_symbol_step(struct bytes bytes, size_t cursor);
struct told model_symbol_attribute(struct bytes bytes, size_t number);
struct told model_symbol_refactor_info(struct bytes bytes, size_t number);
struct told model_symbol_attribute_named(struct bytes bytes, struct bytes name);
struct told model_symbol_why(struct bytes bytes);
struct told model_field_read(struct bytes bytes);
struct told model_field_step(struct bytes bytes, size_t cursor);
struct told model_field_attribute(struct bytes bytes, size_t number);
struct told model_field_attribute_named(struct bytes bytes, struct bytes name);
struct told model_walk(struct bytes bytes, size_t allowed, size_t cursor);
struct told model_attribute_read(struct bytes bytes);
struct told model_refactor_read(struct bytes bytes);
struct told model_chain_read(struct bytes bytes);
struct told model_chain_record(struct bytes bytes, size_t number);
struct told model_flags_read(struct bytes bytes, size_t width);
struct told model_block_write(size_t count, struct bytes block, size_t lent);
struct told model_symbol_write(const struct parts *parts, size_t lent);
struct told model_field_write(const struct parts *parts, size_t lent);
struct told model_room(size_t length);
struct told model_find(struct bytes bytes, struct bytes name);
struct told model_find_indexed(struct bytes bytes, struct bytes slots, struct bytes name);

/* A refusal of a data type: what it is about, and at which depth the entry stands that it is about. */
enum fault {
    NO_FAULT,
    IN_CLAIM, /* the root's own length and claim, or refusal 5 */
    IN_STRINGS,
    IN_ENDS,
    IN_ARRAYS,
    TOO_DEEP,
    TOO_FEW_LEFT,
    LEAVES_PARENT,
    BELOW_HEADER,
    IN_ATTRIBUTES,
    IN_ATTRIBUTE_ENDS,
    FAULTS
};

struct at_fault {
    enum fault fault;
    size_t depth;
};

/* A member of a data type: where it starts and its offset, both from the root's start. */
struct member {
    size_t place, depth;
    uint64_t offset;
};

/* As many as 16,777,216 bytes can have: the least entry, a header and three end bytes, has 45. */
enum { MEMBERS_MOST = VINDASKOT_LIMIT / 45 };

struct told model_type_read(struct bytes bytes);
struct told model_type_step(struct bytes bytes, size_t cursor);
struct told model_type_array(struct bytes bytes, size_t number);
struct told model_type_attribute(struct bytes bytes, size_t number);
struct told model_type_attribute_named(struct bytes bytes, struct bytes name);
struct told model_type_member(struct bytes bytes, size_t number);

/* The members of the data type that was read last, and what refused it, if anything did. */
extern struct member model_members[];
extern struct at_fault model_fault;

/* What would be written, with the room taken as enough. */
struct told model_type_members(struct bytes bytes, uint64_t *slots);
struct told model_index(struct bytes bytes, uint32_t *starts);

/* Whether two names are the same, A to Z equal to a to z; and the starts of a name index, of data types or of symbols: how
 * many, none where a zero claim stops the walk. */
bool has_letters(struct bytes name, struct bytes other);
size_t name_starts(bool of_types, struct bytes bytes, uint32_t *starts);

struct told model_salvage(struct bytes bytes, uint8_t *out, uint32_t *runs);
struct told model_decode(struct bytes src, uint8_t *out);
struct told model_encode(struct bytes src, uint8_t *out);

uint64_t number_at(struct bytes bytes, size_t at, size_t width);
bool equal(struct bytes a, struct bytes b);
struct bytes part(struct bytes bytes, size_t at, size_t len);
struct bytes text(const char *s);

/* The group of a check in the checked mode on the symbol or the field at the start of these bytes, by what the present
 * mode tells of it and by what is expected: which end byte it is about, or the usual group. On an attribute by itself
 * likewise. */
enum group symbol_group(struct bytes bytes, struct told present, struct told want, enum group usual);
enum group field_group(struct bytes bytes, struct told present, struct told want, enum group usual);
enum group alone_group(struct bytes bytes, struct told want, enum group usual);

/* ---- Making ---- */

void seed(uint64_t from);
uint64_t any(void);
size_t below(size_t n);
bool one_in(size_t n);

enum { BUFFER = 65536, SOME = 6 };

struct buffer {
    size_t len;
    uint8_t at[BUFFER];
};

struct bytes whole(const struct buffer *buffer);
void put(struct buffer *to, struct bytes from);
void put_number(struct buffer *to, uint64_t number, size_t width);
void put_attribute(struct buffer *to, struct bytes name, struct bytes value);
void put_refactor(struct buffer *to, uint32_t packed, struct bytes name);
void put_symbol(struct buffer *to, const struct parts *parts);
void put_field(struct buffer *to, const struct parts *parts);

/* A field's parts one by one, for entries with array records and sub-items: what stands before the array records, with
 * these counts; a GUID where it is flagged; the attributes likewise; and the claim, once the entry is there. */
void put_field_head(struct buffer *to, const struct parts *parts, size_t arrays, size_t items);
void put_field_guid(struct buffer *to, const struct parts *parts);
void put_field_attributes(struct buffer *to, const struct parts *parts);
void put_any(struct buffer *to, size_t len);
void put_claim(struct buffer *to, size_t start, size_t claim);

/* An entry to be written, and the records of its blocks one by one. All of its slices lie in the pool. */
struct draft {
    struct parts parts;
    struct bytes names[SOME], values[SOME], formers[SOME];
    uint32_t counts[SOME];
    struct buffer pool;
};

void draft_guid(struct draft *draft);
void draft_attributes(struct draft *draft);
struct bytes string_in(struct buffer *pool, size_t most);
uint8_t no_zero(void);
void draft_symbol(struct draft *draft);
void draft_field(struct draft *draft);
void spoil(struct draft *draft);
void make_random(struct buffer *to);
void make_symbol(struct buffer *to);
void make_field(struct buffer *to);
void make_records(struct buffer *to);
void make_upload(struct buffer *to);
void make_family(struct buffer *to);
void make_wrong(struct buffer *to);
void make_damaged(struct buffer *to);
void make_narrow(struct buffer *to);
void make_text(struct buffer *to);
void make_plain(struct buffer *to);
void make_types(struct buffer *to);
void damage(struct buffer *to, size_t header);

/* A name's letters in cases at random, and a name that is no longer the same though it looks as if in another case. */
void recase(struct room name);
void miss_case(struct room name);

/* ---- The tests ---- */

void try_edges(void);
void try_capitals(void);
void try_highs(void);
void try_whys(void);
void try_why(struct bytes bytes);
void try_ends(void);
void try_salvages(void);
void try_salvage(struct bytes bytes);
void try_salvage_limit(size_t len);
void try_rooms(void);
void try_room(struct bytes bytes);
void try_room_lengths(void);
void try_room_limit(size_t len);
void try_symbol_names(struct bytes bytes);
void try_type_names(struct bytes bytes);
void try_name_limit(size_t len);
void try_binds(void);
void try_paths(void);
void try_bind_limit(size_t len);
void try_lines(struct bytes bytes);
void try_line_limit(size_t len);
void try_plain(struct bytes bytes);
void try_plain_changed(struct bytes bytes);
void try_plain_limit(size_t len);
void try_sheet(struct bytes bytes);
void try_sheets(void);
void try_sheet_limit(size_t len);

/* The words of a refusal of that number, from 1 to 24, and those figures; those of every refusal. */
void try_words(uint32_t number, uint64_t expected, uint64_t got);
void try_all_words(void);
void try_types(void);
void try_type(struct bytes bytes);
void try_type_walk(struct bytes bytes);
void try_type_limit(size_t len);
void try_type_depths(void);
void try_counted(void);
void try_limits(void);
void try_random(uint64_t from, uint64_t cases, uint64_t seed_number);

#endif
