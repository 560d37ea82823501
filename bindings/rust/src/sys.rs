//! The C interface, bindings/c/vindaskot.h, name for name; tests/header.rs compares the two files.
//!
//! C's array parameters and the pointers to one number are references here: the same pointer, never null. Bytes
//! stay a pointer and a length.

pub const DONE: u32 = 0;
pub const FINISHED: u32 = 100;
pub const OUT_OF_STEPS: u32 = 101;

pub const REFUSED_UNEXPECTED_LENGTH: u32 = 1;
pub const REFUSED_TOO_SHORT: u32 = 2;
pub const REFUSED_ENTRY_LENGTH_MISMATCH: u32 = 3;
pub const REFUSED_CLAIM_BELOW_HEADER: u32 = 4;
pub const REFUSED_TOO_LARGE: u32 = 5;
pub const REFUSED_OUTPUT_TOO_SMALL: u32 = 6;
pub const REFUSED_TOO_LONG: u32 = 7;
pub const REFUSED_SECTIONS_DISAGREE: u32 = 8;
pub const REFUSED_BAD_BLOCK: u32 = 9;
pub const REFUSED_ZERO_ENTRY_LENGTH: u32 = 10;
pub const REFUSED_BAD_TEXT: u32 = 11;
pub const REFUSED_BAD_HEXADECIMAL: u32 = 12;
pub const REFUSED_NAME_NOT_FOUND: u32 = 13;
pub const REFUSED_NO_SUCH_NUMBER: u32 = 14;
pub const REFUSED_TOO_DEEP: u32 = 15;
pub const REFUSED_END_BYTE: u32 = 16;
pub const REFUSED_NOT_IN_SHEET: u32 = 17;
pub const REFUSED_BAD_SHEET: u32 = 18;
pub const REFUSED_NOT_PLAIN: u32 = 19;
pub const REFUSED_BAD_PATH: u32 = 20;
pub const REFUSED_WRONG_DIMENSIONS: u32 = 21;
pub const REFUSED_NO_OFFSET: u32 = 22;
pub const REFUSED_OFFSET_TOO_LARGE: u32 = 23;
pub const REFUSED_TOO_MANY_ALIASES: u32 = 24;

pub const LIMIT: usize = 16777216;
pub const FIGURES: usize = 2;
pub const GUID_BYTES: usize = 16;
pub const REFUSAL_TEXT_MOST: usize = 128;
pub const ROOM_MOST: usize = 508400;
pub const TEXT_STACK: usize = 512;
pub const TYPE_STACK: usize = 24576;
pub const DEPTH_MOST: usize = 16;
#[allow(
    dead_code,
    reason = "it stands in a name that the linker asks for; tests/header.rs compares them"
)]
pub const INTERFACE: u32 = 2;

pub const ADDRESS_GROUP: usize = 0;
pub const ADDRESS_OFFSET: usize = 1;
pub const ADDRESS_BIT: usize = 2;
pub const ADDRESS_SIZE: usize = 3;
pub const ADDRESS_SIZE_IN_BITS: usize = 4;
pub const ADDRESS_UPLOAD: usize = 5;
pub const ADDRESS_ENTRY_AT: usize = 6;
pub const ADDRESS_TYPE_NAME_AT: usize = 7;
pub const ADDRESS_TYPE_NAME_LEN: usize = 8;
pub const ADDRESS_SLOTS: usize = 9;

pub const SYMBOL_LENGTH: usize = 0;
pub const SYMBOL_INDEX_GROUP: usize = 1;
pub const SYMBOL_INDEX_OFFSET: usize = 2;
pub const SYMBOL_SIZE: usize = 3;
pub const SYMBOL_DATA_TYPE_ID: usize = 4;
pub const SYMBOL_FLAGS: usize = 5;
pub const SYMBOL_HIGH: usize = 6;
pub const SYMBOL_NAME_AT: usize = 7;
pub const SYMBOL_NAME_LEN: usize = 8;
pub const SYMBOL_TYPE_NAME_AT: usize = 9;
pub const SYMBOL_TYPE_NAME_LEN: usize = 10;
pub const SYMBOL_COMMENT_AT: usize = 11;
pub const SYMBOL_COMMENT_LEN: usize = 12;
pub const SYMBOL_HAS_GUID: usize = 13;
pub const SYMBOL_ATTRIBUTES_AT: usize = 14;
pub const SYMBOL_ATTRIBUTE_COUNT: usize = 15;
pub const SYMBOL_HAS_EXTENDED: usize = 16;
pub const SYMBOL_EXTENDED_FLAGS: usize = 17;
pub const SYMBOL_REFACTORS_AT: usize = 18;
pub const SYMBOL_REFACTOR_COUNT: usize = 19;
pub const SYMBOL_UNREAD: usize = 20;
pub const SYMBOL_SLOTS: usize = 21;

pub const ATTRIBUTE_NAME_AT: usize = 0;
pub const ATTRIBUTE_NAME_LEN: usize = 1;
pub const ATTRIBUTE_VALUE_AT: usize = 2;
pub const ATTRIBUTE_VALUE_LEN: usize = 3;
pub const ATTRIBUTE_NEXT_AT: usize = 4;
pub const ATTRIBUTE_SLOTS: usize = 5;

pub const REFACTOR_COUNT: usize = 0;
pub const REFACTOR_HAS_NEXT: usize = 1;
pub const REFACTOR_NAME_AT: usize = 2;
pub const REFACTOR_NAME_LEN: usize = 3;
pub const REFACTOR_NEXT_AT: usize = 4;
pub const REFACTOR_SLOTS: usize = 5;

pub const WHY_REASON: usize = 0;
pub const WHY_FIRST: usize = 1;
pub const WHY_SECOND: usize = 2;
pub const WHY_NUMBER: usize = 3;
pub const WHY_EXPECTED: usize = 4;
pub const WHY_GOT: usize = 5;
pub const WHY_SLOTS: usize = 6;

pub const WHY_NOT_FLAGGED: u32 = 1;
pub const WHY_NO_FLAGS: u32 = 2;
pub const WHY_NO_ROOM: u32 = 3;
pub const WHY_WHOLE: u32 = 4;
pub const WHY_REFUSED: u32 = 5;
#[allow(
    dead_code,
    reason = "what is none of the others; tests/header.rs compares them"
)]
pub const WHY_OWED: u32 = 6;

pub const FIELD_LENGTH: usize = 0;
pub const FIELD_VERSION: usize = 1;
pub const FIELD_HASH_VALUE: usize = 2;
pub const FIELD_TYPE_HASH_VALUE: usize = 3;
pub const FIELD_SIZE: usize = 4;
pub const FIELD_OFFSET: usize = 5;
pub const FIELD_TYPE_ID: usize = 6;
pub const FIELD_FLAGS: usize = 7;
pub const FIELD_NAME_AT: usize = 8;
pub const FIELD_NAME_LEN: usize = 9;
pub const FIELD_TYPE_NAME_AT: usize = 10;
pub const FIELD_TYPE_NAME_LEN: usize = 11;
pub const FIELD_COMMENT_AT: usize = 12;
pub const FIELD_COMMENT_LEN: usize = 13;
pub const FIELD_HAS_GUID: usize = 14;
pub const FIELD_ATTRIBUTES_AT: usize = 15;
pub const FIELD_ATTRIBUTE_COUNT: usize = 16;
pub const FIELD_SLOTS: usize = 17;

pub const TYPE_LENGTH: usize = 0;
pub const TYPE_VERSION: usize = 1;
pub const TYPE_HASH_VALUE: usize = 2;
pub const TYPE_TYPE_HASH_VALUE: usize = 3;
pub const TYPE_SIZE: usize = 4;
pub const TYPE_OFFSET: usize = 5;
pub const TYPE_TYPE_ID: usize = 6;
pub const TYPE_FLAGS: usize = 7;
pub const TYPE_NAME_AT: usize = 8;
pub const TYPE_NAME_LEN: usize = 9;
pub const TYPE_TYPE_NAME_AT: usize = 10;
pub const TYPE_TYPE_NAME_LEN: usize = 11;
pub const TYPE_COMMENT_AT: usize = 12;
pub const TYPE_COMMENT_LEN: usize = 13;
pub const TYPE_HAS_GUID: usize = 14;
pub const TYPE_ATTRIBUTES_AT: usize = 15;
pub const TYPE_ATTRIBUTE_COUNT: usize = 16;
pub const TYPE_ARRAYS_AT: usize = 17;
pub const TYPE_ARRAY_COUNT: usize = 18;
pub const TYPE_ITEM_COUNT: usize = 19;
pub const TYPE_MEMBER_COUNT: usize = 20;
pub const TYPE_SLOTS: usize = 21;

pub const ARRAY_LOWER_BOUND: usize = 0;
pub const ARRAY_ELEMENTS: usize = 1;
pub const ARRAY_SLOTS: usize = 2;

pub const PATH_DEPTH: usize = 0;
pub const PATH_OFFSET: usize = 1;
pub const PATH_PLACES: usize = 2;
pub const PATH_SLOTS: usize = 17;

pub const MEMBER_PLACE: usize = 0;
pub const MEMBER_DEPTH: usize = 1;
pub const MEMBER_OFFSET: usize = 2;
pub const MEMBER_SLOTS: usize = 3;

pub const RUN_START: usize = 0;
pub const RUN_LENGTH: usize = 1;
pub const RUN_NUMBER: usize = 2;
pub const RUN_SLOTS: usize = 3;

pub const SYMBOL_FLAG_PERSISTENT: u16 = 0x0001;
pub const SYMBOL_FLAG_BIT_VALUE: u16 = 0x0002;
pub const SYMBOL_FLAG_REFERENCE_TO: u16 = 0x0004;
pub const SYMBOL_FLAG_TYPE_GUID: u16 = 0x0008;
pub const SYMBOL_FLAG_TCOM_INTERFACE_PTR: u16 = 0x0010;
pub const SYMBOL_FLAG_READ_ONLY: u16 = 0x0020;
pub const SYMBOL_FLAG_ITF_METHOD_ACCESS: u16 = 0x0040;
pub const SYMBOL_FLAG_METHOD_DEREF: u16 = 0x0080;
pub const SYMBOL_FLAG_CONTEXT_MASK: u16 = 0x0F00;
pub const SYMBOL_FLAG_ATTRIBUTES: u16 = 0x1000;
pub const SYMBOL_FLAG_STATIC: u16 = 0x2000;
pub const SYMBOL_FLAG_INIT_ON_RESET: u16 = 0x4000;
pub const SYMBOL_FLAG_EXTENDED_FLAGS: u16 = 0x8000;

pub const SYMBOL2_FLAG_PLC_POINTER_TYPE: u32 = 0x0000_0001;
pub const SYMBOL2_FLAG_REDUNDANCY_IGNORE: u32 = 0x0000_0002;
pub const SYMBOL2_FLAG_REFACTOR_INFO: u32 = 0x0000_0004;
pub const SYMBOL2_FLAG_ONLINE_CHANGE_PTR_REF_TYPE: u32 = 0x0000_0008;
pub const SYMBOL2_FLAG_VARIANT_TYPE: u32 = 0x0000_0010;

pub const TYPE_FLAG_DATA_TYPE: u32 = 0x0000_0001;
pub const TYPE_FLAG_DATA_ITEM: u32 = 0x0000_0002;
pub const TYPE_FLAG_REFERENCE_TO: u32 = 0x0000_0004;
pub const TYPE_FLAG_METHOD_DEREF: u32 = 0x0000_0008;
pub const TYPE_FLAG_OVERSAMPLE: u32 = 0x0000_0010;
pub const TYPE_FLAG_BIT_VALUES: u32 = 0x0000_0020;
pub const TYPE_FLAG_PROP_ITEM: u32 = 0x0000_0040;
pub const TYPE_FLAG_TYPE_GUID: u32 = 0x0000_0080;
pub const TYPE_FLAG_PERSISTENT: u32 = 0x0000_0100;
pub const TYPE_FLAG_COPY_MASK: u32 = 0x0000_0200;
pub const TYPE_FLAG_TCOM_INTERFACE_PTR: u32 = 0x0000_0400;
pub const TYPE_FLAG_METHOD_INFOS: u32 = 0x0000_0800;
pub const TYPE_FLAG_ATTRIBUTES: u32 = 0x0000_1000;
pub const TYPE_FLAG_ENUM_INFOS: u32 = 0x0000_2000;
pub const TYPE_FLAG_ALIGNED: u32 = 0x0001_0000;
pub const TYPE_FLAG_STATIC: u32 = 0x0002_0000;
pub const TYPE_FLAG_SOFTWARE_PROTECTION_LEVELS: u32 = 0x0004_0000;
pub const TYPE_FLAG_IGNORE_PERSIST: u32 = 0x0008_0000;
pub const TYPE_FLAG_ANY_SIZE_ARRAY: u32 = 0x0010_0000;
pub const TYPE_FLAG_PERSISTENT_DATATYPE: u32 = 0x0020_0000;
pub const TYPE_FLAG_INIT_ON_RESET: u32 = 0x0040_0000;
pub const TYPE_FLAG_PLC_POINTER_TYPE: u32 = 0x0080_0000;
pub const TYPE_FLAG_REFACTOR_INFO: u32 = 0x0100_0000;
pub const TYPE_FLAG_HIDE_SUB_ITEMS: u32 = 0x0200_0000;
pub const TYPE_FLAG_INCOMPLETE: u32 = 0x0400_0000;
pub const TYPE_FLAG_CONTAINS_ONLINE_CHANGE_PTR_REF: u32 = 0x0800_0000;
pub const TYPE_FLAG_VARIANT: u32 = 0x1000_0000;
pub const TYPE_FLAG_EXTENDED_ENUM_INFOS: u32 = 0x2000_0000;
pub const TYPE_FLAG_EXTENDED_FLAGS: u32 = 0x8000_0000;

/// What a program over this crate asks the linker for, whatever it calls: arguments and slots are known to no linker,
/// so the number of the interface stands in a name, and an archive of another interface does not link. (rustc 1.95 has the
/// linker keep what is `used`. One that lets it go leaves this to the calls that have changed: their names have a number.)
#[used]
pub static NEEDED: unsafe extern "C" fn() -> u32 = vindaskot_interface_2;

unsafe extern "C" {
    pub fn vindaskot_interface_2() -> u32;
    pub fn vindaskot_refusal_text(
        number: u32,
        expected: usize,
        got: usize,
        output: *mut u8,
        output_length: usize,
        answer: &mut [u64; 2],
    ) -> u32;
    pub fn vindaskot_symbol_read_2(
        bytes: *const u8,
        bytes_length: usize,
        slots: &mut [u64; 21],
        guid: &mut [u8; 16],
        answer: &mut [u64; 2],
    ) -> u32;
    pub fn vindaskot_symbol_step_2(
        bytes: *const u8,
        bytes_length: usize,
        cursor: &mut usize,
        slots: &mut [u64; 21],
        guid: &mut [u8; 16],
        answer: &mut [u64; 2],
    ) -> u32;
    pub fn vindaskot_symbol_attribute(
        bytes: *const u8,
        bytes_length: usize,
        number: usize,
        slots: &mut [u64; 5],
        answer: &mut [u64; 2],
    ) -> u32;
    pub fn vindaskot_symbol_refactor_info(
        bytes: *const u8,
        bytes_length: usize,
        number: usize,
        slots: &mut [u64; 5],
        answer: &mut [u64; 2],
    ) -> u32;
    pub fn vindaskot_symbol_attribute_named(
        bytes: *const u8,
        bytes_length: usize,
        name: *const u8,
        name_length: usize,
        slots: &mut [u64; 5],
        answer: &mut [u64; 2],
    ) -> u32;
    pub fn vindaskot_symbol_why(
        bytes: *const u8,
        bytes_length: usize,
        guid: &mut [u64; 6],
        attributes: &mut [u64; 6],
        extended_flags: &mut [u64; 6],
        chain: &mut [u64; 6],
        answer: &mut [u64; 2],
    ) -> u32;
    pub fn vindaskot_field_read(
        bytes: *const u8,
        bytes_length: usize,
        slots: &mut [u64; 17],
        guid: &mut [u8; 16],
        answer: &mut [u64; 2],
    ) -> u32;
    pub fn vindaskot_field_step(
        bytes: *const u8,
        bytes_length: usize,
        cursor: &mut usize,
        slots: &mut [u64; 17],
        guid: &mut [u8; 16],
        answer: &mut [u64; 2],
    ) -> u32;
    pub fn vindaskot_field_attribute(
        bytes: *const u8,
        bytes_length: usize,
        number: usize,
        slots: &mut [u64; 5],
        answer: &mut [u64; 2],
    ) -> u32;
    pub fn vindaskot_field_attribute_named(
        bytes: *const u8,
        bytes_length: usize,
        name: *const u8,
        name_length: usize,
        slots: &mut [u64; 5],
        answer: &mut [u64; 2],
    ) -> u32;
    pub fn vindaskot_walk(
        bytes: *const u8,
        bytes_length: usize,
        allowed: usize,
        cursor: &mut usize,
        steps: &mut usize,
        answer: &mut [u64; 2],
    ) -> u32;
    pub fn vindaskot_attribute_read(
        bytes: *const u8,
        bytes_length: usize,
        slots: &mut [u64; 5],
        answer: &mut [u64; 2],
    ) -> u32;
    pub fn vindaskot_refactor_read(
        bytes: *const u8,
        bytes_length: usize,
        slots: &mut [u64; 5],
        answer: &mut [u64; 2],
    ) -> u32;
    pub fn vindaskot_chain_read(
        bytes: *const u8,
        bytes_length: usize,
        answer: &mut [u64; 2],
    ) -> u32;
    pub fn vindaskot_chain_record(
        bytes: *const u8,
        bytes_length: usize,
        number: usize,
        slots: &mut [u64; 5],
        answer: &mut [u64; 2],
    ) -> u32;
    pub fn vindaskot_symbol_flags_read(
        bytes: *const u8,
        bytes_length: usize,
        answer: &mut [u64; 2],
    ) -> u32;
    pub fn vindaskot_symbol2_flags_read(
        bytes: *const u8,
        bytes_length: usize,
        answer: &mut [u64; 2],
    ) -> u32;
    pub fn vindaskot_type_flags_read(
        bytes: *const u8,
        bytes_length: usize,
        answer: &mut [u64; 2],
    ) -> u32;
    pub fn vindaskot_attribute_write(
        name: *const u8,
        name_length: usize,
        value: *const u8,
        value_length: usize,
        output: *mut u8,
        output_length: usize,
        answer: &mut [u64; 2],
    ) -> u32;
    pub fn vindaskot_refactor_write(
        count: u32,
        has_next: bool,
        name: *const u8,
        name_length: usize,
        output: *mut u8,
        output_length: usize,
        answer: &mut [u64; 2],
    ) -> u32;
    pub fn vindaskot_refactor_block_write(
        count: usize,
        block: *const u8,
        block_length: usize,
        output: *mut u8,
        output_length: usize,
        answer: &mut [u64; 2],
    ) -> u32;
    pub fn vindaskot_symbol_write_2(
        index_group: u32,
        index_offset: u32,
        size: u32,
        data_type_id: u32,
        flags: u16,
        high: u16,
        extended_flags: u32,
        guid: *const u8,
        guid_length: usize,
        name: *const u8,
        name_length: usize,
        type_name: *const u8,
        type_name_length: usize,
        comment: *const u8,
        comment_length: usize,
        count: usize,
        block: *const u8,
        block_length: usize,
        links: usize,
        chain: *const u8,
        chain_length: usize,
        output: *mut u8,
        output_length: usize,
        answer: &mut [u64; 2],
    ) -> u32;
    pub fn vindaskot_field_write(
        version: u32,
        hash_value: u32,
        type_hash_value: u32,
        size: u32,
        offset: u32,
        type_id: u32,
        flags: u32,
        guid: *const u8,
        guid_length: usize,
        name: *const u8,
        name_length: usize,
        type_name: *const u8,
        type_name_length: usize,
        comment: *const u8,
        comment_length: usize,
        count: usize,
        block: *const u8,
        block_length: usize,
        output: *mut u8,
        output_length: usize,
        answer: &mut [u64; 2],
    ) -> u32;
    pub fn vindaskot_plain(bytes: *const u8, bytes_length: usize, answer: &mut [u64; 2]) -> u32;
    pub fn vindaskot_room(length: usize, answer: &mut [u64; 2]) -> u32;
    pub fn vindaskot_index_build(
        bytes: *const u8,
        bytes_length: usize,
        starts: *mut u32,
        starts_length: usize,
        answer: &mut [u64; 2],
    ) -> u32;
    pub fn vindaskot_find(
        bytes: *const u8,
        bytes_length: usize,
        name: *const u8,
        name_length: usize,
        answer: &mut [u64; 2],
    ) -> u32;
    pub fn vindaskot_find_indexed(
        bytes: *const u8,
        bytes_length: usize,
        starts: *const u32,
        starts_length: usize,
        name: *const u8,
        name_length: usize,
        answer: &mut [u64; 2],
    ) -> u32;
    pub fn vindaskot_salvage(
        bytes: *const u8,
        bytes_length: usize,
        output: *mut u8,
        output_length: usize,
        runs: *mut u32,
        runs_length: usize,
        answer: &mut [u64; 2],
    ) -> u32;
    pub fn vindaskot_symbol_read_in(
        bytes: *const u8,
        bytes_length: usize,
        checked: bool,
        slots: &mut [u64; 21],
        guid: &mut [u8; 16],
        answer: &mut [u64; 2],
    ) -> u32;
    pub fn vindaskot_symbol_step_in(
        bytes: *const u8,
        bytes_length: usize,
        checked: bool,
        cursor: &mut usize,
        slots: &mut [u64; 21],
        guid: &mut [u8; 16],
        answer: &mut [u64; 2],
    ) -> u32;
    pub fn vindaskot_symbol_attribute_in(
        bytes: *const u8,
        bytes_length: usize,
        checked: bool,
        number: usize,
        slots: &mut [u64; 5],
        answer: &mut [u64; 2],
    ) -> u32;
    pub fn vindaskot_symbol_refactor_info_in(
        bytes: *const u8,
        bytes_length: usize,
        checked: bool,
        number: usize,
        slots: &mut [u64; 5],
        answer: &mut [u64; 2],
    ) -> u32;
    pub fn vindaskot_symbol_attribute_named_in(
        bytes: *const u8,
        bytes_length: usize,
        checked: bool,
        name: *const u8,
        name_length: usize,
        slots: &mut [u64; 5],
        answer: &mut [u64; 2],
    ) -> u32;
    pub fn vindaskot_field_read_in(
        bytes: *const u8,
        bytes_length: usize,
        checked: bool,
        slots: &mut [u64; 17],
        guid: &mut [u8; 16],
        answer: &mut [u64; 2],
    ) -> u32;
    pub fn vindaskot_field_step_in(
        bytes: *const u8,
        bytes_length: usize,
        checked: bool,
        cursor: &mut usize,
        slots: &mut [u64; 17],
        guid: &mut [u8; 16],
        answer: &mut [u64; 2],
    ) -> u32;
    pub fn vindaskot_field_attribute_in(
        bytes: *const u8,
        bytes_length: usize,
        checked: bool,
        number: usize,
        slots: &mut [u64; 5],
        answer: &mut [u64; 2],
    ) -> u32;
    pub fn vindaskot_field_attribute_named_in(
        bytes: *const u8,
        bytes_length: usize,
        checked: bool,
        name: *const u8,
        name_length: usize,
        slots: &mut [u64; 5],
        answer: &mut [u64; 2],
    ) -> u32;
    pub fn vindaskot_attribute_read_in(
        bytes: *const u8,
        bytes_length: usize,
        checked: bool,
        slots: &mut [u64; 5],
        answer: &mut [u64; 2],
    ) -> u32;
    pub fn vindaskot_refactor_read_in(
        bytes: *const u8,
        bytes_length: usize,
        checked: bool,
        slots: &mut [u64; 5],
        answer: &mut [u64; 2],
    ) -> u32;
    pub fn vindaskot_chain_read_in(
        bytes: *const u8,
        bytes_length: usize,
        checked: bool,
        answer: &mut [u64; 2],
    ) -> u32;
    pub fn vindaskot_chain_record_in(
        bytes: *const u8,
        bytes_length: usize,
        checked: bool,
        number: usize,
        slots: &mut [u64; 5],
        answer: &mut [u64; 2],
    ) -> u32;
    pub fn vindaskot_index_build_in(
        bytes: *const u8,
        bytes_length: usize,
        checked: bool,
        starts: *mut u32,
        starts_length: usize,
        answer: &mut [u64; 2],
    ) -> u32;
    pub fn vindaskot_find_in(
        bytes: *const u8,
        bytes_length: usize,
        checked: bool,
        name: *const u8,
        name_length: usize,
        answer: &mut [u64; 2],
    ) -> u32;
    pub fn vindaskot_find_indexed_in(
        bytes: *const u8,
        bytes_length: usize,
        checked: bool,
        starts: *const u32,
        starts_length: usize,
        name: *const u8,
        name_length: usize,
        answer: &mut [u64; 2],
    ) -> u32;
    pub fn vindaskot_salvage_in(
        bytes: *const u8,
        bytes_length: usize,
        checked: bool,
        output: *mut u8,
        output_length: usize,
        runs: *mut u32,
        runs_length: usize,
        answer: &mut [u64; 2],
    ) -> u32;
    pub fn vindaskot_type_read_in(
        bytes: *const u8,
        bytes_length: usize,
        checked: bool,
        slots: &mut [u64; 21],
        guid: &mut [u8; 16],
        answer: &mut [u64; 2],
    ) -> u32;
    pub fn vindaskot_type_step_in(
        bytes: *const u8,
        bytes_length: usize,
        checked: bool,
        cursor: &mut usize,
        slots: &mut [u64; 21],
        guid: &mut [u8; 16],
        answer: &mut [u64; 2],
    ) -> u32;
    pub fn vindaskot_type_array_in(
        bytes: *const u8,
        bytes_length: usize,
        checked: bool,
        number: usize,
        slots: &mut [u64; 2],
        answer: &mut [u64; 2],
    ) -> u32;
    pub fn vindaskot_type_attribute_in(
        bytes: *const u8,
        bytes_length: usize,
        checked: bool,
        number: usize,
        slots: &mut [u64; 5],
        answer: &mut [u64; 2],
    ) -> u32;
    pub fn vindaskot_type_attribute_named_in(
        bytes: *const u8,
        bytes_length: usize,
        checked: bool,
        name: *const u8,
        name_length: usize,
        slots: &mut [u64; 5],
        answer: &mut [u64; 2],
    ) -> u32;
    pub fn vindaskot_type_member_in(
        bytes: *const u8,
        bytes_length: usize,
        checked: bool,
        number: usize,
        slots: &mut [u64; 21],
        guid: &mut [u8; 16],
        path: &mut [u64; 17],
        answer: &mut [u64; 2],
    ) -> u32;
    pub fn vindaskot_type_members_in(
        bytes: *const u8,
        bytes_length: usize,
        checked: bool,
        slots: *mut u64,
        slots_length: usize,
        answer: &mut [u64; 2],
    ) -> u32;
    pub fn vindaskot_type_index_build_in(
        bytes: *const u8,
        bytes_length: usize,
        checked: bool,
        starts: *mut u32,
        starts_length: usize,
        answer: &mut [u64; 2],
    ) -> u32;
    pub fn vindaskot_type_find_in(
        bytes: *const u8,
        bytes_length: usize,
        checked: bool,
        name: *const u8,
        name_length: usize,
        answer: &mut [u64; 2],
    ) -> u32;
    pub fn vindaskot_type_find_indexed_in(
        bytes: *const u8,
        bytes_length: usize,
        checked: bool,
        starts: *const u32,
        starts_length: usize,
        name: *const u8,
        name_length: usize,
        answer: &mut [u64; 2],
    ) -> u32;
    pub fn vindaskot_name_index_build_in(
        bytes: *const u8,
        bytes_length: usize,
        checked: bool,
        starts: *mut u32,
        starts_length: usize,
        answer: &mut [u64; 2],
    ) -> u32;
    pub fn vindaskot_find_ordered_in(
        bytes: *const u8,
        bytes_length: usize,
        checked: bool,
        starts: *const u32,
        starts_length: usize,
        name: *const u8,
        name_length: usize,
        answer: &mut [u64; 2],
    ) -> u32;
    pub fn vindaskot_branch_in(
        bytes: *const u8,
        bytes_length: usize,
        checked: bool,
        starts: *const u32,
        starts_length: usize,
        text: *const u8,
        text_length: usize,
        output: *mut u32,
        output_length: usize,
        answer: &mut [u64; 2],
    ) -> u32;
    pub fn vindaskot_branch_ordered_in(
        bytes: *const u8,
        bytes_length: usize,
        checked: bool,
        starts: *const u32,
        starts_length: usize,
        text: *const u8,
        text_length: usize,
        output: *mut u32,
        output_length: usize,
        answer: &mut [u64; 2],
    ) -> u32;
    pub fn vindaskot_type_name_index_build_in(
        bytes: *const u8,
        bytes_length: usize,
        checked: bool,
        starts: *mut u32,
        starts_length: usize,
        answer: &mut [u64; 2],
    ) -> u32;
    pub fn vindaskot_type_find_ordered_in(
        bytes: *const u8,
        bytes_length: usize,
        checked: bool,
        starts: *const u32,
        starts_length: usize,
        name: *const u8,
        name_length: usize,
        answer: &mut [u64; 2],
    ) -> u32;
    pub fn vindaskot_type_branch_in(
        bytes: *const u8,
        bytes_length: usize,
        checked: bool,
        starts: *const u32,
        starts_length: usize,
        text: *const u8,
        text_length: usize,
        output: *mut u32,
        output_length: usize,
        answer: &mut [u64; 2],
    ) -> u32;
    pub fn vindaskot_type_branch_ordered_in(
        bytes: *const u8,
        bytes_length: usize,
        checked: bool,
        starts: *const u32,
        starts_length: usize,
        text: *const u8,
        text_length: usize,
        output: *mut u32,
        output_length: usize,
        answer: &mut [u64; 2],
    ) -> u32;
    pub fn vindaskot_bind_in(
        symbols: *const u8,
        symbols_length: usize,
        checked: bool,
        symbol_starts: *const u32,
        symbol_starts_length: usize,
        types: *const u8,
        types_length: usize,
        type_starts: *const u32,
        type_starts_length: usize,
        path: *const u8,
        path_length: usize,
        slots: &mut [u64; 9],
        answer: &mut [u64; 2],
    ) -> u32;
    pub fn vindaskot_sheet_export(
        bytes: *const u8,
        bytes_length: usize,
        output: *mut u8,
        output_length: usize,
        answer: &mut [u64; 2],
    ) -> u32;
    pub fn vindaskot_sheet_import(
        sheet: *const u8,
        sheet_length: usize,
        output: *mut u8,
        output_length: usize,
        answer: &mut [u64; 2],
    ) -> u32;
    pub fn vindaskot_decode(
        source: *const u8,
        source_length: usize,
        output: *mut u8,
        output_length: usize,
        answer: &mut [u64; 2],
    ) -> u32;
    pub fn vindaskot_encode(
        source: *const u8,
        source_length: usize,
        output: *mut u8,
        output_length: usize,
        answer: &mut [u64; 2],
    ) -> u32;
    pub fn vindaskot_split_lines(
        bytes: *const u8,
        bytes_length: usize,
        text: *mut u8,
        text_length: usize,
        answer: &mut [u64; 2],
    ) -> u32;
    pub fn vindaskot_join_lines(
        text: *const u8,
        text_length: usize,
        output: *mut u8,
        output_length: usize,
        answer: &mut [u64; 2],
    ) -> u32;
}
