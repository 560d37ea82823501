//! The C interface as the driver calls it: each slice goes as its pointer and its length.
use crate::clock::wrong;
use crate::rig::Symbol;
use crate::sys;

/// What a call needs room for that is not its bytes: a caller keeps one and lends it again.
pub struct Told<const N: usize> {
    pub slots: [u64; N],
    pub guid: [u8; 16],
    pub answer: [u64; 2],
}

impl<const N: usize> Told<N> {
    pub fn new() -> Self {
        Self {
            slots: [0; N],
            guid: [0; 16],
            answer: [0; 2],
        }
    }
    pub fn number(&self, slot: usize) -> usize {
        self.slots[slot] as usize
    }
}

/// The first figure of the answer to a call that must end with a status.
fn first_of(wanted: u32, what: &str, status: u32, answer: [u64; 2]) -> usize {
    if status != wanted {
        wrong(&format!(
            "vindaskot_{what} has status {status} {answer:?}, not {wanted}"
        ));
    }
    answer[0] as usize
}

/// What a call that must succeed wrote, counted or found.
fn done(what: &str, status: u32, answer: [u64; 2]) -> usize {
    first_of(sys::DONE, what, status, answer)
}

/// What a call needs that was lent nothing, as its refusal says.
fn needed(what: &str, status: u32, answer: [u64; 2]) -> usize {
    first_of(6, what, status, answer)
}

/// A step of the walk, of this archive or of an earlier one, by the number of its slots.
pub type SymbolStep<const N: usize> = unsafe extern "C" fn(
    *const u8,
    usize,
    &mut usize,
    &mut [u64; N],
    &mut [u8; 16],
    &mut [u64; 2],
) -> u32;

pub const SYMBOL_STEP: SymbolStep<{ sys::SYMBOL_SLOTS }> = sys::vindaskot_symbol_step_2;

pub fn symbol_step<const N: usize>(
    by: SymbolStep<N>,
    bytes: &[u8],
    cursor: &mut usize,
    told: &mut Told<N>,
) -> u32 {
    let (slots, guid, answer) = (&mut told.slots, &mut told.guid, &mut told.answer);
    unsafe { by(bytes.as_ptr(), bytes.len(), cursor, slots, guid, answer) }
}

/// A step by the call that takes a mode, in the checked or in the present one.
pub fn symbol_step_in(
    checked: bool,
    bytes: &[u8],
    cursor: &mut usize,
    told: &mut Told<{ sys::SYMBOL_SLOTS }>,
) -> u32 {
    let (slots, guid, answer) = (&mut told.slots, &mut told.guid, &mut told.answer);
    let (start, len) = (bytes.as_ptr(), bytes.len());
    unsafe { sys::vindaskot_symbol_step_in(start, len, checked, cursor, slots, guid, answer) }
}

/// Looks whether an upload is in plain form. Where it is not, the run ends.
pub fn plain(bytes: &[u8]) {
    let mut answer = [0; 2];
    let status = unsafe { sys::vindaskot_plain(bytes.as_ptr(), bytes.len(), &mut answer) };
    done("plain", status, answer);
}

pub fn field_read(bytes: &[u8], told: &mut Told<{ sys::FIELD_SLOTS }>) {
    let (slots, guid, answer) = (&mut told.slots, &mut told.guid, &mut told.answer);
    let status =
        unsafe { sys::vindaskot_field_read(bytes.as_ptr(), bytes.len(), slots, guid, answer) };
    done("field_read", status, told.answer);
}

pub fn type_read_in(checked: bool, bytes: &[u8], told: &mut Told<{ sys::TYPE_SLOTS }>) {
    let (slots, guid, answer) = (&mut told.slots, &mut told.guid, &mut told.answer);
    let (start, len) = (bytes.as_ptr(), bytes.len());
    let status = unsafe { sys::vindaskot_type_read_in(start, len, checked, slots, guid, answer) };
    done("type_read_in", status, told.answer);
}

pub fn type_read(bytes: &[u8], told: &mut Told<{ sys::TYPE_SLOTS }>) {
    type_read_in(false, bytes, told);
}

pub fn type_member(
    bytes: &[u8],
    number: usize,
    told: &mut Told<{ sys::TYPE_SLOTS }>,
    path: &mut [u64; sys::PATH_SLOTS],
) {
    let (slots, guid, answer) = (&mut told.slots, &mut told.guid, &mut told.answer);
    let (start, len) = (bytes.as_ptr(), bytes.len());
    let status = unsafe {
        sys::vindaskot_type_member_in(start, len, false, number, slots, guid, path, answer)
    };
    done("type_member_in", status, told.answer);
}

/// The members of a data type; how many slots they took.
pub fn type_members(bytes: &[u8], slots: &mut [u64]) -> usize {
    let mut answer = [0; 2];
    let (start, len) = (bytes.as_ptr(), bytes.len());
    let (list, room) = (slots.as_mut_ptr(), slots.len());
    let status =
        unsafe { sys::vindaskot_type_members_in(start, len, false, list, room, &mut answer) };
    done("type_members_in", status, answer)
}

/// The steps of a walk to the end.
pub fn walk(bytes: &[u8]) -> usize {
    let (mut cursor, mut steps, mut answer) = (0, 0, [0; 2]);
    let status = unsafe {
        sys::vindaskot_walk(
            bytes.as_ptr(),
            bytes.len(),
            usize::MAX,
            &mut cursor,
            &mut steps,
            &mut answer,
        )
    };
    if status != sys::FINISHED || cursor != bytes.len() {
        wrong("vindaskot_walk did not come to the end");
    }
    steps
}

pub fn attribute_read(bytes: &[u8], told: &mut Told<{ sys::ATTRIBUTE_SLOTS }>) {
    let status = unsafe {
        sys::vindaskot_attribute_read(
            bytes.as_ptr(),
            bytes.len(),
            &mut told.slots,
            &mut told.answer,
        )
    };
    done("attribute_read", status, told.answer);
}

pub fn refactor_read(bytes: &[u8], told: &mut Told<{ sys::REFACTOR_SLOTS }>) {
    let status = unsafe {
        sys::vindaskot_refactor_read(
            bytes.as_ptr(),
            bytes.len(),
            &mut told.slots,
            &mut told.answer,
        )
    };
    done("refactor_read", status, told.answer);
}

pub fn attribute_write(name: &[u8], value: &[u8], out: &mut [u8]) -> usize {
    let mut answer = [0; 2];
    let status = unsafe {
        sys::vindaskot_attribute_write(
            name.as_ptr(),
            name.len(),
            value.as_ptr(),
            value.len(),
            out.as_mut_ptr(),
            out.len(),
            &mut answer,
        )
    };
    done("attribute_write", status, answer)
}

pub fn refactor_write(count: u32, has_next: bool, name: &[u8], out: &mut [u8]) -> usize {
    let mut answer = [0; 2];
    let status = unsafe {
        sys::vindaskot_refactor_write(
            count,
            has_next,
            name.as_ptr(),
            name.len(),
            out.as_mut_ptr(),
            out.len(),
            &mut answer,
        )
    };
    done("refactor_write", status, answer)
}

/// Writes a symbol by one of the writers. An earlier one takes no `high`.
macro_rules! symbol_write {
    ($by:path, $s:ident, $out:ident, $($high:expr)?) => {{
        let mut answer = [0; 2];
        let status = unsafe {
            $by(
                $s.group,
                $s.offset,
                $s.size,
                $s.type_id,
                $s.flags,
                $($high,)?
                $s.extended,
                $s.guid.as_ptr(),
                $s.guid.len(),
                $s.name.as_ptr(),
                $s.name.len(),
                $s.type_name.as_ptr(),
                $s.type_name.len(),
                $s.comment.as_ptr(),
                $s.comment.len(),
                $s.attributes.len(),
                $s.block.as_ptr(),
                $s.block.len(),
                $s.former.len(),
                $s.chain.as_ptr(),
                $s.chain.len(),
                $out.as_mut_ptr(),
                $out.len(),
                &mut answer,
            )
        };
        done("symbol_write", status, answer)
    }};
}

pub fn symbol_write(s: &Symbol, out: &mut [u8]) -> usize {
    symbol_write!(sys::vindaskot_symbol_write_2, s, out, s.high)
}

/// A field with a symbol's strings, GUID and attributes. The three strings and the block come apart: they may have been made
/// for this call.
pub fn field_write(s: &Symbol, strings: [&[u8]; 3], block: &[u8], out: &mut [u8]) -> usize {
    let mut answer = [0; 2];
    let [name, type_name, comment] = strings;
    let status = unsafe {
        sys::vindaskot_field_write(
            1,
            s.group,
            s.offset,
            s.size,
            s.offset,
            s.type_id,
            s.field_flags(),
            s.guid.as_ptr(),
            s.guid.len(),
            name.as_ptr(),
            name.len(),
            type_name.as_ptr(),
            type_name.len(),
            comment.as_ptr(),
            comment.len(),
            s.attributes.len(),
            block.as_ptr(),
            block.len(),
            out.as_mut_ptr(),
            out.len(),
            &mut answer,
        )
    };
    done("field_write", status, answer)
}

pub fn index_build(bytes: &[u8], slots: &mut [u32]) -> usize {
    let mut answer = [0; 2];
    let status = unsafe {
        sys::vindaskot_index_build(
            bytes.as_ptr(),
            bytes.len(),
            slots.as_mut_ptr(),
            slots.len(),
            &mut answer,
        )
    };
    done("index_build", status, answer)
}

/// How many slots an index needs, as it says itself where it is lent none and refused.
pub fn index_needs(bytes: &[u8]) -> usize {
    let mut answer = [0; 2];
    let (start, none) = (bytes.as_ptr(), std::ptr::null_mut());
    let status = unsafe { sys::vindaskot_index_build(start, bytes.len(), none, 0, &mut answer) };
    needed("index_build", status, answer)
}

pub fn room(length: usize) -> usize {
    let mut answer = [0; 2];
    let status = unsafe { sys::vindaskot_room(length, &mut answer) };
    done("room", status, answer)
}

/// What was written: bytes and slots. By the call that takes no mode, or in one.
pub fn salvage(
    checked: Option<bool>,
    bytes: &[u8],
    out: &mut [u8],
    runs: &mut [u32],
) -> [usize; 2] {
    let mut answer = [0; 2];
    let (start, len) = (bytes.as_ptr(), bytes.len());
    let (kept, room) = (out.as_mut_ptr(), out.len());
    let (list, slots) = (runs.as_mut_ptr(), runs.len());
    let status = unsafe {
        match checked {
            None => sys::vindaskot_salvage(start, len, kept, room, list, slots, &mut answer),
            Some(checked) => {
                sys::vindaskot_salvage_in(start, len, checked, kept, room, list, slots, &mut answer)
            }
        }
    };
    done("salvage", status, answer);
    answer.map(|figure| figure as usize)
}

/// An upload split into lines, or lines joined: how many bytes were written.
pub fn split_lines(bytes: &[u8], text: &mut [u8]) -> usize {
    let mut answer = [0; 2];
    let (start, room) = (bytes.as_ptr(), text.as_mut_ptr());
    let status =
        unsafe { sys::vindaskot_split_lines(start, bytes.len(), room, text.len(), &mut answer) };
    done("split_lines", status, answer)
}

pub fn join_lines(text: &[u8], out: &mut [u8]) -> usize {
    let mut answer = [0; 2];
    let (start, room) = (text.as_ptr(), out.as_mut_ptr());
    let status =
        unsafe { sys::vindaskot_join_lines(start, text.len(), room, out.len(), &mut answer) };
    done("join_lines", status, answer)
}

/// The sheet of an upload, or the upload of a sheet: how many bytes were written.
pub fn sheet_export(bytes: &[u8], sheet: &mut [u8]) -> usize {
    let mut answer = [0; 2];
    let (start, room) = (bytes.as_ptr(), sheet.as_mut_ptr());
    let status =
        unsafe { sys::vindaskot_sheet_export(start, bytes.len(), room, sheet.len(), &mut answer) };
    done("sheet_export", status, answer)
}

pub fn sheet_import(sheet: &[u8], out: &mut [u8]) -> usize {
    let mut answer = [0; 2];
    let (start, room) = (sheet.as_ptr(), out.as_mut_ptr());
    let status =
        unsafe { sys::vindaskot_sheet_import(start, sheet.len(), room, out.len(), &mut answer) };
    done("sheet_import", status, answer)
}

/// `vindaskot_find` of this archive, or of an earlier one.
pub type Find =
    unsafe extern "C" fn(*const u8, usize, *const u8, usize, answer: &mut [u64; 2]) -> u32;

/// `vindaskot_find_indexed` likewise.
pub type FindIndexed = unsafe extern "C" fn(
    *const u8,
    usize,
    *const u32,
    usize,
    *const u8,
    usize,
    answer: &mut [u64; 2],
) -> u32;

pub const FIND: Find = sys::vindaskot_find;
pub const FIND_INDEXED: FindIndexed = sys::vindaskot_find_indexed;

/// An earlier archive's calls, under names of their own. One of interface 1 (cfg `before_1`) knows nothing of `high`: its
/// symbols have a slot less, and its writer an argument.
#[cfg(before)]
pub mod before {
    use super::{Symbol, Text, done, sys};

    pub const SYMBOL_SLOTS: usize = sys::SYMBOL_SLOTS - cfg!(before_1) as usize;
    pub const TEXT: Text = Text { decode, encode };

    pub fn symbol_write(s: &Symbol, out: &mut [u8]) -> usize {
        #[cfg(before_1)]
        return symbol_write!(write, s, out,);
        #[cfg(not(before_1))]
        return symbol_write!(write, s, out, s.high);
    }

    unsafe extern "C" {
        #[cfg_attr(before_1, link_name = "before_vindaskot_symbol_step")]
        #[cfg_attr(not(before_1), link_name = "before_vindaskot_symbol_step_2")]
        pub fn symbol_step(
            bytes: *const u8,
            bytes_len: usize,
            cursor: &mut usize,
            slots: &mut [u64; SYMBOL_SLOTS],
            guid: &mut [u8; 16],
            answer: &mut [u64; 2],
        ) -> u32;
        #[cfg_attr(before_1, link_name = "before_vindaskot_symbol_write")]
        #[cfg_attr(not(before_1), link_name = "before_vindaskot_symbol_write_2")]
        fn write(
            index_group: u32,
            index_offset: u32,
            size: u32,
            data_type_id: u32,
            flags: u16,
            #[cfg(not(before_1))] high: u16,
            extended_flags: u32,
            guid: *const u8,
            guid_len: usize,
            name: *const u8,
            name_len: usize,
            type_name: *const u8,
            type_name_len: usize,
            comment: *const u8,
            comment_len: usize,
            count: usize,
            block: *const u8,
            block_len: usize,
            links: usize,
            chain: *const u8,
            chain_len: usize,
            out: *mut u8,
            out_len: usize,
            answer: &mut [u64; 2],
        ) -> u32;
        #[link_name = "before_vindaskot_find"]
        pub fn find(b: *const u8, n: usize, name: *const u8, len: usize, a: &mut [u64; 2]) -> u32;
        #[link_name = "before_vindaskot_find_indexed"]
        pub fn find_indexed(
            bytes: *const u8,
            bytes_len: usize,
            slots: *const u32,
            slots_len: usize,
            name: *const u8,
            name_len: usize,
            answer: &mut [u64; 2],
        ) -> u32;
        #[link_name = "before_vindaskot_decode"]
        fn decode(s: *const u8, n: usize, out: *mut u8, len: usize, a: &mut [u64; 2]) -> u32;
        #[link_name = "before_vindaskot_encode"]
        fn encode(s: *const u8, n: usize, out: *mut u8, len: usize, a: &mut [u64; 2]) -> u32;
    }
}

pub fn find(by: Find, bytes: &[u8], name: &[u8]) -> usize {
    let mut answer = [0; 2];
    let (upload, asked) = (bytes.as_ptr(), name.as_ptr());
    let status = unsafe { by(upload, bytes.len(), asked, name.len(), &mut answer) };
    done("find", status, answer)
}

pub fn find_indexed(by: FindIndexed, bytes: &[u8], slots: &[u32], name: &[u8]) -> usize {
    let mut answer = [0; 2];
    let (upload, starts, asked) = (bytes.as_ptr(), slots.as_ptr(), name.as_ptr());
    let (n, m, len) = (bytes.len(), slots.len(), name.len());
    let status = unsafe { by(upload, n, starts, m, asked, len, &mut answer) };
    done("find_indexed", status, answer)
}

pub fn name_index_build(bytes: &[u8], slots: &mut [u32]) -> usize {
    let mut answer = [0; 2];
    let (start, to) = (bytes.as_ptr(), slots.as_mut_ptr());
    let (n, m) = (bytes.len(), slots.len());
    let status = unsafe { sys::vindaskot_name_index_build_in(start, n, false, to, m, &mut answer) };
    done("name_index_build", status, answer)
}

pub fn find_ordered(bytes: &[u8], slots: &[u32], name: &[u8]) -> usize {
    let mut answer = [0; 2];
    let (upload, starts, asked) = (bytes.as_ptr(), slots.as_ptr(), name.as_ptr());
    let (n, m, len) = (bytes.len(), slots.len(), name.len());
    let status = unsafe {
        sys::vindaskot_find_ordered_in(upload, n, false, starts, m, asked, len, &mut answer)
    };
    done("find_ordered", status, answer)
}

pub fn type_name_index_build(bytes: &[u8], slots: &mut [u32]) -> usize {
    let mut answer = [0; 2];
    let (start, to) = (bytes.as_ptr(), slots.as_mut_ptr());
    let (n, m) = (bytes.len(), slots.len());
    let status =
        unsafe { sys::vindaskot_type_name_index_build_in(start, n, false, to, m, &mut answer) };
    done("type_name_index_build", status, answer)
}

pub fn type_find_ordered(bytes: &[u8], slots: &[u32], name: &[u8]) -> usize {
    let mut answer = [0; 2];
    let (upload, starts, asked) = (bytes.as_ptr(), slots.as_ptr(), name.as_ptr());
    let (n, m, len) = (bytes.len(), slots.len(), name.len());
    let status = unsafe {
        sys::vindaskot_type_find_ordered_in(upload, n, false, starts, m, asked, len, &mut answer)
    };
    done("type_find_ordered", status, answer)
}

/// An upload, with the slots of its name index.
#[derive(Clone, Copy)]
pub struct Ordered<'a>(pub &'a [u8], pub &'a [u32]);

pub fn bind(symbols: Ordered, types: Ordered, path: &[u8], slots: &mut [u64; sys::ADDRESS_SLOTS]) {
    let mut answer = [0; 2];
    let status = unsafe {
        sys::vindaskot_bind_in(
            symbols.0.as_ptr(),
            symbols.0.len(),
            false,
            symbols.1.as_ptr(),
            symbols.1.len(),
            types.0.as_ptr(),
            types.0.len(),
            types.1.as_ptr(),
            types.1.len(),
            path.as_ptr(),
            path.len(),
            slots,
            &mut answer,
        )
    };
    done("bind", status, answer);
}

type Convert = unsafe extern "C" fn(*const u8, usize, *mut u8, usize, answer: &mut [u64; 2]) -> u32;

/// `vindaskot_decode` and `vindaskot_encode` of this archive, or of an earlier one.
pub struct Text {
    decode: Convert,
    encode: Convert,
}

pub const TEXT: Text = Text {
    decode: sys::vindaskot_decode,
    encode: sys::vindaskot_encode,
};

fn convert(by: Convert, src: &[u8], out: &mut [u8]) -> (u32, [u64; 2]) {
    let mut answer = [0; 2];
    let (start, room) = (src.as_ptr(), out.as_mut_ptr());
    let status = unsafe { by(start, src.len(), room, out.len(), &mut answer) };
    (status, answer)
}

impl Text {
    pub fn decode(&self, src: &[u8], out: &mut [u8]) -> usize {
        let (status, answer) = convert(self.decode, src, out);
        done("decode", status, answer)
    }

    /// The length of the text, as the call says itself where it is lent nothing and refused.
    pub fn decode_needs(&self, src: &[u8]) -> usize {
        let (status, answer) = convert(self.decode, src, &mut []);
        needed("decode", status, answer)
    }

    pub fn encode(&self, src: &[u8], out: &mut [u8]) -> usize {
        let (status, answer) = convert(self.encode, src, out);
        done("encode", status, answer)
    }
}
