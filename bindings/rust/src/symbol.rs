//! Symbols: an entry of an upload, the iterator over an upload, and the writer.

#[cfg(feature = "alloc")]
use alloc::vec::Vec;
use core::fmt;
use core::iter::{self, FusedIterator};

use crate::attributes::{AdsAttribute, AdsAttributes};
use crate::block::Block;
use crate::flags::{AdsSymbol2Flags, AdsSymbolFlags, IndexGroup, IndexOffset};
use crate::mode::Mode;
use crate::refactor_info::{AdsRefactorInfo, AdsRefactorInfos};
use crate::refusal::Refusal;
use crate::sys;
use crate::text::Text;
use crate::told::{done, needed, part, refused, rest_from};
use crate::walk::Steps;

/// A symbol of an upload: its numbers, and its strings and records as parts of the upload's bytes.
///
/// Strings are Windows-1252; [`text::decode`](crate::text::decode) makes UTF-8 of them.
#[derive(Clone, Copy, PartialEq, Eq, Hash)]
pub struct AdsSymbolInfo<'a> {
    entry: &'a [u8],
    index_group: IndexGroup,
    index_offset: IndexOffset,
    size: u32,
    data_type_id: u32,
    flags: AdsSymbolFlags,
    high: u16,
    extended_flags: Option<AdsSymbol2Flags>,
    name: &'a [u8],
    type_name: &'a [u8],
    comment: &'a [u8],
    guid: Option<[u8; 16]>,
    attributes: u64,
    attribute_count: usize,
    refactors: u64,
    refactor_count: usize,
    unread: usize,
}

impl<'a> AdsSymbolInfo<'a> {
    /// Reads the entry at the start of `data`; what follows it is not looked at.
    ///
    /// # Errors
    ///
    /// [`TooLarge`](crate::RefusalKind::TooLarge), [`TooShort`](crate::RefusalKind::TooShort),
    /// [`EntryLengthMismatch`](crate::RefusalKind::EntryLengthMismatch),
    /// [`ClaimBelowHeader`](crate::RefusalKind::ClaimBelowHeader),
    /// [`EntryLengthMismatch`](crate::RefusalKind::EntryLengthMismatch).
    pub fn try_from_slice(data: &'a [u8]) -> Result<Self, Refusal> {
        Self::asked(data, |slots, guid, answer| {
            // SAFETY: data's own pointer and length; slots, guid and answer are lent for the call.
            unsafe { sys::vindaskot_symbol_read_2(data.as_ptr(), data.len(), slots, guid, answer) }
        })
    }

    /// The same in a mode: the checked one refuses with [`EndByte`](crate::RefusalKind::EndByte) last, for the end
    /// bytes of the name, the type and the comment, of the attributes up to one that is short, of the chain up to a
    /// record that is short.
    pub fn try_from_slice_in(data: &'a [u8], mode: Mode) -> Result<Self, Refusal> {
        Self::asked(data, |slots, guid, answer| {
            // SAFETY: data's own pointer and length; slots, guid and answer are lent for the call.
            unsafe {
                sys::vindaskot_symbol_read_in(
                    data.as_ptr(),
                    data.len(),
                    mode.is_checked(),
                    slots,
                    guid,
                    answer,
                )
            }
        })
    }

    /// What a call tells that reads the entry at the start of `data`.
    fn asked(
        data: &'a [u8],
        call: impl FnOnce(
            &mut [u64; sys::SYMBOL_SLOTS],
            &mut [u8; sys::GUID_BYTES],
            &mut [u64; sys::FIGURES],
        ) -> u32,
    ) -> Result<Self, Refusal> {
        let mut slots = [0; sys::SYMBOL_SLOTS];
        let mut guid = [0; 16];
        let mut answer = [0; 2];
        let status = call(&mut slots, &mut guid, &mut answer);
        done(status, answer)?;
        Ok(Self::told(data, &slots, guid))
    }

    /// What a symbol's slots tell of the bytes that begin with the entry.
    fn told(data: &'a [u8], slots: &[u64; sys::SYMBOL_SLOTS], guid: [u8; 16]) -> Self {
        let entry = part(data, 0, slots[sys::SYMBOL_LENGTH]);
        let string = |place: usize, len: usize| part(entry, slots[place], slots[len]);
        let extended = AdsSymbol2Flags(slots[sys::SYMBOL_EXTENDED_FLAGS] as u32);
        Self {
            entry,
            index_group: IndexGroup(slots[sys::SYMBOL_INDEX_GROUP] as u32),
            index_offset: IndexOffset(slots[sys::SYMBOL_INDEX_OFFSET] as u32),
            size: slots[sys::SYMBOL_SIZE] as u32,
            data_type_id: slots[sys::SYMBOL_DATA_TYPE_ID] as u32,
            flags: AdsSymbolFlags(slots[sys::SYMBOL_FLAGS] as u16),
            high: slots[sys::SYMBOL_HIGH] as u16,
            extended_flags: (slots[sys::SYMBOL_HAS_EXTENDED] == 1).then_some(extended),
            name: string(sys::SYMBOL_NAME_AT, sys::SYMBOL_NAME_LEN),
            type_name: string(sys::SYMBOL_TYPE_NAME_AT, sys::SYMBOL_TYPE_NAME_LEN),
            comment: string(sys::SYMBOL_COMMENT_AT, sys::SYMBOL_COMMENT_LEN),
            guid: (slots[sys::SYMBOL_HAS_GUID] == 1).then_some(guid),
            attributes: slots[sys::SYMBOL_ATTRIBUTES_AT],
            attribute_count: slots[sys::SYMBOL_ATTRIBUTE_COUNT] as usize,
            refactors: slots[sys::SYMBOL_REFACTORS_AT],
            refactor_count: slots[sys::SYMBOL_REFACTOR_COUNT] as usize,
            unread: slots[sys::SYMBOL_UNREAD] as usize,
        }
    }

    /// The entry's own bytes, as many as it claims.
    pub const fn as_bytes(&self) -> &'a [u8] {
        self.entry
    }

    /// The index group of the symbol's memory.
    pub const fn index_group(&self) -> IndexGroup {
        self.index_group
    }

    /// The offset within the index group.
    pub const fn index_offset(&self) -> IndexOffset {
        self.index_offset
    }

    /// The size of the symbol's data in bytes, 0 for a bit.
    pub const fn size(&self) -> u32 {
        self.size
    }

    /// The number of the data type.
    pub const fn data_type_id(&self) -> u32 {
        self.data_type_id
    }

    /// The flags.
    pub const fn flags(&self) -> AdsSymbolFlags {
        self.flags
    }

    /// The bytes 22 and 23 as sent, low byte first: the high half of the 32 bits of flags that the maker's header has
    /// there. No other answer depends on them.
    pub const fn high(&self) -> u16 {
        self.high
    }

    /// The extended flags, if they are there.
    pub const fn extended_flags(&self) -> Option<AdsSymbol2Flags> {
        self.extended_flags
    }

    /// The symbol's name, such as `MAIN.stLens`.
    pub const fn name(&self) -> &'a [u8] {
        self.name
    }

    /// The name of its type, such as `ST_BoxLens`.
    pub const fn type_name(&self) -> &'a [u8] {
        self.type_name
    }

    /// The comment beside it.
    pub const fn comment(&self) -> &'a [u8] {
        self.comment
    }

    /// The type's GUID, if it is there.
    pub const fn guid(&self) -> Option<[u8; 16]> {
        self.guid
    }

    /// The attributes shown: those before the first that is refused, if one is.
    pub fn attributes(&self) -> AdsAttributes<'a> {
        AdsAttributes::new(rest_from(self.entry, self.attributes), self.attribute_count)
    }

    /// The attribute of that number, from 0.
    ///
    /// # Errors
    ///
    /// [`NoSuchNumber`](crate::RefusalKind::NoSuchNumber).
    pub fn attribute(&self, number: usize) -> Result<AdsAttribute<'a>, Refusal> {
        Ok(self.numbered_attribute(number)?.0)
    }

    fn numbered_attribute(&self, number: usize) -> Result<(AdsAttribute<'a>, usize), Refusal> {
        let entry = self.entry;
        AdsAttribute::asked(entry, |slots, answer| {
            // SAFETY: entry's own pointer and length; slots and answer are lent for the call.
            unsafe {
                sys::vindaskot_symbol_attribute(entry.as_ptr(), entry.len(), number, slots, answer)
            }
        })
    }

    /// The same of the entry's bytes read again in a mode.
    ///
    /// # Errors
    ///
    /// Those of [`try_from_slice_in`](Self::try_from_slice_in), then
    /// [`NoSuchNumber`](crate::RefusalKind::NoSuchNumber).
    pub fn attribute_in(&self, number: usize, mode: Mode) -> Result<AdsAttribute<'a>, Refusal> {
        let entry = self.entry;
        let read = AdsAttribute::asked(entry, |slots, answer| {
            // SAFETY: entry's own pointer and length; slots and answer are lent for the call.
            unsafe {
                sys::vindaskot_symbol_attribute_in(
                    entry.as_ptr(),
                    entry.len(),
                    mode.is_checked(),
                    number,
                    slots,
                    answer,
                )
            }
        });
        Ok(read?.0)
    }

    /// The first attribute shown of that name. Names are equal if their bytes are.
    ///
    /// # Errors
    ///
    /// [`NameNotFound`](crate::RefusalKind::NameNotFound).
    pub fn attribute_named(&self, name: impl AsRef<[u8]>) -> Result<AdsAttribute<'a>, Refusal> {
        let name = name.as_ref();
        let entry = self.entry;
        let read = AdsAttribute::asked(entry, |slots, answer| {
            // SAFETY: each pointer stands with its slice's own length; slots and answer are lent for the call.
            unsafe {
                sys::vindaskot_symbol_attribute_named(
                    entry.as_ptr(),
                    entry.len(),
                    name.as_ptr(),
                    name.len(),
                    slots,
                    answer,
                )
            }
        });
        Ok(read?.0)
    }

    /// The same of the entry's bytes read again in a mode.
    ///
    /// # Errors
    ///
    /// Those of [`try_from_slice_in`](Self::try_from_slice_in), then
    /// [`NameNotFound`](crate::RefusalKind::NameNotFound).
    pub fn attribute_named_in(
        &self,
        name: impl AsRef<[u8]>,
        mode: Mode,
    ) -> Result<AdsAttribute<'a>, Refusal> {
        let name = name.as_ref();
        let entry = self.entry;
        let read = AdsAttribute::asked(entry, |slots, answer| {
            // SAFETY: each pointer stands with its slice's own length; slots and answer are lent for the call.
            unsafe {
                sys::vindaskot_symbol_attribute_named_in(
                    entry.as_ptr(),
                    entry.len(),
                    mode.is_checked(),
                    name.as_ptr(),
                    name.len(),
                    slots,
                    answer,
                )
            }
        });
        Ok(read?.0)
    }

    /// The bytes of the attributes shown, as [`SymbolParts`] takes them.
    pub fn attribute_block(&self) -> Block<'a> {
        let last = self.attribute_count.checked_sub(1);
        let end = last.and_then(|number| self.numbered_attribute(number).ok());
        self.block(
            self.attribute_count,
            self.attributes,
            end.map(|(_, next)| next),
        )
    }

    /// The refactor records shown: the whole chain, or none of it.
    pub fn refactor_infos(&self) -> AdsRefactorInfos<'a> {
        AdsRefactorInfos::new(rest_from(self.entry, self.refactors), self.refactor_count)
    }

    /// The refactor record of that number, from 0.
    ///
    /// # Errors
    ///
    /// [`NoSuchNumber`](crate::RefusalKind::NoSuchNumber).
    pub fn refactor_info(&self, number: usize) -> Result<AdsRefactorInfo<'a>, Refusal> {
        Ok(self.numbered_refactor_info(number)?.0)
    }

    fn numbered_refactor_info(
        &self,
        number: usize,
    ) -> Result<(AdsRefactorInfo<'a>, usize), Refusal> {
        let entry = self.entry;
        AdsRefactorInfo::asked(entry, |slots, answer| {
            // SAFETY: entry's own pointer and length; slots and answer are lent for the call.
            unsafe {
                sys::vindaskot_symbol_refactor_info(
                    entry.as_ptr(),
                    entry.len(),
                    number,
                    slots,
                    answer,
                )
            }
        })
    }

    /// The same of the entry's bytes read again in a mode.
    ///
    /// # Errors
    ///
    /// Those of [`try_from_slice_in`](Self::try_from_slice_in), then
    /// [`NoSuchNumber`](crate::RefusalKind::NoSuchNumber).
    pub fn refactor_info_in(
        &self,
        number: usize,
        mode: Mode,
    ) -> Result<AdsRefactorInfo<'a>, Refusal> {
        let entry = self.entry;
        let read = AdsRefactorInfo::asked(entry, |slots, answer| {
            // SAFETY: entry's own pointer and length; slots and answer are lent for the call.
            unsafe {
                sys::vindaskot_symbol_refactor_info_in(
                    entry.as_ptr(),
                    entry.len(),
                    mode.is_checked(),
                    number,
                    slots,
                    answer,
                )
            }
        });
        Ok(read?.0)
    }

    /// The bytes of the refactor records shown, as [`SymbolParts`] takes them.
    pub fn refactor_block(&self) -> Block<'a> {
        let last = self.refactor_count.checked_sub(1);
        let end = last.and_then(|number| self.numbered_refactor_info(number).ok());
        self.block(
            self.refactor_count,
            self.refactors,
            end.map(|(_, next)| next),
        )
    }

    /// The records from a place to the end of the last; none where there is no last.
    fn block(&self, count: usize, first: u64, end: Option<usize>) -> Block<'a> {
        let bytes = end.map_or(&[][..], |end| &self.entry[first as usize..end]);
        Block { count, bytes }
    }

    /// How many bytes of the entry come after the last section.
    pub const fn unread(&self) -> usize {
        self.unread
    }

    /// The numbers, to be written again.
    pub fn numbers(&self) -> SymbolNumbers {
        SymbolNumbers {
            index_group: self.index_group,
            index_offset: self.index_offset,
            size: self.size,
            data_type_id: self.data_type_id,
            flags: self.flags,
            high: self.high,
            extended_flags: self.extended_flags.unwrap_or_default(),
        }
    }

    /// The strings and sections, to be written again.
    pub fn parts(&self) -> SymbolParts<'a> {
        SymbolParts {
            guid: self.guid,
            name: self.name,
            type_name: self.type_name,
            comment: self.comment,
            attributes: self.attribute_block(),
            refactor_infos: self.refactor_block(),
        }
    }
}

impl<'a> TryFrom<&'a [u8]> for AdsSymbolInfo<'a> {
    type Error = Refusal;

    fn try_from(data: &'a [u8]) -> Result<Self, Refusal> {
        Self::try_from_slice(data)
    }
}

/// What it tells, strings as text.
impl fmt::Debug for AdsSymbolInfo<'_> {
    fn fmt(&self, f: &mut fmt::Formatter<'_>) -> fmt::Result {
        let mut told = f.debug_struct("AdsSymbolInfo");
        told.field("name", &Text(self.name));
        told.field("type_name", &Text(self.type_name));
        told.field("comment", &Text(self.comment));
        told.field("index_group", &self.index_group);
        told.field("index_offset", &self.index_offset);
        told.field("size", &self.size);
        told.field("data_type_id", &self.data_type_id);
        told.field("flags", &self.flags);
        told.field("high", &self.high);
        told.field("extended_flags", &self.extended_flags);
        told.field("guid", &self.guid);
        told.field("attributes", &self.attributes());
        told.field("refactor_infos", &self.refactor_infos());
        told.field("unread", &self.unread).finish()
    }
}

/// One step of the walk over an upload of symbols: `None` at the end, else the entry at the cursor or its refusal.
///
/// The cursor moves past the entry, and to the end after a refusal that leaves no next entry: 5, 3 for a claim beyond
/// the data, 2 for under 4 bytes left. A claim of 0 gives 2 (30, 0) and does not move it, so a loop over this function
/// stops there by itself; [`AdsSymbolInfoIterator`] does.
pub fn parse_next_entry<'a>(
    data: &'a [u8],
    cursor: &mut usize,
) -> Option<Result<AdsSymbolInfo<'a>, Refusal>> {
    stepped(data, cursor, |cursor, slots, guid, answer| {
        // SAFETY: data's own pointer and length; cursor, slots, guid and answer are lent for the call.
        unsafe {
            sys::vindaskot_symbol_step_2(data.as_ptr(), data.len(), cursor, slots, guid, answer)
        }
    })
}

/// The same in a mode: in the checked one an entry is also refused with [`EndByte`](crate::RefusalKind::EndByte), and
/// the cursor moves past it.
pub fn parse_next_entry_in<'a>(
    data: &'a [u8],
    cursor: &mut usize,
    mode: Mode,
) -> Option<Result<AdsSymbolInfo<'a>, Refusal>> {
    stepped(data, cursor, |cursor, slots, guid, answer| {
        // SAFETY: data's own pointer and length; cursor, slots, guid and answer are lent for the call.
        unsafe {
            sys::vindaskot_symbol_step_in(
                data.as_ptr(),
                data.len(),
                mode.is_checked(),
                cursor,
                slots,
                guid,
                answer,
            )
        }
    })
}

/// What a call tells that makes a step from the cursor on.
fn stepped<'a>(
    data: &'a [u8],
    cursor: &mut usize,
    call: impl FnOnce(
        &mut usize,
        &mut [u64; sys::SYMBOL_SLOTS],
        &mut [u8; sys::GUID_BYTES],
        &mut [u64; sys::FIGURES],
    ) -> u32,
) -> Option<Result<AdsSymbolInfo<'a>, Refusal>> {
    let start = *cursor;
    let mut slots = [0; sys::SYMBOL_SLOTS];
    let mut guid = [0; 16];
    let mut answer = [0; 2];
    match call(cursor, &mut slots, &mut guid, &mut answer) {
        sys::FINISHED => None,
        sys::DONE => Some(Ok(AdsSymbolInfo::told(&data[start..], &slots, guid))),
        status => Some(Err(refused(status, answer))),
    }
}

/// The symbols of an upload, in order, each accepted or refused.
///
/// A refused entry is passed by its claimed length and the walk goes on. A claim of 0 gives no way on: its refusal,
/// 2 (30, 0), is given once and is the last item. (The iterator of tcads-rs repeats it without end.)
///
/// Two uploads are compared step by step. Where they differ inside an entry, behind the four bytes of its length, every
/// other step is the same in both, with its start:
///
/// ```
/// use vindaskot::{AdsSymbolInfoIterator, Refusal, SymbolNumbers, SymbolParts};
///
/// fn main() -> Result<(), Refusal> {
///     let mut upload = [0; 129];
///     for (name, place) in [(b"MAIN.fZoom", 0), (b"MAIN.fIris", 43), (b"MAIN.fTilt", 86)] {
///         let parts = SymbolParts { name, ..Default::default() };
///         SymbolNumbers::default().write(&parts, &mut upload[place..])?;
///     }
///     // The length of the second name now leaves its entry, so that it is refused.
///     let mut damaged = upload;
///     damaged[43 + 25] = 0xFF;
///     let steps = AdsSymbolInfoIterator::new(&upload).with_starts();
///     let others = AdsSymbolInfoIterator::new(&damaged).with_starts();
///     let mut different = steps.zip(others).filter(|(step, other)| step != other);
///     let ((start, entry), (_, other)) = different.next().unwrap();
///     assert_eq!((start, entry?.name(), other.is_err()), (43, &b"MAIN.fIris"[..], true));
///     assert!(different.next().is_none());
///     Ok(())
/// }
/// ```
#[derive(Debug, Clone, PartialEq, Eq, Hash)]
pub struct AdsSymbolInfoIterator<'a> {
    steps: Steps<'a>,
    mode: Mode,
}

impl<'a> AdsSymbolInfoIterator<'a> {
    /// Begins at the upload's start.
    pub fn new(data: &'a [u8]) -> Self {
        Self::new_in(data, Mode::Present)
    }

    /// The same in a mode: each entry is read in it.
    pub fn new_in(data: &'a [u8], mode: Mode) -> Self {
        let steps = Steps::new(data);
        Self { steps, mode }
    }

    /// The cursor: where the next entry starts, or where the walk ended.
    pub fn position(&self) -> usize {
        self.steps.position()
    }

    /// The same items, each with the place in the upload where its entry starts.
    pub fn with_starts(
        mut self,
    ) -> impl FusedIterator<Item = (usize, Result<AdsSymbolInfo<'a>, Refusal>)> {
        iter::from_fn(move || Some((self.position(), self.next()?))).fuse()
    }
}

impl<'a> Iterator for AdsSymbolInfoIterator<'a> {
    type Item = Result<AdsSymbolInfo<'a>, Refusal>;

    fn next(&mut self) -> Option<Self::Item> {
        match self.mode {
            Mode::Present => self.steps.next(parse_next_entry),
            mode => self
                .steps
                .next(|data, cursor| parse_next_entry_in(data, cursor, mode)),
        }
    }
}

impl FusedIterator for AdsSymbolInfoIterator<'_> {}

/// The numbers of a symbol to be written.
#[derive(Debug, Clone, Copy, Default, PartialEq, Eq, Hash)]
pub struct SymbolNumbers {
    /// The index group of the symbol's memory.
    pub index_group: IndexGroup,
    /// The offset within the index group.
    pub index_offset: IndexOffset,
    /// The size of the symbol's data in bytes, 0 for a bit.
    pub size: u32,
    /// The number of the data type.
    pub data_type_id: u32,
    /// The flags, which say what sections there are.
    pub flags: AdsSymbolFlags,
    /// The bytes 22 and 23, low byte first: the high half of the maker's flags, written as given.
    pub high: u16,
    /// The extended flags, 0 unless [`AdsSymbolFlags::EXTENDED_FLAGS`] is set.
    pub extended_flags: AdsSymbol2Flags,
}

/// The strings and sections of a symbol to be written. Strings are Windows-1252.
#[derive(Debug, Clone, Copy, Default, PartialEq, Eq, Hash)]
pub struct SymbolParts<'a> {
    /// The type's GUID, present exactly if [`AdsSymbolFlags::TYPE_GUID`] is set.
    pub guid: Option<[u8; 16]>,
    /// The symbol's name.
    pub name: &'a [u8],
    /// The name of its type.
    pub type_name: &'a [u8],
    /// The comment beside it.
    pub comment: &'a [u8],
    /// The attributes, none unless [`AdsSymbolFlags::ATTRIBUTES`] is set.
    pub attributes: Block<'a>,
    /// The refactor records, present exactly if [`AdsSymbol2Flags::REFACTOR_INFO`] is set; a follower after each but
    /// the last.
    pub refactor_infos: Block<'a>,
}

impl SymbolNumbers {
    /// Writes the entry from `out[0]` on and answers its length.
    ///
    /// # Errors
    ///
    /// [`TooLong`](crate::RefusalKind::TooLong), [`BadBlock`](crate::RefusalKind::BadBlock),
    /// [`SectionsDisagree`](crate::RefusalKind::SectionsDisagree), [`TooLarge`](crate::RefusalKind::TooLarge),
    /// [`OutputTooSmall`](crate::RefusalKind::OutputTooSmall).
    pub fn write(&self, parts: &SymbolParts<'_>, out: &mut [u8]) -> Result<usize, Refusal> {
        let guid = parts.guid.as_slice().as_flattened();
        let mut answer = [0; 2];
        // SAFETY: each pointer stands with its slice's own length; out is borrowed alone, so it overlaps none.
        let status = unsafe {
            sys::vindaskot_symbol_write_2(
                self.index_group.0,
                self.index_offset.0,
                self.size,
                self.data_type_id,
                self.flags.0,
                self.high,
                self.extended_flags.0,
                guid.as_ptr(),
                guid.len(),
                parts.name.as_ptr(),
                parts.name.len(),
                parts.type_name.as_ptr(),
                parts.type_name.len(),
                parts.comment.as_ptr(),
                parts.comment.len(),
                parts.attributes.count,
                parts.attributes.bytes.as_ptr(),
                parts.attributes.bytes.len(),
                parts.refactor_infos.count,
                parts.refactor_infos.bytes.as_ptr(),
                parts.refactor_infos.bytes.len(),
                out.as_mut_ptr(),
                out.len(),
                &mut answer,
            )
        };
        Ok(done(status, answer)?[0])
    }

    /// The length of the entry written.
    ///
    /// # Errors
    ///
    /// [`TooLong`](crate::RefusalKind::TooLong), [`BadBlock`](crate::RefusalKind::BadBlock),
    /// [`SectionsDisagree`](crate::RefusalKind::SectionsDisagree), [`TooLarge`](crate::RefusalKind::TooLarge).
    pub fn wire_size(&self, parts: &SymbolParts<'_>) -> Result<usize, Refusal> {
        needed(|out| self.write(parts, out))
    }

    /// The entry written.
    ///
    /// # Errors
    ///
    /// [`TooLong`](crate::RefusalKind::TooLong), [`BadBlock`](crate::RefusalKind::BadBlock),
    /// [`SectionsDisagree`](crate::RefusalKind::SectionsDisagree), [`TooLarge`](crate::RefusalKind::TooLarge).
    #[cfg(feature = "alloc")]
    pub fn to_vec(&self, parts: &SymbolParts<'_>) -> Result<Vec<u8>, Refusal> {
        crate::told::filled(|out| self.write(parts, out))
    }
}
