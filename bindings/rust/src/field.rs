//! Fields: an entry of an upload of fields, the iterator over such an upload, and the writer.

#[cfg(feature = "alloc")]
use alloc::vec::Vec;
use core::fmt;
use core::iter::{self, FusedIterator};

use crate::attributes::{AdsAttribute, AdsAttributes};
use crate::block::Block;
use crate::flags::AdsTypeFlags;
use crate::mode::Mode;
use crate::refusal::Refusal;
use crate::sys;
use crate::text::Text;
use crate::told::{done, needed, part, refused, rest_from};
use crate::walk::Steps;

/// A field of an upload: its numbers, and its strings and attributes as parts of the upload's bytes.
///
/// Strings are Windows-1252; [`text::decode`](crate::text::decode) makes UTF-8 of them.
#[derive(Clone, Copy, PartialEq, Eq, Hash)]
pub struct AdsFieldInfo<'a> {
    entry: &'a [u8],
    numbers: FieldNumbers,
    name: &'a [u8],
    type_name: &'a [u8],
    comment: &'a [u8],
    guid: Option<[u8; 16]>,
    attributes: u64,
    attribute_count: usize,
}

impl<'a> AdsFieldInfo<'a> {
    /// Reads the entry at the start of `data`; what follows it is not looked at. A refused attribute refuses the field.
    ///
    /// # Errors
    ///
    /// [`TooLarge`](crate::RefusalKind::TooLarge), [`TooShort`](crate::RefusalKind::TooShort),
    /// [`EntryLengthMismatch`](crate::RefusalKind::EntryLengthMismatch),
    /// [`ClaimBelowHeader`](crate::RefusalKind::ClaimBelowHeader),
    /// [`EntryLengthMismatch`](crate::RefusalKind::EntryLengthMismatch), then those of an attribute.
    pub fn try_from_slice(data: &'a [u8]) -> Result<Self, Refusal> {
        Self::asked(data, |slots, guid, answer| {
            // SAFETY: data's own pointer and length; slots, guid and answer are lent for the call.
            unsafe { sys::vindaskot_field_read(data.as_ptr(), data.len(), slots, guid, answer) }
        })
    }

    /// The same in a mode: the checked one refuses with [`EndByte`](crate::RefusalKind::EndByte) after the lengths of
    /// the strings, for the end bytes of the name, the type and the comment, and then each attribute in order with 2, 1
    /// and 16.
    pub fn try_from_slice_in(data: &'a [u8], mode: Mode) -> Result<Self, Refusal> {
        Self::asked(data, |slots, guid, answer| {
            // SAFETY: data's own pointer and length; slots, guid and answer are lent for the call.
            unsafe {
                sys::vindaskot_field_read_in(
                    data.as_ptr(),
                    data.len(),
                    mode.is_checked(),
                    slots,
                    guid,
                    answer,
                )
            }
        })
    }

    /// What a call tells that reads the entry at the start of `data`.
    fn asked(
        data: &'a [u8],
        call: impl FnOnce(
            &mut [u64; sys::FIELD_SLOTS],
            &mut [u8; sys::GUID_BYTES],
            &mut [u64; sys::FIGURES],
        ) -> u32,
    ) -> Result<Self, Refusal> {
        let mut slots = [0; sys::FIELD_SLOTS];
        let mut guid = [0; 16];
        let mut answer = [0; 2];
        let status = call(&mut slots, &mut guid, &mut answer);
        done(status, answer)?;
        Ok(Self::told(data, &slots, guid))
    }

    /// What a field's slots tell of the bytes that begin with the entry.
    fn told(data: &'a [u8], slots: &[u64; sys::FIELD_SLOTS], guid: [u8; 16]) -> Self {
        let entry = part(data, 0, slots[sys::FIELD_LENGTH]);
        let string = |place: usize, len: usize| part(entry, slots[place], slots[len]);
        let numbers = FieldNumbers {
            version: slots[sys::FIELD_VERSION] as u32,
            hash_value: slots[sys::FIELD_HASH_VALUE] as u32,
            type_hash_value: slots[sys::FIELD_TYPE_HASH_VALUE] as u32,
            size: slots[sys::FIELD_SIZE] as u32,
            offset: slots[sys::FIELD_OFFSET] as u32,
            type_id: slots[sys::FIELD_TYPE_ID] as u32,
            flags: AdsTypeFlags(slots[sys::FIELD_FLAGS] as u32),
        };
        Self {
            entry,
            numbers,
            name: string(sys::FIELD_NAME_AT, sys::FIELD_NAME_LEN),
            type_name: string(sys::FIELD_TYPE_NAME_AT, sys::FIELD_TYPE_NAME_LEN),
            comment: string(sys::FIELD_COMMENT_AT, sys::FIELD_COMMENT_LEN),
            guid: (slots[sys::FIELD_HAS_GUID] == 1).then_some(guid),
            attributes: slots[sys::FIELD_ATTRIBUTES_AT],
            attribute_count: slots[sys::FIELD_ATTRIBUTE_COUNT] as usize,
        }
    }

    /// The entry's own bytes, as many as it claims.
    pub const fn as_bytes(&self) -> &'a [u8] {
        self.entry
    }

    /// The version of the structure.
    pub const fn version(&self) -> u32 {
        self.numbers.version
    }

    /// The hash of the type, or the place of the getter's code.
    pub const fn hash_value(&self) -> u32 {
        self.numbers.hash_value
    }

    /// The hash of the base type, or the place of the setter's code.
    pub const fn type_hash_value(&self) -> u32 {
        self.numbers.type_hash_value
    }

    /// The size of the field's data, in bytes; of a bit ([`AdsTypeFlags::BIT_VALUES`]), in bits.
    pub const fn size(&self) -> u32 {
        self.numbers.size
    }

    /// The offset within what the field is part of, as sent: in bytes, unless [`flags`](Self::flags) say that it is in bits
    /// ([`AdsTypeFlags::BIT_VALUES`]), or that no data lie there ([`AdsTypeFlags::STATIC`], [`AdsTypeFlags::PROP_ITEM`]).
    pub const fn offset(&self) -> u32 {
        self.numbers.offset
    }

    /// The number of the data type.
    pub const fn data_type(&self) -> u32 {
        self.numbers.type_id
    }

    /// The flags.
    pub const fn flags(&self) -> AdsTypeFlags {
        self.numbers.flags
    }

    /// The field's name.
    pub const fn name(&self) -> &'a [u8] {
        self.name
    }

    /// The name of its type.
    pub const fn type_name(&self) -> &'a [u8] {
        self.type_name
    }

    /// The comment beside it.
    pub const fn comment(&self) -> &'a [u8] {
        self.comment
    }

    /// The type's GUID, if it is there.
    pub const fn guid(&self) -> Option<[u8; 16]> {
        self.guid
    }

    /// The attributes.
    pub fn attributes(&self) -> AdsAttributes<'a> {
        AdsAttributes::new(rest_from(self.entry, self.attributes), self.attribute_count)
    }

    /// The attribute of that number, from 0.
    ///
    /// # Errors
    ///
    /// [`NoSuchNumber`](crate::RefusalKind::NoSuchNumber).
    pub fn attribute(&self, number: usize) -> Result<AdsAttribute<'a>, Refusal> {
        Ok(self.numbered_attribute(number)?.0)
    }

    fn numbered_attribute(&self, number: usize) -> Result<(AdsAttribute<'a>, usize), Refusal> {
        let entry = self.entry;
        AdsAttribute::asked(entry, |slots, answer| {
            // SAFETY: entry's own pointer and length; slots and answer are lent for the call.
            unsafe {
                sys::vindaskot_field_attribute(entry.as_ptr(), entry.len(), number, slots, answer)
            }
        })
    }

    /// The same of the entry's bytes read again in a mode.
    ///
    /// # Errors
    ///
    /// Those of [`try_from_slice_in`](Self::try_from_slice_in), then
    /// [`NoSuchNumber`](crate::RefusalKind::NoSuchNumber).
    pub fn attribute_in(&self, number: usize, mode: Mode) -> Result<AdsAttribute<'a>, Refusal> {
        let entry = self.entry;
        let read = AdsAttribute::asked(entry, |slots, answer| {
            // SAFETY: entry's own pointer and length; slots and answer are lent for the call.
            unsafe {
                sys::vindaskot_field_attribute_in(
                    entry.as_ptr(),
                    entry.len(),
                    mode.is_checked(),
                    number,
                    slots,
                    answer,
                )
            }
        });
        Ok(read?.0)
    }

    /// The first attribute of that name. Names are equal if their bytes are.
    ///
    /// # Errors
    ///
    /// [`NameNotFound`](crate::RefusalKind::NameNotFound).
    pub fn attribute_named(&self, name: impl AsRef<[u8]>) -> Result<AdsAttribute<'a>, Refusal> {
        let name = name.as_ref();
        let entry = self.entry;
        let read = AdsAttribute::asked(entry, |slots, answer| {
            // SAFETY: each pointer stands with its slice's own length; slots and answer are lent for the call.
            unsafe {
                sys::vindaskot_field_attribute_named(
                    entry.as_ptr(),
                    entry.len(),
                    name.as_ptr(),
                    name.len(),
                    slots,
                    answer,
                )
            }
        });
        Ok(read?.0)
    }

    /// The same of the entry's bytes read again in a mode.
    ///
    /// # Errors
    ///
    /// Those of [`try_from_slice_in`](Self::try_from_slice_in), then
    /// [`NameNotFound`](crate::RefusalKind::NameNotFound).
    pub fn attribute_named_in(
        &self,
        name: impl AsRef<[u8]>,
        mode: Mode,
    ) -> Result<AdsAttribute<'a>, Refusal> {
        let name = name.as_ref();
        let entry = self.entry;
        let read = AdsAttribute::asked(entry, |slots, answer| {
            // SAFETY: each pointer stands with its slice's own length; slots and answer are lent for the call.
            unsafe {
                sys::vindaskot_field_attribute_named_in(
                    entry.as_ptr(),
                    entry.len(),
                    mode.is_checked(),
                    name.as_ptr(),
                    name.len(),
                    slots,
                    answer,
                )
            }
        });
        Ok(read?.0)
    }

    /// The bytes of the attributes, as [`FieldParts`] takes them.
    pub fn attribute_block(&self) -> Block<'a> {
        let last = self.attribute_count.checked_sub(1);
        let end = last.and_then(|number| self.numbered_attribute(number).ok());
        let bytes = end.map_or(&[][..], |(_, next)| {
            &self.entry[self.attributes as usize..next]
        });
        Block {
            count: self.attribute_count,
            bytes,
        }
    }

    /// The numbers, to be written again.
    pub const fn numbers(&self) -> FieldNumbers {
        self.numbers
    }

    /// The strings and sections, to be written again.
    pub fn parts(&self) -> FieldParts<'a> {
        FieldParts {
            guid: self.guid,
            name: self.name,
            type_name: self.type_name,
            comment: self.comment,
            attributes: self.attribute_block(),
        }
    }
}

impl<'a> TryFrom<&'a [u8]> for AdsFieldInfo<'a> {
    type Error = Refusal;

    fn try_from(data: &'a [u8]) -> Result<Self, Refusal> {
        Self::try_from_slice(data)
    }
}

/// What it tells, strings as text.
impl fmt::Debug for AdsFieldInfo<'_> {
    fn fmt(&self, f: &mut fmt::Formatter<'_>) -> fmt::Result {
        let mut told = f.debug_struct("AdsFieldInfo");
        told.field("name", &Text(self.name));
        told.field("type_name", &Text(self.type_name));
        told.field("comment", &Text(self.comment));
        told.field("numbers", &self.numbers);
        told.field("guid", &self.guid);
        told.field("attributes", &self.attributes()).finish()
    }
}

/// One step of the walk over an upload of fields: `None` at the end, else the entry at the cursor or its refusal.
///
/// The cursor moves as in [`symbol::parse_next_entry`](crate::symbol::parse_next_entry): a claim of 0 gives 2 (42, 0)
/// and does not move it.
pub fn parse_next_entry<'a>(
    data: &'a [u8],
    cursor: &mut usize,
) -> Option<Result<AdsFieldInfo<'a>, Refusal>> {
    stepped(data, cursor, |cursor, slots, guid, answer| {
        // SAFETY: data's own pointer and length; cursor, slots, guid and answer are lent for the call.
        unsafe { sys::vindaskot_field_step(data.as_ptr(), data.len(), cursor, slots, guid, answer) }
    })
}

/// The same in a mode: in the checked one an entry is also refused with [`EndByte`](crate::RefusalKind::EndByte), and
/// the cursor moves past it.
pub fn parse_next_entry_in<'a>(
    data: &'a [u8],
    cursor: &mut usize,
    mode: Mode,
) -> Option<Result<AdsFieldInfo<'a>, Refusal>> {
    stepped(data, cursor, |cursor, slots, guid, answer| {
        // SAFETY: data's own pointer and length; cursor, slots, guid and answer are lent for the call.
        unsafe {
            sys::vindaskot_field_step_in(
                data.as_ptr(),
                data.len(),
                mode.is_checked(),
                cursor,
                slots,
                guid,
                answer,
            )
        }
    })
}

/// What a call tells that makes a step from the cursor on.
fn stepped<'a>(
    data: &'a [u8],
    cursor: &mut usize,
    call: impl FnOnce(
        &mut usize,
        &mut [u64; sys::FIELD_SLOTS],
        &mut [u8; sys::GUID_BYTES],
        &mut [u64; sys::FIGURES],
    ) -> u32,
) -> Option<Result<AdsFieldInfo<'a>, Refusal>> {
    let start = *cursor;
    let mut slots = [0; sys::FIELD_SLOTS];
    let mut guid = [0; 16];
    let mut answer = [0; 2];
    match call(cursor, &mut slots, &mut guid, &mut answer) {
        sys::FINISHED => None,
        sys::DONE => Some(Ok(AdsFieldInfo::told(&data[start..], &slots, guid))),
        status => Some(Err(refused(status, answer))),
    }
}

/// The fields of an upload, in order, each accepted or refused.
///
/// A refused entry is passed by its claimed length and the walk goes on. A claim of 0 gives no way on: its refusal,
/// 2 (42, 0), is given once and is the last item.
#[derive(Debug, Clone, PartialEq, Eq, Hash)]
pub struct AdsFieldInfoIterator<'a> {
    steps: Steps<'a>,
    mode: Mode,
}

impl<'a> AdsFieldInfoIterator<'a> {
    /// Begins at the upload's start.
    pub fn new(data: &'a [u8]) -> Self {
        Self::new_in(data, Mode::Present)
    }

    /// The same in a mode: each entry is read in it.
    pub fn new_in(data: &'a [u8], mode: Mode) -> Self {
        let steps = Steps::new(data);
        Self { steps, mode }
    }

    /// The cursor: where the next entry starts, or where the walk ended.
    pub fn position(&self) -> usize {
        self.steps.position()
    }

    /// The same items, each with the place in the upload where its entry starts.
    pub fn with_starts(
        mut self,
    ) -> impl FusedIterator<Item = (usize, Result<AdsFieldInfo<'a>, Refusal>)> {
        iter::from_fn(move || Some((self.position(), self.next()?))).fuse()
    }
}

impl<'a> Iterator for AdsFieldInfoIterator<'a> {
    type Item = Result<AdsFieldInfo<'a>, Refusal>;

    fn next(&mut self) -> Option<Self::Item> {
        match self.mode {
            Mode::Present => self.steps.next(parse_next_entry),
            mode => self
                .steps
                .next(|data, cursor| parse_next_entry_in(data, cursor, mode)),
        }
    }
}

impl FusedIterator for AdsFieldInfoIterator<'_> {}

/// The numbers of a field or a data type.
#[derive(Debug, Clone, Copy, Default, PartialEq, Eq, Hash)]
pub struct FieldNumbers {
    /// The version of the structure.
    pub version: u32,
    /// The hash of the type, or the place of the getter's code.
    pub hash_value: u32,
    /// The hash of the base type, or the place of the setter's code.
    pub type_hash_value: u32,
    /// The size of the field's data; a flagged copy mask is written with as many zeros.
    pub size: u32,
    /// The offset within what the field is part of, in bytes unless the flags say otherwise.
    pub offset: u32,
    /// The number of the data type.
    pub type_id: u32,
    /// The flags, which say what sections there are.
    pub flags: AdsTypeFlags,
}

/// The strings and sections of a field to be written. Strings are Windows-1252.
#[derive(Debug, Clone, Copy, Default, PartialEq, Eq, Hash)]
pub struct FieldParts<'a> {
    /// The type's GUID. Flagged and not given, it is written as 16 zeros; given and not flagged, it is not written.
    pub guid: Option<[u8; 16]>,
    /// The field's name.
    pub name: &'a [u8],
    /// The name of its type.
    pub type_name: &'a [u8],
    /// The comment beside it.
    pub comment: &'a [u8],
    /// The attributes, ignored unless [`AdsTypeFlags::ATTRIBUTES`] is set.
    pub attributes: Block<'a>,
}

impl FieldNumbers {
    /// Writes the entry from `out[0]` on and answers its length.
    ///
    /// # Errors
    ///
    /// [`TooLong`](crate::RefusalKind::TooLong), [`BadBlock`](crate::RefusalKind::BadBlock),
    /// [`TooLarge`](crate::RefusalKind::TooLarge), [`OutputTooSmall`](crate::RefusalKind::OutputTooSmall).
    pub fn write(&self, parts: &FieldParts<'_>, out: &mut [u8]) -> Result<usize, Refusal> {
        let guid = parts.guid.as_slice().as_flattened();
        let mut answer = [0; 2];
        // SAFETY: each pointer stands with its slice's own length; out is borrowed alone, so it overlaps none.
        let status = unsafe {
            sys::vindaskot_field_write(
                self.version,
                self.hash_value,
                self.type_hash_value,
                self.size,
                self.offset,
                self.type_id,
                self.flags.0,
                guid.as_ptr(),
                guid.len(),
                parts.name.as_ptr(),
                parts.name.len(),
                parts.type_name.as_ptr(),
                parts.type_name.len(),
                parts.comment.as_ptr(),
                parts.comment.len(),
                parts.attributes.count,
                parts.attributes.bytes.as_ptr(),
                parts.attributes.bytes.len(),
                out.as_mut_ptr(),
                out.len(),
                &mut answer,
            )
        };
        Ok(done(status, answer)?[0])
    }

    /// The length of the entry written.
    ///
    /// # Errors
    ///
    /// [`TooLong`](crate::RefusalKind::TooLong), [`BadBlock`](crate::RefusalKind::BadBlock),
    /// [`TooLarge`](crate::RefusalKind::TooLarge).
    pub fn wire_size(&self, parts: &FieldParts<'_>) -> Result<usize, Refusal> {
        needed(|out| self.write(parts, out))
    }

    /// The entry written.
    ///
    /// # Errors
    ///
    /// [`TooLong`](crate::RefusalKind::TooLong), [`BadBlock`](crate::RefusalKind::BadBlock),
    /// [`TooLarge`](crate::RefusalKind::TooLarge).
    #[cfg(feature = "alloc")]
    pub fn to_vec(&self, parts: &FieldParts<'_>) -> Result<Vec<u8>, Refusal> {
        crate::told::filled(|out| self.write(parts, out))
    }
}
