//! Whole data types: an entry of an upload of data types with its array records and its members, and the iterator over
//! such an upload.

#[cfg(feature = "alloc")]
use alloc::{vec, vec::Vec};
use core::fmt;
use core::iter::{self, FusedIterator};

use crate::attributes::{AdsAttribute, AdsAttributes};
use crate::field::FieldNumbers;
use crate::flags::AdsTypeFlags;
use crate::mode::Mode;
use crate::refusal::Refusal;
use crate::sys;
use crate::text::Text;
use crate::told::{done, part, refused, rest_from};
use crate::walk::Steps;

/// How deep entries may stand in each other, the outermost at depth 1.
pub const DEPTH_MOST: usize = sys::DEPTH_MOST;

/// Slots that each member takes in what is lent to [`DataType::members`].
pub const MEMBER_SLOTS: usize = sys::MEMBER_SLOTS;

/// Bytes of stack that a call of the archive that reads a data type, its attributes or its members takes at most,
/// whatever stands in it: for callers that have little. It is measured and not proved, and what Rust puts around the call
/// comes on top.
pub const STACK: usize = sys::TYPE_STACK;

/// The places that a path can have: the root, at depth 1, has none.
const PLACES: usize = DEPTH_MOST - 1;

/// A data type of an upload, read whole: its numbers, its strings and attributes as parts of the upload's bytes, its array
/// records, and its members with their own members, to a depth of [`DEPTH_MOST`], 16, with this entry at depth 1.
///
/// Strings are Windows-1252; [`text::decode`](crate::text::decode) makes UTF-8 of them.
///
/// ```
/// use vindaskot::{DataType, FieldNumbers, FieldParts, MEMBER_SLOTS, Refusal};
///
/// fn write(name: &[u8], offset: u32, out: &mut [u8]) -> Result<usize, Refusal> {
///     let numbers = FieldNumbers { size: 4, offset, ..Default::default() };
///     numbers.write(&FieldParts { name, ..Default::default() }, out)
/// }
///
/// fn main() -> Result<(), Refusal> {
///     // A structure, and behind its strings its two members, which are entries too.
///     let mut entry = [0; 200];
///     let mut length = write(b"ST_Zoom", 0, &mut entry)?;
///     for (name, offset) in [(&b"fPosition"[..], 0), (b"fEnd", 4)] {
///         length += write(name, offset, &mut entry[length..])?;
///     }
///     (entry[0], entry[40]) = (length as u8, 2);
///
///     let zoom = DataType::try_from_slice(&entry)?;
///     assert_eq!((zoom.name(), zoom.member_count()), (&b"ST_Zoom"[..], 2));
///     let end = zoom.member(1)?;
///     assert_eq!((end.data_type().name(), end.offset_from_start()), (&b"fEnd"[..], 4));
///     // All of them in one pass.
///     let mut slots = [0; 2 * MEMBER_SLOTS];
///     for member in zoom.members(&mut slots)? {
///         assert_eq!(member.depth(), 2);
///         assert_eq!(member.read()?.size(), 4);
///     }
///     Ok(())
/// }
/// ```
#[derive(Clone, Copy, PartialEq, Eq, Hash)]
pub struct DataType<'a> {
    entry: &'a [u8],
    numbers: FieldNumbers,
    name: &'a [u8],
    type_name: &'a [u8],
    comment: &'a [u8],
    guid: Option<[u8; 16]>,
    attributes: u64,
    attribute_count: usize,
    arrays: u64,
    array_count: usize,
    sub_item_count: usize,
    member_count: usize,
}

impl<'a> DataType<'a> {
    /// Reads the entry at the start of `data`; what follows it is not looked at.
    ///
    /// # Errors
    ///
    /// [`TooLarge`](crate::RefusalKind::TooLarge), [`TooShort`](crate::RefusalKind::TooShort),
    /// [`EntryLengthMismatch`](crate::RefusalKind::EntryLengthMismatch),
    /// [`ClaimBelowHeader`](crate::RefusalKind::ClaimBelowHeader),
    /// [`EntryLengthMismatch`](crate::RefusalKind::EntryLengthMismatch) for the strings,
    /// [`EntryLengthMismatch`](crate::RefusalKind::EntryLengthMismatch) for the array records; for each sub-item in
    /// order [`TooDeep`](crate::RefusalKind::TooDeep), [`TooShort`](crate::RefusalKind::TooShort),
    /// [`EntryLengthMismatch`](crate::RefusalKind::EntryLengthMismatch),
    /// [`ClaimBelowHeader`](crate::RefusalKind::ClaimBelowHeader) and those of its own reading, whose figures count
    /// from its own start; then those of an attribute. Whatever refuses a sub-item refuses the data type.
    pub fn try_from_slice(data: &'a [u8]) -> Result<Self, Refusal> {
        Self::try_from_slice_in(data, Mode::Present)
    }

    /// The same in a mode: the checked one refuses with [`EndByte`](crate::RefusalKind::EndByte) after the lengths of
    /// the strings of each entry, for the end bytes of the name, the type and the comment, and after those of each
    /// attribute.
    pub fn try_from_slice_in(data: &'a [u8], mode: Mode) -> Result<Self, Refusal> {
        let mut slots = [0; sys::TYPE_SLOTS];
        let mut guid = [0; 16];
        let mut answer = [0; 2];
        // SAFETY: data's own pointer and length; slots, guid and answer are lent for the call.
        let status = unsafe {
            sys::vindaskot_type_read_in(
                data.as_ptr(),
                data.len(),
                mode.is_checked(),
                &mut slots,
                &mut guid,
                &mut answer,
            )
        };
        done(status, answer)?;
        Ok(Self::told(data, &slots, guid))
    }

    /// What a data type's slots tell of the bytes that begin with the entry.
    fn told(data: &'a [u8], slots: &[u64; sys::TYPE_SLOTS], guid: [u8; 16]) -> Self {
        let entry = part(data, 0, slots[sys::TYPE_LENGTH]);
        let string = |place: usize, len: usize| part(entry, slots[place], slots[len]);
        let numbers = FieldNumbers {
            version: slots[sys::TYPE_VERSION] as u32,
            hash_value: slots[sys::TYPE_HASH_VALUE] as u32,
            type_hash_value: slots[sys::TYPE_TYPE_HASH_VALUE] as u32,
            size: slots[sys::TYPE_SIZE] as u32,
            offset: slots[sys::TYPE_OFFSET] as u32,
            type_id: slots[sys::TYPE_TYPE_ID] as u32,
            flags: AdsTypeFlags(slots[sys::TYPE_FLAGS] as u32),
        };
        Self {
            entry,
            numbers,
            name: string(sys::TYPE_NAME_AT, sys::TYPE_NAME_LEN),
            type_name: string(sys::TYPE_TYPE_NAME_AT, sys::TYPE_TYPE_NAME_LEN),
            comment: string(sys::TYPE_COMMENT_AT, sys::TYPE_COMMENT_LEN),
            guid: (slots[sys::TYPE_HAS_GUID] == 1).then_some(guid),
            attributes: slots[sys::TYPE_ATTRIBUTES_AT],
            attribute_count: slots[sys::TYPE_ATTRIBUTE_COUNT] as usize,
            arrays: slots[sys::TYPE_ARRAYS_AT],
            array_count: slots[sys::TYPE_ARRAY_COUNT] as usize,
            sub_item_count: slots[sys::TYPE_ITEM_COUNT] as usize,
            member_count: slots[sys::TYPE_MEMBER_COUNT] as usize,
        }
    }

    /// The entry's own bytes, as many as it claims; its members stand in them.
    pub const fn as_bytes(&self) -> &'a [u8] {
        self.entry
    }

    /// The version of the structure.
    pub const fn version(&self) -> u32 {
        self.numbers.version
    }

    /// The hash of the type, or the place of the getter's code.
    pub const fn hash_value(&self) -> u32 {
        self.numbers.hash_value
    }

    /// The hash of the base type, or the place of the setter's code.
    pub const fn type_hash_value(&self) -> u32 {
        self.numbers.type_hash_value
    }

    /// The size of the type's data, in bytes; of a member that is a bit ([`AdsTypeFlags::BIT_VALUES`]), in bits.
    pub const fn size(&self) -> u32 {
        self.numbers.size
    }

    /// The offset within what the entry is a member of, as sent: in bytes, unless [`flags`](Self::flags) say that it is in
    /// bits ([`AdsTypeFlags::BIT_VALUES`]), or that no data lie there ([`AdsTypeFlags::STATIC`],
    /// [`AdsTypeFlags::PROP_ITEM`]). [`Member`] and [`MemberPlace`] have the offset from the start of the whole.
    pub const fn offset(&self) -> u32 {
        self.numbers.offset
    }

    /// The number of the data type.
    pub const fn type_id(&self) -> u32 {
        self.numbers.type_id
    }

    /// The flags.
    pub const fn flags(&self) -> AdsTypeFlags {
        self.numbers.flags
    }

    /// All of these numbers.
    pub const fn numbers(&self) -> FieldNumbers {
        self.numbers
    }

    /// The name of the type, such as `ST_LensTable`, or of the member.
    pub const fn name(&self) -> &'a [u8] {
        self.name
    }

    /// The name of the type that it is of.
    pub const fn type_name(&self) -> &'a [u8] {
        self.type_name
    }

    /// The comment beside it.
    pub const fn comment(&self) -> &'a [u8] {
        self.comment
    }

    /// The type's GUID, if it is there.
    pub const fn guid(&self) -> Option<[u8; 16]> {
        self.guid
    }

    /// The attributes.
    pub fn attributes(&self) -> AdsAttributes<'a> {
        AdsAttributes::new(rest_from(self.entry, self.attributes), self.attribute_count)
    }

    /// The attribute of that number, from 0. It reads the entry again, members too.
    ///
    /// # Errors
    ///
    /// [`NoSuchNumber`](crate::RefusalKind::NoSuchNumber).
    pub fn attribute(&self, number: usize) -> Result<AdsAttribute<'a>, Refusal> {
        self.attribute_in(number, Mode::Present)
    }

    /// The same of the entry's bytes read again in a mode.
    ///
    /// # Errors
    ///
    /// Those of [`try_from_slice_in`](Self::try_from_slice_in), then
    /// [`NoSuchNumber`](crate::RefusalKind::NoSuchNumber).
    pub fn attribute_in(&self, number: usize, mode: Mode) -> Result<AdsAttribute<'a>, Refusal> {
        let entry = self.entry;
        let read = AdsAttribute::asked(entry, |slots, answer| {
            // SAFETY: entry's own pointer and length; slots and answer are lent for the call.
            unsafe {
                sys::vindaskot_type_attribute_in(
                    entry.as_ptr(),
                    entry.len(),
                    mode.is_checked(),
                    number,
                    slots,
                    answer,
                )
            }
        });
        Ok(read?.0)
    }

    /// The first attribute of that name. Names are equal if their bytes are.
    ///
    /// # Errors
    ///
    /// [`NameNotFound`](crate::RefusalKind::NameNotFound).
    pub fn attribute_named(&self, name: impl AsRef<[u8]>) -> Result<AdsAttribute<'a>, Refusal> {
        let name = name.as_ref();
        self.attribute_named_in(name, Mode::Present)
    }

    /// The same of the entry's bytes read again in a mode.
    ///
    /// # Errors
    ///
    /// Those of [`try_from_slice_in`](Self::try_from_slice_in), then
    /// [`NameNotFound`](crate::RefusalKind::NameNotFound).
    pub fn attribute_named_in(
        &self,
        name: impl AsRef<[u8]>,
        mode: Mode,
    ) -> Result<AdsAttribute<'a>, Refusal> {
        let name = name.as_ref();
        let entry = self.entry;
        let read = AdsAttribute::asked(entry, |slots, answer| {
            // SAFETY: each pointer stands with its slice's own length; slots and answer are lent for the call.
            unsafe {
                sys::vindaskot_type_attribute_named_in(
                    entry.as_ptr(),
                    entry.len(),
                    mode.is_checked(),
                    name.as_ptr(),
                    name.len(),
                    slots,
                    answer,
                )
            }
        });
        Ok(read?.0)
    }

    /// The array records: a dimension each, none where it is no array.
    pub fn arrays(&self) -> ArrayInfos<'a> {
        let length = (ARRAY_RECORD * self.array_count) as u64;
        ArrayInfos {
            records: part(self.entry, self.arrays, length),
        }
    }

    /// The array record of that number, from 0. It reads the entry again, members too.
    ///
    /// # Errors
    ///
    /// [`NoSuchNumber`](crate::RefusalKind::NoSuchNumber).
    pub fn array(&self, number: usize) -> Result<ArrayInfo, Refusal> {
        self.array_in(number, Mode::Present)
    }

    /// The same of the entry's bytes read again in a mode.
    ///
    /// # Errors
    ///
    /// Those of [`try_from_slice_in`](Self::try_from_slice_in), then
    /// [`NoSuchNumber`](crate::RefusalKind::NoSuchNumber).
    pub fn array_in(&self, number: usize, mode: Mode) -> Result<ArrayInfo, Refusal> {
        let mut slots = [0; sys::ARRAY_SLOTS];
        let mut answer = [0; 2];
        // SAFETY: entry's own pointer and length; slots and answer are lent for the call.
        let status = unsafe {
            sys::vindaskot_type_array_in(
                self.entry.as_ptr(),
                self.entry.len(),
                mode.is_checked(),
                number,
                &mut slots,
                &mut answer,
            )
        };
        done(status, answer)?;
        Ok(ArrayInfo {
            lower_bound: slots[sys::ARRAY_LOWER_BOUND] as i32,
            elements: slots[sys::ARRAY_ELEMENTS] as u32,
        })
    }

    /// How many entries stand right in this one: its members at the next depth.
    pub const fn sub_item_count(&self) -> usize {
        self.sub_item_count
    }

    /// How many members there are in the whole tree, this entry not among them.
    pub const fn member_count(&self) -> usize {
        self.member_count
    }

    /// The member of that number, from 0: parents before their members, and the first sub-item with all of its members
    /// before the second. It reads the entry again; for all members [`members`](Self::members) reads it once.
    ///
    /// # Errors
    ///
    /// [`NoSuchNumber`](crate::RefusalKind::NoSuchNumber).
    pub fn member(&self, number: usize) -> Result<Member<'a>, Refusal> {
        self.member_in(number, Mode::Present)
    }

    /// The same of the entry's bytes read again in a mode.
    ///
    /// # Errors
    ///
    /// Those of [`try_from_slice_in`](Self::try_from_slice_in), then
    /// [`NoSuchNumber`](crate::RefusalKind::NoSuchNumber).
    pub fn member_in(&self, number: usize, mode: Mode) -> Result<Member<'a>, Refusal> {
        let mut slots = [0; sys::TYPE_SLOTS];
        let mut guid = [0; 16];
        let mut path = [0; sys::PATH_SLOTS];
        let mut answer = [0; 2];
        // SAFETY: entry's own pointer and length; slots, guid, path and answer are lent for the call.
        let status = unsafe {
            sys::vindaskot_type_member_in(
                self.entry.as_ptr(),
                self.entry.len(),
                mode.is_checked(),
                number,
                &mut slots,
                &mut guid,
                &mut path,
                &mut answer,
            )
        };
        done(status, answer)?;
        Ok(Member::told(self.entry, &slots, guid, &path))
    }

    /// All members, in the order of their numbers, in one pass over the entry: where each stands, how deep, and its
    /// offset from the start, in [`MEMBER_SLOTS`] of the lent slots a member. What stands behind them in `slots` is as
    /// it was.
    ///
    /// # Errors
    ///
    /// [`OutputTooSmall`](crate::RefusalKind::OutputTooSmall) (slots), not where there are
    /// [`member_count`](Self::member_count) times `MEMBER_SLOTS`.
    pub fn members<'s>(&self, slots: &'s mut [u64]) -> Result<Members<'a, 's>, Refusal> {
        self.members_in(slots, Mode::Present)
    }

    /// The same of the entry's bytes read again in a mode.
    ///
    /// # Errors
    ///
    /// Those of [`try_from_slice_in`](Self::try_from_slice_in), then
    /// [`OutputTooSmall`](crate::RefusalKind::OutputTooSmall).
    pub fn members_in<'s>(
        &self,
        slots: &'s mut [u64],
        mode: Mode,
    ) -> Result<Members<'a, 's>, Refusal> {
        let mut answer = [0; 2];
        // SAFETY: each pointer stands with its slice's own length; slots is borrowed alone, so it overlaps nothing.
        let status = unsafe {
            sys::vindaskot_type_members_in(
                self.entry.as_ptr(),
                self.entry.len(),
                mode.is_checked(),
                slots.as_mut_ptr(),
                slots.len(),
                &mut answer,
            )
        };
        let [written, _] = done(status, answer)?;
        Ok(Members {
            root: self.entry,
            slots: &slots[..written],
        })
    }

    /// All members in a list of their own: the slots are set aside for the pass and given back. No refusal is left for an
    /// entry that was read.
    #[cfg(feature = "alloc")]
    pub fn members_to_vec(&self) -> Result<Vec<MemberPlace<'a>>, Refusal> {
        self.members_to_vec_in(Mode::Present)
    }

    /// The same of the entry's bytes read again in a mode.
    ///
    /// # Errors
    ///
    /// Those of [`try_from_slice_in`](Self::try_from_slice_in).
    #[cfg(feature = "alloc")]
    pub fn members_to_vec_in(&self, mode: Mode) -> Result<Vec<MemberPlace<'a>>, Refusal> {
        let mut slots = vec![0; MEMBER_SLOTS * self.member_count];
        let members = self.members_in(&mut slots, mode)?;
        let mut list = Vec::with_capacity(members.len());
        list.extend(members);
        Ok(list)
    }
}

impl<'a> TryFrom<&'a [u8]> for DataType<'a> {
    type Error = Refusal;

    fn try_from(data: &'a [u8]) -> Result<Self, Refusal> {
        Self::try_from_slice(data)
    }
}

/// What it tells, strings as text; of its members how many there are.
impl fmt::Debug for DataType<'_> {
    fn fmt(&self, f: &mut fmt::Formatter<'_>) -> fmt::Result {
        let mut told = f.debug_struct("DataType");
        told.field("name", &Text(self.name));
        told.field("type_name", &Text(self.type_name));
        told.field("comment", &Text(self.comment));
        told.field("numbers", &self.numbers);
        told.field("guid", &self.guid);
        told.field("arrays", &self.arrays());
        told.field("attributes", &self.attributes());
        told.field("sub_item_count", &self.sub_item_count);
        told.field("member_count", &self.member_count).finish()
    }
}

/// A dimension of an array.
#[derive(Debug, Clone, Copy, PartialEq, Eq, Hash)]
pub struct ArrayInfo {
    /// The index of the first element, which may be below 0, as of `ARRAY [-2..2]`.
    pub lower_bound: i32,
    /// How many elements there are.
    pub elements: u32,
}

impl ArrayInfo {
    /// The index of the last element, one below the lower bound where there is none. It may be beyond 32 bits, since a
    /// record can have any bytes.
    pub const fn upper_bound(&self) -> i64 {
        self.lower_bound as i64 + self.elements as i64 - 1
    }
}

/// An array record: two numbers of four bytes, the low byte first.
const ARRAY_RECORD: usize = 8;

/// The array records of an entry, in order.
///
/// The two numbers of a record are taken from its bytes, which the entry's reading has found and counted: to ask for each
/// of them by its number would read the entry, with all of its members, as often.
#[derive(Clone)]
pub struct ArrayInfos<'a> {
    records: &'a [u8],
}

impl ArrayInfos<'_> {
    fn told(record: &[u8; ARRAY_RECORD]) -> ArrayInfo {
        let [a, b, c, d, elements @ ..] = *record;
        ArrayInfo {
            lower_bound: i32::from_le_bytes([a, b, c, d]),
            elements: u32::from_le_bytes(elements),
        }
    }
}

/// The array records that are left.
impl fmt::Debug for ArrayInfos<'_> {
    fn fmt(&self, f: &mut fmt::Formatter<'_>) -> fmt::Result {
        f.debug_list().entries(self.clone()).finish()
    }
}

impl Iterator for ArrayInfos<'_> {
    type Item = ArrayInfo;

    fn next(&mut self) -> Option<ArrayInfo> {
        let (first, rest) = self.records.split_first_chunk()?;
        self.records = rest;
        Some(Self::told(first))
    }

    fn size_hint(&self) -> (usize, Option<usize>) {
        let left = self.records.len() / ARRAY_RECORD;
        (left, Some(left))
    }
}

impl DoubleEndedIterator for ArrayInfos<'_> {
    fn next_back(&mut self) -> Option<ArrayInfo> {
        let (rest, last) = self.records.split_last_chunk()?;
        self.records = rest;
        Some(Self::told(last))
    }
}

impl ExactSizeIterator for ArrayInfos<'_> {}

impl FusedIterator for ArrayInfos<'_> {}

/// A member of a data type, asked for by its number: its record, and where it stands.
#[derive(Debug, Clone, Copy, PartialEq, Eq, Hash)]
pub struct Member<'a> {
    data_type: DataType<'a>,
    depth: usize,
    offset_from_start: u64,
    places: [usize; PLACES],
}

impl<'a> Member<'a> {
    /// What a member's slots and its path tell of the bytes of the root.
    fn told(
        root: &'a [u8],
        slots: &[u64; sys::TYPE_SLOTS],
        guid: [u8; 16],
        path: &[u64; sys::PATH_SLOTS],
    ) -> Self {
        let depth = path[sys::PATH_DEPTH] as usize;
        let places = core::array::from_fn(|number| path[sys::PATH_PLACES + number] as usize);
        let data = rest_from(root, path[sys::PATH_PLACES + depth - 2]);
        Self {
            data_type: DataType::told(data, slots, guid),
            depth,
            offset_from_start: path[sys::PATH_OFFSET],
            places,
        }
    }

    /// Its record, as it is read at its place: its own strings, arrays, attributes, and the members in it.
    pub const fn data_type(&self) -> DataType<'a> {
        self.data_type
    }

    /// How deep it stands, from 2, right in the root, to 16.
    pub const fn depth(&self) -> usize {
        self.depth
    }

    /// Its own offset, within what it is a member of, as [`DataType::offset`] tells it.
    pub const fn offset(&self) -> u32 {
        self.data_type.offset()
    }

    /// Its offset from the start of the root's data: the sum of the offsets along its path, its own the last. The root's own
    /// offset is not in it.
    ///
    /// That is the place of its data, in bytes, where neither it nor an entry above it has [`AdsTypeFlags::BIT_VALUES`],
    /// [`AdsTypeFlags::STATIC`] or [`AdsTypeFlags::PROP_ITEM`], and none above it [`AdsTypeFlags::REFERENCE_TO`]: below a
    /// reference data lie where it leads. Below a member that has array records it is the place in the first element.
    pub const fn offset_from_start(&self) -> u64 {
        self.offset_from_start
    }

    /// Where the entries on the way to it start in the root's entry, from depth 2 down to itself: one less than its depth.
    pub fn path(&self) -> &[usize] {
        &self.places[..self.depth - 1]
    }

    /// Where it starts in the root's entry.
    pub const fn place(&self) -> usize {
        self.places[self.depth - 2]
    }
}

/// A member of a data type, as the pass over all of them tells it: where it stands.
#[derive(Clone, Copy, PartialEq, Eq, Hash)]
pub struct MemberPlace<'a> {
    root: &'a [u8],
    place: usize,
    depth: usize,
    offset_from_start: u64,
}

impl<'a> MemberPlace<'a> {
    fn told(root: &'a [u8], slots: &[u64; sys::MEMBER_SLOTS]) -> Self {
        Self {
            root,
            place: slots[sys::MEMBER_PLACE] as usize,
            depth: slots[sys::MEMBER_DEPTH] as usize,
            offset_from_start: slots[sys::MEMBER_OFFSET],
        }
    }

    /// Where it starts in the root's entry.
    pub const fn place(&self) -> usize {
        self.place
    }

    /// How deep it stands, from 2, right in the root, to 16.
    pub const fn depth(&self) -> usize {
        self.depth
    }

    /// Its offset from the start of the root's data, as [`Member::offset_from_start`] tells it, which says when it is a place.
    pub const fn offset_from_start(&self) -> u64 {
        self.offset_from_start
    }

    /// Its record, read at its place. That goes through the members in it and no others, so that all members of a data type
    /// that are read so cost as many readings of an entry as their depths are together, less one each. No refusal is left
    /// for a member of an entry that was read.
    pub fn read(&self) -> Result<DataType<'a>, Refusal> {
        self.read_in(Mode::Present)
    }

    /// The same in a mode.
    ///
    /// # Errors
    ///
    /// Those of [`try_from_slice_in`](DataType::try_from_slice_in).
    pub fn read_in(&self, mode: Mode) -> Result<DataType<'a>, Refusal> {
        DataType::try_from_slice_in(rest_from(self.root, self.place as u64), mode)
    }
}

/// Without the root's bytes, which each of many members would show again.
impl fmt::Debug for MemberPlace<'_> {
    fn fmt(&self, f: &mut fmt::Formatter<'_>) -> fmt::Result {
        let mut shown = f.debug_struct("MemberPlace");
        shown.field("place", &self.place);
        shown.field("depth", &self.depth);
        shown.field("offset_from_start", &self.offset_from_start);
        shown.finish_non_exhaustive()
    }
}

/// The members of a data type, in the order of their numbers: parents before their members.
#[derive(Clone)]
pub struct Members<'a, 's> {
    root: &'a [u8],
    slots: &'s [u64],
}

impl<'a> Iterator for Members<'a, '_> {
    type Item = MemberPlace<'a>;

    fn next(&mut self) -> Option<MemberPlace<'a>> {
        let (first, rest) = self.slots.split_first_chunk()?;
        self.slots = rest;
        Some(MemberPlace::told(self.root, first))
    }

    fn size_hint(&self) -> (usize, Option<usize>) {
        let left = self.slots.len() / MEMBER_SLOTS;
        (left, Some(left))
    }
}

impl<'a> DoubleEndedIterator for Members<'a, '_> {
    fn next_back(&mut self) -> Option<MemberPlace<'a>> {
        let (rest, last) = self.slots.split_last_chunk()?;
        self.slots = rest;
        Some(MemberPlace::told(self.root, last))
    }
}

impl ExactSizeIterator for Members<'_, '_> {}

impl FusedIterator for Members<'_, '_> {}

impl fmt::Debug for Members<'_, '_> {
    fn fmt(&self, f: &mut fmt::Formatter<'_>) -> fmt::Result {
        f.debug_list().entries(self.clone()).finish()
    }
}

/// One step of the walk over an upload of data types: `None` at the end, else the entry at the cursor or its refusal.
///
/// The cursor moves as in [`symbol::parse_next_entry`](crate::symbol::parse_next_entry): a claim of 0 gives 2 (42, 0)
/// and does not move it.
pub fn parse_next_entry<'a>(
    data: &'a [u8],
    cursor: &mut usize,
) -> Option<Result<DataType<'a>, Refusal>> {
    parse_next_entry_in(data, cursor, Mode::Present)
}

/// The same in a mode: in the checked one an entry is also refused with [`EndByte`](crate::RefusalKind::EndByte), and
/// the cursor moves past it.
pub fn parse_next_entry_in<'a>(
    data: &'a [u8],
    cursor: &mut usize,
    mode: Mode,
) -> Option<Result<DataType<'a>, Refusal>> {
    let start = *cursor;
    let mut slots = [0; sys::TYPE_SLOTS];
    let mut guid = [0; 16];
    let mut answer = [0; 2];
    // SAFETY: data's own pointer and length; cursor, slots, guid and answer are lent for the call.
    let status = unsafe {
        sys::vindaskot_type_step_in(
            data.as_ptr(),
            data.len(),
            mode.is_checked(),
            cursor,
            &mut slots,
            &mut guid,
            &mut answer,
        )
    };
    match status {
        sys::FINISHED => None,
        sys::DONE => Some(Ok(DataType::told(&data[start..], &slots, guid))),
        _ => Some(Err(refused(status, answer))),
    }
}

/// The data types of an upload, in order, each accepted or refused.
///
/// A refused entry is passed by its claimed length and the walk goes on. A claim of 0 gives no way on: its refusal,
/// 2 (42, 0), is given once and is the last item.
#[derive(Debug, Clone, PartialEq, Eq, Hash)]
pub struct DataTypeIterator<'a> {
    steps: Steps<'a>,
    mode: Mode,
}

impl<'a> DataTypeIterator<'a> {
    /// Begins at the upload's start.
    pub fn new(data: &'a [u8]) -> Self {
        Self::new_in(data, Mode::Present)
    }

    /// The same in a mode: each entry is read in it.
    pub fn new_in(data: &'a [u8], mode: Mode) -> Self {
        let steps = Steps::new(data);
        Self { steps, mode }
    }

    /// The cursor: where the next entry starts, or where the walk ended.
    pub fn position(&self) -> usize {
        self.steps.position()
    }

    /// The same items, each with the place in the upload where its entry starts.
    pub fn with_starts(
        mut self,
    ) -> impl FusedIterator<Item = (usize, Result<DataType<'a>, Refusal>)> {
        iter::from_fn(move || Some((self.position(), self.next()?))).fuse()
    }
}

impl<'a> Iterator for DataTypeIterator<'a> {
    type Item = Result<DataType<'a>, Refusal>;

    fn next(&mut self) -> Option<Self::Item> {
        let mode = self.mode;
        self.steps
            .next(|data, cursor| parse_next_entry_in(data, cursor, mode))
    }
}

impl FusedIterator for DataTypeIterator<'_> {}
