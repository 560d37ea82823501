//! Attributes: a name and a value beside a symbol or a field.

#[cfg(feature = "alloc")]
use alloc::vec::Vec;
use core::fmt;
use core::iter::FusedIterator;

use crate::block::{Block, Filling};
use crate::mode::Mode;
use crate::refusal::Refusal;
use crate::sys;
use crate::text::Text;
use crate::told::{done, needed, part};

/// An attribute: a name and a value, both Windows-1252.
#[derive(Clone, Copy, PartialEq, Eq, Hash)]
pub struct AdsAttribute<'a> {
    name: &'a [u8],
    value: &'a [u8],
}

impl<'a> AdsAttribute<'a> {
    /// An attribute of that name and value.
    pub const fn new(name: &'a [u8], value: &'a [u8]) -> Self {
        Self { name, value }
    }

    /// The name.
    pub const fn name(&self) -> &'a [u8] {
        self.name
    }

    /// The value.
    pub const fn value(&self) -> &'a [u8] {
        self.value
    }

    /// Reads the attribute at the start of `data`.
    ///
    /// # Errors
    ///
    /// [`TooLarge`](crate::RefusalKind::TooLarge), [`TooShort`](crate::RefusalKind::TooShort),
    /// [`UnexpectedLength`](crate::RefusalKind::UnexpectedLength).
    pub fn try_from_slice(data: &'a [u8]) -> Result<Self, Refusal> {
        Ok(Self::read(data)?.0)
    }

    /// The same in a mode: the checked one refuses with [`EndByte`](crate::RefusalKind::EndByte) last, for the name's
    /// end byte, then the value's.
    pub fn try_from_slice_in(data: &'a [u8], mode: Mode) -> Result<Self, Refusal> {
        let read = Self::asked(data, |slots, answer| {
            // SAFETY: data's own pointer and length; slots and answer are lent for the call.
            unsafe {
                sys::vindaskot_attribute_read_in(
                    data.as_ptr(),
                    data.len(),
                    mode.is_checked(),
                    slots,
                    answer,
                )
            }
        });
        Ok(read?.0)
    }

    /// The attribute at the start of `data`, and the place after it.
    fn read(data: &'a [u8]) -> Result<(Self, usize), Refusal> {
        Self::asked(data, |slots, answer| {
            // SAFETY: data's own pointer and length; slots and answer are lent for the call.
            unsafe { sys::vindaskot_attribute_read(data.as_ptr(), data.len(), slots, answer) }
        })
    }

    /// What a call tells that fills an attribute's slots, with places in `data`.
    pub(crate) fn asked(
        data: &'a [u8],
        call: impl FnOnce(&mut [u64; sys::ATTRIBUTE_SLOTS], &mut [u64; 2]) -> u32,
    ) -> Result<(Self, usize), Refusal> {
        let mut slots = [0; sys::ATTRIBUTE_SLOTS];
        let mut answer = [0; 2];
        let status = call(&mut slots, &mut answer);
        done(status, answer)?;
        Ok(Self::told(data, &slots))
    }

    /// What an attribute's slots tell of the bytes that were read, and the place after the record.
    fn told(data: &'a [u8], slots: &[u64; sys::ATTRIBUTE_SLOTS]) -> (Self, usize) {
        let attribute = Self {
            name: part(
                data,
                slots[sys::ATTRIBUTE_NAME_AT],
                slots[sys::ATTRIBUTE_NAME_LEN],
            ),
            value: part(
                data,
                slots[sys::ATTRIBUTE_VALUE_AT],
                slots[sys::ATTRIBUTE_VALUE_LEN],
            ),
        };
        (attribute, slots[sys::ATTRIBUTE_NEXT_AT] as usize)
    }

    /// Writes the record from `out[0]` on and answers its length.
    ///
    /// # Errors
    ///
    /// [`TooLong`](crate::RefusalKind::TooLong) (name, value), [`OutputTooSmall`](crate::RefusalKind::OutputTooSmall).
    pub fn write(&self, out: &mut [u8]) -> Result<usize, Refusal> {
        let Self { name, value } = self;
        let mut answer = [0; 2];
        // SAFETY: each pointer stands with its slice's own length; out is borrowed alone, so it overlaps none.
        let status = unsafe {
            sys::vindaskot_attribute_write(
                name.as_ptr(),
                name.len(),
                value.as_ptr(),
                value.len(),
                out.as_mut_ptr(),
                out.len(),
                &mut answer,
            )
        };
        Ok(done(status, answer)?[0])
    }

    /// The length of the record written.
    ///
    /// # Errors
    ///
    /// [`TooLong`](crate::RefusalKind::TooLong).
    pub fn wire_size(&self) -> Result<usize, Refusal> {
        needed(|out| self.write(out))
    }

    /// The record written.
    ///
    /// # Errors
    ///
    /// [`TooLong`](crate::RefusalKind::TooLong).
    #[cfg(feature = "alloc")]
    pub fn to_vec(&self) -> Result<Vec<u8>, Refusal> {
        crate::told::filled(|out| self.write(out))
    }
}

impl<'a> TryFrom<&'a [u8]> for AdsAttribute<'a> {
    type Error = Refusal;

    fn try_from(data: &'a [u8]) -> Result<Self, Refusal> {
        Self::try_from_slice(data)
    }
}

/// Name and value as text.
impl fmt::Debug for AdsAttribute<'_> {
    fn fmt(&self, f: &mut fmt::Formatter<'_>) -> fmt::Result {
        let mut told = f.debug_struct("AdsAttribute");
        told.field("name", &Text(self.name));
        told.field("value", &Text(self.value)).finish()
    }
}

/// The attributes that an entry shows, in order.
#[derive(Clone)]
pub struct AdsAttributes<'a> {
    rest: &'a [u8],
    left: usize,
}

impl<'a> AdsAttributes<'a> {
    /// `left` attributes at the start of `rest`, which the entry's reading has counted.
    pub(crate) fn new(rest: &'a [u8], left: usize) -> Self {
        Self { rest, left }
    }
}

/// The attributes that are left.
impl fmt::Debug for AdsAttributes<'_> {
    fn fmt(&self, f: &mut fmt::Formatter<'_>) -> fmt::Result {
        f.debug_list().entries(self.clone()).finish()
    }
}

impl<'a> Iterator for AdsAttributes<'a> {
    type Item = AdsAttribute<'a>;

    fn next(&mut self) -> Option<Self::Item> {
        let left = self.left.checked_sub(1)?;
        // The entry's reading counts the records that this reading accepts, so none of them is refused.
        let (attribute, next) = AdsAttribute::read(self.rest).ok()?;
        self.rest = &self.rest[next..];
        self.left = left;
        Some(attribute)
    }

    fn size_hint(&self) -> (usize, Option<usize>) {
        (self.left, Some(self.left))
    }
}

impl ExactSizeIterator for AdsAttributes<'_> {}

impl FusedIterator for AdsAttributes<'_> {}

/// Writes attributes one after another into a lent buffer, for the [`Block`] of an entry.
#[derive(Debug)]
pub struct AttributeWriter<'o>(Filling<'o>);

impl<'o> AttributeWriter<'o> {
    /// Begins at the start of `out`.
    pub fn new(out: &'o mut [u8]) -> Self {
        Self(Filling::new(out))
    }

    /// Adds an attribute. A refused one changes nothing; the figures of 6 are of the room that is left.
    ///
    /// # Errors
    ///
    /// [`TooLong`](crate::RefusalKind::TooLong) (name, value), [`OutputTooSmall`](crate::RefusalKind::OutputTooSmall).
    pub fn push(&mut self, attribute: &AdsAttribute<'_>) -> Result<(), Refusal> {
        self.0.push(|out| attribute.write(out))
    }

    /// The attributes written.
    pub fn into_block(self) -> Block<'o> {
        self.0.into_block()
    }
}
