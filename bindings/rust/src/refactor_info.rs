//! Refactor records: the former names of a symbol, in a chain.

#[cfg(feature = "alloc")]
use alloc::vec::Vec;
use core::fmt;
use core::iter::FusedIterator;

use crate::block::{Block, Filling};
use crate::mode::Mode;
use crate::refusal::Refusal;
use crate::sys;
use crate::text::Text;
use crate::told::{done, needed, part};

/// A refactor record: a count, whether another record follows, and a former name in Windows-1252.
#[derive(Clone, Copy, PartialEq, Eq, Hash)]
pub struct AdsRefactorInfo<'a> {
    refactor_count: u32,
    next_refactor_info: bool,
    name: &'a [u8],
}

impl<'a> AdsRefactorInfo<'a> {
    /// A record of that count and name, to be written. An empty name is no name.
    pub const fn new(count: u32, name: Option<&'a [u8]>) -> Self {
        let name = match name {
            Some(name) => name,
            None => &[],
        };
        Self {
            refactor_count: count,
            next_refactor_info: false,
            name,
        }
    }

    /// The count: the record's first number with mask 0x01111111. The mask contains the follower bit, 0x01000000, so
    /// the count of a record that another follows has it set.
    pub const fn refactor_count(&self) -> u32 {
        self.refactor_count
    }

    /// Whether the record was read with another following it. A record made by [`new`](Self::new) says `false`.
    pub const fn next_refactor_info(&self) -> bool {
        self.next_refactor_info
    }

    /// The name, if there is one.
    pub const fn name(&self) -> Option<&'a [u8]> {
        if self.name.is_empty() {
            None
        } else {
            Some(self.name)
        }
    }

    /// Reads the record at the start of `data`; with it, how many bytes it takes.
    ///
    /// # Errors
    ///
    /// [`TooLarge`](crate::RefusalKind::TooLarge), [`TooShort`](crate::RefusalKind::TooShort).
    pub fn try_from_slice(data: &'a [u8]) -> Result<(Self, usize), Refusal> {
        Self::asked(data, |slots, answer| {
            // SAFETY: data's own pointer and length; slots and answer are lent for the call.
            unsafe { sys::vindaskot_refactor_read(data.as_ptr(), data.len(), slots, answer) }
        })
    }

    /// The same in a mode: the checked one refuses with [`EndByte`](crate::RefusalKind::EndByte) last.
    pub fn try_from_slice_in(data: &'a [u8], mode: Mode) -> Result<(Self, usize), Refusal> {
        Self::asked(data, |slots, answer| {
            // SAFETY: data's own pointer and length; slots and answer are lent for the call.
            unsafe {
                sys::vindaskot_refactor_read_in(
                    data.as_ptr(),
                    data.len(),
                    mode.is_checked(),
                    slots,
                    answer,
                )
            }
        })
    }

    /// What a call tells that fills a record's slots, with places in `data`.
    pub(crate) fn asked(
        data: &'a [u8],
        call: impl FnOnce(&mut [u64; sys::REFACTOR_SLOTS], &mut [u64; 2]) -> u32,
    ) -> Result<(Self, usize), Refusal> {
        let mut slots = [0; sys::REFACTOR_SLOTS];
        let mut answer = [0; 2];
        let status = call(&mut slots, &mut answer);
        done(status, answer)?;
        Ok(Self::told(data, &slots))
    }

    /// What a record's slots tell of the bytes that were read, and the place after the record.
    fn told(data: &'a [u8], slots: &[u64; sys::REFACTOR_SLOTS]) -> (Self, usize) {
        let info = Self {
            refactor_count: slots[sys::REFACTOR_COUNT] as u32,
            next_refactor_info: slots[sys::REFACTOR_HAS_NEXT] == 1,
            name: part(
                data,
                slots[sys::REFACTOR_NAME_AT],
                slots[sys::REFACTOR_NAME_LEN],
            ),
        };
        (info, slots[sys::REFACTOR_NEXT_AT] as usize)
    }

    /// Reads the chain at the start of `data`: its records, and how many bytes they take.
    ///
    /// # Errors
    ///
    /// [`TooLarge`](crate::RefusalKind::TooLarge), [`TooShort`](crate::RefusalKind::TooShort).
    pub fn parse_chain(data: &'a [u8]) -> Result<(AdsRefactorInfos<'a>, usize), Refusal> {
        let mut answer = [0; 2];
        // SAFETY: data's own pointer and length; answer is lent for the call.
        let status = unsafe { sys::vindaskot_chain_read(data.as_ptr(), data.len(), &mut answer) };
        let [count, next] = done(status, answer)?;
        Ok((AdsRefactorInfos::new(data, count), next))
    }

    /// The same in a mode: in the checked one the records are refused in order, each with 2 and 16. The place that 16
    /// tells counts from the start of `data`.
    pub fn parse_chain_in(
        data: &'a [u8],
        mode: Mode,
    ) -> Result<(AdsRefactorInfos<'a>, usize), Refusal> {
        let mut answer = [0; 2];
        // SAFETY: data's own pointer and length; answer is lent for the call.
        let status = unsafe {
            sys::vindaskot_chain_read_in(data.as_ptr(), data.len(), mode.is_checked(), &mut answer)
        };
        let [count, next] = done(status, answer)?;
        Ok((AdsRefactorInfos::new(data, count), next))
    }

    /// The record of that number, from 0, of the chain at the start of `data`.
    ///
    /// # Errors
    ///
    /// Those of [`parse_chain`](Self::parse_chain), then [`NoSuchNumber`](crate::RefusalKind::NoSuchNumber).
    pub fn chain_record(data: &'a [u8], number: usize) -> Result<Self, Refusal> {
        let read = Self::asked(data, |slots, answer| {
            // SAFETY: data's own pointer and length; slots and answer are lent for the call.
            unsafe { sys::vindaskot_chain_record(data.as_ptr(), data.len(), number, slots, answer) }
        });
        Ok(read?.0)
    }

    /// The same in a mode.
    ///
    /// # Errors
    ///
    /// Those of [`parse_chain_in`](Self::parse_chain_in), then [`NoSuchNumber`](crate::RefusalKind::NoSuchNumber).
    pub fn chain_record_in(data: &'a [u8], number: usize, mode: Mode) -> Result<Self, Refusal> {
        let read = Self::asked(data, |slots, answer| {
            // SAFETY: data's own pointer and length; slots and answer are lent for the call.
            unsafe {
                sys::vindaskot_chain_record_in(
                    data.as_ptr(),
                    data.len(),
                    mode.is_checked(),
                    number,
                    slots,
                    answer,
                )
            }
        });
        Ok(read?.0)
    }

    /// Writes the record from `out[0]` on and answers its length.
    ///
    /// `has_next` says whether another follows. The follower bit is also written where the count has it, so a record
    /// that was read before another is not one to put last.
    ///
    /// # Errors
    ///
    /// [`TooLong`](crate::RefusalKind::TooLong), [`OutputTooSmall`](crate::RefusalKind::OutputTooSmall).
    pub fn write_with_next(&self, has_next: bool, out: &mut [u8]) -> Result<usize, Refusal> {
        let mut answer = [0; 2];
        // SAFETY: each pointer stands with its slice's own length; out is borrowed alone, so it overlaps none.
        let status = unsafe {
            sys::vindaskot_refactor_write(
                self.refactor_count,
                has_next,
                self.name.as_ptr(),
                self.name.len(),
                out.as_mut_ptr(),
                out.len(),
                &mut answer,
            )
        };
        Ok(done(status, answer)?[0])
    }

    /// The length of the record written.
    ///
    /// # Errors
    ///
    /// [`TooLong`](crate::RefusalKind::TooLong).
    pub fn wire_size(&self) -> Result<usize, Refusal> {
        needed(|out| self.write_with_next(false, out))
    }

    /// Writes a block of records with its count in front, as 2 bytes, and answers the length.
    ///
    /// # Errors
    ///
    /// [`TooLong`](crate::RefusalKind::TooLong), [`BadBlock`](crate::RefusalKind::BadBlock),
    /// [`TooLarge`](crate::RefusalKind::TooLarge), [`OutputTooSmall`](crate::RefusalKind::OutputTooSmall).
    pub fn write_entries(entries: Block<'_>, out: &mut [u8]) -> Result<usize, Refusal> {
        let Block { count, bytes } = entries;
        let mut answer = [0; 2];
        // SAFETY: each pointer stands with its slice's own length; out is borrowed alone, so it overlaps none.
        let status = unsafe {
            sys::vindaskot_refactor_block_write(
                count,
                bytes.as_ptr(),
                bytes.len(),
                out.as_mut_ptr(),
                out.len(),
                &mut answer,
            )
        };
        Ok(done(status, answer)?[0])
    }

    /// The record written.
    ///
    /// # Errors
    ///
    /// [`TooLong`](crate::RefusalKind::TooLong).
    #[cfg(feature = "alloc")]
    pub fn to_vec_with_next(&self, has_next: bool) -> Result<Vec<u8>, Refusal> {
        crate::told::filled(|out| self.write_with_next(has_next, out))
    }

    /// The records written as a chain, a follower after each but the last, with their count in front.
    ///
    /// # Errors
    ///
    /// [`TooLong`](crate::RefusalKind::TooLong), [`BadBlock`](crate::RefusalKind::BadBlock),
    /// [`TooLarge`](crate::RefusalKind::TooLarge).
    #[cfg(feature = "alloc")]
    pub fn entries_to_vec(entries: &[Self]) -> Result<Vec<u8>, Refusal> {
        let mut chain = Vec::new();
        for (number, entry) in entries.iter().enumerate() {
            chain.extend(entry.to_vec_with_next(number + 1 < entries.len())?);
        }
        let block = Block {
            count: entries.len(),
            bytes: &chain,
        };
        crate::told::filled(|out| Self::write_entries(block, out))
    }
}

impl<'a> TryFrom<&'a [u8]> for AdsRefactorInfo<'a> {
    type Error = Refusal;

    fn try_from(data: &'a [u8]) -> Result<Self, Refusal> {
        Ok(Self::try_from_slice(data)?.0)
    }
}

/// The name as text.
impl fmt::Debug for AdsRefactorInfo<'_> {
    fn fmt(&self, f: &mut fmt::Formatter<'_>) -> fmt::Result {
        let mut told = f.debug_struct("AdsRefactorInfo");
        told.field("refactor_count", &self.refactor_count);
        told.field("next_refactor_info", &self.next_refactor_info);
        told.field("name", &self.name().map(Text)).finish()
    }
}

/// The refactor records of a chain, in order.
#[derive(Clone)]
pub struct AdsRefactorInfos<'a> {
    rest: &'a [u8],
    left: usize,
}

impl<'a> AdsRefactorInfos<'a> {
    /// `left` records at the start of `rest`, which a reading has counted.
    pub(crate) fn new(rest: &'a [u8], left: usize) -> Self {
        Self { rest, left }
    }
}

/// The records that are left.
impl fmt::Debug for AdsRefactorInfos<'_> {
    fn fmt(&self, f: &mut fmt::Formatter<'_>) -> fmt::Result {
        f.debug_list().entries(self.clone()).finish()
    }
}

impl<'a> Iterator for AdsRefactorInfos<'a> {
    type Item = AdsRefactorInfo<'a>;

    fn next(&mut self) -> Option<Self::Item> {
        let left = self.left.checked_sub(1)?;
        // The chain's reading counts the records that this reading accepts, so none of them is refused.
        let (info, next) = AdsRefactorInfo::try_from_slice(self.rest).ok()?;
        self.rest = &self.rest[next..];
        self.left = left;
        Some(info)
    }

    fn size_hint(&self) -> (usize, Option<usize>) {
        (self.left, Some(self.left))
    }
}

impl ExactSizeIterator for AdsRefactorInfos<'_> {}

impl FusedIterator for AdsRefactorInfos<'_> {}

/// Writes refactor records one after another into a lent buffer, for the [`Block`] of a symbol.
#[derive(Debug)]
pub struct RefactorWriter<'o>(Filling<'o>);

impl<'o> RefactorWriter<'o> {
    /// Begins at the start of `out`.
    pub fn new(out: &'o mut [u8]) -> Self {
        Self(Filling::new(out))
    }

    /// Adds a record; `has_next` is true for all but the last. A refused one changes nothing; the figures of 6 are of
    /// the room that is left.
    ///
    /// # Errors
    ///
    /// [`TooLong`](crate::RefusalKind::TooLong), [`OutputTooSmall`](crate::RefusalKind::OutputTooSmall).
    pub fn push(&mut self, info: &AdsRefactorInfo<'_>, has_next: bool) -> Result<(), Refusal> {
        self.0.push(|out| info.write_with_next(has_next, out))
    }

    /// The records written.
    pub fn into_block(self) -> Block<'o> {
        self.0.into_block()
    }
}
