//! The index of an upload, and finding a symbol by name.

#[cfg(feature = "alloc")]
use alloc::{vec, vec::Vec};
use core::iter::FusedIterator;
use core::slice;

use crate::calls;
use crate::mode::Mode;
use crate::refusal::Refusal;
use crate::sys;
use crate::told::{done, needed};

/// Where the accepted symbols of an upload start, in order, in lent slots.
#[derive(Debug, Clone, Copy, PartialEq, Eq, Hash)]
pub struct Index<'s> {
    starts: &'s [u32],
}

impl<'s> Index<'s> {
    /// Stores the start of every accepted symbol of `data` in `slots`.
    ///
    /// # Errors
    ///
    /// [`TooLarge`](crate::RefusalKind::TooLarge), [`ZeroEntryLength`](crate::RefusalKind::ZeroEntryLength),
    /// [`OutputTooSmall`](crate::RefusalKind::OutputTooSmall); not
    /// [`OutputTooSmall`](crate::RefusalKind::OutputTooSmall) where there are as many slots as [`room`] tells for the
    /// length of `data`.
    pub fn build(data: &[u8], slots: &'s mut [u32]) -> Result<Self, Refusal> {
        let used = fill(data, slots)?;
        let starts = &slots[..used];
        Ok(Self { starts })
    }

    /// The same in a mode: in the checked one a symbol that is refused for an end byte is not stored.
    pub fn build_in(data: &[u8], slots: &'s mut [u32], mode: Mode) -> Result<Self, Refusal> {
        let used = fill_in(data, slots, mode)?;
        let starts = &slots[..used];
        Ok(Self { starts })
    }

    /// An index over starts that were stored before. A start where `find`'s upload has no accepted symbol is passed
    /// over.
    pub const fn over(starts: &'s [u32]) -> Self {
        Self { starts }
    }

    /// The starts.
    pub const fn starts(&self) -> &'s [u32] {
        self.starts
    }

    /// How many symbols it has.
    pub const fn len(&self) -> usize {
        self.starts.len()
    }

    /// Whether it has none.
    pub const fn is_empty(&self) -> bool {
        self.starts.is_empty()
    }

    /// Where each symbol starts, in order.
    pub fn iter(&self) -> Starts<'s> {
        Starts(self.starts.iter())
    }

    /// Where the first symbol of that name starts in `data`, by the starts in order. Names are compared as [`find`]
    /// compares them.
    ///
    /// # Errors
    ///
    /// [`TooLarge`](crate::RefusalKind::TooLarge), [`NameNotFound`](crate::RefusalKind::NameNotFound).
    pub fn find(&self, data: &[u8], name: impl AsRef<[u8]>) -> Result<usize, Refusal> {
        let name = name.as_ref();
        let starts = self.starts;
        let mut answer = [0; 2];
        // SAFETY: each pointer stands with its slice's own length; answer is lent for the call.
        let status = unsafe {
            sys::vindaskot_find_indexed(
                data.as_ptr(),
                data.len(),
                starts.as_ptr(),
                starts.len(),
                name.as_ptr(),
                name.len(),
                &mut answer,
            )
        };
        Ok(done(status, answer)?[0])
    }

    /// The same in a mode: in the checked one a symbol that is refused for an end byte is passed over, also where the
    /// starts were stored in the present one.
    pub fn find_in(
        &self,
        data: &[u8],
        name: impl AsRef<[u8]>,
        mode: Mode,
    ) -> Result<usize, Refusal> {
        calls::find_through(
            sys::vindaskot_find_indexed_in,
            data,
            mode,
            self.starts,
            name.as_ref(),
        )
    }
}

impl<'s> IntoIterator for Index<'s> {
    type Item = usize;
    type IntoIter = Starts<'s>;

    fn into_iter(self) -> Starts<'s> {
        self.iter()
    }
}

impl<'s> IntoIterator for &Index<'s> {
    type Item = usize;
    type IntoIter = Starts<'s>;

    fn into_iter(self) -> Starts<'s> {
        self.iter()
    }
}

/// Where each entry of an index starts, in its order.
#[derive(Debug, Clone)]
pub struct Starts<'s>(pub(crate) slice::Iter<'s, u32>);

impl Iterator for Starts<'_> {
    type Item = usize;

    fn next(&mut self) -> Option<usize> {
        Some(*self.0.next()? as usize)
    }

    fn size_hint(&self) -> (usize, Option<usize>) {
        self.0.size_hint()
    }
}

impl DoubleEndedIterator for Starts<'_> {
    fn next_back(&mut self) -> Option<usize> {
        Some(*self.0.next_back()? as usize)
    }
}

impl ExactSizeIterator for Starts<'_> {}

impl FusedIterator for Starts<'_> {}

fn fill(data: &[u8], slots: &mut [u32]) -> Result<usize, Refusal> {
    let mut answer = [0; 2];
    // SAFETY: each pointer stands with its slice's own length; slots is borrowed alone, so it overlaps nothing.
    let status = unsafe {
        sys::vindaskot_index_build(
            data.as_ptr(),
            data.len(),
            slots.as_mut_ptr(),
            slots.len(),
            &mut answer,
        )
    };
    Ok(done(status, answer)?[0])
}

fn fill_in(data: &[u8], slots: &mut [u32], mode: Mode) -> Result<usize, Refusal> {
    calls::build(sys::vindaskot_index_build_in, data, mode, slots)
}

/// [`room`] of the largest upload, for slots that are set aside once for all uploads.
pub const ROOM_MOST: usize = sys::ROOM_MOST;

/// How many slots the index of an upload of that length can need, so that they can be set aside before it is read: one
/// for every 33 bytes, rounded down. Lent that many or more, [`Index::build`] and [`Index::build_in`] are never refused
/// with 6, in either mode and whatever the bytes are; 5 and 10 stay. No smaller number will do: some upload of that
/// length needs all of them.
///
/// How many an upload that is there needs, [`slots_needed`] tells, which walks it.
///
/// ```
/// use vindaskot::{Index, Refusal, SymbolNumbers, SymbolParts, room};
///
/// fn main() -> Result<(), Refusal> {
///     // Set aside for uploads of at most 132 bytes. Then one comes, two symbols in 86 bytes.
///     let mut slots = [0; 4];
///     assert_eq!(room(132)?, slots.len());
///     let mut upload = [0; 86];
///     for (name, place) in [(b"MAIN.fZoom", 0), (b"MAIN.fIris", 43)] {
///         let parts = SymbolParts { name, ..Default::default() };
///         SymbolNumbers::default().write(&parts, &mut upload[place..])?;
///     }
///     let index = Index::build(&upload, &mut slots)?;
///     assert_eq!(index.starts(), [0, 43]);
///     Ok(())
/// }
/// ```
///
/// # Errors
///
/// [`TooLarge`](crate::RefusalKind::TooLarge).
pub fn room(length: usize) -> Result<usize, Refusal> {
    let mut answer = [0; 2];
    // SAFETY: the call takes a number; answer is lent for it.
    let status = unsafe { sys::vindaskot_room(length, &mut answer) };
    Ok(done(status, answer)?[0])
}

/// How many slots the index of an upload needs.
///
/// # Errors
///
/// [`TooLarge`](crate::RefusalKind::TooLarge), [`ZeroEntryLength`](crate::RefusalKind::ZeroEntryLength).
pub fn slots_needed(data: &[u8]) -> Result<usize, Refusal> {
    needed(|slots| fill(data, slots))
}

/// The same in a mode, as [`Index::build_in`] asks for them.
pub fn slots_needed_in(data: &[u8], mode: Mode) -> Result<usize, Refusal> {
    needed(|slots| fill_in(data, slots, mode))
}

/// The starts of an upload's accepted symbols, for [`Index::over`].
///
/// # Errors
///
/// [`TooLarge`](crate::RefusalKind::TooLarge), [`ZeroEntryLength`](crate::RefusalKind::ZeroEntryLength).
#[cfg(feature = "alloc")]
pub fn starts_to_vec(data: &[u8]) -> Result<Vec<u32>, Refusal> {
    starts_of(data.len(), |slots| fill(data, slots))
}

/// The same in a mode.
#[cfg(feature = "alloc")]
pub fn starts_to_vec_in(data: &[u8], mode: Mode) -> Result<Vec<u32>, Refusal> {
    starts_of(data.len(), |slots| fill_in(data, slots, mode))
}

/// What is stored in slots that are set aside for an upload of a length. An index seldom needs all of its room: that of
/// a rig of 9,000 symbols, 150 bytes each, takes 36 of 164 KB. The rest is given back, since starts are kept for as long
/// as names are looked for; beside the 57 microseconds of the index that took no time that could be measured.
#[cfg(feature = "alloc")]
fn starts_of(
    length: usize,
    store: impl FnOnce(&mut [u32]) -> Result<usize, Refusal>,
) -> Result<Vec<u32>, Refusal> {
    let mut starts = vec![0; room(length)?];
    let used = store(&mut starts)?;
    starts.truncate(used);
    starts.shrink_to_fit();
    Ok(starts)
}

/// Where the first accepted symbol of that name starts, without an index. A match before a zero claim is answered.
///
/// A to Z equal a to z; every other byte, accented letters too, equals only itself. Of symbols whose names differ in
/// case alone the first is answered, also where a later one has the very bytes asked. The symbol's own name, as it was
/// sent, is [`name`](crate::AdsSymbolInfo::name) of what is read there.
///
/// # Errors
///
/// [`TooLarge`](crate::RefusalKind::TooLarge), [`ZeroEntryLength`](crate::RefusalKind::ZeroEntryLength),
/// [`NameNotFound`](crate::RefusalKind::NameNotFound).
pub fn find(data: &[u8], name: impl AsRef<[u8]>) -> Result<usize, Refusal> {
    let name = name.as_ref();
    let mut answer = [0; 2];
    // SAFETY: each pointer stands with its slice's own length; answer is lent for the call.
    let status = unsafe {
        sys::vindaskot_find(
            data.as_ptr(),
            data.len(),
            name.as_ptr(),
            name.len(),
            &mut answer,
        )
    };
    Ok(done(status, answer)?[0])
}

/// The same in a mode: in the checked one a symbol that is refused for an end byte is passed over.
pub fn find_in(data: &[u8], name: impl AsRef<[u8]>, mode: Mode) -> Result<usize, Refusal> {
    calls::find_first(sys::vindaskot_find_in, data, mode, name.as_ref())
}
