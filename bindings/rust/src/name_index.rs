//! The name index of an upload: its entries in the order of their names, finding by halving, and all under a branch.

use core::iter::FusedIterator;
use core::marker::PhantomData;
use core::slice;

#[cfg(feature = "alloc")]
use alloc::{vec, vec::Vec};

use crate::calls;
use crate::data_type::DataType;
use crate::index::Starts;
#[cfg(feature = "alloc")]
use crate::index::room;
use crate::mode::Mode;
use crate::refusal::Refusal;
use crate::symbol::AdsSymbolInfo;
use crate::sys;
use crate::told::{done, needed};

type Branch = unsafe extern "C" fn(
    *const u8,
    usize,
    bool,
    *const u32,
    usize,
    *const u8,
    usize,
    *mut u32,
    usize,
    &mut [u64; 2],
) -> u32;

mod sealed {
    /// The calls of a kind of entry.
    pub trait Calls {
        const BUILD: crate::calls::Build;
        const FIND: crate::calls::FindThrough;
        const BRANCH: super::Branch;
        const BRANCH_ORDERED: super::Branch;
    }
}

use sealed::Calls;

/// An entry that is found by its name: a symbol, or a data type of the type upload.
pub trait Named: Calls {
    /// Such an entry of some bytes.
    type Of<'a>;

    /// Reads the entry at the start of `data` in a mode.
    ///
    /// # Errors
    ///
    /// Those of the kind's own `try_from_slice_in`.
    fn read_in(data: &[u8], mode: Mode) -> Result<Self::Of<'_>, Refusal>;
}

impl Named for AdsSymbolInfo<'_> {
    type Of<'a> = AdsSymbolInfo<'a>;

    fn read_in(data: &[u8], mode: Mode) -> Result<Self::Of<'_>, Refusal> {
        AdsSymbolInfo::try_from_slice_in(data, mode)
    }
}

impl Calls for AdsSymbolInfo<'_> {
    const BUILD: calls::Build = sys::vindaskot_name_index_build_in;
    const FIND: calls::FindThrough = sys::vindaskot_find_ordered_in;
    const BRANCH: Branch = sys::vindaskot_branch_in;
    const BRANCH_ORDERED: Branch = sys::vindaskot_branch_ordered_in;
}

impl Named for DataType<'_> {
    type Of<'a> = DataType<'a>;

    fn read_in(data: &[u8], mode: Mode) -> Result<Self::Of<'_>, Refusal> {
        DataType::try_from_slice_in(data, mode)
    }
}

impl Calls for DataType<'_> {
    const BUILD: calls::Build = sys::vindaskot_type_name_index_build_in;
    const FIND: calls::FindThrough = sys::vindaskot_type_find_ordered_in;
    const BRANCH: Branch = sys::vindaskot_type_branch_in;
    const BRANCH_ORDERED: Branch = sys::vindaskot_type_branch_ordered_in;
}

/// Where the accepted entries of an upload start, in the order of their names, with the upload.
///
/// A to Z equal a to z, a name goes before a longer one that begins with it, and of entries of one name the first in the
/// upload goes first. So 9,000 names are found with some 13 comparisons each, and all that stand below a branch are
/// neighbours.
///
/// ```
/// use vindaskot::{AdsSymbolInfo, Mode, NameIndex, Refusal, SymbolNumbers, SymbolParts};
///
/// fn main() -> Result<(), Refusal> {
///     let mut upload = [0; 86];
///     for (name, place) in [(b"MAIN.fZoom", 0), (b"MAIN.fIris", 43)] {
///         let parts = SymbolParts { name, ..Default::default() };
///         SymbolNumbers::default().write(&parts, &mut upload[place..])?;
///     }
///     let mut slots = [0; 2];
///     let index = NameIndex::<AdsSymbolInfo>::build(&upload, Mode::Present, &mut slots)?;
///     assert_eq!(index.starts(), [43, 0]);
///     assert_eq!(index.find(b"main.fzoom")?, 0);
///     let mut found = [0; 2];
///     assert_eq!(index.branch(b"MAIN.", &mut found)?, [43, 0]);
///     Ok(())
/// }
/// ```
#[derive(Debug)]
pub struct NameIndex<'a, 's, E> {
    data: &'a [u8],
    mode: Mode,
    starts: &'s [u32],
    kind: PhantomData<fn() -> E>,
}

impl<E> Clone for NameIndex<'_, '_, E> {
    fn clone(&self) -> Self {
        *self
    }
}

impl<E> Copy for NameIndex<'_, '_, E> {}

impl<'a, 's, E: Named> NameIndex<'a, 's, E> {
    /// Stores the start of every accepted entry of `data` in `slots`, in the order of their names.
    ///
    /// # Errors
    ///
    /// [`TooLarge`](crate::RefusalKind::TooLarge), [`ZeroEntryLength`](crate::RefusalKind::ZeroEntryLength),
    /// [`OutputTooSmall`](crate::RefusalKind::OutputTooSmall); for symbols not
    /// [`OutputTooSmall`](crate::RefusalKind::OutputTooSmall) where there are as many slots as [`room`](crate::index::room())
    /// tells for the length of `data`.
    pub fn build(data: &'a [u8], mode: Mode, slots: &'s mut [u32]) -> Result<Self, Refusal> {
        let used = fill::<E>(data, mode, slots)?;
        Ok(Self::over(data, mode, &slots[..used]))
    }

    /// A name index of starts that were stored before. A start where `data` has no accepted entry is passed over. Where
    /// the starts are not in the order of the names, what is found has the name, and some that have it may not be found.
    pub const fn over(data: &'a [u8], mode: Mode, starts: &'s [u32]) -> Self {
        Self {
            data,
            mode,
            starts,
            kind: PhantomData,
        }
    }

    /// The upload.
    pub const fn data(&self) -> &'a [u8] {
        self.data
    }

    /// How its entries are read.
    pub const fn mode(&self) -> Mode {
        self.mode
    }

    /// The starts, in the order of the names.
    pub const fn starts(&self) -> &'s [u32] {
        self.starts
    }

    /// How many entries it has.
    pub const fn len(&self) -> usize {
        self.starts.len()
    }

    /// Whether it has none.
    pub const fn is_empty(&self) -> bool {
        self.starts.is_empty()
    }

    /// Where each entry starts, in the order of the names.
    pub fn iter(&self) -> Starts<'s> {
        Starts(self.starts.iter())
    }

    /// Where the first entry of that name in the upload starts, by halving.
    ///
    /// # Errors
    ///
    /// [`TooLarge`](crate::RefusalKind::TooLarge), [`NameNotFound`](crate::RefusalKind::NameNotFound).
    pub fn find(&self, name: impl AsRef<[u8]>) -> Result<usize, Refusal> {
        calls::find_through(E::FIND, self.data, self.mode, self.starts, name.as_ref())
    }

    /// Stores in `out` where the entries start whose names begin with a text, in the order of the names, by halving,
    /// and gives them. The empty text's branch is every entry.
    ///
    /// # Errors
    ///
    /// [`TooLarge`](crate::RefusalKind::TooLarge), [`OutputTooSmall`](crate::RefusalKind::OutputTooSmall).
    pub fn branch<'o>(
        &self,
        text: impl AsRef<[u8]>,
        out: &'o mut [u32],
    ) -> Result<&'o [u32], Refusal> {
        let used = ask(
            E::BRANCH_ORDERED,
            self.data,
            self.mode,
            self.starts,
            text.as_ref(),
            out,
        )?;
        Ok(&out[..used])
    }

    /// How many entries the branch has.
    ///
    /// # Errors
    ///
    /// [`TooLarge`](crate::RefusalKind::TooLarge).
    pub fn branch_len(&self, text: impl AsRef<[u8]>) -> Result<usize, Refusal> {
        let text = text.as_ref();
        needed(|out| {
            ask(
                E::BRANCH_ORDERED,
                self.data,
                self.mode,
                self.starts,
                text,
                out,
            )
        })
    }

    /// The same as [`branch`](Self::branch), in a `Vec` of just the room.
    ///
    /// # Errors
    ///
    /// [`TooLarge`](crate::RefusalKind::TooLarge).
    #[cfg(feature = "alloc")]
    pub fn branch_to_vec(&self, text: impl AsRef<[u8]>) -> Result<Vec<u32>, Refusal> {
        let text = text.as_ref();
        let mut out = vec![0; self.branch_len(text)?];
        self.branch(text, &mut out)?;
        Ok(out)
    }
}

impl<'s, E: Named> IntoIterator for NameIndex<'_, 's, E> {
    type Item = usize;
    type IntoIter = Starts<'s>;

    fn into_iter(self) -> Starts<'s> {
        self.iter()
    }
}

impl<'s, E: Named> IntoIterator for &NameIndex<'_, 's, E> {
    type Item = usize;
    type IntoIter = Starts<'s>;

    fn into_iter(self) -> Starts<'s> {
        self.iter()
    }
}

/// An upload with the name index of its entries: what is found by a name is the entry itself.
///
/// `D` holds the upload and `S` the starts, as slices, arrays and vectors do; with `alloc`, `SymbolIndex` and
/// `TypeIndex` own them.
///
/// ```
/// use vindaskot::{AdsSymbolInfo, HeldIndex, Mode, Refusal, SymbolNumbers, SymbolParts};
///
/// fn main() -> Result<(), Refusal> {
///     let mut upload = [0; 86];
///     for (name, place) in [(b"MAIN.fZoom", 0), (b"MAIN.fIris", 43)] {
///         let parts = SymbolParts { name, ..Default::default() };
///         SymbolNumbers::default().write(&parts, &mut upload[place..])?;
///     }
///     let index = HeldIndex::<AdsSymbolInfo, _, _>::build(upload, Mode::Present, [0; 2])?;
///     assert_eq!(index.find("main.fzoom")?.name(), b"MAIN.fZoom");
///     let names: Vec<_> = index.iter().map(|symbol| symbol.name()).collect();
///     assert_eq!(names, [b"MAIN.fIris", b"MAIN.fZoom"]);
///     Ok(())
/// }
/// ```
#[derive(Debug)]
pub struct HeldIndex<E, D, S> {
    data: D,
    mode: Mode,
    starts: S,
    used: usize,
    kind: PhantomData<fn() -> E>,
}

impl<E, D: Clone, S: Clone> Clone for HeldIndex<E, D, S> {
    fn clone(&self) -> Self {
        Self {
            data: self.data.clone(),
            mode: self.mode,
            starts: self.starts.clone(),
            used: self.used,
            kind: PhantomData,
        }
    }
}

/// A name index of symbols that owns its starts, and the upload where it is given one of its own.
///
/// ```
/// use vindaskot::{Refusal, SymbolIndex, SymbolNumbers, SymbolParts};
///
/// fn main() -> Result<(), Refusal> {
///     let parts = SymbolParts { name: b"MAIN.fZoom", ..Default::default() };
///     let index = SymbolIndex::new(SymbolNumbers::default().to_vec(&parts)?)?;
///     assert_eq!((index.len(), index.find("MAIN.fZoom")?.size()), (1, 0));
///     Ok(())
/// }
/// ```
#[cfg(feature = "alloc")]
pub type SymbolIndex<D = Vec<u8>> = HeldIndex<AdsSymbolInfo<'static>, D, Vec<u32>>;

/// The same of data types.
#[cfg(feature = "alloc")]
pub type TypeIndex<D = Vec<u8>> = HeldIndex<DataType<'static>, D, Vec<u32>>;

#[cfg(feature = "alloc")]
impl<E: Named, D: AsRef<[u8]>> HeldIndex<E, D, Vec<u32>> {
    /// The name index of an upload.
    ///
    /// # Errors
    ///
    /// [`TooLarge`](crate::RefusalKind::TooLarge), [`ZeroEntryLength`](crate::RefusalKind::ZeroEntryLength).
    pub fn new(data: D) -> Result<Self, Refusal> {
        Self::new_in(data, Mode::Present)
    }

    /// The same in a mode: in the checked one an entry that is refused for an end byte is not in it.
    ///
    /// # Errors
    ///
    /// Those of [`new`](Self::new).
    pub fn new_in(data: D, mode: Mode) -> Result<Self, Refusal> {
        let starts = starts_by_name_to_vec::<E>(data.as_ref(), mode)?;
        let used = starts.len();
        Ok(Self {
            data,
            mode,
            starts,
            used,
            kind: PhantomData,
        })
    }
}

impl<E: Named, D: AsRef<[u8]>, S: AsRef<[u32]>> HeldIndex<E, D, S> {
    /// The name index of an upload, whose starts are stored in `slots`.
    ///
    /// # Errors
    ///
    /// Those of [`NameIndex::build`].
    pub fn build(data: D, mode: Mode, mut slots: S) -> Result<Self, Refusal>
    where
        S: AsMut<[u32]>,
    {
        let used = fill::<E>(data.as_ref(), mode, slots.as_mut())?;
        Ok(Self {
            data,
            mode,
            starts: slots,
            used,
            kind: PhantomData,
        })
    }

    /// The index alone, which gives starts.
    pub fn name_index(&self) -> NameIndex<'_, '_, E> {
        NameIndex::over(self.data(), self.mode, self.starts())
    }

    /// The upload.
    pub fn data(&self) -> &[u8] {
        self.data.as_ref()
    }

    /// The starts, in the order of the names.
    pub fn starts(&self) -> &[u32] {
        self.starts.as_ref().get(..self.used).unwrap_or_default()
    }

    /// How many entries it has.
    pub fn len(&self) -> usize {
        self.starts().len()
    }

    /// Whether it has none.
    pub fn is_empty(&self) -> bool {
        self.starts().is_empty()
    }

    /// The first entry of that name in the upload. A to Z equal a to z.
    ///
    /// # Errors
    ///
    /// [`NameNotFound`](crate::RefusalKind::NameNotFound).
    pub fn find(&self, name: impl AsRef<[u8]>) -> Result<E::Of<'_>, Refusal> {
        let index = self.name_index();
        let start = index.find(name)?;
        E::read_in(&index.data[start..], self.mode)
    }

    /// The entries, in the order of the names.
    pub fn iter(&self) -> Entries<'_, E> {
        self.entries(self.starts())
    }

    /// The entries at some of the starts.
    fn entries<'i>(&'i self, starts: &'i [u32]) -> Entries<'i, E> {
        Entries {
            data: self.data(),
            mode: self.mode,
            starts: starts.iter(),
            kind: PhantomData,
        }
    }

    /// The entries whose names begin with a text, in the order of the names, in room that is lent for their starts. The
    /// empty text's branch is every entry.
    ///
    /// # Errors
    ///
    /// [`OutputTooSmall`](crate::RefusalKind::OutputTooSmall).
    pub fn branch<'i>(
        &'i self,
        text: impl AsRef<[u8]>,
        out: &'i mut [u32],
    ) -> Result<Entries<'i, E>, Refusal> {
        let starts = self.name_index().branch(text, out)?;
        Ok(self.entries(starts))
    }
}

impl<'i, E: Named, D: AsRef<[u8]>, S: AsRef<[u32]>> IntoIterator for &'i HeldIndex<E, D, S> {
    type Item = E::Of<'i>;
    type IntoIter = Entries<'i, E>;

    fn into_iter(self) -> Entries<'i, E> {
        self.iter()
    }
}

/// Entries of a [`HeldIndex`], in the order of their names.
#[derive(Debug)]
pub struct Entries<'i, E> {
    data: &'i [u8],
    mode: Mode,
    starts: slice::Iter<'i, u32>,
    kind: PhantomData<fn() -> E>,
}

impl<E> Clone for Entries<'_, E> {
    fn clone(&self) -> Self {
        Self {
            data: self.data,
            mode: self.mode,
            starts: self.starts.clone(),
            kind: PhantomData,
        }
    }
}

impl<'i, E: Named> Entries<'i, E> {
    /// The entry at a start, which building the index has accepted.
    fn read(&self, start: u32) -> Option<E::Of<'i>> {
        E::read_in(self.data.get(start as usize..)?, self.mode).ok()
    }
}

impl<'i, E: Named> Iterator for Entries<'i, E> {
    type Item = E::Of<'i>;

    fn next(&mut self) -> Option<Self::Item> {
        let start = *self.starts.next()?;
        self.read(start)
    }

    fn size_hint(&self) -> (usize, Option<usize>) {
        self.starts.size_hint()
    }
}

impl<E: Named> DoubleEndedIterator for Entries<'_, E> {
    fn next_back(&mut self) -> Option<Self::Item> {
        let start = *self.starts.next_back()?;
        self.read(start)
    }
}

impl<E: Named> ExactSizeIterator for Entries<'_, E> {}

impl<E: Named> FusedIterator for Entries<'_, E> {}

/// Stores in `out` those of any starts at which an entry starts whose name begins with a text, in their own order, and
/// gives them: one that starts no accepted entry is passed over, and one that stands twice is stored twice. Every start
/// is looked at.
///
/// # Errors
///
/// [`TooLarge`](crate::RefusalKind::TooLarge), [`OutputTooSmall`](crate::RefusalKind::OutputTooSmall).
pub fn branch_of<'o, E: Named>(
    data: &[u8],
    mode: Mode,
    starts: &[u32],
    text: impl AsRef<[u8]>,
    out: &'o mut [u32],
) -> Result<&'o [u32], Refusal> {
    let used = ask(E::BRANCH, data, mode, starts, text.as_ref(), out)?;
    Ok(&out[..used])
}

/// The starts of an upload's accepted entries in the order of their names, for [`NameIndex::over`].
///
/// # Errors
///
/// [`TooLarge`](crate::RefusalKind::TooLarge), [`ZeroEntryLength`](crate::RefusalKind::ZeroEntryLength).
#[cfg(feature = "alloc")]
pub fn starts_by_name_to_vec<E: Named>(data: &[u8], mode: Mode) -> Result<Vec<u32>, Refusal> {
    let mut starts = vec![0; room(data.len())?];
    let used = fill::<E>(data, mode, &mut starts)?;
    starts.truncate(used);
    starts.shrink_to_fit();
    Ok(starts)
}

fn fill<E: Named>(data: &[u8], mode: Mode, slots: &mut [u32]) -> Result<usize, Refusal> {
    calls::build(E::BUILD, data, mode, slots)
}

fn ask(
    call: Branch,
    data: &[u8],
    mode: Mode,
    starts: &[u32],
    text: &[u8],
    out: &mut [u32],
) -> Result<usize, Refusal> {
    let mut answer = [0; 2];
    // SAFETY: each pointer stands with its slice's own length; out is borrowed alone, so it overlaps nothing.
    let status = unsafe {
        call(
            data.as_ptr(),
            data.len(),
            mode.is_checked(),
            starts.as_ptr(),
            starts.len(),
            text.as_ptr(),
            text.len(),
            out.as_mut_ptr(),
            out.len(),
            &mut answer,
        )
    };
    Ok(done(status, answer)?[0])
}
