//! What can be kept of a damaged upload: its accepted symbols as a new upload, and a list of what was dropped.

#[cfg(feature = "alloc")]
use alloc::{vec, vec::Vec};
use core::fmt;
use core::iter::FusedIterator;
use core::ops::Range;

use crate::mode::Mode;
use crate::refusal::{Refusal, RefusalKind};
use crate::sys;
use crate::told::done;

/// A part of a damaged upload that was dropped: one refused step of the walk.
///
/// Two refused entries side by side are two runs. A run is as long as its entry claims. It goes to the end of the
/// upload where the claim leaves it (3), where fewer than 4 bytes are left (2), and at a claim of 0 (10), behind which
/// nothing is looked at.
#[derive(Debug, Clone, Copy, PartialEq, Eq, PartialOrd, Ord, Hash)]
pub struct Run {
    /// Where it starts in the damaged upload.
    pub start: usize,
    /// Its bytes, at least one.
    pub length: usize,
    /// The number of the refusal: 2, 3, 10, or in the [checked mode](Mode::Checked) 16.
    pub number: u32,
}

impl Run {
    fn told(slots: &[u32; sys::RUN_SLOTS]) -> Self {
        Self {
            start: slots[sys::RUN_START] as usize,
            length: slots[sys::RUN_LENGTH] as usize,
            number: slots[sys::RUN_NUMBER],
        }
    }

    /// Where it stands in the damaged upload.
    pub const fn range(&self) -> Range<usize> {
        self.start..self.start + self.length
    }

    /// Why it was dropped, or `None` for a number that stands for no refusal.
    pub fn kind(&self) -> Option<RefusalKind> {
        let Self { number, .. } = *self;
        let (expected, got) = (0, 0);
        Refusal {
            number,
            expected,
            got,
        }
        .kind()
    }
}

/// The dropped runs, in order.
#[derive(Clone)]
pub struct Runs<'s> {
    slots: &'s [u32],
}

impl Iterator for Runs<'_> {
    type Item = Run;

    fn next(&mut self) -> Option<Run> {
        let (first, rest) = self.slots.split_first_chunk()?;
        self.slots = rest;
        Some(Run::told(first))
    }

    fn size_hint(&self) -> (usize, Option<usize>) {
        let left = self.slots.len() / sys::RUN_SLOTS;
        (left, Some(left))
    }
}

impl ExactSizeIterator for Runs<'_> {}

impl FusedIterator for Runs<'_> {}

impl fmt::Debug for Runs<'_> {
    fn fmt(&self, f: &mut fmt::Formatter<'_>) -> fmt::Result {
        f.debug_list().entries(self.clone()).finish()
    }
}

/// What was kept and what was dropped, in lent buffers.
#[derive(Clone, Copy, PartialEq, Eq, Hash)]
pub struct Salvage<'o, 's> {
    upload: &'o [u8],
    slots: &'s [u32],
}

impl<'o, 's> Salvage<'o, 's> {
    fn told(out: &'o [u8], runs: &'s [u32], [bytes, slots]: [usize; 2]) -> Self {
        Self {
            upload: &out[..bytes],
            slots: &runs[..slots],
        }
    }

    /// The new upload: every accepted symbol, unchanged and in order. A walk over it is never refused.
    pub const fn upload(&self) -> &'o [u8] {
        self.upload
    }

    /// What was dropped. With the entries of [`upload`](Self::upload) it makes up the damaged upload, each byte once.
    pub const fn runs(&self) -> Runs<'s> {
        Runs { slots: self.slots }
    }
}

impl fmt::Debug for Salvage<'_, '_> {
    fn fmt(&self, f: &mut fmt::Formatter<'_>) -> fmt::Result {
        let mut shown = f.debug_struct("Salvage");
        shown.field("upload", &self.upload);
        shown.field("runs", &self.runs()).finish()
    }
}

/// Copies every accepted symbol of a damaged upload to `out`, from its start on, and lists in `runs` what is dropped.
/// What stands behind either in its buffer is as it was.
///
/// An `out` as long as `data` is always enough, and then 6 is about the slots, of which a run takes three. Where nothing
/// is dropped none is needed.
///
/// ```
/// use vindaskot::{AdsSymbolInfoIterator, Refusal, Run, SymbolNumbers, SymbolParts, salvage};
///
/// fn main() -> Result<(), Refusal> {
///     let parts = SymbolParts { name: b"MAIN.fZoom", ..Default::default() };
///     let mut damaged = [0; 90];
///     let length = SymbolNumbers::default().write(&parts, &mut damaged)?;
///     // Behind the symbol: one that claims 29 bytes, less than a header, and 18 zeros.
///     damaged[length] = 29;
///     let (mut out, mut runs) = ([0; 90], [0; 6]);
///     let salvaged = salvage(&damaged, &mut out, &mut runs)?;
///     assert_eq!(salvaged.upload(), &damaged[..length]);
///     let dropped = [
///         Run { start: 43, length: 29, number: 2 },
///         Run { start: 72, length: 18, number: 10 },
///     ];
///     assert!(salvaged.runs().eq(dropped));
///     assert!(AdsSymbolInfoIterator::new(salvaged.upload()).all(|entry| entry.is_ok()));
///     Ok(())
/// }
/// ```
///
/// # Errors
///
/// [`TooLarge`](crate::RefusalKind::TooLarge), [`OutputTooSmall`](crate::RefusalKind::OutputTooSmall) for `out`
/// (bytes), [`OutputTooSmall`](crate::RefusalKind::OutputTooSmall) for `runs` (slots).
pub fn salvage<'o, 's>(
    data: &[u8],
    out: &'o mut [u8],
    runs: &'s mut [u32],
) -> Result<Salvage<'o, 's>, Refusal> {
    let written = fill(data, out, runs)?;
    Ok(Salvage::told(out, runs, written))
}

/// The same in a mode: in the checked one a symbol with an end byte that is not 0 is dropped too, under 16.
pub fn salvage_in<'o, 's>(
    data: &[u8],
    out: &'o mut [u8],
    runs: &'s mut [u32],
    mode: Mode,
) -> Result<Salvage<'o, 's>, Refusal> {
    let written = fill_in(data, out, runs, mode)?;
    Ok(Salvage::told(out, runs, written))
}

/// How many bytes and how many slots were written.
fn fill(data: &[u8], out: &mut [u8], runs: &mut [u32]) -> Result<[usize; 2], Refusal> {
    let mut answer = [0; 2];
    // SAFETY: each pointer stands with its slice's own length; out and runs are each borrowed alone, so they overlap
    // nothing.
    let status = unsafe {
        sys::vindaskot_salvage(
            data.as_ptr(),
            data.len(),
            out.as_mut_ptr(),
            out.len(),
            runs.as_mut_ptr(),
            runs.len(),
            &mut answer,
        )
    };
    done(status, answer)
}

fn fill_in(
    data: &[u8],
    out: &mut [u8],
    runs: &mut [u32],
    mode: Mode,
) -> Result<[usize; 2], Refusal> {
    let mut answer = [0; 2];
    // SAFETY: each pointer stands with its slice's own length; out and runs are each borrowed alone, so they overlap
    // nothing.
    let status = unsafe {
        sys::vindaskot_salvage_in(
            data.as_ptr(),
            data.len(),
            mode.is_checked(),
            out.as_mut_ptr(),
            out.len(),
            runs.as_mut_ptr(),
            runs.len(),
            &mut answer,
        )
    };
    done(status, answer)
}

/// What was kept of a damaged upload, and what was dropped.
#[cfg(feature = "alloc")]
#[derive(Debug, Clone, Default, PartialEq, Eq, Hash)]
pub struct Salvaged {
    /// The new upload: every accepted symbol, unchanged and in order. A walk over it is never refused.
    pub upload: Vec<u8>,
    /// What was dropped, in order. With the entries of `upload` it makes up the damaged upload, each byte once.
    pub runs: Vec<Run>,
}

/// What can be kept of a damaged upload, and what was dropped.
///
/// # Errors
///
/// [`TooLarge`](crate::RefusalKind::TooLarge).
#[cfg(feature = "alloc")]
pub fn salvage_to_vec(data: &[u8]) -> Result<Salvaged, Refusal> {
    salvaged(data, |out, runs| fill(data, out, runs))
}

/// The same in a mode.
#[cfg(feature = "alloc")]
pub fn salvage_to_vec_in(data: &[u8], mode: Mode) -> Result<Salvaged, Refusal> {
    salvaged(data, |out, runs| fill_in(data, out, runs, mode))
}

/// The upload's own length is always enough for what is kept, so that lent no slots the call tells how many it needs.
#[cfg(feature = "alloc")]
fn salvaged(
    data: &[u8],
    fill: impl Fn(&mut [u8], &mut [u32]) -> Result<[usize; 2], Refusal>,
) -> Result<Salvaged, Refusal> {
    let mut upload = vec![0; data.len().min(crate::LIMIT)];
    let (written, slots) = match fill(&mut upload, &mut []) {
        Err(why) if why.is(RefusalKind::OutputTooSmall) => {
            let mut slots = vec![0; why.expected];
            (fill(&mut upload, &mut slots)?, slots)
        }
        other => (other?, Vec::new()),
    };
    let runs = Salvage::told(&upload, &slots, written).runs().collect();
    upload.truncate(written[0]);
    upload.shrink_to_fit();
    Ok(Salvaged { upload, runs })
}
