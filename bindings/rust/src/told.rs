//! What the calls' numbers become: a `Result`, a part of the caller's bytes, the room that a writer asks for.

#[cfg(feature = "alloc")]
use alloc::{vec, vec::Vec};

use crate::refusal::{Refusal, RefusalKind};
use crate::sys;

#[cfg(not(target_pointer_width = "64"))]
compile_error!("places and figures are told in 64 bits and used as usize");

/// The two figures of a call that did what it is for, or its refusal.
pub(crate) fn done(status: u32, answer: [u64; 2]) -> Result<[usize; 2], Refusal> {
    match status {
        sys::DONE => Ok(answer.map(|figure| figure as usize)),
        _ => Err(refused(status, answer)),
    }
}

pub(crate) fn refused(status: u32, answer: [u64; 2]) -> Refusal {
    Refusal {
        number: status,
        expected: answer[0] as usize,
        got: answer[1] as usize,
    }
}

/// The part of some bytes that a place and a length tell.
pub(crate) fn part(bytes: &[u8], place: u64, len: u64) -> &[u8] {
    &bytes[place as usize..][..len as usize]
}

/// What stands from a place on: nothing past the end, where older archives of this interface tell the place of a list that is absent.
pub(crate) fn rest_from(bytes: &[u8], place: u64) -> &[u8] {
    bytes.get(place as usize..).unwrap_or_default()
}

/// How much room a writer needs: lent none, it is refused with that figure unless it has nothing to write.
pub(crate) fn needed<T>(
    write: impl FnOnce(&mut [T]) -> Result<usize, Refusal>,
) -> Result<usize, Refusal> {
    match write(&mut []) {
        Err(why) if why.is(RefusalKind::OutputTooSmall) => Ok(why.expected),
        other => other,
    }
}

/// What a writer writes, and no more, in just the room that it needs.
#[cfg(feature = "alloc")]
pub(crate) fn filled<T: Copy + Default>(
    write: impl Fn(&mut [T]) -> Result<usize, Refusal>,
) -> Result<Vec<T>, Refusal> {
    let mut out = vec![T::default(); needed(&write)?];
    let written = write(&mut out)?;
    out.truncate(written);
    Ok(out)
}
