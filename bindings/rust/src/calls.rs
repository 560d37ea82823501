//! The calls that build an index and find in one: one shape for every kind of entry.

use crate::mode::Mode;
use crate::refusal::Refusal;
use crate::told::done;

/// Stores starts of an upload's accepted entries.
pub(crate) type Build =
    unsafe extern "C" fn(*const u8, usize, bool, *mut u32, usize, &mut [u64; 2]) -> u32;

/// Finds a name in an upload.
pub(crate) type FindFirst =
    unsafe extern "C" fn(*const u8, usize, bool, *const u8, usize, &mut [u64; 2]) -> u32;

/// Finds a name through starts.
pub(crate) type FindThrough = unsafe extern "C" fn(
    *const u8,
    usize,
    bool,
    *const u32,
    usize,
    *const u8,
    usize,
    &mut [u64; 2],
) -> u32;

/// How many starts are stored at the front of the slots.
pub(crate) fn build(
    call: Build,
    data: &[u8],
    mode: Mode,
    slots: &mut [u32],
) -> Result<usize, Refusal> {
    let mut answer = [0; 2];
    // SAFETY: each pointer stands with its slice's own length; slots is borrowed alone, so it overlaps nothing.
    let status = unsafe {
        call(
            data.as_ptr(),
            data.len(),
            mode.is_checked(),
            slots.as_mut_ptr(),
            slots.len(),
            &mut answer,
        )
    };
    Ok(done(status, answer)?[0])
}

/// Where the first entry of that name starts.
pub(crate) fn find_first(
    call: FindFirst,
    data: &[u8],
    mode: Mode,
    name: &[u8],
) -> Result<usize, Refusal> {
    let mut answer = [0; 2];
    // SAFETY: each pointer stands with its slice's own length; answer is lent for the call.
    let status = unsafe {
        call(
            data.as_ptr(),
            data.len(),
            mode.is_checked(),
            name.as_ptr(),
            name.len(),
            &mut answer,
        )
    };
    Ok(done(status, answer)?[0])
}

/// Where an entry of that name starts, by some starts.
pub(crate) fn find_through(
    call: FindThrough,
    data: &[u8],
    mode: Mode,
    starts: &[u32],
    name: &[u8],
) -> Result<usize, Refusal> {
    let mut answer = [0; 2];
    // SAFETY: each pointer stands with its slice's own length; answer is lent for the call.
    let status = unsafe {
        call(
            data.as_ptr(),
            data.len(),
            mode.is_checked(),
            starts.as_ptr(),
            starts.len(),
            name.as_ptr(),
            name.len(),
            &mut answer,
        )
    };
    Ok(done(status, answer)?[0])
}
