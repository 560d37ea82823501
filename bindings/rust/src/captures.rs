//! Captures: an upload as lines of hexadecimal, one for each of its pieces, and back.

#[cfg(feature = "alloc")]
use alloc::{string::String, vec::Vec};

use crate::refusal::Refusal;
use crate::sys;
use crate::told::done;

/// What `split` writes is digits and line feeds by its contract; Rust checks it once more, since a `str` rests on it.
const ASCII: &str = "split writes digits and line feeds";

/// An upload as text, from `text[0]` on: a line for each whole entry, accepted or not, and one for what is cut at the
/// end or all that an entry of length 0 begins. A line is the bytes, two digits each, in capitals, and LF.
///
/// Three times the upload's length is always enough.
///
/// ```
/// let mut text = [0; 16];
/// assert_eq!(vindaskot::captures::split(&[5, 0, 0, 0, 0xAB, 9], &mut text), Ok("05000000AB\n09\n"));
/// ```
///
/// # Errors
///
/// [`TooLarge`](crate::RefusalKind::TooLarge), [`OutputTooSmall`](crate::RefusalKind::OutputTooSmall).
pub fn split<'o>(upload: &[u8], text: &'o mut [u8]) -> Result<&'o str, Refusal> {
    let written = split_into(upload, text)?;
    Ok(core::str::from_utf8(&text[..written]).expect(ASCII))
}

fn split_into(upload: &[u8], text: &mut [u8]) -> Result<usize, Refusal> {
    let mut answer = [0; 2];
    // SAFETY: each pointer stands with its slice's own length; text is borrowed alone, so it overlaps nothing.
    let status = unsafe {
        sys::vindaskot_split_lines(
            upload.as_ptr(),
            upload.len(),
            text.as_mut_ptr(),
            text.len(),
            &mut answer,
        )
    };
    Ok(done(status, answer)?[0])
}

/// The upload of some lines, from `upload[0]` on: their bytes, one line's after another's. A line ends at LF, which the
/// last may lack; digits are of either case.
///
/// 12 is for a line with an odd number of digits or with another character, CR being one. Half the text's length is
/// always enough.
///
/// # Errors
///
/// [`BadHexadecimal`](crate::RefusalKind::BadHexadecimal), [`TooLarge`](crate::RefusalKind::TooLarge),
/// [`OutputTooSmall`](crate::RefusalKind::OutputTooSmall).
pub fn join(text: impl AsRef<[u8]>, upload: &mut [u8]) -> Result<&[u8], Refusal> {
    let written = join_into(text.as_ref(), upload)?;
    Ok(&upload[..written])
}

fn join_into(text: &[u8], upload: &mut [u8]) -> Result<usize, Refusal> {
    let mut answer = [0; 2];
    // SAFETY: each pointer stands with its slice's own length; upload is borrowed alone, so it overlaps nothing.
    let status = unsafe {
        sys::vindaskot_join_lines(
            text.as_ptr(),
            text.len(),
            upload.as_mut_ptr(),
            upload.len(),
            &mut answer,
        )
    };
    Ok(done(status, answer)?[0])
}

/// An upload as a `String` of lines.
///
/// # Errors
///
/// [`TooLarge`](crate::RefusalKind::TooLarge).
#[cfg(feature = "alloc")]
pub fn split_to_string(upload: &[u8]) -> Result<String, Refusal> {
    let text = crate::told::filled(|text| split_into(upload, text))?;
    Ok(String::from_utf8(text).expect(ASCII))
}

/// The upload of some lines.
///
/// # Errors
///
/// [`BadHexadecimal`](crate::RefusalKind::BadHexadecimal), [`TooLarge`](crate::RefusalKind::TooLarge).
#[cfg(feature = "alloc")]
pub fn join_to_vec(text: impl AsRef<[u8]>) -> Result<Vec<u8>, Refusal> {
    // Asked once: what it gives need not be the same twice.
    let text = text.as_ref();
    crate::told::filled(|upload| join_into(text, upload))
}
