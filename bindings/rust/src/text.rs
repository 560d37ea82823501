//! Windows-1252 to UTF-8, and back.

#[cfg(feature = "alloc")]
use alloc::{string::String, vec::Vec};

use core::fmt::{self, Write};

use crate::refusal::Refusal;
use crate::sys;
use crate::told::done;

/// What `decode` writes is UTF-8 by its contract; Rust checks it once more, since a `str` rests on it.
const UTF8: &str = "decode writes UTF-8";

/// Bytes of stack that the archive's own conversion takes at most, either way, whatever the text and its length: for callers
/// that have little. It is measured and not proved, and what Rust puts around the call comes on top.
pub const STACK: usize = sys::TEXT_STACK;

/// Windows-1252 as UTF-8, from `out[0]` on. Every byte has a character.
///
/// # Errors
///
/// [`TooLarge`](crate::RefusalKind::TooLarge), [`OutputTooSmall`](crate::RefusalKind::OutputTooSmall).
pub fn decode(src: impl AsRef<[u8]>, out: &mut [u8]) -> Result<&str, Refusal> {
    let written = decode_into(src.as_ref(), out)?;
    Ok(core::str::from_utf8(&out[..written]).expect(UTF8))
}

fn decode_into(src: &[u8], out: &mut [u8]) -> Result<usize, Refusal> {
    let mut answer = [0; 2];
    // SAFETY: each pointer stands with its slice's own length; out is borrowed alone, so it overlaps nothing.
    let status = unsafe {
        sys::vindaskot_decode(
            src.as_ptr(),
            src.len(),
            out.as_mut_ptr(),
            out.len(),
            &mut answer,
        )
    };
    Ok(done(status, answer)?[0])
}

/// UTF-8 as Windows-1252, from `out[0]` on.
///
/// The figures of 11 are the byte place of the first faulty sequence, and 1 if it is not UTF-8 or 2 if Windows-1252 has
/// no byte for it.
///
/// # Errors
///
/// [`TooLarge`](crate::RefusalKind::TooLarge), [`BadText`](crate::RefusalKind::BadText),
/// [`OutputTooSmall`](crate::RefusalKind::OutputTooSmall).
pub fn encode(src: impl AsRef<[u8]>, out: &mut [u8]) -> Result<&[u8], Refusal> {
    let written = encode_into(src.as_ref(), out)?;
    Ok(&out[..written])
}

fn encode_into(src: &[u8], out: &mut [u8]) -> Result<usize, Refusal> {
    let mut answer = [0; 2];
    // SAFETY: each pointer stands with its slice's own length; out is borrowed alone, so it overlaps nothing.
    let status = unsafe {
        sys::vindaskot_encode(
            src.as_ptr(),
            src.len(),
            out.as_mut_ptr(),
            out.len(),
            &mut answer,
        )
    };
    Ok(done(status, answer)?[0])
}

/// Windows-1252 as a `String`.
///
/// # Errors
///
/// [`TooLarge`](crate::RefusalKind::TooLarge).
#[cfg(feature = "alloc")]
pub fn decode_to_string(src: impl AsRef<[u8]>) -> Result<String, Refusal> {
    // Asked once: what it gives need not be the same twice.
    let src = src.as_ref();
    let bytes = crate::told::filled(|out| decode_into(src, out))?;
    Ok(String::from_utf8(bytes).expect(UTF8))
}

/// UTF-8 as Windows-1252.
///
/// # Errors
///
/// [`TooLarge`](crate::RefusalKind::TooLarge), [`BadText`](crate::RefusalKind::BadText).
#[cfg(feature = "alloc")]
pub fn encode_to_vec(src: impl AsRef<[u8]>) -> Result<Vec<u8>, Refusal> {
    // Asked once: what it gives need not be the same twice.
    let src = src.as_ref();
    crate::told::filled(|out| encode_into(src, out))
}

/// Windows-1252 that is displayed as the text that it is, with no memory of its own; `{:?}` puts it between quotes.
///
/// ```
/// use vindaskot::text::Text;
///
/// let name = Text(b"Objektiv, gepr\xFCft");
/// assert_eq!(format!("{name}"), "Objektiv, geprüft");
/// assert_eq!(format!("{name:?}"), "\"Objektiv, geprüft\"");
/// ```
#[derive(Clone, Copy, Default, PartialEq, Eq, Hash)]
pub struct Text<'a>(pub &'a [u8]);

impl Text<'_> {
    /// So many bytes are converted at a time, and each takes at most three of UTF-8.
    const AT_ONCE: usize = 32;

    fn write(&self, mut piece: impl FnMut(&str) -> fmt::Result) -> fmt::Result {
        let mut out = [0; 3 * Self::AT_ONCE];
        for bytes in self.0.chunks(Self::AT_ONCE) {
            piece(decode(bytes, &mut out).map_err(|_| fmt::Error)?)?;
        }
        Ok(())
    }
}

impl fmt::Display for Text<'_> {
    fn fmt(&self, f: &mut fmt::Formatter<'_>) -> fmt::Result {
        self.write(|piece| f.write_str(piece))
    }
}

impl fmt::Debug for Text<'_> {
    fn fmt(&self, f: &mut fmt::Formatter<'_>) -> fmt::Result {
        f.write_char('"')?;
        self.write(|piece| write!(f, "{}", piece.escape_debug()))?;
        f.write_char('"')
    }
}

impl AsRef<[u8]> for Text<'_> {
    fn as_ref(&self) -> &[u8] {
        self.0
    }
}
