//! Sheets: an upload of symbols as a table in text, for a spreadsheet, and back.

#[cfg(feature = "alloc")]
use alloc::string::String;
#[cfg(feature = "alloc")]
use alloc::vec::Vec;

use crate::refusal::Refusal;
use crate::sys;
use crate::told::done;

/// A sheet is UTF-8 by its contract; Rust checks it once more, since a `str` rests on it.
const UTF8: &str = "a sheet is UTF-8";

/// The sheet of an upload of symbols, from `out[0]` on: a header, then a row of nine cells for each symbol, as RFC 4180
/// has them. The upload is read in the present mode.
///
/// A sheet has no room for a GUID, attributes, extended flags, unread bytes and end bytes that are not 0.
///
/// # Errors
///
/// [`TooLarge`](crate::RefusalKind::TooLarge); at the first entry that has one, that of its reading (2,
/// [`EntryLengthMismatch`](crate::RefusalKind::EntryLengthMismatch)),
/// [`ZeroEntryLength`](crate::RefusalKind::ZeroEntryLength) or [`NotInSheet`](crate::RefusalKind::NotInSheet); then
/// [`OutputTooSmall`](crate::RefusalKind::OutputTooSmall).
pub fn export_sheet<'o>(upload: &[u8], out: &'o mut [u8]) -> Result<&'o str, Refusal> {
    let written = export_into(upload, out)?;
    Ok(core::str::from_utf8(&out[..written]).expect(UTF8))
}

fn export_into(upload: &[u8], out: &mut [u8]) -> Result<usize, Refusal> {
    let mut answer = [0; 2];
    // SAFETY: each pointer stands with its slice's own length; out is borrowed alone, so it overlaps nothing.
    let status = unsafe {
        sys::vindaskot_sheet_export(
            upload.as_ptr(),
            upload.len(),
            out.as_mut_ptr(),
            out.len(),
            &mut answer,
        )
    };
    Ok(done(status, answer)?[0])
}

/// The sheet of an upload as a `String`.
///
/// # Errors
///
/// As of [`export_sheet`], but [`OutputTooSmall`](crate::RefusalKind::OutputTooSmall).
#[cfg(feature = "alloc")]
pub fn export_sheet_to_string(upload: &[u8]) -> Result<String, Refusal> {
    let bytes = crate::told::filled(|out| export_into(upload, out))?;
    Ok(String::from_utf8(bytes).expect(UTF8))
}

/// The upload of a sheet, from `out[0]` on, and how many bytes it has: an entry without sections for each row below the
/// header. Three times the sheet's length is always room enough. The sheet need not be UTF-8: where it is not, it is refused.
///
/// Refusals, each over the whole sheet before the next: 18 at the first row with a fault; 11 at the first fault of its
/// text; 7 at the first string above its length field; 5 for the upload; 6.
///
/// ```
/// let sheet = b"group,offset,size,type id,flags,high,name,type,comment\n16448,4,2,2,0,0,MAIN.nAxis,INT,\n";
/// let mut upload = [0; 64];
/// let written = vindaskot::import_sheet(sheet, &mut upload)?;
/// let mut text = [0; 128];
/// let again = vindaskot::export_sheet(&upload[..written], &mut text)?;
/// assert!(again.ends_with("16448,4,2,2,0,0,MAIN.nAxis,INT,\r\n"));
/// # Ok::<(), vindaskot::Refusal>(())
/// ```
pub fn import_sheet(sheet: &[u8], out: &mut [u8]) -> Result<usize, Refusal> {
    let mut answer = [0; 2];
    // SAFETY: each pointer stands with its slice's own length; out is borrowed alone, so it overlaps nothing.
    let status = unsafe {
        sys::vindaskot_sheet_import(
            sheet.as_ptr(),
            sheet.len(),
            out.as_mut_ptr(),
            out.len(),
            &mut answer,
        )
    };
    Ok(done(status, answer)?[0])
}

/// The upload of a sheet as a `Vec`. Refusals: as of [`import_sheet`], but 6.
#[cfg(feature = "alloc")]
pub fn import_sheet_to_vec(sheet: &[u8]) -> Result<Vec<u8>, Refusal> {
    crate::told::filled(|out| import_sheet(sheet, out))
}
