//! Plain form: uploads whose every entry is what the writer gives for its record.

use crate::refusal::Refusal;
use crate::sys;
use crate::told::done;

/// Checks that an upload of symbols is in plain form: each entry is read, in the present mode, and its bytes are those
/// that [`SymbolNumbers::write`](crate::SymbolNumbers::write) gives for its
/// [`numbers`](crate::AdsSymbolInfo::numbers) and [`parts`](crate::AdsSymbolInfo::parts). Nothing is written for it.
///
/// ```
/// use vindaskot::{Refusal, RefusalKind, SymbolNumbers, SymbolParts, check_plain};
///
/// fn main() -> Result<(), Refusal> {
///     let mut upload = [0; 43];
///     let parts = SymbolParts { name: b"MAIN.fZoom", ..Default::default() };
///     SymbolNumbers::default().write(&parts, &mut upload)?;
///     check_plain(&upload)?;
///     upload[40] = b'X';
///     let why = check_plain(&upload).unwrap_err();
///     assert!(why.is(RefusalKind::NotPlain));
///     assert_eq!(why.expected, 40);
///     Ok(())
/// }
/// ```
///
/// # Errors
///
/// At the first entry that is not so: [`TooLarge`](crate::RefusalKind::TooLarge),
/// [`TooShort`](crate::RefusalKind::TooShort), [`EntryLengthMismatch`](crate::RefusalKind::EntryLengthMismatch) or
/// [`ZeroEntryLength`](crate::RefusalKind::ZeroEntryLength) where it is not read; else
/// [`NotPlain`](crate::RefusalKind::NotPlain), whose first figure is the place in `data` of the first byte that is not
/// what would be written, or the entry's start where the writer refuses what was read.
pub fn check_plain(data: &[u8]) -> Result<(), Refusal> {
    let mut answer = [0; 2];
    // SAFETY: data's own pointer and length; answer is lent for the call.
    let status = unsafe { sys::vindaskot_plain(data.as_ptr(), data.len(), &mut answer) };
    done(status, answer)?;
    Ok(())
}
