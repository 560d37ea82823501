//! Why a section of a symbol is there or not, and why a list shows no more.

use core::fmt;

use crate::refusal::Refusal;
use crate::symbol::AdsSymbolInfo;
use crate::sys;
use crate::told::{done, refused};

/// Why a section is there or not, and why a list shows no more. Places are bytes from the start of the entry.
#[derive(Debug, Clone, Copy, PartialEq, Eq, Hash)]
pub enum Reason {
    /// Its flag is not set.
    NotFlagged,
    /// Of a chain: its flag stands among the extended flags, and there are none.
    NoExtendedFlags,
    /// It is flagged, and fewer bytes are left than it has at least: 16 of a GUID, 2 of attributes, 4 of extended flags,
    /// 1 of a chain.
    NoRoom {
        /// Where it would begin.
        place: usize,
        /// The bytes left there.
        left: usize,
    },
    /// It is shown whole.
    Whole {
        /// Where it begins: attributes with their count.
        place: usize,
        /// How many attributes their count announces, which may be none; how many records a chain has; else 1.
        count: usize,
    },
    /// Of attributes, whose list it ends, and of a chain, which it drops: a record is refused. Where the entry ends
    /// straight behind the count of attributes, attribute 0 is.
    Refused {
        /// Which of the list it is, from 0.
        record: usize,
        /// Where it begins.
        place: usize,
        /// Why it is refused.
        why: Refusal,
    },
    /// Of attributes: the entry ends behind one.
    Owed {
        /// How many their count announces.
        announced: usize,
        /// How many of them are missing.
        owed: usize,
    },
}

/// One, or so many, of something.
fn counted(f: &mut fmt::Formatter<'_>, count: usize, one: &str) -> fmt::Result {
    write!(f, "{count} {one}{}", if count == 1 { "" } else { "s" })
}

/// The reason as a sentence, without a capital or a full stop.
impl fmt::Display for Reason {
    fn fmt(&self, f: &mut fmt::Formatter<'_>) -> fmt::Result {
        match *self {
            Self::NotFlagged => write!(f, "its flag is not set"),
            Self::NoExtendedFlags => write!(f, "there are no extended flags, which would flag it"),
            Self::NoRoom { place, left } => {
                write!(f, "it is flagged, and the entry has only ")?;
                counted(f, left, "byte")?;
                write!(f, " left at place {place}, where it would begin")
            }
            Self::Whole { place, count } => {
                write!(f, "it begins at place {place} and is whole, with ")?;
                counted(f, count, "item")
            }
            Self::Refused { record, place, why } => {
                write!(
                    f,
                    "its record {record}, at place {place}, is refused: {why}"
                )
            }
            Self::Owed { announced, owed } => {
                write!(f, "the entry ends before ")?;
                counted(f, owed, "record")?;
                write!(f, " of the {announced} announced")
            }
        }
    }
}

impl Reason {
    /// What six slots tell.
    fn told(slots: [u64; sys::WHY_SLOTS]) -> Self {
        let [first, second] = [sys::WHY_FIRST, sys::WHY_SECOND].map(|slot| slots[slot] as usize);
        match slots[sys::WHY_REASON] as u32 {
            sys::WHY_NOT_FLAGGED => Self::NotFlagged,
            sys::WHY_NO_FLAGS => Self::NoExtendedFlags,
            sys::WHY_NO_ROOM => Self::NoRoom {
                place: first,
                left: second,
            },
            sys::WHY_WHOLE => Self::Whole {
                place: first,
                count: second,
            },
            sys::WHY_REFUSED => Self::Refused {
                record: second,
                place: first,
                why: refused(
                    slots[sys::WHY_NUMBER] as u32,
                    [slots[sys::WHY_EXPECTED], slots[sys::WHY_GOT]],
                ),
            },
            _ => Self::Owed {
                announced: first,
                owed: second,
            },
        }
    }

    /// Whether all of it is shown: what was announced, flagged and there.
    pub const fn is_whole(&self) -> bool {
        matches!(self, Self::Whole { .. })
    }
}

/// Why the four sections of a symbol are as they are: exactly one reason each.
///
/// A section that has no room moves nothing, and a refused attribute ends its list: the next section is looked for at
/// that same place. The reasons are those of the [present mode](crate::Mode::Present), and the same where the checked
/// mode accepts the entry.
///
/// ```
/// use vindaskot::{AdsSymbolFlags, Reason, Reasons, SymbolNumbers, SymbolParts};
///
/// let flags = AdsSymbolFlags::ATTRIBUTES;
/// let mut entry = [0; 35];
/// SymbolNumbers { flags, ..Default::default() }.write(&SymbolParts::default(), &mut entry)?;
/// let reasons = Reasons::try_from_slice(&entry)?;
/// assert_eq!(reasons.attributes, Reason::Whole { place: 33, count: 0 });
/// assert_eq!(reasons.guid.to_string(), "its flag is not set");
/// # Ok::<(), vindaskot::Refusal>(())
/// ```
#[derive(Debug, Clone, Copy, PartialEq, Eq, Hash)]
pub struct Reasons {
    /// Of the GUID of its type.
    pub guid: Reason,
    /// Of its attributes.
    pub attributes: Reason,
    /// Of its extended flags.
    pub extended_flags: Reason,
    /// Of its refactor records.
    pub refactor_infos: Reason,
}

impl Reasons {
    /// Those of the entry at the start of `data`.
    ///
    /// # Errors
    ///
    /// Those of [`AdsSymbolInfo::try_from_slice`].
    pub fn try_from_slice(data: &[u8]) -> Result<Self, Refusal> {
        let mut told = [[0; sys::WHY_SLOTS]; 4];
        let mut answer = [0; 2];
        let [guid, attributes, extended_flags, chain] = &mut told;
        // SAFETY: data's own pointer and length; the slots and answer are lent for the call.
        let status = unsafe {
            sys::vindaskot_symbol_why(
                data.as_ptr(),
                data.len(),
                guid,
                attributes,
                extended_flags,
                chain,
                &mut answer,
            )
        };
        done(status, answer)?;
        let [guid, attributes, extended_flags, refactor_infos] = told.map(Reason::told);
        Ok(Self {
            guid,
            attributes,
            extended_flags,
            refactor_infos,
        })
    }
}

impl AdsSymbolInfo<'_> {
    /// Why each section is there or not, and why its lists show no more. No entry that was read is refused.
    pub fn reasons(&self) -> Result<Reasons, Refusal> {
        Reasons::try_from_slice(self.as_bytes())
    }
}
