//! The numbered refusals.

use core::error::Error;
use core::fmt;

use crate::sys;
use crate::told::done;

/// The largest input, and the largest entry that is written, in bytes.
pub const LIMIT: usize = sys::LIMIT;

/// Why a call was refused: a number and its two figures.
///
/// A refusal changes no lent buffer.
#[derive(Clone, Copy, PartialEq, Eq, PartialOrd, Ord, Hash)]
pub struct Refusal {
    /// The refusal's number, as [`RefusalKind`] has them. [`kind`](Self::kind) names it.
    pub number: u32,
    /// The first figure; [`RefusalKind`] says what it is for each kind.
    pub expected: usize,
    /// The second figure; [`RefusalKind`] says what it is for each kind.
    pub got: usize,
}

/// What a refusal's number means, and what its figures, expected and got, are.
#[derive(Debug, Clone, Copy, PartialEq, Eq, PartialOrd, Ord, Hash)]
#[non_exhaustive]
#[repr(u32)]
pub enum RefusalKind {
    /// Another length than the one wanted: needed, present.
    UnexpectedLength = sys::REFUSED_UNEXPECTED_LENGTH,
    /// Too few bytes: needed, present.
    TooShort = sys::REFUSED_TOO_SHORT,
    /// An entry's length does not match: claimed or needed, available.
    EntryLengthMismatch = sys::REFUSED_ENTRY_LENGTH_MISMATCH,
    /// A direct read, or that of a data type, met a header whose claim is below it: 30 or 42, claim.
    ClaimBelowHeader = sys::REFUSED_CLAIM_BELOW_HEADER,
    /// An input or a written entry above [`LIMIT`]: the limit, its length.
    TooLarge = sys::REFUSED_TOO_LARGE,
    /// The lent output is too small: bytes or slots needed, lent.
    OutputTooSmall = sys::REFUSED_OUTPUT_TOO_SMALL,
    /// A string or a count is too long for its field: 255 or 65,535, actual.
    TooLong = sys::REFUSED_TOO_LONG,
    /// A symbol's flags and sections disagree: section (1 GUID, 2 attributes, 3 extended flags, 4 chain), 0.
    SectionsDisagree = sys::REFUSED_SECTIONS_DISAGREE,
    /// A block isn't exactly its count of good records: count, good records at its start.
    BadBlock = sys::REFUSED_BAD_BLOCK,
    /// A zero entry length stops the walk: 1, 0.
    ZeroEntryLength = sys::REFUSED_ZERO_ENTRY_LENGTH,
    /// Text that can't be converted: byte place, 1 not UTF-8 or 2 no Windows-1252 byte.
    BadText = sys::REFUSED_BAD_TEXT,
    /// A bad hexadecimal line, of a capture or of what the listing program reads: 0, 0.
    BadHexadecimal = sys::REFUSED_BAD_HEXADECIMAL,
    /// No accepted symbol or data type, or no attribute of the entry, has that name: 0, 0. Of a path, no member has the
    /// name of the part at that place, or no data type that of its type: the place, 1 for a member, 2 for a type.
    NameNotFound = sys::REFUSED_NAME_NOT_FOUND,
    /// No attribute, refactor record, array record or member has that number: how many there are, number asked. Of a path,
    /// a subscript is outside its bounds: the elements of its dimension, the place of the subscript.
    NoSuchNumber = sys::REFUSED_NO_SUCH_NUMBER,
    /// Data type entries stand in each other deeper than 16, the outermost at depth 1: 16, 17.
    TooDeep = sys::REFUSED_TOO_DEEP,
    /// In the [checked mode](crate::Mode::Checked), an end byte that is not 0: its place in the entry, or in a record or
    /// chain that is read by itself; the byte.
    EndByte = sys::REFUSED_END_BYTE,
    /// A symbol that a sheet can't hold: which entry of the upload, from 0; the first that applies of 1 GUID, 2 attributes
    /// or 3 extended flags flagged, 5 unread bytes or an end byte that is not 0.
    NotInSheet = sys::REFUSED_NOT_IN_SHEET,
    /// A bad row of a sheet: the row, the header being 1; 0 for its shape, else the column from 1.
    BadSheet = sys::REFUSED_BAD_SHEET,
    /// An upload that is not in plain form: the place in the upload of the first byte that departs, 0.
    NotPlain = sys::REFUSED_NOT_PLAIN,
    /// A text that is no path of a variable: the place in the path of the fault, 0.
    BadPath = sys::REFUSED_BAD_PATH,
    /// Subscripts of a path that are not as many as there are dimensions: their place in the path, how many dimensions
    /// there are.
    WrongDimensions = sys::REFUSED_WRONG_DIMENSIONS,
    /// A part of a path that has no offset: its place in the path; 0x2 it is below a symbol of a bit, 0x4 a reference,
    /// 0x40 a property, 0x20000 a static member; it is below a pointer, 0x400 to a TcCOM interface, 0x800000 of the
    /// PLC.
    NoOffset = sys::REFUSED_NO_OFFSET,
    /// An index offset above 32 bits: 4,294,967,295, the offset.
    OffsetTooLarge = sys::REFUSED_OFFSET_TOO_LARGE,
    /// Data types, one behind another, of which each only names the next: the place in the path of the part below them,
    /// 16 at most.
    TooManyAliases = sys::REFUSED_TOO_MANY_ALIASES,
}

impl RefusalKind {
    const ALL: [Self; 24] = [
        Self::UnexpectedLength,
        Self::TooShort,
        Self::EntryLengthMismatch,
        Self::ClaimBelowHeader,
        Self::TooLarge,
        Self::OutputTooSmall,
        Self::TooLong,
        Self::SectionsDisagree,
        Self::BadBlock,
        Self::ZeroEntryLength,
        Self::BadText,
        Self::BadHexadecimal,
        Self::NameNotFound,
        Self::NoSuchNumber,
        Self::TooDeep,
        Self::EndByte,
        Self::NotInSheet,
        Self::BadSheet,
        Self::NotPlain,
        Self::BadPath,
        Self::WrongDimensions,
        Self::NoOffset,
        Self::OffsetTooLarge,
        Self::TooManyAliases,
    ];

    /// The number of refusals of this kind.
    pub const fn number(self) -> u32 {
        self as u32
    }

    /// What is refused, and what its figures are where they are told alike.
    const fn words(self) -> (&'static str, &'static str, &'static str) {
        match self {
            Self::UnexpectedLength => ("unexpected length", "needed", "present"),
            Self::TooShort => ("too short", "needed", "present"),
            Self::EntryLengthMismatch => {
                ("entry length mismatch", "claimed or needed", "available")
            }
            Self::ClaimBelowHeader => ("claim below the header", "in the header", "claimed"),
            Self::TooLarge => ("too large", "at most", "given"),
            Self::OutputTooSmall => ("output too small", "needed", "lent"),
            Self::TooLong => ("string or count too long", "at most", "given"),
            Self::SectionsDisagree => ("symbol flags and sections disagree", "", ""),
            Self::BadBlock => (
                "block is not its count of good records",
                "counted",
                "good at its start",
            ),
            Self::ZeroEntryLength => ("zero entry length", "at least", "claimed"),
            Self::BadText => ("text", "", ""),
            Self::BadHexadecimal => ("bad hexadecimal line", "", ""),
            Self::NameNotFound => ("name not found", "", ""),
            Self::NoSuchNumber => ("no such number", "there", "asked"),
            Self::TooDeep => (
                "data type entries nest too deep",
                "deep at most",
                "deep met",
            ),
            Self::EndByte => ("end byte is not 0", "", ""),
            Self::NotInSheet => ("not for a sheet", "", ""),
            Self::BadSheet => ("bad sheet", "", ""),
            Self::NotPlain => ("not in plain form", "", ""),
            Self::BadPath => ("no path of a variable", "", ""),
            Self::WrongDimensions => ("wrong dimensions", "", ""),
            Self::NoOffset => ("no offset", "", ""),
            Self::OffsetTooLarge => ("index offset too large", "at most", "here"),
            Self::TooManyAliases => ("too many aliases", "", ""),
        }
    }
}

impl Refusal {
    /// The refusal's kind, or `None` for a number that stands for none.
    pub fn kind(&self) -> Option<RefusalKind> {
        let mut kinds = RefusalKind::ALL.into_iter();
        kinds.find(|kind| kind.number() == self.number)
    }

    /// Whether the refusal is of that kind.
    pub const fn is(&self, kind: RefusalKind) -> bool {
        self.number == kind.number()
    }
}

/// How many bytes [`Refusal::text`] writes at most.
pub const TEXT_MOST: usize = sys::REFUSAL_TEXT_MOST;

impl Refusal {
    /// The refusal's words and figures as the archive has them, from `out[0]` on: English in ASCII, at most [`TEXT_MOST`]
    /// bytes. What the refusal is displayed by says a little more.
    ///
    /// ```
    /// use vindaskot::AdsSymbolInfo;
    /// use vindaskot::refusal::TEXT_MOST;
    ///
    /// let why = AdsSymbolInfo::try_from_slice(&[0; 29]).unwrap_err();
    /// let mut out = [0; TEXT_MOST];
    /// assert_eq!(why.text(&mut out), Ok("too short: 30 needed, 29 present"));
    /// ```
    ///
    /// # Errors
    ///
    /// [`NoSuchNumber`](RefusalKind::NoSuchNumber) where the number stands for no refusal, then
    /// [`OutputTooSmall`](RefusalKind::OutputTooSmall).
    pub fn text<'o>(&self, out: &'o mut [u8]) -> Result<&'o str, Refusal> {
        let mut answer = [0; sys::FIGURES];
        // SAFETY: out's own pointer and length, borrowed alone; answer is lent for the call.
        let status = unsafe {
            sys::vindaskot_refusal_text(
                self.number,
                self.expected,
                self.got,
                out.as_mut_ptr(),
                out.len(),
                &mut answer,
            )
        };
        let [written, _] = done(status, answer)?;
        Ok(core::str::from_utf8(&out[..written]).expect("words are ASCII"))
    }
}

fn section(number: usize) -> &'static str {
    match number {
        1 => "GUID",
        2 => "attributes",
        3 => "extended flags",
        4 => "refactor records",
        _ => "unknown",
    }
}

fn fault(number: usize) -> &'static str {
    match number {
        1 => "not UTF-8",
        2 => "a character that Windows-1252 lacks",
        _ => "unknown",
    }
}

fn left_out(reason: usize) -> &'static str {
    match reason {
        1 => "its GUID is flagged",
        2 => "its attributes are flagged",
        3 => "its extended flags are flagged",
        5 => "it has unread bytes, or an end byte that is not 0",
        _ => "unknown",
    }
}

fn mark(flag: usize) -> &'static str {
    match flag {
        0x2 => "below a symbol of a bit",
        0x4 => "a reference",
        0x40 => "a property",
        0x20000 => "a static member",
        0x400 => "below an interface pointer",
        0x800000 => "below a pointer",
        _ => "unknown",
    }
}

/// Its kind and its figures; of a number that stands for no kind, the number.
impl fmt::Debug for Refusal {
    fn fmt(&self, f: &mut fmt::Formatter<'_>) -> fmt::Result {
        let mut told = f.debug_struct("Refusal");
        match self.kind() {
            Some(kind) => told.field("kind", &kind),
            None => told.field("number", &self.number),
        };
        told.field("expected", &self.expected);
        told.field("got", &self.got).finish()
    }
}

impl fmt::Display for Refusal {
    fn fmt(&self, f: &mut fmt::Formatter<'_>) -> fmt::Result {
        let Self {
            number,
            expected,
            got,
        } = *self;
        write!(f, "refusal {number}, ")?;
        let Some(kind) = self.kind() else {
            return write!(f, "expected {expected}, got {got}");
        };
        let (what, first, second) = kind.words();
        f.write_str(what)?;
        match kind {
            RefusalKind::SectionsDisagree => {
                write!(f, ": section {expected}, {}", section(expected))
            }
            RefusalKind::BadText => write!(f, ": {} at byte {expected}", fault(got)),
            RefusalKind::EndByte => write!(f, ": {got} at byte {expected}"),
            RefusalKind::NotInSheet => write!(f, ": entry {expected}, {}", left_out(got)),
            RefusalKind::BadSheet => write!(f, ": row {expected}, column {got}"),
            RefusalKind::NotPlain => write!(f, ": byte {expected} departs"),
            RefusalKind::BadPath => write!(f, ": fault at byte {expected}"),
            RefusalKind::WrongDimensions => {
                write!(f, ": subscripts at byte {expected}, {got} dimensions there")
            }
            RefusalKind::NoOffset => write!(f, ": {} at byte {expected}", mark(got)),
            RefusalKind::TooManyAliases => {
                write!(f, ": more than {got} in a row at byte {expected}")
            }
            RefusalKind::NameNotFound => match got {
                1 => write!(f, ": no member at byte {expected} of the path"),
                2 => write!(f, ": no data type at byte {expected} of the path"),
                _ => Ok(()),
            },
            RefusalKind::BadHexadecimal => Ok(()),
            _ => write!(f, ": {expected} {first}, {got} {second}"),
        }
    }
}

impl Error for Refusal {}
