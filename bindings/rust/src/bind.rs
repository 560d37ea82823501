//! Binding: from the path of a variable, through symbols and data types, to its address.

use crate::data_type::DataType;
use crate::flags::{IndexGroup, IndexOffset};
#[cfg(feature = "alloc")]
use crate::mode::Mode;
use crate::name_index::NameIndex;
#[cfg(feature = "alloc")]
use crate::name_index::{SymbolIndex, TypeIndex};
use crate::refusal::Refusal;
use crate::symbol::AdsSymbolInfo;
use crate::sys;
use crate::told::{done, part};

/// The entry that an address is of: which upload it stands in, and where it starts there.
#[derive(Clone, Copy, Debug, PartialEq, Eq, Hash)]
pub enum Source {
    /// A symbol.
    Symbol(usize),
    /// A data type, or a member of one.
    DataType(usize),
}

/// The address of a variable, or of a part of one.
#[derive(Clone, Copy, Debug, PartialEq, Eq, Hash)]
#[non_exhaustive]
pub struct Address<'a> {
    /// The symbol's index group.
    pub group: IndexGroup,
    /// The byte in it where the value begins.
    pub offset: IndexOffset,
    /// Which bit of that byte it begins at, from 0 to 7.
    pub bit: u8,
    /// How long the value is, in bytes, or in bits.
    pub size: u32,
    /// Whether `size` is in bits.
    pub size_in_bits: bool,
    /// The name of its type, in Windows-1252. Of an element that is the type of all of the array's elements, or of the array.
    pub type_name: &'a [u8],
    /// The entry that says so.
    pub source: Source,
}

/// The address of the variable, or of the part of one, that a path names: of the symbol with the longest name that the
/// path begins with, then member by member and element by element through the data types. A to Z equal a to z.
///
/// Both uploads are read in the mode of `symbols`.
///
/// # Errors
///
/// [`TooLarge`](crate::RefusalKind::TooLarge) for the symbols, the data types and the path;
/// [`NameNotFound`](crate::RefusalKind::NameNotFound), whose figures are 0 where no symbol has a name that the path
/// begins with, and else the place in the path of the member, or of the part whose data type, is not there;
/// [`NoOffset`](crate::RefusalKind::NoOffset) where the path goes on behind a symbol of a bit, 0x2, or of a reference,
/// 0x4; then, part by part, [`BadPath`](crate::RefusalKind::BadPath), `NoOffset` below a pointer, 0x400 to a TcCOM
/// interface and 0x800000 of the PLC, [`TooManyAliases`](crate::RefusalKind::TooManyAliases), `NoOffset` of a reference,
/// 0x4, a property, 0x40, and a static member, 0x20000, [`WrongDimensions`](crate::RefusalKind::WrongDimensions),
/// [`NoSuchNumber`](crate::RefusalKind::NoSuchNumber) for a subscript outside its bounds and
/// [`OffsetTooLarge`](crate::RefusalKind::OffsetTooLarge).
pub fn bind<'a>(
    symbols: NameIndex<'a, '_, AdsSymbolInfo<'static>>,
    types: NameIndex<'a, '_, DataType<'static>>,
    path: impl AsRef<[u8]>,
) -> Result<Address<'a>, Refusal> {
    let path = path.as_ref();
    let mut slots = [0; sys::ADDRESS_SLOTS];
    let mut answer = [0; sys::FIGURES];
    // SAFETY: each pointer stands with its slice's own length; slots and answer are lent for the call.
    let status = unsafe {
        sys::vindaskot_bind_in(
            symbols.data().as_ptr(),
            symbols.data().len(),
            symbols.mode().is_checked(),
            symbols.starts().as_ptr(),
            symbols.starts().len(),
            types.data().as_ptr(),
            types.data().len(),
            types.starts().as_ptr(),
            types.starts().len(),
            path.as_ptr(),
            path.len(),
            &mut slots,
            &mut answer,
        )
    };
    done(status, answer)?;
    Ok(told(symbols.data(), types.data(), &slots))
}

fn told<'a>(symbols: &'a [u8], types: &'a [u8], slots: &[u64; sys::ADDRESS_SLOTS]) -> Address<'a> {
    let at = slots[sys::ADDRESS_ENTRY_AT] as usize;
    let (data, source) = match slots[sys::ADDRESS_UPLOAD] {
        0 => (symbols, Source::Symbol(at)),
        _ => (types, Source::DataType(at)),
    };
    Address {
        group: IndexGroup(slots[sys::ADDRESS_GROUP] as u32),
        offset: IndexOffset(slots[sys::ADDRESS_OFFSET] as u32),
        bit: slots[sys::ADDRESS_BIT] as u8,
        size: slots[sys::ADDRESS_SIZE] as u32,
        size_in_bits: slots[sys::ADDRESS_SIZE_IN_BITS] != 0,
        type_name: part(
            &data[at..],
            slots[sys::ADDRESS_TYPE_NAME_AT],
            slots[sys::ADDRESS_TYPE_NAME_LEN],
        ),
        source,
    }
}

/// The two uploads of a controller with their name indexes, which are made once for all paths.
///
/// ```
/// use vindaskot::{Binder, Refusal, SymbolNumbers, SymbolParts};
///
/// fn main() -> Result<(), Refusal> {
///     let parts = SymbolParts { name: b"MAIN.fZoom", type_name: b"REAL", ..Default::default() };
///     let numbers = SymbolNumbers { size: 4, ..Default::default() };
///     let binder = Binder::new(numbers.to_vec(&parts)?, [])?;
///     let address = binder.bind("main.fzoom")?;
///     assert_eq!((address.size, address.type_name), (4, &b"REAL"[..]));
///     Ok(())
/// }
/// ```
#[cfg(feature = "alloc")]
#[derive(Clone, Debug)]
pub struct Binder<S, T> {
    symbols: SymbolIndex<S>,
    types: TypeIndex<T>,
}

#[cfg(feature = "alloc")]
impl<S: AsRef<[u8]>, T: AsRef<[u8]>> Binder<S, T> {
    /// Makes both name indexes.
    ///
    /// # Errors
    ///
    /// [`TooLarge`](crate::RefusalKind::TooLarge), [`ZeroEntryLength`](crate::RefusalKind::ZeroEntryLength), for the
    /// symbols and then for the data types.
    pub fn new(symbols: S, types: T) -> Result<Self, Refusal> {
        Self::new_in(symbols, types, Mode::Present)
    }

    /// The same in a mode, which is that of both uploads.
    ///
    /// # Errors
    ///
    /// Those of [`new`](Self::new).
    pub fn new_in(symbols: S, types: T, mode: Mode) -> Result<Self, Refusal> {
        Ok(Self {
            symbols: SymbolIndex::new_in(symbols, mode)?,
            types: TypeIndex::new_in(types, mode)?,
        })
    }

    /// The symbols.
    pub fn symbols(&self) -> &SymbolIndex<S> {
        &self.symbols
    }

    /// The data types.
    pub fn types(&self) -> &TypeIndex<T> {
        &self.types
    }

    /// The address that a path names, as [`bind`] answers.
    ///
    /// # Errors
    ///
    /// Those of [`bind`].
    pub fn bind(&self, path: impl AsRef<[u8]>) -> Result<Address<'_>, Refusal> {
        bind(self.symbols.name_index(), self.types.name_index(), path)
    }
}
