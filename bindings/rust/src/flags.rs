//! Flag words and the two parts of an address, each a kind of its own over its number.

use core::fmt;
use core::ops::{
    BitAnd, BitAndAssign, BitOr, BitOrAssign, BitXor, BitXorAssign, Not, Sub, SubAssign,
};

use crate::refusal::Refusal;
use crate::sys;
use crate::told::done;

/// What every kind over a number has: the number, to and from, and its hexadecimal digits.
macro_rules! over_number {
    ($kind:ident($number:ty)) => {
        impl From<$number> for $kind {
            fn from(number: $number) -> Self {
                Self(number)
            }
        }

        impl From<$kind> for $number {
            fn from(kind: $kind) -> Self {
                kind.0
            }
        }

        impl fmt::LowerHex for $kind {
            fn fmt(&self, f: &mut fmt::Formatter<'_>) -> fmt::Result {
                fmt::LowerHex::fmt(&self.0, f)
            }
        }

        impl fmt::UpperHex for $kind {
            fn fmt(&self, f: &mut fmt::Formatter<'_>) -> fmt::Result {
                fmt::UpperHex::fmt(&self.0, f)
            }
        }
    };
}

/// The index group of a symbol's memory.
#[derive(Debug, Clone, Copy, Default, PartialEq, Eq, PartialOrd, Ord, Hash)]
pub struct IndexGroup(pub u32);

impl IndexGroup {
    /// An index group of that number.
    pub const fn new(raw: u32) -> Self {
        Self(raw)
    }

    /// The number.
    pub const fn as_u32(self) -> u32 {
        self.0
    }
}

over_number!(IndexGroup(u32));

/// The offset within an [`IndexGroup`].
#[derive(Debug, Clone, Copy, Default, PartialEq, Eq, PartialOrd, Ord, Hash)]
pub struct IndexOffset(pub u32);

impl IndexOffset {
    /// An index offset of that number.
    pub const fn new(raw: u32) -> Self {
        Self(raw)
    }

    /// The number.
    pub const fn as_u32(self) -> u32 {
        self.0
    }
}

over_number!(IndexOffset(u32));

/// A word of flags: the constants, the bits, and how words are put together.
macro_rules! flag_word {
    (
        $(#[$about:meta])*
        $word:ident($bits:ty), $call:ident, $bytes:literal:
        $($(#[$meaning:meta])* $flag:ident = $value:expr,)*
    ) => {
        $(#[$about])*
        #[derive(Clone, Copy, Default, PartialEq, Eq, PartialOrd, Ord, Hash)]
        pub struct $word(pub $bits);

        impl $word {
            $($(#[$meaning])* pub const $flag: Self = Self($value);)*

            /// Every constant, by its name.
            const NAMES: &'static [(&'static str, $bits)] = &[$((stringify!($flag), $value),)*];

            /// The word of those bits.
            pub const fn new(raw: $bits) -> Self {
                Self(raw)
            }

            /// The bits.
            pub const fn as_raw(self) -> $bits {
                self.0
            }

            /// Whether all bits of `other` are set.
            pub const fn contains(self, other: Self) -> bool {
                self.0 & other.0 == other.0
            }

            /// Whether a bit of `other` is set.
            pub const fn intersects(self, other: Self) -> bool {
                self.0 & other.0 != 0
            }

            /// Whether no bit is set.
            pub const fn is_empty(self) -> bool {
                self.0 == 0
            }

            #[doc = concat!("Reads the word from exactly ", $bytes, " bytes.")]
            ///
            /// # Errors
            ///
            /// [`TooLarge`](crate::RefusalKind::TooLarge), then
            /// [`UnexpectedLength`](crate::RefusalKind::UnexpectedLength).
            pub fn try_from_slice(data: &[u8]) -> Result<Self, Refusal> {
                let mut answer = [0; 2];
                // SAFETY: data's own pointer and length; answer is lent for the call.
                let status = unsafe { sys::$call(data.as_ptr(), data.len(), &mut answer) };
                Ok(Self(done(status, answer)?[0] as $bits))
            }
        }

        over_number!($word($bits));

        impl fmt::Binary for $word {
            fn fmt(&self, f: &mut fmt::Formatter<'_>) -> fmt::Result {
                fmt::Binary::fmt(&self.0, f)
            }
        }

        /// The names of the constants whose bits are all set, and the word.
        impl fmt::Debug for $word {
            fn fmt(&self, f: &mut fmt::Formatter<'_>) -> fmt::Result {
                write!(f, concat!(stringify!($word), "({:#x}"), self.0)?;
                let set = Self::NAMES.iter().filter(|(_, bits)| self.0 & bits == *bits);
                for (i, (name, _)) in set.enumerate() {
                    write!(f, "{}{name}", if i == 0 { ": " } else { " | " })?;
                }
                f.write_str(")")
            }
        }

        impl BitOr for $word {
            type Output = Self;

            fn bitor(self, other: Self) -> Self {
                Self(self.0 | other.0)
            }
        }

        impl BitAnd for $word {
            type Output = Self;

            fn bitand(self, other: Self) -> Self {
                Self(self.0 & other.0)
            }
        }

        impl BitXor for $word {
            type Output = Self;

            fn bitxor(self, other: Self) -> Self {
                Self(self.0 ^ other.0)
            }
        }

        /// The word without the bits of another.
        impl Sub for $word {
            type Output = Self;

            fn sub(self, other: Self) -> Self {
                Self(self.0 & !other.0)
            }
        }

        /// Every bit turned, those that no constant names too.
        impl Not for $word {
            type Output = Self;

            fn not(self) -> Self {
                Self(!self.0)
            }
        }

        impl BitOrAssign for $word {
            fn bitor_assign(&mut self, other: Self) {
                *self = *self | other;
            }
        }

        impl BitAndAssign for $word {
            fn bitand_assign(&mut self, other: Self) {
                *self = *self & other;
            }
        }

        impl BitXorAssign for $word {
            fn bitxor_assign(&mut self, other: Self) {
                *self = *self ^ other;
            }
        }

        impl SubAssign for $word {
            fn sub_assign(&mut self, other: Self) {
                *self = *self - other;
            }
        }
    };
}

flag_word! {
    /// A symbol's flags. Bits that no constant names are kept.
    AdsSymbolFlags(u16), vindaskot_symbol_flags_read, 2:
    /// The value is kept across restarts.
    PERSISTENT = sys::SYMBOL_FLAG_PERSISTENT,
    /// A single bit; its size in bytes is 0.
    BIT_VALUE = sys::SYMBOL_FLAG_BIT_VALUE,
    /// A reference to another variable.
    REFERENCE_TO = sys::SYMBOL_FLAG_REFERENCE_TO,
    /// The entry has a 16-byte type GUID.
    TYPE_GUID = sys::SYMBOL_FLAG_TYPE_GUID,
    /// A TcCOM interface pointer.
    TCOM_INTERFACE_PTR = sys::SYMBOL_FLAG_TCOM_INTERFACE_PTR,
    /// No client can write it.
    READ_ONLY = sys::SYMBOL_FLAG_READ_ONLY,
    /// Its interface's methods are called.
    ITF_METHOD_ACCESS = sys::SYMBOL_FLAG_ITF_METHOD_ACCESS,
    /// Its method is dereferenced.
    METHOD_DEREF = sys::SYMBOL_FLAG_METHOD_DEREF,
    /// The context: a number of four bits.
    CONTEXT_MASK = sys::SYMBOL_FLAG_CONTEXT_MASK,
    /// The entry has attributes.
    ATTRIBUTES = sys::SYMBOL_FLAG_ATTRIBUTES,
    /// Statically allocated.
    STATIC = sys::SYMBOL_FLAG_STATIC,
    /// A persistent value is not restored after a cold reset.
    INIT_ON_RESET = sys::SYMBOL_FLAG_INIT_ON_RESET,
    /// The entry has extended flags, [`AdsSymbol2Flags`].
    EXTENDED_FLAGS = sys::SYMBOL_FLAG_EXTENDED_FLAGS,
}

flag_word! {
    /// A symbol's extended flags. Bits that no constant names are kept.
    AdsSymbol2Flags(u32), vindaskot_symbol2_flags_read, 4:
    /// A pointer of the PLC, which is relocated where redundancy projects are equalized.
    PLC_POINTER_TYPE = sys::SYMBOL2_FLAG_PLC_POINTER_TYPE,
    /// Passed over where redundancy projects are equalized.
    REDUNDANCY_IGNORE = sys::SYMBOL2_FLAG_REDUNDANCY_IGNORE,
    /// The entry has a chain of refactor records.
    REFACTOR_INFO = sys::SYMBOL2_FLAG_REFACTOR_INFO,
    /// A pointer or reference that the runtime resolves after an online change.
    ONLINE_CHANGE_PTR_REF_TYPE = sys::SYMBOL2_FLAG_ONLINE_CHANGE_PTR_REF_TYPE,
    /// A variant.
    VARIANT_TYPE = sys::SYMBOL2_FLAG_VARIANT_TYPE,
}

flag_word! {
    /// The flags of a field, a data type or a member. Bits that no constant names are kept.
    ///
    /// [`REFERENCE_TO`](Self::REFERENCE_TO), [`BIT_VALUES`](Self::BIT_VALUES), [`PROP_ITEM`](Self::PROP_ITEM) and
    /// [`STATIC`](Self::STATIC) say what an offset is.
    AdsTypeFlags(u32), vindaskot_type_flags_read, 4:
    /// A data type.
    DATA_TYPE = sys::TYPE_FLAG_DATA_TYPE,
    /// A member of a data type.
    DATA_ITEM = sys::TYPE_FLAG_DATA_ITEM,
    /// What lies at the offset is a reference: the members below it lie where it leads.
    REFERENCE_TO = sys::TYPE_FLAG_REFERENCE_TO,
    /// A method is dereferenced.
    METHOD_DEREF = sys::TYPE_FLAG_METHOD_DEREF,
    /// Oversampled.
    OVERSAMPLE = sys::TYPE_FLAG_OVERSAMPLE,
    /// Size and offset are in bits.
    BIT_VALUES = sys::TYPE_FLAG_BIT_VALUES,
    /// A property, which code reads and writes: its offset, and those below it, are no places.
    PROP_ITEM = sys::TYPE_FLAG_PROP_ITEM,
    /// The entry has a 16-byte type GUID.
    TYPE_GUID = sys::TYPE_FLAG_TYPE_GUID,
    /// It or a member of it is kept across restarts.
    PERSISTENT = sys::TYPE_FLAG_PERSISTENT,
    /// The entry has a copy mask.
    COPY_MASK = sys::TYPE_FLAG_COPY_MASK,
    /// It is or contains a TcCOM interface pointer.
    TCOM_INTERFACE_PTR = sys::TYPE_FLAG_TCOM_INTERFACE_PTR,
    /// The entry has methods.
    METHOD_INFOS = sys::TYPE_FLAG_METHOD_INFOS,
    /// The entry has attributes.
    ATTRIBUTES = sys::TYPE_FLAG_ATTRIBUTES,
    /// The entry has the names and values of an enumeration.
    ENUM_INFOS = sys::TYPE_FLAG_ENUM_INFOS,
    /// Aligned.
    ALIGNED = sys::TYPE_FLAG_ALIGNED,
    /// Static: its data does not lie in that of what it is a member of, and its offset is not to be used.
    STATIC = sys::TYPE_FLAG_STATIC,
    /// It has software protection levels.
    SOFTWARE_PROTECTION_LEVELS = sys::TYPE_FLAG_SOFTWARE_PROTECTION_LEVELS,
    /// Persistent data is not restored after a cold reset.
    IGNORE_PERSIST = sys::TYPE_FLAG_IGNORE_PERSIST,
    /// An array of any size.
    ANY_SIZE_ARRAY = sys::TYPE_FLAG_ANY_SIZE_ARRAY,
    /// Used for persistent variables.
    PERSISTENT_DATATYPE = sys::TYPE_FLAG_PERSISTENT_DATATYPE,
    /// Persistent data is not restored after a cold reset.
    INIT_ON_RESET = sys::TYPE_FLAG_INIT_ON_RESET,
    /// It is or contains a pointer of the PLC.
    PLC_POINTER_TYPE = sys::TYPE_FLAG_PLC_POINTER_TYPE,
    /// The entry has refactor records.
    REFACTOR_INFO = sys::TYPE_FLAG_REFACTOR_INFO,
    /// Its sub-items are hidden.
    HIDE_SUB_ITEMS = sys::TYPE_FLAG_HIDE_SUB_ITEMS,
    /// The description is incomplete.
    INCOMPLETE = sys::TYPE_FLAG_INCOMPLETE,
    /// It is or contains a pointer or reference that is resolved after an online change.
    CONTAINS_ONLINE_CHANGE_PTR_REF = sys::TYPE_FLAG_CONTAINS_ONLINE_CHANGE_PTR_REF,
    /// A variant.
    VARIANT = sys::TYPE_FLAG_VARIANT,
    /// The entry has more about an enumeration.
    EXTENDED_ENUM_INFOS = sys::TYPE_FLAG_EXTENDED_ENUM_INFOS,
    /// The entry has extended flags.
    EXTENDED_FLAGS = sys::TYPE_FLAG_EXTENDED_FLAGS,
}
