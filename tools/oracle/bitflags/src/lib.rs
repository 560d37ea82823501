//! What the supplied files use of bitflags 2, which Debian 12 lacks.

pub mod parser {
    use std::fmt;

    pub trait Named {
        fn raw(&self) -> u64;
        fn names(&self) -> Vec<(&'static str, u64)>;
    }

    /// The names of all flags that are set, then the bits that have none.
    pub fn to_writer<F: Named>(flags: &F, mut writer: impl fmt::Write) -> fmt::Result {
        let mut left = flags.raw();
        let mut first = true;
        for (name, bits) in flags.names() {
            if bits != 0 && flags.raw() & bits == bits && left & bits != 0 {
                writer.write_str(if first { "" } else { " | " })?;
                writer.write_str(name)?;
                left &= !bits;
                first = false;
            }
        }
        if left != 0 {
            writer.write_str(if first { "" } else { " | " })?;
            write!(writer, "{left:#x}")?;
        }
        Ok(())
    }
}

#[macro_export]
macro_rules! bitflags {
    (
        $(#[$outer:meta])*
        pub struct $Name:ident : $Bits:ty {
            $( $(#[$inner:meta])* const $Flag:ident = $value:expr; )*
        }
    ) => {
        $(#[$outer])*
        pub struct $Name($Bits);

        impl $Name {
            $( $(#[$inner])* pub const $Flag: Self = Self($value); )*

            pub const fn from_bits_retain(bits: $Bits) -> Self {
                Self(bits)
            }
            pub const fn bits(&self) -> $Bits {
                self.0
            }
            pub const fn contains(&self, other: Self) -> bool {
                self.0 & other.0 == other.0
            }
            pub const fn is_empty(&self) -> bool {
                self.0 == 0
            }
        }

        impl $crate::parser::Named for $Name {
            fn raw(&self) -> u64 {
                self.0 as u64
            }
            fn names(&self) -> Vec<(&'static str, u64)> {
                vec![$((stringify!($Flag), $value as u64)),*]
            }
        }
    };
}
