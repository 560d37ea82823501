//! The index of an upload of data types, and finding a data type by name.

#[cfg(feature = "alloc")]
use alloc::{vec, vec::Vec};

use crate::calls;
use crate::mode::Mode;
use crate::refusal::Refusal;
use crate::sys;
use crate::told::needed;

/// Where the accepted data types of an upload start, in order, in lent slots.
///
/// What a symbol's type name leads to is found by the name of its entry, not of a member. A data type that is refused, for
/// whatever of its members, is not stored and is passed over. In the checked mode one is refused for an end byte too.
///
/// ```
/// use vindaskot::{DataType, DataTypeIndex, FieldNumbers, FieldParts, Mode, Refusal, find_data_type};
///
/// fn main() -> Result<(), Refusal> {
///     // Two data types without members, in 104 bytes.
///     let mut upload = [0; 104];
///     for (name, place) in [(b"ST_Zoom", 0), (b"ST_Iris", 52)] {
///         let parts = FieldParts { name, ..Default::default() };
///         FieldNumbers::default().write(&parts, &mut upload[place..])?;
///     }
///     let start = find_data_type(&upload, b"st_iris", Mode::Present)?;
///     assert_eq!(DataType::try_from_slice_in(&upload[start..], Mode::Present)?.name(), b"ST_Iris");
///     let mut slots = [0; 2];
///     let index = DataTypeIndex::build(&upload, &mut slots, Mode::Present)?;
///     assert_eq!(index.starts(), [0, 52]);
///     assert_eq!(index.find(&upload, b"st_iris", Mode::Present)?, 52);
///     Ok(())
/// }
/// ```
#[derive(Debug, Clone, Copy, PartialEq, Eq, Hash)]
pub struct DataTypeIndex<'s> {
    starts: &'s [u32],
}

impl<'s> DataTypeIndex<'s> {
    /// Stores the start of every accepted data type of `data` in `slots`: at most one for every 45 bytes. Refusals: 5, 10,
    /// 6.
    pub fn build(data: &[u8], slots: &'s mut [u32], mode: Mode) -> Result<Self, Refusal> {
        let used = fill(data, slots, mode)?;
        let starts = &slots[..used];
        Ok(Self { starts })
    }

    /// An index over starts that were stored before. A start where `find`'s upload has no accepted data type is passed
    /// over.
    pub const fn over(starts: &'s [u32]) -> Self {
        Self { starts }
    }

    /// The starts.
    pub const fn starts(&self) -> &'s [u32] {
        self.starts
    }

    /// Where the first data type of that name starts in `data`, by the starts in order. Names are compared as
    /// [`find_data_type`] compares them. Refusals: 5, 13.
    pub fn find(&self, data: &[u8], name: &[u8], mode: Mode) -> Result<usize, Refusal> {
        calls::find_through(
            sys::vindaskot_type_find_indexed_in,
            data,
            mode,
            self.starts,
            name,
        )
    }
}

/// How many slots the index of an upload of data types needs. Refusals: 5, 10.
pub fn type_slots_needed(data: &[u8], mode: Mode) -> Result<usize, Refusal> {
    needed(|slots| fill(data, slots, mode))
}

/// The starts of an upload's accepted data types, for [`DataTypeIndex::over`]. Refusals: 5, 10.
#[cfg(feature = "alloc")]
pub fn type_starts_to_vec(data: &[u8], mode: Mode) -> Result<Vec<u32>, Refusal> {
    let mut starts = vec![0; type_slots_needed(data, mode)?];
    fill(data, &mut starts, mode)?;
    Ok(starts)
}

/// Where the first accepted data type of that name starts, without an index. A match before a zero claim is answered.
/// Refusals: 5, 10, 13.
///
/// Names are compared as [`find`](crate::find) compares those of symbols: A to Z equal a to z, and every other byte equals
/// only itself.
pub fn find_data_type(data: &[u8], name: &[u8], mode: Mode) -> Result<usize, Refusal> {
    calls::find_first(sys::vindaskot_type_find_in, data, mode, name)
}

fn fill(data: &[u8], slots: &mut [u32], mode: Mode) -> Result<usize, Refusal> {
    calls::build(sys::vindaskot_type_index_build_in, data, mode, slots)
}
