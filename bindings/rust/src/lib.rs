#![cfg_attr(feature = "alloc", doc = include_str!("../README.md"))]
#![cfg_attr(
    not(feature = "alloc"),
    doc = "Reads, walks, writes, indexes and finds in TwinCAT symbol uploads, with no allocator: README.md has all."
)]
#![no_std]
#![deny(missing_docs)]
#![deny(clippy::undocumented_unsafe_blocks)]

#[cfg(feature = "alloc")]
extern crate alloc;

pub mod attributes;
pub mod bind;
pub mod block;
mod calls;
pub mod captures;
pub mod data_type;
pub mod field;
pub mod flags;
pub mod index;
pub mod mode;
pub mod name_index;
pub mod plain;
pub mod refactor_info;
pub mod refusal;
pub mod salvage;
pub mod sheet;
pub mod symbol;
mod sys;
pub mod text;
mod told;
pub mod type_index;
pub mod walk;
pub mod why;

pub use attributes::{AdsAttribute, AdsAttributes, AttributeWriter};
#[cfg(feature = "alloc")]
pub use bind::Binder;
pub use bind::{Address, Source, bind};
pub use block::Block;
pub use data_type::{
    ArrayInfo, ArrayInfos, DataType, DataTypeIterator, MEMBER_SLOTS, Member, MemberPlace, Members,
};
pub use field::{AdsFieldInfo, AdsFieldInfoIterator, FieldNumbers, FieldParts};
pub use flags::{AdsSymbol2Flags, AdsSymbolFlags, AdsTypeFlags, IndexGroup, IndexOffset};
pub use index::{Index, ROOM_MOST, Starts, find, find_in, room};
pub use mode::Mode;
pub use name_index::{Entries, HeldIndex, NameIndex, Named, branch_of};
#[cfg(feature = "alloc")]
pub use name_index::{SymbolIndex, TypeIndex};
pub use plain::check_plain;
pub use refactor_info::{AdsRefactorInfo, AdsRefactorInfos, RefactorWriter};
pub use refusal::{LIMIT, Refusal, RefusalKind};
pub use salvage::{Run, Runs, Salvage, salvage, salvage_in};
#[cfg(feature = "alloc")]
pub use salvage::{Salvaged, salvage_to_vec, salvage_to_vec_in};
pub use sheet::{export_sheet, import_sheet};
#[cfg(feature = "alloc")]
pub use sheet::{export_sheet_to_string, import_sheet_to_vec};
pub use symbol::{AdsSymbolInfo, AdsSymbolInfoIterator, SymbolNumbers, SymbolParts};
pub use type_index::{DataTypeIndex, find_data_type};
pub use walk::{WalkEnd, Walked, walk};
pub use why::{Reason, Reasons};
