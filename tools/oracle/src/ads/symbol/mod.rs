// Glue for files that were not supplied. The length of an array record is the maker's header's: these runs can't confirm it.
pub use super::error;

#[path = "../../../supplied/packages/tcads-core/src/ads/symbol/attributes.rs"]
mod attributes;
#[path = "../../../supplied/packages/tcads-core/src/ads/symbol/field_info.rs"]
mod field_info;
#[path = "../../../supplied/packages/tcads-core/src/ads/symbol/guid.rs"]
mod guid;
#[path = "../../../supplied/packages/tcads-core/src/ads/symbol/refactor_info.rs"]
mod refactor_info;
#[path = "../../../supplied/packages/tcads-core/src/ads/symbol/symbol_flags.rs"]
mod symbol_flags;
#[path = "../../../supplied/packages/tcads-core/src/ads/symbol/symbol_info.rs"]
pub mod symbol_info;
#[path = "../../../supplied/packages/tcads-core/src/ads/symbol/type_flags.rs"]
mod type_flags;
#[path = "../../../supplied/packages/tcads-core/src/ads/symbol/type_id.rs"]
mod type_id;

pub use attributes::*;
pub use field_info::*;
pub use guid::*;
pub use refactor_info::*;
pub use symbol_flags::*;
pub use symbol_info::AdsSymbolInfo;
pub use type_flags::*;
pub use type_id::*;

pub struct AdsArrayInfo;

impl AdsArrayInfo {
    pub const LENGTH: usize = 8;
}
