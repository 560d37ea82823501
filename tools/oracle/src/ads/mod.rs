// Glue for files that were not supplied.
#[path = "../../supplied/packages/tcads-core/src/ads/error.rs"]
pub mod error;
#[path = "../../supplied/packages/tcads-core/src/ads/index_group.rs"]
pub mod index_group;
#[path = "../../supplied/packages/tcads-core/src/ads/index_offset.rs"]
pub mod index_offset;
pub mod symbol;

#[derive(Debug, Clone, Copy, PartialEq, Eq)]
pub struct StateFlag(pub u16);
