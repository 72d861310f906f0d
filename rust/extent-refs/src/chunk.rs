//! The key of an item.

/// Keys compare by objectid, type, offset.
#[derive(Debug, Clone, Copy, PartialEq, Eq, PartialOrd, Ord, Hash)]
pub struct DiskKey {
    pub objectid: u64,
    pub key_type: u8,
    pub offset: u64,
}

pub mod key_type {
    pub const EXTENT_ITEM: u8 = 168;
    pub const METADATA_ITEM: u8 = 169;
}
