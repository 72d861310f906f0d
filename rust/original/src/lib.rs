//! The original's own text, compiled where it lies (see build.rs), with the stand-ins that
//! document 01 names, and the reading of keys and numbers that its leaf reader calls: everything
//! written in this file is a stand-in.
#![allow(dead_code, unused_imports, clippy::all)]

/// Whether the original's folder was there when this was built.
pub const HERE: bool = cfg!(original_here);

pub mod chunk {
    use crate::error::Result;
    use crate::superblock::le64;

    pub const DISK_KEY_SIZE: usize = 17;

    #[derive(Debug, Clone, Copy, PartialEq, Eq, PartialOrd, Ord, Hash)]
    pub struct DiskKey {
        pub objectid: u64,
        pub key_type: u8,
        pub offset: u64,
    }

    impl DiskKey {
        /// The original asks the length of an item's header before it calls this.
        pub fn parse(buf: &[u8]) -> Result<Self> {
            Ok(DiskKey { objectid: le64(buf, 0), key_type: buf[8], offset: le64(buf, 9) })
        }
    }

    pub mod key_type {
        pub const EXTENT_ITEM: u8 = 168;
        pub const METADATA_ITEM: u8 = 169;
    }
}

pub mod error {
    #[derive(Debug, Clone, PartialEq, Eq)]
    pub enum Error {
        UnsupportedFeature(String),
        BadSuperblock(String),
    }

    pub type Result<T> = std::result::Result<T, Error>;
}

pub mod tree_write {
    use crate::chunk::DiskKey;

    #[derive(Debug, Clone, Copy)]
    pub struct LeafItem<'a> {
        pub key: DiskKey,
        pub data: &'a [u8],
    }

    /// 101 plus, per item, 25 plus its data length.
    pub fn space_needed(items: &[LeafItem<'_>]) -> usize {
        101 + items.iter().map(|item| 25 + item.data.len()).sum::<usize>()
    }
}

pub mod superblock {
    pub struct Superblock {
        pub incompat_flags: u64,
    }

    pub mod incompat {
        pub const SKINNY_METADATA: u64 = 1 << 8;
    }

    pub fn le32(buf: &[u8], at: usize) -> u32 {
        u32::from_le_bytes(buf[at..at + 4].try_into().unwrap())
    }

    pub fn le64(buf: &[u8], at: usize) -> u64 {
        u64::from_le_bytes(buf[at..at + 8].try_into().unwrap())
    }
}

pub mod block_group {
    pub struct BlockGroup {
        pub start: u64,
        pub length: u64,
        pub used: u64,
    }

    impl BlockGroup {
        pub fn free(&self) -> u64 {
            self.length - self.used
        }
    }
}

#[cfg(original_here)]
pub mod btree {
    include!(concat!(env!("OUT_DIR"), "/btree.rs"));
}

#[cfg(original_here)]
include!(concat!(env!("OUT_DIR"), "/modules.rs"));

#[cfg(original_here)]
#[path = "transaction.rs"]
pub mod transaction;
