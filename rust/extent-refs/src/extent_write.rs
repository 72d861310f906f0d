//! Hash and allocation bodies, as the driver's `extent_write` has them.
use crate::answer::written;
use crate::chunk::DiskKey;
use crate::lent;

pub const EXTENT_FLAG_DATA: u64 = 1 << 0;
pub const EXTENT_FLAG_TREE_BLOCK: u64 = 1 << 1;
pub const TREE_BLOCK_REF: u8 = 176;
pub const SKINNY_METADATA_ITEM_SIZE: usize = 33;

#[derive(Debug, Clone, Copy, PartialEq, Eq)]
pub struct TreeBlockAllocation {
    pub bytenr: u64,
    pub level: u8,
    pub generation: u64,
    pub owner: u64,
}

impl TreeBlockAllocation {
    pub fn key(&self) -> DiskKey {
        let (mut objectid, mut kind, mut offset) = (0, 0, 0);
        lent::extent_write_tree_block_key(
            self.bytenr,
            self.level,
            &mut objectid,
            &mut kind,
            &mut offset,
        );
        DiskKey { objectid, key_type: kind as u8, offset }
    }

    pub fn body(&self) -> [u8; SKINNY_METADATA_ITEM_SIZE] {
        let mut out = [0; SKINNY_METADATA_ITEM_SIZE];
        lent::extent_write_tree_block_body(self.generation, self.owner, &mut out, &mut 0);
        out
    }
}

pub fn data_ref_hash(tree: u64, objectid: u64, offset: u64) -> u64 {
    lent::extent_write_data_ref_hash(tree, objectid, offset)
}

/// The driver has this one in `transaction`; it is there too.
pub fn data_extent_body(generation: u64, root: u64, ino: u64, offset: u64) -> [u8; 53] {
    written(53, |out, len| {
        lent::extent_write_data_extent_body(generation, root, ino, offset, out, len)
    })
    .ok()
    .and_then(|body| body.try_into().ok())
    .expect("53 bytes fit in 53")
}
