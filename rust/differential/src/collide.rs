//! Another triple with the same hash: CRC32C can be run backwards, so one is easily found.
use model::hash::{data_ref_hash, register};

/// The register before it was run over `count` zero bytes.
fn back(mut register: u32, count: usize) -> u32 {
    for _ in 0..8 * count {
        // The polynomial's top bit is set, so the register's top bit says whether it was xored in.
        register =
            if register >> 31 == 1 { ((register ^ 0x82f6_3b78) << 1) | 1 } else { register << 1 };
    }
    register
}

/// A triple of another inode with the same hash.
pub fn collide([tree, objectid, offset]: [u64; 3], other: u64) -> [u64; 3] {
    let wanted = register(u32::MAX, &[objectid.to_le_bytes(), offset.to_le_bytes()].concat());
    let before = register(u32::MAX, &other.to_le_bytes());
    // Four bytes run like zero bytes over the register xored with them; the upper four stay 0.
    let low = back(wanted, 8) ^ before;
    let found = [tree, other, u64::from(low)];
    debug_assert_eq!(
        data_ref_hash(found[0], found[1], found[2]),
        data_ref_hash(tree, objectid, offset)
    );
    found
}

#[test]
fn same_hash() {
    for other in 0..50 {
        let [a, b, c] = collide([5, 257, 4096], other);
        assert_eq!(data_ref_hash(a, b, c), data_ref_hash(5, 257, 4096));
    }
}
