//! Document 01's marked cases, its lister example, and of document 02 the tables of ticket 2, the word
//! steps of ticket 3 and the images of ticket 4, on the model.
use crate::asked::Stop::{Refused, Remove};
use crate::body::*;
use crate::sheet::{bytes, insert, split_to_fit, Item};
use crate::{apply, hash, leaf, lister};

fn e() -> Vec<u8> {
    data_extent_body(7, 5, 257, 0)
}

fn with(length: usize, flags: u8, total: u8) -> Vec<u8> {
    let mut body = vec![0; length];
    body[16] = flags;
    body[0] = total;
    body
}

#[test]
fn marked() {
    // a
    assert_eq!(inline_refs(168, &[0; 23]), Err(Refused(6)));
    assert_eq!(inline_refs(168, &[0; 24]), Ok(vec![]));
    // b
    assert_eq!(inline_refs(168, &with(41, 2, 0)), Err(Refused(6)));
    assert_eq!(inline_refs(168, &with(42, 2, 0)), Ok(vec![]));
    // c
    assert_eq!(raise_total(&with(30, 2, 1), 1), Ok(with(30, 2, 2)));
    // d, e
    assert_eq!(e().len(), 53);
    let two = add_inline_data_ref(168, &e(), [5, 257, 0]).unwrap();
    assert_eq!((two.len(), two[0], two[49]), (53, 2, 2));
    assert_eq!(drop_inline_data_ref(168, &two, [5, 257, 0]), Ok(e()));
    assert_eq!(drop_inline_data_ref(168, &e(), [5, 257, 0]), Err(Refused(13)));
    // f
    let skinny = tree_block_body(7, 5);
    assert_eq!(add_inline_tree_ref(169, &skinny, 5), Err(Refused(9)));
    let before = add_inline_tree_ref(169, &skinny, 7).unwrap();
    assert_eq!((before[25], before[34]), (7, 5));
    let after = add_inline_tree_ref(169, &skinny, 3).unwrap();
    assert_eq!((after[25], after[34]), (5, 3));
    // g
    let zero = add_inline_shared(168, &e(), 184, 9, 0).unwrap();
    assert_eq!((zero.len(), zero[0]), (66, 1));
    // h
    let limits = [4096, 16384, 501, 500].map(apply::max_inline_extent_item);
    assert_eq!(limits, [Ok(224), Ok(992), Ok(0), Err(Refused(3))]);
    // i
    let keyed = |count| drop_keyed_data_ref(&keyed_data_ref_body([1, 2, 3], count), [1, 2, 3]);
    assert_eq!((keyed(0), keyed(1)), (Err(Refused(16)), Err(Remove)));
    // j
    let list =
        |n: u64| bytes(&(0..n).map(|i| Item::new(i, 1, 0, vec![0; 175])).collect::<Vec<_>>());
    let cuts = [3, 4, 5].map(|n| split_to_fit(501, &list(n)).unwrap());
    assert_eq!(cuts, [vec![1], vec![2], vec![2, 4]]);
    // k
    let alone = |length| insert(501, &[1], Item::new(0, 0, 0, vec![0; length]));
    assert!(alone(375).is_ok());
    assert_eq!(alone(376), Err(Refused(18)));
}

#[test]
fn listed() {
    let listed = lister::listed(&[vec![168], e()].concat());
    assert_eq!(listed, "24 1 1 1\n178 5 257 0 1\n");
    assert_eq!(lister::listed(&[]), "refused 6\n");
    assert_eq!(lister::listed(&[168; 65_537]), "refused 3\n");
}

/// RFC 3720, B.4.
#[test]
fn vectors() {
    assert_eq!(hash::checksum(&[0; 32]), 0x8a91_36aa);
    assert_eq!(hash::checksum(&[255; 32]), 0x62a8_ab43);
    assert_eq!(hash::checksum(&(0..32).collect::<Vec<u8>>()), 0x46dd_794e);
    assert_eq!(hash::checksum(&(0..32).rev().collect::<Vec<u8>>()), 0x113f_db5c);
}

#[test]
fn word_steps() {
    for same in [0, 1, 0x80, 0x6463_6261, hash::CRC32C, 1 << 31, u32::MAX] {
        assert_eq!(hash::word_step(same, same), 0);
    }
    assert_eq!(hash::word_step(u32::MAX, 0), 0xb798_b438);
    assert_eq!(hash::word_step(u32::MAX, u32::from_le_bytes(*b"abcd")), 0x6d37_f5ce);
    assert_eq!(hash::word_step(0, 0x8000_0000), 0x82f6_3b78);
    assert_eq!(hash::word_step(0, 1), 0xdd45_aab8);
}

#[test]
fn tables() {
    let lines = |p| hash::table_text(p).lines().map(str::to_string).collect::<Vec<_>>();
    let crc32c = lines(hash::CRC32C);
    assert_eq!((&crc32c[0][..], &crc32c[1][..]), ("00000000", "f26b8303"));
    assert_eq!((&crc32c[128][..], &crc32c[255][..]), ("82f63b78", "ad7d5351"));
    assert_eq!(hash::table_text(0), "00000000\n".repeat(256));
    assert_eq!(lines(1)[250..].concat(), "000000000000000100000000000000010000000100000000");
    let other = lines(0xedb8_8320);
    assert_eq!((&other[1][..], &other[255][..]), ("77073096", "2d02ef8d"));
    let ones = lines(u32::MAX);
    assert_eq!((&ones[1][..], &ones[255][..]), ("02000000", "01ffffff"));
}

#[test]
fn images() {
    let empty = leaf::write(501, &[0; 101], &[1]).unwrap();
    assert_eq!(empty[..4], [0x4b, 0x15, 0xdb, 0x7c]);
    assert_eq!(leaf::read(501, &empty), Ok(vec![1]));
    let counting: Vec<u8> = (0..101).collect();
    assert_eq!(leaf::write(501, &counting, &[1]).unwrap()[..4], [0x6d, 0xf0, 0xa7, 0xc3]);
    let sheet = bytes(&[Item::new(4096, 168, 4096, e())]);
    let image = leaf::write(4096, &[0; 101], &sheet).unwrap();
    assert_eq!(image[..4], [0xa3, 0x80, 0x47, 0xfe]);
    let head = [0, 16, 0, 0, 0, 0, 0, 0, 168, 0, 16, 0, 0, 0, 0, 0, 0, 0x66, 15, 0, 0, 53, 0, 0, 0];
    assert_eq!(image[101..126], head);
    assert_eq!(leaf::read(4096, &image), Ok(sheet));
    let one = |length| leaf::write(501, &[0; 101], &bytes(&[Item::new(0, 0, 0, vec![0; length])]));
    assert!(one(375).is_ok());
    assert_eq!(one(376), Err(Refused(18)));
    assert_eq!(leaf::read(501, &[0; 501]), Err(Refused(23)));
    assert_eq!(leaf::read(500, &[0; 500]), Err(Refused(3)));
}
