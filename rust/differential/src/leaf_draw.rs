//! Images of leaves: whole, damaged in one way or more, sealed again or not, and at the limits.
use crate::random::Random;
use crate::tables;
use model::hash::CRC32C;
use model::leaf::{head, HEADER, ITEM};
use model::sheet::{Item, Key};
use std::ops::Range;
use std::sync::OnceLock;

/// A count of headers whose length is 4 in 32 bits.
const WRAPS: u32 = 171_798_692;

/// The register after a run, by a table that a division of polynomials gives: quicker than the model,
/// which goes from bit to bit, and with nothing in common.
pub fn register(from: u32, bytes: &[u8]) -> u32 {
    static TABLE: OnceLock<[u32; 256]> = OnceLock::new();
    let table =
        TABLE.get_or_init(|| std::array::from_fn(|n| tables::entry(CRC32C, n.to_le_bytes()[0])));
    let step = |r: u32, byte: &u8| (r >> 8) ^ table[usize::from(r.to_le_bytes()[0] ^ byte)];
    bytes.iter().fold(from, step)
}

/// The image with its checksum.
pub fn sealed(mut image: Vec<u8>) -> Vec<u8> {
    if image.len() > 32 {
        let sum = !register(u32::MAX, &image[32..]);
        image[..4].copy_from_slice(&sum.to_le_bytes());
    }
    image
}

/// The image of a leaf, put together from its parts: header, items' headers, gap, data, the last
/// item's first.
pub fn whole(nodesize: usize, header: &[u8], items: &[Item]) -> Vec<u8> {
    let mut end = nodesize - HEADER;
    let mut heads = Vec::new();
    let mut data: Vec<&[u8]> = Vec::new();
    for item in items {
        end -= item.data.len();
        heads.extend(head(item, end as u32, item.data.len() as u32));
        data.push(&item.data);
    }
    data.reverse();
    let gap = vec![0; end - heads.len()];
    let count = (items.len() as u32).to_le_bytes();
    let front = [&[0; 32][..], &header[32..96], &count, &[0]].concat();
    sealed([front, heads, gap, data.concat()].concat())
}

/// Where the gap is of an image that is packed.
pub fn gap(items: &[Item], nodesize: usize) -> Range<usize> {
    let data: usize = items.iter().map(|i| i.data.len()).sum();
    HEADER + ITEM * items.len()..nodesize - data
}

/// The image as the writer has it: bytes 4 to 31 and the gap cleared, and sealed.
pub fn cleared(mut image: Vec<u8>, gap: Range<usize>) -> Vec<u8> {
    image[4..32].fill(0);
    image[gap].fill(0);
    sealed(image)
}

/// The same leaf with anything in bytes 4 to 95 and in the gap, sealed.
pub fn disturbed(r: &mut Random, mut image: Vec<u8>, gap: Range<usize>) -> Vec<u8> {
    image[4..96].fill_with(|| r.next() as u8);
    image[gap].fill_with(|| r.next() as u8);
    sealed(image)
}

/// Any 101 bytes, for the writer.
pub fn header(r: &mut Random) -> Vec<u8> {
    (0..HEADER).map(|_| r.next() as u8).collect()
}

/// Mostly small, so that many are compared, and at the limits.
pub fn nodesize(r: &mut Random) -> usize {
    match r.below(200) {
        0 => 65_536,
        1 => 65_535,
        2 => 501 + r.below(65_036),
        3 | 4 => 16_384,
        5..=14 => 4_096,
        15..=40 => 501,
        41..=60 => 502 + r.below(30),
        _ => 501 + r.below(700),
    }
}

/// The key after this one: each part of it decides now and then, by any of its bits.
fn next_key(r: &mut Random, (objectid, kind, offset): Key) -> Key {
    match r.below(4) {
        0 if kind < 255 => (objectid, kind + 1 + r.below(255 - usize::from(kind)) as u8, r.field()),
        1 | 2 if offset < 1 << 63 => (objectid, kind, offset + (1 << r.below(60))),
        _ => (objectid + (1 << r.below(44)), r.next() as u8, r.field()),
    }
}

/// Items in order that a leaf of that size holds: none, as many as can be, one that fills it, as many
/// as there is room for, some.
pub fn items(r: &mut Random, nodesize: usize) -> Vec<Item> {
    let mut left = nodesize - HEADER;
    let (form, fills) = (r.below(10), r.chance(1, 3));
    let mut key = (r.pick(&[0, 1, 4096, 1 << 63]), r.next() as u8, r.field());
    let mut items = Vec::new();
    while left >= ITEM && form > 0 {
        let most = left - ITEM;
        let length = match form {
            1 => 0,
            2 => most,
            _ if fills && r.chance(1, 4) => most,
            _ => r.pick(&[0, 1, 4, 9, 24, 28, 33, 53, 70, 300]).min(most),
        };
        let (objectid, kind, offset) = key;
        let data = (0..length).map(|_| r.next() as u8).collect();
        items.push(Item::new(objectid, kind, offset, data));
        left -= ITEM + length;
        if form > 3 && r.chance(1, 9) {
            break;
        }
        key = next_key(r, key);
    }
    items
}

/// An image and the nodesize that it is asked with.
pub type Drawn = (u64, Vec<u8>);

/// A leaf, mostly damaged, mostly sealed.
pub fn image(r: &mut Random) -> Drawn {
    let size = nodesize(r);
    let items = items(r, size);
    let mut image = whole(size, &header(r), &items);
    if r.chance(1, 2) {
        image = disturbed(r, image, gap(&items, size));
    }
    for _ in 0..r.pick(&[0, 0, 1, 1, 1, 1, 2, 3]) {
        damage(r, &mut image, items.len());
    }
    if r.chance(19, 20) {
        image = sealed(image);
    }
    match r.below(40) {
        0 | 1 => {
            let at = r.below(image.len());
            image[at] ^= 1 << r.below(8);
        }
        2 => image[4..32].fill_with(|| r.next() as u8),
        3 => image.resize(r.pick(&[0, 1, 100, 101, 500, size - 1, size + 1, 2 * size]), 0),
        4 => return beside(r, image),
        _ => {}
    }
    (size as u64, image)
}

/// A nodesize that is out of range, mostly with an image of that length; or that is another.
fn beside(r: &mut Random, mut image: Vec<u8>) -> Drawn {
    let size =
        r.pick(&[0, 1, 101, 499, 500, 65_537, 65_537, 131_072, 1 << 31, u32::MAX, 501, 4_096]);
    if size <= 131_072 && r.chance(3, 4) {
        image.resize(size as usize, 0);
        image = sealed(image);
    }
    (size.into(), image)
}

fn get(image: &[u8], at: usize) -> u32 {
    model::asked::le32(&image[at..])
}

fn put(image: &mut [u8], at: usize, number: u32) {
    image[at..at + 4].copy_from_slice(&number.to_le_bytes());
}

/// An image of so many items with one thing changed or two, sealed.
pub fn damaged(r: &mut Random, image: &[u8], count: usize) -> Vec<u8> {
    let mut image = image.to_vec();
    for _ in 0..r.pick(&[1, 1, 2]) {
        damage(r, &mut image, count);
    }
    sealed(image)
}

/// One thing changed before the image is sealed.
fn damage(r: &mut Random, image: &mut [u8], count: usize) {
    if count == 0 || r.chance(1, 6) {
        return of_header(r, image, count as u32);
    }
    let number = r.below(count);
    match r.below(8) {
        0..=2 => of_place(r, image, number),
        3 => of_later(r, image, number, count),
        4 | 5 => of_keys(r, image, number, count),
        6 => {
            let at = HEADER + r.below(ITEM * count);
            image[at] ^= 1 << r.below(8);
        }
        _ => of_key(r, image, number),
    }
}

/// The count or the level, or what plays no part.
fn of_header(r: &mut Random, image: &mut [u8], count: u32) {
    let fit = ((image.len() - HEADER) / ITEM) as u32;
    match r.below(10) {
        0 | 1 => image[100] = r.pick(&[1, 1, 2, 7, 128, 255]),
        2 => image[32 + r.below(64)] ^= 1 << r.below(8),
        _ => {
            let near = [count.wrapping_sub(1), count + 1, count + 256, fit, fit + 1, 0];
            let far = [WRAPS, WRAPS + count, WRAPS - 1, 1 << 31, 1 << 24, u32::MAX];
            let all = [near, far].concat();
            put(image, 96, r.pick(&all));
        }
    }
}

/// Position and size of one item: one of them, both with the same sum, or a sum that wraps.
fn of_place(r: &mut Random, image: &mut [u8], number: usize) {
    let at = HEADER + ITEM * number + 17;
    let (position, size) = (get(image, at), get(image, at + 4));
    let any = r.next() as u32;
    let step = r.pick(&[1, 1, 2, 25, any & 0xff, any, 1 << 31]);
    let (position, size) = match r.below(8) {
        0 => (position.wrapping_add(step), size),
        1 => (position.wrapping_sub(step), size),
        2 => (position, size.wrapping_add(step)),
        3 => (position, size.wrapping_sub(step)),
        4 => (position.wrapping_sub(step), size.wrapping_add(step)),
        5 => (position.wrapping_add(step), size.wrapping_sub(step)),
        6 => (step.wrapping_neg(), position.wrapping_add(size).wrapping_add(step)),
        _ => (r.pick(&[0, 24, 25, u32::MAX]), r.pick(&[0, size, u32::MAX])),
    };
    put(image, at, position);
    put(image, at + 4, size);
}

/// All data from one item on moved down: a hole before it, or past the image's end; or two headers
/// that change places.
fn of_later(r: &mut Random, image: &mut [u8], number: usize, count: usize) {
    if r.chance(1, 3) {
        let other = r.below(count);
        return swap(image, number, other, ITEM);
    }
    let step = r.pick(&[1, 1, 25, 200, u32::MAX]);
    for later in number..count {
        let at = HEADER + ITEM * later + 17;
        let position = get(image, at).wrapping_sub(step);
        put(image, at, position);
    }
}

fn swap(image: &mut [u8], one: usize, other: usize, length: usize) {
    for at in 0..length {
        image.swap(HEADER + ITEM * one + at, HEADER + ITEM * other + at);
    }
}

/// Two keys that change places, or are the same.
fn of_keys(r: &mut Random, image: &mut [u8], number: usize, count: usize) {
    let other = if r.chance(2, 3) { (number + 1) % count } else { r.below(count) };
    if r.chance(1, 2) {
        return swap(image, number, other, 17);
    }
    let at = HEADER + ITEM * number;
    image.copy_within(at..at + 17, HEADER + ITEM * other);
}

/// One part of one key.
fn of_key(r: &mut Random, image: &mut [u8], number: usize) {
    let at = HEADER + ITEM * number;
    let (start, end) = r.pick(&[(0, 8), (8, 9), (9, 17)]);
    let byte = r.pick(&[0, 1, 255]);
    image[at + start..at + end].fill(byte);
}

/// Every length beside the right one; every count about those that fit and that wrap; positions and
/// sizes at their limits; and leaves of each form at the limits of the nodesize.
pub fn edges(r: &mut Random) -> Vec<Drawn> {
    let plain = |size: usize| whole(size, &[0; HEADER], &[]);
    let mut list: Vec<Drawn> = (0..=520).map(|length| (501, sealed(vec![0; length]))).collect();
    list.extend([500, 65_537, 262_144].map(|length| (length, sealed(vec![0; length as usize]))));
    list.push((501, vec![0; 262_144]));
    let counts = (0..20).chain(WRAPS - 2..WRAPS + 20).chain([1 << 31, u32::MAX]);
    for count in counts {
        let mut image = plain(501);
        put(&mut image, 96, count);
        list.push((501, sealed(image)));
    }
    let numbers = [0, 1, 24, 25, 26, 374, 375, 376, 399, 400, 401, 1 << 31, u32::MAX];
    for position in numbers {
        let sums = [400, 401, 375].map(|sum: u32| sum.wrapping_sub(position));
        for size in numbers.into_iter().chain(sums) {
            let mut image = plain(501);
            put(&mut image, 96, 1);
            put(&mut image, HEADER + 17, position);
            put(&mut image, HEADER + 21, size);
            list.push((501, sealed(image)));
        }
    }
    for size in [501, 502, 4_096, 16_384, 65_535, 65_536] {
        for _ in 0..12 {
            let items = items(r, size);
            list.push((size as u64, whole(size, &header(r), &items)));
        }
    }
    list
}

#[test]
fn each_refusal_comes_up_often() {
    let mut r = Random::new(1);
    let mut codes = std::collections::BTreeMap::new();
    for _ in 0..4_000 {
        let (nodesize, image) = image(&mut r);
        let code = match model::leaf::read(nodesize as u32, &image) {
            Ok(_) => 0,
            Err(model::asked::Stop::Refused(number)) => number,
            Err(_) => unreachable!("an image is never absent"),
        };
        *codes.entry(code).or_insert(0) += 1;
    }
    assert_eq!(codes.keys().copied().collect::<Vec<u32>>(), [0, 2, 3, 23, 24]);
    assert!(codes.values().all(|&often| often >= 40), "{codes:?}");
}

#[test]
fn whole_leaves_are_read_back() {
    let mut r = Random::new(2);
    for _ in 0..300 {
        let size = nodesize(&mut r);
        let items = items(&mut r, size);
        let image = whole(size, &header(&mut r), &items);
        assert_eq!(model::leaf::read(size as u32, &image), Ok(model::sheet::bytes(&items)));
        let other = disturbed(&mut r, image.clone(), gap(&items, size));
        assert_eq!(model::leaf::packed(&other), Some(items));
    }
}
