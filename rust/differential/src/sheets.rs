//! Item lists: balanced, nearly balanced, loose, out of order, damaged, and at the limits.
use crate::bodies;
use crate::random::Random;
use model::body::{
    keyed_data_ref_body, Body, Reference, BLOCK, DATA, OWNER, SHARED_BLOCK, SHARED_DATA,
};
use model::hash::data_ref_hash;
use model::sheet::{bytes, Item};

/// The extents that lists and parameters draw from.
pub fn extent(r: &mut Random) -> u64 {
    if r.chance(1, 12) {
        r.field()
    } else {
        4096 * (1 + r.below(4) as u64)
    }
}

/// The item of its own that a reference would be.
pub fn item_of(extent: u64, reference: &Reference) -> Item {
    let f = &reference.fields;
    let count = reference.count.unwrap_or(0);
    match reference.kind {
        DATA => Item::new(
            extent,
            DATA,
            data_ref_hash(f[0], f[1], f[2]),
            keyed_data_ref_body([f[0], f[1], f[2]], count),
        ),
        SHARED_DATA => Item::new(extent, SHARED_DATA, f[0], count.to_le_bytes().to_vec()),
        kind => Item::new(extent, kind, f[0], vec![]),
    }
}

/// The record and reference items of one extent, balanced.
pub fn extent_items(r: &mut Random, extent: u64) -> Vec<Item> {
    let mut names: Vec<Reference> = Vec::new();
    for _ in 0..r.below(7) {
        let mut new = bodies::reference(r);
        if new.count.is_some_and(|c| c == 0) {
            new.count = Some(1);
        }
        if new.kind != OWNER && names.iter().all(|n| !n.is(new.kind, &new.fields)) {
            names.push(new);
        }
    }
    let total = names.iter().map(|n| n.weight()).sum();
    let mut inline = Vec::new();
    let mut items = Vec::new();
    for name in names {
        if r.chance(1, 4) {
            items.push(item_of(extent, &name));
        } else {
            inline.push(name);
        }
    }
    bodies::in_order(&mut inline);
    if r.chance(1, 6) {
        inline.insert(0, Reference { kind: OWNER, fields: vec![r.field()], count: None });
    }
    let item_type = r.pick(&[168, 168, 169]);
    let flags = if item_type == 169 { 2 } else { r.pick(&[1, 1, 2]) };
    let offset = if item_type == 169 { r.below(3) as u64 } else { 4096 };
    let body = Body { total, fixed: bodies::fixed(r, item_type, flags), references: inline };
    items.push(Item::new(extent, item_type, offset, body.bytes()));
    if r.chance(1, 8) {
        // A type that the books ignore.
        items.push(Item::new(extent, r.pick(&[0, 172, 192, 255]), r.field(), vec![7; r.below(5)]));
    }
    items
}

pub fn balanced(r: &mut Random) -> Vec<Item> {
    let mut items = Vec::new();
    for number in 1..=4 {
        if r.chance(2, 3) {
            items.extend(extent_items(r, 4096 * number));
        }
    }
    if r.chance(1, 10) {
        items.extend(extent_items(r, u64::MAX));
    }
    in_order(&mut items);
    items
}

pub fn in_order(items: &mut Vec<Item>) {
    items.sort_by_key(|i| i.key);
    items.dedup_by_key(|i| i.key);
}

fn loose(r: &mut Random) -> Vec<Item> {
    let mut items: Vec<Item> = (0..r.below(9))
        .map(|_| {
            let kind =
                r.pick(&[168, 168, 169, 169, BLOCK, DATA, SHARED_BLOCK, SHARED_DATA, OWNER, 1]);
            let data = match kind {
                168 | 169 => bodies::body(r, kind),
                _ => (0..r.pick(&[0, 0, 4, 28, 24, 1, 27])).map(|_| r.below(3) as u8).collect(),
            };
            let offset = if kind == 169 { r.below(3) as u64 } else { r.field() };
            Item::new(extent(r), kind, offset, data)
        })
        .collect();
    in_order(&mut items);
    items
}

/// A balanced list with one thing wrong, or right in another way.
fn nearly(r: &mut Random) -> Vec<Item> {
    let mut items = balanced(r);
    if items.is_empty() {
        return items;
    }
    let at = r.below(items.len());
    let item = &mut items[at];
    match r.below(7) {
        0 => item.data = bodies::damaged(r, std::mem::take(&mut item.data)),
        1 => {
            if item.data.len() >= 24 {
                item.data[0] = item.data[0].wrapping_add(r.pick(&[1, 255, 2]));
            }
        }
        2 => {
            // References of a record in another order.
            if let Ok(mut body) = Body::read(item.key.1, &item.data) {
                r.shuffle(&mut body.references);
                item.data = body.bytes();
            }
        }
        3 => item.key.2 = item.key.2.wrapping_add(r.pick(&[1, u64::MAX, 4096])),
        4 => {
            items.remove(at);
        }
        5 => {
            let mut twice = item.clone();
            twice.key.1 = r.pick(&[168, 169, DATA, SHARED_DATA]);
            items.push(twice);
        }
        _ => {
            let length = item.data.len();
            if length >= 4 {
                item.data[length - 4..].fill(0);
            }
        }
    }
    if r.chance(9, 10) {
        in_order(&mut items);
    }
    items
}

/// Many items, or long ones, on both sides of the limits of question 1.
pub fn large(r: &mut Random) -> Vec<u8> {
    let (count, length) = match r.below(5) {
        0 => (4_094 + r.below(4), 0),
        1 => (4_095 + r.below(3), r.below(44)),
        2 => (4, 65_530 - 20 + r.below(24)),
        3 => (3, 65_533 + r.below(4)),
        _ => (200, 1_280 + r.below(40)),
    };
    let mut items: Vec<Item> =
        (0..count as u64).map(|n| Item::new(n, 1, 0, vec![1; length])).collect();
    if r.chance(1, 2) {
        let body = bodies::body(r, 168);
        items[0] = Item::new(0, 168, 0, body);
    }
    bytes(&items)
}

/// A list of records, filled up with items so that little room is left under the limit.
pub fn nearly_full(r: &mut Random) -> Vec<u8> {
    let mut items = balanced(r);
    items.retain(|i| i.key.0 != u64::MAX);
    let mut left = 262_144 - bytes(&items).len() - r.below(32);
    while left > 21 {
        let data = (left - 21).min(65_535);
        items.push(Item::new(u64::MAX, 1, left as u64, vec![0; data]));
        left -= data + 21;
    }
    in_order(&mut items);
    bytes(&items)
}

/// Of a list, its bytes; one time in eight damaged.
pub fn sheet(r: &mut Random) -> Vec<u8> {
    if r.chance(1, 300) {
        return large(r);
    }
    if r.chance(1, 300) {
        return nearly_full(r);
    }
    let mut items = match r.below(10) {
        0..=4 => balanced(r),
        5 | 6 => nearly(r),
        _ => loose(r),
    };
    if r.chance(1, 20) && items.len() > 1 {
        let (a, b) = (r.below(items.len()), r.below(items.len()));
        items.swap(a, b);
    }
    let mut sheet = bytes(&items);
    if r.chance(1, 8) {
        match r.below(4) {
            0 => sheet.truncate(r.below(sheet.len() + 1)),
            1 => {
                let at = r.below(sheet.len());
                sheet[at] ^= 1 << r.below(8);
            }
            2 => sheet.extend((0..r.below(30)).map(|_| r.below(3) as u8)),
            _ => sheet[0] = r.below(4) as u8,
        }
    }
    sheet
}

/// Items in order, all of similar size, for the splitting calls.
pub fn to_split(r: &mut Random) -> Vec<u8> {
    let most = r.pick(&[4, 12, 40]);
    let items: Vec<Item> = (0..r.below(most) as u64)
        .map(|n| Item::new(n, 1, 0, vec![0; r.pick(&[0, 1, 40, 175, 176, 374, 375, 376, 900])]))
        .collect();
    bytes(&items)
}

/// Every sheet of up to two bytes, and single items of every short length, torn and whole.
pub fn short() -> Vec<Vec<u8>> {
    let mut list = vec![vec![]];
    list.extend((0..=255).map(|b| vec![b]));
    list.extend((0..=255).map(|b| vec![1, b]));
    for length in (0..=40u32).chain([65_551, 65_552, 65_553, 1 << 24, u32::MAX]) {
        let there = [
            0,
            1,
            length.saturating_sub(1),
            length,
            length.saturating_add(1),
            length.saturating_add(22),
        ];
        for bytes in there.into_iter().filter(|&n| n < 70_000) {
            let mut sheet = [&[1][..], &length.to_be_bytes(), &vec![0; bytes as usize]].concat();
            list.push(sheet.clone());
            if sheet.len() > 13 {
                sheet[13] = 168;
                list.push(sheet);
            }
        }
    }
    // Two items whose keys differ in one part, in both orders and equal.
    let keys = [(0, 0, 0), (0, 0, 1), (0, 1, 0), (1, 0, 0), (0, 168, 0), (0, 169, 0), (256, 0, 0)];
    for a in keys {
        for b in keys {
            list.push(bytes(&[Item { key: a, data: vec![] }, Item { key: b, data: vec![9] }]));
        }
    }
    list
}
