//! Bodies: well ordered, badly ordered, damaged, and as long as they may be.
use crate::collide::collide;
use crate::random::Random;
use model::asked::le64;
use model::body::{Body, Reference, BLOCK, DATA, OWNER, SHARED_BLOCK, SHARED_DATA};
use model::hash::data_ref_hash;

pub const KINDS: [u8; 5] = [OWNER, BLOCK, DATA, SHARED_BLOCK, SHARED_DATA];

pub fn reference(r: &mut Random) -> Reference {
    match r.pick(&KINDS) {
        DATA => Reference::data(r.field(), r.field(), r.field(), r.count()),
        SHARED_DATA => Reference::shared(SHARED_DATA, r.field(), r.count()),
        kind => Reference { kind, fields: vec![r.field()], count: None },
    }
}

/// In the order that a balanced body has: types rise, first fields and hashes fall.
pub fn in_order(references: &mut [Reference]) {
    let place = |r: &Reference| match r.kind {
        DATA => data_ref_hash(r.fields[0], r.fields[1], r.fields[2]),
        _ => r.fields[0],
    };
    references.sort_by_cached_key(|r| (r.kind, std::cmp::Reverse(place(r))));
}

/// The fixed bytes after the total: generation, flags, and 18 more where they belong.
pub fn fixed(r: &mut Random, item_type: u8, flags: u64) -> Vec<u8> {
    let mut bytes = [r.field().to_le_bytes(), flags.to_le_bytes()].concat();
    if item_type == 168 && flags & 2 == 2 {
        bytes.extend((0..18).map(|_| r.next() as u8));
    }
    bytes
}

pub fn flags(r: &mut Random) -> u64 {
    match r.below(8) {
        0 => r.next(),
        1 => r.pick(&[0, 256, 257, 258, u64::MAX]),
        2 => 3,
        3 | 4 => 2,
        _ => 1,
    }
}

/// Mostly readable.
pub fn body(r: &mut Random, item_type: u8) -> Vec<u8> {
    if r.chance(1, 400) {
        return long(r, item_type);
    }
    if r.chance(1, 20) {
        return middle(r, item_type, 4096);
    }
    let mut references: Vec<_> = (0..r.below(7)).map(|_| reference(r)).collect();
    if r.chance(1, 8) {
        // Two triples of one hash.
        if let Some(data) = references.iter().find(|x| x.kind == DATA).cloned() {
            let [tree, objectid, offset] =
                collide([data.fields[0], data.fields[1], data.fields[2]], r.field());
            references.push(Reference::data(tree, objectid, offset, r.count()));
        }
    }
    if r.chance(1, 2) {
        in_order(&mut references);
    }
    if r.chance(1, 6) && references.len() > 1 {
        // The same name twice.
        let twice = references[0].clone();
        references.push(twice);
    }
    let sum = references.iter().fold(0u64, |n, x| n.wrapping_add(x.weight()));
    let total = match r.below(4) {
        0 => r.total(),
        1 => sum.wrapping_add(r.below(3) as u64).wrapping_sub(1),
        _ => sum,
    };
    let flags = flags(r);
    let bytes = Body { total, fixed: fixed(r, item_type, flags), references }.bytes();
    if r.chance(1, 4) {
        damaged(r, bytes)
    } else {
        bytes
    }
}

/// Of 344 bytes up to `most`, short ones as often as long ones: tens to thousands of references,
/// of one kind or of several, well ordered or not, now and then with a name that stands twice.
pub fn middle(r: &mut Random, item_type: u8, most: usize) -> Vec<u8> {
    let mut highest = 688;
    while highest < most && r.chance(3, 4) {
        highest *= 2;
    }
    let highest = highest.min(most);
    let target = highest / 2 + r.below(highest / 2 + 1);
    let kinds: Vec<u8> = (0..1 + r.below(4)).map(|_| r.pick(&KINDS)).collect();
    let flags = flags(r);
    let mut body = Body { total: 0, fixed: fixed(r, item_type, flags), references: vec![] };
    let mut length = body.bytes().len();
    while length + 29 <= target {
        let mut next = reference(r);
        while !kinds.contains(&next.kind) {
            next = reference(r);
        }
        // Few names are the same.
        next.fields[0] = r.below(target) as u64;
        length += next.bytes().len();
        body.references.push(next);
    }
    if r.chance(3, 4) {
        in_order(&mut body.references);
    }
    body.total = match r.below(3) {
        0 => r.total(),
        _ => body.references.iter().fold(0, |n, x| n.wrapping_add(x.weight())),
    };
    let mut bytes = body.bytes();
    // Torn, or of another type, in one place of many.
    match r.below(12) {
        0 => bytes.truncate(24 + r.below(bytes.len() - 24)),
        1 => {
            let at = r.below(bytes.len());
            bytes[at] ^= 1 << r.below(8);
        }
        _ => {}
    }
    bytes
}

/// Close to the largest length of question 3, on both sides of it.
pub fn long(r: &mut Random, item_type: u8) -> Vec<u8> {
    let kind = r.pick(&KINDS);
    let flags = flags(r);
    let target = 65_535 - 40 + r.below(48);
    let mut body = Body { total: r.total(), fixed: fixed(r, item_type, flags), references: vec![] };
    let mut length = body.bytes().len();
    let mut field = 20_000;
    while length + 29 <= target {
        field -= 1;
        let next = match kind {
            DATA => Reference::data(5, field, 0, 1),
            SHARED_DATA => Reference::shared(kind, field, 1),
            _ => Reference { kind, fields: vec![field], count: None },
        };
        length += next.bytes().len();
        body.references.push(next);
    }
    let mut bytes = body.bytes();
    if r.chance(1, 3) {
        // Past the limit, or torn inside the last reference.
        bytes.resize(target, r.pick(&KINDS));
    }
    bytes
}

/// A good body with something wrong.
pub fn damaged(r: &mut Random, mut bytes: Vec<u8>) -> Vec<u8> {
    match r.below(5) {
        0 => bytes.truncate(r.below(bytes.len() + 1)),
        1 => bytes.truncate(r.below(60)),
        2 => {
            if !bytes.is_empty() {
                let at = r.below(bytes.len());
                bytes[at] ^= 1 << r.below(8);
            }
        }
        3 => bytes.extend((0..r.below(40)).map(|_| r.next() as u8)),
        _ => {
            // A type byte of the first reference that may be no type.
            let at = if bytes.len() > 42 && r.chance(1, 2) { 42 } else { 24 };
            if let Some(byte) = bytes.get_mut(at) {
                *byte = r.next() as u8;
            }
        }
    }
    bytes
}

/// The references of a body that reads, else none.
pub fn references(item_type: u8, body: &[u8]) -> Vec<Reference> {
    Body::read(item_type, body).map_or(vec![], |b| b.references)
}

/// Every short body of a few forms: all lengths up to 62, then one reference of every type
/// byte, whole and torn at every place.
pub fn short() -> Vec<(u8, Vec<u8>)> {
    let mut list = Vec::new();
    for item_type in [168, 169, 0] {
        for flags in [0u8, 1, 2, 3] {
            for length in 0..=62 {
                let mut body = vec![0; length];
                if length > 16 {
                    body[16] = flags;
                }
                if length > 0 {
                    body[0] = length as u8 % 3;
                }
                list.push((item_type, body));
            }
            let start = if item_type == 168 && flags & 2 == 2 { 42 } else { 24 };
            for kind in 0..=255u8 {
                let lengths = if KINDS.contains(&kind) { 0..=31 } else { 8..=8 };
                for length in lengths {
                    let mut body = vec![0; start + 1 + length];
                    body[0] = 1 + length as u8 % 3;
                    body[16] = flags;
                    body[start] = kind;
                    debug_assert_eq!(le64(&body) as usize, 1 + length % 3);
                    list.push((item_type, body));
                }
            }
        }
    }
    list
}

#[test]
fn middle_bodies_have_every_length() {
    let mut r = Random::new(1);
    let lengths: Vec<usize> = (0..400).map(|_| middle(&mut r, 169, 65_400).len()).collect();
    for (low, high) in
        [(300, 700), (700, 3_000), (3_000, 20_000), (20_000, 50_000), (50_000, 65_401)]
    {
        assert!(lengths.iter().any(|n| (low..high).contains(n)), "{low} to {high}");
    }
    assert!(lengths.iter().all(|&n| n <= 65_400));
}
