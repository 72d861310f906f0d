//! The functions of the original's transaction.rs that document 01 names.
use crate::asked::{ask, want, Asked, Stop};
use crate::body::{shared_kind, total_edit, Body, BLOCK, SHARED_DATA};
use crate::sheet::{held, nodesize, read, remove, Item, Key};

pub fn max_inline_extent_item(size: u32) -> Asked<u64> {
    nodesize(size)?;
    Ok(limit(size))
}

/// Of a nodesize that question 3 lets through.
pub fn limit(size: u32) -> u64 {
    u64::from((size - 101) / 16 - 25)
}

/// The number of the first item of type 168 or 169 with that objectid.
pub fn record(items: &[Item], bytenr: u64) -> Option<usize> {
    items.iter().position(|i| i.key.0 == bytenr && [168, 169].contains(&i.key.1))
}

pub fn record_of(sheet: &[u8], bytenr: u64) -> Asked<u64> {
    let items = read(sheet)?;
    Ok(want(5, record(&items, bytenr))? as u64)
}

pub fn shared_add_item(kind: u8, count: u32) -> Asked<Vec<u8>> {
    shared_kind(kind)?;
    Ok(if kind == SHARED_DATA { count.to_le_bytes().to_vec() } else { vec![] })
}

pub fn shared_add_key(bytenr: u64, kind: u8, parent: u64) -> Asked<Key> {
    shared_kind(kind)?;
    Ok((bytenr, kind, parent))
}

pub fn shared_add_inline_size(kind: u8) -> Asked<u64> {
    shared_kind(kind)?;
    Ok(if kind == SHARED_DATA { 13 } else { 9 })
}

/// The sheet with the data of item `at` replaced.
pub fn with_data(mut items: Vec<Item>, at: usize, data: Vec<u8>) -> Asked<Vec<u8>> {
    items[at].data = data;
    held(&items)
}

/// With the item flag only the total moves: up.
fn raised(data: &[u8], count: u32) -> Asked<Vec<u8>> {
    total_edit(data, |total| want(12, total.checked_add(u64::from(count))))
}

/// Question 17, put only if the body grew.
pub fn grown_within(size: u32, old: &[u8], new: &[u8]) -> Asked<()> {
    ask(17, new.len() <= old.len() || new.len() as u64 <= limit(size))
}

/// Question 17, always put.
pub fn always_within(size: u32, new: &[u8]) -> Asked<()> {
    ask(17, new.len() as u64 <= limit(size))
}

pub fn apply_keyed_add_block(
    size: u32,
    sheet: &[u8],
    bytenr: u64,
    tree: u64,
    count: u32,
    as_item: bool,
) -> Asked<Vec<u8>> {
    let items = read(sheet)?;
    nodesize(size)?;
    let at = want(5, record(&items, bytenr))?;
    let old = items[at].data.clone();
    let new = if as_item {
        raised(&old, count)?
    } else {
        let mut body = Body::read(items[at].key.1, &old)?;
        body.add_block(tree)?;
        body.raise(1)?;
        body.bytes()
    };
    grown_within(size, &old, &new)?;
    with_data(items, at, new)
}

pub fn apply_keyed_add_data(
    size: u32,
    sheet: &[u8],
    bytenr: u64,
    triple: [u64; 3],
    count: u32,
    as_item: bool,
) -> Asked<Vec<u8>> {
    let items = read(sheet)?;
    nodesize(size)?;
    let at = want(5, record(&items, bytenr))?;
    let old = items[at].data.clone();
    let new = if as_item {
        raised(&old, count)?
    } else if count == 0 {
        // Nothing to add: the body stays unread, short or not.
        old.clone()
    } else {
        let mut body = Body::read(items[at].key.1, &old)?;
        body.add_data(triple, count)?;
        body.bytes()
    };
    grown_within(size, &old, &new)?;
    with_data(items, at, new)
}

pub fn apply_shared_add(
    size: u32,
    sheet: &[u8],
    bytenr: u64,
    kind: u8,
    parent: u64,
    count: u32,
    as_item: bool,
) -> Asked<Vec<u8>> {
    let items = read(sheet)?;
    nodesize(size)?;
    shared_kind(kind)?;
    let at = want(5, record(&items, bytenr))?;
    let old = &items[at].data;
    let new = if as_item {
        raised(old, count)?
    } else {
        let mut body = Body::read(items[at].key.1, old)?;
        body.add_shared(kind, parent, count)?;
        body.bytes()
    };
    always_within(size, &new)?;
    with_data(items, at, new)
}

/// The total falls by the count that was passed, whatever the reference counts.
pub fn apply_shared_drop(
    sheet: &[u8],
    bytenr: u64,
    kind: u8,
    parent: u64,
    count: u32,
    as_item: bool,
) -> Asked<Vec<u8>> {
    let items = read(sheet)?;
    shared_kind(kind)?;
    let at = want(5, record(&items, bytenr))?;
    let mut data = items[at].data.clone();
    if !as_item {
        let mut body = Body::read(items[at].key.1, &data)?;
        want(5, body.take(kind, &[parent]))?;
        data = body.bytes();
    }
    let new = total_edit(&data, |total| want(14, total.checked_sub(u64::from(count))))?;
    with_data(items, at, new)
}

pub fn drop_kept_tree_ref(
    sheet: &[u8],
    bytenr: u64,
    level: u8,
    tree: u64,
    own: bool,
) -> Asked<Vec<u8>> {
    let mut items = read(sheet)?;
    let key = (bytenr, 169, u64::from(level));
    let at = want(5, items.iter().position(|i| i.key == key))?;
    let mut body = Body::read(169, &items[at].data)?;
    match body.drop_block(tree) {
        Err(Stop::Absent) => {
            // Record and item are different keys, and the record stands first.
            want(5, remove(&mut items, (bytenr, BLOCK, tree)))?;
            body.lower()?;
        }
        dropped => dropped?,
    }
    if own {
        let flags = body.flags() | 256;
        body.fixed[8..16].copy_from_slice(&flags.to_le_bytes());
    }
    with_data(items, at, body.bytes())
}
