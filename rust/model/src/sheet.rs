//! Document 01, "calls on sheets": the item list itself, and `leaf_edit`.
use crate::asked::{ask, be32, be64, want, Asked};

pub const MOST_BYTES: usize = 262_144;
pub const MOST_ITEMS: usize = 4_096;

/// Objectid, type, offset: keys compare in this order.
pub type Key = (u64, u8, u64);

#[derive(Debug, Clone, PartialEq, Eq)]
pub struct Item {
    pub key: Key,
    pub data: Vec<u8>,
}

impl Item {
    pub fn new(objectid: u64, kind: u8, offset: u64, data: Vec<u8>) -> Self {
        Item { key: (objectid, kind, offset), data }
    }

    fn space(&self) -> u64 {
        25 + self.data.len() as u64
    }
}

/// Question 1: the items, read without asking after their order.
pub fn unordered(sheet: &[u8]) -> Asked<Vec<Item>> {
    ask(1, (1..=MOST_BYTES).contains(&sheet.len()) && sheet[0] == 1)?;
    let mut items = Vec::new();
    let mut rest = &sheet[1..];
    while !rest.is_empty() {
        ask(1, items.len() < MOST_ITEMS && rest.len() >= 4)?;
        let length = be32(rest) as usize;
        ask(1, (17..=65_552).contains(&length) && rest.len() >= 4 + length)?;
        let (item, after) = rest[4..].split_at(length);
        items.push(Item::new(be64(item), item[8], be64(&item[9..]), item[17..].to_vec()));
        rest = after;
    }
    Ok(items)
}

/// Questions 1 and 2.
pub fn read(sheet: &[u8]) -> Asked<Vec<Item>> {
    let items = unordered(sheet)?;
    ask(2, items.windows(2).all(|pair| pair[0].key < pair[1].key))?;
    Ok(items)
}

pub fn bytes(items: &[Item]) -> Vec<u8> {
    let mut sheet = vec![1];
    for item in items {
        sheet.extend((17 + item.data.len() as u32).to_be_bytes());
        sheet.extend(item.key.0.to_be_bytes());
        sheet.push(item.key.1);
        sheet.extend(item.key.2.to_be_bytes());
        sheet.extend(&item.data);
    }
    sheet
}

/// The part of question 21 that is the limit of question 1.
pub fn held(items: &[Item]) -> Asked<Vec<u8>> {
    ask(21, items.len() <= MOST_ITEMS)?;
    let sheet = bytes(items);
    ask(21, sheet.len() <= MOST_BYTES)?;
    Ok(sheet)
}

/// Question 3 of a nodesize.
pub fn nodesize(size: u32) -> Asked<()> {
    ask(3, (501..=65_536).contains(&size))
}

pub fn space(items: &[Item]) -> u64 {
    101 + items.iter().map(Item::space).sum::<u64>()
}

pub fn put(items: &mut Vec<Item>, item: Item) {
    let at = items.iter().take_while(|i| i.key < item.key).count();
    items.insert(at, item);
}

/// Takes the item under `key` out, where there is one.
pub fn remove(items: &mut Vec<Item>, key: Key) -> Option<Item> {
    let at = items.iter().position(|i| i.key == key)?;
    Some(items.remove(at))
}

fn inserted(sheet: &[u8], item: Item, size: Option<u32>) -> Asked<Vec<Item>> {
    let mut items = read(sheet)?;
    if let Some(size) = size {
        nodesize(size)?;
    }
    ask(3, item.data.len() <= 65_535)?;
    ask(9, items.iter().all(|i| i.key != item.key))?;
    put(&mut items, item);
    Ok(items)
}

pub fn insert(size: u32, sheet: &[u8], item: Item) -> Asked<Vec<u8>> {
    let items = inserted(sheet, item, Some(size))?;
    ask(18, space(&items) <= u64::from(size))?;
    held(&items)
}

pub fn insert_unbounded(sheet: &[u8], item: Item) -> Asked<Vec<u8>> {
    held(&inserted(sheet, item, None)?)
}

pub fn delete(sheet: &[u8], key: Key) -> Asked<Vec<u8>> {
    let mut items = read(sheet)?;
    want(5, remove(&mut items, key))?;
    held(&items)
}

pub fn fit(size: u32, sheet: &[u8]) -> Asked<bool> {
    let items = read(sheet)?;
    nodesize(size)?;
    Ok(space(&items) <= u64::from(size))
}

pub fn fits(size: u32, sheet: &[u8], data: &[u8]) -> Asked<bool> {
    let mut items = read(sheet)?;
    nodesize(size)?;
    ask(3, data.len() <= 65_535)?;
    items.push(Item::new(0, 0, 0, data.to_vec()));
    Ok(space(&items) <= u64::from(size))
}

pub fn split(sheet: &[u8]) -> Asked<Vec<u16>> {
    let items = read(sheet)?;
    ask(19, items.len() >= 2)?;
    Ok(vec![items.len().div_ceil(2) as u16])
}

pub fn split_to_fit(size: u32, sheet: &[u8]) -> Asked<Vec<u16>> {
    let items = read(sheet)?;
    nodesize(size)?;
    let size = u64::from(size);
    ask(18, items.iter().all(|i| 101 + i.space() <= size))?;
    ask(19, items.len() >= 2)?;

    let mut best: Option<(u64, usize)> = None;
    let before: Vec<u64> = std::iter::once(0)
        .chain(items.iter().scan(0, |sum, i| {
            *sum += i.space();
            Some(*sum)
        }))
        .collect();
    for cut in 1..items.len() {
        let left = 101 + before[cut];
        let right = 101 + before[items.len()] - before[cut];
        if left <= size && right <= size && best.is_none_or(|(gap, _)| left.abs_diff(right) < gap) {
            best = Some((left.abs_diff(right), cut));
        }
    }
    if let Some((_, cut)) = best {
        return Ok(vec![cut as u16]);
    }

    let mut cuts = Vec::new();
    let mut filled = 101;
    for (number, item) in items.iter().enumerate() {
        if filled + item.space() > size {
            cuts.push(number as u16);
            filled = 101;
        }
        filled += item.space();
    }
    let starts = [vec![0], cuts.clone(), vec![items.len() as u16]].concat();
    ask(20, starts.windows(2).all(|leaf| leaf[0] < leaf[1]))?;
    Ok(cuts)
}

/// Where the data of item `number` stands in the sheet, and its length.
pub fn item(sheet: &[u8], number: u64) -> Asked<(u64, u64)> {
    let items = read(sheet)?;
    ask(5, number < items.len() as u64)?;
    let number = number as usize;
    let before = bytes(&items[..number]).len() as u64;
    Ok((before + 21, items[number].data.len() as u64))
}
