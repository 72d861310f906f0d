//! Document 01, the entry, with document 02's ticket 1: balanced sheets and posting a change.
use crate::apply::{always_within, grown_within, record, shared_add_item};
use crate::asked::{ask, le32, le64, want, Asked, Stop};
use crate::body::{Body, Reference, BLOCK, DATA, OWNER, SHARED_BLOCK, SHARED_DATA};
use crate::hash::data_ref_hash;
use crate::sheet::{held, nodesize, read, remove, Item, Key};

/// One of the six changes, with the name it carries.
#[derive(Debug, Clone, Copy, PartialEq, Eq)]
pub enum Change {
    GiveBlock { tree: u64 },
    GiveData { triple: [u64; 3], amount: u32 },
    GiveShared { kind: u8, parent: u64, amount: u32 },
    TakeBlock { tree: u64 },
    TakeData { triple: [u64; 3] },
    TakeShared { kind: u8, parent: u64, amount: u32 },
}

/// A name within its extent: the type and its fields.
pub type Name = (u8, Vec<u64>);

impl Change {
    /// From the numbers of the C call; another change or shared kind is question 3.
    pub fn from_numbers(change: u64, a: u64, b: u64, c: u64, amount: u32) -> Asked<Change> {
        if change == 3 || change == 6 {
            ask(3, a == 182 || a == 184)?;
        }
        Ok(match change {
            1 => Change::GiveBlock { tree: a },
            2 => Change::GiveData { triple: [a, b, c], amount },
            3 => Change::GiveShared { kind: a as u8, parent: b, amount },
            4 => Change::TakeBlock { tree: a },
            5 => Change::TakeData { triple: [a, b, c] },
            6 => Change::TakeShared { kind: a as u8, parent: b, amount },
            _ => return Err(Stop::Refused(3)),
        })
    }

    pub fn name(&self) -> Name {
        match *self {
            Change::GiveBlock { tree } | Change::TakeBlock { tree } => (BLOCK, vec![tree]),
            Change::GiveData { triple, .. } | Change::TakeData { triple } => {
                (DATA, triple.to_vec())
            }
            Change::GiveShared { kind, parent, .. } | Change::TakeShared { kind, parent, .. } => {
                (kind, vec![parent])
            }
        }
    }
}

fn is_reference_item(item: &Item) -> bool {
    [BLOCK, DATA, SHARED_BLOCK, SHARED_DATA].contains(&item.key.1)
}

/// The reference that an item is, or `None` where its form is another.
fn item_reference(item: &Item) -> Option<Reference> {
    let (_, kind, place) = item.key;
    let data = &item.data;
    match (kind, data.len()) {
        (BLOCK, 0) => Some(Reference::block(place)),
        (SHARED_BLOCK, 0) => Some(Reference::shared(kind, place, 1)),
        (SHARED_DATA, 4) => Some(Reference::shared(kind, place, le32(data))),
        (DATA, 28) => {
            let (tree, objectid, offset) = (le64(data), le64(&data[8..]), le64(&data[16..]));
            (data_ref_hash(tree, objectid, offset) == place)
                .then(|| Reference::data(tree, objectid, offset, le32(&data[24..])))
        }
        _ => None,
    }
}

/// Whether two neighbours of a body stand in order.
fn in_order(first: &Reference, second: &Reference) -> bool {
    let hash = |r: &Reference| data_ref_hash(r.fields[0], r.fields[1], r.fields[2]);
    if first.kind != second.kind {
        return first.kind < second.kind;
    }
    match first.kind {
        OWNER => true,
        DATA => hash(first) >= hash(second),
        _ => first.fields[0] > second.fields[0],
    }
}

/// Whether the items of one extent balance.
fn extent_balanced(items: &[&Item]) -> bool {
    let records: Vec<_> = items.iter().filter(|i| [168, 169].contains(&i.key.1)).collect();
    let reference_items: Vec<_> = items.iter().filter(|i| is_reference_item(i)).collect();
    if records.len() > 1 || (records.is_empty() && !reference_items.is_empty()) {
        return false;
    }
    let Some(record) = records.first() else {
        return true;
    };
    let Ok(body) = Body::read(record.key.1, &record.data) else {
        return false;
    };
    if !body.references.windows(2).all(|pair| in_order(&pair[0], &pair[1])) {
        return false;
    }
    let mut all = body.references.clone();
    for item in reference_items {
        match item_reference(item) {
            Some(reference) => all.push(reference),
            None => return false,
        }
    }
    all.retain(|r| r.kind != OWNER);
    let mut names: Vec<_> = all.iter().map(|r| (r.kind, r.fields.clone())).collect();
    names.sort();
    let distinct = names.windows(2).all(|pair| pair[0] != pair[1]);
    let counted = all.iter().all(|r| r.count != Some(0));
    let sum: u128 = all.iter().map(|r| u128::from(r.weight())).sum();
    distinct && counted && sum == u128::from(body.total)
}

/// Question 4, of items in order.
pub fn balanced(items: &[Item]) -> bool {
    let mut extents: Vec<u64> = items.iter().map(|i| i.key.0).collect();
    extents.dedup();
    extents.iter().all(|&extent| {
        extent_balanced(&items.iter().filter(|i| i.key.0 == extent).collect::<Vec<_>>())
    })
}

/// What a name counts, inline and as items.
pub fn count(items: &[Item], extent: u64, name: &Name) -> u128 {
    let is_named = |r: &Reference| r.is(name.0, &name.1);
    let inline = record(items, extent)
        .and_then(|at| Body::read(items[at].key.1, &items[at].data).ok())
        .map_or(vec![], |body| body.references);
    let own = items.iter().filter(|i| i.key.0 == extent).filter_map(item_reference);
    inline.into_iter().chain(own).filter(is_named).map(|r| u128::from(r.weight())).sum()
}

fn own_item(items: &[Item], extent: u64, name: &Name) -> Option<Key> {
    items
        .iter()
        .filter(|i| i.key.0 == extent)
        .find(|i| item_reference(i).is_some_and(|r| r.is(name.0, &name.1)))
        .map(|i| i.key)
}

/// What is left of a reference with an amount off, from 1 up to what stands; `None` once that was
/// all of it.
fn less(reference: &Reference, amount: u32) -> Asked<Option<Reference>> {
    ask(10, amount > 0)?;
    let left = want(22, reference.weight().checked_sub(u64::from(amount)))?;
    let count = Some(left as u32);
    Ok((left > 0).then(|| Reference { count, ..reference.clone() }))
}

/// An amount off the shared reference under a key's name, inline or else the item, and off the
/// total: a balanced extent has no less than stands there, so 14 is not put.
fn take_shared(items: &mut Vec<Item>, body: &mut Body, key: Key, amount: u32) -> Asked<()> {
    let (_, kind, parent) = key;
    if let Some(at) = body.references.iter().position(|r| r.is(kind, &[parent])) {
        match less(&body.references[at], amount)? {
            Some(left) => body.references[at] = left,
            None => {
                body.references.remove(at);
            }
        }
    } else {
        let at = want(5, items.iter().position(|i| i.key == key))?;
        let stands = item_reference(&items[at]).expect("a balanced sheet's reference item");
        match less(&stands, amount)? {
            Some(left) => items[at].data = shared_add_item(kind, left.count.unwrap_or(0))?,
            None => {
                items.remove(at);
            }
        }
    }
    body.total -= u64::from(amount);
    Ok(())
}

/// Posts a change, after questions 1 to 3.
pub fn post_change(size: u32, items: &[Item], extent: u64, change: Change) -> Asked<Vec<Item>> {
    let mut items = items.to_vec();
    ask(4, balanced(&items))?;
    let at = want(5, record(&items, extent))?;
    let old = items[at].data.clone();
    let mut body = Body::read(items[at].key.1, &old)?;
    let name = change.name();
    let own = own_item(&items, extent, &name);
    match change {
        Change::GiveBlock { tree } => {
            ask(9, own.is_none())?;
            body.add_block(tree)?;
            body.raise(1)?;
            grown_within(size, &old, &body.bytes())?;
        }
        Change::GiveData { triple, amount } => {
            ask(9, own.is_none())?;
            ask(10, amount > 0)?;
            body.add_data(triple, amount)?;
            grown_within(size, &old, &body.bytes())?;
        }
        Change::GiveShared { kind, parent, amount } => {
            ask(9, own.is_none())?;
            // A shared block that stands is 9, before the amount is looked at.
            ask(9, kind == SHARED_DATA || body.references.iter().all(|r| !r.is(kind, &[parent])))?;
            ask(10, amount > 0)?;
            body.add_shared(kind, parent, amount)?;
            always_within(size, &body.bytes())?;
        }
        Change::TakeBlock { tree } => match body.drop_block(tree) {
            Err(Stop::Absent) => {
                want(5, remove(&mut items, (extent, BLOCK, tree)))?;
                body.lower()?;
            }
            dropped => dropped?,
        },
        Change::TakeData { triple } => match body.drop_data(triple) {
            Err(Stop::Absent) => {
                let [tree, objectid, offset] = triple;
                let place = (extent, DATA, data_ref_hash(tree, objectid, offset));
                let there = want(5, items.iter().position(|i| i.key == place))?;
                body.lower()?;
                match crate::body::drop_keyed_data_ref(&items[there].data, triple) {
                    Err(Stop::Remove) => {
                        items.remove(there);
                    }
                    kept => items[there].data = kept?,
                }
            }
            dropped => dropped?,
        },
        Change::TakeShared { kind, parent, amount } => {
            take_shared(&mut items, &mut body, (extent, kind, parent), amount)?;
        }
    }
    // The record stands before its reference items, so it has kept its number.
    items[at].data = body.bytes();
    Ok(items)
}

pub fn post(size: u32, sheet: &[u8], extent: u64, change: Asked<Change>) -> Asked<Vec<u8>> {
    let items = read(sheet)?;
    nodesize(size)?;
    held(&post_change(size, &items, extent, change?)?)
}
