//! Every call put to the original.
use crate::verdict::Verdict::{self, Absent, Accepted, NotAsked, Refused, Remove};
use model::calls::{Arg, Written};
use model::hash::data_ref_hash;
use original::backref::{self, InlineRef, Keyed};
use original::btree;
use original::chunk::DiskKey;
use original::error::Result;
use original::extent_write::{self, TreeBlockAllocation};
use original::leaf_edit::{self, OwnedItem};
use original::transaction::public;

/// Above this the original's loop over single adds takes too long to wait for.
const ROUNDS: u32 = 2_000;

struct Given<'a>(std::slice::Iter<'a, Arg>);

impl<'a> Given<'a> {
    fn u64(&mut self) -> u64 {
        match self.0.next() {
            Some(Arg::Number(n)) => *n,
            other => panic!("a number is wanted, not {other:?}"),
        }
    }
    fn u32(&mut self) -> u32 {
        self.u64() as u32
    }
    fn u8(&mut self) -> u8 {
        self.u64() as u8
    }
    fn bool(&mut self) -> bool {
        self.u64() == 1
    }
    fn bytes(&mut self) -> &'a [u8] {
        match self.0.next() {
            Some(Arg::Bytes(b)) => b,
            other => panic!("bytes are wanted, not {other:?}"),
        }
    }
    fn words(&mut self) -> &'a [u64] {
        match self.0.next() {
            Some(Arg::Words(w)) => w,
            other => panic!("words are wanted, not {other:?}"),
        }
    }
    fn items(&mut self) -> Vec<OwnedItem> {
        items(self.bytes())
    }
    fn key(&mut self) -> DiskKey {
        DiskKey { objectid: self.u64(), key_type: self.u8(), offset: self.u64() }
    }
}

/// A sheet that passes question 1, as the original's list.
fn items(sheet: &[u8]) -> Vec<OwnedItem> {
    let mut list = Vec::new();
    let mut at = 1;
    while at < sheet.len() {
        let be64 = |at: usize| u64::from_be_bytes(sheet[at..at + 8].try_into().unwrap());
        let length = u32::from_be_bytes(sheet[at..at + 4].try_into().unwrap()) as usize;
        let key =
            DiskKey { objectid: be64(at + 4), key_type: sheet[at + 12], offset: be64(at + 13) };
        list.push(OwnedItem { key, data: sheet[at + 21..at + 4 + length].to_vec() });
        at += 4 + length;
    }
    list
}

fn sheet(items: &[OwnedItem]) -> Vec<u8> {
    let mut sheet = vec![1];
    for item in items {
        sheet.extend((17 + item.data.len() as u32).to_be_bytes());
        sheet.extend(item.key.objectid.to_be_bytes());
        sheet.push(item.key.key_type);
        sheet.extend(item.key.offset.to_be_bytes());
        sheet.extend(&item.data);
    }
    sheet
}

fn numbers(list: &[u64]) -> Verdict {
    Accepted(Written { numbers: list.to_vec(), ..Written::default() })
}

fn bytes(bytes: Vec<u8>) -> Verdict {
    Accepted(Written { numbers: vec![bytes.len() as u64], bytes, ..Written::default() })
}

fn cuts(cuts: Vec<u16>) -> Verdict {
    Accepted(Written { numbers: vec![cuts.len() as u64], cuts, ..Written::default() })
}

fn edited(result: Result<Vec<u8>>) -> Verdict {
    result.map_or(Refused, bytes)
}

fn found(result: Result<Option<Vec<u8>>>, none: Verdict) -> Verdict {
    match result {
        Ok(Some(body)) => bytes(body),
        Ok(None) => none,
        Err(_) => Refused,
    }
}

fn listed(result: Result<Vec<OwnedItem>>) -> Verdict {
    result.map_or(Refused, |items| bytes(sheet(&items)))
}

/// The references run to the end of the body, so they place themselves from there.
fn positions(body: &[u8], refs: &[InlineRef]) -> Vec<u16> {
    let mut at = body.len();
    let mut positions = Vec::new();
    for r in refs.iter().rev() {
        at -= 1 + r.payload.len();
        positions.push(at as u16);
    }
    positions.reverse();
    positions
}

pub fn verdict(call: &str, args: &[Arg]) -> Verdict {
    let mut g = Given(args.iter());
    match call {
        "extent_write_data_ref_hash" => {
            numbers(&[extent_write::data_ref_hash(g.u64(), g.u64(), g.u64())])
        }
        "extent_write_tree_block_key" => {
            let block =
                TreeBlockAllocation { bytenr: g.u64(), level: g.u8(), generation: 0, owner: 0 };
            let key = block.key();
            numbers(&[key.objectid, u64::from(key.key_type), key.offset])
        }
        "extent_write_tree_block_body" => {
            let block =
                TreeBlockAllocation { bytenr: 0, level: 0, generation: g.u64(), owner: g.u64() };
            bytes(block.body().to_vec())
        }
        "extent_write_data_extent_body" => {
            bytes(public::data_extent_body(g.u64(), g.u64(), g.u64(), g.u64()))
        }

        "backref_flags" => backref::flags(g.bytes()).map_or(Refused, |flags| numbers(&[flags])),
        "backref_inline_refs" => {
            let (item_type, body) = (g.u8(), g.bytes());
            let Ok(refs) = backref::inline_refs(item_type, body) else {
                return Refused;
            };
            cuts(positions(body, &refs))
        }
        "backref_inline_ref" => {
            let (item_type, body, number) = (g.u8(), g.bytes(), g.u64());
            let Ok(refs) = backref::inline_refs(item_type, body) else {
                return Refused;
            };
            let Some(at) = usize::try_from(number).ok().filter(|&at| at < refs.len()) else {
                return Refused;
            };
            let (r, start) = (&refs[at], u64::from(positions(body, &refs)[at]) + 1);
            numbers(&[u64::from(r.kind), r.offset(), start, r.payload.len() as u64])
        }
        "backref_take_inline_shared" => {
            match backref::take_inline_shared(g.u8(), g.bytes(), g.u8(), g.u64()) {
                Ok(Some((left, count))) => {
                    let numbers = vec![left.len() as u64, u64::from(count)];
                    Accepted(Written { bytes: left, numbers, ..Written::default() })
                }
                Ok(None) => Absent,
                Err(_) => Refused,
            }
        }
        "backref_add_inline_keyed_block" => {
            let (item_type, body) = (g.u8(), g.bytes());
            let keyed = Keyed::Block { tree: g.u64() };
            edited(backref::add_inline_keyed(item_type, body, keyed, g.u32()))
        }
        "backref_add_inline_keyed_data" => {
            let (item_type, body) = (g.u8(), g.bytes());
            let keyed = Keyed::Data { tree: g.u64(), objectid: g.u64(), offset: g.u64() };
            edited(backref::add_inline_keyed(item_type, body, keyed, g.u32()))
        }
        "backref_drop_inline_data_ref" => found(
            backref::drop_inline_data_ref(g.u8(), g.bytes(), g.u64(), g.u64(), g.u64()),
            Absent,
        ),
        "backref_drop_keyed_data_ref" => {
            found(backref::drop_keyed_data_ref(g.bytes(), g.u64(), g.u64(), g.u64()), Remove)
        }
        "backref_lower_total" => edited(backref::lower_total(g.u8(), g.bytes())),
        "backref_reduce_total" => edited(backref::reduce_total(g.u8(), g.bytes(), g.u64())),
        "backref_raise_total" => edited(backref::raise_total(g.u8(), g.bytes(), g.u64())),
        "backref_holds_inline_data_ref" => {
            backref::holds_inline_data_ref(g.u8(), g.bytes(), g.u64(), g.u64(), g.u64())
                .map_or(Refused, |holds| numbers(&[u64::from(holds)]))
        }
        "backref_add_inline_data_ref" => {
            edited(backref::add_inline_data_ref(g.u8(), g.bytes(), g.u64(), g.u64(), g.u64()))
        }
        "backref_add_inline_tree_ref" => {
            edited(backref::add_inline_tree_ref(g.u8(), g.bytes(), g.u64()))
        }
        "backref_keyed_data_ref_body" => {
            bytes(backref::keyed_data_ref_body(g.u64(), g.u64(), g.u64(), g.u32()))
        }
        "backref_add_inline_shared" => {
            edited(backref::add_inline_shared(g.u8(), g.bytes(), g.u8(), g.u64(), g.u32()))
        }
        "backref_drop_inline_tree_ref" => {
            found(backref::drop_inline_tree_ref(g.u8(), g.bytes(), g.u64()), Absent)
        }
        "backref_with_flags" => edited(backref::with_flags(g.bytes(), g.u64())),

        "transaction_held_only_by" => {
            numbers(&[u64::from(public::held_only_by(g.bytes(), g.u64(), g.u64(), g.words()))])
        }
        "transaction_keyed_data_ref_names" => numbers(&[u64::from(public::keyed_data_ref_names(
            g.bytes(),
            g.u64(),
            g.u64(),
            g.u64(),
        ))]),
        "transaction_shared_add_item" => bytes(public::shared_add_item(0, g.u8(), 0, g.u32()).data),
        "transaction_shared_add_key" => {
            let key = public::shared_add_item(g.u64(), g.u8(), g.u64(), 1).key;
            numbers(&[key.objectid, u64::from(key.key_type), key.offset])
        }
        "transaction_shared_add_inline_size" => {
            numbers(&[public::shared_add_inline_size(g.u8()) as u64])
        }
        "transaction_max_inline_extent_item" => {
            numbers(&[public::max_inline_extent_item(g.u32()) as u64])
        }
        "transaction_record_of" => {
            let items = g.items();
            match public::record_of(&items, g.u64()) {
                Some(record) => {
                    let at = items.iter().position(|i| std::ptr::eq(i, record)).unwrap();
                    numbers(&[at as u64])
                }
                None => Refused,
            }
        }
        "transaction_apply_keyed_add_block" => {
            let (size, items, bytenr) = (g.u32(), g.items(), g.u64());
            let keyed = Keyed::Block { tree: g.u64() };
            listed(public::apply_keyed_add(size, items, bytenr, keyed, g.u32(), g.bool()))
        }
        "transaction_apply_keyed_add_data" => {
            let (size, items, bytenr) = (g.u32(), g.items(), g.u64());
            let keyed = Keyed::Data { tree: g.u64(), objectid: g.u64(), offset: g.u64() };
            let (count, as_item) = (g.u32(), g.bool());
            if count > ROUNDS && !as_item {
                return NotAsked;
            }
            listed(public::apply_keyed_add(size, items, bytenr, keyed, count, as_item))
        }
        "transaction_apply_shared_add" => {
            let (size, items) = (g.u32(), g.items());
            listed(public::apply_shared_add(
                size,
                items,
                g.u64(),
                g.u8(),
                g.u64(),
                g.u32(),
                g.bool(),
            ))
        }
        "transaction_apply_shared_drop" => {
            let items = g.items();
            listed(public::apply_shared_drop(items, g.u64(), g.u8(), g.u64(), g.u32(), g.bool()))
        }
        "transaction_drop_kept_tree_ref" => {
            let (items, bytenr, level) = (g.items(), g.u64(), g.u8());
            listed(public::drop_kept_tree_ref(items, bytenr, g.u64(), level, g.bool()))
        }

        "leaf_edit_insert" => {
            let (size, items, key) = (g.u32(), g.items(), g.key());
            listed(leaf_edit::insert(size, &items, OwnedItem { key, data: g.bytes().to_vec() }))
        }
        "leaf_edit_insert_unbounded" => {
            let (items, key) = (g.items(), g.key());
            listed(leaf_edit::insert_unbounded(&items, OwnedItem { key, data: g.bytes().to_vec() }))
        }
        "leaf_edit_delete" => listed(leaf_edit::delete(&g.items(), &g.key())),
        "leaf_edit_fit" => {
            let (size, items) = (g.u32(), g.items());
            numbers(&[u64::from(leaf_edit::fit(size, &items))])
        }
        "leaf_edit_fits" => {
            let (size, items) = (g.u32(), g.items());
            let key = DiskKey { objectid: 0, key_type: 0, offset: 0 };
            let item = OwnedItem { key, data: g.bytes().to_vec() };
            numbers(&[u64::from(leaf_edit::fits(size, &items, &item))])
        }
        "leaf_edit_split" => {
            leaf_edit::split(&g.items()).map_or(Refused, |(left, _)| cuts(vec![left.len() as u16]))
        }
        "leaf_edit_split_to_fit" => {
            let (size, items) = (g.u32(), g.items());
            match leaf_edit::split_to_fit(size, &items) {
                Ok(leaves) => {
                    let mut start = 0;
                    let mut starts = Vec::new();
                    for leaf in &leaves[..leaves.len() - 1] {
                        start += leaf.len() as u16;
                        starts.push(start);
                    }
                    cuts(starts)
                }
                Err(_) => Refused,
            }
        }
        "leaf_edit_item" => {
            // The original indexes its list; the place in the sheet is the bytes before it.
            let list = g.items();
            match usize::try_from(g.u64()).ok().filter(|&n| n < list.len()) {
                Some(n) => {
                    numbers(&[sheet(&list[..n]).len() as u64 + 21, list[n].data.len() as u64])
                }
                None => Refused,
            }
        }
        "leaf_image_read" => {
            g.u32();
            listed(leaf(g.bytes()))
        }
        "ledger_post" => {
            let (size, items, change, extent) = (g.u32(), g.items(), g.u64(), g.u64());
            let (a, b, c, amount) = (g.u64(), g.u64(), g.u64(), g.u32());
            if change == 2 && amount > ROUNDS {
                return NotAsked;
            }
            if change == 6 && stands(&items, extent, a as u8, b).is_some_and(|all| all != amount) {
                return NotAsked;
            }
            listed(post(size, items, change, extent, [a, b, c], amount))
        }
        other => panic!("no call {other}"),
    }
}

/// The items of an image, each with a copy of its data. The original's reader is handed the count
/// that stands in the image; it asks for no checksum and no level, which its caller does.
pub fn leaf(image: &[u8]) -> Result<Vec<OwnedItem>> {
    let nritems = u32::from_le_bytes(image[96..100].try_into().unwrap()) as usize;
    let items = btree::public::parse_leaf_items(image, nritems, image.len())?;
    let data = |i: &btree::Item| {
        let start = btree::LEAF_DATA_OFFSET + i.offset as usize;
        image[start..start + i.size as usize].to_vec()
    };
    Ok(items.iter().map(|i| OwnedItem { key: i.key, data: data(i) }).collect())
}

/// What a shared reference counts, inline or as an item: that much is a take in the original,
/// which knows no other amount.
fn stands(items: &[OwnedItem], extent: u64, kind: u8, parent: u64) -> Option<u32> {
    let record = public::record_of(items, extent)?;
    let taken = backref::take_inline_shared(record.key.key_type, &record.data, kind, parent);
    if let Ok(Some((_, count))) = taken {
        return Some(count);
    }
    let key = DiskKey { objectid: extent, key_type: kind, offset: parent };
    items.iter().find(|i| i.key == key).map(|item| own_count(&item.data))
}

/// The count of a shared reference's item: a shared block's has no data, and counts 1.
fn own_count(data: &[u8]) -> u32 {
    data.try_into().map_or(1, u32::from_le_bytes)
}

/// A posting to a balanced sheet, put together from the original's functions as document 01
/// says. What only the books ask (9 for an item of its own, 10 for an amount of 0) stands here.
/// A shared reference is taken whole, whatever the amount.
pub fn post(
    size: u32,
    items: Vec<OwnedItem>,
    change: u64,
    extent: u64,
    [a, b, c]: [u64; 3],
    amount: u32,
) -> Result<Vec<OwnedItem>> {
    let no = || original::error::Error::UnsupportedFeature("the books refuse".into());
    let key = |key_type, offset| DiskKey { objectid: extent, key_type, offset };
    let at = |key: DiskKey| items.iter().find(|i| i.key == key).cloned();
    let record = public::record_of(&items, extent).cloned().ok_or_else(no)?;
    let kind = record.key.key_type;
    let data_item = at(key(178, data_ref_hash(a, b, c)));
    let own = match change {
        1 => at(key(176, a)).is_some(),
        2 => data_item.as_ref().is_some_and(|i| public::keyed_data_ref_names(&i.data, a, b, c)),
        3 => at(key(a as u8, b)).is_some(),
        _ => false,
    };
    if own || ((change == 2 || change == 3) && amount == 0) {
        return Err(no());
    }
    // The record with another body.
    let with = |items: &[OwnedItem], data: Vec<u8>| {
        let mut items = items.to_vec();
        items.iter_mut().find(|i| i.key == record.key).unwrap().data = data;
        items
    };
    match change {
        1 => public::apply_keyed_add(size, items, extent, Keyed::Block { tree: a }, 1, false),
        2 => {
            let keyed = Keyed::Data { tree: a, objectid: b, offset: c };
            public::apply_keyed_add(size, items, extent, keyed, amount, false)
        }
        3 => public::apply_shared_add(size, items, extent, a as u8, b, amount, false),
        4 => match backref::drop_inline_tree_ref(kind, &record.data, a)? {
            Some(body) => Ok(with(&items, body)),
            None => {
                let rest = leaf_edit::delete(&items, &key(176, a))?;
                Ok(with(&rest, backref::lower_total(kind, &record.data)?))
            }
        },
        5 => match backref::drop_inline_data_ref(kind, &record.data, a, b, c)? {
            Some(body) => Ok(with(&items, body)),
            None => {
                let item = data_item.ok_or_else(no)?;
                let lowered = with(&items, backref::lower_total(kind, &record.data)?);
                match backref::drop_keyed_data_ref(&item.data, a, b, c)? {
                    Some(data) => {
                        let rest = leaf_edit::delete(&lowered, &item.key)?;
                        leaf_edit::insert_unbounded(&rest, OwnedItem { key: item.key, data })
                    }
                    None => leaf_edit::delete(&lowered, &item.key),
                }
            }
        },
        _ => {
            let (body, count, rest) =
                match backref::take_inline_shared(kind, &record.data, a as u8, b)? {
                    Some((body, count)) => (body, count, items.clone()),
                    None => {
                        let item = at(key(a as u8, b)).ok_or_else(no)?;
                        let count = own_count(&item.data);
                        let rest = leaf_edit::delete(&items, &key(a as u8, b))?;
                        (record.data.clone(), count, rest)
                    }
                };
            Ok(with(&rest, backref::reduce_total(kind, &body, u64::from(count))?))
        }
    }
}
