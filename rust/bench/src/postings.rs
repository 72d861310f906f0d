//! Postings as a driver makes them: to leaves that Linux wrote, many in a row to one list, to lists with
//! items that name nothing, and by the safe crate. The original's side is its apply call for the same
//! change, which checks nothing.
use crate::lists::{list, sheet};
use crate::measure::Bench;
use differential::dump_tree::{leaves, Leaf};
use extent_refs::ledger::{post, post_sheet, Change, SharedRef};
use extent_refs::sheet::{from_items, to_items};
use extent_refs::{leaf_edit, lent};
use original::chunk::DiskKey;
use original::leaf_edit::OwnedItem;
use original::transaction::public;
use std::hint::black_box;

const NODE: u32 = 16_384;
const PARENT: u64 = 1 << 40;

pub fn rows(b: &mut Bench) {
    if b.asks("ledger_post") {
        real_leaves(b);
        in_a_row(b);
        other_types(b);
        safe(b);
    }
}

fn items(sheet: &[u8]) -> Vec<OwnedItem> {
    let owned = |item: leaf_edit::OwnedItem| {
        let leaf_edit::OwnedItem { key, data } = item;
        let key = DiskKey { objectid: key.objectid, key_type: key.key_type, offset: key.offset };
        OwnedItem { key, data }
    };
    to_items(sheet).into_iter().map(owned).collect()
}

/// Of each balanced leaf its bytes and, for each extent to which a shared reference can be given, the extent
/// and the reference's type.
fn balanced_leaves() -> Vec<(Vec<u8>, Vec<(u64, u8)>)> {
    let mut found = Vec::new();
    for path in leaves().unwrap_or_default() {
        let Ok(leaf) = Leaf::read(&path) else { continue };
        let sheet = model::sheet::bytes(&leaf.items);
        let records = leaf.items.iter().filter(|i| i.key.1 == 168 || i.key.1 == 169);
        let extents: Vec<(u64, u8)> = records
            .map(|i| (i.key.0, if i.key.1 == 169 { 182 } else { 184 }))
            .filter(|&(extent, kind)| given(&sheet, extent, kind).is_some())
            .collect();
        if !extents.is_empty() {
            found.push((sheet, extents));
        }
    }
    found
}

/// The bytes with the reference, where both sides accept it; they are the same.
fn given(sheet: &[u8], extent: u64, kind: u8) -> Option<Vec<u8>> {
    let name = SharedRef { kind, parent: PARENT };
    let ours = post_sheet(NODE, sheet, extent, Change::AddShared { name, amount: 1 }).ok()?;
    let theirs =
        public::apply_shared_add(NODE, items(sheet), extent, kind, PARENT, 1, false).ok()?;
    assert_eq!(crate::lists::sheet(&theirs), ours, "extent {extent}");
    Some(ours)
}

/// Bytes to bytes: one reference given to each extent of a leaf, and taken back. One round is all leaves.
fn real_leaves(b: &mut Bench) {
    let leaves = balanced_leaves();
    let postings: usize = leaves.iter().map(|(_, extents)| 2 * extents.len()).sum();
    if postings == 0 {
        return;
    }
    let mut given = vec![0; 262_144];
    b.row(
        "ledger_post",
        &format!("{} leaves written by Linux, {postings} postings, bytes to bytes", leaves.len()),
        || {
            for (sheet, extents) in &leaves {
                for &(extent, kind) in extents {
                    let given = public::apply_shared_add(
                        NODE,
                        items(sheet),
                        extent,
                        kind,
                        PARENT,
                        1,
                        false,
                    )
                    .map(|items| crate::lists::sheet(&items))
                    .expect("it was given before");
                    let taken =
                        public::apply_shared_drop(items(&given), extent, kind, PARENT, 1, false)
                            .map(|items| crate::lists::sheet(&items))
                            .expect("it stands there");
                    assert_eq!(taken.len(), sheet.len());
                    black_box(taken);
                }
            }
        },
        |out, len| {
            for (sheet, extents) in &leaves {
                for &(extent, kind) in extents {
                    let kind = kind.into();
                    let code = lent::ledger_post(
                        NODE, sheet, 3, extent, kind, PARENT, 0, 1, &mut given, len,
                    );
                    let there = &given[..*len as usize];
                    let back =
                        lent::ledger_post(NODE, there, 6, extent, kind, PARENT, 0, 1, out, len);
                    if code + back != 0 || *len as usize != sheet.len() {
                        return 1;
                    }
                }
            }
            0
        },
    );
}

/// A thousand gives to one list of 200 items, each to the list that the last one made. The original keeps its
/// items between the calls and copies none.
fn in_a_row(b: &mut Bench) {
    let first = list(200);
    let bytes = sheet(&first);
    let named = |n: u64| (4096 * (1 + n % 199), PARENT + n / 199);
    let mut here = vec![0; 262_144];
    b.row_by_value(
        "ledger_post",
        "1,000 in a row to one list of 200 items",
        &first,
        |mut items| {
            for n in 0..1_000 {
                let (extent, parent) = named(n);
                let given = public::apply_shared_add(NODE, items, extent, 184, parent, 1, false);
                items = given.expect("room for each");
            }
            items.len()
        },
        |out, len| {
            here[..bytes.len()].copy_from_slice(&bytes);
            *len = bytes.len() as u64;
            for n in 0..1_000 {
                let (extent, parent) = named(n);
                let code = if n % 2 == 0 {
                    let length = *len as usize;
                    lent::ledger_post(NODE, &here[..length], 3, extent, 184, parent, 0, 1, out, len)
                } else {
                    let length = *len as usize;
                    lent::ledger_post(
                        NODE,
                        &out[..length],
                        3,
                        extent,
                        184,
                        parent,
                        0,
                        1,
                        &mut here,
                        len,
                    )
                };
                if code != 0 {
                    return code.into();
                }
            }
            0
        },
    );
}

/// Between the records stand items of a type that names nothing (192, a block group).
fn other_types(b: &mut Bench) {
    let mut items = list(100);
    let group = |n: u64| OwnedItem {
        key: DiskKey { objectid: 4096 * n + 1, key_type: 192, offset: 4095 },
        data: vec![0; 24],
    };
    items.extend((1..100).map(group));
    items.sort_by_key(|item| (item.key.objectid, item.key.key_type, item.key.offset));
    let bytes = sheet(&items);
    let extent = 4096 * 50;
    b.row_by_value(
        "ledger_post",
        "199 items, every second of another type",
        &items,
        |items| public::apply_shared_add(NODE, items, extent, 184, PARENT, 1, false),
        |out, len| lent::ledger_post(NODE, &bytes, 3, extent, 184, PARENT, 0, 1, out, len).into(),
    );
}

/// The safe crate on bytes, which allocates its result, and on items, which makes bytes of them and items again.
fn safe(b: &mut Bench) {
    let items = list(200);
    let bytes = sheet(&items);
    let ours = to_items(&bytes);
    assert_eq!(from_items(&ours), bytes);
    let extent = 4096 * 100;
    let change = Change::AddShared { name: SharedRef { kind: 184, parent: PARENT }, amount: 1 };
    b.row_by_value(
        "ledger_post",
        "200 items, by the safe crate on bytes",
        &items,
        |items| public::apply_shared_add(NODE, items, extent, 184, PARENT, 1, false),
        |_, _| black_box(post_sheet(NODE, &bytes, extent, change)).is_err().into(),
    );
    b.row_by_value(
        "ledger_post",
        "200 items, by the safe crate on items",
        &items,
        |items| public::apply_shared_add(NODE, items, extent, 184, PARENT, 1, false),
        |_, _| black_box(post(NODE, &ours, extent, change)).is_err().into(),
    );
}
