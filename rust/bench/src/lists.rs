//! The calls on item lists. The original's list is made beforehand, and the archive reads its sheet in
//! every call.
use crate::measure::Bench;
use extent_refs::lent;
use original::backref::Keyed;
use original::chunk::DiskKey;
use original::extent_write::TreeBlockAllocation;
use original::leaf_edit::{self, OwnedItem};
use original::transaction::public;
use std::hint::black_box;

/// Records of data extents, with a tree block's record last.
pub fn list(count: u64) -> Vec<OwnedItem> {
    let record = |n: u64| OwnedItem {
        key: DiskKey { objectid: 4096 * (n + 1), key_type: 168, offset: 4096 },
        data: public::data_extent_body(7, 5, 257 + n, 0),
    };
    let mut items: Vec<OwnedItem> = (0..count - 1).map(record).collect();
    let block = TreeBlockAllocation { bytenr: 4096 * count, level: 0, generation: 7, owner: 5 };
    let mut body = block.body().to_vec();
    // A total of 1 for its one reference, so that the list is balanced.
    body[0] = 1;
    items.push(OwnedItem { key: DiskKey { offset: 0, ..block.key() }, data: body });
    items
}

pub fn sheet(items: &[OwnedItem]) -> Vec<u8> {
    let mut sheet = vec![1];
    for item in items {
        sheet.extend((17 + item.data.len() as u32).to_be_bytes());
        sheet.extend(item.key.objectid.to_be_bytes());
        sheet.push(item.key.key_type);
        sheet.extend(item.key.offset.to_be_bytes());
        sheet.extend(&item.data);
    }
    sheet
}

pub fn rows(b: &mut Bench) {
    only_item(b);
    for count in [2, 8, 50, 200, 2_000] {
        with_items(b, count);
    }
}

/// To delete the only item the original allocates nothing, while the archive still reads the list.
fn only_item(b: &mut Bench) {
    let items = list(1);
    let (sheet, key) = (sheet(&items), items[0].key);
    let (new, data) = (DiskKey { objectid: 1, ..key }, vec![0; 53]);
    let item = OwnedItem { key: new, data: data.clone() };
    b.row(
        "leaf_edit_insert",
        "1 item",
        || leaf_edit::insert(65_536, &items, item.clone()),
        |out, len| {
            let DiskKey { objectid, key_type, offset } = new;
            lent::leaf_edit_insert(65_536, &sheet, objectid, key_type, offset, &data, out, len)
                .into()
        },
    );
    b.row(
        "leaf_edit_delete",
        "1 item",
        || leaf_edit::delete(&items, &key),
        |out, len| {
            lent::leaf_edit_delete(&sheet, key.objectid, key.key_type, key.offset, out, len).into()
        },
    );
    let block = Keyed::Block { tree: 7 };
    b.row_by_value(
        "transaction_apply_keyed_add_block",
        "1 item",
        &items,
        |items| public::apply_keyed_add(16_384, items, 4096, block, 1, false),
        |out, len| {
            lent::transaction_apply_keyed_add_block(16_384, &sheet, 4096, 7, 1, false, out, len)
                .into()
        },
    );
    b.row_by_value(
        "ledger_post",
        "1 item",
        &items,
        |items| public::apply_keyed_add(16_384, items, 4096, block, 1, false),
        |out, len| lent::ledger_post(16_384, &sheet, 1, 4096, 7, 0, 0, 1, out, len).into(),
    );
}

pub fn with_items(b: &mut Bench, count: u64) {
    let size = &format!("{count} items")[..];
    let items = list(count);
    let sheet = sheet(&items);
    let last = 4096 * count;
    let middle = 4096 * (1 + count / 2).min(count - 1).max(1);
    let new = DiskKey { objectid: middle + 1, key_type: 168, offset: 4096 };
    let data = public::data_extent_body(7, 5, 257, 0);
    let item = OwnedItem { key: new, data: data.clone() };
    let node = 65_536;
    let mut cuts = vec![0; 4096];

    if leaf_edit::insert(node, &items, item.clone()).is_ok() {
        b.row(
            "leaf_edit_insert",
            size,
            || leaf_edit::insert(node, &items, item.clone()),
            |out, len| {
                lent::leaf_edit_insert(node, &sheet, new.objectid, 168, 4096, &data, out, len)
                    .into()
            },
        );
    }
    b.row(
        "leaf_edit_insert_unbounded",
        size,
        || leaf_edit::insert_unbounded(&items, item.clone()),
        |out, len| {
            lent::leaf_edit_insert_unbounded(&sheet, new.objectid, 168, 4096, &data, out, len)
                .into()
        },
    );
    let key = items[0].key;
    b.row(
        "leaf_edit_delete",
        size,
        || leaf_edit::delete(&items, &key),
        |out, len| {
            lent::leaf_edit_delete(&sheet, key.objectid, key.key_type, key.offset, out, len).into()
        },
    );
    b.row(
        "leaf_edit_fit",
        size,
        || leaf_edit::fit(node, &items),
        |_, fits| lent::leaf_edit_fit(node, &sheet, fits).into(),
    );
    b.row(
        "leaf_edit_fits",
        size,
        || leaf_edit::fits(node, &items, &item),
        |_, fits| lent::leaf_edit_fits(node, &sheet, &data, fits).into(),
    );
    // The original has its items in memory: an item by its number is a place in them.
    let mut start = 0;
    b.row(
        "leaf_edit_item",
        size,
        || items.get(black_box(count as usize - 1)).map(|i| i.data.len()),
        |_, len| lent::leaf_edit_item(&sheet, count - 1, &mut start, len).into(),
    );
    b.row(
        "leaf_edit_split",
        size,
        || leaf_edit::split(&items),
        |_, count| lent::leaf_edit_split(&sheet, &mut cuts, count).into(),
    );
    // The original tries every cut by measuring both halves: the square of the items.
    if count <= 2_000 {
        b.row(
            "leaf_edit_split_to_fit",
            size,
            || leaf_edit::split_to_fit(4096, &items),
            |_, count| lent::leaf_edit_split_to_fit(4096, &sheet, &mut cuts, count).into(),
        );
    }
    b.row(
        "transaction_record_of",
        size,
        || public::record_of(&items, last).map(|i| i.data.len()),
        |_, number| lent::transaction_record_of(&sheet, last, number).into(),
    );
    let block = Keyed::Block { tree: 7 };
    b.row_by_value(
        "transaction_apply_keyed_add_block",
        size,
        &items,
        |items| public::apply_keyed_add(16_384, items, last, block, 1, false),
        |out, len| {
            lent::transaction_apply_keyed_add_block(16_384, &sheet, last, 7, 1, false, out, len)
                .into()
        },
    );
    let name = Keyed::Data { tree: 6, objectid: 257, offset: 0 };
    b.row_by_value(
        "transaction_apply_keyed_add_data",
        size,
        &items,
        |items| public::apply_keyed_add(16_384, items, middle, name, 1, false),
        |out, len| {
            lent::transaction_apply_keyed_add_data(
                16_384, &sheet, middle, 6, 257, 0, 1, false, out, len,
            )
            .into()
        },
    );
    b.row_by_value(
        "transaction_apply_shared_add",
        size,
        &items,
        |items| public::apply_shared_add(16_384, items, middle, 184, 8192, 2, false),
        |out, len| {
            lent::transaction_apply_shared_add(
                16_384, &sheet, middle, 184, 8192, 2, false, out, len,
            )
            .into()
        },
    );
    drops(b, size, &items, middle, last);
    b.beside("memcpy", size, |out| out[..sheet.len()].copy_from_slice(&sheet));
    // The books have no counterpart in the original: beside it stands its call for the same edit.
    b.row_by_value(
        "ledger_post",
        size,
        &items,
        |items| public::apply_keyed_add(16_384, items, middle, name, 1, false),
        |out, len| lent::ledger_post(16_384, &sheet, 2, middle, 6, 257, 0, 1, out, len).into(),
    );
}

/// A shared reference of two counts at `middle` and a second tree at `last`, to be dropped again.
fn drops(b: &mut Bench, size: &str, items: &[OwnedItem], middle: u64, last: u64) {
    let block = Keyed::Block { tree: 7 };
    let items = public::apply_shared_add(16_384, items.to_vec(), middle, 184, 8192, 2, false)
        .and_then(|items| public::apply_keyed_add(16_384, items, last, block, 1, false))
        .expect("room for both");
    let sheet = sheet(&items);
    b.row_by_value(
        "transaction_apply_shared_drop",
        size,
        &items,
        |items| public::apply_shared_drop(items, middle, 184, 8192, 2, false),
        |out, len| {
            lent::transaction_apply_shared_drop(&sheet, middle, 184, 8192, 2, false, out, len)
                .into()
        },
    );
    b.row_by_value(
        "transaction_drop_kept_tree_ref",
        size,
        &items,
        |items| public::drop_kept_tree_ref(items, last, 7, 0, false),
        |out, len| lent::transaction_drop_kept_tree_ref(&sheet, last, 0, 7, false, out, len).into(),
    );
}
