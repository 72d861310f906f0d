//! Public functions over the private ones of the original's transaction.rs: calls only, no logic.
use super::*;
use crate::backref::Keyed;
use crate::leaf_edit::OwnedItem;

pub fn record_of(items: &[OwnedItem], bytenr: u64) -> Option<&OwnedItem> {
    super::record_of(items, bytenr)
}

pub fn max_inline_extent_item(nodesize: u32) -> usize {
    super::max_inline_extent_item(nodesize)
}

/// `as_item` is whether `KeyedAdd::item` is there; its contents are never looked at.
pub fn apply_keyed_add(
    nodesize: u32,
    items: Vec<OwnedItem>,
    bytenr: u64,
    keyed: Keyed,
    count: u32,
    as_item: bool,
) -> Result<Vec<OwnedItem>> {
    let key = DiskKey { objectid: 0, key_type: 0, offset: 0 };
    let item = as_item.then(|| KeyedItem { key, data: vec![], leaf: 0, replaces: false });
    super::apply_keyed_add(nodesize, items, &KeyedAdd { bytenr, keyed, count, item })
}

pub fn apply_shared_add(
    nodesize: u32,
    items: Vec<OwnedItem>,
    bytenr: u64,
    kind: u8,
    parent: u64,
    count: u32,
    as_item: bool,
) -> Result<Vec<OwnedItem>> {
    let item_leaf = as_item.then_some(0);
    super::apply_shared_add(nodesize, items, &SharedAdd { bytenr, kind, parent, count, item_leaf })
}

pub fn apply_shared_drop(
    items: Vec<OwnedItem>,
    bytenr: u64,
    kind: u8,
    parent: u64,
    count: u32,
    as_item: bool,
) -> Result<Vec<OwnedItem>> {
    let item_leaf = as_item.then_some(0);
    super::apply_shared_drop(items, &SharedDrop { bytenr, kind, parent, count, item_leaf })
}

pub fn drop_kept_tree_ref(
    items: Vec<OwnedItem>,
    old: u64,
    owner: u64,
    level: u8,
    own: bool,
) -> Result<Vec<OwnedItem>> {
    super::drop_kept_tree_ref(items, &Rewrite { old, new: 0, owner, level }, own)
}

pub fn keyed_data_ref_names(body: &[u8], tree: u64, ino: u64, offset: u64) -> bool {
    super::keyed_data_ref_names(body, tree, ino, offset)
}

pub fn held_only_by(body: &[u8], root: u64, ino: u64, offsets: &[u64]) -> bool {
    super::held_only_by(body, root, ino, offsets)
}

pub fn data_extent_body(generation: u64, root: u64, ino: u64, offset: u64) -> Vec<u8> {
    super::data_extent_body(generation, root, ino, offset).to_vec()
}

pub fn shared_add_item(bytenr: u64, kind: u8, parent: u64, count: u32) -> OwnedItem {
    SharedAdd { bytenr, kind, parent, count, item_leaf: None }.item()
}

pub fn shared_add_inline_size(kind: u8) -> usize {
    SharedAdd { bytenr: 0, kind, parent: 0, count: 0, item_leaf: None }.inline_size()
}
