//! The functions of the driver's `transaction` that keep an extent's record in step.
use crate::answer::{accepted, number, written};
use crate::backref::Keyed;
use crate::chunk::DiskKey;
use crate::error::Result;
use crate::leaf_edit::OwnedItem;
use crate::lent;
use crate::sheet::{from_items, room, to_items};

pub use crate::extent_write::data_extent_body;

/// The longest inline reference.
const LONGEST: usize = 29;

/// A block that moves, as the driver's plan has it.
#[derive(Debug, Clone, Copy, PartialEq, Eq)]
pub struct Rewrite {
    pub old: u64,
    pub new: u64,
    pub owner: u64,
    pub level: u8,
}

/// A keyed reference that a record gains; with `item` it is filed as an item of its own.
#[derive(Debug, Clone)]
pub struct KeyedAdd {
    pub bytenr: u64,
    pub keyed: Keyed,
    pub count: u32,
    pub item: Option<KeyedItem>,
}

#[derive(Debug, Clone)]
pub struct KeyedItem {
    pub key: DiskKey,
    pub data: Vec<u8>,
    pub leaf: u64,
    pub replaces: bool,
}

/// A shared reference that a record loses; with `item_leaf` it is an item of its own.
#[derive(Debug, Clone, Copy)]
pub struct SharedDrop {
    pub bytenr: u64,
    pub kind: u8,
    pub parent: u64,
    pub count: u32,
    pub item_leaf: Option<u64>,
}

/// A shared reference that a record gains; with `item_leaf` it is filed as an item of its own.
#[derive(Debug, Clone, Copy, PartialEq, Eq)]
pub struct SharedAdd {
    pub bytenr: u64,
    pub kind: u8,
    pub parent: u64,
    pub count: u32,
    pub item_leaf: Option<u64>,
}

impl SharedAdd {
    /// The key of the item it is filed as.
    ///
    /// # Panics
    ///
    /// For a kind that is neither 182 nor 184: the driver's signature has no error here.
    pub fn item_key(&self) -> DiskKey {
        let (mut objectid, mut key_kind, mut offset) = (0, 0, 0);
        accepted(lent::transaction_shared_add_key(
            self.bytenr,
            self.kind,
            self.parent,
            &mut objectid,
            &mut key_kind,
            &mut offset,
        ))
        .expect("a shared kind");
        DiskKey { objectid, key_type: key_kind as u8, offset }
    }

    /// The item it is filed as.
    ///
    /// # Panics
    ///
    /// As [`SharedAdd::item_key`].
    pub fn item(&self) -> OwnedItem {
        let data = written(4, |out, len| {
            lent::transaction_shared_add_item(self.kind, self.count, out, len)
        })
        .expect("a shared kind");
        OwnedItem { key: self.item_key(), data }
    }

    /// How long it is inline.
    ///
    /// # Panics
    ///
    /// As [`SharedAdd::item_key`].
    pub fn inline_size(&self) -> usize {
        number(|size| lent::transaction_shared_add_inline_size(self.kind, size))
            .expect("a shared kind") as usize
    }
}

/// # Panics
///
/// For a nodesize outside 501 to 65,536: the driver's signature has no error here, and the
/// driver's own function overflows below 501.
pub fn max_inline_extent_item(nodesize: u32) -> usize {
    number(|limit| lent::transaction_max_inline_extent_item(nodesize, limit))
        .expect("a nodesize from 501 to 65,536") as usize
}

pub fn record_of(items: &[OwnedItem], bytenr: u64) -> Option<&OwnedItem> {
    let sheet = from_items(items);
    let at = number(|number| lent::transaction_record_of(&sheet, bytenr, number)).ok()?;
    items.get(at as usize)
}

pub fn apply_keyed_add(
    nodesize: u32,
    items: Vec<OwnedItem>,
    add: &KeyedAdd,
) -> Result<Vec<OwnedItem>> {
    let sheet = from_items(&items);
    let as_item = add.item.is_some();
    let out = written(room(&sheet, LONGEST), |out, len| match add.keyed {
        Keyed::Block { tree } => lent::transaction_apply_keyed_add_block(
            nodesize, &sheet, add.bytenr, tree, add.count, as_item, out, len,
        ),
        Keyed::Data { tree, objectid, offset } => lent::transaction_apply_keyed_add_data(
            nodesize, &sheet, add.bytenr, tree, objectid, offset, add.count, as_item, out, len,
        ),
    })?;
    Ok(to_items(&out))
}

pub fn apply_shared_add(
    nodesize: u32,
    items: Vec<OwnedItem>,
    add: &SharedAdd,
) -> Result<Vec<OwnedItem>> {
    let sheet = from_items(&items);
    let as_item = add.item_leaf.is_some();
    let out = written(room(&sheet, LONGEST), |out, len| {
        lent::transaction_apply_shared_add(
            nodesize, &sheet, add.bytenr, add.kind, add.parent, add.count, as_item, out, len,
        )
    })?;
    Ok(to_items(&out))
}

pub fn apply_shared_drop(items: Vec<OwnedItem>, drop: &SharedDrop) -> Result<Vec<OwnedItem>> {
    let sheet = from_items(&items);
    let as_item = drop.item_leaf.is_some();
    let out = written(room(&sheet, 0), |out, len| {
        lent::transaction_apply_shared_drop(
            &sheet,
            drop.bytenr,
            drop.kind,
            drop.parent,
            drop.count,
            as_item,
            out,
            len,
        )
    })?;
    Ok(to_items(&out))
}

pub fn drop_kept_tree_ref(
    items: Vec<OwnedItem>,
    rewrite: &Rewrite,
    own: bool,
) -> Result<Vec<OwnedItem>> {
    let sheet = from_items(&items);
    let out = written(room(&sheet, 0), |out, len| {
        lent::transaction_drop_kept_tree_ref(
            &sheet,
            rewrite.old,
            rewrite.level,
            rewrite.owner,
            own,
            out,
            len,
        )
    })?;
    Ok(to_items(&out))
}

pub fn keyed_data_ref_names(body: &[u8], tree: u64, ino: u64, offset: u64) -> bool {
    number(|names| lent::transaction_keyed_data_ref_names(body, tree, ino, offset, names)) == Ok(1)
}

pub fn held_only_by(body: &[u8], root: u64, ino: u64, ref_offsets: &[u64]) -> bool {
    number(|holds| lent::transaction_held_only_by(body, root, ino, ref_offsets, holds)) == Ok(1)
}
