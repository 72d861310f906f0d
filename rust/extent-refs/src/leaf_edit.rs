//! Item lists, with the signatures of the driver's `leaf_edit`.
use crate::answer::{cuts, number, written};
use crate::chunk::DiskKey;
use crate::error::Result;
use crate::lent;
use crate::sheet::{from_items, room, to_items, ITEM_HEAD};
use crate::tree_write::LeafItem;

/// An item to place, owning its bytes.
#[derive(Debug, Clone, PartialEq, Eq)]
pub struct OwnedItem {
    pub key: DiskKey,
    pub data: Vec<u8>,
}

impl OwnedItem {
    /// Borrow for encoding.
    pub fn as_leaf_item(&self) -> LeafItem<'_> {
        LeafItem { key: self.key, data: &self.data }
    }
}

pub fn insert(nodesize: u32, items: &[OwnedItem], item: OwnedItem) -> Result<Vec<OwnedItem>> {
    let sheet = from_items(items);
    let DiskKey { objectid, key_type, offset } = item.key;
    let out = written(room(&sheet, ITEM_HEAD + item.data.len()), |out, len| {
        lent::leaf_edit_insert(nodesize, &sheet, objectid, key_type, offset, &item.data, out, len)
    })?;
    Ok(to_items(&out))
}

pub fn insert_unbounded(items: &[OwnedItem], item: OwnedItem) -> Result<Vec<OwnedItem>> {
    let sheet = from_items(items);
    let DiskKey { objectid, key_type, offset } = item.key;
    let out = written(room(&sheet, ITEM_HEAD + item.data.len()), |out, len| {
        lent::leaf_edit_insert_unbounded(&sheet, objectid, key_type, offset, &item.data, out, len)
    })?;
    Ok(to_items(&out))
}

pub fn delete(items: &[OwnedItem], key: &DiskKey) -> Result<Vec<OwnedItem>> {
    let sheet = from_items(items);
    let out = written(room(&sheet, 0), |out, len| {
        lent::leaf_edit_delete(&sheet, key.objectid, key.key_type, key.offset, out, len)
    })?;
    Ok(to_items(&out))
}

/// No where the list is refused: what is past the limits fits in no leaf, and a list out of
/// order is no leaf.
pub fn fit(nodesize: u32, items: &[OwnedItem]) -> bool {
    let sheet = from_items(items);
    number(|fits| lent::leaf_edit_fit(nodesize, &sheet, fits)) == Ok(1)
}

/// No where the list is refused, as [`fit`].
pub fn fits(nodesize: u32, items: &[OwnedItem], item: &OwnedItem) -> bool {
    let sheet = from_items(items);
    number(|fits| lent::leaf_edit_fits(nodesize, &sheet, &item.data, fits)) == Ok(1)
}

pub fn split(items: &[OwnedItem]) -> Result<(Vec<OwnedItem>, Vec<OwnedItem>)> {
    let sheet = from_items(items);
    let at = cuts(1, |cuts, count| lent::leaf_edit_split(&sheet, cuts, count))?;
    let (left, right) = items.split_at(at.first().map_or(items.len(), |&at| usize::from(at)));
    Ok((left.to_vec(), right.to_vec()))
}

pub fn split_to_fit(nodesize: u32, items: &[OwnedItem]) -> Result<Vec<Vec<OwnedItem>>> {
    let sheet = from_items(items);
    let at = cuts(items.len(), |cuts, count| {
        lent::leaf_edit_split_to_fit(nodesize, &sheet, cuts, count)
    })?;
    let mut leaves = Vec::new();
    let mut start = 0;
    for end in at.iter().map(|&at| usize::from(at)).chain([items.len()]) {
        leaves.push(items[start..end].to_vec());
        start = end;
    }
    Ok(leaves)
}

/// The driver's own combination of the calls above: one list where the item fits, else two.
pub fn insert_or_split(
    nodesize: u32,
    items: &[OwnedItem],
    item: OwnedItem,
) -> Result<Vec<Vec<OwnedItem>>> {
    if fits(nodesize, items, &item) {
        return Ok(vec![insert(nodesize, items, item)?]);
    }
    let (left, right) = split(&insert_unbounded(items, item)?)?;
    Ok(vec![left, right])
}
