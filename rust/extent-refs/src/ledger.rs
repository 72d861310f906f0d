//! Posting a change to a balanced item list.
use crate::answer::written;
use crate::error::Result;
use crate::leaf_edit::OwnedItem;
use crate::lent;
use crate::sheet::{from_items, room, to_items};

/// A data reference's name: tree, inode, file offset.
#[derive(Debug, Clone, Copy, PartialEq, Eq)]
pub struct DataRef {
    pub tree: u64,
    pub objectid: u64,
    pub offset: u64,
}

/// A shared reference's name: type 182 or 184, and the parent.
#[derive(Debug, Clone, Copy, PartialEq, Eq)]
pub struct SharedRef {
    pub kind: u8,
    pub parent: u64,
}

/// One of the six changes. An amount of 0 is refused 10.
#[derive(Debug, Clone, Copy, PartialEq, Eq)]
pub enum Change {
    AddBlock {
        tree: u64,
    },
    AddData {
        name: DataRef,
        amount: u32,
    },
    /// A shared block (182) is added once: another amount is refused 10.
    AddShared {
        name: SharedRef,
        amount: u32,
    },
    DropBlock {
        tree: u64,
    },
    /// One count of it.
    DropData {
        name: DataRef,
    },
    /// So much of what stands, inline or as an item, and off the extent's total, which may reach 0.
    /// With all of it the reference goes; an amount above it is refused 22. Of a shared block (182)
    /// 1 stands. What an accepted [`Change::AddShared`] added, the same amount takes off again, and
    /// the list is the old one byte for byte.
    DropShared {
        name: SharedRef,
        amount: u32,
    },
}

impl Change {
    /// The numbers of the C call: which change, the name's three fields, the amount.
    fn numbers(&self) -> (u8, [u64; 3], u32) {
        let data = |n: DataRef| [n.tree, n.objectid, n.offset];
        let shared = |n: SharedRef| [u64::from(n.kind), n.parent, 0];
        match *self {
            Change::AddBlock { tree } => (1, [tree, 0, 0], 1),
            Change::AddData { name, amount } => (2, data(name), amount),
            Change::AddShared { name, amount } => (3, shared(name), amount),
            Change::DropBlock { tree } => (4, [tree, 0, 0], 1),
            Change::DropData { name } => (5, data(name), 1),
            Change::DropShared { name, amount } => (6, shared(name), amount),
        }
    }
}

/// Posts a change to a sheet's bytes.
pub fn post_sheet(nodesize: u32, sheet: &[u8], extent: u64, change: Change) -> Result<Vec<u8>> {
    let (which, [a, b, c], amount) = change.numbers();
    written(room(sheet, 29), |out, len| {
        lent::ledger_post(nodesize, sheet, which, extent, a, b, c, amount, out, len)
    })
}

pub fn post(
    nodesize: u32,
    items: &[OwnedItem],
    extent: u64,
    change: Change,
) -> Result<Vec<OwnedItem>> {
    Ok(to_items(&post_sheet(nodesize, &from_items(items), extent, change)?))
}
