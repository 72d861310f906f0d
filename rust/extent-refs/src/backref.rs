//! Inline references of an extent item, with the signatures of the driver's `backref`.
use crate::answer::{accepted, cuts, edited, number, written};
use crate::error::Result;
use crate::lent;

pub const BLOCK_FLAG_FULL_BACKREF: u64 = 1 << 8;
pub const EXTENT_OWNER_REF: u8 = 172;
pub const TREE_BLOCK_REF: u8 = crate::extent_write::TREE_BLOCK_REF;
pub const EXTENT_DATA_REF: u8 = 178;
pub const SHARED_BLOCK_REF: u8 = 182;
pub const SHARED_DATA_REF: u8 = 184;

/// The longest inline reference: a data reference with its type byte.
const LONGEST: usize = 29;
/// The shortest: its type byte and one field.
const SHORTEST: usize = 9;

/// One inline reference: its type byte and the payload after it, a part of the caller's body.
#[derive(Debug, Clone, Copy, PartialEq, Eq)]
pub struct InlineRef<'a> {
    pub kind: u8,
    pub payload: &'a [u8],
    offset: u64,
}

impl InlineRef<'_> {
    /// The first eight payload bytes: the tree, or the parent.
    pub fn offset(&self) -> u64 {
        self.offset
    }
}

/// A keyed reference.
#[derive(Debug, Clone, Copy, PartialEq, Eq, PartialOrd, Ord)]
pub enum Keyed {
    Block { tree: u64 },
    Data { tree: u64, objectid: u64, offset: u64 },
}

pub fn flags(body: &[u8]) -> Option<u64> {
    number(|value| lent::backref_flags(body, value)).ok()
}

/// One call says where each reference stands; they lie side by side up to the body's end.
pub fn inline_refs(item_type: u8, body: &[u8]) -> Result<Vec<InlineRef<'_>>> {
    let positions = cuts(body.len() / SHORTEST, |positions, count| {
        lent::backref_inline_refs(item_type, body, positions, count)
    })?;
    let mut refs = Vec::with_capacity(positions.len());
    let mut end = body.len();
    for &at in positions.iter().rev() {
        let one = &body[at as usize..end];
        let field: [u8; 8] = one[1..9].try_into().expect("eight bytes");
        let offset = u64::from_le_bytes(field);
        refs.push(InlineRef { kind: one[0], payload: &one[1..], offset });
        end = at as usize;
    }
    refs.reverse();
    Ok(refs)
}

/// Reference number `number` of a body, from 0; `None` past the last.
pub fn inline_ref(item_type: u8, body: &[u8], number: u64) -> Result<Option<InlineRef<'_>>> {
    let (mut kind, mut offset, mut start, mut len) = (0, 0, 0, 0);
    let code = lent::backref_inline_ref(
        item_type,
        body,
        number,
        &mut kind,
        &mut offset,
        &mut start,
        &mut len,
    );
    // Of a body that reads, 5 says that there is no such reference.
    if code == 5 {
        return Ok(None);
    }
    accepted(code)?;
    let payload = &body[start as usize..][..len as usize];
    Ok(Some(InlineRef { kind: kind as u8, payload, offset }))
}

pub fn take_inline_shared(
    item_type: u8,
    body: &[u8],
    kind: u8,
    parent: u64,
) -> Result<Option<(Vec<u8>, u32)>> {
    let mut count = 0;
    let taken = edited(body.len(), |out, len| {
        lent::backref_take_inline_shared(item_type, body, kind, parent, out, len, &mut count)
    })?;
    Ok(taken.map(|left| (left, count as u32)))
}

pub fn add_inline_keyed(item_type: u8, body: &[u8], keyed: Keyed, count: u32) -> Result<Vec<u8>> {
    written(body.len() + LONGEST, |out, len| match keyed {
        Keyed::Block { tree } => {
            lent::backref_add_inline_keyed_block(item_type, body, tree, count, out, len)
        }
        Keyed::Data { tree, objectid, offset } => lent::backref_add_inline_keyed_data(
            item_type, body, tree, objectid, offset, count, out, len,
        ),
    })
}

pub fn drop_inline_data_ref(
    item_type: u8,
    body: &[u8],
    tree: u64,
    objectid: u64,
    offset: u64,
) -> Result<Option<Vec<u8>>> {
    edited(body.len(), |out, len| {
        lent::backref_drop_inline_data_ref(item_type, body, tree, objectid, offset, out, len)
    })
}

pub fn drop_keyed_data_ref(
    item: &[u8],
    tree: u64,
    objectid: u64,
    offset: u64,
) -> Result<Option<Vec<u8>>> {
    edited(item.len(), |out, len| {
        lent::backref_drop_keyed_data_ref(item, tree, objectid, offset, out, len)
    })
}

pub fn lower_total(item_type: u8, body: &[u8]) -> Result<Vec<u8>> {
    written(body.len(), |out, len| lent::backref_lower_total(item_type, body, out, len))
}

pub fn reduce_total(item_type: u8, body: &[u8], count: u64) -> Result<Vec<u8>> {
    written(body.len(), |out, len| lent::backref_reduce_total(item_type, body, count, out, len))
}

pub fn holds_inline_data_ref(
    item_type: u8,
    body: &[u8],
    tree: u64,
    objectid: u64,
    offset: u64,
) -> Result<bool> {
    let mut holds = 0;
    accepted(lent::backref_holds_inline_data_ref(
        item_type, body, tree, objectid, offset, &mut holds,
    ))?;
    Ok(holds == 1)
}

pub fn add_inline_data_ref(
    item_type: u8,
    body: &[u8],
    tree: u64,
    objectid: u64,
    offset: u64,
) -> Result<Vec<u8>> {
    written(body.len() + LONGEST, |out, len| {
        lent::backref_add_inline_data_ref(item_type, body, tree, objectid, offset, out, len)
    })
}

pub fn raise_total(item_type: u8, body: &[u8], count: u64) -> Result<Vec<u8>> {
    written(body.len(), |out, len| lent::backref_raise_total(item_type, body, count, out, len))
}

pub fn add_inline_tree_ref(item_type: u8, body: &[u8], tree: u64) -> Result<Vec<u8>> {
    written(body.len() + LONGEST, |out, len| {
        lent::backref_add_inline_tree_ref(item_type, body, tree, out, len)
    })
}

pub fn keyed_data_ref_body(tree: u64, objectid: u64, offset: u64, count: u32) -> Vec<u8> {
    written(28, |out, len| {
        lent::backref_keyed_data_ref_body(tree, objectid, offset, count, out, len)
    })
    .expect("28 bytes fit in 28")
}

pub fn add_inline_shared(
    item_type: u8,
    body: &[u8],
    kind: u8,
    parent: u64,
    count: u32,
) -> Result<Vec<u8>> {
    written(body.len() + LONGEST, |out, len| {
        lent::backref_add_inline_shared(item_type, body, kind, parent, count, out, len)
    })
}

pub fn drop_inline_tree_ref(item_type: u8, body: &[u8], tree: u64) -> Result<Option<Vec<u8>>> {
    edited(body.len(), |out, len| {
        lent::backref_drop_inline_tree_ref(item_type, body, tree, out, len)
    })
}

pub fn with_flags(body: &[u8], set: u64) -> Result<Vec<u8>> {
    written(body.len(), |out, len| lent::backref_with_flags(body, set, out, len))
}
