//! Written by tools/declarations from include/calls.txt: do not edit.
//!
//! The plain form, which allocates nothing: the caller lends the output. A call of which
//! include/extent_refs.h says "Returns" returns that value and refuses nothing. Any other returns
//! 0 where it is accepted, else the number of the question that refused it, 100 for absent and
//! 101 for remove. On anything but 0 every lent number is 0 and every other lent byte keeps its
//! value; past an accepted result too. The header also says what each call asks and gives.
#![allow(clippy::too_many_arguments)]
use crate::raw;

pub fn crc32c_table_text(polynomial: u32, out: &mut [u8], len: &mut u64) -> u32 {
    unsafe { raw::crc32c_table_text(polynomial, out.as_mut_ptr(), out.len(), len) }
}

pub fn crc32c_word_step(register: u32, word: u32) -> u32 {
    unsafe { raw::crc32c_word_step(register, word) }
}

pub fn crc32c_update(register: u32, bytes: &[u8]) -> u32 {
    unsafe { raw::crc32c_update(register, bytes.as_ptr(), bytes.len()) }
}

pub fn extent_write_data_ref_hash(tree: u64, objectid: u64, offset: u64) -> u64 {
    unsafe { raw::extent_write_data_ref_hash(tree, objectid, offset) }
}

pub fn extent_write_tree_block_key(
    bytenr: u64,
    level: u8,
    objectid: &mut u64,
    kind: &mut u64,
    offset: &mut u64,
) -> u32 {
    unsafe { raw::extent_write_tree_block_key(bytenr, level, objectid, kind, offset) }
}

pub fn extent_write_tree_block_body(
    generation: u64,
    owner: u64,
    out: &mut [u8],
    len: &mut u64,
) -> u32 {
    unsafe {
        raw::extent_write_tree_block_body(generation, owner, out.as_mut_ptr(), out.len(), len)
    }
}

pub fn extent_write_data_extent_body(
    generation: u64,
    root: u64,
    ino: u64,
    offset: u64,
    out: &mut [u8],
    len: &mut u64,
) -> u32 {
    unsafe {
        raw::extent_write_data_extent_body(
            generation,
            root,
            ino,
            offset,
            out.as_mut_ptr(),
            out.len(),
            len,
        )
    }
}

pub fn backref_flags(body: &[u8], value: &mut u64) -> u32 {
    unsafe { raw::backref_flags(body.as_ptr(), body.len(), value) }
}

pub fn backref_inline_refs(
    item_type: u8,
    body: &[u8],
    positions: &mut [u16],
    count: &mut u64,
) -> u32 {
    unsafe {
        raw::backref_inline_refs(
            item_type,
            body.as_ptr(),
            body.len(),
            positions.as_mut_ptr(),
            positions.len(),
            count,
        )
    }
}

pub fn backref_inline_ref(
    item_type: u8,
    body: &[u8],
    number: u64,
    kind: &mut u64,
    offset: &mut u64,
    start: &mut u64,
    len: &mut u64,
) -> u32 {
    unsafe {
        raw::backref_inline_ref(
            item_type,
            body.as_ptr(),
            body.len(),
            number,
            kind,
            offset,
            start,
            len,
        )
    }
}

pub fn backref_take_inline_shared(
    item_type: u8,
    body: &[u8],
    kind: u8,
    parent: u64,
    out: &mut [u8],
    len: &mut u64,
    count: &mut u64,
) -> u32 {
    unsafe {
        raw::backref_take_inline_shared(
            item_type,
            body.as_ptr(),
            body.len(),
            kind,
            parent,
            out.as_mut_ptr(),
            out.len(),
            len,
            count,
        )
    }
}

pub fn backref_add_inline_keyed_block(
    item_type: u8,
    body: &[u8],
    tree: u64,
    count: u32,
    out: &mut [u8],
    len: &mut u64,
) -> u32 {
    unsafe {
        raw::backref_add_inline_keyed_block(
            item_type,
            body.as_ptr(),
            body.len(),
            tree,
            count,
            out.as_mut_ptr(),
            out.len(),
            len,
        )
    }
}

pub fn backref_add_inline_keyed_data(
    item_type: u8,
    body: &[u8],
    tree: u64,
    objectid: u64,
    offset: u64,
    count: u32,
    out: &mut [u8],
    len: &mut u64,
) -> u32 {
    unsafe {
        raw::backref_add_inline_keyed_data(
            item_type,
            body.as_ptr(),
            body.len(),
            tree,
            objectid,
            offset,
            count,
            out.as_mut_ptr(),
            out.len(),
            len,
        )
    }
}

pub fn backref_drop_inline_data_ref(
    item_type: u8,
    body: &[u8],
    tree: u64,
    objectid: u64,
    offset: u64,
    out: &mut [u8],
    len: &mut u64,
) -> u32 {
    unsafe {
        raw::backref_drop_inline_data_ref(
            item_type,
            body.as_ptr(),
            body.len(),
            tree,
            objectid,
            offset,
            out.as_mut_ptr(),
            out.len(),
            len,
        )
    }
}

pub fn backref_drop_keyed_data_ref(
    item: &[u8],
    tree: u64,
    objectid: u64,
    offset: u64,
    out: &mut [u8],
    len: &mut u64,
) -> u32 {
    unsafe {
        raw::backref_drop_keyed_data_ref(
            item.as_ptr(),
            item.len(),
            tree,
            objectid,
            offset,
            out.as_mut_ptr(),
            out.len(),
            len,
        )
    }
}

pub fn backref_lower_total(item_type: u8, body: &[u8], out: &mut [u8], len: &mut u64) -> u32 {
    unsafe {
        raw::backref_lower_total(
            item_type,
            body.as_ptr(),
            body.len(),
            out.as_mut_ptr(),
            out.len(),
            len,
        )
    }
}

pub fn backref_reduce_total(
    item_type: u8,
    body: &[u8],
    total_count: u64,
    out: &mut [u8],
    len: &mut u64,
) -> u32 {
    unsafe {
        raw::backref_reduce_total(
            item_type,
            body.as_ptr(),
            body.len(),
            total_count,
            out.as_mut_ptr(),
            out.len(),
            len,
        )
    }
}

pub fn backref_raise_total(
    item_type: u8,
    body: &[u8],
    total_count: u64,
    out: &mut [u8],
    len: &mut u64,
) -> u32 {
    unsafe {
        raw::backref_raise_total(
            item_type,
            body.as_ptr(),
            body.len(),
            total_count,
            out.as_mut_ptr(),
            out.len(),
            len,
        )
    }
}

pub fn backref_holds_inline_data_ref(
    item_type: u8,
    body: &[u8],
    tree: u64,
    objectid: u64,
    offset: u64,
    holds: &mut u64,
) -> u32 {
    unsafe {
        raw::backref_holds_inline_data_ref(
            item_type,
            body.as_ptr(),
            body.len(),
            tree,
            objectid,
            offset,
            holds,
        )
    }
}

pub fn backref_add_inline_data_ref(
    item_type: u8,
    body: &[u8],
    tree: u64,
    objectid: u64,
    offset: u64,
    out: &mut [u8],
    len: &mut u64,
) -> u32 {
    unsafe {
        raw::backref_add_inline_data_ref(
            item_type,
            body.as_ptr(),
            body.len(),
            tree,
            objectid,
            offset,
            out.as_mut_ptr(),
            out.len(),
            len,
        )
    }
}

pub fn backref_add_inline_tree_ref(
    item_type: u8,
    body: &[u8],
    tree: u64,
    out: &mut [u8],
    len: &mut u64,
) -> u32 {
    unsafe {
        raw::backref_add_inline_tree_ref(
            item_type,
            body.as_ptr(),
            body.len(),
            tree,
            out.as_mut_ptr(),
            out.len(),
            len,
        )
    }
}

pub fn backref_keyed_data_ref_body(
    tree: u64,
    objectid: u64,
    offset: u64,
    count: u32,
    out: &mut [u8],
    len: &mut u64,
) -> u32 {
    unsafe {
        raw::backref_keyed_data_ref_body(
            tree,
            objectid,
            offset,
            count,
            out.as_mut_ptr(),
            out.len(),
            len,
        )
    }
}

pub fn backref_add_inline_shared(
    item_type: u8,
    body: &[u8],
    kind: u8,
    parent: u64,
    count: u32,
    out: &mut [u8],
    len: &mut u64,
) -> u32 {
    unsafe {
        raw::backref_add_inline_shared(
            item_type,
            body.as_ptr(),
            body.len(),
            kind,
            parent,
            count,
            out.as_mut_ptr(),
            out.len(),
            len,
        )
    }
}

pub fn backref_drop_inline_tree_ref(
    item_type: u8,
    body: &[u8],
    tree: u64,
    out: &mut [u8],
    len: &mut u64,
) -> u32 {
    unsafe {
        raw::backref_drop_inline_tree_ref(
            item_type,
            body.as_ptr(),
            body.len(),
            tree,
            out.as_mut_ptr(),
            out.len(),
            len,
        )
    }
}

pub fn backref_with_flags(body: &[u8], set: u64, out: &mut [u8], len: &mut u64) -> u32 {
    unsafe {
        raw::backref_with_flags(body.as_ptr(), body.len(), set, out.as_mut_ptr(), out.len(), len)
    }
}

pub fn transaction_held_only_by(
    body: &[u8],
    root: u64,
    ino: u64,
    offsets: &[u64],
    holds: &mut u64,
) -> u32 {
    unsafe {
        raw::transaction_held_only_by(
            body.as_ptr(),
            body.len(),
            root,
            ino,
            offsets.as_ptr(),
            offsets.len(),
            holds,
        )
    }
}

pub fn transaction_keyed_data_ref_names(
    item: &[u8],
    tree: u64,
    objectid: u64,
    offset: u64,
    names: &mut u64,
) -> u32 {
    unsafe {
        raw::transaction_keyed_data_ref_names(
            item.as_ptr(),
            item.len(),
            tree,
            objectid,
            offset,
            names,
        )
    }
}

pub fn transaction_shared_add_item(kind: u8, count: u32, out: &mut [u8], len: &mut u64) -> u32 {
    unsafe { raw::transaction_shared_add_item(kind, count, out.as_mut_ptr(), out.len(), len) }
}

pub fn transaction_shared_add_key(
    bytenr: u64,
    kind: u8,
    parent: u64,
    objectid: &mut u64,
    key_kind: &mut u64,
    offset: &mut u64,
) -> u32 {
    unsafe { raw::transaction_shared_add_key(bytenr, kind, parent, objectid, key_kind, offset) }
}

pub fn transaction_shared_add_inline_size(kind: u8, size: &mut u64) -> u32 {
    unsafe { raw::transaction_shared_add_inline_size(kind, size) }
}

pub fn transaction_max_inline_extent_item(nodesize: u32, limit: &mut u64) -> u32 {
    unsafe { raw::transaction_max_inline_extent_item(nodesize, limit) }
}

pub fn transaction_record_of(sheet: &[u8], bytenr: u64, number: &mut u64) -> u32 {
    unsafe { raw::transaction_record_of(sheet.as_ptr(), sheet.len(), bytenr, number) }
}

pub fn transaction_apply_keyed_add_block(
    nodesize: u32,
    sheet: &[u8],
    bytenr: u64,
    tree: u64,
    count: u32,
    as_item: bool,
    out: &mut [u8],
    len: &mut u64,
) -> u32 {
    unsafe {
        raw::transaction_apply_keyed_add_block(
            nodesize,
            sheet.as_ptr(),
            sheet.len(),
            bytenr,
            tree,
            count,
            as_item,
            out.as_mut_ptr(),
            out.len(),
            len,
        )
    }
}

pub fn transaction_apply_keyed_add_data(
    nodesize: u32,
    sheet: &[u8],
    bytenr: u64,
    tree: u64,
    objectid: u64,
    offset: u64,
    count: u32,
    as_item: bool,
    out: &mut [u8],
    len: &mut u64,
) -> u32 {
    unsafe {
        raw::transaction_apply_keyed_add_data(
            nodesize,
            sheet.as_ptr(),
            sheet.len(),
            bytenr,
            tree,
            objectid,
            offset,
            count,
            as_item,
            out.as_mut_ptr(),
            out.len(),
            len,
        )
    }
}

pub fn transaction_apply_shared_add(
    nodesize: u32,
    sheet: &[u8],
    bytenr: u64,
    kind: u8,
    parent: u64,
    count: u32,
    as_item: bool,
    out: &mut [u8],
    len: &mut u64,
) -> u32 {
    unsafe {
        raw::transaction_apply_shared_add(
            nodesize,
            sheet.as_ptr(),
            sheet.len(),
            bytenr,
            kind,
            parent,
            count,
            as_item,
            out.as_mut_ptr(),
            out.len(),
            len,
        )
    }
}

pub fn transaction_apply_shared_drop(
    sheet: &[u8],
    bytenr: u64,
    kind: u8,
    parent: u64,
    count: u32,
    as_item: bool,
    out: &mut [u8],
    len: &mut u64,
) -> u32 {
    unsafe {
        raw::transaction_apply_shared_drop(
            sheet.as_ptr(),
            sheet.len(),
            bytenr,
            kind,
            parent,
            count,
            as_item,
            out.as_mut_ptr(),
            out.len(),
            len,
        )
    }
}

pub fn transaction_drop_kept_tree_ref(
    sheet: &[u8],
    bytenr: u64,
    level: u8,
    tree: u64,
    own: bool,
    out: &mut [u8],
    len: &mut u64,
) -> u32 {
    unsafe {
        raw::transaction_drop_kept_tree_ref(
            sheet.as_ptr(),
            sheet.len(),
            bytenr,
            level,
            tree,
            own,
            out.as_mut_ptr(),
            out.len(),
            len,
        )
    }
}

pub fn leaf_edit_insert(
    nodesize: u32,
    sheet: &[u8],
    objectid: u64,
    kind: u8,
    offset: u64,
    data: &[u8],
    out: &mut [u8],
    len: &mut u64,
) -> u32 {
    unsafe {
        raw::leaf_edit_insert(
            nodesize,
            sheet.as_ptr(),
            sheet.len(),
            objectid,
            kind,
            offset,
            data.as_ptr(),
            data.len(),
            out.as_mut_ptr(),
            out.len(),
            len,
        )
    }
}

pub fn leaf_edit_insert_unbounded(
    sheet: &[u8],
    objectid: u64,
    kind: u8,
    offset: u64,
    data: &[u8],
    out: &mut [u8],
    len: &mut u64,
) -> u32 {
    unsafe {
        raw::leaf_edit_insert_unbounded(
            sheet.as_ptr(),
            sheet.len(),
            objectid,
            kind,
            offset,
            data.as_ptr(),
            data.len(),
            out.as_mut_ptr(),
            out.len(),
            len,
        )
    }
}

pub fn leaf_edit_delete(
    sheet: &[u8],
    objectid: u64,
    kind: u8,
    offset: u64,
    out: &mut [u8],
    len: &mut u64,
) -> u32 {
    unsafe {
        raw::leaf_edit_delete(
            sheet.as_ptr(),
            sheet.len(),
            objectid,
            kind,
            offset,
            out.as_mut_ptr(),
            out.len(),
            len,
        )
    }
}

pub fn leaf_edit_fit(nodesize: u32, sheet: &[u8], fits: &mut u64) -> u32 {
    unsafe { raw::leaf_edit_fit(nodesize, sheet.as_ptr(), sheet.len(), fits) }
}

pub fn leaf_edit_fits(nodesize: u32, sheet: &[u8], data: &[u8], fits: &mut u64) -> u32 {
    unsafe {
        raw::leaf_edit_fits(nodesize, sheet.as_ptr(), sheet.len(), data.as_ptr(), data.len(), fits)
    }
}

pub fn leaf_edit_split(sheet: &[u8], cuts: &mut [u16], count: &mut u64) -> u32 {
    unsafe {
        raw::leaf_edit_split(sheet.as_ptr(), sheet.len(), cuts.as_mut_ptr(), cuts.len(), count)
    }
}

pub fn leaf_edit_split_to_fit(
    nodesize: u32,
    sheet: &[u8],
    cuts: &mut [u16],
    count: &mut u64,
) -> u32 {
    unsafe {
        raw::leaf_edit_split_to_fit(
            nodesize,
            sheet.as_ptr(),
            sheet.len(),
            cuts.as_mut_ptr(),
            cuts.len(),
            count,
        )
    }
}

pub fn leaf_edit_item(sheet: &[u8], number: u64, start: &mut u64, len: &mut u64) -> u32 {
    unsafe { raw::leaf_edit_item(sheet.as_ptr(), sheet.len(), number, start, len) }
}

pub fn leaf_image_read(nodesize: u32, image: &[u8], out: &mut [u8], len: &mut u64) -> u32 {
    unsafe {
        raw::leaf_image_read(
            nodesize,
            image.as_ptr(),
            image.len(),
            out.as_mut_ptr(),
            out.len(),
            len,
        )
    }
}

pub fn leaf_image_write(
    nodesize: u32,
    header: &[u8],
    sheet: &[u8],
    out: &mut [u8],
    len: &mut u64,
) -> u32 {
    unsafe {
        raw::leaf_image_write(
            nodesize,
            header.as_ptr(),
            header.len(),
            sheet.as_ptr(),
            sheet.len(),
            out.as_mut_ptr(),
            out.len(),
            len,
        )
    }
}

pub fn ledger_post(
    nodesize: u32,
    sheet: &[u8],
    change: u8,
    extent: u64,
    a: u64,
    b: u64,
    c: u64,
    amount: u32,
    out: &mut [u8],
    len: &mut u64,
) -> u32 {
    unsafe {
        raw::ledger_post(
            nodesize,
            sheet.as_ptr(),
            sheet.len(),
            change,
            extent,
            a,
            b,
            c,
            amount,
            out.as_mut_ptr(),
            out.len(),
            len,
        )
    }
}
