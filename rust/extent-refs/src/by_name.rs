//! Written by tools/declarations from include/calls.txt: do not edit.
//!
//! Every call by its name, for tests and benches that go through all of them.
use crate::lent;

/// One argument in the order of the parameters.
pub enum Value<'a> {
    /// u8, u16, u32, u64 or bool.
    Number(u64),
    Bytes(&'a [u8]),
    Words(&'a [u64]),
    Out(&'a mut [u8]),
    Cuts(&'a mut [u16]),
    Lent(&'a mut u64),
}

/// Every declared call.
pub const NAMES: &[&str] = &[
    "crc32c_table_text",
    "crc32c_word_step",
    "crc32c_update",
    "extent_write_data_ref_hash",
    "extent_write_tree_block_key",
    "extent_write_tree_block_body",
    "extent_write_data_extent_body",
    "backref_flags",
    "backref_inline_refs",
    "backref_inline_ref",
    "backref_take_inline_shared",
    "backref_add_inline_keyed_block",
    "backref_add_inline_keyed_data",
    "backref_drop_inline_data_ref",
    "backref_drop_keyed_data_ref",
    "backref_lower_total",
    "backref_reduce_total",
    "backref_raise_total",
    "backref_holds_inline_data_ref",
    "backref_add_inline_data_ref",
    "backref_add_inline_tree_ref",
    "backref_keyed_data_ref_body",
    "backref_add_inline_shared",
    "backref_drop_inline_tree_ref",
    "backref_with_flags",
    "transaction_held_only_by",
    "transaction_keyed_data_ref_names",
    "transaction_shared_add_item",
    "transaction_shared_add_key",
    "transaction_shared_add_inline_size",
    "transaction_max_inline_extent_item",
    "transaction_record_of",
    "transaction_apply_keyed_add_block",
    "transaction_apply_keyed_add_data",
    "transaction_apply_shared_add",
    "transaction_apply_shared_drop",
    "transaction_drop_kept_tree_ref",
    "leaf_edit_insert",
    "leaf_edit_insert_unbounded",
    "leaf_edit_delete",
    "leaf_edit_fit",
    "leaf_edit_fits",
    "leaf_edit_split",
    "leaf_edit_split_to_fit",
    "leaf_edit_item",
    "leaf_image_read",
    "leaf_image_write",
    "ledger_post",
];

/// What the call returns; `None` where there is no such call or its parameters are others.
pub fn call(name: &str, args: &mut [Value<'_>]) -> Option<u64> {
    use Value::*;
    Some(match (name, args) {
        ("crc32c_table_text", [Number(polynomial), Out(out), Lent(len)]) => {
            u64::from(lent::crc32c_table_text(*polynomial as u32, out, len))
        }
        ("crc32c_word_step", [Number(register), Number(word)]) => {
            u64::from(lent::crc32c_word_step(*register as u32, *word as u32))
        }
        ("crc32c_update", [Number(register), Bytes(bytes)]) => {
            u64::from(lent::crc32c_update(*register as u32, bytes))
        }
        ("extent_write_data_ref_hash", [Number(tree), Number(objectid), Number(offset)]) => {
            lent::extent_write_data_ref_hash(*tree, *objectid, *offset)
        }
        ("extent_write_tree_block_key", [Number(bytenr), Number(level), Lent(objectid), Lent(kind), Lent(offset)]) => {
            u64::from(lent::extent_write_tree_block_key(*bytenr, *level as u8, objectid, kind, offset))
        }
        ("extent_write_tree_block_body", [Number(generation), Number(owner), Out(out), Lent(len)]) => {
            u64::from(lent::extent_write_tree_block_body(*generation, *owner, out, len))
        }
        ("extent_write_data_extent_body", [Number(generation), Number(root), Number(ino), Number(offset), Out(out), Lent(len)]) => {
            u64::from(lent::extent_write_data_extent_body(*generation, *root, *ino, *offset, out, len))
        }
        ("backref_flags", [Bytes(body), Lent(value)]) => {
            u64::from(lent::backref_flags(body, value))
        }
        ("backref_inline_refs", [Number(item_type), Bytes(body), Cuts(positions), Lent(count)]) => {
            u64::from(lent::backref_inline_refs(*item_type as u8, body, positions, count))
        }
        ("backref_inline_ref", [Number(item_type), Bytes(body), Number(number), Lent(kind), Lent(offset), Lent(start), Lent(len)]) => {
            u64::from(lent::backref_inline_ref(*item_type as u8, body, *number, kind, offset, start, len))
        }
        ("backref_take_inline_shared", [Number(item_type), Bytes(body), Number(kind), Number(parent), Out(out), Lent(len), Lent(count)]) => {
            u64::from(lent::backref_take_inline_shared(*item_type as u8, body, *kind as u8, *parent, out, len, count))
        }
        ("backref_add_inline_keyed_block", [Number(item_type), Bytes(body), Number(tree), Number(count), Out(out), Lent(len)]) => {
            u64::from(lent::backref_add_inline_keyed_block(*item_type as u8, body, *tree, *count as u32, out, len))
        }
        ("backref_add_inline_keyed_data", [Number(item_type), Bytes(body), Number(tree), Number(objectid), Number(offset), Number(count), Out(out), Lent(len)]) => {
            u64::from(lent::backref_add_inline_keyed_data(*item_type as u8, body, *tree, *objectid, *offset, *count as u32, out, len))
        }
        ("backref_drop_inline_data_ref", [Number(item_type), Bytes(body), Number(tree), Number(objectid), Number(offset), Out(out), Lent(len)]) => {
            u64::from(lent::backref_drop_inline_data_ref(*item_type as u8, body, *tree, *objectid, *offset, out, len))
        }
        ("backref_drop_keyed_data_ref", [Bytes(item), Number(tree), Number(objectid), Number(offset), Out(out), Lent(len)]) => {
            u64::from(lent::backref_drop_keyed_data_ref(item, *tree, *objectid, *offset, out, len))
        }
        ("backref_lower_total", [Number(item_type), Bytes(body), Out(out), Lent(len)]) => {
            u64::from(lent::backref_lower_total(*item_type as u8, body, out, len))
        }
        ("backref_reduce_total", [Number(item_type), Bytes(body), Number(total_count), Out(out), Lent(len)]) => {
            u64::from(lent::backref_reduce_total(*item_type as u8, body, *total_count, out, len))
        }
        ("backref_raise_total", [Number(item_type), Bytes(body), Number(total_count), Out(out), Lent(len)]) => {
            u64::from(lent::backref_raise_total(*item_type as u8, body, *total_count, out, len))
        }
        ("backref_holds_inline_data_ref", [Number(item_type), Bytes(body), Number(tree), Number(objectid), Number(offset), Lent(holds)]) => {
            u64::from(lent::backref_holds_inline_data_ref(*item_type as u8, body, *tree, *objectid, *offset, holds))
        }
        ("backref_add_inline_data_ref", [Number(item_type), Bytes(body), Number(tree), Number(objectid), Number(offset), Out(out), Lent(len)]) => {
            u64::from(lent::backref_add_inline_data_ref(*item_type as u8, body, *tree, *objectid, *offset, out, len))
        }
        ("backref_add_inline_tree_ref", [Number(item_type), Bytes(body), Number(tree), Out(out), Lent(len)]) => {
            u64::from(lent::backref_add_inline_tree_ref(*item_type as u8, body, *tree, out, len))
        }
        ("backref_keyed_data_ref_body", [Number(tree), Number(objectid), Number(offset), Number(count), Out(out), Lent(len)]) => {
            u64::from(lent::backref_keyed_data_ref_body(*tree, *objectid, *offset, *count as u32, out, len))
        }
        ("backref_add_inline_shared", [Number(item_type), Bytes(body), Number(kind), Number(parent), Number(count), Out(out), Lent(len)]) => {
            u64::from(lent::backref_add_inline_shared(*item_type as u8, body, *kind as u8, *parent, *count as u32, out, len))
        }
        ("backref_drop_inline_tree_ref", [Number(item_type), Bytes(body), Number(tree), Out(out), Lent(len)]) => {
            u64::from(lent::backref_drop_inline_tree_ref(*item_type as u8, body, *tree, out, len))
        }
        ("backref_with_flags", [Bytes(body), Number(set), Out(out), Lent(len)]) => {
            u64::from(lent::backref_with_flags(body, *set, out, len))
        }
        ("transaction_held_only_by", [Bytes(body), Number(root), Number(ino), Words(offsets), Lent(holds)]) => {
            u64::from(lent::transaction_held_only_by(body, *root, *ino, offsets, holds))
        }
        ("transaction_keyed_data_ref_names", [Bytes(item), Number(tree), Number(objectid), Number(offset), Lent(names)]) => {
            u64::from(lent::transaction_keyed_data_ref_names(item, *tree, *objectid, *offset, names))
        }
        ("transaction_shared_add_item", [Number(kind), Number(count), Out(out), Lent(len)]) => {
            u64::from(lent::transaction_shared_add_item(*kind as u8, *count as u32, out, len))
        }
        ("transaction_shared_add_key", [Number(bytenr), Number(kind), Number(parent), Lent(objectid), Lent(key_kind), Lent(offset)]) => {
            u64::from(lent::transaction_shared_add_key(*bytenr, *kind as u8, *parent, objectid, key_kind, offset))
        }
        ("transaction_shared_add_inline_size", [Number(kind), Lent(size)]) => {
            u64::from(lent::transaction_shared_add_inline_size(*kind as u8, size))
        }
        ("transaction_max_inline_extent_item", [Number(nodesize), Lent(limit)]) => {
            u64::from(lent::transaction_max_inline_extent_item(*nodesize as u32, limit))
        }
        ("transaction_record_of", [Bytes(sheet), Number(bytenr), Lent(number)]) => {
            u64::from(lent::transaction_record_of(sheet, *bytenr, number))
        }
        ("transaction_apply_keyed_add_block", [Number(nodesize), Bytes(sheet), Number(bytenr), Number(tree), Number(count), Number(as_item), Out(out), Lent(len)]) => {
            u64::from(lent::transaction_apply_keyed_add_block(*nodesize as u32, sheet, *bytenr, *tree, *count as u32, *as_item != 0, out, len))
        }
        ("transaction_apply_keyed_add_data", [Number(nodesize), Bytes(sheet), Number(bytenr), Number(tree), Number(objectid), Number(offset), Number(count), Number(as_item), Out(out), Lent(len)]) => {
            u64::from(lent::transaction_apply_keyed_add_data(*nodesize as u32, sheet, *bytenr, *tree, *objectid, *offset, *count as u32, *as_item != 0, out, len))
        }
        ("transaction_apply_shared_add", [Number(nodesize), Bytes(sheet), Number(bytenr), Number(kind), Number(parent), Number(count), Number(as_item), Out(out), Lent(len)]) => {
            u64::from(lent::transaction_apply_shared_add(*nodesize as u32, sheet, *bytenr, *kind as u8, *parent, *count as u32, *as_item != 0, out, len))
        }
        ("transaction_apply_shared_drop", [Bytes(sheet), Number(bytenr), Number(kind), Number(parent), Number(count), Number(as_item), Out(out), Lent(len)]) => {
            u64::from(lent::transaction_apply_shared_drop(sheet, *bytenr, *kind as u8, *parent, *count as u32, *as_item != 0, out, len))
        }
        ("transaction_drop_kept_tree_ref", [Bytes(sheet), Number(bytenr), Number(level), Number(tree), Number(own), Out(out), Lent(len)]) => {
            u64::from(lent::transaction_drop_kept_tree_ref(sheet, *bytenr, *level as u8, *tree, *own != 0, out, len))
        }
        ("leaf_edit_insert", [Number(nodesize), Bytes(sheet), Number(objectid), Number(kind), Number(offset), Bytes(data), Out(out), Lent(len)]) => {
            u64::from(lent::leaf_edit_insert(*nodesize as u32, sheet, *objectid, *kind as u8, *offset, data, out, len))
        }
        ("leaf_edit_insert_unbounded", [Bytes(sheet), Number(objectid), Number(kind), Number(offset), Bytes(data), Out(out), Lent(len)]) => {
            u64::from(lent::leaf_edit_insert_unbounded(sheet, *objectid, *kind as u8, *offset, data, out, len))
        }
        ("leaf_edit_delete", [Bytes(sheet), Number(objectid), Number(kind), Number(offset), Out(out), Lent(len)]) => {
            u64::from(lent::leaf_edit_delete(sheet, *objectid, *kind as u8, *offset, out, len))
        }
        ("leaf_edit_fit", [Number(nodesize), Bytes(sheet), Lent(fits)]) => {
            u64::from(lent::leaf_edit_fit(*nodesize as u32, sheet, fits))
        }
        ("leaf_edit_fits", [Number(nodesize), Bytes(sheet), Bytes(data), Lent(fits)]) => {
            u64::from(lent::leaf_edit_fits(*nodesize as u32, sheet, data, fits))
        }
        ("leaf_edit_split", [Bytes(sheet), Cuts(cuts), Lent(count)]) => {
            u64::from(lent::leaf_edit_split(sheet, cuts, count))
        }
        ("leaf_edit_split_to_fit", [Number(nodesize), Bytes(sheet), Cuts(cuts), Lent(count)]) => {
            u64::from(lent::leaf_edit_split_to_fit(*nodesize as u32, sheet, cuts, count))
        }
        ("leaf_edit_item", [Bytes(sheet), Number(number), Lent(start), Lent(len)]) => {
            u64::from(lent::leaf_edit_item(sheet, *number, start, len))
        }
        ("leaf_image_read", [Number(nodesize), Bytes(image), Out(out), Lent(len)]) => {
            u64::from(lent::leaf_image_read(*nodesize as u32, image, out, len))
        }
        ("leaf_image_write", [Number(nodesize), Bytes(header), Bytes(sheet), Out(out), Lent(len)]) => {
            u64::from(lent::leaf_image_write(*nodesize as u32, header, sheet, out, len))
        }
        ("ledger_post", [Number(nodesize), Bytes(sheet), Number(change), Number(extent), Number(a), Number(b), Number(c), Number(amount), Out(out), Lent(len)]) => {
            u64::from(lent::ledger_post(*nodesize as u32, sheet, *change as u8, *extent, *a, *b, *c, *amount as u32, out, len))
        }
        _ => return None,
    })
}
