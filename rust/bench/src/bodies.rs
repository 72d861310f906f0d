//! Hash, allocation bodies, and the calls on bodies.
use crate::measure::Bench;
use extent_refs::lent;
use original::backref::{self, Keyed};
use original::extent_write::{self, TreeBlockAllocation};
use original::transaction::public;
use std::hint::black_box;

/// Data references of inodes 257 on, in the order that a record has them.
fn data_body(count: u64) -> Vec<u8> {
    let first = public::data_extent_body(7, 5, 257, 0);
    (1..count).fold(first, |body, n| {
        backref::add_inline_data_ref(168, &body, 5, 257 + n, 0).expect("one more")
    })
}

/// A data reference, then shared data references of parents 4,096 on.
fn shared_body(count: u64) -> Vec<u8> {
    let first = public::data_extent_body(7, 5, 257, 0);
    (1..=count).fold(first, |body, n| {
        backref::add_inline_shared(168, &body, 184, 4096 * n, 2).expect("one more")
    })
}

/// Block references of trees 5 on.
fn block_body(count: u64) -> Vec<u8> {
    let first =
        TreeBlockAllocation { bytenr: 0, level: 0, generation: 7, owner: 5 }.body().to_vec();
    (1..count)
        .fold(first, |body, n| backref::add_inline_tree_ref(169, &body, 5 + n).expect("one more"))
}

pub fn rows(b: &mut Bench) {
    b.row(
        "extent_write_data_ref_hash",
        "",
        || extent_write::data_ref_hash(black_box(5), 257, 0),
        |_, _| lent::extent_write_data_ref_hash(black_box(5), 257, 0),
    );
    b.row(
        "extent_write_data_extent_body",
        "",
        || public::data_extent_body(black_box(7), 5, 257, 0),
        |out, len| lent::extent_write_data_extent_body(black_box(7), 5, 257, 0, out, len).into(),
    );
    b.row(
        "backref_keyed_data_ref_body",
        "",
        || backref::keyed_data_ref_body(black_box(5), 257, 0, 3),
        |out, len| lent::backref_keyed_data_ref_body(black_box(5), 257, 0, 3, out, len).into(),
    );
    let item = backref::keyed_data_ref_body(5, 257, 0, 3);
    b.row(
        "backref_drop_keyed_data_ref",
        "",
        || backref::drop_keyed_data_ref(&item, 5, 257, 0),
        |out, len| lent::backref_drop_keyed_data_ref(&item, 5, 257, 0, out, len).into(),
    );
    b.row(
        "transaction_keyed_data_ref_names",
        "",
        || public::keyed_data_ref_names(black_box(&item), 5, 257, 0),
        |_, names| {
            lent::transaction_keyed_data_ref_names(black_box(&item), 5, 257, 0, names).into()
        },
    );
    made(b);
    for count in [1, 6, 60, 250, 1_000] {
        with_references(b, count);
    }
}

/// What is made or said without a body.
fn made(b: &mut Bench) {
    let block =
        || TreeBlockAllocation { bytenr: black_box(4096), level: 1, generation: 7, owner: 5 };
    let (mut kind, mut offset) = (0, 0);
    b.row(
        "extent_write_tree_block_key",
        "",
        || block().key(),
        |_, objectid| {
            lent::extent_write_tree_block_key(black_box(4096), 1, objectid, &mut kind, &mut offset)
                .into()
        },
    );
    b.row(
        "extent_write_tree_block_body",
        "",
        || block().body(),
        |out, len| lent::extent_write_tree_block_body(black_box(7), 5, out, len).into(),
    );
    b.row(
        "transaction_shared_add_item",
        "",
        || public::shared_add_item(4096, black_box(184), 8192, 2),
        |out, len| lent::transaction_shared_add_item(black_box(184), 2, out, len).into(),
    );
    let (mut key_kind, mut parent) = (0, 0);
    b.row(
        "transaction_shared_add_key",
        "",
        || public::shared_add_item(black_box(4096), 182, 8192, 1).key,
        |_, objectid| {
            let (bytenr, kind) = (black_box(4096), 182);
            lent::transaction_shared_add_key(
                bytenr,
                kind,
                8192,
                objectid,
                &mut key_kind,
                &mut parent,
            )
            .into()
        },
    );
    b.row(
        "transaction_shared_add_inline_size",
        "",
        || public::shared_add_inline_size(black_box(184)),
        |_, size| lent::transaction_shared_add_inline_size(black_box(184), size).into(),
    );
    b.row(
        "transaction_max_inline_extent_item",
        "",
        || public::max_inline_extent_item(black_box(16_384)),
        |_, limit| lent::transaction_max_inline_extent_item(black_box(16_384), limit).into(),
    );
}

/// The last reference is the one looked for, so that every call reads the whole body.
fn with_references(b: &mut Bench, count: u64) {
    let size = &format!("{count} reference{}", if count == 1 { "" } else { "s" })[..];
    let (data, shared, block) = (data_body(count), shared_body(count), block_body(count));
    let refs = backref::inline_refs(168, &data).expect("readable");
    let last = refs.last().expect("one");
    let inode = u64::from_le_bytes(last.payload[8..16].try_into().expect("8 bytes"));
    let mut positions = vec![0; 8192];
    let (mut offset, mut start, mut length) = (0, 0, 0);
    b.row(
        "backref_inline_ref",
        size,
        || backref::inline_refs(168, &data).expect("readable").pop(),
        |_, kind| {
            lent::backref_inline_ref(
                168,
                &data,
                count - 1,
                kind,
                &mut offset,
                &mut start,
                &mut length,
            )
            .into()
        },
    );

    b.row(
        "backref_flags",
        size,
        || backref::flags(black_box(&data)),
        |_, value| lent::backref_flags(black_box(&data), value).into(),
    );
    b.row(
        "backref_inline_refs",
        size,
        || backref::inline_refs(168, &data),
        |_, count| lent::backref_inline_refs(168, &data, &mut positions, count).into(),
    );
    b.row(
        "backref_raise_total",
        size,
        || backref::raise_total(168, &data, 3),
        |out, len| lent::backref_raise_total(168, &data, 3, out, len).into(),
    );
    let high = backref::raise_total(168, &data, 3).expect("a total");
    b.row(
        "backref_lower_total",
        size,
        || backref::lower_total(168, &high),
        |out, len| lent::backref_lower_total(168, &high, out, len).into(),
    );
    b.row(
        "backref_reduce_total",
        size,
        || backref::reduce_total(168, &high, 2),
        |out, len| lent::backref_reduce_total(168, &high, 2, out, len).into(),
    );
    b.row(
        "backref_with_flags",
        size,
        || backref::with_flags(&data, 256),
        |out, len| lent::backref_with_flags(&data, 256, out, len).into(),
    );
    b.beside("memcpy", size, |out| out[..data.len()].copy_from_slice(&data));
    b.row(
        "backref_holds_inline_data_ref",
        size,
        || backref::holds_inline_data_ref(168, &data, 5, inode, 0),
        |_, holds| lent::backref_holds_inline_data_ref(168, &data, 5, inode, 0, holds).into(),
    );
    b.row(
        "backref_add_inline_data_ref",
        size,
        || backref::add_inline_data_ref(168, &data, 5, inode, 0),
        |out, len| lent::backref_add_inline_data_ref(168, &data, 5, inode, 0, out, len).into(),
    );
    let keyed = Keyed::Data { tree: 5, objectid: inode, offset: 0 };
    b.row(
        "backref_add_inline_keyed_data",
        size,
        || backref::add_inline_keyed(168, &data, keyed, 3),
        |out, len| lent::backref_add_inline_keyed_data(168, &data, 5, inode, 0, 3, out, len).into(),
    );
    let two = backref::raise_total(168, &data, 1).expect("a total");
    b.row(
        "backref_drop_inline_data_ref",
        size,
        || backref::drop_inline_data_ref(168, &two, 5, inode, 0),
        |out, len| lent::backref_drop_inline_data_ref(168, &two, 5, inode, 0, out, len).into(),
    );
    b.row(
        "backref_add_inline_shared",
        size,
        || backref::add_inline_shared(168, &shared, 184, 4096, 1),
        |out, len| lent::backref_add_inline_shared(168, &shared, 184, 4096, 1, out, len).into(),
    );
    b.row(
        "backref_take_inline_shared",
        size,
        || backref::take_inline_shared(168, &shared, 184, 4096),
        |out, len| {
            lent::backref_take_inline_shared(168, &shared, 184, 4096, out, len, &mut 0).into()
        },
    );
    b.row(
        "backref_add_inline_tree_ref",
        size,
        || backref::add_inline_tree_ref(169, &block, 3),
        |out, len| lent::backref_add_inline_tree_ref(169, &block, 3, out, len).into(),
    );
    b.row(
        "backref_add_inline_keyed_block",
        size,
        || backref::add_inline_keyed(169, &block, Keyed::Block { tree: 3 }, 1),
        |out, len| lent::backref_add_inline_keyed_block(169, &block, 3, 1, out, len).into(),
    );
    let two = backref::raise_total(169, &block, 1).expect("a total");
    b.row(
        "backref_drop_inline_tree_ref",
        size,
        || backref::drop_inline_tree_ref(169, &two, 5),
        |out, len| lent::backref_drop_inline_tree_ref(169, &two, 5, out, len).into(),
    );
}
