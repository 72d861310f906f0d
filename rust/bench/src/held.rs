//! `held_only_by` where the answer is yes: every reference and every offset is looked at.
use crate::measure::Bench;
use extent_refs::lent;
use original::transaction::public;
use std::cmp::Reverse;

/// A record's body: a data reference of tree 5 and inode 257 for each offset, with that count, in
/// the order that a record has them.
fn body(total: u64, count: u32, offsets: &[u64]) -> Vec<u8> {
    let mut offsets = offsets.to_vec();
    offsets.sort_by_key(|&at| Reverse(lent::extent_write_data_ref_hash(5, 257, at)));
    let mut body = [total, 7, 1].map(u64::to_le_bytes).concat();
    for offset in offsets {
        body.push(178);
        body.extend([5, 257, offset].map(u64::to_le_bytes).concat());
        body.extend(count.to_le_bytes());
    }
    body
}

/// The same numbers, in an order that does not depend on theirs.
fn shuffled(rising: &[u64]) -> Vec<u64> {
    let mut numbers = rising.to_vec();
    let mut random: u64 = 1;
    for last in (1..numbers.len()).rev() {
        random = random.wrapping_mul(6_364_136_223_846_793_005).wrapping_add(1);
        numbers.swap(last, (random >> 33) as usize % (last + 1));
    }
    numbers
}

fn row(b: &mut Bench, size: &str, body: &[u8], offsets: &[u64]) {
    assert!(public::held_only_by(body, 5, 257, offsets), "{size}: the answer is yes");
    b.row(
        "transaction_held_only_by",
        size,
        || public::held_only_by(body, 5, 257, offsets),
        |_, holds| lent::transaction_held_only_by(body, 5, 257, offsets, holds).into(),
    );
}

pub fn rows(b: &mut Bench) {
    for count in [1, 2, 8, 60, 500, 2_258] {
        let rising: Vec<u64> = (0..count).map(|n| 4096 * n).collect();
        let body = body(count, 1, &rising);
        row(b, &format!("{count} offsets, rising"), &body, &rising);
        row(b, &format!("{count} offsets, at random"), &body, &shuffled(&rising));
    }
    for count in [1, 2, 8, 60, 500, 4_096] {
        let offsets = vec![4096; count];
        let body = body(count as u64, count as u32, &offsets[..1]);
        row(b, &format!("{count} equal offsets"), &body, &offsets);
    }
}
