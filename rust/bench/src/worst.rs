//! Lists of about 262,144 bytes that cost a posting the most, beside an ordinary one. The posting is
//! refused 5, after the check of balance, which is what costs; or 1 or 2, by the list's last item.
use crate::lists::sheet;
use crate::measure::Bench;
use extent_refs::lent;
use original::chunk::DiskKey;
use original::leaf_edit::OwnedItem;

const BYTES: u64 = 262_144;
const RECORD: u64 = 65_535;
const SEED: u64 = 0x243f_6a88_85a3_08d3;

fn item(objectid: u64, key_type: u8, offset: u64, data: Vec<u8>) -> OwnedItem {
    OwnedItem { key: DiskKey { objectid, key_type, offset }, data }
}

/// A record of that total with those references.
fn record(objectid: u64, total: usize, references: &[Vec<u8>]) -> OwnedItem {
    let mut data = (total as u64).to_le_bytes().to_vec();
    data.extend(7u64.to_le_bytes());
    data.extend(1u64.to_le_bytes());
    data.extend(references.concat());
    item(objectid, 168, 4096, data)
}

fn data_ref(tree: u64, objectid: u64, offset: u64) -> Vec<u8> {
    let fields = [tree, objectid, offset].map(u64::to_le_bytes).concat();
    [&[178], &fields[..], &1u32.to_le_bytes()].concat()
}

fn hash(tree: u64, objectid: u64, offset: u64) -> u64 {
    lent::extent_write_data_ref_hash(tree, objectid, offset)
}

/// Many extents of one data reference each.
fn ordinary() -> Vec<OwnedItem> {
    let one = |n: u64| record(4096 * n, 1, &[data_ref(5, 257, 4096 * n)]);
    (1..=(BYTES - 1) / 74).map(one).collect()
}

/// One extent: the longest record of data references, and as many data items as fit.
fn one_extent() -> Vec<OwnedItem> {
    let named = |tree: u64, n: u64| {
        let names = (0..n).map(|n| (hash(tree, 257, 4096 * n), data_ref(tree, 257, 4096 * n)));
        let mut names: Vec<(u64, Vec<u8>)> = names.collect();
        names.sort();
        names
    };
    let inline = named(5, (RECORD - 24) / 29);
    let own = named(6, (BYTES - 1 - 21 - RECORD) / 49);
    let references: Vec<Vec<u8>> = inline.into_iter().rev().map(|(_, r)| r).collect();
    let mut items = vec![record(4096, references.len() + own.len(), &references)];
    items.extend(own.into_iter().map(|(at, r)| item(4096, 178, at, r[1..].to_vec())));
    items
}

/// One extent: the longest record of block references, and as many block items as may stand.
fn one_block() -> Vec<OwnedItem> {
    let (inline, own) = ((RECORD - 24) / 9, 4095);
    let block = |n: u64| [&[176], &(2 * n).to_le_bytes()[..]].concat();
    let references: Vec<Vec<u8>> = (0..inline).rev().map(block).collect();
    let mut items = vec![record(4096, (inline + own) as usize, &references)];
    items.extend((0..own).map(|n| item(4096, 176, 2 * n + 1, vec![])));
    items
}

/// The checksum's register after an inode. As an offset it makes the register after both the same
/// for each inode: data references of one hash, as many as anybody wants.
fn register(inode: u64) -> u64 {
    let step = |r: u32| if r & 1 == 1 { (r >> 1) ^ 0x82f6_3b78 } else { r >> 1 };
    let byte = |r: u32, b: u8| (0..8).fold(r ^ u32::from(b), |r, _| step(r));
    u64::from(inode.to_le_bytes().into_iter().fold(u32::MAX, byte))
}

/// Which of 4,096 chains a triple would be in by the number that the archive's seed starts from.
fn chain(triple: [u64; 3]) -> u64 {
    let (low, high) = (SEED as u32, (SEED >> 32) as u32);
    let product = |x: u64, low: u32, high: u32| {
        u64::from((x as u32).wrapping_add(low)) * u64::from(((x >> 32) as u32).wrapping_add(high))
    };
    let key = SEED
        ^ product(triple[0], low, high)
        ^ product(triple[1], high, low)
        ^ product(triple[2], low.wrapping_add(0x9e37_79b9), high.wrapping_add(0x85eb_ca6b));
    u64::from((key as u32 ^ (key >> 32) as u32).wrapping_mul(0x9e37_79b1)) >> 20
}

/// Records of data references of one hash, with these inodes.
fn one_hash(records: u64, shuffled: bool, inodes: impl Iterator<Item = u64>) -> Vec<OwnedItem> {
    let fit = (BYTES - 1) / records - 21;
    let inline = (fit.min(RECORD) - 24) / 29;
    let references = inodes.take(inline as usize).map(|n| data_ref(5, n, register(n)));
    let mut references: Vec<Vec<u8>> = references.collect();
    let of = |n: u64, references: &mut Vec<Vec<u8>>| {
        if shuffled {
            shuffle(references);
        }
        record(4096 * n, references.len(), references)
    };
    (1..=records).map(|n| of(n, &mut references)).collect()
}

/// Always the same order, and none that a processor foresees.
fn shuffle(references: &mut [Vec<u8>]) {
    let mut state = 1u64;
    for last in (1..references.len()).rev() {
        state =
            state.wrapping_mul(6_364_136_223_846_793_005).wrapping_add(1_442_695_040_888_963_407);
        references.swap(last, (state >> 33) as usize % (last + 1));
    }
}

/// The same behind a long record with types 176 and 182 by turns, so that keys fall at each second item.
fn by_turns() -> Vec<OwnedItem> {
    let mut items = one_block();
    for (n, item) in items.iter_mut().skip(1).enumerate() {
        item.key.key_type = if n % 2 == 0 { 182 } else { 176 };
    }
    items
}

/// As many items as there is room for, three times as many as a list may have.
fn too_many() -> Vec<OwnedItem> {
    (0..(BYTES - 1) / 21).map(|n| item(4096, 176, n, vec![])).collect()
}

/// Its last byte cut off.
fn cut(items: &[OwnedItem]) -> Vec<u8> {
    let mut sheet = sheet(items);
    sheet.pop();
    sheet
}

pub fn table(bench: &mut Bench) {
    let crowded = (0..).filter(|&n| chain([5, n, register(n)]) == 0);
    let lists = [
        ("3,542 extents, one data reference each", 5, sheet(&ordinary())),
        ("one extent, the longest record, as many data items as fit", 5, sheet(&one_extent())),
        ("the same with its last byte cut off", 1, cut(&one_extent())),
        ("one extent, the longest record, as many block items as fit", 5, sheet(&one_block())),
        ("the same with types 176 and 182 by turns", 2, sheet(&by_turns())),
        ("one longest record of data references of one hash", 5, sheet(&one_hash(1, false, 0..))),
        ("four such records", 5, sheet(&one_hash(4, false, 0..))),
        ("four such records, each shuffled", 5, sheet(&one_hash(4, true, 0..))),
        ("the same of references made for one chain", 5, sheet(&one_hash(4, true, crowded))),
        ("four such records, the last byte cut off", 1, cut(&one_hash(4, true, 0..))),
        ("12,483 items without data", 1, sheet(&too_many())),
    ];
    let mut usual = None;
    for (name, refusal, sheet) in lists {
        let Some(ns) = bench.alone("ledger_post", |out, len| {
            let code = lent::ledger_post(16_384, &sheet, 5, 4096, 1, 1, 1, 0, out, len);
            assert_eq!(code, refusal, "{name}");
            code.into()
        }) else {
            return;
        };
        if usual.is_none() {
            println!("\n| list | bytes | refusal | `ledger_post`, ns | times the first |");
            println!("|---|---|---|---|---|");
        }
        let first = *usual.get_or_insert(ns);
        println!("| {name} | {} | {refusal} | {ns:.0} | {:.1} |", sheet.len(), ns / first);
    }
}
