//! The register over bytes, and leaves read and written, beside plain Rust that uses the processor's
//! own instruction for CRC32C, which SSE4.2 has.
//!
//! The archive reads into a lent sheet and writes from a sheet; plain Rust reads into a list of items
//! that own their bytes, which it frees again, and writes from such a list, which stands ready; or,
//! without the checksum, from and into what the archive is lent. All ask the same of an image. The
//! crate does what the archive does and allocates its result; on items it makes them of the sheet, or
//! the sheet of them.
use crate::measure::{by_turns, ratios, shown, Bench, Side, PASSES};
use crate::plain::{checksum, le32, lent_read, lent_write, plain_read, plain_write};
use crate::plain::{run_by_bytes, run_by_u64, Chains, HEADER};
use differential::dump_tree::leaves;
use differential::random::Random;
use differential::spent::Spent;
use extent_refs::chunk::DiskKey;
use extent_refs::leaf_edit::OwnedItem;
use extent_refs::{leaf_image, lent, raw, sheet};
use original::btree;
use std::cell::RefCell;
use std::hint::black_box;

const UPDATE: &str = "crc32c_update";
const READ: &str = "leaf_image_read";
const WRITE: &str = "leaf_image_write";

/// A leaf in each form that a side takes or gives.
struct Leaf {
    image: Vec<u8>,
    sheet: Vec<u8>,
    items: Vec<OwnedItem>,
}

impl Leaf {
    fn of(image: Vec<u8>) -> Leaf {
        let items = plain_read(image.len(), &image, true).expect("a leaf that reads");
        Leaf { sheet: sheet::from_items(&items), items, image }
    }

    fn nodesize(&self) -> u32 {
        self.image.len() as u32
    }

    fn header(&self) -> &[u8] {
        &self.image[..HEADER]
    }
}

/// 160 items of 70 bytes in 16,384.
fn made() -> Leaf {
    let mut r = Random::named("leaf", 1);
    let item = |n: u64| OwnedItem {
        key: DiskKey { objectid: 4096 * n, key_type: 168, offset: 4096 },
        data: (0..70).map(|_| r.next() as u8).collect(),
    };
    let items: Vec<OwnedItem> = (1..=160).map(item).collect();
    Leaf::of(plain_write(16_384, &[7; HEADER], &items, true).expect("items that fit"))
}

/// The leaves that Linux wrote, by nodesize, in the order in which they stand.
fn real(nodesize: usize) -> Vec<Leaf> {
    let paths = leaves().unwrap_or_default().into_iter();
    let images = paths.filter_map(|path| std::fs::read(path).ok());
    images.filter(|image| image.len() == nodesize).map(Leaf::of).collect()
}

/// A side that is kept until its turn.
type Kept<'a> = Box<dyn FnMut(usize) -> f64 + 'a>;

/// Over all inputs, as often as it takes to come to so many rounds.
fn over<'a, T>(inputs: &'a [T], call: impl Fn(&T) -> u64 + 'a) -> Kept<'a> {
    Box::new(move |rounds| {
        let turns = rounds.div_ceil(inputs.len());
        let begun = Spent::begin();
        for _ in 0..turns {
            black_box(black_box(inputs).iter().fold(0, |all, input| all ^ call(input)));
        }
        begun.elapsed().as_nanos() as f64 / (turns * inputs.len()) as f64
    })
}

/// Rows of a table: what is measured, and a time of each side for each pass.
type Rows<const N: usize> = Vec<(String, [Vec<f64>; N])>;

/// One more pass of a row.
fn pass<const N: usize>(rows: &mut Rows<N>, what: &str, mut sides: [Option<Kept>; N]) {
    let best = by_turns(sides.each_mut().map(|side| side.as_mut().map(|side| &mut **side as Side)));
    let known = rows.iter().position(|row| row.0 == what);
    let at = known.unwrap_or(rows.len());
    if known.is_none() {
        rows.push((what.into(), std::array::from_fn(|_| Vec::new())));
    }
    for (times, best) in rows[at].1.iter_mut().zip(best) {
        times.extend(best);
    }
}

/// The times of each side, and ratios of these pairs of them.
fn print<const N: usize>(title: &str, sides: [&str; N], of: &[(usize, usize)], rows: &Rows<N>) {
    let heads = sides.map(|side| format!("{side}, ns")).join(" | ");
    let pairs: Vec<String> =
        of.iter().map(|&(a, b)| format!("{} / {}", sides[a], sides[b])).collect();
    println!("\n## {title}\n\n| what | {heads} | {} |", pairs.join(" | "));
    println!("|{}", "---|".repeat(1 + N + of.len()));
    for (what, times) in rows {
        let each = times.each_ref().map(|times| shown(times)).join(" | ");
        let pairs: Vec<String> = of.iter().map(|&(a, b)| ratios(&times[a], &times[b])).collect();
        println!("| {what} | {each} | {} |", pairs.join(" | "));
    }
}

fn there(call: &str) -> bool {
    !extent_refs::MISSING.contains(&call)
}

type Run = unsafe extern "C" fn(u32, *const u8, usize) -> u32;

/// One side of the runs, which gives what the model gives.
fn of_run<'a>(inputs: &'a [Vec<u8>], run: impl Fn(u32, &[u8]) -> u32 + 'a) -> Kept<'a> {
    for bytes in inputs {
        let right = model::hash::register(5, bytes);
        assert_eq!(run(5, bytes), right, "every side gives the register");
    }
    over(inputs, move |bytes| run(u32::MAX, bytes).into())
}

fn runs() {
    let mut r = Random::named("runs", 1);
    let mut rows = Rows::new();
    let lengths = [64, 4_064, 16_352];
    let inputs =
        lengths.map(|length| vec![(0..length).map(|_| r.next() as u8).collect::<Vec<u8>>()]);
    let chains = lengths.map(Chains::of);
    let called =
        |run: Run| move |from, bytes: &[u8]| unsafe { run(from, bytes.as_ptr(), bytes.len()) };
    for _ in 0..PASSES {
        for ((length, bytes), chains) in lengths.iter().zip(&inputs).zip(&chains) {
            let [archive, by_u64, by_bytes]: [Run; 3] =
                black_box([raw::crc32c_update, run_by_u64, run_by_bytes]);
            let sides = [
                there(UPDATE).then(|| of_run(bytes, called(archive))),
                Some(of_run(bytes, called(by_u64))),
                Some(of_run(bytes, |from, bytes| unsafe { chains.run(from, bytes) })),
                Some(of_run(bytes, called(by_bytes))),
            ];
            pass(&mut rows, &format!("`{UPDATE}`, {length} bytes"), sides);
        }
    }
    let sides = ["archive", "`_mm_crc32_u64`", "three chains of it", "plain Rust by single bytes"];
    let title = "Runs of the register beside the processor's own instruction";
    print(title, sides, &[(1, 0), (2, 0), (3, 0)], &rows);
}

/// What stands beside the archive in the tables of leaves.
const SIDES: [&str; 10] = [
    "archive",
    "its run of the register",
    "archive less that run",
    "crate, a sheet",
    "crate, items",
    "plain Rust",
    "plain Rust, no checksum",
    "plain Rust, lent, no checksum",
    "original's headers alone",
    "memcpy of the image",
];

type Lent = RefCell<(Vec<u8>, u64)>;

/// What both calls share: the run over the image, and a copy of it.
fn common<'a>(leaves: &'a [Leaf], lent_out: &'a Lent) -> [Option<Kept<'a>>; 2] {
    let run = |leaf: &Leaf| lent::crc32c_update(u32::MAX, &leaf.image[32..]).into();
    let copy = move |leaf: &Leaf| {
        lent_out.borrow_mut().0[..leaf.image.len()].copy_from_slice(&leaf.image);
        0
    };
    [there(UPDATE).then(|| over(leaves, run)), Some(over(leaves, copy))]
}

fn reading<'a>(leaves: &'a [Leaf], lent_out: &'a Lent) -> [Option<Kept<'a>>; 10] {
    let archive = move |leaf: &Leaf| -> u64 {
        let (out, len) = &mut *lent_out.borrow_mut();
        lent::leaf_image_read(leaf.nodesize(), &leaf.image, out, len).into()
    };
    let in_sheet = |leaf: &Leaf| {
        leaf_image::read_sheet(leaf.nodesize(), &leaf.image).map_or(0, |s| s[0]).into()
    };
    let items =
        |leaf: &Leaf| leaf_image::read(leaf.nodesize(), &leaf.image).map_or(0, |i| i.len() as u64);
    let plain = |checked| {
        move |leaf: &Leaf| {
            plain_read(leaf.image.len(), &leaf.image, checked).map_or(0, |i| i.len() as u64)
        }
    };
    let lent_plain = move |leaf: &Leaf| {
        let (out, _) = &mut *lent_out.borrow_mut();
        lent_read(leaf.image.len(), &leaf.image, out).map_or(0, |length| length as u64)
    };
    let original = |leaf: &Leaf| {
        let count = le32(&leaf.image[96..]) as usize;
        let read = btree::public::parse_leaf_items(&leaf.image, count, leaf.image.len());
        read.map_or(0, |items| items.len() as u64)
    };
    let [run, copy] = common(leaves, lent_out);
    let ours = |side: Kept<'a>| there(READ).then_some(side);
    [
        ours(over(leaves, archive)),
        run,
        None,
        ours(over(leaves, in_sheet)),
        ours(over(leaves, items)),
        Some(over(leaves, plain(true))),
        Some(over(leaves, plain(false))),
        Some(over(leaves, lent_plain)),
        Some(over(leaves, original)),
        copy,
    ]
}

fn writing<'a>(leaves: &'a [Leaf], lent_out: &'a Lent) -> [Option<Kept<'a>>; 10] {
    let archive = move |leaf: &Leaf| -> u64 {
        let (out, len) = &mut *lent_out.borrow_mut();
        lent::leaf_image_write(leaf.nodesize(), leaf.header(), &leaf.sheet, out, len).into()
    };
    let first = |image: Option<Vec<u8>>| image.map_or(0, |image| image[0].into());
    let of_sheet = move |leaf: &Leaf| {
        first(leaf_image::write_sheet(leaf.nodesize(), leaf.header(), &leaf.sheet).ok())
    };
    let of_items = move |leaf: &Leaf| {
        first(leaf_image::write(leaf.nodesize(), leaf.header(), &leaf.items).ok())
    };
    let plain = |checked| {
        move |leaf: &Leaf| first(plain_write(leaf.image.len(), leaf.header(), &leaf.items, checked))
    };
    let lent_plain = move |leaf: &Leaf| {
        let (out, _) = &mut *lent_out.borrow_mut();
        lent_write(leaf.image.len(), leaf.header(), &leaf.sheet, out).map_or(0, |n| n as u64)
    };
    let [run, copy] = common(leaves, lent_out);
    let ours = |side: Kept<'a>| there(WRITE).then_some(side);
    [
        ours(over(leaves, archive)),
        run,
        None,
        ours(over(leaves, of_sheet)),
        ours(over(leaves, of_items)),
        Some(over(leaves, plain(true))),
        Some(over(leaves, plain(false))),
        Some(over(leaves, lent_plain)),
        None,
        copy,
    ]
}

/// That every form of plain Rust gives the same, and the archive too.
fn same(leaf: &Leaf, out: &mut [u8]) {
    let (size, header) = (leaf.nodesize(), leaf.header());
    let image = plain_write(leaf.image.len(), header, &leaf.items, true).expect("items that fit");
    let read = lent_read(leaf.image.len(), &leaf.image, out).expect("a leaf that reads");
    assert_eq!(out[..read], leaf.sheet, "the same sheet");
    let written =
        lent_write(leaf.image.len(), header, &leaf.sheet, out).expect("a sheet that fits");
    assert_eq!(out[4..written], image[4..], "the same image");
    let mut len = 0;
    if there(READ) {
        let code = lent::leaf_image_read(size, &leaf.image, out, &mut len);
        assert_eq!((code, &out[..len as usize]), (0, &leaf.sheet[..]), "the archive's sheet");
    }
    if there(WRITE) {
        let code = lent::leaf_image_write(size, header, &leaf.sheet, out, &mut len);
        assert_eq!((code, &out[..len as usize]), (0, &image[..]), "the archive's image");
    }
}

fn of_leaves(bench: &Bench) {
    let lent_out: Lent = RefCell::new((vec![0; 65_536], 0));
    let mut groups = vec![("16,384 bytes, 160 items of 70".to_string(), vec![made()])];
    for nodesize in [4_096, 16_384] {
        let real = real(nodesize);
        if real.is_empty() {
            println!("\nno real leaf of {nodesize} bytes (EXTENT_REFS_LEAVES): left out");
            continue;
        }
        let items: usize = real.iter().map(|leaf| leaf.items.len()).sum();
        let what = format!("{} real leaves of {nodesize} bytes, {items} items, each", real.len());
        groups.push((what, real));
    }
    for leaf in groups.iter().flat_map(|(_, leaves)| leaves) {
        same(leaf, &mut lent_out.borrow_mut().0);
    }
    let mut rows = Rows::new();
    for _ in 0..PASSES {
        for (what, leaves) in &groups {
            if bench.asks(READ) {
                pass(&mut rows, &format!("`{READ}`, {what}"), reading(leaves, &lent_out));
            }
            if bench.asks(WRITE) {
                pass(&mut rows, &format!("`{WRITE}`, {what}"), writing(leaves, &lent_out));
            }
        }
    }
    for (_, times) in &mut rows {
        times[2] = times[0].iter().zip(&times[1]).map(|(all, run)| all - run).collect();
    }
    let pairs = [(5, 0), (6, 2), (7, 2), (3, 0), (4, 0), (2, 9)];
    print("Leaves as they stand on the card", SIDES, &pairs, &rows);
}

/// For `rust/profile`: plain Rust in the original's place.
pub fn rows(b: &mut Bench) {
    if !b.profiles() {
        return;
    }
    let leaf = made();
    b.row(
        READ,
        "160 items",
        || plain_read(leaf.image.len(), &leaf.image, true),
        |out, len| lent::leaf_image_read(leaf.nodesize(), &leaf.image, out, len).into(),
    );
    b.row(
        WRITE,
        "160 items",
        || plain_write(leaf.image.len(), leaf.header(), &leaf.items, true),
        |out, len| {
            lent::leaf_image_write(leaf.nodesize(), leaf.header(), &leaf.sheet, out, len).into()
        },
    );
    b.row(
        UPDATE,
        "16352 bytes",
        || checksum(&leaf.image),
        |_, _| lent::crc32c_update(u32::MAX, &leaf.image[32..]).into(),
    );
}

pub fn tables(bench: &Bench) {
    if ![UPDATE, READ, WRITE].iter().any(|call| bench.asks(call)) {
        return;
    }
    if !std::is_x86_feature_detected!("sse4.2") {
        return println!("\nRuns and leaves: left out, since this processor has no SSE4.2");
    }
    if bench.asks(UPDATE) {
        runs();
    }
    if bench.asks(READ) || bench.asks(WRITE) {
        of_leaves(bench);
    }
}
