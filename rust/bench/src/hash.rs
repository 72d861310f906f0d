//! The hash and the word step beside the processor's own instruction for CRC32C, which SSE4.2 has.
//!
//! Every side is called through a pointer that the compiler does not see through: none of them is
//! put into its caller, and each costs the same call.
use crate::measure::{by_turns, ratios, shown, Bench, Side, PASSES};
use differential::random::Random;
use differential::spent::Spent;
use extent_refs::raw;
use original::extent_write;
use std::arch::x86_64::{_mm_crc32_u32, _mm_crc32_u64};
use std::hint::black_box;

const TITLE: &str = "The hash beside the processor's own instruction";
const HASH: &str = "extent_write_data_ref_hash";
const STEP: &str = "crc32c_word_step";
const SIDES: [&str; 4] = ["original", "archive", "`_mm_crc32_u32`", "`_mm_crc32_u64`"];

/// How each call is measured: what one waits for, and how many go through side by side.
const WAYS: [&str; 2] = ["each waits for the one before", "1,000 independent ones"];

/// One call measured in one way, with a time of each side for each pass.
struct Row {
    call: &'static str,
    way: &'static str,
    times: [Vec<f64>; 4],
}

/// A side that is kept until its turn, once for each way.
type Ways<'a> = [Box<dyn FnMut(usize) -> f64 + 'a>; 2];

/// The hash by the instruction for 32 bits, a word at a time.
#[target_feature(enable = "sse4.2")]
#[inline(never)]
unsafe extern "C" fn hash_by_u32(tree: u64, objectid: u64, offset: u64) -> u64 {
    let (mut first, mut second) = (u32::MAX, u32::MAX);
    for word in [tree as u32, (tree >> 32) as u32] {
        first = _mm_crc32_u32(first, word);
    }
    for number in [objectid, offset] {
        for word in [number as u32, (number >> 32) as u32] {
            second = _mm_crc32_u32(second, word);
        }
    }
    (u64::from(first) << 31) ^ u64::from(second)
}

/// The hash by the instruction for 64 bits.
#[target_feature(enable = "sse4.2")]
#[inline(never)]
unsafe extern "C" fn hash_by_u64(tree: u64, objectid: u64, offset: u64) -> u64 {
    let ones = u64::from(u32::MAX);
    let first = _mm_crc32_u64(ones, tree);
    let second = _mm_crc32_u64(_mm_crc32_u64(ones, objectid), offset);
    (first << 31) ^ second
}

#[target_feature(enable = "sse4.2")]
#[inline(never)]
unsafe extern "C" fn step_by_u32(register: u32, word: u32) -> u32 {
    _mm_crc32_u32(register, word)
}

/// One after another: each is given what the one before it returned.
fn chained(call: impl Fn(u64) -> u64, rounds: usize) -> f64 {
    let mut link = black_box(5);
    let begun = Spent::begin();
    for _ in 0..rounds {
        link = call(link);
    }
    black_box(link);
    begun.elapsed().as_nanos() as f64 / rounds as f64
}

/// Over all inputs, as often as it takes to come to so many rounds.
fn spread<T>(inputs: &[T], call: impl Fn(&T) -> u64, rounds: usize) -> f64 {
    let turns = rounds.div_ceil(inputs.len());
    let begun = Spent::begin();
    for _ in 0..turns {
        black_box(black_box(inputs).iter().fold(0, |all, input| all ^ call(input)));
    }
    begun.elapsed().as_nanos() as f64 / (turns * inputs.len()) as f64
}

/// A hash in both ways; one after another, each one's tree is the hash before.
fn of_hash<'a>(
    triples: &'a [[u64; 3]],
    hash: impl Fn(u64, u64, u64) -> u64 + Copy + 'a,
) -> Ways<'a> {
    for &[tree, objectid, offset] in triples {
        let right = model::hash::data_ref_hash(tree, objectid, offset);
        assert_eq!(hash(tree, objectid, offset), right, "every side gives the hash");
    }
    let [_, objectid, offset] = black_box(triples[0]);
    [
        Box::new(move |rounds| chained(|tree| hash(tree, objectid, offset), rounds)),
        Box::new(move |rounds| spread(triples, |&[a, b, c]| hash(a, b, c), rounds)),
    ]
}

/// A word step in both ways; one after another, each one's register is the one before.
fn of_step<'a>(pairs: &'a [[u32; 2]], step: impl Fn(u32, u32) -> u32 + Copy + 'a) -> Ways<'a> {
    for &[register, word] in pairs {
        let right = model::hash::word_step(register, word);
        assert_eq!(step(register, word), right, "every side gives the register");
    }
    let [_, word] = black_box(pairs[0]);
    [
        Box::new(move |rounds| chained(|register| step(register as u32, word).into(), rounds)),
        Box::new(move |rounds| spread(pairs, |&[a, b]| step(a, b).into(), rounds)),
    ]
}

fn there(call: &str) -> bool {
    !extent_refs::MISSING.contains(&call)
}

fn hash_sides(triples: &[[u64; 3]]) -> [Option<Ways<'_>>; 4] {
    type Hash = unsafe extern "C" fn(u64, u64, u64) -> u64;
    let original: fn(u64, u64, u64) -> u64 = black_box(extent_write::data_ref_hash);
    let [archive, by_u32, by_u64]: [Hash; 3] =
        black_box([raw::extent_write_data_ref_hash, hash_by_u32, hash_by_u64]);
    [
        Some(of_hash(triples, original)),
        there(HASH).then(|| of_hash(triples, move |a, b, c| unsafe { archive(a, b, c) })),
        Some(of_hash(triples, move |a, b, c| unsafe { by_u32(a, b, c) })),
        Some(of_hash(triples, move |a, b, c| unsafe { by_u64(a, b, c) })),
    ]
}

fn step_sides(pairs: &[[u32; 2]]) -> [Option<Ways<'_>>; 4] {
    type Step = unsafe extern "C" fn(u32, u32) -> u32;
    let [archive, by_u32]: [Step; 2] = black_box([raw::crc32c_word_step, step_by_u32]);
    [
        None,
        there(STEP).then(|| of_step(pairs, move |a, b| unsafe { archive(a, b) })),
        Some(of_step(pairs, move |a, b| unsafe { by_u32(a, b) })),
        None,
    ]
}

/// One more pass of a call.
fn pass(rows: &mut Vec<Row>, call: &'static str, mut sides: [Option<Ways>; 4]) {
    for (at, way) in WAYS.into_iter().enumerate() {
        let turn = sides.each_mut();
        let best = by_turns(turn.map(|side| side.as_mut().map(|ways| &mut *ways[at] as Side)));
        let known = rows.iter().position(|row| (row.call, row.way) == (call, way));
        let row = known.unwrap_or(rows.len());
        if known.is_none() {
            rows.push(Row { call, way, times: Default::default() });
        }
        for (times, best) in rows[row].times.iter_mut().zip(best) {
            times.extend(best);
        }
    }
}

pub fn table(bench: &Bench) {
    if ![HASH, STEP].iter().any(|call| bench.asks(call)) {
        return;
    }
    if !std::is_x86_feature_detected!("sse4.2") {
        return println!("\n{TITLE}: left out, since this processor has no SSE4.2");
    }
    let mut r = Random::named("hashes", 1);
    let triples: Vec<[u64; 3]> = (0..1_000).map(|_| [r.next(), r.next(), r.next()]).collect();
    let pairs: Vec<[u32; 2]> = triples.iter().map(|&[a, b, _]| [a as u32, b as u32]).collect();
    let mut rows = Vec::new();
    for _ in 0..PASSES {
        if bench.asks(HASH) {
            pass(&mut rows, HASH, hash_sides(&triples));
        }
        if bench.asks(STEP) {
            pass(&mut rows, STEP, step_sides(&pairs));
        }
    }
    print(&rows);
}

fn print(rows: &[Row]) {
    let beside = [0, 2, 3];
    let heads = SIDES.map(|side| format!("{side}, ns")).join(" | ");
    let ratio = beside.map(|side| format!("{} / archive", SIDES[side])).join(" | ");
    println!("\n## {TITLE}\n\n| call | how | {heads} | {ratio} |");
    println!("|---|---|---|---|---|---|---|---|---|");
    for Row { call, way, times } in rows {
        let each = times.each_ref().map(|times| shown(times)).join(" | ");
        let ratio = beside.map(|side| ratios(&times[side], &times[1])).join(" | ");
        println!("| `{call}` | {way} | {each} | {ratio} |");
    }
}
