//! Document 02, ticket 3: word steps by the model, by the archive and by the crate, beside a division
//! of polynomials, the ticket's own answers and RFC 3720's vectors; and the hash, put together from
//! them. The original has no such call.
use crate::archive::{by_each, has, Caller};
use crate::random::Random;
use crate::tables::rest;
use extent_refs::lent;
use model::calls::Arg;
use model::hash::CRC32C;

/// The call, and the one that its steps make up.
const CALL: &str = "crc32c_word_step";
const HASH: &str = "extent_write_data_ref_hash";

/// How many random pairs are compared by the plain form, which takes two numbers and gives one, and
/// how many where each call is put together from its name and arguments, or is the crate's.
const MANY: usize = 4_000_000;
const FEW: usize = 20_000;

/// How many hashes are put together, that of the ticket's triple first.
const TRIPLES: usize = 200_000;
const OF_TICKET: [u64; 3] = [5, 257, 0];

/// Numbers that are a register or a word now and then.
pub const SPECIAL: [u32; 8] =
    [0, 1, 0x80, 0x6463_6261, 1 << 31, CRC32C, CRC32C.reverse_bits(), u32::MAX];

/// Lines that begin with `ok` or `FAIL`.
pub fn words() -> Vec<String> {
    let by_name = |what: &str, call: Caller| run(what, FEW, |from, word| said(call, from, word));
    let mut lines = by_each(CALL, "words", by_name);
    if has(CALL) {
        lines.push(run("lent", MANY, |from, word| Some(lent::crc32c_word_step(from, word))));
        lines
            .push(run("crate", FEW, |from, word| Some(extent_refs::crc32c::word_step(from, word))));
    }
    lines.push(hashes("model", model::hash::word_step, model::hash::data_ref_hash));
    lines.push(match has(CALL) && has(HASH) {
        true => hashes("archive", lent::crc32c_word_step, lent::extent_write_data_ref_hash),
        false => format!("FAIL words hash archive: {CALL} or {HASH} is not in the archive"),
    });
    lines
}

/// What a call by its arguments returns.
fn said(call: Caller, from: u32, word: u32) -> Option<u32> {
    let outcome = call(&[from, word].map(|n| Arg::Number(n.into())))?;
    u32::try_from(outcome.code).ok()
}

/// The register after a word by the theory of these checksums: register and word are added, times
/// x^32, and divided. The model goes from bit to bit and the archive through four rows, a byte
/// each; here there is no byte, no row and no order of them.
fn divided(from: u32, word: u32) -> u32 {
    rest(CRC32C, u64::from((from ^ word).reverse_bits()) << 32)
}

/// Pairs of which something may be special: of single bits, of special numbers, and of one byte.
/// Where register and word differ in one byte alone, all look-ups but one are of entry 0, which is 0:
/// so each of the 1,024 entries of the four rows comes up by itself, three times.
pub fn pairs() -> Vec<[u32; 2]> {
    let mut r = Random::named("words", 2);
    let bits: Vec<u32> = [0].into_iter().chain((0..32).map(|bit| 1 << bit)).collect();
    let all = |list: &[u32]| -> Vec<[u32; 2]> {
        list.iter().flat_map(|&from| list.iter().map(move |&word| [from, word])).collect()
    };
    let mut pairs = [all(&bits), all(&SPECIAL)].concat();
    for place in 0..4 {
        for byte in 0..256 {
            let (byte, any) = (byte << (8 * place), r.next() as u32);
            pairs.extend([[0, byte], [byte, 0], [any, any ^ byte]]);
        }
    }
    pairs
}

/// One line that begins with `ok` or `FAIL`.
fn run(what: &str, random: usize, step: impl Fn(u32, u32) -> Option<u32>) -> String {
    match held(random, step) {
        Ok(text) => format!("ok   words {what}: {text}"),
        Err(fault) => format!("FAIL words {what}: {fault}"),
    }
}

/// What was compared, or the first fault.
fn held(random: usize, step: impl Fn(u32, u32) -> Option<u32>) -> Result<String, String> {
    let answers = answers(&step)?;
    let vectors = vectors(&step)?;
    let pairs = pairs();
    for &[from, word] in &pairs {
        compared(&step, from, word, divided(from, word))?;
    }
    let mut r = Random::named("words", 1);
    for _ in 0..random {
        let both = r.next();
        let (from, word) = (both as u32, (both >> 32) as u32);
        compared(&step, from, word, divided(from, word))?;
    }
    // Whatever the register is, its own word leaves nothing.
    let equal = random / 8;
    for _ in 0..equal {
        let same = r.next() as u32;
        compared(&step, same, same, 0)?;
    }
    Ok(format!(
        "{answers} answers of the ticket, {vectors} vectors; as a division has them {} pairs, \
         each entry of the rows among them, and {random} random ones; {equal} equal ones",
        pairs.len()
    ))
}

fn compared(
    step: &impl Fn(u32, u32) -> Option<u32>,
    from: u32,
    word: u32,
    expected: u32,
) -> Result<(), String> {
    match step(from, word) {
        Some(given) if given == expected => Ok(()),
        Some(given) => {
            Err(format!("{given:08x} after ({from:08x}, {word:08x}), and not {expected:08x}"))
        }
        None => Err(format!("there is no answer to ({from:08x}, {word:08x})")),
    }
}

/// What the ticket says: a register, a word, and the register after it. With register 0 and one
/// byte, it is an entry of a row: the highest byte's is of the first, the lowest byte's of the last.
const ANSWERS: [(u32, u32, u32); 10] = [
    (u32::MAX, 0, 0xb798_b438),
    (u32::MAX, 0x6463_6261, 0x6d37_f5ce),
    (0, 0x0100_0000, 0xf26b_8303),
    (0, 0x0001_0000, 0x13a2_9877),
    (0, 0x0000_0100, 0xa541_927e),
    (0, 0x0000_0001, 0xdd45_aab8),
    (0, 0x8000_0000, 0x82f6_3b78),
    (0, 0x0080_0000, 0xfbc3_faf9),
    (0, 0x0000_8000, 0x8b27_7743),
    (0, 0x0000_0080, 0x52a0_c93f),
];

/// How many answers hold, or the first that does not.
fn answers(step: &impl Fn(u32, u32) -> Option<u32>) -> Result<usize, String> {
    let equal = SPECIAL.map(|same| (same, same, 0));
    for &(from, word, after) in ANSWERS.iter().chain(&equal) {
        compared(step, from, word, after)?;
    }
    Ok(ANSWERS.len() + equal.len())
}

/// RFC 3720, B.4: bytes and their finished checksum. The last are those of a SCSI Read (10) command.
pub fn of_rfc() -> [(Vec<u8>, u32); 5] {
    let mut command = vec![0; 48];
    let fields =
        [(0, 1), (1, 0xc0), (16, 0x14), (22, 4), (27, 0x14), (31, 0x18), (32, 0x28), (40, 2)];
    for (at, byte) in fields {
        command[at] = byte;
    }
    [
        (vec![0; 32], 0x8a91_36aa),
        (vec![255; 32], 0x62a8_ab43),
        ((0..32).collect(), 0x46dd_794e),
        ((0..32).rev().collect(), 0x113f_db5c),
        (command, 0xd996_3a56),
    ]
}

/// How many of these checksums come out by word steps, or the first that does not.
fn vectors(step: &impl Fn(u32, u32) -> Option<u32>) -> Result<usize, String> {
    let over = |from, four: &[u8]| {
        step(from, four.iter().rev().fold(0, |word, &byte| word << 8 | u32::from(byte)))
    };
    for (bytes, finished) in of_rfc() {
        let given = bytes.chunks(4).try_fold(u32::MAX, over).map(|register| !register);
        if given != Some(finished) {
            return Err(format!("RFC 3720's {finished:08x} is {given:08x?} of {bytes:02x?}"));
        }
    }
    Ok(of_rfc().len())
}

/// The hash by word steps: two over the tree, four over objectid and offset.
fn joined(step: impl Fn(u32, u32) -> u32, [tree, objectid, offset]: [u64; 3]) -> u64 {
    let over = |from, n: u64| step(step(from, n as u32), (n >> 32) as u32);
    let first = over(u32::MAX, tree);
    let second = over(over(u32::MAX, objectid), offset);
    (u64::from(first) << 31) ^ u64::from(second)
}

/// Triples with small fields and at their edges, of any numbers, and of usual ones under a tree with
/// a high half.
fn triple(r: &mut Random, turn: usize) -> [u64; 3] {
    match turn % 3 {
        0 => [r.field(), r.field(), r.field()],
        1 => [r.next(), r.next(), r.next()],
        _ => [5 | r.next() << 32, 257, 4096 * r.below(1 << 20) as u64],
    }
}

/// That the hash is what word steps make it, as a line that begins with `ok` or `FAIL`.
fn hashes(
    what: &str,
    step: impl Fn(u32, u32) -> u32,
    hash: impl Fn(u64, u64, u64) -> u64,
) -> String {
    let fault = |[tree, objectid, offset]: [u64; 3], expected: u64| {
        let given = hash(tree, objectid, offset);
        let asked = || format!("{tree} {objectid} {offset}, and not {expected:016x}");
        (given != expected).then(|| format!("FAIL words hash {what}: {given:016x} of {}", asked()))
    };
    if let Some(line) = fault(OF_TICKET, 0x0dfb_591f_a80d_95ea) {
        return line;
    }
    let mut r = Random::named("words", 3);
    let mut high = 0;
    for turn in 0..TRIPLES {
        let triple = if turn == 0 { OF_TICKET } else { triple(&mut r, turn) };
        if let Some(line) = fault(triple, joined(&step, triple)) {
            return line;
        }
        high += usize::from(triple[0] >> 32 != 0);
    }
    format!("ok   words hash {what}: {TRIPLES} by word steps, {high} of trees from 2^32 on")
}

#[cfg(test)]
mod tests {
    use super::*;
    use model::hash::{data_ref_hash, register, word_step};

    /// The line of one that gives this register.
    fn line(step: impl Fn(u32, u32) -> u32) -> String {
        run("test", 1_000, |from, word| Some(step(from, word)))
    }

    #[test]
    fn wrong_steps_fail() {
        assert!(line(word_step).starts_with("ok"), "{}", line(word_step));
        let over = |from, bytes: &[u8]| register(from, bytes);
        for (what, fails) in [
            ("highest byte first", line(|from, word| word_step(from, word.swap_bytes()))),
            (
                "rows the other way round",
                line(|from, word| word_step(0, (from ^ word).swap_bytes())),
            ),
            ("no register", line(|_, word| word_step(0, word))),
            ("no word", line(|from, _| word_step(from, 0))),
            ("word xored in afterwards", line(|from, word| word_step(from, 0) ^ word)),
            ("three bytes", line(|from, word| over(from, &word.to_le_bytes()[..3]))),
            ("five bytes", line(|from, word| over(word_step(from, word), &[0]))),
            ("inverted", line(|from, word| !word_step(from, word))),
            ("inverted before", line(|from, word| word_step(!from, word))),
            ("mirrored", line(|from, word| word_step(from, word).reverse_bits())),
        ] {
            assert!(fails.starts_with("FAIL words test: "), "{what}: {fails}");
        }
        assert!(run("test", 0, |_, _| None).starts_with("FAIL"));
        assert!(run("test", 0, |from, word| (from != word).then(|| word_step(from, word)))
            .starts_with("FAIL"));
    }

    #[test]
    fn each_entry_of_the_rows_is_held_to() {
        for (place, entry) in (0..4).flat_map(|place| (0..256).map(move |entry| (place, entry))) {
            let changed = |from: u32, word: u32| {
                let here = ((from ^ word) >> (8 * place)) & 255 == entry;
                Some(word_step(from, word) ^ u32::from(here) << (entry % 32))
            };
            let fails = run("test", 0, changed);
            assert!(fails.starts_with("FAIL"), "entry {entry} at place {place}: {fails}");
        }
    }

    #[test]
    fn random_pairs_are_held_to() {
        // One pair in 65,536, and none of the special ones.
        let changed = |from: u32, word: u32| {
            Some(word_step(from, word) ^ u32::from((from ^ word) & 0xffff == 0xbeef))
        };
        assert!(run("test", 0, changed).starts_with("ok"));
        assert!(run("test", 1 << 20, changed).starts_with("FAIL"));
        // One equal pair in 4,096.
        let equal = |from: u32, word: u32| {
            Some(word_step(from, word) ^ u32::from(from == word && from % 4_096 == 0xbee))
        };
        assert!(run("test", 0, equal).starts_with("ok"));
        assert!(run("test", 1 << 20, equal).starts_with("FAIL"));
    }

    #[test]
    fn wrong_hashes_fail() {
        let fails = |hash: fn(u64, u64, u64) -> u64| hashes("test", word_step, hash);
        assert!(fails(data_ref_hash).starts_with("ok"), "{}", fails(data_ref_hash));
        for (what, line) in [
            ("no high half", fails(|tree, a, b| data_ref_hash(tree & 0xffff_ffff, a, b))),
            ("halves change places", fails(|tree, a, b| data_ref_hash(tree.rotate_left(32), a, b))),
            ("fields change places", fails(|tree, a, b| data_ref_hash(tree, b, a))),
            ("zero", fails(|_, _, _| 0)),
        ] {
            assert!(line.starts_with("FAIL"), "{what}: {line}");
        }
        // Steps that are wrong together with the hash do not make up the ticket's own.
        let none = |_: u32, _: u32| 0;
        let of_none = hashes("test", none, |a, b, c| joined(none, [a, b, c]));
        assert!(of_none.starts_with("FAIL"), "{of_none}");
    }
}
