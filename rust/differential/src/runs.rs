//! Document 02, ticket 4: the register of CRC32C over bytes, by the model, by the archive and by the
//! crate, beside a table that a division of polynomials gives, and RFC 3720's vectors. The original
//! has no such call.
use crate::archive::{by_each, has, Caller};
use crate::leaf_draw::register;
use crate::random::Random;
use crate::words::{of_rfc, SPECIAL};
use model::calls::Arg;
use model::hash;

const CALL: &str = "crc32c_update";

/// What a leaf's checksum goes over, at nodesizes 4,096 and 16,384.
const OF_LEAVES: [usize; 2] = [4_064, 16_352];

/// How far about these lengths the runs go: past one block of sixteen bytes on either side.
const ABOUT: usize = 18;

/// Places in memory of a run that is not put against a guard page.
const PLACES: usize = 64;

/// How many runs are cut in two places.
const CUT: usize = 3_000;

/// Lines that begin with `ok` or `FAIL`.
pub fn runs() -> Vec<String> {
    let by_name = |what: &str, call: Caller| {
        run(what, 1, |from, bytes| {
            let said = call(&[Arg::Number(from.into()), Arg::Bytes(bytes.to_vec())])?;
            u32::try_from(said.code).ok()
        })
    };
    let mut lines = by_each(CALL, "runs", by_name);
    if has(CALL) {
        let lent = |from, bytes: &[u8]| Some(extent_refs::lent::crc32c_update(from, bytes));
        let of_crate = |from, bytes: &[u8]| Some(extent_refs::crc32c::update(from, bytes));
        lines.push(run("lent", PLACES, lent));
        lines.push(run("crate", 1, of_crate));
    }
    lines
}

/// A run of that length.
fn drawn(r: &mut Random, length: usize) -> (u32, Vec<u8>) {
    let from = if r.chance(1, 4) { r.pick(&SPECIAL) } else { r.next() as u32 };
    (from, (0..length).map(|_| r.next() as u8).collect())
}

/// Bytes of a length that matters: short, about those of a leaf, and any.
pub fn bytes(r: &mut Random) -> Vec<u8> {
    let about = r.pick(&OF_LEAVES) - ABOUT + r.below(2 * ABOUT + 1);
    let length = match r.below(200) {
        0 => about,
        1..=9 => r.below(5_000),
        10..=59 => 16 * r.below(8) + r.pick(&[0, 0, 1, 15]),
        _ => r.below(300),
    };
    drawn(r, length).1
}

/// Every length to 300 and those about a leaf's; and each byte at each place of four blocks of
/// sixteen, alone: so each entry of each row comes up by itself.
pub fn special() -> Vec<(u32, Vec<u8>)> {
    let mut r = Random::named("runs", 1);
    let about = OF_LEAVES.into_iter().flat_map(|length| length - ABOUT..=length + ABOUT);
    let mut list: Vec<_> = (0..=300).chain(about).map(|length| drawn(&mut r, length)).collect();
    for (place, byte) in (0..64).flat_map(|place| (1..=255).map(move |byte| (place, byte))) {
        let mut bytes = vec![0; 64];
        bytes[place] = byte;
        list.push((0, bytes));
    }
    list
}

/// One line that begins with `ok` or `FAIL`.
fn run(what: &str, places: usize, update: impl Fn(u32, &[u8]) -> Option<u32>) -> String {
    match held(places, update) {
        Ok(text) => format!("ok   runs {what}: {text}"),
        Err(fault) => format!("FAIL runs {what}: {fault}"),
    }
}

/// What was compared, or the first fault.
fn held(places: usize, update: impl Fn(u32, &[u8]) -> Option<u32>) -> Result<String, String> {
    for (bytes, finished) in of_rfc() {
        compared(&update, u32::MAX, &bytes, !finished)?;
    }
    let special = special();
    for (from, bytes) in &special {
        right(&update, *from, bytes)?;
    }
    let placed = placed(places, &update)?;
    let mut r = Random::named("runs", 3);
    for _ in 0..CUT {
        let length = r.below(700);
        let (from, bytes) = drawn(&mut r, length);
        let (first, rest) = bytes.split_at(r.below(length + 1));
        let (second, third) = rest.split_at(r.below(rest.len() + 1));
        let parts = [first, second, third];
        let joined = parts.iter().try_fold(from, |from, part| update(from, part));
        let joined = joined.ok_or("there is no answer to a part")?;
        compared(&update, from, &bytes, joined)?;
    }
    Ok(format!(
        "{} vectors of RFC 3720; as the model and a division have them {} runs, every length to \
         300 and each entry of the rows among them, and {placed} at {places} places in memory; \
         {CUT} in three parts",
        of_rfc().len(),
        special.len()
    ))
}

/// How many runs are right at each place from an aligned one on.
fn placed(places: usize, update: &impl Fn(u32, &[u8]) -> Option<u32>) -> Result<usize, String> {
    let mut r = Random::named("runs", 2);
    let about = OF_LEAVES.into_iter().flat_map(|length| [length - 1, length, length + 1]);
    let lengths: Vec<usize> = (0..=300).chain(about).collect();
    for &length in &lengths {
        let (from, bytes) = drawn(&mut r, length + places + 64);
        let aligned = bytes.as_ptr().align_offset(64);
        for place in aligned..aligned + places {
            right(update, from, &bytes[place..place + length])?;
        }
    }
    Ok(lengths.len() * places)
}

/// That a run gives what the division's table gives, and the model.
fn right(
    update: &impl Fn(u32, &[u8]) -> Option<u32>,
    from: u32,
    bytes: &[u8],
) -> Result<(), String> {
    compared(update, from, bytes, register(from, bytes))?;
    compared(update, from, bytes, hash::register(from, bytes))
}

fn compared(
    update: &impl Fn(u32, &[u8]) -> Option<u32>,
    from: u32,
    bytes: &[u8],
    expected: u32,
) -> Result<(), String> {
    let length = bytes.len();
    match update(from, bytes) {
        Some(given) if given == expected => Ok(()),
        Some(given) => {
            Err(format!("{given:08x} after {length} bytes from {from:08x}, and not {expected:08x}"))
        }
        None => Err(format!("there is no answer to {length} bytes from {from:08x}")),
    }
}

#[cfg(test)]
mod tests {
    use super::*;

    fn line(update: impl Fn(u32, &[u8]) -> u32) -> String {
        run("test", 2, |from, bytes| Some(update(from, bytes)))
    }

    #[test]
    fn wrong_runs_fail() {
        let over = hash::register;
        assert!(line(over).starts_with("ok"), "{}", line(over));
        let whole = |bytes: &[u8], block: usize| bytes.len() / block * block;
        for (what, fails) in [
            ("inverted", line(|from, bytes| !over(from, bytes))),
            ("inverted before", line(|from, bytes| over(!from, bytes))),
            ("no register", line(|_, bytes| over(0, bytes))),
            ("always all ones", line(|_, bytes| over(u32::MAX, bytes))),
            ("words alone", line(|from, bytes| over(from, &bytes[..whole(bytes, 4)]))),
            ("blocks alone", line(|from, bytes| over(from, &bytes[..whole(bytes, 16)]))),
            ("no more than a leaf", line(|from, b| over(from, &b[..b.len().min(16_352)]))),
            ("nothing", line(|from, _| from)),
        ] {
            assert!(fails.starts_with("FAIL runs test: "), "{what}: {fails}");
        }
        assert!(run("test", 1, |_, _| None).starts_with("FAIL"));
    }

    #[test]
    fn each_entry_of_the_rows_is_held_to() {
        for place in [0, 3, 4, 15, 16, 47, 63] {
            let fails = line(|from, bytes| {
                let here = bytes.len() == 64 && bytes[place] == 0xa7;
                hash::register(from, bytes) ^ u32::from(here)
            });
            assert!(fails.starts_with("FAIL"), "place {place}: {fails}");
        }
    }
}
