//! What the original answers, in words that the codes can be held to.
use model::calls::{returns_value, Arg, Outcome, Written};

#[derive(Debug, Clone, PartialEq, Eq)]
pub enum Verdict {
    Accepted(Written),
    Absent,
    Remove,
    Refused,
    /// It panicked: an overflow.
    Panicked,
    /// It was not asked: the case lies outside the compared domain.
    NotAsked,
}

/// Refusals that the original does not know, by document 01's list.
const OUTSIDE: [u64; 5] = [1, 2, 3, 4, 21];

/// The same of the leaf reader. The original's asks for order as it asks for packing; checksum,
/// level and the image's length it leaves to its caller.
const READ: &str = "leaf_image_read";
const OUTSIDE_READ: [u64; 3] = [3, 21, 23];

fn outside(call: &str) -> &'static [u64] {
    if call == READ {
        &OUTSIDE_READ
    } else {
        &OUTSIDE
    }
}

/// Calls whose overflow is a panic in the original and 11 or 12 here.
const OVERFLOWING: [&str; 4] = [
    "backref_add_inline_keyed_data",
    "backref_add_inline_shared",
    "transaction_apply_shared_add",
    "ledger_post",
];

/// Calls of document 02 that the original does not have, nor the parts to put them together from:
/// they are held to the model, and each to a check of its own.
const WITHOUT_ORIGINAL: [&str; 4] =
    ["crc32c_table_text", "crc32c_word_step", "crc32c_update", "leaf_image_write"];

/// Whether there is something in the original to compare a call with.
pub fn has_original(call: &str) -> bool {
    !WITHOUT_ORIGINAL.contains(&call)
}

/// How a verdict and a code stand to each other.
#[derive(Debug, Clone, Copy, PartialEq, Eq)]
pub enum Agreement {
    Same,
    /// Outside the compared domain.
    Outside,
    /// The original panics on a sum that is refused here.
    Overflow,
    Different,
}

/// What an accepted outcome wrote; a value that is returned stands for it.
pub fn written(call: &str, outcome: &Outcome) -> Written {
    if returns_value(call) {
        return Written { numbers: vec![outcome.code], ..Written::default() };
    }
    let mut w = Written::default();
    for arg in &outcome.args {
        if let Arg::Lent(number) = arg {
            w.numbers.push(*number);
        }
    }
    let length = w.numbers.first().copied().unwrap_or(0) as usize;
    for arg in &outcome.args {
        match arg {
            Arg::Out(out) => w.bytes = out.get(..length).unwrap_or(out).to_vec(),
            Arg::Cuts(out) => w.cuts = out.get(..length).unwrap_or(out).to_vec(),
            _ => {}
        }
    }
    w
}

/// Whether the original is to be asked at all, by the model's code.
pub fn inside(call: &str, code: u64) -> bool {
    has_original(call) && (returns_value(call) || !outside(call).contains(&code))
}

pub fn agreement(call: &str, verdict: &Verdict, outcome: &Outcome) -> Agreement {
    let same = match (verdict, outcome.code) {
        (Verdict::NotAsked, _) => return Agreement::Outside,
        (Verdict::Panicked, 11 | 12) if OVERFLOWING.contains(&call) => return Agreement::Overflow,
        (Verdict::Accepted(w), _) if returns_value(call) => *w == written(call, outcome),
        (Verdict::Accepted(w), 0) => *w == written(call, outcome),
        (Verdict::Absent, code) => code == 100,
        (Verdict::Remove, code) => code == 101,
        (Verdict::Refused, code) if call == READ => [2, 24].contains(&code),
        // 22 is document 02's: the original is not asked for the amounts that it refuses.
        (Verdict::Refused, code) => (5..=20).contains(&code),
        _ => false,
    };
    if same {
        Agreement::Same
    } else {
        Agreement::Different
    }
}

/// The original's verdict; only where its folder was there when this was built.
#[cfg(original_here)]
pub fn of_original(call: &str, args: &[Arg]) -> Verdict {
    let asked = std::panic::AssertUnwindSafe(|| crate::original::verdict(call, args));
    std::panic::catch_unwind(asked).unwrap_or(Verdict::Panicked)
}

#[cfg(not(original_here))]
pub fn of_original(_: &str, _: &[Arg]) -> Verdict {
    Verdict::NotAsked
}

/// Whether the original can be asked.
pub const ORIGINAL_HERE: bool = cfg!(original_here);

#[test]
fn a_call_without_an_original_is_not_asked() {
    for call in WITHOUT_ORIGINAL {
        assert!(model::table::CALLS.iter().any(|row| row.name == call), "{call}");
        assert!([0, 5, 100].iter().all(|&code| !inside(call, code)));
    }
    assert!(inside("ledger_post", 0));
}

#[test]
fn a_value_is_not_taken_for_a_code() {
    for call in ["crc32c_word_step", "crc32c_update", "extent_write_data_ref_hash"] {
        for code in [0, 5, 21, 100] {
            let said = Outcome { code, args: vec![Arg::Number(7); 3] };
            assert_eq!(written(call, &said).numbers, [code]);
        }
    }
    let hash = "extent_write_data_ref_hash";
    assert!(OUTSIDE.iter().all(|&value| inside(hash, value) && !inside("ledger_post", value)));
}

#[test]
fn the_leaf_reader_is_held_to_order_and_packing() {
    let said = |code| Outcome { code, args: vec![] };
    for code in [2, 24] {
        assert!(inside(READ, code));
        assert_eq!(agreement(READ, &Verdict::Refused, &said(code)), Agreement::Same);
    }
    for code in [0, 1, 5, 18, 23] {
        assert_eq!(agreement(READ, &Verdict::Refused, &said(code)), Agreement::Different);
    }
    assert!([3, 21, 23].iter().all(|&code| !inside(READ, code)));
    assert_eq!(agreement("ledger_post", &Verdict::Refused, &said(24)), Agreement::Different);
}
