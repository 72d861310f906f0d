//! The original's answers, recorded: for runs where its folder is not here.
//!
//! One line per call: its name, a digest of the inputs (so that a changed generator is noticed
//! and not mistaken for a changed answer), and one word per case: `n` not asked, `r` refused,
//! `a` absent, `m` remove, `p` panicked, else eight digits of a digest of the result.
use crate::archive::{self, Archive};
use crate::generate::{ample, calls, lent, random};
use crate::random::Random;
use crate::verdict::{has_original, inside, of_original, written, Verdict, ORIGINAL_HERE};
use model::calls::{outcome, returns_value, Arg, Outcome, Written};
use std::path::PathBuf;

const SEED: u64 = 7;
const CASES: usize = 500;

/// recorded/answers.txt, or what EXTENT_REFS_RECORDED names.
pub fn path() -> PathBuf {
    let here = || PathBuf::from(env!("CARGO_MANIFEST_DIR")).join("recorded/answers.txt");
    std::env::var("EXTENT_REFS_RECORDED").map_or_else(|_| here(), PathBuf::from)
}

fn digest(start: u64, bytes: impl IntoIterator<Item = u8>) -> u64 {
    bytes.into_iter().fold(start ^ 0xcbf2_9ce4_8422_2325, |n, b| {
        (n ^ u64::from(b)).wrapping_mul(0x0000_0100_0000_01b3)
    })
}

fn of_args(start: u64, args: &[Arg]) -> u64 {
    args.iter().fold(start, |n, arg| match arg {
        Arg::Number(v) | Arg::Lent(v) => digest(n, v.to_le_bytes()),
        Arg::Bytes(b) | Arg::Out(b) => digest(n ^ b.len() as u64, b.iter().copied()),
        Arg::Words(w) => digest(n ^ w.len() as u64, w.iter().flat_map(|v| v.to_le_bytes())),
        Arg::Cuts(c) => digest(n ^ c.len() as u64, c.iter().flat_map(|v| v.to_le_bytes())),
    })
}

fn of_result(w: &Written) -> String {
    let all = w.bytes.iter().copied();
    let all = all.chain(w.cuts.iter().flat_map(|v| v.to_le_bytes()));
    let all = all.chain(w.numbers.iter().flat_map(|v| v.to_le_bytes()));
    format!("{:08x}", digest(0, all) as u32)
}

/// The word of an outcome, to hold beside a recorded one.
fn word_of(call: &str, outcome: &Outcome) -> String {
    match outcome.code {
        _ if returns_value(call) => of_result(&written(call, outcome)),
        0 => of_result(&written(call, outcome)),
        100 => "a".into(),
        101 => "m".into(),
        _ => "r".into(),
    }
}

fn cases(call: &'static str) -> (u64, Vec<Vec<Arg>>) {
    let mut r = Random::named(call, SEED);
    let mut all = 0;
    let mut list = Vec::new();
    while list.len() < CASES {
        let args = random(call, &mut r);
        all = of_args(all, &args);
        let args = lent(&args, ample(&args));
        list.push(args);
    }
    (all, list)
}

fn line(call: &'static str) -> String {
    let (all, list) = cases(call);
    let words: Vec<String> = list
        .iter()
        .map(|args| match inside(call, outcome(call, args).code) {
            false => "n".into(),
            true => match of_original(call, args) {
                Verdict::Accepted(w) => of_result(&w),
                Verdict::Absent => "a".into(),
                Verdict::Remove => "m".into(),
                Verdict::Refused => "r".into(),
                Verdict::Panicked => "p".into(),
                Verdict::NotAsked => "n".into(),
            },
        })
        .collect();
    format!("{call} {all:016x} {}", words.join(" "))
}

/// The calls that the original can answer.
fn answered() -> impl Iterator<Item = &'static str> {
    calls().filter(|call| has_original(call))
}

/// The whole list, as the original here answers.
pub fn made() -> String {
    assert!(ORIGINAL_HERE, "the original's folder is missing");
    answered().map(|call| line(call) + "\n").collect()
}

fn text() -> Result<String, String> {
    std::fs::read_to_string(path())
        .map_err(|_| "FAIL recorded: the list is missing, make it with --record".into())
}

/// Whether the list is what the original here answers; nothing where the original is not here.
pub fn current() -> Option<String> {
    if !ORIGINAL_HERE {
        return None;
    }
    Some(match text() {
        Ok(text) if made() == text => "ok   recorded: the list is current".into(),
        Ok(_) => "FAIL recorded: the list is not current, make it with --record".into(),
        Err(line) => line,
    })
}

/// Holds model and archive to the recorded list; lines that begin with `ok` or `FAIL`.
pub fn replay() -> Vec<String> {
    match text() {
        Ok(text) => answered().flat_map(|call| held(&text, call)).collect(),
        Err(line) => vec![line],
    }
}

fn held(text: &str, call: &'static str) -> Vec<String> {
    let words: Vec<&str> = text
        .lines()
        .map(|line| line.split(' ').collect::<Vec<_>>())
        .find(|words| words[0] == call)
        .unwrap_or_default();
    let (all, list) = cases(call);
    if words.len() != 2 + CASES {
        let count = words.len().saturating_sub(2);
        return vec![format!("FAIL {call} recorded: {count} answers of {CASES}")];
    }
    if words[1] != format!("{all:016x}") {
        return vec![format!("FAIL {call} recorded: the inputs are others, make it with --record")];
    }
    let archive = Archive::default();
    let mut lines = Vec::new();
    let mut held = |what: &str, answer: &dyn Fn(&[Arg]) -> Option<Outcome>| {
        let (mut same, mut results, mut different) = (0, 0, 0);
        for (args, word) in list.iter().zip(&words[2..]) {
            match (*word, answer(args)) {
                ("n", _) => {}
                ("p", Some(said)) if [11, 12].contains(&said.code) => same += 1,
                (word, Some(said)) if word_of(call, &said) == word => {
                    same += 1;
                    results += usize::from(word.len() == 8);
                }
                _ => different += 1,
            }
        }
        // Answers that are all refusals would not show what an accepted call gives.
        let mark = if different == 0 && results > 0 { "ok  " } else { "FAIL" };
        lines.push(format!(
            "{mark} {call} recorded/{what}: {same} the same, of these {results} results, {different} differ"
        ));
    };
    held("model", &|args| Some(outcome(call, args)));
    if archive::has(call) {
        held("archive", &|args| archive.run(call, args, true).ok());
    }
    lines
}

#[cfg(test)]
mod tests {
    use super::*;

    fn line(call: &'static str, change: impl Fn(&mut Vec<String>)) -> String {
        let text = text().expect("the recorded list");
        let line = text.lines().find(|l| l.split(' ').next() == Some(call)).expect("its line");
        let mut words: Vec<String> = line.split(' ').map(str::to_string).collect();
        change(&mut words);
        held(&words.join(" "), call).swap_remove(0)
    }

    #[test]
    fn a_list_that_is_cut_short_fails() {
        let call = "backref_add_inline_tree_ref";
        assert!(line(call, |_| {}).starts_with("ok"));
        for left in [0, 1, 2, 3, 2 + CASES / 2, 1 + CASES] {
            let cut = line(call, |words| words.truncate(left));
            assert!(cut.starts_with("FAIL"), "{left}: {cut}");
        }
        assert!(line(call, |words| words.push("r".into())).starts_with("FAIL"));
        assert!(held("", call)[0].starts_with("FAIL"));
    }

    #[test]
    fn answers_that_compare_nothing_fail() {
        let call = "backref_add_inline_tree_ref";
        for word in ["n", "r", "a", "00000000"] {
            let all = line(call, |words| words[2..].fill(word.into()));
            assert!(all.starts_with("FAIL"), "{word}: {all}");
        }
        assert!(line(call, |words| words[1] = "0".into()).starts_with("FAIL"));
    }
}
