//! Histories: lists of changes posted to a balanced sheet, held to a plain tally.
use crate::archive::{by_each, Caller};
use crate::generate::{lent, name_of, part, posting};
use crate::random::Random;
use crate::sheets;
use crate::spent::Spent;
use model::ledger::{balanced, count, Name};
use model::sheet::{bytes, read, Item};
use std::collections::{BTreeMap, BTreeSet};
use std::time::Duration;

/// Of each change, how often it was accepted and refused.
type Answers = [[usize; 2]; 6];

/// Opening, given and taken of each name.
type Rows = BTreeMap<(u64, Name), (i128, i128, i128)>;

/// What answers a posting.
pub type Poster<'a> = Caller<'a>;

/// So many lists whatever the time.
const LEAST: usize = 200;

pub fn histories(time: Duration) -> Vec<String> {
    by_each("ledger_post", "histories", |what, post| run(what, post, time / 2))
}

/// One line that begins with `ok` or `FAIL`: each of the six changes was accepted and refused.
fn run(what: &str, post: Poster, time: Duration) -> String {
    let begun = Spent::begin();
    let mut r = Random::new(13);
    let mut lists = 0;
    let mut answers = Answers::default();
    while lists < LEAST || (begun.elapsed() < time && lists < 20_000) {
        if let Err(text) = history(&mut r, post, &mut answers) {
            return format!("FAIL histories {what}: {text}");
        }
        lists += 1;
    }
    for (change, [accepted, refused]) in (1..).zip(answers) {
        if accepted == 0 || refused == 0 {
            return format!(
                "FAIL histories {what}: change {change} was accepted {accepted} times and refused {refused}"
            );
        }
    }
    let [accepted, refused] = [0, 1].map(|n| answers.iter().map(|a| a[n]).sum::<usize>());
    format!("ok   histories {what}: {lists} lists, {accepted} accepted changes, {refused} refused")
}

/// The numbers of a posting to these items: which change, the extent, the name's fields, the amount.
fn drawn(r: &mut Random, items: &[Item]) -> [u64; 6] {
    let change = 1 + r.below(6) as u64;
    let extent = sheets::extent(r);
    let kind = r.pick(&[182, 184]);
    let (a, b, c) = match change {
        3 | 6 => (kind, r.below(4) as u64, 0),
        _ => (r.below(4) as u64, r.below(2) as u64, r.below(2) as u64),
    };
    let amount = match change {
        3 if kind == 182 => 1,
        6 => part(r, items, extent, &name_of(change, a, b, c)),
        _ => u64::from(r.count()),
    };
    [change, extent, a, b, c, amount]
}

/// Forty postings, each to the list that the last accepted one made.
fn history(r: &mut Random, post: Poster, answers: &mut Answers) -> Result<(), String> {
    let mut sheet = bytes(&sheets::balanced(r));
    let opening = read(&sheet).map_err(|_| "a list that does not read")?;
    let mut items = opening.clone();
    let mut rows = Rows::new();
    let mut named = BTreeSet::new();
    for _ in 0..40 {
        let numbers = drawn(r, &items);
        let [change, extent, a, b, c, amount] = numbers;
        let args = lent(&posting(16_384, &sheet, numbers), sheet.len() + 64);
        let said = post(&args).ok_or("no answer")?;
        let name = (extent, name_of(change, a, b, c));
        let row = rows
            .entry(name)
            .or_insert_with_key(|(extent, name)| (count(&opening, *extent, name) as i128, 0, 0));
        answers[change as usize - 1][usize::from(said.code != 0)] += 1;
        if said.code != 0 {
            continue;
        }
        named.insert(extent);
        match change {
            1 => row.1 += 1,
            2 | 3 => row.1 += i128::from(amount),
            4 | 5 => row.2 += 1,
            _ => row.2 += i128::from(amount),
        }
        sheet = crate::verdict::written("ledger_post", &said).bytes;
        items =
            read(&sheet).map_err(|_| format!("change {change} gave a sheet that does not read"))?;
        left(&opening, &items, &named, &rows).map_err(|text| format!("change {change} {text}"))?;
    }
    Ok(())
}

/// What accepted changes leave: a balanced list, each name at opening plus given minus taken, and
/// the old items of every extent that none of them named.
fn left(
    opening: &[Item],
    items: &[Item],
    named: &BTreeSet<u64>,
    rows: &Rows,
) -> Result<(), String> {
    if !balanced(items) {
        return Err("gave a sheet that is not balanced".into());
    }
    let other = |i: &&Item| !named.contains(&i.key.0);
    if !opening.iter().filter(other).eq(items.iter().filter(other)) {
        return Err("moved an item of an extent that it did not name".into());
    }
    for ((extent, name), (opening, given, taken)) in rows {
        let stands = count(items, *extent, name) as i128;
        if stands + taken != opening + given {
            return Err(format!("left {name:?} of {extent} at {stands}: opening {opening}, given {given}, taken {taken}"));
        }
    }
    Ok(())
}

#[cfg(test)]
mod tests {
    use super::*;
    use model::calls::{outcome, Arg, Outcome};

    fn line(post: Poster) -> String {
        run("test", post, Duration::ZERO)
    }

    /// The model's answer to a posting, changed where it is accepted.
    fn changed(args: &[Arg], change: impl Fn(&mut Outcome)) -> Option<Outcome> {
        let mut said = outcome("ledger_post", args);
        if said.code == 0 {
            change(&mut said);
        }
        Some(said)
    }

    #[test]
    fn histories_that_show_nothing_fail() {
        assert!(line(&|args| changed(args, |_| {})).starts_with("ok"));
        assert!(line(&|_| None).starts_with("FAIL"));
        // A ledger that refuses each posting.
        assert!(line(&|args| changed(args, |said| said.code = 5)).starts_with("FAIL"));
        // One that refuses each drop of a shared reference.
        let no_drop = |args: &[Arg]| {
            changed(args, |said| said.code = if args[2] == Arg::Number(6) { 5 } else { 0 })
        };
        assert!(line(&no_drop).starts_with("FAIL"));
        // One that drops all of a shared reference, whatever the amount.
        assert!(line(&crate::parts::wrong::drops_all).starts_with("FAIL"));
        // One that hands the list back.
        let back = |args: &[Arg]| {
            let mut after = args.to_vec();
            let Arg::Bytes(sheet) = &args[1] else { return None };
            if let Arg::Out(out) = &mut after[8] {
                out[..sheet.len()].copy_from_slice(sheet);
            }
            after[9] = Arg::Lent(sheet.len() as u64);
            Some(Outcome { code: 0, args: after })
        };
        assert!(line(&back).starts_with("FAIL"));
    }
}
