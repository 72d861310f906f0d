//! Document 02, ticket 1: shared references dropped whole and in parts. Its laws on random balanced
//! lists, and its cases (`part_cases`), by the model and by the archive.
use crate::archive::by_each;
use crate::bodies;
use crate::generate::{lent, part, posting, total};
use crate::ledger_history::Poster;
use crate::part_cases;
use crate::random::Random;
use crate::sheets;
use crate::spent::Spent;
use crate::verdict::written;
use model::body::{SHARED_BLOCK, SHARED_DATA};
use model::ledger::{count, Name};
use model::sheet::{bytes, read, Item};
use std::collections::BTreeMap;
use std::fmt;
use std::time::Duration;

/// So many lists whatever the time.
const LEAST: usize = 1_000;

/// What has to come up, so that the laws have said something: drops of each form, what they are
/// refused with, and each law.
const WAYS: [&str; 14] = [
    "part inline",
    "all inline",
    "part of an item",
    "all of an item",
    "182 inline",
    "182 as an item",
    "refused 5",
    "refused 10",
    "refused 22 within the total",
    "refused 22 above the total",
    "refused 21",
    "added and dropped again",
    "added and dropped in two parts",
    "two parts as their sum",
];

/// How often each of the ways came up.
type Ways = BTreeMap<&'static str, usize>;

pub fn parts(time: Duration) -> Vec<String> {
    by_each("ledger_post", "parts", |what, post| run(what, post, time / 2))
}

/// One line that begins with `ok` or `FAIL`.
fn run(what: &str, post: Poster, time: Duration) -> String {
    let begun = Spent::begin();
    let mut r = Random::new(19);
    let mut ways = Ways::new();
    let mut lists = 0;
    let cases = match part_cases::hold(post) {
        Ok(cases) => cases,
        Err(text) => return format!("FAIL parts {what}: {text}"),
    };
    while lists < LEAST || (begun.elapsed() < time && lists < 100_000) {
        let given = given(&mut r, post);
        if let Some((law, _)) = LAWS.iter().find(|(_, law)| !law(&given, &mut ways)) {
            return format!("FAIL parts {what}: {law}: {given}");
        }
        lists += 1;
    }
    if let Some(way) = WAYS.iter().find(|way| !ways.contains_key(**way)) {
        return format!("FAIL parts {what}: not one came up: {way}");
    }
    let ways: Vec<String> = WAYS.iter().map(|way| format!("{way}: {}", ways[way])).collect();
    format!("ok   parts {what}: {cases} cases; {lists} lists; {}", ways.join(", "))
}

/// One shared name of one extent, and what answers postings under it.
pub struct Books<'a> {
    pub post: Poster<'a>,
    pub nodesize: u64,
    pub extent: u64,
    pub kind: u8,
    pub parent: u64,
}

impl Books<'_> {
    fn posted(&self, change: u64, sheet: &[u8], amount: u64, room: usize) -> Result<Vec<u8>, u64> {
        let numbers = [change, self.extent, self.kind.into(), self.parent, 0, amount];
        let args = lent(&posting(self.nodesize, sheet, numbers), room);
        // No answer at all is a code that no law expects.
        let said = (self.post)(&args).ok_or(u64::MAX)?;
        match said.code {
            0 => Ok(written("ledger_post", &said).bytes),
            code => Err(code),
        }
    }

    fn add(&self, sheet: &[u8], amount: u64) -> Result<Vec<u8>, u64> {
        self.posted(3, sheet, amount, sheet.len() + 64)
    }

    /// The list that a drop gives, or its refusal.
    pub fn drop(&self, sheet: &[u8], amount: u64, room: usize) -> Result<Vec<u8>, u64> {
        self.posted(6, sheet, amount, room)
    }

    fn name(&self) -> Name {
        (self.kind, vec![self.parent])
    }

    /// What the name counts, the extent's total, and whether it stands as an item.
    fn standing(&self, items: &[Item]) -> (u64, u64, bool) {
        let key = (self.extent, self.kind, self.parent);
        let stands = count(items, self.extent, &self.name()) as u64;
        (stands, total(items, self.extent), items.iter().any(|i| i.key == key))
    }

    /// The bytes that go with all of the reference.
    fn freed(&self, own: bool) -> usize {
        match (self.kind, own) {
            (SHARED_BLOCK, false) => 9,
            (SHARED_BLOCK, true) => 21,
            (_, false) => 13,
            (_, true) => 25,
        }
    }
}

/// A balanced list, one shared name of it or beside it, and amounts.
struct Given<'a> {
    books: Books<'a>,
    items: Vec<Item>,
    sheet: Vec<u8>,
    /// Dropped one after the other.
    first: u64,
    second: u64,
    /// Added, and dropped again in parts of which the first is drawn by `cut`.
    added: u64,
    cut: u64,
}

impl fmt::Display for Given<'_> {
    fn fmt(&self, f: &mut fmt::Formatter<'_>) -> fmt::Result {
        let Books { nodesize, extent, kind, parent, .. } = self.books;
        let Given { first, second, added, sheet, .. } = self;
        write!(f, "nodesize {nodesize}, {kind} {parent} of {extent}, ")?;
        write!(f, "{first} and {second} dropped, {added} added: {sheet:02x?}")
    }
}

fn given<'a>(r: &mut Random, post: Poster<'a>) -> Given<'a> {
    let items = sheets::balanced(r);
    let (extent, kind, parent) = named(r, &items);
    let nodesize = r.pick(&[501, 1_500, 4_096, 65_536]);
    let books = Books { post, nodesize, extent, kind, parent };
    let mut amount = || part(r, &items, extent, &books.name());
    let (first, second) = (amount(), amount());
    let added = if kind == SHARED_BLOCK { 1 } else { r.count().into() };
    Given { books, sheet: bytes(&items), items, first, second, added, cut: r.next() }
}

/// One that stands, inline or as an item, or any.
fn named(r: &mut Random, items: &[Item]) -> (u64, u8, u64) {
    let shared = |kind: &u8| [SHARED_BLOCK, SHARED_DATA].contains(kind);
    let mut names = Vec::new();
    for item in items {
        let (extent, kind, offset) = item.key;
        if [168, 169].contains(&kind) {
            let inline = bodies::references(kind, &item.data).into_iter();
            names.extend(inline.map(|x| (extent, x.kind, x.fields[0])).filter(|n| shared(&n.1)));
        }
        if shared(&kind) {
            names.push((extent, kind, offset));
        }
    }
    if !names.is_empty() && r.chance(3, 4) {
        return r.pick(&names);
    }
    (sheets::extent(r), r.pick(&[SHARED_BLOCK, SHARED_DATA]), r.field())
}

/// Whether it holds, with the ways that it saw.
type Law = fn(&Given, &mut Ways) -> bool;

const LAWS: [(&str, Law); 3] = [
    ("a drop", dropped),
    ("two drops one after the other", two_as_one),
    ("an add, dropped again", added_and_dropped),
];

/// A drop is refused 5 where nothing stands, 10 for nothing, 22 for more than stands, and 21 where
/// its list has no room. Else what stands and the total fall by the amount, and only with all of it
/// the reference goes.
fn dropped(given: &Given, ways: &mut Ways) -> bool {
    let Given { books, sheet, first: amount, .. } = given;
    let (stands, total, own) = books.standing(&given.items);
    let (code, way) = match *amount {
        _ if stands == 0 => (5, "refused 5"),
        0 => (10, "refused 10"),
        amount if stands < amount && amount <= total => (22, "refused 22 within the total"),
        amount if stands < amount => (22, "refused 22 above the total"),
        _ if books.kind == SHARED_BLOCK && own => (0, "182 as an item"),
        _ if books.kind == SHARED_BLOCK => (0, "182 inline"),
        amount if amount < stands && own => (0, "part of an item"),
        amount if amount < stands => (0, "part inline"),
        _ if own => (0, "all of an item"),
        _ => (0, "all inline"),
    };
    *ways.entry(way).or_default() += 1;
    if code != 0 {
        return [0, sheet.len()].iter().all(|&room| books.drop(sheet, *amount, room) == Err(code));
    }
    *ways.entry("refused 21").or_default() += 1;
    let all = *amount == stands;
    let length = sheet.len() - if all { books.freed(own) } else { 0 };
    let Ok(after) = books.drop(sheet, *amount, length) else { return false };
    let Ok(left) = read(&after) else { return false };
    books.drop(sheet, *amount, length - 1) == Err(21)
        && after.len() == length
        && books.standing(&left) == (stands - amount, total - amount, own && !all)
}

/// A drop and then another, of 1 or more each, are the drop of their sum.
fn two_as_one(given: &Given, ways: &mut Ways) -> bool {
    let Given { books, sheet, first, second, .. } = given;
    if *first == 0 || *second == 0 {
        return true;
    }
    let drop = |sheet: &[u8], amount| books.drop(sheet, amount, sheet.len()).ok();
    let both = drop(sheet, *first).and_then(|between| drop(&between, *second));
    // No amount is above 32 bits, and nothing that stands is.
    let sum = Some(first + second).filter(|sum| u32::try_from(*sum).is_ok());
    if both.is_some() {
        *ways.entry("two parts as their sum").or_default() += 1;
    }
    both == sum.and_then(|sum| drop(sheet, sum))
}

/// An accepted add, dropped again: the list is the old one byte for byte. In two parts, where
/// there are two, it is so too.
fn added_and_dropped(given: &Given, ways: &mut Ways) -> bool {
    let Given { books, sheet, added: amount, cut, .. } = given;
    let Ok(added) = books.add(sheet, *amount) else { return true };
    *ways.entry("added and dropped again").or_default() += 1;
    let back = books.drop(&added, *amount, sheet.len());
    let short = books.drop(&added, *amount, sheet.len() - 1);
    let mut same = back.as_ref() == Ok(sheet) && short == Err(21);
    if *amount > 1 {
        *ways.entry("added and dropped in two parts").or_default() += 1;
        let first = 1 + cut % (amount - 1);
        let rest = books.drop(&added, first, added.len());
        let back = rest.and_then(|rest| books.drop(&rest, amount - first, sheet.len()));
        same &= back.as_ref() == Ok(sheet);
    }
    same
}

/// Posters that go wrong where a shared reference is dropped.
#[cfg(test)]
pub mod wrong {
    use super::*;
    use crate::generate::name_of;
    use model::calls::{outcome, Arg, Outcome};

    /// What the name of a drop of a shared reference counts, and its amount.
    fn asked(args: &[Arg]) -> Option<(u64, u64)> {
        let number = |at: usize| if let Arg::Number(n) = args[at] { Some(n) } else { None };
        let Arg::Bytes(sheet) = &args[1] else { return None };
        let [change, extent, a, b] = [number(2)?, number(3)?, number(4)?, number(5)?];
        let stands = count(&read(sheet).ok()?, extent, &name_of(change, a, b, 0)) as u64;
        (change == 6 && stands > 0).then_some((stands, number(7)?))
    }

    /// The model's answer to an amount that is another where something stands.
    pub fn amount(args: &[Arg], other: impl Fn(u64, u64) -> u64) -> Option<Outcome> {
        let mut args = args.to_vec();
        if let Some((stands, amount)) = asked(&args) {
            args[7] = Arg::Number(other(stands, amount));
        }
        Some(outcome("ledger_post", &args))
    }

    /// The model's answer with another code where something stands.
    pub fn code(args: &[Arg], other: impl Fn(u64, u64, u64) -> u64) -> Option<Outcome> {
        let mut said = outcome("ledger_post", args);
        if let Some((stands, amount)) = asked(args) {
            said.code = other(stands, amount, said.code);
        }
        Some(said)
    }

    /// All of it, whatever the amount: the rule of document 01.
    pub fn drops_all(args: &[Arg]) -> Option<Outcome> {
        amount(args, |stands, _| stands)
    }
}

#[cfg(test)]
mod tests {
    use super::*;
    use model::calls::{outcome, Arg};

    fn line(post: Poster) -> String {
        run("test", post, Duration::ZERO)
    }

    /// Whether a law alone fails on some list.
    fn notices(law: Law, post: Poster) -> bool {
        let mut r = Random::new(1);
        (0..LEAST).any(|_| !law(&given(&mut r, post), &mut Ways::new()))
    }

    fn change(args: &[Arg]) -> u64 {
        if let Arg::Number(change) = args[2] {
            change
        } else {
            0
        }
    }

    #[test]
    fn wrong_amounts_fail() {
        let right = line(&|args| Some(outcome("ledger_post", args)));
        assert!(right.starts_with("ok"), "{right}");
        for fails in [
            line(&|_| None),
            line(&wrong::drops_all),
            // Never more than stands.
            line(&|args| wrong::amount(args, |stands, amount| amount.min(stands))),
            // One count at a time.
            line(&|args| wrong::amount(args, |_, amount| amount.min(1))),
            // No part.
            line(&|args| {
                wrong::code(args, |stands, amount, code| if amount < stands { 22 } else { code })
            }),
        ] {
            assert!(fails.starts_with("FAIL"), "{fails}");
        }
    }

    #[test]
    fn wrong_numbers_fail() {
        for (from, to) in [(22, 14), (22, 13), (22, 10), (10, 22), (10, 5), (10, 0), (22, 5)] {
            let post =
                |args: &[Arg]| wrong::code(args, |_, _, code| if code == from { to } else { code });
            assert!(line(&post).starts_with("FAIL"), "{from} as {to}");
            assert!(notices(dropped, &post), "{from} as {to}");
        }
    }

    /// Right on the cases, whose lists are short, and in every number and length: on longer lists a
    /// drop writes another generation where it leaves some of the reference, or where it does not.
    #[test]
    fn each_law_is_held() {
        for (all, laws) in [(false, &LAWS[1..]), (true, &LAWS[2..])] {
            let post = |args: &[Arg]| {
                let mut said = outcome("ledger_post", args);
                let sheet = if let Arg::Bytes(sheet) = &args[1] { sheet.len() } else { 0 };
                let length = written("ledger_post", &said).bytes.len();
                if let (6, 0, Arg::Out(out)) = (change(args), said.code, &mut said.args[8]) {
                    out[30] ^= u8::from(sheet > 120 && (length < sheet) == all);
                }
                Some(said)
            };
            assert!(part_cases::hold(&post).is_ok());
            for (what, law) in laws {
                assert!(notices(*law, &post), "{what}");
            }
        }
    }

    #[test]
    fn laws_that_said_nothing_fail() {
        // No add is accepted, so none is dropped again.
        let no_add = |args: &[Arg]| {
            let mut said = outcome("ledger_post", args);
            if change(args) == 3 {
                said.code = 9;
            }
            Some(said)
        };
        assert!(line(&no_add).contains("not one came up: added and dropped again"));
    }
}
