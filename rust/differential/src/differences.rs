//! The table of docs/DIFFERENCES.md, row by row: what the original does on the row's input, and
//! the code here. The document is read, so that it has no row that is not executed as it says.
use crate::archive::{self, Archive};
use crate::generate::{ample, lent};
use crate::verdict::{of_original, Verdict, ORIGINAL_HERE};
use model::body::{keyed_data_ref_body, tree_block_body, Body, Reference};
use model::calls::Arg::{self, Bytes, Cuts, Lent, Number, Out, Words};
use model::calls::{outcome, Written};
use model::sheet::{bytes, Item};

const DOCUMENT: &str = include_str!("../../../docs/DIFFERENCES.md");

/// What the original does.
enum Does {
    Panics,
    Refuses,
    Gives(Written),
}

/// One row, executed.
struct Row {
    place: &'static str,
    input: &'static str,
    call: &'static str,
    args: Vec<Arg>,
    /// Bytes of output that are lent; `None`: enough.
    room: Option<usize>,
    does: Does,
    code: u64,
}

fn body(total: u64, references: &[Reference]) -> Vec<u8> {
    let fixed = [0u64.to_le_bytes(), 1u64.to_le_bytes()].concat();
    Body { total, fixed, references: references.to_vec() }.bytes()
}

fn empty(number: u64) -> Item {
    Item::new(number, 1, 0, vec![])
}

fn empties(count: u64) -> Vec<u8> {
    bytes(&(0..count).map(empty).collect::<Vec<_>>())
}

fn numbers(numbers: &[u64]) -> Does {
    Does::Gives(Written { numbers: numbers.to_vec(), ..Written::default() })
}

fn result(bytes: Vec<u8>) -> Does {
    Does::Gives(Written { numbers: vec![bytes.len() as u64], bytes, ..Written::default() })
}

/// An output and its length, behind the other arguments.
fn edit(args: impl IntoIterator<Item = Arg>) -> Vec<Arg> {
    args.into_iter().chain([Out(vec![]), Lent(0)]).collect()
}

const MOST: u32 = u32::MAX;

/// A record in a list of its own, whose body has this total and these references.
fn record(total: u64, references: &[Reference]) -> Vec<u8> {
    bytes(&[Item::new(4096, 168, 4096, body(total, references))])
}

/// Sums past the limits, on which the original panics or gives up.
fn sums() -> Vec<Row> {
    let row = |place, input, call, args, does, code| Row {
        place,
        input,
        call,
        args: edit(args),
        room: None,
        does,
        code,
    };
    let triple = |count| [Reference::data(5, 257, 0, count)];
    let shared = [Reference::shared(184, 4096, MOST)];
    let full = body(MOST.into(), &shared);
    let add_shared =
        |body: Vec<u8>| vec![Number(168), Bytes(body), Number(184), Number(4096), Number(1)];
    let apply_shared = |sheet: Vec<u8>| {
        let numbers = [4096, 184, 4096, 1, 0].map(Number);
        [vec![Number(4096), Bytes(sheet)], numbers.to_vec()].concat()
    };
    let keyed = body(MOST.into(), &triple(MOST));
    let keyed = [vec![Number(168), Bytes(keyed)], [5, 257, 0, 1].map(Number).to_vec()].concat();
    let post = [3, 4096, 184, 4096, 0, 1].map(Number);
    let post = [vec![Number(4096), Bytes(record(MOST.into(), &shared))], post.to_vec()].concat();
    let both = record(u64::MAX - 1, &triple(MOST - 2));
    let both = [vec![Number(4096), Bytes(both)], [4096, 5, 257, 0, 3, 0].map(Number).to_vec()];
    let (at_count, at_total) =
        ("a 184 that counts 2^32 - 1, count 1", "total 2^64 - 1, a new 184 with count 1");
    vec![
        row(
            "`add_inline_keyed`, data, count past 2^32 - 1",
            "a triple that counts 2^32 - 1, count 1",
            "backref_add_inline_keyed_data",
            keyed,
            Does::Panics,
            11,
        ),
        row(
            "`add_inline_shared`, count past 2^32 - 1",
            at_count,
            "backref_add_inline_shared",
            add_shared(full),
            Does::Panics,
            11,
        ),
        row(
            "`add_inline_shared`, total past 2^64 - 1",
            at_total,
            "backref_add_inline_shared",
            add_shared(body(u64::MAX, &[])),
            Does::Panics,
            12,
        ),
        row(
            "`apply_shared_add`, count past 2^32 - 1",
            at_count,
            "transaction_apply_shared_add",
            apply_shared(record(MOST.into(), &shared)),
            Does::Panics,
            11,
        ),
        row(
            "`apply_shared_add`, total past 2^64 - 1",
            at_total,
            "transaction_apply_shared_add",
            apply_shared(record(u64::MAX, &[])),
            Does::Panics,
            12,
        ),
        row(
            "a posting that adds a shared reference, count past 2^32 - 1",
            "a 184 that counts 2^32 - 1, amount 1",
            "ledger_post",
            post,
            Does::Panics,
            11,
        ),
        row(
            "`apply_keyed_add`, data, past both limits",
            "total 2^64 - 2, a triple that counts 2^32 - 3, count 3",
            "transaction_apply_keyed_add_data",
            both.concat(),
            Does::Refuses,
            11,
        ),
    ]
}

/// Parameters that question 3 refuses.
fn parameters() -> Vec<Row> {
    let row = |place, input, call, args, does| Row {
        place,
        input,
        call,
        args,
        room: None,
        does,
        code: 3,
    };
    let block = tree_block_body(7, 5);
    let without_it = Written { bytes: block[..24].to_vec(), numbers: vec![24, 1], cuts: vec![] };
    let raised = [&1u64.to_le_bytes()[..], &[0; 65_528]].concat();
    let insert = |input, nodesize| {
        let key = [Number(0), Number(1), Number(0)];
        let args = [vec![Number(nodesize), Bytes(vec![1])], key.to_vec(), vec![Bytes(vec![])]];
        let place = "nodesize outside 501 to 65,536";
        row(place, input, "leaf_edit_insert", edit(args.concat()), result(empties(1)))
    };
    let held = body(4097, &[Reference::data(5, 257, 0, 4097)]);
    vec![
        row(
            "`max_inline_extent_item`",
            "nodesize 500",
            "transaction_max_inline_extent_item",
            vec![Number(500), Lent(0)],
            Does::Panics,
        ),
        row(
            "a shared kind other than 182 and 184",
            "`take_inline_shared` with kind 176",
            "backref_take_inline_shared",
            [edit([Number(169), Bytes(block), Number(176), Number(5)]), vec![Lent(0)]].concat(),
            Does::Gives(without_it),
        ),
        row(
            "a body above 65,535 bytes",
            "`raise_total` of 65,536 bytes",
            "backref_raise_total",
            edit([Number(168), Bytes(vec![0; 65_536]), Number(1)]),
            result(raised),
        ),
        insert("`insert` with nodesize 500", 500),
        insert("`insert` with nodesize 65,537", 65_537),
        row(
            "more than 4,096 offsets for `held_only_by`",
            "4,097 offsets",
            "transaction_held_only_by",
            vec![Bytes(held), Number(5), Number(257), Words(vec![0; 4097]), Lent(0)],
            numbers(&[1]),
        ),
        row(
            "`shared_add_item`",
            "kind 176",
            "transaction_shared_add_item",
            edit([Number(176), Number(1)]),
            result(vec![]),
        ),
        row(
            "`shared_add_key`",
            "kind 176",
            "transaction_shared_add_key",
            vec![Number(4096), Number(176), Number(5), Lent(0), Lent(0), Lent(0)],
            numbers(&[4096, 176, 5]),
        ),
        row(
            "`shared_add_inline_size`",
            "kind 176",
            "transaction_shared_add_inline_size",
            vec![Number(176), Lent(0)],
            numbers(&[9]),
        ),
    ]
}

/// Lists out of order, and what is past the limits of questions 1 and 3.
fn limits() -> Vec<Row> {
    let row = |place, input, call, args, does, code| Row {
        place,
        input,
        call,
        args,
        room: None,
        does,
        code,
    };
    let key = |objectid| [Number(objectid), Number(1), Number(0)];
    let twice = [Bytes(bytes(&[empty(0), empty(0)]))].into_iter().chain(key(0));
    let insert = [Bytes(empties(4096))].into_iter().chain(key(4096)).chain([Bytes(vec![])]);
    let blocks = |count, tree| {
        let mut references = vec![Reference::block(7); count];
        references.extend((tree > 0).then(|| Reference::block(tree)));
        body(u64::from(tree > 0), &references)
    };
    let long = bytes(&[Item::new(0, 1, 0, vec![0; 65_536])]);
    let half = Written { cuts: vec![2049], numbers: vec![1], bytes: vec![] };
    vec![
        row(
            "an item list that is not sorted",
            "`delete` from two items of one key",
            "leaf_edit_delete",
            edit(twice),
            result(empties(1)),
            2,
        ),
        row(
            "an item list above 4,096 items",
            "`split` of 4,097 items",
            "leaf_edit_split",
            vec![Bytes(empties(4097)), Cuts(vec![]), Lent(0)],
            Does::Gives(half),
            1,
        ),
        row(
            "an item above 65,535 data bytes",
            "the only item, of 65,536 bytes",
            "leaf_edit_item",
            vec![Bytes(long), Number(0), Lent(0), Lent(0)],
            numbers(&[22, 65_536]),
            1,
        ),
        row(
            "a result above the limits",
            "`insert_unbounded` into 4,096 items",
            "leaf_edit_insert_unbounded",
            edit(insert),
            result(empties(4097)),
            21,
        ),
        row(
            "a result above the limits",
            "`add_inline_tree_ref` to 7,279 block references",
            "backref_add_inline_tree_ref",
            edit([Number(168), Bytes(blocks(7_279, 0)), Number(5)]),
            result(blocks(7_279, 5)),
            21,
        ),
        Row {
            place: "a lent output that is too small",
            input: "`keyed_data_ref_body` with room 0",
            call: "backref_keyed_data_ref_body",
            args: edit([1, 2, 3, 4].map(Number)),
            room: Some(0),
            does: result(keyed_data_ref_body([1, 2, 3], 4)),
            code: 21,
        },
    ]
}

/// The rows of the document's table: place, input, original, here.
fn written(document: &str) -> Vec<[&str; 4]> {
    let lines = document.lines().skip_while(|line| !line.starts_with("|---")).skip(1);
    lines
        .take_while(|line| line.starts_with("| "))
        .map(|line| {
            let mut cells = line.trim_matches(['|', ' ']).split(" | ");
            std::array::from_fn(|_| cells.next().unwrap_or(""))
        })
        .collect()
}

/// A line per row that begins with `ok` or `FAIL`.
pub fn differences() -> Vec<String> {
    held_to(DOCUMENT, &[sums(), parameters(), limits()].into_iter().flatten().collect::<Vec<_>>())
}

fn held_to(document: &str, rows: &[Row]) -> Vec<String> {
    let written = written(document);
    let mut lines: Vec<String> = rows.iter().map(|row| executed(row, &written)).collect();
    for [place, input, ..] in &written {
        if !rows.iter().any(|row| row.place == *place && row.input == *input) {
            lines.push(format!("FAIL difference {place}, {input}: a row that is not executed"));
        }
    }
    if written.is_empty() {
        lines.push("FAIL difference: the document has no row".into());
    }
    lines
}

fn executed(row: &Row, written: &[[&str; 4]]) -> String {
    let args = lent(&row.args, row.room.unwrap_or(ample(&row.args)));
    let said = outcome(row.call, &args);
    let mut faults = Vec::new();
    match written.iter().find(|[place, input, ..]| row.place == *place && row.input == *input) {
        None => faults.push("the document has no such row"),
        Some([_, _, original, here]) => {
            let (panics, refuses) =
                (original.starts_with("panics"), original.starts_with("refuses"));
            let listed = match row.does {
                Does::Panics => panics,
                Does::Refuses => refuses,
                Does::Gives(_) => !panics && !refuses,
            };
            if !listed || *here != row.code.to_string() {
                faults.push("the document says otherwise");
            }
        }
    }
    if said.code != row.code {
        faults.push("the model gives another code");
    }
    let does = if ORIGINAL_HERE { Some(of_original(row.call, &args)) } else { None };
    match (&does, &row.does) {
        (None, _)
        | (Some(Verdict::Panicked), Does::Panics)
        | (Some(Verdict::Refused), Does::Refuses) => {}
        (Some(Verdict::Accepted(given)), Does::Gives(listed)) if given == listed => {}
        _ => faults.push("the original does otherwise"),
    }
    if archive::has(row.call) && Archive::default().run(row.call, &args, true) != Ok(said) {
        faults.push("the archive gives something else");
    }
    let mark = if faults.is_empty() { "ok  " } else { "FAIL" };
    let original = if does.is_some() { ", the original as listed" } else { "" };
    let text = format!("{mark} difference {}, {}: {}{original}", row.place, row.input, row.code);
    [vec![text.as_str()], faults].concat().join("; ")
}

#[cfg(test)]
mod tests {
    use super::*;

    fn failing(document: &str) -> usize {
        let rows: Vec<Row> = [sums(), parameters(), limits()].into_iter().flatten().collect();
        held_to(document, &rows).iter().filter(|line| line.starts_with("FAIL")).count()
    }

    #[test]
    fn the_document_is_held_to() {
        let missing = differences().iter().filter(|l| l.starts_with("FAIL")).count();
        assert_eq!(missing, 0, "{:?}", differences());
        for (from, to) in [
            (
                "| `max_inline_extent_item` | nodesize 500 |",
                "| `max_inline_extent_item` | nodesize 499 |",
            ),
            ("gives 9 | 3 |", "gives 9 | 5 |"),
            ("gives 9 |", "panics |"),
            ("refuses at the total", "gives up at the total"),
        ] {
            assert!(DOCUMENT.contains(from), "{from}");
            assert!(failing(&DOCUMENT.replacen(from, to, 1)) > 0, "{from}");
        }
        let more =
            DOCUMENT.replacen("|---|---|---|---|\n", "|---|---|---|---|\n| a | b | c | 3 |\n", 1);
        assert_eq!(failing(&more), 1);
        assert!(failing("") > 0);
    }
}
