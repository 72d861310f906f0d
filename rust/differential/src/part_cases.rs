//! The cases of document 02's ticket 1, each with its answer.
use crate::ledger_history::Poster;
use crate::parts::Books;
use model::body::{Body, Reference};
use model::sheet::{bytes, Item};

const EXTENT: u64 = 4096;
const MOST: u32 = u32::MAX;

fn shared(parent: u64, count: u32) -> Reference {
    Reference::shared(184, parent, count)
}

fn block(parent: u64) -> Reference {
    Reference::shared(182, parent, 1)
}

/// The list of one extent with these references inline and these as items, their sum as its total.
fn list(inline: &[Reference], own: &[Reference]) -> Vec<u8> {
    let total = inline.iter().chain(own).map(|r| r.weight()).sum();
    let fixed = [7u64.to_le_bytes(), 1u64.to_le_bytes()].concat();
    let body = Body { total, fixed, references: inline.to_vec() };
    let mut items = vec![Item::new(EXTENT, 168, 4096, body.bytes())];
    items.extend(own.iter().map(|r| crate::sheets::item_of(EXTENT, r)));
    bytes(&items)
}

/// One drop: of what list, of which name, how much, and the list that it gives or its refusal.
type Case = (Vec<u8>, (u8, u64), u64, Result<Vec<u8>, u64>);

fn cases() -> Vec<Case> {
    let five = list(&[shared(9, 5)], &[]);
    let item = list(&[], &[shared(9, 5)]);
    let most = list(&[shared(9, MOST)], &[]);
    let most_item = list(&[], &[shared(9, MOST)]);
    let beside = list(&[shared(9, 5), shared(8, 10)], &[]);
    let (blocked, block_item) = (list(&[block(9)], &[]), list(&[], &[block(9)]));
    let (none, nine) = (list(&[], &[]), (184, 9));
    let (whole, less): (u64, u32) = (MOST.into(), MOST - 1);
    vec![
        (five.clone(), nine, 2, Ok(list(&[shared(9, 3)], &[]))),
        (five.clone(), nine, 5, Ok(none.clone())),
        (five.clone(), nine, 6, Err(22)),
        (five.clone(), nine, whole, Err(22)),
        (five.clone(), nine, 0, Err(10)),
        (five.clone(), (184, 8), 0, Err(5)),
        (five.clone(), (182, 9), 1, Err(5)),
        (five, (183, 9), 0, Err(3)),
        (blocked.clone(), (182, 9), 1, Ok(none.clone())),
        (blocked.clone(), (182, 9), 2, Err(22)),
        (blocked, (182, 9), 0, Err(10)),
        (block_item.clone(), (182, 9), 1, Ok(none.clone())),
        (block_item.clone(), (182, 9), 2, Err(22)),
        (block_item, (182, 9), 0, Err(10)),
        (item.clone(), nine, 2, Ok(list(&[], &[shared(9, 3)]))),
        (item.clone(), nine, 5, Ok(none.clone())),
        (item.clone(), nine, 6, Err(22)),
        (item, nine, 0, Err(10)),
        (beside.clone(), nine, 6, Err(22)),
        (beside.clone(), nine, 15, Err(22)),
        (beside, nine, 5, Ok(list(&[shared(8, 10)], &[]))),
        (most.clone(), nine, whole, Ok(none.clone())),
        (most, nine, 1, Ok(list(&[shared(9, less)], &[]))),
        (most_item.clone(), nine, whole, Ok(none.clone())),
        (most_item, nine, 1, Ok(list(&[], &[shared(9, less)]))),
        (none, nine, 0, Err(5)),
    ]
}

/// Before 5, 10 and 22 come 3 for the nodesize and 4, whatever is dropped.
fn before(post: Poster) -> bool {
    let books = Books { post, nodesize: 4_096, extent: EXTENT, kind: 184, parent: 9 };
    let small = Books { nodesize: 500, ..books };
    let five = list(&[shared(9, 5)], &[]);
    let mut wrong = five.clone();
    // The low byte of the total, behind the version, the item's head and its key.
    wrong[22] += 1;
    [0, 2, 6].iter().all(|&amount| {
        small.drop(&five, amount, five.len()) == Err(3)
            && books.drop(&wrong, amount, wrong.len()) == Err(4)
    })
}

/// How many cases hold, or the first that does not. An accepted one has room to the byte, and with
/// one byte less is refused 21; a refused one is refused so without room too.
pub fn hold(post: Poster) -> Result<usize, String> {
    let cases = cases();
    for (number, (sheet, (kind, parent), amount, said)) in cases.iter().enumerate() {
        let books = Books { post, nodesize: 4_096, extent: EXTENT, kind: *kind, parent: *parent };
        let drop = |room| books.drop(sheet, *amount, room);
        let held = match said {
            Ok(after) => {
                drop(after.len()).as_ref() == Ok(after) && drop(after.len() - 1) == Err(21)
            }
            Err(code) => drop(0) == Err(*code) && drop(sheet.len()) == Err(*code),
        };
        if !held {
            return Err(format!("case {number}, a drop of {amount} of {kind} {parent}"));
        }
    }
    match before(post) {
        true => Ok(cases.len() + 6),
        false => Err("a case of questions 3 and 4".into()),
    }
}
