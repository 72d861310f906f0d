//! The cases of document 02's ticket 4, each with its answer.
use crate::images::{given, of_read, of_write, Calls, READ, WRITE};
use crate::leaf_draw::{disturbed, gap, sealed, whole};
use crate::random::Random;
use model::body::data_extent_body;
use model::calls::Arg;
use model::leaf::{HEADER, ITEM};
use model::sheet::{bytes, Item};

/// One call without its output, the room that is lent, and the bytes or the refusal.
struct Case {
    name: &'static str,
    call: &'static str,
    bare: Vec<Arg>,
    room: usize,
    answer: Result<Vec<u8>, u64>,
}

/// Room for any sheet and any image here.
const AMPLE: usize = 70_000;

const EMPTY: [u8; 1] = [1];

fn read(name: &'static str, size: u64, image: &[u8], answer: Result<&[u8], u64>) -> Case {
    let (bare, answer) = (of_read(size, image), answer.map(<[u8]>::to_vec));
    Case { name, call: READ, bare, room: AMPLE, answer }
}

fn write(
    name: &'static str,
    size: u64,
    header: &[u8],
    sheet: &[u8],
    answer: Result<&[u8], u64>,
) -> Case {
    let (bare, answer) = (of_write(size, header, sheet), answer.map(<[u8]>::to_vec));
    Case { name, call: WRITE, bare, room: AMPLE, answer }
}

fn lending(case: Case, room: usize) -> Case {
    Case { room, ..case }
}

/// The image with these bytes from `at` on, sealed.
fn with(image: &[u8], at: usize, bytes: &[u8]) -> Vec<u8> {
    sealed(unsealed(image, at, bytes))
}

fn unsealed(image: &[u8], at: usize, bytes: &[u8]) -> Vec<u8> {
    let mut image = image.to_vec();
    image[at..at + bytes.len()].copy_from_slice(bytes);
    image
}

/// Position and size in the header of item `number`.
fn placed(image: &[u8], number: usize, position: u32, size: u32) -> Vec<u8> {
    let place = [position.to_le_bytes(), size.to_le_bytes()].concat();
    with(image, HEADER + ITEM * number + 17, &place)
}

fn sized(lengths: &[usize]) -> Vec<Item> {
    let item = |(n, &length): (usize, &usize)| Item::new(n as u64, 1, 0, vec![n as u8 + 7; length]);
    lengths.iter().enumerate().map(item).collect()
}

fn leaf(size: usize, lengths: &[usize]) -> Vec<u8> {
    whole(size, &[0; HEADER], &sized(lengths))
}

/// Lengths, nodesizes, level and checksum.
fn of_whole() -> Vec<Case> {
    let empty = leaf(501, &[]);
    let two = leaf(501, &[10, 20]);
    let high = with(&two, 100, &[1]);
    let longest = leaf(65_536, &[65_410]);
    vec![
        read("an empty image", 501, &[], Err(23)),
        read("an image one byte short", 501, &empty[..500], Err(23)),
        read("an image one byte long", 501, &[&empty[..], &[0]].concat(), Err(23)),
        read("a sealed image one byte long", 501, &sealed(vec![0; 502]), Err(23)),
        read("262,144 bytes", 501, &vec![0; 262_144], Err(23)),
        read("nodesize 500", 500, &sealed(vec![0; 500]), Err(3)),
        read("nodesize 65,537", 65_537, &sealed(vec![0; 65_537]), Err(3)),
        read("nodesize 0 and no image", 0, &[], Err(3)),
        read("nodesize 2^32 - 1", u32::MAX.into(), &empty, Err(3)),
        read("all zeros", 501, &[0; 501], Err(23)),
        read("no item", 501, &empty, Ok(&EMPTY)),
        read("level 1", 501, &high, Err(23)),
        read("level 1 and bad packing", 501, &placed(&high, 0, 1, 1), Err(23)),
        read("level 255", 501, &with(&two, 100, &[255]), Err(23)),
        read("checksum and packing", 501, &unsealed(&two, HEADER + 17, &[0; 8]), Err(23)),
        read("one byte of the last", 501, &unsealed(&two, 500, &[9]), Err(23)),
        read("the longest", 65_536, &longest, Ok(&bytes(&sized(&[65_410])))),
        lending(read("falling keys of the longest", 65_536, &twice(65_536), Err(2)), 0),
    ]
}

/// Two items of one key.
fn twice(size: usize) -> Vec<u8> {
    let mut items = sized(&[3, 5]);
    items[1].key = items[0].key;
    whole(size, &[0; HEADER], &items)
}

/// Packing: counts, positions and sizes, at their limits and where sums wrap.
fn of_packing() -> Vec<Case> {
    let one = leaf(501, &[375]);
    let two = leaf(501, &[10, 20]);
    let bare = leaf(501, &[0, 0, 0]);
    let most = leaf(501, &[0; 16]);
    let count = |image: &[u8], n: u32| with(image, 96, &n.to_le_bytes());
    // Keys fall in items 0 and 1, and item 2 is badly packed.
    let mut falling = sized(&[4, 4, 4]);
    falling[1].key.0 = 0;
    falling[0].key.0 = 1;
    let falling = whole(501, &[0; HEADER], &falling);
    let later = placed(&falling, 2, 387, 4);
    vec![
        read("171,798,692 items", 501, &count(&leaf(501, &[]), 171_798_692), Err(24)),
        read("171,798,693 items", 501, &count(&two, 171_798_693), Err(24)),
        read("2^32 - 1 items", 501, &count(&two, u32::MAX), Err(24)),
        read("one item more", 501, &count(&two, 3), Err(24)),
        read("one item less", 501, &count(&two, 1), Ok(&bytes(&sized(&[10])))),
        read("no count", 501, &count(&two, 0), Ok(&EMPTY)),
        read("a sum that wraps", 501, &placed(&two, 0, u32::MAX, 401), Err(24)),
        read("a sum that wraps later", 501, &placed(&two, 1, u32::MAX, 391), Err(24)),
        read("data where headers end", 501, &one, Ok(&bytes(&sized(&[375])))),
        read("data before headers end", 501, &placed(&one, 0, 24, 376), Err(24)),
        read("data short of the end", 501, &placed(&one, 0, 25, 374), Err(24)),
        read("data past the end", 501, &placed(&one, 0, 25, 376), Err(24)),
        read("sixteen items", 501, &most, Ok(&bytes(&sized(&[0; 16])))),
        read("seventeen items", 501, &count(&most, 17), Err(24)),
        read("a hole", 501, &placed(&two, 1, 369, 20), Err(24)),
        read("an overlap", 501, &placed(&two, 1, 371, 20), Err(24)),
        read("empty data elsewhere", 501, &placed(&bare, 1, 399, 0), Err(24)),
        read("empty data past the end", 501, &placed(&bare, 0, 401, 0), Err(24)),
        read("position from byte 0", 501, &placed(&one, 0, 126, 375), Err(24)),
        read("falling keys", 501, &falling, Err(2)),
        read("falling keys and a later hole", 501, &later, Err(24)),
        read("equal keys", 501, &twice(501), Err(2)),
        read("equal keys and bad packing", 501, &placed(&twice(501), 1, 0, 0), Err(24)),
        lending(read("equal keys and room 0", 501, &twice(501), Err(2)), 0),
    ]
}

/// What plays no part, and the room.
fn of_reading() -> Vec<Case> {
    let mut r = Random::new(4);
    let items = sized(&[10, 20]);
    let (two, sheet) = (leaf(501, &[10, 20]), bytes(&items));
    let other = disturbed(&mut r, two.clone(), gap(&items, 501));
    let front = unsealed(&two, 4, &[9; 28]);
    let lent = |name, image: &[u8], room, answer| lending(read(name, 501, image, answer), room);
    vec![
        read("anything in bytes 4 to 95 and the gap", 501, &other, Ok(&sheet)),
        read("bytes 4 to 31, not sealed", 501, &front, Ok(&sheet)),
        read("byte 32, not sealed", 501, &unsealed(&two, 32, &[1]), Err(23)),
        read("byte 95, not sealed", 501, &unsealed(&two, 95, &[1]), Err(23)),
        read("the gap, not sealed", 501, &unsealed(&two, 200, &[1]), Err(23)),
        lent("room one short", &two, sheet.len() - 1, Err(21)),
        lent("room to the byte", &two, sheet.len(), Ok(&sheet[..])),
        lent("room 0", &two, 0, Err(21)),
        lent("no item and room 0", &leaf(501, &[]), 0, Err(21)),
        lent("no item and room 1", &leaf(501, &[]), 1, Ok(&EMPTY[..])),
        lent("a hole and room 0", &placed(&two, 1, 369, 20), 0, Err(24)),
    ]
}

fn of_writing() -> Vec<Case> {
    let zeros = [0; HEADER];
    let counting: Vec<u8> = (0..HEADER as u8).collect();
    let unsorted = bytes(&[sized(&[0])[0].clone(), sized(&[0])[0].clone()]);
    let sheet = |lengths: &[usize]| bytes(&sized(lengths));
    let (one, large) = (sheet(&[375]), sheet(&[376]));
    let image = leaf(501, &[375]);
    let longest = leaf(65_536, &[65_410]);
    let taken = whole(501, &[255; HEADER], &sized(&[10, 20]));
    let lent =
        |name, sheet: &[u8], room, answer| lending(write(name, 501, &zeros, sheet, answer), room);
    vec![
        write("header counting up", 501, &counting, &EMPTY, Ok(&whole(501, &counting, &[]))),
        write("one of 375", 501, &zeros, &one, Ok(&image)),
        write("one of 376", 501, &zeros, &large, Err(18)),
        write("sixteen", 501, &zeros, &sheet(&[0; 16]), Ok(&leaf(501, &[0; 16]))),
        write("seventeen", 501, &zeros, &sheet(&[0; 17]), Err(18)),
        write("the longest", 65_536, &zeros, &sheet(&[65_410]), Ok(&longest)),
        write("one more than that", 65_536, &zeros, &sheet(&[65_411]), Err(18)),
        write("a header of ones", 501, &[255; HEADER], &sheet(&[10, 20]), Ok(&taken)),
        write("nodesize 500", 500, &zeros, &EMPTY, Err(3)),
        write("nodesize 65,537", 65_537, &zeros, &EMPTY, Err(3)),
        write("a header of 100 bytes", 501, &[0; 100], &EMPTY, Err(3)),
        write("a header of 102 bytes", 501, &[0; 102], &EMPTY, Err(3)),
        write("no header", 501, &[], &EMPTY, Err(3)),
        write("unsorted, header of 100 bytes", 501, &[0; 100], &unsorted, Err(2)),
        write("bad, header of 100 bytes", 501, &[0; 100], &[], Err(1)),
        write("bad, nodesize 500", 500, &zeros, &[2], Err(1)),
        write("header of 102 bytes, too large", 501, &[0; 102], &large, Err(3)),
        lent("too large, room 0", &large, 0, Err(18)),
        lent("room one short", &one, 500, Err(21)),
        lent("room to the byte", &one, 501, Ok(&image[..])),
        lent("room for 50 more", &one, 551, Ok(&image[..])),
        lent("room 0", &EMPTY, 0, Err(21)),
    ]
}

/// An image of which the ticket's answers give some bytes, and from where on.
struct Front {
    size: u64,
    header: Vec<u8>,
    sheet: Vec<u8>,
    at: usize,
    bytes: Vec<u8>,
}

fn fronts() -> Vec<Front> {
    let zeros = vec![0; HEADER];
    let e = bytes(&[Item::new(4096, 168, 4096, data_extent_body(7, 5, 257, 0))]);
    let head = [0, 16, 0, 0, 0, 0, 0, 0, 168, 0, 16, 0, 0, 0, 0, 0, 0, 0x66, 15, 0, 0, 53, 0, 0, 0];
    let front = |size, header: &[u8], sheet: &[u8], at, bytes: &[u8]| Front {
        size,
        header: header.to_vec(),
        sheet: sheet.to_vec(),
        at,
        bytes: bytes.to_vec(),
    };
    let counting: Vec<u8> = (0..HEADER as u8).collect();
    vec![
        front(501, &zeros, &EMPTY, 0, &[0x4b, 0x15, 0xdb, 0x7c]),
        front(501, &counting, &EMPTY, 0, &[0x6d, 0xf0, 0xa7, 0xc3]),
        front(4096, &zeros, &e, HEADER, &head),
        front(4096, &zeros, &e, 0, &[0xa3, 0x80, 0x47, 0xfe]),
    ]
}

/// That an image has these bytes, and is read back.
fn has_front(calls: Calls, front: &Front) -> Result<(), String> {
    let Front { size, header, sheet, at, bytes } = front;
    let image = given(calls, WRITE, &of_write(*size, header, sheet), AMPLE)?.unwrap_or_default();
    if image.get(*at..at + bytes.len()) != Some(bytes) {
        return Err(format!("the image of {size} bytes has not {bytes:02x?} at {at}"));
    }
    if given(calls, READ, &of_read(*size, &image), AMPLE)?.as_ref() != Ok(sheet) {
        return Err(format!("the image of {size} bytes is not read back"));
    }
    Ok(())
}

/// How an answer differs from what it has to be.
fn differs(answer: &Result<Vec<u8>, u64>, expected: &Result<Vec<u8>, u64>) -> String {
    if let (Ok(given), Ok(expected)) = (answer, expected) {
        let same = given.iter().zip(expected).take_while(|(a, b)| a == b).count();
        return format!("{} bytes, other ones from byte {same} on", given.len());
    }
    let shown = |of: &Result<Vec<u8>, u64>| match of {
        Ok(bytes) => format!("{} bytes", bytes.len()),
        Err(code) => format!("refusal {code}"),
    };
    format!("{}, and not {}", shown(answer), shown(expected))
}

/// How many cases hold, or the first that does not.
pub fn hold(calls: Calls) -> Result<usize, String> {
    let lists = [of_whole(), of_packing(), of_reading(), of_writing()];
    let cases: Vec<Case> = lists.into_iter().flatten().collect();
    for case in &cases {
        let answer = given(calls, case.call, &case.bare, case.room)?;
        if answer != case.answer {
            let how = differs(&answer, &case.answer);
            return Err(format!("{} of {}: {how}", case.call, case.name));
        }
    }
    let fronts = fronts();
    for front in &fronts {
        has_front(calls, front)?;
    }
    Ok(cases.len() + 2 * fronts.len())
}
