//! Document 02, ticket 4: leaves as they stand on the card. Its cases (`image_cases`) and its laws on
//! drawn leaves, by the model, by the archive and by the crate; and damaged images by the archive
//! beside the model. The original has no writer; its reader is held beside the call as of any call.
use crate::archive::{has, Archive};
use crate::generate::lent;
use crate::image_cases;
use crate::leaf_draw::{self, cleared, disturbed, gap, whole};
use crate::random::Random;
use crate::spent::Spent;
use crate::tables;
use crate::verdict::{agreement, inside, of_original, Agreement, ORIGINAL_HERE};
use extent_refs::{leaf_image, sheet};
use model::asked::{Asked, Stop};
use model::calls::{outcome, Arg, Outcome};
use model::sheet::{bytes, unordered, Item};
use std::cell::Cell;
use std::collections::BTreeMap;
use std::time::Duration;

pub const READ: &str = "leaf_image_read";
pub const WRITE: &str = "leaf_image_write";

/// What answers both calls.
pub type Calls<'a> = &'a dyn Fn(&str, &[Arg]) -> Option<Outcome>;

/// So many leaves for the laws, and so many damaged images, whatever the time; and no more.
const LEAST_LEAVES: usize = 300;
const MOST_LEAVES: usize = 100_000;
const LEAST_DAMAGED: usize = 3_000;
const MOST_DAMAGED: usize = 1_000_000;

/// The codes of the reader. Each comes up at least once in so many damaged images.
const CODES: [u64; 6] = [0, 2, 3, 21, 23, 24];
const OFTEN: usize = 100;

/// Lines that begin with `ok` or `FAIL`.
pub fn images(time: Duration) -> Vec<String> {
    let by_model = |call: &str, args: &[Arg]| Some(outcome(call, args));
    let mut lines = vec![run("model", &by_model, time / 10)];
    if !has(READ) || !has(WRITE) {
        lines.push(format!("FAIL images archive: {READ} or {WRITE} is not in the archive"));
        return lines;
    }
    let archive = Archive::default();
    // Against the guard page after each slice and the one before it, by turns.
    let at_end = Cell::new(false);
    let by_archive = |call: &str, args: &[Arg]| {
        at_end.set(!at_end.get());
        archive.run(call, args, at_end.get()).ok()
    };
    lines.push(run("archive", &by_archive, time / 5));
    lines.push(run("crate", &by_crate, time / 10));
    lines.push(beside_model(&by_archive, time * 3 / 5));
    lines
}

/// The crate's functions as calls: what they give is put where a call would put it. On items they
/// give the same; where not, there is no answer.
fn by_crate(call: &str, args: &[Arg]) -> Option<Outcome> {
    let (given, of_items) = match args {
        [Arg::Number(size), Arg::Bytes(image), ..] if call == READ => {
            let items = leaf_image::read(*size as u32, image);
            let sheet = leaf_image::read_sheet(*size as u32, image);
            (sheet, Some(items.map(|items| sheet::from_items(&items))))
        }
        [Arg::Number(size), Arg::Bytes(header), Arg::Bytes(bytes), ..] => {
            let reads = unordered(bytes).is_ok();
            let items = reads.then(|| sheet::to_items(bytes));
            let of_items = items.map(|items| leaf_image::write(*size as u32, header, &items));
            (leaf_image::write_sheet(*size as u32, header, bytes), of_items)
        }
        _ => return None,
    };
    if of_items.is_some_and(|of_items| of_items != given) {
        return None;
    }
    let room = args.iter().find_map(|a| if let Arg::Out(out) = a { Some(out.len()) } else { None });
    Some(match given {
        // It lends its own room, so question 21 is not its caller's.
        Ok(bytes) if Some(bytes.len()) > room => tables::outcome(args, 21, &[]),
        Ok(bytes) => tables::outcome(args, 0, &bytes),
        Err(error) => tables::outcome(args, error.number.into(), &[]),
    })
}

/// The bytes that a call gives, or its refusal. A fault where it does what no call may: it changes
/// bytes past its result, or an input, or something on a refusal.
pub fn given(
    calls: Calls,
    call: &str,
    bare: &[Arg],
    room: usize,
) -> Result<Result<Vec<u8>, u64>, String> {
    let args = lent(bare, room);
    let said = calls(call, &args).ok_or(format!("{call} has no answer"))?;
    let (out, length) = match &said.args[..] {
        [.., Arg::Out(out), Arg::Lent(length)] => (out, *length as usize),
        _ => return Err(format!("{call} has other parameters")),
    };
    if said.code != 0 {
        let kept = said == tables::outcome(&args, said.code, &[]);
        return match kept {
            true => Ok(Err(said.code)),
            false => Err(format!("{call} changes something and refuses {}", said.code)),
        };
    }
    let bytes = out.get(..length).ok_or(format!("{call} gives {length} bytes in room {room}"))?;
    match said == tables::outcome(&args, 0, bytes) {
        true => Ok(Ok(bytes.to_vec())),
        false => Err(format!("{call} changes more than its result of {length} bytes")),
    }
}

/// The arguments of the reader, without its output.
pub fn of_read(size: u64, image: &[u8]) -> Vec<Arg> {
    vec![Arg::Number(size), Arg::Bytes(image.to_vec()), Arg::Out(vec![]), Arg::Lent(0)]
}

/// Those of the writer.
pub fn of_write(size: u64, header: &[u8], sheet: &[u8]) -> Vec<Arg> {
    let [header, sheet] = [header, sheet].map(|bytes| Arg::Bytes(bytes.to_vec()));
    vec![Arg::Number(size), header, sheet, Arg::Out(vec![]), Arg::Lent(0)]
}

/// One line that begins with `ok` or `FAIL`.
fn run(what: &str, calls: Calls, time: Duration) -> String {
    match held(calls, time) {
        Ok(text) => format!("ok   images {what}: {text}"),
        Err(fault) => format!("FAIL images {what}: {fault}"),
    }
}

/// What was compared, or the first fault.
fn held(calls: Calls, time: Duration) -> Result<String, String> {
    let begun = Spent::begin();
    let cases = image_cases::hold(calls)?;
    let mut r = Random::named("images", 1);
    let (mut leaves, mut items, mut full) = (0, 0, 0);
    while leaves < LEAST_LEAVES || (begun.elapsed() < time && leaves < MOST_LEAVES) {
        let leaf = Leaf::drawn(&mut r);
        leaf.laws(calls, &mut r)?;
        leaves += 1;
        items += leaf.items.len();
        full += usize::from(leaf.gap().is_empty());
    }
    Ok(format!(
        "{cases} cases; the laws on {leaves} leaves with {items} items, {full} without a gap"
    ))
}

/// A leaf that fits, and the header that it is written with.
struct Leaf {
    size: usize,
    header: Vec<u8>,
    items: Vec<Item>,
}

impl Leaf {
    fn drawn(r: &mut Random) -> Leaf {
        let size = leaf_draw::nodesize(r);
        Leaf { size, header: leaf_draw::header(r), items: leaf_draw::items(r, size) }
    }

    fn gap(&self) -> std::ops::Range<usize> {
        gap(&self.items, self.size)
    }

    fn read(
        &self,
        calls: Calls,
        image: &[u8],
        room: usize,
    ) -> Result<Result<Vec<u8>, u64>, String> {
        given(calls, READ, &of_read(self.size as u64, image), room)
    }

    fn write(
        &self,
        calls: Calls,
        header: &[u8],
        room: usize,
    ) -> Result<Result<Vec<u8>, u64>, String> {
        given(calls, WRITE, &of_write(self.size as u64, header, &bytes(&self.items)), room)
    }

    fn laws(&self, calls: Calls, r: &mut Random) -> Result<(), String> {
        let sheet = bytes(&self.items);
        let room = self.size + r.below(60);
        let fault = |law: &str| format!("{law}: {} bytes, {} items", self.size, self.items.len());
        let holds = |law: &str, yes: bool| if yes { Ok(()) } else { Err(fault(law)) };

        let image = whole(self.size, &self.header, &self.items);
        holds("what is written", self.write(calls, &self.header, room)? == Ok(image.clone()))?;
        holds("what was written is read", self.read(calls, &image, room)? == Ok(sheet.clone()))?;
        // Two sealed images that differ in bytes 4 to 95 and the gap alone have one sheet.
        let other = disturbed(r, image.clone(), self.gap());
        let always = self.size - 100;
        holds("what plays no part", self.read(calls, &other, always)? == Ok(sheet.clone()))?;
        let back = cleared(other.clone(), self.gap());
        holds("what was read is written", self.write(calls, &other[..101], room)? == Ok(back))?;

        let exact = sheet.len();
        holds("room to the byte", self.read(calls, &image, exact)? == Ok(sheet))?;
        holds("room one short", self.read(calls, &image, exact - 1)? == Err(21))?;
        holds(
            "room of an image",
            self.write(calls, &self.header, self.size)? == Ok(image.clone()),
        )?;
        let any = r.below(self.size);
        let short = r.pick(&[0, self.size - 1, any]);
        holds("room short of an image", self.write(calls, &self.header, short)? == Err(21))?;
        let mut broken = image;
        let any = 32 + r.below(self.size - 32);
        let at = r.pick(&[0, 1, 2, 3, 32, any, any, any]);
        broken[at] ^= 1 << r.below(8);
        holds("one bit not sealed", self.read(calls, &broken, room)? == Err(23))
    }
}

/// Damaged images by the archive and by the model, as a line that begins with `ok` or `FAIL`.
fn beside_model(calls: Calls, time: Duration) -> String {
    let begun = Spent::begin();
    let mut r = Random::named("images", 2);
    let mut codes: BTreeMap<u64, usize> = CODES.map(|code| (code, 0)).into();
    let (mut count, mut beside) = (0, 0);
    while count < LEAST_DAMAGED || (begun.elapsed() < time && count < MOST_DAMAGED) {
        let (size, image) = leaf_draw::image(&mut r);
        let answer = model::leaf::read(size as u32, &image);
        let args = lent(&of_read(size, &image), room(&mut r, &image, &answer));
        let expected = expected(&args, &answer);
        let said = calls(READ, &args);
        if said.as_ref() != Some(&expected) {
            let (given, shown) = (said.map(|said| said.code), crate::show::args(READ, &args));
            let code = expected.code;
            return format!("FAIL images damaged: {given:?}, and the model {code}, of {shown}");
        }
        if ORIGINAL_HERE && inside(READ, expected.code) {
            if agreement(READ, &of_original(READ, &args), &expected) != Agreement::Same {
                let shown = crate::show::args(READ, &args);
                return format!("FAIL images damaged: not as the original has it: {shown}");
            }
            beside += 1;
        }
        *codes.entry(expected.code).or_default() += 1;
        count += 1;
    }
    line(count, beside, &codes)
}

/// Room to spare; where there is a sheet, now and then to the byte, and less.
fn room(r: &mut Random, image: &[u8], answer: &Asked<Vec<u8>>) -> usize {
    let sheet = answer.as_ref().map_or(0, |sheet| sheet.len());
    match r.below(6) {
        0 => sheet,
        1 => sheet.saturating_sub(1),
        2 => r.below(sheet + 1),
        _ => image.len() + 1 + r.below(40),
    }
}

/// The whole outcome of an answer. The model's checksum is slow, and so it is asked once.
fn expected(args: &[Arg], answer: &Asked<Vec<u8>>) -> Outcome {
    let room = args.iter().map(|a| if let Arg::Out(out) = a { out.len() } else { 0 }).sum();
    match answer {
        Ok(sheet) if sheet.len() <= room => tables::outcome(args, 0, sheet),
        Ok(_) => tables::outcome(args, 21, &[]),
        Err(Stop::Refused(number)) => tables::outcome(args, u64::from(*number), &[]),
        Err(_) => unreachable!("an image is neither absent nor removed"),
    }
}

/// Whether each code came up often, and no other, and the original was asked where it is here.
fn line(count: usize, beside: usize, codes: &BTreeMap<u64, usize>) -> String {
    let shown: Vec<String> = codes.iter().map(|(code, often)| format!("{code}:{often}")).collect();
    let rare = CODES.iter().find(|code| codes.get(code).is_none_or(|often| often * OFTEN < count));
    let other = codes.keys().find(|code| !CODES.contains(code));
    let shown = shown.join(" ");
    let beside = match (ORIGINAL_HERE, beside * 2 < count) {
        (true, true) => return format!("FAIL images damaged: {beside} of {count} by the original"),
        (true, false) => format!(", {beside} of them as the original"),
        (false, _) => String::new(),
    };
    match rare.or(other).or((count == 0).then_some(&0)) {
        None => {
            format!("ok   images damaged: {count} as the model has them{beside}; codes {shown}")
        }
        Some(code) => format!("FAIL images damaged: code {code} in {count}: {shown}"),
    }
}

#[cfg(test)]
mod tests {
    use super::*;

    const SHORT: Duration = Duration::from_millis(1);

    /// Whether the laws, or the images beside the model, notice what is changed in the model.
    fn noticed(change: impl Fn(&str, &[Arg], &mut Outcome)) -> bool {
        let calls = |call: &str, args: &[Arg]| {
            let mut said = outcome(call, args);
            change(call, args, &mut said);
            Some(said)
        };
        let lines = [run("test", &calls, SHORT), beside_model(&calls, SHORT)];
        lines.iter().any(|line| line.starts_with("FAIL"))
    }

    fn out(said: &mut Outcome) -> &mut Vec<u8> {
        match said.args.iter_mut().rev().nth(1) {
            Some(Arg::Out(out)) => out,
            _ => unreachable!("both calls lend an output"),
        }
    }

    #[test]
    fn what_is_wrong_is_noticed() {
        assert!(!noticed(|_, _, _| {}));
        for at in [0, 3, 4, 31, 32, 95, 96, 100, 101, 126, 500] {
            let changed = |call: &str, _: &[Arg], said: &mut Outcome| {
                if (call, said.code) == (WRITE, 0) {
                    out(said)[at] ^= 1;
                }
            };
            assert!(noticed(changed), "byte {at}");
        }
        assert!(noticed(|call, _, said| {
            // One byte of a sheet, or past it.
            if (call, said.code) == (READ, 0) {
                out(said).iter_mut().take(1).for_each(|byte| *byte ^= 1);
            }
        }));
        for call in [READ, WRITE] {
            assert!(noticed(|of, _, said| {
                if of == call && said.code == 0 {
                    out(said).last_mut().into_iter().for_each(|byte| *byte ^= 1);
                }
            }));
            assert!(noticed(|of, _, said| {
                if of == call && said.code != 0 {
                    out(said).iter_mut().take(1).for_each(|byte| *byte ^= 1);
                }
            }));
            assert!(noticed(|of, args, said| {
                if of == call && said.code != 0 {
                    said.args = args.to_vec();
                }
            }));
        }
        for code in [2, 3, 18, 21, 23, 24] {
            assert!(noticed(|_, _, said| said.code += u64::from(said.code == code)), "{code}");
        }
    }

    #[test]
    fn a_code_that_does_not_come_up_fails() {
        let often: BTreeMap<u64, usize> = CODES.map(|code| (code, 100)).into();
        assert!(line(600, 600, &often).starts_with("ok"));
        assert_eq!(line(600, 0, &often).starts_with("FAIL"), ORIGINAL_HERE);
        assert!(line(60_000, 60_000, &often).starts_with("FAIL"));
        for code in CODES {
            let mut rare = often.clone();
            rare.insert(code, 0);
            assert!(line(500, 500, &rare).starts_with("FAIL"), "{code}");
        }
        let mut other = often;
        other.insert(5, 1);
        assert!(line(601, 601, &other).starts_with("FAIL"));
        assert!(line(0, 0, &CODES.map(|code| (code, 0)).into()).starts_with("FAIL"));
        assert!(run("test", &|_, _| None, SHORT).starts_with("FAIL"));
        assert!(beside_model(&|_, _| None, SHORT).starts_with("FAIL"));
    }
}
