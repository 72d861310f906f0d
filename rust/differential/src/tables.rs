//! Document 02, ticket 2: the text of a polynomial's table, by the model, by the archive and by the
//! crate, beside a generator of another kind and the ticket's own answers. The original has no
//! such call.
use crate::archive::{by_each, has, Caller};
use crate::generate::lent;
use crate::random::Random;
use model::calls::{Arg, Outcome};
use model::hash::CRC32C;
use std::collections::BTreeSet;

/// The call.
const CALL: &str = "crc32c_table_text";

/// How many polynomials are compared, no two of them the same.
const POLYNOMIALS: usize = 20_000;

/// The length of every text.
const LENGTH: usize = 2_304;

/// Lines that begin with `ok` or `FAIL`.
pub fn tables() -> Vec<String> {
    let mut lines = by_each(CALL, "tables", run);
    if has(CALL) {
        lines.push(of_crate(extent_refs::crc32c::table_text));
    }
    lines
}

/// What a division by x^32 and the polynomial leaves, by the theory of these checksums, in which
/// bits are the coefficients of a polynomial, the highest bit of a number that of the lowest power.
/// The dividend has its bits the other way round: bit n is the coefficient of x^n.
pub fn rest(polynomial: u32, mut dividend: u64) -> u32 {
    let divisor = 1 << 32 | u64::from(polynomial.reverse_bits());
    while dividend >> 32 != 0 {
        dividend ^= divisor << (31 - dividend.leading_zeros());
    }
    u32::try_from(dividend).expect("a rest below the divisor").reverse_bits()
}

/// Entry `n`, which `n` times x^32 leaves. The model and the archive halve a register eight times
/// and ask if it was odd. Here nothing is halved and nothing is odd: a dividend of 40 bits loses
/// multiples of the divisor from its highest power down. So a slip in the steps has no like here.
pub fn entry(polynomial: u32, n: u8) -> u32 {
    rest(polynomial, u64::from(n.reverse_bits()) << 32)
}

/// The text with these entries, without the formatter that the model uses.
pub fn text(polynomial: u32) -> Vec<u8> {
    let mut text = Vec::with_capacity(LENGTH);
    for n in 0..=255 {
        let entry = entry(polynomial, n);
        text.extend((0..8).map(|k| b"0123456789abcdef"[(entry << (4 * k) >> 28) as usize]));
        text.push(b'\n');
    }
    text
}

/// Polynomials of which something may be special: those that the ticket names, and those with a
/// single bit, or all but one.
pub fn special() -> Vec<u32> {
    let mut list = vec![0, 1, CRC32C, 0xedb8_8320, u32::MAX, CRC32C.reverse_bits()];
    list.extend((1..32).flat_map(|bit| [1 << bit, !(1 << bit)]));
    list
}

/// The special ones and others.
fn polynomials() -> BTreeSet<u32> {
    let mut r = Random::named("tables", 1);
    let mut set = BTreeSet::from_iter(special());
    while set.len() < POLYNOMIALS {
        set.insert(r.next() as u32);
    }
    set
}

/// One line that begins with `ok` or `FAIL`.
fn run(what: &str, call: Caller) -> String {
    let mut r = Random::named("tables", 2);
    let mut rooms = BTreeSet::new();
    let answers = match answers(call) {
        Ok(answers) => answers,
        Err(fault) => return format!("FAIL tables {what}: {fault}"),
    };
    let polynomials = polynomials();
    for (turn, &polynomial) in polynomials.iter().enumerate() {
        let enough = [LENGTH, LENGTH + 1, 3_000, LENGTH + r.below(2_000)][turn % 4];
        let short = [LENGTH - 1, 0, r.below(LENGTH)][turn % 3];
        // The text of each, and now and then a refusal.
        for room in if turn % 5 == 0 { vec![enough, short] } else { vec![enough] } {
            rooms.insert(room);
            if let Err(fault) = compared(call, polynomial, room) {
                return format!("FAIL tables {what}: polynomial {polynomial:08x}, {fault}");
            }
        }
    }
    format!(
        "ok   tables {what}: {answers} answers of the ticket; {} polynomials as a division has them, in {} rooms",
        polynomials.len(),
        rooms.len()
    )
}

/// What the crate gives, which panics where the call refuses.
fn of_crate(table_text: fn(u32) -> String) -> String {
    let polynomials = special();
    let given = |p: u32| std::panic::catch_unwind(|| table_text(p).into_bytes()).ok();
    match polynomials.iter().find(|&&p| given(p) != Some(text(p))) {
        Some(p) => format!("FAIL tables crate: another text for polynomial {p:08x}"),
        None => format!("ok   tables crate: {} polynomials", polynomials.len()),
    }
}

fn asked(polynomial: u32, room: usize) -> Vec<Arg> {
    lent(&[Arg::Number(polynomial.into()), Arg::Out(vec![]), Arg::Lent(0)], room)
}

/// That the code, the length and every lent byte are as they have to be, past the text too.
fn compared(call: Caller, polynomial: u32, room: usize) -> Result<(), String> {
    let args = asked(polynomial, room);
    let said = call(&args).ok_or("there is no answer")?;
    let text = text(polynomial);
    let expected = match text.len() <= room {
        true => outcome(&args, 0, &text),
        false => outcome(&args, 21, &[]),
    };
    if said == expected {
        return Ok(());
    }
    let (here, there) = (lines_of(&said), lines_of(&expected));
    let same = here.iter().zip(&there).take_while(|(a, b)| a == b).count();
    let shown = |of: &Outcome, lines: &[String]| {
        format!("code {}, {:?}, line {} {:?}", of.code, of.args[2], same + 1, lines.get(same))
    };
    Err(format!("room {room}: {}, and not {}", shown(&said, &here), shown(&expected, &there)))
}

/// The outcome with that code, and these bytes at the front of the output.
pub fn outcome(args: &[Arg], code: u64, bytes: &[u8]) -> Outcome {
    let mut after = args.to_vec();
    for arg in &mut after {
        match arg {
            Arg::Out(out) => out[..bytes.len()].copy_from_slice(bytes),
            Arg::Lent(length) => *length = bytes.len() as u64,
            _ => {}
        }
    }
    Outcome { code, args: after }
}

/// The lines of what an output holds, up to the length that is said.
fn lines_of(said: &Outcome) -> Vec<String> {
    let [_, Arg::Out(out), Arg::Lent(length)] = &said.args[..] else { return vec![] };
    let text = out.get(..*length as usize).unwrap_or(out);
    String::from_utf8_lossy(text).split('\n').map(str::to_string).collect()
}

/// What the ticket says: an entry of a polynomial, and its line.
const ANSWERS: [(u32, usize, &str); 14] = [
    (CRC32C, 0, "00000000"),
    (CRC32C, 1, "f26b8303"),
    (CRC32C, 128, "82f63b78"),
    (CRC32C, 255, "ad7d5351"),
    (1, 250, "00000000"),
    (1, 251, "00000001"),
    (1, 252, "00000000"),
    (1, 253, "00000001"),
    (1, 254, "00000001"),
    (1, 255, "00000000"),
    (u32::MAX, 1, "02000000"),
    (u32::MAX, 255, "01ffffff"),
    (0xedb8_8320, 1, "77073096"),
    (0xedb8_8320, 255, "2d02ef8d"),
];

/// How many answers hold, or the first that does not.
fn answers(call: Caller) -> Result<usize, String> {
    for (polynomial, n, line) in ANSWERS {
        has_line(call, polynomial, n, line)?;
    }
    for polynomial in special() {
        has_line(call, polynomial, 0, "00000000")?;
        has_line(call, polynomial, 128, &format!("{polynomial:08x}"))?;
    }
    Ok(ANSWERS.len() + 2 * special().len() + of_zero(call)?)
}

fn has_line(call: Caller, polynomial: u32, n: usize, line: &str) -> Result<(), String> {
    let said = call(&asked(polynomial, LENGTH)).ok_or("there is no answer")?;
    match lines_of(&said).get(n) {
        Some(given) if given == line => Ok(()),
        given => Err(format!("entry {n} of {polynomial:08x} is {given:?} and not {line:?}")),
    }
}

/// Of polynomial 0 all entries are 0; here with what each room gives.
fn of_zero(call: Caller) -> Result<usize, String> {
    let zeros = "00000000\n".repeat(256).into_bytes();
    let rooms = [
        (0, 21, &[][..]),
        (2_303, 21, &[]),
        (2_304, 0, &zeros),
        (2_305, 0, &zeros),
        (3_000, 0, &zeros),
    ];
    for (room, code, bytes) in rooms {
        let args = asked(0, room);
        if call(&args) != Some(outcome(&args, code, bytes)) {
            return Err(format!("polynomial 0 in room {room}"));
        }
    }
    Ok(rooms.len())
}

#[cfg(test)]
mod tests {
    use super::*;
    use model::hash::table_text;

    /// The line of one that gives this text.
    fn line(text: impl Fn(u32) -> String) -> String {
        run("test", &|args| {
            let [Arg::Number(polynomial), Arg::Out(out), _] = args else { return None };
            let text = text(*polynomial as u32).into_bytes();
            Some(match text.len() <= out.len() {
                true => outcome(args, 0, &text),
                false => outcome(args, 21, &[]),
            })
        })
    }

    fn from_entries(entry: impl Fn(u32) -> u32) -> String {
        (0..256).map(|n| format!("{:08x}\n", entry(n))).collect()
    }

    #[test]
    fn wrong_texts_fail() {
        assert!(line(table_text).starts_with("ok"), "{}", line(table_text));
        let steps = |p, count| move |n| (0..count).fold(n, |n: u32, _| (n / 2) ^ (p * (n % 2)));
        let of_half = |p| move |n| (0..8).fold(n, |n: u32, _| (n / 2) ^ (p * (n / 2 % 2)));
        assert!(line(|p| from_entries(steps(p, 8))).starts_with("ok"));
        for (what, fails) in [
            ("nothing", line(|_| String::new())),
            ("one table for all", line(|_| table_text(CRC32C))),
            ("the half is odd", line(|p| from_entries(of_half(p)))),
            ("seven steps", line(|p| from_entries(steps(p, 7)))),
            ("mirrored", line(|p| table_text(p.reverse_bits()))),
            ("bare digits", line(|p| table_text(p).replace("\n0", "\n"))),
            ("capitals", line(|p| table_text(p).to_uppercase())),
            ("no last line feed", line(|p| table_text(p).trim_end().into())),
            ("entry 0 last", line(|p| [&table_text(p)[9..], "00000000\n"].concat())),
            ("one entry less", line(|p| table_text(p)[..2_295].into())),
            ("one entry more", line(|p| table_text(p) + "00000000\n")),
        ] {
            assert!(fails.starts_with("FAIL"), "{what}: {fails}");
        }
        assert!(run("test", &|_| None).starts_with("FAIL"));
        assert!(of_crate(table_text).starts_with("ok"));
        assert!(of_crate(|_| table_text(CRC32C)).starts_with("FAIL"));
        assert!(of_crate(|_| panic!("refused 21")).starts_with("FAIL"));
    }

    /// The line of one that is right in all that the ticket says, and elsewhere is changed.
    fn elsewhere(change: impl Fn(&[Arg], &mut Outcome)) -> String {
        let special: Vec<Arg> = special().into_iter().map(|p| Arg::Number(p.into())).collect();
        run("test", &|args| {
            let mut said = model::calls::outcome(CALL, args);
            if !special.contains(&args[0]) {
                change(args, &mut said);
            }
            Some(said)
        })
    }

    #[test]
    fn the_generator_is_held_to() {
        assert!(elsewhere(|_, _| {}).starts_with("ok"));
        for at in [0, 700, 1_151, 2_303, 2_304] {
            let fails = elsewhere(|_, said| {
                if let (0, Arg::Out(out)) = (said.code, &mut said.args[1]) {
                    out.iter_mut().skip(at).take(1).for_each(|byte| *byte ^= 1);
                }
            });
            assert!(fails.starts_with("FAIL tables test: polynomial"), "byte {at}: {fails}");
        }
    }

    #[test]
    fn wrong_rooms_fail() {
        let room = |args: &[Arg]| if let Arg::Out(out) = &args[1] { out.len() } else { 0 };
        let wants_more = elsewhere(|args, said| {
            if room(args) == LENGTH {
                *said = outcome(args, 21, &[]);
            }
        });
        let gives_a_part = elsewhere(|args, said| {
            if room(args) < LENGTH {
                *said = outcome(args, 0, &text(7)[..room(args)]);
            }
        });
        let writes_when_refused = elsewhere(|_, said| {
            if let (21, Arg::Out(out)) = (said.code, &mut said.args[1]) {
                out.iter_mut().take(1).for_each(|byte| *byte ^= 1);
            }
        });
        let keeps_the_length = elsewhere(|args, said| {
            if said.code == 21 {
                said.args = args.to_vec();
            }
        });
        let other_number = elsewhere(|_, said| said.code += said.code / 21);
        let all = [wants_more, gives_a_part, writes_when_refused, keeps_the_length, other_number];
        for fails in all {
            assert!(fails.starts_with("FAIL tables test: polynomial"), "{fails}");
        }
    }
}
