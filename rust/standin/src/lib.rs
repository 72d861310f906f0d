//! A stand-in for the archive, made of the model, that can be told to go wrong: to see that the
//! differential run links, and that it notices each fault. It is no part of the product.
//! The variable STANDIN_FAULT names the fault.
#![allow(clippy::missing_safety_doc, clippy::too_many_arguments)]
use model::asked::{Asked, Stop};
use model::calls::{outcome, returns_value, Arg, Outcome};
use model::ledger::count;
use model::sheet::read;
use std::slice::{from_raw_parts, from_raw_parts_mut};
use std::sync::OnceLock;

mod images;
mod texts;
mod values;

include!(concat!(env!("OUT_DIR"), "/exports.rs"));

fn fault() -> &'static str {
    static FAULT: OnceLock<String> = OnceLock::new();
    FAULT.get_or_init(|| std::env::var("STANDIN_FAULT").unwrap_or_default())
}

/// The model's outcome, or one that is wrong in the way asked for.
fn faulty(call: &str, args: &[Arg]) -> Outcome {
    if !returns_value(call) {
        return coded(call, args);
    }
    let right = || outcome(call, args).code;
    let code = values::wrong(fault(), call, args).unwrap_or_else(right);
    Outcome { code, args: args.to_vec() }
}

/// That of a call that returns a code.
fn coded(call: &str, args: &[Arg]) -> Outcome {
    let mut said = match fault() {
        "drops all" if call == "ledger_post" => outcome(call, &of_all(args)),
        _ => wrong_bytes(call, args).unwrap_or_else(|| outcome(call, args)),
    };
    let length = said.args.iter().find_map(|a| if let Arg::Lent(n) = a { Some(*n) } else { None });
    let length = length.unwrap_or(0) as usize;
    match fault() {
        "refuses" if said.code == 0 => said = Outcome { code: 5, args: said.args },
        "absent" if said.code == 0 => return blank(args, 100),
        "other number" if said.code == 12 => said.code = 11,
        "other number" if said.code == 22 => said.code = 14,
        "no room" if said.code == 0 && length > 0 => return blank(args, 21),
        "no room to the byte" if said.code == 0 && length == room(args) => return blank(args, 21),
        "hands back" if said.code == 0 => {
            let given =
                args.iter()
                    .find_map(|a| if let Arg::Bytes(b) = a { Some(b.clone()) } else { None });
            for arg in &mut said.args {
                if let (Arg::Out(out), Some(given)) = (arg, &given) {
                    let n = out.len().min(given.len());
                    out[..n].copy_from_slice(&given[..n]);
                }
            }
        }
        "keeps the length" if said.code > 0 && said.code < 100 => said.args = args.to_vec(),
        "writes when refused" if said.code > 0 && said.code < 100 => {
            for arg in &mut said.args {
                if let Arg::Out(out) = arg {
                    out.iter_mut().take(1).for_each(|b| *b = !*b);
                }
            }
        }
        "past the result" if said.code == 0 => {
            for arg in &mut said.args {
                match arg {
                    Arg::Out(out) => out.iter_mut().skip(length).take(1).for_each(|b| *b = !*b),
                    Arg::Cuts(out) => out.iter_mut().skip(length).take(1).for_each(|b| *b = !*b),
                    _ => {}
                }
            }
        }
        "later cuts" => {
            for arg in &mut said.args {
                if let Arg::Cuts(out) = arg {
                    out.iter_mut().take(length).skip(1).for_each(|cut| *cut += 1);
                }
            }
        }
        "one more" if said.code == 0 => {
            for arg in &mut said.args {
                if let Arg::Lent(n) = arg {
                    *n += 1;
                    break;
                }
            }
        }
        _ => {}
    }
    said
}

/// A posting that drops all of a shared reference, whatever amount was asked for.
fn of_all(args: &[Arg]) -> Vec<Arg> {
    let number = |at: usize| if let Arg::Number(n) = args[at] { n } else { 0 };
    let mut all = args.to_vec();
    if let (Arg::Bytes(sheet), 6) = (&args[1], number(2)) {
        let [extent, kind, parent] = [3, 4, 5].map(number);
        let name = (kind as u8, vec![parent]);
        let stands = read(sheet).map_or(0, |items| count(&items, extent, &name));
        all[7] = Arg::Number(stands.min(u32::MAX.into()) as u64);
    }
    all
}

/// A table's text, a sheet or an image that is wrong in the way asked for.
fn wrong_bytes(call: &str, args: &[Arg]) -> Option<Outcome> {
    let wrong: Asked<Vec<u8>> = match (call, &args[0]) {
        ("crc32c_table_text", Arg::Number(polynomial)) => {
            Ok(texts::wrong(fault(), *polynomial as u32)?.into_bytes())
        }
        _ => images::wrong(fault(), call, args)?,
    };
    let bytes = match wrong {
        Ok(bytes) if bytes.len() <= room(args) => bytes,
        Ok(_) => return Some(blank(args, 21)),
        Err(Stop::Refused(number)) => return Some(blank(args, number.into())),
        Err(_) => return None,
    };
    let mut said = Outcome { code: 0, args: args.to_vec() };
    for arg in &mut said.args {
        match arg {
            Arg::Out(out) => out[..bytes.len()].copy_from_slice(&bytes),
            Arg::Lent(length) => *length = bytes.len() as u64,
            _ => {}
        }
    }
    Some(said)
}

/// How many bytes are lent for the result.
fn room(args: &[Arg]) -> usize {
    args.iter().map(|arg| if let Arg::Out(out) = arg { out.len() } else { 0 }).sum()
}

fn blank(args: &[Arg], code: u64) -> Outcome {
    let lent = |arg: &Arg| if let Arg::Lent(_) = arg { Arg::Lent(0) } else { arg.clone() };
    Outcome { code, args: args.iter().map(lent).collect() }
}

/// Faults beside the lent output.
unsafe fn beside(out: *mut u8, length: usize) {
    match fault() {
        "byte after" => *out.add(length) = 7,
        "byte before" => *out.wrapping_sub(1) = 7,
        _ => {}
    }
}
