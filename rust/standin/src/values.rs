//! Values that are returned and wrong in the way asked for.
use model::calls::Arg;
use model::hash::{data_ref_hash, register, word_step};

/// The value of that fault; `None` where it is a fault of something else.
pub fn wrong(fault: &str, call: &str, args: &[Arg]) -> Option<u64> {
    match (call, args) {
        ("crc32c_word_step", [Arg::Number(register), Arg::Number(word)]) => {
            wrong_step(fault, *register as u32, *word as u32).map(u64::from)
        }
        ("crc32c_update", [Arg::Number(register), Arg::Bytes(bytes)]) => {
            wrong_run(fault, *register as u32, bytes).map(u64::from)
        }
        (_, [Arg::Number(tree), Arg::Number(objectid), Arg::Number(offset)]) => match fault {
            "no high half" => Some(data_ref_hash(*tree & 0xffff_ffff, *objectid, *offset)),
            _ => None,
        },
        _ => None,
    }
}

fn wrong_step(fault: &str, from: u32, word: u32) -> Option<u32> {
    // What the rows are read by.
    let both = from ^ word;
    Some(match fault {
        "highest byte first" => word_step(from, word.swap_bytes()),
        "rows the other way round" => word_step(0, both.swap_bytes()),
        "no register" => word_step(0, word),
        "three bytes" => register(from, &word.to_le_bytes()[..3]),
        "one entry of the first row" => word_step(from, word) ^ u32::from(both >> 24 == 0xa7),
        "one entry of the last row" => word_step(from, word) ^ u32::from(both & 255 == 0xff),
        "one word" => word_step(from, word) ^ u32::from(both & 0xf_ffff == 0x1_2345),
        _ => return None,
    })
}

fn wrong_run(fault: &str, from: u32, bytes: &[u8]) -> Option<u32> {
    let blocks = bytes.len() / 16 * 16;
    Some(match fault {
        "not inverted" => !register(from, bytes),
        "no register" => register(0, bytes),
        "blocks alone" => register(from, &bytes[..blocks]),
        "one entry of the first row" => {
            register(from, bytes) ^ u32::from(blocks > 0 && bytes[blocks - 1] == 0xa7)
        }
        "one entry of the last row" => {
            register(from, bytes) ^ u32::from(blocks > 16 && bytes[16] == 0xff)
        }
        _ => return None,
    })
}
