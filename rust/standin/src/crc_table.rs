//! A stand-in for crc_table, made of the model, that can be told to go wrong by STANDIN_FAULT.
use model::hash::{table_text, CRC32C};
use std::io::Read;

mod output;
mod texts;

fn main() {
    let fault = std::env::var("STANDIN_FAULT").unwrap_or_default();
    let mut text = texts::wrong(&fault, CRC32C).unwrap_or_else(|| table_text(CRC32C));
    match fault.as_str() {
        "other polynomial" => text = table_text(0xedb8_8320),
        "takes its input" => drop(std::io::stdin().read(&mut [0])),
        "needs an input" if !matches!(std::io::stdin().read(&mut [0]), Ok(1)) => text.clear(),
        _ => {}
    }
    output::write("crc_table", &fault, &text);
}
