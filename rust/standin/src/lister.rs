//! A stand-in for the lister, made of the model, that can be told to go wrong by STANDIN_FAULT.
use std::io::Read;

mod output;

fn main() {
    let fault = std::env::var("STANDIN_FAULT").unwrap_or_default();
    // As the lister does, no more than a type byte and one byte past the longest body.
    let mut input = Vec::new();
    let read = std::io::stdin().take(65_537).read_to_end(&mut input);
    if read.is_err() && fault != "takes an error for the end" {
        return eprintln!("lister: standard input could not be read");
    }
    let mut text = model::lister::listed(&input);
    match fault.as_str() {
        "one more" => text = text.replacen(" 1\n", " 2\n", 1),
        "no last line" => text.truncate(text.trim_end().rfind('\n').map_or(0, |at| at + 1)),
        _ => {}
    }
    output::write("lister", &fault, &text);
}
