//! Texts of a polynomial's table that are wrong in the way asked for.
use model::hash::{table_text, CRC32C};

/// The text of that fault; `None` where it is a fault of something else.
pub fn wrong(fault: &str, polynomial: u32) -> Option<String> {
    Some(match fault {
        "bare digits" => {
            entries(polynomial, |n| n % 2 == 1).map(|entry| format!("{entry:x}\n")).collect()
        }
        "the half is odd" => {
            entries(polynomial, |n| n / 2 % 2 == 1).map(|entry| format!("{entry:08x}\n")).collect()
        }
        "one table" => table_text(CRC32C),
        "no last line feed" => table_text(polynomial).trim_end().to_string(),
        _ => return None,
    })
}

fn entries(polynomial: u32, odd: fn(u32) -> bool) -> impl Iterator<Item = u32> {
    let step = move |n| if odd(n) { (n / 2) ^ polynomial } else { n / 2 };
    (0..256).map(move |number| (0..8).fold(number, |n, _| step(n)))
}
