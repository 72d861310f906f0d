//! Document 01, "The leaves": the CRC32C register bit by bit, without a table. Document 02, ticket 2:
//! the table of any polynomial, as text; ticket 3: the register over a word.

/// The polynomial of CRC32C, reflected.
pub const CRC32C: u32 = 0x82f6_3b78;

/// The register `from`, run over `bytes`.
pub fn register(from: u32, bytes: &[u8]) -> u32 {
    let mut register = from;
    for &byte in bytes {
        for bit in 0..8 {
            let odd = (register ^ u32::from(byte >> bit)) & 1 == 1;
            register >>= 1;
            if odd {
                register ^= CRC32C;
            }
        }
    }
    register
}

/// "For every register and word, one word step equals four byte steps, lowest byte first."
pub fn word_step(from: u32, word: u32) -> u32 {
    let byte = |place: u32| (word / 256_u32.pow(place) % 256) as u8;
    (0..4).fold(from, |from, place| register(from, &[byte(place)]))
}

/// The finished checksum of `bytes`: all ones to start with, inverted at the end.
pub fn checksum(bytes: &[u8]) -> u32 {
    !register(u32::MAX, bytes)
}

/// The hash of a data reference: two runs, neither inverted.
pub fn data_ref_hash(tree: u64, objectid: u64, offset: u64) -> u64 {
    let first = register(u32::MAX, &tree.to_le_bytes());
    let second = register(u32::MAX, &[objectid.to_le_bytes(), offset.to_le_bytes()].concat());
    (u64::from(first) * (1 << 31)) ^ u64::from(second)
}

/// "Each entry is its number after eight steps, each halving it, rounded down, and xoring in the
/// polynomial where it was odd."
fn entry(polynomial: u32, number: u32) -> u32 {
    let step = |n: u32| if n % 2 == 1 { (n / 2) ^ polynomial } else { n / 2 };
    (0..8).fold(number, |n, _| step(n))
}

/// "256 lines of eight lower-case hexadecimal digits, entry 0 first."
pub fn table_text(polynomial: u32) -> String {
    (0..256).map(|number| format!("{:08x}\n", entry(polynomial, number))).collect()
}
