//! The register of CRC32C over a word or over bytes, and the table of any polynomial, worked out and
//! written as text.
use crate::answer::written;
use crate::lent;

/// The polynomial of CRC32C, reflected.
pub const CRC32C: u32 = 0x82f6_3b78;

/// How long the text is, whatever the polynomial.
pub const TABLE_TEXT_BYTES: usize = 2_304;

/// The register of CRC32C after the four bytes of `word`, the lowest first; nothing is inverted, so
/// a finished checksum starts from all ones and is inverted by its caller.
pub fn word_step(register: u32, word: u32) -> u32 {
    lent::crc32c_word_step(register, word)
}

/// The register of CRC32C after `bytes`; nothing is inverted, as in [`word_step`]. A run over two
/// parts, one after the other, is a run over both together.
pub fn update(register: u32, bytes: &[u8]) -> u32 {
    lent::crc32c_update(register, bytes)
}

/// The table of a reflected polynomial: 256 lines of eight lower-case hexadecimal digits, entry 0
/// first.
pub fn table_text(polynomial: u32) -> String {
    written(TABLE_TEXT_BYTES, |out, len| lent::crc32c_table_text(polynomial, out, len))
        .ok()
        .and_then(|text| String::from_utf8(text).ok())
        .expect("2,304 bytes of digits fit in 2,304")
}
