//! Questions, and how a call can end before its result.

/// What ends a call without a result.
#[derive(Debug, Clone, Copy, PartialEq, Eq)]
pub enum Stop {
    /// The number of the first question answered with "no".
    Refused(u32),
    /// An inline search found no match: no refusal.
    Absent,
    /// The last count was dropped, so the item goes: no refusal.
    Remove,
}

pub type Asked<T> = Result<T, Stop>;

/// Puts question `number`.
pub fn ask(number: u32, yes: bool) -> Asked<()> {
    if yes {
        Ok(())
    } else {
        Err(Stop::Refused(number))
    }
}

/// The value, or the refusal `number` where there is none.
pub fn want<T>(number: u32, value: Option<T>) -> Asked<T> {
    value.ok_or(Stop::Refused(number))
}

pub fn le64(bytes: &[u8]) -> u64 {
    bytes[..8].iter().rev().fold(0, |n, &b| n * 256 + u64::from(b))
}

pub fn le32(bytes: &[u8]) -> u32 {
    bytes[..4].iter().rev().fold(0, |n, &b| n * 256 + u32::from(b))
}

pub fn be64(bytes: &[u8]) -> u64 {
    bytes[..8].iter().fold(0, |n, &b| n * 256 + u64::from(b))
}

pub fn be32(bytes: &[u8]) -> u32 {
    bytes[..4].iter().fold(0, |n, &b| n * 256 + u32::from(b))
}
