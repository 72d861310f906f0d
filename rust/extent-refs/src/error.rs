//! A refusal: the number of documents 01 and 02, and a sentence.
use std::fmt;

#[derive(Debug, Clone, Copy, PartialEq, Eq, Hash)]
pub struct Error {
    /// The number of the first question answered with "no".
    pub number: u32,
}

pub type Result<T> = std::result::Result<T, Error>;

impl Error {
    pub fn sentence(&self) -> &'static str {
        match self.number {
            1 => "the item list does not read: its length, version, or an item's length is wrong",
            2 => "the keys of the item list do not rise",
            3 => "a parameter is out of range: nodesize, shared kind, or a length",
            4 => "the item list is not balanced",
            5 => "there is no such record, key, item or reference",
            6 => "the extent item is shorter than its fixed fields",
            7 => "the extent item has an inline reference of an unknown type",
            8 => "the extent item ends inside an inline reference",
            9 => "the key or reference to add stands already",
            10 => "the amount is 0, or the reference may not be added so",
            11 => "a reference's count is at its limit",
            12 => "the extent's total is at its limit",
            13 => "the reference is its extent's last",
            14 => "the extent's total is below what was to come off",
            15 => "the keyed data item names something else",
            16 => "the keyed data item counts nothing",
            17 => "the extent item is past the inline limit",
            18 => "the items do not fit in a leaf",
            19 => "fewer than two items cannot be split",
            20 => "a leaf would be empty",
            21 => "the result does not fit in the output or the limits",
            22 => "the amount is above what stands",
            23 => "the image is no leaf: its length, level or checksum is wrong",
            24 => "the image's item headers or data are not packed",
            _ => "an unknown code",
        }
    }
}

impl fmt::Display for Error {
    fn fmt(&self, f: &mut fmt::Formatter<'_>) -> fmt::Result {
        write!(f, "refused {}: {}", self.number, self.sentence())
    }
}

impl std::error::Error for Error {}
