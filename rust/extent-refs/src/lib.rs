//! The proved reference books as a Rust crate.
//!
//! [`backref`], [`leaf_edit`], [`extent_write`] and [`transaction`] have the signatures of the
//! driver's own modules, so that a driver swaps a module and keeps its callers: it re-exports
//! [`chunk::DiskKey`] in place of its own key and gives its error type a
//! `From<extent_refs::error::Error>`. [`ledger`] posts a change to a balanced item list,
//! [`leaf_image`] reads and writes leaves as they stand on the card, [`crc32c`] runs a checksum over
//! words and bytes and writes a checksum's table. [`lent`] has every call in its plain form, which
//! allocates nothing.
//!
//! Every result comes from the archive; this crate turns lists into bytes and codes into errors.
pub mod backref;
#[rustfmt::skip]
pub mod by_name;
pub mod chunk;
pub mod crc32c;
pub mod error;
pub mod extent_write;
pub mod leaf_edit;
pub mod leaf_image;
pub mod ledger;
#[rustfmt::skip]
pub mod lent;
#[rustfmt::skip]
pub mod raw;
pub mod sheet;
pub mod transaction;
pub mod tree_write;

mod answer;

pub use missing::{LINKED, MISSING};

/// `MISSING`: the declared calls that the linked archive does not define. `LINKED`: whether there
/// is an archive.
mod missing {
    #[allow(unused_imports)]
    use super::not_there;
    include!(concat!(env!("OUT_DIR"), "/missing.rs"));
}

#[allow(dead_code)]
fn not_there(call: &str) -> ! {
    eprintln!("{call} is not in the linked archive: run 'rt lib' in crates/extent_refs");
    std::process::abort()
}
