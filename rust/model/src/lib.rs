//! A plain model of every call, written from documents 01 and 02. It is slow and clear on purpose:
//! it reads everything into numbers, edits the numbers and writes them out again. It gives the
//! refusal numbers, which the original lacks, and is held to the original where both answer.
pub mod apply;
pub mod asked;
pub mod body;
pub mod calls;
pub mod hash;
pub mod leaf;
pub mod ledger;
pub mod lister;
pub mod sheet;
#[rustfmt::skip]
pub mod table;

#[cfg(test)]
mod marked;
