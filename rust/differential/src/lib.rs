//! Compares the archive, the original and the model, call by call.
//!
//! `generate` makes the inputs, `archive` runs the linked call on guarded memory, `verdict`
//! says what the original answers, `recorded` replays its answers where it is not here, and
//! `compare` holds them together. A new call of the table needs a line in `model::calls` and one
//! in `original`, or its name in `verdict` where the original has none; the inputs follow from the
//! names of its parameters.
pub mod archive;
pub mod compare;
pub mod dump_tree;
pub mod generate;
pub mod images;
pub mod leaf_draw;
#[cfg(original_here)]
mod original;
pub mod program;
pub mod random;
pub mod read_errors;
pub mod recorded;
pub mod runs;
pub mod show;
pub mod spent;
pub mod tables;
pub mod verdict;
pub mod words;
pub mod write_errors;

mod bodies;
mod collide;
mod differences;
mod guarded;
mod image_cases;
mod ledger_history;
mod part_cases;
mod parts;
mod questions;
mod sheets;
mod swap;
#[cfg(original_here)]
mod swap_private;

pub use differences::differences;
pub use images::images;
pub use ledger_history::histories;
pub use parts::parts;
pub use runs::runs;
pub use swap::swapped;
pub use tables::tables;
pub use words::words;
