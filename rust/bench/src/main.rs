//! Original against archive in one run on the same inputs: processor time, best of many.
//! Prints markdown tables for docs/PERFORMANCE.md.
//!
//!     cargo run --profile measured -p bench --features hardware [WORD]
//!
//! WORD keeps only the calls whose name holds it. A call is one `row`: its name, the size, what
//! the original does, what the archive does. The original allocates its result; the archive
//! writes into a lent buffer, which is not cleared between calls.
//!
//! `rust/profile` counts instructions instead; it runs one side of one row by
//!
//!     bench runs SIDE CALL SIZE ROUNDS
#[cfg(original_here)]
mod bodies;
#[cfg(original_here)]
mod growth;
#[cfg(all(original_here, target_arch = "x86_64"))]
mod hash;
#[cfg(original_here)]
mod held;
#[cfg(all(original_here, target_arch = "x86_64"))]
mod images;
#[cfg(original_here)]
mod lists;
mod measure;
#[cfg(all(original_here, target_arch = "x86_64"))]
mod plain;
#[cfg(original_here)]
mod postings;
#[cfg(original_here)]
mod worst;

use measure::{Asked, Bench};

/// What the words after the program's name ask for.
fn asked() -> Asked {
    let words: Vec<String> = std::env::args().skip(1).collect();
    match &words[..] {
        [runs, side, call, size, rounds] if runs == "runs" => Asked::Runs {
            side: side.clone(),
            call: call.clone(),
            size: size.clone(),
            rounds: rounds.parse().expect("a number of rounds"),
        },
        _ => Asked::Times(words.into_iter().next()),
    }
}

fn main() {
    let asked = asked();
    let passes = if matches!(asked, Asked::Times(_)) { measure::PASSES } else { 1 };
    let mut bench = Bench::new(asked);
    #[cfg(original_here)]
    for _ in 0..passes {
        bodies::rows(&mut bench);
        held::rows(&mut bench);
        lists::rows(&mut bench);
        postings::rows(&mut bench);
        #[cfg(target_arch = "x86_64")]
        images::rows(&mut bench);
    }
    if !original::HERE {
        println!(
            "the original's folder is missing (EXTENT_REFS_ORIGINAL): nothing to measure against"
        );
    }
    if !extent_refs::MISSING.is_empty() {
        println!(
            "{} calls are not in the archive: they show the original alone\n",
            extent_refs::MISSING.len()
        );
    }
    if passes > 1 {
        bench.print();
    }
    #[cfg(original_here)]
    {
        growth::table(&bench);
        worst::table(&mut bench);
    }
    #[cfg(all(original_here, target_arch = "x86_64"))]
    {
        hash::table(&bench);
        images::tables(&bench);
    }
}
