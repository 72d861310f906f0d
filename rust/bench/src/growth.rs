//! What an item costs in lists of 50, 200 and 2,000, and what a call costs beside a copy of its list.
use crate::measure::{middle, Bench};

const SIZES: [u64; 3] = [50, 200, 2_000];

/// The archive's time for a call on so many items, or of `memcpy`.
fn time(bench: &Bench, call: &str, items: u64) -> Option<f64> {
    let size = format!("{items} items");
    let row = bench.rows.iter().find(|row| row.call == call && row.size == size)?;
    middle(if call == "memcpy" { &row.original } else { &row.archive })
}

pub fn table(bench: &Bench) {
    let long = bench.rows.iter().filter(|row| row.size == "2000 items" && row.call != "memcpy");
    let calls: Vec<String> = long.map(|row| row.call.clone()).collect();
    if calls.is_empty() {
        return;
    }
    println!(
        "\n| call | ns an item: 50 items | 200 | 2,000 | times `memcpy`: 50 items | 200 | 2,000 |"
    );
    println!("|---|---|---|---|---|---|---|");
    for call in calls {
        let each = SIZES.map(|n| time(bench, &call, n).map(|ns| format!("{:.2}", ns / n as f64)));
        let beside = SIZES.map(|n| {
            let (ns, copy) = time(bench, &call, n).zip(time(bench, "memcpy", n))?;
            Some(format!("{:.1}", ns / copy))
        });
        let cells: Vec<String> =
            each.into_iter().chain(beside).map(Option::unwrap_or_default).collect();
        println!("| `{call}` | {} |", cells.join(" | "));
    }
}
