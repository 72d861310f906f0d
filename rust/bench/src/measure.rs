//! Processor time, best of many batches, the sides by turns. The whole table is made several
//! times over: a figure is the middle one of the passes, and the ratios' least and greatest stand beside.
use differential::spent::Spent;
use model::calls::returns_value;
use std::hint::black_box;

pub const PASSES: usize = 7;
const BATCHES: usize = 10;
const BATCH_NANOSECONDS: u64 = 1_000_000;

/// One side of a row: it is run so many times, and gives the nanoseconds of one.
pub type Side<'a> = &'a mut dyn FnMut(usize) -> f64;

/// What is asked for: times of the calls whose name holds a word; or so many runs of one side of one
/// row, for a profiler.
pub enum Asked {
    Times(Option<String>),
    Runs { side: String, call: String, size: String, rounds: usize },
}

impl Asked {
    pub fn times_of(&self, call: &str) -> bool {
        match self {
            Asked::Times(word) => word.as_ref().is_none_or(|word| call.contains(word.as_str())),
            Asked::Runs { .. } => false,
        }
    }
}

/// One call at one size, with a time for each pass.
pub struct Row {
    pub call: String,
    pub size: String,
    pub original: Vec<f64>,
    /// The original with a copy of the list that it takes by value.
    pub copied: Vec<f64>,
    pub archive: Vec<f64>,
}

pub struct Bench {
    asked: Asked,
    pub rows: Vec<Row>,
    out: Vec<u8>,
}

/// The middle one.
pub fn middle(times: &[f64]) -> Option<f64> {
    let mut times = times.to_vec();
    times.sort_by(f64::total_cmp);
    times.get(times.len() / 2).copied()
}

/// The middle ratio of the passes, and the least and the greatest.
pub fn ratios(over: &[f64], under: &[f64]) -> String {
    let each: Vec<f64> = over.iter().zip(under).map(|(a, b)| a / b).collect();
    let Some(ratio) = middle(&each) else { return String::new() };
    let least = each.iter().copied().fold(f64::MAX, f64::min);
    let most = each.iter().copied().fold(0.0, f64::max);
    format!("{ratio:.2} ({least:.2} to {most:.2})")
}

pub fn shown(times: &[f64]) -> String {
    middle(times).map_or(String::new(), |ns| format!("{ns:.1}"))
}

impl Bench {
    pub fn new(asked: Asked) -> Self {
        Bench { asked, rows: Vec::new(), out: vec![0; 262_144] }
    }

    pub fn asks(&self, call: &str) -> bool {
        self.asked.times_of(call)
    }

    /// Whether a profiler asks for runs of one row.
    pub fn profiles(&self) -> bool {
        matches!(self.asked, Asked::Runs { .. })
    }

    /// `archive` is given an output and a number; it is not run where the archive has no such call.
    pub fn row<T>(
        &mut self,
        call: &str,
        size: &str,
        mut original: impl FnMut() -> T,
        archive: impl FnMut(&mut [u8], &mut u64) -> u64,
    ) {
        let mut original = || {
            black_box(original());
        };
        self.measured(call, size, &mut |rounds| batch(&mut original, rounds), archive, None);
    }

    /// The same for a call of the original that takes a list by value. Its lists are made before the clock
    /// starts; beside that stands the time with the copy that a caller makes who keeps the list.
    pub fn row_by_value<I: Clone, T>(
        &mut self,
        call: &str,
        size: &str,
        items: &[I],
        original: impl Fn(Vec<I>) -> T,
        archive: impl FnMut(&mut [u8], &mut u64) -> u64,
    ) {
        let mut ready: Vec<Vec<I>> = Vec::new();
        let mut alone = |rounds: usize| {
            ready.extend((0..rounds).map(|_| items.to_vec()));
            let begun = Spent::begin();
            for items in ready.drain(..) {
                black_box(original(items));
            }
            begun.elapsed().as_nanos() as f64 / rounds as f64
        };
        let mut copied = || {
            black_box(original(items.to_vec()));
        };
        self.measured(
            call,
            size,
            &mut alone,
            archive,
            Some(&mut |rounds| batch(&mut copied, rounds)),
        );
    }

    fn measured(
        &mut self,
        call: &str,
        size: &str,
        original: Side,
        mut archive: impl FnMut(&mut [u8], &mut u64) -> u64,
        copied: Option<Side>,
    ) {
        let mut len = 0;
        // Hidden from the compiler once and not in each round: a slice that goes through memory as two
        // words and comes back as one costs about five nanoseconds.
        let out = black_box(&mut self.out[..]);
        let there = !extent_refs::MISSING.contains(&call);
        if let Asked::Runs { side, call: only, size: of, rounds } = &self.asked {
            if call == only && size == of {
                if side == "original" {
                    original(*rounds);
                } else {
                    let mut second = || {
                        black_box(archive(out, &mut len));
                    };
                    batch(&mut second, *rounds);
                }
            }
            return;
        }
        if !self.asked.times_of(call) {
            return;
        }
        if there && !returns_value(call) {
            let code = archive(out, &mut len);
            assert_eq!(code, 0, "{call}, {size}: only accepted calls are measured");
        }
        let mut second = || {
            black_box(archive(&mut *out, &mut len));
        };
        let mut second = |rounds: usize| batch(&mut second, rounds);
        let ours = there.then_some(&mut second as Side);
        let best = by_turns([Some(original as Side), copied.map(|side| side as Side), ours]);
        self.keep(call, size, best);
    }

    /// Something beside the calls, to hold them against.
    pub fn beside(&mut self, name: &str, size: &str, mut call: impl FnMut(&mut [u8])) {
        if !self.asked.times_of(name) {
            return;
        }
        let out = &mut self.out[..];
        let mut call = || call(black_box(&mut *out));
        let mut call = |rounds: usize| batch(&mut call, rounds);
        let rounds = calibrated(&mut call);
        let best = (0..BATCHES).map(|_| call(rounds)).fold(f64::MAX, f64::min);
        self.keep(name, size, [Some(best), None, None]);
    }

    /// One more pass.
    fn keep(&mut self, call: &str, size: &str, [original, copied, archive]: [Option<f64>; 3]) {
        let there = self.rows.iter().position(|row| row.call == call && row.size == size);
        let at = there.unwrap_or(self.rows.len());
        if there.is_none() {
            let (call, size) = (call.into(), size.into());
            self.rows.push(Row { call, size, original: vec![], copied: vec![], archive: vec![] });
        }
        self.rows[at].original.extend(original);
        self.rows[at].copied.extend(copied);
        self.rows[at].archive.extend(archive);
    }

    /// A call of the archive alone, in nanoseconds, or nothing where it is not asked for.
    pub fn alone(
        &mut self,
        call: &str,
        mut archive: impl FnMut(&mut [u8], &mut u64) -> u64,
    ) -> Option<f64> {
        if !self.asked.times_of(call) || extent_refs::MISSING.contains(&call) {
            return None;
        }
        let mut len = 0;
        let out = black_box(&mut self.out[..]);
        let mut call = || {
            black_box(archive(&mut *out, &mut len));
        };
        let mut call = |rounds: usize| batch(&mut call, rounds);
        let rounds = calibrated(&mut call);
        Some((0..PASSES * BATCHES).map(|_| call(rounds)).fold(f64::MAX, f64::min))
    }

    pub fn print(&self) {
        if self.rows.is_empty() {
            return;
        }
        println!("| call | size | original, ns | with a copy of its list | archive, ns | original / archive | with the copy |");
        println!("|---|---|---|---|---|---|---|");
        for Row { call, size, original, copied, archive } in &self.rows {
            let times = [original, copied, archive].map(|times| shown(times)).join(" | ");
            let ratios = [original, copied].map(|times| ratios(times, archive)).join(" | ");
            println!("| `{call}` | {size} | {times} | {ratios} |");
        }
    }
}

/// The best time of each side that is there.
pub fn by_turns<const N: usize>(mut sides: [Option<Side>; N]) -> [Option<f64>; N] {
    let rounds = sides.each_mut().map(|side| side.as_mut().map_or(0, |side| calibrated(*side)));
    let mut best = [None; N];
    for _ in 0..BATCHES {
        for (at, side) in sides.iter_mut().enumerate() {
            if let Some(side) = side {
                let ns = side(rounds[at]);
                best[at] = Some(best[at].map_or(ns, |least: f64| least.min(ns)));
            }
        }
    }
    best
}

fn batch(call: &mut impl FnMut(), rounds: usize) -> f64 {
    let begun = Spent::begin();
    for _ in 0..rounds {
        call();
    }
    begun.elapsed().as_nanos() as f64 / rounds as f64
}

/// As many rounds as fill a batch.
fn calibrated(call: &mut (impl FnMut(usize) -> f64 + ?Sized)) -> usize {
    let mut rounds = 1;
    while call(rounds) * (rounds as f64) < BATCH_NANOSECONDS as f64 {
        rounds *= 2;
    }
    rounds
}
