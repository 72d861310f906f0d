//! The differential run. The last line is 'N passed, M failed'; what was left out stands before it.
//!
//!     differential               every call; DIFFERENTIAL_SECONDS (100) of processor time
//!     differential --only CALL   one call; or `tables`, `words`, `runs` or `images`
//!     differential --replay      the original's recorded answers alone
//!     differential --record      writes recorded/answers.txt from the original
//!
//! Each call runs in a process of its own, and so do the images and the runs: a read past a lent slice
//! ends that process alone.
use differential::{compare, differences, generate, recorded, verdict};
use differential::{histories, images, parts, runs, swapped, tables, words};
use std::process::{Command, ExitCode, Output};
use std::sync::atomic::{AtomicUsize, Ordering};
use std::sync::Mutex;
use std::time::Duration;

fn main() -> ExitCode {
    let words: Vec<String> = std::env::args().skip(1).collect();
    let words: Vec<&str> = words.iter().map(String::as_str).collect();
    // The original's panics are counted, not printed.
    std::panic::set_hook(Box::new(|_| {}));
    let seconds =
        std::env::var("DIFFERENTIAL_SECONDS").ok().and_then(|s| s.parse().ok()).unwrap_or(100.0);
    match words[..] {
        [] => all(seconds),
        ["--only", call] => one(call, seconds),
        ["--replay"] => {
            let mut count = Count::default();
            count.lines(recorded::replay());
            count.sum()
        }
        ["--record"] => {
            std::fs::write(recorded::path(), recorded::made()).expect("a list that can be written");
            println!("{} is written", recorded::path().display());
            ExitCode::SUCCESS
        }
        _ => {
            println!("usage: differential [--only CALL | --replay | --record]");
            ExitCode::from(2)
        }
    }
}

fn one(call: &str, seconds: f64) -> ExitCode {
    let time = Duration::from_secs_f64(seconds);
    let lines = match generate::calls().find(|c| *c == call) {
        Some(call) => compare::call(call, time),
        None if call == "tables" => tables(),
        None if call == "words" => words(),
        None if call == "runs" => runs(),
        None if call == "images" => images(time),
        None => {
            println!("there is no call {call}");
            return ExitCode::from(2);
        }
    };
    for line in lines {
        println!("{line}");
    }
    ExitCode::SUCCESS
}

fn all(seconds: f64) -> ExitCode {
    let calls: Vec<&str> = generate::calls().collect();
    let mut count = Count::default();
    if !verdict::ORIGINAL_HERE {
        count.lines(["left out: the original's folder is missing (EXTENT_REFS_ORIGINAL), so its \
                      recorded answers took its place, on fewer cases, and nothing was swapped"
            .into()]);
    }
    count.lines(archive_faults(extent_refs::LINKED, extent_refs::MISSING));
    // The images get their part, which is ten seconds of the usual run; of the rest a share goes to
    // each call, and one each to the recorded answers, the histories, the parts and the swap. The
    // tables, the word steps and the runs are always as many. As many are compared at once as there
    // are processors, each in a process of its own.
    let of_images = seconds * 2.0 / 15.0;
    let share = (seconds - of_images) / (calls.len() + 4) as f64;
    let mut tasks = vec![("images", of_images), ("runs", 0.0)];
    tasks.extend(calls.iter().map(|&call| (call, share)));
    for ((call, _), run) in tasks.iter().zip(side_by_side(&tasks)) {
        let text = String::from_utf8_lossy(&run.stdout).into_owned();
        count.lines(text.lines().map(str::to_string));
        if !run.status.success() || text.is_empty() {
            count.lines([format!("FAIL {call}: the process ended with {}", run.status)]);
        }
    }
    count.lines(differences());
    count.lines(recorded::current());
    count.lines(recorded::replay());
    count.lines(histories(Duration::from_secs_f64(share)));
    count.lines(parts(Duration::from_secs_f64(share)));
    count.lines(tables());
    count.lines(words());
    count.lines(swapped(Duration::from_secs_f64(share)));
    count.sum()
}

/// What the process of each call or check printed, which has so many seconds, in their order.
fn side_by_side(tasks: &[(&str, f64)]) -> Vec<Output> {
    let workers = std::thread::available_parallelism().map_or(1, |n| n.get());
    let next = AtomicUsize::new(0);
    let done = Mutex::new(Vec::new());
    std::thread::scope(|scope| {
        for _ in 0..workers {
            scope.spawn(|| loop {
                let at = next.fetch_add(1, Ordering::Relaxed);
                let Some((call, seconds)) = tasks.get(at) else { return };
                let run = Command::new(std::env::current_exe().expect("this program"))
                    .args(["--only", call])
                    .env("DIFFERENTIAL_SECONDS", seconds.to_string())
                    .output()
                    .expect("this program runs");
                done.lock().expect("no worker stopped").push((at, run));
            });
        }
    });
    let mut done = done.into_inner().expect("no worker stopped");
    done.sort_by_key(|(at, _)| *at);
    done.into_iter().map(|(_, run)| run).collect()
}

/// Without an archive, or with one that lacks a call, something was not compared.
fn archive_faults(linked: bool, missing: &[&str]) -> Option<String> {
    if !linked {
        return Some("FAIL the archive is not there: run 'rt lib' in crates/extent_refs".into());
    }
    let first = missing.first()?;
    Some(format!("FAIL the archive lacks {} calls of the table, {first} first", missing.len()))
}

/// Lines as they come: `ok`, `FAIL`, or `left out`, which stands again before the sum.
#[derive(Default)]
struct Count {
    passed: usize,
    failed: usize,
    left_out: Vec<String>,
}

impl Count {
    fn lines(&mut self, lines: impl IntoIterator<Item = String>) {
        for line in lines {
            match line.split(' ').next() {
                Some("left") => {
                    self.left_out.push(line);
                    continue;
                }
                Some("ok") => self.passed += 1,
                Some("FAIL") => self.failed += 1,
                _ => {}
            }
            println!("{line}");
        }
    }

    /// A run in which nothing passed has shown nothing.
    fn sum(&mut self) -> ExitCode {
        if self.passed + self.failed == 0 {
            self.lines(["FAIL nothing was compared".into()]);
        }
        for line in &self.left_out {
            println!("{line}");
        }
        println!("{} passed, {} failed", self.passed, self.failed);
        if self.failed == 0 {
            ExitCode::SUCCESS
        } else {
            ExitCode::FAILURE
        }
    }
}

#[cfg(test)]
mod tests {
    use super::*;

    #[test]
    fn a_missing_archive_fails() {
        assert_eq!(archive_faults(true, &[]), None);
        assert!(archive_faults(true, &["ledger_post"]).is_some_and(|l| l.starts_with("FAIL")));
        assert!(archive_faults(false, &[]).is_some_and(|l| l.starts_with("FAIL")));
    }

    #[test]
    fn nothing_compared_fails() {
        let mut count = Count::default();
        assert_eq!(count.sum(), ExitCode::FAILURE);
        assert_eq!((count.passed, count.failed), (0, 1));
        let mut count = Count::default();
        count.lines(["ok   this".into(), "left out: that".into(), "FAIL other".into()]);
        assert_eq!((count.passed, count.failed, count.left_out.len()), (1, 1, 1));
    }
}
