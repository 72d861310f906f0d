//! A program of the repository, run: where it lies, what it says, and how its cases went.
use std::path::PathBuf;
use std::process::{Command, ExitCode};

/// A name, and what was wrong.
pub type Case = (String, Result<(), String>);

pub struct Program {
    pub path: PathBuf,
    pub passed: usize,
    pub failed: usize,
}

impl Program {
    pub fn at(path: PathBuf) -> Self {
        Program { path, passed: 0, failed: 0 }
    }

    /// crates/NAME/out/NAME in the repository, or what EXTENT_REFS_NAME names. One that is not there is
    /// a failed run.
    pub fn find(name: &str) -> Result<Self, ExitCode> {
        let variable = format!("EXTENT_REFS_{}", name.to_uppercase());
        let path = std::env::var(variable).map(PathBuf::from).unwrap_or_else(|_| {
            PathBuf::from(env!("CARGO_MANIFEST_DIR"))
                .join(format!("../../crates/{name}/out/{name}"))
        });
        if path.is_file() {
            return Ok(Program::at(path));
        }
        println!("FAIL crates/{name}/out/{name} is not there: `rt run` in crates/{name} makes it");
        println!("0 passed, 1 failed");
        Err(ExitCode::FAILURE)
    }

    pub fn count(&mut self, name: &str, said: Result<(), String>) {
        match said {
            Ok(()) => self.passed += 1,
            Err(fault) => {
                println!("FAIL {name}: {fault}");
                self.failed += 1;
            }
        }
    }

    /// Counts as one; none is a fault.
    pub fn count_all(&mut self, name: &str, cases: Vec<Case>) {
        let said = match &cases[..] {
            [] => Err("nothing was compared".into()),
            _ => cases.into_iter().try_for_each(|(name, said)| said.map_err(|f| name + ": " + &f)),
        };
        self.count(name, said);
    }

    /// The last line; a run in which nothing passed has shown nothing.
    pub fn sum(&mut self) -> ExitCode {
        if self.passed + self.failed == 0 {
            self.count("the program", Err("nothing was compared".into()));
        }
        println!("{} passed, {} failed", self.passed, self.failed);
        if self.failed == 0 {
            ExitCode::SUCCESS
        } else {
            ExitCode::FAILURE
        }
    }
}

/// That a run has these texts on standard output and standard error, and ends as a program that
/// returns nothing does: with status 0, whatever it said.
pub fn says(run: &mut Command, printed: &str, errors: &str) -> Result<(), String> {
    let run = run.output().map_err(|fault| fault.to_string())?;
    if !run.status.success() {
        return Err(format!("it ends with {}", run.status));
    }
    prints(&String::from_utf8_lossy(&run.stdout), printed)?;
    prints(&String::from_utf8_lossy(&run.stderr), errors).map_err(|f| f + " on standard error")
}

/// That a text is the expected one; else the first line in which they differ.
pub fn prints(printed: &str, expected: &str) -> Result<(), String> {
    if printed == expected {
        return Ok(());
    }
    let (mut a, mut b) = (printed.split_inclusive('\n'), expected.split_inclusive('\n'));
    loop {
        let (a, b) = (a.next(), b.next());
        if a != b {
            let (a, b) = (a.unwrap_or(""), b.unwrap_or(""));
            return Err(format!("it prints {a:?}, and {b:?} is expected"));
        }
    }
}
