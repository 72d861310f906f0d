//! Outputs that a program cannot write to: a device that is full, and one that is open for reading
//! alone. It says so in one line on standard error, and nothing else.
use crate::program::{says, Case};
use crate::read_errors::input;
use std::fs::File;
use std::io::{Result, Write};
use std::path::Path;
use std::process::Command;

fn full() -> Result<File> {
    File::options().write(true).open("/dev/full")
}

fn for_reading() -> Result<File> {
    File::open("/dev/null")
}

/// Runs the program, by its own name in that line, on an input to which it would print something.
pub fn write_errors(program: &Path, name: &str, bytes: &[u8]) -> Vec<Case> {
    let line = format!("{name}: standard output could not be written\n");
    let says_so = |output: fn() -> Result<File>| {
        let (stdin, stdout) = (input(bytes, false)?, output()?);
        Ok(says(Command::new(program).stdin(stdin).stdout(stdout), "", &line))
    };
    let mut cases = Vec::new();
    let outputs = [("a full device", full as fn() -> _), ("one for reading alone", for_reading)];
    for (what, output) in outputs {
        cases.push((format!("{what}, by itself"), fails(output)));
        let said = says_so(output).unwrap_or_else(|fault: std::io::Error| Err(fault.to_string()));
        cases.push((what.to_string(), said));
    }
    cases
}

/// That such an output takes nothing, so that the cases say something.
fn fails(output: fn() -> Result<File>) -> std::result::Result<(), String> {
    let mut output = output().map_err(|fault| fault.to_string())?;
    match output.write_all(b"1") {
        Err(_) => Ok(()),
        Ok(()) => Err("it can be written to".into()),
    }
}
