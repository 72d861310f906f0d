//! The program crc_table, run: its text is that of `tables`, byte for byte, whatever its standard
//! input is, which it leaves alone; where its output cannot be written, it says so. The last line is
//! 'N passed, M failed'.
//!
//! The program is crates/crc_table/out/crc_table in the repository, which `rt run` there makes, or what
//! EXTENT_REFS_CRC_TABLE names.
use differential::program::{says, Program};
use differential::read_errors::{input, pair};
use differential::tables;
use differential::write_errors::write_errors;
use model::hash::CRC32C;
use std::fs::File;
use std::io::Read;
use std::os::fd::OwnedFd;
use std::path::Path;
use std::process::{Command, ExitCode, Stdio};

fn main() -> ExitCode {
    let mut program = match Program::find("crc_table") {
        Ok(program) => program,
        Err(missing) => return missing,
    };
    run(&mut program);
    program.sum()
}

fn run(program: &mut Program) {
    let path = program.path.clone();
    let text = String::from_utf8(tables::text(CRC32C)).expect("digits and line feeds");
    let printed = |stdin: std::io::Result<Stdio>| match stdin {
        Ok(stdin) => says(Command::new(&path).stdin(stdin), &text, ""),
        Err(fault) => Err(fault.to_string()),
    };
    program.count("no input", printed(Ok(Stdio::null())));
    program.count("an input that fails", printed(input(b"", true)));
    program.count("a directory as input", printed(File::open("/").map(Stdio::from)));
    // A shell closes it.
    let mut closed = Command::new("sh");
    closed.args(["-c", "exec \"$0\" <&-"]).arg(&path);
    program.count("a closed input", says(&mut closed, &text, ""));
    let left = left_alone(&path, &text).unwrap_or_else(|fault| Err(fault.to_string()));
    program.count("an input with text in it", left);
    let unwritten = write_errors(&path, "crc_table", b"");
    program.count_all("outputs that cannot be written", unwritten);
}

/// That a text in its input is all there when it has ended.
fn left_alone(path: &Path, text: &str) -> std::io::Result<Result<(), String>> {
    let given = b"edb88320 7\n";
    let mut reader = pair(given, false)?;
    let stdin = OwnedFd::from(reader.try_clone()?);
    let said = says(Command::new(path).stdin(stdin), text, "");
    let mut left = Vec::new();
    reader.read_to_end(&mut left)?;
    let taken = given.len() - left.len();
    Ok(said.and(if taken == 0 { Ok(()) } else { Err(format!("it takes {taken} bytes")) }))
}

#[test]
fn a_program_that_is_not_there_fails() {
    let mut program = Program::at("/nowhere/crc_table".into());
    run(&mut program);
    assert_eq!((program.passed, program.failed), (0, 6));
    assert_eq!(Program::at("/nowhere".into()).sum(), ExitCode::FAILURE);
}
