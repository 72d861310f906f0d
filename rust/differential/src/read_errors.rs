//! Inputs that a program cannot read to their end: no bytes, or some, and then an error.
//!
//! One end of a pair of sockets is the program's input. The other end is sent a byte that it does
//! not read, and is closed: then the program's reads give what was sent to it, and after that
//! `ECONNRESET`. A directory fails at the first read.
use crate::program::{says, Case};
use std::fs::File;
use std::io::{ErrorKind, Read, Result, Write};
use std::os::fd::OwnedFd;
use std::os::unix::net::UnixStream;
use std::path::Path;
use std::process::{Command, Stdio};

/// Runs the lister on E with a second reference behind it, whose reading fails after so many
/// bytes; on zeros; on a directory; and on the same descriptors where nothing fails.
pub fn read_errors(lister: &Path) -> Vec<Case> {
    let whole = two_references();
    let zeros = vec![0; 65_537];
    let mut cases = vec![("a descriptor that fails".to_string(), fails(&whole[..54]))];
    // The text on standard output and nothing else; or, without one, one line on standard error.
    let mut case = |name: String, stdin: Result<Stdio>, text: Option<&str>| {
        let errors = text.map_or("lister: standard input could not be read\n", |_| "");
        let said = |stdin| says(Command::new(lister).stdin(stdin), text.unwrap_or(""), errors);
        cases.push((name, stdin.map_err(|f| f.to_string()).and_then(said)));
    };
    for n in 0..=whole.len() {
        case(format!("a read error after {n} of 83 bytes"), input(&whole[..n], true), None);
    }
    for n in [4_095, 4_096, 4_097, 65_535, 65_536] {
        case(format!("a read error after {n} zeros"), input(&zeros[..n], true), None);
    }
    let folder = File::open("/").map(Stdio::from);
    case("a directory".to_string(), folder, None);
    case("no read error".to_string(), input(&whole, false), Some(TEXT));
    // Longer than any body: the text is decided, and no further read is made.
    case("an error behind 65,537 bytes".to_string(), input(&zeros, true), Some("refused 3\n"));
    cases
}

const TEXT: &str = "24 1 1 2\n178 5 257 0 1\n178 5 256 0 1\n";

/// Document 01's E, and a second data reference: 83 bytes with the type.
fn two_references() -> Vec<u8> {
    let mut bytes = vec![168];
    for field in [1u64, 7, 1] {
        bytes.extend(field.to_le_bytes());
    }
    for inode in [257u64, 256] {
        bytes.push(178);
        for field in [5, inode, 0] {
            bytes.extend(field.to_le_bytes());
        }
        bytes.extend(1u32.to_le_bytes());
    }
    bytes
}

/// The end from which these bytes are read, and then an error or the end.
pub fn pair(bytes: &[u8], failing: bool) -> Result<UnixStream> {
    let (mut writer, mut reader) = UnixStream::pair()?;
    writer.write_all(bytes)?;
    if failing {
        reader.write_all(&[0])?;
    }
    Ok(reader)
}

pub fn input(bytes: &[u8], failing: bool) -> Result<Stdio> {
    Ok(Stdio::from(OwnedFd::from(pair(bytes, failing)?)))
}

/// That such a descriptor gives its bytes and then an error, so that the cases say something.
fn fails(bytes: &[u8]) -> std::result::Result<(), String> {
    let mut read = Vec::new();
    let end = pair(bytes, true).and_then(|mut reader| reader.read_to_end(&mut read));
    match end {
        Err(fault) if fault.kind() == ErrorKind::ConnectionReset && read == bytes => Ok(()),
        other => Err(format!("it gives {} bytes and then {other:?}", read.len())),
    }
}
