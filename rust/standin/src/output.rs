//! Standard output as a program of the repository writes it.
use std::fs::File;
use std::io::Write;
use std::os::fd::AsFd;

/// Writes the text, or says in one line on standard error that it could not be written. Rust's own
/// `stdout` passes over a descriptor that cannot be written to.
pub fn write(program: &str, fault: &str, text: &str) {
    let copy = std::io::stdout().as_fd().try_clone_to_owned().map(File::from);
    let written = copy.and_then(|mut output| output.write_all(text.as_bytes()));
    match (written, fault) {
        (Ok(()), _) | (Err(_), "says nothing") => {}
        (Err(_), "says something else") => eprintln!("{program}: error\n{text}"),
        (Err(_), _) => eprintln!("{program}: standard output could not be written"),
    }
}
