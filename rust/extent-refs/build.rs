//! Links crates/extent_refs/out/libextent_refs.a of the repository, or the one in the folder that
//! EXTENT_REFS_ARCHIVE names. A declared call that the archive does not define gets a stand-in
//! that ends the program, so that model and original can be compared while a call is still being
//! written, and no made-up answer is ever taken for one. The differential run fails there.
use std::collections::BTreeSet;
use std::path::PathBuf;
use std::{env, fs};

fn main() {
    let here = PathBuf::from(env::var("CARGO_MANIFEST_DIR").unwrap());
    let folder = env::var("EXTENT_REFS_ARCHIVE")
        .map(PathBuf::from)
        .unwrap_or_else(|_| here.join("../../crates/extent_refs/out"));
    let archive = folder.join("libextent_refs.a");
    println!("cargo:rerun-if-env-changed=EXTENT_REFS_ARCHIVE");
    println!("cargo:rerun-if-changed=build.rs");
    println!("cargo:rerun-if-changed=src/raw.rs");
    println!("cargo:rerun-if-changed={}", archive.display());

    let defined = fs::read(&archive).map(|bytes| symbols(&bytes)).unwrap_or_default();
    if defined.is_empty() {
        println!("cargo:warning=libextent_refs.a is not there: run 'rt lib' in crates/extent_refs");
    } else {
        println!("cargo:rustc-link-search=native={}", folder.canonicalize().unwrap().display());
        println!("cargo:rustc-link-lib=static=extent_refs");
    }

    let raw = fs::read_to_string(here.join("src/raw.rs")).unwrap();
    let declared = raw.lines().filter_map(|line| line.trim().strip_prefix("pub fn "));
    let missing: Vec<&str> = declared
        .filter_map(|rest| rest.split('(').next())
        .filter(|name| !defined.contains(*name))
        .collect();
    let mut text = format!("pub const MISSING: &[&str] = &{missing:?};\n");
    text += &format!("pub const LINKED: bool = {};\n", !defined.is_empty());
    for name in &missing {
        text += &format!(
            "#[no_mangle]\nextern \"C\" fn {name}() -> u64 {{\n    not_there({name:?})\n}}\n"
        );
    }
    fs::write(PathBuf::from(env::var("OUT_DIR").unwrap()).join("missing.rs"), text).unwrap();
}

/// The names in an archive's index, its first member: a big-endian count, that many positions,
/// then the names, each ended by a zero byte.
fn symbols(archive: &[u8]) -> BTreeSet<String> {
    let Some(member) = archive.strip_prefix(b"!<arch>\n") else {
        return BTreeSet::new();
    };
    let width = match member.get(..8) {
        Some(b"/       ") => 4,
        Some(b"/SYM64/ ") => 8,
        _ => return BTreeSet::new(),
    };
    let size: usize = String::from_utf8_lossy(&member[48..58]).trim().parse().unwrap_or(0);
    let index = &member[60..60 + size];
    let count = index[..width].iter().fold(0usize, |n, &b| n * 256 + usize::from(b));
    index[width * (count + 1)..]
        .split(|&b| b == 0)
        .take(count)
        .map(|name| String::from_utf8_lossy(name).into_owned())
        .collect()
}
