//! Compiles the original's text where it lies: the folder that EXTENT_REFS_ORIGINAL names, or
//! ../shared/docs/src beside the repository. Nothing of it is copied into the repository.
//!
//! `backref`, `leaf_edit` and `extent_write` are taken whole, by `#[path]`. Of `btree`, for its leaf
//! reader, and of `transaction` the named items are cut out, unchanged, into OUT_DIR.
//! Where the folder is missing the crate is empty, and says so.
use std::path::{Path, PathBuf};
use std::{env, fs};

const WHOLE: [&str; 3] = ["backref", "leaf_edit", "extent_write"];

const OF_BTREE: [&str; 8] = [
    "const HEADER_SIZE",
    "const LEAF_DATA_OFFSET",
    "const ITEM_SIZE",
    "struct Item",
    "impl Item",
    "fn compare_keys",
    "fn bad_block",
    "fn parse_leaf_items",
];

const OF_TRANSACTION: [&str; 18] = [
    "struct Rewrite",
    "struct KeyedAdd",
    "struct KeyedItem",
    "struct SharedDrop",
    "impl SharedDrop",
    "struct SharedAdd",
    "impl SharedAdd",
    "fn max_inline_extent_item",
    "fn apply_shared_drop",
    "fn apply_keyed_add",
    "fn record_of",
    "fn apply_shared_add",
    "fn drop_kept_tree_ref",
    "fn keyed_data_ref_names",
    "mod extent_body",
    "const EXTENT_DATA_REF",
    "fn data_extent_body",
    "fn held_only_by",
];

const USES_OF_BTREE: [&str; 4] = [
    "use std::cmp::Ordering;",
    "use std::fmt;",
    "use crate::chunk::{DiskKey, DISK_KEY_SIZE};",
    "use crate::error::{Error, Result};",
];

const USES_OF_TRANSACTION: [&str; 3] = [
    "use crate::error::{Error, Result};",
    "use std::collections::{BTreeMap, BTreeSet};",
    "use crate::chunk::{key_type, DiskKey};",
];

fn main() {
    let here = PathBuf::from(env::var("CARGO_MANIFEST_DIR").unwrap());
    let out = PathBuf::from(env::var("OUT_DIR").unwrap());
    let folder = env::var("EXTENT_REFS_ORIGINAL")
        .map(PathBuf::from)
        .unwrap_or_else(|_| here.join("../../../shared/docs/src"));
    println!("cargo:rustc-check-cfg=cfg(original_here)");
    println!("cargo:rerun-if-env-changed=EXTENT_REFS_ORIGINAL");
    println!("cargo:rerun-if-changed=build.rs");
    println!("cargo:rerun-if-changed=src/public.rs");
    println!("cargo:rerun-if-changed=src/public_btree.rs");
    for name in WHOLE.iter().chain(&["btree", "transaction"]) {
        println!("cargo:rerun-if-changed={}", folder.join(format!("{name}.rs")).display());
    }
    if !folder.join("backref.rs").is_file() {
        println!("cargo:warning=the original's folder is missing: set EXTENT_REFS_ORIGINAL");
        println!("cargo:here=0");
        return;
    }
    let folder = folder.canonicalize().unwrap();

    let mut modules = String::new();
    for name in WHOLE {
        let path = folder.join(format!("{name}.rs"));
        modules += &format!("#[path = {path:?}]\npub mod {name};\n");
    }
    fs::write(out.join("modules.rs"), modules).unwrap();

    // The original names these two among others in one statement over several lines.
    let btree = "use crate::superblock::{le32, le64};\n".to_string()
        + &sliced(&folder, "btree", &USES_OF_BTREE, &OF_BTREE)
        + &public(&here, "public_btree.rs");
    fs::write(out.join("btree.rs"), btree).unwrap();
    let transaction = sliced(&folder, "transaction", &USES_OF_TRANSACTION, &OF_TRANSACTION)
        + &public(&here, "public.rs");
    fs::write(out.join("transaction.rs"), transaction).unwrap();

    println!("cargo:rustc-cfg=original_here");
    println!("cargo:here=1");
}

/// A child module, which sees its parent's private items.
fn public(here: &Path, file: &str) -> String {
    format!("#[path = {:?}]\npub mod public;\n", here.join("src").join(file))
}

/// The lines of `file` that bring names in, then its items.
fn sliced(folder: &Path, file: &str, uses: &[&str], heads: &[&str]) -> String {
    let text = fs::read_to_string(folder.join(format!("{file}.rs"))).unwrap();
    let mut slice = String::new();
    for line in uses {
        assert!(text.lines().any(|l| l == *line), "{file}.rs has no line {line:?}");
        slice += &format!("{line}\n");
    }
    slice + &cut(folder, file, heads)
}

/// The items of `file` whose first lines begin with `heads`, each with the attributes and
/// comments above it, to the first line that is only a closing brace.
fn cut(folder: &Path, file: &str, heads: &[&str]) -> String {
    let text = fs::read_to_string(folder.join(format!("{file}.rs"))).unwrap();
    let lines: Vec<&str> = text.lines().collect();
    let mut items = String::new();
    for head in heads {
        let begins = |line: &str| {
            let line =
                line.strip_prefix("pub(crate) ").or(line.strip_prefix("pub ")).unwrap_or(line);
            line.strip_prefix(head)
                .is_some_and(|rest| !rest.starts_with(|c: char| c.is_alphanumeric() || c == '_'))
        };
        let hits: Vec<usize> = (0..lines.len()).filter(|&i| begins(lines[i])).collect();
        let [at] = hits[..] else { panic!("{file}.rs: {} items begin with {head:?}", hits.len()) };
        let above = lines[..at]
            .iter()
            .rev()
            .take_while(|l| l.starts_with("///") || l.starts_with("#["))
            .count();
        let end = if lines[at].trim_end().ends_with(';') {
            at
        } else {
            (at..lines.len()).find(|&i| lines[i] == "}").expect("an item that ends")
        };
        items += &lines[at - above..=end].join("\n");
        items += "\n\n";
    }
    items
}
