//! Extent-tree leaves written by Linux, each with the text that dump-tree prints for it. The archive
//! reads the images.
use crate::archive::has;
use crate::images::READ;
use extent_refs::leaf_image::read_sheet;
use model::sheet::Item;
use std::path::{Path, PathBuf};

pub const LEFT_OUT: &str =
    "left out: the folder of real leaves is missing (EXTENT_REFS_LEAVES), so none was read";

/// The leaves in ../shared/leaves beside the repository, or where EXTENT_REFS_LEAVES says; `None`
/// where there is no such folder.
pub fn leaves() -> Option<Vec<PathBuf>> {
    let folder = std::env::var("EXTENT_REFS_LEAVES").map(PathBuf::from).unwrap_or_else(|_| {
        PathBuf::from(env!("CARGO_MANIFEST_DIR")).join("../../../shared/leaves")
    });
    let entries = std::fs::read_dir(folder).ok()?;
    let mut paths: Vec<PathBuf> = entries.filter_map(|e| Some(e.ok()?.path())).collect();
    paths.retain(|p| p.extension().is_some_and(|e| e == "leaf"));
    paths.sort();
    Some(paths)
}

/// A leaf's image, its items, and for each of them its part of the text.
pub struct Leaf {
    pub image: Vec<u8>,
    pub items: Vec<Item>,
    pub texts: Vec<String>,
    pub nodesize: u64,
}

impl Leaf {
    pub fn read(path: &Path) -> Result<Leaf, String> {
        let image = std::fs::read(path).map_err(|e| e.to_string())?;
        let text =
            std::fs::read_to_string(path.with_extension("txt")).map_err(|e| e.to_string())?;
        let items = items(&image)?;
        let texts: Vec<String> = text.split("\titem ").skip(1).map(str::to_string).collect();
        if texts.len() != items.len() {
            return Err(format!("{} items, and {} in the text", items.len(), texts.len()));
        }
        Ok(Leaf { nodesize: image.len() as u64, image, items, texts })
    }
}

/// The items of the sheet that the archive reads from an image, which is as long as its nodesize;
/// the tests' own reader finds the same.
fn items(image: &[u8]) -> Result<Vec<Item>, String> {
    if !has(READ) {
        return Err(format!("{READ} is not in the archive"));
    }
    let nodesize = u32::try_from(image.len()).map_err(|e| e.to_string())?;
    let sheet = read_sheet(nodesize, image).map_err(|error| error.to_string())?;
    let items = model::sheet::read(&sheet).map_err(|stop| format!("its sheet: {stop:?}"))?;
    match model::leaf::packed(image) {
        Some(own) if own == items => Ok(items),
        _ => Err("the archive reads other items than the tests' own reader".into()),
    }
}

/// The lines of an item's part that speak of references, with the trees' names as numbers.
pub fn lines(part: &str) -> Vec<String> {
    let told = part.lines().skip(1).map(str::trim).filter(|l| {
        !l.starts_with("block group")
            && !l.starts_with("tree block")
            && !l.starts_with("total bytes")
            && !l.starts_with("bytes used")
            && !l.contains("uuid")
            && !l.is_empty()
    });
    told.map(numbered).collect()
}

/// A line of the text with the trees' names as numbers.
fn numbered(line: &str) -> String {
    const TREES: [(&str, u64); 10] = [
        ("ROOT_TREE", 1),
        ("EXTENT_TREE", 2),
        ("CHUNK_TREE", 3),
        ("DEV_TREE", 4),
        ("FS_TREE", 5),
        ("CSUM_TREE", 7),
        ("QUOTA_TREE", 8),
        ("UUID_TREE", 9),
        ("FREE_SPACE_TREE", 10),
        ("DATA_RELOC_TREE", 9u64.wrapping_neg()),
    ];
    let words = line.split(' ').map(|word| {
        TREES
            .iter()
            .find(|(name, _)| *name == word)
            .map_or(word.to_string(), |(_, n)| n.to_string())
    });
    words.collect::<Vec<_>>().join(" ")
}
