//! A public function over the private one of the original's btree.rs: a call only, no logic.
use super::*;

/// `logical` stands in the texts of its errors alone.
pub fn parse_leaf_items(image: &[u8], nritems: usize, nodesize: usize) -> Result<Vec<Item>> {
    super::parse_leaf_items(image, 0, nritems, nodesize)
}
