//! Leaves as they stand on the card, read into item lists and written from them.
//!
//! The reader drops bytes 4 to 95 and the gap between headers and data, whatever they hold. The
//! writer takes bytes 32 to 95 from a header that its caller has; so an image that was read is
//! written back with its own first [`HEADER_BYTES`] bytes.
use crate::answer::written;
use crate::error::Result;
use crate::leaf_edit::OwnedItem;
use crate::lent;
use crate::sheet::{from_items, to_items};

/// The length of the header that [`write`] takes, and that an image begins with.
pub const HEADER_BYTES: usize = 101;

/// The largest nodesize.
const MOST_BYTES: usize = 65_536;

/// The sheet of a leaf's image, as bytes. Its length is refused unless it is `nodesize`.
pub fn read_sheet(nodesize: u32, image: &[u8]) -> Result<Vec<u8>> {
    // A sheet is at least 100 bytes shorter than its image.
    let room = image.len().min(MOST_BYTES).saturating_sub(100);
    written(room, |out, len| lent::leaf_image_read(nodesize, image, out, len))
}

/// The items of a leaf's image.
pub fn read(nodesize: u32, image: &[u8]) -> Result<Vec<OwnedItem>> {
    Ok(to_items(&read_sheet(nodesize, image)?))
}

/// The image of a leaf with the items of a sheet, `nodesize` bytes. Of the header, which has
/// [`HEADER_BYTES`] bytes, bytes 32 to 95 are taken over; the level is 0, bytes 4 to 31 and the gap
/// are zeros.
pub fn write_sheet(nodesize: u32, header: &[u8], sheet: &[u8]) -> Result<Vec<u8>> {
    // Above the largest nodesize the call refuses, whatever is lent.
    let room = usize::try_from(nodesize).unwrap_or(MOST_BYTES).min(MOST_BYTES);
    written(room, |out, len| lent::leaf_image_write(nodesize, header, sheet, out, len))
}

/// The same from items.
pub fn write(nodesize: u32, header: &[u8], items: &[OwnedItem]) -> Result<Vec<u8>> {
    write_sheet(nodesize, header, &from_items(items))
}
