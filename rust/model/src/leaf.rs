//! Document 02, ticket 4: a leaf as it stands on a card, read into a sheet and written from one.
use crate::asked::{ask, le32, le64, want, Asked};
use crate::hash::checksum;
use crate::sheet::{self, bytes, nodesize, space, Item};

/// The header's length: the items' headers start here, and data positions are counted from here.
pub const HEADER: usize = 101;

/// The length of an item's header.
pub const ITEM: usize = 25;

/// The sheet of the items in an image.
pub fn read(size: u32, image: &[u8]) -> Asked<Vec<u8>> {
    nodesize(size)?;
    ask(23, image.len() as u64 == u64::from(size))?;
    ask(23, image[100] == 0)?;
    ask(23, le32(image) == checksum(&image[32..]))?;
    let sheet = bytes(&want(24, packed(image))?);
    sheet::read(&sheet)?;
    Ok(sheet)
}

/// The items, in whatever order their keys are, where headers and data are packed: "The first item's
/// data ends at the image's end, each next ends where the previous begins, and none begins before
/// the headers end." No sum or product of 32-bit numbers wraps in 64 bits.
pub fn packed(image: &[u8]) -> Option<Vec<Item>> {
    let count = u64::from(le32(&image[96..]));
    let mut end = (image.len() - HEADER) as u64;
    let mut items = Vec::new();
    for number in 0..count {
        let head = image.get(HEADER + ITEM * number as usize..)?.get(..ITEM)?;
        let (position, size) = (u64::from(le32(&head[17..])), u64::from(le32(&head[21..])));
        if position + size != end || position < ITEM as u64 * count {
            return None;
        }
        let data = &image[HEADER + position as usize..HEADER + end as usize];
        items.push(Item::new(le64(head), head[8], le64(&head[9..]), data.to_vec()));
        end = position;
    }
    Some(items)
}

/// The image of a leaf with the items of a sheet: of the header bytes 32 to 95 are used.
pub fn write(size: u32, header: &[u8], sheet: &[u8]) -> Asked<Vec<u8>> {
    let items = sheet::read(sheet)?;
    nodesize(size)?;
    ask(3, header.len() == HEADER)?;
    ask(18, space(&items) <= u64::from(size))?;
    let mut image = vec![0; size as usize];
    image[32..96].copy_from_slice(&header[32..96]);
    image[96..100].copy_from_slice(&(items.len() as u32).to_le_bytes());
    let mut end = image.len();
    for (number, item) in items.iter().enumerate() {
        let start = end - item.data.len();
        image[start..end].copy_from_slice(&item.data);
        let position = (start - HEADER) as u32;
        let head = head(item, position, item.data.len() as u32);
        image[HEADER + ITEM * number..][..ITEM].copy_from_slice(&head);
        end = start;
    }
    seal(&mut image);
    Ok(image)
}

/// An item's header.
pub fn head(item: &Item, position: u32, size: u32) -> Vec<u8> {
    let (objectid, kind, offset) = item.key;
    let (objectid, offset) = (objectid.to_le_bytes(), offset.to_le_bytes());
    [&objectid[..], &[kind], &offset, &position.to_le_bytes(), &size.to_le_bytes()].concat()
}

/// Sets the checksum, which is that of all bytes from 32 on.
fn seal(image: &mut [u8]) {
    let sum = checksum(&image[32..]);
    image[..4].copy_from_slice(&sum.to_le_bytes());
}
