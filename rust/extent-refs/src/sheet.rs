//! An item list as bytes: version byte 1, then per item a length, its key and its data.
use crate::chunk::DiskKey;
use crate::leaf_edit::OwnedItem;

/// The largest sheet that a call takes or gives.
pub const MOST_BYTES: usize = 262_144;
/// What an item takes besides its data.
pub const ITEM_HEAD: usize = 21;

pub fn from_items(items: &[OwnedItem]) -> Vec<u8> {
    let length = 1 + items.iter().map(|i| ITEM_HEAD + i.data.len()).sum::<usize>();
    let mut sheet = Vec::with_capacity(length);
    sheet.push(1);
    for item in items {
        // A length past 32 bits is far past the limit; the call refuses it either way.
        let length = u32::try_from(17 + item.data.len()).unwrap_or(u32::MAX);
        sheet.extend_from_slice(&length.to_be_bytes());
        sheet.extend_from_slice(&item.key.objectid.to_be_bytes());
        sheet.push(item.key.key_type);
        sheet.extend_from_slice(&item.key.offset.to_be_bytes());
        sheet.extend_from_slice(&item.data);
    }
    sheet
}

/// The items of a sheet that a call has accepted or given.
pub fn to_items(sheet: &[u8]) -> Vec<OwnedItem> {
    let mut items = Vec::new();
    let mut rest = sheet.get(1..).unwrap_or(&[]);
    while rest.len() >= ITEM_HEAD {
        let be64 = |at: usize| u64::from_be_bytes(rest[at..at + 8].try_into().unwrap());
        let length = u32::from_be_bytes(rest[..4].try_into().unwrap()) as usize;
        let key = DiskKey { objectid: be64(4), key_type: rest[12], offset: be64(13) };
        items.push(OwnedItem { key, data: rest[ITEM_HEAD..4 + length].to_vec() });
        rest = &rest[4 + length..];
    }
    items
}

/// Room for the result of an edit that adds at most `more` bytes.
pub(crate) fn room(sheet: &[u8], more: usize) -> usize {
    (sheet.len() + more).min(MOST_BYTES)
}
