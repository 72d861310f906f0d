//! An item that borrows its bytes, as the driver's leaf encoder takes it.
use crate::chunk::DiskKey;

#[derive(Debug, Clone, Copy)]
pub struct LeafItem<'a> {
    pub key: DiskKey,
    pub data: &'a [u8],
}
