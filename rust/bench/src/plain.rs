//! Plain Rust to hold the archive against: runs of CRC32C's register, and leaves read and written.
use extent_refs::chunk::DiskKey;
use extent_refs::crc32c;
use extent_refs::leaf_edit::OwnedItem;
use std::arch::x86_64::{_mm_crc32_u64, _mm_crc32_u8};

pub const HEADER: usize = 101;
const ITEM: usize = 25;

/// A whole run by the instruction for 64 bits, one after another.
#[target_feature(enable = "sse4.2")]
#[inline(never)]
pub unsafe extern "C" fn run_by_u64(register: u32, bytes: *const u8, len: usize) -> u32 {
    let bytes = std::slice::from_raw_parts(bytes, len);
    let mut words = bytes.chunks_exact(8);
    let mut register = u64::from(register);
    for word in &mut words {
        register = _mm_crc32_u64(register, u64::from_le_bytes(word.try_into().unwrap()));
    }
    words.remainder().iter().fold(register as u32, |r, &byte| _mm_crc32_u8(r, byte))
}

/// The same by three runs side by side, as libraries have it for long inputs: the instruction takes
/// three cycles, and one can be begun in each. What the first two leave is carried over the bytes
/// behind them by a table for parts of that length.
pub struct Chains {
    part: usize,
    carry: [[u32; 256]; 4],
}

impl Chains {
    pub fn of(length: usize) -> Chains {
        let part = length / 24 * 8;
        let zeros = vec![0; part];
        let bits: [u32; 32] = std::array::from_fn(|bit| model::hash::register(1 << bit, &zeros));
        let carried = |place: usize, byte: usize| {
            let set = (0..8).filter(|bit| byte >> bit & 1 == 1);
            set.fold(0, |all, bit| all ^ bits[8 * place + bit])
        };
        let row = |place| std::array::from_fn(|byte| carried(place, byte));
        Chains { part, carry: std::array::from_fn(row) }
    }

    fn carried(&self, register: u32) -> u32 {
        let bytes = register.to_le_bytes().into_iter().zip(&self.carry);
        bytes.fold(0, |all, (byte, row)| all ^ row[usize::from(byte)])
    }

    #[target_feature(enable = "sse4.2")]
    #[inline(never)]
    pub unsafe fn run(&self, register: u32, bytes: &[u8]) -> u32 {
        let (first, rest) = bytes.split_at(self.part);
        let (second, rest) = rest.split_at(self.part);
        let (third, rest) = rest.split_at(self.part);
        let [first, second, third] = [first, second, third].map(|part| part.chunks_exact(8));
        let word = |bytes: &[u8]| u64::from_le_bytes(bytes.try_into().unwrap());
        let (mut a, mut b, mut c) = (u64::from(register), 0, 0);
        for ((x, y), z) in first.zip(second).zip(third) {
            a = _mm_crc32_u64(a, word(x));
            b = _mm_crc32_u64(b, word(y));
            c = _mm_crc32_u64(c, word(z));
        }
        let joined = self.carried(self.carried(a as u32) ^ b as u32) ^ c as u32;
        run_by_u64(joined, rest.as_ptr(), rest.len())
    }
}

/// A run by single bytes and one table, in plain Rust.
#[inline(never)]
pub unsafe extern "C" fn run_by_bytes(register: u32, bytes: *const u8, len: usize) -> u32 {
    const TABLE: [u32; 256] = table();
    const fn table() -> [u32; 256] {
        let mut rows = [0; 256];
        let mut n = 0;
        while n < 256 {
            let (mut entry, mut step) = (n as u32, 0);
            while step < 8 {
                entry = (entry >> 1) ^ (crc32c::CRC32C * (entry & 1));
                step += 1;
            }
            rows[n] = entry;
            n += 1;
        }
        rows
    }
    static ROWS: [u32; 256] = TABLE;
    let step = |r: u32, byte: &u8| (r >> 8) ^ ROWS[usize::from(r as u8 ^ byte)];
    std::slice::from_raw_parts(bytes, len).iter().fold(register, step)
}

pub fn le32(bytes: &[u8]) -> u32 {
    u32::from_le_bytes(bytes[..4].try_into().unwrap())
}

fn le64(bytes: &[u8]) -> u64 {
    u64::from_le_bytes(bytes[..8].try_into().unwrap())
}

pub fn checksum(image: &[u8]) -> u32 {
    !unsafe { run_by_u64(u32::MAX, image[32..].as_ptr(), image.len() - 32) }
}

/// The reader as a driver would have it. Without the checksum it asks all else.
#[inline(never)]
pub fn plain_read(nodesize: usize, image: &[u8], checked: bool) -> Option<Vec<OwnedItem>> {
    if !(501..=65_536).contains(&nodesize) || image.len() != nodesize || image[100] != 0 {
        return None;
    }
    if checked && le32(image) != checksum(image) {
        return None;
    }
    let (count, area) = (le32(&image[96..]) as usize, &image[HEADER..]);
    let (headers, mut end) = (ITEM * count, area.len());
    let mut items: Vec<OwnedItem> = Vec::with_capacity(count.min(area.len() / ITEM));
    for head in area.get(..headers)?.chunks_exact(ITEM) {
        let (position, size) = (le32(&head[17..]) as usize, le32(&head[21..]) as usize);
        if position + size != end || position < headers {
            return None;
        }
        let key = DiskKey { objectid: le64(head), key_type: head[8], offset: le64(&head[9..]) };
        if items.last().is_some_and(|last| last.key >= key) {
            return None;
        }
        items.push(OwnedItem { key, data: area[position..end].to_vec() });
        end = position;
    }
    Some(items)
}

/// The writer as a driver would have it, from items that are in order.
#[inline(never)]
pub fn plain_write(
    nodesize: usize,
    header: &[u8],
    items: &[OwnedItem],
    checked: bool,
) -> Option<Vec<u8>> {
    let space: usize = HEADER + items.iter().map(|i| ITEM + i.data.len()).sum::<usize>();
    let rising = items.windows(2).all(|pair| pair[0].key < pair[1].key);
    if !(501..=65_536).contains(&nodesize) || header.len() != HEADER || space > nodesize || !rising
    {
        return None;
    }
    let mut image = vec![0; nodesize];
    image[32..96].copy_from_slice(&header[32..96]);
    image[96..100].copy_from_slice(&(items.len() as u32).to_le_bytes());
    let (front, area) = image.split_at_mut(HEADER);
    let mut end = area.len();
    for (number, item) in items.iter().enumerate() {
        let start = end - item.data.len();
        area[start..end].copy_from_slice(&item.data);
        put_head(&mut area[ITEM * number..][..ITEM], &item.key, start, item.data.len());
        end = start;
    }
    front[100] = 0;
    if checked {
        let sum = checksum(&image);
        image[..4].copy_from_slice(&sum.to_le_bytes());
    }
    Some(image)
}

/// The reader into a lent sheet, without the checksum: the length that it writes. It writes while it
/// asks, which the archive may not.
#[inline(never)]
pub fn lent_read(nodesize: usize, image: &[u8], out: &mut [u8]) -> Option<usize> {
    if !(501..=65_536).contains(&nodesize) || image.len() != nodesize || image[100] != 0 {
        return None;
    }
    let (count, area) = (le32(&image[96..]) as usize, &image[HEADER..]);
    let (headers, mut end) = (ITEM * count, area.len());
    let mut last: Option<DiskKey> = None;
    *out.first_mut()? = 1;
    let mut at = 1;
    for head in area.get(..headers)?.chunks_exact(ITEM) {
        let (position, size) = (le32(&head[17..]) as usize, le32(&head[21..]) as usize);
        let key = DiskKey { objectid: le64(head), key_type: head[8], offset: le64(&head[9..]) };
        if position + size != end || position < headers || last.is_some_and(|last| last >= key) {
            return None;
        }
        let item = out.get_mut(at..at + 21 + size)?;
        item[..4].copy_from_slice(&(17 + size as u32).to_be_bytes());
        item[4..12].copy_from_slice(&key.objectid.to_be_bytes());
        item[12] = key.key_type;
        item[13..21].copy_from_slice(&key.offset.to_be_bytes());
        item[21..].copy_from_slice(&area[position..end]);
        (at, end, last) = (at + 21 + size, position, Some(key));
    }
    Some(at)
}

/// The writer from a sheet into a lent image, without the checksum.
#[inline(never)]
pub fn lent_write(nodesize: usize, header: &[u8], sheet: &[u8], out: &mut [u8]) -> Option<usize> {
    if !(501..=65_536).contains(&nodesize) || header.len() != HEADER || sheet.first() != Some(&1) {
        return None;
    }
    let (front, area) = out.get_mut(..nodesize)?.split_at_mut(HEADER);
    front[4..32].fill(0);
    front[32..96].copy_from_slice(&header[32..96]);
    let (mut at, mut start, mut end) = (1, 0, area.len());
    let mut last: Option<DiskKey> = None;
    while at < sheet.len() {
        let length = u32::from_be_bytes(sheet.get(at..at + 4)?.try_into().unwrap()) as usize;
        let item = sheet.get(at + 4..at + 4 + length).filter(|item| item.len() >= 17)?;
        let be64 = |at: usize| u64::from_be_bytes(item[at..at + 8].try_into().unwrap());
        let key = DiskKey { objectid: be64(0), key_type: item[8], offset: be64(9) };
        let begin = end.checked_sub(length - 17).filter(|&begin| begin >= start + ITEM)?;
        if last.is_some_and(|last| last >= key) {
            return None;
        }
        area[begin..end].copy_from_slice(&item[17..]);
        put_head(&mut area[start..start + ITEM], &key, begin, length - 17);
        (at, start, end, last) = (at + 4 + length, start + ITEM, begin, Some(key));
    }
    area[start..end].fill(0);
    front[96..100].copy_from_slice(&((start / ITEM) as u32).to_le_bytes());
    front[100] = 0;
    Some(nodesize)
}

fn put_head(head: &mut [u8], key: &DiskKey, position: usize, size: usize) {
    head[..8].copy_from_slice(&key.objectid.to_le_bytes());
    head[8] = key.key_type;
    head[9..17].copy_from_slice(&key.offset.to_le_bytes());
    head[17..21].copy_from_slice(&(position as u32).to_le_bytes());
    head[21..25].copy_from_slice(&(size as u32).to_le_bytes());
}
