//! Leaves read and written wrong in the way asked for.
use model::asked::{ask, le32, le64, Asked, Stop};
use model::calls::Arg;
use model::hash::{checksum, register};
use model::leaf::{self, head, HEADER, ITEM};
use model::sheet::{self, bytes, nodesize, space, Item};

/// What the call gives with that fault, before question 21; `None` where it is a fault of something
/// else.
pub fn wrong(fault: &str, call: &str, args: &[Arg]) -> Option<Asked<Vec<u8>>> {
    match (call, args) {
        ("leaf_image_read", [Arg::Number(size), Arg::Bytes(image), ..]) => {
            wrong_read(fault, *size as u32, image)
        }
        ("leaf_image_write", [Arg::Number(size), Arg::Bytes(header), Arg::Bytes(sheet), ..]) => {
            wrong_write(fault, *size as u32, header, sheet)
        }
        _ => None,
    }
}

fn wrong_read(fault: &str, size: u32, image: &[u8]) -> Option<Asked<Vec<u8>>> {
    let right = leaf::read(size, image);
    let past_23 = matches!(right, Ok(_) | Err(Stop::Refused(2 | 24)));
    let long = image.len() > 100 && image.len() as u64 == u64::from(size);
    Some(match fault {
        "headers in 32 bits" | "sums in 32 bits" | "order before packing" | "positions from 0"
            if past_23 =>
        {
            walked(fault, image)
        }
        "a body's limit" if image.len() > 65_535 => Err(Stop::Refused(3)),
        "not inverted" if past_23 || right == Err(Stop::Refused(23)) => not_inverted(size, image),
        "any level" if long && le32(image) == checksum(&image[32..]) => {
            nodesize(size).and_then(|()| walked(fault, image))
        }
        "checksum from 4" if past_23 && le32(image) != checksum(&image[4..]) => {
            Err(Stop::Refused(23))
        }
        _ => return None,
    })
}

/// The reader past question 23, with the fault in its walk over the headers. What would read outside
/// the image ends the walk.
fn walked(fault: &str, image: &[u8]) -> Asked<Vec<u8>> {
    let count = le32(&image[96..]);
    let headers = match fault {
        "headers in 32 bits" => u64::from(count.wrapping_mul(25)),
        _ => 25 * u64::from(count),
    };
    let origin = if fault == "positions from 0" { 0 } else { HEADER };
    let mut end = (image.len() - origin) as u64;
    let mut items: Vec<Item> = Vec::new();
    for number in 0..headers / 25 {
        let Some(head) = image.get(HEADER + ITEM * number as usize..).and_then(|h| h.get(..ITEM))
        else {
            return Err(Stop::Refused(24));
        };
        let (position, size) = (le32(&head[17..]), le32(&head[21..]));
        let sum = match fault {
            "sums in 32 bits" => position.wrapping_add(size).into(),
            _ => u64::from(position) + u64::from(size),
        };
        ask(24, sum == end && u64::from(position) >= headers)?;
        let start = origin + position as usize;
        let data = image.get(start..origin + end as usize).unwrap_or_default();
        let item = Item::new(le64(head), head[8], le64(&head[9..]), data.to_vec());
        let rises = items.last().is_none_or(|last| last.key < item.key);
        ask(2, rises || fault != "order before packing")?;
        items.push(item);
        end = position.into();
    }
    let sheet = bytes(&items);
    sheet::read(&sheet)?;
    Ok(sheet)
}

/// The register itself in place of the finished checksum.
fn not_inverted(size: u32, image: &[u8]) -> Asked<Vec<u8>> {
    nodesize(size)?;
    let whole = image.len() as u64 == size.into() && image[100] == 0;
    ask(23, whole && le32(image) == register(u32::MAX, &image[32..]))?;
    walked("", image)
}

fn wrong_write(fault: &str, size: u32, header: &[u8], sheet: &[u8]) -> Option<Asked<Vec<u8>>> {
    if fault == "header before the sheet" && header.len() != HEADER {
        return Some(Err(Stop::Refused(3)));
    }
    let right = leaf::write(size, header, sheet);
    let Ok(mut image) = right else { return None };
    let items = sheet::read(sheet).ok()?;
    match fault {
        "the gap is left" => {
            let data = space(&items) as usize - HEADER - ITEM * items.len();
            let gap = HEADER + ITEM * items.len()..image.len() - data;
            image[gap].fill(0xa5);
        }
        "level from the header" => image[100] = header[100],
        "count from the header" => image[96..100].copy_from_slice(&header[96..100]),
        "bytes 4 to 31 left" => image[4..32].fill(0xa5),
        "bytes 4 to 31 from the header" => image[4..32].copy_from_slice(&header[4..32]),
        "positions from 0" => from_zero(&mut image, &items),
        "first item's data first" => {
            let data: Vec<u8> = items.iter().flat_map(|i| i.data.clone()).collect();
            let start = image.len() - data.len();
            image[start..].copy_from_slice(&data);
        }
        "not inverted" | "sealed before the data" => {}
        _ => return None,
    }
    Some(Ok(sealed(image, fault)))
}

/// Positions counted from the image's first byte.
fn from_zero(image: &mut [u8], items: &[Item]) {
    for (number, item) in items.iter().enumerate() {
        let at = HEADER + ITEM * number;
        let (position, size) = (le32(&image[at + 17..]), le32(&image[at + 21..]));
        let head = head(item, position + HEADER as u32, size);
        image[at..at + ITEM].copy_from_slice(&head);
    }
}

fn sealed(mut image: Vec<u8>, fault: &str) -> Vec<u8> {
    let end = if fault == "sealed before the data" { HEADER } else { image.len() };
    let sum = checksum(&image[32..end]);
    let sum = if fault == "not inverted" { !sum } else { sum };
    image[..4].copy_from_slice(&sum.to_le_bytes());
    image
}
