//! Document 01, "calls on bodies".
use crate::asked::{ask, le32, le64, want, Asked, Stop};
use crate::hash::data_ref_hash;

pub const OWNER: u8 = 172;
pub const BLOCK: u8 = 176;
pub const DATA: u8 = 178;
pub const SHARED_BLOCK: u8 = 182;
pub const SHARED_DATA: u8 = 184;

/// The largest body of question 3.
pub const LARGEST: usize = 65_535;

/// A reference: its type, its 64-bit fields, and its count where its type has one.
#[derive(Debug, Clone, PartialEq, Eq)]
pub struct Reference {
    pub kind: u8,
    pub fields: Vec<u64>,
    pub count: Option<u32>,
}

/// How many 64-bit fields a type has, and whether a count follows them.
fn shape(kind: u8) -> Option<(usize, bool)> {
    match kind {
        OWNER | BLOCK | SHARED_BLOCK => Some((1, false)),
        DATA => Some((3, true)),
        SHARED_DATA => Some((1, true)),
        _ => None,
    }
}

impl Reference {
    pub fn block(tree: u64) -> Self {
        Reference { kind: BLOCK, fields: vec![tree], count: None }
    }

    pub fn data(tree: u64, objectid: u64, offset: u64, count: u32) -> Self {
        Reference { kind: DATA, fields: vec![tree, objectid, offset], count: Some(count) }
    }

    /// A shared reference; a shared block has no count to carry.
    pub fn shared(kind: u8, parent: u64, count: u32) -> Self {
        Reference { kind, fields: vec![parent], count: (kind == SHARED_DATA).then_some(count) }
    }

    /// What it counts in the total.
    pub fn weight(&self) -> u64 {
        match self.kind {
            OWNER => 0,
            BLOCK | SHARED_BLOCK => 1,
            _ => u64::from(self.count.unwrap_or(0)),
        }
    }

    pub fn is(&self, kind: u8, fields: &[u64]) -> bool {
        self.kind == kind && self.fields == fields
    }

    pub fn payload(&self) -> Vec<u8> {
        let mut bytes: Vec<u8> = self.fields.iter().flat_map(|f| f.to_le_bytes()).collect();
        if let Some(count) = self.count {
            bytes.extend(count.to_le_bytes());
        }
        bytes
    }

    pub fn bytes(&self) -> Vec<u8> {
        [vec![self.kind], self.payload()].concat()
    }
}

/// A body taken apart: the total, the bytes from 8 to the start, and the references.
#[derive(Debug, Clone, PartialEq, Eq)]
pub struct Body {
    pub total: u64,
    pub fixed: Vec<u8>,
    pub references: Vec<Reference>,
}

impl Body {
    /// Questions 6, 7 and 8.
    pub fn read(item_type: u8, body: &[u8]) -> Asked<Body> {
        ask(6, body.len() >= 24)?;
        let start = start(item_type, body);
        ask(6, body.len() >= start)?;
        let mut references = Vec::new();
        let mut rest = &body[start..];
        while let Some((&kind, after)) = rest.split_first() {
            let (fields, counted) = want(7, shape(kind))?;
            let length = 8 * fields + if counted { 4 } else { 0 };
            ask(8, after.len() >= length)?;
            references.push(Reference {
                kind,
                fields: (0..fields).map(|i| le64(&after[8 * i..])).collect(),
                count: counted.then(|| le32(&after[8 * fields..])),
            });
            rest = &after[length..];
        }
        Ok(Body { total: le64(body), fixed: body[8..start].to_vec(), references })
    }

    pub fn bytes(&self) -> Vec<u8> {
        let mut bytes = self.total.to_le_bytes().to_vec();
        bytes.extend(&self.fixed);
        bytes.extend(self.references.iter().flat_map(|r| r.bytes()));
        bytes
    }

    pub fn generation(&self) -> u64 {
        le64(&self.fixed)
    }

    pub fn flags(&self) -> u64 {
        le64(&self.fixed[8..])
    }

    /// The byte at which the references start.
    pub fn start(&self) -> usize {
        8 + self.fixed.len()
    }

    fn find(&self, kind: u8, fields: &[u64]) -> Option<usize> {
        self.references.iter().position(|r| r.is(kind, fields))
    }

    /// Before the first reference of a higher type, or of the same type with a smaller first
    /// field; an owner reference is passed over.
    fn insert_position(&self, kind: u8, field: u64) -> usize {
        let mut at = 0;
        for r in &self.references {
            let stops = r.kind > kind || (r.kind == kind && r.fields[0] < field);
            if r.kind != OWNER && stops {
                return at;
            }
            at += 1;
        }
        at
    }

    fn insert(&mut self, reference: Reference, field: u64) {
        let at = self.insert_position(reference.kind, field);
        self.references.insert(at, reference);
    }

    /// Question 11, then the sum.
    fn gain(&mut self, at: usize, amount: u32) -> Asked<()> {
        let count = self.references[at].count.unwrap_or(0);
        self.references[at].count = Some(want(11, count.checked_add(amount))?);
        Ok(())
    }

    /// Question 12, then the sum.
    pub fn raise(&mut self, amount: u64) -> Asked<()> {
        self.total = want(12, self.total.checked_add(amount))?;
        Ok(())
    }

    /// Question 13, then one less.
    pub fn lower(&mut self) -> Asked<()> {
        ask(13, self.total >= 2)?;
        self.total -= 1;
        Ok(())
    }

    // The edits below have no question 3 and no 21, so that the calls on sheets share them.

    pub fn add_block(&mut self, tree: u64) -> Asked<()> {
        ask(9, self.find(BLOCK, &[tree]).is_none())?;
        self.insert(Reference::block(tree), tree);
        Ok(())
    }

    /// The Rust's scan: it stops at the first type above 178 or the first smaller hash, and
    /// looks for an equal triple only before that.
    pub fn add_data(&mut self, triple: [u64; 3], amount: u32) -> Asked<()> {
        let hash = |f: &[u64]| data_ref_hash(f[0], f[1], f[2]);
        let mut at = 0;
        let mut same = false;
        for r in &self.references {
            if r.kind > DATA {
                break;
            }
            if r.kind == DATA {
                same = r.fields == triple;
                if same || hash(&r.fields) < hash(&triple) {
                    break;
                }
            }
            at += 1;
        }
        if same {
            self.gain(at, amount)?;
        } else {
            let [tree, objectid, offset] = triple;
            self.references.insert(at, Reference::data(tree, objectid, offset, amount));
        }
        self.raise(u64::from(amount))
    }

    pub fn add_shared(&mut self, kind: u8, parent: u64, amount: u32) -> Asked<()> {
        let stands = self.find(kind, &[parent]);
        if kind == SHARED_BLOCK {
            ask(9, stands.is_none())?;
            ask(10, amount == 1)?;
        }
        match stands {
            Some(at) => self.gain(at, amount)?,
            None => self.insert(Reference::shared(kind, parent, amount), parent),
        }
        self.raise(u64::from(amount))
    }

    /// Out whole, the total left; `None` where there is no such reference.
    pub fn take(&mut self, kind: u8, fields: &[u64]) -> Option<Reference> {
        let at = self.find(kind, fields)?;
        Some(self.references.remove(at))
    }

    pub fn drop_block(&mut self, tree: u64) -> Asked<()> {
        self.take(BLOCK, &[tree]).ok_or(Stop::Absent)?;
        self.lower()
    }

    pub fn drop_data(&mut self, triple: [u64; 3]) -> Asked<()> {
        let at = self.find(DATA, &triple).ok_or(Stop::Absent)?;
        match self.references[at].count {
            Some(count) if count > 1 => self.references[at].count = Some(count - 1),
            _ => {
                self.references.remove(at);
            }
        }
        self.lower()
    }
}

/// Where references start, in a body of at least 24 bytes.
fn start(item_type: u8, body: &[u8]) -> usize {
    if item_type == 168 && le64(&body[16..]) & 2 == 2 {
        42
    } else {
        24
    }
}

/// Question 3 of a body.
pub fn within(body: &[u8]) -> Asked<()> {
    ask(3, body.len() <= LARGEST)
}

/// Question 3 of a shared kind.
pub fn shared_kind(kind: u8) -> Asked<()> {
    ask(3, kind == SHARED_BLOCK || kind == SHARED_DATA)
}

/// The part of question 21 that is the limit of question 3.
fn held(bytes: Vec<u8>) -> Asked<Vec<u8>> {
    ask(21, bytes.len() <= LARGEST)?;
    Ok(bytes)
}

fn opened(item_type: u8, body: &[u8]) -> Asked<Body> {
    within(body)?;
    Body::read(item_type, body)
}

/// A call that looks at the total alone: the 24 bytes of the head, never the start.
fn total_only(body: &[u8], new: impl Fn(u64) -> Asked<u64>) -> Asked<Vec<u8>> {
    within(body)?;
    total_edit(body, new)
}

/// The same without question 3, for the calls on sheets.
pub fn total_edit(body: &[u8], new: impl Fn(u64) -> Asked<u64>) -> Asked<Vec<u8>> {
    ask(6, body.len() >= 24)?;
    Ok([new(le64(body))?.to_le_bytes().to_vec(), body[8..].to_vec()].concat())
}

pub fn flags(body: &[u8]) -> Asked<u64> {
    within(body)?;
    ask(6, body.len() >= 24)?;
    Ok(le64(&body[16..]))
}

/// The position of each reference's type byte.
pub fn inline_refs(item_type: u8, body: &[u8]) -> Asked<Vec<u16>> {
    let read = opened(item_type, body)?;
    let mut at = read.start();
    let mut positions = Vec::new();
    for r in &read.references {
        positions.push(at as u16);
        at += r.bytes().len();
    }
    Ok(positions)
}

/// Reference number `number`: its kind, its first field, and where its payload starts and how
/// long it is.
pub fn inline_ref(item_type: u8, body: &[u8], number: u64) -> Asked<[u64; 4]> {
    let read = opened(item_type, body)?;
    let mut start = read.start() + 1;
    for (at, r) in read.references.iter().enumerate() {
        let length = r.payload().len();
        if at as u64 == number {
            return Ok([u64::from(r.kind), r.fields[0], start as u64, length as u64]);
        }
        start += length + 1;
    }
    Err(Stop::Refused(5))
}

pub fn take_inline_shared(
    item_type: u8,
    body: &[u8],
    kind: u8,
    parent: u64,
) -> Asked<(Vec<u8>, u64)> {
    shared_kind(kind)?;
    let mut read = opened(item_type, body)?;
    let taken = read.take(kind, &[parent]).ok_or(Stop::Absent)?;
    Ok((read.bytes(), taken.weight()))
}

pub fn add_inline_keyed_block(item_type: u8, body: &[u8], tree: u64) -> Asked<Vec<u8>> {
    let mut read = opened(item_type, body)?;
    read.add_block(tree)?;
    held(read.bytes())
}

pub fn add_inline_keyed_data(
    item_type: u8,
    body: &[u8],
    triple: [u64; 3],
    count: u32,
) -> Asked<Vec<u8>> {
    let mut read = opened(item_type, body)?;
    match read.find(DATA, &triple) {
        Some(at) => read.gain(at, count)?,
        None => {
            ask(10, read.references.iter().all(|r| r.kind != DATA))?;
            let [tree, objectid, offset] = triple;
            // Alone of its type, so only the types place it.
            read.insert(Reference::data(tree, objectid, offset, count), 0);
        }
    }
    held(read.bytes())
}

pub fn drop_inline_data_ref(item_type: u8, body: &[u8], triple: [u64; 3]) -> Asked<Vec<u8>> {
    let mut read = opened(item_type, body)?;
    read.drop_data(triple)?;
    Ok(read.bytes())
}

pub fn drop_keyed_data_ref(item: &[u8], triple: [u64; 3]) -> Asked<Vec<u8>> {
    within(item)?;
    ask(15, item.len() == 28 && keyed_data_ref_names(item, triple)?)?;
    let count = le32(&item[24..]);
    ask(16, count > 0)?;
    if count == 1 {
        return Err(Stop::Remove);
    }
    Ok(keyed_data_ref_body(triple, count - 1))
}

pub fn lower_total(body: &[u8]) -> Asked<Vec<u8>> {
    total_only(body, |total| {
        ask(13, total >= 2)?;
        Ok(total - 1)
    })
}

pub fn reduce_total(body: &[u8], count: u64) -> Asked<Vec<u8>> {
    total_only(body, |total| want(14, total.checked_sub(count)))
}

pub fn raise_total(body: &[u8], count: u64) -> Asked<Vec<u8>> {
    total_only(body, |total| want(12, total.checked_add(count)))
}

pub fn holds_inline_data_ref(item_type: u8, body: &[u8], triple: [u64; 3]) -> Asked<bool> {
    Ok(opened(item_type, body)?.find(DATA, &triple).is_some())
}

pub fn add_inline_data_ref(item_type: u8, body: &[u8], triple: [u64; 3]) -> Asked<Vec<u8>> {
    let mut read = opened(item_type, body)?;
    read.add_data(triple, 1)?;
    held(read.bytes())
}

pub fn add_inline_tree_ref(item_type: u8, body: &[u8], tree: u64) -> Asked<Vec<u8>> {
    let mut read = opened(item_type, body)?;
    read.add_block(tree)?;
    read.raise(1)?;
    held(read.bytes())
}

pub fn keyed_data_ref_body(triple: [u64; 3], count: u32) -> Vec<u8> {
    let [tree, objectid, offset] = triple;
    Reference::data(tree, objectid, offset, count).payload()
}

pub fn add_inline_shared(
    item_type: u8,
    body: &[u8],
    kind: u8,
    parent: u64,
    count: u32,
) -> Asked<Vec<u8>> {
    shared_kind(kind)?;
    let mut read = opened(item_type, body)?;
    read.add_shared(kind, parent, count)?;
    held(read.bytes())
}

pub fn drop_inline_tree_ref(item_type: u8, body: &[u8], tree: u64) -> Asked<Vec<u8>> {
    let mut read = opened(item_type, body)?;
    read.drop_block(tree)?;
    Ok(read.bytes())
}

/// Flags or-ed; the start of references plays no part.
pub fn with_flags(body: &[u8], set: u64) -> Asked<Vec<u8>> {
    let flags = flags(body)? | set;
    Ok([&body[..16], &flags.to_le_bytes(), &body[24..]].concat())
}

/// The three fields that open a keyed data item; fewer than 24 bytes name nothing.
pub fn keyed_data_ref_names(item: &[u8], triple: [u64; 3]) -> Asked<bool> {
    within(item)?;
    Ok(item.len() >= 24 && (0..3).all(|i| le64(&item[8 * i..]) == triple[i]))
}

/// Whether the lent offsets are all that holds the extent. No to a body that cannot be read.
pub fn held_only_by(body: &[u8], root: u64, ino: u64, offsets: &[u64]) -> Asked<bool> {
    within(body)?;
    ask(3, offsets.len() <= 4096)?;
    let Ok(read) = Body::read(168, body) else {
        return Ok(false);
    };
    let times = |offset: u64| offsets.iter().filter(|&&o| o == offset).count() as u64;
    let stands = |offset: u64| {
        read.references.iter().filter(|r| r.is(DATA, &[root, ino, offset])).collect::<Vec<_>>()
    };
    let all_lent = read.references.iter().all(|r| {
        let at = *r.fields.last().unwrap_or(&0);
        r.is(DATA, &[root, ino, at]) && times(at) > 0 && r.weight() == times(at)
    });
    let each_once = offsets.iter().all(|&offset| stands(offset).len() == 1);
    Ok(read.total == offsets.len() as u64 && read.flags() == 1 && all_lent && each_once)
}

/// 33 bytes: one reference by its owner.
pub fn tree_block_body(generation: u64, owner: u64) -> Vec<u8> {
    allocated(generation, 2, Reference::block(owner))
}

/// 53 bytes: one data reference of count 1.
pub fn data_extent_body(generation: u64, root: u64, ino: u64, offset: u64) -> Vec<u8> {
    allocated(generation, 1, Reference::data(root, ino, offset, 1))
}

fn allocated(generation: u64, flags: u64, reference: Reference) -> Vec<u8> {
    let fixed = [generation.to_le_bytes(), flags.to_le_bytes()].concat();
    Body { total: 1, fixed, references: vec![reference] }.bytes()
}
