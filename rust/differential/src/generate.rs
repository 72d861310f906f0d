//! The inputs of each call, from the names of its parameters.
use crate::bodies;
use crate::collide::collide;
use crate::leaf_draw;
use crate::random::Random;
use crate::runs;
use crate::sheets;
use crate::tables;
use crate::words;
use model::apply;
use model::asked::le64;
use model::body::{keyed_data_ref_body, Body, Reference, BLOCK, DATA, SHARED_BLOCK, SHARED_DATA};
use model::calls::Arg;
use model::ledger::{self, Name};
use model::sheet::{space, unordered, Item};
use model::table::{Call, CALLS};

pub fn calls() -> impl Iterator<Item = &'static str> {
    CALLS.iter().map(|call| call.name)
}

/// The table's row of a call.
pub fn row(call: &str) -> &'static Call {
    CALLS.iter().find(|row| row.name == call).expect("a call of the table")
}

/// The parameters of a call: (name, kind).
pub fn parameters(call: &str) -> &'static [(&'static str, &'static str)] {
    row(call).parameters
}

/// What the parameters of one case are drawn from, so that they meet.
struct Draw<'a> {
    r: &'a mut Random,
    call: &'static str,
    item_type: u8,
    body: Vec<u8>,
    sheet: Vec<u8>,
    items: Vec<Item>,
    extent: u64,
    key: (u64, u8, u64),
    data: Vec<u8>,
    item: Vec<u8>,
    offsets: Vec<u64>,
    change: u64,
    focus: Reference,
    /// A leaf's image, and the nodesize that it is asked with.
    leaf: leaf_draw::Drawn,
    /// The nodesize of this case.
    size: u64,
}

/// One random case; outputs are lent later.
pub fn random(call: &'static str, r: &mut Random) -> Vec<Arg> {
    let item_type = r.pick(&[168, 168, 168, 169, 169, 0, 178]);
    let body = bodies::body(r, item_type);
    let mut d = drawn(call, r, item_type, body, None);
    if call == "transaction_held_only_by" && d.r.chance(4, 5) {
        let count = match d.r.below(60) {
            0 => 100 + d.r.below(500),
            1..=4 => 5 + d.r.below(60),
            _ => d.r.below(5),
        };
        d.held(count);
    }
    d.args()
}

/// Every short body or sheet of a few forms, bodies of every length, and some of the longest.
pub fn edges(call: &'static str, r: &mut Random) -> Vec<Vec<Arg>> {
    let names: Vec<&str> = parameters(call).iter().map(|p| p.0).collect();
    let mut cases = Vec::new();
    if names.contains(&"body") {
        for number in 0..100 {
            let item_type = r.pick(&[168, 169]);
            let body = match number % 5 {
                0 | 1 => bodies::long(r, item_type),
                _ => bodies::middle(r, item_type, 65_400),
            };
            cases.push(drawn(call, r, item_type, body, None).args());
        }
        let short = bodies::short().into_iter();
        cases.extend(short.map(|(t, body)| drawn(call, r, t, body, None).args()));
    }
    if names.contains(&"offsets") {
        for number in 1..=20 {
            let mut d = drawn(call, r, 168, vec![], None);
            d.held(110 * number);
            cases.push(d.args());
        }
    }
    if names.contains(&"sheet") {
        for number in 0..60 {
            let sheet = if number % 4 == 0 { sheets::large(r) } else { sheets::nearly_full(r) };
            cases.push(drawn(call, r, 168, vec![], Some(sheet)).args());
        }
        let short = sheets::short().into_iter();
        cases.extend(short.map(|sheet| drawn(call, r, 168, vec![], Some(sheet)).args()));
    }
    let firsts = of_checksums(&names).into_iter().chain(of_images(&names, r));
    let firsts: Vec<Vec<Arg>> = firsts.collect();
    cases.extend(firsts.into_iter().map(|first| {
        let mut args = drawn(call, r, 168, vec![], None).args();
        args.splice(..first.len(), first);
        args
    }));
    cases
}

/// The polynomials, the registers and words, and the runs of which something may be special.
fn of_checksums(names: &[&str]) -> Vec<Vec<Arg>> {
    let number = |n: u32| Arg::Number(n.into());
    match names {
        ["polynomial", ..] => tables::special().into_iter().map(|p| vec![number(p)]).collect(),
        ["register", "word"] => {
            words::pairs().into_iter().map(|pair| pair.map(number).to_vec()).collect()
        }
        ["register", "bytes"] => {
            runs::special().into_iter().map(|(r, b)| vec![number(r), Arg::Bytes(b)]).collect()
        }
        _ => vec![],
    }
}

/// The images of which something may be special.
fn of_images(names: &[&str], r: &mut Random) -> Vec<Vec<Arg>> {
    if !names.contains(&"image") {
        return vec![];
    }
    let edges = leaf_draw::edges(r).into_iter();
    edges.map(|(size, image)| vec![Arg::Number(size), Arg::Bytes(image)]).collect()
}

fn drawn<'a>(
    call: &'static str,
    r: &'a mut Random,
    item_type: u8,
    body: Vec<u8>,
    sheet: Option<Vec<u8>>,
) -> Draw<'a> {
    let on_sheet = parameters(call).iter().any(|p| p.0 == "sheet");
    let sheet = match sheet {
        Some(sheet) => sheet,
        None if !on_sheet => vec![],
        None if call.contains("split") && r.chance(3, 4) => sheets::to_split(r),
        None => sheets::sheet(r),
    };
    let items = unordered(&sheet).unwrap_or_default();
    let mut d = Draw {
        r,
        call,
        item_type,
        body,
        sheet,
        items,
        extent: 0,
        key: (0, 0, 0),
        data: vec![],
        item: vec![],
        offsets: vec![],
        change: 0,
        focus: Reference::block(0),
        leaf: (0, vec![]),
        size: 0,
    };
    d.prepare();
    if parameters(call).iter().any(|p| p.0 == "image") {
        d.leaf = leaf_draw::image(d.r);
    }
    d
}

impl Draw<'_> {
    fn prepare(&mut self) {
        self.change = if self.r.chance(1, 30) {
            self.r.pick(&[0, 7, 255])
        } else {
            1 + self.r.below(6) as u64
        };
        self.extent = sheets::extent(self.r);
        let records = self.records();
        if !self.items.is_empty() {
            self.key = self.items[self.r.below(self.items.len())].key;
            if self.r.chance(1, 2) {
                let change = self.r.pick(&[1, u64::MAX]);
                match self.r.below(3) {
                    0 => self.key.0 = self.key.0.wrapping_add(change),
                    1 => self.key.1 = self.key.1.wrapping_add(change as u8),
                    _ => self.key.2 = self.key.2.wrapping_add(change),
                }
            }
        }
        if !records.is_empty() && self.r.chance(9, 10) {
            let record = &records[self.r.below(records.len())];
            self.extent = record.key.0;
            self.item_type = record.key.1;
            self.body = record.data.clone();
            if self.call == "transaction_drop_kept_tree_ref" {
                self.key = record.key;
            }
        }
        self.choose_focus();
        let length = match self.r.below(60) {
            0 => self.r.pick(&[65_534, 65_535, 65_536]),
            1..=10 => self.r.below(4000),
            _ => self.r.below(200),
        };
        self.data = vec![self.r.next() as u8; length];
        self.keyed_item();
    }

    /// The records of the list; where a shared reference is dropped, mostly of extents that have one.
    fn records(&mut self) -> Vec<Item> {
        let items = self.items.iter();
        let records: Vec<Item> =
            items.clone().filter(|i| [168, 169].contains(&i.key.1)).cloned().collect();
        if self.call != "ledger_post" || self.change != 6 || self.r.chance(1, 4) {
            return records;
        }
        let shared = |kind: u8| [SHARED_BLOCK, SHARED_DATA].contains(&kind);
        let has = |record: &&Item| {
            let inline = bodies::references(record.key.1, &record.data);
            inline.iter().any(|x| shared(x.kind))
                || items.clone().any(|i| i.key.0 == record.key.0 && shared(i.key.1))
        };
        let with: Vec<Item> = records.iter().filter(has).cloned().collect();
        if with.is_empty() {
            records
        } else {
            with
        }
    }

    fn args(mut self) -> Vec<Arg> {
        let parameters = parameters(self.call).iter();
        parameters.map(|(name, kind)| self.arg(name, kind)).collect()
    }

    /// The kinds that the call's name parameters can mean.
    fn wanted(&self) -> &'static [u8] {
        let has = |name| parameters(self.call).iter().any(|p| p.0 == name);
        match self.call {
            "ledger_post" => match self.change {
                1 | 4 => &[BLOCK],
                2 | 5 => &[DATA],
                _ => &[SHARED_BLOCK, SHARED_DATA],
            },
            _ if has("parent") => &[SHARED_BLOCK, SHARED_DATA],
            _ if has("objectid") || has("ino") => &[DATA],
            _ => &[BLOCK],
        }
    }

    /// The reference that the parameters name: one that stands, nearly one, or another.
    fn choose_focus(&mut self) {
        let wanted = self.wanted();
        let mut stands = bodies::references(self.item_type, &self.body);
        for item in &self.items {
            let own = match item.key {
                (extent, kind @ (BLOCK | SHARED_BLOCK | SHARED_DATA), place)
                    if extent == self.extent =>
                {
                    Some(Reference { kind, fields: vec![place], count: Some(1) })
                }
                (extent, DATA, _) if extent == self.extent && item.data.len() >= 24 => {
                    let f = |i: usize| le64(&item.data[8 * i..]);
                    Some(Reference::data(f(0), f(1), f(2), 1))
                }
                _ => None,
            };
            stands.extend(own);
        }
        stands.retain(|x| wanted.contains(&x.kind));
        self.focus = if !stands.is_empty() && self.r.chance(3, 4) {
            stands[self.r.below(stands.len())].clone()
        } else {
            let kind = self.r.pick(wanted);
            let fields = if kind == DATA { 3 } else { 1 };
            let fields = (0..fields).map(|_| self.r.field()).collect();
            Reference { kind, fields, count: None }
        };
        if self.focus.kind == DATA && self.r.chance(1, 10) {
            let f = &self.focus.fields;
            self.focus.fields = collide([f[0], f[1], f[2]], self.r.field()).to_vec();
        }
        if self.r.chance(1, 8) {
            let at = self.r.below(self.focus.fields.len());
            self.focus.fields[at] ^= 1;
        }
    }

    /// A keyed data item: mostly 28 bytes that name the focus.
    fn keyed_item(&mut self) {
        let triple = std::array::from_fn(|i| self.focus.fields.get(i).copied().unwrap_or(0));
        self.item = keyed_data_ref_body(triple, self.r.count());
        match self.r.below(12) {
            0 => self.item.truncate(self.r.below(29)),
            1 => self.item.extend(vec![0; 1 + self.r.below(3)]),
            2 => {
                let at = self.r.below(28);
                self.item[at] ^= 1;
            }
            3 if self.r.chance(1, 50) => self.item.resize(65_535 + self.r.below(2), 0),
            _ => {}
        }
    }

    /// A body held only by the lent offsets, of `count` references, or nearly so.
    fn held(&mut self, count: usize) {
        let (root, ino) = (self.r.field(), self.r.field());
        let mut references = Vec::new();
        for number in 0..count {
            // Hundreds of offsets are told apart; of few some meet.
            let offset = if count > 60 { 4096 * number as u64 } else { self.r.field() };
            let most = (4_000 / count).clamp(1, 3);
            let times = if count > 60 { 1 + self.r.below(most) } else { self.r.below(4) };
            self.offsets.extend(vec![offset; times]);
            if times > 0 || self.r.chance(1, 8) {
                references.push(Reference::data(root, ino, offset, times as u32));
            }
        }
        if count < 60 && self.r.chance(1, 200) {
            let more = 4_096 - self.offsets.len() + self.r.below(2);
            self.offsets.extend(vec![7; more]);
            references.push(Reference::data(root, ino, 7, more as u32));
        }
        self.r.shuffle(&mut references);
        self.r.shuffle(&mut self.offsets);
        let mut total = self.offsets.len() as u64;
        let mut flags = 1;
        match self.r.below(10) {
            0 => total += 1,
            1 => flags = self.r.pick(&[0, 2, 3, 257]),
            2 => {
                self.offsets.pop();
            }
            3 => references.push(bodies::reference(self.r)),
            4 if !references.is_empty() => {
                let at = self.r.below(references.len());
                references[at].fields[self.r.below(3)] ^= 1;
            }
            5 if !references.is_empty() => {
                // One of them twice, or with another count.
                let at = self.r.below(references.len());
                match self.r.chance(1, 2) {
                    true => references.push(references[at].clone()),
                    false => references[at].count = Some(self.r.count()),
                }
            }
            _ => {}
        }
        let fixed = bodies::fixed(self.r, 168, flags);
        self.body = Body { total, fixed, references }.bytes();
        self.focus = Reference::data(root, ino, 0, 1);
    }

    /// On both sides of every limit that a nodesize decides here.
    fn nodesize(&mut self) -> u64 {
        let beside = self.r.below(5) as u64;
        let near = |n: u64| n.saturating_add(beside).saturating_sub(2);
        let length = self.body.len() as u64;
        match self.r.below(12) {
            0 => self.r.pick(&[0, 500, 501, 502, 65_535, 65_536, 65_537, u64::from(u32::MAX)]),
            1 | 2 => self.r.pick(&[4096, 16_384]),
            3..=6 => {
                // The limit is `grown`, or one beside it.
                let grown = near(length + self.r.pick(&[0, 9, 13, 29]));
                (101 + 16 * (grown + 25) + self.r.below(16) as u64).min(65_536)
            }
            7 | 8 => near(space(&self.items) + self.r.pick(&[0, 25 + self.data.len() as u64])),
            9 => near(126 + self.items.iter().map(|i| i.data.len()).max().unwrap_or(375) as u64),
            10 => near(101 + (space(&self.items) - 101) / self.r.pick(&[2, 3])),
            _ => 501 + self.r.below(65_036) as u64,
        }
        .max(if self.r.chance(1, 20) { 0 } else { 501 + beside })
        .min(if self.r.chance(1, 20) { u64::from(u32::MAX) } else { 65_536 })
    }

    fn count(&mut self) -> u64 {
        let had = self.focus.count.unwrap_or(0);
        let count = match self.r.below(6) {
            0 => (u32::MAX - had).wrapping_add(self.r.below(3) as u32),
            1 => 1,
            _ => self.r.count(),
        };
        u64::from(count)
    }

    /// The amount of a drop of the focus, beside what it counts in the list.
    fn part(&mut self) -> u64 {
        let name = (self.focus.kind, self.focus.fields.clone());
        part(self.r, &self.items, self.extent, &name)
    }

    /// What the outputs have to hold, where the inputs' length does not tell: a table's text or an
    /// image with one byte to spare, or with some.
    fn room(&mut self) -> usize {
        match self.call {
            "leaf_image_write" if self.size <= 65_536 => {
                self.size as usize + self.r.pick(&[1, 50, 300])
            }
            "crc32c_table_text" if self.r.chance(3, 4) => self.r.pick(&[2_305, 2_306, 3_000]),
            "crc32c_table_text" => 2_305 + self.r.below(5_000),
            _ => 0,
        }
    }

    /// A register or a word: the focus's first field gives both the same; few values, so that they
    /// meet; a byte alone, and any number.
    fn word(&mut self) -> u64 {
        match self.r.below(4) {
            0 => self.focus.fields[0],
            1 => self.r.pick(&words::SPECIAL).into(),
            2 => (self.r.next() & 255) << (8 * self.r.below(4)),
            _ => self.r.next(),
        }
    }

    /// A header for the writer, now and then of another length.
    fn header(&mut self) -> Vec<u8> {
        let mut header = leaf_draw::header(self.r);
        if self.r.chance(1, 10) {
            let other = self.r.below(300);
            header.resize(self.r.pick(&[0, 32, 96, 100, 102, 202, other]), 7);
        }
        header
    }

    fn number(&mut self, name: &str) -> u64 {
        let field = |d: &Draw, at: usize| d.focus.fields.get(at).copied();
        match name {
            "item_type" => u64::from(self.item_type),
            "nodesize" if self.call == "leaf_image_read" => self.leaf.0,
            "nodesize" => {
                self.size = self.nodesize();
                self.size
            }
            "bytenr" | "extent" => {
                if self.sheet.is_empty() {
                    self.r.field()
                } else {
                    self.extent
                }
            }
            "level" if self.sheet.is_empty() => self.r.below(256) as u64,
            "level" => self.key.2 & 255,
            "objectid" | "kind" | "offset" if self.call.starts_with("leaf_edit") => match name {
                "objectid" => self.key.0,
                "kind" => u64::from(self.key.1),
                _ => self.key.2,
            },
            "kind" if self.r.chance(1, 20) => self.r.pick(&[172, 176, 178, 181, 183, 185, 0, 255]),
            "kind" if self.focus.kind < SHARED_BLOCK => self.r.pick(&[182, 184]),
            "kind" => u64::from(self.focus.kind),
            "tree" | "root" | "owner" | "parent" => field(self, 0).unwrap_or(0),
            "objectid" | "ino" => field(self, 1).unwrap_or_else(|| self.r.field()),
            "offset" => field(self, 2).unwrap_or_else(|| self.r.field()),
            "amount" if self.change == 6 => self.part(),
            "count" | "amount" => self.count(),
            "total_count" => {
                let total = if self.body.len() < 8 { 0 } else { le64(&self.body) };
                match self.r.below(4) {
                    0 => self.r.field(),
                    1 => u64::MAX.wrapping_sub(total).wrapping_add(self.r.below(3) as u64),
                    _ => total.wrapping_add(self.r.below(3) as u64).wrapping_sub(1),
                }
            }
            "set" => self.r.pick(&[0, 1, 2, 256, u64::MAX]),
            "number" => {
                let count = match self.call {
                    "backref_inline_ref" => bodies::references(self.item_type, &self.body).len(),
                    _ => self.items.len(),
                };
                match self.r.below(8) {
                    0 => self.r.pick(&[u64::MAX, 1 << 32, 1 << 63]),
                    1 => (count as u64).wrapping_sub(1),
                    _ => self.r.below(count + 2) as u64,
                }
            }
            "change" => self.change,
            "a" if self.wanted().len() == 2 => {
                if self.r.chance(1, 20) {
                    self.r.pick(&[182 + 256, 184 + (1 << 32), 176, 0, u64::MAX])
                } else {
                    u64::from(self.focus.kind)
                }
            }
            "b" if self.wanted().len() == 2 => field(self, 0).unwrap_or(0),
            "a" => field(self, 0).unwrap_or(0),
            "b" => field(self, 1).unwrap_or_else(|| self.r.field()),
            "c" => field(self, 2).unwrap_or_else(|| self.r.field()),
            "polynomial" if self.r.chance(1, 4) => self.r.pick(&tables::special()).into(),
            "polynomial" => self.r.next(),
            "register" | "word" => self.word(),
            _ => self.r.field(),
        }
    }

    fn arg(&mut self, name: &str, kind: &str) -> Arg {
        match kind {
            "bytes" => Arg::Bytes(match name {
                "body" => self.body.clone(),
                "sheet" => self.sheet.clone(),
                "data" => self.data.clone(),
                "item" => self.item.clone(),
                "image" => self.leaf.1.clone(),
                "header" => self.header(),
                "bytes" => runs::bytes(self.r),
                other => panic!("no bytes are known for {other}"),
            }),
            "words" => Arg::Words(self.offsets.clone()),
            "out" => Arg::Out(vec![0; self.room()]),
            "cuts" => Arg::Cuts(vec![]),
            "lent" => Arg::Lent(0),
            "bool" => Arg::Number(self.r.below(2) as u64),
            "u8" => Arg::Number(self.number(name) & 255),
            "u32" => Arg::Number(self.number(name) & u64::from(u32::MAX)),
            "u64" => Arg::Number(self.number(name)),
            other => panic!("no kind {other}"),
        }
    }
}

/// The case with outputs of that many elements, filled so that a stray write shows.
pub fn lent(args: &[Arg], room: usize) -> Vec<Arg> {
    args.iter()
        .map(|arg| match arg {
            Arg::Out(_) => Arg::Out((0..room).map(|i| 0xa5 ^ i as u8).collect()),
            Arg::Cuts(_) => Arg::Cuts((0..room).map(|i| 0xa5a5 ^ i as u16).collect()),
            Arg::Lent(_) => Arg::Lent(0xdead_beef_dead_beef),
            other => other.clone(),
        })
        .collect()
}

/// Room enough for any result of this case: more than its inputs, or what it was drawn with.
pub fn ample(args: &[Arg]) -> usize {
    let bytes: usize = args.iter().map(|a| if let Arg::Bytes(b) = a { b.len() } else { 0 }).sum();
    let drawn = args.iter().map(|a| if let Arg::Out(out) = a { out.len() } else { 0 }).max();
    drawn.unwrap_or(0).max(bytes + 64)
}

/// What a drop takes of a shared reference: nothing, one, a part of what stands, all of it, one
/// more, more than the extent's total, and the most that an amount can be.
pub fn part(r: &mut Random, items: &[Item], extent: u64, name: &Name) -> u64 {
    let stands = ledger::count(items, extent, name) as u64;
    let amount = match r.below(10) {
        0 => 0,
        1 | 2 => 1,
        3 | 4 => 1 + r.next() % stands.max(1),
        5 | 6 => stands,
        7 => stands.saturating_add(1),
        8 => total(items, extent).saturating_add(1),
        _ => u64::from(u32::MAX),
    };
    amount.min(u32::MAX.into())
}

/// The total of an extent's record, 0 where there is none or it is too short.
pub fn total(items: &[Item], extent: u64) -> u64 {
    let record = apply::record(items, extent).map(|at| &items[at].data);
    record.filter(|data| data.len() >= 8).map_or(0, |data| le64(data))
}

/// A case of the ledger without its output: which change, the extent, the name's three fields and
/// the amount.
pub fn posting(nodesize: u64, sheet: &[u8], numbers: [u64; 6]) -> Vec<Arg> {
    let mut args = vec![Arg::Number(nodesize), Arg::Bytes(sheet.to_vec())];
    args.extend(numbers.map(Arg::Number));
    args.extend([Arg::Out(vec![]), Arg::Lent(0)]);
    args
}

/// The name that a case of the ledger carries, for reports.
pub fn name_of(change: u64, a: u64, b: u64, c: u64) -> Name {
    match change {
        1 | 4 => (BLOCK, vec![a]),
        2 | 5 => (DATA, vec![a, b, c]),
        _ => (a as u8, vec![b]),
    }
}

#[test]
fn hundreds_of_references_are_held_or_not() {
    let call = "transaction_held_only_by";
    let mut said = [0, 0];
    for args in edges(call, &mut Random::new(1)) {
        let many =
            matches!(&args[0], Arg::Bytes(body) if bodies::references(168, body).len() > 200);
        let outcome = model::calls::outcome(call, &args);
        if let (true, 0, Arg::Lent(holds)) = (many, outcome.code, &outcome.args[4]) {
            said[*holds as usize] += 1;
        }
    }
    assert!(said.iter().all(|&cases| cases > 2), "{said:?}");
}

/// What a drop of a shared reference came to: its code, and where it is accepted, whether the
/// reference is an item and whether some of it is left.
#[cfg(test)]
fn dropped(bare: &[Arg]) -> Option<(u64, bool, bool)> {
    let number = |at: usize| if let Arg::Number(n) = bare[at] { n } else { 0 };
    let [change, extent, a, b, c, amount] = std::array::from_fn(|at| number(2 + at));
    let Arg::Bytes(sheet) = &bare[1] else { return None };
    let code = model::calls::outcome("ledger_post", &lent(bare, ample(bare))).code;
    let items = unordered(sheet).unwrap_or_default();
    let own = items.iter().any(|i| i.key == (extent, a as u8, b));
    let left = ledger::count(&items, extent, &name_of(change, a, b, c)) > amount.into();
    (change == 6).then_some((code, code == 0 && own, code == 0 && left))
}

#[test]
fn drops_of_shared_references_meet_what_stands() {
    let mut r = Random::new(1);
    let cases = (0..20_000).filter_map(|_| dropped(&random("ledger_post", &mut r)));
    let cases: Vec<_> = cases.collect();
    let accepted = [(false, false), (false, true), (true, false), (true, true)];
    let ways = accepted.map(|(own, left)| (0, own, left)).into_iter();
    for way in ways.chain([5, 10, 22].map(|code| (code, false, false))) {
        let often = cases.iter().filter(|case| **case == way).count();
        assert!(often >= 20, "{way:?} came up {often} times in {}", cases.len());
    }
}
