//! The crate in place of the driver's own modules: one text that uses them as a driver does is
//! compiled once over the original and once over `extent_refs`, and both give the same. The
//! functions that are private in the original are used side by side in `swap_private`.
#[cfg(original_here)]
use crate::random::Random;
#[cfg(original_here)]
use crate::swap_private::{over_archive as private_archive, over_original as private_original};
use std::time::Duration;

/// What the driver's text does with one body and one list. A refusal is its absence: texts and
/// numbers are not compared here, only what a caller gets.
#[cfg(original_here)]
macro_rules! driver {
    ($name:ident, $library:ident) => {
        mod $name {
            use super::Given;
            use $library::backref::{self, Keyed};
            use $library::chunk::DiskKey;
            use $library::extent_write::{data_ref_hash, TreeBlockAllocation};
            use $library::leaf_edit::{self, OwnedItem};

            fn items(given: &Given) -> Vec<OwnedItem> {
                let owned = |i: &model::sheet::Item| OwnedItem {
                    key: DiskKey { objectid: i.key.0, key_type: i.key.1, offset: i.key.2 },
                    data: i.data.clone(),
                };
                given.items.iter().map(owned).collect()
            }

            pub fn on_body(g: &Given) -> Vec<String> {
                let (t, body, kind) = (g.item_type, &g.body[..], g.kind);
                let [a, b, c] = g.triple;
                let keyed = Keyed::Data { tree: a, objectid: b, offset: c };
                let block = TreeBlockAllocation { bytenr: a, level: t, generation: b, owner: c };
                vec![
                    format!("{:?}", backref::flags(body)),
                    format!(
                        "{:?}",
                        backref::inline_refs(t, body).ok().map(|refs| {
                            refs.iter()
                                .map(|r| (r.kind, r.payload.clone(), r.offset()))
                                .collect::<Vec<_>>()
                        })
                    ),
                    format!("{:?}", backref::take_inline_shared(t, body, kind, a).ok()),
                    format!("{:?}", backref::add_inline_keyed(t, body, keyed, g.count).ok()),
                    format!(
                        "{:?}",
                        backref::add_inline_keyed(t, body, Keyed::Block { tree: a }, g.count).ok()
                    ),
                    format!("{:?}", backref::drop_inline_data_ref(t, body, a, b, c).ok()),
                    format!(
                        "{:?}",
                        backref::drop_keyed_data_ref(
                            &backref::keyed_data_ref_body(a, b, c, 2),
                            a,
                            b,
                            c
                        )
                        .ok()
                    ),
                    format!("{:?}", backref::lower_total(t, body).ok()),
                    format!("{:?}", backref::reduce_total(t, body, 2).ok()),
                    format!("{:?}", backref::raise_total(t, body, 2).ok()),
                    format!("{:?}", backref::holds_inline_data_ref(t, body, a, b, c).ok()),
                    format!("{:?}", backref::add_inline_data_ref(t, body, a, b, c).ok()),
                    format!("{:?}", backref::add_inline_tree_ref(t, body, a).ok()),
                    format!("{:?}", backref::add_inline_shared(t, body, kind, a, g.count).ok()),
                    format!("{:?}", backref::drop_inline_tree_ref(t, body, a).ok()),
                    format!(
                        "{:?}",
                        backref::with_flags(body, backref::BLOCK_FLAG_FULL_BACKREF).ok()
                    ),
                    format!("{:?} {:?} {}", block.key(), block.body(), data_ref_hash(a, b, c)),
                ]
            }

            pub fn on_list(g: &Given) -> Vec<String> {
                let list = items(g);
                let (objectid, key_type, offset) = g.key;
                let key = DiskKey { objectid, key_type, offset };
                let item = OwnedItem { key, data: g.body.clone() };
                vec![
                    format!("{:?}", leaf_edit::insert(g.nodesize, &list, item.clone()).ok()),
                    format!("{:?}", leaf_edit::insert_unbounded(&list, item.clone()).ok()),
                    format!(
                        "{:?}",
                        leaf_edit::insert_or_split(g.nodesize, &list, item.clone()).ok()
                    ),
                    format!("{:?}", leaf_edit::delete(&list, &key).ok()),
                    format!("{:?}", leaf_edit::fit(g.nodesize, &list)),
                    format!("{:?}", leaf_edit::fits(g.nodesize, &list, &item)),
                    format!("{:?}", leaf_edit::split(&list).ok()),
                    format!("{:?}", leaf_edit::split_to_fit(g.nodesize, &list).ok()),
                    format!("{:?}", item.as_leaf_item().data.len()),
                ]
            }
        }
    };
}

#[cfg(original_here)]
driver!(over_original, original);
#[cfg(original_here)]
driver!(over_archive, extent_refs);

/// One body, one balanced list, and what to do with them.
#[cfg(original_here)]
pub struct Given {
    pub item_type: u8,
    pub body: Vec<u8>,
    pub kind: u8,
    pub triple: [u64; 3],
    pub count: u32,
    /// What the shared reference of `kind` and the first field counts in the list, 0 for none.
    pub stands: u32,
    pub nodesize: u32,
    pub items: Vec<model::sheet::Item>,
    pub extent: u64,
    pub level: u8,
    pub key: model::sheet::Key,
    pub offsets: Vec<u64>,
}

#[cfg(original_here)]
fn given(r: &mut Random) -> Given {
    let item_type = r.pick(&[168, 169]);
    let mut body = crate::bodies::body(r, item_type);
    // Lengths past the limits are on the list of differences.
    body.truncate(60_000);
    let items = crate::sheets::balanced(r);
    let records: Vec<_> = items.iter().filter(|i| [168, 169].contains(&i.key.1)).collect();
    let record = if records.is_empty() { None } else { Some(records[r.below(records.len())]) };
    // Names of the body for the calls on bodies, of the record for the others.
    let named = match record {
        Some(record) if r.chance(1, 2) => crate::bodies::references(record.key.1, &record.data),
        _ => crate::bodies::references(item_type, &body),
    };
    let named = if named.is_empty() { None } else { Some(&named[r.below(named.len())]) };
    let fields = named.map_or(vec![], |x| x.fields.clone());
    let triple: [u64; 3] =
        std::array::from_fn(|i| fields.get(i).copied().unwrap_or_else(|| r.field()));
    let kind = named.map_or(0, |x| x.kind);
    let kind = if kind > 178 { kind } else { r.pick(&[182, 184]) };
    let extent = record.map_or(4096, |i| i.key.0);
    Given {
        item_type,
        kind,
        triple,
        count: r.pick(&[0, 1, 1, 1, 2, 3]),
        stands: model::ledger::count(&items, extent, &(kind, vec![triple[0]])) as u32,
        nodesize: r.pick(&[501, 600, 1024, 4096, 65_536]),
        extent,
        level: record.map_or(0, |i| i.key.2 as u8),
        key: match items.first() {
            Some(first) if r.chance(1, 2) => first.key,
            _ => (r.field(), r.pick(&[1, 168, 178, 255]), r.field()),
        },
        offsets: vec![triple[2]; r.below(3)],
        items,
        body,
    }
}

/// How often the uses of one kind were compared, and how often each gave a result.
#[cfg_attr(not(original_here), allow(dead_code))]
#[derive(Default)]
struct Uses {
    compared: usize,
    gave: Vec<usize>,
}

#[cfg_attr(not(original_here), allow(dead_code))]
impl Uses {
    /// The first use in which the two differ.
    fn note(&mut self, original: &[String], archive: &[String]) -> Result<(), String> {
        if original.len() != archive.len() {
            return Err(format!("{} uses, and {}", original.len(), archive.len()));
        }
        self.gave.resize(original.len(), 0);
        for (number, (o, a)) in original.iter().zip(archive).enumerate() {
            if o != a {
                return Err(format!("use {number}\n       original {o}\n       crate    {a}"));
            }
            self.compared += 1;
            self.gave[number] += usize::from(o != "None" && o != "Some(None)");
        }
        Ok(())
    }

    /// One line that begins with `ok` or `FAIL`: each use has given a result.
    fn line(&self, what: &str) -> String {
        if self.gave.is_empty() {
            return format!("FAIL swap of {what}: nothing was compared");
        }
        match self.gave.iter().position(|&results| results == 0) {
            Some(use_) => format!("FAIL swap of {what}: use {use_} never gave a result"),
            None => format!(
                "ok   swap of {what}: {} uses give the same over the archive, each of {} gave a result",
                self.compared,
                self.gave.len()
            ),
        }
    }
}

#[cfg(not(original_here))]
pub fn swapped(_: Duration) -> Vec<String> {
    vec![]
}

/// Lines that begin with `ok` or `FAIL`; none where the original is not here.
#[cfg(original_here)]
pub fn swapped(time: Duration) -> Vec<String> {
    if !extent_refs::MISSING.is_empty() {
        return vec!["FAIL swap: the archive has not every call".into()];
    }
    type Texts = fn(&Given) -> Vec<String>;
    let kinds: [(&str, Texts, Texts); 3] = [
        ("calls on bodies", over_original::on_body, over_archive::on_body),
        ("calls on lists", over_original::on_list, over_archive::on_list),
        ("private functions and postings", private_original, private_archive),
    ];
    let mut uses = kinds.map(|_| Uses::default());
    let begun = crate::spent::Spent::begin();
    let mut r = Random::new(17);
    let mut rounds = 0;
    while rounds < LEAST || begun.elapsed() < time {
        rounds += 1;
        let given = given(&mut r);
        let said = |texts: Texts| {
            std::panic::catch_unwind(std::panic::AssertUnwindSafe(|| texts(&given))).ok()
        };
        for ((what, original, archive), uses) in kinds.iter().zip(&mut uses) {
            // An overflow panics in the original and is refused here.
            let Some(original) = said(*original) else { continue };
            let Some(archive) = said(*archive) else {
                return vec![format!("FAIL swap of {what}: the crate panics, the original not")];
            };
            if let Err(text) = uses.note(&original, &archive) {
                return vec![format!("FAIL swap of {what}: {text}")];
            }
        }
    }
    kinds.iter().zip(&uses).map(|((what, ..), uses)| uses.line(what)).collect()
}

/// So many rounds whatever the time.
#[cfg(original_here)]
const LEAST: usize = 400;

#[test]
fn a_swap_that_compared_nothing_fails() {
    let texts = |list: &[&str]| list.iter().map(|t| t.to_string()).collect::<Vec<_>>();
    let mut uses = Uses::default();
    assert!(uses.line("nothing").starts_with("FAIL"));
    assert_eq!(uses.note(&texts(&["None", "Some(1)"]), &texts(&["None", "Some(1)"])), Ok(()));
    assert!(uses.line("a refusal alone").starts_with("FAIL"));
    assert_eq!(uses.note(&texts(&["Some(2)", "None"]), &texts(&["Some(2)", "None"])), Ok(()));
    assert!(uses.line("results").starts_with("ok"));
    assert!(uses.note(&texts(&["Some(2)", "None"]), &texts(&["Some(3)", "None"])).is_err());
    assert!(uses.note(&texts(&["Some(2)", "None"]), &texts(&["Some(2)"])).is_err());
}
