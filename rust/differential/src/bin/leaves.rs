//! Real leaves: each image is read by the archive, also damaged, and written back, every record's
//! references are held to dump-tree's text, and every extent whose own items balance is posted to.
//! The last line is 'N passed, M failed'.
//!
//! The leaves are in ../shared/leaves beside the repository, or where EXTENT_REFS_LEAVES says.
use differential::archive::{self, Archive};
use differential::dump_tree::{self, Leaf};
use differential::generate::{ample, lent, posting};
use differential::images::{of_read, of_write, READ, WRITE};
use differential::leaf_draw::{cleared, damaged, gap};
use differential::random::Random;
use differential::verdict::{agreement, inside, of_original, written};
use differential::verdict::{Agreement, Verdict, ORIGINAL_HERE};
use model::asked::le64;
use model::body::{Body, BLOCK, DATA, OWNER, SHARED_BLOCK, SHARED_DATA};
use model::calls::{outcome, Arg, Outcome};
use model::hash::data_ref_hash;
use model::ledger::{balanced, count};
use model::sheet::{bytes, read, Item};
use std::path::Path;
use std::process::ExitCode;

/// How often each image is damaged.
const DAMAGED: usize = 20;

fn main() -> ExitCode {
    let Some(paths) = dump_tree::leaves() else {
        println!("{}", dump_tree::LEFT_OUT);
        println!("0 passed, 0 failed");
        return ExitCode::SUCCESS;
    };
    let mut run = Run::default();
    for path in &paths {
        if let Err(fault) = run.leaf(path) {
            run.faults.push(format!("{}: {fault}", name(path)));
        }
    }
    let passed = paths.len() - run.faults.len().min(paths.len());
    run.leaves = paths.len();
    run.faults.extend(run.nothing());
    for fault in run.faults.iter().take(10) {
        println!("FAIL {fault}");
    }
    run.print();
    println!("{passed} passed, {} failed", run.faults.len());
    if run.faults.is_empty() {
        ExitCode::SUCCESS
    } else {
        ExitCode::FAILURE
    }
}

#[derive(Default)]
struct Run {
    archive: Archive,
    faults: Vec<String>,
    leaves: usize,
    same: usize,
    cleared: usize,
    as_original: usize,
    damaged: usize,
    refused: usize,
    records: usize,
    inline: usize,
    own: usize,
    leaves_balanced: usize,
    extents: usize,
    unbalanced: usize,
    posted: usize,
    accepted: usize,
    restored: usize,
    in_parts: usize,
    archived: usize,
}

type Fault<T> = Result<T, String>;

impl Run {
    /// What was compared.
    fn print(&self) {
        println!(
            "{} images read and written back: {} byte for byte, {} with bytes 4 to 31 or the gap cleared; {} read as the original reads them",
            self.same + self.cleared, self.same, self.cleared, self.as_original
        );
        println!("{} damaged ones, {} of them refused", self.damaged, self.refused);
        println!(
            "{} leaves: {} records with {} inline references and {} reference items as dump-tree lists them",
            self.leaves, self.records, self.inline, self.own
        );
        println!(
            "{} leaves balance alone; {} extents balance by themselves, {} do not or have no record; {} postings, {} accepted",
            self.leaves_balanced, self.extents, self.unbalanced, self.posted, self.accepted
        );
        println!(
            "{} shared references added and dropped again, {} of them in two parts: the old bytes each time",
            self.restored, self.in_parts
        );
        println!("{} calls put to the archive too", self.archived);
    }

    /// What was not compared at all: each is a fault.
    fn nothing(&self) -> Vec<String> {
        let as_original = if ORIGINAL_HERE { self.as_original } else { self.same };
        let counts = [
            (self.leaves, "leaf"),
            (self.same, "image written back byte for byte"),
            (as_original, "image read by the original"),
            (self.refused, "damaged image refused"),
            (self.damaged - self.refused, "damaged image accepted"),
            (self.records, "record"),
            (self.inline, "inline reference"),
            (self.own, "reference item"),
            (self.extents, "extent that balances"),
            (self.unbalanced, "extent that does not balance"),
            (self.accepted, "accepted posting"),
            (self.restored, "shared reference added and dropped again"),
            (self.in_parts, "shared reference dropped in two parts"),
            (self.archived, "call put to the archive"),
        ];
        let none = counts.iter().filter(|(count, _)| *count == 0);
        none.map(|(_, what)| format!("not one {what}")).collect()
    }

    fn leaf(&mut self, path: &Path) -> Fault<()> {
        let leaf = Leaf::read(path)?;
        self.image(&leaf, &name(path))?;
        let Leaf { items, texts, nodesize, .. } = leaf;
        self.texts(&items, &texts)?;
        self.leaves_balanced += usize::from(balanced(&items));
        let mut extents: Vec<u64> = items.iter().map(|i| i.key.0).collect();
        extents.dedup();
        for extent in extents {
            let own: Vec<Item> = items.iter().filter(|i| i.key.0 == extent).cloned().collect();
            self.extent(extent, &own, nodesize)?;
        }
        Ok(())
    }

    /// The image read by the archive, whole and damaged, and written back.
    fn image(&mut self, leaf: &Leaf, name: &str) -> Fault<()> {
        let Leaf { image, items, nodesize, .. } = leaf;
        let said = self.as_all_read(*nodesize, image)?;
        let sheet = written(READ, &said).bytes;
        if said.code != 0 || sheet != bytes(items) {
            return Err(format!("{READ} gives {} and another sheet", said.code));
        }
        self.as_original += usize::from(ORIGINAL_HERE);
        self.back(leaf, &sheet)?;
        let mut r = Random::named(name, 1);
        for _ in 0..DAMAGED {
            let image = damaged(&mut r, image, items.len());
            let said = self.as_all_read(*nodesize, &image)?;
            self.damaged += 1;
            self.refused += usize::from(said.code != 0);
        }
        Ok(())
    }

    /// What the archive reads, as the model, and as the original where it is asked.
    fn as_all_read(&mut self, nodesize: u64, image: &[u8]) -> Fault<Outcome> {
        let args = lent(&of_read(nodesize, image), image.len());
        let said = self.ask(READ, &args)?;
        let verdict = match inside(READ, said.code) {
            true => of_original(READ, &args),
            false => Verdict::NotAsked,
        };
        match agreement(READ, &verdict, &said) {
            Agreement::Same | Agreement::Outside => Ok(said),
            _ => Err(format!("{READ} gives {} and the original {verdict:?}", said.code)),
        }
    }

    /// The image written back with its own header: the same, or with what the writer clears.
    fn back(&mut self, leaf: &Leaf, sheet: &[u8]) -> Fault<()> {
        let Leaf { image, items, nodesize, .. } = leaf;
        if !archive::has(WRITE) {
            return Err(format!("{WRITE} is not in the archive"));
        }
        let args = lent(&of_write(*nodesize, &image[..101], sheet), image.len());
        let said = self.ask(WRITE, &args)?;
        let back = written(WRITE, &said).bytes;
        if said.code != 0 || back != cleared(image.clone(), gap(items, image.len())) {
            return Err(format!("{WRITE} gives {} and another image", said.code));
        }
        if back == *image {
            self.same += 1;
        } else {
            self.cleared += 1;
        }
        Ok(())
    }

    /// Every item's key, size and references, beside the text.
    fn texts(&mut self, items: &[Item], texts: &[String]) -> Fault<()> {
        for (number, (item, part)) in items.iter().zip(texts).enumerate() {
            let printed = self.printed(item).map_err(|f| format!("item {number}: {f}"))?;
            let mut told = dump_tree::lines(part).into_iter();
            let (objectid, kind, offset) = item.key;
            let head = format!("{number} key ({objectid} {} {offset})", kind_name(kind));
            let size = format!("itemsize {}", item.data.len());
            let first = part.lines().next().unwrap_or("");
            if !first.starts_with(&head) || !first.ends_with(&size) {
                return Err(format!("item {number} is {head} {size}, and in the text {first}"));
            }
            for line in printed {
                let there = told.next();
                if there.as_ref() != Some(&line) {
                    return Err(format!("item {number} gives {line}, and the text {there:?}"));
                }
            }
            if let Some(more) = told.next() {
                return Err(format!("item {number}: the text has also {more}"));
            }
        }
        Ok(())
    }

    /// The lines that dump-tree prints for an item's references.
    fn printed(&mut self, item: &Item) -> Fault<Vec<String>> {
        let data = &item.data;
        match item.key.1 {
            168 | 169 => {
                let args = [
                    Arg::Number(item.key.1.into()),
                    Arg::Bytes(data.clone()),
                    Arg::Cuts(vec![]),
                    Arg::Lent(0),
                ];
                self.ask("backref_inline_refs", &args)?;
                let body = Body::read(item.key.1, data).map_err(|s| format!("{s:?}"))?;
                self.records += 1;
                self.inline += body.references.len();
                let flags = match body.flags() {
                    1 => "DATA",
                    2 => "TREE_BLOCK",
                    258 => "TREE_BLOCK|FULL_BACKREF",
                    other => return Err(format!("flags {other}")),
                };
                let head = format!("refs {} gen {} flags {flags}", body.total, body.generation());
                let lines = body.references.iter().map(|r| {
                    let f = &r.fields;
                    let place = if r.kind == DATA { data_ref_hash(f[0], f[1], f[2]) } else { f[0] };
                    let count = r.count.unwrap_or(0);
                    let words = match r.kind {
                        OWNER => format!("textent owner root {}", f[0]),
                        BLOCK => format!("tree block backref root {}", f[0]),
                        DATA => format!(
                            "extent data backref root {} objectid {} offset {} count {count}",
                            f[0], f[1], f[2]
                        ),
                        SHARED_BLOCK => format!("shared block backref parent {}", f[0]),
                        _ => format!("shared data backref parent {} count {count}", f[0]),
                    };
                    format!("({} 0x{place:x}) {words}", r.kind)
                });
                Ok(std::iter::once(head).chain(lines).collect())
            }
            DATA => {
                self.own += 1;
                let f = |i: usize| le64(&data[8 * i..]);
                let count = model::asked::le32(&data[24..]);
                Ok(vec![format!(
                    "extent data backref root {} objectid {} offset {} count {count}",
                    f(0),
                    f(1),
                    f(2)
                )])
            }
            SHARED_DATA => {
                self.own += 1;
                Ok(vec![format!("shared data backref count {}", model::asked::le32(data))])
            }
            _ => Ok(vec![]),
        }
    }

    /// Every reference of the extent dropped and added again, new ones added, and shared ones added
    /// and dropped again.
    fn extent(&mut self, extent: u64, own: &[Item], nodesize: u64) -> Fault<()> {
        if !own.iter().any(|i| [168, 169].contains(&i.key.1)) || !balanced(own) {
            self.unbalanced += 1;
            // What does not balance is refused, whatever is posted.
            let said = self.post(nodesize, own, extent, [4, 5, 0, 0], 1)?;
            let refused = if balanced(own) { 5 } else { 4 };
            return if said.code == refused { Ok(()) } else { Err(format!("code {}", said.code)) };
        }
        self.extents += 1;
        let Some(record) = own.iter().find(|i| [168, 169].contains(&i.key.1)) else {
            return Ok(());
        };
        let body = Body::read(record.key.1, &record.data).map_err(|s| format!("{s:?}"))?;
        let mut names: Vec<[u64; 4]> =
            vec![[4, 999, 0, 0], [5, 999, 1, 2], [6, 182, 999, 0], [6, 184, 999, 0]];
        for r in &body.references {
            names.extend(named(r.kind, &r.fields));
        }
        for item in own {
            let f: Vec<u64> = match item.key.1 {
                DATA => (0..3).map(|i| le64(&item.data[8 * i..])).collect(),
                _ => vec![item.key.2],
            };
            names.extend(named(item.key.1, &f));
        }
        for drop in names {
            self.dropped_and_added(nodesize, own, extent, drop)?;
            if let [6, kind, parent, _] = drop {
                self.added_and_dropped(nodesize, own, extent, [kind, parent])?;
            }
        }
        Ok(())
    }

    /// A drop, then the add: the whole of a block, one count of another reference.
    fn dropped_and_added(
        &mut self,
        nodesize: u64,
        own: &[Item],
        extent: u64,
        drop: [u64; 4],
    ) -> Fault<()> {
        let [change, a, b, c] = drop;
        let dropped = self.post(nodesize, own, extent, drop, 1)?;
        let from = if dropped.code == 0 { items_of(&dropped)? } else { own.to_vec() };
        let added = self.post(nodesize, &from, extent, [change - 3, a, b, c], 1)?;
        for said in [&dropped, &added] {
            if said.code == 0 && !balanced(&items_of(said)?) {
                return Err(format!("change {change} of {extent} unbalances"));
            }
        }
        if dropped.code == 0 && added.code == 0 {
            let name = differential::generate::name_of(change, a, b, c);
            let (before, after) =
                (count(own, extent, &name), count(&items_of(&added)?, extent, &name));
            if before != after {
                return Err(format!("{name:?} counts {after} and not {before}"));
            }
        }
        Ok(())
    }

    /// A shared reference added, then dropped at once and in two parts: the old bytes, each time.
    fn added_and_dropped(
        &mut self,
        nodesize: u64,
        own: &[Item],
        extent: u64,
        [kind, parent]: [u64; 2],
    ) -> Fault<()> {
        let ways: &[&[u64]] = match kind == u64::from(SHARED_DATA) {
            true => &[&[3], &[2, 1]],
            false => &[&[1]],
        };
        let added = self.post(nodesize, own, extent, [3, kind, parent, 0], ways[0][0])?;
        if added.code != 0 {
            return Ok(());
        }
        self.restored += 1;
        self.in_parts += ways.len() - 1;
        for way in ways {
            let mut items = items_of(&added)?;
            for &part in *way {
                let said = self.post(nodesize, &items, extent, [6, kind, parent, 0], part)?;
                items = items_of(&said)?;
            }
            if bytes(&items) != bytes(own) {
                return Err(format!("{kind} {parent} of {extent} is not as before"));
            }
        }
        Ok(())
    }

    fn post(
        &mut self,
        nodesize: u64,
        items: &[Item],
        extent: u64,
        [change, a, b, c]: [u64; 4],
        amount: u64,
    ) -> Fault<Outcome> {
        self.posted += 1;
        let args = posting(nodesize, &bytes(items), [change, extent, a, b, c, amount]);
        let said = self.ask("ledger_post", &args)?;
        self.accepted += usize::from(said.code == 0);
        Ok(said)
    }

    /// The model's answer; the archive's is the same where it has the call.
    fn ask(&mut self, call: &str, args: &[Arg]) -> Fault<Outcome> {
        let args = lent(args, ample(args));
        let said = outcome(call, &args);
        if archive::has(call) {
            self.archived += 1;
            let given = self.archive.run(call, &args, true)?;
            if given != said {
                return Err(format!("{call} gives {} and the model {}", given.code, said.code));
            }
        }
        Ok(said)
    }
}

fn name(path: &Path) -> String {
    path.file_name().unwrap_or_default().to_string_lossy().into_owned()
}

fn items_of(said: &Outcome) -> Fault<Vec<Item>> {
    let sheet = written("ledger_post", said).bytes;
    read(&sheet).map_err(|stop| format!("a posting gives a sheet that is refused: {stop:?}"))
}

/// The drop of a name.
fn named(kind: u8, f: &[u64]) -> Option<[u64; 4]> {
    match kind {
        BLOCK => Some([4, f[0], 0, 0]),
        DATA => Some([5, f[0], f[1], f[2]]),
        SHARED_BLOCK | SHARED_DATA => Some([6, kind.into(), f[0], 0]),
        _ => None,
    }
}

fn kind_name(kind: u8) -> &'static str {
    match kind {
        168 => "EXTENT_ITEM",
        169 => "METADATA_ITEM",
        BLOCK => "TREE_BLOCK_REF",
        DATA => "EXTENT_DATA_REF",
        SHARED_BLOCK => "SHARED_BLOCK_REF",
        SHARED_DATA => "SHARED_DATA_REF",
        192 => "BLOCK_GROUP_ITEM",
        _ => "UNKNOWN",
    }
}

#[test]
fn an_empty_folder_fails() {
    assert_eq!(Run::default().nothing().len(), 14);
    let whole = Run {
        leaves: 1,
        same: 1,
        as_original: 1,
        damaged: 2,
        refused: 1,
        records: 1,
        inline: 1,
        own: 1,
        extents: 1,
        unbalanced: 1,
        accepted: 1,
        restored: 1,
        in_parts: 1,
        archived: 1,
        ..Run::default()
    };
    assert!(whole.nothing().is_empty());
    assert_eq!(Run { accepted: 0, ..whole }.nothing(), ["not one accepted posting"]);
}
