//! The functions that document 01 names and the original keeps private, and postings: over the
//! original, whose functions `public` hands on, and over the crate with its own types.
use crate::swap::Given;

const OWN: [bool; 2] = [false, true];

pub fn over_original(g: &Given) -> Vec<String> {
    use original::backref::Keyed;
    use original::chunk::DiskKey;
    use original::leaf_edit::OwnedItem;
    use original::transaction::public;
    let list = || -> Vec<OwnedItem> {
        let owned = |i: &model::sheet::Item| OwnedItem {
            key: DiskKey { objectid: i.key.0, key_type: i.key.1, offset: i.key.2 },
            data: i.data.clone(),
        };
        g.items.iter().map(owned).collect()
    };
    let (size, extent, kind, count) = (g.nodesize, g.extent, g.kind, g.count);
    let [a, b, c] = g.triple;
    let items = list();
    let item = public::shared_add_item(extent, kind, a, count);
    let mut texts = vec![
        format!("{:?}", public::record_of(&items, extent)),
        format!("{:?}", public::max_inline_extent_item(size)),
        format!("{:?}", public::keyed_data_ref_names(&g.body, a, b, c)),
        format!("{:?}", public::held_only_by(&g.body, a, b, &g.offsets)),
        format!("{:?}", public::data_extent_body(a, b, c, extent)),
        format!("{:?} {:?}", item.key, item),
        format!("{:?}", public::shared_add_inline_size(kind)),
    ];
    for own in OWN {
        let block = Keyed::Block { tree: a };
        let data = Keyed::Data { tree: a, objectid: b, offset: c };
        texts.extend([
            format!("{:?}", public::apply_keyed_add(size, list(), extent, block, count, own).ok()),
            format!("{:?}", public::apply_keyed_add(size, list(), extent, data, count, own).ok()),
            format!(
                "{:?}",
                public::apply_shared_add(size, list(), extent, kind, a, count, own).ok()
            ),
            format!("{:?}", public::apply_shared_drop(list(), extent, kind, a, count, own).ok()),
            format!("{:?}", public::drop_kept_tree_ref(list(), extent, a, g.level, own).ok()),
        ]);
    }
    for change in 1..=6 {
        let name = if change % 3 == 0 { [u64::from(kind), a, 0] } else { g.triple };
        let posted = crate::original::post(size, list(), change, extent, name, count);
        texts.push(format!("{:?}", posted.ok()));
    }
    texts
}

pub fn over_archive(g: &Given) -> Vec<String> {
    use extent_refs::backref::Keyed;
    use extent_refs::chunk::DiskKey;
    use extent_refs::leaf_edit::OwnedItem;
    use extent_refs::ledger::{self, Change, DataRef, SharedRef};
    use extent_refs::transaction::{self, KeyedAdd, KeyedItem, Rewrite, SharedAdd, SharedDrop};
    let key =
        |i: &model::sheet::Item| DiskKey { objectid: i.key.0, key_type: i.key.1, offset: i.key.2 };
    let list = || -> Vec<OwnedItem> {
        g.items.iter().map(|i| OwnedItem { key: key(i), data: i.data.clone() }).collect()
    };
    let (size, bytenr, kind, count) = (g.nodesize, g.extent, g.kind, g.count);
    let [a, b, c] = g.triple;
    let items = list();
    let add = SharedAdd { bytenr, kind, parent: a, count, item_leaf: None };
    let mut texts = vec![
        format!("{:?}", transaction::record_of(&items, bytenr)),
        format!("{:?}", transaction::max_inline_extent_item(size)),
        format!("{:?}", transaction::keyed_data_ref_names(&g.body, a, b, c)),
        format!("{:?}", transaction::held_only_by(&g.body, a, b, &g.offsets)),
        format!("{:?}", transaction::data_extent_body(a, b, c, bytenr)),
        format!("{:?} {:?}", add.item_key(), add.item()),
        format!("{:?}", add.inline_size()),
    ];
    for own in OWN {
        let item_leaf = own.then_some(0);
        let item =
            own.then(|| KeyedItem { key: add.item_key(), data: vec![], leaf: 0, replaces: false });
        let block = KeyedAdd { bytenr, keyed: Keyed::Block { tree: a }, count, item: item.clone() };
        let keyed = Keyed::Data { tree: a, objectid: b, offset: c };
        let data = KeyedAdd { bytenr, keyed, count, item };
        let add = SharedAdd { item_leaf, ..add };
        let drop = SharedDrop { bytenr, kind, parent: a, count, item_leaf };
        let rewrite = Rewrite { old: bytenr, new: 0, owner: a, level: g.level };
        texts.extend([
            format!("{:?}", transaction::apply_keyed_add(size, list(), &block).ok()),
            format!("{:?}", transaction::apply_keyed_add(size, list(), &data).ok()),
            format!("{:?}", transaction::apply_shared_add(size, list(), &add).ok()),
            format!("{:?}", transaction::apply_shared_drop(list(), &drop).ok()),
            format!("{:?}", transaction::drop_kept_tree_ref(list(), &rewrite, own).ok()),
        ]);
    }
    let data = DataRef { tree: a, objectid: b, offset: c };
    let shared = SharedRef { kind, parent: a };
    for change in [
        Change::AddBlock { tree: a },
        Change::AddData { name: data, amount: count },
        Change::AddShared { name: shared, amount: count },
        Change::DropBlock { tree: a },
        Change::DropData { name: data },
        // The original's take is all that stands.
        Change::DropShared { name: shared, amount: g.stands },
    ] {
        texts.push(format!("{:?}", ledger::post(size, &items, bytenr, change).ok()));
    }
    texts
}
