//! Written by tools/declarations from include/calls.txt: do not edit.
//!
//! The archive's functions as they are linked. `lent` has the safe form of each.

extern "C" {
    pub fn crc32c_table_text(polynomial: u32, out: *mut u8, out_len: usize, len: *mut u64) -> u32;
    pub fn crc32c_word_step(register: u32, word: u32) -> u32;
    pub fn crc32c_update(register: u32, bytes: *const u8, bytes_len: usize) -> u32;
    pub fn extent_write_data_ref_hash(tree: u64, objectid: u64, offset: u64) -> u64;
    pub fn extent_write_tree_block_key(
        bytenr: u64,
        level: u8,
        objectid: *mut u64,
        kind: *mut u64,
        offset: *mut u64,
    ) -> u32;
    pub fn extent_write_tree_block_body(
        generation: u64,
        owner: u64,
        out: *mut u8,
        out_len: usize,
        len: *mut u64,
    ) -> u32;
    pub fn extent_write_data_extent_body(
        generation: u64,
        root: u64,
        ino: u64,
        offset: u64,
        out: *mut u8,
        out_len: usize,
        len: *mut u64,
    ) -> u32;
    pub fn backref_flags(body: *const u8, body_len: usize, value: *mut u64) -> u32;
    pub fn backref_inline_refs(
        item_type: u8,
        body: *const u8,
        body_len: usize,
        positions: *mut u16,
        positions_len: usize,
        count: *mut u64,
    ) -> u32;
    pub fn backref_inline_ref(
        item_type: u8,
        body: *const u8,
        body_len: usize,
        number: u64,
        kind: *mut u64,
        offset: *mut u64,
        start: *mut u64,
        len: *mut u64,
    ) -> u32;
    pub fn backref_take_inline_shared(
        item_type: u8,
        body: *const u8,
        body_len: usize,
        kind: u8,
        parent: u64,
        out: *mut u8,
        out_len: usize,
        len: *mut u64,
        count: *mut u64,
    ) -> u32;
    pub fn backref_add_inline_keyed_block(
        item_type: u8,
        body: *const u8,
        body_len: usize,
        tree: u64,
        count: u32,
        out: *mut u8,
        out_len: usize,
        len: *mut u64,
    ) -> u32;
    pub fn backref_add_inline_keyed_data(
        item_type: u8,
        body: *const u8,
        body_len: usize,
        tree: u64,
        objectid: u64,
        offset: u64,
        count: u32,
        out: *mut u8,
        out_len: usize,
        len: *mut u64,
    ) -> u32;
    pub fn backref_drop_inline_data_ref(
        item_type: u8,
        body: *const u8,
        body_len: usize,
        tree: u64,
        objectid: u64,
        offset: u64,
        out: *mut u8,
        out_len: usize,
        len: *mut u64,
    ) -> u32;
    pub fn backref_drop_keyed_data_ref(
        item: *const u8,
        item_len: usize,
        tree: u64,
        objectid: u64,
        offset: u64,
        out: *mut u8,
        out_len: usize,
        len: *mut u64,
    ) -> u32;
    pub fn backref_lower_total(
        item_type: u8,
        body: *const u8,
        body_len: usize,
        out: *mut u8,
        out_len: usize,
        len: *mut u64,
    ) -> u32;
    pub fn backref_reduce_total(
        item_type: u8,
        body: *const u8,
        body_len: usize,
        total_count: u64,
        out: *mut u8,
        out_len: usize,
        len: *mut u64,
    ) -> u32;
    pub fn backref_raise_total(
        item_type: u8,
        body: *const u8,
        body_len: usize,
        total_count: u64,
        out: *mut u8,
        out_len: usize,
        len: *mut u64,
    ) -> u32;
    pub fn backref_holds_inline_data_ref(
        item_type: u8,
        body: *const u8,
        body_len: usize,
        tree: u64,
        objectid: u64,
        offset: u64,
        holds: *mut u64,
    ) -> u32;
    pub fn backref_add_inline_data_ref(
        item_type: u8,
        body: *const u8,
        body_len: usize,
        tree: u64,
        objectid: u64,
        offset: u64,
        out: *mut u8,
        out_len: usize,
        len: *mut u64,
    ) -> u32;
    pub fn backref_add_inline_tree_ref(
        item_type: u8,
        body: *const u8,
        body_len: usize,
        tree: u64,
        out: *mut u8,
        out_len: usize,
        len: *mut u64,
    ) -> u32;
    pub fn backref_keyed_data_ref_body(
        tree: u64,
        objectid: u64,
        offset: u64,
        count: u32,
        out: *mut u8,
        out_len: usize,
        len: *mut u64,
    ) -> u32;
    pub fn backref_add_inline_shared(
        item_type: u8,
        body: *const u8,
        body_len: usize,
        kind: u8,
        parent: u64,
        count: u32,
        out: *mut u8,
        out_len: usize,
        len: *mut u64,
    ) -> u32;
    pub fn backref_drop_inline_tree_ref(
        item_type: u8,
        body: *const u8,
        body_len: usize,
        tree: u64,
        out: *mut u8,
        out_len: usize,
        len: *mut u64,
    ) -> u32;
    pub fn backref_with_flags(
        body: *const u8,
        body_len: usize,
        set: u64,
        out: *mut u8,
        out_len: usize,
        len: *mut u64,
    ) -> u32;
    pub fn transaction_held_only_by(
        body: *const u8,
        body_len: usize,
        root: u64,
        ino: u64,
        offsets: *const u64,
        offsets_len: usize,
        holds: *mut u64,
    ) -> u32;
    pub fn transaction_keyed_data_ref_names(
        item: *const u8,
        item_len: usize,
        tree: u64,
        objectid: u64,
        offset: u64,
        names: *mut u64,
    ) -> u32;
    pub fn transaction_shared_add_item(
        kind: u8,
        count: u32,
        out: *mut u8,
        out_len: usize,
        len: *mut u64,
    ) -> u32;
    pub fn transaction_shared_add_key(
        bytenr: u64,
        kind: u8,
        parent: u64,
        objectid: *mut u64,
        key_kind: *mut u64,
        offset: *mut u64,
    ) -> u32;
    pub fn transaction_shared_add_inline_size(kind: u8, size: *mut u64) -> u32;
    pub fn transaction_max_inline_extent_item(nodesize: u32, limit: *mut u64) -> u32;
    pub fn transaction_record_of(
        sheet: *const u8,
        sheet_len: usize,
        bytenr: u64,
        number: *mut u64,
    ) -> u32;
    pub fn transaction_apply_keyed_add_block(
        nodesize: u32,
        sheet: *const u8,
        sheet_len: usize,
        bytenr: u64,
        tree: u64,
        count: u32,
        as_item: bool,
        out: *mut u8,
        out_len: usize,
        len: *mut u64,
    ) -> u32;
    pub fn transaction_apply_keyed_add_data(
        nodesize: u32,
        sheet: *const u8,
        sheet_len: usize,
        bytenr: u64,
        tree: u64,
        objectid: u64,
        offset: u64,
        count: u32,
        as_item: bool,
        out: *mut u8,
        out_len: usize,
        len: *mut u64,
    ) -> u32;
    pub fn transaction_apply_shared_add(
        nodesize: u32,
        sheet: *const u8,
        sheet_len: usize,
        bytenr: u64,
        kind: u8,
        parent: u64,
        count: u32,
        as_item: bool,
        out: *mut u8,
        out_len: usize,
        len: *mut u64,
    ) -> u32;
    pub fn transaction_apply_shared_drop(
        sheet: *const u8,
        sheet_len: usize,
        bytenr: u64,
        kind: u8,
        parent: u64,
        count: u32,
        as_item: bool,
        out: *mut u8,
        out_len: usize,
        len: *mut u64,
    ) -> u32;
    pub fn transaction_drop_kept_tree_ref(
        sheet: *const u8,
        sheet_len: usize,
        bytenr: u64,
        level: u8,
        tree: u64,
        own: bool,
        out: *mut u8,
        out_len: usize,
        len: *mut u64,
    ) -> u32;
    pub fn leaf_edit_insert(
        nodesize: u32,
        sheet: *const u8,
        sheet_len: usize,
        objectid: u64,
        kind: u8,
        offset: u64,
        data: *const u8,
        data_len: usize,
        out: *mut u8,
        out_len: usize,
        len: *mut u64,
    ) -> u32;
    pub fn leaf_edit_insert_unbounded(
        sheet: *const u8,
        sheet_len: usize,
        objectid: u64,
        kind: u8,
        offset: u64,
        data: *const u8,
        data_len: usize,
        out: *mut u8,
        out_len: usize,
        len: *mut u64,
    ) -> u32;
    pub fn leaf_edit_delete(
        sheet: *const u8,
        sheet_len: usize,
        objectid: u64,
        kind: u8,
        offset: u64,
        out: *mut u8,
        out_len: usize,
        len: *mut u64,
    ) -> u32;
    pub fn leaf_edit_fit(nodesize: u32, sheet: *const u8, sheet_len: usize, fits: *mut u64) -> u32;
    pub fn leaf_edit_fits(
        nodesize: u32,
        sheet: *const u8,
        sheet_len: usize,
        data: *const u8,
        data_len: usize,
        fits: *mut u64,
    ) -> u32;
    pub fn leaf_edit_split(
        sheet: *const u8,
        sheet_len: usize,
        cuts: *mut u16,
        cuts_len: usize,
        count: *mut u64,
    ) -> u32;
    pub fn leaf_edit_split_to_fit(
        nodesize: u32,
        sheet: *const u8,
        sheet_len: usize,
        cuts: *mut u16,
        cuts_len: usize,
        count: *mut u64,
    ) -> u32;
    pub fn leaf_edit_item(
        sheet: *const u8,
        sheet_len: usize,
        number: u64,
        start: *mut u64,
        len: *mut u64,
    ) -> u32;
    pub fn leaf_image_read(
        nodesize: u32,
        image: *const u8,
        image_len: usize,
        out: *mut u8,
        out_len: usize,
        len: *mut u64,
    ) -> u32;
    pub fn leaf_image_write(
        nodesize: u32,
        header: *const u8,
        header_len: usize,
        sheet: *const u8,
        sheet_len: usize,
        out: *mut u8,
        out_len: usize,
        len: *mut u64,
    ) -> u32;
    pub fn ledger_post(
        nodesize: u32,
        sheet: *const u8,
        sheet_len: usize,
        change: u8,
        extent: u64,
        a: u64,
        b: u64,
        c: u64,
        amount: u32,
        out: *mut u8,
        out_len: usize,
        len: *mut u64,
    ) -> u32;
}
