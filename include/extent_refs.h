/* Written by tools/declarations from calls.txt: do not edit.
 *
 * A call of which "Returns" is said returns that value and refuses nothing. Any other returns 0
 * where it is accepted, else the number of the question that refused it, 100 where a search found
 * nothing and 101 where an item is to be removed. On anything but 0 every lent number is 0 and
 * every other lent byte keeps its value; past an accepted result too.
 * A slice is a pointer, never null, and its number of elements. Lent buffers never overlap.
 *
 * "Asks" has the questions in the order in which they are put; the first "no" is the refusal.
 * 5n: of a reference; 5 alone is of the record, the key or the item number; 6h: of the 24 bytes
 * of the head alone; 17*: put only if the body grew; 21: of the lent output alone: the limits of
 * questions 1 and 3 hold the result in any case; 21+: of the lent output and of these limits;
 * 23: of a leaf image: it has nodesize bytes, level 0 and the right checksum; 24: of a leaf
 * image: its headers and data are packed, as btrfs has them; (n): put, but no input is answered
 * with "no"; n!: every input that comes to it is answered with "no"; absent: a search found
 * nothing: code 100, no refusal; remove: the item is to be removed: code 101, no refusal.
 */
#ifndef EXTENT_REFS_H
#define EXTENT_REFS_H

#include <stdbool.h>
#include <stddef.h>
#include <stdint.h>

#ifdef __cplusplus
extern "C" {
#endif

/* crc32c: the register and the table of a checksum */

/* Asks 21.
 * Gives the text of the polynomial's table: 256 lines of eight lower-case hexadecimal digits,
 * 2,304 bytes. */
uint32_t crc32c_table_text(uint32_t polynomial, uint8_t *out, size_t out_len, uint64_t *len);

/* Asks nothing.
 * Returns the register after the four bytes of the word, the lowest first. */
uint32_t crc32c_word_step(uint32_t register_, uint32_t word);

/* Asks nothing.
 * Returns the register after a run over the bytes; a checksum's register starts at 0xffffffff
 * and is inverted at the end. */
uint32_t crc32c_update(uint32_t register_, const uint8_t *bytes, size_t bytes_len);

/* extent_write: hash and allocation bodies */

/* Asks nothing.
 * Returns the hash. */
uint64_t extent_write_data_ref_hash(uint64_t tree, uint64_t objectid, uint64_t offset);

/* Asks nothing.
 * Gives the key (bytenr, 169, level). */
uint32_t extent_write_tree_block_key(
    uint64_t bytenr,
    uint8_t level,
    uint64_t *objectid,
    uint64_t *kind,
    uint64_t *offset);

/* Asks 21.
 * Gives 33 bytes. */
uint32_t extent_write_tree_block_body(
    uint64_t generation,
    uint64_t owner,
    uint8_t *out, size_t out_len,
    uint64_t *len);

/* Asks 21.
 * Gives 53 bytes. */
uint32_t extent_write_data_extent_body(
    uint64_t generation,
    uint64_t root,
    uint64_t ino,
    uint64_t offset,
    uint8_t *out, size_t out_len,
    uint64_t *len);

/* backref: bodies */

/* Asks 3 6h.
 * Gives the flags. */
uint32_t backref_flags(const uint8_t *body, size_t body_len, uint64_t *value);

/* Asks 3 6 7 8 21.
 * Gives the position of each reference in the body, in order, and how many there are. */
uint32_t backref_inline_refs(
    uint8_t item_type,
    const uint8_t *body, size_t body_len,
    uint16_t *positions, size_t positions_len,
    uint64_t *count);

/* Asks 3 6 7 8 5n.
 * Gives reference number n, from 0: its kind, its first field, where its payload stands in the
 * body and how long it is. */
uint32_t backref_inline_ref(
    uint8_t item_type,
    const uint8_t *body, size_t body_len,
    uint64_t number,
    uint64_t *kind,
    uint64_t *offset,
    uint64_t *start,
    uint64_t *len);

/* Asks 3 6 7 8 absent 21.
 * Gives the body without the first match, the total left; its count, 1 for 182. */
uint32_t backref_take_inline_shared(
    uint8_t item_type,
    const uint8_t *body, size_t body_len,
    uint8_t kind,
    uint64_t parent,
    uint8_t *out, size_t out_len,
    uint64_t *len,
    uint64_t *count);

/* Asks 3 6 7 8 9 21+.
 * Gives the body with the reference, the total left; the count plays no part. */
uint32_t backref_add_inline_keyed_block(
    uint8_t item_type,
    const uint8_t *body, size_t body_len,
    uint64_t tree,
    uint32_t count,
    uint8_t *out, size_t out_len,
    uint64_t *len);

/* Asks 3 6 7 8 10 11 21+.
 * Gives the body in which an equal triple gained the count, or with a new reference where there
 * was no 178; the total left. */
uint32_t backref_add_inline_keyed_data(
    uint8_t item_type,
    const uint8_t *body, size_t body_len,
    uint64_t tree,
    uint64_t objectid,
    uint64_t offset,
    uint32_t count,
    uint8_t *out, size_t out_len,
    uint64_t *len);

/* Asks 3 6 7 8 absent 13 21.
 * Gives the body with one count less, the reference gone where it was 0 or 1; the total down by
 * one. */
uint32_t backref_drop_inline_data_ref(
    uint8_t item_type,
    const uint8_t *body, size_t body_len,
    uint64_t tree,
    uint64_t objectid,
    uint64_t offset,
    uint8_t *out, size_t out_len,
    uint64_t *len);

/* Asks 3 15 16 remove 21.
 * Gives the item's data with one count less. */
uint32_t backref_drop_keyed_data_ref(
    const uint8_t *item, size_t item_len,
    uint64_t tree,
    uint64_t objectid,
    uint64_t offset,
    uint8_t *out, size_t out_len,
    uint64_t *len);

/* Asks 3 6h 13 21.
 * Gives the body, the total down by one. */
uint32_t backref_lower_total(
    uint8_t item_type,
    const uint8_t *body, size_t body_len,
    uint8_t *out, size_t out_len,
    uint64_t *len);

/* Asks 3 6h 14 21.
 * Gives the body, the total down by the count. */
uint32_t backref_reduce_total(
    uint8_t item_type,
    const uint8_t *body, size_t body_len,
    uint64_t total_count,
    uint8_t *out, size_t out_len,
    uint64_t *len);

/* Asks 3 6h 12 21.
 * Gives the body, the total up by the count. */
uint32_t backref_raise_total(
    uint8_t item_type,
    const uint8_t *body, size_t body_len,
    uint64_t total_count,
    uint8_t *out, size_t out_len,
    uint64_t *len);

/* Asks 3 6 7 8.
 * Gives 1 if the triple stands, else 0. */
uint32_t backref_holds_inline_data_ref(
    uint8_t item_type,
    const uint8_t *body, size_t body_len,
    uint64_t tree,
    uint64_t objectid,
    uint64_t offset,
    uint64_t *holds);

/* Asks 3 6 7 8 11 12 21+.
 * Gives the body in which an equal triple before the stop of the scan gained one, or with a new
 * one at the stop; the total up by one. */
uint32_t backref_add_inline_data_ref(
    uint8_t item_type,
    const uint8_t *body, size_t body_len,
    uint64_t tree,
    uint64_t objectid,
    uint64_t offset,
    uint8_t *out, size_t out_len,
    uint64_t *len);

/* Asks 3 6 7 8 9 12 21+.
 * Gives the body with the reference, the total up by one. */
uint32_t backref_add_inline_tree_ref(
    uint8_t item_type,
    const uint8_t *body, size_t body_len,
    uint64_t tree,
    uint8_t *out, size_t out_len,
    uint64_t *len);

/* Asks 21.
 * Gives 28 bytes. */
uint32_t backref_keyed_data_ref_body(
    uint64_t tree,
    uint64_t objectid,
    uint64_t offset,
    uint32_t count,
    uint8_t *out, size_t out_len,
    uint64_t *len);

/* Asks 3 6 7 8 9 10 11 12 21+.
 * Gives the body with the reference, or, for 184, in which an equal parent gained the count; the
 * total up by the count. */
uint32_t backref_add_inline_shared(
    uint8_t item_type,
    const uint8_t *body, size_t body_len,
    uint8_t kind,
    uint64_t parent,
    uint32_t count,
    uint8_t *out, size_t out_len,
    uint64_t *len);

/* Asks 3 6 7 8 absent 13 21.
 * Gives the body without the reference, the total down by one. */
uint32_t backref_drop_inline_tree_ref(
    uint8_t item_type,
    const uint8_t *body, size_t body_len,
    uint64_t tree,
    uint8_t *out, size_t out_len,
    uint64_t *len);

/* Asks 3 6h 21.
 * Gives the body, the flags or-ed. */
uint32_t backref_with_flags(
    const uint8_t *body, size_t body_len,
    uint64_t set,
    uint8_t *out, size_t out_len,
    uint64_t *len);

/* transaction: the named functions */

/* Asks 3.
 * Gives 1 if the offsets are all that holds the extent, else 0; a body that cannot be read says
 * 0. */
uint32_t transaction_held_only_by(
    const uint8_t *body, size_t body_len,
    uint64_t root,
    uint64_t ino,
    const uint64_t *offsets, size_t offsets_len,
    uint64_t *holds);

/* Asks 3.
 * Gives 1 if the item names the triple, else 0; fewer than 24 bytes say 0. */
uint32_t transaction_keyed_data_ref_names(
    const uint8_t *item, size_t item_len,
    uint64_t tree,
    uint64_t objectid,
    uint64_t offset,
    uint64_t *names);

/* Asks 3 21.
 * Gives the item's data: 4 bytes for 184, none for 182. */
uint32_t transaction_shared_add_item(
    uint8_t kind,
    uint32_t count,
    uint8_t *out, size_t out_len,
    uint64_t *len);

/* Asks 3.
 * Gives the item's key (bytenr, kind, parent). */
uint32_t transaction_shared_add_key(
    uint64_t bytenr,
    uint8_t kind,
    uint64_t parent,
    uint64_t *objectid,
    uint64_t *key_kind,
    uint64_t *offset);

/* Asks 3.
 * Gives 13 for 184, 9 for 182. */
uint32_t transaction_shared_add_inline_size(uint8_t kind, uint64_t *size);

/* Asks 3.
 * Gives the inline limit. */
uint32_t transaction_max_inline_extent_item(uint32_t nodesize, uint64_t *limit);

/* Asks 1 2 5.
 * Gives the item number of the extent's record. */
uint32_t transaction_record_of(
    const uint8_t *sheet, size_t sheet_len,
    uint64_t bytenr,
    uint64_t *number);

/* Asks as_item=1: 1 2 3 5 6h 12 21; else 1 2 3 5 6 7 8 9 12 17* 21+.
 * Gives the sheet with one reference more inline, whatever the count; as an item: the total up
 * by the count. */
uint32_t transaction_apply_keyed_add_block(
    uint32_t nodesize,
    const uint8_t *sheet, size_t sheet_len,
    uint64_t bytenr,
    uint64_t tree,
    uint32_t count,
    bool as_item,
    uint8_t *out, size_t out_len,
    uint64_t *len);

/* Asks as_item=1: 1 2 3 5 6h 12 21; else count=0: 1 2 3 5 21; else 1 2 3 5 6 7 8 11 12 17* 21+.
 * Gives the sheet with the count added at one name; the same sheet for count 0 inline; as an
 * item: the total up by the count. */
uint32_t transaction_apply_keyed_add_data(
    uint32_t nodesize,
    const uint8_t *sheet, size_t sheet_len,
    uint64_t bytenr,
    uint64_t tree,
    uint64_t objectid,
    uint64_t offset,
    uint32_t count,
    bool as_item,
    uint8_t *out, size_t out_len,
    uint64_t *len);

/* Asks as_item=1: 1 2 3 5 6h 12 17 21; else 1 2 3 5 6 7 8 9 10 11 12 17 21+.
 * Gives the sheet with the reference inline; as an item: the total up by the count. */
uint32_t transaction_apply_shared_add(
    uint32_t nodesize,
    const uint8_t *sheet, size_t sheet_len,
    uint64_t bytenr,
    uint8_t kind,
    uint64_t parent,
    uint32_t count,
    bool as_item,
    uint8_t *out, size_t out_len,
    uint64_t *len);

/* Asks as_item=1: 1 2 3 5 6h 14 21; else 1 2 3 5 6 7 8 5n 14 21.
 * Gives the sheet without the reference, the total down by the count that was passed; as an
 * item: the total alone. */
uint32_t transaction_apply_shared_drop(
    const uint8_t *sheet, size_t sheet_len,
    uint64_t bytenr,
    uint8_t kind,
    uint64_t parent,
    uint32_t count,
    bool as_item,
    uint8_t *out, size_t out_len,
    uint64_t *len);

/* Asks 1 2 5 6 7 8 5n 13 21.
 * Gives the sheet without the reference of the record (bytenr, 169, level), inline or else its
 * item (bytenr, 176, tree); the total down by one; own sets flag 256. */
uint32_t transaction_drop_kept_tree_ref(
    const uint8_t *sheet, size_t sheet_len,
    uint64_t bytenr,
    uint8_t level,
    uint64_t tree,
    bool own,
    uint8_t *out, size_t out_len,
    uint64_t *len);

/* leaf_edit: sheets */

/* Asks 1 2 3 9 18 21.
 * Gives the sheet with the item, which fits in a leaf. */
uint32_t leaf_edit_insert(
    uint32_t nodesize,
    const uint8_t *sheet, size_t sheet_len,
    uint64_t objectid,
    uint8_t kind,
    uint64_t offset,
    const uint8_t *data, size_t data_len,
    uint8_t *out, size_t out_len,
    uint64_t *len);

/* Asks 1 2 3 9 21+.
 * Gives the sheet with the item. */
uint32_t leaf_edit_insert_unbounded(
    const uint8_t *sheet, size_t sheet_len,
    uint64_t objectid,
    uint8_t kind,
    uint64_t offset,
    const uint8_t *data, size_t data_len,
    uint8_t *out, size_t out_len,
    uint64_t *len);

/* Asks 1 2 5 21.
 * Gives the sheet without the item. */
uint32_t leaf_edit_delete(
    const uint8_t *sheet, size_t sheet_len,
    uint64_t objectid,
    uint8_t kind,
    uint64_t offset,
    uint8_t *out, size_t out_len,
    uint64_t *len);

/* Asks 1 2 3.
 * Gives 1 if the items fit in a leaf, else 0. */
uint32_t leaf_edit_fit(uint32_t nodesize, const uint8_t *sheet, size_t sheet_len, uint64_t *fits);

/* Asks 1 2 3.
 * Gives 1 if the items and one more with this data fit in a leaf, else 0. */
uint32_t leaf_edit_fits(
    uint32_t nodesize,
    const uint8_t *sheet, size_t sheet_len,
    const uint8_t *data, size_t data_len,
    uint64_t *fits);

/* Asks 1 2 19 21.
 * Gives one cut: half the items, rounded up. */
uint32_t leaf_edit_split(
    const uint8_t *sheet, size_t sheet_len,
    uint16_t *cuts, size_t cuts_len,
    uint64_t *count);

/* Asks 1 2 3 18 19 (20) 21.
 * Gives the item number at which each later leaf starts, and how many cuts there are. */
uint32_t leaf_edit_split_to_fit(
    uint32_t nodesize,
    const uint8_t *sheet, size_t sheet_len,
    uint16_t *cuts, size_t cuts_len,
    uint64_t *count);

/* Asks 1 2 5.
 * Gives item number n, from 0: where its data stands in the sheet and how long it is. */
uint32_t leaf_edit_item(
    const uint8_t *sheet, size_t sheet_len,
    uint64_t number,
    uint64_t *start,
    uint64_t *len);

/* leaf_image: leaves as they stand on the card */

/* Asks 3 23 24 (1) 2 21.
 * Gives the sheet of the items in the image; nodesize - 100 bytes of room hold it in any case.
 * */
uint32_t leaf_image_read(
    uint32_t nodesize,
    const uint8_t *image, size_t image_len,
    uint8_t *out, size_t out_len,
    uint64_t *len);

/* Asks 1 2 3 18 21.
 * Gives the image of a leaf with these items, nodesize bytes; of the header, which has 101
 * bytes, bytes 32 to 95 are taken over. */
uint32_t leaf_image_write(
    uint32_t nodesize,
    const uint8_t *header, size_t header_len,
    const uint8_t *sheet, size_t sheet_len,
    uint8_t *out, size_t out_len,
    uint64_t *len);

/* ledger: postings */

/* Asks change=1: 1 2 3 4 5 9 (12) 17* 21+; else change=2: 1 2 3 4 5 9 10 11 (12) 17* 21+; else
 * change=3: 1 2 3 4 5 9 10 11 (12) 17 21+; else change=4: 1 2 3 4 5 5n 13 21; else change=5: 1 2
 * 3 4 5 5n 13 15 21; else change=6: 1 2 3 4 5 5n 10 22 21; else 1 2 3!.
 * Gives the sheet after the change: 1 add block (a tree), 2 add data (a tree, b objectid, c
 * offset; amount), 3 add shared (a kind, b parent; amount), 4 drop block (a tree), 5 drop data
 * (a tree, b objectid, c offset), 6 drop shared (a kind, b parent; amount: all that stands
 * removes the reference); a field that a change does not use plays no part; another number is
 * refused 3. */
uint32_t ledger_post(
    uint32_t nodesize,
    const uint8_t *sheet, size_t sheet_len,
    uint8_t change,
    uint64_t extent,
    uint64_t a,
    uint64_t b,
    uint64_t c,
    uint32_t amount,
    uint8_t *out, size_t out_len,
    uint64_t *len);

#ifdef __cplusplus
}
#endif

#endif
