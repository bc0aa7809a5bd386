/* braidhurdle.h: columns of a table schema, changed, pruned, renumbered and looked up.
 *
 * This header is the manual of the C boundary. Every function is a thin layer over a proved library: what it says here of
 * sizes, of what is written and of what a refusal leaves is proved of the Rattle source (docs/PROMISES.md), and so is the order
 * of arguments and of a result's numbers (Tied.antt of crates/braidhurdle_c and crates/braidhurdle). What is not proved is this
 * declaration itself: keep it as it is. examples/c/calls.c calls every function; examples/c/revise.c takes a tree in files
 * through a board revision; docs/USING.md says how to link.
 *
 * Calls. No function has a state, allocates, or keeps a pointer: each may be called from any thread at any time. No call needs a
 * check first: any bytes at all get an answer. Each list is a pointer and a length in BYTES, and its pointer needs no alignment.
 *
 * Null. A list or buffer of length 0 may have any pointer, null too: nothing behind it is read or written. (A buffer of records
 * or names of length 0 is below its size, so it is refused with 1.) The proofs' language has no null; see docs/DECISIONS.md.
 *
 * Overlap. A buffer that is written must share no byte with another buffer or list of the same call. Of a call in which it does,
 * nothing at all is promised: the proofs speak of buffers that stand apart. Lists that are only read may share bytes.
 *
 * Machines. The functions follow the C of the machine that the archive was made for, so this header is the same everywhere. The
 * toolchain compiles for x86-64-v2: a processor with SSE4.2 and POPCNT, for which the functions don't ask. tools/staticlib says
 * how the archive of another machine is made. Ids are two's complement.
 *
 * A tree is a list of 24-byte records in preorder, and a pool of names (document 01, 'Tree records'). Little-endian:
 *   0-3 id, signed            9  kind: 0 primitive, 1 struct, 2 list, 3 map     12-13 direct children
 *   4-7 name offset           10 bit 0 required, bit 1 has an initial default   16-19 type code, 0 unless primitive
 *   8   name length           11 is 0                                          20-23 attribute number (14-15 are 0)
 * Type codes are those of the types that BRAIDHURDLE_TYPES and BRAIDHURDLE_TYPE_DECIMAL have. Any other code is a number that the
 * host knows: the library keeps it, and never widens such a column. From version 8 on: before, only 5 and 6 had a meaning.
 * A path entry is 8 bytes: offset (4), length (2), has-path (1), then 0 (1). has-path is 1; or 0, with offset and length 0, for
 * an addition at the root. A list of ids is 4 bytes an id.
 * An edit is 16 bytes, and changes the column that its path finds. Path and new name stand in the pool of the request:
 *   0-3 path offset           6  1 renames, 2 relaxes, 3 widens                 8-11 new name offset, or new type code, or 0
 *   4-5 path length           7  is 0                                          12   new name length, or 0 (13-15 are 0)
 *
 * Identifiers are the ids of the columns by which rows are told apart. Each is in the tree, a primitive, required, neither float
 * nor double, and every record above it is a required struct: so no element, key or value is one, nor what is inside of it. The
 * first identifier that breaks any of these is refused with 9, list 5. An update asks that of the tree that is given and of the
 * one that it would write, where an id may be gone, be that of another column if last_id was too low, or stand in what is relaxed;
 * renumbering asks it of the tree that is given. From version 6 on: before, an identifier had to be in the tree and no more.
 *
 * Limits: 1,024 records, 16 levels, 32,768 bytes in a pool, 32,768 as the sum of a tree's name lengths, 64 deletions, 64
 * additions, 64 edits, 64 identifiers, 1,024 selected ids, 1,024 ids asked for at once.
 *
 * Output buffers: at least 24,576 record bytes and 32,768 name bytes; identifiers out, as many bytes as identifiers in; slots
 * out, as many bytes as ids in. On acceptance the answer stands at the start of each buffer, and bytes beyond it are unchanged.
 * On a refusal no byte of any buffer is changed.
 *
 * Refusals have a number, a list and a place in it. BRAIDHURDLE_REFUSALS and BRAIDHURDLE_LISTS below have the numbers and their
 * meaning. The place is a slot of a tree, or a place in a list of entries or ids, counted from 0.
 */
#ifndef BRAIDHURDLE_H
#define BRAIDHURDLE_H

#include <stddef.h>
#include <stdint.h>

/* The version of this boundary. It changes with any name, argument, result or size here, and with a call answered otherwise. */
#define BRAIDHURDLE_VERSION 9
/* The least output buffers, in bytes. */
#define BRAIDHURDLE_RECORD_ROOM 24576
#define BRAIDHURDLE_NAME_ROOM 32768
/* What stands for a slot where an id is not in the tree. No slot is so large. */
#define BRAIDHURDLE_NO_SLOT UINT32_MAX

/* Every refusal: X(number, name, what it says). Later versions may have more of them. */
#define BRAIDHURDLE_REFUSALS(X) \
    X(1, SMALL_BUFFER, "an output buffer is below its size") \
    X(2, PAST_LIMIT, "a limit on an input count, length or name sum is passed, or a list is no whole number of records") \
    X(3, BROKEN_BYTE, "a byte rule of a record or entry is broken") \
    X(4, OUTSIDE_POOL, "a name or path has offset + length above its pool's length") \
    X(5, BAD_SHAPE, "level 17 is reached, or counts need records past the end") \
    X(6, BAD_LABEL, "an element, key or value is named otherwise") \
    X(7, ID_TWICE, "an id equals an earlier one") \
    X(8, NAME_TWICE, "a full name equals an earlier one") \
    X(9, UNKNOWN_IDENTIFIER, "an identifier id is not in the tree; or its column, or what stands above that, breaks a condition") \
    X(10, UNMATCHED_ROOTS, "roots of the additions tree differ from additions") \
    X(11, NO_SUCH_COLUMN, "a deletion finds no column") \
    X(12, DROPS_IDENTIFIER, "a deletion finds an identifier") \
    X(13, DOTTED_NAME, "the added column's own name has a dot; or the new name of a rename has one") \
    X(14, NO_DEFAULT, "the added column is required, without initial default") \
    X(15, NO_SUCH_PARENT, "the parent path finds nothing") \
    X(16, NO_STRUCT, "the parent leads to no struct") \
    X(17, NAME_TAKEN, "the name is taken") \
    X(18, NO_IDS_LEFT, "an id would pass 2,147,483,647") \
    X(19, REBUILT_PAST_LIMIT, "the rebuilt tree passes a limit on trees (records, levels or name sum)") \
    X(20, LIST_OR_MAP_CHOSEN, "pruning meets a list or map chosen directly, not in full mode") \
    X(21, AMBIGUOUS, "two columns match at the same level where case is forgotten") \
    X(22, PARENT_GONE, "the receiving struct, or a record above it, is dropped as a member of a struct or of the root") \
    X(23, NO_SURVIVING_COLUMN, "an edit finds no column that stays") \
    X(24, EDIT_NOT_ALLOWED, "an edit that its column's role forbids, or a second rename or widening of a column") \
    X(25, UNKNOWN_VERSION, "the format version is unknown") \
    X(26, STEP_NOT_ALLOWED, "a widening of what is no primitive, or by a step that the version does not allow")

/* Every list that a refusal may speak of: X(number, name, what it is). Later versions may have more of them. */
#define BRAIDHURDLE_LISTS(X) \
    X(0, BASE, "base") \
    X(1, ADDITIONS_TREE, "additions tree") \
    X(2, DELETIONS, "deletions") \
    X(3, ADDITIONS, "additions") \
    X(4, REBUILT_TREE, "rebuilt tree") \
    X(5, IDENTIFIERS, "identifiers") \
    X(6, EDITS, "edits")

/* Every type but decimals: X(type code, name, what the table specification calls it). Later versions may have more of them. */
#define BRAIDHURDLE_TYPES(X) \
    X(1, BOOLEAN, "boolean") \
    X(2, INT, "int") \
    X(3, LONG, "long") \
    X(4, DATE, "date") \
    X(5, FLOAT, "float") \
    X(6, DOUBLE, "double") \
    X(7, TIMESTAMP, "timestamp") \
    X(8, TIMESTAMP_NS, "timestamp_ns") \
    X(9, STRING, "string")

/* The values of `refusal`: BRAIDHURDLE_ACCEPTED, BRAIDHURDLE_SMALL_BUFFER, .. */
#define BRAIDHURDLE_REFUSAL(number, name, says) BRAIDHURDLE_##name = number,
enum braidhurdle_refusal { BRAIDHURDLE_ACCEPTED = 0, BRAIDHURDLE_REFUSALS(BRAIDHURDLE_REFUSAL) };

/* The values of `list`: BRAIDHURDLE_LIST_BASE, .. */
#define BRAIDHURDLE_LIST(number, name, what) BRAIDHURDLE_LIST_##name = number,
enum braidhurdle_list { BRAIDHURDLE_LISTS(BRAIDHURDLE_LIST) };

/* Type codes: BRAIDHURDLE_TYPE_BOOLEAN, .. */
#define BRAIDHURDLE_TYPE(code, name, word) BRAIDHURDLE_TYPE_##name = code,
enum braidhurdle_type { BRAIDHURDLE_TYPES(BRAIDHURDLE_TYPE) };
/* The type code of decimal(precision,scale): precision 1 to 38, scale 0 to precision. With other numbers it is no type's. */
#define BRAIDHURDLE_TYPE_DECIMAL(precision, scale) (65536 + 256 * (uint32_t)(precision) + (uint32_t)(scale))

/* Byte 6 of an edit: a new name; or no longer required; or a wider type. Later versions may have more of them. */
enum braidhurdle_edit { BRAIDHURDLE_RENAME = 1, BRAIDHURDLE_RELAX = 2, BRAIDHURDLE_WIDEN = 3 };

/* The format versions of a table, by whose steps an update widens. Later versions may have more of them. */
enum braidhurdle_format { BRAIDHURDLE_FORMAT_2 = 2, BRAIDHURDLE_FORMAT_3 = 3 };

#ifdef __cplusplus
extern "C" {
#endif

/* What update, prune and renumber answer. refusal 0: accepted; then the first `records` * 24 bytes of out_records and the first
 * `names` bytes of out_names are the tree. last_id and visited are 0 but for an accepted update. On a refusal the last four are
 * 0.
 *
 * visited is how many records the rebuild of an update visits, to plan a time slot by: each record of the base with no dropped
 * member of a struct or of the root above it, and each added record. So a dropped member counts, and what stands inside it does
 * not. An element, key or value that is dropped stays, and is no reason to leave out what stands inside it. In all it is at most
 * the records of the base and those added; and at most 1,088, since an answer has at most 1,024 records and a request at most 64
 * deletions. From version 9 on: before, last_id was the last number. */
struct braidhurdle_changed {
    uint32_t refusal, list, place;
    uint32_t records, names;
    int32_t last_id;
    uint32_t visited;
};

/* What a look-up answers. found is 0 or 1. Where nothing is found, or on a refusal, id and slot are 0. */
struct braidhurdle_found {
    uint32_t refusal, list, place;
    uint32_t found;
    int32_t id;
    uint32_t slot;
};

/* What a look-up of many ids answers. found is how many of them were found; an id that is asked for twice counts twice. On a
 * refusal it is 0. */
struct braidhurdle_searched {
    uint32_t refusal, list, place;
    uint32_t found;
};

/* Where a name stands in the pool. found is 0 or 1. Where there is no record, or on a refusal, offset and length are 0. */
struct braidhurdle_name {
    uint32_t refusal, list, place;
    uint32_t found;
    uint32_t offset, length;
};

/* Answers 9, the version of this boundary, which its name has too: an archive of another version has another name here. A program
 * that refers to it therefore links with no archive whose functions are declared otherwise. */
uint32_t braidhurdle_abi_9(void);

/* Drops, adds and edits columns. Deletions and additions are path entries into request_pool; the k-th root of added_records
 * belongs to the k-th addition, its names too stand in request_pool, and ids in it are ignored. Ids are handed out from last_id +
 * 1: the largest id in the tree is not enough, since that column may have been dropped. The answer's last_id is what to give next
 * time; every id from last_id + 1 up to it is in the answer. Refusals 1 to 19, and 22 between 16 and 17 of the same addition:
 * nothing is added to what the same request drops. An element, key or value that is dropped stays, and takes additions. From
 * version 5 on.
 *
 * Edits come after the additions, and all paths are looked up in the tree as it was: so an edit changes a column of it that stays,
 * and none that is added. A rename gives a new name, which may be empty; a relaxing makes a column optional, as it may be already.
 * Each edit in turn, after 18 of the last addition, list 6: 23 where it finds no column that stays; 24 for a rename of an element,
 * key or value, for a second rename of a column, and for a relaxing of a key, an optional one too; 13 for a dot in the new name.
 * Two columns can exchange their names; but a name that a rename frees is still taken for an addition (17). Two columns of one
 * name in the end are refused with 8, list 4, and a relaxed identifier, or one below what is relaxed, with 9. From version 7 on:
 * before, there was no argument `edits`, and without edits nothing is answered otherwise.
 *
 * A widening gives a primitive a wider type, in any role, by a step of the format version (braidhurdle_format). 2: int to long,
 * float to double, a decimal to a higher precision with equal scale. 3: these, date to timestamp and date to timestamp_ns. Of each
 * edit, list 6: 24 for a second widening of a column; then 26 where the column is no primitive, or the format version has no step
 * from its type, as it was, to the new one: so none to the same type, and none from or to a code that no type has. A column may be
 * renamed, relaxed and widened at once, and an identifier that is widened stays one. Every update names a format version: another
 * than 2 and 3 is refused with 25, list 0, place 0, after 2 and before all else. From version 8 on: before, there was no argument
 * `version`, and with 2 or 3 and without widenings nothing is answered otherwise. */
struct braidhurdle_changed braidhurdle_update(
    const uint8_t *records, size_t records_len, const uint8_t *pool, size_t pool_len,
    const uint8_t *identifiers, size_t identifiers_len, int32_t last_id, uint32_t version,
    const uint8_t *deletions, size_t deletions_len, const uint8_t *additions, size_t additions_len,
    const uint8_t *added_records, size_t added_records_len, const uint8_t *edits, size_t edits_len,
    const uint8_t *request_pool, size_t request_pool_len,
    uint8_t *out_records, size_t out_records_len, uint8_t *out_names, size_t out_names_len);

/* Keeps the selected columns. full: not 0 keeps a chosen column's whole type. Selected ids that the tree has not are ignored.
 * Refusals 1 to 8 and 20. */
struct braidhurdle_changed braidhurdle_prune(
    const uint8_t *records, size_t records_len, const uint8_t *pool, size_t pool_len,
    const uint8_t *selected, size_t selected_len, uint32_t full,
    uint8_t *out_records, size_t out_records_len, uint8_t *out_names, size_t out_names_len);

/* Numbers every column anew, level by level, from start on. Identifiers are mapped in the order given: the first
 * `identifiers_len` bytes of out_identifiers are their new ids. Refusals 1 to 9 and 18. */
struct braidhurdle_changed braidhurdle_renumber(
    const uint8_t *records, size_t records_len, const uint8_t *pool, size_t pool_len,
    const uint8_t *identifiers, size_t identifiers_len, int32_t start,
    uint8_t *out_records, size_t out_records_len, uint8_t *out_names, size_t out_names_len,
    uint8_t *out_identifiers, size_t out_identifiers_len);

/* The column of a full name, or else of a short name: its id and slot. A name is any bytes, of any length. Refusals 2 to 8. */
struct braidhurdle_found braidhurdle_find_name(
    const uint8_t *records, size_t records_len, const uint8_t *pool, size_t pool_len, const uint8_t *name, size_t name_len);

/* The same where case is forgotten: A to Z equal a to z, in the tree's names and in the asked one, and no other byte folds.
 * Refusals 2 to 8; then 21, list 0, where two or more columns match by their full names, or, if none does, by their short names,
 * whether or not one is spelt as asked: the place is the slot of the second, in slot order. One full name hides any number of
 * short ones. From version 3 on. */
struct braidhurdle_found braidhurdle_find_folded(
    const uint8_t *records, size_t records_len, const uint8_t *pool, size_t pool_len, const uint8_t *name, size_t name_len);

/* The column of an id: that id and its slot. Refusals 2 to 8. */
struct braidhurdle_found braidhurdle_find_id(
    const uint8_t *records, size_t records_len, const uint8_t *pool, size_t pool_len, int32_t id);

/* The slots of many ids, at most 1,024; the tree is tested once for all of them. For each id out_slots gets 4 bytes, in the order
 * of ids: the slot, little-endian, or BRAIDHURDLE_NO_SLOT where the tree has no such id. Refusals 1, where out_slots_len is below
 * ids_len, and 2 to 8; with no ids the tree is tested too. From version 4 on. */
struct braidhurdle_searched braidhurdle_find_ids(
    const uint8_t *records, size_t records_len, const uint8_t *pool, size_t pool_len,
    const uint8_t *ids, size_t ids_len, uint8_t *out_slots, size_t out_slots_len);

/* The column above that of an id: its id and slot. Nothing for a root, and for an id that the tree has not. Refusals 2 to 8. */
struct braidhurdle_found braidhurdle_find_parent(
    const uint8_t *records, size_t records_len, const uint8_t *pool, size_t pool_len, int32_t id);

/* The name of the record at a slot: `length` bytes of the pool from `offset` on. That record alone is read, so it takes the same
 * time for every tree, and the tree is not tested: ask a look-up first. Nothing for a slot behind the last record. Refusal 4,
 * list 0 and the slot as its place, where the name passes the end of the pool. */
struct braidhurdle_name braidhurdle_found_name(
    const uint8_t *records, size_t records_len, const uint8_t *pool, size_t pool_len, uint32_t slot);

#ifdef __cplusplus
}
#endif

#endif
