/* Every function of include/braidhurdle.h, called on document 01's tree T. From the top of the checkout:
 *
 *     tools/archive
 *     cc -std=c11 -Wall -Wextra -Werror -Iinclude examples/c/calls.c target/staticlib/libbraidhurdle.a -o target/calls
 *     target/calls
 *
 * It prints each answer, and ends with another status than 0 if one is not what 01 says, or 02 where case is forgotten (1/13),
 * where many ids are looked up (2/13), of additions to what is dropped (3/13), of identifiers (4/13), of edits (5/13), of wider
 * types (6/13) and of the records that an update visits (7/13). */
#include <stdio.h>
#include <string.h>

#include "braidhurdle.h"

#define RECORD_BYTES 24
#define WORD(n) (uint8_t)(n), (uint8_t)((n) >> 8), (uint8_t)((n) >> 16), (uint8_t)((n) >> 24)
#define RECORD(id, offset, length, kind, flags, children) \
    WORD(id), WORD(offset), length, kind, flags, 0, children, 0, 0, 0, WORD(0), WORD(0)
#define PATH(offset, length) WORD(offset), length, 0, 1, 0
#define ROOT WORD(0), 0, 0, 0, 0
#define RENAME(offset, length, name, name_length) WORD(offset), length, 0, BRAIDHURDLE_RENAME, 0, WORD(name), name_length, 0, 0, 0
#define RELAX(offset, length) WORD(offset), length, 0, BRAIDHURDLE_RELAX, 0, WORD(0), 0, 0, 0, 0
#define WIDEN(offset, length, code) WORD(offset), length, 0, BRAIDHURDLE_WIDEN, 0, WORD(code), 0, 0, 0, 0

enum { PRIMITIVE, STRUCT, LIST, MAP };
enum { OPTIONAL, REQUIRED };

/* T: node of button and cost; visits, a list of structs of day; parts, a map from key to structs of price. */
static const uint8_t t[] = {
    RECORD(1, 0, 4, STRUCT, OPTIONAL, 2),
    RECORD(4, 4, 6, PRIMITIVE, OPTIONAL, 0),
    RECORD(5, 10, 4, PRIMITIVE, OPTIONAL, 0),
    RECORD(2, 14, 6, LIST, OPTIONAL, 1),
    RECORD(6, 20, 7, STRUCT, OPTIONAL, 1),
    RECORD(7, 27, 3, PRIMITIVE, OPTIONAL, 0),
    RECORD(3, 30, 5, MAP, OPTIONAL, 2),
    RECORD(8, 35, 3, PRIMITIVE, REQUIRED, 0),
    RECORD(9, 38, 5, STRUCT, OPTIONAL, 1),
    RECORD(10, 43, 5, PRIMITIVE, OPTIONAL, 0),
};
static const char names[] = "nodebuttoncostvisitselementdaypartskeyvalueprice";
static const uint8_t *const pool = (const uint8_t *)names;
#define T t, sizeof t, pool, sizeof names - 1

/* Room for an answer: made once, used for every call. */
static uint8_t records[BRAIDHURDLE_RECORD_ROOM], out_names[BRAIDHURDLE_NAME_ROOM], identifiers[8];
#define ROOM records, sizeof records, out_names, sizeof out_names
#define NOTHING NULL, 0
#define ARRAY(list) list, sizeof list
#define UNTOUCHED 0xA5

static int failed;

static void held(const char *what, int holds)
{
    printf("%-6s %s\n", holds ? "ok" : "WRONG", what);
    failed |= !holds;
}

static void fresh(void)
{
    memset(records, UNTOUCHED, sizeof records);
    memset(out_names, UNTOUCHED, sizeof out_names);
    memset(identifiers, UNTOUCHED, sizeof identifiers);
}

static int untouched(const uint8_t *from, const uint8_t *end)
{
    while (from < end && *from == UNTOUCHED) from++;
    return from == end;
}

static int all_untouched(void)
{
    return untouched(records, records + sizeof records) && untouched(out_names, out_names + sizeof out_names) &&
           untouched(identifiers, identifiers + sizeof identifiers);
}

/* Is the answer this tree, and is every byte beyond it as it was? Its last two numbers are 0 but for an update. */
static int answered(struct braidhurdle_changed a, const uint8_t *tree, size_t bytes, const char *packed, int32_t last_id,
                    uint32_t visited)
{
    return a.refusal == 0 && a.records * RECORD_BYTES == bytes && a.names == strlen(packed) && a.last_id == last_id &&
           a.visited == visited &&
           memcmp(records, tree, bytes) == 0 && untouched(records + bytes, records + sizeof records) &&
           memcmp(out_names, packed, a.names) == 0 && untouched(out_names + a.names, out_names + sizeof out_names);
}

static int refused(struct braidhurdle_changed a, uint32_t number, uint32_t list, uint32_t place)
{
    return a.refusal == number && a.list == list && a.place == place && a.records == 0 && a.names == 0 && a.last_id == 0 &&
           a.visited == 0 && all_untouched();
}

static int found(struct braidhurdle_found f, int32_t id, uint32_t slot)
{
    return f.refusal == 0 && f.found == 1 && f.id == id && f.slot == slot;
}

static int nothing(struct braidhurdle_found f)
{
    return f.refusal == 0 && f.found == 0 && f.id == 0 && f.slot == 0;
}

static void look_ups(void)
{
    const uint8_t *day = (const uint8_t *)"visits.day";
    struct braidhurdle_found f = braidhurdle_find_name(t, sizeof t - 1, pool, sizeof names - 1, day, 10);
    held("find_name: visits.day is id 7 at slot 5 (P3)", found(braidhurdle_find_name(T, day, 10), 7, 5));
    held("find_name: day is nothing (P3)", nothing(braidhurdle_find_name(T, day + 7, 3)));
    held("find_name: a list that is not whole is refused with 2", f.refusal == 2 && f.list == 0 && f.place == 0 && !f.found);
    held("find_id: 10 stands at slot 9", found(braidhurdle_find_id(T, 10), 10, 9));
    held("find_id: 11 is nothing", nothing(braidhurdle_find_id(T, 11)));
    held("find_parent: above 7 stands 6 at slot 4", found(braidhurdle_find_parent(T, 7), 6, 4));
    held("find_parent: above a root stands nothing", nothing(braidhurdle_find_parent(T, 1)));
}

/* Two columns whose names differ in case alone. */
static const uint8_t twins[] = {RECORD(1, 0, 1, PRIMITIVE, OPTIONAL, 0), RECORD(2, 1, 1, PRIMITIVE, OPTIONAL, 0)};
#define TWINS twins, sizeof twins, (const uint8_t *)"aA", 2

static void look_ups_without_case(void)
{
    const uint8_t *cost = (const uint8_t *)"Node.Cost", *day = (const uint8_t *)"VISITS.Day", *a = (const uint8_t *)"a";
    struct braidhurdle_found f = braidhurdle_find_folded(TWINS, a, 1);
    held("find_folded: Node.Cost is id 5 at slot 2", found(braidhurdle_find_folded(T, cost, 9), 5, 2));
    held("find_folded: VISITS.Day is id 7 at slot 5", found(braidhurdle_find_folded(T, day, 10), 7, 5));
    held("find_folded: Day is nothing", nothing(braidhurdle_find_folded(T, day + 7, 3)));
    held("find_folded: a beside A is refused with 21 at slot 1",
         f.refusal == BRAIDHURDLE_AMBIGUOUS && f.list == BRAIDHURDLE_LIST_BASE && f.place == 1 && !f.found && !f.id && !f.slot);
    held("find_name: a beside A is id 1 at slot 0, and Node.Cost is nothing",
         found(braidhurdle_find_name(TWINS, a, 1), 1, 0) && nothing(braidhurdle_find_name(T, cost, 9)));
}

static int searched(struct braidhurdle_searched s, uint32_t number, uint32_t count)
{
    return s.refusal == number && s.list == 0 && s.place == 0 && s.found == count;
}

static void look_ups_of_many_ids(void)
{
    const uint8_t ids[] = {WORD(9), WORD(99), WORD(9)}, expected[] = {WORD(8), WORD(BRAIDHURDLE_NO_SLOT), WORD(8)};
    uint8_t slots[sizeof ids + 1];

    memset(slots, UNTOUCHED, sizeof slots);
    held("find_ids: too few bytes for slots are refused with 1, and nothing is written",
         searched(braidhurdle_find_ids(T, ids, sizeof ids, slots, sizeof ids - 1), BRAIDHURDLE_SMALL_BUFFER, 0) &&
             untouched(slots, slots + sizeof slots));
    held("find_ids: ids that are not whole are refused with 2, and nothing is written",
         searched(braidhurdle_find_ids(T, ids, sizeof ids - 1, slots, sizeof slots), BRAIDHURDLE_PAST_LIMIT, 0) &&
             untouched(slots, slots + sizeof slots));
    held("find_ids: of 9, 99 and 9 two are found", searched(braidhurdle_find_ids(T, ids, sizeof ids, slots, sizeof slots), 0, 2));
    held("find_ids: they stand at slot 8, nowhere and at slot 8, and the byte behind is as it was",
         memcmp(slots, expected, sizeof expected) == 0 && untouched(slots + sizeof expected, slots + sizeof slots));
}

static int shown(struct braidhurdle_name n, const char *name)
{
    return n.refusal == 0 && n.found == 1 && n.length == strlen(name) && memcmp(pool + n.offset, name, n.length) == 0;
}

static int no_name(struct braidhurdle_name n, uint32_t number, uint32_t place)
{
    return n.refusal == number && n.list == 0 && n.place == place && n.found == 0 && n.offset == 0 && n.length == 0;
}

static void names_of_slots(void)
{
    held("found_name: slot 5 has day, the pool's own bytes", shown(braidhurdle_found_name(T, 5), "day"));
    held("found_name: there is no slot 10", no_name(braidhurdle_found_name(T, 10), 0, 0));
    held("found_name: a pool that ends in price is refused with 4 at slot 9, and its day is shown",
         no_name(braidhurdle_found_name(t, sizeof t, pool, sizeof names - 2, 9), 4, 9) &&
             shown(braidhurdle_found_name(t, sizeof t, pool, sizeof names - 2, 5), "day"));
    held("found_name: nothing has no name", no_name(braidhurdle_found_name(NOTHING, NOTHING, 0), 0, 0));
}

static void updates(void)
{
    /* one pool for paths and new names, which may share bytes in it */
    const uint8_t *request_pool = (const uint8_t *)"node.costfloor";
    const uint8_t drop[] = {PATH(0, 9)}, drop_node[] = {PATH(0, 4)};
    const uint8_t under_node[] = {PATH(0, 4)}, at_root_twice[] = {ROOT, ROOT};
    const uint8_t cost[] = {RECORD(0, 5, 4, PRIMITIVE, OPTIONAL, 0)};
    const uint8_t floor_twice[] = {RECORD(0, 9, 5, PRIMITIVE, OPTIONAL, 0), RECORD(0, 9, 5, PRIMITIVE, OPTIONAL, 0)};
    uint8_t expected[sizeof t];
    struct braidhurdle_changed a;

    fresh();
    memcpy(expected, t, sizeof t);
    expected[2 * RECORD_BYTES] = 11;
    a = braidhurdle_update(T, NOTHING, 10, BRAIDHURDLE_FORMAT_2, ARRAY(drop), ARRAY(under_node), ARRAY(cost), NOTHING,
                           request_pool, 14, ROOM);
    held("update: node.cost dropped and added again has id 11, which is the last id (P4)",
         answered(a, expected, sizeof expected, names, 11, 11));
    fresh();
    a = braidhurdle_update(T, NOTHING, 10, BRAIDHURDLE_FORMAT_2, NOTHING, ARRAY(at_root_twice), ARRAY(floor_twice), NOTHING,
                           request_pool, 14, ROOM);
    held("update: floor twice is refused with 8 at list 4, place 11, and nothing is written (P7)", refused(a, 8, 4, 11));
    a = braidhurdle_update(T, NOTHING, 10, BRAIDHURDLE_FORMAT_2, ARRAY(drop_node), ARRAY(under_node), ARRAY(cost), NOTHING,
                           request_pool, 14, ROOM);
    held("update: cost under node, which is dropped, is refused with 22 at list 3, place 0",
         refused(a, BRAIDHURDLE_PARENT_GONE, BRAIDHURDLE_LIST_ADDITIONS, 0));
}

static void prunings(void)
{
    const uint8_t day[] = {WORD(7)}, visits[] = {WORD(2)};
    const uint8_t expected[] = {
        RECORD(2, 0, 6, LIST, OPTIONAL, 1),
        RECORD(6, 6, 7, STRUCT, OPTIONAL, 1),
        RECORD(7, 13, 3, PRIMITIVE, OPTIONAL, 0),
    };
    fresh();
    held("prune: 7 keeps 2, 6, 7 (P8)",
         answered(braidhurdle_prune(T, day, sizeof day, 0, ROOM), expected, sizeof expected, "visitselementday", 0, 0));
    fresh();
    held("prune: 2 is refused with 20 at place 3 (P10)", refused(braidhurdle_prune(T, visits, sizeof visits, 0, ROOM), 20, 0, 3));
    held("prune: 2 in full mode keeps 2, 6, 7",
         answered(braidhurdle_prune(T, visits, sizeof visits, 1, ROOM), expected, sizeof expected, "visitselementday", 0, 0));
}

/* A required struct of a required serial and an optional cost, and a required site. T has no column that can be an identifier:
 * its only required one stands in a map. */
static const uint8_t keyed[] = {
    RECORD(1, 0, 4, STRUCT, REQUIRED, 2),
    RECORD(2, 4, 6, PRIMITIVE, REQUIRED, 0),
    RECORD(3, 10, 4, PRIMITIVE, OPTIONAL, 0),
    RECORD(4, 14, 4, PRIMITIVE, REQUIRED, 0),
};
static const char keyed_names[] = "nodeserialcostsite";
#define KEYED keyed, sizeof keyed, (const uint8_t *)keyed_names, sizeof keyed_names - 1

static void renumberings(void)
{
    const uint8_t given[] = {WORD(4), WORD(2)}, mapped[] = {WORD(101), WORD(102)};
    uint8_t expected[sizeof t];
    struct braidhurdle_changed a;
    size_t slot;

    fresh();
    held("renumber: from 1 T's ids are as they were (P1)",
         answered(braidhurdle_renumber(T, NOTHING, 1, ROOM, NOTHING), t, sizeof t, names, 0, 0));
    fresh();
    memcpy(expected, t, sizeof t);
    for (slot = 0; slot < sizeof t / RECORD_BYTES; slot++) expected[slot * RECORD_BYTES] += 99;
    a = braidhurdle_renumber(T, NOTHING, 100, ROOM, NOTHING);
    held("renumber: from 100 every id is 99 more", answered(a, expected, sizeof expected, names, 0, 0));
    fresh();
    a = braidhurdle_renumber(T, NOTHING, 2147483638, ROOM, NOTHING);
    held("renumber: from 2,147,483,638 is refused with 18 (P2)", refused(a, 18, 0, 0));
    fresh();
    a = braidhurdle_renumber(KEYED, given, sizeof given, 100, ROOM, identifiers, sizeof identifiers);
    held("renumber: identifiers are mapped in the order given",
         a.refusal == BRAIDHURDLE_ACCEPTED && a.records == 4 && memcmp(identifiers, mapped, sizeof mapped) == 0);
}

static int no_identifier(struct braidhurdle_changed a, uint32_t place)
{
    return refused(a, BRAIDHURDLE_UNKNOWN_IDENTIFIER, BRAIDHURDLE_LIST_IDENTIFIERS, place);
}

/* What an identifier must be (02, 4/13): told by the first that is not. */
static void identifying(void)
{
    const uint8_t missing[] = {WORD(2), WORD(9)}, optional[] = {WORD(4), WORD(3)}, structure[] = {WORD(1), WORD(9)};
    const uint8_t both[] = {WORD(4), WORD(2)}, key[] = {WORD(8), WORD(8)}, node[] = {PATH(0, 4)};
    uint8_t floats[sizeof keyed], within_optional[sizeof keyed];
    struct braidhurdle_changed a;

    memcpy(floats, keyed, sizeof keyed);
    floats[RECORD_BYTES + 16] = BRAIDHURDLE_TYPE_FLOAT;
    memcpy(within_optional, keyed, sizeof keyed);
    within_optional[10] = OPTIONAL;
#define RENUMBERED(tree, ids) \
    braidhurdle_renumber(tree, sizeof tree, (const uint8_t *)keyed_names, sizeof keyed_names - 1, ids, sizeof ids, 1, ROOM, \
                         identifiers, sizeof identifiers)
    fresh();
    held("identifiers: one that is not there is refused with 9 at its place", no_identifier(RENUMBERED(keyed, missing), 1));
    held("identifiers: so is an optional column", no_identifier(RENUMBERED(keyed, optional), 1));
    held("identifiers: so is a struct", no_identifier(RENUMBERED(keyed, structure), 0));
    held("identifiers: so is a float", no_identifier(RENUMBERED(floats, both), 1));
    held("identifiers: so is a column below an optional struct", no_identifier(RENUMBERED(within_optional, both), 1));
    a = braidhurdle_renumber(T, key, sizeof key, 1, ROOM, identifiers, sizeof identifiers);
    held("identifiers: so is a map's key", no_identifier(a, 0));
    a = braidhurdle_update(KEYED, ARRAY(optional), 4, BRAIDHURDLE_FORMAT_2, NOTHING, NOTHING, NOTHING, NOTHING, NOTHING, ROOM);
    held("identifiers: an update asks that of the tree that it is given", no_identifier(a, 1));
    a = braidhurdle_update(KEYED, ARRAY(both), 4, BRAIDHURDLE_FORMAT_2, ARRAY(node), NOTHING, NOTHING, NOTHING,
                           (const uint8_t *)"node", 4, ROOM);
    held("identifiers: and of the tree that it would write", no_identifier(a, 1));
    a = braidhurdle_update(KEYED, ARRAY(both), 4, BRAIDHURDLE_FORMAT_2, NOTHING, NOTHING, NOTHING, NOTHING, NOTHING, ROOM);
    held("identifiers: required columns below required structs are accepted", answered(a, ARRAY(keyed), keyed_names, 4, 4));
}

/* A new name, or no longer required (02, 5/13), of columns of the tree as it was. */
static void edits(void)
{
    /* node at 0, node.serial too, site at 11, unit at 15 */
    static const char request_names[] = "node.serialsiteunit";
    const uint8_t rename_and_relax[] = {RENAME(0, 11, 15, 4), RELAX(11, 4)}, serial[] = {RELAX(0, 11)};
    const uint8_t exchange[] = {RENAME(0, 4, 11, 4), RENAME(11, 4, 0, 4)}, site_again[] = {RENAME(0, 4, 11, 4)};
    const uint8_t twice[] = {RENAME(0, 4, 15, 4), RENAME(0, 4, 11, 4)}, dotted[] = {RENAME(0, 4, 0, 11)};
    const uint8_t node[] = {PATH(0, 4)}, both[] = {WORD(4), WORD(2)};
    uint8_t expected[sizeof keyed];
    struct braidhurdle_changed a;

#define EDITED(identifiers, deletions, edits) \
    braidhurdle_update(KEYED, identifiers, 4, BRAIDHURDLE_FORMAT_2, deletions, NOTHING, NOTHING, edits, sizeof edits, \
                       (const uint8_t *)request_names, sizeof request_names - 1, ROOM)
    fresh();
    memcpy(expected, keyed, sizeof keyed);
    expected[RECORD_BYTES + 8] = 4;
    expected[2 * RECORD_BYTES + 4] -= 2, expected[3 * RECORD_BYTES + 4] -= 2;
    expected[3 * RECORD_BYTES + 10] = OPTIONAL;
    a = EDITED(NOTHING, NOTHING, rename_and_relax);
    held("edits: node.serial is named unit and site is optional, ids and all else as they were",
         answered(a, expected, sizeof expected, "nodeunitcostsite", 4, 4));
    fresh();
    a = EDITED(NOTHING, NOTHING, exchange);
    held("edits: node and site exchange their names", answered(a, keyed, sizeof keyed, "siteserialcostnode", 4, 4));
    fresh();
    a = EDITED(NOTHING, NOTHING, site_again);
    held("edits: a second site is refused with 8 at list 4, place 3",
         refused(a, BRAIDHURDLE_NAME_TWICE, BRAIDHURDLE_LIST_REBUILT_TREE, 3));
    a = EDITED(NOTHING, NOTHING, dotted);
    held("edits: a dot in the new name is refused with 13", refused(a, BRAIDHURDLE_DOTTED_NAME, BRAIDHURDLE_LIST_EDITS, 0));
    a = EDITED(NOTHING, ARRAY(node), serial);
    held("edits: one of what goes is refused with 23", refused(a, BRAIDHURDLE_NO_SURVIVING_COLUMN, BRAIDHURDLE_LIST_EDITS, 0));
    a = EDITED(NOTHING, NOTHING, twice);
    held("edits: a second rename of a column is refused with 24",
         refused(a, BRAIDHURDLE_EDIT_NOT_ALLOWED, BRAIDHURDLE_LIST_EDITS, 1));
    a = EDITED(ARRAY(both), NOTHING, serial);
    held("edits: an identifier that is relaxed is refused with 9", no_identifier(a, 1));
}

static void set_type(uint8_t *tree, size_t slot, uint32_t code)
{
    const uint8_t word[] = {WORD(code)};
    memcpy(tree + slot * RECORD_BYTES + 16, word, sizeof word);
}

/* Wider types (02, 6/13), by the steps of the format version that is named. */
static void widenings(void)
{
    /* node at 0, node.serial too, node.cost at 11, site at 20 */
    static const char request_names[] = "node.serialnode.costsite";
    const uint32_t price = BRAIDHURDLE_TYPE_DECIMAL(9, 2), wide_price = BRAIDHURDLE_TYPE_DECIMAL(18, 2);
    const uint8_t wider[] = {WIDEN(0, 11, BRAIDHURDLE_TYPE_LONG), WIDEN(11, 9, wide_price)};
    const uint8_t to_timestamp[] = {WIDEN(20, 4, BRAIDHURDLE_TYPE_TIMESTAMP)}, structure[] = {WIDEN(0, 4, BRAIDHURDLE_TYPE_LONG)};
    const uint8_t twice[] = {WIDEN(0, 11, BRAIDHURDLE_TYPE_LONG), WIDEN(0, 11, BRAIDHURDLE_TYPE_LONG)};
    const uint8_t no_type[] = {WIDEN(0, 11, 77)}, serial[] = {WORD(2)};
    uint8_t typed[sizeof keyed], expected[sizeof keyed];
    struct braidhurdle_changed a;

    memcpy(typed, keyed, sizeof keyed);
    set_type(typed, 1, BRAIDHURDLE_TYPE_INT);
    set_type(typed, 2, price);
    set_type(typed, 3, BRAIDHURDLE_TYPE_DATE);
#define WIDENED(version, edits) \
    braidhurdle_update(ARRAY(typed), (const uint8_t *)keyed_names, sizeof keyed_names - 1, ARRAY(serial), 4, version, NOTHING, \
                       NOTHING, NOTHING, edits, (const uint8_t *)request_names, sizeof request_names - 1, ROOM)
    fresh();
    memcpy(expected, typed, sizeof typed);
    set_type(expected, 1, BRAIDHURDLE_TYPE_LONG);
    set_type(expected, 2, wide_price);
    a = WIDENED(BRAIDHURDLE_FORMAT_2, ARRAY(wider));
    held("widenings: an int is long and a decimal has more digits, ids and all else as they were; the first still identifies",
         answered(a, ARRAY(expected), keyed_names, 4, 4));
    fresh();
    a = WIDENED(BRAIDHURDLE_FORMAT_2, ARRAY(to_timestamp));
    held("widenings: format version 2 refuses date to timestamp with 26",
         refused(a, BRAIDHURDLE_STEP_NOT_ALLOWED, BRAIDHURDLE_LIST_EDITS, 0));
    a = WIDENED(BRAIDHURDLE_FORMAT_3, ARRAY(structure));
    held("widenings: a struct is refused with 26", refused(a, BRAIDHURDLE_STEP_NOT_ALLOWED, BRAIDHURDLE_LIST_EDITS, 0));
    a = WIDENED(BRAIDHURDLE_FORMAT_3, ARRAY(no_type));
    held("widenings: so is a code that no type has", refused(a, BRAIDHURDLE_STEP_NOT_ALLOWED, BRAIDHURDLE_LIST_EDITS, 0));
    a = WIDENED(BRAIDHURDLE_FORMAT_3, ARRAY(twice));
    held("widenings: a second one of a column is refused with 24",
         refused(a, BRAIDHURDLE_EDIT_NOT_ALLOWED, BRAIDHURDLE_LIST_EDITS, 1));
    a = WIDENED(4, NOTHING);
    held("widenings: format version 4 is refused with 25, though nothing is widened",
         refused(a, BRAIDHURDLE_UNKNOWN_VERSION, BRAIDHURDLE_LIST_BASE, 0));
    memcpy(expected, typed, sizeof typed);
    set_type(expected, 3, BRAIDHURDLE_TYPE_TIMESTAMP);
    a = WIDENED(BRAIDHURDLE_FORMAT_3, ARRAY(to_timestamp));
    held("widenings: format version 3 has date to timestamp", answered(a, ARRAY(expected), keyed_names, 4, 4));
}

static int visited(struct braidhurdle_changed a, uint32_t left, uint32_t count)
{
    return a.refusal == BRAIDHURDLE_ACCEPTED && a.records == left && a.visited == count;
}

/* How many records an update of T, which has 10, visits (02, 7/13), and how many it leaves. */
static void visits(void)
{
    /* node at 0, node.cost too, visits at 9, visits.element and visits.element.day too */
    static const char request_names[] = "node.costvisits.element.day";
    const uint8_t node[] = {PATH(0, 4), PATH(0, 9), PATH(0, 4)}, list[] = {PATH(9, 6), PATH(9, 14)};
    const uint8_t element[] = {PATH(9, 14)}, member[] = {PATH(9, 14), PATH(9, 18)}, at_root[] = {ROOT};
    const uint8_t added[] = {
        RECORD(0, 5, 4, STRUCT, OPTIONAL, 2),
        RECORD(0, 0, 4, PRIMITIVE, OPTIONAL, 0),
        RECORD(0, 5, 4, PRIMITIVE, OPTIONAL, 0),
    };

#define VISITED(deletions, additions, records) \
    braidhurdle_update(T, NOTHING, 10, BRAIDHURDLE_FORMAT_2, deletions, additions, records, NOTHING, \
                       (const uint8_t *)request_names, sizeof request_names - 1, ROOM)
    held("visited: a dropped struct once, though it be dropped twice, and nothing inside it",
         visited(VISITED(ARRAY(node), NOTHING, NOTHING), 7, 8));
    held("visited: so too a dropped list", visited(VISITED(ARRAY(list), NOTHING, NOTHING), 7, 8));
    held("visited: an element that is dropped stays, and all inside it is visited",
         visited(VISITED(ARRAY(element), NOTHING, NOTHING), 10, 10));
    held("visited: a member that is dropped inside it goes, and is visited",
         visited(VISITED(ARRAY(member), NOTHING, NOTHING), 9, 10));
    held("visited: each added record", visited(VISITED(NOTHING, ARRAY(at_root), ARRAY(added)), 13, 13));
    held("visited: both in one update", visited(VISITED(ARRAY(node), ARRAY(at_root), ARRAY(added)), 10, 11));
}

/* A list of length 0 may be null; so may a buffer, which is then below its size. */
static void nulls(void)
{
    struct braidhurdle_changed a;

    fresh();
    a = braidhurdle_update(NOTHING, NOTHING, NOTHING, 10, BRAIDHURDLE_FORMAT_2, NOTHING, NOTHING, NOTHING, NOTHING, NOTHING, ROOM);
    held("null: an update of nothing by nothing gives nothing", answered(a, t, 0, "", 10, 0));
    a = braidhurdle_update(T, NOTHING, 10, BRAIDHURDLE_FORMAT_2, NOTHING, NOTHING, NOTHING, NOTHING, NOTHING, ROOM);
    held("null: T updated by nothing is T", answered(a, t, sizeof t, names, 10, 10));
    fresh();
    held("null: nothing pruned", answered(braidhurdle_prune(NOTHING, NOTHING, NOTHING, 1, ROOM), t, 0, "", 0, 0));
    held("null: T pruned to nothing (P13)", answered(braidhurdle_prune(T, NOTHING, 0, ROOM), t, 0, "", 0, 0));
    a = braidhurdle_renumber(NOTHING, NOTHING, NOTHING, 1, ROOM, NOTHING);
    held("null: nothing renumbered", answered(a, t, 0, "", 0, 0));
    held("null: no name", nothing(braidhurdle_find_name(T, NOTHING)));
    held("null: no column of that name", nothing(braidhurdle_find_name(NOTHING, NOTHING, pool, 4)));
    held("null: no name in any case", nothing(braidhurdle_find_folded(T, NOTHING)));
    held("null: no column of that name in any case", nothing(braidhurdle_find_folded(NOTHING, NOTHING, pool, 4)));
    held("null: no column of that id", nothing(braidhurdle_find_id(NOTHING, NOTHING, 1)));
    held("null: no ids", searched(braidhurdle_find_ids(T, NOTHING, NOTHING), 0, 0));
    held("null: no column above it", nothing(braidhurdle_find_parent(NOTHING, NOTHING, 1)));
    a = braidhurdle_update(T, NOTHING, 10, BRAIDHURDLE_FORMAT_2, NOTHING, NOTHING, NOTHING, NOTHING, NOTHING, NOTHING, NOTHING);
    held("null: no room is refused with 1",
         refused(a, 1, 0, 0) &&
             refused(braidhurdle_prune(T, NOTHING, 0, NOTHING, NOTHING), 1, 0, 0) &&
             refused(braidhurdle_renumber(T, NOTHING, 1, NOTHING, NOTHING, NOTHING), 1, 0, 0) &&
             searched(braidhurdle_find_ids(T, t, 4, NOTHING), 1, 0));
}

int main(void)
{
    held("abi_9: the version is the header's", braidhurdle_abi_9() == BRAIDHURDLE_VERSION);
    look_ups();
    look_ups_without_case();
    look_ups_of_many_ids();
    names_of_slots();
    updates();
    prunings();
    renumberings();
    identifying();
    edits();
    widenings();
    visits();
    nulls();
    return failed;
}
