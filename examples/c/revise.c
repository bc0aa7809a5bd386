/* A tree in files through a board revision: it is read with its last id, changed, stored, read again, and meets a refusal. From
 * the top of the checkout:
 *
 *     tools/archive
 *     cc -std=c11 -Wall -Wextra -Werror -Iinclude examples/c/revise.c target/staticlib/libbraidhurdle.a -o target/revise
 *     rm -f target/node-5.rec target/node-5.names target/node-5.last
 *     target/revise examples/node-4 target/node-5
 *
 * STEM.rec holds the records, STEM.names the names, and STEM.last the last id that was handed out: a number and a newline. The
 * largest id in the tree would not do, since that column may have been dropped. It ends with 0 if every step went as it should,
 * with 2 on a refusal that should not be, and with 3 on wrong arguments or files. */
#include <errno.h>
#include <stdio.h>
#include <stdlib.h>
#include <string.h>

#include "braidhurdle.h"

enum { RECORD_BYTES = 24, ENTRY_BYTES = 8, EDIT_BYTES = 16, ENTRIES = 64, PATHS = 4096, PATH = 1024 };

/* A tree in memory, and the last id. There is room for one byte more than a tree may have, so that the library sees a file that
 * is too long, and refuses it with 2. */
struct tree {
    uint8_t records[BRAIDHURDLE_RECORD_ROOM + 1], names[BRAIDHURDLE_NAME_ROOM + 1];
    size_t records_len, names_len;
    int32_t last_id;
};

/* What an update is asked to do. Paths and new names share one pool. */
struct request {
    uint8_t deletions[ENTRIES * ENTRY_BYTES], additions[ENTRIES * ENTRY_BYTES], added[ENTRIES * RECORD_BYTES];
    uint8_t edits[ENTRIES * EDIT_BYTES], pool[PATHS];
    size_t dropped, adds, edited, pool_len;
};

/* The serial number identifies a node. */
static const uint8_t identifiers[] = {5, 0, 0, 0};

/* ---- requests */

static void put32(uint8_t *at, uint32_t number)
{
    for (int byte = 0; byte < 4; byte++) at[byte] = (uint8_t)(number >> 8 * byte);
}

static uint32_t get32(const uint8_t *at)
{
    return at[0] | (uint32_t)at[1] << 8 | (uint32_t)at[2] << 16 | (uint32_t)at[3] << 24;
}

/* Puts a text into the pool, and tells where. This program's own requests always fit. */
static uint32_t pooled(struct request *q, const char *text)
{
    size_t at = q->pool_len, length = strlen(text);
    if (length > PATHS - at || q->dropped == ENTRIES || q->adds == ENTRIES || q->edited == ENTRIES) abort();
    memcpy(q->pool + at, text, length);
    q->pool_len += length;
    return (uint32_t)at;
}

static void path_entry(struct request *q, uint8_t *entry, const char *path)
{
    size_t length = strlen(path);
    put32(entry, pooled(q, path));
    entry[4] = (uint8_t)length, entry[5] = (uint8_t)(length >> 8);
    entry[6] = 1;
}

static void drop(struct request *q, const char *path)
{
    path_entry(q, q->deletions + q->dropped * ENTRY_BYTES, path);
    q->dropped++;
}

/* Adds an optional primitive under a parent, or at the root where that is null: then the entry is 0. */
static void add(struct request *q, const char *parent, const char *name, uint32_t type_code)
{
    uint8_t *record = q->added + q->adds * RECORD_BYTES;
    if (strlen(name) > 255) abort();
    if (parent) path_entry(q, q->additions + q->adds * ENTRY_BYTES, parent);
    put32(record + 4, pooled(q, name));
    record[8] = (uint8_t)strlen(name);
    put32(record + 16, type_code);
    q->adds++;
}

/* An edit begins as a path entry does, and byte 6 says what it is. */
static uint8_t *edit(struct request *q, const char *path, enum braidhurdle_edit what)
{
    uint8_t *edit = q->edits + q->edited * EDIT_BYTES;
    path_entry(q, edit, path);
    edit[6] = (uint8_t)what;
    q->edited++;
    return edit;
}

static void rename_column(struct request *q, const char *path, const char *name)
{
    uint8_t *renamed = edit(q, path, BRAIDHURDLE_RENAME);
    if (strlen(name) > 255) abort();
    put32(renamed + 8, pooled(q, name));
    renamed[12] = (uint8_t)strlen(name);
}

static void relax(struct request *q, const char *path)
{
    edit(q, path, BRAIDHURDLE_RELAX);
}

static void widen(struct request *q, const char *path, uint32_t type_code)
{
    put32(edit(q, path, BRAIDHURDLE_WIDEN) + 8, type_code);
}

/* ---- refusals */

static const char *meaning(uint32_t refusal)
{
#define SAYS(number, name, says) \
    case BRAIDHURDLE_##name: return says;
    switch (refusal) {
        BRAIDHURDLE_REFUSALS(SAYS)
    default: return "a number that this program does not know";
    }
}

/* What was asked for, in the words of whoever asked. Names are bytes; those of this program are text. */
static void asked(const struct request *q, const char *what, uint32_t offset, int length)
{
    fprintf(stderr, "  it was to %s \"%.*s\"\n", what, length, (const char *)q->pool + offset);
}

static void tell(const struct request *q, struct braidhurdle_changed a)
{
    static const char *const does[] = {
        [BRAIDHURDLE_RENAME] = "rename", [BRAIDHURDLE_RELAX] = "relax", [BRAIDHURDLE_WIDEN] = "widen"};
    /* a place in a list of the request is one of its entries; in a tree it is a slot */
    const uint8_t *dropped = q->deletions + a.place * ENTRY_BYTES, *added = q->added + a.place * RECORD_BYTES;
    const uint8_t *edited = q->edits + a.place * EDIT_BYTES;
    fprintf(stderr, "refused %u at %u %u: %s\n", (unsigned)a.refusal, (unsigned)a.list, (unsigned)a.place, meaning(a.refusal));
    if (a.list == BRAIDHURDLE_LIST_DELETIONS)
        asked(q, "drop", get32(dropped), dropped[4] | dropped[5] << 8);
    else if (a.list == BRAIDHURDLE_LIST_ADDITIONS)
        asked(q, "add", get32(added + 4), added[8]);
    else if (a.list == BRAIDHURDLE_LIST_EDITS)
        asked(q, does[edited[6]], get32(edited), edited[4] | edited[5] << 8);
    /* what can be mended is told apart by the number */
    if (a.refusal == BRAIDHURDLE_NO_SUCH_COLUMN)
        fputs("  leave it out: the tree has no such column, or no longer\n", stderr);
    else if (a.refusal == BRAIDHURDLE_NAME_TAKEN)
        fputs("  drop the column of that name in the same request, or choose another name\n", stderr);
    else if (a.refusal == BRAIDHURDLE_NO_SURVIVING_COLUMN)
        fputs("  name a column as the tree has it now, and one that the request does not drop\n", stderr);
    else if (a.refusal == BRAIDHURDLE_STEP_NOT_ALLOWED)
        fputs("  leave its type, or add a column of the other type: the table's format version has no such step\n", stderr);
}

/* ---- files */

static FILE *opened(const char *stem, const char *ending, const char *mode)
{
    char path[PATH];
    int length = snprintf(path, sizeof path, "%s.%s", stem, ending);
    FILE *file = length > 0 && (size_t)length < sizeof path ? fopen(path, mode) : NULL;
    if (!file) fprintf(stderr, "%s.%s: %s\n", stem, ending, strerror(errno));
    return file;
}

/* Reads at most `room` bytes. */
static int load_part(const char *stem, const char *ending, void *bytes, size_t room, size_t *length)
{
    FILE *file = opened(stem, ending, "rb");
    if (!file) return 0;
    *length = fread(bytes, 1, room, file);
    int whole = !ferror(file);
    if (!whole) fprintf(stderr, "%s.%s: can't be read\n", stem, ending);
    fclose(file);
    return whole;
}

/* Without its newline a number may have lost digits, so it counts for nothing. */
static int load_last_id(const char *stem, int32_t *last_id)
{
    char text[16], *end;
    size_t length;
    if (!load_part(stem, "last", text, sizeof text - 1, &length)) return 0;
    text[length] = '\0';
    errno = 0;
    long long number = strtoll(text, &end, 10);
    if (end == text || *end != '\n' || end + 1 != text + length || errno || number < INT32_MIN || number > INT32_MAX) {
        fprintf(stderr, "%s.last: no number and newline\n", stem);
        return 0;
    }
    *last_id = (int32_t)number;
    return 1;
}

static int load(const char *stem, struct tree *t)
{
    return load_part(stem, "rec", t->records, sizeof t->records, &t->records_len) &&
           load_part(stem, "names", t->names, sizeof t->names, &t->names_len) && load_last_id(stem, &t->last_id);
}

/* Never over a file that is there: mode x. */
static int store_part(const char *stem, const char *ending, const void *bytes, size_t length)
{
    FILE *file = opened(stem, ending, "wbx");
    if (!file) return 0;
    int whole = fwrite(bytes, 1, length, file) == length;
    whole = fclose(file) == 0 && whole;
    if (!whole) fprintf(stderr, "%s.%s: can't be written\n", stem, ending);
    return whole;
}

/* The last id comes last: where it is missing, the files are not whole. */
static int store(const char *stem, const struct tree *t)
{
    char last[16];
    int length = snprintf(last, sizeof last, "%ld\n", (long)t->last_id);
    return store_part(stem, "rec", t->records, t->records_len) && store_part(stem, "names", t->names, t->names_len) &&
           store_part(stem, "last", last, (size_t)length);
}

/* ---- the library */

/* The tree after a request goes to another one: what is written must share no byte with what is read. The tables of these nodes
 * are of format version 2. */
static uint32_t update(const struct tree *from, const struct request *q, struct tree *to)
{
    struct braidhurdle_changed a = braidhurdle_update(
        from->records, from->records_len, from->names, from->names_len, identifiers, sizeof identifiers, from->last_id,
        BRAIDHURDLE_FORMAT_2, q->deletions, q->dropped * ENTRY_BYTES, q->additions, q->adds * ENTRY_BYTES, q->added,
        q->adds * RECORD_BYTES, q->edits, q->edited * EDIT_BYTES, q->pool, q->pool_len, to->records, sizeof to->records,
        to->names, sizeof to->names);
    if (a.refusal != BRAIDHURDLE_ACCEPTED) {
        tell(q, a);
        return a.refusal;
    }
    to->records_len = (size_t)a.records * RECORD_BYTES;
    to->names_len = a.names;
    to->last_id = a.last_id;
    /* by these a time slot is planned */
    printf("visited %u records in the rebuild\n", (unsigned)a.visited);
    return BRAIDHURDLE_ACCEPTED;
}

int main(int argc, char **argv)
{
    static struct tree now, next;
    static struct request board_5, board_6, board_7, board_8;
    static const char duration[] = "visits.duration";

    if (argc != 3) {
        fprintf(stderr, "usage: %s FROM TO, two stems of files\n", argv[0]);
        return 3;
    }
    if (!load(argv[1], &now)) return 3;

    /* The next board tells no fitter, but how long a visit took; and its country. It says failures, may have no battery, and
     * counts more alarms than an int holds. */
    drop(&board_5, "visits.fitter");
    add(&board_5, "visits", "duration", BRAIDHURDLE_TYPE_INT);
    add(&board_5, NULL, "country", BRAIDHURDLE_TYPE_STRING);
    rename_column(&board_5, "faults", "failures");
    relax(&board_5, "node.battery");
    widen(&board_5, "alarms.count", BRAIDHURDLE_TYPE_LONG);
    if (update(&now, &board_5, &next) != BRAIDHURDLE_ACCEPTED) return 2;
    if (!store(argv[2], &next)) return 3;
    printf("%s: last id %ld, was %ld\n", argv[2], (long)next.last_id, (long)now.last_id);

    /* What was stored needs no check: every call tests it first. A new id is above the old last id. */
    int32_t before = now.last_id;
    if (!load(argv[2], &now)) return 3;
    struct braidhurdle_found f = braidhurdle_find_name(now.records, now.records_len, now.names, now.names_len,
                                                       (const uint8_t *)duration, sizeof duration - 1);
    if (f.refusal != BRAIDHURDLE_ACCEPTED || !f.found || f.id <= before) return 2;
    printf("%s is column %ld, today at slot %u\n", duration, (long)f.id, (unsigned)f.slot);

    /* A column can't be dropped twice, no column is named faults any more, and a date becomes a timestamp by format version 3
     * alone. Each refusal is told, and nothing has changed. */
    drop(&board_6, "visits.fitter");
    if (update(&now, &board_6, &next) != BRAIDHURDLE_NO_SUCH_COLUMN) return 2;
    relax(&board_7, "faults");
    if (update(&now, &board_7, &next) != BRAIDHURDLE_NO_SURVIVING_COLUMN) return 2;
    widen(&board_8, "visits.day", BRAIDHURDLE_TYPE_TIMESTAMP);
    return update(&now, &board_8, &next) == BRAIDHURDLE_STEP_NOT_ALLOWED ? 0 : 2;
}
