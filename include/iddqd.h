/* Proved tables for C and C++. docs/FROM_C.md says what of these functions is proved.
 *
 *     iddqd_table users = IDDQD_NONE;
 *     iddqd_conflict found;
 *     iddqd_row row;
 *     uint32_t at;
 *     iddqd_keyed_new(&users, seed1, seed2);
 *     iddqd_keyed_insert(&users, (const uint8_t *)"ada", 3, 1815, 100, &at, &found);
 *     if (iddqd_keyed_find1(&users, (const uint8_t *)"ada", 3, &row) == IDDQD_OK)
 *         printf("ada: born %u, value %u\n", (unsigned)row.second, (unsigned)row.value);
 *     iddqd_keyed_set_value(&users, row.index, 200);
 *     iddqd_free(&users);
 *
 * A table lives behind a handle of two words, `iddqd_table`. A handle begins as IDDQD_NONE, which is also what zeroed
 * memory is. `iddqd_keyed_new`, `iddqd_keyed_new_shared`, `iddqd_index_new`, `iddqd_layer_new` and `iddqd_layer_clone`
 * open it, and `iddqd_free` closes it. Every other function on a handle that is closed, or that has a table of another
 * kind, returns IDDQD_HANDLE and does nothing.
 * Reads take the handle as one to write to, too: each function takes the table out of it and puts it back.
 *
 * A function writes through a pointer that it got for an answer only where its comment says so; with any other code the
 * memory there stays as it was.
 *
 * ---- A buffer is filled from its start, and the places that aren't filled stay as they were. If it has fewer places
 * than the answer needs, a function that can be called again for what is left fills it, and any other function writes
 * nothing to it:
 *
 *     functions                       places needed          a shorter buffer           *count or *len
 *     keyed_range, _range_down        the rows there are     is filled; OK              the rows that were written
 *     keyed_group                     the rows there are     is filled; OK              the rows that were written
 *     index_under                     the numbers there are  is filled; OK              the numbers there are
 *     layer_under                     the indexes there are  is filled; OK              the indexes there are
 *     layer_walk, _walk_back, _live   the indexes there are  is filled; OK              the indexes that were written
 *     layer_enter, _row, _down        those of the row       stays as it was; SMALL     the indexes of the row
 *     layer_compact                   the slots              stays as it was; SMALL     the slots
 *     keyed_key                       the bytes of the key   stays as it was; SMALL     the bytes of the key
 *     keyed_compact                   the slots              stays as it was; SMALL     the slots
 *     keyed_find_many, _find_many1    the keys               stays as it was; SMALL     (there is none)
 *
 * ---- What a caller owes, and nothing checks:
 * - Each pointer is aligned, and points to whole values: of a slice to as many as its length says. No pointer is null
 *   but one to a key or a buffer of length 0.
 * - What a function may write overlaps nothing else that the same call is given.
 * - A handle is written by these functions alone. It may be moved: its bytes may be copied to another place, if the old
 *   place is then forgotten, which means that no function gets it again as it is. Never use two copies of a handle.
 * - One call at a time works on a table, in the thread that made it.
 * - malloc, realloc and free are one sound allocator, and malloc aligns as C asks it to.
 * - No function is called from a signal handler, or in a child that a process with threads forked.
 */
#ifndef IDDQD_H
#define IDDQD_H

#include <stddef.h>
#include <stdint.h>

#ifdef __cplusplus
extern "C" {
#endif

/* The version of this header, and that of the library. They differ if a program was compiled with another header. */
#define IDDQD_VERSION UINT32_C(3)
uint32_t iddqd_version(void);

/* What the functions return, as a uint32_t. */
typedef enum iddqd_code {
    IDDQD_OK = 0,        /* it is done */
    IDDQD_MISSING = 1,   /* no item has the key or the index, or the number isn't under the hash; nothing changed */
    IDDQD_DUPLICATE = 2, /* an item has a key of the new one that no two may have; nothing changed */
    IDDQD_FULL = 3,      /* there are as many items as there can be; nothing changed */
    IDDQD_MEMORY = 4,    /* memory ran out; no item changed */
    IDDQD_HANDLE = 5,    /* no table, or one of another kind; of a function that makes one: the handle isn't zero */
    IDDQD_SMALL = 6,     /* the buffer is too short; nothing was written to it, and nothing changed */
    IDDQD_UNSOUND = 7,   /* a check failed: something else has written to the memory of the table */
    IDDQD_COUNT = 8,     /* not as many hashes or ways as keys; or more than IDDQD_KEYS keys of a kind; nothing changed */
    IDDQD_KEY = 9,       /* the layer has no key of that number; nothing changed */
    IDDQD_WAY = 10       /* the way leads to no node, child or gap of the table as it is now; nothing changed */
} iddqd_code;

/* A table, or none. Write neither field. */
typedef struct iddqd_table {
    void *at;
    uint64_t state;
} iddqd_table;

/* A handle without a table: iddqd_table table = IDDQD_NONE; or table = IDDQD_NONE; where the handle is closed. */
#ifdef __cplusplus
#define IDDQD_NONE (iddqd_table{ 0, 0 })
#else
#define IDDQD_NONE ((iddqd_table){ 0, 0 })
#endif

/* The index that no item has. */
#define IDDQD_SENTINEL UINT32_C(4294967295)

/* What the functions report of an item. */
typedef struct iddqd_row {
    uint64_t second;
    uint64_t value;
    uint32_t index;
} iddqd_row;

/* Frees the table, whatever its kind, and makes the handle zero. Of a handle without a table it does nothing.
 * Cost: a step for each slot, and the memory of each key. */
void iddqd_free(iddqd_table *table);

/* ---- Keyed items
 *
 * Each item has a first key of bytes, which is looked up by its hash, a second key, which is looked up by its order,
 * and a value. No two items share a first key. Second keys are unique in a table that `iddqd_keyed_new` made, and any
 * number of items may share one in a table that `iddqd_keyed_new_shared` made; every function serves both. The table has
 * copies of the first keys.
 *
 * An item keeps its index until it is removed, or the table is compacted or cleared. Indexes are below IDDQD_SENTINEL,
 * and one that is free is used again. A table has a slot for each index that it has used since it was made, or last
 * compacted or cleared: the slots are 0, 1 and so on, and one whose item was removed is vacant.
 *
 * The order of the items is that of their second keys, and of their indexes where these are equal.
 *
 * Costs: a look-up by a first key hashes it once, and compares it with keys of the same hash alone. A search of the
 * order compares second keys, a number of times that grows as the logarithm of the number of items. Where nothing is
 * said of memory, a function takes none.
 */

/* The indexes of the items that stand in the way of a new one: by the first key, and by the second. IDDQD_SENTINEL is
 * none, as it always is for a second key that items may share. The item that a new one would replace isn't reported. */
typedef struct iddqd_conflict {
    uint32_t first;
    uint32_t second;
} iddqd_conflict;

/* An end of a range: a place in the order, and whether an item there is in the range. A zeroed one is no end. */
typedef struct iddqd_end {
    uint64_t second;
    uint32_t index;
    uint32_t side; /* an iddqd_side; any other number means IDDQD_OUT */
} iddqd_end;

typedef enum iddqd_side {
    IDDQD_OPEN = 0, /* there is no end at this side */
    IDDQD_IN = 1,   /* an item at the place is in the range */
    IDDQD_OUT = 2   /* an item at the place is out of the range */
} iddqd_side;

/* Makes an empty table, where the handle is zero: OK, MEMORY, or HANDLE where it isn't. In the first kind no two items
 * share a second key; in the other several may.
 *
 * The seed decides how first keys are hashed, and nothing but time depends on it. Where keys come from strangers, give
 * it 16 bytes that they can't know, as getentropy makes them. With a seed that they know, they can choose keys that
 * make each look-up pass all of them.
 * Cost: takes memory for the block behind the handle. */
uint32_t iddqd_keyed_new(iddqd_table *table, uint64_t seed1, uint64_t seed2);
uint32_t iddqd_keyed_new_shared(iddqd_table *table, uint64_t seed1, uint64_t seed2);

/* Inserts an item, with a copy of the key. OK: *at is its index. DUPLICATE: *found has the indexes of the items that
 * stand in its way. FULL. MEMORY. A duplicate is reported before a full table, and both even where there is no memory.
 * Cost: hashes the first key once, looks it up once, and searches the order once; copies the key, for a duplicate too;
 * takes memory for the copy, and for the table where it has no room. Only without memory for the copy are the keys
 * looked up again. */
uint32_t iddqd_keyed_insert(iddqd_table *table, const uint8_t *key, size_t len, uint64_t second, uint64_t value,
                            uint32_t *at, iddqd_conflict *found);

/* Look up by the first key, by the second key, or by the index. OK: *row is the item; of several with the second key,
 * the one with the least index. MISSING.
 * Cost: a look-up; a search of the order; a few steps. */
uint32_t iddqd_keyed_find1(iddqd_table *table, const uint8_t *key, size_t len, iddqd_row *row);
uint32_t iddqd_keyed_find2(iddqd_table *table, uint64_t second, iddqd_row *row);
uint32_t iddqd_keyed_get(iddqd_table *table, uint32_t index, iddqd_row *row);

/* Look up `len` second keys in one call. OK: rows[i] is what iddqd_keyed_find2 reports of seconds[i], or has the index
 * IDDQD_SENTINEL if no item has that key; the other fields of such a row are 0. SMALL: `size`, the number of places of
 * the buffer, is less than len.
 * Cost: a search of the order for each key. */
uint32_t iddqd_keyed_find_many(iddqd_table *table, const uint64_t *seconds, size_t len, iddqd_row *rows,
                               size_t size);

/* Look up `len` first keys in one call. Their bytes stand one after the other in a buffer of `total` bytes: key i ends
 * at the offset ends[i] and begins where the key before it ends, key 0 at 0. OK: rows[i] is the item with key i, or has
 * the index IDDQD_SENTINEL if no item has that key, or if the key ends before it begins or past the buffer; the other
 * fields of such a row are 0. SMALL: `size`, the number of places for rows, is less than len.
 * Cost: a look-up for each key. */
uint32_t iddqd_keyed_find_many1(iddqd_table *table, const uint8_t *bytes, size_t total, const size_t *ends,
                                size_t len, iddqd_row *rows, size_t size);

/* Remove by the first key, by the second key, or by the index. OK: *row was the item; of several with the second key,
 * the one with the least index. MISSING.
 * Cost: a look-up; a search of the order; a few steps; then the item's first key is hashed and the order searched once
 * more. It gives back the memory of the key. */
uint32_t iddqd_keyed_remove1(iddqd_table *table, const uint8_t *key, size_t len, iddqd_row *row);
uint32_t iddqd_keyed_remove2(iddqd_table *table, uint64_t second, iddqd_row *row);
uint32_t iddqd_keyed_remove(iddqd_table *table, uint32_t index, iddqd_row *row);

/* The first key of the item at an index. OK: its *len bytes are at the start of the buffer of `size` bytes. SMALL: *len
 * is how many bytes it has. MISSING.
 * Cost: copies the bytes. */
uint32_t iddqd_keyed_key(iddqd_table *table, uint32_t index, uint8_t *key, size_t size, size_t *len);

/* Sets the value of the item at an index. OK. MISSING.
 * Cost: a few steps. */
uint32_t iddqd_keyed_set_value(iddqd_table *table, uint32_t index, uint64_t value);

/* Replaces the item at an index by one with a copy of the key, this second key and this value. The index stays, and the
 * item may keep one of its keys or both. OK. MISSING. DUPLICATE: *found has the indexes of the other items that stand in
 * the way, and nothing was copied. MEMORY: for the copy, or for the place of a new second key; the item stays.
 *
 * To change an item, call this function rather than a removal and an insert. The insert may run out of memory where
 * this function doesn't, and the item is gone by then.
 * Cost: looks each key up twice, and of each key that changes a removal and an insertion; takes memory for the copy. */
uint32_t iddqd_keyed_replace(iddqd_table *table, uint32_t index, const uint8_t *key, size_t len, uint64_t second,
                             uint64_t value, iddqd_conflict *found);

/* The items between two ends, in order, as many as the buffer of `len` rows has places for: from the lower end upwards,
 * or from the upper end downwards. OK: *count is how many were written.
 *
 * With two zeroed ends it goes over all items. Of second keys alone, the index 0 stands before all items with that key
 * and IDDQD_SENTINEL behind them. To go on, make the last row the end that it went away from:
 * { row.second, row.index, IDDQD_OUT }.
 * Cost: a search of the order for each end that there is, then a step for each row, and for each item that has the
 * second key of an end and lies beyond it. */
uint32_t iddqd_keyed_range(iddqd_table *table, const iddqd_end *from, const iddqd_end *to, iddqd_row *rows,
                           size_t len, size_t *count);
uint32_t iddqd_keyed_range_down(iddqd_table *table, const iddqd_end *from, const iddqd_end *to, iddqd_row *rows,
                                size_t len, size_t *count);

/* The items with a second key, by index, from `index` on, as many as the buffer of `len` rows has places for. OK: *count
 * is how many were written. Begin with the index 0. To go on, call it again with the index of the last row plus 1.
 * Cost: two searches of the order, then a step for each row, and for each item with that key and a lesser index. */
uint32_t iddqd_keyed_group(iddqd_table *table, uint64_t second, uint32_t index, iddqd_row *rows, size_t len,
                           size_t *count);

/* The first item in order, and the last one. OK: *row is the item. MISSING: there is none.
 * Cost: a few steps. */
uint32_t iddqd_keyed_first(iddqd_table *table, iddqd_row *row);
uint32_t iddqd_keyed_last(iddqd_table *table, iddqd_row *row);

/* How many items have a second key. OK: *count is their number.
 * Cost: two searches of the order, and a step for each of them. */
uint32_t iddqd_keyed_count(iddqd_table *table, uint64_t second, size_t *count);

/* Removes all items with a second key. OK: *count is how many they were.
 * Cost: one search of the order; for each of them its first key is hashed once. */
uint32_t iddqd_keyed_remove_group(iddqd_table *table, uint64_t second, size_t *count);

/* Makes room in the table for so many more items, or for as many as there can be. OK. MEMORY: the items stay. With room
 * for n items the next n inserts need memory for the copies of their first keys alone.
 * Cost: moves what grows; takes memory where there is less room. */
uint32_t iddqd_keyed_reserve(iddqd_table *table, size_t additional);

/* How many items the table has room for beside those that it has. OK: *count is their number.
 * Cost: a few steps. */
uint32_t iddqd_keyed_room(iddqd_table *table, size_t *count);

/* Whether each item is found by both of its keys, and no two items share a key that is unique. OK. MEMORY. UNSOUND:
 * something else has written to the memory of the table; these functions alone never lead to it, which is proved.
 * Cost: a step for each slot and a sort of the indexes; takes memory for two lists of the indexes. */
uint32_t iddqd_keyed_validate(iddqd_table *table);

/* How many items there are. OK: *count is their number.
 * Cost: a few steps. */
uint32_t iddqd_keyed_len(iddqd_table *table, size_t *count);

/* Moves the items down in the order of their indexes, so that these are 0, 1 and so on, and no slot is vacant. OK:
 * indexes[i] is the new index of the item that had the index i, or IDDQD_SENTINEL if that slot was vacant; *count is
 * the number of the slots that there were. If no slot was vacant, each index is as it was. SMALL: there are *count
 * slots, and the buffer of `len` numbers has fewer places. MEMORY: there is none for a list of the new indexes, which a
 * table without a vacant slot doesn't need; nothing changed.
 * Cost: a step for each slot and each entry of the table; takes memory for that list. */
uint32_t iddqd_keyed_compact(iddqd_table *table, uint32_t *indexes, size_t len, size_t *count);

/* Forgets all items, and keeps the memory of the table. The next index is 0. OK.
 * Cost: a step for each slot; gives back the memory of each key. */
uint32_t iddqd_keyed_clear(iddqd_table *table);

/* ---- An index: numbers under hashes
 *
 * For records in memory of the caller's own and keys of any type: the caller computes the hashes, gets the numbers
 * that are filed under a hash, and compares the keys of their records itself. A pair of a hash and a number may be
 * filed more than once, and no function asks whether it is.
 *
 * Any hash serves that equal keys share, also an integer or an address itself: the table mixes it.
 *
 * Each call on a hash goes through numbers that are filed under it. So to remove n numbers under one hash, one call
 * each, takes time that grows with the square of n: 30,000 of them take 1.4 to 2.5 seconds. If many records share a
 * key, file the first of them alone and chain the others to it in the records, or take a table of keyed items that
 * share it as their second key, which removes a group in one call. If all numbers go, call `iddqd_index_clear`.
 */

/* Makes an empty index, where the handle is zero: OK, MEMORY, or HANDLE where it isn't.
 * Cost: takes memory for the block behind the handle. */
uint32_t iddqd_index_new(iddqd_table *table);

/* Files a number under a hash. OK. MEMORY: there was no room for one more pair, and nothing changed. With room, as
 * there is after a removal, it takes no memory.
 * Cost: a few steps; where there is no room, moves the table and takes memory. */
uint32_t iddqd_index_insert(iddqd_table *table, uint64_t hash, uint32_t number);

/* Removes a number that is filed under a hash, once. OK. MISSING: it isn't filed there. It takes no memory and gives
 * none back, and leaves room for one more pair.
 * Cost: a step for each number under the hash, up to this one. */
uint32_t iddqd_index_remove(iddqd_table *table, uint64_t hash, uint32_t number);

/* The numbers under a hash, in no order that a caller can rely on, as many as the buffer of `len` numbers has places
 * for. OK: *count is how many there are, also past the buffer.
 * Cost: a step for each number under the hash. */
uint32_t iddqd_index_under(iddqd_table *table, uint64_t hash, uint32_t *numbers, size_t len, size_t *count);

/* How many pairs are filed. OK: *count is their number.
 * Cost: a few steps. */
uint32_t iddqd_index_len(iddqd_table *table, size_t *count);

/* Forgets all pairs, and keeps the memory. OK.
 * Cost: clears the cells of the table. */
uint32_t iddqd_index_clear(iddqd_table *table);

/* ---- A layer: indexes under hashed and ordered keys, for records in the caller's own memory
 *
 * The caller keeps records of any type in an array of its own, compares them and computes their hashes itself. The
 * layer draws an index for each record, and keeps a table of the indexes for each key: a hash table for each hashed key,
 * a list in order for each ordered key. So adding a record to an array `books` in the order of `compare` is:
 *
 *     iddqd_layer_new(&layer, 1, 1);                       one hashed key and one ordered key
 *     uint32_t code = iddqd_layer_enter(&layer, 0, &way, row, IDDQD_ROW, &n);
 *     for (;; code = iddqd_layer_down(&layer, 0, &way, place, row, IDDQD_ROW, &n)) {
 *         for (place = 0; place < n && compare(&books[row[place]], &book) < 0; place++) {}
 *         if (way.level == 0) break;
 *     }
 *     way.places[0] = (uint8_t)place;                      the gap before the first book that isn't less
 *     if (iddqd_layer_insert(&layer, &hash, 1, &way, 1, &index) == IDDQD_OK)
 *         books[index] = book;
 *
 * docs/LAYER.md has a whole program. Keys are numbered from 0, the hashed ones and the ordered ones apart.
 *
 * No function here calls back: a search is handed to the caller a node at a time. Whatever the caller's comparisons and
 * hashes are, and whatever it passes as a way, a hash or an index: each table has each live index exactly once and no
 * other, and a function returns a code. That an order is by key and that no two records are equal is up to the caller.
 * An honest search ends at the one right gap.
 *
 * A way is plain data: it may be copied, kept, or filled with any bytes. It holds for a table until an index is inserted,
 * removed, cleared or compacted there; `rehash`, `reserve`, `shrink_to` and reads leave it as it is. A stale way is
 * refused as IDDQD_WAY, or leads to some place of the table: an insert there puts the index at a wrong place of the
 * order. So insert with ways that were found since the last change.
 *
 * Where nothing is said of memory, a function takes none. One call at a time works on a layer, in the thread that made
 * it, as on all tables. That holds for reads too, since each call writes to the handle: no two threads may read a layer
 * at the same time.
 *
 * Any hash serves that equal keys share, also an integer or an address itself: the layer mixes it. Each call on a hash
 * goes through the indexes under it. So to insert or remove n indexes under one hash, one call each, takes time that
 * grows with the square of n. If many records share a key, give it an ordered key instead, where a call costs some steps
 * a level however many are equal, or put the first of them alone under the hash and chain the others to it.
 */

/* The most keys of one kind, and the most indexes of a node's row. */
#define IDDQD_KEYS 16
#define IDDQD_ROW 11

/* The way to a node of an ordered key's table: the place that it takes at each level above the node, and the node's
 * level, which is 0 in a leaf. places[level] is a place in the node itself. In a leaf it is that of a gap: gap i lies
 * before index i of the row, and the last gap behind all of them. */
typedef struct iddqd_way {
    uint8_t places[12];
    uint32_t level;
} iddqd_way;

/* Makes an empty layer with so many hashed and ordered keys, where the handle is zero: OK, MEMORY, HANDLE where it isn't
 * zero, COUNT where more than IDDQD_KEYS of one kind are asked for.
 * Cost: a step for each key; takes memory for the block behind the handle and for the list of the tables. */
uint32_t iddqd_layer_new(iddqd_table *layer, uint32_t hashed, uint32_t ordered);

/* Makes a copy in the other handle, which has to be zero: OK, MEMORY, and nothing is left of the copy, or HANDLE. The
 * copy has the same live indexes and slots, and the same indexes in each table.
 * Cost: a step for each slot and each index of each table; takes memory for them. */
uint32_t iddqd_layer_clone(iddqd_table *layer, iddqd_table *copy);

/* The indexes under a hash in a hashed key, in no order that a caller can rely on, as many as the buffer of `room` places
 * has room for. OK: *count is how many there are, also past the buffer. KEY. Compare their records to find the one
 * sought: two keys may share a hash.
 * Cost: a look-up; a step for each index under the hash. */
uint32_t iddqd_layer_under(iddqd_table *layer, uint32_t key, uint64_t hash, uint32_t *indexes, size_t room,
                           size_t *count);

/* The steps of a search in an ordered key. `enter` is the root of the table, `row` the node to which a way leads, `down`
 * the child at a place of the node's row: child i lies before index i of the row, and the last child behind all of them.
 * OK: the row of the node is in the buffer, in order, and *count is how many indexes it has, at most IDDQD_ROW; of
 * `enter` and `down` *way leads to the node. KEY. WAY: there is no such node or child. SMALL: the row has *count indexes,
 * and the buffer has fewer places; the way stays.
 *
 * All indexes that lie below a node stand together in the order. Those of its row divide them: what lies below child i
 * stands between the indexes i - 1 and i of the row.
 * Cost: a step for each level above the node. A search takes one call a level: 3 or 4 at 1,000 indexes, 6 or 7 at a
 * million. */
uint32_t iddqd_layer_enter(iddqd_table *layer, uint32_t key, iddqd_way *way, uint32_t *row, size_t room,
                           size_t *count);
uint32_t iddqd_layer_row(iddqd_table *layer, uint32_t key, const iddqd_way *way, uint32_t *row, size_t room,
                         size_t *count);
uint32_t iddqd_layer_down(iddqd_table *layer, uint32_t key, iddqd_way *way, uint32_t place, uint32_t *row, size_t room,
                          size_t *count);

/* Whether a way leads to a gap of a leaf, where an index can be inserted and a walk can begin: level 0, and places[0] at
 * most the number of indexes of the row. OK. WAY: it doesn't. KEY.
 * Cost: some steps for each level. */
uint32_t iddqd_layer_gap(iddqd_table *layer, uint32_t key, const iddqd_way *way);

/* The indexes behind the gap of a way, in order, or those before it, from the last one down, as many as the buffer of
 * `room` places has room for. OK: *count is how many were written, and the way has moved to the gap beyond the last of
 * them. So the same call goes on from there; it has come to the end when it writes fewer than the buffer has room for.
 * WAY: the way leads to no gap. KEY.
 * Cost: some steps for each level, then a step for each index. */
uint32_t iddqd_layer_walk(iddqd_table *layer, uint32_t key, iddqd_way *way, uint32_t *indexes, size_t room,
                          size_t *count);
uint32_t iddqd_layer_walk_back(iddqd_table *layer, uint32_t key, iddqd_way *way, uint32_t *indexes, size_t room,
                               size_t *count);

/* The live indexes that are at least `from`, by number, as many as the buffer of `room` places has room for. OK: *count
 * is how many were written. Begin with 0. To go on, call it again with the last one plus 1.
 * Cost: a step for each slot that it passes. */
uint32_t iddqd_layer_live(iddqd_table *layer, uint32_t from, uint32_t *indexes, size_t room, size_t *count);

/* Whether an index is live. OK: it is. MISSING: it isn't.
 * Cost: a few steps. */
uint32_t iddqd_layer_is_live(iddqd_table *layer, uint32_t index);

/* Draws the next index, and inserts it into each hashed key under its hash, and into each ordered key at the gap to which
 * its way leads. hashes[i] is for hashed key i, ways[i] for ordered key i. OK: *index is the index: the one that was freed
 * last, or the number of slots if none is free. COUNT: there are not `hash_count` hashed keys or not `way_count` ordered
 * ones. WAY: a way leads to no gap. FULL: IDDQD_SENTINEL indexes are live. MEMORY. With any of these codes each table has
 * what it had, and all ways stay right. It is refused for the first of them that holds, in this order.
 * Cost: a look-up for each hashed key, some steps for each level of each ordered key; takes memory where a table has no
 * room. */
uint32_t iddqd_layer_insert(iddqd_table *layer, const uint64_t *hashes, size_t hash_count, const iddqd_way *ways,
                            size_t way_count, uint32_t *index);

/* Removes an index from the layer and from each table. OK: it was live. MISSING: it wasn't, and nothing changed. The
 * index is the next that is drawn.
 *
 * hashes[i] says under which hash the index stands in hashed key i, and ways[i] at which node of ordered key i, with
 * places[level] as its place in the row. They save time and nothing else: where one is wrong, or there are fewer than
 * keys, the table is walked. More than there are keys aren't read.
 * Cost: a look-up for each hashed key, some steps for each level of each ordered key; a step for each index of each table
 * for which the hash or the way is wrong or missing. */
uint32_t iddqd_layer_remove(iddqd_table *layer, uint32_t index, const uint64_t *hashes, size_t hash_count,
                            const iddqd_way *ways, size_t way_count);

/* Puts an index under another hash in one hashed key, for a record whose key changed. `from` is the hash that it stands
 * under. OK. KEY. MISSING: the index isn't live. For a record whose ordered key changed, remove the index, search, and
 * insert: the index is the same, and the insert takes no memory.
 * Cost: two look-ups; if `from` is wrong, a step for each index. */
uint32_t iddqd_layer_rehash(iddqd_table *layer, uint32_t index, uint32_t key, uint64_t from, uint64_t to);

/* How many indexes are live, how many slots there are, which is one for each index that was used since the layer was
 * made, compacted or cleared, and how many inserts need no memory. OK: *count is the number.
 * Cost: a few steps; of room a step for each key. */
uint32_t iddqd_layer_len(iddqd_table *layer, size_t *count);
uint32_t iddqd_layer_slots(iddqd_table *layer, size_t *count);
uint32_t iddqd_layer_room(iddqd_table *layer, size_t *count);

/* Makes room in each table for so many more indexes, or for as many as there can be. OK. MEMORY: the contents stay.
 * Cost: a step for each index of each table that grows; takes memory where there is less room. */
uint32_t iddqd_layer_reserve(iddqd_table *layer, size_t additional);

/* Gives back memory that is needed neither for the slots and indexes that there are nor for `least` of them. OK. MEMORY:
 * there is none for the smaller tables; the contents stay.
 * Cost: a step for each slot and each index, where memory is given back; takes memory for the smaller tables. */
uint32_t iddqd_layer_shrink_to(iddqd_table *layer, size_t least);

/* Forgets all indexes and slots, and keeps the memory. The next index is 0. OK.
 * Cost: a step for each index of each table. */
uint32_t iddqd_layer_clear(iddqd_table *layer);

/* Gives each live index its rank as its new number, so that these are 0, 1 and so on, and no slot is vacant. OK:
 * indexes[i] is the new number of index i, or IDDQD_SENTINEL if it wasn't live; *count is how many slots there were. Move
 * each record from i to indexes[i], from 0 upwards. SMALL: there are *count slots, and the buffer of `room` places has
 * fewer. MEMORY: there is none for a list of the new indexes, and nothing changed.
 * Cost: a step for each slot and each index of each table; takes memory for that list if a slot is vacant. */
uint32_t iddqd_layer_compact(iddqd_table *layer, uint32_t *indexes, size_t room, size_t *count);

#ifdef __cplusplus
}
#endif

#endif
