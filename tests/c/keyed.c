/* The functions on keyed items, from C: rows of bad input, buffers, long keys, and 100,000 records against a model. */
#include "iddqd.h"

#include <stdint.h>
#include <stdio.h>
#include <stdlib.h>
#include <string.h>

/* Ends the program, and says where, if the condition doesn't hold; NDEBUG doesn't turn it off. */
#define CHECK(holds) \
    do { \
        if (!(holds)) { \
            fprintf(stderr, "%s:%d: %s\n", __FILE__, __LINE__, #holds); \
            exit(1); \
        } \
    } while (0)

enum { RECORDS = 100000, LONG_KEY = 1000000 };

static const iddqd_row NO_ROW = { 77, 77, 77 };
/* The row of a key that is looked up with others and missing. */
static const iddqd_row MISSED = { 0, 0, IDDQD_SENTINEL };
static const iddqd_conflict NO_CONFLICT = { 77, 77 };
static const iddqd_end OPEN = { 0, 0, IDDQD_OPEN };

/* The lower end of a range that begins at a second key. */
static iddqd_end from_key(uint64_t second) {
    return (iddqd_end){ second, 0, IDDQD_IN };
}

static int same_row(const iddqd_row *left, const iddqd_row *right) {
    return left->second == right->second && left->value == right->value && left->index == right->index;
}

static const uint8_t *bytes(const char *text) {
    return (const uint8_t *)text;
}

/* Every function returns HANDLE and writes nothing. */
static void check_no_table(iddqd_table *table) {
    const iddqd_table was = *table;
    iddqd_row row = NO_ROW, rows[2] = { NO_ROW, NO_ROW };
    iddqd_conflict conflict = NO_CONFLICT;
    uint32_t index = 77, indexes[2] = { 77, 77 };
    uint8_t byte = 77;
    size_t count = 77;
    CHECK(iddqd_keyed_insert(table, bytes("a"), 1, 1, 1, &index, &conflict) == IDDQD_HANDLE);
    CHECK(iddqd_keyed_find1(table, bytes("a"), 1, &row) == IDDQD_HANDLE);
    CHECK(iddqd_keyed_find2(table, 1, &row) == IDDQD_HANDLE);
    CHECK(iddqd_keyed_get(table, 0, &row) == IDDQD_HANDLE);
    CHECK(iddqd_keyed_find_many(table, &(uint64_t){ 1 }, 1, rows, 2) == IDDQD_HANDLE);
    CHECK(iddqd_keyed_find_many1(table, bytes("a"), 1, &(size_t){ 1 }, 1, rows, 2) == IDDQD_HANDLE);
    CHECK(iddqd_keyed_remove1(table, bytes("a"), 1, &row) == IDDQD_HANDLE);
    CHECK(iddqd_keyed_remove2(table, 1, &row) == IDDQD_HANDLE);
    CHECK(iddqd_keyed_remove(table, 0, &row) == IDDQD_HANDLE);
    CHECK(iddqd_keyed_set_value(table, 0, 1) == IDDQD_HANDLE);
    CHECK(iddqd_keyed_replace(table, 0, bytes("a"), 1, 1, 1, &conflict) == IDDQD_HANDLE);
    CHECK(iddqd_keyed_range(table, &OPEN, &OPEN, rows, 2, &count) == IDDQD_HANDLE);
    CHECK(iddqd_keyed_range_down(table, &OPEN, &OPEN, rows, 2, &count) == IDDQD_HANDLE);
    CHECK(iddqd_keyed_group(table, 1, 0, rows, 2, &count) == IDDQD_HANDLE);
    CHECK(iddqd_keyed_first(table, &row) == IDDQD_HANDLE && iddqd_keyed_last(table, &row) == IDDQD_HANDLE);
    CHECK(iddqd_keyed_count(table, 1, &count) == IDDQD_HANDLE);
    CHECK(iddqd_keyed_remove_group(table, 1, &count) == IDDQD_HANDLE);
    CHECK(iddqd_keyed_len(table, &count) == IDDQD_HANDLE);
    CHECK(iddqd_keyed_key(table, 0, &byte, 1, &count) == IDDQD_HANDLE && byte == 77);
    CHECK(iddqd_keyed_reserve(table, 1) == IDDQD_HANDLE && iddqd_keyed_room(table, &count) == IDDQD_HANDLE);
    CHECK(iddqd_keyed_validate(table) == IDDQD_HANDLE);
    CHECK(iddqd_keyed_compact(table, indexes, 2, &count) == IDDQD_HANDLE && indexes[0] == 77 && indexes[1] == 77);
    CHECK(iddqd_keyed_clear(table) == IDDQD_HANDLE);
    CHECK(index == 77 && count == 77 && conflict.first == 77 && conflict.second == 77);
    CHECK(same_row(&row, &NO_ROW) && same_row(&rows[0], &NO_ROW) && same_row(&rows[1], &NO_ROW));
    CHECK(table->state == was.state && table->at == was.at);
}

static void check_handles(void) {
    iddqd_table table = IDDQD_NONE;
    check_no_table(&table);
    iddqd_free(&table);
    CHECK(table.at == 0 && table.state == 0);
    /* A handle of another library has another state. */
    iddqd_table foreign = { &table, 2 };
    check_no_table(&foreign);
    CHECK(iddqd_keyed_new(&foreign, 0, 0) == IDDQD_HANDLE);
    iddqd_free(&foreign);
    CHECK(foreign.at == &table && foreign.state == 2);
    /* A second `new` keeps the table. */
    uint32_t index;
    iddqd_conflict conflict;
    size_t count;
    CHECK(iddqd_keyed_new(&table, 1, 2) == IDDQD_OK);
    CHECK(iddqd_keyed_insert(&table, bytes("a"), 1, 1, 1, &index, &conflict) == IDDQD_OK && index == 0);
    CHECK(iddqd_keyed_new(&table, 1, 2) == IDDQD_HANDLE);
    CHECK(iddqd_keyed_len(&table, &count) == IDDQD_OK && count == 1);
    iddqd_free(&table);
    check_no_table(&table);
    iddqd_free(&table);
    /* A handle may be moved, if its old place is forgotten. */
    CHECK(iddqd_keyed_new(&table, 1, 2) == IDDQD_OK);
    CHECK(iddqd_keyed_insert(&table, bytes("a"), 1, 1, 1, &index, &conflict) == IDDQD_OK);
    iddqd_table *moved = malloc(sizeof *moved);
    CHECK(moved != NULL);
    memcpy(moved, &table, sizeof table);
    memset(&table, 0, sizeof table);
    CHECK(iddqd_keyed_insert(moved, bytes("b"), 1, 2, 2, &index, &conflict) == IDDQD_OK && index == 1);
    CHECK(iddqd_keyed_len(moved, &count) == IDDQD_OK && count == 2);
    iddqd_free(moved);
    check_no_table(moved);
    free(moved);
    /* A closed handle can be opened again. */
    CHECK(iddqd_keyed_new(&table, 1, 2) == IDDQD_OK);
    CHECK(iddqd_keyed_len(&table, &count) == IDDQD_OK && count == 0);
    iddqd_free(&table);
}

/* The key of an item in buffers that are too short, exact and longer. */
static void check_key(iddqd_table *table, uint32_t index, const uint8_t *key, size_t len) {
    uint8_t *buffer = malloc(len + 2);
    size_t needed = 77;
    CHECK(buffer != NULL);
    memset(buffer, 77, len + 2);
    if (len > 0) {
        CHECK(iddqd_keyed_key(table, index, buffer, len - 1, &needed) == IDDQD_SMALL && needed == len);
        CHECK(iddqd_keyed_key(table, index, buffer, 0, &needed) == IDDQD_SMALL && needed == len && buffer[0] == 77);
    }
    CHECK(iddqd_keyed_key(table, index, buffer, len, &needed) == IDDQD_OK && needed == len);
    CHECK(memcmp(buffer, key, len) == 0 && buffer[len] == 77);
    CHECK(iddqd_keyed_key(table, index, buffer, len + 1, &needed) == IDDQD_OK && needed == len && buffer[len] == 77);
    CHECK(iddqd_keyed_key(table, index + 1, buffer, len, &needed) == IDDQD_MISSING);
    free(buffer);
}

static void check_one(iddqd_table *table, const uint8_t *key, size_t len, uint64_t second) {
    uint32_t index = 77;
    iddqd_conflict conflict = NO_CONFLICT;
    iddqd_row row = NO_ROW;
    CHECK(iddqd_keyed_find1(table, key, len, &row) == IDDQD_MISSING && same_row(&row, &NO_ROW));
    CHECK(iddqd_keyed_insert(table, key, len, second, 5, &index, &conflict) == IDDQD_OK);
    CHECK(iddqd_keyed_insert(table, key, len, second + 1000, 6, &index, &conflict) == IDDQD_DUPLICATE);
    CHECK(conflict.first == index && conflict.second == IDDQD_SENTINEL);
    CHECK(iddqd_keyed_insert(table, bytes("other"), 5, second, 6, &index, &conflict) == IDDQD_DUPLICATE);
    CHECK(conflict.first == IDDQD_SENTINEL && conflict.second == index);
    CHECK(iddqd_keyed_insert(table, key, len, second, 6, &index, &conflict) == IDDQD_DUPLICATE);
    CHECK(conflict.first == index && conflict.second == index);
    CHECK(iddqd_keyed_set_value(table, index, 9) == IDDQD_OK);
    CHECK(iddqd_keyed_find1(table, key, len, &row) == IDDQD_OK && row.value == 9 && row.second == second);
    CHECK(row.index == index);
    check_key(table, index, key, len);
    if (len > 1) {
        CHECK(iddqd_keyed_find1(table, key, len - 1, &row) == IDDQD_MISSING);
    }
}

/* Keys of no byte, of bytes that are no text, of which one is the beginning of another, and of a million bytes. */
static void check_keys(void) {
    static uint8_t key[LONG_KEY];
    iddqd_table table = IDDQD_NONE;
    iddqd_row row;
    size_t count;
    CHECK(iddqd_keyed_new(&table, 3, 4) == IDDQD_OK);
    check_one(&table, key, 0, 1);
    check_one(&table, bytes("\0"), 1, 2);
    check_one(&table, bytes("\0\xff\x80\0"), 4, 3);
    check_one(&table, key, LONG_KEY, 4);
    CHECK(iddqd_keyed_len(&table, &count) == IDDQD_OK && count == 4);
    key[LONG_KEY - 1] = 1;
    CHECK(iddqd_keyed_find1(&table, key, LONG_KEY, &row) == IDDQD_MISSING);
    key[LONG_KEY - 1] = 0;
    CHECK(iddqd_keyed_remove1(&table, key, LONG_KEY, &row) == IDDQD_OK && row.second == 4);
    CHECK(iddqd_keyed_remove1(&table, key, 0, &row) == IDDQD_OK && row.second == 1);
    CHECK(iddqd_keyed_remove1(&table, key, 0, &row) == IDDQD_MISSING);
    CHECK(iddqd_keyed_set_value(&table, row.index, 1) == IDDQD_MISSING);
    CHECK(iddqd_keyed_get(&table, row.index, &row) == IDDQD_MISSING);
    CHECK(iddqd_keyed_get(&table, UINT32_MAX, &row) == IDDQD_MISSING);
    CHECK(iddqd_keyed_remove(&table, UINT32_MAX, &row) == IDDQD_MISSING);
    CHECK(iddqd_keyed_clear(&table) == IDDQD_OK && iddqd_keyed_len(&table, &count) == IDDQD_OK && count == 0);
    iddqd_free(&table);
}

/* Buffers of no place, of one, of as many as there are items, and of more. */
static void check_buffers(void) {
    iddqd_table table = IDDQD_NONE;
    iddqd_conflict conflict;
    uint32_t index;
    CHECK(iddqd_keyed_new(&table, 5, 6) == IDDQD_OK);
    for (uint64_t i = 0; i < 3; i++) {
        uint8_t key = (uint8_t)i;
        CHECK(iddqd_keyed_insert(&table, &key, 1, UINT64_MAX - i, i, &index, &conflict) == IDDQD_OK);
    }
    for (size_t len = 0; len <= 5; len++) {
        iddqd_row rows[5] = { NO_ROW, NO_ROW, NO_ROW, NO_ROW, NO_ROW };
        size_t count = 77;
        const iddqd_end last = from_key(UINT64_MAX);
        CHECK(iddqd_keyed_range(&table, &OPEN, &OPEN, rows, len, &count) == IDDQD_OK && count == (len < 3 ? len : 3));
        for (size_t at = 0; at < 5; at++) {
            iddqd_row want = { UINT64_MAX - 2 + at, 2 - at, (uint32_t)(2 - at) };
            CHECK(same_row(&rows[at], at < count ? &want : &NO_ROW));
        }
        CHECK(iddqd_keyed_range(&table, &last, &OPEN, rows, len, &count) == IDDQD_OK && count == (len < 1 ? len : 1));
    }
    iddqd_free(&table);
}

/* Three second keys in one call, of which one is missing. */
static void check_keys_at_once(void) {
    static const uint64_t seconds[] = { 40, 41, 10 };
    iddqd_table table = IDDQD_NONE;
    iddqd_conflict conflict;
    iddqd_row rows[] = { NO_ROW, NO_ROW, NO_ROW, NO_ROW };
    uint32_t index;
    CHECK(iddqd_keyed_new(&table, 9, 10) == IDDQD_OK);
    for (uint64_t i = 0; i < 10; i++)
        CHECK(iddqd_keyed_insert(&table, (const uint8_t *)&i, sizeof i, i * 10, i, &index, &conflict) == IDDQD_OK);
    CHECK(iddqd_keyed_find_many(&table, seconds, 3, rows, 2) == IDDQD_SMALL && same_row(&rows[0], &NO_ROW));
    CHECK(iddqd_keyed_find_many(&table, seconds, 3, rows, 4) == IDDQD_OK);
    CHECK(rows[0].index == 4 && rows[0].second == 40 && rows[0].value == 4);
    CHECK(same_row(&rows[1], &MISSED));
    CHECK(rows[2].index == 1 && rows[2].second == 10 && rows[2].value == 1 && same_row(&rows[3], &NO_ROW));
    CHECK(iddqd_keyed_find_many(&table, seconds, 0, rows, 0) == IDDQD_OK);
    iddqd_free(&table);
}

/* First keys in one call: "ada", "bo", the empty one, a missing one, one that ends before it begins, "bo", and one that
 * ends past the bytes. */
static void check_first_keys_at_once(void) {
    static const size_t ends[] = { 3, 5, 5, 6, 3, 5, SIZE_MAX };
    static const uint32_t found[] = { 0, 1, 2, IDDQD_SENTINEL, IDDQD_SENTINEL, 1, IDDQD_SENTINEL };
    const uint8_t *keys = bytes("adabox");
    iddqd_table table = IDDQD_NONE;
    iddqd_conflict conflict;
    iddqd_row rows[] = { NO_ROW, NO_ROW, NO_ROW, NO_ROW, NO_ROW, NO_ROW, NO_ROW, NO_ROW };
    uint32_t index;
    CHECK(iddqd_keyed_new(&table, 9, 10) == IDDQD_OK);
    CHECK(iddqd_keyed_insert(&table, bytes("ada"), 3, 70, 100, &index, &conflict) == IDDQD_OK);
    CHECK(iddqd_keyed_insert(&table, bytes("bo"), 2, 71, 101, &index, &conflict) == IDDQD_OK);
    CHECK(iddqd_keyed_insert(&table, bytes(""), 0, 72, 102, &index, &conflict) == IDDQD_OK);
    CHECK(iddqd_keyed_find_many1(&table, keys, 6, ends, 7, rows, 6) == IDDQD_SMALL && same_row(&rows[0], &NO_ROW));
    CHECK(iddqd_keyed_find_many1(&table, keys, 6, ends, 7, rows, 8) == IDDQD_OK && same_row(&rows[7], &NO_ROW));
    for (size_t i = 0; i < 7; i++) {
        const iddqd_row row = { 70 + (uint64_t)found[i], 100 + (uint64_t)found[i], found[i] };
        CHECK(same_row(&rows[i], found[i] == IDDQD_SENTINEL ? &MISSED : &row));
    }
    CHECK(iddqd_keyed_find_many1(&table, keys, 0, ends, 0, rows, 0) == IDDQD_OK);
    iddqd_free(&table);
}

/* Room for a thousand items falls by one at most with each insert. */
static void check_room(void) {
    iddqd_table table = IDDQD_NONE;
    iddqd_conflict conflict;
    uint32_t index;
    size_t room;
    CHECK(iddqd_keyed_new(&table, 7, 8) == IDDQD_OK);
    CHECK(iddqd_keyed_room(&table, &room) == IDDQD_OK && room == 0);
    CHECK(iddqd_keyed_reserve(&table, 1000) == IDDQD_OK);
    for (uint64_t i = 0; i < 1000; i++) {
        CHECK(iddqd_keyed_room(&table, &room) == IDDQD_OK && room >= 1000 - i);
        CHECK(iddqd_keyed_insert(&table, (const uint8_t *)&i, sizeof i, i, i, &index, &conflict) == IDDQD_OK);
    }
    CHECK(iddqd_keyed_len(&table, &room) == IDDQD_OK && room == 1000);
    CHECK(iddqd_keyed_validate(&table) == IDDQD_OK);
    iddqd_free(&table);
}

/* Buffers that are too short, exact and longer, of slots that are all live, some vacant, and all vacant. */
static void check_compaction(void) {
    iddqd_table table = IDDQD_NONE;
    iddqd_conflict conflict;
    iddqd_row row;
    uint32_t index, indexes[5] = { 77, 77, 77, 77, 77 };
    size_t count = 77;
    CHECK(iddqd_keyed_new(&table, 11, 12) == IDDQD_OK);
    CHECK(iddqd_keyed_compact(&table, indexes, 0, &count) == IDDQD_OK && count == 0 && indexes[0] == 77);
    for (uint64_t i = 0; i < 4; i++)
        CHECK(iddqd_keyed_insert(&table, (const uint8_t *)&i, sizeof i, 9 - i, i, &index, &conflict) == IDDQD_OK);
    CHECK(iddqd_keyed_compact(&table, indexes, 5, &count) == IDDQD_OK && count == 4);
    for (uint32_t i = 0; i < 4; i++)
        CHECK(indexes[i] == i);
    CHECK(indexes[4] == 77);
    CHECK(iddqd_keyed_remove(&table, 2, &row) == IDDQD_OK && iddqd_keyed_remove(&table, 0, &row) == IDDQD_OK);
    CHECK(iddqd_keyed_compact(&table, indexes, 3, &count) == IDDQD_SMALL && count == 4 && indexes[2] == 2);
    CHECK(iddqd_keyed_get(&table, 3, &row) == IDDQD_OK && row.value == 3);
    CHECK(iddqd_keyed_compact(&table, indexes, 4, &count) == IDDQD_OK && count == 4);
    CHECK(indexes[0] == IDDQD_SENTINEL && indexes[1] == 0 && indexes[2] == IDDQD_SENTINEL && indexes[3] == 1);
    CHECK(iddqd_keyed_get(&table, 0, &row) == IDDQD_OK && row.value == 1 && row.index == 0);
    CHECK(iddqd_keyed_find2(&table, 6, &row) == IDDQD_OK && row.value == 3 && row.index == 1);
    CHECK(iddqd_keyed_get(&table, 2, &row) == IDDQD_MISSING);
    CHECK(iddqd_keyed_remove(&table, 0, &row) == IDDQD_OK && iddqd_keyed_remove(&table, 1, &row) == IDDQD_OK);
    CHECK(iddqd_keyed_compact(&table, indexes, 5, &count) == IDDQD_OK && count == 2);
    CHECK(indexes[0] == IDDQD_SENTINEL && indexes[1] == IDDQD_SENTINEL && indexes[3] == 1);
    CHECK(iddqd_keyed_compact(&table, indexes, 0, &count) == IDDQD_OK && count == 0);
    iddqd_free(&table);
}

/* ---- 100,000 records against a model: an array, by the records' numbers */

typedef struct record {
    char key[16];
    uint64_t second;
    uint64_t value;
    uint32_t index;
    int is_there;
} record;

static record model[RECORDS];

/* Which record has the second key i: a permutation of the numbers. */
static uint64_t second_of(uint64_t i) {
    return i * 70001 % RECORDS;
}

static void find_all(iddqd_table *table) {
    for (size_t i = 0; i < RECORDS; i++) {
        const record *want = &model[i];
        iddqd_row row = NO_ROW;
        uint32_t answer = want->is_there ? IDDQD_OK : IDDQD_MISSING;
        CHECK(iddqd_keyed_find1(table, bytes(want->key), strlen(want->key), &row) == answer);
        iddqd_row said = { want->second, want->value, want->index };
        CHECK(same_row(&row, want->is_there ? &said : &NO_ROW));
        row = NO_ROW;
        CHECK(iddqd_keyed_find2(table, want->second, &row) == answer);
        CHECK(same_row(&row, want->is_there ? &said : &NO_ROW));
        if (want->is_there) {
            CHECK(iddqd_keyed_get(table, want->index, &row) == IDDQD_OK && same_row(&row, &said));
        }
    }
}

static void walk_all(iddqd_table *table, size_t most) {
    static iddqd_row rows[1000];
    static const record *by_second[RECORDS];
    size_t seen = 0, there = 0;
    for (size_t i = 0; i < RECORDS; i++) {
        by_second[model[i].second] = &model[i];
    }
    uint64_t from = 0;
    size_t count = most, at = 0;
    while (count == most) {
        const iddqd_end begin = from_key(from);
        CHECK(iddqd_keyed_range(table, &begin, &OPEN, rows, most, &count) == IDDQD_OK && count <= most);
        for (size_t i = 0; i < count; i++, seen++) {
            for (; !by_second[at]->is_there; at++) {
            }
            iddqd_row want = { by_second[at]->second, by_second[at]->value, by_second[at]->index };
            CHECK(same_row(&rows[i], &want));
            at++;
        }
        from = count > 0 ? rows[count - 1].second + 1 : from;
    }
    for (size_t i = 0; i < RECORDS; i++) {
        there += (size_t)model[i].is_there;
    }
    CHECK(seen == there);
    CHECK(iddqd_keyed_len(table, &count) == IDDQD_OK && count == there);
}

static void put(iddqd_table *table, size_t i) {
    record *new = &model[i];
    iddqd_conflict conflict = NO_CONFLICT;
    uint32_t index = 77;
    new->value = i * i;
    CHECK(iddqd_keyed_insert(table, bytes(new->key), strlen(new->key), new->second, new->value, &index, &conflict)
          == IDDQD_OK);
    new->index = index;
    new->is_there = 1;
}

/* Gives a record another key and the second key of one that is gone, which gets its own; the first key of a third
 * record is refused. */
static void give_keys(iddqd_table *table, record *new, record *gone, const record *third) {
    const record was = *new;
    const uint8_t *key = bytes(third->key);
    iddqd_conflict conflict = NO_CONFLICT;
    iddqd_row row;
    new->key[0] = 'R';
    new->second = gone->second;
    new->value = was.value + 1;
    gone->second = was.second;
    CHECK(iddqd_keyed_replace(table, new->index, key, strlen(third->key), new->second, 1, &conflict)
          == IDDQD_DUPLICATE);
    CHECK(conflict.first == third->index && conflict.second == IDDQD_SENTINEL);
    key = bytes(new->key);
    CHECK(iddqd_keyed_replace(table, gone->index, key, strlen(new->key), new->second, 1, &conflict) == IDDQD_MISSING);
    CHECK(iddqd_keyed_replace(table, new->index, key, strlen(new->key), new->second, new->value, &conflict)
          == IDDQD_OK);
    CHECK(iddqd_keyed_find1(table, bytes(was.key), strlen(was.key), &row) == IDDQD_MISSING);
}

/* Compacts the table, and gives each record its new index. The records that are there keep the order of their indexes. */
static void compact_all(iddqd_table *table, size_t slots) {
    static uint32_t indexes[RECORDS];
    size_t count = 77;
    uint32_t next = 0;
    CHECK(iddqd_keyed_compact(table, indexes, slots - 1, &count) == IDDQD_SMALL && count == slots);
    CHECK(iddqd_keyed_compact(table, indexes, RECORDS, &count) == IDDQD_OK && count == slots);
    for (size_t i = 0; i < slots; i++) {
        CHECK(indexes[i] == IDDQD_SENTINEL || indexes[i] == next++);
    }
    for (size_t i = 0; i < RECORDS; i++) {
        if (model[i].is_there) {
            model[i].index = indexes[model[i].index];
            CHECK(model[i].index != IDDQD_SENTINEL);
        }
    }
    CHECK(iddqd_keyed_len(table, &count) == IDDQD_OK && count == next);
}

static void check_many(void) {
    iddqd_table table = IDDQD_NONE;
    iddqd_row row;
    CHECK(iddqd_keyed_new(&table, 0x0123456789abcdef, 0xfedcba9876543210) == IDDQD_OK);
    for (size_t i = 0; i < RECORDS; i++) {
        snprintf(model[i].key, sizeof model[i].key, "record %zu", i);
        model[i].second = second_of(i);
        put(&table, i);
    }
    find_all(&table);
    walk_all(&table, 1000);
    for (size_t i = 0; i < RECORDS; i += 3) {
        record *gone = &model[i];
        uint32_t answer = i % 2 ? iddqd_keyed_remove1(&table, bytes(gone->key), strlen(gone->key), &row)
                                : iddqd_keyed_remove2(&table, gone->second, &row);
        iddqd_row want = { gone->second, gone->value, gone->index };
        CHECK(answer == IDDQD_OK && same_row(&row, &want));
        gone->is_there = 0;
    }
    for (size_t i = 1; i < RECORDS; i += 3) {
        CHECK(iddqd_keyed_set_value(&table, model[i].index, i) == IDDQD_OK);
        model[i].value = i;
    }
    find_all(&table);
    walk_all(&table, 7);
    for (size_t i = 0; i < RECORDS; i += 6) {
        put(&table, i);
    }
    for (size_t i = 2; i < RECORDS; i += 9) {
        CHECK(iddqd_keyed_remove(&table, model[i].index, &row) == IDDQD_OK);
        model[i].is_there = 0;
    }
    find_all(&table);
    walk_all(&table, 1000);
    for (size_t i = 2; i + 2 < RECORDS; i += 9) {
        give_keys(&table, &model[i + 2], &model[i], &model[1]);
    }
    find_all(&table);
    walk_all(&table, 1);
    compact_all(&table, RECORDS);
    find_all(&table);
    walk_all(&table, 1000);
    CHECK(iddqd_keyed_validate(&table) == IDDQD_OK);
    iddqd_free(&table);
}

int main(void) {
    CHECK(iddqd_version() == IDDQD_VERSION);
    check_handles();
    check_keys();
    check_buffers();
    check_keys_at_once();
    check_first_keys_at_once();
    check_room();
    check_compaction();
    check_many();
    puts("keyed: ok");
    return 0;
}
