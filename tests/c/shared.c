/* The functions on items that share their second keys, from C: buffers, a group of 1,000, ranges in both directions, and
 * 20,000 records against a model. */
#include "iddqd.h"

#include <stdint.h>
#include <stdio.h>
#include <stdlib.h>
#include <string.h>

/* Ends the program, and says where, if the condition doesn't hold; NDEBUG doesn't turn it off. */
#define CHECK(holds) \
    do { \
        if (!(holds)) { \
            fprintf(stderr, "%s:%d: %s\n", __FILE__, __LINE__, #holds); \
            exit(1); \
        } \
    } while (0)

enum { GROUP = 1000, OTHERS = 500, RECORDS = 20000, SECONDS = 37 };

static const iddqd_row NO_ROW = { 77, 77, 77 };

static int is_row(const iddqd_row *row, uint64_t second, uint64_t value, uint32_t index) {
    return row->second == second && row->value == value && row->index == index;
}

static int is_no_row(const iddqd_row *row) {
    return is_row(row, 77, 77, 77);
}

static const uint8_t *bytes(const char *text) {
    return (const uint8_t *)text;
}

/* Inserts an item under the bytes of a number. For a duplicate, *at is the index of the item that has them: no second
 * key stands in the way. */
static uint32_t insert_bytes(iddqd_table *table, const uint8_t *key, size_t len, uint64_t second, uint64_t value,
                             uint32_t *at) {
    iddqd_conflict found = { 77, 77 };
    const uint32_t answer = iddqd_keyed_insert(table, key, len, second, value, at, &found);
    CHECK(found.second == (answer == IDDQD_DUPLICATE ? IDDQD_SENTINEL : 77));
    if (answer == IDDQD_DUPLICATE)
        *at = found.first;
    return answer;
}

static uint32_t insert(iddqd_table *table, uint64_t key, uint64_t second, uint64_t value, uint32_t *at) {
    return insert_bytes(table, (const uint8_t *)&key, sizeof key, second, value, at);
}

static void check_handles(void) {
    iddqd_table table = IDDQD_NONE;
    uint32_t index;
    size_t count;
    /* A second `new` keeps the table, of whichever kind it is. */
    CHECK(iddqd_keyed_new_shared(&table, 1, 2) == IDDQD_OK && table.state == 1);
    CHECK(insert(&table, 1, 1, 1, &index) == IDDQD_OK && index == 0);
    CHECK(iddqd_keyed_new_shared(&table, 1, 2) == IDDQD_HANDLE && iddqd_keyed_new(&table, 1, 2) == IDDQD_HANDLE);
    CHECK(iddqd_index_new(&table) == IDDQD_HANDLE && iddqd_index_clear(&table) == IDDQD_HANDLE);
    CHECK(iddqd_keyed_len(&table, &count) == IDDQD_OK && count == 1);
    iddqd_free(&table);
    CHECK(table.at == NULL && table.state == 0);
    CHECK(iddqd_keyed_len(&table, &count) == IDDQD_HANDLE);
    /* A handle is assigned. */
    table = IDDQD_NONE;
    CHECK(iddqd_keyed_new_shared(&table, 1, 2) == IDDQD_OK);
    CHECK(iddqd_keyed_len(&table, &count) == IDDQD_OK && count == 0);
    iddqd_free(&table);
}

static void check_keys(void) {
    iddqd_table table = IDDQD_NONE;
    iddqd_row row = NO_ROW;
    uint32_t index = 77;
    uint8_t key[4] = { 77, 77, 77, 77 };
    size_t len = 77;
    CHECK(iddqd_keyed_new_shared(&table, 1, 2) == IDDQD_OK);
    CHECK(insert_bytes(&table, bytes(""), 0, 5, 10, &index) == IDDQD_OK && index == 0);
    CHECK(insert_bytes(&table, bytes("ada"), 3, 5, 20, &index) == IDDQD_OK && index == 1);
    CHECK(insert_bytes(&table, bytes("bo"), 2, 5, 30, &index) == IDDQD_OK && index == 2);
    CHECK(insert_bytes(&table, bytes("ada"), 3, 6, 40, &index) == IDDQD_DUPLICATE && index == 1);
    CHECK(iddqd_keyed_find1(&table, bytes("ad"), 2, &row) == IDDQD_MISSING && is_no_row(&row));
    CHECK(iddqd_keyed_find1(&table, bytes("ada"), 3, &row) == IDDQD_OK && is_row(&row, 5, 20, 1));
    CHECK(iddqd_keyed_find1(&table, bytes(""), 0, &row) == IDDQD_OK && is_row(&row, 5, 10, 0));
    CHECK(iddqd_keyed_get(&table, 2, &row) == IDDQD_OK && is_row(&row, 5, 30, 2));
    CHECK(iddqd_keyed_get(&table, 3, &row) == IDDQD_MISSING && is_row(&row, 5, 30, 2));
    CHECK(iddqd_keyed_key(&table, 3, key, 4, &len) == IDDQD_MISSING && len == 77);
    CHECK(iddqd_keyed_key(&table, 1, key, 2, &len) == IDDQD_SMALL && len == 3 && key[0] == 77);
    CHECK(iddqd_keyed_key(&table, 1, key, 4, &len) == IDDQD_OK && len == 3 && memcmp(key, "adaM", 4) == 0);
    CHECK(iddqd_keyed_remove1(&table, bytes("ada"), 3, &row) == IDDQD_OK && is_row(&row, 5, 20, 1));
    CHECK(iddqd_keyed_remove1(&table, bytes("ada"), 3, &row) == IDDQD_MISSING);
    CHECK(iddqd_keyed_remove(&table, 1, &row) == IDDQD_MISSING);
    CHECK(insert_bytes(&table, bytes("cy"), 2, 5, 50, &index) == IDDQD_OK && index == 1);
    CHECK(iddqd_keyed_remove(&table, 1, &row) == IDDQD_OK && is_row(&row, 5, 50, 1));
    iddqd_free(&table);
}

/* Reads the group by buffers of `len` rows, and checks that it has each of its items once, by index. */
static void check_group_by(iddqd_table *table, size_t len) {
    static iddqd_row rows[GROUP + 1];
    uint32_t next = 0;
    size_t read = 0, count;
    do {
        for (size_t i = 0; i <= GROUP; i++) {
            rows[i] = NO_ROW;
        }
        CHECK(iddqd_keyed_group(table, 7, next, rows, len, &count) == IDDQD_OK && count <= len);
        for (size_t i = 0; i < count; i++) {
            /* Every third item of the table has another second key. */
            const uint32_t index = (uint32_t)((read + i) / 2 * 3 + (read + i) % 2);
            CHECK(is_row(&rows[i], 7, 10 * (uint64_t)index, index));
        }
        for (size_t i = count; i <= GROUP; i++) {
            CHECK(is_no_row(&rows[i]));
        }
        read += count;
        next = count > 0 ? rows[count - 1].index + 1 : next;
    } while (count == len);
    CHECK(read == GROUP);
}

/* A thousand items with one second key, by buffers of several lengths, among others. */
static void check_group(void) {
    iddqd_table table = IDDQD_NONE;
    iddqd_row row = NO_ROW;
    uint32_t index;
    size_t count;
    CHECK(iddqd_keyed_new_shared(&table, 1, 2) == IDDQD_OK && iddqd_keyed_reserve(&table, GROUP) == IDDQD_OK);
    for (uint32_t i = 0; i < GROUP + OTHERS; i++) {
        CHECK(insert(&table, i, i % 3 == 2 ? 6 + 2 * (i % 2) : 7, 10 * (uint64_t)i, &index) == IDDQD_OK);
        CHECK(index == i);
    }
    check_group_by(&table, 1);
    check_group_by(&table, 7);
    check_group_by(&table, GROUP);
    CHECK(iddqd_keyed_group(&table, 7, 0, &row, 0, &count) == IDDQD_OK && count == 0 && is_no_row(&row));
    CHECK(iddqd_keyed_group(&table, 9, 0, &row, 1, &count) == IDDQD_OK && count == 0 && is_no_row(&row));
    CHECK(iddqd_keyed_count(&table, 7, &count) == IDDQD_OK && count == GROUP);
    CHECK(iddqd_keyed_remove_group(&table, 7, &count) == IDDQD_OK && count == GROUP);
    CHECK(iddqd_keyed_count(&table, 7, &count) == IDDQD_OK && count == 0);
    CHECK(iddqd_keyed_len(&table, &count) == IDDQD_OK && count == OTHERS);
    CHECK(iddqd_keyed_clear(&table) == IDDQD_OK);
    CHECK(iddqd_keyed_len(&table, &count) == IDDQD_OK && count == 0);
    CHECK(insert(&table, 1, 1, 1, &index) == IDDQD_OK && index == 0);
    iddqd_free(&table);
}

/* How many items there are in order, upwards, by buffers of `len` rows; each comes behind the one before. */
static size_t count_up(iddqd_table *table, size_t len) {
    const iddqd_end open = { 0, 0, IDDQD_OPEN };
    iddqd_end from = open;
    iddqd_row rows[16];
    size_t read = 0, count;
    do {
        CHECK(iddqd_keyed_range(table, &from, &open, rows, len, &count) == IDDQD_OK && count <= len);
        for (size_t i = 0; i < count; i++) {
            CHECK(from.side == IDDQD_OPEN || rows[i].second > from.second ||
                  (rows[i].second == from.second && rows[i].index > from.index));
            from = (iddqd_end){ rows[i].second, rows[i].index, IDDQD_OUT };
        }
        read += count;
    } while (count == len);
    return read;
}

/* The same downwards. */
static size_t count_down(iddqd_table *table, size_t len) {
    const iddqd_end open = { 0, 0, IDDQD_OPEN };
    iddqd_end to = open;
    iddqd_row rows[16];
    size_t read = 0, count;
    do {
        CHECK(iddqd_keyed_range_down(table, &open, &to, rows, len, &count) == IDDQD_OK && count <= len);
        for (size_t i = 0; i < count; i++) {
            CHECK(to.side == IDDQD_OPEN || rows[i].second < to.second ||
                  (rows[i].second == to.second && rows[i].index < to.index));
            to = (iddqd_end){ rows[i].second, rows[i].index, IDDQD_OUT };
        }
        read += count;
    } while (count == len);
    return read;
}

/* Ends of each side, and in both directions, among the second keys 5, 7, 5, 6, 5, 7 of the items 0 to 5. */
static void check_ends(void) {
    static const uint64_t seconds[] = { 5, 7, 5, 6, 5, 7 };
    static const uint32_t order[] = { 0, 2, 4, 3, 1, 5 };
    iddqd_table table = IDDQD_NONE;
    iddqd_row row;
    uint32_t index;
    CHECK(iddqd_keyed_new_shared(&table, 1, 2) == IDDQD_OK);
    CHECK(iddqd_keyed_first(&table, &row) == IDDQD_MISSING && iddqd_keyed_last(&table, &row) == IDDQD_MISSING);
    for (uint64_t i = 0; i < 6; i++)
        CHECK(insert(&table, i, seconds[i], 10 * i, &index) == IDDQD_OK);
    CHECK(iddqd_keyed_first(&table, &row) == IDDQD_OK && is_row(&row, 5, 0, 0));
    CHECK(iddqd_keyed_last(&table, &row) == IDDQD_OK && is_row(&row, 7, 50, 5));
    for (size_t low = 0; low < 6; low++) {
        for (size_t high = 0; high < 6; high++) {
            for (uint32_t sides = 0; sides < 9; sides++) {
                const iddqd_end from = { seconds[order[low]], order[low], sides % 3 };
                const iddqd_end to = { seconds[order[high]], order[high], sides / 3 };
                const size_t begin = from.side == IDDQD_OPEN ? 0 : low + (from.side == IDDQD_OUT);
                const size_t end = to.side == IDDQD_OPEN ? 6 : high + (to.side == IDDQD_IN);
                const size_t within = begin < end ? end - begin : 0;
                iddqd_row up[7], down[7];
                size_t count = 77;
                CHECK(iddqd_keyed_range(&table, &from, &to, up, 7, &count) == IDDQD_OK && count == within);
                CHECK(iddqd_keyed_range_down(&table, &from, &to, down, 7, &count) == IDDQD_OK && count == within);
                for (size_t i = 0; i < within; i++)
                    CHECK(up[i].index == order[begin + i] && down[within - 1 - i].index == order[begin + i]);
            }
        }
    }
    iddqd_free(&table);
}

/* A key and buffers of length 0 may be null. */
static void check_null(void) {
    const iddqd_end open = { 0, 0, IDDQD_OPEN };
    iddqd_table table = IDDQD_NONE;
    iddqd_conflict found;
    iddqd_row row;
    uint32_t index;
    size_t count = 77;
    CHECK(iddqd_keyed_new_shared(&table, 1, 2) == IDDQD_OK);
    CHECK(iddqd_keyed_compact(&table, NULL, 0, &count) == IDDQD_OK && count == 0);
    CHECK(iddqd_keyed_find1(&table, NULL, 0, &row) == IDDQD_MISSING);
    CHECK(iddqd_keyed_insert(&table, NULL, 0, 5, 7, &index, &found) == IDDQD_OK);
    CHECK(iddqd_keyed_find1(&table, NULL, 0, &row) == IDDQD_OK && is_row(&row, 5, 7, 0));
    CHECK(iddqd_keyed_find1(&table, bytes(""), 0, &row) == IDDQD_OK);
    CHECK(iddqd_keyed_key(&table, 0, NULL, 0, &count) == IDDQD_OK && count == 0);
    CHECK(iddqd_keyed_find_many(&table, NULL, 0, NULL, 0) == IDDQD_OK);
    CHECK(iddqd_keyed_find_many1(&table, NULL, 0, NULL, 0, NULL, 0) == IDDQD_OK);
    CHECK(iddqd_keyed_find_many1(&table, NULL, 0, &(size_t){ 0 }, 1, &row, 1) == IDDQD_OK && row.index == 0);
    CHECK(iddqd_keyed_range(&table, &open, &open, NULL, 0, &count) == IDDQD_OK && count == 0);
    CHECK(iddqd_keyed_group(&table, 5, 0, NULL, 0, &count) == IDDQD_OK && count == 0);
    CHECK(iddqd_keyed_replace(&table, 0, NULL, 0, 6, 8, &found) == IDDQD_OK);
    CHECK(iddqd_keyed_remove1(&table, NULL, 0, &row) == IDDQD_OK && is_row(&row, 6, 8, 0));
    iddqd_free(&table);
    CHECK(iddqd_index_new(&table) == IDDQD_OK && iddqd_index_insert(&table, 1, 1) == IDDQD_OK);
    CHECK(iddqd_index_under(&table, 1, NULL, 0, &count) == IDDQD_OK && count == 1);
    iddqd_free(&table);
}

/* Records come and go, and every answer is that of a model. */
static void check_records(void) {
    static uint32_t at[RECORDS];
    static int there[RECORDS];
    size_t in_group[SECONDS] = { 0 }, records = 0, count;
    iddqd_table table = IDDQD_NONE;
    iddqd_row row;
    uint32_t index;
    uint64_t random = 1;
    CHECK(iddqd_keyed_new_shared(&table, 1, 2) == IDDQD_OK);
    for (int step = 0; step < 3 * RECORDS; step++) {
        random = random * UINT64_C(6364136223846793005) + UINT64_C(1442695040888963407);
        const uint64_t key = (random >> 33) % RECORDS, second = key % SECONDS;
        const uint32_t answer = insert(&table, key, second, ~key, &index);
        CHECK(answer == (there[key] ? IDDQD_DUPLICATE : IDDQD_OK));
        CHECK(!there[key] || index == at[key]);
        at[key] = index;
        CHECK(iddqd_keyed_find1(&table, (const uint8_t *)&key, sizeof key, &row) == IDDQD_OK);
        CHECK(is_row(&row, second, ~key, index));
        if (there[key]) {
            CHECK(iddqd_keyed_remove1(&table, (const uint8_t *)&key, sizeof key, &row) == IDDQD_OK);
            CHECK(iddqd_keyed_find1(&table, (const uint8_t *)&key, sizeof key, &row) == IDDQD_MISSING);
        }
        records = there[key] ? records - 1 : records + 1;
        in_group[second] = there[key] ? in_group[second] - 1 : in_group[second] + 1;
        there[key] = !there[key];
    }
    CHECK(iddqd_keyed_len(&table, &count) == IDDQD_OK && count == records);
    CHECK(count_up(&table, 16) == records && count_up(&table, 5) == records);
    CHECK(count_down(&table, 16) == records && count_down(&table, 5) == records);
    for (uint64_t second = 0; second < SECONDS; second++) {
        CHECK(iddqd_keyed_count(&table, second, &count) == IDDQD_OK && count == in_group[second]);
        CHECK(iddqd_keyed_remove_group(&table, second, &count) == IDDQD_OK && count == in_group[second]);
    }
    CHECK(iddqd_keyed_len(&table, &count) == IDDQD_OK && count == 0);
    iddqd_free(&table);
}

int main(void) {
    check_handles();
    check_keys();
    check_group();
    check_ends();
    check_null();
    check_records();
    puts("shared: ok");
    return 0;
}
