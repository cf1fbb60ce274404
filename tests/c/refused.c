/* Each allocation of a run of calls fails in turn: the call returns MEMORY, what was there stays, and the same call
 * passes once there is memory again. Link it with -Wl,--wrap=malloc,--wrap=realloc,--wrap=free. */
#include "iddqd.h"

#include <stdio.h>
#include <stdlib.h>

void *__real_malloc(size_t size);
void *__real_realloc(void *at, size_t size);
void __real_free(void *at);

static long before_refusal; /* how many allocations pass; the next one fails; negative: none fails */
static int refuses_all;     /* each fails */
static long held;           /* how many blocks are held */

static int is_refused(void) {
    return refuses_all || (before_refusal >= 0 && before_refusal-- == 0);
}

void *__wrap_malloc(size_t size) {
    void *at = is_refused() ? NULL : __real_malloc(size);
    held += at != NULL;
    return at;
}

void *__wrap_realloc(void *old, size_t size) {
    void *at = is_refused() ? NULL : __real_realloc(old, size);
    held += at != NULL && old == NULL;
    return at;
}

void __wrap_free(void *at) {
    held -= at != NULL;
    __real_free(at);
}

#define CHECK(holds) \
    do { \
        if (!(holds)) { \
            fprintf(stderr, "%s:%d: %s, refusal %ld\n", __FILE__, __LINE__, #holds, at); \
            exit(1); \
        } \
    } while (0)

enum { ITEMS = 300 };

static uint32_t insert(iddqd_table *table, uint64_t i) {
    iddqd_conflict conflict;
    uint32_t index;
    return iddqd_keyed_insert(table, (const uint8_t *)&i, sizeof i, i, i, &index, &conflict);
}

/* Gives the item at index i other keys. */
static uint32_t replace(iddqd_table *table, uint64_t i) {
    const uint64_t key = ITEMS + i;
    iddqd_conflict conflict;
    return iddqd_keyed_replace(table, (uint32_t)i, (const uint8_t *)&key, sizeof key, key, i, &conflict);
}

static uint32_t compact(iddqd_table *table) {
    uint32_t indexes[ITEMS];
    size_t count;
    return iddqd_keyed_compact(table, indexes, ITEMS, &count);
}

/* While every allocation fails, a duplicate is reported as one, an item that stands in no way as want of memory, and
 * what takes no memory is done. */
static void check_without_memory(iddqd_table *table, long at) {
    const long was = before_refusal;
    iddqd_conflict conflict = { 77, 77 };
    iddqd_row row;
    uint32_t index = 77;
    const uint64_t other = 10 * ITEMS;
    refuses_all = 1;
    for (uint64_t i = 0; i < ITEMS; i++) {
        CHECK(iddqd_keyed_insert(table, (const uint8_t *)&i, sizeof i, other, 0, &index, &conflict) == IDDQD_DUPLICATE);
        CHECK(conflict.first == i && conflict.second == IDDQD_SENTINEL);
        CHECK(iddqd_keyed_find1(table, (const uint8_t *)&i, sizeof i, &row) == IDDQD_OK && row.index == i);
    }
    CHECK(iddqd_keyed_insert(table, (const uint8_t *)&other, sizeof other, other, 0, &index, &conflict) == IDDQD_MEMORY);
    refuses_all = 0;
    before_refusal = was;
    CHECK(index == 77);
}

typedef uint32_t make_table(iddqd_table *table, uint64_t seed1, uint64_t seed2);

/* Whether allocation `at` of the run was refused. */
static int is_refused_at(long at, make_table *make) {
    iddqd_table table = IDDQD_NONE;
    int refused = 0;
    before_refusal = at;
    uint32_t answer = make(&table, 1, 2);
    if (answer != IDDQD_OK) {
        CHECK(answer == IDDQD_MEMORY && table.at == NULL && table.state == 0);
        refused++;
        CHECK(make(&table, 1, 2) == IDDQD_OK);
    }
    for (uint64_t i = 0; i < ITEMS; i++) {
        size_t count;
        answer = insert(&table, i);
        if (answer != IDDQD_OK) {
            CHECK(answer == IDDQD_MEMORY);
            CHECK(iddqd_keyed_len(&table, &count) == IDDQD_OK && count == i);
            refused++;
            CHECK(insert(&table, i) == IDDQD_OK);
        }
    }
    check_without_memory(&table, at);
    for (uint64_t i = 0; i < ITEMS; i++) {
        iddqd_row row;
        CHECK(iddqd_keyed_find1(&table, (const uint8_t *)&i, sizeof i, &row) == IDDQD_OK && row.value == i);
        CHECK(iddqd_keyed_find2(&table, i, &row) == IDDQD_OK && row.value == i);
        answer = replace(&table, i);
        if (answer != IDDQD_OK) {
            CHECK(answer == IDDQD_MEMORY);
            CHECK(iddqd_keyed_find1(&table, (const uint8_t *)&i, sizeof i, &row) == IDDQD_OK && row.second == i);
            refused++;
            CHECK(replace(&table, i) == IDDQD_OK);
        }
        CHECK(iddqd_keyed_find2(&table, ITEMS + i, &row) == IDDQD_OK && row.index == i);
    }
    iddqd_row row;
    CHECK(iddqd_keyed_remove(&table, 0, &row) == IDDQD_OK);
    answer = compact(&table);
    if (answer != IDDQD_OK) {
        CHECK(answer == IDDQD_MEMORY);
        CHECK(iddqd_keyed_find2(&table, ITEMS + 1, &row) == IDDQD_OK && row.index == 1);
        refused++;
        CHECK(compact(&table) == IDDQD_OK);
    }
    CHECK(iddqd_keyed_find2(&table, ITEMS + 1, &row) == IDDQD_OK && row.index == 0);
    iddqd_free(&table);
    CHECK(held == 0);
    CHECK(refused <= 1);
    return refused;
}

/* The same of an index. After a removal or a clear an insert takes no memory, and neither does any other call. */
static int is_index_refused_at(long at) {
    iddqd_table table = IDDQD_NONE;
    int refused = 0;
    size_t count;
    before_refusal = at;
    uint32_t answer = iddqd_index_new(&table);
    if (answer != IDDQD_OK) {
        CHECK(answer == IDDQD_MEMORY && table.at == NULL && table.state == 0);
        refused++;
        CHECK(iddqd_index_new(&table) == IDDQD_OK);
    }
    for (uint32_t i = 0; i < ITEMS; i++) {
        answer = iddqd_index_insert(&table, i, i);
        if (answer != IDDQD_OK) {
            CHECK(answer == IDDQD_MEMORY && iddqd_index_len(&table, &count) == IDDQD_OK && count == i);
            refused++;
            CHECK(iddqd_index_insert(&table, i, i) == IDDQD_OK);
        }
    }
    before_refusal = 0;
    for (uint32_t i = 0; i < ITEMS; i++) {
        CHECK(iddqd_index_remove(&table, i, i) == IDDQD_OK && iddqd_index_remove(&table, i, i) == IDDQD_MISSING);
        CHECK(iddqd_index_insert(&table, ITEMS + i, i) == IDDQD_OK);
    }
    CHECK(iddqd_index_clear(&table) == IDDQD_OK);
    for (uint32_t i = 0; i < ITEMS; i++) {
        CHECK(iddqd_index_insert(&table, 2 * i, i) == IDDQD_OK);
    }
    CHECK(before_refusal == 0);
    iddqd_free(&table);
    CHECK(held == 0);
    CHECK(refused <= 1);
    return refused;
}

/* The way to the first gap of an ordered key. */
static iddqd_way front(iddqd_table *table, uint32_t key, long at) {
    iddqd_way way;
    uint32_t row[IDDQD_ROW];
    size_t count;
    CHECK(iddqd_layer_enter(table, key, &way, row, IDDQD_ROW, &count) == IDDQD_OK);
    while (way.level > 0) {
        CHECK(iddqd_layer_down(table, key, &way, 0, row, IDDQD_ROW, &count) == IDDQD_OK);
    }
    way.places[0] = 0;
    return way;
}

/* Inserts an index at the front of both ordered keys. */
static uint32_t insert_index(iddqd_table *table, uint64_t i, long at) {
    const uint64_t hashes[2] = { i, i / 2 };
    const iddqd_way ways[2] = { front(table, 0, at), front(table, 1, at) };
    uint32_t index;
    return iddqd_layer_insert(table, hashes, 2, ways, 2, &index);
}

/* Both ordered keys have the indexes below `len`, the greatest first, and each stands under its hashes. */
static void check_layer(iddqd_table *table, uint32_t len, long at) {
    uint32_t found[ITEMS + 1];
    size_t count;
    CHECK(iddqd_layer_len(table, &count) == IDDQD_OK && count == len);
    for (uint32_t key = 0; key < 2; key++) {
        iddqd_way way = front(table, key, at);
        CHECK(iddqd_layer_walk(table, key, &way, found, ITEMS + 1, &count) == IDDQD_OK && count == len);
        for (uint32_t i = 0; i < len; i++) {
            CHECK(found[i] == len - 1 - i);
        }
    }
    for (uint32_t i = 0; i < len; i++) {
        CHECK(iddqd_layer_under(table, 0, i, found, 1, &count) == IDDQD_OK && count == 1 && found[0] == i);
        CHECK(iddqd_layer_under(table, 1, i / 2, found, 2, &count) == IDDQD_OK && count <= 2 && found[0] / 2 == i / 2);
    }
}

/* Calls that take memory, one after the other: the first one that is refused, or 4. */
static int copy_and_compact(iddqd_table *table, long at) {
    iddqd_table copy = IDDQD_NONE;
    uint32_t names[ITEMS];
    size_t count;
    CHECK(iddqd_layer_remove(table, ITEMS - 1, NULL, 0, NULL, 0) == IDDQD_OK);
    const uint32_t answers[3] = {
        iddqd_layer_clone(table, &copy),
        iddqd_layer_reserve(table, 2 * ITEMS),
        iddqd_layer_compact(table, names, ITEMS, &count),
    };
    if (answers[0] == IDDQD_OK) {
        check_layer(&copy, ITEMS - 1, at);
    } else {
        CHECK(copy.at == NULL && copy.state == 0);
    }
    iddqd_free(&copy);
    check_layer(table, ITEMS - 1, at);
    const uint32_t shrunk = iddqd_layer_shrink_to(table, 0);
    CHECK(shrunk == IDDQD_OK || shrunk == IDDQD_MEMORY);
    check_layer(table, ITEMS - 1, at);
    int refused = shrunk != IDDQD_OK;
    for (int i = 0; i < 3; i++) {
        CHECK(answers[i] == IDDQD_OK || answers[i] == IDDQD_MEMORY);
        refused += answers[i] != IDDQD_OK;
    }
    return refused;
}

/* The same of a layer. After a removal or a clear an insert takes no memory, and neither do reads, removals and other
 * hashes. */
static int is_layer_refused_at(long at) {
    iddqd_table table = IDDQD_NONE;
    int refused = 0;
    before_refusal = at;
    uint32_t answer = iddqd_layer_new(&table, 2, 2);
    if (answer != IDDQD_OK) {
        CHECK(answer == IDDQD_MEMORY && table.at == NULL && table.state == 0);
        refused++;
        CHECK(iddqd_layer_new(&table, 2, 2) == IDDQD_OK);
    }
    for (uint32_t i = 0; i < ITEMS; i++) {
        answer = insert_index(&table, i, at);
        if (answer != IDDQD_OK) {
            CHECK(answer == IDDQD_MEMORY);
            check_layer(&table, i, at);
            refused++;
            CHECK(insert_index(&table, i, at) == IDDQD_OK);
        }
    }
    check_layer(&table, ITEMS, at);
    const long was = before_refusal;
    refuses_all = 1;
    for (uint32_t i = 0; i < ITEMS; i++) {
        CHECK(iddqd_layer_rehash(&table, i, 0, i, ITEMS + i) == IDDQD_OK);
        CHECK(iddqd_layer_rehash(&table, i, 0, ITEMS + i, i) == IDDQD_OK);
    }
    for (uint32_t i = 0; i < ITEMS; i++) {
        const uint64_t hashes[2] = { i, i / 2 };
        CHECK(iddqd_layer_remove(&table, i, hashes, 2, NULL, 0) == IDDQD_OK && insert_index(&table, i, at) == IDDQD_OK);
    }
    check_layer(&table, ITEMS, at);
    CHECK(iddqd_layer_clear(&table) == IDDQD_OK);
    for (uint32_t i = 0; i < ITEMS; i++) {
        CHECK(insert_index(&table, i, at) == IDDQD_OK);
    }
    refuses_all = 0;
    before_refusal = was;
    refused += copy_and_compact(&table, at);
    iddqd_free(&table);
    CHECK(held == 0);
    CHECK(refused <= 1);
    return refused;
}

int main(void) {
    long refusals = 0, of_shared = 0, of_index = 0, of_layer = 0;
    while (is_refused_at(refusals, iddqd_keyed_new)) {
        refusals++;
    }
    while (is_refused_at(of_shared, iddqd_keyed_new_shared)) {
        of_shared++;
    }
    while (is_index_refused_at(of_index)) {
        of_index++;
    }
    while (is_layer_refused_at(of_layer)) {
        of_layer++;
    }
    printf("refused: ok, %ld and %ld allocations, %ld of an index, %ld of a layer\n", refusals, of_shared, of_index, of_layer);
    return refusals > ITEMS && of_shared > ITEMS && of_index > 1 && of_layer > 10 ? 0 : 1;
}
