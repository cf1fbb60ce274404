/* The functions on an index, from C: persons in memory of the program's own, found by their names. */
#include "iddqd.h"

#include <stdint.h>
#include <stdio.h>
#include <stdlib.h>
#include <string.h>
#include <time.h>

#define CHECK(holds) \
    do { \
        if (!(holds)) { \
            fprintf(stderr, "%s:%d: %s\n", __FILE__, __LINE__, #holds); \
            exit(1); \
        } \
    } while (0)

enum { PERSONS = 20000, SAME = 1000, DENSE = 100000 };

static char names[PERSONS][16];

static uint64_t hash_of(const char *name) {
    uint64_t hash = UINT64_C(14695981039346656037);
    for (; *name; name++) {
        hash = (hash ^ (unsigned char)*name) * UINT64_C(1099511628211);
    }
    return hash;
}

/* The person with the name, or PERSONS. */
static uint32_t find(iddqd_table *by_name, const char *name) {
    uint32_t at[8];
    size_t count;
    CHECK(iddqd_index_under(by_name, hash_of(name), at, 8, &count) == IDDQD_OK && count <= 8);
    for (size_t i = 0; i < count; i++) {
        if (strcmp(names[at[i]], name) == 0) {
            return at[i];
        }
    }
    return PERSONS;
}

static void check_persons(void) {
    iddqd_table by_name = IDDQD_NONE;
    size_t count;
    CHECK(iddqd_index_new(&by_name) == IDDQD_OK && iddqd_index_new(&by_name) == IDDQD_HANDLE);
    for (uint32_t i = 0; i < PERSONS; i++) {
        snprintf(names[i], sizeof names[i], "person %u", (unsigned)i);
        CHECK(find(&by_name, names[i]) == PERSONS);
        CHECK(iddqd_index_insert(&by_name, hash_of(names[i]), i) == IDDQD_OK);
    }
    for (uint32_t i = 0; i < PERSONS; i += 2) {
        CHECK(iddqd_index_remove(&by_name, hash_of(names[i]), i) == IDDQD_OK);
        CHECK(iddqd_index_remove(&by_name, hash_of(names[i]), i) == IDDQD_MISSING);
    }
    for (uint32_t i = 0; i < PERSONS; i++) {
        CHECK(find(&by_name, names[i]) == (i % 2 ? i : PERSONS));
    }
    CHECK(iddqd_index_len(&by_name, &count) == IDDQD_OK && count == PERSONS / 2);
    CHECK(iddqd_index_clear(&by_name) == IDDQD_OK);
    CHECK(iddqd_index_len(&by_name, &count) == IDDQD_OK && count == 0);
    iddqd_free(&by_name);
}

/* A thousand numbers under one hash, by buffers of every length. */
static void check_group(void) {
    static uint32_t at[SAME + 2];
    static int seen[SAME];
    iddqd_table table = IDDQD_NONE;
    size_t count;
    CHECK(iddqd_index_new(&table) == IDDQD_OK);
    for (uint32_t i = 0; i < SAME; i++) {
        CHECK(iddqd_index_insert(&table, 7, i) == IDDQD_OK);
    }
    for (size_t len = 0; len <= SAME + 1; len++) {
        memset(seen, 0, sizeof seen);
        for (size_t i = 0; i < SAME + 2; i++) {
            at[i] = SAME;
        }
        CHECK(iddqd_index_under(&table, 7, at, len, &count) == IDDQD_OK && count == SAME);
        for (size_t i = 0; i < SAME + 2; i++) {
            CHECK(i < len && i < SAME ? at[i] < SAME && !seen[at[i]]++ : at[i] == SAME);
        }
    }
    CHECK(iddqd_index_under(&table, 8, at, 1, &count) == IDDQD_OK && count == 0);
    iddqd_free(&table);
}

/* Ids without a gap, each its own hash, as libstdc++ hashes integers: a call takes no longer than under other hashes. If
 * ids beside each other got places beside each other, the calls here would take some 30 seconds of the processor. */
static void check_dense(void) {
    const clock_t began = clock();
    iddqd_table by_id = IDDQD_NONE;
    uint32_t at;
    size_t count;
    CHECK(iddqd_index_new(&by_id) == IDDQD_OK);
    for (uint32_t id = 0; id < DENSE; id++) {
        CHECK(iddqd_index_insert(&by_id, id, ~id) == IDDQD_OK);
    }
    for (uint32_t id = 0; id < DENSE; id++) {
        CHECK(iddqd_index_under(&by_id, id, &at, 1, &count) == IDDQD_OK && count == 1 && at == ~id);
        CHECK(iddqd_index_under(&by_id, (uint64_t)id + DENSE, &at, 1, &count) == IDDQD_OK && count == 0);
    }
    for (uint32_t id = 0; id < DENSE; id++) {
        CHECK(iddqd_index_remove(&by_id, id, ~id) == IDDQD_OK);
    }
    CHECK(iddqd_index_len(&by_id, &count) == IDDQD_OK && count == 0);
    CHECK((clock() - began) / CLOCKS_PER_SEC < 10);
    iddqd_free(&by_id);
}

/* Every function returns HANDLE on a handle without an index, and writes nothing. */
static void check_no_index(iddqd_table *table) {
    uint32_t at = 77;
    size_t count = 77;
    CHECK(iddqd_index_insert(table, 1, 1) == IDDQD_HANDLE && iddqd_index_remove(table, 1, 1) == IDDQD_HANDLE);
    CHECK(iddqd_index_under(table, 1, &at, 1, &count) == IDDQD_HANDLE);
    CHECK(iddqd_index_len(table, &count) == IDDQD_HANDLE);
    CHECK(iddqd_index_clear(table) == IDDQD_HANDLE && at == 77 && count == 77);
}

static void check_handles(void) {
    iddqd_table table = IDDQD_NONE;
    iddqd_row row;
    size_t count;
    check_no_index(&table);
    CHECK(iddqd_keyed_new(&table, 1, 2) == IDDQD_OK && iddqd_index_new(&table) == IDDQD_HANDLE);
    check_no_index(&table);
    CHECK(iddqd_keyed_len(&table, &count) == IDDQD_OK && count == 0);
    iddqd_free(&table);
    CHECK(iddqd_index_new(&table) == IDDQD_OK && iddqd_keyed_new(&table, 1, 2) == IDDQD_HANDLE);
    CHECK(iddqd_keyed_find2(&table, 1, &row) == IDDQD_HANDLE && iddqd_keyed_clear(&table) == IDDQD_HANDLE);
    CHECK(iddqd_index_len(&table, &count) == IDDQD_OK && count == 0);
    iddqd_free(&table);
    check_no_index(&table);
}

int main(void) {
    check_handles();
    check_group();
    check_persons();
    check_dense();
    puts("index: ok");
    return 0;
}
