/* The functions on a layer, from C: records in memory of the program's own, under two hashed and two ordered keys. */
#include "iddqd.h"

#include <stdint.h>
#include <stdio.h>
#include <stdlib.h>
#include <string.h>
#include <time.h>

#define CHECK(holds) \
    do { \
        if (!(holds)) { \
            fprintf(stderr, "%s:%d: %s\n", __FILE__, __LINE__, #holds); \
            exit(1); \
        } \
    } while (0)

enum { MOST = 1500, HASHED = 2, ORDERED = 2, DENSE = 100000 };

/* How many random calls of each kind; fewer under valgrind. */
#ifndef CALLS
#define CALLS 1000000
#endif

typedef struct {
    uint64_t name[HASHED];  /* the hashed keys: the second one is shared by many */
    uint64_t place[ORDERED]; /* the ordered keys: no two records share the first one */
    int live;
} record;

/* The model: the records by index, and for each ordered key the live indexes in order. */
static record records[MOST];
static uint32_t order[ORDERED][MOST];
static uint32_t freed[MOST], free_count;
static uint32_t live_count, slot_count;

static uint64_t state = UINT64_C(88172645463325252);

static uint64_t drawn(void) {
    state ^= state << 13;
    state ^= state >> 7;
    state ^= state << 17;
    return state;
}

/* A hash that few keys have to themselves. */
static uint64_t hash_of(uint64_t name) {
    return name % 700;
}

/* The gap before the first record whose key is at least `place`, or greater if `after`; *found is such an equal record
 * with its way, if it meets one. */
static iddqd_way seek(iddqd_table *layer, uint32_t key, uint64_t place, int after) {
    iddqd_way way;
    uint32_t row[IDDQD_ROW];
    size_t n = 0;
    CHECK(iddqd_layer_enter(layer, key, &way, row, IDDQD_ROW, &n) == IDDQD_OK && n <= IDDQD_ROW);
    for (;;) {
        uint32_t i = 0;
        while (i < n && (after ? records[row[i]].place[key] <= place : records[row[i]].place[key] < place)) {
            i++;
        }
        if (way.level == 0) {
            way.places[0] = (uint8_t)i;
            CHECK(iddqd_layer_gap(layer, key, &way) == IDDQD_OK);
            return way;
        }
        const uint32_t level = way.level;
        CHECK(iddqd_layer_down(layer, key, &way, i, row, IDDQD_ROW, &n) == IDDQD_OK && way.level == level - 1);
    }
}

/* The way to the place of a record, by its key. */
static iddqd_way way_of(iddqd_table *layer, uint32_t key, uint32_t at) {
    iddqd_way way;
    uint32_t row[IDDQD_ROW];
    size_t n = 0;
    CHECK(iddqd_layer_enter(layer, key, &way, row, IDDQD_ROW, &n) == IDDQD_OK);
    for (;;) {
        uint32_t i = 0;
        while (i < n && records[row[i]].place[key] < records[at].place[key]) {
            i++;
        }
        for (uint32_t k = i; k < n && records[row[k]].place[key] == records[at].place[key]; k++) {
            if (row[k] == at) {
                way.places[way.level] = (uint8_t)k;
                return way;
            }
        }
        if (way.level == 0) {
            way.places[0] = 0;
            return way; /* it stands elsewhere among equal ones: a wrong hint */
        }
        CHECK(iddqd_layer_down(layer, key, &way, i, row, IDDQD_ROW, &n) == IDDQD_OK);
    }
}

static uint32_t place_in(uint32_t key, uint64_t place, int after) {
    uint32_t low = 0, high = live_count;
    while (low < high) {
        const uint32_t middle = (low + high) / 2;
        const uint64_t other = records[order[key][middle]].place[key];
        if (after ? other <= place : other < place) {
            low = middle + 1;
        } else {
            high = middle;
        }
    }
    return low;
}

static void model_insert(uint32_t at, const record *new) {
    for (uint32_t key = 0; key < ORDERED; key++) {
        const uint32_t i = place_in(key, new->place[key], key == 1);
        memmove(&order[key][i + 1], &order[key][i], (live_count - i) * sizeof(uint32_t));
        order[key][i] = at;
    }
    records[at] = *new;
    live_count++;
}

static void model_remove(uint32_t at) {
    for (uint32_t key = 0; key < ORDERED; key++) {
        uint32_t i = 0;
        while (order[key][i] != at) {
            i++;
        }
        memmove(&order[key][i], &order[key][i + 1], (live_count - i - 1) * sizeof(uint32_t));
    }
    records[at].live = 0;
    live_count--;
}

static int is_taken(uint64_t place) {
    const uint32_t i = place_in(0, place, 0);
    return i < live_count && records[order[0][i]].place[0] == place;
}

static void insert_random(iddqd_table *layer) {
    const record new = { { drawn(), drawn() % 40 }, { drawn() % 20000, drawn() % 50 }, 1 };
    const uint64_t hashes[HASHED] = { hash_of(new.name[0]), hash_of(new.name[1]) };
    iddqd_way ways[ORDERED];
    uint32_t at = 77;
    if (is_taken(new.place[0]) || live_count == MOST) {
        return;
    }
    for (uint32_t key = 0; key < ORDERED; key++) {
        ways[key] = seek(layer, key, new.place[key], key == 1);
    }
    CHECK(iddqd_layer_insert(layer, hashes, HASHED, ways, ORDERED, &at) == IDDQD_OK);
    CHECK(at == (free_count > 0 ? freed[free_count - 1] : slot_count));
    if (free_count > 0) {
        free_count--;
    } else {
        slot_count++;
    }
    model_insert(at, &new);
}

static void remove_random(iddqd_table *layer) {
    const uint32_t at = (uint32_t)(drawn() % MOST);
    uint64_t hashes[HASHED];
    iddqd_way ways[ORDERED];
    memset(ways, (int)drawn(), sizeof ways);
    for (uint32_t key = 0; key < HASHED; key++) {
        hashes[key] = drawn() % 16 == 0 ? drawn() : hash_of(records[at].name[key]);
    }
    if (at >= slot_count || !records[at].live) {
        CHECK(iddqd_layer_is_live(layer, at) == IDDQD_MISSING);
        CHECK(iddqd_layer_remove(layer, at, hashes, HASHED, ways, ORDERED) == IDDQD_MISSING);
        return;
    }
    CHECK(iddqd_layer_is_live(layer, at) == IDDQD_OK);
    for (uint32_t key = 0; key < ORDERED && drawn() % 16 != 0; key++) {
        ways[key] = way_of(layer, key, at);
    }
    const size_t known = drawn() % 16 == 0 ? drawn() % 3 : 2;
    CHECK(iddqd_layer_remove(layer, at, hashes, known, ways, known) == IDDQD_OK);
    model_remove(at);
    freed[free_count++] = at;
}

static void rehash_random(iddqd_table *layer) {
    const uint32_t at = (uint32_t)(drawn() % MOST), key = (uint32_t)(drawn() % HASHED);
    const uint64_t name = key == 0 ? drawn() : drawn() % 40;
    const uint64_t from = drawn() % 16 == 0 ? drawn() : hash_of(records[at].name[key]);
    const uint32_t answer = iddqd_layer_rehash(layer, at, key, from, hash_of(name));
    CHECK(answer == (at < slot_count && records[at].live ? IDDQD_OK : IDDQD_MISSING));
    if (answer == IDDQD_OK) {
        records[at].name[key] = name;
    }
}

/* The indexes under a hash are those of the records that have it, each once. */
static void look_up_random(iddqd_table *layer) {
    static uint32_t found[MOST];
    static int seen[MOST];
    const uint32_t key = (uint32_t)(drawn() % HASHED);
    const uint64_t hash = drawn() % (key == 0 ? 720 : 45);
    size_t count = 0, expected = 0;
    const size_t room = drawn() % 8 == 0 ? drawn() % 3 : MOST;
    CHECK(iddqd_layer_under(layer, key, hash, found, room, &count) == IDDQD_OK);
    for (uint32_t at = 0; at < slot_count; at++) {
        expected += records[at].live && hash_of(records[at].name[key]) == hash;
    }
    CHECK(count == expected);
    memset(seen, 0, sizeof seen);
    for (size_t i = 0; i < count && i < room; i++) {
        CHECK(found[i] < slot_count && !seen[found[i]]++ && records[found[i]].live);
        CHECK(hash_of(records[found[i]].name[key]) == hash);
    }
}

/* A range from a random place, upwards and downwards, by buffers of a random length. */
static void walk_random(iddqd_table *layer) {
    uint32_t buffer[40];
    const uint32_t key = (uint32_t)(drawn() % ORDERED);
    const uint64_t place = drawn() % (key == 0 ? 20100 : 52);
    const int after = (int)(drawn() % 2);
    const size_t room = drawn() % 40;
    iddqd_way up = seek(layer, key, place, after), down = up;
    const uint32_t from = place_in(key, place, after);
    uint32_t next = from, last = from;
    for (int calls = 0; calls < 3; calls++) {
        size_t count = 77;
        CHECK(iddqd_layer_walk(layer, key, &up, buffer, room, &count) == IDDQD_OK);
        CHECK(count == (room < live_count - next ? room : live_count - next));
        for (size_t i = 0; i < count; i++) {
            CHECK(buffer[i] == order[key][next++]);
        }
        CHECK(iddqd_layer_walk_back(layer, key, &down, buffer, room, &count) == IDDQD_OK);
        CHECK(count == (room < last ? room : last));
        for (size_t i = 0; i < count; i++) {
            CHECK(buffer[i] == order[key][--last]);
        }
    }
}

/* Each table has each live index exactly once, in the order of the model if there is one. */
static void check_tables(iddqd_table *layer, uint32_t ordered, const uint32_t *expected, uint32_t most) {
    uint32_t *found = malloc((most + 1) * sizeof *found);
    uint32_t *live = malloc((most + 1) * sizeof *live);
    unsigned char *seen = malloc(most + 1);
    size_t count, len, live_len, slots;
    CHECK(found != NULL && live != NULL && seen != NULL);
    CHECK(iddqd_layer_len(layer, &len) == IDDQD_OK && len <= most);
    CHECK(iddqd_layer_slots(layer, &slots) == IDDQD_OK && slots >= len && slots <= most);
    CHECK(iddqd_layer_live(layer, 0, live, most + 1, &live_len) == IDDQD_OK && live_len == len);
    for (uint32_t key = 0; key < ordered; key++) {
        iddqd_way way;
        uint32_t row[IDDQD_ROW];
        CHECK(iddqd_layer_enter(layer, key, &way, row, IDDQD_ROW, &count) == IDDQD_OK);
        while (way.level > 0) {
            CHECK(iddqd_layer_down(layer, key, &way, 0, row, IDDQD_ROW, &count) == IDDQD_OK);
        }
        way.places[0] = 0;
        CHECK(iddqd_layer_walk(layer, key, &way, found, most + 1, &count) == IDDQD_OK && count == len);
        memset(seen, 0, most + 1);
        for (size_t i = 0; i < len; i++) {
            CHECK(found[i] < slots && !seen[found[i]]++);
            CHECK(expected == NULL || found[i] == expected[key * MOST + i]);
        }
        for (size_t i = 0; i < len; i++) {
            CHECK(seen[live[i]] && iddqd_layer_is_live(layer, live[i]) == IDDQD_OK && (i == 0 || live[i - 1] < live[i]));
        }
    }
    free(seen);
    free(live);
    free(found);
}

static void compact(iddqd_table *layer) {
    static uint32_t names[MOST];
    size_t count = 0;
    CHECK(slot_count == 0 || (iddqd_layer_compact(layer, names, slot_count - 1, &count) == IDDQD_SMALL && count == slot_count));
    CHECK(iddqd_layer_compact(layer, names, MOST, &count) == IDDQD_OK && count == slot_count);
    uint32_t next = 0;
    for (uint32_t at = 0; at < slot_count; at++) {
        CHECK(names[at] == (records[at].live ? next : IDDQD_SENTINEL));
        if (records[at].live) {
            records[next] = records[at];
            if (next++ != at) {
                records[at].live = 0;
            }
        }
    }
    for (uint32_t key = 0; key < ORDERED; key++) {
        for (uint32_t i = 0; i < live_count; i++) {
            order[key][i] = names[order[key][i]];
        }
    }
    slot_count = next;
    free_count = 0;
}

static void check_live_from(iddqd_table *layer) {
    uint32_t found[5];
    size_t count;
    uint32_t from = (uint32_t)(drawn() % (MOST + 10));
    CHECK(iddqd_layer_live(layer, from, found, 5, &count) == IDDQD_OK && count <= 5);
    for (size_t i = 0; i < count; i++, from++) {
        while (from < slot_count && !records[from].live) {
            from++;
        }
        CHECK(found[i] == from);
    }
}

static void check_copy(iddqd_table *layer) {
    iddqd_table copy = IDDQD_NONE;
    CHECK(iddqd_layer_clone(layer, &copy) == IDDQD_OK);
    CHECK(iddqd_layer_clone(layer, &copy) == IDDQD_HANDLE);
    check_tables(&copy, ORDERED, &order[0][0], MOST);
    iddqd_free(&copy);
}

static void check_model(void) {
    iddqd_table layer = IDDQD_NONE;
    size_t count, room;
    CHECK(iddqd_layer_new(&layer, HASHED, ORDERED) == IDDQD_OK);
    for (long call = 0; call < CALLS; call++) {
        const uint64_t kind = drawn() % 100;
        if (kind < 38) {
            insert_random(&layer);
        } else if (kind < 68) {
            remove_random(&layer);
        } else if (kind < 78) {
            rehash_random(&layer);
        } else if (kind < 80) {
            look_up_random(&layer);
        } else if (kind < 95) {
            walk_random(&layer);
        } else {
            check_live_from(&layer);
        }
        CHECK(iddqd_layer_len(&layer, &count) == IDDQD_OK && count == live_count);
        if (call % 5000 == 0) {
            check_tables(&layer, ORDERED, &order[0][0], MOST);
            check_copy(&layer);
        }
        if (call % 50000 == 1) {
            compact(&layer);
            CHECK(iddqd_layer_shrink_to(&layer, drawn() % 100) == IDDQD_OK);
            CHECK(iddqd_layer_reserve(&layer, 100) == IDDQD_OK && iddqd_layer_room(&layer, &room) == IDDQD_OK && room >= 100);
        }
        if (call % 300000 == 299999) {
            CHECK(iddqd_layer_clear(&layer) == IDDQD_OK);
            CHECK(iddqd_layer_slots(&layer, &count) == IDDQD_OK && count == 0);
            memset(records, 0, sizeof records);
            live_count = slot_count = free_count = 0;
        }
    }
    check_tables(&layer, ORDERED, &order[0][0], MOST);
    iddqd_free(&layer);
    CHECK(layer.at == NULL && layer.state == 0);
}

static iddqd_way any_way(void) {
    iddqd_way way;
    const uint64_t a = drawn(), b = drawn();
    for (int i = 0; i < 12; i++) {
        way.places[i] = (uint8_t)((i < 8 ? a >> (8 * i) : b >> (8 * (i - 8))) % (drawn() % 4 != 0 ? 8 : 256));
    }
    way.level = drawn() % 3 != 0 ? 0 : (uint32_t)(drawn() % (drawn() % 2 != 0 ? 14 : UINT64_C(1) << 32));
    return way;
}

/* A search with comparisons that answer at random: it ends in some gap. */
static iddqd_way lost(iddqd_table *layer, uint32_t key) {
    iddqd_way way;
    uint32_t row[IDDQD_ROW];
    size_t n;
    CHECK(iddqd_layer_enter(layer, key, &way, row, IDDQD_ROW, &n) == IDDQD_OK);
    while (way.level > 0) {
        CHECK(iddqd_layer_down(layer, key, &way, (uint32_t)(drawn() % (n + 1)), row, IDDQD_ROW, &n) == IDDQD_OK);
    }
    way.places[0] = (uint8_t)(drawn() % (n + 1));
    return way;
}

/* A caller that answers, and passes, anything: each table keeps each live index exactly once. */
static void check_lies(void) {
    enum { LAYERS = 400000 };
    static uint32_t buffer[64];
    iddqd_table layer = IDDQD_NONE;
    iddqd_way ways[4];
    uint64_t hashes[20];
    unsigned long codes[11] = { 0 };
    size_t count, live = 0;
    CHECK(iddqd_layer_new(&layer, 2, 3) == IDDQD_OK);
    for (long call = 0; call < CALLS; call++) {
        uint32_t answer, index = (uint32_t)(drawn() % (drawn() % 4 != 0 ? live + 2 : UINT64_C(1) << 32));
        const uint32_t key = (uint32_t)(drawn() % 8 == 0 ? drawn() : drawn() % 3);
        const int honest = drawn() % 2 == 0;
        for (int i = 0; i < 4; i++) {
            ways[i] = honest && i < 3 ? lost(&layer, (uint32_t)i) : any_way();
        }
        for (int i = 0; i < 20; i++) {
            hashes[i] = drawn() % 50000;
        }
        const size_t room = drawn() % 64;
        switch (drawn() % 10) {
        case 0:
        case 1:
        case 2:
            answer = iddqd_layer_insert(&layer, hashes, drawn() % 16 == 0 ? drawn() % 20 : 2, ways, drawn() % 16 == 0 ? drawn() % 4 : 3, &index);
            live += answer == IDDQD_OK;
            break;
        case 3:
            if (live > LAYERS / 200 || drawn() % 8 == 0) {
                answer = iddqd_layer_remove(&layer, index, hashes, drawn() % 20, ways, drawn() % 4);
                live -= answer == IDDQD_OK;
            } else {
                answer = iddqd_layer_is_live(&layer, index);
            }
            break;
        case 4:
            answer = iddqd_layer_down(&layer, key, &ways[0], (uint32_t)(drawn() % 14), buffer, drawn() % 12, &count);
            break;
        case 5:
            answer = iddqd_layer_walk(&layer, key, &ways[0], buffer, room, &count);
            CHECK(answer != IDDQD_OK || (count <= room && iddqd_layer_gap(&layer, key, &ways[0]) == IDDQD_OK));
            break;
        case 6:
            answer = iddqd_layer_walk_back(&layer, key, &ways[0], buffer, room, &count);
            CHECK(answer != IDDQD_OK || (count <= room && iddqd_layer_gap(&layer, key, &ways[0]) == IDDQD_OK));
            break;
        case 7:
            answer = iddqd_layer_row(&layer, key, &ways[0], buffer, drawn() % 12, &count);
            break;
        case 8:
            answer = iddqd_layer_rehash(&layer, index, key, hashes[0], hashes[1]);
            break;
        default:
            answer = iddqd_layer_under(&layer, key, hashes[0], buffer, room, &count);
            break;
        }
        CHECK(answer <= IDDQD_WAY);
        codes[answer]++;
        if (call % 50000 == 0) {
            check_tables(&layer, 3, NULL, CALLS);
            CHECK(iddqd_layer_len(&layer, &count) == IDDQD_OK && count == live);
        }
    }
    check_tables(&layer, 3, NULL, CALLS);
    CHECK(codes[IDDQD_OK] > 0 && codes[IDDQD_MISSING] > 0 && codes[IDDQD_COUNT] > 0 && codes[IDDQD_KEY] > 0);
    CHECK(codes[IDDQD_WAY] > 0 && codes[IDDQD_SMALL] > 0 && codes[IDDQD_HANDLE] == 0 && codes[IDDQD_MEMORY] == 0);
    iddqd_free(&layer);
}

/* Each function answers HANDLE, and writes nothing. */
static void check_no_layer(iddqd_table *table) {
    uint32_t at = 77, row[IDDQD_ROW] = { 77 };
    uint64_t hash = 1;
    iddqd_way way = { { 1 }, 1 };
    iddqd_table copy = IDDQD_NONE;
    size_t count = 77;
    CHECK(iddqd_layer_clone(table, &copy) == IDDQD_HANDLE && copy.state == 0);
    CHECK(iddqd_layer_under(table, 0, 1, row, IDDQD_ROW, &count) == IDDQD_HANDLE);
    CHECK(iddqd_layer_enter(table, 0, &way, row, IDDQD_ROW, &count) == IDDQD_HANDLE);
    CHECK(iddqd_layer_row(table, 0, &way, row, IDDQD_ROW, &count) == IDDQD_HANDLE);
    CHECK(iddqd_layer_down(table, 0, &way, 0, row, IDDQD_ROW, &count) == IDDQD_HANDLE);
    CHECK(iddqd_layer_gap(table, 0, &way) == IDDQD_HANDLE);
    CHECK(iddqd_layer_walk(table, 0, &way, row, IDDQD_ROW, &count) == IDDQD_HANDLE);
    CHECK(iddqd_layer_walk_back(table, 0, &way, row, IDDQD_ROW, &count) == IDDQD_HANDLE);
    CHECK(iddqd_layer_live(table, 0, row, IDDQD_ROW, &count) == IDDQD_HANDLE);
    CHECK(iddqd_layer_is_live(table, 0) == IDDQD_HANDLE);
    CHECK(iddqd_layer_insert(table, &hash, 1, &way, 1, &at) == IDDQD_HANDLE);
    CHECK(iddqd_layer_remove(table, 0, &hash, 1, &way, 1) == IDDQD_HANDLE);
    CHECK(iddqd_layer_rehash(table, 0, 0, 1, 2) == IDDQD_HANDLE);
    CHECK(iddqd_layer_len(table, &count) == IDDQD_HANDLE && iddqd_layer_slots(table, &count) == IDDQD_HANDLE);
    CHECK(iddqd_layer_room(table, &count) == IDDQD_HANDLE && iddqd_layer_reserve(table, 1) == IDDQD_HANDLE);
    CHECK(iddqd_layer_shrink_to(table, 0) == IDDQD_HANDLE && iddqd_layer_clear(table) == IDDQD_HANDLE);
    CHECK(iddqd_layer_compact(table, row, IDDQD_ROW, &count) == IDDQD_HANDLE);
    CHECK(at == 77 && row[0] == 77 && count == 77 && way.places[0] == 1 && way.level == 1);
}

static void check_handles(void) {
    iddqd_table table = IDDQD_NONE;
    size_t count;
    check_no_layer(&table);
    CHECK(iddqd_layer_new(&table, IDDQD_KEYS + 1, 0) == IDDQD_COUNT && iddqd_layer_new(&table, 0, IDDQD_KEYS + 1) == IDDQD_COUNT);
    CHECK(iddqd_layer_new(&table, UINT32_MAX, UINT32_MAX) == IDDQD_COUNT && table.at == NULL && table.state == 0);
    CHECK(iddqd_keyed_new(&table, 1, 2) == IDDQD_OK && iddqd_layer_new(&table, 1, 1) == IDDQD_HANDLE);
    check_no_layer(&table);
    iddqd_free(&table);
    CHECK(iddqd_index_new(&table) == IDDQD_OK);
    check_no_layer(&table);
    iddqd_free(&table);
    CHECK(iddqd_layer_new(&table, 1, 1) == IDDQD_OK && iddqd_layer_new(&table, 1, 1) == IDDQD_HANDLE);
    CHECK(iddqd_index_len(&table, &count) == IDDQD_HANDLE && iddqd_keyed_len(&table, &count) == IDDQD_HANDLE);
    iddqd_free(&table);
    check_no_layer(&table);
}

/* Numbers and buffers that don't fit, on a layer with the most keys, and null for each buffer of length 0. */
static void check_misfits(void) {
    iddqd_table layer = IDDQD_NONE;
    uint64_t hashes[IDDQD_KEYS + 1] = { 0 };
    iddqd_way ways[IDDQD_KEYS + 1], way, stale;
    uint32_t row[IDDQD_ROW], at = 77;
    size_t count = 77;
    memset(ways, 0, sizeof ways);
    CHECK(iddqd_layer_new(&layer, IDDQD_KEYS, IDDQD_KEYS) == IDDQD_OK);
    CHECK(iddqd_layer_enter(&layer, 0, &way, NULL, 0, &count) == IDDQD_OK && count == 0 && way.level == 0);
    for (size_t n = 0; n <= IDDQD_KEYS + 1; n++) {
        if (n != IDDQD_KEYS) {
            CHECK(iddqd_layer_insert(&layer, hashes, n, ways, IDDQD_KEYS, &at) == IDDQD_COUNT);
            CHECK(iddqd_layer_insert(&layer, hashes, IDDQD_KEYS, ways, n, &at) == IDDQD_COUNT);
        }
    }
    CHECK(iddqd_layer_insert(&layer, NULL, 0, NULL, 0, &at) == IDDQD_COUNT && at == 77);
    for (uint32_t i = 0; i < 40; i++) {
        CHECK(iddqd_layer_insert(&layer, hashes, IDDQD_KEYS, ways, IDDQD_KEYS, &at) == IDDQD_OK && at == i);
        for (uint32_t key = 0; key < IDDQD_KEYS; key++) {
            CHECK(iddqd_layer_enter(&layer, key, &ways[key], row, IDDQD_ROW, &count) == IDDQD_OK);
            while (ways[key].level > 0) {
                CHECK(iddqd_layer_down(&layer, key, &ways[key], 0, row, IDDQD_ROW, &count) == IDDQD_OK);
            }
            ways[key].places[0] = 0;
        }
    }
    CHECK(iddqd_layer_under(&layer, IDDQD_KEYS, 0, row, IDDQD_ROW, &count) == IDDQD_KEY);
    CHECK(iddqd_layer_enter(&layer, IDDQD_KEYS, &way, row, IDDQD_ROW, &count) == IDDQD_KEY);
    CHECK(iddqd_layer_gap(&layer, UINT32_MAX, &way) == IDDQD_KEY);
    CHECK(iddqd_layer_row(&layer, IDDQD_KEYS, &way, row, IDDQD_ROW, &count) == IDDQD_KEY);
    CHECK(iddqd_layer_down(&layer, IDDQD_KEYS, &way, 0, row, IDDQD_ROW, &count) == IDDQD_KEY);
    CHECK(iddqd_layer_walk(&layer, IDDQD_KEYS, &way, row, IDDQD_ROW, &count) == IDDQD_KEY);
    CHECK(iddqd_layer_walk_back(&layer, IDDQD_KEYS, &way, row, IDDQD_ROW, &count) == IDDQD_KEY);
    CHECK(iddqd_layer_rehash(&layer, 0, IDDQD_KEYS, 0, 1) == IDDQD_KEY);
    CHECK(iddqd_layer_rehash(&layer, 40, 0, 0, 1) == IDDQD_MISSING);
    CHECK(iddqd_layer_remove(&layer, 40, NULL, 0, NULL, 0) == IDDQD_MISSING);
    CHECK(iddqd_layer_remove(&layer, IDDQD_SENTINEL, NULL, 0, NULL, 0) == IDDQD_MISSING);
    CHECK(iddqd_layer_is_live(&layer, IDDQD_SENTINEL) == IDDQD_MISSING && iddqd_layer_is_live(&layer, 39) == IDDQD_OK);
    /* Buffers of 0. */
    count = 77;
    CHECK(iddqd_layer_under(&layer, 0, 0, NULL, 0, &count) == IDDQD_OK && count == 40);
    CHECK(iddqd_layer_live(&layer, 0, NULL, 0, &count) == IDDQD_OK && count == 0);
    stale = ways[3];
    CHECK(iddqd_layer_walk(&layer, 3, &ways[3], NULL, 0, &count) == IDDQD_OK && count == 0);
    CHECK(iddqd_layer_walk_back(&layer, 3, &ways[3], NULL, 0, &count) == IDDQD_OK && count == 0);
    CHECK(memcmp(&stale, &ways[3], sizeof stale) == 0);
    way = stale;
    CHECK(iddqd_layer_enter(&layer, 0, &way, NULL, 0, &count) == IDDQD_SMALL && count > 0);
    CHECK(iddqd_layer_row(&layer, 0, &stale, NULL, 0, &count) == IDDQD_SMALL && count > 1);
    CHECK(memcmp(&stale, &way, sizeof stale) == 0);
    CHECK(iddqd_layer_compact(&layer, NULL, 0, &count) == IDDQD_SMALL && count == 40);
    /* A way of another level, of a place past its row, and one that is stale: the tree is a leaf once most have gone. */
    way = stale;
    way.level = 12;
    CHECK(iddqd_layer_gap(&layer, 0, &way) == IDDQD_WAY && iddqd_layer_row(&layer, 0, &way, row, IDDQD_ROW, &count) == IDDQD_WAY);
    way.level = 0;
    way.places[0] = IDDQD_ROW + 1;
    CHECK(iddqd_layer_walk(&layer, 0, &way, row, IDDQD_ROW, &count) == IDDQD_WAY);
    CHECK(iddqd_layer_down(&layer, 0, &way, 0, row, IDDQD_ROW, &count) == IDDQD_WAY);
    CHECK(iddqd_layer_enter(&layer, 5, &way, row, IDDQD_ROW, &count) == IDDQD_OK && way.level > 0);
    CHECK(iddqd_layer_down(&layer, 5, &way, (uint32_t)count + 1, row, IDDQD_ROW, &count) == IDDQD_WAY);
    for (uint32_t i = 1; i < 40; i++) {
        CHECK(iddqd_layer_remove(&layer, i, hashes, i % (IDDQD_KEYS + 2), ways, 0) == IDDQD_OK);
    }
    CHECK(iddqd_layer_row(&layer, 5, &way, row, IDDQD_ROW, &count) == IDDQD_WAY);
    stale.places[0] = 2;
    ways[7] = stale;
    CHECK(iddqd_layer_insert(&layer, hashes, IDDQD_KEYS, ways, IDDQD_KEYS, &at) == IDDQD_WAY);
    check_tables(&layer, IDDQD_KEYS, NULL, 64);
    iddqd_free(&layer);
    /* No key at all: a store of indexes. */
    CHECK(iddqd_layer_new(&layer, 0, 0) == IDDQD_OK);
    CHECK(iddqd_layer_insert(&layer, NULL, 0, NULL, 0, &at) == IDDQD_OK && at == 0);
    CHECK(iddqd_layer_remove(&layer, 0, NULL, 0, NULL, 0) == IDDQD_OK);
    iddqd_free(&layer);
}

/* Ids without a gap, each its own hash: a call takes no longer than under other hashes. */
static void check_dense(void) {
    const clock_t began = clock();
    iddqd_table layer = IDDQD_NONE;
    uint32_t at;
    size_t count;
    CHECK(iddqd_layer_new(&layer, 1, 0) == IDDQD_OK);
    for (uint64_t id = 0; id < DENSE; id++) {
        CHECK(iddqd_layer_insert(&layer, &id, 1, NULL, 0, &at) == IDDQD_OK && at == id);
    }
    for (uint64_t id = 0; id < DENSE; id++) {
        CHECK(iddqd_layer_under(&layer, 0, id, &at, 1, &count) == IDDQD_OK && count == 1 && at == id);
        CHECK(iddqd_layer_under(&layer, 0, id + DENSE, &at, 1, &count) == IDDQD_OK && count == 0);
    }
    for (uint64_t id = 0; id < DENSE; id++) {
        CHECK(iddqd_layer_remove(&layer, (uint32_t)id, &id, 1, NULL, 0) == IDDQD_OK);
    }
    CHECK((clock() - began) / CLOCKS_PER_SEC < 10);
    iddqd_free(&layer);
}

int main(void) {
    check_handles();
    check_misfits();
    check_dense();
    check_model();
    check_lies();
    puts("layer: ok");
    return 0;
}
