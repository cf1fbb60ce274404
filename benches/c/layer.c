/* The same round over a layer with one hashed and one ordered key: the items lie in an array of this program's. */
#include "round.h"

#include "iddqd.h"

#include <stdlib.h>
#include <string.h>

enum { FOUND = 8 };

struct records {
    iddqd_table layer;
    struct item *items;
};

static uint64_t hash_of(const uint8_t *first) {
    uint64_t words[2];
    memcpy(words, first, sizeof words);
    return (words[0] ^ words[1] >> 29) * UINT64_C(0x9e3779b97f4a7c15) ^ words[1] * UINT64_C(0xbf58476d1ce4e5b9);
}

/* The index of the item with a first key, or IDDQD_SENTINEL. */
static uint32_t find(struct records *all, const uint8_t *first, uint64_t hash) {
    uint32_t found[FOUND];
    size_t count = 0;
    iddqd_layer_under(&all->layer, 0, hash, found, FOUND, &count);
    for (size_t i = 0; i < count && i < FOUND; i++)
        if (memcmp(all->items[found[i]].first, first, KEY) == 0)
            return found[i];
    return IDDQD_SENTINEL;
}

/* The index of the item with a second key, and the way to it; or IDDQD_SENTINEL, and the way to the gap before the first
 * item with a greater one. With `to_gap` it goes on to the gap before the item. */
static uint32_t seek(struct records *all, uint64_t second, int to_gap, iddqd_way *way) {
    uint32_t row[IDDQD_ROW];
    size_t count = 0;
    iddqd_layer_enter(&all->layer, 0, way, row, IDDQD_ROW, &count);
    for (;;) {
        uint32_t low = 0, high = (uint32_t)count;
        while (low < high) {
            const uint32_t middle = (low + high) / 2;
            const uint64_t other = all->items[row[middle]].second;
            if (other == second && !to_gap) {
                way->places[way->level] = (uint8_t)middle;
                return row[middle];
            }
            if (other < second)
                low = middle + 1;
            else
                high = middle;
        }
        if (way->level == 0) {
            way->places[0] = (uint8_t)low;
            return IDDQD_SENTINEL;
        }
        iddqd_layer_down(&all->layer, 0, way, low, row, IDDQD_ROW, &count);
    }
}

static uint64_t insert_all(struct records *all, const struct load *load) {
    uint64_t sum = 0;
    for (size_t i = 0; i < load->count; i++) {
        const struct item *item = &load->items[i];
        const uint64_t hash = hash_of(item->first);
        iddqd_way way;
        uint32_t at;
        if (find(all, item->first, hash) != IDDQD_SENTINEL || seek(all, item->second, 0, &way) != IDDQD_SENTINEL)
            continue;
        if (iddqd_layer_insert(&all->layer, &hash, 1, &way, 1, &at) == IDDQD_OK) {
            all->items[at] = *item;
            sum++;
        }
    }
    return sum;
}

static uint64_t find_firsts(struct records *all, const struct load *load) {
    uint64_t sum = 0;
    for (size_t i = 0; i < load->count; i++) {
        const uint32_t at = find(all, load->firsts[i], hash_of(load->firsts[i]));
        if (at != IDDQD_SENTINEL)
            sum += all->items[at].second ^ all->items[at].value;
    }
    return sum;
}

static uint64_t find_seconds(struct records *all, const struct load *load) {
    iddqd_way way;
    uint64_t sum = 0;
    for (size_t i = 0; i < load->count; i++) {
        const uint32_t at = seek(all, load->seconds[i], 0, &way);
        if (at != IDDQD_SENTINEL)
            sum += all->items[at].second ^ all->items[at].value;
    }
    return sum;
}

static uint64_t walk_ranges(struct records *all, const struct load *load) {
    uint32_t found[ROWS];
    iddqd_way way;
    uint64_t sum = 0;
    size_t count = 0;
    for (size_t i = 0; i < load->ranges; i++) {
        seek(all, load->froms[i], 1, &way);
        iddqd_layer_walk(&all->layer, 0, &way, found, ROWS, &count);
        for (size_t at = 0; at < count; at++)
            sum = sum * 3 + all->items[found[at]].value;
    }
    return sum;
}

static uint64_t remove_all(struct records *all, const struct load *load) {
    iddqd_way way;
    uint64_t sum = 0;
    for (size_t i = 0; i < load->count; i++) {
        const uint64_t hash = hash_of(load->removed[i]);
        const uint32_t at = find(all, load->removed[i], hash);
        if (at == IDDQD_SENTINEL)
            continue;
        seek(all, all->items[at].second, 0, &way);
        sum += iddqd_layer_remove(&all->layer, at, &hash, 1, &way, 1) == IDDQD_OK;
    }
    return sum;
}

static uint64_t part(struct records *all, const struct load *load, int at) {
    switch (at) {
    case INSERT: return insert_all(all, load);
    case FIND_FIRST: return find_firsts(all, load);
    case FIND_SECOND: return find_seconds(all, load);
    case RANGE: return walk_ranges(all, load);
    default: return remove_all(all, load);
    }
}

struct round layer_round(const struct load *load) {
    struct records all = { IDDQD_NONE, malloc(load->count * sizeof *all.items) };
    struct round round = { { 0 }, 0 };
    iddqd_layer_new(&all.layer, 1, 1);
    for (int at = 0; at < PARTS; at++) {
        uint64_t start = bench_now();
        round.sum += part(&all, load, at);
        round.nanos[at] = bench_now() - start;
    }
    iddqd_free(&all.layer);
    free(all.items);
    return round;
}
