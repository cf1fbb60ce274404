/* Keyed items of the library, from C. */
#include "round.h"

#include "iddqd.h"

static uint64_t insert_all(iddqd_table *table, const struct load *load) {
    iddqd_conflict found;
    uint64_t sum = 0;
    uint32_t index;
    for (size_t i = 0; i < load->count; i++) {
        const struct item *item = &load->items[i];
        sum += iddqd_keyed_insert(table, item->first, KEY, item->second, item->value, &index, &found) == IDDQD_OK;
    }
    return sum;
}

static uint64_t find_firsts(iddqd_table *table, const struct load *load) {
    iddqd_row row;
    uint64_t sum = 0;
    for (size_t i = 0; i < load->count; i++)
        if (iddqd_keyed_find1(table, load->firsts[i], KEY, &row) == IDDQD_OK)
            sum += row.second ^ row.value;
    return sum;
}

static uint64_t find_seconds(iddqd_table *table, const struct load *load) {
    iddqd_row row;
    uint64_t sum = 0;
    for (size_t i = 0; i < load->count; i++)
        if (iddqd_keyed_find2(table, load->seconds[i], &row) == IDDQD_OK)
            sum += row.second ^ row.value;
    return sum;
}

static uint64_t walk_ranges(iddqd_table *table, const struct load *load) {
    const iddqd_end open = { 0, 0, IDDQD_OPEN };
    iddqd_end from = { 0, 0, IDDQD_IN };
    iddqd_row rows[ROWS];
    uint64_t sum = 0;
    size_t count = 0;
    for (size_t i = 0; i < load->ranges; i++) {
        from.second = load->froms[i];
        iddqd_keyed_range(table, &from, &open, rows, ROWS, &count);
        for (size_t at = 0; at < count; at++)
            sum = sum * 3 + rows[at].value;
    }
    return sum;
}

static uint64_t remove_all(iddqd_table *table, const struct load *load) {
    iddqd_row row;
    uint64_t sum = 0;
    for (size_t i = 0; i < load->count; i++)
        sum += iddqd_keyed_remove1(table, load->removed[i], KEY, &row) == IDDQD_OK;
    return sum;
}

static uint64_t part(iddqd_table *table, const struct load *load, int at) {
    switch (at) {
    case INSERT: return insert_all(table, load);
    case FIND_FIRST: return find_firsts(table, load);
    case FIND_SECOND: return find_seconds(table, load);
    case RANGE: return walk_ranges(table, load);
    default: return remove_all(table, load);
    }
}

struct round ours_round(const struct load *load) {
    iddqd_table table = IDDQD_NONE;
    struct round round = { { 0 }, 0 };
    iddqd_keyed_new(&table, 1, 2);
    for (int at = 0; at < PARTS; at++) {
        uint64_t start = bench_now();
        round.sum += part(&table, load, at);
        round.nanos[at] = bench_now() - start;
    }
    iddqd_free(&table);
    return round;
}
