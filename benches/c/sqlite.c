/* The same round over sqlite in memory: a table with two unique indexes, statements that are prepared once, and a
 * transaction for each part. */
#include "round.h"

#include <sqlite3.h>
#include <stdio.h>
#include <stdlib.h>

static const char TABLE[] =
    "CREATE TABLE items (at INTEGER PRIMARY KEY, first BLOB NOT NULL, second INTEGER NOT NULL, value INTEGER NOT NULL);"
    "CREATE UNIQUE INDEX by_first ON items (first);"
    "CREATE UNIQUE INDEX by_second ON items (second);";

/* A statement for each part. */
static const char *const TEXTS[PARTS] = {
    "INSERT INTO items (first, second, value) VALUES (?1, ?2, ?3)",
    "SELECT second, value FROM items WHERE first = ?1",
    "SELECT second, value FROM items WHERE second = ?1",
    "SELECT second, value FROM items WHERE second >= ?1 ORDER BY second LIMIT 10",
    "DELETE FROM items WHERE first = ?1",
};

static void check(sqlite3 *base, int answer) {
    if (answer != SQLITE_OK) {
        fprintf(stderr, "sqlite: %s\n", sqlite3_errmsg(base));
        exit(1);
    }
}

static void run(sqlite3 *base, const char *text) {
    check(base, sqlite3_exec(base, text, NULL, NULL, NULL));
}

static void bind_first(sqlite3_stmt *call, const uint8_t *first) {
    sqlite3_bind_blob(call, 1, first, KEY, SQLITE_STATIC);
}

static void bind_number(sqlite3_stmt *call, int at, uint64_t number) {
    sqlite3_bind_int64(call, at, (sqlite3_int64)number);
}

static uint64_t column(sqlite3_stmt *call, int at) {
    return (uint64_t)sqlite3_column_int64(call, at);
}

/* Whether the statement changed a row. */
static uint64_t change(sqlite3 *base, sqlite3_stmt *call) {
    int is_done = sqlite3_step(call) == SQLITE_DONE;
    sqlite3_reset(call);
    return is_done && sqlite3_changes(base) == 1;
}

/* What is read of the row that the statement finds. */
static uint64_t find(sqlite3_stmt *call) {
    uint64_t answer = sqlite3_step(call) == SQLITE_ROW ? column(call, 0) ^ column(call, 1) : 0;
    sqlite3_reset(call);
    return answer;
}

static uint64_t insert_all(sqlite3 *base, sqlite3_stmt *call, const struct load *load) {
    uint64_t sum = 0;
    for (size_t i = 0; i < load->count; i++) {
        bind_first(call, load->items[i].first);
        bind_number(call, 2, load->items[i].second);
        bind_number(call, 3, load->items[i].value);
        sum += change(base, call);
    }
    return sum;
}

static uint64_t find_firsts(sqlite3_stmt *call, const struct load *load) {
    uint64_t sum = 0;
    for (size_t i = 0; i < load->count; i++) {
        bind_first(call, load->firsts[i]);
        sum += find(call);
    }
    return sum;
}

static uint64_t find_seconds(sqlite3_stmt *call, const struct load *load) {
    uint64_t sum = 0;
    for (size_t i = 0; i < load->count; i++) {
        bind_number(call, 1, load->seconds[i]);
        sum += find(call);
    }
    return sum;
}

static uint64_t walk_ranges(sqlite3_stmt *call, const struct load *load) {
    uint64_t sum = 0;
    for (size_t i = 0; i < load->ranges; i++) {
        bind_number(call, 1, load->froms[i]);
        while (sqlite3_step(call) == SQLITE_ROW)
            sum = sum * 3 + column(call, 1);
        sqlite3_reset(call);
    }
    return sum;
}

static uint64_t remove_all(sqlite3 *base, sqlite3_stmt *call, const struct load *load) {
    uint64_t sum = 0;
    for (size_t i = 0; i < load->count; i++) {
        bind_first(call, load->removed[i]);
        sum += change(base, call);
    }
    return sum;
}

static uint64_t part(sqlite3 *base, sqlite3_stmt *call, const struct load *load, int at) {
    uint64_t sum;
    run(base, "BEGIN");
    switch (at) {
    case INSERT: sum = insert_all(base, call, load); break;
    case FIND_FIRST: sum = find_firsts(call, load); break;
    case FIND_SECOND: sum = find_seconds(call, load); break;
    case RANGE: sum = walk_ranges(call, load); break;
    default: sum = remove_all(base, call, load);
    }
    run(base, "COMMIT");
    return sum;
}

struct round sqlite_round(const struct load *load) {
    struct round round = { { 0 }, 0 };
    sqlite3_stmt *calls[PARTS];
    sqlite3 *base;
    check(NULL, sqlite3_open(":memory:", &base));
    run(base, TABLE);
    for (int at = 0; at < PARTS; at++)
        check(base, sqlite3_prepare_v2(base, TEXTS[at], -1, &calls[at], NULL));
    for (int at = 0; at < PARTS; at++) {
        uint64_t start = bench_now();
        round.sum += part(base, calls[at], load, at);
        round.nanos[at] = bench_now() - start;
    }
    for (int at = 0; at < PARTS; at++)
        sqlite3_finalize(calls[at]);
    check(base, sqlite3_close(base));
    return round;
}
