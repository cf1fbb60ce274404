/* Books in an array of the program's own: found by title through a hash, and kept in the order of their years. */
#include "iddqd.h"

#include <stdio.h>
#include <string.h>

typedef struct {
    const char *title;
    int year;
} book;

enum { MOST = 100, BY_TITLE = 0, BY_YEAR = 0 };

static book books[MOST];
static iddqd_table layer; /* all zero: closed */

static uint64_t hash_of(const char *title) {
    uint64_t hash = 5381;
    for (; *title != '\0'; title++) {
        hash = hash * 33 + (unsigned char)*title;
    }
    return hash;
}

/* The index of the book with a title, or IDDQD_SENTINEL. */
static uint32_t find(const char *title) {
    uint32_t found[MOST];
    size_t count = 0;
    iddqd_layer_under(&layer, BY_TITLE, hash_of(title), found, MOST, &count);
    for (size_t i = 0; i < count; i++) {
        if (strcmp(books[found[i]].title, title) == 0) {
            return found[i];
        }
    }
    return IDDQD_SENTINEL;
}

/* The gap before the first book of a year or a later one. */
static iddqd_way gap_before(int year) {
    iddqd_way way;
    uint32_t row[IDDQD_ROW], place;
    size_t count;
    iddqd_layer_enter(&layer, BY_YEAR, &way, row, IDDQD_ROW, &count);
    for (;;) {
        for (place = 0; place < count && books[row[place]].year < year; place++) {
        }
        if (way.level == 0) {
            way.places[0] = (uint8_t)place;
            return way;
        }
        iddqd_layer_down(&layer, BY_YEAR, &way, place, row, IDDQD_ROW, &count);
    }
}

static uint32_t add(const char *title, int year) {
    const uint64_t hash = hash_of(title);
    const iddqd_way way = gap_before(year);
    uint32_t at;
    if (find(title) != IDDQD_SENTINEL) {
        return IDDQD_DUPLICATE;
    }
    const uint32_t answer = iddqd_layer_insert(&layer, &hash, 1, &way, 1, &at);
    if (answer == IDDQD_OK) {
        books[at] = (book){ title, year };
    }
    return answer;
}

int main(void) {
    uint32_t at;
    size_t count;
    iddqd_layer_new(&layer, 1, 1);
    add("Emma", 1815);
    add("Dracula", 1897);
    add("Middlemarch", 1871);
    add("Walden", 1854);
    if (add("Emma", 1996) == IDDQD_DUPLICATE) {
        printf("Emma is there: of %d\n", books[find("Emma")].year);
    }
    iddqd_way up = gap_before(1850), down = up;
    while (iddqd_layer_walk(&layer, BY_YEAR, &up, &at, 1, &count) == IDDQD_OK && count == 1) {
        printf("since 1850: %s\n", books[at].title);
    }
    while (iddqd_layer_walk_back(&layer, BY_YEAR, &down, &at, 1, &count) == IDDQD_OK && count == 1) {
        printf("before 1850: %s\n", books[at].title);
    }
    iddqd_free(&layer);
    return 0;
}
