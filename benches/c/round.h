/* What a round over one of the tables is given, and what it returns. main.rs has the same types. */
#ifndef ROUND_H
#define ROUND_H

#include <stddef.h>
#include <stdint.h>

#ifdef __cplusplus
extern "C" {
#endif

enum { KEY = 16, ROWS = 10 };

/* The parts of a round, in their turn. */
enum { INSERT, FIND_FIRST, FIND_SECOND, RANGE, REMOVE, PARTS };

struct item {
    uint8_t first[KEY];
    uint64_t second, value;
};

/* The items, and their keys in other orders: to find and to remove them, and where ranges of ROWS items begin. */
struct load {
    size_t count;
    const struct item *items;
    const uint8_t (*firsts)[KEY];
    const uint64_t *seconds;
    size_t ranges;
    const uint64_t *froms;
    const uint8_t (*removed)[KEY];
};

/* The nanoseconds of each part, and a sum of the answers. */
struct round {
    uint64_t nanos[PARTS], sum;
};

uint64_t bench_now(void);

#ifdef __cplusplus
}
#endif

#endif
