/* A program with functions of its own that are called as some inside the libraries are: each calls its own. */
#include "iddqd.h"

#include <stdio.h>
#include <stdlib.h>

static size_t own_calls;

void *rattle_alloc(size_t size, size_t align);
void *rattle_realloc(void *at, size_t old, size_t align, size_t size);
void rattle_dealloc(void *at, size_t size, size_t align);

void *rattle_alloc(size_t size, size_t align) {
    (void)size, (void)align;
    own_calls++;
    return NULL;
}

void *rattle_realloc(void *at, size_t old, size_t align, size_t size) {
    (void)at, (void)old, (void)align, (void)size;
    own_calls++;
    return NULL;
}

void rattle_dealloc(void *at, size_t size, size_t align) {
    (void)at, (void)size, (void)align;
    own_calls++;
}

int main(void) {
    iddqd_table table = IDDQD_NONE;
    iddqd_conflict conflict;
    iddqd_row row;
    uint32_t index;
    int good = iddqd_keyed_new(&table, 1, 2) == IDDQD_OK;
    for (uint64_t i = 0; i < 1000; i++) {
        good = good && iddqd_keyed_insert(&table, (const uint8_t *)&i, sizeof i, i, i, &index, &conflict) == IDDQD_OK;
        good = good && iddqd_keyed_find2(&table, i, &row) == IDDQD_OK && row.value == i;
    }
    iddqd_free(&table);
    good = good && own_calls == 0;
    rattle_dealloc(rattle_alloc(1, 1), 1, 1);
    good = good && own_calls == 2;
    puts(good ? "own_alloc: ok" : "own_alloc: failed");
    return good ? 0 : 1;
}
