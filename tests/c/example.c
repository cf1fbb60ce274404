#include "iddqd.h"

#include <stdio.h>

int main(void) {
    iddqd_table users = IDDQD_NONE;
    iddqd_conflict found;
    iddqd_row row;
    uint32_t at;
    if (iddqd_keyed_new(&users, 1, 2) != IDDQD_OK) {
        return 1;
    }
    iddqd_keyed_insert(&users, (const uint8_t *)"ada", 3, 1815, 100, &at, &found);
    iddqd_keyed_insert(&users, (const uint8_t *)"alan", 4, 1912, 200, &at, &found);
    uint32_t answer = iddqd_keyed_insert(&users, (const uint8_t *)"ada", 3, 1900, 300, &at, &found);
    if (answer == IDDQD_DUPLICATE) {
        printf("item %u has that name\n", (unsigned)found.first);
    }
    if (iddqd_keyed_find2(&users, 1912, &row) == IDDQD_OK) {
        printf("of 1912: item %u, value %u\n", (unsigned)row.index, (unsigned)row.value);
    }
    iddqd_free(&users);
    return 0;
}
