// The header from C++.
#include "iddqd.h"

#include <cstdio>
#include <string>

static const uint8_t *bytes(const std::string &text) {
    return reinterpret_cast<const uint8_t *>(text.data());
}

int main() {
    iddqd_table table = IDDQD_NONE;
    iddqd_conflict conflict;
    iddqd_row row;
    uint32_t index;
    const std::string ada = "ada", bo = "bo";
    bool good = iddqd_keyed_new(&table, 1, 2) == IDDQD_OK;
    good = good && iddqd_keyed_insert(&table, bytes(ada), ada.size(), 7, 100, &index, &conflict) == IDDQD_OK;
    good = good && iddqd_keyed_insert(&table, bytes(bo), bo.size(), 7, 200, &index, &conflict) == IDDQD_DUPLICATE;
    good = good && conflict.first == IDDQD_SENTINEL && conflict.second == index;
    good = good && iddqd_keyed_find1(&table, bytes(ada), ada.size(), &row) == IDDQD_OK && row.value == 100;
    iddqd_free(&table);
    good = good && iddqd_keyed_find2(&table, 7, &row) == IDDQD_HANDLE;
    std::puts(good ? "plain: ok" : "plain: failed");
    return good ? 0 : 1;
}
