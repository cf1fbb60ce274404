// The same round over a container of Boost.MultiIndex, whose first key is hashed as std hashes text.
#include "round.h"

#include <boost/multi_index/hashed_index.hpp>
#include <boost/multi_index/member.hpp>
#include <boost/multi_index/ordered_index.hpp>
#include <boost/multi_index_container.hpp>
#include <functional>
#include <string>
#include <string_view>

namespace mi = boost::multi_index;

namespace {

struct Item {
    std::string first;
    uint64_t second, value;
};

// Hashes text without a copy of it.
struct Hash {
    size_t operator()(std::string_view text) const { return std::hash<std::string_view>()(text); }
};

using Items = mi::multi_index_container<
    Item, mi::indexed_by<mi::hashed_unique<mi::member<Item, std::string, &Item::first>, Hash, std::equal_to<>>,
                         mi::ordered_unique<mi::member<Item, uint64_t, &Item::second>>>>;

std::string_view text(const uint8_t *first) {
    return {reinterpret_cast<const char *>(first), KEY};
}

uint64_t insert_all(Items &items, const load &load) {
    uint64_t sum = 0;
    for (size_t i = 0; i < load.count; ++i) {
        const item &item = load.items[i];
        sum += items.insert({std::string(text(item.first)), item.second, item.value}).second;
    }
    return sum;
}

uint64_t find_firsts(const Items &items, const load &load) {
    uint64_t sum = 0;
    for (size_t i = 0; i < load.count; ++i)
        if (auto it = items.find(text(load.firsts[i])); it != items.end())
            sum += it->second ^ it->value;
    return sum;
}

uint64_t find_seconds(const Items &items, const load &load) {
    auto &by_second = items.get<1>();
    uint64_t sum = 0;
    for (size_t i = 0; i < load.count; ++i)
        if (auto it = by_second.find(load.seconds[i]); it != by_second.end())
            sum += it->second ^ it->value;
    return sum;
}

uint64_t walk_ranges(const Items &items, const load &load) {
    auto &by_second = items.get<1>();
    uint64_t sum = 0;
    for (size_t i = 0; i < load.ranges; ++i) {
        auto it = by_second.lower_bound(load.froms[i]);
        for (int left = ROWS; left > 0 && it != by_second.end(); --left, ++it)
            sum = sum * 3 + it->value;
    }
    return sum;
}

uint64_t remove_all(Items &items, const load &load) {
    uint64_t sum = 0;
    for (size_t i = 0; i < load.count; ++i)
        if (auto it = items.find(text(load.removed[i])); it != items.end()) {
            items.erase(it);
            ++sum;
        }
    return sum;
}

uint64_t part(Items &items, const load &load, int at) {
    switch (at) {
    case INSERT: return insert_all(items, load);
    case FIND_FIRST: return find_firsts(items, load);
    case FIND_SECOND: return find_seconds(items, load);
    case RANGE: return walk_ranges(items, load);
    default: return remove_all(items, load);
    }
}

} // namespace

extern "C" struct round boost_round(const load *load) {
    Items items;
    struct round round{};
    for (int at = 0; at < PARTS; ++at) {
        uint64_t start = bench_now();
        round.sum += part(items, *load, at);
        round.nanos[at] = bench_now() - start;
    }
    return round;
}
