// The same rounds as `several.rt.in` over a container of Boost.MultiIndex with its own hashes.
#include <boost/multi_index/composite_key.hpp>
#include <boost/multi_index/hashed_index.hpp>
#include <boost/multi_index/member.hpp>
#include <boost/multi_index/ordered_index.hpp>
#include <boost/multi_index_container.hpp>
#include <cstddef>
#include <cstdint>
#include <vector>

namespace mi = boost::multi_index;

template <class T> struct Slice {
    const T *at;
    size_t count;
    const T *begin() const { return at; }
    const T *end() const { return at + count; }
};

// The value is no key, so a walk may change it in place.
struct Order {
    uint32_t number, day, kind;
    mutable uint32_t value;
};

// The days from one on, up to another.
struct Days {
    uint32_t from, to;
};

// What a round is given. Days and kinds are the same numbers.
struct Load {
    Slice<Order> records;
    Slice<uint32_t> numbers, days;
    Slice<Days> hundredths, tens;
    Slice<uint32_t> indexes;
};

constexpr int PARTS = 13;

struct Round {
    uint64_t nanos[PARTS], sum;
};

extern "C" uint64_t bench_now();

using Orders = mi::multi_index_container<
    Order, mi::indexed_by<mi::hashed_unique<mi::member<Order, uint32_t, &Order::number>>,
                          mi::ordered_non_unique<mi::member<Order, uint32_t, &Order::day>>,
                          mi::hashed_non_unique<mi::member<Order, uint32_t, &Order::kind>>>>;
using Places = std::vector<Orders::iterator>;

[[gnu::noinline]] static uint64_t insert_all(Orders &orders, Slice<Order> records) {
    uint64_t sum = 0;
    for (const Order &record : records)
        sum += orders.insert(record).second;
    return sum;
}

[[gnu::noinline]] static uint64_t find_all(const Orders &orders, Slice<uint32_t> numbers) {
    uint64_t sum = 0;
    for (uint32_t number : numbers)
        if (auto it = orders.find(number); it != orders.end())
            sum += it->value;
    return sum;
}

// The sums of the items with each of the keys.
template <class Index> [[gnu::noinline]] static uint64_t sum_of_groups(const Index &index, Slice<uint32_t> keys) {
    uint64_t sum = 0;
    for (uint32_t key : keys) {
        auto [from, to] = index.equal_range(key);
        for (auto it = from; it != to; ++it)
            sum += it->value;
    }
    return sum;
}

// Walks each range. A visit gets the sum over its range so far and an iterator, and returns the sum from then on.
template <class Visit> static uint64_t walk_ranges(Orders &orders, Slice<Days> ranges, Visit visit) {
    auto &by_day = orders.get<1>();
    uint64_t all = 0;
    for (Days days : ranges) {
        auto from = by_day.lower_bound(days.from), to = by_day.lower_bound(days.to);
        uint64_t sum = 0;
        for (auto it = from; it != to; ++it)
            sum = visit(sum, it);
        all += sum;
    }
    return all;
}

[[gnu::noinline]] static uint64_t sum_of_ranges(Orders &orders, Slice<Days> ranges) {
    return walk_ranges(orders, ranges, [](uint64_t sum, auto it) { return sum * 3 + it->value; });
}

// Each index looks whether the item may stay where it is, and here it may.
[[gnu::noinline]] static uint64_t modify_by_call(Orders &orders, Slice<Days> ranges) {
    auto &by_day = orders.get<1>();
    return walk_ranges(orders, ranges, [&by_day](uint64_t count, auto it) {
        return count + by_day.modify(it, [](Order &order) { order.value += 1; });
    });
}

// No index is told.
[[gnu::noinline]] static uint64_t modify_in_place(Orders &orders, Slice<Days> ranges) {
    return walk_ranges(orders, ranges, [](uint64_t count, auto it) {
        it->value += 1;
        return count + 1;
    });
}

// What stands for an index here is an iterator, which the caller keeps.
static uint64_t keep_places(Orders &orders, Places &places, Slice<Order> records) {
    for (const Order &record : records)
        places.push_back(orders.find(record.number));
    return 0;
}

[[gnu::noinline]] static uint64_t remove_all(Orders &orders, const Places &places, Slice<uint32_t> indexes) {
    uint64_t sum = 0;
    for (uint32_t ix : indexes) {
        sum += places[ix]->value;
        orders.erase(places[ix]);
    }
    return sum;
}

template <class Index> [[gnu::noinline]] static uint64_t remove_groups(Index &index, Slice<uint32_t> keys) {
    uint64_t sum = 0;
    for (uint32_t key : keys) {
        auto [from, to] = index.equal_range(key);
        for (auto it = from; it != to; ++it)
            sum += it->value;
        index.erase(from, to);
    }
    return sum;
}

// The answers of a part. The parts are those of `NAMES` in several.rs.
static uint64_t part(Orders &orders, Places &places, const Load &load, int at) {
    switch (at) {
    case 0: case 9: case 11: return insert_all(orders, load.records);
    case 1: return find_all(orders, load.numbers);
    case 2: return sum_of_groups(orders.get<1>(), load.days);
    case 3: return sum_of_ranges(orders, load.hundredths);
    case 4: return sum_of_ranges(orders, load.tens);
    case 5: return modify_by_call(orders, load.tens);
    case 6: return modify_in_place(orders, load.tens);
    case 7: return keep_places(orders, places, load.records);
    case 8: return remove_all(orders, places, load.indexes);
    case 10: return remove_groups(orders.get<1>(), load.days);
    case 12: return remove_groups(orders.get<2>(), load.days);
    default: return 0;
    }
}

// One round over a new container.
extern "C" Round boost_several(const Load &load) {
    Orders orders;
    Places places;
    Round round{};
    for (int at = 0; at < PARTS; ++at) {
        uint64_t start = bench_now();
        round.sum += part(orders, places, load, at);
        round.nanos[at] = bench_now() - start;
    }
    return round;
}

// ---- a key of two fields

struct Record {
    uint32_t key, second, value;
};

struct TwoRound {
    uint64_t insert, hit, miss, walk, remove, sum;
};

using TwoFields = mi::composite_key<Record, mi::member<Record, uint32_t, &Record::key>,
                                    mi::member<Record, uint32_t, &Record::second>>;
using TwoHashed = mi::multi_index_container<Record, mi::indexed_by<mi::hashed_unique<TwoFields>>>;
using TwoOrdered = mi::multi_index_container<Record, mi::indexed_by<mi::ordered_unique<TwoFields>>>;

template <class Map> [[gnu::noinline]] static uint64_t find_two(const Map &map, Slice<uint32_t> keys) {
    uint64_t sum = 0;
    for (uint32_t key : keys)
        if (auto it = map.find(boost::make_tuple(key, 0u)); it != map.end())
            sum += it->value;
    return sum;
}

template <class Map> [[gnu::noinline]] static uint64_t take_two(Map &map, Slice<uint32_t> keys) {
    uint64_t sum = 0;
    for (uint32_t key : keys)
        if (auto it = map.find(boost::make_tuple(key, 0u)); it != map.end()) {
            sum += it->value;
            map.erase(it);
        }
    return sum;
}

// Each value counts `times` as much as the one after it.
template <class Map> [[gnu::noinline]] static uint64_t walk_two(const Map &map, uint64_t times) {
    uint64_t sum = 0;
    for (const Record &record : map)
        sum = sum * times + record.value;
    return sum;
}

template <class Map>
static TwoRound two_round(Slice<Record> records, Slice<uint32_t> hits, Slice<uint32_t> misses, uint64_t times) {
    Map map;
    uint64_t start = bench_now(), sum = 0;
    for (const Record &record : records)
        sum += map.insert(record).second;
    uint64_t inserted = bench_now();
    sum += find_two(map, hits);
    uint64_t hit = bench_now();
    sum += find_two(map, misses);
    uint64_t missed = bench_now();
    sum += walk_two(map, times);
    uint64_t walked = bench_now();
    sum += take_two(map, hits);
    uint64_t removed = bench_now();
    return {inserted - start, hit - inserted, missed - hit, walked - missed, removed - walked, sum};
}

extern "C" TwoRound boost_two_hashed(const Record *records, size_t count, const uint32_t *hits, size_t hit_count,
                                     const uint32_t *misses, size_t miss_count) {
    return two_round<TwoHashed>({records, count}, {hits, hit_count}, {misses, miss_count}, 1);
}

extern "C" TwoRound boost_two_ordered(const Record *records, size_t count, const uint32_t *hits, size_t hit_count,
                                      const uint32_t *misses, size_t miss_count) {
    return two_round<TwoOrdered>({records, count}, {hits, hit_count}, {misses, miss_count}, 3);
}
