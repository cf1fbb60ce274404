//! The maps with one key beside std's, whose keys are stored twice, also by a key of two fields, which is beside
//! Boost.MultiIndex too, and filled in several ways; and a map with several keys beside Boost.MultiIndex. Both have the
//! same items: the least nanoseconds an item over some rounds, and the ratio of the two.
use rounds::Least;
use shared::{Random, Record, bench_now};
use std::collections::{BTreeMap, HashMap};
use std::hash::{BuildHasherDefault, Hasher};
use std::hint::black_box;
use std::ops::Range;

mod fills;
mod rounds;
mod several;
#[path = "../shared.rs"]
mod shared;

const PARTS: usize = 5;
const NAMES: [&str; PARTS] = ["insert", "get, hit", "get, miss", "walk", "remove"];

type Round = rounds::Round<PARTS>;

// Each slice is a pointer and a length: records, keys that are there, keys that aren't.
type Call = unsafe extern "C" fn(*const Record, usize, *const u32, usize, *const u32, usize) -> Round;

macro_rules! calls {
    ($($name:ident)*) => {
        unsafe extern "C" {
            $(fn $name(
                records: *const Record,
                count: usize,
                hits: *const u32,
                hit_count: usize,
                misses: *const u32,
                miss_count: usize,
            ) -> Round;)*
        }
    };
}
calls!(bench_hashed bench_ordered bench_two_hashed bench_two_ordered boost_two_hashed boost_two_ordered);

/// One multiplication to twice the width: about what the maps' own default hasher does to a number.
#[derive(Default)]
struct Quick(u64);

impl Hasher for Quick {
    fn finish(&self) -> u64 {
        self.0
    }

    fn write(&mut self, bytes: &[u8]) {
        bytes.iter().for_each(|&byte| self.write_u32(byte.into()));
    }

    #[inline]
    fn write_u32(&mut self, number: u32) {
        let product = u128::from(self.0 ^ u64::from(number) ^ 0x243f_6a88_85a3_08d3) * 0x9e37_79b9_7f4a_7c15;
        self.0 = product as u64 ^ (product >> 64) as u64;
    }
}

/// A map of std's from the key of an item to the item.
trait Map: Default {
    fn put(&mut self, record: Record) -> u64;
    fn value_of(&self, key: u32) -> u64;
    fn take(&mut self, key: u32) -> u64;
    fn walk(&self) -> u64;
}

#[derive(Default)]
struct Hashed(HashMap<u32, Record, BuildHasherDefault<Quick>>);

impl Map for Hashed {
    fn put(&mut self, record: Record) -> u64 {
        self.0.insert(record.key, record).is_none() as u64
    }

    fn value_of(&self, key: u32) -> u64 {
        self.0.get(&key).map_or(0, |record| record.value.into())
    }

    fn take(&mut self, key: u32) -> u64 {
        self.0.remove(&key).map_or(0, |record| record.value.into())
    }

    #[inline(never)]
    fn walk(&self) -> u64 {
        self.0.values().fold(0u64, |sum, record| sum.wrapping_add(record.value.into()))
    }
}

#[derive(Default)]
struct Ordered(BTreeMap<u32, Record>);

impl Map for Ordered {
    fn put(&mut self, record: Record) -> u64 {
        self.0.insert(record.key, record).is_none() as u64
    }

    fn value_of(&self, key: u32) -> u64 {
        self.0.get(&key).map_or(0, |record| record.value.into())
    }

    fn take(&mut self, key: u32) -> u64 {
        self.0.remove(&key).map_or(0, |record| record.value.into())
    }

    #[inline(never)]
    fn walk(&self) -> u64 {
        self.0.values().fold(0u64, |sum, record| sum.wrapping_mul(3).wrapping_add(record.value.into()))
    }
}

/// Keys of two fields, which std's maps own.
#[derive(Default)]
struct TwoHashed(HashMap<(u32, u32), Record, BuildHasherDefault<Quick>>);

impl Map for TwoHashed {
    fn put(&mut self, record: Record) -> u64 {
        self.0.insert((record.key, record.second), record).is_none() as u64
    }

    fn value_of(&self, key: u32) -> u64 {
        self.0.get(&(key, 0)).map_or(0, |record| record.value.into())
    }

    fn take(&mut self, key: u32) -> u64 {
        self.0.remove(&(key, 0)).map_or(0, |record| record.value.into())
    }

    #[inline(never)]
    fn walk(&self) -> u64 {
        self.0.values().fold(0u64, |sum, record| sum.wrapping_add(record.value.into()))
    }
}

#[derive(Default)]
struct TwoOrdered(BTreeMap<(u32, u32), Record>);

impl Map for TwoOrdered {
    fn put(&mut self, record: Record) -> u64 {
        self.0.insert((record.key, record.second), record).is_none() as u64
    }

    fn value_of(&self, key: u32) -> u64 {
        self.0.get(&(key, 0)).map_or(0, |record| record.value.into())
    }

    fn take(&mut self, key: u32) -> u64 {
        self.0.remove(&(key, 0)).map_or(0, |record| record.value.into())
    }

    #[inline(never)]
    fn walk(&self) -> u64 {
        self.0.values().fold(0u64, |sum, record| sum.wrapping_mul(3).wrapping_add(record.value.into()))
    }
}

#[inline(never)]
fn put_all<M: Map>(map: &mut M, records: &[Record]) -> u64 {
    records.iter().map(|&record| map.put(record)).sum()
}

#[inline(never)]
fn find_all<M: Map>(map: &M, keys: &[u32]) -> u64 {
    keys.iter().fold(0u64, |sum, &key| sum.wrapping_add(map.value_of(key)))
}

#[inline(never)]
fn take_all<M: Map>(map: &mut M, keys: &[u32]) -> u64 {
    keys.iter().fold(0u64, |sum, &key| sum.wrapping_add(map.take(key)))
}

fn round_of<M: Map>(records: &[Record], hits: &[u32], misses: &[u32]) -> Round {
    let mut map = M::default();
    let mut round = Round::new();
    for part in 0..PARTS {
        let start = bench_now();
        let told = match part {
            0 => put_all(&mut map, records),
            1 => find_all(black_box(&map), hits),
            2 => find_all(black_box(&map), misses),
            3 => black_box(&map).walk(),
            _ => take_all(&mut map, hits),
        };
        round.add(part, bench_now() - start, told);
    }
    round
}

/// A map of ours, and what it is measured beside.
struct Pair {
    name: &'static str,
    is_hashed: bool,
    ours: Call,
    theirs: Theirs,
}

enum Theirs {
    Std(fn(&[Record], &[u32], &[u32]) -> Round),
    Boost(Call),
}

fn call(call: Call, records: &[Record], hits: &[u32], misses: &[u32]) -> Round {
    let (records_at, hits_at, misses_at) = (records.as_ptr(), hits.as_ptr(), misses.as_ptr());
    unsafe { call(records_at, records.len(), hits_at, hits.len(), misses_at, misses.len()) }
}

/// The keys with these numbers: by hash scattered, in order every second number.
fn keys(is_hashed: bool, numbers: Range<usize>) -> Vec<u32> {
    let key_of = |number: usize| if is_hashed { number.wrapping_mul(2654435769) as u32 } else { 2 * number as u32 };
    numbers.map(key_of).collect()
}

/// Records with these keys, and values at random.
fn records_of(keys: &[u32], random: &mut Random) -> Vec<Record> {
    keys.iter().map(|&key| Record { key, second: 0, value: (random.next() >> 40) as u32 }).collect()
}

fn least(pair: &Pair, count: usize, rounds: usize) -> Least<PARTS> {
    let is_hashed = pair.is_hashed;
    let mut random = Random(7);
    let mut hits = keys(is_hashed, 0..count);
    let mut misses = if is_hashed { keys(true, count..2 * count) } else { hits.iter().map(|key| key + 1).collect() };
    rounds::least(count, rounds, || {
        random.shuffle(&mut hits);
        let records = records_of(&hits, &mut random);
        random.shuffle(&mut hits);
        random.shuffle(&mut misses);
        let ours = call(pair.ours, &records, &hits, &misses);
        let theirs = match pair.theirs {
            Theirs::Std(round_of) => round_of(&records, &hits, &misses),
            Theirs::Boost(theirs) => call(theirs, &records, &hits, &misses),
        };
        [ours, theirs]
    })
}

fn print(pairs: &[Pair], theirs: &str, sizes: &[(usize, usize)]) {
    rounds::print_head(&format!("ours / {theirs}"));
    for pair in pairs {
        let all: Vec<_> = sizes.iter().map(|&(count, rounds)| least(pair, count, rounds)).collect();
        for (part, name) in NAMES.iter().enumerate() {
            let figures = all.iter().map(|[ours, theirs]| [ours[part], theirs[part]]);
            rounds::print_row(&format!("{}: {name}", pair.name), figures);
        }
    }
    println!();
}

fn main() {
    // So many rounds; twice as many on a busy machine do no harm.
    let scale: usize = std::env::args().nth(1).map_or(1, |word| word.parse().expect("a number"));
    shared::keep_memory();
    let sizes = [(1_000, 1_000 * scale), (100_000, 20 * scale), (1_000_000, 4 * scale)];
    let pair = |name, is_hashed, ours, theirs| Pair { name, is_hashed, ours, theirs };
    let by_std = [
        pair("by hash", true, bench_hashed, Theirs::Std(round_of::<Hashed>)),
        pair("in order", false, bench_ordered, Theirs::Std(round_of::<Ordered>)),
        pair("by the hash of two fields", true, bench_two_hashed, Theirs::Std(round_of::<TwoHashed>)),
        pair("in the order of two fields", false, bench_two_ordered, Theirs::Std(round_of::<TwoOrdered>)),
    ];
    print(&by_std, "std's", &sizes);
    let by_boost = [
        pair("by the hash of two fields", true, bench_two_hashed, Theirs::Boost(boost_two_hashed)),
        pair("in the order of two fields", false, bench_two_ordered, Theirs::Boost(boost_two_ordered)),
    ];
    print(&by_boost, "Boost's", &sizes);
    fills::print(&sizes);
    several::print(&sizes.map(|(count, rounds)| (count, rounds.div_ceil(4))));
}
