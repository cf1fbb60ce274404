//! The ordered table beside two trees of std's whose comparison reads the same records: the least nanoseconds an entry
//! over some rounds, and how many comparisons each makes an entry.
//!
//! `map` is the tree that the original crate stands on, and `set` one that is told where the records are by a static
//! pointer, the fastest that std's can be.
use shared::{Random, Record, bench_now};
use std::cmp::Ordering;
use std::hint::black_box;
use std::marker::PhantomData;

mod map;
mod set;
#[path = "../shared.rs"]
mod shared;

const PARTS: usize = 8;
const NAMES: [&str; PARTS] =
    ["insert", "find, hit", "find, miss", "walk", "clone", "into_iter", "remove and insert", "remove"];
// The parts that compare: an insert, a hit, a miss, a removal with an insert, and a removal.
const ASKING: [usize; 5] = [0, 1, 2, 6, 7];

#[repr(C)]
#[derive(Clone, Copy, Default)]
struct Round {
    nanos: [u64; PARTS],
    asks: [u64; ASKING.len()],
    sum: u64,
}

unsafe extern "C" {
    // A slice is a pointer and a length.
    #[allow(clippy::too_many_arguments)]
    fn bench_round(
        records: *mut Record,
        count: usize,
        hits: *const u32,
        hit_count: usize,
        misses: *const u32,
        miss_count: usize,
        order: *const u32,
        order_count: usize,
        fresh: *const u32,
        fresh_count: usize,
    ) -> Round;
}

/// A tree of std's over indexes, with the records that they stand for.
trait Tree: Clone + Default {
    /// Says where the records are, before a round.
    fn begin(records: &[Record]);
    fn insert(&mut self, records: &[Record], number: u32);
    fn find(&self, records: &[Record], key: u32) -> Option<u32>;
    fn remove(&mut self, records: &[Record], number: u32) -> bool;
    fn walk(&self) -> u64;
    fn take(self) -> u64;
}

/// How a tree of std's comes to compare two indexes.
trait Compare {
    fn compare(a: u32, b: u32) -> Ordering;
}

/// An index in a tree of std's.
#[derive(Clone)]
struct Index<C>(u32, PhantomData<C>);

impl<C> Index<C> {
    fn new(number: u32) -> Self {
        Index(number, PhantomData)
    }

    fn number(&self) -> u32 {
        self.0
    }
}

impl<C: Compare> Ord for Index<C> {
    #[inline(always)]
    fn cmp(&self, other: &Self) -> Ordering {
        C::compare(self.0, other.0)
    }
}

impl<C: Compare> PartialOrd for Index<C> {
    fn partial_cmp(&self, other: &Self) -> Option<Ordering> {
        Some(self.cmp(other))
    }
}

impl<C: Compare> Eq for Index<C> {}

impl<C: Compare> PartialEq for Index<C> {
    fn eq(&self, other: &Self) -> bool {
        self.cmp(other) == Ordering::Equal
    }
}

// How many comparisons were made. One thread runs.
static mut ASKS: u64 = 0;

#[inline(always)]
fn count_ask() {
    unsafe { ASKS += 1 };
}

fn asked() -> u64 {
    unsafe { std::mem::take(&mut *(&raw mut ASKS)) }
}

#[inline(never)]
fn insert_all<T: Tree>(tree: &mut T, records: &[Record]) {
    for number in 0..records.len() {
        tree.insert(records, number as u32);
    }
}

#[inline(never)]
fn find_all<T: Tree>(tree: &T, records: &[Record], keys: &[u32]) -> u64 {
    keys.iter().filter_map(|&key| tree.find(records, key)).map(u64::from).sum()
}

#[inline(never)]
fn copy<T: Tree>(tree: &T) -> T {
    tree.clone()
}

#[inline(never)]
fn churn<T: Tree>(tree: &mut T, records: &mut [Record], order: &[u32], fresh: &[u32]) -> u64 {
    let mut found = 0;
    for (&number, &key) in order.iter().zip(fresh) {
        found += tree.remove(records, number) as u64;
        records[number as usize].key = key;
        tree.insert(records, number);
    }
    found
}

#[inline(never)]
fn remove_all<T: Tree>(tree: &mut T, records: &[Record], order: &[u32]) -> u64 {
    order.iter().map(|&number| tree.remove(records, number) as u64).sum()
}

fn round_of<T: Tree>(records: &mut [Record], hits: &[u32], misses: &[u32], order: &[u32], fresh: &[u32]) -> Round {
    T::begin(records);
    let mut tree = T::default();
    let mut copied = T::default();
    let mut round = Round::default();
    asked();
    let mut last = bench_now();
    let mut sum = 0u64;
    for part in 0..PARTS {
        let told = match part {
            0 => {
                insert_all(&mut tree, records);
                0
            }
            1 => find_all(black_box(&tree), records, hits),
            2 => find_all(black_box(&tree), records, misses),
            3 => black_box(&tree).walk(),
            4 => {
                copied = copy(black_box(&tree));
                0
            }
            5 => std::mem::take(&mut copied).take(),
            6 => churn(&mut tree, records, order, fresh),
            _ => remove_all(&mut tree, records, order),
        };
        let now = bench_now();
        round.nanos[part] = now - last;
        let asks = asked();
        if let Some(place) = ASKING.iter().position(|&asking| asking == part) {
            round.asks[place] = asks;
        }
        sum = sum.wrapping_add(told);
        last = bench_now();
    }
    round.sum = sum;
    round
}

// The table, std's map, and std's set.
const TREES: usize = 3;

/// The least nanoseconds and the asks an entry, of each tree.
#[derive(Clone, Copy)]
struct Told {
    nanos: [[f64; PARTS]; TREES],
    asks: [[f64; ASKING.len()]; TREES],
}

/// The order in which keys are inserted.
#[derive(Clone, Copy, PartialEq)]
enum Keys {
    Random,
    Rising,
    Falling,
}

fn least(count: usize, rounds: usize, keys: Keys) -> Told {
    let mut random = Random(7);
    let mut hits: Vec<u32> = (0..count as u32).map(|number| number * 4).collect();
    let mut misses: Vec<u32> = hits.iter().map(|key| key + 2).collect();
    let mut fresh: Vec<u32> = hits.iter().map(|key| key + 1).collect();
    let mut first = hits.clone();
    let mut order: Vec<u32> = (0..count as u32).collect();
    let mut records = vec![Record { key: 0, second: 0, value: 0 }; count];
    let mut told = Told { nanos: [[f64::MAX; PARTS]; TREES], asks: [[0.0; ASKING.len()]; TREES] };
    match keys {
        Keys::Random => random.shuffle(&mut first),
        Keys::Rising => (),
        Keys::Falling => first.reverse(),
    }
    for _ in 0..rounds {
        for list in [&mut hits, &mut misses, &mut fresh, &mut order] {
            random.shuffle(list);
        }
        let mut sums = [0; TREES];
        for which in 0..TREES {
            for (record, &key) in records.iter_mut().zip(&first) {
                record.key = key;
            }
            let round = match which {
                0 => {
                    let (records, hits, misses) = (records.as_mut_ptr(), hits.as_ptr(), misses.as_ptr());
                    let (order, fresh) = (order.as_ptr(), fresh.as_ptr());
                    unsafe { bench_round(records, count, hits, count, misses, count, order, count, fresh, count) }
                }
                1 => round_of::<map::Map>(&mut records, &hits, &misses, &order, &fresh),
                _ => round_of::<set::Set>(&mut records, &hits, &misses, &order, &fresh),
            };
            sums[which] = round.sum;
            for (least, nanos) in told.nanos[which].iter_mut().zip(round.nanos) {
                *least = least.min(nanos as f64 / count as f64);
            }
            told.asks[which] = round.asks.map(|asks| asks as f64 / count as f64);
        }
        assert!(sums.iter().all(|&sum| sum == sums[0]), "the answers differ");
    }
    told
}

fn row(name: &str, cells: impl Iterator<Item = String>) {
    println!("| {name} | {} |", cells.collect::<Vec<_>>().join(" | "));
}

fn main() {
    // So many rounds; twice as many on a busy machine do no harm.
    let scale: usize = std::env::args().nth(1).map_or(1, |word| word.parse().expect("a number"));
    shared::keep_memory();
    let sizes = [(1_000, 1_000 * scale), (100_000, 10 * scale), (1_000_000, 2 * scale)];
    println!("| ns an entry; ratio to std's map, to its set; comparisons, ours and std's | 1,000 | 100,000 | 1,000,000 |");
    println!("|---|---|---|---|");
    let mut ratios = vec![Vec::new(); sizes.len()];
    for (keys, order) in [(Keys::Random, "random"), (Keys::Rising, "rising"), (Keys::Falling, "falling")] {
        let all = sizes.map(|(count, rounds)| least(count, rounds, keys));
        for (part, name) in NAMES.iter().enumerate() {
            // After rising or falling inserts the other parts say little more.
            if keys != Keys::Random && part != 0 && part != 3 {
                continue;
            }
            let cells = all.iter().enumerate().map(|(size, told)| {
                let [ours, map, set] = told.nanos.map(|nanos| nanos[part]);
                ratios[size].push([ours / map, ours / set]);
                let asks = match ASKING.iter().position(|&asking| asking == part) {
                    None => String::new(),
                    Some(place) => format!("; {:.1} / {:.1}", told.asks[0][place], told.asks[1][place]),
                };
                format!("{ours:.1}; {:.2}, {:.2}{asks}", ours / map, ours / set)
            });
            row(&format!("{name}, {order}"), cells.collect::<Vec<_>>().into_iter());
        }
    }
    let average = |all: &Vec<[f64; 2]>, which: usize| all.iter().map(|ratios| ratios[which]).sum::<f64>() / all.len() as f64;
    row("average of the ratios", ratios.iter().map(|all| format!("{:.2}, {:.2}", average(all, 0), average(all, 1))));
}
