//! The keyed items of the library for C, called from C and from Rust, and its layer over records in an array, called from
//! C, beside sqlite in memory, Boost.MultiIndex and two maps of std's. All have the same items: the least nanoseconds an entry over some rounds.
use iddqd_proved::Keyed;
use rounds::Least;
use shared::{Random, bench_now};
use std::collections::btree_map::Entry as InOrder;
use std::collections::hash_map::Entry as Hashed;
use std::collections::{BTreeMap, HashMap};

// The tables of two sides that it prints are not those of this program.
#[allow(dead_code)]
#[path = "../maps/rounds.rs"]
mod rounds;
#[path = "../shared.rs"]
mod shared;

const KEY: usize = 16;
const ROWS: usize = 10;
const PARTS: usize = 5;
const SIDES: usize = 6;
const NAMES: [&str; PARTS] =
    ["insert, growing", "find by the first key", "find by the second key", "range of 10", "remove by the first key"];

type Round = rounds::Round<PARTS>;
type First = [u8; KEY];

#[repr(C)]
#[derive(Clone, Copy)]
struct Item {
    first: First,
    second: u64,
    value: u64,
}

/// A load as C and C++ get it.
#[repr(C)]
struct LoadPointers {
    count: usize,
    items: *const Item,
    firsts: *const First,
    seconds: *const u64,
    ranges: usize,
    froms: *const u64,
    removed: *const First,
}

unsafe extern "C" {
    fn ours_round(load: &LoadPointers) -> Round;
    fn layer_round(load: &LoadPointers) -> Round;
    fn sqlite_round(load: &LoadPointers) -> Round;
    fn boost_round(load: &LoadPointers) -> Round;
}

/// The items, and their keys in other orders: to find and to remove them, and where ranges of `ROWS` items begin.
struct Load {
    items: Vec<Item>,
    firsts: Vec<First>,
    seconds: Vec<u64>,
    froms: Vec<u64>,
    removed: Vec<First>,
}

/// A number that looks random, and another one for each number. It is below 2^63, as sqlite wants it.
fn scattered(number: usize) -> u64 {
    (number as u64).wrapping_mul(0x9e37_79b9_7f4a_7c15) & i64::MAX as u64
}

/// The same items in a random order.
fn shuffled(items: &[Item], random: &mut Random) -> Vec<Item> {
    let mut order: Vec<u32> = (0..items.len() as u32).collect();
    random.shuffle(&mut order);
    order.iter().map(|&at| items[at as usize]).collect()
}

impl Load {
    fn new(count: usize, random: &mut Random) -> Load {
        let first_of = |number| format!("{:016x}", scattered(number)).into_bytes().try_into().unwrap();
        let mut items: Vec<Item> = (0..count)
            .map(|number| Item {
                first: first_of(number),
                second: scattered(count + number),
                value: random.next() >> 40,
            })
            .collect();
        items.sort_unstable_by_key(|item| item.second);
        let begins: Vec<Item> = items.iter().step_by(ROWS).copied().collect();
        let froms = shuffled(&begins, random).iter().map(|item| item.second).collect();
        let items = shuffled(&items, random);
        let firsts = shuffled(&items, random).iter().map(|item| item.first).collect();
        let seconds = shuffled(&items, random).iter().map(|item| item.second).collect();
        let removed = shuffled(&items, random).iter().map(|item| item.first).collect();
        Load { items, firsts, seconds, froms, removed }
    }

    fn run(&self, round: unsafe extern "C" fn(&LoadPointers) -> Round) -> Round {
        let pointers = LoadPointers {
            count: self.items.len(),
            items: self.items.as_ptr(),
            firsts: self.firsts.as_ptr(),
            seconds: self.seconds.as_ptr(),
            ranges: self.froms.len(),
            froms: self.froms.as_ptr(),
            removed: self.removed.as_ptr(),
        };
        unsafe { round(&pointers) }
    }
}

/// A table that is called from Rust. Each call answers a number for the sum of a part.
trait Table {
    fn new() -> Self;
    fn insert(&mut self, item: &Item) -> u64;
    fn find_first(&self, first: &First) -> u64;
    fn find_second(&self, second: u64) -> u64;
    fn range(&self, from: u64, sum: u64) -> u64;
    fn remove(&mut self, first: &First) -> u64;
}

impl Table for Keyed {
    fn new() -> Self {
        Keyed::new(1, 2).expect("memory")
    }

    fn insert(&mut self, item: &Item) -> u64 {
        self.insert(&item.first, item.second, item.value).is_ok().into()
    }

    fn find_first(&self, first: &First) -> u64 {
        self.find1(first).map_or(0, |row| row.second ^ row.value)
    }

    fn find_second(&self, second: u64) -> u64 {
        self.find2(second).map_or(0, |row| row.second ^ row.value)
    }

    fn range(&self, from: u64, sum: u64) -> u64 {
        Keyed::range(self, from..).take(ROWS).fold(sum, |sum, row| sum.wrapping_mul(3).wrapping_add(row.value))
    }

    fn remove(&mut self, first: &First) -> u64 {
        self.remove1(first).is_some().into()
    }
}

/// Both maps of std's have both keys and the value, so each find is one look-up.
struct TwoMaps {
    by_first: HashMap<Vec<u8>, (u64, u64)>,
    by_second: BTreeMap<u64, (Vec<u8>, u64)>,
}

impl Table for TwoMaps {
    fn new() -> Self {
        TwoMaps { by_first: HashMap::new(), by_second: BTreeMap::new() }
    }

    fn insert(&mut self, item: &Item) -> u64 {
        let Hashed::Vacant(first) = self.by_first.entry(item.first.to_vec()) else { return 0 };
        let InOrder::Vacant(second) = self.by_second.entry(item.second) else { return 0 };
        first.insert((item.second, item.value));
        second.insert((item.first.to_vec(), item.value));
        1
    }

    fn find_first(&self, first: &First) -> u64 {
        self.by_first.get(&first[..]).map_or(0, |(second, value)| second ^ value)
    }

    fn find_second(&self, second: u64) -> u64 {
        self.by_second.get(&second).map_or(0, |(_, value)| second ^ value)
    }

    fn range(&self, from: u64, sum: u64) -> u64 {
        let items = self.by_second.range(from..).take(ROWS);
        items.fold(sum, |sum, (_, (_, value))| sum.wrapping_mul(3).wrapping_add(*value))
    }

    fn remove(&mut self, first: &First) -> u64 {
        self.by_first.remove(&first[..]).is_some_and(|(second, _)| self.by_second.remove(&second).is_some()).into()
    }
}

/// The sum of the answers of a part. The parts are those of round.h.
#[inline(never)]
fn part<T: Table>(table: &mut T, load: &Load, at: usize) -> u64 {
    let add = |sum: u64, answer| sum.wrapping_add(answer);
    match at {
        0 => load.items.iter().fold(0, |sum, item| add(sum, table.insert(item))),
        1 => load.firsts.iter().fold(0, |sum, first| add(sum, table.find_first(first))),
        2 => load.seconds.iter().fold(0, |sum, second| add(sum, table.find_second(*second))),
        3 => load.froms.iter().fold(0, |sum, from| table.range(*from, sum)),
        _ => load.removed.iter().fold(0, |sum, first| add(sum, table.remove(first))),
    }
}

fn round_of<T: Table>(load: &Load) -> Round {
    let mut table = T::new();
    let mut round = Round::new();
    for at in 0..PARTS {
        let start = bench_now();
        let sum = part(&mut table, load, at);
        round.add(at, bench_now() - start, sum);
    }
    round
}

fn least(count: usize, rounds: usize) -> Least<PARTS, SIDES> {
    let mut random = Random(7);
    rounds::least(count, rounds, || {
        let load = Load::new(count, &mut random);
        let in_c = [ours_round, layer_round, sqlite_round, boost_round];
        let [ours, layer, sqlite, boost] = in_c.map(|round| load.run(round));
        [ours, round_of::<Keyed>(&load), layer, sqlite, boost, round_of::<TwoMaps>(&load)]
    })
}

fn main() {
    // So many rounds; twice as many on a busy machine do no harm.
    let scale: usize = std::env::args().nth(1).map_or(1, |word| word.parse().expect("a number"));
    shared::keep_memory();
    let sizes = [(1_000, 200 * scale), (100_000, 4 * scale), (1_000_000, scale)];
    let all = sizes.map(|(count, rounds)| least(count, rounds));
    println!("| ns an entry: from C, from Rust, a layer; sqlite, Boost, std's maps | 1,000 | 100,000 | 1,000,000 |");
    println!("|---|---|---|---|");
    for (at, name) in NAMES.iter().enumerate() {
        let cells = all.map(|least| {
            let [c, rust, layer, sqlite, boost, std] = least.map(|parts| parts[at]);
            format!(" {c:.0}, {rust:.0}, {layer:.0}; {sqlite:.0}, {boost:.0}, {std:.0} |")
        });
        println!("| {name} |{}", cells.concat());
    }
}
