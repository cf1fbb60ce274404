//! The maps with one key beside std's, filled by upserts, from a list, or by single inserts: each part fills a new map.
use crate::rounds::{self, Least, Round};
use crate::shared::{Random, Record, bench_now};
use crate::{Hashed, Map, Ordered, keys, put_all, records_of};

const PARTS: usize = 5;
const NAMES: [&str; PARTS] =
    ["upsert, half of the keys new", "insert_all, random", "insert, random", "insert_all, rising", "insert, rising"];
/// The parts of `insert_all`, each before that of single inserts of the same list.
const LISTS: [usize; 2] = [1, 3];

/// How a map is filled: by upserts, from a list at once, or by single inserts.
#[repr(u32)]
#[derive(Clone, Copy)]
enum Way {
    Upserts,
    List,
    Inserts,
}

#[repr(C)]
struct Filled {
    nanos: u64,
    sum: u64,
}

// Each slice is a pointer and a length: the records that a map gets first, and those that fill it.
type Call = unsafe extern "C" fn(*const Record, usize, *const Record, usize, Way) -> Filled;

unsafe extern "C" {
    fn bench_fill_hashed(
        before: *const Record,
        before_count: usize,
        records: *const Record,
        count: usize,
        way: Way,
    ) -> Filled;
    fn bench_fill_ordered(
        before: *const Record,
        before_count: usize,
        records: *const Record,
        count: usize,
        way: Way,
    ) -> Filled;
}

/// What fills a map of std's beside `put`. std's upsert refuses no record.
trait Fills: Map {
    fn upsert(&mut self, record: Record);
    fn len(&self) -> usize;
    fn extend(&mut self, records: &[Record]);
}

macro_rules! fills {
    ($($name:ident)*) => {
        $(impl Fills for $name {
            fn upsert(&mut self, record: Record) {
                let add = |was: &mut Record| was.value = was.value.wrapping_add(record.value);
                self.0.entry(record.key).and_modify(add).or_insert(record);
            }

            fn len(&self) -> usize {
                self.0.len()
            }

            #[inline(never)]
            fn extend(&mut self, records: &[Record]) {
                self.0.extend(records.iter().map(|record| (record.key, *record)));
            }
        })*
    };
}
fills!(Hashed Ordered);

#[inline(never)]
fn upsert_all<M: Fills>(map: &mut M, records: &[Record]) -> u64 {
    records.iter().for_each(|&record| map.upsert(record));
    records.len() as u64
}

fn extend<M: Fills>(map: &mut M, records: &[Record]) -> u64 {
    let before = map.len();
    map.extend(records);
    (map.len() - before) as u64
}

fn fill<M: Fills>(before: &[Record], records: &[Record], way: Way) -> Filled {
    let mut map = M::default();
    let put = put_all(&mut map, before);
    let start = bench_now();
    let answers = match way {
        Way::Upserts => upsert_all(&mut map, records),
        Way::List => extend(&mut map, records),
        Way::Inserts => put_all(&mut map, records),
    };
    let nanos = bench_now() - start;
    Filled { nanos, sum: put.wrapping_add(answers).wrapping_add(map.walk()) }
}

/// The same records in two orders, and others with half of their keys.
struct Load {
    half: Vec<Record>,
    random: Vec<Record>,
    rising: Vec<Record>,
}

impl Load {
    fn new(keys: &mut [u32], random: &mut Random) -> Load {
        random.shuffle(keys);
        let half = records_of(&keys[..keys.len() / 2], random);
        random.shuffle(keys);
        let in_random_order = records_of(keys, random);
        let mut rising = in_random_order.clone();
        rising.sort_by_key(|record| record.key);
        Load { half, random: in_random_order, rising }
    }

    /// Of each part the records that are there before it, those that it fills a map with, and how.
    fn parts(&self) -> [(&[Record], &[Record], Way); PARTS] {
        [
            (&self.half, &self.random, Way::Upserts),
            (&[], &self.random, Way::List),
            (&[], &self.random, Way::Inserts),
            (&[], &self.rising, Way::List),
            (&[], &self.rising, Way::Inserts),
        ]
    }

    fn round(&self, fill: impl Fn(&[Record], &[Record], Way) -> Filled) -> Round<PARTS> {
        let mut round = Round::new();
        for (part, (before, records, way)) in self.parts().into_iter().enumerate() {
            let filled = fill(before, records, way);
            round.add(part, filled.nanos, filled.sum);
        }
        round
    }
}

/// A map of ours, and what it is measured beside.
struct Pair {
    name: &'static str,
    is_hashed: bool,
    ours: Call,
    theirs: fn(&[Record], &[Record], Way) -> Filled,
}

const PAIRS: [Pair; 2] = [
    Pair { name: "by hash", is_hashed: true, ours: bench_fill_hashed, theirs: fill::<Hashed> },
    Pair { name: "in order", is_hashed: false, ours: bench_fill_ordered, theirs: fill::<Ordered> },
];

fn least(pair: &Pair, count: usize, rounds: usize) -> Least<PARTS> {
    let mut random = Random(7);
    let mut keys = keys(pair.is_hashed, 0..count);
    let ours = |before: &[Record], records: &[Record], way| unsafe {
        (pair.ours)(before.as_ptr(), before.len(), records.as_ptr(), records.len(), way)
    };
    rounds::least(count, rounds, || {
        let load = Load::new(&mut keys, &mut random);
        [load.round(ours), load.round(pair.theirs)]
    })
}

/// Prints the parts beside std's, which takes a list by `extend`, and then `insert_all` beside single inserts of ours.
/// Each size is a count of records with a number of rounds.
pub fn print(sizes: &[(usize, usize)]) {
    let all = PAIRS.map(|pair| -> (&str, Vec<_>) {
        (pair.name, sizes.iter().map(|&(count, rounds)| least(&pair, count, rounds)).collect())
    });
    rounds::print_head("ours / std's");
    for (name, all) in &all {
        for (part, of_part) in NAMES.iter().enumerate() {
            rounds::print_row(&format!("{name}: {of_part}"), all.iter().map(|[ours, stds]| [ours[part], stds[part]]));
        }
    }
    println!();
    rounds::print_head("ours by insert_all / by single inserts");
    for (name, all) in &all {
        for part in LISTS {
            let of_list = NAMES[part];
            rounds::print_row(&format!("{name}: {of_list}"), all.iter().map(|[ours, _]| [ours[part], ours[part + 1]]));
        }
    }
    println!();
}
