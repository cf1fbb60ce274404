//! A map with a unique hashed key, and a hashed one and one in order with equal keys, beside Boost.MultiIndex.
use crate::rounds::{self, Least};
use crate::shared::Random;

const PARTS: usize = 13;
const EACH: &[usize] = &[1, 10, 1_000];
const SMALL: &[usize] = &[1, 10];
const TEN: &[usize] = &[10];
/// The parts of a round, as both sides number them, each with the sizes of groups for which its row is printed. A part
/// without rows prepares the next one.
const NAMES: [(&str, &[usize]); PARTS] = [
    ("insert, growing", EACH),
    ("find by the unique key", TEN),
    ("group in order", EACH),
    ("range of a hundredth", TEN),
    ("range of 10 items", SMALL),
    ("modify a range of 10 items, Boost's by its modify", SMALL),
    ("modify a range of 10 items, Boost's in a mutable field", SMALL),
    ("the iterators that a caller of Boost keeps", &[]),
    ("remove by index", EACH),
    ("insert, room made", TEN),
    ("remove a group in order", EACH),
    ("insert once more", &[]),
    ("remove a group by hash", EACH),
];

#[repr(C)]
#[derive(Clone, Copy)]
struct Order {
    number: u32,
    day: u32,
    kind: u32,
    value: u32,
}

/// The days from one on, up to another.
#[repr(C)]
#[derive(Clone, Copy)]
struct Days {
    from: u32,
    to: u32,
}

type Round = rounds::Round<PARTS>;

/// A slice as C++ and Rattle get it.
#[repr(C)]
struct Slice<T> {
    at: *const T,
    count: usize,
}

impl<T> From<&Vec<T>> for Slice<T> {
    fn from(items: &Vec<T>) -> Self {
        Slice { at: items.as_ptr(), count: items.len() }
    }
}

/// A load as C++ and Rattle get it.
#[repr(C)]
struct LoadSlices {
    records: Slice<Order>,
    numbers: Slice<u32>,
    days: Slice<u32>,
    hundredths: Slice<Days>,
    tens: Slice<Days>,
    indexes: Slice<u32>,
}

type Call = unsafe extern "C" fn(&LoadSlices) -> Round;

unsafe extern "C" {
    fn bench_several(load: &LoadSlices) -> Round;
    fn boost_several(load: &LoadSlices) -> Round;
}

/// What a round is given. Days and kinds are the same numbers.
struct Load {
    records: Vec<Order>,
    numbers: Vec<u32>,
    days: Vec<u32>,
    hundredths: Vec<Days>,
    tens: Vec<Days>,
    indexes: Vec<u32>,
}

/// The numbers below `count` in a random order.
fn shuffled(count: usize, random: &mut Random) -> Vec<u32> {
    let mut numbers: Vec<u32> = (0..count as u32).collect();
    random.shuffle(&mut numbers);
    numbers
}

/// Ranges of `width` days, which together have all days, in a random order.
fn ranges(days: usize, width: usize, random: &mut Random) -> Vec<Days> {
    let width_of = width as u32;
    shuffled(days / width, random).iter().map(|at| Days { from: at * width_of, to: (at + 1) * width_of }).collect()
}

impl Load {
    fn new(count: usize, group: usize, random: &mut Random) -> Load {
        let in_groups = |random: &mut Random| {
            let mut keys: Vec<u32> = (0..count).map(|at| (at / group) as u32).collect();
            random.shuffle(&mut keys);
            keys
        };
        let mut numbers: Vec<u32> = (0..count).map(|at| at.wrapping_mul(2654435769) as u32).collect();
        random.shuffle(&mut numbers);
        let (days, kinds) = (in_groups(random), in_groups(random));
        let records = (0..count)
            .map(|at| {
                let value = (random.next() >> 40) as u32;
                Order { number: numbers[at], day: days[at], kind: kinds[at], value }
            })
            .collect();
        random.shuffle(&mut numbers);
        let groups = count / group;
        let days = shuffled(groups, random);
        let hundredths = ranges(groups, (groups / 100).max(1), random);
        let tens = ranges(groups, (10 / group).max(1), random);
        let indexes = shuffled(count, random);
        Load { records, numbers, days, hundredths, tens, indexes }
    }

    fn run(&self, call: Call) -> Round {
        let slices = LoadSlices {
            records: (&self.records).into(),
            numbers: (&self.numbers).into(),
            days: (&self.days).into(),
            hundredths: (&self.hundredths).into(),
            tens: (&self.tens).into(),
            indexes: (&self.indexes).into(),
        };
        unsafe { call(&slices) }
    }
}

fn least(count: usize, group: usize, rounds: usize) -> Least<PARTS> {
    let mut random = Random(7);
    rounds::least(count, rounds, || {
        let load = Load::new(count, group, &mut random);
        [load.run(bench_several), load.run(boost_several)]
    })
}

/// Prints the table. Each size is a count of records with a number of rounds.
pub fn print(sizes: &[(usize, usize)]) {
    let all: Vec<(usize, Vec<_>)> = EACH
        .iter()
        .map(|&group| (group, sizes.iter().map(|&(count, rounds)| least(count, group, rounds)).collect()))
        .collect();
    rounds::print_head("ours / Boost's");
    for (part, (name, groups)) in NAMES.into_iter().enumerate() {
        for (group, all) in all.iter().filter(|(group, _)| groups.contains(group)) {
            let figures = all.iter().map(|[ours, boosts]| [ours[part], boosts[part]]);
            rounds::print_row(&format!("{name}, groups of {group}"), figures);
        }
    }
}
