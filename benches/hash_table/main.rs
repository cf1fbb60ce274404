//! The table with open addressing beside hashbrown's raw table, under equal hashes: the least nanoseconds an entry
//! over some rounds, and the ratio of the two.
use hashbrown012::raw::RawTable;
use shared::{Random, Record, bench_now};
use std::hint::black_box;

#[path = "../shared.rs"]
mod shared;

#[repr(C)]
#[derive(Clone, Copy, Default)]
struct Round {
    insert: u64,
    hit: u64,
    miss: u64,
    churn: u64,
    walk: u64,
    clone: u64,
    clone_indexes: u64,
    retain: u64,
    sum: u64,
}

unsafe extern "C" {
    // A slice is a pointer and a length.
    #[allow(clippy::too_many_arguments)]
    fn bench_round(
        records: *mut Record,
        count: usize,
        hits: *const u32,
        hit_count: usize,
        misses: *const u32,
        miss_count: usize,
        order: *const u32,
        order_count: usize,
    ) -> Round;
}

#[inline(always)]
fn hash_of(key: u32) -> u64 {
    let wide = (key as u64 | (key as u64) << 32) ^ 0x243f_6a88_85a3_08d3;
    let product = (wide as u128).wrapping_mul(0x9e37_79b9_7f4a_7c1d);
    product as u64 ^ (product >> 64) as u64
}

fn key_of(number: usize) -> u32 {
    number.wrapping_mul(2654435769) as u32
}

#[inline(never)]
fn insert_all(table: &mut RawTable<u32>, records: &[Record]) {
    for (number, record) in records.iter().enumerate() {
        table.reserve(1, |&ix| hash_of(records[ix as usize].key));
        table.insert(hash_of(record.key), number as u32, |_| unreachable!("room was made"));
    }
}

#[inline(never)]
fn find_all(table: &RawTable<u32>, records: &[Record], keys: &[u32]) -> u64 {
    let mut sum = 0u64;
    for &key in keys {
        if let Some(&ix) = table.get(hash_of(key), |&ix| records[ix as usize].key == key) {
            sum += ix as u64;
        }
    }
    sum
}

#[inline(never)]
fn churn(table: &mut RawTable<u32>, records: &mut [Record], order: &[u32]) -> u64 {
    let mut removed = 0;
    let mut fresh = records.len() * 2;
    for &number in order {
        let hash = hash_of(records[number as usize].key);
        if let Some(bucket) = table.find(hash, |&ix| ix == number) {
            unsafe { table.remove(bucket) };
            removed += 1;
        }
        let key = key_of(fresh);
        records[number as usize].key = key;
        fresh += 1;
        table.reserve(1, |&ix| hash_of(records[ix as usize].key));
        table.insert(hash_of(key), number, |_| unreachable!("room was made"));
    }
    removed
}

#[inline(never)]
fn walk(table: &RawTable<u32>) -> u64 {
    unsafe { table.iter() }.map(|bucket| u64::from(unsafe { *bucket.as_ref() })).sum()
}

#[inline(never)]
fn copy(table: &RawTable<u32>) -> u64 {
    black_box(table.clone()).len() as u64
}

#[inline(never)]
fn retain_half(table: &mut RawTable<u32>, records: &[Record]) -> u64 {
    unsafe {
        for bucket in table.iter() {
            if records[*bucket.as_ref() as usize].value & 1 != 0 {
                table.erase(bucket);
            }
        }
    }
    table.len() as u64
}

/// The nanoseconds of a walk over hashbrown's table with each hash beside its index, which has the contents of ours, and of
/// a clone of it.
#[derive(Clone, Copy, Default)]
struct Pairs {
    walk: u64,
    clone: u64,
}

#[inline(never)]
fn walk_pairs(pairs: &RawTable<(u64, u32)>) -> u64 {
    unsafe { pairs.iter() }.map(|bucket| u64::from(unsafe { bucket.as_ref() }.1)).sum()
}

fn time_pairs(table: &RawTable<u32>, records: &[Record]) -> Pairs {
    let mut pairs = RawTable::with_capacity(table.buckets() / 8 * 7);
    for bucket in unsafe { table.iter() } {
        let ix = unsafe { *bucket.as_ref() };
        let hash = hash_of(records[ix as usize].key);
        pairs.insert(hash, (hash, ix), |pair: &(u64, u32)| pair.0);
    }
    let start = bench_now();
    black_box(walk_pairs(black_box(&pairs)));
    let walked = bench_now();
    black_box(black_box(&pairs).clone());
    Pairs { walk: walked - start, clone: bench_now() - walked }
}

/// A round, and what pairs take.
fn hashbrown_round(records: &mut [Record], hits: &[u32], misses: &[u32], order: &[u32]) -> (Round, Pairs) {
    let mut table = RawTable::new();
    let start = bench_now();
    insert_all(&mut table, records);
    let inserted = bench_now();
    let found = find_all(black_box(&table), records, hits);
    let hit = bench_now();
    let others = find_all(black_box(&table), records, misses);
    let missed = bench_now();
    let removed = churn(&mut table, records, order);
    let churned = bench_now();
    let walked_sum = walk(black_box(&table));
    let walked = bench_now();
    let copied = copy(black_box(&table));
    let cloned = bench_now();
    let pairs = time_pairs(&table, records);
    let start_of_retain = bench_now();
    let left = retain_half(&mut table, records);
    let retained = bench_now();
    let round = Round {
        insert: inserted - start,
        hit: hit - inserted,
        miss: missed - hit,
        churn: churned - missed,
        walk: walked - churned,
        clone: cloned - walked,
        clone_indexes: cloned - walked,
        retain: retained - start_of_retain,
        sum: found + others + removed + walked_sum + 2 * copied + left,
    };
    (round, pairs)
}

const PARTS: usize = 10;
// Those beside a table of pairs come last, and don't count for the average.
const PARTS_BESIDE_PAIRS: usize = 2;

/// The parts of a round, by name.
fn parts(round: &Round, pairs: &Pairs) -> [(&'static str, u64); PARTS] {
    [
        ("insert, growing", round.insert),
        ("find, hit", round.hit),
        ("find, miss", round.miss),
        ("remove and insert", round.churn),
        ("walk", round.walk),
        ("clone, value by value", round.clone),
        ("clone of the table of indexes", round.clone_indexes),
        ("retain half", round.retain),
        ("walk, beside a table of pairs", pairs.walk),
        ("clone of the table of indexes, beside a table of pairs", pairs.clone),
    ]
}

/// The least nanoseconds of each part over the rounds, of the table and of hashbrown's.
fn least(count: usize, rounds: usize) -> [[f64; PARTS]; 2] {
    let mut random = Random(7);
    let mut records: Vec<Record> = (0..count)
        .map(|number| Record { key: key_of(number), second: 0, value: (random.next() >> 40) as u32 })
        .collect();
    let mut hits: Vec<u32> = (0..count).map(key_of).collect();
    let mut misses: Vec<u32> = (count..2 * count).map(key_of).collect();
    let mut order: Vec<u32> = (0..count as u32).collect();
    let mut least = [[f64::MAX; PARTS]; 2];
    for _ in 0..rounds {
        random.shuffle(&mut hits);
        random.shuffle(&mut misses);
        random.shuffle(&mut order);
        let mut sums = [0; 2];
        for (which, least) in least.iter_mut().enumerate() {
            for (number, record) in records.iter_mut().enumerate() {
                record.key = key_of(number);
            }
            let (round, pairs) = if which == 0 {
                let (count, records) = (records.len(), records.as_mut_ptr());
                let (hits, misses, order) = (hits.as_ptr(), misses.as_ptr(), order.as_ptr());
                let round = unsafe { bench_round(records, count, hits, count, misses, count, order, count) };
                (round, Pairs { walk: round.walk, clone: round.clone_indexes })
            } else {
                hashbrown_round(&mut records, &hits, &misses, &order)
            };
            sums[which] = round.sum;
            for (least, (_, nanos)) in least.iter_mut().zip(parts(&round, &pairs)) {
                *least = least.min(nanos as f64 / count as f64);
            }
        }
        assert_eq!(sums[0], sums[1], "the answers differ");
    }
    least
}

fn main() {
    // So many rounds; twice as many on a busy machine do no harm.
    let scale: usize = std::env::args().nth(1).map_or(1, |word| word.parse().expect("a number"));
    shared::keep_memory();
    let sizes = [(1_000, 2_000 * scale), (100_000, 30 * scale), (1_000_000, 6 * scale)];
    let all: Vec<_> = sizes.iter().map(|&(count, rounds)| least(count, rounds)).collect();
    let names = parts(&Round::default(), &Pairs::default());
    println!("| ns an entry, table / hashbrown's: ratio | 1,000 | 100,000 | 1,000,000 |");
    println!("|---|---|---|---|");
    for (part, (name, _)) in names.iter().enumerate() {
        print!("| {name} |");
        for [ours, theirs] in &all {
            print!(" {:.1} / {:.1}: {:.2} |", ours[part], theirs[part], ours[part] / theirs[part]);
        }
        println!();
    }
    print!("| average of the ratios |");
    for [ours, theirs] in &all {
        let counted = PARTS - PARTS_BESIDE_PAIRS;
        let ratios = (0..counted).map(|part| ours[part] / theirs[part]);
        print!(" {:.2} |", ratios.sum::<f64>() / counted as f64);
    }
    println!();
}
