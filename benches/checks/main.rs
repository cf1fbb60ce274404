//! The checks of raw parts at growing sizes, beside std's sort of the same numbers: the least nanoseconds an entry over
//! some rounds. The chain goes through all slots at random, and the indexes stand at random.
use shared::{Random, bench_now};

#[path = "../shared.rs"]
mod shared;

#[repr(C)]
#[derive(Clone, Copy, Default)]
struct Round {
    slots: u64,
    compact: u64,
    gaps: u64,
    passed: u64,
}

unsafe extern "C" {
    // A slice is a pointer and a length.
    fn bench_round(links: *const u32, link_count: usize, head: u32, numbers: *const u32, count: usize) -> Round;
}

fn sort(numbers: &[u32]) -> u64 {
    let start = bench_now();
    let mut sorted = numbers.to_vec();
    sorted.sort_unstable();
    std::hint::black_box(&sorted);
    bench_now() - start
}

fn main() {
    let scale: u64 = std::env::args().nth(1).and_then(|it| it.parse().ok()).unwrap_or(1);
    shared::keep_memory();
    println!("{:>9} {:>9} {:>9} {:>9} {:>9}", "entries", "slots", "compact", "gaps", "sort");
    for count in [12_500u32, 25_000, 50_000, 100_000, 1_000_000] {
        let mut random = Random(7);
        let mut numbers: Vec<u32> = (0..count).collect();
        random.shuffle(&mut numbers);
        let mut links = vec![u32::MAX; count as usize];
        for pair in numbers.windows(2) {
            links[pair[0] as usize] = pair[1];
        }
        let mut best = [u64::MAX; 4];
        for _ in 0..scale * 2_000_000 / count as u64 {
            let head = numbers[0];
            let round = unsafe { bench_round(links.as_ptr(), links.len(), head, numbers.as_ptr(), numbers.len()) };
            assert_eq!(round.passed, 3);
            for (least, took) in best.iter_mut().zip([round.slots, round.compact, round.gaps, sort(&numbers)]) {
                *least = took.min(*least);
            }
        }
        let each = best.map(|nanos| nanos as f64 / count as f64);
        println!("{count:>9} {:>9.2} {:>9.2} {:>9.2} {:>9.2}", each[0], each[1], each[2], each[3]);
    }
}
