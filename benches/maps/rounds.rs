//! Rounds over maps, ours and those of peers, and the tables that a run prints of two.

/// The nanoseconds of each part of a round, and a sum of its answers.
#[repr(C)]
#[derive(Clone, Copy)]
pub struct Round<const PARTS: usize> {
    pub nanos: [u64; PARTS],
    pub sum: u64,
}

impl<const PARTS: usize> Round<PARTS> {
    pub fn new() -> Self {
        Round { nanos: [0; PARTS], sum: 0 }
    }

    /// Adds what a part took and answered.
    pub fn add(&mut self, part: usize, nanos: u64, sum: u64) {
        self.nanos[part] = nanos;
        self.sum = self.sum.wrapping_add(sum);
    }
}

/// The least nanoseconds an item of each part, of each side: of ours and of the peer's.
pub type Least<const PARTS: usize, const SIDES: usize = 2> = [[f64; PARTS]; SIDES];

/// Runs some rounds of `count` items each. The closure makes one round of each side.
pub fn least<const PARTS: usize, const SIDES: usize>(
    count: usize,
    rounds: usize,
    mut each: impl FnMut() -> [Round<PARTS>; SIDES],
) -> Least<PARTS, SIDES> {
    let mut least = [[f64::MAX; PARTS]; SIDES];
    for _ in 0..rounds {
        let rounds = each();
        assert!(rounds.iter().all(|round| round.sum == rounds[0].sum), "the answers differ");
        for (least, round) in least.iter_mut().zip(rounds) {
            for (least, nanos) in least.iter_mut().zip(round.nanos) {
                *least = least.min(nanos as f64 / count as f64);
            }
        }
    }
    least
}

/// Prints the head of a table, which says whose figures it has.
pub fn print_head(whose: &str) {
    println!("| ns an item, {whose}: ratio | 1,000 | 100,000 | 1,000,000 |");
    println!("|---|---|---|---|");
}

/// Prints a row: of each size two figures, and their ratio.
pub fn print_row(name: &str, figures: impl Iterator<Item = [f64; 2]>) {
    print!("| {name} |");
    for [one, other] in figures {
        print!(" {one:.1} / {other:.1}: {:.2} |", one / other);
    }
    println!();
}
