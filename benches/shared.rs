//! What both benchmarks share: the records, the clock, and numbers at random.

#[repr(C)]
#[derive(Clone, Copy)]
pub struct Record {
    pub key: u32,
    pub second: u32,
    pub value: u32,
}

#[repr(C)]
struct Timespec {
    seconds: i64,
    nanos: i64,
}

unsafe extern "C" {
    fn clock_gettime(clock: i32, time: *mut Timespec) -> i32;
    fn mallopt(parameter: i32, value: i32) -> i32;
}

/// Memory that was given back stays with the allocator: else a part of a round takes the time of the pages that it is the
/// first to touch, which is the system's.
pub fn keep_memory() {
    const M_TRIM_THRESHOLD: i32 = -1;
    const M_MMAP_MAX: i32 = -4;
    unsafe {
        mallopt(M_TRIM_THRESHOLD, i32::MAX);
        mallopt(M_MMAP_MAX, 0);
    }
}

/// The nanoseconds that this thread has run.
#[unsafe(no_mangle)]
pub extern "C" fn bench_now() -> u64 {
    let mut time = Timespec { seconds: 0, nanos: 0 };
    unsafe { clock_gettime(3, &mut time) };
    time.seconds as u64 * 1_000_000_000 + time.nanos as u64
}

pub struct Random(pub u64);

impl Random {
    pub fn next(&mut self) -> u64 {
        self.0 = self.0.wrapping_add(0x9e37_79b9_7f4a_7c15);
        let mut z = self.0;
        z = (z ^ (z >> 30)).wrapping_mul(0xbf58_476d_1ce4_e5b9);
        z = (z ^ (z >> 27)).wrapping_mul(0x94d0_49bb_1331_11eb);
        z ^ (z >> 31)
    }

    pub fn shuffle(&mut self, xs: &mut [u32]) {
        for i in (1..xs.len()).rev() {
            xs.swap(i, (self.next() % (i as u64 + 1)) as usize);
        }
    }
}
