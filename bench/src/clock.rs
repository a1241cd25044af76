//! Time: samples of all sides in turn, and the least of each.

use std::time::Instant;

/// Nanoseconds of one call: by the clock, and of this thread's processor time.
#[derive(Clone, Copy, Debug)]
pub struct Time {
    pub wall: f64,
    pub cpu: f64,
}

#[repr(C)]
struct Timespec {
    seconds: i64,
    nanoseconds: i64,
}

unsafe extern "C" {
    fn clock_gettime(clock: i32, time: *mut Timespec) -> i32;
    fn mallopt(parameter: i32, value: i32) -> i32;
}

/// Lets the allocator keep what is freed, so that the original pays for no fresh page in a timed part.
pub fn keep_freed_memory() {
    const TRIM_THRESHOLD: i32 = -1;
    const MMAP_THRESHOLD: i32 = -3;
    // SAFETY: the C library's own numbers.
    let kept = unsafe { mallopt(TRIM_THRESHOLD, i32::MAX) + mallopt(MMAP_THRESHOLD, 32 << 20) };
    assert_eq!(kept, 2, "the allocator keeps freed memory");
}

fn thread_time() -> f64 {
    const CLOCK_THREAD_CPUTIME_ID: i32 = 3;
    let mut time = Timespec { seconds: 0, nanoseconds: 0 };
    // SAFETY: the struct is the C library's on 64-bit Linux.
    assert_eq!(unsafe { clock_gettime(CLOCK_THREAD_CPUTIME_ID, &mut time) }, 0);
    time.seconds as f64 * 1e9 + time.nanoseconds as f64
}

/// Runs the work; answers the time of each of its `calls`, and what it answers, which is freed later.
pub fn timed<T>(calls: usize, work: impl FnOnce() -> T) -> (Time, T) {
    let cpu = thread_time();
    let start = Instant::now();
    let answer = work();
    let wall = start.elapsed().as_nanos() as f64;
    let cpu = thread_time() - cpu;
    (Time { wall: wall / calls as f64, cpu: cpu / calls as f64 }, answer)
}

/// How long a line is measured, and what came of it over all lines.
pub struct Measure {
    /// Seconds of processor time.
    pub budget: f64,
    /// The fewest samples of a side.
    pub fewest: usize,
    /// The largest part by which the least time by the clock exceeds the least processor time.
    pub apart: f64,
}

impl Measure {
    /// Takes samples of each side in turn, and answers the least processor time of each: other work on the machine takes
    /// from the clock, but not from that.
    pub fn least<const N: usize>(&mut self, mut sides: [&mut dyn FnMut() -> Time; N]) -> [f64; N] {
        const AT_LEAST: usize = 15;
        let mut least = [Time { wall: f64::INFINITY, cpu: f64::INFINITY }; N];
        let (start, mut rounds) = (thread_time(), 0);
        while rounds < AT_LEAST || thread_time() - start < 1e9 * self.budget {
            for (side, least) in sides.iter_mut().zip(&mut least) {
                let time = side();
                *least = Time { wall: least.wall.min(time.wall), cpu: least.cpu.min(time.cpu) };
            }
            rounds += 1;
        }
        self.fewest = self.fewest.min(rounds);
        self.apart = least.iter().map(|time| time.wall / time.cpu - 1.0).fold(self.apart, f64::max);
        least.map(|time| time.cpu)
    }
}
