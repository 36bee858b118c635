//! What is timed and how, for both benchmarks: the traces of a kind with the image that they start from, and the thread's clock.
use crate::traces::{self, Kind};
use std::hint::black_box;

extern "C" {
    fn clock_gettime(clock: i32, time: &mut [i64; 2]) -> i32;
}

const THREAD_CPUTIME: i32 = 3;

pub const CALLS: [&str; 4] = ["sound step", "checked request", "board entry", "play to text"];
pub const REQUESTS: usize = 30_000;
// The calls that test the whole run get the first requests of the trace, on every side the same.
pub const FEWER: usize = 3_000;
pub const ROOM: usize = 3_000_208;

/// How many rounds the best is of: ROUNDS, or else so many.
pub fn rounds(usual: usize) -> usize {
    std::env::var("ROUNDS").ok().and_then(|text| text.parse().ok()).unwrap_or(usual)
}

/// The traces of a kind, and the image with which they start.
pub struct Work {
    pub kind: Kind,
    pub pages: usize,
    pub slots: usize,
    pub requests: Vec<u16>,
    pub file: Vec<u8>,
    pub short: Vec<u8>,
    pub image: Vec<u8>,
}

impl Work {
    pub fn new(kind: Kind, pages: usize, slots: usize) -> Work {
        let seed = 1 + kind as u64 + 1000 * pages as u64 + 1_000_000 * slots as u64;
        let requests = traces::requests(kind, pages, slots, REQUESTS, seed);
        let file = traces::file(pages, slots, &requests);
        let short = traces::file(pages, slots, &requests[..FEWER]);
        Work { kind, pages, slots, requests, file, short, image: traces::image(pages, slots) }
    }

    /// Serves the first requests to an image in place, and answers the answers added up in order.
    pub fn board(&self, serve: impl Fn(&mut [u8], u32) -> u32, image: &mut [u8]) -> u64 {
        let mut sum: u64 = 0;
        for &page in &self.requests[..FEWER] {
            sum = sum.wrapping_mul(31).wrapping_add(serve(black_box(&mut *image), page as u32) as u64);
        }
        sum
    }
}

/// The nanoseconds that this thread has had a processor, by Linux on 64 bits: other load takes none of them.
fn now() -> f64 {
    let mut time = [0i64; 2];
    unsafe { clock_gettime(THREAD_CPUTIME, &mut time) };
    time[0] as f64 * 1e9 + time[1] as f64
}

pub fn timed<T>(call: impl FnOnce() -> T) -> f64 {
    let begin = now();
    black_box(call());
    now() - begin
}
