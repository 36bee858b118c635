//! How many bytes of stack the board entry needs: a thread runs on a stack that was painted before, and the lowest byte that is
//! not painted any more shows how far it came, counted from a local of the caller, so that the caller's frame may add a few words.
//! With the word `file` it writes the trace on which the trace program is measured.
mod traces;

use std::hint::black_box;
use std::io::Write;
use traces::{Kind, KINDS};

extern "C" {
    fn timonedra_serve(image: *mut u8, length: usize, page: u32) -> u32;
    fn pthread_attr_init(attr: *mut u64) -> i32;
    fn pthread_attr_setstack(attr: *mut u64, stack: *mut u8, size: usize) -> i32;
    fn pthread_create(thread: *mut u64, attr: *const u64, start: extern "C" fn(*mut u8) -> *mut u8, job: *mut u8) -> i32;
    fn pthread_join(thread: u64, result: *mut *mut u8) -> i32;
}

struct Job {
    image: Vec<u8>,
    pages: Vec<u32>,
    from: usize,
}

extern "C" fn work(lent: *mut u8) -> *mut u8 {
    let job = unsafe { &mut *lent.cast::<Job>() };
    let local = 0u8;
    job.from = black_box(&local) as *const u8 as usize;
    for &page in &job.pages {
        black_box(unsafe { timonedra_serve(job.image.as_mut_ptr(), job.image.len(), page) });
    }
    lent
}

const SIZE: usize = 1 << 20;
const PAINT: u8 = 0xa5;

/// The depth that these calls reach below their caller.
fn depth(image: &[u8], pages: &[u32]) -> usize {
    let mut room = vec![PAINT; SIZE + 4096];
    let skip = room.as_ptr().align_offset(4096);
    let stack = &mut room[skip..skip + SIZE];
    let mut job = Job { image: image.to_vec(), pages: pages.to_vec(), from: 0 };
    let mut attr = [0u64; 16];
    let mut thread = 0u64;
    let mut result = std::ptr::null_mut();
    let failed = unsafe {
        pthread_attr_init(attr.as_mut_ptr()) != 0
            || pthread_attr_setstack(attr.as_mut_ptr(), stack.as_mut_ptr(), SIZE) != 0
            || pthread_create(&mut thread, attr.as_ptr(), work, (&raw mut job).cast()) != 0
            || pthread_join(thread, &mut result) != 0
    };
    assert!(!failed, "no thread on the painted stack");
    let untouched = black_box(&*stack).iter().position(|&byte| byte != PAINT).unwrap_or(SIZE);
    job.from - (stack.as_ptr() as usize + untouched)
}

fn main() {
    if std::env::args().nth(1).as_deref() == Some("file") {
        let file = traces::file(1024, 64, &traces::requests(Kind::Uniform, 1024, 64, 30_000, 7));
        return std::io::stdout().write_all(&file).expect("standard output takes the file");
    }
    for (pages, slots) in [(1, 1), (64, 8), (1024, 64)] {
        let image = traces::image(pages, slots);
        let mut list: Vec<u32> = Vec::new();
        for kind in KINDS {
            if pages > 1 || kind == Kind::Uniform {
                list.extend(traces::requests(kind, pages, slots, 500, 7).iter().map(|&page| page as u32));
            }
        }
        list.push(pages as u32);
        println!("timonedra_serve, N={pages} k={slots}: {} bytes of stack", depth(&image, &list));
    }
}
