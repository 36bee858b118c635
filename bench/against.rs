//! Times two builds of the proved library, loaded side by side from the shared objects NOW and THEN, and compares every answer.
mod traces;
mod work;

use std::ffi::{c_char, c_void, CString};
use std::hint::black_box;
use std::process::{exit, Command};
use traces::KINDS;
use work::{rounds, timed, Work, CALLS, FEWER, REQUESTS, ROOM};

extern "C" {
    fn dlopen(file: *const c_char, flags: i32) -> *mut c_void;
    fn dlsym(library: *mut c_void, name: *const c_char) -> *mut c_void;
}

// RTLD_NOW; RTLD_LOCAL is 0.
const NOW: i32 = 2;

type Misses = extern "C" fn(*const u8, usize) -> u32;
type Text = extern "C" fn(*const u8, usize, *mut u8, usize) -> usize;
type Serve = extern "C" fn(*mut u8, usize, u32) -> u32;

/// The calls of one build.
struct Build {
    replay: Misses,
    checked: Misses,
    text: Text,
    serve: Serve,
}

fn word(text: &str) -> CString {
    CString::new(text).expect("a name without a zero byte")
}

impl Build {
    fn load(path: &str) -> Build {
        let library = unsafe { dlopen(word(path).as_ptr(), NOW) };
        let find = |name: &str| {
            let found = if library.is_null() { library } else { unsafe { dlsym(library, word(name).as_ptr()) } };
            if found.is_null() {
                eprintln!("{path} has no {name}");
                exit(2);
            }
            found
        };
        unsafe {
            Build {
                replay: std::mem::transmute::<*mut c_void, Misses>(find("timed_replay")),
                checked: std::mem::transmute::<*mut c_void, Misses>(find("timed_checked")),
                text: std::mem::transmute::<*mut c_void, Text>(find("timed_text")),
                serve: std::mem::transmute::<*mut c_void, Serve>(find("timonedra_serve")),
            }
        }
    }

    fn board(&self, work: &Work, image: &mut [u8]) -> u64 {
        work.board(|image, page| (self.serve)(image.as_mut_ptr(), image.len(), page), image)
    }

    fn text(&self, file: &[u8], out: &mut [u8]) -> usize {
        (self.text)(file.as_ptr(), file.len(), out.as_mut_ptr(), out.len())
    }

    /// Nanoseconds per request of a call, timed once.
    fn sample(&self, work: &Work, call: usize, image: &mut Vec<u8>, out: &mut [u8]) -> f64 {
        let misses = |misses: Misses, file: &[u8]| timed(|| misses(black_box(file.as_ptr()), file.len()));
        match call {
            0 => misses(self.replay, &work.file) / REQUESTS as f64,
            1 => misses(self.checked, &work.short) / FEWER as f64,
            2 => {
                image.clone_from(&work.image);
                timed(|| self.board(work, image)) / FEWER as f64
            }
            _ => timed(|| self.text(black_box(&work.file), black_box(&mut *out))) / REQUESTS as f64,
        }
    }

    /// Every answer of a trace: misses, board answers and image, and text in rooms that fit, just fit and are too short.
    fn answers(&self, work: &Work, length: usize) -> (u32, u32, u64, Vec<u8>, Vec<(usize, Vec<u8>)>) {
        let mut image = work.image.clone();
        let served = self.board(work, &mut image);
        let texts = [ROOM, length, length.saturating_sub(1)].map(|room| {
            let mut out = vec![7; room];
            (self.text(&work.file, &mut out), out)
        });
        let replayed = (self.replay)(work.file.as_ptr(), work.file.len());
        let checked = (self.checked)(work.short.as_ptr(), work.short.len());
        (replayed, checked, served, image, texts.to_vec())
    }
}

type Times = [[f64; 2]; 4];

/// One round: the nanoseconds of each trace, call and build, timed twice, now and then in turn. It goes over all traces.
fn round(works: &[Work], builds: &[Build; 2]) {
    let mut image = Vec::new();
    let mut out = vec![0; ROOM];
    for work in works {
        for call in 0..4 {
            let mut least = [f64::INFINITY; 2];
            for side in [0, 1, 1, 0] {
                least[side] = least[side].min(builds[side].sample(work, call, &mut image, &mut out));
            }
            println!("{} {}", least[0], least[1]);
        }
    }
}

/// The best of the rounds. Each is a process of its own: where the system puts stack and code is worth some percent.
fn best(works: &[Work], paths: &[String]) -> Vec<Times> {
    let mut least = vec![[[f64::INFINITY; 2]; 4]; works.len()];
    for _ in 0..rounds(9) {
        let child = Command::new(std::env::current_exe().expect("this program's path")).args(paths).arg("round").output();
        let text = String::from_utf8(child.expect("a process for the round").stdout).expect("numbers");
        let mut times = text.split_whitespace().map(|word| word.parse::<f64>().expect("a number"));
        for least in least.iter_mut().flatten().flatten() {
            *least = least.min(times.next().expect("a time for each call"));
        }
    }
    least
}

fn compare(works: &[Work], builds: &[Build; 2]) {
    for work in works {
        let length = builds[1].text(&work.file, &mut vec![0; ROOM]);
        if builds[0].answers(work, length) != builds[1].answers(work, length) {
            println!("MISMATCH: now and then answer otherwise on {} N={} k={}", work.kind.name(), work.pages, work.slots);
            exit(1);
        }
    }
}

/// The table, and the worst ratio of each call.
fn table(works: &[Work], times: &[Times]) -> [f64; 4] {
    println!("\nN=1024 k=64, ns per request, best of {}:\n", rounds(9));
    println!("| Call | Kind | now | then | now / then |");
    println!("|---|---|---:|---:|---:|");
    let mut worst = [0.0f64; 4];
    for (call, name) in CALLS.iter().enumerate() {
        for (work, times) in works.iter().zip(times) {
            let [now, then] = times[call];
            worst[call] = worst[call].max(now / then);
            println!("| {name} | {} | {now:.1} | {then:.1} | {:.3} |", work.kind.name(), now / then);
        }
    }
    worst
}

fn main() {
    let words: Vec<String> = std::env::args().skip(1).collect();
    let (paths, one) = match &words[..] {
        [_, _] => (&words[..], false),
        [_, _, word] if word == "round" => (&words[..2], true),
        _ => {
            eprintln!("usage: against NOW.so THEN.so");
            exit(2);
        }
    };
    let builds = [Build::load(&paths[0]), Build::load(&paths[1])];
    let works: Vec<Work> = KINDS.iter().map(|&kind| Work::new(kind, 1024, 64)).collect();
    if one {
        return round(&works, &builds);
    }
    compare(&works, &builds);
    let worst = table(&works, &best(&works, paths));
    let limit: f64 = std::env::var("LIMIT").ok().and_then(|text| text.parse().ok()).unwrap_or(1.05);
    println!("\nMisses, text bytes, board answers and images are equal. Worst ratio of the kinds, which may be {limit}:\n");
    for (name, worst) in CALLS.iter().zip(&worst) {
        println!("{name}: {worst:.3}{}", if *worst > limit { ", ABOVE THE LIMIT" } else { "" });
    }
    if worst.iter().any(|worst| *worst > limit) {
        exit(1);
    }
}
