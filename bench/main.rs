//! Times the proved library beside Rust programs that do the same work, and compares every answer.
//!   bench            the table of kinds and the tables of growth
//!   bench kinds      the table of kinds alone
//!   bench grow       the tables of growth alone
//!   bench once KIND N K       every call once on every side, for counting instructions
//!   bench ours CALL KIND N K  one call of the library once, for finding where its instructions go
mod plain;
mod same;
mod traces;
mod work;

use std::hint::black_box;
use std::process::exit;
use traces::{Kind, KINDS};
use work::{rounds, timed, Work, CALLS, FEWER, REQUESTS, ROOM};

extern "C" {
    fn timed_replay(file: *const u8, length: usize) -> u32;
    fn timed_checked(file: *const u8, length: usize) -> u32;
    fn timed_text(file: *const u8, length: usize, out: *mut u8, room: usize) -> usize;
    fn timonedra_serve(image: *mut u8, length: usize, page: u32) -> u32;
}

// The library's calls, as Rust calls. Each lends whole slices.
fn our_replay(file: &[u8]) -> u32 {
    unsafe { timed_replay(file.as_ptr(), file.len()) }
}
fn our_checked(file: &[u8]) -> u32 {
    unsafe { timed_checked(file.as_ptr(), file.len()) }
}
fn our_text(file: &[u8], out: &mut [u8]) -> usize {
    unsafe { timed_text(file.as_ptr(), file.len(), out.as_mut_ptr(), out.len()) }
}
fn our_serve(image: &mut [u8], page: u32) -> u32 {
    unsafe { timonedra_serve(image.as_mut_ptr(), image.len(), page) }
}

const SIDES: [&str; 4] = ["ours", "plain", "flat", "same"];
const REPLAY: [fn(&[u8]) -> u32; 4] = [our_replay, plain::plain_replay, plain::flat_replay, same::same_replay];
const CHECKED: [fn(&[u8]) -> u32; 4] = [our_checked, plain::plain_checked, plain::flat_checked, same::same_checked];
const TEXT: [fn(&[u8], &mut [u8]) -> usize; 4] = [our_text, plain::plain_text, plain::flat_text, same::same_text];
const SERVE: [fn(&mut [u8], u32) -> u32; 4] = [our_serve, plain::plain_serve, plain::flat_serve, same::same_serve];

// The best of so many rounds, where ROUNDS does not say.
const USUAL: usize = 5;

fn mismatch(call: &str, side: usize, kind: Kind, pages: usize, slots: usize) -> ! {
    println!("MISMATCH: {call} of {} differs from ours on {} N={pages} k={slots}", SIDES[side], kind.name());
    exit(1);
}

impl Work {
    /// Every call on every side; ends the program where answers differ. Answers the misses.
    fn compare(&self) -> u32 {
        let (kind, pages, slots) = (self.kind, self.pages, self.slots);
        let misses = our_replay(&self.file);
        let short = our_checked(&self.short);
        let mut text = vec![0; ROOM];
        let length = our_text(&self.file, &mut text);
        let mut image = self.image.clone();
        let answers = self.board(our_serve, &mut image);
        if length == 0 || short != our_replay(&self.short) {
            mismatch("checked or text", 0, kind, pages, slots);
        }
        let last = String::from_utf8_lossy(&text[..length]).lines().last().unwrap_or("").to_string();
        if !last.contains(&format!("misses {misses} ")) || u32::from_le_bytes([image[16], image[17], image[18], image[19]]) != short {
            mismatch("misses of text or board", 0, kind, pages, slots);
        }
        self.room(&text[..length]);
        for side in 1..4 {
            if REPLAY[side](&self.file) != misses {
                mismatch("replay", side, kind, pages, slots);
            }
            if CHECKED[side](&self.short) != short {
                mismatch("checked", side, kind, pages, slots);
            }
            let mut other = vec![0; ROOM];
            if TEXT[side](&self.file, &mut other) != length || other[..length] != text[..length] {
                mismatch("text", side, kind, pages, slots);
            }
            let mut other = self.image.clone();
            if self.board(SERVE[side], &mut other) != answers || other != image {
                mismatch("board", side, kind, pages, slots);
            }
        }
        misses
    }

    /// The library's text in a buffer that it just fits, and in one a byte shorter, which stays as it was.
    fn room(&self, text: &[u8]) {
        let mut fitting = vec![7; text.len()];
        let mut short = vec![7; text.len() - 1];
        if our_text(&self.file, &mut fitting) != text.len()
            || fitting != text
            || our_text(&self.file, &mut short) != 0
            || short.iter().any(|&byte| byte != 7)
        {
            mismatch("text in little room", 0, self.kind, self.pages, self.slots);
        }
    }
}

/// Nanoseconds per request of one call on one side, timed once.
fn sample(work: &Work, call: usize, side: usize, image: &mut Vec<u8>, out: &mut [u8]) -> f64 {
    match call {
        0 => timed(|| REPLAY[side](black_box(&work.file))) / REQUESTS as f64,
        1 => timed(|| CHECKED[side](black_box(&work.short))) / FEWER as f64,
        2 => {
            image.clone_from(&work.image);
            timed(|| work.board(SERVE[side], image)) / FEWER as f64
        }
        _ => timed(|| TEXT[side](black_box(&work.file), black_box(&mut *out))) / REQUESTS as f64,
    }
}

/// The best of the rounds for each trace, call and side. A round goes over all of them, so that a time of other load spoils one
/// round and not one trace.
fn best(works: &[Work], calls: &[usize]) -> Vec<[[f64; 4]; 4]> {
    let mut least = vec![[[f64::INFINITY; 4]; 4]; works.len()];
    let mut image = Vec::new();
    let mut out = vec![0; ROOM];
    for _ in 0..rounds(USUAL) {
        for (work, least) in works.iter().zip(&mut least) {
            for &call in calls {
                for side in 0..4 {
                    least[call][side] = least[call][side].min(sample(work, call, side, &mut image, &mut out));
                }
            }
        }
    }
    least
}

fn row(call: &str, kind: Kind, times: [f64; 4]) {
    println!(
        "| {call} | {} | {:.0} | {:.0} | {:.0} | {:.0} | {:.2} | {:.2} | {:.2} |",
        kind.name(),
        times[0],
        times[1],
        times[2],
        times[3],
        times[0] / times[1],
        times[0] / times[2],
        times[0] / times[3]
    );
}

fn kinds() {
    for (pages, slots) in [(1024, 64), (64, 8)] {
        println!("\nN={pages} k={slots}, ns per request, best of {}. ours: the proved library. plain: plain Rust. flat: the same, with", rounds(USUAL));
        println!("the pass over the layers spelt without a jump. same: Rust with our algorithm.\n");
        println!("| Call | Kind | ours | plain | flat | same | ours / plain | ours / flat | ours / same |");
        println!("|---|---|---:|---:|---:|---:|---:|---:|---:|");
        let works: Vec<Work> = KINDS.iter().map(|&kind| Work::new(kind, pages, slots)).collect();
        let misses: Vec<u32> = works.iter().map(|work| work.compare()).collect();
        let times = best(&works, &[0, 1, 2, 3]);
        for (call, name) in CALLS.iter().enumerate() {
            for (work, times) in works.iter().zip(&times) {
                row(name, work.kind, times[call]);
            }
        }
        print!("\nBoard entry / checked request, ours:");
        for (i, work) in works.iter().enumerate() {
            print!(" {} {:.2}", work.kind.name(), times[i][2][0] / times[i][1][0]);
        }
        print!("\nMisses per 100 requests:");
        for (i, work) in works.iter().enumerate() {
            print!(" {} {:.1}", work.kind.name(), misses[i] as f64 * 100.0 / REQUESTS as f64);
        }
        println!("\nMisses, text bytes, board answers and images are equal on all sides.");
        if pages == 1024 {
            targets(&times);
        }
    }
}

/// The targets beside the worst ratio of the kinds. The board entry's is to our own checked request.
fn targets(times: &[[[f64; 4]; 4]]) {
    let worst = |call: usize, side: usize| times.iter().map(|t| t[call][0] / t[call][side]).fold(0.0, f64::max);
    println!("\nWorst ratio of the kinds, N=1024 k=64, and the most it may be:\n");
    println!("| Call | may be of plain | of plain | of flat | may be of same | of same |");
    println!("|---|---:|---:|---:|---:|---:|");
    for (call, most) in [(0, "0.60"), (1, "0.60"), (2, "none"), (3, "0.75")] {
        let (plain, flat, same) = (worst(call, 1), worst(call, 2), worst(call, 3));
        println!("| {} | {most} | {plain:.2} | {flat:.2} | 1.15 | {same:.2} |", CALLS[call]);
    }
    let board = times.iter().map(|t| t[2][0] / t[1][0]).fold(0.0, f64::max);
    println!("\nThe board entry may take 2.00 of a checked request and takes at worst {board:.2}.");
}

fn grow() {
    let table = |sizes: &[(usize, usize)]| {
        println!("| N | k | step, ours | step, plain | step, flat | checked, ours | checked, plain | checked, flat |");
        println!("|---:|---:|---:|---:|---:|---:|---:|---:|");
        let works: Vec<Work> = sizes.iter().map(|&(pages, slots)| Work::new(Kind::Uniform, pages, slots)).collect();
        for work in &works {
            work.compare();
        }
        let all = best(&works, &[0, 1]);
        for (work, [step, request, ..]) in works.iter().zip(&all) {
            println!(
                "| {} | {} | {:.0} | {:.0} | {:.0} | {:.0} | {:.0} | {:.0} |",
                work.pages, work.slots, step[0], step[1], step[2], request[0], request[1], request[2]
            );
        }
        let (first, last) = (&all[0], &all[all.len() - 1]);
        println!(
            "\nFrom the first row to the last our step takes {:.1} times as long and our checked request {:.1} times.",
            last[0][0] / first[0][0],
            last[1][0] / first[1][0]
        );
    };
    println!("\nGrowth with N, uniform traces, ns per request:\n");
    table(&[(64, 64), (128, 64), (256, 64), (512, 64), (1024, 64)]);
    println!("\nGrowth with k, uniform traces, ns per request:\n");
    table(&[(1024, 1), (1024, 2), (1024, 4), (1024, 8), (1024, 16), (1024, 32), (1024, 64)]);
}

fn named(kind: &str, pages: &str, slots: &str) -> Work {
    let Some(&kind) = KINDS.iter().find(|k| k.name() == kind) else {
        eprintln!("no kind {kind}");
        exit(2);
    };
    Work::new(kind, pages.parse().unwrap_or(1024), slots.parse().unwrap_or(64))
}

/// One call of one side, once; nothing of the side `none`. For a program that counts instructions.
fn one(side: &str, call: &str, work: Work) {
    let mut out = vec![0; ROOM];
    let mut image = work.image.clone();
    let Some(side) = SIDES.iter().position(|name| *name == side) else {
        return drop(black_box((work, out, image)));
    };
    match call {
        "replay" => drop(black_box(REPLAY[side](black_box(&work.file)))),
        "checked" => drop(black_box(CHECKED[side](black_box(&work.short)))),
        "text" => drop(black_box(TEXT[side](black_box(&work.file), &mut out))),
        _ => drop(black_box(work.board(SERVE[side], &mut image))),
    }
}

fn main() {
    let words: Vec<String> = std::env::args().skip(1).collect();
    let words: Vec<&str> = words.iter().map(|word| word.as_str()).collect();
    match words[..] {
        [] => {
            kinds();
            grow();
        }
        ["kinds"] => kinds(),
        ["grow"] => grow(),
        [side, call, kind, pages, slots] => one(side, call, named(kind, pages, slots)),
        _ => {
            eprintln!("usage: bench [kinds | grow | SIDE CALL KIND N K]");
            exit(2);
        }
    }
}
