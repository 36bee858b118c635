// Questions on the two readers, the two writers and the board entry, and whole trace
// files for the trace program: headers off by one, lengths off by one, noisy buffers.

use crate::lines::{hex, list_text, record_text};
use crate::questions::{self, number, page};
use crate::random::Random;
use crate::rules::{self, Run};
use crate::runs::{self, Beginning, EDGES};

fn requests(random: &mut Random, n: u32, count: u32) -> Vec<u32> {
    let stray = random.chance(30);
    (0..count)
        .map(|_| match stray && random.chance(10) {
            true => page(random, n) & 65_535,
            false => random.below(n),
        })
        .collect()
}

fn bytes_of(begin: &Beginning, requests: &[u32]) -> Vec<u8> {
    let (n, k) = (begin.n, begin.k);
    rules::trace_bytes(n, k, &begin.list, &begin.priorities, requests)
}

// Off by one, at an edge, or equal to the right number in the low bits alone.
fn other_number(random: &mut Random, value: u32) -> u32 {
    match random.below(5) {
        0 => value.wrapping_add(1),
        1 => value.wrapping_sub(1),
        2 => value.wrapping_add(random.pick(&[1 << 8, 1 << 16, 1 << 30, 1 << 31])),
        3 => random.pick(&EDGES),
        _ => random.next() as u32,
    }
}

fn damage_header(random: &mut Random, bytes: &mut [u8], fields: u32) {
    let at = 4 * random.below(fields) as usize;
    if bytes.len() < at + 4 {
        return;
    }
    let mut field = [0; 4];
    field.copy_from_slice(&bytes[at..at + 4]);
    let other = other_number(random, u32::from_le_bytes(field));
    bytes[at..at + 4].copy_from_slice(&other.to_le_bytes());
}

fn damage_length(random: &mut Random, bytes: &mut Vec<u8>, header: usize) {
    let noise = random.next() as u8;
    match random.below(6) {
        0 | 1 => drop(bytes.pop()),
        2 | 3 => bytes.push(noise),
        4 => bytes.truncate(random.pick(&[0, header - 1, header, header + 1])),
        _ => {
            let keep = random.below(bytes.len() as u32 + 1) as usize;
            bytes.truncate(keep);
        }
    }
}

fn damage_bytes(random: &mut Random, bytes: &mut Vec<u8>, header: usize) {
    let fields = (header / 4) as u32;
    match random.below(10) {
        0..=4 => damage_header(random, bytes, fields),
        5..=7 => damage_length(random, bytes, header),
        8 if !bytes.is_empty() => {
            let at = random.below(bytes.len() as u32) as usize;
            bytes[at] = random.next() as u8;
        }
        _ => {
            let length = random.pick(&[0, 1, 23, 24, 35, 36, 40, 54]);
            *bytes = random.bytes(length);
        }
    }
}

// A trace file, often damaged in one place or more; its start list can be wrong too.
pub fn trace_file(random: &mut Random, count: u32, percent_damaged: u32) -> Vec<u8> {
    let size = runs::size(random);
    let mut begin = runs::beginning(random, size);
    if random.chance(percent_damaged / 3) {
        questions::damage_pages(random, &mut begin.list, begin.n);
    }
    let requests = requests(random, begin.n, count);
    let mut bytes = bytes_of(&begin, &requests);
    while random.chance(percent_damaged) {
        damage_bytes(random, &mut bytes, rules::TRACE_HEADER);
    }
    bytes
}

// The largest sizes, full of requests.
pub fn full_trace(random: &mut Random, count: u32) -> Vec<u8> {
    let begin = runs::beginning(random, (1024, 64));
    let requests = requests(random, begin.n, count);
    bytes_of(&begin, &requests)
}

// A trace in which requests come back soon, so that all layers are in use.
pub fn returning_trace(random: &mut Random, count: u32) -> Vec<u8> {
    let begin = runs::beginning(random, (1024, 64));
    let mut row: Vec<u32> = Vec::new();
    for at in 0..count {
        let back = random.between(1, 150);
        if at > 200 && random.chance(80) {
            row.push(row[(at - back) as usize]);
        } else {
            row.push(random.below(begin.n));
        }
    }
    bytes_of(&begin, &row)
}

pub fn read_trace(random: &mut Random, out: &mut Vec<String>) {
    let count = random.below(10);
    let bytes = trace_file(random, count, 45);
    out.push(format!("readtrace {}", hex(&bytes)));
}

fn buffer(random: &mut Random, right: usize) -> Vec<u8> {
    let length = match random.below(8) {
        0 => right.saturating_sub(1),
        1 => right + 1,
        2 => random.pick(&[0, 1, 24, 36, right / 2, right + 70]),
        _ => right,
    };
    random.bytes(length)
}

pub fn write_trace(random: &mut Random, out: &mut Vec<String>) {
    let (begin, words) = questions::start_words(random, 25);
    let count = random.below(10);
    let requests = requests(random, begin.n.clamp(1, 65_536), count);
    let right = 24 + 2 * (begin.list.len() + begin.priorities.len() + requests.len());
    let buffer = buffer(random, right);
    let requests = list_text(&requests);
    out.push(format!("writetrace {words} {requests} {}", hex(&buffer)));
}

pub fn read_image(random: &mut Random, out: &mut Vec<String>) {
    let run = runs::sound_run(random);
    let mut bytes = rules::image_bytes(&run);
    while random.chance(50) {
        damage_bytes(random, &mut bytes, rules::IMAGE_HEADER);
    }
    out.push(format!("readimage {}", hex(&bytes)));
}

pub fn write_image_line(random: &mut Random, run: &Run) -> String {
    let right = rules::image_bytes(run).len();
    let buffer = buffer(random, right);
    format!("writeimage {} {}", record_text(run), hex(&buffer))
}

pub fn write_image(random: &mut Random, out: &mut Vec<String>) {
    let run = runs::sound_run(random);
    out.push(write_image_line(random, &run));
}

pub fn board(random: &mut Random, out: &mut Vec<String>) {
    let run = match random.chance(75) {
        true => runs::sound_run(random),
        false => runs::damaged_run(random),
    };
    let mut bytes = rules::image_bytes(&run);
    while random.chance(20) {
        damage_bytes(random, &mut bytes, rules::IMAGE_HEADER);
    }
    let page = page(random, run.pages);
    let page = number(random, page);
    out.push(format!("board {} {page}", hex(&bytes)));
}

fn write_line(begin: &Beginning, requests: &[u32], buffer: &[u8]) -> String {
    let (n, k) = (begin.n, begin.k);
    let (list, ranks) = (list_text(&begin.list), list_text(&begin.priorities));
    let (requests, buffer) = (list_text(requests), hex(buffer));
    format!("writetrace {n} {k} {list} {ranks} {requests} {buffer}")
}

// Traces at their longest and one request beyond, read and written; then one request
// beyond beside a wrong start or a short buffer, since the order of refusals shows there.
pub fn many_requests(random: &mut Random, out: &mut Vec<String>) {
    let count = random.pick(&[29_999, 30_000, 30_000, 30_001]);
    let size = runs::small_size(random);
    let mut begin = runs::beginning(random, size);
    let mut requests = requests(random, begin.n, count);
    let bytes = bytes_of(&begin, &requests);
    out.push(format!("readtrace {}", hex(&bytes)));
    let length = bytes.len() - random.pick(&[0, 0, 1, 2]);
    out.push(write_line(&begin, &requests, &random.bytes(length)));
    requests.resize(30_001, 0);
    match random.below(4) {
        0 => questions::damage_pages(random, &mut begin.list, begin.n),
        1 => questions::damage_priorities(random, &mut begin.priorities),
        2 => begin.k = random.pick(&[0, begin.n + 1]),
        _ => (),
    }
    out.push(write_line(&begin, &requests, &[]));
}
