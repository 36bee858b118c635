// The questions that the comparison asks: every kind, right and damaged, short and long,
// all of them from one seeded generator, so that a seed repeats them.

use crate::badlines;
use crate::files;
use crate::lines::{hex, list_text, record_text};
use crate::random::Random;
use crate::rules::{self, Run, PAGE_BYTES};
use crate::runs::{self, EDGES};

pub struct Question {
    pub kind: &'static str,
    pub line: Vec<u8>,
    // The least loads of the requests so far, where the answer's best must equal it.
    pub least: Option<u32>,
}

pub type Maker = fn(&mut Random, &mut Vec<String>);

// Each kind has a name, a weight in the random choice, and its maker.
pub const KINDS: [(&str, u32, Maker); 22] = [
    ("start", 1200, start),
    ("start at the limits", 20, start_at_limits),
    ("request", 800, request),
    ("request chain", 300, chain),
    ("request at the end", 150, request_at_end),
    ("trial", 500, trial),
    ("layer", 400, layer),
    ("certain", 400, certain),
    ("selection", 400, selection),
    ("sound", 600, sound),
    ("damaged run", 1400, damaged),
    ("flipped record", 400, flipped),
    ("fill", 450, fill),
    ("look", 450, look),
    ("readtrace", 700, files::read_trace),
    ("writetrace", 600, files::write_trace),
    ("readimage", 600, files::read_image),
    ("writeimage", 450, files::write_image),
    ("board", 700, files::board),
    ("30,000 requests", 6, files::many_requests),
    ("long line", 3, badlines::long_line),
    ("bad line", 900, badlines::bad_line),
];

pub const LEAST_LOADS: &str = "best is least loads";

// Leading zeros are allowed, so now and then a number has some.
pub fn number(random: &mut Random, value: u32) -> String {
    if random.chance(2) {
        let zeros = random.between(1, 12) as usize;
        return format!("{}{value}", "0".repeat(zeros));
    }
    value.to_string()
}

// Mostly a page of the run; else one that a cut to 8, 16 or 31 bits would make one of them.
pub fn page(random: &mut Random, n: u32) -> u32 {
    let inside = random.below(n);
    match random.below(20) {
        0 => n,
        1 => random.pick(&[n + 1, 1023, 1024, 1025]),
        2 => inside + random.pick(&[256, 1024, 65_536, 1 << 24, 1 << 31]),
        3 => random.pick(&EDGES),
        _ => inside,
    }
}

fn page_word(random: &mut Random, n: u32) -> String {
    let value = page(random, n);
    number(random, value)
}

// A page twice, one too high, or both at once, since then the order of refusals shows.
pub fn damage_pages(random: &mut Random, row: &mut [u32], n: u32) {
    let high = random.pick(&[n, n + 1, 1024, 65_535]).min(65_535);
    let count = row.len() as u32;
    if count > 0 {
        let at = random.below(count);
        let from = (at + 1 + random.below(count.max(2) - 1)) % count;
        let kind = random.below(3);
        if kind > 0 {
            row[at as usize] = row[from as usize];
        }
        if kind < 2 {
            row[random.below(count) as usize] = high;
        }
    }
}

fn damage_list(random: &mut Random, row: &mut Vec<u32>, n: u32) {
    let at = random.below(row.len() as u32 + 1) as usize;
    match random.below(7) {
        0 if at < row.len() => drop(row.remove(at)),
        1 => row.clear(),
        2 => row.insert(at, random.below(n.clamp(1, 65_536))),
        _ => damage_pages(random, row, n),
    }
}

fn damage_size(random: &mut Random, value: u32) -> u32 {
    match random.below(4) {
        0 => value.wrapping_add(1),
        1 => value.wrapping_sub(1),
        2 => value.wrapping_add(random.pick(&[65_536, 1 << 31])),
        _ => random.pick(&EDGES),
    }
}

pub fn damage_priorities(random: &mut Random, row: &mut Vec<u32>) {
    let last = random.pick(&[0, 7, 65_535]);
    match random.below(3) {
        0 => drop(row.pop()),
        1 => row.push(last),
        _ => row.clear(),
    }
}

// The words N, K, LIST and PRIORITIES of a start; up to two of them are damaged.
pub fn start_words(random: &mut Random, percent_damaged: u32) -> (runs::Beginning, String) {
    let size = runs::size(random);
    let mut begin = runs::beginning(random, size);
    let mut named = random.chance(25);
    while random.chance(percent_damaged) {
        match random.below(5) {
            0 => begin.n = damage_size(random, begin.n),
            1 => begin.k = damage_size(random, begin.k),
            2 | 3 => damage_list(random, &mut begin.list, begin.n.min(70_000)),
            _ => {
                named = false;
                damage_priorities(random, &mut begin.priorities);
            }
        }
    }
    if named && begin.n > 0 && begin.n <= 1024 {
        begin.priorities = (0..begin.n).map(rules::default_priority).collect();
    }
    let ranks = match named {
        true => "default".to_string(),
        false => list_text(&begin.priorities),
    };
    let list = list_text(&begin.list);
    let (n, k) = (number(random, begin.n), number(random, begin.k));
    (begin, format!("{n} {k} {list} {ranks}"))
}

fn start(random: &mut Random, out: &mut Vec<String>) {
    let (_, words) = start_words(random, 40);
    out.push(format!("start {words}"));
}

fn start_at_limits(random: &mut Random, out: &mut Vec<String>) {
    let n = random.pick(&[1023, 1024, 1024, 1025]);
    let k = random.pick(&[63, 64, 64, 65]);
    let list = runs::different_pages(random, n, k);
    let ranks = match random.below(3) {
        0 => "default".to_string(),
        1 => list_text(&runs::priorities(random, n)),
        _ => list_text(&runs::priorities(random, 1024)),
    };
    out.push(format!("start {n} {k} {} {ranks}", list_text(&list)));
}

fn request(random: &mut Random, out: &mut Vec<String>) {
    let run = runs::sound_run(random);
    let page = page_word(random, run.pages);
    out.push(format!("request {} {page}", record_text(&run)));
}

// Each next record is the one that the naive rules answered.
fn push_chain(random: &mut Random, mut run: Run, count: u32, out: &mut Vec<String>) {
    for _ in 0..count {
        let page = page(random, run.pages);
        out.push(format!("request {} {page}", record_text(&run)));
        match rules::request(&run, page) {
            Ok((next, _)) => run = next,
            Err(refusal) => assert!(refusal == 8 || refusal == 9, "a served run stays sound"),
        }
    }
}

fn chain(random: &mut Random, out: &mut Vec<String>) {
    let size = runs::size(random);
    let run = runs::started(&runs::beginning(random, size));
    let count = random.between(3, 12);
    push_chain(random, run, count, out);
}

fn request_at_end(random: &mut Random, out: &mut Vec<String>) {
    let served = random.pick(&[999_998, 999_999, 999_999, 1_000_000]);
    let run = runs::run_at_end(random, served);
    if random.chance(30) {
        let page = page_word(random, run.pages);
        out.push(format!("trial {} {page}", record_text(&run)));
    } else {
        push_chain(random, run, 3, out);
    }
}

fn trial(random: &mut Random, out: &mut Vec<String>) {
    let run = runs::sound_run(random);
    let page = page_word(random, run.pages);
    out.push(format!("trial {} {page}", record_text(&run)));
}

fn layer(random: &mut Random, out: &mut Vec<String>) {
    let run = runs::sound_run(random);
    let page = page_word(random, run.pages);
    out.push(format!("layer {} {page}", record_text(&run)));
}

fn certain(random: &mut Random, out: &mut Vec<String>) {
    let run = runs::sound_run(random);
    let page = page_word(random, run.pages);
    out.push(format!("certain {} {page}", record_text(&run)));
}

fn selection(random: &mut Random, out: &mut Vec<String>) {
    let run = runs::sound_run(random);
    out.push(format!("selection {}", record_text(&run)));
}

fn sound(random: &mut Random, out: &mut Vec<String>) {
    let run = match random.chance(50) {
        true => runs::sound_run(random),
        false => runs::damaged_run(random),
    };
    out.push(format!("sound {}", record_text(&run)));
}

fn area(random: &mut Random, k: u32) -> Vec<u8> {
    let right = PAGE_BYTES * k as usize;
    let length = match random.below(12) {
        0 => right - 1,
        1 => right + 1,
        2 => random.pick(&[0, 1, right - 64, right + 64, 2 * right]),
        _ => right,
    };
    random.bytes(length)
}

// Mostly a cached page: most calls on frames shall come through.
fn frame_page(random: &mut Random, run: &Run) -> u32 {
    if random.chance(60) && !run.slot_pages.is_empty() {
        return random.pick(&run.slot_pages);
    }
    page(random, run.pages)
}

pub fn fill_line(random: &mut Random, run: &Run) -> String {
    let page = frame_page(random, run);
    let area = area(random, run.slots);
    let length = random.pick(&[64, 64, 64, 64, 64, 64, 63, 65, 0, 128]);
    let bytes = random.bytes(length);
    let record = record_text(run);
    format!("fill {record} {page} {} {}", hex(&area), hex(&bytes))
}

pub fn look_line(random: &mut Random, run: &Run) -> String {
    let page = frame_page(random, run);
    let area = area(random, run.slots);
    format!("look {} {page} {}", record_text(run), hex(&area))
}

fn fill(random: &mut Random, out: &mut Vec<String>) {
    let run = runs::sound_run(random);
    out.push(fill_line(random, &run));
}

fn look(random: &mut Random, out: &mut Vec<String>) {
    let run = runs::sound_run(random);
    out.push(look_line(random, &run));
}

fn call_on(random: &mut Random, record: &str, n: u32) -> String {
    let page = page_word(random, n);
    match random.below(9) {
        0..=2 => format!("request {record} {page}"),
        3 => format!("trial {record} {page}"),
        4 => format!("layer {record} {page}"),
        5 => format!("certain {record} {page}"),
        6 => format!("selection {record}"),
        7 => format!("readimage {record}"),
        _ => format!("board {record} {page}"),
    }
}

fn damaged(random: &mut Random, out: &mut Vec<String>) {
    let run = runs::damaged_run(random);
    let line = match random.below(8) {
        0 => fill_line(random, &run),
        1 => look_line(random, &run),
        2 => files::write_image_line(random, &run),
        _ => call_on(random, &record_text(&run), run.pages),
    };
    out.push(line);
}

// One byte anywhere in the record is another one: a damaged header makes a bad line.
fn flipped(random: &mut Random, out: &mut Vec<String>) {
    let run = runs::sound_run(random);
    let mut bytes = rules::image_bytes(&run);
    let first = random.pick(&[0, 8, 36]);
    let at = random.between(first, bytes.len() as u32 - 1) as usize;
    bytes[at] ^= 1 << random.below(8);
    if random.chance(20) {
        bytes[at] = random.next() as u8;
    }
    let line = match random.below(8) {
        0 => format!("sound {}", hex(&bytes)),
        _ => call_on(random, &hex(&bytes), run.pages),
    };
    out.push(line);
}

// All requests of one small trace, each with the least loads of the requests up to it.
pub fn least_loads(random: &mut Random, out: &mut Vec<Question>) {
    let n = random.between(1, 6);
    let k = random.between(1, n.min(3));
    let begin = runs::beginning(random, (n, k));
    let mut run = runs::started(&begin);
    let mut requests = Vec::new();
    for _ in 0..random.between(1, 10) {
        let page = random.below(n);
        requests.push(page);
        out.push(Question {
            kind: LEAST_LOADS,
            line: format!("request {} {page}", record_text(&run)).into_bytes(),
            least: Some(rules::least_loads(n, k, &begin.list, &requests)),
        });
        run = rules::request(&run, page).expect("a page of the run").0;
    }
}

fn make(random: &mut Random, kind: usize, out: &mut Vec<Question>) {
    let (name, _, maker) = KINDS[kind];
    let mut made = Vec::new();
    maker(random, &mut made);
    out.extend(made.into_iter().map(|line| Question {
        kind: name,
        line: badlines::as_bytes(random, name, line),
        least: None,
    }));
}

fn weighted_kind(random: &mut Random) -> usize {
    let total: u32 = KINDS.iter().map(|kind| kind.1).sum();
    let mut left = random.below(total);
    for (at, kind) in KINDS.iter().enumerate() {
        if left < kind.1 {
            return at;
        }
        left -= kind.1;
    }
    0
}

// Questions until the count is reached; the first round has one of each kind.
pub fn batch(random: &mut Random, count: usize, each_kind: bool) -> Vec<Question> {
    let mut out = Vec::new();
    if each_kind {
        least_loads(random, &mut out);
        (0..KINDS.len()).for_each(|kind| make(random, kind, &mut out));
    }
    while out.len() < count {
        if random.chance(3) {
            least_loads(random, &mut out);
        } else {
            let kind = weighted_kind(random);
            make(random, kind, &mut out);
        }
    }
    out
}
