// Makes a question or a trace that is answered differently as short as it can be found.
// Every step must make the input smaller, so the search ends, and it ends in time.

use crate::lines::{bytes, hex, list_text, record, record_text};
use crate::rules::{self, Pages, Run};
use std::time::{Duration, Instant};

const TIME: Duration = Duration::from_secs(40);
const MOST_STEPS: usize = 500;
const MOST_PAIRS: usize = 4000;
const MOST_BYTES: usize = 24_000_000;

type Words = Vec<Vec<u8>>;

fn measure(line: &[u8]) -> (usize, u64) {
    (line.len(), line.iter().map(|byte| u64::from(*byte)).sum())
}

// All parts of a row that could be left out, from halves to single places.
fn parts(length: usize) -> Vec<(usize, usize)> {
    let mut all = Vec::new();
    let mut size = length.div_ceil(2);
    while size > 0 && all.len() < MOST_STEPS {
        for from in (0..length).step_by(size) {
            all.push((from, length.min(from + size)));
        }
        size = if size == 1 { 0 } else { size.div_ceil(2) };
    }
    all
}

fn without<T: Clone>(row: &[T], (from, to): (usize, usize)) -> Vec<T> {
    [&row[..from], &row[to..]].concat()
}

fn lower(value: u32) -> Vec<u32> {
    vec![0, value / 2, value.saturating_sub(1)]
}

fn number_steps(word: &[u8]) -> Words {
    let text = std::str::from_utf8(word).unwrap_or("");
    match text.parse::<u32>() {
        Err(_) => Vec::new(),
        Ok(value) => lower(value)
            .iter()
            .map(|less| less.to_string().into_bytes())
            .collect(),
    }
}

fn entries(word: &[u8]) -> Option<Vec<u32>> {
    let text = std::str::from_utf8(word).ok()?;
    text.split(',').map(|entry| entry.parse().ok()).collect()
}

fn list_steps(word: &[u8]) -> Words {
    let Some(row) = entries(word) else {
        return Vec::new();
    };
    let mut steps: Vec<Vec<u32>> = parts(row.len())
        .into_iter()
        .map(|part| without(&row, part))
        .collect();
    for at in 0..row.len().min(MOST_STEPS / 3) {
        for less in lower(row[at]) {
            let mut other = row.clone();
            other[at] = less;
            steps.push(other);
        }
    }
    let text = |row: Vec<u32>| list_text(&row).into_bytes();
    steps.into_iter().map(text).collect()
}

fn bytes_steps(word: &[u8]) -> Words {
    let Some(row) = bytes(word) else {
        return Vec::new();
    };
    let mut steps: Vec<Vec<u8>> = Vec::new();
    for cut in [64, 3, 2, 1] {
        steps.push(row[..row.len().saturating_sub(cut)].to_vec());
    }
    steps.push(vec![0; row.len()]);
    for part in parts(row.len()) {
        steps.push(without(&row, part));
        let mut zeroed = row.clone();
        zeroed[part.0..part.1].fill(0);
        steps.push(zeroed);
    }
    steps.iter().map(|row| hex(row).into_bytes()).collect()
}

fn text_steps(word: &[u8]) -> Words {
    let all = parts(word.len());
    all.into_iter().map(|part| without(word, part)).collect()
}

fn renumber(page: u32, (from, to): (usize, usize)) -> Option<u32> {
    let (from, to) = (from as u32, to as u32);
    match page {
        below if below < from => Some(below),
        above if above >= to => Some(above - (to - from)),
        _ => None,
    }
}

fn without_pages(run: &Run, part: (usize, usize)) -> Run {
    let kept = |pages: &Pages| {
        let rest = pages.iter().filter_map(|page| renumber(*page, part));
        rest.collect::<Pages>()
    };
    let mut other = run.clone();
    other.pages -= (part.1 - part.0) as u32;
    other.layers = run.layers.iter().map(kept).collect();
    other.cached = kept(&run.cached);
    other.priorities = without(&run.priorities, part);
    for page in &mut other.slot_pages {
        *page = renumber(*page, part).unwrap_or(0);
    }
    other
}

// Layer i joins the one below and the layers above it come down; one slot goes.
fn without_slot(run: &Run, i: usize) -> Run {
    let mut other = run.clone();
    let joining = other.layers.remove(i);
    other.layers[i - 1].extend(joining);
    other.layers.push(Pages::new());
    other.slots -= 1;
    let gone = other.slot_pages.remove(i - 1);
    other.cached.remove(&gone);
    other
}

fn with_counts(run: &Run, counts: [u32; 4]) -> Run {
    let mut other = run.clone();
    [other.served, other.hits, other.misses, other.best] = counts;
    other
}

fn count_steps(run: &Run) -> Vec<Run> {
    let counts = [run.served, run.hits, run.misses, run.best];
    let mut steps = vec![with_counts(run, [0; 4])];
    for at in 0..4 {
        for less in lower(counts[at]) {
            let mut other = counts;
            other[at] = less;
            steps.push(with_counts(run, other));
            let sum = other[1].wrapping_add(other[2]);
            steps.push(with_counts(run, [sum, other[1], other[2], other[3]]));
        }
    }
    steps
}

fn page_steps(run: &Run) -> Vec<Run> {
    let mut steps = Vec::new();
    let mut flat = run.clone();
    flat.priorities.fill(0);
    steps.push(flat);
    for page in 0..run.pages.min(MOST_STEPS as u32 / 4) {
        let layer = run.layer_of(page);
        for to in [0, layer.saturating_sub(1)] {
            let mut other = run.clone();
            other.layers[layer].remove(&page);
            other.layers[to].insert(page);
            steps.push(other);
        }
        for less in lower(run.priorities[page as usize]) {
            let mut other = run.clone();
            other.priorities[page as usize] = less;
            steps.push(other);
        }
    }
    steps
}

// The same layers with the cached set that they select, so that sound runs stay sound.
fn repaired(run: &Run) -> Run {
    let mut other = run.clone();
    other.cached = rules::select(run);
    other.slot_pages = other.cached.iter().copied().collect();
    other.slot_pages.resize(run.slots as usize, 0);
    other
}

fn record_steps(word: &[u8]) -> Words {
    let Some(run) = record(word) else {
        return Vec::new();
    };
    let mut steps = count_steps(&run);
    steps.extend(page_steps(&run));
    steps.push(run);
    let fixed: Vec<Run> = steps.iter().map(repaired).collect();
    let all = steps.iter().chain(&fixed);
    all.map(|run| record_text(run).into_bytes()).collect()
}

// A readable trace loses pages, slots or requests and stays readable.
fn trace_steps(word: &[u8]) -> Words {
    let Some((file, trace)) =
        bytes(word).and_then(|file| rules::read_trace(&file).ok().map(|trace| (file, trace)))
    else {
        return Vec::new();
    };
    let requests = rules::trace_requests(&file, &trace);
    let run = &trace.run;
    let (n, k) = (run.pages, run.slots);
    let list = &run.slot_pages;
    let ranks = &run.priorities;
    let mut steps = Vec::new();
    for part in parts(requests.len()) {
        let fewer = without(&requests, part);
        steps.push(rules::trace_bytes(n, k, list, ranks, &fewer));
    }
    for fewer in [n / 2, n - 1] {
        let ranks = &ranks[..fewer as usize];
        steps.push(rules::trace_bytes(fewer, k, list, ranks, &requests));
    }
    for fewer in [k / 2, k - 1] {
        let list = &list[..fewer as usize];
        steps.push(rules::trace_bytes(n, fewer, list, ranks, &requests));
    }
    steps.iter().map(|file| hex(file).into_bytes()).collect()
}

fn word_steps(word: &[u8]) -> Words {
    let mut steps = vec![b"0".to_vec(), b"-".to_vec()];
    let kinds = [
        record_steps,
        trace_steps,
        number_steps,
        list_steps,
        bytes_steps,
        text_steps,
    ];
    for kind in kinds {
        let mut some = kind(word);
        some.truncate(MOST_STEPS);
        steps.extend(some);
    }
    steps
}

// A call on a record loses pages, and its page number moves with them; or it loses a slot,
// and the frame area behind it loses 64 bytes.
fn record_cuts(words: &[Vec<u8>]) -> Vec<Words> {
    let Some(run) = words.get(1).and_then(|word| record(word)) else {
        return Vec::new();
    };
    let page = words.get(2).and_then(|word| entries(word));
    let mut cuts = Vec::new();
    for part in parts(run.pages as usize) {
        let moved = page.as_ref().and_then(|row| renumber(row[0], part));
        let other = without_pages(&run, part);
        for run in [repaired(&other), other] {
            let mut line = words.to_vec();
            line[1] = record_text(&run).into_bytes();
            if let Some(page) = moved {
                line[2] = page.to_string().into_bytes();
            }
            cuts.push(line);
        }
    }
    for i in 1..=run.slots as usize {
        let other = without_slot(&run, i);
        for run in [repaired(&other), other] {
            cuts.extend(with_shorter_area(words, &run));
        }
    }
    cuts
}

fn with_shorter_area(words: &[Vec<u8>], run: &Run) -> Vec<Words> {
    let mut line = words.to_vec();
    line[1] = record_text(run).into_bytes();
    let mut cuts = vec![line.clone()];
    if let Some(area) = words.get(3).and_then(|word| bytes(word)) {
        let left = area.len().saturating_sub(64);
        line[3] = hex(&area[..left]).into_bytes();
        cuts.push(line);
    }
    cuts
}

// A start loses pages with their priorities, or slots with their start pages; a writer's
// buffer shrinks along, two bytes an entry.
fn start_cuts(words: &[Vec<u8>]) -> Vec<Words> {
    if words.len() < 5 {
        return Vec::new();
    }
    let rows: Option<Vec<Vec<u32>>> = words[1..4].iter().map(|word| entries(word)).collect();
    let Some(rows) = rows else {
        return Vec::new();
    };
    let (n, k, list) = (rows[0][0], rows[1][0], &rows[2]);
    let mut cuts = Vec::new();
    for fewer in [n / 2, n.saturating_sub(1)] {
        let gone = (n - fewer) as usize;
        let mut line = words.to_vec();
        line[1] = fewer.to_string().into_bytes();
        if let Some(row) = entries(&words[4]) {
            let left = row.len().saturating_sub(gone);
            line[4] = list_text(&row[..left]).into_bytes();
        }
        cuts.push(with_shorter_buffer(line, gone));
    }
    for (part, fewer) in parts(list.len()).into_iter().zip([k / 2, k - k.min(1)]) {
        let mut line = words.to_vec();
        line[2] = fewer.to_string().into_bytes();
        line[3] = list_text(&without(list, part)).into_bytes();
        cuts.push(with_shorter_buffer(line, part.1 - part.0));
    }
    cuts
}

fn with_shorter_buffer(mut line: Words, entries_gone: usize) -> Words {
    if let Some(buffer) = line.get(6).and_then(|word| bytes(word)) {
        let left = buffer.len().saturating_sub(2 * entries_gone);
        line[6] = hex(&buffer[..left]).into_bytes();
    }
    line
}

fn pairs(words: &[Vec<u8>], steps: &[Words]) -> Vec<Words> {
    let mut lines = Vec::new();
    for first in 0..words.len() {
        for second in first + 1..words.len() {
            for one in &steps[first] {
                for other in &steps[second] {
                    let mut line = words.to_vec();
                    line[first] = one.clone();
                    line[second] = other.clone();
                    lines.push(line);
                    if lines.len() >= MOST_PAIRS {
                        return lines;
                    }
                }
            }
        }
    }
    lines
}

fn candidates(line: &[u8], with_pairs: bool) -> Vec<Vec<u8>> {
    let split = line.split(|byte| *byte == b' ');
    let words: Words = split.map(<[u8]>::to_vec).collect();
    let steps: Vec<Words> = words.iter().map(|word| word_steps(word)).collect();
    let mut lines = record_cuts(&words);
    lines.extend(start_cuts(&words));
    for (at, some) in steps.iter().enumerate() {
        for step in some {
            let mut line = words.clone();
            line[at] = step.clone();
            lines.push(line);
        }
        lines.push(without(&words, (at, at + 1)));
    }
    if with_pairs {
        let few = steps.into_iter().map(|mut some| {
            some.truncate(60);
            some
        });
        lines.extend(pairs(&words, &few.collect::<Vec<_>>()));
    }
    smaller_only(line, lines)
}

fn smaller_only(line: &[u8], lines: Vec<Words>) -> Vec<Vec<u8>> {
    let now = measure(line);
    let mut total = 0;
    let mut all: Vec<Vec<u8>> = Vec::new();
    for words in lines {
        let other = words.join(&b' ');
        if measure(&other) < now && !other.contains(&b'\n') && total < MOST_BYTES {
            total += other.len();
            all.push(other);
        }
    }
    all.sort_by_cached_key(|line| measure(line));
    all.dedup();
    all
}

// `first_differing` gets candidates from the smallest up and names one that still differs.
pub fn question(
    line: &[u8],
    mut first_differing: impl FnMut(&[Vec<u8>]) -> Option<usize>,
) -> Vec<u8> {
    let mut best = line.to_vec();
    let mut with_pairs = false;
    let begin = Instant::now();
    while begin.elapsed() < TIME {
        let mut all = candidates(&best, with_pairs);
        match first_differing(&all) {
            Some(at) => {
                best = all.swap_remove(at);
                with_pairs = false;
            }
            None if with_pairs => break,
            None => with_pairs = true,
        }
    }
    best
}

// The file as a row of units that can be left out: its requests if it can be read, else bytes.
fn rebuilt(file: &[u8], keep: &[usize]) -> Vec<u8> {
    match rules::read_trace(file) {
        Err(_) => keep.iter().map(|at| file[*at]).collect(),
        Ok(trace) => {
            let requests = rules::trace_requests(file, &trace);
            let kept: Vec<u32> = keep.iter().map(|at| requests[*at]).collect();
            let run = &trace.run;
            let (list, ranks) = (&run.slot_pages, &run.priorities);
            rules::trace_bytes(run.pages, run.slots, list, ranks, &kept)
        }
    }
}

fn unit_count(file: &[u8]) -> usize {
    match rules::read_trace(file) {
        Err(_) => file.len(),
        Ok(trace) => trace.count as usize,
    }
}

// A readable trace cut off behind its first requests.
pub fn first_requests(file: &[u8], count: usize) -> Vec<u8> {
    let keep: Vec<usize> = (0..unit_count(file).min(count)).collect();
    rebuilt(file, &keep)
}

// Leaves out halves, then quarters, down to single requests, while the answers still differ.
pub fn trace(file: &[u8], mut differs: impl FnMut(&[u8]) -> bool) -> Vec<u8> {
    let mut keep: Vec<usize> = (0..unit_count(file)).collect();
    let mut size = keep.len().div_ceil(2);
    let begin = Instant::now();
    while size > 0 && begin.elapsed() < TIME {
        let mut from = 0;
        while from < keep.len() && begin.elapsed() < TIME {
            let fewer = without(&keep, (from, keep.len().min(from + size)));
            if differs(&rebuilt(file, &fewer)) {
                keep = fewer;
            } else {
                from += size;
            }
        }
        size = if size == 1 { 0 } else { size.div_ceil(2) };
    }
    rebuilt(file, &keep)
}
