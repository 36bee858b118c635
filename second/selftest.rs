// The worked traces of document 01, which must come out of the naive rules themselves:
// a comparison with rules that are wrong would be worth nothing.

use crate::lines;
use crate::rules::{self, Event, Pages, Priorities, Run};

const TRACE_A: [u32; 6] = [4, 0, 3, 4, 4, 5];
const TEXT_A: &str = "pages 6 slots 3 requests 6
swap 4 2 0 1
swap 0 1 3 1
swap 3 0 1 1
hit 4 2 1
hit 4 2 1
swap 5 1 0 2
served 6 hits 2 misses 4 best 2
";
const EXAMPLE: &str =
    "0 020000000100000000000000000000000000000000000000240000002600000028000000810000004700cc01";

struct Checks {
    wrong: Vec<String>,
}

impl Checks {
    fn that(&mut self, holds: bool, name: &str) {
        if !holds {
            self.wrong.push(name.to_string());
        }
    }
}

fn started(n: u32, list: &[u32], priorities: &[u32]) -> Run {
    let ranks = Priorities::List(priorities.to_vec());
    rules::start(n, list.len() as u32, list, &ranks).expect("a worked trace starts")
}

fn start_a() -> Run {
    started(6, &[1, 3, 0], &[10, 40, 20, 30, 50, 5])
}

fn served(run: &Run, requests: &[u32]) -> Run {
    requests.iter().fold(run.clone(), |run, page| {
        let next = rules::request(&run, *page);
        next.expect("a worked request is served").0
    })
}

fn victims(run: &Run, requests: &[u32]) -> Vec<Option<u32>> {
    let count = 0..requests.len();
    count
        .map(|i| {
            let before = served(run, &requests[..i]);
            match rules::trial(&before, requests[i]) {
                Ok(answer) => match answer.event {
                    Event::Hit { .. } => None,
                    Event::Miss { victim, .. } => Some(victim),
                },
                Err(_) => None,
            }
        })
        .collect()
}

fn layers_are(run: &Run, from: usize, wanted: &[&[u32]]) -> bool {
    let same = |(at, pages): (usize, &&[u32])| {
        run.layers[from + at] == pages.iter().copied().collect::<Pages>()
    };
    wanted.iter().enumerate().all(same)
}

fn cached_is(run: &Run, wanted: &[u32]) -> bool {
    let pages: Pages = wanted.iter().copied().collect();
    run.cached == pages && rules::selection(run) == Ok(pages)
}

fn check_trace_a(checks: &mut Checks) {
    let list = [1, 3, 0];
    let priorities = [10, 40, 20, 30, 50, 5];
    let file = rules::trace_bytes(6, 3, &list, &priorities, &TRACE_A);
    checks.that(file.len() == 54, "length of trace A");
    checks.that(rules::play(&file) == TEXT_A, "text of trace A");
    let run = served(&start_a(), &TRACE_A[..1]);
    let layers = layers_are(&run, 1, &[&[1], &[0, 3], &[4]]);
    checks.that(layers && cached_is(&run, &[1, 3, 4]), "P1");
    let run = served(&start_a(), &TRACE_A[..2]);
    let layers = layers_are(&run, 1, &[&[1, 3], &[4], &[0]]);
    checks.that(layers && cached_is(&run, &[0, 1, 4]), "P2");
    let run = served(&start_a(), &TRACE_A[..3]);
    let layers = layers_are(&run, 0, &[&[1, 2, 5]]);
    checks.that(layers && cached_is(&run, &[0, 3, 4]), "P3");
    let run = served(&start_a(), &TRACE_A);
    let layers = layers_are(&run, 0, &[&[1, 2], &[0], &[3, 4], &[5]]);
    checks.that(layers && cached_is(&run, &[3, 4, 5]), "P4");
}

fn check_small_traces(checks: &mut Checks) {
    let run = started(3, &[0, 1], &[30, 20, 10]);
    let right = victims(&run, &[2, 1]) == [Some(1), Some(0)];
    checks.that(right && served(&run, &[2, 1]).best == 1, "P5");
    let run = started(3, &[0, 1], &[7, 7, 7]);
    checks.that(victims(&run, &[2]) == [Some(1)], "P6");
    for priorities in [[0, 0], [1, 9], [9, 1]] {
        let run = started(2, &[0], &priorities);
        let right = victims(&run, &[1, 1, 0]) == [Some(0), None, Some(1)];
        checks.that(right && served(&run, &[1, 1, 0]).best == 2, "P7");
    }
    let run = started(2, &[0, 1], &[0, 0]);
    let hit = victims(&run, &[0]) == [None] && served(&run, &[0]).hits == 1;
    let layers = layers_are(&served(&run, &[0]), 0, &[&[], &[1], &[0]]);
    checks.that(hit && layers, "P8");
}

fn check_refusals(checks: &mut Checks) {
    let mut run = start_a();
    checks.that(rules::request(&run, 6).err() == Some(8), "P9");
    run.served = rules::MOST_SERVED;
    run.hits = rules::MOST_SERVED;
    checks.that(rules::request(&run, 6).err() == Some(8), "P9 at the end");
    checks.that(rules::request(&run, 4).err() == Some(9), "9 at the end");
    run.served -= 1;
    run.hits -= 1;
    let last = served(&run, &[4]);
    let then = rules::request(&last, 4).err();
    checks.that(then == Some(9), "one more at 999,999, then 9");
}

fn check_limits(checks: &mut Checks) {
    let list: Vec<u32> = (0..64).collect();
    let longer: Vec<u32> = (0..65).collect();
    let start = |n, k, pages: &[u32]| rules::start(n, k, pages, &Priorities::Default);
    checks.that(start(1024, 64, &list).is_ok(), "1024 and 64 start");
    checks.that(start(1025, 64, &list).err() == Some(2), "1025 gives 2");
    checks.that(start(1024, 65, &longer).err() == Some(3), "65 gives 3");
    let table: Vec<u32> = (0..1024).map(rules::default_priority).collect();
    let different: Pages = table.iter().copied().collect();
    let ends = table[..4] == [71, 460, 849, 214] && table[1023] == 706;
    checks.that(ends && different.len() == 1024, "default table");
    let answer = lines::answer(b"start 2 1 0 default");
    checks.that(answer == EXAMPLE, "example line");
}

fn check_board(checks: &mut Checks) {
    let mut image = rules::image_bytes(&start_a());
    let packed: Vec<u32> = TRACE_A[..4]
        .iter()
        .map(|page| rules::board(&mut image, *page))
        .collect();
    let right = packed[0] == 67584 && packed[1] == 66563 && packed[3] == 2048;
    let after = rules::image_bytes(&served(&start_a(), &TRACE_A[..4]));
    let kept = image.clone();
    let refused = rules::board(&mut image, 6) == 134_217_728;
    checks.that(right && refused && image == after && image == kept, "P10");
}

fn check_least_loads(checks: &mut Checks) {
    for count in 0..=TRACE_A.len() {
        let run = served(&start_a(), &TRACE_A[..count]);
        let least = rules::least_loads(6, 3, &[1, 3, 0], &TRACE_A[..count]);
        checks.that(run.best == least, "least loads of trace A");
    }
}

// The names of the worked cases that came out wrong.
pub fn wrong_cases() -> Vec<String> {
    let mut checks = Checks { wrong: Vec::new() };
    check_trace_a(&mut checks);
    check_small_traces(&mut checks);
    check_refusals(&mut checks);
    check_limits(&mut checks);
    check_board(&mut checks);
    check_least_loads(&mut checks);
    checks.wrong
}
