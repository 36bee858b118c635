// Random sizes, lists and runs for the questions: runs with a history, sound runs of
// other origin, and runs damaged in one of the clauses that make a run sound.

use crate::random::Random;
use crate::rules::{self, Pages, Priorities, Run};

// Numbers at which arithmetic in 16 or 32 bits would go wrong, or a limit lies.
pub const EDGES: [u32; 14] = [
    0,
    1,
    63,
    65,
    1023,
    1025,
    30_001,
    65_535,
    65_536,
    1_000_001,
    0x7fff_ffff,
    0x8000_0000,
    0xffff_fffe,
    0xffff_ffff,
];

pub struct Beginning {
    pub n: u32,
    pub k: u32,
    pub list: Vec<u32>,
    pub priorities: Vec<u32>,
}

pub fn small_size(random: &mut Random) -> (u32, u32) {
    let n = random.between(1, 8);
    (n, random.between(1, n.min(4)))
}

pub fn size(random: &mut Random) -> (u32, u32) {
    match random.below(1000) {
        0..=899 => small_size(random),
        900..=979 => {
            let n = random.between(9, 64);
            (n, random.between(1, n.min(16)))
        }
        980..=994 => {
            let n = random.between(65, 1024);
            (n, random.between(1, 64))
        }
        _ => (1024, 64),
    }
}

// Few different numbers make ties, which the page number then decides.
pub fn priorities(random: &mut Random, n: u32) -> Vec<u32> {
    let most = random.pick(&[0, 1, 3, 9, 300, 65_535]);
    (0..n).map(|_| random.between(0, most)).collect()
}

pub fn different_pages(random: &mut Random, n: u32, count: u32) -> Vec<u32> {
    let mut row: Vec<u32> = (0..n).collect();
    random.shuffle(&mut row);
    row.truncate(count as usize);
    row
}

pub fn beginning(random: &mut Random, (n, k): (u32, u32)) -> Beginning {
    let list = different_pages(random, n, k);
    let priorities = if random.chance(15) {
        (0..n).map(rules::default_priority).collect()
    } else {
        priorities(random, n)
    };
    Beginning {
        n,
        k,
        list,
        priorities,
    }
}

pub fn started(begin: &Beginning) -> Run {
    let ranks = Priorities::List(begin.priorities.clone());
    rules::start(begin.n, begin.k, &begin.list, &ranks).expect("a right beginning starts")
}

fn run_with_history(random: &mut Random) -> Run {
    let size = size(random);
    let mut run = started(&beginning(random, size));
    for _ in 0..random.below(3 * size.1 + 4) {
        let page = random.below(size.0);
        rules::serve_sound(&mut run, page).expect("a sound run serves its pages");
    }
    run
}

fn fill_counts(random: &mut Random, run: &mut Run) {
    let most = random.pick(&[0, 3, 9, 999_999, 1_000_000]);
    run.served = if random.chance(60) {
        most
    } else {
        random.between(0, most)
    };
    run.misses = random.between(0, run.served);
    run.hits = run.served - run.misses;
    run.best = random.between(0, run.misses);
    if random.chance(20) {
        run.best = run.misses;
    }
}

// The cached set follows from the layers, and any order in the slots is sound.
// Damaged layers can select too few pages: page 0 then keeps the slot list at its length.
fn fill_cached(random: &mut Random, run: &mut Run) {
    run.cached = rules::select(run);
    run.slot_pages = run.cached.iter().copied().collect();
    run.slot_pages.resize(run.slots as usize, 0);
    random.shuffle(&mut run.slot_pages);
}

fn run_of_other_origin(random: &mut Random) -> Run {
    let (n, k) = size(random);
    let mut run = Run::blank();
    run.pages = n;
    run.slots = k;
    run.priorities = priorities(random, n);
    let lowest = random.pick(&[0, 0, 0, k - 1]);
    let order = different_pages(random, n, n);
    for (place, page) in order.into_iter().enumerate() {
        let layer = match place as u32 {
            first if first < k => first + 1,
            _ => random.between(lowest, k - 1),
        };
        run.layers[layer as usize].insert(page);
    }
    fill_cached(random, &mut run);
    fill_counts(random, &mut run);
    run
}

pub fn sound_run(random: &mut Random) -> Run {
    if random.chance(50) {
        run_with_history(random)
    } else {
        run_of_other_origin(random)
    }
}

pub fn run_at_end(random: &mut Random, served: u32) -> Run {
    let mut run = sound_run(random);
    run.served = served;
    run.misses = random.pick(&[0, 1, served / 2, served - 1, served]);
    run.hits = served - run.misses;
    run.best = random.pick(&[0, run.misses / 2, run.misses]);
    run
}

fn put_in_layer(run: &mut Run, page: u32, layer: u32) {
    let old = run.layer_of(page);
    run.layers[old].remove(&page);
    run.layers[layer as usize].insert(page);
}

fn damage_layers(random: &mut Random, run: &mut Run) {
    let k = run.slots;
    let page = random.below(run.pages);
    let layer = match random.below(5) {
        0 => k,
        1 => k + 1,
        2 => random.between(0, k),
        3 => 127,
        _ => random.between(0, 127),
    };
    put_in_layer(run, page, layer);
    if random.chance(50) {
        fill_cached(random, run);
    }
}

// One layer loses all its pages to the one below.
fn empty_layer(random: &mut Random, run: &mut Run) {
    let layer = random.between(1, run.slots) as usize;
    let pages = std::mem::take(&mut run.layers[layer]);
    run.layers[layer - 1].extend(pages);
    if random.chance(50) {
        fill_cached(random, run);
    }
}

fn toggle(pages: &mut Pages, page: u32) {
    if !pages.remove(&page) {
        pages.insert(page);
    }
}

fn damage_marks(random: &mut Random, run: &mut Run) {
    let page = random.below(run.pages);
    toggle(&mut run.cached, page);
    if random.chance(30) {
        let other = random.below(run.pages);
        toggle(&mut run.cached, other);
    }
}

fn damage_slots(random: &mut Random, run: &mut Run) {
    let slot = random.below(run.slots) as usize;
    run.slot_pages[slot] = match random.below(4) {
        0 => run.pages,
        1 => random.pick(&[1023, 1024, 65_535, 0]),
        2 => run.slot_pages[random.below(run.slots) as usize],
        _ => random.below(run.pages),
    };
}

// Marks and slots agree with one another, but hold another page than the selection.
fn swap_cached(random: &mut Random, run: &mut Run) {
    let slot = random.below(run.slots) as usize;
    let page = random.below(run.pages);
    if !run.cached.contains(&page) {
        run.cached.remove(&run.slot_pages[slot]);
        run.cached.insert(page);
        run.slot_pages[slot] = page;
    }
}

fn damage_counts(random: &mut Random, run: &mut Run) {
    let edge = random.pick(&EDGES);
    match random.below(9) {
        0 => run.served = run.served.wrapping_add(random.pick(&[1, u32::MAX])),
        1 => run.hits = run.hits.wrapping_add(random.pick(&[1, u32::MAX])),
        2 => run.misses = run.misses.wrapping_add(random.pick(&[1, u32::MAX])),
        3 => run.best = run.misses.wrapping_add(random.pick(&[0, 1, u32::MAX])),
        4 => run.best = edge,
        5 => run.served = edge,
        6 => {
            run.served = random.pick(&[1_000_001, 1_000_000, edge]);
            run.hits = run.served - run.served.min(run.misses);
        }
        _ => {
            run.misses = edge.max(run.misses);
            run.hits = run.served.wrapping_sub(run.misses);
        }
    }
}

fn damage_priorities(random: &mut Random, run: &mut Run) {
    let page = random.below(run.pages) as usize;
    let other = random.below(run.pages) as usize;
    match random.below(3) {
        0 => run.priorities.swap(page, other),
        1 => run.priorities[page] = run.priorities[other],
        _ => run.priorities[page] = random.pick(&[0, 65_535]),
    }
}

pub fn damage(random: &mut Random, run: &mut Run) {
    match random.below(8) {
        0 | 1 => damage_layers(random, run),
        2 => empty_layer(random, run),
        3 => damage_marks(random, run),
        4 => damage_slots(random, run),
        5 => swap_cached(random, run),
        6 => damage_counts(random, run),
        _ => damage_priorities(random, run),
    }
}

// Often unsound, but a damage can also lead to another sound run.
pub fn damaged_run(random: &mut Random) -> Run {
    let mut run = sound_run(random);
    damage(random, &mut run);
    if random.chance(25) {
        damage(random, &mut run);
    }
    run
}
