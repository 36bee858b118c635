//! The traces that are timed: six kinds from one seeded generator, in the trace layout of document 01, and the stored run
//! that a trace starts from.

/// splitmix64.
pub struct Random(u64);

impl Random {
    pub fn new(seed: u64) -> Self {
        Random(seed)
    }

    pub fn next(&mut self) -> u64 {
        self.0 = self.0.wrapping_add(0x9e37_79b9_7f4a_7c15);
        let mut z = self.0;
        z = (z ^ (z >> 30)).wrapping_mul(0xbf58_476d_1ce4_e5b9);
        z = (z ^ (z >> 27)).wrapping_mul(0x94d0_49bb_1331_11eb);
        z ^ (z >> 31)
    }

    /// A number below n.
    pub fn below(&mut self, n: usize) -> usize {
        ((self.next() as u128 * n as u128) >> 64) as usize
    }

    /// The numbers below n in some order.
    fn shuffled(&mut self, n: usize) -> Vec<u16> {
        let mut list: Vec<u16> = (0..n as u16).collect();
        for i in (1..n).rev() {
            list.swap(i, self.below(i + 1));
        }
        list
    }
}

#[derive(Clone, Copy, PartialEq)]
pub enum Kind {
    Uniform,
    Zipf,
    Phases,
    Loops,
    Stack,
    Calm,
}

pub const KINDS: [Kind; 6] = [Kind::Uniform, Kind::Zipf, Kind::Phases, Kind::Loops, Kind::Stack, Kind::Calm];

impl Kind {
    #[allow(dead_code)]
    pub fn name(self) -> &'static str {
        match self {
            Kind::Uniform => "uniform",
            Kind::Zipf => "zipf",
            Kind::Phases => "phases",
            Kind::Loops => "loops",
            Kind::Stack => "stack",
            Kind::Calm => "calm",
        }
    }
}

/// The numbers 1/1, 1/2, ... 1/n summed up, as whole numbers, to draw a place by its weight.
fn harmonic(n: usize) -> Vec<u64> {
    let mut sum = 0;
    (1..=n as u64)
        .map(|i| {
            sum += (1 << 32) / i;
            sum
        })
        .collect()
}

fn drawn(sums: &[u64], random: &mut Random) -> usize {
    let at = random.below(sums[sums.len() - 1] as usize) as u64;
    sums.partition_point(|&sum| sum <= at)
}

/// The requests of a kind of trace.
pub fn requests(kind: Kind, pages: usize, slots: usize, count: usize, seed: u64) -> Vec<u16> {
    let mut random = Random::new(seed);
    let random = &mut random;
    let mut list = Vec::with_capacity(count);
    match kind {
        // Each page alike.
        Kind::Uniform => {
            while list.len() < count {
                list.push(random.below(pages) as u16);
            }
        }
        // The page at place r of a random order with weight 1/r.
        Kind::Zipf => {
            let order = random.shuffled(pages);
            let sums = harmonic(pages);
            while list.len() < count {
                list.push(order[drawn(&sums, random)]);
            }
        }
        // For 1,000 requests at a time one working set of one and a half times k pages, each of them alike.
        Kind::Phases => {
            let size = (slots + slots / 2).min(pages);
            while list.len() < count {
                let set = random.shuffled(pages);
                for _ in 0..1000.min(count - list.len()) {
                    list.push(set[random.below(size)]);
                }
            }
        }
        // For 2,000 requests at a time one cyclic scan over k/2 to 2k neighbouring pages.
        Kind::Loops => {
            while list.len() < count {
                let size = (slots / 2 + random.below(slots + slots / 2 + 1)).clamp(1, pages);
                let first = random.below(pages);
                for i in 0..2000.min(count - list.len()) {
                    list.push(((first + i % size) % pages) as u16);
                }
            }
        }
        // The page that was requested the d-th last, with weight 1/d.
        Kind::Stack => {
            let mut stack = random.shuffled(pages);
            let sums = harmonic(pages);
            while list.len() < count {
                let page = stack.remove(drawn(&sums, random));
                stack.insert(0, page);
                list.push(page);
            }
        }
        // Nine times in ten the page before once more, else any page.
        Kind::Calm => {
            let mut page = random.below(pages) as u16;
            while list.len() < count {
                if random.below(10) == 0 {
                    page = random.below(pages) as u16;
                }
                list.push(page);
            }
        }
    }
    list
}

fn default_priority(page: usize) -> u16 {
    ((389 * page + 71) % 1024) as u16
}

fn put32(bytes: &mut Vec<u8>, n: usize) {
    bytes.extend_from_slice(&(n as u32).to_le_bytes());
}

fn put16(bytes: &mut Vec<u8>, n: u16) {
    bytes.extend_from_slice(&n.to_le_bytes());
}

/// A trace file with the start list 0 to k-1 and the default priorities.
pub fn file(pages: usize, slots: usize, requests: &[u16]) -> Vec<u8> {
    let mut bytes = Vec::new();
    for n in [pages, slots, requests.len(), 24, 24 + 2 * slots, 24 + 2 * slots + 2 * pages] {
        put32(&mut bytes, n);
    }
    (0..slots).for_each(|page| put16(&mut bytes, page as u16));
    (0..pages).for_each(|page| put16(&mut bytes, default_priority(page)));
    requests.iter().for_each(|&page| put16(&mut bytes, page));
    bytes
}

/// The stored run with which such a trace starts.
pub fn image(pages: usize, slots: usize) -> Vec<u8> {
    let mut bytes = Vec::new();
    for n in [pages, slots, 0, 0, 0, 0, 36, 36 + pages, 36 + pages + 2 * slots] {
        put32(&mut bytes, n);
    }
    (0..pages).for_each(|page| bytes.push(if page < slots { 128 + page as u8 + 1 } else { 0 }));
    (0..slots).for_each(|page| put16(&mut bytes, page as u16));
    (0..pages).for_each(|page| put16(&mut bytes, default_priority(page)));
    bytes
}
