//! Plain Rust: the same rules as a good programmer would write them down without thinking of proofs. The run is changed in
//! place. Each page has its layer and its slot in tables, so a hit is found at once; a miss counts the cached pages of each
//! layer over the slots, looks for j, and goes over the slots once more for the lowest-ranking page up to layer j; the layers
//! move in one pass over the pages.
//!
//! That pass is timed in two spellings. `plain` says `if *layer >= from { *layer -= 1 }`, the first that comes to mind, which
//! rustc compiles into a jump for each page. `flat` says `*layer -= (*layer >= from) as u8`, which it compiles into vectors.
//! Nothing else differs between the two.
//!
//! The test of soundness goes by the clauses of document 01 and leaves at the first that fails. It counts the pages of each
//! layer in one pass, compares slots and slot table in both directions, and builds the selection: it sorts the pages by layer
//! (by their counts, O(N)), takes them up layer by layer into a heap of the j highest, and asks whether each page of the heap
//! is in a slot. It is O(N log k), and nearly O(N), since most pages do not outrank the least of the heap.
//!
//! Numbers are written by hand. No unsafe code.

const MAX_PAGES: usize = 1024;
const MAX_SLOTS: usize = 64;
const MAX_SERVED: u32 = 1_000_000;
const NO_SLOT: u8 = 255;
const NO_PAGE: u16 = 65535;

pub enum Event {
    Hit { slot: usize },
    Miss { slot: usize, victim: usize },
    Refused { number: u8 },
}

pub struct Run {
    pages: usize,
    slots: usize,
    served: u32,
    hits: u32,
    misses: u32,
    best: u32,
    layer: [u8; MAX_PAGES],
    slot_of: [u8; MAX_PAGES],
    priority: [u16; MAX_PAGES],
    held: [u16; MAX_SLOTS],
}

/// A min-heap of the ranks of at most 64 pages.
struct Heap {
    ranks: [u32; MAX_SLOTS],
    len: usize,
}

impl Heap {
    fn push(&mut self, rank: u32) {
        let mut at = self.len;
        self.len += 1;
        self.ranks[at] = rank;
        while at > 0 && self.ranks[at] < self.ranks[(at - 1) / 2] {
            self.ranks.swap(at, (at - 1) / 2);
            at = (at - 1) / 2;
        }
    }

    fn replace_least(&mut self, rank: u32) {
        let ranks = &mut self.ranks[..self.len];
        let mut at = 0;
        ranks[0] = rank;
        loop {
            let mut child = 2 * at + 1;
            if child >= ranks.len() {
                return;
            }
            if child + 1 < ranks.len() && ranks[child + 1] < ranks[child] {
                child += 1;
            }
            if ranks[at] <= ranks[child] {
                return;
            }
            ranks.swap(at, child);
            at = child;
        }
    }
}

/// A number that is the greater, the higher a page ranks.
fn rank(priority: u16, page: usize) -> u32 {
    (priority as u32) << 16 | (65535 - page as u32)
}

fn u16_at(bytes: &[u8], at: usize) -> u16 {
    u16::from_le_bytes([bytes[at], bytes[at + 1]])
}

fn u32_at(bytes: &[u8], at: usize) -> u32 {
    u32::from_le_bytes([bytes[at], bytes[at + 1], bytes[at + 2], bytes[at + 3]])
}

fn limits(pages: usize, slots: usize) -> Result<(), u8> {
    if !(1..=MAX_PAGES).contains(&pages) {
        return Err(2);
    }
    if !(1..=MAX_SLOTS).contains(&slots) || slots > pages {
        return Err(3);
    }
    Ok(())
}

impl Run {
    fn empty(pages: usize, slots: usize) -> Run {
        Run {
            pages,
            slots,
            served: 0,
            hits: 0,
            misses: 0,
            best: 0,
            layer: [0; MAX_PAGES],
            slot_of: [NO_SLOT; MAX_PAGES],
            priority: [0; MAX_PAGES],
            held: [NO_PAGE; MAX_SLOTS],
        }
    }

    /// The layer up to which a miss of a page of layer i looks for its victim.
    fn reach(&self, i: usize) -> Option<usize> {
        if i == 0 {
            return Some(self.slots);
        }
        let mut counts = [0usize; MAX_SLOTS + 1];
        for &page in &self.held[..self.slots] {
            counts[self.layer[page as usize] as usize] += 1;
        }
        let mut sum: usize = counts[..i].iter().sum();
        for (j, count) in counts.iter().enumerate().take(self.slots + 1).skip(i) {
            sum += count;
            if sum == j {
                return Some(j);
            }
        }
        None
    }

    /// The slot of the lowest-ranking cached page up to layer j.
    fn lowest(&self, j: usize) -> Option<usize> {
        let mut least = u32::MAX;
        let mut slot = None;
        for (s, &page) in self.held[..self.slots].iter().enumerate() {
            let page = page as usize;
            if self.layer[page] as usize <= j {
                let rank = rank(self.priority[page], page);
                if rank < least {
                    least = rank;
                    slot = Some(s);
                }
            }
        }
        slot
    }

    /// The layers after a request of a page of layer i.
    fn move_layers<const FLAT: bool>(&mut self, page: usize, i: u8) {
        let from = if i == 0 { self.slots as u8 } else { i };
        for layer in &mut self.layer[..self.pages] {
            if FLAT {
                *layer -= (*layer >= from) as u8;
            } else if *layer >= from {
                *layer -= 1;
            }
        }
        self.layer[page] = self.slots as u8;
    }

    /// A request to a sound run.
    fn step<const FLAT: bool>(&mut self, page: usize) -> Event {
        if page >= self.pages {
            return Event::Refused { number: 8 };
        }
        if self.served >= MAX_SERVED {
            return Event::Refused { number: 9 };
        }
        let i = self.layer[page];
        let slot = self.slot_of[page];
        let event = if slot != NO_SLOT {
            self.hits += 1;
            Event::Hit { slot: slot as usize }
        } else {
            let Some(slot) = self.reach(i as usize).and_then(|j| self.lowest(j)) else {
                return Event::Refused { number: 17 };
            };
            let victim = self.held[slot] as usize;
            self.slot_of[victim] = NO_SLOT;
            self.slot_of[page] = slot as u8;
            self.held[slot] = page as u16;
            self.misses += 1;
            Event::Miss { slot, victim }
        };
        self.served += 1;
        self.best += (i == 0) as u32;
        self.move_layers::<FLAT>(page, i);
        event
    }

    /// The pages of the layers 1 to k, layer by layer, and the places at which the layers begin; None where the clauses on
    /// the layers fail.
    fn by_layer(&self) -> Option<([u16; MAX_PAGES], [usize; MAX_SLOTS + 2])> {
        let mut counts = [0usize; MAX_SLOTS + 1];
        for &layer in &self.layer[..self.pages] {
            if layer as usize > self.slots {
                return None;
            }
            counts[layer as usize] += 1;
        }
        if counts[self.slots] != 1 || counts[1..=self.slots].contains(&0) {
            return None;
        }
        let mut begin = [0; MAX_SLOTS + 2];
        for j in 1..=self.slots {
            begin[j + 1] = begin[j] + counts[j];
        }
        let mut next = begin;
        let mut order = [0; MAX_PAGES];
        for (page, &layer) in self.layer[..self.pages].iter().enumerate() {
            if layer > 0 {
                order[next[layer as usize]] = page as u16;
                next[layer as usize] += 1;
            }
        }
        Some((order, begin))
    }

    fn is_sound(&self) -> bool {
        if limits(self.pages, self.slots).is_err()
            || self.served > MAX_SERVED
            || self.hits > self.served
            || self.served - self.hits != self.misses
            || self.best > self.misses
        {
            return false;
        }
        if self.layer[self.pages..].iter().any(|&layer| layer != 0)
            || self.priority[self.pages..].iter().any(|&priority| priority != 0)
            || self.slot_of[self.pages..].iter().any(|&slot| slot != NO_SLOT)
            || self.held[self.slots..].iter().any(|&page| page != NO_PAGE)
        {
            return false;
        }
        // Each slot holds a page that is said to be in it, so no page stands twice; and no other page is said to be in a slot.
        for (s, &page) in self.held[..self.slots].iter().enumerate() {
            if page as usize >= self.pages || self.slot_of[page as usize] as usize != s {
                return false;
            }
        }
        if self.slot_of[..self.pages].iter().filter(|&&slot| slot != NO_SLOT).count() != self.slots {
            return false;
        }
        let Some((order, begin)) = self.by_layer() else {
            return false;
        };
        let mut best = Heap { ranks: [0; MAX_SLOTS], len: 0 };
        for j in 1..=self.slots {
            for &page in &order[begin[j]..begin[j + 1]] {
                let rank = rank(self.priority[page as usize], page as usize);
                if best.len < j {
                    best.push(rank);
                } else if rank > best.ranks[0] {
                    best.replace_least(rank);
                }
            }
        }
        best.len == self.slots
            && best.ranks[..best.len].iter().all(|&rank| self.slot_of[65535 - (rank & 65535) as usize] != NO_SLOT)
    }

    /// A request to any run.
    fn request<const FLAT: bool>(&mut self, page: usize) -> Event {
        if !self.is_sound() {
            return Event::Refused { number: 1 };
        }
        self.step::<FLAT>(page)
    }

    fn from_image(image: &[u8]) -> Result<Run, u8> {
        if image.len() < 36 {
            return Err(13);
        }
        let pages = u32_at(image, 0) as usize;
        let slots = u32_at(image, 4) as usize;
        limits(pages, slots)?;
        let offsets = [u32_at(image, 24), u32_at(image, 28), u32_at(image, 32)];
        if offsets != [36, 36 + pages as u32, 36 + pages as u32 + 2 * slots as u32] {
            return Err(15);
        }
        if image.len() != 36 + 3 * pages + 2 * slots {
            return Err(13);
        }
        let mut run = Run::empty(pages, slots);
        run.served = u32_at(image, 8);
        run.hits = u32_at(image, 12);
        run.misses = u32_at(image, 16);
        run.best = u32_at(image, 20);
        let (marks, rest) = image[36..].split_at(pages);
        let (held, priorities) = rest.split_at(2 * slots);
        for (s, pair) in held.chunks_exact(2).enumerate() {
            let page = u16::from_le_bytes([pair[0], pair[1]]);
            if page as usize >= pages {
                return Err(1);
            }
            run.held[s] = page;
            run.slot_of[page as usize] = s as u8;
        }
        for (priority, pair) in run.priority.iter_mut().zip(priorities.chunks_exact(2)) {
            *priority = u16::from_le_bytes([pair[0], pair[1]]);
        }
        for ((layer, slot), &mark) in run.layer.iter_mut().zip(&run.slot_of).zip(marks) {
            *layer = mark & 127;
            if (mark & 128 != 0) != (*slot != NO_SLOT) {
                return Err(1);
            }
        }
        if !run.is_sound() {
            return Err(1);
        }
        Ok(run)
    }

    /// Writes what a request can have changed: the counts, the marks and the slots.
    fn write_changes(&self, image: &mut [u8]) {
        for (i, n) in [self.served, self.hits, self.misses, self.best].into_iter().enumerate() {
            image[8 + 4 * i..12 + 4 * i].copy_from_slice(&n.to_le_bytes());
        }
        let (marks, rest) = image[36..].split_at_mut(self.pages);
        for ((mark, &layer), &slot) in marks.iter_mut().zip(&self.layer).zip(&self.slot_of) {
            *mark = layer | ((slot != NO_SLOT) as u8) << 7;
        }
        for (pair, page) in rest.chunks_exact_mut(2).zip(&self.held[..self.slots]) {
            pair.copy_from_slice(&page.to_le_bytes());
        }
    }

    /// The started run of a trace file, and its requests.
    fn from_trace(file: &[u8]) -> Result<(Run, &[u8]), u8> {
        if file.len() < 24 {
            return Err(13);
        }
        let pages = u32_at(file, 0) as usize;
        let slots = u32_at(file, 4) as usize;
        let requests = u32_at(file, 8) as usize;
        limits(pages, slots)?;
        if requests > 30000 {
            return Err(14);
        }
        let begin = 24 + 2 * slots + 2 * pages;
        let offsets = [u32_at(file, 12), u32_at(file, 16), u32_at(file, 20)];
        if offsets != [24, 24 + 2 * slots as u32, begin as u32] {
            return Err(15);
        }
        if file.len() != begin + 2 * requests {
            return Err(13);
        }
        let mut run = Run::empty(pages, slots);
        for s in 0..slots {
            run.held[s] = u16_at(file, 24 + 2 * s);
            if run.held[s] as usize >= pages {
                return Err(5);
            }
        }
        for s in 0..slots {
            let page = run.held[s] as usize;
            if run.slot_of[page] != NO_SLOT {
                return Err(6);
            }
            run.slot_of[page] = s as u8;
            run.layer[page] = s as u8 + 1;
        }
        for q in 0..pages {
            run.priority[q] = u16_at(file, 24 + 2 * slots + 2 * q);
        }
        Ok((run, &file[begin..]))
    }
}

/// The requests of a trace file.
fn pages_of(requests: &[u8]) -> impl Iterator<Item = usize> + '_ {
    requests.chunks_exact(2).map(|pair| u16::from_le_bytes([pair[0], pair[1]]) as usize)
}

fn replay<const FLAT: bool>(file: &[u8]) -> u32 {
    let Ok((mut run, requests)) = Run::from_trace(file) else {
        return 0;
    };
    for page in pages_of(requests) {
        run.step::<FLAT>(page);
    }
    run.misses
}

fn checked<const FLAT: bool>(file: &[u8]) -> u32 {
    let Ok((mut run, requests)) = Run::from_trace(file) else {
        return 0;
    };
    for page in pages_of(requests) {
        run.request::<FLAT>(page);
    }
    run.misses
}

fn serve<const FLAT: bool>(image: &mut [u8], page: u32) -> u32 {
    let mut run = match Run::from_image(image) {
        Ok(run) => run,
        Err(number) => return (number as u32) << 24,
    };
    let answer = match run.step::<FLAT>(page as usize) {
        Event::Refused { number } => return (number as u32) << 24,
        Event::Hit { slot } => (slot as u32) << 10,
        Event::Miss { slot, victim } => victim as u32 | (slot as u32) << 10 | 1 << 16,
    };
    run.write_changes(image);
    answer
}

/// A buffer that is filled from the start.
struct Text<'a> {
    out: &'a mut [u8],
    len: usize,
}

impl Text<'_> {
    fn word(&mut self, word: &[u8]) {
        self.out[self.len..self.len + word.len()].copy_from_slice(word);
        self.len += word.len();
    }

    /// A space and a number.
    fn number(&mut self, mut n: u32) {
        let mut digits = [0; 11];
        let mut at = digits.len();
        loop {
            at -= 1;
            digits[at] = b'0' + (n % 10) as u8;
            n /= 10;
            if n == 0 {
                break;
            }
        }
        at -= 1;
        digits[at] = b' ';
        self.word(&digits[at..]);
    }
}

fn text<const FLAT: bool>(file: &[u8], out: &mut [u8]) -> usize {
    let mut text = Text { out, len: 0 };
    let (mut run, requests) = match Run::from_trace(file) {
        Ok(read) => read,
        Err(number) => {
            text.word(b"refused");
            text.number(number as u32);
            text.word(b"\n");
            return text.len;
        }
    };
    text.word(b"pages");
    text.number(run.pages as u32);
    text.word(b" slots");
    text.number(run.slots as u32);
    text.word(b" requests");
    text.number(requests.len() as u32 / 2);
    text.word(b"\n");
    for page in pages_of(requests) {
        match run.step::<FLAT>(page) {
            Event::Hit { slot } => {
                text.word(b"hit");
                text.number(page as u32);
                text.number(slot as u32);
                text.number(run.best);
            }
            Event::Miss { slot, victim } => {
                text.word(b"swap");
                text.number(page as u32);
                text.number(slot as u32);
                text.number(victim as u32);
                text.number(run.best);
            }
            Event::Refused { number } => {
                text.word(b"refused");
                text.number(page as u32);
                text.number(number as u32);
            }
        }
        text.word(b"\n");
    }
    text.word(b"served");
    text.number(run.served);
    text.word(b" hits");
    text.number(run.hits);
    text.word(b" misses");
    text.number(run.misses);
    text.word(b" best");
    text.number(run.best);
    text.word(b"\n");
    text.len
}

// Each call under a name of its own, which a counter of instructions finds.
#[no_mangle]
#[inline(never)]
pub extern "Rust" fn plain_replay(file: &[u8]) -> u32 {
    replay::<false>(file)
}
#[no_mangle]
#[inline(never)]
pub extern "Rust" fn plain_checked(file: &[u8]) -> u32 {
    checked::<false>(file)
}
#[no_mangle]
#[inline(never)]
pub extern "Rust" fn plain_serve(image: &mut [u8], page: u32) -> u32 {
    serve::<false>(image, page)
}
#[no_mangle]
#[inline(never)]
pub extern "Rust" fn plain_text(file: &[u8], out: &mut [u8]) -> usize {
    text::<false>(file, out)
}
#[no_mangle]
#[inline(never)]
pub extern "Rust" fn flat_replay(file: &[u8]) -> u32 {
    replay::<true>(file)
}
#[no_mangle]
#[inline(never)]
pub extern "Rust" fn flat_checked(file: &[u8]) -> u32 {
    checked::<true>(file)
}
#[no_mangle]
#[inline(never)]
pub extern "Rust" fn flat_serve(image: &mut [u8], page: u32) -> u32 {
    serve::<true>(image, page)
}
#[no_mangle]
#[inline(never)]
pub extern "Rust" fn flat_text(file: &[u8], out: &mut [u8]) -> usize {
    text::<true>(file, out)
}
