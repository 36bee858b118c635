//! Rust with our algorithm: what the crates do, with the same tables and the same passes, in safe Rust. By slots it keeps the
//! layer and the key of the page in each, so that the searches of a miss go over two short arrays without jumps; the layers
//! sink in one pass without jumps; soundness is tested in flat passes and by the certificate, in O(N + k). The run is changed
//! in place. A replay keeps the layers and keys of the slots from request to request, and so does the text of a trace; the
//! checked request and the board entry compute them from the tables.

const MAX_SERVED: u32 = 1_000_000;
const NO_PAGE: u16 = 65535;
const NO_KEY: u32 = u32::MAX;
const AFRESH: u8 = 4;

pub enum Event {
    Hit { slot: usize },
    Miss { slot: usize, victim: usize },
    Refused { number: u8 },
}

pub struct Run {
    pages: usize,
    slots: usize,
    served: u32,
    hits: u32,
    misses: u32,
    best: u32,
    layer: [u8; 1024],
    priority: [u16; 1024],
    held: [u16; 64],
}

/// By slots, the layers and the keys of the pages in them.
struct Seats {
    near: [u8; 64],
    keys: [u32; 64],
}

fn key(priority: u16, page: u16) -> u32 {
    priority as u32 * 65536 + (65535 - page as u32)
}

fn page_of(key: u32) -> u16 {
    (65535 - key % 65536) as u16
}

fn lower(from: u8, x: u8) -> u8 {
    if from <= x { x - 1 } else { x }
}

// One flat pass, as the library's: the lowest slot that holds the page, 64 where none does.
fn find(held: &[u16], page: u16) -> Option<usize> {
    let mut at = 64u8;
    for (s, &entry) in held.iter().enumerate() {
        at = at.min(if entry == page { s as u8 } else { 64 });
    }
    (at < 64).then_some(at as usize)
}

fn count_to(near: &[u8], j: u8) -> usize {
    near.iter().map(|&layer| (layer <= j) as u8).sum::<u8>() as usize
}

fn lowest(near: &[u8], keys: &[u32], j: u8) -> u32 {
    near.iter().zip(keys).fold(NO_KEY, |least, (&layer, &key)| least.min(if layer <= j { key } else { NO_KEY }))
}

fn reach_on(near: &[u8], slots: u8, from: u8) -> Option<u8> {
    let mut sums = [0u8; 256];
    for &layer in near {
        sums[layer as usize] += 1;
    }
    let mut n = count_to(near, from);
    let mut j = from;
    loop {
        if slots < j {
            return None;
        }
        if n == j as usize {
            return Some(j);
        }
        j += 1;
        n += sums[j as usize] as usize;
    }
}

/// The smallest j from `from` on such that j slots hold a page of a layer up to j.
fn reach(near: &[u8], slots: u8, from: u8) -> Option<u8> {
    let mut j = from;
    loop {
        if j > slots {
            return None;
        }
        if AFRESH <= j - from {
            return reach_on(near, slots, j);
        }
        if count_to(near, j) == j as usize {
            return Some(j);
        }
        j += 1;
    }
}

impl Seats {
    fn of(run: &Run) -> Seats {
        let mut seats = Seats { near: [0; 64], keys: [0; 64] };
        for ((near, key), &page) in seats.near.iter_mut().zip(&mut seats.keys).zip(&run.held[..run.slots]) {
            *near = run.layer[page as usize];
            *key = self::key(run.priority[page as usize], page);
        }
        seats
    }

    fn victim(&self, slots: usize, i: u8) -> Option<u16> {
        let near = &self.near[..slots];
        let j = if i == 0 { slots as u8 } else { reach(near, slots as u8, i)? };
        Some(page_of(lowest(near, &self.keys[..slots], j)))
    }
}

fn limits_refusal(pages: usize, slots: usize) -> u8 {
    if pages < 1 || 1024 < pages {
        return 2;
    }
    if slots < 1 || 64 < slots || pages < slots {
        return 3;
    }
    0
}

fn u16_at(bytes: &[u8], at: usize) -> u16 {
    u16::from_le_bytes([bytes[at], bytes[at + 1]])
}

fn u32_at(bytes: &[u8], at: usize) -> u32 {
    u32::from_le_bytes([bytes[at], bytes[at + 1], bytes[at + 2], bytes[at + 3]])
}

/// By layers, the least key up to the first full layer from it on.
// For each j, how many slots hold a page of a layer up to j, and the least key of those.
fn tables(near: &[u8], keys: &[u32], slots: usize) -> ([u8; 65], [u32; 65]) {
    let mut sums = [0u8; 256];
    let mut least = [NO_KEY; 256];
    for (&layer, &key) in near.iter().zip(keys) {
        sums[layer as usize] += 1;
        least[layer as usize] = least[layer as usize].min(key);
    }
    let (mut counts, mut lows) = ([0u8; 65], [0u32; 65]);
    let (mut count, mut low) = (0, NO_KEY);
    for j in 0..=slots {
        count += sums[j];
        low = low.min(least[j]);
        counts[j] = count;
        lows[j] = low;
    }
    (counts, lows)
}

fn bars(counts: &[u8; 65], lows: &[u32; 65], slots: usize) -> [u32; 65] {
    let mut bars = [0; 65];
    let mut bar = lows[slots];
    for j in (0..=slots).rev() {
        if counts[j] as usize == j {
            bar = lows[j];
        }
        bars[j] = bar;
    }
    bars
}

fn seated_marks(held: &[u16]) -> [bool; 1024] {
    let mut marks = [false; 1024];
    for &page in held {
        if (page as usize) < 1024 {
            marks[page as usize] = true;
        }
    }
    marks
}

impl Run {
    fn blank(pages: usize, slots: usize) -> Run {
        Run {
            pages,
            slots,
            served: 0,
            hits: 0,
            misses: 0,
            best: 0,
            layer: [0; 1024],
            priority: [0; 1024],
            held: [NO_PAGE; 64],
        }
    }

    fn settle(&mut self, seats: &mut Seats, page: usize, slot: usize) {
        let slots = self.slots as u8;
        let i = self.layer[page];
        let from = if i == 0 { slots } else { i };
        for layer in &mut self.layer[..self.pages] {
            *layer = lower(from, *layer);
        }
        self.layer[page] = slots;
        for near in &mut seats.near[..self.slots] {
            *near = lower(from, *near);
        }
        seats.near[slot] = slots;
    }

    /// One request of a sound run.
    fn step(&mut self, seats: &mut Seats, page: usize) -> Event {
        if page >= self.pages {
            return Event::Refused { number: 8 };
        }
        if MAX_SERVED <= self.served {
            return Event::Refused { number: 9 };
        }
        let i = self.layer[page];
        let event = match find(&self.held[..self.slots], page as u16) {
            Some(slot) => {
                self.hits += 1;
                // the page of L_k is alone there: nothing moves
                if i as usize != self.slots {
                    self.settle(seats, page, slot);
                }
                Event::Hit { slot }
            }
            None => {
                let Some(victim) = seats.victim(self.slots, i) else {
                    return Event::Refused { number: 17 };
                };
                let Some(slot) = find(&self.held[..self.slots], victim) else {
                    return Event::Refused { number: 17 };
                };
                self.held[slot] = page as u16;
                seats.keys[slot] = key(self.priority[page], page as u16);
                self.misses += 1;
                self.settle(seats, page, slot);
                Event::Miss { slot, victim: victim as usize }
            }
        };
        self.served += 1;
        self.best += (i == 0) as u32;
        event
    }

    fn layers_fit(&self) -> bool {
        let layer = &self.layer[..self.pages];
        let k = self.slots as u8;
        if layer.iter().fold(0, |most, &layer| layer.max(most)) > k {
            return false;
        }
        let mut marks = [0u8; 256];
        for &layer in layer {
            marks[layer as usize] = 1;
        }
        if marks[1..=self.slots].iter().any(|&mark| mark != 1) {
            return false;
        }
        layer.iter().map(|&layer| (layer == k) as u16).sum::<u16>() == 1
    }

    fn ends_clear(&self) -> bool {
        self.layer[self.pages..].iter().map(|&layer| (layer != 0) as u16).sum::<u16>() == 0
            && self.priority[self.pages..].iter().map(|&priority| (priority != 0) as u16).sum::<u16>() == 0
            && self.held[self.slots..].iter().map(|&page| (page != NO_PAGE) as u16).sum::<u16>() == 0
    }

    /// The clauses of a sound run that speak of its tables.
    fn tables_sound(&self) -> bool {
        if !self.layers_fit() || !self.ends_clear() {
            return false;
        }
        let mut marks = [false; 1024];
        for &page in &self.held[..self.slots] {
            if self.pages <= page as usize || marks[page as usize] {
                return false;
            }
            marks[page as usize] = true;
        }
        let seats = Seats::of(self);
        let near = &seats.near[..self.slots];
        let (counts, lows) = tables(near, &seats.keys[..self.slots], self.slots);
        let bars = bars(&counts, &lows, self.slots);
        // The library looks at every page. Spelt so in Rust, the pass takes more time and not less.
        for q in 0..self.pages {
            let layer = self.layer[q];
            if !(marks[q] || layer == 0 || key(self.priority[q], q as u16) < bars[layer as usize]) {
                return false;
            }
        }
        (0..=self.slots).fold(true, |room, j| room & (counts[j] as usize <= j))
    }

    fn is_sound(&self) -> bool {
        if limits_refusal(self.pages, self.slots) != 0
            || MAX_SERVED < self.served
            || self.served < self.hits
            || self.served - self.hits != self.misses
            || self.misses < self.best
        {
            return false;
        }
        self.tables_sound()
    }

    /// A request of a run that is known to be sound.
    fn serve(&mut self, page: usize) -> Event {
        let mut seats = Seats::of(self);
        self.step(&mut seats, page)
    }

    fn request(&mut self, page: usize) -> Event {
        if !self.is_sound() {
            return Event::Refused { number: 1 };
        }
        self.serve(page)
    }

    fn restore(image: &[u8]) -> Result<Run, u8> {
        if image.len() < 36 {
            return Err(13);
        }
        let pages = u32_at(image, 0) as usize;
        let slots = u32_at(image, 4) as usize;
        let limits = limits_refusal(pages, slots);
        if limits != 0 {
            return Err(limits);
        }
        if u32_at(image, 24) != 36
            || u32_at(image, 28) as usize != 36 + pages
            || u32_at(image, 32) as usize != 36 + pages + 2 * slots
        {
            return Err(15);
        }
        if image.len() != 36 + 3 * pages + 2 * slots {
            return Err(13);
        }
        let mut run = Run::blank(pages, slots);
        run.served = u32_at(image, 8);
        run.hits = u32_at(image, 12);
        run.misses = u32_at(image, 16);
        run.best = u32_at(image, 20);
        let (marks, rest) = image[36..].split_at(pages);
        let (held, priorities) = rest.split_at(2 * slots);
        for (layer, mark) in run.layer.iter_mut().zip(marks) {
            *layer = mark & 127;
        }
        for (entry, pair) in run.held.iter_mut().zip(held.chunks_exact(2)) {
            *entry = u16::from_le_bytes([pair[0], pair[1]]);
        }
        for (entry, pair) in run.priority.iter_mut().zip(priorities.chunks_exact(2)) {
            *entry = u16::from_le_bytes([pair[0], pair[1]]);
        }
        let seated = seated_marks(&run.held[..slots]);
        if marks.iter().zip(&seated).any(|(&mark, &seated)| (mark >> 7 == 1) != seated) {
            return Err(1);
        }
        if !run.is_sound() {
            return Err(1);
        }
        Ok(run)
    }

    fn store(&self, image: &mut [u8]) {
        let header = [
            self.pages as u32,
            self.slots as u32,
            self.served,
            self.hits,
            self.misses,
            self.best,
            36,
            (36 + self.pages) as u32,
            (36 + self.pages + 2 * self.slots) as u32,
        ];
        for (bytes, n) in image.chunks_exact_mut(4).zip(header) {
            bytes.copy_from_slice(&n.to_le_bytes());
        }
        let seated = seated_marks(&self.held[..self.slots]);
        let (marks, rest) = image[36..].split_at_mut(self.pages);
        for ((mark, &layer), &seated) in marks.iter_mut().zip(&self.layer).zip(&seated) {
            *mark = (seated as u8) << 7 | layer;
        }
        let (held, priorities) = rest.split_at_mut(2 * self.slots);
        for (pair, page) in held.chunks_exact_mut(2).zip(&self.held) {
            pair.copy_from_slice(&page.to_le_bytes());
        }
        for (pair, priority) in priorities.chunks_exact_mut(2).zip(&self.priority) {
            pair.copy_from_slice(&priority.to_le_bytes());
        }
    }

    /// The started run of a trace file, and where its requests begin.
    fn read(file: &[u8]) -> Result<(Run, usize), u8> {
        if file.len() < 24 {
            return Err(13);
        }
        let pages = u32_at(file, 0) as usize;
        let slots = u32_at(file, 4) as usize;
        let requests = u32_at(file, 8) as usize;
        let limits = limits_refusal(pages, slots);
        if limits != 0 {
            return Err(limits);
        }
        if 30000 < requests {
            return Err(14);
        }
        let offset = 24 + 2 * slots + 2 * pages;
        if u32_at(file, 12) != 24 || u32_at(file, 16) as usize != 24 + 2 * slots || u32_at(file, 20) as usize != offset {
            return Err(15);
        }
        if file.len() != offset + 2 * requests {
            return Err(13);
        }
        let mut run = Run::blank(pages, slots);
        for s in 0..slots {
            run.held[s] = u16_at(file, 24 + 2 * s);
        }
        if run.held[..slots].iter().any(|&page| pages <= page as usize) {
            return Err(5);
        }
        for s in 0..slots {
            if run.held[..s].contains(&run.held[s]) {
                return Err(6);
            }
            run.layer[run.held[s] as usize] = s as u8 + 1;
        }
        for (q, priority) in run.priority[..pages].iter_mut().enumerate() {
            *priority = u16_at(file, 24 + 2 * slots + 2 * q);
        }
        Ok((run, offset))
    }
}

fn pages_of(requests: &[u8]) -> impl Iterator<Item = usize> + '_ {
    requests.chunks_exact(2).map(|pair| u16::from_le_bytes([pair[0], pair[1]]) as usize)
}

#[no_mangle]
#[inline(never)]
pub extern "Rust" fn same_replay(file: &[u8]) -> u32 {
    let Ok((mut run, offset)) = Run::read(file) else {
        return 0;
    };
    let mut seats = Seats::of(&run);
    for page in pages_of(&file[offset..]) {
        run.step(&mut seats, page);
    }
    run.misses
}

#[no_mangle]
#[inline(never)]
pub extern "Rust" fn same_checked(file: &[u8]) -> u32 {
    let Ok((mut run, offset)) = Run::read(file) else {
        return 0;
    };
    for page in pages_of(&file[offset..]) {
        run.request(page);
    }
    run.misses
}

#[no_mangle]
#[inline(never)]
pub extern "Rust" fn same_serve(image: &mut [u8], page: u32) -> u32 {
    let mut run = match Run::restore(image) {
        Ok(run) => run,
        Err(number) => return (number as u32) << 24,
    };
    let answer = match run.serve(page as usize) {
        Event::Refused { number } => return (number as u32) << 24,
        Event::Hit { slot } => (slot as u32 & 63) << 10,
        Event::Miss { slot, victim } => victim as u32 & 1023 | (slot as u32 & 63) << 10 | 1 << 16,
    };
    run.store(image);
    answer
}

fn write_word(out: &mut [u8], at: usize, word: &[u8]) -> usize {
    out[at..at + word.len()].copy_from_slice(word);
    at + word.len()
}

fn digits(n: u32) -> usize {
    let mut count = 1;
    let mut left = n / 10;
    while left > 0 {
        left /= 10;
        count += 1;
    }
    count
}

/// A space and a number, last digit first.
fn write_next(out: &mut [u8], at: usize, n: u32) -> usize {
    out[at] = b' ';
    let at = at + 1;
    let end = at + digits(n);
    let mut left = n;
    for byte in out[at..end].iter_mut().rev() {
        *byte = (48 + left % 10) as u8;
        left /= 10;
    }
    end
}

fn write_entry(out: &mut [u8], at: usize, word: &[u8], n: u32) -> usize {
    let next = write_word(out, at, word);
    write_next(out, next, n)
}

fn write_line(out: &mut [u8], at: usize, page: u32, event: Event, best: u32) -> usize {
    let end = match event {
        Event::Hit { slot } => {
            let next = write_entry(out, at, b"hit", page);
            let next = write_next(out, next, slot as u32);
            write_next(out, next, best)
        }
        Event::Miss { slot, victim } => {
            let next = write_entry(out, at, b"swap", page);
            let next = write_next(out, next, slot as u32);
            let next = write_next(out, next, victim as u32);
            write_next(out, next, best)
        }
        Event::Refused { number } => {
            let next = write_entry(out, at, b"refused", page);
            write_next(out, next, number as u32)
        }
    };
    write_word(out, end, b"\n")
}

#[no_mangle]
#[inline(never)]
pub extern "Rust" fn same_text(file: &[u8], out: &mut [u8]) -> usize {
    let (mut run, offset) = match Run::read(file) {
        Ok(read) => read,
        Err(number) => {
            let next = write_entry(out, 0, b"refused", number as u32);
            return write_word(out, next, b"\n");
        }
    };
    let requests = &file[offset..];
    let next = write_entry(out, 0, b"pages", run.pages as u32);
    let next = write_entry(out, next, b" slots", run.slots as u32);
    let next = write_entry(out, next, b" requests", requests.len() as u32 / 2);
    let mut next = write_word(out, next, b"\n");
    let mut seats = Seats::of(&run);
    for page in pages_of(requests) {
        let event = run.step(&mut seats, page);
        next = write_line(out, next, page as u32, event, run.best);
    }
    let next = write_entry(out, next, b"served", run.served);
    let next = write_entry(out, next, b" hits", run.hits);
    let next = write_entry(out, next, b" misses", run.misses);
    let next = write_entry(out, next, b" best", run.best);
    write_word(out, next, b"\n")
}
