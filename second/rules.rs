// The rules of document 01, written down naively with sets and lists.
// Nothing here is clever: the program is only there to be compared with the proved one.

use std::cmp::Ordering;
use std::collections::BTreeSet;

pub const MOST_PAGES: u32 = 1024;
pub const MOST_SLOTS: u32 = 64;
pub const MOST_SERVED: u32 = 1_000_000;
pub const MOST_REQUESTS: u32 = 30_000;
pub const PAGE_BYTES: usize = 64;
pub const TRACE_HEADER: usize = 24;
pub const IMAGE_HEADER: usize = 36;

// A mark byte has seven bits for the layer, so an unsound run can name any of these.
const LAYER_NAMES: usize = 128;

const SLOTTED: &str = "a sound run has a slot for each cached page";

pub type Pages = BTreeSet<u32>;

#[derive(Clone, PartialEq, Debug)]
pub struct Run {
    pub pages: u32,
    pub slots: u32,
    pub served: u32,
    pub hits: u32,
    pub misses: u32,
    pub best: u32,
    pub layers: Vec<Pages>,
    pub cached: Pages,
    pub slot_pages: Vec<u32>,
    pub priorities: Vec<u32>,
}

pub enum Priorities {
    Default,
    List(Vec<u32>),
}

#[derive(Clone, Copy, PartialEq, Debug)]
pub enum Event {
    Hit { slot: u32 },
    Miss { slot: u32, victim: u32 },
}

#[derive(Clone, Copy, PartialEq, Debug)]
pub struct Answer {
    pub event: Event,
    pub best: u32,
}

impl Run {
    pub fn blank() -> Run {
        Run {
            pages: 0,
            slots: 0,
            served: 0,
            hits: 0,
            misses: 0,
            best: 0,
            layers: vec![Pages::new(); LAYER_NAMES],
            cached: Pages::new(),
            slot_pages: Vec::new(),
            priorities: Vec::new(),
        }
    }

    pub fn layer_of(&self, page: u32) -> usize {
        self.layers
            .iter()
            .position(|layer| layer.contains(&page))
            .expect("every page below N stands in one of the layers a mark can name")
    }

    fn slot_of(&self, page: u32) -> Option<u32> {
        let place = self.slot_pages.iter().position(|held| *held == page);
        place.map(|slot| slot as u32)
    }

    fn outranks(&self, a: u32, b: u32) -> bool {
        let (of_a, of_b) = (self.priorities[a as usize], self.priorities[b as usize]);
        of_a > of_b || (of_a == of_b && a < b)
    }

    fn highest_first(&self, pages: &Pages) -> Vec<u32> {
        let mut row: Vec<u32> = pages.iter().copied().collect();
        row.sort_by(|a, b| match (a == b, self.outranks(*a, *b)) {
            (true, _) => Ordering::Equal,
            (false, true) => Ordering::Less,
            (false, false) => Ordering::Greater,
        });
        row
    }

    fn lowest_ranking(&self, pages: &Pages) -> Option<u32> {
        self.highest_first(pages).last().copied()
    }
}

pub fn default_priority(page: u32) -> u32 {
    (389 * page + 71) % 1024
}

fn pages_in_limits(n: u32) -> bool {
    (1..=MOST_PAGES).contains(&n)
}

fn slots_in_limits(n: u32, k: u32) -> bool {
    (1..=MOST_SLOTS).contains(&k) && k <= n
}

fn refused_start(n: u32, k: u32, list: &[u32], priorities: &Priorities) -> u32 {
    if !pages_in_limits(n) {
        return 2;
    }
    if !slots_in_limits(n, k) {
        return 3;
    }
    if list.len() != k as usize {
        return 4;
    }
    let refusal = refused_start_pages(n, list);
    if refusal != 0 {
        return refusal;
    }
    match priorities {
        Priorities::List(given) if given.len() != n as usize => 7,
        _ => 0,
    }
}

// All pages are tested for 5 before any is tested for 6: the first refusal that applies counts.
fn refused_start_pages(n: u32, list: &[u32]) -> u32 {
    if list.iter().any(|page| *page >= n) {
        return 5;
    }
    let different: Pages = list.iter().copied().collect();
    if different.len() != list.len() {
        return 6;
    }
    0
}

fn priorities_of_start(n: u32, priorities: &Priorities) -> Vec<u32> {
    match priorities {
        Priorities::Default => (0..n).map(default_priority).collect(),
        Priorities::List(given) => given.clone(),
    }
}

pub fn start(n: u32, k: u32, list: &[u32], priorities: &Priorities) -> Result<Run, u32> {
    let refusal = refused_start(n, k, list, priorities);
    if refusal != 0 {
        return Err(refusal);
    }
    let mut run = Run::blank();
    run.pages = n;
    run.slots = k;
    run.cached = list.iter().copied().collect();
    run.slot_pages = list.to_vec();
    run.priorities = priorities_of_start(n, priorities);
    run.layers[0] = (0..n).filter(|page| !list.contains(page)).collect();
    for (place, page) in list.iter().enumerate() {
        run.layers[place + 1] = Pages::from([*page]);
    }
    Ok(run)
}

// C_0 is empty; C_j holds the j highest-ranking pages of C_(j-1) and L_j together.
pub fn select(run: &Run) -> Pages {
    let mut chosen = Pages::new();
    for j in 1..=run.slots as usize {
        let together: Pages = chosen.union(&run.layers[j]).copied().collect();
        chosen = run.highest_first(&together).into_iter().take(j).collect();
    }
    chosen
}

fn every_page_in_a_layer(run: &Run) -> bool {
    let mut found = Pages::new();
    for layer in &run.layers[0..=run.slots as usize] {
        found.extend(layer);
    }
    found == (0..run.pages).collect::<Pages>()
}

fn layers_are_held(run: &Run) -> bool {
    let k = run.slots as usize;
    run.layers[1..=k].iter().all(|layer| !layer.is_empty()) && run.layers[k].len() == 1
}

fn slots_match_cached(run: &Run) -> bool {
    let held: Pages = run.slot_pages.iter().copied().collect();
    run.slot_pages.len() == run.slots as usize
        && held.len() == run.slot_pages.len()
        && held == run.cached
}

// Stored hits and misses can be any 32-bit numbers, so they are added in 64 bits.
fn counts_agree(run: &Run) -> bool {
    u64::from(run.hits) + u64::from(run.misses) == u64::from(run.served)
        && run.served <= MOST_SERVED
        && run.best <= run.misses
}

pub fn sound(run: &Run) -> bool {
    pages_in_limits(run.pages)
        && slots_in_limits(run.pages, run.slots)
        && every_page_in_a_layer(run)
        && layers_are_held(run)
        && slots_match_cached(run)
        && counts_agree(run)
        && run.cached == select(run)
}

fn refused_page(run: &Run, page: u32) -> u32 {
    if !sound(run) {
        return 1;
    }
    if page >= run.pages {
        return 8;
    }
    0
}

// The cached pages of layers 1 to j, gathered layer by layer until they are exactly j.
fn victim_of_layer(run: &Run, i: usize) -> Option<u32> {
    let mut together = Pages::new();
    for j in 1..=run.slots as usize {
        together.extend(run.layers[j].intersection(&run.cached));
        if j >= i && together.len() == j {
            return run.lowest_ranking(&together);
        }
    }
    None
}

fn victim(run: &Run, page: u32) -> Option<u32> {
    match run.layer_of(page) {
        0 => run.lowest_ranking(&run.cached),
        i => victim_of_layer(run, i),
    }
}

fn move_layers(run: &mut Run, page: u32) {
    let k = run.slots as usize;
    let old = run.layers.clone();
    let i = run.layer_of(page);
    run.layers[i].remove(&page);
    if i == 0 {
        run.layers[k - 1].extend(&old[k]);
    } else {
        let rest = run.layers[i].clone();
        run.layers[i - 1].extend(&rest);
        for j in i..k {
            run.layers[j] = old[j + 1].clone();
        }
    }
    run.layers[k] = Pages::from([page]);
}

fn event_of(run: &Run, page: u32) -> Result<Event, u32> {
    if run.cached.contains(&page) {
        let slot = run.slot_of(page).expect(SLOTTED);
        return Ok(Event::Hit { slot });
    }
    let victim = victim(run, page).ok_or(17u32)?;
    let slot = run.slot_of(victim).expect(SLOTTED);
    Ok(Event::Miss { slot, victim })
}

// A request to a run already known to be sound; a refused one leaves the run as it was.
pub fn serve_sound(run: &mut Run, page: u32) -> Result<Answer, u32> {
    if page >= run.pages {
        return Err(8);
    }
    if run.served == MOST_SERVED {
        return Err(9);
    }
    let event = event_of(run, page)?;
    if run.layers[0].contains(&page) {
        run.best += 1;
    }
    move_layers(run, page);
    run.served += 1;
    match event {
        Event::Hit { .. } => run.hits += 1,
        Event::Miss { slot, victim } => {
            run.misses += 1;
            run.cached.remove(&victim);
            run.cached.insert(page);
            run.slot_pages[slot as usize] = page;
        }
    }
    let best = run.best;
    Ok(Answer { event, best })
}

pub fn request(run: &Run, page: u32) -> Result<(Run, Answer), u32> {
    if !sound(run) {
        return Err(1);
    }
    let mut next = run.clone();
    let answer = serve_sound(&mut next, page)?;
    Ok((next, answer))
}

pub fn trial(run: &Run, page: u32) -> Result<Answer, u32> {
    request(run, page).map(|(_, answer)| answer)
}

pub fn layer(run: &Run, page: u32) -> Result<u32, u32> {
    match refused_page(run, page) {
        0 => Ok(run.layer_of(page) as u32),
        refusal => Err(refusal),
    }
}

pub fn certain(run: &Run, page: u32) -> Result<bool, u32> {
    let of_page = layer(run, page)? as usize;
    Ok(of_page > 0 && run.layers[of_page].len() == 1)
}

pub fn selection(run: &Run) -> Result<Pages, u32> {
    if !sound(run) {
        return Err(1);
    }
    Ok(select(run))
}

fn frame_begin(run: &Run, page: u32) -> Result<usize, u32> {
    let slot = run.slot_of(page).ok_or(12u32)?;
    Ok(PAGE_BYTES * slot as usize)
}

fn refused_area(run: &Run, page: u32, area: &[u8]) -> Result<(), u32> {
    match refused_page(run, page) {
        0 if area.len() == PAGE_BYTES * run.slots as usize => Ok(()),
        0 => Err(10),
        refusal => Err(refusal),
    }
}

pub fn fill(run: &Run, page: u32, area: &mut [u8], bytes: &[u8]) -> Result<(), u32> {
    refused_area(run, page, area)?;
    if bytes.len() != PAGE_BYTES {
        return Err(11);
    }
    let begin = frame_begin(run, page)?;
    area[begin..begin + PAGE_BYTES].copy_from_slice(bytes);
    Ok(())
}

pub fn look<'a>(run: &Run, page: u32, area: &'a [u8]) -> Result<&'a [u8], u32> {
    refused_area(run, page, area)?;
    let begin = frame_begin(run, page)?;
    Ok(&area[begin..begin + PAGE_BYTES])
}

fn number_at(bytes: &[u8], at: usize) -> u32 {
    u32::from_le_bytes([bytes[at], bytes[at + 1], bytes[at + 2], bytes[at + 3]])
}

fn entries_at(bytes: &[u8], at: usize, count: usize) -> Vec<u32> {
    let part = &bytes[at..at + 2 * count];
    let entry = |pair: &[u8]| u32::from(u16::from_le_bytes([pair[0], pair[1]]));
    part.chunks(2).map(entry).collect()
}

pub fn put_numbers(bytes: &mut Vec<u8>, numbers: &[u32]) {
    for number in numbers {
        bytes.extend(number.to_le_bytes());
    }
}

pub fn put_entries(bytes: &mut Vec<u8>, entries: &[u32]) {
    for entry in entries {
        bytes.extend((*entry as u16).to_le_bytes());
    }
}

pub struct Trace {
    pub run: Run,
    pub count: u32,
    pub offset: u32,
}

pub fn read_trace(bytes: &[u8]) -> Result<Trace, u32> {
    if bytes.len() < TRACE_HEADER {
        return Err(13);
    }
    let (n, k, count) = (
        number_at(bytes, 0),
        number_at(bytes, 4),
        number_at(bytes, 8),
    );
    if !pages_in_limits(n) {
        return Err(2);
    }
    if !slots_in_limits(n, k) {
        return Err(3);
    }
    if count > MOST_REQUESTS {
        return Err(14);
    }
    let offsets = [24, 24 + 2 * k, 24 + 2 * k + 2 * n];
    if (0..3).any(|i| number_at(bytes, 12 + 4 * i) != offsets[i]) {
        return Err(15);
    }
    if bytes.len() != (offsets[2] + 2 * count) as usize {
        return Err(13);
    }
    let list = entries_at(bytes, offsets[0] as usize, k as usize);
    let priorities = Priorities::List(entries_at(bytes, offsets[1] as usize, n as usize));
    let run = start(n, k, &list, &priorities)?;
    Ok(Trace {
        run,
        count,
        offset: offsets[2],
    })
}

pub fn trace_requests(bytes: &[u8], trace: &Trace) -> Vec<u32> {
    entries_at(bytes, trace.offset as usize, trace.count as usize)
}

// The bytes of a trace, for whatever lists are given: refusals are the writer's matter.
pub fn trace_bytes(n: u32, k: u32, list: &[u32], priorities: &[u32], requests: &[u32]) -> Vec<u8> {
    let mut bytes = Vec::new();
    let offsets = [24, 24 + 2 * k, 24 + 2 * k + 2 * n];
    put_numbers(&mut bytes, &[n, k, requests.len() as u32]);
    put_numbers(&mut bytes, &offsets);
    put_entries(&mut bytes, list);
    put_entries(&mut bytes, priorities);
    put_entries(&mut bytes, requests);
    bytes
}

// A buffer too short is refused as it stands; a longer one keeps its bytes behind the written.
fn write_into(buffer: &mut [u8], bytes: &[u8]) -> Result<usize, u32> {
    if buffer.len() < bytes.len() {
        return Err(16);
    }
    buffer[..bytes.len()].copy_from_slice(bytes);
    Ok(bytes.len())
}

pub fn write_trace(
    n: u32,
    k: u32,
    list: &[u32],
    priorities: &Priorities,
    requests: &[u32],
    buffer: &mut [u8],
) -> Result<usize, u32> {
    let run = start(n, k, list, priorities)?;
    if requests.len() > MOST_REQUESTS as usize {
        return Err(14);
    }
    let bytes = trace_bytes(n, k, list, &run.priorities, requests);
    write_into(buffer, &bytes)
}

// The run that an image describes, sound or not.
pub fn described_run(bytes: &[u8]) -> Result<Run, u32> {
    if bytes.len() < IMAGE_HEADER {
        return Err(13);
    }
    let (n, k) = (number_at(bytes, 0), number_at(bytes, 4));
    if !pages_in_limits(n) {
        return Err(2);
    }
    if !slots_in_limits(n, k) {
        return Err(3);
    }
    let offsets = [36, 36 + n, 36 + n + 2 * k];
    if (0..3).any(|i| number_at(bytes, 24 + 4 * i) != offsets[i]) {
        return Err(15);
    }
    if bytes.len() != (offsets[2] + 2 * n) as usize {
        return Err(13);
    }
    let mut run = Run::blank();
    run.pages = n;
    run.slots = k;
    run.served = number_at(bytes, 8);
    run.hits = number_at(bytes, 12);
    run.misses = number_at(bytes, 16);
    run.best = number_at(bytes, 20);
    take_marks(&mut run, &bytes[36..36 + n as usize]);
    run.slot_pages = entries_at(bytes, offsets[1] as usize, k as usize);
    run.priorities = entries_at(bytes, offsets[2] as usize, n as usize);
    Ok(run)
}

fn take_marks(run: &mut Run, marks: &[u8]) {
    for (page, mark) in marks.iter().enumerate() {
        run.layers[(mark & 127) as usize].insert(page as u32);
        if mark >> 7 == 1 {
            run.cached.insert(page as u32);
        }
    }
}

pub fn read_image(bytes: &[u8]) -> Result<Run, u32> {
    let run = described_run(bytes)?;
    if !sound(&run) {
        return Err(1);
    }
    Ok(run)
}

// The record of a run, sound or not.
pub fn image_bytes(run: &Run) -> Vec<u8> {
    let (n, k) = (run.pages, run.slots);
    let mut bytes = Vec::new();
    put_numbers(&mut bytes, &[n, k, run.served, run.hits]);
    put_numbers(&mut bytes, &[run.misses, run.best]);
    put_numbers(&mut bytes, &[36, 36 + n, 36 + n + 2 * k]);
    for page in 0..n {
        let cached = u8::from(run.cached.contains(&page));
        bytes.push(run.layer_of(page) as u8 | cached << 7);
    }
    put_entries(&mut bytes, &run.slot_pages);
    put_entries(&mut bytes, &run.priorities);
    bytes
}

pub fn write_image(run: &Run, buffer: &mut [u8]) -> Result<usize, u32> {
    if !sound(run) {
        return Err(1);
    }
    write_into(buffer, &image_bytes(run))
}

pub fn board(image: &mut [u8], page: u32) -> u32 {
    match read_image(image).and_then(|run| request(&run, page)) {
        Err(refusal) => refusal << 24,
        Ok((next, answer)) => {
            image.copy_from_slice(&image_bytes(&next));
            match answer.event {
                Event::Hit { slot } => slot << 10,
                Event::Miss { slot, victim } => victim | slot << 10 | 1 << 16,
            }
        }
    }
}

fn play_line(run: &mut Run, page: u32) -> String {
    match serve_sound(run, page) {
        Err(refusal) => format!("refused {page} {refusal}\n"),
        Ok(Answer { event, best }) => match event {
            Event::Hit { slot } => format!("hit {page} {slot} {best}\n"),
            Event::Miss { slot, victim } => format!("swap {page} {slot} {victim} {best}\n"),
        },
    }
}

// The text of the trace program. A started run is sound and stays so, hence no test per request.
pub fn play(bytes: &[u8]) -> String {
    let trace = match read_trace(bytes) {
        Err(refusal) => return format!("refused {refusal}\n"),
        Ok(trace) => trace,
    };
    let requests = trace_requests(bytes, &trace);
    let count = trace.count;
    let mut run = trace.run;
    let mut text = format!("pages {} slots {} requests {count}\n", run.pages, run.slots);
    for page in requests {
        text.push_str(&play_line(&mut run, page));
    }
    let (served, hits) = (run.served, run.hits);
    let (misses, best) = (run.misses, run.best);
    text.push_str(&format!(
        "served {served} hits {hits} misses {misses} best {best}\n"
    ));
    text
}

// The least total loads of any schedule, over all sets of at most k pages as bit masks.
pub fn least_loads(n: u32, k: u32, start: &[u32], requests: &[u32]) -> u32 {
    let sets = 0..1u32 << n;
    let begin: u32 = start.iter().map(|page| 1 << page).sum();
    let mut least: Vec<Option<u32>> = vec![None; 1 << n];
    least[begin as usize] = Some(0);
    for page in requests {
        let mut after = vec![None; 1 << n];
        for set in sets.clone() {
            if set.count_ones() <= k && set >> page & 1 == 1 {
                after[set as usize] = least_into(&least, set);
            }
        }
        least = after;
    }
    let reached = least.into_iter().flatten();
    reached.min().expect("some schedule always exists")
}

fn least_into(least: &[Option<u32>], set: u32) -> Option<u32> {
    let mut smallest = None;
    for (before, cost) in least.iter().enumerate() {
        if let Some(cost) = cost {
            let loads = (set & !(before as u32)).count_ones();
            let total = cost + loads;
            smallest = Some(smallest.map_or(total, |known: u32| known.min(total)));
        }
    }
    smallest
}
