// Makes the traces of this folder: rustc -O make.rs -o ../target/make-traces && ../target/make-traces .
// Each is what a controller of a kind would have recorded, from a fixed seed, so that every run makes the same bytes.
use std::fs;

struct Seed(u64);

impl Seed {
    fn below(&mut self, n: u64) -> u64 {
        self.0 = self.0.wrapping_mul(6364136223846793005).wrapping_add(1442695040888963407);
        (self.0 >> 33) % n
    }
}

fn priority(page: u16) -> u16 {
    ((389 * page as u32 + 71) % 1024) as u16
}

// A trace file: six 32-bit numbers, start list, priorities, requests, low byte first.
fn file(pages: u16, start: &[u16], requests: &[u16]) -> Vec<u8> {
    let (n, k, t) = (pages as u32, start.len() as u32, requests.len() as u32);
    let mut bytes = Vec::new();
    for number in [n, k, t, 24, 24 + 2 * k, 24 + 2 * k + 2 * n] {
        bytes.extend(number.to_le_bytes());
    }
    let priorities: Vec<u16> = (0..pages).map(priority).collect();
    for list in [start, &priorities[..], requests] {
        for entry in list {
            bytes.extend(entry.to_le_bytes());
        }
    }
    bytes
}

// A propagation house: 24 zones are visited in turn, each with its schedule, and now and then an alarm's thresholds.
fn propagation(seed: &mut Seed) -> Vec<u16> {
    let mut requests = Vec::new();
    for _ in 0..60 {
        for zone in 0..24 {
            requests.push(zone);
            requests.push(24 + zone % 6);
            if seed.below(8) == 0 {
                requests.push(30 + seed.below(10) as u16);
            }
        }
    }
    requests
}

// A cold room: three pages are asked for all night; towards the morning the door opens and the alarm pages are gone through.
fn cold_room(seed: &mut Seed) -> Vec<u16> {
    let mut requests: Vec<u16> = (0..900).map(|_| seed.below(3) as u16).collect();
    for alarm in 0..40 {
        requests.push(40 + alarm);
        requests.push(seed.below(3) as u16);
    }
    requests.extend((0..300).map(|_| seed.below(12) as u16));
    requests
}

// A whole nursery at full size, with some requests for pages that are not there, as after a zone was taken out of service.
fn nursery(seed: &mut Seed) -> Vec<u16> {
    let mut near = 0;
    (0..6000)
        .map(|_| match seed.below(20) {
            0 => seed.below(1100) as u16,
            1 => {
                near = seed.below(940);
                near as u16
            }
            _ => (near + seed.below(80)) as u16,
        })
        .collect()
}

fn main() {
    let folder = std::env::args().nth(1).expect("the folder to write to");
    let mut seed = Seed(20_261_115);
    let first = |n: u16| (0..n).collect::<Vec<u16>>();
    let all = [
        ("propagation", file(40, &first(12), &propagation(&mut seed))),
        ("cold-room", file(80, &first(6), &cold_room(&mut seed))),
        ("nursery", file(1024, &first(64), &nursery(&mut seed))),
    ];
    for (name, bytes) in all {
        fs::write(format!("{folder}/{name}.trace"), bytes).expect("a trace is written");
    }
}
