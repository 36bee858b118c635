// Lines that are no questions, made from right ones by one slip of the pen, and lines
// just as long as a line may be, or one byte longer.

use crate::lines::{record_text, MOST_LINE};
use crate::questions::KINDS;
use crate::random::Random;
use crate::runs;

const BAD: &str = "bad line";

const WORDS: [&str; 24] = [
    "-",
    "--",
    "default",
    "Default",
    "0",
    "+1",
    "-1",
    "1.0",
    "0x1",
    "4294967296",
    "4294967297",
    "18446744073709551617",
    "65536",
    "1,",
    ",1",
    "1,,2",
    "1,65536",
    "-,1",
    "ab",
    "AB",
    "abc",
    "g0",
    "start",
    "sound",
];

fn question(random: &mut Random) -> String {
    let kinds: Vec<_> = KINDS.iter().filter(|kind| kind.1 > 100).collect();
    let mut made = Vec::new();
    loop {
        let (name, _, maker) = random.pick(&kinds);
        if *name != BAD {
            maker(random, &mut made);
            return made.swap_remove(0);
        }
    }
}

fn change_words(random: &mut Random, line: &str) -> String {
    let mut words: Vec<String> = line.split(' ').map(str::to_string).collect();
    let at = random.below(words.len() as u32) as usize;
    match random.below(5) {
        0 => drop(words.remove(at)),
        1 => words.insert(at, random.pick(&WORDS).to_string()),
        2 => words.push(random.pick(&WORDS).to_string()),
        3 => words[at].insert_str(0, random.pick(&["0", "1", "f", "-", ",", "00"])),
        _ => words[at] = random.pick(&WORDS).to_string(),
    }
    words.join(" ")
}

// One number or list entry grows by a power of two that a careless reader would cut off.
fn change_number(random: &mut Random, line: &str) -> String {
    let words: Vec<&str> = line.split(' ').collect();
    let numeric = |word: &&str| {
        word.bytes()
            .all(|byte| byte.is_ascii_digit() || byte == b',')
    };
    let places: Vec<usize> = (1..words.len())
        .filter(|at| words[*at].len() < 60 && numeric(&words[*at]))
        .collect();
    if places.is_empty() {
        return line.to_string();
    }
    let place = random.pick(&places);
    let mut entries: Vec<String> = words[place].split(',').map(str::to_string).collect();
    let at = random.below(entries.len() as u32) as usize;
    let value: u128 = entries[at].parse().unwrap_or(0);
    let more = random.pick(&[1 << 16, 1 << 17, 1 << 32, 1 << 64]);
    entries[at] = match random.chance(80) {
        true => (value + more).to_string(),
        false => (more - 1).to_string(),
    };
    let mut changed: Vec<String> = words.iter().map(|word| word.to_string()).collect();
    changed[place] = entries.join(",");
    changed.join(" ")
}

fn change_spaces(random: &mut Random, line: &str) -> String {
    match random.below(7) {
        0 => line.replacen(' ', "  ", 1),
        1 => line.replacen(' ', "\t", 1),
        2 => format!(" {line}"),
        3 => format!("{line} "),
        4 => format!("{line}\r"),
        5 => line.replace(' ', ""),
        _ => line.replacen(' ', "", 1),
    }
}

fn change_letters(random: &mut Random, line: &str) -> String {
    let cut = random.below(line.len() as u32 + 1) as usize;
    match random.below(5) {
        0 => line.to_uppercase(),
        1 => format!("{}{}", &line[..cut], line[cut..].to_uppercase()),
        2 => line[..cut].to_string(),
        3 => line[cut..].to_string(),
        _ => {
            let letter = random.pick(&['0', 'g', 'A', 'F', ' ', ',', '-', '\0', '~']);
            format!("{}{letter}{}", &line[..cut], &line[cut..])
        }
    }
}

pub fn bad_line(random: &mut Random, out: &mut Vec<String>) {
    let line = question(random);
    out.push(match random.below(12) {
        0..=3 => change_words(random, &line),
        4..=6 => change_spaces(random, &line),
        7..=8 => change_letters(random, &line),
        9..=10 => change_number(random, &line),
        _ => String::new(),
    });
}

// Some bad lines are not even text: noise, or one byte replaced by any other.
pub fn as_bytes(random: &mut Random, kind: &str, line: String) -> Vec<u8> {
    let mut bytes = line.into_bytes();
    if kind == BAD && random.chance(15) {
        let length = random.below(40) as usize;
        bytes = random.bytes(length);
    } else if kind == BAD && random.chance(15) && !bytes.is_empty() {
        let at = random.below(bytes.len() as u32) as usize;
        bytes[at] = random.next() as u8;
    }
    bytes.retain(|byte| *byte != b'\n');
    bytes
}

// A right question drawn out with leading zeros to the longest line and one byte beyond.
pub fn long_line(random: &mut Random, out: &mut Vec<String>) {
    let run = runs::sound_run(random);
    let record = record_text(&run);
    let page = random.below(run.pages + 1).to_string();
    let length = MOST_LINE + random.pick(&[0, 0, 1, 1, 2, 9000]) - random.pick(&[0, 0, 1]);
    let word = random.pick(&["request", "layer", "trial", "board"]);
    let zeros = length - word.len() - 2 - record.len() - page.len();
    let zeros = "0".repeat(zeros);
    out.push(match random.below(4) {
        0 => "x".repeat(length),
        _ => format!("{word} {record} {zeros}{page}"),
    });
}
