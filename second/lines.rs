// One question line of the comparison, parsed and answered by the naive rules.
// A line that is not a question is answered `bad line`.

use crate::rules::{self, Answer, Event, Priorities, Run};

pub const MOST_LINE: usize = 262_144;
pub const BAD: &str = "bad line";

pub fn answer(line: &[u8]) -> String {
    if line.len() > MOST_LINE {
        return BAD.to_string();
    }
    let words: Vec<&[u8]> = line.split(|byte| *byte == b' ').collect();
    answer_words(&words).unwrap_or_else(|| BAD.to_string())
}

fn answer_words(words: &[&[u8]]) -> Option<String> {
    match words {
        [b"start", n, k, list, ranks] => start(n, k, list, ranks),
        [b"request", run, page] => request(record(run)?, page_number(page)?),
        [b"trial", run, page] => trial(record(run)?, page_number(page)?),
        [b"layer", run, page] => layer(record(run)?, page_number(page)?),
        [b"certain", run, page] => certain(record(run)?, page_number(page)?),
        [b"selection", run] => selection(record(run)?),
        [b"sound", run] => Some(u8::from(rules::sound(&record(run)?)).to_string()),
        [b"fill", run, page, area, page_bytes] => {
            fill(record(run)?, page_number(page)?, area, page_bytes)
        }
        [b"look", run, page, area] => look(record(run)?, page_number(page)?, bytes(area)?),
        [b"readtrace", file] => read_trace(bytes(file)?),
        [b"writetrace", rest @ ..] => write_trace(rest),
        [b"readimage", image] => read_image(bytes(image)?),
        [b"writeimage", run, buffer] => write_image(record(run)?, bytes(buffer)?),
        [b"board", image, page] => board(bytes(image)?, page_number(page)?),
        _ => None,
    }
}

// Digits are read into 64 bits and given up as soon as they pass the limit,
// so that any count of leading zeros is fine and nothing overflows.
fn number_below(word: &[u8], limit: u64) -> Option<u32> {
    if word.is_empty() {
        return None;
    }
    let mut value = 0u64;
    for byte in word {
        if !byte.is_ascii_digit() {
            return None;
        }
        value = 10 * value + u64::from(byte - b'0');
        if value >= limit {
            return None;
        }
    }
    Some(value as u32)
}

fn page_number(word: &[u8]) -> Option<u32> {
    number_below(word, 1 << 32)
}

fn list(word: &[u8]) -> Option<Vec<u32>> {
    if word == b"-" {
        return Some(Vec::new());
    }
    word.split(|byte| *byte == b',')
        .map(|entry| number_below(entry, 1 << 16))
        .collect()
}

fn priorities(word: &[u8]) -> Option<Priorities> {
    if word == b"default" {
        return Some(Priorities::Default);
    }
    list(word).map(Priorities::List)
}

fn hex_digit(byte: u8) -> Option<u8> {
    match byte {
        b'0'..=b'9' => Some(byte - b'0'),
        b'a'..=b'f' => Some(byte - b'a' + 10),
        _ => None,
    }
}

pub fn bytes(word: &[u8]) -> Option<Vec<u8>> {
    if word == b"-" {
        return Some(Vec::new());
    }
    if word.is_empty() || word.len() % 2 != 0 {
        return None;
    }
    word.chunks(2)
        .map(|pair| Some(hex_digit(pair[0])? << 4 | hex_digit(pair[1])?))
        .collect()
}

// Whether the run is sound is no matter of parsing: any refusal before that is a bad line.
pub fn record(word: &[u8]) -> Option<Run> {
    rules::described_run(&bytes(word)?).ok()
}

pub fn hex(bytes: &[u8]) -> String {
    if bytes.is_empty() {
        return "-".to_string();
    }
    let digits = b"0123456789abcdef";
    let mut text = String::with_capacity(2 * bytes.len());
    for byte in bytes {
        text.push(digits[(byte >> 4) as usize] as char);
        text.push(digits[(byte & 15) as usize] as char);
    }
    text
}

pub fn list_text(entries: &[u32]) -> String {
    if entries.is_empty() {
        return "-".to_string();
    }
    let words: Vec<String> = entries.iter().map(u32::to_string).collect();
    words.join(",")
}

pub fn record_text(run: &Run) -> String {
    hex(&rules::image_bytes(run))
}

fn refused_or(result: Result<String, u32>) -> Option<String> {
    Some(match result {
        Ok(text) => format!("0 {text}"),
        Err(refusal) => refusal.to_string(),
    })
}

fn event_text(answer: &Answer) -> String {
    let best = answer.best;
    match answer.event {
        Event::Hit { slot } => format!("hit {slot} {best}"),
        Event::Miss { slot, victim } => format!("swap {slot} {victim} {best}"),
    }
}

fn start(n: &[u8], k: &[u8], start_list: &[u8], ranks: &[u8]) -> Option<String> {
    let (n, k) = (page_number(n)?, page_number(k)?);
    let (pages, ranks) = (list(start_list)?, priorities(ranks)?);
    refused_or(rules::start(n, k, &pages, &ranks).map(|run| record_text(&run)))
}

fn request(run: Run, page: u32) -> Option<String> {
    let served = rules::request(&run, page);
    refused_or(served.map(|(next, answer)| {
        let event = event_text(&answer);
        format!("{event} {}", record_text(&next))
    }))
}

fn trial(run: Run, page: u32) -> Option<String> {
    refused_or(rules::trial(&run, page).map(|answer| event_text(&answer)))
}

fn layer(run: Run, page: u32) -> Option<String> {
    refused_or(rules::layer(&run, page).map(|number| number.to_string()))
}

fn certain(run: Run, page: u32) -> Option<String> {
    refused_or(rules::certain(&run, page).map(|yes| u8::from(yes).to_string()))
}

fn selection(run: Run) -> Option<String> {
    refused_or(rules::selection(&run).map(|pages| {
        let rising: Vec<u32> = pages.into_iter().collect();
        list_text(&rising)
    }))
}

fn fill(run: Run, page: u32, area: &[u8], page_bytes: &[u8]) -> Option<String> {
    let mut area = bytes(area)?;
    let page_bytes = bytes(page_bytes)?;
    let filled = rules::fill(&run, page, &mut area, &page_bytes);
    refused_or(filled.map(|()| hex(&area)))
}

fn look(run: Run, page: u32, area: Vec<u8>) -> Option<String> {
    Some(match rules::look(&run, page, &area) {
        Ok(part) => format!("0 {}", hex(part)),
        Err(refusal) => format!("{refusal} -"),
    })
}

fn read_trace(file: Vec<u8>) -> Option<String> {
    refused_or(rules::read_trace(&file).map(|trace| {
        let record = record_text(&trace.run);
        format!("{} {} {record}", trace.count, trace.offset)
    }))
}

fn write_trace(words: &[&[u8]]) -> Option<String> {
    let [n, k, start_list, ranks, requests, buffer] = words else {
        return None;
    };
    let (n, k) = (page_number(n)?, page_number(k)?);
    let (pages, ranks) = (list(start_list)?, priorities(ranks)?);
    let requests = list(requests)?;
    let mut buffer = bytes(buffer)?;
    let written = rules::write_trace(n, k, &pages, &ranks, &requests, &mut buffer);
    refused_or(written.map(|length| format!("{length} {}", hex(&buffer))))
}

fn read_image(image: Vec<u8>) -> Option<String> {
    refused_or(rules::read_image(&image).map(|run| record_text(&run)))
}

fn write_image(run: Run, mut buffer: Vec<u8>) -> Option<String> {
    let written = rules::write_image(&run, &mut buffer);
    refused_or(written.map(|length| format!("{length} {}", hex(&buffer))))
}

fn board(mut image: Vec<u8>, page: u32) -> Option<String> {
    let packed = rules::board(&mut image, page);
    Some(format!("{packed} {}", hex(&image)))
}
