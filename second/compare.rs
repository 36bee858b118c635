// The comparison: `compare ASK PLAY [--seed S] [--questions Q] [--traces T] [--patience P]`
// asks both programs the same questions and tells every kind in which they differ.

mod badlines;
mod files;
mod lines;
mod programs;
mod questions;
mod random;
mod rules;
mod runs;
mod selftest;
mod shrink;

use programs::{Program, Reply, BATCH};
use questions::Question;
use random::Random;
use std::process::ExitCode;
use std::time::Duration;

const MOST_SHRUNK: usize = 5;
const SHOWN: usize = 20_000;
const NO_ANSWER: &[u8] = b"(no answer)";

struct Settings {
    ask: Program,
    play: Program,
    seed: u64,
    questions: usize,
    traces: usize,
}

struct Kind {
    name: &'static str,
    compared: usize,
    failed: bool,
}

// What was compared so far, kind by kind, in the order of the first question.
struct Tally {
    seed: u64,
    kinds: Vec<Kind>,
    shrunk: usize,
}

impl Tally {
    fn kind(&mut self, name: &'static str) -> &mut Kind {
        let at = self.kinds.iter().position(|kind| kind.name == name);
        let at = at.unwrap_or_else(|| {
            self.kinds.push(Kind {
                name,
                compared: 0,
                failed: false,
            });
            self.kinds.len() - 1
        });
        &mut self.kinds[at]
    }

    fn agreed(&mut self, name: &'static str) {
        self.kind(name).compared += 1;
    }

    // True for the first difference of its kind, which alone is shown.
    fn differed(&mut self, name: &'static str) -> bool {
        let kind = self.kind(name);
        kind.compared += 1;
        !std::mem::replace(&mut kind.failed, true)
    }

    fn may_shrink(&mut self) -> bool {
        self.shrunk += 1;
        self.shrunk <= MOST_SHRUNK
    }

    fn report(&self, settings: &Settings, asked: usize) -> ExitCode {
        for kind in &self.kinds {
            let word = if kind.failed { "DIFFERENT" } else { "same" };
            println!("{}: {} compared, {word}", kind.name, kind.compared);
        }
        let (traces, seed) = (settings.traces, self.seed);
        println!("{asked} questions and {traces} traces, seed {seed}");
        let failed = self.kinds.iter().filter(|kind| kind.failed).count();
        println!("{} passed, {failed} failed", self.kinds.len() - failed);
        ExitCode::from(u8::from(failed > 0))
    }
}

// Questions are shown whole, so that they can be asked again; long answers are cut.
fn shown(bytes: &[u8]) -> String {
    let text = bytes[..bytes.len().min(SHOWN)].escape_ascii().to_string();
    match bytes.len() {
        length if length > SHOWN => format!("{text}... ({length} bytes)"),
        _ => text,
    }
}

fn single_answer(program: &Program, line: &[u8], close: bool) -> Vec<u8> {
    match program.answers_at_once(&[line], close) {
        Some(mut lines) => lines.remove(0),
        None => NO_ANSWER.to_vec(),
    }
}

// A program that stops in the middle is asked in halves, the smaller questions first.
fn first_differing(program: &Program, candidates: &[Vec<u8>]) -> Option<usize> {
    let questions: Vec<&[u8]> = candidates.iter().map(Vec::as_slice).collect();
    if questions.is_empty() {
        return None;
    }
    if let Some(theirs) = program.answers_at_once(&questions, true) {
        let own = |at: usize| lines::answer(&candidates[at]).into_bytes();
        return (0..theirs.len()).find(|at| theirs[*at] != own(*at));
    }
    if candidates.len() == 1 {
        return Some(0);
    }
    let (front, back) = candidates.split_at(candidates.len() / 2);
    first_differing(program, front)
        .or_else(|| first_differing(program, back).map(|at| at + front.len()))
}

// Alone and closed by a newline the question can agree: then the place in the batch mattered.
fn show_difference(settings: &Settings, tally: &mut Tally, question: &Question) {
    println!("difference in {}, seed {}", question.kind, settings.seed);
    let mut line = question.line.clone();
    let alone = first_differing(&settings.ask, std::slice::from_ref(&line)).is_some();
    if alone && tally.may_shrink() {
        line = shrink::question(&line, |all| first_differing(&settings.ask, all));
    }
    if !alone {
        println!("  only among other lines, or as a last line without newline:");
    }
    let theirs = single_answer(&settings.ask, &line, alone);
    println!("  question: {}", line.escape_ascii());
    println!("  ask:      {}", shown(&theirs));
    println!("  second:   {}", shown(lines::answer(&line).as_bytes()));
}

// The best in an answer `0 hit SLOT BEST RECORD` or `0 swap SLOT VICTIM BEST RECORD`.
fn best_in(answer: &[u8]) -> Option<u32> {
    let text = std::str::from_utf8(answer).ok()?;
    let words: Vec<&str> = text.split(' ').collect();
    match words.as_slice() {
        ["0", "hit", _, best, _] | ["0", "swap", _, _, best, _] => best.parse().ok(),
        _ => None,
    }
}

fn check_least(settings: &Settings, tally: &mut Tally, question: &Question, answer: &[u8]) {
    let wrong = question.least.is_some() && best_in(answer) != question.least;
    if !wrong {
        tally.agreed(question.kind);
    } else if tally.differed(question.kind) {
        println!("difference in {}, seed {}", question.kind, settings.seed);
        println!("  question: {}", question.line.escape_ascii());
        println!("  ask:      {}", shown(answer));
        println!("  least loads: {:?}", question.least);
    }
}

fn compare_batch(settings: &Settings, tally: &mut Tally, batch: &[Question], close_last: bool) {
    let questions: Vec<&[u8]> = batch.iter().map(|asked| asked.line.as_slice()).collect();
    let (theirs, own) = std::thread::scope(|scope| {
        let asking = scope.spawn(|| settings.ask.answers(&questions, close_last, &mut 30));
        let own: Vec<String> = questions.iter().map(|line| lines::answer(line)).collect();
        (asking.join().expect("the asking thread ends"), own)
    });
    for (at, question) in batch.iter().enumerate() {
        match &theirs[at] {
            Reply::Unknown => (),
            Reply::Line(answer) if answer == own[at].as_bytes() => {
                check_least(settings, tally, question, answer);
            }
            _ => {
                if tally.differed(question.kind) {
                    show_difference(settings, tally, question);
                }
            }
        }
    }
}

fn compare_questions(settings: &Settings, tally: &mut Tally) -> usize {
    let mut random = Random::new(settings.seed);
    let mut asked = 0;
    while asked < settings.questions {
        let count = BATCH.min(settings.questions - asked);
        let batch = questions::batch(&mut random, count, asked == 0);
        compare_batch(settings, tally, &batch, random.chance(50));
        asked += batch.len();
    }
    asked
}

fn plays_differ(play: &Program, file: &[u8]) -> bool {
    let own = rules::play(file).into_bytes();
    play.output(file, true) != Some(own)
}

fn agreeing_lines(own: &[u8], theirs: &[u8]) -> usize {
    let newline = |byte: &u8| *byte == b'\n';
    let pairs = own.split(newline).zip(theirs.split(newline));
    pairs.take_while(|(one, other)| one == other).count()
}

// What comes behind the first line that differs is cut off at once, then requests are tried.
fn shorter_trace(play: &Program, file: &[u8]) -> Vec<u8> {
    let own = rules::play(file).into_bytes();
    let theirs = play.output(file, true).unwrap_or_default();
    let mut short = file.to_vec();
    if rules::read_trace(file).is_ok() {
        let cut = shrink::first_requests(file, agreeing_lines(&own, &theirs));
        if plays_differ(play, &cut) {
            short = cut;
        }
    }
    shrink::trace(&short, |some| plays_differ(play, some))
}

fn line_at(text: &[u8], at: usize) -> String {
    match text.split(|byte| *byte == b'\n').nth(at) {
        Some(line) => shown(line),
        None => "(no line)".to_string(),
    }
}

fn show_plays(play: &Program, file: &[u8]) {
    let own = rules::play(file).into_bytes();
    let theirs = play.output(file, true).unwrap_or(NO_ANSWER.to_vec());
    let at = agreeing_lines(&own, &theirs);
    println!("  trace:  {}", lines::hex(file));
    println!("  first different line: {}", at + 1);
    println!("  play:   {}", line_at(&theirs, at));
    println!("  second: {}", line_at(&own, at));
}

fn compare_trace(settings: &Settings, tally: &mut Tally, kind: &'static str, file: &[u8]) {
    if !plays_differ(&settings.play, file) {
        return tally.agreed(kind);
    }
    if !tally.differed(kind) {
        return;
    }
    println!("difference in {kind}, seed {}", settings.seed);
    let mut short = file.to_vec();
    if tally.may_shrink() {
        short = shorter_trace(&settings.play, file);
    }
    show_plays(&settings.play, &short);
}

// Longer than any trace can be; the header decides which refusal comes first.
fn overlong_file(random: &mut Random) -> Vec<u8> {
    let mut file = files::full_trace(random, 30_000);
    let more = random.pick(&[1, 2, 5000, 70_000]);
    file.extend(random.bytes(more));
    let at = 4 * random.below(6) as usize;
    if random.chance(60) {
        file[at] ^= 1;
    }
    file
}

fn compare_traces(settings: &Settings, tally: &mut Tally) {
    let mut random = Random::new(settings.seed ^ 0x7472_6163_6573);
    for at in 0..settings.traces {
        let count = random.below(40);
        let (kind, file) = match at % 60 {
            0 => ("play, longest", files::returning_trace(&mut random, 30_000)),
            1 => ("play, too long", overlong_file(&mut random)),
            2 => ("play, refused file", Vec::new()),
            30 => ("play, longest", files::full_trace(&mut random, 30_000)),
            31 => ("play, too long", overlong_file(&mut random)),
            even if even % 2 == 0 => {
                let file = files::trace_file(&mut random, count, 60);
                ("play, refused file", file)
            }
            _ => ("play", files::trace_file(&mut random, count, 0)),
        };
        compare_trace(settings, tally, kind, &file);
    }
}

fn compare_worked_cases(tally: &mut Tally) {
    let wrong = selftest::wrong_cases();
    if wrong.is_empty() {
        return tally.agreed("worked cases");
    }
    tally.differed("worked cases");
    println!("worked cases wrong: {}", wrong.join(", "));
}

fn option(words: &[String], name: &str, otherwise: u64) -> Option<u64> {
    match words.iter().position(|word| word == name) {
        None => Some(otherwise),
        Some(at) => words.get(at + 1)?.parse().ok(),
    }
}

fn settings(words: &[String]) -> Option<Settings> {
    let (ask, play) = (words.first()?, words.get(1)?);
    let patience = Duration::from_secs(option(words, "--patience", 300)?);
    let program = |command: &String| Program {
        command: command.clone(),
        patience,
    };
    Some(Settings {
        ask: program(ask),
        play: program(play),
        seed: option(words, "--seed", 1)?,
        questions: option(words, "--questions", 100_000)? as usize,
        traces: option(words, "--traces", 120)? as usize,
    })
}

// A command that cannot be run at all is told apart from one that answers wrongly.
fn answers_something(program: &Program, input: &[u8]) -> bool {
    let output = program.output(input, false);
    let something = output.is_some_and(|bytes| !bytes.is_empty());
    if !something {
        eprintln!("compare: `{}` prints nothing", program.command);
    }
    something
}

fn main() -> ExitCode {
    let words: Vec<String> = std::env::args().skip(1).collect();
    let Some(settings) = settings(&words) else {
        eprintln!(
            "usage: compare ASK PLAY [--seed S] [--questions Q] [--traces T] [--patience SECONDS]"
        );
        return ExitCode::from(2);
    };
    if !answers_something(&settings.ask, b"start 2 1 0 default\n")
        || !answers_something(&settings.play, b"")
    {
        return ExitCode::from(2);
    }
    let mut tally = Tally {
        seed: settings.seed,
        kinds: Vec::new(),
        shrunk: 0,
    };
    compare_worked_cases(&mut tally);
    let asked = compare_questions(&settings, &mut tally);
    compare_traces(&settings, &mut tally);
    tally.report(&settings, asked)
}
