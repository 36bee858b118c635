// The program `second`: answers question lines, or plays a trace, by the naive rules.

mod lines;
mod rules;
mod selftest;

use std::io::{self, BufRead, Read, Write};
use std::process::ExitCode;

fn answer_lines() -> io::Result<()> {
    let mut input = io::stdin().lock();
    let mut output = io::stdout().lock();
    let mut line = Vec::new();
    while input.read_until(b'\n', &mut line)? > 0 {
        if line.last() == Some(&b'\n') {
            line.pop();
        }
        writeln!(output, "{}", lines::answer(&line))?;
        line.clear();
    }
    output.flush()
}

fn play() -> io::Result<()> {
    let mut bytes = Vec::new();
    io::stdin().lock().read_to_end(&mut bytes)?;
    io::stdout().write_all(rules::play(&bytes).as_bytes())
}

fn check_itself() -> ExitCode {
    let wrong = selftest::wrong_cases();
    for name in &wrong {
        println!("wrong: {name}");
    }
    if wrong.is_empty() {
        println!("all worked cases came out right");
    }
    ExitCode::from(u8::from(!wrong.is_empty()))
}

fn done(result: io::Result<()>) -> ExitCode {
    match result {
        Ok(()) => ExitCode::SUCCESS,
        Err(error) => {
            eprintln!("second: {error}");
            ExitCode::from(2)
        }
    }
}

fn main() -> ExitCode {
    let words: Vec<String> = std::env::args().skip(1).collect();
    match words.as_slice() {
        [] => done(answer_lines()),
        [word] if word == "play" => done(play()),
        [word] if word == "selftest" => check_itself(),
        _ => {
            eprintln!("usage: second [play | selftest]");
            ExitCode::from(2)
        }
    }
}
