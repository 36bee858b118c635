// Runs the two programs to be compared: input in, output out, with a limit on patience.

use std::io::{Read, Write};
use std::os::unix::process::CommandExt;
use std::process::{Child, Command, Stdio};
use std::sync::mpsc;
use std::thread;
use std::time::Duration;

pub const BATCH: usize = 4000;
const LEAST_PATIENCE: Duration = Duration::from_secs(20);

// A question can be without answer by itself, or only beside others that stop the program.
#[derive(Clone)]
pub enum Reply {
    Line(Vec<u8>),
    Silent,
    Unknown,
}

pub struct Program {
    pub command: String,
    pub patience: Duration,
}

// Commands are shell strings; an own process group lets a hanging one be ended as a whole.
fn spawn(command: &str, quiet: bool) -> Option<Child> {
    let errors = if quiet {
        Stdio::null()
    } else {
        Stdio::inherit()
    };
    let mut shell = Command::new("sh");
    shell.arg("-c").arg(command).process_group(0);
    shell.stdin(Stdio::piped()).stdout(Stdio::piped());
    shell.stderr(errors).spawn().ok()
}

fn end_group(child: &Child) {
    let group = format!("kill -KILL -{}", child.id());
    let _ = Command::new("sh").arg("-c").arg(group).status();
}

impl Program {
    // One thread writes and one reads, so that full pipes on both sides cannot lock.
    pub fn output(&self, input: &[u8], quiet: bool) -> Option<Vec<u8>> {
        self.output_within(input, quiet, self.patience)
    }

    fn output_within(&self, input: &[u8], quiet: bool, patience: Duration) -> Option<Vec<u8>> {
        let mut child = spawn(&self.command, quiet)?;
        let mut to = child.stdin.take()?;
        let mut from = child.stdout.take()?;
        let (sender, receiver) = mpsc::channel();
        let read = thread::scope(|scope| {
            // A program that stops reading early is seen by its output, so no error here.
            scope.spawn(move || drop(to.write_all(input)));
            scope.spawn(move || {
                let mut bytes = Vec::new();
                let whole = from.read_to_end(&mut bytes).map(|_| bytes);
                let _ = sender.send(whole.ok());
            });
            let read = receiver.recv_timeout(patience);
            if read.is_err() {
                end_group(&child);
            }
            read
        });
        let _ = child.wait();
        read.ok().flatten()
    }

    // Fewer questions get less time, so that a hanging program is found by halves in the end.
    fn patience_for(&self, questions: usize) -> Duration {
        let share = self.patience.mul_f64(questions as f64 / BATCH as f64);
        share.max(LEAST_PATIENCE).min(self.patience)
    }

    // The answers in order, if there is exactly one whole line for each question.
    pub fn answers_at_once(&self, questions: &[&[u8]], close_last: bool) -> Option<Vec<Vec<u8>>> {
        let mut input = questions.join(&b'\n');
        if close_last || questions.last().is_none_or(|line| line.is_empty()) {
            input.push(b'\n');
        }
        let patience = self.patience_for(questions.len());
        let mut output = self.output_within(&input, true, patience)?;
        if output.pop() != Some(b'\n') {
            return None;
        }
        let lines: Vec<Vec<u8>> = output
            .split(|byte| *byte == b'\n')
            .map(<[u8]>::to_vec)
            .collect();
        (lines.len() == questions.len()).then_some(lines)
    }

    // A program that stops in the middle is asked in halves until the question is found;
    // after so many tries the rest is left unknown.
    pub fn answers(&self, questions: &[&[u8]], close_last: bool, tries: &mut usize) -> Vec<Reply> {
        if let Some(lines) = self.answers_at_once(questions, close_last) {
            return lines.into_iter().map(Reply::Line).collect();
        }
        if questions.len() == 1 {
            return vec![Reply::Silent];
        }
        if *tries == 0 {
            return vec![Reply::Unknown; questions.len()];
        }
        *tries -= 1;
        let (front, back) = questions.split_at(questions.len() / 2);
        let mut all = self.answers(front, true, tries);
        all.extend(self.answers(back, close_last, tries));
        all
    }
}
