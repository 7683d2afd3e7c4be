//! Lists that are broken at random places, and whether a program answers them
//! as the front end does.

use std::ffi::OsStr;
use std::io::{self, Write};
use std::process::{Command, Stdio};
use std::thread;

use crate::compare::{Source, as_text};
use crate::front;
use crate::generate::{LEANINGS, Random, SESSIONS, twin};
use crate::list::{self, Call, Which};
use crate::show::{self, Form};

/// The lines of a list before it is broken, or some more.
const LINES: usize = 12;
/// The most calls.
const CALLS: u64 = 60;

/// Makes broken lists from a seed.
pub struct Broken {
    sources: Vec<Source>,
    random: Random,
    of_twins: Random,
}

impl Broken {
    pub fn new(seed: u64) -> Self {
        let source = |leaning| Source::new(seed, leaning, false);
        Broken {
            sources: LEANINGS.into_iter().chain([SESSIONS]).map(source).collect(),
            random: Random::new(!seed),
            of_twins: Random::new(seed),
        }
    }

    /// The next list.
    pub fn list(&mut self) -> Vec<u8> {
        let which = self.random.index(self.sources.len());
        let list = self.sources[which].list(LINES, CALLS);
        let mut text = as_text(&list.lines).into_bytes();
        for _ in 0..=self.random.below(12) {
            self.break_it(&mut text);
        }
        comparable(&text)
    }

    /// The same list with other texts in its network replies, and how many
    /// lines of it are others.
    pub fn twin(&mut self, list: &[u8]) -> (Vec<u8>, usize) {
        twin(list, &mut self.of_twins)
    }

    /// Any place, or one in a line that is picked first: so a short line, as
    /// of a check or a sheet, is broken as often as a feed.
    fn place(&mut self, text: &[u8]) -> usize {
        let any = self.random.index(text.len() + 1);
        if self.random.chance(50) {
            return any;
        }
        let lines = text.split(|b| *b == b'\n').count();
        let mut start = 0;
        for _ in 0..self.random.index(lines) {
            start = end_of_line(text, start) + 1;
        }
        start + self.random.index(end_of_line(text, start) - start + 1)
    }

    /// Does one thing to a list that whoever writes one doesn't do.
    fn break_it(&mut self, text: &mut Vec<u8>) {
        let at = self.place(text);
        let random = &mut self.random;
        let count = random.index(8) + 1;
        let to = (at + count).min(text.len());
        match random.below(12) {
            0 => flip(text, at, random.below(8)),
            1 => drop(text.splice(at..to, (0..count).map(|_| random.byte()))),
            2 => drop(text.splice(at..at, (0..count).map(|_| random.byte()))),
            3 => drop(text.drain(at..to)),
            4 => drop(text.drain(at..end_of_line(text, at))),
            5 => text
                .splice(at..at, [random.pick(b"\n\r\t \"\\=#,x0-;|")])
                .for_each(drop),
            6 => double(text, at),
            7 => join(text, at),
            8 => text.truncate(at),
            9 => drop(text.splice(at..at, b"99999999999999999999".iter().copied())),
            10 => swap(text, at, random.index(text.len() + 1)),
            _ => long(text, at, random.below(500)),
        }
    }
}

fn flip(text: &mut [u8], at: usize, bit: u64) {
    if let Some(byte) = text.get_mut(at) {
        *byte ^= 1 << bit;
    }
}

fn end_of_line(text: &[u8], at: usize) -> usize {
    let found = text[at..].iter().position(|b| *b == b'\n');
    found.map_or(text.len(), |place| at + place)
}

fn start_of_line(text: &[u8], at: usize) -> usize {
    let found = text[..at].iter().rposition(|b| *b == b'\n');
    found.map_or(0, |place| place + 1)
}

/// Doubles the line at a place.
fn double(text: &mut Vec<u8>, at: usize) {
    let (start, end) = (start_of_line(text, at), end_of_line(text, at));
    let mut line = text[start..end].to_vec();
    line.push(b'\n');
    text.splice(start..start, line);
}

/// Joins a line with the next.
fn join(text: &mut Vec<u8>, at: usize) {
    let end = end_of_line(text, at);
    if end < text.len() {
        text.remove(end);
    }
}

/// Writes the line at one place before that at another.
fn swap(text: &mut Vec<u8>, at: usize, other: usize) {
    let (start, end) = (start_of_line(text, at), end_of_line(text, at));
    let mut line: Vec<u8> = text.drain(start..end).collect();
    line.push(b'\n');
    let other = start_of_line(text, other.min(text.len()));
    text.splice(other..other, line);
}

/// Makes a line long, and now and then longer than it may be.
fn long(text: &mut Vec<u8>, at: usize, count: u64) {
    let count = if count == 0 { 70_000 } else { count as usize };
    let byte = *text.get(at).unwrap_or(&b' ');
    text.splice(at..at, vec![byte; count]);
}

/// Without the feeds of a text that isn't UTF-8, which the Rust can't hold,
/// and without a byte order mark.
fn comparable(text: &[u8]) -> Vec<u8> {
    let holds = |line: &&[u8]| match list::read(line, Some(Which::Dsp)) {
        Ok(Some(Call::Feed(feed))) => std::str::from_utf8(&feed.text).is_ok(),
        _ => true,
    };
    let text = front::without_mark(text);
    let lines: Vec<&[u8]> = text.split(|b| *b == b'\n').filter(holds).collect();
    lines.join(&b'\n')
}

/// What a program made of a list.
#[derive(PartialEq)]
pub struct Outcome {
    pub output: Vec<u8>,
    /// The exit status, which the script has too.
    pub status: String,
}

/// Runs a program with these words, as the script `replay` does.
pub fn run(program: &OsStr, words: &[&str], text: &[u8]) -> io::Result<Outcome> {
    let mut child = Command::new(program)
        .arg("--status")
        .args(words)
        .stdin(Stdio::piped())
        .stdout(Stdio::piped())
        .spawn()?;
    let mut input = child.stdin.take().expect("a pipe");
    let text = text.to_vec();
    // A program that ends early closes the pipe; its output tells.
    let writer = thread::spawn(move || drop(input.write_all(&text)));
    let ended = child.wait_with_output()?;
    writer.join().expect("writing to the program");
    let status = match ended.status.code() {
        Some(code) => code.to_string(),
        None => ended.status.to_string(),
    };
    Ok(Outcome {
        output: ended.stdout,
        status,
    })
}

/// What the front end makes of it, in a form in which it is shown or plain.
pub fn expected(text: &[u8], shown: Option<Form>) -> Outcome {
    let mut answers = Vec::new();
    front::run(&mut &text[..], &mut answers, true).expect("a buffer");
    let bad = String::from_utf8_lossy(&answers).lines().any(is_bad_line);
    let status = if bad { "1" } else { "0" }.to_string();
    let Some(form) = shown else {
        return Outcome {
            output: answers,
            status,
        };
    };
    let mut output = Vec::new();
    show::run(&mut &text[..], &mut output, form).expect("a buffer");
    Outcome { output, status }
}

fn is_bad_line(answer: &str) -> bool {
    let answer = answer.split_once(": ").map(|(_, answer)| answer);
    answer.is_some_and(|answer| answer.starts_with("bad line at column "))
}

/// The lines that are calls, by their numbers: neither blank nor a comment.
fn calls(text: &[u8]) -> Vec<usize> {
    let mut lines: Vec<&[u8]> = text.split(|b| *b == b'\n').collect();
    if lines.last().is_some_and(|line| line.is_empty()) {
        lines.pop();
    }
    let is_call = |line: &[u8]| {
        let line = if line.len() > list::LONGEST {
            line
        } else {
            line.strip_suffix(b"\r").unwrap_or(line)
        };
        let first = line.iter().find(|b| !matches!(b, b' ' | b'\t'));
        line.len() > list::LONGEST || first.is_some_and(|b| *b != b'#')
    };
    let numbered = lines.iter().enumerate();
    numbered
        .filter(|(_, line)| is_call(line))
        .map(|(i, _)| i + 1)
        .collect()
}

/// What is wrong with the answers to a list, if anything is. Its twin differs
/// in the texts of network replies alone.
pub fn fault(program: &OsStr, text: &[u8], twin: &[u8]) -> io::Result<Option<&'static str>> {
    let plain = run(program, &["--state"], text)?;
    if plain != expected(text, None) {
        return Ok(Some("the answers differ"));
    }
    let answers = String::from_utf8_lossy(&plain.output).into_owned();
    let number = |line: &str| line.split_once(": ").and_then(|(n, _)| n.parse().ok());
    let answered: Vec<Option<usize>> = answers.lines().map(number).collect();
    if answered != calls(text).into_iter().map(Some).collect::<Vec<_>>() {
        return Ok(Some("not one answer for each call"));
    }
    let shown = run(program, &SHOW, text)?;
    let whole = run(program, &[&SHOW[..], &["--secrets"]].concat(), text)?;
    for (shown, secrets) in [(&shown, false), (&whole, true)] {
        let with_state = true;
        let form = Form {
            with_state,
            secrets,
        };
        if *shown != expected(text, Some(form)) {
            return Ok(Some("what is shown differs"));
        }
        if !fits(&shown.output) {
            return Ok(Some("a line that is shown has more than 100 columns"));
        }
    }
    if run(program, &SHOW, twin)? != shown {
        return Ok(Some("its twin is shown otherwise"));
    }
    Ok(None)
}

const SHOW: [&str; 2] = ["--show", "--state"];

fn fits(shown: &[u8]) -> bool {
    let columns = |line: &[u8]| line.iter().filter(|b| **b & 0xC0 != 0x80).count();
    shown
        .split(|b| *b == b'\n')
        .all(|line| columns(line) <= 100)
}
