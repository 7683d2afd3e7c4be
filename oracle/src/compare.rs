//! Compares a program with the front end, on lists from a seed.

use std::ffi::OsString;
use std::io::{self, Write};
use std::process::{Command, Stdio};
use std::thread;

use crate::armed;
use crate::coverage::{Coverage, Seen};
use crate::front::Front;
use crate::generate::{BadLines, Generator, LONG_ARM, Leaning};
use crate::list::{self, Call, Which};
use crate::running::View;
use crate::show::{Form, Show};

/// The lines after which a list ends, with its last sequence.
pub const LIST_LINES: usize = 20_000;

/// From so many calls on there is an arm with as many nacks as are counted.
pub const LONG_ARM_CALLS: u64 = 250_000;

/// The lines that cutting a list down may take in all.
const SHRINK_LINES: usize = 20_000_000;

/// Makes lists and the front end's answers to them.
pub struct Source {
    generator: Generator,
    bad_lines: Option<BadLines>,
    /// The lines of each kind of badness, still to be put in.
    written: Vec<String>,
    /// Whether an arm's run ends before a text on which the rules differ.
    cuts: bool,
    pub coverage: Coverage,
}

/// A list and the front end's answers.
#[derive(Default)]
pub struct List {
    pub lines: Vec<String>,
    pub answers: String,
}

impl Source {
    pub fn new(seed: u64, leaning: Leaning, with_bad_lines: bool) -> Self {
        let mut bad_lines = with_bad_lines.then(|| BadLines::new(seed, leaning.which));
        let mut source = Source {
            generator: Generator::new(seed, leaning),
            written: bad_lines.as_mut().map(BadLines::all).unwrap_or_default(),
            bad_lines,
            cuts: false,
            coverage: Coverage::default(),
        };
        source.coverage.rigs = leaning.rigs;
        source
    }

    /// For so many calls: with a long arm, if they are enough, and no further
    /// than the Rust can be compared with.
    pub fn of_calls(calls: u64, seed: u64, leaning: Leaning, with_bad_lines: bool) -> Self {
        let mut source = Source::new(seed, leaning, with_bad_lines);
        source.cuts = true;
        if calls >= LONG_ARM_CALLS && leaning == LONG_ARM {
            source.generator.long_arm();
            source.coverage.long_arm = true;
        }
        source
    }

    /// The same, but each run to its end.
    pub fn whole(self) -> Self {
        let cuts = false;
        Source { cuts, ..self }
    }

    /// The next list: whole sequences, but no more than so many calls.
    pub fn list(&mut self, lines: usize, calls: u64) -> List {
        let mut list = List::default();
        let mut front = Front::new(true);
        let end = self.coverage.calls + calls;
        let early = self.bad_lines.as_ref().map(|bad| bad.early().to_vec());
        for line in early.unwrap_or_default() {
            self.put(line.to_string(), &mut front, &mut list);
        }
        while self.coverage.calls < end && (list.lines.len() < lines || !self.generator.at_start())
        {
            let line = self.generator.next(front.view(), front.session());
            if let Some(bad) = self.bad_line(&line) {
                self.put(bad, &mut front, &mut list);
            }
            if self.coverage.calls < end {
                self.put(line, &mut front, &mut list);
            }
        }
        list
    }

    /// The bad lines of each kind that are still to be put in.
    pub fn written_left(&self) -> &[String] {
        &self.written
    }

    /// The written ones come first, and often.
    fn bad_line(&mut self, line: &str) -> Option<String> {
        let bad_lines = self.bad_lines.as_mut()?;
        if !bad_lines.chance(if self.written.is_empty() { 25 } else { 75 }) {
            return None;
        }
        match self.written.pop() {
            Some(written) => Some(written),
            None => bad_lines.any(line),
        }
    }

    /// Whether a line is left out, and with it what its run would still have.
    fn cut(&mut self, line: &str, view: Option<View>) -> bool {
        let Some(view) = view.filter(|view| self.cuts && view.which == Which::Arm) else {
            return false;
        };
        let call = match list::read(line.as_bytes(), Some(view.which)) {
            Ok(Some(call)) if armed::cuts(view.which, &call) => call,
            _ => return false,
        };
        self.coverage.cut(&call, view);
        self.generator.cut();
        true
    }

    fn put(&mut self, line: String, front: &mut Front, list: &mut List) {
        if self.cut(&line, front.view()) {
            return;
        }
        let (before, from) = (Seen::of(front), list.answers.len());
        let read = front.line(line.as_bytes(), &mut list.answers);
        let answer = list.answers[from..].trim_end_matches('\n');
        let after = Seen::of(front);
        self.coverage.count(&read, before, after, answer);
        list.lines.push(line);
    }
}

/// The program that is compared.
pub struct Program {
    pub path: OsString,
    /// How lists are shown to people, if they are.
    pub shown: Option<Form>,
}

/// The first line in which two outputs differ. An absent line is `None`.
#[derive(Debug, PartialEq)]
pub struct Difference {
    pub front: Option<String>,
    pub program: Option<String>,
}

impl Program {
    /// What the program writes for a list.
    fn answers(&self, lines: &[String], quiet: bool) -> io::Result<String> {
        let stderr = if quiet {
            Stdio::null()
        } else {
            Stdio::inherit()
        };
        let mut child = Command::new(&self.path)
            .arg("--state")
            .args(self.shown.map(|_| "--show"))
            .args(self.shown.filter(|form| form.secrets).map(|_| "--secrets"))
            .stdin(Stdio::piped())
            .stdout(Stdio::piped())
            .stderr(stderr)
            .spawn()?;
        let mut input = child.stdin.take().expect("a pipe");
        let text = as_text(lines);
        // A program that ends early closes the pipe; its output tells.
        let writer = thread::spawn(move || drop(input.write_all(text.as_bytes())));
        let output = child.wait_with_output()?;
        writer.join().expect("writing to the program");
        let mut answers = String::from_utf8_lossy(&output.stdout).into_owned();
        if !output.status.success() {
            answers += &format!("({})\n", output.status);
        }
        Ok(answers)
    }

    /// Compares the answers to a list with those of the front end.
    pub fn difference(&self, list: &List) -> io::Result<Option<Difference>> {
        let answers = self.answers(&list.lines, false)?;
        if let Some(form) = self.shown {
            return Ok(difference(&shown(&list.lines, form), &answers));
        }
        Ok(difference(&list.answers, &answers))
    }

    fn difference_of(&self, lines: &[String]) -> io::Result<Option<Difference>> {
        let answers = self.answers(lines, true)?;
        let front = match self.shown {
            Some(form) => shown(lines, form),
            None => front_answers(lines),
        };
        Ok(difference(&front, &answers))
    }

    /// The smallest list found that still shows a difference.
    pub fn smallest(
        &self,
        list: &List,
        first: Difference,
    ) -> io::Result<(Vec<String>, Difference)> {
        let differs = |lines: &[String]| matches!(self.difference_of(lines), Ok(Some(_)));
        let sequence = sequence_of(list, &first);
        let lines = if differs(&sequence) {
            sequence
        } else {
            list.lines.clone()
        };
        let smallest = shrink(lines, differs);
        let difference = self.difference_of(&smallest)?;
        Ok((smallest, difference.unwrap_or(first)))
    }
}

/// The lines as a file has them.
pub fn as_text(lines: &[String]) -> String {
    let length = lines.iter().map(|line| line.len() + 1).sum();
    let mut text = String::with_capacity(length);
    for line in lines {
        text += line;
        text.push('\n');
    }
    text
}

pub fn front_answers(lines: &[String]) -> String {
    let (mut front, mut answers) = (Front::new(true), String::new());
    for line in lines {
        let _ = front.line(line.as_bytes(), &mut answers);
    }
    answers
}

/// The lines, shown to people.
fn shown(lines: &[String], form: Form) -> String {
    let (mut show, mut out) = (Show::new(form), Vec::new());
    for line in lines {
        show.line(line.as_bytes(), &mut out);
    }
    show.finish(&mut out);
    String::from_utf8_lossy(&out).into_owned()
}

fn difference(front: &str, program: &str) -> Option<Difference> {
    if front == program {
        return None;
    }
    let (mut front, mut program) = (front.split('\n'), program.split('\n'));
    loop {
        let (front, program) = (front.next(), program.next());
        if front != program {
            return Some(Difference {
                front: front.map(String::from),
                program: program.map(String::from),
            });
        }
    }
}

/// The sequence in which the first difference lies, up to its line.
fn sequence_of(list: &List, difference: &Difference) -> Vec<String> {
    let answer = difference.front.as_deref().unwrap_or("");
    let number = answer.split_once(':').and_then(|(n, _)| n.parse().ok());
    let end: usize = number.unwrap_or(list.lines.len());
    let lines = &list.lines[..end];
    let begins = |line: &String| {
        let read = list::read(line.as_bytes(), Some(Which::Dsp));
        matches!(read, Ok(Some(Call::Begin(_))))
    };
    lines[lines.iter().rposition(begins).unwrap_or(0)..].to_vec()
}

/// Leaves out lines, first many at a time and then one by one, as long as
/// the rest still differs. Of a long list that differs only as a whole it
/// tries not all.
pub fn shrink(mut lines: Vec<String>, differs: impl Fn(&[String]) -> bool) -> Vec<String> {
    let mut size = lines.len().div_ceil(2).max(1);
    let mut tried = 0;
    loop {
        let (mut at, before) = (0, lines.len());
        while at < lines.len() {
            let mut rest = lines.clone();
            rest.drain(at..(at + size).min(lines.len()));
            tried += rest.len();
            if tried > SHRINK_LINES {
                return lines;
            }
            if differs(&rest) {
                lines = rest;
            } else {
                at += size;
            }
        }
        if size == 1 && lines.len() == before {
            return lines;
        }
        size = (size / 2).max(1);
    }
}
