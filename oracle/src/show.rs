//! Shows a list to people, as docs/REPLAY.md says under "Shown to people":
//! its lines, below each call its answer, and at the end what it came to.

mod session;

use std::io::{self, BufRead, Write};
use std::sync::LazyLock;

use crate::front::{Front, without_mark};
use crate::list::{self, Begin, Call, Which};
use crate::papers;
use crate::running::{SessionView, Step, View};
use crate::withheld::{self, Withheld};
use crate::write;

const WIDTH: usize = 100;
/// Before what is folded of a line or of an answer.
const HANG: usize = 8;
const ANSWER: usize = 4;
const FIELD: usize = 6;
const INNER: usize = 8;
const VALUE: usize = 30;
const BYTES_IN_ROW: usize = 16;

/// The fields that stand in no record.
const OUTER: [&str; 24] = [
    "last",
    "status",
    "hw_info",
    "dev_info",
    "prod_info",
    "params",
    "model",
    "tag_place",
    "power_mode_unanswered",
    "deadline",
    "refused",
    "factory_cal",
    "if_cal",
    "avr_config",
    "cal_deadline",
    "repoll_at",
    "cam_config",
    "ssid",
    "password",
    "mode",
    "radar_cal",
    "retries",
    "wait_pi",
    "ticks",
];
const READINGS: [&str; 4] = ["last", "deadline", "cal_deadline", "repoll_at"];
/// The fields that have the camera's network.
const NETWORK: [&str; 2] = ["ssid", "password"];
/// The models that have a tag.
const TAGS: [(&str, &str); 2] = [("model=Xi", "FS Xi"), ("model=Rig", "BAY RIG")];

/// How a list is shown.
#[derive(Clone, Copy, Default)]
pub struct Form {
    pub with_state: bool,
    /// Whether with what is withheld else.
    pub secrets: bool,
}

/// A list that is shown, between two lines.
pub struct Show {
    front: Front,
    secrets: bool,
    /// Whether anything was withheld so far.
    withheld: bool,
    lines: u64,
    calls: u64,
    refused: u64,
    bad_lines: u64,
}

impl Show {
    pub fn new(form: Form) -> Self {
        Show {
            front: Front::new(form.with_state),
            secrets: form.secrets,
            withheld: false,
            lines: 0,
            calls: 0,
            refused: 0,
            bad_lines: 0,
        }
    }

    /// Writes a line, without its line feed, and below it its answer.
    pub fn line(&mut self, line: &[u8], out: &mut Vec<u8>) {
        self.lines += 1;
        let own = if self.lines == 1 {
            without_mark(line)
        } else {
            line
        };
        let before = (self.front.view(), self.front.session());
        let mut answer = String::new();
        let read = self.front.line(line, &mut answer);
        let kept = without_return(&own[..own.len().min(list::LONGEST)]);
        let withheld = match self.secrets {
            true => None,
            false => withheld::of_line(kept, &read),
        };
        self.withheld |= withheld.is_some();
        let shown = match &withheld {
            None => kept.to_vec(),
            Some(Withheld { from, .. }) => {
                [&kept[..*from], b" ", withheld::MARK.as_bytes()].concat()
            }
        };
        folded(out, &shown, 0, HANG);
        let answer = answer.trim_end_matches('\n');
        let answer = answer.split_once(": ").map_or("", |(_, answer)| answer);
        match read {
            Ok(None) => {}
            Ok(Some(call)) => {
                self.calls += 1;
                self.refused += u64::from(answer.starts_with("refused "));
                self.answer(&call, before, answer, out);
            }
            Err(bad) => {
                self.bad_lines += 1;
                if withheld.as_ref().is_some_and(|withheld| withheld.fault) {
                    return indented(out, withheld::FAULT);
                }
                let marked = match withheld {
                    Some(_) => &shown,
                    None => without_return(own),
                };
                mark(out, marked, bad.column);
                indented(out, answer);
            }
        }
    }

    fn answer(
        &mut self,
        call: &Call,
        (before, session): (Option<View>, Option<SessionView>),
        answer: &str,
        out: &mut Vec<u8>,
    ) {
        if gives_no_model(call) {
            indented(out, "model Mevo by default");
        }
        let after = self.front.view();
        let which = after.map(|view| view.which);
        let now = match call {
            Call::Feed(feed) => Some(feed.now),
            Call::Check { now } => Some(*now),
            _ => None,
        };
        if let (Some(now), true) = (now, which.is_some_and(Which::has_clock)) {
            indented(out, &format!("reading {}", reading(&now.to_string())));
        }
        let step = |view: Option<View>| view.map(|view| view.step);
        let moved = matches!(call, Call::Begin(_)) || step(before) != step(after);
        let parts = parts(answer);
        let ticked = parts.iter().find(|part| part[0] == "ticked");
        for part in &parts {
            match (part[0], now) {
                ("ticked", _) => {}
                ("D" | "A" | "P", _) if session::is_step(part) => {
                    if part[0] == "D" {
                        let before = session.filter(|_| !matches!(call, Call::Begin(_)));
                        session::steps(out, before, self.front.session());
                    }
                }
                ("D" | "A" | "P", _) => self.of_start_up(out, part),
                ("accepted", Some(_)) => {
                    let ticked = match (which, ticked) {
                        (Some(Which::Arm), _) if moved => "awaited".to_string(),
                        (Some(Which::Arm), _) => "not awaited".to_string(),
                        (_, Some(ticked)) => ticked.join(" "),
                        (_, None) => "ticked nothing".to_string(),
                    };
                    indented(out, &format!("accepted, {ticked}"));
                }
                ("refused", _) => indented(out, &refused(part[1])),
                (word, _) if is_lent(word) => sheet(out, word),
                ("state", _) if part.len() == 1 => {}
                ("state", _) => {
                    indented(out, "state");
                    match which {
                        Some(Which::Session) => self.of_start_up(out, &part[1..]),
                        _ => self.fields(out, &part[1..]),
                    }
                }
                (word, _) if word.starts_with("Wait") || word == "Done" => {
                    let still = if moved { "now" } else { "still" };
                    indented(out, &format!("{still} {}", part.join(" ")));
                }
                (word, _) if word.contains('=') => self.fields(out, part),
                _ => indented(out, &part.join(" ")),
            }
        }
    }

    /// Writes each field on a line of its own.
    fn fields(&mut self, out: &mut Vec<u8>, words: &[&str]) {
        let mut infos = 0;
        for word in words {
            let (name, value) = word.split_once('=').expect(word);
            let plain = value.split('|').next().unwrap();
            if NETWORK.contains(&name) && !self.secrets {
                self.withheld = true;
                field(out, FIELD, name, withheld::MARK);
            } else if let Some((inner, _)) = plain.split_once('=') {
                out.extend(format!("{:FIELD$}{name}\n", "").bytes());
                field(out, INNER, inner, &value[inner.len() + 1..]);
            } else if name == "prod_info" {
                field(out, FIELD, &format!("{name} {infos}"), value);
                infos += 1;
            } else if name == "tag_place" && value != "none" {
                field(out, FIELD, name, &format!("{value}  \"{}\"", tag(words)));
            } else if OUTER.contains(&name) {
                field(out, FIELD, name, value);
            } else {
                field(out, INNER, name, value);
            }
        }
    }

    /// Sums the list up.
    pub fn finish(&self, out: &mut Vec<u8>) {
        let counted = |count: u64, word: &str| match count {
            1 => format!("1 {word}"),
            _ => format!("{count} {word}s"),
        };
        let (calls, bad_lines) = (self.calls, self.bad_lines);
        let (calls, bad_lines) = (counted(calls, "call"), counted(bad_lines, "bad line"));
        let counts = format!("\n{calls}, {} refused, {bad_lines}\n", self.refused);
        out.extend(counts.bytes());
        match (self.front.view(), self.front.session()) {
            (None, _) => {}
            (Some(view), Some(session)) => session::sum_up(out, view, session),
            (Some(view), None) => sum_up(out, view.which, view.step),
        }
        if self.withheld {
            out.extend(format!("{}\n", withheld::NOTE).bytes());
        }
    }
}

/// Shows every line of a list.
pub fn run(list: &mut dyn BufRead, to: &mut dyn Write, form: Form) -> io::Result<()> {
    let (mut show, mut line, mut out) = (Show::new(form), Vec::new(), Vec::new());
    while list.read_until(b'\n', &mut line)? > 0 {
        show.line(line.strip_suffix(b"\n").unwrap_or(&line), &mut out);
        to.write_all(&out)?;
        (line, out) = (Vec::new(), Vec::new());
    }
    show.finish(&mut out);
    to.write_all(&out)?;
    to.flush()
}

/// Whether the call takes a Mevo since its line gives no model.
fn gives_no_model(call: &Call) -> bool {
    matches!(
        call,
        Call::Begin(Begin::Avr(None) | Begin::Arm(None)) | Call::Keepalive { model: None }
    )
}

// ---- words

fn name(which: Which) -> &'static str {
    match which {
        Which::Dsp => "the DSP start-up",
        Which::Avr => "the AVR start-up",
        Which::Pi => "the Pi start-up",
        Which::AvrConfig => "the settings run",
        Which::Disarm => "the disarm",
        Which::Arm => "the arm",
        Which::Session => "the session",
    }
}

/// Writes whether a sequence is done, and else what it waits for.
fn sum_up(out: &mut Vec<u8>, which: Which, step: Step) {
    let head = format!("{} is ", name(which));
    match waits(which, step) {
        None => out.extend(format!("{head}done\n").bytes()),
        Some((step, words)) => {
            let head = format!("{head}not done: {step} waits for ");
            out.extend(head.bytes());
            folded(out, words.as_bytes(), head.len(), ANSWER);
        }
    }
}

/// The step and what it waits for; nothing at Done.
fn waits(which: Which, step: Step) -> Option<(String, String)> {
    let mut words = String::new();
    write::step(&mut words, step);
    let key = papers::key(words.trim_start_matches("; "));
    papers::steps(which)
        .into_iter()
        .find(|(step, _)| *step == key)
}

/// The reasons, read once.
static REASONS: LazyLock<Vec<(String, String)>> = LazyLock::new(papers::refusals);

fn refused(number: &str) -> String {
    let reason = REASONS.iter().find(|(own, _)| own == number);
    format!("refused {number}: {}", reason.expect(number).1)
}

/// Nanoseconds, and the same as seconds.
fn reading(digits: &str) -> String {
    let nanoseconds: u64 = digits.parse().expect(digits);
    let (seconds, rest) = (nanoseconds / 1_000_000_000, nanoseconds % 1_000_000_000);
    format!("{digits}  {seconds}.{rest:09} s")
}

// ---- lines

/// The first bytes that fit into so many columns, and what is left.
fn parted(line: &[u8], width: usize) -> (&[u8], &[u8]) {
    let takes_column = |b: &u8| !(0x80..0xC0).contains(b);
    let mut places = (0..line.len()).filter(|i| takes_column(&line[*i]));
    let Some(end) = places.nth(width) else {
        return (line, &[]);
    };
    // The last blank or comma, and a blank counts that is too far right by one.
    let last = (0..=end).rev().find_map(|i| match line[i] {
        b' ' | b'\t' if i > 0 => Some((i, i + 1)),
        b',' if i < end => Some((i + 1, i + 1)),
        _ => None,
    });
    let (end, next) = last.unwrap_or((end, end));
    (&line[..end], &line[next..])
}

/// Writes a line from a column on. What doesn't fit goes on in others.
fn folded(out: &mut Vec<u8>, line: &[u8], column: usize, hang: usize) {
    let (mut piece, mut rest) = parted(line, WIDTH - column);
    loop {
        out.extend(piece.iter().map(|b| match b {
            b'\t' => b' ',
            0x00..0x20 | 0x7F => b'.',
            _ => *b,
        }));
        out.push(b'\n');
        if rest.is_empty() {
            return;
        }
        out.extend(vec![b' '; hang]);
        (piece, rest) = parted(rest, WIDTH - hang);
    }
}

fn indented(out: &mut Vec<u8>, line: &str) {
    out.extend(vec![b' '; ANSWER]);
    folded(out, line.as_bytes(), ANSWER, HANG);
}

/// A line as it is read: without the carriage return at its end.
fn without_return(line: &[u8]) -> &[u8] {
    line.strip_suffix(b"\r").unwrap_or(line)
}

/// Marks the place of a fault below a line that isn't folded.
fn mark(out: &mut Vec<u8>, line: &[u8], column: usize) {
    let columns = |bytes: &[u8]| bytes.iter().filter(|b| **b & 0xC0 != 0x80).count();
    if columns(line) > WIDTH {
        return;
    }
    let before = columns(&line[..column - 1]);
    if before < WIDTH {
        out.extend(format!("{:before$}^\n", "").bytes());
    }
}

/// Whether these are the bytes that were lent for a sheet, or those of them
/// that were written.
fn is_lent(word: &str) -> bool {
    ["sheet=\"", "buffer=\""]
        .iter()
        .any(|name| word.starts_with(name))
}

/// Writes the lines of a sheet, without the full stops around them.
fn sheet(out: &mut Vec<u8>, word: &str) {
    let lent = word.split('"').nth(1).expect(word);
    for line in lent.trim_matches('.').split_terminator("\\x0A") {
        out.extend(format!("{:FIELD$}{line}\n", "").bytes());
    }
}

// ---- fields

/// The words of each part of an answer.
pub fn parts(answer: &str) -> Vec<Vec<&str>> {
    let (mut parts, mut rest) = (vec![Vec::new()], answer);
    while !rest.is_empty() {
        let (word, behind) = rest.split_at(word_len(rest));
        parts.last_mut().unwrap().push(word);
        rest = match behind.strip_prefix("; ") {
            Some(behind) => {
                parts.push(Vec::new());
                behind
            }
            None => behind.strip_prefix(' ').unwrap_or(behind),
        };
    }
    parts
}

/// Where a word ends. Its text between bars has half as many bytes as there
/// are digits before it.
fn word_len(words: &str) -> usize {
    let end = words.find([' ', ';']).unwrap_or(words.len());
    match words[..end].find('|') {
        None => end,
        Some(bar) => {
            let digits = bar - words[..bar].rfind('=').map_or(0, |equals| equals + 1);
            bar + digits / 2 + 2
        }
    }
}

/// The tag of the model among the words.
fn tag(words: &[&str]) -> &'static str {
    let found = TAGS.iter().find(|(model, _)| words.contains(model));
    found.expect("a model with a tag").1
}

fn field(out: &mut Vec<u8>, indent: usize, name: &str, value: &str) {
    let width = VALUE - 2 - indent;
    let head = format!("{:indent$}{name:width$}  ", "");
    out.extend(head.bytes());
    if let Some((digits, text)) = value.split_once('|') {
        return bytes(out, digits, text.strip_suffix('|').expect(value));
    }
    let value = match READINGS.contains(&name) && value != "none" {
        true => reading(value),
        false => value.to_string(),
    };
    folded(out, value.as_bytes(), head.len(), VALUE);
}

/// Rows of bytes, each with its text. The texts of more than one stand below
/// each other.
fn bytes(out: &mut Vec<u8>, digits: &str, text: &str) {
    if text.is_empty() {
        out.extend(b"empty\n");
    }
    let digits = digits.as_bytes().chunks(2 * BYTES_IN_ROW);
    let texts = text.as_bytes().chunks(BYTES_IN_ROW);
    let width = if text.len() > BYTES_IN_ROW {
        3 * BYTES_IN_ROW
    } else {
        0
    };
    for (i, (digits, text)) in digits.zip(texts).enumerate() {
        if i > 0 {
            out.extend(vec![b' '; VALUE]);
        }
        let pair = |pair: &[u8]| format!("{}{} ", char::from(pair[0]), char::from(pair[1]));
        let pairs: String = digits.chunks(2).map(pair).collect();
        let text = String::from_utf8_lossy(text);
        out.extend(format!("{pairs:width$} |{text}|\n").bytes());
    }
}
