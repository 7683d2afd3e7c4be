//! What is counted of sheets: each line that one can have, and where it was
//! to stand in what was lent.

use super::tables::{Event, Row, any, both, mevo, xi};
use crate::list::{Call, Which};

const DSP_LINES: [Row; 12] = [
    both("line 1 R"),
    both("line 2 R"),
    both("line 2 N"),
    both("line 2 K"),
    both("line 3 R"),
    both("line 4 R"),
    both("line 5 R"),
    both("line 6 R"),
    both("line 7 R"),
    xi("line 8 R"),
    xi("line 8 N"),
    xi("line 8 K"),
];

/// The eighth of a Xi is its entry 9.
const AVR_LINES: [Row; 14] = [
    both("line 1 R"),
    both("line 2 R"),
    both("line 3 R"),
    both("line 4 R"),
    both("line 5 R"),
    both("line 6 R"),
    both("line 7 R"),
    both("line 8 R"),
    both("line 8 K"),
    mevo("line 9 R"),
    mevo("line 9 K"),
    mevo("line 10 R"),
    mevo("line 11 R"),
    mevo("line 12 R"),
];

const PI_LINES: [Row; 16] = [
    any("line 1 R"),
    any("line 2 R"),
    any("line 3 R"),
    any("line 4 R"),
    any("line 5 R"),
    any("line 6 R"),
    any("line 7 R"),
    any("line 8 R"),
    any("line 9 R"),
    any("line 10 R"),
    any("line 11 R"),
    any("line 12 R"),
    any("line 13 R"),
    any("line 14 R"),
    any("line 15 R"),
    any("line 16 R"),
];

/// The lines that a sheet can have.
pub fn rows(which: Which) -> &'static [Row] {
    match which {
        Which::Dsp => &DSP_LINES,
        Which::Avr => &AVR_LINES,
        Which::Pi => &PI_LINES,
        _ => &[],
    }
}

const BEFORE_DONE: &str = "sheet before Done";
const AFTER_DONE: &str = "sheet after Done";
const WITHOUT_WORDS: &str = "sheet without words";
const EMPTY: &str = "sheet, empty";
const EMPTY_AT_THE_END: &str = "sheet, empty, at the end";
const JUST_FITS: &str = "sheet that just fits";
const WITH_ROOM: &str = "sheet with room before and behind";
const REFUSED: &str = "refused 5";
const ONE_SHORT: &str = "refused 5, one byte short";
const AT_THE_END: &str = "refused 5, place at the end";
const ONE_PAST: &str = "refused 5, place one past the end";
const NEAR_2_64: &str = "refused 5, end past 2^64";

const ANSWERS: [&str; 12] = [
    BEFORE_DONE,
    AFTER_DONE,
    WITHOUT_WORDS,
    EMPTY,
    EMPTY_AT_THE_END,
    JUST_FITS,
    WITH_ROOM,
    REFUSED,
    ONE_SHORT,
    AT_THE_END,
    ONE_PAST,
    NEAR_2_64,
];

/// What is counted of the askings.
pub fn answer_names(which: Which) -> &'static [&'static str] {
    if which.is_start_up() { &ANSWERS } else { &[] }
}

/// The lines of a sheet that was given.
pub fn lines(event: &Event) -> Vec<&'static str> {
    if !matches!(event.call, Call::Sheet { .. }) {
        return Vec::new();
    }
    let lent = event.answer.split('"').nth(1).expect(event.answer);
    let lines = lent.trim_matches('.').split_terminator("\\x0A");
    lines.map(|line| row(event.before.which, line)).collect()
}

/// The row of a line, by its number and its letter.
fn row(which: Which, line: &str) -> &'static str {
    let [_, number, _, how] = line.split(',').collect::<Vec<_>>()[..] else {
        panic!("not a line of a sheet: {line}");
    };
    let name = format!("line {number} {how}");
    let found = rows(which).iter().find(|row| row.name == name);
    found.unwrap_or_else(|| panic!("no entry has {line}")).name
}

/// What is counted of an asking, beside its number if it was refused.
pub fn answers(event: &Event) -> Vec<&'static str> {
    let (Call::Sheet { lent }, Some(sheet)) = (event.call, event.before.sheet) else {
        return Vec::new();
    };
    let mut met = vec![match event.before.step.name {
        "Done" => AFTER_DONE,
        _ => BEFORE_DONE,
    }];
    if event.accepted() && sheet == 0 {
        met.push(EMPTY);
    }
    let sheet = sheet as u64;
    met.extend(match *lent {
        None => Some(WITHOUT_WORDS),
        Some((at, length)) if event.accepted() => given(at, length as u64, sheet),
        Some((at, length)) => refused(at, length as u64, sheet),
    });
    met
}

fn given(at: u64, length: u64, sheet: u64) -> Option<&'static str> {
    match (sheet, length - at - sheet) {
        (0, 0) => Some(EMPTY_AT_THE_END),
        (0, _) => None,
        (_, 0) => Some(JUST_FITS),
        _ => (at > 0).then_some(WITH_ROOM),
    }
}

fn refused(at: u64, length: u64, sheet: u64) -> Option<&'static str> {
    match at.checked_add(sheet) {
        None => Some(NEAR_2_64),
        _ if at == length => Some(AT_THE_END),
        _ if at == length + 1 => Some(ONE_PAST),
        Some(end) => (at < length && end == length + 1).then_some(ONE_SHORT),
    }
}
