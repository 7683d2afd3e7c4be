//! What is counted of a session: the entries of its start-ups, how one comes
//! behind the other, and its answers.

use super::tables::{Event, Row, any};
use crate::addr::BusAddr;
use crate::list::{Call, Which};
use crate::model::{Model, Tags};
use crate::protocol::Message;
use crate::running::{Part, SessionView};

/// By the letter of the start-up and the entry.
pub const ROWS: [Row; 36] = [
    any("D1"),
    any("D2"),
    any("D3"),
    any("D4"),
    any("D5"),
    any("D6"),
    any("D7"),
    any("D8"),
    any("A1"),
    any("A2"),
    any("A3"),
    any("A4"),
    any("A5"),
    any("A6"),
    any("A7"),
    any("A8"),
    any("A9"),
    any("A10"),
    any("A11"),
    any("A12"),
    any("P1"),
    any("P2"),
    any("P3"),
    any("P4"),
    any("P5"),
    any("P6"),
    any("P7"),
    any("P8"),
    any("P9"),
    any("P10"),
    any("P11"),
    any("P12"),
    any("P13"),
    any("P14"),
    any("P15"),
    any("P16"),
];

const MEVO: &str = "Done, Mevo";
const XI: &str = "Done, Xi";
const RIG: &str = "Done, Rig";
const BOTH: &str = "Done, Xi by the first of two tags";
const CUT_SHORT: &str = "Done, Mevo by a tag cut short";
const NO_TAG: &str = "Done, Mevo without a tag";
const BY_THE_AVR: &str = "Done by the AVR, behind the Pi";
const BY_THE_PI: &str = "Done by the Pi, behind the AVR";
const BY_A_CHECK: &str = "Done by a check";
const ENDED_BY_FEED: &str = "DSP ended by a feed";
const ENDED_BY_NACK: &str = "DSP ended by a nack";
const ENDED_BY_CHECK: &str = "DSP ended by a check";
const TWO_SENDS: &str = "two sends";
const ONE_SEND: &str = "one send, without a camera";
const CHECK_TICKS: &str = "check that ticks the AVR";
const CHECK_POLLS: &str = "check that polls the AVR again";
const AVR_EARLY: &str = "AvrStatus before the AVR begins";
const PI_EARLY: &str = "PiStatus before the Pi begins";
const PI_NEVER: &str = "PiStatus without a camera";
const LATE_DSP: &str = "DspStatus behind the hand-over";
const DSP_NOT_DONE: &str = "refused 12, DSP not done";
const DSP_ALONE: &str = "refused 12, DSP alone done";
const NOT_THE_PI: &str = "refused 12, Pi not done";
const NOT_THE_AVR: &str = "refused 12, AVR not done";
const FIRST_FALLEN: &str = "refused 11, behind the hand-over";
const CHECK_AFTER_DONE: &str = "check after Done";
const SHEET_OF_ALL: &str = "sheet after Done";
const EMPTY_AT_THE_END: &str = "sheet, not begun, at the end";
const REFUSED_EMPTY: &str = "refused 5, not begun";

/// Of each start-up before the DSP is done, and behind that.
const SHEETS: [[&str; 2]; 3] = [
    ["sheet D before the hand-over", "sheet D behind it"],
    ["sheet A before the hand-over", "sheet A behind it"],
    ["sheet P before the hand-over", "sheet P behind it"],
];
const SHEET_OF_NONE: &str = "sheet P without a camera";

pub const ANSWERS: [&str; 46] = [
    MEVO,
    XI,
    RIG,
    BOTH,
    CUT_SHORT,
    NO_TAG,
    BY_THE_AVR,
    BY_THE_PI,
    BY_A_CHECK,
    ENDED_BY_FEED,
    ENDED_BY_NACK,
    ENDED_BY_CHECK,
    TWO_SENDS,
    ONE_SEND,
    CHECK_TICKS,
    CHECK_POLLS,
    AVR_EARLY,
    PI_EARLY,
    PI_NEVER,
    LATE_DSP,
    "refused 1",
    "refused 2",
    "refused 3",
    "refused 11",
    FIRST_FALLEN,
    "refused 12",
    DSP_NOT_DONE,
    DSP_ALONE,
    NOT_THE_PI,
    NOT_THE_AVR,
    "result after Done",
    "feed after Done",
    CHECK_AFTER_DONE,
    "take with a nack",
    "take without a nack",
    SHEETS[0][0],
    SHEETS[0][1],
    SHEETS[1][0],
    SHEETS[1][1],
    SHEETS[2][0],
    SHEETS[2][1],
    SHEET_OF_NONE,
    SHEET_OF_ALL,
    EMPTY_AT_THE_END,
    "refused 5",
    REFUSED_EMPTY,
];

/// The entry that a call has ticked.
pub fn ticked(event: &Event) -> Option<&'static str> {
    let parts = event.answer.split("; ");
    let told = parts
        .take(2)
        .find_map(|part| part.strip_prefix("ticked "))?;
    let row = ROWS.iter().find(|row| row.name == told);
    Some(row.unwrap_or_else(|| panic!("no entry is {told}")).name)
}

/// What is counted beside what every sequence answers.
pub fn answers(event: &Event) -> Vec<&'static str> {
    let (before, after) = event.sessions.expect("a session");
    match event.call {
        Call::Result if !event.accepted() => vec![not_done(&before)],
        Call::SheetOf { which, lent } => sheet(event, &before, *which, *lent),
        Call::Feed(_) | Call::Check { .. } if event.accepted() => {
            let mut met = hand_over(event, &before, &after);
            met.extend(done(event, &after));
            met.extend(checked(event, &before, &after));
            met.extend(early_or_late(event, &before));
            met
        }
        Call::Feed(_) | Call::Check { .. } if event.outcome() == "refused 11" => {
            let heard = before.part(Which::Avr).map(|avr| avr.last);
            Vec::from_iter((heard == Some(0)).then_some(FIRST_FALLEN))
        }
        _ => Vec::new(),
    }
}

fn handed_over(session: &SessionView) -> bool {
    session.part(Which::Avr).is_some()
}

fn is_done(part: Option<Part>) -> bool {
    part.is_some_and(|part| part.step.name == "Done")
}

/// What the call that ends the DSP has done.
fn hand_over(event: &Event, before: &SessionView, after: &SessionView) -> Vec<&'static str> {
    if handed_over(before) || !handed_over(after) {
        return Vec::new();
    }
    let ended = match event.feed().map(|feed| &feed.message) {
        None => ENDED_BY_CHECK,
        Some(Message::ConfigNack(_)) => ENDED_BY_NACK,
        Some(_) => ENDED_BY_FEED,
    };
    let sends = match event.answer.matches("; send ").count() {
        2 => TWO_SENDS,
        _ => ONE_SEND,
    };
    vec![ended, sends]
}

/// What a session was when it got done, and by what.
fn done(event: &Event, after: &SessionView) -> Vec<&'static str> {
    if !event.done() {
        return Vec::new();
    }
    let (model, tags) = after.found.expect("a model");
    let mut met = vec![match model {
        Model::MEVO => MEVO,
        Model::XI => XI,
        _ => RIG,
    }];
    met.extend(match tags {
        Tags::Both => Some(BOTH),
        Tags::CutShort => Some(CUT_SHORT),
        Tags::Neither => Some(NO_TAG),
        Tags::Xi | Tags::Rig => None,
    });
    met.extend(match (ticked(event), after.part(Which::Pi)) {
        (_, None) => None,
        (Some("A12"), _) => Some(BY_THE_AVR),
        _ => Some(BY_THE_PI),
    });
    met.extend(event.feed().is_none().then_some(BY_A_CHECK));
    met
}

/// What a check has done about the AVR.
fn checked(event: &Event, before: &SessionView, after: &SessionView) -> Option<&'static str> {
    let Call::Check { .. } = event.call else {
        return None;
    };
    let (before, after) = (before.part(Which::Avr)?, after.part(Which::Avr)?);
    if before.step != after.step {
        return Some(CHECK_TICKS);
    }
    if before.repoll.is_some() && after.repoll.is_none() {
        return Some(CHECK_POLLS);
    }
    (event.before.step.name == "Done").then_some(CHECK_AFTER_DONE)
}

/// A feed that a start-up would go by which has not begun, or is done.
fn early_or_late(event: &Event, before: &SessionView) -> Option<&'static str> {
    let feed = event.feed()?;
    let begun = handed_over(before);
    match (feed.src, &feed.message) {
        (BusAddr::Avr, Message::AvrStatus(_)) if !begun => Some(AVR_EARLY),
        (BusAddr::Pi, Message::PiStatus(_)) if !begun => Some(PI_EARLY),
        (BusAddr::Pi, Message::PiStatus(_)) if before.part(Which::Pi).is_none() => Some(PI_NEVER),
        (BusAddr::Dsp, Message::DspStatus(_)) if begun => Some(LATE_DSP),
        _ => None,
    }
}

/// Why a result is refused.
fn not_done(before: &SessionView) -> &'static str {
    let done = |which| is_done(before.part(which));
    match (done(Which::Dsp), done(Which::Avr), done(Which::Pi)) {
        (false, _, _) => DSP_NOT_DONE,
        (true, true, _) => NOT_THE_PI,
        (true, false, true) => NOT_THE_AVR,
        (true, false, false) => DSP_ALONE,
    }
}

/// Of which start-up a sheet was asked for, and when.
fn sheet(
    event: &Event,
    before: &SessionView,
    which: Which,
    lent: Option<(u64, usize)>,
) -> Vec<&'static str> {
    let (begun, part) = (handed_over(before), before.part(which));
    let place = Which::START_UPS.iter().position(|other| *other == which);
    let mut met = vec![match part {
        None if begun => SHEET_OF_NONE,
        _ => SHEETS[place.expect("a start-up")][usize::from(begun)],
    }];
    if event.before.step.name == "Done" {
        met.push(SHEET_OF_ALL);
    }
    met.extend(match (part, lent) {
        (None, Some(_)) if !event.accepted() => Some(REFUSED_EMPTY),
        (None, Some((at, length))) if at == length as u64 => Some(EMPTY_AT_THE_END),
        _ => None,
    });
    met
}
