//! What is counted of an arm.

use super::tables::{Event, Row, both, mevo, xi};
use super::texts;
use crate::addr::BusAddr;
use crate::armed;
use crate::list::{Call, Feed};
use crate::protocol::Message;
use crate::protocol::handshake::DeviceModel;
use crate::protocol::status::DspStatus;
use crate::refusal::MOST_RETRIES;
use crate::running::Fields;

pub const ROWS: [Row; 24] = [
    both("1 DspStatus V80"),
    both("1 DspStatus V46"),
    both("2 AvrStatus"),
    both("3 ConfigNack"),
    both("3 ConfigAck"),
    mevo("4 PiStatus before the Text"),
    mevo("4 Text before the PiStatus"),
    mevo("5 Text after the PiStatus"),
    mevo("5 PiStatus after the Text"),
    xi("4 Text alone"),
    both("Done after no nack"),
    both("Done after 1 nack"),
    both("Done after 2 nacks"),
    both("Done after more nacks"),
    both("no tick: 1 DspStatus of another"),
    both("no tick: 1 ConfigNack"),
    both("no tick: 2 AvrStatus of another"),
    both("no tick: 2 ConfigNack"),
    both("no tick: 3 ConfigAck of another"),
    both("no tick: 3 ConfigNack of another"),
    both("no tick: 4 CANCELLED"),
    mevo("no tick: 4 PiStatus again"),
    mevo("no tick: 4 Text again"),
    xi("no tick: 4 PiStatus"),
];

pub const ANSWERS: [&str; 43] = [
    "begun without model",
    "begun with Mevo",
    "begun with Xi",
    "Text of the Avr",
    "Text of another",
    "PiStatus of the Pi",
    "PiStatus of another",
    texts::ALONE,
    texts::START,
    texts::MIDDLE,
    texts::END,
    texts::TWICE,
    texts::END_255,
    texts::END_256,
    texts::END_257,
    texts::CUT_SHORT,
    texts::LOWER_CASE,
    texts::OTHER_KIND,
    BEHIND[0],
    BEHIND[1],
    BEHIND[2],
    BEHIND[3],
    "ARMED counts, the first doesn't",
    "ARMED counts, a later one doesn't",
    "ARMED CANCELLED",
    "CANCELLED ARMED",
    "ARMED and CANCELLED apart",
    "ARMED behind a capital, CANCELLED",
    DIFFERS[0],
    DIFFERS[1],
    DIFFERS[2],
    DIFFERS[3],
    DIFFERS[4],
    DIFFERS[5],
    "retries 0",
    "retries 1",
    "retries of more",
    "refused 1",
    "refused 2",
    "feed after Done",
    LONG[0],
    LONG[1],
    LONG[2],
];

/// What only an arm with 65,535 nacks meets.
pub const LONG: [&str; 3] = ["retries 65535", "refused 13", "ConfigAck after 65535 nacks"];

/// Of an armed text with one "ARMED": what stands before that.
const BEHIND: [&str; 4] = [
    "ARMED behind a small letter",
    "ARMED behind 0x40",
    "ARMED behind 0x5B",
    "ARMED behind 0x89",
];

/// Of a text on which the rules differ: at which step it is fed, or the run is
/// cut; and what it is like.
const DIFFERS: [&str; 6] = [
    "rules differ: before the last step",
    "rules differ: at the last step",
    "rules differ: after Done",
    "rules differ: ARMED behind A",
    "rules differ: ARMED behind Z",
    "rules differ: ARMED twice",
];

const ARMED: &str = "ARMED";
const CANCELLED: &str = "CANCELLED";

/// The row that a call has ticked.
pub fn ticked(event: &Event) -> Option<&'static str> {
    let feed = event.feed()?;
    let (step, from_avr) = (event.before.step, feed.src == BusAddr::Avr);
    Some(match (step.name, &feed.message) {
        ("WaitDspStatus", Message::DspStatus(DspStatus::V80(_))) => "1 DspStatus V80",
        ("WaitDspStatus", Message::DspStatus(DspStatus::V46(_))) => "1 DspStatus V46",
        ("WaitAvrStatus", Message::AvrStatus(_)) if from_avr => "2 AvrStatus",
        ("WaitArmAck", Message::ConfigNack(_)) if from_avr => "3 ConfigNack",
        ("WaitArmAck", Message::ConfigAck(_)) if from_avr => "3 ConfigAck",
        ("WaitPiAndArmed", _) => return last_row(event, feed),
        _ => return None,
    })
}

/// A Xi's last step begins as if the Pi's status were there.
fn last_row(event: &Event, feed: &Feed) -> Option<&'static str> {
    let Fields::Got { pi, armed } = event.before.step.fields else {
        return None;
    };
    let mevo = event.before.model == Some(DeviceModel::Mevo);
    Some(match (&feed.message, pi, armed, event.done()) {
        (Message::PiStatus(_), false, false, false) => "4 PiStatus before the Text",
        (Message::Text(_), false, false, false) => "4 Text before the PiStatus",
        (Message::Text(_), true, false, true) if mevo => "5 Text after the PiStatus",
        (Message::Text(_), true, false, true) => "4 Text alone",
        (Message::PiStatus(_), false, true, true) => "5 PiStatus after the Text",
        _ => return None,
    })
}

/// What else is counted of an accepted call.
pub fn noted(event: &Event) -> Option<&'static str> {
    let feed = event.feed()?;
    if event.done() {
        return Some(match event.after.retries? {
            0 => "Done after no nack",
            1 => "Done after 1 nack",
            2 => "Done after 2 nacks",
            _ => "Done after more nacks",
        });
    }
    if event.moved() {
        return None;
    }
    match (event.before.step.name, &feed.message) {
        ("WaitDspStatus", Message::DspStatus(_)) => Some("no tick: 1 DspStatus of another"),
        ("WaitDspStatus", Message::ConfigNack(_)) => Some("no tick: 1 ConfigNack"),
        ("WaitAvrStatus", Message::AvrStatus(_)) => Some("no tick: 2 AvrStatus of another"),
        ("WaitAvrStatus", Message::ConfigNack(_)) => Some("no tick: 2 ConfigNack"),
        ("WaitArmAck", Message::ConfigAck(_)) => Some("no tick: 3 ConfigAck of another"),
        ("WaitArmAck", Message::ConfigNack(_)) => Some("no tick: 3 ConfigNack of another"),
        ("WaitPiAndArmed", _) => not_ticked(event, feed),
        _ => None,
    }
}

/// What has left the last step as it was.
fn not_ticked(event: &Event, feed: &Feed) -> Option<&'static str> {
    let mevo = event.before.model == Some(DeviceModel::Mevo);
    let has = |needle| texts::has(&feed.text, needle);
    match feed.message {
        Message::PiStatus(_) if mevo => Some("no tick: 4 PiStatus again"),
        Message::PiStatus(_) => Some("no tick: 4 PiStatus"),
        Message::Text(_) if has(ARMED) && has(CANCELLED) => Some("no tick: 4 CANCELLED"),
        Message::Text(_) if armed::is_armed(&feed.text) => Some("no tick: 4 Text again"),
        _ => None,
    }
}

/// What is counted of a text on which the rules differ.
pub fn differing(step: &str, text: &[u8]) -> Vec<&'static str> {
    let mut met = vec![match step {
        "WaitPiAndArmed" => DIFFERS[1],
        "Done" => DIFFERS[2],
        _ => DIFFERS[0],
    }];
    met.extend(match armed::before_each(text)[..] {
        [Some(b'A')] => Some(DIFFERS[3]),
        [Some(b'Z')] => Some(DIFFERS[4]),
        [_, _, ..] => Some(DIFFERS[5]),
        _ => None,
    });
    met
}

/// What is counted of the askings, of the last step, of the limit and of texts
/// on which the rules differ.
pub fn answers(event: &Event) -> Vec<&'static str> {
    if let Call::Retries = event.call {
        return vec![match event.outcome() {
            "0" => "retries 0",
            "1" => "retries 1",
            "65535" => LONG[0],
            _ => "retries of more",
        }];
    }
    let Some(feed) = event.feed() else {
        return Vec::new();
    };
    let step = event.before.step.name;
    match step {
        _ if event.accepted() && armed::differs_in(feed) => differing(step, &feed.text),
        "WaitPiAndArmed" => last_answers(event, feed),
        "WaitArmAck" if event.after.step.name == "WaitPiAndArmed" => {
            let long = event.before.retries == Some(MOST_RETRIES);
            if long { vec![LONG[2]] } else { Vec::new() }
        }
        _ => Vec::new(),
    }
}

fn last_answers(event: &Event, feed: &Feed) -> Vec<&'static str> {
    let mut met = texts::answers(event, ARMED);
    let has = |needle| texts::has(&feed.text, needle);
    met.extend(match (&feed.message, event.moved()) {
        (Message::Text(_), true) if feed.src == BusAddr::Avr => Some("Text of the Avr"),
        (Message::Text(_), true) => Some("Text of another"),
        (Message::PiStatus(_), true) if feed.src == BusAddr::Pi => Some("PiStatus of the Pi"),
        (Message::PiStatus(_), true) => Some("PiStatus of another"),
        (Message::Text(_), false) if has("ARMED CANCELLED") => Some("ARMED CANCELLED"),
        (Message::Text(_), false) if has("CANCELLED ARMED") => Some("CANCELLED ARMED"),
        (Message::Text(_), false) if has(ARMED) && has(CANCELLED) => {
            Some("ARMED and CANCELLED apart")
        }
        _ => None,
    });
    if matches!(feed.message, Message::Text(_)) {
        met.extend(before_armed(event, &feed.text));
    }
    met
}

/// What stands before each "ARMED" of a text.
fn before_armed(event: &Event, text: &[u8]) -> Option<&'static str> {
    let before = armed::before_each(text);
    if event.moved() {
        let counts: Vec<bool> = before.iter().copied().map(armed::counts).collect();
        return match (&before[..], &counts[..]) {
            ([Some(b'a'..=b'z')], _) => Some(BEHIND[0]),
            ([Some(0x40)], _) => Some(BEHIND[1]),
            ([Some(0x5B)], _) => Some(BEHIND[2]),
            ([Some(0x89)], _) => Some(BEHIND[3]),
            (_, [false, ..]) => Some("ARMED counts, the first doesn't"),
            (_, [true, rest @ ..]) if rest.contains(&false) => {
                Some("ARMED counts, a later one doesn't")
            }
            _ => None,
        };
    }
    let spoiled = armed::never_counts(text) && texts::has(text, CANCELLED);
    (spoiled && event.accepted()).then_some("ARMED behind a capital, CANCELLED")
}
