//! What is counted of a disarm.

use super::tables::{Event, Row, any};
use super::texts;
use crate::addr::BusAddr;
use crate::armed;
use crate::list::Feed;
use crate::protocol::Message;

pub const ROWS: [Row; 17] = [
    any("1 ConfigAck"),
    any("2 ModeAck of the Avr"),
    any("2 ModeAck of another"),
    any("2 Text of the Avr"),
    any("2 Text of another"),
    any("3 ModeAck of the Avr"),
    any("3 ModeAck of another"),
    any("3 Text of the Avr"),
    any("3 Text of another"),
    any("no tick: 1 ConfigAck of another"),
    any("no tick: 1 ConfigNack"),
    any("no tick: 1 ModeAck"),
    any("no tick: 1 Text of 2"),
    any("no tick: 2 ConfigAck"),
    any("no tick: 2 Text of 3"),
    any("no tick: 3 ConfigAck"),
    any("no tick: 3 Text of 2"),
];

pub const ANSWERS: [&str; 15] = [
    texts::ALONE,
    texts::START,
    texts::MIDDLE,
    texts::END,
    texts::TWICE,
    texts::END_255,
    texts::END_256,
    texts::END_257,
    texts::CUT_SHORT,
    texts::LOWER_CASE,
    texts::OTHER_KIND,
    BEHIND_CAPITALS,
    "refused 1",
    "refused 2",
    "feed after Done",
];

/// An arm takes no such text.
const BEHIND_CAPITALS: &str = "ARMED CANCELLED behind a capital";
const MODE_RESET: &str = "ARMED CANCELLED";
const STATE_IDLE: &str = "System State";

/// What a text must have at a step.
fn needle(step: &str) -> Option<&'static str> {
    match step {
        "WaitModeReset" => Some(MODE_RESET),
        "WaitStateIdle" => Some(STATE_IDLE),
        _ => None,
    }
}

/// The row that a call has ticked.
pub fn ticked(event: &Event) -> Option<&'static str> {
    let feed = event.feed()?;
    let from_avr = feed.src == BusAddr::Avr;
    Some(match (event.before.step.name, &feed.message, from_avr) {
        ("WaitAck", Message::ConfigAck(_), true) => "1 ConfigAck",
        ("WaitModeReset", Message::ModeAck(_), true) => "2 ModeAck of the Avr",
        ("WaitModeReset", Message::ModeAck(_), false) => "2 ModeAck of another",
        ("WaitModeReset", Message::Text(_), true) => "2 Text of the Avr",
        ("WaitModeReset", Message::Text(_), false) => "2 Text of another",
        ("WaitStateIdle", Message::ModeAck(_), true) => "3 ModeAck of the Avr",
        ("WaitStateIdle", Message::ModeAck(_), false) => "3 ModeAck of another",
        ("WaitStateIdle", Message::Text(_), true) => "3 Text of the Avr",
        ("WaitStateIdle", Message::Text(_), false) => "3 Text of another",
        _ => return None,
    })
}

/// What an accepted feed has left as it was.
pub fn noted(event: &Event) -> Option<&'static str> {
    let feed = event.feed().filter(|_| !event.moved())?;
    match (event.before.step.name, &feed.message) {
        ("WaitAck", Message::ConfigAck(_)) => Some("no tick: 1 ConfigAck of another"),
        ("WaitAck", Message::ConfigNack(_)) if from_avr(feed) => Some("no tick: 1 ConfigNack"),
        ("WaitAck", Message::ModeAck(_)) if from_avr(feed) => Some("no tick: 1 ModeAck"),
        ("WaitAck", Message::Text(_)) => has(feed, MODE_RESET, "no tick: 1 Text of 2"),
        ("WaitModeReset", Message::ConfigAck(_)) => Some("no tick: 2 ConfigAck"),
        ("WaitModeReset", Message::Text(_)) => has(feed, STATE_IDLE, "no tick: 2 Text of 3"),
        ("WaitStateIdle", Message::ConfigAck(_)) => Some("no tick: 3 ConfigAck"),
        ("WaitStateIdle", Message::Text(_)) => has(feed, MODE_RESET, "no tick: 3 Text of 2"),
        _ => None,
    }
}

fn from_avr(feed: &Feed) -> bool {
    feed.src == BusAddr::Avr
}

fn has(feed: &Feed, needle: &str, name: &'static str) -> Option<&'static str> {
    texts::has(&feed.text, needle).then_some(name)
}

/// What is counted of the texts.
pub fn answers(event: &Event) -> Vec<&'static str> {
    let Some(needle) = needle(event.before.step.name) else {
        return Vec::new();
    };
    let mut met = texts::answers(event, needle);
    let is_text = |feed: &&Feed| matches!(feed.message, Message::Text(_));
    let text = event.feed().filter(is_text).filter(|_| event.moved());
    if text.is_some_and(|feed| armed::never_counts(&feed.text)) {
        met.push(BEHIND_CAPITALS);
    }
    met
}
