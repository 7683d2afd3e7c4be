//! Replies in a disarm.

use super::caller::{Caller, Feed};

const MODE_RESET: [&str; 3] = ["ARMED CANCELLED", "ARMED CANCELLED", "DISARMED CANCELLED"];
const STATE_IDLE: [&str; 3] = ["System State", "System State", "  System State 5 "];

/// Texts that have neither, or the other one.
const WRONG: [&str; 21] = [
    "ARMED CANCELLE",
    "RMED CANCELLED",
    "armed cancelled",
    "Armed Cancelled",
    "ARMED  CANCELLED",
    "ARMEDCANCELLED",
    "CANCELLED ARMED",
    "ARMED",
    "CANCELLED",
    "DISARMED",
    "System Stat",
    "ystem State",
    "system state",
    "SYSTEM STATE",
    "SystemState",
    "ARMED CANCELLED",
    "ARMED CANCELLED",
    "ARMED CANCELLED",
    "System State",
    "System State",
    "System State",
];

/// What ticks the row that is awaited; from any source but at the first. A
/// text that almost does, too.
pub fn reply(call: &mut Caller) -> Feed {
    match call.view.step.name {
        "WaitAck" if call.random.chance(20) => call.text(&WRONG),
        "WaitAck" => call.feed("ConfigAck"),
        "WaitModeReset" => mode_ack_or_text(call, &MODE_RESET),
        "WaitStateIdle" => mode_ack_or_text(call, &STATE_IDLE),
        _ => usual(call),
    }
}

fn mode_ack_or_text(call: &mut Caller, needles: &[&str]) -> Feed {
    match call.random.below(10) {
        0..3 => call.feed_from_any("ModeAck"),
        3..6 => call.text(&WRONG),
        _ => call.text(needles),
    }
}

/// A kind that some row awaits, or a text much like one's.
pub fn usual(call: &mut Caller) -> Feed {
    match call.random.below(6) {
        0 => call.feed("ConfigAck"),
        1 => call.feed("ModeAck"),
        2 => call.feed("ConfigNack"),
        _ => call.text(&WRONG),
    }
}
