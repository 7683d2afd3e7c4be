//! Replies in an arm.

use super::caller::{Caller, Feed};
use crate::running::Fields;

/// In each "ARMED" counts somewhere; "CANCELLED" stands in none.
const ARMED: [&str; 12] = [
    "ARMED",
    "ARMED",
    "ARMED",
    "ARMED DetectionMode=9",
    "ARMED CANCELLE",
    "ARMED cancelled",
    "DISARMED ARMED",
    "ARMED DISARMED",
    "disARMED",
    "@ARMED",
    "[ARMED",
    "ÉARMED",
];

/// In each it stands, and never counts: on these the Rust's rule differs.
const BEHIND_CAPITALS: [&str; 6] = [
    "DISARMED",
    "DISARMED",
    "AARMED",
    "ZARMED",
    "DARMEDARMED",
    "DISARMED, DISARMED",
];

/// None of these counts, by either rule.
const WRONG: [&str; 11] = [
    "ARMED CANCELLED",
    "ARMED CANCELLED",
    "CANCELLED ARMED",
    "CANCELLED",
    "DISARMED CANCELLED",
    "DISARMEDCANCELLED",
    "ARME",
    "RMED",
    "armed",
    "Armed",
    "ARM ED",
];

/// What goes on to the next step, or back to the first; at the last step
/// from any source. Now and then, at each step, a text on which the rules
/// differ.
pub fn reply(call: &mut Caller) -> Feed {
    let step = call.view.step.name;
    let often = if step == "WaitPiAndArmed" { 6 } else { 1 };
    if call.random.chance(often) {
        return call.text(&BEHIND_CAPITALS);
    }
    match step {
        "WaitDspStatus" => dsp_status(call),
        "WaitAvrStatus" => call.feed("AvrStatus"),
        "WaitArmAck" if call.random.chance(45) => call.feed("ConfigNack"),
        "WaitArmAck" => call.feed("ConfigAck"),
        "WaitPiAndArmed" => last(call),
        _ => usual(call),
    }
}

fn dsp_status(call: &mut Caller) -> Feed {
    let version = call.random.pick(&["DspStatus V80", "DspStatus V46"]);
    call.feed(version)
}

/// The Pi's status or the text, mostly what isn't there yet; a text that is
/// almost the one, too.
fn last(call: &mut Caller) -> Feed {
    if call.random.chance(30) {
        return wrong_text(call);
    }
    let status = match call.view.step.fields {
        Fields::Got { pi: true, .. } => 15,
        Fields::Got { armed: true, .. } => 85,
        _ => 50,
    };
    match call.random.chance(status) {
        true => call.feed_from_any("PiStatus"),
        false => call.agreed_text(&ARMED),
    }
}

/// A kind that some step awaits, or a text much like it.
pub fn usual(call: &mut Caller) -> Feed {
    match call.random.below(9) {
        0 => dsp_status(call),
        1 => call.feed("AvrStatus"),
        2 => call.feed("ConfigAck"),
        3..5 => call.feed("ConfigNack"),
        5 => call.feed_from_any("PiStatus"),
        6 => call.wrong_ack(),
        _ => wrong_text(call),
    }
}

/// A text that doesn't count, or counts at the last step alone.
fn wrong_text(call: &mut Caller) -> Feed {
    match call.random.below(9) {
        0 => call.text_with_both("ARMED", "CANCELLED"),
        1 => call.text_with_both("CANCELLED", "ARMED"),
        2 => call.agreed_text(&ARMED),
        _ => call.text(&WRONG),
    }
}
