//! Replies in a settings run.

use super::caller::{Caller, Feed};
use crate::running::Echoes;

/// What ticks the row that is awaited. Neither the command that an ack
/// names nor the values of an echo matter.
pub fn reply(call: &mut Caller) -> Feed {
    match call.view.step.name {
        "WaitParamAck" => ack(call, 0x3F),
        "WaitModeEcho" => mode(call),
        "WaitRadarCalEcho" => calibration(call),
        "Done" => usual(call),
        _ => ack(call, 0x30),
    }
}

/// A kind that some row awaits, or a reply that isn't one.
pub fn usual(call: &mut Caller) -> Feed {
    match call.random.below(8) {
        0..2 => ack(call, 0x30),
        2 => mode(call),
        3 => calibration(call),
        4 => call.param_value(),
        5 => call.feed("ConfigNack"),
        6 => call.feed("AvrConfigResp"),
        _ => call.wrong_ack(),
    }
}

/// An ack of the command that was sent, or of any.
fn ack(call: &mut Caller, command: u8) -> Feed {
    match call.random.chance(50) {
        true => call.ack("ConfigAck", command),
        false => call.feed("ConfigAck"),
    }
}

/// From the AVR as a rule.
fn echo(call: &mut Caller, name: &str) -> Feed {
    match call.random.chance(15) {
        true => call.feed_from_any(name),
        false => call.feed(name),
    }
}

/// The mode as it was sent, or any.
fn mode(call: &mut Caller) -> Feed {
    let mut feed = echo(call, "ModeSet");
    if let Some(Echoes { mode, .. }) = call.view.echoes
        && call.random.chance(50)
    {
        feed.set(0, mode.to_string());
    }
    feed
}

/// Each value of the calibration as it was sent, or any.
fn calibration(call: &mut Caller) -> Feed {
    let mut feed = echo(call, "RadarCal");
    let sent = call.view.echoes.and_then(|echoes| echoes.radar_cal);
    let Some((range, height)) = sent else {
        return feed;
    };
    let same = call.random.below(4);
    if same != 1 {
        feed.set(0, range.to_string());
    }
    if same != 2 {
        feed.set(1, height.to_string());
    }
    feed
}
