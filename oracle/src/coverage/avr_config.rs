//! What is counted of a settings run.

use std::num::FpCategory;

use super::tables::{Event, Row, any};
use crate::addr::BusAddr;
use crate::list::{Feed, Settings};
use crate::protocol::Message;
use crate::protocol::config::{ParamData, ParamValue};
use crate::refusal::MOST_PARAMS;
use crate::running::Fields;
use crate::seq::AvrSettings;

pub const ROWS: [Row; 32] = [
    any("1 ConfigAck, parameters"),
    any("1 ConfigAck, no parameter"),
    any("parameter ConfigAck"),
    any("parameter commit, one more"),
    any("parameter commit, the last"),
    any("parameter commit of the 32nd"),
    any("ModeSet, as sent"),
    any("ModeSet, other value"),
    any("mode commit, calibration"),
    any("mode commit, no calibration"),
    any("RadarCal, as sent"),
    any("RadarCal, other values"),
    any("calibration commit"),
    any("acked_cmd of what was sent"),
    any("acked_cmd of something else"),
    any("sent Int24 0"),
    any("sent Int24 positive"),
    any("sent Int24 negative"),
    any("sent Int24 past 24 bits"),
    any("sent Float40 0.0"),
    any("sent Float40 -0.0"),
    any("sent Float40 subnormal"),
    any("sent Float40 -subnormal"),
    any("sent Float40 normal"),
    any("sent Float40 -normal"),
    any("sent Float40 infinite"),
    any("sent Float40 -infinite"),
    any("no tick: ConfigAck of another"),
    any("no tick: ModeSet of another"),
    any("no tick: RadarCal of another"),
    any("no tick: ConfigNack for an ack"),
    any("no tick: ParamValue for an ack"),
];

pub const ANSWERS: [&str; 29] = [
    "begun by avr_config",
    "begun by mode_only",
    "begun by mevo_settings",
    "begun with 0 parameters",
    "begun with 1 parameter",
    "begun with 2 parameters",
    "begun with 3 to 30 parameters",
    "begun with 31 parameters",
    "begun with 32 parameters",
    "begun with calibration",
    "begun without calibration",
    "refused 4",
    "refused 4 of 33 parameters",
    "refused 4 of more parameters",
    "refused 4, no id twice",
    "refused 4, an id twice within 32",
    "refused 4, an id twice past 32",
    "refused 6",
    "refused 6, at neighbours",
    "refused 6, at the first and last",
    "refused 6, further apart",
    "refused 6, the same value",
    "refused 6, another value",
    "refused 6, another kind",
    "refused 6, id 0",
    "refused 6, at more than two places",
    "refused 1",
    "refused 2",
    "feed after Done",
];

/// What a run was begun with, or why it wasn't.
pub fn begun(settings: &Settings, outcome: &str) -> Vec<&'static str> {
    match (settings, outcome) {
        (Settings::ModeOnly(_), _) => vec!["begun by mode_only"],
        (Settings::Mevo(_), _) => vec!["begun by mevo_settings"],
        (Settings::Given(settings), "accepted") => with(settings),
        (Settings::Given(settings), "refused 4") => too_many(&settings.params),
        (Settings::Given(settings), _) => repeated(&settings.params),
    }
}

/// The places, from 0, at which parameters have the same id, two and two.
fn pairs(params: &[ParamValue]) -> Vec<(usize, usize)> {
    let two = |other| (0..other).map(move |one| (one, other));
    let same = |&(one, other): &(usize, usize)| params[one].param_id == params[other].param_id;
    (0..params.len()).flat_map(two).filter(same).collect()
}

fn too_many(params: &[ParamValue]) -> Vec<&'static str> {
    let pairs = pairs(params);
    let within = |(_, other): &(usize, usize)| *other < MOST_PARAMS;
    vec![
        "refused 4",
        match params.len() {
            33 => "refused 4 of 33 parameters",
            _ => "refused 4 of more parameters",
        },
        match pairs.iter().any(within) {
            true => "refused 4, an id twice within 32",
            false if pairs.is_empty() => "refused 4, no id twice",
            false => "refused 4, an id twice past 32",
        },
    ]
}

/// Where no more than two places have the same id, it is told which they are
/// and what stands there.
fn repeated(params: &[ParamValue]) -> Vec<&'static str> {
    let [(one, other)] = pairs(params)[..] else {
        return vec!["refused 6", "refused 6, at more than two places"];
    };
    let mut repeated = vec!["refused 6"];
    repeated.push(match (one, other) {
        _ if other == one + 1 => "refused 6, at neighbours",
        (0, _) if other + 1 == params.len() => "refused 6, at the first and last",
        _ => "refused 6, further apart",
    });
    repeated.push(match (&params[one].value, &params[other].value) {
        (ParamData::Int24(a), ParamData::Int24(b)) => same_or_other(a == b),
        (ParamData::Float40(a), ParamData::Float40(b)) => same_or_other(a.to_bits() == b.to_bits()),
        _ => "refused 6, another kind",
    });
    if params[one].param_id == 0 {
        repeated.push("refused 6, id 0");
    }
    repeated
}

fn same_or_other(same: bool) -> &'static str {
    match same {
        true => "refused 6, the same value",
        false => "refused 6, another value",
    }
}

fn with(settings: &AvrSettings) -> Vec<&'static str> {
    let mut begun = vec!["begun by avr_config"];
    begun.push(match settings.params.len() {
        0 => "begun with 0 parameters",
        1 => "begun with 1 parameter",
        2 => "begun with 2 parameters",
        3..=30 => "begun with 3 to 30 parameters",
        31 => "begun with 31 parameters",
        _ => "begun with 32 parameters",
    });
    begun.push(match settings.radar_cal {
        Some(_) => "begun with calibration",
        None => "begun without calibration",
    });
    begun
}

/// The row that a call has ticked.
pub fn ticked(event: &Event) -> Option<&'static str> {
    let feed = event.feed()?;
    let (step, next) = (event.before.step.name, event.after.step.name);
    Some(match (step, &feed.message, next) {
        ("WaitInitGateAck", Message::ConfigAck(_), "WaitParamAck") => "1 ConfigAck, parameters",
        ("WaitInitGateAck", Message::ConfigAck(_), _) => "1 ConfigAck, no parameter",
        ("WaitParamAck", Message::ConfigAck(_), _) => "parameter ConfigAck",
        ("WaitParamCommitAck", Message::ConfigAck(_), _) => param_commit(event),
        ("WaitModeEcho", Message::ModeSet(_), _) => match as_sent(event, feed) {
            true => "ModeSet, as sent",
            false => "ModeSet, other value",
        },
        ("WaitModeCommitAck", Message::ConfigAck(_), "Done") => "mode commit, no calibration",
        ("WaitModeCommitAck", Message::ConfigAck(_), _) => "mode commit, calibration",
        ("WaitRadarCalEcho", Message::RadarCal(_), _) => match as_sent(event, feed) {
            true => "RadarCal, as sent",
            false => "RadarCal, other values",
        },
        ("WaitRadarCalCommitAck", Message::ConfigAck(_), "Done") => "calibration commit",
        _ => return None,
    })
}

fn param_commit(event: &Event) -> &'static str {
    match (event.before.step.fields, event.after.step.name) {
        (_, "WaitParamAck") => "parameter commit, one more",
        (Fields::ParamIdx(31), _) => "parameter commit of the 32nd",
        _ => "parameter commit, the last",
    }
}

/// Whether an echo has the values that were sent.
fn as_sent(event: &Event, feed: &Feed) -> bool {
    let Some(sent) = event.before.echoes else {
        return false;
    };
    match &feed.message {
        Message::ModeSet(echo) => echo.mode == sent.mode,
        Message::RadarCal(echo) => sent.radar_cal == Some((echo.range_mm, echo.height_mm)),
        _ => false,
    }
}

/// What else is counted of an accepted call.
pub fn noted(event: &Event) -> Vec<&'static str> {
    let Some(feed) = event.feed() else {
        return Vec::new();
    };
    let mut noted = Vec::new();
    if !event.moved() {
        noted.extend(not_ticked(event.before.step.name, feed));
        return noted;
    }
    noted.extend(acked(event.before.step.name, feed));
    noted.extend(sent(event.answer));
    noted
}

fn not_ticked(step: &str, feed: &Feed) -> Option<&'static str> {
    let echo = matches!(step, "WaitModeEcho" | "WaitRadarCalEcho" | "Done");
    let from_avr = feed.src == BusAddr::Avr;
    match (&feed.message, step) {
        (Message::ConfigAck(_), _) if !echo && !from_avr => Some("no tick: ConfigAck of another"),
        (Message::ModeSet(_), "WaitModeEcho") => Some("no tick: ModeSet of another"),
        (Message::RadarCal(_), "WaitRadarCalEcho") => Some("no tick: RadarCal of another"),
        (Message::ConfigNack(_), _) if !echo && from_avr => Some("no tick: ConfigNack for an ack"),
        (Message::ParamValue(_), "WaitParamAck") if from_avr => {
            Some("no tick: ParamValue for an ack")
        }
        _ => None,
    }
}

/// Whether an ack names what was sent: a parameter, or a commit.
fn acked(step: &str, feed: &Feed) -> Option<&'static str> {
    let Message::ConfigAck(ack) = &feed.message else {
        return None;
    };
    let sent = if step == "WaitParamAck" { 0x3F } else { 0x30 };
    Some(match ack.acked_cmd == sent {
        true => "acked_cmd of what was sent",
        false => "acked_cmd of something else",
    })
}

/// What kind of value a parameter has that was sent.
fn sent(answer: &str) -> Option<&'static str> {
    let mut parts = answer.split("; ");
    let send = parts.find_map(|part| part.strip_prefix("send Avr ParamValue "))?;
    let (_, value) = send.split_once(' ')?;
    match value.split_once('=')? {
        ("int24", digits) => digits.parse().ok().map(integer),
        (_, digits) => {
            let bits = u64::from_str_radix(digits.strip_prefix("0x")?, 16);
            bits.ok().map(|bits| float(f64::from_bits(bits)))
        }
    }
}

fn integer(value: i32) -> &'static str {
    match value {
        0 => "sent Int24 0",
        -8_388_608..0 => "sent Int24 negative",
        1..8_388_608 => "sent Int24 positive",
        _ => "sent Int24 past 24 bits",
    }
}

fn float(value: f64) -> &'static str {
    match (value.classify(), value.is_sign_negative()) {
        (FpCategory::Zero, false) => "sent Float40 0.0",
        (FpCategory::Zero, true) => "sent Float40 -0.0",
        (FpCategory::Subnormal, false) => "sent Float40 subnormal",
        (FpCategory::Subnormal, true) => "sent Float40 -subnormal",
        (FpCategory::Infinite, false) => "sent Float40 infinite",
        (FpCategory::Infinite, true) => "sent Float40 -infinite",
        (FpCategory::Normal, false) => "sent Float40 normal",
        (FpCategory::Normal, true) => "sent Float40 -normal",
        (FpCategory::Nan, _) => unreachable!("no list has a NaN"),
    }
}
