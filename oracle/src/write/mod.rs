//! Writes answers, as docs/REPLAY.md says.

mod records;

pub use records::{
    avr_status, cam_config, dev_info, dsp_status, hw_info, nack, params, payload, settings,
};

use crate::addr::BusAddr;
use crate::protocol::Command;
use crate::protocol::config::{ParamData, ParamValue, RadarCal};
use crate::protocol::handshake::TimeSync;
use crate::protocol::status::ConfigAck;
use crate::running::{Fields, Step};
use crate::seq::Action;

const DIGITS: [char; 16] = [
    '0', '1', '2', '3', '4', '5', '6', '7', '8', '9', 'A', 'B', 'C', 'D', 'E', 'F',
];

/// Writes a field's name, after a blank.
fn name(out: &mut String, name: &str) {
    out.push(' ');
    out.push_str(name);
    out.push('=');
}

pub fn decimal(out: &mut String, value: impl Into<i128>) {
    let value: i128 = value.into();
    if value < 0 {
        out.push('-');
    }
    let mut rest = value.unsigned_abs() as u64;
    let mut digits = [0; 20];
    let mut at = digits.len();
    loop {
        at -= 1;
        digits[at] = (rest % 10) as usize;
        rest /= 10;
        if rest == 0 {
            break;
        }
    }
    out.extend(digits[at..].iter().map(|&digit| DIGITS[digit]));
}

pub fn number(out: &mut String, field: &str, value: impl Into<i128>) {
    name(out, field);
    decimal(out, value);
}

fn byte(out: &mut String, value: u8) {
    out.push(DIGITS[usize::from(value >> 4)]);
    out.push(DIGITS[usize::from(value & 15)]);
}

/// Two hexadecimal digits after `0x`.
pub fn hex(out: &mut String, field: &str, value: u8) {
    name(out, field);
    out.push_str("0x");
    byte(out, value);
}

pub fn boolean(out: &mut String, field: &str, value: bool) {
    name(out, field);
    out.push_str(if value { "true" } else { "false" });
}

/// The digits of a float's bits.
fn float(out: &mut String, field: &str, value: f64) {
    name(out, field);
    out.push_str("0x");
    digits(out, &value.to_bits().to_be_bytes());
}

fn digits(out: &mut String, bytes: &[u8]) {
    for &b in bytes {
        byte(out, b);
    }
}

/// Stored bytes: as digits and as text.
pub fn bytes(out: &mut String, field: &str, bytes: &[u8]) {
    name(out, field);
    digits(out, bytes);
    out.push('|');
    let shown = |&b: &u8| match b {
        0x20..=0x7E => char::from(b),
        _ => '.',
    };
    out.extend(bytes.iter().map(shown));
    out.push('|');
}

/// Bytes as a list of calls has them in a text.
pub fn text(out: &mut String, field: &str, bytes: &[u8]) {
    name(out, field);
    out.push('"');
    for &b in bytes {
        match b {
            b'"' | b'\\' => out.extend(['\\', char::from(b)]),
            0x20..=0x7E => out.push(char::from(b)),
            _ => {
                out.push_str("\\x");
                byte(out, b);
            }
        }
    }
    out.push('"');
}

pub fn word(out: &mut String, field: &str, word: &str) {
    name(out, field);
    out.push_str(word);
}

pub fn none(out: &mut String, field: &str) {
    word(out, field, "none");
}

/// A reading that may be absent.
pub fn reading(out: &mut String, field: &str, value: Option<u64>) {
    match value {
        Some(value) => number(out, field, value),
        None => none(out, field),
    }
}

/// The entry that a call has ticked, before what is sent; in a session behind
/// its start-up's letter.
pub fn ticked(out: &mut String, letter: Option<char>, entry: usize) {
    out.push_str("ticked ");
    out.extend(letter);
    decimal(out, entry as u64);
    out.push_str("; ");
}

/// The step that is next, at the end of an answer.
pub fn step(out: &mut String, step: Step) {
    out.push_str("; ");
    step_words(out, step);
}

pub fn step_words(out: &mut String, step: Step) {
    out.push_str(step.name);
    match step.fields {
        Fields::None => {}
        Fields::Idx(idx) => number(out, "idx", idx as u64),
        Fields::ParamIdx(idx) => number(out, "param_idx", idx as u64),
        Fields::Got { pi, armed } => {
            boolean(out, "got_pi", pi);
            boolean(out, "got_armed", armed);
        }
    }
}

pub fn source(src: BusAddr) -> &'static str {
    match src {
        BusAddr::App => "App",
        BusAddr::Pi => "Pi",
        BusAddr::Avr => "Avr",
        BusAddr::Dsp => "Dsp",
    }
}

/// One send or none.
pub fn send(out: &mut String, action: Option<&Action>) {
    let Some(Action::Send(command, dest)) = action else {
        return out.push_str("no send");
    };
    out.push_str("send ");
    out.push_str(source(*dest));
    out.push(' ');
    self::command(out, command);
}

/// The sends of a call that has one or none.
pub fn sends(out: &mut String, actions: &[Action]) {
    assert!(actions.len() <= 1, "more than one send: {actions:?}");
    send(out, actions.first());
}

/// The sends of a call that may have more.
pub fn each_send(out: &mut String, actions: &[Action]) {
    if actions.is_empty() {
        return send(out, None);
    }
    for (place, action) in actions.iter().enumerate() {
        if place > 0 {
            out.push_str("; ");
        }
        send(out, Some(action));
    }
}

fn command(out: &mut String, command: &Command) {
    out.push_str(command_name(command));
    match command {
        Command::StatusPoll(c) => boolean(out, "pi_mode", c.pi_mode),
        Command::ModeSet(c) => number(out, "mode", c.mode),
        Command::AvrConfigCmd(c) => boolean(out, "arm", c.arm),
        Command::ParamReadReq(c) => hex(out, "param_id", c.param_id),
        Command::ParamValue(c) => param_value(out, c),
        Command::RadarCal(c) => radar_cal(out, "range_mm", c),
        Command::ProdInfoReq(c) => hex(out, "sub_query", c.sub_query),
        Command::NetConfigReq(c) => boolean(out, "query_password", c.query_password),
        Command::CalDataReq(c) => {
            hex(out, "sub_cmd", c.sub_cmd);
            bytes(out, "payload", &c.payload);
        }
        Command::TimeSync(c) => time_sync(out, c),
        Command::ConfigAck(c) => config_ack(out, c),
        _ => {}
    }
}

fn command_name(command: &Command) -> &'static str {
    match command {
        Command::StatusPoll(_) => "StatusPoll",
        Command::ModeSet(_) => "ModeSet",
        Command::AvrConfigCmd(_) => "AvrConfigCmd",
        Command::ParamReadReq(_) => "ParamReadReq",
        Command::ParamValue(_) => "ParamValue",
        Command::RadarCal(_) => "RadarCal",
        Command::DspQuery => "DspQuery",
        Command::ConfigQuery => "ConfigQuery",
        Command::AvrConfigQuery => "AvrConfigQuery",
        Command::DevInfoReq => "DevInfoReq",
        Command::ProdInfoReq(_) => "ProdInfoReq",
        Command::NetConfigReq(_) => "NetConfigReq",
        Command::CalParamReq(_) => "CalParamReq",
        Command::CalDataReq(_) => "CalDataReq",
        Command::TimeSync(_) => "TimeSync",
        Command::CamConfigReq(_) => "CamConfigReq",
        Command::ConfigAck(_) => "ConfigAck",
        other => unreachable!("no ported sequence sends {other:?}"),
    }
}

fn param_value(out: &mut String, param: &ParamValue) {
    hex(out, "param_id", param.param_id);
    match param.value {
        ParamData::Int24(value) => number(out, "int24", value),
        ParamData::Float40(value) => float(out, "float40", value),
    }
}

/// A calibration, its first field under this name.
fn radar_cal(out: &mut String, range_mm: &str, cal: &RadarCal) {
    number(out, range_mm, cal.range_mm);
    number(out, "height_mm", cal.height_mm);
}

fn time_sync(out: &mut String, sync: &TimeSync) {
    number(out, "epoch", sync.epoch);
    number(out, "session", sync.session);
    name(out, "tail");
    digits(out, &sync.tail);
}

fn config_ack(out: &mut String, ack: &ConfigAck) {
    hex(out, "bus_addr", ack.bus_addr);
    hex(out, "acked_cmd", ack.acked_cmd);
}
