//! What is counted of the start-ups of DSP, AVR and Pi.

use super::tables::{Event, Row, any, both, mevo, xi};
use crate::addr::BusAddr;
use crate::list::{Call, Feed, Which};
use crate::protocol::Message;
use crate::protocol::status::DspStatus;
use crate::running::{Fields, Step};

pub const DSP_ROWS: [Row; 13] = [
    both("1 DspStatus V80"),
    both("1 DspStatus V46"),
    both("2 DspQueryResp"),
    both("2 ConfigNack"),
    both("2 check"),
    both("3 DevInfoResp"),
    both("4 ProdInfoResp"),
    both("5 ProdInfoResp"),
    both("6 ProdInfoResp"),
    both("7 ConfigResp"),
    xi("8 ConfigAck"),
    xi("8 ConfigNack"),
    xi("8 check"),
];

pub const AVR_ROWS: [Row; 20] = [
    both("1 AvrStatus"),
    both("2 AvrStatus"),
    both("3 DevInfoResp"),
    both("4 DevInfoResp"),
    both("5 ParamValue"),
    both("6 ParamValue"),
    both("7 ConfigResp"),
    mevo("8 CalDataResp"),
    mevo("8 check"),
    both("9 CalParamResp"),
    both("9 check"),
    mevo("10 AvrConfigResp"),
    mevo("11 ParamValue"),
    mevo("12 TimeSync"),
    both("repoll set"),
    both("repoll not moved"),
    both("repoll not yet due"),
    both("repoll sent"),
    both("repoll cleared by 1"),
    both("repoll cleared by 2"),
];

pub const PI_ROWS: [Row; 18] = [
    any("1 PiStatus"),
    any("2 DevInfoResp"),
    any("3 ParamValue"),
    any("4 CamConfig"),
    any("5 CamConfig"),
    any("6 NetConfigResp"),
    any("7 no zero byte"),
    any("7 one zero byte"),
    any("7 more zero bytes"),
    any(PI_READS[0]),
    any(PI_READS[1]),
    any(PI_READS[2]),
    any(PI_READS[3]),
    any(PI_READS[4]),
    any(PI_READS[5]),
    any(PI_READS[6]),
    any(PI_READS[7]),
    any(PI_READS[8]),
];

const PI_READS: [&str; 9] = [
    "8 ParamValue",
    "9 ParamValue",
    "10 ParamValue",
    "11 ParamValue",
    "12 ParamValue",
    "13 ParamValue",
    "14 ParamValue",
    "15 ParamValue",
    "16 ParamValue",
];

pub const DSP_ANSWERS: [&str; 9] = [
    "refused 1",
    "refused 2",
    "refused 3",
    "refused 11",
    "refused 12",
    "feed after Done",
    "result after Done",
    "take with a nack",
    "take without a nack",
];

pub const AVR_ANSWERS: [&str; 10] = [
    "begun without model",
    "begun with Mevo",
    "begun with Xi",
    "refused 1",
    "refused 2",
    "refused 3",
    "refused 11",
    "refused 12",
    "feed after Done",
    "result after Done",
];

pub const PI_ANSWERS: [&str; 5] = [
    "refused 1",
    "refused 2",
    "refused 12",
    "feed after Done",
    "result after Done",
];

/// The row that a call has ticked.
pub fn ticked(event: &Event) -> Option<&'static str> {
    let (step, feed) = (event.before.step, event.feed());
    let message = feed.map(|feed| &feed.message);
    match event.before.which {
        Which::Dsp => dsp_row(step.name, message),
        Which::Avr => avr_row(step.name, message),
        _ => pi_row(step, feed?),
    }
}

/// `None` stands for a check.
fn dsp_row(step: &str, message: Option<&Message>) -> Option<&'static str> {
    Some(match (step, message) {
        ("WaitStatus", Some(Message::DspStatus(DspStatus::V80(_)))) => "1 DspStatus V80",
        ("WaitStatus", Some(Message::DspStatus(DspStatus::V46(_)))) => "1 DspStatus V46",
        ("WaitDspQuery", Some(Message::DspQueryResp(_))) => "2 DspQueryResp",
        ("WaitDspQuery", Some(Message::ConfigNack(_))) => "2 ConfigNack",
        ("WaitDspQuery", None) => "2 check",
        ("WaitDevInfo", Some(Message::DevInfoResp(_))) => "3 DevInfoResp",
        ("WaitProdInfo0", Some(Message::ProdInfoResp(_))) => "4 ProdInfoResp",
        ("WaitProdInfo1", Some(Message::ProdInfoResp(_))) => "5 ProdInfoResp",
        ("WaitProdInfo2", Some(Message::ProdInfoResp(_))) => "6 ProdInfoResp",
        ("WaitConfig", Some(Message::ConfigResp(_))) => "7 ConfigResp",
        ("WaitPowerMode", Some(Message::ConfigAck(_))) => "8 ConfigAck",
        ("WaitPowerMode", Some(Message::ConfigNack(_))) => "8 ConfigNack",
        ("WaitPowerMode", None) => "8 check",
        _ => return None,
    })
}

/// `None` stands for a check.
fn avr_row(step: &str, message: Option<&Message>) -> Option<&'static str> {
    Some(match (step, message) {
        ("WaitStatus1", Some(Message::AvrStatus(_))) => "1 AvrStatus",
        ("WaitStatus2", Some(Message::AvrStatus(_))) => "2 AvrStatus",
        ("WaitDevInfo1", Some(Message::DevInfoResp(_))) => "3 DevInfoResp",
        ("WaitDevInfo2", Some(Message::DevInfoResp(_))) => "4 DevInfoResp",
        ("WaitParam0C", Some(Message::ParamValue(_))) => "5 ParamValue",
        ("WaitParam0D", Some(Message::ParamValue(_))) => "6 ParamValue",
        ("WaitConfig", Some(Message::ConfigResp(_))) => "7 ConfigResp",
        ("WaitFactoryCal", Some(Message::CalDataResp(_))) => "8 CalDataResp",
        ("WaitFactoryCal", None) => "8 check",
        ("WaitIfCal", Some(Message::CalParamResp(_))) => "9 CalParamResp",
        ("WaitIfCal", None) => "9 check",
        ("WaitAvrConfig", Some(Message::AvrConfigResp(_))) => "10 AvrConfigResp",
        ("WaitParam64", Some(Message::ParamValue(_))) => "11 ParamValue",
        ("WaitTimeSync", Some(Message::TimeSync(_))) => "12 TimeSync",
        _ => return None,
    })
}

fn pi_row(step: Step, feed: &Feed) -> Option<&'static str> {
    Some(match (step.name, &feed.message) {
        ("WaitStatus", Message::PiStatus(_)) => "1 PiStatus",
        ("WaitDevInfo", Message::DevInfoResp(_)) => "2 DevInfoResp",
        ("WaitParam0A", Message::ParamValue(_)) => "3 ParamValue",
        ("WaitCamConfig1", Message::CamConfig(_)) => "4 CamConfig",
        ("WaitCamConfig2", Message::CamConfig(_)) => "5 CamConfig",
        ("WaitNetConfig", Message::NetConfigResp(_)) => "6 NetConfigResp",
        ("WaitNetConfigPw", Message::NetConfigResp(_)) => network_row(feed),
        ("WaitParams", Message::ParamValue(_)) => match step.fields {
            Fields::Idx(idx) => PI_READS[idx],
            _ => return None,
        },
        _ => return None,
    })
}

fn network_row(feed: &Feed) -> &'static str {
    match feed.text.iter().filter(|b| **b == 0).count() {
        0 => "7 no zero byte",
        1 => "7 one zero byte",
        _ => "7 more zero bytes",
    }
}

/// What an accepted call has done about the AVR's repoll.
pub fn repoll(event: &Event) -> Option<&'static str> {
    let (before, after) = (event.before, event.after);
    match (before.repoll, after.repoll) {
        (None, Some(_)) => Some("repoll set"),
        (Some(at), Some(_)) => match event.call {
            Call::Check { .. } => Some("repoll not yet due"),
            Call::Feed(feed) if would_move(feed, at) => Some("repoll not moved"),
            _ => None,
        },
        (Some(_), None) => Some(match (before.step == after.step, before.step.name) {
            (true, _) => "repoll sent",
            (false, "WaitStatus1") => "repoll cleared by 1",
            (false, _) => "repoll cleared by 2",
        }),
        (None, None) => None,
    }
}

/// Whether this is a nack that, were none pending, would set a later repoll.
fn would_move(feed: &Feed, repoll: u64) -> bool {
    let later = feed.now > repoll - 1_000_000_000;
    let Message::ConfigNack(nack) = &feed.message else {
        return false;
    };
    feed.src == BusAddr::Avr && nack.acked_cmd == 0x2A && later
}
