//! Replies of a Pi.

use super::caller::{Caller, Feed};

/// What ticks the row that is awaited.
pub fn reply(call: &mut Caller) -> Feed {
    match call.view.step.name {
        "WaitStatus" => call.feed("PiStatus"),
        "WaitDevInfo" => call.device_info(50),
        "WaitParam0A" | "WaitParams" => call.param_value(),
        "WaitCamConfig1" | "WaitCamConfig2" => call.feed("CamConfig"),
        "WaitNetConfig" | "WaitNetConfigPw" => call.network(),
        _ => usual(call),
    }
}

/// A kind that some row awaits.
pub fn usual(call: &mut Caller) -> Feed {
    match call.random.below(6) {
        0 => call.feed("PiStatus"),
        1 => call.device_info(50),
        2 => call.param_value(),
        3 => call.feed("CamConfig"),
        4 => call.network(),
        _ => call.wrong_ack(),
    }
}
