//! Replies of an AVR.

use super::caller::{Caller, Feed};

/// What ticks the row that is awaited; a nack of the poll, too.
pub fn reply(call: &mut Caller) -> Feed {
    match call.view.step.name {
        "WaitStatus1" | "WaitStatus2" if call.random.chance(40) => call.ack("ConfigNack", 0x2A),
        "WaitStatus1" | "WaitStatus2" => call.feed("AvrStatus"),
        "WaitDevInfo1" | "WaitDevInfo2" => call.device_info(50),
        "WaitParam0C" | "WaitParam0D" | "WaitParam64" => call.param_value(),
        "WaitConfig" => call.feed("ConfigResp"),
        "WaitFactoryCal" => call.feed("CalDataResp"),
        "WaitIfCal" => call.feed("CalParamResp"),
        "WaitAvrConfig" => call.feed("AvrConfigResp"),
        "WaitTimeSync" => call.feed("TimeSync"),
        _ => usual(call),
    }
}

/// A kind that some row awaits.
pub fn usual(call: &mut Caller) -> Feed {
    match call.random.below(9) {
        0 => call.feed("AvrStatus"),
        1 => call.device_info(50),
        2 => call.param_value(),
        3 => call.feed("ConfigResp"),
        4 => call.feed("CalDataResp"),
        5 => call.feed("CalParamResp"),
        6 => call.feed("AvrConfigResp"),
        7 => call.feed("TimeSync"),
        _ => call.wrong_ack(),
    }
}
