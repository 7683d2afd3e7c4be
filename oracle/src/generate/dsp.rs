//! Replies of a DSP.

use super::caller::{Caller, Feed};

/// What ticks the row that is awaited.
pub fn reply(call: &mut Caller) -> Feed {
    match call.view.step.name {
        "WaitStatus" => {
            let version = call.random.pick(&["DspStatus V80", "DspStatus V46"]);
            call.feed(version)
        }
        "WaitDspQuery" if call.random.chance(40) => call.ack("ConfigNack", 0x48),
        "WaitDspQuery" => call.feed("DspQueryResp"),
        "WaitDevInfo" => call.device_info(15),
        "WaitProdInfo0" | "WaitProdInfo1" | "WaitProdInfo2" => call.feed("ProdInfoResp"),
        "WaitConfig" => call.feed("ConfigResp"),
        "WaitPowerMode" => {
            let kind = call.random.pick(&["ConfigAck", "ConfigNack"]);
            call.ack(kind, 0x3F)
        }
        _ => usual(call),
    }
}

/// A kind that some row awaits.
pub fn usual(call: &mut Caller) -> Feed {
    match call.random.below(8) {
        0 => call.feed("DspStatus V80"),
        1 => call.feed("DspStatus V46"),
        2 => call.feed("DspQueryResp"),
        3..5 => call.device_info(60),
        5 => call.feed("ProdInfoResp"),
        6 => call.feed("ConfigResp"),
        _ => call.wrong_ack(),
    }
}
