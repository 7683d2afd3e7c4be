//! What we send.

use crate::addr::BusAddr;
use crate::message::{ConfigAck, ModeSet, ParamValue, RadarCal, TimeSync};

/// What the host is to do.
#[derive(Debug, Clone, PartialEq)]
pub enum Action {
    /// Send a command to a device.
    Send(Command, BusAddr),
}

/// The commands of the six sequences, of the result acknowledgement and of
/// the keepalive. Encoding them is the host's.
#[derive(Debug, Clone, PartialEq)]
pub enum Command {
    /// Asks for the status.
    StatusPoll(StatusPoll),
    /// Sets the detection mode.
    ModeSet(ModeSet),
    /// Arms, or opens or commits a configuration.
    AvrConfigCmd(AvrConfigCmd),
    /// Asks for a parameter.
    ParamReadReq(ParamReadReq),
    /// Sets a parameter.
    ParamValue(ParamValue),
    /// Sets the radar calibration.
    RadarCal(RadarCal),
    /// Asks for the DSP's hardware.
    DspQuery,
    /// Asks for the radar configuration.
    ConfigQuery,
    /// Asks for the AVR's hardware configuration.
    AvrConfigQuery,
    /// Asks for device info.
    DevInfoReq,
    /// Asks for product info.
    ProdInfoReq(ProdInfoReq),
    /// Asks for the camera's network.
    NetConfigReq(NetConfigReq),
    /// Asks for calibration parameters.
    CalParamReq,
    /// Asks for calibration data.
    CalDataReq(CalDataReq),
    /// Sets the time.
    TimeSync(TimeSync),
    /// Asks for the camera's configuration.
    CamConfigReq,
    /// Acknowledges a flight result.
    ConfigAck(ConfigAck),
}

/// Asks for the status.
#[derive(Debug, Clone, Copy, PartialEq, Eq)]
pub struct StatusPoll {
    /// Whether the camera's Pi is asked.
    pub pi_mode: bool,
}

/// Arms, or opens or commits a configuration.
#[derive(Debug, Clone, Copy, PartialEq, Eq)]
pub struct AvrConfigCmd {
    /// True arms.
    pub arm: bool,
}

/// Asks for a parameter.
#[derive(Debug, Clone, Copy, PartialEq, Eq)]
pub struct ParamReadReq {
    /// The parameter's number.
    pub param_id: u8,
}

/// Asks for product info.
#[derive(Debug, Clone, Copy, PartialEq, Eq)]
pub struct ProdInfoReq {
    /// Which part of it.
    pub sub_query: u8,
}

/// Asks for the camera's network.
#[derive(Debug, Clone, Copy, PartialEq, Eq)]
pub struct NetConfigReq {
    /// Whether the password is asked for.
    pub query_password: bool,
}

/// Asks for calibration data.
#[derive(Debug, Clone, PartialEq, Eq)]
pub struct CalDataReq {
    /// Which of it.
    pub sub_cmd: u8,
    /// The whole payload.
    pub payload: Vec<u8>,
}
