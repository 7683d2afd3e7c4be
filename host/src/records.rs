//! The records that cross to the library and back, laid out as crates/host,
//! crates/abi_values, abi_messages, abi, abi_sheet, abi_dsp, abi_avr, abi_pi,
//! abi_session, abi_avr_config, abi_arm and abi_disarm have them.

use std::fmt;

use crate::device::DeviceModel;
use crate::message::{
    AvrStatus, CamConfig, ConfigAck, ConfigResp, DspQueryResp, DspStatus80, ModeSet, RadarCal,
};
use crate::withheld::Withheld;

/// The places of a settings list.
pub const MAX_PARAMS: usize = 32;

/// The places for ticks of a start-up.
pub const MAX_TICKS: usize = 16;

/// Declares records with public fields.
macro_rules! records {
    ($($(#[$attribute:meta])* $name:ident { $($field:ident: $type:ty,)* })*) => {
        $(
            $(#[$attribute])*
            #[repr(C)]
            #[derive(Debug, Clone, Copy, PartialEq)]
            pub struct $name {
                $(pub $field: $type,)*
            }
        )*
    };
}

/// The first `len` of `bytes`.
#[repr(C)]
#[derive(Clone, Copy, PartialEq)]
pub struct Stored {
    pub bytes: [u8; 256],
    pub len: usize,
}

impl Stored {
    pub fn as_slice(&self) -> &[u8] {
        self.bytes.get(..self.len).unwrap_or(&self.bytes)
    }
}

impl fmt::Debug for Stored {
    fn fmt(&self, f: &mut fmt::Formatter<'_>) -> fmt::Result {
        self.as_slice().fmt(f)
    }
}

/// The name or the password of the camera's network. `Debug` doesn't print it,
/// so nor does that of a record that holds it.
#[repr(transparent)]
#[derive(Clone, Copy, PartialEq)]
pub struct Secret(pub Stored);

impl fmt::Debug for Secret {
    fn fmt(&self, f: &mut fmt::Formatter<'_>) -> fmt::Result {
        Withheld.fmt(f)
    }
}

// What goes in.
records! {
    #[derive(Default)]
    CDspStatus46 {
        state: u8,
        version: u8,
    }

    #[derive(Default)]
    CDspStatus {
        layout: u8,
        v80: DspStatus80,
        v46: CDspStatus46,
    }

    #[derive(Default)]
    CParamValue {
        param_id: u8,
        format: u8,
        int24: i32,
        float40: f64,
    }

    #[derive(Default)]
    CTimeSync {
        epoch: u32,
        session: u8,
    }

    #[derive(Default)]
    CMessage {
        kind: u8,
        avr_status: AvrStatus,
        dsp_status: CDspStatus,
        ack: ConfigAck,
        mode_set: ModeSet,
        param_value: CParamValue,
        radar_cal: RadarCal,
        dsp_query_resp: DspQueryResp,
        time_sync: CTimeSync,
        cam_config: CamConfig,
    }

    CEnvelope {
        src: u8,
        type_id: u8,
        message: CMessage,
        params: [i16; 34],
    }

    COptionRadarCal {
        some: bool,
        value: RadarCal,
    }

    CSettings {
        mode: u8,
        params: [CParamValue; MAX_PARAMS],
        len: usize,
        radar_cal: COptionRadarCal,
    }
}

// What comes out of every sequence.
records! {
    CCommand {
        number: u8,
        flag: bool,
        byte: u8,
        acked_cmd: u8,
        wide: u32,
        param: CParamValue,
    }

    CAction {
        some: bool,
        command: CCommand,
        dest: u8,
        payload: [u8; 10],
        tail: [u8; 2],
    }

    CSent {
        refusal: u8,
        action: CAction,
    }

    CKeepalive {
        actions: [CAction; 3],
    }
}

// What sequences store.
records! {
    COptionInstant {
        some: bool,
        value: u64,
    }

    CDevInfoResp {
        text: Stored,
        payload: Stored,
    }

    COptionDevInfoResp {
        some: bool,
        value: CDevInfoResp,
    }

    COptionConfigResp {
        some: bool,
        value: ConfigResp,
    }

    /// Of a `CalDataResp`, a `CalParamResp` and an `AvrConfigResp` alike.
    COptionStored {
        some: bool,
        value: Stored,
    }

    /// `how` is 0 for a reply, 1 for a nack, 2 for a check.
    CTick {
        reading: u64,
        how: u8,
    }

    CTicks {
        ticks: [CTick; MAX_TICKS],
        len: usize,
    }
}

// What a sheet answers.
records! {
    CWritten {
        refusal: u8,
        len: usize,
    }
}

// The DSP start-up.
records! {
    COptionNack {
        some: bool,
        src: u8,
        type_id: u8,
        nack: ConfigAck,
    }

    COptionDspStatus {
        some: bool,
        value: CDspStatus,
        payload: Stored,
    }

    COptionDspQueryResp {
        some: bool,
        value: DspQueryResp,
    }

    CDsp {
        step: u8,
        status: COptionDspStatus,
        hw_info: COptionDspQueryResp,
        dev_info: COptionDevInfoResp,
        prod_info: [Stored; 3],
        config: COptionConfigResp,
        refused: COptionNack,
        power_mode_unanswered: bool,
        deadline: COptionInstant,
        last: u64,
        ticks: CTicks,
    }

    CDspFed {
        refusal: u8,
        action: CAction,
        seq: CDsp,
    }

    COptionPlace {
        some: bool,
        value: usize,
    }

    CDspSync {
        status: CDspStatus,
        status_payload: Stored,
        hw_info: COptionDspQueryResp,
        dev_info: CDevInfoResp,
        prod_info: [Stored; 3],
        config: ConfigResp,
        model: DeviceModel,
        tag_place: COptionPlace,
        power_mode_unanswered: bool,
    }

    CDspFinished {
        refusal: u8,
        sync: CDspSync,
    }

    CDspTaken {
        refusal: u8,
        refused: COptionNack,
        seq: CDsp,
    }
}

// The AVR start-up.
records! {
    COptionAvrStatus {
        some: bool,
        value: AvrStatus,
    }

    CAvrReplies {
        status: COptionAvrStatus,
        dev_info: COptionDevInfoResp,
        config: COptionConfigResp,
        factory_cal: COptionStored,
        if_cal: COptionStored,
        avr_config: COptionStored,
    }

    CAvr {
        step: u8,
        model: DeviceModel,
        replies: CAvrReplies,
        cal_deadline: COptionInstant,
        repoll_at: COptionInstant,
        last: u64,
        ticks: CTicks,
    }

    CAvrFed {
        refusal: u8,
        action: CAction,
        seq: CAvr,
    }

    CAvrSync {
        status: AvrStatus,
        dev_info: CDevInfoResp,
        config: ConfigResp,
        factory_cal: COptionStored,
        if_cal: COptionStored,
        avr_config: COptionStored,
    }

    CAvrFinished {
        refusal: u8,
        sync: CAvrSync,
    }
}

// The Pi start-up.
records! {
    COptionCamConfig {
        some: bool,
        value: CamConfig,
    }

    CPiReplies {
        dev_info: COptionDevInfoResp,
        cam_config: COptionCamConfig,
        ssid: Secret,
        password: Secret,
    }

    CPiStep {
        number: u8,
        idx: usize,
    }

    CPi {
        step: CPiStep,
        replies: CPiReplies,
        ticks: CTicks,
    }

    CPiFed {
        refusal: u8,
        action: CAction,
        seq: CPi,
    }

    CPiSync {
        dev_info: CDevInfoResp,
        cam_config: CamConfig,
        ssid: Secret,
        password: Secret,
    }

    CPiFinished {
        refusal: u8,
        sync: CPiSync,
    }
}

// The session.
records! {
    COptionAvr {
        some: bool,
        value: CAvr,
    }

    COptionPi {
        some: bool,
        value: CPi,
    }

    CSession {
        dsp: CDsp,
        avr: COptionAvr,
        pi: COptionPi,
    }

    /// `actions` in the order of sending.
    CSessionFed {
        refusal: u8,
        actions: [CAction; 2],
        session: CSession,
    }

    COptionPiSync {
        some: bool,
        value: CPiSync,
    }

    CSessionFinished {
        refusal: u8,
        dsp: CDspSync,
        avr: CAvrSync,
        pi: COptionPiSync,
    }

    CSessionTaken {
        refusal: u8,
        refused: COptionNack,
        session: CSession,
    }
}

// The AVR configuration, the arm and the disarm.
records! {
    CAvrConfigStep {
        number: u8,
        param_idx: usize,
    }

    CAvrConfig {
        step: CAvrConfigStep,
        settings: CSettings,
    }

    CAvrConfigFed {
        refusal: u8,
        action: CAction,
        seq: CAvrConfig,
    }

    CArmStep {
        number: u8,
        got_pi: bool,
        got_armed: bool,
    }

    CArm {
        step: CArmStep,
        retries: u16,
        wait_pi: bool,
    }

    CArmFed {
        refusal: u8,
        action: CAction,
        seq: CArm,
    }

    CRetries {
        refusal: u8,
        retries: u16,
    }

    CDisarm {
        step: u8,
    }

    CDisarmFed {
        refusal: u8,
        action: CAction,
        seq: CDisarm,
    }
}
