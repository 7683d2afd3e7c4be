//! What the unit sends us. Texts are `String`s and payloads `Vec<u8>`, as in
//! the Rust; the library takes both as bytes. A record that is marked
//! `repr(C)` crosses to the library as it is.

use std::fmt;

use crate::addr::BusAddr;
use crate::device::DeviceModel;
use crate::withheld::Withheld;

/// A message with its source and its type's number on the wire.
#[derive(Debug, Clone, PartialEq)]
pub struct Envelope {
    /// The device that sent it.
    pub src: BusAddr,
    /// The type's number (0xAA for a status).
    pub type_id: u8,
    /// What it says.
    pub message: Message,
}

/// What the unit sends us: the 20 kinds that some sequence acts on, and
/// `Other` for the rest.
#[derive(Debug, Clone, PartialEq)]
pub enum Message {
    /// Status of the AVR.
    AvrStatus(AvrStatus),
    /// Status of the DSP.
    DspStatus(DspStatus),
    /// Status of the camera's Pi.
    PiStatus(PiStatus),
    /// A command was taken.
    ConfigAck(ConfigAck),
    /// A command was refused.
    ConfigNack(ConfigAck),
    /// The mode was reset.
    ModeAck,
    /// A text.
    Text(Text),
    /// The mode, sent back.
    ModeSet(ModeSet),
    /// A parameter's value.
    ParamValue(ParamValue),
    /// The radar calibration, sent back.
    RadarCal(RadarCal),
    /// The radar configuration.
    ConfigResp(ConfigResp),
    /// The AVR's hardware configuration.
    AvrConfigResp(AvrConfigResp),
    /// The DSP's hardware.
    DspQueryResp(DspQueryResp),
    /// Device info.
    DevInfoResp(DevInfoResp),
    /// Product info.
    ProdInfoResp(ProdInfoResp),
    /// The camera's network.
    NetConfigResp(NetConfigResp),
    /// Calibration parameters.
    CalParamResp(CalParamResp),
    /// Calibration data.
    CalDataResp(CalDataResp),
    /// The time, sent back.
    TimeSync(TimeSync),
    /// The camera's configuration.
    CamConfig(CamConfig),
    /// Any other kind. No sequence looks at its bytes, so it has none.
    Other,
}

/// Status of the AVR.
#[repr(C)]
#[derive(Debug, Clone, Copy, Default, PartialEq)]
pub struct AvrStatus {
    /// Version of the layout.
    pub version: u8,
    /// 0 idle, 1 armed, 2 arming, 3 tracking.
    pub state: u8,
    /// High byte of the hardware's id.
    pub hw_id_hi: u8,
    /// Low byte of the hardware's id.
    pub hw_id_lo: u8,
    /// The application's id.
    pub full_app_id: i32,
    /// Temperature.
    pub temperature: f64,
    /// Tilt.
    pub tilt: f64,
    /// Roll.
    pub roll: f64,
}

/// Status of the DSP, in one of two layouts.
#[derive(Debug, Clone, PartialEq)]
pub enum DspStatus {
    /// The Mevo+'s (version 0x80).
    V80(DspStatus80),
    /// The Gen2's (version 0x46), and any other.
    V46(DspStatus46),
}

/// The Mevo+'s layout.
#[repr(C)]
#[derive(Debug, Clone, Copy, Default, PartialEq, Eq)]
pub struct DspStatus80 {
    /// The state's number.
    pub state: u8,
    /// Voltage at the USB input.
    pub input_voltage_usb: i16,
    /// Voltage of the system.
    pub system_voltage: i16,
    /// Current of the battery.
    pub battery_current: i16,
    /// Hundredths of a degree.
    pub temperature_raw: i16,
    /// Voltage of the battery.
    pub battery_voltage: i16,
    /// The same, measured again.
    pub battery_voltage_2: i16,
    /// Its high byte is the charge in percent.
    pub power_level: i16,
    /// Whether external power is connected.
    pub external_power: bool,
}

/// The Gen2's layout, kept undecoded.
#[derive(Debug, Clone, Default, PartialEq, Eq)]
pub struct DspStatus46 {
    /// The state's number.
    pub state: u8,
    /// Version of the layout.
    pub version: u8,
    /// The whole payload.
    pub payload: Vec<u8>,
}

/// Status of the camera's Pi, kept undecoded.
#[derive(Debug, Clone, Default, PartialEq, Eq)]
pub struct PiStatus {
    /// The whole payload.
    pub payload: Vec<u8>,
}

/// An acknowledgement or a refusal of a command.
#[repr(C)]
#[derive(Debug, Clone, Copy, Default, PartialEq, Eq)]
pub struct ConfigAck {
    /// The side that acknowledges: a device's byte.
    pub bus_addr: u8,
    /// The low 7 bits of the command's type.
    pub acked_cmd: u8,
}

/// A text.
#[derive(Debug, Clone, Default, PartialEq, Eq)]
pub struct Text {
    /// The text.
    pub text: String,
}

/// A detection mode.
#[repr(C)]
#[derive(Debug, Clone, Copy, Default, PartialEq, Eq)]
pub struct ModeSet {
    /// The mode's number.
    pub mode: u8,
}

/// A parameter and its value.
#[derive(Debug, Clone, Copy, PartialEq)]
pub struct ParamValue {
    /// The parameter's number.
    pub param_id: u8,
    /// Its value.
    pub value: ParamData,
}

/// The value of a parameter, in one of two formats.
#[derive(Debug, Clone, Copy, PartialEq)]
pub enum ParamData {
    /// An integer. It is sent in 24 bits.
    Int24(i32),
    /// A float. It is sent in 40 bits.
    Float40(f64),
}

/// Radar calibration.
#[repr(C)]
#[derive(Debug, Clone, Copy, Default, PartialEq, Eq)]
pub struct RadarCal {
    /// From the sensor to the tee, in mm.
    pub range_mm: u16,
    /// Height of the surface, in mm.
    pub height_mm: u8,
}

/// The radar configuration.
#[repr(C)]
#[derive(Debug, Clone, Copy, PartialEq, Eq)]
pub struct ConfigResp {
    /// Its numbers.
    pub params: [i16; 34],
}

/// The AVR's hardware configuration, kept undecoded.
#[derive(Debug, Clone, Default, PartialEq, Eq)]
pub struct AvrConfigResp {
    /// The whole payload.
    pub payload: Vec<u8>,
}

/// The DSP's hardware.
#[repr(C)]
#[derive(Debug, Clone, Copy, Default, PartialEq, Eq)]
pub struct DspQueryResp {
    /// Version.
    pub version: u8,
    /// 0x80 Mevo+, 0xC0 Gen2.
    pub dsp_type: u8,
    /// The board's number.
    pub pcb: u8,
}

/// Device info.
#[derive(Debug, Clone, Default, PartialEq, Eq)]
pub struct DevInfoResp {
    /// Its decoded text.
    pub text: String,
    /// The whole payload.
    pub payload: Vec<u8>,
}

impl DevInfoResp {
    /// The model that it names.
    #[must_use]
    pub fn model(&self) -> DeviceModel {
        DeviceModel::from_dev_info(self)
    }
}

/// Product info.
#[derive(Debug, Clone, Default, PartialEq, Eq)]
pub struct ProdInfoResp {
    /// Its text.
    pub text: String,
}

/// The camera's network. `Debug` doesn't print it.
#[derive(Clone, Default, PartialEq, Eq)]
pub struct NetConfigResp {
    /// Its name and, after a zero byte, its password.
    pub text: String,
}

impl fmt::Debug for NetConfigResp {
    fn fmt(&self, f: &mut fmt::Formatter<'_>) -> fmt::Result {
        // all fields, so that one more isn't forgotten
        let Self { text: _ } = self;
        f.debug_struct("NetConfigResp")
            .field("text", &Withheld)
            .finish()
    }
}

/// Calibration parameters, kept undecoded.
#[derive(Debug, Clone, Default, PartialEq, Eq)]
pub struct CalParamResp {
    /// The whole payload.
    pub payload: Vec<u8>,
}

/// Calibration data, kept undecoded.
#[derive(Debug, Clone, Default, PartialEq, Eq)]
pub struct CalDataResp {
    /// The whole payload.
    pub payload: Vec<u8>,
}

/// A time.
#[derive(Debug, Clone, Copy, Default, PartialEq, Eq)]
pub struct TimeSync {
    /// Seconds since 1970.
    pub epoch: u32,
    /// The session's number.
    pub session: u8,
    /// Two more bytes. No sequence looks at those that come in.
    pub tail: [u8; 2],
}

/// The camera's configuration. The raw-camera and sub-sampling fields take
/// -1 for "not set".
#[repr(C)]
#[derive(Debug, Clone, Copy, Default, PartialEq)]
pub struct CamConfig {
    /// Whether it may change while the camera runs.
    pub dynamic_config: bool,
    /// Width in pixels.
    pub resolution_width: i16,
    /// Height in pixels.
    pub resolution_height: i16,
    /// Rotation.
    pub rotation: i16,
    /// Exposure value.
    pub ev: i16,
    /// JPEG quality.
    pub quality: u8,
    /// Frames a second.
    pub framerate: u8,
    /// Streamed frames a second.
    pub streaming_framerate: u8,
    /// Time kept before the trigger, in ms.
    pub ringbuffer_pretime_ms: i16,
    /// Time kept after the trigger, in ms.
    pub ringbuffer_posttime_ms: i16,
    /// Mode of the raw camera.
    pub raw_camera_mode: u8,
    /// Whether Fusion is on.
    pub fusion_camera_mode: bool,
    /// Largest shutter speed of the raw camera.
    pub raw_shutter_speed_max: f64,
    /// Left edge of the region that is measured.
    pub raw_ev_roi_x: i16,
    /// Its upper edge.
    pub raw_ev_roi_y: i16,
    /// Its width.
    pub raw_ev_roi_width: i16,
    /// Its height.
    pub raw_ev_roi_height: i16,
    /// Offset in x.
    pub raw_x_offset: i16,
    /// Whether pixels are put together four by four.
    pub raw_bin44: bool,
    /// Time between previews, in ms.
    pub raw_live_preview_write_interval_ms: i16,
    /// Offset in y.
    pub raw_y_offset: i16,
    /// Divisor before the trigger.
    pub buffer_sub_sampling_pre_trigger_div: i16,
    /// Divisor after the trigger.
    pub buffer_sub_sampling_post_trigger_div: i16,
    /// When the divisor changes.
    pub buffer_sub_sampling_switch_time_offset: f64,
    /// Size of the whole buffer.
    pub buffer_sub_sampling_total_buffer_size: i16,
    /// Size of the buffer before the trigger.
    pub buffer_sub_sampling_pre_trigger_buffer_size: i16,
}
