//! The kinds with random fields.

use super::random::Random;

#[derive(Clone, Copy, PartialEq)]
pub enum Type {
    U8,
    U16,
    U32,
    I16,
    I32,
    Bool,
    Float,
    Params,
    Tail,
}

use Type::{Bool, Float, I16, I32, Params, Tail, U8, U16, U32};

/// A kind's words, its usual type id and its fields.
pub struct Kind {
    pub name: &'static str,
    pub type_id: u8,
    pub fields: &'static [(&'static str, Type)],
}

pub const fn kind(
    name: &'static str,
    type_id: u8,
    fields: &'static [(&'static str, Type)],
) -> Kind {
    Kind {
        name,
        type_id,
        fields,
    }
}

const ACK: &[(&str, Type)] = &[("bus_addr", U8), ("acked_cmd", U8)];

pub const KINDS: [Kind; 23] = [
    kind("AvrStatus", 0xAA, AVR_STATUS),
    kind("DspStatus V80", 0xAA, DSP_STATUS_80),
    kind("DspStatus V46", 0xAA, &[("state", U8), ("version", U8)]),
    kind("PiStatus", 0xAA, &[]),
    kind("ConfigAck", 0x95, ACK),
    kind("ConfigNack", 0x94, ACK),
    kind("ModeAck", 0xB1, &[]),
    kind("Text", 0xE3, &[]),
    kind("ModeSet", 0xA5, &[("mode", U8)]),
    kind("ParamValue", 0xBF, &[("param_id", U8), ("int24", I32)]),
    kind("ParamValue", 0xBF, &[("param_id", U8), ("float40", Float)]),
    kind("RadarCal", 0xA4, &[("range_mm", U16), ("height_mm", U8)]),
    kind("ConfigResp", 0xA0, &[("params", Params)]),
    kind("AvrConfigResp", 0xA2, &[]),
    kind("DspQueryResp", 0xC8, DSP_QUERY_RESP),
    kind("DevInfoResp", 0xE7, &[]),
    kind("ProdInfoResp", 0xFD, &[]),
    kind("NetConfigResp", 0xDE, &[]),
    kind("CalParamResp", 0xD1, &[]),
    kind("CalDataResp", 0xD3, &[]),
    kind("TimeSync", 0x9B, TIME_SYNC),
    kind("CamConfig", 0x82, CAM_CONFIG),
    kind("Other", 0xF0, &[]),
];

const AVR_STATUS: &[(&str, Type)] = &[
    ("version", U8),
    ("state", U8),
    ("hw_id_hi", U8),
    ("hw_id_lo", U8),
    ("full_app_id", I32),
    ("temperature", Float),
    ("tilt", Float),
    ("roll", Float),
];

const DSP_STATUS_80: &[(&str, Type)] = &[
    ("state", U8),
    ("input_voltage_usb", I16),
    ("system_voltage", I16),
    ("battery_current", I16),
    ("temperature_raw", I16),
    ("battery_voltage", I16),
    ("battery_voltage_2", I16),
    ("power_level", I16),
    ("external_power", Bool),
];

const DSP_QUERY_RESP: &[(&str, Type)] = &[("version", U8), ("dsp_type", U8), ("pcb", U8)];

const TIME_SYNC: &[(&str, Type)] = &[("epoch", U32), ("session", U8), ("tail", Tail)];

const CAM_CONFIG: &[(&str, Type)] = &[
    ("dynamic_config", Bool),
    ("resolution_width", I16),
    ("resolution_height", I16),
    ("rotation", I16),
    ("ev", I16),
    ("quality", U8),
    ("framerate", U8),
    ("streaming_framerate", U8),
    ("ringbuffer_pretime_ms", I16),
    ("ringbuffer_posttime_ms", I16),
    ("raw_camera_mode", U8),
    ("fusion_camera_mode", Bool),
    ("raw_shutter_speed_max", Float),
    ("raw_ev_roi_x", I16),
    ("raw_ev_roi_y", I16),
    ("raw_ev_roi_width", I16),
    ("raw_ev_roi_height", I16),
    ("raw_x_offset", I16),
    ("raw_bin44", Bool),
    ("raw_live_preview_write_interval_ms", I16),
    ("raw_y_offset", I16),
    ("buffer_sub_sampling_pre_trigger_div", I16),
    ("buffer_sub_sampling_post_trigger_div", I16),
    ("buffer_sub_sampling_switch_time_offset", Float),
    ("buffer_sub_sampling_total_buffer_size", I16),
    ("buffer_sub_sampling_pre_trigger_buffer_size", I16),
];

pub fn find(name: &str) -> &'static Kind {
    find_in(&KINDS, name)
}

pub fn find_in(table: &'static [Kind], name: &str) -> &'static Kind {
    let found = table.iter().find(|kind| kind.name == name);
    found.expect("a kind of the table")
}

/// The kind's words and fields.
pub fn words(random: &mut Random, kind: &Kind) -> Vec<String> {
    let mut words: Vec<String> = kind.name.split(' ').map(String::from).collect();
    for &(name, field) in kind.fields {
        words.push(format!("{name}={}", value(random, field)));
    }
    words
}

/// The smallest and the largest number of a type.
pub fn range(field: Type) -> Option<(i64, i64)> {
    match field {
        U8 => Some((0, u8::MAX.into())),
        U16 => Some((0, u16::MAX.into())),
        U32 => Some((0, u32::MAX.into())),
        I16 => Some((i16::MIN.into(), i16::MAX.into())),
        I32 => Some((i32::MIN.into(), i32::MAX.into())),
        Bool | Float | Params | Tail => None,
    }
}

pub fn value(random: &mut Random, field: Type) -> String {
    match field {
        Bool => random.pick(&["true", "false"]).to_string(),
        Float => format!("0x{:016X}", float_bits(random)),
        Params => params(random, 34),
        Tail => format!("{:04x}", random.below(65_536)),
        _ => {
            let value = in_range(random, field);
            number(random, value)
        }
    }
}

fn in_range(random: &mut Random, field: Type) -> i64 {
    let (min, max) = range(field).unwrap_or((0, 0));
    if random.chance(20) {
        return random.pick(&[min, max, 0, 1, max - 1]);
    }
    min + random.below((max - min) as u64 + 1) as i64
}

/// Decimal as a rule.
pub fn number(random: &mut Random, value: impl Into<i128>) -> String {
    let value = value.into();
    match random.below(20) {
        0 if value >= 0 => format!("0x{value:x}"),
        1 if value >= 0 => format!("0x{value:04X}"),
        2 if value >= 0 && random.chance(10) => format!("000{value}"),
        _ => value.to_string(),
    }
}

/// Wall seconds: around 2^32 and 2^63, those of today, and any.
pub fn wall_seconds(random: &mut Random) -> u64 {
    const EDGES: [u64; 7] = [
        0,
        (1 << 32) - 1,
        1 << 32,
        (1 << 32) + 1,
        (1 << 63) - 1,
        1 << 63,
        u64::MAX,
    ];
    match random.below(3) {
        0 => random.pick(&EDGES),
        1 => 1_763_240_000 + random.below(1_000_000),
        _ => random.bits(),
    }
}

/// No NaN.
fn float_bits(random: &mut Random) -> u64 {
    let edges = [0.0, -0.0, 1.0, -1.0, 42.5, f64::MAX, f64::MIN_POSITIVE];
    let float = match random.below(4) {
        0 => random.pick(&edges),
        1 => random.pick(&[f64::INFINITY, f64::NEG_INFINITY, f64::from_bits(1)]),
        _ => f64::from_bits(random.bits()),
    };
    if float.is_nan() { 0 } else { float.to_bits() }
}

pub fn params(random: &mut Random, count: usize) -> String {
    let numbers: Vec<String> = (0..count).map(|_| value(random, I16)).collect();
    numbers.join(",")
}
