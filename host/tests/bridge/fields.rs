//! What is compared: named values, in order. The same names come from the
//! records of both sides.

use super::over::Over;
use super::rust;

/// Named values, in order.
#[derive(Debug, Default)]
pub struct Fields {
    pub list: Vec<(&'static str, Value)>,
    /// How many of them are NaNs.
    pub nans: u64,
}

#[derive(Debug, Clone, PartialEq, Eq)]
pub enum Value {
    /// An integer, a bool or the bits of a float.
    Number(u64),
    Bytes(Vec<u8>),
    Word(&'static str),
}

impl Fields {
    fn add(&mut self, name: &'static str, value: Value) {
        self.list.push((name, value));
    }

    /// The first value that isn't the same.
    pub fn difference(&self, other: &Fields) -> Option<String> {
        let places = self.list.len().max(other.list.len());
        let differs = |&at: &usize| self.list.get(at) != other.list.get(at);
        let at = (0..places).find(differs)?;
        let (rust, ours) = (self.list.get(at), other.list.get(at));
        Some(format!(
            "the Rust:    {rust:X?}\nthe library: {ours:X?} (numbers in hexadecimal)"
        ))
    }
}

/// What can be put into a list of fields.
pub trait Compared {
    fn put(&self, name: &'static str, to: &mut Fields);
}

macro_rules! numbers {
    ($($type:ty)*) => {
        $(impl Compared for $type {
            fn put(&self, name: &'static str, to: &mut Fields) {
                to.add(name, Value::Number(*self as u64));
            }
        })*
    };
}

numbers!(u8 u16 u32 u64 usize i16 i32 bool);

impl Compared for f64 {
    fn put(&self, name: &'static str, to: &mut Fields) {
        to.nans += u64::from(self.is_nan());
        to.add(name, Value::Number(self.to_bits()));
    }
}

impl Compared for Vec<u8> {
    fn put(&self, name: &'static str, to: &mut Fields) {
        to.add(name, Value::Bytes(self.clone()));
    }
}

impl Compared for str {
    fn put(&self, name: &'static str, to: &mut Fields) {
        to.add(name, Value::Bytes(self.as_bytes().to_vec()));
    }
}

impl Compared for String {
    fn put(&self, name: &'static str, to: &mut Fields) {
        self.as_str().put(name, to);
    }
}

impl<T: Compared + ?Sized> Compared for &T {
    fn put(&self, name: &'static str, to: &mut Fields) {
        (**self).put(name, to);
    }
}

impl<T: Compared> Compared for Option<T> {
    fn put(&self, name: &'static str, to: &mut Fields) {
        self.is_some().put(name, to);
        if let Some(value) = self {
            value.put(name, to);
        }
    }
}

impl<T: Compared, const N: usize> Compared for [T; N] {
    fn put(&self, name: &'static str, to: &mut Fields) {
        for value in self {
            value.put(name, to);
        }
    }
}

/// Puts some fields of a value.
macro_rules! put {
    ($to:ident, $from:ident: $($field:ident),*) => {
        $($crate::bridge::fields::Compared::put(&$from.$field, stringify!($field), $to);)*
    };
}
pub(crate) use put;

/// The records that both sides have.
macro_rules! records {
    ($($record:ident { $($field:ident),* })*) => {
        $(
            impl Compared for rust::$record {
                fn put(&self, _: &'static str, to: &mut Fields) {
                    put!(to, self: $($field),*);
                }
            }

            impl Compared for wigtalom::$record {
                fn put(&self, _: &'static str, to: &mut Fields) {
                    put!(to, self: $($field),*);
                }
            }
        )*
    };
}

// What is sent.
records! {
    StatusPoll { pi_mode }
    ModeSet { mode }
    AvrConfigCmd { arm }
    ParamReadReq { param_id }
    RadarCal { range_mm, height_mm }
    ProdInfoReq { sub_query }
    NetConfigReq { query_password }
    CalDataReq { sub_cmd, payload }
    TimeSync { epoch, session, tail }
    ConfigAck { bus_addr, acked_cmd }
    ParamValue { param_id, value }
}

// What is stored.
records! {
    AvrStatus { version, state, hw_id_hi, hw_id_lo, full_app_id, temperature, tilt, roll }
    DspStatus80 {
        state, input_voltage_usb, system_voltage, battery_current, temperature_raw,
        battery_voltage, battery_voltage_2, power_level, external_power
    }
    DspStatus46 { state, version, payload }
    ConfigResp { params }
    AvrConfigResp { payload }
    DspQueryResp { version, dsp_type, pcb }
    DevInfoResp { text, payload }
    ProdInfoResp { text }
    CalParamResp { payload }
    CalDataResp { payload }
    CamConfig {
        dynamic_config, resolution_width, resolution_height, rotation, ev, quality, framerate,
        streaming_framerate, ringbuffer_pretime_ms, ringbuffer_posttime_ms, raw_camera_mode,
        fusion_camera_mode, raw_shutter_speed_max, raw_ev_roi_x, raw_ev_roi_y, raw_ev_roi_width,
        raw_ev_roi_height, raw_x_offset, raw_bin44, raw_live_preview_write_interval_ms,
        raw_y_offset, buffer_sub_sampling_pre_trigger_div, buffer_sub_sampling_post_trigger_div,
        buffer_sub_sampling_switch_time_offset, buffer_sub_sampling_total_buffer_size,
        buffer_sub_sampling_pre_trigger_buffer_size
    }
    AvrSettings { mode, params, radar_cal }
    Envelope { src, type_id, message }
}

// What is given at the end.
records! {
    AvrSync { status, dev_info, config, factory_cal, if_cal, avr_config }
    PiSync { dev_info, cam_config, ssid, password }
}

impl Compared for wigtalom::DspSync {
    fn put(&self, _: &'static str, to: &mut Fields) {
        put!(to, self: status, hw_info, dev_info, prod_info, config, model, tag_place);
        put!(to, self: power_mode_unanswered);
    }
}

/// With the place of the tag, which the Rust doesn't tell.
impl Compared for rust::DspSync {
    fn put(&self, _: &'static str, to: &mut Fields) {
        put!(to, self: status, hw_info, dev_info, prod_info, config, model);
        place_of_xi_tag(&self.dev_info.payload).put("tag_place", to);
        put!(to, self: power_mode_unanswered);
    }
}

/// No payload of the run has a rig's tag.
fn place_of_xi_tag(payload: &[u8]) -> Option<usize> {
    const XI_TAG: &[u8] = b"FS Xi";
    payload.windows(XI_TAG.len()).position(|w| w == XI_TAG)
}

/// The enums that both sides have, with the cases that are compared.
macro_rules! enums {
    ($($side:ident::$name:ident { $($with:ident)*; $($alone:ident $(($any:tt))?)* })*) => {
        $(
            impl Compared for $side::$name {
                #[allow(unused_variables, unreachable_patterns)]
                fn put(&self, name: &'static str, to: &mut Fields) {
                    match self {
                        $($side::$name::$with(value) => {
                            to.add(name, Value::Word(stringify!($with)));
                            value.put(stringify!($with), to);
                        })*
                        $($side::$name::$alone $(($any))? => {
                            to.add(name, Value::Word(stringify!($alone)));
                        })*
                        _ => panic!("a case that is never compared: {self:?}"),
                    }
                }
            }
        )*
    };
}

enums! {
    rust::ParamData { Int24 Float40; }
    wigtalom::ParamData { Int24 Float40; }
    rust::DspStatus { V80 V46; }
    wigtalom::DspStatus { V80 V46; }
    rust::BusAddr { ; App Pi Avr Dsp }
    wigtalom::BusAddr { ; App Pi Avr Dsp }
    rust::Message { ConfigNack; }
    wigtalom::Message { ConfigNack; }
    rust::Command {
        StatusPoll ModeSet AvrConfigCmd ParamReadReq ParamValue RadarCal ProdInfoReq NetConfigReq
        CalDataReq TimeSync ConfigAck;
        DspQuery ConfigQuery AvrConfigQuery DevInfoReq CalParamReq(_) CamConfigReq(_)
    }
    wigtalom::Command {
        StatusPoll ModeSet AvrConfigCmd ParamReadReq ParamValue RadarCal ProdInfoReq NetConfigReq
        CalDataReq TimeSync ConfigAck;
        DspQuery ConfigQuery AvrConfigQuery DevInfoReq CalParamReq CamConfigReq
    }
}

/// By its facts. The Rust has a name, which stands for three.
impl Compared for wigtalom::DeviceModel {
    fn put(&self, _: &'static str, to: &mut Fields) {
        put!(to, self: camera, factory_cal, power_mode);
    }
}

impl Compared for rust::DeviceModel {
    fn put(&self, name: &'static str, to: &mut Fields) {
        self.over().put(name, to);
    }
}

/// Lists of values, with their length.
macro_rules! lists {
    ($($type:ty)*) => {
        $(impl Compared for Vec<$type> {
            fn put(&self, name: &'static str, to: &mut Fields) {
                self.len().put(name, to);
                for value in self {
                    value.put(name, to);
                }
            }
        })*
    };
}

lists!(rust::ParamValue wigtalom::ParamValue rust::Action wigtalom::Action);

/// As the oracle keeps them, since the Rust keeps none.
impl Compared for Vec<wigtalom::Tick> {
    fn put(&self, name: &'static str, to: &mut Fields) {
        let ticks: Vec<String> = self.iter().map(stored).collect();
        match ticks[..] {
            [] => "none".put(name, to),
            _ => ticks.join(",").put(name, to),
        }
    }
}

fn stored(tick: &wigtalom::Tick) -> String {
    let how = match tick.how {
        wigtalom::How::Reply => 'R',
        wigtalom::How::Nack => 'N',
        wigtalom::How::Check => 'K',
    };
    format!("{}{how}", tick.reading)
}

impl Compared for rust::Action {
    fn put(&self, _: &'static str, to: &mut Fields) {
        let rust::Action::Send(command, dest) = self;
        dest.put("dest", to);
        command.put("command", to);
    }
}

impl Compared for wigtalom::Action {
    fn put(&self, _: &'static str, to: &mut Fields) {
        let wigtalom::Action::Send(command, dest) = self;
        dest.put("dest", to);
        command.put("command", to);
    }
}
