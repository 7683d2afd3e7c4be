//! From the Rust's types to those of this crate: what a call hands in.

use oracle::list::Feed;

use super::rust;

/// Carries a value over.
pub trait Over {
    type To;
    fn over(&self) -> Self::To;
}

/// The records that hold the same on both sides.
macro_rules! same {
    ($($record:ident { $($field:ident),* })*) => {
        $(impl Over for rust::$record {
            type To = wigtalom::$record;

            fn over(&self) -> wigtalom::$record {
                wigtalom::$record { $($field: self.$field.clone()),* }
            }
        })*
    };
}

same! {
    AvrStatus { version, state, hw_id_hi, hw_id_lo, full_app_id, temperature, tilt, roll }
    DspStatus80 {
        state, input_voltage_usb, system_voltage, battery_current, temperature_raw,
        battery_voltage, battery_voltage_2, power_level, external_power
    }
    DspStatus46 { state, version, payload }
    PiStatus { payload }
    ConfigAck { bus_addr, acked_cmd }
    Text { text }
    ModeSet { mode }
    RadarCal { range_mm, height_mm }
    ConfigResp { params }
    AvrConfigResp { payload }
    DspQueryResp { version, dsp_type, pcb }
    DevInfoResp { text, payload }
    ProdInfoResp { text }
    NetConfigResp { text }
    CalParamResp { payload }
    CalDataResp { payload }
    TimeSync { epoch, session, tail }
    CamConfig {
        dynamic_config, resolution_width, resolution_height, rotation, ev, quality, framerate,
        streaming_framerate, ringbuffer_pretime_ms, ringbuffer_posttime_ms, raw_camera_mode,
        fusion_camera_mode, raw_shutter_speed_max, raw_ev_roi_x, raw_ev_roi_y, raw_ev_roi_width,
        raw_ev_roi_height, raw_x_offset, raw_bin44, raw_live_preview_write_interval_ms,
        raw_y_offset, buffer_sub_sampling_pre_trigger_div, buffer_sub_sampling_post_trigger_div,
        buffer_sub_sampling_switch_time_offset, buffer_sub_sampling_total_buffer_size,
        buffer_sub_sampling_pre_trigger_buffer_size
    }
}

impl Over for rust::BusAddr {
    type To = wigtalom::BusAddr;

    fn over(&self) -> wigtalom::BusAddr {
        wigtalom::BusAddr::from_byte(self.as_byte()).expect("a device")
    }
}

impl Over for rust::DeviceModel {
    type To = wigtalom::DeviceModel;

    fn over(&self) -> wigtalom::DeviceModel {
        match self {
            rust::DeviceModel::Xi => wigtalom::DeviceModel::XI,
            _ => wigtalom::DeviceModel::MEVO,
        }
    }
}

impl Over for rust::DspStatus {
    type To = wigtalom::DspStatus;

    fn over(&self) -> wigtalom::DspStatus {
        match self {
            rust::DspStatus::V80(s) => wigtalom::DspStatus::V80(s.over()),
            rust::DspStatus::V46(s) => wigtalom::DspStatus::V46(s.over()),
        }
    }
}

impl Over for rust::ParamValue {
    type To = wigtalom::ParamValue;

    fn over(&self) -> wigtalom::ParamValue {
        let value = match self.value {
            rust::ParamData::Int24(value) => wigtalom::ParamData::Int24(value),
            rust::ParamData::Float40(value) => wigtalom::ParamData::Float40(value),
        };
        let param_id = self.param_id;
        wigtalom::ParamValue { param_id, value }
    }
}

impl Over for rust::AvrSettings {
    type To = wigtalom::AvrSettings;

    fn over(&self) -> wigtalom::AvrSettings {
        wigtalom::AvrSettings {
            mode: self.mode,
            params: self.params.iter().map(Over::over).collect(),
            radar_cal: self.radar_cal.as_ref().map(Over::over),
        }
    }
}

impl Over for rust::MevoSettings {
    type To = wigtalom::MevoSettings;

    fn over(&self) -> wigtalom::MevoSettings {
        wigtalom::MevoSettings::new(
            self.mode,
            self.ball_type,
            self.track_fraction,
            self.tee_height_m,
            self.radar_cal.over(),
        )
    }
}

impl Over for rust::Envelope {
    type To = wigtalom::Envelope;

    fn over(&self) -> wigtalom::Envelope {
        wigtalom::Envelope {
            src: self.src.over(),
            type_id: self.type_id,
            message: self.message.over(),
        }
    }
}

impl Over for rust::Message {
    type To = wigtalom::Message;

    fn over(&self) -> wigtalom::Message {
        use wigtalom::Message;
        match self {
            rust::Message::AvrStatus(m) => Message::AvrStatus(m.over()),
            rust::Message::DspStatus(m) => Message::DspStatus(m.over()),
            rust::Message::PiStatus(m) => Message::PiStatus(m.over()),
            rust::Message::ConfigAck(m) => Message::ConfigAck(m.over()),
            rust::Message::ConfigNack(m) => Message::ConfigNack(m.over()),
            rust::Message::ModeAck(_) => Message::ModeAck,
            rust::Message::Text(m) => Message::Text(m.over()),
            rust::Message::ModeSet(m) => Message::ModeSet(m.over()),
            rust::Message::ParamValue(m) => Message::ParamValue(m.over()),
            rust::Message::RadarCal(m) => Message::RadarCal(m.over()),
            rust::Message::ConfigResp(m) => Message::ConfigResp(m.over()),
            rust::Message::AvrConfigResp(m) => Message::AvrConfigResp(m.over()),
            rust::Message::DspQueryResp(m) => Message::DspQueryResp(m.over()),
            rust::Message::DevInfoResp(m) => Message::DevInfoResp(m.over()),
            rust::Message::ProdInfoResp(m) => Message::ProdInfoResp(m.over()),
            rust::Message::NetConfigResp(m) => Message::NetConfigResp(m.over()),
            rust::Message::CalParamResp(m) => Message::CalParamResp(m.over()),
            rust::Message::CalDataResp(m) => Message::CalDataResp(m.over()),
            rust::Message::TimeSync(m) => Message::TimeSync(m.over()),
            rust::Message::CamConfig(m) => Message::CamConfig(m.over()),
            _ => Message::Other,
        }
    }
}

/// The envelope that a feed hands in. Bytes that its kind has no place for
/// are left out.
pub fn envelope(feed: &Feed) -> rust::Envelope {
    let mut message = feed.message.clone();
    let (text, payload) = bytes(&mut message);
    if let Some(text) = text {
        // The lists have no text that isn't UTF-8.
        *text = String::from_utf8_lossy(&feed.text).into_owned();
    }
    if let Some(payload) = payload {
        payload.clone_from(&feed.payload);
    }
    rust::Envelope {
        src: feed.src,
        type_id: feed.type_id,
        raw: Vec::new(),
        message,
    }
}

/// Where a message has its text and its payload.
pub fn bytes(message: &mut rust::Message) -> (Option<&mut String>, Option<&mut Vec<u8>>) {
    use rust::{DspStatus, Message};
    match message {
        Message::DspStatus(DspStatus::V46(m)) => (None, Some(&mut m.payload)),
        Message::PiStatus(m) => (None, Some(&mut m.payload)),
        Message::Text(m) => (Some(&mut m.text), None),
        Message::AvrConfigResp(m) => (None, Some(&mut m.payload)),
        Message::DevInfoResp(m) => (Some(&mut m.text), Some(&mut m.payload)),
        Message::ProdInfoResp(m) => (Some(&mut m.text), None),
        Message::NetConfigResp(m) => (Some(&mut m.text), None),
        Message::CalParamResp(m) => (None, Some(&mut m.payload)),
        Message::CalDataResp(m) => (None, Some(&mut m.payload)),
        _ => (None, None),
    }
}
