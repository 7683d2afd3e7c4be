//! Writes the records that a sequence stores. One that is absent is `none`.

use super::{boolean, bytes, config_ack, decimal, float, hex, name, none, number, param_value};
use super::{radar_cal, source, word};
use crate::conn::Envelope;
use crate::protocol::Message;
use crate::protocol::camera::CamConfig;
use crate::protocol::config::ConfigResp;
use crate::protocol::handshake::{DevInfoResp, DspQueryResp};
use crate::protocol::status::{AvrStatus, DspStatus, DspStatus80};
use crate::seq::AvrSettings;

pub fn dsp_status(out: &mut String, status: Option<&DspStatus>) {
    match status {
        None => none(out, "status"),
        Some(DspStatus::V80(s)) => dsp_status_80(out, s),
        Some(DspStatus::V46(s)) => {
            word(out, "status", "V46");
            number(out, "state", s.state);
            hex(out, "version", s.version);
            bytes(out, "payload", &s.payload);
        }
    }
}

fn dsp_status_80(out: &mut String, status: &DspStatus80) {
    word(out, "status", "V80");
    number(out, "state", status.state);
    number(out, "input_voltage_usb", status.input_voltage_usb);
    number(out, "system_voltage", status.system_voltage);
    number(out, "battery_current", status.battery_current);
    number(out, "temperature_raw", status.temperature_raw);
    number(out, "battery_voltage", status.battery_voltage);
    number(out, "battery_voltage_2", status.battery_voltage_2);
    number(out, "power_level", status.power_level);
    boolean(out, "external_power", status.external_power);
}

pub fn avr_status(out: &mut String, status: Option<&AvrStatus>) {
    let Some(status) = status else {
        return none(out, "status");
    };
    hex(out, "status=version", status.version);
    number(out, "state", status.state);
    number(out, "hw_id_hi", status.hw_id_hi);
    number(out, "hw_id_lo", status.hw_id_lo);
    number(out, "full_app_id", status.full_app_id);
    float(out, "temperature", status.temperature);
    float(out, "tilt", status.tilt);
    float(out, "roll", status.roll);
}

pub fn hw_info(out: &mut String, info: Option<&DspQueryResp>) {
    let Some(info) = info else {
        return none(out, "hw_info");
    };
    hex(out, "hw_info=version", info.version);
    hex(out, "dsp_type", info.dsp_type);
    number(out, "pcb", info.pcb);
}

pub fn dev_info(out: &mut String, info: Option<&DevInfoResp>) {
    let Some(info) = info else {
        return none(out, "dev_info");
    };
    bytes(out, "dev_info=text", info.text.as_bytes());
    bytes(out, "payload", &info.payload);
}

pub fn params(out: &mut String, config: Option<&ConfigResp>) {
    let Some(config) = config else {
        return none(out, "params");
    };
    name(out, "params");
    for (i, &param) in config.params.iter().enumerate() {
        if i > 0 {
            out.push(',');
        }
        decimal(out, param);
    }
}

/// A reply that is its payload alone.
pub fn payload(out: &mut String, field: &str, payload: Option<&Vec<u8>>) {
    match payload {
        None => none(out, field),
        Some(payload) => bytes(out, &format!("{field}=payload"), payload),
    }
}

pub fn cam_config(out: &mut String, config: Option<&CamConfig>) {
    let Some(config) = config else {
        return none(out, "cam_config");
    };
    boolean(out, "cam_config=dynamic_config", config.dynamic_config);
    number(out, "resolution_width", config.resolution_width);
    number(out, "resolution_height", config.resolution_height);
    number(out, "rotation", config.rotation);
    number(out, "ev", config.ev);
    number(out, "quality", config.quality);
    number(out, "framerate", config.framerate);
    number(out, "streaming_framerate", config.streaming_framerate);
    number(out, "ringbuffer_pretime_ms", config.ringbuffer_pretime_ms);
    number(out, "ringbuffer_posttime_ms", config.ringbuffer_posttime_ms);
    number(out, "raw_camera_mode", config.raw_camera_mode);
    boolean(out, "fusion_camera_mode", config.fusion_camera_mode);
    raw_camera(out, config);
    sub_sampling(out, config);
}

fn raw_camera(out: &mut String, config: &CamConfig) {
    float(out, "raw_shutter_speed_max", config.raw_shutter_speed_max);
    number(out, "raw_ev_roi_x", config.raw_ev_roi_x);
    number(out, "raw_ev_roi_y", config.raw_ev_roi_y);
    number(out, "raw_ev_roi_width", config.raw_ev_roi_width);
    number(out, "raw_ev_roi_height", config.raw_ev_roi_height);
    number(out, "raw_x_offset", config.raw_x_offset);
    boolean(out, "raw_bin44", config.raw_bin44);
    number(
        out,
        "raw_live_preview_write_interval_ms",
        config.raw_live_preview_write_interval_ms,
    );
    number(out, "raw_y_offset", config.raw_y_offset);
}

fn sub_sampling(out: &mut String, config: &CamConfig) {
    number(
        out,
        "buffer_sub_sampling_pre_trigger_div",
        config.buffer_sub_sampling_pre_trigger_div,
    );
    number(
        out,
        "buffer_sub_sampling_post_trigger_div",
        config.buffer_sub_sampling_post_trigger_div,
    );
    float(
        out,
        "buffer_sub_sampling_switch_time_offset",
        config.buffer_sub_sampling_switch_time_offset,
    );
    number(
        out,
        "buffer_sub_sampling_total_buffer_size",
        config.buffer_sub_sampling_total_buffer_size,
    );
    number(
        out,
        "buffer_sub_sampling_pre_trigger_buffer_size",
        config.buffer_sub_sampling_pre_trigger_buffer_size,
    );
}

/// The settings of a settings run.
pub fn settings(out: &mut String, settings: &AvrSettings) {
    number(out, "mode", settings.mode);
    number(out, "params", settings.params.len() as u64);
    for param in &settings.params {
        param_value(out, param);
    }
    match &settings.radar_cal {
        None => none(out, "radar_cal"),
        Some(cal) => radar_cal(out, "radar_cal=range_mm", cal),
    }
}

/// The fields of a nack that was kept.
pub fn nack(out: &mut String, env: &Envelope) {
    let Message::ConfigNack(nack) = &env.message else {
        unreachable!("only a nack is kept: {env:?}");
    };
    out.push_str("src=");
    out.push_str(source(env.src));
    hex(out, "type_id", env.type_id);
    config_ack(out, nack);
}
