//! The kinds with their fields.

use super::bad::{Bad, Reason};
use super::cursor::Cursor;
use crate::addr::BusAddr;
use crate::protocol::Message;
use crate::protocol::camera::CamConfig;
use crate::protocol::config::{
    AvrConfigResp, ConfigResp, ModeSet, ParamData, ParamValue, RadarCal,
};
use crate::protocol::handshake::{
    CalDataResp, CalParamResp, DevInfoResp, DspQueryResp, NetConfigResp, ProdInfoResp, TimeSync,
};
use crate::protocol::status::{
    AvrStatus, ConfigAck, DspStatus, DspStatus46, DspStatus80, ModeAck, PiStatus, Text,
};

/// A message of the kind that the next word names, with empty bytes.
pub fn kind(c: &mut Cursor, src: BusAddr, type_id: u8) -> Result<Message, Bad> {
    let (at, word) = c.word();
    let (text, payload) = (String::new(), Vec::new());
    Ok(match word {
        b"AvrStatus" => Message::AvrStatus(avr_status(c)?),
        b"DspStatus" => Message::DspStatus(dsp_status(c)?),
        b"PiStatus" => Message::PiStatus(PiStatus { payload }),
        b"ConfigAck" => Message::ConfigAck(config_ack(c)?),
        b"ConfigNack" => Message::ConfigNack(config_ack(c)?),
        b"ModeAck" => Message::ModeAck(ModeAck),
        b"Text" => Message::Text(Text { text }),
        b"ModeSet" => Message::ModeSet(mode_set(c)?),
        b"ParamValue" => Message::ParamValue(param_value(c)?),
        b"RadarCal" => Message::RadarCal(radar_cal(c)?),
        b"ConfigResp" => Message::ConfigResp(config_resp(c)?),
        b"AvrConfigResp" => Message::AvrConfigResp(AvrConfigResp { payload }),
        b"DspQueryResp" => Message::DspQueryResp(dsp_query_resp(c)?),
        b"DevInfoResp" => Message::DevInfoResp(DevInfoResp { text, payload }),
        b"ProdInfoResp" => Message::ProdInfoResp(ProdInfoResp { text }),
        b"NetConfigResp" => Message::NetConfigResp(NetConfigResp { text }),
        b"CalParamResp" => Message::CalParamResp(CalParamResp { payload }),
        b"CalDataResp" => Message::CalDataResp(CalDataResp { payload }),
        b"TimeSync" => Message::TimeSync(time_sync(c)?),
        b"CamConfig" => Message::CamConfig(cam_config(c)?),
        b"Other" => Message::Unknown {
            type_id,
            src,
            payload,
        },
        _ => return Err(Bad::at(at, Reason::UnknownKind)),
    })
}

/// Whether the word is a kind, and not a network reply's.
pub fn is_another(word: &[u8]) -> bool {
    let unknown = Bad::at(0, Reason::UnknownKind);
    match kind(&mut Cursor::new(word), BusAddr::App, 0) {
        Ok(message) => !matches!(message, Message::NetConfigResp(_)),
        // A field is missing, or the second word of a status.
        Err(bad) => bad != unknown,
    }
}

fn avr_status(c: &mut Cursor) -> Result<AvrStatus, Bad> {
    Ok(AvrStatus {
        version: c.number_field("version")?,
        state: c.number_field("state")?,
        hw_id_hi: c.number_field("hw_id_hi")?,
        hw_id_lo: c.number_field("hw_id_lo")?,
        full_app_id: c.number_field("full_app_id")?,
        temperature: c.float_field("temperature")?,
        tilt: c.float_field("tilt")?,
        roll: c.float_field("roll")?,
    })
}

fn dsp_status(c: &mut Cursor) -> Result<DspStatus, Bad> {
    let (at, word) = c.word();
    match word {
        b"V80" => Ok(DspStatus::V80(dsp_status_80(c)?)),
        b"V46" => Ok(DspStatus::V46(DspStatus46 {
            state: c.number_field("state")?,
            version: c.number_field("version")?,
            payload: Vec::new(),
        })),
        _ => Err(Bad::at(at, Reason::UnknownKind)),
    }
}

fn dsp_status_80(c: &mut Cursor) -> Result<DspStatus80, Bad> {
    Ok(DspStatus80 {
        state: c.number_field("state")?,
        input_voltage_usb: c.number_field("input_voltage_usb")?,
        system_voltage: c.number_field("system_voltage")?,
        battery_current: c.number_field("battery_current")?,
        temperature_raw: c.number_field("temperature_raw")?,
        battery_voltage: c.number_field("battery_voltage")?,
        battery_voltage_2: c.number_field("battery_voltage_2")?,
        power_level: c.number_field("power_level")?,
        external_power: c.bool_field("external_power")?,
    })
}

fn config_ack(c: &mut Cursor) -> Result<ConfigAck, Bad> {
    Ok(ConfigAck {
        bus_addr: c.number_field("bus_addr")?,
        acked_cmd: c.number_field("acked_cmd")?,
    })
}

fn mode_set(c: &mut Cursor) -> Result<ModeSet, Bad> {
    Ok(ModeSet {
        mode: c.number_field("mode")?,
    })
}

pub fn param_value(c: &mut Cursor) -> Result<ParamValue, Bad> {
    let param_id = c.number_field("param_id")?;
    let value = if c.next_is("float40") {
        ParamData::Float40(c.float_field("float40")?)
    } else {
        ParamData::Int24(c.number_field("int24")?)
    };
    Ok(ParamValue { param_id, value })
}

pub fn radar_cal(c: &mut Cursor) -> Result<RadarCal, Bad> {
    Ok(RadarCal {
        range_mm: c.number_field("range_mm")?,
        height_mm: c.number_field("height_mm")?,
    })
}

fn config_resp(c: &mut Cursor) -> Result<ConfigResp, Bad> {
    Ok(ConfigResp {
        params: c.numbers_field("params")?,
    })
}

fn dsp_query_resp(c: &mut Cursor) -> Result<DspQueryResp, Bad> {
    Ok(DspQueryResp {
        version: c.number_field("version")?,
        dsp_type: c.number_field("dsp_type")?,
        pcb: c.number_field("pcb")?,
    })
}

fn time_sync(c: &mut Cursor) -> Result<TimeSync, Bad> {
    Ok(TimeSync {
        epoch: c.number_field("epoch")?,
        session: c.number_field("session")?,
        tail: c.two_bytes_field("tail")?,
    })
}

fn cam_config(c: &mut Cursor) -> Result<CamConfig, Bad> {
    Ok(CamConfig {
        dynamic_config: c.bool_field("dynamic_config")?,
        resolution_width: c.number_field("resolution_width")?,
        resolution_height: c.number_field("resolution_height")?,
        rotation: c.number_field("rotation")?,
        ev: c.number_field("ev")?,
        quality: c.number_field("quality")?,
        framerate: c.number_field("framerate")?,
        streaming_framerate: c.number_field("streaming_framerate")?,
        ringbuffer_pretime_ms: c.number_field("ringbuffer_pretime_ms")?,
        ringbuffer_posttime_ms: c.number_field("ringbuffer_posttime_ms")?,
        raw_camera_mode: c.number_field("raw_camera_mode")?,
        fusion_camera_mode: c.bool_field("fusion_camera_mode")?,
        raw_shutter_speed_max: c.float_field("raw_shutter_speed_max")?,
        raw_ev_roi_x: c.number_field("raw_ev_roi_x")?,
        raw_ev_roi_y: c.number_field("raw_ev_roi_y")?,
        raw_ev_roi_width: c.number_field("raw_ev_roi_width")?,
        raw_ev_roi_height: c.number_field("raw_ev_roi_height")?,
        raw_x_offset: c.number_field("raw_x_offset")?,
        raw_bin44: c.bool_field("raw_bin44")?,
        raw_live_preview_write_interval_ms: c.number_field("raw_live_preview_write_interval_ms")?,
        raw_y_offset: c.number_field("raw_y_offset")?,
        buffer_sub_sampling_pre_trigger_div: c
            .number_field("buffer_sub_sampling_pre_trigger_div")?,
        buffer_sub_sampling_post_trigger_div: c
            .number_field("buffer_sub_sampling_post_trigger_div")?,
        buffer_sub_sampling_switch_time_offset: c
            .float_field("buffer_sub_sampling_switch_time_offset")?,
        buffer_sub_sampling_total_buffer_size: c
            .number_field("buffer_sub_sampling_total_buffer_size")?,
        buffer_sub_sampling_pre_trigger_buffer_size: c
            .number_field("buffer_sub_sampling_pre_trigger_buffer_size")?,
    })
}
