//! The made-up devices of ironsight's src/testing/mod.rs: a Xi, a Mevo+ and
//! a Mevo Gen2. Their frames stand here as they are decoded. Beside them a
//! practice rig, which ironsight doesn't have: it speaks like a Mevo+, but
//! has no Pi and names itself.

use std::collections::VecDeque;

use wigtalom::{
    Action, AvrConfigResp, AvrStatus, BusAddr, CalDataResp, CalParamResp, CamConfig, Command,
    ConfigAck, ConfigResp, DevInfoResp, DspQueryResp, DspStatus, DspStatus46, DspStatus80,
    Envelope, Message, NetConfigResp, ParamData, ParamValue, PiStatus, ProdInfoResp, Text,
};

/// Which device it is.
#[derive(Clone, Copy, PartialEq)]
pub enum Made {
    Xi,
    Plus,
    Gen2,
    Rig,
}

pub struct Device {
    made: Made,
    armed: bool,
    /// What it has sent, not yet read.
    pub outbox: VecDeque<Envelope>,
}

/// The serial number in the Xi's frames.
const SERIAL: [u8; 4] = [0x01, 0x23, 0x45, 0x67];

impl Device {
    pub fn new(made: Made) -> Self {
        Device {
            made,
            armed: false,
            outbox: VecDeque::new(),
        }
    }

    fn push(&mut self, src: BusAddr, type_id: u8, message: Message) {
        self.outbox.push_back(Envelope {
            src,
            type_id,
            message,
        });
    }

    fn ack(&mut self, src: BusAddr, acked_cmd: u8) {
        let bus_addr = src.as_byte();
        let ack = ConfigAck {
            bus_addr,
            acked_cmd,
        };
        self.push(src, 0x95, Message::ConfigAck(ack));
    }

    fn nack(&mut self, src: BusAddr, acked_cmd: u8) {
        let bus_addr = src.as_byte();
        let nack = ConfigAck {
            bus_addr,
            acked_cmd,
        };
        self.push(src, 0x94, Message::ConfigNack(nack));
    }

    fn text(&mut self, src: BusAddr, text: &str) {
        let text = text.to_string();
        self.push(src, 0xE3, Message::Text(Text { text }));
    }

    /// Takes a command, and queues its answers.
    pub fn take(&mut self, action: &Action) {
        let Action::Send(command, dest) = action;
        match (dest, command) {
            (BusAddr::Pi, _) if matches!(self.made, Made::Xi | Made::Rig) => {}
            (_, Command::StatusPoll(_)) => self.status(*dest),
            (BusAddr::Avr, Command::AvrConfigCmd(c)) => self.gate(c.arm),
            (_, Command::DevInfoReq) => {
                let info = self.dev_info(*dest);
                self.push(*dest, 0xE7, Message::DevInfoResp(info));
            }
            (_, Command::ConfigQuery) => {
                let params = [0; 34];
                self.push(*dest, 0xA0, Message::ConfigResp(ConfigResp { params }));
            }
            (BusAddr::Dsp, _) => self.dsp(command),
            (BusAddr::Avr, _) => self.avr(command),
            (BusAddr::Pi, _) => self.pi(command),
            (BusAddr::App, _) => {}
        }
    }

    fn status(&mut self, dest: BusAddr) {
        let message = match dest {
            BusAddr::Dsp => Message::DspStatus(self.dsp_status()),
            BusAddr::Avr => Message::AvrStatus(avr_status()),
            _ => Message::PiStatus(PiStatus {
                payload: vec![0x01, 0x00],
            }),
        };
        self.push(dest, 0xAA, message);
    }

    pub fn dsp_status(&self) -> DspStatus {
        let mut payload = match self.made {
            Made::Plus | Made::Rig => return DspStatus::V80(mevo_plus_dsp_status()),
            Made::Gen2 => vec![0; 71],
            Made::Xi => vec![0; 29],
        };
        payload[0] = 0x46;
        if self.made == Made::Xi {
            payload[0] = 0x1C;
            payload[2..6].copy_from_slice(&SERIAL);
        }
        DspStatus::V46(DspStatus46 {
            state: payload[1],
            version: payload[0],
            payload,
        })
    }

    pub fn dev_info(&self, dest: BusAddr) -> DevInfoResp {
        match (dest, self.made) {
            (BusAddr::Dsp, Made::Xi) => xi_dsp_dev_info(),
            (BusAddr::Dsp, Made::Rig) => dev_info(76, ["1.00", "TEST-SERIAL-01", "BAY RIG"]),
            (BusAddr::Dsp, _) => dev_info(76, ["1.00", "TEST-SERIAL-01", "FAKE"]),
            (BusAddr::Pi, _) => dev_info(75, ["2.00", "Jan  1 2021", "12:00:00"]),
            (_, Made::Xi) => dev_info(75, ["3.18    FSCOPE", "Jan  1 2020", "12:00:00"]),
            (_, Made::Plus | Made::Rig) => {
                dev_info(75, ["1.23    FSCOPE", "Feb  3 2024", "12:00:00"])
            }
            (_, Made::Gen2) => dev_info(75, ["4.56    FSCOPE", "Feb  3 2024", "12:00:00"]),
        }
    }

    /// Arms, or opens a configuration, which disarms.
    fn gate(&mut self, arm: bool) {
        self.ack(BusAddr::Avr, 0x30);
        if arm {
            self.armed = true;
            self.text(BusAddr::Avr, "ARMED");
        } else if self.armed {
            self.armed = false;
            self.text(BusAddr::Avr, "  ARMED CANCELLED");
            self.push(BusAddr::Avr, 0xB1, Message::ModeAck);
        }
    }

    fn dsp(&mut self, command: &Command) {
        match command {
            Command::DspQuery if self.made == Made::Xi => self.nack(BusAddr::Dsp, 0x48),
            Command::DspQuery => {
                let info = self.hw_info();
                self.push(BusAddr::Dsp, 0xC8, Message::DspQueryResp(info));
            }
            Command::ProdInfoReq(c) => {
                let info = prod_info(c.sub_query);
                self.push(BusAddr::Dsp, 0xFD, Message::ProdInfoResp(info));
            }
            Command::ParamValue(_) => {
                self.ack(BusAddr::Dsp, 0x3F);
                self.text(BusAddr::Dsp, "  REQ Power Mode : 1 (0) ");
                self.text(BusAddr::Dsp, "  NEW Power Mode : 1 ");
            }
            _ => {}
        }
    }

    pub fn hw_info(&self) -> DspQueryResp {
        DspQueryResp {
            version: 0x02,
            dsp_type: if self.made == Made::Gen2 { 0xC0 } else { 0x80 },
            pcb: 0x0E,
        }
    }

    fn avr(&mut self, command: &Command) {
        let avr = BusAddr::Avr;
        match command {
            Command::ParamReadReq(c) => self.param(avr, c.param_id),
            Command::ParamValue(_) => self.ack(avr, 0x3F),
            Command::CalDataReq(_) => self.push(avr, 0xD3, Message::CalDataResp(factory_cal())),
            Command::CalParamReq => self.push(avr, 0xD1, Message::CalParamResp(if_cal())),
            Command::AvrConfigQuery if self.made == Made::Xi => self.nack(avr, 0x23),
            Command::AvrConfigQuery => {
                let config = self.avr_config();
                self.push(avr, 0xA2, Message::AvrConfigResp(config));
            }
            Command::TimeSync(c) => self.push(avr, 0x9B, Message::TimeSync(*c)),
            Command::ModeSet(c) => self.push(avr, 0xA5, Message::ModeSet(*c)),
            Command::RadarCal(c) => self.push(avr, 0xA4, Message::RadarCal(*c)),
            _ => {}
        }
    }

    pub fn avr_config(&self) -> AvrConfigResp {
        let mut payload = vec![0; 17];
        payload[0] = 0x10;
        payload[1] = if self.made == Made::Gen2 { 2 } else { 1 };
        AvrConfigResp { payload }
    }

    fn param(&mut self, dest: BusAddr, param_id: u8) {
        let value = ParamData::Int24(0);
        let value = ParamValue { param_id, value };
        self.push(dest, 0xBF, Message::ParamValue(value));
    }

    fn pi(&mut self, command: &Command) {
        let pi = BusAddr::Pi;
        match command {
            Command::ParamReadReq(c) => self.param(pi, c.param_id),
            Command::CamConfigReq => self.push(pi, 0x82, Message::CamConfig(cam_config())),
            Command::NetConfigReq(c) => {
                let text = match c.query_password {
                    true => format!("{}\0TEST-PASS", self.ssid()),
                    false => String::new(),
                };
                self.push(pi, 0xDE, Message::NetConfigResp(NetConfigResp { text }));
            }
            _ => {}
        }
    }

    pub fn ssid(&self) -> &'static str {
        match self.made {
            Made::Gen2 => "FS MG2-TEST01",
            _ => "FS M2-TEST01",
        }
    }
}

pub fn avr_status() -> AvrStatus {
    AvrStatus {
        version: 0x18,
        hw_id_hi: SERIAL[0],
        hw_id_lo: SERIAL[1],
        ..AvrStatus::default()
    }
}

/// A battery at 87 %, 31.0 degrees, no external power.
fn mevo_plus_dsp_status() -> DspStatus80 {
    DspStatus80 {
        temperature_raw: 3_100,
        power_level: 87 << 8,
        ..DspStatus80::default()
    }
}

fn xi_dsp_dev_info() -> DevInfoResp {
    let mut payload = vec![0; 99];
    payload[0] = 0x62;
    payload[14..18].copy_from_slice(&SERIAL);
    payload[83..97].copy_from_slice(b"0.38 FS Xi    ");
    DevInfoResp {
        text: "0.38 FS Xi".into(),
        payload,
    }
}

/// A device info of 75 or 76 bytes, with three texts at its end.
fn dev_info(length: usize, texts: [&str; 3]) -> DevInfoResp {
    let mut payload = vec![0; length];
    payload[0] = length as u8 - 1;
    for (i, text) in texts.iter().enumerate() {
        let start = length - 48 + i * 16;
        payload[start..start + text.len()].copy_from_slice(text.as_bytes());
    }
    let text = texts.join(" ");
    DevInfoResp { text, payload }
}

/// A frame of 0x21, the sub query and zeros, read as a text.
pub fn prod_info(sub_query: u8) -> ProdInfoResp {
    let mut text = String::from('\x21');
    if sub_query != 0 {
        text.push(char::from(sub_query));
    }
    ProdInfoResp { text }
}

pub fn factory_cal() -> CalDataResp {
    let payload = vec![0; 16];
    CalDataResp { payload }
}

pub fn if_cal() -> CalParamResp {
    let payload = vec![0; 171];
    CalParamResp { payload }
}

/// The standard preset.
pub fn cam_config() -> CamConfig {
    CamConfig {
        dynamic_config: true,
        resolution_width: 1024,
        resolution_height: 768,
        quality: 20,
        framerate: 20,
        streaming_framerate: 20,
        ringbuffer_pretime_ms: 2000,
        ringbuffer_posttime_ms: 1500,
        raw_ev_roi_x: -1,
        raw_ev_roi_y: -1,
        raw_ev_roi_width: -1,
        raw_ev_roi_height: -1,
        raw_x_offset: -1,
        raw_live_preview_write_interval_ms: -1,
        raw_y_offset: -1,
        buffer_sub_sampling_pre_trigger_div: -1,
        buffer_sub_sampling_post_trigger_div: -1,
        buffer_sub_sampling_switch_time_offset: -1.0,
        buffer_sub_sampling_total_buffer_size: -1,
        buffer_sub_sampling_pre_trigger_buffer_size: -1,
        ..CamConfig::default()
    }
}
