//! From the types of this crate to the library's records, and back.

use crate::addr::BusAddr;
use crate::command::{
    Action, AvrConfigCmd, CalDataReq, Command, NetConfigReq, ParamReadReq, ProdInfoReq, StatusPoll,
};
use crate::ffi::Lent;
use crate::message::{
    ConfigAck, DevInfoResp, DspStatus, DspStatus46, Envelope, Message, ModeSet, ParamData,
    ParamValue, ProdInfoResp, RadarCal, TimeSync,
};
use crate::records::{
    CAction, CDevInfoResp, CDspStatus, CDspStatus46, CEnvelope, CMessage, COptionInstant,
    COptionNack, CParamValue, CTick, CTicks, CTimeSync, CWritten, Stored,
};
use crate::refusal::Refusal;
use crate::sheet::{How, Tick};

// ---- what goes in

impl Envelope {
    /// As the library takes it.
    pub(crate) fn lent(&self) -> Lent<'_> {
        let params = match &self.message {
            Message::ConfigResp(r) => r.params,
            _ => [0; 34],
        };
        Lent {
            env: CEnvelope {
                src: self.src.as_byte(),
                type_id: self.type_id,
                message: self.message.record(),
                params,
            },
            text: self.message.text().as_bytes(),
            payload: self.message.payload(),
        }
    }
}

impl Message {
    /// Its place in the library's enum.
    fn kind(&self) -> u8 {
        match self {
            Message::AvrStatus(_) => 0,
            Message::DspStatus(_) => 1,
            Message::PiStatus(_) => 2,
            Message::ConfigAck(_) => 3,
            Message::ConfigNack(_) => 4,
            Message::ModeAck => 5,
            Message::Text(_) => 6,
            Message::ModeSet(_) => 7,
            Message::ParamValue(_) => 8,
            Message::RadarCal(_) => 9,
            Message::ConfigResp(_) => 10,
            Message::AvrConfigResp(_) => 11,
            Message::DspQueryResp(_) => 12,
            Message::DevInfoResp(_) => 13,
            Message::ProdInfoResp(_) => 14,
            Message::NetConfigResp(_) => 15,
            Message::CalParamResp(_) => 16,
            Message::CalDataResp(_) => 17,
            Message::TimeSync(_) => 18,
            Message::CamConfig(_) => 19,
            Message::Other => 20,
        }
    }

    /// The record of its kind, and nothing in the others.
    fn record(&self) -> CMessage {
        let mut m = CMessage {
            kind: self.kind(),
            ..CMessage::default()
        };
        match self {
            Message::AvrStatus(r) => m.avr_status = *r,
            Message::DspStatus(r) => m.dsp_status = CDspStatus::of(r),
            Message::ConfigAck(r) | Message::ConfigNack(r) => m.ack = *r,
            Message::ModeSet(r) => m.mode_set = *r,
            Message::ParamValue(r) => m.param_value = CParamValue::of(r),
            Message::RadarCal(r) => m.radar_cal = *r,
            Message::DspQueryResp(r) => m.dsp_query_resp = *r,
            Message::TimeSync(r) => m.time_sync = CTimeSync::of(r),
            Message::CamConfig(r) => m.cam_config = *r,
            _ => {}
        }
        m
    }

    fn text(&self) -> &str {
        match self {
            Message::Text(r) => &r.text,
            Message::DevInfoResp(r) => &r.text,
            Message::ProdInfoResp(r) => &r.text,
            Message::NetConfigResp(r) => &r.text,
            _ => "",
        }
    }

    fn payload(&self) -> &[u8] {
        match self {
            Message::DspStatus(DspStatus::V46(r)) => &r.payload,
            Message::PiStatus(r) => &r.payload,
            Message::AvrConfigResp(r) => &r.payload,
            Message::DevInfoResp(r) => &r.payload,
            Message::CalParamResp(r) => &r.payload,
            Message::CalDataResp(r) => &r.payload,
            _ => &[],
        }
    }
}

impl CDspStatus {
    fn of(status: &DspStatus) -> Self {
        match status {
            DspStatus::V80(v80) => CDspStatus {
                layout: 0,
                v80: *v80,
                ..CDspStatus::default()
            },
            DspStatus::V46(v46) => CDspStatus {
                layout: 1,
                v46: CDspStatus46 {
                    state: v46.state,
                    version: v46.version,
                },
                ..CDspStatus::default()
            },
        }
    }

    /// With the payload that stands beside it.
    pub(crate) fn value(&self, payload: &Stored) -> DspStatus {
        match self.layout {
            0 => DspStatus::V80(self.v80),
            _ => DspStatus::V46(DspStatus46 {
                state: self.v46.state,
                version: self.v46.version,
                payload: payload.to_vec(),
            }),
        }
    }
}

impl CParamValue {
    pub(crate) fn of(param: &ParamValue) -> Self {
        let param_id = param.param_id;
        match param.value {
            ParamData::Int24(int24) => CParamValue {
                param_id,
                format: 0,
                int24,
                float40: 0.0,
            },
            ParamData::Float40(float40) => CParamValue {
                param_id,
                format: 1,
                int24: 0,
                float40,
            },
        }
    }

    pub(crate) fn value(&self) -> ParamValue {
        ParamValue {
            param_id: self.param_id,
            value: match self.format {
                0 => ParamData::Int24(self.int24),
                _ => ParamData::Float40(self.float40),
            },
        }
    }
}

impl CTimeSync {
    fn of(sync: &TimeSync) -> Self {
        CTimeSync {
            epoch: sync.epoch,
            session: sync.session,
        }
    }
}

// ---- what comes out

/// The sends of an accepted call: one or none.
pub(crate) fn answer(refusal: u8, action: &CAction) -> Result<Vec<Action>, Refusal> {
    Refusal::check(refusal)?;
    Ok(sends(action))
}

/// One send or none.
pub(crate) fn sends(action: &CAction) -> Vec<Action> {
    send(action).into_iter().collect()
}

/// Those of several places, in the order of sending.
pub(crate) fn all_sends(actions: &[CAction]) -> Vec<Action> {
    actions.iter().filter_map(send).collect()
}

/// The send, if there is one. It is proved that its numbers are of a case.
pub(crate) fn send(action: &CAction) -> Option<Action> {
    if !action.some {
        return None;
    }
    Some(Action::Send(
        command(action)?,
        BusAddr::from_byte(action.dest)?,
    ))
}

/// By its place in the library's enum.
fn command(action: &CAction) -> Option<Command> {
    let c = &action.command;
    Some(match c.number {
        0 => Command::StatusPoll(StatusPoll { pi_mode: c.flag }),
        1 => Command::ModeSet(ModeSet { mode: c.byte }),
        2 => Command::AvrConfigCmd(AvrConfigCmd { arm: c.flag }),
        3 => Command::ParamReadReq(ParamReadReq { param_id: c.byte }),
        4 => Command::ParamValue(c.param.value()),
        5 => Command::RadarCal(RadarCal {
            range_mm: u16::try_from(c.wide).ok()?,
            height_mm: c.byte,
        }),
        6 => Command::DspQuery,
        7 => Command::ConfigQuery,
        8 => Command::AvrConfigQuery,
        9 => Command::DevInfoReq,
        10 => Command::ProdInfoReq(ProdInfoReq { sub_query: c.byte }),
        11 => Command::NetConfigReq(NetConfigReq {
            query_password: c.flag,
        }),
        12 => Command::CalParamReq,
        13 => Command::CalDataReq(CalDataReq {
            sub_cmd: c.byte,
            payload: action.payload.to_vec(),
        }),
        14 => Command::TimeSync(TimeSync {
            epoch: c.wide,
            session: c.byte,
            tail: action.tail,
        }),
        15 => Command::CamConfigReq,
        16 => Command::ConfigAck(ConfigAck {
            bus_addr: c.byte,
            acked_cmd: c.acked_cmd,
        }),
        _ => return None,
    })
}

impl Stored {
    pub(crate) fn to_vec(self) -> Vec<u8> {
        self.as_slice().to_vec()
    }

    /// What was stored came in as a `String`, so nothing is lost.
    pub(crate) fn text(&self) -> String {
        String::from_utf8_lossy(self.as_slice()).into_owned()
    }
}

impl CDevInfoResp {
    pub(crate) fn value(&self) -> DevInfoResp {
        DevInfoResp {
            text: self.text.text(),
            payload: self.payload.to_vec(),
        }
    }
}

impl COptionInstant {
    pub(crate) fn value(self) -> Option<u64> {
        self.some.then_some(self.value)
    }
}

impl COptionNack {
    /// The envelope that was kept.
    pub(crate) fn value(&self) -> Option<Envelope> {
        if !self.some {
            return None;
        }
        Some(Envelope {
            src: BusAddr::from_byte(self.src)?,
            type_id: self.type_id,
            message: Message::ConfigNack(self.nack),
        })
    }
}

impl CTick {
    fn value(&self) -> Tick {
        Tick {
            reading: self.reading,
            how: match self.how {
                0 => How::Reply,
                1 => How::Nack,
                _ => How::Check,
            },
        }
    }
}

impl CTicks {
    /// The ticks that there are, in order.
    pub(crate) fn value(&self) -> Vec<Tick> {
        let ticks = self.ticks.iter().take(self.len);
        ticks.map(CTick::value).collect()
    }
}

impl CWritten {
    /// How many bytes an accepted call wrote.
    pub(crate) fn value(self) -> Result<usize, Refusal> {
        Refusal::check(self.refusal)?;
        Ok(self.len)
    }
}

/// The three product infos; those that haven't come are empty.
pub(crate) fn prod_info(stored: &[Stored; 3]) -> [ProdInfoResp; 3] {
    stored.map(|text| ProdInfoResp { text: text.text() })
}
