//! The start-up, settings, arm and disarm sequences of a golf radar, from a
//! library of proved functions. Names and calls are those of ironsight's
//! `seq.rs`.
//!
//! A sequencer is handed what came from the unit and gives what to send. It
//! has no clock and no connection of its own:
//!
//! - `now` is a reading of the host's clock in nanoseconds, from any
//!   beginning. It may not go back; a start-up refuses one that does.
//! - `wall` is the time in seconds since 1970.
//! - Encoding and decoding frames is the host's.
//!
//! A call that can't be answered is refused with a [`Refusal`], and leaves
//! the sequencer as it was.
//!
//! A [`Session`] starts a whole unit up: it is handed whatever comes from the
//! DSP, the AVR and the Pi, and has a start-up for each.
//!
//! ```
//! use wigtalom::{BusAddr, DspSequencer, Envelope, Message, PiStatus};
//!
//! let (mut seq, first) = DspSequencer::new();
//! assert_eq!(first.len(), 1);
//! let message = Message::PiStatus(PiStatus::default());
//! let env = Envelope { src: BusAddr::Pi, type_id: 0xAA, message };
//! assert_eq!(seq.feed(&env, 1_000), Ok(vec![]));
//! assert!(!seq.is_complete());
//! ```

#![deny(missing_docs)]
#![deny(unsafe_code)]

mod addr;
mod arm;
mod avr;
mod avr_config;
mod command;
mod convert;
mod device;
mod disarm;
mod dsp;
#[allow(unsafe_code)]
mod ffi;
mod message;
mod pi;
mod records;
mod refusal;
mod session;
mod settings;
mod sheet;
mod steps;
mod withheld;

#[cfg(test)]
mod debug;
#[cfg(test)]
mod handed_back;
#[cfg(test)]
mod repeats;
#[cfg(test)]
mod unknown_numbers;

pub use addr::BusAddr;
pub use arm::{ArmSequencer, ArmState};
pub use avr::{AvrSequencer, AvrState, AvrSync};
pub use avr_config::{AvrConfigSequencer, AvrConfigState};
pub use command::{
    Action, AvrConfigCmd, CalDataReq, Command, NetConfigReq, ParamReadReq, ProdInfoReq, StatusPoll,
};
pub use device::{DeviceModel, keepalive_actions, keepalive_actions_for, result_ack};
pub use disarm::{DisarmSequencer, DisarmState};
pub use dsp::{DspSequencer, DspState, DspSync};
pub use message::{
    AvrConfigResp, AvrStatus, CalDataResp, CalParamResp, CamConfig, ConfigAck, ConfigResp,
    DevInfoResp, DspQueryResp, DspStatus, DspStatus46, DspStatus80, Envelope, Message, ModeSet,
    NetConfigResp, ParamData, ParamValue, PiStatus, ProdInfoResp, RadarCal, Text, TimeSync,
};
pub use pi::{PiSequencer, PiState, PiSync};
pub use refusal::Refusal;
pub use session::{Session, SessionState, SessionSync};
pub use settings::{AvrSettings, MevoSettings};
pub use sheet::{How, StartUp, Tick};
