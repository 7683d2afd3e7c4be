//! The Rust that the port is compared with: ironsight's sequencers and
//! records, with the two clocks of `seq` handed in; and the front end that
//! runs lists of calls with them.

// The copied files stay as they are, byte for byte.
#[rustfmt::skip]
#[path = "../ironsight/src/addr.rs"]
pub mod addr;
#[rustfmt::skip]
#[path = "../ironsight/src/conn.rs"]
pub mod conn;
#[rustfmt::skip]
#[path = "../ironsight/src/protocol/mod.rs"]
pub mod protocol;

#[path = "stand_ins/codec.rs"]
pub mod codec;
#[path = "stand_ins/error.rs"]
pub mod error;
#[path = "stand_ins/frame.rs"]
pub mod frame;

// pub mod seq, from build.rs
include!(concat!(env!("OUT_DIR"), "/modules.rs"));

mod arm;
pub mod armed;
mod avr;
mod avr_config;
pub mod broken;
pub mod compare;
pub mod coverage;
mod disarm;
mod dsp;
pub mod front;
pub mod generate;
pub mod list;
pub mod model;
pub mod papers;
mod pi;
pub mod refusal;
pub mod running;
mod session;
pub mod sheet;
pub mod show;
pub mod withheld;
pub mod write;
