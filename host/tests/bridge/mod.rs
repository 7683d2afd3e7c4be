//! Runs the calls of the oracle's generator through the Rust and through the
//! library side by side, and compares the answers value by value.

pub mod fields;
pub mod floats;
pub mod over;
pub mod pair;
pub mod run;
pub mod session;
pub mod sides;

/// The Rust's types, under one name.
pub mod rust {
    pub use oracle::addr::BusAddr;
    pub use oracle::conn::Envelope;
    pub use oracle::protocol::camera::*;
    pub use oracle::protocol::config::*;
    pub use oracle::protocol::handshake::*;
    pub use oracle::protocol::status::*;
    pub use oracle::protocol::{Command, Message};
    pub use oracle::seq::*;
}
