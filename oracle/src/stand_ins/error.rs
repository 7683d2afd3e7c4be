//! Stand-in for ironsight's error.rs, which is not in docs/src.

use std::fmt;

pub type Result<T> = std::result::Result<T, WireError>;

#[derive(Debug)]
pub enum WireError {
    UnknownBusAddr { addr: u8 },
}

impl WireError {
    pub fn payload_too_short(_what: &'static str, _expected: usize, _got: usize) -> Self {
        unreachable!("WireError::payload_too_short: not in docs/src")
    }

    pub fn unexpected_length(_what: &'static str, _expected: usize, _got: usize) -> Self {
        unreachable!("WireError::unexpected_length: not in docs/src")
    }

    pub fn with_raw(self, _raw: &[u8]) -> Self {
        unreachable!("WireError::with_raw: not in docs/src")
    }

    pub fn describe(&self) -> String {
        unreachable!("WireError::describe: not in docs/src")
    }
}

impl fmt::Display for WireError {
    fn fmt(&self, _f: &mut fmt::Formatter<'_>) -> fmt::Result {
        unreachable!("WireError::fmt: not in docs/src")
    }
}

impl std::error::Error for WireError {}
