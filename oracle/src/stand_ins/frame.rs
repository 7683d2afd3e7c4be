//! Stand-in for ironsight's frame.rs, which is not in docs/src.

use crate::addr::BusAddr;
use crate::error::Result;

pub struct RawFrame {
    pub dest: BusAddr,
    pub src: BusAddr,
    pub type_id: u8,
    pub payload: Vec<u8>,
}

impl RawFrame {
    pub fn parse(_wire: &[u8]) -> Result<Self> {
        unreachable!("RawFrame::parse: not in docs/src")
    }

    pub fn encode(&self) -> Vec<u8> {
        unreachable!("RawFrame::encode: not in docs/src")
    }
}

pub struct FrameSplitter;

impl FrameSplitter {
    #[allow(clippy::new_without_default)]
    pub fn new() -> Self {
        unreachable!("FrameSplitter::new: not in docs/src")
    }

    pub fn feed(&mut self, _bytes: &[u8]) -> Vec<Vec<u8>> {
        unreachable!("FrameSplitter::feed: not in docs/src")
    }
}
