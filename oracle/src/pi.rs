//! The Pi start-up.

use crate::list::Which;
use crate::running::{Clock, Fields, Sequencer, Step};
use crate::seq::PiSequencer;
use crate::seq::inspect;
use crate::write;

impl Sequencer for PiSequencer {
    const WHICH: Which = Which::Pi;

    fn step(&self) -> Step {
        let seq = inspect::pi(self);
        let idx = seq.params.map(|(_, idx)| Fields::Idx(idx));
        Step {
            name: seq.step,
            fields: idx.unwrap_or(Fields::None),
        }
    }

    fn awaits(&self) -> Option<usize> {
        let seq = inspect::pi(self);
        Some(match (seq.step, seq.params) {
            ("WaitStatus", _) => 1,
            ("WaitDevInfo", _) => 2,
            ("WaitParam0A", _) => 3,
            ("WaitCamConfig1", _) => 4,
            ("WaitCamConfig2", _) => 5,
            ("WaitNetConfig", _) => 6,
            ("WaitNetConfigPw", _) => 7,
            (_, Some((_, idx))) => 8 + idx,
            _ => return None,
        })
    }

    fn result(&self, out: &mut String) {
        let sync = inspect::done_pi(self).into_result();
        write::dev_info(out, Some(&sync.dev_info));
        write::cam_config(out, Some(&sync.cam_config));
        write::bytes(out, "ssid", sync.ssid.as_bytes());
        write::bytes(out, "password", sync.password.as_bytes());
    }

    fn state(&self, _clock: &Clock, out: &mut String) {
        let seq = inspect::pi(self);
        write::dev_info(out, seq.dev_info);
        write::cam_config(out, seq.cam_config);
        write::bytes(out, "ssid", seq.ssid.as_bytes());
        write::bytes(out, "password", seq.password.as_bytes());
    }
}
