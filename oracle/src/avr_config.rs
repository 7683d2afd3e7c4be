//! The settings run.

use std::time::Instant;

use crate::list::{Settings, Which};
use crate::refusal;
use crate::running::{Clock, Echoes, Fields, Run, Sequencer, Step};
use crate::seq::inspect;
use crate::seq::{AvrConfigSequencer, AvrSettings};
use crate::write;

/// Writes the answer. Where the start is refused, an empty run runs.
pub fn begin(settings: &Settings, base: Instant, out: &mut String) -> Run<AvrConfigSequencer> {
    let settings = avr_settings(settings);
    let ids = settings.params.iter().map(|param| param.param_id);
    if let Some(number) = refusal::of_settings(ids) {
        let (seq, _) = AvrConfigSequencer::new(empty());
        return Run::begin_refused(number, seq, base, out);
    }
    out.push_str("accepted; ");
    Run::begin(AvrConfigSequencer::new(settings), base, out)
}

fn avr_settings(settings: &Settings) -> AvrSettings {
    match settings {
        Settings::Given(settings) => settings.clone(),
        Settings::ModeOnly(mode) => AvrSettings::mode_only(*mode),
        Settings::Mevo(settings) => settings.clone().into(),
    }
}

fn empty() -> AvrSettings {
    AvrSettings {
        mode: 0,
        params: Vec::new(),
        radar_cal: None,
    }
}

impl Sequencer for AvrConfigSequencer {
    const WHICH: Which = Which::AvrConfig;

    fn step(&self) -> Step {
        let seq = inspect::avr_config(self);
        Step {
            name: seq.step,
            fields: seq.param_idx.map_or(Fields::None, Fields::ParamIdx),
        }
    }

    /// Two entries of each parameter stand between the first and the mode's.
    fn awaits(&self) -> Option<usize> {
        let seq = inspect::avr_config(self);
        let behind = 1 + 2 * seq.settings.params.len();
        Some(match (seq.step, seq.param_idx) {
            ("WaitInitGateAck", _) => 1,
            ("WaitParamAck", Some(idx)) => 2 + 2 * idx,
            ("WaitParamCommitAck", Some(idx)) => 3 + 2 * idx,
            ("WaitModeEcho", _) => behind + 1,
            ("WaitModeCommitAck", _) => behind + 2,
            ("WaitRadarCalEcho", _) => behind + 3,
            ("WaitRadarCalCommitAck", _) => behind + 4,
            _ => return None,
        })
    }

    fn echoes(&self) -> Option<Echoes> {
        let settings = inspect::avr_config(self).settings;
        let cal = settings.radar_cal.as_ref();
        Some(Echoes {
            mode: settings.mode,
            radar_cal: cal.map(|cal| (cal.range_mm, cal.height_mm)),
        })
    }

    fn state(&self, _clock: &Clock, out: &mut String) {
        write::settings(out, inspect::avr_config(self).settings);
    }
}
