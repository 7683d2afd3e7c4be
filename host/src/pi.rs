//! The Pi start-up.

use std::fmt;

use crate::command::Action;
use crate::convert;
use crate::ffi;
use crate::message::{CamConfig, DevInfoResp, Envelope};
use crate::records::{CPi, CPiSync};
use crate::refusal::Refusal;
use crate::sheet::{self, Tick};
use crate::steps;
use crate::withheld::Withheld;

/// The start-up of the camera's Pi.
#[derive(Debug, Clone)]
pub struct PiSequencer(pub(crate) CPi);

/// What a Pi start-up gives. `Debug` doesn't print the network.
#[derive(Clone, PartialEq)]
pub struct PiSync {
    /// Device info.
    pub dev_info: DevInfoResp,
    /// The camera's configuration.
    pub cam_config: CamConfig,
    /// The camera's network.
    pub ssid: String,
    /// Its password.
    pub password: String,
}

impl fmt::Debug for PiSync {
    fn fmt(&self, f: &mut fmt::Formatter<'_>) -> fmt::Result {
        let Self {
            dev_info,
            cam_config,
            ssid: _,
            password: _,
        } = self;
        f.debug_struct("PiSync")
            .field("dev_info", dev_info)
            .field("cam_config", cam_config)
            .field("ssid", &Withheld)
            .field("password", &Withheld)
            .finish()
    }
}

/// What a Pi start-up has stored so far. `Debug` doesn't print the network.
#[derive(Clone, PartialEq)]
pub struct PiState {
    /// The step's name in seq.rs.
    pub step: &'static str,
    /// Which parameter is awaited at step `WaitParams`, 0 at any other.
    pub idx: usize,
    /// Device info.
    pub dev_info: Option<DevInfoResp>,
    /// The camera's configuration.
    pub cam_config: Option<CamConfig>,
    /// The camera's network.
    pub ssid: String,
    /// Its password.
    pub password: String,
    /// The entries ticked so far.
    pub ticks: Vec<Tick>,
}

impl fmt::Debug for PiState {
    fn fmt(&self, f: &mut fmt::Formatter<'_>) -> fmt::Result {
        let Self {
            step,
            idx,
            dev_info,
            cam_config,
            ssid: _,
            password: _,
            ticks,
        } = self;
        f.debug_struct("PiState")
            .field("step", step)
            .field("idx", idx)
            .field("dev_info", dev_info)
            .field("cam_config", cam_config)
            .field("ssid", &Withheld)
            .field("password", &Withheld)
            .field("ticks", ticks)
            .finish()
    }
}

impl PiSequencer {
    /// A start-up at its beginning, and what to send first.
    #[must_use]
    pub fn new() -> (Self, Vec<Action>) {
        let begun = ffi::wigtalom_pi_new();
        (Self(begun.seq), convert::sends(&begun.action))
    }

    /// Hands in what came from the unit. Gives what to send: one command or
    /// none.
    ///
    /// # Errors
    ///
    /// A text (1) or payload (2) over 256 bytes. Then the sequencer is as it
    /// was.
    pub fn feed(&mut self, env: &Envelope) -> Result<Vec<Action>, Refusal> {
        let fed = ffi::pi_feed(self.0, &env.lent());
        let sends = convert::answer(fed.refusal, &fed.action)?;
        self.0 = fed.seq;
        Ok(sends)
    }

    /// Whether the start-up is complete.
    #[must_use]
    pub fn is_complete(&self) -> bool {
        steps::is_done(steps::PI, self.0.step.number)
    }

    /// The result. The sequencer stays, since a refusal mustn't lose it.
    ///
    /// # Errors
    ///
    /// The start-up isn't complete (12).
    #[allow(clippy::wrong_self_convention)] // the name that seq.rs has
    pub fn into_result(&self) -> Result<PiSync, Refusal> {
        let finished = ffi::wigtalom_pi_result(self.0);
        Refusal::check(finished.refusal)?;
        Ok(sync(&finished.sync))
    }

    /// The sheet of the entries ticked so far, with the letter P and the
    /// reading 0, else as [`DspSequencer::sheet`](crate::DspSequencer::sheet)
    /// has it.
    #[must_use]
    pub fn sheet(&self) -> String {
        sheet::whole(self.0, ffi::pi_sheet)
    }

    /// Writes the sheet into the part of `buf` that begins at place `at` and
    /// reaches to the buffer's end. Gives how many bytes were written. Those
    /// before the place and behind the sheet stay.
    ///
    /// # Errors
    ///
    /// The part is shorter than the sheet, or the place is past the buffer's
    /// end (5). Then nothing is written.
    pub fn sheet_into(&self, buf: &mut [u8], at: usize) -> Result<usize, Refusal> {
        ffi::pi_sheet(self.0, buf, at).value()
    }

    /// What is stored so far, for logs and tests.
    #[must_use]
    pub fn state(&self) -> PiState {
        let (step, r) = (self.0.step, &self.0.replies);
        PiState {
            step: steps::name(steps::PI, step.number),
            idx: step.idx,
            dev_info: r.dev_info.some.then(|| r.dev_info.value.value()),
            cam_config: r.cam_config.some.then_some(r.cam_config.value),
            ssid: r.ssid.0.text(),
            password: r.password.0.text(),
            ticks: self.0.ticks.value(),
        }
    }
}

pub(crate) fn sync(sync: &CPiSync) -> PiSync {
    PiSync {
        dev_info: sync.dev_info.value(),
        cam_config: sync.cam_config,
        ssid: sync.ssid.0.text(),
        password: sync.password.0.text(),
    }
}
