//! The AVR start-up.

use crate::command::Action;
use crate::convert;
use crate::device::DeviceModel;
use crate::ffi;
use crate::message::{
    AvrConfigResp, AvrStatus, CalDataResp, CalParamResp, ConfigResp, DevInfoResp, Envelope,
};
use crate::records::{CAvr, CAvrFed, CAvrSync, COptionStored};
use crate::refusal::Refusal;
use crate::sheet::{self, Tick};
use crate::steps;

/// The start-up of the AVR.
#[derive(Debug, Clone)]
pub struct AvrSequencer(pub(crate) CAvr);

/// What an AVR start-up gives.
#[derive(Debug, Clone, PartialEq)]
pub struct AvrSync {
    /// The AVR's status.
    pub status: AvrStatus,
    /// Device info.
    pub dev_info: DevInfoResp,
    /// The radar configuration.
    pub config: ConfigResp,
    /// Factory calibration, if the model has one and it came in time.
    pub factory_cal: Option<CalDataResp>,
    /// IF calibration, if it came in time.
    pub if_cal: Option<CalParamResp>,
    /// The AVR's hardware configuration; `None` of a model without factory
    /// calibration and settings query, which isn't asked.
    pub avr_config: Option<AvrConfigResp>,
}

/// What an AVR start-up has stored so far.
#[derive(Debug, Clone, PartialEq)]
pub struct AvrState {
    /// The step's name in seq.rs.
    pub step: &'static str,
    /// The model that it was begun for.
    pub model: DeviceModel,
    /// The AVR's status.
    pub status: Option<AvrStatus>,
    /// Device info.
    pub dev_info: Option<DevInfoResp>,
    /// The radar configuration.
    pub config: Option<ConfigResp>,
    /// Factory calibration.
    pub factory_cal: Option<CalDataResp>,
    /// IF calibration.
    pub if_cal: Option<CalParamResp>,
    /// The AVR's hardware configuration.
    pub avr_config: Option<AvrConfigResp>,
    /// The reading from which on a check goes on without a calibration.
    pub cal_deadline: Option<u64>,
    /// The reading from which on a check sends a refused poll again.
    pub repoll_at: Option<u64>,
    /// The last accepted reading.
    pub last: u64,
    /// The entries ticked so far.
    pub ticks: Vec<Tick>,
}

impl AvrSequencer {
    /// Takes a Mevo without asking: use `new_for(result.model)` with the
    /// model that the DSP's result names. A start-up of a Mevo, and what to
    /// send first.
    ///
    /// ```compile_fail
    /// #![deny(deprecated)]
    /// let _ = wigtalom::AvrSequencer::new();
    /// ```
    ///
    /// ```
    /// #![allow(deprecated)]
    /// let (avr, _) = wigtalom::AvrSequencer::new();
    /// assert_eq!(avr.state().model, wigtalom::DeviceModel::MEVO);
    /// ```
    #[deprecated(
        note = "takes a Mevo without asking: use `new_for(result.model)` with the model that the DSP's result names"
    )]
    #[must_use]
    pub fn new() -> (Self, Vec<Action>) {
        Self::begun(&ffi::wigtalom_avr_new())
    }

    /// A start-up of this model, and what to send first.
    #[must_use]
    pub fn new_for(model: DeviceModel) -> (Self, Vec<Action>) {
        Self::begun(&ffi::wigtalom_avr_new_for(model))
    }

    fn begun(begun: &CAvrFed) -> (Self, Vec<Action>) {
        (Self(begun.seq), convert::sends(&begun.action))
    }

    /// Hands in what came from the unit. Gives what to send: one command or
    /// none. `now` is the clock's reading in nanoseconds, `wall` the seconds
    /// since 1970, which the unit's clock is set to.
    ///
    /// # Errors
    ///
    /// A text (1) or payload (2) over 256 bytes, a reading too large (3) or
    /// below the last one (11). Then the sequencer is as it was.
    pub fn feed(&mut self, env: &Envelope, now: u64, wall: u64) -> Result<Vec<Action>, Refusal> {
        self.follow(&ffi::avr_feed(self.0, &env.lent(), now, wall))
    }

    /// Sends a refused poll again, or goes on without a calibration that is
    /// overdue. To be called now and then.
    ///
    /// # Errors
    ///
    /// A reading too large (3) or below the last one (11).
    pub fn check_cal_timeout(&mut self, now: u64) -> Result<Vec<Action>, Refusal> {
        self.follow(&ffi::wigtalom_avr_check(self.0, now))
    }

    fn follow(&mut self, fed: &CAvrFed) -> Result<Vec<Action>, Refusal> {
        let sends = convert::answer(fed.refusal, &fed.action)?;
        self.0 = fed.seq;
        Ok(sends)
    }

    /// Whether the start-up is complete.
    #[must_use]
    pub fn is_complete(&self) -> bool {
        steps::is_done(steps::AVR, self.0.step)
    }

    /// The result. The sequencer stays, since a refusal mustn't lose it.
    ///
    /// # Errors
    ///
    /// The start-up isn't complete (12).
    #[allow(clippy::wrong_self_convention)] // the name that seq.rs has
    pub fn into_result(&self) -> Result<AvrSync, Refusal> {
        let finished = ffi::wigtalom_avr_result(self.0);
        Refusal::check(finished.refusal)?;
        Ok(sync(&finished.sync))
    }

    /// The sheet of the entries ticked so far, with the letter A, else as
    /// [`DspSequencer::sheet`](crate::DspSequencer::sheet) has it. Its last
    /// line is number 8 where the model has no factory calibration.
    #[must_use]
    pub fn sheet(&self) -> String {
        sheet::whole(self.0, ffi::avr_sheet)
    }

    /// Writes the sheet into the part of `buf` that begins at place `at` and
    /// reaches to the buffer's end. Gives how many bytes were written. Those
    /// before the place and behind the sheet stay.
    ///
    /// # Errors
    ///
    /// The part is shorter than the sheet, or the place is past the buffer's
    /// end (5). Then nothing is written.
    pub fn sheet_into(&self, buf: &mut [u8], at: usize) -> Result<usize, Refusal> {
        ffi::avr_sheet(self.0, buf, at).value()
    }

    /// What is stored so far, for logs and tests.
    #[must_use]
    pub fn state(&self) -> AvrState {
        let (c, r) = (&self.0, &self.0.replies);
        AvrState {
            step: steps::name(steps::AVR, c.step),
            model: c.model,
            status: r.status.some.then_some(r.status.value),
            dev_info: r.dev_info.some.then(|| r.dev_info.value.value()),
            config: r.config.some.then_some(r.config.value),
            factory_cal: payload(&r.factory_cal).map(|payload| CalDataResp { payload }),
            if_cal: payload(&r.if_cal).map(|payload| CalParamResp { payload }),
            avr_config: payload(&r.avr_config).map(|payload| AvrConfigResp { payload }),
            cal_deadline: c.cal_deadline.value(),
            repoll_at: c.repoll_at.value(),
            last: c.last,
            ticks: c.ticks.value(),
        }
    }
}

fn payload(stored: &COptionStored) -> Option<Vec<u8>> {
    stored.some.then(|| stored.value.to_vec())
}

pub(crate) fn sync(sync: &CAvrSync) -> AvrSync {
    AvrSync {
        status: sync.status,
        dev_info: sync.dev_info.value(),
        config: sync.config,
        factory_cal: payload(&sync.factory_cal).map(|payload| CalDataResp { payload }),
        if_cal: payload(&sync.if_cal).map(|payload| CalParamResp { payload }),
        avr_config: payload(&sync.avr_config).map(|payload| AvrConfigResp { payload }),
    }
}
