//! The arm.

use crate::command::Action;
use crate::convert;
use crate::device::DeviceModel;
use crate::ffi;
use crate::message::Envelope;
use crate::records::{CArm, CArmFed};
use crate::refusal::Refusal;
use crate::steps;

/// The arm. When the unit refuses, it begins again.
#[derive(Debug, Clone)]
pub struct ArmSequencer(CArm);

/// Where an arm stands.
#[derive(Debug, Clone, Copy, PartialEq, Eq)]
pub struct ArmState {
    /// The step's name in seq.rs.
    pub step: &'static str,
    /// At `WaitPiAndArmed`: the Pi's status came. Else false.
    pub got_pi: bool,
    /// At `WaitPiAndArmed`: an armed text came. Else false.
    pub got_armed: bool,
    /// How many nacks were counted.
    pub retries: u16,
    /// Whether it waits for the Pi.
    pub wait_pi: bool,
}

impl ArmSequencer {
    /// Takes a Mevo without asking: use `new_for(result.model)` with the
    /// model that the DSP's result names. An arm of a Mevo, and what to send
    /// first.
    ///
    /// ```compile_fail
    /// #![deny(deprecated)]
    /// let _ = wigtalom::ArmSequencer::new();
    /// ```
    ///
    /// ```
    /// #![allow(deprecated)]
    /// let (arm, _) = wigtalom::ArmSequencer::new();
    /// assert!(arm.state().wait_pi);
    /// ```
    #[deprecated(
        note = "takes a Mevo without asking: use `new_for(result.model)` with the model that the DSP's result names"
    )]
    #[must_use]
    pub fn new() -> (Self, Vec<Action>) {
        Self::begun(&ffi::wigtalom_arm_new())
    }

    /// An arm of this model, which waits for the Pi where there is a camera,
    /// and what to send first.
    #[must_use]
    pub fn new_for(model: DeviceModel) -> (Self, Vec<Action>) {
        Self::begun(&ffi::wigtalom_arm_new_for(model))
    }

    fn begun(begun: &CArmFed) -> (Self, Vec<Action>) {
        (Self(begun.seq), convert::sends(&begun.action))
    }

    /// Hands in what came from the unit. Gives what to send: one command or
    /// none.
    ///
    /// # Errors
    ///
    /// A text (1) or payload (2) over 256 bytes, a nack past the 65,535 that
    /// are counted (13). Then the sequencer is as it was.
    pub fn feed(&mut self, env: &Envelope) -> Result<Vec<Action>, Refusal> {
        let fed = ffi::arm_feed(self.0, &env.lent());
        let sends = convert::answer(fed.refusal, &fed.action)?;
        self.0 = fed.seq;
        Ok(sends)
    }

    /// How many nacks were counted.
    #[must_use]
    pub fn retries(&self) -> u16 {
        ffi::wigtalom_arm_retries(self.0).retries
    }

    /// Whether the unit is armed.
    #[must_use]
    pub fn is_complete(&self) -> bool {
        steps::is_done(steps::ARM, self.0.step.number)
    }

    /// Where it stands, for logs and tests.
    #[must_use]
    pub fn state(&self) -> ArmState {
        let step = self.0.step;
        ArmState {
            step: steps::name(steps::ARM, step.number),
            got_pi: step.got_pi,
            got_armed: step.got_armed,
            retries: self.0.retries,
            wait_pi: self.0.wait_pi,
        }
    }
}
