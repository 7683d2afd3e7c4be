//! The AVR configuration.

use crate::command::Action;
use crate::convert;
use crate::ffi;
use crate::message::Envelope;
use crate::records::CAvrConfig;
use crate::refusal::Refusal;
use crate::settings::AvrSettings;
use crate::steps;

/// The configuration of the AVR.
#[derive(Debug, Clone)]
pub struct AvrConfigSequencer(CAvrConfig);

/// Where a configuration stands.
#[derive(Debug, Clone, PartialEq)]
pub struct AvrConfigState {
    /// The step's name in seq.rs.
    pub step: &'static str,
    /// Which parameter is being set at `WaitParamAck` and
    /// `WaitParamCommitAck`, 0 at any other step.
    pub param_idx: usize,
    /// What it sets.
    pub settings: AvrSettings,
}

impl AvrConfigSequencer {
    /// A configuration with these settings, and what to send first.
    ///
    /// # Errors
    ///
    /// More than 32 parameters (4). An id that occurs twice among them (6),
    /// whatever the values are. No settings of a Mevo are refused.
    pub fn new(settings: AvrSettings) -> Result<(Self, Vec<Action>), Refusal> {
        let begun = ffi::wigtalom_avr_config_new(settings.record());
        let sends = convert::answer(begun.refusal, &begun.action)?;
        Ok((Self(begun.seq), sends))
    }

    /// Hands in what came from the unit. Gives what to send: one command or
    /// none.
    ///
    /// # Errors
    ///
    /// A text (1) or payload (2) over 256 bytes. Then the sequencer is as it
    /// was.
    pub fn feed(&mut self, env: &Envelope) -> Result<Vec<Action>, Refusal> {
        let fed = ffi::avr_config_feed(self.0, &env.lent());
        let sends = convert::answer(fed.refusal, &fed.action)?;
        self.0 = fed.seq;
        Ok(sends)
    }

    /// Whether the configuration is complete.
    #[must_use]
    pub fn is_complete(&self) -> bool {
        steps::is_done(steps::AVR_CONFIG, self.0.step.number)
    }

    /// Where it stands, for logs and tests.
    #[must_use]
    pub fn state(&self) -> AvrConfigState {
        let step = self.0.step;
        AvrConfigState {
            step: steps::name(steps::AVR_CONFIG, step.number),
            param_idx: step.param_idx,
            settings: AvrSettings::of_record(&self.0.settings),
        }
    }
}
