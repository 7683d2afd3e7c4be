//! The disarm.

use crate::command::Action;
use crate::convert;
use crate::ffi;
use crate::message::Envelope;
use crate::records::CDisarm;
use crate::refusal::Refusal;
use crate::steps;

/// The disarm, before a mode change.
#[derive(Debug, Clone)]
pub struct DisarmSequencer(CDisarm);

/// Where a disarm stands.
#[derive(Debug, Clone, Copy, PartialEq, Eq)]
pub struct DisarmState {
    /// The step's name in seq.rs.
    pub step: &'static str,
}

impl DisarmSequencer {
    /// A disarm at its beginning, and what to send first.
    #[must_use]
    pub fn new() -> (Self, Vec<Action>) {
        let begun = ffi::wigtalom_disarm_new();
        (Self(begun.seq), convert::sends(&begun.action))
    }

    /// Hands in what came from the unit. Nothing is sent.
    ///
    /// # Errors
    ///
    /// A text (1) or payload (2) over 256 bytes. Then the sequencer is as it
    /// was.
    pub fn feed(&mut self, env: &Envelope) -> Result<Vec<Action>, Refusal> {
        let fed = ffi::disarm_feed(self.0, &env.lent());
        let sends = convert::answer(fed.refusal, &fed.action)?;
        self.0 = fed.seq;
        Ok(sends)
    }

    /// Whether the unit is disarmed.
    #[must_use]
    pub fn is_complete(&self) -> bool {
        steps::is_done(steps::DISARM, self.0.step)
    }

    /// Where it stands, for logs and tests.
    #[must_use]
    pub fn state(&self) -> DisarmState {
        DisarmState {
            step: steps::name(steps::DISARM, self.0.step),
        }
    }
}
