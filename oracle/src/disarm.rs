//! The disarm.

use crate::list::Which;
use crate::running::{Clock, Sequencer, Step};
use crate::seq::DisarmSequencer;
use crate::seq::inspect;

impl Sequencer for DisarmSequencer {
    const WHICH: Which = Which::Disarm;

    fn step(&self) -> Step {
        Step::plain(inspect::disarm_step(self))
    }

    fn awaits(&self) -> Option<usize> {
        Some(match inspect::disarm_step(self) {
            "WaitAck" => 1,
            "WaitModeReset" => 2,
            "WaitStateIdle" => 3,
            _ => return None,
        })
    }

    /// Its step is all it has.
    fn state(&self, _clock: &Clock, _out: &mut String) {}
}
