//! Clock readings.

use super::random::Random;
use crate::refusal::LAST_READING;
use crate::running::View;

const SECOND: u64 = 1_000_000_000;

/// The first reading of a start-up.
pub fn first(random: &mut Random) -> u64 {
    match random.below(20) {
        0..2 => 0,
        2..10 => random.below(10 * SECOND),
        10..12 => 5 * SECOND,
        12..18 => random.below(LAST_READING / 2),
        _ => LAST_READING - random.below(8 * SECOND),
    }
}

/// Makes readings for a state.
pub struct Readings<'a> {
    pub random: &'a mut Random,
    pub first: u64,
    pub view: View,
    /// Whether readings are looked at; those of a Pi are in a session.
    pub has_clock: bool,
}

impl Readings<'_> {
    /// A reading that is accepted.
    pub fn next(&mut self) -> u64 {
        let last = self.view.last;
        if !self.has_clock {
            return self.unread();
        }
        if last == 0 {
            return self.first;
        }
        let step = match self.random.below(10) {
            0..3 => 0,
            3..5 => self.random.below(3),
            _ => self.random.below(SECOND * 3 / 2),
        };
        last.saturating_add(step).min(LAST_READING)
    }

    /// Of a sequence without a clock, which looks at none.
    fn unread(&mut self) -> u64 {
        let any = [self.first, 0, self.random.bits(), u64::MAX];
        self.random.pick(&any)
    }

    /// From the deadline on.
    pub fn from(&mut self, deadline: u64) -> u64 {
        let late = self.random.pick(&[0, 0, 1, SECOND]);
        self.view.last.max(deadline.saturating_add(late))
    }

    pub fn any(&mut self) -> u64 {
        match self.random.below(200) {
            0..6 => self.fallen(),
            6..10 => self.past_limit(),
            10 => LAST_READING,
            11..40 => self.around_deadline(),
            _ => self.next(),
        }
    }

    fn around_deadline(&mut self) -> u64 {
        match self.view.deadline {
            Some(deadline) => (deadline - 1).saturating_add(self.random.below(3)),
            None => self.next(),
        }
    }

    pub fn fallen(&mut self) -> u64 {
        let last = self.view.last;
        let fallen = [last.saturating_sub(1), last / 2, 0];
        self.random.pick(&fallen)
    }

    pub fn past_limit(&mut self) -> u64 {
        let past = [LAST_READING + 1, LAST_READING + 2 * SECOND, u64::MAX];
        self.random.pick(&past)
    }
}
