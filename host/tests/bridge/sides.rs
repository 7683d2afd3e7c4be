//! The six sequences of both sides, each behind one trait.

use std::time::Instant;

use oracle::running::Sequencer;
use oracle::seq::inspect;
use wigtalom::{Action, Envelope, Refusal};

use super::fields::{Compared, Fields, put};
use super::rust;

pub type Answer = Result<Vec<Action>, Refusal>;

/// The instant of reading 0.
pub struct Clock(pub Instant);

impl Clock {
    pub fn reading(&self, at: Option<Instant>) -> Option<u64> {
        let nanos = |at: Instant| at.duration_since(self.0).as_nanos();
        at.map(|at| u64::try_from(nanos(at)).expect("deadlines are readings"))
    }
}

/// A sequencer of the Rust.
pub trait Theirs: Sequencer {
    /// Its result, once complete.
    fn put_result(&self, _to: &mut Fields) {
        unreachable!("not a call of this sequence")
    }

    fn put_state(&self, clock: &Clock, to: &mut Fields);
}

/// A sequencer of the library.
pub trait Ours {
    fn feed(&mut self, env: &Envelope, now: u64, wall: u64) -> Answer;

    fn check(&mut self, _now: u64) -> Answer {
        unreachable!("not a call of this sequence")
    }

    fn put_result(&self, _to: &mut Fields) -> Result<(), Refusal> {
        unreachable!("not a call of this sequence")
    }

    fn take(&mut self) -> Option<Envelope> {
        unreachable!("not a call of this sequence")
    }

    fn retries(&self) -> u16 {
        unreachable!("not a call of this sequence")
    }

    fn sheet(&self) -> String {
        unreachable!("not a call of this sequence")
    }

    fn sheet_into(&self, _buf: &mut [u8], _at: usize) -> Result<usize, Refusal> {
        unreachable!("not a call of this sequence")
    }

    fn is_complete(&self) -> bool;

    fn put_state(&self, to: &mut Fields);
}

/// The calls that are the same in each start-up.
macro_rules! start_up {
    () => {
        fn put_result(&self, to: &mut Fields) -> Result<(), Refusal> {
            self.into_result().map(|sync| sync.put("result", to))
        }

        fn sheet(&self) -> String {
            self.sheet()
        }

        fn sheet_into(&self, buf: &mut [u8], at: usize) -> Result<usize, Refusal> {
            self.sheet_into(buf, at)
        }
    };
}

/// The calls that are the same in each sequence without a clock.
macro_rules! feed_without_clock {
    () => {
        fn feed(&mut self, env: &Envelope, _now: u64, _wall: u64) -> Answer {
            self.feed(env)
        }
    };
}

macro_rules! is_complete {
    () => {
        fn is_complete(&self) -> bool {
            self.is_complete()
        }
    };
}

impl Theirs for rust::DspSequencer {
    fn put_result(&self, to: &mut Fields) {
        inspect::done_dsp(self).into_result().put("result", to);
    }

    fn put_state(&self, clock: &Clock, to: &mut Fields) {
        let state = inspect::dsp(self);
        put!(to, state: step, status, hw_info, dev_info);
        for i in 0..3 {
            let text = state.prod_info.get(i).map_or("", |info| &info.text);
            text.put("text", to);
        }
        put!(to, state: config, refused, power_mode_unanswered);
        clock.reading(state.deadline).put("deadline", to);
    }
}

impl Ours for wigtalom::DspSequencer {
    is_complete!();
    start_up!();

    fn feed(&mut self, env: &Envelope, now: u64, _wall: u64) -> Answer {
        self.feed(env, now)
    }

    fn check(&mut self, now: u64) -> Answer {
        self.check_timeout(now)
    }

    fn take(&mut self) -> Option<Envelope> {
        self.take_refused()
    }

    fn put_state(&self, to: &mut Fields) {
        self.state().put("state", to);
    }
}

impl Compared for wigtalom::DspState {
    fn put(&self, _: &'static str, to: &mut Fields) {
        put!(to, self: step, status, hw_info, dev_info, prod_info, config, refused);
        put!(to, self: power_mode_unanswered, deadline, last, ticks);
    }
}

impl Theirs for rust::AvrSequencer {
    fn put_result(&self, to: &mut Fields) {
        inspect::done_avr(self).into_result().put("result", to);
    }

    fn put_state(&self, clock: &Clock, to: &mut Fields) {
        let state = inspect::avr(self);
        put!(to, state: step, model, status, dev_info, config, factory_cal, if_cal, avr_config);
        clock.reading(state.cal_deadline).put("cal_deadline", to);
        clock.reading(state.repoll_at).put("repoll_at", to);
    }
}

impl Ours for wigtalom::AvrSequencer {
    is_complete!();
    start_up!();

    fn feed(&mut self, env: &Envelope, now: u64, wall: u64) -> Answer {
        self.feed(env, now, wall)
    }

    fn check(&mut self, now: u64) -> Answer {
        self.check_cal_timeout(now)
    }

    fn put_state(&self, to: &mut Fields) {
        self.state().put("state", to);
    }
}

impl Compared for wigtalom::AvrState {
    fn put(&self, _: &'static str, to: &mut Fields) {
        put!(to, self: step, model, status, dev_info, config, factory_cal, if_cal, avr_config);
        put!(to, self: cal_deadline, repoll_at, last, ticks);
    }
}

impl Theirs for rust::PiSequencer {
    fn put_result(&self, to: &mut Fields) {
        inspect::done_pi(self).into_result().put("result", to);
    }

    fn put_state(&self, _clock: &Clock, to: &mut Fields) {
        let state = inspect::pi(self);
        put!(to, state: step);
        state.params.map_or(0, |(_, idx)| idx).put("idx", to);
        put!(to, state: dev_info, cam_config, ssid, password);
    }
}

impl Ours for wigtalom::PiSequencer {
    is_complete!();
    start_up!();
    feed_without_clock!();

    fn put_state(&self, to: &mut Fields) {
        self.state().put("state", to);
    }
}

impl Compared for wigtalom::PiState {
    fn put(&self, _: &'static str, to: &mut Fields) {
        put!(to, self: step, idx, dev_info, cam_config, ssid, password, ticks);
    }
}

impl Theirs for rust::AvrConfigSequencer {
    fn put_state(&self, _clock: &Clock, to: &mut Fields) {
        let state = inspect::avr_config(self);
        put!(to, state: step);
        state.param_idx.unwrap_or(0).put("param_idx", to);
        put!(to, state: settings);
    }
}

impl Ours for wigtalom::AvrConfigSequencer {
    is_complete!();
    feed_without_clock!();

    fn put_state(&self, to: &mut Fields) {
        let state = self.state();
        put!(to, state: step, param_idx, settings);
    }
}

impl Theirs for rust::ArmSequencer {
    fn put_state(&self, _clock: &Clock, to: &mut Fields) {
        let state = inspect::arm(self);
        let (got_pi, got_armed) = state.got.unwrap_or_default();
        put!(to, state: step);
        got_pi.put("got_pi", to);
        got_armed.put("got_armed", to);
        put!(to, state: retries, wait_pi);
    }
}

impl Ours for wigtalom::ArmSequencer {
    is_complete!();
    feed_without_clock!();

    fn retries(&self) -> u16 {
        self.retries()
    }

    fn put_state(&self, to: &mut Fields) {
        let state = self.state();
        put!(to, state: step, got_pi, got_armed, retries, wait_pi);
    }
}

impl Theirs for rust::DisarmSequencer {
    fn put_state(&self, _clock: &Clock, to: &mut Fields) {
        inspect::disarm_step(self).put("step", to);
    }
}

impl Ours for wigtalom::DisarmSequencer {
    is_complete!();
    feed_without_clock!();

    fn put_state(&self, to: &mut Fields) {
        self.state().step.put("step", to);
    }
}
