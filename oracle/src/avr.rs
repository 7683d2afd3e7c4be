//! The AVR start-up.

use std::time::Instant;

use crate::list::Which;
use crate::protocol::handshake::DeviceModel;
use crate::running::{Clock, Sequencer, Step, Waits};
use crate::seq::inspect;
use crate::seq::{Action, AvrSequencer};
use crate::write;

impl Sequencer for AvrSequencer {
    const WHICH: Which = Which::Avr;

    fn step(&self) -> Step {
        Step::plain(inspect::avr(self).step)
    }

    /// Without the factory calibration there is no 8, and none after 9.
    fn awaits(&self) -> Option<usize> {
        Some(match inspect::avr(self).step {
            "WaitStatus1" => 1,
            "WaitStatus2" => 2,
            "WaitDevInfo1" => 3,
            "WaitDevInfo2" => 4,
            "WaitParam0C" => 5,
            "WaitParam0D" => 6,
            "WaitConfig" => 7,
            "WaitFactoryCal" => 8,
            "WaitIfCal" => 9,
            "WaitAvrConfig" => 10,
            "WaitParam64" => 11,
            "WaitTimeSync" => 12,
            _ => return None,
        })
    }

    fn waits(&self) -> Waits {
        let seq = inspect::avr(self);
        Waits {
            deadline: seq.cal_deadline,
            repoll: seq.repoll_at,
        }
    }

    fn model(&self) -> Option<DeviceModel> {
        Some(inspect::avr(self).model)
    }

    fn check(&mut self, now: Instant) -> Vec<Action> {
        self.check_cal_timeout(now)
    }

    fn result(&self, out: &mut String) {
        let sync = inspect::done_avr(self).into_result();
        let factory_cal = sync.factory_cal.as_ref().map(|r| &r.payload);
        let if_cal = sync.if_cal.as_ref().map(|r| &r.payload);
        let avr_config = sync.avr_config.as_ref().map(|r| &r.payload);
        write::avr_status(out, Some(&sync.status));
        write::dev_info(out, Some(&sync.dev_info));
        write::params(out, Some(&sync.config));
        write::payload(out, "factory_cal", factory_cal);
        write::payload(out, "if_cal", if_cal);
        write::payload(out, "avr_config", avr_config);
    }

    fn state(&self, clock: &Clock, out: &mut String) {
        let seq = inspect::avr(self);
        write::avr_status(out, seq.status);
        write::dev_info(out, seq.dev_info);
        write::params(out, seq.config);
        write::payload(out, "factory_cal", seq.factory_cal.map(|r| &r.payload));
        write::payload(out, "if_cal", seq.if_cal.map(|r| &r.payload));
        write::payload(out, "avr_config", seq.avr_config.map(|r| &r.payload));
        write::reading(out, "cal_deadline", clock.reading(seq.cal_deadline));
        write::reading(out, "repoll_at", clock.reading(seq.repoll_at));
    }
}
