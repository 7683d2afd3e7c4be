//! The DSP start-up.

use std::time::Instant;

use crate::conn::Envelope;
use crate::list::Which;
use crate::model::Model;
use crate::protocol::handshake::{DevInfoResp, DeviceModel};
use crate::running::{Clock, Sequencer, Step, Waits};
use crate::seq::inspect;
use crate::seq::{Action, DspSequencer};
use crate::write;

impl Sequencer for DspSequencer {
    const WHICH: Which = Which::Dsp;

    fn step(&self) -> Step {
        Step::plain(inspect::dsp(self).step)
    }

    fn awaits(&self) -> Option<usize> {
        Some(match inspect::dsp(self).step {
            "WaitStatus" => 1,
            "WaitDspQuery" => 2,
            "WaitDevInfo" => 3,
            "WaitProdInfo0" => 4,
            "WaitProdInfo1" => 5,
            "WaitProdInfo2" => 6,
            "WaitConfig" => 7,
            "WaitPowerMode" => 8,
            _ => return None,
        })
    }

    fn waits(&self) -> Waits {
        Waits {
            deadline: inspect::dsp(self).deadline,
            repoll: None,
        }
    }

    /// The one that the Rust takes a stored device info for.
    fn model(&self) -> Option<DeviceModel> {
        inspect::dsp(self).dev_info.map(DevInfoResp::model)
    }

    fn check(&mut self, now: Instant) -> Vec<Action> {
        self.check_timeout(now)
    }

    fn take(&mut self) -> Option<Envelope> {
        self.take_refused()
    }

    fn result(&self, out: &mut String) {
        let sync = inspect::done_dsp(self).into_result();
        write::dsp_status(out, Some(&sync.status));
        write::hw_info(out, sync.hw_info.as_ref());
        write::dev_info(out, Some(&sync.dev_info));
        for info in &sync.prod_info {
            write::bytes(out, "prod_info", info.text.as_bytes());
        }
        write::params(out, Some(&sync.config));
        let model = Model::of_payload(&sync.dev_info.payload);
        write::word(out, "model", &model.spelled());
        match Model::tag_place(&sync.dev_info.payload) {
            Some(place) => write::number(out, "tag_place", place as u64),
            None => write::none(out, "tag_place"),
        }
        let unanswered = sync.power_mode_unanswered;
        write::boolean(out, "power_mode_unanswered", unanswered);
    }

    fn state(&self, clock: &Clock, out: &mut String) {
        let seq = inspect::dsp(self);
        write::dsp_status(out, seq.status);
        write::hw_info(out, seq.hw_info);
        write::dev_info(out, seq.dev_info);
        for i in 0..3 {
            let text = seq.prod_info.get(i).map_or("", |info| &info.text);
            write::bytes(out, "prod_info", text.as_bytes());
        }
        write::params(out, seq.config);
        write::reading(out, "deadline", clock.reading(seq.deadline));
        match seq.refused {
            None => write::none(out, "refused"),
            Some(env) => {
                out.push_str(" refused=");
                write::nack(out, env);
            }
        }
        let unanswered = seq.power_mode_unanswered;
        write::boolean(out, "power_mode_unanswered", unanswered);
    }
}
