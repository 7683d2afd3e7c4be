//! The arm.

use crate::addr::BusAddr;
use crate::armed;
use crate::list::{Feed, Which};
use crate::protocol::Message;
use crate::protocol::handshake::DeviceModel;
use crate::refusal;
use crate::running::{Clock, Fields, Sequencer, Step};
use crate::seq::ArmSequencer;
use crate::seq::inspect;
use crate::write;

impl Sequencer for ArmSequencer {
    const WHICH: Which = Which::Arm;

    fn step(&self) -> Step {
        let seq = inspect::arm(self);
        let got = seq.got.map(|(pi, armed)| Fields::Got { pi, armed });
        Step {
            name: seq.step,
            fields: got.unwrap_or(Fields::None),
        }
    }

    /// It goes back, so its steps are no entries.
    fn awaits(&self) -> Option<usize> {
        None
    }

    /// The one that has a camera or hasn't.
    fn model(&self) -> Option<DeviceModel> {
        Some(match inspect::arm(self).wait_pi {
            true => DeviceModel::Mevo,
            false => DeviceModel::Xi,
        })
    }

    fn refusal(&self, feed: &Feed) -> Option<u8> {
        let nack = matches!(feed.message, Message::ConfigNack(_));
        let seq = inspect::arm(self);
        if !(nack && feed.src == BusAddr::Avr && seq.step == "WaitArmAck") {
            return None;
        }
        refusal::of_counted_nack(seq.retries)
    }

    /// At whatever step.
    fn keeps_back(&self, feed: &Feed) -> bool {
        armed::differs_in(feed)
    }

    fn retries(&self) -> Option<u16> {
        Some(ArmSequencer::retries(self))
    }

    fn state(&self, _clock: &Clock, out: &mut String) {
        let seq = inspect::arm(self);
        write::number(out, "retries", seq.retries);
        write::boolean(out, "wait_pi", seq.wait_pi);
    }
}
