//! The DSP start-up.

use crate::command::Action;
use crate::convert::{self, prod_info};
use crate::device::DeviceModel;
use crate::ffi;
use crate::message::{ConfigResp, DevInfoResp, DspQueryResp, DspStatus, Envelope, ProdInfoResp};
use crate::records::{CDsp, CDspFed, CDspSync};
use crate::refusal::Refusal;
use crate::sheet::{self, Tick};
use crate::steps;

/// The start-up of the DSP, and the detection of the model.
#[derive(Debug, Clone)]
pub struct DspSequencer(pub(crate) CDsp);

/// What a DSP start-up gives.
#[derive(Debug, Clone, PartialEq)]
pub struct DspSync {
    /// The DSP's status.
    pub status: DspStatus,
    /// The DSP's hardware; `None` if it wasn't told.
    pub hw_info: Option<DspQueryResp>,
    /// Device info.
    pub dev_info: DevInfoResp,
    /// Product info.
    pub prod_info: [ProdInfoResp; 3],
    /// The radar configuration.
    pub config: ConfigResp,
    /// The model that the device info names.
    pub model: DeviceModel,
    /// Where the tag that decided the model first stands in the device info's
    /// payload, counted from 0: "FS Xi" of a Xi, also behind a "BAY RIG";
    /// "BAY RIG" of a rig. `None` of a Mevo, which has no tag.
    pub tag_place: Option<usize>,
    /// The power-mode write, of a model that has the step, wasn't answered in
    /// time.
    pub power_mode_unanswered: bool,
}

/// What a DSP start-up has stored so far.
#[derive(Debug, Clone, PartialEq)]
pub struct DspState {
    /// The step's name in seq.rs.
    pub step: &'static str,
    /// The DSP's status.
    pub status: Option<DspStatus>,
    /// The DSP's hardware.
    pub hw_info: Option<DspQueryResp>,
    /// Device info.
    pub dev_info: Option<DevInfoResp>,
    /// Product info; what hasn't come is empty.
    pub prod_info: [ProdInfoResp; 3],
    /// The radar configuration.
    pub config: Option<ConfigResp>,
    /// The nack that ended the power-mode write, not yet taken.
    pub refused: Option<Envelope>,
    /// The power-mode write wasn't answered in time.
    pub power_mode_unanswered: bool,
    /// The reading from which on a check goes on without a reply.
    pub deadline: Option<u64>,
    /// The last accepted reading.
    pub last: u64,
    /// The entries ticked so far.
    pub ticks: Vec<Tick>,
}

impl DspSequencer {
    /// A start-up at its beginning, and what to send first.
    #[must_use]
    pub fn new() -> (Self, Vec<Action>) {
        let begun = ffi::wigtalom_dsp_new();
        (Self(begun.seq), convert::sends(&begun.action))
    }

    /// Hands in what came from the unit. Gives what to send: one command or
    /// none. `now` is the clock's reading in nanoseconds.
    ///
    /// # Errors
    ///
    /// A text (1) or payload (2) over 256 bytes, a reading too large (3) or
    /// below the last one (11). Then the sequencer is as it was.
    pub fn feed(&mut self, env: &Envelope, now: u64) -> Result<Vec<Action>, Refusal> {
        self.follow(&ffi::dsp_feed(self.0, &env.lent(), now))
    }

    /// Goes on without a reply that is overdue. To be called now and then.
    ///
    /// # Errors
    ///
    /// A reading too large (3) or below the last one (11).
    pub fn check_timeout(&mut self, now: u64) -> Result<Vec<Action>, Refusal> {
        self.follow(&ffi::wigtalom_dsp_check(self.0, now))
    }

    fn follow(&mut self, fed: &CDspFed) -> Result<Vec<Action>, Refusal> {
        let sends = convert::answer(fed.refusal, &fed.action)?;
        self.0 = fed.seq;
        Ok(sends)
    }

    /// The nack with which the DSP refused the power-mode write, once.
    #[must_use]
    pub fn take_refused(&mut self) -> Option<Envelope> {
        let taken = ffi::wigtalom_dsp_take_refused(self.0);
        self.0 = taken.seq;
        taken.refused.value()
    }

    /// Whether the start-up is complete.
    #[must_use]
    pub fn is_complete(&self) -> bool {
        steps::is_done(steps::DSP, self.0.step)
    }

    /// The result. The sequencer stays, since a refusal mustn't lose it.
    ///
    /// # Errors
    ///
    /// The start-up isn't complete (12).
    #[allow(clippy::wrong_self_convention)] // the name that seq.rs has
    pub fn into_result(&self) -> Result<DspSync, Refusal> {
        let finished = ffi::wigtalom_dsp_result(self.0);
        Refusal::check(finished.refusal)?;
        Ok(sync(&finished.sync))
    }

    /// The sheet of the entries ticked so far, also before the start-up is
    /// complete. Each has a line, such as `D,2,7000000000,K`, with a line feed
    /// at its end: the letter of the start-up; the number of the tick in it,
    /// from 1; its reading in nanoseconds; and [how](crate::How) the entry was
    /// ticked.
    ///
    /// ```
    /// use wigtalom::{BusAddr, DspSequencer, DspStatus, DspStatus80, Envelope, Message};
    ///
    /// let (mut seq, _) = DspSequencer::new();
    /// let message = Message::DspStatus(DspStatus::V80(DspStatus80::default()));
    /// let env = Envelope { src: BusAddr::Dsp, type_id: 0xAA, message };
    /// seq.feed(&env, 5_000_000_000)?;
    /// seq.check_timeout(7_000_000_000)?;
    /// assert_eq!(seq.sheet(), "D,1,5000000000,R\nD,2,7000000000,K\n");
    /// # Ok::<(), wigtalom::Refusal>(())
    /// ```
    #[must_use]
    pub fn sheet(&self) -> String {
        sheet::whole(self.0, ffi::dsp_sheet)
    }

    /// Writes the sheet into the part of `buf` that begins at place `at` and
    /// reaches to the buffer's end. Gives how many bytes were written. Those
    /// before the place and behind the sheet stay.
    ///
    /// # Errors
    ///
    /// The part is shorter than the sheet, or the place is past the buffer's
    /// end (5). Then nothing is written.
    pub fn sheet_into(&self, buf: &mut [u8], at: usize) -> Result<usize, Refusal> {
        ffi::dsp_sheet(self.0, buf, at).value()
    }

    /// What is stored so far, for logs and tests.
    #[must_use]
    pub fn state(&self) -> DspState {
        let c = &self.0;
        let (status, hw_info, config) = (&c.status, &c.hw_info, &c.config);
        DspState {
            step: steps::name(steps::DSP, c.step),
            status: status.some.then(|| status.value.value(&status.payload)),
            hw_info: hw_info.some.then_some(hw_info.value),
            dev_info: c.dev_info.some.then(|| c.dev_info.value.value()),
            prod_info: prod_info(&c.prod_info),
            config: config.some.then_some(config.value),
            refused: c.refused.value(),
            power_mode_unanswered: c.power_mode_unanswered,
            deadline: c.deadline.value(),
            last: c.last,
            ticks: c.ticks.value(),
        }
    }
}

pub(crate) fn sync(sync: &CDspSync) -> DspSync {
    DspSync {
        status: sync.status.value(&sync.status_payload),
        hw_info: sync.hw_info.some.then_some(sync.hw_info.value),
        dev_info: sync.dev_info.value(),
        prod_info: prod_info(&sync.prod_info),
        config: sync.config,
        model: sync.model,
        tag_place: sync.tag_place.some.then_some(sync.tag_place.value),
        power_mode_unanswered: sync.power_mode_unanswered,
    }
}
