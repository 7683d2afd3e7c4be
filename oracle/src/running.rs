//! A sequence that has begun, behind a list of calls.

use std::time::{Duration, Instant, SystemTime, UNIX_EPOCH};

use crate::conn::Envelope;
use crate::list::{Feed, Which};
use crate::model::{Model, Tags};
use crate::protocol::Message;
use crate::protocol::handshake::DeviceModel;
use crate::protocol::status::DspStatus;
use crate::refusal;
use crate::seq::{Action, Sequence};
use crate::sheet::{self, How, Ticks};
use crate::write;

/// The calls of a list that belong to a sequence.
pub trait Running {
    fn feed(&mut self, feed: &Feed, out: &mut String);
    fn check(&mut self, now: u64, out: &mut String);
    fn result(&self, out: &mut String);
    fn sheet(&self, lent: Option<(u64, usize)>, out: &mut String);

    fn sheet_of(&self, _which: Which, _lent: Option<(u64, usize)>, _out: &mut String) {
        unreachable!("not a call of this sequence")
    }

    fn take(&mut self, out: &mut String);
    fn retries(&self, out: &mut String);
    /// Every stored field, each after a blank.
    fn state(&self, out: &mut String);
    fn which(&self) -> Which;
    fn view(&self) -> View;

    /// What more there is of a session.
    fn session(&self) -> Option<SessionView> {
        None
    }
}

/// What the generator and the coverage look at.
#[derive(Clone, Copy)]
pub struct View {
    pub which: Which,
    pub step: Step,
    /// The last accepted reading; 0 without a clock.
    pub last: u64,
    /// The reading from which on a check does something.
    pub deadline: Option<u64>,
    /// The same, if that is sending a refused poll again.
    pub repoll: Option<u64>,
    /// The model by which the Rust runs it, as soon as that is known.
    pub model: Option<DeviceModel>,
    /// What a settings run awaits back.
    pub echoes: Option<Echoes>,
    /// How many nacks an arm has counted.
    pub retries: Option<u16>,
    /// How many bytes the sheet of a start-up has so far.
    pub sheet: Option<usize>,
}

/// What is looked at of a session. In its view stands the node of the picture
/// in docs/MACHINES.md as a step.
#[derive(Clone, Copy)]
pub struct SessionView {
    /// Those of its start-ups that have begun, in the order of
    /// `Which::START_UPS`.
    pub parts: [Option<Part>; 3],
    /// What the DSP has found, once it is done.
    pub found: Option<(Model, Tags)>,
}

impl SessionView {
    pub fn part(&self, which: Which) -> Option<Part> {
        self.parts
            .into_iter()
            .flatten()
            .find(|part| part.which == which)
    }
}

/// A start-up of a session.
#[derive(Clone, Copy)]
pub struct Part {
    pub which: Which,
    pub step: Step,
    /// The last reading that it has heard; 0 at first.
    pub last: u64,
    pub deadline: Option<u64>,
    pub repoll: Option<u64>,
    pub sheet: usize,
}

/// A step's name in seq.rs, and its fields.
#[derive(Debug, Clone, Copy, PartialEq)]
pub struct Step {
    pub name: &'static str,
    pub fields: Fields,
}

#[derive(Debug, Clone, Copy, PartialEq)]
pub enum Fields {
    None,
    /// Of the Pi's reads.
    Idx(usize),
    /// Of the two steps of a parameter.
    ParamIdx(usize),
    /// Of an arm's last step.
    Got {
        pi: bool,
        armed: bool,
    },
}

impl Step {
    /// Without fields.
    pub fn plain(name: &'static str) -> Self {
        Step {
            name,
            fields: Fields::None,
        }
    }
}

/// The mode of a settings run, and the range and height of its calibration.
#[derive(Clone, Copy)]
pub struct Echoes {
    pub mode: u8,
    pub radar_cal: Option<(u16, u8)>,
}

/// How many bytes are lent for a sheet where a list doesn't say.
const DEFAULT_LENT: usize = 512;

/// What a check waits for.
#[derive(Default)]
pub struct Waits {
    pub deadline: Option<Instant>,
    pub repoll: Option<Instant>,
}

/// A sequencer of the Rust, with what differs from one to the other.
pub trait Sequencer: Sequence {
    const WHICH: Which;
    fn step(&self) -> Step;

    /// The number of the entry that is awaited, as docs/MACHINES.md counts
    /// them from 1. None is at Done, and an arm has no entries.
    fn awaits(&self) -> Option<usize>;

    fn waits(&self) -> Waits {
        Waits::default()
    }

    fn model(&self) -> Option<DeviceModel> {
        None
    }

    fn echoes(&self) -> Option<Echoes> {
        None
    }

    /// The number with which this state declines a feed that no number of
    /// its bytes and its reading does.
    fn refusal(&self, _feed: &Feed) -> Option<u8> {
        None
    }

    /// Whether the Rust isn't handed this feed, since it would go by a rule
    /// that isn't the sequence's. It is then one that is not awaited.
    fn keeps_back(&self, _feed: &Feed) -> bool {
        false
    }

    fn check(&mut self, _now: Instant) -> Vec<Action> {
        unreachable!("not a call of this sequence")
    }

    fn take(&mut self) -> Option<Envelope> {
        unreachable!("not a call of this sequence")
    }

    fn retries(&self) -> Option<u16> {
        None
    }

    /// Every field of the result, each after a blank. Asked for at Done.
    fn result(&self, _out: &mut String) {
        unreachable!("not a call of this sequence")
    }

    /// Every stored field, each after a blank.
    fn state(&self, clock: &Clock, out: &mut String);
}

/// The readings that a sequence has had.
pub struct Clock {
    /// The instant of reading 0.
    base: Instant,
    /// The last accepted reading.
    last: u64,
}

impl Clock {
    fn at(&self, reading: u64) -> Instant {
        self.base + Duration::from_nanos(reading)
    }

    pub fn reading(&self, at: Option<Instant>) -> Option<u64> {
        let reading = |at: Instant| at.duration_since(self.base).as_nanos();
        at.map(|at| u64::try_from(reading(at)).expect("deadlines are readings"))
    }
}

/// A sequencer of the Rust and its clock.
pub struct Run<S> {
    seq: S,
    clock: Clock,
    /// What has been ticked, for the sheet of a start-up.
    ticks: Option<Ticks>,
}

/// A call that is not refused.
#[derive(Clone, Copy)]
pub enum Accepted<'a> {
    Feed(&'a Feed),
    Check(u64),
}

/// What a sequence has made of one.
pub struct Heard {
    /// The entry that was ticked.
    pub ticked: Option<usize>,
    pub actions: Vec<Action>,
}

impl<S: Sequencer> Run<S> {
    pub fn new(seq: S, base: Instant) -> Self {
        Run {
            seq,
            clock: Clock { base, last: 0 },
            ticks: Ticks::of(S::WHICH),
        }
    }

    /// Writes the answer of the call that begins it.
    pub fn begin((seq, first): (S, Vec<Action>), base: Instant, out: &mut String) -> Self {
        write::sends(out, &first);
        write::step(out, seq.step());
        Run::new(seq, base)
    }

    /// The same where the call was refused, and this runs in its place.
    pub fn begin_refused(number: u8, seq: S, base: Instant, out: &mut String) -> Self {
        let run = Run::new(seq, base);
        run.refused(number, out);
        run
    }

    fn refusal_of_reading(&self, now: u64) -> Option<u8> {
        if !S::WHICH.has_clock() {
            return None;
        }
        refusal::of_reading(now, self.clock.last)
    }

    /// Where a sequence stands: an entry was ticked if it stands elsewhere
    /// after a call.
    fn place(&self) -> (Step, Option<usize>) {
        (self.seq.step(), self.seq.awaits())
    }

    /// Hands a call to the Rust.
    pub fn hear(&mut self, call: Accepted) -> Heard {
        let before = self.place();
        let (now, how, actions) = match call {
            Accepted::Feed(feed) => {
                let actions = self.fed(feed);
                (feed.now, How::of(&feed.message), actions)
            }
            Accepted::Check(now) => {
                let actions = self.seq.check(self.clock.at(now));
                (now, How::Check, actions)
            }
        };
        self.clock.last = now;
        let ticked = before.1.filter(|_| self.seq.step() != before.0);
        if let (Some(_), Some(ticks)) = (ticked, &mut self.ticks) {
            ticks.add(now, how);
        }
        Heard { ticked, actions }
    }

    fn fed(&mut self, feed: &Feed) -> Vec<Action> {
        if self.seq.keeps_back(feed) {
            return Vec::new();
        }
        let (now, wall) = (self.clock.at(feed.now), wall(feed.wall));
        self.seq.feed(&envelope(feed), now, wall)
    }

    fn accepted(&mut self, call: Accepted, out: &mut String) {
        let heard = self.hear(call);
        out.push_str("accepted; ");
        if let Some(entry) = heard.ticked {
            write::ticked(out, None, entry);
        }
        write::sends(out, &heard.actions);
        write::step(out, self.seq.step());
    }

    pub fn sequencer(&self) -> &S {
        &self.seq
    }

    pub fn is_done(&self) -> bool {
        self.seq.is_complete()
    }

    /// As a part of a session.
    pub fn part(&self) -> Part {
        let waits = self.seq.waits();
        Part {
            which: S::WHICH,
            step: self.seq.step(),
            last: self.clock.last,
            deadline: self.clock.reading(waits.repoll.or(waits.deadline)),
            repoll: self.clock.reading(waits.repoll),
            sheet: self.ticks.as_ref().map_or(0, |ticks| ticks.sheet().len()),
        }
    }

    fn refused(&self, number: u8, out: &mut String) {
        out.push_str("refused ");
        write::decimal(out, number);
        out.push_str("; no send");
        write::step(out, self.seq.step());
    }
}

impl<S: Sequencer> Running for Run<S> {
    fn feed(&mut self, feed: &Feed, out: &mut String) {
        let refusal = refusal::of_bytes(&feed.text, &feed.payload)
            .or(self.refusal_of_reading(feed.now))
            .or(self.seq.refusal(feed));
        if let Some(number) = refusal {
            return self.refused(number, out);
        }
        self.accepted(Accepted::Feed(feed), out);
    }

    fn check(&mut self, now: u64, out: &mut String) {
        if let Some(number) = self.refusal_of_reading(now) {
            return self.refused(number, out);
        }
        self.accepted(Accepted::Check(now), out);
    }

    fn result(&self, out: &mut String) {
        if !self.seq.is_complete() {
            out.push_str("refused ");
            return write::decimal(out, refusal::NOT_DONE);
        }
        out.push_str("accepted;");
        self.seq.result(out);
    }

    fn sheet(&self, lent: Option<(u64, usize)>, out: &mut String) {
        let ticks = self.ticks.as_ref().expect("a call of this sequence");
        sheet_into(ticks.sheet(), lent, out);
    }

    fn take(&mut self, out: &mut String) {
        match self.seq.take() {
            None => out.push_str("none"),
            Some(env) => {
                out.push_str("nack ");
                write::nack(out, &env);
            }
        }
    }

    fn retries(&self, out: &mut String) {
        let retries = self.seq.retries().expect("a call of this sequence");
        write::decimal(out, retries);
    }

    fn state(&self, out: &mut String) {
        if S::WHICH.has_clock() {
            write::number(out, "last", self.clock.last);
        }
        self.seq.state(&self.clock, out);
        if let Some(ticks) = &self.ticks {
            write::word(out, "ticks", ticks.stored());
        }
    }

    fn which(&self) -> Which {
        S::WHICH
    }

    fn view(&self) -> View {
        let waits = self.seq.waits();
        let has_clock = S::WHICH.has_clock();
        View {
            which: S::WHICH,
            step: self.seq.step(),
            last: if has_clock { self.clock.last } else { 0 },
            deadline: self.clock.reading(waits.repoll.or(waits.deadline)),
            repoll: self.clock.reading(waits.repoll),
            model: self.seq.model(),
            echoes: self.seq.echoes(),
            retries: self.seq.retries(),
            sheet: self.ticks.as_ref().map(|ticks| ticks.sheet().len()),
        }
    }
}

/// Writes the answer of a call for a sheet. Each byte lent is a full stop
/// before. Where it isn't said how many are lent, what was written is told
/// alone.
pub fn sheet_into(sheet: &str, lent: Option<(u64, usize)>, out: &mut String) {
    let (at, length) = lent.unwrap_or((0, DEFAULT_LENT));
    let mut buffer = vec![b'.'; length];
    match sheet::put(sheet, &mut buffer, at) {
        Err(number) => {
            out.push_str("refused ");
            write::decimal(out, number);
        }
        Ok(count) => {
            out.push_str("accepted; wrote ");
            write::decimal(out, count as u64);
            if lent.is_none() {
                out.push(';');
                return write::text(out, "sheet", &buffer[..count]);
            }
        }
    }
    out.push(';');
    write::text(out, "buffer", &buffer);
}

/// A `SystemTime` holds 63 bits of seconds. Without the highest of the 64
/// their remainder by 2^32 is the same.
fn wall(seconds: u64) -> SystemTime {
    UNIX_EPOCH + Duration::from_secs(seconds & (u64::MAX >> 1))
}

/// The envelope that a feed hands in. Bytes that its kind has no place for
/// are left out.
fn envelope(feed: &Feed) -> Envelope {
    let mut message = feed.message.clone();
    let payload = || feed.payload.clone();
    // No comparison has a text that isn't UTF-8.
    let text = || String::from_utf8_lossy(&feed.text).into_owned();
    match &mut message {
        Message::DspStatus(DspStatus::V46(m)) => m.payload = payload(),
        Message::PiStatus(m) => m.payload = payload(),
        Message::Text(m) => m.text = text(),
        Message::AvrConfigResp(m) => m.payload = payload(),
        Message::DevInfoResp(m) => (m.text, m.payload) = (text(), payload()),
        Message::ProdInfoResp(m) => m.text = text(),
        Message::NetConfigResp(m) => m.text = text(),
        Message::CalParamResp(m) => m.payload = payload(),
        Message::CalDataResp(m) => m.payload = payload(),
        _ => {}
    }
    Envelope {
        src: feed.src,
        type_id: feed.type_id,
        raw: Vec::new(),
        message,
    }
}
