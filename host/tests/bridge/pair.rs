//! A sequence that runs on both sides.

use std::mem::replace;
use std::time::{Duration, Instant, SystemTime, UNIX_EPOCH};

use oracle::list::{Begin, Call, Feed, MOST_LENT, Settings, Which};
use oracle::model::Model;
use oracle::refusal;
use oracle::running::{Step, View};
use oracle::sheet::{self, How, Ticks};
use wigtalom::Refusal;

use super::fields::{Compared, Fields};
use super::over::{Over, bytes, envelope};
use super::rust;
use super::sides::{Answer, Clock, Ours, Theirs};

/// The answers of both sides to one call.
#[derive(Default)]
pub struct Answers {
    pub rust: Fields,
    pub ours: Fields,
    /// The number with which the call was to be refused.
    pub refused: Option<u8>,
    /// How the call ticked an entry of a start-up, if it did.
    pub ticked: Option<How>,
}

/// A pair of some sequence.
pub trait Running {
    fn call(&mut self, call: &Call, to: &mut Answers);
    /// The state of both sides.
    fn put_state(&self, to: &mut Answers);
    fn view(&self) -> View;
}

/// A sequencer of the Rust and one of the library, in the same state.
struct Pair<R, O> {
    rust: R,
    ours: O,
    clock: Clock,
    /// The last reading that was accepted; 0 without a clock.
    last: u64,
    /// Of a start-up, by the Rust's steps.
    ticks: Option<Ticks>,
}

impl<R: Theirs + 'static, O: Ours + 'static> Pair<R, O> {
    /// Begins both, and puts what they send first.
    fn begin(
        (rust, first): (R, Vec<rust::Action>),
        (ours, our_first): (O, Vec<wigtalom::Action>),
        to: &mut Answers,
    ) -> Box<dyn Running> {
        first.put("sends", &mut to.rust);
        our_first.put("sends", &mut to.ours);
        let clock = Clock(Instant::now());
        Box::new(Pair {
            rust,
            ours,
            clock,
            last: 0,
            ticks: Ticks::of(R::WHICH),
        })
    }

    fn refusal_of_reading(&self, now: u64) -> Option<u8> {
        let has_clock = R::WHICH.has_clock();
        has_clock.then(|| refusal::of_reading(now, self.last))?
    }

    fn refusal(&self, feed: &Feed, env: &mut rust::Envelope) -> Option<u8> {
        let (text, payload) = bytes(&mut env.message);
        let text = text.map_or(&[][..], |text| text.as_bytes());
        let payload = payload.map_or(&[][..], |payload| payload);
        refusal::of_bytes(text, payload)
            .or(self.refusal_of_reading(feed.now))
            .or(self.rust.refusal(feed))
    }

    fn feed(&mut self, feed: &Feed, to: &mut Answers) {
        let mut env = envelope(feed);
        let ours = self.ours.feed(&env.over(), feed.now, feed.wall);
        let (now, wall) = (self.at(feed.now), wall(feed.wall));
        match self.refusal(feed, &mut env) {
            Some(number) => refused(number, &ours, to),
            None => {
                let before = self.rust.step();
                let actions = self.rust.feed(&env, now, wall);
                self.accepted(feed.now, &actions, &ours, to);
                self.tick(before, feed.now, How::of(&env.message), to);
            }
        }
    }

    fn check(&mut self, now: u64, to: &mut Answers) {
        let ours = self.ours.check(now);
        match self.refusal_of_reading(now) {
            Some(number) => refused(number, &ours, to),
            None => {
                let before = self.rust.step();
                let actions = self.rust.check(self.at(now));
                self.accepted(now, &actions, &ours, to);
                self.tick(before, now, How::Check, to);
            }
        }
    }

    fn at(&self, reading: u64) -> Instant {
        self.clock.0 + Duration::from_nanos(reading)
    }

    fn accepted(&mut self, now: u64, actions: &Vec<rust::Action>, ours: &Answer, to: &mut Answers) {
        if R::WHICH.has_clock() {
            self.last = now;
        }
        0u8.put("refused", &mut to.rust);
        actions.put("sends", &mut to.rust);
        put_answer(ours, &mut to.ours);
    }

    /// An accepted call ticks an entry exactly if it changes the step.
    fn tick(&mut self, before: Step, now: u64, how: How, to: &mut Answers) {
        match &mut self.ticks {
            Some(ticks) if self.rust.step() != before => {
                ticks.add(now, how);
                to.ticked = Some(how);
            }
            _ => {}
        }
    }

    /// Into a buffer of full stops.
    fn sheet(&self, (at, len): (u64, usize), to: &mut Answers) {
        let ticks = self.ticks.as_ref().expect("a start-up");
        let (mut buf, mut our_buf) = (vec![b'.'; len], vec![b'.'; len]);
        let written = sheet::put(ticks.sheet(), &mut buf, at);
        to.refused = written.err();
        put_written(written, buf, &mut to.rust);
        let at = usize::try_from(at).expect("64 bits");
        let ours = self.ours.sheet_into(&mut our_buf, at);
        put_written(ours.map_err(Refusal::number), our_buf, &mut to.ours);
    }

    fn result(&self, to: &mut Answers) {
        let done = self.rust.is_complete();
        to.refused = (!done).then_some(refusal::NOT_DONE);
        to.refused.unwrap_or(0).put("refused", &mut to.rust);
        if done {
            self.rust.put_result(&mut to.rust);
        }
        let mut result = Fields::default();
        let ours = self.ours.put_result(&mut result);
        ours.map_or_else(|r| r.number(), |()| 0)
            .put("refused", &mut to.ours);
        to.ours.list.extend(result.list);
    }
}

impl<R: Theirs + 'static, O: Ours + 'static> Running for Pair<R, O> {
    fn call(&mut self, call: &Call, to: &mut Answers) {
        match call {
            Call::Feed(feed) => self.feed(feed, to),
            Call::Check { now } => self.check(*now, to),
            Call::Result => self.result(to),
            Call::Sheet { lent } => self.sheet(lent.unwrap_or((0, MOST_LENT)), to),
            Call::Take => {
                self.rust.take().put("taken", &mut to.rust);
                self.ours.take().put("taken", &mut to.ours);
            }
            Call::Retries => {
                let retries = self.rust.retries().expect("an arm");
                retries.put("retries", &mut to.rust);
                self.ours.retries().put("retries", &mut to.ours);
            }
            _ => unreachable!("a call that belongs to no sequence"),
        }
    }

    fn put_state(&self, to: &mut Answers) {
        self.rust.is_complete().put("is_complete", &mut to.rust);
        self.ours.is_complete().put("is_complete", &mut to.ours);
        self.rust.put_state(&self.clock, &mut to.rust);
        if R::WHICH.has_clock() {
            self.last.put("last", &mut to.rust);
        }
        self.ours.put_state(&mut to.ours);
        if let Some(ticks) = &self.ticks {
            ticks.stored().put("ticks", &mut to.rust);
            ticks.sheet().put("sheet", &mut to.rust);
            self.ours.sheet().put("sheet", &mut to.ours);
        }
    }

    fn view(&self) -> View {
        let waits = self.rust.waits();
        View {
            which: R::WHICH,
            step: self.rust.step(),
            last: self.last,
            deadline: self.clock.reading(waits.repoll.or(waits.deadline)),
            repoll: self.clock.reading(waits.repoll),
            model: self.rust.model(),
            echoes: self.rust.echoes(),
            retries: self.rust.retries(),
            sheet: self.ticks.as_ref().map(|ticks| ticks.sheet().len()),
        }
    }
}

/// Where the Rust isn't called.
fn refused(number: u8, ours: &Answer, to: &mut Answers) {
    to.refused = Some(number);
    number.put("refused", &mut to.rust);
    put_answer(ours, &mut to.ours);
}

pub fn put_answer(ours: &Answer, to: &mut Fields) {
    match ours {
        Ok(actions) => {
            0u8.put("refused", to);
            actions.put("sends", to);
        }
        Err(refusal) => refusal.number().put("refused", to),
    }
}

/// What a sheet answers, and the buffer then.
pub fn put_written(written: Result<usize, u8>, buf: Vec<u8>, to: &mut Fields) {
    written.err().unwrap_or(0).put("refused", to);
    written.unwrap_or(0).put("wrote", to);
    buf.put("buffer", to);
}

/// A `SystemTime` holds 63 bits of seconds. Without the highest of the 64
/// their remainder by 2^32 is the same.
pub fn wall(seconds: u64) -> SystemTime {
    UNIX_EPOCH + Duration::from_secs(seconds & (u64::MAX >> 1))
}

/// The Rust's model of these facts. The generator gives no others.
fn named(model: Model) -> rust::DeviceModel {
    model.rust().expect("a Mevo's or a Xi's facts")
}

/// Begins a sequence on both sides. Where a list gives no model, by the very
/// `new` that takes a Mevo.
#[allow(deprecated)]
pub fn begin(begin: &Begin, to: &mut Answers) -> Box<dyn Running> {
    match begin {
        Begin::Dsp => Pair::begin(rust::DspSequencer::new(), wigtalom::DspSequencer::new(), to),
        Begin::Avr(model) => {
            let model = model.map(named);
            let theirs = model.map_or_else(rust::AvrSequencer::new, rust::AvrSequencer::new_for);
            let model = model.map(|model| model.over());
            let new_for = wigtalom::AvrSequencer::new_for;
            let ours = model.map_or_else(wigtalom::AvrSequencer::new, new_for);
            Pair::begin(theirs, ours, to)
        }
        Begin::Pi => Pair::begin(rust::PiSequencer::new(), wigtalom::PiSequencer::new(), to),
        Begin::AvrConfig(settings) => configure(settings, to),
        Begin::Disarm => Pair::begin(
            rust::DisarmSequencer::new(),
            wigtalom::DisarmSequencer::new(),
            to,
        ),
        Begin::Arm(model) => {
            let model = model.map(named);
            let theirs = model.map_or_else(rust::ArmSequencer::new, rust::ArmSequencer::new_for);
            let model = model.map(|model| model.over());
            let new_for = wigtalom::ArmSequencer::new_for;
            let ours = model.map_or_else(wigtalom::ArmSequencer::new, new_for);
            Pair::begin(theirs, ours, to)
        }
        Begin::Session => unreachable!("no list of a sequence has one"),
    }
}

/// The number of a start with these settings, from docs/SCOPE.md, "Settings
/// run": more than 32 parameters, or an id that occurs twice.
fn of_settings(params: &[rust::ParamValue]) -> Option<u8> {
    if params.len() > refusal::MOST_PARAMS {
        return Some(4);
    }
    let mut met = [false; 256];
    let again = |param: &rust::ParamValue| replace(&mut met[usize::from(param.param_id)], true);
    params.iter().any(again).then_some(6)
}

/// Where the settings are refused, empty ones run. That the library gives such
/// a run beside the refusal is tested in src/repeats.rs.
fn configure(settings: &Settings, to: &mut Answers) -> Box<dyn Running> {
    let (theirs, ours) = both_settings(settings);
    theirs.put("settings", &mut to.rust);
    ours.put("settings", &mut to.ours);
    let begun = wigtalom::AvrConfigSequencer::new(ours);
    to.refused = of_settings(&theirs.params);
    to.refused.unwrap_or(0).put("refused", &mut to.rust);
    let number = begun.as_ref().map_or_else(|r| r.number(), |_| 0);
    number.put("refused", &mut to.ours);
    let theirs = match to.refused {
        Some(_) => rust::AvrSettings::mode_only(0),
        None => theirs,
    };
    let empty = || wigtalom::AvrConfigSequencer::new(wigtalom::AvrSettings::mode_only(0));
    let ours = begun.or_else(|_| empty()).expect("no parameters");
    Pair::begin(rust::AvrConfigSequencer::new(theirs), ours, to)
}

/// The settings as each side makes them.
fn both_settings(settings: &Settings) -> (rust::AvrSettings, wigtalom::AvrSettings) {
    match settings {
        Settings::Given(given) => (given.clone(), given.over()),
        Settings::ModeOnly(mode) => (
            rust::AvrSettings::mode_only(*mode),
            wigtalom::AvrSettings::mode_only(*mode),
        ),
        Settings::Mevo(mevo) => {
            let ours = mevo.over();
            assert_eq!(ours.params().len(), mevo.params().len());
            (mevo.clone().into(), ours.into())
        }
    }
}

/// A call that belongs to no sequence.
pub fn aside(call: &Call, to: &mut Answers) {
    match call {
        Call::Ack {
            model,
            src,
            type_id,
        } => {
            let env = other(*src, *type_id);
            let model = named(*model);
            let ours = wigtalom::result_ack(model.over(), &env.over());
            rust::result_ack(model, &env).put("ack", &mut to.rust);
            ours.put("ack", &mut to.ours);
        }
        Call::Keepalive { model: None } => {
            rust::keepalive_actions().put("polls", &mut to.rust);
            wigtalom::keepalive_actions().put("polls", &mut to.ours);
        }
        Call::Keepalive { model: Some(model) } => {
            let model = named(*model);
            let ours = wigtalom::keepalive_actions_for(model.over());
            rust::keepalive_actions_for(model).put("polls", &mut to.rust);
            ours.put("polls", &mut to.ours);
        }
        Call::Model { payload } => {
            let info = rust::DevInfoResp {
                text: String::new(),
                payload: payload.clone(),
            };
            info.model().put("model", &mut to.rust);
            info.over().model().put("model", &mut to.ours);
        }
        _ => unreachable!("a call of a sequence"),
    }
}

/// An envelope of a kind that no sequence acts on.
fn other(src: rust::BusAddr, type_id: u8) -> rust::Envelope {
    let payload = Vec::new();
    rust::Envelope {
        src,
        type_id,
        raw: Vec::new(),
        message: rust::Message::Unknown {
            type_id,
            src,
            payload,
        },
    }
}

/// Whether a call belongs to no sequence.
pub fn is_aside(call: &Call) -> bool {
    matches!(
        call,
        Call::Ack { .. } | Call::Keepalive { .. } | Call::Model { .. }
    )
}

/// Its place in the order of the six sequences.
pub fn place(which: Which) -> usize {
    let found = Which::ALL.iter().position(|other| *other == which);
    found.expect("one of the six")
}
