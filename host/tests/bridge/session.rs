//! A session on both sides: the library's, and one over the Rust's three
//! start-ups, written here from what the installers asked for. The DSP goes
//! first; then the AVR with the model that the DSP found, and at the same time
//! the Pi where that model has a camera. What ends the DSP is not passed on.

use std::collections::BTreeMap;
use std::fmt::Write;
use std::time::{Duration, Instant, SystemTime};

use oracle::generate::{Generator, leaning};
use oracle::list::{self, Call, Feed, MOST_LENT, Which};
use oracle::refusal;
use oracle::running::View;
use oracle::seq::{Sequence, inspect};
use oracle::sheet::{self, How, Ticks};
use wigtalom::{Refusal, StartUp};

use super::fields::{Compared, Fields, put};
use super::floats::Floats;
use super::over::{Over, bytes, envelope};
use super::pair::{self, Answers, put_answer, put_written};
use super::run::names_a_rig;
use super::rust;
use super::sides::{Clock, Theirs};

const START_UPS: [StartUp; 3] = [StartUp::Dsp, StartUp::Avr, StartUp::Pi];

/// The lines that are shown before a difference.
const SHOWN: usize = 200;

// ---- the Rust's side

/// A start-up of the Rust, and what the library keeps of it beside.
struct Kept<S> {
    seq: S,
    /// The last reading since it began.
    last: u64,
    ticks: Ticks,
}

impl<S: Theirs> Kept<S> {
    fn new(seq: S) -> Self {
        Kept {
            seq,
            last: 0,
            ticks: Ticks::of(S::WHICH).expect("a start-up"),
        }
    }

    /// An accepted call, which ticks an entry exactly if it changes the step.
    fn hear(
        &mut self,
        (now, how): (u64, How),
        call: impl FnOnce(&mut S) -> Vec<rust::Action>,
    ) -> Vec<rust::Action> {
        let before = self.seq.step();
        let sends = call(&mut self.seq);
        self.last = now;
        if self.seq.step() != before {
            self.ticks.add(now, how);
        }
        sends
    }

    fn put(&self, clock: &Clock, to: &mut Fields) {
        self.seq.put_state(clock, to);
        if S::WHICH.has_clock() {
            self.last.put("last", to);
        }
        self.ticks.stored().put("ticks", to);
    }

    /// As the generator looks at it, with the session's last reading.
    fn view(&self, last: u64, clock: &Clock) -> View {
        let waits = self.seq.waits();
        View {
            which: S::WHICH,
            step: self.seq.step(),
            last,
            deadline: clock.reading(waits.repoll.or(waits.deadline)),
            repoll: clock.reading(waits.repoll),
            model: self.seq.model(),
            echoes: None,
            retries: None,
            sheet: Some(self.ticks.sheet().len()),
        }
    }
}

/// The Rust's three.
struct Three {
    dsp: Kept<rust::DspSequencer>,
    avr: Option<Kept<rust::AvrSequencer>>,
    pi: Option<Kept<rust::PiSequencer>>,
}

impl Three {
    fn begin() -> (Self, Vec<rust::Action>) {
        let (dsp, first) = rust::DspSequencer::new();
        let (dsp, avr, pi) = (Kept::new(dsp), None, None);
        (Three { dsp, avr, pi }, first)
    }

    fn feed(
        &mut self,
        env: &rust::Envelope,
        (now, at): (u64, Instant),
        wall: SystemTime,
    ) -> Vec<rust::Action> {
        let tick = (now, How::of(&env.message));
        let leads = !self.dsp.seq.is_complete();
        let mut sends = self.dsp.hear(tick, |dsp| dsp.feed(env, at, wall));
        if leads {
            return self.led(sends);
        }
        if let Some(avr) = &mut self.avr {
            sends.extend(avr.hear(tick, |avr| avr.feed(env, at, wall)));
        }
        if let Some(pi) = &mut self.pi {
            sends.extend(pi.hear(tick, |pi| pi.feed(env, at, wall)));
        }
        sends
    }

    fn check(&mut self, (now, at): (u64, Instant)) -> Vec<rust::Action> {
        let tick = (now, How::Check);
        let leads = !self.dsp.seq.is_complete();
        let mut sends = self.dsp.hear(tick, |dsp| dsp.check_timeout(at));
        if leads {
            return self.led(sends);
        }
        if let Some(avr) = &mut self.avr {
            sends.extend(avr.hear(tick, |avr| avr.check_cal_timeout(at)));
        }
        sends
    }

    /// Behind a call of the DSP: if that is done now, the others begin.
    fn led(&mut self, mut sends: Vec<rust::Action>) -> Vec<rust::Action> {
        if !self.dsp.seq.is_complete() {
            return sends;
        }
        let model = inspect::done_dsp(&self.dsp.seq).into_result().model;
        let (avr, first) = rust::AvrSequencer::new_for(model);
        self.avr = Some(Kept::new(avr));
        sends.extend(first);
        if model.has_camera() {
            let (pi, first) = rust::PiSequencer::new();
            self.pi = Some(Kept::new(pi));
            sends.extend(first);
        }
        sends
    }

    fn is_complete(&self) -> bool {
        let avr = self.avr.as_ref().is_some_and(|avr| avr.seq.is_complete());
        let pi = self.pi.as_ref().is_none_or(|pi| pi.seq.is_complete());
        self.dsp.seq.is_complete() && avr && pi
    }

    fn sheet(&self, start_up: StartUp) -> &str {
        match start_up {
            StartUp::Dsp => self.dsp.ticks.sheet(),
            StartUp::Avr => self.avr.as_ref().map_or("", |avr| avr.ticks.sheet()),
            StartUp::Pi => self.pi.as_ref().map_or("", |pi| pi.ticks.sheet()),
        }
    }

    /// At its end.
    fn put_result(&self, to: &mut Fields) {
        self.dsp.seq.put_result(to);
        let avr = self.avr.as_ref().expect("done");
        avr.seq.put_result(to);
        self.pi.is_some().put("pi", to);
        if let Some(pi) = &self.pi {
            pi.seq.put_result(to);
        }
    }

    fn put_state(&self, clock: &Clock, to: &mut Fields) {
        self.is_complete().put("is_complete", to);
        self.dsp.put(clock, to);
        self.avr.is_some().put("avr", to);
        if let Some(avr) = &self.avr {
            avr.put(clock, to);
        }
        self.pi.is_some().put("pi", to);
        if let Some(pi) = &self.pi {
            pi.put(clock, to);
        }
        for start_up in START_UPS {
            self.sheet(start_up).put("sheet", to);
        }
    }
}

// ---- both sides

/// A session of each side, in the same state.
struct Both {
    three: Three,
    ours: wigtalom::Session,
    clock: Clock,
    /// The last reading that was accepted.
    last: u64,
    calls: u64,
}

impl Both {
    fn begin(to: &mut Answers) -> Self {
        let (three, first) = Three::begin();
        let (ours, our_first) = wigtalom::Session::new();
        first.put("sends", &mut to.rust);
        our_first.put("sends", &mut to.ours);
        Both {
            three,
            ours,
            clock: Clock(Instant::now()),
            last: 0,
            calls: 0,
        }
    }

    /// The start-up that the next line is made for: until the DSP is done that,
    /// then the others by turns, and now and then the DSP again.
    fn view(&self) -> View {
        let (last, clock) = (self.last, &self.clock);
        match (self.calls % 8, &self.three.avr, &self.three.pi) {
            (0..4, _, Some(pi)) => pi.view(last, clock),
            (0..7, Some(avr), _) => avr.view(last, clock),
            _ => self.three.dsp.view(last, clock),
        }
    }

    fn call(&mut self, call: &Call, to: &mut Answers) {
        self.calls += 1;
        match call {
            Call::Feed(feed) => self.feed(feed, to),
            Call::Check { now } => self.check(*now, to),
            Call::Result => self.result(to),
            Call::Sheet { lent } => self.sheets(lent.unwrap_or((0, MOST_LENT)), to),
            Call::Take => {
                let taken = self.three.dsp.seq.take_refused();
                taken.put("taken", &mut to.rust);
                self.ours.take_refused().put("taken", &mut to.ours);
            }
            _ => unreachable!("not a call of a session"),
        }
    }

    fn feed(&mut self, feed: &Feed, to: &mut Answers) {
        let mut env = envelope(feed);
        let ours = self.ours.feed(&env.over(), feed.now, feed.wall);
        put_answer(&ours, &mut to.ours);
        let (text, payload) = bytes(&mut env.message);
        let text = text.map_or(&[][..], |text| text.as_bytes());
        let payload = payload.map_or(&[][..], |payload| payload);
        let refused = refusal::of_bytes(text, payload);
        to.refused = refused.or(refusal::of_reading(feed.now, self.last));
        let (at, wall) = (self.at(feed.now), pair::wall(feed.wall));
        self.answer(feed.now, to, |three| three.feed(&env, at, wall));
    }

    fn check(&mut self, now: u64, to: &mut Answers) {
        put_answer(&self.ours.check(now), &mut to.ours);
        to.refused = refusal::of_reading(now, self.last);
        let at = self.at(now);
        self.answer(now, to, |three| three.check(at));
    }

    /// The reading, and its instant where there is one.
    fn at(&self, now: u64) -> (u64, Instant) {
        (now, self.clock.0 + Duration::from_nanos(now))
    }

    /// Of the Rust, which isn't called where it would have to refuse.
    fn answer(
        &mut self,
        now: u64,
        to: &mut Answers,
        call: impl FnOnce(&mut Three) -> Vec<rust::Action>,
    ) {
        to.refused.unwrap_or(0).put("refused", &mut to.rust);
        if to.refused.is_none() {
            self.last = now;
            call(&mut self.three).put("sends", &mut to.rust);
        }
    }

    fn result(&self, to: &mut Answers) {
        let done = self.three.is_complete();
        to.refused = (!done).then_some(refusal::NOT_DONE);
        to.refused.unwrap_or(0).put("refused", &mut to.rust);
        if done {
            self.three.put_result(&mut to.rust);
        }
        let ours = &mut to.ours;
        match self.ours.into_result() {
            Ok(sync) => {
                0u8.put("refused", ours);
                put!(ours, sync: dsp, avr, pi);
            }
            Err(refusal) => refusal.number().put("refused", ours),
        }
    }

    /// Of each start-up, begun or not, into a buffer of full stops.
    fn sheets(&self, (at, len): (u64, usize), to: &mut Answers) {
        for start_up in START_UPS {
            let (mut buf, mut our_buf) = (vec![b'.'; len], vec![b'.'; len]);
            let written = sheet::put(self.three.sheet(start_up), &mut buf, at);
            to.refused = to.refused.or(written.err());
            put_written(written, buf, &mut to.rust);
            let at = usize::try_from(at).expect("64 bits");
            let ours = self.ours.sheet_into(start_up, &mut our_buf, at);
            put_written(ours.map_err(Refusal::number), our_buf, &mut to.ours);
        }
    }

    fn put_state(&self, to: &mut Answers) {
        self.three.put_state(&self.clock, &mut to.rust);
        let (ours, state) = (&mut to.ours, self.ours.state());
        self.ours.is_complete().put("is_complete", ours);
        put!(ours, state: dsp, avr, pi);
        for start_up in START_UPS {
            self.ours.sheet(start_up).put("sheet", ours);
        }
    }
}

// ---- the run

/// What was met.
#[derive(Default)]
pub struct Met {
    pub calls: u64,
    /// How many calls were refused, by number.
    pub refused: BTreeMap<u8, u64>,
    /// DSPs ended by feeds and by checks.
    pub dsps: [u64; 2],
    /// Calls that sent two commands.
    pub two_sends: u64,
    /// Sessions to their end.
    pub complete: u64,
}

/// So many calls of sessions of a model, or the first difference. Of the
/// generator's lines those of the three start-ups are taken; where it would
/// begin another one the session goes on, and three of four times it does.
pub fn run(
    model: rust::DeviceModel,
    calls: u64,
    seed: u64,
    alter: fn(&mut Fields),
) -> Result<Met, String> {
    let mut generator = Generator::new(seed, leaning(Which::Avr, model));
    let (mut floats, mut met) = (Floats::new(seed), Met::default());
    let mut both = Both::begin(&mut Answers::default());
    let (mut lines, mut stretches) = (Vec::new(), 0);
    while met.calls < calls {
        let view = both.view();
        let line = generator.line(Some(view));
        let read = list::read(line.as_bytes(), Some(view.which));
        let Some(mut call) = read.map_err(|bad| format!("{line}: {bad}"))? else {
            continue;
        };
        let mut answers = Answers::default();
        let before = (both.three.avr.is_some(), both.three.is_complete());
        match call {
            Call::Begin(_) => {
                stretches += 1;
                if stretches % 4 != 0 {
                    continue;
                }
                both = Both::begin(&mut answers);
                lines.clear();
            }
            _ if pair::is_aside(&call) => continue,
            _ => {
                assert!(!names_a_rig(&call), "the Rust knows no rig: {line}");
                settle(&mut call, &view, both.calls);
                lines.push((line, floats.put_into(&mut call), now(&call)));
                both.call(&call, &mut answers);
                met.count(&both, &call, &answers, before);
            }
        }
        both.put_state(&mut answers);
        alter(&mut answers.ours);
        if let Some(difference) = answers.rust.difference(&answers.ours) {
            return Err(report(&difference, &lines));
        }
    }
    Ok(met)
}

/// The readings of a Pi's lines are any, since it has no clock. Most give way
/// to the session's last one.
fn settle(call: &mut Call, view: &View, calls: u64) {
    match call {
        Call::Feed(feed) if view.which == Which::Pi && !calls.is_multiple_of(7) => {
            feed.now = view.last;
        }
        _ => {}
    }
}

fn now(call: &Call) -> Option<u64> {
    match call {
        Call::Feed(feed) => Some(feed.now),
        Call::Check { now } => Some(*now),
        _ => None,
    }
}

/// The difference, and the session in which it came.
fn report(difference: &str, lines: &[(String, Vec<u64>, Option<u64>)]) -> String {
    let mut report = format!("{difference}\nafter these lines:\n");
    for (line, floats, now) in &lines[lines.len().saturating_sub(SHOWN)..] {
        let _ = writeln!(report, "{line}    at {now:?}, floats: {floats:016X?}");
    }
    report
}

impl Met {
    /// `began` and `was_complete` are of the session before.
    fn count(
        &mut self,
        both: &Both,
        call: &Call,
        answers: &Answers,
        (began, was_complete): (bool, bool),
    ) {
        self.calls += 1;
        if let Some(number) = answers.refused {
            *self.refused.entry(number).or_default() += 1;
        }
        if both.three.avr.is_some() && !began {
            self.dsps[usize::from(matches!(call, Call::Check { .. }))] += 1;
        }
        let sends = |(name, _): &&(&str, _)| *name == "command";
        self.two_sends += u64::from(answers.rust.list.iter().filter(sends).count() == 2);
        self.complete += u64::from(both.three.is_complete() && !was_complete);
    }
}
