//! One session for the start-up of a whole unit, which the Rust hasn't: its
//! three start-ups, called as docs/SCOPE.md, "Session", says. So it knows
//! their steps alone, and nothing of the port's session.

use std::time::Instant;

use crate::list::{Feed, Which};
use crate::model::{Model, Tags};
use crate::refusal;
use crate::running::sheet_into;
use crate::running::{Accepted, Part, Run, Running, Sequencer, SessionView, Step, View};
use crate::seq::inspect;
use crate::seq::{Action, AvrSequencer, DspSequencer, PiSequencer};
use crate::write;

/// The most commands that a call sends.
const MOST_SENDS: usize = 2;

pub struct Session {
    base: Instant,
    /// The last accepted reading; 0 at first.
    last: u64,
    dsp: Run<DspSequencer>,
    /// Once the DSP is done.
    avr: Option<Run<AvrSequencer>>,
    /// The same, if its model has a camera.
    pi: Option<Run<PiSequencer>>,
}

impl Session {
    /// Writes the answer of the call that begins it.
    pub fn begin(base: Instant, out: &mut String) -> Session {
        let (dsp, first) = DspSequencer::new();
        let session = Session {
            base,
            last: 0,
            dsp: Run::new(dsp, base),
            avr: None,
            pi: None,
        };
        write::sends(out, &first);
        session.steps(out);
        session
    }

    /// The DSP alone hears a call until it is done, also the one that ends it.
    /// Then all that have begun do. A Pi has no clock, and hears no check.
    fn hear(&mut self, call: Accepted) -> (Vec<(Which, usize)>, Vec<Action>) {
        let was_done = self.dsp.is_done();
        let mut heard = vec![(Which::Dsp, self.dsp.hear(call))];
        if was_done {
            heard.extend(self.avr.as_mut().map(|avr| (Which::Avr, avr.hear(call))));
            let pi = self
                .pi
                .as_mut()
                .filter(|_| matches!(call, Accepted::Feed(_)));
            heard.extend(pi.map(|pi| (Which::Pi, pi.hear(call))));
        }
        let (mut ticked, mut sends) = (Vec::new(), Vec::new());
        for (which, heard) in heard {
            ticked.extend(heard.ticked.map(|entry| (which, entry)));
            sends.extend(heard.actions);
        }
        if self.dsp.is_done() && !was_done {
            sends.extend(self.hand_over());
        }
        (ticked, sends)
    }

    /// The DSP is done: the AVR begins, of the model that it has found, and the
    /// Pi if that has a camera. Gives their first sends.
    fn hand_over(&mut self) -> Vec<Action> {
        let (model, _) = self.found().expect("a model");
        let (avr, mut sends) = AvrSequencer::new_for(model.by_calibration());
        self.avr = Some(Run::new(avr, self.base));
        if model.camera {
            let (pi, first) = PiSequencer::new();
            self.pi = Some(Run::new(pi, self.base));
            sends.extend(first);
        }
        sends
    }

    /// The model that its DSP has found.
    fn found(&self) -> Option<(Model, Tags)> {
        let info = inspect::dsp(self.dsp.sequencer()).dev_info?;
        let payload = &info.payload;
        Some((Model::of_payload(payload), Tags::of(payload)))
    }

    /// Whether all are done that its model has.
    fn is_done(&self) -> bool {
        let avr = self.avr.as_ref().is_some_and(Run::is_done);
        self.dsp.is_done() && avr && self.pi.as_ref().is_none_or(Run::is_done)
    }

    fn parts(&self) -> [Option<Part>; 3] {
        let (avr, pi) = (self.avr.as_ref(), self.pi.as_ref());
        [Some(self.dsp.part()), avr.map(Run::part), pi.map(Run::part)]
    }

    fn steps(&self, out: &mut String) {
        for part in self.parts().into_iter().flatten() {
            out.push_str("; ");
            out.extend(part.which.letter());
            out.push(' ');
            write::step_words(out, part.step);
        }
    }

    fn accepted(&mut self, call: Accepted, out: &mut String) {
        let (ticked, sends) = self.hear(call);
        out.push_str("accepted; ");
        assert!(ticked.len() <= 1, "more than one tick: {ticked:?}");
        for (which, entry) in ticked {
            write::ticked(out, which.letter(), entry);
        }
        assert!(sends.len() <= MOST_SENDS, "too many sends: {sends:?}");
        write::each_send(out, &sends);
        self.steps(out);
    }

    fn refused(&self, number: u8, out: &mut String) {
        out.push_str("refused ");
        write::decimal(out, number);
        out.push_str("; no send");
        self.steps(out);
    }
}

/// Writes a start-up's letter, and what it has; of none that.
fn of_start_up<S>(
    which: Which,
    run: Option<&Run<S>>,
    written: impl Fn(&Run<S>, &mut String),
    out: &mut String,
) {
    if which != Which::Dsp {
        out.push(';');
    }
    out.push(' ');
    out.extend(which.letter());
    match run {
        Some(run) => written(run, out),
        None => out.push_str(" none"),
    }
}

fn result_of<S: Sequencer>(run: &Run<S>, out: &mut String) {
    run.sequencer().result(out);
}

impl Running for Session {
    fn feed(&mut self, feed: &Feed, out: &mut String) {
        let refusal = refusal::of_bytes(&feed.text, &feed.payload)
            .or(refusal::of_reading(feed.now, self.last));
        if let Some(number) = refusal {
            return self.refused(number, out);
        }
        self.last = feed.now;
        self.accepted(Accepted::Feed(feed), out);
    }

    fn check(&mut self, now: u64, out: &mut String) {
        if let Some(number) = refusal::of_reading(now, self.last) {
            return self.refused(number, out);
        }
        self.last = now;
        self.accepted(Accepted::Check(now), out);
    }

    fn result(&self, out: &mut String) {
        if !self.is_done() {
            out.push_str("refused ");
            return write::decimal(out, refusal::NOT_DONE);
        }
        out.push_str("accepted;");
        let (avr, pi) = (self.avr.as_ref(), self.pi.as_ref());
        of_start_up(Which::Dsp, Some(&self.dsp), result_of, out);
        of_start_up(Which::Avr, avr, result_of, out);
        of_start_up(Which::Pi, pi, result_of, out);
    }

    fn sheet(&self, _lent: Option<(u64, usize)>, _out: &mut String) {
        unreachable!("of a session it is told of which start-up")
    }

    /// That of a start-up that hasn't begun is empty.
    fn sheet_of(&self, which: Which, lent: Option<(u64, usize)>, out: &mut String) {
        match (which, &self.avr, &self.pi) {
            (Which::Dsp, _, _) => self.dsp.sheet(lent, out),
            (Which::Avr, Some(avr), _) => avr.sheet(lent, out),
            (Which::Pi, _, Some(pi)) => pi.sheet(lent, out),
            _ => sheet_into("", lent, out),
        }
    }

    fn take(&mut self, out: &mut String) {
        self.dsp.take(out);
    }

    fn retries(&self, _out: &mut String) {
        unreachable!("not a call of a session")
    }

    fn state(&self, out: &mut String) {
        let (avr, pi) = (self.avr.as_ref(), self.pi.as_ref());
        of_start_up(Which::Dsp, Some(&self.dsp), Running::state, out);
        of_start_up(Which::Avr, avr, Running::state, out);
        of_start_up(Which::Pi, pi, Running::state, out);
    }

    fn which(&self) -> Which {
        Which::Session
    }

    fn view(&self) -> View {
        let node = match (&self.avr, &self.pi) {
            _ if self.is_done() => "Done",
            (None, _) => "Dsp",
            (Some(_), None) => "DspAvr",
            (Some(_), Some(_)) => "DspAvrPi",
        };
        View {
            which: Which::Session,
            step: Step::plain(node),
            last: self.last,
            deadline: None,
            repoll: None,
            model: None,
            echoes: None,
            retries: None,
            sheet: None,
        }
    }

    fn session(&self) -> Option<SessionView> {
        Some(SessionView {
            parts: self.parts(),
            found: self.found().filter(|_| self.dsp.is_done()),
        })
    }
}
