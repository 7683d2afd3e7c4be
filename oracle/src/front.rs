//! Runs a list of calls with the Rust, and writes the answers.

use std::io::{self, BufRead, Write};
use std::time::Instant;

use crate::addr::BusAddr;
use crate::armed;
use crate::conn::Envelope;
use crate::list::{self, Bad, Begin, Call};
use crate::model::Model;
use crate::protocol::Message;
use crate::running::{Run, Running, Sequencer, SessionView, View};
use crate::seq::{self, Action};
use crate::seq::{ArmSequencer, AvrSequencer, DisarmSequencer, DspSequencer, PiSequencer};
use crate::session::Session;
use crate::{avr_config, write};

/// The state between two lines of a list.
pub struct Front {
    with_state: bool,
    base: Instant,
    number: u64,
    running: Option<Box<dyn Running>>,
}

impl Front {
    pub fn new(with_state: bool) -> Self {
        Front {
            with_state,
            base: Instant::now(),
            number: 0,
            running: None,
        }
    }

    pub fn view(&self) -> Option<View> {
        self.running.as_ref().map(|running| running.view())
    }

    /// What there is of a session, if one runs.
    pub fn session(&self) -> Option<SessionView> {
        self.running.as_ref()?.session()
    }

    /// Writes the answer to a line, with a line feed; nothing to a comment.
    pub fn line(&mut self, line: &[u8], out: &mut String) -> Result<Option<Call>, Bad> {
        self.number += 1;
        let line = if self.number == 1 {
            without_mark(line)
        } else {
            line
        };
        let read = list::read(line, self.running.as_ref().map(|running| running.which()));
        if matches!(read, Ok(None)) {
            return read;
        }
        write::decimal(out, self.number);
        out.push_str(": ");
        match &read {
            Ok(Some(call)) => self.call(call, out),
            Ok(None) => {}
            Err(bad) => out.push_str(&bad.to_string()),
        }
        out.push('\n');
        read
    }

    fn call(&mut self, call: &Call, out: &mut String) {
        match call {
            Call::Begin(begin) => self.begin(begin, out),
            Call::Ack {
                model,
                src,
                type_id,
            } => return ack(*model, *src, *type_id, out),
            Call::Keepalive { model } => return keepalive(*model, out),
            Call::Model { payload } => return model(payload, out),
            Call::Feed(feed) => self.sequence().feed(feed, out),
            Call::Check { now } => self.sequence().check(*now, out),
            Call::Result => self.sequence().result(out),
            Call::Sheet { lent } => self.sequence().sheet(*lent, out),
            Call::SheetOf { which, lent } => self.sequence().sheet_of(*which, *lent, out),
            Call::Take => self.sequence().take(out),
            Call::Retries => self.sequence().retries(out),
        }
        if self.with_state {
            out.push_str("; state");
            self.sequence().state(out);
        }
    }

    fn sequence(&mut self) -> &mut dyn Running {
        self.running.as_deref_mut().expect("a sequence has begun")
    }

    fn begin(&mut self, begin: &Begin, out: &mut String) {
        let base = self.base;
        self.running = Some(match begin {
            Begin::Dsp => begun(DspSequencer::new(), base, out),
            Begin::Avr(None) => begun(AvrSequencer::new(), base, out),
            Begin::Avr(Some(model)) => {
                begun(AvrSequencer::new_for(model.by_calibration()), base, out)
            }
            Begin::Pi => begun(PiSequencer::new(), base, out),
            Begin::AvrConfig(settings) => Box::new(avr_config::begin(settings, base, out)),
            Begin::Disarm => begun(DisarmSequencer::new(), base, out),
            Begin::Arm(None) => begun(ArmSequencer::new(), base, out),
            Begin::Arm(Some(model)) => begun(ArmSequencer::new_for(model.by_camera()), base, out),
            Begin::Session => Box::new(Session::begin(base, out)),
        });
    }
}

/// A byte order mark before the first line is taken as nothing.
pub fn without_mark(line: &[u8]) -> &[u8] {
    line.strip_prefix(b"\xEF\xBB\xBF").unwrap_or(line)
}

fn begun<S>(new: (S, Vec<Action>), base: Instant, out: &mut String) -> Box<dyn Running>
where
    S: Sequencer + 'static,
{
    Box::new(Run::begin(new, base, out))
}

/// Answers every line of a list.
pub fn run(list: &mut dyn BufRead, to: &mut dyn Write, with_state: bool) -> io::Result<()> {
    let mut front = Front::new(with_state);
    let (mut line, mut out) = (Vec::new(), String::new());
    while list.read_until(b'\n', &mut line)? > 0 {
        let _ = front.line(line.strip_suffix(b"\n").unwrap_or(&line), &mut out);
        to.write_all(out.as_bytes())?;
        out.clear();
        line.clear();
    }
    to.flush()
}

/// The lines of a list, from 0, that feed an arm a text on which the rules
/// differ.
pub fn differing<'a>(lines: impl IntoIterator<Item = &'a [u8]>) -> Vec<usize> {
    let (mut front, mut found) = (Front::new(false), Vec::new());
    for (place, line) in lines.into_iter().enumerate() {
        let which = front.view().map(|view| view.which);
        let read = front.line(line, &mut String::new());
        if let (Some(which), Ok(Some(call))) = (which, read)
            && armed::cuts(which, &call)
        {
            found.push(place);
        }
    }
    found
}

fn ack(model: Model, src: BusAddr, type_id: u8, out: &mut String) {
    let payload = Vec::new();
    let env = Envelope {
        src,
        type_id,
        raw: Vec::new(),
        message: Message::Unknown {
            type_id,
            src,
            payload,
        },
    };
    write::send(out, seq::result_ack(model.by_all(), &env).as_ref());
}

fn keepalive(model: Option<Model>, out: &mut String) {
    let actions = match model {
        Some(model) => seq::keepalive_actions_for(model.by_camera()),
        None => seq::keepalive_actions(),
    };
    for i in 0..3 {
        if i > 0 {
            out.push_str("; ");
        }
        write::send(out, actions.get(i));
    }
    assert!(actions.len() <= 3);
}

fn model(payload: &[u8], out: &mut String) {
    out.push_str(&Model::of_payload(payload).spelled());
}
