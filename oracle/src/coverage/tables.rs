//! What is counted of each sequence: the rows of its table with what ticks
//! them, what else it does or leaves undone, and its answers.

use super::{arm, avr_config, disarm, places, session, sheets, start_ups};
use crate::list::{Begin, Call, Feed, Which};
use crate::model::Model;
use crate::running::{SessionView, View};

pub struct Table {
    /// The rows are counted for each model apart, or all together.
    pub columns: &'static [&'static str],
    pub rows: Vec<Row>,
    pub answers: Vec<&'static str>,
}

#[derive(Clone, Copy)]
pub struct Row {
    pub name: &'static str,
    /// Whether a Mevo and a Xi have it.
    pub on: [bool; 2],
}

const fn row(name: &'static str, mevo: bool, xi: bool) -> Row {
    Row {
        name,
        on: [mevo, xi],
    }
}

pub const fn both(name: &'static str) -> Row {
    row(name, true, true)
}

pub const fn mevo(name: &'static str) -> Row {
    row(name, true, false)
}

pub const fn xi(name: &'static str) -> Row {
    row(name, false, true)
}

/// Of a sequence whose rows are counted all together.
pub const fn any(name: &'static str) -> Row {
    row(name, true, false)
}

const MODELS: &[&str] = &["Mevo", "Xi"];
const ALL: &[&str] = &["times"];

pub fn table(which: Which) -> Table {
    let (columns, rows, answers): (_, &[Row], &[&str]) = match which {
        Which::Dsp => (MODELS, &start_ups::DSP_ROWS, &start_ups::DSP_ANSWERS),
        Which::Avr => (MODELS, &start_ups::AVR_ROWS, &start_ups::AVR_ANSWERS),
        Which::Pi => (ALL, &start_ups::PI_ROWS, &start_ups::PI_ANSWERS),
        Which::AvrConfig => (ALL, &avr_config::ROWS, &avr_config::ANSWERS),
        Which::Disarm => (ALL, &disarm::ROWS, &disarm::ANSWERS),
        Which::Arm => (MODELS, &arm::ROWS, &arm::ANSWERS),
        Which::Session => (ALL, &session::ROWS, &session::ANSWERS),
    };
    Table {
        columns,
        rows: [rows, sheets::rows(which)].concat(),
        answers: [answers, places::names(which), sheets::answer_names(which)].concat(),
    }
}

/// A call of a sequence, the views around it, and its answer.
pub struct Event<'a> {
    pub call: &'a Call,
    pub before: View,
    pub after: View,
    /// Where it is one of a session.
    pub sessions: Option<(SessionView, SessionView)>,
    /// Without the line's number.
    pub answer: &'a str,
}

impl Event<'_> {
    pub fn feed(&self) -> Option<&Feed> {
        match self.call {
            Call::Feed(feed) => Some(feed),
            _ => None,
        }
    }

    pub fn outcome(&self) -> &str {
        outcome(self.answer)
    }

    pub fn accepted(&self) -> bool {
        self.outcome() == "accepted"
    }

    /// Whether the step that is next is another one.
    pub fn moved(&self) -> bool {
        self.before.step != self.after.step
    }

    /// Whether it is Done now, and wasn't before.
    pub fn done(&self) -> bool {
        self.moved() && self.after.step.name == "Done"
    }
}

/// An answer up to its first semicolon.
pub fn outcome(answer: &str) -> &str {
    answer.split(';').next().unwrap_or("").trim_end()
}

/// The rows that a call has met.
pub fn rows(event: &Event) -> Vec<&'static str> {
    let mut met = Vec::new();
    if event.before.which == Which::Session {
        return session::ticked(event).into_iter().collect();
    }
    if event.moved() {
        let step = event.before.step;
        let ticked = ticked(event);
        met.push(ticked.unwrap_or_else(|| panic!("{step:?} was left by something else")));
    }
    if event.accepted() {
        met.extend(noted(event));
    }
    met
}

/// The row that a call has ticked.
fn ticked(event: &Event) -> Option<&'static str> {
    match event.before.which {
        Which::AvrConfig => avr_config::ticked(event),
        Which::Disarm => disarm::ticked(event),
        Which::Arm => arm::ticked(event),
        _ => start_ups::ticked(event),
    }
}

/// What else is counted of an accepted call.
fn noted(event: &Event) -> Vec<&'static str> {
    match event.before.which {
        Which::AvrConfig => avr_config::noted(event),
        Which::Disarm => disarm::noted(event).into_iter().collect(),
        Which::Arm => arm::noted(event).into_iter().collect(),
        _ => start_ups::repoll(event)
            .into_iter()
            .chain(sheets::lines(event))
            .collect(),
    }
}

/// What a sequence was begun with, and with what outcome.
pub fn begun(begin: &Begin, outcome: &str) -> Vec<&'static str> {
    match begin {
        Begin::Avr(model) | Begin::Arm(model) => match *model {
            None => vec!["begun without model"],
            Some(Model::MEVO) => vec!["begun with Mevo"],
            Some(Model::XI) => vec!["begun with Xi"],
            // the Rust has no other
            Some(_) => Vec::new(),
        },
        Begin::AvrConfig(settings) => avr_config::begun(settings, outcome),
        Begin::Dsp | Begin::Pi | Begin::Disarm | Begin::Session => Vec::new(),
    }
}

/// What is counted of the answer to a call of a sequence.
pub fn answers(event: &Event, table: &Table) -> Vec<&'static str> {
    let mut met = Vec::new();
    met.extend(answered(event, table));
    match event.before.which {
        Which::Disarm => met.extend(disarm::answers(event)),
        Which::Arm => met.extend(arm::answers(event)),
        Which::Session => met.extend(session::answers(event)),
        _ => met.extend([places::answers(event), sheets::answers(event)].concat()),
    }
    met
}

fn answered(event: &Event, table: &Table) -> Option<&'static str> {
    let outcome = event.outcome();
    match event.call {
        Call::Take if outcome == "none" => Some("take without a nack"),
        Call::Take => Some("take with a nack"),
        Call::Result if event.accepted() => Some("result after Done"),
        Call::Feed(_) if event.accepted() => {
            (event.before.step.name == "Done").then_some("feed after Done")
        }
        _ => table.answers.iter().copied().find(|name| *name == outcome),
    }
}
