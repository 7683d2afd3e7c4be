//! A session, whose start-ups stand side by side.

use super::{FIELD, Show, indented, name};
use crate::list::Which;
use crate::running::{Part, SessionView, View};
use crate::write;

/// Of each start-up, in the line of their steps.
const COLUMN: usize = 32;

/// Whether a part of an answer is the step of a start-up, and not its fields.
pub fn is_step(part: &[&str]) -> bool {
    part[1].starts_with("Wait") || part[1] == "Done"
}

/// Writes the steps on one line. Before there is no view if the session has
/// just begun.
pub fn steps(out: &mut Vec<u8>, before: Option<SessionView>, after: Option<SessionView>) {
    let after = after.expect("a session");
    let step = |which: Which| {
        let before = before.and_then(|before| before.part(which));
        let words = match (before, after.part(which)) {
            (_, None) if has_no_camera(after, which) => "no camera".to_string(),
            (_, None) => "has not begun".to_string(),
            (Some(before), Some(after)) if before.step == after.step => now("still", after),
            (_, Some(after)) => now("now", after),
        };
        let letter = which.letter().expect("a start-up");
        format!("{:COLUMN$}", format!("{letter} {words}"))
    };
    let steps: String = Which::START_UPS.map(step).concat();
    indented(out, steps.trim_end());
}

fn now(word: &str, part: Part) -> String {
    let mut words = format!("{word} ");
    write::step_words(&mut words, part.step);
    words
}

/// Of a start-up that has not begun: whether it never will.
fn has_no_camera(session: SessionView, which: Which) -> bool {
    which == Which::Pi && session.part(Which::Avr).is_some()
}

/// Writes whether each is done, and whether the session is.
pub fn sum_up(out: &mut Vec<u8>, view: View, session: SessionView) {
    for which in Which::START_UPS {
        match session.part(which) {
            Some(part) => super::sum_up(out, which, part.step),
            None if has_no_camera(session, which) => {
                out.extend(format!("{}: no camera\n", name(which)).bytes());
            }
            None => out.extend(format!("{} has not begun\n", name(which)).bytes()),
        }
    }
    let not = if view.step.name == "Done" { "" } else { "not " };
    out.extend(format!("{} is {not}done\n", name(view.which)).bytes());
}

impl Show {
    /// Writes the fields of a start-up in a result or a state, below its name.
    pub fn of_start_up(&mut self, out: &mut Vec<u8>, words: &[&str]) {
        let (letter, fields) = words.split_first().expect("a letter");
        let none = fields == ["none"];
        let which = Which::of_letter(letter.as_bytes()).expect("a start-up");
        let shown = if none { "none" } else { name(which) };
        out.extend(format!("{:FIELD$}{letter}  {shown}\n", "").bytes());
        if !none {
            self.fields(out, fields);
        }
    }
}
