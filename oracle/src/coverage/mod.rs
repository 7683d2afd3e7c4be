//! Counts what a list of calls has met.

mod arm;
mod avr_config;
mod disarm;
mod places;
mod session;
mod sheets;
mod start_ups;
mod tables;
mod texts;

use std::fmt;

use crate::front::Front;
use crate::list::{Bad, Begin, Call, Reason, Which};
use crate::protocol::handshake::DeviceModel;
use crate::running::{SessionView, View};
use tables::{Event, Row, Table};

pub struct Coverage {
    pub calls: u64,
    pub bad_lines: u64,
    /// Whether an arm with as many nacks as are counted is among them.
    pub long_arm: bool,
    /// Whether payloads with a rig's tag are among them.
    pub rigs: bool,
    /// In the order of `Which::WITH_SESSION`.
    sequences: [Counts; Which::WITH_SESSION.len()],
    reasons: [u64; Reason::ALL.len()],
    /// Rows met by this sequence before its model is known.
    early: Vec<&'static str>,
}

/// What is seen of what runs.
#[derive(Clone, Copy)]
pub struct Seen {
    view: Option<View>,
    session: Option<SessionView>,
}

impl Seen {
    pub fn of(front: &Front) -> Seen {
        Seen {
            view: front.view(),
            session: front.session(),
        }
    }
}

/// What was met of a sequence.
struct Counts {
    which: Which,
    table: Table,
    begun: u64,
    done: u64,
    /// Runs of an arm that are compared up to a text on which the rules differ,
    /// and no further.
    cut: u64,
    /// Of each row: on a Mevo, on a Xi; or all together, in the first.
    rows: Vec<[u64; 2]>,
    answers: Vec<u64>,
}

impl Default for Coverage {
    fn default() -> Self {
        Coverage {
            calls: 0,
            bad_lines: 0,
            long_arm: false,
            rigs: false,
            sequences: Which::WITH_SESSION.map(Counts::new),
            reasons: [0; Reason::ALL.len()],
            early: Vec::new(),
        }
    }
}

impl Coverage {
    /// What a whole list meets.
    pub fn of_list(lines: &[String]) -> Self {
        let (mut coverage, mut front) = (Coverage::default(), Front::new(false));
        for line in lines {
            let (before, mut answer) = (Seen::of(&front), String::new());
            let read = front.line(line.as_bytes(), &mut answer);
            coverage.count(&read, before, Seen::of(&front), answer.trim_end());
        }
        coverage
    }

    /// Counts a line: what was read, what was seen around it, and its answer.
    pub fn count(
        &mut self,
        read: &Result<Option<Call>, Bad>,
        before: Seen,
        after: Seen,
        answer: &str,
    ) {
        match read {
            Ok(None) => {}
            Ok(Some(call)) => self.call(call, before, after, answer),
            Err(bad) => self.bad_line(*bad),
        }
    }

    /// Counts a run that ends before this call.
    pub fn cut(&mut self, call: &Call, before: View) {
        let counts = self.of(before.which);
        counts.cut += 1;
        if let Call::Feed(feed) = call {
            for name in arm::differing(before.step.name, &feed.text) {
                counts.answer(name);
            }
        }
    }

    fn bad_line(&mut self, bad: Bad) {
        self.bad_lines += 1;
        let same = |reason: &Reason| *reason == bad.reason.unnamed();
        let place = Reason::ALL.iter().position(same);
        self.reasons[place.expect("one of all reasons")] += 1;
    }

    fn of(&mut self, which: Which) -> &mut Counts {
        let found = self.sequences.iter_mut().find(|c| c.which == which);
        found.expect("one of all sequences")
    }

    fn call(&mut self, call: &Call, before: Seen, after: Seen, answer: &str) {
        self.calls += 1;
        let answer = answer.split_once(": ").map_or(answer, |(_, rest)| rest);
        if let Call::Begin(begin) = call {
            return self.begin(begin, tables::outcome(answer));
        }
        let sessions = before.session.zip(after.session);
        if let (Some(before), Some(after)) = (before.view, after.view) {
            self.event(&Event {
                call,
                before,
                after,
                sessions,
                answer,
            });
        }
    }

    fn begin(&mut self, begin: &Begin, outcome: &str) {
        self.early.clear();
        let counts = self.of(begin.which());
        counts.begun += 1;
        for name in tables::begun(begin, outcome) {
            counts.answer(name);
        }
    }

    fn event(&mut self, event: &Event) {
        let counts = self.of(event.before.which);
        for name in tables::answers(event, &counts.table) {
            counts.answer(name);
        }
        counts.done += u64::from(event.done());
        self.early.extend(tables::rows(event));
        self.rows(event.after);
    }

    /// Counts the rows met, as soon as the model is known.
    fn rows(&mut self, after: View) {
        let counts = self.of(after.which);
        let column = match (counts.table.columns.len(), after.model) {
            (1, _) | (_, Some(DeviceModel::Mevo)) => 0,
            (_, Some(DeviceModel::Xi)) => 1,
            (_, None) => return,
        };
        let rows = std::mem::take(&mut self.early);
        for row in rows {
            self.of(after.which).row(row, column);
        }
    }

    /// Adds what another has counted.
    pub fn add(&mut self, other: &Coverage) {
        self.calls += other.calls;
        self.bad_lines += other.bad_lines;
        self.long_arm |= other.long_arm;
        self.rigs |= other.rigs;
        for (to, from) in self.sequences.iter_mut().zip(&other.sequences) {
            to.add(from);
        }
        add_each(self.reasons.iter_mut(), other.reasons.iter());
    }

    /// The rows and answers of these sequences that were never met. What
    /// takes a long arm, or a rig's tag, is left out if none was made.
    pub fn missing(&self, of: &[Which]) -> Vec<String> {
        let asked = self.sequences.iter().filter(|c| of.contains(&c.which));
        let wanted = |name: &str| {
            (self.long_arm || !arm::LONG.contains(&name))
                && (self.rigs || !places::OF_RIGS.contains(&name))
        };
        asked.flat_map(|c| c.missing(wanted)).collect()
    }

    /// The reasons of bad lines that were never met. The DSP has every call
    /// that its lists have, so they can't meet one that a sequence hasn't. A
    /// session alone asks for a start-up.
    pub fn missing_reasons(&self, of: &[Which]) -> Vec<String> {
        let reasons = Reason::ALL.iter().zip(self.reasons);
        let dsp_alone = of == [Which::Dsp];
        let can_be = |reason: &Reason| match reason {
            Reason::NotOfSequence => !dsp_alone,
            Reason::UnknownStartUp => of.contains(&Which::Session),
            _ => true,
        };
        let never = reasons.filter(|(reason, count)| *count == 0 && can_be(reason));
        never.map(|(reason, _)| reason.to_string()).collect()
    }
}

impl Counts {
    fn new(which: Which) -> Self {
        let table = tables::table(which);
        Counts {
            which,
            begun: 0,
            done: 0,
            cut: 0,
            rows: vec![[0; 2]; table.rows.len()],
            answers: vec![0; table.answers.len()],
            table,
        }
    }

    fn row(&mut self, name: &str, column: usize) {
        let names = self.table.rows.iter().map(|row| row.name);
        self.rows[place(names, name)][column] += 1;
    }

    fn answer(&mut self, name: &str) {
        let names = self.table.answers.iter().copied();
        self.answers[place(names, name)] += 1;
    }

    fn add(&mut self, other: &Counts) {
        self.begun += other.begun;
        self.done += other.done;
        self.cut += other.cut;
        let rows = self.rows.iter_mut().flatten();
        add_each(rows, other.rows.iter().flatten());
        add_each(self.answers.iter_mut(), other.answers.iter());
    }

    /// Of the answers only those that are wanted.
    fn missing(&self, wanted: impl Fn(&str) -> bool) -> Vec<String> {
        let (word, columns) = (self.which.word(), self.table.columns);
        let mut missing = Vec::new();
        for (Row { name, on }, counts) in self.table.rows.iter().zip(&self.rows) {
            for (place, model) in columns.iter().enumerate() {
                if on[place] && counts[place] == 0 {
                    missing.push(match columns {
                        [_] => format!("{word}: {name}"),
                        _ => format!("{word}: {name} on a {model}"),
                    });
                }
            }
        }
        let answers = self.table.answers.iter().zip(&self.answers);
        let never = answers.filter(|(name, count)| **count == 0 && wanted(name));
        missing.extend(never.map(|(name, _)| format!("{word}: {name}")));
        missing
    }
}

fn add_each<'a>(to: impl Iterator<Item = &'a mut u64>, from: impl Iterator<Item = &'a u64>) {
    for (to, from) in to.zip(from) {
        *to += from;
    }
}

fn place(mut names: impl Iterator<Item = &'static str>, name: &str) -> usize {
    let found = names.position(|n| n == name);
    found.unwrap_or_else(|| panic!("{name} is not counted"))
}

/// Of the names, in a report.
const WIDTH: usize = 34;

impl fmt::Display for Coverage {
    fn fmt(&self, f: &mut fmt::Formatter<'_>) -> fmt::Result {
        line(f, "calls", &[self.calls.to_string()])?;
        for counts in self.sequences.iter().filter(|c| c.begun > 0) {
            write!(f, "\n{counts}")?;
        }
        if self.bad_lines == 0 {
            return Ok(());
        }
        writeln!(f)?;
        line(f, "bad lines", &[self.bad_lines.to_string()])?;
        for (reason, count) in Reason::ALL.iter().zip(self.reasons) {
            line(f, &reason.to_string(), &[count.to_string()])?;
        }
        Ok(())
    }
}

impl fmt::Display for Counts {
    fn fmt(&self, f: &mut fmt::Formatter<'_>) -> fmt::Result {
        let (word, table) = (self.which.word(), &self.table);
        line(f, &format!("{word} begun"), &[self.begun.to_string()])?;
        line(f, &format!("{word} done"), &[self.done.to_string()])?;
        if self.which == Which::Arm {
            line(f, "arm cut where the rules differ", &[self.cut.to_string()])?;
        }
        writeln!(f)?;
        let columns: Vec<String> = table.columns.iter().map(|c| c.to_string()).collect();
        line(f, "row", &columns)?;
        for (Row { name, on }, counts) in table.rows.iter().zip(&self.rows) {
            let shown = |place: usize| match on[place] {
                true => counts[place].to_string(),
                false => "-".to_string(),
            };
            let shown: Vec<String> = (0..columns.len()).map(shown).collect();
            line(f, name, &shown)?;
        }
        writeln!(f)?;
        for (name, count) in table.answers.iter().zip(&self.answers) {
            line(f, name, &[count.to_string()])?;
        }
        Ok(())
    }
}

fn line(f: &mut fmt::Formatter<'_>, name: &str, values: &[String]) -> fmt::Result {
    write!(f, "{name:<WIDTH$}")?;
    for value in values {
        write!(f, " {value:>10}")?;
    }
    writeln!(f)
}
