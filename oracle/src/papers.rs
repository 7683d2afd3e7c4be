//! What docs/REPLAY.md says in its tables: what each step waits for, and why
//! a call is refused.

use crate::list::Which;

const PAPERS: &str = include_str!("../../docs/REPLAY.md");

/// The heading of a sequence's steps.
fn heading(which: Which) -> &'static str {
    match which {
        Which::Dsp => "DSP start-up; ",
        Which::Avr => "AVR start-up; ",
        Which::Pi => "Pi start-up; ",
        Which::AvrConfig => "Settings run; ",
        Which::Disarm => "Disarm; ",
        Which::Arm => "Arm:",
        Which::Session => unreachable!("its start-ups have steps"),
    }
}

/// The cells of the first table behind a line that begins so, without its
/// head; and that line.
fn table(line: &str) -> (&'static str, Vec<Vec<&'static str>>) {
    let mut lines = PAPERS.lines().skip_while(|l| !l.starts_with(line));
    let found = lines.next().expect(line);
    let rows = lines.skip_while(|l| !l.starts_with('|'));
    let rows = rows.take_while(|l| l.starts_with('|')).skip(2);
    let cells = |row: &'static str| row.trim_matches('|').split('|').map(str::trim).collect();
    (found, rows.map(cells).collect())
}

/// The steps of a sequence by their keys, each with what it waits for.
pub fn steps(which: Which) -> Vec<(String, String)> {
    let (line, rows) = table(heading(which));
    let from = line.split_once("every message from `");
    let from = from.map(|(_, rest)| rest.split('`').next().unwrap());
    let step = |row: Vec<&str>| {
        let name = row[0].split('`').nth(1).expect(row[0]);
        (key(name), waits(row[1], from))
    };
    rows.into_iter().map(step).collect()
}

/// A step without the number of its parameter.
pub fn key(step: &str) -> String {
    let (name, fields) = step.split_once(' ').unwrap_or((step, ""));
    if fields.starts_with("got_pi=") {
        step.to_string()
    } else {
        name.to_string()
    }
}

/// The source stands behind the messages, before a check.
fn waits(cell: &str, from: Option<&str>) -> String {
    let cell = cell.replace('`', "");
    let (messages, check) = match cell.split_once(", or a check") {
        Some((messages, after)) => (messages, format!(", or a check{after}")),
        None => (&cell[..], String::new()),
    };
    match from {
        Some(from) => format!("{messages} from {from}{check}"),
        None => format!("{messages}{check}"),
    }
}

/// The numbers of refusals with their reasons.
pub fn refusals() -> Vec<(String, String)> {
    let (_, rows) = table("### Refusals");
    let refusal = |row: Vec<&str>| {
        let reason = row[1].replace('`', "");
        let of_call = reason
            .strip_prefix("its ")
            .map(|rest| format!("the {rest}"));
        (row[0].to_string(), of_call.unwrap_or(reason))
    };
    rows.into_iter().map(refusal).collect()
}
