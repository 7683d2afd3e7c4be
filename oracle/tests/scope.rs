//! The tables of docs/SCOPE.md against the Rust: what ticks each entry of a
//! start-up or a disarm and what doesn't, the sends, the steps, the fields
//! that change, and the ticks that a start-up keeps.

mod common;

use common::{MODELS, answers, fact, message, repository};

const SECOND: u64 = 1_000_000_000;

/// The rows of a section's table that a model has.
fn table(section: &str, facts: &[bool; 3]) -> Vec<Vec<String>> {
    let papers = repository("docs/SCOPE.md").replace('`', "");
    let (_, rest) = papers.split_once(&format!("\n## {section}\n")).unwrap();
    let rows = rest.lines().skip_while(|line| !line.starts_with('|'));
    let rows = rows.take_while(|line| line.starts_with('|')).skip(2);
    let cells = |row: &str| row.split('|').map(|c| c.trim().to_string()).collect();
    let own = |row: &Vec<String>| match row[1].split_once(", ") {
        Some((_, words)) => fact(words, facts).expect(words).0,
        None => true,
    };
    rows.map(cells).filter(own).collect()
}

/// The answer to the last line of a list with one more, the state then, and
/// the ticks in it, which a disarm hasn't.
fn last(list: &str, call: &str) -> (String, String, String) {
    let answers = answers(&format!("{list}{call}"), true);
    let (_, answer) = answers.lines().last().unwrap().split_once(": ").unwrap();
    let (answer, state) = answer.split_once("; state").unwrap();
    let answer = answer.replace("|..........|", "").replace("send ", "");
    let (state, ticks) = state.rsplit_once(" ticks=").unwrap_or((state, ""));
    (answer, state.replace(" params=", " config="), ticks.into())
}

/// A stored field, up to the next of these names.
fn field<'a>(state: &'a str, names: &[&str], name: &str) -> &'a str {
    let (_, rest) = state.split_once(&format!(" {name}=")).unwrap();
    let others = names.iter().filter(|other| **other != name);
    let ends = others.filter_map(|other| rest.find(&format!(" {other}=")));
    &rest[..ends.min().unwrap_or(rest.len())]
}

/// What a cell says is sent on a model: the same on each, or something with a
/// fact and something without it.
fn sends(cell: &str, facts: &[bool; 3]) -> String {
    let own = match fact(cell, facts) {
        None => cell,
        Some((has, rest)) => {
            let (with, without) = rest.trim().split_once("; without it ").expect(cell);
            if has { with } else { without }
        }
    };
    let own = own.replace(", and it is done", "");
    own.replace("nothing", "no send").replace("EPOCH", "0")
}

/// The fields that a cell says this tick stores.
fn stores<'a>(cell: &'a str, tick: &str) -> Vec<&'a str> {
    let parts = cell
        .split("; ")
        .filter(|part| !["nothing", ""].contains(part));
    let parts = parts.map(|part| part.split_once(" by the ").unwrap_or((part, "")));
    let own = parts.filter(|(_, way)| tick.contains(way));
    own.map(|(part, _)| part.split(',').next().unwrap())
        .collect()
}

/// The check that ticks an entry after a wait, one that is too early, and what
/// is kept of the tick.
fn checks(before: u64, wait: &str) -> (String, String, String) {
    let wait = wait.split(' ').next().unwrap().replace(',', "");
    let due = before + wait.parse::<u64>().unwrap();
    let check = |now: u64| format!("check {now}");
    (check(due), check(due - 1), format!("{due}K"))
}

/// The feed that ticks an entry, one that doesn't, and what is kept of the
/// tick.
fn feeds(section: &str, tick: &str, model: &str, now: u64) -> (String, String, String) {
    // the same from App; where that counts, another kind
    let other = tick.split_once(" from ").unwrap_or(("ConfigAck", ""));
    let how = if tick.contains("ConfigNack") {
        'N'
    } else {
        'R'
    };
    let reading = if section == "Pi start-up" { 0 } else { now };
    let feed = |named| message(named, model, now);
    (feed(tick), feed(other.0), format!("{reading}{how}"))
}

/// A disarm keeps none.
fn one_more(ticks: &str, kept: &str) -> String {
    match ticks {
        "" => String::new(),
        "none" => kept.to_string(),
        _ => format!("{ticks},{kept}"),
    }
}

/// Takes every row by each of its ticks, and the rows before it by their first.
fn walk(section: &str, begin: &str, (model, facts): (&str, [bool; 3]), names: &str) {
    let names: Vec<&str> = names.split_whitespace().collect();
    let rows = table(section, &facts);
    let (mut list, mut call) = (String::new(), begin.to_string());
    for (i, row) in rows.iter().enumerate() {
        list = format!("{list}{call}\n");
        let (_, state, ticks) = last(&list, "");
        let (before, now) = (3 * SECOND * i as u64, 3 * SECOND * (i as u64 + 1));
        let next = rows.get(i + 1).map_or("Done", |row| &row[2]);
        let (number, sent) = (row[1].split(',').next().unwrap(), sends(&row[4], &facts));
        let expected = format!("accepted; ticked {number}; {sent}; {next} ");
        for tick in row[3].rsplit("; or ") {
            let (idle, kept);
            (call, idle, kept) = match tick.split_once("a check at least ") {
                Some((_, wait)) => checks(before, wait),
                None => feeds(section, tick, model, now),
            };
            let (answer, _, same) = last(&list, &idle);
            assert!(answer.starts_with("accepted; no send; "));
            assert_eq!(same, ticks);
            let (answer, after, more) = last(&list, &call);
            assert_eq!(more, one_more(&ticks, &kept), "{row:?} {tick}");
            assert!(
                format!("{answer} ").starts_with(&expected),
                "{row:?} {answer}"
            );
            let changes = |n: &&&str| field(&state, &names, n) != field(&after, &names, n);
            let compared = names.iter().filter(|name| !name.ends_with("deadline"));
            let changed: Vec<&str> = compared.filter(changes).copied().collect();
            assert_eq!(changed, stores(&row[5], tick), "{row:?} {tick}");
        }
    }
    assert!(last(&list, &call).0.ends_with("; Done"), "{section}");
}

#[test]
fn scope_of_start_ups_and_disarm() {
    let dsp = "status hw_info dev_info prod_info config deadline refused power_mode_unanswered";
    let avr = "status dev_info config factory_cal if_cal avr_config cal_deadline";
    let [mevo, xi, rig, ..] = MODELS;
    for model in [mevo, xi, rig] {
        walk("DSP start-up", "dsp", model, dsp);
    }
    for model in MODELS {
        walk("AVR start-up", &format!("avr {}", model.0), model, avr);
    }
    let pi = "dev_info cam_config ssid password";
    walk("Pi start-up", "pi", mevo, pi);
    walk("Disarm", "disarm", mevo, "");
}
