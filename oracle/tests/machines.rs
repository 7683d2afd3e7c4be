//! docs/MACHINES.md against the Rust and against the tables of the port: every
//! arrow of a picture is taken, and no arrow is missing. A start-up's sheet
//! has a line for each arrow that was taken.

mod common;

use std::collections::BTreeSet;

use common::{MODELS, answers, fact, message, repository};

const SECOND: u64 = 1_000_000_000;

#[derive(Debug, Clone)]
struct Arrow {
    from: String,
    to: String,
    /// The entry's number; of an arm's none.
    entry: Option<u32>,
    /// What ticks it: a message with its source, or a check.
    tick: String,
    /// A fact that the model has or hasn't.
    fact: Option<String>,
    send: String,
}

impl Arrow {
    /// Whether a model of these facts has it.
    fn has(&self, facts: &[bool; 3]) -> bool {
        let is_so = |words: &String| fact(words, facts).expect(words) == (true, "");
        self.fact.as_ref().is_none_or(is_so)
    }
}

/// The arrows of a section's picture, the one from the beginning first.
fn arrows(section: &str) -> Vec<Arrow> {
    let papers = repository("docs/MACHINES.md");
    let heading = format!("## {section}\n");
    let (_, rest) = papers.split_once(&heading).expect(section);
    let (_, rest) = rest.split_once("```mermaid\n").unwrap();
    let (picture, _) = rest.split_once("```").unwrap();
    let labelled = picture.lines().filter(|line| line.contains(": "));
    labelled.map(arrow).collect()
}

fn arrow(line: &str) -> Arrow {
    let (ends, label) = line.trim().split_once(": ").unwrap();
    let (from, to) = ends.split_once(" --> ").unwrap();
    let (ticks, send) = label.rsplit_once(" / ").unwrap();
    let (ticks, fact) = match ticks.strip_suffix(']') {
        None => (ticks, None),
        Some(ticks) => {
            let (ticks, fact) = ticks.rsplit_once(" [").unwrap();
            (ticks, Some(fact.to_string()))
        }
    };
    let numbered = ticks.split_once(' ');
    let numbered = numbered.and_then(|(number, tick)| Some((number.parse().ok()?, tick)));
    Arrow {
        from: from.to_string(),
        to: to.to_string(),
        entry: numbered.map(|(number, _)| number),
        tick: numbered.map_or(ticks, |(_, tick)| tick).to_string(),
        fact,
        send: send.to_string(),
    }
}

/// The call that a label names, at least a second after the one before.
fn call(tick: &str, model: &str, now: u64) -> String {
    if tick.starts_with("check after 2 s") {
        return format!("check {}", now + SECOND);
    }
    message(tick, model, now)
}

/// Runs a list, and holds the answer to its last line to an arrow.
#[track_caller]
fn takes(list: &[String], arrow: &Arrow) {
    let answers = answers(&list.join("\n"), false);
    let last = answers.lines().last().unwrap();
    let (_, answer) = last.split_once(": ").unwrap();
    let answer = answer.strip_prefix("accepted; ").unwrap_or(answer);
    let ticked = arrow.entry.map(|entry| format!("ticked {entry}; "));
    let answer = answer
        .strip_prefix(&ticked.unwrap_or_default())
        .expect(last);
    let (send, step) = answer.rsplit_once("; ").unwrap();
    let send = send.strip_prefix("send ").unwrap_or(send);
    let step = step.split(' ').next().unwrap();
    assert_eq!(
        (send, step),
        (&arrow.send[..], &arrow.to[..]),
        "{arrow:?}\n{last}"
    );
}

/// The line of a start-up's sheet for an arrow that a call has taken, the
/// first in this run or a later one.
fn line(section: &str, number: usize, arrow: &Arrow, call: &str) -> String {
    let how = match arrow.tick.split(' ').next().unwrap() {
        "check" => 'K',
        "ConfigNack" => 'N',
        _ => 'R',
    };
    let letter = &section[..1];
    let reading = match letter {
        "P" => "0",
        _ => call.split(' ').nth(1).unwrap(),
    };
    format!("{letter},{number},{reading},{how}\n")
}

/// The sheet at the end of a list.
fn sheet(list: &[String]) -> String {
    let answers = answers(&format!("{}\nsheet", list.join("\n")), false);
    let (_, told) = answers.rsplit_once("; sheet=\"").expect(&answers);
    told.strip_suffix("\"\n").unwrap().replace("\\x0A", "\n")
}

/// Takes every arrow of a picture with numbered entries: the entries before
/// it are ticked by the first arrow that each has.
fn walk(section: &str, begin: &str, (model, facts): (&str, [bool; 3])) {
    let has = |arrow: &Arrow| arrow.has(&facts);
    let picture: Vec<Arrow> = arrows(section).into_iter().filter(has).collect();
    let (new, rest) = picture.split_first().unwrap();
    let mut list = vec![begin.to_string()];
    takes(&list, new);
    let mut step = new.to.clone();
    let entries: BTreeSet<u32> = rest.iter().map(|arrow| arrow.entry.unwrap()).collect();
    let (has_sheet, mut lines) = (section.ends_with(" start-up"), String::new());
    for (number, entry) in (1..).zip(entries) {
        let now = 3 * SECOND * u64::from(entry);
        let ways: Vec<&Arrow> = rest.iter().filter(|a| a.entry == Some(entry)).collect();
        for way in &ways {
            assert_eq!(way.from, step, "{way:?}");
            let mut taken = list.clone();
            taken.push(call(&way.tick, model, now));
            takes(&taken, way);
            if has_sheet {
                let last = line(section, number, way, &taken[taken.len() - 1]);
                assert_eq!(sheet(&taken), format!("{lines}{last}"), "{way:?}");
            }
        }
        list.push(call(&ways[0].tick, model, now));
        lines += &line(section, number, ways[0], &list[list.len() - 1]);
        step = ways[0].to.clone();
    }
    assert_eq!(step, "Done", "{section}");
}

#[test]
fn machines_of_start_ups() {
    let [mevo, xi, rig, ..] = MODELS;
    for model in [mevo, xi, rig] {
        walk("DSP start-up", "dsp", model);
    }
    for model in MODELS {
        walk("AVR start-up", &format!("avr {}", model.0), model);
    }
    walk("Pi start-up", "pi", mevo);
}

#[test]
fn machines_of_settings_and_disarm() {
    let params = "param_id=0x06 int24=1 param_id=0x0F int24=2";
    let begin = format!("avr_config mode=9 {params} range_mm=2438 height_mm=25");
    walk("Settings run", &begin, MODELS[0]);
    walk("Disarm", "disarm", MODELS[0]);
}

/// The calls that lead to the step from which an arm's arrow goes.
fn before_arm(arrow: &Arrow) -> Vec<&str> {
    let all = [
        "DspStatus from Dsp",
        "AvrStatus from Avr",
        "ConfigAck from Avr",
    ];
    let steps = [
        "WaitDspStatus",
        "WaitAvrStatus",
        "WaitArmAck",
        "WaitPiAndArmed",
    ];
    let count = steps.iter().position(|step| *step == arrow.from).unwrap();
    let mut before = all[..count].to_vec();
    if arrow.tick.contains("once the PiStatus was there") {
        before.push("PiStatus");
    }
    if arrow.tick.contains("once the Text was there") {
        before.push("Text \"ARMED\"");
    }
    before
}

#[test]
fn machines_of_the_arm() {
    let picture = arrows("Arm");
    for (model, facts) in MODELS {
        let begin = format!("arm {model}");
        takes(&[begin.clone()], &picture[0]);
        let own = |arrow: &&Arrow| arrow.has(&facts);
        for arrow in picture[1..].iter().filter(own) {
            let ticks = before_arm(arrow).into_iter().chain([&arrow.tick[..]]);
            let calls = ticks.map(|tick| call(tick, model, 0));
            let list: Vec<String> = [begin.clone()].into_iter().chain(calls).collect();
            takes(&list, arrow);
        }
    }
}

/// A step's name, without what it holds.
fn step_of(term: &str) -> Option<String> {
    let word = term
        .trim()
        .trim_start_matches('(')
        .split([' ', ')'])
        .next()?;
    let is_step = word.starts_with("Wait") || word == "Done";
    is_step.then(|| word.to_string())
}

/// The steps that `next` of a table gives, with those before them.
fn next_of(table: &str) -> BTreeSet<(String, String)> {
    let text = repository(table);
    let mut pairs = BTreeSet::new();
    for line in text.lines().filter(|line| line.starts_with("next ")) {
        let Some((left, right)) = line.split_once(" = ") else {
            continue;
        };
        let left = left.trim_start_matches("next ");
        let from = step_of(left).or_else(|| step_of(left.split_once(' ')?.1));
        let right = right.replace("param_step s", "(WaitParamAck i) WaitModeEcho");
        for word in right.split([' ', '(', ')']).filter_map(step_of) {
            pairs.insert((from.clone().expect(line), word));
        }
    }
    pairs
}

fn pairs_of(section: &str) -> BTreeSet<(String, String)> {
    let picture = arrows(section).into_iter().skip(1);
    picture.map(|arrow| (arrow.from, arrow.to)).collect()
}

/// What the settings run's picture says in words.
const IN_WORDS: [(&str, &str); 2] = [
    ("WaitInitGateAck", "WaitModeEcho"),
    ("WaitModeCommitAck", "Done"),
];

#[test]
fn machines_and_tables_agree() {
    let tables = [
        ("DSP start-up", "dsp_table"),
        ("AVR start-up", "avr_table"),
        ("Pi start-up", "pi_table"),
        ("Settings run", "avr_config_steps"),
        ("Disarm", "disarm"),
    ];
    for (section, krate) in tables {
        let mut drawn = pairs_of(section);
        if section == "Settings run" {
            drawn.extend(IN_WORDS.map(|(from, to)| (from.to_string(), to.to_string())));
        }
        let mut table = next_of(&format!("crates/{krate}/specs/Table.antt"));
        table.remove(&("Done".to_string(), "Done".to_string()));
        assert_eq!(drawn, table, "{section}");
    }
}
