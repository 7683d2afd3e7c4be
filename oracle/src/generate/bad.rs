//! Lines that can't be read.

use super::bad_lines::{EARLY, LINES, MORE_EARLY, MORE_LINES};
use super::bad_lines::{SESSION_LINES, SETTINGS_ARM_LINES};
use super::kinds::{self, KINDS, Kind, Type};
use super::random::Random;
use super::settings;
use crate::list::{self, Call, LONGEST, Which};
use crate::model::{RIG_TAG, has};

/// Makes bad lines.
pub struct BadLines {
    random: Random,
    early: Vec<&'static str>,
    more: Vec<&'static str>,
    /// The words that have fields and begin a sequence.
    begins: &'static [Kind],
}

impl BadLines {
    /// For lists that lean towards a sequence.
    pub fn new(seed: u64, which: Which) -> Self {
        let mut bad = BadLines {
            random: Random::new(!seed),
            early: EARLY.to_vec(),
            more: Vec::new(),
            begins: &[],
        };
        if which != Which::Dsp {
            bad.more.extend(MORE_LINES);
        }
        if !which.is_start_up() {
            bad.early.extend(MORE_EARLY);
            bad.more.extend(SETTINGS_ARM_LINES);
            bad.more.extend(SESSION_LINES);
            bad.begins = &settings::BEGINS;
        }
        bad
    }

    /// Each of the written lines once, and each field wrong once.
    pub fn all(&mut self) -> Vec<String> {
        let written = LINES.iter().chain(&self.more);
        let mut lines: Vec<String> = written.map(|line| line.to_string()).collect();
        for kind in KINDS.iter().chain(self.begins) {
            for place in 0..kind.fields.len() {
                lines.push(self.without(kind, place));
                let wrong = wrong_values(&mut self.random, kind.fields[place].1);
                lines.extend(wrong.iter().map(|value| self.with(kind, place, value)));
            }
            if kind.type_id != 0 {
                lines.extend(self.wrong_bytes(kind));
            }
        }
        if !self.begins.is_empty() {
            lines.push(past_the_limit());
        }
        lines.push(format!("model {}", "41".repeat(LONGEST / 2)));
        lines
    }

    /// True in so many cases of a hundred.
    pub fn chance(&mut self, percent: u64) -> bool {
        self.random.chance(percent)
    }

    /// Lines before any sequence has begun.
    pub fn early(&self) -> &[&'static str] {
        &self.early
    }

    /// A line that is bad, most of the time: a good one spoiled, or one of
    /// those above again.
    pub fn any(&mut self, line: &str) -> Option<String> {
        if !self.more.is_empty() && self.random.chance(10) {
            return Some(self.random.pick(&self.more).to_string());
        }
        self.spoiled(line)
    }

    /// `None` if its text isn't UTF-8 any more, or its payload names a rig.
    fn spoiled(&mut self, line: &str) -> Option<String> {
        let mut chars: Vec<char> = line.chars().collect();
        if chars.is_empty() {
            return None;
        }
        let at = self.random.index(chars.len());
        let with = self.random.pick(&[
            ' ', '\t', '"', '\\', '=', '-', ',', '0', 'x', 'g', 'F', '9', '\r', '\x01', '#',
        ]);
        match self.random.below(5) {
            0 => chars.truncate(at),
            1 => chars[at] = with,
            2 => chars.insert(at, with),
            3 => chars.swap(at / 2, at),
            _ => drop(chars.remove(at)),
        }
        let spoiled: String = chars.into_iter().collect();
        let comparable = match list::read(spoiled.as_bytes(), Some(Which::Dsp)) {
            Ok(Some(Call::Feed(feed))) => {
                std::str::from_utf8(&feed.text).is_ok() && !has(&feed.payload, RIG_TAG)
            }
            Ok(Some(Call::Model { payload })) => !has(&payload, RIG_TAG),
            _ => true,
        };
        (comparable && !spoiled.contains('\n')).then_some(spoiled)
    }

    /// Fed, or alone if it begins a sequence.
    fn line(&self, kind: &Kind, words: &[String]) -> String {
        match kind.type_id {
            0 => words.join(" "),
            type_id => format!("feed 1 Dsp 0x{type_id:02X} {}", words.join(" ")),
        }
    }

    /// The kind without one of its fields.
    fn without(&mut self, kind: &Kind, place: usize) -> String {
        let mut words = kinds::words(&mut self.random, kind);
        words.remove(words.len() - kind.fields.len() + place);
        self.line(kind, &words)
    }

    /// The kind with another value in one of its fields.
    fn with(&mut self, kind: &Kind, place: usize, value: &str) -> String {
        let mut words = kinds::words(&mut self.random, kind);
        let at = words.len() - kind.fields.len() + place;
        words[at] = format!("{}={value}", kind.fields[place].0);
        self.line(kind, &words)
    }

    /// The kind with bytes that can't be read, or more words.
    fn wrong_bytes(&mut self, kind: &Kind) -> Vec<String> {
        const ENDS: [&str; 8] = [
            "text=4",
            "text=\"a",
            "text=\"a\"payload=41",
            "payload=41 text=41",
            "text=41 text=41",
            "text",
            "payload=4x",
            "text=\"a\" payload=\"\\y\" x",
        ];
        let mut lines = Vec::new();
        for end in ENDS {
            let mut words = kinds::words(&mut self.random, kind);
            words.push(end.to_string());
            lines.push(self.line(kind, &words));
        }
        lines
    }
}

/// A settings list that would be refused, if its last parameter were one.
fn past_the_limit() -> String {
    let params = " param_id=1 int24=1".repeat(33);
    format!("avr_config mode=9{params} param_id=1 int24=x")
}

/// Values that a field of the type can't have.
fn wrong_values(random: &mut Random, field: Type) -> Vec<String> {
    let mut wrong: Vec<String> = match field {
        Type::Bool => vec!["True".into(), "0".into()],
        Type::Float => [
            "1.5",
            "0x3FF800000000000",
            "0x3FF80000000000000",
            "0x3FF800000000000g",
        ]
        .into_iter()
        .chain([
            "0x7FF8000000000000",
            "0xfff0000000000001",
            "3FF8000000000000",
        ])
        .map(String::from)
        .collect(),
        Type::Params => wrong_params(random),
        Type::Tail => ["00", "000102", "0", "00g1", "\"a\""]
            .map(String::from)
            .to_vec(),
        _ => vec![
            "x".into(),
            "0x".into(),
            "--1".into(),
            "1-".into(),
            "-0x1".into(),
        ],
    };
    if let Some((min, max)) = kinds::range(field) {
        let (min, max) = (i128::from(min), i128::from(max));
        wrong.push((max + 1).to_string());
        wrong.push(format!("0x{:X}", max + 1));
        wrong.push((min - 1).to_string());
    }
    wrong.push(String::new());
    wrong
}

fn wrong_params(random: &mut Random) -> Vec<String> {
    vec![
        kinds::params(random, 1),
        kinds::params(random, 33),
        kinds::params(random, 35),
        kinds::params(random, 33) + ",",
        kinds::params(random, 34) + ",",
        kinds::params(random, 33) + ",32768",
        kinds::params(random, 3) + ",,1",
        "-32769,x".into(),
        kinds::params(random, 34) + "x",
    ]
}
