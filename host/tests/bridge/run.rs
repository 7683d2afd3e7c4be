//! The run: calls from a seed until there are enough, or a difference.

use std::collections::BTreeMap;
use std::fmt::Write;

use oracle::armed;
use oracle::compare::LONG_ARM_CALLS;
use oracle::generate::{Generator, LEANINGS, LONG_ARM, Leaning};
use oracle::list::{self, Call, Which};

use super::fields::Fields;
use super::floats::Floats;
use super::pair::{self, Answers, Running, place};

/// The lines that are shown before a difference.
const SHOWN: usize = 200;

/// What was met of a sequence.
#[derive(Default)]
pub struct Counts {
    pub calls: u64,
    /// How many calls were refused, by number.
    pub refused: BTreeMap<u8, u64>,
    pub complete: u64,
    /// Runs of an arm that end before a text on which the rules differ.
    pub cut: u64,
    /// Entries of a start-up ticked by replies, by nacks and by checks.
    pub ticked: [u64; 3],
    /// NaNs handed in, compared in answers, and compared in states.
    pub nans: [u64; 3],
}

/// A list of calls that leans towards one sequence.
struct Run {
    generator: Generator,
    floats: Floats,
    running: Option<Box<dyn Running>>,
    /// The lines since the sequence began, with the floats that were put in.
    lines: Vec<(String, Vec<u64>)>,
    counts: [Counts; 6],
    /// What is done to the library's answers before they are compared.
    alter: fn(&mut Fields),
}

/// So many calls of a sequence, shared by its models; what was met of each
/// sequence, or the first difference.
pub fn run(
    which: Which,
    calls: u64,
    seed: u64,
    alter: fn(&mut Fields),
) -> Result<[Counts; 6], String> {
    let leanings: Vec<Leaning> = LEANINGS.into_iter().filter(|l| l.which == which).collect();
    let mut counts: [Counts; 6] = Default::default();
    let share = calls.div_ceil(leanings.len() as u64);
    for leaning in leanings {
        let mut run = Run::new(leaning, calls, seed, alter);
        while run.counts[place(which)].calls < share {
            run.line()?;
        }
        for (to, from) in counts.iter_mut().zip(&run.counts) {
            to.add(from);
        }
    }
    Ok(counts)
}

impl Run {
    fn new(leaning: Leaning, calls: u64, seed: u64, alter: fn(&mut Fields)) -> Self {
        let mut generator = Generator::new(seed, leaning);
        if calls >= LONG_ARM_CALLS && leaning == LONG_ARM {
            generator.long_arm();
        }
        Run {
            generator,
            floats: Floats::new(seed),
            running: None,
            lines: Vec::new(),
            counts: Default::default(),
            alter,
        }
    }

    /// The next line on both sides.
    fn line(&mut self) -> Result<(), String> {
        let view = self.running.as_ref().map(|running| running.view());
        let line = self.generator.line(view);
        let read = list::read(line.as_bytes(), view.map(|view| view.which));
        let Some(mut call) = read.map_err(|bad| format!("{line}: {bad}"))? else {
            return Ok(());
        };
        if let Some(which) = view.map(|view| view.which)
            && armed::cuts(which, &call)
        {
            self.counts[place(which)].cut += 1;
            self.generator.cut();
            return Ok(());
        }
        if let Call::Begin(_) = call {
            self.lines.clear();
        }
        assert!(!names_a_rig(&call), "the Rust knows no rig: {line}");
        let floats = self.floats.put_into(&mut call);
        self.lines.push((line, floats));
        self.call(&call)
    }

    fn call(&mut self, call: &Call) -> Result<(), String> {
        let mut answers = Answers::default();
        let was_complete = self.is_complete();
        match (call, &mut self.running) {
            (Call::Begin(begin), running) => *running = Some(pair::begin(begin, &mut answers)),
            (call, _) if pair::is_aside(call) => pair::aside(call, &mut answers),
            (call, Some(running)) => running.call(call, &mut answers),
            (_, None) => return Err("a call before any sequence".into()),
        }
        let complete = self.is_complete() && !was_complete;
        if let Some(running) = &mut self.running {
            if complete && running.view().which.has_result() {
                running.call(&Call::Result, &mut answers);
            }
            let answered = answers.rust.nans;
            running.put_state(&mut answers);
            self.count(&answers, answered, complete);
        }
        (self.alter)(&mut answers.ours);
        match answers.rust.difference(&answers.ours) {
            Some(difference) => Err(self.report(&difference)),
            None => Ok(()),
        }
    }

    fn is_complete(&self) -> bool {
        let view = self.running.as_ref().map(|running| running.view());
        view.is_some_and(|view| view.step.name == "Done")
    }

    /// `answered` is how many NaNs the answer has without the state.
    fn count(&mut self, answers: &Answers, answered: u64, complete: bool) {
        let view = self.running.as_ref().map(|running| running.view());
        let Some(view) = view else {
            return;
        };
        let handed_in = self.lines.last().map_or(0, |(_, floats)| nans(floats));
        let counts = &mut self.counts[place(view.which)];
        counts.calls += 1;
        counts.complete += u64::from(complete);
        if let Some(how) = answers.ticked {
            counts.ticked[how as usize] += 1;
        }
        counts.nans[0] += handed_in;
        counts.nans[1] += answered;
        counts.nans[2] += answers.rust.nans - answered;
        if let Some(number) = answers.refused {
            *counts.refused.entry(number).or_default() += 1;
        }
    }

    /// The difference, and the sequence in which it came.
    fn report(&self, difference: &str) -> String {
        let mut report = format!("{difference}\nafter these lines:\n");
        let from = self.lines.len().saturating_sub(SHOWN);
        for (line, floats) in &self.lines[from..] {
            let _ = writeln!(report, "{line}    floats: {floats:016X?}");
        }
        report
    }
}

/// Whether a payload has the rig's tag, which none of its lists has.
pub fn names_a_rig(call: &Call) -> bool {
    const RIG_TAG: &[u8] = b"BAY RIG";
    let payload = match call {
        Call::Feed(feed) => &feed.payload,
        Call::Model { payload } => payload,
        _ => return false,
    };
    payload.windows(RIG_TAG.len()).any(|w| w == RIG_TAG)
}

fn nans(floats: &[u64]) -> u64 {
    let is_nan = |bits: &&u64| f64::from_bits(**bits).is_nan();
    floats.iter().filter(is_nan).count() as u64
}

impl Counts {
    fn add(&mut self, other: &Counts) {
        self.calls += other.calls;
        self.complete += other.complete;
        self.cut += other.cut;
        for (number, count) in &other.refused {
            *self.refused.entry(*number).or_default() += count;
        }
        let sums = [
            (&mut self.ticked, other.ticked),
            (&mut self.nans, other.nans),
        ];
        for (to, from) in sums {
            for (to, from) in to.iter_mut().zip(from) {
                *to += from;
            }
        }
    }
}
