//! Calls of a session: each is made for one of its start-ups, also for one that
//! has not begun.

use super::random::Random;
use super::sheets;
use crate::list::Which;
use crate::running::{Part, SessionView, Step, View};

/// The most lines after its Done.
pub const AFTER_DONE: u64 = 12;

/// How many lines a session has: enough for a Mevo's 35 entries, or too few.
pub fn lines(random: &mut Random) -> u64 {
    match random.below(4) {
        0 => 10 + random.below(60),
        _ => 90 + random.below(90),
    }
}

/// The words of a call for the sheet of any of the three.
pub fn sheet(random: &mut Random, session: SessionView) -> Vec<String> {
    let which = random.pick(&Which::START_UPS);
    let sheet = session.part(which).map_or(0, |part| part.sheet);
    sheets::words(random, which.letter(), sheet)
}

/// The part that a call is made for. In so many cases of a hundred the AVR
/// comes before the Pi.
pub fn part(random: &mut Random, session: SessionView, avr_first: u64) -> Part {
    let which = pick(random, session, avr_first);
    session.part(which).unwrap_or(not_begun(which))
}

/// What a call for it goes by: the last reading is the session's.
pub fn view(view: View, part: Part) -> View {
    View {
        which: part.which,
        step: part.step,
        deadline: part.deadline,
        repoll: part.repoll,
        ..view
    }
}

/// Whether a start-up has begun and isn't done.
fn is_open(session: SessionView, which: Which) -> bool {
    let step = session.part(which).map(|part| part.step.name);
    step.is_some_and(|step| step != "Done")
}

/// Whether of AVR and Pi one is done and one isn't.
pub fn one_is_done(session: SessionView) -> bool {
    let [avr, pi] = [Which::Avr, Which::Pi].map(|which| is_open(session, which));
    session.part(Which::Pi).is_some() && avr != pi
}

/// The DSP until it is done, and then mostly one that isn't.
fn pick(random: &mut Random, session: SessionView, avr_first: u64) -> Which {
    let any = random.chance(10);
    match Which::START_UPS.map(|which| is_open(session, which)) {
        _ if any => random.pick(&Which::START_UPS),
        [true, _, _] => Which::Dsp,
        [_, true, true] if random.chance(avr_first) => Which::Avr,
        [_, true, false] => Which::Avr,
        [_, _, true] => Which::Pi,
        [_, false, false] => random.pick(&Which::START_UPS),
    }
}

/// Waits for what a start-up waits for first.
fn not_begun(which: Which) -> Part {
    Part {
        which,
        step: Step::plain(match which {
            Which::Avr => "WaitStatus1",
            _ => "WaitStatus",
        }),
        last: 0,
        deadline: None,
        repoll: None,
        sheet: 0,
    }
}
