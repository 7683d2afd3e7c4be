//! Makes lists of calls from a seed.

mod arm;
mod avr;
mod avr_config;
mod bad;
mod bad_lines;
mod bytes;
mod caller;
mod disarm;
mod dsp;
mod kinds;
mod long_arm;
mod pi;
mod random;
mod readings;
mod session;
mod settings;
mod sheets;
mod twins;

pub use bad::BadLines;
pub use bad_lines::SESSION_LINES;
pub use bytes::device_info;
use caller::Caller;
use long_arm::LongArm;
pub use random::Random;
pub use twins::twin;

use crate::list::Which;
use crate::protocol::handshake::DeviceModel;
use crate::running::{SessionView, View};

/// A sequence and a model, of which most sequences of a list are.
///
/// A list that leans towards the DSP has the DSP's words only: no other
/// sequence and no wall seconds. One that leans towards the AVR or the Pi
/// has start-ups only. The others have all sequences.
#[derive(Clone, Copy, PartialEq)]
pub struct Leaning {
    pub which: Which,
    pub model: DeviceModel,
    /// Whether payloads of device infos have a rig's tag, too.
    pub rigs: bool,
}

pub const fn leaning(which: Which, model: DeviceModel) -> Leaning {
    let rigs = false;
    Leaning { which, model, rigs }
}

/// Only a Mevo has a Pi. A settings run and a disarm are the same on each
/// model.
pub const LEANINGS: [Leaning; 9] = [
    leaning(Which::Dsp, DeviceModel::Xi),
    leaning(Which::Dsp, DeviceModel::Mevo),
    leaning(Which::Avr, DeviceModel::Xi),
    leaning(Which::Avr, DeviceModel::Mevo),
    leaning(Which::Pi, DeviceModel::Mevo),
    leaning(Which::AvrConfig, DeviceModel::Xi),
    leaning(Which::Disarm, DeviceModel::Xi),
    leaning(Which::Arm, DeviceModel::Xi),
    LONG_ARM,
];

/// Lists of a DSP in which devices name a rig, a Xi, both or neither. Their
/// models aren't the Rust's.
pub const RIGS: Leaning = Leaning {
    rigs: true,
    ..leaning(Which::Dsp, DeviceModel::Xi)
};

/// Lists of sessions, in which devices name the same.
pub const SESSIONS: Leaning = Leaning {
    rigs: true,
    ..leaning(Which::Session, DeviceModel::Mevo)
};

/// The one of which a long comparison has a long arm.
pub const LONG_ARM: Leaning = leaning(Which::Arm, DeviceModel::Mevo);

/// Makes one line after the other.
pub struct Generator {
    random: Random,
    leaning: Leaning,
    /// The lines that this sequence still has.
    left: u64,
    /// The first reading of this sequence.
    first: u64,
    /// Of a session: in so many cases of a hundred the AVR comes before the Pi.
    avr_first: u64,
    long_arm: Option<LongArm>,
}

impl Generator {
    pub fn new(seed: u64, leaning: Leaning) -> Self {
        let mut places = LEANINGS.into_iter().chain([RIGS, SESSIONS]);
        let place = places.position(|l| l == leaning);
        let mut random = Random::new(seed);
        for _ in 0..=place.unwrap_or(LEANINGS.len()) {
            random = Random::new(random.bits());
        }
        Generator {
            random,
            leaning,
            left: 0,
            first: 0,
            avr_first: 0,
            long_arm: None,
        }
    }

    /// A long arm comes next.
    pub fn long_arm(&mut self) {
        self.left = 40;
        self.long_arm = Some(LongArm::default());
    }

    /// Ends the sequence that runs.
    pub fn cut(&mut self) {
        self.left = 0;
    }

    /// Whether the next line begins a sequence.
    pub fn at_start(&self) -> bool {
        self.left == 0
    }

    /// The next line, for the state that the lines before it left, which is
    /// that of no session.
    pub fn line(&mut self, view: Option<View>) -> String {
        self.next(view, None)
    }

    /// The same where a session may run.
    pub fn next(&mut self, view: Option<View>, session: Option<SessionView>) -> String {
        let long_arm = self.long_arm.as_mut();
        if let Some(line) = long_arm.and_then(|arm| arm.line(view)) {
            return line;
        }
        self.long_arm = None;
        let Some(view) = view.filter(|_| self.left > 0) else {
            return self.begin();
        };
        self.left -= 1;
        if let Some(session) = session {
            return self.in_session(view, session);
        }
        let words = match (self.random.below(100), view.sheet) {
            (0..3, _) => return comment(&mut self.random),
            (3..6, _) => aside(&mut self.random),
            (6..10, _) if view.which.has_result() => vec!["result".to_string()],
            (6..10, _) if view.which.has_retries() => vec!["retries".to_string()],
            (10..13, _) if view.which.has_take() => vec!["take".to_string()],
            (13..20, Some(sheet)) => sheets::words(&mut self.random, None, sheet),
            _ => self.call(view, view.which.has_clock()),
        };
        spaced(&mut self.random, &words)
    }

    fn in_session(&mut self, view: View, session: SessionView) -> String {
        if view.step.name == "Done" && self.left > session::AFTER_DONE {
            self.left = self.random.below(session::AFTER_DONE);
        }
        let words = match self.random.below(100) {
            0..3 => return comment(&mut self.random),
            3..6 => aside(&mut self.random),
            6..10 => vec!["result".to_string()],
            10..13 => vec!["take".to_string()],
            13..20 => session::sheet(&mut self.random, session),
            20..25 if session::one_is_done(session) => vec!["result".to_string()],
            _ => {
                let part = session::part(&mut self.random, session, self.avr_first);
                self.call(session::view(view, part), true)
            }
        };
        spaced(&mut self.random, &words)
    }

    fn begin(&mut self) -> String {
        self.left = 15 + self.random.below(46);
        self.first = readings::first(&mut self.random);
        let own = self.leaning.which;
        if own == Which::Dsp {
            return own.word().to_string();
        }
        let which = match (self.random.chance(85), own.is_start_up()) {
            (true, _) => own,
            (false, true) => self.random.pick(&Which::START_UPS),
            (false, false) => self.random.pick(&Which::ALL),
        };
        let words = self.begin_words(which);
        spaced(&mut self.random, &words)
    }

    /// A sequence with a long table gets more lines, one with a short table
    /// fewer.
    fn begin_words(&mut self, which: Which) -> Vec<String> {
        match which {
            Which::Pi => self.left += 10,
            Which::Disarm => self.left /= 2,
            Which::Arm => self.left -= self.left / 4,
            Which::Session => {
                self.left = session::lines(&mut self.random);
                self.avr_first = self.random.pick(&[20, 50, 70]);
            }
            Which::AvrConfig => {
                let (words, params) = settings::words(&mut self.random);
                self.left = self.left / 2 + 4 * params;
                return words;
            }
            _ => {}
        }
        let mut words = vec![which.word().to_string()];
        let mevo = self.leaning.model == DeviceModel::Mevo;
        let with_model = matches!(which, Which::Avr | Which::Arm);
        if with_model && !(mevo && self.random.chance(40)) {
            words.push(self.leaning.model.label().to_string());
        }
        words
    }

    fn call(&mut self, view: View, has_clock: bool) -> Vec<String> {
        let mut call = Caller {
            random: &mut self.random,
            model: self.leaning.model,
            first: self.first,
            view,
            has_clock,
            walls: self.leaning.which != Which::Dsp,
            rigs: self.leaning.rigs,
        };
        call.words()
    }
}

/// Puts blanks between the words, now and then more than one.
fn spaced(random: &mut Random, words: &[String]) -> String {
    if !random.chance(3) {
        return words.join(" ");
    }
    let mut line = random.pick(&["", "", " ", "\t"]).to_string();
    for (i, word) in words.iter().enumerate() {
        if i > 0 {
            line += random.pick(&[" ", " ", " ", "  ", "\t", " \t "]);
        }
        line += word;
    }
    line + random.pick(&["", "", " ", "\t", "\r", " \r"])
}

fn comment(random: &mut Random) -> String {
    let comments = [
        "",
        "# a comment",
        "#",
        "  # dsp",
        "#feed 1",
        "\t",
        " \r",
        "## \" é",
    ];
    random.pick(&comments).to_string()
}

/// A call that belongs to no sequence.
fn aside(random: &mut Random) -> Vec<String> {
    let model = random.pick(&[DeviceModel::Mevo, DeviceModel::Xi]);
    match random.below(5) {
        0..2 => {
            let ids = [0xD4, 0xE8, 0x54, 0x68, 0x94, random.byte()];
            let type_id = random.pick(&ids);
            let src = random.pick(&["Avr", "Avr", "Dsp", "Pi", "App"]);
            let type_id = kinds::number(random, type_id);
            vec!["ack".into(), model.label().into(), src.into(), type_id]
        }
        2 => vec!["keepalive".into()],
        3 => vec!["keepalive".into(), model.label().into()],
        _ => {
            let mut payload = bytes::device_info(random, model);
            if random.chance(5) {
                payload.splice(0..0, vec![0x46; 1000]);
            }
            vec!["model".into(), bytes::written(random, &payload)]
        }
    }
}
