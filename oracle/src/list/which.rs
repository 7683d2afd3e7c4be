//! The sequences that a list can begin, and the session.

#[derive(Debug, Clone, Copy, PartialEq, Eq)]
pub enum Which {
    Dsp,
    Avr,
    Pi,
    /// A settings run.
    AvrConfig,
    Disarm,
    Arm,
    /// A whole unit's start-ups.
    Session,
}

impl Which {
    /// The sequences.
    pub const ALL: [Which; 6] = [
        Which::Dsp,
        Which::Avr,
        Which::Pi,
        Which::AvrConfig,
        Which::Disarm,
        Which::Arm,
    ];

    pub const WITH_SESSION: [Which; 7] = [
        Which::Dsp,
        Which::Avr,
        Which::Pi,
        Which::AvrConfig,
        Which::Disarm,
        Which::Arm,
        Which::Session,
    ];

    pub const START_UPS: [Which; 3] = [Which::Dsp, Which::Avr, Which::Pi];

    /// The word that begins it, or one of those that do.
    pub fn word(self) -> &'static str {
        match self {
            Which::Dsp => "dsp",
            Which::Avr => "avr",
            Which::Pi => "pi",
            Which::AvrConfig => "avr_config",
            Which::Disarm => "disarm",
            Which::Arm => "arm",
            Which::Session => "session",
        }
    }

    pub fn of_word(word: &str) -> Option<Which> {
        let mut each = Which::WITH_SESSION.into_iter();
        each.find(|which| which.word() == word)
    }

    /// Of a start-up: as its sheet has it, and a session's calls.
    pub fn letter(self) -> Option<char> {
        match self {
            Which::Dsp => Some('D'),
            Which::Avr => Some('A'),
            Which::Pi => Some('P'),
            _ => None,
        }
    }

    pub fn of_letter(word: &[u8]) -> Option<Which> {
        let [letter] = *word else {
            return None;
        };
        let has_it = |which: &Which| which.letter() == Some(char::from(letter));
        Which::START_UPS.into_iter().find(has_it)
    }

    /// Whether it starts a device up.
    pub fn is_start_up(self) -> bool {
        Which::START_UPS.contains(&self)
    }

    /// Whether it looks at readings.
    pub fn has_clock(self) -> bool {
        matches!(self, Which::Dsp | Which::Avr | Which::Session)
    }

    pub fn has_check(self) -> bool {
        self.has_clock()
    }

    pub fn has_result(self) -> bool {
        self.is_start_up() || self == Which::Session
    }

    pub fn has_sheet(self) -> bool {
        self.has_result()
    }

    pub fn has_take(self) -> bool {
        matches!(self, Which::Dsp | Which::Session)
    }

    pub fn has_retries(self) -> bool {
        self == Which::Arm
    }
}
