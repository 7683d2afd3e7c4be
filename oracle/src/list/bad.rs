//! Why a line can't be read, and where reading stopped.

use std::fmt;

#[derive(Debug, Clone, Copy, PartialEq, Eq)]
pub struct Bad {
    /// Counts bytes from 1.
    pub column: usize,
    pub reason: Reason,
}

#[derive(Debug, Clone, Copy, PartialEq, Eq)]
pub enum Reason {
    UnknownCall,
    UnknownModel,
    UnknownSource,
    UnknownKind,
    UnknownStartUp,
    Expected(&'static str),
    NotANumber,
    OutOfRange,
    NotABool,
    NotAFloat,
    NaN,
    NotAHexDigit,
    OddHexDigits,
    ControlByte,
    BadEscape,
    NotClosed,
    ParamCount,
    EndOfLine,
    NoSequence,
    NotOfSequence,
    LineTooLong,
}

impl Bad {
    /// `index` counts bytes from 0.
    pub fn at(index: usize, reason: Reason) -> Bad {
        Bad {
            column: index + 1,
            reason,
        }
    }
}

impl Reason {
    /// One of each, for counting. A missing field is named NAME here.
    pub const ALL: [Reason; 21] = [
        Reason::UnknownCall,
        Reason::UnknownModel,
        Reason::UnknownSource,
        Reason::UnknownKind,
        Reason::UnknownStartUp,
        Reason::Expected("NAME"),
        Reason::NotANumber,
        Reason::OutOfRange,
        Reason::NotABool,
        Reason::NotAFloat,
        Reason::NaN,
        Reason::NotAHexDigit,
        Reason::OddHexDigits,
        Reason::ControlByte,
        Reason::BadEscape,
        Reason::NotClosed,
        Reason::ParamCount,
        Reason::EndOfLine,
        Reason::NoSequence,
        Reason::NotOfSequence,
        Reason::LineTooLong,
    ];

    /// The reason with no field's name in it.
    pub fn unnamed(self) -> Reason {
        match self {
            Reason::Expected(_) => Reason::Expected("NAME"),
            other => other,
        }
    }
}

impl fmt::Display for Reason {
    fn fmt(&self, f: &mut fmt::Formatter<'_>) -> fmt::Result {
        f.write_str(match self {
            Reason::UnknownCall => "unknown call: docs/REPLAY.md names them all",
            Reason::UnknownModel => "unknown model: Mevo, Xi or Rig expected, or the facts of another, as no/yes/yes",
            Reason::UnknownSource => "unknown source: App, Pi, Avr or Dsp expected",
            Reason::UnknownKind => "unknown kind: docs/REPLAY.md names them all, and capitals count",
            Reason::UnknownStartUp => "unknown start-up: D, A or P expected",
            Reason::Expected(name) => return write!(f, "{name}= expected"),
            Reason::NotANumber => "not a number: write one as 12 or 0x0C; a type id stands before the kind",
            Reason::OutOfRange => "out of range",
            Reason::NotABool => "not a bool",
            Reason::NotAFloat => "not a float",
            Reason::NaN => "a NaN can't be read",
            Reason::NotAHexDigit => "not a hex digit: bytes are pairs of digits without 0x, or a text in double quotes",
            Reason::OddHexDigits => "odd number of hex digits",
            Reason::ControlByte => "control byte in a text",
            Reason::BadEscape => "bad escape",
            Reason::NotClosed => "text not closed",
            Reason::ParamCount => "34 numbers expected",
            Reason::EndOfLine => "end of line expected: a text or payload stands behind its name and =, a comment on a line of its own",
            Reason::NoSequence => "no sequence has begun: a line such as dsp, avr Xi or arm begins one",
            Reason::NotOfSequence => "not a call of this sequence",
            Reason::LineTooLong => "line longer than 65536 bytes",
        })
    }
}

impl fmt::Display for Bad {
    fn fmt(&self, f: &mut fmt::Formatter<'_>) -> fmt::Result {
        write!(f, "bad line at column {}: {}", self.column, self.reason)
    }
}
