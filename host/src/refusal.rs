//! Why a call was refused.

use std::error::Error;
use std::fmt;

/// Why a call was refused. A refused call sends nothing, writes nothing and
/// changes nothing.
#[derive(Debug, Clone, Copy, PartialEq, Eq, Hash)]
pub enum Refusal {
    /// 1: a text of more than 256 bytes.
    TextTooLong,
    /// 2: a payload of more than 256 bytes.
    PayloadTooLong,
    /// 3: a clock reading above 18,446,744,071,709,551,615 ns.
    ReadingTooLarge,
    /// 4: more than 32 parameters.
    TooManyParams,
    /// 5: a part of a buffer, from a place on, that is shorter than the sheet;
    /// or a place past the buffer's end.
    PartTooShort,
    /// 6: settings in which a parameter's id occurs twice.
    RepeatedParam,
    /// 11: a clock reading below the last accepted one.
    ReadingBelowLast,
    /// 12: a result before the sequence is complete.
    NotDone,
    /// 13: a nack that an arm with 65,535 of them would count.
    RetriesFull,
    /// 21: a number that no case has. The types of this crate have none, so
    /// no call of it is refused with this.
    UnknownNumber,
}

impl Refusal {
    /// The number by which the library tells it.
    #[must_use]
    pub fn number(self) -> u8 {
        match self {
            Refusal::TextTooLong => 1,
            Refusal::PayloadTooLong => 2,
            Refusal::ReadingTooLarge => 3,
            Refusal::TooManyParams => 4,
            Refusal::PartTooShort => 5,
            Refusal::RepeatedParam => 6,
            Refusal::ReadingBelowLast => 11,
            Refusal::NotDone => 12,
            Refusal::RetriesFull => 13,
            Refusal::UnknownNumber => 21,
        }
    }

    /// What an answer's number tells: 0 is an accepted call.
    pub(crate) fn check(number: u8) -> Result<(), Refusal> {
        match number {
            0 => Ok(()),
            1 => Err(Refusal::TextTooLong),
            2 => Err(Refusal::PayloadTooLong),
            3 => Err(Refusal::ReadingTooLarge),
            4 => Err(Refusal::TooManyParams),
            5 => Err(Refusal::PartTooShort),
            6 => Err(Refusal::RepeatedParam),
            11 => Err(Refusal::ReadingBelowLast),
            12 => Err(Refusal::NotDone),
            13 => Err(Refusal::RetriesFull),
            _ => Err(Refusal::UnknownNumber),
        }
    }
}

impl fmt::Display for Refusal {
    fn fmt(&self, f: &mut fmt::Formatter<'_>) -> fmt::Result {
        let why = match self {
            Refusal::TextTooLong => "a text of more than 256 bytes",
            Refusal::PayloadTooLong => "a payload of more than 256 bytes",
            Refusal::ReadingTooLarge => "a clock reading that is too large",
            Refusal::TooManyParams => "more than 32 parameters",
            Refusal::PartTooShort => "no room for the sheet from its place on",
            Refusal::RepeatedParam => "a parameter's id that occurs twice",
            Refusal::ReadingBelowLast => "a clock reading below the last one",
            Refusal::NotDone => "the sequence is not complete",
            Refusal::RetriesFull => "no more nacks of an arm can be counted",
            Refusal::UnknownNumber => "a number that no case has",
        };
        write!(f, "refused ({}): {why}", self.number())
    }
}

impl Error for Refusal {}
