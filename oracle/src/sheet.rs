//! The sheet of a start-up, which the Rust hasn't. The front end keeps the
//! ticks by itself: from the change of the step that it sees at an accepted
//! feed or check, the reading, and the kind of the message.

use std::fmt;

use crate::list::Which;
use crate::protocol::Message;
use crate::refusal;

/// How an entry was ticked.
#[derive(Debug, Clone, Copy, PartialEq, Eq)]
pub enum How {
    /// By a reply or an acknowledgement.
    Reply,
    Nack,
    Check,
}

impl How {
    /// By a message.
    pub fn of(message: &Message) -> How {
        match message {
            Message::ConfigNack(_) => How::Nack,
            _ => How::Reply,
        }
    }
}

impl fmt::Display for How {
    fn fmt(&self, f: &mut fmt::Formatter<'_>) -> fmt::Result {
        f.write_str(match self {
            How::Reply => "R",
            How::Nack => "N",
            How::Check => "K",
        })
    }
}

/// What a start-up has ticked so far, as its sheet and as its state have it.
pub struct Ticks {
    letter: char,
    has_clock: bool,
    count: usize,
    sheet: String,
    stored: String,
}

impl Ticks {
    /// Of a sequence that has just begun, if it is a start-up.
    pub fn of(which: Which) -> Option<Ticks> {
        Some(Ticks {
            letter: which.letter()?,
            has_clock: which.has_clock(),
            count: 0,
            sheet: String::new(),
            stored: String::new(),
        })
    }

    /// One more. Without a clock its reading is 0.
    pub fn add(&mut self, now: u64, how: How) {
        let (letter, reading) = (self.letter, if self.has_clock { now } else { 0 });
        self.count += 1;
        self.sheet += &format!("{letter},{},{reading},{how}\n", self.count);
        let comma = if self.count > 1 { "," } else { "" };
        self.stored += &format!("{comma}{reading}{how}");
    }

    /// A line for each.
    pub fn sheet(&self) -> &str {
        &self.sheet
    }

    /// As a state has them.
    pub fn stored(&self) -> &str {
        match self.count {
            0 => "none",
            _ => &self.stored,
        }
    }
}

/// Writes a sheet into the part of a buffer that begins at a place. Gives
/// its length, or the number with which that is declined.
pub fn put(sheet: &str, buffer: &mut [u8], at: u64) -> Result<usize, u8> {
    let part = usize::try_from(at).ok().and_then(|at| buffer.get_mut(at..));
    match part.and_then(|part| part.get_mut(..sheet.len())) {
        None => Err(refusal::PART_TOO_SHORT),
        Some(written) => {
            written.copy_from_slice(sheet.as_bytes());
            Ok(sheet.len())
        }
    }
}
