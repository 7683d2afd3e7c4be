//! How the entries of a start-up were ticked, and the sheet of them.

use crate::records::{CWritten, MAX_TICKS};

/// A start-up of a session.
#[derive(Debug, Clone, Copy, PartialEq, Eq, Hash)]
pub enum StartUp {
    /// Of the DSP: `D` on a sheet.
    Dsp,
    /// Of the AVR: `A`.
    Avr,
    /// Of the camera's Pi: `P`.
    Pi,
}

/// How an entry was ticked.
#[derive(Debug, Clone, Copy, PartialEq, Eq, Hash)]
pub enum How {
    /// By a reply or an acknowledgement: `R` on a sheet.
    Reply,
    /// By a nack: `N`.
    Nack,
    /// By a check, once the wait was over: `K`.
    Check,
}

/// A ticked entry.
#[derive(Debug, Clone, Copy, PartialEq, Eq, Hash)]
pub struct Tick {
    /// Of the feed or check that ticked it, in nanoseconds; 0 in a Pi
    /// start-up, which has no clock.
    pub reading: u64,
    /// How it was ticked.
    pub how: How,
}

impl StartUp {
    /// Its place in the library's enum.
    pub(crate) fn number(self) -> u8 {
        match self {
            StartUp::Dsp => 0,
            StartUp::Avr => 1,
            StartUp::Pi => 2,
        }
    }
}

/// The longest line: a letter, two digits, the 20 of a reading, a letter,
/// three commas and a line feed.
const LONGEST_LINE: usize = 28;

/// So many bytes hold any sheet.
const ROOM: usize = MAX_TICKS * LONGEST_LINE;

/// The whole sheet of a start-up, by its exact call. The buffer holds the
/// longest one, so the call isn't refused.
pub(crate) fn whole<S>(seq: S, exact: fn(S, &mut [u8], usize) -> CWritten) -> String {
    let mut buf = [0; ROOM];
    let written = exact(seq, &mut buf, 0).value();
    let len = written.expect("room for the longest sheet");
    // Letters, digits, commas and line feeds.
    buf.iter().take(len).copied().map(char::from).collect()
}

#[cfg(test)]
mod tests {
    use super::{ROOM, whole};
    use crate::device::DeviceModel;
    use crate::ffi;
    use crate::records::{
        CAvr, CDsp, COptionAvr, COptionPi, CPi, CSession, CTick, CTicks, MAX_TICKS,
    };

    /// Holds a sheet to the longest of this letter. Beside the number a line
    /// has 26 bytes: two letters, three commas, the 20 digits of the largest
    /// reading and a line feed. So lines 1 to 9 have 27, lines 10 to 16 have
    /// 28, and 9 * 27 + 7 * 28 = 243 + 196 = 439.
    fn longest(sheet: &str, letter: char) {
        assert_eq!((sheet.lines().count(), sheet.len()), (16, 439));
        let lines = (1..=16).map(|number| format!("{letter},{number},18446744073709551615,K\n"));
        assert_eq!(sheet, lines.collect::<String>());
    }

    #[test]
    fn the_longest_sheet() {
        let reading = u64::MAX;
        let ticks = CTicks {
            ticks: [CTick { reading, how: 2 }; MAX_TICKS],
            len: MAX_TICKS,
        };
        let (dsp, pi) = (ffi::wigtalom_dsp_new().seq, ffi::wigtalom_pi_new().seq);
        let avr = ffi::wigtalom_avr_new_for(DeviceModel::MEVO).seq;
        let (dsp, avr) = (CDsp { ticks, ..dsp }, CAvr { ticks, ..avr });
        let pi = CPi { ticks, ..pi };
        longest(&whole(dsp, ffi::dsp_sheet), 'D');
        longest(&whole(avr, ffi::avr_sheet), 'A');
        longest(&whole(pi, ffi::pi_sheet), 'P');
        let some = true;
        let (avr, pi) = (
            COptionAvr { some, value: avr },
            COptionPi { some, value: pi },
        );
        let session = CSession { dsp, avr, pi };
        longest(&whole((session, 0), ffi::session_sheet), 'D');
        longest(&whole((session, 1), ffi::session_sheet), 'A');
        longest(&whole((session, 2), ffi::session_sheet), 'P');
    }

    /// As README.md tells a host.
    #[test]
    fn what_holds_any_sheet() {
        assert_eq!(ROOM, 448);
    }
}
