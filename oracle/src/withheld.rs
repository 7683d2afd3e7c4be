//! What isn't shown of a list's lines, as docs/REPLAY.md says under "What is
//! withheld": the texts of network replies.

use crate::list::{self, Bad, Call};

/// Stands for what is withheld, whatever that is.
pub const MARK: &str = "(withheld)";
/// The last line, if anything was.
pub const NOTE: &str = "withheld: ssid, password, their lengths and the texts of network replies; --secrets shows them";
/// The answer to a line whose fault would tell something of a text.
pub const FAULT: &str = "bad line: the column and the reason are withheld";

const KIND: &[u8] = b"NetConfigResp";
const TEXT: &[u8] = b"text=";

/// What is withheld of a line.
pub struct Withheld {
    /// What stands from here on.
    pub from: usize,
    /// Where reading stopped, and why.
    pub fault: bool,
}

/// Of a line that was read so, with no more bytes than are shown.
pub fn of_line(line: &[u8], read: &Result<Option<Call>, Bad>) -> Option<Withheld> {
    let kind = behind(line, KIND);
    match read {
        Ok(Some(Call::Feed(feed))) if list::is_network_reply(feed) => {
            from(kind.expect("its kind"), false)
        }
        Ok(Some(_)) => None,
        Ok(None) => {
            let kind = kind?;
            behind(&line[kind..], TEXT)?;
            from(kind, false)
        }
        Err(_) if list::names_another(line) => from(kind?, true),
        Err(bad) => {
            let places = [kind, behind(line, TEXT), behind(line, b"\"")];
            let first = places.into_iter().flatten().min()?;
            // columns count from 1
            from(first, bad.column > first)
        }
    }
}

fn from(from: usize, fault: bool) -> Option<Withheld> {
    Some(Withheld { from, fault })
}

/// The place behind the first of these bytes.
fn behind(line: &[u8], bytes: &[u8]) -> Option<usize> {
    let found = line.windows(bytes.len()).position(|w| w == bytes);
    found.map(|place| place + bytes.len())
}
