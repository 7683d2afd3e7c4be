//! The numbers with which a call is declined, from docs/SCOPE.md,
//! "Refusals" and "Sheet".

use std::collections::HashSet;

/// The most bytes of a text or a payload.
pub const LONGEST: usize = 256;

/// The last clock reading that is accepted.
pub const LAST_READING: u64 = 18_446_744_071_709_551_615;

/// The lowest number that applies to a feed with these bytes.
pub fn of_bytes(text: &[u8], payload: &[u8]) -> Option<u8> {
    if text.len() > LONGEST {
        Some(1)
    } else if payload.len() > LONGEST {
        Some(2)
    } else {
        None
    }
}

/// The lowest number that applies to a reading.
pub fn of_reading(now: u64, last: u64) -> Option<u8> {
    if now > LAST_READING {
        Some(3)
    } else if now < last {
        Some(11)
    } else {
        None
    }
}

/// A result asked for before Done.
pub const NOT_DONE: u8 = 12;

/// The most parameters of a settings list.
pub const MOST_PARAMS: usize = 32;

/// The lowest number that applies to a settings list whose parameters have
/// these ids: there are too many, or one id occurs twice.
pub fn of_settings(ids: impl ExactSizeIterator<Item = u8>) -> Option<u8> {
    let params = ids.len();
    if params > MOST_PARAMS {
        return Some(4);
    }
    let different: HashSet<u8> = ids.collect();
    (different.len() < params).then_some(6)
}

/// A sheet asked for where the part of the buffer is shorter, or the place
/// past the buffer's end.
pub const PART_TOO_SHORT: u8 = 5;

/// The most nacks that an arm counts.
pub const MOST_RETRIES: u16 = 65_535;

/// The number of a nack that an arm with so many would count.
pub fn of_counted_nack(retries: u16) -> Option<u8> {
    (retries == MOST_RETRIES).then_some(13)
}
