//! The text that says that a unit is armed. The rule for it isn't the Rust's,
//! which takes any "ARMED"; it is written from docs/SCOPE.md, "Arm". A text on
//! which the two rules differ isn't handed to the Rust.

use crate::list::{Call, Feed, Which};
use crate::model::has;
use crate::protocol::Message;

const ARMED: &[u8] = b"ARMED";
const CANCELLED: &[u8] = b"CANCELLED";

/// What stands before each "ARMED" of a text; at the start nothing does.
pub fn before_each(text: &[u8]) -> Vec<Option<u8>> {
    let before = |at: usize| text[..at].last().copied();
    let places = (0..text.len()).filter(|at| text[*at..].starts_with(ARMED));
    places.map(before).collect()
}

/// Whether an "ARMED" behind this counts.
pub fn counts(before: Option<u8>) -> bool {
    !matches!(before, Some(b'A'..=b'Z'))
}

/// Whether "ARMED" stands in a text, but behind capital letters alone.
pub fn never_counts(text: &[u8]) -> bool {
    let before = before_each(text);
    !before.is_empty() && !before.into_iter().any(counts)
}

pub fn is_armed(text: &[u8]) -> bool {
    before_each(text).into_iter().any(counts) && !has(text, CANCELLED)
}

/// Whether the two rules differ on a text.
pub fn differs(text: &[u8]) -> bool {
    let is_armed_in_rust = has(text, ARMED) && !has(text, CANCELLED);
    is_armed_in_rust != is_armed(text)
}

/// Whether an arm is fed a text on which they differ; that of another kind is
/// not looked at.
pub fn differs_in(feed: &Feed) -> bool {
    matches!(feed.message, Message::Text(_)) && differs(&feed.text)
}

/// Whether a run is compared with the Rust up to this call, and no further:
/// this feeds an arm such a text.
pub fn cuts(which: Which, call: &Call) -> bool {
    match call {
        Call::Feed(feed) => which == Which::Arm && differs_in(feed),
        _ => false,
    }
}
