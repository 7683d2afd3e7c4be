//! Where a text has what a disarm or an arm looks for, its needle.

use super::tables::Event;
use crate::protocol::Message;

// The places of a needle.
pub const ALONE: &str = "needle alone";
pub const START: &str = "needle at the start";
pub const MIDDLE: &str = "needle in the middle";
pub const END: &str = "needle at the end";
pub const TWICE: &str = "needle twice";
// At the end of a text of a length near the limit.
pub const END_255: &str = "needle at the end of 255 bytes";
pub const END_256: &str = "needle at the end of 256 bytes";
pub const END_257: &str = "needle at the end of 257 bytes";
// Not there, but almost.
pub const CUT_SHORT: &str = "needle cut short";
pub const LOWER_CASE: &str = "needle in lower case";
pub const OTHER_KIND: &str = "needle lent to another kind";

pub fn has(text: &[u8], needle: &str) -> bool {
    count(text, needle) > 0
}

fn count(text: &[u8], needle: &str) -> usize {
    let needle = needle.as_bytes();
    text.windows(needle.len()).filter(|w| *w == needle).count()
}

/// What is counted of a text that was fed at a step with a needle.
pub fn answers(event: &Event, needle: &str) -> Vec<&'static str> {
    let Some(feed) = event.feed() else {
        return Vec::new();
    };
    let text = &feed.text;
    match feed.message {
        Message::Text(_) if event.outcome() == "refused 1" => too_long(text, needle),
        Message::Text(_) if event.moved() => places(text, needle),
        Message::Text(_) if !has(text, needle) => almost(text, needle),
        Message::Text(_) => Vec::new(),
        _ if event.accepted() && has(text, needle) => vec![OTHER_KIND],
        _ => Vec::new(),
    }
}

/// Where a needle stands that is there.
fn places(text: &[u8], needle: &str) -> Vec<&'static str> {
    let starts = text.starts_with(needle.as_bytes());
    let ends = text.ends_with(needle.as_bytes());
    let mut places = vec![match (count(text, needle), starts, ends) {
        (2.., _, _) => TWICE,
        (_, true, true) => ALONE,
        (_, true, false) => START,
        (_, false, true) => END,
        (_, false, false) => MIDDLE,
    }];
    places.extend(match text.len() {
        255 if ends => Some(END_255),
        256 if ends => Some(END_256),
        _ => None,
    });
    places
}

/// Whether a text that is too long by one has the needle at its end.
fn too_long(text: &[u8], needle: &str) -> Vec<&'static str> {
    let ends = text.len() == 257 && text.ends_with(needle.as_bytes());
    if ends { vec![END_257] } else { Vec::new() }
}

/// What a text has in place of a needle.
fn almost(text: &[u8], needle: &str) -> Vec<&'static str> {
    let without_last = &needle[..needle.len() - 1];
    let mut found = Vec::new();
    if has(text, &needle[1..]) || has(text, without_last) {
        found.push(CUT_SHORT);
    }
    if has(text, &needle.to_lowercase()) {
        found.push(LOWER_CASE);
    }
    found
}
