//! What is counted of the results of a DSP: where the tag stands that decided
//! the model, and what else stands in the payload.

use super::tables::Event;
use crate::list::{Call, Which};
use crate::model::{RIG_TAG, XI_TAG};
use crate::show;

const XI: &str = "place of FS Xi";
const XI_AT_0: &str = "place of FS Xi, 0";
const XI_TWICE: &str = "place of FS Xi, twice there";
const XI_FIRST: &str = "place of FS Xi, before BAY RIG";
const RIG_FIRST: &str = "place of FS Xi, behind BAY RIG";
const RIG: &str = "place of BAY RIG";
const RIG_AT_0: &str = "place of BAY RIG, 0";
const RIG_TWICE: &str = "place of BAY RIG, twice there";
const NONE: &str = "no place";

const ANSWERS: [&str; 9] = [
    XI, XI_AT_0, XI_TWICE, XI_FIRST, RIG_FIRST, RIG, RIG_AT_0, RIG_TWICE, NONE,
];

pub fn names(which: Which) -> &'static [&'static str] {
    if which == Which::Dsp { &ANSWERS } else { &[] }
}

/// Those that only lists with a rig's tag meet.
pub const OF_RIGS: [&str; 5] = [XI_FIRST, RIG_FIRST, RIG, RIG_AT_0, RIG_TWICE];

/// What is counted of an asking for the result.
pub fn answers(event: &Event) -> Vec<&'static str> {
    let asked = matches!(event.call, Call::Result) && event.before.which == Which::Dsp;
    if !asked || !event.accepted() {
        return Vec::new();
    }
    let (payload, place) = told(event.answer);
    let (xis, rigs) = (places(&payload, XI_TAG), places(&payload, RIG_TAG));
    let Some(place) = place else {
        assert!(xis.is_empty() && rigs.is_empty(), "{}", event.answer);
        return vec![NONE];
    };
    let of_xi = !xis.is_empty();
    let mut met = vec![if of_xi { XI } else { RIG }];
    if place == 0 {
        met.push(if of_xi { XI_AT_0 } else { RIG_AT_0 });
    }
    match (&xis[..], &rigs[..]) {
        ([xi, ..], [rig, ..]) => met.push(if xi < rig { XI_FIRST } else { RIG_FIRST }),
        ([_, _, ..], []) => met.push(XI_TWICE),
        ([], [_, _, ..]) => met.push(RIG_TWICE),
        _ => {}
    }
    met
}

/// The payload of the device info in a result, and the place that it tells.
fn told(answer: &str) -> (Vec<u8>, Option<usize>) {
    let parts = show::parts(answer);
    let mut words = parts[1].iter().copied();
    let info = words.find(|word| word.starts_with("dev_info="));
    let payload = words.next().and_then(|word| word.strip_prefix("payload="));
    let place = words.find_map(|word| word.strip_prefix("tag_place="));
    let (Some(_), Some(payload), Some(place)) = (info, payload, place) else {
        panic!("not a result of a DSP: {answer}");
    };
    (bytes(payload), place.parse().ok())
}

/// Those that stand as digits before the bar.
fn bytes(shown: &str) -> Vec<u8> {
    let digits = shown.split('|').next().unwrap_or("").as_bytes();
    let digit = |digit: u8| char::from(digit).to_digit(16).expect("a digit") as u8;
    let pairs = digits.chunks_exact(2);
    pairs
        .map(|pair| 16 * digit(pair[0]) + digit(pair[1]))
        .collect()
}

/// Every place of a tag.
fn places(payload: &[u8], tag: &[u8]) -> Vec<usize> {
    let windows = payload.windows(tag.len()).enumerate();
    let found = windows.filter(|(_, bytes)| *bytes == tag);
    found.map(|(place, _)| place).collect()
}
