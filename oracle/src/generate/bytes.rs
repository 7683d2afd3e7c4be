//! Texts and payloads, and how they are written.

use super::random::Random;
use crate::model::{RIG_TAG, has};
use crate::protocol::handshake::DeviceModel;

/// Lengths at the limit of 256 bytes, and short ones.
pub fn length(random: &mut Random) -> usize {
    match random.below(100) {
        0..30 => 0,
        30..36 => 1,
        36..39 => 255,
        39..42 => 256,
        42 => 257,
        43 if random.chance(30) => 258 + random.index(400),
        _ => 2 + random.index(30),
    }
}

/// A text of so many bytes, in UTF-8.
pub fn text(random: &mut Random, length: usize) -> Vec<u8> {
    let mut text = String::new();
    while text.len() < length {
        let next = character(random);
        if text.len() + next.len_utf8() <= length {
            text.push(next);
        }
    }
    text.into_bytes()
}

fn character(random: &mut Random) -> char {
    match random.below(40) {
        0 => random.pick(&['é', 'µ', '€', '→', '𝛼', '\u{7FF}', '\u{FFFD}', '\u{10FFFF}']),
        1 => random.pick(&['\0', '\t', '\n', '\r', '\x1B', '\x1F', '\x7F']),
        2 => random.pick(&['"', '\\', '#', '=', ' ']),
        _ => char::from(0x20 + random.below(0x5F) as u8),
    }
}

pub fn payload(random: &mut Random, length: usize) -> Vec<u8> {
    let bytes = match random.chance(30) {
        true => text(random, length),
        false => (0..length).map(|_| random.byte()).collect(),
    };
    without_the_rig(bytes)
}

/// The Rust has no rig, so no payload names one.
fn without_the_rig(mut bytes: Vec<u8>) -> Vec<u8> {
    while has(&bytes, RIG_TAG) {
        let tag = bytes.windows(RIG_TAG.len()).position(|b| b == RIG_TAG);
        bytes[tag.expect("it has one")] = b'b';
    }
    bytes
}

/// A device-info payload that names the model, or doesn't quite. It almost
/// names a rig, too.
pub fn device_info(random: &mut Random, model: DeviceModel) -> Vec<u8> {
    let tag: &[u8] = match model {
        DeviceModel::Xi => random.pick(&[
            &b"FS Xi"[..],
            b"FS XiFS Xi",
            b"FFS Xi",
            b"FS FS Xi",
            b"FSFS Xii",
            b"BAY RIFS Xi",
        ]),
        _ => random.pick(&[
            &b"FS X"[..],
            b"FS xi",
            b"fs Xi",
            b"FS XI",
            b"FS  Xi",
            b"FS\0Xi",
            b"FS XFS X",
            b"S Xi",
            b"FS M2",
            b"BAY RI",
            b"BAYRIG",
            b"bay rig",
            b"BAY RIFS X",
            b"",
        ]),
    };
    let room = length(random).min(256).saturating_sub(tag.len());
    let before = match random.below(4) {
        0 => 0,
        1 => room,
        _ => random.index(room + 1),
    };
    let mut bytes = payload(random, before);
    bytes.extend(tag);
    bytes.extend(payload(random, room - before));
    without_the_rig(bytes)
}

/// A payload with a rig's tag put in: at its start, at its end or anywhere,
/// and now and then once more. What stood there goes on behind it, so another
/// tag may come apart.
pub fn with_rig(random: &mut Random, mut payload: Vec<u8>) -> Vec<u8> {
    for _ in 0..random.pick(&[1, 1, 2]) {
        let at = match random.below(4) {
            0 => 0,
            1 => payload.len(),
            _ => random.index(payload.len() + 1),
        };
        payload.splice(at..at, RIG_TAG.iter().copied());
    }
    payload.truncate(256);
    payload
}

/// A text with a needle: alone, at its start, in its middle, at its end or
/// twice.
pub fn with_needle(random: &mut Random, needle: &str) -> Vec<u8> {
    let length = match random.below(12) {
        0 => 0,
        1 => 255,
        2 => 256,
        3 => 257,
        _ => length(random),
    };
    let room = length.saturating_sub(needle.len());
    let before = match random.below(4) {
        0 => 0,
        1 => random.index(room + 1),
        _ => room,
    };
    let mut bytes = text(random, before);
    bytes.extend(needle.as_bytes());
    let mut after = text(random, room - before);
    if random.chance(10) && after.len() < 200 {
        after.extend(needle.as_bytes());
    }
    bytes.extend(after);
    bytes
}

/// A text with one needle before another, which it may end with.
pub fn with_both(random: &mut Random, first: &str, second: &str) -> Vec<u8> {
    let length = random.pick(&[40, 60, 256]);
    let room = length - first.len() - second.len();
    let (start, end) = (random.pick(&[0, 3]), random.pick(&[0, 3]));
    let mut bytes = text(random, start);
    bytes.extend(first.as_bytes());
    bytes.extend(text(random, room - start - end));
    bytes.extend(second.as_bytes());
    bytes.extend(text(random, end));
    bytes
}

/// A network text: some texts with zero bytes between them, which may be
/// empty.
pub fn network(random: &mut Random) -> Vec<u8> {
    let (length, zeros) = (length(random), random.pick(&[0, 0, 1, 1, 2, 3]));
    let room = length.saturating_sub(zeros);
    let mut cuts = vec![room];
    for _ in 0..zeros {
        let inside = random.index(room + 1);
        cuts.push(random.pick(&[0, room, inside, inside]));
    }
    cuts.sort();
    let (mut bytes, mut from) = (Vec::new(), 0);
    for (i, cut) in cuts.into_iter().enumerate() {
        if i > 0 {
            bytes.push(0);
        }
        bytes.extend(without_zeros(text(random, cut - from)));
        from = cut;
    }
    bytes
}

fn without_zeros(mut text: Vec<u8>) -> Vec<u8> {
    for b in text.iter_mut().filter(|b| **b == 0) {
        *b = b'0';
    }
    text
}

/// Writes bytes as digits or as a text.
pub fn written(random: &mut Random, bytes: &[u8]) -> String {
    if random.chance(40) {
        let upper = random.chance(50);
        return bytes.iter().map(|&b| digits(b, upper)).collect();
    }
    let raw = std::str::from_utf8(bytes).is_ok();
    let mut out = String::from('"');
    for (i, &b) in bytes.iter().enumerate() {
        match b {
            b'"' | b'\\' => out.extend(['\\', char::from(b)]),
            0x20..=0x7E if !random.chance(1) => out.push(char::from(b)),
            0x7F.. if raw => out.extend(character_at(bytes, i)),
            _ => {
                let upper = random.chance(50);
                out += &format!("\\x{}", digits(b, upper));
            }
        }
    }
    out.push('"');
    out
}

fn digits(byte: u8, upper: bool) -> String {
    if upper {
        format!("{byte:02X}")
    } else {
        format!("{byte:02x}")
    }
}

/// The character that begins here, if one does.
fn character_at(bytes: &[u8], at: usize) -> Option<char> {
    let rest = std::str::from_utf8(&bytes[at..]).ok()?;
    rest.chars().next()
}
