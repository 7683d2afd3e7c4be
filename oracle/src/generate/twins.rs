//! Lists that differ in the texts of network replies alone.

use super::bytes;
use super::random::Random;
use crate::front::{Front, without_mark};
use crate::list::{self, Call, Which};
use crate::refusal;

const KIND: &[u8] = b"NetConfigResp";
const TEXT: &[u8] = b"text=";

/// The same list with other texts in its network replies, of at most 256
/// bytes each; also in lines that can't be read, and in comments. No line
/// becomes readable by it, and none stops being so. With the number of lines
/// that changed.
pub fn twin(list: &[u8], random: &mut Random) -> (Vec<u8>, usize) {
    let (mut front, mut changed) = (Front::new(false), 0);
    let mut lines = Vec::new();
    for (place, line) in list.split(|b| *b == b'\n').enumerate() {
        let which = front.view().map(|view| view.which);
        let _ = front.line(line, &mut String::new());
        let (mark, own) = match place {
            0 => line.split_at(line.len() - without_mark(line).len()),
            _ => (&line[..0], line),
        };
        let other = other_text(own, which, random);
        changed += usize::from(other.is_some());
        lines.push([mark, &other.unwrap_or(own.to_vec())].concat());
    }
    (lines.join(&b'\n'), changed)
}

/// What a line is, as far as its text doesn't matter.
#[derive(PartialEq)]
enum Kind {
    Comment,
    Unread,
    Reply,
    /// One with a text that is too long.
    Refused,
    Other,
}

fn kind(line: &[u8], running: Option<Which>) -> Kind {
    match list::read(line, running) {
        Ok(None) => Kind::Comment,
        Err(_) => Kind::Unread,
        Ok(Some(Call::Feed(feed))) if list::is_network_reply(&feed) => {
            match feed.text.len() > refusal::LONGEST {
                true => Kind::Refused,
                false => Kind::Reply,
            }
        }
        Ok(Some(_)) => Kind::Other,
    }
}

/// The line with another text behind its first `NetConfigResp`, if that
/// leaves it what it is.
fn other_text(line: &[u8], running: Option<Which>, random: &mut Random) -> Option<Vec<u8>> {
    let own = kind(line, running);
    if matches!(own, Kind::Refused | Kind::Other) {
        return None;
    }
    let (before, old, behind) = parted(line, own == Kind::Comment)?;
    let length = bytes::length(random).min(refusal::LONGEST);
    let text = match random.chance(50) {
        true => bytes::network(random),
        false => bytes::text(random, length),
    };
    if text.len() > refusal::LONGEST {
        return None;
    }
    let mut value = [b" text=", bytes::written(random, &text).as_bytes()].concat();
    let may_lack = own != Kind::Comment && behind.first().is_none_or(|b| is_blank(*b));
    if text.is_empty() && may_lack && random.chance(30) {
        value.clear();
    }
    let other = [before, &value, behind].concat();
    (old != value && kind(&other, running) == own).then_some(other)
}

/// A line with its `NetConfigResp`, which a word ends with, the text behind
/// that, and the rest. In a comment the text is named.
fn parted(line: &[u8], named: bool) -> Option<(&[u8], &[u8], &[u8])> {
    let found = line.windows(KIND.len()).position(|w| w == KIND)?;
    let (before, rest) = line.split_at(found + KIND.len());
    if !rest.first().is_none_or(|b| is_blank(*b)) {
        return None;
    }
    let blanks = rest.iter().take_while(|b| is_blank(**b)).count();
    let Some(value) = rest[blanks..].strip_prefix(TEXT) else {
        return (!named).then_some((before, &rest[..0], rest));
    };
    let (old, behind) = rest.split_at(blanks + TEXT.len() + value_len(value));
    Some((before, old, behind))
}

fn is_blank(byte: u8) -> bool {
    matches!(byte, b' ' | b'\t')
}

/// Where a value ends: at a blank, or behind its closing quote.
fn value_len(value: &[u8]) -> usize {
    if value.first() != Some(&b'"') {
        return value.iter().take_while(|b| !is_blank(**b)).count();
    }
    let (mut at, end) = (1, value.len());
    while at < end && value[at] != b'"' {
        at += if value[at] == b'\\' { 2 } else { 1 };
    }
    (at + 1).min(end)
}
