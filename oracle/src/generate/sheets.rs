//! Sheets that are asked for, in buffers around what just holds them.

use super::kinds;
use super::random::Random;
use crate::list::MOST_LENT;

const MOST: u64 = MOST_LENT as u64;

/// The words of a call, for a sheet that has so many bytes; in a session with
/// the letter of its start-up.
pub fn words(random: &mut Random, letter: Option<char>, sheet: usize) -> Vec<String> {
    let mut words = vec!["sheet".to_string()];
    words.extend(letter.map(String::from));
    if random.chance(80) {
        let (at, length) = lent(random, sheet as u64);
        words.push(kinds::number(random, at));
        words.push(kinds::number(random, length));
    }
    words
}

/// The place and how many bytes are lent. Short buffers come often.
fn lent(random: &mut Random, sheet: u64) -> (u64, u64) {
    let most = if random.chance(70) { sheet + 40 } else { MOST };
    let at = match random.below(4) {
        0 => 0,
        1 => most - sheet,
        _ => random.below(most - sheet),
    };
    let end = at + sheet;
    match random.below(12) {
        0..3 => (at, end),
        3..5 => (at, end.saturating_sub(1)),
        5 => (at, at),
        6 => (at + 1, at),
        7 => (u64::MAX - random.below(most), random.below(most + 1)),
        8..11 => (at, end + random.below(most + 1 - end)),
        _ => (random.below(2 * most), random.below(most + 1)),
    }
}
