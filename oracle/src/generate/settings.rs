//! Lines that begin a settings run.

use super::kinds::{self, Kind, Type, kind};
use super::random::Random;
use crate::refusal::{self, MOST_PARAMS};

/// The fields of each word, those of `avr_config` with one parameter. They
/// have no type id.
pub const BEGINS: [Kind; 4] = [
    kind(
        "avr_config",
        0,
        &[
            ("mode", Type::U8),
            ("param_id", Type::U8),
            ("int24", Type::I32),
            ("range_mm", Type::U16),
            ("height_mm", Type::U8),
        ],
    ),
    kind(
        "avr_config",
        0,
        &[
            ("mode", Type::U8),
            ("param_id", Type::U8),
            ("float40", Type::Float),
        ],
    ),
    kind("mode_only", 0, &[("mode", Type::U8)]),
    kind("mevo_settings", 0, MEVO_SETTINGS),
];

const MEVO_SETTINGS: &[(&str, Type)] = &[
    ("mode", Type::U8),
    ("ball_type", Type::U8),
    ("track_fraction", Type::Float),
    ("tee_height_m", Type::Float),
    ("range_mm", Type::U16),
    ("height_mm", Type::U8),
];

/// The words, and how many parameters the run has.
pub fn words(random: &mut Random) -> (Vec<String>, u64) {
    match random.below(8) {
        0 => (
            kinds::words(random, kinds::find_in(&BEGINS, "mode_only")),
            0,
        ),
        1 => (mevo(random), 3),
        _ => given(random),
    }
}

fn mevo(random: &mut Random) -> Vec<String> {
    let mut words = kinds::words(random, kinds::find_in(&BEGINS, "mevo_settings"));
    words[3] = format!("track_fraction={}", float(random));
    words[4] = format!("tee_height_m={}", float(random));
    words
}

/// A parameter before it is written.
struct Param {
    id: u8,
    value: String,
}

fn given(random: &mut Random) -> (Vec<String>, u64) {
    let params = params(random);
    let mut words = vec!["avr_config".to_string(), field(random, "mode", Type::U8)];
    for Param { id, value } in &params {
        words.push(format!("param_id={}", kinds::number(random, *id)));
        words.push(value.clone());
    }
    if random.chance(50) {
        words.push(field(random, "range_mm", Type::U16));
        words.push(field(random, "height_mm", Type::U8));
    }
    let refused = refusal::of_settings(params.iter().map(|param| param.id)).is_some();
    (words, if refused { 0 } else { params.len() as u64 })
}

/// Each with an id of its own, as a rule.
fn params(random: &mut Random) -> Vec<Param> {
    let mut params = Vec::new();
    for _ in 0..count(random) {
        let (id, value) = (other_id(random, &params), value(random));
        params.push(Param { id, value });
    }
    let percent = match params.len() {
        0 | 1 => 0,
        2 => 5,
        3..=MOST_PARAMS => 20,
        _ => 50,
    };
    if random.chance(percent) {
        repeat(random, &mut params);
        if random.chance(25) {
            repeat(random, &mut params);
        }
    }
    params
}

/// An id that none of these has.
fn other_id(random: &mut Random, params: &[Param]) -> u8 {
    loop {
        let id = match random.chance(20) {
            true => random.pick(&[0, 1, 0xFE, 0xFF]),
            false => random.byte(),
        };
        if params.iter().all(|param| param.id != id) {
            return id;
        }
    }
}

/// Gives two places the same id, now and then 0: with the same value, with
/// another, or with one of the other kind.
fn repeat(random: &mut Random, params: &mut [Param]) {
    let (one, other) = two_places(random, params.len());
    if random.chance(35) {
        params[one].id = 0;
    }
    params[other].id = params[one].id;
    let is_float = params[one].value.starts_with("float40=");
    params[other].value = match random.below(3) {
        0 => params[one].value.clone(),
        1 => value_of(random, is_float),
        _ => value_of(random, !is_float),
    };
}

/// Of a list with so many parameters: neighbours, the first and the last, or
/// two further apart. Of one that is too long both are within the first 32, or
/// the second is past them.
fn two_places(random: &mut Random, params: usize) -> (usize, usize) {
    let (start, end) = match params > MOST_PARAMS {
        true if random.chance(50) => (MOST_PARAMS, params),
        _ => (1, params.min(MOST_PARAMS)),
    };
    let kind = random.below(3);
    // only a place from the third on isn't next to the first
    let start = match kind {
        2 => start.max(2).min(end - 1),
        _ => start,
    };
    let other = start + random.index(end - start);
    match kind {
        0 => (other - 1, other),
        1 => (0, end - 1),
        _ => (random.index(other.max(2) - 1), other),
    }
}

/// How many parameters: few as a rule, and around the limit of 32.
fn count(random: &mut Random) -> u64 {
    match random.below(20) {
        0..3 => 0,
        3..6 => 1,
        6..9 => 2,
        9..13 => 3 + random.below(5),
        13 => 8 + random.below(23),
        14 => 31,
        15..17 => 32,
        17..19 => 33,
        _ => 34 + random.below(10),
    }
}

fn field(random: &mut Random, name: &str, field: Type) -> String {
    format!("{name}={}", kinds::value(random, field))
}

/// An integer or a float.
fn value(random: &mut Random) -> String {
    let is_float = random.chance(50);
    value_of(random, is_float)
}

fn value_of(random: &mut Random, is_float: bool) -> String {
    if is_float {
        return format!("float40={}", float(random));
    }
    const EDGES: [i32; 8] = [
        0, 1, -1, 8_388_607, 8_388_608, -8_388_608, -8_388_609, 16_777_215,
    ];
    match random.below(4) {
        0 => field(random, "int24", Type::I32),
        1 => format!("int24={}", random.below(100)),
        2 => format!("int24=-{}", 1 + random.below(100)),
        _ => format!("int24={}", random.pick(&EDGES)),
    }
}

/// A float of any class but NaN, of either sign.
fn float(random: &mut Random) -> String {
    let fraction = random.bits() & ((1 << 52) - 1);
    let size = match random.below(6) {
        0 => 0.0,
        1 => f64::from_bits(random.pick(&[1, fraction.max(1), (1 << 52) - 1])),
        2 => f64::INFINITY,
        3 => random.pick(&[f64::MIN_POSITIVE, f64::MAX, 0.8, 0.0381]),
        _ => f64::from_bits((1 + random.below(2046)) << 52 | fraction),
    };
    let signed = if random.chance(40) { -size } else { size };
    format!("0x{:016X}", signed.to_bits())
}
