//! The differential run: the calls of `oracle/compare` through the Rust and
//! through the library, with floats as numbers. After each call the outcome,
//! the send and the whole state are compared, and the result at the end of a
//! sequence and where it is asked for; floats by their bits. The place of the
//! tag in a DSP's result, which the Rust hasn't, is compared with one that is
//! found here in the payload. The sheet of a start-up, which the Rust hasn't,
//! is compared after each call with what the oracle keeps by the Rust's steps,
//! and where a place is given the whole buffer. Bytes that are lent to a kind
//! without a place for them are left out on both sides. A run of an arm ends
//! before a text on which the rules differ. A session, which the Rust hasn't,
//! is compared with one over the Rust's three start-ups (bridge/session.rs).
//!
//! WIGTALOM_CALLS says how many calls of each sequence, and of sessions,
//! WIGTALOM_SEED from which seed.

mod bridge;

use std::collections::BTreeMap;
use std::env;
use std::io::{self, Write};

use bridge::fields::{Fields, Value};
use bridge::pair::place;
use bridge::run::{Counts, run};
use bridge::rust::DeviceModel;
use bridge::session;
use oracle::compare::LONG_ARM_CALLS;
use oracle::list::Which;

const CALLS: u64 = 1_000_000;
const SEED: u64 = 1;

/// A number from the environment.
fn given(name: &str, otherwise: u64) -> u64 {
    match env::var(name) {
        Ok(text) => text.parse().unwrap_or_else(|_| panic!("{name}: {text}")),
        Err(_) => otherwise,
    }
}

fn compare(which: Which) {
    let (calls, seed) = (given("WIGTALOM_CALLS", CALLS), given("WIGTALOM_SEED", SEED));
    match run(which, calls, seed, |_| {}) {
        Ok(counts) => {
            print(which, seed, &counts);
            if calls >= LONG_ARM_CALLS {
                nothing_missing(which, &counts[place(which)]);
            }
        }
        Err(difference) => panic!(
            "WIGTALOM_SEED={seed} WIGTALOM_CALLS={calls}, {}: a difference\n{difference}",
            which.word()
        ),
    }
}

/// Each refusal was met, NaNs wherever floats are stored, each way in which
/// entries are ticked, and runs of an arm that were cut.
fn nothing_missing(which: Which, counts: &Counts) {
    let (refused, floats): (&[u8], bool) = match which {
        Which::Dsp => (&[1, 2, 3, 5, 11, 12], false),
        Which::Avr => (&[1, 2, 3, 5, 11, 12], true),
        Which::Pi => (&[1, 2, 5, 12], true),
        Which::AvrConfig => (&[1, 2, 4, 6], true),
        Which::Disarm => (&[1, 2], false),
        Which::Arm => (&[1, 2, 13], false),
        Which::Session => unreachable!("no sequence"),
    };
    assert!(counts.refused.keys().eq(refused));
    let [given, answered, stored] = counts.nans;
    assert!(given > 0 && (answered > 0) == floats && (stored > 0) == floats);
    let ticked = match which {
        Which::Dsp => [true, true, true],
        Which::Avr => [true, false, true],
        Which::Pi => [true, false, false],
        _ => [false; 3],
    };
    assert_eq!(counts.ticked.map(|count| count > 0), ticked);
    assert_eq!(counts.cut > 0, which == Which::Arm);
}

/// Past the test harness, which would keep it back.
fn print(which: Which, seed: u64, counts: &[Counts; 6]) {
    let mut text = format!("\nlists of {}, seed {seed}: no difference\n", which.word());
    for (which, counts) in Which::ALL.iter().zip(counts).filter(|(_, c)| c.calls > 0) {
        let (word, [given, answered, stored]) = (which.word(), counts.nans);
        let (calls, complete) = (counts.calls, counts.complete);
        text += &format!("  {word:<10} {calls:>8} calls, {complete:>6} sequences to the end; ");
        if which.is_start_up() {
            let [replies, nacks, checks] = counts.ticked;
            text += &format!("ticked by replies {replies}, nacks {nacks}, checks {checks}; ");
        }
        if *which == Which::Arm {
            text += &format!("{} cut where the rules differ; ", counts.cut);
        }
        text += &format!("NaNs: {given} handed in, {answered} compared in answers, ");
        text += &format!("{stored} in states; refused: {}\n", told(&counts.refused));
    }
    let _ = io::stdout().write_all(text.as_bytes());
}

/// How many calls were refused with which number.
fn told(refused: &BTreeMap<u8, u64>) -> String {
    let told = |(number, count): (&u8, &u64)| format!("{count} with {number}");
    let told: Vec<String> = refused.iter().map(told).collect();
    match told.is_empty() {
        true => "none".into(),
        false => told.join(", "),
    }
}

#[test]
fn dsp() {
    compare(Which::Dsp);
}

#[test]
fn avr() {
    compare(Which::Avr);
}

#[test]
fn pi() {
    compare(Which::Pi);
}

#[test]
fn avr_config() {
    compare(Which::AvrConfig);
}

#[test]
fn disarm() {
    compare(Which::Disarm);
}

#[test]
fn arm() {
    compare(Which::Arm);
}

/// Half of the calls in sessions that lean towards each model.
#[test]
fn sessions() {
    let (calls, seed) = (given("WIGTALOM_CALLS", CALLS), given("WIGTALOM_SEED", SEED));
    for model in [DeviceModel::Mevo, DeviceModel::Xi] {
        let met = session::run(model, calls.div_ceil(2), seed, |_| {});
        let met = met.unwrap_or_else(|difference| {
            panic!("WIGTALOM_SEED={seed} WIGTALOM_CALLS={calls}, sessions: {difference}")
        });
        let (label, [fed, checked]) = (model.label(), met.dsps);
        let text = format!(
            "\nsessions of a {label}, seed {seed}: no difference\n  {} calls, {} sessions to \
             the end; DSPs ended by feeds {fed}, by checks {checked}; {} calls with two sends; \
             refused: {}\n",
            met.calls,
            met.complete,
            met.two_sends,
            told(&met.refused)
        );
        let _ = io::stdout().write_all(text.as_bytes());
        if calls >= LONG_ARM_CALLS {
            assert!(met.refused.keys().eq(&[1, 2, 3, 5, 11, 12]));
            assert!(fed > 0 && checked > 0 && met.two_sends > 0 && met.complete > 0);
        }
    }
}

/// Flips a bit of this field, where it is a NaN.
fn flip(fields: &mut Fields, field: &str, bit: u32) {
    for (name, value) in &mut fields.list {
        match value {
            Value::Number(bits) if *name == field && f64::from_bits(*bits).is_nan() => {
                *bits ^= 1 << bit;
            }
            _ => {}
        }
    }
}

/// A run with altered answers must tell a difference in this field.
fn must_differ(which: Which, alter: fn(&mut Fields), field: &str) {
    match run(which, 100_000, SEED, alter) {
        Ok(_) => panic!("{}: not noticed", which.word()),
        Err(difference) => {
            let named = format!("(\"{field}\", ");
            assert!(difference.contains(&named), "{difference}");
        }
    }
}

#[test]
fn a_flipped_bit_of_a_nan_is_noticed() {
    must_differ(Which::Avr, |f| flip(f, "temperature", 51), "temperature");
    must_differ(Which::Avr, |f| flip(f, "roll", 0), "roll");
    let camera = "raw_shutter_speed_max";
    must_differ(Which::Pi, |f| flip(f, "raw_shutter_speed_max", 63), camera);
    must_differ(Which::AvrConfig, |f| flip(f, "Float40", 0), "Float40");
}

#[test]
fn a_wrong_fact_of_a_model_is_noticed() {
    fn wrong(fields: &mut Fields, fact: &str) {
        for (name, value) in &mut fields.list {
            match value {
                Value::Number(has) if *name == fact => *has ^= 1,
                _ => {}
            }
        }
    }
    for which in [Which::Dsp, Which::Avr] {
        must_differ(which, |f| wrong(f, "camera"), "camera");
        must_differ(which, |f| wrong(f, "factory_cal"), "factory_cal");
        must_differ(which, |f| wrong(f, "power_mode"), "power_mode");
    }
}

#[test]
fn a_wrong_place_of_a_tag_is_noticed() {
    fn wrong(fields: &mut Fields, alter: fn(u64) -> u64) {
        for (name, value) in &mut fields.list {
            match value {
                Value::Number(number) if *name == "tag_place" => *number = alter(*number),
                _ => {}
            }
        }
    }
    // 0 or 1 tells whether there is one, and then comes the place.
    let from_one = |f: &mut Fields| wrong(f, |n| if n > 1 { n + 1 } else { n });
    must_differ(Which::Dsp, from_one, "tag_place");
    let lost = |f: &mut Fields| wrong(f, |n| if n == 1 { 0 } else { n });
    must_differ(Which::Dsp, lost, "tag_place");
    let made_up = |f: &mut Fields| wrong(f, |n| if n == 0 { 1 } else { n });
    must_differ(Which::Dsp, made_up, "tag_place");
}

#[test]
fn a_wrong_sheet_is_noticed() {
    fn wrong(fields: &mut Fields, field: &str, from: &[u8], to: &[u8]) {
        for (name, value) in &mut fields.list {
            match value {
                Value::Bytes(bytes) if *name == field => {
                    let at = bytes.windows(from.len()).position(|w| w == from);
                    let part = at.and_then(|at| bytes.get_mut(at..at + to.len()));
                    part.into_iter().for_each(|w| w.copy_from_slice(to));
                }
                _ => {}
            }
        }
    }
    must_differ(Which::Dsp, |f| wrong(f, "sheet", b"K\n", b"N\n"), "sheet");
    must_differ(Which::Dsp, |f| wrong(f, "sheet", b"N\n", b"R\n"), "sheet");
    must_differ(Which::Avr, |f| wrong(f, "sheet", b"A,8", b"A,9"), "sheet");
    must_differ(Which::Pi, |f| wrong(f, "sheet", b",0,", b",1,"), "sheet");
    must_differ(Which::Dsp, |f| wrong(f, "ticks", b"N", b"R"), "ticks");
    must_differ(Which::Avr, |f| wrong(f, "ticks", b"K", b"R"), "ticks");
    must_differ(Which::Pi, |f| wrong(f, "ticks", b"0R", b"1R"), "ticks");
    for which in Which::START_UPS {
        // A byte outside of it.
        must_differ(which, |f| wrong(f, "buffer", b".", b" "), "buffer");
    }
    let too_many = |f: &mut Fields| {
        for (name, value) in &mut f.list {
            match value {
                Value::Number(count) if *name == "wrote" => *count += 1,
                _ => {}
            }
        }
    };
    must_differ(Which::Avr, too_many, "wrote");
}

#[test]
fn a_lost_send_and_a_wrong_number_are_noticed() {
    let lost = |f: &mut Fields| f.list.retain(|(name, _)| *name != "command");
    must_differ(Which::Arm, lost, "command");
    fn wrong(fields: &mut Fields, from: u64, to: u64) {
        for (name, value) in &mut fields.list {
            if *name == "refused" && *value == Value::Number(from) {
                *value = Value::Number(to);
            }
        }
    }
    must_differ(Which::Dsp, |f| wrong(f, 11, 3), "refused");
    must_differ(Which::AvrConfig, |f| wrong(f, 6, 4), "refused");
    must_differ(Which::AvrConfig, |f| wrong(f, 6, 0), "refused");
}

/// A session with altered answers must tell a difference in this field.
fn session_must_differ(alter: fn(&mut Fields), field: &str) {
    match session::run(DeviceModel::Mevo, 20_000, SEED, alter) {
        Ok(_) => panic!("not noticed"),
        Err(difference) => {
            let named = format!("(\"{field}\", ");
            assert!(difference.contains(&named), "{difference}");
        }
    }
}

#[test]
fn a_wrong_session_is_noticed() {
    let turned = |f: &mut Fields| {
        let is_dest = |(_, (name, _)): &(usize, &(&str, Value))| *name == "dest";
        let dests: Vec<usize> = f
            .list
            .iter()
            .enumerate()
            .filter(is_dest)
            .map(|(i, _)| i)
            .collect();
        if let [one, other] = dests[..] {
            f.list.swap(one, other);
        }
    };
    session_must_differ(turned, "dest");
    let done_too_early = |f: &mut Fields| {
        for (name, value) in &mut f.list {
            if *name == "refused" && *value == Value::Number(12) {
                *value = Value::Number(0);
            }
        }
    };
    session_must_differ(done_too_early, "refused");
    fn lost(fields: &mut Fields, letter: &str) {
        for (name, value) in &mut fields.list {
            match value {
                Value::Bytes(bytes) if *name == "sheet" && bytes.starts_with(letter.as_bytes()) => {
                    bytes.clear();
                }
                _ => {}
            }
        }
    }
    session_must_differ(|f| lost(f, "D"), "sheet");
    session_must_differ(|f| lost(f, "A"), "sheet");
    session_must_differ(|f| lost(f, "P"), "sheet");
}
