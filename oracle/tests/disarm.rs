//! Disarms. The answers are written by hand from docs/SCOPE.md, "Disarm", and
//! docs/REPLAY.md.

mod common;

use common::{answers, check_pairs};

const BEGUN: (&str, &str) = ("disarm", "send Avr AvrConfigCmd arm=false; WaitAck");
const ACKED: (&str, &str) = (
    "feed 0 Avr 0x95 ConfigAck bus_addr=0x30 acked_cmd=0x30",
    "accepted; no send; WaitModeReset",
);
const MODE_ACK: &str = "feed 0 Avr 0xB1 ModeAck";
const IDLE: &str = "accepted; no send; WaitStateIdle";
const DONE: &str = "accepted; no send; Done";

fn text(src: &str, text: &str) -> String {
    format!("feed 0 {src} 0xE3 Text text=\"{text}\"")
}

#[test]
fn by_texts() {
    check_pairs(&[
        BEGUN,
        ACKED,
        (&text("Avr", "ARMED CANCELLED"), IDLE),
        (&text("Avr", "  System State 5 "), DONE),
        (MODE_ACK, DONE),
        (ACKED.0, DONE),
    ]);
}

#[test]
fn by_mode_acks() {
    check_pairs(&[BEGUN, ACKED, (MODE_ACK, IDLE), (MODE_ACK, DONE)]);
    let cancelled = text("Avr", "ARMED CANCELLED");
    check_pairs(&[BEGUN, ACKED, (&cancelled, IDLE), (MODE_ACK, DONE)]);
    let idle = text("Avr", "System State 5");
    check_pairs(&[BEGUN, ACKED, (MODE_ACK, IDLE), (&idle, DONE)]);
}

/// A source test on the later steps would be a misreading.
#[test]
fn later_steps_from_any_source() {
    for src in ["App", "Pi", "Avr", "Dsp"] {
        let cancelled = text(src, "ARMED CANCELLED");
        let idle = text(src, "System State");
        check_pairs(&[BEGUN, ACKED, (&cancelled, IDLE), (&idle, DONE)]);
        let mode_ack = MODE_ACK.replace("Avr", src);
        check_pairs(&[BEGUN, ACKED, (&mode_ack, IDLE), (&mode_ack, DONE)]);
    }
}

/// At the first step there is one.
#[test]
fn the_first_step() {
    let waits = "accepted; no send; WaitAck";
    let any_ack = "feed 9 Avr 1 ConfigAck bus_addr=7 acked_cmd=0xFF";
    check_pairs(&[
        BEGUN,
        (&ACKED.0.replace("Avr", "Dsp"), waits),
        (&ACKED.0.replace("Avr", "Pi"), waits),
        (&ACKED.0.replace("Avr", "App"), waits),
        (&ACKED.0.replace("ConfigAck", "ConfigNack"), waits),
        (MODE_ACK, waits),
        (&text("Avr", "ARMED CANCELLED"), waits),
        (&text("Avr", "System State"), waits),
        (any_ack, "accepted; no send; WaitModeReset"),
    ]);
}

/// Whether a text ticks the entry after these lines.
fn ticks(before: &[&str], bytes: &str) -> bool {
    let feed = format!("feed 0 Dsp 0xE3 Text text={bytes}");
    let mut list = before.to_vec();
    list.push(&feed);
    let answers = answers(&list.join("\n"), false);
    let steps: Vec<&str> = answers
        .lines()
        .filter_map(|l| l.split("; ").last())
        .collect();
    steps[steps.len() - 1] != steps[steps.len() - 2]
}

/// What stands before "ARMED" is nothing to a disarm.
#[test]
fn texts_of_the_second_step() {
    let ticks = |text: &str| ticks(&["disarm", ACKED.0], text);
    for text in [
        "\"ARMED CANCELLED\"",
        "\"ARMED CANCELLED.\"",
        "\"x ARMED CANCELLED\"",
        "\"x ARMED CANCELLED x\"",
        "\"DISARMED CANCELLED\"",
        "\"ZARMED CANCELLED\"",
        "\"ARMED ARMED CANCELLED\"",
        "\"ARMED CANCELLED ARMED CANCELLED\"",
        "\"é\\x00ARMED CANCELLED\"",
    ] {
        assert!(ticks(text), "{text}");
    }
    for text in [
        "",
        "\"ARMED\"",
        "\"CANCELLED\"",
        "\"ARMED CANCELLE\"",
        "\"RMED CANCELLED\"",
        "\"armed cancelled\"",
        "\"Armed Cancelled\"",
        "\"ARMED  CANCELLED\"",
        "\"ARMEDCANCELLED\"",
        "\"ARMED\\x00CANCELLED\"",
        "\"ARMED x CANCELLED\"",
        "\"CANCELLED ARMED\"",
        "\"System State\"",
    ] {
        assert!(!ticks(text), "{text}");
    }
}

#[test]
fn texts_of_the_third_step() {
    let ticks = |text: &str| ticks(&["disarm", ACKED.0, MODE_ACK], text);
    for text in [
        "\"System State\"",
        "\"a System State b\"",
        "\"System States\"",
    ] {
        assert!(ticks(text), "{text}");
    }
    for text in [
        "",
        "\"System Stat\"",
        "\"ystem State\"",
        "\"system state\"",
        "\"SYSTEM STATE\"",
        "\"SystemState\"",
        "\"State System\"",
        "\"ARMED CANCELLED\"",
    ] {
        assert!(!ticks(text), "{text}");
    }
}

/// The text is lent to a kind that has none, or has another.
#[test]
fn other_kinds() {
    let waits = "accepted; no send; WaitModeReset";
    let lent = |kind: &str| format!("feed 0 Avr 1 {kind} text=\"ARMED CANCELLED\"");
    check_pairs(&[
        BEGUN,
        ACKED,
        (&lent("Other"), waits),
        (&lent("ProdInfoResp"), waits),
        (&lent("DevInfoResp"), waits),
        (&lent("PiStatus"), waits),
        (ACKED.0, waits),
        ("feed 0 Avr 1 Text payload=\"ARMED CANCELLED\"", waits),
        (&lent("Text"), IDLE),
    ]);
}

/// It has no clock: readings may fall, and have no limit.
#[test]
fn refusals() {
    let padded = |length: usize| format!("{}ARMED CANCELLED", "a".repeat(length - 15));
    let refused = |number: u8| format!("refused {number}; no send; WaitModeReset");
    let feed = |now: u64, text: &str, payload: usize| {
        let payload = "62".repeat(payload);
        format!("feed {now} Pi 1 Text text=\"{text}\" payload={payload}")
    };
    let not_a_call = "bad line at column 1: not a call of this sequence";
    check_pairs(&[
        BEGUN,
        ACKED,
        (&feed(u64::MAX, &padded(257), 257), &refused(1)),
        (&feed(u64::MAX, &padded(257), 0), &refused(1)),
        (&feed(u64::MAX, &padded(256), 257), &refused(2)),
        (&feed(u64::MAX, &padded(256), 256), IDLE),
        ("feed 0 Pi 1 Other", IDLE),
        ("check 1", not_a_call),
        ("result", not_a_call),
        ("take", not_a_call),
        ("retries", not_a_call),
    ]);
}

/// Its step is all it has.
#[test]
fn states() {
    let list = ["disarm", ACKED.0, "feed 0 Avr 1 Other", "keepalive Xi"].join("\n");
    let expected = [
        "1: send Avr AvrConfigCmd arm=false; WaitAck; state",
        "2: accepted; ticked 1; no send; WaitModeReset; state",
        "3: accepted; no send; WaitModeReset; state",
        "4: send Dsp StatusPoll pi_mode=false; send Avr StatusPoll pi_mode=false; no send",
    ];
    assert_eq!(answers(&list, true).lines().collect::<Vec<_>>(), expected);
}
