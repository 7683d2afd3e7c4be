//! Arms. The answers are written by hand from docs/SCOPE.md, "Arm", and
//! docs/REPLAY.md.

mod common;

use common::{answers, check_pairs, check_states};

const BEGUN: &str = "send Dsp StatusPoll pi_mode=false; WaitDspStatus";
const DSP_STATUS: &str = "feed 0 Dsp 0xAA DspStatus V46 state=1 version=0x46";
const AVR_STATUS: &str = "feed 0 Avr 0xAA AvrStatus version=24 state=0 hw_id_hi=1 hw_id_lo=2 \
    full_app_id=-5 temperature=0x4045000000000000 tilt=0x0000000000000000 roll=0xBFF0000000000000";
const ACK: &str = "feed 0 Avr 0x95 ConfigAck bus_addr=0x30 acked_cmd=0x30";
const NACK: &str = "feed 0 Avr 0x94 ConfigNack bus_addr=0x30 acked_cmd=0x30";
const PI_STATUS: &str = "feed 0 Pi 0xAA PiStatus payload=00";
const ARMED: &str = "feed 0 Avr 0xE3 Text text=\"ARMED DetectionMode=9\"";

const POLLED_AVR: &str = "accepted; send Avr StatusPoll pi_mode=false; WaitAvrStatus";
const ARMING: &str = "accepted; send Avr AvrConfigCmd arm=true; WaitArmAck";
const AGAIN: &str = "accepted; send Dsp StatusPoll pi_mode=false; WaitDspStatus";
const WAITS_FOR_BOTH: &str =
    "accepted; send Pi StatusPoll pi_mode=true; WaitPiAndArmed got_pi=false got_armed=false";
const WAITS_FOR_TEXT: &str = "accepted; no send; WaitPiAndArmed got_pi=true got_armed=false";
const WAITS_FOR_PI: &str = "accepted; no send; WaitPiAndArmed got_pi=false got_armed=true";
const NEITHER: &str = "accepted; no send; WaitPiAndArmed got_pi=false got_armed=false";
const DONE: &str = "accepted; no send; Done";

/// The lines up to the ack.
const XI: [(&str, &str); 4] = [
    ("arm Xi", BEGUN),
    (DSP_STATUS, POLLED_AVR),
    (AVR_STATUS, ARMING),
    (ACK, WAITS_FOR_TEXT),
];
const MEVO: [(&str, &str); 4] = [
    ("arm Mevo", BEGUN),
    (DSP_STATUS, POLLED_AVR),
    (AVR_STATUS, ARMING),
    (ACK, WAITS_FOR_BOTH),
];

#[track_caller]
fn check_after(first: &[(&str, &str)], rest: &[(&str, &str)]) {
    check_pairs(&[first, rest].concat());
}

#[test]
fn mevo_in_either_order() {
    check_after(&MEVO, &[(PI_STATUS, WAITS_FOR_TEXT), (ARMED, DONE)]);
    check_after(&MEVO, &[(ARMED, WAITS_FOR_PI), (PI_STATUS, DONE)]);
    check_after(
        &MEVO,
        &[
            (PI_STATUS, WAITS_FOR_TEXT),
            (PI_STATUS, WAITS_FOR_TEXT),
            (ARMED, DONE),
            (PI_STATUS, DONE),
            (NACK, DONE),
            ("retries", "0"),
        ],
    );
    check_after(
        &MEVO,
        &[
            (ARMED, WAITS_FOR_PI),
            (ARMED, WAITS_FOR_PI),
            (NACK, WAITS_FOR_PI),
            (PI_STATUS, DONE),
        ],
    );
}

/// Without a model it is a Mevo.
#[test]
fn without_a_model() {
    let mut first = MEVO;
    first[0].0 = "arm";
    check_after(&first, &[(ARMED, WAITS_FOR_PI), (PI_STATUS, DONE)]);
}

/// On a Xi the Pi isn't polled, and its status changes nothing.
#[test]
fn xi_by_the_text_alone() {
    check_after(&XI, &[(ARMED, DONE)]);
    check_after(&XI, &[(PI_STATUS, WAITS_FOR_TEXT), (ARMED, DONE)]);
}

/// A source test on the last step would be a misreading.
#[test]
fn the_last_step_from_any_source() {
    for src in ["App", "Pi", "Avr", "Dsp"] {
        let status = PI_STATUS.replace(" Pi 0xAA", &format!(" {src} 0xAA"));
        let text = ARMED.replace(" Avr ", &format!(" {src} "));
        check_after(&XI, &[(&text, DONE)]);
        check_after(&MEVO, &[(&status, WAITS_FOR_TEXT), (&text, DONE)]);
        check_after(&MEVO, &[(&text, WAITS_FOR_PI), (&status, DONE)]);
    }
}

#[test]
fn the_first_steps() {
    let first = "accepted; no send; WaitDspStatus";
    let second = "accepted; no send; WaitAvrStatus";
    let third = "accepted; no send; WaitArmAck";
    let v80 = "feed 0 Dsp 1 DspStatus V80 state=1 input_voltage_usb=1 system_voltage=1 \
        battery_current=1 temperature_raw=1 battery_voltage=1 battery_voltage_2=1 power_level=1 \
        external_power=true";
    check_pairs(&[
        ("arm", BEGUN),
        (&DSP_STATUS.replace("Dsp 0xAA", "Avr 0xAA"), first),
        (AVR_STATUS, first),
        (&NACK.replace("Avr", "Dsp"), first),
        (NACK, first),
        (ACK, first),
        (PI_STATUS, first),
        (ARMED, first),
        (v80, POLLED_AVR),
        (DSP_STATUS, second),
        (&AVR_STATUS.replace("Avr 0xAA", "Dsp 0xAA"), second),
        (NACK, second),
        (ACK, second),
        (AVR_STATUS, ARMING),
        (AVR_STATUS, third),
        (&ACK.replace("Avr", "Dsp"), third),
        (&ACK.replace("Avr", "Pi"), third),
        (&NACK.replace("Avr", "Dsp"), third),
        (&NACK.replace("Avr", "App"), third),
        (PI_STATUS, third),
        (ARMED, third),
        ("feed 0 Avr 0xB1 ModeAck", third),
        ("retries", "0"),
        (
            &ACK.replace("acked_cmd=0x30", "acked_cmd=0xFF"),
            WAITS_FOR_BOTH,
        ),
    ]);
}

/// Each nack of the arm goes back to the beginning.
#[test]
fn nacks() {
    let round = [(DSP_STATUS, POLLED_AVR), (AVR_STATUS, ARMING)];
    let other_nack = NACK.replace("acked_cmd=0x30", "acked_cmd=0x2A");
    let mut pairs = vec![("arm Xi", BEGUN), ("retries", "0")];
    pairs.extend(round);
    pairs.extend([
        (NACK, AGAIN),
        ("retries", "1"),
        (NACK, "accepted; no send; WaitDspStatus"),
    ]);
    pairs.extend([("retries", "1")]);
    pairs.extend(round);
    pairs.extend([(&other_nack[..], AGAIN), ("retries", "2")]);
    pairs.extend(round);
    pairs.extend([(ACK, WAITS_FOR_TEXT), (ARMED, DONE), ("retries", "2")]);
    pairs.extend([("arm", BEGUN), ("retries", "0")]);
    check_pairs(&pairs);
}

/// Whether a text ends the arm of a Xi.
fn done(bytes: &str) -> bool {
    let feed = format!("feed 0 Dsp 0xE3 Text text={bytes}");
    let lines = XI.map(|(line, _)| line).join("\n");
    answers(&format!("{lines}\n{feed}"), false).ends_with("; Done\n")
}

/// The first four of those that count are trials of docs/SCOPE.md, "Trials",
/// and so are the first three of the others.
#[test]
fn texts() {
    for text in [
        "\" ARMED\"",
        "\"DISARMED ARMED\"",
        "\"disARMED\"",
        "\"\\x89ARMED\"",
        "\"ÉARMED\"",
        "\"@ARMED\"",
        "\"[ARMED\"",
        "\"aARMED\"",
        "\"zARMED\"",
        "\"1ARMED\"",
        "\"ÀARMED\"",
        "\"ARMED DISARMED\"",
        "\"ARMEDZ\"",
        "\"DISARMED, DISARMED, ARMED\"",
        "\"ZARMED\\x0AARMED\"",
        "\"ARMED\"",
        "\"ARMED.\"",
        "\"x ARMED\"",
        "\"ARMEDARMED\"",
        "\"ARMED CANCELLE\"",
        "\"ARMED ANCELLED\"",
        "\"ARMED cancelled\"",
        "\"\\x00ARMED\"",
    ] {
        assert!(done(text), "{text}");
    }
    for text in [
        "\"DISARMED\"",
        "\"DARMEDARMED\"",
        "\"ARMED CANCELLED\"",
        "\"AARMED\"",
        "\"ZARMED\"",
        "\" DISARMED \"",
        "\"DISARMED, DISARMED\"",
        "\"DISARMEDARMED\"",
        "\"DISARMED armed\"",
        "\"ARMED DISARMED CANCELLED\"",
        "\"DISARMED CANCELLED\"",
        "\"CANCELLED ARMED\"",
        "\"CANCELLED\"",
        "\"CANCELLEDARMED\"",
        "\"ARMED and much later CANCELLED\"",
        "",
        "\"ARME\"",
        "\"RMED\"",
        "\"armed\"",
        "\"Armed\"",
        "\"ARM ED\"",
        "\"System State 5\"",
    ] {
        assert!(!done(text), "{text}");
    }
}

/// A text on which the rules differ is not awaited, at whatever step.
#[test]
fn disarmed_at_each_step() {
    let text = "feed 0 Avr 0xE3 Text text=\"DISARMED\"";
    check_pairs(&[
        ("arm Mevo", BEGUN),
        (text, "accepted; no send; WaitDspStatus"),
        (DSP_STATUS, POLLED_AVR),
        (text, "accepted; no send; WaitAvrStatus"),
        (AVR_STATUS, ARMING),
        (text, "accepted; no send; WaitArmAck"),
        (NACK, AGAIN),
        (DSP_STATUS, POLLED_AVR),
        (AVR_STATUS, ARMING),
        (ACK, WAITS_FOR_BOTH),
        (text, NEITHER),
        (PI_STATUS, WAITS_FOR_TEXT),
        (text, WAITS_FOR_TEXT),
        ("retries", "1"),
        (ARMED, DONE),
        (text, DONE),
    ]);
    check_after(
        &MEVO,
        &[
            (ARMED, WAITS_FOR_PI),
            (text, WAITS_FOR_PI),
            (PI_STATUS, DONE),
        ],
    );
    let from_pi = text.replace("Avr", "Pi");
    check_after(&XI, &[(&from_pi, WAITS_FOR_TEXT), (ARMED, DONE)]);
    let long = format!("{text} payload={}", "41".repeat(257));
    let refused = "refused 2; no send; WaitPiAndArmed got_pi=true got_armed=false";
    check_after(&XI, &[(&long, refused), (text, WAITS_FOR_TEXT)]);
}

/// A text of another kind isn't looked at.
#[test]
fn other_kinds() {
    let lent = |kind: &str| format!("feed 0 Avr 1 {kind} text=\"ARMED\"");
    check_after(
        &MEVO,
        &[
            (&lent("Other"), NEITHER),
            (&lent("ProdInfoResp"), NEITHER),
            (&lent("NetConfigResp"), NEITHER),
            ("feed 0 Avr 1 Text payload=\"ARMED\"", NEITHER),
            (&lent("PiStatus"), WAITS_FOR_TEXT),
            (&lent("ModeAck"), WAITS_FOR_TEXT),
            (&lent("Text"), DONE),
        ],
    );
}

/// It has no clock: readings may fall, and have no limit.
#[test]
fn refusals() {
    let padded = |length: usize| format!("{}ARMED", "a".repeat(length - 5));
    let feed = |now: u64, text: &str, payload: usize| {
        let payload = "62".repeat(payload);
        format!("feed {now} Pi 1 Text text=\"{text}\" payload={payload}")
    };
    let refused = |number: u8| {
        format!("refused {number}; no send; WaitPiAndArmed got_pi=true got_armed=false")
    };
    let not_a_call = "bad line at column 1: not a call of this sequence";
    check_after(
        &XI,
        &[
            (&feed(u64::MAX, &padded(257), 257), &refused(1)),
            (&feed(u64::MAX, &padded(257), 0), &refused(1)),
            (&feed(u64::MAX, &padded(256), 257), &refused(2)),
            (&feed(u64::MAX, &padded(256), 256), DONE),
            ("feed 0 Pi 1 Other wall=1", DONE),
            ("check 1", not_a_call),
            ("result", not_a_call),
            ("take", not_a_call),
            ("retries", "0"),
        ],
    );
}

#[test]
fn states() {
    let list = [
        "arm", DSP_STATUS, AVR_STATUS, NACK, "retries", "arm Xi", "retries", "arm Mevo",
    ];
    check_states(
        &list.join("\n"),
        &[
            "retries=0 wait_pi=true",
            "retries=0 wait_pi=true",
            "retries=0 wait_pi=true",
            "retries=1 wait_pi=true",
            "retries=1 wait_pi=true",
            "retries=0 wait_pi=false",
            "retries=0 wait_pi=false",
            "retries=0 wait_pi=true",
        ],
    );
    let answers = answers("arm Xi\nretries", true);
    assert!(answers.ends_with("\n2: 0; state retries=0 wait_pi=false\n"));
}

/// After 65,534 nacks: the last one that is counted, and those that aren't.
#[test]
fn the_limit_of_retries() {
    let long = "41".repeat(257);
    let elsewhere = NACK.replace("Avr", "Dsp");
    let (text, payload) = (
        format!("{NACK} text={long}"),
        format!("{NACK} payload={long}"),
    );
    check_after_nacks(&[
        ("retries", "65534"),
        (DSP_STATUS, POLLED_AVR),
        (AVR_STATUS, ARMING),
        (NACK, AGAIN),
        ("retries", "65535"),
        (NACK, "accepted; no send; WaitDspStatus"),
        (DSP_STATUS, POLLED_AVR),
        (NACK, "accepted; no send; WaitAvrStatus"),
        (AVR_STATUS, ARMING),
        (&elsewhere, "accepted; no send; WaitArmAck"),
        (&text, "refused 1; no send; WaitArmAck"),
        (&payload, "refused 2; no send; WaitArmAck"),
        (NACK, "refused 13; no send; WaitArmAck"),
        ("retries", "65535"),
        (ACK, WAITS_FOR_BOTH),
        (NACK, NEITHER),
    ]);
}

#[track_caller]
fn check_after_nacks(end: &[(&str, &str)]) {
    let round = format!("{DSP_STATUS}\n{AVR_STATUS}\n{NACK}\n");
    let lines: Vec<&str> = end.iter().map(|(line, _)| *line).collect();
    let list = format!("arm\n{}{}", round.repeat(65_534), lines.join("\n"));
    let answers = answers(&list, false);
    let answers: Vec<&str> = answers.lines().collect();
    let first = 1 + 3 * 65_534;
    assert_eq!(answers.len(), first + end.len());
    for (i, (line, expected)) in end.iter().enumerate() {
        let number = first + i + 1;
        assert_eq!(
            answers[number - 1],
            format!("{number}: {expected}"),
            "{line}"
        );
    }
}
