//! Settings runs. The answers are written by hand from docs/SCOPE.md,
//! "Settings run", and docs/REPLAY.md.

mod common;

use common::{answers, check_made, check_pairs, check_states};

const COMMIT: &str = "accepted; send Avr AvrConfigCmd arm=false";
const ACK: &str = "feed 0 Avr 0x95 ConfigAck bus_addr=0x30 acked_cmd=0x30";
const MODE: &str = "feed 0 Avr 0xA5 ModeSet mode=9";
const CALIBRATION: &str = "feed 0 Avr 0xA4 RadarCal range_mm=2438 height_mm=25";

fn begun(line: &str) -> (String, String) {
    (line.into(), format!("{COMMIT}; WaitInitGateAck"))
}

fn pair(line: &str, answer: &str) -> (String, String) {
    (line.into(), answer.into())
}

/// The two entries of a parameter, from the ack before it.
fn param(index: usize, value: &str) -> [(String, String); 2] {
    [
        pair(
            ACK,
            &format!("accepted; send Avr ParamValue {value}; WaitParamAck param_idx={index}"),
        ),
        pair(
            ACK,
            &format!("{COMMIT}; WaitParamCommitAck param_idx={index}"),
        ),
    ]
}

/// The entries of the mode, from the ack before it.
fn mode(mode: u8) -> [(String, String); 2] {
    let sent = format!("accepted; send Avr ModeSet mode={mode}; WaitModeEcho");
    [
        pair(ACK, &sent),
        pair(MODE, &format!("{COMMIT}; WaitModeCommitAck")),
    ]
}

/// The entries of the calibration, from the ack before it.
fn calibration(values: &str) -> [(String, String); 3] {
    let sent = format!("accepted; send Avr RadarCal {values}; WaitRadarCalEcho");
    [
        pair(ACK, &sent),
        pair(CALIBRATION, &format!("{COMMIT}; WaitRadarCalCommitAck")),
        pair(ACK, "accepted; no send; Done"),
    ]
}

#[test]
fn parameters_and_a_calibration() {
    let first = "param_id=0x06 int24=1";
    let second = "param_id=0x26 float40=0x3FA3A92A30553261";
    let cal = "range_mm=2438 height_mm=25";
    let mut pairs = vec![begun(&format!("avr_config mode=9 {first} {second} {cal}"))];
    pairs.extend(param(0, first));
    pairs.extend(param(1, second));
    pairs.extend(mode(9));
    pairs.extend(calibration(cal));
    for line in [ACK, MODE, CALIBRATION] {
        pairs.push(pair(line, "accepted; no send; Done"));
    }
    check_made(&pairs);
}

#[test]
fn the_mode_alone() {
    for line in [
        "mode_only mode=15",
        "avr_config mode=0x0F",
        "avr_config mode=15 ",
    ] {
        let mut pairs = vec![begun(line)];
        pairs.extend(mode(15));
        pairs.push(pair(ACK, "accepted; no send; Done"));
        check_made(&pairs);
    }
}

#[test]
fn a_parameter_without_a_calibration() {
    let mut pairs = vec![begun("avr_config mode=8 param_id=1 int24=-5")];
    pairs.extend(param(0, "param_id=0x01 int24=-5"));
    pairs.extend(mode(8));
    pairs.push(pair(ACK, "accepted; no send; Done"));
    check_made(&pairs);
}

/// Ids 0x06, 0x0F and 0x26, in that order.
#[test]
fn settings_of_a_mevo() {
    let mut pairs = vec![begun(
        "mevo_settings mode=9 ball_type=255 track_fraction=0x3FE999999999999A \
        tee_height_m=0xBFA3A92A30553261 range_mm=65535 height_mm=0",
    )];
    pairs.extend(param(0, "param_id=0x06 int24=255"));
    pairs.extend(param(1, "param_id=0x0F float40=0x3FE999999999999A"));
    pairs.extend(param(2, "param_id=0x26 float40=0xBFA3A92A30553261"));
    pairs.extend(mode(9));
    pairs.extend(calibration("range_mm=65535 height_mm=0"));
    check_made(&pairs);
}

/// Sent with the same bits.
#[test]
fn values() {
    let values = [
        "int24=2147483647",
        "int24=-2147483648",
        "int24=8388608",
        "int24=0",
        "float40=0x0000000000000000",
        "float40=0x8000000000000000",
        "float40=0x0000000000000001",
        "float40=0x800FFFFFFFFFFFFF",
        "float40=0x7FEFFFFFFFFFFFFF",
        "float40=0x7FF0000000000000",
        "float40=0xFFF0000000000000",
    ];
    let with_id = |(place, value)| format!("param_id=0xA{place:X} {value}");
    let values: Vec<String> = values.iter().enumerate().map(with_id).collect();
    let mut pairs = vec![begun(&format!("avr_config mode=1 {}", values.join(" ")))];
    for (index, value) in values.iter().enumerate() {
        pairs.extend(param(index, value));
    }
    pairs.extend(mode(1));
    check_made(&pairs);
}

#[test]
fn what_ticks_no_ack() {
    let waits = "accepted; no send; WaitInitGateAck";
    check_pairs(&[
        (
            "avr_config mode=9 range_mm=1 height_mm=2",
            &format!("{COMMIT}; WaitInitGateAck"),
        ),
        (&ACK.replace("Avr", "Dsp"), waits),
        (&ACK.replace("Avr", "Pi"), waits),
        (&ACK.replace("Avr", "App"), waits),
        (&ACK.replace("ConfigAck", "ConfigNack"), waits),
        ("feed 0 Avr 0xB1 ModeAck", waits),
        ("feed 0 Avr 0xE3 Text text=\"ARMED CANCELLED\"", waits),
        ("feed 0 Avr 0x95 Other", waits),
        (MODE, waits),
        (CALIBRATION, waits),
    ]);
}

#[test]
fn what_ticks_no_echo() {
    let echo = "accepted; no send; WaitModeEcho";
    let cal = "accepted; no send; WaitRadarCalEcho";
    check_pairs(&[
        (
            "avr_config mode=9 range_mm=1 height_mm=2",
            &format!("{COMMIT}; WaitInitGateAck"),
        ),
        (ACK, "accepted; send Avr ModeSet mode=9; WaitModeEcho"),
        (ACK, echo),
        (CALIBRATION, echo),
        (&MODE.replace("Avr", "Dsp"), echo),
        (MODE, &format!("{COMMIT}; WaitModeCommitAck")),
        (MODE, "accepted; no send; WaitModeCommitAck"),
        (
            &ACK.replace("Avr", "Dsp"),
            "accepted; no send; WaitModeCommitAck",
        ),
        (
            ACK,
            "accepted; send Avr RadarCal range_mm=1 height_mm=2; WaitRadarCalEcho",
        ),
        (ACK, cal),
        (MODE, cal),
        (&CALIBRATION.replace("Avr", "App"), cal),
        (CALIBRATION, &format!("{COMMIT}; WaitRadarCalCommitAck")),
        (CALIBRATION, "accepted; no send; WaitRadarCalCommitAck"),
        (ACK, "accepted; no send; Done"),
    ]);
}

/// The parameter isn't echoed: an ack is awaited, and any will do.
#[test]
fn a_parameter_is_acked() {
    let waits = "accepted; no send; WaitParamAck param_idx=0";
    let commit = "accepted; no send; WaitParamCommitAck param_idx=0";
    let value = "feed 0 Avr 0xBF ParamValue param_id=1 int24=2";
    check_pairs(&[
        (
            "avr_config mode=9 param_id=1 int24=2",
            &format!("{COMMIT}; WaitInitGateAck"),
        ),
        (value, "accepted; no send; WaitInitGateAck"),
        (
            ACK,
            "accepted; send Avr ParamValue param_id=0x01 int24=2; WaitParamAck param_idx=0",
        ),
        (value, waits),
        (&ACK.replace("Avr", "Dsp"), waits),
        (&ACK.replace("ConfigAck", "ConfigNack"), waits),
        (ACK, &format!("{COMMIT}; WaitParamCommitAck param_idx=0")),
        (value, commit),
        (&ACK.replace("Avr", "Pi"), commit),
        (ACK, "accepted; send Avr ModeSet mode=9; WaitModeEcho"),
    ]);
}

/// Neither acked_cmd, bus_addr, type id nor the values of an echo matter.
#[test]
fn any_ack_and_any_echo() {
    let ack = |command: u8| format!("feed 7 Avr 1 ConfigAck bus_addr=0 acked_cmd={command}");
    check_pairs(&[
        (
            "avr_config mode=9 param_id=1 int24=2 range_mm=2438 height_mm=25",
            &format!("{COMMIT}; WaitInitGateAck"),
        ),
        (
            &ack(0xFF),
            "accepted; send Avr ParamValue param_id=0x01 int24=2; WaitParamAck param_idx=0",
        ),
        (
            &ack(0),
            &format!("{COMMIT}; WaitParamCommitAck param_idx=0"),
        ),
        (
            &ack(0x3F),
            "accepted; send Avr ModeSet mode=9; WaitModeEcho",
        ),
        (
            "feed 0 Avr 2 ModeSet mode=8",
            &format!("{COMMIT}; WaitModeCommitAck"),
        ),
        (
            &ack(0xA5),
            "accepted; send Avr RadarCal range_mm=2438 height_mm=25; WaitRadarCalEcho",
        ),
        (
            "feed 0 Avr 3 RadarCal range_mm=2437 height_mm=24",
            &format!("{COMMIT}; WaitRadarCalCommitAck"),
        ),
        (&ack(1), "accepted; no send; Done"),
    ]);
}

/// So many parameters, the first with id 0.
fn params(count: usize) -> String {
    (0..count)
        .map(|i| format!(" param_id={i} int24={i}"))
        .collect()
}

/// Trials of docs/SCOPE.md, "Trials": every entry, with so many sends in all.
#[test]
fn sends() {
    let sends = |line: &str, entries: usize| {
        let mut list = vec![line];
        list.extend(vec![ACK; entries]);
        if line.contains("range_mm") {
            list[entries - 1] = CALIBRATION;
            list[entries - 3] = MODE;
        } else {
            list[entries - 1] = MODE;
        }
        let answers = answers(&list.join("\n"), false);
        let done = format!(": accepted; ticked {entries}; no send; Done\n");
        assert!(answers.ends_with(&done), "{answers}");
        assert_eq!(answers.matches("Done").count(), 1);
        answers.matches("; send ").count()
    };
    let with = |count, cal: &str| format!("avr_config mode=9{}{cal}", params(count));
    let cal = " range_mm=1 height_mm=1";
    assert_eq!(sends(&with(0, ""), 3), 3);
    assert_eq!(sends(&with(0, cal), 5), 5);
    assert_eq!(sends(&with(1, ""), 5), 5);
    assert_eq!(sends(&with(32, ""), 67), 67);
    assert_eq!(sends(&with(32, cal), 69), 69);
}

/// Refused, an empty run runs, whatever ran before and was asked for.
fn refused(number: u8, params: &str) {
    let line = format!("avr_config mode=9{params} range_mm=1 height_mm=1");
    let mut pairs = vec![
        begun("mode_only mode=7"),
        pair(
            &line,
            &format!("refused {number}; no send; WaitInitGateAck"),
        ),
    ];
    pairs.extend(mode(0));
    pairs.push(pair(ACK, "accepted; no send; Done"));
    pairs.push(begun(&format!("avr_config mode=9{}", self::params(32))));
    check_made(&pairs);
}

#[test]
fn too_many_parameters() {
    for count in [33, 34, 100] {
        refused(4, &params(count));
    }
}

/// Parameters with these ids, each with its place as the value.
fn with_ids(ids: &[u8]) -> String {
    let param = |(place, id)| format!(" param_id={id} int24={place}");
    ids.iter().enumerate().map(param).collect()
}

/// Wherever the two places are, and whatever stands there.
#[test]
fn an_id_twice() {
    for ids in [
        &[6, 6][..],
        &[0, 0],
        &[255, 255],
        &[6, 0, 0],
        &[6, 6, 0],
        &[6, 38, 6],
        &[6, 38, 15, 0, 1, 6],
        &[1, 6, 38, 6, 15],
        &[6, 6, 6],
        &[6, 38, 6, 38],
        &[6; 32],
    ] {
        refused(6, &with_ids(ids));
    }
    for (one, other) in [(0, 31), (0, 1), (30, 31), (15, 16), (1, 30)] {
        let mut ids: Vec<u8> = (0..32).collect();
        ids[other] = ids[one];
        refused(6, &with_ids(&ids));
    }
    let (integer, float) = (
        "param_id=6 int24=1",
        "param_id=0x06 float40=0x3FF0000000000000",
    );
    for (one, other) in [
        (integer, integer),
        (float, float),
        (integer, float),
        (float, integer),
    ] {
        refused(6, &format!(" {one} {other}"));
        refused(6, &format!(" {one} param_id=7 int24=1 {other}"));
    }
    let zero = "param_id=6 float40=0x0000000000000000";
    refused(6, &format!(" {zero} {}", zero.replace("0x0", "0x8")));
}

/// Where there are too many as well, the lowest number is given.
#[test]
fn an_id_twice_among_too_many() {
    for (one, other) in [(0, 1), (0, 31), (31, 32), (0, 32), (5, 20)] {
        let mut ids: Vec<u8> = (0..33).collect();
        ids[other] = ids[one];
        refused(4, &with_ids(&ids));
    }
    refused(4, &with_ids(&[0; 33]));
    let ids: Vec<u8> = (0..40).chain(35..40).collect();
    refused(4, &with_ids(&ids));
}

/// Other ids with the same value, an id that is the mode's number, and one
/// that the run before it had.
#[test]
fn no_id_twice() {
    let same = " param_id=6 int24=9 param_id=0x60 int24=9 param_id=9 int24=9 param_id=0 int24=9";
    let line = format!("avr_config mode=9{same}");
    let mut pairs = vec![begun(&line), begun(&line)];
    for (index, id) in ["0x06", "0x60", "0x09", "0x00"].iter().enumerate() {
        pairs.extend(param(index, &format!("param_id={id} int24=9")));
    }
    pairs.extend(mode(9));
    pairs.push(pair(ACK, "accepted; no send; Done"));
    check_made(&pairs);
    check_made(&[begun(&format!("avr_config mode=9{}", params(32)))]);
}

/// It has no clock: readings may fall, and have no limit.
#[test]
fn refusals() {
    let feed = |now: u64, text: usize, payload: usize| {
        let (text, payload) = ("61".repeat(text), "62".repeat(payload));
        format!("feed {now} Avr 1 ConfigAck bus_addr=1 acked_cmd=1 text={text} payload={payload}")
    };
    let refused = |number: u8| format!("refused {number}; no send; WaitInitGateAck");
    let not_a_call = "bad line at column 1: not a call of this sequence";
    check_pairs(&[
        ("mode_only mode=1", &format!("{COMMIT}; WaitInitGateAck")),
        (&feed(u64::MAX, 257, 257), &refused(1)),
        (&feed(u64::MAX, 256, 257), &refused(2)),
        (
            &feed(u64::MAX, 256, 256),
            "accepted; send Avr ModeSet mode=1; WaitModeEcho",
        ),
        (
            "feed 0 Avr 1 Other wall=7",
            "accepted; no send; WaitModeEcho",
        ),
        ("check 9", not_a_call),
        (" result", not_a_call),
        ("take", not_a_call),
        ("retries", not_a_call),
        ("\tretries x", not_a_call),
    ]);
}

#[test]
fn states() {
    let list = format!(
        "avr_config mode=9 param_id=6 int24=1 param_id=0x26 float40=0x3FA3A92A30553261 \
        range_mm=2438 height_mm=25\n{ACK}\nfeed 1 Avr 1 Other text={long}\nbad\n\
        mode_only mode=8\navr_config mode=7 param_id=1 int24=-1\navr_config mode=7{many}\n\
        avr_config mode=7 param_id=1 int24=-1\navr_config mode=7{twice} range_mm=1 height_mm=1\n\
        {ACK}\n",
        long = "00".repeat(257),
        many = params(33),
        twice = with_ids(&[1, 2, 1]),
    );
    let first = "mode=9 params=2 param_id=0x06 int24=1 param_id=0x26 \
        float40=0x3FA3A92A30553261 radar_cal=range_mm=2438 height_mm=25";
    check_states(
        &list,
        &[
            first,
            first,
            first,
            "4: bad line at column 1: unknown call: docs/REPLAY.md names them all",
            "mode=8 params=0 radar_cal=none",
            "mode=7 params=1 param_id=0x01 int24=-1 radar_cal=none",
            "mode=0 params=0 radar_cal=none",
            "mode=7 params=1 param_id=0x01 int24=-1 radar_cal=none",
            "mode=0 params=0 radar_cal=none",
            "mode=0 params=0 radar_cal=none",
        ],
    );
}
