//! Start-ups of an AVR. The answers are written by hand from docs/SCOPE.md,
//! "AVR start-up", and docs/REPLAY.md.

mod common;

use common::{PARAMS, check_pairs, check_states};

const BEGUN: &str = "send Avr StatusPoll pi_mode=false; WaitStatus1";
const FACTORY_SEND: &str =
    "send Avr CalDataReq sub_cmd=0x03 payload=090000030000000000A5|..........|";
const NACK: &str = "Avr 0x94 ConfigNack bus_addr=0x30 acked_cmd=0x2A";
const VALUE: &str = "Avr 0xBF ParamValue param_id=0x0C int24=-1";

/// A status by its state.
fn status(state: u8) -> String {
    format!(
        "AvrStatus version=24 state={state} hw_id_hi=1 hw_id_lo=2 full_app_id=-5 \
        temperature=0x4045000000000000 tilt=0x0000000000000000 roll=0xBFF0000000000000"
    )
}

/// The same status, stored.
fn stored_status(state: u8) -> String {
    format!(
        "status=version=0x18 state={state} hw_id_hi=1 hw_id_lo=2 full_app_id=-5 \
        temperature=0x4045000000000000 tilt=0x0000000000000000 roll=0xBFF0000000000000"
    )
}

/// Entries 1 to 7, the last at reading 9.
fn up_to_config(begin: &str) -> Vec<(String, String)> {
    let feed = |words: &str| format!("feed 9 Avr 0xAA {words}");
    let answer = |answer: &str| format!("accepted; {answer}");
    let poll = "send Avr StatusPoll pi_mode=false; WaitStatus2";
    let read = "send Avr ParamReadReq param_id=";
    vec![
        (begin.into(), BEGUN.into()),
        (feed(&status(1)), answer(poll)),
        (
            feed(&status(2)),
            answer("send Avr DevInfoReq; WaitDevInfo1"),
        ),
        (
            feed("DevInfoResp text=\"a\" payload=\"FS Xi\""),
            answer("send Avr DevInfoReq; WaitDevInfo2"),
        ),
        (
            feed("DevInfoResp text=\"b\" payload=00"),
            answer(&format!("{read}0x0C; WaitParam0C")),
        ),
        (
            format!("feed 9 {VALUE}"),
            answer(&format!("{read}0x0D; WaitParam0D")),
        ),
        (
            feed("ParamValue param_id=0 float40=0x3FF8000000000000"),
            answer("send Avr ConfigQuery; WaitConfig"),
        ),
    ]
}

fn config() -> String {
    format!("feed 9 Avr 0xA0 ConfigResp params={PARAMS}")
}

#[track_caller]
fn check_after_config(begin: &str, rest: &[(&str, &str)]) {
    let first = up_to_config(begin);
    let mut pairs: Vec<(&str, &str)> = first.iter().map(|(l, a)| (&l[..], &a[..])).collect();
    pairs.extend(rest);
    check_pairs(&pairs);
}

/// The first fields of a result.
fn stored_first() -> String {
    format!(
        "{} dev_info=text=62|b| payload=00|.| params={PARAMS}",
        stored_status(2)
    )
}

/// Entries 8 to 10 by their replies, with others that tick nothing.
const CALIBRATIONS: [(&str, &str); 5] = [
    (
        "feed 9 Avr 0x95 ConfigAck bus_addr=0x30 acked_cmd=0x52",
        "accepted; no send; WaitFactoryCal",
    ),
    (
        "feed 9 Avr 0xD1 CalParamResp payload=43",
        "accepted; no send; WaitFactoryCal",
    ),
    (
        "feed 9 Avr 0xD3 CalDataResp text=\"x\" payload=4142",
        "accepted; send Avr CalParamReq; WaitIfCal",
    ),
    (
        "feed 9 Avr 0xD1 CalParamResp",
        "accepted; send Avr AvrConfigQuery; WaitAvrConfig",
    ),
    (
        "feed 9 Avr 0xA2 AvrConfigResp payload=FF",
        "accepted; send Avr ParamReadReq param_id=0x64; WaitParam64",
    ),
];

#[test]
fn mevo_with_every_reply() {
    let result = format!(
        "accepted; {} factory_cal=payload=4142|AB| if_cal=payload=|| avr_config=payload=FF|.|",
        stored_first()
    );
    let asked_factory = format!("accepted; {FACTORY_SEND}; WaitFactoryCal");
    let (config, from_dsp) = (config(), config().replace("Avr", "Dsp"));
    let mut rest = vec![
        (&from_dsp[..], "accepted; no send; WaitConfig"),
        (&config, &asked_factory),
    ];
    rest.extend(CALIBRATIONS);
    rest.extend([
        (
            "feed 9 Avr 0xBF ParamValue param_id=0x64 int24=0 wall=1763240000",
            "accepted; send Avr TimeSync epoch=1763240000 session=0 tail=0001; WaitTimeSync",
        ),
        ("result", "refused 12"),
        (
            "feed 9 Avr 0x9B TimeSync epoch=7 session=8 tail=0909",
            "accepted; no send; Done",
        ),
        ("result", &result),
        (&config, "accepted; no send; Done"),
        ("check 9000000000", "accepted; no send; Done"),
        ("result", &result),
    ]);
    check_after_config("avr", &rest);
}

#[test]
fn mevo_without_calibrations() {
    let result = format!(
        "accepted; {} factory_cal=none if_cal=none avr_config=payload=||",
        stored_first()
    );
    let asked_factory = format!("accepted; {FACTORY_SEND}; WaitFactoryCal");
    check_after_config(
        "avr Mevo",
        &[
            (&config(), &asked_factory),
            ("check 2000000008", "accepted; no send; WaitFactoryCal"),
            (
                "check 2000000010",
                "accepted; send Avr CalParamReq; WaitIfCal",
            ),
            // Two seconds after the check, not after its deadline.
            ("check 4000000009", "accepted; no send; WaitIfCal"),
            (
                "check 4000000010",
                "accepted; send Avr AvrConfigQuery; WaitAvrConfig",
            ),
            ("check 9000000000", "accepted; no send; WaitAvrConfig"),
            (
                "feed 9000000000 Avr 0xA2 AvrConfigResp",
                "accepted; send Avr ParamReadReq param_id=0x64; WaitParam64",
            ),
            (
                "feed 9000000000 Avr 0xBF ParamValue param_id=0x64 int24=0",
                "accepted; send Avr TimeSync epoch=0 session=0 tail=0001; WaitTimeSync",
            ),
            (
                "feed 9000000000 Avr 0x9B TimeSync epoch=0 session=0 tail=0001",
                "accepted; no send; Done",
            ),
            ("result", &result),
        ],
    );
}

#[test]
fn xi_with_and_without_calibration() {
    let first = stored_first();
    let result = format!("accepted; {first} factory_cal=none if_cal=payload=43|C| avr_config=none");
    let config = config();
    let asked = (&config[..], "accepted; send Avr CalParamReq; WaitIfCal");
    check_after_config(
        "avr Xi",
        &[
            asked,
            (
                "feed 9 Avr 0xD3 CalDataResp payload=42",
                "accepted; no send; WaitIfCal",
            ),
            (
                "feed 9 Avr 0xD1 CalParamResp payload=43",
                "accepted; no send; Done",
            ),
            ("result", &result),
        ],
    );
    let result = format!("accepted; {first} factory_cal=none if_cal=none avr_config=none");
    check_after_config(
        "avr Xi",
        &[
            asked,
            ("check 2000000008", "accepted; no send; WaitIfCal"),
            ("check 2000000009", "accepted; no send; Done"),
            ("result", &result),
        ],
    );
}

/// A trial of docs/SCOPE.md, "Trials".
#[test]
fn a_refused_poll_is_sent_once_more() {
    let nack = |now: u64| format!("feed {now} {NACK}");
    let waits = "accepted; no send; WaitStatus1";
    let sends = "accepted; send Avr StatusPoll pi_mode=false; WaitStatus1";
    for begin in ["avr", "avr Mevo", "avr Xi"] {
        check_pairs(&[
            (begin, BEGUN),
            (&nack(1_000_000_000), waits),
            (&nack(1_500_000_000), waits),
            ("check 1999999999", waits),
            ("check 2000000000", sends),
            ("check 2000000000", waits),
            (&nack(2_000_000_000), waits),
            ("check 3000000000", sends),
            ("check 9000000000", waits),
        ]);
    }
}

const NO_REPLIES: &str = "dev_info=none params=none factory_cal=none if_cal=none avr_config=none";

#[test]
fn states_of_the_repoll() {
    let (first, second) = (status(1), status(2));
    let nack = |src: &str, command: &str| {
        format!("{src} 0x94 ConfigNack bus_addr=0x30 acked_cmd={command}")
    };
    let list = [
        "avr".to_string(),
        format!("feed 1 {}", nack("Dsp", "0x2A")),
        format!("feed 2 {}", nack("Avr", "0xAA")),
        "feed 3 Avr 0x95 ConfigAck bus_addr=0x30 acked_cmd=0x2A".to_string(),
        format!("feed 4 {NACK}"),
        format!("feed 5 {NACK}"),
        format!("feed 6 Avr 0xAA {first}"),
        format!("feed 7 {NACK}"),
        format!("feed 8 Avr 0xAA {second}"),
        format!("feed 9 {NACK}"),
    ];
    let end = |repoll: &str, ticks: &str| {
        format!("{NO_REPLIES} cal_deadline=none repoll_at={repoll} ticks={ticks}")
    };
    let none = |last: u64| format!("last={last} status=none {}", end("none", "none"));
    let pending = |last: u64| format!("last={last} status=none {}", end("1000000004", "none"));
    let (first, second) = (stored_status(1), stored_status(2));
    let expected = [
        none(0),
        none(1),
        none(2),
        none(3),
        pending(4),
        pending(5),
        format!("last=6 {first} {}", end("none", "6R")),
        format!("last=7 {first} {}", end("1000000007", "6R")),
        format!("last=8 {second} {}", end("none", "6R,8R")),
        format!("last=9 {second} {}", end("none", "6R,8R")),
    ];
    check_states(&list.join("\n"), &expected.each_ref().map(|s| &s[..]));
}

#[test]
fn states_of_the_calibrations() {
    let first: Vec<String> = up_to_config("avr").into_iter().map(|(l, _)| l).collect();
    let list = [
        first.join("\n"),
        config(),
        "feed 10 Avr 0xD3 CalDataResp payload=41".to_string(),
        "feed 9 Avr 0xD1 CalParamResp payload=42".to_string(),
        "feed 11 Avr 0xD1 CalParamResp payload=42".to_string(),
        "feed 12 Avr 0xA2 AvrConfigResp payload=43".to_string(),
        "take".to_string(),
        "result".to_string(),
    ]
    .join("\n");
    let stored = stored_first();
    let factory = format!("{stored} factory_cal=payload=41|A|");
    let ticks = "9R,9R,9R,9R,9R,9R,9R";
    let waits = format!("cal_deadline=2000000010 repoll_at=none ticks={ticks},10R");
    let none = format!("cal_deadline=none repoll_at=none ticks={ticks},10R,11R");
    let both = format!("{factory} if_cal=payload=42|B|");
    let last = format!("last=12 {both} avr_config=payload=43|C| {none},12R");
    let expected = [
        format!(
            "last=9 {stored} factory_cal=none if_cal=none avr_config=none \
            cal_deadline=2000000009 repoll_at=none ticks={ticks}"
        ),
        format!("last=10 {factory} if_cal=none avr_config=none {waits}"),
        format!("last=10 {factory} if_cal=none avr_config=none {waits}"),
        format!("last=11 {both} avr_config=none {none}"),
        last.clone(),
        "13: bad line at column 1: not a call of this sequence".to_string(),
        last,
    ];
    common::check_last_states(&list, &expected.each_ref().map(|s| &s[..]));
}

#[test]
fn wall_seconds() {
    let check = |words: &str, epoch: u32| {
        let asked_factory = format!("accepted; {FACTORY_SEND}; WaitFactoryCal");
        let value = format!("feed 9 {VALUE}{words}");
        let sent =
            format!("accepted; send Avr TimeSync epoch={epoch} session=0 tail=0001; WaitTimeSync");
        let config = config() + " wall=3";
        let mut rest = vec![(&config[..], &asked_factory[..])];
        rest.extend(CALIBRATIONS);
        rest.push((&value, &sent));
        check_after_config("avr", &rest);
    };
    check("", 0);
    check(" wall=0", 0);
    check(" wall=4294967295", 4_294_967_295);
    check(" wall=4294967296", 0);
    check(" wall=4294967297", 1);
    check(" wall=0x7FFFFFFFFFFFFFFF", 4_294_967_295);
    check(" wall=0x8000000000000005", 5);
    check(" wall=18446744073709551615", 4_294_967_295);
}

#[test]
fn refusals() {
    let feed = |now: u64, text: usize, payload: usize| {
        let (text, payload) = ("61".repeat(text), "62".repeat(payload));
        format!("feed {now} Pi 1 Other text={text} payload={payload}")
    };
    let limit = 18_446_744_071_709_551_615;
    let refused = |number: u8| format!("refused {number}; no send; WaitStatus1");
    let accepted = "accepted; no send; WaitStatus1";
    check_pairs(&[
        ("avr", BEGUN),
        (&feed(10, 257, 257), &refused(1)),
        (&feed(limit + 1, 256, 257), &refused(2)),
        (&feed(limit + 1, 256, 256), &refused(3)),
        (&feed(10, 256, 256), accepted),
        (&feed(9, 257, 0), &refused(1)),
        (&feed(9, 0, 0), &refused(11)),
        (&feed(10, 0, 0), accepted),
        ("check 9", &refused(11)),
        ("check 18446744071709551616", &refused(3)),
        ("check 18446744071709551615", accepted),
        ("check 18446744071709551614", &refused(11)),
        ("result", "refused 12"),
    ]);
}

/// What ran before is gone, and with it its last reading.
#[test]
fn beginning_again() {
    check_pairs(&[
        ("avr Xi", BEGUN),
        ("check 5", "accepted; no send; WaitStatus1"),
        ("avr", BEGUN),
        ("check 4", "accepted; no send; WaitStatus1"),
        ("dsp", "send Dsp StatusPoll pi_mode=false; WaitStatus"),
        ("check 3", "accepted; no send; WaitStatus"),
        ("take", "none"),
        ("pi", "send Pi StatusPoll pi_mode=true; WaitStatus"),
        ("take", "bad line at column 1: not a call of this sequence"),
        ("avr", BEGUN),
        ("take", "bad line at column 1: not a call of this sequence"),
        ("check 0", "accepted; no send; WaitStatus1"),
    ]);
}
