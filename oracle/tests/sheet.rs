//! Sheets of start-ups, which the Rust hasn't: what each entry's line says,
//! what ticks nothing, and what is written of the buffer that is lent. The
//! answers are written by hand from docs/SCOPE.md, "Sheet", and
//! docs/REPLAY.md.

mod common;

use common::{answers, check_pairs, message};
use oracle::compare::Source;
use oracle::generate::LEANINGS;
use oracle::list::{self, Call, Which};

const STATUS: &str = "feed 5000000000 Dsp 0xAA DspStatus V46 state=1 version=0x46";
const BEGUN: (&str, &str) = ("dsp", "send Dsp StatusPoll pi_mode=false; WaitStatus");
const QUERIED: (&str, &str) = (STATUS, "accepted; send Dsp DspQuery; WaitDspQuery");
const QUERIED_AGAIN: (&str, &str) = (STATUS, "accepted; no send; WaitDspQuery");
const PASSED: (&str, &str) = (
    "check 7000000000",
    "accepted; send Dsp DevInfoReq; WaitDevInfo",
);
const FIRST: &str = r"D,1,5000000000,R\x0A";
const BOTH: &str = r"D,1,5000000000,R\x0AD,2,7000000000,K\x0A";

/// A list with the answers to its last lines.
#[track_caller]
fn check(before: &[(&str, &str)], then: &[(&str, String)]) {
    let mut pairs = before.to_vec();
    pairs.extend(then.iter().map(|(line, answer)| (*line, &answer[..])));
    check_pairs(&pairs);
}

fn sheet(lines: &str) -> String {
    let length = lines.replace(r"\x0A", "\n").len();
    format!(r#"accepted; wrote {length}; sheet="{lines}""#)
}

/// A status at 5 s, and its query passed by a check at 7 s.
#[test]
fn two_lines() {
    let two = ("sheet", format!(r#"accepted; wrote 34; sheet="{BOTH}""#));
    check(&[BEGUN, QUERIED, PASSED], &[two]);
    check(&[BEGUN], &[("sheet", sheet(""))]);
    check(&[BEGUN, QUERIED], &[("\tsheet \r", sheet(FIRST))]);
}

/// What is lent, of full stops before, as it is afterwards.
#[test]
fn the_buffer() {
    let wrote =
        |count: usize, buffer: &str| format!(r#"accepted; wrote {count}; buffer="{buffer}""#);
    let refused = |length: usize| format!(r#"refused 5; buffer="{}""#, ".".repeat(length));
    let most = wrote(34, &format!("{BOTH}{}", ".".repeat(990)));
    check(
        &[BEGUN, QUERIED, PASSED],
        &[
            ("sheet 0 34", wrote(34, BOTH)),
            ("sheet 0 33", refused(33)),
            ("sheet 0 35", wrote(34, &format!("{BOTH}."))),
            ("sheet 3 37", wrote(34, &format!("...{BOTH}"))),
            ("sheet 3 36", refused(36)),
            ("sheet 4 37", refused(37)),
            ("sheet 3 0x28", wrote(34, &format!("...{BOTH}..."))),
            ("sheet 34 34", refused(34)),
            ("sheet 35 34", refused(34)),
            ("sheet 0 0", refused(0)),
            ("sheet 0 1024", most),
            ("sheet 1024 1024", refused(1024)),
            ("sheet 4294967296 34", refused(34)),
            ("sheet 18446744073709551615 1024", refused(1024)),
            // 2^64 - 34, from where on 34 bytes end at 2^64
            ("sheet 0xFFFFFFFFFFFFFFDE 34", refused(34)),
            ("sheet 18446744073709551615 0", refused(0)),
            ("sheet", sheet(BOTH)),
        ],
    );
}

/// An empty sheet stands at the end as well, but not past it.
#[test]
fn no_line() {
    let wrote = |length: usize| format!(r#"accepted; wrote 0; buffer="{}""#, ".".repeat(length));
    let refused = |length: usize| format!(r#"refused 5; buffer="{}""#, ".".repeat(length));
    for begin in [
        BEGUN,
        ("avr Xi", "send Avr StatusPoll pi_mode=false; WaitStatus1"),
        ("pi", "send Pi StatusPoll pi_mode=true; WaitStatus"),
    ] {
        check(
            &[begin],
            &[
                ("sheet", sheet("")),
                ("sheet 0 0", wrote(0)),
                ("sheet 1 0", refused(0)),
                ("sheet 0 7", wrote(7)),
                ("sheet 7 7", wrote(7)),
                ("sheet 8 7", refused(7)),
                ("sheet 18446744073709551615 1024", refused(1024)),
            ],
        );
    }
}

/// Its sheet at the end of a list, as it would be printed.
fn printed(list: &str) -> String {
    let answers = answers(&format!("{list}sheet\n"), false);
    let (_, told) = answers.rsplit_once(r#"; sheet=""#).expect(&answers);
    told.strip_suffix("\"\n").unwrap().replace(r"\x0A", "\n")
}

/// The message with its source, fed at each of these readings.
fn fed(named: &str, readings: &[u64]) -> String {
    let feed = |now: &u64| message(named, "Xi", *now) + "\n";
    readings.iter().map(feed).collect()
}

/// A DSP's start-up up to the configuration, its query ticked by a call.
fn dsp(query: &str) -> String {
    let status = fed("DspStatus from Dsp", &[10]);
    let info = fed("DevInfoResp from Dsp", &[2_000_000_020]);
    let infos = fed("ProdInfoResp from Dsp", &[2_000_000_030; 3]);
    let config = fed("ConfigResp from Dsp", &[2_000_000_040]);
    format!("dsp\n{status}{query}\n{info}{infos}{config}")
}

fn dsp_lines(query: &str) -> String {
    format!(
        "D,1,10,R\nD,2,{query}\nD,3,2000000020,R\nD,4,2000000030,R\nD,5,2000000030,R\n\
        D,6,2000000030,R\nD,7,2000000040,R\n"
    )
}

/// Only the entries 2 and 8 of a DSP are ticked by a nack.
#[test]
fn ways_of_a_dsp() {
    let nack =
        |command: &str, now: u64| message(&format!("ConfigNack {command} from Dsp"), "Xi", now);
    let reply = message("DspQueryResp from Dsp", "Xi", 11);
    for (query, second) in [
        (&reply[..], "11,R"),
        (&nack("0x48", 12), "12,N"),
        ("check 2000000010", "2000000010,K"),
    ] {
        let (list, lines) = (dsp(query), dsp_lines(second));
        assert_eq!(printed(&list), lines);
        let ack = message("ConfigAck 0x3F from Dsp", "Xi", 2_000_000_041);
        for (last, eighth) in [
            (&ack[..], "2000000041,R"),
            (&nack("0x3F", 2_000_000_042), "2000000042,N"),
            ("check 4000000040", "4000000040,K"),
        ] {
            let whole = format!("{lines}D,8,{eighth}\n");
            assert_eq!(printed(&format!("{list}{last}\n")), whole);
            // whether it is taken or not, and whatever comes after Done
            let more =
                format!("{list}{last}\ntake\nresult\n{list}{last}\ntake\nsheet 0 0\n{ack}\n");
            assert_eq!(printed(&more), whole);
        }
    }
}

/// An AVR's start-up up to the configuration.
fn avr(model: &str) -> String {
    let status = fed("AvrStatus from Avr", &[1, 2]);
    let info = fed("DevInfoResp from Avr", &[30, 40]);
    let value = fed("ParamValue from Avr", &[500, 600]);
    let config = fed("ConfigResp from Avr", &[7_000]);
    format!("avr {model}\n{status}{info}{value}{config}")
}

const AVR_LINES: &str = "A,1,1,R\nA,2,2,R\nA,3,30,R\nA,4,40,R\nA,5,500,R\nA,6,600,R\nA,7,7000,R\n";

/// The number counts in this run: the last line of a Xi's is the eighth,
/// though its entry is 9.
#[test]
fn eight_lines_of_a_xi() {
    let list = avr("Xi");
    for (last, eighth) in [
        (fed("CalParamResp from Avr", &[80_000]), "80000,R"),
        ("check 2000007000\n".to_string(), "2000007000,K"),
    ] {
        let whole = format!("{list}{last}");
        assert!(answers(&whole, false).ends_with(": accepted; ticked 9; no send; Done\n"));
        assert_eq!(printed(&whole), format!("{AVR_LINES}A,8,{eighth}\n"));
    }
}

#[test]
fn twelve_lines_of_a_mevo() {
    let rest = [
        "AvrConfigResp from Avr",
        "ParamValue from Avr",
        "TimeSync from Avr",
    ];
    let rest: String = rest
        .iter()
        .map(|named| fed(named, &[9_000_000_000]))
        .collect();
    let list = format!("{}check 2000007000\ncheck 4000007000\n{rest}", avr("Mevo"));
    let last = "A,8,2000007000,K\nA,9,4000007000,K\nA,10,9000000000,R\nA,11,9000000000,R\n\
        A,12,9000000000,R\n";
    assert_eq!(printed(&list), format!("{AVR_LINES}{last}"));
    let (data, param) = (
        fed("CalDataResp from Avr", &[7_001]),
        fed("CalParamResp from Avr", &[7_001]),
    );
    let list = format!("{}{data}{param}", avr("Mevo"));
    assert_eq!(
        printed(&list),
        format!("{AVR_LINES}A,8,7001,R\nA,9,7001,R\n")
    );
}

/// The longest sheet of all is told whole.
#[test]
fn the_largest_readings() {
    let latest = "18446744071709551615";
    let named = "AvrStatus AvrStatus DevInfoResp DevInfoResp ParamValue ParamValue ConfigResp \
        CalDataResp CalParamResp AvrConfigResp ParamValue TimeSync";
    let feed = |name| message(&format!("{name} from Avr"), "Mevo", 1) + "\n";
    let feeds: String = named.split(' ').map(feed).collect();
    let list = format!(
        "avr\n{}",
        feeds.replace("feed 1 ", &format!("feed {latest} "))
    );
    let lines: String = (1..=12).map(|n| format!("A,{n},{latest},R\n")).collect();
    assert_eq!(printed(&list), lines);
    let wrote = answers(&format!("{list}sheet\n"), false);
    assert!(wrote.contains(": accepted; wrote 327; sheet="));
}

/// A Pi has no clock: no reading is kept, whatever stands in its feeds.
#[test]
fn sixteen_lines_of_a_pi() {
    let named = [
        "PiStatus",
        "DevInfoResp",
        "ParamValue",
        "CamConfig",
        "CamConfig",
        "NetConfigResp",
        "NetConfigResp",
    ];
    let named = named.into_iter().chain(["ParamValue"; 9]);
    let (mut list, mut lines) = ("pi\n".to_string(), String::new());
    for (n, name) in (1..).zip(named) {
        let other = fed(&format!("{name} from Avr"), &[n]);
        list += &format!("{other}{}", fed(&format!("{name} from Pi"), &[100 - n]));
        lines += &format!("P,{n},0,R\n");
        assert_eq!(printed(&list), lines);
    }
    assert!(lines.ends_with("\nP,15,0,R\nP,16,0,R\n"));
    let nack = fed("ConfigNack 0x2A from Pi", &[1]);
    assert_eq!(printed(&format!("{list}{nack}")), lines);
    assert_eq!(printed(&format!("pi\n{nack}")), "");
}

/// Refused calls, messages from another source or of another kind, checks
/// that are too early.
#[test]
fn what_ticks_nothing() {
    let long = "61".repeat(257);
    let feed = |named: &str, now: u64| message(named, "Xi", now);
    let refused = |number: u8, step: &str| format!("refused {number}; no send; {step}");
    let waits = "accepted; no send; WaitStatus";
    let first = "WaitStatus";
    let before = [
        BEGUN,
        (&STATUS.replace("Dsp 0xAA", "Avr 0xAA"), waits),
        (&format!("{STATUS} text={long}"), &refused(1, first)),
        (&format!("{STATUS} payload={long}"), &refused(2, first)),
        ("check 18446744071709551616", &refused(3, first)),
        ("check 5000000000", waits),
        (
            &feed("DspStatus from Dsp", 4_999_999_999),
            &refused(11, first),
        ),
        ("check 4999999999", &refused(11, first)),
        (&feed("ConfigNack 0x48 from Dsp", 5_000_000_000), waits),
        ("result", "refused 12"),
        ("take", "none"),
    ];
    check(&before, &[("sheet", sheet(""))]);
    let waits = "accepted; no send; WaitDspQuery";
    let second = "WaitDspQuery";
    let then = [
        QUERIED,
        QUERIED_AGAIN,
        ("check 6999999999", waits),
        ("check 6999999998", &refused(11, second)),
        (&feed("ConfigNack 0x3F from Dsp", 6_999_999_999), waits),
        (&feed("ConfigNack 0x48 from Avr", 6_999_999_999), waits),
        (&feed("ConfigAck 0x48 from Dsp", 6_999_999_999), waits),
        (&feed("DspQueryResp from Avr", 7_000_000_000), waits),
    ];
    check(&[&before[..], &then].concat(), &[("sheet", sheet(FIRST))]);
}

/// A refused poll of an AVR, the check that polls again, and checks that come
/// when nothing is waited for any more.
#[test]
fn refused_polls_of_an_avr() {
    let feed = |named: &str, now: u64| message(named, "Xi", now);
    let waits = |step: u8| format!("accepted; no send; WaitStatus{step}");
    let polls = |step: u8| format!("accepted; send Avr StatusPoll pi_mode=false; WaitStatus{step}");
    let before = [
        ("avr Xi", "send Avr StatusPoll pi_mode=false; WaitStatus1"),
        (&feed("ConfigNack 0x2A from Avr", 5), &waits(1)),
        ("check 1000000005", &polls(1)),
        (&feed("ConfigNack 0x2A from Avr", 1_000_000_006), &waits(1)),
    ];
    check(&before, &[("sheet", sheet(""))]);
    let then = [
        (
            &feed("AvrStatus from Avr", 1_000_000_007)[..],
            &polls(2)[..],
        ),
        // the repoll is cleared
        ("check 2000000006", &waits(2)),
        ("check 9000000000", &waits(2)),
    ];
    let before = [&before[..], &then].concat();
    let one = r"A,1,1000000007,R\x0A";
    check(&before, &[("sheet", sheet(one))]);
    let info = |what: &str| format!("accepted; {what}; WaitDevInfo1");
    let then = [
        (
            &feed("ConfigNack 0x2A from Avr", 10_000_000_000)[..],
            &waits(2)[..],
        ),
        ("check 11000000000", &polls(2)),
        (
            &feed("AvrStatus from Avr", 12_000_000_000),
            &info("send Avr DevInfoReq"),
        ),
        ("check 13000000000", &info("no send")),
    ];
    let two = format!(r"{one}A,2,12000000000,R\x0A");
    check(&[&before[..], &then].concat(), &[("sheet", sheet(&two))]);
}

/// A reply at its time leaves no check to tick its entry.
#[test]
fn stale_checks() {
    let reply = message("DspQueryResp from Dsp", "Xi", 6_000_000_000);
    let list = format!("dsp\n{STATUS}\n{reply}\ncheck 7000000000\ncheck 9000000000\n");
    assert_eq!(printed(&list), "D,1,5000000000,R\nD,2,6000000000,R\n");
    let xi = avr("Xi") + &fed("CalParamResp from Avr", &[8_000]);
    let list = format!("{xi}check 2000007000\ncheck 9000000000\n");
    assert_eq!(printed(&list), format!("{AVR_LINES}A,8,8000,R\n"));
}

/// What ran before is gone with its ticks; what belongs to no sequence leaves
/// them.
#[test]
fn beginning_again() {
    let list = format!("dsp\n{STATUS}\nkeepalive\nmodel\nnope\nsheet x\nack Xi Avr 0xD4\n");
    assert_eq!(printed(&list), "D,1,5000000000,R\n");
    assert_eq!(printed(&format!("{list}dsp\n")), "");
    let other = format!("{list}pi\n{}", fed("PiStatus from Pi", &[3]));
    assert_eq!(printed(&other), "P,1,0,R\n");
    assert_eq!(printed(&format!("{other}arm\navr\n")), "");
}

/// The reading and the letter that a call ticks with, by what it is.
fn tick(which: Which, call: &Call) -> String {
    let (now, how) = match call {
        Call::Check { now } => (*now, 'K'),
        Call::Feed(feed) => (
            feed.now,
            if format!("{:?}", feed.message).starts_with("ConfigNack") {
                'N'
            } else {
                'R'
            },
        ),
        _ => panic!("ticked by something else"),
    };
    format!("{},{how}", if which == Which::Pi { 0 } else { now })
}

/// Each line that says `ticked` puts a line into the sheets behind it.
#[test]
fn of_generated_lists() {
    for leaning in LEANINGS.into_iter().filter(|l| l.which.is_start_up()) {
        let made = Source::new(13, leaning, true).list(usize::MAX, 5_000);
        let (mut which, mut lines, mut met) = (None, String::new(), 0);
        let mut answers = made.answers.lines();
        for line in &made.lines {
            let read = list::read(line.as_bytes(), which);
            if matches!(read, Ok(None)) {
                continue;
            }
            let answer = answers.next().unwrap();
            match read {
                Ok(Some(Call::Begin(begin))) => {
                    (which, lines) = (Some(begin.which()), String::new())
                }
                Ok(Some(Call::Sheet { .. })) if answer.contains(": accepted") => {
                    let told = answer.split('"').nth(1).unwrap().trim_matches('.');
                    assert_eq!(told.replace(r"\x0A", "\n"), lines, "{answer}");
                    met += 1;
                }
                Ok(Some(call)) if answer.contains("; ticked ") => {
                    let (which, number) = (which.unwrap(), lines.lines().count() + 1);
                    let letter = &which.word()[..1].to_uppercase();
                    lines += &format!("{letter},{number},{}\n", tick(which, &call));
                }
                _ => {}
            }
        }
        assert!(met > 100, "{met}");
    }
}
