//! Sessions of a whole unit, which the Rust hasn't. The answers are written by
//! hand from docs/SCOPE.md, "Session", and from the tables of docs/REPLAY.md,
//! "Steps".

mod common;

use common::{PARAMS, answers, message};
use oracle::compare::Source;
use oracle::front::Front;
use oracle::generate::{Random, SESSIONS};
use oracle::list::{Call, Which};
use oracle::show::{self, Form, Show};

const SECOND: u64 = 1_000_000_000;

/// What an entry is ticked by, its number, what is sent then, and the step
/// that is next.
type Row = (&'static str, u32, &'static str, &'static str);

const DSP: [Row; 8] = [
    ("DspStatus from Dsp", 1, "send Dsp DspQuery", "WaitDspQuery"),
    (
        "DspQueryResp from Dsp",
        2,
        "send Dsp DevInfoReq",
        "WaitDevInfo",
    ),
    (
        "DevInfoResp from Dsp",
        3,
        "send Dsp ProdInfoReq sub_query=0x00",
        "WaitProdInfo0",
    ),
    (
        "ProdInfoResp from Dsp",
        4,
        "send Dsp ProdInfoReq sub_query=0x08",
        "WaitProdInfo1",
    ),
    (
        "ProdInfoResp from Dsp",
        5,
        "send Dsp ProdInfoReq sub_query=0x09",
        "WaitProdInfo2",
    ),
    (
        "ProdInfoResp from Dsp",
        6,
        "send Dsp ConfigQuery",
        "WaitConfig",
    ),
    (
        "ConfigResp from Dsp",
        7,
        "send Dsp ParamValue param_id=0x01 int24=1",
        "WaitPowerMode",
    ),
    ("ConfigAck 0x3F from Dsp", 8, "no send", "Done"),
];

const AVR: [Row; 12] = [
    (
        "AvrStatus from Avr",
        1,
        "send Avr StatusPoll pi_mode=false",
        "WaitStatus2",
    ),
    (
        "AvrStatus from Avr",
        2,
        "send Avr DevInfoReq",
        "WaitDevInfo1",
    ),
    (
        "DevInfoResp from Avr",
        3,
        "send Avr DevInfoReq",
        "WaitDevInfo2",
    ),
    (
        "DevInfoResp from Avr",
        4,
        "send Avr ParamReadReq param_id=0x0C",
        "WaitParam0C",
    ),
    (
        "ParamValue from Avr",
        5,
        "send Avr ParamReadReq param_id=0x0D",
        "WaitParam0D",
    ),
    (
        "ParamValue from Avr",
        6,
        "send Avr ConfigQuery",
        "WaitConfig",
    ),
    (
        "ConfigResp from Avr",
        7,
        "send Avr CalDataReq sub_cmd=0x03 payload=090000030000000000A5|..........|",
        "WaitFactoryCal",
    ),
    (
        "CalDataResp from Avr",
        8,
        "send Avr CalParamReq",
        "WaitIfCal",
    ),
    (
        "CalParamResp from Avr",
        9,
        "send Avr AvrConfigQuery",
        "WaitAvrConfig",
    ),
    (
        "AvrConfigResp from Avr",
        10,
        "send Avr ParamReadReq param_id=0x64",
        "WaitParam64",
    ),
    (
        "ParamValue from Avr",
        11,
        "send Avr TimeSync epoch=0 session=0 tail=0001",
        "WaitTimeSync",
    ),
    ("TimeSync from Avr", 12, "no send", "Done"),
];

const PI: [Row; 16] = [
    ("PiStatus from Pi", 1, "send Pi DevInfoReq", "WaitDevInfo"),
    (
        "DevInfoResp from Pi",
        2,
        "send Pi ParamReadReq param_id=0x0A",
        "WaitParam0A",
    ),
    (
        "ParamValue from Pi",
        3,
        "send Pi CamConfigReq",
        "WaitCamConfig1",
    ),
    (
        "CamConfig from Pi",
        4,
        "send Pi CamConfigReq",
        "WaitCamConfig2",
    ),
    (
        "CamConfig from Pi",
        5,
        "send Pi NetConfigReq query_password=false",
        "WaitNetConfig",
    ),
    (
        "NetConfigResp from Pi",
        6,
        "send Pi NetConfigReq query_password=true",
        "WaitNetConfigPw",
    ),
    (
        "NetConfigResp from Pi",
        7,
        "send Pi ParamReadReq param_id=0x01",
        "WaitParams idx=0",
    ),
    (
        "ParamValue from Pi",
        8,
        "send Pi ParamReadReq param_id=0x07",
        "WaitParams idx=1",
    ),
    (
        "ParamValue from Pi",
        9,
        "send Pi ParamReadReq param_id=0x08",
        "WaitParams idx=2",
    ),
    (
        "ParamValue from Pi",
        10,
        "send Pi ParamReadReq param_id=0x09",
        "WaitParams idx=3",
    ),
    (
        "ParamValue from Pi",
        11,
        "send Pi ParamReadReq param_id=0x06",
        "WaitParams idx=4",
    ),
    (
        "ParamValue from Pi",
        12,
        "send Pi ParamReadReq param_id=0x0B",
        "WaitParams idx=5",
    ),
    (
        "ParamValue from Pi",
        13,
        "send Pi ParamReadReq param_id=0x03",
        "WaitParams idx=6",
    ),
    (
        "ParamValue from Pi",
        14,
        "send Pi ParamReadReq param_id=0x04",
        "WaitParams idx=7",
    ),
    (
        "ParamValue from Pi",
        15,
        "send Pi ParamReadReq param_id=0x05",
        "WaitParams idx=8",
    ),
    ("ParamValue from Pi", 16, "no send", "Done"),
];

/// Without the power-mode step the DSP is done with entry 7.
fn dsp_rows(model: &str) -> Vec<Row> {
    match model {
        "Xi" => DSP.to_vec(),
        _ => {
            let mut rows = DSP[..7].to_vec();
            (rows[6].2, rows[6].3) = ("no send", "Done");
            rows
        }
    }
}

/// Without the factory calibration there is no 8, and the AVR is done with 9.
fn avr_rows(model: &str) -> Vec<Row> {
    match model {
        "Xi" => {
            let mut rows = AVR[..7].to_vec();
            (rows[6].2, rows[6].3) = ("send Avr CalParamReq", "WaitIfCal");
            rows.push(("CalParamResp from Avr", 9, "no send", "Done"));
            rows
        }
        _ => AVR.to_vec(),
    }
}

fn has_camera(model: &str) -> bool {
    model == "Mevo"
}

/// The first sends of the others, and their steps.
fn hand_over(model: &str) -> (&'static str, &'static str) {
    match has_camera(model) {
        true => (
            "send Avr StatusPoll pi_mode=false; send Pi StatusPoll pi_mode=true",
            "D Done; A WaitStatus1; P WaitStatus",
        ),
        false => ("send Avr StatusPoll pi_mode=false", "D Done; A WaitStatus1"),
    }
}

/// Calls with their answers.
type Pairs = Vec<(String, String)>;

/// Up to the DSP's end, a call each second. The last is answered by what the
/// others begin with.
fn begun(model: &str) -> Pairs {
    let mut pairs = vec![(
        "session".to_string(),
        "send Dsp StatusPoll pi_mode=false; D WaitStatus".to_string(),
    )];
    for (place, (named, entry, send, next)) in dsp_rows(model).into_iter().enumerate() {
        let feed = message(named, model, (1 + place as u64) * SECOND);
        let (send, steps) = match next {
            "Done" => hand_over(model),
            _ => (send, next),
        };
        let steps = match next {
            "Done" => steps.to_string(),
            _ => format!("D {steps}"),
        };
        pairs.push((feed, format!("accepted; ticked D{entry}; {send}; {steps}")));
    }
    pairs
}

/// The rest, of the AVR and the Pi in this order, each call at this many
/// nanoseconds behind the one before.
fn rest(model: &str, order: &str, apart: u64) -> Pairs {
    let (mut avr, mut pi) = (avr_rows(model).into_iter(), PI.into_iter());
    let (mut avr_step, mut pi_step) = ("WaitStatus1", "WaitStatus");
    let (mut now, mut pairs) = (20 * SECOND, Pairs::new());
    for letter in order.chars() {
        let (rows, step): (&mut dyn Iterator<Item = Row>, _) = match letter {
            'A' => (&mut avr, &mut avr_step),
            _ => (&mut pi, &mut pi_step),
        };
        let (named, entry, send, next) = rows.next().expect("a row");
        *step = next;
        let steps = match has_camera(model) {
            true => format!("D Done; A {avr_step}; P {pi_step}"),
            false => format!("D Done; A {avr_step}"),
        };
        let answer = format!("accepted; ticked {letter}{entry}; {send}; {steps}");
        pairs.push((message(named, "Mevo", now), answer));
        now += apart;
    }
    pairs
}

fn pair(line: &str, answer: &str) -> (String, String) {
    (line.to_string(), answer.to_string())
}

#[track_caller]
fn check(pairs: &[(String, String)]) {
    let list: Vec<&str> = pairs.iter().map(|(line, _)| &line[..]).collect();
    let answers = answers(&list.join("\n"), false);
    let expected = pairs.iter().enumerate();
    let expected: Vec<String> = expected
        .map(|(i, (_, a))| format!("{}: {a}", i + 1))
        .collect();
    assert_eq!(answers.lines().collect::<Vec<_>>(), expected);
}

fn lines(pairs: &[(String, String)]) -> String {
    pairs.iter().map(|(line, _)| format!("{line}\n")).collect()
}

/// The states behind each line.
fn states(list: &str) -> Vec<String> {
    let answers = answers(list, true);
    let states = answers
        .lines()
        .filter_map(|line| line.split_once("; state "));
    states.map(|(_, state)| state.to_string()).collect()
}

/// The fields of the last state's start-up with this letter.
fn state(list: &str, letter: char) -> String {
    of_letter(states(list).last().expect("a state"), letter)
}

/// No field of these lists has a semicolon.
fn of_letter(state: &str, letter: char) -> String {
    let mut parts = state.split("; ");
    let start = format!("{letter} ");
    let found = parts.find_map(|part| part.strip_prefix(&start));
    found.expect(state).to_string()
}

/// An order of the AVR's and the Pi's entries.
fn mixed(random: &mut Random, avr: usize, pi: usize) -> String {
    let (mut avr, mut pi, mut order) = (avr, pi, String::new());
    while avr + pi > 0 {
        let is_avr = random.index(avr + pi) < avr;
        order.push(if is_avr { 'A' } else { 'P' });
        (avr, pi) = (avr - usize::from(is_avr), pi - usize::from(!is_avr));
    }
    order
}

// ---- whole sessions

/// In whatever order the AVR's and the Pi's replies come, at other readings or
/// at the same.
#[test]
fn a_mevo() {
    let mut random = Random::new(1);
    let mut orders = vec![
        "A".repeat(12) + &"P".repeat(16),
        "P".repeat(16) + &"A".repeat(12),
        "AP".repeat(12) + "PPPP",
    ];
    orders.extend((0..20).map(|_| mixed(&mut random, 12, 16)));
    for order in orders {
        for apart in [0, 1, SECOND] {
            check(&[begun("Mevo"), rest("Mevo", &order, apart)].concat());
        }
    }
}

#[test]
fn a_xi_and_a_rig() {
    check(&[begun("Xi"), rest("Xi", &"A".repeat(8), 5)].concat());
    check(&[begun("Rig"), rest("Rig", &"A".repeat(12), 5)].concat());
}

/// The payload of the DSP's third reply tells the unit: both tags are a Xi's,
/// none is a Mevo's, and neither its text nor what comes later is looked at.
#[test]
fn the_unit() {
    for (info, model) in [
        ("payload=\"..FS Xi\"", "Xi"),
        ("text=\"BAY RIG\" payload=\"BAY RIG FS Xi\"", "Xi"),
        ("text=\"FS Xi\" payload=\"unit BAY RIG\"", "Rig"),
        ("text=\"FS Xi BAY RIG\" payload=\"FS X BAY RI\"", "Mevo"),
        ("", "Mevo"),
    ] {
        let mut pairs = begun(model);
        pairs[3].0 = format!("feed {} Dsp 0xE7 DevInfoResp {info}", 3 * SECOND);
        let unit = pairs.len();
        let order = match model {
            "Mevo" => "AAAPPA",
            _ => "AAA",
        };
        pairs.extend(rest(model, order, 1));
        // the AVR's and the Pi's device infos name another
        for (line, _) in &mut pairs[unit..] {
            *line = line.replace("FS Mevo", "FS Xi BAY RIG");
        }
        check(&pairs);
        let late = message("DevInfoResp from Dsp", "Xi", 30 * SECOND);
        let steps = pairs
            .last()
            .unwrap()
            .1
            .split_once("; D ")
            .unwrap()
            .1
            .to_string();
        pairs.push((late, format!("accepted; no send; D {steps}")));
        check(&pairs);
    }
}

/// By a reply, a nack or a check the DSP of a Xi is ended, and the others begin
/// in that call.
#[test]
fn ways_to_end_the_dsp() {
    let nack = message("ConfigNack 0x3F from Dsp", "Xi", 9 * SECOND);
    for last in ["check 9000000000", "check 9000000001", &nack] {
        let mut pairs = begun("Xi");
        pairs.last_mut().unwrap().0 = last.to_string();
        pairs.extend(rest("Xi", "AAAAAAAA", 0));
        check(&pairs);
    }
    // one too early, and one from elsewhere, ends nothing
    let mut pairs = begun("Xi");
    let last = pairs.pop().unwrap();
    let waiting = "accepted; no send; D WaitPowerMode";
    pairs.push(pair("check 8999999999", waiting));
    let other = message("ConfigAck 0x3F from Avr", "Xi", 9 * SECOND);
    pairs.push((other, waiting.to_string()));
    pairs.push((last.0.replace("8000000000", "9000000000"), last.1));
    check(&pairs);
}

/// A Xi's session is done by a check, too.
#[test]
fn done_by_a_check() {
    let mut pairs = begun("Xi");
    pairs.extend(rest("Xi", "AAAAAAA", 0));
    pairs.push(pair(
        "check 21999999999",
        "accepted; no send; D Done; A WaitIfCal",
    ));
    pairs.push(pair("result", "refused 12"));
    pairs.push(pair(
        "check 22000000000",
        "accepted; ticked A9; no send; D Done; A Done",
    ));
    check(&pairs);
    let list = lines(&pairs) + "result\n";
    let result = answers(&list, false).lines().last().unwrap().to_string();
    let configs = format!("params={PARAMS} factory_cal=none if_cal=none avr_config=none; P none");
    assert!(result.ends_with(&configs), "{result}");
}

/// One that begins leaves nothing of what ran before.
#[test]
fn another_begins() {
    let first = [begun("Mevo"), rest("Mevo", "AAP", 1)].concat();
    let again = [first.clone(), begun("Xi"), rest("Xi", "AA", 1)].concat();
    check(&again);
    let alone = states(&lines(&[begun("Xi"), rest("Xi", "AA", 1)].concat()));
    assert!(states(&lines(&again)).ends_with(&alone));
    let mut pairs = first;
    pairs.push(pair("dsp", "send Dsp StatusPoll pi_mode=false; WaitStatus"));
    pairs.push(pair("pi", "send Pi StatusPoll pi_mode=true; WaitStatus"));
    pairs.push(pair(
        "retries",
        "bad line at column 1: not a call of this sequence",
    ));
    pairs.push(pair(
        "arm Xi",
        "send Dsp StatusPoll pi_mode=false; WaitDspStatus",
    ));
    pairs.push(pair("retries", "0"));
    pairs.extend(begun("Rig"));
    check(&pairs);
}

// ---- who hears what

/// Before the DSP is done no other has begun: what they would go by is heard by
/// the DSP alone, and is none of theirs afterwards.
#[test]
fn nothing_before_the_start() {
    let early = |now: u64| {
        let named = [
            "AvrStatus from Avr",
            "PiStatus from Pi",
            "DevInfoResp from Avr",
        ];
        named.map(|named| message(named, "Mevo", now))
    };
    let mut pairs = Pairs::new();
    for (line, answer) in begun("Mevo") {
        let is_last = answer.contains("; A ");
        let (_, step) = answer.rsplit_once("; D ").unwrap();
        let answered = format!("accepted; no send; D {step}");
        pairs.push((line, answer.clone()));
        if !is_last {
            let now = (pairs.len() as u64 / 4) * SECOND;
            pairs.extend(early(now).map(|line| (line, answered.clone())));
        }
    }
    assert_eq!(pairs.len(), 1 + 7 + 3 * 7);
    pairs.push(pair("sheet A", "accepted; wrote 0; sheet=\"\""));
    pairs.push(pair("sheet P", "accepted; wrote 0; sheet=\"\""));
    pairs.extend(rest("Mevo", "APPA", 0));
    check(&pairs);
}

/// The call that ends the DSP is heard by no other: their last reading is 0
/// behind it, and they have nothing.
#[test]
fn what_ends_the_dsp_is_not_passed_on() {
    let avr = "last=0 status=none dev_info=none params=none factory_cal=none if_cal=none \
        avr_config=none cal_deadline=none repoll_at=none ticks=none";
    let pi = "dev_info=none cam_config=none ssid=|| password=|| ticks=none";
    let mut by_check = begun("Xi");
    by_check.last_mut().unwrap().0 = "check 9000000000".to_string();
    for (pairs, last) in [
        (begun("Mevo"), 7 * SECOND),
        (begun("Rig"), 7 * SECOND),
        (begun("Xi"), 8 * SECOND),
        (by_check, 9 * SECOND),
    ] {
        let list = lines(&pairs);
        assert!(state(&list, 'D').starts_with(&format!("last={last} ")));
        assert_eq!(state(&list, 'A'), avr);
        let expected = if last == 7 * SECOND && !list.contains("BAY RIG") {
            pi
        } else {
            "none"
        };
        assert_eq!(state(&list, 'P'), expected);
        // nothing has begun before
        let (before, _) = list.trim_end().rsplit_once('\n').unwrap();
        assert_eq!([state(before, 'A'), state(before, 'P')], ["none", "none"]);
    }
}

/// The last readings of DSP and AVR, and whether the Pi has ticked.
fn heard(list: &str) -> [String; 3] {
    let first = |letter| state(list, letter).split(' ').next().unwrap().to_string();
    let pi = state(list, 'P');
    let ticks = pi.rsplit(' ').next().unwrap();
    [first('D'), first('A'), ticks.to_string()]
}

/// Then all hear every envelope, from whatever source, and DSP and AVR every
/// check.
#[test]
fn all_that_have_begun() {
    let mut list = lines(&begun("Mevo"));
    for (call, readings, ticks) in [
        ("check 7000000001", "7000000001", "none"),
        ("feed 7000000002 App 1 Other", "7000000002", "none"),
        ("feed 7000000003 Pi 0xAA PiStatus", "7000000003", "0R"),
        ("feed 7000000004 Dsp 0xAA PiStatus", "7000000004", "0R"),
        ("feed 7000000004 Pi 0xE7 DevInfoResp", "7000000004", "0R,0R"),
        ("check 99000000000", "99000000000", "0R,0R"),
    ] {
        list += &format!("{call}\n");
        let last = format!("last={readings}");
        assert_eq!(heard(&list), [&last[..], &last, &format!("ticks={ticks}")]);
    }
    let by_avr = list + &message("AvrStatus from Avr", "Mevo", 99 * SECOND) + "\n";
    assert!(state(&by_avr, 'A').ends_with(" ticks=99000000000R"));
    assert!(state(&by_avr, 'D').contains(" ticks=1000000000R,2000000000R,"));
}

/// A check goes by the AVR's deadlines, and polls again.
#[test]
fn checks_of_the_avr() {
    let mut pairs = begun("Mevo");
    let nack = message("ConfigNack 0x2A from Avr", "Mevo", 10 * SECOND);
    let steps = "D Done; A WaitStatus1; P WaitStatus";
    pairs.push((nack, format!("accepted; no send; {steps}")));
    pairs.push(pair(
        "check 10999999999",
        &format!("accepted; no send; {steps}"),
    ));
    let again = format!("accepted; send Avr StatusPoll pi_mode=false; {steps}");
    pairs.push(pair("check 11000000000", &again));
    pairs.push(pair(
        "check 11000000000",
        &format!("accepted; no send; {steps}"),
    ));
    pairs.extend(rest("Mevo", "AAAAAAA", 0));
    let steps = |avr: &str| format!("D Done; A {avr}; P WaitStatus");
    let eighth = format!(
        "accepted; ticked A8; send Avr CalParamReq; {}",
        steps("WaitIfCal")
    );
    let ninth = format!(
        "accepted; ticked A9; send Avr AvrConfigQuery; {}",
        steps("WaitAvrConfig")
    );
    pairs.push(pair("check 22000000000", &eighth));
    pairs.push(pair("check 24000000000", &ninth));
    pairs.push(pair("sheet A 0 0", "refused 5; buffer=\"\""));
    check(&pairs);
}

// ---- refusals

/// The lowest is given, at whatever step, and nothing changes. The session's
/// last reading counts, also for the first call that the AVR hears.
#[test]
fn refusals() {
    let long = format!("text={}", "41".repeat(257));
    let payload = format!("payload={}", "41".repeat(257));
    let late = 18_446_744_071_709_551_616_u64;
    let whole = [
        begun("Mevo"),
        rest("Mevo", &"AP".repeat(12), 7),
        rest_of_the_pi(),
    ]
    .concat();
    for end in [1, 2, 5, 8, 9, 10, 20, whole.len()] {
        let mut pairs = whole[..end].to_vec();
        let steps = pairs[end - 1].1.split_once("; D ").unwrap().1.to_string();
        let last = reading(&pairs[end - 1].0);
        let before = states(&lines(&pairs)).pop();
        let fallen = last.saturating_sub(1);
        for (line, number) in [
            (format!("feed {late} Avr 1 Other {long} {payload}"), 1),
            (format!("feed {fallen} Pi 0xAA PiStatus {long}"), 1),
            (format!("feed {fallen} Avr 1 Other {payload}"), 2),
            (format!("feed {late} Dsp 1 Other {payload}"), 2),
            (format!("feed {late} App 1 Other"), 3),
            (format!("check {late}"), 3),
            ("check 18446744073709551615".to_string(), 3),
            (message("AvrStatus from Avr", "Mevo", fallen), 11),
            (message("PiStatus from Pi", "Mevo", fallen), 11),
            (format!("check {fallen}"), 11),
        ] {
            if number != 11 || fallen < last {
                pairs.push((line, format!("refused {number}; no send; D {steps}")));
            }
        }
        check(&pairs);
        let after = states(&lines(&pairs)).pop();
        assert_eq!(before, after);
        pairs.push((
            format!("check {last}"),
            format!("accepted; no send; D {steps}"),
        ));
        check(&pairs);
    }
}

/// What `"AP".repeat(12)` leaves of the Pi.
fn rest_of_the_pi() -> Pairs {
    let order = "AP".repeat(12) + "PPPP";
    rest("Mevo", &order, 7)[24..].to_vec()
}

fn reading(line: &str) -> u64 {
    let now = line.split(' ').nth(1);
    now.map_or(0, |now| now.parse().unwrap())
}

/// The last reading that may be, and 0 at the beginning.
#[test]
fn readings() {
    let status = message("DspStatus from Dsp", "Xi", 0);
    let queried = "accepted; ticked D1; send Dsp DspQuery; D WaitDspQuery";
    check(&[
        begun("Xi")[0].clone(),
        (status, queried.to_string()),
        pair("check 0", "accepted; no send; D WaitDspQuery"),
        pair(
            "check 18446744071709551615",
            "accepted; ticked D2; send Dsp DevInfoReq; D WaitDevInfo",
        ),
        pair(
            "check 18446744071709551614",
            "refused 11; no send; D WaitDevInfo",
        ),
    ]);
}

// ---- results

/// 12 until all are done that the model has, whichever is done last. Then it is
/// what the start-ups come to alone, whatever comes afterwards.
#[test]
fn results() {
    let mut random = Random::new(2);
    let between = mixed(&mut random, 12, 16);
    for (model, order) in [
        ("Mevo", "A".repeat(12) + &"P".repeat(16)),
        ("Mevo", "P".repeat(16) + &"A".repeat(12)),
        ("Mevo", between),
        ("Rig", "A".repeat(12)),
        ("Xi", "A".repeat(8)),
    ] {
        let made = [begun(model), rest(model, &order, 3)].concat();
        let calls = made.iter().cloned();
        let mut pairs: Pairs = calls
            .flat_map(|call| [call, pair("result", "refused 12")])
            .collect();
        let alone = alone(model, &made);
        pairs.last_mut().unwrap().1 = alone.clone();
        let steps = made
            .last()
            .unwrap()
            .1
            .split_once("; D ")
            .unwrap()
            .1
            .to_string();
        for named in [
            "DevInfoResp from Dsp",
            "AvrStatus from Avr",
            "PiStatus from Pi",
        ] {
            let late = message(named, "Xi", 40 * SECOND);
            pairs.push((late, format!("accepted; no send; D {steps}")));
        }
        pairs.push((
            format!("check {}", 50 * SECOND),
            format!("accepted; no send; D {steps}"),
        ));
        pairs.push(("result".to_string(), alone));
        check(&pairs);
    }
}

/// The results of start-ups that are fed what ticks them in a session.
fn alone(model: &str, session: &Pairs) -> String {
    let result = |begin: &str, letter: char| {
        let ticks = format!("accepted; ticked {letter}");
        let its = session
            .iter()
            .filter(|(_, answer)| answer.starts_with(&ticks));
        let list: String = its.map(|(line, _)| format!("{line}\n")).collect();
        let answers = answers(&format!("{begin}\n{list}result\n"), false);
        let (_, told) = answers
            .trim_end()
            .rsplit_once(": accepted; ")
            .expect(&answers);
        told.to_string()
    };
    let (dsp, avr) = (result("dsp", 'D'), result(&format!("avr {model}"), 'A'));
    let pi = match has_camera(model) {
        true => result("pi", 'P'),
        false => "none".to_string(),
    };
    format!("accepted; D {dsp}; A {avr}; P {pi}")
}

/// With the DSP alone done it is 12, also where all that the others go by was
/// fed before.
#[test]
fn with_the_dsp_alone() {
    for model in ["Mevo", "Xi", "Rig"] {
        let order = "A".repeat(avr_rows(model).len());
        let early = [rest(model, &order, 0), rest("Mevo", &"P".repeat(16), 0)].concat();
        let replies = begun(model)[1..].to_vec();
        let late = |(line, answer): (String, String)| {
            let (feed, now) = line.split_once(' ').unwrap();
            let (_, rest) = now.split_once(' ').unwrap();
            (format!("{feed} {} {rest}", 20 * SECOND), answer)
        };
        let mut pairs = begun(model)[..1].to_vec();
        let unawaited = "accepted; no send; D WaitStatus".to_string();
        pairs.extend(early.into_iter().map(|(line, _)| (line, unawaited.clone())));
        pairs.extend(replies.into_iter().map(late));
        pairs.push(pair("result", "refused 12"));
        check(&pairs);
    }
}

// ---- the nack and the sheets

/// The nack that ended a Xi's DSP is taken once, whenever.
#[test]
fn the_kept_nack() {
    let nack = message("ConfigNack 0x3F from Dsp", "Xi", 8 * SECOND);
    let mut pairs = begun("Xi");
    pairs.insert(5, pair("take", "none"));
    pairs.last_mut().unwrap().0 = nack.clone();
    let kept = pair(
        "take",
        "nack src=Dsp type_id=0x00 bus_addr=0x30 acked_cmd=0x3F",
    );
    let none = pair("take", "none");
    check(&[pairs.clone(), vec![kept.clone(), none.clone()]].concat());
    let all = rest("Xi", "AAAAAAAA", 1);
    let again = message("ConfigNack 0x3F from Dsp", "Xi", 30 * SECOND);
    let again = (again, "accepted; no send; D Done; A Done".to_string());
    check(
        &[
            pairs,
            all,
            vec![again.clone(), kept, none.clone(), again, none],
        ]
        .concat(),
    );
}

/// Of a start-up that has not begun it is empty; a Pi never begins without a
/// camera.
#[test]
fn sheets() {
    let empty = [
        pair("sheet A", "accepted; wrote 0; sheet=\"\""),
        pair("sheet P", "accepted; wrote 0; sheet=\"\""),
        pair("sheet A 5 5", "accepted; wrote 0; buffer=\".....\""),
        pair("sheet P 6 5", "refused 5; buffer=\".....\""),
        pair("sheet A 18446744073709551615 0", "refused 5; buffer=\"\""),
    ];
    let mut pairs = begun("Xi");
    let last = pairs.pop().unwrap();
    let mut calls = vec![
        pairs[0].clone(),
        pair("sheet D", "accepted; wrote 0; sheet=\"\""),
    ];
    calls.extend(empty.clone());
    calls.extend(pairs[1..].to_vec());
    calls.extend(empty.clone());
    calls.push(last);
    calls.extend(empty.clone());
    calls.extend(rest("Xi", "AA", 1));
    let lines = [
        "D,1,1000000000,R",
        "D,2,2000000000,R",
        "D,3,3000000000,R",
        "D,4,4000000000,R",
        "D,5,5000000000,R",
        "D,6,6000000000,R",
        "D,7,7000000000,R",
        "D,8,8000000000,R",
        "A,1,20000000000,R",
        "A,2,20000000001,R",
    ];
    let text = |lines: &[&str]| {
        lines
            .iter()
            .map(|l| format!(r"{l}\x0A"))
            .collect::<String>()
    };
    let (dsp, avr) = (text(&lines[..8]), text(&lines[8..]));
    let wrote = |count: usize, rest: &str| format!("accepted; wrote {count}; {rest}");
    calls.push(("sheet D".into(), wrote(8 * 17, &format!("sheet=\"{dsp}\""))));
    calls.push(("sheet A".into(), wrote(36, &format!("sheet=\"{avr}\""))));
    calls.push((
        "sheet A 2 39".into(),
        wrote(36, &format!("buffer=\"..{avr}.\"")),
    ));
    calls.push((
        "sheet A 2 37".into(),
        format!("refused 5; buffer=\"{}\"", ".".repeat(37)),
    ));
    calls.extend(empty[1..2].to_vec());
    check(&calls);
    let mevo = [begun("Mevo"), rest("Mevo", "PAP", 1)].concat();
    let sheet = pair(
        "sheet P",
        r#"accepted; wrote 16; sheet="P,1,0,R\x0AP,2,0,R\x0A""#,
    );
    check(&[mevo, vec![sheet]].concat());
}

// ---- shown to people

fn shown(list: &str, with_state: bool) -> String {
    let (mut out, secrets) = (Vec::new(), false);
    let form = Form {
        with_state,
        secrets,
    };
    show::run(&mut list.as_bytes(), &mut out, form).unwrap();
    String::from_utf8(out).unwrap()
}

/// What is shown below the last line of a list, and what the list comes to.
fn shown_last(pairs: &[(String, String)]) -> (String, String) {
    let (mut shown, mut last, mut end) = (Show::new(Form::default()), Vec::new(), Vec::new());
    for (line, _) in pairs {
        last.clear();
        shown.line(line.as_bytes(), &mut last);
    }
    shown.finish(&mut end);
    let text = |bytes| String::from_utf8(bytes).unwrap();
    // what is folded of the line itself stands behind more blanks
    let is_answer = |line: &&str| line.starts_with("    ") && !line.starts_with("     ");
    let last = text(last);
    let below: Vec<&str> = last.lines().skip_while(|line| !is_answer(line)).collect();
    (below.join("\n"), text(end))
}

/// The three side by side, from columns 5, 37 and 69 on.
#[test]
fn side_by_side() {
    for (pairs, expected) in [
        (
            begun("Mevo")[..1].to_vec(),
            "    send Dsp StatusPoll pi_mode=false
    D now WaitStatus                A has not begun                 P has not begun",
        ),
        (
            begun("Mevo")[..2].to_vec(),
            "    reading 1000000000  1.000000000 s
    accepted, ticked D1
    send Dsp DspQuery
    D now WaitDspQuery              A has not begun                 P has not begun",
        ),
        (
            begun("Mevo"),
            "    reading 7000000000  7.000000000 s
    accepted, ticked D7
    send Avr StatusPoll pi_mode=false
    send Pi StatusPoll pi_mode=true
    D now Done                      A now WaitStatus1               P now WaitStatus",
        ),
        (
            begun("Rig"),
            "    reading 7000000000  7.000000000 s
    accepted, ticked D7
    send Avr StatusPoll pi_mode=false
    D now Done                      A now WaitStatus1               P no camera",
        ),
        (
            [begun("Mevo"), rest("Mevo", "PA", 0)].concat(),
            "    reading 20000000000  20.000000000 s
    accepted, ticked A1
    send Avr StatusPoll pi_mode=false
    D still Done                    A now WaitStatus2               P still WaitDevInfo",
        ),
        (
            [begun("Mevo"), rest("Mevo", &"P".repeat(9), 0)].concat(),
            "    reading 20000000000  20.000000000 s
    accepted, ticked P9
    send Pi ParamReadReq param_id=0x08
    D still Done                    A still WaitStatus1             P now WaitParams idx=2",
        ),
        (
            [begun("Xi"), vec![pair("check 8000000000", "")]].concat(),
            "    reading 8000000000  8.000000000 s
    accepted, ticked nothing
    no send
    D still Done                    A still WaitStatus1             P no camera",
        ),
        (
            [begun("Xi"), vec![pair("check 7999999999", "")]].concat(),
            "    reading 7999999999  7.999999999 s
    refused 11: the reading is below the last accepted one
    no send
    D still Done                    A still WaitStatus1             P no camera",
        ),
        (
            [begun("Xi"), rest("Xi", "A", 0), begun("Xi")[..1].to_vec()].concat(),
            "    send Dsp StatusPoll pi_mode=false
    D now WaitStatus                A has not begun                 P has not begun",
        ),
        (
            [begun("Xi"), vec![pair("sheet D 2 1000", "")]].concat()[..].to_vec(),
            "    accepted
    wrote 136
      D,1,1000000000,R
      D,2,2000000000,R
      D,3,3000000000,R
      D,4,4000000000,R
      D,5,5000000000,R
      D,6,6000000000,R
      D,7,7000000000,R
      D,8,8000000000,R",
        ),
    ] {
        assert_eq!(shown_last(&pairs).0, expected);
    }
}

/// At the end each start-up has a line, or more, and then the session one.
#[test]
fn what_a_session_comes_to() {
    let of_dsp = "the DSP start-up is done\n";
    for (pairs, expected) in [
        (
            begun("Mevo")[..1].to_vec(),
            "1 call, 0 refused, 0 bad lines
the DSP start-up is not done: WaitStatus waits for DspStatus from Dsp
the AVR start-up has not begun
the Pi start-up has not begun
the session is not done
"
            .to_string(),
        ),
        (
            [begun("Mevo"), rest("Mevo", &"P".repeat(9), 0)].concat(),
            format!(
                "17 calls, 0 refused, 0 bad lines
{of_dsp}the AVR start-up is not done: WaitStatus1 waits for AvrStatus from Avr
the Pi start-up is not done: WaitParams waits for ParamValue from Pi
the session is not done
withheld: ssid, password, their lengths and the texts of network replies; --secrets shows them
"
            ),
        ),
        (
            begun("Rig"),
            format!(
                "8 calls, 0 refused, 0 bad lines
{of_dsp}the AVR start-up is not done: WaitStatus1 waits for AvrStatus from Avr
the Pi start-up: no camera
the session is not done
"
            ),
        ),
        (
            [begun("Xi"), rest("Xi", "AAAAAAA", 0)].concat(),
            format!(
                "16 calls, 0 refused, 0 bad lines
{of_dsp}the AVR start-up is not done: WaitIfCal waits for CalParamResp from Avr, or a check after 2 s
the Pi start-up: no camera
the session is not done
"
            ),
        ),
        (
            [begun("Xi"), rest("Xi", "AAAAAAAA", 0)].concat(),
            format!(
                "17 calls, 0 refused, 0 bad lines
{of_dsp}the AVR start-up is done
the Pi start-up: no camera
the session is done
"
            ),
        ),
        (
            [begun("Xi"), vec![pair("sheet P 1 0", ""), pair("disarm", "")]].concat(),
            "11 calls, 1 refused, 0 bad lines
the disarm is not done: WaitAck waits for ConfigAck from Avr
"
            .to_string(),
        ),
    ] {
        assert_eq!(shown_last(&pairs).1, format!("\n{expected}"));
    }
}

/// The fields stand below the name of their start-up.
#[test]
fn fields_below_names() {
    let first = shown("session\n", true);
    let expected = "    state
      D  the DSP start-up
      last                    0  0.000000000 s
      status                  none
      hw_info                 none
      dev_info                none
      prod_info 0             empty
      prod_info 1             empty
      prod_info 2             empty
      params                  none
      deadline                none
      refused                 none
      power_mode_unanswered   false
      ticks                   none
      A  none
      P  none

1 call, 0 refused, 0 bad lines
";
    assert!(first.contains(expected), "{first}");
    let whole = [
        begun("Mevo"),
        rest("Mevo", &("A".repeat(12) + &"P".repeat(16)), 0),
    ]
    .concat();
    let mevo = shown(&(lines(&whole) + "result\n"), true);
    let (_, below) = mevo.split_once("\nresult\n").unwrap();
    let (result, state) = below.split_once("    state\n").unwrap();
    for (told, first) in [(result, "status"), (state, "last")] {
        let heads: Vec<&str> = told
            .lines()
            .filter(|line| line.starts_with("      ") && line.contains(" start-up"))
            .collect();
        let expected = [
            "      D  the DSP start-up",
            "      A  the AVR start-up",
            "      P  the Pi start-up",
        ];
        assert_eq!(heads, expected);
        let (_, dsp) = told.split_once("      D  the DSP start-up\n").unwrap();
        let (dsp, avr) = dsp.split_once("      A  the AVR start-up\n").unwrap();
        let (avr, pi) = avr.split_once("      P  the Pi start-up\n").unwrap();
        for part in [dsp, avr] {
            assert!(part.starts_with(&format!("      {first}")), "{part}");
        }
        assert!(dsp.contains("      prod_info 2             "), "{dsp}");
        assert!(
            avr.contains("\n      factory_cal\n        payload               empty\n"),
            "{avr}"
        );
        let network =
            "      ssid                    (withheld)\n      password                (withheld)\n";
        assert!(pi.contains(network), "{pi}");
    }
    assert!(
        result.starts_with("    accepted\n      D  the DSP start-up\n"),
        "{result}"
    );
    assert!(
        result.contains("      tag_place               none\n"),
        "{result}"
    );
    let xi = [begun("Xi"), rest("Xi", "AAAAAAAA", 0)].concat();
    let xi = shown(&(lines(&xi) + "result\n"), false);
    let end = "      avr_config              none\n      P  none\n\n18 calls, ";
    assert!(
        xi.contains(end) && xi.contains("      tag_place               0  \"FS Xi\"\n"),
        "{xi}"
    );
    assert!(!xi.contains("withheld"), "{xi}");
}

/// A Pi's network replies are withheld as elsewhere, and with them its network.
#[test]
fn networks_are_withheld() {
    let with = |one: &str, other: &str| {
        let made = [
            begun("Mevo"),
            rest("Mevo", &("P".repeat(16) + &"A".repeat(12)), 0),
        ]
        .concat();
        let list = lines(&made) + "result\nsheet P\n";
        let (before, rest) = list.split_once(" NetConfigResp text=").unwrap();
        let (_, rest) = rest.split_once('\n').unwrap();
        let (between, rest) = rest.split_once(" NetConfigResp text=").unwrap();
        let (_, rest) = rest.split_once('\n').unwrap();
        let text = |text: &str| format!(" NetConfigResp text=\"{text}\"\n");
        shown(
            &format!("{before}{}{between}{}{rest}", text(one), text(other)),
            true,
        )
    };
    let first = with("", "");
    assert!(
        first.contains("\nthe session is done\nwithheld: "),
        "{first}"
    );
    for (one, other) in [("BAY", "BAY\\x00pw"), ("\\x00", "\\x00p"), ("x", "")] {
        assert_eq!(with(one, other), first);
    }
}

// ---- orders

/// Two neighbouring feeds of different sources at one reading change places:
/// what is stored is the same, and each is answered the same sends.
#[test]
fn neighbours_change_places() {
    let mut random = Random::new(3);
    for _ in 0..40 {
        let order = mixed(&mut random, 12, 16);
        let Some(at) = order.find("AP") else { continue };
        let other = format!("{}PA{}", &order[..at], &order[at + 2..]);
        let made = |order: &str| [begun("Mevo"), rest("Mevo", order, 0)].concat();
        let (one, other) = (made(&order), made(&other));
        let place = begun("Mevo").len() + at;
        assert_eq!(one[place].0, other[place + 1].0);
        let sent = |pairs: &Pairs, place: usize| {
            let (sent, _) = pairs[place].1.split_once("; D ").unwrap();
            sent.to_string()
        };
        assert_eq!(sent(&one, place), sent(&other, place + 1));
        assert_eq!(sent(&one, place + 1), sent(&other, place));
        check(&one);
        check(&other);
        let (one, other) = (states(&lines(&one)), states(&lines(&other)));
        assert_ne!(one[place], other[place]);
        assert_eq!(one[place + 1..], other[place + 1..]);
    }
}

/// A start-up that runs alone, beside one of a session.
struct Alone {
    letter: &'static str,
    front: Front,
    state: Vec<String>,
}

impl Alone {
    fn begin(letter: &'static str, line: &str) -> Alone {
        let (front, state) = (Front::new(true), Vec::new());
        let mut alone = Alone {
            letter,
            front,
            state,
        };
        alone.answer(line);
        alone
    }

    fn answer(&mut self, line: &str) -> String {
        let mut answer = String::new();
        let _ = self.front.line(line.as_bytes(), &mut answer);
        let last = show::parts(answer.trim_end()).pop().expect("a state");
        assert_eq!(last[0], "state");
        self.state = last[1..].iter().map(|word| word.to_string()).collect();
        answer
    }

    /// The others that begin when this, a DSP, is done.
    fn others(&mut self) -> Vec<Alone> {
        let result = self.answer("result");
        let parts = show::parts(&result);
        let mut words = parts[1].iter();
        let model = words
            .find_map(|word| word.strip_prefix("model="))
            .expect("a model");
        let mut others = vec![Alone::begin("A", &format!("avr {model}"))];
        if model == "Mevo" {
            others.push(Alone::begin("P", "pi"));
        }
        others
    }
}

/// Of lists from a seed: each start-up stores what one stores that runs alone
/// and is called as the session says. The DSP is called whatever the session
/// is; the AVR, of the model that the result of the DSP tells, what is accepted
/// since; the Pi the feeds among that.
#[test]
fn start_ups_as_alone() {
    let lists = Source::new(21, SESSIONS, true).list(usize::MAX, 6_000);
    let (mut front, mut alone, mut met) = (Front::new(true), Vec::<Alone>::new(), [0; 3]);
    for line in &lists.lines {
        let mut answer = String::new();
        let Ok(Some(call)) = front.line(line.as_bytes(), &mut answer) else {
            continue;
        };
        let in_session = front
            .view()
            .is_some_and(|view| view.which == Which::Session);
        if !in_session
            || matches!(
                call,
                Call::Ack { .. } | Call::Keepalive { .. } | Call::Model { .. }
            )
        {
            continue;
        }
        let accepted = answer.contains(": accepted; ");
        match call {
            Call::Begin(_) => alone = vec![Alone::begin("D", "dsp")],
            Call::Feed(_) | Call::Check { .. } => {
                let is_feed = matches!(call, Call::Feed(_));
                alone[0].answer(line);
                for other in &mut alone[1..] {
                    if accepted && (is_feed || other.letter == "A") {
                        other.answer(line);
                    }
                }
                let is_done = alone[0].front.view().unwrap().step.name == "Done";
                if is_done && alone.len() == 1 {
                    let others = alone[0].others();
                    alone.extend(others);
                }
            }
            Call::Take => drop(alone[0].answer(line)),
            _ => {}
        }
        let parts = show::parts(answer.trim_end());
        let [dsp, avr, pi] = &parts[parts.len() - 3..] else {
            panic!("{answer}");
        };
        for (place, part) in [&dsp[1..], avr, pi].into_iter().enumerate() {
            let own = alone.iter().find(|own| own.letter == part[0]);
            match own {
                None => assert_eq!(part[1..], ["none"], "{line}"),
                Some(own) => assert_eq!(part[1..], own.state, "{line}"),
            }
            met[place] += usize::from(own.is_some());
        }
    }
    assert!(met.iter().all(|count| *count > 500), "{met:?}");
}
