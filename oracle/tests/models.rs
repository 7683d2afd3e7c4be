//! The eight models: how they are spelled, which one a payload names, and by
//! which fact each call goes. What is expected is written by hand from
//! docs/SCOPE.md, "Model and single sends" and the tables behind it.

mod common;

use common::{MODELS, answers, check_pairs, dsp_result, message, repository};

const SECOND: u64 = 1_000_000_000;

/// The answers without the lines' numbers.
fn bare(list: &str) -> Vec<String> {
    let answers = answers(list, false);
    let bare = |line: &str| line.split_once(": ").unwrap().1.to_string();
    answers.lines().map(bare).collect()
}

#[test]
fn one_spelling_each() {
    const UNKNOWN: &str =
        "unknown model: Mevo, Xi or Rig expected, or the facts of another, as no/yes/yes";
    for (call, column) in [("avr ", 5), ("arm ", 5), ("keepalive ", 11), ("ack ", 5)] {
        for (model, _) in MODELS {
            let behind = if call == "ack " { " Avr 0xD4" } else { "" };
            let answer = &bare(&format!("{call}{model}{behind}"))[0];
            assert!(!answer.contains("bad line"), "{call}{model}: {answer}");
        }
        let bad = format!("bad line at column {column}: {UNKNOWN}");
        for word in [
            "yes/yes/no",
            "no/no/yes",
            "no/yes/no",
            "rig",
            "RIG",
            "mevo",
            "XI",
            "Rigs",
            "yes",
            "no/yes",
            "no/yes/yes/yes",
            "no/yes/",
            "/no/yes",
            "no//yes",
            "no/yes/yes/",
            "No/yes/yes",
            "true/true/true",
            "1/1/1",
            "yes-no-yes",
            "Mevo/no/no",
        ] {
            assert_eq!(bare(&format!("{call}{word}")), [&bad[..]], "{call}{word}");
        }
    }
    let papers = repository("docs/REPLAY.md");
    assert!(papers.contains(&format!("| `{UNKNOWN}` |")));
    // the table of spellings has all eight, each with its facts
    for (model, facts) in MODELS {
        let facts = facts.map(|has| if has { "yes" } else { "no" }).join(" | ");
        let row = format!("| `{model}` | {facts} |");
        assert!(papers.contains(&row), "{row}");
    }
}

/// "FS Xi" is a Xi, else "BAY RIG" a rig, else a Mevo. Capitals count.
#[test]
fn models_of_payloads() {
    check_pairs(&[
        ("model \"BAY RIG\"", "Rig"),
        ("model \"aBAY RIGa\"", "Rig"),
        ("model \"BAY BAY RIG\"", "Rig"),
        ("model \"BAY RIGFS X\"", "Rig"),
        ("model \"BAY RIG FS Xi\"", "Xi"),
        ("model \"FS Xi BAY RIG\"", "Xi"),
        ("model \"FS BAY RIGXi\"", "Rig"),
        ("model \"BAY FS XiRIG\"", "Xi"),
        ("model \"BAY RI\"", "Mevo"),
        ("model \"AY RIG\"", "Mevo"),
        ("model \"BAYRIG\"", "Mevo"),
        ("model \"BAY  RIG\"", "Mevo"),
        ("model \"BAY\\x00RIG\"", "Mevo"),
        ("model \"bay rig\"", "Mevo"),
        ("model \"Bay Rig\"", "Mevo"),
        ("model \"BAY RIBAY RI\"", "Mevo"),
        ("model \"FS X\"", "Mevo"),
        ("model", "Mevo"),
    ]);
}

/// An acknowledgement is for exactly the three facts of a Xi.
#[test]
fn acknowledgements() {
    for (model, facts) in MODELS {
        let lists = [("0xD4", "0x54"), ("0xE8", "0x68")];
        for (id, acked) in lists {
            let expected = match facts == [false, false, true] {
                true => format!("send Avr ConfigAck bus_addr=0x10 acked_cmd={acked}"),
                false => "no send".to_string(),
            };
            assert_eq!(
                bare(&format!("ack {model} Avr {id}")),
                [expected],
                "{model}"
            );
        }
    }
}

/// A keepalive polls the Pi where there is a camera.
#[test]
fn keepalives() {
    for (model, [camera, ..]) in MODELS {
        let last = match camera {
            true => "send Pi StatusPoll pi_mode=true",
            false => "no send",
        };
        let polls = "send Dsp StatusPoll pi_mode=false; send Avr StatusPoll pi_mode=false";
        assert_eq!(
            bare(&format!("keepalive {model}")),
            [format!("{polls}; {last}")],
            "{model}"
        );
    }
}

/// The last answers to a list of messages.
fn fed(begin: &str, named: &[&str]) -> Vec<String> {
    let mut list = format!("{begin}\n");
    for (i, named) in named.iter().enumerate() {
        list += &message(named, "Mevo", SECOND * i as u64);
        list.push('\n');
    }
    bare(&list)
}

/// An arm asks for the Pi's status and waits for it where there is a camera.
#[test]
fn arms() {
    for (model, [camera, ..]) in MODELS {
        let answers = fed(
            &format!("arm {model}"),
            &[
                "DspStatus from Dsp",
                "AvrStatus from Avr",
                "ConfigAck from Avr",
                "Text \"ARMED\" from Avr",
                "PiStatus from Pi",
            ],
        );
        let expected = match camera {
            true => [
                "accepted; send Pi StatusPoll pi_mode=true; WaitPiAndArmed got_pi=false got_armed=false",
                "accepted; no send; WaitPiAndArmed got_pi=false got_armed=true",
                "accepted; no send; Done",
            ],
            false => [
                "accepted; no send; WaitPiAndArmed got_pi=true got_armed=false",
                "accepted; no send; Done",
                "accepted; no send; Done",
            ],
        };
        assert_eq!(answers[3..], expected, "{model}");
    }
}

const TO_CONFIG: [&str; 7] = [
    "AvrStatus from Avr",
    "AvrStatus from Avr",
    "DevInfoResp from Avr",
    "DevInfoResp from Avr",
    "ParamValue from Avr",
    "ParamValue from Avr",
    "ConfigResp from Avr",
];

/// An AVR has twelve entries with the factory calibration, and eight without.
#[test]
fn avrs() {
    for (model, [_, calibration, _]) in MODELS {
        let rest: &[&str] = match calibration {
            true => &[
                "CalDataResp from Avr",
                "CalParamResp from Avr",
                "AvrConfigResp from Avr",
                "ParamValue from Avr",
                "TimeSync from Avr",
            ],
            false => &["CalParamResp from Avr"],
        };
        let answers = fed(&format!("avr {model}"), &[&TO_CONFIG[..], rest].concat());
        let expected: &[&str] = match calibration {
            true => &[
                "accepted; ticked 7; send Avr CalDataReq sub_cmd=0x03 \
                payload=090000030000000000A5|..........|; WaitFactoryCal",
                "accepted; ticked 8; send Avr CalParamReq; WaitIfCal",
                "accepted; ticked 9; send Avr AvrConfigQuery; WaitAvrConfig",
                "accepted; ticked 10; send Avr ParamReadReq param_id=0x64; WaitParam64",
                "accepted; ticked 11; send Avr TimeSync epoch=0 session=0 tail=0001; WaitTimeSync",
                "accepted; ticked 12; no send; Done",
            ],
            false => &[
                "accepted; ticked 7; send Avr CalParamReq; WaitIfCal",
                "accepted; ticked 9; no send; Done",
            ],
        };
        assert_eq!(answers[7..], *expected, "{model}");
    }
}

/// A DSP goes by the model that the device info of entry 3 names, and its
/// result says which, and where its tag stands. Another device info, before or
/// later, changes nothing.
#[test]
fn dsps() {
    for (payload, model, power_mode, place) in [
        ("BAY RIG", "Rig", false, "0"),
        ("BAY RIG, FS Xi", "Xi", true, "9"),
        ("FS Xi, BAY RIG", "Xi", true, "0"),
        ("BAY RI", "Mevo", false, "none"),
        ("FS X", "Mevo", false, "none"),
        ("FS Xi", "Xi", true, "0"),
    ] {
        let info = |payload| format!("feed 0 Dsp 0xE7 DevInfoResp payload=\"{payload}\"\n");
        let fed = |named| message(named, "Mevo", 0) + "\n";
        let infos = fed("ProdInfoResp from Dsp").repeat(3);
        let (other, config) = (info("BAY RIG .. FS Xi"), fed("ConfigResp from Dsp"));
        let list = [
            "dsp\n".to_string(),
            other.clone(),
            fed("DspStatus from Dsp"),
            fed("DspQueryResp from Dsp"),
            info(payload),
            other,
            infos,
            config,
            fed("ConfigAck 0x3F from Dsp"),
            "result\n".to_string(),
        ];
        let answers = bare(&list.concat());
        let write = "accepted; ticked 7; send Dsp ParamValue param_id=0x01 int24=1; WaitPowerMode";
        let expected = match power_mode {
            true => [write, "accepted; ticked 8; no send; Done"],
            false => [
                "accepted; ticked 7; no send; Done",
                "accepted; no send; Done",
            ],
        };
        assert_eq!(answers[9..11], expected, "{payload}");
        let result = answers.last().unwrap();
        let end = format!(" model={model} tag_place={place} power_mode_unanswered=false");
        assert!(result.ends_with(&end), "{payload}: {result}");
    }
}

/// Where the tag stands that decides the model, from 0: the first "FS Xi" of
/// a Xi, also behind a rig's tag, the first "BAY RIG" of a rig. A Mevo has
/// none, and the text isn't looked at.
#[test]
fn places_of_tags() {
    let at_the_end = |tag: &str| format!("payload=\"{}{tag}\"", "b".repeat(256 - tag.len()));
    for (info, model, place) in [
        // twice: the first
        ("payload=\"FS XiFS Xi\"", "Xi", "0"),
        ("payload=\"aFS Xi FS Xi\"", "Xi", "1"),
        ("payload=\"BAY RIGBAY RIG\"", "Rig", "0"),
        ("payload=\"..BAY RIG BAY RIG\"", "Rig", "2"),
        // both: the Xi's, whichever stands first
        ("payload=\"BAY RIGFS Xi\"", "Xi", "7"),
        ("payload=\"BAY RIG BAY RIG FS Xi FS Xi\"", "Xi", "16"),
        ("payload=\"aFS Xi BAY RIG FS Xi\"", "Xi", "1"),
        // cut short before it
        ("payload=\"FS XFS Xi\"", "Xi", "4"),
        ("payload=\"FS FSFS XiFS X\"", "Xi", "5"),
        ("payload=\"BAY RIBAY RIG\"", "Rig", "6"),
        ("payload=\"FS X BAY RIG FS X\"", "Rig", "5"),
        ("payload=\"FS BAY RIG Xi\"", "Rig", "3"),
        // any bytes before it
        ("payload=004653205869", "Xi", "1"),
        ("payload=FFFF0A4241592052494700", "Rig", "3"),
        // of a Mevo none, whatever it almost has
        ("", "Mevo", "none"),
        ("payload=46532058", "Mevo", "none"),
        ("payload=53205869", "Mevo", "none"),
        ("payload=\"BAY RI\"", "Mevo", "none"),
        ("payload=\"FS XBAY RIi\"", "Mevo", "none"),
        ("payload=\"FS xi BAYRIG bay rig\"", "Mevo", "none"),
        // the text isn't looked at
        ("text=\"FS Xi\"", "Mevo", "none"),
        ("text=\"BAY RIG\" payload=\"FS X\"", "Mevo", "none"),
        ("text=\"FS Xi\" payload=\"..BAY RIG\"", "Rig", "2"),
        ("text=\"FS Xi\" payload=\"...FS Xi\"", "Xi", "3"),
        // the last place that it can have
        (&at_the_end("FS Xi"), "Xi", "251"),
        (&at_the_end("BAY RIG"), "Rig", "249"),
        (&at_the_end("FS X"), "Mevo", "none"),
    ] {
        let answers = bare(&dsp_result(info));
        let end = format!(" model={model} tag_place={place} power_mode_unanswered=false");
        let result = answers.last().unwrap();
        assert!(result.ends_with(&end), "{info}: {result}");
    }
}

/// What stands in the states is the same for models that share the fact that
/// is read.
#[test]
fn states() {
    let state = |list: &str| answers(list, true);
    assert_eq!(state("avr Rig\n"), state("avr Mevo\n"));
    assert_eq!(state("avr yes/no/no\n"), state("avr Xi\n"));
    assert!(state("arm Rig\n").ends_with("; state retries=0 wait_pi=false\n"));
    assert!(state("arm yes/no/yes\n").ends_with("; state retries=0 wait_pi=true\n"));
}

/// The examples of a rig: 7 entries, 12 entries, and no Pi.
#[test]
fn examples() {
    let list = repository("examples/rig.list");
    let answers = answers(&list, false);
    let ticked: Vec<&str> = answers
        .lines()
        .filter_map(|line| line.split_once("ticked ")?.1.split(';').next())
        .collect();
    let entries = |letter: char, last: u32| (1..=last).map(move |n| format!("{letter}{n}"));
    assert_eq!(
        ticked,
        entries('D', 7).chain(entries('A', 12)).collect::<Vec<_>>()
    );
    assert_eq!(answers.matches("model=Rig").count(), 1);
    assert!(!answers.contains("send Pi"));
    let arm = bare(&repository("examples/rig_arm.list"));
    let expected = [
        "accepted; no send; WaitPiAndArmed got_pi=true got_armed=false",
        "accepted; no send; WaitPiAndArmed got_pi=true got_armed=false",
        "accepted; no send; Done",
        "0",
        "send Dsp StatusPoll pi_mode=false; send Avr StatusPoll pi_mode=false; no send",
        "no send",
        "no send",
    ];
    assert_eq!(arm[3..], expected);
}
