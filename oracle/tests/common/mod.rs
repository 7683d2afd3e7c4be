//! Runs lists, and holds their answers to written ones.

// No test uses all of it.
#![allow(dead_code)]

use std::fs;
use std::path::Path;

use oracle::front;

pub const PARAMS: &str = "1,-2,3,4,5,6,7,8,9,10,11,12,13,14,15,16,17,18,19,20,21,22,23,24,25,26,27,28,\
    29,30,31,32,32767,-32768";

pub fn answers(list: &str, with_state: bool) -> String {
    let mut out = Vec::new();
    front::run(&mut list.as_bytes(), &mut out, with_state).unwrap();
    String::from_utf8(out).unwrap()
}

/// An answer without the entry that was ticked: tests/ticked.rs and
/// tests/machines.rs are about that.
pub fn unticked(answer: &str) -> String {
    let Some((before, rest)) = answer.split_once("accepted; ticked ") else {
        return answer.to_string();
    };
    let (_, rest) = rest.split_once("; ").unwrap();
    format!("{before}accepted; {rest}")
}

/// What is ticked is left out.
#[track_caller]
pub fn check(list: &[&str], expected: &[&str]) {
    let answers = answers(&list.join("\n"), false);
    let answers: Vec<String> = answers.lines().map(unticked).collect();
    assert_eq!(answers, expected);
}

/// A list with the answer to each line, which is numbered here.
#[track_caller]
pub fn check_pairs(pairs: &[(&str, &str)]) {
    let list: Vec<&str> = pairs.iter().map(|(line, _)| *line).collect();
    let numbered = |(i, (_, answer)): (usize, &(&str, &str))| format!("{}: {answer}", i + 1);
    let expected: Vec<String> = pairs.iter().enumerate().map(numbered).collect();
    let expected: Vec<&str> = expected.iter().map(|answer| &answer[..]).collect();
    check(&list, &expected);
}

/// The same of pairs that were made.
#[track_caller]
pub fn check_made(pairs: &[(String, String)]) {
    let pairs: Vec<(&str, &str)> = pairs.iter().map(|(l, a)| (&l[..], &a[..])).collect();
    check_pairs(&pairs);
}

/// The states alone; of a line without one, its answer.
#[track_caller]
pub fn check_states(list: &str, expected: &[&str]) {
    let answers = answers(list, true);
    let states: Vec<&str> = answers.lines().map(state).collect();
    assert_eq!(states, expected);
}

/// The same of the last lines.
#[track_caller]
pub fn check_last_states(list: &str, expected: &[&str]) {
    let answers = answers(list, true);
    let states: Vec<&str> = answers.lines().map(state).collect();
    assert_eq!(states[states.len() - expected.len()..], *expected);
}

/// A disarm's is empty.
fn state(answer: &str) -> &str {
    let found = answer.split_once("; state");
    found.map_or(answer, |(_, state)| state.trim_start())
}

pub fn repository(path: &str) -> String {
    let root = Path::new(env!("CARGO_MANIFEST_DIR")).parent().unwrap();
    fs::read_to_string(root.join(path)).unwrap()
}

/// Each model as it is spelled, and whether it has a camera, a factory
/// calibration and the power-mode step.
pub const MODELS: [(&str, [bool; 3]); 8] = [
    ("Mevo", [true, true, false]),
    ("Xi", [false, false, true]),
    ("Rig", [false, true, false]),
    ("no/no/no", [false, false, false]),
    ("no/yes/yes", [false, true, true]),
    ("yes/no/no", [true, false, false]),
    ("yes/no/yes", [true, false, true]),
    ("yes/yes/yes", [true, true, true]),
];

/// A fact as a cell of a table or an arrow of a picture names it: whether the
/// model has it, and what stands behind that.
pub fn fact<'a>(words: &'a str, facts: &[bool; 3]) -> Option<(bool, &'a str)> {
    let names = ["a camera", "the factory calibration", "the power-mode step"];
    let (wanted, rest) = match words.strip_prefix("without ") {
        Some(rest) => (false, rest),
        None => (true, words.strip_prefix("with ")?),
    };
    let of = |(name, has): (&str, &bool)| Some((*has == wanted, rest.strip_prefix(name)?));
    names.into_iter().zip(facts).find_map(of)
}

/// The feed of a message that is named with its source; without one it comes
/// from App. Bytes and one number differ from reading to reading.
pub fn message(named: &str, model: &str, now: u64) -> String {
    let (message, src) = named.split_once(" from ").unwrap_or((named, "App"));
    let mut words = message.split(' ');
    let kind = words.next().unwrap();
    let acked = words.next().filter(|word| word.starts_with("0x"));
    let said = message.split('"').nth(1).unwrap_or("");
    let fields = fields(kind, acked.unwrap_or("0"), now);
    let bytes = match kind {
        "Text" => format!(" text=\"{said}\""),
        "DevInfoResp" if model == "Rig" => format!(" text=\"{now}\" payload=\"BAY RIG\""),
        "DevInfoResp" => format!(" text=\"{now}\" payload=\"FS {model}\""),
        "ProdInfoResp" | "NetConfigResp" => format!(" text=\"{now}\\x00{now}\""),
        _ => String::new(),
    };
    format!("feed {now} {src} 0 {kind}{fields}{bytes}")
}

/// A DSP's start-up up to its result, with a device info that has this text
/// and payload.
pub fn dsp_result(info: &str) -> String {
    let fed = |named| message(named, "Mevo", 0);
    let infos = ["ProdInfoResp from Dsp"; 3].map(fed).join("\n");
    [
        "dsp",
        &fed("DspStatus from Dsp"),
        &fed("DspQueryResp from Dsp"),
        &format!("feed 0 Dsp 0xE7 DevInfoResp {info}"),
        &infos,
        &fed("ConfigResp from Dsp"),
        &fed("ConfigAck 0x3F from Dsp"),
        "result\n",
    ]
    .join("\n")
}

fn fields(kind: &str, acked: &str, now: u64) -> String {
    match kind {
        "DspStatus" => " V46 state=1 version=0x46".to_string(),
        "AvrStatus" => {
            let zero = "0x0000000000000000";
            let ids = "version=24 state=0 hw_id_hi=0 hw_id_lo=0";
            let id = now / 1_000_000_000;
            format!(" {ids} full_app_id={id} temperature={zero} tilt={zero} roll={zero}")
        }
        "ConfigAck" | "ConfigNack" => format!(" bus_addr=0x30 acked_cmd={acked}"),
        "ModeSet" => " mode=1".to_string(),
        "ParamValue" => " param_id=0 int24=0".to_string(),
        "RadarCal" => " range_mm=1 height_mm=1".to_string(),
        "ConfigResp" => format!(" params={PARAMS}"),
        "DspQueryResp" => " version=2 dsp_type=0x80 pcb=14".to_string(),
        "TimeSync" => " epoch=0 session=0 tail=0000".to_string(),
        "CamConfig" => camera(),
        _ => String::new(),
    }
}

/// The fields of a `CamConfig` as docs/REPLAY.md shows them.
fn camera() -> String {
    let papers = repository("docs/REPLAY.md");
    let row = papers
        .lines()
        .find(|line| line.starts_with("| `CamConfig` | `"))
        .unwrap();
    format!(" {}", row.split('`').nth(3).unwrap())
}
