//! Trials of docs/SCOPE.md, "Trials", run with the Rust, where it is held to
//! them.

use std::fs;
use std::time::{Duration, Instant, UNIX_EPOCH};

use oracle::addr::BusAddr;
use oracle::armed;
use oracle::conn::Envelope;
use oracle::generate::Random;
use oracle::protocol::config::{ModeSet, ParamData, ParamValue, RadarCal};
use oracle::protocol::handshake::{DevInfoResp, DeviceModel};
use oracle::protocol::status::{AvrStatus, ConfigAck, DspStatus, DspStatus46, Text};
use oracle::protocol::{Command, Message};
use oracle::refusal;
use oracle::seq::{self, Action, DspSequencer, Sequence, inspect};
use oracle::seq::{ArmSequencer, AvrConfigSequencer, AvrSettings};

fn model(payload: &str) -> DeviceModel {
    DeviceModel::from_dev_info(&DevInfoResp {
        text: String::new(),
        payload: payload.into(),
    })
}

#[test]
fn model_from_device_info() {
    assert_eq!(model("FS Xi"), DeviceModel::Xi);
    assert_eq!(model("FS X"), DeviceModel::Mevo);
    assert_eq!(model("abFS Xi"), DeviceModel::Xi);
    assert_eq!(model("FS xi"), DeviceModel::Mevo);
    assert_eq!(model(""), DeviceModel::Mevo);
}

fn envelope(src: BusAddr, type_id: u8, message: Message) -> Envelope {
    Envelope {
        src,
        type_id,
        raw: vec![],
        message,
    }
}

fn ack(model: DeviceModel, src: BusAddr, type_id: u8) -> Option<(ConfigAck, BusAddr)> {
    let env = envelope(src, type_id, Message::DspDebug(vec![]));
    seq::result_ack(model, &env).map(|Action::Send(command, dest)| match command {
        Command::ConfigAck(ack) => (ack, dest),
        other => panic!("{other:?}"),
    })
}

fn ack_to_avr(acked_cmd: u8) -> Option<(ConfigAck, BusAddr)> {
    let bus_addr = 0x10;
    Some((
        ConfigAck {
            bus_addr,
            acked_cmd,
        },
        BusAddr::Avr,
    ))
}

#[test]
fn result_acks() {
    use DeviceModel::{Mevo, Xi};
    assert_eq!(ack(Xi, BusAddr::Avr, 0xD4), ack_to_avr(0x54));
    assert_eq!(ack(Xi, BusAddr::Avr, 0xE8), ack_to_avr(0x68));
    for type_id in [0xD4, 0xE8] {
        assert_eq!(ack(Mevo, BusAddr::Avr, type_id), None);
        assert_eq!(ack(Xi, BusAddr::Dsp, type_id), None);
    }
}

fn polls(actions: Vec<Action>) -> Vec<(BusAddr, bool)> {
    let poll = |Action::Send(command, dest)| match command {
        Command::StatusPoll(poll) => (dest, poll.pi_mode),
        other => panic!("{other:?}"),
    };
    actions.into_iter().map(poll).collect()
}

#[test]
fn keepalive() {
    use BusAddr::{Avr, Dsp, Pi};
    let mevo = [(Dsp, false), (Avr, false), (Pi, true)];
    assert_eq!(polls(seq::keepalive_actions_for(DeviceModel::Mevo)), mevo);
    assert_eq!(polls(seq::keepalive_actions()), mevo);
    let xi = [(Dsp, false), (Avr, false)];
    assert_eq!(polls(seq::keepalive_actions_for(DeviceModel::Xi)), xi);
}

fn dsp_status() -> Envelope {
    let status = DspStatus46 {
        state: 0,
        version: 0x46,
        payload: vec![],
    };
    let message = Message::DspStatus(DspStatus::V46(status));
    envelope(BusAddr::Dsp, 0xAA, message)
}

#[test]
fn dsp_query_unanswered() {
    let base = Instant::now();
    let at = |reading| base + Duration::from_nanos(reading);
    let (mut dsp, first) = DspSequencer::new();
    assert_eq!(polls(first), [(BusAddr::Dsp, false)]);

    let sent = dsp.feed(&dsp_status(), at(5_000_000_000), UNIX_EPOCH);
    assert!(matches!(
        sent[..],
        [Action::Send(Command::DspQuery, BusAddr::Dsp)]
    ));
    assert_eq!(inspect::dsp(&dsp).deadline, Some(at(7_000_000_000)));

    assert!(dsp.check_timeout(at(6_999_999_999)).is_empty());
    assert_eq!(inspect::dsp(&dsp).step, "WaitDspQuery");

    let sent = dsp.check_timeout(at(7_000_000_000));
    assert!(matches!(
        sent[..],
        [Action::Send(Command::DevInfoReq, BusAddr::Dsp)]
    ));
    assert_eq!(inspect::dsp(&dsp).step, "WaitDevInfo");
}

fn from_avr(message: Message) -> Envelope {
    envelope(BusAddr::Avr, 0, message)
}

fn config_ack() -> Message {
    Message::ConfigAck(ConfigAck {
        bus_addr: 0x30,
        acked_cmd: 0x30,
    })
}

fn radar_cal() -> RadarCal {
    RadarCal {
        range_mm: 2438,
        height_mm: 25,
    }
}

/// The sends of a whole settings run of parameters with these ids: every reply
/// is fed until it is done.
fn settings_sends(ids: impl Iterator<Item = u8>, radar_cal: Option<RadarCal>) -> usize {
    let param = |param_id| ParamValue {
        param_id,
        value: ParamData::Int24(1),
    };
    let (mut seq, first) = AvrConfigSequencer::new(AvrSettings {
        mode: 9,
        params: ids.map(param).collect(),
        radar_cal,
    });
    let mode = Message::ModeSet(ModeSet { mode: 9 });
    let replies = [config_ack(), mode, Message::RadarCal(self::radar_cal())].map(from_avr);
    let (now, mut sends) = (Instant::now(), first.len());
    for reply in replies.iter().cycle().take(1_000) {
        sends += seq.feed(reply, now, UNIX_EPOCH).len();
    }
    assert!(seq.is_complete());
    sends
}

#[test]
fn sends_of_a_settings_run() {
    assert_eq!(settings_sends(0..0, None), 3);
    assert_eq!(settings_sends(0..32, Some(radar_cal())), 69);
    // The Rust takes any number of parameters, and each id as often as it comes.
    assert_eq!(settings_sends(0..33, Some(radar_cal())), 71);
    assert_eq!(settings_sends([6, 6].into_iter(), None), 7);
}

#[test]
fn refused_settings() {
    let refused = |ids: &[u8]| refusal::of_settings(ids.iter().copied());
    assert_eq!(refusal::of_settings(0..0), None);
    assert_eq!(refusal::of_settings(0..32), None);
    assert_eq!(refusal::of_settings(0..33), Some(4));
    assert_eq!(refused(&[6, 0]), None);
    for ids in [&[6, 6][..], &[0, 0], &[6, 0, 0], &[6, 38, 15, 6], &[1; 32]] {
        assert_eq!(refused(ids), Some(6), "{ids:?}");
    }
    assert_eq!(refused(&[1; 33]), Some(4));
}

/// Whether a Xi at the last step is armed by a text.
fn armed_by(text: &str) -> bool {
    let now = Instant::now();
    let (mut seq, first) = ArmSequencer::new_for(DeviceModel::Xi);
    assert_eq!(polls(first), [(BusAddr::Dsp, false)]);
    let status = AvrStatus {
        version: 24,
        state: 0,
        hw_id_hi: 0,
        hw_id_lo: 0,
        full_app_id: 0,
        temperature: 0.0,
        tilt: 0.0,
        roll: 0.0,
    };
    seq.feed(&dsp_status(), now, UNIX_EPOCH);
    seq.feed(&from_avr(Message::AvrStatus(status)), now, UNIX_EPOCH);
    seq.feed(&from_avr(config_ack()), now, UNIX_EPOCH);
    assert_eq!(inspect::arm(&seq).step, "WaitPiAndArmed");
    let text = Message::Text(Text { text: text.into() });
    seq.feed(&from_avr(text), now, UNIX_EPOCH);
    seq.is_complete()
}

/// The Rust is held to the first five. On the others the rules differ:
/// tests/arm.rs has their trials.
#[test]
fn texts_of_an_arm() {
    let trials = [
        (" ARMED", true),
        ("DISARMED ARMED", true),
        ("disARMED", true),
        ("ÉARMED", true),
        ("ARMED CANCELLED", false),
    ];
    for (text, done) in trials {
        assert!(!armed::differs(text.as_bytes()), "{text}");
        assert_eq!(armed_by(text), done, "{text}");
    }
    for text in ["DISARMED", "DARMEDARMED"] {
        assert!(armed::differs(text.as_bytes()), "{text}");
        assert!(armed_by(text), "{text}");
    }
}

/// Whether "ARMED" stands in a text, each time behind a capital letter, and
/// "CANCELLED" nowhere. Before one that follows another at once stands a D.
fn behind_capitals(text: &str) -> bool {
    let parts: Vec<&str> = text.split("ARMED").collect();
    let (_, before) = parts.split_last().unwrap();
    let is_capital = |(place, part): (usize, &&str)| match part.chars().last() {
        Some(last) => last.is_ascii_uppercase(),
        None => place > 0,
    };
    !before.is_empty() && before.iter().enumerate().all(is_capital) && !text.contains("CANCELLED")
}

/// What the front end says of a text is what the Rust does, but on these; and
/// the Rust takes each of them.
#[test]
fn both_rules_for_the_armed_text() {
    const PIECES: [&str; 16] = [
        "ARMED",
        "ARMED",
        "DISARMED",
        "CANCELLED",
        "ARME",
        "RMED",
        "D",
        "A",
        "Z",
        "@",
        "[",
        "a",
        "z",
        "é",
        "É",
        " ",
    ];
    let (mut random, mut met) = (Random::new(1), [0; 3]);
    for _ in 0..20_000 {
        let count = random.index(7);
        let text: String = (0..count).map(|_| random.pick(&PIECES)).collect();
        let (rust, differs) = (armed_by(&text), armed::differs(text.as_bytes()));
        assert_eq!(differs, behind_capitals(&text), "{text}");
        assert_eq!(armed::is_armed(text.as_bytes()), rust && !differs, "{text}");
        assert!(rust || !differs, "{text}");
        met[if differs { 2 } else { usize::from(rust) }] += 1;
    }
    assert!(met.iter().all(|count| *count > 1_000), "{met:?}");
}

fn in_package(file: &str) -> String {
    fs::read_to_string(format!("{}/{file}", env!("CARGO_MANIFEST_DIR"))).unwrap()
}

fn generated() -> String {
    fs::read_to_string(concat!(env!("OUT_DIR"), "/seq.rs")).unwrap()
}

/// The patch replaces single lines, so the two files can be compared line by
/// line: they differ in its lines only, and in the line appended.
#[test]
fn the_patch_is_the_only_edit() {
    let (original, generated) = (in_package("ironsight/src/seq.rs"), generated());
    let patch = in_package("clocks.patch");
    let lines = patch.lines().skip(2);
    let marked = |mark| lines.clone().filter_map(move |l| l.strip_prefix(mark));
    assert_eq!(marked('-').count(), marked('+').count());
    let edits: Vec<_> = marked('-').zip(marked('+')).collect();

    let (edited, appended) = generated.split_at(generated.rfind("#[path").unwrap());
    assert_eq!(appended.lines().count(), 1);
    assert!(appended.ends_with("src/inspect.rs\"] pub mod inspect;\n"));
    assert_eq!(edited.lines().count(), original.lines().count());
    let pairs = original.lines().zip(edited.lines());
    let differing: Vec<_> = pairs.filter(|(old, new)| old != new).collect();
    assert_eq!(differing, edits);
}

#[test]
fn no_sequencer_reads_a_clock() {
    let text = generated();
    let from = text.find("// Message filtering helpers").unwrap();
    let to = text.find("// Blocking convenience wrappers").unwrap();
    assert!(!text[from..to].contains("::now()"));
}
