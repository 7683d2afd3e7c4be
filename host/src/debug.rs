//! What `Debug` prints of values that hold the camera's network: nothing of
//! its name and password, nor how long they are, and all else.

use std::fmt::Debug;

use crate::BusAddr;
use crate::ffi;
use crate::message::{
    CamConfig, DevInfoResp, Envelope, Message, NetConfigResp, ParamData, ParamValue, PiStatus,
};
use crate::pi::{PiSequencer, PiState, PiSync};

/// With a zero byte at several places or none, and of several lengths.
fn texts() -> Vec<String> {
    let mut texts = ["", "\0", "SECRET\0SECRET", "SECRET", "\0SECRET", "SECRET\0"]
        .map(String::from)
        .to_vec();
    texts.push("SECRET".repeat(42));
    texts.push(format!("{}\0{}", "S".repeat(100), "SECRET".repeat(25)));
    texts
}

/// Both ways of printing it.
fn printed(value: &impl Debug) -> [String; 2] {
    [format!("{value:?}"), format!("{value:#?}")]
}

/// Holds values that differ in the network alone to the same print, without
/// it. They must differ.
#[track_caller]
fn alike<T: Debug + PartialEq>(values: &[T]) {
    let first = printed(&values[0]);
    for (i, value) in values.iter().enumerate() {
        assert_eq!(printed(value), first);
        assert!(values[..i].iter().all(|other| other != value));
    }
    // SECRET as text, and as stored bytes
    for print in first {
        assert!(!print.contains("SECRET") && !print.contains("83, 69"));
        assert!(print.contains("(withheld)"), "{print}");
    }
}

fn reply(text: &str) -> Envelope {
    let text = text.to_string();
    env(Message::NetConfigResp(NetConfigResp { text }))
}

fn env(message: Message) -> Envelope {
    Envelope {
        src: BusAddr::Pi,
        type_id: 0xDE,
        message,
    }
}

fn value() -> Envelope {
    env(Message::ParamValue(ParamValue {
        param_id: 1,
        value: ParamData::Int24(2),
    }))
}

/// What a Pi is fed up to its end; both its network replies have this text.
fn start_up(text: &str) -> Vec<Envelope> {
    let info = DevInfoResp {
        text: "info".to_string(),
        payload: vec![7],
    };
    let camera = env(Message::CamConfig(CamConfig::default()));
    let mut all = vec![
        env(Message::PiStatus(PiStatus::default())),
        env(Message::DevInfoResp(info)),
        value(),
        camera.clone(),
        camera,
    ];
    all.extend(vec![reply(text); 2]);
    all.extend(vec![value(); 9]);
    all
}

/// A start-up after so many replies.
fn pi(text: &str, replies: usize) -> PiSequencer {
    let (mut pi, _) = PiSequencer::new();
    for env in start_up(text).iter().take(replies) {
        pi.feed(env).expect("at most 256 bytes");
    }
    pi
}

fn of_each<T>(make: impl Fn(&str) -> T) -> Vec<T> {
    texts().iter().map(|text| make(text)).collect()
}

#[test]
fn a_reply() {
    alike(&of_each(|text| NetConfigResp { text: text.into() }));
    alike(&of_each(|text| reply(text).message));
    alike(&of_each(reply));
    alike(&of_each(|text| Some(reply(text))));
    let [line, _] = printed(&reply("SECRET").message);
    let expected = "NetConfigResp(NetConfigResp { text: (withheld) })";
    assert_eq!(line, expected);
}

/// At each step from which on it is stored, and at the end.
#[test]
fn a_start_up() {
    for replies in 7..=16 {
        // A zero byte at the end stores what none does.
        let stored: Vec<String> = texts().into_iter().filter(|t| !t.ends_with('\0')).collect();
        let each = || stored.iter().map(|text| pi(text, replies));
        alike(&each().map(|pi| pi.state()).collect::<Vec<_>>());
        let sequencers: Vec<PiSequencer> = each().collect();
        for sequencer in &sequencers {
            assert_eq!(printed(sequencer), printed(&sequencers[0]));
            assert!(!printed(sequencer).concat().contains("83, 69"));
        }
    }
}

#[test]
fn a_result() {
    let stored: Vec<String> = texts().into_iter().filter(|t| !t.ends_with('\0')).collect();
    let results = stored.iter().map(|text| pi(text, 16).into_result());
    alike(&results.collect::<Vec<_>>());
}

/// What crosses to the library and back.
#[test]
fn records() {
    let stored: Vec<String> = texts().into_iter().filter(|t| !t.ends_with('\0')).collect();
    let fed = |text: &String| {
        let mut fed = ffi::wigtalom_pi_new();
        for env in start_up(text) {
            fed = ffi::pi_feed(fed.seq, &env.lent());
        }
        fed
    };
    let all: Vec<_> = stored.iter().map(fed).collect();
    alike(&all);
    alike(&all.iter().map(|fed| fed.seq).collect::<Vec<_>>());
    alike(&all.iter().map(|fed| fed.seq.replies).collect::<Vec<_>>());
    let finished: Vec<_> = all
        .iter()
        .map(|fed| ffi::wigtalom_pi_result(fed.seq))
        .collect();
    alike(&finished);
    alike(
        &finished
            .iter()
            .map(|finished| finished.sync)
            .collect::<Vec<_>>(),
    );
}

/// Written by hand.
#[test]
fn all_else_is_printed() {
    let sync = PiSync {
        dev_info: DevInfoResp {
            text: "info".to_string(),
            payload: vec![7],
        },
        cam_config: CamConfig::default(),
        ssid: "net".to_string(),
        password: "pw".to_string(),
    };
    let info = "DevInfoResp { text: \"info\", payload: [7] }";
    let camera = format!("{:?}", CamConfig::default());
    let network = "ssid: (withheld), password: (withheld)";
    let expected = format!("PiSync {{ dev_info: {info}, cam_config: {camera}, {network} }}");
    assert_eq!(format!("{sync:?}"), expected);
    assert_eq!((&sync.ssid[..], &sync.password[..]), ("net", "pw"));
    let state: PiState = pi("", 2).state();
    let ticks = "[Tick { reading: 0, how: Reply }, Tick { reading: 0, how: Reply }]";
    let expected = format!(
        "PiState {{ step: \"WaitParam0A\", idx: 0, dev_info: Some({info}), cam_config: None, \
        {network}, ticks: {ticks} }}"
    );
    assert_eq!(format!("{state:?}"), expected);
}
