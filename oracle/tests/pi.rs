//! Start-ups of a Pi. The answers are written by hand from docs/SCOPE.md,
//! "Pi start-up", and docs/REPLAY.md.

mod common;

use common::{check_last_states, check_pairs};

const BEGUN: (&str, &str) = ("pi", "send Pi StatusPoll pi_mode=true; WaitStatus");

/// A camera's configuration by its first width.
fn camera(width: u16) -> String {
    format!(
        "dynamic_config=true resolution_width={width} resolution_height=768 rotation=-1 ev=2 \
        quality=20 framerate=21 streaming_framerate=22 ringbuffer_pretime_ms=2000 \
        ringbuffer_posttime_ms=1500 raw_camera_mode=3 fusion_camera_mode=false \
        raw_shutter_speed_max=0x3FF8000000000000 raw_ev_roi_x=-3 raw_ev_roi_y=-4 \
        raw_ev_roi_width=-5 raw_ev_roi_height=-6 raw_x_offset=-7 raw_bin44=true \
        raw_live_preview_write_interval_ms=-8 raw_y_offset=-9 \
        buffer_sub_sampling_pre_trigger_div=-10 buffer_sub_sampling_post_trigger_div=-11 \
        buffer_sub_sampling_switch_time_offset=0xBFF0000000000000 \
        buffer_sub_sampling_total_buffer_size=-12 \
        buffer_sub_sampling_pre_trigger_buffer_size=-13"
    )
}

const VALUE: &str = "ParamValue param_id=0 int24=1";

fn entry(words: &str, answer: &str) -> (String, String) {
    (
        format!("feed 0 Pi 1 {words}"),
        format!("accepted; send Pi {answer}"),
    )
}

/// Every entry, with the second network text.
fn start_up(network: &str) -> Vec<(String, String)> {
    let (first, second) = (camera(1), camera(1024));
    let mut pairs = vec![
        (BEGUN.0.into(), BEGUN.1.into()),
        entry("PiStatus payload=01", "DevInfoReq; WaitDevInfo"),
        entry(
            "DevInfoResp text=\"t\" payload=00",
            "ParamReadReq param_id=0x0A; WaitParam0A",
        ),
        entry(VALUE, "CamConfigReq; WaitCamConfig1"),
        entry(
            &format!("CamConfig {first}"),
            "CamConfigReq; WaitCamConfig2",
        ),
        entry(
            &format!("CamConfig {second}"),
            "NetConfigReq query_password=false; WaitNetConfig",
        ),
        entry(
            "NetConfigResp text=\"x\\x00y\"",
            "NetConfigReq query_password=true; WaitNetConfigPw",
        ),
        entry(
            &format!("NetConfigResp text={network}"),
            "ParamReadReq param_id=0x01; WaitParams idx=0",
        ),
    ];
    pairs.extend(reads());
    pairs
}

/// The nine values at the end. The last is answered by no send.
fn reads() -> Vec<(String, String)> {
    let ids = ["07", "08", "09", "06", "0B", "03", "04", "05"];
    let read = |(i, id)| {
        let sent = format!("ParamReadReq param_id=0x{id}; WaitParams idx={}", i + 1);
        entry(VALUE, &sent)
    };
    let mut pairs: Vec<(String, String)> = ids.iter().enumerate().map(read).collect();
    let done = "accepted; no send; Done".to_string();
    pairs.push((format!("feed 0 Pi 1 {VALUE}"), done));
    pairs
}

/// A whole start-up with its result.
#[track_caller]
fn check_network(network: &str, stored: &str) {
    let config = camera(1024);
    let result =
        format!("accepted; dev_info=text=74|t| payload=00|.| cam_config={config} {stored}");
    let mut pairs = start_up(network);
    pairs.push(("result".into(), result));
    let pairs: Vec<(&str, &str)> = pairs.iter().map(|(l, a)| (&l[..], &a[..])).collect();
    check_pairs(&pairs);
}

/// The first two are trials of docs/SCOPE.md, "Trials".
#[test]
fn whole_start_ups() {
    check_network("\"a\\x00b\\x00c\"", "ssid=61|a| password=620063|b.c|");
    check_network("\"range\"", "ssid=72616E6765|range| password=||");
    check_network("", "ssid=|| password=||");
    check_network("00", "ssid=|| password=||");
    check_network("\"\\x00pw\"", "ssid=|| password=7077|pw|");
    check_network("\"net\\x00\"", "ssid=6E6574|net| password=||");
    check_network("000000", "ssid=|| password=0000|..|");
    check_network("\"é\\x00é\"", "ssid=C3A9|..| password=C3A9|..|");
}

#[test]
fn what_ticks_nothing() {
    let waits = "accepted; no send; WaitStatus";
    check_pairs(&[
        BEGUN,
        ("feed 1 Avr 0xAA PiStatus", waits),
        ("feed 1 Pi 0xAA ModeAck", waits),
        ("feed 1 Pi 0xAA DevInfoResp", waits),
        (
            "feed 1 Pi 0x94 ConfigNack bus_addr=0x12 acked_cmd=0x2A",
            waits,
        ),
        (
            "feed 1 Pi 0xAA PiStatus",
            "accepted; send Pi DevInfoReq; WaitDevInfo",
        ),
        ("feed 1 Pi 0xAA PiStatus", "accepted; no send; WaitDevInfo"),
        ("feed 1 Dsp 1 DevInfoResp", "accepted; no send; WaitDevInfo"),
        (
            "feed 1 Pi 1 DevInfoResp",
            "accepted; send Pi ParamReadReq param_id=0x0A; WaitParam0A",
        ),
        (
            &format!("feed 1 Avr 1 {VALUE}"),
            "accepted; no send; WaitParam0A",
        ),
        ("result", "refused 12"),
    ]);
}

/// The Pi has no clock: readings may fall, and have no limit.
#[test]
fn refusals() {
    let feed = |now: u64, text: usize, payload: usize| {
        let (text, payload) = ("61".repeat(text), "62".repeat(payload));
        format!("feed {now} Pi 1 Other text={text} payload={payload}")
    };
    let refused = |number: u8| format!("refused {number}; no send; WaitStatus");
    let accepted = "accepted; no send; WaitStatus";
    let not_a_call = "bad line at column 1: not a call of this sequence";
    check_pairs(&[
        BEGUN,
        (&feed(u64::MAX, 257, 257), &refused(1)),
        (&feed(u64::MAX, 256, 257), &refused(2)),
        (&feed(u64::MAX, 256, 256), accepted),
        (&feed(9, 257, 0), &refused(1)),
        (&feed(9, 0, 0), accepted),
        (&feed(8, 0, 0), accepted),
        ("check 9", not_a_call),
        (" check", not_a_call),
        ("take it", not_a_call),
        ("result", "refused 12"),
        ("feed 7 Pi 1 Other wall=5", accepted),
    ]);
}

/// Done, a feed changes nothing and the result can be asked for again.
#[test]
fn states() {
    let list: Vec<String> = start_up("\"n\\x00p\"")
        .into_iter()
        .map(|(l, _)| l)
        .collect();
    let none = "dev_info=none cam_config=none ssid=|| password=||".to_string();
    let info = "dev_info=text=74|t| payload=00|.|";
    let early = format!("{info} cam_config=none ssid=|| password=||");
    let config = camera(1024);
    let open = format!("{info} cam_config={config} ssid=|| password=||");
    let all = format!("{info} cam_config={config} ssid=6E|n| password=70|p|");
    let mut expected = vec![none.clone(), none];
    expected.extend(vec![early; 3]);
    expected.extend(vec![open; 2]);
    expected.extend(vec![all; 12]);
    let network = "feed 0 Pi 1 NetConfigResp text=\"z\"";
    let list = format!("{}\n{network}\nresult", list.join("\n"));
    // No reading is kept, and sixteen entries are all.
    let ticks = |count: usize| match count {
        0 => "none".to_string(),
        _ => vec!["0R"; count.min(16)].join(","),
    };
    let with_ticks = |(i, state)| format!("{state} ticks={}", ticks(i));
    let expected: Vec<String> = expected.iter().enumerate().map(with_ticks).collect();
    let expected: Vec<&str> = expected.iter().map(|state| &state[..]).collect();
    check_last_states(&list, &expected);
}
