//! Whole lists of a DSP, and single sends. The answers are written by hand
//! from docs/SCOPE.md, "DSP start-up" and "Model and single sends", and
//! docs/REPLAY.md.

mod common;

use common::{PARAMS, check, check_states};

#[test]
fn xi_with_nothing_answered() {
    let config = format!("feed 9000000000 Dsp 0xA0 ConfigResp params={PARAMS}");
    check(
        &[
            "dsp",
            "feed 5000000000 Dsp 0xAA DspStatus V46 state=1 version=0x46 payload=460100",
            "check 6999999999",
            "check 7000000000",
            "feed 7000000000 Dsp 0xE7 DevInfoResp text=\"é\" payload=\"0.38 FS Xi\\x00\"",
            "feed 8000000000 Dsp 0xFD ProdInfoResp text=\"A\"",
            "feed 8000000000 Dsp 0xFD ProdInfoResp payload=42",
            "feed 8000000000 Dsp 0xFD ProdInfoResp text=43",
            &config,
            "check 10999999999",
            "result",
            "check 11000000000",
            "take",
            "result",
        ],
        &[
            "1: send Dsp StatusPoll pi_mode=false; WaitStatus",
            "2: accepted; send Dsp DspQuery; WaitDspQuery",
            "3: accepted; no send; WaitDspQuery",
            "4: accepted; send Dsp DevInfoReq; WaitDevInfo",
            "5: accepted; send Dsp ProdInfoReq sub_query=0x00; WaitProdInfo0",
            "6: accepted; send Dsp ProdInfoReq sub_query=0x08; WaitProdInfo1",
            "7: accepted; send Dsp ProdInfoReq sub_query=0x09; WaitProdInfo2",
            "8: accepted; send Dsp ConfigQuery; WaitConfig",
            "9: accepted; send Dsp ParamValue param_id=0x01 int24=1; WaitPowerMode",
            "10: accepted; no send; WaitPowerMode",
            "11: refused 12",
            "12: accepted; no send; Done",
            "13: none",
            &unanswered_result(),
        ],
    );
}

fn unanswered_result() -> String {
    format!(
        "14: accepted; status=V46 state=1 version=0x46 payload=460100|F..| hw_info=none \
        dev_info=text=C3A9|..| payload=302E333820465320586900|0.38 FS Xi.| prod_info=41|A| prod_info=|| \
        prod_info=43|C| params={PARAMS} model=Xi tag_place=5 power_mode_unanswered=true"
    )
}

#[test]
fn mevo_with_every_reply() {
    let status = "V80 state=1 input_voltage_usb=4900 system_voltage=3300 battery_current=-120 \
        temperature_raw=2512 battery_voltage=3700 battery_voltage_2=3690 power_level=25600 \
        external_power=true";
    let first = format!("feed 1 Dsp 0xAA DspStatus {status} payload=80");
    let config = format!("feed 7 Dsp 0xA0 ConfigResp params={PARAMS}");
    let result = format!(
        "11: accepted; status={status} hw_info=version=0x02 dsp_type=0xC0 pcb=14 dev_info=text=|| \
        payload=46532058|FS X| prod_info=|| prod_info=|| prod_info=|| params={PARAMS} \
        model=Mevo tag_place=none power_mode_unanswered=false"
    );
    check(
        &[
            "dsp",
            "# the status from another source first",
            &first.replace("Dsp 0xAA", "Avr 0xAA"),
            &first,
            "feed 2 Dsp 0xC8 DspQueryResp version=2 dsp_type=192 pcb=14",
            "feed 3 Dsp 0xE7 DevInfoResp payload=\"FS X\"",
            "feed 4 Dsp 0xFD ProdInfoResp",
            "feed 5 Dsp 0xFD ProdInfoResp",
            "feed 6 Dsp 0xFD ProdInfoResp",
            &config,
            "result",
        ],
        &[
            "1: send Dsp StatusPoll pi_mode=false; WaitStatus",
            "3: accepted; no send; WaitStatus",
            "4: accepted; send Dsp DspQuery; WaitDspQuery",
            "5: accepted; send Dsp DevInfoReq; WaitDevInfo",
            "6: accepted; send Dsp ProdInfoReq sub_query=0x00; WaitProdInfo0",
            "7: accepted; send Dsp ProdInfoReq sub_query=0x08; WaitProdInfo1",
            "8: accepted; send Dsp ProdInfoReq sub_query=0x09; WaitProdInfo2",
            "9: accepted; send Dsp ConfigQuery; WaitConfig",
            "10: accepted; no send; Done",
            &result,
        ],
    );
}

#[test]
fn xi_that_refuses_both() {
    let config = format!("feed 6 Dsp 0xA0 ConfigResp params={PARAMS}");
    check(
        &[
            "dsp",
            "feed 0 Dsp 0xAA DspStatus V46 state=0 version=0x46",
            "feed 0 Dsp 0x94 ConfigAck bus_addr=0x40 acked_cmd=0x48",
            "feed 0 Dsp 0x94 ConfigNack bus_addr=0x40 acked_cmd=0x3F",
            "feed 0 Dsp 0x94 ConfigNack bus_addr=0x40 acked_cmd=0x48",
            "feed 0 Dsp 0xE7 DevInfoResp payload=\"abFS Xi\"",
            "feed 1 Dsp 0xE7 DevInfoResp payload=\"FS X\"",
            "feed 3 Dsp 0xFD ProdInfoResp",
            "feed 4 Dsp 0xFD ProdInfoResp",
            "feed 5 Dsp 0xFD ProdInfoResp",
            &config,
            "feed 6 Avr 0x94 ConfigNack bus_addr=0x30 acked_cmd=0x3F",
            "feed 6 Dsp 0x93 ConfigNack bus_addr=0x41 acked_cmd=0x3F",
            "take",
            "take",
        ],
        &[
            "1: send Dsp StatusPoll pi_mode=false; WaitStatus",
            "2: accepted; send Dsp DspQuery; WaitDspQuery",
            "3: accepted; no send; WaitDspQuery",
            "4: accepted; no send; WaitDspQuery",
            "5: accepted; send Dsp DevInfoReq; WaitDevInfo",
            "6: accepted; send Dsp ProdInfoReq sub_query=0x00; WaitProdInfo0",
            "7: accepted; no send; WaitProdInfo0",
            "8: accepted; send Dsp ProdInfoReq sub_query=0x08; WaitProdInfo1",
            "9: accepted; send Dsp ProdInfoReq sub_query=0x09; WaitProdInfo2",
            "10: accepted; send Dsp ConfigQuery; WaitConfig",
            "11: accepted; send Dsp ParamValue param_id=0x01 int24=1; WaitPowerMode",
            "12: accepted; no send; WaitPowerMode",
            "13: accepted; no send; Done",
            "14: nack src=Dsp type_id=0x93 bus_addr=0x41 acked_cmd=0x3F",
            "15: none",
        ],
    );
}

#[test]
fn refusals() {
    let feed = |now: u64, text: usize, payload: usize| {
        let (text, payload) = ("61".repeat(text), "62".repeat(payload));
        format!("feed {now} Pi 1 Other text={text} payload={payload}")
    };
    let limit = 18_446_744_071_709_551_615;
    check(
        &[
            "dsp",
            &feed(10, 257, 257),
            &feed(limit + 1, 256, 257),
            &feed(limit + 1, 256, 256),
            &feed(10, 256, 256),
            &feed(9, 257, 0),
            &feed(9, 0, 0),
            &feed(10, 0, 0),
            "check 9",
            "check 18446744071709551616",
            "check 18446744071709551615",
            "check 18446744071709551614",
            "result",
        ],
        &[
            "1: send Dsp StatusPoll pi_mode=false; WaitStatus",
            "2: refused 1; no send; WaitStatus",
            "3: refused 2; no send; WaitStatus",
            "4: refused 3; no send; WaitStatus",
            "5: accepted; no send; WaitStatus",
            "6: refused 1; no send; WaitStatus",
            "7: refused 11; no send; WaitStatus",
            "8: accepted; no send; WaitStatus",
            "9: refused 11; no send; WaitStatus",
            "10: refused 3; no send; WaitStatus",
            "11: accepted; no send; WaitStatus",
            "12: refused 11; no send; WaitStatus",
            "13: refused 12",
        ],
    );
}

#[test]
fn single_sends() {
    check(
        &[
            "ack Xi Avr 0xD4",
            "ack Xi Avr 0xE8",
            "ack Mevo Avr 0xD4",
            "ack Xi Dsp 0xD4",
            "keepalive Xi",
            "keepalive",
            "model \"FS Xi\"",
            "model \"FS xi\"",
            "model",
        ],
        &[
            "1: send Avr ConfigAck bus_addr=0x10 acked_cmd=0x54",
            "2: send Avr ConfigAck bus_addr=0x10 acked_cmd=0x68",
            "3: no send",
            "4: no send",
            "5: send Dsp StatusPoll pi_mode=false; send Avr StatusPoll pi_mode=false; no send",
            "6: send Dsp StatusPoll pi_mode=false; send Avr StatusPoll pi_mode=false; \
             send Pi StatusPoll pi_mode=true",
            "7: Xi",
            "8: Mevo",
            "9: Mevo",
        ],
    );
}

const STATUS: &str = "status=V46 state=2 version=0x03 payload=04|.|";
const HW_INFO: &str = "hw_info=version=0x05 dsp_type=0x06 pcb=7";
const DEV_INFO: &str = "dev_info=text=|| payload=4653205869|FS Xi|";
const NO_PROD_INFO: &str = "prod_info=|| prod_info=|| prod_info=|| params=none";
const END: &str = "refused=none power_mode_unanswered=false";

/// A list up to the device info of a Xi.
const FIRST_ROWS: &str = "dsp\nfeed 1 Dsp 1 DspStatus V46 state=2 version=3 payload=04\nbad\nresult\n\
    feed 2 Dsp 1 DspQueryResp version=5 dsp_type=6 pcb=7\n\
    feed 3 Dsp 1 DevInfoResp payload=\"FS Xi\"\n";

fn first_states() -> [String; 6] {
    let early = format!("dev_info=none {NO_PROD_INFO}");
    let second = format!("last=1 {STATUS} hw_info=none {early} deadline=2000000001 {END} ticks=1R");
    let info = format!("{DEV_INFO} {NO_PROD_INFO}");
    [
        format!("last=0 status=none hw_info=none {early} deadline=none {END} ticks=none"),
        second.clone(),
        "3: bad line at column 1: unknown call: docs/REPLAY.md names them all".to_string(),
        second,
        format!("last=2 {STATUS} {HW_INFO} {early} deadline=none {END} ticks=1R,2R"),
        format!("last=3 {STATUS} {HW_INFO} {info} deadline=none {END} ticks=1R,2R,3R"),
    ]
}

#[test]
fn states_of_the_first_rows() {
    check_states(
        FIRST_ROWS,
        &first_states().each_ref().map(|state| &state[..]),
    );
}

#[test]
fn states_of_the_last_rows() {
    let prod_info = "feed 3 Dsp 1 ProdInfoResp text=";
    let list = format!(
        "{FIRST_ROWS}{prod_info}\"p\"\n{prod_info}\"q\"\n{prod_info}\"r\"\n\
        feed 4 Dsp 1 ConfigResp params={PARAMS}\nfeed 3 Dsp 1 Other\n\
        feed 5 Dsp 1 ConfigNack bus_addr=8 acked_cmd=0x3F\ntake\n"
    );
    let stored = format!("{STATUS} {HW_INFO} {DEV_INFO} prod_info=70|p|");
    let all = format!("{stored} prod_info=71|q| prod_info=72|r| params={PARAMS}");
    let ticks = "ticks=1R,2R,3R,3R";
    let waiting = format!("last=4 {all} deadline=2000000004 {END} {ticks},3R,3R,4R");
    let nack = "refused=src=Dsp type_id=0x01 bus_addr=0x08 acked_cmd=0x3F";
    // a nack that is taken stays one in the ticks
    let nacked = format!("{ticks},3R,3R,4R,5N");
    let mut states = first_states().to_vec();
    let no_deadline = "params=none deadline=none";
    states.extend([
        format!("last=3 {stored} prod_info=|| prod_info=|| {no_deadline} {END} {ticks}"),
        format!("last=3 {stored} prod_info=71|q| prod_info=|| {no_deadline} {END} {ticks},3R"),
        format!(
            "last=3 {stored} prod_info=71|q| prod_info=72|r| {no_deadline} {END} {ticks},3R,3R"
        ),
        waiting.clone(),
        waiting,
        format!("last=5 {all} deadline=none {nack} power_mode_unanswered=false {nacked}"),
        format!("last=5 {all} deadline=none {END} {nacked}"),
    ]);
    let states: Vec<&str> = states.iter().map(|state| &state[..]).collect();
    check_states(&list, &states);
}
