//! The entry that a feed or check has ticked, which stands in its answer.
//! tests/machines.rs has the number at each arrow of the pictures.

mod common;

use std::collections::HashMap;

use common::{PARAMS, answers};
use oracle::compare::Source;
use oracle::front::Front;
use oracle::generate::{LEANINGS, SESSIONS};
use oracle::list::{Call, Which};
use oracle::running::Step;

/// Of each line the entry that was ticked, or 0.
fn ticked(list: &str) -> Vec<usize> {
    answers(list, false).lines().map(entry).collect()
}

fn entry(answer: &str) -> usize {
    let (letter, entry) = lettered(answer);
    assert_eq!(letter, "", "{answer}");
    entry
}

/// In a session the letter of a start-up stands before the entry.
fn lettered(answer: &str) -> (&str, usize) {
    let Some((before, rest)) = answer.split_once("; ticked ") else {
        return ("", 0);
    };
    assert!(before.ends_with(": accepted"), "{answer}");
    let (told, _) = rest.split_once("; ").expect(answer);
    let (letter, number) =
        told.split_at(told.len() - told.trim_start_matches(['D', 'A', 'P']).len());
    (letter, number.parse().expect(answer))
}

const STATUS: &str = "DspStatus V46 state=1 version=0x46";

#[test]
fn of_a_dsp() {
    let list = format!(
        "dsp\nfeed 1 Avr 0xAA {STATUS}\nfeed 1 Dsp 0xAA {STATUS}\nfeed 0 Dsp 0xAA {STATUS}\n\
        check 2000000000\ncheck 2000000001\nfeed 2000000001 Dsp 1 DevInfoResp payload=\"FS Xi\"\n"
    );
    assert_eq!(ticked(&list), [0, 0, 1, 0, 0, 2, 3]);
    let infos = "feed 2000000001 Dsp 1 ProdInfoResp\n".repeat(4);
    let config = format!("feed 2000000001 Dsp 1 ConfigResp params={PARAMS}\n");
    let ack = "feed 2000000001 Dsp 1 ConfigAck bus_addr=0 acked_cmd=0x3F\n";
    let list = format!("{list}{infos}{config}{config}{ack}{ack}result\ntake\n");
    assert_eq!(ticked(&list)[7..], [4, 5, 6, 0, 7, 0, 8, 0, 0, 0]);
}

/// Words of an AVR's start-up, up to the configuration.
fn avr(model: &str) -> String {
    let zero = "0x0000000000000000";
    let status = format!(
        "feed 0 Avr 1 AvrStatus version=24 state=0 hw_id_hi=0 hw_id_lo=0 full_app_id=0 \
        temperature={zero} tilt={zero} roll={zero}\n"
    );
    let info = "feed 0 Avr 1 DevInfoResp\n";
    let value = "feed 0 Avr 1 ParamValue param_id=0 int24=0\n";
    let config = format!("feed 0 Avr 1 ConfigResp params={PARAMS}\n");
    format!("avr {model}\n{status}{status}{info}{info}{value}{value}{config}")
}

/// A Xi has no factory calibration: its entry after 7 is 9, and the last.
#[test]
fn of_an_avr() {
    let rest = "feed 0 Avr 1 CalParamResp\nfeed 0 Avr 1 AvrConfigResp\n";
    let xi = ticked(&(avr("Xi") + rest));
    assert_eq!(xi, [0, 1, 2, 3, 4, 5, 6, 7, 9, 0]);
    let mevo = ticked(&(avr("Mevo") + "feed 0 Avr 1 CalDataResp\n" + rest));
    assert_eq!(mevo, [0, 1, 2, 3, 4, 5, 6, 7, 8, 9, 10]);
}

/// A poll that is sent again ticks nothing.
#[test]
fn of_a_repoll() {
    let list = "avr\nfeed 0 Avr 1 ConfigNack bus_addr=0 acked_cmd=0x2A\ncheck 1000000000\n";
    assert_eq!(ticked(list), [0, 0, 0]);
    let answer = "3: accepted; send Avr StatusPoll pi_mode=false; WaitStatus1\n";
    assert!(answers(list, false).ends_with(answer));
}

/// The entries of a settings run with so many parameters.
fn of_settings(params: usize, calibration: &str, last: usize) {
    let ack = "feed 0 Avr 1 ConfigAck bus_addr=0 acked_cmd=0\n";
    let param = |id| format!(" param_id={id} int24=2");
    let params: String = (0..params).map(param).collect();
    let begin = format!("avr_config mode=1{params}{calibration}\n");
    let echoes = "feed 0 Avr 1 ModeSet mode=0\nfeed 0 Avr 1 RadarCal range_mm=0 height_mm=0\n";
    let list = begin + &format!("{ack}{echoes}").repeat(last);
    let met: Vec<usize> = ticked(&list).into_iter().filter(|n| *n > 0).collect();
    assert_eq!(met, (1..=last).collect::<Vec<_>>());
}

#[test]
fn of_a_settings_run() {
    let calibration = " range_mm=1 height_mm=2";
    for params in [0, 1, 2, 31, 32] {
        of_settings(params, "", 3 + 2 * params);
        of_settings(params, calibration, 5 + 2 * params);
    }
}

#[test]
fn of_an_arm_nothing() {
    let arm = format!("arm Xi\nfeed 0 Dsp 1 {STATUS}\nfeed 0 Dsp 1 {STATUS}\n");
    assert_eq!(ticked(&arm), [0, 0, 0]);
    assert!(answers(&arm, false).contains("2: accepted; send Avr StatusPoll"));
}

/// Where a sequence stands, or each of a session's start-ups.
fn steps(front: &Front) -> Vec<Step> {
    match front.session() {
        None => front.view().map(|view| view.step).into_iter().collect(),
        Some(session) => session
            .parts
            .into_iter()
            .flatten()
            .map(|part| part.step)
            .collect(),
    }
}

/// An entry is ticked exactly if the step changes, but of an arm none. Each
/// is higher than the one before, in a session that of the same start-up.
#[test]
fn of_generated_lists() {
    for leaning in LEANINGS.into_iter().chain([SESSIONS]) {
        let lines = Source::new(11, leaning, true).list(usize::MAX, 5_000).lines;
        let (mut front, mut last, mut met) = (Front::new(false), HashMap::new(), 0);
        for line in lines {
            let (mut answer, before) = (String::new(), steps(&front));
            let read = front.line(line.as_bytes(), &mut answer);
            let (after, (letter, entry)) = (front.view(), lettered(&answer));
            if let Ok(Some(Call::Begin(_))) = read {
                assert_eq!(entry, 0, "{answer}");
                last.clear();
                continue;
            }
            let which = after.map(|view| view.which);
            let moved = before != steps(&front);
            let ticks = moved && which != Some(Which::Arm);
            assert_eq!(entry > 0, ticks, "{answer}");
            if entry > 0 {
                assert_eq!(letter != "", which == Some(Which::Session), "{answer}");
                let before = last.insert(letter.to_string(), entry);
                assert!(
                    before.is_none_or(|before| entry > before),
                    "{line}\n{answer}"
                );
                met += 1;
            }
        }
        assert!(met > 0 || leaning.which == Which::Arm);
    }
}
