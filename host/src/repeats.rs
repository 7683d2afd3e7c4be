//! An id that occurs twice in settings. A start refuses it, and nothing else
//! looks: what a bay has stored can be read and shown, and a run that holds it
//! goes on to its end. This crate begins no such run, so the library is called
//! as C would.

use crate::BusAddr;
use crate::command::{Action, AvrConfigCmd, Command};
use crate::convert;
use crate::ffi;
use crate::message::{ConfigAck, Message, ModeSet, ParamData, ParamValue, RadarCal};
use crate::records::{CAvrConfig, CAvrConfigStep};
use crate::settings::AvrSettings;
use crate::steps;
use crate::unknown_numbers::{env, refused_start};

const TOO_MANY_PARAMS: u8 = 4;
const REPEATED_PARAM: u8 = 6;

/// Lists in which an id occurs twice: side by side, far apart, 0 among them,
/// and nothing but one id.
fn repeated() -> Vec<AvrSettings> {
    let apart: Vec<u8> = (1..32).chain([1]).collect();
    let lists = [&[6, 6][..], &[0, 9, 0], &[6, 38, 15, 38], &apart, &[7; 32]];
    lists.into_iter().map(settings).collect()
}

/// With these ids, and values of both kinds.
fn settings(ids: &[u8]) -> AvrSettings {
    let value = |place: usize| match place % 3 {
        0 => ParamData::Int24(place as i32),
        _ => ParamData::Float40(place as f64 / 8.0),
    };
    let param = |(place, &param_id)| ParamValue {
        param_id,
        value: value(place),
    };
    AvrSettings {
        mode: 9,
        params: ids.iter().enumerate().map(param).collect(),
        radar_cal: Some(RadarCal {
            range_mm: 2438,
            height_mm: 25,
        }),
    }
}

/// A run of these settings, as a library that refused none began it.
fn begun_before(settings: &AvrSettings) -> CAvrConfig {
    let new = ffi::wigtalom_avr_config_new(AvrSettings::mode_only(9).record()).seq;
    CAvrConfig {
        settings: settings.record(),
        ..new
    }
}

/// What is sent up to the end. Whatever is awaited comes, and the settings
/// stay as they are.
fn to_the_end(mut seq: CAvrConfig) -> Vec<Action> {
    let mut sent = Vec::new();
    while !steps::is_done(steps::AVR_CONFIG, seq.step.number) {
        let message = match steps::name(steps::AVR_CONFIG, seq.step.number) {
            "WaitModeEcho" => Message::ModeSet(ModeSet { mode: 9 }),
            "WaitRadarCalEcho" => Message::RadarCal(RadarCal::default()),
            _ => Message::ConfigAck(ConfigAck::default()),
        };
        let fed = ffi::avr_config_feed(seq, &env(BusAddr::Avr, message).lent());
        assert_eq!((fed.refusal, fed.seq.settings), (0, seq.settings));
        assert_ne!(fed.seq.step, seq.step);
        sent.extend(convert::sends(&fed.action));
        seq = fed.seq;
    }
    sent
}

/// By the table, without the commit of new.
fn sends(settings: &AvrSettings) -> Vec<Action> {
    let params = settings.params.iter().copied().map(Command::ParamValue);
    let mode = Command::ModeSet(ModeSet {
        mode: settings.mode,
    });
    let set = params.chain([mode]);
    let set = set.chain(settings.radar_cal.map(Command::RadarCal));
    let commit = Command::AvrConfigCmd(AvrConfigCmd { arm: false });
    let to_avr = |command| Action::Send(command, BusAddr::Avr);
    set.flat_map(|command| [command, commit.clone()].map(to_avr))
        .collect()
}

#[test]
fn a_start_is_refused() {
    for settings in repeated() {
        refused_start(settings.record(), REPEATED_PARAM);
    }
}

/// The run beside the refusal goes by the table of empty settings.
#[test]
fn what_stands_beside_the_refusal() {
    for settings in repeated() {
        let begun = ffi::wigtalom_avr_config_new(settings.record()).seq;
        assert_eq!(to_the_end(begun), sends(&AvrSettings::mode_only(0)));
    }
}

#[test]
fn a_list_that_is_too_long_as_well() {
    for settings in repeated() {
        for len in [33, usize::MAX] {
            let mut record = settings.record();
            record.len = len;
            refused_start(record, TOO_MANY_PARAMS);
        }
    }
}

/// The id of the first place stands at each place past the count, too.
#[test]
fn places_past_the_count() {
    for count in 1..32 {
        let ids: Vec<u8> = (0..32).map(|place| place % count).collect();
        let mut record = settings(&ids).record();
        record.len = usize::from(count);
        let begun = ffi::wigtalom_avr_config_new(record);
        assert_eq!((begun.refusal, begun.action.some), (0, true));
        let kept = settings(&ids[..record.len]);
        assert_eq!(begun.seq.settings, kept.record());
        record.len += 1;
        refused_start(record, REPEATED_PARAM);
    }
}

#[test]
fn a_run_already_begun_goes_on() {
    for settings in repeated() {
        let begun = begun_before(&settings);
        assert_eq!(to_the_end(begun), sends(&settings));
        // From the second parameter on, which is sent already.
        let step = CAvrConfigStep {
            number: 1,
            param_idx: 1,
        };
        let sent = to_the_end(CAvrConfig { step, ..begun });
        assert_eq!(sent, sends(&settings)[3..]);
    }
}

/// After a feed that it doesn't await, and after one that is refused.
#[test]
fn a_stored_list_can_be_read_and_shown() {
    for settings in repeated() {
        let begun = begun_before(&settings);
        let ack = env(BusAddr::Dsp, Message::ConfigAck(ConfigAck::default()));
        let mut lent = ack.lent();
        for (text, number) in [(&[][..], 0), (&[0x41; 257], 1)] {
            lent.text = text;
            let fed = ffi::avr_config_feed(begun, &lent);
            assert_eq!((fed.refusal, fed.action.some), (number, false));
            assert_eq!(fed.seq, begun);
            assert_eq!(AvrSettings::of_record(&fed.seq.settings), settings);
        }
    }
}
