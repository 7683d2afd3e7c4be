//! A refusal changes nothing: the very state that was handed in comes back,
//! with what stands in it beside a record that is told as absent. An accepted
//! call gives that back, too, where it leaves the record alone, and a result
//! has it. No call gives such a state, so the library is called as C would.

use crate::BusAddr;
use crate::device::DeviceModel;
use crate::ffi::{self, Lent};
use crate::message::{AvrStatus, ConfigAck, DspStatus, DspStatus80, Message, PiStatus};
use crate::records::{
    CArm, CAvr, CAvrConfig, CDsp, COptionAvr, COptionPi, CPi, CSession, CSessionFed, CTick, CTicks,
    CWritten, MAX_TICKS,
};
use crate::settings::AvrSettings;
use crate::unknown_numbers::env;

const TEXT_TOO_LONG: u8 = 1;
const READING_TOO_LARGE: u8 = 3;
const PART_TOO_SHORT: u8 = 5;

/// Facts that no device info gives.
const MODEL: DeviceModel = DeviceModel {
    camera: true,
    ..DeviceModel::XI
};

/// Holds an answer to this refusal, no send and the same state.
macro_rules! refused {
    ($fed:expr, $refusal:expr, $seq:expr) => {{
        let (fed, seq) = ($fed, $seq);
        assert_eq!(fed.refusal, $refusal);
        assert!(!fed.action.some);
        assert_eq!(fed.seq, seq);
    }};
}

/// An acknowledgement from this device, with this text.
fn ack(src: BusAddr, text: &[u8]) -> Lent<'_> {
    let ack = Message::ConfigAck(ConfigAck::default());
    Lent {
        env: env(src, ack).lent().env,
        text,
        payload: &[],
    }
}

/// Two ticks, and something in the last place.
fn ticks() -> CTicks {
    let mut ticks = CTicks {
        ticks: [CTick { reading: 5, how: 2 }; MAX_TICKS],
        len: 2,
    };
    ticks.ticks[MAX_TICKS - 1] = CTick { reading: 7, how: 1 };
    ticks
}

fn dsp() -> CDsp {
    let mut seq = ffi::wigtalom_dsp_new().seq;
    seq.deadline.value = 5;
    seq.refused.type_id = 9;
    seq.status.payload.len = 3;
    seq.dev_info.value.text.bytes[255] = 1;
    seq.ticks = ticks();
    seq
}

fn avr() -> CAvr {
    let mut seq = ffi::wigtalom_avr_new_for(MODEL).seq;
    seq.repoll_at.value = 5;
    seq.replies.if_cal.value.len = 3;
    seq.ticks = ticks();
    seq
}

fn pi() -> CPi {
    let mut seq = ffi::wigtalom_pi_new().seq;
    seq.step.idx = 4;
    seq.replies.dev_info.value.payload.bytes[0] = 1;
    seq.ticks = ticks();
    seq
}

fn avr_config() -> CAvrConfig {
    let mut seq = ffi::wigtalom_avr_config_new(AvrSettings::mode_only(9).record()).seq;
    seq.step.param_idx = 4;
    seq.settings.radar_cal.value.range_mm = 7;
    seq
}

fn arm() -> CArm {
    let mut seq = ffi::wigtalom_arm_new().seq;
    seq.step.got_pi = true;
    seq
}

/// Whose AVR and Pi have begun, or haven't.
fn session(some: bool) -> CSession {
    CSession {
        dsp: dsp(),
        avr: COptionAvr { some, value: avr() },
        pi: COptionPi { some, value: pi() },
    }
}

/// Holds an answer to this refusal, no send and the same session.
fn session_refused(fed: &CSessionFed, refusal: u8, session: &CSession) {
    assert_eq!(fed.refusal, refusal);
    assert!(fed.actions.iter().all(|action| !action.some));
    assert_eq!(fed.session, *session);
}

#[test]
fn by_a_refused_feed() {
    let long = [0x41; 257];
    let lent = ack(BusAddr::Avr, &long);
    refused!(ffi::dsp_feed(dsp(), &lent, 7), TEXT_TOO_LONG, dsp());
    refused!(ffi::avr_feed(avr(), &lent, 7, 7), TEXT_TOO_LONG, avr());
    refused!(ffi::pi_feed(pi(), &lent), TEXT_TOO_LONG, pi());
    let config = avr_config();
    refused!(ffi::avr_config_feed(config, &lent), TEXT_TOO_LONG, config);
    refused!(ffi::arm_feed(arm(), &lent), TEXT_TOO_LONG, arm());
    for session in [true, false].map(session) {
        let fed = ffi::session_feed(session, &lent, 7, 7);
        session_refused(&fed, TEXT_TOO_LONG, &session);
    }
}

#[test]
fn by_a_refused_check() {
    let late = ffi::wigtalom_dsp_check(dsp(), u64::MAX);
    refused!(late, READING_TOO_LARGE, dsp());
    let late = ffi::wigtalom_avr_check(avr(), u64::MAX);
    refused!(late, READING_TOO_LARGE, avr());
    for session in [true, false].map(session) {
        let late = ffi::wigtalom_session_check(session, u64::MAX);
        session_refused(&late, READING_TOO_LARGE, &session);
    }
}

/// A sheet hands back no state. The buffer is as it was.
#[test]
fn by_a_refused_sheet() {
    let mut buf = [b'.'; 15];
    let refused = CWritten {
        refusal: PART_TOO_SHORT,
        len: 0,
    };
    for at in [0, 15, 16] {
        assert_eq!(ffi::dsp_sheet(dsp(), &mut buf, at), refused);
        assert_eq!(ffi::avr_sheet(avr(), &mut buf, at), refused);
        assert_eq!(ffi::pi_sheet(pi(), &mut buf, at), refused);
        for start_up in [0, 1, 2] {
            let of = (session(true), start_up);
            assert_eq!(ffi::session_sheet(of, &mut buf, at), refused);
        }
        assert_eq!(buf, [b'.'; 15]);
    }
}

/// An accepted call that leaves the records alone gives back what stood beside
/// them. Beside a step that has none an index is 0.
#[test]
fn by_an_accepted_call() {
    let lent = ack(BusAddr::App, &[]);
    let fed = ffi::dsp_feed(dsp(), &lent, 0);
    assert_eq!((fed.refusal, fed.seq), (0, dsp()));
    let checked = ffi::wigtalom_dsp_check(dsp(), 0);
    assert_eq!((checked.refusal, checked.seq), (0, dsp()));
    let fed = ffi::avr_feed(avr(), &lent, 0, 0);
    assert_eq!((fed.refusal, fed.seq), (0, avr()));
    assert_eq!(fed.seq.model, MODEL);
    let checked = ffi::wigtalom_avr_check(avr(), 0);
    assert_eq!((checked.refusal, checked.seq), (0, avr()));
    let fed = ffi::pi_feed(pi(), &lent);
    let step = ffi::wigtalom_pi_new().seq.step;
    assert_eq!((fed.refusal, fed.seq), (0, CPi { step, ..pi() }));
    let fed = ffi::avr_config_feed(avr_config(), &lent);
    let step = ffi::wigtalom_avr_config_new(AvrSettings::mode_only(9).record())
        .seq
        .step;
    let given = CAvrConfig {
        step,
        ..avr_config()
    };
    assert_eq!((fed.refusal, fed.seq), (0, given));
    let fed = ffi::arm_feed(arm(), &lent);
    assert_eq!((fed.refusal, fed.seq), (0, ffi::wigtalom_arm_new().seq));
}

/// A deadline ends with its step, and then nothing stands beside it.
#[test]
fn not_behind_the_step_of_a_deadline() {
    let refused = ConfigAck {
        acked_cmd: 0x48,
        ..ConfigAck::default()
    };
    let lent = env(BusAddr::Dsp, Message::ConfigNack(refused));
    let waiting = CDsp { step: 1, ..dsp() };
    let fed = ffi::dsp_feed(waiting, &lent.lent(), 7);
    assert_eq!((fed.refusal, fed.seq.step), (0, 2));
    assert_eq!((fed.seq.deadline.some, fed.seq.deadline.value), (false, 0));
    assert_eq!(fed.seq.refused, dsp().refused);
    let lent = env(BusAddr::Avr, Message::AvrStatus(AvrStatus::default()));
    let fed = ffi::avr_feed(avr(), &lent.lent(), 7, 7);
    assert_eq!((fed.refusal, fed.seq.step), (0, 1));
    let at = fed.seq.repoll_at;
    assert_eq!((at.some, at.value), (false, 0));
    assert_eq!(fed.seq.replies.if_cal, avr().replies.if_cal);
}

/// A result has no flag for the replies that every done start-up has.
#[test]
fn by_a_result() {
    let done = CDsp { step: 8, ..dsp() };
    let result = ffi::wigtalom_dsp_result(done);
    assert_eq!(result.refusal, 0);
    assert_eq!(result.sync.status_payload, done.status.payload);
    assert_eq!(result.sync.dev_info, done.dev_info.value);
    assert_eq!(result.sync.hw_info, done.hw_info);
    let done = CAvr { step: 12, ..avr() };
    let result = ffi::wigtalom_avr_result(done);
    assert_eq!(result.refusal, 0);
    assert_eq!(result.sync.if_cal, done.replies.if_cal);
    assert_eq!(result.sync.status, done.replies.status.value);
    let mut done = pi();
    done.step.number = 8;
    let result = ffi::wigtalom_pi_result(done);
    assert_eq!(result.refusal, 0);
    assert_eq!(result.sync.dev_info, done.replies.dev_info.value);
}

/// What stands beside an absent nack is given, and is then taken.
#[test]
fn by_taking_no_nack() {
    let taken = ffi::wigtalom_dsp_take_refused(dsp());
    assert_eq!((taken.refusal, taken.refused), (0, dsp().refused));
    let refused = ffi::wigtalom_dsp_new().seq.refused;
    assert_eq!(taken.seq, CDsp { refused, ..dsp() });
}

/// Of a session, too; beside a start-up that hasn't begun stands a new one,
/// the AVR's of a Mevo.
#[test]
fn not_by_an_accepted_call_of_a_session() {
    let (lent, ticks) = (ack(BusAddr::App, &[]), ticks());
    let new_dsp = ffi::wigtalom_dsp_new().seq;
    let dsp = CDsp { ticks, ..new_dsp };
    let avr = |model| ffi::wigtalom_avr_new_for(model).seq;
    let new_pi = ffi::wigtalom_pi_new().seq;
    let none = CSession {
        dsp,
        avr: COptionAvr {
            some: false,
            value: avr(DeviceModel::MEVO),
        },
        pi: COptionPi {
            some: false,
            value: new_pi,
        },
    };
    let both = CSession {
        dsp,
        avr: COptionAvr {
            some: true,
            value: CAvr {
                ticks,
                ..avr(MODEL)
            },
        },
        pi: COptionPi {
            some: true,
            value: CPi { ticks, ..new_pi },
        },
    };
    for (handed, given) in [(session(false), none), (session(true), both)] {
        let fed = ffi::session_feed(handed, &lent, 0, 0);
        assert_eq!((fed.refusal, fed.session), (0, given));
        let checked = ffi::wigtalom_session_check(handed, 0);
        assert_eq!((checked.refusal, checked.session), (0, given));
    }
}

/// Without a place for one tick more. No call gives more ticks than places.
fn full() -> [CTicks; 3] {
    [MAX_TICKS, MAX_TICKS + 1, usize::MAX].map(|len| CTicks { len, ..ticks() })
}

/// Holds a sheet to the lines of all places.
fn of_all_places<S>(seq: S, exact: fn(S, &mut [u8], usize) -> CWritten, letter: char) {
    let mut buf = [b'.'; 200];
    let written = exact(seq, &mut buf, 0);
    let lines = (1..MAX_TICKS).map(|number| format!("{letter},{number},5,K\n"));
    let sheet = lines.collect::<String>() + &format!("{letter},16,7,N\n");
    assert_eq!((written.refusal, written.len), (0, sheet.len()));
    assert_eq!(buf, *format!("{sheet:.<200}").as_bytes());
}

#[test]
fn more_ticks_than_places() {
    for ticks in full() {
        of_all_places(CDsp { ticks, ..dsp() }, ffi::dsp_sheet, 'D');
        of_all_places(CAvr { ticks, ..avr() }, ffi::avr_sheet, 'A');
        of_all_places(CPi { ticks, ..pi() }, ffi::pi_sheet, 'P');
    }
}

/// The step goes on, the ticks stay.
#[test]
fn a_tick_that_finds_no_place() {
    let status = DspStatus::V80(DspStatus80::default());
    let from_dsp = env(BusAddr::Dsp, Message::DspStatus(status));
    let from_avr = env(BusAddr::Avr, Message::AvrStatus(AvrStatus::default()));
    let from_pi = env(BusAddr::Pi, Message::PiStatus(PiStatus::default()));
    for ticks in full() {
        let fed = ffi::dsp_feed(CDsp { ticks, ..dsp() }, &from_dsp.lent(), 7);
        assert_eq!((fed.refusal, fed.seq.step, fed.seq.ticks), (0, 1, ticks));
        let fed = ffi::avr_feed(CAvr { ticks, ..avr() }, &from_avr.lent(), 7, 7);
        assert_eq!((fed.refusal, fed.seq.step, fed.seq.ticks), (0, 1, ticks));
        let fed = ffi::pi_feed(CPi { ticks, ..pi() }, &from_pi.lent());
        let step = fed.seq.step.number;
        assert_eq!((fed.refusal, step, fed.seq.ticks), (0, 1, ticks));
    }
}
