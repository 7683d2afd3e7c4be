//! Numbers that no case has: refused with 21, with no send, and the state as
//! it was. The types of this crate have none, so the library is called as C
//! would.

use crate::BusAddr;
use crate::device::DeviceModel;
use crate::ffi::{self, Lent};
use crate::message::{AvrStatus, ConfigAck, DspStatus, DspStatus46, Envelope, Message};
use crate::records::{
    CAvr, CDsp, CEnvelope, COptionAvr, COptionPi, CPi, CSession, CSessionFed, CSettings, CTicks,
    CWritten,
};
use crate::settings::AvrSettings;

const UNKNOWN: u8 = 21;

/// Holds an answer to 21, no send and the same state.
macro_rules! declined {
    ($fed:expr, $seq:expr) => {{
        let (fed, seq) = ($fed, $seq);
        assert_eq!(fed.refusal, UNKNOWN);
        assert!(!fed.action.some);
        assert_eq!(fed.seq, seq);
    }};
}

/// The same of a session's answer.
fn session_declined(fed: &CSessionFed, session: &CSession) {
    assert_eq!(fed.refusal, UNKNOWN);
    assert!(fed.actions.iter().all(|action| !action.some));
    assert_eq!(fed.session, *session);
}

/// Holds a sheet to 21, and the lent buffer to what it was. A place past its
/// end isn't told first.
fn not_written<S: Copy>(seq: S, exact: fn(S, &mut [u8], usize) -> CWritten) {
    let mut buf = [b'.'; 512];
    for at in [0, 512, 513] {
        let written = exact(seq, &mut buf, at);
        assert_eq!((written.refusal, written.len), (UNKNOWN, 0));
        assert_eq!(buf, [b'.'; 512]);
    }
}

/// The same ticks with a `how` that there is not, in the first place and in
/// the last, whether they hold a tick or not.
fn wrong_ticks(ticks: CTicks) -> impl Iterator<Item = CTicks> {
    let places = [(0, 3), (0, 255), (15, 3), (15, 255)];
    places.into_iter().map(move |(place, how)| {
        let mut wrong = ticks;
        wrong.ticks[place].how = how;
        wrong
    })
}

/// An acknowledgement of the AVR, without bytes.
fn ack() -> Lent<'static> {
    let ack = Message::ConfigAck(ConfigAck::default());
    Lent {
        env: env(BusAddr::Avr, ack).lent().env,
        text: &[],
        payload: &[],
    }
}

/// Envelopes with a number that no case has.
fn wrong() -> Vec<CEnvelope> {
    let with = |change: &dyn Fn(&mut CEnvelope)| {
        let mut env = ack().env;
        change(&mut env);
        env
    };
    vec![
        with(&|env| env.message.kind = 21),
        with(&|env| env.message.kind = 255),
        with(&|env| env.src = 0),
        with(&|env| env.src = 0x11),
        with(&|env| env.src = 255),
        with(&|env| (env.message.kind, env.message.dsp_status.layout) = (1, 2)),
        with(&|env| (env.message.kind, env.message.dsp_status.layout) = (1, 255)),
        with(&|env| (env.message.kind, env.message.param_value.format) = (8, 2)),
        with(&|env| (env.message.kind, env.message.param_value.format) = (8, 255)),
    ]
}

pub(crate) fn env(src: BusAddr, message: Message) -> Envelope {
    let type_id = 0xAA;
    Envelope {
        src,
        type_id,
        message,
    }
}

/// A DSP start-up with a status stored.
fn dsp() -> CDsp {
    let status = DspStatus::V46(DspStatus46 {
        state: 1,
        version: 0x46,
        payload: (0..=255).collect(),
    });
    let env = env(BusAddr::Dsp, Message::DspStatus(status));
    let fed = ffi::dsp_feed(ffi::wigtalom_dsp_new().seq, &env.lent(), 7);
    assert_eq!((fed.refusal, fed.seq.status.payload.len), (0, 256));
    fed.seq
}

/// An AVR start-up with a status stored.
fn avr() -> CAvr {
    let status = AvrStatus {
        temperature: 42.5,
        tilt: -0.5,
        roll: f64::INFINITY,
        ..AvrStatus::default()
    };
    let env = env(BusAddr::Avr, Message::AvrStatus(status));
    let fed = ffi::avr_feed(ffi::wigtalom_avr_new().seq, &env.lent(), 7, 7);
    assert_eq!((fed.refusal, fed.seq.replies.status.value), (0, status));
    fed.seq
}

/// A session all of whose start-ups have begun, or its DSP's alone. No calls
/// give it.
fn session(some: bool) -> CSession {
    CSession {
        dsp: dsp(),
        avr: COptionAvr { some, value: avr() },
        pi: COptionPi {
            some,
            value: ffi::wigtalom_pi_new().seq,
        },
    }
}

/// Hands an envelope to each sequence, and to a session.
fn feed_each(lent: &Lent) {
    let dsp = dsp();
    declined!(ffi::dsp_feed(dsp, lent, 7), dsp);
    let avr = avr();
    declined!(ffi::avr_feed(avr, lent, 7, 7), avr);
    let pi = ffi::wigtalom_pi_new().seq;
    declined!(ffi::pi_feed(pi, lent), pi);
    let avr_config = ffi::wigtalom_avr_config_new(AvrSettings::mode_only(9).record()).seq;
    declined!(ffi::avr_config_feed(avr_config, lent), avr_config);
    let arm = ffi::wigtalom_arm_new().seq;
    declined!(ffi::arm_feed(arm, lent), arm);
    let disarm = ffi::wigtalom_disarm_new().seq;
    declined!(ffi::disarm_feed(disarm, lent), disarm);
    let session = session(true);
    session_declined(&ffi::session_feed(session, lent, 7, 7), &session);
}

#[test]
fn of_an_envelope() {
    let long = [0x41; 257];
    for env in wrong() {
        feed_each(&Lent { env, ..ack() });
        feed_each(&Lent {
            env,
            text: &long,
            payload: &long,
        });
    }
}

#[test]
fn layout_and_format_count_in_their_kinds_only() {
    let mut lent = ack();
    lent.env.message.dsp_status.layout = 2;
    lent.env.message.param_value.format = 2;
    let disarm = ffi::wigtalom_disarm_new().seq;
    let fed = ffi::disarm_feed(disarm, &lent);
    assert_eq!((fed.refusal, fed.seq.step), (0, 1));
}

#[test]
fn bytes_are_measured_whatever_the_kind() {
    let (long, arm) = ([0x41; 257], ffi::wigtalom_arm_new().seq);
    let text = Lent {
        text: &long,
        ..ack()
    };
    let payload = Lent {
        payload: &long,
        ..ack()
    };
    for (lent, number) in [(text, 1), (payload, 2)] {
        let fed = ffi::arm_feed(arm, &lent);
        assert_eq!((fed.refusal, fed.seq), (number, arm));
    }
}

#[test]
fn of_a_dsp_start_up() {
    let with = |change: fn(&mut CDsp)| {
        let mut seq = dsp();
        change(&mut seq);
        seq
    };
    let wrong = [
        with(|seq| seq.step = 9),
        with(|seq| seq.step = 255),
        with(|seq| seq.status.value.layout = 2),
        with(|seq| seq.refused.src = 0),
    ];
    let ticks = wrong_ticks(dsp().ticks).map(|ticks| CDsp { ticks, ..dsp() });
    for seq in wrong.into_iter().chain(ticks) {
        declined!(ffi::dsp_feed(seq, &ack(), 7), seq);
        declined!(ffi::wigtalom_dsp_check(seq, 7), seq);
        assert_eq!(ffi::wigtalom_dsp_result(seq).refusal, UNKNOWN);
        let taken = ffi::wigtalom_dsp_take_refused(seq);
        assert_eq!((taken.refusal, taken.seq), (UNKNOWN, seq));
        assert!(!taken.refused.some);
        not_written(seq, ffi::dsp_sheet);
    }
}

#[test]
fn of_an_avr_start_up() {
    let wrong = [13, 255].map(|step| CAvr { step, ..avr() });
    let ticks = wrong_ticks(avr().ticks).map(|ticks| CAvr { ticks, ..avr() });
    for seq in wrong.into_iter().chain(ticks) {
        declined!(ffi::avr_feed(seq, &ack(), 7, 7), seq);
        declined!(ffi::wigtalom_avr_check(seq, 7), seq);
        assert_eq!(ffi::wigtalom_avr_result(seq).refusal, UNKNOWN);
        not_written(seq, ffi::avr_sheet);
    }
}

#[test]
fn of_a_pi_start_up_and_a_disarm() {
    let new = ffi::wigtalom_pi_new().seq;
    let mut step = new;
    step.step.number = 9;
    let ticks = wrong_ticks(new.ticks).map(|ticks| CPi { ticks, ..new });
    for pi in ticks.chain([step]) {
        declined!(ffi::pi_feed(pi, &ack()), pi);
        assert_eq!(ffi::wigtalom_pi_result(pi).refusal, UNKNOWN);
        not_written(pi, ffi::pi_sheet);
    }
    let mut disarm = ffi::wigtalom_disarm_new().seq;
    disarm.step = 4;
    declined!(ffi::disarm_feed(disarm, &ack()), disarm);
}

/// Sessions with a number that no case has in one of their start-ups, which
/// may not have begun.
fn wrong_sessions() -> Vec<CSession> {
    let mut wrong = Vec::new();
    for some in [true, false] {
        let mut with = |change: fn(&mut CSession)| {
            let mut session = session(some);
            change(&mut session);
            wrong.push(session);
        };
        with(|session| session.dsp.step = 9);
        with(|session| session.dsp.status.value.layout = 2);
        with(|session| session.dsp.ticks.ticks[15].how = 3);
        with(|session| session.avr.value.step = 13);
        with(|session| session.avr.value.ticks.ticks[0].how = 3);
        with(|session| session.pi.value.step.number = 9);
        with(|session| session.pi.value.ticks.ticks[15].how = 255);
    }
    wrong
}

#[test]
fn of_a_session() {
    let long = [0x41; 257];
    let longer = Lent {
        text: &long,
        ..ack()
    };
    for session in wrong_sessions() {
        for (lent, now) in [(ack(), 7), (longer, 7), (ack(), u64::MAX), (ack(), 0)] {
            session_declined(&ffi::session_feed(session, &lent, now, 7), &session);
            session_declined(&ffi::wigtalom_session_check(session, now), &session);
        }
        assert_eq!(ffi::wigtalom_session_result(session).refusal, UNKNOWN);
        let taken = ffi::wigtalom_session_take_refused(session);
        assert_eq!((taken.refusal, taken.session), (UNKNOWN, session));
        assert!(!taken.refused.some);
        for start_up in [0, 1, 2, 3] {
            not_written((session, start_up), ffi::session_sheet);
        }
    }
}

#[test]
fn of_a_start_up_of_a_session() {
    for some in [true, false] {
        for start_up in [3, 4, 255] {
            not_written((session(some), start_up), ffi::session_sheet);
        }
    }
}

#[test]
fn of_an_arm() {
    for number in [5, 255] {
        let mut seq = ffi::wigtalom_arm_new().seq;
        seq.step.number = number;
        declined!(ffi::arm_feed(seq, &ack()), seq);
        let asked = ffi::wigtalom_arm_retries(seq);
        assert_eq!((asked.refusal, asked.retries), (UNKNOWN, 0));
    }
}

/// Holds a start to this number, no send, and the run of empty settings.
pub(crate) fn refused_start(settings: CSettings, number: u8) {
    let empty = ffi::wigtalom_avr_config_new(AvrSettings::mode_only(0).record());
    let begun = ffi::wigtalom_avr_config_new(settings);
    assert_eq!((begun.refusal, begun.action.some), (number, false));
    assert_eq!(begun.seq, empty.seq);
}

/// Settings whose ids differ, so many of which count, with a format that there
/// is not at the last place.
fn wrong_settings(len: usize) -> CSettings {
    let mut settings = AvrSettings::mode_only(9).record();
    settings.len = len;
    for (id, param) in (0..).zip(&mut settings.params) {
        param.param_id = id;
    }
    settings.params[31].format = 2;
    settings
}

/// A count above 32 is told first, and last that an id occurs twice, which is
/// asked of settings: numbers that no format has make none.
#[test]
fn of_settings() {
    let starts = [(0, UNKNOWN), (2, UNKNOWN), (32, UNKNOWN), (33, 4)];
    for (len, number) in starts {
        let mut settings = wrong_settings(len);
        refused_start(settings, number);
        settings.params[1].param_id = 0;
        refused_start(settings, number);
    }
    let mut format = ffi::wigtalom_avr_config_new(AvrSettings::mode_only(9).record()).seq;
    let mut step = format;
    format.settings = wrong_settings(32);
    step.step.number = 8;
    for seq in [format, step] {
        declined!(ffi::avr_config_feed(seq, &ack()), seq);
    }
}

#[test]
fn of_a_result_acknowledgement() {
    for model in [DeviceModel::XI, DeviceModel::MEVO] {
        for src in [0, 0x31, 255] {
            let sent = ffi::wigtalom_result_ack(model, src, 0xE8);
            assert_eq!((sent.refusal, sent.action.some), (UNKNOWN, false));
        }
    }
}
