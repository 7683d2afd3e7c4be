//! The made-up devices through one session, their answers in mixed order: the
//! same sends to each device, the same results and the same sheets as by the
//! three start-ups one after the other.

mod made_up;

use std::collections::VecDeque;

use made_up::{Device, Made};
use wigtalom::{
    Action, AvrSequencer, BusAddr, Command, DeviceModel, DspSequencer, Envelope, How, Message,
    ParamData, ParamValue, PiSequencer, Refusal, Session, SessionSync, StartUp, StatusPoll, Tick,
};

const WALL: u64 = 1_763_240_000;
const DEVICES: [BusAddr; 3] = [BusAddr::Dsp, BusAddr::Avr, BusAddr::Pi];
const START_UPS: [StartUp; 3] = [StartUp::Dsp, StartUp::Avr, StartUp::Pi];
const MADE: [Made; 4] = [Made::Plus, Made::Gen2, Made::Xi, Made::Rig];

/// How many mixed orders of each device.
const ORDERS: u64 = 100;

/// Random numbers from a seed: splitmix64.
struct Random(u64);

impl Random {
    fn below(&mut self, limit: usize) -> usize {
        self.0 = self.0.wrapping_add(0x9E37_79B9_7F4A_7C15);
        let z = (self.0 ^ (self.0 >> 30)).wrapping_mul(0xBF58_476D_1CE4_E5B9);
        let z = (z ^ (z >> 27)).wrapping_mul(0x94D0_49BB_1331_11EB);
        (z ^ (z >> 31)) as usize % limit
    }
}

fn dest(action: &Action) -> BusAddr {
    let Action::Send(_, dest) = action;
    *dest
}

fn poll(dest: BusAddr) -> Action {
    let pi_mode = dest == BusAddr::Pi;
    Action::Send(Command::StatusPoll(StatusPoll { pi_mode }), dest)
}

// ---- the three start-ups one after the other

/// The three in order: what they send, and their results.
struct InOrder {
    sent: Vec<Action>,
    sync: SessionSync,
}

/// Hands a start-up what its device answers, until there is nothing more.
fn drive(
    device: &mut Device,
    first: Vec<Action>,
    sent: &mut Vec<Action>,
    mut feed: impl FnMut(&Envelope) -> Vec<Action>,
) {
    let mut next = first;
    loop {
        next.iter().for_each(|action| device.take(action));
        sent.append(&mut next);
        match device.outbox.pop_front() {
            Some(env) => next = feed(&env),
            None => return,
        }
    }
}

fn in_order(made: Made) -> InOrder {
    let (mut device, mut sent) = (Device::new(made), Vec::new());
    let (mut dsp, first) = DspSequencer::new();
    drive(&mut device, first, &mut sent, |env| {
        dsp.feed(env, 0).unwrap()
    });
    let dsp = dsp.into_result().unwrap();
    let (mut avr, first) = AvrSequencer::new_for(dsp.model);
    drive(&mut device, first, &mut sent, |env| {
        avr.feed(env, 0, WALL).unwrap()
    });
    let avr = avr.into_result().unwrap();
    let mut pi = None;
    if dsp.model.camera {
        let (mut seq, first) = PiSequencer::new();
        drive(&mut device, first, &mut sent, |env| seq.feed(env).unwrap());
        pi = Some(seq.into_result().unwrap());
    }
    InOrder {
        sent,
        sync: SessionSync { dsp, avr, pi },
    }
}

// ---- one session, in mixed order

/// A call of a session that was accepted.
enum Heard {
    Fed(Envelope, u64),
    Checked(u64),
}

/// A session to its end, and what went there.
struct Mixed {
    session: Session,
    sent: Vec<Action>,
    heard: Vec<Heard>,
    /// Where in `heard` the call is that ended the DSP.
    dsp_ended: usize,
}

/// What each device has sent, in its order, not yet read.
struct Queues([VecDeque<Envelope>; 3]);

impl Queues {
    fn take_in(&mut self, device: &mut Device) {
        for env in device.outbox.drain(..) {
            let place = DEVICES.iter().position(|device| *device == env.src);
            self.0[place.expect("a device")].push_back(env);
        }
    }

    /// The next of a device at random.
    fn next(&mut self, random: &mut Random) -> Option<Envelope> {
        let waiting = self.0.iter_mut().filter(|queue| !queue.is_empty());
        let mut waiting: Vec<_> = waiting.collect();
        match waiting.len() {
            0 => None,
            len => waiting[random.below(len)].pop_front(),
        }
    }
}

/// Reads at random which device is next, with checks in between. Each
/// envelope comes up to two milliseconds behind the one before.
fn mixed(made: Made, seed: u64) -> Mixed {
    let (mut device, mut random) = (Device::new(made), Random(seed));
    let mut queues = Queues(Default::default());
    let (session, first) = Session::new();
    assert_eq!(first, [poll(BusAddr::Dsp)]);
    let mut mixed = Mixed {
        session,
        sent: Vec::new(),
        heard: Vec::new(),
        dsp_ended: 0,
    };
    let (mut now, mut next) = (0, first);
    loop {
        next.iter().for_each(|action| device.take(action));
        queues.take_in(&mut device);
        mixed.sent.append(&mut next);
        now += 500_000 * random.below(5) as u64;
        if random.below(4) == 0 {
            assert_eq!(mixed.session.check(now), Ok(vec![]));
            mixed.heard.push(Heard::Checked(now));
        }
        let Some(env) = queues.next(&mut random) else {
            return mixed;
        };
        let begun = mixed.session.state().avr.is_some();
        next = mixed.session.feed(&env, now, WALL).unwrap();
        assert!(next.len() <= 2);
        if !begun && mixed.session.state().avr.is_some() {
            mixed.dsp_ended = mixed.heard.len();
            let camera = mixed.session.state().pi.is_some();
            let both = [poll(BusAddr::Avr), poll(BusAddr::Pi)];
            assert_eq!(next, if camera { &both[..] } else { &both[..1] });
        }
        mixed.heard.push(Heard::Fed(env, now));
    }
}

/// The three by themselves over what they hear of a session's calls: the DSP
/// of all, the others of those behind the one that ended the DSP.
fn sheets_by_themselves(mixed: &Mixed, model: DeviceModel) -> [String; 3] {
    let (mut dsp, _) = DspSequencer::new();
    for call in &mixed.heard {
        match call {
            Heard::Fed(env, now) => dsp.feed(env, *now).unwrap(),
            Heard::Checked(now) => dsp.check_timeout(*now).unwrap(),
        };
    }
    let (mut avr, _) = AvrSequencer::new_for(model);
    let (mut pi, _) = PiSequencer::new();
    for call in &mixed.heard[mixed.dsp_ended + 1..] {
        match call {
            Heard::Fed(env, now) => {
                avr.feed(env, *now, WALL).unwrap();
                pi.feed(env).unwrap();
            }
            Heard::Checked(now) => {
                avr.check_cal_timeout(*now).unwrap();
            }
        }
    }
    let pi = if model.camera {
        pi.sheet()
    } else {
        String::new()
    };
    [dsp.sheet(), avr.sheet(), pi]
}

/// Those to one device.
fn sent_to(device: BusAddr, sent: &[Action]) -> Vec<&Action> {
    sent.iter().filter(|send| dest(send) == device).collect()
}

#[test]
fn made_up_devices_in_mixed_order() {
    for made in MADE {
        let expected = in_order(made);
        for seed in 0..ORDERS {
            let mixed = mixed(made, seed);
            assert!(mixed.session.is_complete());
            let sync = mixed.session.into_result().unwrap();
            assert_eq!(sync, expected.sync, "order {seed}");
            for device in DEVICES {
                let expected = sent_to(device, &expected.sent);
                assert_eq!(sent_to(device, &mixed.sent), expected, "order {seed}");
            }
            let sheets = START_UPS.map(|start_up| mixed.session.sheet(start_up));
            let lines = sheets.each_ref().map(|sheet| sheet.lines().count());
            assert_eq!(sheets, sheets_by_themselves(&mixed, sync.dsp.model));
            assert_eq!(lines, entries(made), "order {seed}");
        }
    }
}

/// How many entries the start-ups of DSP, AVR and Pi have.
fn entries(made: Made) -> [usize; 3] {
    match made {
        Made::Plus | Made::Gen2 => [7, 12, 16],
        Made::Xi => [8, 8, 0],
        Made::Rig => [7, 12, 0],
    }
}

/// The AVR and the Pi, mixed or not, are both begun behind the DSP: so in some
/// order the Pi is done first, and in some the AVR.
#[test]
fn orders_differ() {
    let last = |seed| {
        let mixed = mixed(Made::Plus, seed);
        dest(mixed.sent.last().expect("sends"))
    };
    let last: Vec<BusAddr> = (0..ORDERS).map(last).collect();
    assert!(last.contains(&BusAddr::Avr) && last.contains(&BusAddr::Pi));
}

// ---- calls between

const SECOND: u64 = 1_000_000_000;

/// A session that hears its DSP up to the step of this name, with all that
/// other devices would answer left out.
fn dsp_up_to(made: Made, step: &str) -> (Session, Device) {
    let mut device = Device::new(made);
    let (mut session, mut next) = Session::new();
    while session.state().dsp.step != step {
        next.iter().for_each(|action| device.take(action));
        let env = device.outbox.pop_front().expect("an answer");
        next = session.feed(&env, SECOND, WALL).unwrap();
    }
    device.outbox.clear();
    (session, device)
}

/// An AVR's or a Pi's answer before the DSP is done is no one's.
#[test]
fn answers_that_come_too_early() {
    let (mut session, mut device) = dsp_up_to(Made::Plus, "WaitConfig");
    let before = session.state();
    for dest in [BusAddr::Avr, BusAddr::Pi] {
        device.take(&poll(dest));
        let env = device.outbox.pop_front().unwrap();
        assert_eq!(session.feed(&env, SECOND, WALL), Ok(vec![]));
    }
    assert_eq!(session.state(), before);
}

/// A Xi that doesn't answer the power-mode write: a check ends the DSP, and is
/// answered with the AVR's first poll. That check is the DSP's alone.
#[test]
fn a_check_that_ends_the_dsp() {
    let (mut session, _) = dsp_up_to(Made::Xi, "WaitPowerMode");
    assert_eq!(session.check(3 * SECOND - 1), Ok(vec![]));
    assert_eq!(session.state().avr, None);
    assert_eq!(session.check(3 * SECOND), Ok(vec![poll(BusAddr::Avr)]));
    let state = session.state();
    let (avr, _) = AvrSequencer::new_for(DeviceModel::XI);
    assert_eq!((state.avr, state.pi), (Some(avr.state()), None));
    let end = Tick {
        reading: 3 * SECOND,
        how: How::Check,
    };
    assert_eq!(state.dsp.ticks.last(), Some(&end));
    assert!(state.dsp.power_mode_unanswered && !session.is_complete());
}

/// Once only, and before and behind the DSP's end alike.
#[test]
fn a_refused_power_mode_write_is_taken_once() {
    let (mut session, mut device) = dsp_up_to(Made::Xi, "WaitPowerMode");
    assert_eq!(session.take_refused(), None);
    let write = Command::ParamValue(ParamValue {
        param_id: 0x01,
        value: ParamData::Int24(1),
    });
    device.take(&Action::Send(write, BusAddr::Dsp));
    let mut refused = device.outbox.pop_front().unwrap();
    let Message::ConfigAck(ack) = refused.message else {
        panic!("an acknowledgement");
    };
    refused.message = Message::ConfigNack(ack);
    let next = session.feed(&refused, 4 * SECOND, WALL);
    assert_eq!(next, Ok(vec![poll(BusAddr::Avr)]));
    let sheets = START_UPS.map(|start_up| session.sheet(start_up));
    assert_eq!(session.take_refused(), Some(refused));
    assert_eq!(session.take_refused(), None);
    assert_eq!(sheets, START_UPS.map(|start_up| session.sheet(start_up)));
}

/// Of a Mevo the session waits for both, whichever is done first.
#[test]
fn done_with_the_last_of_them() {
    let (mut session, mut device) = dsp_up_to(Made::Plus, "Done");
    for dest in [BusAddr::Pi, BusAddr::Avr] {
        assert_eq!(session.into_result(), Err(Refusal::NotDone));
        device.take(&poll(dest));
        while let Some(env) = device.outbox.pop_front() {
            let next = session.feed(&env, SECOND, WALL).unwrap();
            next.iter().for_each(|action| device.take(action));
        }
    }
    let sync = session.into_result().unwrap();
    assert_eq!(sync, in_order(Made::Plus).sync);
}
