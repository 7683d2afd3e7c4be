//! Calls that are refused: each number, no send, nothing written, and the
//! sequencer as it was. (Number 21 can't be reached from here: src/unknown_numbers.rs.)

use wigtalom::{
    ArmSequencer, AvrConfigSequencer, AvrSequencer, AvrSettings, AvrStatus, BusAddr, ConfigAck,
    ConfigResp, DevInfoResp, DeviceModel, DisarmSequencer, DspQueryResp, DspSequencer, DspStatus,
    DspStatus46, Envelope, Message, MevoSettings, ParamData, ParamValue, PiSequencer, PiStatus,
    ProdInfoResp, RadarCal, Refusal, Session, StartUp, Text,
};

const LAST_READING: u64 = 18_446_744_071_709_551_615;

fn env(src: BusAddr, message: Message) -> Envelope {
    let type_id = 0xAA;
    Envelope {
        src,
        type_id,
        message,
    }
}

fn text(length: usize) -> Envelope {
    let text = "A".repeat(length);
    env(BusAddr::Avr, Message::Text(Text { text }))
}

fn dev_info(text: usize, payload: usize) -> Envelope {
    let info = DevInfoResp {
        text: "A".repeat(text),
        payload: vec![0x41; payload],
    };
    env(BusAddr::Dsp, Message::DevInfoResp(info))
}

fn dsp_status() -> Envelope {
    let status = DspStatus::V46(DspStatus46::default());
    env(BusAddr::Dsp, Message::DspStatus(status))
}

/// A session of a Mevo whose DSP is done at reading 1, so that the AVR and
/// the Pi have begun.
fn dsp_done() -> Session {
    let prod_info = || Message::ProdInfoResp(ProdInfoResp::default());
    let replies = [
        Message::DspStatus(DspStatus::V46(DspStatus46::default())),
        Message::DspQueryResp(DspQueryResp::default()),
        Message::DevInfoResp(DevInfoResp::default()),
        prod_info(),
        prod_info(),
        prod_info(),
        Message::ConfigResp(ConfigResp { params: [0; 34] }),
    ];
    let (mut session, _) = Session::new();
    for reply in replies {
        session.feed(&env(BusAddr::Dsp, reply), 1, 0).unwrap();
    }
    let state = session.state();
    assert_eq!((state.dsp.step, state.pi.is_some()), ("Done", true));
    session
}

/// Each sequence refuses this, and is then as it was.
fn all_refuse(env: &Envelope, refusal: Refusal) {
    macro_rules! refuses {
        ($new:expr $(, $clock:expr)*) => {{
            let (mut seq, _) = $new;
            let before = seq.state();
            assert_eq!(seq.feed(env $(, $clock)*), Err(refusal));
            assert_eq!(seq.state(), before);
        }};
    }
    refuses!(DspSequencer::new(), 1);
    refuses!(AvrSequencer::new_for(DeviceModel::MEVO), 1, 1);
    refuses!(PiSequencer::new());
    refuses!(AvrConfigSequencer::new(AvrSettings::mode_only(9)).unwrap());
    refuses!(ArmSequencer::new_for(DeviceModel::MEVO));
    refuses!(DisarmSequencer::new());
    refuses!(Session::new(), 1, 1);
    refuses!((dsp_done(), ()), 1, 1);
}

#[test]
fn a_text_over_256_bytes() {
    for length in [257, 300, 70_000] {
        all_refuse(&text(length), Refusal::TextTooLong);
    }
    all_refuse(&dev_info(257, 257), Refusal::TextTooLong);
    let (mut seq, _) = DspSequencer::new();
    assert_eq!(seq.feed(&text(256), 0), Ok(vec![]));
}

#[test]
fn a_payload_over_256_bytes() {
    for length in [257, 300, 70_000] {
        all_refuse(&dev_info(256, length), Refusal::PayloadTooLong);
    }
    let (mut seq, _) = DspSequencer::new();
    assert_eq!(seq.feed(&dev_info(256, 256), 0), Ok(vec![]));
}

#[test]
fn a_reading_too_large() {
    let (mut dsp, _) = DspSequencer::new();
    let (mut avr, _) = AvrSequencer::new_for(DeviceModel::MEVO);
    let (fresh_dsp, fresh_avr) = (dsp.state(), avr.state());
    for now in [LAST_READING + 1, u64::MAX] {
        let refused = Err(Refusal::ReadingTooLarge);
        assert_eq!(dsp.feed(&dsp_status(), now), refused);
        assert_eq!(dsp.check_timeout(now), refused);
        assert_eq!(avr.feed(&dsp_status(), now, 0), refused);
        assert_eq!(avr.check_cal_timeout(now), refused);
    }
    assert_eq!((dsp.state(), avr.state()), (fresh_dsp, fresh_avr));
    assert_eq!(
        dsp.feed(&dsp_status(), LAST_READING).map(|s| s.len()),
        Ok(1)
    );
    assert_eq!(dsp.state().deadline, Some(LAST_READING + 2_000_000_000));
}

/// Once for the whole session, whether the others have begun or not.
#[test]
fn a_reading_too_large_for_a_session() {
    let refused = Err(Refusal::ReadingTooLarge);
    for mut session in [Session::new().0, dsp_done()] {
        let fresh = session.state();
        for now in [LAST_READING + 1, u64::MAX] {
            assert_eq!(session.feed(&dsp_status(), now, 0), refused);
            assert_eq!(session.check(now), refused);
        }
        // A text that is too long comes before it.
        let long = session.feed(&text(257), u64::MAX, 0);
        assert_eq!(long, Err(Refusal::TextTooLong));
        assert_eq!(session.state(), fresh);
        assert_eq!(session.check(LAST_READING), Ok(vec![]));
    }
}

/// Settings with these ids; an even place has an integer, an odd one a float.
fn with_ids(ids: &[u8]) -> AvrSettings {
    let param = |(place, &param_id)| ParamValue {
        param_id,
        value: match place % 2 {
            0 => ParamData::Int24(7),
            _ => ParamData::Float40(0.5),
        },
    };
    let params = ids.iter().enumerate().map(param);
    AvrSettings {
        mode: 9,
        params: params.collect(),
        radar_cal: None,
    }
}

/// What the start of a configuration answers.
fn start(settings: AvrSettings) -> Result<usize, Refusal> {
    AvrConfigSequencer::new(settings).map(|(_, first)| first.len())
}

#[test]
fn too_many_parameters() {
    let refused = Err(Refusal::TooManyParams);
    let ids: Vec<u8> = (0..=255).collect();
    for count in [33, 34, 256] {
        assert_eq!(start(with_ids(&ids[..count])), refused);
        // An id that occurs twice, too.
        assert_eq!(start(with_ids(&vec![1; count])), refused);
    }
    // The same where the 33rd alone has an id a second time.
    let mut last = ids[..33].to_vec();
    last[32] = 0;
    assert_eq!(start(with_ids(&last)), refused);
    let settings = with_ids(&ids[..32]);
    let (seq, first) = AvrConfigSequencer::new(settings.clone()).unwrap();
    assert_eq!(first.len(), 1);
    assert_eq!(seq.state().settings, settings);
}

/// At any two places of a list of any length, 0 among the ids, with values of
/// one kind and of both, and with equal values and others.
#[test]
fn an_id_that_occurs_twice() {
    for other in 1..32 {
        for one in 0..other {
            let mut ids: Vec<u8> = (0..32).collect();
            ids[other] = ids[one];
            for len in other + 1..=32 {
                let settings = with_ids(&ids[..len]);
                assert_eq!(start(settings), Err(Refusal::RepeatedParam));
            }
            assert_eq!(start(with_ids(&ids[..other])), Ok(1));
            let mut settings = with_ids(&ids);
            settings.params[other].value = ParamData::Int24(-1);
            assert_eq!(start(settings), Err(Refusal::RepeatedParam));
        }
    }
}

/// Whatever they are.
#[test]
fn settings_of_a_mevo_are_not_refused() {
    let floats = [0.0, -0.0, 0.8, f64::INFINITY, f64::NAN];
    for byte in [0, 6, 15, 38, 255] {
        for float in floats {
            let cal = RadarCal::default();
            let settings = MevoSettings::new(byte, byte, float, float, cal);
            assert_eq!(start(settings.into()), Ok(1));
        }
    }
}

/// A sheet into every place of buffers of every length up to some. What
/// stands around a lent buffer is never written, nor what stands in it
/// outside the sheet.
fn written(sheet: &str, exact: impl Fn(&mut [u8], usize) -> Result<usize, Refusal>) {
    const AROUND: usize = 64;
    for len in 0..sheet.len() + 6 {
        for at in 0..len + 3 {
            let mut bytes = vec![b'.'; AROUND + len + AROUND];
            let mut expected = bytes.clone();
            let answer = exact(&mut bytes[AROUND..AROUND + len], at);
            if at + sheet.len() <= len {
                assert_eq!(answer, Ok(sheet.len()));
                expected[AROUND + at..][..sheet.len()].copy_from_slice(sheet.as_bytes());
            } else {
                assert_eq!(answer, Err(Refusal::PartTooShort));
            }
            assert_eq!(bytes, expected, "place {at} of {len}");
        }
    }
}

/// A DSP start-up with a sheet of 34 bytes.
fn two_ticks() -> DspSequencer {
    let (mut seq, _) = DspSequencer::new();
    seq.feed(&dsp_status(), 5_000_000_000).unwrap();
    seq.check_timeout(7_000_000_000).unwrap();
    seq
}

#[test]
fn a_part_shorter_than_the_sheet() {
    let dsp = two_ticks();
    let sheet = "D,1,5000000000,R\nD,2,7000000000,K\n";
    written(sheet, |buf, at| dsp.sheet_into(buf, at));
    let (mut avr, _) = AvrSequencer::new_for(DeviceModel::XI);
    let status = Message::AvrStatus(AvrStatus::default());
    avr.feed(&env(BusAddr::Avr, status), 10, 0).unwrap();
    written("A,1,10,R\n", |buf, at| avr.sheet_into(buf, at));
    let (mut pi, _) = PiSequencer::new();
    let status = Message::PiStatus(PiStatus::default());
    pi.feed(&env(BusAddr::Pi, status)).unwrap();
    written("P,1,0,R\n", |buf, at| pi.sheet_into(buf, at));
}

/// It fits at the end of a buffer, and past it not.
#[test]
fn a_place_past_the_end_for_an_empty_sheet() {
    let (dsp, _) = DspSequencer::new();
    let (avr, _) = AvrSequencer::new_for(DeviceModel::XI);
    let (pi, _) = PiSequencer::new();
    written("", |buf, at| dsp.sheet_into(buf, at));
    written("", |buf, at| avr.sheet_into(buf, at));
    written("", |buf, at| pi.sheet_into(buf, at));
}

/// Those of start-ups that haven't begun are empty, and 5 is told all the
/// same.
#[test]
fn sheets_of_a_session() {
    let (session, _) = Session::new();
    for start_up in [StartUp::Dsp, StartUp::Avr, StartUp::Pi] {
        assert_eq!(session.sheet(start_up), "");
        written("", |buf, at| session.sheet_into(start_up, buf, at));
    }
    let mut session = dsp_done();
    let dsp: String = (1..=7).map(|number| format!("D,{number},1,R\n")).collect();
    let sheet = |session: &Session, start_up, text: &str| {
        assert_eq!(session.sheet(start_up), text);
        written(text, |buf, at| session.sheet_into(start_up, buf, at));
    };
    sheet(&session, StartUp::Dsp, &dsp);
    sheet(&session, StartUp::Avr, "");
    let status = Message::AvrStatus(AvrStatus::default());
    session.feed(&env(BusAddr::Avr, status), 10, 0).unwrap();
    let status = Message::PiStatus(PiStatus::default());
    session.feed(&env(BusAddr::Pi, status), 11, 0).unwrap();
    sheet(&session, StartUp::Dsp, &dsp);
    sheet(&session, StartUp::Avr, "A,1,10,R\n");
    sheet(&session, StartUp::Pi, "P,1,0,R\n");
}

/// With the length of a sheet added some of them would come out small.
#[test]
fn a_place_far_past_the_end() {
    let (seq, (new, _)) = (two_ticks(), DspSequencer::new());
    let mut buf = [b'.'; 100];
    let largest = (0..40).map(|less| usize::MAX - less);
    for at in largest.chain([usize::MAX / 2, usize::MAX / 2 + 1]) {
        assert_eq!(seq.sheet_into(&mut buf, at), Err(Refusal::PartTooShort));
        assert_eq!(new.sheet_into(&mut buf, at), Err(Refusal::PartTooShort));
        assert_eq!(buf, [b'.'; 100]);
    }
}

#[test]
fn a_reading_that_goes_back() {
    let (mut dsp, _) = DspSequencer::new();
    dsp.feed(&dsp_status(), 1_000).unwrap();
    let before = dsp.state();
    let refused = Err(Refusal::ReadingBelowLast);
    assert_eq!(dsp.feed(&dsp_status(), 999), refused);
    assert_eq!(dsp.check_timeout(0), refused);
    assert_eq!(dsp.state(), before);
    assert_eq!(dsp.check_timeout(1_000), Ok(vec![]));

    let (mut avr, _) = AvrSequencer::new_for(DeviceModel::MEVO);
    avr.check_cal_timeout(5).unwrap();
    let before = avr.state();
    assert_eq!(avr.feed(&dsp_status(), 4, 0), refused);
    assert_eq!(avr.check_cal_timeout(4), refused);
    assert_eq!(avr.state(), before);
}

/// Below the session's last reading, whoever it is for: the AVR, which has
/// just begun and has had none, and the Pi, which has no clock.
#[test]
fn a_reading_that_goes_back_in_a_session() {
    let mut session = dsp_done();
    assert_eq!(session.check(1_000), Ok(vec![]));
    let refused = Err(Refusal::ReadingBelowLast);
    let before = session.state();
    let avr_status = Message::AvrStatus(AvrStatus::default());
    let pi_status = Message::PiStatus(PiStatus::default());
    let from_avr = env(BusAddr::Avr, avr_status);
    let from_pi = env(BusAddr::Pi, pi_status);
    for env in [&dsp_status(), &from_avr, &from_pi] {
        assert_eq!(session.feed(env, 999, 0), refused);
    }
    assert_eq!(session.check(999), refused);
    assert_eq!(session.state(), before);
    // The same reading again is accepted, by each.
    for env in [&dsp_status(), &from_avr, &from_pi] {
        assert!(session.feed(env, 1_000, 0).is_ok());
    }
    let state = session.state();
    let (avr, pi) = (state.avr.unwrap(), state.pi.unwrap());
    assert_eq!((avr.ticks.len(), pi.ticks.len()), (1, 1));
    assert_eq!((state.dsp.last, avr.last), (1_000, 1_000));

    // Of an AVR that has just begun, by the DSP's last one.
    let mut session = dsp_done();
    assert_eq!(session.state().avr.unwrap().last, 0);
    assert_eq!(session.feed(&from_avr, 0, 0), refused);
    assert_eq!(session.feed(&from_pi, 0, 0), refused);
}

#[test]
fn an_early_result() {
    let (dsp, _) = DspSequencer::new();
    let (avr, _) = AvrSequencer::new_for(DeviceModel::MEVO);
    let (pi, _) = PiSequencer::new();
    assert_eq!(dsp.into_result().unwrap_err(), Refusal::NotDone);
    assert_eq!(avr.into_result().unwrap_err(), Refusal::NotDone);
    assert_eq!(pi.into_result().unwrap_err(), Refusal::NotDone);
    // The sequencers are still there.
    assert!(!dsp.is_complete() && !avr.is_complete() && !pi.is_complete());
}

/// Also with the DSP done. (With the AVR or the Pi done: tests/session.rs.)
#[test]
fn an_early_result_of_a_session() {
    for session in [Session::new().0, dsp_done()] {
        assert_eq!(session.into_result(), Err(Refusal::NotDone));
        assert!(!session.is_complete());
    }
}

#[test]
fn the_65536th_nack_of_an_arm() {
    let nack = env(BusAddr::Avr, Message::ConfigNack(ConfigAck::default()));
    let ack = env(BusAddr::Avr, Message::ConfigAck(ConfigAck::default()));
    let avr_status = env(BusAddr::Avr, Message::AvrStatus(AvrStatus::default()));
    let (mut seq, _) = ArmSequencer::new_for(DeviceModel::MEVO);
    for count in 0..=u16::MAX {
        assert_eq!(seq.retries(), count);
        seq.feed(&dsp_status()).unwrap();
        seq.feed(&avr_status).unwrap();
        if count < u16::MAX {
            assert_eq!(seq.feed(&nack).map(|sends| sends.len()), Ok(1));
        }
    }
    let before = seq.state();
    assert_eq!(seq.feed(&nack), Err(Refusal::RetriesFull));
    assert_eq!(seq.state(), before);
    assert_eq!(seq.feed(&ack).map(|sends| sends.len()), Ok(1));
    assert_eq!(seq.retries(), u16::MAX);
}

#[test]
fn refusals_tell_their_numbers() {
    let all = [
        (Refusal::TextTooLong, 1),
        (Refusal::PayloadTooLong, 2),
        (Refusal::ReadingTooLarge, 3),
        (Refusal::TooManyParams, 4),
        (Refusal::PartTooShort, 5),
        (Refusal::RepeatedParam, 6),
        (Refusal::ReadingBelowLast, 11),
        (Refusal::NotDone, 12),
        (Refusal::RetriesFull, 13),
        (Refusal::UnknownNumber, 21),
    ];
    for (refusal, number) in all {
        assert_eq!(refusal.number(), number);
        assert!(refusal.to_string().contains(&format!("({number})")));
    }
}
