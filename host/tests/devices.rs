//! The made-up devices through all six sequences. The sends that are
//! expected are those of seq.rs, written from its text; the rig's, which
//! seq.rs doesn't know, are a Mevo's without the Pi. The sheets are written
//! from the scope.

mod made_up;

use made_up::{Device, Made, avr_status, cam_config, factory_cal, if_cal, prod_info};
use wigtalom::{
    Action, ArmSequencer, AvrConfigCmd, AvrConfigSequencer, AvrSequencer, AvrSettings, AvrSync,
    BusAddr, CalDataReq, Command, ConfigAck, ConfigResp, DevInfoResp, DeviceModel, DisarmSequencer,
    DspSequencer, DspSync, Envelope, How, Message, MevoSettings, ModeSet, NetConfigReq, ParamData,
    ParamReadReq, ParamValue, PiSequencer, PiSync, ProdInfoReq, RadarCal, StatusPoll, Tick,
    TimeSync, keepalive_actions, keepalive_actions_for, result_ack,
};

const WALL: u64 = 1_763_240_000;

fn to(dest: BusAddr, commands: impl IntoIterator<Item = Command>) -> Vec<Action> {
    let send = |command| Action::Send(command, dest);
    commands.into_iter().map(send).collect()
}

fn poll() -> Command {
    Command::StatusPoll(StatusPoll { pi_mode: false })
}

fn poll_pi() -> Command {
    Command::StatusPoll(StatusPoll { pi_mode: true })
}

fn read(param_id: u8) -> Command {
    Command::ParamReadReq(ParamReadReq { param_id })
}

fn prod(sub_query: u8) -> Command {
    Command::ProdInfoReq(ProdInfoReq { sub_query })
}

fn gate() -> Command {
    Command::AvrConfigCmd(AvrConfigCmd { arm: false })
}

fn set(param_id: u8, value: ParamData) -> Command {
    Command::ParamValue(ParamValue { param_id, value })
}

/// Runs a sequence on a device: all that is sent.
fn drive(
    device: &mut Device,
    first: Vec<Action>,
    mut feed: impl FnMut(&Envelope) -> Vec<Action>,
) -> Vec<Action> {
    let mut sent = Vec::new();
    let mut next = first;
    loop {
        next.iter().for_each(|action| device.take(action));
        sent.append(&mut next);
        match device.outbox.pop_front() {
            Some(env) => next = feed(&env),
            None => return sent,
        }
    }
}

/// What is sent, the result and the sheet. An entry is ticked each
/// millisecond.
fn start_dsp(device: &mut Device) -> (Vec<Action>, DspSync, String) {
    let (mut seq, first) = DspSequencer::new();
    let mut now = 0;
    let sent = drive(device, first, |env| {
        now += 1_000_000;
        seq.feed(env, now).unwrap()
    });
    assert!(seq.is_complete());
    assert_eq!(seq.take_refused(), None);
    (sent, seq.into_result().unwrap(), seq.sheet())
}

/// The same of the AVR.
fn start_avr(device: &mut Device, model: DeviceModel) -> (Vec<Action>, AvrSync, String) {
    let (mut seq, first) = AvrSequencer::new_for(model);
    let mut now = 0;
    let sent = drive(device, first, |env| {
        now += 1_000_000;
        seq.feed(env, now, WALL).unwrap()
    });
    assert!(seq.is_complete());
    (sent, seq.into_result().unwrap(), seq.sheet())
}

/// The sheet of so many entries, each ticked by a reply.
fn replies(start_up: char, entries: u64) -> String {
    let line = |number| format!("{start_up},{number},{number}000000,R\n");
    (1..=entries).map(line).collect()
}

/// The power-mode write is sent where the model has the step.
fn dsp_sends(power_mode: bool) -> Vec<Action> {
    let mut commands = vec![poll(), Command::DspQuery, Command::DevInfoReq];
    commands.extend([prod(0x00), prod(0x08), prod(0x09), Command::ConfigQuery]);
    if power_mode {
        commands.push(set(0x01, ParamData::Int24(1)));
    }
    to(BusAddr::Dsp, commands)
}

fn dsp_result(device: &Device, model: DeviceModel) -> DspSync {
    // The Xi refuses the query.
    let hw_info = (model != DeviceModel::XI).then(|| device.hw_info());
    // Where the frames have it.
    let tag_place = match model {
        DeviceModel::XI => Some(88),
        DeviceModel::RIG => Some(60),
        _ => None,
    };
    DspSync {
        status: device.dsp_status(),
        hw_info,
        dev_info: device.dev_info(BusAddr::Dsp),
        prod_info: [prod_info(0x00), prod_info(0x08), prod_info(0x09)],
        config: ConfigResp { params: [0; 34] },
        model,
        tag_place,
        power_mode_unanswered: false,
    }
}

/// The Xi refuses the query, and has the power-mode write.
fn dsp_sheet(made: Made) -> String {
    match made {
        Made::Xi => replies('D', 8).replace("2000000,R", "2000000,N"),
        _ => replies('D', 7),
    }
}

#[test]
fn dsp_start_ups() {
    let devices = [
        (Made::Xi, DeviceModel::XI),
        (Made::Plus, DeviceModel::MEVO),
        (Made::Gen2, DeviceModel::MEVO),
        (Made::Rig, DeviceModel::RIG),
    ];
    for (made, model) in devices {
        let mut device = Device::new(made);
        let (sent, sync, sheet) = start_dsp(&mut device);
        assert_eq!(sent, dsp_sends(model.power_mode));
        assert_eq!(sync, dsp_result(&device, model));
        assert_eq!(sheet, dsp_sheet(made));
        assert_eq!(DeviceModel::from_dev_info(&sync.dev_info), model);
    }
}

/// The result of a Mevo+ whose DSP has this device info.
fn result_with(info: &DevInfoResp) -> DspSync {
    let mut device = Device::new(Made::Plus);
    let (mut seq, first) = DspSequencer::new();
    drive(&mut device, first, |env| {
        let mut env = env.clone();
        if let Message::DevInfoResp(told) = &mut env.message {
            told.clone_from(info);
        }
        seq.feed(&env, 0).unwrap()
    });
    seq.into_result().unwrap()
}

/// A Xi's tag counts before a rig's, wherever they stand, and the first of
/// two. The text isn't looked at.
#[test]
fn models_that_payloads_name() {
    let at_the_end = [&[0; 251][..], b"FS Xi"].concat();
    let payloads: [(&[u8], DeviceModel, Option<usize>); 13] = [
        (b"FS Xi", DeviceModel::XI, Some(0)),
        (b"BAY RIG", DeviceModel::RIG, Some(0)),
        (b"\0BAY BAY RIGS", DeviceModel::RIG, Some(5)),
        (b"FS Xi BAY RIG", DeviceModel::XI, Some(0)),
        (b"BAY RIG FS Xi", DeviceModel::XI, Some(8)),
        (b"FS FS Xi FS Xi", DeviceModel::XI, Some(3)),
        (b" BAY RIG BAY RIG", DeviceModel::RIG, Some(1)),
        (&at_the_end, DeviceModel::XI, Some(251)),
        (b"BAY RIG FS X", DeviceModel::RIG, Some(0)),
        (b"BAY RI", DeviceModel::MEVO, None),
        (b"bay rig BAYRIG", DeviceModel::MEVO, None),
        (b"  FS X", DeviceModel::MEVO, None),
        (b"", DeviceModel::MEVO, None),
    ];
    for (payload, model, place) in payloads {
        let (text, payload) = ("FS Xi BAY RIG".into(), payload.to_vec());
        let info = DevInfoResp { text, payload };
        assert_eq!(info.model(), model);
        let sync = result_with(&info);
        assert_eq!((sync.model, sync.tag_place), (model, place));
        assert_eq!(sync.dev_info, info);
    }
}

const SECOND: u64 = 1_000_000_000;

/// A Xi that doesn't answer the DSP query, up to the power-mode write at
/// this reading.
fn to_power_mode(now: u64) -> DspSequencer {
    let (mut device, query) = (Device::new(Made::Xi), to(BusAddr::Dsp, [Command::DspQuery]));
    let (mut seq, first) = DspSequencer::new();
    first.iter().for_each(|action| device.take(action));
    let status = device.outbox.pop_front().unwrap();
    assert_eq!(seq.feed(&status, 5), Ok(query));
    assert_eq!(seq.check_timeout(2 * SECOND + 4), Ok(vec![]));
    let next = seq.check_timeout(2 * SECOND + 5).unwrap();
    assert_eq!(next, to(BusAddr::Dsp, [Command::DevInfoReq]));
    let mut sent = Vec::new();
    next.iter().for_each(|action| device.take(action));
    while let Some(env) = device.outbox.pop_front() {
        let next = seq.feed(&env, now).unwrap();
        if seq.state().step != "WaitPowerMode" {
            next.iter().for_each(|action| device.take(action));
        }
        sent.extend(next);
    }
    assert_eq!(sent, dsp_sends(true)[3..]);
    seq
}

/// Of that, at 3 s.
fn sheet_to_power_mode() -> String {
    let replies = (3..=7).map(|number| format!("D,{number},3000000000,R\n"));
    "D,1,5,R\nD,2,2000000005,K\n".to_string() + &replies.collect::<String>()
}

#[test]
fn a_xi_that_does_not_answer() {
    let mut seq = to_power_mode(3 * SECOND);
    assert_eq!(seq.check_timeout(5 * SECOND - 1), Ok(vec![]));
    assert!(!seq.is_complete());
    assert_eq!(seq.check_timeout(5 * SECOND), Ok(vec![]));
    let sync = seq.into_result().unwrap();
    assert!(sync.power_mode_unanswered);
    assert_eq!((sync.hw_info, sync.model), (None, DeviceModel::XI));
    assert_eq!(seq.sheet(), sheet_to_power_mode() + "D,8,5000000000,K\n");
}

fn nack(src: BusAddr, acked_cmd: u8) -> Envelope {
    let bus_addr = src.as_byte();
    let nack = ConfigAck {
        bus_addr,
        acked_cmd,
    };
    Envelope {
        src,
        type_id: 0x94,
        message: Message::ConfigNack(nack),
    }
}

#[test]
fn a_xi_that_refuses_the_power_mode() {
    let mut seq = to_power_mode(3 * SECOND);
    let refused = nack(BusAddr::Dsp, 0x3F);
    assert_eq!(seq.feed(&refused, 4 * SECOND), Ok(vec![]));
    assert!(seq.is_complete());
    let sheet = sheet_to_power_mode() + "D,8,4000000000,N\n";
    assert_eq!(seq.sheet(), sheet);
    assert_eq!(seq.take_refused(), Some(refused));
    assert_eq!(seq.take_refused(), None);
    assert_eq!(seq.sheet(), sheet);
    assert!(!seq.into_result().unwrap().power_mode_unanswered);
}

#[test]
fn an_avr_that_refuses_its_poll() {
    let (mut seq, first) = AvrSequencer::new_for(DeviceModel::XI);
    let refused = nack(BusAddr::Avr, 0x2A);
    assert_eq!(seq.feed(&refused, 5, WALL), Ok(vec![]));
    assert_eq!(seq.check_cal_timeout(SECOND + 4), Ok(vec![]));
    assert_eq!(seq.check_cal_timeout(SECOND + 5), Ok(first));
    assert_eq!(seq.check_cal_timeout(9 * SECOND), Ok(vec![]));
    assert_eq!(seq.sheet(), "");
}

/// A status at 5 s, and the query passed by a check at 7 s.
#[test]
fn a_sheet_of_two_lines() {
    let (mut device, (mut seq, first)) = (Device::new(Made::Xi), DspSequencer::new());
    assert_eq!(seq.sheet(), "");
    first.iter().for_each(|action| device.take(action));
    let status = device.outbox.pop_front().unwrap();
    seq.feed(&status, 5 * SECOND).unwrap();
    assert_eq!(seq.sheet(), "D,1,5000000000,R\n");
    seq.check_timeout(7 * SECOND).unwrap();
    assert_eq!(seq.sheet(), "D,1,5000000000,R\nD,2,7000000000,K\n");
    let tick = |reading, how| Tick { reading, how };
    let ticks = [tick(5 * SECOND, How::Reply), tick(7 * SECOND, How::Check)];
    assert_eq!(seq.state().ticks, ticks);
}

/// All have the IF calibration; the rest hangs on one fact.
fn avr_sends(factory_cal: bool) -> Vec<Action> {
    let mut commands = vec![poll(), poll(), Command::DevInfoReq, Command::DevInfoReq];
    commands.extend([read(0x0C), read(0x0D), Command::ConfigQuery]);
    if !factory_cal {
        commands.push(Command::CalParamReq);
        return to(BusAddr::Avr, commands);
    }
    commands.push(Command::CalDataReq(CalDataReq {
        sub_cmd: 0x03,
        payload: vec![0x09, 0x00, 0x00, 0x03, 0x00, 0x00, 0x00, 0x00, 0x00, 0xA5],
    }));
    commands.extend([Command::CalParamReq, Command::AvrConfigQuery, read(0x64)]);
    commands.push(Command::TimeSync(TimeSync {
        epoch: WALL as u32,
        session: 0x00,
        tail: [0x00, 0x01],
    }));
    to(BusAddr::Avr, commands)
}

#[test]
fn avr_start_up_of_a_xi() {
    let mut device = Device::new(Made::Xi);
    let (sent, sync, sheet) = start_avr(&mut device, DeviceModel::XI);
    assert_eq!(sent, avr_sends(false));
    assert_eq!(sheet, replies('A', 8));
    assert!(sheet.ends_with("\nA,8,8000000,R\n"));
    let result = AvrSync {
        status: avr_status(),
        dev_info: device.dev_info(BusAddr::Avr),
        config: ConfigResp { params: [0; 34] },
        factory_cal: None,
        if_cal: Some(if_cal()),
        avr_config: None,
    };
    assert_eq!(sync, result);
}

#[test]
fn avr_start_ups_of_mevos() {
    for made in [Made::Plus, Made::Gen2] {
        let mut device = Device::new(made);
        let (sent, sync, sheet) = start_avr(&mut device, DeviceModel::MEVO);
        assert_eq!(sent, avr_sends(true));
        assert_eq!(sheet, replies('A', 12));
        assert_eq!(sync.status, avr_status());
        assert_eq!(sync.dev_info, device.dev_info(BusAddr::Avr));
        assert_eq!(sync.factory_cal, Some(factory_cal()));
        assert_eq!(sync.if_cal, Some(if_cal()));
        assert_eq!(sync.avr_config, Some(device.avr_config()));
    }
}

#[test]
fn pi_start_ups_of_mevos() {
    for made in [Made::Plus, Made::Gen2] {
        let mut device = Device::new(made);
        let (mut seq, first) = PiSequencer::new();
        let sent = drive(&mut device, first, |env| seq.feed(env).unwrap());
        let net = |query_password| Command::NetConfigReq(NetConfigReq { query_password });
        let mut expected = vec![poll_pi(), Command::DevInfoReq, read(0x0A)];
        expected.extend([Command::CamConfigReq, Command::CamConfigReq]);
        expected.extend([net(false), net(true)]);
        let ids = [0x01, 0x07, 0x08, 0x09, 0x06, 0x0B, 0x03, 0x04, 0x05];
        expected.extend(ids.map(read));
        assert_eq!(sent, to(BusAddr::Pi, expected));
        assert!(seq.is_complete());
        let result = PiSync {
            dev_info: device.dev_info(BusAddr::Pi),
            cam_config: cam_config(),
            ssid: device.ssid().into(),
            password: "TEST-PASS".into(),
        };
        assert_eq!(seq.into_result(), Ok(result));
        let lines = (1..=16).map(|number| format!("P,{number},0,R\n"));
        assert_eq!(seq.sheet(), lines.collect::<String>());
    }
}

fn configure(device: &mut Device, settings: AvrSettings) -> Vec<Action> {
    let (mut seq, first) = AvrConfigSequencer::new(settings).unwrap();
    let sent = drive(device, first, |env| seq.feed(env).unwrap());
    assert!(seq.is_complete());
    sent
}

#[test]
fn settings_of_mevos() {
    let cal = RadarCal {
        range_mm: 2438,
        height_mm: 0,
    };
    for made in [Made::Plus, Made::Gen2] {
        let settings = MevoSettings::new(9, 1, 0.8, 0.0381, cal);
        let params = [
            set(0x06, ParamData::Int24(1)),
            set(0x0F, ParamData::Float40(0.8)),
            set(0x26, ParamData::Float40(0.0381)),
        ];
        let told = settings.params().into_iter().map(Command::ParamValue);
        assert_eq!(told.collect::<Vec<_>>(), params);
        let mut expected = vec![gate()];
        expected.extend(params.into_iter().flat_map(|param| [param, gate()]));
        let mode = Command::ModeSet(ModeSet { mode: 9 });
        expected.extend([mode, gate(), Command::RadarCal(cal), gate()]);
        let sent = configure(&mut Device::new(made), settings.into());
        assert_eq!(sent, to(BusAddr::Avr, expected));
    }
}

#[test]
fn a_mode_change_of_each() {
    for made in [Made::Xi, Made::Plus, Made::Gen2, Made::Rig] {
        let sent = configure(&mut Device::new(made), AvrSettings::mode_only(8));
        let mode = Command::ModeSet(ModeSet { mode: 8 });
        assert_eq!(sent, to(BusAddr::Avr, [gate(), mode, gate()]));
    }
}

/// The Pi is polled, and waited for, where there is a camera.
fn arm_sends(camera: bool) -> Vec<Action> {
    let mut expected = to(BusAddr::Dsp, [poll()]);
    let arm = Command::AvrConfigCmd(AvrConfigCmd { arm: true });
    expected.extend(to(BusAddr::Avr, [poll(), arm]));
    if camera {
        expected.extend(to(BusAddr::Pi, [poll_pi()]));
    }
    expected
}

#[test]
fn arms_and_disarms() {
    let devices = [
        (Made::Xi, false),
        (Made::Plus, true),
        (Made::Gen2, true),
        (Made::Rig, false),
    ];
    for (made, camera) in devices {
        let mut device = Device::new(made);
        let (_, result, _) = start_dsp(&mut device);
        let (mut seq, first) = ArmSequencer::new_for(result.model);
        let sent = drive(&mut device, first, |env| seq.feed(env).unwrap());
        assert_eq!(sent, arm_sends(camera));
        assert!(seq.is_complete());
        assert_eq!(seq.retries(), 0);

        let (mut seq, first) = DisarmSequencer::new();
        let sent = drive(&mut device, first, |env| seq.feed(env).unwrap());
        assert_eq!(sent, to(BusAddr::Avr, [gate()]));
        assert!(seq.is_complete());
    }
}

/// What keeps the connection alive, with a camera and without.
fn polls(camera: bool) -> Vec<Action> {
    let mut polls = to(BusAddr::Dsp, [poll()]);
    polls.extend(to(BusAddr::Avr, [poll()]));
    if camera {
        polls.extend(to(BusAddr::Pi, [poll_pi()]));
    }
    polls
}

/// What acknowledges a message without bytes.
fn ack(model: DeviceModel, src: BusAddr, type_id: u8) -> Option<Action> {
    let message = Message::Other;
    let env = Envelope {
        src,
        type_id,
        message,
    };
    result_ack(model, &env)
}

#[test]
fn single_sends() {
    assert_eq!(keepalive_actions(), polls(true));
    assert_eq!(keepalive_actions_for(DeviceModel::MEVO), polls(true));
    assert_eq!(keepalive_actions_for(DeviceModel::XI), polls(false));
    for type_id in [0xD4, 0xE8] {
        let command = Command::ConfigAck(ConfigAck {
            bus_addr: 0x10,
            acked_cmd: type_id & 0x7F,
        });
        let sent = Some(Action::Send(command, BusAddr::Avr));
        assert_eq!(ack(DeviceModel::XI, BusAddr::Avr, type_id), sent);
        assert_eq!(ack(DeviceModel::MEVO, BusAddr::Avr, type_id), None);
        assert_eq!(ack(DeviceModel::XI, BusAddr::Dsp, type_id), None);
    }
    assert_eq!(ack(DeviceModel::XI, BusAddr::Avr, 0xED), None);
}

/// A rig through everything, by the model that its DSP names.
#[test]
fn a_rig() {
    let mut device = Device::new(Made::Rig);
    let (sent, DspSync { model, .. }, _) = start_dsp(&mut device);
    assert_eq!((sent.len(), model), (7, DeviceModel::RIG));
    assert_eq!(sent, dsp_sends(false));
    let (sent, sync, sheet) = start_avr(&mut device, model);
    assert_eq!(sent.len(), 12);
    assert_eq!(sheet, replies('A', 12));
    assert_eq!(sent, avr_sends(true));
    assert_eq!(sync.factory_cal, Some(factory_cal()));
    assert_eq!(sync.avr_config, Some(device.avr_config()));
    let (mut seq, first) = ArmSequencer::new_for(model);
    let sent = drive(&mut device, first, |env| seq.feed(env).unwrap());
    assert_eq!(sent, arm_sends(false));
    assert!(seq.is_complete());
    assert_eq!(keepalive_actions_for(model), polls(false));
    for type_id in [0xD4, 0xE8] {
        assert_eq!(ack(model, BusAddr::Avr, type_id), None);
    }
    // It has no Pi that would answer.
    let (mut seq, first) = PiSequencer::new();
    let sent = drive(&mut device, first.clone(), |env| seq.feed(env).unwrap());
    assert_eq!((sent, seq.is_complete()), (first, false));
}

/// All eight combinations, each by its facts. The unit answers everything.
#[test]
fn every_model_by_its_facts() {
    let facts = |bits: u8| DeviceModel {
        camera: bits & 1 != 0,
        factory_cal: bits & 2 != 0,
        power_mode: bits & 4 != 0,
    };
    let mut acknowledged = Vec::new();
    for model in (0..8).map(facts) {
        assert_eq!(keepalive_actions_for(model), polls(model.camera));

        let mut device = Device::new(Made::Plus);
        assert_eq!(AvrSequencer::new_for(model).0.state().model, model);
        let (sent, sync, _) = start_avr(&mut device, model);
        assert_eq!(sent.len(), if model.factory_cal { 12 } else { 8 });
        assert_eq!(sent, avr_sends(model.factory_cal));
        assert_eq!(sync.factory_cal.is_some(), model.factory_cal);
        assert_eq!(sync.avr_config.is_some(), model.factory_cal);
        assert!(sync.if_cal.is_some());

        let (mut seq, first) = ArmSequencer::new_for(model);
        assert_eq!(seq.state().wait_pi, model.camera);
        let sent = drive(&mut device, first, |env| seq.feed(env).unwrap());
        assert_eq!((sent, seq.is_complete()), (arm_sends(model.camera), true));
        // Of a unit without a Pi.
        let mut device = Device::new(Made::Rig);
        let (mut seq, first) = ArmSequencer::new_for(model);
        let sent = drive(&mut device, first, |env| seq.feed(env).unwrap());
        assert_eq!(sent, arm_sends(model.camera));
        assert_eq!(seq.is_complete(), !model.camera);

        let acks = [0xD4, 0xE8].map(|type_id| ack(model, BusAddr::Avr, type_id).is_some());
        assert_eq!(acks, [model.is_xi(); 2]);
        if model.is_xi() {
            acknowledged.push((model.camera, model.factory_cal, model.power_mode));
        }
    }
    assert_eq!(acknowledged, [(false, false, true)]);
}
