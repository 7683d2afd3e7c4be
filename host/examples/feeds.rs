//! How long a feed takes, in nanoseconds: of those that bring a sequence to
//! its end, its beginning among them; and of one that is passed by, which
//! carries the state to the library and back. The shortest of some rounds
//! counts. A disarm, whose state is one byte, stands for comparison.
//!
//!     cargo run --offline --release --example feeds

use std::hint::black_box;
use std::time::Instant;
use wigtalom::{
    Action, AvrConfigResp, AvrSequencer, AvrStatus, BusAddr, CalDataResp, CalParamResp, CamConfig,
    ConfigAck, ConfigResp, DevInfoResp, DeviceModel, DisarmSequencer, DspQueryResp, DspSequencer,
    DspStatus, DspStatus46, Envelope, Message, NetConfigResp, ParamData, ParamValue, PiSequencer,
    PiStatus, ProdInfoResp, Refusal, Session, Text, TimeSync,
};

const ROUNDS: u32 = 30;

/// How often a round brings a sequence to its end, or feeds what is passed by.
const RUNS: u32 = 10_000;

fn main() {
    println!("sequence   bytes  to its end  passed by");
    let new = DspSequencer::new;
    let done = DspSequencer::is_complete;
    measure("DSP", &dsp(), new, |seq, env| seq.feed(env, 7), done);
    let new = || AvrSequencer::new_for(DeviceModel::MEVO);
    let done = AvrSequencer::is_complete;
    measure("AVR", &avr(), new, |seq, env| seq.feed(env, 7, 7), done);
    let (new, done) = (PiSequencer::new, PiSequencer::is_complete);
    measure("Pi", &pi(), new, PiSequencer::feed, done);
    let whole = [dsp(), avr(), pi()].concat();
    let (new, done) = (Session::new, Session::is_complete);
    measure("session", &whole, new, |seq, env| seq.feed(env, 7, 7), done);
    let (new, done) = (DisarmSequencer::new, DisarmSequencer::is_complete);
    measure("disarm", &disarm(), new, DisarmSequencer::feed, done);
}

/// Prints a line.
fn measure<S>(
    name: &str,
    envs: &[Envelope],
    new: impl Fn() -> (S, Vec<Action>),
    feed: impl Fn(&mut S, &Envelope) -> Result<Vec<Action>, Refusal>,
    done: impl Fn(&S) -> bool,
) {
    let feed = |seq: &mut S, env| {
        black_box(feed(seq, black_box(env)).expect("accepted"));
    };
    let to_its_end = shortest(|| {
        let (mut seq, _) = new();
        envs.iter().for_each(|env| feed(&mut seq, env));
        assert!(done(&seq));
    });
    let ((mut seq, _), other) = (new(), env(BusAddr::App, Message::Other));
    let passed_by = shortest(|| feed(&mut seq, &other));
    let (bytes, of_each) = (size_of::<S>(), to_its_end / envs.len() as f64);
    println!("{name:<8} {bytes:>7} {of_each:>11.1} {passed_by:>10.1}");
}

/// Nanoseconds of a run in the quickest round.
fn shortest(mut run: impl FnMut()) -> f64 {
    let mut round = || {
        let begun = Instant::now();
        (0..RUNS).for_each(|_| run());
        begun.elapsed()
    };
    let shortest = (0..ROUNDS).map(|_| round()).min().expect("a round");
    shortest.as_nanos() as f64 / f64::from(RUNS)
}

// ---- what brings each to its end

fn env(src: BusAddr, message: Message) -> Envelope {
    let type_id = 0xAA;
    Envelope {
        src,
        type_id,
        message,
    }
}

fn from(src: BusAddr, messages: impl IntoIterator<Item = Message>) -> Vec<Envelope> {
    let envs = messages.into_iter().map(|message| env(src, message));
    envs.collect()
}

fn dev_info() -> Message {
    let (text, payload) = ("TEST".into(), vec![0; 76]);
    Message::DevInfoResp(DevInfoResp { text, payload })
}

fn config() -> Message {
    Message::ConfigResp(ConfigResp { params: [0; 34] })
}

fn param() -> Message {
    let value = ParamData::Int24(0);
    Message::ParamValue(ParamValue { param_id: 1, value })
}

/// Of a Mevo, as that of the AVR is.
fn dsp() -> Vec<Envelope> {
    let status = Message::DspStatus(DspStatus::V46(DspStatus46::default()));
    let query = Message::DspQueryResp(DspQueryResp::default());
    let prod = || Message::ProdInfoResp(ProdInfoResp::default());
    let messages = [status, query, dev_info(), prod(), prod(), prod(), config()];
    from(BusAddr::Dsp, messages)
}

fn avr() -> Vec<Envelope> {
    let status = || Message::AvrStatus(AvrStatus::default());
    let factory_cal = Message::CalDataResp(CalDataResp::default());
    let if_cal = Message::CalParamResp(CalParamResp::default());
    let avr_config = Message::AvrConfigResp(AvrConfigResp::default());
    let time = Message::TimeSync(TimeSync::default());
    let (infos, params) = ([dev_info(), dev_info()], [param(), param(), config()]);
    let messages = [status(), status()].into_iter().chain(infos).chain(params);
    let rest = [factory_cal, if_cal, avr_config, param(), time];
    from(BusAddr::Avr, messages.chain(rest))
}

fn pi() -> Vec<Envelope> {
    let status = Message::PiStatus(PiStatus::default());
    let camera = || Message::CamConfig(CamConfig::default());
    let net = || Message::NetConfigResp(NetConfigResp::default());
    let messages = [
        status,
        dev_info(),
        param(),
        camera(),
        camera(),
        net(),
        net(),
    ];
    let reads = std::iter::repeat_with(param).take(9);
    from(BusAddr::Pi, messages.into_iter().chain(reads))
}

fn disarm() -> Vec<Envelope> {
    let ack = Message::ConfigAck(ConfigAck::default());
    let text = |text: &str| Message::Text(Text { text: text.into() });
    let messages = [ack, text("ARMED CANCELLED"), text("System State: IDLE")];
    from(BusAddr::Avr, messages)
}
