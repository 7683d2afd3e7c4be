//! Begins a DSP start-up, feeds one status and prints what is to be sent.

use std::time::Instant;
use wigtalom::{BusAddr, DspSequencer, DspStatus, DspStatus80, Envelope, Message, Refusal};

fn main() -> Result<(), Refusal> {
    let clock = Instant::now();
    let (mut seq, first) = DspSequencer::new();
    println!("first:   {first:?}");

    let status = DspStatus::V80(DspStatus80::default());
    let env = Envelope {
        src: BusAddr::Dsp,
        type_id: 0xAA,
        message: Message::DspStatus(status),
    };
    let next = seq.feed(&env, clock.elapsed().as_nanos() as u64)?;
    println!("next:    {next:?}");
    println!("step:    {}", seq.state().step);
    println!("result:  {}", seq.into_result().unwrap_err());
    Ok(())
}
