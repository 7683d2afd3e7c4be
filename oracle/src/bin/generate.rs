//! generate N [SEED] [--only SEQUENCE] [--mevo] [--rigs] [--whole] [--bad]:
//! writes a list of N calls, of a DSP if nothing else is said. With --whole no
//! run of an arm is cut.

use std::io::{self, Write};
use std::process::ExitCode;

use oracle::compare::{LIST_LINES, Source, as_text};
use oracle::generate::{Leaning, SESSIONS};
use oracle::list::Which;
use oracle::protocol::handshake::DeviceModel;

const USAGE: &str = "usage: generate N [SEED] [--only SEQUENCE] [--mevo] [--rigs] [--whole] [--bad]
SEQUENCE: dsp, avr, pi, avr_config, disarm, arm or session";

struct Task {
    calls: u64,
    seed: u64,
    leaning: Leaning,
    whole: bool,
    bad: bool,
}

fn main() -> ExitCode {
    let Some(task) = task() else {
        eprintln!("{USAGE}");
        return ExitCode::from(2);
    };
    let mut source = Source::of_calls(task.calls, task.seed, task.leaning, task.bad);
    if task.whole {
        source = source.whole();
    }
    while source.coverage.calls < task.calls {
        let list = source.list(LIST_LINES, task.calls - source.coverage.calls);
        let text = as_text(&list.lines);
        if io::stdout().write_all(text.as_bytes()).is_err() {
            return ExitCode::FAILURE;
        }
    }
    ExitCode::SUCCESS
}

fn task() -> Option<Task> {
    let (mut which, mut mevo, mut rigs) = (Which::Dsp, false, false);
    let (mut whole, mut bad) = (false, false);
    let mut numbers: Vec<u64> = Vec::new();
    let mut args = std::env::args().skip(1);
    while let Some(arg) = args.next() {
        match arg.as_str() {
            "--only" => which = Which::of_word(&args.next()?)?,
            "--mevo" => mevo = true,
            "--rigs" => rigs = true,
            "--whole" => whole = true,
            "--bad" => bad = true,
            number => numbers.push(number.parse().ok()?),
        }
    }
    let (calls, seed) = match numbers[..] {
        [calls] => (calls, 1),
        [calls, seed] => (calls, seed),
        _ => return None,
    };
    // Only a Mevo has a Pi.
    let model = match mevo || which == Which::Pi {
        true => DeviceModel::Mevo,
        false => DeviceModel::Xi,
    };
    let leaning = match which {
        Which::Session => SESSIONS,
        _ => Leaning { which, model, rigs },
    };
    Some(Task {
        calls,
        seed,
        leaning,
        whole,
        bad,
    })
}
