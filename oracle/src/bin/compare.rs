//! compare N [SEED] --replay PATH [--only SEQUENCE] [--bad] [--show [--secrets]]:
//! runs N calls of each sequence and model, N of a DSP with rigs, and N of
//! sessions, through the Rust and through the program at PATH; with --show both
//! show the lists to people, with --secrets whole. A run of an arm ends before a text on which the
//! rules differ.

use std::io;
use std::process::ExitCode;
use std::time::{SystemTime, UNIX_EPOCH};

use oracle::compare::{Difference, LIST_LINES, LONG_ARM_CALLS, Program, Source};
use oracle::coverage::Coverage;
use oracle::generate::{LEANINGS, Leaning, RIGS, SESSIONS};
use oracle::list::Which;
use oracle::show::Form;

const USAGE: &str =
    "usage: compare N [SEED] --replay PATH [--only SEQUENCE] [--bad] [--show [--secrets]]
SEQUENCE: dsp, avr, pi, avr_config, disarm, arm or session";

/// The lines that are shown of a list with a difference.
const MOST_SHOWN: usize = 1_000;

/// Why the limit of retries isn't asked for.
const NO_LONG_ARM: &str =
    "not asked for: an arm with 65535 nacks (retries 65535, refused 13), which is made from";

struct Task {
    calls: u64,
    seed: u64,
    bad: bool,
    of: Vec<Which>,
    program: Program,
}

fn main() -> ExitCode {
    let Some(task) = task() else {
        eprintln!("{USAGE}");
        return ExitCode::from(2);
    };
    println!("seed {}", task.seed);
    let mut coverage = Coverage::default();
    let asked = |leaning: &Leaning| task.of.contains(&leaning.which);
    let leanings = LEANINGS.into_iter().chain([RIGS, SESSIONS]);
    for leaning in leanings.filter(asked) {
        match compare(&task, leaning) {
            Ok(Ok(counted)) => coverage.add(&counted),
            Ok(Err((list, difference))) => return differs(&list, &difference),
            Err(error) => {
                eprintln!("compare: {}: {error}", task.program.path.display());
                return ExitCode::FAILURE;
            }
        }
    }
    println!("seed {}: no difference\n\n{coverage}", task.seed);
    if task.of.contains(&Which::Arm) && !coverage.long_arm {
        println!("{NO_LONG_ARM} {LONG_ARM_CALLS} calls on");
    }
    let mut missing = coverage.missing(&task.of);
    if task.bad {
        missing.extend(coverage.missing_reasons(&task.of));
    }
    for what in &missing {
        println!("never met: {what}");
    }
    ExitCode::from(u8::from(!missing.is_empty()))
}

fn task() -> Option<Task> {
    let (mut numbers, mut path) = (Vec::new(), None);
    let (mut bad, mut shown, mut secrets) = (false, false, false);
    let mut of = Which::WITH_SESSION.to_vec();
    let mut args = std::env::args_os().skip(1);
    while let Some(arg) = args.next() {
        match arg.to_str()? {
            "--replay" => path = Some(args.next()?),
            "--only" => of = vec![Which::of_word(args.next()?.to_str()?)?],
            "--bad" => bad = true,
            "--show" => shown = true,
            "--secrets" => secrets = true,
            number => numbers.push(number.parse().ok()?),
        }
    }
    let (calls, seed) = match numbers[..] {
        [calls] => (calls, seed_from_clock()),
        [calls, seed] => (calls, seed),
        _ => return None,
    };
    if secrets && !shown {
        return None;
    }
    let form = Form {
        with_state: true,
        secrets,
    };
    let shown = shown.then_some(form);
    Some(Task {
        calls,
        seed,
        bad,
        of,
        program: Program { path: path?, shown },
    })
}

fn seed_from_clock() -> u64 {
    let since = SystemTime::now().duration_since(UNIX_EPOCH);
    since.map_or(1, |since| since.as_secs())
}

type Shown = (Vec<String>, Difference);

/// The coverage, or the smallest list that shows a difference.
fn compare(task: &Task, leaning: Leaning) -> io::Result<Result<Coverage, Shown>> {
    let mut source = Source::of_calls(task.calls, task.seed, leaning, task.bad);
    while source.coverage.calls < task.calls {
        let list = source.list(LIST_LINES, task.calls - source.coverage.calls);
        if let Some(difference) = task.program.difference(&list)? {
            return Ok(Err(task.program.smallest(&list, difference)?));
        }
    }
    Ok(Ok(source.coverage))
}

fn differs(list: &[String], difference: &Difference) -> ExitCode {
    println!("a difference; the smallest list found:\n");
    show(list);
    let (rust, program) = (shown(&difference.front), shown(&difference.program));
    println!("\nthe Rust:    {rust}\nthe program: {program}");
    let pairs = rust.bytes().zip(program.bytes());
    let same = pairs.take_while(|(a, b)| a == b).count();
    let from = |text: &str| String::from_utf8_lossy(&text.as_bytes()[same..]).into_owned();
    println!("\nThey differ from byte {} on:", same + 1);
    println!("the Rust:    {:.60}", from(rust));
    println!("the program: {:.60}", from(program));
    ExitCode::FAILURE
}

/// The middle of a very long list is left out.
fn show(list: &[String]) {
    let left_out = list.len().saturating_sub(MOST_SHOWN);
    let half = list.len().min(MOST_SHOWN) / 2;
    for line in &list[..half] {
        println!("{line}");
    }
    if left_out > 0 {
        println!("({left_out} lines left out; generate writes them)");
    }
    for line in &list[half + left_out..] {
        println!("{line}");
    }
}

fn shown(answer: &Option<String>) -> &str {
    answer.as_deref().unwrap_or("(nothing)")
}
