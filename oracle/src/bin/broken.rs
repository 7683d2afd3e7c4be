//! broken N [SEED] --replay PATH: makes N broken lists, and runs each through
//! the Rust's front end and through the program at PATH, plain and shown, whole
//! and without what is withheld. A twin of each, with other texts in its network
//! replies, must be shown alike.

use std::ffi::OsString;
use std::process::ExitCode;

use oracle::broken::{self, Broken};
use oracle::front;

const USAGE: &str = "usage: broken N [SEED] --replay PATH";

struct Task {
    lists: u64,
    seed: u64,
    program: OsString,
}

#[derive(Default)]
struct Counts {
    lines: usize,
    answers: usize,
    bad_lines: usize,
    refused: usize,
    with_bad_lines: usize,
    differing: usize,
    other_texts: usize,
}

fn main() -> ExitCode {
    let Some(task) = task() else {
        eprintln!("{USAGE}");
        return ExitCode::from(2);
    };
    let (mut lists, mut counts) = (Broken::new(task.seed), Counts::default());
    for number in 1..=task.lists {
        let list = lists.list();
        let (twin, others) = lists.twin(&list);
        match broken::fault(&task.program, &list, &twin) {
            Ok(None) => counts.add(&list, others),
            Ok(Some(fault)) => {
                println!("seed {}, list {number}: {fault}", task.seed);
                println!("{}", String::from_utf8_lossy(&list));
                println!("its twin:\n{}", String::from_utf8_lossy(&twin));
                return ExitCode::FAILURE;
            }
            Err(error) => {
                eprintln!("broken: {}: {error}", task.program.display());
                return ExitCode::FAILURE;
            }
        }
    }
    println!(
        "seed {}: {} broken lists, no difference",
        task.seed, task.lists
    );
    let Counts {
        lines,
        answers,
        bad_lines,
        refused,
        with_bad_lines,
        differing,
        other_texts,
    } = counts;
    println!("{lines} lines, {answers} answers, {bad_lines} of them bad lines, {refused} refused");
    println!("{with_bad_lines} lists with a bad line (status 1), the others without (status 0)");
    println!("{differing} feeds of an arm that the Rust isn't handed: there the rules differ");
    println!("{other_texts} network replies with another text in a twin: shown alike");
    ExitCode::SUCCESS
}

impl Counts {
    fn add(&mut self, list: &[u8], others: usize) {
        self.other_texts += others;
        let answers = broken::expected(list, None);
        let text = String::from_utf8_lossy(&answers.output);
        self.lines += list.split(|b| *b == b'\n').count();
        self.with_bad_lines += usize::from(answers.status == "1");
        self.differing += front::differing(list.split(|b| *b == b'\n')).len();
        for line in text.lines() {
            let answer = line.split_once(": ").map_or("", |(_, answer)| answer);
            self.answers += 1;
            self.bad_lines += usize::from(answer.starts_with("bad line "));
            self.refused += usize::from(answer.starts_with("refused "));
        }
    }
}

fn task() -> Option<Task> {
    let (mut numbers, mut path) = (Vec::new(), None);
    let mut args = std::env::args_os().skip(1);
    while let Some(arg) = args.next() {
        match arg.to_str()? {
            "--replay" => path = Some(args.next()?),
            number => numbers.push(number.parse().ok()?),
        }
    }
    let (lists, seed) = match numbers[..] {
        [lists] => (lists, 1),
        [lists, seed] => (lists, seed),
        _ => return None,
    };
    Some(Task {
        lists,
        seed,
        program: path?,
    })
}
