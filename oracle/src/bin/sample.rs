//! sample FILE: writes the stored list, bad lines among others and then good calls.

use std::path::Path;
use std::process::ExitCode;
use std::{fs, io};

use oracle::compare::{Source, as_text};
use oracle::coverage::Coverage;
use oracle::generate::{LEANINGS, Leaning, SESSION_LINES, SESSIONS, leaning};
use oracle::list::Which;
use oracle::protocol::handshake::DeviceModel;

const USAGE: &str = "usage: sample FILE";
/// One with which so few calls meet everything.
const SEED: u64 = 990;
/// The same of sessions.
const SEED_OF_SESSIONS: u64 = 40;
/// A byte order mark, which is taken as nothing.
const MARK: char = '\u{FEFF}';
/// Of each sequence and model, but a settings run's.
const GOOD_CALLS: u64 = 1_100;
/// A settings run begins seldom, and in many ways.
const SETTINGS_CALLS: u64 = 2_200;
const CALLS_BETWEEN_BAD_LINES: u64 = 1_500;
/// A list of its has the words of all sequences.
const WITH_BAD_LINES: Leaning = leaning(Which::Arm, DeviceModel::Mevo);

fn main() -> ExitCode {
    let args: Vec<_> = std::env::args_os().skip(1).collect();
    let [file] = &args[..] else {
        eprintln!("{USAGE}");
        return ExitCode::from(2);
    };
    match sample(Path::new(file)) {
        Ok(missing) => {
            for what in &missing {
                eprintln!("never met: {what}");
            }
            ExitCode::from(u8::from(!missing.is_empty()))
        }
        Err(error) => {
            eprintln!("sample: {}: {error}", file.display());
            ExitCode::FAILURE
        }
    }
}

/// Writes the list, and gives what it never meets. The bad lines come
/// first: some of them are bad because no sequence has begun. Those of a
/// session follow in one.
fn sample(file: &Path) -> io::Result<Vec<String>> {
    let mut source = Source::new(SEED, WITH_BAD_LINES, true);
    let mut lines = source.list(usize::MAX, CALLS_BETWEEN_BAD_LINES).lines;
    let mut missing = source.written_left().to_vec();
    lines.push(Which::Session.word().to_string());
    lines.extend(SESSION_LINES.map(String::from));
    for leaning in LEANINGS {
        let mut source = Source::new(SEED, leaning, false);
        let calls = match leaning.which {
            Which::AvrConfig => SETTINGS_CALLS,
            _ => GOOD_CALLS,
        };
        lines.extend(source.list(usize::MAX, calls).lines);
    }
    let mut source = Source::new(SEED_OF_SESSIONS, SESSIONS, false);
    lines.extend(source.list(usize::MAX, GOOD_CALLS).lines);
    let coverage = Coverage::of_list(&lines);
    missing.extend(coverage.missing(&Which::WITH_SESSION));
    missing.extend(coverage.missing_reasons(&Which::WITH_SESSION));
    fs::write(file, format!("{MARK}{}", as_text(&lines)))?;
    Ok(missing)
}
