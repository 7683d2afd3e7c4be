//! The lists that are stored elsewhere in the repository, and the answers
//! that its programs are held to.

mod common;

use std::fs;

use common::answers;
use oracle::coverage::Coverage;
use oracle::list::Which;

fn stored(file: &str) -> String {
    fs::read_to_string(format!("{}/../{file}", env!("CARGO_MANIFEST_DIR"))).unwrap()
}

#[test]
fn answers_of_the_sample_and_the_trials() {
    let sample = stored("crates/replay/data/sample.list");
    assert!(answers(&sample, true) == stored("crates/replay/stdout"));
    let trials = stored("crates/trials/data/trials.list");
    // what it shows behind them is tests/show.rs's
    assert!(stored("crates/trials/stdout").starts_with(&answers(&trials, false)));
}

#[test]
fn the_sample_meets_everything() {
    let sample = stored("crates/replay/data/sample.list");
    let unmarked = sample.strip_prefix('\u{FEFF}').expect("a byte order mark");
    let lines: Vec<String> = unmarked.split_terminator('\n').map(String::from).collect();
    let coverage = Coverage::of_list(&lines);
    assert_eq!(coverage.missing(&Which::WITH_SESSION), Vec::<String>::new());
    assert_eq!(
        coverage.missing_reasons(&Which::WITH_SESSION),
        Vec::<String>::new()
    );
}

/// Whether a sequence is done after this answer; of a session, all of it.
fn is_done(answer: &str) -> bool {
    match answer.split_once("; D ") {
        Some((_, steps)) => ["Done; A Done", "Done; A Done; P Done"].contains(&steps),
        None => answer.ends_with("; Done"),
    }
}

/// Every line of an example can be read, and a sequence of it gets done.
#[test]
fn examples() {
    let folder = format!("{}/../examples", env!("CARGO_MANIFEST_DIR"));
    let mut read = 0;
    for file in fs::read_dir(folder).unwrap() {
        let path = file.unwrap().path();
        let answers = answers(&fs::read_to_string(&path).unwrap(), false);
        assert!(!answers.contains("bad line"), "{path:?}");
        assert!(answers.lines().any(is_done), "{path:?}");
        read += 1;
    }
    assert!(read >= 10);
}
