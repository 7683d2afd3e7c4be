//! oracle [--show [--secrets]] [--state] [FILE]: answers a list of calls with
//! the Rust.

use std::fs::File;
use std::io::{self, BufRead, BufReader, BufWriter};
use std::process::ExitCode;

use oracle::front;
use oracle::show::{self, Form};

const USAGE: &str = "usage: oracle [--show [--secrets]] [--state] [FILE]";

fn main() -> ExitCode {
    let (mut form, mut shown) = (Form::default(), false);
    let mut file = None;
    for arg in std::env::args_os().skip(1) {
        if arg == "--state" {
            form.with_state = true;
        } else if arg == "--show" {
            shown = true;
        } else if arg == "--secrets" {
            form.secrets = true;
        } else if file.is_none() && !arg.to_string_lossy().starts_with("--") {
            file = Some(arg);
        } else {
            eprintln!("{USAGE}");
            return ExitCode::from(2);
        }
    }
    // The plain form withholds nothing.
    if form.secrets && !shown {
        eprintln!("{USAGE}");
        return ExitCode::from(2);
    }
    let list: io::Result<Box<dyn BufRead>> = match &file {
        Some(path) => File::open(path).map(|f| Box::new(BufReader::new(f)) as _),
        None => Ok(Box::new(io::stdin().lock())),
    };
    let mut to = BufWriter::with_capacity(1 << 16, io::stdout().lock());
    let mut run = |list: &mut dyn BufRead| match shown {
        true => show::run(list, &mut to, form),
        false => front::run(list, &mut to, form.with_state),
    };
    match list.and_then(|mut list| run(&mut list)) {
        Ok(()) => ExitCode::SUCCESS,
        Err(error) => {
            eprintln!("oracle: {error}");
            ExitCode::FAILURE
        }
    }
}
