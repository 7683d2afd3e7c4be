//! Writes seq.rs with its clocks as arguments, and the line that declares it.

use std::path::{Path, PathBuf};
use std::{env, fs};

fn main() {
    let package = PathBuf::from(env::var("CARGO_MANIFEST_DIR").unwrap());
    let out = PathBuf::from(env::var("OUT_DIR").unwrap());
    for file in ["build.rs", "clocks.patch", "ironsight/src/seq.rs"] {
        println!("cargo::rerun-if-changed={file}");
    }
    let original = read(&package.join("ironsight/src/seq.rs"));
    let mut seq = apply(&original, &read(&package.join("clocks.patch")));
    seq += &declaration("inspect", &package.join("src/inspect.rs"));
    fs::write(out.join("seq.rs"), seq).unwrap();
    let modules = declaration("seq", &out.join("seq.rs"));
    fs::write(out.join("modules.rs"), modules).unwrap();
}

fn read(path: &Path) -> String {
    fs::read_to_string(path).unwrap_or_else(|e| panic!("{}: {e}", path.display()))
}

fn declaration(name: &str, path: &Path) -> String {
    format!("#[path = {:?}] pub mod {name};\n", path.to_str().unwrap())
}

/// Applies a unified diff of one file. Stops if a line or a number doesn't fit.
fn apply(original: &str, patch: &str) -> String {
    let old: Vec<&str> = original.split_inclusive('\n').collect();
    let mut new: Vec<&str> = Vec::new();
    let mut read = 0;
    let mut end = (0, 0);
    for line in patch.split_inclusive('\n').skip(2) {
        let (mark, text) = line.split_at(1);
        match mark {
            "@" => {
                assert_eq!((read, new.len()), end, "the hunk before {line}");
                let [from, removed, to, added] = hunk(line);
                new.extend(&old[read..from - 1]);
                read = from - 1;
                assert_eq!(new.len(), to - 1, "the hunk {line}");
                end = (read + removed, new.len() + added);
            }
            "+" => new.push(text),
            " " | "-" => {
                assert_eq!(old[read], text, "line {} of the original", read + 1);
                read += 1;
                if mark == " " {
                    new.push(text);
                }
            }
            _ => panic!("not a line of a diff: {line}"),
        }
    }
    assert_eq!((read, new.len()), end, "the last hunk");
    new.extend(&old[read..]);
    new.concat()
}

/// The four numbers of `@@ -from,removed +to,added @@`.
fn hunk(line: &str) -> [usize; 4] {
    let numbers: Vec<usize> = line
        .split(|c: char| !c.is_ascii_digit())
        .filter(|s| !s.is_empty())
        .map(|s| s.parse().unwrap())
        .collect();
    numbers.try_into().expect("four numbers in a hunk's head")
}
