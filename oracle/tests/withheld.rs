//! What `--show` withholds: lists that differ in the texts of network replies
//! alone are shown by the same bytes. `WIGTALOM_REPLAY` may name the program
//! `replay`: then it must show these lists so, too, of those that differ in many
//! texts some.

mod common;

use std::collections::HashSet;

use common::{PARAMS, message, repository};
use oracle::broken::{self, Broken};
use oracle::compare::{Source, as_text};
use oracle::generate::{LEANINGS, Random, SESSIONS, twin};
use oracle::show::{self, Form};
use oracle::withheld;

const PLAIN: Form = Form {
    with_state: false,
    secrets: false,
};
const STATES: Form = Form {
    with_state: true,
    secrets: false,
};
const NOTE: &str = "withheld: ssid, password, their lengths and the texts of network replies; --secrets shows them";

/// A list as it is shown.
fn shown(list: &[u8], form: Form) -> Vec<u8> {
    let mut out = Vec::new();
    show::run(&mut &list[..], &mut out, form).unwrap();
    out
}

/// The same, by the program as well, if it is named.
fn shown_by_both(list: &[u8], form: Form) -> Vec<u8> {
    let out = shown(list, form);
    if let Some(program) = std::env::var_os("WIGTALOM_REPLAY") {
        let words = [
            Some("--show"),
            form.with_state.then_some("--state"),
            form.secrets.then_some("--secrets"),
        ];
        let words: Vec<&str> = words.into_iter().flatten().collect();
        let outcome = broken::run(&program, &words, list).unwrap();
        assert!(outcome.output == out, "{}", text(list));
    }
    out
}

fn text(bytes: &[u8]) -> String {
    String::from_utf8_lossy(bytes).into_owned()
}

fn shown_text(list: &str, form: Form) -> String {
    text(&shown_by_both(list.as_bytes(), form))
}

// ---- texts

fn digits(text: &[u8]) -> String {
    text.iter().map(|b| format!("{b:02X}")).collect()
}

/// A text between quotes; each byte that isn't plain as an escape, or all.
fn quoted(text: &[u8], all: bool) -> String {
    let one = |b: &u8| match b {
        b' ' | b',' | b'=' | b'|' | b';' | b'a'..=b'z' | b'A'..=b'Z' if !all => {
            char::from(*b).to_string()
        }
        _ => format!("\\x{b:02x}"),
    };
    format!("\"{}\"", text.iter().map(one).collect::<String>())
}

/// So many bytes with zero bytes at these places.
fn zeros(length: usize, places: &[usize]) -> Vec<u8> {
    let mut text = vec![b's'; length];
    places.iter().for_each(|place| text[*place] = 0);
    text
}

/// Texts of many lengths, with a zero byte at several places or none, and
/// some that look like something else.
fn texts() -> Vec<Vec<u8>> {
    let mut texts = vec![Vec::new()];
    for length in [1, 2, 3, 15, 16, 17, 32, 33, 64, 100, 255, 256] {
        texts.push(zeros(length, &[]));
        texts.push(zeros(length, &[0]));
        texts.push(zeros(length, &[length / 2]));
        texts.push(zeros(length, &[length - 1]));
        texts.push(zeros(length, &[0, length / 3, length / 2]));
    }
    for text in [
        "\" x",
        "\\",
        "|41|",
        "; state ssid=41|A| password=41|A|",
        "; Done",
        " NetConfigResp text=41 payload=42",
        "NetConfigResp",
        "(withheld)",
        "text=\"",
        "ARMED CANCELLED System State",
        "a,b, c,  d",
        "  ",
        "\n\r\t\u{7F}",
        "é€𝛼",
    ] {
        texts.push(text.into());
    }
    texts
}

/// As a line has them: named, and written in one of several ways; the first
/// few in each.
fn written() -> Vec<String> {
    let mut written = Vec::new();
    for (i, text) in texts().iter().enumerate() {
        let values = [
            digits(text),
            digits(text).to_lowercase(),
            quoted(text, false),
            quoted(text, true),
        ];
        let values = values.map(|value| format!(" text={value}"));
        match i < 6 {
            true => written.extend(values),
            false => written.push(values[i % 4].clone()),
        }
    }
    written
}

/// What can't be read as a text, and what isn't named one.
const UNREADABLE: [&str; 14] = [
    " text=\"ssid",
    " text=\"ssid and password",
    " text=\"a\\q\"",
    " text=\"abc\\x4\"",
    " text=\"\\",
    " text=4",
    " text=41424",
    " text=4x",
    " text=4142x",
    " text=\"a\u{1}\"",
    " text=\"abc\"d",
    " text = \"abc\"",
    " \"ssid\\x00password\"",
    " 4142 x",
];

// ---- lists: `@` stands for a text

/// A whole start-up, or its beginning, with something behind each line.
fn start_up(behind: &str, lines: usize) -> String {
    let fed = |named| message(named, "Mevo", 0);
    let reply = "feed 0 Pi 0xDE NetConfigResp@";
    let mut all = vec!["pi".to_string(), fed("PiStatus from Pi")];
    all.extend(["DevInfoResp from Pi", "ParamValue from Pi"].map(fed));
    all.extend(["CamConfig from Pi", "CamConfig from Pi"].map(fed));
    all.extend([reply, reply].map(String::from));
    all.extend(vec![fed("ParamValue from Pi"); 9]);
    let lines = all.iter().take(lines);
    lines.map(|line| format!("{line}\n{behind}\n")).collect()
}

const WHOLE: usize = 17;

/// What can be read: awaited, too early, after Done, from other sources, and
/// of other sequences.
fn readable() -> Vec<String> {
    let mut lists = vec![
        start_up("", WHOLE),
        start_up("result", WHOLE),
        start_up("sheet", WHOLE),
        start_up("sheet 2 100", WHOLE),
        start_up("feed 0 Pi 0xDE NetConfigResp@", WHOLE),
        format!(
            "{}{}",
            start_up("", WHOLE),
            "result\nfeed 0 Pi 0xDE NetConfigResp@\nresult\n".repeat(2)
        ),
    ];
    let replies = |now: u64| {
        let sources = ["App", "Avr", "Dsp", "Pi"];
        let reply = |source| format!("feed {now} {source} 222 NetConfigResp@\n");
        sources.map(reply).concat()
    };
    let behind = format!("{}result", replies(0));
    lists.extend((1..=WHOLE).map(|lines| start_up(&behind, lines)));
    let config = "avr_config mode=9 param_id=6 int24=1 range_mm=1 height_mm=1";
    for begins in [
        "dsp", "avr", "avr Xi", "pi", config, "disarm", "arm Mevo", "arm Xi",
    ] {
        lists.push(format!("{begins}\n{}", replies(7)));
    }
    for line in [
        " feed\t0 Pi  0xDE NetConfigResp@",
        "feed 0x0 Pi 222 NetConfigResp@\r",
        "feed 0 Pi 222 NetConfigResp@ \t",
        "feed 0 Pi 0 NetConfigResp@ payload=4142 wall=7",
        "feed 0 Pi 0 NetConfigResp@ payload=\"NetConfigResp text=41\"",
        &format!("feed 0 Pi 0 NetConfigResp@ payload={}", "70".repeat(257)),
        &format!("feed {} Pi 0xDE NetConfigResp@", "0".repeat(59)),
        &format!("feed {} Pi 0xDE NetConfigResp@", "0".repeat(60)),
        &format!("feed {} Pi 0xDE NetConfigResp@", "0".repeat(70)),
        &format!("feed {} Pi 0xDE NetConfigResp@", "0".repeat(300)),
    ] {
        lists.push(format!("pi\n{line}\nresult"));
    }
    lists
}

/// Lines that can't be read, whatever the text is.
fn unreadable() -> Vec<String> {
    let behind = [
        " x",
        " payload=4x",
        " payload=414",
        " payload=\"a",
        " payload=\"a\\q\"",
        " payload=\"a\u{1}\"",
        " payload=41 x",
        " wall=x",
        " wall=18446744073709551616",
        " wall=1 payload=41",
        " # a comment",
        " NetConfigResp text=\"ssid\"",
        " feed 0 Pi 0xDE NetConfigResp text=\"ssid\"",
    ];
    let kinds = behind.map(|behind| format!("feed 0 Pi 0xDE NetConfigResp@{behind}"));
    let zeros = "0".repeat(60);
    let others = [
        "feed x Pi 0xDE NetConfigResp@",
        "feed 18446744073709551616 Pi 0xDE NetConfigResp@",
        "feed 0 Po 0xDE NetConfigResp@",
        "feed 0 Pi 256 NetConfigResp@",
        "feed 0 Pi NetConfigResp@",
        "feed 0 NetConfigResp@",
        "feed Pi 0xDE NetConfigResp@",
        "fed 0 Pi 0xDE NetConfigResp@",
        "Feed 0 Pi 0xDE NetConfigResp@ payload=41",
        "NetConfigResp@",
        "feed 0 Pi 0xDE xNetConfigResp@",
        "check NetConfigResp@",
        "result feed 0 Pi 0xDE NetConfigResp@",
        "model \"a\" NetConfigResp@",
        "feed 0 Pi 0xAA PiStatus feed 0 Pi 0xDE NetConfigResp@",
        "feed 0 Avr 0xE3 Text text=\"a\" feed 0 Pi 0xDE NetConfigResp@",
        "feed 0 Avr 0xE3 Text text=\"a\\ NetConfigResp@",
        "feed 0 Avr 0xE3 Text text=\"a NetConfigResp@",
        "pi NetConfigResp@",
    ];
    let folded = [
        format!("feed {zeros} Pi 0xDE NetConfigResp@ x"),
        format!("feed {zeros}00 Pi 0xDE NetConfigResp@ x"),
        format!("feed {zeros} Po 0xDE NetConfigResp@"),
        format!("feed {zeros}00 Po 0xDE NetConfigResp@"),
        format!("feed {zeros}{zeros} Po 0xDE NetConfigResp@"),
    ];
    let lines = others.map(String::from).into_iter().chain(kinds);
    lines.chain(folded).collect()
}

/// The same with a text that is named, or stands in quotes: where it isn't
/// expected, or with no kind.
const MISPLACED: [&str; 10] = [
    "feed 0 Pi 0xDE NetConfigResp@ text=\"ssid\"",
    "feed 0 Pi 0xDE NetConfigResp payload=41@",
    "feed 0 Pi 0xDE@",
    "feed 0 Pi 0xDE@ NetConfigResp",
    "feed 0 Pi 0xDE@ NetConfigResp text=41",
    "feed 0 Pi 0xDE netconfigresp@",
    "feed 0 Pi 0xDE NetConfigReply@ payload=41",
    "feed 0 Pi 222 NetConfig Resp@",
    "feed@ 0 Pi 0xDE",
    "Pi 0xDE NetConfig@",
];

/// Comments that were calls.
const COMMENTS: [&str; 4] = [
    "# feed 0 Pi 0xDE NetConfigResp@",
    "#feed 0 Pi 0xDE NetConfigResp payload=41@ x",
    " \t#NetConfigResp@",
    "# before@: feed 0 Pi 0xDE NetConfigResp@ ",
];

/// Holds a list to be shown alike with each text, with states and without;
/// and to have the texts, where nothing is withheld.
#[track_caller]
fn alike(list: &str, texts: &[String]) {
    for form in [PLAIN, STATES] {
        let with = |text: &String| list.replace('@', text).into_bytes();
        let first = shown_by_both(&with(&texts[0]), form);
        for (i, text) in texts.iter().enumerate() {
            let shown = if i % 50 == 49 { shown_by_both } else { shown };
            let other = shown(&with(text), form);
            assert!(other == first, "{list}\n{text}\n{}", self::text(&other));
        }
        let whole = Form {
            secrets: true,
            ..form
        };
        let some = texts.iter().step_by(7).take(12);
        let all: HashSet<_> = some.clone().map(|t| shown(&with(t), whole)).collect();
        assert!(all.len() > some.count() / 2, "{list}");
        assert_eq!(text(&first).matches(NOTE).count(), 1, "{list}");
    }
}

fn with_none() -> Vec<String> {
    [vec![String::new()], written()].concat()
}

// ---- pairs

#[test]
fn every_list_that_can_be_read() {
    for list in readable() {
        alike(&list, &with_none());
    }
}

/// Before the first sequence, and while one runs.
#[test]
fn lines_that_cannot_be_read() {
    let unreadable_texts = UNREADABLE.map(String::from).to_vec();
    let texts = [with_none(), unreadable_texts].concat();
    for line in unreadable() {
        for begins in ["", "dsp\n", "pi\n"] {
            alike(&format!("{begins}{line}\n"), &texts);
        }
    }
    // A text that can't be read makes the line one.
    let only = UNREADABLE.map(String::from);
    alike("pi\nfeed 0 Pi 0xDE NetConfigResp@\n", &only);
    alike("feed 0 Pi 0xDE NetConfigResp@\n", &texts);
    let named = written();
    let unnamed = named
        .iter()
        .filter_map(|text| text.strip_prefix(" text=\""));
    let unnamed: Vec<_> = unnamed.map(|text| format!(" \"{text}")).collect();
    for line in MISPLACED {
        alike(&format!("pi\n{line}\n"), &named);
        alike(&format!("pi\n{line}\n"), &unnamed);
    }
}

#[test]
fn comments_that_were_calls() {
    let texts = written();
    for comment in &COMMENTS[..3] {
        alike(&format!("{comment}\n"), &texts);
    }
    // What is written before the kind is the comment's own.
    let before = shown_text("# text=41 NetConfigResp text=42\n", PLAIN);
    assert!(before.starts_with("# text=41 NetConfigResp (withheld)\n"));
}

/// Of every length that a text may have, wherever its zero byte stands.
#[test]
fn every_length() {
    let mut texts = Vec::new();
    for length in 0..=256 {
        texts.push(format!(" text={}", digits(&zeros(length, &[]))));
    }
    for place in 0..256 {
        texts.push(format!(" text={}", quoted(&zeros(256, &[place]), false)));
    }
    alike(&start_up("result", WHOLE), &texts);
    alike("dsp\nfeed 0 Pi 0xDE NetConfigResp@ x\n", &texts);
}

/// Two texts in one list are each other's pair, too.
#[test]
fn two_texts_that_differ() {
    let list = |one: &str, two: &str| {
        let list = start_up("result", WHOLE).replacen('@', one, 1);
        list.replacen('@', two, 1).into_bytes()
    };
    let written = written();
    let first = shown(&list("", ""), STATES);
    for (one, two) in written.iter().zip(written.iter().rev()) {
        assert!(shown(&list(one, two), STATES) == first);
    }
}

/// Lists from a seed, each line of which may be one of a network reply that
/// can't be read; and lists that are broken at random places.
#[test]
fn generated_lists() {
    let mut random = Random::new(11);
    let mut changed = 0;
    for leaning in LEANINGS.into_iter().chain([SESSIONS]) {
        let lines = Source::new(9, leaning, true).list(usize::MAX, 1_500).lines;
        let list = as_text(&lines).into_bytes();
        let (twin, lines) = twin(&list, &mut random);
        changed += lines;
        for form in [PLAIN, STATES] {
            same(&shown_by_both(&list, form), &shown_by_both(&twin, form));
        }
    }
    assert!(changed > 200, "{changed}");
    let (mut lists, mut changed) = (Broken::new(9), 0);
    for _ in 0..2_000 {
        let list = lists.list();
        let (twin, lines) = lists.twin(&list);
        changed += lines;
        same(&shown(&list, STATES), &shown(&twin, STATES));
    }
    assert!(changed > 200, "{changed}");
}

/// Holds two texts to be the same, and tells the first lines that aren't.
#[track_caller]
fn same(one: &[u8], other: &[u8]) {
    let (one, other) = (text(one), text(other));
    let lines = one.lines().zip(other.lines());
    let differing: Vec<_> = lines.filter(|(a, b)| a != b).take(3).collect();
    assert!(one == other, "{differing:#?}");
}

// ---- what is shown

/// Written by hand.
#[test]
fn with_and_without() {
    let lines = [
        "pi",
        "feed 1 Pi 0xDE NetConfigResp text=\"BAY\\x00pw\" payload=41",
        "feed 1 Pi 0xDE NetConfigResp text=\"BAY\\x00pw\" x",
        "feed 1 Po 0xDE NetConfigResp text=\"BAY\\x00pw\"",
        "# feed 1 Pi 0xDE NetConfigResp text=\"BAY\\x00pw\"",
    ];
    let state = |network: [&str; 2]| {
        format!(
            "    state
      dev_info                none
      cam_config              none
      ssid                    {}
      password                {}
      ticks                   none\n",
            network[0], network[1]
        )
    };
    let (begun, fed) = (
        "    send Pi StatusPoll pi_mode=true\n    now WaitStatus\n",
        "    accepted, ticked nothing\n    no send\n    still WaitStatus\n",
    );
    let source =
        "       ^\n    bad line at column 8: unknown source: App, Pi, Avr or Dsp expected\n";
    let end = "\n2 calls, 0 refused, 2 bad lines\n\
        the Pi start-up is not done: WaitStatus waits for PiStatus from Pi\n";
    let withheld = state(["(withheld)"; 2]);
    let expected = format!(
        "pi\n{begun}{withheld}feed 1 Pi 0xDE NetConfigResp (withheld)\n{fed}{withheld}\
        feed 1 Pi 0xDE NetConfigResp (withheld)\n    bad line: the column and the reason are withheld\n\
        feed 1 Po 0xDE NetConfigResp (withheld)\n{source}# feed 1 Pi 0xDE NetConfigResp (withheld)\n\
        {end}{NOTE}\n"
    );
    let list = lines.join("\n") + "\n";
    assert_eq!(shown_text(&list, STATES), expected);
    let [pi, reply, word, po, comment] = lines;
    let whole = state(["empty"; 2]);
    let mark = format!(
        "{:46}^\n    bad line at column 47: end of line expected: ",
        ""
    );
    let reason =
        "a text or payload stands behind its name and =, a\n        comment on a line of its own\n";
    let expected = format!(
        "{pi}\n{begun}{whole}{reply}\n{fed}{whole}{word}\n{mark}{reason}{po}\n{source}{comment}\n{end}"
    );
    let secrets = Form {
        secrets: true,
        ..STATES
    };
    assert_eq!(shown_text(&list, secrets), expected);
}

/// At the end of a start-up, in the result and in the state.
#[test]
fn a_result() {
    let list = start_up("", WHOLE).replace('@', " text=\"BAY\\x00pw\"") + "result\n";
    let network = |ssid: &str, password: &str| {
        format!("      ssid                    {ssid}\n      password                {password}\n")
    };
    let withheld = network("(withheld)", "(withheld)");
    let whole = network("42 41 59  |BAY|", "70 77  |pw|");
    for (with_state, results) in [(false, 1), (true, 2)] {
        let form = |secrets| Form {
            with_state,
            secrets,
        };
        let (_, answer) = split(&list, form(false));
        assert_eq!(answer.matches(&withheld).count(), results);
        let (_, answer) = split(&list, form(true));
        assert_eq!(answer.matches(&whole).count(), results);
    }
}

/// Before and behind the list's last `result`.
fn split(list: &str, form: Form) -> (String, String) {
    let shown = shown_text(list, form);
    let (before, behind) = shown.rsplit_once("\nresult\n").unwrap();
    (before.to_string(), behind.to_string())
}

/// The words are those of docs/REPLAY.md.
#[test]
fn words_of_the_paper() {
    assert_eq!(withheld::NOTE, NOTE);
    let papers = repository("docs/REPLAY.md");
    for words in [withheld::MARK, NOTE, withheld::FAULT] {
        assert!(papers.contains(words), "{words}");
    }
}

/// The last line tells it, and only where it is so.
#[test]
fn told_once() {
    let told = |list: &str, form| {
        let shown = shown_text(list, form);
        let told = shown.matches("withheld:").count();
        assert_eq!(told == 1, shown.ends_with(&format!("\n{NOTE}\n")));
        told
    };
    assert!(NOTE.len() <= 100);
    for list in [
        "dsp\nfeed 1 Pi 1 NetConfigResp\nfeed 1 Pi 1 NetConfigResp\n",
        "feed 1 Pi 1 NetConfigResp text=41\n",
        "# NetConfigResp text=41\n",
        "feed text=41\n",
    ] {
        assert_eq!(told(list, PLAIN), 1, "{list}");
    }
    let secrets = Form {
        secrets: true,
        ..STATES
    };
    assert_eq!(told("pi\nfeed 1 Pi 1 NetConfigResp text=41\n", secrets), 0);
    assert_eq!((told("pi\n", PLAIN), told("pi\n", STATES)), (0, 1));
    for list in ["", "# NetConfigResp\n", "pi\nresult\n", "dsp\nfeed x\n"] {
        assert_eq!(told(list, PLAIN), 0, "{list}");
    }
}

/// What is no network reply is shown whole, by the same bytes as with
/// `--secrets`: texts of other kinds, also in lines that can't be read and
/// with a `NetConfigResp` in them.
#[test]
fn other_texts_are_shown() {
    let fed = [
        "Avr 0xE3 Text text=\"System State\"",
        "Avr 0xE3 Text text=\"a NetConfigResp text=41\"",
        "Avr 0xE3 Text text=\"ARMED\" x",
        "Dsp 0xE7 DevInfoResp text=\"a\" payload=\"FS Xi",
        "Dsp 0xAA DspStatus V47 text=\"a\"",
        "Dsp 0xFD ProdInfoResp text=41 text=41",
        "Pi 0xDE Other text=\"a\" payload=414",
        "Pi 0xDE Other text=\"a NetConfigResp\" payload=41",
        "Dsp 0xAA DspStatu V46",
        &format!("Dsp 0xA0 ConfigResp params={PARAMS} text=\"a\"x"),
    ];
    let calls = [
        "model \"FS Xi",
        "model \"NetConfigResp\"",
        "check \"5\"",
        "avr \"Xi\"",
        "sheet text=5",
        "modul 41",
        "# text=\"a\" of a NetConfigResp",
        "# a NetConfigResp and \"its text\"",
    ];
    let fed = fed.map(|words| format!("feed 1 {words}"));
    for begins in ["", "dsp\n", "pi\n", "arm\n"] {
        for line in fed.iter().map(|l| &l[..]).chain(calls) {
            // Of a line that can't be read what stands behind it isn't shown.
            if begins.is_empty() && line.contains("NetConfigResp") && !line.starts_with('#') {
                continue;
            }
            let list = format!("{begins}{line}\n");
            let whole = Form {
                secrets: true,
                ..PLAIN
            };
            assert_eq!(shown_text(&list, PLAIN), shown_text(&list, whole));
        }
    }
}
