//! Lists from a seed, and the shrinking of a list.

use std::cell::Cell;

use oracle::broken::{self, Broken};
use oracle::compare::{LIST_LINES, LONG_ARM_CALLS, List, Source, front_answers, shrink};
use oracle::coverage::Coverage;
use oracle::front;
use oracle::generate::{LEANINGS, LONG_ARM, Leaning, RIGS, Random, SESSIONS, device_info};
use oracle::list::{self, Begin, Call, Settings, Which};
use oracle::model::{Model, has};
use oracle::protocol::config::{ParamData, ParamValue};
use oracle::protocol::handshake::DeviceModel;
use oracle::refusal;

#[test]
fn the_same_seed_gives_the_same_list() {
    for leaning in LEANINGS.into_iter().chain([SESSIONS]) {
        let list = |seed| Source::new(seed, leaning, true).list(usize::MAX, 500);
        assert_eq!(list(1).lines, list(1).lines);
        assert_eq!(list(1).answers, list(1).answers);
        assert_ne!(list(1).lines, list(2).lines);
    }
}

#[test]
fn default_lists_are_comparable() {
    for leaning in LEANINGS.into_iter().chain([SESSIONS]) {
        let list = Source::new(3, leaning, false).list(usize::MAX, 5_000);
        assert!(!list.answers.contains("bad line"));
        for line in &list.lines {
            if let Ok(Some(Call::Feed(feed))) = list::read(line.as_bytes(), Some(Which::Dsp)) {
                assert!(std::str::from_utf8(&feed.text).is_ok(), "{line}");
            }
        }
        assert_eq!(front_answers(&list.lines), list.answers);
    }
}

#[test]
fn everything_is_met() {
    for which in Which::WITH_SESSION {
        let mut all = Coverage::default();
        let leanings = LEANINGS.into_iter().chain([RIGS, SESSIONS]);
        for leaning in leanings.filter(|l| l.which == which) {
            let mut source = Source::new(5, leaning, true);
            source.list(usize::MAX, 10_000);
            all.add(&source.coverage);
        }
        assert_eq!(all.missing(&[which]), Vec::<String>::new());
        assert_eq!(all.missing_reasons(&[which]), Vec::<String>::new());
    }
}

/// So it is where runs are cut.
#[test]
fn everything_is_met_of_a_comparison() {
    for which in [Which::AvrConfig, Which::Disarm, Which::Arm] {
        let mut all = Coverage::default();
        for leaning in LEANINGS.into_iter().filter(|l| l.which == which) {
            let mut source = Source::of_calls(20_000, 6, leaning, true);
            source.list(usize::MAX, 20_000);
            all.add(&source.coverage);
        }
        assert_eq!(all.missing(&[which]), Vec::<String>::new());
        assert_eq!(all.missing_reasons(&[which]), Vec::<String>::new());
    }
}

fn differing(lines: &[String]) -> Vec<usize> {
    front::differing(lines.iter().map(|line| line.as_bytes()))
}

/// No list that is compared feeds an arm a text on which the rules differ, and
/// a run that would ends before it. Other lists do, broken ones among them.
#[test]
fn runs_are_cut_where_the_rules_differ() {
    for leaning in LEANINGS.into_iter().filter(|l| !l.which.is_start_up()) {
        let made = |whole: bool, bad: bool| {
            let source = Source::of_calls(5_000, 4, leaning, bad);
            let mut source = if whole { source.whole() } else { source };
            let lines = source.list(usize::MAX, 5_000).lines;
            (lines, source.coverage.to_string())
        };
        assert_eq!(differing(&made(false, true).0), []);
        let ((cut, counts), (whole, _)) = (made(false, false), made(true, false));
        assert_eq!(differing(&cut), []);
        let Some(first) = differing(&whole).first().copied() else {
            assert!(leaning.which != Which::Arm && cut == whole);
            continue;
        };
        assert_eq!(cut[..first], whole[..first]);
        let next = list::read(cut[first].as_bytes(), Some(Which::Arm));
        assert!(matches!(next, Ok(Some(Call::Begin(_)))), "{}", cut[first]);
        let told = counts.lines().find(|l| l.starts_with("arm cut "));
        let told = told.and_then(|line| line.rsplit(' ').next()).unwrap();
        let runs: usize = told.parse().unwrap();
        let few = if leaning.which == Which::Arm { 20 } else { 0 };
        assert!(runs > few && differing(&whole).len() > few, "{runs}");
    }
    let mut broken = Broken::new(3);
    let found = (0..500).map(|_| front::differing(broken.list().split(|b| *b == b'\n')).len());
    assert!(found.sum::<usize>() > 10);
}

/// The first words of a list with bad lines.
fn first_words(leaning: Leaning) -> Vec<String> {
    let list = Source::new(9, leaning, true).list(usize::MAX, 5_000);
    let first = |line: &String| line.split_whitespace().next().map(String::from);
    list.lines.iter().filter_map(first).collect()
}

/// A port that has the DSP alone can be compared, too.
#[test]
fn lists_of_the_dsp_have_no_other_words() {
    for leaning in LEANINGS.into_iter().filter(|l| l.which == Which::Dsp) {
        let words = first_words(leaning);
        assert!(!words.iter().any(|word| word == "avr" || word == "pi"));
        let list = Source::new(9, leaning, true).list(usize::MAX, 5_000);
        assert!(!list.lines.iter().any(|line| line.contains(" wall=")));
    }
}

/// So can one that has the start-ups alone.
#[test]
fn lists_of_start_ups_have_no_other_words() {
    let others = [
        "avr_config",
        "mode_only",
        "mevo_settings",
        "disarm",
        "arm",
        "retries",
    ];
    for leaning in LEANINGS {
        let words = first_words(leaning);
        let found = others
            .iter()
            .filter(|word| words.iter().any(|w| w == *word));
        let expected = if leaning.which.is_start_up() {
            0
        } else {
            others.len()
        };
        assert_eq!(found.count(), expected, "{}", leaning.which.word());
    }
}

/// What a long arm meets is asked for where there is one, and met.
#[test]
fn a_long_arm() {
    let mut source = Source::of_calls(LONG_ARM_CALLS, 5, LONG_ARM, false);
    let begun = source.list(LIST_LINES, 1_000);
    assert!(begun.lines[1_000 - 1].starts_with("feed 0 "));
    let missing = source.coverage.missing(&[Which::Arm]);
    for name in ["retries 65535", "refused 13", "ConfigAck after 65535 nacks"] {
        assert!(missing.contains(&format!("arm: {name}")));
    }
    let mut source = Source::of_calls(LONG_ARM_CALLS, 5, LONG_ARM, false);
    let lines = source.list(LIST_LINES, LONG_ARM_CALLS).lines.len();
    assert!((196_605..198_000).contains(&lines), "{lines}");
    let missing = source.coverage.missing(&[Which::Arm]);
    assert!(!missing.iter().any(|name| name.contains("65535")));
    assert!(!missing.contains(&"arm: refused 13".to_string()));
    let mut source = Source::of_calls(LONG_ARM_CALLS - 1, 5, LONG_ARM, false);
    assert!(source.list(LIST_LINES, LONG_ARM_CALLS).lines.len() < 21_000);
    assert!(!source.coverage.long_arm);
}

/// The parameters of each settings list among so many calls.
fn settings_lists(calls: u64) -> Vec<Vec<ParamValue>> {
    let settings = LEANINGS.into_iter().find(|l| l.which == Which::AvrConfig);
    let list = Source::new(8, settings.unwrap(), false).list(usize::MAX, calls);
    let given = |line: &String| match list::read(line.as_bytes(), None) {
        Ok(Some(Call::Begin(Begin::AvrConfig(Settings::Given(given))))) => Some(given.params),
        _ => None,
    };
    list.lines.iter().filter_map(given).collect()
}

/// What else is asked of two places at which an id stands.
type Asked = fn(&[ParamValue], usize, usize) -> bool;

fn twice(params: &[ParamValue], asked: Asked) -> bool {
    let same = |one: usize, other: usize| params[one].param_id == params[other].param_id;
    let found = |one, other| same(one, other) && asked(params, one, other);
    (0..params.len()).any(|other| (0..other).any(|one| found(one, other)))
}

fn value(params: &[ParamValue], place: usize) -> String {
    format!("{:?}", params[place].value)
}

fn is_float(params: &[ParamValue], place: usize) -> bool {
    matches!(params[place].value, ParamData::Float40(_))
}

/// Rules that lie near, and are wrong.
const WRONG: [(&str, Asked); 7] = [
    ("none", |_, _, _| false),
    ("neighbours only", |_, a, b| b == a + 1),
    ("no neighbours", |_, a, b| b != a + 1),
    ("id 0 overlooked", |params, a, _| params[a].param_id != 0),
    ("the last one overlooked", |params, _, b| {
        b + 1 < params.len()
    }),
    ("the value compared, too", |params, a, b| {
        value(params, a) == value(params, b)
    }),
    ("the kind compared, too", |params, a, b| {
        is_float(params, a) == is_float(params, b)
    }),
];

/// Each is told from the right one by some lists, and so is 6 before 4. Most
/// lists are accepted.
#[test]
fn wrong_rules_for_an_id_twice() {
    let lists = settings_lists(50_000);
    let of = |params: &[ParamValue]| refusal::of_settings(params.iter().map(|p| p.param_id));
    let refused = |number| lists.iter().filter(|params| of(params) == number).count();
    let (accepted, six) = (refused(None), refused(Some(6)));
    assert!(six > 50 && accepted > 6 * six && accepted > 3 * refused(Some(4)));
    let short = |params: &&Vec<ParamValue>| params.len() <= 32;
    let found = |asked| {
        lists
            .iter()
            .filter(short)
            .filter(|p| twice(p, asked))
            .count()
    };
    assert_eq!(found(|_, _, _| true), six);
    for (name, asked) in WRONG {
        assert!(found(asked) + 10 < six, "{name}: {} of {six}", found(asked));
    }
    let long = lists.iter().filter(|params| !short(params));
    assert!(long.filter(|params| twice(params, |_, _, _| true)).count() > 10);
}

/// Sheets are among what is broken: some can still be read, others can't.
#[test]
fn broken_lists_have_sheets() {
    let (mut lists, mut met) = (Broken::new(3), [0; 3]);
    for _ in 0..500 {
        let list = lists.list();
        let lines: Vec<&[u8]> = list.split(|b| *b == b'\n').collect();
        let answers = broken::expected(&list, None).output;
        for answer in String::from_utf8_lossy(&answers).lines() {
            let (number, answer) = answer.split_once(": ").unwrap();
            let line = lines[number.parse::<usize>().unwrap() - 1];
            let outcomes = ["accepted; wrote ", "refused 5", "bad line "];
            let outcome = outcomes.iter().position(|o| answer.starts_with(o));
            if let (Some(place), true) = (outcome, line.starts_with(b"sheet")) {
                met[place] += 1;
            }
        }
    }
    assert!(met.iter().all(|count| *count > 10), "{met:?}");
}

#[test]
fn shrinking_leaves_what_differs() {
    let lines: Vec<String> = (0..57).map(|n| n.to_string()).collect();
    let has = |lines: &[String], n: &str| lines.iter().any(|line| line == n);
    let left = shrink(lines, |lines| has(lines, "3") && has(lines, "41"));
    assert_eq!(left, ["3", "41"]);
}

/// A long arm that differs only as a whole isn't tried line by line.
#[test]
fn shrinking_comes_to_an_end() {
    let lines: Vec<String> = (0..200_000).map(|n| n.to_string()).collect();
    let tried = Cell::new(0);
    let whole = |lines: &[String]| {
        tried.set(tried.get() + 1);
        lines.len() == 200_000
    };
    assert_eq!(shrink(lines.clone(), whole), lines);
    assert!(tried.get() < 200, "{}", tried.get());
}

/// The payloads of a list, and the models that it gives.
fn payloads_and_models(list: &List) -> (Vec<Vec<u8>>, Vec<Model>) {
    let (mut payloads, mut models) = (Vec::new(), Vec::new());
    for line in &list.lines {
        let read = [Which::Dsp, Which::Arm].map(|which| list::read(line.as_bytes(), Some(which)));
        match read.into_iter().flatten().next() {
            Some(Some(Call::Feed(feed))) => payloads.push(feed.payload),
            Some(Some(Call::Model { payload })) => payloads.push(payload),
            Some(Some(Call::Begin(Begin::Avr(model) | Begin::Arm(model)))) => models.extend(model),
            Some(Some(Call::Keepalive { model })) => models.extend(model),
            Some(Some(Call::Ack { model, .. })) => models.push(model),
            _ => {}
        }
    }
    (payloads, models)
}

/// Equality with the Rust speaks of no rig: no payload has its seven bytes,
/// though some almost do, and only models that the Rust has are given.
#[test]
fn no_list_has_a_rig() {
    let (mut payloads, mut given) = (Vec::new(), [0; 2]);
    for leaning in LEANINGS {
        let list = Source::new(2, leaning, true).list(usize::MAX, 10_000);
        let (some, models) = payloads_and_models(&list);
        payloads.extend(some);
        for model in models {
            assert!([Model::MEVO, Model::XI].contains(&model), "{model:?}");
            given[usize::from(model == Model::XI)] += 1;
        }
    }
    let holding = |tag: &[u8]| payloads.iter().filter(|p| has(p, tag)).count();
    assert_eq!(holding(b"BAY RIG"), 0);
    assert!(payloads.len() > 50_000, "{}", payloads.len());
    for near in [&b"BAY RI"[..], b"BAYRIG", b"bay rig", b"FS X", b"FS Xi"] {
        assert!(holding(near) > 100, "{near:?} {}", holding(near));
    }
    assert!(given[0] > 1_000 && given[1] > 1_000, "{given:?}");
}

/// But for the lists that are made for it: of results with each tag, both and
/// none. They have the DSP alone, and no other list asks for them.
#[test]
fn lists_of_rigs() {
    let list = Source::new(2, RIGS, false).list(usize::MAX, 10_000);
    let (payloads, models) = payloads_and_models(&list);
    assert!(models.iter().all(|m| [Model::MEVO, Model::XI].contains(m)));
    let with = |tags: &[&[u8]]| {
        let has_all = |payload: &&Vec<u8>| tags.iter().all(|tag| has(payload, tag));
        payloads.iter().filter(has_all).count()
    };
    let (rigs, both) = (with(&[b"BAY RIG"]), with(&[b"BAY RIG", b"FS Xi"]));
    assert!(both > 100 && rigs > both + 100, "{rigs} {both}");
    let results = |model: &str, place: &str| {
        let end = format!(" model={model} tag_place={place}");
        let lines = list.answers.lines();
        lines.filter(|line| line.contains(&end)).count()
    };
    assert!(results("Rig", "") > 20 && results("Xi", "") > 20);
    assert!(results("Mevo", "none") > 5 && results("Mevo", "") == results("Mevo", "none"));
    assert_eq!(results("Rig", "none") + results("Xi", "none"), 0);
    let begun = list.lines.iter().filter(|line| line.trim() == "dsp");
    assert!(begun.count() > 100 && !list.lines.iter().any(|line| line.contains(" wall=")));
    let mut source = Source::new(2, LEANINGS[0], false);
    source.list(usize::MAX, 10_000);
    assert!(
        !source
            .coverage
            .missing(&[Which::Dsp])
            .concat()
            .contains("BAY RIG")
    );
}

/// Of many device infos, too, where what stands behind a near tag may end it.
#[test]
fn no_device_info_names_a_rig() {
    let mut random = Random::new(1);
    let (mut near, mut xis) = (0, 0);
    for model in [DeviceModel::Mevo, DeviceModel::Xi] {
        for _ in 0..50_000 {
            let payload = device_info(&mut random, model);
            assert!(!has(&payload, b"BAY RIG"));
            near += u32::from(has(&payload, b"BAY RI"));
            xis += u32::from(has(&payload, b"FS Xi"));
        }
    }
    assert!(near > 5_000 && xis > 50_000, "{near} {xis}");
}
