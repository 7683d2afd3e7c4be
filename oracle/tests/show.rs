//! Lists that are shown to people. What must be written is written by hand
//! from docs/REPLAY.md, "Shown to people".

mod common;

use std::fs;

use common::{PARAMS, answers, dsp_result, message};
use oracle::compare::Source;
use oracle::generate::{LEANINGS, SESSIONS};
use oracle::list::Which;
use oracle::papers;
use oracle::show::{self, Form, Show};

fn shown(list: &str, with_state: bool) -> String {
    let secrets = false;
    shown_in(
        list,
        Form {
            with_state,
            secrets,
        },
    )
}

fn shown_in(list: &str, form: Form) -> String {
    let mut out = Vec::new();
    show::run(&mut list.as_bytes(), &mut out, form).unwrap();
    String::from_utf8(out).unwrap()
}

/// What is shown, but for what the list comes to.
#[track_caller]
fn check(list: &str, expected: &[&str]) {
    let shown = shown(list, false);
    let (lines, _) = shown.rsplit_once("\n\n").unwrap();
    assert_eq!(lines.lines().collect::<Vec<_>>(), expected);
}

/// The last lines, which sum a list up.
fn summary(list: &str) -> String {
    shown(list, false)
        .rsplit_once("\n\n")
        .unwrap()
        .1
        .to_string()
}

const STATUS: &str = "feed 5000000000 Dsp 0xAA DspStatus V46 state=1 version=0x46";

#[test]
fn the_list_itself_with_its_answers() {
    let list = format!("# First\n\ndsp\n  # a blank before it\n{STATUS}\ncheck 0x1A13B85FF\n");
    check(
        &list,
        &[
            "# First",
            "",
            "dsp",
            "    send Dsp StatusPoll pi_mode=false",
            "    now WaitStatus",
            "  # a blank before it",
            STATUS,
            "    reading 5000000000  5.000000000 s",
            "    accepted, ticked 1",
            "    send Dsp DspQuery",
            "    now WaitDspQuery",
            "check 0x1A13B85FF",
            "    reading 6999999999  6.999999999 s",
            "    accepted, ticked nothing",
            "    no send",
            "    still WaitDspQuery",
        ],
    );
}

#[test]
fn readings_as_seconds() {
    let lines = shown("dsp\ncheck 1\ncheck 999999999\ncheck 1000000000\n", true);
    for words in [
        "    reading 1  0.000000001 s\n",
        "      last                    1  0.000000001 s\n",
        "    reading 999999999  0.999999999 s\n",
        "    reading 1000000000  1.000000000 s\n",
        "      deadline                none\n",
    ] {
        assert!(lines.contains(words), "{words}");
    }
    let latest = "    reading 18446744073709551615  18446744073.709551615 s\n";
    assert!(shown("avr\ncheck 18446744073709551615\n", false).contains(latest));
    let deadline = "      deadline                7000000000  7.000000000 s\n";
    assert!(shown(&format!("dsp\n{STATUS}\n"), true).contains(deadline));
    let repoll = "avr\nfeed 500000000 Avr 1 ConfigNack bus_addr=0 acked_cmd=0x2A\n";
    assert!(
        shown(repoll, true).contains("      repoll_at               1500000000  1.500000000 s\n")
    );
    // A sequence without a clock doesn't look at NOW.
    assert!(!shown("pi\nfeed 5 Pi 1 PiStatus\n", false).contains("reading"));
}

#[test]
fn ticked_awaited_or_not() {
    let ack = "feed 0 Avr 0x95 ConfigAck bus_addr=0x30 acked_cmd=0x30";
    let list = format!("disarm\n{ack}\n{ack}\n");
    let lines = shown(&list, false);
    assert!(lines.contains("    accepted, ticked 1\n    no send\n    now WaitModeReset\n"));
    assert!(lines.contains("    accepted, ticked nothing\n    no send\n    still WaitModeReset\n"));
    let arm = "arm\nfeed 0 Dsp 1 DspStatus V46 state=1 version=2\nfeed 0 Dsp 1 Other\n";
    let lines = shown(arm, false);
    let poll = "    send Avr StatusPoll pi_mode=false\n";
    assert!(lines.contains(&format!(
        "    accepted, awaited\n{poll}    now WaitAvrStatus\n"
    )));
    assert!(lines.contains("    accepted, not awaited\n    no send\n    still WaitAvrStatus\n"));
    // The Pi's last entries have one step's name.
    let value = "feed 0 Pi 1 ParamValue param_id=0 int24=0\n";
    let camera = papers_camera();
    let pi = format!(
        "pi\nfeed 0 Pi 1 PiStatus\nfeed 0 Pi 1 DevInfoResp\n{value}{camera}{camera}\
        feed 0 Pi 1 NetConfigResp\nfeed 0 Pi 1 NetConfigResp\n{value}"
    );
    let last = "    accepted, ticked 8\n    send Pi ParamReadReq param_id=0x07\n    now WaitParams idx=1\n";
    assert!(shown(&pi, false).contains(last));
    // What begins, and a result, ticks nothing: that isn't said of it.
    assert!(shown("mode_only mode=5\n", false).contains("    accepted\n    send Avr"));
}

#[test]
fn a_model_by_default() {
    let list = "avr\n  arm\t\r\nkeepalive\n";
    check(
        list,
        &[
            "avr",
            "    model Mevo by default",
            "    send Avr StatusPoll pi_mode=false",
            "    now WaitStatus1",
            "  arm ",
            "    model Mevo by default",
            "    send Dsp StatusPoll pi_mode=false",
            "    now WaitDspStatus",
            "keepalive",
            "    model Mevo by default",
            "    send Dsp StatusPoll pi_mode=false",
            "    send Avr StatusPoll pi_mode=false",
            "    send Pi StatusPoll pi_mode=true",
        ],
    );
    assert!(!answers(list, true).contains("default"));
    let given = "avr Mevo\navr Xi\narm Mevo\narm Xi\nkeepalive Mevo\nkeepalive Xi\n";
    let none_taken =
        "dsp\npi\ndisarm\nmode_only mode=9\nfeed 0 Avr 1 Other\nmodel\nack Mevo Avr 0xD4\n";
    let unread = "avr mevo\narm x\nkeepalive Mevo Mevo\n";
    for list in [given, none_taken, unread] {
        assert!(!shown(list, true).contains("default"), "{list}");
    }
}

/// A feed of a `CamConfig`.
fn papers_camera() -> String {
    let papers = repository("docs/REPLAY.md");
    let mut lines = papers.lines();
    let row = lines.find(|line| line.starts_with("| `CamConfig` | `"));
    let fields = row.unwrap().split('`').nth(3).unwrap();
    format!("feed 0 Pi 1 CamConfig {fields}\n")
}

fn repository(file: &str) -> String {
    fs::read_to_string(format!("{}/../{file}", env!("CARGO_MANIFEST_DIR"))).unwrap()
}

#[test]
fn refusals_in_words() {
    let long = "61".repeat(257);
    let nacks = "feed 0 Dsp 1 DspStatus V46 state=1 version=2\nfeed 0 Avr 1 AvrStatus version=1 state=2 \
        hw_id_hi=3 hw_id_lo=4 full_app_id=5 temperature=0x0000000000000000 tilt=0x0000000000000000 \
        roll=0x0000000000000000\nfeed 0 Avr 1 ConfigNack bus_addr=0 acked_cmd=0\n";
    let nacks = format!("arm\n{}", nacks.repeat(65_536));
    let params = " param_id=1 int24=2".repeat(33);
    for (list, words) in [
        (
            format!("pi\nfeed 0 Pi 1 Other text={long}\n"),
            "1: the text has more than 256 bytes",
        ),
        (
            format!("pi\nfeed 0 Pi 1 Other payload={long}\n"),
            "2: the payload has more than 256 bytes",
        ),
        (
            "dsp\ncheck 18446744071709551616\n".to_string(),
            "3: the reading is above 18446744071709551615 ns",
        ),
        (
            format!("avr_config mode=1{params}\n"),
            "4: the settings have more than 32 parameters",
        ),
        (
            "avr\nsheet 1 0\n".to_string(),
            "5: the part is shorter than the sheet, or the place is past the buffer's end",
        ),
        (
            "avr_config mode=1 param_id=1 int24=2 param_id=1 int24=3\n".to_string(),
            "6: an id occurs twice among the settings' parameters",
        ),
        (
            "dsp\ncheck 5\ncheck 4\n".to_string(),
            "11: the reading is below the last accepted one",
        ),
        (
            "dsp\nresult\n".to_string(),
            "12: the result is asked for before Done",
        ),
        (
            nacks,
            "13: the arm would count a nack while retries is 65535",
        ),
    ] {
        let lines = shown(&list, false);
        assert!(
            lines.contains(&format!("\n    refused {words}\n")),
            "{words}"
        );
        assert!(lines.contains(", 1 refused, 0 bad lines\n"), "{words}");
    }
}

#[test]
fn fields_of_a_result_and_a_state() {
    let info = "feed 9000000000 Dsp 1 ProdInfoResp text=";
    let list = format!(
        "dsp\n{STATUS} payload=\"0123456789ABCDEFg\"\ncheck 7000000000\n\
        feed 9000000000 Dsp 1 DevInfoResp text=\"; a=b\" payload=\"FS Xi\"\n\
        {info}\"A\"\n{info}\n{info}\"C\"\nfeed 9000000000 Dsp 1 ConfigResp params={PARAMS}\n\
        feed 9000000000 Dsp 0x94 ConfigNack bus_addr=8 acked_cmd=0x3F\nresult\n"
    );
    let expected = "result
    accepted
      status                  V46
        state                 1
        version               0x46
        payload               30 31 32 33 34 35 36 37 38 39 41 42 43 44 45 46  |0123456789ABCDEF|
                              67                                               |g|
      hw_info                 none
      dev_info
        text                  3B 20 61 3D 62  |; a=b|
        payload               46 53 20 58 69  |FS Xi|
      prod_info 0             41  |A|
      prod_info 1             empty
      prod_info 2             43  |C|
      params                  1,-2,3,4,5,6,7,8,9,10,11,12,13,14,15,16,17,18,19,20,21,22,23,24,25,26,
                              27,28,29,30,31,32,32767,-32768
      model                   Xi
      tag_place               0  \"FS Xi\"
      power_mode_unanswered   false
    state
      last                    9000000000  9.000000000 s
      status                  V46
";
    let lines = shown(&list, true);
    assert!(lines.contains(expected), "{lines}");
    let refused = "
      deadline                none
      refused
        src                   Dsp
        type_id               0x94
        bus_addr              0x08
        acked_cmd             0x3F
      power_mode_unanswered   false
";
    assert!(lines.contains(refused), "{lines}");
}

/// Behind the place of a tag stands the tag. A Mevo has none.
#[test]
fn places_of_tags() {
    for (info, model, place) in [
        ("payload=\"..FS XiFS Xi\"", "Xi", "2  \"FS Xi\""),
        ("payload=\"BAY RIG FS Xi\"", "Xi", "8  \"FS Xi\""),
        ("payload=\"unit BAY RIG\"", "Rig", "5  \"BAY RIG\""),
        ("payload=\"FS X\"", "Mevo", "none"),
        // no word of the text is a field
        (
            "text=\" model=Rig \" payload=\"FS Xi model=Mevo\"",
            "Xi",
            "0  \"FS Xi\"",
        ),
        ("text=\" model=Xi tag_place=7 \"", "Mevo", "none"),
    ] {
        let lines = shown(&dsp_result(info), true);
        let expected = format!(
            "
      model                   {model}
      tag_place               {place}
      power_mode_unanswered   false
    state
"
        );
        assert_eq!(lines.matches(&expected).count(), 1, "{info}\n{lines}");
        // it is no field of a state
        assert_eq!(lines.matches("\n      tag_place ").count(), 1);
    }
}

/// The lines of a sheet, as they would be printed: behind 6 blanks, without
/// the full stops around them. Of a refused one there is nothing.
#[test]
fn sheets_as_lines() {
    let lines = ["      D,1,5000000000,R", "      D,2,7000000000,K"];
    let list = format!("dsp\nsheet\nsheet 2 9\n{STATUS}\ncheck 7000000000\n");
    let refused =
        "    refused 5: the part is shorter than the sheet, or the place is past the buffer's end";
    let asked = format!("{list}sheet\nsheet 3 100\nsheet 0 34\nsheet 0 33\nsheet 35 34\n");
    let shown = shown(&asked, false);
    let (_, last) = shown.split_once("    now WaitDevInfo\n").unwrap();
    let expected = [
        &["sheet", "    accepted", "    wrote 34", lines[0], lines[1]][..],
        &[
            "sheet 3 100",
            "    accepted",
            "    wrote 34",
            lines[0],
            lines[1],
        ],
        &[
            "sheet 0 34",
            "    accepted",
            "    wrote 34",
            lines[0],
            lines[1],
        ],
        &["sheet 0 33", refused],
        &["sheet 35 34", refused],
        &["", "10 calls, 2 refused, 0 bad lines"],
    ];
    let last: Vec<&str> = last.lines().collect();
    assert_eq!(last[..last.len() - 1], expected.concat());
    let empty = "\nsheet\n    accepted\n    wrote 0\nsheet 2 9\n    accepted\n    wrote 0\nfeed ";
    assert!(shown.contains(empty), "{shown}");
}

/// They are folded as other values are.
#[test]
fn ticks_of_a_state() {
    let list = format!("dsp\nsheet\n{STATUS}\ncheck 7000000000\nsheet 0 0\n");
    let lines = shown(&list, true);
    let none = "      power_mode_unanswered   false\n      ticks                   none\n";
    assert_eq!(lines.matches(none).count(), 2);
    let two = "      ticks                   5000000000R,7000000000K\n";
    assert_eq!(lines.matches(two).count(), 2);
    let ticks = shown(&format!("pi\n{}", "feed 1 Pi 1 PiStatus\n".repeat(3)), true);
    let status = "      password                (withheld)\n      ticks                   0R\n";
    assert_eq!(ticks.matches(status).count(), 3);
    let status =
        message("AvrStatus from Avr", "Xi", 1).replace("feed 1 ", "feed 18446744071709551615 ");
    let info = "feed 18446744071709551615 Avr 1 DevInfoResp\n".repeat(2);
    let folded = "      ticks                   18446744071709551615R,18446744071709551615R,18446744071709551615R,
                              18446744071709551615R\n";
    assert!(shown(&format!("avr\n{status}\n{status}\n{info}"), true).contains(folded));
    assert!(!shown("disarm\narm\nmode_only mode=9\n", true).contains("ticks"));
}

#[test]
fn fields_of_settings() {
    let given = "avr_config mode=9 param_id=6 int24=1 param_id=0x26 float40=0x3FA3A92A30553261";
    let expected = "    now WaitInitGateAck
    state
      mode                    9
      params                  2
        param_id              0x06
        int24                 1
        param_id              0x26
        float40               0x3FA3A92A30553261
      radar_cal
        range_mm              2438
        height_mm             25
";
    let lines = shown(&format!("{given} range_mm=2438 height_mm=25\n"), true);
    assert!(lines.contains(expected), "{lines}");
    // A disarm has none.
    assert!(!shown("disarm\n", true).contains("state"));
    assert!(shown("arm Xi\n", true).contains("    state\n      retries                 0\n"));
}

#[test]
fn lines_that_cannot_be_read() {
    check(
        "dsp\ncheck 5 6\nfeed 1 Dsp 1 Text text=\"ä\" x\nnope\r\n",
        &[
            "dsp",
            "    send Dsp StatusPoll pi_mode=false",
            "    now WaitStatus",
            "check 5 6",
            "        ^",
            "    bad line at column 9: end of line expected: a text or payload stands behind its name and =, a",
            "        comment on a line of its own",
            "feed 1 Dsp 1 Text text=\"ä\" x",
            "                           ^",
            "    bad line at column 29: end of line expected: a text or payload stands behind its name and =, a",
            "        comment on a line of its own",
            "nope",
            "^",
            "    bad line at column 1: unknown call: docs/REPLAY.md names them all",
        ],
    );
    // Below a line that is folded, or right of it, there is no mark.
    let reason = "    bad line at column";
    let word = "x".repeat(99);
    let marked = |line: &str| shown(&format!("{line}\n"), false).contains(&format!("^\n{reason}"));
    assert!(marked(&format!("keepalive {}", "x".repeat(90))));
    assert!(!marked(&format!("keepalive {}", "x".repeat(91))));
    assert!(marked(&format!("{word}x")));
    assert!(!marked(&format!("{word}xx")));
    let to_the_end = |n: usize| format!("ack{:n$}", "");
    assert!(marked(&to_the_end(96)));
    assert!(!marked(&to_the_end(97)));
}

#[test]
fn long_lines_are_folded() {
    let fold = |line: &str| {
        let lines = shown(&format!("{line}\n"), false);
        let (lines, _) = lines.split_once("\n\n").unwrap();
        lines.split('\n').map(String::from).collect::<Vec<_>>()
    };
    let (x, y) = ("x".repeat(98), "y".repeat(92));
    assert_eq!(fold(&format!("# {x}")), [format!("# {x}")]);
    assert_eq!(
        fold(&format!("# {x} z")),
        [format!("# {x}"), "        z".to_string()]
    );
    let hard = [
        format!("#{x}x"),
        format!("        {y}"),
        "        yy".to_string(),
    ];
    assert_eq!(fold(&format!("#{x}x{y}yy")), hard);
    assert_eq!(
        fold(&format!("# {x}z")),
        [
            "#".to_string(),
            format!("        {}", "x".repeat(92)),
            "        xxxxxxz".to_string()
        ]
    );
    assert_eq!(
        fold(&format!("#{},{x}", "1".repeat(50)))[0],
        format!("#{},", "1".repeat(50))
    );
    assert_eq!(fold(&format!("# {}", "ä".repeat(98))).len(), 1);
    assert_eq!(fold(&format!("# {} a", "ä".repeat(98))).len(), 2);
    assert_eq!(fold("#\ta\u{1}b\u{7F}c"), ["# a.b.c"]);
    let long = format!("#{}", "x".repeat(65_536));
    let lines = shown(&format!("{long}\n"), false);
    assert_eq!(lines.matches('x').count(), 65_535);
    assert!(lines.contains("\n    bad line at column 65537: line longer than 65536 bytes\n"));
}

#[test]
fn what_a_list_comes_to() {
    assert_eq!(shown("", false), "\n0 calls, 0 refused, 0 bad lines\n");
    assert_eq!(
        shown("model\n", false),
        "model\n    Mevo\n\n1 call, 0 refused, 0 bad lines\n"
    );
    assert_eq!(
        summary(&format!("# no call\n\nnope\ndsp\n{STATUS}\nresult\n")),
        "3 calls, 1 refused, 1 bad line\n\
        the DSP start-up is not done: WaitDspQuery waits for DspQueryResp, or ConfigNack with acked_cmd=0x48\n    \
        from Dsp, or a check after 2 s\n"
    );
    let disarm = "disarm\nfeed 0 Avr 1 ConfigAck bus_addr=0 acked_cmd=0\nfeed 0 Avr 1 ModeAck\n";
    assert_eq!(
        summary(disarm),
        "3 calls, 0 refused, 0 bad lines\nthe disarm is not done: WaitStateIdle waits for ModeAck, or a \
        Text that contains System State, from\n    any source\n"
    );
    let replies = [
        "DspStatus from Dsp",
        "AvrStatus from Avr",
        "ConfigAck from Avr",
    ];
    let replies = replies.map(|reply| message(reply, "Xi", 0)).join("\n");
    assert_eq!(
        summary(&format!("arm Xi\n{replies}\n")),
        "4 calls, 0 refused, 0 bad lines\nthe arm is not done: WaitPiAndArmed got_pi=true got_armed=false \
        waits for a Text with ARMED behind\n    no capital letter, and no CANCELLED, from any source\n"
    );
    let done = format!("{disarm}feed 0 Avr 1 ModeAck\n");
    assert_eq!(
        summary(&done),
        "4 calls, 0 refused, 0 bad lines\nthe disarm is done\n"
    );
    // The one that ran last.
    let both = summary(&format!("{done}avr_config mode=1\n"));
    assert!(both.ends_with(
        "\nthe settings run is not done: WaitInitGateAck waits for ConfigAck from Avr\n"
    ));
}

/// The columns of a line, with one for each character.
fn columns(line: &str) -> usize {
    line.chars().count()
}

/// No line has more than 100 columns. Below each call stands the answer,
/// with each value of the plain form.
#[test]
fn generated_lists() {
    for leaning in LEANINGS.into_iter().chain([SESSIONS]) {
        let lines = Source::new(7, leaning, true).list(usize::MAX, 1_500).lines;
        let mut show = Show::new(Form {
            with_state: true,
            secrets: true,
        });
        let mut plain = oracle::front::Front::new(true);
        for line in &lines {
            let (mut out, mut answer) = (Vec::new(), String::new());
            show.line(line.as_bytes(), &mut out);
            let _ = plain.line(line.as_bytes(), &mut answer);
            let out = String::from_utf8_lossy(&out);
            assert!(out.lines().all(|line| columns(line) <= 100), "{out}");
            assert_eq!(
                out.contains("\n    "),
                line.len() > 100 || !answer.is_empty(),
                "{out}"
            );
            let hex = |text: &str| text.chars().filter(char::is_ascii_hexdigit).count();
            assert!(hex(&out) >= hex(&answer) / 2, "{out}");
        }
    }
}

/// docs/REPLAY.md, from which the words here come, against those of the port.
#[test]
fn papers_and_tables_agree() {
    let source = repository("crates/showing/src/tables.rt");
    // The rows of a table, each of two texts.
    let rows = |name: &str| -> Vec<(String, String)> {
        let (_, rest) = source.split_once(&format!("\nconst {name}: ")).unwrap();
        let (table, _) = rest.split_once("\n];").unwrap();
        let texts: Vec<&str> = table.split('"').skip(1).step_by(2).collect();
        let rows = texts.chunks(2);
        rows.map(|row| (row[0].to_string(), row[1].to_string()))
            .collect()
    };
    let sequences = ["DSP", "AVR", "PI", "SETTINGS", "DISARM", "ARM"];
    assert_eq!(sequences.len(), Which::ALL.len());
    for (name, which) in sequences.iter().zip(Which::ALL) {
        let found = rows(name);
        let [steps @ .., done] = &found[..] else {
            panic!("{name}");
        };
        assert_eq!(steps, papers::steps(which), "{which:?}");
        assert_eq!(done, &("Done".to_string(), String::new()));
    }
}

/// The cases of an enum of refusals by their numbers, from where they are declared.
fn declared(file: &str, name: &str) -> Vec<(u8, String)> {
    let source = repository(file);
    let (_, cases) = source.split_once(&format!("pub enum {name} {{\n")).unwrap();
    let (cases, _) = cases.split_once("\n}").unwrap();
    let cases = cases.lines().map(|line| line.trim().trim_end_matches(','));
    let numbered = cases.filter(|line| !line.starts_with("//"));
    let case = |line: &str| {
        let (case, number) = line.split_once(" = ").unwrap();
        (number.parse().unwrap(), format!("{name}::{case}"))
    };
    numbered.map(case).collect()
}

/// Each refusal with the reason that is shown of it, in the `match` over its
/// enum. The sheet's has a const.
#[test]
fn papers_and_reasons_agree() {
    let source = repository("crates/showing/src/tables.rt");
    let own = declared("crates/protocol/src/lib.rt", "Refusal");
    for (_, case) in &own {
        assert!(source.contains(&format!("\n    {case},\n")), "{case}");
    }
    let of_sheets = declared("crates/sheet/src/lib.rt", "SheetRefusal");
    let mut refusals = [own, of_sheets].concat();
    refusals.sort();
    let reason = |(number, case): (u8, String)| {
        let start = match &case[..] {
            "SheetRefusal::PartTooShort" => "\nconst PART_TOO_SHORT: &str =\n    \"".to_string(),
            _ => format!("\n            {case} => \""),
        };
        let (_, rest) = source.split_once(&start).expect(&case);
        let (reason, _) = rest.split_once('"').unwrap();
        (number.to_string(), reason.to_string())
    };
    let refusals: Vec<(String, String)> = refusals.into_iter().map(reason).collect();
    assert_eq!(refusals, papers::refusals());
}

/// The lists that the program `trials` shows, and what it is held to behind the trials.
#[test]
fn stored() {
    let examples = repository("crates/trials/data/examples.list");
    let folder = format!("{}/../examples", env!("CARGO_MANIFEST_DIR"));
    let mut names: Vec<_> = fs::read_dir(folder)
        .unwrap()
        .map(|f| f.unwrap().path())
        .collect();
    names.sort();
    let each = names
        .iter()
        .map(|name| fs::read_to_string(name).unwrap() + "\n");
    assert_eq!(examples, each.collect::<String>());
    let odd = repository("crates/trials/data/odd.list");
    let network = repository("crates/trials/data/network.list");
    let both = shown(&examples, false) + &shown(&odd, true) + &shown(&network, true);
    assert!(!both.contains("TEST-PASS") && !both.contains("BAY-7"));
    let secrets = Form {
        with_state: true,
        secrets: true,
    };
    let whole = shown_in(&network, secrets);
    assert!(whole.contains("BAY-7"));
    let both = both + &whole;
    let trials = answers(&repository("crates/trials/data/trials.list"), false);
    assert!(trials + &both == repository("crates/trials/stdout"));
    assert!(both.lines().all(|line| columns(line) <= 100));
    // Every refusal but 13, which takes 65,536 nacks.
    for number in ["1:", "2:", "3:", "4:", "5:", "6:", "11:", "12:"] {
        assert!(both.contains(&format!("    refused {number}")), "{number}");
    }
    assert!(answers(&odd, false).lines().count() > 80);
}

/// The picture in README is what is shown of the example, but for the lines
/// that `..` stands for.
#[test]
fn the_picture_in_readme() {
    let readme = repository("README.md");
    let (_, rest) = readme
        .split_once("`./replay --show examples/xi_unanswered.list`")
        .unwrap();
    let (_, rest) = rest.split_once("\n\n").unwrap();
    let (picture, _) = rest.split_once("\n\nIn the gate").unwrap();
    let strip = |line: &str| line.strip_prefix("    ").unwrap_or(line).to_string();
    let picture: Vec<String> = picture.lines().map(strip).collect();
    let whole = shown(&repository("examples/xi_unanswered.list"), false);
    let mut left = &whole[..];
    for (i, piece) in picture.split(|line| line == "..").enumerate() {
        let piece = piece.join("\n") + "\n";
        let place = left.find(&piece).expect(&piece);
        assert!(i > 0 || place == 0);
        left = &left[place + piece.len()..];
    }
    assert_eq!(left, "");
}
