//! Each reason for which a line can't be read, with its column.

use oracle::list::{self, Bad, Call, LONGEST, Reason, Which};

/// Reads a line while the DSP's start-up runs, which has every call but
/// `retries`.
fn read(line: &str) -> Result<Option<Call>, Bad> {
    list::read(line.as_bytes(), Some(Which::Dsp))
}

#[track_caller]
fn check(line: &str, column: usize, reason: &str) {
    let answer = match read(line) {
        Ok(_) => panic!("read: {line}"),
        Err(bad) => bad.to_string(),
    };
    // behind the reason may stand what to write instead
    let told = format!("bad line at column {column}: {reason}");
    let rest = answer
        .strip_prefix(&told)
        .unwrap_or_else(|| panic!("{answer}, not {told}"));
    assert!(rest.is_empty() || rest.starts_with(": "), "{answer}");
}

fn good(line: &str) -> Option<Call> {
    read(line).unwrap_or_else(|bad| panic!("{line}: {bad}"))
}

#[test]
fn words() {
    check("dsps", 1, "unknown call");
    check(" \tDsp", 3, "unknown call");
    check("ack Meva Dsp 1", 5, "unknown model");
    check("ack", 4, "unknown model");
    check("ack ", 5, "unknown model");
    check("keepalive mevo", 11, "unknown model");
    check("ack Xi dsp 1", 8, "unknown source");
    check("feed 1  ", 9, "unknown source");
    check("feed 1 Dsp 2 Pistatus", 14, "unknown kind");
    check("feed 1 Dsp 2", 13, "unknown kind");
    check("feed 1 Dsp 2 DspStatus V81 state=1", 24, "unknown kind");
    check("feed 1 Dsp 2 DspStatus", 23, "unknown kind");
}

#[test]
fn fields() {
    check("feed 1 Dsp 2 ModeSet", 21, "mode= expected");
    check("feed 1 Dsp 2 ModeSet  ", 23, "mode= expected");
    check("feed 1 Dsp 2 ModeSet node=1", 22, "mode= expected");
    check("feed 1 Dsp 2 ModeSet mode =1", 22, "mode= expected");
    check(
        "feed 1 Dsp 2 ParamValue param_id=1 x",
        36,
        "int24= expected",
    );
    let line = "feed 1 Dsp 2 ConfigAck acked_cmd=1 bus_addr=2";
    check(line, 24, "bus_addr= expected");
}

#[test]
fn numbers() {
    check("check", 6, "not a number");
    check("check  1x", 8, "not a number");
    check("check 0x", 7, "not a number");
    check("check 0X1", 7, "not a number");
    check("check -1", 7, "not a number");
    check("check 99999999999999999999x", 7, "not a number");
    check("feed 1 Dsp 2 ModeSet mode= 1", 27, "not a number");
    let param = "feed 1 Dsp 2 ParamValue param_id=1 int24=";
    check(&format!("{param}-0x1"), 42, "not a number");
    check("check 18446744073709551616", 7, "out of range");
    check("check 0x10000000000000000", 7, "out of range");
    check("feed 1 Dsp 256 PiStatus", 12, "out of range");
    check(&format!("{param}2147483648"), 42, "out of range");
    check(&format!("{param}0xFFFFFFFF"), 42, "out of range");
    check(&format!("{param}-2147483649"), 42, "out of range");
    good(&format!("{param}-2147483648"));
    good(&format!("{param}-0"));
    good("check 0xffffFFFFffffFFFF");
    good("check 000018446744073709551615");
}

#[test]
fn bools_and_floats() {
    let status = "feed 1 Dsp 2 DspStatus V80 state=1 input_voltage_usb=1 system_voltage=1 \
        battery_current=1 temperature_raw=1 battery_voltage=1 battery_voltage_2=1 power_level=1 ";
    let column = status.len() + 16;
    check(
        &format!("{status}external_power=True"),
        column,
        "not a bool",
    );
    let param = "feed 1 Dsp 2 ParamValue param_id=1 float40=";
    check(&format!("{param}1.5"), 44, "not a float");
    check(&format!("{param}0x3FF800000000000"), 44, "not a float");
    check(&format!("{param}0x3FF80000000000000"), 44, "not a float");
    check(&format!("{param}0x3FF800000000000G"), 44, "not a float");
    let nan = "a NaN can't be read";
    check(&format!("{param}0x7ff0000000000001"), 44, nan);
    check(&format!("{param}0xFFF8000000000000"), 44, nan);
    good(&format!("{param}0x7FF0000000000000"));
}

#[test]
fn bytes() {
    check("model 41g2", 9, "not a hex digit");
    check("model 4g2", 8, "not a hex digit");
    check("model 41\"42\"", 9, "not a hex digit");
    check("model 414", 7, "odd number of hex digits");
    check("model \"a\tb\"", 9, "control byte in a text");
    check("model \"a\\q\"", 9, "bad escape");
    check("model \"a\\x4\"", 9, "bad escape");
    check("model \"a\\", 9, "bad escape");
    check("model  \"a", 8, "text not closed");
    check("model \"a\\\"", 7, "text not closed");
    check("model \"a\"b", 10, "end of line expected");
    check(
        "feed 1 Dsp 2 PiStatus text=\"a\" payload=4",
        40,
        "odd number of hex digits",
    );
    let tail = "feed 1 Dsp 2 TimeSync epoch=1 session=1 tail=";
    check(&format!("{tail}00"), 46, "out of range");
    check(&format!("{tail}000102"), 46, "out of range");
    check(&format!("{tail}001"), 46, "odd number of hex digits");
    good(&format!("{tail}0001"));
}

#[test]
fn params() {
    let list = |count: usize| vec!["1"; count].join(",");
    let line = |params: &str| format!("feed 1 Dsp 2 ConfigResp params={params}");
    check(&line(&list(33)), 32, "34 numbers expected");
    check(&line(&list(35)), 32, "34 numbers expected");
    check(&line(&(list(34) + ",")), 32, "34 numbers expected");
    check(&line(&(list(33) + ",")), 98, "not a number");
    check(&line("1,,1"), 34, "not a number");
    check(&line(""), 32, "not a number");
    check(&line("1,32768,x"), 34, "out of range");
    good(&line(&list(34)));
}

#[test]
fn ends() {
    check("dsp 1", 5, "end of line expected");
    check("check 1  2", 10, "end of line expected");
    check("keepalive Xi Xi", 14, "end of line expected");
    check("feed 1 Dsp 2 PiStatus text", 23, "end of line expected");
    let line = "feed 1 Dsp 2 PiStatus payload=41 text=41";
    check(line, 34, "end of line expected");
    let line = "feed 1 Dsp 2 PiStatus text=41 text=41";
    check(line, 31, "end of line expected");
}

#[test]
fn no_sequence() {
    for line in [
        "feed",
        "check x",
        " result",
        "take it",
        "retries",
        "\tretries 1",
        "sheet",
        " sheet x",
    ] {
        let bad = list::read(line.as_bytes(), None).err().expect(line);
        assert_eq!((bad.column, bad.reason), (1, Reason::NoSequence));
    }
    let begins = [
        "dsp", "avr", "avr Xi", "pi", "disarm", "arm", "arm Xi", "session",
    ];
    let settings = ["avr_config mode=1", "mode_only mode=1"];
    let others = ["ack Xi Avr 1", "keepalive", "model", "# feed"];
    for line in begins.iter().chain(&settings).chain(&others) {
        assert!(list::read(line.as_bytes(), None).is_ok(), "{line}");
    }
}

#[test]
fn not_of_the_sequence() {
    let refused = |which, line: &str| match list::read(line.as_bytes(), Some(which)) {
        Ok(_) => panic!("read: {line}"),
        Err(bad) => assert_eq!(
            bad.to_string(),
            "bad line at column 1: not a call of this sequence"
        ),
    };
    let every = Which::WITH_SESSION.into_iter();
    let without = |has: fn(Which) -> bool| every.clone().filter(move |w| !has(*w));
    let others = [Which::AvrConfig, Which::Disarm, Which::Arm];
    for line in ["take", "  take", "take it"] {
        let has = |which| matches!(which, Which::Dsp | Which::Session);
        without(has).for_each(|which| refused(which, line));
    }
    for line in ["check 1", "\tcheck", "check x", "check 1 2"] {
        refused(Which::Pi, line);
        others.into_iter().for_each(|which| refused(which, line));
    }
    for line in ["result", " result", "result x"] {
        others.into_iter().for_each(|which| refused(which, line));
    }
    for line in ["sheet", "\tsheet", "sheet 0 34", "sheet x", "sheet 1"] {
        others.into_iter().for_each(|which| refused(which, line));
    }
    for line in ["retries", "\tretries", "retries x"] {
        without(|which| which == Which::Arm).for_each(|which| refused(which, line));
    }
}

#[test]
fn of_the_sequence() {
    let read = |which, line: &str| list::read(line.as_bytes(), Some(which)).is_ok();
    for which in Which::WITH_SESSION {
        assert!(read(which, "feed 1 Pi 2 PiStatus"));
    }
    for which in [Which::Dsp, Which::Avr, Which::Pi] {
        assert!(read(which, "result"));
        assert!(read(which, "sheet"));
        assert!(read(which, "sheet 0 34"));
        assert!(!read(which, "sheet 0"));
    }
    assert!(read(Which::Dsp, "check 1"));
    assert!(read(Which::Avr, "check 1"));
    assert!(read(Which::Dsp, "take"));
    for line in ["result", "check 1", "take", "sheet D", "sheet P 0 34"] {
        assert!(read(Which::Session, line));
    }
    assert!(read(Which::Arm, " retries "));
    let extra = list::read(b"retries 1", Some(Which::Arm)).err().unwrap();
    assert!(
        extra
            .to_string()
            .starts_with("bad line at column 9: end of line expected")
    );
}

#[test]
fn begins() {
    check("avr Meva", 5, "unknown model");
    check("avr xi", 5, "unknown model");
    check("avr Xi Xi", 8, "end of line expected");
    check("avrs", 1, "unknown call");
    check("pi Mevo", 4, "end of line expected");
    check(" Pi", 2, "unknown call");
    good("avr");
    good("avr \t");
    good("avr Mevo");
    good("pi\r");
    check("disarm Xi", 8, "end of line expected");
    check("disarms", 1, "unknown call");
    check(" Disarm", 2, "unknown call");
    check("arm Meva", 5, "unknown model");
    check("arm  xi", 6, "unknown model");
    check("arm Xi Xi", 8, "end of line expected");
    check("arms", 1, "unknown call");
    check("avr_configs mode=9", 1, "unknown call");
    check("mode_onl mode=9", 1, "unknown call");
    check(" Mevo_settings mode=9", 2, "unknown call");
    check("retries=1", 1, "unknown call");
    good("disarm ");
    good("arm");
    good("arm Mevo\r");
}

#[test]
fn settings() {
    check("avr_config", 11, "mode= expected");
    check("avr_config  ", 13, "mode= expected");
    check("avr_config 9", 12, "mode= expected");
    check("avr_config mode =9", 12, "mode= expected");
    check("avr_config param_id=1 int24=1 mode=9", 12, "mode= expected");
    check("avr_config mode=", 17, "not a number");
    check("avr_config mode= 9", 17, "not a number");
    check("avr_config mode=256", 17, "out of range");
    for word in [
        "x",
        "mode=9",
        "param_id",
        "param_id =1",
        "int24=1",
        "height_mm=1",
        "wall=1",
    ] {
        check(
            &format!("avr_config mode=9 {word}"),
            19,
            "end of line expected",
        );
        check(
            &format!("avr_config mode=9  {word}"),
            20,
            "end of line expected",
        );
    }
    good("avr_config mode=9");
    good("avr_config mode=9 param_id=0xFF int24=-1 ");
}

#[test]
fn parameters() {
    let param = "avr_config mode=9 param_id=1";
    check("avr_config mode=9 param_id= int24=1", 28, "not a number");
    check("avr_config mode=9 param_id=256 int24=1", 28, "out of range");
    check(param, 29, "int24= expected");
    check(&format!("{param} x"), 30, "int24= expected");
    check(&format!("{param} float4=1"), 30, "int24= expected");
    check(
        &format!("{param} param_id=2 int24=1"),
        30,
        "int24= expected",
    );
    check(
        &format!("{param} range_mm=1 height_mm=1"),
        30,
        "int24= expected",
    );
    check(&format!("{param} int24=0x80000000"), 36, "out of range");
    check(&format!("{param} int24=1-"), 36, "not a number");
    check(&format!("{param} float40=1.5"), 38, "not a float");
    let nan = "a NaN can't be read";
    check(&format!("{param} float40=0x7FF8000000000000"), 38, nan);
    let two = format!("{param} int24=1 param_id=2 float40=0x3FF8000000000000");
    check(&format!("{two} int24=1"), 76, "end of line expected");
    good(&two);
    good(&format!("{two} range_mm=1 height_mm=1"));
}

/// Those past the 32nd are judged, too.
#[test]
fn many_parameters() {
    let many = |count: usize| format!("avr_config mode=9{}", " param_id=1 int24=1".repeat(count));
    for count in [32, 33, 40, 3_000] {
        good(&many(count));
        let column = many(count).len() + 19;
        check(
            &format!("{} param_id=1 int24=x", many(count)),
            column,
            "not a number",
        );
        let column = many(count).len() + 2;
        check(
            &format!("{} x", many(count)),
            column,
            "end of line expected",
        );
    }
}

#[test]
fn calibrations() {
    let range = "avr_config mode=9 range_mm=1";
    check(range, 29, "height_mm= expected");
    check(
        &format!("{range} param_id=1 int24=1"),
        30,
        "height_mm= expected",
    );
    check(
        "avr_config mode=9 range_mm=65536 height_mm=1",
        28,
        "out of range",
    );
    check(&format!("{range} height_mm=256"), 40, "out of range");
    check(&format!("{range} height_mm="), 40, "not a number");
    let both = format!("{range} height_mm=1");
    check(
        &format!("{both} param_id=1 int24=1"),
        42,
        "end of line expected",
    );
    check(
        &format!("{both} range_mm=1 height_mm=1"),
        42,
        "end of line expected",
    );
    good(&both);
}

#[test]
fn other_settings() {
    check("mode_only", 10, "mode= expected");
    check("mode_only 9", 11, "mode= expected");
    check("mode_only mode=-1", 16, "not a number");
    check(
        "mode_only mode=9 param_id=1 int24=1",
        18,
        "end of line expected",
    );
    good("mode_only mode=0x09");
    check("mevo_settings", 14, "mode= expected");
    check("mevo_settings ball_type=1 mode=9", 15, "mode= expected");
    check("mevo_settings mode=9", 21, "ball_type= expected");
    let ball = "mevo_settings mode=9 ball_type=1";
    check(
        &format!("{ball} tee_height_m=0"),
        34,
        "track_fraction= expected",
    );
    check(&format!("{ball} track_fraction=0.8"), 49, "not a float");
    let track = format!("{ball} track_fraction=0x3FE999999999999A");
    check(&track, 67, "tee_height_m= expected");
    let nan = "a NaN can't be read";
    check(&format!("{track} tee_height_m=0xFFF8000000000000"), 81, nan);
    let tee = format!("{track} tee_height_m=0x3FA3A92A30553261");
    check(&tee, 99, "range_mm= expected");
    check(&format!("{tee} range_mm=1"), 110, "height_mm= expected");
    let all = format!("{tee} range_mm=1 height_mm=2");
    check(&format!("{all} x"), 123, "end of line expected");
    good(&all);
}

#[test]
fn sheets() {
    check("sheets", 1, "unknown call");
    check(" Sheet", 2, "unknown call");
    check("sheet=1", 1, "unknown call");
    check("sheet x", 7, "not a number");
    check("sheet  x 34", 8, "not a number");
    check("sheet -1 34", 7, "not a number");
    check("sheet 1,34", 7, "not a number");
    check("sheet 18446744073709551616", 7, "out of range");
    check("sheet 0x10000000000000000 x", 7, "out of range");
    // a length is missing
    check("sheet 1", 8, "not a number");
    check("sheet 1  ", 10, "not a number");
    check("sheet 1 x", 9, "not a number");
    check("sheet 1 -1", 9, "not a number");
    check("sheet 1 0X10", 9, "not a number");
    check("sheet 1 1025", 9, "out of range");
    check("sheet 1  0x401 x", 10, "out of range");
    check("sheet 1 18446744073709551616", 9, "out of range");
    check("sheet 1 1024 0", 14, "end of line expected");
    check("sheet 1 34 #", 12, "end of line expected");
    let lent = |line: &str| match good(line) {
        Some(Call::Sheet { lent }) => lent,
        _ => panic!("{line}"),
    };
    assert_eq!(lent("sheet"), None);
    assert_eq!(lent(" sheet \t\r"), None);
    assert_eq!(lent("sheet 0 0"), Some((0, 0)));
    let most = Some((u64::MAX, 1024));
    assert_eq!(lent("sheet 18446744073709551615\t0x400 "), most);
    assert_eq!(lent("sheet 0xFFFFffffFFFFffff 0001024"), most);
}

/// In a session the letter of a start-up comes first, and only there.
#[test]
fn sheets_of_a_session() {
    let read = |line: &str| list::read(line.as_bytes(), Some(Which::Session));
    let unknown = "unknown start-up: D, A or P expected";
    let number = "not a number: write one as 12 or 0x0C; a type id stands before the kind";
    let end = "end of line expected: a text or payload stands behind its name and =, a comment on a line of its own";
    for (line, column, reason) in [
        ("sheet", 6, unknown),
        (" sheet", 7, unknown),
        ("sheet  \t", 9, unknown),
        ("sheet \r", 7, unknown),
        ("sheet d", 7, unknown),
        ("sheet  B", 8, unknown),
        ("sheet DA", 7, unknown),
        ("sheet \"D\"", 7, unknown),
        ("sheet D,", 7, unknown),
        ("sheet Dsp 0 34", 7, unknown),
        ("sheet 0 34", 7, unknown),
        ("sheet 0 34 D", 7, unknown),
        ("sheet x 34", 7, unknown),
        ("sheet #", 7, unknown),
        ("sheet D A", 9, number),
        ("sheet A x", 9, number),
        ("sheet P 0", 10, number),
        ("sheet P 0 ", 11, number),
        ("sheet P 0 x", 11, number),
        ("sheet P 18446744073709551616 0", 9, "out of range"),
        ("sheet A 0 1025", 11, "out of range"),
        ("sheet A 0 34 D", 14, end),
        ("sheet A 0 34 #", 14, end),
        ("session 1", 9, end),
        ("session Xi", 9, end),
        ("session #", 9, end),
        ("sessions", 1, "unknown call: docs/REPLAY.md names them all"),
        ("Session", 1, "unknown call: docs/REPLAY.md names them all"),
        ("retries", 1, "not a call of this sequence"),
        ("retries x", 1, "not a call of this sequence"),
    ] {
        let bad = read(line).err().expect(line);
        let told = format!("bad line at column {column}: {reason}");
        assert_eq!(bad.to_string(), told, "{line}");
    }
    let asked = |line: &str| match read(line).unwrap() {
        Some(Call::SheetOf { which, lent }) => (which, lent),
        _ => panic!("{line}"),
    };
    assert_eq!(asked("sheet D"), (Which::Dsp, None));
    assert_eq!(asked("\tsheet  A \t\r"), (Which::Avr, None));
    assert_eq!(asked("sheet P 0x3 40"), (Which::Pi, Some((3, 40))));
    check("sheet D", 7, "not a number");
    check("sheet P 0 34", 7, "not a number");
    let early = list::read(b"sheet D", None).err().unwrap();
    assert_eq!((early.column, early.reason), (1, Reason::NoSequence));
    assert!(matches!(good(" session\t"), Some(Call::Begin(_))));
}

#[test]
fn wall_seconds() {
    let wall = |words: &str| match good(&format!("feed 1 Avr 2 ModeAck{words}")) {
        Some(Call::Feed(feed)) => feed.wall,
        _ => panic!("{words}"),
    };
    assert_eq!(wall(""), 0);
    assert_eq!(wall(" text=41 payload=42"), 0);
    assert_eq!(wall(" wall=18446744073709551615"), u64::MAX);
    assert_eq!(wall(" text=\"a\" payload=42 wall=0x10"), 16);
    check("feed 1 Avr 2 ModeAck wall", 22, "end of line expected");
    check("feed 1 Avr 2 ModeAck wall=", 27, "not a number");
    check("feed 1 Avr 2 ModeAck wall= 1", 27, "not a number");
    check("feed 1 Avr 2 ModeAck wall=-1", 27, "not a number");
    let large = "feed 1 Avr 2 ModeAck wall=18446744073709551616";
    check(large, 27, "out of range");
    let early = "feed 1 Avr 2 ModeAck wall=1 text=41";
    check(early, 29, "end of line expected");
    let twice = "feed 1 Avr 2 ModeAck wall=1 wall=1";
    check(twice, 29, "end of line expected");
}

#[test]
fn long_lines() {
    let line = |length: usize| format!("model {}", "0".repeat(length - 6));
    good(&line(LONGEST));
    check(&line(LONGEST + 1), 65_537, "line longer than 65536 bytes");
    let comment = "#".repeat(LONGEST + 1);
    check(&comment, 65_537, "line longer than 65536 bytes");
}

#[test]
fn comments_and_blanks() {
    for line in ["", " \t", "\r", "#", "  # dsp", "#dsp"] {
        assert!(good(line).is_none(), "{line}");
    }
    assert!(matches!(good("\tdsp \r"), Some(Call::Begin(_))));
    check("dsp\r\r", 1, "unknown call");
}

#[test]
fn written_bytes() {
    let read = |bytes: &str| match good(&format!("model {bytes}")) {
        Some(Call::Model { payload }) => payload,
        _ => panic!("{bytes}"),
    };
    assert_eq!(read(""), b"");
    assert_eq!(read("\"\""), b"");
    assert_eq!(read("00fFA9"), [0, 0xFF, 0xA9]);
    assert_eq!(read("\"a \\\" \\\\ \\x0a\\xFF\""), b"a \" \\ \x0A\xFF");
    assert_eq!(read("\"é\x7F\""), "é\x7F".as_bytes());
}

/// What people write first: each is told what to write instead.
#[test]
fn hints() {
    let info = "feed 1 Dsp 0xE7 DevInfoResp";
    let hex = "not a hex digit: bytes are pairs of digits without 0x, or a text in double quotes";
    let end = "end of line expected: a text or payload stands behind its name and =, a comment on a line of its own";
    let number = "not a number: write one as 12 or 0x0C; a type id stands before the kind";
    let kind = "unknown kind: docs/REPLAY.md names them all, and capitals count";
    for (line, column, told) in [
        (format!("{info} payload=0x46"), 38, hex),
        (format!("{info} text=FS Xi"), 35, hex),
        (format!("{info} \"FS Xi\""), 29, end),
        ("check 2 # a comment".to_string(), 9, end),
        ("feed 1 Dsp DspStatus".to_string(), 12, number),
        ("feed 1 Dsp 0xAA Dspstatus".to_string(), 17, kind),
    ] {
        let bad = read(&line).err().expect("a bad line");
        assert_eq!(
            bad.to_string(),
            format!("bad line at column {column}: {told}")
        );
    }
    let early = list::read(b"check 1", None).err().expect("a bad line");
    let told =
        "bad line at column 1: no sequence has begun: a line such as dsp, avr Xi or arm begins one";
    assert_eq!(early.to_string(), told);
}
