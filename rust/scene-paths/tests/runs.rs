//! Good and bad scenarios and arguments.

mod common;

use common::{Ran, run, run_with_no_color};

const LEGS: &str = "map one\n/A -> /B\nrelocates two\n/B/c -> /B/d\n";

#[test]
fn all_come_home() {
    let ran = run(&[], format!("{LEGS}signals\n/A/c.x\n/A/e\n").as_bytes());
    assert_eq!((ran.status, ran.errors.as_str()), (0, ""));
    assert!(ran.out.ends_with("\n\n2 signals: 2 came home, 0 did not\n"), "{}", ran.out);
}

#[test]
fn one_does_not() {
    let ran = run(&["--json"], format!("{LEGS}signals\n/A/c.x\n/A/d\n").as_bytes());
    assert_eq!((ran.status, ran.errors.as_str()), (1, ""));
    assert!(ran.out.contains("\"stopped\": {\"at\": \"out\", \"leg\": 2, \"number\": 6"), "{}", ran.out);
    assert!(
        ran.out.ends_with("\"summary\": {\"signals\": 2, \"came_home\": 1, \"did_not\": 1}\n}\n"),
        "{}",
        ran.out
    );
}

/// Names outside ASCII are written as they are, in the text report, with colours and as JSON.
#[test]
fn names_outside_ascii() {
    let text = "map Széll Kálmán tér\n/Jelző -> /Tér/Jelző_12\nsignals\n/Jelző/Lámpa.szín\n/Jelz\u{a0}ő\n";
    let plain = run(&[], text.as_bytes());
    let first =
        "line 4: /Jelző/Lámpa.szín\n  leg 1   /Tér/Jelző_12/Lámpa.szín\n  home    /Jelző/Lámpa.szín\n";
    let second = "line 5: /Jelz\\u{a0}ő\n  no signal: 2, the text is not a legal path\n";
    let title = "leg 1, map, line 1, 1 pair: Széll Kálmán tér\n";
    let end = "2 signals: 1 came home, 1 did not\n";
    assert_eq!(plain.out, format!("{title}\n{first}\n{second}\n{end}"));
    let highlighted = run(&["--color=always"], text.as_bytes());
    assert_eq!(highlighted.out, plain.out.replace("/Lámpa.szín", "\x1b[1;32m/Lámpa.szín\x1b[0m"));
    let json = run(&["--json"], text.as_bytes());
    let signal = "\"signal\": \"/Jelző/Lámpa.szín\", \"steps\": [\"/Tér/Jelző_12/Lámpa.szín\"], \
                  \"unaltered\": {\"start\": 7, \"length\": 13}, \"came_home\": true";
    assert!(json.out.contains(signal) && json.out.contains("\"/Jelz\u{a0}ő\""), "{}", json.out);
    assert_eq!([plain.status, highlighted.status, json.status], [1; 3]);
}

#[test]
fn problems_have_line_numbers() {
    for (text, expected) in [
        ("/A -> /B", "standard input:1: no section has begun: `map`, `relocates` or `signals` comes first\n"),
        (
            "map\n/A -> /B.c\nsignals\n/A",
            "standard input:2: `/B.c`: the end of a pair is not a prim path, `/` or empty (3)\n",
        ),
        ("map\n//A -> /B\nsignals\n/A", "standard input:2: `//A`: the text is not a legal path (2)\n"),
        (
            "signals\n/A\n\nmap\n",
            "standard input:4: a leg after the signals; all legs must come before them\n",
        ),
        ("signals\n/A /B\n", "standard input:2: a signal is one path, alone on its line\n"),
        (
            "map\n/Széll\u{a0}Kálmán -> /B\nsignals\n/A",
            "standard input:2: `/Széll\\u{a0}Kálmán`: the text is not a legal path (2)\n",
        ),
        (
            "# nothing\n\n",
            "standard input:2: the scenario ends without a signal: `signals`, then a path on each line\n",
        ),
    ] {
        for arguments in [&[][..], &["--json"]] {
            let expected = Ran { out: String::new(), errors: expected.to_string(), status: 2 };
            assert_eq!(run(arguments, text.as_bytes()), expected);
        }
    }
}

/// Text in another encoding, here Latin-2, is reported by line and byte.
#[test]
fn scenarios_that_are_not_utf8() {
    let text = b"map Sz\xe9ll K\xe1lm\xe1n t\xe9r\n/Mast -> /Jelz\xf5_12\nsignals\n/Mast\n";
    for arguments in [&[][..], &["--json"], &["--color=always"]] {
        let errors = "standard input:1: the text is not UTF-8 at byte 7 of the line (0xe9)\n\
                      standard input:2: the text is not UTF-8 at byte 15 of the line (0xf5)\n";
        let expected = Ran { out: String::new(), errors: errors.to_string(), status: 2 };
        assert_eq!(run(arguments, text), expected);
    }
}

#[test]
fn many_problems_are_cut_short() {
    let ran = run(&[], ("map\n".to_string() + &"x\n".repeat(30)).as_bytes());
    assert_eq!((ran.status, ran.errors.lines().count()), (2, 21));
    assert!(ran.errors.ends_with("standard input: and 10 problems more\n"), "{}", ran.errors);
}

#[test]
fn bad_arguments() {
    for (arguments, expected) in [
        (&["--jsn"][..], "scene-paths: unknown option `--jsn`; see `scene-paths --help`\n"),
        (&["a", "b"], "scene-paths: expected one scenario, but 2 files are given\n"),
        (
            &["--color=red"],
            "scene-paths: `--color` takes `always`, `never` or `auto`, but `red` is given; see `scene-paths --help`\n",
        ),
        (
            &["--color"],
            "scene-paths: `--color` takes `always`, `never` or `auto`, but nothing is given; see `scene-paths --help`\n",
        ),
    ] {
        let expected = Ran { out: String::new(), errors: expected.to_string(), status: 2 };
        assert_eq!(run(arguments, b""), expected);
    }
    let missing = run(&["no-such-file.scene"], b"");
    assert!(
        missing.status == 2 && missing.errors.starts_with("scene-paths: no-such-file.scene: "),
        "{missing:?}"
    );
}

/// The report on an address says that its target was not moved, and where the target goes; other signals have no such lines.
#[test]
fn targets_in_brackets() {
    let ran =
        run(&[], format!("{LEGS}signals\n/A/e.r[/A{{v=p}}c] # not moved\n/A.r[/Q]\n/A/e.r\n").as_bytes());
    let (first, second) = (
        "line 6: /A/e.r[/A{v=p}c]\n  leg 1   /B/e.r[/A{v=p}c]\n  leg 2   /B/e.r[/A{v=p}c]\n  home    /A/e.r[/A{v=p}c]\n\
        \x20 target  not moved by mapping: the brackets still name /A{v=p}c\n\
        \x20         /A{v=p}c itself would come out as /B/d, its selections left out\n\
        \x20         address with the moved target: /B/e.r[/B/d]\n\n",
        "line 7: /A.r[/Q]\n  leg 1   /B.r[/Q]\n  leg 2   /B.r[/Q]\n  home    /A.r[/Q]\n\
        \x20 target  not moved by mapping: the brackets still name /Q\n\
        \x20         /Q itself would stop at leg 1: 6, no path: ",
    );
    assert!(ran.out.contains(&format!("{first}{second}")), "{}", ran.out);
    assert!(ran.out.ends_with("  home    /A/e.r\n\n3 signals: 3 came home, 0 did not\n"), "{}", ran.out);
    assert_eq!((ran.status, ran.errors.as_str()), (0, ""));
}

#[test]
fn targets_in_json() {
    let text = format!("{LEGS}signals\n/A/c.r[/A/c]\n/A.r[/Q]\n/Q.r[/A]\n/A\n");
    let json = run(&["--json"], text.as_bytes()).out;
    for (line, target) in [
        (6, Some("{\"path\": \"/A/c\", \"moved\": \"/B/d\", \"address\": \"/B/d.r[/B/d]\"}")),
        (
            7,
            Some(
                "{\"path\": \"/Q\", \"stopped\": {\"at\": \"out\", \"leg\": 1, \"number\": 6, \"meaning\": \"no path\"}}",
            ),
        ),
        (8, None),
        (9, None),
    ] {
        let signal = json.lines().find(|text| text.contains(&format!("{{\"line\": {line}, \"signal\"")));
        let signal = signal.expect("a line for each signal").trim_end_matches(',');
        match target {
            Some(target) => assert!(signal.ends_with(&format!(", \"target\": {target}}}")), "{signal}"),
            None => assert!(!signal.contains("\"target\""), "{signal}"),
        }
    }
}

/// The signals of a scenario for the tests of colours: one whose end is unaltered, one that is replaced as a whole, one with a
/// selection, and one that stops.
const COLORED: &str = "signals\n/A/c.x\n/A/c\n/A{v=p}c.x\n/A/d.x\n";

/// The unaltered end `.x` of the first signal is highlighted, and nothing else.
#[test]
fn unaltered_ends_are_highlighted() {
    let text = format!("{LEGS}{COLORED}");
    let plain = run(&["--color", "never"], text.as_bytes());
    let highlighted = run(&["--color=always"], text.as_bytes());
    let first = "line 6: /A/c.x\n  leg 1   /B/c.x\n  leg 2   /B/d.x\n  home    /A/c.x\n";
    assert!(plain.out.contains(first), "{}", plain.out);
    let expected = plain.out.replace(first, &first.replace(".x", "\x1b[1;32m.x\x1b[0m"));
    assert_eq!(highlighted.out, expected);
    assert_eq!((highlighted.errors, highlighted.status), (plain.errors, plain.status));
}

/// `NO_COLOR` does not matter if colours are asked for. Standard output is not a terminal here, so `auto` means no colours.
#[test]
fn colors_are_off_by_default() {
    let text = format!("{LEGS}{COLORED}");
    let plain = run(&["--color=never"], text.as_bytes());
    assert!(!plain.out.contains('\x1b'), "{}", plain.out);
    for no_color in ["", "1"] {
        for arguments in [&[][..], &["--color=auto"], &["--color=always", "--color=auto"]] {
            assert_eq!(run_with_no_color(no_color, arguments, text.as_bytes()), plain);
        }
        let highlighted = run_with_no_color(no_color, &["--color=always"], text.as_bytes());
        assert!(highlighted.out.contains("\x1b[1;32m.x\x1b[0m\n"), "{}", highlighted.out);
    }
}

#[test]
fn json_has_ranges_and_no_colors() {
    let text = format!("{LEGS}{COLORED}");
    let json = run(&["--json"], text.as_bytes());
    assert_eq!(run(&["--json", "--color=always"], text.as_bytes()), json);
    for (line, range) in [(6, Some((4, 2))), (7, Some((4, 0))), (8, Some((0, 0))), (9, None)] {
        let signal = json.out.lines().find(|text| text.contains(&format!("{{\"line\": {line}, \"signal\"")));
        let signal = signal.expect("a line for each signal");
        assert_eq!(signal.contains("\"unaltered\""), range.is_some(), "{signal}");
        if let Some((start, length)) = range {
            let member =
                format!("], \"unaltered\": {{\"start\": {start}, \"length\": {length}}}, \"came_home\": ");
            assert!(signal.contains(&member), "{signal}");
        }
    }
}

/// The example in the help text works, and the help text explains each refusal that a trace can have.
#[test]
fn help_is_true() {
    let Ran { out, errors, status } = run(&["--help"], b"");
    assert_eq!((status, errors.as_str()), (0, ""));
    let example = out.split("For example:\n\n").nth(1).unwrap().split("\n\nA leg").next().unwrap();
    let ran = run(&[], example.as_bytes());
    assert!(
        ran.status == 0 && ran.out.contains("leg 2   /Line7/Quay/Signal_12/Head/Lamp_2.aspect:state\n"),
        "{ran:?}"
    );
    let address = "moved target: /Line7/Quay/Signal_12/Head.next[/Line7/Quay/Signal_12/Arm]\n";
    assert!(ran.out.contains(address), "{ran:?}");
    for refusal in
        mudvizsor::Refusal::ALL.into_iter().filter(|refusal| ![3, 4, 5, 9].contains(&refusal.number()))
    {
        assert!(out.contains(&format!("  {}  {refusal}", refusal.number())), "{refusal}");
    }
    assert_eq!(run(&["--version"], b"").out, format!("scene-paths {}\n", env!("CARGO_PKG_VERSION")));
}

/// More signals than are traced together. Standard error is not a terminal here, so no progress is shown.
#[test]
fn many_signals() {
    let signals: String = (0..25_000).map(|i| format!("/A/n{i}\n")).collect();
    let ran = run(&[], format!("{LEGS}signals\n{signals}/Q\n").as_bytes());
    assert_eq!((ran.status, ran.errors.as_str()), (1, ""));
    assert!(ran.out.contains("line 25006: /Q\n  leg 1   stopped: 6, "));
    assert!(ran.out.ends_with("25001 signals: 25000 came home, 1 did not\n"));
}
