//! Tests of the parser.

use super::*;

fn problems(text: &str) -> Vec<(usize, String)> {
    let problems = Scenario::read(text.as_bytes()).expect_err("a bad scenario");
    problems.into_iter().map(|problem| (problem.line, problem.message)).collect()
}

/// The only problem of a text.
fn problem(text: &str) -> (usize, String) {
    let mut all = problems(text);
    assert_eq!(all.len(), 1, "{all:?}");
    all.remove(0)
}

#[test]
fn a_scenario_is_read() {
    let text = "\u{feff}# line 7\r\n\r\nmap  the  layer # placed\r\n /A -> /B\n/A/c -> - # gone\nrelocates\nsignals\n /A{v=p}\n-\n/A.r[/B.s[/C]] # an address\n";
    let scenario = Scenario::read(text.as_bytes()).unwrap();
    let [map, relocates] = &scenario.legs[..] else { panic!("two legs") };
    assert_eq!(
        (map.line, map.kind(), map.title.as_str(), &map.lines[..]),
        (3, "map", "the layer", &[4, 5][..])
    );
    assert_eq!((relocates.line, relocates.kind(), relocates.title.as_str()), (6, "relocates", ""));
    assert_eq!(map.leg, MapFunction::new([("/A", "/B"), ("/A/c", "")]).unwrap().into());
    let signals: Vec<_> = scenario.signals.iter().map(|signal| (signal.line, signal.text.as_str())).collect();
    assert_eq!(signals, [(8, "/A{v=p}"), (9, ""), (10, "/A.r[/B.s[/C]]")]);
}

#[test]
fn signals_in_several_sections() {
    let scenario = Scenario::read(b"signals\n/A\nsignals\nnot/legal").unwrap();
    assert_eq!(scenario.signals.len(), 2);
    assert_eq!(scenario.signals[1].text, "not/legal");
}

#[test]
fn lines_in_no_section() {
    assert_eq!(problem("/A -> /B\nsignals\n/A").0, 1);
    assert!(problem("\nmapp\nsignals\n/A").1.starts_with("no section has begun"));
}

#[test]
fn lines_that_are_not_pairs() {
    for line in ["/A /B", "/A ->", "-> /B", "/A -> /B /C", "relocate", "/A->/B"] {
        let (number, message) = problem(&format!("map\n{line}\nsignals\n/A"));
        assert!(number == 2 && message.starts_with("neither a pair"), "{line}: {message}");
    }
}

#[test]
fn ends_that_are_refused() {
    let long = format!("/{}", "n".repeat(255));
    let ends = [
        ("Mast", "not a legal path (2)"),
        ("/A.b", "or empty (3)"),
        ("/A{v=p}", "or empty (3)"),
        ("/A.r[/T]", "or empty (3)"),
        ("/A[/T]", "not a legal path (2)"),
        ("/A{v=é}", "not a legal path (2)"),
        ("/é.ő", "or empty (3)"),
        (&long, "bytes (1)"),
    ];
    for (text, expected) in ends {
        let (number, message) = problem(&format!("map\n/A -> /B\n/C -> {text}\nsignals\n/A"));
        assert!(number == 3 && message.ends_with(expected), "{message}");
        assert!(message.starts_with(&format!("`{text}`: ")), "{message}");
    }
}

#[test]
fn all_problems_are_reported() {
    let found = problems("map\nA -> B\nsignals here\nsignals\n/A /B\nmap\n");
    let lines: Vec<usize> = found.iter().map(|(line, _)| *line).collect();
    assert_eq!(lines, [2, 2, 3, 5, 6]);
    assert!(found[4].1.starts_with("a leg after the signals"));
}

#[test]
fn limits() {
    let pairs = |count: usize| (0..count).map(|i| format!("/A{i} -> /B{i}\n")).collect::<String>();
    assert!(Scenario::read(format!("map\n{}signals\n/A", pairs(64)).as_bytes()).is_ok());
    assert_eq!(
        problem(&format!("map\n{}signals\n/A", pairs(70))),
        (66, "more than 64 pairs in this leg (4)".into())
    );
    assert!(Scenario::read(("map\n".repeat(16) + "signals\n/A").as_bytes()).is_ok());
    assert_eq!(problem(&("map\n".repeat(20) + "signals\n/A")), (17, "more than 16 legs (4)".into()));
}

#[test]
fn a_scenario_without_signals() {
    assert_eq!(problem("").0, 1);
    assert_eq!(problem("map\n/A -> /B\n").0, 2);
    assert!(problem("map\n/A -> /B\nsignals\n").1.contains("without a signal"));
}

/// Each line that is not UTF-8 is reported with its first bad byte, and nothing else is.
#[test]
fn bytes_that_are_not_text() {
    for (bytes, expected) in [
        (&b"map\n/A -> /B\n\xff"[..], &[(3, 1, "0xff")][..]),
        (b"map\n/Jelz\xc5\x91 -> /Jelz\xf5\n", &[(2, 17, "0xf5")]),
        (b"\xef\xbb\xbfmap \xe9\r\nsignals\r\n/\xc3\n", &[(1, 8, "0xe9"), (3, 2, "0xc3")]),
        (b"bad line\nmap # \xed\xa0\x80 \xff\nbad line\n", &[(2, 7, "0xed")]),
    ] {
        let expected: Vec<_> = expected
            .iter()
            .map(|(line, byte, value)| {
                let message = format!("the text is not UTF-8 at byte {byte} of the line ({value})");
                Problem { line: *line, message }
            })
            .collect();
        assert_eq!(Scenario::read(bytes).unwrap_err(), expected, "{}", bytes.escape_ascii());
    }
}

#[test]
fn names_outside_ascii() {
    let text =
        "map Széll\u{a0}Kálmán\u{2003} tér\n/Jelző -> /Tér/Jelző_12\nsignals\n/Jelző{idő=fagy}Lámpa.szín\n";
    let scenario = Scenario::read(text.as_bytes()).unwrap();
    assert_eq!(scenario.legs[0].title, "Széll Kálmán tér");
    assert_eq!(scenario.legs[0].leg, MapFunction::from_pair("/Jelző", "/Tér/Jelző_12").unwrap().into());
    assert_eq!(scenario.signals[0].text, "/Jelző{idő=fagy}Lámpa.szín");
}

/// White space outside ASCII belongs to a word, which is then no legal path. Messages show it.
#[test]
fn white_space_outside_ascii() {
    let (line, message) = problem("map\n/Széll\u{a0}Kálmán -> /A\nsignals\n/A");
    assert_eq!((line, &*message), (2, "`/Széll\\u{a0}Kálmán`: the text is not a legal path (2)"));
    for (text, expected) in [
        ("map\n/A\u{3000}-> /B\nsignals\n/A", "`signals`; the white space `\\u{3000}` separates no words"),
        ("map\n/A -> /B\n\u{a0}signals\n", "`signals`; the white space `\\u{a0}` separates no words"),
        ("signals\n/A /B\u{2028}\n", "its line; the white space `\\u{2028}` separates no words"),
        ("\u{85}map\n", "comes first; the white space `\\u{85}` separates no words"),
    ] {
        let message = problem(text).1;
        assert!(message.ends_with(expected), "{message}");
    }
    let scenario = Scenario::read("signals\n\u{3000}\u{a0} \n/A\u{a0}/B\n".as_bytes()).unwrap();
    let texts: Vec<_> = scenario.signals.iter().map(|signal| signal.text.as_str()).collect();
    assert_eq!(texts, ["/A\u{a0}/B"]);
}
