//! The scenarios of tram lines in the repository.

mod common;

use common::{Ran, run};
use std::fs;
use std::path::PathBuf;

/// The escape sequences around a highlighted text.
const HIGHLIGHT: &str = "\x1b[1;32m";
const RESET: &str = "\x1b[0m";

/// The scenarios. In each some signals do not come home, so that the exit status is 1.
const LINES: [&str; 2] = ["line-7", "line-61"];

/// The path of a file in the folder `scenarios`.
fn scenario(name: &str) -> PathBuf {
    PathBuf::from(env!("CARGO_MANIFEST_DIR")).join("../../scenarios").join(name)
}

/// The file of a scenario with this extension.
fn recorded(line: &str, extension: &str) -> String {
    fs::read_to_string(scenario(&format!("{line}.{extension}"))).expect("a scenario's file")
}

fn traced(line: &str, arguments: &[&str]) -> Ran {
    run(&[arguments, &[scenario(&format!("{line}.scene")).to_str().expect("a path")]].concat(), b"")
}

#[test]
fn text_is_as_recorded() {
    for line in LINES {
        let expected = Ran { out: recorded(line, "report"), errors: String::new(), status: 1 };
        assert_eq!(traced(line, &[]), expected);
    }
}

#[test]
fn json_is_as_recorded() {
    for line in LINES {
        let expected = Ran { out: recorded(line, "json"), errors: String::new(), status: 1 };
        assert_eq!(traced(line, &["--json"]), expected);
    }
}

/// With colours the report is the same text, and its unaltered ends are highlighted in the signal's line, after each leg and at
/// home.
#[test]
fn colors_highlight_the_unaltered_ends() {
    let tails = [
        ["/Head/Lamp_2.aspect:state", ".position", ".guard[/Mast/Head]"],
        ["/Fej/Lámpa_2.állás:szín", ".helyzet", ".őr[/Oszlop/Fej]"],
    ];
    for (line, tails) in LINES.into_iter().zip(tails) {
        let colored = traced(line, &["--color", "always"]).out;
        assert_eq!(colored.replace(HIGHLIGHT, "").replace(RESET, ""), recorded(line, "report"));
        for tail in tails {
            assert_eq!(colored.matches(&format!("{HIGHLIGHT}{tail}{RESET}\n")).count(), 5, "{colored}");
        }
        assert_eq!(colored.matches(HIGHLIGHT).count(), 15, "{colored}");
    }
}

#[test]
fn standard_input_is_read_too() {
    for line in LINES {
        let text = recorded(line, "scene");
        for arguments in [&[][..], &["-"], &["--", "-"]] {
            assert_eq!(run(arguments, text.as_bytes()), traced(line, &[]), "{arguments:?}");
        }
    }
}

/// The paths of the questions `out PATH => ANSWER` to the program `frames`, as the report writes them, and the answers.
fn asked(questions: &str) -> Vec<(String, &str)> {
    let outs = questions.lines().filter_map(|line| line.strip_prefix("out ")?.split_once(" => "));
    outs.map(|(path, answer)| (path.trim_matches(' ').replace('\u{a0}', "\\u{a0}"), answer)).collect()
}

/// The program `frames` gives the same answers for the same signals, and for the target in brackets as a path of its own.
#[test]
fn the_program_frames_agrees() {
    for line in LINES {
        let (report, questions) = (recorded(line, "report"), recorded(line, "txt"));
        let asked = asked(&questions);
        let mut targets = 0;
        for (signal, answer) in &asked {
            let title = format!(": {signal}");
            let is_trace =
                |part: &&str| part.starts_with("line") && part.lines().next().unwrap().ends_with(&title);
            let Some(trace) = report.split("\n\n").find(is_trace) else {
                assert!(
                    report.contains(&format!(" {signal} itself would come out as {answer}\n")),
                    "{signal}"
                );
                targets += 1;
                continue;
            };
            match answer.strip_prefix("refused ") {
                Some(number) => assert!(trace.contains(&format!(": {number}, ")), "{trace}"),
                None => assert!(trace.contains(&format!("leg 3   {answer}\n")), "{trace}"),
            }
        }
        // Every signal is asked about, and one target.
        assert_eq!((targets, asked.len()), (1, report.matches("\n\nline ").count() + 1));
    }
}
