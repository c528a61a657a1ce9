//! Writes a sample of the answers of the original to files, for comparisons without Rust.
//!
//! The buffers are assumed to be large enough, so no answer is refusal 5.

use crate::calls::{self, NumberCall};
use crate::cases;
use crate::text::{Answer, Text};
use original::sdf::Path;
use std::{fs, io};
use texts::MAX_PATH_LEN;
use texts::random::Random;

type Case = [Vec<u8>; 3];

/// The number of lines in a sample.
const LINES: usize = 600;

/// Writes `PATH OLD NEW` for each case to the file `inputs`, and its 13 answers to the file `answers`.
pub fn write(inputs: &str, answers: &str, seed: u64) -> io::Result<()> {
    let sample = sample(seed);
    let lines = |line: fn(&Case) -> String| sample.iter().map(|case| line(case) + "\n").collect::<String>();
    fs::write(inputs, lines(input_line))?;
    fs::write(answers, lines(answer_line))
}

/// Chosen cases, then random ones.
fn sample(seed: u64) -> Vec<Case> {
    let mut sample = [chosen_cases(), cases_at_the_limit()].concat();
    let random = &mut Random::new(seed);
    while sample.len() < LINES {
        let length = recorded_length(random);
        let case = cases::texts(random, length);
        if case.iter().all(|text| is_writable(text)) && !sample.contains(&case) {
            sample.push(case);
        }
    }
    sample
}

/// Returns whether a text can be written to a line between spaces. The sample is UTF-8.
fn is_writable(text: &[u8]) -> bool {
    let is_visible = |character: char| character.is_ascii_graphic() || !character.is_ascii();
    str::from_utf8(text).is_ok_and(|text| text.chars().all(is_visible))
}

/// Mostly short, so that the sample stays small.
fn recorded_length(random: &mut Random) -> usize {
    if random.one_in(5) { random.within(MAX_PATH_LEN - 3..=MAX_PATH_LEN + 2) } else { random.below(30) }
}

/// The cases of the requirements for paths, and a case for each branch of the definitions.
fn chosen_cases() -> Vec<Case> {
    const CASES: &[[&str; 3]] = &[
        ["/AB", "/A", "/C"],
        ["/A{v=p}B", "/A{v=p}", "/C"],
        ["/A/B", "/A", "/C{v=p}"],
        ["/A{v=p}{w=q}B.c", "/A{v=p}", "/C"],
        ["/A.b", "/A", "/"],
        ["/B", "/", "/C{v=p}"],
        ["", "", ""],
        ["", "", "/C"],
        ["", "/", "/C"],
        ["/", "", ""],
        ["/", "", "/"],
        ["/", "", "/C"],
        ["/", "", "/C{v=p}"],
        ["/", "", "/C.d"],
        ["/", "/", ""],
        ["/", "/", "/C"],
        ["/A", "", ""],
        ["/A", "", "/"],
        ["/A", "", "/C"],
        ["/A", "", "/C{v=p}"],
        ["/A", "", "/C.d"],
        ["/A", "/", ""],
        ["/A", "/", "/"],
        ["/A", "/", "/C"],
        ["/A", "/", "/C.d"],
        ["/A", "/A", ""],
        ["/A", "/A", "/"],
        ["/A", "/A", "/C.d"],
        ["/A", "/A/B", "/C"],
        ["/A/B", "/A", ""],
        ["/A/B", "/A", "/"],
        ["/A/B", "/A", "/C.d"],
        ["/A.b", "/", "/C"],
        ["/A.b", "/A", ""],
        ["/A.b", "/A", "/C"],
        ["/A.b", "/A", "/C{v=p}"],
        ["/A.b", "/A", "/C.d"],
        ["/A.b", "/A.b", "/C"],
        ["/A.b:c", "/A.b", "/C"],
        ["/A.b:c:d", "/A", "/C/D"],
        ["/A.bc", "/A.b", "/C"],
        ["/A{v=p}", "/A", "/"],
        ["/A{v=p}", "/A", ""],
        ["/A{v=p}", "/A", "/C"],
        ["/A{v=p}", "/A", "/C{w=q}"],
        ["/A{v=p}", "/A", "/C.d"],
        ["/A{v=p}", "/A{v=p}", "/C"],
        ["/A{v=p}", "/A{v=q}", "/C"],
        ["/A{v=p}B", "/A{v=p}", ""],
        ["/A{v=p}B", "/A{v=p}", "/"],
        ["/A{v=p}B", "/A{v=p}", "/C{w=q}"],
        ["/A{v=p}B", "/A", "/C"],
        ["/A{v=p}B/D{w=q}E", "/A{v=p}B", "/C"],
        ["/A{v=p}B/D{w=q}E.f:g", "/A{v=p}B/D{w=q}", "/C"],
        ["/A{v=p}{w=q}", "/A{v=p}", "/C"],
        ["/A{v=p}{w=q}{x=1}", "/A{v=p}{w=q}", "/"],
        ["/A{v=p}.b", "/A{v=p}", "/C"],
        ["/A{v=p}.b", "/A{v=p}", "/"],
        ["/A{v=p}/B", "/A{v=p}", "/C"],
        ["/A{v=p}1", "/A{v=p}", "/C"],
        ["/A{v=}", "/A", "/C"],
        ["/A{=p}", "/A", "/C"],
        ["/A{v}", "/A", "/C"],
        ["/A{v=p", "/A", "/C"],
        ["/A{v=p-q}", "/A", "/C"],
        ["/A.b.c", "/A", "/C"],
        ["/L/S.next[/L/T]", "/L", "/M"],
        ["/A.b[/C]", "/A", "/C"],
        ["/A.b[/C]", "/A", "/"],
        ["/A.b[/C]", "/A.b", "/C.d"],
        ["/A.b[/C]", "/A.b[/C]", "/D"],
        ["/A.b[/]", "/", "/D"],
        ["/A{v=p}.b[/C]", "/A{v=p}", "/D"],
        ["/A{v=p}B.b[/C{w=q}D]", "/A{v=p}", "/D"],
        ["/A.b[/C{w=q}]", "/A", "/D{v=p}"],
        ["/A.b[/B.c[/C.d[/D.e[/E]]]]", "/A", "/C"],
        ["/A.b[/B.c[/C.d[/D.e[/E.f[/F]]]]]", "/A", "/C"],
        ["/A", "/A", "/C.d[/E]"],
        ["/A/B", "/A", "/C.d[/E]"],
        ["/A.b[C]", "/A", "/C"],
        ["/A.b[/C].d", "/A", "/C"],
        ["/A.b[/C][/D]", "/A", "/C"],
        ["/A.b[/C", "/A", "/C"],
        ["/A.b[]", "/A", "/C"],
        ["/A[/C]", "/A", "/C"],
        ["/A{v=p}[/C]", "/A", "/C"],
        ["/A.b:", "/A", "/C"],
        ["/A.b::c", "/A", "/C"],
        ["/A.", "/A", "/C"],
        ["/A/", "/A", "/C"],
        ["//A", "/", "/C"],
        ["A", "", "/C"],
        [".", "", "/C"],
        ["..", "", "/C"],
        ["/1", "/", "/C"],
        ["/.b", "/", "/C"],
        ["/{v=p}", "/", "/C"],
        ["/A", "A", "/C"],
        ["/A", "/A", "C"],
        ["/A", "/A/", "/C"],
        ["/A", "/B", "/C/"],
        ["/é", "/", "/C"],
        ["/é/b", "/é", "/中"],
        ["/Aé", "/A", "/C"],
        ["/é", "/è", "/C"],
        ["/A/é", "/A", "/C{v=p}"],
        ["/A{v=p}é/b", "/A{v=p}", "/C"],
        ["/A{v=p}😀.é:б", "/A{v=p}", "/C{w=q}"],
        ["/A{v=p}{é=q}中", "/A{v=p}", "/"],
        ["/A.é[/中/😀]", "/A", "/é"],
        ["/A{v=é}", "/A", "/C"],
        ["/A", "/A", "/C{v=é}"],
        ["/A\u{A0}", "/A", "/C"],
        ["/A/\u{200B}", "/A", "/C"],
        ["/A\u{3000}", "/A", "/C"],
    ];
    CASES.iter().map(|case| case.map(|text| text.as_bytes().to_vec())).collect()
}

/// Paths, joined paths and numbers of ancestors at their limits and just beyond.
fn cases_at_the_limit() -> Vec<Case> {
    let mut cases = Vec::new();
    for length in MAX_PATH_LEN - 1..=MAX_PATH_LEN + 1 {
        for shape in ["/", "/A/", "/A{v=p}", "/A.b:", "/A.b"] {
            let path = padded(shape, length);
            cases.push([path.clone(), b"/A".to_vec(), b"/C".to_vec()]);
            cases.push([b"/A".to_vec(), path.clone(), b"/C".to_vec()]);
            cases.push([b"/A".to_vec(), b"/A".to_vec(), path]);
        }
        for rest in ["/B", ".b", "{v=p}", "{v=p}B"] {
            let path = format!("/A{rest}").into_bytes();
            cases.push([path.clone(), b"/A".to_vec(), padded("/", length - rest.len())]);
            cases.push([path, b"/A".to_vec(), padded("/C.d", length - rest.len())]);
        }
        cases.push([b"/A/B".to_vec(), b"/".to_vec(), padded("/", length - 4)]);
        cases.push([padded(&"/A".repeat(127), length), b"/A".to_vec(), b"/C".to_vec()]);
        cases.push([padded(&("/A".repeat(126) + ".b"), length), b"/A/A".to_vec(), b"/C".to_vec()]);
    }
    // An illegal text and one that is too long: question 1 comes before 2.
    cases.push([b"A".to_vec(), padded("/", MAX_PATH_LEN + 1), b"/C".to_vec()]);
    cases.push([b"/A".to_vec(), b"A".to_vec(), padded("/", MAX_PATH_LEN + 1)]);
    cases
}

/// `prefix` padded with letters to `length` bytes.
fn padded(prefix: &str, length: usize) -> Vec<u8> {
    let mut text = prefix.as_bytes().to_vec();
    text.resize(length, b'x');
    text
}

fn input_line(case: &Case) -> String {
    case.each_ref().map(|text| String::from_utf8_lossy(text)).join(" ")
}

fn answer_line(case: &Case) -> String {
    let [path, old, new] = &case.each_ref().map(|bytes| Text::new(bytes));
    [
        field(calls::NEW.expected(path), |_| String::from("ok")),
        test(&calls::IS_END, path),
        test(&calls::HAS_VARIANT_SELECTION, path),
        field(calls::ELEMENT_COUNT.expected(path), |count| count.to_string()),
        field(calls::PRIM_ELEMENT_COUNT.expected(path), |count| count.to_string()),
        field(calls::has_prefix(path, old), yes_or_no),
        field(calls::replace_prefix(path, old, new), path_text),
        field(calls::PARENT.expected(path), path_text),
        field(calls::PRIM_PATH.expected(path), path_text),
        field(calls::SPLIT_PROPERTY.expected(path), path_text),
        field(calls::SPLIT_PROPERTY.expected(path), |_| property_name(path)),
        field(calls::STRIP_VARIANT_SELECTIONS.expected(path), path_text),
        field(calls::ancestors(path), joined_lengths),
    ]
    .join(" ")
}

/// The text of an answer, or `!` and the number of the refusal.
fn field<T>(answer: Answer<T>, write: impl FnOnce(T) -> String) -> String {
    answer.map_or_else(|number| format!("!{number}"), write)
}

fn test(call: &NumberCall, path: &Text) -> String {
    field(call.expected(path), |value| yes_or_no(value == 1))
}

fn yes_or_no(yes: bool) -> String {
    String::from(if yes { "yes" } else { "no" })
}

fn path_text(path: Path) -> String {
    String::from(if path.is_empty() { "-" } else { path.as_str() })
}

fn property_name(text: &Text) -> String {
    let property = text.path().and_then(Path::split_property);
    property.map_or_else(String::new, |(_, name)| name.to_owned())
}

fn joined_lengths(lengths: Vec<usize>) -> String {
    lengths.iter().map(usize::to_string).collect::<Vec<_>>().join(",")
}
