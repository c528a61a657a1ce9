//! The run of the Rattle program that is recorded in crates/frames: the example of docs/REQUIREMENTS.md, every limit, and
//! lines that are not frames. `RECORD=1 cargo test -p frames-original --test recorded_run` writes the two files.

mod common;

use common::{answered, line, pair};
use frames_original::Frame;
use std::path::PathBuf;
use std::{env, fs};

/// The example of docs/REQUIREMENTS.md.
const EXAMPLE: &str = "0100022F4100022F42\n03\n052F412F43\n062F422F43\n052F51\n07\n";
const ITS_ANSWERS: &str = "8100\n8300\n85002F422F43\n86002F412F43\n8506\n870000000001\n";

/// A prim path below `/A` with this many bytes; its last name contains the number.
fn below_a(number: usize, length: usize) -> String {
    let mut text = format!("/A/n{number:02}");
    text.extend(std::iter::repeat_n('n', length - text.len()));
    text
}

/// Lines of 4,096 and 4,097 digits, and lines that are not frames.
fn lines() -> String {
    let most = format!("05{}", "2F".repeat(2_047));
    [
        &most,
        &format!("{most}2"),
        &format!("{most}2F"),
        &format!("{most}{most}{most}"),
        "",
        "0",
        "2",
        "0200",
        "0300",
    ]
    .into_iter()
    .chain([
        "0400",
        "0700",
        "00",
        "08",
        "FF",
        "05 2F41",
        "052F41\r",
        "0100022F4100022F",
        "0100022F4100022F4243",
    ])
    .chain(["01", "01000", "010000", "010000000000", "052f412f43", "052F4G"])
    .map(|line| format!("{line}\n"))
    .collect()
}

/// Paths of 255 and 256 bytes.
fn paths() -> String {
    let ends = [below_a(0, 255), below_a(0, 256)];
    let valid =
        ends.iter().flat_map(|path| [Frame::Out(path.as_bytes()), Frame::Home(path.as_bytes())].map(line));
    let refused = pair(&ends[1], "/B")
        + &pair("/B", &ends[1])
        + &pair("/B.c", "/B")
        + &pair("/B", "/B{v=p}")
        + &pair("B", "/B");
    valid.collect::<String>() + &refused
}

/// 64 pairs of 510 bytes, and one more. Together with the leg of the example, their map leg has 32,644 bytes.
fn pairs() -> String {
    let list = (0..64).map(|number| pair(&below_a(number, 255), &below_a(number, 255).replace('A', "C")));
    list.collect::<String>() + &pair("/A", "/B") + "02\n03\n02\n"
}

/// A list that is one byte too long for a map leg, but has no bytes as a relocate leg; then one that fills the 32,768
/// bytes.
fn bytes() -> String {
    let name = |length: usize| format!("/{}", "n".repeat(length - 1));
    pair(&name(63), &name(62)) + "03\n02\n03\n02\n04\n" + &pair(&name(62), &name(62)) + "03\n"
}

/// Empty lists up to 16 legs and beyond, then a list for which there are neither legs nor bytes left.
fn legs() -> String {
    "03\n04\n".repeat(6) + "03\n04\n" + &pair("/A", "") + "03\n04\n02\n"
}

fn script() -> String {
    let ways = line(Frame::Out(b"/A/x")) + &line(Frame::Home(b"/A/x")) + &line(Frame::Out(b""));
    [EXAMPLE.to_string(), lines(), paths(), pairs(), ways.clone(), bytes(), legs(), ways, "07".to_string()]
        .concat()
}

fn beside_the_program(name: &str) -> PathBuf {
    [env!("CARGO_MANIFEST_DIR"), "../../crates/frames", name].iter().collect()
}

#[test]
fn the_example_comes_first() {
    assert_eq!(answered(EXAMPLE), ITS_ANSWERS);
    assert!(answered(script()).starts_with(ITS_ANSWERS));
}

#[test]
fn each_limit_is_exceeded() {
    let answers = answered(script());
    for number in ["8101", "8102", "8103", "8104", "8305", "8304", "8404", "8501", "8601", "FF09"] {
        assert!(answers.lines().any(|answer| answer == number), "{number}");
    }
}

#[test]
fn the_recorded_run_is_this_script() {
    let script = script();
    for (name, text) in [("stdin", script.clone()), ("stdout", answered(&script))] {
        let file = beside_the_program(name);
        if env::var_os("RECORD").is_some() {
            fs::write(&file, &text).expect("a file beside the program");
        }
        assert_eq!(fs::read_to_string(&file).expect("a recorded file"), text, "{name}");
    }
}
