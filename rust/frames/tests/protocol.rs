//! The example of docs/REQUIREMENTS.md, the syntax of lines and frames, and the state after a refused frame.

mod common;

use common::{answered, line, pair};
use frames_original::{Frame, Run, answers, serve};
use std::io::Read;

const EXAMPLE: [[&str; 2]; 6] = [
    ["0100022F4100022F42", "8100"],
    ["03", "8300"],
    ["052F412F43", "85002F422F43"],
    ["062F422F43", "86002F412F43"],
    ["052F51", "8506"],
    ["07", "870000000001"],
];

fn example(side: usize) -> String {
    EXAMPLE.map(|line| format!("{}\n", line[side])).concat()
}

#[test]
fn the_whole_example() {
    assert_eq!(answered(example(0)), example(1));
}

#[test]
fn digits_of_either_case() {
    assert_eq!(answered(example(0).to_lowercase()), example(1));
    assert_eq!(answered("052f4A\n052F4a\n"), "85002F4A\n85002F4A\n");
}

#[test]
fn the_last_line_may_lack_its_newline() {
    assert_eq!(answered(example(0).trim_end()), example(1));
    assert_eq!(answered("0"), "FF09\n");
}

#[test]
fn empty_inputs_and_empty_lines() {
    assert_eq!(answered(""), "");
    assert_eq!(answered("\n"), "FF09\n");
    assert_eq!(answered("\n\n07\n\n"), "FF09\nFF09\n870000000000\nFF09\n");
}

#[test]
fn other_characters_and_odd_digits() {
    for line in ["07\r", " 07", "07 ", "0x07", "7", "070", "0G", "+7", "\0", "\u{e9}\u{e9}", "07\t"] {
        assert_eq!(answered(format!("{line}\n")), "FF09\n", "{line:?}");
    }
}

#[test]
fn kinds_and_the_bytes_after_them() {
    for kind in 0..=255u8 {
        let expected = match kind {
            2..=4 => format!("{:02X}00\n", kind + 0x80),
            5 | 6 => format!("{:02X}00\n", kind + 0x80),
            7 => "870000000000\n".to_string(),
            _ => "FF09\n".to_string(),
        };
        assert_eq!(answered(format!("{kind:02x}")), expected);
        let expected = if kind == 5 || kind == 6 { format!("8{kind}002F\n") } else { "FF09\n".to_string() };
        assert_eq!(answered(format!("{kind:02x}2f")), expected);
    }
}

#[test]
fn blocks_of_every_size_give_the_same_answers() {
    let overlong = "0".repeat(5_000);
    let input = format!("{}{overlong}\n07\n\n{overlong}", example(0));
    let expected = answers(input.as_bytes());
    for size in 1..=200 {
        let (mut run, mut found) = (Run::default(), Vec::new());
        for block in input.as_bytes().chunks(size) {
            run.process(block, &mut found);
        }
        run.finish(&mut found);
        assert_eq!(found, expected, "blocks of {size} bytes");
    }
}

/// An input that returns one line for each read.
struct OneLinePerRead<'a>(&'a [u8]);

impl Read for OneLinePerRead<'_> {
    fn read(&mut self, block: &mut [u8]) -> std::io::Result<usize> {
        let length = self.0.iter().position(|byte| *byte == b'\n').map_or(self.0.len(), |end| end + 1);
        let (line, rest) = self.0.split_at(length);
        block[..length].copy_from_slice(line);
        self.0 = rest;
        Ok(length)
    }
}

#[test]
fn the_program_gives_the_same_answers() {
    let (input, mut output) = (example(0), Vec::new());
    serve(OneLinePerRead(input.as_bytes()), &mut output).expect("a run");
    assert_eq!(output, example(1).as_bytes());
}

#[test]
fn the_smaller_number_of_two_ends_decides() {
    let long = format!("/{}", "A".repeat(255));
    for (source, target, number) in [
        ("A", &long[..], 1),
        (&long, "/A.b", 1),
        ("/A.b", "A", 2),
        ("/A{v=p}", "/B", 3),
        ("/B", "/A.b", 3),
        ("/B", "/", 0),
        ("", "", 0),
    ] {
        assert_eq!(answered(pair(source, target)), format!("810{number}\n"), "{source} {target}");
        assert_eq!(answered(pair(target, source)), format!("810{number}\n"), "{target} {source}");
    }
}

#[test]
fn a_refused_pair_is_not_in_the_list() {
    let input = pair("/R/a", "/R/b") + &pair("/R/c", "/R.d") + &line(Frame::Statuses);
    assert_eq!(answered(input), "8100\n8103\n820000\n");
}

#[test]
fn statuses_of_the_table() {
    let lists: [(&[[&str; 2]], &str); 4] = [
        (&[["/R", ""]], "00"),
        (&[["/R", "/S"]], "01"),
        (&[["/R/a", "/R/b"], ["/R/c", "/R/b"], ["/R/b", "/R/d"]], "030303"),
        (&[["/R/a/b", "/R/c"], ["/R/c/d", "/R/a"]], "0000"),
    ];
    for (list, statuses) in lists {
        let input: String = list.iter().map(|[source, target]| pair(source, target)).collect();
        let accepted = "8100\n".repeat(list.len());
        assert_eq!(answered(input + "02\n"), format!("{accepted}8200{statuses}\n"));
    }
}

#[test]
fn empty_lists_and_no_legs() {
    assert_eq!(answered("02\n"), "8200\n");
    let paths = line(Frame::Out(b"/A{v=p}B")) + &line(Frame::Home(b"/A{v=p}B"));
    let itself = "2F417B763D707D42";
    assert_eq!(answered(&paths), format!("8500{itself}\n8600{itself}\n"));
    assert_eq!(answered(format!("03\n{paths}")), "8300\n8506\n8606\n");
    assert_eq!(answered(format!("04\n{paths}")), format!("8400\n85002F412F42\n8600{itself}\n"));
    assert_eq!(answered("05\n06\n07\n"), "8500\n8600\n870000000001\n");
}

#[test]
fn a_list_is_emptied_by_its_close() {
    let input = pair("/R/a", "/R/b") + "03\n02\n" + &pair("/R/a", "/R/b") + "04\n02\n";
    assert_eq!(answered(input), "8100\n8300\n8200\n8100\n8400\n8200\n");
}

#[test]
fn legs_are_applied_in_order_and_home_in_reverse() {
    let input = pair("/A", "/B") + "03\n" + &pair("/B/x", "/B/y") + "04\n";
    let paths = line(Frame::Out(b"/A/x/z.p")) + &line(Frame::Home(b"/B/y/z.p")) + &line(Frame::Out(b"/A/y"));
    let expected = "8100\n8300\n8100\n8400\n85002F422F792F7A2E70\n86002F412F782F7A2E70\n8506\n";
    assert_eq!(answered(input + &paths), expected);
}

#[test]
fn only_05_answered_00_is_counted() {
    let input = line(Frame::Out(b"A")) + &line(Frame::Home(b"/A")) + &line(Frame::Out(b"/A")) + "07\n07\n";
    assert_eq!(answered(input), "8502\n86002F41\n85002F41\n870000000001\n870000000001\n");
}

#[test]
fn names_outside_ascii() {
    let input = pair("/é", "/中") + "03\n" + &line(Frame::Out("/é/b".as_bytes()));
    assert_eq!(answered(input.clone()), "8100\n8300\n85002FE4B8AD2F62\n");
    for (frame, expected) in [
        (Frame::Home("/中.б".as_bytes()), "86002FC3A92ED0B1"),
        (Frame::Out("/éb".as_bytes()), "8506"),
        (Frame::Out("/A{v=é}".as_bytes()), "8502"),
        (Frame::Out("/A\u{A0}".as_bytes()), "8502"),
        (Frame::Out(b"/\xC3"), "8502"),
        (Frame::Home(b"/\xC0\xAFA"), "8602"),
        (Frame::Pair { source: b"/\xC3", target: b"/A.b" }, "8102"),
        (Frame::Pair { source: "/A{é=p}".as_bytes(), target: b"" }, "8103"),
    ] {
        assert_eq!(answered(input.clone() + &line(frame)).lines().last(), Some(expected), "{frame:?}");
    }
}

/// The limit counts bytes, and is checked before anything else.
#[test]
fn long_names_outside_ascii() {
    for (bytes, number) in [(255, "00"), (257, "01")] {
        let path = format!("/{}", "é".repeat(bytes / 2));
        assert_eq!(&answered(line(Frame::Out(path.as_bytes())))[2..4], number);
    }
    let malformed = [&b"/"[..], &[0xC3; 255]].concat();
    assert_eq!(answered(line(Frame::Out(&malformed))), "8501\n");
    assert_eq!(answered(line(Frame::Out(&malformed[..255]))), "8502\n");
}
