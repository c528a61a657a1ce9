//! Each limit: the largest value that is accepted, and one more.

mod common;

use common::{answered, line, pair};
use frames_original::Frame;

/// A prim path of one name with this many bytes.
fn name(length: usize) -> String {
    format!("/{}", "n".repeat(length - 1))
}

/// The answer to the last line.
fn last(input: String) -> String {
    answered(input).lines().last().expect("an answer").to_string()
}

#[test]
fn digits_of_a_line() {
    for (digits, expected) in
        [(4_094, "8501"), (4_096, "8501"), (4_097, "FF09"), (4_098, "FF09"), (99_999, "FF09")]
    {
        let line = format!("05{}", "2F".repeat(digits / 2 - 1)) + &"0".repeat(digits % 2);
        assert_eq!(line.len(), digits);
        assert_eq!(answered(&line), format!("{expected}\n"), "{digits}");
        assert_eq!(answered(format!("{line}\n07\n")), format!("{expected}\n870000000000\n"), "{digits}");
    }
}

#[test]
fn a_pair_that_fills_the_line() {
    let ends = 2_048 - 5;
    for length in [0, 1, 255, 256, 1_000, ends] {
        let frame = pair(&name(length.max(1))[..length], &name(ends - length + 1)[1..]);
        assert_eq!(frame.len(), 4_097, "with its newline");
        assert_eq!(answered(frame), "8101\n");
    }
}

#[test]
fn bytes_of_a_path() {
    for (length, out, home) in [(254, "00", "00"), (255, "00", "00"), (256, "01", "01")] {
        let path = name(length);
        assert_eq!(&answered(line(Frame::Out(path.as_bytes())))[2..4], out);
        assert_eq!(&answered(line(Frame::Home(path.as_bytes())))[2..4], home);
        assert_eq!(answered(pair(&path, "/A")), format!("81{out}\n"));
        assert_eq!(answered(pair("", &path)), format!("81{out}\n"));
    }
}

#[test]
fn bytes_of_a_resulting_path() {
    for (length, number) in [(253, "00"), (254, "07")] {
        let out = pair("/A", &name(length)) + "03\n" + &line(Frame::Out(b"/A/b"));
        assert_eq!(&last(out)[2..4], number);
        let home = pair(&name(length), "/A") + "03\n" + &line(Frame::Home(b"/A/b"));
        assert_eq!(&last(home)[2..4], number);
    }
}

#[test]
fn a_resulting_path_that_is_not_legal() {
    assert_eq!(last(pair("/A", "/") + "03\n" + &line(Frame::Out(b"/A.b"))), "8508");
    assert_eq!(last(pair("", "/X") + "03\n" + &line(Frame::Home(b"/X.p"))), "8608");
}

#[test]
fn pairs_of_a_list() {
    let list = pair("/R/a", "/R/b").repeat(64);
    let accepted = "8100\n".repeat(64);
    assert_eq!(answered(&list), accepted);
    let statuses = format!("820000{}\n", "02".repeat(63));
    assert_eq!(answered(format!("{list}02\n")), accepted.clone() + &statuses);
    let one_more = list.clone() + &pair("/R/c", "/R/d") + "02\n03\n" + &pair("/R/c", "/R/d");
    assert_eq!(answered(one_more), accepted + "8104\n" + &statuses + "8300\n8100\n");
    assert_eq!(last(list.clone() + &pair("/R.c", "")), "8103", "question 3 comes before 4");
    assert_eq!(last(list.clone() + &pair("/R/", "")), "8102", "question 2 comes before 4");
    assert_eq!(last(list + &pair(&name(256), "")), "8101", "question 1 comes before 4");
}

#[test]
fn legs_of_a_route() {
    for [kind, other] in [["03", "04"], ["04", "03"]] {
        let legs = format!("{kind}\n").repeat(16);
        let accepted = format!("8{}00\n", &kind[1..]).repeat(16);
        assert_eq!(answered(&legs), accepted);
        let one_more = legs + &format!("{kind}\n{other}\n") + &pair("/R/a", "/R/b") + "03\n04\n02\n";
        let refused = format!("8{}04\n8{}04\n8100\n8304\n8404\n820000\n", &kind[1..], &other[1..]);
        assert_eq!(answered(one_more), accepted + &refused);
    }
}

/// A leg of 64 pairs of 510 bytes, 32,640 in all, and a leg with the rest of the bytes.
fn legs_of(bytes: usize, close: &str) -> String {
    let full = pair(&name(255), &name(255)).repeat(64) + "03\n";
    let rest = bytes - 64 * 510;
    full + &pair(&format!("/R{}", name(rest - 2)), "") + close + "\n"
}

#[test]
fn bytes_over_all_legs() {
    for close in ["03", "04"] {
        let digit = &close[1..];
        assert_eq!(last(legs_of(32_768, close)), format!("8{digit}00"));
        assert_eq!(last(legs_of(32_769, close)), format!("8{digit}05"));
        assert_eq!(last(legs_of(32_768, close) + "03\n"), "8300", "an empty list fits");
        assert_eq!(last(legs_of(32_768, close) + &pair("/", "") + "03\n"), "8305");
        assert_eq!(last(legs_of(32_767, close) + &pair("/", "") + "03\n"), "8300");
    }
}

#[test]
fn root_pairs_of_a_map_count_but_the_added_one_does_not() {
    let roots = legs_of(32_764, "03") + &pair("/", "/") + &pair("/", "/");
    assert_eq!(last(roots.clone() + "03\n"), "8300");
    assert_eq!(last(roots.clone() + &pair("/", "") + "03\n"), "8305");
    assert_eq!(last(legs_of(32_768, "03") + "04\n"), "8400");
}

#[test]
fn a_list_refused_as_a_map_may_close_as_relocates() {
    let structural = pair("/R", &name(200));
    let input = legs_of(32_700, "03") + &structural + "03\n02\n04\n02\n03\n";
    let found = answered(input);
    let answers: Vec<&str> = found.lines().collect();
    assert_eq!(answers[answers.len() - 5..], ["8305", "820001", "8400", "8200", "8300"]);
}

#[test]
fn the_number_of_legs_is_checked_before_their_bytes() {
    let input = legs_of(32_768, "03") + &"03\n".repeat(14) + &pair("/R/a", "/R/b") + "03\n04\n";
    let found = answered(input);
    let answers: Vec<&str> = found.lines().collect();
    assert_eq!(answers[answers.len() - 2..], ["8304", "8404"]);
}
