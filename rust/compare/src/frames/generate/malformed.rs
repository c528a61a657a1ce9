//! Lines that are not frames, for every reason.

use crate::frames::generate::well_formed::any_frame;
use crate::frames::generate::writer::Writer;
use frames_original::Frame;
use frames_original::run::MAX_LINE_LEN;
use texts::random::Random;

/// Turns a good line into a bad one.
type Flaw = fn(&mut Random, Vec<u8>) -> Vec<u8>;

const FLAWS: [Flaw; 14] = [
    bad_digit,
    digit_missing,
    digit_more,
    length_changed,
    cut_short,
    trailing_bytes,
    other_kind,
    empty,
    overlong,
    carriage_return,
    blanks,
    any_bytes,
    digits_of_noise,
    kind_alone,
];

/// Adds good and bad lines. The bad ones must not change the state.
pub fn bad_lines(writer: &mut Writer) {
    for _ in 0..writer.random.within(1..=30) {
        any_frame(writer);
        if writer.random.one_in(2) {
            bad_line(writer);
        }
    }
    writer.frame(Frame::Statuses);
    writer.frame(Frame::Count);
}

fn bad_line(writer: &mut Writer) {
    let good = good_line(writer);
    let flaw = *writer.random.pick(&FLAWS);
    let mut line = flaw(writer.random, good);
    if writer.random.one_in(10) {
        let flaw = *writer.random.pick(&FLAWS);
        line = flaw(writer.random, line);
    }
    line.retain(|byte| *byte != b'\n');
    writer.line(line);
}

fn good_line(writer: &mut Writer) -> Vec<u8> {
    let [source, target] = &writer.any_pair();
    let pair = Frame::Pair { source, target };
    let others = [
        Frame::Statuses,
        Frame::CloseMap,
        Frame::CloseRelocates,
        Frame::Out(source),
        Frame::Home(source),
        Frame::Count,
    ];
    if writer.random.one_in(2) { pair.line() } else { writer.random.pick(&others).line() }
}

/// One byte of the line becomes another one, mostly not a digit.
fn bad_digit(random: &mut Random, mut line: Vec<u8>) -> Vec<u8> {
    let byte = if random.one_in(2) { *random.pick(b"gG@`:/ -x") } else { random.below(256) as u8 };
    if !line.is_empty() {
        let at = random.below(line.len());
        line[at] = byte;
    }
    line
}

fn digit_missing(random: &mut Random, mut line: Vec<u8>) -> Vec<u8> {
    if !line.is_empty() {
        line.remove(random.below(line.len()));
    }
    line
}

fn digit_more(random: &mut Random, mut line: Vec<u8>) -> Vec<u8> {
    line.insert(random.within(0..=line.len()), *random.pick(b"0123456789abcdefABCDEF"));
    line
}

/// One of the first digits after the kind, which are those of the length in a pair, becomes another one.
fn length_changed(random: &mut Random, mut line: Vec<u8>) -> Vec<u8> {
    let at = if random.one_in(2) { 5 } else { random.within(2..=5) };
    if let Some(digit) = line.get_mut(at) {
        *digit = *random.pick(b"0123456789ABCDEF");
    }
    line
}

/// The line lacks some bytes at its end.
fn cut_short(random: &mut Random, mut line: Vec<u8>) -> Vec<u8> {
    line.truncate(2 * random.within(0..=line.len() / 2));
    line
}

fn trailing_bytes(random: &mut Random, line: Vec<u8>) -> Vec<u8> {
    let bytes: &[u8] = if random.one_in(2) { b"00" } else { b"2F41" };
    [&line, bytes].concat()
}

fn other_kind(random: &mut Random, line: Vec<u8>) -> Vec<u8> {
    let rest = line.get(2..).unwrap_or_default();
    let kind = if random.one_in(2) { *random.pick(&[0, 8, 9, 0x10, 0x81, 0xFF]) } else { random.below(256) };
    [format!("{kind:02X}").as_bytes(), rest].concat()
}

fn empty(_: &mut Random, _: Vec<u8>) -> Vec<u8> {
    Vec::new()
}

/// The line exceeds the limit, sometimes also the size of a block. A part of the added digits would be a frame.
fn overlong(random: &mut Random, mut line: Vec<u8>) -> Vec<u8> {
    let length = match random.below(8) {
        0..=3 => MAX_LINE_LEN + random.within(1..=3),
        4..=6 => MAX_LINE_LEN + random.below(10_000),
        _ => random.within(60_000..=140_000),
    };
    let more = length.saturating_sub(line.len());
    line.extend(b"05".iter().cycle().take(more));
    line
}

fn carriage_return(_: &mut Random, line: Vec<u8>) -> Vec<u8> {
    [&line, &b"\r"[..]].concat()
}

fn blanks(random: &mut Random, line: Vec<u8>) -> Vec<u8> {
    let blank: &[u8] = if random.one_in(2) { b" " } else { b"\t" };
    if random.one_in(2) { [blank, &line].concat() } else { [&line, blank].concat() }
}

fn any_bytes(random: &mut Random, _: Vec<u8>) -> Vec<u8> {
    (0..random.below(40)).map(|_| random.below(256) as u8).collect()
}

fn digits_of_noise(random: &mut Random, _: Vec<u8>) -> Vec<u8> {
    (0..random.below(40)).map(|_| *random.pick(b"0123456789ABCDEF")).collect()
}

/// 01 without its ends, or with an incomplete length.
fn kind_alone(random: &mut Random, _: Vec<u8>) -> Vec<u8> {
    random.pick(&[&b"01"[..], b"0100", b"010000", b"01000000", b"0100022F41", b"0100022F4100"]).to_vec()
}
