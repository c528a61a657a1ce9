//! Scripts at each limit: values that are just accepted, and values just beyond the limit.

use crate::frames::generate::flawed;
use crate::frames::generate::well_formed::any_frame;
use crate::frames::generate::writer::Writer;
use frames_original::Frame;
use frames_original::run::MAX_LINE_LEN;
use frames_original::state::{MAX_BYTES, MAX_LEGS, MAX_PAIRS};
use texts::MAX_PATH_LEN;
use texts::generate::end_text;

/// A script at one of the limits, with some frames after it.
pub fn at_a_limit(writer: &mut Writer) {
    match writer.random.below(6) {
        0 => pairs(writer),
        1 => legs(writer),
        2 => bytes_of_maps(writer),
        3 => bytes_of_relocates(writer),
        4 => resulting_paths(writer),
        _ => lines(writer),
    }
    for _ in 0..writer.random.below(10) {
        any_frame(writer);
    }
}

fn pairs(writer: &mut Writer) {
    for _ in 0..writer.random.within(MAX_PAIRS - 1..=MAX_PAIRS + 2) {
        let pair = writer.any_pair();
        writer.pair(pair);
    }
    for _ in 0..writer.random.below(4) {
        flawed::frame(writer);
    }
    writer.frame(Frame::Statuses);
    writer.close_as_any();
}

fn legs(writer: &mut Writer) {
    for _ in 0..writer.random.within(MAX_LEGS - 1..=MAX_LEGS + 2) {
        for _ in 0..writer.random.below(3) {
            let pair = writer.any_pair();
            writer.pair(pair);
        }
        writer.close_as_any();
    }
    writer.frame(Frame::Statuses);
}

/// Approximately the maximum number of bytes of all legs.
fn about_max_bytes(writer: &mut Writer) -> usize {
    MAX_BYTES - 2 + writer.random.below(5)
}

/// Map legs with long ends; with the last list the number of bytes is near the limit.
fn bytes_of_maps(writer: &mut Writer) {
    let mut left = about_max_bytes(writer);
    while left > 0 {
        let source = left.min(writer.random.within(MAX_PATH_LEN - 20..=MAX_PATH_LEN));
        let target = (left - source).min(writer.random.within(MAX_PATH_LEN - 20..=MAX_PATH_LEN));
        let pair = [source, target].map(|length| end_text(writer.random, length));
        writer.pair(pair);
        left -= source + target;
        if writer.open.len() == MAX_PAIRS || left == 0 {
            writer.close(Frame::CloseMap);
        }
    }
    writer.close_as_any();
    if writer.random.one_in(3) {
        legs_and_bytes(writer);
    }
}

/// Empty legs up to the limit, then a list for which there are neither legs nor bytes left.
fn legs_and_bytes(writer: &mut Writer) {
    while writer.legs.len() < MAX_LEGS && writer.close(Frame::CloseMap) {}
    let pair = [end_text(writer.random, MAX_PATH_LEN), Vec::new()];
    writer.pair(pair);
    writer.close_as_any();
}

/// Relocate legs of Active pairs and of structural ones, whose bytes do not count.
fn bytes_of_relocates(writer: &mut Writer) {
    let mut left = about_max_bytes(writer);
    let mut number = 0;
    while left > 0 {
        // Enough bytes are left for one more source.
        let length = if left <= MAX_PATH_LEN { left } else { MAX_PATH_LEN - 20 };
        writer.pair([active_source(number, length), Vec::new()]);
        left -= length;
        number += 1;
        if writer.random.one_in(8) {
            writer.pair([b"/R".to_vec(), b"/S".to_vec()]);
        }
        if writer.open.len() >= MAX_PAIRS - 1 || left == 0 {
            writer.close(Frame::CloseRelocates);
        }
    }
    writer.close_as_any();
}

/// A source of this many bytes (at least 6), or of as many as it takes not to be a prefix of another source.
fn active_source(number: usize, length: usize) -> Vec<u8> {
    let mut source = format!("/R/{}", char::from(b'a' + (number % 26) as u8)).into_bytes();
    source.extend(format!("{number}").into_bytes());
    source.resize(length.max(source.len()), b'x');
    source
}

/// Pairs whose resulting paths have about the maximum length, out and home.
fn resulting_paths(writer: &mut Writer) {
    let long = writer.random.within(MAX_PATH_LEN - 8..=MAX_PATH_LEN);
    let mut pair = [b"/A".to_vec(), end_text(writer.random, long)];
    if writer.random.one_in(2) {
        pair.reverse();
    }
    writer.pair(pair.clone());
    writer.close_as_any();
    let [source, target] = &pair;
    for end in [source, target] {
        for more in 0..=10 {
            let path = [end, &b"/bcdefghijk"[..more]].concat();
            // Sometimes cut off within a character.
            let outside_ascii = [end, &"/é中😀b".as_bytes()[..more]].concat();
            let property = [end, &b".b"[..]].concat();
            let bracketed = [&property, &b"[/T]"[..]].concat();
            for path in [path, outside_ascii, property, bracketed] {
                writer.out(&path);
                writer.home(&path);
            }
        }
    }
}

/// Paths and pairs whose lines have about the maximum length.
fn lines(writer: &mut Writer) {
    for _ in 0..writer.random.within(1..=6) {
        let bytes = MAX_LINE_LEN / 2 - 2 + writer.random.below(4);
        let (source, target) = (vec![b'/'; writer.random.below(bytes - 5)], vec![b'A'; bytes]);
        let rest = bytes - 5 - source.len();
        let path = &target[..bytes - 1];
        let pair = Frame::Pair { source: &source, target: &target[..rest] };
        let mut line = writer.random.pick(&[pair, Frame::Out(path), Frame::Home(path)]).line();
        if writer.random.one_in(4) {
            line.push(*writer.random.pick(b"0\r "));
        }
        writer.line(line);
    }
}
