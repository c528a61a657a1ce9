//! Sequences of bytes that are UTF-8 or not. The reference for what is UTF-8 is `str::from_utf8`.

use crate::calls::NEW;
use crate::comparison::Comparison;
use crate::names::every_call::every_call;
use crate::tally::Call;
use crate::text::{NOT_LEGAL, TOO_LONG, Text, Texts};
use mudvizsor::ffi::paths;
use texts::MAX_PATH_LEN;
use texts::characters::{CUT_OFF, MALFORMED};

/// Bytes at the limits of what may follow in a character, and some of ASCII.
const EDGES: [u8; 16] =
    [b'/', b'A', 0x7F, 0x80, 0x81, 0x8F, 0x90, 0x9F, 0xA0, 0xA9, 0xAF, 0xB8, 0xBF, 0xC0, 0xC3, 0xFF];

/// Short paths into which sequences are put at every position.
const PATHS: [&str; 7] = ["/", "/A", "/A/B", "/A.b:c", "/A{v=p}B", "/A.r[/T]", "/é.中"];

pub fn run(comparison: &mut Comparison) {
    for one in 0..=u8::MAX {
        for two in 0..=u8::MAX {
            at_every_position(comparison, &[one, two]);
            for three in 0..=u8::MAX {
                is_legal(comparison, &[b'/', b'A', one, two, three]);
            }
        }
    }
    for one in 0xE0..=u8::MAX {
        for two in 0..=u8::MAX {
            for three in EDGES {
                for four in EDGES {
                    is_legal(comparison, &[b'/', b'A', one, two, three, four]);
                }
            }
        }
    }
}

fn at_every_position(comparison: &mut Comparison, bytes: &[u8]) {
    for path in PATHS {
        for at in 0..=path.len() {
            is_legal(comparison, &inserted(path, at, bytes));
        }
    }
}

fn inserted(path: &str, at: usize, bytes: &[u8]) -> Vec<u8> {
    let (before, after) = path.as_bytes().split_at(at);
    [before, bytes, after].concat()
}

/// Compares whether the text is legal.
fn is_legal(comparison: &mut Comparison, bytes: &[u8]) {
    let text = Text::new(bytes);
    let call = Call { name: NEW.name, given: &Texts(&[&text]), capacity: None };
    comparison.tally.compare(call, NEW.expected(&text), paths::new(bytes), None);
}

/// "Malformed UTF-8 gets 2", and 1 comes before 2.
pub fn in_every_call(comparison: &mut Comparison) {
    for bytes in MALFORMED.iter().chain(CUT_OFF) {
        for path in PATHS {
            for at in (0..=path.len()).filter(|at| path.is_char_boundary(*at)) {
                let text = inserted(path, at, bytes);
                refused(comparison, &text, NOT_LEGAL);
                let longer = [&text[..], &b"x".repeat(MAX_PATH_LEN + 1 - text.len())].concat();
                refused(comparison, &longer[..MAX_PATH_LEN], NOT_LEGAL);
                refused(comparison, &longer, TOO_LONG);
            }
        }
    }
}

fn refused(comparison: &mut Comparison, bytes: &[u8], number: u8) {
    let text = &Text::new(bytes);
    let agrees = text.answer() == Err(number);
    comparison.tally.fact("what is not UTF-8 is refused with 2, or with 1", &Texts(&[text]), agrees);
    every_call(comparison, text);
}
