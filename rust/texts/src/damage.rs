//! Texts with a wrong byte or character, or with wrong brackets.

use crate::characters::wrong_bytes;
use crate::legal::{MAX_BRACKETS, opening_brackets};
use crate::random::Random;

/// Bytes that have a meaning in a path, and a few that have none.
const SPECIAL: &[u8] = b"/{}=.:_A1[]- ";

/// `text` with one byte changed, inserted or deleted, or with a character inserted that is not allowed or not UTF-8; if it has
/// brackets, half of the time with something wrong about these.
pub fn damaged(random: &mut Random, text: &[u8]) -> Vec<u8> {
    if let Some(at) = text.iter().position(|byte| *byte == b'[')
        && random.one_in(2)
    {
        let damage = *random.pick(&OF_BRACKETS);
        return damage(random, &text[..at], &text[at..]);
    }
    if random.one_in(5) { with_a_wrong_character(random, text) } else { with_a_wrong_byte(random, text) }
}

fn with_a_wrong_character(random: &mut Random, text: &[u8]) -> Vec<u8> {
    let (before, after) = text.split_at(random.within(0..=text.len()));
    [before, &wrong_bytes(random), after].concat()
}

fn with_a_wrong_byte(random: &mut Random, text: &[u8]) -> Vec<u8> {
    let byte = any_byte(random);
    if text.is_empty() {
        return vec![byte];
    }
    let at = random.below(text.len());
    match random.below(3) {
        0 => with_byte_changed(text, at, byte),
        1 => with_byte_inserted(text, random.within(0..=text.len()), byte),
        _ => [&text[..at], &text[at + 1..]].concat(),
    }
}

fn any_byte(random: &mut Random) -> u8 {
    if random.one_in(3) { random.below(256) as u8 } else { *random.pick(SPECIAL) }
}

pub fn with_byte_changed(text: &[u8], at: usize, byte: u8) -> Vec<u8> {
    let mut changed = text.to_vec();
    changed[at] = byte;
    changed
}

pub fn with_byte_inserted(text: &[u8], at: usize, byte: u8) -> Vec<u8> {
    let mut longer = text.to_vec();
    longer.insert(at, byte);
    longer
}

/// Damages a path, given as the text before its first bracket and the text from there on.
type Damage = fn(&mut Random, &[u8], &[u8]) -> Vec<u8>;

const OF_BRACKETS: [Damage; 8] = [
    without_a_closing_bracket,
    with_a_closing_bracket_more,
    after_a_prim_or_a_selection,
    with_a_relative_target,
    with_an_empty_target,
    with_five_brackets,
    with_something_after,
    with_a_byte_in_the_brackets,
];

fn without_a_closing_bracket(_: &mut Random, own: &[u8], tail: &[u8]) -> Vec<u8> {
    [own, &tail[..tail.len() - 1]].concat()
}

fn with_a_closing_bracket_more(_: &mut Random, own: &[u8], tail: &[u8]) -> Vec<u8> {
    [own, tail, b"]"].concat()
}

/// The property is missing.
fn after_a_prim_or_a_selection(_: &mut Random, own: &[u8], tail: &[u8]) -> Vec<u8> {
    let dot = own.iter().position(|byte| *byte == b'.').unwrap_or(own.len());
    [&own[..dot], tail].concat()
}

/// The slash after the first bracket is missing.
fn with_a_relative_target(_: &mut Random, own: &[u8], tail: &[u8]) -> Vec<u8> {
    let relative = if tail == b"[/]" { b"T]" } else { tail.get(2..).unwrap_or_default() };
    [own, b"[", relative].concat()
}

fn with_an_empty_target(_: &mut Random, own: &[u8], _: &[u8]) -> Vec<u8> {
    [own, b"[]"].concat()
}

/// The path, as the target of as many others as it takes.
fn with_five_brackets(_: &mut Random, own: &[u8], tail: &[u8]) -> Vec<u8> {
    let more = (MAX_BRACKETS + 1).saturating_sub(opening_brackets(tail));
    [&b"/A.r[".repeat(more), own, tail, &b"]".repeat(more)].concat()
}

fn with_something_after(random: &mut Random, own: &[u8], tail: &[u8]) -> Vec<u8> {
    const AFTER: [&[u8]; 6] = [b".x", b"[/U]", b"/B", b"{v=p}", b"B", b"["];
    [own, tail, *random.pick(&AFTER)].concat()
}

/// A byte is inserted after the first bracket, often a zero.
fn with_a_byte_in_the_brackets(random: &mut Random, own: &[u8], tail: &[u8]) -> Vec<u8> {
    let byte = if random.one_in(3) { 0 } else { any_byte(random) };
    let at = own.len() + random.within(1..=tail.len());
    with_byte_inserted(&[own, tail].concat(), at, byte)
}

#[cfg(test)]
mod tests {
    use super::{OF_BRACKETS, with_a_wrong_byte, with_a_wrong_character};
    use crate::generate::{legal_text, length};
    use crate::legal::is_legal;
    use crate::random::Random;

    #[test]
    fn a_wrong_byte_keeps_the_length_within_one_byte() {
        let random = &mut Random::new(1);
        for _ in 0..1_000 {
            let length = with_a_wrong_byte(random, b"/A{v=p}").len();
            assert!((6..=8).contains(&length));
        }
    }

    #[test]
    fn paths_with_wrong_characters_are_not_legal() {
        let random = &mut Random::new(1);
        for _ in 0..5_000 {
            let damaged = with_a_wrong_character(random, "/A{é=p}中.b".as_bytes());
            assert!(!is_legal(&damaged), "{}", damaged.escape_ascii());
        }
    }

    /// All but the last one, after which the text is sometimes legal.
    #[test]
    fn paths_with_wrong_brackets_are_not_legal() {
        let (random, mut tried) = (&mut Random::new(1), 0);
        while tried < 5_000 {
            let length = length(random);
            let text = legal_text(random, length);
            let Some(at) = text.iter().position(|byte| *byte == b'[') else {
                continue;
            };
            tried += 1;
            for damage in &OF_BRACKETS[..OF_BRACKETS.len() - 1] {
                let damaged = damage(random, &text[..at], &text[at..]);
                assert!(!is_legal(&damaged), "{}", damaged.escape_ascii());
            }
        }
    }
}
