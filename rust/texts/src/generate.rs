//! Random legal texts, and texts related to a given one.

use crate::MAX_PATH_LEN;
use crate::characters::name_character;
use crate::damage::damaged;
use crate::legal::MAX_BRACKETS;
use crate::random::Random;

const LETTERS: &[u8] = b"abcdefghijklmnopqrstuvwxyzABCDEFGHIJKLMNOPQRSTUVWXYZ_";
const NAME_BYTES: &[u8] = b"abcdefghijklmnopqrstuvwxyzABCDEFGHIJKLMNOPQRSTUVWXYZ_0123456789";

/// The shortest selection is `{a=b}`.
const SHORTEST_SELECTION: usize = 5;

/// The shortest property with a target is `.a[/]`.
const SHORTEST_BRACKETED: usize = 5;

/// A random length for a path: short, or near the limit, or any.
pub fn length(random: &mut Random) -> usize {
    match random.below(5) {
        0 | 1 => random.below(25),
        2 | 3 => random.within(MAX_PATH_LEN - 5..=MAX_PATH_LEN + 5),
        _ => random.below(300),
    }
}

/// How the parts of one text are chosen.
struct Style {
    /// In bytes.
    longest_name: usize,
    /// How many of eight characters of a name are outside ASCII.
    outside_ascii: usize,
    /// How many of four positions that may have a selection have one.
    selections: usize,
    properties: bool,
    /// How many brackets the text may have.
    brackets: usize,
}

impl Style {
    fn any(random: &mut Random) -> Self {
        let names = Style::names_only(random);
        let brackets = if random.one_in(2) { 0 } else { random.within(1..=MAX_BRACKETS) };
        Style { selections: *random.pick(&[0, 1, 3]), properties: true, brackets, ..names }
    }

    fn names_only(random: &mut Random) -> Self {
        let longest_name = *random.pick(&[1, 3, 8, 40]);
        let outside_ascii = *random.pick(&[0, 0, 0, 1, 6]);
        Style { longest_name, outside_ascii, selections: 0, properties: false, brackets: 0 }
    }

    /// A property is the last part of a path, so it must be rare where much is left, unless a target may follow it.
    fn has_property(&self, random: &mut Random, left: usize) -> bool {
        let one_in = match left {
            _ if self.brackets > 0 && left >= SHORTEST_BRACKETED => 3,
            ..20 => 3,
            _ => 40,
        };
        self.properties && left >= 2 && random.one_in(one_in)
    }
}

/// A legal text of exactly `length` bytes; the length limit is not applied.
pub fn legal_text(random: &mut Random, length: usize) -> Vec<u8> {
    let style = Style::any(random);
    continued_in(random, b"", &style, length)
}

/// A prim path of exactly `length` bytes, or `/`, or the empty path.
pub fn end_text(random: &mut Random, length: usize) -> Vec<u8> {
    let style = Style::names_only(random);
    continued_in(random, b"", &style, length)
}

/// A legal text of `length` bytes that starts with `end`, or `end` if that has at least `length` bytes.
pub fn continued(random: &mut Random, end: &[u8], length: usize) -> Vec<u8> {
    let style = Style::any(random);
    continued_in(random, end, &style, length)
}

fn continued_in(random: &mut Random, end: &[u8], style: &Style, length: usize) -> Vec<u8> {
    let mut text = end.to_vec();
    if text.is_empty() && length > 0 {
        text.push(b'/');
    }
    while text.len() < length {
        append_part(random, &mut text, style, length);
    }
    text
}

/// Appends a name, a selection, a property or one more byte of a name, within `length` bytes.
fn append_part(random: &mut Random, text: &mut Vec<u8>, style: &Style, length: usize) {
    let left = length - text.len();
    if text == b"/" {
        append_name(random, text, style, left);
    } else if left >= SHORTEST_SELECTION && random.below(4) < style.selections {
        append_selection(random, text, style, left);
    } else if style.has_property(random, left) {
        append_tail(random, text, style, length);
    } else if text.ends_with(b"}") {
        append_name(random, text, style, left);
    } else if left >= 2 {
        text.push(b'/');
        append_name(random, text, style, left - 1);
    } else {
        text.push(*random.pick(NAME_BYTES));
    }
}

/// Appends a name of at least one byte, and of at most `most`.
fn append_name(random: &mut Random, text: &mut Vec<u8>, style: &Style, most: usize) {
    let end = text.len() + random.within(1..=style.longest_name.min(most));
    append_character(random, text, style, LETTERS, end);
    while text.len() < end {
        append_character(random, text, style, NAME_BYTES, end);
    }
}

/// Appends one of the given bytes, or a character outside ASCII that ends within `end` bytes.
fn append_character(random: &mut Random, text: &mut Vec<u8>, style: &Style, ascii: &[u8], end: usize) {
    let left = end - text.len();
    if left >= 2 && random.below(8) < style.outside_ascii {
        let bytes = random.within(2..=left.min(4));
        text.extend(name_character(random, bytes).to_string().bytes());
    } else {
        text.push(*random.pick(ascii));
    }
}

fn append_selection(random: &mut Random, text: &mut Vec<u8>, style: &Style, left: usize) {
    let most = (left - 3) / 2;
    text.push(b'{');
    append_name(random, text, style, most);
    text.push(b'=');
    for _ in 0..random.within(1..=style.longest_name.min(most)) {
        text.push(*random.pick(NAME_BYTES));
    }
    text.push(b'}');
}

/// Appends a property and, if there may be one and there are enough bytes, mostly a target in brackets. This is the last part
/// of a path, so it fills the text up to `length`.
fn append_tail(random: &mut Random, text: &mut Vec<u8>, style: &Style, length: usize) {
    let left = length - text.len();
    if style.brackets == 0 || left < SHORTEST_BRACKETED || random.one_in(8) {
        return append_property(random, text, style, length);
    }
    // A long target may have brackets itself.
    let longest = left - (SHORTEST_BRACKETED - 1);
    let shortest = if random.one_in(3) { 1 } else { longest.saturating_sub(8).max(1) };
    let target = random.within(shortest..=longest);
    append_property(random, text, style, length - target - 2);
    let inside = Style { brackets: style.brackets - 1, ..*style };
    text.push(b'[');
    text.extend(continued_in(random, b"", &inside, target));
    text.push(b']');
}

/// Appends a property that fills the text up to `length`.
fn append_property(random: &mut Random, text: &mut Vec<u8>, style: &Style, length: usize) {
    text.push(b'.');
    append_name(random, text, style, length - text.len());
    while text.len() < length {
        if length - text.len() >= 2 && random.one_in(2) {
            text.push(b':');
            append_name(random, text, style, length - text.len());
        } else {
            append_character(random, text, style, NAME_BYTES, length);
        }
    }
}

/// The part of `text` before its first bracket; all of it if there is none.
pub fn own_part(text: &[u8]) -> &[u8] {
    text.split(|byte| *byte == b'[').next().unwrap_or_default()
}

/// The prefixes of `text` that end before a separator or after a selection outside brackets, and `text` itself.
pub fn prefixes(text: &[u8]) -> Vec<&[u8]> {
    let mut places: Vec<usize> = (0..own_part(text).len()).filter(|at| is_boundary(text, *at)).collect();
    places.push(text.len());
    places.into_iter().map(|at| &text[..at]).collect()
}

fn is_boundary(text: &[u8], at: usize) -> bool {
    at == 0 || matches!(text[at], b'/' | b'.' | b'{') || text[at - 1] == b'}'
}

/// A candidate for a prefix of `text`: a prefix, or nearly one, or something else.
pub fn prefix_for(random: &mut Random, text: &[u8]) -> Vec<u8> {
    let prefix = random.pick(&prefixes(text)).to_vec();
    match random.below(11) {
        0 => Vec::new(),
        1 => b"/".to_vec(),
        2 => text.to_vec(),
        3 => damaged(random, &prefix),
        4 => text[..random.within(0..=text.len())].to_vec(),
        5 => with_a_character_after(random, &prefix),
        6 => {
            let length = length(random);
            legal_text(random, length)
        }
        7 => own_part(text).to_vec(),
        _ => prefix,
    }
}

/// `text` with one more character of a name.
fn with_a_character_after(random: &mut Random, text: &[u8]) -> Vec<u8> {
    let character = match random.pick(&[1, 1, 2, 3, 4]) {
        1 => char::from(*random.pick(NAME_BYTES)),
        bytes => name_character(random, *bytes),
    };
    [text, character.to_string().as_bytes()].concat()
}

/// A new prefix to replace `old` in `text`. Often the length of the joined text is near the limit.
pub fn new_prefix_for(random: &mut Random, text: &[u8], old: &[u8]) -> Vec<u8> {
    let length = match random.below(8) {
        0 => return Vec::new(),
        1 => return b"/".to_vec(),
        2 => length(random),
        3 | 4 => random.below(25),
        _ => joining_length(random, text, old),
    };
    let new = legal_text(random, length);
    if random.one_in(30) { damaged(random, &new) } else { new }
}

/// A length for which the joined text has 253 to 258 bytes, if that is possible.
fn joining_length(random: &mut Random, text: &[u8], old: &[u8]) -> usize {
    let rest = text.len().saturating_sub(old.len());
    random.within(MAX_PATH_LEN - 2..=MAX_PATH_LEN + 3).saturating_sub(rest)
}

/// A target to replace the one in the brackets of `text`. Often the length of the result is near the limit.
pub fn target_for(random: &mut Random, text: &[u8]) -> Vec<u8> {
    let length = match random.below(8) {
        0 => return Vec::new(),
        1 => return b"/".to_vec(),
        2 => length(random),
        3 | 4 => random.below(25),
        _ => random
            .within(MAX_PATH_LEN - 2..=MAX_PATH_LEN + 3)
            .saturating_sub(own_part(text).len() + b"[]".len()),
    };
    let target = legal_text(random, length);
    if random.one_in(30) { damaged(random, &target) } else { target }
}

#[cfg(test)]
mod tests {
    use super::{continued, end_text, legal_text, length, own_part, prefixes, target_for};
    use crate::MAX_PATH_LEN;
    use crate::legal::{MAX_BRACKETS, is_legal, opening_brackets};
    use crate::random::Random;

    #[test]
    fn generated_texts_are_legal_and_have_the_given_length() {
        let random = &mut Random::new(1);
        for _ in 0..20_000 {
            let length = length(random);
            let text = legal_text(random, length);
            assert!(is_legal(&text), "{}", String::from_utf8_lossy(&text));
            assert_eq!(text.len(), length);
        }
    }

    #[test]
    fn generated_texts_have_any_number_of_brackets_up_to_the_limit() {
        let (random, mut short, mut long) = (&mut Random::new(1), [0; 5], [0; 5]);
        for _ in 0..20_000 {
            let text = legal_text(random, 60);
            short[opening_brackets(&text)] += 1;
            let text = legal_text(random, MAX_PATH_LEN);
            long[opening_brackets(&text)] += 1;
        }
        assert_eq!(short.len(), MAX_BRACKETS + 1);
        assert!(short.iter().chain(&long).all(|texts| *texts > 100), "{short:?} {long:?}");
    }

    /// In short and in long texts there are characters of two, three and four bytes, and some begin the name of a prim, also after
    /// a selection, of a set, of a property and of a prim in brackets.
    #[test]
    fn generated_texts_have_characters_outside_ascii_everywhere() {
        for length in [24, MAX_PATH_LEN] {
            let (random, mut outside, mut found) = (&mut Random::new(1), 0, [0; 8]);
            for _ in 0..5_000 {
                let text = String::from_utf8(legal_text(random, length)).expect("a legal text");
                outside += usize::from(!text.is_ascii());
                let (own, target) = text.split_once('[').unwrap_or((&text, ""));
                let has = |place: char, text: &str| {
                    text.split(place).skip(1).any(|rest| rest.starts_with(|first: char| !first.is_ascii()))
                };
                let bytes = [2, 3, 4].map(|bytes| text.chars().any(|it| it.len_utf8() == bytes));
                let places = ['/', '}', '{', '.'].map(|place| has(place, own));
                for (at, occurs) in bytes.into_iter().chain(places).chain([has('/', target)]).enumerate() {
                    found[at] += usize::from(occurs);
                }
            }
            assert!((1_000..3_000).contains(&outside), "{outside}");
            assert!(found.iter().all(|texts| *texts > 50), "{length}: {found:?}");
        }
    }

    #[test]
    fn results_of_replaced_targets_are_often_near_the_limit() {
        let (random, text, mut near) = (&mut Random::new(1), b"/A.r[/T]", 0);
        for _ in 0..1_000 {
            let length = own_part(text).len() + 2 + target_for(random, text).len();
            near += usize::from(length.abs_diff(MAX_PATH_LEN) <= 3);
        }
        assert!(near > 300, "{near}");
    }

    #[test]
    fn generated_ends_have_names_only_and_extend_to_legal_texts() {
        let random = &mut Random::new(1);
        for _ in 0..20_000 {
            let length = length(random);
            let end = end_text(random, length);
            assert!(is_legal(&end) && !end.iter().any(|byte| b"{.[".contains(byte)));
            assert_eq!(end.len(), length);
            let longer = continued(random, &end, length + 9);
            assert!(is_legal(&longer) && longer.starts_with(&end), "{}", longer.escape_ascii());
            assert_eq!(longer.len(), length + 9);
        }
    }

    #[test]
    fn prefixes_end_at_separators() {
        let expected: [&[u8]; 5] = [b"", b"/A", b"/A{v=p}", b"/A{v=p}B", b"/A{v=p}B.c"];
        assert_eq!(prefixes(b"/A{v=p}B.c"), expected);
        let bracketed: [&[u8]; 3] = [b"", b"/A", b"/A.r[/B/C]"];
        assert_eq!(prefixes(b"/A.r[/B/C]"), bracketed);
    }
}
