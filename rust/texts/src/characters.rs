//! Characters outside ASCII, those that names may have and those that they may not, and bytes that are no characters.

use crate::legal::{CONTROLS_AND_WHITE_SPACE, is_name_character_outside_ascii};
use crate::random::Random;
use std::ops::RangeInclusive;

/// The code points of two, three and four bytes, without the first ones of two bytes, which are controls and white space.
const CODE_POINTS: [RangeInclusive<usize>; 3] = [0xA1..=0x7FF, 0x800..=0xFFFF, 0x1_0000..=0x10_FFFF];

/// Characters of names with two, three and four bytes: the first and the last ones, those next to white space and to the
/// surrogates, and a few of different scripts. Some end in the same byte, some begin with the same bytes.
pub const CHOSEN: [&[char]; 3] = [
    &['\u{A1}', '\u{7FF}', 'é', 'è', 'ĩ', 'б'],
    &[
        '\u{800}', '\u{167F}', '\u{1681}', '\u{1FFF}', '\u{200B}', '\u{2027}', '\u{202A}', '\u{202E}',
        '\u{2030}', '\u{205E}', '\u{2060}', '\u{2FFF}', '\u{3001}', '\u{D7FF}', '\u{E000}', '\u{FEFF}',
        '\u{FFFF}', '中', '丩',
    ],
    &['\u{1_0000}', '\u{10_FFFF}', '😀', '𐌰'],
];

/// Bytes that are not UTF-8 after whole characters, whatever follows: for each of the rules of UTF-8 the first and the last ones
/// that break it.
pub const MALFORMED: &[&[u8]] = &[
    // Continuation bytes that continue nothing.
    b"\x80",
    b"\xA9",
    b"\xBF",
    b"\xC3\xA9\xA9",
    // Characters in more bytes than they need, among them `/` and `A`.
    b"\xC0\x80",
    b"\xC0\xAF",
    b"\xC1\x81",
    b"\xC1\xBF",
    b"\xE0\x80\x80",
    b"\xE0\x80\xAF",
    b"\xE0\x81\x81",
    b"\xE0\x83\xA9",
    b"\xE0\x9F\xBF",
    b"\xF0\x80\x80\x80",
    b"\xF0\x80\x80\xAF",
    b"\xF0\x80\x81\x81",
    b"\xF0\x84\xB8\xAD",
    b"\xF0\x8F\xBF\xBF",
    // Surrogates, alone and as a pair.
    b"\xED\xA0\x80",
    b"\xED\xAF\xBF",
    b"\xED\xB0\x80",
    b"\xED\xBF\xBF",
    b"\xED\xA0\xBD\xED\xB8\x80",
    // Numbers above U+10FFFF.
    b"\xF4\x90\x80\x80",
    b"\xF4\xBF\xBF\xBF",
    b"\xF5\x80\x80\x80",
    b"\xF7\xBF\xBF\xBF",
    // Bytes that begin no character.
    b"\xF5",
    b"\xF8\x88\x80\x80\x80",
    b"\xFB\xBF\xBF\xBF\xBF",
    b"\xFC\x84\x80\x80\x80\x80",
    b"\xFD\xBF\xBF\xBF\xBF\xBF",
    b"\xFE",
    b"\xFF",
];

/// Characters of which the last bytes are missing. They are not UTF-8 at the end of a text and before another character.
pub const CUT_OFF: &[&[u8]] = &[
    b"\xC2",
    b"\xC3",
    b"\xDF",
    b"\xE0",
    b"\xE0\xA0",
    b"\xE4",
    b"\xE4\xB8",
    b"\xED",
    b"\xED\x9F",
    b"\xEF",
    b"\xEF\xBF",
    b"\xF0",
    b"\xF0\x90",
    b"\xF0\x90\x80",
    b"\xF0\x9F",
    b"\xF0\x9F\x98",
    b"\xF4",
    b"\xF4\x8F",
    b"\xF4\x8F\xBF",
];

/// A character of names with two, three or four bytes.
pub fn name_character(random: &mut Random, bytes: usize) -> char {
    if random.one_in(2) {
        return *random.pick(CHOSEN[bytes - 2]);
    }
    loop {
        let code_point = random.within(CODE_POINTS[bytes - 2].clone()) as u32;
        if let Some(character) = char::from_u32(code_point).filter(|it| is_name_character_outside_ascii(*it))
        {
            return character;
        }
    }
}

/// A control or white space outside ASCII.
pub fn control_or_white_space(random: &mut Random) -> char {
    let range = random.pick(&CONTROLS_AND_WHITE_SPACE).clone();
    *random.pick(&range.collect::<Vec<_>>())
}

/// Bytes that make a legal text illegal wherever they are inserted.
pub fn wrong_bytes(random: &mut Random) -> Vec<u8> {
    match random.below(4) {
        0 | 1 => control_or_white_space(random).to_string().into_bytes(),
        2 => random.pick(MALFORMED).to_vec(),
        _ => random.pick(CUT_OFF).to_vec(),
    }
}

#[cfg(test)]
mod tests {
    use super::*;

    #[test]
    fn characters_of_names_have_the_given_number_of_bytes() {
        let random = &mut Random::new(1);
        for bytes in 2..=4 {
            for _ in 0..2_000 {
                let character = name_character(random, bytes);
                assert!(is_name_character_outside_ascii(character), "{character:?}");
                assert_eq!(character.len_utf8(), bytes, "{character:?}");
            }
            assert!(CHOSEN[bytes - 2].iter().all(|character| character.len_utf8() == bytes));
        }
    }

    #[test]
    fn every_chosen_character_may_be_in_a_name() {
        for character in CHOSEN.concat() {
            assert!(is_name_character_outside_ascii(character), "{character:?}");
        }
    }

    #[test]
    fn malformed_bytes_are_malformed_anywhere() {
        for bytes in MALFORMED {
            for before in [&b""[..], b"/", "é".as_bytes()] {
                for after in [&b""[..], b"/", b"\xA9", "é".as_bytes()] {
                    let text = [before, bytes, after].concat();
                    assert!(str::from_utf8(&text).is_err(), "{}", text.escape_ascii());
                }
            }
        }
    }

    /// Each of them is the beginning of a character.
    #[test]
    fn cut_off_characters_can_be_completed() {
        for bytes in CUT_OFF {
            let missing = str::from_utf8(bytes).expect_err("not UTF-8").error_len();
            assert_eq!(missing, None, "{}", bytes.escape_ascii());
            for after in [&b""[..], b"/", b".", b"{", b"]", "é".as_bytes()] {
                assert!(str::from_utf8(&[bytes, after].concat()).is_err(), "{}", bytes.escape_ascii());
            }
        }
    }
}
