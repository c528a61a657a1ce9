//! Random texts of characters in and outside ASCII that are mostly not legal, and texts that end around the limit of length.

use crate::MAX_PATH_LEN;
use crate::characters::{name_character, wrong_bytes};
use crate::generate::end_text;
use crate::random::Random;

/// Parts of paths, so that a text of several is sometimes legal.
const PARTS: [&str; 16] =
    ["/", "/A", "/é", "{v=p}", "{é=p}", "{v=é}", ".b", ".é", ":c", ":é", "[/", "]", "B", "é", "1", "_"];

/// A text of `length` bytes that begins with a slash, if it has any: parts of paths, characters of names, now and then a control,
/// white space, bytes that are not UTF-8 or any byte. Its last character may be cut off.
pub fn mixed_text(random: &mut Random, length: usize) -> Vec<u8> {
    let mut text = b"/".to_vec();
    let wrong = *random.pick(&[0, 0, 1, 4]);
    while text.len() < length {
        match random.below(12) {
            0..5 => text.extend(random.pick(&PARTS).bytes()),
            at if at < 5 + wrong => text.extend(wrong_bytes(random)),
            9 if wrong > 0 => text.push(random.below(256) as u8),
            _ => {
                let bytes = random.within(2..=4);
                text.extend(name_character(random, bytes).to_string().bytes());
            }
        }
    }
    text.truncate(length);
    text
}

/// A prim path of 253 to 257 bytes that ends in characters outside ASCII. One in three is cut off at the limit or one byte before
/// or after it, often within a character.
pub fn text_around_the_limit(random: &mut Random) -> Vec<u8> {
    let length = random.within(MAX_PATH_LEN - 2..=MAX_PATH_LEN + 2);
    let ascii = random.within(2..=length - 2);
    let mut text = end_text(random, ascii);
    append_characters(random, &mut text, length);
    if random.one_in(3) {
        text.truncate(random.within(MAX_PATH_LEN - 1..=MAX_PATH_LEN + 1));
    }
    text
}

/// Appends characters of names outside ASCII, up to `length` bytes in all. There must be more than one byte left.
pub fn append_characters(random: &mut Random, text: &mut Vec<u8>, length: usize) {
    while text.len() < length {
        let left = length - text.len();
        // A single byte must not be left.
        let fitting: Vec<usize> = (2..=4).filter(|bytes| left == *bytes || left >= bytes + 2).collect();
        let bytes = *random.pick(&fitting);
        text.extend(name_character(random, bytes).to_string().bytes());
    }
}

#[cfg(test)]
mod tests {
    use super::{mixed_text, text_around_the_limit};
    use crate::MAX_PATH_LEN;
    use crate::legal::is_legal;
    use crate::random::Random;

    #[test]
    fn mixed_texts_have_the_given_length_and_are_legal_illegal_and_malformed() {
        let (random, mut legal, mut malformed) = (&mut Random::new(1), 0, 0);
        for _ in 0..10_000 {
            let length = random.below(12);
            let text = mixed_text(random, length);
            assert_eq!(text.len(), length);
            legal += usize::from(is_legal(&text));
            malformed += usize::from(str::from_utf8(&text).is_err());
        }
        assert!(legal > 1_000 && malformed > 1_000 && legal + malformed < 9_000, "{legal} {malformed}");
    }

    /// Texts of each length are legal and cut off, and the last character of some begins within the limit and ends after it.
    #[test]
    fn characters_cross_the_limit() {
        let (random, mut whole, mut cut, mut crossing) = (&mut Random::new(1), [0; 5], [0; 3], 0);
        for _ in 0..5_000 {
            let text = text_around_the_limit(random);
            match str::from_utf8(&text) {
                Ok(text) => {
                    assert!(is_legal(text.as_bytes()), "{text}");
                    whole[text.len() - (MAX_PATH_LEN - 2)] += 1;
                    crossing +=
                        usize::from(text.len() > MAX_PATH_LEN && !text.is_char_boundary(MAX_PATH_LEN));
                }
                Err(_) => cut[text.len() - (MAX_PATH_LEN - 1)] += 1,
            }
        }
        assert!(whole.iter().chain(&cut).all(|texts| *texts > 100), "{whole:?} {cut:?}");
        assert!(crossing > 500, "{crossing}");
    }
}
