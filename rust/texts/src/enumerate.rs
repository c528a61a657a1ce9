//! Every text over a small alphabet, of bytes or of words.

use crate::legal::{is_legal, opening_brackets};

/// Visits every text over `alphabet` of at most `longest` bytes.
pub fn all_texts(alphabet: &[u8], longest: usize, visit: &mut impl FnMut(&[u8])) {
    extend(&mut Vec::new(), &bytes_of(alphabet), longest, &|_| true, visit);
}

/// Visits every text over `alphabet` of at most `longest` bytes whose proper prefixes can all be extended to a legal text:
/// all legal texts, all their prefixes, and each of these with one more byte that makes it illegal.
pub fn texts_near_legal(alphabet: &[u8], longest: usize, visit: &mut impl FnMut(&[u8])) {
    texts_of_words_near_legal(&bytes_of(alphabet), longest, visit);
}

/// Visits every text of at most `most` of these words, none of them empty, such that the text of all its words but the last
/// one can be extended to a legal text.
pub fn texts_of_words_near_legal(words: &[&[u8]], most: usize, visit: &mut impl FnMut(&[u8])) {
    extend(&mut Vec::new(), words, most, &can_become_legal, visit);
}

/// Returns the legal texts over `alphabet` of at most `longest` bytes.
pub fn legal_texts(alphabet: &[u8], longest: usize) -> Vec<Vec<u8>> {
    legal_texts_of_words(&bytes_of(alphabet), longest)
}

/// Returns the legal texts of at most `most` of these words, none of them empty.
pub fn legal_texts_of_words(words: &[&[u8]], most: usize) -> Vec<Vec<u8>> {
    let mut legal = Vec::new();
    texts_of_words_near_legal(words, most, &mut |text| {
        if is_legal(text) {
            legal.push(text.to_vec());
        }
    });
    legal
}

/// The bytes of an alphabet, each as a word.
fn bytes_of(alphabet: &[u8]) -> Vec<&[u8]> {
    alphabet.chunks(1).collect()
}

/// Visits `text`, and the texts that begin with it and have up to `more` further words.
fn extend(
    text: &mut Vec<u8>,
    words: &[&[u8]],
    more: usize,
    worth_extending: &impl Fn(&[u8]) -> bool,
    visit: &mut impl FnMut(&[u8]),
) {
    visit(text);
    if more == 0 || !worth_extending(text) {
        return;
    }
    for word in words {
        let length = text.len();
        text.extend_from_slice(word);
        extend(text, words, more - 1, worth_extending, visit);
        text.truncate(length);
    }
}

/// Returns whether some suffix makes `text` legal. If any does, one of these does, followed by as many closing brackets as are
/// missing: they complete a name, a selection that was just opened, a set, a selection after its `=`, a selection that
/// lacks only its brace, and a bracket that was just opened.
fn can_become_legal(text: &[u8]) -> bool {
    const SUFFIXES: [&[u8]; 7] = [b"", b"A", b"A=1}", b"=1}", b"1}", b"}", b"/"];
    let closing = text.iter().filter(|byte| **byte == b']').count();
    let missing = b"]".repeat(opening_brackets(text).saturating_sub(closing));
    SUFFIXES.iter().any(|suffix| is_legal(&[text, suffix, &missing].concat()))
}

#[cfg(test)]
mod tests {
    use super::{all_texts, legal_texts, texts_of_words_near_legal};
    use crate::legal::{MAX_BRACKETS, is_legal, opening_brackets};

    #[test]
    fn all_texts_are_visited_once() {
        let mut seen = Vec::new();
        all_texts(b"ab", 2, &mut |text| seen.push(text.to_vec()));
        let expected: [&[u8]; 7] = [b"", b"a", b"aa", b"ab", b"b", b"ba", b"bb"];
        assert_eq!(seen, expected);
    }

    /// The legal texts found by trying all texts.
    fn searched(alphabet: &[u8], longest: usize) -> Vec<Vec<u8>> {
        let mut searched = Vec::new();
        all_texts(alphabet, longest, &mut |text| {
            if is_legal(text) {
                searched.push(text.to_vec());
            }
        });
        searched
    }

    #[test]
    fn no_legal_text_is_missed() {
        for (alphabet, longest) in [(&b"/A1{}=.:"[..], 7), (b"/A.[]", 9)] {
            assert_eq!(legal_texts(alphabet, longest), searched(alphabet, longest));
        }
    }

    #[test]
    fn texts_of_words_reach_every_depth_and_one_bracket_more() {
        let mut found = [false; MAX_BRACKETS + 2];
        texts_of_words_near_legal(&[b"/A.r[", b"/", b"]"], 9, &mut |text| {
            let brackets = opening_brackets(text);
            found[brackets] |= is_legal(text) == (brackets <= MAX_BRACKETS);
        });
        assert_eq!(found, [true; MAX_BRACKETS + 2]);
    }
}
