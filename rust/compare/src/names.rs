//! Compares the calls on names with characters outside ASCII: cases with their answers, every such character wherever a name may
//! stand, sequences of bytes that are UTF-8 or not, all texts of small sets, and random texts, many of them near the limit of
//! length.

pub mod cases;
mod characters;
mod every_call;
mod sequences;
mod table;

use crate::comparison::Comparison;
use crate::exhaustive::{every_byte_everywhere, one_text, pairs, triples};
use crate::phase::phase;
use crate::text::Text;
use texts::enumerate::{legal_texts_of_words, texts_of_words_near_legal};

/// Characters in and outside ASCII, one of them white space, and the beginning of a character.
const WORDS: [&[u8]; 12] = [
    b"/",
    b"A",
    b"1",
    "é".as_bytes(),
    "😀".as_bytes(),
    b"{",
    b"}",
    b"=",
    b".",
    b":",
    "\u{A0}".as_bytes(),
    b"\xC3",
];

/// Texts in which a changed byte is often another character.
const LEGAL: [&str; 6] = ["/é", "/A中", "/😀.é:b", "/A{é=p}", "/A{v=p}中/é", "/A.é[/中]"];

pub fn run(comparison: &mut Comparison) {
    phase(comparison, "cases of the requirements on names", table::run);
    phase(comparison, "every character outside ASCII wherever a name may stand", characters::run);
    phase(comparison, "sequences of bytes that are UTF-8 or not", sequences::run);
    phase(comparison, "bytes that are not UTF-8 in every call", sequences::in_every_call);
    phase(comparison, "texts near legal ones with names outside ASCII", |comparison| {
        texts_of_words_near_legal(&WORDS, 8, &mut |bytes| one_text(comparison, bytes));
    });
    phase(comparison, "every byte in every place of legal texts with names outside ASCII", |comparison| {
        for text in LEGAL {
            every_byte_everywhere(comparison, text.as_bytes());
        }
    });
    phase(comparison, "pairs and triples of legal texts with names outside ASCII", |comparison| {
        // Some names begin or end with the same bytes.
        pairs(comparison, &legal(&["/", "A", "é", "è", "ĩ", ".", "{v=p}"], 5));
        triples(comparison, &legal(&["/", "A", "é", ".", "{v=p}"], 5));
    });
}

/// The legal texts of at most `most` of these words.
fn legal(words: &[&str], most: usize) -> Vec<Text> {
    let words: Vec<&[u8]> = words.iter().map(|word| word.as_bytes()).collect();
    legal_texts_of_words(&words, most).iter().map(|bytes| Text::new(bytes)).collect()
}
