//! Compares the calls for paths on paths with brackets: cases with their answers, then all texts of small sets, and pairs and
//! triples of smaller sets.

mod table;

use crate::comparison::Comparison;
use crate::exhaustive::{every_byte_everywhere, legal, one_text, pairs, triples};
use crate::phase::phase;
use crate::text::Text;
use texts::enumerate::{all_texts, legal_texts_of_words, texts_near_legal, texts_of_words_near_legal};
use texts::legal::{is_legal, opening_brackets};

/// Enough for every depth, and for one bracket more than allowed.
const WORDS: [&[u8]; 7] = [b"/A.r[", b"/A", b"/", b".r", b"{v=p}", b"[", b"]"];

/// Four deep, with selections inside.
const DEEP: [&[u8]; 2] = [b"/A.r[/B.s[/C.t[/D.u[/E]]]]", b"/A{v=p}.r[/B{w=q}C.s[/]]"];

pub fn run(comparison: &mut Comparison) {
    phase(comparison, "cases of the requirements on brackets", table::run);
    phase(comparison, "every text of at most 7 bytes with brackets", |comparison| {
        all_texts(b"/A.[]", 7, &mut |bytes| one_text(comparison, bytes));
    });
    phase(comparison, "texts near legal ones with brackets", |comparison| {
        texts_near_legal(b"/A.[]", 17, &mut |bytes| one_text(comparison, bytes));
        texts_near_legal(b"/A{}=.[]", 15, &mut |bytes| one_text_with_brackets(comparison, bytes));
        texts_of_words_near_legal(&WORDS, 12, &mut |bytes| alone_and_in_brackets(comparison, bytes));
    });
    phase(comparison, "every byte in every place of legal texts with brackets", |comparison| {
        for text in bracketed(b"/A.[]", 9).iter().map(|text| &text.bytes[..]).chain(DEEP) {
            every_byte_everywhere(comparison, text);
        }
    });
    phase(comparison, "pairs and triples of legal texts with brackets", |comparison| {
        pairs(comparison, &legal(b"/A.[]", 12));
        targets(comparison, &bracketed(b"/A.[]", 10), &legal(b"/A.[]", 10));
        targets(comparison, &of_every_depth(), &of_every_depth());
        triples(comparison, &legal(b"/A.[]", 8));
    });
}

/// Texts without brackets are tried elsewhere.
fn one_text_with_brackets(comparison: &mut Comparison, bytes: &[u8]) {
    if bytes.iter().any(|byte| b"[]".contains(byte)) {
        one_text(comparison, bytes);
    }
}

/// A legal text is tried also as the target of another path, for which it must not be empty and have at most three brackets.
fn alone_and_in_brackets(comparison: &mut Comparison, bytes: &[u8]) {
    one_text(comparison, bytes);
    if is_legal(bytes) {
        one_text(comparison, &[b"/A.r[", bytes, b"]"].concat());
    }
}

/// The legal texts that have brackets.
fn bracketed(alphabet: &[u8], longest: usize) -> Vec<Text> {
    legal(alphabet, longest).into_iter().filter(|text| opening_brackets(&text.bytes) > 0).collect()
}

/// Legal texts with no bracket to four.
fn of_every_depth() -> Vec<Text> {
    legal_texts_of_words(&[b"/A.r[", b"/B", b"/", b"]"], 10).iter().map(|bytes| Text::new(bytes)).collect()
}

fn targets(comparison: &mut Comparison, texts: &[Text], targets: &[Text]) {
    for text in texts {
        for target in targets {
            comparison.replace_embedded_target(text, target);
        }
    }
}
