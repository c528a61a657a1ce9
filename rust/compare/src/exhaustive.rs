//! Compares the calls for paths on all texts of small sets, and on all pairs and triples of smaller sets.

use crate::brackets;
use crate::comparison::Comparison;
use crate::joins;
use crate::phase::phase;
use crate::text::Text;
use texts::damage::{with_byte_changed, with_byte_inserted};
use texts::enumerate::{all_texts, legal_texts, texts_near_legal};

pub fn run(comparison: &mut Comparison) {
    phase(comparison, "every text of at most 7 bytes", |comparison| {
        all_texts(b"/Ab1{}=.:_", 7, &mut |bytes| one_text(comparison, bytes));
    });
    phase(comparison, "texts near legal ones of at most 14 bytes", |comparison| {
        texts_near_legal(b"/A1{}=.:", 14, &mut |bytes| one_text(comparison, bytes));
    });
    phase(comparison, "every byte in every place of legal texts", |comparison| {
        for text in legal_texts(b"/A{}=.:", 9) {
            every_byte_everywhere(comparison, &text);
        }
    });
    phase(comparison, "pairs of legal texts", |comparison| {
        pairs(comparison, &legal(b"/A1{}=.:", 9));
        pairs(comparison, &legal(b"/A{}=.", 12));
    });
    phase(comparison, "joins with every prefix end and remainder", joins::run);
    phase(comparison, "triples of legal texts", |comparison| {
        triples(comparison, &legal(b"/AB1{}=.:", 5));
        triples(comparison, &legal(b"/A{}=.", 9));
    });
    brackets::run(comparison);
}

pub fn one_text(comparison: &mut Comparison, bytes: &[u8]) {
    let text = Text::new(bytes);
    comparison.one_text(&text);
    comparison.facts(&text);
}

/// Tries every byte in place of each byte of `text`, before each byte, and after the last one.
pub fn every_byte_everywhere(comparison: &mut Comparison, text: &[u8]) {
    for byte in 0..=u8::MAX {
        for at in 0..text.len() {
            one_text(comparison, &with_byte_changed(text, at, byte));
            one_text(comparison, &with_byte_inserted(text, at, byte));
        }
        one_text(comparison, &with_byte_inserted(text, text.len(), byte));
    }
}

pub fn legal(alphabet: &[u8], longest: usize) -> Vec<Text> {
    legal_texts(alphabet, longest).iter().map(|bytes| Text::new(bytes)).collect()
}

pub fn pairs(comparison: &mut Comparison, texts: &[Text]) {
    for text in texts {
        for prefix in texts {
            comparison.has_prefix(text, prefix);
            comparison.prefix_facts(text, prefix);
        }
    }
}

pub fn triples(comparison: &mut Comparison, texts: &[Text]) {
    for text in texts {
        for old in texts {
            for new in texts {
                comparison.replace_prefix(text, old, new);
            }
        }
    }
}
