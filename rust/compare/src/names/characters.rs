//! Every character outside ASCII wherever a name may stand, and in variants.

use crate::calls::{self, NEW, PARENT, PathCall, STRIP_VARIANT_SELECTIONS};
use crate::comparison::Comparison;
use crate::tally::{Call, Given};
use crate::text::{Answer, Text, Texts};
use mudvizsor::ffi::paths;
use original::sdf::Path;
use texts::MAX_PATH_LEN;
use texts::legal::is_name_character_outside_ascii;

/// What comes before a character of a name, and after it: it begins or continues the name of a prim, the first or a later name of
/// a property, the name of a variant set, the name of a prim after a selection, and such names in brackets.
const OF_NAMES: [[&str; 2]; 17] = [
    ["/", ""],
    ["/A", ""],
    ["/", "/B"],
    ["/A/B", "C"],
    ["/A.", ""],
    ["/A.b", ""],
    ["/A.b:", ""],
    ["/A.b:c", ":d"],
    ["/A{", "=p}"],
    ["/A{v", "=p}"],
    ["/A{v=p}", ""],
    ["/A{v=p}B", ""],
    ["/A.r[/", "]"],
    ["/A.r[/T", "]"],
    ["/A.r[/T.", "]"],
    ["/A.r[/T{", "=p}]"],
    ["/A.r[/T{v=p}", "]"],
];

/// The same for the variant, which "stays ASCII letters, digits and `_`".
const OF_VARIANTS: [[&str; 2]; 3] = [["/A{v=", "}"], ["/A{v=p", "}"], ["/A.r[/T{v=", "}]"]];

pub fn run(comparison: &mut Comparison) {
    for character in '\u{80}'..=char::MAX {
        let is_of_names = is_name_character_outside_ascii(character);
        for [before, after] in OF_NAMES {
            let text = text(before, character, after);
            is_accepted(comparison, &text, is_of_names);
            original_accepts(comparison, &text, is_of_names);
        }
        for [before, after] in OF_VARIANTS {
            let text = text(before, character, after);
            is_accepted(comparison, &text, false);
            // The original accepts in variants what it accepts in names.
            original_accepts(comparison, &text, is_of_names);
        }
        if is_of_names {
            after_a_selection(comparison, character);
            after_a_prefix(comparison, character);
        }
    }
}

fn text(before: &str, character: char, after: &str) -> Text {
    Text::new(format!("{before}{character}{after}").as_bytes())
}

/// Compares whether the text is legal, and checks that this is as the requirements say.
fn is_accepted(comparison: &mut Comparison, text: &Text, expected: bool) {
    let given = &Texts(&[text]);
    let call = Call { name: NEW.name, given, capacity: None };
    let answer = NEW.expected(text);
    comparison.tally.compare(call, answer, paths::new(&text.bytes), None);
    let name = "a character outside ASCII is accepted as the requirements say";
    comparison.tally.fact(name, given, answer.is_ok() == expected);
}

/// Checks whether `Path::new` accepts the text.
fn original_accepts(comparison: &mut Comparison, text: &Text, expected: bool) {
    let accepts = match text.path() {
        // The path of a text that `Path::new` refuses is the empty one.
        Some(path) => !path.is_empty(),
        None => str::from_utf8(&text.bytes).is_ok_and(|text| Path::new(text).is_ok()),
    };
    let name = "Path::new accepts the characters that the requirements list";
    comparison.tally.fact(name, &Texts(&[text]), accepts == expected);
}

/// "Joins, and stripping after a `}`, take such characters for name characters."
fn after_a_selection(comparison: &mut Comparison, character: char) {
    let path = text("/A{v=p}", character, "/b");
    let stripped = format!("/A/{character}/b");
    one_path(comparison, &STRIP_VARIANT_SELECTIONS, &path, &stripped);
    let [old, new] = ["/A{v=p}", "/C"].map(|text| Text::new(text.as_bytes()));
    let joined = format!("/C/{character}/b");
    replaced(comparison, [&path, &old, &new], &joined);
    one_path(comparison, &PARENT, &text("/A{v=p}", character, ""), "/A{v=p}");
}

/// The name `A` and the character are another name than `A`.
fn after_a_prefix(comparison: &mut Comparison, character: char) {
    let [path, prefix] = [text("/A", character, "/b"), Text::new(b"/A")];
    let expected = calls::has_prefix(&path, &prefix);
    let given = &Texts(&[&path, &prefix]);
    as_stated(comparison, given, expected == Ok(false));
    let call = Call { name: "has_prefix", given, capacity: None };
    let found = paths::has_prefix(&path.bytes, &prefix.bytes);
    comparison.tally.compare(call, expected.map(usize::from), found, None);
}

fn one_path(comparison: &mut Comparison, call: &PathCall, text: &Text, stated: &str) {
    let agrees = is(&call.expected(text), stated);
    as_stated(comparison, &Texts(&[text]), agrees);
    comparison.one_path(call, text, &[MAX_PATH_LEN]);
}

fn replaced(comparison: &mut Comparison, texts: [&Text; 3], stated: &str) {
    let [path, old, new] = texts;
    let expected = calls::replace_prefix(path, old, new);
    let given = &Texts(&texts);
    as_stated(comparison, given, is(&expected, stated));
    let entry = |out: &mut [u8]| paths::replace_prefix(&path.bytes, &old.bytes, &new.bytes, out);
    comparison.path("replace_prefix", given, &[MAX_PATH_LEN], &expected, entry);
}

fn is(expected: &Answer<Path>, stated: &str) -> bool {
    expected.as_ref().is_ok_and(|path| path.as_str() == stated)
}

fn as_stated(comparison: &mut Comparison, given: &dyn Given, agrees: bool) {
    comparison.tally.fact("a character outside ASCII is one of a name", given, agrees);
}
