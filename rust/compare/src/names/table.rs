//! Cases of what the requirements say about names outside ASCII, with the answers that follow from their sentences.

use crate::calls::{
    ELEMENT_COUNT, EMBEDDED_TARGET, IS_END, PARENT, PRIM_ELEMENT_COUNT, PRIM_PATH, PathCall, SPLIT_PROPERTY,
    STRIP_VARIANT_SELECTIONS, ancestors, has_prefix, replace_embedded_target, replace_prefix,
};
use crate::comparison::Comparison;
use crate::names::every_call::every_call;
use crate::tally::Given;
use crate::text::{Answer, MADE_NOT_LEGAL, MADE_TOO_LONG, NO_PATH, NOT_LEGAL, TOO_LONG, Text, Texts};
use original::sdf::Path;
use texts::MAX_PATH_LEN;

/// A path, and what a call gives of it.
type Row = (&'static str, PathCall, Answer<&'static str>);

const ROWS: [Row; 17] = [
    ("/é", PARENT, Ok("/")),
    ("/A/é", PARENT, Ok("/A")),
    ("/é/A", PARENT, Ok("/é")),
    ("/A{v=p}é", PARENT, Ok("/A{v=p}")),
    ("/é.中", PARENT, Ok("/é")),
    ("/é.中[/é]", PARENT, Ok("/é.中")),
    ("/é{中=p}.b", PRIM_PATH, Ok("/é{中=p}")),
    ("/é{中=p}", PRIM_PATH, Ok("/é")),
    ("/é.中:😀", SPLIT_PROPERTY, Ok("/é")),
    ("/é", SPLIT_PROPERTY, Err(NO_PATH)),
    ("/A{é=p}", STRIP_VARIANT_SELECTIONS, Ok("/A")),
    ("/A{v=p}é", STRIP_VARIANT_SELECTIONS, Ok("/A/é")),
    ("/A{v=p}{w=q}😀.é", STRIP_VARIANT_SELECTIONS, Ok("/A/😀.é")),
    ("/A{v=p}é{w=q}中", STRIP_VARIANT_SELECTIONS, Ok("/A/é/中")),
    ("/A{v=p}.é[/中{w=q}é]", STRIP_VARIANT_SELECTIONS, Ok("/A.é[/中{w=q}é]")),
    ("/A.é[/中]", EMBEDDED_TARGET, Ok("/中")),
    ("/A{v=é}", PARENT, Err(NOT_LEGAL)),
];

const ILLEGAL: [&[u8]; 14] = [
    "é".as_bytes(),
    "/é/".as_bytes(),
    "/A{v=é}".as_bytes(),
    "/A{é}".as_bytes(),
    "/A[/é]".as_bytes(),
    "/\u{80}".as_bytes(),
    "/A\u{9F}".as_bytes(),
    "/A\u{A0}".as_bytes(),
    "/A.\u{3000}".as_bytes(),
    "/A{\u{2028}=p}".as_bytes(),
    b"/\xC3",
    b"/\xA9",
    b"/A\xC0\xAFB",
    b"/A\xED\xA0\x80",
];

/// A path, a prefix, and whether it is one.
const PREFIXES: [(&str, &str, bool); 9] = [
    ("/Aé", "/A", false),
    ("/é", "/", true),
    ("/é", "", true),
    ("/é/b", "/é", true),
    ("/éb", "/é", false),
    ("/é.b", "/é", true),
    ("/é", "/è", false),
    ("/A{v=p}é", "/A{v=p}", true),
    ("/A{v=p}é", "/A", true),
];

/// A path, an old and a new prefix, and the result.
type Replaced = (&'static str, &'static str, &'static str, Answer<&'static str>);

const REPLACED_PREFIXES: [Replaced; 12] = [
    ("/A{v=p}é/b", "/A{v=p}", "/C", Ok("/C/é/b")),
    ("/A{v=p}é/b", "/A{v=p}", "/C{w=q}", Ok("/C{w=q}é/b")),
    ("/A{v=p}é/b", "/A{v=p}", "/", Ok("/é/b")),
    ("/A{v=p}é", "/A{v=p}", "", Ok("/é")),
    ("/A/é", "/A", "/C{w=q}", Ok("/C{w=q}é")),
    ("/A/é", "/A", "/中", Ok("/中/é")),
    ("/é/b", "/é", "/", Ok("/b")),
    ("/é.b", "/é", "/", Err(MADE_NOT_LEGAL)),
    ("/é", "/", "/C", Ok("/C/é")),
    ("/é", "/", "/", Ok("/é")),
    ("/Aé", "/A", "/C", Err(NO_PATH)),
    ("/A", "/A", "/C{v=é}", Err(NOT_LEGAL)),
];

pub fn run(comparison: &mut Comparison) {
    for (path, call, answer) in &ROWS {
        let text = &Text::new(path.as_bytes());
        as_stated(comparison, &Texts(&[text]), is(&call.expected(text), answer.map(str::to_owned)));
        every_call(comparison, text);
    }
    for bytes in ILLEGAL {
        let text = &Text::new(bytes);
        as_stated(comparison, &Texts(&[text]), text.answer() == Err(NOT_LEGAL));
        every_call(comparison, text);
    }
    numbers(comparison);
    prefixes(comparison);
    for length in MAX_PATH_LEN - 1..=MAX_PATH_LEN + 1 {
        long_paths(comparison, length);
    }
}

/// Elements are counted, and lengths are those of bytes.
fn numbers(comparison: &mut Comparison) {
    let text = &Text::new("/é{中=p}😀.é:б[/中/é]".as_bytes());
    let agrees = IS_END.expected(text) == Ok(0)
        && ELEMENT_COUNT.expected(text) == Ok(3)
        && PRIM_ELEMENT_COUNT.expected(text) == Ok(2)
        && ancestors(text).as_deref() == Ok(&[29, 20, 14, 10, 3, 1])
        && IS_END.expected(&Text::new("/é/中".as_bytes())) == Ok(1);
    as_stated(comparison, &Texts(&[text]), agrees);
    every_call(comparison, text);
}

fn prefixes(comparison: &mut Comparison) {
    for (path, prefix, answer) in PREFIXES {
        let [path, prefix] = [path, prefix].map(|text| Text::new(text.as_bytes()));
        as_stated(comparison, &Texts(&[&path, &prefix]), has_prefix(&path, &prefix) == Ok(answer));
        comparison.has_prefix(&path, &prefix);
        comparison.prefix_facts(&path, &prefix);
        comparison.prefix_carried(&path, &prefix);
    }
    for (path, old, new, answer) in REPLACED_PREFIXES {
        replaced_prefix(comparison, [path, old, new], answer.map(str::to_owned));
    }
}

fn replaced_prefix(comparison: &mut Comparison, texts: [&str; 3], answer: Answer<String>) {
    let [path, old, new] = &texts.map(|text| Text::new(text.as_bytes()));
    let agrees = is(&replace_prefix(path, old, new), answer);
    as_stated(comparison, &Texts(&[path, old, new]), agrees);
    comparison.replace_prefix(path, old, new);
}

/// "The 255 limit counts bytes": paths of `length` bytes, and a prefix and a target that make such paths.
fn long_paths(comparison: &mut Comparison, length: usize) {
    let fits = length <= MAX_PATH_LEN;
    let name = |bytes: usize| format!("/{}{}", "x".repeat((bytes - 1) % 2), "é".repeat((bytes - 1) / 2));
    let text = &Text::new(name(length).as_bytes());
    as_stated(comparison, &Texts(&[text]), text.answer().err() == (!fits).then_some(TOO_LONG));
    every_call(comparison, text);
    let limited = |made: String| if fits { Ok(made) } else { Err(MADE_TOO_LONG) };
    let new = name(length - "/é/b".len());
    replaced_prefix(comparison, ["/A{v=p}é/b", "/A{v=p}", &new], limited(format!("{new}/é/b")));
    let target = &Text::new(name(length - "/A.r[]".len()).as_bytes());
    let bracketed = &Text::new(b"/A.r[/T]");
    let expected = replace_embedded_target(bracketed, target);
    let made = limited(format!("/A.r[{}]", name(length - "/A.r[]".len())));
    as_stated(comparison, &Texts(&[bracketed, target]), is(&expected, made));
    comparison.replace_embedded_target(bracketed, target);
}

/// Returns whether the expected answer is the stated one.
fn is(expected: &Answer<Path>, stated: Answer<String>) -> bool {
    expected.as_ref().map(|path| path.as_str().to_owned()).map_err(|number| *number) == stated
}

fn as_stated(comparison: &mut Comparison, given: &dyn Given, agrees: bool) {
    comparison.tally.fact("a case of names is answered as stated", given, agrees);
}
