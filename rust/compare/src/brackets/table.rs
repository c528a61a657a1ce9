//! Cases of what the requirements say about brackets, with the answers that follow from their sentences.

use crate::calls::{
    ELEMENT_COUNT, EMBEDDED_TARGET, HAS_VARIANT_SELECTION, IS_END, NEW, PARENT, PRIM_ELEMENT_COUNT,
    PRIM_PATH, PathCall, SPLIT_PROPERTY, STRIP_VARIANT_SELECTIONS, ancestors, has_prefix,
    replace_embedded_target, replace_prefix,
};
use crate::comparison::Comparison;
use crate::tally::Given;
use crate::text::{Answer, MADE_NOT_LEGAL, MADE_TOO_LONG, NO_PATH, NOT_LEGAL, TOO_LONG, Text, Texts};
use original::sdf::Path;
use texts::MAX_PATH_LEN;

/// A path with brackets, and what the calls for one path give of it.
struct Row {
    path: &'static str,
    parent: &'static str,
    prim_path: &'static str,
    /// The numbers of elements and of names.
    elements: usize,
    names: usize,
    stripped: &'static str,
    target: &'static str,
    ancestors: &'static [usize],
}

const ROWS: &[Row] = &[
    Row {
        path: "/L/S.next[/L/T]",
        parent: "/L/S.next",
        prim_path: "/L/S",
        elements: 2,
        names: 2,
        stripped: "/L/S.next[/L/T]",
        target: "/L/T",
        ancestors: &[15, 9, 4, 2, 1],
    },
    Row {
        path: "/A.r[/]",
        parent: "/A.r",
        prim_path: "/A",
        elements: 1,
        names: 1,
        stripped: "/A.r[/]",
        target: "/",
        ancestors: &[7, 4, 2, 1],
    },
    Row {
        path: "/A{v=p}.r[/T]",
        parent: "/A{v=p}.r",
        prim_path: "/A{v=p}",
        elements: 2,
        names: 1,
        stripped: "/A.r[/T]",
        target: "/T",
        ancestors: &[13, 9, 7, 2, 1],
    },
    Row {
        path: "/A{v=p}B.r[/T{w=q}C]",
        parent: "/A{v=p}B.r",
        prim_path: "/A{v=p}B",
        elements: 3,
        names: 2,
        stripped: "/A/B.r[/T{w=q}C]",
        target: "/T{w=q}C",
        ancestors: &[20, 10, 8, 7, 2, 1],
    },
    Row {
        path: "/A.r[/T{w=q}C]",
        parent: "/A.r",
        prim_path: "/A",
        elements: 1,
        names: 1,
        stripped: "/A.r[/T{w=q}C]",
        target: "/T{w=q}C",
        ancestors: &[14, 4, 2, 1],
    },
    Row {
        path: "/A.r[/B.s[/C.t[/D.u[/E]]]]",
        parent: "/A.r",
        prim_path: "/A",
        elements: 1,
        names: 1,
        stripped: "/A.r[/B.s[/C.t[/D.u[/E]]]]",
        target: "/B.s[/C.t[/D.u[/E]]]",
        ancestors: &[26, 4, 2, 1],
    },
];

const ILLEGAL: &[&str] = &[
    "/A.r[]",
    "/A[/C]",
    "/A{v=p}[/C]",
    "/[/C]",
    "/A.r[T]",
    "/A.r[../T]",
    "/A.r[/T].x",
    "/A.r[/T][/U]",
    "/A.r[/T]/B",
    "/A.r[/T",
    "/A.r/T]",
    "/A.r[/T]]",
    "/A.r[/B.s[C]]",
    "/A.r[/\0]",
    "/A.r[/B.s[/C.t[/D.u[/E.v[/F]]]]]",
];

/// A path, a prefix, and whether it is one. A bracket is no boundary.
const PREFIXES: &[(&str, &str, bool)] = &[
    ("/A.r[/T]", "/A.r[/T]", true),
    ("/A.r[/T]", "/A", true),
    ("/A.r[/T]", "/", true),
    ("/A.r[/T]", "", true),
    ("/A.r[/T]", "/A.r", false),
    ("/A.r[/T]", "/T", false),
    ("/A.r[/T/U]", "/A.r[/T]", false),
    ("/A{v=p}.r[/T]", "/A{v=p}", true),
];

/// A path, an old and a new prefix, and the result.
type Replaced = (&'static str, &'static str, &'static str, Answer<&'static str>);

const REPLACED_PREFIXES: &[Replaced] = &[
    ("/A.r[/T]", "/A", "/X", Ok("/X.r[/T]")),
    ("/A.r[/A]", "/A", "/X", Ok("/X.r[/A]")),
    ("/A{v=p}B.r[/A{v=p}B]", "/A{v=p}", "/X", Ok("/X/B.r[/A{v=p}B]")),
    ("/A/B.r[/T]", "/A", "/", Ok("/B.r[/T]")),
    ("/A.r[/T]", "/A.r", "/X.s", Err(NO_PATH)),
    ("/A.r[/T]", "/A", "/", Err(MADE_NOT_LEGAL)),
    ("/A", "/A", "/X.s[/T]", Ok("/X.s[/T]")),
    ("/A.r[/T]", "/A.r[/T]", "/X", Ok("/X")),
    ("/A/B", "/A", "/X.s[/T]", Err(MADE_NOT_LEGAL)),
    ("/A.r[/T]", "/A", "/X.s[/T]", Err(MADE_NOT_LEGAL)),
    ("/A", "/A", "/X.s[T]", Err(NOT_LEGAL)),
];

/// A path, the new target, and the result.
const REPLACED_TARGETS: &[(&str, &str, Answer<&str>)] = &[
    ("/A.r[/T]", "/U", Ok("/A.r[/U]")),
    ("/A.r[/T]", "/", Ok("/A.r[/]")),
    ("/A.r[/B.s[/C]]", "/U", Ok("/A.r[/U]")),
    ("/A{v=p}.r[/T]", "/U{w=q}.s", Ok("/A{v=p}.r[/U{w=q}.s]")),
    ("/A.r[/T]", "/B.s[/C.t[/D.u[/E]]]", Ok("/A.r[/B.s[/C.t[/D.u[/E]]]]")),
    ("/A.r[/T]", "/B.s[/C.t[/D.u[/E.v[/F]]]]", Err(MADE_NOT_LEGAL)),
    ("/A.r[/T]", "", Err(MADE_NOT_LEGAL)),
    ("/A.r[/T]", "T", Err(NOT_LEGAL)),
    ("/A.r[T]", "/U", Err(NOT_LEGAL)),
    ("/A.r", "/U", Err(NO_PATH)),
    ("/A", "/U", Err(NO_PATH)),
    ("/", "", Err(NO_PATH)),
    ("", "/U", Err(NO_PATH)),
];

pub fn run(comparison: &mut Comparison) {
    for row in ROWS {
        one_path(comparison, row);
    }
    for text in ILLEGAL {
        illegal(comparison, &Text::new(text.as_bytes()));
    }
    prefixes(comparison);
    for (path, target, answer) in REPLACED_TARGETS {
        replaced_target(comparison, path, target, answer.map(str::to_owned));
    }
    for length in MAX_PATH_LEN - 1..=MAX_PATH_LEN + 1 {
        long_paths(comparison, length);
    }
}

fn one_path(comparison: &mut Comparison, row: &Row) {
    let text = &Text::new(row.path.as_bytes());
    let is_path = |call: &PathCall, path: &str| is(&call.expected(text), Ok(path));
    let has_selection = usize::from(row.path != row.stripped);
    let agrees = NEW.expected(text) == Ok(0)
        && IS_END.expected(text) == Ok(0)
        && HAS_VARIANT_SELECTION.expected(text) == Ok(has_selection)
        && ELEMENT_COUNT.expected(text) == Ok(row.elements)
        && PRIM_ELEMENT_COUNT.expected(text) == Ok(row.names)
        && is_path(&PARENT, row.parent)
        && is_path(&PRIM_PATH, row.prim_path)
        && is(&SPLIT_PROPERTY.expected(text), Err(NO_PATH))
        && is_path(&STRIP_VARIANT_SELECTIONS, row.stripped)
        && is_path(&EMBEDDED_TARGET, row.target)
        && ancestors(text).as_deref() == Ok(row.ancestors);
    as_stated(comparison, &Texts(&[text]), agrees);
    comparison.one_text(text);
    comparison.facts(text);
}

fn illegal(comparison: &mut Comparison, text: &Text) {
    as_stated(comparison, &Texts(&[text]), NEW.expected(text) == Err(NOT_LEGAL));
    comparison.one_text(text);
}

fn prefixes(comparison: &mut Comparison) {
    for (path, prefix, answer) in PREFIXES {
        let [path, prefix] = [path, prefix].map(|text| Text::new(text.as_bytes()));
        as_stated(comparison, &Texts(&[&path, &prefix]), has_prefix(&path, &prefix) == Ok(*answer));
        comparison.has_prefix(&path, &prefix);
        comparison.prefix_facts(&path, &prefix);
    }
    for (path, old, new, answer) in REPLACED_PREFIXES {
        let [path, old, new] = [path, old, new].map(|text| Text::new(text.as_bytes()));
        let agrees = is(&replace_prefix(&path, &old, &new), *answer);
        as_stated(comparison, &Texts(&[&path, &old, &new]), agrees);
        comparison.replace_prefix(&path, &old, &new);
    }
}

fn replaced_target(comparison: &mut Comparison, path: &str, target: &str, answer: Answer<String>) {
    let [path, target] = [path, target].map(|text| Text::new(text.as_bytes()));
    let expected = replace_embedded_target(&path, &target);
    let agrees = is(&expected, answer.as_deref().map_err(|number| *number));
    as_stated(comparison, &Texts(&[&path, &target]), agrees);
    comparison.replace_embedded_target(&path, &target);
}

/// Paths with brackets of `length` bytes, and targets that make such paths.
fn long_paths(comparison: &mut Comparison, length: usize) {
    let fits = length <= MAX_PATH_LEN;
    let target = |around: &str| format!("/{}", "T".repeat(length - around.len() - 1));
    let path = format!("/A.r[{}]", target("/A.r[]"));
    let text = &Text::new(path.as_bytes());
    as_stated(comparison, &Texts(&[text]), NEW.expected(text) == if fits { Ok(0) } else { Err(TOO_LONG) });
    comparison.one_text(text);
    replaced_target(comparison, &path, "/", if fits { Ok("/A.r[/]".to_owned()) } else { Err(TOO_LONG) });
    let made = if fits { Ok(path) } else { Err(MADE_TOO_LONG) };
    replaced_target(comparison, "/A.r[/T]", &target("/A.r[]"), made);
    // Too long comes before not legal: the target has four brackets.
    let deep = |length: usize| format!("/{}.s[/C.t[/D.u[/E.v[/F]]]]", "B".repeat(length));
    let deep = deep(length - "/A.r[]".len() - deep(0).len());
    let refused = if fits { MADE_NOT_LEGAL } else { MADE_TOO_LONG };
    replaced_target(comparison, "/A.r[/T]", &deep, Err(refused));
}

/// Returns whether the expected answer is the stated one.
fn is(expected: &Answer<Path>, stated: Answer<&str>) -> bool {
    expected.as_ref().map(|path| path.as_str()).map_err(|number| *number) == stated
}

fn as_stated(comparison: &mut Comparison, given: &dyn Given, agrees: bool) {
    comparison.tally.fact("a case of brackets is answered as stated", given, agrees);
}
