//! What the original does in each case of docs/DIFFERENCES.md, with the example input given there.

use original::pcp::MapFunction;
use original::pcp::relocates::statuses;
use original::sdf::{LayerOffset, Path};

/// The path of a text; `Path::new` refuses the empty text.
fn path(text: &str) -> Path {
    if text.is_empty() { Path::default() } else { Path::new(text).expect("a path") }
}

fn pairs<const N: usize>(pairs: [(&str, &str); N]) -> Vec<(Path, Path)> {
    pairs.into_iter().map(|(source, target)| (path(source), path(target))).collect()
}

fn text(found: Option<Path>) -> Option<String> {
    found.map(|found| found.as_str().to_owned())
}

fn some(text: &str) -> Option<String> {
    Some(text.to_owned())
}

#[test]
fn paths() {
    assert!(path("/").has_prefix(&path("")));
    assert_eq!(text(path("/A").replace_prefix(&path("/B"), &path("/C"))), None);
    assert_eq!((text(path("/").parent()), text(path("").parent())), (None, None));
    assert_eq!(path("/A{v=p}.b").prim_path().as_str(), "/A{v=p}");
    assert_eq!(path("/A.b").element_count(), 1);
    assert!(Path::new("").is_err());
    assert_eq!(path("/A{v=p}B").strip_variant_selections().as_str(), "/A/B");
}

/// Characters that are in neither of Unicode's XID classes are accepted too, but no white space and no controls.
#[test]
fn names_outside_ascii() {
    for legal_there in ["/é", "/A.é", "/A{é=p}", "/€", "/\u{200B}"] {
        assert!(Path::new(legal_there).is_ok(), "{legal_there}");
    }
    for illegal_there_too in ["/\u{85}", "/A\u{A0}", "/A\u{3000}B"] {
        assert!(Path::new(illegal_there_too).is_err(), "{illegal_there_too}");
    }
}

/// A variant, too, may have such characters; the grammar of the requirements has only ASCII there.
#[test]
fn variants_outside_ascii() {
    assert!(Path::new("/A{v=é}").is_ok());
}

#[test]
fn texts_beyond_the_grammar() {
    for legal_there in ["/A{v=}", "/A.b.c", "A"] {
        assert!(Path::new(legal_there).is_ok(), "{legal_there}");
    }
}

/// Of paths in brackets `Path::new` accepts more than the grammar: something after the bracket, a relative path, and more than
/// four brackets, up to a limit of its own.
#[test]
fn brackets_beyond_the_grammar() {
    for legal_there in ["/A.r[/T].x", "/A.r[/T][/U]", "/A.r[T]", "/A.r[/B.s[/C.t[/D.u[/E.v[/F]]]]]"] {
        assert!(Path::new(legal_there).is_ok(), "{legal_there}");
    }
    let nested = |depth| format!("{}/{}", "/A.r[".repeat(depth), "]".repeat(depth));
    assert!(Path::new(&nested(64)).is_ok());
    assert!(Path::new(&nested(65)).is_err());
    for illegal_there_too in ["/A.r[]", "/A[/C]", "/A{v=p}[/C]", "/A.r[/T", "/A.r[/T]]"] {
        assert!(Path::new(illegal_there_too).is_err(), "{illegal_there_too}");
    }
}

/// The name and the prim of a path with brackets are not split, although it has a property.
#[test]
fn a_path_with_brackets_is_not_split() {
    assert_eq!(path("/A.r[/T]").split_property(), None);
    assert_eq!(path("/A.r[/T]").prim_path().as_str(), "/A");
    assert!(path("/A.r").split_property().is_some());
}

/// A bracket is no boundary: the parent of a path with brackets is not a prefix of it.
#[test]
fn the_parent_of_a_path_with_brackets_is_no_prefix() {
    let target = path("/A.r[/T]");
    assert_eq!(text(target.parent()), some("/A.r"));
    assert!(!target.has_prefix(&path("/A.r")));
    assert_eq!(text(target.replace_prefix(&path("/A.r"), &path("/X.s"))), None);
}

/// Replacing a prefix leaves the target, which is no element of the path; without a target there is none to be had, and of two it is
/// the first.
#[test]
fn targets_are_left_and_not_counted() {
    let replaced = path("/A.r[/A]").replace_prefix(&path("/A"), &path("/B"));
    assert_eq!(text(replaced), some("/B.r[/A]"));
    assert_eq!(path("/A.r[/T]").element_count(), 1);
    assert_eq!(text(path("/A").embedded_target()), None);
    assert_eq!(text(path("/A.r[/T].x[/U]").embedded_target()), some("/T"));
}

/// Selections in brackets are not the path's own; the comment on `components` says of stripping that it removes them too.
#[test]
fn stripping_leaves_selections_in_brackets() {
    assert_eq!(path("/A{v=p}.r[/T{w=q}]").strip_variant_selections().as_str(), "/A.r[/T{w=q}]");
    assert!(!path("/A.r[/T{w=q}]").has_variant_selection());
}

/// The target that is put in brackets is not checked.
#[test]
fn replaced_targets_are_not_checked() {
    let replaced = |target: &str| text(path("/A.r[/T]").replace_embedded_target(&path(target)));
    assert_eq!(replaced(""), some("/A.r[]"));
    let four = "/B.s[/C.t[/D.u[/E.v[/F]]]]";
    assert_eq!(replaced(four), some(&format!("/A.r[{four}]")));
}

#[test]
fn illegal_results_are_returned() {
    assert_eq!(text(path("/A.b").replace_prefix(&path("/A"), &path("/"))), some("/.b"));
    let below = path("/B").replace_prefix(&path("/"), &path("/C{v=p}"));
    assert!(text(below).is_some());
    let rebased = MapFunction::from_pair(path("/A"), path("/")).rebased_target(&path(""), &path("/X"));
    assert_eq!(rebased.path_pairs()[0].1.as_str(), "/X/");
}

#[test]
fn maps() {
    let marked = MapFunction::with_exactly(pairs([("/A", "/X")]), true);
    assert_eq!(text(marked.map_source_to_target(&path("/X/y"))), some("/X/y"));
    assert_eq!(text(marked.translate_to_target(&path("/X/y"))), None);
    let one = MapFunction::from_pair(path("/A"), path("/X"));
    assert_eq!(text(one.map_source_to_target(&path("/B"))), None);
    let twice = MapFunction::new(pairs([("/A", "/X"), ("/A", "/Y")]));
    assert_eq!(text(twice.map_source_to_target(&path("/A/c"))), some("/Y/c"));
}

#[test]
fn a_pair_is_dropped_by_its_text() {
    let map = MapFunction::new(pairs([("/A", ""), ("/A/B", "/B")]));
    assert_eq!(map.path_pairs().len(), 1);
    assert_eq!(text(map.map_source_to_target(&path("/A/B"))), None);
}

#[test]
fn a_composed_map_differs_from_the_maps_in_turn() {
    let inner = MapFunction::new(pairs([("/A", "/X"), ("/A/B", "/Y")]));
    let outer = MapFunction::new(pairs([("/X/B/C", "/Z"), ("/Y", "/W")]));
    assert_eq!(text(outer.compose(&inner).map_source_to_target(&path("/A/B/C"))), some("/Z"));
    let there = inner.map_source_to_target(&path("/A/B/C")).expect("a path");
    assert_eq!(text(outer.map_source_to_target(&there)), some("/W/C"));
}

#[test]
fn an_inverse_has_no_time_offset() {
    let map = MapFunction::from_pair(path("/A"), path("/X")).with_time_offset(LayerOffset::new(1.0, 1.0));
    let time = map.inverse().time_offset();
    assert_eq!((time.offset, time.scale), (0.0, 1.0));
}

#[test]
fn offsets() {
    let inverse = |offset, scale| {
        let inverse = LayerOffset::new(offset, scale).inverse();
        (inverse.offset.to_bits(), inverse.scale.to_bits())
    };
    let bits = |offset: f64, scale: f64| (offset.to_bits(), scale.to_bits());
    assert_eq!(inverse(0.0, 0.0), bits(0.0, 1.0));
    assert_eq!(inverse(5.0, 3.0), bits(-1.6666666666666667, 1.0 / 3.0));
    assert_ne!(-5.0 * (1.0 / 3.0), -1.6666666666666667);
    assert_eq!(inverse(0.0, 1.0), bits(-0.0, 1.0));
    assert!(!LayerOffset::new(1e-7, 1.0).is_identity());
}

#[test]
fn relocates() {
    assert_eq!(statuses(&pairs([("/R", "")])), [0]);
    assert_eq!(statuses(&pairs([("/R", "/S")])), [1]);
    assert_eq!(statuses(&pairs([("/", "")])), [0]);
    assert_eq!(statuses(&pairs([("/", ""), ("/R/a", "/R/b")])), [0, 3]);
}
