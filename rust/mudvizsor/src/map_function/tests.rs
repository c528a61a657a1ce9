//! Tests of maps.

mod longest;

use super::*;
use crate::Refusal;

fn path(text: &str) -> Path {
    Path::new(text).unwrap()
}

fn map(pairs: &[(&str, &str)]) -> MapFunction {
    MapFunction::new(pairs.iter().copied()).unwrap()
}

fn texts(map: &MapFunction) -> Vec<(&str, &str)> {
    map.pairs().map(|(source, target)| (source.as_str(), target.as_str())).collect()
}

/// A prim path of this many bytes.
fn named(first: char, length: usize) -> String {
    format!("/{first}{}", "n".repeat(length - 2))
}

/// Cases of docs/REQUIREMENTS.md.
#[test]
fn plain_mapping() {
    let later = map(&[("/A", "/X"), ("/A", "/Y")]);
    assert_eq!(later.map_source_to_target(&path("/A/c")), Path::new("/Y/c"));
    let dropped = map(&[("/A", ""), ("/A/B", "/B")]);
    assert_eq!(texts(&dropped), [("/A", "")]);
    assert_eq!(dropped.map_source_to_target(&path("/A/B/C")), Err(Refusal::NoPath));
    let to_root = map(&[("/A", "/")]);
    assert_eq!(to_root.map_source_to_target(&path("/A.b")), Err(Refusal::MadeNotLegal));
    assert_eq!(map(&[("/A", "/C")]).map_source_to_target(&path("/AB")), Err(Refusal::NoPath));
}

/// Cases of docs/REQUIREMENTS.md.
#[test]
fn translating() {
    let marked = MapFunction::from_pair_identity("/A", "/X").unwrap();
    assert_eq!(marked.map_source_to_target(&path("/X/y")), Path::new("/X/y"));
    assert_eq!(marked.translate_to_target(&path("/X/y")), Err(Refusal::NoPath));
    let from_empty = MapFunction::from_pair_identity("", "/").unwrap();
    assert_eq!(from_empty.map_source_to_target(&path("/A")), Path::new("/A"));
    assert_eq!(from_empty.map_target_to_source(&path("/A")), Path::new("/A"));
    assert_eq!(from_empty.translate_to_target(&path("/A")), Err(Refusal::NoPath));
}

/// A case of docs/REQUIREMENTS.md: a composed map can differ from the two maps applied in turn.
#[test]
fn composing() {
    let inner = map(&[("/A", "/X"), ("/A/B", "/Y")]);
    let outer = map(&[("/X/B/C", "/Z"), ("/Y", "/W")]);
    let composed = outer.compose(&inner).unwrap();
    assert_eq!(composed.map_source_to_target(&path("/A/B/C")), Path::new("/Z"));
    let there = inner.map_source_to_target(&path("/A/B/C")).unwrap();
    assert_eq!(outer.map_source_to_target(&there), Path::new("/W/C"));
}

/// The checks are made in the order of their numbers, whichever pair comes first.
#[test]
fn checks_in_order() {
    let long = named('A', 256);
    assert_eq!(MapFunction::new([("/A.b", "/X"), ("bad", "/X"), (&long, "/X")]), Err(Refusal::TooLong));
    assert_eq!(MapFunction::new([("/A.b", "/X"), ("bad", "/X")]), Err(Refusal::NotLegal));
    assert_eq!(MapFunction::from_pair("/A", "/X{v=p}"), Err(Refusal::NotAnEnd));
    assert_eq!(MapFunction::from_pair_identity("/A", "bad"), Err(Refusal::NotLegal));
}

/// Names are matched whole, byte by byte: not by their first character, nor by the first byte of a character.
#[test]
fn names_outside_ascii() {
    let some = map(&[("/é", "/Jelző"), ("/A", "/Á/B"), ("/A/é", "")]);
    for (text, expected) in [
        ("/é/ő.ü", Path::new("/Jelző/ő.ü")),
        ("/A{é=p}ß", Path::new("/Á/B{é=p}ß")),
        ("/A/è.ü[/é]", Path::new("/Á/B/è.ü[/é]")),
        ("/A/é", Err(Refusal::NoPath)),
        ("/éA", Err(Refusal::NoPath)),
        ("/Aé", Err(Refusal::NoPath)),
        ("/è", Err(Refusal::NoPath)),
        ("/e\u{301}", Err(Refusal::NoPath)),
    ] {
        assert_eq!(some.map_source_to_target(&path(text)), expected, "{text}");
    }
    assert_eq!(some.translate_to_target_carried(&path("/é/ő.ü")), carried("/Jelző/ő.ü", 3..9));
    assert_eq!(some.map_target_to_source(&path("/Jelző/ő")), Path::new("/é/ő"));
    assert_eq!(texts(&some.inverse()), [("", "/A/é"), ("/Jelző", "/é"), ("/Á/B", "/A")]);
    let composed = map(&[("/Jelző", "/ß/Jelző")]).compose(&some).unwrap();
    assert_eq!(composed.map_source_to_target(&path("/é.ü")), Path::new("/ß/Jelző.ü"));
}

#[test]
fn ends_outside_ascii() {
    for (end, refusal) in [
        ("/A{é=p}", Refusal::NotAnEnd),
        ("/é.ü", Refusal::NotAnEnd),
        ("/A{v=é}", Refusal::NotLegal),
        ("/A\u{3000}", Refusal::NotLegal),
        (&"/é".repeat(86), Refusal::TooLong),
    ] {
        assert_eq!(MapFunction::from_pair("/A", end), Err(refusal), "{end}");
        assert_eq!(MapFunction::new([(end, "/A")]), Err(refusal), "{end}");
    }
}

#[test]
fn at_most_64_pairs() {
    let pairs = |count: usize| (0..count).map(|i| (format!("/A{i}"), format!("/B{i}")));
    let most = MapFunction::new(pairs(MAX_PAIRS)).unwrap();
    assert_eq!(most.pairs().len(), MAX_PAIRS);
    assert_eq!(MapFunction::new(pairs(MAX_PAIRS + 1)), Err(Refusal::TooMany));
    assert_eq!(most.inverse().inverse(), most);
    assert_eq!(most.clone().with_time_offset(LayerOffset::IDENTITY), most);
    let one_more = MapFunction::from_pair_identity("/Q", "/R").unwrap();
    assert_eq!(most.compose(&one_more), Err(Refusal::TooMany));
}

#[test]
fn marks_and_nulls() {
    assert_eq!(map(&[("/", "/")]), MapFunction::identity());
    assert_eq!(map(&[]), MapFunction::null());
    assert_eq!(texts(&MapFunction::from_pair("/", "/").unwrap()), [("/", "/")]);
    assert_eq!(MapFunction::from_pair_identity("/A", "/A").unwrap(), MapFunction::identity());
    assert!(MapFunction::identity().is_noop() && MapFunction::identity().is_identity());
    assert!(!MapFunction::null().is_identity() && !MapFunction::null().path_is_identity());
    assert!(!map(&[("/A", "/B")]).is_noop());
    assert!(MapFunction::null().with_root_identity().is_identity());
}

#[test]
fn time_offsets() {
    let (ten, three) = (LayerOffset::new(10.0, 2.0), LayerOffset::new(1.0, 3.0));
    let (outer, inner) = (map(&[("/B", "/C")]), map(&[("/A", "/B")]).with_time_offset(three));
    let composed = outer.clone().with_time_offset(ten).compose(&inner).unwrap();
    assert_eq!(texts(&composed), [("/A", "/C")]);
    assert_eq!(composed.time_offset(), LayerOffset::new(12.0, 6.0));
    assert_eq!(inner.inverse().time_offset(), LayerOffset::IDENTITY);
    assert_eq!(inner.with_root_identity().time_offset(), three);
    assert!(inner.with_root_identity().with_time_offset(ten).has_root_identity());
    assert_eq!(inner.dropping_source(&path("/A")).unwrap().time_offset(), three);
    let minus_zero = MapFunction::identity().with_time_offset(LayerOffset::new(-0.0, 1.0));
    let time = minus_zero.compose(&outer).unwrap().time_offset();
    assert_eq!(time.to_bits(), LayerOffset::IDENTITY.to_bits());
}

#[test]
fn rebasing_and_deepening() {
    let some = map(&[("/A", "/L/A"), ("/B", "/M")]);
    assert_eq!(texts(&some.rebase_target(&path("/L"), &path("/T")).unwrap()), [("/A", "/T/A"), ("/B", "/M")]);
    let pair = MapFunction::identity().rebase_target(&path("/L"), &path("/T")).unwrap();
    assert!(texts(&pair) == [("/L", "/T")] && pair.has_root_identity());
    assert_eq!(some.rebase_target(&path("/L.p"), &path("/T")), Err(Refusal::NotAnEnd));
    assert_eq!(texts(&some.deepen_to(&path("/A{v=p}x")).unwrap()), [("/B", "/M"), ("/A/x", "/L/A/x")]);
    assert_eq!(some.deepen_to(&path("/A.p")), Err(Refusal::NotAnEnd));
    assert_eq!(some.dropping_source(&path("/A{v=p}")), Err(Refusal::NotAnEnd));
    let below = MapFunction::from_pair("/A", "/").unwrap();
    assert_eq!(below.rebase_target(&Path::empty(), &path("/X")), Err(Refusal::MadeNotLegal));
}

#[test]
fn implied_classes() {
    let class = map(&[("/M/C", "/M/I"), ("/", "/")]);
    let implied = map(&[("/M", "/W/P")]).implied_class(&class).unwrap();
    assert_eq!(implied.map_source_to_target(&path("/W/P/C/x")), Path::new("/W/P/I/x"));
    assert!(implied.has_root_identity());
    assert_eq!(MapFunction::identity().implied_class(&map(&[("/A", "/B")])).unwrap(), map(&[("/A", "/B")]));
}

#[test]
fn many_paths_map_like_single_ones() {
    let some = map(&[("/A", "/X"), ("/A/B", ""), ("/C", "/X/C"), ("/", "/")]);
    let paths: Vec<Path> = ["", "/", "/A/b.c", "/A/B/C", "/C", "/X/C", "/A{v=p}", "/D"].map(path).into();
    for direction in [Direction::Out, Direction::Home, Direction::Translated] {
        let singly: Vec<_> = paths.iter().map(|path| some.map_path(direction, path)).collect();
        assert_eq!(some.map_all(direction, &paths), singly);
    }
}

/// The path in brackets is not mapped, and keeps its selections.
#[test]
fn brackets_are_left() {
    let some = map(&[("/A", "/X"), ("/", "/")]);
    let address = path("/A{v=p}b.r[/A{w=q}.s[/A]]");
    assert_eq!(some.map_source_to_target(&address), Path::new("/X{v=p}b.r[/A{w=q}.s[/A]]"));
    assert_eq!(some.translate_to_target(&address), Path::new("/X/b.r[/A{w=q}.s[/A]]"));
    assert_eq!(some.map_target_to_source(&path("/X.r[/X]")), Path::new("/A.r[/X]"));
    assert_eq!(some.translate_to_target(&path("/Q.r[/A]")), Path::new("/Q.r[/A]"));
    assert_eq!(map(&[("/A", "/")]).map_source_to_target(&path("/A.r[/T]")), Err(Refusal::MadeNotLegal));
    for (source, target) in [("/A.r[/T]", "/X"), ("/A", "/X.r[/T]")] {
        assert_eq!(MapFunction::from_pair(source, target), Err(Refusal::NotAnEnd));
    }
}

/// Brackets belong to the rest. Only a selection before them empties it.
#[test]
fn rests_with_brackets() {
    let marked = MapFunction::from_pair_identity("/A", "/X").unwrap();
    assert_eq!(marked.translate_to_target_carried(&path("/A.r[/A{w=q}]")), carried("/X.r[/A{w=q}]", 2..13));
    assert_eq!(marked.translate_to_target_carried(&path("/A{v=p}.r[/A]")), carried("/X.r[/A]", 0..0));
    assert_eq!(marked.map_target_to_source_carried(&path("/X.r[/X]")), carried("/A.r[/X]", 2..8));
}

/// A result of a call that tells what was carried over.
fn carried(text: &str, rest: std::ops::Range<usize>) -> Result<Carried> {
    Ok(Carried { path: path(text), rest })
}

#[test]
fn rests_of_plain_mapping() {
    let some = map(&[("/A", "/X"), ("/A/B", "/Y"), ("/C", "/"), ("/", "/")]);
    for (text, expected) in [
        ("/A/c.d", carried("/X/c.d", 2..6)),
        ("/A{v=p}c", carried("/X{v=p}c", 2..8)),
        ("/A/B/c", carried("/Y/c", 4..6)),
        ("/A/B", carried("/Y", 4..4)),
        ("/C/d", carried("/d", 2..4)),
        ("/C.d", Err(Refusal::MadeNotLegal)),
        ("/Q/r", carried("/Q/r", 0..4)),
        ("/", carried("/", 0..1)),
        ("", carried("", 0..0)),
    ] {
        assert_eq!(some.map_source_to_target_carried(&path(text)), expected, "{text}");
    }
    assert_eq!(some.map_target_to_source_carried(&path("/X/c.d")), carried("/A/c.d", 2..6));
    assert_eq!(some.map_target_to_source_carried(&path("/X")), carried("/A", 2..2));
}

/// Under the key `/` the rest of a longer path is the whole path.
#[test]
fn rests_under_the_root() {
    let below = MapFunction::from_pair("/", "/X").unwrap();
    assert_eq!(below.map_source_to_target_carried(&path("/a.b")), carried("/X/a.b", 0..4));
    assert_eq!(below.map_source_to_target_carried(&path("/")), carried("/X", 1..1));
    assert_eq!(below.translate_to_target_carried(&path("/a")), carried("/X/a", 0..2));
    let above = below.inverse();
    assert_eq!(above.map_target_to_source_carried(&path("/a.b")), carried("/X/a.b", 0..4));
    assert_eq!(above.map_source_to_target_carried(&path("/X/a")), carried("/a", 2..4));
}

#[test]
fn rests_of_translations() {
    let marked = MapFunction::from_pair_identity("/A", "/X").unwrap();
    for (text, expected) in [
        ("/A/b.c", carried("/X/b.c", 2..6)),
        ("/A", carried("/X", 2..2)),
        ("/Q/r", carried("/Q/r", 0..4)),
        ("/A{v=p}b.c", carried("/X/b.c", 0..0)),
        ("/A/b{v=p}", carried("/X/b", 0..0)),
        ("/Q{v=p}", carried("/Q", 0..0)),
        ("/X/y", Err(Refusal::NoPath)),
    ] {
        assert_eq!(marked.translate_to_target_carried(&path(text)), expected, "{text}");
    }
}

/// The results and the refusals are those of the plain calls, and the rest is the end of both paths unless it is empty.
#[test]
fn carried_results_are_the_plain_ones() {
    let long = named('L', MAX_PATH_LEN);
    let some = map(&[("/A", "/X"), ("/A/B", ""), ("/C", "/X/C"), ("/D", &long), ("/E", "/")]);
    let texts = ["", "/", "/A/b.c", "/A/B/C", "/C", "/X/C", "/A{v=p}", "/D/e", "/E.f", "/E{v=p}f", "/Q"];
    for map in [&some, &some.with_root_identity(), &some.inverse()] {
        for (text, direction) in texts.iter().flat_map(|text| {
            [Direction::Out, Direction::Home, Direction::Translated].map(|direction| (text, direction))
        }) {
            let given = path(text);
            let told = map.map_carried(direction, &given);
            assert_eq!(told.clone().map(|carried| carried.path), map.map_path(direction, &given), "{text}");
            if let Ok(carried) = told {
                assert_eq!(carried.rest_str(), &text[carried.rest.clone()], "{text}");
            }
        }
    }
}
