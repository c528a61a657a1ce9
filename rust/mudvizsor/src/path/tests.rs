//! Tests of path texts.

use super::*;
use std::collections::{BTreeSet, HashSet};

fn path(text: &str) -> Path {
    Path::new(text).unwrap()
}

/// A path with as many brackets as are legal.
const FOUR_DEEP: &str = "/A.r[/B.s[/C.t[/D.u[/E]]]]";

/// A path of one name with this many bytes.
fn named(length: usize) -> String {
    format!("/{}", "n".repeat(length - 1))
}

#[test]
fn legal_and_illegal_texts() {
    for text in ["", "/", "/A", "/_a1/B2", "/A{v=p}", "/A{v=p}{w=q}B.c", "/A.b:c:d", "/A/B{s=1x}.y"] {
        assert_eq!(Path::new(text).unwrap().as_str(), text);
    }
    for text in ["A", "/A/", "//", "/1", "/A.", "/A.b:", "/A{v=}", "/A{v=p}/B", "/.b", "/A b", "/A[x]"] {
        assert_eq!(Path::new(text), Err(Refusal::NotLegal), "{text}");
    }
}

/// Names of prims, properties and variant sets may have characters outside ASCII anywhere, variants may not.
#[test]
fn names_outside_ascii() {
    for text in [
        "/é",
        "/Aé/éA",
        "/Széll_Kálmán_tér/Jelző_12.állás:szín",
        "/A{é=p}",
        "/A{é=p}ß.ő",
        "/A.ő[/Á{é=p}É.ü]",
        "/e\u{301}",
        "/日本/\u{1f68b}",
    ] {
        assert_eq!(Path::new(text).unwrap().as_str(), text);
        assert_eq!(Path::try_from(text.as_bytes()), Path::new(text));
    }
    for text in ["é", "/A{v=é}", "/A{é=pé}", "/A{é=}", "/A{é}", "/é/", "/A.é:", "/A.r[é]", "/1é"] {
        assert_eq!(Path::new(text), Err(Refusal::NotLegal), "{text}");
    }
}

/// Returns whether a character outside ASCII is a control or white space, which no name has.
fn is_excluded(c: char) -> bool {
    let white_space = ['\u{a0}', '\u{1680}', '\u{2028}', '\u{2029}', '\u{202f}', '\u{205f}', '\u{3000}'];
    matches!(c, '\u{80}'..='\u{9f}' | '\u{2000}'..='\u{200a}') || white_space.contains(&c)
}

/// Every character from U+0080 up, at the beginning and in the middle of a name.
#[test]
fn every_character_outside_ascii() {
    for c in '\u{80}'..=char::MAX {
        for text in [format!("/{c}"), format!("/A{c}_")] {
            let expected =
                if is_excluded(c) { Err(Refusal::NotLegal) } else { Ok(Path(text.as_str().into())) };
            assert_eq!(Path::new(&text), expected, "U+{:04X}", u32::from(c));
        }
    }
}

/// Checks the text followed by up to `more` of these bytes: legal exactly if it is UTF-8 without excluded characters.
fn check_bytes(text: &mut Vec<u8>, bytes: &[u8], more: usize) {
    for &byte in bytes {
        text.push(byte);
        let legal = str::from_utf8(text).is_ok_and(|name| !name.contains(is_excluded));
        let refusal = Path::try_from(&text[..]).err();
        assert_eq!(refusal, (!legal).then_some(Refusal::NotLegal), "{}", text.escape_ascii());
        if more > 1 {
            check_bytes(text, bytes, more - 1);
        }
        text.pop();
    }
}

/// All names of up to three bytes outside ASCII, and of four at the ends of the ranges that UTF-8 distinguishes.
#[test]
fn all_short_names_outside_ascii() {
    check_bytes(&mut b"/".to_vec(), &Vec::from_iter(0x80..=0xff), 3);
    let ends =
        b"\x80\x8f\x90\x9f\xa0\xbf\xc0\xc1\xc2\xdf\xe0\xe1\xec\xed\xee\xef\xf0\xf1\xf3\xf4\xf5\xf7\xf8\xff";
    check_bytes(&mut b"/".to_vec(), ends, 4);
}

/// Truncated and overlong sequences, surrogates, numbers above U+10FFFF, bytes that begin no character, a lone continuation.
#[test]
fn malformed_utf8() {
    for bytes in [
        &b"\xc3"[..],
        b"\xe6\x97",
        b"\xf0\x9f\x9a",
        b"\xc3_",
        b"\xe6\x97_",
        b"\xc0\xaf",
        b"\xc1\xbf",
        b"\xe0\x9f\xbf",
        b"\xf0\x8f\xbf\xbf",
        b"\xed\xa0\x80",
        b"\xed\xbf\xbf",
        b"\xf4\x90\x80\x80",
        b"\xf8\x88\x80\x80\x80",
        b"\xff",
        b"\xa9",
        b"\xc3\xa9\xa9",
    ] {
        for text in [
            [b"/".as_slice(), bytes].concat(),
            [b"/A", bytes, b"/B"].concat(),
            [b"/A{v", bytes, b"=p}"].concat(),
        ] {
            assert_eq!(Path::try_from(&text[..]), Err(Refusal::NotLegal), "{}", text.escape_ascii());
        }
    }
    let long = [b"/".as_slice(), &[0xff; 255]].concat();
    assert_eq!(Path::try_from(&long[..]), Err(Refusal::TooLong));
    assert_eq!(Path::try_from(&long[..255]), Err(Refusal::NotLegal));
}

/// No call cuts a character, and a name is no prefix of a longer name.
#[test]
fn parts_outside_ascii() {
    assert_eq!(path("/Á/É").parent(), Path::new("/Á"));
    assert_eq!(path("/A{é=p}ß.ő").strip_variant_selections().as_str(), "/A/ß.ő");
    assert_eq!(path("/A{é=p}ß.ő").prim_path().as_str(), "/A{é=p}ß");
    assert_eq!(path("/Á.ő:ű").split_property(), Ok((path("/Á"), "ő:ű")));
    assert_eq!(path("/Á{é=p}É.ü").element_count(), 3);
    assert!(!path("/Aé").has_prefix(&path("/A")));
    assert!(!path("/\u{e9}").has_prefix(&path("/\u{e8}")));
    assert!(!path("/e\u{301}").has_prefix(&path("/e")));
    assert_eq!(path("/Á/É").rest_start(&path("/Á")), Some(3));
    let lengths: Vec<_> = path("/Á{é=p}É.ü").ancestors().map(|each| each.as_str().len()).collect();
    assert_eq!(lengths, [14, 11, 9, 3, 1]);
    assert_eq!(path("/Á.ő[/É]").embedded_target(), Path::new("/É"));
    assert_eq!(path("/Á.ő[/É]").replace_embedded_target(&path("/ß")), Path::new("/Á.ő[/ß]"));
}

#[test]
fn joins_outside_ascii() {
    let replaced = |text: &str, old: &str, new: &str| path(text).replace_prefix(&path(old), &path(new));
    assert_eq!(replaced("/A{v=p}é/b", "/A{v=p}", "/C"), Path::new("/C/é/b"));
    assert_eq!(replaced("/A/é", "/A", "/C{ő=p}"), Path::new("/C{ő=p}é"));
    assert_eq!(replaced("/A/é", "/A", "/"), Path::new("/é"));
    assert_eq!(replaced("/Aé", "/A", "/C"), Err(Refusal::NoPath));
    assert_eq!(replaced("/é.ő", "/é", "/ß"), Path::new("/ß.ő"));
    // 255 bytes are the limit, however many characters they are.
    let longest = format!("/{}", "é".repeat(126));
    assert_eq!(replaced("/A/b", "/A", &longest).unwrap().as_str().len(), MAX_PATH_LEN);
    assert_eq!(replaced("/A/é", "/A", &longest), Err(Refusal::MadeTooLong));
}

/// Brackets follow a property and end the text; the path in them is absolute, and there are at most four.
#[test]
fn legal_and_illegal_brackets() {
    for text in ["/A.r[/T]", "/A.r:s[/]", "/A{v=p}B.r[/T{w=q}C]", "/A.r[/B.s]", FOUR_DEEP] {
        assert_eq!(Path::new(text).unwrap().as_str(), text);
    }
    let five_deep = format!("/Z.z[{FOUR_DEEP}]");
    for text in [
        "/A.r[]",
        "/A[/C]",
        "/A{v=p}[/C]",
        "/[/C]",
        "[/C]",
        "/A.[/C]",
        "/A.r[T]",
        "/A.r[/T].x",
        "/A.r[/T]/B",
        "/A.r[/T][/U]",
        "/A.r[/T",
        "/A.r[/T]]",
        "/A.r[/T/]",
        "/A.r[/T[/U]]",
        &five_deep,
    ] {
        assert_eq!(Path::new(text), Err(Refusal::NotLegal), "{text}");
    }
}

#[test]
fn the_longest_path() {
    assert!(Path::new(&named(MAX_PATH_LEN)).is_ok());
    assert_eq!(Path::new(&named(MAX_PATH_LEN + 1)), Err(Refusal::TooLong));
    let (one, longest) = (path("/A"), path(&named(MAX_PATH_LEN)));
    assert_eq!(path("/A/b").replace_prefix(&one, &longest), Err(Refusal::MadeTooLong));
}

/// Cases of docs/REQUIREMENTS.md.
#[test]
fn replacing_prefixes() {
    let replaced = |text: &str, old: &str, new: &str| path(text).replace_prefix(&path(old), &path(new));
    assert_eq!(replaced("/AB", "/A", "/C"), Err(Refusal::NoPath));
    assert_eq!(replaced("/A{v=p}B", "/A{v=p}", "/C"), Path::new("/C/B"));
    assert_eq!(replaced("/A/B", "/A", "/C{v=p}"), Path::new("/C{v=p}B"));
    assert_eq!(replaced("/A.b", "/A", "/"), Err(Refusal::MadeNotLegal));
    assert_eq!(replaced("/B", "/", "/C{v=p}"), Err(Refusal::MadeNotLegal));
}

/// Cases of docs/REQUIREMENTS.md.
#[test]
fn parts() {
    for (text, parent) in [("/A.b", "/A"), ("/A{v=p}B", "/A{v=p}"), ("/A", "/")] {
        assert_eq!(path(text).parent(), Path::new(parent));
    }
    for text in ["", "/"] {
        assert_eq!(path(text).parent(), Err(Refusal::NoPath));
        assert_eq!(path(text).prim_path().as_str(), text);
        assert_eq!((path(text).element_count(), path(text).prim_element_count()), (0, 0));
    }
    assert_eq!(path("/A{v=p}{w=q}B.c").strip_variant_selections().as_str(), "/A/B.c");
    assert_eq!(path("/A{v=p}.b").prim_path().as_str(), "/A{v=p}");
    assert_eq!(path("/A{v=p}{w=q}").prim_path().as_str(), "/A{v=p}");
    assert_eq!(path("/A.b:c").split_property(), Ok((path("/A"), "b:c")));
}

/// Only the part before the brackets is counted and stripped.
#[test]
fn parts_with_brackets() {
    let address = path("/A{v=p}B.r[/T{w=q}C]");
    assert_eq!((address.element_count(), address.prim_element_count()), (3, 2));
    assert_eq!(address.parent(), Path::new("/A{v=p}B.r"));
    assert_eq!(address.prim_path(), path("/A{v=p}B"));
    assert_eq!(address.split_property(), Err(Refusal::NoPath));
    assert_eq!(address.strip_variant_selections(), path("/A/B.r[/T{w=q}C]"));
    for (text, selection) in [("/A{v=p}B.r[/T]", true), ("/A.r[/T{w=q}]", false)] {
        assert_eq!((path(text).is_end(), path(text).has_variant_selection()), (false, selection), "{text}");
    }
    let lengths: Vec<_> = path("/L/S.next[/L/T]").ancestors().map(|each| each.as_str().len()).collect();
    assert_eq!(lengths, [15, 9, 4, 2, 1]);
}

#[test]
fn targets_in_brackets() {
    for (text, target) in
        [("/A.r[/B.s[/C]]", "/B.s[/C]"), ("/A{v=p}B.r[/T{w=q}C]", "/T{w=q}C"), ("/A.r[/]", "/")]
    {
        assert_eq!(path(text).embedded_target(), Path::new(target), "{text}");
        assert_eq!(path(text).replace_embedded_target(&path(target)), Path::new(text));
    }
    let depth = std::iter::successors(Some(path(FOUR_DEEP)), |path| path.embedded_target().ok());
    assert_eq!(depth.last(), Some(path("/E")));
    for text in ["", "/", "/A", "/A.r", "/A{v=p}"] {
        assert_eq!(path(text).embedded_target(), Err(Refusal::NoPath), "{text}");
        assert_eq!(path(text).replace_embedded_target(&path("/T")), Err(Refusal::NoPath), "{text}");
    }
}

#[test]
fn replacing_targets_in_brackets() {
    let replaced = |text: &str, target: &str| path(text).replace_embedded_target(&path(target));
    assert_eq!(replaced("/A.r[/B.s[/C]]", "/U"), Path::new("/A.r[/U]"));
    assert_eq!(replaced("/A.r[/T]", "/B.s[/C.t[/D.u[/E]]]"), Path::new("/A.r[/B.s[/C.t[/D.u[/E]]]]"));
    for target in ["", FOUR_DEEP] {
        assert_eq!(replaced("/A.r[/T]", target), Err(Refusal::MadeNotLegal), "{target}");
    }
    let longest = MAX_PATH_LEN - "/A.r[]".len();
    assert_eq!(replaced("/A.r[/T]", &named(longest)).unwrap().as_str().len(), MAX_PATH_LEN);
    assert_eq!(replaced("/A.r[/T]", &named(longest + 1)), Err(Refusal::MadeTooLong));
}

/// The property before brackets is no prefix, so it cannot be replaced.
#[test]
fn prefixes_with_brackets() {
    for (prefix, rest) in
        [("/A.r[/T]", Some(8)), ("/A", Some(2)), ("/", Some(0)), ("", Some(0)), ("/A.r", None)]
    {
        assert_eq!(path("/A.r[/T]").rest_start(&path(prefix)), rest, "{prefix}");
        assert_eq!(path("/A.r[/T]").has_prefix(&path(prefix)), rest.is_some(), "{prefix}");
    }
    let replaced = |old: &str, new: &str| path("/A.r[/T]").replace_prefix(&path(old), &path(new));
    assert_eq!(replaced("/A", "/X"), Path::new("/X.r[/T]"));
    assert_eq!(replaced("/A.r", "/X.s"), Err(Refusal::NoPath));
    assert_eq!(replaced("/A", "/"), Err(Refusal::MadeNotLegal));
    let longest = MAX_PATH_LEN - ".r[/T]".len();
    assert_eq!(replaced("/A", &named(longest)).unwrap().as_str().len(), MAX_PATH_LEN);
    assert_eq!(replaced("/A", &named(longest + 1)), Err(Refusal::MadeTooLong));
}

#[test]
fn prefixes() {
    for (text, prefix, expected) in
        [("/A", "", true), ("", "", true), ("/A", "/", true), ("/A{v=p}B", "/A", true), ("", "/", false)]
    {
        assert_eq!(path(text).has_prefix(&path(prefix)), expected, "{text} {prefix}");
    }
}

/// The rest begins after the prefix, but after `/` a longer path is its own rest.
#[test]
fn rests() {
    for (text, prefix, expected) in [
        ("/A/b", "/A", Some(2)),
        ("/A.b", "/A", Some(2)),
        ("/A{v=p}B", "/A", Some(2)),
        ("/A{v=p}B", "/A{v=p}", Some(7)),
        ("/A/b", "/A/b", Some(4)),
        ("/A/b", "/", Some(0)),
        ("/", "/", Some(1)),
        ("/A/b", "", Some(0)),
        ("", "", Some(0)),
        ("/AB", "/A", None),
        ("/A", "/A/b", None),
        ("", "/", None),
    ] {
        assert_eq!(path(text).rest_start(&path(prefix)), expected, "{text} {prefix}");
        assert_eq!(path(text).has_prefix(&path(prefix)), expected.is_some(), "{text} {prefix}");
    }
    let longest = path(&named(MAX_PATH_LEN));
    assert_eq!(longest.rest_start(&longest), Some(MAX_PATH_LEN));
}

#[test]
fn kinds_of_paths() {
    for (text, end, selection) in
        [("", true, false), ("/", true, false), ("/A{v=p}", false, true), ("/A.b", false, false)]
    {
        assert_eq!((path(text).is_end(), path(text).has_variant_selection()), (end, selection), "{text}");
    }
}

#[test]
fn ancestors_from_both_sides() {
    let texts = |path: &Path| path.ancestors().map(String::from).collect::<Vec<_>>();
    let all = ["/A{v=p}B.c", "/A{v=p}B", "/A{v=p}", "/A", "/"];
    assert_eq!(texts(&path(all[0])), all);
    assert_eq!(texts(&path("")), [""]);
    let backwards: Vec<_> = path(all[0]).ancestors().rev().map(String::from).collect();
    assert_eq!(backwards, Vec::from_iter(all.into_iter().rev()));
    let deepest = path(&"/n".repeat(127));
    assert_eq!(deepest.ancestors().len(), MAX_ANCESTORS);
    assert!(deepest.ancestors().zip(deepest.ancestors().skip(1)).all(|(one, next)| one.parent() == Ok(next)));
}

#[test]
fn the_traits_of_a_path() {
    assert_eq!("/A".parse::<Path>(), Path::try_from("/A".to_string()));
    assert_eq!("/A".parse::<Path>(), Path::try_from(b"/A".as_slice()));
    assert_eq!(format!("[{:>4}] {0:?}", path("/A")), "[  /A] Path(\"/A\")");
    assert_eq!(format!("[{:>4}] {0:?}", path("/Á")), "[  /Á] Path(\"/Á\")");
    assert!(path("/A") < path("/A/b") && path("/A/b") < path("/B"));
    assert!(HashSet::from([path("/A")]).contains("/A") && BTreeSet::from([path("/A")]).contains("/A"));
    assert_eq!(Path::default(), Path::empty());
    assert_eq!(path("/").as_ref(), Path::root().as_str());
}
