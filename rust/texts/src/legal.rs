//! The grammar of path texts, following the sentences of the requirements, which are quoted here.
//!
//! Each function parses a part at the start of the remaining text and returns the text after it, or `None` if that part is
//! not there. The length limit is not checked here.

use std::ops::RangeInclusive;

/// "A bracketed path may hold another, four deep, so a text has at most four opening brackets."
pub const MAX_BRACKETS: usize = 4;

/// "A character from U+0080 up may begin or continue a name unless it is a control (U+0080 to U+009F) or white space (U+00A0,
/// U+1680, U+2000 to U+200A, U+2028, U+2029, U+202F, U+205F, U+3000)." These are the exceptions.
pub const CONTROLS_AND_WHITE_SPACE: [RangeInclusive<char>; 9] = [
    '\u{80}'..='\u{9F}',
    '\u{A0}'..='\u{A0}',
    '\u{1680}'..='\u{1680}',
    '\u{2000}'..='\u{200A}',
    '\u{2028}'..='\u{2028}',
    '\u{2029}'..='\u{2029}',
    '\u{202F}'..='\u{202F}',
    '\u{205F}'..='\u{205F}',
    '\u{3000}'..='\u{3000}',
];

/// Returns whether `text` is a legal path. "Malformed UTF-8 gets 2", so it is none.
pub fn is_legal(text: &[u8]) -> bool {
    let is_path = |text: &str| text.is_empty() || is_absolute(text);
    opening_brackets(text) <= MAX_BRACKETS && str::from_utf8(text).is_ok_and(is_path)
}

/// The number of opening brackets in a text.
pub fn opening_brackets(text: &[u8]) -> usize {
    text.iter().filter(|byte| **byte == b'[').count()
}

/// "It is empty, or `/`, or `/` and a name followed by elements, then perhaps a property." The empty path is not absolute. How
/// many brackets there are is not checked here.
fn is_absolute(text: &str) -> bool {
    match text.strip_prefix('/') {
        Some("") => true,
        Some(rest) => name(rest).and_then(after_name) == Some(""),
        None => false,
    }
}

/// "After a name come `/` and a name, or `{set=sel}`."
fn after_name(rest: &str) -> Option<&str> {
    if let Some(rest) = rest.strip_prefix('/') {
        return after_name(name(rest)?);
    }
    if let Some(rest) = rest.strip_prefix('{') {
        return after_selection(selection(rest)?);
    }
    property_or_end(rest)
}

/// "After a selection come another selection, or a name with no slash."
fn after_selection(rest: &str) -> Option<&str> {
    if let Some(rest) = rest.strip_prefix('{') {
        return after_selection(selection(rest)?);
    }
    match name(rest) {
        Some(rest) => after_name(rest),
        None => property_or_end(rest),
    }
}

/// "A property is `.` and names joined by single `:`."
fn property_or_end(rest: &str) -> Option<&str> {
    match rest.strip_prefix('.') {
        Some(rest) => brackets_or_end(joined_names(rest)?),
        None => Some(rest),
    }
}

/// "A property may be followed by a legal absolute path in brackets, which ends the text."
fn brackets_or_end(rest: &str) -> Option<&str> {
    match rest.strip_prefix('[') {
        Some(rest) => rest.strip_suffix(']').filter(|inside| is_absolute(inside)).map(|_| ""),
        None => Some(rest),
    }
}

fn joined_names(rest: &str) -> Option<&str> {
    let rest = name(rest)?;
    match rest.strip_prefix(':') {
        Some(rest) => joined_names(rest),
        None => Some(rest),
    }
}

/// "`set` is a name; `sel` is one or more letters, digits, `_`." The opening brace has been parsed already.
fn selection(rest: &str) -> Option<&str> {
    let rest = name(rest)?.strip_prefix('=')?.strip_prefix(is_letter_or_digit)?;
    rest.trim_start_matches(is_letter_or_digit).strip_prefix('}')
}

/// "A name is a letter or `_`, then letters, digits, `_`", and characters outside ASCII anywhere.
fn name(rest: &str) -> Option<&str> {
    let rest = rest.strip_prefix(|first: char| is_of_name(first) && !first.is_ascii_digit())?;
    Some(rest.trim_start_matches(is_of_name))
}

fn is_of_name(character: char) -> bool {
    is_letter_or_digit(character) || is_name_character_outside_ascii(character)
}

/// A letter, a digit or `_`.
fn is_letter_or_digit(character: char) -> bool {
    character.is_ascii_alphanumeric() || character == '_'
}

/// A character outside ASCII that may begin or continue a name.
pub fn is_name_character_outside_ascii(character: char) -> bool {
    !character.is_ascii() && !CONTROLS_AND_WHITE_SPACE.iter().any(|range| range.contains(&character))
}

#[cfg(test)]
mod tests {
    use super::{CONTROLS_AND_WHITE_SPACE, is_legal};

    #[test]
    fn texts_of_the_requirements_are_legal() {
        for text in [
            "",
            "/",
            "/A",
            "/AB",
            "/A/B",
            "/A.b",
            "/A{v=p}",
            "/A{v=p}B",
            "/C{v=p}B",
            "/A{v=p}{w=q}B.c",
            "/X/B/C",
            "/R/a/b/d/b/d",
        ] {
            assert!(is_legal(text.as_bytes()), "{text}");
        }
    }

    #[test]
    fn names_selections_and_properties() {
        for text in ["/_", "/_1", "/a1B_", "/A{v=1}", "/A{_=_}_/B{a=b}.c:d:e", "/A{v=p}.b"] {
            assert!(is_legal(text.as_bytes()), "{text}");
        }
    }

    #[test]
    fn texts_outside_the_grammar() {
        for text in ["A", ".", "..", "//", "/A/", "/A//B", "/1", "/A/1", "/A b", "/.b", "/{v=p}"] {
            assert!(!is_legal(text.as_bytes()), "{text}");
        }
    }

    #[test]
    fn misplaced_slashes_selections_and_dots() {
        for text in ["/A{v=p}/B", "/A{v=p}1", "/A/{v=p}", "/A.b/C", "/A.b{v=p}", "/A.b.c", "/A/.b"] {
            assert!(!is_legal(text.as_bytes()), "{text}");
        }
    }

    #[test]
    fn malformed_selections_and_properties() {
        for text in [
            "/A{",
            "/A{}",
            "/A{v}",
            "/A{v=}",
            "/A{=p}",
            "/A{1=p}",
            "/A{v=p",
            "/A{v=p}}",
            "/A{v=p-q}",
            "/A{v==p}",
            "/A.",
            "/A.1",
            "/A.:b",
            "/A.b:",
            "/A.b::c",
            "/A.b:1",
            "/A:b",
        ] {
            assert!(!is_legal(text.as_bytes()), "{text}");
        }
    }

    #[test]
    fn targets_in_brackets() {
        for text in [
            "/L/S.next[/L/T]",
            "/A.r[/]",
            "/A.r:s[/T]",
            "/A.r[/T.x:y]",
            "/A{v=p}.r[/T]",
            "/A{v=p}B.r[/T{w=q}C]",
            "/A.r[/B.s[/C]]",
            "/A.r[/B.s[/C.t[/D.u[/E]]]]",
            "/A.r[/B.s[/C.t[/D.u[/]]]]",
        ] {
            assert!(is_legal(text.as_bytes()), "{text}");
        }
    }

    #[test]
    fn misplaced_brackets() {
        for text in [
            "[/C]",
            "/[/C]",
            "/A[/C]",
            "/A/[/C]",
            "/A{v=p}[/C]",
            "/A.[/C]",
            "/A.r:[/C]",
            "/A.r[/T].x",
            "/A.r[/T]x",
            "/A.r[/T]/x",
            "/A.r[/T]{v=p}",
            "/A.r[/T][/U]",
            "/A.r[/T][",
            "/A{v[/T]=p}",
        ] {
            assert!(!is_legal(text.as_bytes()), "{text}");
        }
    }

    #[test]
    fn malformed_brackets() {
        for text in [
            "/A.r[",
            "/A.r]",
            "/A.r[]",
            "/A.r[/T",
            "/A.r/T]",
            "/A.r[/T]]",
            "/A.r[[/T]]",
            "/A.r[T]",
            "/A.r[../T]",
            "/A.r[.s]",
            "/A.r[/T/]",
            "/A.r[/B[/C]]",
            "/A.r[/B.s[C]]",
            "/A.r[/B.s[/C]",
            "/A.r[/B.s[/C]].t",
            "/A.r[/B.s[/C].t]",
            "/A.r[/\0]",
            "/A.r[/B.s[/C.t[/D.u[/E.v[/F]]]]]",
        ] {
            assert!(!is_legal(text.as_bytes()), "{text}");
        }
    }

    #[test]
    fn names_outside_ascii() {
        for text in [
            "/é",
            "/éA1",
            "/Aé/中é",
            "/A.é:😀",
            "/A{é=p}",
            "/A{v=p}é/b",
            "/A{vé=p}{中=q}😀.б",
            "/A.r[/é.中[/😀]]",
            "/\u{A1}",
            "/\u{200B}",
            "/\u{FEFF}",
            "/\u{FFFF}",
            "/\u{10FFFF}",
        ] {
            assert!(is_legal(text.as_bytes()), "{text}");
        }
    }

    #[test]
    fn selections_controls_and_white_space_outside_ascii() {
        for text in ["é", "/é/", "/.é", "/A[/é]", "/A{v=é}", "/A{v=pé}", "/A{é}", "/A.é:", "/A.:é", "/A.é:1"]
        {
            assert!(!is_legal(text.as_bytes()), "{text}");
        }
        let exceptions: Vec<char> = CONTROLS_AND_WHITE_SPACE.into_iter().flatten().collect();
        assert_eq!(exceptions.len(), 50);
        for character in exceptions {
            assert!(!is_legal(format!("/{character}").as_bytes()), "{character:?}");
            assert!(!is_legal(format!("/A{character}").as_bytes()), "{character:?}");
        }
    }

    #[test]
    fn malformed_utf_8() {
        for text in [
            &b"/\xC3"[..],
            b"/\xA9",
            b"/\xC3/b",
            b"/A\xE4\xB8",
            b"/A\xF0\x9F\x98.b",
            b"/\xC0\xAF",
            b"/\xE0\x80\xAF",
            b"/\xED\xA0\x80",
            b"/\xF4\x90\x80\x80",
            b"/\xFF",
            b"\xC0\xAFA",
        ] {
            assert!(!is_legal(text), "{}", text.escape_ascii());
        }
    }

    /// A single byte outside ASCII is no character.
    #[test]
    fn only_ascii_bytes_are_name_bytes() {
        for byte in 0..=255u8 {
            let expected = byte.is_ascii_alphanumeric() || byte == b'_';
            assert_eq!(is_legal(&[b'/', b'A', byte]), expected, "{byte}");
        }
    }
}
