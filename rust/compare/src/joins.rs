//! Compares `replace_prefix` on joins with every kind of prefix end and every kind of remainder, short ones and such as end
//! near the limit of a path.

use crate::comparison::Comparison;
use crate::text::Text;
use texts::MAX_PATH_LEN;

/// Prefixes by their end: the empty path, `/`, a name, a selection, a property, a bracket.
const PREFIXES: [&[&str]; 6] = [
    &[""],
    &["/"],
    &["/A", "/A/B", "/_a1", "/A{v=p}B", "/é", "/A{v=p}中"],
    &["/A{v=p}", "/A{v=p}{w=q}", "/A/B{v=p}", "/é{中=q}"],
    &["/A.b", "/A{v=p}.b:c", "/é.中"],
    &["/A.b[/T]", "/A{v=p}.b[/T{w=q}]"],
];

/// Remainders by what they begin with: nothing, a slash and a name, a name, a property, a selection, a bracket.
const REMAINDERS: [&[&str]; 6] = [
    &[""],
    &["/C", "/C/D.e", "/_1", "/C.d[/T{w=q}]", "/é"],
    &["C", "_C/D", "c.e", "C{w=q}", "c.e[/A.b[/T]]", "é", "中/D", "😀.é"],
    &[".d", ".d:e", ".d[/]", ".é"],
    &["{w=q}C", "{w=q}.d", "{w=q}", "{w=q}.d[/A{v=p}]", "{é=q}中"],
    &["[/T]"],
];

pub fn run(comparison: &mut Comparison) {
    for old in PREFIXES.concat() {
        for new in PREFIXES.concat() {
            for rest in REMAINDERS.concat() {
                join(comparison, old, new, rest.to_string());
                for length in MAX_PATH_LEN - 2..=MAX_PATH_LEN + 1 {
                    let length = length.saturating_sub(new.len());
                    join(comparison, old, new, lengthened(rest, length, "x"));
                    join(comparison, old, new, lengthened(rest, length, "é"));
                }
            }
        }
    }
}

fn join(comparison: &mut Comparison, old: &str, new: &str, rest: String) {
    let path = format!("{old}{rest}");
    let [path, old, new] = [path.as_str(), old, new].map(|text| Text::new(text.as_bytes()));
    comparison.replace_prefix(&path, &old, &new);
}

/// The remainder with its last name, which may be in brackets, lengthened by this letter to `length` bytes in all, or to as many as
/// whole letters make; itself if it ends in no name. The path `/` in brackets gets a name.
fn lengthened(rest: &str, length: usize, letter: &str) -> String {
    let (names, brackets) = rest.split_at(rest.trim_end_matches(']').len());
    let more = if names.is_empty() || names.ends_with('}') { 0 } else { length.saturating_sub(rest.len()) };
    format!("{names}{}{brackets}", letter.repeat(more / letter.len()))
}

#[cfg(test)]
mod tests {
    use super::*;
    use texts::legal::is_legal;

    /// Which remainders may follow which prefixes, in the order of the tables above.
    const FOLLOWS: [[bool; 6]; 6] = [
        [true, true, false, false, false, false],
        [true, false, true, false, false, false],
        [true, true, false, true, true, false],
        [true, false, true, true, true, false],
        [true, false, false, false, false, true],
        [true, false, false, false, false, false],
    ];

    #[test]
    fn every_end_has_every_remainder_that_may_follow_it() {
        for (prefixes, row) in PREFIXES.iter().zip(FOLLOWS) {
            for (remainders, follows) in REMAINDERS.iter().zip(row) {
                let paths =
                    prefixes.iter().flat_map(|old| remainders.iter().map(move |rest| format!("{old}{rest}")));
                let legal = paths.filter(|path| is_legal(path.as_bytes())).count();
                assert!(!follows || legal > 0, "{prefixes:?} {remainders:?}");
            }
        }
    }

    #[test]
    fn a_lengthened_remainder_reaches_the_limit() {
        assert_eq!(lengthened("/C", 250, "x").len(), 250);
        assert_eq!(lengthened("/C", 250, "é").len(), 250);
        assert_eq!(lengthened("/C", 251, "é").len(), 250);
        assert_eq!(lengthened("", 250, "x"), "");
        assert_eq!(lengthened("{w=q}", 250, "x"), "{w=q}");
        assert_eq!(lengthened(".d[/]", 7, "x"), ".d[/xx]");
        assert_eq!(lengthened(".d[/A{v=p}]", 250, "x"), ".d[/A{v=p}]");
    }
}
