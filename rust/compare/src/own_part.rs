//! A second reading of what the requirements say about brackets, written apart from the library and from the original. A path
//! consists of its own part, which is the text before the first bracket, and its tail, which is empty or the bracketed path
//! with its brackets.

use crate::calls::is_end;
use crate::comparison::Comparison;
use crate::tally::Given;
use crate::text::{Answer, MADE_NOT_LEGAL, MADE_TOO_LONG, NO_PATH, Text, Texts, parsed};
use original::sdf::Path;
use texts::MAX_PATH_LEN;
use texts::legal::is_legal;

/// The own part of a path and its tail.
pub fn split(path: &str) -> (&str, &str) {
    path.split_at(path.find('[').unwrap_or(path.len()))
}

/// A path that has brackets.
pub struct Bracketed<'a> {
    pub path: &'a Path,
    pub own: Path,
    pub tail: &'a str,
}

impl<'a> Bracketed<'a> {
    /// `None` if the text is not legal or has no brackets.
    pub fn new(text: &'a Text) -> Option<Self> {
        let path = text.path()?;
        let (own, tail) = split(path.as_str());
        let own = if tail.is_empty() { None } else { parsed(own.as_bytes()) };
        own.map(|own| Bracketed { path, own, tail })
    }

    /// The path in the brackets.
    fn target(&self) -> &'a str {
        &self.tail[1..self.tail.len() - 1]
    }
}

/// What becomes of a path if its own part becomes `own`: "Mapping treats the bracketed part as plain tail and leaves it."
/// Questions 6, 7 and 8 are put to both together. The tail is not empty.
pub fn with_tail(own: Option<Path>, tail: &str) -> Answer<Path> {
    let made = format!("{}{tail}", own.ok_or(NO_PATH)?);
    if made.len() > MAX_PATH_LEN {
        return Err(MADE_TOO_LONG);
    }
    if !is_legal(made.as_bytes()) {
        return Err(MADE_NOT_LEGAL);
    }
    Ok(parsed(made.as_bytes()).expect("the original refuses no legal text but the empty one"))
}

impl Comparison {
    /// Checks what the requirements say about one path with brackets.
    pub fn bracket_facts(&mut self, text: &Text) {
        let Some(bracketed) = Bracketed::new(text) else {
            return;
        };
        let Bracketed { path, own, tail } = &bracketed;
        let has_selection = own.as_str().contains('{');
        let stripped = format!("{}{tail}", own.strip_variant_selections());
        let lengths = path.ancestors().skip(1).map(|up| up.as_str().len());
        let own_lengths = own.ancestors().map(|up| up.as_str().len());
        let embedded = path.embedded_target();
        let mut fact = |name, holds| self.tally.fact(name, &Texts(&[text]), holds);
        // "Names and selections inside brackets don't count as the path's own, as in `has_variant_selection`."
        fact("a selection in brackets is not the path's own", path.has_variant_selection() == has_selection);
        fact("elements in brackets are not the path's own", path.element_count() == own.element_count());
        fact(
            "names in brackets are not the path's own",
            path.prim_element_count() == own.prim_element_count(),
        );
        fact("stripping leaves the brackets", path.strip_variant_selections().as_str() == stripped);
        fact("the parent of a path with brackets is its own part", path.parent().as_ref() == Some(own));
        fact("the ancestors after that are those of the own part", lengths.eq(own_lengths));
        fact("the prim path is that of the own part", path.prim_path() == own.prim_path());
        fact("a path with brackets is split nowhere", path.split_property().is_none());
        fact("a path with brackets is no end", !is_end(path));
        fact(
            "the target is the path in the brackets",
            embedded.is_some_and(|it| it.as_str() == bracketed.target()),
        );
    }

    /// Checks that replacing the target replaces the text in the brackets and nothing else.
    pub fn target_fact(&mut self, text: &Text, target: &Text) {
        let (Some(bracketed), Some(target_path)) = (Bracketed::new(text), target.path()) else {
            return;
        };
        let expected = format!("{}[{target_path}]", bracketed.own);
        let replaced = bracketed.path.replace_embedded_target(target_path);
        let agrees = replaced.is_some_and(|replaced| replaced.as_str() == expected);
        self.tally.fact("replacing the target leaves the own part", &Texts(&[text, target]), agrees);
    }

    /// Checks of an answer expected for a path with brackets that it is the answer for its own part, then the tail, within the
    /// limits. `map` is what the original makes of the own part.
    pub fn tail_fact(
        &mut self,
        given: &dyn Given,
        text: &Text,
        expected: &Answer<Path>,
        map: impl FnOnce(&Path) -> Option<Path>,
    ) {
        if let Some(Bracketed { own, tail, .. }) = Bracketed::new(text) {
            let agrees = with_tail(map(&own), tail) == *expected;
            self.tally.fact("the answer is that for the own part, then the tail", given, agrees);
        }
    }
}

#[cfg(test)]
mod tests {
    use super::{split, with_tail};
    use crate::text::{MADE_NOT_LEGAL, MADE_TOO_LONG, NO_PATH};
    use original::sdf::Path;

    #[test]
    fn the_tail_begins_at_the_first_bracket() {
        assert_eq!(split("/A{v=p}.r[/B.s[/C]]"), ("/A{v=p}.r", "[/B.s[/C]]"));
        assert_eq!(split("/A.r"), ("/A.r", ""));
    }

    #[test]
    fn a_tail_is_appended_within_the_limits() {
        let own = |text: &str| Some(Path::new(text).expect("a path"));
        assert_eq!(
            with_tail(own("/X.r"), "[/T]").map(|path| path.as_str().to_owned()),
            Ok("/X.r[/T]".into())
        );
        assert_eq!(with_tail(None, "[/T]"), Err(NO_PATH));
        assert_eq!(with_tail(own("/X"), "[/T]"), Err(MADE_NOT_LEGAL));
        let long = format!("/{}.r", "x".repeat(249));
        assert_eq!(with_tail(own(&long), "[/]").map(|path| path.as_str().len()), Ok(255));
        assert_eq!(with_tail(own(&long), "[/T]"), Err(MADE_TOO_LONG));
    }
}
