//! Properties of the original on which the definitions of the library depend.

use crate::comparison::Comparison;
use crate::text::{Text, Texts, parsed};
use original::sdf::Path;

/// The maximum number of ancestors of a legal path of at most 255 bytes, including the path itself.
const MAX_ANCESTORS: usize = 128;

impl Comparison {
    /// Checks the properties of one legal path.
    pub fn facts(&mut self, text: &Text) {
        self.bracket_facts(text);
        let Some(path) = text.path() else {
            return;
        };
        let refused = parsed(&text.bytes).is_none();
        if refused {
            self.refused_by_original.insert(text.bytes.clone());
        }
        let mut fact = |name, holds| self.tally.fact(name, &Texts(&[text]), holds);
        fact("Path::new refuses no legal text but the empty one", refused == text.bytes.is_empty());
        fact("a path has at most 128 ancestors", path.ancestors().count() <= MAX_ANCESTORS);
        fact("an ancestor is a beginning of the path", path.ancestors().all(|up| begins(path, &up)));
        fact("the prim path is a beginning of the path", begins(path, &path.prim_path()));
        fact("the property's name is the text after the dot", splits_at_dot(path));
    }

    /// Checks the properties of one legal path and a prefix.
    pub fn prefix_facts(&mut self, text: &Text, prefix: &Text) {
        let (Some(path), Some(old)) = (text.path(), prefix.path()) else {
            return;
        };
        let has_prefix = path.has_prefix(old);
        let mut fact = |name, holds| self.tally.fact(name, &Texts(&[text, prefix]), holds);
        fact(
            "has_prefix is as stated in the requirements",
            has_prefix == is_prefix(&text.bytes, &prefix.bytes),
        );
        fact(
            "a prefix can be replaced, and nothing else",
            has_prefix == path.replace_prefix(old, old).is_some(),
        );
    }
}

fn begins(path: &Path, beginning: &Path) -> bool {
    path.as_str().starts_with(beginning.as_str())
}

fn splits_at_dot(path: &Path) -> bool {
    path.split_property().is_none_or(|(prim, name)| format!("{prim}.{name}") == path.as_str())
}

/// "Equal texts; or the text begins with the prefix and the prefix is `/`, or the rest begins with `/`, `.` or
/// `{`, or the prefix ends in `}`."
pub fn is_prefix(text: &[u8], prefix: &[u8]) -> bool {
    text.strip_prefix(prefix).is_some_and(|rest| {
        rest.is_empty() || prefix == b"/" || matches!(rest[0], b'/' | b'.' | b'{') || prefix.ends_with(b"}")
    })
}
