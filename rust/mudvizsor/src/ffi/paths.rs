//! The entries for path texts.

use super::{Reply, entry};

/// Checks that `text` is a legal path: the reply has the value 0, or is a refusal. Bytes that are not UTF-8 are not legal.
pub fn new(text: &[u8]) -> Reply {
    entry!(mudvizsor_path_new: text text,)
}

/// The value is 1 for a prim path, `/` and the empty path, else 0.
pub fn is_end(text: &[u8]) -> Reply {
    entry!(mudvizsor_path_is_end: text text,)
}

/// The value is 1 if the path contains a variant selection outside brackets, else 0.
pub fn has_variant_selection(text: &[u8]) -> Reply {
    entry!(mudvizsor_path_has_variant_selection: text text,)
}

/// The value is the number of names and selections in the path, without those in brackets.
pub fn element_count(text: &[u8]) -> Reply {
    entry!(mudvizsor_path_element_count: text text,)
}

/// The value is the number of names in the path, without those in brackets.
pub fn prim_element_count(text: &[u8]) -> Reply {
    entry!(mudvizsor_path_prim_element_count: text text,)
}

/// The value is 1 if `prefix` is a prefix of the path, else 0.
pub fn has_prefix(text: &[u8], prefix: &[u8]) -> Reply {
    entry!(mudvizsor_path_has_prefix: text text, text prefix,)
}

/// The value is 1 if `prefix` is a prefix of the path, plus 256 times the index where the rest of the path begins; 0 if it is
/// no prefix. A separating slash belongs to the rest.
pub fn rest_start(text: &[u8], prefix: &[u8]) -> Reply {
    entry!(mudvizsor_path_rest_start: text text, text prefix,)
}

/// Writes `path` with its prefix `old` replaced by `new`. The value is the length written.
pub fn replace_prefix(path: &[u8], old: &[u8], new: &[u8], out: &mut [u8]) -> Reply {
    entry!(mudvizsor_path_replace_prefix: text path, text old, text new, out out,)
}

/// Writes the path without its brackets or, if it has none, its property or, if it has none either, its last element. The
/// value is the length written.
pub fn parent(path: &[u8], out: &mut [u8]) -> Reply {
    entry!(mudvizsor_path_parent: text path, out out,)
}

/// Writes the path without its property and brackets or, if it has no property and ends in a selection, without that
/// selection. The value is the length written.
pub fn prim_path(path: &[u8], out: &mut [u8]) -> Reply {
    entry!(mudvizsor_path_prim_path: text path, out out,)
}

/// Writes the part of the path before the dot of its property. The value is the length written; the name of the property
/// follows the dot. A path with brackets is refused.
pub fn split_property(path: &[u8], out: &mut [u8]) -> Reply {
    entry!(mudvizsor_path_split_property: text path, out out,)
}

/// Writes the path without its variant selections, except those in brackets. The value is the length written.
pub fn strip_variant_selections(path: &[u8], out: &mut [u8]) -> Reply {
    entry!(mudvizsor_path_strip_variant_selections: text path, out out,)
}

/// Writes the length of `path` and of each of its ancestors, which are all initial parts of it. The value is how many
/// lengths were written.
pub fn ancestors(path: &[u8], lengths: &mut [usize]) -> Reply {
    entry!(mudvizsor_path_ancestors: text path, slots lengths,)
}

/// Writes the path in the path's brackets, without the brackets. The value is the length written.
pub fn embedded_target(path: &[u8], out: &mut [u8]) -> Reply {
    entry!(mudvizsor_path_embedded_target: text path, out out,)
}

/// Writes `path` with the path in its brackets replaced by `target`. The value is the length written.
pub fn replace_embedded_target(path: &[u8], target: &[u8], out: &mut [u8]) -> Reply {
    entry!(mudvizsor_path_replace_embedded_target: text path, text target, out out,)
}
