//! The calls for paths: the entry of the library, the function of the original, and the expected answer.

use crate::text::{Answer, BUFFER_TOO_SMALL, MADE_NOT_LEGAL, MADE_TOO_LONG, NO_PATH, Text, paths};
use mudvizsor::ffi::{Reply, paths};
use original::sdf::Path;
use texts::MAX_PATH_LEN;
use texts::legal::is_legal;

/// A call that returns a number for one text.
pub struct NumberCall {
    pub name: &'static str,
    pub entry: fn(&[u8]) -> Reply,
    original: fn(&Path) -> usize,
}

impl NumberCall {
    pub fn expected(&self, text: &Text) -> Answer<usize> {
        paths([text]).map(|[path]| (self.original)(path))
    }
}

/// A call that maps one path to another.
pub struct PathCall {
    pub name: &'static str,
    pub entry: fn(&[u8], &mut [u8]) -> Reply,
    original: fn(&Path) -> Option<Path>,
}

impl PathCall {
    pub fn expected(&self, text: &Text) -> Answer<Path> {
        let [path] = paths([text])?;
        accept((self.original)(path))
    }
}

/// The value of an accepted path is 0, since the original returns only a path or an error.
pub const NEW: NumberCall = NumberCall { name: "new", entry: paths::new, original: |_| 0 };

pub const IS_END: NumberCall =
    NumberCall { name: "is_end", entry: paths::is_end, original: |path| usize::from(is_end(path)) };

pub const HAS_VARIANT_SELECTION: NumberCall = NumberCall {
    name: "has_variant_selection",
    entry: paths::has_variant_selection,
    original: |path| usize::from(path.has_variant_selection()),
};

pub const ELEMENT_COUNT: NumberCall =
    NumberCall { name: "element_count", entry: paths::element_count, original: Path::element_count };

pub const PRIM_ELEMENT_COUNT: NumberCall = NumberCall {
    name: "prim_element_count",
    entry: paths::prim_element_count,
    original: Path::prim_element_count,
};

pub const PARENT: PathCall = PathCall { name: "parent", entry: paths::parent, original: Path::parent };

pub const PRIM_PATH: PathCall =
    PathCall { name: "prim_path", entry: paths::prim_path, original: |path| Some(path.prim_path()) };

pub const SPLIT_PROPERTY: PathCall = PathCall {
    name: "split_property",
    entry: paths::split_property,
    original: |path| path.split_property().map(|(prim, _)| prim),
};

pub const STRIP_VARIANT_SELECTIONS: PathCall = PathCall {
    name: "strip_variant_selections",
    entry: paths::strip_variant_selections,
    original: |path| Some(path.strip_variant_selections()),
};

pub const EMBEDDED_TARGET: PathCall =
    PathCall { name: "embedded_target", entry: paths::embedded_target, original: Path::embedded_target };

/// "A prim path, `/` or empty", and "a prim path has names only".
pub fn is_end(path: &Path) -> bool {
    let names_only = path.is_prim() && !path.has_variant_selection();
    path.is_empty() || path.is_abs_root() || names_only
}

pub fn has_prefix(text: &Text, prefix: &Text) -> Answer<bool> {
    paths([text, prefix]).map(|[path, prefix]| path.has_prefix(prefix))
}

pub fn replace_prefix(text: &Text, old: &Text, new: &Text) -> Answer<Path> {
    let [path, old, new] = paths([text, old, new])?;
    accept(path.replace_prefix(old, new))
}

pub fn replace_embedded_target(text: &Text, target: &Text) -> Answer<Path> {
    let [path, target] = paths([text, target])?;
    accept(path.replace_embedded_target(target))
}

/// The lengths of the path and of its ancestors.
pub fn ancestors(text: &Text) -> Answer<Vec<usize>> {
    let [path] = paths([text])?;
    Ok(path.ancestors().map(|path| path.as_str().len()).collect())
}

/// Checks the result of the original (questions 6, 7 and 8).
pub fn accept(made: Option<Path>) -> Answer<Path> {
    let path = made.ok_or(NO_PATH)?;
    if path.as_str().len() > MAX_PATH_LEN {
        return Err(MADE_TOO_LONG);
    }
    if !is_legal(path.as_str().as_bytes()) {
        return Err(MADE_NOT_LEGAL);
    }
    Ok(path)
}

/// The expected answer with a buffer of `capacity` items if `needed` are needed: question 5 comes before 6, 7 and 8.
pub fn within<T: Copy>(capacity: usize, needed: usize, answer: Answer<T>) -> Answer<T> {
    match answer {
        Err(number) if number < BUFFER_TOO_SMALL => answer,
        _ if capacity < needed => Err(BUFFER_TOO_SMALL),
        _ => answer,
    }
}
