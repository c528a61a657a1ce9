//! Times calls on paths with brackets.

use super::{copied, library_replace, original_replace, print_row};
use crate::clock::best_times;
use crate::inputs::{self, COUNT, Replacement, TargetReplacement, parsed};
use mudvizsor::ffi;
use original::sdf::Path;
use std::hint::black_box;
use texts::MAX_PATH_LEN;

/// An input that is, or has, a path.
trait HasPath {
    fn path(&self) -> &str;
}

impl HasPath for String {
    fn path(&self) -> &str {
        self
    }
}

impl HasPath for Replacement {
    fn path(&self) -> &str {
        &self.path
    }
}

impl HasPath for TargetReplacement {
    fn path(&self) -> &str {
        &self.path
    }
}

/// Prints the rows for paths of about `length` bytes.
pub fn time(length: usize) {
    let paths = inputs::bracketed_paths(length, COUNT);
    time_call("`new`", &paths, |path, _| original_new(path), |path, _| library_new(path));
    let replacements = inputs::bracketed_replacements(length, COUNT);
    time_call("`replace_prefix`", &replacements, original_replace, library_replace);
    time_call(
        "`embedded_target`",
        &paths,
        |path, out| original_target(path, out),
        |path, out| library_target(path, out),
    );
    let replacements = inputs::target_replacements(length, COUNT);
    time_call("`replace_embedded_target`", &replacements, original_replace_target, library_replace_target);
}

/// Times a call. Each side may write a path, and returns a number; both must agree in either.
fn time_call<T: HasPath>(
    call: &str,
    inputs: &[T],
    original: impl Fn(&T, &mut [u8]) -> usize,
    library: impl Fn(&T, &mut [u8]) -> usize,
) {
    let (mut out, mut other_out) = ([0; MAX_PATH_LEN], [0; MAX_PATH_LEN]);
    let agree = |each| original(each, &mut out) == library(each, &mut other_out) && out == other_out;
    assert!(inputs.iter().all(agree));
    let original = || {
        for each in inputs {
            black_box(original(black_box(each), &mut out));
        }
    };
    let library = || {
        for each in inputs {
            black_box(library(black_box(each), &mut other_out));
        }
    };
    let times = best_times(COUNT, original, library);
    print_row(call, "with brackets", inputs.iter().map(|each| each.path().len()), times);
}

/// 0 for a legal path, else 1.
fn original_new(path: &str) -> usize {
    usize::from(black_box(Path::new(path)).is_err())
}

/// 0 for a legal path, else the number of the refusal.
fn library_new(path: &str) -> usize {
    ffi::paths::new(path.as_bytes()).number()
}

/// From text to text: the path is parsed, and the bytes of its target are copied.
fn original_target(path: &str, out: &mut [u8]) -> usize {
    copied(&parsed(path).embedded_target().expect("a path with brackets"), out)
}

fn library_target(path: &str, out: &mut [u8]) -> usize {
    ffi::paths::embedded_target(path.as_bytes(), out).value()
}

/// From text to text: two paths are parsed, the target is replaced, and the bytes of the result are copied.
fn original_replace_target(each: &TargetReplacement, out: &mut [u8]) -> usize {
    let [path, target] = [&each.path, &each.target].map(|text| parsed(text));
    copied(&path.replace_embedded_target(&target).expect("a path with brackets"), out)
}

fn library_replace_target(each: &TargetReplacement, out: &mut [u8]) -> usize {
    ffi::paths::replace_embedded_target(each.path.as_bytes(), each.target.as_bytes(), out).value()
}
