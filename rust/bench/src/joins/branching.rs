//! The join that chooses the separator by branches: `join` of crates/path_join before its separator became a number.

use super::inputs::{is_name_byte, write_at};

fn is_root(path: &[u8]) -> bool {
    if path.len() != 1 {
        return false;
    }
    path[0] == b'/'
}

fn last_is(text: &[u8], byte: u8) -> bool {
    text.last() == Some(&byte)
}

fn is_child(prefix: &[u8], first: u8) -> bool {
    if first == b'/' {
        return true;
    }
    if !last_is(prefix, b'}') {
        return false;
    }
    is_name_byte(first)
}

fn ends_with_separator(prefix: &[u8]) -> bool {
    if is_root(prefix) {
        return true;
    }
    last_is(prefix, b'}')
}

fn separator_len(old: &[u8], new: &[u8], rest: &[u8]) -> usize {
    if rest.is_empty() {
        return 0;
    }
    if is_root(old) {
        if is_root(new) {
            return 0;
        }
        return 1;
    }
    if !is_child(old, rest[0]) {
        return 0;
    }
    if ends_with_separator(new) {
        return 0;
    }
    1
}

fn body_start(old: &[u8], rest: &[u8]) -> usize {
    if rest.is_empty() {
        return 0;
    }
    if rest[0] != b'/' {
        return 0;
    }
    if is_root(old) {
        return 0;
    }
    1
}

fn write_slash(length: usize, at: usize, out: &mut [u8]) {
    if length == 0 {
        return;
    }
    if out.len() <= at {
        return;
    }
    out[at] = b'/';
}

/// Writes the joined text and returns its length; writes nothing if it does not fit.
#[inline(never)]
pub fn join(old: &[u8], new: &[u8], rest: &[u8], out: &mut [u8]) -> Option<usize> {
    let room = out.len();
    if room < new.len() {
        return None;
    }
    let separator = separator_len(old, new, rest);
    if room - new.len() < separator {
        return None;
    }
    let body = &rest[body_start(old, rest)..];
    let at = new.len() + separator;
    if room - at < body.len() {
        return None;
    }
    write_at(new, 0, out);
    write_slash(separator, new.len(), out);
    write_at(body, at, out);
    Some(at + body.len())
}
