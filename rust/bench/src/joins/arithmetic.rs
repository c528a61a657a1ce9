//! The join whose separator is a number, computed from tests as numbers: `join` of crates/path_join.

use super::inputs::{is_name_byte, write_at};

struct Layout {
    separator: usize,
    start: usize,
}

fn first_byte(text: &[u8]) -> u8 {
    text.first().copied().unwrap_or(0)
}

fn last_byte(text: &[u8]) -> u8 {
    text.last().copied().unwrap_or(0)
}

fn separator_len(follows: bool, old_is_root: bool, new_is_root: bool, child: bool, direct: bool) -> usize {
    let root = usize::from(old_is_root);
    let after_root = root * (1 - usize::from(new_is_root));
    let after_prim = (1 - root) * usize::from(child) * (1 - usize::from(direct));
    usize::from(follows) * (after_root + after_prim)
}

fn layout_of(old: &[u8], new: &[u8], rest: &[u8]) -> Layout {
    let first = first_byte(rest);
    let old_last = last_byte(old);
    let new_last = last_byte(new);
    let old_is_root = (old.len() == 1) & (old_last == b'/');
    let new_is_root = (new.len() == 1) & (new_last == b'/');
    let child = (first == b'/') | ((old_last == b'}') & is_name_byte(first));
    let direct = new_is_root | (new_last == b'}');
    Layout {
        separator: separator_len(!rest.is_empty(), old_is_root, new_is_root, child, direct),
        start: usize::from(!old_is_root & (first == b'/')),
    }
}

fn write_separator(length: usize, at: usize, out: &mut [u8]) {
    if out.len() <= at {
        return;
    }
    let choice = [out[at], b'/'];
    out[at] = choice[length];
}

/// Writes the joined text and returns its length; writes nothing if it does not fit.
#[inline(never)]
pub fn join(old: &[u8], new: &[u8], rest: &[u8], out: &mut [u8]) -> Option<usize> {
    let layout = layout_of(old, new, rest);
    let body = &rest[layout.start..];
    let at = new.len() + layout.separator;
    let length = at + body.len();
    if out.len() < length {
        return None;
    }
    write_at(new, 0, out);
    write_separator(layout.separator, new.len(), out);
    write_at(body, at, out);
    Some(length)
}
