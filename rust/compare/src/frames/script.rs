//! An input of the program as lines, and its reduction to the smallest one that still fails.

use crate::tally::Given;
use std::fmt::{self, Display};

#[derive(Clone, Debug, Default, PartialEq, Eq)]
pub struct Script {
    /// The lines without their newlines.
    pub lines: Vec<Vec<u8>>,
    /// Whether the last line lacks its newline.
    pub open_end: bool,
}

impl Script {
    pub fn input(&self) -> Vec<u8> {
        let mut input = self.lines.join(&b'\n');
        if !self.open_end && !self.lines.is_empty() {
            input.push(b'\n');
        }
        input
    }

    /// Removes as many lines as possible while `fails` stays true.
    pub fn shrunk(mut self, fails: &mut impl FnMut(&Script) -> bool) -> Script {
        let mut size = self.lines.len().div_ceil(2);
        while size > 0 {
            let before = self.lines.len();
            self = self.without_parts(size, fails);
            if size > 1 || self.lines.len() == before {
                size /= 2;
            }
        }
        self
    }

    /// Removes each block of `size` lines that is not needed.
    fn without_parts(mut self, size: usize, fails: &mut impl FnMut(&Script) -> bool) -> Script {
        let mut at = 0;
        while at < self.lines.len() {
            let mut shorter = self.clone();
            shorter.lines.drain(at..self.lines.len().min(at + size));
            if fails(&shorter) {
                self = shorter;
            } else {
                at += size;
            }
        }
        self
    }
}

impl Given for Script {
    fn size(&self) -> usize {
        self.lines.len()
    }
}

impl Display for Script {
    fn fmt(&self, f: &mut fmt::Formatter<'_>) -> fmt::Result {
        let note: &[_] = if self.open_end { &[b"(the last line lacks its newline)".to_vec()] } else { &[] };
        write_lines(f, self.lines.iter().chain(note))
    }
}

/// The first lines of a script.
pub struct FirstLines<'a>(pub &'a [Vec<u8>]);

impl Given for FirstLines<'_> {
    fn size(&self) -> usize {
        self.0.len()
    }
}

impl Display for FirstLines<'_> {
    fn fmt(&self, f: &mut fmt::Formatter<'_>) -> fmt::Result {
        write_lines(f, self.0)
    }
}

/// Writes each line on its own line, with bytes that are not visible escaped.
fn write_lines<'a>(f: &mut fmt::Formatter<'_>, lines: impl IntoIterator<Item = &'a Vec<u8>>) -> fmt::Result {
    for line in lines {
        write!(f, "\n    {}", line.escape_ascii())?;
    }
    f.write_str("\n   ")
}

#[cfg(test)]
mod tests {
    use super::Script;

    fn script(lines: &[&str]) -> Script {
        Script { lines: lines.iter().map(|line| line.as_bytes().to_vec()).collect(), open_end: false }
    }

    #[test]
    fn the_input_of_a_script() {
        assert_eq!(script(&[]).input(), b"");
        assert_eq!(script(&["", "07"]).input(), b"\n07\n");
        assert_eq!(Script { open_end: true, ..script(&["", "07"]) }.input(), b"\n07");
    }

    #[test]
    fn only_the_needed_lines_remain() {
        let needed = |script: &Script| {
            let has = |line: &str| script.lines.contains(&line.as_bytes().to_vec());
            has("b") && has("e")
        };
        let shrunk = script(&["a", "b", "c", "d", "e", "f", "g"]).shrunk(&mut |script| needed(script));
        assert_eq!(shrunk, script(&["b", "e"]));
        assert_eq!(script(&["a", "b"]).shrunk(&mut |_| true), script(&[]));
    }
}
