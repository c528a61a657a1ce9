//! Counts the expected answers of each kind and number, which shows that the scripts cover all of them.

use std::collections::BTreeMap;
use std::fmt::{self, Display};

#[derive(Default)]
pub struct Answers {
    scripts: usize,
    lines: usize,
    /// The number of answers, by the first four digits of the answer line.
    by_number: BTreeMap<[u8; 4], usize>,
    /// The number of paths that came out, by the number of legs.
    out: BTreeMap<usize, usize>,
}

impl Answers {
    /// Counts the answers to one script.
    pub fn count(&mut self, answers: &[u8]) {
        self.scripts += 1;
        let mut legs = 0;
        for line in answers.split_inclusive(|byte| *byte == b'\n') {
            self.lines += 1;
            let answer = *line.first_chunk().expect("kind and number");
            *self.by_number.entry(answer).or_default() += 1;
            match &answer {
                b"8300" | b"8400" => legs += 1,
                b"8500" => *self.out.entry(legs).or_default() += 1,
                _ => {}
            }
        }
    }

    /// The kind and the number of each counted answer, in digits.
    #[cfg(test)]
    pub fn numbers(&self) -> impl Iterator<Item = &[u8; 4]> {
        self.by_number.keys()
    }
}

/// A line for each kind, then the paths that came out by legs, then the numbers of scripts and lines.
impl Display for Answers {
    fn fmt(&self, f: &mut fmt::Formatter<'_>) -> fmt::Result {
        let mut before = [0; 2];
        for (answer @ [a, b, ..], count) in &self.by_number {
            let [kind, number] = [&answer[..2], &answer[2..]].map(<[u8]>::escape_ascii);
            if before == [*a, *b] {
                write!(f, ", {number}: {count}")?;
            } else {
                let gap = if before == [0; 2] { "" } else { "\n" };
                write!(f, "{gap}answers {kind}  {number}: {count}")?;
            }
            before = [*a, *b];
        }
        let out: Vec<String> = self.out.iter().map(|(legs, paths)| format!("{legs}: {paths}")).collect();
        write!(f, "\npaths that came out, by legs  {}", out.join(", "))?;
        write!(f, "\nscripts: {}, lines: {}", self.scripts, self.lines)
    }
}
