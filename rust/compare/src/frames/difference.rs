//! The first difference between a run of the program and the expected answers.

use crate::comparison::Comparison;
use crate::frames::program::{Output, Program};
use crate::frames::sending::{Run, Sending};
use crate::tally::{Call, Given};
use std::fmt::{self, Display};

pub struct Difference {
    /// The number of answers before it that agree.
    pub at: usize,
    /// The kind of difference.
    pub name: &'static str,
    expected: String,
    found: String,
}

impl Run {
    /// Returns the first difference, in an answer line or in how the run ends; `None` if there is none.
    pub fn difference(&self) -> Option<Difference> {
        let Run { expected, output: Output { answers, failure } } = self;
        let at = lines(expected).zip(lines(answers)).take_while(|(one, other)| one == other).count();
        let (expected, found) = (lines(expected).nth(at), lines(answers).nth(at));
        if expected.is_none() && found.is_none() && failure.is_none() {
            return None;
        }
        let name = name(expected);
        let found = match failure {
            Some(failure) => format!("{}, {failure}", shown(found)),
            None => shown(found),
        };
        Some(Difference { at, name, expected: shown(expected), found })
    }

    /// Returns whether the program answered everything and exited as it should, so that it can be tested further.
    pub fn is_whole(&self) -> bool {
        self.output.failure.is_none()
    }
}

fn shown(line: Option<&[u8]>) -> String {
    line.map_or_else(|| "the end of the output".to_string(), |line| line.escape_ascii().to_string())
}

fn lines(text: &[u8]) -> impl Iterator<Item = &[u8]> {
    text.split_inclusive(|byte| *byte == b'\n')
}

/// The kind of difference, by the expected answer.
fn name(expected: Option<&[u8]>) -> &'static str {
    match expected.and_then(<[u8]>::first_chunk) {
        Some(b"81") => "frames 01",
        Some(b"82") => "frames 02",
        Some(b"83") => "frames 03",
        Some(b"84") => "frames 04",
        Some(b"85") => "frames 05",
        Some(b"86") => "frames 06",
        Some(b"87") => "frames 07",
        Some(_) => "frames, a line that is none",
        None => "frames, the end of a run",
    }
}

/// The input of the program, and the number of the wrong answer.
struct WrongAnswer<'a> {
    given: &'a dyn Given,
    answer: usize,
}

impl Given for WrongAnswer<'_> {
    fn size(&self) -> usize {
        self.given.size()
    }
}

impl Display for WrongAnswer<'_> {
    fn fmt(&self, f: &mut fmt::Formatter<'_>) -> fmt::Result {
        write!(f, "{} answer {}:", self.given, self.answer)
    }
}

impl Comparison {
    /// Sends an input to the program and compares the answers. Returns whether the program can be tested further.
    pub fn send_and_compare(
        &mut self,
        program: &Program,
        given: &dyn Given,
        input: &[u8],
        sending: Sending,
    ) -> bool {
        let run = sending.run(program, input);
        self.count_answers(&run, given, run.difference());
        run.is_whole()
    }

    /// Counts a comparison for each answer up to the difference or, if there is none, for all answers and the end of the run.
    pub fn count_answers(&mut self, run: &Run, given: &dyn Given, difference: Option<Difference>) {
        let Some(Difference { at, name, expected, found }) = difference else {
            return self.tally.agree(lines(&run.expected).count() + 1);
        };
        self.tally.agree(at);
        let call = Call { name, given: &WrongAnswer { given, answer: at + 1 }, capacity: None };
        self.tally.values(call, false, format_args!("{expected}"), format_args!("{found}"));
    }
}

#[cfg(test)]
mod tests {
    use super::Difference;
    use crate::frames::program::{Failure, Output};
    use crate::frames::sending::Run;

    /// The position and the kind of the first difference, and what is expected and found.
    fn first(expected: &str, found: &str, failure: Option<Failure>) -> Option<(usize, &'static str, String)> {
        let output = Output { answers: found.into(), failure };
        let difference = Run { expected: expected.into(), output }.difference()?;
        let Difference { at, name, expected, found } = difference;
        Some((at, name, format!("{expected} / {found}")))
    }

    #[test]
    fn the_first_difference_is_named() {
        assert_eq!(first("8100\n", "8100\n", None), None);
        let wrong = first("8100\n8300\n87\n", "8100\n8305\nFF\n", None);
        assert_eq!(wrong, Some((1, "frames 03", "8300\\n / 8305\\n".into())));
        let wrong = first("8100\n", "8100\nFF09\n", None);
        assert_eq!(wrong, Some((1, "frames, the end of a run", "the end of the output / FF09\\n".into())));
        let wrong = first("8100\nFF09\n", "8100\n", None);
        assert_eq!(wrong, Some((1, "frames, a line that is none", "FF09\\n / the end of the output".into())));
    }

    #[test]
    fn a_failure_is_a_difference() {
        let wrong = first("8100\n8500\n", "8100\n85", Some(Failure::Timeout));
        assert_eq!(wrong, Some((1, "frames 05", "8500\\n / 85, no answer in time".into())));
        let (at, name, _) = first("8100\n", "8100\n", Some(Failure::Ended)).expect("a difference");
        assert_eq!((at, name), (1, "frames, the end of a run"));
    }
}
