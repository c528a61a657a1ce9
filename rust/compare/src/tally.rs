//! Counts comparisons and stores the smallest input of each kind of difference.

use crate::text::Answer;
use mudvizsor::ffi::Reply;
use std::collections::BTreeMap;
use std::fmt::{self, Debug, Display};

#[derive(Default)]
pub struct Tally {
    comparisons: u64,
    facts: u64,
    differences: u64,
    smallest: BTreeMap<Kind, Input>,
}

/// A kind of difference: what differs, and in which call.
#[derive(Clone, Copy, PartialEq, Eq, PartialOrd, Ord)]
struct Kind {
    call: &'static str,
    what: What,
}

#[derive(Clone, Copy, PartialEq, Eq, PartialOrd, Ord)]
enum What {
    Number { expected: usize, found: usize },
    Value,
    Memory,
    Fact,
}

/// The input of a difference as text, with its size.
struct Input {
    size: usize,
    shown: String,
}

/// The input of a call, without the buffers for its result.
pub trait Given: Display {
    /// The size of the input; of two inputs with a difference the smaller one is shown.
    fn size(&self) -> usize;
}

/// One call: its name, its input, and the capacity of its buffer.
#[derive(Clone, Copy)]
pub struct Call<'a> {
    pub name: &'static str,
    pub given: &'a dyn Given,
    pub capacity: Option<usize>,
}

impl Tally {
    pub fn comparisons(&self) -> u64 {
        self.comparisons
    }

    pub fn facts(&self) -> u64 {
        self.facts
    }

    pub fn differences(&self) -> u64 {
        self.differences
    }

    /// Returns whether a difference in this call was found.
    pub fn has_difference(&self, name: &str) -> bool {
        self.smallest.keys().any(|kind| kind.call == name)
    }

    /// Counts comparisons without a difference.
    pub fn agree(&mut self, comparisons: usize) {
        self.comparisons += comparisons as u64;
    }

    /// Compares a reply with the expected answer; `wrong` is an index of the lent buffer with wrong contents.
    pub fn compare(&mut self, call: Call, expected: Answer<usize>, found: Reply, wrong: Option<isize>) {
        self.comparisons += 1;
        let expected = match expected {
            Ok(value) => Reply::answer(value),
            Err(number) => Reply::refusal(number),
        };
        if expected != found {
            let what = What::reply(expected, found);
            let details = format!("expected {}, found {}", shown(expected), shown(found));
            self.note(call, what, details);
        } else if let Some(at) = wrong {
            let details = format!("{} as expected, but the lent memory is wrong at {at}", shown(found));
            self.note(call, What::Memory, details);
        }
    }

    /// Counts a comparison of results that are not replies, and whether they agree.
    pub fn values(&mut self, call: Call, agree: bool, expected: impl Debug, found: impl Debug) {
        self.comparisons += 1;
        if !agree {
            self.note(call, What::Value, format!("expected {expected:?}, found {found:?}"));
        }
    }

    /// Counts a property of the original that must hold. If it does not, that is a difference.
    pub fn fact(&mut self, name: &'static str, given: &dyn Given, holds: bool) {
        self.facts += 1;
        if !holds {
            let call = Call { name, given, capacity: None };
            self.note(call, What::Fact, String::from("does not hold"));
        }
    }

    fn note(&mut self, call: Call, what: What, details: String) {
        self.differences += 1;
        let kind = Kind { call: call.name, what };
        let size = call.given.size();
        let known = self.smallest.get(&kind);
        if known.is_none_or(|known| size < known.size) {
            let capacity = call.capacity.map_or(String::new(), |capacity| format!(" capacity {capacity}:"));
            let shown = format!("{}{capacity} {details}", call.given);
            self.smallest.insert(kind, Input { size, shown });
        }
    }
}

fn shown(reply: Reply) -> String {
    match (reply.number(), reply.value()) {
        (0, value) => format!("answer {value}"),
        (number, 0) => format!("refusal {number}"),
        (number, value) => format!("refusal {number} with value {value}"),
    }
}

impl What {
    fn reply(expected: Reply, found: Reply) -> Self {
        match (expected.number(), found.number()) {
            (expected, found) if expected == found => What::Value,
            (expected, found) => What::Number { expected, found },
        }
    }
}

impl Display for Tally {
    /// The smallest input of each kind of difference, one per line.
    fn fmt(&self, f: &mut fmt::Formatter<'_>) -> fmt::Result {
        for (kind, input) in &self.smallest {
            writeln!(f, "{} ({}):{}", kind.call, kind.what, input.shown)?;
        }
        Ok(())
    }
}

impl Display for What {
    fn fmt(&self, f: &mut fmt::Formatter<'_>) -> fmt::Result {
        match self {
            What::Number { .. } => f.write_str("number"),
            What::Value => f.write_str("value"),
            What::Memory => f.write_str("memory"),
            What::Fact => f.write_str("fact"),
        }
    }
}
