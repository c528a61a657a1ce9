//! What the calls are examples of, counted, so that no kind of case is missed unnoticed.

use crate::carried::reader::{Leg, Reading};
use crate::tally::{Given, Tally};
use std::collections::BTreeMap;
use std::fmt::{self, Display};

/// What a call is an example of.
#[derive(Debug, Clone, Copy, PartialEq, Eq, PartialOrd, Ord)]
pub enum Kind {
    /// The prefix is none.
    NoPrefix,
    EmptyPrefix,
    /// The prefix `/` of a longer text, or the key `/` of a longer path.
    UnderRoot,
    /// The path is the prefix or the key.
    Exact,
    /// The rest begins with a slash, a property or a selection, or with a name right after a selection.
    AtSlash,
    AtProperty,
    AtSelection,
    AfterSelection,
    /// No pair is used.
    MarkOnly,
    /// The other end of the pair is `/`, or is empty, and the rest is not.
    IntoRoot,
    IntoEmpty,
    /// Selections were stripped.
    Stripped,
    /// The path has brackets, with and without selections that were stripped outside them.
    Bracketed,
    StrippedBracketed,
    NoLegs,
    /// One or more legs leave the whole text.
    Whole,
    /// The first leg leaves less than the whole text, and no other leg takes any of that.
    CutAtFirst,
    /// A later leg leaves less than the first one did.
    CutLater,
    /// Legs leave nothing of a path that is not empty.
    NothingLeft,
    Refused(u8),
}

impl Kind {
    /// The kind of a text with a prefix.
    pub fn of_prefix(text: &str, prefix: &str) -> Kind {
        match (prefix, text.strip_prefix(prefix).and_then(|rest| rest.bytes().next())) {
            (_, None) => Kind::Exact,
            ("", _) => Kind::EmptyPrefix,
            ("/", _) => Kind::UnderRoot,
            (_, Some(b'/')) => Kind::AtSlash,
            (_, Some(b'.')) => Kind::AtProperty,
            (_, Some(b'{')) => Kind::AtSelection,
            _ => Kind::AfterSelection,
        }
    }

    /// The kind of a text with brackets.
    pub fn of_brackets(text: &str, is_stripped: bool) -> Option<Kind> {
        let kind = if is_stripped { Kind::StrippedBracketed } else { Kind::Bracketed };
        text.contains('[').then_some(kind)
    }

    /// The kinds of a path that a map takes to another one.
    pub fn of_mapped(leg: &Leg, reading: &Reading) -> Vec<Kind> {
        let path = reading.steps[0].as_str();
        if reading.is_stripped {
            return vec![Kind::Stripped];
        }
        match leg.pair_for(path) {
            None => vec![Kind::MarkOnly],
            Some([key, "/"]) if key != path => vec![Kind::of_prefix(path, key), Kind::IntoRoot],
            Some([key, ""]) if key != path => vec![Kind::of_prefix(path, key), Kind::IntoEmpty],
            Some([key, _]) => vec![Kind::of_prefix(path, key)],
        }
    }

    /// The kinds of a path that a route takes to another one.
    pub fn of_routed(reading: &Reading) -> Vec<Kind> {
        let [Some(&first), Some(&last)] = [reading.left.first(), reading.left.last()] else {
            return vec![Kind::NoLegs];
        };
        if reading.is_stripped {
            return vec![Kind::Stripped];
        }
        let length = reading.steps[0].len();
        let kinds = [
            (Kind::Whole, last == length),
            (Kind::CutAtFirst, first < length && last == first),
            (Kind::CutLater, last < first),
            (Kind::NothingLeft, last == 0 && length > 0),
        ];
        kinds.into_iter().filter(|(_, applies)| *applies).map(|(kind, _)| kind).collect()
    }
}

/// The kinds that must occur for a call, and the largest number of its refusals, each of which must occur too.
pub struct Expected {
    pub call: &'static str,
    pub kinds: &'static [&'static [Kind]],
    pub refusals: u8,
}

impl Expected {
    pub fn all(&self) -> impl Iterator<Item = Kind> {
        self.kinds.concat().into_iter().chain((1..=self.refusals).map(Kind::Refused))
    }
}

/// How often each call was an example of each kind.
#[derive(Default)]
pub struct Kinds {
    counts: BTreeMap<(Kind, &'static str), u64>,
}

impl Kinds {
    pub fn count(&mut self, call: &'static str, kind: Kind) {
        *self.counts.entry((kind, call)).or_default() += 1;
    }

    fn number(&self, call: &'static str, kind: Kind) -> u64 {
        self.counts.get(&(kind, call)).copied().unwrap_or(0)
    }

    /// Prints the numbers of each call.
    pub fn print(&self, expected: &[Expected]) {
        for each in expected {
            let numbers: Vec<String> =
                each.all().map(|kind| format!("{kind} {}", self.number(each.call, kind))).collect();
            println!("  {}: {}", each.call, numbers.join(", "));
        }
    }

    /// A kind that does not occur is a difference.
    pub fn check(&self, expected: &[Expected], tally: &mut Tally) {
        for each in expected {
            for kind in each.all() {
                let occurs = self.number(each.call, kind) > 0;
                tally.fact("every kind of case occurs", &Case { call: each.call, kind }, occurs);
            }
        }
    }
}

/// A kind of case of a call.
struct Case {
    call: &'static str,
    kind: Kind,
}

impl Given for Case {
    /// Of several kinds that do not occur the first one is shown.
    fn size(&self) -> usize {
        0
    }
}

impl Display for Case {
    fn fmt(&self, f: &mut fmt::Formatter<'_>) -> fmt::Result {
        write!(f, " {}, {}:", self.call, self.kind)
    }
}

impl Display for Kind {
    fn fmt(&self, f: &mut fmt::Formatter<'_>) -> fmt::Result {
        f.write_str(match self {
            Kind::NoPrefix => "no prefix",
            Kind::EmptyPrefix => "empty prefix",
            Kind::UnderRoot => "under `/`",
            Kind::Exact => "exact",
            Kind::AtSlash => "at a slash",
            Kind::AtProperty => "at a property",
            Kind::AtSelection => "at a selection",
            Kind::AfterSelection => "after a selection",
            Kind::MarkOnly => "mark only",
            Kind::IntoRoot => "to `/`",
            Kind::IntoEmpty => "to the empty path",
            Kind::Stripped => "stripped",
            Kind::Bracketed => "with brackets",
            Kind::StrippedBracketed => "stripped, with brackets",
            Kind::NoLegs => "no legs",
            Kind::Whole => "whole text",
            Kind::CutAtFirst => "cut at the first leg",
            Kind::CutLater => "cut at a later leg",
            Kind::NothingLeft => "nothing left",
            Kind::Refused(number) => return write!(f, "refusal {number}"),
        })
    }
}
