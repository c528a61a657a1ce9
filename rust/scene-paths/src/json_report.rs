//! The report as JSON: one object with `legs`, `signals` and `summary`, with one line for each leg and signal.

use crate::json::{array, object, string};
use crate::report::{Report, Summary};
use crate::scenario::Section;
use crate::trace::{Moved, Outcome, Target, Trace};
use mudvizsor::{Leg, Path, Refusal};
use std::io::{Result, Write};
use std::ops::Range;

pub struct JsonReport<W: Write> {
    out: W,
    /// Whether a signal has been written already.
    has_signal: bool,
}

impl<W: Write> JsonReport<W> {
    pub fn new(out: W) -> Self {
        JsonReport { out, has_signal: false }
    }
}

impl<W: Write> Report for JsonReport<W> {
    fn shows_unaltered(&self) -> bool {
        true
    }

    fn begin(&mut self, legs: &[Section]) -> Result<()> {
        let legs: Vec<String> = legs.iter().enumerate().map(|(i, section)| leg(i + 1, section)).collect();
        let lines =
            if legs.is_empty() { String::new() } else { format!("\n    {}\n  ", legs.join(",\n    ")) };
        write!(self.out, "{{\n  \"legs\": [{lines}],\n  \"signals\": [")
    }

    fn trace(&mut self, trace: &Trace) -> Result<()> {
        let before = if self.has_signal { "," } else { "" };
        self.has_signal = true;
        write!(self.out, "{before}\n    {}", object(members(trace)))
    }

    fn end(&mut self, summary: &Summary) -> Result<()> {
        let Summary { signals, came_home } = *summary;
        let numbers = [("signals", signals), ("came_home", came_home), ("did_not", signals - came_home)];
        let summary = object(numbers.map(|(name, number)| (name, number.to_string())));
        write!(self.out, "\n  ],\n  \"summary\": {summary}\n}}\n")?;
        self.out.flush()
    }

    fn flush(&mut self) -> Result<()> {
        self.out.flush()
    }
}

fn leg(number: usize, section: &Section) -> String {
    let mut members = vec![
        ("leg", number.to_string()),
        ("kind", string(section.kind())),
        ("line", section.line.to_string()),
        ("title", string(&section.title)),
        ("pairs", section.lines.len().to_string()),
    ];
    if let Leg::Relocates(relocates) = &section.leg {
        let statuses = relocates.statuses().iter().map(|&status| (status as u8).to_string());
        members.push(("statuses", array(statuses)));
    }
    object(members)
}

fn members(trace: &Trace) -> Vec<(&'static str, String)> {
    let mut members = vec![
        ("line", trace.signal.line.to_string()),
        ("signal", string(&trace.signal.text)),
        ("steps", array(trace.steps.iter().map(|step| string(step.as_str())))),
    ];
    members.extend(trace.unaltered.as_ref().map(unaltered));
    members.push(("came_home", matches!(trace.outcome, Outcome::Home(_)).to_string()));
    members.extend(match &trace.outcome {
        Outcome::Home(path) | Outcome::Elsewhere(Ok(path)) => vec![home(path)],
        Outcome::BadPath(refusal) => stopped("signal", None, *refusal),
        Outcome::Stopped { leg, refusal } => stopped("out", Some(*leg), *refusal),
        Outcome::Elsewhere(Err(refusal)) => stopped("home", None, *refusal),
    });
    members.extend(trace.target.as_deref().map(target));
    members
}

/// Which part of the signal's text all legs carried over unaltered, in bytes.
fn unaltered(range: &Range<usize>) -> (&'static str, String) {
    let numbers = [("start", range.start), ("length", range.len())];
    ("unaltered", object(numbers.map(|(name, number)| (name, number.to_string()))))
}

fn home(path: &Path) -> (&'static str, String) {
    ("home", string(path.as_str()))
}

/// The path in the signal's brackets, the path that it is mapped to itself, and the address with that one in its brackets.
fn target(target: &Target) -> (&'static str, String) {
    let mut members = vec![("path", string(target.path.as_str()))];
    match &target.moved {
        Moved::Stopped { leg, refusal } => members.extend(stopped("out", Some(*leg), *refusal)),
        Moved::Out { path, address } => {
            members.push(("moved", string(path.as_str())));
            members.extend(match address {
                Ok(address) => vec![("address", string(address.as_str()))],
                Err(refusal) => stopped("address", None, *refusal),
            });
        }
    }
    ("target", object(members))
}

/// Where a trace stopped (at the `signal` itself, on the way `out` or on the way `home`, or at the `address` with the moved
/// target), at which leg, and why.
fn stopped(place: &str, leg: Option<usize>, refusal: Refusal) -> Vec<(&'static str, String)> {
    let mut members = vec![("at", string(place))];
    members.extend(leg.map(|leg| ("leg", leg.to_string())));
    members.push(("number", refusal.number().to_string()));
    members.push(("meaning", string(&refusal.to_string())));
    vec![("stopped", object(members))]
}

#[cfg(test)]
mod tests {
    use super::*;
    use crate::scenario::Signal;

    fn written(unaltered: Option<Range<usize>>, outcome: Outcome) -> String {
        let signal = Signal { line: 3, text: "/A\"".to_string() };
        object(members(&Trace {
            signal: &signal,
            steps: vec![Path::root()],
            unaltered,
            target: None,
            outcome,
        }))
    }

    #[test]
    fn targets() {
        let path = |text: &str| Path::new(text).unwrap();
        let stopped = Moved::Stopped { leg: 2, refusal: Refusal::NoPath };
        let out = |address| Moved::Out { path: path("/X"), address };
        let cases = [
            (stopped, "\"stopped\": {\"at\": \"out\", \"leg\": 2, \"number\": 6, \"meaning\": \"no path\"}"),
            (out(Path::new("/B.r[/X]")), "\"moved\": \"/X\", \"address\": \"/B.r[/X]\""),
            (
                out(Err(Refusal::MadeTooLong)),
                "\"moved\": \"/X\", \"stopped\": {\"at\": \"address\", \"number\": 7, \
                 \"meaning\": \"the path made is longer than 255 bytes\"}",
            ),
        ];
        for (moved, expected) in cases {
            let (name, value) = target(&Target { path: path("/T"), moved });
            assert_eq!((name, value), ("target", format!("{{\"path\": \"/T\", {expected}}}")));
        }
    }

    #[test]
    fn the_target_comes_last() {
        let signal = Signal { line: 3, text: "/A.r[/T]".to_string() };
        let address = Path::new("/A.r[/T]");
        let moved = Moved::Out { path: Path::new("/T").unwrap(), address: address.clone() };
        let target = Some(Box::new(Target { path: Path::new("/T").unwrap(), moved }));
        let outcome = Outcome::Home(address.unwrap());
        let text =
            object(members(&Trace { signal: &signal, steps: Vec::new(), unaltered: None, target, outcome }));
        let end = "\"home\": \"/A.r[/T]\", \
                   \"target\": {\"path\": \"/T\", \"moved\": \"/T\", \"address\": \"/A.r[/T]\"}}";
        assert!(text.ends_with(end), "{text}");
    }

    #[test]
    fn outcomes() {
        let path = Path::new("/A").unwrap();
        let before = "{\"line\": 3, \"signal\": \"/A\\\"\", \"steps\": [\"/\"], \"came_home\": ";
        let cases = [
            (Outcome::Home(path.clone()), "true, \"home\": \"/A\"}"),
            (Outcome::Elsewhere(Ok(path)), "false, \"home\": \"/A\"}"),
            (
                Outcome::BadPath(Refusal::TooLong),
                "false, \"stopped\": {\"at\": \"signal\", \"number\": 1, \
                 \"meaning\": \"the path text is longer than 255 bytes\"}}",
            ),
            (
                Outcome::Stopped { leg: 2, refusal: Refusal::NoPath },
                "false, \"stopped\": {\"at\": \"out\", \"leg\": 2, \"number\": 6, \"meaning\": \"no path\"}}",
            ),
            (
                Outcome::Elsewhere(Err(Refusal::NoPath)),
                "false, \"stopped\": {\"at\": \"home\", \"number\": 6, \"meaning\": \"no path\"}}",
            ),
        ];
        for (outcome, expected) in cases {
            assert_eq!(written(None, outcome), format!("{before}{expected}"));
        }
    }

    #[test]
    fn the_unaltered_part_comes_after_the_steps() {
        for (range, numbers) in [(1..3, "\"start\": 1, \"length\": 2"), (0..0, "\"start\": 0, \"length\": 0")]
        {
            let text = written(Some(range), Outcome::Home(Path::root()));
            let expected = format!(
                "\"steps\": [\"/\"], \"unaltered\": {{{numbers}}}, \"came_home\": true, \"home\": \"/\"}}"
            );
            assert!(text.ends_with(&expected), "{text}");
        }
    }
}
