//! The report as text.

use crate::report::{Report, Summary};
use crate::scenario::Section;
use crate::trace::{Moved, Outcome, Target, Trace, meaning};
use mudvizsor::{Leg, Path, Refusal, Relocates, Status};
use std::fmt;
use std::io::{Result, Write};

/// The escape sequence that begins a highlighted text, bold and green, and the one that ends it.
const HIGHLIGHT: &str = "\x1b[1;32m";
const RESET: &str = "\x1b[0m";

pub struct TextReport<W: Write> {
    out: W,
    /// Whether the unaltered end of each path is highlighted.
    color: bool,
}

impl<W: Write> TextReport<W> {
    pub fn new(out: W, color: bool) -> Self {
        TextReport { out, color }
    }

    /// The end of the paths of a trace that is highlighted; empty if none is.
    fn tail<'a>(&self, trace: &Trace<'a>) -> &'a str {
        match &trace.unaltered {
            Some(range) if self.color => &trace.signal.text[range.clone()],
            _ => "",
        }
    }

    /// Writes the relocates that are not used.
    fn statuses(&mut self, relocates: &Relocates, lines: &[usize]) -> Result<()> {
        for ((status, line), (source, target)) in
            relocates.statuses().iter().zip(lines).zip(relocates.pairs())
        {
            if *status != Status::Active {
                let (number, source, target) = (*status as u8, shown(source), shown(target));
                writeln!(
                    self.out,
                    "  line {line}: {source} -> {target} does not count: {status} ({number})"
                )?;
            }
        }
        Ok(())
    }

    /// Writes how a trace ended.
    fn outcome(&mut self, trace: &Trace) -> Result<()> {
        match &trace.outcome {
            Outcome::Home(path) if path.as_str() == trace.signal.text => {
                let text = Highlighted { text: shown(path), tail: self.tail(trace) };
                writeln!(self.out, "  home    {text}")
            }
            Outcome::Home(path) => writeln!(self.out, "  home    {}, its selections left out", shown(path)),
            Outcome::BadPath(refusal) => writeln!(self.out, "  no signal: {}", why(*refusal)),
            Outcome::Stopped { leg, refusal } => {
                writeln!(self.out, "  leg {leg:<2}  stopped: {}", why(*refusal))
            }
            Outcome::Elsewhere(Ok(path)) => writeln!(self.out, "  home    astray at {}", shown(path)),
            Outcome::Elsewhere(Err(refusal)) => writeln!(self.out, "  home    astray: {}", why(*refusal)),
        }
    }

    /// Writes that the target in brackets was not moved, and what becomes of it if it is mapped itself.
    fn target(&mut self, target: &Target) -> Result<()> {
        let path = &target.path;
        writeln!(self.out, "  target  not moved by mapping: the brackets still name {path}")?;
        match &target.moved {
            Moved::Stopped { leg, refusal } => {
                writeln!(self.out, "          {path} itself would stop at leg {leg}: {}", why(*refusal))
            }
            Moved::Out { path: moved, address } => {
                let remarks = remarks(path, moved);
                writeln!(self.out, "          {path} itself would come out as {moved}{remarks}")?;
                match address {
                    Ok(address) => writeln!(self.out, "          address with the moved target: {address}"),
                    Err(refusal) => {
                        writeln!(self.out, "          no address with the moved target: {}", why(*refusal))
                    }
                }
            }
        }
    }
}

impl<W: Write> Report for TextReport<W> {
    fn shows_unaltered(&self) -> bool {
        self.color
    }

    fn begin(&mut self, legs: &[Section]) -> Result<()> {
        for (i, section) in legs.iter().enumerate() {
            let (leg, kind, line) = (i + 1, section.kind(), section.line);
            let title =
                if section.title.is_empty() { String::new() } else { format!(": {}", plain(&section.title)) };
            writeln!(self.out, "leg {leg}, {kind}, line {line}, {}{title}", pairs(section))?;
            if let Leg::Relocates(relocates) = &section.leg {
                self.statuses(relocates, &section.lines)?;
            }
        }
        if legs.is_empty() { writeln!(self.out, "no legs") } else { Ok(()) }
    }

    fn trace(&mut self, trace: &Trace) -> Result<()> {
        let tail = self.tail(trace);
        let text = plain(shown_text(&trace.signal.text));
        writeln!(self.out, "\nline {}: {}", trace.signal.line, Highlighted { text: &text, tail })?;
        for (i, step) in trace.steps.iter().enumerate() {
            writeln!(self.out, "  leg {:<2}  {}", i + 1, Highlighted { text: shown(step), tail })?;
        }
        self.outcome(trace)?;
        trace.target.as_deref().map_or(Ok(()), |target| self.target(target))
    }

    fn end(&mut self, summary: &Summary) -> Result<()> {
        let Summary { signals, came_home } = *summary;
        let lost = signals - came_home;
        writeln!(self.out, "\n{}: {came_home} came home, {lost} did not", counted(signals, "signal"))?;
        self.out.flush()
    }

    fn flush(&mut self) -> Result<()> {
        self.out.flush()
    }
}

/// A text whose end is highlighted if it is `tail` and not empty.
struct Highlighted<'a> {
    text: &'a str,
    tail: &'a str,
}

impl fmt::Display for Highlighted<'_> {
    fn fmt(&self, f: &mut fmt::Formatter) -> fmt::Result {
        match self.text.strip_suffix(self.tail) {
            Some(head) if !self.tail.is_empty() => write!(f, "{head}{HIGHLIGHT}{}{RESET}", self.tail),
            _ => f.write_str(self.text),
        }
    }
}

/// The number of pairs of a leg, as written in the scenario.
fn pairs(section: &Section) -> String {
    let all = counted(section.lines.len(), "pair");
    match &section.leg {
        Leg::Relocates(relocates) => format!("{all}, {} active", relocates.active_pairs().count()),
        Leg::Map(_) => all,
    }
}

fn counted(count: usize, what: &str) -> String {
    format!("{count} {what}{}", if count == 1 { "" } else { "s" })
}

/// The number of a refusal and its description.
fn why(refusal: Refusal) -> String {
    format!("{}, {}", refusal.number(), meaning(refusal))
}

/// What a target lost on its way out, and what of it was not moved.
fn remarks(target: &Path, moved: &Path) -> String {
    let stripped = target.has_variant_selection() && !moved.has_variant_selection();
    let selections = if stripped { ", its selections left out" } else { "" };
    let brackets = if target.embedded_target().is_ok() { ", its own brackets not moved" } else { "" };
    format!("{selections}{brackets}")
}

/// A path as it is written in a scenario: the empty one is `-`.
fn shown(path: &Path) -> &str {
    shown_text(path.as_str())
}

fn shown_text(text: &str) -> &str {
    if text.is_empty() { "-" } else { text }
}

/// A text of the scenario with its control characters, and its white space other than spaces, escaped. A legal path has none.
fn plain(text: &str) -> String {
    let hidden = |c: char| c.is_control() || (c.is_whitespace() && c != ' ');
    let each = |c: char| if hidden(c) { c.escape_default().to_string() } else { c.to_string() };
    text.chars().map(each).collect()
}

#[cfg(test)]
mod tests {
    use super::*;
    use crate::scenario::Signal;

    fn reported(color: bool, trace: &Trace) -> String {
        let mut out = Vec::new();
        TextReport::new(&mut out, color).trace(trace).unwrap();
        String::from_utf8(out).unwrap()
    }

    fn written(outcome: Outcome, text: &str) -> String {
        let signal = Signal { line: 3, text: text.to_string() };
        reported(true, &Trace { signal: &signal, steps: Vec::new(), unaltered: None, target: None, outcome })
    }

    /// The lines about a target.
    fn target_lines(target: &str, moved: Moved) -> String {
        let signal = Signal { line: 3, text: "/A.r[/T]".to_string() };
        let outcome = Outcome::Home(Path::new("/A.r[/T]").unwrap());
        let target = Some(Box::new(Target { path: Path::new(target).unwrap(), moved }));
        let trace = Trace { signal: &signal, steps: Vec::new(), unaltered: None, target, outcome };
        let text = reported(true, &trace);
        text.strip_prefix("\nline 3: /A.r[/T]\n  home    /A.r[/T]\n").expect("the lines before").to_string()
    }

    #[test]
    fn targets_that_come_out() {
        let out = |path: &str, address| Moved::Out { path: Path::new(path).unwrap(), address };
        assert_eq!(
            target_lines("/T", out("/X", Path::new("/B.r[/X]"))),
            "  target  not moved by mapping: the brackets still name /T\n\
            \x20         /T itself would come out as /X\n\
            \x20         address with the moved target: /B.r[/X]\n"
        );
        let lines = target_lines("/T{v=p}.s[/U]", out("/X.s[/U]", Err(Refusal::MadeTooLong)));
        assert!(
            lines.ends_with(
                "itself would come out as /X.s[/U], its selections left out, its own brackets not moved\n\
                \x20         no address with the moved target: 7, the path made is longer than 255 bytes\n"
            ),
            "{lines}"
        );
        assert!(target_lines("/T{v=p}", out("/T{v=p}", Path::new("/A.r[/T{v=p}]"))).contains("as /T{v=p}\n"));
    }

    #[test]
    fn targets_that_stop() {
        let lines = target_lines("/T", Moved::Stopped { leg: 2, refusal: Refusal::NoPath });
        assert_eq!(lines.lines().count(), 2, "{lines}");
        assert!(lines.contains("\n          /T itself would stop at leg 2: 6, no path: no pair"), "{lines}");
    }

    #[test]
    fn outcomes() {
        let path = Path::new("/A/B").unwrap();
        assert_eq!(written(Outcome::Home(path.clone()), "/A/B"), "\nline 3: /A/B\n  home    /A/B\n");
        assert!(
            written(Outcome::Home(path.clone()), "/A{v=p}B")
                .ends_with("home    /A/B, its selections left out\n")
        );
        assert!(written(Outcome::Elsewhere(Ok(path)), "/A").ends_with("home    astray at /A/B\n"));
        assert!(
            written(Outcome::Elsewhere(Err(Refusal::MadeTooLong)), "/A")
                .contains("astray: 7, the path made is longer")
        );
        let stopped = Outcome::Stopped { leg: 12, refusal: Refusal::NoPath };
        assert!(written(stopped, "").starts_with("\nline 3: -\n  leg 12  stopped: 6, no path: no pair"));
    }

    #[test]
    fn the_unaltered_end_is_highlighted() {
        let signal = Signal { line: 3, text: "/A/b.c".to_string() };
        let path = |text: &str| Path::new(text).unwrap();
        let home = Outcome::Home(path("/A/b.c"));
        let mut trace = Trace {
            signal: &signal,
            steps: vec![path("/X/b.c"), path("/b.c")],
            unaltered: Some(2..6),
            target: None,
            outcome: home,
        };
        let plain = "\nline 3: /A/b.c\n  leg 1   /X/b.c\n  leg 2   /b.c\n  home    /A/b.c\n";
        assert_eq!(reported(true, &trace), plain.replace("/b.c", "\x1b[1;32m/b.c\x1b[0m"));
        assert_eq!(reported(false, &trace), plain);
        for nothing in [Some(6..6), Some(0..0), None] {
            trace.unaltered = nothing;
            assert_eq!(reported(true, &trace), plain);
        }
    }

    /// A path that does not end like the signal is not highlighted.
    #[test]
    fn only_the_same_end_is_highlighted() {
        let highlighted = |text, tail| Highlighted { text, tail }.to_string();
        assert_eq!(highlighted("/A/b", "/b"), "/A\x1b[1;32m/b\x1b[0m");
        assert_eq!(highlighted("/A", "/A"), "\x1b[1;32m/A\x1b[0m");
        assert_eq!(highlighted("/A/c", "/b"), "/A/c");
        assert_eq!(highlighted("-", ""), "-");
    }

    /// The range of the unaltered end counts bytes, of which some characters have two.
    #[test]
    fn ends_outside_ascii_are_highlighted() {
        let signal = Signal { line: 3, text: "/é/Jelző.ő".to_string() };
        let steps = vec![Path::new("/Ő/Jelző.ő").unwrap()];
        let outcome = Outcome::Home(Path::new("/é/Jelző.ő").unwrap());
        let trace = Trace { signal: &signal, steps, unaltered: Some(3..13), target: None, outcome };
        let plain = "\nline 3: /é/Jelző.ő\n  leg 1   /Ő/Jelző.ő\n  home    /é/Jelző.ő\n";
        assert_eq!(reported(false, &trace), plain);
        assert_eq!(reported(true, &trace), plain.replace("/Jelző.ő", "\x1b[1;32m/Jelző.ő\x1b[0m"));
    }

    /// What cannot be seen is escaped in a signal that is not legal, and other characters are not.
    #[test]
    fn hidden_characters_are_escaped() {
        for (text, shown) in [
            ("/A\u{1b}[2J", "/A\\u{1b}[2J"),
            ("/A\u{9b}2J", "/A\\u{9b}2J"),
            ("/Széll\u{a0}Kálmán", "/Széll\\u{a0}Kálmán"),
            ("/\u{2028}\u{3000}日本", "/\\u{2028}\\u{3000}日本"),
            ("/A{idő=hó}", "/A{idő=hó}"),
        ] {
            let written = written(Outcome::BadPath(Refusal::NotLegal), text);
            let expected = format!("\nline 3: {shown}\n  no signal: 2, the text is not a legal path\n");
            assert_eq!(written, expected);
        }
        assert_eq!(plain("a title, Széll Kálmán tér"), "a title, Széll Kálmán tér");
    }

    #[test]
    fn counts() {
        assert_eq!(["pair", "leg"].map(|what| counted(1, what)), ["1 pair", "1 leg"]);
        assert_eq!(counted(0, "signal"), "0 signals");
    }
}
