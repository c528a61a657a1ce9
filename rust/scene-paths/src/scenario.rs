//! Parsing a scenario. `help.txt` describes its syntax.

use mudvizsor::{Leg, MAX_LEGS, MAX_PAIRS, MapFunction, Path, Refusal, Relocates};

/// Legs, and the signals to map over them.
#[derive(Debug, Default)]
pub struct Scenario {
    pub legs: Vec<Section>,
    pub signals: Vec<Signal>,
}

/// A leg of a scenario.
#[derive(Debug)]
pub struct Section {
    /// The number of its first line.
    pub line: usize,
    pub title: String,
    pub leg: Leg,
    /// The line number of each pair.
    pub lines: Vec<usize>,
}

impl Section {
    /// The keyword of its first line.
    pub fn kind(&self) -> &'static str {
        match self.leg {
            Leg::Map(_) => "map",
            Leg::Relocates(_) => "relocates",
        }
    }
}

/// The text of a signal, which need not be a legal path.
#[derive(Debug)]
pub struct Signal {
    pub line: usize,
    pub text: String,
}

/// An error in a scenario.
#[derive(Debug, PartialEq)]
pub struct Problem {
    pub line: usize,
    pub message: String,
}

/// A leg that is being parsed.
struct OpenLeg {
    line: usize,
    relocates: bool,
    title: String,
    pairs: Vec<(Path, Path)>,
    lines: Vec<usize>,
}

/// The section that the current line belongs to.
enum Current {
    None,
    Leg(OpenLeg),
    Signals,
}

struct Reader {
    scenario: Scenario,
    current: Current,
    leg_count: usize,
    problems: Vec<Problem>,
}

impl Scenario {
    /// Parses the whole text; returns the scenario, or all its problems.
    pub fn read(bytes: &[u8]) -> Result<Self, Vec<Problem>> {
        let text = str::from_utf8(bytes).map_err(|_| not_utf8(bytes))?;
        let mut reader = Reader {
            scenario: Scenario::default(),
            current: Current::None,
            leg_count: 0,
            problems: Vec::new(),
        };
        let mut last = 1;
        for (i, line) in text.trim_start_matches('\u{feff}').lines().enumerate() {
            last = i + 1;
            reader.line(last, line);
        }
        reader.end(last)
    }
}

/// The first bad byte of each line that is not UTF-8. No other problems are reported then, since such a line is not parsed.
fn not_utf8(bytes: &[u8]) -> Vec<Problem> {
    let problem = |(i, line): (usize, &[u8])| {
        let bad = str::from_utf8(line).err()?.valid_up_to();
        let message = format!("the text is not UTF-8 at byte {} of the line ({:#04x})", bad + 1, line[bad]);
        Some(Problem { line: i + 1, message })
    };
    bytes.split(|&byte| byte == b'\n').enumerate().filter_map(problem).collect()
}

/// The words of a line without its comment; none if the line is blank. White space outside ASCII separates no words: in a path
/// it is an error that must be reported, not two paths.
fn words(line: &str) -> Vec<&str> {
    if line.trim().is_empty() {
        return Vec::new();
    }
    line.split_ascii_whitespace().take_while(|word| !word.starts_with('#')).collect()
}

/// A title, with single spaces in place of all white space.
fn title(words: &[&str]) -> String {
    words.iter().flat_map(|word| word.split_whitespace()).collect::<Vec<_>>().join(" ")
}

/// What a message about words that were not understood adds if they contain white space: it looks as if it separated words.
fn remark(words: &[&str]) -> String {
    match words.iter().flat_map(|word| word.chars()).find(|c| c.is_whitespace()) {
        Some(c) => format!("; the white space `{}` separates no words", c.escape_unicode()),
        None => String::new(),
    }
}

impl Reader {
    fn problem(&mut self, line: usize, message: impl Into<String>) {
        self.problems.push(Problem { line, message: message.into() });
    }

    fn line(&mut self, number: usize, line: &str) {
        let words = words(line);
        match words[..] {
            [] => {}
            ["signals"] => self.begin_signals(),
            ["signals", ..] => self.problem(number, "`signals` must be alone on its line"),
            ["map", ref words @ ..] => self.begin_leg(number, false, title(words)),
            ["relocates", ref words @ ..] => self.begin_leg(number, true, title(words)),
            _ => self.entry(number, &words),
        }
    }

    fn begin_leg(&mut self, line: usize, relocates: bool, title: String) {
        if let Current::Signals = self.current {
            return self.problem(line, "a leg after the signals; all legs must come before them");
        }
        self.close();
        self.leg_count += 1;
        if self.leg_count == MAX_LEGS + 1 {
            self.problem(line, format!("more than {MAX_LEGS} legs (4)"));
        }
        self.current = Current::Leg(OpenLeg { line, relocates, title, pairs: Vec::new(), lines: Vec::new() });
    }

    fn begin_signals(&mut self) {
        self.close();
        self.current = Current::Signals;
    }

    /// Parses a line within a section.
    fn entry(&mut self, number: usize, words: &[&str]) {
        let message = match (&self.current, words) {
            (Current::Signals, &[text]) => {
                self.scenario.signals.push(Signal { line: number, text: path_text(text).to_string() });
                return;
            }
            (Current::Leg(_), &[source, "->", target]) => return self.pair(number, source, target),
            (Current::None, _) => "no section has begun: `map`, `relocates` or `signals` comes first",
            (Current::Signals, _) => "a signal is one path, alone on its line",
            (Current::Leg(_), _) => {
                "neither a pair, `SOURCE -> TARGET`, nor the beginning of a section, `map`, `relocates` or `signals`"
            }
        };
        self.problem(number, format!("{message}{}", remark(words)));
    }

    fn pair(&mut self, number: usize, source: &str, target: &str) {
        let ends = [source, target].map(|text| end(text).map_err(|message| self.problem(number, message)));
        let Current::Leg(open) = &mut self.current else { return };
        open.lines.push(number);
        if let [Ok(source), Ok(target)] = ends {
            open.pairs.push((source, target));
        }
        if open.lines.len() == MAX_PAIRS + 1 {
            self.problem(number, format!("more than {MAX_PAIRS} pairs in this leg (4)"));
        }
    }

    /// Builds the leg of the pairs that were parsed.
    fn close(&mut self) {
        let Current::Leg(OpenLeg { line, relocates, title, pairs, lines }) =
            std::mem::replace(&mut self.current, Current::None)
        else {
            return;
        };
        if !self.problems.is_empty() {
            return;
        }
        let leg = match relocates {
            true => Relocates::new(pairs).map(Leg::from),
            false => MapFunction::new(pairs).map(Leg::from),
        };
        match leg {
            Ok(leg) => self.scenario.legs.push(Section { line, title, leg, lines }),
            Err(refusal) => self.problem(line, numbered(refusal)),
        }
    }

    fn end(mut self, last: usize) -> Result<Scenario, Vec<Problem>> {
        self.close();
        if self.scenario.signals.is_empty() && self.problems.is_empty() {
            self.problem(last, "the scenario ends without a signal: `signals`, then a path on each line");
        }
        if self.problems.is_empty() { Ok(self.scenario) } else { Err(self.problems) }
    }
}

/// The path text of a word: `-` is the empty path.
fn path_text(word: &str) -> &str {
    if word == "-" { "" } else { word }
}

/// Parses an end (source or target) of a pair; the error is a message.
fn end(word: &str) -> Result<Path, String> {
    let path = Path::new(path_text(word))
        .and_then(|path| if path.is_end() { Ok(path) } else { Err(Refusal::NotAnEnd) });
    path.map_err(|refusal| format!("`{}`: {}", word.escape_debug(), numbered(refusal)))
}

/// The text of a refusal with its number.
fn numbered(refusal: Refusal) -> String {
    format!("{refusal} ({})", refusal.number())
}

#[cfg(test)]
mod tests;
