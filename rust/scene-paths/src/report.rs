//! The interface of the report formats.

use crate::scenario::Section;
use crate::trace::{Outcome, Trace};
use std::io;

/// A format of the report.
pub trait Report {
    /// Whether it shows [`Trace::unaltered`], which is computed only then.
    fn shows_unaltered(&self) -> bool;
    fn begin(&mut self, legs: &[Section]) -> io::Result<()>;
    fn trace(&mut self, trace: &Trace) -> io::Result<()>;
    fn end(&mut self, summary: &Summary) -> io::Result<()>;
    fn flush(&mut self) -> io::Result<()>;
}

/// The number of signals, and how many of them came home.
#[derive(Debug, Default, Clone, Copy, PartialEq, Eq)]
pub struct Summary {
    pub signals: usize,
    pub came_home: usize,
}

impl Summary {
    pub fn count(&mut self, trace: &Trace) {
        self.signals += 1;
        self.came_home += usize::from(matches!(trace.outcome, Outcome::Home(_)));
    }
}
