//! A progress line on standard error, shown for long inputs if standard error is a terminal.

use std::io::{IsTerminal, Stderr, Write, stderr};

/// Inputs with fewer signals show no progress, since they are done at once.
const LONG: usize = 20_000;

pub struct Progress<W: Write> {
    out: W,
    total: usize,
    /// Whether the line is shown at all.
    enabled: bool,
}

impl Progress<Stderr> {
    pub fn of_signals(total: usize) -> Self {
        Progress { out: stderr(), total, enabled: total >= LONG && stderr().is_terminal() }
    }
}

impl<W: Write> Progress<W> {
    /// Shows how many signals are done. A write error is ignored.
    pub fn show(&mut self, done: usize) {
        if self.enabled {
            let _ = write!(self.out, "\r{done} of {} signals", self.total);
            let _ = self.out.flush();
        }
    }

    /// Clears the line before other lines are written.
    pub fn clear(&mut self) {
        if self.enabled {
            let _ = write!(self.out, "\r\x1b[K");
            let _ = self.out.flush();
        }
    }
}

#[cfg(test)]
mod tests {
    use super::*;

    fn shown(enabled: bool) -> String {
        let mut out = Vec::new();
        let mut progress = Progress { out: &mut out, total: 30_000, enabled };
        progress.show(4_096);
        progress.clear();
        String::from_utf8(out).unwrap()
    }

    #[test]
    fn the_line_is_cleared() {
        assert_eq!(shown(true), "\r4096 of 30000 signals\r\x1b[K");
    }

    #[test]
    fn nothing_is_shown_if_disabled() {
        assert_eq!(shown(false), "");
    }

    #[test]
    fn short_inputs_show_nothing() {
        assert!(!Progress::of_signals(LONG - 1).enabled);
    }
}
