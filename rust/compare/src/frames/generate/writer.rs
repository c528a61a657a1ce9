//! Writes a script line by line, and computes the answers so far.

use crate::frames::script::Script;
use frames_original::{Frame, Run, hex};
use texts::ends::family;
use texts::random::Random;

pub type Pair = [Vec<u8>; 2];

pub struct Writer<'a> {
    pub random: &'a mut Random,
    /// The ends that most pairs are built from.
    pub ends: Vec<Vec<u8>>,
    /// The pairs of the open list.
    pub open: Vec<Pair>,
    /// The lists of the closed legs.
    pub legs: Vec<Vec<Pair>>,
    /// Paths that came out.
    pub reached: Vec<Vec<u8>>,
    run: Run,
    lines: Vec<Vec<u8>>,
}

impl<'a> Writer<'a> {
    pub fn new(random: &'a mut Random) -> Self {
        let size = random.within(3..=12);
        let ends = family(random, size);
        let (open, legs, reached, run, lines) = Default::default();
        Writer { random, ends, open, legs, reached, run, lines }
    }

    /// Returns the script. One in eight lacks its last newline.
    pub fn script(&mut self) -> Script {
        Script { lines: std::mem::take(&mut self.lines), open_end: self.random.one_in(8) }
    }

    /// Adds a line and returns the bytes of its answer.
    pub fn line(&mut self, line: Vec<u8>) -> Vec<u8> {
        let mut answer = Vec::new();
        self.run.process(&line, &mut answer);
        self.run.process(b"\n", &mut answer);
        self.lines.push(line);
        hex::read(answer.trim_ascii_end()).expect("an answer of digits")
    }

    /// Adds a frame, one in six with some or all letters in lower case, and returns the bytes of its answer.
    pub fn frame(&mut self, frame: Frame) -> Vec<u8> {
        let mut line = frame.line();
        match self.random.below(12) {
            0 => line.make_ascii_lowercase(),
            1 => line.iter_mut().filter(|_| self.random.one_in(2)).for_each(u8::make_ascii_lowercase),
            _ => {}
        }
        self.line(line)
    }

    pub fn pair(&mut self, pair: Pair) {
        let [source, target] = &pair;
        if self.frame(Frame::Pair { source, target })[1] == 0 {
            self.open.push(pair);
        }
    }

    pub fn any_end(&mut self) -> Vec<u8> {
        self.random.pick(&self.ends).clone()
    }

    pub fn any_pair(&mut self) -> Pair {
        [self.any_end(), self.any_end()]
    }

    /// A frame that closes the open list, two times in three as a map.
    pub fn any_close(&mut self) -> Frame<'static> {
        if self.random.one_in(3) { Frame::CloseRelocates } else { Frame::CloseMap }
    }

    pub fn close_as_any(&mut self) {
        let kind = self.any_close();
        self.close_or_else(kind);
    }

    /// Closes the open list. If that is refused, it is tried with the other kind one time in two.
    pub fn close_or_else(&mut self, kind: Frame) {
        if !self.close(kind) && self.random.one_in(2) {
            self.close(if kind == Frame::CloseMap { Frame::CloseRelocates } else { Frame::CloseMap });
        }
    }

    /// Closes the open list, and returns whether that is accepted.
    pub fn close(&mut self, kind: Frame) -> bool {
        let accepted = self.frame(kind)[1] == 0;
        if accepted {
            self.legs.push(std::mem::take(&mut self.open));
        }
        accepted
    }

    /// Adds a path out, and returns the resulting path.
    pub fn out(&mut self, path: &[u8]) -> Option<Vec<u8>> {
        let reached = path_answered(self.frame(Frame::Out(path)));
        self.reached.extend(reached.clone());
        reached
    }

    pub fn home(&mut self, path: &[u8]) -> Option<Vec<u8>> {
        path_answered(self.frame(Frame::Home(path)))
    }
}

fn path_answered(answer: Vec<u8>) -> Option<Vec<u8>> {
    if answer[1] == 0 { Some(answer[2..].to_vec()) } else { None }
}
