//! A buffer lent to a call, filled with a pattern that shows afterwards what was written.

/// The number of items on either side of the lent ones that are checked too.
const MARGIN: usize = 16;

pub struct Lent<T> {
    pattern: Vec<T>,
    memory: Vec<T>,
}

impl Lent<u8> {
    /// A buffer of bytes. Every byte of the pattern is a control from 16 to 31, so none can be a byte of a path.
    pub fn bytes(most: usize) -> Self {
        Lent::new((0..most + 2 * MARGIN).map(|at| 0x10 | at as u8 & 0x0F).collect())
    }
}

impl Lent<usize> {
    /// A buffer of numbers. No number of the pattern can be the length of a path.
    pub fn numbers(most: usize) -> Self {
        Lent::new((0..most + 2 * MARGIN).map(|at| usize::MAX - at).collect())
    }
}

impl<T: Copy + PartialEq> Lent<T> {
    fn new(pattern: Vec<T>) -> Self {
        Lent { memory: pattern.clone(), pattern }
    }

    /// Lends `capacity` items, filled with the pattern.
    pub fn lend(&mut self, capacity: usize) -> &mut [T] {
        self.memory.copy_from_slice(&self.pattern);
        &mut self.memory[MARGIN..MARGIN + capacity]
    }

    /// The contents of `capacity` lent items before the call.
    pub fn before(&self, capacity: usize) -> &[T] {
        &self.pattern[MARGIN..MARGIN + capacity]
    }

    /// Returns the first wrong index, if `written` was to be written to the start of the lent items and nothing else
    /// anywhere. An index before the lent items is negative.
    pub fn first_wrong(&self, written: &[T]) -> Option<isize> {
        let end = MARGIN + written.len();
        let agrees = self.memory[..MARGIN] == self.pattern[..MARGIN]
            && self.memory[MARGIN..end] == *written
            && self.memory[end..] == self.pattern[end..];
        if agrees {
            return None;
        }
        let expected = self.pattern[..MARGIN].iter().chain(written).chain(&self.pattern[end..]);
        let at = self.memory.iter().zip(expected).position(|(found, expected)| found != expected)?;
        Some(at as isize - MARGIN as isize)
    }

    /// Returns the first index at which another buffer of the same size has other contents.
    pub fn first_difference(&self, other: &Self) -> Option<isize> {
        if self.memory == other.memory {
            return None;
        }
        let at = self.memory.iter().zip(&other.memory).position(|(one, other)| one != other)?;
        Some(at as isize - MARGIN as isize)
    }
}
