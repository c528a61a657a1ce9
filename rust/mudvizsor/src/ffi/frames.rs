//! The entry that processes one line of the program `frames`.

use super::{Reply, entry};

/// The length of the longest answer line in bytes: two digits for each of 2 bytes and a path of 255, and the newline.
pub const MAX_ANSWER_LEN: usize = 515;

/// The state of the protocol between two lines, as it is lent to a call. All of it is 0 before the first line, and the
/// slices have the lengths given here; with shorter ones, frames that do not fit are answered with 4 or 5.
pub struct LentState<'a> {
    /// Five numbers: pairs and bytes of the open list, legs and their bytes before redundant pairs are dropped, and the
    /// number of 05 frames that were answered with 00.
    pub numbers: &'a mut [usize],
    /// The bytes of the ends of the open list: 32,640.
    pub bytes: &'a mut [u8],
    /// The places of these ends: 256 numbers.
    pub places: &'a mut [usize],
    /// The bytes of the ends of the closed legs: 32,768.
    pub store: &'a mut [u8],
    /// The places of these ends: 4,096 numbers.
    pub slots: &'a mut [usize],
    /// Three numbers for each closed leg: 48.
    pub table: &'a mut [usize],
}

/// Allocated buffers for a [`LentState`], of the lengths given there.
#[derive(Debug, Clone)]
pub struct OwnedState {
    numbers: [usize; 5],
    bytes: Vec<u8>,
    places: Vec<usize>,
    store: Vec<u8>,
    slots: Vec<usize>,
    table: Vec<usize>,
}

impl OwnedState {
    /// The state before the first line.
    pub fn new() -> Self {
        OwnedState {
            numbers: [0; 5],
            bytes: vec![0; 32_640],
            places: vec![0; 256],
            store: vec![0; 32_768],
            slots: vec![0; 4_096],
            table: vec![0; 48],
        }
    }

    /// Lends the buffers to a call.
    pub fn lend(&mut self) -> LentState<'_> {
        let OwnedState { numbers, bytes, places, store, slots, table } = self;
        LentState { numbers, bytes, places, store, slots, table }
    }
}

impl Default for OwnedState {
    fn default() -> Self {
        Self::new()
    }
}

/// Executes the frame in `line`, which is given without its newline, and writes the answer line with its newline to `out`,
/// which needs [`MAX_ANSWER_LEN`] bytes, or 5 for a bad frame. The value is the length written. What the frame uses of the
/// state is checked first, so a frame on an altered state is answered with the number of the question that failed.
pub fn line(line: &[u8], state: LentState, out: &mut [u8]) -> Reply {
    entry!(mudvizsor_frames_line:
        text line, slots state.numbers, out state.bytes, slots state.places, out state.store, slots state.slots,
        slots state.table, out out,)
}
