//! The protocol of the program `frames`, line by line.

use crate::ffi::frames::{MAX_ANSWER_LEN, OwnedState, line};
use crate::refusal::accepted;

/// A run of the protocol of the program `frames`: each frame, a line of hexadecimal digits, is answered by a line.
///
/// The protocol is described in `docs/REQUIREMENTS.md`, section Frames.
///
/// ```
/// let mut frames = mudvizsor::Frames::new();
/// assert_eq!(frames.answer("0100022F4100022F42"), "8100");
/// assert_eq!(frames.answer("03"), "8300");
/// assert_eq!(frames.answer("052F412F43"), "85002F422F43");
/// assert_eq!(frames.answer("062F422F43"), "86002F412F43");
/// assert_eq!(frames.answer("052F51"), "8506");
/// assert_eq!(frames.answer("07"), "870000000001");
/// assert_eq!(frames.answer("no frame"), "FF09");
/// ```
#[derive(Debug, Clone, Default)]
pub struct Frames {
    state: OwnedState,
}

impl Frames {
    /// Starts a run: no open list, no legs.
    ///
    /// ```
    /// assert_eq!(mudvizsor::Frames::new().answer("07"), "870000000000");
    /// ```
    pub fn new() -> Self {
        Self::default()
    }

    /// Executes a frame and returns the answer line, both without their newlines. A bad frame is answered `FF09`.
    ///
    /// ```
    /// let mut frames = mudvizsor::Frames::new();
    /// assert_eq!(frames.answer("052f41"), "85002F41");
    /// ```
    pub fn answer(&mut self, frame: &str) -> String {
        let mut out = [0; MAX_ANSWER_LEN];
        let length = accepted(line(frame.as_bytes(), self.state.lend(), &mut out));
        String::from_utf8_lossy(&out[..length - 1]).into_owned()
    }
}

#[cfg(test)]
mod tests {
    use super::Frames;
    use crate::ffi::frames::{MAX_ANSWER_LEN, OwnedState, line};
    use crate::refusal::accepted;

    fn answer(state: &mut OwnedState, frame: &str) -> String {
        let mut out = [0; MAX_ANSWER_LEN];
        let length = accepted(line(frame.as_bytes(), state.lend(), &mut out));
        String::from_utf8_lossy(&out[..length - 1]).into_owned()
    }

    #[test]
    fn an_altered_state_is_answered_with_a_number() {
        let mut state = OwnedState::new();
        for frame in ["0100022F4100022F42", "03", "0100022F4100022F42"] {
            assert!(answer(&mut state, frame).ends_with("00"));
        }
        let mut illegal_list = state.clone();
        illegal_list.lend().bytes[1] = b'-';
        let mut illegal_leg = state.clone();
        illegal_leg.lend().store[1] = b'-';
        let mut many_legs = state.clone();
        many_legs.lend().numbers[2] = 17;
        let mut many_bytes = state.clone();
        many_bytes.lend().numbers[3] = 32_769;
        assert_eq!(
            ["02", "03", "04"].map(|frame| answer(&mut illegal_list, frame)),
            ["8202", "8302", "8402"]
        );
        assert_eq!(["052F41", "062F42"].map(|frame| answer(&mut illegal_leg, frame)), ["8502", "8602"]);
        assert_eq!(
            ["03", "052F41", "062F42"].map(|frame| answer(&mut many_legs, frame)),
            ["8304", "8504", "8604"]
        );
        assert_eq!(answer(&mut many_bytes, "03"), "8305");
        assert_eq!(answer(&mut state, "052F41"), "85002F42");
    }

    #[test]
    fn a_bad_frame_needs_five_bytes() {
        let mut state = OwnedState::new();
        let mut out = [0; 5];
        assert_eq!(accepted(line(b"0", state.lend(), &mut out)), 5);
        assert_eq!(&out, b"FF09\n");
    }

    /// Checks that each frame of a recorded scenario gets the recorded answer.
    fn check_scenario(input: &str, expected: &str) {
        let mut frames = Frames::new();
        let answers: Vec<_> = input.lines().map(|line| frames.answer(line)).collect();
        assert_eq!(answers, expected.lines().collect::<Vec<_>>());
    }

    #[test]
    fn the_scenario_of_line_7() {
        check_scenario(
            include_str!("../../../scenarios/line-7.frames"),
            include_str!("../../../scenarios/line-7.answers"),
        );
    }

    /// Its names have characters outside ASCII.
    #[test]
    fn the_scenario_of_line_61() {
        check_scenario(
            include_str!("../../../scenarios/line-61.frames"),
            include_str!("../../../scenarios/line-61.answers"),
        );
    }

    #[test]
    fn the_recorded_run_of_the_program() {
        let input = include_str!("../../../crates/frames/stdin");
        let expected = include_str!("../../../crates/frames/stdout");
        let mut frames = Frames::new();
        for (line, answer) in input.split('\n').zip(expected.lines()) {
            assert_eq!(frames.answer(line), answer);
        }
        assert_eq!(input.split('\n').count(), expected.lines().count());
    }
}
