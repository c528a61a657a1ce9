//! Inputs and answers as text.

use frames_original::{Frame, answers};

pub fn answered(input: impl AsRef<[u8]>) -> String {
    String::from_utf8(answers(input.as_ref())).expect("digits")
}

pub fn line(frame: Frame) -> String {
    String::from_utf8(frame.line()).expect("digits") + "\n"
}

pub fn pair(source: &str, target: &str) -> String {
    line(Frame::Pair { source: source.as_bytes(), target: target.as_bytes() })
}
