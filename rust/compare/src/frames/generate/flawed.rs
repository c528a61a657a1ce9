//! Well-formed frames whose texts are too long, not legal, or not ends.

use crate::frames::generate::writer::Writer;
use frames_original::Frame;
use texts::MAX_PATH_LEN;
use texts::damage::damaged;
use texts::generate::{legal_text, length};
use texts::mixed::{mixed_text, text_around_the_limit};
use texts::random::Random;

/// The maximum number of bytes of both ends of a pair that fit in a line.
const MAX_PAIR_BYTES: usize = 2_048 - 5;

/// Legal texts that are not ends.
const NOT_ENDS: [&str; 9] = [
    "/A.b",
    "/A{v=p}",
    "/A{v=p}B",
    "/A/B.c:d",
    "/A{v=p}.b",
    "/A.b[/C]",
    "/A.b[/C{v=p}.d[/]]",
    "/é.b",
    "/A{v=p}é",
];

/// Adds a frame with a pair or a path that is mostly refused.
pub fn frame(writer: &mut Writer) {
    let text = text(writer.random);
    match writer.random.below(4) {
        0 => {
            writer.out(&text);
        }
        1 => {
            writer.home(&text);
        }
        2 => {
            let mut pair = [writer.any_end(), text];
            if writer.random.one_in(2) {
                pair.reverse();
            }
            writer.pair(pair);
        }
        _ => {
            let other = self::text(writer.random);
            let capacity = MAX_PAIR_BYTES.saturating_sub(text.len());
            writer.frame(Frame::Pair { source: &text, target: &other[..other.len().min(capacity)] });
        }
    }
}

/// A text that fails some check, or nearly does.
fn text(random: &mut Random) -> Vec<u8> {
    match random.below(8) {
        0 => {
            let length = random.within(MAX_PATH_LEN - 1..=MAX_PATH_LEN + 2);
            legal_text(random, length)
        }
        1 => {
            let length = random.within(MAX_PATH_LEN + 1..=MAX_PAIR_BYTES);
            legal_text(random, length)
        }
        2 => (0..random.below(20)).map(|_| random.below(256) as u8).collect(),
        3 => random.pick(&NOT_ENDS).as_bytes().to_vec(),
        4 => text_around_the_limit(random),
        5 => {
            let length = length(random);
            mixed_text(random, length)
        }
        _ => {
            let length = length(random);
            let legal = legal_text(random, length);
            damaged(random, &legal)
        }
    }
}
