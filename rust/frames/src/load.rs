//! A long input like that of a real user: legs at the start, then mostly paths out and home.

use crate::frame::Frame;
use texts::random::Random;

/// The size of the input: the number of legs, the number of pairs of each leg, and the total number of frames.
#[derive(Clone, Copy)]
pub struct Load {
    pub legs: usize,
    pub pairs: usize,
    pub frames: usize,
}

/// The number of pairs of the list that stays open.
const OPEN: usize = 8;

const STAGES: [&str; 4] = ["World", "Region", "Site", "Depot"];
const LINES: [&str; 3] = ["Line", "Track", "Yard"];
const PARTS: [&str; 6] = [
    "/Head/Lens.color",
    "/Mast/Lamp_2",
    ".aspect:state",
    "/Head_1.state",
    "/Head/Lens_3.color:next",
    "/Mast",
];

impl Load {
    /// The whole input.
    pub fn input(&self) -> Vec<u8> {
        let random = &mut Random::new(7);
        let mut lines = Vec::with_capacity(self.frames);
        for leg in 0..self.legs {
            self.leg(leg, &mut lines);
        }
        for pair in 0..OPEN {
            lines.push(pair_line(&format!("{}/Mast", signal(0, pair)), &format!("{}/Mast", signal(9, pair))));
        }
        while lines.len() + 1 < self.frames {
            lines.push(self.random_frame(random));
        }
        lines.push(Frame::Count.line());
        lines.push(Vec::new());
        lines.join(&b'\n')
    }

    /// Appends the pairs of a leg and the frame that closes it. Every fourth leg is a relocate list; all its pairs are Active.
    fn leg(&self, leg: usize, lines: &mut Vec<Vec<u8>>) {
        for pair in 0..self.pairs {
            lines.push(pair_line(&signal(leg, pair), &signal(leg + 1, pair)));
        }
        let close = if leg % 4 == 3 { Frame::CloseRelocates } else { Frame::CloseMap };
        lines.push(close.line());
    }

    /// A random frame. Of a hundred, about 58 are 05, 39 are 06, and one each is 07, 02 and 01. The 01 frame is refused, since
    /// its target is a property.
    fn random_frame(&self, random: &mut Random) -> Vec<u8> {
        match random.below(100) {
            0..58 => Frame::Out(self.path(random, 0).as_bytes()).line(),
            58..97 => Frame::Home(self.path(random, self.legs).as_bytes()).line(),
            97 => Frame::Count.line(),
            98 => Frame::Statuses.line(),
            _ => pair_line(&self.path(random, 0), &format!("{}.state", signal(9, random.below(self.pairs)))),
        }
    }

    /// A path below a key of this leg; one in twenty is below none.
    fn path(&self, random: &mut Random, leg: usize) -> String {
        let part = random.pick(&PARTS);
        let key = if random.one_in(20) { "/Elsewhere".into() } else { signal(leg, random.below(self.pairs)) };
        format!("{key}{part}")
    }
}

fn pair_line(source: &str, target: &str) -> Vec<u8> {
    Frame::Pair { source: source.as_bytes(), target: target.as_bytes() }.line()
}

/// The source of a pair of a leg, such as `/World/Line_12/Signal_034`, which is also the target of that pair in the leg
/// before. No two are equal, and none is a prefix of another.
pub fn signal(leg: usize, pair: usize) -> String {
    let (stage, line) = (STAGES[leg % STAGES.len()], LINES[leg % LINES.len()]);
    format!("/{stage}/{line}_{:02}/Signal_{:03}", pair / 8 + leg, pair * 7 + leg)
}

#[cfg(test)]
mod tests {
    use super::Load;
    use crate::run::answers;

    #[test]
    fn most_paths_come_through() {
        for (legs, pairs) in [(1, 8), (4, 8), (16, 8), (4, 64)] {
            let answers = answers(&Load { legs, pairs, frames: 5_000 }.input());
            let count =
                |kind: &[u8]| answers.split(|byte| *byte == b'\n').filter(|l| l.starts_with(kind)).count();
            for [given, none] in [[b"8500", b"8506"], [b"8600", b"8606"]] {
                assert!(count(given) > 15 * count(none) && count(none) > 0, "{legs} {pairs}");
            }
            assert!([b"8305", b"8405", b"FF09"].iter().all(|refused| count(*refused) == 0), "{legs} {pairs}");
        }
    }
}
