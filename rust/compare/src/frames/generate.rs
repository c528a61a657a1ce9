//! Random scripts; the same seed yields the same scripts.

mod flawed;
mod limits;
mod malformed;
mod well_formed;
mod writer;

use crate::frames::script::Script;
use texts::random::Random;
use writer::Writer;

/// A script of any sort.
pub fn script(random: &mut Random) -> Script {
    let sort = random.below(20);
    let writer = &mut Writer::new(random);
    match sort {
        0..=9 => well_formed::route(writer),
        10 | 11 => well_formed::any_order(writer),
        12..=15 => malformed::bad_lines(writer),
        _ => limits::at_a_limit(writer),
    }
    writer.script()
}

#[cfg(test)]
mod tests {
    use super::script;
    use crate::frames::answers::Answers;
    use frames_original::{Frame, hex};
    use texts::random::Random;

    #[test]
    fn the_same_seed_gives_the_same_scripts() {
        let [one, other] = [(); 2].map(|()| {
            let random = &mut Random::new(5);
            (0..50).map(|_| script(random)).collect::<Vec<_>>()
        });
        assert_eq!(one, other);
    }

    #[test]
    fn every_answer_occurs() {
        let (random, answers) = (&mut Random::new(1), &mut Answers::default());
        for _ in 0..500 {
            answers.count(&frames_original::answers(&script(random).input()));
        }
        let found: Vec<String> = answers.numbers().map(|answer| answer.escape_ascii().to_string()).collect();
        let expected = "8100 8101 8102 8103 8104 8200 8300 8304 8305 8400 8404 8405 8500 8501 8502 8506 8507 8508 \
                        8600 8601 8602 8606 8607 8608 8700 FF09";
        assert_eq!(found.join(" "), expected);
    }

    /// The texts of a frame.
    fn texts(frame: Frame<'_>) -> Vec<&[u8]> {
        match frame {
            Frame::Pair { source, target } => vec![source, target],
            Frame::Out(path) | Frame::Home(path) => vec![path],
            _ => Vec::new(),
        }
    }

    /// The answers to frames of scripts that have a text with such a byte.
    fn answered_with(is_such: fn(&u8) -> bool) -> Vec<String> {
        let (random, mut found) = (&mut Random::new(1), Vec::new());
        for _ in 0..500 {
            let script = script(random);
            let answers = frames_original::answers(&script.input());
            for (line, answer) in script.lines.iter().zip(answers.split(|byte| *byte == b'\n')) {
                let bytes = hex::read(line).unwrap_or_default();
                if Frame::read(&bytes).map(texts).unwrap_or_default().concat().iter().any(is_such) {
                    found.push(answer.escape_ascii().to_string());
                }
            }
        }
        found
    }

    /// Asserts that each of these numbers occurs often at the start of an answer.
    fn assert_often(answers: &[String], numbers: &[&str]) {
        for number in numbers {
            let count = answers.iter().filter(|answer| answer.starts_with(number)).count();
            assert!(count > 10, "{number} {count}");
        }
    }

    #[test]
    fn paths_with_brackets_come_out_and_home_and_are_no_ends() {
        let answers = answered_with(|byte| *byte == b'[');
        assert_often(&answers, &["8500", "8600", "8103", "8102"]);
    }

    #[test]
    fn texts_outside_ascii_come_out_and_home_and_are_ends_and_are_refused() {
        let answers = answered_with(|byte| !byte.is_ascii());
        assert_often(&answers, &["8100", "8101", "8102", "8103", "8500", "8501", "8502", "8506", "8507"]);
        assert_often(&answers, &["8600", "8601", "8602", "8606", "8607"]);
    }

    #[test]
    fn some_scripts_lack_the_last_newline() {
        let random = &mut Random::new(1);
        let open_ends = (0..200).filter(|_| script(random).open_end).count();
        assert!((1..100).contains(&open_ends));
    }
}
