//! The scenarios of the tram lines in the repository.

use frames_original::answers;

fn check(frames: &[u8], recorded: &[u8]) {
    assert_eq!(answers(frames).escape_ascii().to_string(), recorded.escape_ascii().to_string());
}

#[test]
fn line_7_gets_the_recorded_answers() {
    check(
        include_bytes!("../../../scenarios/line-7.frames"),
        include_bytes!("../../../scenarios/line-7.answers"),
    );
}

#[test]
fn line_61_gets_the_recorded_answers() {
    check(
        include_bytes!("../../../scenarios/line-61.frames"),
        include_bytes!("../../../scenarios/line-61.answers"),
    );
}
