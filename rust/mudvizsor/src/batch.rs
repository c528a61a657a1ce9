//! Calls that map many paths at once.

use crate::Path;
use crate::ffi::Reply;
use crate::ffi::maps::Paths;
use crate::path::MAX_PATH_LEN;
use crate::refusal::{Result, accepted, read};

/// The number of paths that are passed to the library in one call; more paths are passed in several calls.
const BATCH: usize = 4_096;

/// Maps each path and returns the results in the order of the paths. `call` is passed a batch of paths, an output buffer with
/// 255 bytes for each, and a buffer with one number for each reply.
pub(crate) fn map_in_batches<'a>(
    paths: impl IntoIterator<Item = &'a Path>,
    mut call: impl FnMut(Paths, &mut [u8], &mut [usize]) -> Reply,
) -> Vec<Result<Path>> {
    let paths: Vec<&Path> = paths.into_iter().collect();
    let mut answers = Vec::with_capacity(paths.len());
    let mut out = vec![0; MAX_PATH_LEN * paths.len().min(BATCH)];
    for chunk in paths.chunks(BATCH) {
        let (texts, spots) = pack(chunk);
        let mut replies = vec![0; chunk.len()];
        let lent = Paths { texts: &texts, spots: &spots, count: chunk.len() };
        accepted(call(lent, &mut out, &mut replies));
        answers.extend(
            replies.into_iter().zip(out.chunks(MAX_PATH_LEN)).map(|(reply, bytes)| read_reply(reply, bytes)),
        );
    }
    answers
}

/// Concatenates the texts; returns them with the start and length of each.
fn pack(paths: &[&Path]) -> (Vec<u8>, Vec<usize>) {
    let (mut texts, mut spots) = (Vec::new(), Vec::with_capacity(2 * paths.len()));
    for path in paths {
        spots.extend([texts.len(), path.as_bytes().len()]);
        texts.extend(path.as_bytes());
    }
    (texts, spots)
}

/// Converts a reply, and the bytes written for it, to the resulting path.
fn read_reply(reply: usize, bytes: &[u8]) -> Result<Path> {
    read(Reply(reply)).map(|length| Path::written(&bytes[..length]))
}

#[cfg(test)]
mod tests {
    use crate::{Direction, MapFunction, Path, Refusal};

    #[test]
    fn more_paths_than_are_given_at_once() {
        let map = MapFunction::from_pair("/A", "/B").unwrap();
        let count = 2 * super::BATCH + 7;
        let name = |i: usize| if i % 3 == 2 { "/Q".to_string() } else { format!("/A/n{i}") };
        let paths: Vec<Path> = (0..count).map(|i| Path::new(&name(i)).unwrap()).collect();
        let answers = map.map_all(Direction::Translated, &paths);
        assert_eq!(answers.len(), count);
        for (path, answer) in paths.iter().zip(answers) {
            assert_eq!(answer, map.translate_to_target(path));
            assert_eq!(answer.err(), (path.as_str() == "/Q").then_some(Refusal::NoPath));
        }
    }

    #[test]
    fn no_paths_at_all() {
        assert_eq!(MapFunction::identity().map_all(Direction::Out, []), []);
    }
}
