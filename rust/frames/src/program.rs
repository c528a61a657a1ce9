//! Locates the program `frames`.

use std::env;
use std::path::{Path, PathBuf};

/// The program of this repository, as `tools/build frames` builds it.
const BUILT: &str = concat!(env!("CARGO_MANIFEST_DIR"), "/../../target/bin/frames");

/// The program that the environment variable FRAMES names, else the one of this repository.
pub fn usual() -> PathBuf {
    env::var_os("FRAMES").map_or_else(|| BUILT.into(), PathBuf::from)
}

/// Returns an error if the program is missing.
pub fn check(program: &Path) -> Result<(), String> {
    if program.is_file() {
        return Ok(());
    }
    let path = program.display();
    Err(format!(
        "there is no program {path}: `tools/build frames` builds it, --program or FRAMES names another"
    ))
}

#[cfg(test)]
mod tests {
    use super::check;
    use std::path::Path;

    #[test]
    fn a_missing_program_is_an_error() {
        assert_eq!(check(Path::new(concat!(env!("CARGO_MANIFEST_DIR"), "/src/main.rs"))), Ok(()));
        let missing = check(Path::new("no/such/program"));
        assert!(missing.is_err_and(|message| message.starts_with("there is no program no/such/program:")));
    }
}
