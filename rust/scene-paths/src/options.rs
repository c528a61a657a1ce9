//! The command-line arguments.

use std::ffi::{OsStr, OsString};
use std::path::PathBuf;

/// What the tool is to do.
#[derive(Debug, PartialEq)]
pub enum Command {
    Run(Options),
    Help,
    Version,
}

#[derive(Debug, Default, PartialEq)]
pub struct Options {
    pub json: bool,
    pub color: Color,
    /// The file of the scenario; standard input if `None`.
    pub file: Option<PathBuf>,
}

impl Options {
    /// The name of the scenario in messages.
    pub fn name(&self) -> String {
        match &self.file {
            Some(file) => file.display().to_string(),
            None => "standard input".to_string(),
        }
    }
}

/// When the text report is coloured.
#[derive(Debug, Default, Clone, Copy, PartialEq)]
pub enum Color {
    /// If standard output is a terminal and the user has not set `NO_COLOR`.
    #[default]
    Auto,
    Always,
    Never,
}

impl Color {
    /// Parses the value of `--color`, which may be missing.
    fn read(value: Option<&OsStr>) -> Result<Self, String> {
        match value.and_then(OsStr::to_str) {
            Some("auto") => Ok(Color::Auto),
            Some("always") => Ok(Color::Always),
            Some("never") => Ok(Color::Never),
            _ => {
                let given = value.map_or("nothing".to_string(), |value| format!("`{}`", value.display()));
                Err(format!(
                    "`--color` takes `always`, `never` or `auto`, but {given} is given; see `scene-paths --help`"
                ))
            }
        }
    }

    /// Returns whether to write colours. `no_color` is the value of the environment variable `NO_COLOR`, which users set to
    /// have no colours by default (<https://no-color.org>); the empty value counts as unset.
    pub fn is_on(self, is_terminal: bool, no_color: Option<&OsStr>) -> bool {
        match self {
            Color::Auto => is_terminal && no_color.is_none_or(OsStr::is_empty),
            Color::Always => true,
            Color::Never => false,
        }
    }
}

/// Parses the arguments after the program name. Arguments that do not start with `-`, and all after `--`, are files.
pub fn read(mut arguments: impl Iterator<Item = OsString>) -> Result<Command, String> {
    let mut options = Options::default();
    let mut files = Vec::new();
    let mut only_files = false;
    while let Some(argument) = arguments.next() {
        match argument.to_str() {
            Some("--") if !only_files => only_files = true,
            Some("--json") if !only_files => options.json = true,
            Some("--color") if !only_files => options.color = Color::read(arguments.next().as_deref())?,
            Some("--help" | "-h") if !only_files => return Ok(Command::Help),
            Some("--version") if !only_files => return Ok(Command::Version),
            Some(option) if !only_files && option.len() > 1 && option.starts_with('-') => {
                match option.strip_prefix("--color=") {
                    Some(value) => options.color = Color::read(Some(value.as_ref()))?,
                    None => return Err(format!("unknown option `{option}`; see `scene-paths --help`")),
                }
            }
            _ => files.push(argument),
        }
    }
    if files.len() > 1 {
        return Err(format!("expected one scenario, but {} files are given", files.len()));
    }
    options.file = files.pop().filter(|file| file != "-").map(PathBuf::from);
    Ok(Command::Run(options))
}

#[cfg(test)]
mod tests {
    use super::*;

    fn parsed(arguments: &[&str]) -> Result<Command, String> {
        read(arguments.iter().map(OsString::from))
    }

    fn runs(json: bool, file: Option<&str>) -> Result<Command, String> {
        Ok(Command::Run(Options { json, color: Color::Auto, file: file.map(PathBuf::from) }))
    }

    fn colors(color: Color) -> Result<Command, String> {
        Ok(Command::Run(Options { color, ..Options::default() }))
    }

    #[test]
    fn options_and_a_file() {
        assert_eq!(parsed(&[]), runs(false, None));
        assert_eq!(parsed(&["-"]), runs(false, None));
        assert_eq!(parsed(&["line.scene", "--json"]), runs(true, Some("line.scene")));
        assert_eq!(parsed(&["--", "--json"]), runs(false, Some("--json")));
        assert_eq!(parsed(&["--json", "--help"]), Ok(Command::Help));
        assert_eq!(parsed(&["--version"]), Ok(Command::Version));
    }

    #[test]
    fn colors_are_chosen() {
        for (value, color) in [("auto", Color::Auto), ("always", Color::Always), ("never", Color::Never)] {
            assert_eq!(parsed(&["--color", value]), colors(color));
            assert_eq!(parsed(&[&format!("--color={value}")]), colors(color));
        }
        assert_eq!(parsed(&["--color=always", "--color", "never"]), colors(Color::Never));
        assert_eq!(parsed(&["--", "--color"]), runs(false, Some("--color")));
        assert_eq!(parsed(&["--", "--color=red"]), runs(false, Some("--color=red")));
    }

    #[test]
    fn bad_colors() {
        for (arguments, given) in [
            (&["--color"][..], "but nothing is given"),
            (&["--color="], "but `` is given"),
            (&["--color=red"], "but `red` is given"),
            (&["--color", "Always"], "but `Always` is given"),
            (&["--color", "--json"], "but `--json` is given"),
        ] {
            let message = parsed(arguments).unwrap_err();
            assert!(message.contains(given), "{message}");
        }
        assert!(parsed(&["--colour=always"]).unwrap_err().starts_with("unknown option `--colour=always`"));
    }

    /// Each choice, on a terminal or not, with `NO_COLOR` unset, empty and set.
    #[test]
    fn when_colors_are_on() {
        for (is_terminal, no_color, auto) in [
            (true, None, true),
            (true, Some(""), true),
            (true, Some("1"), false),
            (true, Some("0"), false),
            (false, None, false),
            (false, Some(""), false),
            (false, Some("1"), false),
        ] {
            let is_on = |color: Color| color.is_on(is_terminal, no_color.map(OsStr::new));
            assert_eq!(is_on(Color::Auto), auto, "{is_terminal} {no_color:?}");
            assert!(is_on(Color::Always) && !is_on(Color::Never), "{is_terminal} {no_color:?}");
        }
    }

    #[test]
    fn bad_arguments() {
        assert!(parsed(&["--jsn"]).unwrap_err().contains("`--jsn`"));
        assert!(parsed(&["-x"]).unwrap_err().contains("`-x`"));
        assert!(parsed(&["a", "b"]).unwrap_err().contains("2 files"));
    }

    #[test]
    fn names() {
        assert_eq!(Options::default().name(), "standard input");
        assert_eq!(Options { file: Some("a.scene".into()), ..Options::default() }.name(), "a.scene");
    }
}
