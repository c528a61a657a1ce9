//! A Rust program of the protocol of the program `frames`: reads frames from standard input, one per line, and writes an
//! answer line for each to standard output.

use std::env;
use std::io::{self, Write};
use std::process::ExitCode;

const HELP: &str = "frames-original: answers the frames of the protocol `frames` with the original Rust code

usage: frames-original < INPUT > OUTPUT

Reads standard input, one frame of hexadecimal digits per line, and writes one answer line for each frame to standard output. The
protocol is described in docs/REQUIREMENTS.md, section Frames. The answers so far are written before more input is read.

  --help    print this text

For example:

  printf '0100022F4100022F42\\n03\\n052F412F43\\n' | frames-original

prints 8100, 8300 and 85002F422F43: the pair /A -> /B is added, the list is closed as a map, and /A/C is mapped to /B/C.

The exit status is 0 if the whole input was answered (a bad frame is answered FF09), 1 if reading or writing failed, and 2 if the
arguments are bad.
";

fn main() -> ExitCode {
    let arguments: Vec<_> = env::args_os().skip(1).collect();
    if arguments.iter().any(|argument| argument == "--help" || argument == "-h") {
        // A reader that closes the pipe early is not an error.
        let _ = io::stdout().write_all(HELP.as_bytes());
        return ExitCode::SUCCESS;
    }
    if !arguments.is_empty() {
        eprint!("{HELP}");
        return ExitCode::from(2);
    }
    match frames_original::serve(io::stdin().lock(), io::stdout().lock()) {
        Ok(()) => ExitCode::SUCCESS,
        Err(error) => {
            eprintln!("frames-original: {error}");
            ExitCode::FAILURE
        }
    }
}
