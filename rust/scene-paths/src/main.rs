//! `scene-paths`: traces the signals of a scenario leg by leg, and checks that they come home. `--help` describes the syntax
//! of a scenario.

mod json;
mod json_report;
mod options;
mod progress;
mod report;
mod scenario;
mod text_report;
mod trace;

use options::{Command, Options};
use progress::Progress;
use report::{Report, Summary};
use scenario::{Problem, Scenario};
use std::io::{self, ErrorKind, IsTerminal, Read, Write};
use std::process::ExitCode;
use std::{env, fs};
use trace::LegRoutes;

const HELP: &str = include_str!("help.txt");

/// The number of signals that are traced together; their traces are written before the next ones are traced.
const BATCH: usize = 4_096;

/// The maximum number of problems that are shown.
const MAX_PROBLEMS: usize = 20;

fn main() -> ExitCode {
    match run() {
        Ok(summary) if summary.came_home == summary.signals => ExitCode::SUCCESS,
        Ok(_) => ExitCode::FAILURE,
        Err(message) => {
            // A failure to write to standard error is ignored: there is nowhere to report it.
            let _ = io::stderr().write_all(message.as_bytes());
            ExitCode::from(2)
        }
    }
}

/// Runs the tool; the error is a message for standard error.
fn run() -> Result<Summary, String> {
    let options = match options::read(env::args_os().skip(1)).map_err(|message| error_line(&message))? {
        Command::Run(options) => options,
        Command::Help => return print_text(HELP),
        Command::Version => return print_text(concat!("scene-paths ", env!("CARGO_PKG_VERSION"), "\n")),
    };
    let bytes = read_input(&options).map_err(|error| error_line(&format!("{}: {error}", options.name())))?;
    let scenario = Scenario::read(&bytes).map_err(|problems| problem_lines(&options.name(), &problems))?;
    run_scenario(&scenario, &options).map_err(|error| match error.kind() {
        ErrorKind::BrokenPipe => String::new(),
        _ => error_line(&format!("the report cannot be written: {error}")),
    })
}

/// A message preceded by the name of the program.
fn error_line(message: &str) -> String {
    format!("scene-paths: {message}\n")
}

/// The problems of a scenario, one per line.
fn problem_lines(name: &str, problems: &[Problem]) -> String {
    let line = |problem: &Problem| format!("{name}:{}: {}\n", problem.line, problem.message);
    let mut lines: String = problems.iter().take(MAX_PROBLEMS).map(line).collect();
    if problems.len() > MAX_PROBLEMS {
        lines += &format!("{name}: and {} problems more\n", problems.len() - MAX_PROBLEMS);
    }
    lines
}

/// Writes a text to standard output, as the whole run.
fn print_text(text: &str) -> Result<Summary, String> {
    io::stdout().write_all(text.as_bytes()).map_err(|error| error_line(&error.to_string()))?;
    Ok(Summary::default())
}

fn read_input(options: &Options) -> io::Result<Vec<u8>> {
    let Some(file) = &options.file else {
        let mut bytes = Vec::new();
        io::stdin().lock().read_to_end(&mut bytes)?;
        return Ok(bytes);
    };
    fs::read(file)
}

/// Traces the signals and writes the report.
fn run_scenario(scenario: &Scenario, options: &Options) -> io::Result<Summary> {
    let mut out = io::BufWriter::new(io::stdout().lock());
    let mut progress = Progress::of_signals(scenario.signals.len());
    let color = options.color.is_on(io::stdout().is_terminal(), env::var_os("NO_COLOR").as_deref());
    let report: &mut dyn Report = match options.json {
        true => &mut json_report::JsonReport::new(&mut out),
        false => &mut text_report::TextReport::new(&mut out, color),
    };
    let routes = LegRoutes::new(&scenario.legs);
    let mut summary = Summary::default();
    report.begin(&scenario.legs)?;
    for signals in scenario.signals.chunks(BATCH) {
        let traces = routes.trace_all(signals, report.shows_unaltered());
        progress.clear();
        for trace in &traces {
            report.trace(trace)?;
            summary.count(trace);
        }
        report.flush()?;
        progress.show(summary.signals);
    }
    progress.clear();
    report.end(&summary)?;
    Ok(summary)
}
