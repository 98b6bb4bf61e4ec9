//! The program `second`: reads standard input, keeps one plant record, prints an
//! answer for each line and then the held line, as document 01 asks of `sludgeline`.
//! Behind `--figures` stand the nine figures of the record, as request E7 asks.

use second::plant::Plant;
use second::{making, session};
use std::os::unix::ffi::OsStringExt;
use std::process::ExitCode;

/// Makes the record; words that ask for none get a message, and the input is left unread.
fn main() -> ExitCode {
    let words: Vec<Vec<u8>> = std::env::args_os().skip(1).map(OsStringExt::into_vec).collect();
    match making::record(&words) {
        Ok(plant) => run(plant),
        Err(why) => {
            eprintln!("second: {why}");
            ExitCode::SUCCESS
        }
    }
}

/// Runs the session on this record; an input or output that fails ends it with a status of 1.
fn run(plant: Plant) -> ExitCode {
    let mut input = std::io::stdin().lock();
    let mut output = std::io::stdout().lock();
    match session::run_on(plant, &mut input, &mut output) {
        Ok(()) => ExitCode::SUCCESS,
        Err(error) => {
            eprintln!("second: {error}");
            ExitCode::FAILURE
        }
    }
}
