//! The program `sludgeline` at the edges that no proof reaches (see `outside`): a line
//! for each trial, and at the end how many were passed and failed.
//!
//!     edges [--program PATH] [--only WORD]
//!
//! Here: the options, and the trials one by one with the report.

use second::outside::{arguments, input, output, plain, Program, Trial, Trouble};
use std::path::PathBuf;
use std::process::ExitCode;

/// What the command line asks for: the program, and what the trials' names are to contain.
struct Options {
    program: PathBuf,
    only: String,
}

/// Reads the options; the default is every trial of the program that is built here.
fn options() -> Result<Options, String> {
    let mut options = Options {
        program: PathBuf::from(concat!(env!("CARGO_MANIFEST_DIR"), "/../target/bin/sludgeline")),
        only: String::new(),
    };
    let mut words = std::env::args().skip(1);
    while let Some(word) = words.next() {
        let value = words.next().ok_or(format!("{word} lacks its value"))?;
        match word.as_str() {
            "--program" => options.program = PathBuf::from(&value),
            "--only" => options.only = value,
            _ => return Err(format!("{word}: unknown")),
        }
    }
    Ok(options)
}

/// Every trial, in the order in which they are made.
fn trials() -> impl Iterator<Item = &'static Trial> {
    [plain::TRIALS, output::TRIALS, input::TRIALS, arguments::TRIALS].into_iter().flatten()
}

/// Makes the trials that are asked for and prints a line for each; gives how many failed.
fn run(options: &Options) -> Result<u64, String> {
    let path = options.program.canonicalize();
    let program = path.and_then(Program::new);
    let program = program.map_err(|error| format!("{}: {error}", options.program.display()))?;
    let (mut passed, mut failed) = (0, 0);
    for (name, trial) in trials().filter(|(name, _)| name.contains(&options.only)) {
        match trial(&program) {
            Ok(()) => {
                passed += 1;
                println!("passed {name}");
            }
            Err(Trouble::Failed(why)) => {
                failed += 1;
                println!("failed {name}: {why}");
            }
            Err(Trouble::Skipped(why)) => println!("skipped {name}: {why}"),
        }
    }
    program.clean_up();
    println!("{passed} passed, {failed} failed");
    match passed + failed {
        0 => Err("nothing was tried".into()),
        _ => Ok(failed),
    }
}

/// Ends with status 0 where nothing failed, 1 where something did, and 2 on a wrong command
/// line or where nothing was tried.
fn main() -> ExitCode {
    match options().and_then(|options| run(&options)) {
        Ok(0) => ExitCode::SUCCESS,
        Ok(_) => ExitCode::FAILURE,
        Err(error) => {
            eprintln!("edges: {error}");
            ExitCode::from(2)
        }
    }
}
