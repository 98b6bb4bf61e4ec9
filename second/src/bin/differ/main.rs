//! The differential test: the second implementation against `sludgeline` and
//! against the exported C library, byte for byte.
//!
//!     differ [--seed N] [--sessions N] [--program PATH] [--only program|library]
//!            [--sheets PATH]
//!
//! - `program`: sessions through the program;
//! - `wishes`: sets of figures that the program refuses;
//! - `library`: lists of calls through the library, their lines and held lines;
//! - `numbers`: the calls by numbers in these lists;
//! - `sheets`: the laboratory sheets in them, and those of a table;
//! - `blends`: the blends of hauled loads in them;
//! - `writing`: the calls that are written as lines in them;
//! - `lengths`: how long the answers to a session, and to lists of lines, will be;
//! - `guarded`: what is lent to the library, between guards;
//! - `tally`: how many answers of each kind were compared;
//! - here: the options and the report.

mod blends;
mod guarded;
mod lengths;
mod library;
mod numbers;
mod program;
mod sheets;
mod tally;
mod wishes;
mod writing;

use std::path::PathBuf;
use std::process::ExitCode;
use std::time::Instant;
use tally::{Tally, LAST_REFUSAL};

/// The first difference, in words.
type Difference = String;

/// What the command line asks for.
struct Options {
    seed: u64,
    sessions: u64,
    program: PathBuf,
    through_program: bool,
    through_library: bool,
    /// The table of sheets, where it is another one than the one kept here.
    sheets: Option<PathBuf>,
}

/// Reads the options; their defaults are a fixed seed and 3000 sessions.
fn options() -> Result<Options, String> {
    let mut options = Options {
        seed: 1,
        sessions: 3000,
        program: PathBuf::from(concat!(env!("CARGO_MANIFEST_DIR"), "/../target/bin/sludgeline")),
        through_program: true,
        through_library: true,
        sheets: None,
    };
    let mut words = std::env::args().skip(1);
    while let Some(word) = words.next() {
        let value = words.next().ok_or(format!("{word} lacks its value"))?;
        let number = || value.parse().map_err(|_| format!("{word} {value}: no number"));
        match word.as_str() {
            "--seed" => options.seed = number()?,
            "--sessions" => options.sessions = number()?,
            "--program" => options.program = PathBuf::from(&value),
            "--sheets" => options.sheets = Some(PathBuf::from(&value)),
            "--only" if value == "program" => options.through_library = false,
            "--only" if value == "library" => options.through_program = false,
            _ => return Err(format!("{word} {value}: unknown")),
        }
    }
    Ok(options)
}

/// Bytes as they may be printed, cut where they are very many.
fn shown(bytes: &[u8]) -> String {
    let cut = &bytes[..bytes.len().min(1200)];
    let more = if cut.len() < bytes.len() { ".." } else { "" };
    format!("{}{more} ({} bytes)", cut.escape_ascii(), bytes.len())
}

/// Runs one part, if it is asked for, and prints what it compared.
fn part(
    title: &str,
    asked: bool,
    options: &Options,
    run: fn(&Options, &mut Tally) -> Result<(), Difference>,
    all: &mut Tally,
) -> Result<(), Difference> {
    if !asked {
        println!("{title}: left out by --only");
        return Ok(());
    }
    let (mut tally, start) = (Tally::default(), Instant::now());
    let result = run(options, &mut tally);
    tally.print(title);
    println!("  {:.1} s", start.elapsed().as_secs_f64());
    all.join(&tally);
    result.map_err(|difference| format!("{title}, {difference}"))
}

/// Runs both parts and reports.
fn run(options: &Options) -> Result<(), Difference> {
    println!("seed {}, {} sessions, {1} lists of calls", options.seed, options.sessions);
    let mut all = Tally::default();
    part("through sludgeline", options.through_program, options, program::run, &mut all)?;
    part("through the library", options.through_library, options, library::run, &mut all)?;
    if options.through_program && options.through_library {
        all.print("together");
    }
    match all.count(0..=LAST_REFUSAL) {
        0 => Err("nothing was compared".into()),
        _ => Ok(()),
    }
}

/// Ends with status 0 where there is no difference, 1 where there is, 2 on a wrong command line.
fn main() -> ExitCode {
    let options = match options() {
        Ok(options) => options,
        Err(error) => {
            eprintln!("differ: {error}");
            return ExitCode::from(2);
        }
    };
    match run(&options) {
        Ok(()) => {
            println!("no difference");
            ExitCode::SUCCESS
        }
        Err(difference) => {
            println!("DIFFERENCE\n{difference}");
            ExitCode::FAILURE
        }
    }
}
