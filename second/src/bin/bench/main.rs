//! The benchmark: `sludgeline` against `second` on one long session, with `wc -l`
//! as the floor, and one feed and one recycle of the C library against those in Rust.
//! All of them are of the house set. The feeds' records are those from before there was a recycle,
//! so that older times of a feed can be held against new ones. The session's fields stand in the
//! order of their columns; before request E2 they did not, so that its older times are those of
//! another session.
//!
//!     bench [--rounds N] [--megabytes N] [--program PATH] [--before PATH] [--before-library PATH]
//!
//! `--before` names an earlier build of `sludgeline`, which is timed on the session in turn with
//! the others. `--before-library` names an earlier build of the shared library, whose feeds and
//! conversions are timed in turn with those of this build's and with those in Rust; it may be one
//! from before request E7, whose records had no figures.
//!
//! - `programs`: the programs on the session;
//! - `calls`: one feed and one recycle, and how a call is timed;
//! - `sets`: the records that are called on;
//! - `libraries`: the two builds of the shared library, loaded side by side;
//! - `conversions`: feeds and conversions by these two and by Rust;
//! - here: the options, and what several parts need.

mod calls;
mod conversions;
mod libraries;
mod programs;
mod sets;

use second::figures::HOUSE;
use second::random::Random;
use second::tables::{asm1, Asm1};
use second::trials::amounts::{self, Scale};
use std::path::PathBuf;
use std::process::ExitCode;

/// The seed of the session file; those of the records follow it.
const SEED: u64 = 20;

/// The amounts of a middling works, none near a ceiling.
const SCALE: Scale = Scale { cod: 50_000_000, ticks: 40_000_000_000, extreme: 0, figures: HOUSE };

/// What the command line asks for.
struct Options {
    rounds: usize,
    megabytes: usize,
    program: PathBuf,
    before: Option<PathBuf>,
    before_library: Option<PathBuf>,
}

/// Reads the options; their defaults are 7 rounds over 52 MB.
fn options() -> Result<Options, String> {
    let mut options = Options {
        rounds: 7,
        megabytes: 52,
        program: PathBuf::from(concat!(env!("CARGO_MANIFEST_DIR"), "/../target/bin/sludgeline")),
        before: None,
        before_library: None,
    };
    let mut words = std::env::args().skip(1);
    while let Some(word) = words.next() {
        let value = words.next().ok_or(format!("{word} lacks its value"))?;
        let number = || value.parse().map_err(|_| format!("{word} {value}: no number"));
        match word.as_str() {
            "--rounds" => options.rounds = number()?,
            "--megabytes" => options.megabytes = number()?,
            "--program" => options.program = PathBuf::from(&value),
            "--before" => options.before = Some(PathBuf::from(&value)),
            "--before-library" => options.before_library = Some(PathBuf::from(&value)),
            _ => return Err(format!("{word}: unknown")),
        }
    }
    Ok(options)
}

/// A day's sludge of a middling works: several columns, none near a ceiling.
fn sludge(random: &mut Random) -> Asm1 {
    let mut v = amounts::asm1(random, &SCALE);
    v[asm1::SI] /= 100;
    v
}

/// The middle one of these times, and the least.
fn median_and_least(mut times: Vec<f64>) -> (f64, f64) {
    times.sort_by(f64::total_cmp);
    (times[times.len() / 2], times[0])
}

/// Times so many things in turn, each round in the other direction; gives median and least of each.
fn in_turn(
    rounds: usize,
    count: usize,
    time: impl Fn(usize) -> Result<f64, String>,
) -> Result<Vec<(f64, f64)>, String> {
    let mut times = vec![Vec::new(); count];
    for round in 0..rounds {
        for place in 0..count {
            let which = if round % 2 == 0 { place } else { count - 1 - place };
            times[which].push(time(which)?);
        }
    }
    Ok(times.into_iter().map(median_and_least).collect())
}

/// Runs all benchmarks; the libraries are loaded first, so that a wrong path is told at once.
fn run(options: &Options) -> Result<(), String> {
    let both = options.before_library.as_deref().map(libraries::load_both).transpose()?;
    programs::bench(options)?;
    calls::bench_feeds(options.rounds)?;
    calls::bench_recycles(options.rounds)?;
    match both {
        Some([now, before]) => conversions::bench(options.rounds, now, before),
        None => Ok(()),
    }
}

/// Ends with status 0 where everything gives the same, and else says what is wrong.
fn main() -> ExitCode {
    match options().and_then(|options| run(&options)) {
        Ok(()) => ExitCode::SUCCESS,
        Err(error) => {
            println!("bench: {error}");
            ExitCode::FAILURE
        }
    }
}
