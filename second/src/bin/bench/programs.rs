//! The programs, timed in turn on one long session, and the session file.

use crate::{in_turn, sludge, Options, SEED};
use second::lines;
use second::plant::{Call, Plant};
use second::random::Random;
use second::trials::{damage, form, proposals};
use std::fs::File;
use std::path::{Path, PathBuf};
use std::process::{Command, Stdio};
use std::time::Instant;

/// The next line of the session: most are accepted, about one in ten is not.
fn next_line(random: &mut Random, plant: &Plant) -> Vec<u8> {
    let k = 1 + random.below(1000);
    let call = match random.below(100) {
        0..=44 => Call::Receive(sludge(random)),
        45..=62 => Call::Feed(k),
        63..=72 => {
            let (gas, v) = proposals::closing(random, &plant.figures, &plant.digester);
            Call::Settle(gas, v)
        }
        73..=83 => Call::Return(k),
        84..=94 => Call::Release(k),
        95 => Call::Feed(1000 + k),
        96 => Call::Settle(k, plant.digester),
        _ => {
            let call = Call::Receive(sludge(random));
            let mut line = form(random, &call);
            damage::damage(random, &mut line);
            return line;
        }
    };
    form(random, &call)
}

/// The session with its number of lines and how many of them are refused.
struct Session {
    bytes: Vec<u8>,
    lines: usize,
    refused: usize,
}

/// Makes a session of so many megabytes.
fn make_session(megabytes: usize) -> Session {
    let mut random = Random::new(SEED);
    let mut plant = Plant::FRESH;
    let mut session = Session { bytes: Vec::new(), lines: 0, refused: 0 };
    let mut buffer = [0; 512];
    while session.bytes.len() < megabytes * 1_000_000 {
        let part = next_line(&mut random, &plant);
        for line in part.split(|&byte| byte == b'\n') {
            session.bytes.extend_from_slice(line);
            session.bytes.push(b'\n');
            let answer = lines::answer(&mut plant, line, &mut buffer);
            session.lines += 1;
            session.refused += usize::from(answer.starts_with(b"(no"));
        }
    }
    session
}

/// Starts a program with the session file as its input.
fn command(program: &Path, session: &Path) -> Result<Command, String> {
    let file = File::open(session).map_err(|error| error.to_string())?;
    let mut command = Command::new(program);
    command.stdin(file);
    if program.ends_with("wc") {
        command.arg("-l");
    }
    Ok(command)
}

/// Runs a program over the session file with its output to /dev/null; gives the seconds.
fn timed(program: &Path, session: &Path) -> Result<f64, String> {
    let mut command = command(program, session)?;
    command.stdout(Stdio::null());
    let start = Instant::now();
    let status = command.status().map_err(|error| format!("{}: {error}", program.display()))?;
    let seconds = start.elapsed().as_secs_f64();
    match status.success() {
        true => Ok(seconds),
        false => Err(format!("{} ended with {status}", program.display())),
    }
}

/// Everything that a program prints for the session file.
fn printed(program: &Path, session: &Path) -> Result<Vec<u8>, String> {
    let output = command(program, session)?.stderr(Stdio::inherit()).output();
    output.map(|output| output.stdout).map_err(|error| format!("{}: {error}", program.display()))
}

/// Whether two programs print the same for the session file; prints it, too.
fn print_alike(what: &str, programs: &[PathBuf], session: &Path) -> Result<bool, String> {
    let alike = printed(&programs[0], session)? == printed(&programs[1], session)?;
    println!("{what}: {}", if alike { "yes" } else { "NO" });
    Ok(alike)
}

/// Prints median and least of the times of each program, and the ratio of the first two.
fn print_table(rounds: usize, lines: f64, results: &[(f64, f64)]) {
    println!("{rounds} rounds, in turn     median s     least s  lines/s (median)  ns/line");
    let names = ["sludgeline", "second", "wc -l", "earlier sludgeline"];
    for (name, (median, least)) in names.iter().zip(results) {
        let (rate, each) = (lines / median, median / lines * 1e9);
        println!("  {name:<20} {median:>8.3}    {least:>8.3}  {rate:>16.0} {each:>8.1}");
    }
    let (first, second) = (results[0], results[1]);
    println!(
        "time of sludgeline over time of second: {:.3} by medians, {:.3} by least",
        first.0 / second.0,
        first.1 / second.1
    );
}

/// Copies a program to a path whose length is that of all such copies. A program's path stands on
/// its stack, so that its length moves what lies there, and with it how memory is copied.
fn copied(program: &Path, number: usize) -> Result<PathBuf, String> {
    let copy = Path::new(env!("CARGO_MANIFEST_DIR")).join(format!("target/bench.program{number}"));
    std::fs::copy(program, &copy).map_err(|error| format!("{}: {error}", program.display()))?;
    Ok(copy)
}

/// Times the programs on the session and prints the table.
pub fn bench(options: &Options) -> Result<(), String> {
    let session = make_session(options.megabytes);
    let (bytes, lines) = (session.bytes.len() as f64, session.lines as f64);
    let path = Path::new(env!("CARGO_MANIFEST_DIR")).join("target/bench.session");
    std::fs::write(&path, &session.bytes).map_err(|error| error.to_string())?;
    let own = std::env::current_exe().map_err(|error| error.to_string())?.with_file_name("second");
    let mut programs = vec![copied(&options.program, 0)?, copied(&own, 1)?, PathBuf::from("wc")];
    if let Some(before) = &options.before {
        programs.push(copied(before, 2)?);
    }
    println!("session of seed {SEED}: {bytes} bytes, {lines} lines, {} refused", session.refused);
    println!("input from the file {}, output to /dev/null", path.display());
    println!("buffers: second zeroes its two 64 KiB buffers once at start and never clears them;");
    println!("  sludgeline's buffers are zeroed once at start");
    let alike = print_alike("both print the same", &programs[..2], &path)?;
    if let [now, _, _, before] = &programs[..] {
        let earlier = [now.clone(), before.clone()];
        print_alike("the earlier build prints the same", &earlier, &path)?;
    }
    let time = |which: usize| timed(&programs[which], &path);
    let results = in_turn(options.rounds, programs.len(), time)?;
    print_table(options.rounds, lines, &results);
    if alike {
        Ok(())
    } else {
        Err("the two programs print different answers".into())
    }
}
