//! Sets behind `--figures` that the program refuses: a message, nothing on standard output, the
//! input left unread, and status 0.

use crate::tally::Tally;
use crate::{shown, Difference};
use second::making;
use second::plant::Refusal;
use second::random::Random;
use second::trials::figures;
use std::fs::File;
use std::io::Seek;
use std::path::Path;
use std::process::{Command, Output};

/// What a message begins with.
const NAME: &[u8] = b"sludgeline: ";

/// An input that would be answered.
const INPUT: &[u8] = b"(receive (ss 10))\n(feed 1000)\n";

/// Says what is wrong, if something is.
fn check(output: &Output, read: u64) -> Result<(), Difference> {
    let Output { status, stdout, stderr } = output;
    if !stdout.is_empty() {
        return Err(format!("on standard output: {}", shown(stdout)));
    }
    if !stderr.starts_with(NAME) {
        return Err(format!("on standard error: {}", shown(stderr)));
    }
    match (read, status.success()) {
        (0, true) => Ok(()),
        (0, false) => Err(format!("it ended with {status}")),
        _ => Err(format!("it read {read} bytes of input")),
    }
}

/// Starts the program with such words and a file as its input.
pub fn one_refused(
    program: &Path,
    random: &mut Random,
    tally: &mut Tally,
) -> Result<(), Difference> {
    let words = figures::refused_words(random);
    if making::record(&words).is_ok() {
        return Err(format!("second takes {words:?}"));
    }
    tally.add("--figures", Refusal::FiguresOutOfBounds as usize);
    let path = std::env::temp_dir().join(format!("differ-{}.input", std::process::id()));
    let file = std::fs::write(&path, INPUT).and_then(|()| File::open(&path));
    let _ = std::fs::remove_file(&path);
    let run = |mut file: File| {
        let output = Command::new(program).args(&words).stdin(file.try_clone()?).output()?;
        Ok((output, file.stream_position()?))
    };
    let ran: std::io::Result<(Output, u64)> = file.and_then(run);
    let (output, read) = ran.map_err(|error| format!("{}: {error}", program.display()))?;
    check(&output, read).map_err(|difference| format!("words {words:?}\n  {difference}"))
}
