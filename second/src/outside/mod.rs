//! Trials of what no proof of `sludgeline` reaches: what the operating system does to
//! its reads and writes, and its arguments. A trial runs the program once or more and
//! compares what comes out with what the second implementation gives for the same
//! input: all of it, or where something fails a beginning of it without the held line.
//!
//! - `plain`, `output`, `input`, `arguments`: the trials, with a list of each;
//! - `watched`: the program at work under a deadline;
//! - `system`: what is asked of Linux beside the standard library;
//! - `inputs`: the sessions that are handed over, and the right output;
//! - here: how a trial went, what is asked of an output and of an end, and the program
//!   on trial with the ways to run it.

pub mod arguments;
pub mod input;
pub mod inputs;
pub mod output;
pub mod plain;
pub mod system;
pub mod watched;

use inputs::right_output;
use std::fs::{self, File};
use std::io::{Read, Write};
use std::path::PathBuf;
use std::process::{Command, Stdio};
use std::thread::{self, sleep};
use std::time::{Duration, Instant};
use system::{SIGCONT, SIGSTOP, SIGURG, SIGWINCH};
use watched::{read_up_to, Ended, Watched};

/// How soon a program that is to end at once must have ended.
const AT_ONCE: Duration = Duration::from_secs(2);

/// What a message begins with.
const NAME: &[u8] = b"sludgeline: ";

/// What stands behind that where a read fails, and where a write does. Of arguments nothing does.
const INPUT: &str = "standard input: ";
const OUTPUT: &str = "standard output: ";
const ARGUMENTS: &str = "";

/// Why a trial was not passed.
pub enum Trouble {
    Failed(String),
    Skipped(String),
}

/// How a trial went.
pub type Verdict = Result<(), Trouble>;

/// What came of one run: standard output, and how it ended.
type Came = (Vec<u8>, Ended);

/// A trial: its name, and what it does with the program.
pub type Trial = (&'static str, fn(&Program) -> Verdict);

impl From<std::io::Error> for Trouble {
    /// Where the trial itself cannot be made, it is not passed.
    fn from(error: std::io::Error) -> Trouble {
        Trouble::Failed(format!("the trial could not be made: {error}"))
    }
}

/// A failure, in words.
fn failed<T>(why: impl Into<String>) -> Result<T, Trouble> {
    Err(Trouble::Failed(why.into()))
}

/// A failure, in words, unless this holds.
fn ask(holds: bool, why: impl FnOnce() -> String) -> Verdict {
    match holds {
        true => Ok(()),
        false => failed(why()),
    }
}

/// So many milliseconds.
fn milliseconds(count: u64) -> Duration {
    Duration::from_millis(count)
}

/// Bytes as they may be printed in a line, cut where they are many.
fn shown(bytes: &[u8]) -> String {
    let cut = &bytes[..bytes.len().min(80)];
    let more = if cut.len() < bytes.len() { ".." } else { "" };
    format!("`{}{more}`", cut.escape_ascii())
}

/// What stands around this byte in its line, as it may be printed.
fn around(bytes: &[u8], place: usize) -> String {
    let before = &bytes[place.saturating_sub(20)..place];
    let start = before.iter().rposition(|&byte| byte == b'\n').map_or(0, |end| end + 1);
    let behind = bytes[place..].split(|&byte| byte == b'\n').next().unwrap_or(b"");
    shown(&[&before[start..], behind].concat())
}

/// Whether the last line is a held line.
fn ends_in_held_line(came: &[u8]) -> bool {
    let mut lines = came.rsplit(|&byte| byte == b'\n');
    let ended = lines.next() == Some(b"");
    ended && lines.next().is_some_and(|line| line.starts_with(b"(held "))
}

/// Says where an output leaves the right one, and whether it ends in a held line all the same.
fn difference(right: &[u8], came: &[u8]) -> String {
    let same = right.iter().zip(came).take_while(|(a, b)| a == b).count();
    let held = if ends_in_held_line(came) { ", and yet it ends in a held line" } else { "" };
    let counts = format!("{} bytes came and {} are right", came.len(), right.len());
    if same == came.len() || same == right.len() {
        return format!("{counts}, the first {same} alike{held}");
    }
    let number = 1 + right[..same].iter().filter(|&&byte| byte == b'\n').count();
    let (found, wanted) = (around(came, same), around(right, same));
    format!("{counts}; in line {number} {found} should be {wanted}{held}")
}

/// Asks that the program was not killed.
fn ended_in_time(ended: &Ended) -> Verdict {
    ask(!ended.killed, || "it did not end, and was killed at the deadline".into())
}

/// Asks that the program ended by itself.
fn ended_itself(ended: &Ended) -> Verdict {
    ended_in_time(ended)?;
    match ended.signal() {
        Some(signal) => failed(format!("signal {signal} ended it")),
        None => Ok(()),
    }
}

/// Asks that the program ended by itself and with a message that names what failed.
fn ended_with_message(ended: &Ended, what: &str) -> Verdict {
    ended_itself(ended)?;
    ask(!ended.messages.is_empty(), || "no message on standard error".into())?;
    let behind = ended.messages.strip_prefix(NAME);
    let named = behind
        .and_then(|words| words.strip_prefix(what.as_bytes()))
        .is_some_and(|words| words.len() > 1);
    let one = ended.messages.iter().filter(|&&byte| byte == b'\n').count() == 1;
    ask(named && one, || format!("on standard error: {}", shown(&ended.messages)))
}

/// Asks that the program ended by itself and without a message.
fn ended_well(ended: &Ended) -> Verdict {
    ended_itself(ended)?;
    ask(ended.messages.is_empty(), || format!("on standard error: {}", shown(&ended.messages)))
}

/// Asks for all of the right output and no message.
fn gives_all(right: &[u8], (came, ended): &Came) -> Verdict {
    ended_in_time(ended)?;
    let told = match ended.messages.is_empty() {
        true => String::new(),
        false => format!("; on standard error: {}", shown(&ended.messages)),
    };
    ask(came == right, || difference(right, came) + &told)?;
    ended_well(ended)
}

/// Asks that a beginning of the right output came, and not its held line.
fn is_beginning(right: &[u8], came: &[u8]) -> Verdict {
    ask(came != right, || "all of the output came, with its held line".into())?;
    ask(right.starts_with(came), || difference(right, came))
}

/// Asks for a beginning of the right output without its held line, and a message.
fn gives_beginning(right: &[u8], (came, ended): &Came) -> Verdict {
    ended_in_time(ended)?;
    is_beginning(right, came)?;
    ended_with_message(ended, OUTPUT)
}

/// Asks for nothing on standard output, and a message that names what failed.
fn gives_message_only((came, ended): &Came, what: &str) -> Verdict {
    ended_in_time(ended)?;
    ask(came.is_empty(), || format!("on standard output: {}", shown(came)))?;
    ended_with_message(ended, what)
}

/// Everything that a source gives, but at most a megabyte more than is right.
fn collected(source: impl Read, right: &[u8]) -> Vec<u8> {
    read_up_to(source, right.len() as u64 + 1_000_000)
}

/// Writes an input in a thread of its own, in parts of this size with a pause behind each,
/// and then ends it. A program that ended before is found out by its output.
fn hand(mut to: impl Write + Send + 'static, input: &[u8], part: usize, pause: Duration) {
    let input = input.to_vec();
    thread::spawn(move || {
        for bytes in input.chunks(part) {
            if to.write_all(bytes).is_err() {
                return;
            }
            sleep(pause);
        }
    });
}

/// Waits, a second at most, until a process is in one of these states.
fn wait_for_state(pid: u32, states: &str) {
    let until = Instant::now() + Duration::from_secs(1);
    while !system::state(pid).is_some_and(|state| states.contains(state)) {
        if Instant::now() >= until {
            return;
        }
        sleep(milliseconds(1));
    }
}

/// Interrupts a program that waits in a read or write: stops it and lets it go on, and sends
/// the two signals that a program does not notice.
fn interrupt(pid: u32) -> Verdict {
    wait_for_state(pid, "SZ");
    system::send(pid, SIGSTOP)?;
    wait_for_state(pid, "TZ");
    system::send(pid, SIGCONT)?;
    wait_for_state(pid, "SZ");
    system::send(pid, SIGWINCH)?;
    system::send(pid, SIGURG)?;
    Ok(())
}

/// Asks that a program waits for a second without taking a quarter of it from a processor.
fn is_at_rest(pid: u32) -> Verdict {
    let before = system::processor_time(pid).unwrap_or(0);
    sleep(Duration::from_secs(1));
    let taken = system::processor_time(pid).unwrap_or(0).saturating_sub(before);
    ask(system::state(pid) != Some('Z'), || "it ended and did not wait".into())?;
    ask(taken < 25, || format!("it took 0.{taken:02} s of a processor in a second of waiting"))
}

/// The program on trial, and a folder for files.
pub struct Program {
    path: PathBuf,
    folder: PathBuf,
}

impl Program {
    /// The program of this path; makes the folder.
    pub fn new(path: PathBuf) -> std::io::Result<Program> {
        let folder = std::env::temp_dir().join(format!("edges-{}", std::process::id()));
        fs::create_dir_all(&folder)?;
        Ok(Program { path, folder })
    }

    /// Removes the folder.
    pub fn clean_up(&self) {
        let _ = fs::remove_dir_all(&self.folder);
    }

    /// The program with no input, and pipes for output and messages.
    fn command(&self) -> Command {
        let mut command = Command::new(&self.path);
        command.stdin(Stdio::null()).stdout(Stdio::piped()).stderr(Stdio::piped());
        command
    }

    /// The program with these bytes in a file as its input.
    fn command_on(&self, input: &[u8]) -> std::io::Result<Command> {
        let mut command = self.command();
        command.stdin(self.file_with(input)?);
        Ok(command)
    }

    /// A file with these bytes, open for reading.
    fn file_with(&self, bytes: &[u8]) -> std::io::Result<File> {
        let path = self.folder.join("input");
        fs::write(&path, bytes)?;
        File::open(path)
    }

    /// Runs a command whose output is a pipe to its end.
    fn run(&self, command: Command, right: &[u8]) -> Result<Came, Trouble> {
        let mut running = Watched::start(command)?;
        let came = collected(running.take_output(), right);
        Ok((came, running.end()))
    }

    /// Hands an input over as a file, and asks for the whole output.
    fn through_file(&self, input: &[u8]) -> Verdict {
        let right = right_output(input);
        gives_all(&right, &self.run(self.command_on(input)?, &right)?)
    }

    /// Hands an input over through a pipe in parts of this size, and asks for the whole output.
    fn through_pipe(&self, input: &[u8], part: usize, pause: Duration) -> Verdict {
        let right = right_output(input);
        let mut command = self.command();
        command.stdin(Stdio::piped());
        let mut running = Watched::start(command)?;
        hand(running.take_input(), input, part, pause);
        let came = collected(running.take_output(), &right);
        gives_all(&right, &(came, running.end()))
    }

    /// Hands over a line, keeps the input open, and asks that the program ends at once.
    fn ends_at_once(&self, mut command: Command) -> Result<Ended, Trouble> {
        command.stdin(Stdio::piped());
        let mut running = Watched::start(command)?;
        let mut input = running.take_input();
        // A program that has ended already is what is asked for.
        let _ = input.write_all(b"(receive (ss 1))\n");
        let at_once = running.ends_within(AT_ONCE);
        drop(input);
        let ended = running.end();
        ask(at_once, || "it did not end at once, but read on".into())?;
        Ok(ended)
    }
}
