//! Trials of an input that is slow, interrupted, no file to read, closed, or breaks
//! off. What comes later is read; where nothing more can be read, a message is asked
//! for, and no held line.

use super::inputs::{mixed_lines, right_answers, right_output, steady_lines};
use super::system;
use super::watched::Watched;
use super::*;
use crate::random::Random;
use std::os::fd::OwnedFd;
use std::os::unix::net::UnixStream;

/// The trials of inputs.
pub const TRIALS: &[Trial] = &[
    ("slow-writer", slow_writer),
    ("slow-writer-at-rest", slow_writer_at_rest),
    ("slow-writer-to-a-socket", slow_writer_to_a_socket),
    ("directory-as-input", directory_as_input),
    ("closed-input", closed_input),
    ("interrupted-read", interrupted_read),
    ("interrupted-read-from-a-socket", interrupted_read_from_a_socket),
    ("input-that-breaks-off", input_that_breaks_off),
];

/// Writes an input in a thread of its own: nothing at first, then odd parts with pauses.
fn hand_slowly(mut to: impl Write + Send + 'static, input: &[u8]) {
    let (input, mut random) = (input.to_vec(), Random::new(3));
    thread::spawn(move || {
        let mut rest = &input[..];
        sleep(milliseconds(300));
        while !rest.is_empty() {
            let (part, behind) = rest.split_at((1 + random.index(900)).min(rest.len()));
            if to.write_all(part).is_err() {
                return;
            }
            rest = behind;
            sleep(milliseconds(random.one_of(&[0, 1, 2, 50])));
        }
        sleep(milliseconds(100));
    });
}

/// The program with an input pipe that does not block.
fn start_not_blocking(program: &Program) -> Result<Watched, Trouble> {
    let mut command = program.command();
    command.stdin(Stdio::piped());
    system::not_blocking(&mut command, 0);
    Ok(Watched::start(command)?)
}

/// Asks that everything is answered.
fn answers_all(mut running: Watched, input: &[u8]) -> Verdict {
    let right = right_output(input);
    let came = collected(running.take_output(), &right);
    gives_all(&right, &(came, running.end()))
}

/// A slow writer before a pipe that does not block: everything is answered.
fn slow_writer(program: &Program) -> Verdict {
    let input = mixed_lines(7, 500);
    let mut running = start_not_blocking(program)?;
    hand_slowly(running.take_input(), &input);
    answers_all(running, &input)
}

/// While such a pipe is empty, the program waits without keeping a processor busy.
fn slow_writer_at_rest(program: &Program) -> Verdict {
    let input = steady_lines(10);
    let mut running = start_not_blocking(program)?;
    let to = running.take_input();
    is_at_rest(running.pid)?;
    hand(to, &input, input.len(), Duration::ZERO);
    answers_all(running, &input)
}

/// The program with a socket as input whose reads end after this time; gives the socket's
/// other end. A read that is stopped there and goes on is interrupted.
fn start_on_socket(program: &Program, time: Duration) -> Result<(Watched, UnixStream), Trouble> {
    let (ours, theirs) = UnixStream::pair()?;
    theirs.set_read_timeout(Some(time))?;
    let mut command = program.command();
    command.stdin(OwnedFd::from(theirs));
    Ok((Watched::start(command)?, ours))
}

/// A slow writer to a socket whose reads would block after a time: everything is answered.
fn slow_writer_to_a_socket(program: &Program) -> Verdict {
    let input = mixed_lines(7, 500);
    let (running, to) = start_on_socket(program, milliseconds(20))?;
    hand_slowly(to, &input);
    answers_all(running, &input)
}

/// A directory, which cannot be read.
fn directory_as_input(program: &Program) -> Verdict {
    let mut command = program.command();
    command.stdin(File::open(&program.folder)?);
    gives_message_only(&program.run(command, b"")?, INPUT)
}

/// No input at all, which is not the same as an empty one.
fn closed_input(program: &Program) -> Verdict {
    let mut command = program.command();
    system::without_file(&mut command, 0);
    gives_message_only(&program.run(command, b"")?, INPUT)
}

/// Interrupts the program in its reads while the input comes: everything is answered. What
/// comes out fits the pipe, so that it need not be read meanwhile.
fn interrupt_reads(running: Watched, mut to: impl Write) -> Verdict {
    let input = steady_lines(200);
    for part in input.chunks(700) {
        interrupt(running.pid)?;
        // A program that has ended already is found out by its output.
        let _ = to.write_all(part);
    }
    interrupt(running.pid)?;
    drop(to);
    answers_all(running, &input)
}

/// Interrupted reads from a pipe.
fn interrupted_read(program: &Program) -> Verdict {
    let mut command = program.command();
    command.stdin(Stdio::piped());
    let mut running = Watched::start(command)?;
    let to = running.take_input();
    interrupt_reads(running, to)
}

/// Interrupted reads from a socket with a limit of time, which fail by the interruption.
fn interrupted_read_from_a_socket(program: &Program) -> Verdict {
    let (running, to) = start_on_socket(program, watched::PATIENCE)?;
    interrupt_reads(running, to)
}

/// A socket whose other end goes away with unread bytes in it: behind the lines a read fails,
/// and one more would tell the end. Every line is answered, and there is no held line.
fn input_that_breaks_off(program: &Program) -> Verdict {
    let input = steady_lines(200);
    let (mut ours, mut theirs) = UnixStream::pair()?;
    theirs.write_all(b"unread")?;
    ours.write_all(&input)?;
    drop(ours);
    let mut command = program.command();
    command.stdin(OwnedFd::from(theirs));
    let right = right_answers(&input);
    let (came, ended) = program.run(command, &right)?;
    ask(came == right, || difference(&right, &came))?;
    ended_with_message(&ended, INPUT)
}
