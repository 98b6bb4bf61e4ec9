//! Trials of an output that is full, limited, slow, closed, interrupted or left by its
//! reader. What can be written later is written; where nothing more can be, a message
//! is asked for, and an output that is a beginning of the right one.

use super::inputs::{long_session, mixed_lines, right_answers, right_output};
use super::system::{self, SIGPIPE, SIGXFSZ};
use super::watched::Watched;
use super::*;
use std::os::fd::OwnedFd;
use std::os::unix::net::UnixStream;
use std::path::Path;

/// The trials of outputs.
pub const TRIALS: &[Trial] = &[
    ("full-device", full_device),
    ("full-device-without-input", full_device_without_input),
    ("full-device-without-messages", full_device_without_messages),
    ("file-size-limit", file_size_limit),
    ("file-size-limit-that-fits", file_size_limit_that_fits),
    ("file-size-limit-lifted", file_size_limit_lifted),
    ("full-file-system", full_file_system),
    ("slow-reader", slow_reader),
    ("slow-reader-at-rest", slow_reader_at_rest),
    ("slow-reader-of-a-socket", slow_reader_of_a_socket),
    ("one-byte-taken", one_byte_taken),
    ("closed-output", closed_output),
    ("interrupted-write", interrupted_write),
    ("interrupted-write-to-a-socket", interrupted_write_to_a_socket),
    ("reader-gone", reader_gone),
    ("reader-gone-without-signal", reader_gone_without_signal),
];

/// The device that takes no byte.
pub(super) fn device() -> Result<File, Trouble> {
    let opened = File::options().write(true).open("/dev/full");
    opened.map_err(|error| Trouble::Skipped(format!("/dev/full: {error}")))
}

/// A device that takes no byte as output: a message, at once, for one line and for many.
fn full_device(program: &Program) -> Verdict {
    let mut command = program.command();
    command.stdout(device()?);
    ended_with_message(&program.ends_at_once(command)?, OUTPUT)?;
    let mut command = program.command_on(&long_session().bytes)?;
    command.stdout(device()?);
    ended_with_message(&Watched::start(command)?.end(), OUTPUT)
}

/// The same without input: the held line alone cannot be written.
fn full_device_without_input(program: &Program) -> Verdict {
    let mut command = program.command();
    command.stdout(device()?);
    ended_with_message(&Watched::start(command)?.end(), OUTPUT)
}

/// Where the message cannot be written either, the program ends all the same.
fn full_device_without_messages(program: &Program) -> Verdict {
    let mut command = program.command();
    command.stdout(device()?).stderr(device()?);
    ended_itself(&program.ends_at_once(command)?)?;
    let mut command = program.command();
    command.stdout(device()?).stderr(Stdio::null());
    system::without_file(&mut command, 2);
    ended_itself(&program.ends_at_once(command)?)
}

/// The long session into a file of at most so many bytes: what is in it, and how it ended.
fn into_limited_file(program: &Program, limit: usize) -> Result<Came, Trouble> {
    let path = program.folder.join("output");
    let mut command = program.command_on(&long_session().bytes)?;
    command.stdout(File::create(&path)?);
    system::ignoring(&mut command, SIGXFSZ);
    system::with_file_size(&mut command, limit as u64);
    let ended = Watched::start(command)?.end();
    Ok((fs::read(path)?, ended))
}

/// A limit on the file's size, its signal ignored: the file is filled up to it.
fn file_size_limit(program: &Program) -> Verdict {
    let right = &long_session().right;
    for limit in [0, 1, 100, 4095, 65_535, 65_536, 65_537, right.len() - 1] {
        let came = into_limited_file(program, limit)?;
        gives_beginning(right, &came)?;
        let length = came.0.len();
        ask(length == limit, || format!("{length} bytes where {limit} have room"))?;
    }
    Ok(())
}

/// A limit that the whole output just fits.
fn file_size_limit_that_fits(program: &Program) -> Verdict {
    let right = &long_session().right;
    gives_all(right, &into_limited_file(program, right.len())?)
}

/// A limit that is lifted when it has been met: behind the first failure nothing is written.
fn file_size_limit_lifted(program: &Program) -> Verdict {
    let (limit, path) = (1000, program.folder.join("output"));
    let input = mixed_lines(9, 400);
    let half = input[..input.len() / 2].iter().rposition(|&byte| byte == b'\n').unwrap_or(0) + 1;
    let mut command = program.command();
    command.stdin(Stdio::piped()).stdout(File::create(&path)?);
    system::ignoring(&mut command, SIGXFSZ);
    system::with_file_size(&mut command, limit);
    let mut running = Watched::start(command)?;
    let mut to = running.take_input();
    // A program that has ended takes no input any more, which is what is asked for.
    let _ = to.write_all(&input[..half]);
    if !running.ends_within(milliseconds(300)) {
        system::lift_file_size(running.pid)?;
        let _ = to.write_all(&input[half..]);
    }
    drop(to);
    let ended = running.end();
    gives_beginning(&right_output(&input), &(fs::read(path)?, ended))
}

/// A file system of 64 KiB, unmounted when it is let go of.
struct SmallFileSystem<'a>(&'a Path);

/// Runs a command of the system on a folder; gives its message where it fails.
fn run_tool(name: &str, words: &[&str], folder: &Path) -> Result<(), String> {
    let mut command = Command::new(name);
    command.args(words).arg(folder).stdin(Stdio::null()).stderr(Stdio::piped());
    let ended = Watched::start(command).map_err(|error| format!("{name}: {error}"))?.end();
    match ended.status.success() {
        true => Ok(()),
        false => {
            let words = String::from_utf8_lossy(&ended.messages);
            Err(words.lines().next().unwrap_or(name).into())
        }
    }
}

impl SmallFileSystem<'_> {
    /// Mounts it on this folder, which is made; skips the trial where that is not allowed.
    fn mount(folder: &Path) -> Result<SmallFileSystem<'_>, Trouble> {
        fs::create_dir_all(folder)?;
        let words = ["-t", "tmpfs", "-o", "size=64k", "tmpfs"];
        run_tool("mount", &words, folder).map_err(Trouble::Skipped)?;
        Ok(SmallFileSystem(folder))
    }
}

impl Drop for SmallFileSystem<'_> {
    /// Unmounts it.
    fn drop(&mut self) {
        if let Err(why) = run_tool("umount", &[], self.0) {
            println!("{} stays mounted: {why}", self.0.display());
        }
    }
}

/// A file on a small file system that the output fills.
fn full_file_system(program: &Program) -> Verdict {
    let folder = program.folder.join("small");
    let _mounted = SmallFileSystem::mount(&folder)?;
    let long = long_session();
    let path = folder.join("output");
    let mut command = program.command_on(&long.bytes)?;
    command.stdout(File::create(&path)?);
    let ended = Watched::start(command)?.end();
    let came = (fs::read(path)?, ended);
    gives_beginning(&long.right, &came)?;
    ask(!came.0.is_empty(), || "nothing was written where 64 KiB have room".into())
}

/// Reads slowly: not at all at first, then a page at a time.
fn read_slowly(mut source: impl Read, right: &[u8]) -> Vec<u8> {
    let (mut came, mut page) = (Vec::new(), [0; 4096]);
    sleep(milliseconds(300));
    while came.len() <= right.len() {
        match source.read(&mut page) {
            Ok(length @ 1..) => came.extend_from_slice(&page[..length]),
            _ => break,
        }
        sleep(milliseconds(1));
    }
    came.extend(collected(source, b""));
    came
}

/// The program on the long session with an output pipe that does not block.
fn start_not_blocking(program: &Program) -> Result<Watched, Trouble> {
    let mut command = program.command_on(&long_session().bytes)?;
    system::not_blocking(&mut command, 1);
    Ok(Watched::start(command)?)
}

/// A slow reader behind a pipe that does not block: everything arrives.
fn slow_reader(program: &Program) -> Verdict {
    let mut running = start_not_blocking(program)?;
    let right = &long_session().right;
    let came = read_slowly(running.take_output(), right);
    gives_all(right, &(came, running.end()))
}

/// While such a pipe is full, the program waits without keeping a processor busy.
fn slow_reader_at_rest(program: &Program) -> Verdict {
    let mut running = start_not_blocking(program)?;
    sleep(milliseconds(300));
    is_at_rest(running.pid)?;
    let right = &long_session().right;
    let came = collected(running.take_output(), right);
    gives_all(right, &(came, running.end()))
}

/// The program on the long session with a socket as output whose writes end after this time;
/// gives the socket's other end. A write that is stopped there and goes on is interrupted.
fn start_on_socket(program: &Program, time: Duration) -> Result<(Watched, UnixStream), Trouble> {
    let (ours, theirs) = UnixStream::pair()?;
    theirs.set_write_timeout(Some(time))?;
    let mut command = program.command_on(&long_session().bytes)?;
    command.stdout(OwnedFd::from(theirs));
    Ok((Watched::start(command)?, ours))
}

/// A slow reader of a socket whose writes would block after a time: everything arrives.
fn slow_reader_of_a_socket(program: &Program) -> Verdict {
    let (running, source) = start_on_socket(program, milliseconds(20))?;
    let right = &long_session().right;
    let came = read_slowly(source, right);
    gives_all(right, &(came, running.end()))
}

/// Lines whose answers have this many bytes: releases, then feeds and receives to the byte.
fn lines_answered_by(count: usize) -> Vec<u8> {
    let [release, feed, receive] = ["(release 1000)\n", "(feed 0)\n", "(receive)\n"];
    let length = |line: &str| right_answers(line.as_bytes()).len();
    let releases = (count - 200) / length(release);
    let rest = count - releases * length(release);
    let receives = (0..).find(|n| (rest - n * length(receive)) % length(feed) == 0).unwrap_or(0);
    let feeds = (rest - receives * length(receive)) / length(feed);
    [release.repeat(releases), receive.repeat(receives), feed.repeat(feeds)].concat().into()
}

/// A pipe that does not block, a page long and full but for one byte: the first write takes
/// that byte alone, and everything arrives.
fn one_byte_taken(program: &Program) -> Verdict {
    let input = lines_answered_by(4097);
    let mut command = program.command();
    command.stdin(Stdio::piped());
    system::not_blocking(&mut command, 1);
    let mut running = Watched::start(command)?;
    let (mut to, source) = (running.take_input(), running.take_output());
    let before = system::fill_but_one(&source)?;
    to.write_all(&input)?;
    sleep(milliseconds(300));
    drop(to);
    let right = right_output(&input);
    let came = collected(source, &[right.clone(), vec![0; before]].concat());
    gives_all(&right, &(came.get(before..).unwrap_or_default().to_vec(), running.end()))
}

/// No output at all: a message, at once.
fn closed_output(program: &Program) -> Verdict {
    let mut command = program.command();
    command.stdout(Stdio::null());
    system::without_file(&mut command, 1);
    ended_with_message(&program.ends_at_once(command)?, OUTPUT)
}

/// Interrupts the program again and again while its output is full: everything arrives.
fn interrupt_writes(running: Watched, mut source: impl Read) -> Verdict {
    let (right, mut came) = (&long_session().right, Vec::new());
    for _ in 0..20 {
        interrupt(running.pid)?;
        came.extend(read_up_to(source.by_ref(), 5000));
    }
    came.extend(collected(source, right));
    gives_all(right, &(came, running.end()))
}

/// Interrupted writes to a pipe: a part of what was to be written is.
fn interrupted_write(program: &Program) -> Verdict {
    let mut running = Watched::start(program.command_on(&long_session().bytes)?)?;
    let source = running.take_output();
    interrupt_writes(running, source)
}

/// Interrupted writes to a socket with a limit of time, which fail by the interruption.
fn interrupted_write_to_a_socket(program: &Program) -> Verdict {
    let (running, source) = start_on_socket(program, watched::PATIENCE)?;
    interrupt_writes(running, source)
}

/// Reads so many bytes of the long session's output and goes away; gives them and the end.
fn leave_after(command: Command, count: u64) -> Result<Came, Trouble> {
    let mut running = Watched::start(command)?;
    let came = read_up_to(running.take_output(), count);
    Ok((came, running.end()))
}

/// A reader that goes away: the signal ends the program, or a message tells.
fn reader_gone(program: &Program) -> Verdict {
    let long = long_session();
    for count in [0, 1, 5000, 200_000] {
        let (came, ended) = leave_after(program.command_on(&long.bytes)?, count)?;
        is_beginning(&long.right, &came)?;
        if ended.signal() != Some(SIGPIPE) {
            ended_with_message(&ended, OUTPUT)?;
        }
    }
    Ok(())
}

/// A reader that goes away, the signal ignored: a message.
fn reader_gone_without_signal(program: &Program) -> Verdict {
    let long = long_session();
    for count in [0, 1, 5000, 200_000] {
        let mut command = program.command_on(&long.bytes)?;
        system::ignoring(&mut command, SIGPIPE);
        gives_beginning(&long.right, &leave_after(command, count)?)?;
    }
    Ok(())
}
