//! What the trials need of Linux and the standard library does not have: a child's
//! files, limit and signals set before its program begins, signals sent to it, and
//! what /proc tells of it. The numbers are those of x86-64.

use std::fs::File;
use std::io::{Error, Result, Write};
use std::os::fd::{AsRawFd, RawFd};
use std::os::unix::process::CommandExt;
use std::process::Command;

/// The signals that are sent or ignored.
pub const SIGPIPE: i32 = 13;
pub const SIGCONT: i32 = 18;
pub const SIGSTOP: i32 = 19;
pub const SIGURG: i32 = 23;
pub const SIGXFSZ: i32 = 25;
pub const SIGWINCH: i32 = 28;

/// No limit at all.
pub const UNLIMITED: u64 = u64::MAX;

const SIG_IGN: usize = 1;
const F_GETFL: i32 = 3;
const F_SETFL: i32 = 4;
const O_NONBLOCK: i32 = 0o4000;
const F_SETPIPE_SZ: i32 = 1031;
const RLIMIT_FSIZE: i32 = 1;

/// A limit as the C library takes it: the one that holds, and the highest it may be set to.
#[repr(C)]
struct Limit {
    soft: u64,
    hard: u64,
}

/// The C library's functions; each of the first four may be called between fork and exec.
mod c {
    extern "C" {
        pub fn close(fd: i32) -> i32;
        pub fn fcntl(fd: i32, command: i32, ...) -> i32;
        pub fn signal(signal: i32, handler: usize) -> usize;
        pub fn prlimit(
            pid: i32,
            resource: i32,
            new: *const super::Limit,
            old: *mut super::Limit,
        ) -> i32;
        pub fn kill(pid: i32, signal: i32) -> i32;
    }
}

/// What a C function gave, or the error that it left where it gave -1.
fn checked(given: i32) -> Result<i32> {
    match given {
        -1 => Err(Error::last_os_error()),
        _ => Ok(given),
    }
}

/// Has the child take a step before its program begins, behind the setting of its files.
fn before(command: &mut Command, step: impl Fn() -> Result<()> + Send + Sync + 'static) {
    // The steps below allocate nothing and call only what may be called there.
    unsafe { command.pre_exec(step) };
}

/// Starts the program without this file.
pub fn without_file(command: &mut Command, fd: i32) {
    before(command, move || checked(unsafe { c::close(fd) }).map(|_| ()));
}

/// Starts the program with this file set not to block.
pub fn not_blocking(command: &mut Command, fd: i32) {
    before(command, move || {
        let flags = checked(unsafe { c::fcntl(fd, F_GETFL) })?;
        checked(unsafe { c::fcntl(fd, F_SETFL, flags | O_NONBLOCK) }).map(|_| ())
    });
}

/// Starts the program with this signal ignored.
pub fn ignoring(command: &mut Command, signal: i32) {
    before(command, move || match unsafe { c::signal(signal, SIG_IGN) } {
        usize::MAX => Err(Error::last_os_error()),
        _ => Ok(()),
    });
}

/// Sets the greatest size of a file that a process may write; 0 is the calling process.
fn set_file_size(pid: i32, soft: u64) -> Result<()> {
    let limit = Limit { soft, hard: UNLIMITED };
    checked(unsafe { c::prlimit(pid, RLIMIT_FSIZE, &limit, std::ptr::null_mut()) }).map(|_| ())
}

/// Starts the program under a greatest size of a file that it writes.
pub fn with_file_size(command: &mut Command, bytes: u64) {
    before(command, move || set_file_size(0, bytes));
}

/// Lifts that greatest size for a program at work.
pub fn lift_file_size(pid: u32) -> Result<()> {
    set_file_size(pid as i32, UNLIMITED)
}

/// Sends a signal.
pub fn send(pid: u32, signal: i32) -> Result<()> {
    checked(unsafe { c::kill(pid as i32, signal) }).map(|_| ())
}

/// What /proc/PID/stat tells of a process behind its name: the state first.
fn stat(pid: u32) -> Option<Vec<String>> {
    let text = std::fs::read_to_string(format!("/proc/{pid}/stat")).ok()?;
    let (_, behind) = text.rsplit_once(')')?;
    Some(behind.split_whitespace().map(str::to_string).collect())
}

/// The state of a process: R at work, S asleep, T stopped, Z ended; none where it is gone.
pub fn state(pid: u32) -> Option<char> {
    stat(pid)?.first()?.chars().next()
}

/// The hundredths of a second that a process has had of a processor.
pub fn processor_time(pid: u32) -> Option<u64> {
    let fields = stat(pid)?;
    let part = |place: usize| fields.get(place)?.parse::<u64>().ok();
    Some(part(11)? + part(12)?)
}

/// Makes a pipe one page long, whose end this is, and fills it but for one byte; gives the
/// count of bytes that stand in it then.
pub fn fill_but_one(end: &impl AsRawFd) -> Result<usize> {
    let fd: RawFd = end.as_raw_fd();
    let page = checked(unsafe { c::fcntl(fd, F_SETPIPE_SZ, 4096) })? as usize;
    let mut to = File::options().write(true).open(format!("/proc/self/fd/{fd}"))?;
    to.write_all(&vec![b'.'; page - 1])?;
    Ok(page - 1)
}
