//! A program at work under a deadline: at its end, or when it is let go of, it is
//! killed, so that whoever reads its output or writes its input never waits for good.

use std::io::{Read, Result};
use std::os::unix::process::ExitStatusExt;
use std::process::{Child, ChildStdin, ChildStdout, Command, ExitStatus};
use std::sync::mpsc::{channel, Receiver, RecvTimeoutError, Sender};
use std::sync::{Arc, Mutex};
use std::thread::{self, JoinHandle};
use std::time::{Duration, Instant};

/// How long a program may take.
pub const PATIENCE: Duration = Duration::from_secs(20);

/// The most bytes of messages that are kept.
const MESSAGES: u64 = 1 << 20;

/// A program at work, with the ends of the pipes that it was given.
pub struct Watched {
    pub pid: u32,
    input: Option<ChildStdin>,
    output: Option<ChildStdout>,
    child: Arc<Mutex<Child>>,
    messages: Option<JoinHandle<Vec<u8>>>,
    over: Option<Sender<()>>,
    watcher: Option<JoinHandle<bool>>,
}

/// How a program ended: what it wrote to standard error, and whether it had to be killed.
pub struct Ended {
    pub messages: Vec<u8>,
    pub killed: bool,
    pub status: ExitStatus,
}

impl Ended {
    /// The signal that ended it, if one did.
    pub fn signal(&self) -> Option<i32> {
        self.status.signal()
    }
}

/// Everything that is read, but for what stands behind so many bytes.
pub fn read_up_to(source: impl Read, most: u64) -> Vec<u8> {
    let mut bytes = Vec::new();
    // An error ends the reading; what came before it is kept.
    let _ = source.take(most).read_to_end(&mut bytes);
    bytes
}

/// Waits for word that the program has ended; without it, kills the program. Gives whether
/// the deadline passed.
fn watch(child: &Mutex<Child>, over: &Receiver<()>) -> bool {
    let word = over.recv_timeout(PATIENCE);
    if word.is_err() {
        let mut child = child.lock().expect("no holder panics");
        let _ = child.kill();
        let _ = child.wait();
    }
    word == Err(RecvTimeoutError::Timeout)
}

impl Watched {
    /// Starts the program; the command goes, and with it the files that it handed over.
    pub fn start(mut command: Command) -> Result<Watched> {
        let mut child = command.spawn()?;
        let (input, output) = (child.stdin.take(), child.stdout.take());
        let stderr = child.stderr.take();
        let messages = stderr.map(|pipe| thread::spawn(move || read_up_to(pipe, MESSAGES)));
        let pid = child.id();
        let child = Arc::new(Mutex::new(child));
        let (over, ended) = channel();
        let watched = Arc::clone(&child);
        let watcher = Some(thread::spawn(move || watch(&watched, &ended)));
        Ok(Watched { pid, input, output, child, messages, over: Some(over), watcher })
    }

    /// The end of the pipe to its input.
    pub fn take_input(&mut self) -> ChildStdin {
        self.input.take().expect("the input is a pipe that was not taken yet")
    }

    /// The end of the pipe from its output.
    pub fn take_output(&mut self) -> ChildStdout {
        self.output.take().expect("the output is a pipe that was not taken yet")
    }

    /// How the program ended, if it has.
    fn status(&self) -> Option<ExitStatus> {
        let mut child = self.child.lock().expect("no holder panics");
        child.try_wait().expect("a child can be waited for")
    }

    /// Whether the program ends within this time.
    pub fn ends_within(&self, time: Duration) -> bool {
        let until = Instant::now() + time;
        while self.status().is_none() {
            if Instant::now() >= until {
                return false;
            }
            thread::sleep(Duration::from_millis(1));
        }
        true
    }

    /// Waits for the program's end.
    pub fn end(mut self) -> Ended {
        // The watcher kills it at the deadline, so that this ends.
        let status = loop {
            match self.status() {
                Some(status) => break status,
                None => thread::sleep(Duration::from_millis(1)),
            }
        };
        if let Some(over) = &self.over {
            let _ = over.send(());
        }
        let killed = self.watcher.take().is_some_and(|watcher| watcher.join().unwrap_or(true));
        let messages = self.messages.take().and_then(|reader| reader.join().ok());
        Ended { messages: messages.unwrap_or_default(), killed, status }
    }
}

impl Drop for Watched {
    /// Has the watcher kill a program that was not waited for.
    fn drop(&mut self) {
        self.over = None;
        if let Some(watcher) = self.watcher.take() {
            let _ = watcher.join();
        }
    }
}
