//! Sessions through the program `sludgeline`: whole, in odd parts, from a file, in step; most of
//! them of the house set, some with other figures behind `--figures`. What it prints is measured
//! against what the library tells before, in `lengths`. The sets that it refuses are in `wishes`.

use crate::tally::{kind_of, refusal_of, Tally};
use crate::{lengths, shown, wishes, Difference, Options};
use second::balances::{numbers_in, Balances};
use second::plant::Plant;
use second::random::Random;
use second::trials::lists::Lines;
use second::trials::{figures, Trial};
use second::{lines, session};
use std::fs::File;
use std::io::{Read, Write};
use std::path::Path;
use std::process::{Child, ChildStdin, Command, Stdio};
use std::sync::mpsc::{channel, Receiver};
use std::thread;
use std::time::Duration;

/// How long the program may take to give an answer that it owes.
const PATIENCE: Duration = Duration::from_secs(20);

/// A session: the program's words and the record they ask for, its bytes, its lines with their
/// kinds, and the answers the second implementation gives.
struct Session {
    words: Vec<String>,
    start: Plant,
    bytes: Vec<u8>,
    lines: Vec<Vec<u8>>,
    kinds: Vec<&'static str>,
    answers: Vec<Vec<u8>>,
}

/// How many lines a session has: most are short, some very long.
fn session_length(random: &mut Random) -> u64 {
    match random.below(20) {
        0 => random.below(3),
        1..=8 => random.below(30),
        9..=17 => random.below(500),
        _ => random.below(6000),
    }
}

/// Sizes of blocks that a reader might use.
const BLOCKS: [usize; 6] = [512, 1024, 4096, 8192, 65536, 131072];

/// Adds a line of spaces after which the bytes so far end at, before or behind a block's end.
fn pad_to_block(random: &mut Random, bytes: &mut Vec<u8>) {
    let block = random.one_of(&BLOCKS);
    let target = bytes.len().next_multiple_of(block) + random.index(3);
    bytes.resize(target.max(bytes.len() + 1) - 1, b' ');
    bytes.push(b'\n');
}

/// The program's words, and the record that they ask for: of the house set three of four times.
fn words_and_record(random: &mut Random) -> (Vec<String>, Plant) {
    if random.percent(75) {
        return (Vec::new(), Plant::FRESH);
    }
    let figures = figures::permitted(random);
    (figures::words(&figures), Plant::fresh(figures))
}

/// Makes a session by asking its own record for each next line.
fn make_session(random: Random) -> Session {
    let mut trial = Trial::new(random);
    let (words, start) = words_and_record(&mut trial.random);
    let mut session = Session::empty(words, start);
    let mut plant = start;
    for _ in 0..session_length(&mut trial.random) {
        let before = session.bytes.len();
        if trial.random.below(200) == 0 {
            pad_to_block(&mut trial.random, &mut session.bytes);
        } else {
            session.bytes.extend(trial.line(&plant));
            session.bytes.push(b'\n');
        }
        let part = session.bytes[before..session.bytes.len() - 1].to_vec();
        for line in part.split(|&byte| byte == b'\n') {
            session.answer(&mut plant, line);
        }
    }
    if trial.random.percent(30) && session.lines.last().is_some_and(|line| !line.is_empty()) {
        session.bytes.pop();
    }
    session.hold(&plant);
    session
}

impl Session {
    /// No lines yet.
    fn empty(words: Vec<String>, start: Plant) -> Session {
        let (bytes, lines, kinds, answers) = (Vec::new(), Vec::new(), Vec::new(), Vec::new());
        Session { words, start, bytes, lines, kinds, answers }
    }

    /// Answers one more line.
    fn answer(&mut self, plant: &mut Plant, line: &[u8]) {
        let mut buffer = [0; 512];
        self.kinds.push(kind_of(line, plant));
        self.answers.push(lines::answer(plant, line, &mut buffer).to_vec());
        self.lines.push(line.to_vec());
    }

    /// Gives the held line behind the other answers.
    fn hold(&mut self, plant: &Plant) {
        let mut buffer = [0; 512];
        self.answers.push(lines::held(plant, &mut buffer).to_vec());
    }

    /// Everything that is to be printed.
    fn printed(&self) -> Vec<u8> {
        self.answers.iter().flat_map(|answer| answer.iter().copied().chain([b'\n'])).collect()
    }

    /// The session of its first lines alone, each with a newline.
    fn first(&self, number: usize) -> Session {
        let mut plant = self.start;
        let mut first = Session::empty(self.words.clone(), plant);
        for line in &self.lines[..number] {
            first.bytes.extend(line);
            first.bytes.push(b'\n');
            first.answer(&mut plant, line);
        }
        first.hold(&plant);
        first
    }

    /// How many bytes of answers are owed once so many bytes have been handed over.
    fn owed(&self, handed: usize) -> usize {
        let whole = self.bytes[..handed].iter().filter(|&&byte| byte == b'\n').count();
        self.answers[..whole].iter().map(|answer| answer.len() + 1).sum()
    }

    /// Counts its answers.
    fn tally(&self, tally: &mut Tally) {
        for (kind, answer) in self.kinds.iter().zip(&self.answers) {
            tally.add(kind, refusal_of(answer));
        }
        tally.add("held", 0);
        if !self.words.is_empty() {
            tally.add("--figures", 0);
        }
    }

    /// Asks that the balances of its lines and answers close over its held line.
    fn check_balances(&self) -> Result<(), Difference> {
        let mut balances = Balances::on(&self.start);
        for (line, answer) in self.lines.iter().zip(&self.answers) {
            balances.count_line(line, answer);
        }
        let held = self.answers.last().map_or(Vec::new(), |held| numbers_in(held));
        let held = held.try_into().map_err(|held| format!("the held line has {held:?}"))?;
        balances.check(held)
    }

    /// Compares what came out with what is to be printed, and shows the first line that differs.
    fn compare(&self, who: &str, came: &[u8]) -> Result<(), Difference> {
        if came == self.printed() {
            return Ok(());
        }
        let mut answers = came.split(|&byte| byte == b'\n');
        for (number, expected) in self.answers.iter().enumerate() {
            let found = answers.next().unwrap_or(b"");
            if found != expected {
                let line =
                    self.lines.get(number).map_or("(the held line)".into(), |line| shown(line));
                return Err(format!(
                    "line {} of the session\n  line: {line}\n  second: {}\n  {who}: {}",
                    number + 1,
                    shown(expected),
                    shown(found)
                ));
            }
        }
        Err(format!(
            "{who}: bytes behind the held line: {}",
            shown(&answers.collect::<Vec<_>>().concat())
        ))
    }
}

/// Hands a session out in parts of odd sizes.
struct InParts<'a> {
    bytes: &'a [u8],
    random: Random,
    greatest: u64,
}

impl Read for InParts<'_> {
    /// Hands out the next part.
    fn read(&mut self, space: &mut [u8]) -> std::io::Result<usize> {
        let size = 1 + self.random.below(self.greatest) as usize;
        let length = size.min(space.len()).min(self.bytes.len());
        space[..length].copy_from_slice(&self.bytes[..length]);
        self.bytes = &self.bytes[length..];
        Ok(length)
    }
}

/// Checks that the second program's own cutting gives the answers of its lines.
fn check_own(session: &Session, random: &mut Random) -> Result<(), Difference> {
    let greatest = random.one_of(&[10, 2000, 100_000]);
    let mut input = InParts { bytes: &session.bytes, random: random.clone(), greatest };
    let mut printed = Vec::new();
    let ran = session::run_on(session.start, &mut input, &mut printed);
    ran.map_err(|error| error.to_string())?;
    session.compare("second's own cutting", &printed)
}

/// The program at work, with what it prints as it comes.
struct Running {
    child: Child,
    input: Option<ChildStdin>,
    output: Receiver<Vec<u8>>,
    came: Vec<u8>,
}

impl Running {
    /// Starts the program with a session's words; its input is a pipe, or this file.
    fn start(program: &Path, session: &Session, file: Option<File>) -> Result<Running, Difference> {
        let mut command = Command::new(program);
        command.args(&session.words).stdout(Stdio::piped());
        let started = command.stdin(file.map_or_else(Stdio::piped, Stdio::from)).spawn();
        let mut child = started.map_err(|error| format!("{}: {error}", program.display()))?;
        let mut stdout = child.stdout.take().expect("stdout is a pipe");
        let (sender, output) = channel();
        thread::spawn(move || {
            let mut block = vec![0; 65536];
            while let Ok(length @ 1..) = stdout.read(&mut block) {
                if sender.send(block[..length].to_vec()).is_err() {
                    break;
                }
            }
        });
        let input = child.stdin.take();
        Ok(Running { child, input, output, came: Vec::new() })
    }

    /// Hands bytes over; a program that has ended already is found out at the end.
    fn hand(&mut self, bytes: &[u8]) {
        let _ = self.input.as_mut().expect("stdin is a pipe").write_all(bytes);
    }

    /// Waits until so many bytes have come; false where they do not.
    fn wait_for(&mut self, length: usize) -> bool {
        while self.came.len() < length {
            match self.output.recv_timeout(PATIENCE) {
                Ok(bytes) => self.came.extend(bytes),
                Err(_) => return false,
            }
        }
        true
    }

    /// Ends the input and gives everything that was printed.
    fn end(mut self) -> Result<Vec<u8>, Difference> {
        drop(self.input.take());
        while let Ok(bytes) = self.output.recv_timeout(PATIENCE) {
            self.came.extend(bytes);
        }
        let _ = self.child.kill();
        let status = self.child.wait().map_err(|error| error.to_string())?;
        match status.success() {
            true => Ok(self.came),
            false => Err(format!("the program ended with {status}")),
        }
    }
}

/// Hands a whole session over in parts no greater than this.
fn through_pipe(
    program: &Path,
    session: &Session,
    random: &mut Random,
    greatest: u64,
) -> Result<Vec<u8>, Difference> {
    let mut running = Running::start(program, session, None)?;
    let mut rest = &session.bytes[..];
    while !rest.is_empty() {
        let size = (1 + random.below(greatest) as usize).min(rest.len());
        running.hand(&rest[..size]);
        rest = &rest[size..];
    }
    running.end()
}

/// Hands a session over in step: each part only when all answers owed so far have come.
fn in_step(program: &Path, session: &Session, random: &mut Random) -> Result<Vec<u8>, Difference> {
    let mut running = Running::start(program, session, None)?;
    let mut handed = 0;
    while handed < session.bytes.len() {
        let size = 1 + random.below(session.bytes.len() as u64 / 10 + 20) as usize;
        let next = (handed + size).min(session.bytes.len());
        running.hand(&session.bytes[handed..next]);
        handed = next;
        if !running.wait_for(session.owed(handed)) {
            let owed = session.owed(handed) - running.came.len();
            let _ = running.end();
            return Err(format!("{owed} bytes of answers withheld after {handed} bytes of input"));
        }
        if running.came.len() > session.owed(handed) {
            let _ = running.end();
            return Err(format!("more answers than whole lines after {handed} bytes of input"));
        }
    }
    running.end()
}

/// Hands a session over as a file.
fn from_file(program: &Path, session: &Session) -> Result<Vec<u8>, Difference> {
    let path = std::env::temp_dir().join(format!("differ-{}.session", std::process::id()));
    let file = std::fs::write(&path, &session.bytes).and_then(|()| File::open(&path));
    let _ = std::fs::remove_file(&path);
    let file = file.map_err(|error| error.to_string())?;
    Running::start(program, session, Some(file))?.end()
}

/// Runs one session through the program, in one of the ways to hand it over; gives the number of
/// bytes that it printed.
fn one_session(program: &Path, session: &Session, random: &mut Random) -> Result<u64, Difference> {
    let short = session.bytes.len() < 20_000;
    let printed = match random.below(12) {
        0..=2 => from_file(program, session),
        3 | 4 if short => in_step(program, session, random),
        5 | 6 if short => through_pipe(program, session, random, 8),
        7 => through_pipe(program, session, random, 2000),
        8 => through_pipe(program, session, random, 70_000),
        _ => through_pipe(program, session, random, u64::MAX >> 1),
    }?;
    session.compare("sludgeline", &printed)?;
    Ok(printed.len() as u64)
}

/// Holds what the library tells of a session against what the program printed. Where more lines
/// than count stand in it, the program is run once more, on those that count.
fn check_length(
    program: &Path,
    session: &Session,
    printed: u64,
    random: &mut Random,
    tally: &mut Tally,
) -> Result<(), Difference> {
    let uncounted = session.lines.len().saturating_sub(lengths::COUNTED);
    let counted = match uncounted {
        0 => printed,
        _ => one_session(program, &session.first(lengths::COUNTED), random)?,
    };
    let lines = Lines { start: session.start, bytes: session.bytes.clone() };
    lengths::of_session(&lines, [counted, uncounted as u64], random.any(), tally)
}

/// Runs all sessions through the program.
pub fn run(options: &Options, tally: &mut Tally) -> Result<(), Difference> {
    for number in 0..options.sessions {
        let mut random = Random::nth(options.seed, 2 * number);
        if random.percent(5) {
            wishes::one_refused(&options.program, &mut random, tally)
                .map_err(|difference| format!("session {number}\n{difference}"))?;
            continue;
        }
        let session = make_session(random.clone());
        let result = check_own(&session, &mut random)
            .and_then(|()| session.check_balances())
            .and_then(|()| one_session(&options.program, &session, &mut random))
            .and_then(|printed| {
                check_length(&options.program, &session, printed, &mut random, tally)
            });
        if let Err(difference) = result {
            let path = concat!(env!("CARGO_MANIFEST_DIR"), "/target/differ.session");
            let _ = std::fs::write(path, &session.bytes);
            let words = session.words.join(" ");
            let where_from = format!("its bytes are in {path}, its words are `{words}`");
            return Err(format!("session {number} ({where_from})\n{difference}"));
        }
        session.tally(tally);
    }
    Ok(())
}
