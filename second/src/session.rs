//! A whole session: input read in blocks, cut into lines, each line answered, then
//! the held line. Memory is fixed: one block of input and one of answers.

use crate::lines;
use crate::plant::Plant;
use std::io::{ErrorKind, Read, Result, Write};

/// The bytes of the input block and of the answer block.
pub const BLOCK: usize = 64 * 1024;

/// Answers on their way out, with the record they are made on.
struct Answers<'w, W: Write> {
    plant: Plant,
    block: Box<[u8]>,
    filled: usize,
    sink: &'w mut W,
}

impl<'w, W: Write> Answers<'w, W> {
    /// Starts with this record and no answers.
    fn new(plant: Plant, sink: &'w mut W) -> Self {
        Answers { plant, block: vec![0; BLOCK].into(), filled: 0, sink }
    }

    /// Makes sure that an answer and its newline fit behind the filled part.
    fn make_room(&mut self) -> Result<()> {
        match BLOCK - self.filled <= lines::SHORTEST_BUFFER {
            true => self.write_out(),
            false => Ok(()),
        }
    }

    /// Ends an answer of this length with its newline.
    fn end_answer(&mut self, length: usize) {
        self.filled += length;
        self.block[self.filled] = b'\n';
        self.filled += 1;
    }

    /// Answers one line, handed over without its newline.
    fn line(&mut self, line: &[u8]) -> Result<()> {
        self.make_room()?;
        let length = lines::answer(&mut self.plant, line, &mut self.block[self.filled..]).len();
        self.end_answer(length);
        Ok(())
    }

    /// Gives the held line.
    fn held(&mut self) -> Result<()> {
        self.make_room()?;
        let length = lines::held(&self.plant, &mut self.block[self.filled..]).len();
        self.end_answer(length);
        Ok(())
    }

    /// Hands all answers so far to the sink.
    fn write_out(&mut self) -> Result<()> {
        self.sink.write_all(&self.block[..self.filled])?;
        self.filled = 0;
        self.sink.flush()
    }
}

/// The input block. The part of a line that has begun stands first in it; of a line
/// that is too long already only one byte more than the longest is kept.
struct Input {
    block: Box<[u8]>,
    begun: usize,
}

impl Input {
    /// Starts with no line begun.
    fn new() -> Self {
        Input { block: vec![0; BLOCK].into(), begun: 0 }
    }

    /// Answers each whole line up to `end`, and keeps the line that has begun behind them.
    fn cut<W: Write>(&mut self, end: usize, answers: &mut Answers<W>) -> Result<()> {
        let mut start = 0;
        let mut from = self.begun;
        while let Some(distance) = newline(&self.block[from..end]) {
            let stop = from + distance;
            answers.line(&self.block[start..stop])?;
            start = stop + 1;
            from = start;
        }
        let kept = (end - start).min(lines::LONGEST_LINE + 1);
        self.block.copy_within(start..start + kept, 0);
        self.begun = kept;
        Ok(())
    }
}

/// Where the first newline stands: eight bytes at a time, then one by one.
fn newline(bytes: &[u8]) -> Option<usize> {
    const ONES: u64 = u64::from_ne_bytes([1; 8]);
    let newlines = ONES * u64::from(b'\n');
    let mut chunks = bytes.chunks_exact(8);
    let mut passed = 0;
    for chunk in &mut chunks {
        let word = u64::from_le_bytes(chunk.try_into().expect("eight bytes")) ^ newlines;
        let zeros = word.wrapping_sub(ONES) & !word & (ONES << 7);
        if zeros != 0 {
            return Some(passed + zeros.trailing_zeros() as usize / 8);
        }
        passed += 8;
    }
    let position = chunks.remainder().iter().position(|&byte| byte == b'\n')?;
    Some(passed + position)
}

/// Reads once, again where a signal came between.
fn read_once(input: &mut impl Read, space: &mut [u8]) -> Result<usize> {
    loop {
        match input.read(space) {
            Err(error) if error.kind() == ErrorKind::Interrupted => continue,
            read => return read,
        }
    }
}

/// Runs a session from a fresh record of the house set.
pub fn run(input: &mut impl Read, output: &mut impl Write) -> Result<()> {
    run_on(Plant::FRESH, input, output)
}

/// Runs a session from this record: an answer for each line, then the held line.
/// Every answer to a whole line that has been read is written before the next read.
pub fn run_on(plant: Plant, input: &mut impl Read, output: &mut impl Write) -> Result<()> {
    let mut answers = Answers::new(plant, output);
    let mut cutter = Input::new();
    loop {
        answers.write_out()?;
        let read = read_once(input, &mut cutter.block[cutter.begun..])?;
        if read == 0 {
            break;
        }
        cutter.cut(cutter.begun + read, &mut answers)?;
    }
    if cutter.begun > 0 {
        answers.line(&cutter.block[..cutter.begun])?;
    }
    answers.held()?;
    answers.write_out()
}
