//! The inputs of the trials, and what the second implementation gives for them.

use crate::plant::{Call, Plant};
use crate::random::Random;
use crate::tables::{asm1, Asm1};
use crate::trials::{form, Trial};
use crate::{lines, session};
use std::sync::OnceLock;

/// The lines of the long session.
const LONG: usize = 20_001;

/// An input with its right output.
pub struct Session {
    pub bytes: Vec<u8>,
    pub right: Vec<u8>,
}

/// The session of 20,001 lines of every kind.
pub fn long_session() -> &'static Session {
    static SESSION: OnceLock<Session> = OnceLock::new();
    SESSION.get_or_init(|| {
        let bytes = mixed_lines(5, LONG);
        let right = right_output(&bytes);
        Session { bytes, right }
    })
}

/// So many lines of every kind, whole and damaged, for a fresh record of the house set.
pub fn mixed_lines(seed: u64, count: usize) -> Vec<u8> {
    mixed_lines_on(Plant::FRESH, seed, count)
}

/// The same for this record.
pub fn mixed_lines_on(mut plant: Plant, seed: u64, count: usize) -> Vec<u8> {
    let mut trial = Trial::new(Random::new(seed));
    let (mut bytes, mut buffer) = (Vec::new(), [0; 512]);
    for _ in 0..count {
        let mut line = trial.line(&plant);
        while line.contains(&b'\n') {
            line = trial.line(&plant);
        }
        lines::answer(&mut plant, &line, &mut buffer);
        bytes.extend(line);
        bytes.push(b'\n');
    }
    bytes
}

/// A day's sludge without inerts, so that no nitrogen is short.
fn sludge(random: &mut Random) -> Asm1 {
    std::array::from_fn(|column| match column {
        asm1::SI | asm1::XI | asm1::XP => 0,
        _ => random.below(100_000),
    })
}

/// So many lines that are all accepted.
pub fn steady_lines(count: usize) -> Vec<u8> {
    let mut random = Random::new(8);
    let mut bytes = Vec::new();
    for number in 0..count {
        let call = match number % 8 {
            2 => Call::Feed(500),
            3 => Call::Return(300),
            4 => Call::Recycle(200),
            5 => Call::Draw(300),
            6 => Call::Accept(sludge(&mut random), random.below(100_000)),
            7 => Call::Release(700),
            _ => Call::Receive(sludge(&mut random)),
        };
        bytes.extend(form(&mut random, &call));
        bytes.push(b'\n');
    }
    bytes
}

/// Steady lines and a line of spaces, so that what follows them begins at this byte.
pub fn lines_up_to(place: usize) -> Vec<u8> {
    let mut bytes = steady_lines(place / 20);
    bytes.truncate(place - 1);
    let whole = bytes.iter().rposition(|&byte| byte == b'\n').map_or(0, |end| end + 1);
    bytes.truncate(whole);
    bytes.resize(place - 1, b' ');
    bytes.push(b'\n');
    bytes
}

/// What the second implementation gives for an input.
pub fn right_output(input: &[u8]) -> Vec<u8> {
    right_output_on(Plant::FRESH, input)
}

/// What it gives for an input on this record.
pub fn right_output_on(plant: Plant, input: &[u8]) -> Vec<u8> {
    let mut printed = Vec::new();
    session::run_on(plant, &mut &input[..], &mut printed).expect("a vector takes every byte");
    printed
}

/// What the second implementation gives for an input, without the held line.
pub fn right_answers(input: &[u8]) -> Vec<u8> {
    let mut printed = right_output(input);
    printed.pop();
    let held = printed.iter().rposition(|&byte| byte == b'\n').map_or(0, |end| end + 1);
    printed.truncate(held);
    printed
}

#[cfg(test)]
mod tests {
    use super::*;

    /// Every steady line is accepted, the recycles, draws and accepts among them.
    #[test]
    fn steady_lines_are_accepted() {
        let answers = String::from_utf8(right_answers(&steady_lines(8000))).expect("text");
        assert!(answers.lines().all(|answer| answer.starts_with("(ok ")));
        for begin in ["(ok recycle)", "(ok draw (si ", "(ok accept n2 "] {
            let answers = answers.lines().filter(|answer| answer.starts_with(begin));
            assert_eq!(answers.count(), 1000, "{begin}");
        }
    }
}
