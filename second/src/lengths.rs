//! How long the answers to a list of lines will be, the held line behind them, without any of
//! them being written. The lines stand in one slice, cut as a session cuts its input. At most
//! 1,000 of them count; of later ones it is told how many there were, and no more.
//!
//! An answer is as long as its words and the digits of its numbers.

use crate::lines;
use crate::plant::{Plant, Refusal, Told};
use crate::tables::Asm1;

/// How many lines count at most.
pub const MOST_LINES: usize = 1000;

/// What is told of a list of lines: the bytes of the answers to those that count and of the held
/// line, newlines among them, and how many lines did not count.
#[derive(Clone, Copy, Debug, PartialEq, Eq)]
pub struct Length {
    pub bytes: u64,
    pub uncounted: u64,
}

impl Length {
    /// The bytes, and the number of lines that did not count.
    pub fn numbers(&self) -> [u64; 2] {
        [self.bytes, self.uncounted]
    }
}

/// The lines of an input, each without its newline; nothing behind a final newline is one.
pub fn cut(input: &[u8]) -> impl Iterator<Item = &[u8]> {
    let whole = input.split_inclusive(|&byte| byte == b'\n');
    whole.map(|line| line.strip_suffix(b"\n").unwrap_or(line))
}

/// How many digits a number has in decimal.
fn digits(number: u64) -> u64 {
    1 + number.checked_ilog10().map_or(0, u64::from)
}

/// The length of an answer with these words, in which no number stands, and these numbers. The
/// word n2 is none.
fn length(words: &str, numbers: &[u64]) -> u64 {
    words.len() as u64 + numbers.iter().map(|&number| digits(number)).sum::<u64>()
}

/// The length of an answer that begins with these words and hands a vector out.
fn of_handed_out(begin: &str, v: &Asm1) -> u64 {
    let columns = " (si ) (ss ) (xi ) (xs ) (xbh ) (xba ) (xp ) (so ) (sno ) (snh ) (snd ) (xnd ) \
        (salk ))";
    length(begin, &[]) + length(columns, v)
}

/// The length of an answer, without its newline.
fn of_answer(answer: &Result<Told, Refusal>) -> u64 {
    match answer {
        Ok(Told::Received) => length("(ok receive)", &[]),
        Ok(Told::Fed(told)) => length("(ok feed burnt  oxygen  nitrate  warn )", &told.numbers()),
        Ok(Told::Settled) => length("(ok settle)", &[]),
        Ok(Told::Returned(stripped)) => length("(ok return stripped )", &[*stripped]),
        Ok(Told::Released(v)) => of_handed_out("(ok release", v),
        Ok(Told::Recycled) => length("(ok recycle)", &[]),
        Ok(Told::Drawn(v)) => of_handed_out("(ok draw", v),
        Ok(Told::Accepted(n2)) => length("(ok accept n2 )", &[*n2]),
        Err(refusal) => of_refusal(*refusal),
    }
}

/// The length of a refusal's answer.
fn of_refusal(refusal: Refusal) -> u64 {
    length("(no )", &[refusal as u64])
}

/// The length of the record's held line, without its newline.
fn of_held(plant: &Plant) -> u64 {
    match plant.held() {
        Ok(held) => length("(held cod  tkn  oxygen  nitrate )", &held.numbers()),
        Err(refusal) => of_refusal(refusal),
    }
}

/// How long the answers to these lines will be from this record, which stays as it is.
pub fn answer_bytes(plant: &Plant, input: &[u8]) -> Length {
    let (mut plant, mut list) = (*plant, cut(input));
    let counted = list.by_ref().take(MOST_LINES);
    let answers: u64 = counted.map(|line| of_answer(&lines::outcome(&mut plant, line)) + 1).sum();
    Length { bytes: answers + of_held(&plant) + 1, uncounted: list.count() as u64 }
}

#[cfg(test)]
mod tests {
    use super::*;

    /// A number has as many digits as it is written with, at each count of digits.
    #[test]
    fn digits_of_numbers() {
        for power in (0..20).map(|exponent| 10u64.pow(exponent)) {
            for number in [power - 1, power, power + 1, u64::MAX / power] {
                assert_eq!(digits(number), number.to_string().len() as u64, "{number}");
            }
        }
        assert_eq!([0, 9, 10, 99, 100, u64::MAX].map(digits), [1, 1, 2, 2, 3, 20]);
    }

    /// Lines end with a newline or with the input; between two newlines stands an empty one.
    #[test]
    fn lines_of_inputs() {
        let lines = |input: &'static str| cut(input.as_bytes()).collect::<Vec<_>>();
        assert!(lines("").is_empty());
        assert_eq!(lines("\n"), [b""]);
        assert_eq!(lines("\n\n"), [b"", b""]);
        assert_eq!(lines("a"), [b"a"]);
        assert_eq!(lines("a\n"), [b"a"]);
        assert_eq!(lines("\na"), [&b""[..], b"a"]);
        assert_eq!(lines("a\n\n"), [&b"a"[..], b""]);
        assert_eq!(lines("a\r\nb\0\n c"), [&b"a\r"[..], b"b\0", b" c"]);
    }
}
