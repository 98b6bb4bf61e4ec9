//! Lists of lines in one slice, each with the record that it begins from: of no line, of few, of
//! about as many as count and of more; of lines of every kind, of empty ones, and of any bytes;
//! with a newline at the end and without.

use super::Trial;
use crate::lengths::MOST_LINES;
use crate::lines;
use crate::plant::Plant;
use crate::random::Random;

/// A list of lines, and the record before it.
#[derive(Clone, Debug)]
pub struct Lines {
    pub start: Plant,
    pub bytes: Vec<u8>,
}

/// Bytes of which many are newlines, and the others such as forms have.
const BYTES: &[u8] = b"\n\n\n\n()  feed10\r\0\xff";

/// How many lines a list is to have: few, mostly.
fn number_of_lines(random: &mut Random) -> usize {
    match random.below(200) {
        0..=19 => random.index(3),
        20..=149 => random.index(12),
        150..=194 => random.index(60),
        195 => random.index(MOST_LINES),
        196..=198 => MOST_LINES - 2 + random.index(5),
        _ => MOST_LINES + random.index(2 * MOST_LINES),
    }
}

/// Puts as many lines behind one another, each for the record that those before it lead to. A
/// damaged one may have newlines in it; then there may be more.
fn of_every_kind(trial: &mut Trial, start: &Plant, number: usize) -> Vec<u8> {
    let (mut plant, mut bytes, mut made) = (*start, Vec::new(), 0);
    while made < number {
        let next = trial.line(&plant);
        for line in next.split(|&byte| byte == b'\n') {
            lines::answer(&mut plant, line, &mut [0; lines::SHORTEST_BUFFER]);
            made += 1;
        }
        bytes.extend(next);
        bytes.push(b'\n');
    }
    bytes
}

/// As many empty lines; now and then a form in the place of one of them.
fn of_empty_lines(random: &mut Random, number: usize) -> Vec<u8> {
    let mut bytes = vec![b'\n'; number];
    if number > 0 && random.percent(50) {
        let place = random.index(number);
        bytes.splice(place..place, *b"(receive (ss 999999))");
    }
    bytes
}

/// A list of lines, and the record before it.
pub fn any(random: &mut Random) -> Lines {
    let mut trial = Trial::new(Random::new(random.any()));
    let (start, number) = (trial.record(), number_of_lines(random));
    let mut bytes = match random.below(20) {
        0 => of_empty_lines(random, 3 * number),
        1 => (0..20 * number).map(|_| random.one_of(BYTES)).collect(),
        _ => of_every_kind(&mut trial, &start, number),
    };
    if random.percent(50) {
        bytes.pop();
    }
    Lines { start, bytes }
}

#[cfg(test)]
mod tests {
    use super::*;
    use crate::lengths::cut;

    /// How often a list had each number of lines that matters, each end, and each start; and
    /// lines of each kind.
    #[derive(Default, Debug)]
    struct Met {
        numbers: [u32; 6],
        ends: [u32; 3],
        starts: [u32; 3],
        longest: u32,
        too_long: u32,
        previews: u32,
        empty: u32,
    }

    impl Met {
        /// Counts a list.
        fn count(&mut self, list: &Lines) {
            let number = match cut(&list.bytes).count() {
                0 => 0,
                1..=998 => 1,
                number @ 999..=1001 => number - 997,
                _ => 5,
            };
            self.numbers[number] += 1;
            let start = match list.start.test_record() {
                Ok(()) => 0,
                Err(refusal) if refusal as usize == 1 => 1,
                Err(_) => 2,
            };
            self.starts[start] += 1;
            match list.bytes[..] {
                [.., b'\n', b'\n'] => self.ends[0] += 1,
                [.., b'\n'] => self.ends[1] += 1,
                _ => self.ends[2] += 1,
            }
            cut(&list.bytes).for_each(|line| self.count_line(line));
        }

        /// Counts a line.
        fn count_line(&mut self, line: &[u8]) {
            self.longest += u32::from(line.len() == lines::LONGEST_LINE);
            self.too_long += u32::from(line.len() == lines::LONGEST_LINE + 1);
            self.previews += u32::from(matches!(lines::read(line), Some(lines::Asked::Preview(_))));
            self.empty += u32::from(line.is_empty());
        }
    }

    /// Random lists have all of these among them.
    #[test]
    fn lists_of_every_kind() {
        let (mut met, mut random) = (Met::default(), Random::new(34));
        for _ in 0..3000 {
            met.count(&any(&mut random));
        }
        let lists = met.numbers.iter().chain(&met.ends).chain(&met.starts);
        let lines = [met.longest, met.too_long, met.previews, met.empty];
        assert!(lists.chain(&lines).all(|&count| count >= 5), "{met:?}");
    }
}
