//! How long answers will be, through the C library: for the sessions that the program runs, where
//! what it printed is measured, and for lists of lines from records of every kind. Each is asked
//! of both on areas with the same contents, the record, the lines and the told numbers, all of
//! them between guards; every number and byte of the areas has to be the same afterwards.

use crate::guarded::{byte_pattern, number_pattern, Guarded};
use crate::tally::Tally;
use crate::{shown, Difference};
use second::plant::{Plant, Record};
use second::random::Random;
use second::trials::lists::{self, Lines};
use second::{host, numbers};

/// How many lines count, by request E11; neither side is asked for it.
pub const COUNTED: usize = 1000;

/// The function of either side.
type Function = fn(&Record, &[u8], &mut [u64; 2]);

/// The areas between their guards.
#[derive(Clone)]
struct Areas {
    record: Guarded<u64>,
    lines: Guarded<u8>,
    told: Guarded<u64>,
}

impl Areas {
    /// Areas with these contents; told numbers begin with a pattern.
    fn new(lines: &Lines, salt: u64) -> Areas {
        Areas {
            record: Guarded::new(&lines.start.columns(), number_pattern(salt)),
            lines: Guarded::new(&lines.bytes, byte_pattern(salt)),
            told: Guarded::new(&[salt; 2], number_pattern(!salt)),
        }
    }

    /// Lends them to a function.
    fn lend(&mut self, function: Function) {
        let Areas { record, lines, told } = self;
        function(record.array(), lines.inner(), told.array());
    }

    /// Compares these areas, the second implementation's, with those that the library left.
    fn compare(&self, found: &Areas) -> Result<(), Difference> {
        self.told.compare("told", &found.told)?;
        self.record.compare("record", &found.record)?;
        self.lines.compare("lines", &found.lines)
    }
}

/// The refusal that the record has, 0 where it has none: the column of the tally.
fn refusal_of(plant: &Plant) -> usize {
    plant.test_record().map_or_else(|refusal| refusal as usize, |()| 0)
}

/// Says of which lines and record a difference was found.
fn explain(Lines { start, bytes }: &Lines, difference: Difference) -> Difference {
    format!("lengths of {}\n  record {:?}\n  {difference}", shown(bytes), start.columns())
}

/// Asks both, compares everything, and gives what the library told.
fn by_both(
    kind: &str,
    lines: &Lines,
    salt: u64,
    tally: &mut Tally,
) -> Result<[u64; 2], Difference> {
    let mut found = Areas::new(lines, salt);
    let mut expected = found.clone();
    found.lend(host::answer_bytes);
    expected.lend(numbers::answer_bytes);
    tally.add(kind, refusal_of(&lines.start));
    match expected.compare(&found) {
        Ok(()) => Ok(*found.told.array()),
        Err(difference) => Err(explain(lines, difference)),
    }
}

/// Asks both of a session and holds what the library tells against what was measured: the bytes
/// that the program printed for its counted lines alone, and how many lines are behind them.
pub fn of_session(
    lines: &Lines,
    measured: [u64; 2],
    salt: u64,
    tally: &mut Tally,
) -> Result<(), Difference> {
    let kind = if measured[1] == 0 { "  of a session" } else { "  of a longer session" };
    let told = by_both(kind, lines, salt, tally)?;
    match told == measured {
        true => Ok(()),
        false => Err(explain(lines, format!("told {told:?}, measured {measured:?}"))),
    }
}

/// Whether not all of these lines count.
fn more_than_count(bytes: &[u8]) -> bool {
    bytes.split_inclusive(|&byte| byte == b'\n').nth(COUNTED).is_some()
}

/// Asks both of a list of lines.
pub fn one_call(random: &mut Random, tally: &mut Tally) -> Result<(), Difference> {
    let (lines, salt) = (lists::any(random), random.any());
    let kind = match more_than_count(&lines.bytes) {
        true => "  of a longer list",
        false => "jilghvani_answer_bytes",
    };
    by_both(kind, &lines, salt, tally).map(|_| ())
}
