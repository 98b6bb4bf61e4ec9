//! Laboratory sheets through the C library: on the records of the lists of calls, on records that
//! are made for them, and the table of `exact_sheets.py`. Each is sent by both on areas with the
//! same contents, the record, kinds, values and told numbers, all of them between guards; whatever
//! is returned and every number, byte and bit of the areas has to be the same afterwards.

use crate::guarded::{byte_pattern, float_pattern, number_pattern, Guarded};
use crate::library::List;
use crate::tally::Tally;
use crate::{Difference, Options};
use second::plant::{Call, Plant, Record};
use second::random::Random;
use second::sheets::Sheet;
use second::trials::table::{self, Case};
use second::trials::{sheets as trials, Trial};
use second::{host, numbers};

/// The function of either side.
type Function = fn(&mut Record, &[u8; 13], &[f32; 13], &mut [u64; 4]) -> u64;

/// What a sheet gives: the refusal, what is told, and the record then.
type Answer = (u64, [u64; 4], Record);

/// The areas between their guards.
#[derive(Clone)]
struct Areas {
    record: Guarded<u64>,
    kinds: Guarded<u8>,
    values: Guarded<f32>,
    told: Guarded<u64>,
}

impl Areas {
    /// Areas with these contents; told numbers begin with a pattern.
    fn new(record: &Record, sheet: &Sheet, salt: u64) -> Areas {
        Areas {
            record: Guarded::new(record, number_pattern(salt)),
            kinds: Guarded::new(&sheet.kinds, byte_pattern(salt)),
            values: Guarded::new(&sheet.values, float_pattern(salt)),
            told: Guarded::new(&[salt; 4], number_pattern(!salt)),
        }
    }

    /// Lends them to a function; gives its refusal.
    fn send(&mut self, function: Function) -> u64 {
        let Areas { record, kinds, values, told } = self;
        function(record.array(), kinds.array(), values.array(), told.array())
    }

    /// Compares these areas, the second implementation's, with those that the library left.
    fn compare(&self, found: &Areas) -> Result<(), Difference> {
        let bits = |areas: &Areas| areas.values.map(f32::to_bits);
        self.record.compare("record", &found.record)?;
        self.told.compare("told", &found.told)?;
        self.kinds.compare("kinds", &found.kinds)?;
        bits(self).compare("bits of values", &bits(found))
    }
}

/// A sheet as it stands in a table, and the record that it is sent on.
fn shown(record: &Record, sheet: &Sheet) -> String {
    let entries = sheet.kinds.iter().zip(sheet.values);
    let words: Vec<String> =
        entries.map(|(kind, value)| format!("{kind}:{:08x}", value.to_bits())).collect();
    format!("sheet {}\n  record {record:?}", words.join(" "))
}

/// Sends a sheet by both, compares everything, and gives what the library gave.
fn by_both(
    kind: &str,
    record: &Record,
    sheet: &Sheet,
    salt: u64,
    tally: &mut Tally,
) -> Result<Answer, Difference> {
    let mut found = Areas::new(record, sheet, salt);
    let mut expected = found.clone();
    let library = found
        .send(|record, kinds, values, told| host::jilghvani_sheet(record, kinds, values, told));
    let second = expected.send(numbers::sheet);
    tally.add(kind, second as usize);
    let refusals = match library == second {
        true => Ok(()),
        false => Err(format!("refusal: second {second}, library {library}")),
    };
    match refusals.and_then(|()| expected.compare(&found)) {
        Ok(()) => Ok((library, *found.told.array(), *found.record.array())),
        Err(difference) => Err(format!("{}\n  {difference}", shown(record, sheet))),
    }
}

/// Sends a sheet on the list's record, which goes on as it is then; its counts are received.
fn on_record(trial: &mut Trial, list: &mut List, tally: &mut Tally) -> Result<(), Difference> {
    let (sheet, salt) = (trials::sheet(&mut trial.random), trial.random.any());
    let (refusal, _, record) =
        by_both("jilghvani_sheet", &list.plant.columns(), &sheet, salt, tally)?;
    list.plant = Plant::from_columns(&record);
    match (refusal, sheet.read()) {
        (0, Ok((counts, _))) => list.balances.count(&Call::Receive(counts), &[]),
        (0, Err(_)) => return Err(format!("accepted: {}", shown(&record, &sheet))),
        _ => {}
    }
    Ok(())
}

/// Sends one sheet by both: on the list's record, or on a copy of it that it just fits or passes.
pub fn one_call(trial: &mut Trial, list: &mut List, tally: &mut Tally) -> Result<(), Difference> {
    if trial.random.percent(70) {
        return on_record(trial, list, tally);
    }
    let (sheet, plant) = trials::at_the_ceilings(&mut trial.random, &list.plant);
    let salt = trial.random.any();
    by_both("  sheet at the ceilings", &plant.columns(), &sheet, salt, tally).map(|_| ())
}

/// Sends a sheet of the table on one of its records; both have to give what the table has.
fn table_case(case: &Case, sheet: &Sheet, salt: u64, tally: &mut Tally) -> Result<(), Difference> {
    let found = by_both("  sheet of the table", &case.before, sheet, salt, tally)?;
    let expected = (case.refusal, case.told, case.after);
    match found == expected {
        true => Ok(()),
        false => {
            let sheet = shown(&case.before, sheet);
            Err(format!("{sheet}\n  the table has {expected:?}\n  both give {found:?}"))
        }
    }
}

/// Sends every sheet of the table on each of its records.
pub fn table(options: &Options, tally: &mut Tally) -> Result<(), Difference> {
    let text = match &options.sheets {
        Some(path) => {
            std::fs::read_to_string(path).map_err(|error| format!("{}: {error}", path.display()))?
        }
        None => table::KEPT.into(),
    };
    let mut random = Random::new(options.seed);
    for row in table::rows(&text)? {
        for case in row.cases() {
            table_case(&case, &row.sheet, random.any(), tally)?;
        }
    }
    Ok(())
}
