//! Blends of hauled loads through the C library: on the records of the lists of calls, on records
//! that they just fit or pass, and with their loads in another order. Each is made by both on
//! areas with the same contents, the record, the loads and the ks, all of them between guards;
//! what is returned and every number of the areas has to be the same afterwards.

use crate::guarded::{number_pattern, Guarded};
use crate::library::List;
use crate::tally::Tally;
use crate::Difference;
use second::plant::{Plant, Record};
use second::random::Random;
use second::trials::blends::{order, Blend};
use second::trials::Trial;
use second::{host, numbers};

/// The function of either side.
type Function = fn(&mut Record, &mut [u64], &[u64]) -> u64;

/// What a blend gives: the refusal, and record and loads then.
#[derive(Debug, PartialEq, Eq)]
struct Answer {
    refusal: u64,
    record: Record,
    loads: Vec<u64>,
}

/// The areas between their guards.
#[derive(Clone)]
struct Areas {
    record: Guarded<u64>,
    loads: Guarded<u64>,
    ks: Guarded<u64>,
}

impl Areas {
    /// Areas with these contents.
    fn new(record: &Record, blend: &Blend, salt: u64) -> Areas {
        Areas {
            record: Guarded::new(record, number_pattern(salt)),
            loads: Guarded::new(&blend.loads, number_pattern(!salt)),
            ks: Guarded::new(&blend.ks, number_pattern(salt.rotate_left(7))),
        }
    }

    /// Lends them to a function; gives its refusal.
    fn lend(&mut self, function: Function) -> u64 {
        let Areas { record, loads, ks } = self;
        function(record.array(), loads.inner(), ks.inner())
    }

    /// Compares these areas, the second implementation's, with those that the library left.
    fn compare(&self, found: &Areas) -> Result<(), Difference> {
        self.record.compare("record", &found.record)?;
        self.loads.compare("loads", &found.loads)?;
        self.ks.compare("ks", &found.ks)
    }
}

/// The row of a blend by the lengths of its slices.
fn kind_of(blend: &Blend) -> &'static str {
    match blend.ks.len() {
        _ if !blend.whole() => "  loads of other lengths",
        0 => "  no loads",
        1 => "  one load",
        8 => "  eight loads",
        9.. => "  nine loads and more",
        _ => "jilghvani_blend",
    }
}

/// Blends by both, compares everything, and gives what the library gave.
fn by_both(
    kind: &str,
    record: &Record,
    blend: &Blend,
    salt: u64,
    tally: &mut Tally,
) -> Result<Answer, Difference> {
    let mut found = Areas::new(record, blend, salt);
    let mut expected = found.clone();
    let library = found.lend(host::blend);
    let second = expected.lend(numbers::blend);
    tally.add(kind, second as usize);
    let refusals = match library == second {
        true => Ok(()),
        false => Err(format!("refusal: second {second}, library {library}")),
    };
    match refusals.and_then(|()| expected.compare(&found)) {
        Ok(()) => Ok(Answer {
            refusal: library,
            record: *found.record.array(),
            loads: found.loads.inner().to_vec(),
        }),
        Err(difference) => Err(format!("{blend:?}\n  record {record:?}\n  {difference}")),
    }
}

/// Blends the same loads in another order by both; the refusal and the record have to be the
/// same, and what is left of each load.
fn in_another_order(
    random: &mut Random,
    record: &Record,
    blend: &Blend,
    answer: &Answer,
    tally: &mut Tally,
) -> Result<(), Difference> {
    let order = order(random, blend.ks.len());
    let (other, salt) = (blend.in_order(&order), random.any());
    let found = by_both("  in another order", record, &other, salt, tally)?;
    let left = Blend { loads: answer.loads.clone(), ks: blend.ks.clone() };
    let expected = Answer { loads: left.in_order(&order).loads, ..*answer };
    match found == expected {
        true => Ok(()),
        false => Err(format!(
            "{blend:?}\n  in the order {order:?}\n  record {record:?}\n  gives {found:?}\n  \
            and not {expected:?}"
        )),
    }
}

/// Blends on the list's record, which goes on as it is then; the draws are received. Now and then
/// the same loads are blended in another order too, on a copy of it.
fn on_record(trial: &mut Trial, list: &mut List, tally: &mut Tally) -> Result<(), Difference> {
    let (before, blend) = (list.plant.columns(), trial.blend(&list.plant));
    let answer = by_both(kind_of(&blend), &before, &blend, trial.random.any(), tally)?;
    if blend.whole() && trial.random.percent(40) {
        in_another_order(&mut trial.random, &before, &blend, &answer, tally)?;
    }
    list.plant = Plant::from_columns(&answer.record);
    if answer.refusal == 0 {
        list.balances.count_blend(&blend.loads, &blend.ks);
    }
    Ok(())
}

/// Makes one blend by both: on the list's record, or on a copy of it that it just fits or passes.
pub fn one_call(trial: &mut Trial, list: &mut List, tally: &mut Tally) -> Result<(), Difference> {
    if trial.random.percent(70) {
        return on_record(trial, list, tally);
    }
    let (blend, plant) = trial.blend_at_the_ceilings(&list.plant);
    let salt = trial.random.any();
    by_both("  blend at the ceilings", &plant.columns(), &blend, salt, tally).map(|_| ())
}
