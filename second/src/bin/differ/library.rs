//! Lists of calls through the C library: lines and held lines here, with everything
//! around record, line and buffer guarded; calls by numbers in `numbers`, laboratory
//! sheets in `sheets`, blends in `blends`, calls written as lines in `writing`, and lengths
//! of answers in `lengths`.

use crate::guarded::{byte_pattern, number_pattern, Guarded};
use crate::tally::{kind_of, refusal_of, Tally};
use crate::{blends, lengths, numbers, sheets, shown, writing, Difference, Options};
use second::balances::Balances;
use second::plant::Plant;
use second::random::Random;
use second::trials::figures;
use second::trials::Trial;
use second::{host, lines};

/// The lengths of lent buffers: those that fit, and those that are too short.
const FIT: [usize; 4] = [512, 513, 600, 1025];
const SHORT: [usize; 3] = [0, 1, 511];

/// The record between its guards, as the library takes it.
fn guarded_record(plant: &Plant, salt: u64) -> Guarded<u64> {
    Guarded::new(&plant.columns(), number_pattern(salt))
}

/// A record, with the balances of the calls on it so far.
pub struct List {
    pub plant: Plant,
    pub balances: Balances,
}

impl List {
    /// No calls yet on this record.
    fn on(plant: Plant) -> List {
        List { plant, balances: Balances::on(&plant) }
    }

    /// No calls yet on a record that is put anew: any, or a fresh one that both make.
    fn anew(trial: &mut Trial, before: &Plant, tally: &mut Tally) -> Result<List, Difference> {
        if trial.random.percent(70) {
            return Ok(List::on(trial.record()));
        }
        let (wish, salt) = (figures::wish(&mut trial.random), trial.random.any());
        numbers::make(&wish, before, salt, tally).map(List::on)
    }

    /// Asks that the balances close over what the record holds now.
    fn check(&self) -> Result<(), Difference> {
        match self.plant.held() {
            Ok(held) => self.balances.check(held.numbers()),
            Err(_) if self.balances == Balances::on(&self.plant) => Ok(()),
            Err(_) => Err(format!("calls led to what is refused: {:?}", self.plant.columns())),
        }
    }
}

/// What a call with a lent buffer is made on.
struct Setting {
    before: Plant,
    salt: u64,
    length: usize,
}

impl Setting {
    /// A setting for this record with a lent buffer of any of the lengths.
    fn new(random: &mut Random, plant: &Plant) -> Setting {
        let length = if random.percent(92) { random.one_of(&FIT) } else { random.one_of(&SHORT) };
        Setting { before: *plant, salt: random.any(), length }
    }

    /// The lent buffer, filled with its pattern.
    fn buffer(&self) -> Guarded<u8> {
        let filling: Vec<u8> = (0..self.length).map(byte_pattern(!self.salt)).collect();
        Guarded::new(&filling, byte_pattern(self.salt))
    }

    /// Compares record, buffer and count after a call, every byte of them and the guards.
    fn compare(
        &self,
        (plant, buffer, count): (&Plant, &Guarded<u8>, usize),
        (record, lent, told): (&Guarded<u64>, &Guarded<u8>, usize),
    ) -> Result<(), Difference> {
        guarded_record(plant, self.salt).compare("record", record)?;
        if count != told {
            return Err(format!("count: second {count}, library {told}"));
        }
        buffer.compare("buffer", lent)
    }

    /// Says in what setting a difference was found.
    fn explain(&self, call: &str, difference: Difference) -> Difference {
        let columns = self.before.columns();
        format!("{call}\n  record {columns:?}\n  buffer of {} bytes\n  {difference}", self.length)
    }
}

/// Answers one line by both, on the list's record, and compares everything.
fn line(
    random: &mut Random,
    List { plant, balances }: &mut List,
    line: &[u8],
    tally: &mut Tally,
) -> Result<(), Difference> {
    let setting = Setting::new(random, plant);
    let (mut record, mut lent) = (guarded_record(plant, setting.salt), setting.buffer());
    let mut read = Guarded::new(line, byte_pattern(setting.salt));
    let told = host::line(record.array(), read.inner(), lent.inner());
    let mut buffer = setting.buffer();
    let answer = lines::answer(plant, line, buffer.inner()).to_vec();
    tally.add(kind_of(line, &setting.before), refusal_of(&answer));
    balances.count_line(line, &answer);
    let compared = setting.compare((plant, &buffer, answer.len()), (&record, &lent, told));
    let line_as_it_was = Guarded::new(line, byte_pattern(setting.salt));
    compared.and_then(|()| line_as_it_was.compare("line", &read)).map_err(|difference| {
        let answers = format!("line {}\n  second gives {}", shown(line), shown(&answer));
        setting.explain(&answers, difference)
    })
}

/// Asks both for the held line of the same record, and compares everything.
fn held(random: &mut Random, plant: &Plant, tally: &mut Tally) -> Result<(), Difference> {
    let setting = Setting::new(random, plant);
    let (mut record, mut lent) = (guarded_record(plant, setting.salt), setting.buffer());
    let told = host::held(record.array(), lent.inner());
    let mut buffer = setting.buffer();
    let answer = lines::held(plant, buffer.inner()).to_vec();
    tally.add("held", refusal_of(&answer));
    let compared = setting.compare((plant, &buffer, answer.len()), (&record, &lent, told));
    compared.map_err(|difference| setting.explain("held", difference))
}

/// Has a call written by both; its line is then answered by both, on a copy of the record.
fn written(random: &mut Random, plant: &Plant, tally: &mut Tally) -> Result<(), Difference> {
    match writing::one_call(random, tally)? {
        Some(next) => line(random, &mut List::on(*plant), &next, tally),
        None => Ok(()),
    }
}

/// Runs one list of calls through the library, on records that are now and then put anew, with
/// the balances of the calls on each.
fn one_list(random: Random, tally: &mut Tally) -> Result<(), Difference> {
    let mut trial = Trial::new(random);
    let mut list = List::on(trial.record());
    for _ in 0..1 + trial.random.below(800) {
        if trial.random.percent(8) {
            list.check()?;
            list = List::anew(&mut trial, &list.plant, tally)?;
        }
        match trial.random.below(27) {
            0 => held(&mut trial.random, &list.plant, tally)?,
            1..=11 => numbers::one_call(&mut trial, &mut list, tally)?,
            12 | 13 => written(&mut trial.random, &list.plant, tally)?,
            14 | 15 => sheets::one_call(&mut trial, &mut list, tally)?,
            16 | 17 => blends::one_call(&mut trial, &mut list, tally)?,
            18 => lengths::one_call(&mut trial.random, tally)?,
            _ => {
                let next = trial.line(&list.plant);
                line(&mut trial.random, &mut list, &next, tally)?;
            }
        }
    }
    list.check()
}

/// Sends the table's sheets through the library, and runs as many lists of calls through it as
/// there are sessions.
pub fn run(options: &Options, tally: &mut Tally) -> Result<(), Difference> {
    sheets::table(options, tally)?;
    for number in 0..options.sessions {
        one_list(Random::nth(options.seed, 2 * number + 1), tally)
            .map_err(|difference| format!("list {number}\n{difference}"))?;
    }
    Ok(())
}
