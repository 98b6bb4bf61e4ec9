//! Calls by numbers through the C library. Each is made by both on areas with the same
//! contents: a record, figures, an ASM1 vector, a digester vector and told numbers, all of
//! them between guards. A call is handed the areas that it takes; whatever it returns and
//! every number of every area has to be the same afterwards.

use crate::guarded::{number_pattern, Guarded};
use crate::library::List;
use crate::tally::Tally;
use crate::Difference;
use second::closing::Gap;
use second::figures::Figures;
use second::plant::{Call, Plant, Record, Refusal};
use second::random::Random;
use second::tables::{Asm1, Digester};
use second::trials::{figures, leachate, Trial};
use second::{host, numbers};

/// What a call by numbers can be lent; `number` is its k, its gas or its nitrite.
struct Lent<'a> {
    record: &'a mut Record,
    figures: &'a [u64; 9],
    number: u64,
    v: &'a mut Asm1,
    d: &'a mut Digester,
    told1: &'a mut [u64; 1],
    told3: &'a mut [u64; 3],
    told4: &'a mut [u64; 4],
}

/// A call by numbers: its name, its row in the tally, and how both are called.
#[derive(Clone, Copy)]
struct ByNumbers {
    name: &'static str,
    kind: &'static str,
    library: fn(Lent) -> u64,
    second: fn(Lent) -> u64,
}

/// The call of a library's function and of the second implementation's with the same areas.
macro_rules! by_numbers {
    ($library:ident, $second:ident, $($area:ident),+) => {
        ByNumbers {
            name: stringify!($library),
            kind: stringify!($library),
            library: |lent| host::$library($(lent.$area),+),
            second: |lent| numbers::$second($(lent.$area),+),
        }
    };
}

// Every call with what it is handed.
const MAKE: ByNumbers = by_numbers!(jilghvani_make, make, record, figures);
const RECEIVE: ByNumbers = by_numbers!(jilghvani_receive, receive, record, v);
const FEED: ByNumbers = by_numbers!(jilghvani_feed, feed, record, number, told4);
const SETTLE: ByNumbers = by_numbers!(jilghvani_settle, settle, record, number, d);
const RETURN: ByNumbers = by_numbers!(jilghvani_return, give_back, record, number, told1);
const RELEASE: ByNumbers = by_numbers!(jilghvani_release, release, record, number, v);
const RECYCLE: ByNumbers = by_numbers!(jilghvani_recycle, recycle, record, number);
const DRAW: ByNumbers = by_numbers!(jilghvani_draw, draw, record, number, v);
const ACCEPT: ByNumbers = by_numbers!(jilghvani_accept, accept, record, v, number, told1);
const TOTALS: ByNumbers = by_numbers!(jilghvani_totals, totals, record, told4);
const ASM_TO_ADM: ByNumbers = by_numbers!(jilghvani_asm_to_adm, asm_to_adm, figures, v, d, told4);
const ADM_TO_ASM: ByNumbers = by_numbers!(jilghvani_adm_to_asm, adm_to_asm, figures, d, v, told1);
const CLOSE: ByNumbers = by_numbers!(jilghvani_close, close, record, d, told1);
const GAP: ByNumbers = by_numbers!(jilghvani_gap, gap, record, d, told3);

/// The one call that gives no refusal.
const FRESH: ByNumbers = ByNumbers {
    name: "jilghvani_fresh",
    kind: "jilghvani_fresh",
    library: |lent| {
        host::jilghvani_fresh(lent.record);
        0
    },
    second: |lent| {
        numbers::fresh(lent.record);
        0
    },
};

/// What the areas hold before a call.
#[derive(Debug)]
struct Input {
    record: Record,
    figures: [u64; 9],
    number: u64,
    v: Asm1,
    d: Digester,
}

impl Input {
    /// This record, and numbers above every ceiling in all that a call does not take.
    fn on(plant: &Plant) -> Input {
        let (record, figures) = (plant.columns(), [u64::MAX; 9]);
        Input { record, figures, number: u64::MAX, v: [u64::MAX; 13], d: [u64::MAX; 26] }
    }
}

/// The areas between their guards: record, figures, v, d, and told numbers by their count.
#[derive(Clone)]
struct Areas([Guarded<u64>; 7]);

/// The areas' names in their order.
const AREAS: [&str; 7] = ["record", "figures", "v", "d", "told[1]", "told[3]", "told[4]"];

impl Areas {
    /// Areas with these contents; told numbers begin with a pattern.
    fn new(input: &Input, salt: u64) -> Areas {
        let told = [salt; 4];
        let Input { record, figures, v, d, .. } = input;
        let contents: [&[u64]; 7] = [record, figures, v, d, &told[..1], &told[..3], &told];
        Areas(std::array::from_fn(|area| {
            Guarded::new(contents[area], number_pattern(salt.wrapping_add(area as u64)))
        }))
    }

    /// All of them, to be lent to one call.
    fn lend(&mut self, number: u64) -> Lent<'_> {
        let [record, figures, v, d, told1, told3, told4] = &mut self.0;
        Lent {
            record: record.array(),
            figures: figures.array(),
            number,
            v: v.array(),
            d: d.array(),
            told1: told1.array(),
            told3: told3.array(),
            told4: told4.array(),
        }
    }

    /// Compares these areas, the second implementation's, with those that the library left.
    fn compare(&self, found: &Areas) -> Result<(), Difference> {
        let mut runs = AREAS.iter().zip(&self.0).zip(&found.0);
        runs.try_for_each(|((what, expected), found)| expected.compare(what, found))
    }
}

/// Makes one call by both and compares the refusal and all areas; gives the refusal and the
/// areas as the library left them.
fn by_both(
    call: ByNumbers,
    input: &Input,
    salt: u64,
    tally: &mut Tally,
) -> Result<(u64, Areas), Difference> {
    let mut found = Areas::new(input, salt);
    let mut expected = found.clone();
    let library = (call.library)(found.lend(input.number));
    let second = (call.second)(expected.lend(input.number));
    tally.add(call.kind, second as usize);
    let refusals = match library == second {
        true => Ok(()),
        false => Err(format!("refusal: second {second}, library {library}")),
    };
    match refusals.and_then(|()| expected.compare(&found)) {
        Ok(()) => Ok((library, found)),
        Err(difference) => Err(format!("{}\n  {input:?}\n  {difference}", call.name)),
    }
}

/// What a call told or handed out, in the area that it is lent for that.
fn told<'a>(call: &Call, after: &'a Lent) -> &'a [u64] {
    match call {
        Call::Feed(_) => after.told4,
        Call::Return(_) | Call::Accept(..) => after.told1,
        Call::Release(_) | Call::Draw(_) => after.v,
        Call::Receive(_) | Call::Settle(..) | Call::Recycle(_) => &[],
    }
}

/// The feed of k thousandths of this record, in its row.
fn feed_of(plant: &Plant, k: u64) -> ByNumbers {
    match leachate::gives_way_in_feed(plant, k) {
        true => ByNumbers { kind: "  feed, acids give way", ..FEED },
        false => FEED,
    }
}

/// The conversion of this vector by itself, in its row.
fn conversion_of(figures: &[u64; 9], v: &Asm1) -> ByNumbers {
    match leachate::gives_way(&Figures::from_numbers(figures), v) {
        true => ByNumbers { kind: "  alone, acids give way", ..ASM_TO_ADM },
        false => ASM_TO_ADM,
    }
}

/// Makes a call on the list's record, which goes on as it is then.
fn on_record(trial: &mut Trial, list: &mut List, tally: &mut Tally) -> Result<(), Difference> {
    let (on, call) = (Input::on(&list.plant), trial.call(&list.plant));
    let (by_numbers, input) = match call {
        Call::Receive(v) => (RECEIVE, Input { v, ..on }),
        Call::Feed(k) => (feed_of(&list.plant, k), Input { number: k, ..on }),
        Call::Settle(gas, d) => (SETTLE, Input { number: gas, d, ..on }),
        Call::Return(k) => (RETURN, Input { number: k, ..on }),
        Call::Release(k) => (RELEASE, Input { number: k, ..on }),
        Call::Recycle(k) => (RECYCLE, Input { number: k, ..on }),
        Call::Draw(k) => (DRAW, Input { number: k, ..on }),
        Call::Accept(v, nitrite) => (ACCEPT, Input { number: nitrite, v, ..on }),
    };
    let (refusal, mut after) = by_both(by_numbers, &input, trial.random.any(), tally)?;
    let after = after.lend(0);
    list.plant = Plant::from_columns(after.record);
    if refusal == 0 {
        list.balances.count(&call, told(&call, &after));
    }
    Ok(())
}

/// The row of a gap: where it is, the one that gives the refusal of `close` before the others.
fn kind_of_gap(gap: Result<Gap, Refusal>) -> &'static str {
    match gap {
        Ok(Gap { sin: 1.., .. }) => "  gap in sin",
        Ok(Gap { cod: 1.., .. }) => "  gap in COD",
        Ok(Gap { tkn: 1.., .. }) => "  gap in TKN",
        _ => GAP.kind,
    }
}

/// Closes a proposal, asks how far off it is, and settles what closed on a copy of the record,
/// which has to be accepted. The proposal may ask for another sin in the record's digester.
fn closing(trial: &mut Trial, plant: &Plant, tally: &mut Tally) -> Result<(), Difference> {
    let mut plant = *plant;
    let d = trial.to_close(&mut plant);
    let (input, salt) = (Input { d, ..Input::on(&plant) }, trial.random.any());
    let kind = kind_of_gap(plant.gap(&d));
    by_both(ByNumbers { kind, ..GAP }, &input, salt, tally)?;
    let (refusal, mut closed) = by_both(CLOSE, &input, salt, tally)?;
    if refusal != 0 {
        return Ok(());
    }
    let Lent { d, told1: [gas], .. } = closed.lend(0);
    let input = Input { number: *gas, d: *d, ..Input::on(&plant) };
    let settle = ByNumbers { kind: "  settle of what closed", ..SETTLE };
    match by_both(settle, &input, salt, tally)? {
        (0, _) => Ok(()),
        (refusal, _) => Err(format!("both settles refuse by {refusal} what closed: {input:?}")),
    }
}

/// The figures that a conversion by itself is handed: mostly the record's.
fn handed(random: &mut Random, plant: &Plant) -> [u64; 9] {
    match random.percent(85) {
        true => plant.figures.numbers(),
        false => figures::wish(random).numbers(),
    }
}

/// Has a record made by both, on the place of this one; gives it as the library left it.
pub fn make(
    figures: &Figures,
    plant: &Plant,
    salt: u64,
    tally: &mut Tally,
) -> Result<Plant, Difference> {
    let input = Input { figures: figures.numbers(), ..Input::on(plant) };
    let (_, mut made) = by_both(MAKE, &input, salt, tally)?;
    Ok(Plant::from_columns(made.lend(0).record))
}

/// Converts a vector by itself by both.
fn conversion(trial: &mut Trial, plant: &Plant, tally: &mut Tally) -> Result<(), Difference> {
    let (figures, on) = (handed(&mut trial.random, plant), Input::on(plant));
    let (call, input) = match trial.random.percent(53) {
        true => {
            let v = trial.asm1(plant);
            (conversion_of(&figures, &v), Input { figures, v, ..on })
        }
        false => (ADM_TO_ASM, Input { figures, d: trial.digester(plant), ..on }),
    };
    by_both(call, &input, trial.random.any(), tally).map(|_| ())
}

/// Has both accept what a copy of the record just takes or does not.
fn accept_at_the_ceilings(
    trial: &mut Trial,
    plant: &Plant,
    tally: &mut Tally,
) -> Result<(), Difference> {
    let ((v, number), plant) = trial.accept_at_the_ceilings(plant);
    let accept = ByNumbers { kind: "  accept at the ceilings", ..ACCEPT };
    let input = Input { v, number, ..Input::on(&plant) };
    by_both(accept, &input, trial.random.any(), tally).map(|_| ())
}

/// Makes one call by numbers, or several that belong together, by both and compares everything.
pub fn one_call(trial: &mut Trial, list: &mut List, tally: &mut Tally) -> Result<(), Difference> {
    let plant = &list.plant;
    let call = match trial.random.below(100) {
        0..=55 => return on_record(trial, list, tally),
        56..=60 => return accept_at_the_ceilings(trial, plant, tally),
        61..=78 => return closing(trial, plant, tally),
        79..=93 => return conversion(trial, plant, tally),
        94 | 95 => {
            let figures = figures::wish(&mut trial.random);
            return make(&figures, plant, trial.random.any(), tally).map(|_| ());
        }
        96..=98 => TOTALS,
        _ => FRESH,
    };
    by_both(call, &Input::on(plant), trial.random.any(), tally).map(|_| ())
}
