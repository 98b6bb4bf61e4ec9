//! Laboratory sheets: of a laboratory's decimals, of amounts at a whole count and beside it, up
//! to the ceilings, of every exponent; with entries that are turned away in one column or in
//! several; of any bits at all; and sludge tanks that a sheet just fills, or passes by one.

use crate::plant::Plant;
use crate::random::Random;
use crate::sheets::{scale, Sheet, BELOW, MEASURED, NOT_SAMPLED};
use crate::tables::*;

/// The greatest amount that fits: its count is the ceiling in every column.
pub const GREATEST: f32 = 1e9;

/// The bits of infinity, and the bit of the sign.
const INFINITE: u32 = 0x7f80_0000;
const SIGN: u32 = 0x8000_0000;

/// What is no number: the first and the last that signal and that do not.
const NO_NUMBERS: [u32; 4] = [0x7f80_0001, 0x7fbf_ffff, 0x7fc0_0000, 0x7fff_ffff];

/// Kinds that there are not; of some the low bits are those of kinds that there are.
const NO_KINDS: [u8; 8] = [3, 4, 127, 128, 129, 130, 254, 255];

/// Bits below this bound.
fn bits_below(random: &mut Random, bound: u32) -> u32 {
    random.below(bound.into()) as u32
}

/// The float of any bits.
fn any(random: &mut Random) -> f32 {
    f32::from_bits(random.any() as u32)
}

/// A positive float, or one of its two neighbours.
fn beside(random: &mut Random, amount: f32) -> f32 {
    f32::from_bits((amount.to_bits() + bits_below(random, 3)).saturating_sub(1))
}

/// A decimal of a few digits, as a laboratory writes it.
fn decimal(random: &mut Random) -> f32 {
    let digits = random.sized(99_999) as f64;
    (digits / random.one_of(&[1.0, 10.0, 100.0, 1e3, 1e4, 1e5, 1e6, 1e7])) as f32
}

/// The float nearest to so many counts of this column, or one beside it.
fn near_count(random: &mut Random, column: usize) -> f32 {
    let count = random.sized(ASM1_CEILINGS[column]) as f64;
    beside(random, (count / scale(column)) as f32)
}

/// An amount that is a whole count, eighths of a gram or 128ths for ticks, or one beside it.
fn whole_count(random: &mut Random, column: usize) -> f32 {
    let parts = if ASM1_CEILINGS[column] == TICK_CEILING { 128.0 } else { 8.0 };
    let amount = random.sized(1 << 24) as f32 / parts;
    beside(random, amount)
}

/// An amount that fits this column, no greater than this one.
fn fair(random: &mut Random, column: usize, most: f32) -> f32 {
    let amount = match random.below(12) {
        0 => random.one_of(&[0.0, -0.0]),
        1 => f32::from_bits(bits_below(random, 1 << 23)),
        2 => f32::from_bits(most.to_bits() - bits_below(random, 4)),
        3 => f32::from_bits(bits_below(random, most.to_bits() + 1)),
        4 => most / (1 + random.below(1 << 30)) as f32,
        5..=7 => decimal(random),
        8 | 9 => whole_count(random, column),
        _ => near_count(random, column),
    };
    amount.min(most)
}

/// Bits that are turned away in every column.
fn bad_bits(random: &mut Random) -> u32 {
    let greatest = GREATEST.to_bits();
    match random.below(8) {
        0 | 1 => greatest + 1 + bits_below(random, 3),
        2 => greatest + 1 + bits_below(random, INFINITE - greatest - 1),
        3 => INFINITE | random.one_of(&[0, SIGN]),
        4 => random.one_of(&NO_NUMBERS) | random.one_of(&[0, SIGN]),
        5 => (INFINITE + 1 + bits_below(random, (1 << 23) - 1)) | random.one_of(&[0, SIGN]),
        6 => SIGN + 1 + bits_below(random, 1 << 23),
        _ => SIGN + 1 + bits_below(random, INFINITE - 1),
    }
}

/// An entry that is turned away in every column, by its value or by its kind.
fn bad(random: &mut Random) -> (u8, f32) {
    match random.below(8) {
        0..=5 => (random.one_of(&[MEASURED, BELOW]), f32::from_bits(bad_bits(random))),
        6 => (random.one_of(&NO_KINDS), 0.0),
        _ => (3 + random.below(253) as u8, any(random)),
    }
}

/// A sheet without an entry that is turned away. Beside one not sampled stand any bits.
fn fair_sheet(random: &mut Random) -> Sheet {
    let most = random.one_of(&[0.01, 10.0, 1e4, 1e6, GREATEST]);
    let kinds = random.one_of(&[[0; 4], [1; 4], [0, 0, 0, 1], [0, 0, 1, 2], [0, 1, 2, 2]]);
    let kinds = std::array::from_fn(|_| random.one_of(&kinds));
    let values = std::array::from_fn(|column| match kinds[column] {
        NOT_SAMPLED => any(random),
        _ => fair(random, column, most),
    });
    Sheet { kinds, values }
}

/// A sheet: fair, with one bad entry or a few, or of any bits.
pub fn sheet(random: &mut Random) -> Sheet {
    let mut sheet = fair_sheet(random);
    if random.percent(3) {
        sheet.values = std::array::from_fn(|_| any(random));
    }
    for _ in 0..random.one_of(&[0, 0, 0, 0, 0, 1, 1, 2, 3]) {
        let column = random.index(13);
        (sheet.kinds[column], sheet.values[column]) = bad(random);
    }
    sheet
}

/// Fills a sludge tank so that a sheet with these counts just fits; half the times one column
/// that it counts in is fuller by one.
pub fn fill(random: &mut Random, sludge: &mut Asm1, counts: &Asm1) {
    let full = random.one_of(&[20, 100]);
    for (column, ceiling) in ASM1_CEILINGS.into_iter().enumerate() {
        let room = ceiling - counts[column];
        let fills = random.percent(full) || sludge[column] > room;
        sludge[column] = if fills { room } else { sludge[column] };
    }
    let column = random.index(13);
    if random.percent(50) && counts[column] > 0 {
        sludge[column] = ASM1_CEILINGS[column] - counts[column] + 1;
    }
}

/// A sheet that is not turned away for itself, and this record with a sludge tank that it just
/// fits or passes by one.
pub fn at_the_ceilings(random: &mut Random, plant: &Plant) -> (Sheet, Plant) {
    let (sheet, mut plant) = (fair_sheet(random), *plant);
    if let Ok((counts, _)) = sheet.read() {
        fill(random, &mut plant.sludge, &counts);
    }
    (sheet, plant)
}

#[cfg(test)]
mod tests {
    use super::*;
    use crate::plant::Refusal;
    use crate::sheets::count;

    /// Every amount that is meant to be fair is, and every bad entry is turned away, in every
    /// column.
    #[test]
    fn fair_and_bad_entries() {
        let mut random = Random::new(22);
        for number in 0..100_000 {
            let column = number % 13;
            assert!(count(column, fair(&mut random, column, GREATEST)).is_ok());
            assert!(fair_sheet(&mut random).read().is_ok());
            let (kind, value) = bad(&mut random);
            let mut sheet = Sheet { kinds: [NOT_SAMPLED; 13], values: [0.0; 13] };
            (sheet.kinds[column], sheet.values[column]) = (kind, value);
            assert!(sheet.read().is_err(), "{kind} {value:?}");
        }
    }

    /// How often random amounts were of each kind, in COD columns and in those of ticks: they
    /// count as none, as one, as more; as a whole count and just below one; at the ceiling.
    #[derive(Default, Debug)]
    struct Met {
        counts: [u32; 3],
        whole: u32,
        below_whole: u32,
        at_ceiling: u32,
    }

    impl Met {
        /// Counts an amount.
        fn count(&mut self, column: usize, amount: f32) {
            let exact = |amount: f32| f64::from(amount) * scale(column);
            let is_whole = |amount: f32| exact(amount).fract() == 0.0 && amount > 0.0;
            let next = f32::from_bits(amount.abs().to_bits() + 1);
            self.counts[exact(amount).min(2.0) as usize] += 1;
            self.whole += u32::from(is_whole(amount));
            self.below_whole += u32::from(is_whole(next) && !is_whole(amount));
            self.at_ceiling += u32::from(amount == GREATEST);
        }
    }

    /// Random sheets have all of these among them, and every refusal of theirs.
    #[test]
    fn sheets_of_every_kind() {
        let (mut met, mut random) = ([Met::default(), Met::default()], Random::new(23));
        let mut answers = [0; 15];
        for _ in 0..20_000 {
            let fair = fair_sheet(&mut random);
            for column in (0..13).filter(|&column| fair.kinds[column] != NOT_SAMPLED) {
                let ticks = usize::from(ASM1_CEILINGS[column] == TICK_CEILING);
                met[ticks].count(column, fair.values[column]);
            }
            let refusal = sheet(&mut random).read().err().map_or(0, |refusal| refusal as usize);
            answers[refusal] += 1;
        }
        for Met { counts, whole, below_whole, at_ceiling } in &met {
            let all = counts.iter().chain([whole, below_whole, at_ceiling]);
            assert!(all.min() >= Some(&200), "{met:?}");
        }
        let refusals = [0, Refusal::NoAmount as usize, Refusal::CountAboveCeiling as usize];
        assert!(refusals.iter().all(|&refusal| answers[refusal] > 1000), "{answers:?}");
        assert_eq!(refusals.map(|refusal| answers[refusal]).iter().sum::<u32>(), 20_000);
    }

    /// Filled tanks have no column above its ceiling, and take their sheet or refuse it by 10.
    #[test]
    fn filled_tanks() {
        let (mut random, mut answers) = (Random::new(24), [0; 2]);
        for _ in 0..10_000 {
            let (sheet, mut plant) = at_the_ceilings(&mut random, &Plant::FRESH);
            assert_eq!(plant.test_record(), Ok(()));
            match plant.sheet(&sheet) {
                Ok(_) => answers[0] += 1,
                Err(refusal) => {
                    assert_eq!(refusal, Refusal::DestinationAboveCeiling);
                    answers[1] += 1;
                }
            }
        }
        assert!(answers.iter().all(|&count| count > 1000), "{answers:?}");
    }
}
