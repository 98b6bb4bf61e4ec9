//! Blends: of loads of a scale, at their ceilings and empty; with ks and columns that are turned
//! away; in slices of other lengths; and sludge tanks that a blend just fits, or passes by one.

use super::amounts::{self, Scale};
use super::{edges, sheets};
use crate::blends::{together, MOST_LOADS};
use crate::plant::Plant;
use crate::random::Random;
use crate::tables::*;

/// Thousandths that are turned away.
const NO_THOUSANDTHS: [u64; 6] = [0, 1001, 1 << 16, (1 << 32) + 1, (1 << 63) + 500, u64::MAX];

/// Loads behind one another, and the k of each.
#[derive(Clone, Debug, PartialEq, Eq)]
pub struct Blend {
    pub loads: Vec<u64>,
    pub ks: Vec<u64>,
}

impl Blend {
    /// Whether there are thirteen columns for each k.
    pub fn whole(&self) -> bool {
        self.loads.len() == 13 * self.ks.len()
    }

    /// The same loads in this order of their places, each with its k; they are whole.
    pub fn in_order(&self, order: &[usize]) -> Blend {
        let columns = |&place: &usize| &self.loads[13 * place..13 * place + 13];
        Blend {
            loads: order.iter().flat_map(columns).copied().collect(),
            ks: order.iter().map(|&place| self.ks[place]).collect(),
        }
    }

    /// As many columns and ks, over and over the same; they are not empty.
    fn stretched(&self, loads: usize, ks: usize) -> Blend {
        Blend {
            loads: self.loads.iter().copied().cycle().take(loads).collect(),
            ks: self.ks.iter().copied().cycle().take(ks).collect(),
        }
    }
}

/// The places of so many loads in any order.
pub fn order(random: &mut Random, number: usize) -> Vec<usize> {
    let mut order: Vec<usize> = (0..number).collect();
    random.shuffle(&mut order);
    order
}

/// A load within its ceilings.
fn load(random: &mut Random, scale: &Scale) -> Asm1 {
    match random.below(40) {
        0..=2 => [0; 13],
        3 => ASM1_CEILINGS,
        _ => amounts::lowered(&amounts::asm1(random, scale), &ASM1_CEILINGS),
    }
}

/// A blend that is not turned away for itself: of one load, of eight, or of any number.
pub fn fair(random: &mut Random, scale: &Scale) -> Blend {
    let number = match random.below(4) {
        0 => 1,
        1 => MOST_LOADS,
        _ => 1 + random.index(MOST_LOADS),
    };
    let loads = (0..number).flat_map(|_| load(random, scale)).collect();
    let ks = (0..number).map(|_| edges::drawable(random)).collect();
    Blend { loads, ks }
}

/// Puts a k or a column, or a few of them, where they are turned away.
fn spoil(random: &mut Random, Blend { loads, ks }: &mut Blend) {
    for _ in 0..random.one_of(&[1, 1, 1, 2, 3]) {
        let (load, place) = (random.index(ks.len()), random.index(loads.len()));
        match random.percent(50) {
            true => ks[load] = random.one_of(&NO_THOUSANDTHS),
            false => loads[place] = amounts::above(random, ASM1_CEILINGS[place % 13]),
        }
    }
}

/// Lengths of both slices, in the place of those of so many loads.
fn other_lengths(random: &mut Random, number: usize) -> (usize, usize) {
    let whole = 13 * number;
    match random.below(10) {
        0 | 1 => (0, 0),
        2..=4 => {
            let many = random.one_of(&[9, 9, 9, 10, 16, 100]);
            (13 * many, many)
        }
        5 => (whole - 1 + 2 * random.index(2), number),
        6 => (whole - 13 + 26 * random.index(2), number),
        7 => (whole, number - 1 + 2 * random.index(2)),
        8 => random.one_of(&[(0, number), (whole, 0), (number, number), (number, whole)]),
        _ => (random.index(131), random.index(11)),
    }
}

/// A blend: fair, with what is turned away in it, or in slices of other lengths.
pub fn any(random: &mut Random, scale: &Scale) -> Blend {
    let mut blend = fair(random, scale);
    if random.percent(25) {
        spoil(random, &mut blend);
    }
    if random.percent(20) {
        let (loads, ks) = other_lengths(random, blend.ks.len());
        blend = blend.stretched(loads, ks);
    }
    blend
}

/// Lowers the columns of loads that draw more together than a tank may hold, so that they draw
/// no more than fills it.
fn lower(Blend { loads, ks }: &mut Blend) {
    let (sum, number) = (together(loads, ks), ks.len() as u64);
    for (place, amount) in loads.iter_mut().enumerate() {
        let ceiling = ASM1_CEILINGS[place % 13];
        if sum[place % 13] > ceiling {
            *amount = (*amount).min(ceiling / number);
        }
    }
}

/// A blend that is not turned away for itself, and this record with a sludge tank that it just
/// fits or passes by one.
pub fn at_the_ceilings(random: &mut Random, scale: &Scale, plant: &Plant) -> (Blend, Plant) {
    let (mut blend, mut plant) = (fair(random, scale), *plant);
    lower(&mut blend);
    sheets::fill(random, &mut plant.sludge, &together(&blend.loads, &blend.ks));
    (blend, plant)
}

#[cfg(test)]
mod tests {
    use super::*;
    use crate::figures::HOUSE;
    use crate::plant::Refusal;

    /// The answer to a blend on a record.
    fn answer(plant: &Plant, blend: &Blend) -> usize {
        let (mut plant, mut loads) = (*plant, blend.loads.clone());
        plant.blend(&mut loads, &blend.ks).map_or_else(|refusal| refusal as usize, |()| 0)
    }

    /// Blends that are meant to be fair are refused by 10 at most; of each number of loads there
    /// are some, and they come in any order.
    #[test]
    fn fair_blends() {
        let (mut random, mut numbers, mut moved) = (Random::new(31), [0; 9], 0);
        for _ in 0..10_000 {
            let scale = Scale::any(&mut random, HOUSE);
            let blend = fair(&mut random, &scale);
            assert!(blend.whole() && [0, 10].contains(&answer(&Plant::FRESH, &blend)));
            numbers[blend.ks.len()] += 1;
            let order = order(&mut random, blend.ks.len());
            let other = blend.in_order(&order);
            let mut back = vec![0; order.len()];
            order.iter().enumerate().for_each(|(place, &from)| back[from] = place);
            assert_eq!(other.in_order(&back), blend);
            moved += u32::from(other != blend);
        }
        assert!(numbers[0] == 0 && numbers[1..].iter().all(|&count| count > 400), "{numbers:?}");
        assert!(moved > 5000, "{moved}");
    }

    /// Random blends have every refusal of theirs among them, and slices of every other length.
    #[test]
    fn blends_of_every_kind() {
        let (mut random, mut answers, mut lengths) = (Random::new(32), [0; 17], [0; 4]);
        for _ in 0..20_000 {
            let scale = Scale::any(&mut random, HOUSE);
            let blend = any(&mut random, &scale);
            answers[answer(&Plant::FRESH, &blend)] += 1;
            let kind = match (blend.whole(), blend.ks.len()) {
                (true, 0) => 0,
                (true, 1..=8) => 1,
                (true, _) => 2,
                _ => 3,
            };
            lengths[kind] += 1;
        }
        assert!([0, 2, 3, 10, 16].iter().all(|&number| answers[number] > 300), "{answers:?}");
        assert_eq!(answers[16], lengths[0] + lengths[2] + lengths[3]);
        assert!(lengths.iter().all(|&count| count > 300), "{lengths:?}");
    }

    /// Filled tanks have no column above its ceiling, and take their blend or refuse it by 10.
    #[test]
    fn filled_tanks() {
        let (mut random, mut answers) = (Random::new(33), [0; 2]);
        for _ in 0..10_000 {
            let scale = Scale::any(&mut random, HOUSE);
            let (blend, plant) = at_the_ceilings(&mut random, &scale, &Plant::FRESH);
            assert_eq!(plant.test_record(), Ok(()));
            let refusal = answer(&plant, &blend);
            assert!([0, Refusal::DestinationAboveCeiling as usize].contains(&refusal));
            answers[usize::from(refusal > 0)] += 1;
        }
        assert!(answers.iter().all(|&count| count > 1000), "{answers:?}");
    }
}
