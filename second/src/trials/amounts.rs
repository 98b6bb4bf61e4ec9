//! Columns, vectors and records: ordinary ones of a scale, and now and then one at
//! or above its ceiling or at a multiple of a house figure.

use crate::figures::Figures;
use crate::plant::Plant;
use crate::random::Random;
use crate::tables::*;

/// The greatest ordinary amounts of a trial, and the permitted figures that they go by.
#[derive(Clone, Copy, Debug)]
pub struct Scale {
    pub cod: u64,
    pub ticks: u64,
    /// How many columns in a thousand stand near or above their ceiling.
    pub extreme: u64,
    pub figures: Figures,
}

impl Scale {
    /// One of the scales, from a jar to the ceilings, by these figures.
    pub fn any(random: &mut Random, figures: Figures) -> Scale {
        let (cod, ticks) = random.one_of(&[
            (20, 20_000),
            (50, 60_000),
            (5_000, 5_000_000),
            (1_000_000, 1_000_000_000),
            (1_000_000_000, 1_000_000_000_000),
            (100_000_000_000, 200_000_000_000_000),
            (COD_CEILING, TICK_CEILING),
        ]);
        Scale { cod, ticks, extreme: random.one_of(&[0, 0, 2, 10, 50]), figures }
    }

    /// The greatest ordinary amount of a column with this ceiling.
    fn greatest(&self, ceiling: u64) -> u64 {
        if ceiling == TICK_CEILING {
            self.ticks
        } else {
            self.cod
        }
    }
}

/// One column.
pub fn amount(random: &mut Random, scale: &Scale, ceiling: u64) -> u64 {
    if random.below(1000) < scale.extreme {
        return extreme(random, ceiling);
    }
    let greatest = scale.greatest(ceiling);
    match random.below(10) {
        0..=2 => 0,
        3 => random.below(20).min(greatest),
        4 => near_multiple(random, &scale.figures, greatest),
        5 => random.below(greatest + 1),
        _ => random.sized(greatest),
    }
}

/// The greatest number that both are multiples of; zero is one of every number.
fn common(a: u64, b: u64) -> u64 {
    match b {
        0 => a,
        _ => common(b, a % b),
    }
}

/// What amounts are near multiples of: the figures of nitrogen, the COD that fxi divides without
/// a rest, that which fch and fli do, and others. ixe and ni follow where no other figure is the
/// same, so that by the house set the choice is the one that it was before there were others.
fn steps(figures: &Figures) -> Vec<u64> {
    let Figures { ixb, ixe, nxc, ni, naa, nbac, fxi, fch, fli } = *figures;
    let inert = 10_000 / common(10_000, fxi);
    let parts = (fch + fli) / common(fch, fli);
    let mut steps = vec![nxc, naa, nbac, ixb, 3500, inert, parts, 10, 1000];
    steps.extend([ixe].iter().filter(|&&figure| figure != ixb));
    steps.extend([ni].iter().filter(|&&figure| figure != nxc));
    steps
}

/// An amount within one of a multiple of a step.
fn near_multiple(random: &mut Random, figures: &Figures, greatest: u64) -> u64 {
    let step = random.one_of(&steps(figures)).max(1);
    let multiple = step * random.sized(greatest / step);
    (multiple + random.below(3)).saturating_sub(1).min(greatest)
}

/// An amount near, at or above its ceiling.
fn extreme(random: &mut Random, ceiling: u64) -> u64 {
    match random.below(8) {
        0..=2 => ceiling - random.below(3),
        3 => ceiling - random.sized(ceiling),
        4 => ceiling / (1 + random.below(9)),
        _ => above(random, ceiling),
    }
}

/// An amount above its ceiling.
pub fn above(random: &mut Random, ceiling: u64) -> u64 {
    match random.below(6) {
        0..=2 => ceiling + 1,
        3 => ceiling + 1 + random.sized(ceiling),
        4 => u64::MAX - random.below(3),
        _ => ceiling + 1 + random.sized(u64::MAX - ceiling - 1),
    }
}

/// A vector with these ceilings, most or few of its columns not zero.
fn vector<const W: usize>(random: &mut Random, scale: &Scale, ceilings: &[u64; W]) -> [u64; W] {
    let present = random.one_of(&[15, 40, 80, 100]);
    ceilings.map(|ceiling| match random.percent(present) {
        true => amount(random, scale, ceiling),
        false => 0,
    })
}

/// An ASM1 vector.
pub fn asm1(random: &mut Random, scale: &Scale) -> Asm1 {
    vector(random, scale, &ASM1_CEILINGS)
}

/// A digester vector.
pub fn digester(random: &mut Random, scale: &Scale) -> Digester {
    vector(random, scale, &DIGESTER_CEILINGS)
}

/// A record of the scale's figures; now and then a column of it is above its ceiling.
pub fn record(random: &mut Random, scale: &Scale) -> Plant {
    let sludge = asm1(random, scale);
    let (digester, reject) = (digester(random, scale), asm1(random, scale));
    Plant { sludge, digester, reject, figures: scale.figures }
}

/// A vector with each column lowered to its ceiling.
pub fn lowered<const W: usize>(v: &[u64; W], ceilings: &[u64; W]) -> [u64; W] {
    std::array::from_fn(|column| v[column].min(ceilings[column]))
}

/// Puts one column of a vector just above its ceiling.
pub fn put_above<const W: usize>(random: &mut Random, v: &mut [u64; W], ceilings: &[u64; W]) {
    let column = random.index(W);
    v[column] = ceilings[column] + 1;
}

/// A record with no column above its ceiling.
pub fn record_within(random: &mut Random, scale: &Scale) -> Plant {
    let plant = record(random, scale);
    Plant {
        sludge: lowered(&plant.sludge, &ASM1_CEILINGS),
        digester: lowered(&plant.digester, &DIGESTER_CEILINGS),
        reject: lowered(&plant.reject, &ASM1_CEILINGS),
        ..plant
    }
}

/// A record with one column or a few above their ceilings.
pub fn record_above(random: &mut Random, scale: &Scale) -> Plant {
    let mut plant = record_within(random, scale);
    for _ in 0..random.one_of(&[1, 1, 1, 2, 5]) {
        let column = random.index(26);
        match random.below(3) {
            0 => plant.sludge[column / 2] = above(random, ASM1_CEILINGS[column / 2]),
            1 => plant.digester[column] = above(random, DIGESTER_CEILINGS[column]),
            _ => plant.reject[column / 2] = above(random, ASM1_CEILINGS[column / 2]),
        }
    }
    plant
}

#[cfg(test)]
mod tests {
    use super::*;
    use crate::figures::HOUSE;
    use crate::trials::figures::{DAIRY, EXTREMES};

    /// The steps of the house set, and those of other sets by their own figures.
    #[test]
    fn steps_of_figures() {
        assert_eq!(steps(&HOUSE), [280, 980, 875, 880, 3500, 5, 9, 10, 1000]);
        // 7350 of 10000 are 147 of 200; 1200 and 5800 are 6 and 29 of 35.
        let dairy = [410, 1120, 910, 850, 3500, 200, 35, 10, 1000, 640, 220];
        assert_eq!(steps(&DAIRY), dairy);
        assert_eq!(steps(&EXTREMES[0]), [1, 1, 0, 0, 3500, 1, 1, 10, 1000, 0]);
        assert_eq!(steps(&EXTREMES[2])[5..], [1, 2, 10, 1000]);
    }
}
