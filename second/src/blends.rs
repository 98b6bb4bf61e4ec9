//! Blends: one to eight hauled loads, thirteen columns each behind one another in one slice, and
//! the k of each in a second one. Every load's draw is added to the sludge tank, and its rest is
//! left in its place.
//!
//! A column within its ceiling times 1000 stays below 2^64, and so do eight draws and a tank.

use crate::plant::{add, draw, rest, test_columns, test_thousandths, Plant, Refusal};
use crate::tables::*;

/// How many loads a blend may have.
pub const MOST_LOADS: usize = 8;

/// Refusal 16 where there are no loads, more than eight, or not thirteen columns for each k. The
/// product is taken of eight at most.
fn test_lengths(loads: usize, ks: usize) -> Result<(), Refusal> {
    match (1..=MOST_LOADS).contains(&ks) && loads == 13 * ks {
        true => Ok(()),
        false => Err(Refusal::NoBlend),
    }
}

/// The loads in their order; columns behind the last whole load are none.
pub fn each(loads: &[u64]) -> impl Iterator<Item = &Asm1> {
    loads.chunks_exact(13).map(|load| load.try_into().expect("a load has thirteen columns"))
}

/// The same loads, to be written to.
fn each_mut(loads: &mut [u64]) -> impl Iterator<Item = &mut Asm1> {
    loads.chunks_exact_mut(13).map(|load| load.try_into().expect("a load has thirteen columns"))
}

/// What each k draws of its load; loads and ks are not refused.
pub fn draws<'a>(loads: &'a [u64], ks: &'a [u64]) -> impl Iterator<Item = Asm1> + 'a {
    each(loads).zip(ks).map(|(load, &k)| draw(load, k))
}

/// The draws of all loads together.
pub fn together(loads: &[u64], ks: &[u64]) -> Asm1 {
    draws(loads, ks)
        .fold([0; 13], |sum, drawn| std::array::from_fn(|column| sum[column] + drawn[column]))
}

impl Plant {
    /// Adds each load's draw to the sludge tank and leaves the rest of each load in its place;
    /// tests 15, 1, 16, 2, 3, 10.
    pub fn blend(&mut self, loads: &mut [u64], ks: &[u64]) -> Result<(), Refusal> {
        self.test_record()?;
        test_lengths(loads.len(), ks.len())?;
        ks.iter().try_for_each(|&k| test_thousandths(k))?;
        each(loads).try_for_each(|load| test_columns(load, &ASM1_CEILINGS))?;
        self.sludge = add(&self.sludge, &together(loads, ks), &ASM1_CEILINGS)?;
        for (load, &k) in each_mut(loads).zip(ks) {
            *load = rest(load, &draw(load, k));
        }
        Ok(())
    }
}

#[cfg(test)]
mod tests {
    use super::*;

    /// One to eight ks with thirteen columns each, and no other lengths up to 130 and ten.
    #[test]
    fn lengths() {
        for (loads, ks) in (0..=130).flat_map(|loads| (0..=10).map(move |ks| (loads, ks))) {
            let fits = [13, 26, 39, 52, 65, 78, 91, 104].iter().position(|&fits| fits == loads);
            let expected = fits.is_some_and(|place| place + 1 == ks);
            assert_eq!(test_lengths(loads, ks).is_ok(), expected, "{loads} {ks}");
        }
    }

    /// Lengths whose product with thirteen passes 64 bits, and is the other length then.
    #[test]
    fn lengths_that_wrap() {
        for loads in (0..=130).chain([usize::MAX - 12, usize::MAX - 1, usize::MAX]) {
            // 13 times this is 1 modulo 2^64.
            let ks = 0x4ec4_ec4e_c4ec_4ec5_usize.wrapping_mul(loads);
            assert_eq!(ks.wrapping_mul(13), loads);
            let fits = (1..=8).contains(&ks);
            assert_eq!(test_lengths(loads, ks).is_ok(), fits, "{loads} {ks}");
        }
        for most in [1 << 32, 1 << 60, usize::MAX / 13, usize::MAX] {
            assert_eq!(test_lengths(13, most), Err(Refusal::NoBlend));
            assert_eq!(test_lengths(most, 1), Err(Refusal::NoBlend));
            assert_eq!(test_lengths(most, most), Err(Refusal::NoBlend));
        }
    }
}
