//! Sets of figures. Permitted: the house set, a dairy's, extreme ones, and random ones of every
//! size, also at their bounds. And sets that are out of bounds, most of them by one.

use crate::figures::{Figures, GREATEST_FIGURE, HOUSE};
use crate::random::Random;

/// A dairy works' set. All nine differ, so that a figure in another's place is seen.
pub const DAIRY: Figures =
    Figures::from_numbers(&[850, 640, 410, 220, 1120, 910, 7350, 1200, 5800]);

/// The least figures, with carbohydrate alone and with lipid alone; and the greatest.
pub const EXTREMES: [Figures; 3] = [
    Figures::from_numbers(&[0, 0, 1, 0, 1, 0, 0, 1, 0]),
    Figures::from_numbers(&[0, 0, 1, 0, 1, 0, 0, 0, 1]),
    Figures::from_numbers(&[GREATEST_FIGURE; 9]),
];

/// Where nxc, naa, fch and fli stand.
const NXC: usize = 2;
const NAA: usize = 4;
const FCH: usize = 7;
const FLI: usize = 8;

/// What fch and fli may be so that their sum passes 64 bits and then is small.
const WRAPPED: [(u64, u64); 3] = [(u64::MAX, 1), (u64::MAX, 2), (1 << 63, 1 << 63)];

/// Raises what must not be zero.
fn raised(random: &mut Random, mut numbers: [u64; 9]) -> Figures {
    numbers[NXC] = numbers[NXC].max(1);
    numbers[NAA] = numbers[NAA].max(1);
    if numbers[FCH] + numbers[FLI] == 0 {
        numbers[random.one_of(&[FCH, FLI])] = 1;
    }
    Figures::from_numbers(&numbers)
}

/// A permitted set.
pub fn permitted(random: &mut Random) -> Figures {
    let numbers = match random.below(12) {
        0 => HOUSE.numbers(),
        1..=3 => DAIRY.numbers(),
        4 => random.one_of(&EXTREMES).numbers(),
        5 | 6 => std::array::from_fn(|_| random.below(GREATEST_FIGURE + 1)),
        7 => std::array::from_fn(|_| random.below(4)),
        8 => std::array::from_fn(|_| random.sized(GREATEST_FIGURE)),
        9 => std::array::from_fn(|_| random.one_of(&[0, 1, 9999, GREATEST_FIGURE])),
        _ => one_other(random),
    };
    raised(random, numbers)
}

/// The house set with one figure in another's place, or any.
fn one_other(random: &mut Random) -> [u64; 9] {
    let mut numbers = HOUSE.numbers();
    let place = random.index(9);
    numbers[place] = match random.percent(50) {
        true => numbers[random.index(9)],
        false => random.below(GREATEST_FIGURE + 1),
    };
    numbers
}

/// The figures of a record: half the times the house set, else any permitted one.
pub fn any(random: &mut Random) -> Figures {
    match random.percent(50) {
        true => HOUSE,
        false => permitted(random),
    }
}

/// The twelve sets that are nearest to this one and just out of bounds: each figure at 10001;
/// nxc, naa, and both fch and fli at zero.
pub fn just_outside(figures: &Figures) -> [Figures; 12] {
    let put = |places: &[usize], number: u64| {
        let mut numbers = figures.numbers();
        places.iter().for_each(|&place| numbers[place] = number);
        Figures::from_numbers(&numbers)
    };
    std::array::from_fn(|which| match which {
        0..=8 => put(&[which], GREATEST_FIGURE + 1),
        9 => put(&[NXC], 0),
        10 => put(&[NAA], 0),
        _ => put(&[FCH, FLI], 0),
    })
}

/// A number above every figure; of some the low bits are those of one.
fn above(random: &mut Random) -> u64 {
    match random.below(5) {
        0 => GREATEST_FIGURE + 1 + random.below(3),
        1 => u64::MAX - random.below(3),
        2 => random.one_of(&[1 << 16, 1 << 32, 1 << 63]) + random.below(GREATEST_FIGURE + 1),
        3 => GREATEST_FIGURE + 1 + random.sized(u64::MAX - GREATEST_FIGURE - 1),
        _ => random.any().max(GREATEST_FIGURE + 1),
    }
}

/// A set out of bounds.
pub fn outside(random: &mut Random) -> Figures {
    let near = any(random);
    let mut numbers = near.numbers();
    match random.below(10) {
        0..=4 => return random.one_of(&just_outside(&near)),
        5 => numbers = [0; 9],
        6 => (numbers[FCH], numbers[FLI]) = random.one_of(&WRAPPED),
        7 => numbers = std::array::from_fn(|_| above(random)),
        _ => numbers[random.index(9)] = above(random),
    }
    Figures::from_numbers(&numbers)
}

/// What a record is to be made with: a permitted set, or three of ten times one out of bounds.
pub fn wish(random: &mut Random) -> Figures {
    match random.percent(70) {
        true => permitted(random),
        false => outside(random),
    }
}

/// What is no number behind `--figures`: nothing, signs, leading zeros, other notations, blanks,
/// numbers of more than 64 bits, and other words.
pub const NO_NUMBERS: [&str; 32] = [
    "",
    " ",
    "-",
    "+",
    "+1",
    "-1",
    "-0",
    "00",
    "01",
    "0880",
    "000000000000000000000000000000880",
    " 1",
    "1 ",
    "1\t",
    "1\n",
    "1\r",
    "1,000",
    "1_000",
    "1.0",
    ".5",
    "1e3",
    "0x1",
    "a",
    "1a",
    "\u{661}",
    "--help",
    "--figures",
    "18446744073709551616",
    "18446744073709552496",
    "99999999999999999999",
    "100000000000000000000",
    "340282366920938463463374607431768211456",
];

/// The words that ask the program for these figures.
pub fn words(figures: &Figures) -> Vec<String> {
    let numbers = figures.numbers().map(|number| number.to_string());
    ["--figures".to_string()].into_iter().chain(numbers).collect()
}

/// Words that the program refuses: a set out of bounds, a word that is no number, or a permitted
/// set that lacks a word or has one too many.
pub fn refused_words(random: &mut Random) -> Vec<String> {
    let permitted = words(&any(random));
    match random.below(4) {
        0 | 1 => words(&outside(random)),
        2 => {
            let mut words = permitted;
            words[1 + random.index(9)] = random.one_of(&NO_NUMBERS).into();
            words
        }
        _ => {
            let count = random.one_of(&[1, 2, 9, 9, 11, 11, 12, 19]);
            permitted.iter().chain(&permitted[1..]).take(count).cloned().collect()
        }
    }
}

#[cfg(test)]
mod tests {
    use super::*;
    use crate::making;
    use crate::plant::Plant;

    /// Whether these figures are within the bounds that E7 gives.
    fn within_bounds(numbers: &[u64; 9]) -> bool {
        let [_, _, nxc, _, naa, _, _, fch, fli] = *numbers;
        let parts = u128::from(fch) + u128::from(fli);
        numbers.iter().all(|number| *number <= 10_000) && nxc >= 1 && naa >= 1 && parts >= 1
    }

    /// Permitted sets are within the bounds, those outside are not; each bound is met and each
    /// figure passes its own by one.
    #[test]
    fn sets_of_every_kind() {
        let mut random = Random::new(28);
        let (mut at, mut past) = ([[0; 2]; 9], [0; 9]);
        for _ in 0..20_000 {
            let within = permitted(&mut random);
            assert!(within_bounds(&within.numbers()) && within.permitted(), "{within:?}");
            let outside = outside(&mut random);
            assert!(!within_bounds(&outside.numbers()) && !outside.permitted(), "{outside:?}");
            for (place, number) in within.numbers().into_iter().enumerate() {
                let least = u64::from(place == NXC || place == NAA);
                at[place][0] += u32::from(number == least);
                at[place][1] += u32::from(number == GREATEST_FIGURE);
                past[place] += u32::from(outside.numbers()[place] == GREATEST_FIGURE + 1);
            }
        }
        assert!(at.iter().flatten().chain(&past).all(|&count| count > 200), "{at:?} {past:?}");
    }

    /// Words of a permitted set ask for its record; refused ones for none, and each kind is met.
    #[test]
    fn words_of_every_kind() {
        let (mut random, mut met) = (Random::new(29), [0; 3]);
        for _ in 0..5000 {
            let figures = permitted(&mut random);
            assert_eq!(making::record(&words(&figures)), Ok(Plant::fresh(figures)));
            let refused = refused_words(&mut random);
            let why = making::record(&refused).unwrap_err();
            let kinds = ["refusal 15", "is no number", "and not nine"];
            let kind = kinds.iter().position(|kind| why.contains(kind));
            met[kind.unwrap_or_else(|| panic!("{refused:?}: {why}"))] += 1;
        }
        assert!(met.iter().all(|&count| count > 1000), "{met:?}");
    }

    /// The sets just outside are twelve, none of them permitted, also those of extreme sets.
    #[test]
    fn sets_just_outside() {
        for figures in [HOUSE, DAIRY].iter().chain(&EXTREMES) {
            assert!(figures.permitted());
            assert!(just_outside(figures).iter().all(|set| !within_bounds(&set.numbers())));
            assert!(just_outside(figures).iter().all(|set| !set.permitted()));
        }
    }
}
