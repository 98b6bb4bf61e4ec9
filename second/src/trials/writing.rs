//! Calls to be written as lines: with any number, and vectors of many zeros, of columns above
//! their ceilings and at the greatest number, of nothing but these and of nothing at all. And
//! what goes with them: the number that asks for a preview, and the lent buffer.

use super::{amounts, thousandths};
use crate::plant::Call;
use crate::random::Random;
use crate::tables::*;

/// The lengths of lent buffers: those that fit, and those that are too short.
const FIT: [usize; 4] = [1025, 1026, 1100, 4096];
const SHORT: [usize; 9] = [0, 1, 511, 512, 739, 740, 741, 1023, 1024];

/// Numbers that ask for a preview; of some the low bits are zero.
const PREVIEWS: [u64; 9] = [1, 1, 1, 2, 10, 256, 1 << 32, 1 << 63, u64::MAX];

/// A call to be written; most often one with a vector.
pub fn call(random: &mut Random) -> Call {
    match random.below(17) {
        0..=3 => Call::Receive(vector(random, &ASM1_CEILINGS)),
        4..=7 => Call::Settle(number(random), vector(random, &DIGESTER_CEILINGS)),
        8 => Call::Feed(number(random)),
        9 => Call::Return(number(random)),
        10 => Call::Release(number(random)),
        11 => Call::Recycle(number(random)),
        12 => Call::Draw(number(random)),
        _ => Call::Accept(vector(random, &ASM1_CEILINGS), number(random)),
    }
}

/// A number: none, the greatest ones, at the edge of a count of digits, thousandths, or any.
fn number(random: &mut Random) -> u64 {
    match random.below(10) {
        0 => 0,
        1 => u64::MAX - random.below(3),
        2 | 3 => 10u64.pow(random.below(20) as u32) - random.below(2),
        4 | 5 => thousandths(random),
        6 => random.any(),
        _ => random.sized(u64::MAX),
    }
}

/// A column: the greatest number, its ceiling, one above that, or any; seldom zero.
fn column(random: &mut Random, ceiling: u64) -> u64 {
    match random.below(8) {
        0 => u64::MAX,
        1 => ceiling,
        2 => amounts::above(random, ceiling),
        _ => number(random),
    }
}

/// A vector: of zeros, of the greatest numbers, of one column, or with few or most of its columns.
fn vector<const W: usize>(random: &mut Random, ceilings: &[u64; W]) -> [u64; W] {
    let one = random.index(W);
    let present = random.one_of(&[10, 30, 80, 100]);
    match random.below(12) {
        0 => [0; W],
        1 => [u64::MAX; W],
        2 => std::array::from_fn(|place| match place == one {
            true => column(random, ceilings[place]),
            false => 0,
        }),
        _ => ceilings.map(|ceiling| match random.percent(present) {
            true => column(random, ceiling),
            false => 0,
        }),
    }
}

/// The number that asks for a call's line, 0, or for its preview's, any other one.
pub fn preview(random: &mut Random) -> u64 {
    match random.below(5) {
        0 | 1 => 0,
        2 | 3 => random.one_of(&PREVIEWS),
        _ => random.any(),
    }
}

/// A lent buffer of any of the lengths, or a longer one, filled with any bytes.
pub fn buffer(random: &mut Random) -> Vec<u8> {
    let length = match random.below(10) {
        0 | 1 => random.one_of(&SHORT),
        2..=8 => random.one_of(&FIT),
        _ => 1025 + random.index(4000),
    };
    let mut bytes: Vec<u8> =
        (0..length.div_ceil(8)).flat_map(|_| random.any().to_le_bytes()).collect();
    bytes.truncate(length);
    bytes
}

#[cfg(test)]
mod tests {
    use super::*;

    /// How often a call was one of each kind, and its vector and number of each kind.
    #[derive(Default, Debug)]
    struct Met {
        calls: [u32; 8],
        no_column: u32,
        all_greatest: u32,
        one_column: u32,
        some_greatest: u32,
        above: u32,
        own_zero: u32,
        own_greatest: u32,
    }

    impl Met {
        /// Counts a call.
        fn count(&mut self, call: &Call) {
            let (place, own, v): (usize, Option<u64>, &[u64]) = match call {
                Call::Receive(v) => (0, None, v),
                Call::Feed(k) => (1, Some(*k), &[]),
                Call::Settle(gas, v) => (2, Some(*gas), v),
                Call::Return(k) => (3, Some(*k), &[]),
                Call::Release(k) => (4, Some(*k), &[]),
                Call::Recycle(k) => (5, Some(*k), &[]),
                Call::Draw(k) => (6, Some(*k), &[]),
                Call::Accept(v, nitrite) => (7, Some(*nitrite), v),
            };
            self.calls[place] += 1;
            self.own_zero += u32::from(own == Some(0));
            self.own_greatest += u32::from(own == Some(u64::MAX));
            if !v.is_empty() {
                self.count_columns(v);
            }
        }

        /// Counts a vector.
        fn count_columns(&mut self, v: &[u64]) {
            let named = v.iter().filter(|&&column| column > 0).count();
            let greatest = v.iter().filter(|&&column| column == u64::MAX).count();
            let above = |&column: &u64| column > TICK_CEILING && column < u64::MAX;
            self.no_column += u32::from(named == 0);
            self.one_column += u32::from(named == 1);
            self.all_greatest += u32::from(greatest == v.len());
            self.some_greatest += u32::from(greatest > 0 && greatest < v.len());
            self.above += u32::from(v.iter().any(above));
        }
    }

    /// Random calls have all of these among them.
    #[test]
    fn calls_of_every_kind() {
        let (mut met, mut random) = (Met::default(), Random::new(20));
        for _ in 0..10_000 {
            met.count(&call(&mut random));
        }
        let Met { no_column, all_greatest, one_column, some_greatest, above, .. } = met;
        let counts = [no_column, all_greatest, one_column, some_greatest, above];
        let others = [met.own_zero, met.own_greatest];
        let mut all = met.calls.iter().chain(&counts).chain(&others);
        assert!(all.all(|&count| count > 100), "{met:?}");
    }

    /// Buffers of every length that is listed are among random ones, and longer ones; and so are
    /// the numbers that ask for a line and for its preview.
    #[test]
    fn buffers_and_previews_of_every_kind() {
        let mut random = Random::new(21);
        let buffers: Vec<Vec<u8>> = (0..10_000).map(|_| buffer(&mut random)).collect();
        let often = |length: usize| buffers.iter().filter(|lent| lent.len() == length).count();
        assert!(FIT.iter().chain(&SHORT).all(|&length| often(length) > 100));
        assert!(buffers.iter().filter(|lent| lent.len() > 1100).count() > 500);
        let previews: Vec<u64> = (0..10_000).map(|_| preview(&mut random)).collect();
        let often = |number: u64| previews.iter().filter(|&&preview| preview == number).count();
        assert!(often(0) > 3000 && PREVIEWS.iter().all(|&number| often(number) > 100));
    }
}
