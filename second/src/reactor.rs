//! The side-stream reactor, which treats reject water by SHARON and Anammox: water is drawn for its
//! host, and what that host hands back, an ASM1 vector and ticks of nitrite, is accepted into the
//! sludge tank. ASM1 has no nitrite: three fifths of it join the nitrate, and the rest is N2.
//!
//! Nitrite within its ceiling times 3 stays below 2^64, and so do its nitrate, a vector's and a
//! tank's together.

use crate::plant::{add, test_columns, Plant, Refusal};
use crate::tables::*;

/// The greatest count of nitrite, in ticks.
pub const NITRITE_CEILING: u64 = TICK_CEILING;

/// What becomes of nitrite within its ceiling: the ticks that join the nitrate, and those of N2.
pub fn shares(nitrite: u64) -> (u64, u64) {
    let nitrate = 3 * nitrite / 5;
    (nitrate, nitrite - nitrate)
}

/// A vector with so much more nitrate; both are within their ceilings, and the sum may not be.
pub fn with_nitrate(v: &Asm1, nitrate: u64) -> Asm1 {
    let mut whole = *v;
    whole[asm1::SNO] += nitrate;
    whole
}

impl Plant {
    /// Draws from reject and hands the vector to the reactor's host; tests 15, 1, 2, as a release.
    pub fn draw(&mut self, k: u64) -> Result<Asm1, Refusal> {
        self.release(k)
    }

    /// Adds an ASM1 vector and so many ticks of nitrite to the sludge tank; tests 15, 1, 3, 10.
    /// Tells the ticks of N2.
    pub fn accept(&mut self, v: &Asm1, nitrite: u64) -> Result<u64, Refusal> {
        self.test_record()?;
        test_columns(v, &ASM1_CEILINGS)?;
        test_columns(&[nitrite], &[NITRITE_CEILING])?;
        let (nitrate, n2) = shares(nitrite);
        self.sludge = add(&self.sludge, &with_nitrate(v, nitrate), &ASM1_CEILINGS)?;
        Ok(n2)
    }
}

#[cfg(test)]
mod tests {
    use super::*;

    /// Both shares of the least counts, of those at the ceiling, and that they are the whole.
    #[test]
    fn shares_of_nitrite() {
        let nitrate = [0, 0, 1, 1, 2, 3, 3, 4, 4, 5, 6];
        for (nitrite, nitrate) in (0..).zip(nitrate) {
            assert_eq!(shares(nitrite), (nitrate, nitrite - nitrate));
        }
        assert_eq!(shares(NITRITE_CEILING), (6_000_000_000_000_000, 4_000_000_000_000_000));
        assert_eq!(shares(NITRITE_CEILING - 1), (5_999_999_999_999_999, 4_000_000_000_000_000));
        assert_eq!(shares(NITRITE_CEILING - 2), (5_999_999_999_999_998, 4_000_000_000_000_000));
    }
}
