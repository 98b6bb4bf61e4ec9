//! Laboratory sheets: thirteen entries in the order of the ASM1 columns, each of single
//! precision and in grams, salk in moles. They are counted as whole milligrams, ticks and
//! millimoles, and the counts are received.
//!
//! An amount counts as the floor of its exact value × 1,000, or × 10^7 for ticks. The product
//! is taken in double precision, where it is exact: the amount has at most 24 bits and 10^7
//! has 24, together no more than 48 of the 53; and from 2^-149, the least amount above zero,
//! to 2^128 × 10^7 every exponent is one of a normal double. So nothing is rounded but by the
//! floor.

use crate::plant::{Plant, Refusal};
use crate::tables::*;

/// The kind of an entry that was measured.
pub const MEASURED: u8 = 0;
/// The kind of an entry below a detection limit; its value is the limit.
pub const BELOW: u8 = 1;
/// The kind of an entry that was not sampled; its value is not read.
pub const NOT_SAMPLED: u8 = 2;

/// A sheet as a host in C hands it over: the kind and the value of each entry.
#[derive(Clone, Copy, Debug)]
pub struct Sheet {
    pub kinds: [u8; 13],
    pub values: [f32; 13],
}

/// What a sheet tells: the counts of its detection limits added up, and how many of its
/// entries were not sampled.
#[derive(Clone, Copy, Debug, Default, PartialEq, Eq)]
pub struct Unseen {
    pub milligrams: u64,
    pub ticks: u64,
    pub millimoles: u64,
    pub not_sampled: u64,
}

impl Unseen {
    /// Milligrams, ticks, millimoles and the number not sampled.
    pub fn numbers(&self) -> [u64; 4] {
        [self.milligrams, self.ticks, self.millimoles, self.not_sampled]
    }

    /// Adds the count of a column's limit to its total, which stays far below 2^64.
    fn add(&mut self, column: usize, count: u64) {
        match column {
            asm1::SALK => self.millimoles += count,
            asm1::SNO..=asm1::XND => self.ticks += count,
            _ => self.milligrams += count,
        }
    }
}

/// How many counts a gram has in this column, or a mole in salk.
pub fn scale(column: usize) -> f64 {
    match column {
        asm1::SNO..=asm1::XND => 10_000_000.0,
        _ => 1000.0,
    }
}

/// The count of an amount in this column; 13 where it is negative, infinite or no number, 14
/// where the count is above the ceiling.
pub fn count(column: usize, amount: f32) -> Result<u64, Refusal> {
    // Minus zero is no less than zero, and what is no number is in no range.
    if !(0.0..=f32::MAX).contains(&amount) {
        return Err(Refusal::NoAmount);
    }
    let count = (f64::from(amount) * scale(column)).floor();
    // Both ceilings are doubles: 10^16 is 5^16 × 2^16, and 5^16 has 38 bits.
    match count <= ASM1_CEILINGS[column] as f64 {
        true => Ok(count as u64),
        false => Err(Refusal::CountAboveCeiling),
    }
}

impl Sheet {
    /// The counts of what was measured, zero elsewhere, and what was not seen; or the refusal of
    /// the first column that has one, 13 also for a kind that there is not.
    pub fn read(&self) -> Result<(Asm1, Unseen), Refusal> {
        let (mut counts, mut unseen) = ([0; 13], Unseen::default());
        for (column, (kind, value)) in self.kinds.into_iter().zip(self.values).enumerate() {
            match kind {
                MEASURED => counts[column] = count(column, value)?,
                BELOW => unseen.add(column, count(column, value)?),
                NOT_SAMPLED => unseen.not_sampled += 1,
                _ => return Err(Refusal::NoAmount),
            }
        }
        Ok((counts, unseen))
    }
}

impl Plant {
    /// Receives the counts of a sheet and tells what was not seen; tests 13 and 14 column by
    /// column, then those of receive, 15 first.
    pub fn sheet(&mut self, sheet: &Sheet) -> Result<Unseen, Refusal> {
        let (counts, unseen) = sheet.read()?;
        self.receive(&counts)?;
        Ok(unseen)
    }
}
