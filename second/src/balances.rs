//! The four balances over a list of calls, COD, TKN, oxygen and nitrate, computed from
//! the calls and their answers alone, without a look at the tanks. TKN goes by the figures
//! that the list's record was made with.
//!
//! What the list received is in the tanks after it, or it has left them: released, burnt
//! or reduced by feeds, stripped by returns, or gas of settles. A recycle moves water
//! between two tanks and adds to neither side; a blend's draws are received. What is drawn
//! for the side-stream reactor counts as released, and a vector that is accepted from it as
//! received; its nitrite is received nitrate, and the N2 that is told has left. A refused call
//! and a preview count for nothing.

use crate::blends;
use crate::figures::Figures;
use crate::lines::{self, Asked};
use crate::plant::{Call, Plant};
use crate::tables::*;

/// COD, TKN, oxygen and nitrate, as whole numbers without a ceiling.
pub type Four = [u128; 4];

/// What a list of calls has received, and what has left the tanks; by default a list of none on
/// a fresh record of the house set.
#[derive(Clone, Copy, Debug, Default, PartialEq, Eq)]
pub struct Balances {
    pub figures: Figures,
    pub received: Four,
    pub left: Four,
}

/// COD, TKN, oxygen and nitrate of an ASM1 vector.
pub fn measures(figures: &Figures, v: &Asm1) -> Four {
    [cod_asm1(v), figures.tkn_asm1(v), v[asm1::SO].into(), v[asm1::SNO].into()]
}

/// Adds four counts to four others.
fn add(to: &mut Four, more: Four) {
    to.iter_mut().zip(more).for_each(|(count, more)| *count += more);
}

/// The numbers in an answer or a held line, in their order: its words of digits alone, as n2 is
/// none.
pub fn numbers_in(answer: &[u8]) -> Vec<u64> {
    let text = String::from_utf8_lossy(answer);
    let words = text.split(|letter: char| !letter.is_ascii_alphanumeric());
    let is_number = |word: &&str| !word.is_empty() && word.bytes().all(|b| b.is_ascii_digit());
    words.filter(is_number).map(|word| word.parse().expect("a number of 64 bits")).collect()
}

impl Balances {
    /// The balances of a list on this record; what it holds counts as received. Of one that is
    /// refused nothing is told, and it takes no call.
    pub fn on(plant: &Plant) -> Balances {
        let held = plant.held().map_or([0; 4], |held| held.numbers());
        Balances { figures: plant.figures, received: held.map(u128::from), left: [0; 4] }
    }

    /// Counts an accepted call, with the numbers that it told or handed out.
    pub fn count(&mut self, call: &Call, told: &[u64]) {
        match (call, told) {
            (Call::Receive(v), []) => add(&mut self.received, measures(&self.figures, v)),
            (Call::Feed(_), &[burnt, oxygen, nitrate, _]) => {
                add(&mut self.left, [burnt.into(), 0, oxygen.into(), nitrate.into()]);
            }
            (Call::Settle(gas, _), []) => add(&mut self.left, [(*gas).into(), 0, 0, 0]),
            (Call::Return(_), &[stripped]) => add(&mut self.left, [stripped.into(), 0, 0, 0]),
            (Call::Release(_) | Call::Draw(_), columns) => {
                let v = columns.try_into().expect("thirteen columns are handed out");
                add(&mut self.left, measures(&self.figures, v));
            }
            (Call::Recycle(_), []) => {}
            (Call::Accept(v, nitrite), &[n2]) => {
                add(&mut self.received, measures(&self.figures, v));
                add(&mut self.received, [0, 0, 0, (*nitrite).into()]);
                add(&mut self.left, [0, 0, 0, n2.into()]);
            }
            _ => panic!("{call:?} does not tell {told:?}"),
        }
    }

    /// Counts an accepted blend by its loads as they were before it: the draws are received.
    pub fn count_blend(&mut self, loads: &[u64], ks: &[u64]) {
        for drawn in blends::draws(loads, ks) {
            add(&mut self.received, measures(&self.figures, &drawn));
        }
    }

    /// Counts a line by its answer.
    pub fn count_line(&mut self, line: &[u8], answer: &[u8]) {
        if let (Some(Asked::Call(call)), true) = (lines::read(line), answer.starts_with(b"(ok ")) {
            self.count(&call, &numbers_in(answer));
        }
    }

    /// Whether all four close over what is held after the list; in words, where one is open.
    pub fn check(&self, held: [u64; 4]) -> Result<(), String> {
        let mut other = held.map(u128::from);
        add(&mut other, self.left);
        match self.received == other {
            true => Ok(()),
            false => Err(format!("a balance is open: {self:?}, held {held:?}")),
        }
    }
}
