//! Closing a proposal. A solver proposes a digester vector whose COD and TKN are near
//! those of the record's digester: `close` gives the vector and the gas that settle
//! accepts in its place, `gap` how far off a proposal is.
//!
//! With old the record's digester and d the proposal, what closes is
//! - gas = COD old − COD d;
//! - sin = TKN old − TKN of all columns of d but sin;
//! - co and cn as in old, and every other column as in d.
//!
//! TKN goes by the record's figures.

use crate::plant::{test_columns, Plant, Refusal};
use crate::tables::*;

/// How far a proposal is from closing, in counts: COD too much, nitrogen too much, and
/// the sin that closes above its ceiling.
#[derive(Clone, Copy, Debug, PartialEq, Eq)]
pub struct Gap {
    pub cod: u64,
    pub tkn: u64,
    pub sin: u64,
}

impl Plant {
    /// The vector that closes in a proposal's place, and the gas; tests 15, 1, 3, 7, 8, and
    /// under 3 also the sin that closes.
    pub fn close(&self, proposal: &Digester) -> Result<(Digester, u64), Refusal> {
        use digester::{CN, CO, SIN};
        self.test_record()?;
        test_columns(proposal, &DIGESTER_CEILINGS)?;
        let bound = self.figures.tkn_but_sin(proposal);
        let nitrogen = self.figures.tkn_digester(&self.digester).checked_sub(bound);
        if nitrogen.is_some_and(|sin| sin > u128::from(TICK_CEILING)) {
            return Err(Refusal::ColumnAboveCeiling);
        }
        let gas = cod_digester(&self.digester).checked_sub(cod_digester(proposal));
        let gas = gas.ok_or(Refusal::CodOpen)?;
        let sin = nitrogen.ok_or(Refusal::TknDiffers)?;
        let mut closed = *proposal;
        closed[SIN] = sin as u64;
        closed[CO] = self.digester[CO];
        closed[CN] = self.digester[CN];
        Ok((closed, gas as u64))
    }

    /// How far off a proposal is; tests 15, 1, 3. Within the ceilings each number is far below
    /// 2^64, by any permitted figures.
    pub fn gap(&self, proposal: &Digester) -> Result<Gap, Refusal> {
        self.test_record()?;
        test_columns(proposal, &DIGESTER_CEILINGS)?;
        let over = |is: u128, may_be: u128| is.saturating_sub(may_be) as u64;
        let tkn = self.figures.tkn_digester(&self.digester);
        let bound = self.figures.tkn_but_sin(proposal);
        Ok(Gap {
            cod: over(cod_digester(proposal), cod_digester(&self.digester)),
            tkn: over(bound, tkn),
            sin: over(tkn, bound + u128::from(TICK_CEILING)),
        })
    }
}
