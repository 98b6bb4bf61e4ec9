//! The two conversions of document 01, each on one drawn vector and by the figures of its
//! record: feed (ASM1 to digester, stages 1 to 5, stage 1 as E9 and stage 4 as E13 amend them)
//! and return (digester to ASM1); and both of any vector by itself, without a record, by any
//! figures.
//!
//! `feed` and `give_back` are handed permitted figures and no column above its ceiling. Then
//! no product or sum here passes 64 bits: the nitrate that COD can reduce is at
//! most 3500 × 4·10^12; of those with a figure none passes 10^17, the nitrogen of ten columns.

use crate::figures::Figures;
use crate::plant::{test_columns, Refusal};
use crate::tables::*;
use std::cmp::min;

/// Stage 1's outcome: COD burnt, oxygen and nitrate reduced, and A, the COD that could be burnt.
#[derive(Clone, Copy, Debug, PartialEq, Eq)]
pub struct Burn {
    pub burnt: u64,
    pub oxygen: u64,
    pub nitrate: u64,
    pub available: u64,
}

/// What a feed tells beside the vector it makes.
#[derive(Clone, Copy, Debug, PartialEq, Eq)]
pub struct FeedTold {
    pub burnt: u64,
    pub oxygen: u64,
    pub nitrate: u64,
    pub warn: u64,
}

impl FeedTold {
    /// Burnt, oxygen, nitrate and warn.
    pub fn numbers(&self) -> [u64; 4] {
        [self.burnt, self.oxygen, self.nitrate, self.warn]
    }
}

/// What stage 4 begins with: digester xi, the need q, and the nitrogen pool P it is taken from.
#[derive(Clone, Copy, Debug, PartialEq, Eq)]
pub struct Inerts {
    pub xi: u64,
    pub need: u64,
    pub pool: u64,
}

/// What a feed has before stage 4 covers the need: stage 1's outcome, what it leaves of ss, xs, xbh
/// and xba, the amino acids of stage 2, and the inerts.
#[derive(Clone, Copy, Debug, PartialEq, Eq)]
pub struct Before {
    pub burn: Burn,
    pub left: [u64; 4],
    pub saa: u64,
    pub inerts: Inerts,
}

/// Stage 4's outcome: the amino acids that gave way to inerts, and the nitrogen that is left, P' of
/// the pool and H' of ammonia.
#[derive(Clone, Copy, Debug, PartialEq, Eq)]
pub struct Covered {
    pub gave_way: u64,
    pub pool: u64,
    pub ammonia: u64,
}

/// Stage 1: oxygen is reduced first, then as much nitrate as the COD left can reduce.
pub fn burn(v: &Asm1) -> Burn {
    use asm1::*;
    let available = v[SS] + v[XS] + v[XBH] + v[XBA];
    let oxygen = min(v[SO], available);
    let nitrate = min(v[SNO], 3500 * (available - oxygen));
    let burnt = oxygen + nitrate.div_ceil(3500);
    Burn { burnt, oxygen, nitrate, available }
}

/// What is left of ss, xs, xbh and xba when the burnt COD is taken from them in this order.
pub fn left_after(v: &Asm1, burnt: u64) -> [u64; 4] {
    use asm1::*;
    let mut owed = burnt;
    [SS, XS, XBH, XBA].map(|column| {
        let taken = min(v[column], owed);
        owed -= taken;
        v[column] - taken
    })
}

/// Stage 2: the amino acids that soluble organic nitrogen and the ss left allow.
pub fn amino_acids(figures: &Figures, v: &Asm1, ss_left: u64) -> u64 {
    min(ss_left, v[asm1::SND] / figures.naa)
}

/// Stage 3 and what stage 4 begins with: the pool of organic nitrogen, with biomass as it was
/// before stage 1, the inert COD that stays inert, and the nitrogen both inerts need.
pub fn inerts(figures: &Figures, v: &Asm1, saa: u64) -> Inerts {
    use asm1::*;
    let Figures { ixb, ixe, ni, naa, fxi, .. } = *figures;
    let pool = v[SND] - naa * saa + v[XND] + ixb * (v[XBH] + v[XBA]) + ixe * (v[XI] + v[XP]);
    let xi = fxi * (v[XI] + v[XP]) / 10_000;
    Inerts { xi, need: ni * (v[SI] + xi), pool }
}

/// All that comes before the need is covered.
#[inline(always)]
pub fn before_covering(figures: &Figures, v: &Asm1) -> Before {
    let burn = burn(v);
    let left = left_after(v, burn.burnt);
    let saa = amino_acids(figures, v, left[0]);
    Before { burn, left, saa, inerts: inerts(figures, v, saa) }
}

/// Stage 4: the need is taken from the pool, then from ammonia. What both lack is taken from amino
/// acids, of which as many whole mg give way as hold it; what they hold more is left in the pool.
/// Refusal 4 where all of them hold less.
#[inline(always)]
pub fn cover(
    figures: &Figures,
    inerts: &Inerts,
    ammonia: u64,
    saa: u64,
) -> Result<Covered, Refusal> {
    let (need, pool, naa) = (inerts.need, inerts.pool, figures.naa);
    if need <= pool + ammonia {
        let ammonia = ammonia - need.saturating_sub(pool);
        return Ok(Covered { gave_way: 0, pool: pool.saturating_sub(need), ammonia });
    }
    let short = need - (pool + ammonia);
    let gave_way = short.div_ceil(naa);
    match gave_way <= saa {
        true => Ok(Covered { gave_way, pool: naa * gave_way - short, ammonia: 0 }),
        false => Err(Refusal::FeedNitrogenShort),
    }
}

/// Feed: the drawn ASM1 vector as a digester vector, with what was burnt and reduced. It is drawn
/// into each of its callers, so that one of them is not slower where there is another.
#[inline(always)]
pub fn feed(figures: &Figures, v: &Asm1) -> Result<(Digester, FeedTold), Refusal> {
    let Before { burn, left, saa, inerts } = before_covering(figures, v);
    let covered = cover(figures, &inerts, v[asm1::SNH], saa)?;
    let mut out = partition(figures, v, &left, inerts.xi, &covered);
    out[digester::SAA] = saa - covered.gave_way;
    out[digester::SSU] = left[0] - out[digester::SAA];
    out[digester::CO] = v[asm1::SO] - burn.oxygen;
    out[digester::CN] = v[asm1::SNO] - burn.nitrate;
    let warn = u64::from(out[digester::CO] > 0 || out[digester::CN] > 0);
    let told = FeedTold { burnt: burn.burnt, oxygen: burn.oxygen, nitrate: burn.nitrate, warn };
    Ok((out, told))
}

/// The COD that stage 5 shares out: what is left of xs, xbh and xba, and the inerts that do not
/// stay inert.
pub fn rest(v: &Asm1, left: &[u64; 4], xi: u64) -> u64 {
    left[1] + left[2] + left[3] + v[asm1::XI] + v[asm1::XP] - xi
}

/// Stages 4 and 5: inerts, composites, carbohydrate, lipid and inorganic nitrogen.
fn partition(figures: &Figures, v: &Asm1, left: &[u64; 4], xi: u64, covered: &Covered) -> Digester {
    use digester::*;
    let Figures { nxc, fch, fli, .. } = *figures;
    let rest = rest(v, left, xi);
    let mut out = [0; 26];
    out[SI] = v[asm1::SI];
    out[XI] = xi;
    out[XC] = min(rest, covered.pool / nxc);
    out[XCH] = fch * (rest - out[XC]) / (fch + fli);
    out[XLI] = rest - out[XC] - out[XCH];
    out[SIN] = covered.ammonia + covered.pool - nxc * out[XC];
    out[SIC] = v[asm1::SALK];
    out
}

/// Return: the drawn digester vector as an ASM1 vector, with the COD stripped as gas.
pub fn give_back(figures: &Figures, v: &Digester) -> Result<(Asm1, u64), Refusal> {
    use digester::*;
    let Figures { ixe, nxc, ni, naa, nbac, .. } = *figures;
    let degraders: u64 = v[DEGRADERS].iter().sum();
    let xnd = nxc * v[XC] + naa * v[XPR] + nbac * degraders + ni * v[XI];
    let snd = naa * v[SAA] + ni * v[SI];
    let [xnd, snd, snh] = take_in_turn([xnd, snd, v[SIN]], ixe * v[XI])?;
    let mut out = [0; 13];
    out[asm1::SI] = v[SI];
    out[asm1::SS] = v[SOLUBLE].iter().sum();
    out[asm1::XI] = v[XI];
    out[asm1::XS] = v[PARTICULATE].iter().sum();
    out[asm1::SO] = v[CO];
    out[asm1::SNO] = v[CN];
    out[asm1::SNH] = snh;
    out[asm1::SND] = snd;
    out[asm1::XND] = xnd;
    out[asm1::SALK] = v[SIC];
    Ok((out, v[SH2] + v[SCH4]))
}

/// Takes the nitrogen of the returned inerts from xnd, then snd, then snh.
fn take_in_turn(mut stores: [u64; 3], mut owed: u64) -> Result<[u64; 3], Refusal> {
    for store in &mut stores {
        let taken = min(*store, owed);
        *store -= taken;
        owed -= taken;
    }
    if owed > 0 {
        return Err(Refusal::ReturnNitrogenShort);
    }
    Ok(stores)
}

/// The feed's conversion of any ASM1 vector by itself, by any figures; tests 15, 3, 4. A
/// column of the digester vector may stand above its ceiling.
pub fn asm_to_adm(figures: &Figures, v: &Asm1) -> Result<(Digester, FeedTold), Refusal> {
    figures.test()?;
    test_columns(v, &ASM1_CEILINGS)?;
    feed(figures, v)
}

/// The return's conversion of any digester vector by itself, by any figures, with the COD
/// stripped; tests 15, 3, 5. A column of the ASM1 vector may stand above its ceiling.
pub fn adm_to_asm(figures: &Figures, v: &Digester) -> Result<(Asm1, u64), Refusal> {
    figures.test()?;
    test_columns(v, &DIGESTER_CEILINGS)?;
    give_back(figures, v)
}
