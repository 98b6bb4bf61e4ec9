//! Vectors and records at the points where the rules branch by their figures: each stage of
//! the feed, the shortages of nitrogen, and the ceilings of the tanks that are added to.

use super::amounts::{self, Scale};
use super::thousandths;
use crate::convert::{self, Before, Inerts};
use crate::figures::Figures;
use crate::plant::{draw, Plant};
use crate::random::Random;
use crate::tables::*;

/// Adds to a column of a received vector what brings the sum to a target; none where it is past it.
pub fn bring(v: &mut Asm1, sum: &Asm1, column: usize, target: u64) {
    v[column] += target.saturating_sub(sum[column]);
}

/// This number, one less or one more.
pub fn nudged(random: &mut Random, number: u64) -> u64 {
    (number + random.below(3)).saturating_sub(1)
}

/// A vector to receive into this sludge so that a feed of all of it meets an edge.
pub fn receive_to_edge(random: &mut Random, scale: &Scale, sludge: &Asm1) -> Asm1 {
    let mut v = amounts::asm1(random, scale);
    if within(&v, &ASM1_CEILINGS) && within(sludge, &ASM1_CEILINGS) {
        for _ in 0..random.one_of(&[1, 1, 2, 3]) {
            let sum = std::array::from_fn(|column| sludge[column] + v[column]);
            one_edge(random, &scale.figures, &mut v, &sum);
        }
    }
    v
}

/// Moves one column of the received vector so that the sum stands at an edge.
fn one_edge(random: &mut Random, figures: &Figures, v: &mut Asm1, sum: &Asm1) {
    let Before { burn, left, inerts, .. } = convert::before_covering(figures, sum);
    let (column, target) = match random.below(7) {
        0 => (asm1::SO, nudged(random, burn.available)),
        1 => nitrate_edge(random, burn.available - burn.oxygen),
        2 => (asm1::SS, nudged(random, burn.burnt)),
        3 => (asm1::SND, nudged(random, figures.naa * left[0])),
        4 => inert_edge(random, figures.ni, v, sum, &inerts),
        5 => composite_edge(random, figures.nxc, sum, &left, &inerts),
        _ => {
            let column = random.index(13);
            (column, nudged(random, ASM1_CEILINGS[column]))
        }
    };
    bring(v, sum, column, target);
}

/// Nitrate that the COD left by oxygen just reduces.
fn nitrate_edge(random: &mut Random, cod: u64) -> (usize, u64) {
    (asm1::SNO, nudged(random, 3500 * cod))
}

/// Ammonia that just covers the inerts' need, or particulate nitrogen that just covers it alone.
fn inert_edge(
    random: &mut Random,
    ni: u64,
    v: &mut Asm1,
    sum: &Asm1,
    inerts: &Inerts,
) -> (usize, u64) {
    let more = random.sized(sum[asm1::SI] + 20);
    v[asm1::SI] += more;
    let missing = (inerts.need + ni * more).saturating_sub(inerts.pool);
    match random.percent(60) {
        true => (asm1::SNH, nudged(random, missing)),
        false => (asm1::XND, nudged(random, sum[asm1::XND] + missing)),
    }
}

/// Particulate nitrogen that just lets all the rest become composites.
fn composite_edge(
    random: &mut Random,
    nxc: u64,
    sum: &Asm1,
    left: &[u64; 4],
    inerts: &Inerts,
) -> (usize, u64) {
    let rest = convert::rest(sum, left, inerts.xi);
    let missing = (inerts.need + nxc * rest).saturating_sub(inerts.pool);
    (asm1::XND, nudged(random, sum[asm1::XND] + missing))
}

/// Ammonia that brings the digester's TKN this far from a multiple of ixe, once it is fed; of 1
/// where ixe is 0.
pub fn ammonia_to_multiple(figures: &Figures, digester: &Digester, off: i64) -> Asm1 {
    let ixe = figures.ixe.max(1);
    let over = (figures.tkn_digester(digester) % u128::from(ixe)) as i64;
    let mut v = [0; 13];
    v[asm1::SNH] = (2 * ixe as i64 - over + off) as u64;
    v
}

/// Thousandths that may be drawn, half the time all of them.
pub fn drawable(random: &mut Random) -> u64 {
    match random.percent(50) {
        true => 1000,
        false => thousandths(random).clamp(1, 1000),
    }
}

/// A vector to receive so that a recycle of k then just fits a sludge column or passes its
/// ceiling by one; the record is within its ceilings.
pub fn receive_before_recycle(random: &mut Random, plant: &Plant, k: u64) -> Asm1 {
    let drawn = draw(&plant.reject, k);
    let moved: Vec<usize> = (0..13).filter(|&column| drawn[column] > 0).collect();
    let column = if moved.is_empty() { random.index(13) } else { random.one_of(&moved) };
    let sum = plant.sludge[column] + drawn[column];
    let mut v = [0; 13];
    v[column] = (ASM1_CEILINGS[column] + random.below(2)).saturating_sub(sum);
    v
}

/// Fills a sludge column so that a recycle of k just fits or passes the ceiling by one; now and
/// then every column of sludge and reject is full.
pub fn full_sludge(random: &mut Random, plant: &mut Plant, k: u64) {
    if random.percent(10) {
        (plant.sludge, plant.reject) = (ASM1_CEILINGS, ASM1_CEILINGS);
    }
    let v = receive_before_recycle(random, plant, k);
    let sum = std::array::from_fn(|column| plant.sludge[column] + v[column]);
    plant.sludge = amounts::lowered(&sum, &ASM1_CEILINGS);
}

/// A record on which a feed, a return or a receive stands at an edge.
pub fn record_at_edge(random: &mut Random, scale: &Scale) -> Plant {
    let mut plant = amounts::record_within(random, scale);
    match random.below(4) {
        0 => full_digester(random, &mut plant),
        1 => full_reject(random, &mut plant),
        2 => short_return(random, &scale.figures, &mut plant.digester),
        _ => {
            let v = receive_to_edge(random, scale, &[0; 13]);
            plant.sludge = amounts::lowered(&v, &ASM1_CEILINGS);
        }
    }
    plant
}

/// Fills a digester column so that a feed just fits or passes the ceiling by one.
fn full_digester(random: &mut Random, plant: &mut Plant) {
    let k = if random.percent(50) { 1000 } else { thousandths(random).min(1000) };
    if let Ok((converted, _)) = convert::feed(&plant.figures, &draw(&plant.sludge, k)) {
        let column = random.index(26);
        let room = DIGESTER_CEILINGS[column].saturating_sub(converted[column]);
        plant.digester[column] = (room + random.below(2)).min(DIGESTER_CEILINGS[column]);
    }
}

/// Fills a reject column so that a return just fits or passes the ceiling by one.
fn full_reject(random: &mut Random, plant: &mut Plant) {
    let k = if random.percent(50) { 1000 } else { thousandths(random).min(1000) };
    if let Ok((converted, _)) = convert::give_back(&plant.figures, &draw(&plant.digester, k)) {
        let column = random.index(13);
        let room = ASM1_CEILINGS[column].saturating_sub(converted[column]);
        plant.reject[column] = (room + random.below(2)).min(ASM1_CEILINGS[column]);
    }
}

/// Gives a digester just the nitrogen that its inerts return with, or one tick less or more.
pub fn short_return(random: &mut Random, figures: &Figures, v: &mut Digester) {
    v[digester::XI] = 1 + random.sized(v[digester::XI].max(20)).min(COD_CEILING - 1);
    v[digester::SIN] = 0;
    let without = figures.tkn_digester(v) as u64;
    let missing = (figures.ixe * v[digester::XI]).saturating_sub(without);
    v[digester::SIN] = nudged(random, missing).min(TICK_CEILING);
}
