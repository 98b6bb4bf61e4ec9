//! Proposals, made from the digester's own contents. To settle: those that close, the
//! same with one number off, and those that put as much COD as they can into inerts.
//! To be closed: those that a gas and a sin close, and those that just none does. Their
//! nitrogen goes by figures that are permitted.

use super::amounts;
use crate::figures::Figures;
use crate::plant::Call;
use crate::random::Random;
use crate::tables::*;
use std::cmp::min;

/// The COD columns without nitrogen.
const FREE: [usize; 10] = [
    digester::SSU,
    digester::SFA,
    digester::SVA,
    digester::SBU,
    digester::SPRO,
    digester::SAC,
    digester::SH2,
    digester::SCH4,
    digester::XCH,
    digester::XLI,
];

/// The COD columns with nitrogen.
fn bound(figures: &Figures) -> Vec<usize> {
    digester::COD.filter(|&column| figures.nitrogen_of(column) > 0).collect()
}

/// A settle: most often one that closes, else one that just does not, seldom any.
pub fn settle(random: &mut Random, figures: &Figures, old: &Digester) -> Call {
    let (mut gas, mut v) = closing(random, figures, old);
    match random.below(20) {
        0..=10 => {}
        11..=18 => spoil(random, &mut gas, &mut v),
        _ => {
            v = any(random, figures);
            gas = random.sized(u64::MAX);
        }
    }
    Call::Settle(gas, v)
}

/// A proposal that closes over this digester, with its gas.
pub fn closing(random: &mut Random, figures: &Figures, old: &Digester) -> (u64, Digester) {
    let mut kept = *old;
    kept[digester::SIC] = random.sized(COD_CEILING);
    let (cod, tkn) = (cod_digester(old), figures.tkn_digester(old));
    if cod > 22 * u128::from(COD_CEILING) || tkn > u128::from(u64::MAX) || random.percent(10) {
        return (0, kept);
    }
    let gas = match random.below(4) {
        0 => part(random, cod as u64),
        _ => 0,
    };
    let mut v = [0; 26];
    for column in [digester::SIC, digester::CO, digester::CN] {
        v[column] = kept[column];
    }
    match share_out(random, figures, &mut v, [cod as u64 - gas, tkn as u64]) {
        true => (gas, v),
        false => (0, kept),
    }
}

/// A part of an amount: any, none or all of it.
fn part(random: &mut Random, amount: u64) -> u64 {
    match random.below(4) {
        0 => amount,
        1 => random.sized(amount),
        _ => random.below(amount + 1),
    }
}

/// Shares COD and TKN out over a proposal's columns; false where a ceiling is in the way.
fn share_out(
    random: &mut Random,
    figures: &Figures,
    v: &mut Digester,
    [mut cod, mut tkn]: [u64; 2],
) -> bool {
    let mut bound = bound(figures);
    random.shuffle(&mut bound);
    let chance = random.one_of(&[0, 20, 60, 100]);
    for column in bound {
        if !random.percent(chance) {
            continue;
        }
        let nitrogen = figures.nitrogen_of(column);
        let most = min(min(cod, tkn / nitrogen), COD_CEILING);
        v[column] = part(random, most);
        cod -= v[column];
        tkn -= nitrogen * v[column];
    }
    let mut free = FREE;
    random.shuffle(&mut free);
    for column in free {
        v[column] = part(random, min(cod, COD_CEILING));
        cod -= v[column];
    }
    v[digester::SIN] = tkn;
    fill(v, &free, cod) == 0 && tkn <= TICK_CEILING
}

/// Adds COD to these columns up to their ceilings, one after another; gives what is left over.
fn fill(v: &mut Digester, columns: &[usize], mut cod: u64) -> u64 {
    for &column in columns {
        let more = min(cod, COD_CEILING.saturating_sub(v[column]));
        v[column] += more;
        cod -= more;
    }
    cod
}

/// Puts one or more numbers of a proposal off.
fn spoil(random: &mut Random, gas: &mut u64, v: &mut Digester) {
    for _ in 0..random.one_of(&[1, 1, 1, 2, 3]) {
        let step = random.one_of(&[1, u64::MAX]);
        let free = random.one_of(&FREE);
        match random.below(9) {
            0 => v[free] = v[free].wrapping_add(step),
            1 => *gas = gas.wrapping_add(step),
            2 => v[digester::SIN] = v[digester::SIN].wrapping_add(step),
            3 => v[digester::CO] = v[digester::CO].wrapping_add(step),
            4 => v[digester::CN] = v[digester::CN].wrapping_add(step),
            5 => move_one(random, v),
            6 => amounts::put_above(random, v, &DIGESTER_CEILINGS),
            7 => wrapped_gas(random, gas, v),
            _ => *gas = u64::MAX - random.below(2),
        }
    }
}

/// Moves one mg COD between two columns, so that COD closes and TKN may not.
fn move_one(random: &mut Random, v: &mut Digester) {
    let (from, to) = (random.index(22), random.index(22));
    if v[from] > 0 {
        v[from] -= 1;
        v[to] = v[to].wrapping_add(1);
    }
}

/// Adds COD and takes it from the gas, below zero, so that only a sum that wraps would close.
fn wrapped_gas(random: &mut Random, gas: &mut u64, v: &mut Digester) {
    let column = random.one_of(&FREE);
    let more = 1 + random.sized(COD_CEILING.saturating_sub(v[column]));
    v[column] = v[column].wrapping_add(more);
    *gas = gas.wrapping_sub(more);
}

/// A proposal that closes and holds as much xi as its TKN can return, and this many more.
pub fn inert_heavy(figures: &Figures, old: &Digester, more: i64) -> Digester {
    let (cod, tkn) = (cod_digester(old) as u64, figures.tkn_digester(old) as u64);
    // A figure of 0 sets no limit.
    let most = |figure: u64| tkn.checked_div(figure).unwrap_or(u64::MAX);
    let inert = most(figures.ixe).saturating_add_signed(more);
    let mut v = [0; 26];
    v[digester::XI] = min(min(inert, most(figures.ni)), min(cod, COD_CEILING));
    v[digester::SIN] = tkn - figures.ni * v[digester::XI];
    v[digester::XLI] = cod - v[digester::XI];
    v[digester::CO] = old[digester::CO];
    v[digester::CN] = old[digester::CN];
    v
}

/// A proposal for this digester to be closed: as it is, any, or one that closes, brought to an
/// edge or two. The digester's own sin is changed where that brings the proposal to an edge.
pub fn to_close(random: &mut Random, figures: &Figures, old: &mut Digester) -> Digester {
    let mut v = match random.below(10) {
        0 => *old,
        1 => any(random, figures),
        _ => closing(random, figures, old).1,
    };
    for _ in 0..random.one_of(&[0, 1, 1, 1, 2, 3]) {
        match random.below(8) {
            0 => cod_edge(random, old, &mut v),
            1 | 2 => {
                move_all(random, &mut v, &FREE, &bound(figures));
                nitrogen_edge(random, figures, old, &v, 0);
            }
            3 => {
                move_all(random, &mut v, &bound(figures), &FREE);
                nitrogen_edge(random, figures, old, &v, TICK_CEILING);
            }
            4 => put_replaced(random, figures, &mut v),
            5 => amounts::put_above(random, &mut v, &DIGESTER_CEILINGS),
            6 => move_one(random, &mut v),
            _ => one_off(random, &mut v),
        }
    }
    v
}

/// A digester vector of any scale.
fn any(random: &mut Random, figures: &Figures) -> Digester {
    let scale = amounts::Scale::any(random, *figures);
    amounts::digester(random, &scale)
}

/// Fills the columns without nitrogen so that a proposal has this digester's COD, or a mg more
/// or less.
fn cod_edge(random: &mut Random, old: &Digester, v: &mut Digester) {
    let mut free = FREE;
    random.shuffle(&mut free);
    free.iter().for_each(|&column| v[column] = 0);
    let wanted = (cod_digester(old) + u128::from(random.below(3))).saturating_sub(1);
    let missing = wanted.saturating_sub(cod_digester(v));
    fill(v, &free, missing as u64);
}

/// Moves all COD of one or more of these columns to those, where a ceiling allows.
fn move_all(random: &mut Random, v: &mut Digester, from: &[usize], to: &[usize]) {
    for _ in 0..random.one_of(&[1, 4, 20]) {
        let (from, to) = (random.one_of(from), random.one_of(to));
        v[from] = fill(v, &[to], v[from]);
    }
}

/// Changes the digester's sin so that the proposal closes with this sin, or a tick more or less;
/// not where its own sin would be below zero or above its ceiling.
fn nitrogen_edge(
    random: &mut Random,
    figures: &Figures,
    old: &mut Digester,
    v: &Digester,
    closes: u64,
) {
    let off = i128::from(random.below(3)) - 1;
    let bound = |v: &Digester| figures.tkn_but_sin(v) as i128;
    let wanted = bound(v) + i128::from(closes) + off - bound(old);
    if (0..=i128::from(TICK_CEILING)).contains(&wanted) {
        old[digester::SIN] = wanted as u64;
    }
}

/// Puts anything into the columns that closing replaces.
fn put_replaced(random: &mut Random, figures: &Figures, v: &mut Digester) {
    let other = any(random, figures);
    for column in [digester::SIN, digester::CO, digester::CN] {
        v[column] = other[column];
    }
}

/// Puts one column off by one.
fn one_off(random: &mut Random, v: &mut Digester) {
    let column = random.index(26);
    v[column] = v[column].wrapping_add(random.one_of(&[1, u64::MAX]));
}
