//! The calls by numbers, as a host in C makes them: arrays of columns are handed in and
//! written to, and the refusal's number comes back, 0 where the call is accepted.
//!
//! Where a call is refused the record is as it was, and everything that is told or
//! handed out is zeros; the proposal of a refused `close` and the loads of a refused `blend`
//! stay as they were, and a making that is refused hands out a fresh record of the house set.

use crate::convert;
use crate::figures::Figures;
use crate::lengths;
use crate::plant::{Plant, Record, Refusal};
use crate::sheets::Sheet;
use crate::tables::{Asm1, Digester};

/// The refusal's number, with what an accepted call tells in `told`, or zeros.
fn tell<const W: usize>(told: &mut [u64; W], result: Result<[u64; W], Refusal>) -> u64 {
    *told = result.unwrap_or([0; W]);
    result.err().map_or(0, |refusal| refusal as u64)
}

/// Makes a call on the record that these columns are, and tells what it tells.
fn on_record<const W: usize>(
    record: &mut Record,
    told: &mut [u64; W],
    call: impl FnOnce(&mut Plant) -> Result<[u64; W], Refusal>,
) -> u64 {
    let mut plant = Plant::from_columns(record);
    let result = call(&mut plant);
    *record = plant.columns();
    tell(told, result)
}

/// Makes a fresh record with these figures, whatever it was; where they are out of bounds, with
/// the house set.
pub fn make(record: &mut Record, figures: &[u64; 9]) -> u64 {
    let made = Plant::make(Figures::from_numbers(figures));
    *record = made.unwrap_or(Plant::FRESH).columns();
    made.err().map_or(0, |refusal| refusal as u64)
}

/// Makes every column zero, and the figures the house set.
pub fn fresh(record: &mut Record) {
    *record = Plant::FRESH.columns();
}

/// Receives a vector.
pub fn receive(record: &mut Record, v: &Asm1) -> u64 {
    on_record(record, &mut [], |plant| plant.receive(v).map(|()| []))
}

/// Receives a sheet; tells the unseen milligrams, ticks and millimoles, and the number of entries
/// that were not sampled.
pub fn sheet(
    record: &mut Record,
    kinds: &[u8; 13],
    values: &[f32; 13],
    told: &mut [u64; 4],
) -> u64 {
    let sheet = Sheet { kinds: *kinds, values: *values };
    on_record(record, told, |plant| plant.sheet(&sheet).map(|unseen| unseen.numbers()))
}

/// Blends hauled loads, each drawn by its own k; what is left of them stands in their place.
pub fn blend(record: &mut Record, loads: &mut [u64], ks: &[u64]) -> u64 {
    on_record(record, &mut [], |plant| plant.blend(loads, ks).map(|()| []))
}

/// Feeds k thousandths; tells burnt, oxygen, nitrate and warn.
pub fn feed(record: &mut Record, k: u64, told: &mut [u64; 4]) -> u64 {
    on_record(record, told, |plant| plant.feed(k).map(|told| told.numbers()))
}

/// Settles a proposal with this gas.
pub fn settle(record: &mut Record, gas: u64, d: &Digester) -> u64 {
    on_record(record, &mut [], |plant| plant.settle(gas, d).map(|()| []))
}

/// Returns k thousandths; tells the COD stripped.
pub fn give_back(record: &mut Record, k: u64, told: &mut [u64; 1]) -> u64 {
    on_record(record, told, |plant| plant.give_back(k).map(|stripped| [stripped]))
}

/// Releases k thousandths; the vector is handed out in v.
pub fn release(record: &mut Record, k: u64, v: &mut Asm1) -> u64 {
    on_record(record, v, |plant| plant.release(k))
}

/// Recycles k thousandths.
pub fn recycle(record: &mut Record, k: u64) -> u64 {
    on_record(record, &mut [], |plant| plant.recycle(k).map(|()| []))
}

/// Draws k thousandths for the reactor's host; the vector is handed out in v.
pub fn draw(record: &mut Record, k: u64, v: &mut Asm1) -> u64 {
    on_record(record, v, |plant| plant.draw(k))
}

/// Accepts a vector and ticks of nitrite from the reactor's host; tells the ticks of N2.
pub fn accept(record: &mut Record, v: &Asm1, nitrite: u64, told: &mut [u64; 1]) -> u64 {
    on_record(record, told, |plant| plant.accept(v, nitrite).map(|n2| [n2]))
}

/// Tells COD, TKN, oxygen and nitrate of the three tanks.
pub fn totals(record: &Record, told: &mut [u64; 4]) -> u64 {
    tell(told, Plant::from_columns(record).held().map(|held| held.numbers()))
}

/// Tells how many bytes the answers to these lines have, the held line among them, and how many
/// lines did not count. It is never refused.
pub fn answer_bytes(record: &Record, lines: &[u8], told: &mut [u64; 2]) {
    *told = lengths::answer_bytes(&Plant::from_columns(record), lines).numbers();
}

/// Converts v to d by itself, by these figures; tells burnt, oxygen, nitrate and warn.
pub fn asm_to_adm(figures: &[u64; 9], v: &Asm1, d: &mut Digester, told: &mut [u64; 4]) -> u64 {
    let result = convert::asm_to_adm(&Figures::from_numbers(figures), v);
    tell(d, result.map(|(converted, _)| converted));
    tell(told, result.map(|(_, told)| told.numbers()))
}

/// Converts d to v by itself, by these figures; tells the COD stripped.
pub fn adm_to_asm(figures: &[u64; 9], d: &Digester, v: &mut Asm1, told: &mut [u64; 1]) -> u64 {
    let result = convert::adm_to_asm(&Figures::from_numbers(figures), d);
    tell(v, result.map(|(converted, _)| converted));
    tell(told, result.map(|(_, stripped)| [stripped]))
}

/// Puts what closes in the place of the proposal d; tells the gas.
pub fn close(record: &Record, d: &mut Digester, told: &mut [u64; 1]) -> u64 {
    let result = Plant::from_columns(record).close(d);
    *d = result.map_or(*d, |(closed, _)| closed);
    tell(told, result.map(|(_, gas)| [gas]))
}

/// Tells how far off the proposal d is: in COD, in TKN, and in the sin that closes.
pub fn gap(record: &Record, d: &Digester, told: &mut [u64; 3]) -> u64 {
    let result = Plant::from_columns(record).gap(d);
    tell(told, result.map(|gap| [gap.cod, gap.tkn, gap.sin]))
}
