//! The records that are called on: any, and those whose nitrate is covered or short.

use crate::{sludge, SCALE, SEED};
use second::convert;
use second::plant::{draw, Plant};
use second::random::Random;
use second::tables::{asm1, Asm1};
use second::trials::amounts;

/// How many records are called on in one pass; together they fit a second-level cache.
pub const RECORDS: usize = 512;

/// Records, with the thousandths to draw of each.
pub struct Set {
    pub name: &'static str,
    pub plants: Vec<Plant>,
    pub thousandths: Vec<u64>,
}

/// A record of a middling works.
fn plant(random: &mut Random) -> Plant {
    let digester = amounts::digester(random, &SCALE);
    let (sludge, reject) = (sludge(random), sludge(random));
    Plant { sludge, digester, reject, figures: SCALE.figures }
}

/// Records with any nitrate, and any thousandths; about one feed in fifty is refused.
pub fn any() -> Set {
    let mut random = Random::new(SEED + 1);
    let mut set = Set { name: "any", plants: Vec::new(), thousandths: Vec::new() };
    for _ in 0..RECORDS {
        set.plants.push(plant(&mut random));
        set.thousandths.push(1 + random.below(1000));
    }
    set
}

/// The nitrate that the COD left by oxygen can reduce.
fn reducible(v: &Asm1) -> u64 {
    let burn = convert::burn(v);
    3500 * (burn.available - burn.oxygen)
}

/// Whether a vector's COD can reduce all its nitrate.
pub fn is_covered(v: &Asm1) -> bool {
    v[asm1::SNO] <= reducible(v)
}

/// Records, all of whose sludge is drawn, with COD for nitrate in each; its nitrate is given by
/// the most that this COD can reduce and a number below that.
fn with_nitrate(name: &'static str, nitrate: impl Fn(u64, u64) -> u64) -> Set {
    let mut random = Random::new(SEED + 2);
    let mut set = Set { name, plants: Vec::new(), thousandths: vec![1000; RECORDS] };
    while set.plants.len() < RECORDS {
        let mut plant = plant(&mut random);
        let most = reducible(&plant.sludge);
        if most > 0 {
            plant.sludge[asm1::SNO] = nitrate(most, random.sized(most - 1));
            set.plants.push(plant);
        }
    }
    set
}

/// Records with nitrate in each, and COD for all of it.
pub fn covered() -> Set {
    with_nitrate("covered", |_, number| 1 + number)
}

/// The same records with more nitrate in each than its COD can reduce.
pub fn short() -> Set {
    with_nitrate("short", |most, number| most + 1 + number)
}

impl Set {
    /// The vectors that a feed draws and converts.
    pub fn drawn(&self) -> Vec<Asm1> {
        let records = self.plants.iter().zip(&self.thousandths);
        records.map(|(plant, &k)| draw(&plant.sludge, k)).collect()
    }
}
