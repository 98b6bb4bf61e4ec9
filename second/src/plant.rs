//! The plant record: sludge, digester and reject tank, and the figures that it was made with;
//! the eight calls on it and their previews, the refusals in their order, and what is held. The
//! two of the side-stream reactor, draw and accept, are made in `reactor`.
//!
//! Any nine numbers may stand in a record. Every call tests them first, goes by them, and
//! leaves them as they are.

use crate::convert::{self, FeedTold};
use crate::figures::{Figures, HOUSE};
use crate::tables::*;

/// Why a call is sent away; the value is its number in document 01, or in E6, E7 and E10 of
/// document 02.
#[derive(Clone, Copy, Debug, PartialEq, Eq)]
#[repr(u8)]
pub enum Refusal {
    RecordAboveCeiling = 1,
    ThousandthsOutOfRange = 2,
    ColumnAboveCeiling = 3,
    FeedNitrogenShort = 4,
    ReturnNitrogenShort = 5,
    // 6 is not used again (E8).
    CodOpen = 7,
    TknDiffers = 8,
    CarriedDiffers = 9,
    DestinationAboveCeiling = 10,
    NoForm = 11,
    BufferShort = 12,
    NoAmount = 13,
    CountAboveCeiling = 14,
    FiguresOutOfBounds = 15,
    NoBlend = 16,
}

/// One of the eight calls, with the numbers and the vector it is handed.
#[derive(Clone, Debug, PartialEq, Eq)]
pub enum Call {
    Receive(Asm1),
    Feed(u64),
    Settle(u64, Digester),
    Return(u64),
    Release(u64),
    Recycle(u64),
    Draw(u64),
    Accept(Asm1, u64),
}

/// What an accepted call tells; a release and a draw hand their vector out.
#[derive(Clone, Debug, PartialEq, Eq)]
pub enum Told {
    Received,
    Fed(FeedTold),
    Settled,
    Returned(u64),
    Released(Asm1),
    Recycled,
    Drawn(Asm1),
    Accepted(u64),
}

/// What the three tanks hold together.
#[derive(Clone, Copy, Debug, PartialEq, Eq)]
pub struct Held {
    pub cod: u128,
    pub tkn: u128,
    pub oxygen: u128,
    pub nitrate: u128,
}

impl Held {
    /// COD, TKN, oxygen and nitrate; within the ceilings each is far below 2^64.
    pub fn numbers(&self) -> [u64; 4] {
        [self.cod, self.tkn, self.oxygen, self.nitrate].map(|sum| sum as u64)
    }
}

/// How many columns the three tanks have.
pub const TANKS: usize = 52;

/// A record by its 61 numbers: the columns of the sludge, the digester and the reject tank, and
/// the nine figures.
pub type Record = [u64; 61];

/// The plant record. Its 61 numbers stand in this order.
#[derive(Clone, Copy, Debug, PartialEq, Eq)]
#[repr(C)]
pub struct Plant {
    pub sludge: Asm1,
    pub digester: Digester,
    pub reject: Asm1,
    pub figures: Figures,
}

/// The k thousandths that are drawn of each column; k is at most 1000 and v within its ceilings.
pub fn draw<const W: usize>(v: &[u64; W], k: u64) -> [u64; W] {
    v.map(|column| column * k / 1000)
}

/// What remains of a vector when the drawn one is taken.
pub fn rest<const W: usize>(v: &[u64; W], drawn: &[u64; W]) -> [u64; W] {
    std::array::from_fn(|column| v[column] - drawn[column])
}

/// Both vectors added, or refusal 10 where a column would pass its ceiling.
pub fn add<const W: usize>(
    tank: &[u64; W],
    v: &[u64; W],
    ceilings: &[u64; W],
) -> Result<[u64; W], Refusal> {
    let sum = std::array::from_fn(|column| tank[column] + v[column]);
    match within(&sum, ceilings) {
        true => Ok(sum),
        false => Err(Refusal::DestinationAboveCeiling),
    }
}

/// Refusal 3 where a column that is handed in stands above its ceiling.
pub fn test_columns<const W: usize>(v: &[u64; W], ceilings: &[u64; W]) -> Result<(), Refusal> {
    match within(v, ceilings) {
        true => Ok(()),
        false => Err(Refusal::ColumnAboveCeiling),
    }
}

/// Refusal 2 where k is not 1 to 1000.
pub fn test_thousandths(k: u64) -> Result<(), Refusal> {
    match (1..=1000).contains(&k) {
        true => Ok(()),
        false => Err(Refusal::ThousandthsOutOfRange),
    }
}

impl Plant {
    /// The fresh record of the house set: every column zero.
    pub const FRESH: Plant = Plant::fresh(HOUSE);

    /// A fresh record in which any figures stand.
    pub const fn fresh(figures: Figures) -> Plant {
        Plant { sludge: [0; 13], digester: [0; 26], reject: [0; 13], figures }
    }

    /// A fresh record that is made with these figures; tests 15.
    pub fn make(figures: Figures) -> Result<Plant, Refusal> {
        figures.test().map(|()| Plant::fresh(figures))
    }

    /// The record whose 61 numbers are these.
    pub fn from_columns(columns: &Record) -> Plant {
        Plant {
            sludge: std::array::from_fn(|column| columns[column]),
            digester: std::array::from_fn(|column| columns[13 + column]),
            reject: std::array::from_fn(|column| columns[39 + column]),
            figures: Figures::from_numbers(&std::array::from_fn(|place| columns[TANKS + place])),
        }
    }

    /// The 61 numbers of the record in their order.
    pub fn columns(&self) -> Record {
        let mut columns = [0; 61];
        columns[..13].copy_from_slice(&self.sludge);
        columns[13..39].copy_from_slice(&self.digester);
        columns[39..TANKS].copy_from_slice(&self.reject);
        columns[TANKS..].copy_from_slice(&self.figures.numbers());
        columns
    }

    /// Refusal 15 where the figures are out of bounds, then 1 where a column of the record
    /// stands above its ceiling.
    pub fn test_record(&self) -> Result<(), Refusal> {
        self.figures.test()?;
        let fits = within(&self.sludge, &ASM1_CEILINGS)
            & within(&self.digester, &DIGESTER_CEILINGS)
            & within(&self.reject, &ASM1_CEILINGS);
        match fits {
            true => Ok(()),
            false => Err(Refusal::RecordAboveCeiling),
        }
    }

    /// Adds an ASM1 vector to the sludge tank; tests 15, 1, 3, 10.
    pub fn receive(&mut self, v: &Asm1) -> Result<(), Refusal> {
        self.test_record()?;
        test_columns(v, &ASM1_CEILINGS)?;
        self.sludge = add(&self.sludge, v, &ASM1_CEILINGS)?;
        Ok(())
    }

    /// Draws from sludge, converts and adds to the digester; tests 15, 1, 2, 4, 10.
    pub fn feed(&mut self, k: u64) -> Result<FeedTold, Refusal> {
        self.test_record()?;
        test_thousandths(k)?;
        let drawn = draw(&self.sludge, k);
        let (converted, told) = convert::feed(&self.figures, &drawn)?;
        self.digester = add(&self.digester, &converted, &DIGESTER_CEILINGS)?;
        self.sludge = rest(&self.sludge, &drawn);
        Ok(told)
    }

    /// Replaces the digester where COD, TKN, co and cn close; tests 15, 1, 3, 7, 8, 9.
    pub fn settle(&mut self, gas: u64, v: &Digester) -> Result<(), Refusal> {
        use digester::{CN, CO};
        self.test_record()?;
        test_columns(v, &DIGESTER_CEILINGS)?;
        if cod_digester(&self.digester) != cod_digester(v) + u128::from(gas) {
            return Err(Refusal::CodOpen);
        }
        if self.figures.tkn_digester(&self.digester) != self.figures.tkn_digester(v) {
            return Err(Refusal::TknDiffers);
        }
        if self.digester[CO] != v[CO] || self.digester[CN] != v[CN] {
            return Err(Refusal::CarriedDiffers);
        }
        self.digester = *v;
        Ok(())
    }

    /// Draws from the digester, converts and adds to reject; tests 15, 1, 2, 5, 10. Tells COD
    /// stripped.
    pub fn give_back(&mut self, k: u64) -> Result<u64, Refusal> {
        self.test_record()?;
        test_thousandths(k)?;
        let drawn = draw(&self.digester, k);
        let (converted, stripped) = convert::give_back(&self.figures, &drawn)?;
        self.reject = add(&self.reject, &converted, &ASM1_CEILINGS)?;
        self.digester = rest(&self.digester, &drawn);
        Ok(stripped)
    }

    /// Draws from reject and hands the vector out; tests 15, 1, 2.
    pub fn release(&mut self, k: u64) -> Result<Asm1, Refusal> {
        self.test_record()?;
        test_thousandths(k)?;
        let drawn = draw(&self.reject, k);
        self.reject = rest(&self.reject, &drawn);
        Ok(drawn)
    }

    /// Draws from reject and adds the draw to the sludge tank; tests 15, 1, 2, 10.
    pub fn recycle(&mut self, k: u64) -> Result<(), Refusal> {
        self.test_record()?;
        test_thousandths(k)?;
        let drawn = draw(&self.reject, k);
        self.sludge = add(&self.sludge, &drawn, &ASM1_CEILINGS)?;
        self.reject = rest(&self.reject, &drawn);
        Ok(())
    }

    /// Makes one call; a refusal leaves the record as it was.
    pub fn call(&mut self, call: &Call) -> Result<Told, Refusal> {
        match call {
            Call::Receive(v) => self.receive(v).map(|()| Told::Received),
            Call::Feed(k) => self.feed(*k).map(Told::Fed),
            Call::Settle(gas, v) => self.settle(*gas, v).map(|()| Told::Settled),
            Call::Return(k) => self.give_back(*k).map(Told::Returned),
            Call::Release(k) => self.release(*k).map(Told::Released),
            Call::Recycle(k) => self.recycle(*k).map(|()| Told::Recycled),
            Call::Draw(k) => self.draw(*k).map(Told::Drawn),
            Call::Accept(v, nitrite) => self.accept(v, *nitrite).map(Told::Accepted),
        }
    }

    /// What a call would give: it is made on a copy of the record.
    pub fn preview(&self, call: &Call) -> Result<Told, Refusal> {
        let mut copy = *self;
        copy.call(call)
    }

    /// COD, TKN, oxygen and nitrate over all three tanks; tests 15, 1.
    pub fn held(&self) -> Result<Held, Refusal> {
        self.test_record()?;
        let Plant { sludge, digester, reject, figures } = self;
        let carried = |asm1: usize, carried: usize| {
            u128::from(sludge[asm1]) + u128::from(digester[carried]) + u128::from(reject[asm1])
        };
        Ok(Held {
            cod: cod_asm1(sludge) + cod_digester(digester) + cod_asm1(reject),
            tkn: figures.tkn_asm1(sludge)
                + figures.tkn_digester(digester)
                + figures.tkn_asm1(reject),
            oxygen: carried(asm1::SO, digester::CO),
            nitrate: carried(asm1::SNO, digester::CN),
        })
    }
}
