//! The nine figures that a record is made with: which sets of them are permitted, the house
//! set, and the nitrogen that a vector holds by them.
//!
//! TKN is asked for by permitted figures alone; its sums are whole numbers without a ceiling.

use crate::plant::Refusal;
use crate::tables::*;

/// The nine figures. They stand in this order everywhere.
#[derive(Clone, Copy, Debug, PartialEq, Eq)]
#[repr(C)]
pub struct Figures {
    /// Nitrogen of biomass, in ticks per mg COD.
    pub ixb: u64,
    /// Nitrogen of ASM1 inerts.
    pub ixe: u64,
    /// Nitrogen of composites.
    pub nxc: u64,
    /// Nitrogen of digester inerts.
    pub ni: u64,
    /// Nitrogen of amino acids and protein.
    pub naa: u64,
    /// Nitrogen of degraders.
    pub nbac: u64,
    /// Inerts that stay inert, in ten thousandths.
    pub fxi: u64,
    /// Carbohydrate, a part of fch + fli.
    pub fch: u64,
    /// Lipid, a part of fch + fli.
    pub fli: u64,
}

/// The names of the figures.
pub const FIGURE_NAMES: [&str; 9] = ["ixb", "ixe", "nxc", "ni", "naa", "nbac", "fxi", "fch", "fli"];

/// The greatest number that a figure may be.
pub const GREATEST_FIGURE: u64 = 10_000;

/// The house set of document 01.
pub const HOUSE: Figures = Figures {
    ixb: 880,
    ixe: 880,
    nxc: 280,
    ni: 280,
    naa: 980,
    nbac: 875,
    fxi: 8000,
    fch: 2000,
    fli: 2500,
};

impl Default for Figures {
    /// The house set.
    fn default() -> Figures {
        HOUSE
    }
}

impl Figures {
    /// The figures that these nine numbers are.
    pub const fn from_numbers(numbers: &[u64; 9]) -> Figures {
        let [ixb, ixe, nxc, ni, naa, nbac, fxi, fch, fli] = *numbers;
        Figures { ixb, ixe, nxc, ni, naa, nbac, fxi, fch, fli }
    }

    /// The nine numbers in their order.
    pub const fn numbers(&self) -> [u64; 9] {
        let Figures { ixb, ixe, nxc, ni, naa, nbac, fxi, fch, fli } = *self;
        [ixb, ixe, nxc, ni, naa, nbac, fxi, fch, fli]
    }

    /// Whether a record may be made with these figures.
    pub fn permitted(&self) -> bool {
        let greatest = self.numbers().iter().fold(true, |fits, &n| fits & (n <= GREATEST_FIGURE));
        greatest & (self.nxc > 0) & (self.naa > 0) & ((self.fch > 0) | (self.fli > 0))
    }

    /// Refusal 15 where they are not permitted.
    pub fn test(&self) -> Result<(), Refusal> {
        match self.permitted() {
            true => Ok(()),
            false => Err(Refusal::FiguresOutOfBounds),
        }
    }

    /// TKN of an ASM1 vector, in ticks.
    pub fn tkn_asm1(&self, v: &Asm1) -> u128 {
        use asm1::*;
        sum(&v[SNH..=XND])
            + u128::from(self.ixb) * (u128::from(v[XBH]) + u128::from(v[XBA]))
            + u128::from(self.ixe) * (u128::from(v[XI]) + u128::from(v[XP]))
    }

    /// TKN of a digester vector, in ticks.
    pub fn tkn_digester(&self, v: &Digester) -> u128 {
        u128::from(v[digester::SIN]) + self.tkn_but_sin(v)
    }

    /// TKN of all columns of a digester vector but sin.
    pub fn tkn_but_sin(&self, v: &Digester) -> u128 {
        use digester::*;
        u128::from(self.nxc) * u128::from(v[XC])
            + u128::from(self.ni) * (u128::from(v[SI]) + u128::from(v[XI]))
            + u128::from(self.naa) * (u128::from(v[XPR]) + u128::from(v[SAA]))
            + u128::from(self.nbac) * sum(&v[DEGRADERS])
    }

    /// Nitrogen of one mg COD in a digester column, in ticks.
    pub fn nitrogen_of(&self, column: usize) -> u64 {
        use digester::*;
        match column {
            XC => self.nxc,
            SI | XI => self.ni,
            XPR | SAA => self.naa,
            _ if DEGRADERS.contains(&column) => self.nbac,
            _ => 0,
        }
    }
}

#[cfg(test)]
mod tests {
    use super::*;
    use crate::trials::figures::DAIRY;

    /// TKN of a digester vector is sin and the nitrogen of each COD column.
    #[test]
    fn nitrogen_by_column_adds_up_to_tkn() {
        let v: Digester = std::array::from_fn(|column| (column as u64 + 3) * 1_000_003);
        for figures in [HOUSE, DAIRY] {
            let by_column: u64 =
                (0..22).map(|column| v[column] * figures.nitrogen_of(column)).sum();
            let tkn = u128::from(by_column + v[digester::SIN]);
            assert_eq!(figures.tkn_digester(&v), tkn);
        }
    }

    /// The sums do not wrap on the greatest columns, by the house set and by the greatest figures.
    #[test]
    fn sums_do_not_wrap() {
        let most = u128::from(u64::MAX);
        assert_eq!(HOUSE.tkn_asm1(&[u64::MAX; 13]), 3523 * most);
        let parts = 1 + 280 + 2 * 280 + 2 * 980 + 7 * 875;
        assert_eq!(HOUSE.tkn_digester(&[u64::MAX; 26]), parts * most);
        let greatest = Figures::from_numbers(&[GREATEST_FIGURE; 9]);
        assert_eq!(greatest.tkn_asm1(&[u64::MAX; 13]), 40_003 * most);
        assert_eq!(greatest.tkn_digester(&[u64::MAX; 26]), 120_001 * most);
    }

    /// Nine numbers are figures in the order of the names, and are given back.
    #[test]
    fn numbers_in_their_order() {
        let numbers = [880, 880, 280, 280, 980, 875, 8000, 2000, 2500];
        assert_eq!((Figures::from_numbers(&numbers), HOUSE.numbers()), (HOUSE, numbers));
        assert_eq!(Figures::from_numbers(&DAIRY.numbers()), DAIRY);
        assert_eq!(FIGURE_NAMES.join(" "), "ixb ixe nxc ni naa nbac fxi fch fli");
    }
}
