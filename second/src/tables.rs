//! The columns of both vectors with their names, positions and ceilings, and the
//! composite measure COD.

/// An ASM1 vector: thirteen columns in the order of `ASM1_NAMES`.
pub type Asm1 = [u64; 13];

/// A digester vector: 26 columns in the order of `DIGESTER_NAMES`.
pub type Digester = [u64; 26];

/// The greatest count of COD, oxygen or millimoles in one column.
pub const COD_CEILING: u64 = 1_000_000_000_000;

/// The greatest count of nitrogen or nitrate ticks in one column.
pub const TICK_CEILING: u64 = 10_000_000_000_000_000;

/// The names of the ASM1 columns.
pub const ASM1_NAMES: [&str; 13] =
    ["si", "ss", "xi", "xs", "xbh", "xba", "xp", "so", "sno", "snh", "snd", "xnd", "salk"];

/// The names of the digester columns.
pub const DIGESTER_NAMES: [&str; 26] = [
    "si", "ssu", "saa", "sfa", "sva", "sbu", "spro", "sac", "sh2", "sch4", "xi", "xc", "xch",
    "xpr", "xli", "xsu", "xaa", "xfa", "xc4", "xpro", "xac", "xh2", "sin", "sic", "co", "cn",
];

/// Where each ASM1 column stands.
pub mod asm1 {
    pub const SI: usize = 0;
    pub const SS: usize = 1;
    pub const XI: usize = 2;
    pub const XS: usize = 3;
    pub const XBH: usize = 4;
    pub const XBA: usize = 5;
    pub const XP: usize = 6;
    pub const SO: usize = 7;
    pub const SNO: usize = 8;
    pub const SNH: usize = 9;
    pub const SND: usize = 10;
    pub const XND: usize = 11;
    pub const SALK: usize = 12;
}

/// Where each digester column stands, and the groups that are summed.
pub mod digester {
    use std::ops::Range;

    pub const SI: usize = 0;
    pub const SSU: usize = 1;
    pub const SAA: usize = 2;
    pub const SFA: usize = 3;
    pub const SVA: usize = 4;
    pub const SBU: usize = 5;
    pub const SPRO: usize = 6;
    pub const SAC: usize = 7;
    pub const SH2: usize = 8;
    pub const SCH4: usize = 9;
    pub const XI: usize = 10;
    pub const XC: usize = 11;
    pub const XCH: usize = 12;
    pub const XPR: usize = 13;
    pub const XLI: usize = 14;
    pub const SIN: usize = 22;
    pub const SIC: usize = 23;
    pub const CO: usize = 24;
    pub const CN: usize = 25;

    /// The COD columns, si to xh2.
    pub const COD: Range<usize> = 0..22;
    /// The seven soluble columns ssu to sac.
    pub const SOLUBLE: Range<usize> = 1..8;
    /// The eleven particulate columns except xi: xc to xh2.
    pub const PARTICULATE: Range<usize> = 11..22;
    /// The seven degraders, xsu to xh2.
    pub const DEGRADERS: Range<usize> = 15..22;
}

/// The ceiling of each ASM1 column.
pub const ASM1_CEILINGS: Asm1 = {
    let mut ceilings = [COD_CEILING; 13];
    ceilings[asm1::SNO] = TICK_CEILING;
    ceilings[asm1::SNH] = TICK_CEILING;
    ceilings[asm1::SND] = TICK_CEILING;
    ceilings[asm1::XND] = TICK_CEILING;
    ceilings
};

/// The ceiling of each digester column.
pub const DIGESTER_CEILINGS: Digester = {
    let mut ceilings = [COD_CEILING; 26];
    ceilings[digester::SIN] = TICK_CEILING;
    ceilings[digester::CN] = TICK_CEILING;
    ceilings
};

/// Whether every column stands at or below its ceiling.
pub fn within<const W: usize>(v: &[u64; W], ceilings: &[u64; W]) -> bool {
    v.iter().zip(ceilings).fold(true, |fits, (column, ceiling)| fits & (column <= ceiling))
}

/// Adds columns up as whole numbers without a ceiling.
pub fn sum(columns: &[u64]) -> u128 {
    columns.iter().map(|&column| u128::from(column)).sum()
}

/// COD of an ASM1 vector: its seven first columns.
pub fn cod_asm1(v: &Asm1) -> u128 {
    sum(&v[asm1::SI..=asm1::XP])
}

/// COD of a digester vector: its 22 first columns.
pub fn cod_digester(v: &Digester) -> u128 {
    sum(&v[digester::COD])
}

/// The column of an ASM1 vector that has this name.
pub fn asm1_column(name: &[u8]) -> Option<usize> {
    Some(match name {
        b"si" => 0,
        b"ss" => 1,
        b"xi" => 2,
        b"xs" => 3,
        b"xbh" => 4,
        b"xba" => 5,
        b"xp" => 6,
        b"so" => 7,
        b"sno" => 8,
        b"snh" => 9,
        b"snd" => 10,
        b"xnd" => 11,
        b"salk" => 12,
        _ => return None,
    })
}

/// The column of a digester vector that has this name.
pub fn digester_column(name: &[u8]) -> Option<usize> {
    Some(match name {
        b"si" => 0,
        b"ssu" => 1,
        b"saa" => 2,
        b"sfa" => 3,
        b"sva" => 4,
        b"sbu" => 5,
        b"spro" => 6,
        b"sac" => 7,
        b"sh2" => 8,
        b"sch4" => 9,
        b"xi" => 10,
        b"xc" => 11,
        b"xch" => 12,
        b"xpr" => 13,
        b"xli" => 14,
        b"xsu" => 15,
        b"xaa" => 16,
        b"xfa" => 17,
        b"xc4" => 18,
        b"xpro" => 19,
        b"xac" => 20,
        b"xh2" => 21,
        b"sin" => 22,
        b"sic" => 23,
        b"co" => 24,
        b"cn" => 25,
        _ => return None,
    })
}

#[cfg(test)]
mod tests {
    use super::*;

    /// Every name finds its own column, and neither list knows the other's own names.
    #[test]
    fn names_find_their_columns() {
        for (column, name) in ASM1_NAMES.iter().enumerate() {
            assert_eq!(asm1_column(name.as_bytes()), Some(column));
            let shared = matches!(*name, "si" | "xi");
            assert_eq!(digester_column(name.as_bytes()).is_some(), shared);
        }
        for (column, name) in DIGESTER_NAMES.iter().enumerate() {
            assert_eq!(digester_column(name.as_bytes()), Some(column));
            let shared = matches!(*name, "si" | "xi");
            assert_eq!(asm1_column(name.as_bytes()).is_some(), shared);
        }
        for name in ["", "s", "x", "SI", "sii", "salks", "xprop"] {
            assert_eq!(asm1_column(name.as_bytes()), None);
            assert_eq!(digester_column(name.as_bytes()), None);
        }
    }

    /// The sums do not wrap on the greatest columns.
    #[test]
    fn sums_do_not_wrap() {
        assert_eq!(cod_asm1(&[u64::MAX; 13]), 7 * u128::from(u64::MAX));
        assert_eq!(cod_digester(&[u64::MAX; 26]), 22 * u128::from(u64::MAX));
    }
}
